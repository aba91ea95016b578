/* Services and start-ups by turns, and looks: the first frames with bytes written out by hand from
 * IEC 61158-4-12 and IEC 61158-6-12, answers built by hand, what is refused, and whole ones over a line of
 * two slaves (pair.h) that loses copies and whose cable is broken; at last structs, records, objects and
 * packets that are damaged, each array ending where no memory is mapped.
 *
 *     talks [DAMAGED]
 *
 * DAMAGED is how many damaged structs are tried, 100,000 without it. The status is 1 where something is not
 * as it should be. */
#define _GNU_SOURCE
#include "pair.h"
#include <stdio.h>
#include <stdlib.h>
#include <sys/mman.h>

static int failed;

#define CHECK(test)                                                                                          \
    do {                                                                                                     \
        if (!(test)) {                                                                                       \
            printf("FAILED at line %d: %s\n", __LINE__, #test);                                              \
            failed = 1;                                                                                      \
        }                                                                                                    \
    } while (0)

static struct pair pair;
static struct rmp_records line[PAIR], too_many[RMP_MAX_SLAVES + 1];
static struct rmp_startup startup[PAIR];
static uint8_t room[RMP_FRAME_SIZE];

/* Records by hand: mailboxes of 32 bytes at 0x1000 and 0x1080; outputs at 0x1100 and inputs at 0x1180, of a
 * byte each, mapped to 0x00010000 and on; the first slave is to have two objects written. */
static void describe(void) {
    const uint8_t managers[4][8] = {{0x00, 0x10, 32, 0, 0x26, 0, 1, 0},
                                    {0x80, 0x10, 32, 0, 0x22, 0, 1, 0},
                                    {0x00, 0x11, 1, 0, 0x24, 0, 1, 0},
                                    {0x80, 0x11, 1, 0, 0x20, 0, 1, 0}};
    const uint8_t fmmus[2][16] = {{0, 0, 1, 0, 1, 0, 0, 7, 0x00, 0x11, 0, 2, 1, 0, 0, 0},
                                  {0, 0, 1, 0, 1, 0, 0, 7, 0x80, 0x11, 0, 1, 1, 0, 0, 0}};
    memset(line, 0, sizeof line);
    memset(startup, 0, sizeof startup);
    for (int k = 0; k < PAIR; k++) {
        line[k].station = (uint16_t)(0x1001 + k);
        memcpy(line[k].sync_managers, managers, sizeof managers);
        memcpy(line[k].fmmus, fmmus, sizeof fmmus);
        line[k].fmmus[0][0] = line[k].fmmus[1][0] = (uint8_t)k;
    }
    startup[0].objects[0].index = startup[0].objects[3].index = WRITTEN_OBJECT;
    startup[0].objects[0].sub = startup[0].objects[3].sub = 1;
    startup[0].objects[0].size = startup[0].objects[3].size = 2;
    startup[0].objects[0].value = 0x1111;
    startup[0].objects[3].value = 0xABCD;
}

/* ---- the first frames */

/* A service's next frame is of this datagram: its command, addresses and data, all of which were sent. */
static void puts_frame(const struct rmp_written *made, unsigned command, unsigned adp, unsigned ado,
                       const uint8_t *data, size_t length) {
    uint8_t wanted[RMP_FRAME_SIZE] = {0};
    wanted[0] = (uint8_t)((12 + length) & 0xFF);
    wanted[1] = (uint8_t)(0x10 | (12 + length) >> 8);
    wanted[2] = (uint8_t)command;
    wanted[4] = (uint8_t)(adp & 0xFF);
    wanted[5] = (uint8_t)(adp >> 8);
    wanted[6] = (uint8_t)(ado & 0xFF);
    wanted[7] = (uint8_t)(ado >> 8);
    wanted[8] = (uint8_t)(length & 0xFF);
    wanted[9] = (uint8_t)(length >> 8);
    memcpy(wanted + 12, data, length);
    CHECK(made->code == RMP_GOOD && made->bytes == 14 + length && made->at == 0);
    CHECK(memcmp(room, wanted, 14 + length) == 0);
}

static void service_puts(const struct rmp_service *service, unsigned command, unsigned ado,
                         const uint8_t *data, size_t length) {
    struct rmp_written made;
    memset(room, 0x5A, sizeof room);
    made = rmp_service_next(service, room, sizeof room);
    puts_frame(&made, command, 0x1001, ado, data, length);
    CHECK(room[14 + length] == 0x5A);
    made = rmp_service_next(service, room, 14 + length); /* the same again, in a room that just holds it */
    puts_frame(&made, command, 0x1001, ado, data, length);
    memset(room, 0x5A, sizeof room);
    made = rmp_service_next(service, room, 13 + length);
    CHECK(made.code == RMP_NO_ROOM && made.bytes == 0 && room[0] == 0x5A && room[13 + length] == 0x5A);
    rmp_service_next(service, room, sizeof room);
}

/* The frame in the room comes back of port A with these data and this counter. */
static struct rmp_served service_comes(struct rmp_service *service, const uint8_t *data, size_t length,
                                       unsigned counter) {
    uint8_t copy[RMP_FRAME_SIZE];
    memcpy(copy, room, 14 + length);
    memcpy(copy + 12, data, length);
    copy[12 + length] = (uint8_t)counter;
    return rmp_service_came(service, copy, 14 + length, NULL, 0);
}

static const uint8_t zeros[32];

/* Op is asked for: AL control is written, and AL status is read until it is there. */
static void a_state(void) {
    const uint8_t to_op[2] = {0x18, 0}, in_safe_op[6] = {4, 0, 0, 0, 0, 0}, in_op[6] = {8, 0, 0, 0, 0, 0};
    const uint8_t refused[6] = {0x14, 0, 0, 0, 0x1D, 0};
    struct rmp_service service = rmp_state_begin(RMP_UDP, &line[0], RMP_OP, 3), before;
    struct rmp_served served;
    CHECK(service.mail.station == 0x1001 && service.al_state == RMP_OP && service.trips == 3);
    CHECK(service.form == RMP_UDP && service.state == RMP_UNDER_WAY && service.unanswered == 0);
    service_puts(&service, 5, 0x0120, to_op, 2);
    served = service_comes(&service, to_op, 2, 1);
    CHECK(served.code == RMP_GOES_ON && served.copy_a == RMP_CAME && served.copy_b == RMP_LOST);
    CHECK(served.number == 0 && served.size == 0 && service.trips == 2);
    service_puts(&service, 4, 0x0130, zeros, 6);
    CHECK(service_comes(&service, in_safe_op, 6, 1).code == RMP_GOES_ON);
    before = service;
    service_puts(&service, 4, 0x0130, zeros, 6);
    served = service_comes(&service, in_op, 6, 1);
    CHECK(served.code == RMP_GOOD && served.number == RMP_OP && served.size == 0);
    CHECK(service.state == RMP_DONE && service.trips == before.trips);
    CHECK(rmp_service_next(&service, room, sizeof room).code == RMP_NOT_UNDER_WAY);
    CHECK(service_comes(&service, in_op, 6, 1).code == RMP_NOT_UNDER_WAY);
    service = before;
    rmp_service_next(&service, room, sizeof room);
    served = service_comes(&service, refused, 6, 1);
    CHECK(served.code == RMP_REFUSED && served.number == 0x1D && service.state == RMP_ENDED);
    service = before;
    CHECK(service_comes(&service, in_op, 6, 2).code == RMP_BAD_ANSWER && service.state == RMP_ENDED);
}

/* An error is acknowledged: AL status, AL control with the state that it is in, AL status. */
static void an_acknowledgement(void) {
    const uint8_t in_error[6] = {0x12, 0, 0, 0, 0x1D, 0}, to_pre_op[2] = {0x12, 0}, in_pre_op[6] = {2};
    struct rmp_service service = rmp_acknowledge_begin(RMP_ETHERNET, &line[0], 64);
    struct rmp_served served;
    service_puts(&service, 4, 0x0130, zeros, 6);
    CHECK(service_comes(&service, in_error, 6, 1).code == RMP_GOES_ON);
    service_puts(&service, 5, 0x0120, to_pre_op, 2);
    CHECK(service_comes(&service, to_pre_op, 2, 1).code == RMP_GOES_ON);
    service_puts(&service, 4, 0x0130, zeros, 6);
    CHECK(service_comes(&service, in_error, 6, 1).code == RMP_GOES_ON);
    service_puts(&service, 4, 0x0130, zeros, 6);
    served = service_comes(&service, in_pre_op, 6, 1);
    CHECK(served.code == RMP_GOOD && served.number == RMP_PRE_OP && served.size == 0);
}

/* The records of two mailboxes as they are read from 0x0800 on: of requests, and of answers. */
static const uint8_t *mailboxes(int request_waits, int answer_waits) {
    static uint8_t records[16];
    memcpy(records, line[0].sync_managers, sizeof records);
    records[5] = request_waits ? FULL : 0;
    records[13] = answer_waits ? FULL : 0;
    return records;
}

/* A mail of an SDO in a mailbox of 32 bytes: `service` 2 is a request and 3 a response. */
static const uint8_t *mail(unsigned counter, unsigned service, const uint8_t sdo[8]) {
    static uint8_t bytes[32];
    memset(bytes, 0, sizeof bytes);
    bytes[0] = 10;
    bytes[5] = (uint8_t)(3 | counter << 4);
    bytes[7] = (uint8_t)(service << 4);
    memcpy(bytes + 8, sdo, 8);
    return bytes;
}

/* Object 0x1018:1 is read, by the fifth service with that slave: the records of the mailboxes, the request,
 * the records, the answer. */
static void a_reading(void) {
    const uint8_t upload[8] = {0x40, 0x18, 0x10, 1, 0, 0, 0, 0};
    const uint8_t told[8] = {0x43, 0x18, 0x10, 1, 0x78, 0x56, 0x34, 0x12};
    const uint8_t aborts[8] = {0x80, 0x18, 0x10, 1, 0x00, 0x00, 0x02, 0x06};
    struct rmp_service service = rmp_read_begin(RMP_UDP, &line[0], 0x1018, 1, 4, 64), before;
    struct rmp_served served;
    CHECK(service.index == 0x1018 && service.sub == 1 && service.mail.counter == 5);
    CHECK(service.mail.request_start == 0x1000 && service.mail.request_length == 32);
    CHECK(service.mail.answer_start == 0x1080 && service.mail.answer_length == 32);
    service_puts(&service, 4, 0x0800, zeros, 16);
    CHECK(service_comes(&service, mailboxes(0, 0), 16, 1).code == RMP_GOES_ON);
    service_puts(&service, 5, 0x1000, mail(5, 2, upload), 32);
    CHECK(service_comes(&service, mail(5, 2, upload), 32, 1).code == RMP_GOES_ON);
    CHECK(service.mail.is_posted == 1 && service.mail.posted == 5 && service.mail.counter == 6);
    service_puts(&service, 4, 0x0800, zeros, 16);
    CHECK(service_comes(&service, mailboxes(0, 1), 16, 1).code == RMP_GOES_ON);
    service_puts(&service, 4, 0x1080, zeros, 32);
    before = service;
    served = service_comes(&service, mail(5, 3, told), 32, 1);
    CHECK(served.code == RMP_GOOD && served.number == 0x12345678 && served.size == 4);
    CHECK(service.state == RMP_DONE && before.trips == 61);
    service = before;
    served = service_comes(&service, mail(5, 3, aborts), 32, 1);
    CHECK(served.code == RMP_ABORTED && served.number == 0x06020000 && service.state == RMP_ENDED);
    service = before;
    CHECK(service_comes(&service, mail(4, 3, told), 32, 1).code == RMP_GOES_ON); /* an older answer */
    service = before;
    CHECK(service_comes(&service, mail(5, 2, upload), 32, 1).code == RMP_BAD_ANSWER);
}

/* An object of two bytes is written. */
static void a_writing(void) {
    const uint8_t download[8] = {0x2B, 0x00, 0x80, 1, 0xCD, 0xAB, 0, 0}, done[8] = {0x60, 0x00, 0x80, 1};
    struct rmp_service service = rmp_write_begin(RMP_UDP, &line[0], 0x8000, 1, 2, 0xABCD, 6, 4);
    struct rmp_served served;
    service_puts(&service, 4, 0x0800, zeros, 16);
    CHECK(service_comes(&service, mailboxes(0, 0), 16, 1).code == RMP_GOES_ON);
    service_puts(&service, 5, 0x1000, mail(7, 2, download), 32);
    CHECK(service_comes(&service, mail(7, 2, download), 32, 1).code == RMP_GOES_ON);
    service_puts(&service, 4, 0x0800, zeros, 16);
    CHECK(service_comes(&service, mailboxes(0, 1), 16, 1).code == RMP_GOES_ON);
    service_puts(&service, 4, 0x1080, zeros, 32);
    served = service_comes(&service, mail(7, 3, done), 32, 1);
    CHECK(served.code == RMP_GOOD && served.number == 0 && served.size == 0 && service.state == RMP_DONE);
    service = rmp_write_begin(RMP_UDP, &line[0], 0x8000, 1, 1, 0xFF, 7, 4); /* counters come round */
    CHECK(service.mail.counter == 1 && service.size == 1 && service.value == 0xFF);
}

/* ---- what is refused */

/* A service whose numbers are none: nothing is put, and it stays as it is. */
static void is_no_service(struct rmp_service service, uint32_t next, uint32_t came) {
    struct rmp_service before = service;
    struct rmp_written made;
    struct rmp_served served;
    memset(room, 0x5A, sizeof room);
    made = rmp_service_next(&service, room, sizeof room);
    CHECK(made.code == next && made.bytes == 0 && made.at == 0 && room[0] == 0x5A);
    served = rmp_service_came(&service, zeros, 16, NULL, 0);
    CHECK(served.code == came && served.copy_a == RMP_LOST && served.number == 0 && served.size == 0);
    CHECK(memcmp(&service, &before, sizeof service) == 0);
}

static void no_services(void) {
    struct rmp_service good = rmp_read_begin(RMP_UDP, &line[0], 0x1018, 1, 0, 64), bad = good;
    is_no_service(rmp_state_begin(RMP_UDP, &line[0], 3, 64), RMP_BAD_NUMBERS, RMP_BAD_NUMBERS);
    is_no_service(rmp_state_begin(RMP_UDP, &line[0], 0, 64), RMP_BAD_NUMBERS, RMP_BAD_NUMBERS);
    is_no_service(rmp_write_begin(RMP_UDP, &line[0], 1, 1, 1, 256, 0, 64), RMP_BAD_NUMBERS, RMP_BAD_NUMBERS);
    is_no_service(rmp_write_begin(RMP_UDP, &line[0], 1, 1, 2, 65536, 0, 9), RMP_BAD_NUMBERS, RMP_BAD_NUMBERS);
    is_no_service(rmp_write_begin(RMP_UDP, &line[0], 1, 1, 3, 0, 0, 64), RMP_BAD_NUMBERS, RMP_BAD_NUMBERS);
    is_no_service(rmp_write_begin(RMP_UDP, &line[0], 1, 1, 0, 0, 0, 64), RMP_BAD_NUMBERS, RMP_BAD_NUMBERS);
    bad.next = 8;
    is_no_service(bad, RMP_BAD_NUMBERS, RMP_BAD_NUMBERS);
    bad = good;
    bad.mail.counter = 0;
    is_no_service(bad, RMP_BAD_NUMBERS, RMP_BAD_NUMBERS);
    bad = good;
    bad.mail.request_length = 15;
    is_no_service(bad, RMP_BAD_NUMBERS, RMP_BAD_NUMBERS);
    bad = good;
    bad.mail.answer_length = RMP_MAX_DATA + 1;
    is_no_service(bad, RMP_BAD_NUMBERS, RMP_BAD_NUMBERS);
    bad = good;
    bad.mail.known = 3;
    is_no_service(bad, RMP_BAD_NUMBERS, RMP_BAD_NUMBERS);
    bad = good;
    bad.state = RMP_ENDED;
    is_no_service(bad, RMP_NOT_UNDER_WAY, RMP_NOT_UNDER_WAY);
    bad = good;
    bad.form = 2;
    CHECK(rmp_service_came(&bad, NULL, 0, NULL, 0).code == RMP_BAD_FORM);
    CHECK(rmp_service_next(&good, NULL, 0).code == RMP_NO_ROOM);
}

/* Nothing goes out where a slave has no mailboxes, or no trip is left; and a slave that is not there is asked
 * for its state ten times. */
static void nobody(void) {
    struct rmp_records bare = line[0];
    struct rmp_service service;
    struct rmp_written made;
    bare.sync_managers[1][6] = 0; /* it is switched off */
    service = rmp_read_begin(RMP_UDP, &bare, 0x1018, 1, 0, 64);
    made = rmp_service_next(&service, room, sizeof room);
    CHECK(made.code == RMP_GOOD && made.bytes == 0);
    CHECK(rmp_service_came(&service, NULL, 0, NULL, 0).code == RMP_NO_SLAVE && service.state == RMP_ENDED);
    service = rmp_read_begin(RMP_UDP, &line[0], 0x1018, 1, 0, 0);
    made = rmp_service_next(&service, room, sizeof room);
    CHECK(made.code == RMP_GOOD && made.bytes == 0);
    CHECK(rmp_service_came(&service, NULL, 0, NULL, 0).code == RMP_NO_ANSWER && service.state == RMP_ENDED);
    service = rmp_state_begin(RMP_UDP, &bare, RMP_INIT, 64);
    for (int k = 0; k < 9; k++) {
        CHECK(rmp_service_came(&service, NULL, 0, NULL, 0).code == RMP_GOES_ON);
        CHECK(service.unanswered == (uint32_t)k + 1 && service.trips == 63 - (uint32_t)k);
    }
    CHECK(rmp_service_came(&service, NULL, 0, NULL, 0).code == RMP_NO_SLAVE && service.state == RMP_ENDED);
}

/* A copy of another frame leaves a service as it is; what is no frame counts as lost. */
static void strangers(void) {
    struct rmp_service service = rmp_state_begin(RMP_UDP, &line[0], RMP_OP, 64), before = service;
    struct rmp_start start = rmp_start_begin(RMP_UDP, PAIR, RMP_NO_LINK, RMP_STAGE_COUNT, RMP_STAGE_OP);
    struct rmp_start before_start = start;
    struct rmp_served served;
    struct rmp_started started;
    uint8_t copy[16], other[16];
    rmp_service_next(&service, copy, sizeof copy);
    memcpy(other, copy, sizeof other);
    other[6] ^= 1; /* another register */
    copy[14] = 1;
    served = rmp_service_came(&service, copy, sizeof copy, other, sizeof other);
    CHECK(served.code == RMP_STRANGER && served.copy_a == RMP_CAME && served.copy_b == RMP_CAME);
    CHECK(memcmp(&service, &before, sizeof service) == 0);
    CHECK(rmp_service_came(&service, other, sizeof other, NULL, 0).code == RMP_STRANGER);
    served = rmp_service_came(&service, copy, sizeof copy, other, 15);
    CHECK(served.code == RMP_GOES_ON && served.copy_b == RMP_NO_FRAME && service.unanswered == 0);
    started = rmp_start_came(&start, line, PAIR, NULL, 0, copy, sizeof copy, NULL, 0);
    CHECK(started.code == RMP_STRANGER && started.step == RMP_STEP_NONE && started.copy_a == RMP_CAME);
    CHECK(memcmp(&start, &before_start, sizeof start) == 0);
}

/* ---- looks */

/* What is seen of slave 0x1001 by a copy that came back of port A, and by one that came back of port B, each
 * with these bytes of AL status and this counter. */
static struct rmp_seen seen_by(const uint8_t *status, unsigned from_a, unsigned from_b) {
    uint8_t a[20], b[20];
    rmp_look_next(0x1001, a, sizeof a);
    memcpy(a + 12, status, 6);
    memcpy(b, a, sizeof b);
    a[18] = (uint8_t)from_a;
    b[18] = (uint8_t)from_b;
    return rmp_look_came(RMP_UDP, 0x1001, a, sizeof a, b, sizeof b);
}

static int is_seen(struct rmp_seen seen, uint32_t state, uint32_t error, uint32_t code) {
    return seen.state == state && seen.error == error && seen.code == code;
}

/* Each code of a look, by answers built by hand. */
static void looks(void) {
    const uint8_t frame[20] = {18, 0x10, 4, 0, 0x01, 0x10, 0x30, 0x01, 6};
    const uint8_t in_op[6] = {8}, in_boot[6] = {3}, in_error[6] = {0x14, 0, 0, 0, 0x1D, 0x80};
    const uint8_t without_code[6] = {0x18};
    struct rmp_written made;
    struct rmp_seen seen;
    uint8_t other[20];
    memset(room, 0x5A, sizeof room);
    made = rmp_look_next(0x1001, room, 19);
    CHECK(made.code == RMP_NO_ROOM && made.bytes == 0 && made.at == 0 && room[0] == 0x5A && room[18] == 0x5A);
    CHECK(rmp_look_next(0x1001, NULL, 0).code == RMP_NO_ROOM);
    made = rmp_look_next(0x1001, room, 20);
    CHECK(made.code == RMP_GOOD && made.bytes == 20 && made.at == 0);
    CHECK(memcmp(room, frame, sizeof frame) == 0 && room[20] == 0x5A);
    seen = seen_by(in_op, 1, 0);
    CHECK(is_seen(seen, RMP_OP, 0, RMP_GOOD) && seen.copy_a == RMP_CAME && seen.copy_b == RMP_CAME);
    CHECK(is_seen(seen_by(in_op, 0, 1), RMP_OP, 0, RMP_GOOD));
    CHECK(is_seen(seen_by(in_boot, 1, 0), RMP_INIT, 0, RMP_GOOD)); /* no state of these counts as Init */
    CHECK(is_seen(seen_by(in_error, 1, 0), RMP_SAFE_OP, 0x801D, RMP_REFUSED));
    CHECK(is_seen(seen_by(without_code, 1, 0), RMP_OP, 0, RMP_REFUSED));
    CHECK(is_seen(seen_by(zeros, 0, 0), 0, 0, RMP_NO_SLAVE));
    CHECK(is_seen(seen_by(in_op, 1, 1), 0, 0, RMP_BAD_ANSWER));
    CHECK(is_seen(seen_by(in_op, 2, 0), 0, 0, RMP_BAD_ANSWER));
    seen = rmp_look_came(RMP_UDP, 0x1001, NULL, 0, room, 19);
    CHECK(is_seen(seen, 0, 0, RMP_NO_ANSWER) && seen.copy_a == RMP_LOST && seen.copy_b == RMP_NO_FRAME);
    memcpy(other, frame, sizeof other);
    other[4] = 2; /* a look at another slave */
    seen = rmp_look_came(RMP_UDP, 0x1001, frame, sizeof frame, other, sizeof other);
    CHECK(is_seen(seen, 0, 0, RMP_STRANGER) && seen.copy_a == RMP_CAME && seen.copy_b == RMP_CAME);
    seen = rmp_look_came(2, 0x1001, frame, sizeof frame, NULL, 0);
    CHECK(is_seen(seen, 0, 0, RMP_BAD_FORM) && seen.copy_a == RMP_LOST && seen.copy_b == RMP_LOST);
}

/* ---- the first frames of a start-up */

static void start_puts(const struct rmp_start *start, unsigned command, unsigned adp, unsigned ado,
                       const uint8_t *data, size_t length) {
    struct rmp_written made;
    memset(room, 0x5A, sizeof room);
    made = rmp_start_next(start, line, PAIR, startup, PAIR, room, 13 + length);
    CHECK(made.code == RMP_NO_ROOM && made.bytes == 0 && room[0] == 0x5A);
    made = rmp_start_next(start, line, PAIR, startup, PAIR, room, sizeof room);
    puts_frame(&made, command, adp, ado, data, length);
    CHECK(room[14 + length] == 0x5A);
}

static struct rmp_started start_comes(struct rmp_start *start, const uint8_t *data, size_t length,
                                      unsigned counter) {
    uint8_t copy[RMP_FRAME_SIZE];
    memcpy(copy, room, 14 + length);
    memcpy(copy + 12, data, length);
    copy[12 + length] = (uint8_t)counter;
    return rmp_start_came(start, line, PAIR, startup, PAIR, NULL, 0, copy, 14 + length);
}

/* A frame goes out and counts as it should, with what it reads. */
static void goes(struct rmp_start *start, unsigned command, unsigned adp, unsigned ado, const uint8_t *data,
                 const uint8_t *came, size_t length, unsigned counter) {
    struct rmp_started started;
    start_puts(start, command, adp, ado, data, length);
    started = start_comes(start, came, length, counter);
    CHECK(started.code == RMP_GOES_ON && started.copy_a == RMP_LOST && started.copy_b == RMP_CAME);
    CHECK(started.stage == 0 && started.step == RMP_STEP_NONE && started.number == 0);
}

/* The slaves are counted, given their addresses, asked for Init, and the first one's mailbox is set. */
static void a_start(void) {
    const uint8_t first[2] = {0x01, 0x10}, second[2] = {0x02, 0x10}, to_init[2] = {0x11, 0}, in_init[6] = {1};
    const uint8_t off[1] = {0}, on[1] = {1}, *record = line[0].sync_managers[0];
    const uint8_t other[5] = {0x00, 0x10, 33, 0, 0x26};
    struct rmp_start start = rmp_start_begin(RMP_UDP, PAIR, RMP_NO_LINK, RMP_STAGE_COUNT, RMP_STAGE_OP);
    struct rmp_started started;
    CHECK(start.slaves == PAIR && start.down == RMP_NO_LINK && start.last == RMP_STAGE_OP);
    CHECK(start.stage == RMP_STAGE_COUNT && start.form == RMP_UDP && start.state == RMP_UNDER_WAY);
    goes(&start, 7, 0, 0x0130, zeros, in_init, 2, 3); /* one too many, then as many as there are */
    goes(&start, 7, 0, 0x0130, zeros, in_init, 2, 2);
    goes(&start, 2, 0, 0x0010, first, first, 2, 1);
    CHECK(start.stage == RMP_STAGE_STATIONS && start.place == 1);
    goes(&start, 2, 0xFFFF, 0x0010, second, second, 2, 1);
    goes(&start, 5, 0x1001, 0x0120, to_init, to_init, 2, 1);
    goes(&start, 4, 0x1001, 0x0130, zeros, in_init, 6, 1);
    goes(&start, 5, 0x1002, 0x0120, to_init, to_init, 2, 1);
    goes(&start, 4, 0x1002, 0x0130, zeros, in_init, 6, 1);
    CHECK(start.stage == RMP_STAGE_PRE_OP && start.place == 0 && start.left == 3);
    goes(&start, 5, 0x1001, 0x0806, off, off, 1, 1);
    goes(&start, 5, 0x1001, 0x0800, record, record, 8, 1);
    goes(&start, 4, 0x1001, 0x0800, zeros, record, 5, 1);
    goes(&start, 4, 0x1001, 0x0806, zeros, on, 1, 1);
    goes(&start, 5, 0x1001, 0x080E, off, off, 1, 1);
    goes(&start, 5, 0x1001, 0x0808, line[0].sync_managers[1], zeros, 8, 1);
    start_puts(&start, 4, 0x1001, 0x0808, zeros, 5);
    started = start_comes(&start, other, 5, 1); /* it holds something else */
    CHECK(started.code == RMP_BAD_ANSWER && started.place == 0 && started.stage == RMP_STAGE_PRE_OP);
    CHECK(started.step == RMP_STEP_SYNC_MANAGER && started.part == 1 && start.state == RMP_ENDED);
    CHECK(rmp_start_next(&start, line, PAIR, NULL, 0, room, sizeof room).code == RMP_NOT_UNDER_WAY);
    CHECK(start_comes(&start, other, 5, 1).code == RMP_NOT_UNDER_WAY);
}

/* Over a link that is down slaves behind it are given their addresses first, those before it by frames that
 * circulate. */
static void a_broken_start(void) {
    const uint8_t first[2] = {0x01, 0x10}, second[2] = {0x02, 0x10};
    struct rmp_start start = rmp_start_begin(RMP_UDP, PAIR, 1, RMP_STAGE_COUNT, RMP_STAGE_STATIONS);
    struct rmp_written made;
    struct rmp_started started;
    goes(&start, 7, 0, 0x0130, zeros, zeros, 2, 2);
    CHECK(start.stage == RMP_STAGE_BEHIND && start.place == 1);
    goes(&start, 2, 0, 0x0010, second, second, 2, 2); /* both slaves took it */
    CHECK(start.stage == RMP_STAGE_STATIONS && start.place == 0);
    made = rmp_start_next(&start, line, PAIR, NULL, 0, room, sizeof room);
    CHECK(made.bytes == 16 && room[2] == 2 && room[4] == 0 && room[9] == 0x40 && room[12] == 1);
    started = start_comes(&start, first, 2, 1);
    CHECK(started.code == RMP_GOOD && start.state == RMP_DONE && started.stage == 0);
}

/* A start-up whose numbers are none. */
static void is_no_start(struct rmp_start start, size_t slaves, const struct rmp_startup *objects, size_t n,
                        uint32_t code) {
    const struct rmp_records *records = slaves > PAIR ? too_many : slaves ? line : NULL;
    struct rmp_start before = start;
    struct rmp_written made;
    struct rmp_started started;
    memset(room, 0x5A, sizeof room);
    made = rmp_start_next(&start, records, slaves, objects, n, room, sizeof room);
    CHECK(made.code == code && made.bytes == 0 && room[0] == 0x5A);
    started = rmp_start_came(&start, records, slaves, objects, n, zeros, 16, NULL, 0);
    CHECK(started.code == code && started.copy_a == RMP_LOST && started.stage == 0 && started.number == 0);
    CHECK(memcmp(&start, &before, sizeof start) == 0);
}

static void no_starts(void) {
    struct rmp_start good = rmp_start_begin(RMP_UDP, PAIR, RMP_NO_LINK, RMP_STAGE_COUNT, RMP_STAGE_OP);
    struct rmp_start bad = good;
    struct rmp_startup objects[1];
    memset(objects, 0, sizeof objects);
    is_no_start(good, 1, NULL, 0, RMP_BAD_NUMBERS);
    is_no_start(good, 0, NULL, 0, RMP_BAD_NUMBERS);
    for (uint8_t first = RMP_STAGE_COUNT; first <= RMP_STAGE_OP; first++) {
        is_no_start(rmp_start_begin(RMP_UDP, 0, 65535, first, 6), 0, NULL, 0, RMP_BAD_NUMBERS);
        is_no_start(rmp_start_begin(RMP_UDP, 257, 65535, first, 6), 257, NULL, 0, RMP_BAD_NUMBERS);
    }
    good = rmp_start_begin(RMP_UDP, 256, RMP_NO_LINK, RMP_STAGE_COUNT, RMP_STAGE_OP);
    CHECK(rmp_start_next(&good, too_many, 256, NULL, 0, room, sizeof room).code == RMP_GOOD);
    good = bad;
    is_no_start(rmp_start_begin(RMP_UDP, PAIR, 65535, 7, 6), PAIR, NULL, 0, RMP_BAD_NUMBERS);
    is_no_start(rmp_start_begin(RMP_UDP, PAIR, 65535, 0, 7), PAIR, NULL, 0, RMP_BAD_NUMBERS);
    objects[0].objects[15].size = 3;
    is_no_start(good, PAIR, objects, 1, RMP_BAD_NUMBERS);
    objects[0].objects[15].size = 1;
    objects[0].objects[15].value = 256;
    is_no_start(good, PAIR, objects, 1, RMP_BAD_NUMBERS);
    bad.place = PAIR;
    is_no_start(bad, PAIR, NULL, 0, RMP_BAD_NUMBERS);
    bad = good;
    bad.is_writing = 1; /* mails of nobody */
    is_no_start(bad, PAIR, NULL, 0, RMP_BAD_NUMBERS);
    bad = good;
    bad.state = RMP_DONE;
    is_no_start(bad, PAIR, NULL, 0, RMP_NOT_UNDER_WAY);
    bad = good;
    bad.form = 2;
    CHECK(rmp_start_came(&bad, line, PAIR, NULL, 0, NULL, 0, NULL, 0).code == RMP_BAD_FORM);
}

/* Another number of slaves is counted ten times. */
static void another_count(void) {
    struct rmp_start start = rmp_start_begin(RMP_UDP, PAIR, RMP_NO_LINK, RMP_STAGE_COUNT, RMP_STAGE_OP);
    struct rmp_started started;
    for (int k = 0; k < 9; k++) {
        start_puts(&start, 7, 0, 0x0130, zeros, 2);
        CHECK(start_comes(&start, zeros, 2, 3).code == RMP_GOES_ON && start.asked == (uint32_t)k + 1);
    }
    started = rmp_start_came(&start, line, PAIR, NULL, 0, NULL, 0, NULL, 0);
    CHECK(started.code == RMP_OTHER_COUNT && started.number == 0 && start.state == RMP_ENDED);
    CHECK(started.stage == RMP_STAGE_COUNT && started.step == RMP_STEP_NONE && started.place == 0);
}

/* ---- whole ones, over two slaves */

static struct rmp_served serve(struct rmp_service service) {
    struct rmp_served served = {0, 0, RMP_GOES_ON, 0, 0};
    while (served.code == RMP_GOES_ON) {
        struct rmp_written made = rmp_service_next(&service, room, sizeof room);
        CHECK(made.code == RMP_GOOD);
        make_trip(&pair, room, made.bytes);
        served = rmp_service_came(&service, pair.copies[0], pair.sizes[0], pair.copies[1], pair.sizes[1]);
    }
    CHECK(service.state == (served.code == RMP_GOOD ? RMP_DONE : RMP_ENDED));
    return served;
}

static struct rmp_started run(struct rmp_start *start) {
    struct rmp_started started = {0, 0, 0, 0, 0, RMP_GOES_ON, 0, 0};
    while (started.code == RMP_GOES_ON) {
        struct rmp_written made = rmp_start_next(start, line, PAIR, startup, PAIR, room, sizeof room);
        CHECK(made.code == RMP_GOOD);
        make_trip(&pair, room, made.bytes);
        started = rmp_start_came(start, line, PAIR, startup, PAIR, pair.copies[0], pair.sizes[0],
                                 pair.copies[1], pair.sizes[1]);
    }
    CHECK(start->state == (started.code == RMP_GOOD ? RMP_DONE : RMP_ENDED));
    return started;
}

static struct rmp_started start_from(uint8_t first, uint8_t last) {
    struct rmp_start start =
        rmp_start_begin(RMP_UDP, PAIR, pair.is_broken ? 1 : RMP_NO_LINK, first, last);
    return run(&start);
}

/* Each slave is as it was to be, and in Op. */
static void are_up(void) {
    for (int k = 0; k < PAIR; k++) {
        const struct slave *slave = &pair.slaves[k];
        CHECK(slave->memory[0x0130] == RMP_OP && slave->memory[0x0010] == k + 1);
        CHECK(memcmp(slave->memory + 0x0600, line[k].fmmus, sizeof line[k].fmmus) == 0);
        for (int j = 0; j < 8; j++) {
            const uint8_t *record = slave->memory + 0x0800 + 8 * j;
            CHECK(memcmp(record, line[k].sync_managers[j], 5) == 0);
            CHECK(record[6] == line[k].sync_managers[j][6]);
        }
    }
    CHECK(pair.slaves[0].object == 0xABCD && pair.slaves[0].written >= 2);
    CHECK(pair.slaves[1].object == 0 && pair.slaves[1].written == 0);
}

/* A start-up to Op, and one that stops in Pre-Op, where an object is read; each over a whole cable and over a
 * broken one, with and without losses. */
static void whole_starts(void) {
    for (int kind = 0; kind < 4; kind++) {
        begin_pair(&pair);
        pair.is_broken = kind & 1;
        pair.losses = kind & 2 ? 50 : 0;
        CHECK(start_from(RMP_STAGE_COUNT, RMP_STAGE_OP).code == RMP_GOOD);
        are_up();
        CHECK(kind & 2 || pair.slaves[0].written == 2);
        begin_pair(&pair);
        pair.is_broken = kind & 1;
        pair.losses = kind & 2 ? 50 : 0;
        CHECK(start_from(RMP_STAGE_COUNT, RMP_STAGE_PRE_OP).code == RMP_GOOD);
        CHECK(pair.slaves[1].memory[0x0130] == RMP_PRE_OP && pair.slaves[0].written == 0);
        struct rmp_served served = serve(rmp_read_begin(RMP_UDP, &line[1], IDENTITY, 1, 0, 64));
        CHECK(served.code == RMP_GOOD && served.number == 0x12345678 && served.size == 4);
        CHECK(start_from(RMP_STAGE_SAFE_OP, RMP_STAGE_OP).code == RMP_GOOD);
        are_up();
    }
}

/* What a slave refuses is told with its place, and so is an object that it has not, or cannot have. */
static void failing_starts(void) {
    struct rmp_started started;
    begin_pair(&pair);
    pair.slaves[1].refuses = RMP_SAFE_OP;
    started = start_from(RMP_STAGE_COUNT, RMP_STAGE_OP);
    CHECK(started.code == RMP_REFUSED && started.number == 0x1D && started.place == 1);
    CHECK(started.stage == RMP_STAGE_SAFE_OP && started.step == RMP_STEP_STATE);
    CHECK(started.part == RMP_SAFE_OP);
    begin_pair(&pair);
    startup[0].objects[3].index = 0x9000;
    started = start_from(RMP_STAGE_COUNT, RMP_STAGE_OP);
    CHECK(started.code == RMP_ABORTED && started.number == 0x06020000 && started.place == 0);
    CHECK(started.stage == RMP_STAGE_SAFE_OP && started.step == RMP_STEP_OBJECT && started.part == 3);
    memset(line[0].sync_managers[1], 0, 8); /* it has no mailboxes: nothing goes out, twenty times */
    begin_pair(&pair);
    started = start_from(RMP_STAGE_COUNT, RMP_STAGE_OP);
    CHECK(started.code == RMP_NO_SLAVE && started.step == RMP_STEP_OBJECT && started.part == 0);
    describe();
}

/* Services with slaves that are up, over a line that loses many copies. */
static void whole_services(void) {
    unsigned good = 0;
    struct rmp_served served;
    begin_pair(&pair);
    CHECK(start_from(RMP_STAGE_COUNT, RMP_STAGE_OP).code == RMP_GOOD);
    pair.trips = 0;
    served = serve(rmp_read_begin(RMP_UDP, &line[0], WRITTEN_OBJECT, 1, 4, 4));
    CHECK(served.code == RMP_GOOD && served.number == 0xABCD && served.size == 2 && pair.trips == 4);
    served = serve(rmp_read_begin(RMP_UDP, &line[0], 0x9000, 1, 5, 4));
    CHECK(served.code == RMP_ABORTED && served.number == 0x06020000);
    pair.slaves[1].refuses = RMP_SAFE_OP;
    served = serve(rmp_state_begin(RMP_UDP, &line[1], RMP_SAFE_OP, 64));
    CHECK(served.code == RMP_REFUSED && served.number == 0x1D);
    served = serve(rmp_acknowledge_begin(RMP_UDP, &line[1], 64));
    CHECK(served.code == RMP_GOOD && served.number == RMP_OP && served.size == 0);
    CHECK(pair.slaves[1].memory[0x0130] == RMP_OP);
    pair.losses = 200;
    for (unsigned k = 0; k < 1000; k++) {
        served = serve(rmp_write_begin(RMP_UDP, &line[1], WRITTEN_OBJECT, 1, 2, k, 2 * k, 64));
        good += served.code == RMP_GOOD;
        CHECK(served.code != RMP_GOOD || pair.slaves[1].object == k);
        served = serve(rmp_read_begin(RMP_UDP, &line[1], WRITTEN_OBJECT, 1, 2 * k + 1, 64));
        good += served.code == RMP_GOOD;
        CHECK(served.code != RMP_GOOD || served.number == pair.slaves[1].object);
        CHECK(served.code == RMP_GOOD || served.code == RMP_NO_ANSWER);
    }
    printf("talks: %u of 2000 services good where one of five copies is lost\n", good);
    CHECK(good > 1900);
}

/* ---- what is damaged */

static uint64_t chance_state = 362436069362436069u;

static unsigned chance(unsigned below) { return by_chance(&chance_state, below); }

/* Bytes that end where no memory is mapped. */
static uint8_t *edge(size_t size) {
    size_t page = 4096, whole = (size + page - 1) / page * page;
    uint8_t *pages =
        mmap(NULL, whole + page, PROT_READ | PROT_WRITE, MAP_PRIVATE | MAP_ANONYMOUS, -1, 0);
    if (pages == MAP_FAILED || mprotect(pages + whole, page, PROT_NONE) != 0) {
        perror("talks");
        exit(3);
    }
    return pages + whole;
}

/* Some bytes become others. */
static void damage(void *bytes, size_t size) {
    if (chance(8) == 0) {
        for (size_t k = 0; k < size; k++)
            ((uint8_t *)bytes)[k] = (uint8_t)chance(256);
        return;
    }
    for (unsigned k = chance(4); k > 0; k--)
        ((uint8_t *)bytes)[chance((unsigned)size)] = (uint8_t)chance(chance(2) ? 256 : 10);
}

/* What may come back of a frame: as slaves leave it, damaged, other bytes, or nothing. It ends at `end`. */
static size_t damaged_copy(uint8_t *end, const uint8_t *frame, size_t size) {
    unsigned kind = chance(8);
    if (kind == 0 || (size == 0 && kind < 7))
        return 0;
    if (kind == 7)
        size = chance(1600);
    for (size_t k = 0; k < size; k++)
        end[(ptrdiff_t)k - (ptrdiff_t)size] = kind == 7 ? (uint8_t)chance(256) : frame[k];
    if (kind == 6)
        end[-(ptrdiff_t)(1 + chance((unsigned)size + 1))] ^= (uint8_t)(1 << chance(8));
    for (size_t k = 12; kind < 6 && k + 2 < size && chance(2); k += 1 + chance(9))
        end[(ptrdiff_t)k - (ptrdiff_t)size] = (uint8_t)chance(256);
    if (kind < 6 && size >= 14)
        end[-2] = (uint8_t)chance(3);
    return size;
}

/* Whether a call that made a frame answers as one does; nothing else is written. */
static int is_made(const struct rmp_written *made, const uint8_t *put, size_t room_size) {
    size_t written = made->code == RMP_GOOD ? made->bytes : 0;
    struct rmp_datagram found[1];
    for (size_t k = written; k < room_size; k++)
        if (put[k] != 0x5A)
            return 0;
    if (written && rmp_read(RMP_UDP, put, written, found, 1).code != RMP_GOOD)
        return 0;
    return made->at == 0 && written <= room_size &&
           (made->code == RMP_GOOD || made->code == RMP_NO_ROOM || made->code == RMP_BAD_NUMBERS ||
            made->code == RMP_NOT_UNDER_WAY);
}

/* Whether a turn answers as one does: with a code that has a meaning here and the state that goes with it, or
 * nothing has changed. */
static int is_taken(uint32_t code, uint32_t before, uint32_t later, int is_same) {
    if (code == RMP_GOES_ON || code == RMP_GOOD)
        return before == RMP_UNDER_WAY && later == (code == RMP_GOOD ? RMP_DONE : RMP_UNDER_WAY);
    if (code == RMP_STRANGER || code == RMP_BAD_NUMBERS || code == RMP_BAD_FORM)
        return before == RMP_UNDER_WAY && is_same;
    if (code == RMP_NOT_UNDER_WAY)
        return before != RMP_UNDER_WAY && is_same;
    return before == RMP_UNDER_WAY && later == RMP_ENDED && code >= RMP_NO_SLAVE && code <= RMP_OTHER_COUNT;
}

/* How often each code was answered. */
static unsigned long answered[RMP_OTHER_COUNT + 1];

static uint32_t some_form(void) { return chance(20) ? chance(2) : 2; }

static struct rmp_service some_service(const struct rmp_records *records) {
    uint32_t kind = chance(5), form = some_form(), trips = chance(30) ? 1 + chance(5) : 0;
    if (kind == 0)
        return rmp_acknowledge_begin(form, records, trips);
    if (kind == 1)
        return rmp_state_begin(form, records, (uint8_t)(chance(10) ? 1u << chance(4) : chance(256)), trips);
    if (kind == 2)
        return rmp_write_begin(form, records, IDENTITY, 1, (uint8_t)(1u << chance(3)),
                               chance(chance(10) ? 256 : 70000), chance(100), trips);
    return rmp_read_begin(form, records, IDENTITY, 1, chance(UINT32_MAX), trips);
}

static void a_damaged_service(uint8_t *edges[4]) {
    struct rmp_service *service = (struct rmp_service *)(edges[0] - sizeof *service), before;
    struct rmp_records *records = (struct rmp_records *)(edges[3] - sizeof *records);
    size_t room_size = chance(3) ? RMP_FRAME_SIZE : chance(80), sizes[2];
    uint8_t *put = edges[1] - room_size;
    memcpy(records, line, sizeof *records);
    if (chance(4) == 0)
        damage(records, sizeof *records);
    *service = some_service(records);
    if (chance(4) == 0)
        service->next = (uint8_t)chance(10);
    if (chance(2))
        damage(service, chance(4) ? offsetof(struct rmp_service, form) : sizeof *service);
    for (int turn = 0; turn < 4; turn++) {
        struct rmp_written made;
        struct rmp_served served;
        before = *service;
        memset(put, 0x5A, room_size);
        made = rmp_service_next(service, put, room_size);
        CHECK(is_made(&made, put, room_size) && memcmp(service, &before, sizeof before) == 0);
        memcpy(room, put, made.bytes);
        sizes[0] = damaged_copy(edges[1], room, made.bytes);
        sizes[1] = damaged_copy(edges[2], room, made.bytes);
        served = rmp_service_came(service, edges[1] - sizes[0], sizes[0], edges[2] - sizes[1], sizes[1]);
        CHECK(is_taken(served.code, before.state, service->state,
                       memcmp(service, &before, sizeof before) == 0));
        CHECK(served.copy_a <= RMP_NO_FRAME && served.copy_b <= RMP_NO_FRAME && service->form == before.form);
        answered[served.code <= RMP_OTHER_COUNT ? served.code : 0]++;
    }
}

static void a_damaged_start(uint8_t *edges[4]) {
    struct rmp_start *start = (struct rmp_start *)(edges[0] - sizeof *start), before;
    size_t slaves = chance(8) ? PAIR : chance(4), objects = chance(PAIR + 1);
    struct rmp_records *records = (struct rmp_records *)(edges[3] - slaves * sizeof *records);
    struct rmp_startup *told = (struct rmp_startup *)(edges[2] - objects * sizeof *told);
    uint8_t held[2][1700], *put = edges[1] - RMP_FRAME_SIZE;
    size_t sizes[2];
    for (size_t k = 0; k < slaves; k++)
        records[k] = line[k % PAIR];
    for (size_t k = 0; k < objects; k++)
        told[k] = startup[k];
    if (slaves && chance(4) == 0)
        damage(records, slaves * sizeof *records);
    if (objects && chance(4) == 0)
        damage(told, objects * sizeof *told);
    *start = rmp_start_begin(some_form(), PAIR, chance(2) ? RMP_NO_LINK : (uint16_t)chance(4),
                             (uint8_t)chance(8), (uint8_t)(6 - chance(chance(3) ? 1 : 7)));
    if (chance(2))
        start->place = (uint16_t)chance(PAIR);
    if (chance(2))
        start->left = chance(40);
    if (chance(2))
        damage(start, chance(4) ? offsetof(struct rmp_start, form) : sizeof *start);
    for (int turn = 0; turn < 4; turn++) {
        struct rmp_written made;
        struct rmp_started started;
        before = *start;
        memset(put, 0x5A, RMP_FRAME_SIZE);
        made = rmp_start_next(start, records, slaves, told, objects, put, RMP_FRAME_SIZE);
        CHECK(is_made(&made, put, RMP_FRAME_SIZE) && memcmp(start, &before, sizeof before) == 0);
        for (int c = 0; c < 2; c++)
            sizes[c] = damaged_copy(held[c] + sizeof held[c], put, made.bytes);
        started = rmp_start_came(start, records, slaves, told, objects, held[0] + sizeof held[0] - sizes[0],
                                 sizes[0], held[1] + sizeof held[1] - sizes[1], sizes[1]);
        CHECK(is_taken(started.code, before.state, start->state,
                       memcmp(start, &before, sizeof before) == 0));
        CHECK(started.copy_a <= RMP_NO_FRAME && started.copy_b <= RMP_NO_FRAME);
        CHECK(started.stage <= RMP_STAGE_OP && started.step <= RMP_STEP_STATE);
        CHECK(start->form == before.form && start->slaves == before.slaves && start->last == before.last);
        answered[started.code <= RMP_OTHER_COUNT ? started.code : 0]++;
    }
}

static void a_damaged_look(uint8_t *edges[4]) {
    size_t room_size = chance(30), sizes[2];
    uint8_t *put = edges[1] - room_size;
    uint16_t station = (uint16_t)chance(65536);
    struct rmp_written made;
    struct rmp_seen seen;
    int is_told;
    memset(put, 0x5A, room_size);
    made = rmp_look_next(station, put, room_size);
    CHECK(is_made(&made, put, room_size) && made.code == (room_size < 20 ? RMP_NO_ROOM : RMP_GOOD));
    memcpy(room, put, made.bytes);
    sizes[0] = damaged_copy(edges[1], room, made.bytes);
    sizes[1] = damaged_copy(edges[2], room, made.bytes);
    seen = rmp_look_came(some_form(), station, edges[1] - sizes[0], sizes[0], edges[2] - sizes[1], sizes[1]);
    is_told = seen.code == RMP_GOOD || seen.code == RMP_REFUSED;
    CHECK(is_told || seen.code == RMP_BAD_FORM || seen.code == RMP_STRANGER ||
          (seen.code >= RMP_NO_SLAVE && seen.code <= RMP_BAD_ANSWER));
    CHECK(is_told ? seen.state <= RMP_OP && (0x116 >> seen.state & 1) != 0 : seen.state == 0);
    CHECK((seen.code == RMP_REFUSED || seen.error == 0) && seen.error <= 0xFFFF);
    CHECK(seen.copy_a <= RMP_NO_FRAME && seen.copy_b <= RMP_NO_FRAME);
}

static void damaged(long count) {
    uint8_t *edges[4] = {edge(64), edge(1700), edge(1700), edge(4096)};
    for (long k = 0; k < count && !failed; k++) {
        if (k % 2)
            a_damaged_service(edges);
        else
            a_damaged_start(edges);
        a_damaged_look(edges);
    }
    printf("talks: %ld damaged structs;", count);
    for (uint32_t code = 0; code <= RMP_OTHER_COUNT; code++)
        if (answered[code])
            printf(" code %u %lu times", code, answered[code]);
    printf("\n");
}

int main(int count, char **words) {
    describe();
    a_state();
    an_acknowledgement();
    a_reading();
    a_writing();
    no_services();
    nobody();
    strangers();
    looks();
    a_start();
    a_broken_start();
    no_starts();
    another_count();
    whole_starts();
    failing_starts();
    whole_services();
    damaged(count > 1 ? atol(words[1]) : 100000);
    puts(failed ? "talks: not as they should be" : "talks: as they should be");
    return failed;
}
