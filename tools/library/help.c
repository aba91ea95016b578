/* The helpers, tried: records and texts as they are written out by hand here, and each text in a room of each
 * size. Prints what it finds, and ends with 1 where something is not as it should be. C11 and C++17. */
#include "rummymaple_help.h"
#include <stdio.h>

static int failed;

#define CHECK(test)                                                                                          \
    do {                                                                                                     \
        if (!(test)) {                                                                                       \
            printf("FAILED at line %d: %s\n", __LINE__, #test);                                              \
            failed = 1;                                                                                      \
        }                                                                                                    \
    } while (0)

static void addresses(void) {
    CHECK(RMP_AT(0x1001, 0x0130) == 0x01301001);
    CHECK(RMP_AT(0xFFFF, 0xFFFF) == 0xFFFFFFFF);
    CHECK(RMP_AT(-1, 0x10) == 0x0010FFFF);
    CHECK(RMP_NTH(0, 0x0010) == 0x00100000);
    CHECK(RMP_NTH(3, 0x0010) == 0x0010FFFD);
    CHECK(RMP_NTH((uint16_t)3, 0x0010) == 0x0010FFFD);
}

/* A slave with a byte out and a byte in, by records written out by hand (IEC 61158-4-12). */
static const uint8_t FMMU_OUT[16] = {0x04, 0x03, 0x02, 0x01, 2, 0, 0, 7, 0x00, 0x10, 0, 2, 1, 0, 0, 0};
static const uint8_t FMMU_BITS[16] = {0x10, 0, 0, 0, 2, 0, 6, 1, 0x00, 0x11, 3, 1, 1, 0, 0, 0};
static const uint8_t SM_OUT[8] = {0x00, 0x10, 2, 0, 0x64, 0, 1, 0};
static const uint8_t SM_IN[8] = {0x00, 0x11, 6, 0, 0x20, 0, 1, 0};
static const uint8_t SM_MAIL[8] = {0x00, 0x18, 0x80, 0, 0x26, 0, 1, 0};

static void records(void) {
    const struct rmp_fmmu out = {0x01020304, 16, 0x1000, 0, 0, RMP_WRITES};
    const struct rmp_fmmu bits = {0x10, 4, 0x1100, 6, 3, RMP_READS}; /* over the end of a logical byte */
    const struct rmp_sync_manager outputs = {0x1000, 2, RMP_WRITES, 0, 1, 1};
    const struct rmp_sync_manager inputs = {0x1100, 6, RMP_READS, 0, 1, 0};
    const struct rmp_sync_manager mail = {0x1800, 128, RMP_WRITES, 1, 1, 0};
    static struct rmp_records line[1];
    CHECK(rmp_fmmu_record(&out, line->fmmus[0]) == RMP_GOOD);
    CHECK(rmp_fmmu_record(&bits, line->fmmus[1]) == RMP_GOOD);
    CHECK(rmp_sync_manager_record(&outputs, line->sync_managers[2]) == RMP_GOOD);
    CHECK(rmp_sync_manager_record(&inputs, line->sync_managers[3]) == RMP_GOOD);
    CHECK(rmp_sync_manager_record(&mail, line->sync_managers[0]) == RMP_GOOD);
    CHECK(memcmp(line->fmmus[0], FMMU_OUT, 16) == 0);
    CHECK(memcmp(line->fmmus[1], FMMU_BITS, 16) == 0);
    CHECK(memcmp(line->sync_managers[2], SM_OUT, 8) == 0);
    CHECK(memcmp(line->sync_managers[3], SM_IN, 8) == 0);
    CHECK(memcmp(line->sync_managers[0], SM_MAIL, 8) == 0);
    CHECK(rmp_check(line, 1).rule == RMP_FIT);
}

/* What is no record is told, and nothing is written. */
static void wrong_records(void) {
    static const struct {
        struct rmp_fmmu fmmu;
        uint32_t code;
    } fmmus[] = {
        {{0, 8, 0x1000, 0, 0, 0}, RMP_BAD_KIND},
        {{0, 8, 0x1000, 0, 0, 3}, RMP_BAD_KIND},
        {{0, 0, 0x1000, 0, 0, RMP_READS}, RMP_BAD_LENGTH},
        {{0, 0xFFFFFFFF, 0, 7, 0, RMP_READS}, RMP_BAD_LENGTH},
        {{0, 8 * 65535, 0, 1, 0, RMP_READS}, RMP_BAD_LENGTH},
        {{0, 8, 0x1000, 8, 0, RMP_READS}, RMP_BAD_RANGE},
        {{0, 8, 0x1000, 0, 8, RMP_READS}, RMP_BAD_RANGE},
        {{0xFFFFFFFF, 9, 0x1000, 0, 0, RMP_READS}, RMP_BAD_RANGE},
        {{0, 16, 0xFFFF, 0, 0, RMP_READS}, RMP_BAD_RANGE},
        {{0, 8, 0xFFFF, 0, 1, RMP_READS}, RMP_BAD_RANGE},
        {{0xFFFFFFFF, 8, 0xFFFF, 0, 0, RMP_READS}, RMP_GOOD},
        {{0, 8 * 65535, 0, 0, 0, RMP_READS}, RMP_GOOD},
    };
    static const struct {
        struct rmp_sync_manager area;
        uint32_t code;
    } areas[] = {
        {{0x1000, 1, 0, 0, 0, 0}, RMP_BAD_KIND},         {{0x1000, 0, RMP_READS, 0, 0, 0}, RMP_BAD_LENGTH},
        {{0xFFFF, 2, RMP_READS, 0, 0, 0}, RMP_BAD_RANGE}, {{0x1000, 1, RMP_READS, 2, 0, 0}, RMP_BAD_RANGE},
        {{0x1000, 1, RMP_READS, 0, 2, 0}, RMP_BAD_RANGE}, {{0x1000, 1, RMP_READS, 0, 0, 2}, RMP_BAD_RANGE},
        {{0xFFFF, 1, RMP_READS, 0, 0, 0}, RMP_GOOD},
    };
    uint8_t record[16], untouched[16];
    memset(untouched, 0xEE, sizeof untouched);
    for (size_t k = 0; k < sizeof fmmus / sizeof *fmmus; k++) {
        memcpy(record, untouched, 16);
        CHECK(rmp_fmmu_record(&fmmus[k].fmmu, record) == fmmus[k].code);
        CHECK((memcmp(record, untouched, 16) == 0) == (fmmus[k].code != RMP_GOOD));
    }
    for (size_t k = 0; k < sizeof areas / sizeof *areas; k++) {
        memcpy(record, untouched, 16);
        CHECK(rmp_sync_manager_record(&areas[k].area, record) == areas[k].code);
        CHECK((memcmp(record, untouched, 8) == 0) == (areas[k].code != RMP_GOOD));
    }
}

static void broadcasts(void) {
    const struct rmp_item items[] = {
        {0x0130, 1, 2, RMP_BRD, 0, 0, 0, 0},
        {0x0130, 4, 2, RMP_BRD, 0, 0, 0, 0},          /* its last byte is not in the image */
        {0x0130, 0xFFFFFFFF, 2, RMP_BRD, 0, 0, 0, 0}, /* nor is this one */
        {0x10000, 3, 1, RMP_LRD, 0, 0, 0, 0},
    };
    const uint8_t after[5] = {9, 0, 0, 9, 9};
    uint8_t image[5] = {9, 9, 9, 9, 9};
    rmp_zero_broadcasts(items, 4, image, sizeof image);
    CHECK(memcmp(image, after, sizeof image) == 0);
}

/* ---- texts */

/* Which text is written, into a room of that size. */
typedef size_t (*writer)(char *room, size_t size);

/* A text is as it is wanted, and in each smaller room it is cut, and ends. */
static void says(writer write, const char *wanted) {
    char room[400];
    size_t length = strlen(wanted);
    for (size_t size = 0; size <= length + 2; size++) {
        memset(room, 'x', sizeof room);
        CHECK(write(size ? room : NULL, size) == length);
        CHECK(size == 0 || strlen(room) == (size > length ? length : size - 1));
        CHECK(size == 0 || strncmp(room, wanted, size - 1) == 0);
        CHECK(room[size] == 'x');
    }
    if (write(room, sizeof room) != length || strcmp(room, wanted) != 0)
        failed = printf("FAILED: wanted %s\n      but said %s\n", wanted, room);
}

static size_t of_item(char *room, size_t size) {
    const struct rmp_item lrw = {0x00010000, 8, 5, RMP_LRW, 15, 0, 12, 0};
    return rmp_item_text(room, size, &lrw);
}

static size_t of_broadcast(char *room, size_t size) {
    const struct rmp_item brd = {0x0130, 13, 2, RMP_BRD, 5, 2048, 2053, 5};
    return rmp_item_text(room, size, &brd);
}

static size_t of_station(char *room, size_t size) {
    const struct rmp_item fprd = {RMP_AT(0x1001, 0x1100), 0, 1, RMP_FPRD, 1, 0, 0, 0};
    return rmp_item_text(room, size, &fprd);
}

/* An APWR to the third slave, and a BRD that turned round. */
static size_t of_frame(char *room, size_t size) {
    static const uint8_t frame[] = {
        28, 0x10, 2, 0, 0xFE, 0xFF, 0x10, 0x00, 2, 0x80, 0, 0, 0x03, 0x10, 0x01, 0x00,
        7,  1,    5, 0, 0x30, 0x01, 2,    0x40, 4, 0x80, 8, 0, 0x05, 0x00,
    };
    return rmp_frame_text(room, size, RMP_UDP, frame, sizeof frame);
}

static size_t of_no_frame(char *room, size_t size) {
    return rmp_frame_text(room, size, RMP_UDP, (const uint8_t *)"\x01", 1);
}

static size_t of_code(char *room, size_t size) { return rmp_answer_text(room, size, RMP_BAD_PLACE, 17); }

static size_t of_place(char *room, size_t size, uint32_t cable) {
    const struct rmp_located where = {2, 4, 0, RMP_GOOD, cable, RMP_CAME, RMP_CAME};
    return rmp_where_text(room, size, &where);
}

static size_t of_two(char *room, size_t size) { return of_place(room, size, RMP_BETWEEN); }
static size_t of_one(char *room, size_t size) { return of_place(room, size, RMP_ONE); }
static size_t of_first(char *room, size_t size) { return of_place(room, size, RMP_FIRST); }
static size_t of_last(char *room, size_t size) { return of_place(room, size, RMP_LAST); }
static size_t of_whole(char *room, size_t size) { return of_place(room, size, RMP_WHOLE); }
static size_t of_changed(char *room, size_t size) { return of_place(room, size, RMP_CHANGED); }
static size_t of_nothing(char *room, size_t size) { return of_place(room, size, 99); }

static size_t of_served(char *room, size_t size, uint32_t number, uint32_t bytes, uint32_t code) {
    const struct rmp_served served = {number, bytes, code, RMP_CAME, RMP_LOST};
    return rmp_served_text(room, size, &served);
}

static size_t of_value(char *room, size_t size) { return of_served(room, size, 2, 4, RMP_GOOD); }
static size_t of_byte(char *room, size_t size) { return of_served(room, size, 0, 1, RMP_GOOD); }
static size_t of_state(char *room, size_t size) { return of_served(room, size, RMP_OP, 0, RMP_GOOD); }
static size_t of_written(char *room, size_t size) { return of_served(room, size, 0, 0, RMP_GOOD); }
static size_t of_refused(char *room, size_t size) { return of_served(room, size, 0x1D, 0, RMP_REFUSED); }
static size_t of_abort(char *room, size_t size) { return of_served(room, size, 0x6020000, 0, RMP_ABORTED); }
static size_t of_stranger(char *room, size_t size) { return of_served(room, size, 0, 0, RMP_STRANGER); }

static size_t of_seen(char *room, size_t size, uint32_t state, uint32_t error, uint32_t code) {
    const struct rmp_seen seen = {state, error, code, RMP_CAME, RMP_LOST};
    return rmp_seen_text(room, size, &seen);
}

static size_t of_op(char *room, size_t size) { return of_seen(room, size, RMP_OP, 0, RMP_GOOD); }
static size_t of_error(char *room, size_t size) { return of_seen(room, size, 4, 0x1D, RMP_REFUSED); }
static size_t of_nobody(char *room, size_t size) { return of_seen(room, size, 0, 0, RMP_NO_SLAVE); }
static size_t of_no_copy(char *room, size_t size) { return of_seen(room, size, 0, 0, RMP_NO_ANSWER); }
static size_t of_several(char *room, size_t size) { return of_seen(room, size, 0, 0, RMP_BAD_ANSWER); }
static size_t of_other(char *room, size_t size) { return of_seen(room, size, 0, 0, RMP_BAD_FORM); }

static size_t of_started(char *room, size_t size, uint32_t step, uint32_t part, uint32_t code) {
    const struct rmp_started started = {2, RMP_STAGE_SAFE_OP, step, part, 29, code, RMP_CAME, RMP_LOST};
    return rmp_started_text(room, size, &started);
}

static size_t of_step(char *room, size_t size) {
    return of_started(room, size, RMP_STEP_FMMU, 7, RMP_BAD_ANSWER);
}

static size_t of_station_step(char *room, size_t size) {
    return of_started(room, size, RMP_STEP_STATION, 0, RMP_NO_SLAVE);
}

static size_t of_state_step(char *room, size_t size) {
    return of_started(room, size, RMP_STEP_STATE, RMP_SAFE_OP, RMP_REFUSED);
}

static size_t of_count(char *room, size_t size) {
    return of_started(room, size, RMP_STEP_NONE, 0, RMP_OTHER_COUNT);
}

static size_t of_numbers(char *room, size_t size) {
    struct rmp_text text = {room, size, 0};
    rmp_text_told(&text, "", 0);
    rmp_text_told(&text, " ", 18446744073709551615u);
    rmp_text_put(&text, ' ');
    rmp_text_hex(&text, 0xDEADBEEF, 8);
    return rmp_text_end(&text);
}

static void texts(void) {
    says(of_item, "LRW 0x00010000 5 bytes at 8: counter moved by 12 of 15");
    says(of_broadcast, "BRD 0x0130 2 bytes at 13: counter moved by 5 of 5, 5 passed");
    says(of_station, "FPRD 0x1001:0x1100 1 bytes at 0: counter moved by 0 of 1");
    says(of_frame, "APWR -2:0x0010 2 bytes counter 1 irq 0x0000: 0310\n"
                   "BRD 0x0005:0x0130 2 bytes counter 5 turned irq 0x8004: 0800\n");
    says(of_no_frame, "no frame: the bytes end before the frame does at byte 1\n");
    says(of_code, "the data of an item do not lie in the image (17)");
    says(of_two, "links 2 and 4 down");
    says(of_one, "link 2 down");
    says(of_first, "link 2 is the first down, behind it unknown");
    says(of_last, "link 4 is the last down, before it unknown");
    says(of_whole, "whole");
    says(of_changed, "changed");
    says(of_nothing, "unknown");
    says(of_value, "good: 0x00000002");
    says(of_byte, "good: 0x00");
    says(of_state, "good: Op");
    says(of_written, "good");
    says(of_refused, "the slave refused the state: 0x001d");
    says(of_abort, "the slave ended the transfer: 0x06020000");
    says(of_stranger, "a packet is not of the sent frame");
    says(of_op, "Op");
    says(of_error, "Safe-Op, error 0x001d");
    says(of_nobody, "no slave answered");
    says(of_no_copy, "no copy came");
    says(of_several, "more than one slave answered");
    says(of_other, "no such form");
    says(of_step, "to Safe-Op, slave 2, FMMU 7: the answer is none to what was asked, or more than one slave "
                  "answered");
    says(of_station_step, "to Safe-Op, slave 2, station address: no slave answered, or it has no mailboxes");
    says(of_state_step, "to Safe-Op, slave 2, state Safe-Op: the slave refused the state: 0x001d");
    says(of_count, "another number of slaves was counted: 29");
    says(of_numbers, "0 18446744073709551615 deadbeef");
    CHECK(strcmp(rmp_stage_text(RMP_STAGE_COUNT), "slaves are counted") == 0);
    CHECK(strcmp(rmp_stage_text(RMP_STAGE_OP), "to Op") == 0);
    CHECK(strcmp(rmp_stage_text(7), "no such stage") == 0);
    CHECK(strcmp(rmp_step_text(RMP_STEP_NONE), "none") == 0);
    CHECK(strcmp(rmp_step_text(RMP_STEP_STATE), "state") == 0);
    CHECK(strcmp(rmp_step_text(6), "no such step") == 0);
    CHECK(strcmp(rmp_al_state_text(RMP_PRE_OP), "Pre-Op") == 0);
    CHECK(strcmp(rmp_al_state_text(3), "no such state") == 0);
    CHECK(strcmp(rmp_command_text(14), "FRMW") == 0 && strcmp(rmp_command_text(15), "no such command") == 0);
    CHECK(strcmp(rmp_rule_text(RMP_LONG_LINE), "the line has too many slaves") == 0);
    CHECK(strcmp(rmp_rule_text(9), "no such rule") == 0);
}

int main(void) {
    addresses();
    records();
    wrong_records();
    broadcasts();
    texts();
    return failed;
}
