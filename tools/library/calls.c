/* The calls, with bytes written out by hand from IEC 61158-4-12; what each needs of the stack; and that
 * each field of each struct is the one that the library means. Prints what it finds, and ends with 1 at the
 * first that is not as it should be. */
#include "rummymaple.h"
#include <stdio.h>
#include <stdlib.h>
#include <string.h>
#include <time.h>
#include <ucontext.h>

/* Of all calls but those of talks by turns and of looks; and of these. */
#define STACK_LIMIT 8192
#define TALK_STACK_LIMIT 65536

static int failed;

#define CHECK(test)                                                                                          \
    do {                                                                                                     \
        if (!(test)) {                                                                                       \
            printf("FAILED at line %d: %s\n", __LINE__, #test);                                              \
            failed = 1;                                                                                      \
        }                                                                                                    \
    } while (0)

/* An LRW of two bytes at 0x00010000 with index 0, and a BRD of two bytes at register 0x0130 with index 1. */
static const uint8_t FRAME[] = {
    28, 0x10, /* 28 bytes of datagrams, type 1 */
    0x0C, 0, 0x00, 0x00, 0x01, 0x00, 2, 0x80, 0, 0, 0xAA, 0x55, 0x00, 0x08, /* LRW, and more follow */
    0x07, 1, 0x00, 0x00, 0x30, 0x01, 2, 0x00, 0, 0, 0x00, 0x00, 0x00, 0x08, /* BRD with ADP 0 */
};

/* What two slaves make of it: 0x12 and 0x34 are read, the BRD's data are or-ed, counters rise. */
static const uint8_t FROM_A[] = {
    28, 0x10, /* one slave on the way */
    0x0C, 0, 0x00, 0x00, 0x01, 0x00, 2, 0x80, 0, 0, 0x12, 0x55, 0x03, 0x08,
    0x07, 1, 0x01, 0x00, 0x30, 0x01, 2, 0x00, 0, 0, 0x08, 0x00, 0x01, 0x08,
};
static const uint8_t FROM_B[] = {
    28, 0x10, /* the other slave on the way, where it turned round: the circulating bits are set */
    0x0C, 0, 0x00, 0x00, 0x01, 0x00, 2, 0xC0, 0, 0, 0xAA, 0x34, 0x03, 0x08,
    0x07, 1, 0x01, 0x00, 0x30, 0x01, 2, 0x40, 0, 0, 0x08, 0x00, 0x01, 0x08,
};
static const uint8_t JOINED[] = {
    28, 0x10,
    0x0C, 0, 0x00, 0x00, 0x01, 0x00, 2, 0xC0, 0, 0, 0x12, 0x34, 0x06, 0x08,
    0x07, 1, 0x02, 0x00, 0x30, 0x01, 2, 0x40, 0, 0, 0x08, 0x00, 0x02, 0x08,
};

static struct rmp_item items[2];
static uint8_t image[6];
static uint8_t sent[RMP_FRAME_SIZE], joined[RMP_FRAME_SIZE];

static void begin(void) {
    struct rmp_item exchange = {0x00010000, 1, 2, RMP_LRW, 6, 0x0800, 0, 0};
    struct rmp_item states = {0x0130, 4, 2, RMP_BRD, 2, 0x0800, 0, 0};
    const uint8_t first[6] = {0xF0, 0xAA, 0x55, 0xF1, 0, 0};
    items[0] = exchange;
    items[1] = states;
    memcpy(image, first, sizeof image);
}

static void cycle(void) {
    const uint8_t after[6] = {0xF0, 0x12, 0x34, 0xF1, 8, 0};
    struct rmp_framed made = rmp_frame(items, 2, image, sizeof image, 0, sent, sizeof sent);
    CHECK(made.code == RMP_GOOD && made.items == 2 && made.bytes == sizeof FRAME && made.at == 0);
    CHECK(memcmp(sent, FRAME, sizeof FRAME) == 0);
    struct rmp_joined came = rmp_join(RMP_UDP, sent, made.bytes, FROM_A, sizeof FROM_A, FROM_B, sizeof FROM_B,
                                      joined, sizeof joined);
    CHECK(came.code == RMP_GOOD && came.bytes == sizeof JOINED && came.at == 0);
    CHECK(came.copy_a == RMP_CAME && came.copy_b == RMP_CAME);
    CHECK(memcmp(joined, JOINED, sizeof JOINED) == 0);
    struct rmp_answer verdict = rmp_judge(items, 2, 0, joined, came.bytes);
    CHECK(verdict.code == RMP_GOOD && verdict.at == 0);
    CHECK(items[0].came == 0x0806 && items[0].passed == 0);
    CHECK(items[1].came == 0x0802 && items[1].passed == 2);
    CHECK(items[0].address == 0x00010000 && items[0].offset == 1 && items[0].length == 2);
    CHECK(items[1].kind == RMP_BRD && items[1].expected == 2 && items[1].sent == 0x0800);
    struct rmp_answer stored = rmp_store(items, 2, 0, joined, came.bytes, image, sizeof image);
    CHECK(stored.code == RMP_GOOD && stored.at == 0);
    CHECK(memcmp(image, after, sizeof after) == 0);
}

/* Where the places of items overlap the last item that reads prevails, and no other byte changes. */
static void overlapping(void) {
    const uint8_t after[6] = {0xF0, 0x12, 0x08, 0x00, 0, 0};
    struct rmp_cycle turns = rmp_cycle_begin(RMP_UDP);
    uint8_t room[6];
    begin();
    items[1].offset = 2; /* the LRW's data lie at 1 and 2, the BRD's at 2 and 3 */
    CHECK(rmp_store(items, 2, 0, JOINED, sizeof JOINED, image, sizeof image).code == RMP_GOOD);
    CHECK(memcmp(image, after, sizeof after) == 0);
    begin();
    items[1].offset = 2;
    memset(room, 0xEE, sizeof room);
    CHECK(rmp_cycle_came(&turns, items, 2, FRAME, sizeof FRAME, FROM_A, sizeof FROM_A, FROM_B, sizeof FROM_B,
                         room, sizeof room, image, sizeof image)
              .code == RMP_GOOD);
    CHECK(memcmp(image, after, sizeof after) == 0 && room[0] == 0xEE && room[4] == 0xEE);
    begin();
}

/* Copies that are lost, damaged or of another frame. */
static void copies(void) {
    uint8_t other[sizeof FROM_B];
    memcpy(other, FROM_B, sizeof other);
    struct rmp_joined came =
        rmp_join(RMP_UDP, FRAME, sizeof FRAME, FROM_A, sizeof FROM_A, NULL, 0, joined, sizeof joined);
    CHECK(came.code == RMP_GOOD && came.copy_a == RMP_CAME && came.copy_b == RMP_LOST);
    CHECK(memcmp(joined, FROM_A, sizeof FROM_A) == 0);
    CHECK(rmp_judge(items, 2, 0, joined, came.bytes).code == RMP_SHORT);
    other[0] = 27; /* a byte too few is stated */
    came = rmp_join(RMP_UDP, FRAME, sizeof FRAME, other, sizeof other, FROM_B, sizeof FROM_B, joined,
                    sizeof joined);
    CHECK(came.code == RMP_GOOD && came.copy_a == RMP_NO_FRAME && came.copy_b == RMP_CAME);
    CHECK(memcmp(joined, FROM_B, sizeof FROM_B) == 0);
    other[0] = 28;
    other[17] = 7; /* the second datagram has another index */
    joined[0] = 0x5A;
    came = rmp_join(RMP_UDP, FRAME, sizeof FRAME, FROM_A, sizeof FROM_A, other, sizeof other, joined,
                    sizeof joined);
    CHECK(came.code == RMP_STRANGER_B && came.at == 1 && came.bytes == 0 && joined[0] == 0x5A);
    came = rmp_join(RMP_UDP, FRAME, sizeof FRAME, other, sizeof other, other, sizeof other, joined,
                    sizeof joined);
    CHECK(came.code == RMP_STRANGER_A && came.at == 1);
    came = rmp_join(RMP_UDP, FRAME, 10, NULL, 0, NULL, 0, joined, sizeof joined);
    CHECK(came.code == RMP_NOT_SENT && came.at == 10);
    CHECK(rmp_join(2, FRAME, sizeof FRAME, NULL, 0, NULL, 0, joined, sizeof joined).code == RMP_BAD_FORM);
    CHECK(rmp_join(RMP_UDP, FRAME, sizeof FRAME, NULL, 0, NULL, 0, joined, 29).code == RMP_NO_ROOM);
    CHECK(rmp_join(RMP_UDP, NULL, 0, NULL, 0, NULL, 0, NULL, 0).code == RMP_NOT_SENT);
}

/* The frame with the number 0x0123456789ABCDEE behind it; and FROM_A and FROM_B with it. */
#define NUMBER 0x0123456789ABCDEEu
static const uint8_t NUMBERED[] = {
    48, 0x10, /* 48 bytes of datagrams; the BRD says now that more follow */
    0x0C, 0, 0x00, 0x00, 0x01, 0x00, 2, 0x80, 0, 0, 0xAA, 0x55, 0x00, 0x08,
    0x07, 1, 0x00, 0x00, 0x30, 0x01, 2, 0x80, 0, 0, 0x00, 0x00, 0x00, 0x08,
    0x00, 0, 0x00, 0x00, 0x00, 0x00, 8, 0x00, 0, 0, 0xEE, 0xCD, 0xAB, 0x89, 0x67, 0x45, 0x23, 0x01, 0, 0,
};
static const uint8_t NUMBERED_FROM_A[] = {
    48, 0x10,
    0x0C, 0, 0x00, 0x00, 0x01, 0x00, 2, 0x80, 0, 0, 0x12, 0x55, 0x03, 0x08,
    0x07, 1, 0x01, 0x00, 0x30, 0x01, 2, 0x80, 0, 0, 0x08, 0x00, 0x01, 0x08,
    0x00, 0, 0x00, 0x00, 0x00, 0x00, 8, 0x00, 0, 0, 0xEE, 0xCD, 0xAB, 0x89, 0x67, 0x45, 0x23, 0x01, 0, 0,
};
static const uint8_t NUMBERED_FROM_B[] = {
    48, 0x10, /* where it turned round: the circulating bits are set, that of the number too */
    0x0C, 0, 0x00, 0x00, 0x01, 0x00, 2, 0xC0, 0, 0, 0xAA, 0x34, 0x03, 0x08,
    0x07, 1, 0x01, 0x00, 0x30, 0x01, 2, 0xC0, 0, 0, 0x08, 0x00, 0x01, 0x08,
    0x00, 0, 0x00, 0x00, 0x00, 0x00, 8, 0x40, 0, 0, 0xEE, 0xCD, 0xAB, 0x89, 0x67, 0x45, 0x23, 0x01, 0, 0,
};

/* A packet that is opened: it is these bytes without its number. */
static void opened(const uint8_t *packet, size_t size, const uint8_t wanted[sizeof FRAME]) {
    struct rmp_written out;
    memset(joined, 0x5A, sizeof joined);
    out = rmp_open(RMP_UDP, NUMBER, FRAME, sizeof FRAME, packet, size, joined, sizeof FRAME);
    CHECK(out.code == RMP_GOOD && out.bytes == sizeof FRAME && out.at == 0);
    CHECK(memcmp(joined, wanted, sizeof FRAME) == 0 && joined[sizeof FRAME] == 0x5A);
}

/* A packet that is not opened: nothing is written. */
static void unopened(uint64_t number, const uint8_t *packet, size_t size, uint32_t code, size_t at) {
    struct rmp_written out;
    joined[0] = 0x5A;
    out = rmp_open(RMP_UDP, number, FRAME, sizeof FRAME, packet, size, joined, sizeof joined);
    CHECK(out.code == code && out.at == at && out.bytes == 0 && joined[0] == 0x5A);
}

static void numbering(void) {
    static const uint8_t probe[] = {34, 0x10, /* another frame with the number */
                                    7,  1,    1, 0, 0x30, 0x01, 2, 0x80, 0, 0, 8,    0,    1,    0,
                                    0,  0,    0, 0, 0,    0,    8, 0,    0, 0, 0xEE, 0xCD, 0xAB, 0x89,
                                    0x67, 0x45, 0x23, 0x01, 0, 0};
    static const uint8_t data[RMP_MAX_DATA];
    uint8_t other[sizeof NUMBERED], padded[60] = {0};
    struct rmp_written out;
    memset(sent, 0x5A, sizeof sent);
    out = rmp_seal(NUMBER, FRAME, sizeof FRAME, sent, sizeof sent);
    CHECK(out.code == RMP_GOOD && out.bytes == sizeof FRAME + RMP_NUMBER_LENGTH && out.at == 0);
    CHECK(memcmp(sent, NUMBERED, sizeof NUMBERED) == 0 && sent[sizeof NUMBERED] == 0x5A);
    out = rmp_seal(UINT64_MAX, FRAME, sizeof FRAME, sent, sizeof NUMBERED);
    CHECK(out.code == RMP_GOOD && sent[39] == 0 && sent[40] == 0xFF && sent[47] == 0xFF && sent[48] == 0);
    sent[0] = 0x5A;
    CHECK(rmp_seal(0, FRAME, sizeof FRAME, sent, sizeof NUMBERED - 1).code == RMP_NO_ROOM);
    out = rmp_seal(0, FRAME, sizeof FRAME - 1, sent, sizeof sent);
    CHECK(out.code == RMP_NOT_SENT && out.at == sizeof FRAME - 1 && out.bytes == 0 && sent[0] == 0x5A);
    CHECK(rmp_seal(0, NULL, 0, NULL, 0).code == RMP_NOT_SENT);
    out = rmp_single(2, 0, data, RMP_MAX_DATA - RMP_NUMBER_LENGTH, sent, sizeof sent);
    out = rmp_seal(NUMBER, sent, out.bytes, joined, sizeof joined);
    CHECK(out.code == RMP_GOOD && out.bytes == RMP_FRAME_SIZE && joined[RMP_FRAME_SIZE - 3] == 0x01);
    out = rmp_single(2, 0, data, RMP_MAX_DATA - RMP_NUMBER_LENGTH + 1, sent, sizeof sent);
    CHECK(rmp_open(RMP_UDP, 0, sent, out.bytes, NULL, 0, NULL, 0).code == RMP_FULL);
    out = rmp_seal(NUMBER, sent, out.bytes, joined, sizeof joined);
    CHECK(out.code == RMP_FULL && out.bytes == 0 && out.at == 0);
    opened(NUMBERED, sizeof NUMBERED, FRAME);
    opened(NUMBERED_FROM_A, sizeof NUMBERED, FROM_A);
    opened(NUMBERED_FROM_B, sizeof NUMBERED, FROM_B);
    memcpy(other, NUMBERED_FROM_A, sizeof other);
    other[38] = 0x04; /* events, and a counter that somebody raised */
    other[48] = 1;
    opened(other, sizeof other, FROM_A);
    memcpy(padded, NUMBERED_FROM_A, sizeof NUMBERED_FROM_A);
    out = rmp_open(RMP_ETHERNET, NUMBER, FRAME, sizeof FRAME, padded, sizeof padded, joined, sizeof joined);
    CHECK(out.code == RMP_GOOD && out.bytes == sizeof FROM_A);
    unopened(NUMBER, padded, sizeof padded, RMP_FAULT_TRAILING, sizeof NUMBERED);
    for (int byte = 0; byte < 8; byte++) /* copy B's, and those of other trips and runs */
        unopened(NUMBER ^ (uint64_t)1 << 8 * byte, NUMBERED_FROM_A, sizeof NUMBERED, RMP_OTHER_NUMBER, 0);
    unopened(NUMBER, FROM_A, sizeof FROM_A, RMP_OTHER_NUMBER, 0); /* it has none */
    unopened(NUMBER, probe, sizeof probe, RMP_OTHER_FRAME, 0);
    unopened(NUMBER, NULL, 0, RMP_FAULT_SHORT, 0);
    other[17] = 7; /* the second datagram has another index */
    unopened(NUMBER, other, sizeof other, RMP_OTHER_FRAME, 1);
    other[17] = 1;
    other[30] = RMP_LRD; /* the number is in no NOP */
    unopened(NUMBER, other, sizeof other, RMP_OTHER_FRAME, 2);
    out = rmp_open(RMP_UDP, NUMBER, FRAME, 9, NUMBERED_FROM_A, sizeof NUMBERED, joined, sizeof joined);
    CHECK(out.code == RMP_NOT_SENT && out.at == 9);
    CHECK(rmp_open(2, 0, FRAME, sizeof FRAME, NULL, 0, NULL, 0).code == RMP_BAD_FORM);
    CHECK(rmp_open(RMP_UDP, NUMBER, FRAME, sizeof FRAME, NUMBERED_FROM_A, sizeof NUMBERED, joined,
                   sizeof FRAME - 1)
              .code == RMP_NO_ROOM);
}

/* Padding belongs to a frame in an Ethernet packet alone. */
static void forms(void) {
    uint8_t padded[46] = {0};
    memcpy(padded, FROM_A, sizeof FROM_A);
    struct rmp_joined came = rmp_join(RMP_ETHERNET, FRAME, sizeof FRAME, padded, sizeof padded, FROM_B,
                                      sizeof FROM_B, joined, sizeof joined);
    CHECK(came.code == RMP_GOOD && came.copy_a == RMP_CAME && came.bytes == sizeof JOINED);
    came = rmp_join(RMP_UDP, FRAME, sizeof FRAME, padded, sizeof padded, FROM_B, sizeof FROM_B, joined,
                    sizeof joined);
    CHECK(came.code == RMP_GOOD && came.copy_a == RMP_NO_FRAME);
}

/* Items that are not taken, and frames that are not theirs. */
static void refusals(void) {
    struct rmp_framed made;
    begin();
    CHECK(rmp_frame(items, 2, image, 5, 0, sent, sizeof sent).code == RMP_BAD_PLACE);
    CHECK(rmp_frame(items, 2, image, 5, 0, sent, sizeof sent).at == 1);
    CHECK(rmp_frame(items, 2, image, sizeof image, 2, sent, sizeof sent).code == RMP_NO_ITEM);
    CHECK(rmp_frame(items, 2, image, sizeof image, 0, sent, 29).code == RMP_NO_ROOM);
    CHECK(rmp_frame(NULL, 0, NULL, 0, 0, NULL, 0).code == RMP_NO_ITEM);
    items[1].kind = 8;
    CHECK(rmp_frame(items, 2, image, sizeof image, 0, sent, sizeof sent).code == RMP_BAD_KIND);
    begin();
    items[0].length = 0;
    CHECK(rmp_frame(items, 2, image, sizeof image, 0, sent, sizeof sent).code == RMP_BAD_LENGTH);
    begin();
    items[0].address = 0xFFFFFFFF;
    CHECK(rmp_frame(items, 2, image, sizeof image, 0, sent, sizeof sent).code == RMP_BAD_RANGE);
    begin();
    CHECK(rmp_judge(items, 2, 1, JOINED, sizeof JOINED).code == RMP_OTHER_ITEM);
    CHECK(rmp_judge(items, 1, 0, JOINED, sizeof JOINED).code == RMP_OTHER_ITEM);
    CHECK(rmp_judge(items, 1, 0, JOINED, sizeof JOINED).at == 1 && items[0].came == 0);
    CHECK(rmp_judge(items, 2, 0, JOINED, 20).code == RMP_NOT_JOINED);
    CHECK(rmp_store(items, 2, SIZE_MAX, JOINED, sizeof JOINED, image, sizeof image).code == RMP_OTHER_ITEM);
    CHECK(rmp_store(items, 2, 0, JOINED, sizeof JOINED, image, 5).code == RMP_BAD_PLACE);
    items[1].expected = 1;
    made = rmp_frame(items, 2, image, sizeof image, 1, sent, sizeof sent);
    CHECK(made.code == RMP_GOOD && made.items == 1 && made.bytes == 16 && sent[3] == 1);
    CHECK(rmp_judge(items, 2, 0, JOINED, sizeof JOINED).code == RMP_OVER);
    CHECK(rmp_judge(items, 2, 0, JOINED, sizeof JOINED).at == 1);
}

/* The reader: where the datagrams lie, and the first fault with its place. */
static void reading(void) {
    static struct rmp_datagram found[RMP_MAX_DATAGRAMS];
    uint8_t bytes[sizeof FROM_B + 1];
    struct rmp_reading read = rmp_read(RMP_UDP, FROM_B, sizeof FROM_B, found, RMP_MAX_DATAGRAMS);
    CHECK(read.code == RMP_GOOD && read.count == 2 && read.at == 0);
    CHECK(found[0].data == 12 && found[0].length == 2 && found[0].address == 0x00010000);
    CHECK(found[0].command == 12 && found[0].index == 0 && found[0].counter == 0x0803);
    CHECK(found[1].data == 26 && found[1].length == 2 && found[1].address == 0x01300001);
    CHECK(found[1].command == 7 && found[1].index == 1 && found[1].counter == 0x0801);
    CHECK(found[1].circulating == 1 && found[1].irq == 0);
    read = rmp_read(RMP_UDP, FROM_B, sizeof FROM_B, found, 1);
    CHECK(read.code == RMP_NO_ROOM && read.count == 2);
    CHECK(rmp_read(RMP_UDP, NULL, 0, NULL, 0).code == RMP_FAULT_SHORT);
    CHECK(rmp_read(9, FROM_B, sizeof FROM_B, found, 1).code == RMP_BAD_FORM);
    memcpy(bytes, FROM_B, sizeof FROM_B);
    bytes[sizeof FROM_B] = 0;
    read = rmp_read(RMP_UDP, bytes, sizeof bytes, found, RMP_MAX_DATAGRAMS);
    CHECK(read.code == RMP_FAULT_TRAILING && read.at == sizeof FROM_B);
    CHECK(rmp_read(RMP_ETHERNET, bytes, sizeof bytes, found, RMP_MAX_DATAGRAMS).code == RMP_GOOD);
    bytes[16] = 15;
    read = rmp_read(RMP_UDP, bytes, sizeof FROM_B, found, RMP_MAX_DATAGRAMS);
    CHECK(read.code == RMP_FAULT_BAD_COMMAND && read.at == 16);
    bytes[9] = 0x00;
    read = rmp_read(RMP_UDP, bytes, sizeof FROM_B, found, RMP_MAX_DATAGRAMS);
    CHECK(read.code == RMP_FAULT_LEFT_OVER && read.at == 16);
    bytes[9] = 0x20;
    read = rmp_read(RMP_UDP, bytes, sizeof FROM_B, found, RMP_MAX_DATAGRAMS);
    CHECK(read.code == RMP_FAULT_RESERVED && read.at == 9);
    bytes[1] = 0x40;
    read = rmp_read(RMP_UDP, bytes, sizeof FROM_B, found, RMP_MAX_DATAGRAMS);
    CHECK(read.code == RMP_FAULT_BAD_TYPE && read.at == 1);
}

/* A cycle of one frame, and of two: the data wait until both are good. */
static void turns(void) {
    static uint8_t large[1600], waits[1600], copy[RMP_FRAME_SIZE];
    static const uint8_t nothing[1600];
    struct rmp_item two[2] = {{0x1000, 0, 1400, RMP_LRD, 1, 0, 0, 0},
                              {0x2000, 1400, 200, RMP_LRD, 1, 0, 0, 0}};
    const uint8_t after[6] = {0xF0, 0x12, 0x34, 0xF1, 8, 0};
    uint8_t waiting[6] = {0};
    struct rmp_cycle cycle = rmp_cycle_begin(RMP_UDP);
    struct rmp_framed made;
    struct rmp_turn turn;
    begin();
    CHECK(cycle.first == 0 && cycle.form == RMP_UDP && cycle.state == RMP_UNDER_WAY);
    made = rmp_cycle_next(&cycle, items, 2, image, sizeof image, sent, sizeof sent);
    CHECK(made.code == RMP_GOOD && made.items == 2 && memcmp(sent, FRAME, sizeof FRAME) == 0);
    turn = rmp_cycle_came(&cycle, items, 2, sent, made.bytes, FROM_A, sizeof FROM_A, FROM_A, 9, waiting, 5,
                          image, sizeof image);
    CHECK(turn.code == RMP_NO_ROOM && cycle.state == RMP_UNDER_WAY && items[0].came == 0);
    turn = rmp_cycle_came(&cycle, items, 2, sent, made.bytes, FROM_A, sizeof FROM_A, FROM_B, sizeof FROM_B,
                          waiting, sizeof waiting, image, sizeof image);
    CHECK(turn.code == RMP_GOOD && turn.copy_a == RMP_CAME && turn.copy_b == RMP_CAME);
    CHECK(cycle.state == RMP_DONE && cycle.first == 2 && memcmp(image, after, sizeof after) == 0);
    CHECK(items[0].came == 0x0806 && items[1].passed == 2);
    made = rmp_cycle_next(&cycle, items, 2, image, sizeof image, sent, sizeof sent);
    CHECK(made.code == RMP_NOT_UNDER_WAY && made.bytes == 0);
    for (int good = 0; good < 2; good++) {
        cycle = rmp_cycle_begin(RMP_ETHERNET);
        for (int k = 0; k < 2; k++) {
            made = rmp_cycle_next(&cycle, two, 2, large, sizeof large, sent, sizeof sent);
            CHECK(made.code == RMP_GOOD && made.items == 1 && sent[3] == k);
            memcpy(copy, sent, made.bytes);
            copy[12] = 0x77;
            copy[made.bytes - 2] = (uint8_t)(k == 0 || good); /* the counter */
            turn = rmp_cycle_came(&cycle, two, 2, sent, made.bytes, copy, made.bytes, NULL, 0, waits,
                                  sizeof waits, large, sizeof large);
            CHECK(turn.at == (size_t)(k == 1 && !good) && turn.code == (turn.at ? RMP_SHORT : RMP_GOOD));
            CHECK(k == 1 || (cycle.state == RMP_UNDER_WAY && memcmp(large, nothing, sizeof large) == 0));
        }
        CHECK(cycle.state == (good ? RMP_DONE : RMP_ENDED));
        CHECK(good || memcmp(large, nothing, sizeof large) == 0);
        CHECK(large[0] == (good ? 0x77 : 0) && large[1400] == large[0] && large[1] == 0 && large[1401] == 0);
    }
}

/* What two copies of a BRD of AL status tell of the cable of three slaves. */
static const uint8_t PROBE[] = {14, 0x10, 0x07, 0, 0, 0, 0x30, 0x01, 2, 0, 0, 0, 0, 0, 0x00, 0x08};

static void processed(uint8_t copy[sizeof PROBE], uint8_t count, int turned) {
    memcpy(copy, PROBE, sizeof PROBE);
    copy[4] = count; /* the ADP, and the counter */
    copy[14] = count;
    if (turned)
        copy[9] |= 0x40;
}

static void cable(int a, int turned_a, int b, int turned_b, uint32_t kind, size_t first, size_t last) {
    uint8_t from_a[sizeof PROBE], from_b[sizeof PROBE];
    processed(from_a, (uint8_t)a, turned_a);
    processed(from_b, (uint8_t)b, turned_b);
    struct rmp_located place = rmp_where(RMP_UDP, PROBE, sizeof PROBE, a < 0 ? NULL : from_a,
                                         a < 0 ? 0 : sizeof from_a, b < 0 ? NULL : from_b,
                                         b < 0 ? 0 : sizeof from_b, 3);
    CHECK(place.code == RMP_GOOD && place.at == 0);
    CHECK(place.cable == kind && place.first == first && place.last == last);
    CHECK(place.copy_a == (a < 0 ? RMP_LOST : RMP_CAME) && place.copy_b == (b < 0 ? RMP_LOST : RMP_CAME));
}

static void cables(void) {
    struct rmp_located place;
    cable(0, 0, 3, 0, RMP_WHOLE, 0, 0);
    cable(1, 0, 2, 1, RMP_ONE, 1, 1);
    cable(2, 0, 1, 1, RMP_ONE, 2, 2);
    cable(-1, 0, 3, 1, RMP_ONE, 0, 0); /* the first slave's cable to port A */
    cable(3, 0, -1, 0, RMP_ONE, 3, 3); /* and the last slave's to port B */
    cable(1, 0, 1, 1, RMP_BETWEEN, 1, 2);
    cable(1, 0, -1, 0, RMP_FIRST, 1, 0);
    cable(-1, 0, 1, 1, RMP_LAST, 0, 2);
    cable(-1, 0, -1, 0, RMP_UNKNOWN, 0, 0);
    cable(0, 0, 2, 1, RMP_CHANGED, 0, 0);
    cable(4, 0, -1, 0, RMP_CHANGED, 0, 0); /* more than there are */
    place = rmp_where(RMP_UDP, PROBE, 5, NULL, 0, NULL, 0, 3);
    CHECK(place.code == RMP_NOT_SENT && place.at == 5 && place.cable == RMP_UNKNOWN);
    CHECK(rmp_where(2, PROBE, sizeof PROBE, NULL, 0, NULL, 0, 3).code == RMP_BAD_FORM);
    place = rmp_where(RMP_UDP, FRAME, sizeof FRAME, FROM_A, sizeof FROM_A, FROM_B, sizeof FROM_B, 2);
    CHECK(place.code == RMP_NOT_BROADCAST && place.cable == RMP_UNKNOWN && place.copy_a == RMP_LOST);
    place = rmp_where(RMP_UDP, PROBE, sizeof PROBE, PROBE, 15, NULL, 0, SIZE_MAX);
    CHECK(place.code == RMP_GOOD && place.copy_a == RMP_NO_FRAME && place.cable == RMP_UNKNOWN);
}

/* Frames of one datagram: the fourth slave's station address, and the longest one. */
static void singles(void) {
    static const uint8_t station[] = {14, 0x10, 2, 0, 0xFD, 0xFF, 0x10, 0, 2, 0, 0, 0, 0x04, 0x10, 0, 0};
    static const uint8_t data[RMP_MAX_DATA + 1] = {0x04, 0x10};
    struct rmp_written frame;
    memset(sent, 0x5A, sizeof sent);
    frame = rmp_single(2, 0x0010FFFD, data, 2, sent, sizeof sent);
    CHECK(frame.code == RMP_GOOD && frame.bytes == sizeof station && frame.at == 0);
    CHECK(memcmp(sent, station, sizeof station) == 0 && sent[sizeof station] == 0x5A);
    frame = rmp_single(14, 0, data, RMP_MAX_DATA, sent, sizeof sent);
    CHECK(frame.code == RMP_GOOD && frame.bytes == RMP_FRAME_SIZE && sent[8] == 0xCE && sent[9] == 0x05);
    CHECK(rmp_single(14, 0, data, RMP_MAX_DATA + 1, sent, sizeof sent).code == RMP_BAD_LENGTH);
    CHECK(rmp_single(2, 0, data, 0, sent, sizeof sent).code == RMP_BAD_LENGTH);
    CHECK(rmp_single(2, 0, NULL, 0, NULL, 0).code == RMP_BAD_LENGTH);
    CHECK(rmp_single(15, 0, data, 2, sent, sizeof sent).code == RMP_BAD_COMMAND);
    CHECK(rmp_single(258, 0, data, 2, sent, sizeof sent).code == RMP_BAD_COMMAND);
    CHECK(rmp_single(2, 0, data, 2, sent, 15).code == RMP_NO_ROOM);
}

/* Each code has a text of its own. */
static void texts(void) {
    for (uint32_t code = 0; code <= RMP_OTHER_COUNT; code++)
        for (uint32_t other = 0; other < code; other++)
            CHECK(strcmp(rmp_code_text(code), rmp_code_text(other)) != 0);
    CHECK(strcmp(rmp_code_text(RMP_GOOD), "good") == 0);
    CHECK(strcmp(rmp_code_text(RMP_BAD_PLACE), "the data of an item do not lie in the image") == 0);
    CHECK(strcmp(rmp_code_text(RMP_FAULT_SHORT), "the bytes end before the frame does") == 0);
    CHECK(strcmp(rmp_code_text(RMP_NOT_UNDER_WAY),
                 "the cycle, service or start-up is done or ended") == 0);
    CHECK(strcmp(rmp_code_text(RMP_FULL), "the frame has no place for a number") == 0);
    CHECK(strcmp(rmp_code_text(RMP_OTHER_NUMBER), "the packet has another number, or none") == 0);
    CHECK(strcmp(rmp_code_text(RMP_BAD_COMMAND), "no such command") == 0);
    CHECK(strcmp(rmp_code_text(RMP_NEVER_COMPLETED),
                 "no item writes the last byte of an area of outputs") == 0);
    CHECK(strcmp(rmp_code_text(RMP_GOES_ON), "another frame goes out") == 0);
    CHECK(strcmp(rmp_code_text(RMP_ABORTED), "the slave ended the transfer") == 0);
    CHECK(strcmp(rmp_code_text(RMP_OTHER_COUNT), "another number of slaves was counted") == 0);
    CHECK(strcmp(rmp_code_text(RMP_OTHER_COUNT + 1), "no such code") == 0);
}

/* A byte more than a frame holds goes onto the next one. */
static void cut(void) {
    static struct rmp_item many[3];
    static uint8_t large[3 * RMP_MAX_DATA];
    struct rmp_item whole = {0, 0, 700, RMP_LRD, 0, 0, 0, 0};
    struct rmp_framed made;
    many[0] = many[1] = many[2] = whole;
    many[2].length = 62; /* 712 + 712 + 74 bytes of datagrams: 1,498 */
    made = rmp_frame(many, 3, large, sizeof large, 0, sent, sizeof sent);
    CHECK(made.code == RMP_GOOD && made.items == 3 && made.bytes == RMP_FRAME_SIZE);
    many[2].length = 63;
    made = rmp_frame(many, 3, large, sizeof large, 0, sent, sizeof sent);
    CHECK(made.code == RMP_GOOD && made.items == 2);
    made = rmp_frame(many, 3, large, sizeof large, 2, sent, sizeof sent);
    CHECK(made.code == RMP_GOOD && made.items == 1 && sent[3] == 2);
}

/* ---- the mapping: records written out by hand */

static struct rmp_records line[RMP_MAX_SLAVES + 1];

/* An active sync manager: start, length, control (0x04 the master writes, 0x00 it reads), activate. */
static void area(int slave, int k, uint16_t start, uint8_t length, uint8_t control) {
    const uint8_t record[8] = {(uint8_t)start, (uint8_t)(start >> 8), length, 0, control, 0, 1, 0};
    memcpy(line[slave].sync_managers[k], record, sizeof record);
}

/* An active FMMU of one whole byte: type 1 is read by the master, 2 written. */
static void maps(int slave, int k, uint32_t logical, uint16_t physical, uint8_t type) {
    const uint8_t record[16] = {(uint8_t)logical, (uint8_t)(logical >> 8), (uint8_t)(logical >> 16),
                                (uint8_t)(logical >> 24), 1, 0, 0, 7, (uint8_t)physical,
                                (uint8_t)(physical >> 8), 0, type, 1, 0, 0, 0};
    memcpy(line[slave].fmmus[k], record, sizeof record);
}

/* Two slaves; the first has an area of each direction, and exchanges the byte at 0x00010000. */
static void map(void) {
    memset(line, 0, sizeof line);
    line[0].station = 0x1001;
    line[1].station = 0x1002;
    area(0, 2, 0x1000, 4, 0x04);
    area(0, 3, 0x1100, 4, 0x00);
    maps(0, 0, 0x00010000, 0x1000, 2);
    maps(0, 1, 0x00010000, 0x1100, 1);
}

static void broken(uint32_t rule, size_t slave, size_t number, size_t other_slave, size_t other_number,
                   uint64_t place) {
    struct rmp_mapping found = rmp_check(line, 2);
    CHECK(found.rule == rule && found.place == place);
    CHECK(found.slave == slave && found.number == number);
    CHECK(found.other_slave == other_slave && found.other_number == other_number);
    map();
}

static void mappings(void) {
    map();
    broken(RMP_FIT, 0, 0, 0, 0, 0);
    line[1].station = 0x1001;
    broken(RMP_TWIN_STATION, 0, 0, 1, 0, 0);
    maps(0, 2, 0x00010001, 0x1001, 3); /* it reads and writes */
    broken(RMP_BAD_FMMU, 0, 2, 0, 2, 0);
    area(0, 2, 0x1000, 5, 0x04);
    area(0, 3, 0x1004, 4, 0x00);
    broken(RMP_AREAS_MEET, 0, 2, 0, 3, 0x1004);
    maps(0, 2, 0x00010001, 0x1104, 1);
    broken(RMP_OUTSIDE_AREA, 0, 2, 0, 2, 0x1104);
    maps(0, 1, 0x00010001, 0x1000, 2);
    broken(RMP_TWICE_WRITTEN, 0, 0, 0, 1, 32768);
    maps(0, 0, 0x00010000, 0x1100, 1);
    maps(0, 1, 0x00010001, 0x1101, 1);
    area(1, 3, 0x1100, 1, 0x00);
    maps(1, 0, 0x00010000, 0x1100, 1);
    broken(RMP_TWICE_READ, 0, 0, 1, 0, 524288);
    memset(line[0].fmmus[1], 0, sizeof line[0].fmmus[1]);
    area(1, 3, 0x1100, 1, 0x00);
    maps(1, 0, 0x00010000, 0x1100, 1);
    broken(RMP_READ_AND_WRITTEN, 1, 0, 0, 0, 524288);
    CHECK(rmp_check(NULL, 0).rule == RMP_FIT);
    area(0, 2, 0x1000, 4, 0x26); /* a mailbox that the master writes, with its interrupt */
    broken(RMP_OUTSIDE_AREA, 0, 0, 0, 0, 0x1000);
}

static void placed(uint16_t kind, uint32_t address, uint16_t length, uint32_t code, size_t at) {
    struct rmp_item item = {address, 0, length, kind, 0, 0, 0, 0};
    struct rmp_answer found = rmp_check_item(line, 2, &item);
    CHECK(found.code == code && found.at == at);
}

static void expected(uint16_t kind, uint32_t address, uint16_t length, uint32_t counter, uint32_t code) {
    struct rmp_item item = {address, 0, length, kind, 0, 0, 0, 0};
    struct rmp_expectation found = rmp_expected(line, 2, &item);
    CHECK(found.code == code && found.counter == counter);
}

/* Where items may go, and by how much their counters move. */
static void items_on_a_line(void) {
    map();
    placed(RMP_LRW, 0x00020000, 8, RMP_GOOD, 0);
    placed(RMP_BRD, 0x0130, 2, RMP_GOOD, 0);
    placed(RMP_FPRD, 0x01301002, 2, RMP_GOOD, 0);
    placed(RMP_FPRD, 0x11001001, 4, RMP_GOOD, 0);
    placed(RMP_FPRD, 0x11001001, 5, RMP_OUTSIDE_READ, 0);
    placed(RMP_FPRD, 0x11001002, 1, RMP_OUTSIDE_READ, 1);
    placed(RMP_FPWR, 0x10001001, 4, RMP_GOOD, 0);
    placed(RMP_FPWR, 0x11001001, 1, RMP_OUTSIDE_WRITE, 0);
    placed(RMP_FPWR, 0x01201002, 2, RMP_OUTSIDE_WRITE, 1);
    placed(RMP_FPWR, 0x11001003, 1, RMP_GOOD, 0); /* nobody's station */
    placed(8, 0, 1, RMP_BAD_KIND, 0);
    placed(RMP_LRD, 0, 0, RMP_BAD_LENGTH, 0);
    placed(RMP_LRD, 0, RMP_MAX_DATA + 1, RMP_BAD_LENGTH, 0);
    placed(RMP_BRD, 0x0FFF, 2, RMP_BAD_RANGE, 0);
    expected(RMP_LRW, 0x00010000, 1, 3, RMP_GOOD);
    expected(RMP_LRD, 0x00010000, 1, 1, RMP_GOOD);
    expected(RMP_LWR, 0x0000FFFF, 2, 1, RMP_GOOD);
    expected(RMP_LRW, 0x00010001, 4, 0, RMP_GOOD);
    expected(RMP_BRD, 0x0130, 2, 2, RMP_GOOD);
    expected(RMP_FPRD, 0x11001001, 4, 1, RMP_GOOD);
    expected(RMP_FPRD, 0x11001003, 4, 0, RMP_GOOD);
    expected(RMP_FPWR, 0x10001001, 4, 1, RMP_GOOD);
    expected(RMP_LRD, 0xFFFFFFFF, 2, 0, RMP_BAD_RANGE);
    expected(RMP_LRD, 0xFFFFFFFF, 0, 0, RMP_BAD_LENGTH);
    expected(9, 0, 1, 0, RMP_BAD_KIND);
}

/* Which mapped bit no item asks for. */
static void coverage(void) {
    struct rmp_item asked[2] = {{0x00010000, 0, 1, RMP_LRD, 0, 0, 0, 0},
                                {0x00010000, 0, 1, RMP_LWR, 0, 0, 0, 0}};
    struct rmp_gap gap;
    map();
    gap = rmp_covered(line, 2, asked, 2);
    CHECK(gap.code == RMP_GOOD && gap.at == 0 && gap.fmmu == 0 && gap.bit == 0 && gap.way == 0);
    gap = rmp_covered(line, 2, asked, 1); /* the first FMMU writes */
    CHECK(gap.code == RMP_NOT_ASKED && gap.at == 0 && gap.fmmu == 0 && gap.bit == 524288 && gap.way == 1);
    gap = rmp_covered(line, 2, asked + 1, 1);
    CHECK(gap.code == RMP_NOT_ASKED && gap.at == 0 && gap.fmmu == 1 && gap.bit == 524288 && gap.way == 0);
    asked[1].kind = 3;
    gap = rmp_covered(line, 2, asked, 2);
    CHECK(gap.code == RMP_BAD_KIND && gap.at == 1 && gap.bit == 0);
    CHECK(rmp_covered(line, 2, NULL, 0).code == RMP_NOT_ASKED);
    CHECK(rmp_covered(NULL, 0, NULL, 0).code == RMP_GOOD);
    area(1, 2, 0x1000, 4, 0x04);
    maps(1, 5, 0x00010007, 0x1003, 2);
    asked[1].kind = RMP_LWR;
    asked[1].length = 7;
    gap = rmp_covered(line, 2, asked, 2);
    CHECK(gap.code == RMP_NOT_ASKED && gap.at == 1 && gap.fmmu == 5 && gap.bit == 524344 && gap.way == 1);
    asked[1].length = 8;
    CHECK(rmp_covered(line, 2, asked, 2).code == RMP_GOOD);
    map();
}

static void shown(const struct rmp_item *asked, size_t n, uint32_t code, size_t at, size_t sync_manager,
                  size_t item) {
    struct rmp_not_shown found = rmp_shown(line, 2, asked, n);
    CHECK(found.code == code && found.at == at && found.sync_manager == sync_manager && found.item == item);
}

/* Which mapped area of outputs is not shown whole: an area of four bytes, of which FMMUs map some. */
static void showing(void) {
    struct rmp_item asked[2] = {{0x00010000, 0, 1, RMP_LRW, 0, 0, 0, 0},
                                {0x10031001, 0, 1, RMP_FPWR, 0, 0, 0, 0}};
    map();
    shown(asked, 1, RMP_LEFT_BY, 0, 2, 0);          /* it writes byte 0 of 0 to 3 */
    shown(asked, 2, RMP_LEFT_BY, 0, 2, 0);          /* that another writes the last one is no help */
    shown(asked + 1, 1, RMP_GOOD, 0, 0, 0);         /* a write to the station completes it */
    shown(NULL, 0, RMP_NEVER_COMPLETED, 0, 2, 0);   /* nobody writes it */
    asked[1].address = 0x10021001;                  /* the byte before the last one */
    shown(asked + 1, 1, RMP_LEFT_BY, 0, 2, 0);
    asked[1].address = 0x10031002;                  /* of another station */
    shown(asked + 1, 1, RMP_NEVER_COMPLETED, 0, 2, 0);
    asked[1].kind = 3;
    shown(asked, 2, RMP_BAD_KIND, 1, 0, 0);
    maps(0, 2, 0x00010003, 0x1003, 2); /* the last byte too */
    shown(asked, 1, RMP_LEFT_BY, 0, 2, 0);
    asked[0].length = 4;
    shown(asked, 1, RMP_GOOD, 0, 0, 0);
    asked[0].kind = RMP_LRD;
    shown(asked, 1, RMP_NEVER_COMPLETED, 0, 2, 0);
    asked[0].kind = RMP_LWR;
    area(1, 5, 0x1200, 1, 0x04); /* the second slave's, of one byte */
    maps(1, 4, 0x00010009, 0x1200, 2);
    shown(asked, 1, RMP_NEVER_COMPLETED, 1, 5, 0);
    asked[1] = asked[0];
    asked[1].address = 0x00010006;
    shown(asked, 2, RMP_GOOD, 0, 0, 0);
    area(1, 5, 0x1200, 2, 0x04);
    shown(asked, 2, RMP_LEFT_BY, 1, 5, 1);
    CHECK(rmp_shown(NULL, 0, NULL, 0).code == RMP_GOOD);
    map();
}

/* A full line, each slave with all its FMMUs in use, and the time that its check takes. */
static void full_line(void) {
    enum { SLAVES = RMP_MAX_SLAVES, ROUNDS = 20 };
    clock_t begun_at;
    double milliseconds;
    memset(line, 0, sizeof line);
    for (int k = 0; k < SLAVES; k++) {
        line[k].station = (uint16_t)(0x1001 + k);
        area(k, 2, 0x1000, 4, 0x04);
        area(k, 3, 0x1100, 4, 0x00);
        for (int j = 0; j < 8; j++)
            maps(k, j, (uint32_t)(0x00010000 + 8 * k + j), (uint16_t)((j < 4 ? 0x1000 : 0x1100) + j % 4),
                 j < 4 ? 2 : 1);
    }
    begun_at = clock();
    for (int round = 0; round < ROUNDS; round++)
        CHECK(rmp_check(line, SLAVES).rule == RMP_FIT);
    milliseconds = 1000.0 * (double)(clock() - begun_at) / CLOCKS_PER_SEC / ROUNDS;
    printf("time of rmp_check of %d slaves: %.2f ms\n", SLAVES, milliseconds);
    CHECK(milliseconds < 20);
    CHECK(rmp_check(line, SLAVES + 1).rule == RMP_LONG_LINE && rmp_check(line, SLAVES + 1).place == 257);
    maps(SLAVES - 1, 7, 0x00010004, 0x1100, 1); /* what the first slave's FMMU 4 reads */
    CHECK(rmp_check(line, SLAVES).rule == RMP_TWICE_READ);
    CHECK(rmp_check(line, SLAVES).other_slave == SLAVES - 1 && rmp_check(line, SLAVES).other_number == 7);
    map();
}

/* ---- the stack: each call runs on one that was painted */

static uint8_t stack[2 * TALK_STACK_LIMIT];
static ucontext_t here, there;
static struct rmp_framed made;
static struct rmp_joined came;
static struct rmp_written marked;
static struct rmp_answer told;
static struct rmp_reading seen;
static struct rmp_located located;
static struct rmp_mapping mapped;
static struct rmp_expectation awaited;
static struct rmp_gap gap_found;
static struct rmp_not_shown area_found;
static struct rmp_cycle begun;
static struct rmp_turn turned;
static uint8_t waiting[6];
static struct rmp_datagram places[2];
static struct rmp_service asked;
static struct rmp_served served;
static struct rmp_start start;
static struct rmp_started started;
static struct rmp_seen looked;
static struct rmp_startup written;

static void call_nothing(void) {}
static void call_frame(void) { made = rmp_frame(items, 2, image, sizeof image, 0, sent, sizeof sent); }
static void call_join(void) {
    came = rmp_join(RMP_UDP, FRAME, sizeof FRAME, FROM_A, sizeof FROM_A, FROM_B, sizeof FROM_B, joined,
                    sizeof joined);
}
static void call_seal(void) { marked = rmp_seal(NUMBER, FRAME, sizeof FRAME, sent, sizeof sent); }
static void call_open(void) {
    marked = rmp_open(RMP_UDP, NUMBER, FRAME, sizeof FRAME, NUMBERED_FROM_A, sizeof NUMBERED_FROM_A, joined,
                      sizeof joined);
}
static void call_single(void) { marked = rmp_single(2, 0, FRAME, sizeof FRAME, sent, sizeof sent); }
static void call_judge(void) { told = rmp_judge(items, 2, 0, JOINED, sizeof JOINED); }
static void call_store(void) { told = rmp_store(items, 2, 0, JOINED, sizeof JOINED, image, sizeof image); }

static void call_read(void) { seen = rmp_read(RMP_UDP, JOINED, sizeof JOINED, places, 2); }

static void call_where(void) {
    located = rmp_where(RMP_UDP, PROBE, sizeof PROBE, PROBE, sizeof PROBE, PROBE, sizeof PROBE, 3);
}

static void call_check(void) { mapped = rmp_check(line, 2); }

static const struct rmp_item read_one = {0x11001001, 0, 4, RMP_FPRD, 0, 0, 0, 0};

static void call_check_item(void) { told = rmp_check_item(line, 2, &read_one); }
static void call_expected(void) { awaited = rmp_expected(line, 2, items); }
static void call_covered(void) { gap_found = rmp_covered(line, 2, items, 2); }
static void call_shown(void) { area_found = rmp_shown(line, 2, items, 2); }

static void call_next(void) {
    begun = rmp_cycle_begin(RMP_UDP);
    made = rmp_cycle_next(&begun, items, 2, image, sizeof image, sent, sizeof sent);
}

static void call_came(void) {
    turned = rmp_cycle_came(&begun, items, 2, FRAME, sizeof FRAME, FROM_A, sizeof FROM_A, FROM_B,
                            sizeof FROM_B, waiting, sizeof waiting, image, sizeof image);
}

/* A service that reads an object, up to its answer; and one that asks for a state. */
static void call_service_next(void) {
    asked = rmp_read_begin(RMP_UDP, line, 0x1018, 1, 0, 64);
    marked = rmp_service_next(&asked, sent, sizeof sent);
    asked.mail.known = 2;
    marked = rmp_service_next(&asked, sent, sizeof sent);
    asked = rmp_write_begin(RMP_UDP, line, 0x1018, 1, 4, 1, 0, 64);
    asked = rmp_acknowledge_begin(RMP_UDP, line, 64);
    asked = rmp_state_begin(RMP_UDP, line, RMP_OP, 64);
    marked = rmp_service_next(&asked, sent, sizeof sent);
}

static void call_service_came(void) {
    served = rmp_service_came(&asked, sent, marked.bytes, sent, marked.bytes);
    asked = rmp_read_begin(RMP_UDP, line, 0x1018, 1, 0, 64);
    asked.mail.known = 2;
    marked = rmp_service_next(&asked, sent, sizeof sent);
    served = rmp_service_came(&asked, sent, marked.bytes, sent, marked.bytes);
    asked.mail.known = 1;
    asked.mail.is_posted = 1;
    marked = rmp_service_next(&asked, sent, sizeof sent);
    sent[marked.bytes - 2] = 1; /* it counts, and is no mail */
    served = rmp_service_came(&asked, sent, marked.bytes, sent, marked.bytes);
}

/* Of the stages the one that has the most to say: an object is written. */
static void call_start_next(void) {
    start = rmp_start_begin(RMP_UDP, 2, RMP_NO_LINK, RMP_STAGE_COUNT, RMP_STAGE_OP);
    marked = rmp_start_next(&start, line, 2, &written, 1, sent, sizeof sent);
    start = rmp_start_begin(RMP_UDP, 2, RMP_NO_LINK, RMP_STAGE_SAFE_OP, RMP_STAGE_OP);
    marked = rmp_start_next(&start, line, 2, &written, 1, sent, sizeof sent);
}

static void call_start_came(void) {
    started = rmp_start_came(&start, line, 2, &written, 1, sent, marked.bytes, sent, marked.bytes);
    start.mail.known = 2;
    marked = rmp_start_next(&start, line, 2, &written, 1, sent, sizeof sent);
    started = rmp_start_came(&start, line, 2, &written, 1, sent, marked.bytes, sent, marked.bytes);
    start = rmp_start_begin(RMP_UDP, 2, RMP_NO_LINK, RMP_STAGE_COUNT, RMP_STAGE_OP);
    marked = rmp_start_next(&start, line, 2, &written, 1, sent, sizeof sent);
    started = rmp_start_came(&start, line, 2, &written, 1, sent, marked.bytes, sent, marked.bytes);
}

static void call_look_next(void) { marked = rmp_look_next(0x1001, sent, sizeof sent); }

static void call_look_came(void) {
    sent[marked.bytes - 2] = 1;
    looked = rmp_look_came(RMP_UDP, 0x1001, sent, marked.bytes, sent, 0);
    CHECK(looked.code == RMP_GOOD);
    looked = rmp_look_came(RMP_UDP, 0x1001, sent, marked.bytes, sent, marked.bytes);
}

/* Mailboxes of the most bytes, and an object for the first slave. */
static void mailed(void) {
    const struct rmp_object object = {1, 0x8000, 1, 4};
    map();
    memset(line[0].fmmus, 0, sizeof line[0].fmmus);
    area(0, 0, 0x1000, 0, 0x26);
    area(0, 1, 0x1800, 0, 0x22);
    for (int k = 0; k < 2; k++) {
        line[0].sync_managers[k][2] = RMP_MAX_DATA & 0xFF;
        line[0].sync_managers[k][3] = RMP_MAX_DATA >> 8;
    }
    written.objects[0] = object;
}

static size_t used_by(void (*call)(void)) {
    size_t clean = 0;
    memset(stack, 0xA5, sizeof stack);
    getcontext(&there);
    there.uc_stack.ss_sp = stack;
    there.uc_stack.ss_size = sizeof stack;
    there.uc_link = &here;
    makecontext(&there, call, 0);
    swapcontext(&here, &there);
    while (clean < sizeof stack && stack[clean] == 0xA5)
        clean++;
    return sizeof stack - clean;
}

static void measure_below(size_t limit, const char *name, void (*call)(void)) {
    size_t used = used_by(call) - used_by(call_nothing);
    printf("stack of %s: %zu bytes\n", name, used);
    if (used >= limit) {
        printf("FAILED: %s needs %zu bytes of stack or more\n", name, limit);
        failed = 1;
    }
}

static void measure(const char *name, void (*call)(void)) { measure_below(STACK_LIMIT, name, call); }

static void measure_talk(const char *name, void (*call)(void)) {
    measure_below(TALK_STACK_LIMIT, name, call);
}

int main(void) {
    begin();
    cycle();
    overlapping();
    copies();
    numbering();
    forms();
    refusals();
    cut();
    singles();
    texts();
    reading();
    cables();
    turns();
    mappings();
    items_on_a_line();
    coverage();
    showing();
    full_line();
    begin();
    measure("rmp_frame", call_frame);
    measure("rmp_seal", call_seal);
    measure("rmp_open", call_open);
    measure("rmp_join", call_join);
    measure("rmp_single", call_single);
    measure("rmp_judge", call_judge);
    measure("rmp_store", call_store);
    measure("rmp_read", call_read);
    measure("rmp_where", call_where);
    measure("rmp_check", call_check);
    measure("rmp_check_item", call_check_item);
    measure("rmp_expected", call_expected);
    measure("rmp_covered", call_covered);
    measure("rmp_shown", call_shown);
    measure("rmp_cycle_next", call_next);
    measure("rmp_cycle_came", call_came);
    mailed();
    measure_talk("rmp_service_next", call_service_next);
    measure_talk("rmp_service_came", call_service_came);
    CHECK(served.code == RMP_GOES_ON && asked.mail.known == 0);
    measure_talk("rmp_start_next", call_start_next);
    measure_talk("rmp_start_came", call_start_came);
    CHECK(started.code == RMP_GOES_ON);
    measure_talk("rmp_look_next", call_look_next);
    measure_talk("rmp_look_came", call_look_came);
    CHECK(looked.code == RMP_BAD_ANSWER);
    puts(failed ? "calls: not as they should be" : "calls: as they should be");
    return failed;
}
