/*
 * rummymaple_help.h: what helps against mistakes at rummymaple.h, in C (C11) and C++ (C++17): addresses, FMMU
 * and sync manager records by named members, and texts for people. It touches no system, takes no memory, and
 * needs none of the library but where a call says so.
 *
 * Written by hand and tried (tools/library/help.c); no prover has looked at it.
 *
 * A call that writes a text gets room for `room_size` characters. What it writes there is as much of the text
 * as fits, and always ends with a NUL where there is any room. It answers how many characters the whole text
 * has, the NUL not among them: where that is not below `room_size`, the text was cut.
 */
#ifndef RUMMYMAPLE_HELP_H
#define RUMMYMAPLE_HELP_H

#include "rummymaple.h"
#include <string.h>

/* The address of a datagram that goes to the slave with a station address (FPRD, FPWR), at a register or a
 * place in its memory: `address` of struct rmp_item, and of rmp_single. */
#define RMP_AT(station, ado) ((uint32_t)(uint16_t)(station) | (uint32_t)(uint16_t)(ado) << 16)

/* The address of a datagram that goes to the n-th slave from port A, counted from 0 (APRD, APWR): of
 * rmp_single. */
#define RMP_NTH(n, ado) RMP_AT(0u - (n), ado)

/* From where to where data go, as the master sees it. */
enum rmp_way {
    RMP_READS = 1, /* the slave's inputs: the master reads them */
    RMP_WRITES = 2 /* the slave's outputs: the master writes them */
};

/* What one FMMU maps. Its record has the length in bytes and the last bit, both counted from what stands
 * here: a `last bit` that was forgotten is a common mistake. It is active. */
struct rmp_fmmu {
    uint32_t logical;    /* the logical address, in bytes */
    uint32_t bits;       /* how many bits it maps: 8 for each whole byte. At least 1 */
    uint16_t physical;   /* the address in the slave's memory, in bytes */
    uint8_t logical_bit; /* at which bit of the first logical byte it begins, 0 to 7 */
    uint8_t physical_bit; /* and at which of the first byte in the memory, 0 to 7 */
    uint8_t way;         /* of enum rmp_way */
};

/* What one sync manager keeps. It is active. */
struct rmp_sync_manager {
    uint16_t start;    /* the address in the slave's memory, in bytes */
    uint16_t length;   /* in bytes, at least 1; a buffered area takes three times its length of memory */
    uint8_t way;       /* of enum rmp_way; a mailbox that the master sends by is RMP_WRITES */
    uint8_t mailbox;   /* 0: buffered, for process data; 1: a mailbox */
    uint8_t interrupt; /* 1: the slave's processor is told of each access (control, bit 5) */
    uint8_t watchdog;  /* 1: it starts the watchdog of process data (control, bit 6) */
};

static inline void rmp_put_16(uint8_t *record, uint32_t number) {
    record[0] = (uint8_t)(number & 0xFF);
    record[1] = (uint8_t)(number >> 8 & 0xFF);
}

/*
 * Writes the 16 bytes of an FMMU, as a slave has them from 0x0600 + 16 * number on, and as `fmmus` of struct
 * rmp_records. A record of zeros is an FMMU that is not used.
 *
 * RMP_GOOD; RMP_BAD_KIND: no such way; RMP_BAD_LENGTH: no bits, or more than 65,535 bytes of them;
 * RMP_BAD_RANGE: a bit above 7, or the bits end past logical 2^32 or past address 0xFFFF. Any end but
 * RMP_GOOD leaves `record` as it is. Whether it fits the line rmp_check says.
 */
static inline uint32_t rmp_fmmu_record(const struct rmp_fmmu *fmmu, uint8_t record[16]) {
    uint64_t end = (uint64_t)fmmu->logical_bit + fmmu->bits;
    uint64_t length = (end + 7) / 8;
    if (fmmu->way != RMP_READS && fmmu->way != RMP_WRITES)
        return RMP_BAD_KIND;
    if (fmmu->bits == 0 || length > 0xFFFF)
        return RMP_BAD_LENGTH;
    if (fmmu->logical_bit > 7 || fmmu->physical_bit > 7 || fmmu->logical + length > (uint64_t)1 << 32 ||
        fmmu->physical + ((uint64_t)fmmu->physical_bit + fmmu->bits + 7) / 8 > 0x10000)
        return RMP_BAD_RANGE;
    memset(record, 0, 16);
    rmp_put_16(record, fmmu->logical);
    rmp_put_16(record + 2, fmmu->logical >> 16);
    rmp_put_16(record + 4, (uint32_t)length);
    record[6] = fmmu->logical_bit;
    record[7] = (uint8_t)((end - 1) % 8);
    rmp_put_16(record + 8, fmmu->physical);
    record[10] = fmmu->physical_bit;
    record[11] = fmmu->way;
    record[12] = 1;
    return RMP_GOOD;
}

/*
 * Writes the 8 bytes of a sync manager, as a slave has them from 0x0800 + 8 * number on, and as
 * `sync_managers` of struct rmp_records. A record of zeros is one that is not used.
 *
 * RMP_GOOD; RMP_BAD_KIND: no such way; RMP_BAD_LENGTH: no bytes; RMP_BAD_RANGE: it ends past address 0xFFFF,
 * or a member that is 0 or 1 is more. Any end but RMP_GOOD leaves `record` as it is.
 */
static inline uint32_t rmp_sync_manager_record(const struct rmp_sync_manager *area, uint8_t record[8]) {
    if (area->way != RMP_READS && area->way != RMP_WRITES)
        return RMP_BAD_KIND;
    if (area->length == 0)
        return RMP_BAD_LENGTH;
    if ((uint32_t)area->start + area->length > 0x10000 || area->mailbox > 1 || area->interrupt > 1 ||
        area->watchdog > 1)
        return RMP_BAD_RANGE;
    memset(record, 0, 8);
    rmp_put_16(record, area->start);
    rmp_put_16(record + 2, area->length);
    record[4] = (uint8_t)((area->mailbox ? 2 : 0) | (area->way == RMP_WRITES ? 4 : 0) |
                          area->interrupt << 5 | area->watchdog << 6);
    record[6] = 1;
    return RMP_GOOD;
}

/*
 * Zeros the data of each BRD in the image, which is due before each cycle: what comes back is or-ed into what
 * goes out, so that a bit which all slaves have cleared would stay set. A BRD whose data do not lie in the
 * image is passed over; rmp_frame names it.
 */
static inline void rmp_zero_broadcasts(const struct rmp_item *items, size_t n, uint8_t *image,
                                       size_t image_size) {
    for (size_t k = 0; k < n; k++)
        if (items[k].kind == RMP_BRD && items[k].offset <= image_size &&
            items[k].length <= image_size - items[k].offset)
            memset(image + items[k].offset, 0, items[k].length);
}

/* ---- texts: a writer that counts on where the room ends */

struct rmp_text {
    char *room;
    size_t room_size;
    size_t at; /* how many characters the text has so far */
};

static inline void rmp_text_put(struct rmp_text *text, char character) {
    if (text->at + 1 < text->room_size)
        text->room[text->at] = character;
    text->at++;
}

static inline void rmp_text_words(struct rmp_text *text, const char *words) {
    while (*words)
        rmp_text_put(text, *words++);
}

/* The lowest `digits` digits of a number in hexadecimal. */
static inline void rmp_text_hex(struct rmp_text *text, uint32_t number, int digits) {
    while (digits-- > 0)
        rmp_text_put(text, "0123456789abcdef"[number >> 4 * digits & 0xF]);
}

static inline void rmp_text_number(struct rmp_text *text, uint64_t number) {
    char digits[21];
    size_t at = sizeof digits - 1;
    digits[at] = 0;
    do {
        digits[--at] = (char)('0' + number % 10);
        number /= 10;
    } while (number);
    rmp_text_words(text, digits + at);
}

/* Words, and a number behind them. */
static inline void rmp_text_told(struct rmp_text *text, const char *words, uint64_t number) {
    rmp_text_words(text, words);
    rmp_text_number(text, number);
}

static inline size_t rmp_text_end(struct rmp_text *text) {
    if (text->room_size)
        text->room[text->at < text->room_size ? text->at : text->room_size - 1] = 0;
    return text->at;
}

/* The name of a command by its code on the wire, 0 to 14, or "no such command". */
static inline const char *rmp_command_text(uint32_t command) {
    static const char *const names[] = {"NOP", "APRD", "APWR", "APRW", "FPRD", "FPWR", "FPRW", "BRD",
                                        "BWR", "BRW",  "LRD",  "LWR",  "LRW",  "ARMW", "FRMW"};
    return command < sizeof names / sizeof names[0] ? names[command] : "no such command";
}

/* What a rule of enum rmp_rule says where it is broken, or "no such rule". */
static inline const char *rmp_rule_text(uint32_t rule) {
    static const char *const texts[] = {
        "fit",
        "two slaves have one station address",
        "an FMMU does not read or write, does both, maps no bit, or maps bits that are not there",
        "two areas of a slave share a byte",
        "an FMMU is outside each buffered area of its direction",
        "two FMMUs of a slave write one bit of its memory",
        "two FMMUs of the line read one logical bit",
        "a logical bit is read from one slave and written to another",
        "the line has too many slaves",
    };
    return rule < sizeof texts / sizeof texts[0] ? texts[rule] : "no such rule";
}

/* What rmp_code_text says of a code, with the place `at` behind it, as "a working counter moved by less than
 * is expected (0)". */
static inline size_t rmp_answer_text(char *room, size_t room_size, uint32_t code, size_t at) {
    struct rmp_text text = {room, room_size, 0};
    rmp_text_words(&text, rmp_code_text(code));
    if (code != RMP_GOOD) {
        rmp_text_told(&text, " (", at);
        rmp_text_put(&text, ')');
    }
    return rmp_text_end(&text);
}

/* The name of a state of enum rmp_al_state, or "no such state". */
static inline const char *rmp_al_state_text(uint32_t state) {
    return state == RMP_INIT      ? "Init"
           : state == RMP_PRE_OP  ? "Pre-Op"
           : state == RMP_SAFE_OP ? "Safe-Op"
           : state == RMP_OP      ? "Op"
                                  : "no such state";
}

/* What a stage of enum rmp_stage does, or "no such stage". */
static inline const char *rmp_stage_text(uint32_t stage) {
    static const char *const texts[] = {
        "slaves are counted",
        "station addresses behind the broken link",
        "station addresses",
        "to Init",
        "to Pre-Op",
        "to Safe-Op",
        "to Op",
    };
    return stage < sizeof texts / sizeof texts[0] ? texts[stage] : "no such stage";
}

/* What a step of enum rmp_step is about, or "no such step". */
static inline const char *rmp_step_text(uint32_t step) {
    static const char *const texts[] = {"none", "station address", "sync manager", "FMMU", "object", "state"};
    return step < sizeof texts / sizeof texts[0] ? texts[step] : "no such step";
}

/* What a code says, and the number that it tells. */
static inline void rmp_text_failure(struct rmp_text *text, uint32_t code, uint32_t number) {
    rmp_text_words(text, rmp_code_text(code));
    if (code == RMP_REFUSED) {
        rmp_text_words(text, ": 0x");
        rmp_text_hex(text, number, 4);
    } else if (code == RMP_ABORTED) {
        rmp_text_words(text, ": 0x");
        rmp_text_hex(text, number, 8);
    } else if (code == RMP_OTHER_COUNT) {
        rmp_text_told(text, ": ", number);
    }
}

/* What rmp_service_came answers: "good: 0x00000002" of a value of four bytes that was read, "good: Op" of a
 * state, "good" of a value that was written, "the slave refused the state: 0x001d" with the AL status code,
 * "the slave ended the transfer: 0x06020000" with the abort code; or what its code says. */
static inline size_t rmp_served_text(char *room, size_t room_size, const struct rmp_served *served) {
    struct rmp_text text = {room, room_size, 0};
    rmp_text_failure(&text, served->code, served->number);
    if (served->code == RMP_GOOD && served->size) {
        rmp_text_words(&text, ": 0x");
        rmp_text_hex(&text, served->number, served->size < 4 ? 2 * (int)served->size : 8);
    } else if (served->code == RMP_GOOD && served->number) {
        rmp_text_words(&text, ": ");
        rmp_text_words(&text, rmp_al_state_text(served->number));
    }
    return rmp_text_end(&text);
}

/* What rmp_look_came answers: "Op", "Safe-Op, error 0x001d" with the AL status code, "no slave answered", "no
 * copy came", "more than one slave answered"; or what its code says. */
static inline size_t rmp_seen_text(char *room, size_t room_size, const struct rmp_seen *seen) {
    struct rmp_text text = {room, room_size, 0};
    if (seen->code == RMP_GOOD || seen->code == RMP_REFUSED)
        rmp_text_words(&text, rmp_al_state_text(seen->state));
    else
        rmp_text_words(&text, seen->code == RMP_NO_SLAVE     ? "no slave answered"
                              : seen->code == RMP_NO_ANSWER  ? "no copy came"
                              : seen->code == RMP_BAD_ANSWER ? "more than one slave answered"
                                                             : rmp_code_text(seen->code));
    if (seen->code == RMP_REFUSED) {
        rmp_text_words(&text, ", error 0x");
        rmp_text_hex(&text, seen->error, 4);
    }
    return rmp_text_end(&text);
}

/* What rmp_start_came answers: "to Safe-Op, slave 1, FMMU 0: the answer is none to what was asked, or more
 * than one slave answered", "to Op, slave 2, state Op: the slave refused the state: 0x001d", "another number
 * of slaves was counted: 4"; or where no step failed what its code says. */
static inline size_t rmp_started_text(char *room, size_t room_size, const struct rmp_started *started) {
    struct rmp_text text = {room, room_size, 0};
    if (started->step != RMP_STEP_NONE) {
        rmp_text_words(&text, rmp_stage_text(started->stage));
        rmp_text_told(&text, ", slave ", started->place);
        rmp_text_words(&text, ", ");
        rmp_text_words(&text, rmp_step_text(started->step));
        if (started->step == RMP_STEP_STATE) {
            rmp_text_put(&text, ' ');
            rmp_text_words(&text, rmp_al_state_text(started->part));
        } else if (started->step != RMP_STEP_STATION) {
            rmp_text_told(&text, " ", started->part);
        }
        rmp_text_words(&text, ": ");
    }
    rmp_text_failure(&text, started->code, started->number);
    return rmp_text_end(&text);
}

/* What rmp_where found: "whole", "link 2 down", "links 2 and 4 down", "link 2 is the first down, behind it
 * unknown", "link 2 is the last down, before it unknown", "changed", "unknown"; or what its code says. */
static inline size_t rmp_where_text(char *room, size_t room_size, const struct rmp_located *where) {
    struct rmp_text text = {room, room_size, 0};
    if (where->code != RMP_GOOD) {
        rmp_text_words(&text, rmp_code_text(where->code));
    } else if (where->cable == RMP_BETWEEN) {
        rmp_text_told(&text, "links ", where->first);
        rmp_text_told(&text, " and ", where->last);
        rmp_text_words(&text, " down");
    } else if (where->cable == RMP_ONE || where->cable == RMP_FIRST || where->cable == RMP_LAST) {
        rmp_text_told(&text, "link ", where->cable == RMP_LAST ? where->last : where->first);
        rmp_text_words(&text, where->cable == RMP_ONE     ? " down"
                              : where->cable == RMP_FIRST ? " is the first down, behind it unknown"
                                                          : " is the last down, before it unknown");
    } else {
        rmp_text_words(&text, where->cable == RMP_WHOLE     ? "whole"
                              : where->cable == RMP_CHANGED ? "changed"
                                                            : "unknown");
    }
    return rmp_text_end(&text);
}

/* An address as a command reads it: 0x00010000 logical, -2:0x0130 by place, else 0x1001:0x0130. */
static inline void rmp_text_address(struct rmp_text *text, uint32_t command, uint32_t address) {
    rmp_text_put(text, ' ');
    if (command >= RMP_LRD && command <= RMP_LRW) {
        rmp_text_words(text, "0x");
        rmp_text_hex(text, address, 8);
        return;
    }
    if ((command >= 1 && command <= 3) || command == 13) {
        int negative = (address & 0x8000) != 0;
        rmp_text_told(text, negative ? "-" : "", (negative ? 0 - address : address) & 0xFFFF);
    } else {
        rmp_text_words(text, "0x");
        rmp_text_hex(text, address, 4);
    }
    rmp_text_words(text, ":0x");
    rmp_text_hex(text, address >> 16, 4);
}

/*
 * What an item asks, and what it brought last: "LRW 0x00010000 5 bytes at 8: counter moved by 12 of 15", or
 * of a BRD "BRD 0x0130 2 bytes at 13: counter moved by 5 of 5, 5 passed". The number that it moved by is one
 * of the last rmp_judge or rmp_cycle_came with a verdict; before that it is 0.
 */
static inline size_t rmp_item_text(char *room, size_t room_size, const struct rmp_item *item) {
    struct rmp_text text = {room, room_size, 0};
    rmp_text_words(&text, rmp_command_text(item->kind));
    if (item->kind == RMP_BRD) {
        rmp_text_words(&text, " 0x");
        rmp_text_hex(&text, item->address, 4);
    } else {
        rmp_text_address(&text, item->kind, item->address);
    }
    rmp_text_told(&text, " ", item->length);
    rmp_text_told(&text, " bytes at ", item->offset);
    rmp_text_told(&text, ": counter moved by ", (uint16_t)(item->came - item->sent));
    rmp_text_told(&text, " of ", item->expected);
    if (item->kind == RMP_BRD) {
        rmp_text_told(&text, ", ", item->passed);
        rmp_text_words(&text, " passed");
    }
    return rmp_text_end(&text);
}

/* A datagram: "BRD 0x0005:0x0130 2 bytes counter 5 irq 0x0000: 0800", with "turned" behind the counter where
 * it turned round at a slave's closed port 0. */
static inline void rmp_text_datagram(struct rmp_text *text, const uint8_t *frame,
                                     const struct rmp_datagram *found) {
    rmp_text_words(text, rmp_command_text(found->command));
    rmp_text_address(text, found->command, found->address);
    rmp_text_told(text, " ", found->length);
    rmp_text_told(text, " bytes counter ", found->counter);
    rmp_text_words(text, found->circulating ? " turned irq 0x" : " irq 0x");
    rmp_text_hex(text, found->irq, 4);
    rmp_text_words(text, ": ");
    for (size_t k = 0; k < found->length; k++)
        rmp_text_hex(text, frame[found->data + k], 2);
    rmp_text_put(text, '\n');
}

/*
 * The datagrams of a frame, a line each, as the bytes spell it; of bytes that spell none one line with what
 * is wrong and where. `form` is of enum rmp_form. It calls rmp_read, and takes 4 KB of stack besides.
 */
static inline size_t rmp_frame_text(char *room, size_t room_size, uint32_t form, const uint8_t *bytes,
                                    size_t size) {
    struct rmp_text text = {room, room_size, 0};
    struct rmp_datagram found[RMP_MAX_DATAGRAMS];
    struct rmp_reading told = rmp_read(form, bytes, size, found, RMP_MAX_DATAGRAMS);
    if (told.code != RMP_GOOD) {
        rmp_text_words(&text, "no frame: ");
        rmp_text_words(&text, rmp_code_text(told.code));
        rmp_text_told(&text, " at byte ", told.at);
        rmp_text_put(&text, '\n');
    }
    for (size_t k = 0; told.code == RMP_GOOD && k < told.count; k++)
        rmp_text_datagram(&text, bytes, &found[k]);
    return rmp_text_end(&text);
}

#endif
