/*
 * rummymaple.h: the proved core of an EtherCAT master, for masters in C (C11) and C++ (C++17).
 *
 * Four calls, in the order of a cycle, two that tell the copies of one trip from all others, a reader, a
 * call that says where the cable is broken, three that are a cycle by turns, three that are the start-up of
 * a line and six that are a service with one slave, by turns too, two that are a look at the state of one
 * slave, one that makes the frame of any datagram, and five that check the slaves' records and the items
 * before the first cycle. Between the calls of a cycle the master does what it likes: it sends each frame
 * both ways round the ring, works, and receives. With one array for the joined bytes of each frame k, and
 * two numbers for each trip:
 *
 *     for (k = 0, first = 0; first < n; first += made.items, k++) {
 *         made = rmp_frame(items, n, image, sizeof image, first, sent, sizeof sent);
 *         ... where made.code is not RMP_GOOD, give up: made.items is 0 ...
 *         ... send what rmp_seal makes of sent[0 .. made.bytes], from each port with a number of its own ...
 *         ... receive until rmp_open has opened a packet at each port, a and b, or time is up ...
 *         came = rmp_join(RMP_UDP, sent, made.bytes, a, a_size, b, b_size, joined[k], sizeof joined[k]);
 *         verdict = rmp_judge(items, n, first, joined[k], came.bytes);
 *         ... keep first and came.bytes of this frame, as first_of[k] and bytes_of[k] ...
 *     }
 *     ... and where each frame's verdict is RMP_GOOD, of each frame k:
 *     rmp_store(items, n, first_of[k], joined[k], bytes_of[k], image, sizeof image);
 *
 * The library has no state, takes no memory and calls nothing but memcpy, memmove and memset. Each call ends,
 * whatever the bytes and numbers are, and answers by a code. All numbers are the host's own; bytes of frames
 * are as on the wire. NULL with length 0 is an array of no elements. Two calls may run at once, unless one
 * writes what the other uses; the arrays of one call must not overlap where one of them is written.
 *
 * "Proved" says: the library's source has been checked against this contract by a prover, for all inputs.
 * This header, the compiler and the caller's pointers are trusted. docs/LIBRARY.md has the whole of it.
 */
#ifndef RUMMYMAPLE_H
#define RUMMYMAPLE_H

#include <stddef.h>
#include <stdint.h>

#ifdef __cplusplus
extern "C" {
#endif

/* The version of the library and of this header, which is that of the program `ecat` too. */
#define RMP_VERSION "2.0.0"

/* The most bytes of a frame, its number included, without the Ethernet or UDP header before it. */
#define RMP_FRAME_SIZE 1500

/* How many bytes of a frame its number takes. */
#define RMP_NUMBER_LENGTH 20

/* The most items of a master. */
#define RMP_MAX_ITEMS 256

/* The most datagrams of a frame. */
#define RMP_MAX_DATAGRAMS 124

/* The most data bytes of an item. */
#define RMP_MAX_DATA 1486

/* The most slaves of a line: what is promised of lines ends there. */
#define RMP_MAX_SLAVES 256

/* The most objects that are written to a slave at start-up. */
#define RMP_MAX_STARTUP 16

/* No link is down: `down` of rmp_start_begin. */
#define RMP_NO_LINK 65535

/* How a call ended: the member `code` of each answer. */
enum rmp_code {
    RMP_GOOD = 0,       /* done; of rmp_judge: each counter moved by what is expected */
    RMP_SHORT = 1,      /* the counter of item `at` moved by less: some slave did not take part */
    RMP_OVER = 2,       /* the counter of item `at` moved by more */
    RMP_STRANGER_A = 3, /* packet a is a frame, but not of the sent one: datagram `at` differs first */
    RMP_STRANGER_B = 4, /* packet b is, and packet a is not a stranger */
    RMP_NO_ROOM = 5,    /* the frame does not fit the room for it; of rmp_cycle_came also: `waiting` is not of
                           the image's size */
    RMP_BAD_FORM = 6,   /* there is no such form */
    RMP_NOT_SENT = 7,   /* what is said to be sent is no frame: byte `at` is the first at fault */
    RMP_NOT_JOINED = 8, /* what is said to be joined is no frame: byte `at` is the first at fault */
    RMP_OTHER_ITEM = 9, /* datagram `at` is not the answer of its item, by command, index or length */
    RMP_TOO_MANY = 10,  /* more than RMP_MAX_ITEMS items */
    RMP_NO_ITEM = 11,   /* there is no item `first` */
    RMP_BAD_KIND = 12,  /* item `at` has no kind of enum rmp_kind */
    RMP_BAD_LENGTH = 13, /* item `at` has no data, or more than RMP_MAX_DATA bytes */
    RMP_BAD_RANGE = 14, /* item `at` ends past 2^32, or past 0x0FFF (BRD), or past 0x2FFF (FPRD, FPWR) */
    RMP_BAD_PLACE = 15, /* the data of item `at` do not lie in the image */
    /* of rmp_read, byte `at` being the first at fault: */
    RMP_FAULT_SHORT = 16,       /* the bytes end before the frame does */
    RMP_FAULT_BAD_TYPE = 17,    /* the header's type is not 1 */
    RMP_FAULT_RESERVED = 18,    /* a reserved bit is set */
    RMP_FAULT_EMPTY = 19,       /* the header states no datagrams */
    RMP_FAULT_TOO_LONG = 20,    /* the header states more than 1,498 bytes of datagrams */
    RMP_FAULT_BAD_COMMAND = 21, /* a command above 14 */
    RMP_FAULT_OVERRUN = 22,     /* a datagram's data reach past the end of the frame */
    RMP_FAULT_MORE_AT_END = 23, /* the last datagram says that more follow */
    RMP_FAULT_LEFT_OVER = 24,   /* bytes are left behind the last datagram, or too few for one more */
    RMP_FAULT_TRAILING = 25,    /* bytes follow the frame in a UDP packet */
    RMP_NOT_UNDER_WAY = 26,     /* the cycle, service or start-up is done or ended */
    /* of rmp_check_item, `at` being the first slave of the item's station: */
    RMP_OUTSIDE_READ = 27,  /* it reads neither registers nor one buffered area that the master reads */
    RMP_OUTSIDE_WRITE = 28, /* it does not write one buffered area that the master writes */
    RMP_NOT_ASKED = 29,     /* of rmp_covered: no item asks for a logical bit that is mapped */
    RMP_FULL = 30,          /* the frame has no place for a number: fewer than RMP_NUMBER_LENGTH free bytes */
    /* of rmp_open: the packet is a frame, but no copy of the numbered one: */
    RMP_OTHER_FRAME = 31,   /* it has the number; datagram `at` is the first that differs by command, index,
                               length or address, or since one of the frames ends there */
    RMP_OTHER_NUMBER = 32,  /* it has another number, or none: it is late, or not of this master */
    RMP_NOT_BROADCAST = 33, /* of rmp_where: the frame does not begin with a BRD that goes out */
    RMP_BAD_COMMAND = 34,   /* of rmp_single: there is no such command */
    /* of rmp_shown, `at` and `sync_manager` being those of an area of outputs that FMMUs map: */
    RMP_LEFT_BY = 35,         /* item `item` writes a byte of the area and not its last one */
    RMP_NEVER_COMPLETED = 36, /* no item writes the last byte of the area */
    /* of services, start-ups and looks: */
    RMP_GOES_ON = 37,    /* another frame goes out */
    RMP_NO_SLAVE = 38,   /* no slave answered, each of ten times in a row (of a step of a start-up: of twenty
                            times; of a look: once), or the slave has no mailboxes */
    RMP_NO_ANSWER = 39,  /* as many trips as were allowed brought no answer; of a look: no copy came */
    RMP_BAD_ANSWER = 40, /* the answer is none to what was asked, or more than one slave answered */
    RMP_REFUSED = 41,    /* the slave has an error behind a request for a state; `number` is its AL status
                            code; of a look: it has an error, and `error` is that code */
    RMP_ABORTED = 42,    /* the slave ended the transfer; `number` is the abort code */
    RMP_STRANGER = 43,   /* packet a or b is a frame, but not of the sent one */
    RMP_BAD_NUMBERS = 44, /* the numbers are those of no service or start-up, or of no object of the slave; or
                             there are not records of each slave */
    RMP_OTHER_COUNT = 45 /* another number of slaves was counted, each of ten times; `number` is the last */
};

/* What an item does: the codes of its commands on the wire (IEC 61158-4-12). */
enum rmp_kind {
    RMP_FPRD = 4, /* reads the slave with a station address */
    RMP_FPWR = 5, /* writes it */
    RMP_BRD = 7,  /* reads a register of all slaves; its data come back or-ed, with those that were sent too,
                     and rmp_store puts them where they are sent from: ZERO THEM IN THE IMAGE BEFORE EACH
                     FRAME, or bits that all slaves have cleared stay set */
    RMP_LRD = 10, /* reads what FMMUs map to logical addresses */
    RMP_LWR = 11, /* writes it */
    RMP_LRW = 12  /* does both */
};

/* How packets are framed. */
enum rmp_form {
    RMP_ETHERNET = 0, /* an Ethernet payload: bytes behind the frame are padding */
    RMP_UDP = 1       /* a UDP payload: it ends with the frame */
};

/* What came back of one copy of a frame. */
enum rmp_copy {
    RMP_LOST = 0,    /* nothing came: the packet has length 0 */
    RMP_CAME = 1,    /* a frame came */
    RMP_NO_FRAME = 2 /* what came is no frame, and counts as lost */
};

/* What is known of the cable. Links are numbered from 0, before the first slave, to the number of slaves,
 * behind the last one. */
enum rmp_cable {
    RMP_UNKNOWN = 0, /* nothing */
    RMP_WHOLE = 1,   /* all links are up */
    RMP_ONE = 2,     /* link `first` is down, and no other: each slave is reached */
    RMP_BETWEEN = 3, /* links `first` and `last` are down, and none before or behind them: no copy reaches
                        slaves `first` to `last` - 1, numbered from 0, and each other slave is reached */
    RMP_FIRST = 4,   /* link `first` is down, and none before it; of those behind it nothing is known */
    RMP_LAST = 5,    /* link `last` is down, and none behind it; of those before it nothing is known */
    RMP_CHANGED = 6  /* no one set of links gives these packets: links changed meanwhile, a packet is late, or
                        the line has another number of slaves */
};

/* One thing that is asked in each cycle. The master fills in all but `came` and `passed`. */
struct rmp_item {
    uint32_t address;  /* logical; of BRD the register; of FPRD and FPWR the station + 65,536 * register */
    uint32_t offset;   /* where its data begin in the process image, in bytes */
    uint16_t length;   /* how many data bytes it has, 1 to RMP_MAX_DATA */
    uint16_t kind;     /* of enum rmp_kind */
    uint16_t expected; /* by how much its working counter has to move; of LRW a slave adds 1 for reading and 2
                          for writing, else 1 (rmp_expected). AN ITEM THAT IS EXPECTED TO MOVE BY 0 IS GOOD
                          WHERE NOTHING CAME BACK: so is one whose `expected` was forgotten */
    uint16_t sent;     /* the working counter with which it goes out. With numbers leave it 0. Without them:
                          (uint16_t)(2048 * k) in cycle k, so that a copy up to fifteen cycles late shows */
    uint16_t came;     /* written by rmp_judge: the working counter with which it came back; it has moved by
                          (uint16_t)(came - sent) */
    uint16_t passed;   /* written by rmp_judge: of BRD how many slaves it passed, else 0 */
};

/* What rmp_frame answers. */
struct rmp_framed {
    size_t bytes;  /* how many bytes of the frame were written */
    size_t items;  /* how many items it carries, from `first` on */
    size_t at;     /* the item that is at fault */
    uint32_t code; /* RMP_GOOD, RMP_NO_ROOM, RMP_TOO_MANY, RMP_NO_ITEM or RMP_BAD_.. of an item */
};

/* What rmp_seal, rmp_open and rmp_single answer. */
struct rmp_written {
    size_t bytes;  /* how many bytes of the frame were written */
    size_t at;     /* the datagram that `code` is about, or the byte at fault */
    uint32_t code; /* of enum rmp_code */
};

/* What rmp_join answers. */
struct rmp_joined {
    size_t bytes;    /* how many bytes of the joined frame were written */
    size_t at;       /* the first datagram that differs, or the byte at fault */
    uint32_t code;   /* RMP_GOOD, RMP_STRANGER_A, RMP_STRANGER_B, RMP_NO_ROOM, RMP_BAD_FORM or RMP_NOT_SENT */
    uint32_t copy_a; /* of enum rmp_copy: what packet a is, at whichever port its copy went out */
    uint32_t copy_b; /* and packet b */
};

/* What rmp_judge and rmp_store answer. */
struct rmp_answer {
    size_t at;     /* the item, the datagram or the byte that `code` is about */
    uint32_t code; /* of enum rmp_code */
};

/* A datagram of a frame that was read. */
struct rmp_datagram {
    size_t data;         /* where its data begin in the frame, in bytes */
    size_t length;       /* how many data bytes it has */
    uint32_t address;    /* logical, or ADP + 65,536 * ADO */
    uint16_t counter;    /* the working counter */
    uint16_t irq;        /* the slaves' event requests, or-ed */
    uint8_t command;     /* by the standard's code, 0 to 14 */
    uint8_t index;       /* the master's number for it */
    uint8_t circulating; /* 1 where the frame turned round at a slave's closed port 0, else 0 */
};

/* What rmp_read answers. */
struct rmp_reading {
    size_t count;  /* how many datagrams the frame has */
    size_t at;     /* the first byte at fault */
    uint32_t code; /* RMP_GOOD, RMP_NO_ROOM, RMP_BAD_FORM or RMP_FAULT_.. */
};

/* What rmp_where answers. */
struct rmp_located {
    size_t first;    /* the first link that is down, where it is known, else 0 */
    size_t last;     /* the last link that is down, where it is known, else 0 */
    size_t at;       /* the byte at fault of what is said to be sent */
    uint32_t code;   /* RMP_GOOD, RMP_BAD_FORM, RMP_NOT_SENT or RMP_NOT_BROADCAST */
    uint32_t cable;  /* of enum rmp_cable */
    uint32_t copy_a; /* of enum rmp_copy: what came at port A */
    uint32_t copy_b; /* and at port B */
};

/*
 * What a slave is mapped by: its registers as a master writes them or reads them back (IEC 61158-4-12, FMMU
 * and sync manager attributes), numbers in them with the low byte first.
 *
 * FMMU: bytes 0 to 3 the logical address, 4 and 5 the length in bytes, 6 and 7 the first bit of the first and
 * the last bit of the last of them, 8 and 9 the physical address, 10 its bit, 11 the type (1: the master
 * reads, 2: it writes), 12 bit 0: it is active. Sync manager: bytes 0 and 1 the address, 2 and 3 the length,
 * 4 the control (bits 0 and 1: 0 buffered, 2 mailbox; bits 2 and 3: 0 the master reads, 1 it writes), 5 the
 * status, 6 bit 0: it is active.
 */
struct rmp_records {
    uint16_t station;             /* the station address, which the slave has at 0x0010 */
    uint8_t fmmus[8][16];         /* its FMMU records, which it has from 0x0600 on */
    uint8_t sync_managers[8][8];  /* its sync manager records, which it has from 0x0800 on */
};

/* The rules of a mapping, in the order in which they are tested, the last one first. Only active FMMUs and
 * areas count. */
enum rmp_rule {
    RMP_FIT = 0,             /* none is broken */
    RMP_TWIN_STATION = 1,    /* two slaves have one station address */
    RMP_BAD_FMMU = 2,        /* an FMMU does not read or write, does both, maps no bit, or maps bits that are
                                not there: past logical 2^32, past the memory, or of a number above 7 */
    RMP_AREAS_MEET = 3,      /* two areas of a slave share the byte at address `place` */
    RMP_OUTSIDE_AREA = 4,    /* an FMMU is at address `place` outside each buffered area of its direction; one
                                that reads may read 0x080D alone instead, which tells of waiting mail */
    RMP_TWICE_WRITTEN = 5,   /* two FMMUs of a slave write its memory's bit `place` */
    RMP_TWICE_READ = 6,      /* two FMMUs of the line read logical bit `place` */
    RMP_READ_AND_WRITTEN = 7, /* logical bit `place` is read from one slave and written to another */
    RMP_LONG_LINE = 8        /* the line has `place` slaves, more than RMP_MAX_SLAVES; tested before all */
};

/* What rmp_check answers. Slaves and their FMMUs and sync managers are numbered from 0, bits are 8 * byte
 * address + bit; where a rule has one party alone, the other is the same, and what it does not name is 0. */
struct rmp_mapping {
    size_t slave;        /* the first party's slave; of RMP_READ_AND_WRITTEN the one that is read */
    size_t number;       /* its FMMU, of RMP_AREAS_MEET its sync manager */
    size_t other_slave;  /* the other party's slave */
    size_t other_number; /* its FMMU or sync manager */
    uint64_t place;      /* the lowest address or bit at which the rule is broken */
    uint32_t rule;       /* of enum rmp_rule */
};

/* What rmp_expected answers. */
struct rmp_expectation {
    uint32_t counter; /* by how much the counter moves, modulo 65,536; 0 where there is no such item, and
                         where no slave takes part (RMP_GOOD): then two lost copies are good */
    uint32_t code;    /* RMP_GOOD, RMP_BAD_KIND, RMP_BAD_LENGTH or RMP_BAD_RANGE */
};

/* What rmp_covered answers. */
struct rmp_gap {
    size_t at;     /* the slave whose FMMU maps the bit; of RMP_BAD_.. the item */
    size_t fmmu;   /* the number of the FMMU */
    uint64_t bit;  /* the logical bit, 8 * byte address + bit */
    uint32_t way;  /* 0 where the master reads through the FMMU, 1 where it writes */
    uint32_t code; /* RMP_GOOD, RMP_NOT_ASKED, RMP_BAD_KIND, RMP_BAD_LENGTH or RMP_BAD_RANGE */
};

/* What rmp_shown answers. */
struct rmp_not_shown {
    size_t at;           /* the slave of the area; of RMP_BAD_.. the item */
    size_t sync_manager; /* the number of the area's sync manager, from 0 */
    size_t item;         /* of RMP_LEFT_BY the first item that writes the area and leaves it so, else 0 */
    uint32_t code; /* RMP_GOOD, RMP_LEFT_BY, RMP_NEVER_COMPLETED, RMP_BAD_KIND, RMP_BAD_LENGTH or
                      RMP_BAD_RANGE */
};

/* How far a cycle, a service or a start-up is. */
enum rmp_state {
    RMP_UNDER_WAY = 0, /* items are left, or another frame goes out */
    RMP_DONE = 1,      /* each frame was good, and the image has their data; or what was asked is done */
    RMP_ENDED = 2      /* a verdict ended it, and the image is as it was; or why it is not done was told */
};

/* A cycle, for masters that want no loop of their own: made by rmp_cycle_begin, only read by the master. */
struct rmp_cycle {
    size_t first;   /* the first item that has no good answer yet */
    uint32_t form;  /* of enum rmp_form */
    uint32_t state; /* of enum rmp_state */
};

/* What rmp_cycle_came answers. */
struct rmp_turn {
    size_t at;       /* the item, the datagram or the byte that `code` is about */
    uint32_t code;   /* of enum rmp_code */
    uint32_t copy_a; /* of enum rmp_copy: what packet a is, at whichever port its copy went out */
    uint32_t copy_b; /* and packet b */
};

/* States of a slave's application layer (IEC 61158-6-12, AL management). */
enum rmp_al_state { RMP_INIT = 1, RMP_PRE_OP = 2, RMP_SAFE_OP = 4, RMP_OP = 8 };

/* How far the mails of a transfer are: a part of the two structs behind it, and of the library's own use. */
struct rmp_mail {
    uint16_t station;        /* the station address of the slave */
    uint16_t request_start;  /* its mailbox of requests */
    uint16_t request_length;
    uint16_t answer_start;   /* its mailbox of answers */
    uint16_t answer_length;
    uint8_t counter;         /* of the next request, 1 to 7 */
    uint8_t posted;          /* the counter of the last request, */
    uint8_t is_posted;       /* where there was one */
    uint8_t known;           /* of both mailboxes: 0 nothing, 1 an answer waits, 2 they are empty */
};

/* A service with one slave: made by rmp_.._begin, only read by the master. Where its numbers were changed, it
 * goes on with these, or is answered RMP_BAD_NUMBERS, or RMP_BAD_FORM. */
struct rmp_service {
    struct rmp_mail mail;
    uint16_t index;      /* of the object, */
    uint8_t sub;         /* its subindex, */
    uint8_t size;        /* and how many bytes are written to it */
    uint8_t al_state;    /* of enum rmp_al_state: what is asked for, or acknowledged */
    uint8_t next;        /* which question goes out next */
    uint32_t value;      /* what is written */
    uint32_t unanswered; /* how often in a row no slave answered */
    uint32_t trips;      /* how many trips are left */
    uint32_t form;       /* of enum rmp_form */
    uint32_t state;      /* of enum rmp_state */
};

/* What rmp_service_came answers. */
struct rmp_served {
    uint32_t number; /* the value that was read, the state that the slave is in (of enum rmp_al_state), the AL
                        status code or the abort code; else 0 */
    uint32_t size;   /* how many bytes a value that was read has, 1, 2 or 4; else 0 */
    uint32_t code;   /* of enum rmp_code */
    uint32_t copy_a; /* of enum rmp_copy: what packet a is, at whichever port its copy went out */
    uint32_t copy_b; /* and packet b */
};

/* What rmp_look_came answers. */
struct rmp_seen {
    uint32_t state;  /* of enum rmp_al_state: that of RMP_GOOD and RMP_REFUSED; else 0 */
    uint32_t error;  /* the AL status code of RMP_REFUSED; else 0 */
    uint32_t code;   /* of enum rmp_code */
    uint32_t copy_a; /* of enum rmp_copy: what packet a is, at whichever port its copy went out */
    uint32_t copy_b; /* and packet b */
};

/* An object that is written to a slave at start-up. */
struct rmp_object {
    uint32_t value; /* what is written; it fits so many bytes */
    uint16_t index;
    uint8_t sub;    /* the subindex */
    uint8_t size;   /* how many bytes are written, 1, 2 or 4; 0: no object stands here */
};

/* The objects that are written to a slave in Pre-Op, before its process data are set, in their order. */
struct rmp_startup {
    struct rmp_object objects[RMP_MAX_STARTUP];
};

/* The stages of a start-up: each is done with all slaves before the next one begins. */
enum rmp_stage {
    RMP_STAGE_COUNT = 0,    /* the slaves are counted */
    RMP_STAGE_BEHIND = 1,   /* those behind the broken link are given their station addresses */
    RMP_STAGE_STATIONS = 2, /* all others are */
    RMP_STAGE_INIT = 3,     /* Init is asked for, and errors that stand are acknowledged */
    RMP_STAGE_PRE_OP = 4,   /* sync managers 0 and 1 are set, and Pre-Op is asked for */
    RMP_STAGE_SAFE_OP = 5,  /* objects are written, the other sync managers and the FMMUs are set, and Safe-Op
                               is asked for */
    RMP_STAGE_OP = 6        /* Op is asked for */
};

/* What a start-up does with one slave. */
enum rmp_step {
    RMP_STEP_NONE = 0,         /* nothing: the slaves are counted */
    RMP_STEP_STATION = 1,      /* it is given its station address */
    RMP_STEP_SYNC_MANAGER = 2, /* sync manager `part` is written and read back */
    RMP_STEP_FMMU = 3,         /* FMMU `part` is written and read back */
    RMP_STEP_OBJECT = 4,       /* object `part` of its struct rmp_startup is written */
    RMP_STEP_STATE = 5         /* state `part` (of enum rmp_al_state) is asked for */
};

/* A start-up of a line: made by rmp_start_begin, only read by the master. Where its numbers were changed, it
 * goes on with these, or is answered RMP_BAD_NUMBERS, or RMP_BAD_FORM. */
struct rmp_start {
    size_t left;         /* how many steps of the stage are left with the slave */
    struct rmp_mail mail; /* of the object that is being written */
    uint16_t slaves;     /* how many slaves the line has */
    uint16_t down;       /* the link that is down, or RMP_NO_LINK */
    uint16_t place;      /* the slave with which the stage is, from 0 */
    uint8_t stage;       /* of enum rmp_stage: that which is under way, */
    uint8_t last;        /* and the last one */
    uint8_t is_writing;  /* 1 where an object is being written */
    uint32_t asked;      /* how often the slave was asked for what it has not come to yet */
    uint32_t unanswered; /* how often no slave answered */
    uint32_t form;       /* of enum rmp_form */
    uint32_t state;      /* of enum rmp_state */
};

/* What rmp_start_came answers. What a failure does not name is 0. */
struct rmp_started {
    size_t place;    /* of a step that failed: the slave, from 0, */
    uint32_t stage;  /* of a failure: the stage, of enum rmp_stage, */
    uint32_t step;   /* the step, of enum rmp_step, */
    uint32_t part;   /* and the number of the sync manager, FMMU or object, or the state */
    uint32_t number; /* the AL status code, the abort code, or how many slaves were counted */
    uint32_t code;   /* of enum rmp_code */
    uint32_t copy_a; /* of enum rmp_copy: what packet a is, at whichever port its copy went out */
    uint32_t copy_b; /* and packet b */
};

/*
 * Puts the frame that begins with item `first` at the front of `room`: as many items from there on as one
 * frame holds (1,498 bytes of datagrams), each with its number as index and its data from the image.
 *
 * Proved: the bytes spell exactly that frame; all items of all frames, made so one after the other, are the
 * one division of the items into frames of which none could take the next one's first item; the first item at
 * fault is named; any end but RMP_GOOD leaves `room` as it is.
 */
struct rmp_framed rmp_frame(const struct rmp_item *items, size_t n, const uint8_t *image, size_t image_size,
                            size_t first, uint8_t *room, size_t room_size);

/*
 * Puts the frame `sent` with a number behind it at the front of `room`: what goes out in its place. Behind
 * its last datagram stands one more of RMP_NUMBER_LENGTH bytes: a NOP, which no slave serves, with eight data
 * bytes that are the number, the low one first. All else is as in `sent`, but for the length in the header
 * and the bit of the datagram before it that says that another follows.
 *
 * Give each copy that goes out a number of its own, and use none twice: trip t has 2 * t for the copy from
 * port A and 2 * t + 1 for that from port B, and the next trip is t + 1. Let each run begin at another trip,
 * since answers to the last one may still come: at 63 bits that are drawn by chance, or at the nanoseconds
 * since 1970. Frames of every sort bear numbers: those of cycles, of the start-up, and those for rmp_where.
 *
 * A frame has a place for a number as long as its datagrams have no more than 1,478 bytes. rmp_frame fills
 * frames with up to 1,498: docs/LIBRARY.md says how to keep them smaller. An array of RMP_FRAME_SIZE bytes is
 * room for each frame with its number.
 *
 * Proved: the bytes spell exactly that frame (`numbered` of ec_number). Else the first of these that is so:
 * RMP_NOT_SENT: `sent` is no frame, byte `at` being the first at fault; RMP_FULL; RMP_NO_ROOM. Any end but
 * RMP_GOOD leaves `room` as it is.
 */
struct rmp_written rmp_seal(uint64_t number, const uint8_t *sent, size_t sent_size, uint8_t *room,
                           size_t room_size);

/*
 * Opens a packet that came back: says whether it is a copy of the frame `sent` that went out with this
 * number behind it, and puts what it is without the number at the front of `room`. What is opened goes into
 * the calls below, each copy once:
 *
 *     for (copy = 0; copy < 2; copy++)
 *         if (!came[copy]) {
 *             open = rmp_open(RMP_UDP, 2 * t + copy, sent, sent_size, packet, packet_size, a, sizeof a);
 *             ... where open.code is RMP_GOOD: came[copy] = 1, and a_size = open.bytes ...
 *         }
 *
 * In an unbroken ring copy A comes at port B, and copy B at port A. A packet that opens under neither number
 * is late, or not of this master: drop it, and receive the next one.
 *
 * Proved: RMP_GOOD exactly where the packet spells a frame that came of the numbered one (`CameUnder` of
 * ec_number): as many datagrams, each with its command, index, length and address, but for the ADP where
 * slaves count it up, and the number's eight bytes as the data of the last one. What is put is that frame
 * without its last datagram (`opened`), and no stranger to rmp_join. No packet opens under two numbers. Else
 * the first of these that is so: RMP_BAD_FORM, RMP_NOT_SENT, RMP_FULL, RMP_FAULT_.. of the packet
 * (RMP_FAULT_SHORT of length 0), RMP_OTHER_NUMBER, RMP_OTHER_FRAME, RMP_NO_ROOM. Any end but RMP_GOOD leaves
 * `room` as it is.
 */
struct rmp_written rmp_open(uint32_t form, uint64_t number, const uint8_t *sent, size_t sent_size,
                           const uint8_t *packet, size_t packet_size, uint8_t *room, size_t room_size);

/*
 * Joins the packets `a` and `b` that came back of the frame `sent`, and puts the joined frame at the front of
 * `room`. A packet of length 0 is a lost copy; one that is no frame counts as lost, and is told so. Where
 * both are lost, the joined frame is the sent one, and rmp_judge says short. A copy that comes a cycle late
 * is no stranger here: rmp_open tells it.
 *
 * Proved: each data bit, event request and circulating bit differs from the sent one exactly if it does in a
 * copy; each working counter, and the ADP where slaves count it up, has moved as far as in both copies
 * together; what is put is a frame; a frame that cannot have come of the sent one, by its commands, indexes,
 * lengths and addresses, is named with its first datagram that differs, a before b; any end but RMP_GOOD
 * leaves `room` as it is.
 */
struct rmp_joined rmp_join(uint32_t form, const uint8_t *sent, size_t sent_size, const uint8_t *a,
                           size_t a_size, const uint8_t *b, size_t b_size, uint8_t *room, size_t room_size);

/*
 * Judges a joined frame, whose datagrams answer the items from `first` on.
 *
 * Proved: the verdict is RMP_GOOD where each item's counter has moved by what is expected, modulo 65,536, and
 * else names the first item of which it has not; with a verdict, and only then, `came` and `passed` of these
 * items are written, and nothing else of any item.
 */
struct rmp_answer rmp_judge(struct rmp_item *items, size_t n, size_t first, const uint8_t *joined,
                            size_t joined_size);

/*
 * Puts the data of a joined frame into the image: of each item that reads (FPRD, BRD, LRD, LRW), in their
 * order. Call it where the verdict on each frame of the cycle is RMP_GOOD. LRW data hold the outputs as they
 * were sent, so let the application write outputs of an LRW behind this call.
 *
 * Proved: the image is the one before with these data in their places; items that only write, and all bytes
 * outside, are as they were; any end but RMP_GOOD leaves the image as it is. Behind all frames of a cycle
 * each item that reads has the data of its answer in its place; where places overlap the last such item
 * prevails.
 */
struct rmp_answer rmp_store(const struct rmp_item *items, size_t n, size_t first, const uint8_t *joined,
                            size_t joined_size, uint8_t *image, size_t image_size);

/*
 * Puts the frame of one datagram at the front of `room`, of any command of the standard: what a start-up
 * asks, as APWR (2) of the station address at 0x0010, FPWR (5) of AL control at 0x0120, FPRD (4) and BRD (7)
 * of AL status at 0x0130. `address` is the logical one, or ADP + 65,536 * ADO; APWR reaches the n-th slave,
 * counted from 0, with ADP (uint16_t)-n. The index and the working counter are 0. With a number behind it the
 * frame has a place for RMP_MAX_DATA - RMP_NUMBER_LENGTH data bytes.
 *
 * Proved: the bytes spell exactly that frame. Else the first of these that is so: RMP_BAD_COMMAND: the code
 * is above 14; RMP_BAD_LENGTH: no data, or more than RMP_MAX_DATA bytes; RMP_NO_ROOM. Any end but RMP_GOOD
 * leaves `room` as it is.
 */
struct rmp_written rmp_single(uint32_t command, uint32_t address, const uint8_t *payload,
                              size_t payload_size, uint8_t *room, size_t room_size);

/*
 * Reads the bytes of a frame: puts its datagrams, and where their data lie, at the front of `room`, which
 * RMP_MAX_DATAGRAMS always suffice for.
 *
 * Proved: RMP_GOOD exactly where the bytes spell a frame, and these are its datagrams; else the fault is the
 * first one from the left; any end but RMP_GOOD leaves `room` as it is.
 */
struct rmp_reading rmp_read(uint32_t form, const uint8_t *bytes, size_t size, struct rmp_datagram *room,
                            size_t room_count);

/*
 * A cycle as a state machine, in place of a loop over the four calls:
 *
 *     struct rmp_cycle cycle = rmp_cycle_begin(RMP_UDP);
 *     while (cycle.state == RMP_UNDER_WAY) {
 *         made = rmp_cycle_next(&cycle, items, n, image, size, sent, sizeof sent);
 *         ... where made.code is not RMP_GOOD, give up ...
 *         ... send sent[0 .. made.bytes] with two numbers, and open what comes back of it: a and b ...
 *         turn = rmp_cycle_came(&cycle, items, n, sent, made.bytes, a, a_size, b, b_size, waiting, size,
 *                               image, size);
 *         ... of a code above RMP_OVER give up: what is wrong stays; but of RMP_STRANGER_A (_B), which no
 *             opened packet is, receive another a (b), and call rmp_cycle_came again: do not send again ...
 *     }
 */
struct rmp_cycle rmp_cycle_begin(uint32_t form);

/*
 * Puts the next frame of a cycle at the front of `room`: again the last one, while that has no good answer.
 *
 * Proved: it does what rmp_frame does from item `cycle->first` on, in a cycle that is under way: RMP_NO_ITEM
 * where no item is left; of any other cycle RMP_NOT_UNDER_WAY. Any end but RMP_GOOD leaves `room` as it is.
 */
struct rmp_framed rmp_cycle_next(const struct rmp_cycle *cycle, const struct rmp_item *items, size_t n,
                                 const uint8_t *image, size_t image_size, uint8_t *room, size_t room_size);

/*
 * Takes the packets `a` and `b` that came back of the frame `sent`, which rmp_cycle_next made last. `waiting`
 * is an array of the master's, of the image's very size, where the data of a cycle wait until all its frames
 * are good: give the same one in each call of a cycle, and do not write it.
 *
 * Proved: the packets are joined as by rmp_join, and judged as by rmp_judge, `came` and `passed` included.
 * RMP_GOOD: the frame's data wait, and the cycle goes on behind its items; behind the last item the data of
 * each item that reads go from `waiting` into the image, no other byte of it changes, and the cycle is done.
 * RMP_SHORT, RMP_OVER: the cycle is ended, and the image is as it was. Any other code leaves the cycle, the
 * items, `waiting` and the image as they are, so that a stranger may be dropped and the next packets taken:
 * those of rmp_join but RMP_NO_ROOM; RMP_OTHER_ITEM; RMP_BAD_.. of an item; RMP_NO_ROOM where `waiting` is
 * not of the image's size; RMP_NOT_UNDER_WAY. A cycle that is done is a good cycle, as that of the four
 * calls is, where the master leaves the image alone meanwhile; the image then has the answers of this cycle,
 * whatever `waiting` held before its first frame.
 */
struct rmp_turn rmp_cycle_came(struct rmp_cycle *cycle, struct rmp_item *items, size_t n,
                               const uint8_t *sent, size_t sent_size, const uint8_t *a, size_t a_size,
                               const uint8_t *b, size_t b_size, uint8_t *waiting, size_t waiting_size,
                               uint8_t *image, size_t image_size);

/*
 * Says where the cable of a line of so many slaves is broken, by a frame `sent` that went out at both ports
 * and begins with a BRD, as rmp_frame makes it of one item:
 *
 *     struct rmp_item states = {.address = 0x0130, .length = 2, .kind = RMP_BRD};
 *     made = rmp_frame(&states, 1, two_zeros, 2, 0, sent, sizeof sent);
 *
 * `a` is what port A received, at the first slave's end of the line, and `b` what port B received, each
 * opened by rmp_open: the item's `sent` stays 0. A packet of length 0 tells nothing, nor does one that is no
 * frame, or whose first datagram is not that BRD by command, index, register and length.
 *
 * RMP_NOT_BROADCAST: `sent` is a frame, and begins with no BRD, or with one whose circulating bit is set.
 *
 * Proved: the answer says of the links exactly that the packets can arrive so, each by how far the working
 * counter of its BRD moved, and by whether it turned round. And it is so, over any line of up to 256 slaves,
 * where the BRD is the only datagram of the frame, all that it reads lies below 0x1000, the packets are
 * copies of this frame as they arrived, and both travelled under the same links.
 */
struct rmp_located rmp_where(uint32_t form, const uint8_t *sent, size_t sent_size, const uint8_t *a,
                             size_t a_size, const uint8_t *b, size_t b_size, size_t slaves);

/*
 * Says whether a line is mapped as a cycle needs it, by the records of its slaves in whatever order: before
 * the first cycle, of what the master is to write, or has read back.
 *
 * Proved: the answer is RMP_FIT exactly where no rule is broken, and else the first rule that is, with the
 * smallest numbers from left to right and the lowest address or bit. Of fit lines alone the promises about
 * cycles hold. Of more than RMP_MAX_SLAVES slaves it is RMP_LONG_LINE. What this call and the four below
 * find by records that were read back of the slaves is so of the line, of `counter` where the line is fit and
 * the item goes where a cycle may.
 *
 * Not looked at: whether an area is written to its last byte (rmp_shown says so of a cycle's items), and the
 * two further buffers that a controller keeps behind a buffered area.
 */
struct rmp_mapping rmp_check(const struct rmp_records *line, size_t slaves);

/*
 * Says whether an item goes where a cycle may: an FPRD into registers or into one active buffered area that
 * the master reads, an FPWR into one that it writes. Logical items and BRD always do, and so does an item of
 * a station that no slave has. Of the item, kind, address and length are looked at alone.
 *
 * Proved: RMP_GOOD exactly where it does; else the first slave of its station is named. RMP_BAD_KIND,
 * RMP_BAD_LENGTH, RMP_BAD_RANGE: there is no such item. Of fit lines and of items that go where they may the
 * promises about cycles hold.
 */
struct rmp_answer rmp_check_item(const struct rmp_records *line, size_t slaves, const struct rmp_item *item);

/*
 * Says by how much the working counter of an item moves where every slave takes part: what `expected` is to
 * be. Of the item, kind, address and length are looked at alone.
 *
 * Proved: it is the sum, modulo 65,536, of what the pass of the item's datagram counts at each slave that has
 * these records: 1 where it reads, 1 where it writes, 1 and 2 where an LRW does.
 */
struct rmp_expectation rmp_expected(const struct rmp_records *line, size_t slaves,
                                    const struct rmp_item *item);

/*
 * Says whether the items of a cycle ask for each logical bit that the line maps: one through which the master
 * reads by an LRD or LRW, one through which it writes by an LWR or LRW.
 *
 * Proved: RMP_GOOD exactly where each bit is asked for; else the first that is not, by slave, FMMU, way
 * (reads first) and bit. The first item that is none is named before.
 */
struct rmp_gap rmp_covered(const struct rmp_records *line, size_t slaves, const struct rmp_item *items,
                           size_t n);

/*
 * Says whether the items of a cycle hand each area of outputs that FMMUs map to its application. A controller
 * hands a buffered area on when its last byte is written: where no item writes that byte, or one writes
 * others of the area without it, the slave counts all the same, and its application is not shown these
 * outputs. An item writes what FMMUs for writing map to its logical bytes (LWR, LRW), or its own range at the
 * slave of its station (FPWR).
 *
 * Proved: RMP_GOOD exactly where each item that writes a byte of such an area writes its last one too, and
 * some item does; else the first area where it is not so, by slave and sync manager, with the first item that
 * leaves it (RMP_LEFT_BY), or RMP_NEVER_COMPLETED where none leaves it and none completes it. The first item
 * that is none is named before.
 */
struct rmp_not_shown rmp_shown(const struct rmp_records *line, size_t slaves, const struct rmp_item *items,
                               size_t n);

/*
 * The start-up of a line as a state machine, in place of frames of the master's own: slaves are counted,
 * given their station addresses, mailboxes and process data, and brought to Op, a frame in each turn:
 *
 *     struct rmp_start start = rmp_start_begin(RMP_UDP, slaves, RMP_NO_LINK, RMP_STAGE_COUNT, RMP_STAGE_OP);
 *     do {
 *         made = rmp_start_next(&start, line, slaves, startup, n, sent, sizeof sent);
 *         ... where made.code is not RMP_GOOD, give up; else send sent[0 .. made.bytes] with two numbers, and
 *             open what comes back of it: a and b. Where made.bytes is 0, send nothing: both are lost ...
 *         started = rmp_start_came(&start, line, slaves, startup, n, a, a_size, b, b_size);
 *         ... of RMP_STRANGER receive another packet, and call rmp_start_came again: do not send again ...
 *     } while (started.code == RMP_GOES_ON);
 *
 * `slaves` is how many slaves the line has, 1 to RMP_MAX_SLAVES: any other number gives the numbers of no
 * start-up (RMP_BAD_NUMBERS), and so does a stage that is none. `down` is the link that rmp_where told down
 * (RMP_ONE), so that slaves on both sides of it are reached, or RMP_NO_LINK. `first` and `last` are stages of
 * enum rmp_stage. Begin with RMP_STAGE_COUNT, or where the slaves have their station addresses with one from
 * RMP_STAGE_INIT on. A line may be brought to Pre-Op, its objects read by services, as what each slave is
 * (0x1018), and the start-up begun anew with RMP_STAGE_SAFE_OP.
 *
 * Proved: the numbers are those of that start-up, which has made no trip, or of none.
 */
struct rmp_start rmp_start_begin(uint32_t form, uint16_t slaves, uint16_t down, uint8_t first, uint8_t last);

/*
 * Puts the next frame of a start-up at the front of `room`: again the last one, until rmp_start_came took
 * what came of it. `line` has the records of all slaves by place, what each is to be told: `slaves` is their
 * number, that of rmp_start_begin, else it is RMP_BAD_NUMBERS. `startup` has the objects of each slave by
 * place; it may end sooner, or be NULL with 0. Give the same in each call. RMP_GOOD with `bytes` 0: nothing
 * goes out in this turn.
 *
 * Proved: the frame is the one that goes out next, as the program's own start-up by turns sends it. Else
 * RMP_BAD_NUMBERS, RMP_NO_ROOM or RMP_NOT_UNDER_WAY, and `room` is as it was, as it is with `bytes` 0.
 */
struct rmp_written rmp_start_next(const struct rmp_start *start, const struct rmp_records *line,
                                  size_t slaves, const struct rmp_startup *startup, size_t startup_count,
                                  uint8_t *room, size_t room_size);

/*
 * Takes the packets `a` and `b` that came back of the frame that rmp_start_next made last, each of length 0
 * where nothing came. RMP_GOES_ON: another frame goes out. RMP_GOOD: the last stage is done with each slave.
 * RMP_NO_SLAVE, RMP_NO_ANSWER, RMP_BAD_ANSWER, RMP_REFUSED, RMP_ABORTED and RMP_OTHER_COUNT have ended it,
 * and name the stage and the step. Any other code leaves it as it is.
 *
 * A lost frame ends nothing: what no slave answered is asked again, twenty times in a step; slaves are
 * counted ten times where they are not as many as they are to be; AL status is read a thousand times until a
 * slave is in a state that it was asked for; and an object is written by 64 trips at the most.
 *
 * Proved: what the packets decide, and how far the start-up is behind them, is what the program's own turn
 * decides over ports that give these packets; nothing else of the struct changes.
 */
struct rmp_started rmp_start_came(struct rmp_start *start, const struct rmp_records *line, size_t slaves,
                                  const struct rmp_startup *startup, size_t startup_count, const uint8_t *a,
                                  size_t a_size, const uint8_t *b, size_t b_size);

/*
 * A service with one slave beside the cycles, as a state machine: an object is read or written by SDO, a
 * state is asked for, or an error is acknowledged. One frame goes out in each turn, so that a service goes on
 * between two cycles:
 *
 *     struct rmp_service service = rmp_read_begin(RMP_UDP, &line[2], 0x1018, 1, number++, 64);
 *     do {
 *         made = rmp_service_next(&service, sent, sizeof sent);
 *         ... as in a start-up ...
 *         served = rmp_service_came(&service, a, a_size, b, b_size);
 *     } while (served.code == RMP_GOES_ON);
 *     ... where served.code is RMP_GOOD, served.number is the value, of served.size bytes ...
 *
 * Of the slave's records its station and sync managers 0 and 1 are looked at, its mailboxes of requests and
 * of answers. Mailboxes of more than RMP_MAX_DATA - RMP_NUMBER_LENGTH bytes leave frames no place for a
 * number. `trips` is how many trips it may take at the most: 64 are plenty, and 4 are enough for an object
 * where nothing is lost. Each rmp_.._next and rmp_.._came of a service, a start-up or a look takes up to 64
 * KB of stack, each other call of the library less than 8 KB.
 *
 * This one reads an object of the slave, of 1, 2 or 4 bytes (expedited). `number` is one more from one
 * service with that slave to the next: the counters of their mails follow it (number % 7 + 1), by which the
 * slave tells a mail from one that is sent again.
 *
 * Proved of this one and the three below: the numbers are those of that service, which has made no trip, or
 * of none.
 */
struct rmp_service rmp_read_begin(uint32_t form, const struct rmp_records *records, uint16_t index,
                                  uint8_t sub, uint32_t number, uint32_t trips);

/* Begins the writing of `value` to an object, of `size` bytes: 1, 2 or 4. A value that does not fit them
 * gives the numbers of no service (RMP_BAD_NUMBERS). Where packets are lost it may be written twice, and
 * where the service ends without an answer it may be written yet. */
struct rmp_service rmp_write_begin(uint32_t form, const struct rmp_records *records, uint16_t index,
                                   uint8_t sub, uint8_t size, uint32_t value, uint32_t number,
                                   uint32_t trips);

/* Begins that the slave is asked for a state of enum rmp_al_state, by which an error that stands is
 * acknowledged, and that AL status is read until it is there. Another number gives the numbers of no service.
 * A slave in a state that is none of these, as Bootstrap, counts as in Init. */
struct rmp_service rmp_state_begin(uint32_t form, const struct rmp_records *records, uint8_t state,
                                   uint32_t trips);

/* Begins that an error of the slave is acknowledged in the state that it is in. A state that is none of enum
 * rmp_al_state counts as Init, and then Init is asked for. */
struct rmp_service rmp_acknowledge_begin(uint32_t form, const struct rmp_records *records, uint32_t trips);

/*
 * Puts the next frame of a service at the front of `room`: again the last one, until rmp_service_came took
 * what came of it. RMP_GOOD with `bytes` 0: nothing goes out, and rmp_service_came says why where it is
 * handed nothing, both lengths 0: the slave has no mailboxes (RMP_NO_SLAVE), or no trip is left
 * (RMP_NO_ANSWER).
 *
 * Proved: the frame is the one that goes out next, as the program's own service by turns sends it. Else
 * RMP_BAD_NUMBERS, RMP_NO_ROOM or RMP_NOT_UNDER_WAY, and `room` is as it was, as it is with `bytes` 0.
 */
struct rmp_written rmp_service_next(const struct rmp_service *service, uint8_t *room, size_t room_size);

/*
 * Takes the packets `a` and `b` that came back of the frame that rmp_service_next made last, each of length 0
 * where nothing came. RMP_GOES_ON: another frame goes out. RMP_GOOD: the service is done, and `number` is the
 * value that was read, or the state that the slave is in. RMP_NO_SLAVE, RMP_NO_ANSWER, RMP_BAD_ANSWER,
 * RMP_REFUSED and RMP_ABORTED have ended it. Any other code leaves it as it is: behind RMP_STRANGER call it
 * again with other packets.
 *
 * A lost frame ends nothing: a question about a state that no slave answered is asked again, ten times in a
 * row, and mails are sent again safely, whatever was lost.
 *
 * Proved: what the packets decide, and what goes out next, is what the program's own turn decides over ports
 * that give these packets; nothing else of the struct changes.
 */
struct rmp_served rmp_service_came(struct rmp_service *service, const uint8_t *a, size_t a_size,
                                   const uint8_t *b, size_t b_size);

/*
 * A look at one slave, by one frame and without a struct: of each slave it tells who is not in Op:
 *
 *     made = rmp_look_next(0x1001, sent, sizeof sent);
 *     ... send sent[0 .. made.bytes] with two numbers, and open what comes back of it: a and b ...
 *     seen = rmp_look_came(RMP_UDP, 0x1001, a, a_size, b, b_size);
 *
 * This call puts the frame at the front of `room` by which AL status is read of the slave with that station
 * address: an FPRD of 6 bytes at 0x0130.
 *
 * Proved: the frame is that of the program's own look. Else RMP_NO_ROOM, and `room` is as it was.
 */
struct rmp_written rmp_look_next(uint16_t station, uint8_t *room, size_t room_size);

/*
 * Tells what the packets `a` and `b` show that came back of that frame, each of length 0 where nothing came.
 * RMP_GOOD: one slave answered, in `state` and without an error. RMP_REFUSED: one answered, in `state` and
 * with an error, whose AL status code is `error`. RMP_NO_SLAVE: copies came, and no slave had answered: it is
 * cut off, has lost its station address, or the copy that passed it is lost. RMP_NO_ANSWER: no copy came.
 * RMP_BAD_ANSWER: more than one slave answered. RMP_STRANGER: receive another packet, and call it again.
 * RMP_BAD_FORM. A state that is none of enum rmp_al_state, as Bootstrap, counts as Init.
 *
 * Proved: what is told is what the program's own look sees over ports that give these packets.
 */
struct rmp_seen rmp_look_came(uint32_t form, uint16_t station, const uint8_t *a, size_t a_size,
                              const uint8_t *b, size_t b_size);

/* What a code says, in a few words, or "no such code". Written by hand, here alone. */
static inline const char *rmp_code_text(uint32_t code) {
    static const char *const texts[] = {
        "good",
        "a working counter moved by less than is expected",
        "a working counter moved by more than is expected",
        "packet a is not of the sent frame",
        "packet b is not of the sent frame",
        "the room is too small",
        "no such form",
        "what is said to be sent is no frame",
        "what is said to be joined is no frame",
        "a datagram is not the answer of its item",
        "too many items",
        "no such item",
        "no such kind of item",
        "no data, or too many",
        "the addresses of an item end past those of its kind",
        "the data of an item do not lie in the image",
        "the bytes end before the frame does",
        "the frame's type is not 1",
        "a reserved bit is set",
        "the frame states no datagrams",
        "the frame states too many bytes",
        "a command above 14",
        "a datagram reaches past the end of the frame",
        "the last datagram says that more follow",
        "bytes are left behind the last datagram",
        "bytes follow the frame",
        "the cycle, service or start-up is done or ended",
        "an item reads where a cycle may not",
        "an item writes where a cycle may not",
        "no item asks for a mapped bit",
        "the frame has no place for a number",
        "the packet has the number, and is no copy of the frame",
        "the packet has another number, or none",
        "the frame does not begin with a broadcast read",
        "no such command",
        "an item writes an area of outputs without its last byte",
        "no item writes the last byte of an area of outputs",
        "another frame goes out",
        "no slave answered, or it has no mailboxes",
        "as many trips as were allowed brought no answer",
        "the answer is none to what was asked, or more than one slave answered",
        "the slave refused the state",
        "the slave ended the transfer",
        "a packet is not of the sent frame",
        "the numbers are those of no service or start-up",
        "another number of slaves was counted",
    };
    return code < sizeof texts / sizeof texts[0] ? texts[code] : "no such code";
}

#ifdef __cplusplus
}
#define RMP_ASSERT static_assert
#else
#define RMP_ASSERT _Static_assert
#endif

/* The library was compiled with these layouts. */
RMP_ASSERT(sizeof(size_t) == 8, "the library is of 64 bits");
RMP_ASSERT(sizeof(struct rmp_item) == 20, "size of rmp_item");
RMP_ASSERT(offsetof(struct rmp_item, address) == 0, "address");
RMP_ASSERT(offsetof(struct rmp_item, offset) == 4, "offset");
RMP_ASSERT(offsetof(struct rmp_item, length) == 8, "length");
RMP_ASSERT(offsetof(struct rmp_item, kind) == 10, "kind");
RMP_ASSERT(offsetof(struct rmp_item, expected) == 12, "expected");
RMP_ASSERT(offsetof(struct rmp_item, sent) == 14, "sent");
RMP_ASSERT(offsetof(struct rmp_item, came) == 16, "came");
RMP_ASSERT(offsetof(struct rmp_item, passed) == 18, "passed");
RMP_ASSERT(sizeof(struct rmp_framed) == 32, "size of rmp_framed");
RMP_ASSERT(offsetof(struct rmp_framed, bytes) == 0, "bytes");
RMP_ASSERT(offsetof(struct rmp_framed, items) == 8, "items");
RMP_ASSERT(offsetof(struct rmp_framed, at) == 16, "at");
RMP_ASSERT(offsetof(struct rmp_framed, code) == 24, "code");
RMP_ASSERT(sizeof(struct rmp_written) == 24, "size of rmp_written");
RMP_ASSERT(offsetof(struct rmp_written, bytes) == 0, "bytes");
RMP_ASSERT(offsetof(struct rmp_written, at) == 8, "at");
RMP_ASSERT(offsetof(struct rmp_written, code) == 16, "code");
RMP_ASSERT(sizeof(struct rmp_joined) == 32, "size of rmp_joined");
RMP_ASSERT(offsetof(struct rmp_joined, bytes) == 0, "bytes");
RMP_ASSERT(offsetof(struct rmp_joined, at) == 8, "at");
RMP_ASSERT(offsetof(struct rmp_joined, code) == 16, "code");
RMP_ASSERT(offsetof(struct rmp_joined, copy_a) == 20, "copy_a");
RMP_ASSERT(offsetof(struct rmp_joined, copy_b) == 24, "copy_b");
RMP_ASSERT(sizeof(struct rmp_answer) == 16, "size of rmp_answer");
RMP_ASSERT(offsetof(struct rmp_answer, at) == 0, "at");
RMP_ASSERT(offsetof(struct rmp_answer, code) == 8, "code");
RMP_ASSERT(sizeof(struct rmp_located) == 40, "size of rmp_located");
RMP_ASSERT(offsetof(struct rmp_located, first) == 0, "first");
RMP_ASSERT(offsetof(struct rmp_located, last) == 8, "last");
RMP_ASSERT(offsetof(struct rmp_located, at) == 16, "at");
RMP_ASSERT(offsetof(struct rmp_located, code) == 24, "code");
RMP_ASSERT(offsetof(struct rmp_located, cable) == 28, "cable");
RMP_ASSERT(offsetof(struct rmp_located, copy_a) == 32, "copy_a");
RMP_ASSERT(offsetof(struct rmp_located, copy_b) == 36, "copy_b");
RMP_ASSERT(sizeof(struct rmp_records) == 194, "size of rmp_records");
RMP_ASSERT(offsetof(struct rmp_records, station) == 0, "station");
RMP_ASSERT(offsetof(struct rmp_records, fmmus) == 2, "fmmus");
RMP_ASSERT(offsetof(struct rmp_records, sync_managers) == 130, "sync_managers");
RMP_ASSERT(sizeof(struct rmp_mapping) == 48, "size of rmp_mapping");
RMP_ASSERT(offsetof(struct rmp_mapping, slave) == 0, "slave");
RMP_ASSERT(offsetof(struct rmp_mapping, number) == 8, "number");
RMP_ASSERT(offsetof(struct rmp_mapping, other_slave) == 16, "other_slave");
RMP_ASSERT(offsetof(struct rmp_mapping, other_number) == 24, "other_number");
RMP_ASSERT(offsetof(struct rmp_mapping, place) == 32, "place");
RMP_ASSERT(offsetof(struct rmp_mapping, rule) == 40, "rule");
RMP_ASSERT(sizeof(struct rmp_expectation) == 8, "size of rmp_expectation");
RMP_ASSERT(offsetof(struct rmp_expectation, counter) == 0, "counter");
RMP_ASSERT(offsetof(struct rmp_expectation, code) == 4, "code");
RMP_ASSERT(sizeof(struct rmp_gap) == 32, "size of rmp_gap");
RMP_ASSERT(offsetof(struct rmp_gap, at) == 0, "at");
RMP_ASSERT(offsetof(struct rmp_gap, fmmu) == 8, "fmmu");
RMP_ASSERT(offsetof(struct rmp_gap, bit) == 16, "bit");
RMP_ASSERT(offsetof(struct rmp_gap, way) == 24, "way");
RMP_ASSERT(offsetof(struct rmp_gap, code) == 28, "code");
RMP_ASSERT(sizeof(struct rmp_not_shown) == 32, "size of rmp_not_shown");
RMP_ASSERT(offsetof(struct rmp_not_shown, at) == 0, "at");
RMP_ASSERT(offsetof(struct rmp_not_shown, sync_manager) == 8, "sync_manager");
RMP_ASSERT(offsetof(struct rmp_not_shown, item) == 16, "item");
RMP_ASSERT(offsetof(struct rmp_not_shown, code) == 24, "code");
RMP_ASSERT(sizeof(struct rmp_cycle) == 16, "size of rmp_cycle");
RMP_ASSERT(offsetof(struct rmp_cycle, first) == 0, "first");
RMP_ASSERT(offsetof(struct rmp_cycle, form) == 8, "form");
RMP_ASSERT(offsetof(struct rmp_cycle, state) == 12, "state");
RMP_ASSERT(sizeof(struct rmp_turn) == 24, "size of rmp_turn");
RMP_ASSERT(offsetof(struct rmp_turn, at) == 0, "at");
RMP_ASSERT(offsetof(struct rmp_turn, code) == 8, "code");
RMP_ASSERT(offsetof(struct rmp_turn, copy_a) == 12, "copy_a");
RMP_ASSERT(offsetof(struct rmp_turn, copy_b) == 16, "copy_b");
RMP_ASSERT(sizeof(struct rmp_mail) == 14, "size of rmp_mail");
RMP_ASSERT(offsetof(struct rmp_mail, station) == 0, "station");
RMP_ASSERT(offsetof(struct rmp_mail, request_start) == 2, "request_start");
RMP_ASSERT(offsetof(struct rmp_mail, request_length) == 4, "request_length");
RMP_ASSERT(offsetof(struct rmp_mail, answer_start) == 6, "answer_start");
RMP_ASSERT(offsetof(struct rmp_mail, answer_length) == 8, "answer_length");
RMP_ASSERT(offsetof(struct rmp_mail, counter) == 10, "counter");
RMP_ASSERT(offsetof(struct rmp_mail, posted) == 11, "posted");
RMP_ASSERT(offsetof(struct rmp_mail, is_posted) == 12, "is_posted");
RMP_ASSERT(offsetof(struct rmp_mail, known) == 13, "known");
RMP_ASSERT(sizeof(struct rmp_service) == 40, "size of rmp_service");
RMP_ASSERT(offsetof(struct rmp_service, mail) == 0, "mail");
RMP_ASSERT(offsetof(struct rmp_service, index) == 14, "index");
RMP_ASSERT(offsetof(struct rmp_service, sub) == 16, "sub");
RMP_ASSERT(offsetof(struct rmp_service, size) == 17, "size");
RMP_ASSERT(offsetof(struct rmp_service, al_state) == 18, "al_state");
RMP_ASSERT(offsetof(struct rmp_service, next) == 19, "next");
RMP_ASSERT(offsetof(struct rmp_service, value) == 20, "value");
RMP_ASSERT(offsetof(struct rmp_service, unanswered) == 24, "unanswered");
RMP_ASSERT(offsetof(struct rmp_service, trips) == 28, "trips");
RMP_ASSERT(offsetof(struct rmp_service, form) == 32, "form");
RMP_ASSERT(offsetof(struct rmp_service, state) == 36, "state");
RMP_ASSERT(sizeof(struct rmp_served) == 20, "size of rmp_served");
RMP_ASSERT(offsetof(struct rmp_served, number) == 0, "number");
RMP_ASSERT(offsetof(struct rmp_served, size) == 4, "size");
RMP_ASSERT(offsetof(struct rmp_served, code) == 8, "code");
RMP_ASSERT(offsetof(struct rmp_served, copy_a) == 12, "copy_a");
RMP_ASSERT(offsetof(struct rmp_served, copy_b) == 16, "copy_b");
RMP_ASSERT(sizeof(struct rmp_seen) == 20, "size of rmp_seen");
RMP_ASSERT(offsetof(struct rmp_seen, state) == 0, "state");
RMP_ASSERT(offsetof(struct rmp_seen, error) == 4, "error");
RMP_ASSERT(offsetof(struct rmp_seen, code) == 8, "code");
RMP_ASSERT(offsetof(struct rmp_seen, copy_a) == 12, "copy_a");
RMP_ASSERT(offsetof(struct rmp_seen, copy_b) == 16, "copy_b");
RMP_ASSERT(sizeof(struct rmp_object) == 8, "size of rmp_object");
RMP_ASSERT(offsetof(struct rmp_object, value) == 0, "value");
RMP_ASSERT(offsetof(struct rmp_object, index) == 4, "index");
RMP_ASSERT(offsetof(struct rmp_object, sub) == 6, "sub");
RMP_ASSERT(offsetof(struct rmp_object, size) == 7, "size");
RMP_ASSERT(sizeof(struct rmp_startup) == 128, "size of rmp_startup");
RMP_ASSERT(offsetof(struct rmp_startup, objects) == 0, "objects");
RMP_ASSERT(sizeof(struct rmp_start) == 48, "size of rmp_start");
RMP_ASSERT(offsetof(struct rmp_start, left) == 0, "left");
RMP_ASSERT(offsetof(struct rmp_start, mail) == 8, "mail");
RMP_ASSERT(offsetof(struct rmp_start, slaves) == 22, "slaves");
RMP_ASSERT(offsetof(struct rmp_start, down) == 24, "down");
RMP_ASSERT(offsetof(struct rmp_start, place) == 26, "place");
RMP_ASSERT(offsetof(struct rmp_start, stage) == 28, "stage");
RMP_ASSERT(offsetof(struct rmp_start, last) == 29, "last");
RMP_ASSERT(offsetof(struct rmp_start, is_writing) == 30, "is_writing");
RMP_ASSERT(offsetof(struct rmp_start, asked) == 32, "asked");
RMP_ASSERT(offsetof(struct rmp_start, unanswered) == 36, "unanswered");
RMP_ASSERT(offsetof(struct rmp_start, form) == 40, "form");
RMP_ASSERT(offsetof(struct rmp_start, state) == 44, "state");
RMP_ASSERT(sizeof(struct rmp_started) == 40, "size of rmp_started");
RMP_ASSERT(offsetof(struct rmp_started, place) == 0, "place");
RMP_ASSERT(offsetof(struct rmp_started, stage) == 8, "stage");
RMP_ASSERT(offsetof(struct rmp_started, step) == 12, "step");
RMP_ASSERT(offsetof(struct rmp_started, part) == 16, "part");
RMP_ASSERT(offsetof(struct rmp_started, number) == 20, "number");
RMP_ASSERT(offsetof(struct rmp_started, code) == 24, "code");
RMP_ASSERT(offsetof(struct rmp_started, copy_a) == 28, "copy_a");
RMP_ASSERT(offsetof(struct rmp_started, copy_b) == 32, "copy_b");
RMP_ASSERT(sizeof(struct rmp_datagram) == 32, "size of rmp_datagram");
RMP_ASSERT(offsetof(struct rmp_datagram, data) == 0, "data");
RMP_ASSERT(offsetof(struct rmp_datagram, length) == 8, "length");
RMP_ASSERT(offsetof(struct rmp_datagram, address) == 16, "address");
RMP_ASSERT(offsetof(struct rmp_datagram, counter) == 20, "counter");
RMP_ASSERT(offsetof(struct rmp_datagram, irq) == 22, "irq");
RMP_ASSERT(offsetof(struct rmp_datagram, command) == 24, "command");
RMP_ASSERT(offsetof(struct rmp_datagram, index) == 25, "index");
RMP_ASSERT(offsetof(struct rmp_datagram, circulating) == 26, "circulating");
RMP_ASSERT(sizeof(struct rmp_reading) == 24, "size of rmp_reading");
RMP_ASSERT(offsetof(struct rmp_reading, count) == 0, "count");
RMP_ASSERT(offsetof(struct rmp_reading, at) == 8, "at");
RMP_ASSERT(offsetof(struct rmp_reading, code) == 16, "code");

#endif
