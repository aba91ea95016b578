/* A line of two slaves in memory, for talks.c: their registers, AL management and mailboxes, of which each
 * answers for two objects (IEC 61158-4-12, IEC 61158-6-12), and a cable that breaks between them and loses
 * copies. Frames are of one datagram. */
#include "rummymaple.h"
#include <string.h>

enum { PAIR = 2, MEMORY = 0x2000, WRITTEN_OBJECT = 0x8000, IDENTITY = 0x1018, FULL = 8, ERROR_BIT = 0x10 };

struct slave {
    uint8_t memory[MEMORY];
    uint8_t asked;    /* the state that it comes to behind the next read of AL status, or 0 */
    uint8_t refuses;  /* the state that it refuses, with AL status code 0x001d, or 0 */
    uint8_t counter;  /* of the last mail that it took */
    uint16_t object;  /* what its object 0x8000:1 holds, */
    unsigned written; /* and how often that was written */
};

struct pair {
    struct slave slaves[PAIR];
    int is_broken;     /* the link between them is down */
    unsigned losses;   /* so many of a thousand copies are lost, before the slaves or behind them */
    uint64_t chance;
    unsigned trips;
    uint8_t copies[2][RMP_FRAME_SIZE]; /* what came back, by the port that each copy went out from */
    size_t sizes[2];
};

static inline unsigned word_at(const uint8_t *bytes) { return bytes[0] | (unsigned)bytes[1] << 8; }

/* A number below `below`, by a generator that begins alike in each run. */
static inline unsigned by_chance(uint64_t *state, unsigned below) {
    *state ^= *state << 13;
    *state ^= *state >> 7;
    *state ^= *state << 17;
    return (unsigned)(*state >> 33) % below;
}

static inline void begin_pair(struct pair *pair) {
    memset(pair, 0, sizeof *pair);
    for (int k = 0; k < PAIR; k++)
        pair->slaves[k].memory[0x0130] = RMP_INIT;
    pair->chance = 88172645463325252u;
}

/* A state is asked for. */
static inline void take_control(struct slave *slave, uint8_t control) {
    uint8_t *status = slave->memory + 0x0130;
    if (!(control & ERROR_BIT) && (status[0] & ERROR_BIT))
        return;
    status[0] &= 0x0F;
    status[4] = 0;
    if ((control & 0x0F) == slave->refuses) {
        status[0] |= ERROR_BIT;
        status[4] = 0x1D;
    } else {
        slave->asked = control & 0x0F;
    }
}

/* The record of the sync manager whose mailbox begins at an address, or NULL. */
static inline uint8_t *mailbox_at(struct slave *slave, unsigned ado) {
    for (int k = 0; k < 2; k++) {
        uint8_t *record = slave->memory + 0x0800 + 8 * k;
        if ((record[6] & 1) && (record[4] & 3) == 2 && word_at(record) == ado)
            return record;
    }
    return NULL;
}

/* A datagram reads or writes the memory of a slave: whether it counts. */
static inline int touches(struct slave *slave, int writes, unsigned ado, uint8_t *data, size_t length) {
    uint8_t *mailbox = mailbox_at(slave, ado);
    if (ado + length > MEMORY || (mailbox && length != word_at(mailbox + 2)))
        return 0;
    if (mailbox) { /* a full one is read, an empty one written */
        if (writes != ((mailbox[4] & 4) != 0) || writes == ((mailbox[5] & FULL) != 0))
            return 0;
        mailbox[5] ^= FULL;
    }
    for (size_t k = 0; k < length; k++) {
        unsigned at = ado + (unsigned)k, in_record = at % 8;
        int is_manager = at >= 0x0800 && at < 0x0840;
        if (!writes)
            data[k] = slave->memory[at];
        else if (!is_manager || in_record != 5)
            slave->memory[at] = data[k];
        if (writes && is_manager && in_record == 6 && !(data[k] & 1))
            slave->memory[at - 1] = 0;
    }
    if (writes && ado == 0x0120)
        take_control(slave, data[0]);
    if (!writes && ado == 0x0130 && slave->asked) {
        slave->memory[0x0130] = slave->asked;
        slave->asked = 0;
    }
    return 1;
}

/* A frame passes a slave. */
static inline void pass(struct slave *slave, uint8_t *frame) {
    uint8_t *datagram = frame + 2, command = datagram[0];
    size_t length = word_at(datagram + 6) & 0x7FF;
    uint8_t *counter = datagram + 10 + length;
    unsigned adp = word_at(datagram + 2), ado = word_at(datagram + 4);
    int is_by_place = command == 1 || command == 2, is_broadcast = command == 7 || command == 8;
    int is_meant = is_broadcast || (is_by_place ? adp == 0 : adp == word_at(slave->memory + 0x0010));
    uint8_t held[RMP_FRAME_SIZE];
    if (is_by_place || is_broadcast) {
        datagram[2] = (uint8_t)((adp + 1) & 0xFF);
        datagram[3] = (uint8_t)((adp + 1) >> 8 & 0xFF);
    }
    memcpy(held, datagram + 10, length);
    if (!is_meant || !touches(slave, command == 2 || command == 5 || command == 8, ado, held, length))
        return;
    for (size_t k = 0; k < length; k++)
        datagram[10 + k] = is_broadcast ? datagram[10 + k] | held[k] : held[k];
    counter[0]++;
}

/* What an SDO is answered, in its place. */
static inline void answer_sdo(struct slave *slave, uint8_t *sdo) {
    unsigned index = word_at(sdo + 1);
    uint8_t command = sdo[0], is_there = sdo[3] == 1 && (index == IDENTITY || index == WRITTEN_OBJECT);
    if (command == 0x40 && is_there && index == IDENTITY) {
        const uint8_t told[8] = {0x43, sdo[1], sdo[2], sdo[3], 0x78, 0x56, 0x34, 0x12};
        memcpy(sdo, told, sizeof told);
    } else if (command == 0x40 && is_there) {
        const uint8_t told[8] = {0x4B, sdo[1], sdo[2], sdo[3], (uint8_t)(slave->object & 0xFF),
                                 (uint8_t)(slave->object >> 8), 0, 0};
        memcpy(sdo, told, sizeof told);
    } else if (command == 0x2B && is_there && index == WRITTEN_OBJECT) {
        slave->object = (uint16_t)word_at(sdo + 4);
        slave->written++;
        sdo[0] = 0x60;
        memset(sdo + 4, 0, 4);
    } else {
        const uint8_t told[8] = {0x80, sdo[1], sdo[2], sdo[3], 0, 0, 0x02, 0x06}; /* no such object */
        memcpy(sdo, told, sizeof told);
    }
}

/* A slave answers a mail that waits, but for one that is sent again. */
static inline void answer_mail(struct slave *slave) {
    uint8_t *requests = slave->memory + 0x0800, *answers = slave->memory + 0x0808;
    uint8_t *mail = slave->memory + word_at(requests), *answer = slave->memory + word_at(answers);
    if (!(requests[6] & 1) || !(answers[6] & 1) || !(requests[5] & FULL) || (answers[5] & FULL))
        return;
    requests[5] &= (uint8_t)~FULL;
    if ((mail[5] >> 4 & 7) == slave->counter)
        return;
    slave->counter = mail[5] >> 4 & 7;
    memset(answer, 0, word_at(answers + 2));
    memcpy(answer, mail, 16);
    answer[7] = 0x30; /* an SDO response */
    answer_sdo(slave, answer + 8);
    answers[5] |= FULL;
}

/* A copy goes out from a port, and comes back or is lost. Over a broken link that from port B turns round at
 * the closed port 0 of the second slave, which marks it, and destroys one that is marked. */
static inline void send_copy(struct pair *pair, int port) {
    uint8_t *copy = pair->copies[port];
    unsigned lost = by_chance(&pair->chance, 2000);
    int first = port && pair->is_broken, end = port ? PAIR : pair->is_broken ? 1 : PAIR;
    int is_destroyed = first && (copy[9] & 0x40);
    if (port && !pair->is_broken)
        end = 0; /* it passes no slave forwards */
    if (is_destroyed || lost < pair->losses) {
        pair->sizes[port] = 0;
        return;
    }
    if (first)
        copy[9] |= 0x40;
    for (int k = first; k < end; k++)
        pass(&pair->slaves[k], copy);
    if (lost < 2 * pair->losses)
        pair->sizes[port] = 0;
}

/* A trip of a frame, or of none: then nothing comes. */
static inline void make_trip(struct pair *pair, const uint8_t *frame, size_t size) {
    for (int port = 0; port < 2; port++) {
        pair->sizes[port] = size;
        memcpy(pair->copies[port], frame, size);
        if (size)
            send_copy(pair, port);
    }
    pair->trips += size > 0;
    for (int k = 0; k < PAIR; k++)
        answer_mail(&pair->slaves[k]);
}
