/* Damaged packets, many of them: each array that the library sees ends where no memory is mapped, and what
 * rmp_join, rmp_seal and rmp_open answer is compared with a reader, a join and numbers that are written here
 * anew, byte by byte.
 *
 *     damaged [PAIRS [SEED]]
 */
#define _GNU_SOURCE
#include "rummymaple.h"
#include <stdio.h>
#include <stdlib.h>
#include <string.h>
#include <sys/mman.h>

#define PAGE 4096
#define MOST 124

static uint64_t state;

static uint32_t chance(uint32_t below) {
    state ^= state << 13;
    state ^= state >> 7;
    state ^= state << 17;
    return (uint32_t)(state >> 32) % below;
}

static unsigned word(const uint8_t *at) { return at[0] | (unsigned)at[1] << 8; }

/* Where the datagrams of a frame begin, and where it ends; or 0 where the bytes are none. */
static int places(const uint8_t *bytes, size_t size, uint32_t form, size_t *at) {
    int count = 0;
    size_t end, place = 2;
    if (size < 2 || word(bytes) >> 12 != 1 || (word(bytes) & 0x800))
        return 0;
    end = 2 + (word(bytes) & 0x7FF);
    if (end == 2 || end > RMP_FRAME_SIZE || size < end || (form == RMP_UDP && size > end))
        return 0;
    for (;;) {
        unsigned field;
        if (end - place < 12 || bytes[place] > 14)
            return 0;
        field = word(bytes + place + 6);
        if ((field & 0x3800) || end - place < 12 + (size_t)(field & 0x7FF))
            return 0;
        at[count++] = place;
        place += 12 + (field & 0x7FF);
        if (!(field & 0x8000)) {
            at[count] = place;
            return place == end ? count : 0;
        }
        if (place == end)
            return 0;
    }
}

static int counts_adp(unsigned command) {
    return command >= 1 && command <= 3 ? 1 : command == 7 || command == 8;
}

static int belongs(const uint8_t *sent, const uint8_t *copy) {
    return sent[0] == copy[0] && sent[1] == copy[1] && word(sent + 4) == word(copy + 4) &&
           (counts_adp(sent[0]) || word(sent + 2) == word(copy + 2)) &&
           (word(sent + 6) & 0x7FF) == (word(copy + 6) & 0x7FF);
}

static void put_word(uint8_t *at, unsigned value) {
    at[0] = value & 0xFF;
    at[1] = value >> 8 & 0xFF;
}

/* The answer of a join, and its bytes. */
static struct rmp_joined expected(uint32_t form, const uint8_t *sent, size_t sent_size,
                                  const uint8_t *packets[2], const size_t sizes[2], uint8_t *room) {
    struct rmp_joined answer = {0, 0, RMP_GOOD, RMP_LOST, RMP_LOST};
    size_t at[MOST + 1], other[MOST + 1];
    const uint8_t *copies[2];
    uint32_t came[2];
    int count = places(sent, sent_size, form, at);
    for (int c = 0; c < 2; c++) {
        int found = places(packets[c], sizes[c], form, other);
        came[c] = sizes[c] == 0 ? RMP_LOST : found ? RMP_CAME : RMP_NO_FRAME;
        copies[c] = found ? packets[c] : sent;
    }
    answer.copy_a = came[0];
    answer.copy_b = came[1];
    for (int c = 0; c < 2; c++) {
        int shared, found = came[c] == RMP_CAME ? places(packets[c], sizes[c], form, other) : count;
        if (came[c] != RMP_CAME)
            memcpy(other, at, sizeof at);
        for (shared = 0; shared < count && shared < found; shared++)
            if (!belongs(sent + at[shared], copies[c] + other[shared]))
                break;
        if (shared < count || shared < found) {
            answer.code = c ? RMP_STRANGER_B : RMP_STRANGER_A;
            answer.at = shared;
            return answer;
        }
    }
    answer.bytes = at[count];
    memcpy(room, copies[0], answer.bytes);
    for (int k = 0; k < count; k++) {
        const uint8_t *s = sent + at[k], *a = copies[0] + at[k], *b = copies[1] + at[k];
        uint8_t *to = room + at[k];
        size_t length = word(s + 6) & 0x7FF;
        if (counts_adp(s[0]))
            put_word(to + 2, word(a + 2) + word(b + 2) - word(s + 2));
        for (size_t i = 7; i < 10 + length; i++) /* the circulating bit, event requests, and data */
            to[i] = s[i] ^ ((a[i] ^ s[i]) | (b[i] ^ s[i]));
        put_word(to + 10 + length, word(a + 10 + length) + word(b + 10 + length) - word(s + 10 + length));
    }
    return answer;
}

/* Whether the library reads these bytes as they are read here. */
static int is_read(uint32_t form, const uint8_t *bytes, size_t size) {
    static struct rmp_datagram room[RMP_MAX_DATAGRAMS];
    size_t at[MOST + 1];
    int count = places(bytes, size, form, at);
    struct rmp_reading read = rmp_read(form, bytes, size, room, RMP_MAX_DATAGRAMS);
    if (count == 0)
        return read.code >= RMP_FAULT_SHORT && read.at <= size;
    for (int k = 0; k < count; k++) {
        const uint8_t *d = bytes + at[k];
        size_t length = word(d + 6) & 0x7FF;
        if (room[k].data != at[k] + 10 || room[k].length != length || room[k].command != d[0] ||
            room[k].index != d[1] || room[k].address != (word(d + 2) | word(d + 4) << 16) ||
            room[k].circulating != (d[7] >> 6 & 1) || room[k].irq != word(d + 8) ||
            room[k].counter != word(d + 10 + length))
            return 0;
    }
    return read.code == RMP_GOOD && read.count == (size_t)count;
}

/* What a port receives of a BRD's copies over n slaves where these links are up (bit k is link k): by how
 * many slaves it was counted up, with 256 where it turned round at a closed port 0; or -1. */
static int arrives(unsigned up, int n, int port) {
    int first = 0, last = n;
    while (first <= n && (up >> first & 1))
        first++;
    while (last >= 0 && (up >> last & 1))
        last--;
    if (first > n)
        return port ? n : 0;
    if (port)
        return last == n ? -1 : n - last + 256;
    return first == 0 ? -1 : first;
}

/* What a packet tells of the BRD that was sent first, as `arrives` says it; or -1. */
static int heard(uint32_t form, const uint8_t *sent, const uint8_t *packet, size_t size) {
    size_t at[MOST + 1];
    const uint8_t *s = sent + 2, *d = packet + 2;
    unsigned length = word(s + 6) & 0x7FF;
    if (!places(packet, size, form, at) || s[0] != RMP_BRD || (s[7] & 0x40) || d[0] != RMP_BRD ||
        d[1] != s[1] || word(d + 4) != word(s + 4) || (word(d + 6) & 0x7FF) != length)
        return -1;
    return ((word(d + 10 + length) - word(s + 10 + length)) & 0xFFFF) + (d[7] & 0x40 ? 65536 : 0);
}

/* Whether these links are up and down as an answer says. */
static int fits(unsigned up, int n, const struct rmp_located *place) {
    unsigned all = (2u << n) - 1, first = (1u << place->first) - 1, last = (2u << place->last) - 1;
    int begins = (up & first) == first && !(up >> place->first & 1);
    int ends = (up & all & ~last) == (all & ~last) && !(up >> place->last & 1);
    switch (place->cable) {
    case RMP_UNKNOWN:
        return 1;
    case RMP_WHOLE:
        return up == all;
    case RMP_ONE:
        return begins && ends && place->first == place->last;
    case RMP_BETWEEN:
        return begins && ends && place->first < place->last;
    case RMP_FIRST:
        return begins;
    case RMP_LAST:
        return ends;
    }
    return 0;
}

/* Whether the library says of the cable exactly which links of n slaves can give these packets. */
static int is_located(uint32_t form, const uint8_t *sent, size_t size, const uint8_t *packets[2],
                      const size_t sizes[2], int n) {
    struct rmp_located place =
        rmp_where(form, sent, size, packets[0], sizes[0], packets[1], sizes[1], (size_t)n);
    int told[2];
    if (sent[2] != RMP_BRD) /* no frame that goes out circulates */
        return place.code == RMP_NOT_BROADCAST && place.cable == RMP_UNKNOWN;
    for (int port = 0; port < 2; port++) {
        told[port] = heard(form, sent, packets[port], sizes[port]);
        if (told[port] >= 65536) /* a count that no line has stays one */
            told[port] = told[port] < 65536 + 256 ? told[port] - 65536 + 256 : 65536;
        else if (told[port] >= 256)
            told[port] = 65536;
    }
    for (unsigned up = 0; up < 2u << n; up++) {
        int can = 1;
        for (int port = 0; port < 2; port++)
            can &= told[port] < 0 || arrives(up, n, port) == told[port];
        if (can != fits(up, n, &place))
            return 0;
    }
    return place.code == RMP_GOOD;
}

/* Room that ends where no memory is mapped. */
static uint8_t *edge(void) {
    uint8_t *pages = mmap(NULL, 3 * PAGE, PROT_READ | PROT_WRITE, MAP_PRIVATE | MAP_ANONYMOUS, -1, 0);
    if (pages == MAP_FAILED || mprotect(pages + 2 * PAGE, PAGE, PROT_NONE) != 0) {
        perror("damaged");
        exit(3);
    }
    return pages + 2 * PAGE;
}

/* Items by chance over an image of 4,096 bytes. */
static size_t choose_items(struct rmp_item *items) {
    static const uint16_t kinds[6] = {RMP_FPRD, RMP_FPWR, RMP_BRD, RMP_LRD, RMP_LWR, RMP_LRW};
    size_t n = 1 + chance(4);
    for (size_t k = 0; k < n; k++) {
        struct rmp_item item = {chance(0x1000),
                                0,
                                1 + chance(chance(8) ? 40 : 700),
                                kinds[chance(6)],
                                chance(4),
                                chance(65536),
                                0,
                                0};
        item.offset = chance(4096 - item.length);
        if (item.kind == RMP_BRD && item.address + item.length > 0x1000)
            item.address = 0;
        items[k] = item;
    }
    return n;
}

/* What may come back of a frame: as slaves leave it, damaged, of another length, other bytes, or nothing. */
static size_t choose_copy(uint8_t *copy, const uint8_t *sent, size_t size) {
    size_t at[MOST + 1];
    int count = places(sent, size, RMP_UDP, at);
    uint32_t kind = chance(8);
    memcpy(copy, sent, size);
    for (int k = 0; k < count; k++) {
        uint8_t *d = copy + at[k];
        size_t length = word(d + 6) & 0x7FF;
        for (size_t i = 0; i < length && d[0] != 0 && chance(4); i++) /* no slave serves a NOP */
            d[10 + i] = chance(256);
        put_word(d + 10 + length, word(d + 10 + length) + chance(5));
        if (counts_adp(d[0]))
            put_word(d + 2, word(d + 2) + chance(5));
        d[7] ^= chance(2) ? 0x40 : 0;
        d[8] = chance(256);
    }
    if (kind == 0)
        return 0;
    if (kind == 1)
        copy[chance(size)] ^= 1u << chance(8);
    if (kind == 2)
        copy[at[chance(count)] + chance(10)] = chance(256);
    if (kind == 3)
        return chance(size + 1);
    if (kind == 4) {
        size = chance(1600);
        for (size_t i = 0; i < size; i++)
            copy[i] = chance(256);
    }
    if (kind == 5 && size < 1560) {
        memset(copy + size, 0, 40);
        size += chance(40);
    }
    return size;
}

/* The bytes of a frame with a number behind it. */
static void put_number(uint64_t number, const uint8_t *sent, size_t size, uint8_t *numbered) {
    size_t at[MOST + 1];
    int count = places(sent, size, RMP_UDP, at);
    memcpy(numbered, sent, size);
    memset(numbered + size, 0, RMP_NUMBER_LENGTH); /* a NOP, */
    numbered[size + 6] = 8;                        /* of eight bytes */
    for (int k = 0; k < 8; k++)
        numbered[size + 10 + k] = number >> 8 * k & 0xFF;
    numbered[at[count - 1] + 7] |= 0x80;
    put_word(numbered, word(sent) + RMP_NUMBER_LENGTH);
}

/* What a packet is by a frame with its number, and its bytes without it. */
static struct rmp_written opened(uint32_t form, const uint8_t *numbered, size_t numbered_size,
                                const uint8_t *packet, size_t size, uint8_t *room) {
    struct rmp_written answer = {0, 0, RMP_GOOD};
    size_t at[MOST + 1], other[MOST + 1];
    int count = places(numbered, numbered_size, form, at), found = places(packet, size, form, other), k;
    const uint8_t *last = numbered + at[count - 1], *came;
    if (found == 0) { /* which fault it is, is_read asks */
        answer.code = RMP_FAULT_SHORT;
        return answer;
    }
    came = packet + other[found - 1];
    answer.code = RMP_OTHER_NUMBER;
    if ((word(came + 6) & 0x7FF) != 8 || memcmp(came + 10, last + 10, 8) != 0)
        return answer;
    for (k = 0; k < count && k < found; k++)
        if (!belongs(numbered + at[k], packet + other[k]))
            break;
    answer.at = k;
    answer.code = RMP_OTHER_FRAME;
    if (k < count || k < found)
        return answer;
    answer.at = 0;
    answer.code = RMP_GOOD;
    answer.bytes = at[count - 1];
    memcpy(room, packet, answer.bytes);
    room[at[count - 2] + 7] &= 0x7F;
    put_word(room, word(packet) - RMP_NUMBER_LENGTH);
    return answer;
}

/* Whether a frame gets its number, and a packet that came of it is opened, as they should be; 2 where it is a
 * copy. The room ends with what is put there, and is unmapped behind it. */
static int is_opened(uint32_t form, uint8_t *sent, size_t size, uint8_t *packet_end, uint8_t *room_end) {
    static uint8_t numbered[RMP_FRAME_SIZE], packet[1700], wanted[RMP_FRAME_SIZE];
    uint64_t number = (uint64_t)chance(UINT32_MAX) << 32 | chance(UINT32_MAX);
    size_t whole = size + RMP_NUMBER_LENGTH, came;
    uint8_t *room = room_end - size, *edge_packet;
    struct rmp_written out = rmp_seal(number, sent, size, room_end - whole, whole), open, want;
    if (whole > RMP_FRAME_SIZE)
        return out.code == RMP_FULL && out.bytes == 0 &&
               rmp_open(form, number, sent, size, sent, size, room, size).code == RMP_FULL;
    put_number(number, sent, size, numbered);
    if (out.code != RMP_GOOD || out.bytes != whole || out.at != 0 ||
        memcmp(room_end - whole, numbered, whole) != 0)
        return 0;
    came = choose_copy(packet, numbered, whole);
    if (chance(4) == 0) { /* another trip's, or another run's */
        number ^= (uint64_t)1 << chance(64);
        put_number(number, sent, size, numbered);
    }
    edge_packet = packet_end - came;
    memcpy(edge_packet, packet, came);
    memset(room, 0xA5, size);
    memset(wanted, 0xA5, size);
    open = rmp_open(form, number, sent, size, edge_packet, came, room, size);
    want = opened(form, numbered, whole, packet, came, wanted);
    if (memcmp(room, wanted, size) != 0 || open.bytes != want.bytes)
        return 0;
    if (want.code == RMP_FAULT_SHORT)
        return open.code >= RMP_FAULT_SHORT && open.code <= RMP_FAULT_TRAILING && open.at <= came;
    return open.code == want.code && open.at == want.at ? 1 + (open.code == RMP_GOOD) : 0;
}

int main(int count, char **words) {
    long pairs = count > 1 ? atol(words[1]) : 1000000, good = 0, stranger = 0, none = 0, opens = 0;
    int is_copy;
    uint8_t *sent_end = edge(), *a_end = edge(), *b_end = edge(), *room_end = edge(), *image_end = edge();
    uint8_t *image = image_end - 4096, frame[RMP_FRAME_SIZE], packet[2][1700], wanted[RMP_FRAME_SIZE];
    struct rmp_item items[4];
    state = count > 2 ? strtoull(words[2], NULL, 0) : 88172645463325252u;
    for (long i = 0; i < pairs; i++) {
        size_t n = choose_items(items);
        struct rmp_framed made = rmp_frame(items, n, image, 4096, 0, frame, sizeof frame);
        uint32_t form = chance(2);
        size_t sizes[2] = {choose_copy(packet[0], frame, made.bytes),
                           choose_copy(packet[1], frame, made.bytes)};
        uint8_t *sent = sent_end - made.bytes, *a = a_end - sizes[0], *b = b_end - sizes[1];
        uint8_t *room = room_end - made.bytes;
        const uint8_t *packets[2] = {packet[0], packet[1]};
        struct rmp_joined came, want;
        struct rmp_answer verdict;
        memcpy(sent, frame, made.bytes);
        memcpy(a, packet[0], sizes[0]);
        memcpy(b, packet[1], sizes[1]);
        came = rmp_join(form, sent, made.bytes, a, sizes[0], b, sizes[1], room, made.bytes);
        want = expected(form, frame, made.bytes, packets, sizes, wanted);
        if (made.code != RMP_GOOD || came.code != want.code || came.at != want.at ||
            came.bytes != want.bytes || came.copy_a != want.copy_a || came.copy_b != want.copy_b ||
            (came.code == RMP_GOOD && memcmp(room, wanted, came.bytes) != 0)) {
            printf("damaged: pair %ld is not joined as it should be\n", i);
            return 1;
        }
        if (!is_read(form, a, sizes[0]) || !is_read(form, b, sizes[1])) {
            printf("damaged: pair %ld is not read as it should be\n", i);
            return 1;
        }
        packets[0] = a;
        packets[1] = b;
        if (!is_located(form, sent, made.bytes, packets, sizes, 1 + (int)chance(6))) {
            printf("damaged: pair %ld is not located as it should be\n", i);
            return 1;
        }
        good += came.code == RMP_GOOD;
        stranger += came.code == RMP_STRANGER_A || came.code == RMP_STRANGER_B;
        none += came.copy_a == RMP_NO_FRAME || came.copy_b == RMP_NO_FRAME;
        verdict = rmp_judge(items, n, 0, a, sizes[0]);
        if (came.code == RMP_GOOD) {
            verdict = rmp_judge(items, n, 0, room, came.bytes);
            if (verdict.code > RMP_OVER ||
                rmp_store(items, n, 0, room, came.bytes, image, 4096).code != RMP_GOOD) {
                printf("damaged: pair %ld is joined, and not taken\n", i);
                return 1;
            }
        } else {
            rmp_store(items, n, 0, a, sizes[0], image, 4096);
        }
        is_copy = is_opened(form, sent, made.bytes, b_end, room_end);
        if (is_copy == 0) {
            printf("damaged: pair %ld is not numbered or opened as it should be\n", i);
            return 1;
        }
        opens += is_copy == 2;
    }
    printf("damaged: %ld pairs, %ld joined, %ld strangers, %ld with a packet that is no frame, %ld opened\n",
           pairs, good, stranger, none, opens);
    return 0;
}
