/*
 * A master over UDP with a redundant ring, by rummymaple.h: 1,000 cycles over a cable that breaks in between.
 *
 *     ECAT=./ecat master [PORT [WAIT]]
 *
 * It starts `ecat serve scenes/serve/bench.scene --control --set-up`, a line of five slaves in Op, breaks two
 * of its links while it cycles and mends them, and prints each change: the verdict, and where the cable is
 * broken. With WAIT, the milliseconds for which a copy is awaited, it prints each cycle, and its inputs. Run it
 * at the top of the repository. The status is 0 where the line was short for a while, and good at last. It is
 * C11 and C++17.
 */
#ifndef _POSIX_C_SOURCE
#define _POSIX_C_SOURCE 200809L
#endif
#include "rummymaple.h"
#include <arpa/inet.h>
#include <poll.h>
#include <stdio.h>
#include <stdlib.h>
#include <string.h>
#include <sys/socket.h>
#include <time.h>

enum { OUTPUTS, INPUTS, ITEMS };
enum { SLAVES = 5, CYCLES = 1000 };

/* How long a copy is awaited. */
static uint64_t wait_ms = 200;

/* The number of the next trip's copy from port A, an even one; that from port B has the next one. They count
 * up, and none is used twice. */
static uint64_t next_number;

/* The process image, a byte out and a byte in for each slave, and the items that exchange them. */
static uint8_t image[2 * SLAVES];
static struct rmp_item items[ITEMS];

/* The AL status of all slaves: the copies of this read alone in its frame tell where the cable is broken. */
static uint8_t status[2];
static struct rmp_item probe;

/* The frame of a trip, what of it is out, a packet that came, and what both copies are joined to. */
static uint8_t sent[RMP_FRAME_SIZE], numbered[RMP_FRAME_SIZE], joined[RMP_FRAME_SIZE];
static uint8_t packet[RMP_FRAME_SIZE + 1];

/* The copies of the trip that came, by the port at which they came, opened. */
static struct copy {
    uint8_t bytes[RMP_FRAME_SIZE];
    size_t size;
} came[2];

static void give_up(void) {
    perror("master");
    exit(3);
}

static struct rmp_item item(enum rmp_kind kind, uint32_t address, uint32_t offset, uint16_t length) {
    struct rmp_item made;
    memset(&made, 0, sizeof made);
    made.kind = (uint16_t)kind;
    made.address = address;
    made.offset = offset;
    made.length = length;
    made.expected = SLAVES; /* each slave reads, or writes, once */
    return made;
}

/* Milliseconds of a clock that is never set. */
static uint64_t now(void) {
    struct timespec time;
    clock_gettime(CLOCK_MONOTONIC, &time);
    return (uint64_t)time.tv_sec * 1000 + (uint64_t)time.tv_nsec / 1000000;
}

static void pause_for(uint64_t milliseconds) { poll(NULL, 0, (int)milliseconds); }

/* A socket that is connected to one end of the line. */
static int connect_to(int port) {
    struct sockaddr_in end;
    int port_socket = socket(AF_INET, SOCK_DGRAM, 0);
    memset(&end, 0, sizeof end);
    end.sin_family = AF_INET;
    end.sin_port = htons((uint16_t)port);
    end.sin_addr.s_addr = htonl(INADDR_LOOPBACK);
    if (port_socket < 0 || connect(port_socket, (struct sockaddr *)&end, sizeof end) != 0)
        give_up();
    return port_socket;
}

/* The first number of a run, for answers to another run may still come: drawn by chance, or where that cannot
 * be read the time. */
static uint64_t first_number(void) {
    uint64_t drawn = 0;
    FILE *chance = fopen("/dev/urandom", "rb");
    if (!chance || fread(&drawn, sizeof drawn, 1, chance) != 1) {
        struct timespec time;
        clock_gettime(CLOCK_REALTIME, &time);
        drawn = (uint64_t)time.tv_sec * 1000000000 + (uint64_t)time.tv_nsec;
    }
    if (chance)
        fclose(chance);
    return 2 * drawn;
}

/* Opens what came at a port, where it is a copy of this trip that did not come yet. */
static void take(struct copy *copy, size_t packet_size, uint64_t number, size_t sent_size, int has_come[2]) {
    for (int c = 0; c < 2 && copy->size == 0; c++)
        if (!has_come[c]) {
            copy->size = rmp_open(RMP_UDP, number + (uint64_t)c, sent, sent_size, packet, packet_size,
                                  copy->bytes, sizeof copy->bytes)
                             .bytes;
            has_come[c] = copy->size > 0;
        }
}

/* The frame goes out at both ports, each copy with its number, and comes back. The rest is passed over. */
static void travel(const int ports[2], size_t size) {
    uint64_t number = next_number, begun = now();
    int has_come[2] = {0, 0};
    for (int p = 0; p < 2; p++) {
        struct rmp_written out = rmp_seal(number + (uint64_t)p, sent, size, numbered, sizeof numbered);
        send(ports[p], numbered, out.bytes, 0); /* where it fails, the copy is lost */
    }
    next_number = number + 2;
    for (int p = 0; p < 2; p++)
        for (came[p].size = 0; came[p].size == 0;) {
            struct pollfd ready = {ports[p], POLLIN, 0};
            uint64_t gone = now() - begun;
            if (poll(&ready, 1, gone < wait_ms ? (int)(wait_ms - gone) : 0) <= 0)
                break; /* the copy is lost */
            ssize_t got = recv(ports[p], packet, sizeof packet, 0);
            take(&came[p], got > 0 ? (size_t)got : 0, number, size, has_come);
        }
}

/* Where the cable is broken, in words. */
static void find_break(const int ports[2], char *told, size_t room) {
    struct rmp_framed made = rmp_frame(&probe, 1, status, sizeof status, 0, sent, sizeof sent);
    travel(ports, made.bytes);
    struct rmp_located place = rmp_where(RMP_UDP, sent, made.bytes, came[0].bytes, came[0].size,
                                         came[1].bytes, came[1].size, SLAVES);
    if (place.cable == RMP_ONE)
        snprintf(told, room, ", link %zu down", place.first);
    else if (place.cable == RMP_BETWEEN)
        snprintf(told, room, ", links %zu and %zu down", place.first, place.last);
    else if (place.cable != RMP_WHOLE)
        snprintf(told, room, ", a copy lost");
}

/* One cycle: what is known of it, in words. */
static void cycle(const int ports[2], char *told, size_t room) {
    struct rmp_framed made = rmp_frame(items, ITEMS, image, sizeof image, 0, sent, sizeof sent);
    travel(ports, made.bytes);
    struct rmp_joined answer = rmp_join(RMP_UDP, sent, made.bytes, came[0].bytes, came[0].size, came[1].bytes,
                                        came[1].size, joined, sizeof joined);
    if (answer.code != RMP_GOOD) {
        snprintf(told, room, "not joined: %s (%zu)", rmp_code_text(answer.code), answer.at);
        return;
    }
    struct rmp_answer verdict = rmp_judge(items, ITEMS, 0, joined, answer.bytes);
    if (verdict.code == RMP_GOOD) {
        rmp_store(items, ITEMS, 0, joined, answer.bytes, image, sizeof image);
        snprintf(told, room, "good");
    } else {
        const struct rmp_item *one = &items[verdict.at];
        snprintf(told, room, "%s: item %zu came %u of %u", verdict.code == RMP_SHORT ? "short" : "over",
                 verdict.at, (unsigned)(uint16_t)(one->came - one->sent), (unsigned)one->expected);
    }
    find_break(ports, told + strlen(told), room - strlen(told));
}

/* The line: its standard input takes commands. */
static FILE *serve(int port) {
    char command[512];
    const char *program = getenv("ECAT");
    snprintf(command, sizeof command, "%s serve scenes/serve/bench.scene --control --set-up --port %d >/dev/null",
             program ? program : "./ecat", port);
    FILE *line = popen(command, "w");
    if (!line)
        give_up();
    return line;
}

/* Cycles until one is good: the line is there, and has learnt who speaks at its ends. */
static void await_line(const int ports[2], char *told, size_t room) {
    for (uint64_t begun = now(); now() - begun < 10000; pause_for(20)) {
        cycle(ports, told, room);
        if (strcmp(told, "good") == 0)
            return;
    }
}

static void print_cycle(int k, const char *told, int with_inputs) {
    printf("cycle %d: %s", k, told);
    for (int slave = 0; with_inputs && slave < SLAVES; slave++)
        printf("%s%02x", slave ? "" : ", inputs ", image[SLAVES + slave]);
    putchar('\n');
}

int main(int count, char **words) {
    const char *commands[] = {"link 2 down\n", "link 4 down\n", "link 4 up\n", "link 2 up\n"};
    int port = count > 1 ? atoi(words[1]) : 34980, prints_each = count > 2, short_seen = 0;
    FILE *line = serve(port);
    int ports[2] = {connect_to(port), connect_to(port + 1)};
    char told[160] = "", before[160] = "";
    items[OUTPUTS] = item(RMP_LWR, 0x10000, 0, SLAVES);
    items[INPUTS] = item(RMP_LRD, 0x20000, SLAVES, SLAVES);
    probe = item(RMP_BRD, 0x0130, 0, sizeof status);
    if (prints_each)
        wait_ms = (uint64_t)atoi(words[2]);
    next_number = first_number();
    await_line(ports, told, sizeof told);
    for (int k = 0; k < CYCLES; k++) {
        if (k % 200 == 0 && k > 0) {
            fputs(commands[k / 200 - 1], line);
            fflush(line);
            pause_for(100); /* until it is done */
        }
        memset(image, k & 0xFF, SLAVES);
        cycle(ports, told, sizeof told);
        if (prints_each || strcmp(told, before) != 0)
            print_cycle(k, told, prints_each);
        short_seen |= strncmp(told, "short", 5) == 0;
        memcpy(before, told, sizeof before);
    }
    pclose(line);
    return strcmp(told, "good") == 0 && short_seen ? 0 : 1;
}
