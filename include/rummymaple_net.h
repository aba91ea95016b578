/*
 * rummymaple_net.h: what travels, for masters over rummymaple.h on Linux, in C (C11) and C++ (C++17).
 *
 * The core makes frames and judges what came; here a frame goes out of both ports of a line, each copy with a
 * number of its own, and what comes back is opened. A cycle is one call:
 *
 *     struct rmp_net net;
 *     error = rmp_net_open_udp(&net, "127.0.0.1:34980", "127.0.0.1:34981");
 *     ... where error is not 0, strerror(error) says why ...
 *     for (;;) {
 *         ... outputs go into the image ...
 *         ran = rmp_net_cycle(&net, items, n, image, waiting, sizeof image, 500);
 *         ... where ran.code is RMP_GOOD, inputs are in the image ...
 *     }
 *     rmp_net_close(&net);
 *
 * A start-up, and a service with one slave beside the cycles, take a turn in each call: rmp_net_start and
 * rmp_net_serve. Where the cable is broken, and in which state a slave is, say rmp_net_where and
 * rmp_net_al_state.
 *
 * Written by hand and tried (tools/library/net.c); no prover has looked at it. What is proved of a good cycle
 * rests on the core's own calls, and on one thing that is done here: no number is used twice
 * (docs/LIBRARY.md).
 *
 * All state is in the caller's struct rmp_net, which is not copied. A cycle takes no memory and starts no
 * thread; it waits in ppoll alone, by CLOCK_MONOTONIC. The system wakes who waits some 50 microseconds late,
 * unless the thread is a realtime one. One thread at a time uses a struct rmp_net; where the process forks,
 * one side alone uses it, or both would use its numbers. A send or receive that fails, at whichever port, is
 * a copy that is missing: it is counted, and ends nothing.
 *
 * Errors are numbers of the system (errno), 0 where there is none. Ports are numbered RMP_NET_A and
 * RMP_NET_B; a copy has the number of the port that it went out from. Of the structs the caller reads what is
 * told here, and writes nothing. Include it before the headers of the system, or define _GNU_SOURCE.
 */
#ifndef RUMMYMAPLE_NET_H
#define RUMMYMAPLE_NET_H

#ifndef _GNU_SOURCE
#define _GNU_SOURCE /* for ppoll */
#endif
#include "rummymaple.h"
#include "rummymaple_help.h"
#include <errno.h>
#include <net/if.h>
#include <netdb.h>
#include <netinet/in.h>
#include <netpacket/packet.h>
#include <poll.h>
#include <string.h>
#include <sys/random.h>
#include <sys/socket.h>
#include <time.h>
#include <unistd.h>

#if defined(__GLIBC__) && !defined(__USE_GNU)
#error "include rummymaple_net.h before the headers of the system, or compile with -D_GNU_SOURCE"
#endif

/* The ports of a master: A is at the first slave's end of the line, and B at the last one's. */
enum rmp_net_side { RMP_NET_A = 0, RMP_NET_B = 1, RMP_NET_PORTS = 2 };

/* The EtherType of EtherCAT. */
#define RMP_NET_ETHERTYPE 0x88A4

/* The bytes of an Ethernet header, without tags, and the least ones of a packet that goes out. */
#define RMP_NET_HEADER 14
#define RMP_NET_LEAST 60

/* For how many nanoseconds at least the other copy is awaited behind one that is enough. */
#define RMP_NET_FLOOR 100000

/* Behind so many cycles in which nothing came at a port there is no such least time there. */
#define RMP_NET_SILENT 100

/* How many packets that wait at a port one look reads at the most: more than a socket keeps, unless its
 * buffer was made larger. */
#define RMP_NET_WAITING 512

/* How a trip ended. */
enum rmp_net_end {
    RMP_NET_UNDER_WAY = 0, /* it has not: copies are awaited */
    RMP_NET_ALL = 1,       /* each copy came that can: each that went out, or one at each port that works */
    RMP_NET_ENOUGH = 2,    /* what came has the counters that are expected, and the other copy had its time */
    RMP_NET_TIME = 3,      /* the time was over */
    RMP_NET_NOWHERE = 4    /* no copy went out, or no port works: nothing can come */
};

/* A port, and how it went there. */
struct rmp_net_port {
    int socket;           /* its descriptor, at which no call waits; -1 where the master has no such port */
    int error;            /* the system's number of the last failure, 0 where a packet has come since */
    uint64_t sent;        /* how many copies went out from it */
    uint64_t came;        /* how many copies came at it, whichever port they went out from */
    uint64_t passed_over; /* how many other packets did: late, doubled, damaged, or not of this master */
    uint64_t failures;    /* how many sends and receives failed */
    uint32_t silent;      /* how many cycles have begun since a packet came there */
    uint8_t is_out;       /* of this trip: its copy went out */
    uint8_t has_failed;   /* of this trip: a receive failed, and nothing is awaited there */
    uint8_t first;        /* of this trip: which copy came there first; RMP_NET_PORTS where none did */
};

/* A copy of the last frame that went out. */
struct rmp_net_copy {
    size_t size;    /* how many bytes it has; 0 where it did not come */
    uint64_t after; /* how many nanoseconds after the frame went out it came */
    uint32_t port;  /* the port at which it came; RMP_NET_PORTS where it did not come */
    uint8_t bytes[RMP_FRAME_SIZE]; /* the copy, opened: without its number */
};

/* What a trip answers. The copies are in struct rmp_net. */
struct rmp_net_came {
    size_t at;      /* the byte at fault of what is said to be sent */
    uint64_t took;  /* nanoseconds from when the frame went out to the end of the trip, or to now */
    uint32_t code;  /* RMP_GOOD; else nothing went out: RMP_NOT_SENT, RMP_FULL */
    uint32_t ended; /* of enum rmp_net_end */
    uint32_t out;   /* how many copies went out */
    uint32_t back;  /* how many of them came back */
};

/* What a cycle answers. */
struct rmp_net_ran {
    size_t at;        /* the item, the datagram or the byte that `code` is about */
    uint64_t took;    /* nanoseconds of the whole cycle */
    uint32_t code;    /* the verdict: RMP_GOOD, RMP_SHORT or RMP_OVER; else why there is none */
    uint32_t frames;  /* how many frames went out */
    uint32_t missing; /* how many copies of them did not come back, whether they went out or not */
    uint32_t ended;   /* of enum rmp_net_end: how the last trip did */
};

/* A line as the master reaches it, and the trip that is under way. It has 6 KB, where the caller puts it. */
struct rmp_net {
    struct rmp_net_port ports[RMP_NET_PORTS];
    struct rmp_net_copy copies[RMP_NET_PORTS]; /* of the last trip, by the port that each went out from */
    uint64_t trip;           /* the next trip: its copies get the numbers 2 * trip and 2 * trip + 1 */
    uint32_t form;           /* of enum rmp_form: how packets are framed */
    const uint8_t *sent;     /* of this trip: the frame, its size, and the counters that are expected */
    const uint16_t *expected;
    size_t sent_size, expected_count;
    uint64_t begun, until;   /* when it went out, and up to when copies are awaited */
    uint32_t ended;          /* of enum rmp_net_end */
    uint8_t is_enough;       /* what came is enough, so that `until` is sooner than it was */
    uint8_t frame[RMP_FRAME_SIZE]; /* the frame of a cycle, a service or a start-up */
    uint8_t packet[RMP_NET_HEADER + RMP_FRAME_SIZE + 1]; /* what goes out, or came */
};

/* ---- time */

/* Nanoseconds of CLOCK_MONOTONIC, which is never set. */
static inline uint64_t rmp_net_now(void) {
    struct timespec now;
    clock_gettime(CLOCK_MONOTONIC, &now);
    return (uint64_t)now.tv_sec * 1000000000 + (uint64_t)now.tv_nsec;
}

static inline struct timespec rmp_net_timespec(uint64_t nanoseconds) {
    struct timespec made;
    made.tv_sec = (time_t)(nanoseconds / 1000000000);
    made.tv_nsec = (long)(nanoseconds % 1000000000);
    return made;
}

/* Waits until a time of rmp_net_now, as the next cycle's: 0; or EINTR, where a signal that is handled ended
 * it sooner. */
static inline int rmp_net_pause_until(uint64_t time) {
    struct timespec until = rmp_net_timespec(time);
    return clock_nanosleep(CLOCK_MONOTONIC, TIMER_ABSTIME, &until, NULL);
}

/* ---- opening and closing */

/* The first trip of a run, for answers to another run may still come: at 63 bits that are drawn by chance, or
 * where the system has none yet at the nanoseconds since 1970. */
static inline uint64_t rmp_net_first_trip(void) {
    uint64_t drawn;
    struct timespec now;
    if (getrandom(&drawn, sizeof drawn, GRND_NONBLOCK) == (ssize_t)sizeof drawn)
        return drawn >> 1;
    clock_gettime(CLOCK_REALTIME, &now);
    return (uint64_t)now.tv_sec * 1000000000 + (uint64_t)now.tv_nsec;
}

static inline void rmp_net_clear(struct rmp_net *net, uint32_t form) {
    memset(net, 0, sizeof *net);
    net->ports[RMP_NET_A].socket = net->ports[RMP_NET_B].socket = -1;
    net->copies[RMP_NET_A].port = net->copies[RMP_NET_B].port = RMP_NET_PORTS;
    net->form = form;
    net->trip = rmp_net_first_trip();
    net->ended = RMP_NET_NOWHERE;
}

/* Closes the sockets of both ports. What was counted stays to be read; opening begins anew. */
static inline void rmp_net_close(struct rmp_net *net) {
    for (int p = 0; p < RMP_NET_PORTS; p++) {
        if (net->ports[p].socket >= 0)
            close(net->ports[p].socket);
        net->ports[p].socket = -1;
    }
    net->ended = RMP_NET_NOWHERE;
}

/* Divides HOST:PORT, a HOST in brackets where it has colons; 0, or EINVAL of any other text. */
static inline int rmp_net_divide(const char *text, char host[256], char port[6]) {
    const char *colon = strrchr(text, ':');
    size_t size = colon ? (size_t)(colon - text) : 0, digits = colon ? strlen(colon + 1) : 0;
    unsigned number = 0;
    if (size >= 2 && text[0] == '[' && colon[-1] == ']') {
        text++;
        size -= 2;
    }
    if (size == 0 || size > 255 || digits == 0 || digits > 5)
        return EINVAL;
    memcpy(host, text, size);
    host[size] = 0;
    memcpy(port, colon + 1, digits + 1);
    for (size_t k = 0; k < digits; k++)
        number = port[k] < '0' || port[k] > '9' ? 65536 : number * 10 + (unsigned)(port[k] - '0');
    return number == 0 || number > 65535 ? EINVAL : 0;
}

/* A socket that speaks with one address alone; 0, or the system's number. */
static inline int rmp_net_connect_to(const struct addrinfo *to, int *opened) {
    int error, made = socket(to->ai_family, SOCK_DGRAM | SOCK_NONBLOCK | SOCK_CLOEXEC, 0);
    if (made < 0)
        return errno;
    if (connect(made, to->ai_addr, to->ai_addrlen) == 0) {
        *opened = made;
        return 0;
    }
    error = errno;
    close(made);
    return error;
}

/* Why a name was not resolved, as a number of the system. */
static inline int rmp_net_unresolved(int error) {
    if (error == EAI_SYSTEM)
        return errno;
    return error == EAI_MEMORY ? ENOMEM : error == EAI_AGAIN ? EAGAIN : ENXIO;
}

/* A socket that speaks with HOST:PORT alone; 0, or the system's number. */
static inline int rmp_net_connect(const char *text, int *opened) {
    char host[256], port[6];
    struct addrinfo wanted, *found = NULL;
    int error = rmp_net_divide(text, host, port);
    if (error)
        return error;
    memset(&wanted, 0, sizeof wanted);
    wanted.ai_socktype = SOCK_DGRAM;
    error = getaddrinfo(host, port, &wanted, &found);
    if (error)
        return rmp_net_unresolved(error);
    error = ENXIO;
    for (const struct addrinfo *to = found; to && *opened < 0; to = to->ai_next)
        error = rmp_net_connect_to(to, opened);
    freeaddrinfo(found);
    return error;
}

/*
 * Opens the ports of a line that is reached by UDP: `a` is its end A and `b` its end B as HOST:PORT, as
 * "127.0.0.1:34980" and "[::1]:34980"; `b` is NULL where the master has port A alone. A port takes packets of
 * its end alone. HOST may be a name, which the system's resolver looks up (it may take memory, and gives it
 * back).
 *
 * 0; EINVAL where a text is no HOST:PORT; ENXIO where a name has no address, EAGAIN where it cannot be looked
 * up now; else what the system says of a socket. Then no port is open. That nobody listens at an end is no
 * error here: it may begin later.
 */
static inline int rmp_net_open_udp(struct rmp_net *net, const char *a, const char *b) {
    int error;
    rmp_net_clear(net, RMP_UDP);
    error = rmp_net_connect(a, &net->ports[RMP_NET_A].socket);
    if (!error && b)
        error = rmp_net_connect(b, &net->ports[RMP_NET_B].socket);
    if (error)
        rmp_net_close(net);
    return error;
}

/* A packet socket of EtherCAT's type at an interface; 0, or the system's number. */
static inline int rmp_net_bind(const char *interface_name, int *opened) {
    struct sockaddr_ll at;
    int error, made;
    memset(&at, 0, sizeof at);
    at.sll_family = AF_PACKET;
    at.sll_protocol = htons(RMP_NET_ETHERTYPE);
    at.sll_ifindex = (int)if_nametoindex(interface_name);
    if (at.sll_ifindex == 0)
        return errno;
    made = socket(AF_PACKET, SOCK_RAW | SOCK_NONBLOCK | SOCK_CLOEXEC, 0); /* nothing comes to it yet */
    if (made < 0)
        return errno;
    if (bind(made, (const struct sockaddr *)&at, sizeof at) == 0) {
        *opened = made;
        return 0;
    }
    error = errno;
    close(made);
    return error;
}

/*
 * Opens the ports of a line at network interfaces, by their names; `b` is NULL where the master has port A
 * alone. It takes the right to packet sockets (CAP_NET_RAW).
 *
 * Frames go out to every station, from 10:52:4D:50:00:0A at port A and from 10:52:4D:50:00:0B at port B, as
 * those of `ecat master --raw` do. A packet that comes is looked at where its source address says that it has
 * passed a slave (bit 1 of the first byte): so what comes back unserved, or goes out from another master, is
 * passed over. An interface that goes down and up again works again; where one is removed, open anew.
 *
 * 0; EPERM without the right; ENODEV where there is no such interface; else what the system says. Then no
 * port is open.
 */
static inline int rmp_net_open_raw(struct rmp_net *net, const char *a, const char *b) {
    int error;
    rmp_net_clear(net, RMP_ETHERNET);
    error = rmp_net_bind(a, &net->ports[RMP_NET_A].socket);
    if (!error && b)
        error = rmp_net_bind(b, &net->ports[RMP_NET_B].socket);
    if (error)
        rmp_net_close(net);
    return error;
}

/* ---- one port */

/* A send or receive at a port failed, with the system's number in errno. */
static inline void rmp_net_fail(struct rmp_net_port *port) {
    port->error = errno;
    port->failures++;
}

/* How many bytes stand in front of a frame. */
static inline size_t rmp_net_front(const struct rmp_net *net) {
    return net->form == RMP_ETHERNET ? RMP_NET_HEADER : 0;
}

/* Writes the Ethernet header of what goes out from a port. */
static inline void rmp_net_header(uint8_t *packet, int port) {
    static const uint8_t header[RMP_NET_HEADER] = {0xFF, 0xFF, 0xFF, 0xFF, 0xFF, 0xFF, 0x10,
                                                   0x52, 0x4D, 0x50, 0x00, 0x0A, 0x88, 0xA4};
    memcpy(packet, header, sizeof header);
    packet[11] = (uint8_t)(0x0A + port);
}

/* Sends this trip's copy from a port, under its number: where that fails, it is missing. */
static inline struct rmp_written rmp_net_send_copy(struct rmp_net *net, int p) {
    struct rmp_net_port *port = &net->ports[p];
    size_t front = rmp_net_front(net), size;
    struct rmp_written out = rmp_seal(2 * net->trip + (uint64_t)p, net->sent, net->sent_size,
                                      net->packet + front, RMP_FRAME_SIZE);
    if (out.code != RMP_GOOD)
        return out;
    size = front + out.bytes;
    if (front) {
        rmp_net_header(net->packet, p);
        for (; size < RMP_NET_LEAST; size++)
            net->packet[size] = 0;
    }
    if (send(port->socket, net->packet, size, MSG_NOSIGNAL) < 0) {
        rmp_net_fail(port);
    } else {
        port->is_out = 1;
        port->sent++;
    }
    return out;
}

/* Whether a packet may be an answer: by UDP each, else one of EtherCAT's type that has passed a slave. */
static inline int rmp_net_is_answer(const struct rmp_net *net, size_t size) {
    const uint8_t *packet = net->packet;
    if (net->form == RMP_UDP)
        return 1;
    return size > RMP_NET_HEADER && packet[12] == 0x88 && packet[13] == 0xA4 && (packet[6] & 2) != 0;
}

/* Opens the packet that came at a port: 1 where it is a copy of this trip that did not come yet. */
static inline int rmp_net_open_packet(struct rmp_net *net, int p, size_t size) {
    size_t front = rmp_net_front(net);
    if (net->ended != RMP_NET_UNDER_WAY || !rmp_net_is_answer(net, size))
        return 0;
    for (int c = 0; c < RMP_NET_PORTS; c++) {
        struct rmp_net_copy *copy = &net->copies[c];
        if (!net->ports[c].is_out || copy->size)
            continue;
        /* the last trip is one before the next one */
        copy->size = rmp_open(net->form, 2 * (net->trip - 1) + (uint64_t)c, net->sent, net->sent_size,
                              net->packet + front, size - front, copy->bytes, sizeof copy->bytes)
                         .bytes;
        if (!copy->size)
            continue;
        copy->port = (uint32_t)p;
        copy->after = rmp_net_now() - net->begun;
        if (net->ports[p].first == RMP_NET_PORTS)
            net->ports[p].first = (uint8_t)c;
        return 1;
    }
    return 0;
}

/* Receives one packet at a port: 1 where a copy came, 0 where another packet did, -1 where none waits. */
static inline int rmp_net_receive(struct rmp_net *net, int p) {
    struct rmp_net_port *port = &net->ports[p];
    ssize_t got = recv(port->socket, net->packet, sizeof net->packet, MSG_DONTWAIT);
    if (got < 0) {
        if (errno != EAGAIN && errno != EINTR) {
            rmp_net_fail(port);
            port->has_failed = 1;
        }
        return -1;
    }
    port->silent = 0;
    port->error = 0;
    if (rmp_net_open_packet(net, p, (size_t)got)) {
        port->came++;
        return 1;
    }
    port->passed_over++;
    return 0;
}

/* Receives what waits at a port, up to a copy. */
static inline void rmp_net_take(struct rmp_net *net, int p) {
    int found = 0;
    for (int k = 0; k < RMP_NET_WAITING && found == 0 && net->ports[p].socket >= 0; k++)
        found = rmp_net_receive(net, p);
}

/* ---- when a trip ends */

/* Whether a copy has moved each counter by what is expected. It is a frame of the sent one's shape, since it
 * was opened. */
static inline int rmp_net_has_counters(const struct rmp_net *net, const struct rmp_net_copy *copy) {
    size_t k = 0, at = 2;
    for (; k < net->expected_count && at + 12 <= copy->size && copy->size == net->sent_size; k++) {
        const uint8_t *came, *sent;
        at += 10 + (size_t)(copy->bytes[at + 6] | (copy->bytes[at + 7] & 7) << 8);
        if (at + 2 > copy->size)
            return 0;
        came = copy->bytes + at;
        sent = net->sent + at;
        if ((uint16_t)((came[0] | came[1] << 8) - (sent[0] | sent[1] << 8)) != net->expected[k])
            return 0;
        at += 2;
    }
    return k > 0 && k == net->expected_count && at == copy->size;
}

/* Whether nothing has come for long at the port where the other copy is missing. */
static inline int rmp_net_is_silent(const struct rmp_net *net, const struct rmp_net_copy *copy) {
    return net->ports[copy->port == RMP_NET_A ? RMP_NET_B : RMP_NET_A].silent > RMP_NET_SILENT;
}

/* Whether a copy that came alone is enough: by its counters; or where none are expected, since nothing has
 * come for long at the other port. */
static inline int rmp_net_suffices(const struct rmp_net *net, const struct rmp_net_copy *copy) {
    if (net->expected_count > 0)
        return rmp_net_has_counters(net, copy);
    return rmp_net_is_silent(net, copy);
}

/* Up to when the other copy is awaited behind one that is enough: for as long again as this one took, and for
 * a least time, unless nothing has come there for long. */
static inline uint64_t rmp_net_again(const struct rmp_net *net, const struct rmp_net_copy *copy) {
    uint64_t more = copy->after;
    if (more < RMP_NET_FLOOR && !rmp_net_is_silent(net, copy))
        more = RMP_NET_FLOOR;
    return net->begun + copy->after + more;
}

/* Has the trip end sooner, where one copy came that is enough. */
static inline void rmp_net_shorten(struct rmp_net *net) {
    const struct rmp_net_copy *copy = &net->copies[net->copies[RMP_NET_A].size ? RMP_NET_A : RMP_NET_B];
    uint64_t until;
    if (net->is_enough || !copy->size || !rmp_net_suffices(net, copy))
        return;
    net->is_enough = 1;
    until = rmp_net_again(net, copy);
    if (until < net->until)
        net->until = until;
}

/* How many copies went out, and came back. */
static inline uint32_t rmp_net_out(const struct rmp_net *net) {
    return (uint32_t)net->ports[RMP_NET_A].is_out + net->ports[RMP_NET_B].is_out;
}

static inline uint32_t rmp_net_back(const struct rmp_net *net) {
    return (uint32_t)(net->copies[RMP_NET_A].size != 0) + (net->copies[RMP_NET_B].size != 0);
}

/* Whether nothing more is awaited at a port: it has failed, there is none, or a copy came there. */
static inline int rmp_net_is_served(const struct rmp_net_port *port) {
    return port->socket < 0 || port->has_failed || port->first != RMP_NET_PORTS;
}

/* How the trip has ended by now, if it has. */
static inline uint32_t rmp_net_end_now(const struct rmp_net *net, uint64_t now) {
    uint32_t back = rmp_net_back(net);
    if (back == rmp_net_out(net))
        return back ? RMP_NET_ALL : RMP_NET_NOWHERE;
    if (rmp_net_is_served(&net->ports[RMP_NET_A]) && rmp_net_is_served(&net->ports[RMP_NET_B]))
        return back ? RMP_NET_ALL : RMP_NET_NOWHERE;
    if (now < net->until)
        return RMP_NET_UNDER_WAY;
    return net->is_enough ? RMP_NET_ENOUGH : RMP_NET_TIME;
}

/* ---- a trip by turns */

static inline struct rmp_net_came rmp_net_told(const struct rmp_net *net, uint64_t now) {
    struct rmp_net_came came;
    memset(&came, 0, sizeof came);
    came.took = now - net->begun;
    came.ended = net->ended;
    came.out = rmp_net_out(net);
    came.back = rmp_net_back(net);
    return came;
}

/* Another cycle begins, in which nothing has come yet. */
static inline void rmp_net_count(struct rmp_net *net) {
    for (int p = 0; p < RMP_NET_PORTS; p++)
        if (net->ports[p].silent < UINT32_MAX)
            net->ports[p].silent++;
}

/* Sends a frame, whose copies are awaited up to a time. */
static inline struct rmp_net_came rmp_net_begin(struct rmp_net *net, const uint8_t *sent, size_t sent_size,
                                                const uint16_t *expected, size_t count, uint64_t until) {
    struct rmp_written out = {0, 0, RMP_GOOD};
    struct rmp_net_came came;
    net->sent = sent;
    net->sent_size = sent_size;
    net->expected = expected;
    net->expected_count = expected ? count : 0;
    net->until = until;
    net->is_enough = 0;
    net->begun = rmp_net_now();
    for (int p = 0; p < RMP_NET_PORTS; p++) {
        net->ports[p].is_out = net->ports[p].has_failed = 0;
        net->ports[p].first = RMP_NET_PORTS;
        net->copies[p].size = 0;
        net->copies[p].after = 0;
        net->copies[p].port = RMP_NET_PORTS;
        if (out.code == RMP_GOOD && net->ports[p].socket >= 0)
            out = rmp_net_send_copy(net, p);
    }
    net->trip++;
    net->ended = rmp_net_out(net) ? RMP_NET_UNDER_WAY : RMP_NET_NOWHERE;
    came = rmp_net_told(net, net->begun);
    came.code = out.code;
    came.at = out.at;
    return came;
}

/*
 * Begins a trip: sends a copy of the frame `sent` from each port, under a number of its own. For loops of
 * somebody else's; rmp_net_trip does all of it. What follows: whenever something is at a port's `socket`, and
 * when rmp_net_left says that no time is left, call rmp_net_look, until it answers that the trip has ended.
 *
 * `expected` has by how much the counter of each datagram is expected to move, `count` numbers, as many as
 * the frame has datagrams; NULL where none are expected: then one copy alone ends no trip, unless nothing has
 * come for long at the other port. `limit` is for how many microseconds copies are awaited at the most.
 * `sent` and `expected` are read until the trip ends. A trip that is under way ends with the next one.
 *
 * `code` of the answer is RMP_GOOD; or RMP_NOT_SENT, where `sent` is no frame, or RMP_FULL, where it has no
 * place for a number: then nothing went out.
 */
static inline struct rmp_net_came rmp_net_send(struct rmp_net *net, const uint8_t *sent, size_t sent_size,
                                               const uint16_t *expected, size_t count, uint32_t limit) {
    rmp_net_count(net);
    return rmp_net_begin(net, sent, sent_size, expected, count,
                         rmp_net_now() + (uint64_t)limit * 1000);
}

/* Looks at the ports of a set, port p being its bit p, and where the time is over at both. */
static inline struct rmp_net_came rmp_net_look_at(struct rmp_net *net, unsigned ready) {
    uint64_t now = rmp_net_now();
    int was_under_way = net->ended == RMP_NET_UNDER_WAY;
    for (int p = 0; p < RMP_NET_PORTS; p++)
        if ((ready >> p & 1) != 0 || now >= net->until)
            rmp_net_take(net, p);
    if (was_under_way) {
        rmp_net_shorten(net);
        net->ended = rmp_net_end_now(net, now);
    }
    return rmp_net_told(net, now);
}

/*
 * Receives what waits at both ports, and waits for nothing. A packet that is no copy of this trip is passed
 * over, and so is each where no trip is under way. `ended` of the answer is RMP_NET_UNDER_WAY as long as
 * copies are awaited.
 */
static inline struct rmp_net_came rmp_net_look(struct rmp_net *net) { return rmp_net_look_at(net, 3); }

/* For how many nanoseconds copies of this trip are still awaited: 0 where it is due to look again at once, or
 * no trip is under way. A look may make it less. */
static inline uint64_t rmp_net_left(const struct rmp_net *net) {
    uint64_t now = rmp_net_now();
    return net->ended == RMP_NET_UNDER_WAY && now < net->until ? net->until - now : 0;
}

/* The copy that came at a port, the first one where two did: what rmp_where asks for. Its `size` is 0 where
 * none came. */
static inline const struct rmp_net_copy *rmp_net_at(const struct rmp_net *net, enum rmp_net_side port) {
    static const struct rmp_net_copy none = {0, 0, RMP_NET_PORTS, {0}};
    uint8_t first = net->ports[port].first;
    return first < RMP_NET_PORTS ? &net->copies[first] : &none;
}

/* ---- trips and cycles */

/* Waits until something is at a port at which copies are awaited, or the time is over: the set of ports that
 * may have something. */
static inline unsigned rmp_net_wait(const struct rmp_net *net) {
    struct pollfd asked[RMP_NET_PORTS];
    struct timespec left = rmp_net_timespec(rmp_net_left(net));
    unsigned ready = 0;
    for (int p = 0; p < RMP_NET_PORTS; p++) {
        asked[p].fd = net->ports[p].has_failed ? -1 : net->ports[p].socket;
        asked[p].events = POLLIN;
        asked[p].revents = 0;
    }
    if (ppoll(asked, RMP_NET_PORTS, &left, NULL) <= 0)
        return 0; /* time is over, or a signal came: the caller looks at the clock */
    ready |= asked[RMP_NET_A].revents ? 1u : 0;
    ready |= asked[RMP_NET_B].revents ? 2u : 0;
    return ready;
}

/* Waits for the copies of a trip that has begun. */
static inline struct rmp_net_came rmp_net_await(struct rmp_net *net, struct rmp_net_came came) {
    while (came.ended == RMP_NET_UNDER_WAY)
        came = rmp_net_look_at(net, rmp_net_wait(net));
    return came;
}

/*
 * Sends a frame from both ports, and waits at both at once for its copies. The arguments are those of
 * rmp_net_send. The copies are in net->copies, opened; rmp_net_at gives them by the port where they came.
 *
 * It ends as soon as each copy came that went out; or a copy came at each port that works; or one came that
 * moved the counters as expected, and the other one has had as long again as this one took, and at least
 * RMP_NET_FLOOR nanoseconds; or the limit is over. Where nothing came at a port in RMP_NET_SILENT cycles,
 * there is no such least time for it; the first packet there ends that. Each trip counts as a cycle, but for
 * those of rmp_net_cycle. A port whose send failed has no copy out; one whose receive failed is not looked at
 * again in this trip. With the next frame both are tried again.
 */
static inline struct rmp_net_came rmp_net_trip(struct rmp_net *net, const uint8_t *sent, size_t sent_size,
                                               const uint16_t *expected, size_t count, uint32_t limit) {
    return rmp_net_await(net, rmp_net_send(net, sent, sent_size, expected, count, limit));
}

/* What a master asks in each cycle. The caller fills in what stands before `cycle`, and zeros the rest. */
struct rmp_net_work {
    struct rmp_item *items;
    size_t n; /* how many items */
    uint8_t *image;
    uint8_t *waiting; /* an array of the image's size, where data wait until each frame is good */
    size_t image_size;
    struct rmp_cycle cycle; /* of the cycle that is under way: how far it is, */
    uint64_t begun, until;  /* when it began, and up to when its copies are awaited, */
    struct rmp_net_ran ran; /* what is told of it so far, and the counters that are expected of its frame */
    uint16_t expected[RMP_MAX_DATAGRAMS];
};

/* The cycle is over, with this code. */
static inline void rmp_net_finish(struct rmp_net *net, struct rmp_net_work *work, uint32_t code, size_t at) {
    work->ran.code = code;
    work->ran.at = at;
    if (net->ended == RMP_NET_UNDER_WAY)
        net->ended = RMP_NET_NOWHERE;
    work->ran.ended = net->ended;
    net->expected_count = 0;
}

/* The next frame of a cycle goes out. */
static inline void rmp_net_send_turn(struct rmp_net *net, struct rmp_net_work *work) {
    struct rmp_net_came came;
    struct rmp_framed made = rmp_cycle_next(&work->cycle, work->items, work->n, work->image, work->image_size,
                                            net->frame, sizeof net->frame);
    if (made.code != RMP_GOOD) {
        rmp_net_finish(net, work, made.code, made.at);
        return;
    }
    for (size_t k = 0; k < made.items && k < RMP_MAX_DATAGRAMS; k++)
        work->expected[k] = work->items[work->cycle.first + k].expected;
    came = rmp_net_begin(net, net->frame, made.bytes, work->expected, made.items, work->until);
    if (came.code != RMP_GOOD)
        rmp_net_finish(net, work, came.code, came.at);
}

/* Takes what came of a frame whose trip has ended; the next one goes out, or the cycle is over. */
static inline void rmp_net_take_turn(struct rmp_net *net, struct rmp_net_work *work) {
    const struct rmp_net_copy *a = &net->copies[RMP_NET_A], *b = &net->copies[RMP_NET_B];
    struct rmp_turn turn =
        rmp_cycle_came(&work->cycle, work->items, work->n, net->frame, net->sent_size, a->bytes, a->size,
                       b->bytes, b->size, work->waiting, work->image_size, work->image, work->image_size);
    work->ran.frames++;
    work->ran.missing += a->size ? 0 : 1;
    work->ran.missing += b->size || net->ports[RMP_NET_B].socket < 0 ? 0 : 1;
    if (turn.code == RMP_GOOD && work->cycle.state == RMP_UNDER_WAY)
        rmp_net_send_turn(net, work);
    else
        rmp_net_finish(net, work, turn.code, turn.at);
}

/* Goes on until copies are awaited, or the cycle is over. */
static inline struct rmp_net_ran rmp_net_go_on(struct rmp_net *net, struct rmp_net_work *work) {
    if (work->begun == 0)
        work->ran.ended = RMP_NET_NOWHERE; /* none has begun yet */
    if (work->ran.ended != RMP_NET_UNDER_WAY)
        return work->ran;
    while (work->ran.ended == RMP_NET_UNDER_WAY && net->ended != RMP_NET_UNDER_WAY)
        rmp_net_take_turn(net, work);
    work->ran.took = rmp_net_now() - work->begun;
    return work->ran;
}

/*
 * Begins a cycle, and waits for nothing: for loops of somebody else's, as rmp_net_send begins a trip.
 * Whenever something is at a port's `socket`, and when rmp_net_left says that no time is left, call
 * rmp_net_cycle_look, until `ended` of the answer is not RMP_NET_UNDER_WAY any more. Items, image and
 * `waiting` are left alone until then, and no other trip is begun. What it answers, and what `limit` is, is
 * told at rmp_net_cycle.
 */
static inline struct rmp_net_ran rmp_net_cycle_begin(struct rmp_net *net, struct rmp_net_work *work,
                                                     uint32_t limit) {
    memset(&work->ran, 0, sizeof work->ran);
    work->cycle = rmp_cycle_begin(net->form);
    work->begun = rmp_net_now();
    work->until = work->begun + (uint64_t)limit * 1000;
    rmp_zero_broadcasts(work->items, work->n, work->image, work->image_size);
    rmp_net_count(net);
    rmp_net_send_turn(net, work);
    return rmp_net_go_on(net, work);
}

/* Looks at the ports of a set, as rmp_net_look_at does, in a cycle that has begun. */
static inline struct rmp_net_ran rmp_net_cycle_look_at(struct rmp_net *net, struct rmp_net_work *work,
                                                       unsigned ready) {
    rmp_net_look_at(net, ready);
    return rmp_net_go_on(net, work);
}

/* Receives what waits at both ports in a cycle that has begun, and waits for nothing; where each copy of a
 * frame came, the next one goes out. Between cycles what waits is passed over. */
static inline struct rmp_net_ran rmp_net_cycle_look(struct rmp_net *net, struct rmp_net_work *work) {
    return rmp_net_cycle_look_at(net, work, 3);
}

/*
 * Runs a whole cycle of these items by turns (rmp_cycle_begin), each frame as rmp_net_trip does, with the
 * items' `expected` as the counters that are expected. `waiting` is an array of `image_size` bytes, as the
 * image is, where data wait until each frame is good. `limit` is for how many microseconds copies of all its
 * frames together are awaited at the most. The data of each BRD in the image are zeroed first.
 *
 * RMP_GOOD: each frame was good, and the image has the data of each item that reads. RMP_SHORT, RMP_OVER: the
 * image is as it was, but for the zeros of each BRD; `at` is the item, whose `came` says how far it got. Any
 * other code says why there is no verdict: those of rmp_frame, RMP_FULL where a frame has no place for its
 * number, and those of rmp_cycle_came. What is wrong then stays wrong in the next cycle.
 */
static inline struct rmp_net_ran rmp_net_cycle(struct rmp_net *net, struct rmp_item *items, size_t n,
                                               uint8_t *image, uint8_t *waiting, size_t image_size,
                                               uint32_t limit) {
    struct rmp_net_work work;
    struct rmp_net_ran ran;
    memset(&work, 0, sizeof work);
    work.items = items;
    work.n = n;
    work.image = image;
    work.waiting = waiting;
    work.image_size = image_size;
    ran = rmp_net_cycle_begin(net, &work, limit);
    while (ran.ended == RMP_NET_UNDER_WAY)
        ran = rmp_net_cycle_look_at(net, &work, rmp_net_wait(net));
    return ran;
}

/*
 * Says where the cable of a line of so many slaves is broken: a broadcast read of AL status travels, alone in
 * its frame, and rmp_where tells of its copies. `limit` is for how many microseconds they are awaited: a copy
 * that is lost costs all of them. Call it best once behind each cycle; one broken link shows here alone. It
 * counts as no cycle. RMP_NOT_BROADCAST and RMP_NOT_SENT are never answered. rmp_where_text has it in words.
 */
static inline struct rmp_located rmp_net_where(struct rmp_net *net, size_t slaves, uint32_t limit) {
    static const uint8_t zeros[2] = {0, 0};
    const struct rmp_net_copy *a, *b;
    size_t room = sizeof net->frame;
    size_t size = rmp_single(RMP_BRD, RMP_AT(0, 0x0130), zeros, sizeof zeros, net->frame, room).bytes;
    rmp_net_await(net, rmp_net_begin(net, net->frame, size, NULL, 0, rmp_net_now() + (uint64_t)limit * 1000));
    a = rmp_net_at(net, RMP_NET_A);
    b = rmp_net_at(net, RMP_NET_B);
    return rmp_where(net->form, net->frame, size, a->bytes, a->size, b->bytes, b->size, slaves);
}

/*
 * Says in which state the slave with a station address is: the frame of rmp_look_next travels, and
 * rmp_look_came tells of its copies. `limit` is for how many microseconds they are awaited: a copy that is
 * lost costs all of them. It counts as no cycle. RMP_STRANGER is never answered. rmp_seen_text has it in
 * words.
 */
static inline struct rmp_seen rmp_net_al_state(struct rmp_net *net, uint16_t station, uint32_t limit) {
    const struct rmp_net_copy *a = &net->copies[RMP_NET_A], *b = &net->copies[RMP_NET_B];
    size_t size = rmp_look_next(station, net->frame, sizeof net->frame).bytes;
    rmp_net_await(net, rmp_net_begin(net, net->frame, size, NULL, 0, rmp_net_now() + (uint64_t)limit * 1000));
    return rmp_look_came(net->form, station, a->bytes, a->size, b->bytes, b->size);
}

/* ---- services and start-ups */

/* The frame of a turn lies in net->frame, and travels; where it has no bytes, nothing does. The code is that
 * of the frame, or else that of its trip. */
static inline uint32_t rmp_net_turn(struct rmp_net *net, const struct rmp_written *made, uint32_t limit) {
    if (made->code != RMP_GOOD || made->bytes == 0)
        return made->code;
    return rmp_net_trip(net, net->frame, made->bytes, NULL, 0, limit).code;
}

/*
 * Takes one turn of a service that was begun with the form of `net` (rmp_read_begin and the like): a frame
 * goes out, and rmp_service_came tells of its copies. Between two cycles call it once, or without cycles
 * until it does not answer RMP_GOES_ON. `limit` is for how many microseconds copies are awaited, as those of
 * an rmp_net_trip of which no counters are expected: a copy that is lost costs all of them.
 *
 * What is answered is told at rmp_service_came; besides it is what rmp_service_next answers but RMP_GOOD, or
 * RMP_FULL where the frame has no place for a number: then the service is as it was. RMP_STRANGER is never
 * answered. rmp_served_text has it in words.
 */
static inline struct rmp_served rmp_net_serve(struct rmp_net *net, struct rmp_service *service,
                                              uint32_t limit) {
    const struct rmp_net_copy *a = &net->copies[RMP_NET_A], *b = &net->copies[RMP_NET_B];
    struct rmp_written made = rmp_service_next(service, net->frame, sizeof net->frame);
    struct rmp_served none = {0, 0, RMP_GOOD, RMP_LOST, RMP_LOST};
    none.code = rmp_net_turn(net, &made, limit);
    if (none.code != RMP_GOOD)
        return none;
    if (made.bytes == 0)
        return rmp_service_came(service, NULL, 0, NULL, 0);
    return rmp_service_came(service, a->bytes, a->size, b->bytes, b->size);
}

/*
 * Takes one turn of a start-up that was begun with the form of `net` (rmp_start_begin), by the records and
 * the objects of its slaves, as rmp_start_next and rmp_start_came take them: a frame goes out, and what its
 * copies tell is answered. Call it until it does not answer RMP_GOES_ON. `limit` and what is answered besides
 * are those of rmp_net_serve. rmp_started_text has it in words.
 */
static inline struct rmp_started rmp_net_start(struct rmp_net *net, struct rmp_start *start,
                                               const struct rmp_records *line, size_t slaves,
                                               const struct rmp_startup *startup, size_t startup_count,
                                               uint32_t limit) {
    const struct rmp_net_copy *a = &net->copies[RMP_NET_A], *b = &net->copies[RMP_NET_B];
    struct rmp_written made =
        rmp_start_next(start, line, slaves, startup, startup_count, net->frame, sizeof net->frame);
    struct rmp_started none = {0, 0, 0, 0, 0, RMP_GOOD, RMP_LOST, RMP_LOST};
    none.code = rmp_net_turn(net, &made, limit);
    if (none.code != RMP_GOOD)
        return none;
    if (made.bytes == 0)
        return rmp_start_came(start, line, slaves, startup, startup_count, NULL, 0, NULL, 0);
    return rmp_start_came(start, line, slaves, startup, startup_count, a->bytes, a->size, b->bytes, b->size);
}

/* How a trip ended, in words, or "no such end". */
static inline const char *rmp_net_end_text(uint32_t ended) {
    static const char *const texts[] = {
        "under way", "each copy came", "what came is enough", "the time was over", "nothing can come",
    };
    return ended < sizeof texts / sizeof texts[0] ? texts[ended] : "no such end";
}

#endif
