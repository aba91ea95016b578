/* A line of five slaves in a process of its own, whose network does what it is ordered to: for net.c. What a
 * slave gives is told by what it was given in the frame, so that no answer of another frame looks right. */
#include <arpa/inet.h>
#include <fcntl.h>
#include <signal.h>
#include <stdio.h>
#include <stdlib.h>
#include <sys/mman.h>
#include <sys/prctl.h>
#include <sys/wait.h>

enum { SLAVES = 5, SPEAKERS = 4, KEPT = 256, NOP = 0 };

/* How the line and its network behave, and what was seen: shared with the process of the line. */
struct orders {
    volatile int down[2];   /* the link at end A, at end B is broken */
    volatile int mute[2];   /* what arrives at an end is lost */
    volatile int refusing;  /* nobody listens at end B */
    volatile int slow;      /* copies from end A leave so many microseconds later */
    volatile int to_all;    /* an answer goes to each who has spoken, not to the last one alone */
    volatile int no_inputs; /* frames that begin with an LRD are lost */
    volatile int lost, held, doubled, damaged, rubbish; /* in a thousand copies */
    volatile int turns[2];  /* how far each of two masters is that keep abreast */
    volatile int frames;    /* how many frames came, */
    volatile int twice;     /* and how many with a number that is not above that of its speaker's last one */
};

struct speaker {
    struct sockaddr_in at;
    uint64_t number;
};

/* A packet that is to leave at an end later. */
struct kept {
    uint64_t due;
    size_t size;
    int end;
    uint8_t bytes[RMP_FRAME_SIZE];
};

struct line {
    struct orders *orders;
    pid_t process;
    int ends[2], ports[2];
    struct speaker speakers[2][SPEAKERS];
    int spoken[2], last[2], refuses;
    struct kept slow[KEPT], held[KEPT];
    size_t slow_count, held_count;
    uint64_t chance;
};

/* A number below `below`, by a generator that begins alike in each run. */
static inline unsigned by_chance(uint64_t *state, unsigned below) {
    *state ^= *state << 13;
    *state ^= *state >> 7;
    *state ^= *state << 17;
    return (unsigned)(*state >> 33) % below;
}

/* Whether it happens to one of a thousand. */
static inline int happens(struct line *line, int thousandths) {
    return thousandths > 0 && by_chance(&line->chance, 1000) < (unsigned)thousandths;
}

static inline void count_up(uint8_t *number) {
    unsigned counted = number[0] + 256u * number[1] + SLAVES;
    number[0] = (uint8_t)(counted & 0xFF);
    number[1] = (uint8_t)(counted >> 8 & 0xFF);
}

/* One datagram passes the slaves: inputs are the outputs of its frame, inverted in part. */
static inline void pass_datagram(uint8_t *datagram, size_t length, const uint8_t *outputs) {
    uint8_t *data = datagram + 10;
    if (datagram[0] == NOP)
        return;
    if (datagram[0] == RMP_BRD) {
        count_up(datagram + 2);
        data[0] |= 8;
    }
    for (size_t k = 0; datagram[0] == RMP_LRD && k < length; k++)
        data[k] = outputs ? outputs[k % SLAVES] ^ 0xA5 : 0x5A;
    count_up(data + length);
}

/* A frame passes the slaves. Where it turned round at the first one's closed port 0, that is marked. */
static inline void pass(uint8_t *frame, size_t size, int turns) {
    const uint8_t *outputs = NULL;
    for (size_t at = 2, more = 1; more && at + 12 <= size;) {
        size_t length = frame[at + 6] + 256u * (frame[at + 7] & 7);
        more = frame[at + 7] & 0x80;
        if (at + 12 + length > size)
            return;
        if (frame[at] == RMP_LWR)
            outputs = frame + at + 10;
        pass_datagram(frame + at, length, outputs);
        if (turns)
            frame[at + 7] |= 0x40;
        at += 12 + length;
    }
}

/* A packet leaves at an end, to who has spoken there. */
static inline void hand_on(struct line *line, int end, const uint8_t *bytes, size_t size) {
    for (int k = 0; k < line->spoken[end]; k++) {
        const struct sockaddr_in *to = &line->speakers[end][k].at;
        if (line->orders->to_all || k == line->last[end])
            sendto(line->ends[end], bytes, size, 0, (const struct sockaddr *)to, sizeof *to);
    }
}

static inline void keep(struct kept *kept, size_t *count, int end, const uint8_t *bytes, size_t size,
                        uint64_t due) {
    if (*count == KEPT || size > RMP_FRAME_SIZE)
        return;
    memcpy(kept[*count].bytes, bytes, size);
    kept[*count].size = size;
    kept[*count].end = end;
    kept[(*count)++].due = due;
}

/* One of the packets that were held back is handed on now, and some stay to come once more. */
static inline void hand_on_held(struct line *line) {
    size_t k;
    if (!line->held_count)
        return;
    k = by_chance(&line->chance, (unsigned)line->held_count);
    hand_on(line, line->held[k].end, line->held[k].bytes, line->held[k].size);
    if (happens(line, 700))
        line->held[k] = line->held[--line->held_count];
}

/* Bytes by chance, and fronts and changes of a packet that came. */
static inline void hand_on_rubbish(struct line *line, int end, const uint8_t *bytes, size_t size) {
    uint8_t made[1600];
    size_t length = by_chance(&line->chance, sizeof made);
    for (size_t k = 0; k < length; k++)
        made[k] = (uint8_t)by_chance(&line->chance, 256);
    if (happens(line, 700) && size <= sizeof made) {
        memcpy(made, bytes, size);
        length = by_chance(&line->chance, (unsigned)size + 1);
    }
    hand_on(line, end, made, length);
}

/* A copy arrives at an end of the line, and the network does with it what it does. */
static inline void arrive(struct line *line, int end, int from, uint8_t *bytes, size_t size) {
    struct orders *orders = line->orders;
    if (orders->mute[end] || happens(line, orders->lost) || (orders->no_inputs && bytes[2] == RMP_LRD))
        return;
    if (happens(line, orders->rubbish))
        hand_on_rubbish(line, end, bytes, size);
    if (happens(line, orders->held)) {
        keep(line->held, &line->held_count, end, bytes, size, 0);
        return;
    }
    if (happens(line, orders->damaged))
        bytes[0] ^= (uint8_t)(1u << by_chance(&line->chance, 8)); /* of the length: it is no frame any more */
    if (orders->slow && from == 0) {
        keep(line->slow, &line->slow_count, end, bytes, size, rmp_net_now() + (uint64_t)orders->slow * 1000);
        return;
    }
    hand_on(line, end, bytes, size);
    if (happens(line, orders->doubled))
        hand_on(line, happens(line, 500) ? end : 1 - end, bytes, size);
}

/* Who speaks at an end; its numbers go up. */
static inline void hear(struct line *line, int end, const struct sockaddr_in *from, uint64_t number) {
    int k = 0;
    struct speaker *speaker;
    while (k < line->spoken[end] && line->speakers[end][k].at.sin_port != from->sin_port)
        k++;
    if (k == SPEAKERS)
        return;
    speaker = &line->speakers[end][k];
    if (k == line->spoken[end]) {
        line->spoken[end]++;
        speaker->at = *from;
    } else if ((int64_t)(number - speaker->number) <= 0) {
        line->orders->twice++;
    }
    speaker->number = number;
    line->last[end] = k;
}

/* A frame that came at an end goes its way. */
static inline void take_packet(struct line *line, int end) {
    uint8_t bytes[1600];
    struct sockaddr_in from;
    socklen_t from_size = sizeof from;
    ssize_t size =
        recvfrom(line->ends[end], bytes, sizeof bytes, MSG_DONTWAIT, (struct sockaddr *)&from, &from_size);
    uint64_t number;
    if (size < 36)
        return;
    memcpy(&number, bytes + size - 10, sizeof number);
    hear(line, end, &from, number);
    line->orders->frames++;
    if (line->orders->down[end])
        return;
    if (end == 0 || line->orders->down[0])
        pass(bytes, (size_t)size, end == 1);
    arrive(line, line->orders->down[1 - end] ? end : 1 - end, end, bytes, (size_t)size);
    if (happens(line, 100))
        hand_on_held(line);
}

/* Hands on what was to leave later, and says for how many milliseconds nothing is to be. */
static inline int hand_on_slow(struct line *line) {
    size_t k = 0;
    while (k < line->slow_count && line->slow[k].due <= rmp_net_now()) {
        hand_on(line, line->slow[k].end, line->slow[k].bytes, line->slow[k].size);
        k++;
    }
    line->slow_count -= k;
    memmove(line->slow, line->slow + k, line->slow_count * sizeof *line->slow);
    return line->slow_count ? 0 : 1;
}

/* Has nobody listen at end B any more, or somebody again: a socket that speaks with itself alone hears no
 * other one. */
static inline void refuse_or_not(struct line *line) {
    struct sockaddr_in to;
    memset(&to, 0, sizeof to);
    if (line->orders->refusing == line->refuses)
        return;
    line->refuses = line->orders->refusing;
    to.sin_family = line->refuses ? AF_INET : AF_UNSPEC;
    to.sin_port = htons((uint16_t)line->ports[1]);
    to.sin_addr.s_addr = htonl(INADDR_LOOPBACK);
    connect(line->ends[1], (const struct sockaddr *)&to, sizeof to);
}

static inline void run_line(struct line *line) {
    prctl(PR_SET_PDEATHSIG, SIGKILL);
    for (;;) {
        struct pollfd asked[2] = {{line->ends[0], POLLIN, 0}, {line->ends[1], POLLIN, 0}};
        poll(asked, 2, hand_on_slow(line));
        refuse_or_not(line);
        for (int end = 0; end < 2; end++)
            if (asked[end].revents)
                take_packet(line, end);
    }
}

/* A socket at a port of this machine, 0 for a free one, and which one it is; -1 where it is taken. */
static inline int bound_at(int *port) {
    struct sockaddr_in at;
    socklen_t size = sizeof at;
    int made = socket(AF_INET, SOCK_DGRAM | SOCK_CLOEXEC, 0);
    memset(&at, 0, sizeof at);
    at.sin_family = AF_INET;
    at.sin_port = htons((uint16_t)*port);
    at.sin_addr.s_addr = htonl(INADDR_LOOPBACK);
    if (made >= 0 && bind(made, (struct sockaddr *)&at, size) == 0 &&
        getsockname(made, (struct sockaddr *)&at, &size) == 0) {
        *port = ntohs(at.sin_port);
        return made;
    }
    close(made);
    return -1;
}

/* A socket at a port that was free, and is asked for by its number: so it stays the socket's, whatever that
 * is connected to. */
static inline int bound(int *port) {
    int made = -1;
    for (int k = 0; k < 20 && made < 0; k++) {
        *port = 0;
        close(bound_at(port));
        made = bound_at(port);
    }
    if (made < 0) {
        perror("net: a socket");
        exit(3);
    }
    return made;
}

/* Starts a line of its own. */
static inline struct line *start_line(void) {
    struct line *line = (struct line *)calloc(1, sizeof *line);
    const int way = PROT_READ | PROT_WRITE, sort = MAP_SHARED | MAP_ANONYMOUS;
    void *shared = mmap(NULL, sizeof(struct orders), way, sort, -1, 0);
    if (!line || shared == MAP_FAILED) {
        perror("net: memory");
        exit(3);
    }
    line->orders = (struct orders *)shared;
    line->chance = 88172645463325252u;
    for (int end = 0; end < 2; end++)
        line->ends[end] = bound(&line->ports[end]);
    line->process = fork();
    if (line->process == 0)
        run_line(line);
    return line;
}

/* Ends it, and says how many numbers went out that were not above the one before. */
static inline int end_line(struct line *line) {
    int twice = line->orders->twice;
    kill(line->process, SIGKILL);
    waitpid(line->process, NULL, 0);
    close(line->ends[0]);
    close(line->ends[1]);
    munmap(line->orders, sizeof *line->orders);
    free(line);
    return twice;
}
