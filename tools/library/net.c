/*
 * What travels, tried: include/rummymaple_net.h over a line of its own (line.h), and over `ecat serve`.
 *
 *     net PROGRAM CYCLES [TEST..]
 *
 * PROGRAM is `ecat`, or - where there is none; CYCLES is how many cycles are made with losses. Without TEST
 * all tests are run. Each good cycle has to have the inputs that its own frame was given, or those that the
 * served slaves gave. What hangs on the clock leaves room for a machine that is busy, and a test in which it
 * is not as wanted is made anew, three times in all, and each is told. The status is 1 where something is not
 * as it should be. It is C11 and C++17.
 */
#include "rummymaple_net.h"
#include "line.h"

enum { TRIES = 3 };

static int failed, slow_ones, tried = 1;

#define TELL(flag, what, test, ...)                                                                          \
    do {                                                                                                     \
        if (!(test)) {                                                                                       \
            printf("%s at line %d: %s: ", what, __LINE__, #test);                                            \
            printf(__VA_ARGS__);                                                                             \
            printf("\n");                                                                                    \
            flag = 1;                                                                                        \
        }                                                                                                    \
    } while (0)

/* What is so on each machine, */
#define CHECK(test, ...) TELL(failed, "FAILED", test, __VA_ARGS__)

/* and what is not where the machine is busy or stands still, so that the test is made anew. */
#define TIMED(test, ...) TELL(slow_ones, tried < TRIES ? "SLOW" : "FAILED", test, __VA_ARGS__)

/* Makes a test, and makes it anew where it was too slow. */
#define ATTEMPT(call)                                                                                        \
    do {                                                                                                     \
        for (tried = 1; tried <= TRIES; tried++) {                                                           \
            slow_ones = 0;                                                                                   \
            call;                                                                                            \
            if (!slow_ones)                                                                                  \
                break;                                                                                       \
            printf("net: %s was too slow, %d of %d times\n", #call, tried, (int)TRIES);                      \
        }                                                                                                    \
        failed |= slow_ones;                                                                                 \
    } while (0)

/* The image of a master, and the items that exchange it: five bytes out, and five in. */
struct master {
    struct rmp_net net;
    uint8_t image[2 * SLAVES], waiting[2 * SLAVES];
    struct rmp_item items[2];
    unsigned long verdicts[3], false_good, ends[5], missing, late;
    unsigned made; /* how many outputs it has had, of which no two are alike */
    uint64_t slowest;
};

static struct rmp_item item(enum rmp_kind kind, uint32_t address, uint32_t offset, uint16_t length) {
    struct rmp_item made;
    memset(&made, 0, sizeof made);
    made.kind = (uint16_t)kind;
    made.address = address;
    made.offset = offset;
    made.length = length;
    made.expected = SLAVES;
    return made;
}

/* Opens a master's ports at two ports of this machine; without a second one port A alone. */
static void open_at(struct master *master, int a, int b) {
    char ends[2][32];
    int error;
    memset(master, 0, sizeof *master);
    snprintf(ends[0], sizeof ends[0], "127.0.0.1:%d", a);
    snprintf(ends[1], sizeof ends[1], "127.0.0.1:%d", b);
    error = rmp_net_open_udp(&master->net, ends[0], b ? ends[1] : NULL);
    CHECK(error == 0, "%s", strerror(error));
    master->items[0] = item(RMP_LWR, 0x10000, 0, SLAVES);
    master->items[1] = item(RMP_LRD, 0x20000, SLAVES, SLAVES);
}

/* A cycle with these outputs, which is counted. */
static struct rmp_net_ran run(struct master *master, const uint8_t *outputs, uint32_t limit) {
    const size_t size = sizeof master->image;
    struct rmp_net_ran ran;
    memcpy(master->image, outputs, SLAVES);
    ran = rmp_net_cycle(&master->net, master->items, 2, master->image, master->waiting, size, limit);
    CHECK(ran.code <= RMP_OVER, "%s (%zu)", rmp_code_text(ran.code), ran.at);
    CHECK(ran.ended > 0 && ran.ended < 5, "%u", (unsigned)ran.ended);
    if (ran.code <= RMP_OVER)
        master->verdicts[ran.code]++;
    if (ran.ended < 5)
        master->ends[ran.ended]++;
    master->missing += ran.missing;
    master->late += ran.took >= (uint64_t)limit * 1000;
    if (ran.took > master->slowest)
        master->slowest = ran.took;
    return ran;
}

/* The outputs of a cycle of a master with a number: no others are these. */
static void outputs_of(uint8_t *outputs, unsigned number, unsigned k) {
    const uint8_t made[SLAVES] = {(uint8_t)number, (uint8_t)k, (uint8_t)(k >> 8), (uint8_t)(k >> 16),
                                  (uint8_t)(k * 31)};
    memcpy(outputs, made, SLAVES);
}

/* So many cycles over the line of its own, whose inputs are told by the outputs of the same frame; fewer
 * where most of them take all their time. */
static void cycle_on(struct master *master, unsigned number, unsigned cycles, uint32_t limit) {
    const unsigned long most = master->late + 20 + cycles / 20;
    uint8_t outputs[SLAVES];
    for (unsigned k = 0; k < cycles && master->late < most; k++) {
        struct rmp_net_ran ran;
        int wrong = 0;
        outputs_of(outputs, number, master->made++);
        ran = run(master, outputs, limit);
        for (int s = 0; s < SLAVES; s++)
            wrong |= master->image[SLAVES + s] != (outputs[s] ^ 0xA5);
        master->false_good += ran.code == RMP_GOOD && wrong;
    }
}

/* At least so many of a hundred cycles were good, none of them falsely, and none over. */
static void were_good(const char *name, const struct master *master, unsigned long percent) {
    const unsigned long *verdicts = master->verdicts;
    printf("net: %s: %lu good, %lu short, %lu over, %lu falsely good; %lu copies missing\n", name,
           verdicts[0], verdicts[1], verdicts[2], master->false_good, master->missing);
    CHECK(master->false_good == 0, "%lu", master->false_good);
    CHECK(verdicts[2] == 0, "%lu over", verdicts[2]);
    TIMED(100 * verdicts[0] >= percent * (verdicts[0] + verdicts[1]), "less than %lu of 100", percent);
}

static void end_with(struct master *master, struct line *line) {
    int twice = end_line(line);
    rmp_net_close(&master->net);
    CHECK(twice == 0, "%d numbers were used twice", twice);
}

/* ---- over the line of its own */

/* A whole ring: each copy comes at the other port, and a trip ends with the second one. */
static void whole(void) {
    struct line *line = start_line();
    struct master master;
    struct rmp_located where;
    int came = 0;
    open_at(&master, line->ports[0], line->ports[1]);
    cycle_on(&master, 0, 2000, 200000);
    were_good("whole", &master, 90);
    TIMED(master.ends[RMP_NET_ALL] >= 1800, "%lu", master.ends[RMP_NET_ALL]);
    TIMED(master.net.ports[0].came >= 1800 && master.net.ports[1].came >= 1800, "copies at both ports");
    for (int k = 0; k < 20; k++) {
        where = rmp_net_where(&master.net, SLAVES, 200000);
        came = master.net.copies[0].size && master.net.copies[1].size;
        if (where.cable == RMP_WHOLE && came)
            break;
    }
    TIMED(came, "both copies of one trip");
    TIMED(where.code == RMP_GOOD && where.cable == RMP_WHOLE, "%u", (unsigned)where.cable);
    CHECK(!came || master.net.copies[0].port == RMP_NET_B, "where copy A came");
    CHECK(!came || master.net.copies[1].port == RMP_NET_A, "where copy B came");
    CHECK(!came || rmp_net_at(&master.net, RMP_NET_B) == &master.net.copies[0], "what came at port B");
    end_with(&master, line);
}

/* How many cycles one of two masters may be ahead of the other one: less than a socket keeps answers of. */
enum { AHEAD = 20 };

/* Waits until the other one of two masters has done as much but for one turn: 0 where it does not come. */
static int is_abreast(const volatile int *others, int turn) {
    const uint64_t most = rmp_net_now() + 20000000000;
    while (*others < turn - 1 && rmp_net_now() < most)
        rmp_net_pause_until(rmp_net_now() + 100000);
    return *others >= turn - 1;
}

/* The cycles of one of two masters, which keep abreast: so each gets the answers of the other one too. */
static void cycle_abreast(struct line *line, struct master *master, int which, unsigned cycles) {
    volatile int *turns = line->orders->turns;
    for (unsigned k = 0; k < cycles && master->late < 20 + cycles / 20; k += AHEAD) {
        cycle_on(master, (unsigned)which + 1, AHEAD, 5000);
        turns[which]++;
        if (!is_abreast(&turns[1 - which], turns[which]))
            break;
    }
    turns[which] = 1 << 30;
    were_good(which ? "mixed, the other master" : "mixed, a master", master, 70);
}

/* Two masters whose packets are mixed: each answer goes to both, some late, twice, damaged or not at all. */
static void mixed(unsigned cycles) {
    struct line *line = start_line();
    struct master master;
    int status = 0;
    pid_t other;
    line->orders->to_all = 1;
    line->orders->lost = 10;
    line->orders->held = line->orders->doubled = 20;
    line->orders->damaged = line->orders->rubbish = 5;
    fflush(stdout);
    other = fork();
    if (other == 0)
        failed = 0; /* its own, as its status tells them */
    open_at(&master, line->ports[0], line->ports[1]);
    cycle_abreast(line, &master, other == 0, cycles);
    if (other == 0) {
        fflush(stdout);
        _exit(failed ? 1 : slow_ones ? 2 : 0);
    }
    waitpid(other, &status, 0);
    TIMED(!WIFEXITED(status) || WEXITSTATUS(status) != 2, "of the other master");
    CHECK(WIFEXITED(status) && WEXITSTATUS(status) != 1, "of the other master");
    TIMED(master.net.ports[0].passed_over + master.net.ports[1].passed_over >= cycles, "packets passed over");
    end_with(&master, line);
}

/* A port at which nothing arrives is not waited for before the other one, nor to the limit. */
static void mute(int end) {
    struct line *line = start_line();
    struct master master;
    open_at(&master, line->ports[0], line->ports[1]);
    line->orders->mute[end] = line->orders->down[end] = 1;
    cycle_on(&master, 0, 400, 100000);
    were_good(end ? "nothing at port B" : "nothing at port A", &master, 90);
    TIMED(master.ends[RMP_NET_ENOUGH] >= 360, "%lu", master.ends[RMP_NET_ENOUGH]);
    TIMED(master.late < 20, "%lu cycles took all their time", master.late);
    CHECK(master.net.ports[end].came == 0, "%lu", (unsigned long)master.net.ports[end].came);
    end_with(&master, line);
}

/* Copy B, which no slave has served, comes first: the other one is waited for. */
static void slow(void) {
    struct line *line = start_line();
    struct master master;
    open_at(&master, line->ports[0], line->ports[1]);
    cycle_on(&master, 0, 5, 200000);
    line->orders->slow = 2000;
    cycle_on(&master, 0, 300, 500000);
    were_good("the served copy comes 2 ms later", &master, 95);
    end_with(&master, line);
}

/* The middle one of what was measured. */
static int in_order(const void *a, const void *b) {
    double x = *(const double *)a, y = *(const double *)b;
    return (x > y) - (x < y);
}

static double middle(double *measured, size_t n) {
    qsort(measured, n, sizeof *measured, in_order);
    return measured[n / 2];
}

enum { BLOCKS = 15, BLOCK = 200, MEASURED = 5 };

/* A port, and what stands in its socket's place while it fails. */
struct failing_port {
    struct line *line;
    struct master *master;
    int side, kept, other;
};

/* Has nobody listen at end B, or somebody. */
static void refuse(struct failing_port *port, int fails) {
    port->line->orders->refusing = port->line->orders->down[1] = fails;
}

/* Has each send and receive at the port fail, or none, while the line turns what comes from the other one. */
static void fail(struct failing_port *port, int fails) {
    int at = port->master->net.ports[port->side].socket;
    port->line->orders->down[port->side] = fails;
    CHECK(dup2(fails ? port->other : port->kept, at) == at, "%s", strerror(errno));
}

/* How many cycles a second there are. */
static double rate(struct master *master) {
    uint64_t begun;
    cycle_on(master, 0, 5, 100000); /* until the line has heard of it */
    begun = rmp_net_now();
    cycle_on(master, 0, BLOCK, 100000);
    return BLOCK * 1e9 / (double)(rmp_net_now() - begun);
}

/* The share of the whole rate that is left where a port fails, in blocks by turns. */
static double share_left(struct failing_port *port, void (*turn)(struct failing_port *, int)) {
    double with[BLOCKS], without[BLOCKS];
    for (int block = 0; block < BLOCKS; block++) {
        turn(port, 0);
        with[block] = rate(port->master);
        turn(port, 1);
        without[block] = rate(port->master);
    }
    printf("net: %.0f cycles a second, %.0f where port %c fails\n", middle(with, BLOCKS),
           middle(without, BLOCKS), 'A' + port->side);
    return middle(without, BLOCKS) / middle(with, BLOCKS);
}

/* It is not below 0.7, measured anew where a busy machine had something else to do. */
static void is_fast(struct failing_port *port, void (*turn)(struct failing_port *, int)) {
    double left = 0;
    for (int k = 0; k < MEASURED && left < 0.7; k++)
        left = share_left(port, turn);
    TIMED(left >= 0.7, "%.2f of the whole rate", left);
}

/* Nobody listens at end B by turns: each cycle goes on over port A, and over both when somebody does. */
static void refused(void) {
    struct line *line = start_line();
    struct master master, alone;
    struct failing_port failing = {line, &master, RMP_NET_B, -1, -1};
    const struct rmp_net_port *port = &master.net.ports[RMP_NET_B];
    uint64_t before;
    open_at(&master, line->ports[0], line->ports[1]);
    is_fast(&failing, refuse);
    were_good("nobody at end B by turns", &master, 90);
    TIMED(port->error == ECONNREFUSED, "%s", strerror(port->error));
    TIMED(port->failures >= BLOCKS * BLOCK, "%lu", (unsigned long)port->failures);
    CHECK(master.net.ports[RMP_NET_A].failures == 0, "port A failed");
    before = port->failures;
    refuse(&failing, 0);
    cycle_on(&master, 0, 200, 100000);
    TIMED(port->error == 0 && port->failures < before + 20, "%d", port->error);
    rmp_net_close(&master.net);
    open_at(&alone, line->ports[0], 0);
    line->orders->down[1] = 1;
    cycle_on(&alone, 0, 300, 100000);
    were_good("port A alone", &alone, 90);
    TIMED(alone.ends[RMP_NET_ALL] >= 270 && alone.missing <= 30, "%lu", alone.ends[RMP_NET_ALL]);
    end_with(&alone, line);
}

/* Each send and receive at a port fails by turns: the other port goes on, and both do when it works again. */
static void failing(int side) {
    struct line *line = start_line();
    struct master master;
    struct failing_port failing = {line, &master, side, -1, open("/dev/null", O_RDWR)};
    const struct rmp_net_port *port = &master.net.ports[side];
    uint64_t came;
    open_at(&master, line->ports[0], line->ports[1]);
    failing.kept = dup(port->socket);
    is_fast(&failing, fail);
    CHECK(port->error == ENOTSOCK, "%s", strerror(port->error));
    TIMED(port->failures >= BLOCKS * BLOCK, "%lu", (unsigned long)port->failures);
    CHECK(master.net.ports[1 - side].failures == 0, "the other port failed");
    fail(&failing, 0);
    came = port->came;
    cycle_on(&master, 0, 500, 100000);
    TIMED(port->error == 0 && port->came > came + 450, "%d, %lu", port->error, (unsigned long)port->came);
    were_good(side ? "port B fails by turns" : "port A fails by turns", &master, 90);
    close(failing.kept);
    close(failing.other);
    end_with(&master, line);
}

/* Less than half of the limit below: behind it the limit is nearer than what else is waited for. */
static const uint64_t HALF_A_LIMIT = 400000000;

/* The floor: at least so long for 100 cycles in which nothing came at port B, none then, and again at once
 * where something comes. */
static void silence(void) {
    struct line *line = start_line();
    struct master master;
    const struct rmp_net_copy *copy = &master.net.copies[RMP_NET_A];
    uint8_t outputs[SLAVES] = {0};
    uint64_t floor = 0, more;
    open_at(&master, line->ports[0], line->ports[1]);
    line->orders->down[1] = 1;
    for (unsigned k = 1; k <= 200; k++) {
        struct rmp_net_ran ran = run(&master, outputs, 1000000);
        more = master.net.until - master.net.begun - copy->after;
        floor = k <= 100 ? 100000 : 0;
        if (ran.ended == RMP_NET_ENOUGH && copy->after < HALF_A_LIMIT)
            CHECK(more == (copy->after > floor ? copy->after : floor), "%u: %lu", k, (unsigned long)more);
    }
    TIMED(master.ends[RMP_NET_ENOUGH] >= 195, "%lu", master.ends[RMP_NET_ENOUGH]);
    TIMED(rmp_net_where(&master.net, SLAVES, 1000000).cable == RMP_ONE, "where nothing comes at port B");
    CHECK(master.net.ended == RMP_NET_ENOUGH || copy->size == 0, "a silent port was waited for");
    line->orders->down[1] = 0;
    cycle_on(&master, 0, 20, 100000);
    TIMED(master.net.ports[RMP_NET_B].silent <= RMP_NET_SILENT, "silent");
    line->orders->down[1] = 1;
    run(&master, outputs, 1000000);
    more = master.net.until - master.net.begun - copy->after;
    CHECK(copy->size == 0 || copy->after >= HALF_A_LIMIT || more >= 100000, "%lu", (unsigned long)more);
    were_good("a silent port", &master, 97);
    end_with(&master, line);
}

/* Nothing comes: the limit is waited for, and not much more. */
static void limit(void) {
    struct line *line = start_line();
    struct master master;
    double took[9];
    uint8_t outputs[SLAVES] = {0};
    open_at(&master, line->ports[0], line->ports[1]);
    line->orders->mute[0] = line->orders->mute[1] = 1;
    for (int k = 0; k < 9; k++) {
        struct rmp_net_ran ran = run(&master, outputs, 10000);
        took[k] = (double)ran.took / 1e6;
        CHECK(ran.code == RMP_SHORT && ran.missing == 2, "%u", (unsigned)ran.code);
        CHECK(ran.ended == RMP_NET_TIME, "%s", rmp_net_end_text(ran.ended));
        CHECK(took[k] >= 10, "%f ms", took[k]);
    }
    TIMED(middle(took, 9) < 100, "%f ms", middle(took, 9));
    CHECK(run(&master, outputs, 0).code == RMP_SHORT, "with no time");
    CHECK(rmp_net_where(&master.net, SLAVES, 1000).cable == RMP_UNKNOWN, "where nothing comes");
    end_with(&master, line);
    printf("net: a limit of 10 ms took %.2f ms\n", middle(took, 9));
}

/* Two frames a cycle: nothing goes into the image until both are good, and a BRD's data are zeroed before. */
static void frames(void) {
    enum { LONG = 1400, IMAGE = 2 * SLAVES + 2 + 2 * LONG };
    static uint8_t image[IMAGE], before[IMAGE], waiting[IMAGE];
    struct line *line = start_line();
    struct master master;
    struct rmp_item items[5];
    struct rmp_net_ran ran;
    unsigned long good = 0;
    open_at(&master, line->ports[0], line->ports[1]);
    items[0] = master.items[0];
    items[1] = master.items[1];
    items[2] = item(RMP_BRD, 0x0130, 2 * SLAVES, 2);
    items[3] = item(RMP_LWR, 0x30000, 2 * SLAVES + 2, LONG);
    items[4] = item(RMP_LRD, 0x40000, 2 * SLAVES + 2 + LONG, LONG);
    for (unsigned k = 0; k < 200; k++) {
        outputs_of(image, 3, k);
        image[2 * SLAVES] = image[2 * SLAVES + 1] = 0xFF; /* the slaves give 0x08 */
        ran = rmp_net_cycle(&master.net, items, 5, image, waiting, IMAGE, 200000);
        good += ran.code == RMP_GOOD && ran.frames == 2 && image[2 * SLAVES] == 8 &&
                image[IMAGE - 1] == 0x5A && image[SLAVES] == (image[0] ^ 0xA5);
    }
    TIMED(good >= 195, "%lu", good);
    line->orders->no_inputs = 1;
    memset(image, 0x11, IMAGE);
    memcpy(before, image, IMAGE);
    before[2 * SLAVES] = before[2 * SLAVES + 1] = 0;
    ran = rmp_net_cycle(&master.net, items, 5, image, waiting, IMAGE, 20000);
    CHECK(ran.code == RMP_SHORT && (ran.at == 4 || ran.frames == 1), "%u (%zu)", (unsigned)ran.code, ran.at);
    CHECK(memcmp(image, before, IMAGE) == 0, "the image of a short cycle");
    printf("net: two frames: %lu of 200 good\n", good);
    end_with(&master, line);
}

/* What is no cycle is told, and nothing goes out. */
static void wrong_items(void) {
    static uint8_t image[2000], waiting[2000];
    struct line *line = start_line();
    struct master master;
    struct rmp_item one = item(RMP_LWR, 0, 0, RMP_MAX_DATA - RMP_NUMBER_LENGTH + 1);
    const uint8_t no_frame[] = {1, 2, 3};
    struct rmp_net *net = &master.net;
    open_at(&master, line->ports[0], line->ports[1]);
    CHECK(rmp_net_cycle(net, &one, 1, image, waiting, sizeof image, 1000).code == RMP_FULL, "full");
    one.length = 10;
    CHECK(rmp_net_cycle(net, &one, 1, image, waiting, 9, 1000).code == RMP_BAD_PLACE, "out of the image");
    CHECK(rmp_net_cycle(net, &one, 0, image, waiting, 9, 1000).code == RMP_NO_ITEM, "no item");
    one.kind = 99;
    CHECK(rmp_net_cycle(net, &one, 1, image, waiting, 10, 1000).code == RMP_BAD_KIND, "no kind");
    CHECK(rmp_net_trip(net, no_frame, sizeof no_frame, NULL, 0, 1000).code == RMP_NOT_SENT, "no frame");
    CHECK(net->ports[0].sent + net->ports[1].sent == 0, "something went out");
    CHECK(net->ended == RMP_NET_NOWHERE && rmp_net_left(net) == 0, "a trip is under way");
    rmp_net_look(net);
    end_with(&master, line);
    one = item(RMP_LWR, 0, 0, 10);
    CHECK(rmp_net_cycle(net, &one, 1, image, waiting, 10, 1000).code == RMP_SHORT, "closed");
}

/* What is no end of a line is told by the system's number. */
static void wrong_ends(void) {
    const char *const texts[] = {"", ":", "127.0.0.1", "127.0.0.1:", ":34980", "127.0.0.1:0",
                                 "127.0.0.1:65536", "127.0.0.1:3498x", "127.0.0.1:-1", "[]:1",
                                 "127.0.0.1:034980"};
    struct rmp_net net, other;
    char name[300];
    for (size_t k = 0; k < sizeof texts / sizeof *texts; k++) {
        CHECK(rmp_net_open_udp(&net, texts[k], NULL) == EINVAL, "%s", texts[k]);
        CHECK(rmp_net_open_udp(&net, "127.0.0.1:34980", texts[k]) == EINVAL, "B %s", texts[k]);
        CHECK(net.ports[0].socket == -1 && net.ports[1].socket == -1, "%s left a port open", texts[k]);
    }
    memset(name, 'x', sizeof name);
    memcpy(name + sizeof name - 3, ":1", 3);
    CHECK(rmp_net_open_udp(&net, name, NULL) == EINVAL, "a long name");
    CHECK(rmp_net_open_raw(&net, "no-such-link", NULL) == ENODEV, "no interface");
    CHECK(rmp_net_open_udp(&net, "127.0.0.1:34980", NULL) == 0, "an end");
    CHECK(rmp_net_open_udp(&other, "127.0.0.1:34980", NULL) == 0, "an end once more");
    CHECK(net.trip != other.trip, "two runs begin at one trip");
    rmp_net_close(&net);
    rmp_net_close(&other);
    rmp_net_close(&net);
}

/* ---- over `ecat serve` */

/* The program that serves a line, and its commands. */
struct served {
    pid_t process;
    FILE *commands, *answers;
    int port;
};

static void serve_in_child(const char *program, int port, const int in[2], const int out[2]) {
    char number[16];
    prctl(PR_SET_PDEATHSIG, SIGKILL);
    snprintf(number, sizeof number, "%d", port);
    dup2(in[0], 0);
    dup2(out[1], 1);
    close(in[1]);
    close(out[0]);
    execl(program, program, "serve", "scenes/serve/bench.scene", "--control", "--set-up", "--port", number,
          (char *)NULL);
    _exit(127);
}

/* Starts it once at two ports that were free: 1 where it serves. */
static int try_to_serve(struct served *served, const char *program) {
    int in[2], out[2];
    char line[200];
    int found = bound(&served->port);
    close(found);
    if (served->port >= 65535 || pipe2(in, O_CLOEXEC) != 0 || pipe2(out, O_CLOEXEC) != 0)
        return 0;
    fflush(stdout);
    served->process = fork();
    if (served->process == 0)
        serve_in_child(program, served->port, in, out);
    close(in[0]);
    close(out[1]);
    served->commands = fdopen(in[1], "w");
    served->answers = fdopen(out[0], "r");
    return served->commands && served->answers && fgets(line, sizeof line, served->answers) != NULL;
}

static int end_serving(struct served *served) {
    int status = 0;
    fclose(served->commands);
    while (fgetc(served->answers) != EOF)
        ; /* its counts, at the end of its input */
    fclose(served->answers);
    waitpid(served->process, &status, 0);
    return status;
}

/* Starts it at ports that are free. */
static int serve(struct served *served, const char *program) {
    for (int k = 0; k < 20; k++) {
        if (try_to_serve(served, program))
            return 1;
        end_serving(served);
    }
    CHECK(0, "%s serves no line", program);
    return 0;
}

/* Gives a command, and waits until it is done. */
static void order(struct served *served, const char *words, int number, const char *behind) {
    char line[200] = "";
    fprintf(served->commands, "%s %d%s\n", words, number, behind);
    fflush(served->commands);
    CHECK(fgets(line, sizeof line, served->answers) != NULL, "the program has ended");
    CHECK(strcmp(line, "ok\n") == 0, "%s %d: %s", words, number, line);
}

/* Whether a cycle and a look at the cable are as they have to be where these links are down. */
static int is_as_broken(struct master *master, int first, int last) {
    const uint8_t outputs[SLAVES] = {1, 2, 3, 4, 5};
    struct rmp_net_ran ran = run(master, outputs, 20000);
    struct rmp_located where = rmp_net_where(&master->net, SLAVES, 20000);
    int wanted = RMP_BETWEEN;
    if (first == last)
        wanted = RMP_ONE;
    else if (first == 0)
        wanted = last == SLAVES ? RMP_UNKNOWN : RMP_LAST;
    else if (last == SLAVES)
        wanted = RMP_FIRST;
    if ((ran.code == RMP_GOOD) != (first == last))
        return 0;
    return where.cable == (uint32_t)wanted && (wanted != RMP_BETWEEN || (where.first == (size_t)first &&
                                                                         where.last == (size_t)last));
}

/* Each link and each two of them break and are mended: each is told, and so is the whole. */
static void links(const char *program) {
    struct served served;
    struct master master;
    int told = 0, broken = 0;
    if (!serve(&served, program))
        return;
    open_at(&master, served.port, served.port + 1);
    for (int pair = 0; pair < (SLAVES + 1) * (SLAVES + 1); pair++) {
        int first = pair / (SLAVES + 1), last = pair % (SLAVES + 1), is = 0;
        if (first > last)
            continue;
        order(&served, "link", first, " down");
        order(&served, "link", last, " down");
        for (int k = 0; k < 20 && !is; k++)
            is = is_as_broken(&master, first, last);
        TIMED(is, "links %d and %d", first, last);
        order(&served, "link", first, " up");
        order(&served, "link", last, " up");
        for (int k = 0; k < 20 && rmp_net_where(&master.net, SLAVES, 20000).cable != RMP_WHOLE; k++)
            TIMED(k < 19, "mended links %d and %d", first, last);
        told += is;
        broken++;
    }
    printf("net: of %d breaks %d told\n", broken, told);
    rmp_net_close(&master.net);
    CHECK(end_serving(&served) == 0, "how the line ended");
}

/* By chance a command that has a copy lost, late, doubled or damaged in the next cycle: 1 where that is not
 * good, since the copy that the slaves served is lost. */
static int disturb(struct served *served, uint64_t *chance) {
    unsigned k = by_chance(chance, 1000);
    if (k < 10) {
        order(served, k % 2 ? "lose A" : "lose B", 1, "");
        return k % 2 == 0;
    }
    if (k < 14)
        order(served, k % 2 ? "late A 3" : "late B 3", 1, "");
    else if (k < 18)
        order(served, k % 2 ? "double A" : "double B", 1, "");
    else if (k == 18)
        order(served, "damage A", 1, "");
    return 0;
}

/* For how many nanoseconds cycles with losses are made at the most. */
static const uint64_t MOST_TIME = 20000000000;

/* One of a hundred cycles loses a copy: good ones have the inputs that the slaves gave, of which the second
 * and the last one give what they were given in the cycle before. */
static void losses(const char *program, unsigned cycles) {
    struct served served;
    struct master master;
    uint64_t chance = 362436069362436069u, begun = rmp_net_now();
    const uint8_t *inputs = master.image + SLAVES;
    uint8_t outputs[SLAVES] = {0}, last[SLAVES];
    unsigned long disturbed = 0, good_in_spite = 0;
    int is_clear = 1; /* no copy of an earlier cycle is under way, that a command could meet */
    if (!serve(&served, program))
        return;
    open_at(&master, served.port, served.port + 1);
    for (unsigned k = 0; k < cycles + 2 && rmp_net_now() - begun < MOST_TIME; k++) {
        struct rmp_net_ran ran;
        int cannot = k < 2 ? 0 : disturb(&served, &chance);
        memcpy(last, outputs, SLAVES);
        outputs_of(outputs, k, k + 1);
        outputs[SLAVES - 1] = (uint8_t)(k >> 8);
        ran = run(&master, outputs, 2000);
        disturbed += (unsigned long)(cannot && is_clear);
        good_in_spite += cannot && is_clear && ran.code == RMP_GOOD;
        is_clear = ran.missing == 0;
        if (k >= 2 && ran.code == RMP_GOOD)
            master.false_good += inputs[1] != last[1] || inputs[SLAVES - 1] != last[SLAVES - 1];
    }
    were_good("losses", &master, 90);
    printf("net: losses: %lu cycles without their served copy, in %.1f s, the slowest %.1f ms\n", disturbed,
           (double)(rmp_net_now() - begun) / 1e9, (double)master.slowest / 1e6);
    CHECK(good_in_spite == 0, "%lu good without their served copy", good_in_spite);
    rmp_net_close(&master.net);
    CHECK(end_serving(&served) == 0, "how the line ended");
}

/* Takes turns of a service until it ends: how many frames went out for it. */
static uint64_t turns_of(struct rmp_net *net, struct rmp_service service, struct rmp_served *served) {
    uint64_t first = net->trip;
    do
        *served = rmp_net_serve(net, &service, 300000);
    while (served->code == RMP_GOES_ON);
    return net->trip - first;
}

/* A look, services and a start-up by turns: each slave of this line counts on each frame. */
static void talks(void) {
    static struct rmp_records line_of[SLAVES];
    struct line *line = start_line();
    struct master master;
    struct rmp_served served;
    struct rmp_start start = rmp_start_begin(RMP_UDP, SLAVES, RMP_NO_LINK, RMP_STAGE_COUNT, RMP_STAGE_OP);
    struct rmp_service longest;
    struct rmp_started started;
    struct rmp_seen seen;
    uint64_t frames;
    open_at(&master, line->ports[0], line->ports[1]);
    cycle_on(&master, 0, 5, 200000);
    seen = rmp_net_al_state(&master.net, 0x1001, 300000);
    TIMED(seen.code == RMP_BAD_ANSWER && seen.state == 0, "%s", rmp_code_text(seen.code));
    TIMED(seen.copy_a == RMP_CAME && seen.copy_b == RMP_CAME, "%u %u", seen.copy_a, seen.copy_b);
    frames = turns_of(&master.net, rmp_state_begin(RMP_UDP, line_of, RMP_OP, 64), &served);
    TIMED(served.code == RMP_BAD_ANSWER && frames == 1, "%s", rmp_code_text(served.code));
    TIMED(served.copy_a == RMP_CAME && served.copy_b == RMP_CAME, "%u %u", served.copy_a, served.copy_b);
    frames = turns_of(&master.net, rmp_read_begin(RMP_UDP, line_of, 0x1018, 1, 0, 64), &served);
    CHECK(served.code == RMP_NO_SLAVE && frames == 0, "%s", rmp_code_text(served.code));
    frames = turns_of(&master.net, rmp_state_begin(RMP_UDP, line_of, 3, 64), &served);
    CHECK(served.code == RMP_BAD_NUMBERS && frames == 0, "%s", rmp_code_text(served.code));
    longest = rmp_read_begin(RMP_UDP, line_of, 0x1018, 1, 0, 64);
    longest.next = 1; /* an object is read, by mailboxes that leave no place for a number */
    longest.mail.request_length = longest.mail.answer_length = RMP_MAX_DATA;
    longest.mail.counter = longest.mail.known = 1;
    frames = turns_of(&master.net, longest, &served);
    CHECK(served.code == RMP_FULL && served.copy_a == RMP_LOST, "%s", rmp_code_text(served.code));
    started = rmp_net_start(&master.net, &start, line_of, SLAVES, NULL, 0, 300000);
    TIMED(started.code == RMP_GOES_ON, "%s", rmp_code_text(started.code));
    started = rmp_net_start(&master.net, &start, line_of, SLAVES, NULL, 0, 300000);
    TIMED(started.code == RMP_BAD_ANSWER && started.step == RMP_STEP_STATION, "%u", started.step);
    started = rmp_net_start(&master.net, &start, line_of, SLAVES, NULL, 0, 300000);
    TIMED(started.code == RMP_NOT_UNDER_WAY, "%s", rmp_code_text(started.code));
    end_with(&master, line);
}

/* ---- */

static int count_of_tests;
static char **tests;

/* Whether a test is asked for. */
static int is_asked(const char *name) {
    int found = count_of_tests == 0;
    for (int k = 0; k < count_of_tests; k++)
        found |= strcmp(tests[k], name) == 0;
    return found;
}

static void on_its_own_line(unsigned cycles) {
    if (is_asked("wrong"))
        wrong_ends();
    if (is_asked("wrong"))
        wrong_items();
    if (is_asked("whole"))
        ATTEMPT(whole());
    if (is_asked("frames"))
        ATTEMPT(frames());
    if (is_asked("mixed"))
        ATTEMPT(mixed(cycles / 10 + 100));
    if (is_asked("mute"))
        ATTEMPT(mute(0));
    if (is_asked("mute"))
        ATTEMPT(mute(1));
    if (is_asked("slow"))
        ATTEMPT(slow());
    if (is_asked("refused"))
        ATTEMPT(refused());
    if (is_asked("failing"))
        ATTEMPT(failing(RMP_NET_A));
    if (is_asked("failing"))
        ATTEMPT(failing(RMP_NET_B));
    if (is_asked("silence"))
        ATTEMPT(silence());
    if (is_asked("limit"))
        ATTEMPT(limit());
    if (is_asked("talks"))
        ATTEMPT(talks());
}

int main(int count, char **words) {
    unsigned cycles = count > 2 ? (unsigned)atoi(words[2]) : 1000;
    count_of_tests = count > 3 ? count - 3 : 0;
    tests = words + 3;
    on_its_own_line(cycles);
    if (count > 1 && strcmp(words[1], "-") != 0 && is_asked("links"))
        ATTEMPT(links(words[1]));
    if (count > 1 && strcmp(words[1], "-") != 0 && is_asked("losses"))
        ATTEMPT(losses(words[1], cycles));
    return failed;
}
