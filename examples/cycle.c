/*
 * Cycles of a millisecond over a redundant line of five slaves, until Ctrl-C (C11):
 *
 *     ./ecat serve scenes/serve/bench.scene --control --set-up
 *     ./cycle 127.0.0.1:34980 127.0.0.1:34981
 *
 * Ends without a colon are network interfaces. It prints each change: the verdict, and where the cable is
 * broken; `link 2 down` and `link 2 up`, told to `ecat serve`, break it and mend it. At the end it counts.
 *
 * What is not here: a start-up. The slaves are in Op and mapped already (`--set-up`); start.c brings its
 * line up itself.
 */
#include "rummymaple_net.h"
#include <signal.h>
#include <stdio.h>

enum { SLAVES = 5, PERIOD = 1000000 };

static volatile sig_atomic_t ended;
static void end(int signal_number) { ended = signal_number; }

/* Outputs in front, inputs behind them; `expected` is of five slaves that each write, or read. */
static uint8_t image[2 * SLAVES], waiting[2 * SLAVES];
static struct rmp_item items[] = {
    {.kind = RMP_LWR, .address = 0x10000, .offset = 0, .length = SLAVES, .expected = SLAVES},
    {.kind = RMP_LRD, .address = 0x20000, .offset = SLAVES, .length = SLAVES, .expected = SLAVES},
};

int main(int count, char **words) {
    struct rmp_net net;
    unsigned long verdicts[] = {0, 0, 0}, late = 0;
    char told[80], seen[80] = "", before[80] = "";
    const char *a = count > 1 ? words[1] : "127.0.0.1:34980", *b = count > 2 ? words[2] : "127.0.0.1:34981";
    int error = strchr(a, ':') ? rmp_net_open_udp(&net, a, b) : rmp_net_open_raw(&net, a, b);
    if (error)
        return fprintf(stderr, "cycle: %s, %s: %s\n", a, b, strerror(error)), 3;
    signal(SIGINT, end);
    signal(SIGTERM, end);
    for (unsigned long k = 0, next = rmp_net_now(); !ended; k++) {
        memset(image, (int)(k & 0xFF), SLAVES); /* the outputs of this cycle */
        struct rmp_net_ran ran = rmp_net_cycle(&net, items, 2, image, waiting, sizeof image, 500);
        if (ran.code > RMP_OVER)
            return fprintf(stderr, "cycle: %s (%zu)\n", rmp_code_text(ran.code), ran.at), 3;
        verdicts[ran.code]++; /* where it is good, image[SLAVES] and on are the inputs of this cycle */
        struct rmp_located where = rmp_net_where(&net, SLAVES, 300);
        rmp_where_text(told, sizeof told, &where);
        if (strcmp(told, seen) == 0 && strcmp(told, before) != 0) /* two looks say so: no packet was lost */
            printf("cycle %lu: %s, cable: %s\n", k, rmp_code_text(ran.code), strcpy(before, told));
        fflush(stdout);
        memcpy(seen, told, sizeof told);
        for (next += PERIOD; next < rmp_net_now(); next += PERIOD)
            late++; /* a cycle whose time is over is left out */
        rmp_net_pause_until(next);
    }
    printf("good %lu, short %lu, over %lu, left out %lu\n", verdicts[RMP_GOOD], verdicts[RMP_SHORT],
           verdicts[RMP_OVER], late);
    rmp_net_close(&net);
    return 0;
}
