/* Cycles of a millisecond in a loop that is not the library's: epoll waits for both ports and for two timers,
 * and nothing else waits. The line and its commands are those of cycle.c, and so is what is not here (C11).
 * In a whole ring each copy comes at the other port: by that a broken cable is told here, and its mending. */
#include "rummymaple_net.h"
#include <signal.h>
#include <stdio.h>
#include <sys/epoll.h>
#include <sys/timerfd.h>

enum { SLAVES = 5, PERIOD = 1000000 };
static volatile sig_atomic_t ended;
static void end(int signal_number) { ended = signal_number; }

static void set(int timer, uint64_t nanoseconds, uint64_t period) { /* 0 stops it */
    struct itimerspec time = {rmp_net_timespec(period), rmp_net_timespec(nanoseconds)};
    timerfd_settime(timer, 0, &time, NULL);
}

int main(int count, char **words) {
    static uint8_t image[2 * SLAVES], waiting[2 * SLAVES];
    struct rmp_item items[] = {{0x10000, 0, SLAVES, RMP_LWR, SLAVES, 0, 0, 0},
                               {0x20000, SLAVES, SLAVES, RMP_LRD, SLAVES, 0, 0, 0}};
    struct rmp_net_work work = {.items = items, .n = 2, .image = image, .waiting = waiting, .image_size = 10};
    struct rmp_net net;
    int error = rmp_net_open_udp(&net, count > 1 ? words[1] : "127.0.0.1:34980",
                                 count > 2 ? words[2] : "127.0.0.1:34981");
    unsigned long verdicts[] = {0, 0, 0};
    int loop = epoll_create1(0), was_whole = -1;
    int period = timerfd_create(CLOCK_MONOTONIC, TFD_NONBLOCK), trip = timerfd_create(CLOCK_MONOTONIC, 0);
    const int watched[] = {period, trip, net.ports[RMP_NET_A].socket, net.ports[RMP_NET_B].socket};
    struct epoll_event event = {.events = EPOLLIN};
    for (int k = 0; !error && k < 4; k++)
        error = epoll_ctl(loop, EPOLL_CTL_ADD, watched[k], &event) ? errno : 0;
    if (error)
        return fprintf(stderr, "loop: %s\n", strerror(error)), 3;
    signal(SIGINT, end);
    signal(SIGTERM, end);
    setlinebuf(stdout);
    for (set(period, 1, PERIOD); !ended;) {
        uint64_t times;
        int was_under_way = net.ended == RMP_NET_UNDER_WAY;
        epoll_wait(loop, &event, 1, -1);
        struct rmp_net_ran ran = rmp_net_cycle_look(&net, &work);
        if (was_under_way && ran.ended != RMP_NET_UNDER_WAY) {
            verdicts[ran.code]++; /* no code above RMP_OVER comes of these items; image + SLAVES are inputs */
            int is_whole = net.copies[RMP_NET_A].port == RMP_NET_B && net.copies[RMP_NET_B].port == RMP_NET_A;
            if (ran.missing == 0 && is_whole != was_whole)
                printf("good so far %lu, cable: %s\n", verdicts[RMP_GOOD], is_whole ? "whole" : "broken");
            was_whole = ran.missing ? was_whole : is_whole;
        }
        if (net.ended != RMP_NET_UNDER_WAY && read(period, &times, sizeof times) > 0) {
            memset(image, (int)(verdicts[RMP_GOOD] & 0xFF), SLAVES); /* the outputs of this cycle */
            rmp_net_cycle_begin(&net, &work, 800);
        }
        set(trip, rmp_net_left(&net), 0);
    }
    rmp_net_close(&net);
    return printf("good %lu, short %lu, over %lu\n", verdicts[0], verdicts[1], verdicts[2]) < 0;
}
