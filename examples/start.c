/* A line of two slaves is started, and cycles each millisecond until Ctrl-C; between the first cycles an
 * object is read, a frame each time, and behind the last one the slaves go to Init (C11):
 *
 *     ./ecat serve scenes/serve/line.scene --control
 *     ./start 127.0.0.1:34980 127.0.0.1:34981
 */
#include "rummymaple_net.h"
#include <signal.h>
#include <stdio.h>
enum { SLAVES = 2, PERIOD = 1000000, LIMIT = 20000, OUT = RMP_WRITES, IN = RMP_READS, BWR = 8 };
static volatile sig_atomic_t ended;
static void end(int signal_number) { ended = signal_number; }
static const struct rmp_sync_manager areas[] = {{0x1800, 32, OUT, 1, 1, 0}, {0x1880, 32, IN, 1, 1, 0},
                                                {0x1000, 1, OUT, 0, 0, 0},  {0x1100, 1, IN, 0, 0, 0}};
static const struct rmp_fmmu maps[] = {
    {0x10000, 8, 0x1000, 0, 0, OUT}, {0x10000, 8, 0x1100, 0, 0, IN}, {0x10001, 8, 0x1100, 0, 0, IN}};
static struct rmp_records line[SLAVES] = {{.station = 0x1001}, {.station = 0x1002}};
static struct rmp_item item = {.kind = RMP_LRW, .address = 0x10000, .length = SLAVES, .expected = 3 + 1};
static uint8_t image[SLAVES], waiting[SLAVES], frame[RMP_FRAME_SIZE], init[] = {RMP_INIT, 0};

int main(int count, char **words) {
    struct rmp_net net;
    unsigned long verdicts[] = {0, 0, 0};
    char told[160], seen[160] = "", before[160] = "";
    const char *a = count > 1 ? words[1] : "127.0.0.1:34980", *b = count > 2 ? words[2] : "127.0.0.1:34981";
    int error = strchr(a, ':') ? rmp_net_open_udp(&net, a, b) : rmp_net_open_raw(&net, a, b);
    for (int k = 0; k < 4 * SLAVES; k++)
        if (k != 6) /* the second slave has no outputs */
            rmp_sync_manager_record(&areas[k % 4], line[k / 4].sync_managers[k % 4]);
    for (int k = 0; k < 3; k++)
        rmp_fmmu_record(&maps[k], line[k / 2].fmmus[k % 2]);
    if (error || rmp_check(line, SLAVES).rule != RMP_FIT)
        return fprintf(stderr, "start: %s\n", error ? strerror(error) : "the line is not mapped"), 3;
    signal(SIGINT, end), signal(SIGTERM, end), setlinebuf(stdout);
    struct rmp_located where = rmp_net_where(&net, SLAVES, LIMIT);
    uint16_t down = where.cable == RMP_ONE ? (uint16_t)where.first : RMP_NO_LINK;
    struct rmp_start start = rmp_start_begin(net.form, SLAVES, down, RMP_STAGE_COUNT, RMP_STAGE_OP);
    struct rmp_started started = {.code = RMP_GOES_ON};
    while (started.code == RMP_GOES_ON && !ended)
        started = rmp_net_start(&net, &start, line, SLAVES, NULL, 0, LIMIT);
    if (rmp_started_text(told, sizeof told, &started) && started.code != RMP_GOOD)
        return fprintf(stderr, "start: %s\n", told), 3;
    struct rmp_service service = rmp_read_begin(net.form, &line[0], 0x1018, 1, 0, 64);
    for (uint64_t next = rmp_net_now(); !ended; rmp_net_pause_until(next += PERIOD)) {
        image[0] = (uint8_t)verdicts[RMP_GOOD]; /* the output of this cycle; inputs come into image too */
        verdicts[rmp_net_cycle(&net, &item, 1, image, waiting, sizeof image, 500).code]++;
        struct rmp_served served = rmp_net_serve(&net, &service, 300); /* nothing, once it is done */
        int is_done = served.code == RMP_NOT_UNDER_WAY;
        where = is_done ? rmp_net_where(&net, SLAVES, 300) : where;
        is_done ? rmp_where_text(told, sizeof told, &where) : rmp_served_text(told, sizeof told, &served);
        if (strcmp(told, before) != 0 && (!is_done || strcmp(told, seen) == 0)) /* two looks say so */
            printf("%s: %s\n", is_done ? "cable" : "object", strcpy(before, told));
        memcpy(seen, told, sizeof told);
    }
    size_t size = rmp_single(BWR, RMP_AT(0, 0x0120), init, sizeof init, frame, sizeof frame).bytes;
    rmp_net_trip(&net, frame, size, NULL, 0, LIMIT);
    rmp_net_close(&net);
    return printf("good %lu, short %lu, over %lu\n", verdicts[0], verdicts[1], verdicts[2]) < 0;
}
