/* A control task: counts in the first byte of the outputs, one up in each cycle, and prints the inputs.
 *
 *     ecat master SCENE --at 127.0.0.1:34980,127.0.0.1:34981 --every 1000 --io 127.0.0.1:34990
 *     cc -std=c11 -o task examples/task.c && ./task 34990 OUTPUTS CYCLES
 *
 * OUTPUTS is how many bytes of outputs a cycle has, as `ecat master` tells at its start. docs/IO.md says what
 * stands in the packets; this machine is one whose lowest byte comes first, as theirs.
 */
#include <arpa/inet.h>
#include <stdint.h>
#include <stdio.h>
#include <stdlib.h>
#include <string.h>
#include <sys/socket.h>

enum { ORDER_HEAD = 16, REPORT_HEAD = 40, ROOM = 65536 };

int main(int words, char **word)
{
    static uint8_t order[ROOM], report[ROOM];
    struct sockaddr_in at = {.sin_family = AF_INET, .sin_addr.s_addr = htonl(INADDR_LOOPBACK)};
    int line = socket(AF_INET, SOCK_DGRAM, 0);
    uint16_t count;

    if (words != 4 || line < 0)
        return 2;
    at.sin_port = htons((uint16_t)atoi(word[1]));
    count = (uint16_t)atoi(word[2]);
    if (connect(line, (struct sockaddr *)&at, sizeof at) != 0)
        return 3;
    memcpy(order, "EcIO\1\1", 6);
    memcpy(order + 6, &count, 2);
    memset(order + 8, 0xFF, 8); /* no report is seen yet */
    for (long cycle = 0; cycle < atol(word[3]); cycle++) {
        order[ORDER_HEAD] = (uint8_t)cycle;
        if (send(line, order, ORDER_HEAD + (size_t)count, 0) < 0)
            return 3;
        ssize_t length = recv(line, report, sizeof report, 0), more = length;
        while (more >= REPORT_HEAD && (more = recv(line, report, sizeof report, MSG_DONTWAIT)) > 0)
            length = more; /* who was slow goes on with the last cycle */
        if (length < REPORT_HEAD)
            return 1;
        memcpy(order + 8, report + 8, 8); /* the number of the cycle */
        printf("end %d, inputs", report[24]);
        for (ssize_t at_byte = REPORT_HEAD; at_byte < length; at_byte++)
            printf(" %02x", report[at_byte]);
        printf("\n");
    }
    return 0;
}
