/* Sends datagrams of another run to ports of this machine, in turn, so many a second to each, until it is told to end; then it says
 * how many there were.
 *
 *   flood RATE PORT.. */
#include <arpa/inet.h>
#include <signal.h>
#include <stdint.h>
#include <stdio.h>
#include <stdlib.h>
#include <sys/socket.h>
#include <time.h>

static volatile sig_atomic_t ends;

static void end(int number) { ends = number; }

static double now(void) {
    struct timespec at;
    clock_gettime(CLOCK_MONOTONIC, &at);
    return at.tv_sec + at.tv_nsec / 1e9;
}

int main(int count, char **words) {
    /* A count, version 01, of a run that none of them has. */
    static const uint8_t frame[26] = {0x44, 0x50, 1, 2, 0xff, 0xff, 0xff, 0xff, 1, 0};
    if (count < 3) return 2;
    double rate = atof(words[1]);
    int door = socket(AF_INET, SOCK_DGRAM, 0);
    uint64_t sent = 0;
    signal(SIGTERM, end);
    double begun = now();
    while (!ends) {
        uint64_t due = (now() - begun) * rate;
        for (; sent < due && !ends; ++sent)
            for (int k = 2; k < count; ++k) {
                struct sockaddr_in at = {.sin_family = AF_INET, .sin_port = htons(atoi(words[k])), .sin_addr.s_addr = htonl(INADDR_LOOPBACK)};
                sendto(door, frame, sizeof frame, 0, (struct sockaddr *)&at, sizeof at);
            }
        nanosleep(&(struct timespec){0, 200000}, NULL);
    }
    printf("%llu %f\n", (unsigned long long)sent, now() - begun);
    return 0;
}
