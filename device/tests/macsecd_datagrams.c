/* Sends datagrams as fast as it can, for the test macsecd --cores:
 *
 *     datagrams SECONDS ADDRESS PORT OCTETS
 *
 * TAP drops those for which its queue has no space. */
#define _GNU_SOURCE
#include <arpa/inet.h>
#include <errno.h>
#include <netinet/in.h>
#include <stdint.h>
#include <stdio.h>
#include <stdlib.h>
#include <string.h>
#include <sys/socket.h>
#include <time.h>

/* How many datagrams a call sends, and the most octets of one. */
enum { AT_ONCE = 64, LONGEST = 9000 };

static double now(void) {
    struct timespec t;
    (void)clock_gettime(CLOCK_MONOTONIC, &t); /* there is such a clock */
    return (double)t.tv_sec + (double)t.tv_nsec / 1e9;
}

int main(int count, char **words) {
    static uint8_t octets[LONGEST];
    struct mmsghdr headers[AT_ONCE];
    struct iovec part = { octets, 0 };
    struct sockaddr_in to = { .sin_family = AF_INET };
    int it = socket(AF_INET, SOCK_DGRAM | SOCK_CLOEXEC, 0);
    double until;
    if (count != 5 || it < 0 || inet_pton(AF_INET, words[2], &to.sin_addr) != 1)
        return 2;
    until = now() + strtod(words[1], NULL);
    to.sin_port = htons((uint16_t)strtoul(words[3], NULL, 10));
    part.iov_len = strtoul(words[4], NULL, 10);
    if (part.iov_len > LONGEST || connect(it, (const struct sockaddr *)&to, sizeof to) != 0)
        return 2;
    memset(headers, 0, sizeof headers);
    for (unsigned i = 0; i < AT_ONCE; i++) {
        headers[i].msg_hdr.msg_iov = &part;
        headers[i].msg_hdr.msg_iovlen = 1;
    }
    while (now() < until)
        if (sendmmsg(it, headers, AT_ONCE, 0) < 0 && errno != ENOBUFS && errno != ECONNREFUSED) {
            perror("sendmmsg");
            return 1;
        }
    return 0;
}
