/* An example that repeats IVs when it is started again with the same keys. device/ has a device that does not.
 *
 *     macsec-tap CONFIG TAP LINK
 *
 * A MACsec device in user space: its client uses a TAP device, and the link is another network device. It shows how a
 * program uses the library, and no more: it keeps no packet numbers, prints no counters and takes no new keys. CONFIG
 * has the lines of docs/SCRIPT.md for one end, A: `end A ..` and then its commands. Use new keys for every run, since
 * no packet number may be used twice under one key. The MTU of TAP should be 32 octets below the MTU of LINK. */
#define _DEFAULT_SOURCE
#include "macsec.h"
#include <arpa/inet.h>
#include <fcntl.h>
#include <linux/if_packet.h>
#include <linux/if_tun.h>
#include <net/ethernet.h>
#include <net/if.h>
#include <poll.h>
#include <stdio.h>
#include <stdlib.h>
#include <string.h>
#include <sys/ioctl.h>
#include <sys/socket.h>
#include <unistd.h>

static void fail(const char *what) {
    perror(what);
    exit(1);
}

/* Creates the endpoint of CONFIG. If a command in it is refused, there is no endpoint, and the program ends. */
static void configure(macsec_endpoint *e, const char *name) {
    static uint8_t text[65536];
    FILE *file = fopen(name, "r");
    size_t length = file == NULL ? 0 : fread(text, 1, sizeof text, file);
    uint32_t line, status;
    if (file == NULL || ferror(file) || fclose(file) != 0)
        fail(name);
    status = macsec_configure(e, text, length, &line);
    memset(text, 0, sizeof text);
    if (status != MACSEC_OK) {
        fprintf(stderr, "%s: line %u: %s\n", name, (unsigned)line, macsec_status_name(status));
        exit(2);
    }
}

static int open_tap(const char *name) {
    struct ifreq request;
    int tap = open("/dev/net/tun", O_RDWR);
    memset(&request, 0, sizeof request);
    request.ifr_flags = IFF_TAP | IFF_NO_PI;
    snprintf(request.ifr_name, sizeof request.ifr_name, "%s", name);
    if (tap < 0 || ioctl(tap, TUNSETIFF, &request) < 0)
        fail(name);
    return tap;
}

/* The socket has no protocol until it is bound to LINK, so that it gets no frame of another device. */
static int open_link(const char *name) {
    int link = socket(AF_PACKET, SOCK_RAW, 0);
    struct sockaddr_ll address = { .sll_family = AF_PACKET, .sll_protocol = htons(ETH_P_ALL) };
    address.sll_ifindex = (int)if_nametoindex(name); /* 0 would mean all devices */
    if (link < 0 || address.sll_ifindex == 0 || bind(link, (struct sockaddr *)&address, sizeof address) < 0)
        fail(name);
    return link;
}

/* Takes a frame from the client, and sends the resulting frame, if any, to the link. */
static void from_client(macsec_endpoint *e, int tap, int link) {
    static uint8_t frame[MACSEC_FRAME_MAX + 1];
    macsec_sent sent;
    ssize_t length = read(tap, frame, sizeof frame);
    if (length < 0)
        fail("TAP");
    if (macsec_send(e, frame, (size_t)length, &sent) == MACSEC_OK && sent.length > 0 &&
        send(link, sent.frame, sent.length, 0) < 0)
        perror("LINK");
}

/* Takes a frame from the link, unless this host sent it, and delivers the resulting frame, if any, to the client. */
static void from_link(macsec_endpoint *e, int tap, int link) {
    static uint8_t frame[MACSEC_FRAME_MAX + 1];
    struct sockaddr_ll from;
    socklen_t room = sizeof from;
    macsec_received got;
    ssize_t length = recvfrom(link, frame, sizeof frame, 0, (struct sockaddr *)&from, &room);
    if (length < 0)
        fail("LINK");
    if (from.sll_pkttype != PACKET_OUTGOING && macsec_receive(e, frame, (size_t)length, &got) == MACSEC_OK &&
        got.delivered && write(tap, got.frame, got.length) < 0)
        perror("TAP");
}

int main(int count, char **words) {
    macsec_endpoint e = MACSEC_ENDPOINT_INIT;
    if (count != 4) {
        fprintf(stderr, "usage: macsec-tap CONFIG TAP LINK\n");
        return 2;
    }
    configure(&e, words[1]);
    struct pollfd ports[2] = { { open_tap(words[2]), POLLIN, 0 }, { open_link(words[3]), POLLIN, 0 } };
    for (;;) {
        if (poll(ports, 2, -1) < 0)
            fail("poll");
        if (ports[0].revents != 0)
            from_client(&e, ports[0].fd, ports[1].fd);
        if (ports[1].revents != 0)
            from_link(&e, ports[0].fd, ports[1].fd);
    }
}
