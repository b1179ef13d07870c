/* Sends frames at a rate, for the checks `replays`, `disk` and `flood` of the test macsecd.
 *
 *     macsecd_frames sealed DEVICE KEY FIRST COUNT RATE AN    frames of 64 channels under one key, which are sealed
 *                                                             here: packet numbers from FIRST on, each by all channels
 *     macsecd_frames plain DEVICE COUNT RATE                  frames of a client
 *     macsecd_frames forged DEVICE SCI LENGTH COUNT RATE      frames of so many octets with this SCI, association 0, a
 *                                                             high packet number, and an ICV of zeros
 *
 * The SCI of channel C is 0200000001 C 0001. The same arguments give the same frames, so that they can serve as
 * recorded ones. It prints how many frames were sent, and how many the device did not take. */
#define _GNU_SOURCE
#include "macsec.h"
#include <net/if.h>
#include <netpacket/packet.h>
#include <stdio.h>
#include <stdlib.h>
#include <string.h>
#include <sys/socket.h>
#include <time.h>
#include <unistd.h>

enum { HEADER = 12, TAG = 16, DATA = 46, ICV = 16, CHANNELS = 64, LENGTH = HEADER + TAG + DATA + ICV };

/* The octets of the longest forged frame, and how many equal frames one call sends. */
enum { LONGEST = 9216, BATCH = 64 };

static const uint8_t addresses[HEADER] = { 0xff, 0xff, 0xff, 0xff, 0xff, 0xff, 2, 0, 0, 0, 0, 9 };
static unsigned long sent, refused;

static void fail(const char *what) {
    perror(what);
    exit(1);
}

static int open_device(const char *name) {
    struct sockaddr_ll address = { .sll_family = AF_PACKET, .sll_ifindex = (int)if_nametoindex(name) };
    int file = socket(AF_PACKET, SOCK_RAW | SOCK_CLOEXEC, 0);
    if (file < 0 || address.sll_ifindex == 0 || bind(file, (const struct sockaddr *)&address, sizeof address) != 0)
        fail(name);
    return file;
}

static void read_key(const char *text, macsec_sak *key) {
    memset(key, 0, sizeof *key);
    key->suite = MACSEC_SUITE_GCM_AES_128;
    key->length = 16;
    for (int i = 0; i < 16; i++) {
        const char pair[3] = { text[2 * i], text[2 * i + 1], 0 };
        key->bytes[i] = (uint8_t)strtoul(pair, NULL, 16);
    }
}

/* A frame of a channel. Its data begin with an EtherType, the channel and the packet number. */
static void seal(const macsec_sak *key, unsigned channel, unsigned an, uint32_t number, uint8_t frame[LENGTH]) {
    const uint8_t sci[8] = { 2, 0, 0, 0, 1, (uint8_t)channel, 0, 1 };
    const uint8_t pn[4] = { (uint8_t)(number >> 24), (uint8_t)(number >> 16), (uint8_t)(number >> 8), (uint8_t)number };
    const uint8_t tag[TAG] = { 0x88, 0xe5, (uint8_t)(0x2c | an), DATA };
    const uint8_t type[3] = { 0x88, 0xb5, (uint8_t)channel };
    memset(frame, 0, LENGTH);
    memcpy(frame, addresses, HEADER);
    memcpy(frame + HEADER, tag, TAG);
    memcpy(frame + HEADER + 4, pn, sizeof pn);
    memcpy(frame + HEADER + 8, sci, sizeof sci);
    memcpy(frame + HEADER + TAG, type, sizeof type);
    memcpy(frame + HEADER + TAG + sizeof type, pn, sizeof pn);
    if (macsec_seal(key, sci, number, true, HEADER + TAG, frame, LENGTH) != MACSEC_OK)
        exit(1);
}

static void give(int file, const uint8_t *frame, size_t length) {
    if (send(file, frame, length, 0) == (ssize_t)length)
        sent++;
    else
        refused++;
}

/* Waits until so many frames are due. */
static void wait_for(const struct timespec *began, unsigned long frames, unsigned long rate) {
    struct timespec due = *began;
    due.tv_sec += (time_t)(frames / rate);
    due.tv_nsec += (long)(frames % rate * 1000000000UL / rate);
    if (due.tv_nsec >= 1000000000L) {
        due.tv_nsec -= 1000000000L;
        due.tv_sec++;
    }
    (void)clock_nanosleep(CLOCK_MONOTONIC, TIMER_ABSTIME, &due, NULL);
}

static void send_sealed(char **words, const struct timespec *began) {
    uint8_t frame[LENGTH];
    macsec_sak key;
    uint32_t first = (uint32_t)strtoul(words[2], NULL, 10);
    unsigned long count = strtoul(words[3], NULL, 10), rate = strtoul(words[4], NULL, 10);
    unsigned an = (unsigned)strtoul(words[5], NULL, 10) & 3;
    int file = open_device(words[0]);
    read_key(words[1], &key);
    for (unsigned long i = 0; i < count; i++)
        for (unsigned channel = 0; channel < CHANNELS; channel++) {
            if (channel % 16 == 0)
                wait_for(began, i * CHANNELS + channel, rate);
            seal(&key, channel, an, first + (uint32_t)i, frame);
            give(file, frame, LENGTH);
        }
}

/* Gives the device so many equal frames. */
static void give_equal(int file, uint8_t *frame, size_t length, unsigned count) {
    struct mmsghdr headers[BATCH];
    struct iovec part = { frame, length };
    memset(headers, 0, sizeof headers);
    for (unsigned i = 0; i < count; i++) {
        headers[i].msg_hdr.msg_iov = &part;
        headers[i].msg_hdr.msg_iovlen = 1;
    }
    for (unsigned at = 0; at < count;) {
        int taken = sendmmsg(file, headers + at, count - at, 0);
        sent += taken > 0 ? (unsigned)taken : 0;
        refused += taken <= 0;
        at += taken > 0 ? (unsigned)taken : 1;
    }
}

static void send_equal(const char *device, uint8_t *frame, size_t length, char **words, const struct timespec *began) {
    unsigned long count = strtoul(words[0], NULL, 10), rate = strtoul(words[1], NULL, 10);
    int file = open_device(device);
    for (unsigned long i = 0; i < count; i += BATCH) {
        wait_for(began, i, rate);
        give_equal(file, frame, length, count - i < BATCH ? (unsigned)(count - i) : BATCH);
    }
}

static void send_plain(char **words, const struct timespec *began) {
    uint8_t frame[HEADER + DATA + 2] = { 0 };
    memcpy(frame, addresses, HEADER);
    frame[HEADER] = 0x88;
    frame[HEADER + 1] = 0xb5;
    send_equal(words[0], frame, sizeof frame, words + 1, began);
}

static void send_forged(char **words, const struct timespec *began) {
    static uint8_t frame[LONGEST];
    unsigned long length = strtoul(words[2], NULL, 10), sci = strtoul(words[1], NULL, 16);
    const uint8_t tag[TAG - 8] = { 0x88, 0xe5, 0x2c, 0, 0xc0 };
    if (length < LENGTH + 2 || length > LONGEST)
        exit(2);
    memcpy(frame, addresses, HEADER);
    memcpy(frame + HEADER, tag, sizeof tag);
    for (int i = 0; i < 8; i++)
        frame[HEADER + TAG - 1 - i] = (uint8_t)(sci >> 8 * i);
    send_equal(words[0], frame, length, words + 3, began);
}

int main(int count, char **words) {
    struct timespec began;
    (void)clock_gettime(CLOCK_MONOTONIC, &began);
    if (count == 8 && strcmp(words[1], "sealed") == 0)
        send_sealed(words + 2, &began);
    else if (count == 5 && strcmp(words[1], "plain") == 0)
        send_plain(words + 2, &began);
    else if (count == 7 && strcmp(words[1], "forged") == 0)
        send_forged(words + 2, &began);
    else
        return 2;
    return printf("%lu %lu\n", sent, refused) < 0;
}
