#define _GNU_SOURCE
#include "fuzz.h"
#include <errno.h>
#include <fcntl.h>
#include <sanitizer/asan_interface.h>
#include <stdio.h>
#include <stdlib.h>
#include <string.h>
#include <unistd.h>

size_t input_take(struct input *i, void *to, size_t length) {
    size_t taken = length < i->left ? length : i->left;
    memset(to, 0, length);
    if (taken > 0)
        memcpy(to, i->at, taken);
    i->at += taken;
    i->left -= taken;
    return taken;
}

size_t input_number(struct input *i) {
    uint8_t octets[2];
    (void)input_take(i, octets, sizeof octets);
    return (size_t)octets[0] << 8 | octets[1];
}

size_t fuzz_fill(void *buffer, size_t room, const uint8_t *octets, size_t length, size_t more) {
    if (length > room)
        length = room;
    ASAN_UNPOISON_MEMORY_REGION(buffer, room);
    if (length > 0)
        memcpy(buffer, octets, length);
    if (length + more < room)
        ASAN_POISON_MEMORY_REGION((char *)buffer + length + more, room - length - more);
    return length;
}

void fuzz_require(bool holds, const char *what) {
    if (holds)
        return;
    fprintf(stderr, "WRONG: %s\n", what);
    abort();
}

void fuzz_write(const char *variable, const char *file, const uint8_t *octets, size_t length) {
    char path[256], what[512];
    int descriptor;
    errno = 0;
    snprintf(path, sizeof path, "%s/%s", getenv(variable), file);
    descriptor = open(path, O_WRONLY | O_CREAT | O_TRUNC | O_CLOEXEC, 0600);
    if (descriptor < 0 || write(descriptor, octets, length) != (ssize_t)length) {
        snprintf(what, sizeof what, "an input can't be written: %s: %s", path, strerror(errno));
        fuzz_require(false, what);
    }
    (void)close(descriptor);
}

struct device *fuzz_device(void) {
    static struct device device = { .name = "fuzz", .handles = { MACSEC_ENDPOINT_INIT, MACSEC_ENDPOINT_INIT } };
    struct device *d = &device;
    messages_name(d->name);
    fuzz_require(numbers_create(d->name) == 0, "no journal is made: STATE_DIRECTORY has one");
    fuzz_require(numbers_open(&d->numbers, d->name, "", &d->counts) == 0, "the journal can't be opened");
    d->endpoint = &d->handles[0];
    numbers_begin(&d->numbers, d->endpoint);
    d->config.max_frame = MACSEC_FRAME_MAX;
    d->link.socket = -1;
    d->link.index = 1;
    d->link.mtu = 1500;
    memcpy(d->link.name, "link", sizeof "link");
    d->tap = (struct tap){ .file = -1, .name = "tap" };
    d->rtnetlink.socket = -1;
    for (int i = 0; i < CLIENTS; i++)
        d->control.clients[i] = -1;
    port_open(d);
    return d;
}
