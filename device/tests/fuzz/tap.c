/* Frames of TAP that lie about their segments (device/tap.c and segments.c). An input has frames: the virtio header of
 * 10 octets, the frame's length in two octets, how many octets of it are given in two, and those; the others are zero.
 * What is read is delivered to TAP, as what a peer sends is. */
#include "fuzz.h"
#include <sanitizer/asan_interface.h>

enum { FILE_OF_TAP = 1000 };

static struct device *device;
static struct input input;
static uint8_t whole[1 << 16];

ssize_t __real_read(int file, void *buffer, size_t room);
ssize_t __wrap_read(int file, void *buffer, size_t room) {
    struct described *to = buffer;
    struct virtio_net_hdr about;
    size_t length, given;
    if (file != FILE_OF_TAP)
        return __real_read(file, buffer, room);
    errno = EAGAIN;
    if (input.left == 0)
        return -1;
    (void)input_take(&input, &about, sizeof about);
    length = input_number(&input);
    given = input_number(&input);
    memset(whole, 0, length);
    (void)input_take(&input, whole, given < length ? given : length);
    (void)fuzz_fill(&to->about, sizeof to->about, (const uint8_t *)&about, sizeof about, 0);
    return (ssize_t)(sizeof about + fuzz_fill(to->octets, room - sizeof about, whole, length, 0));
}

ssize_t __real_write(int file, const void *octets, size_t length);
ssize_t __wrap_write(int file, const void *octets, size_t length) {
    const struct described *from = octets;
    if (file != FILE_OF_TAP)
        return __real_write(file, octets, length);
    length -= sizeof from->about;
    fuzz_require(from->about.gso_type == 0 || (from->about.gso_size > 0 && length > MACSEC_OVERHEAD_MAX),
                 "a joined frame has no segments");
    fuzz_require(from->about.hdr_len <= length, "a joined frame ends in its headers");
    return (ssize_t)(sizeof from->about + length);
}

int LLVMFuzzerInitialize(int *count, char ***arguments) {
    (void)count, (void)arguments;
    device = fuzz_device();
    device->tap.file = FILE_OF_TAP;
    device->tap.joins = device->tap.datagrams = true;
    return 0;
}

int LLVMFuzzerTestOneInput(const uint8_t *octets, size_t length) {
    struct tap *t = &device->tap;
    struct counts *c = &device->counts;
    struct frame frame;
    uint64_t delivered = 0;
    input = (struct input){ octets, length };
    c->tap_out = 0;
    while (tap_read(t, &frame) == DONE) {
        fuzz_require(__asan_region_is_poisoned((void *)(uintptr_t)frame.octets, frame.length) == NULL,
                     "a frame has octets that were not read");
        if (frame.length <= MACSEC_FRAME_MAX && ++delivered > 0)
            (void)tap_write(t, frame.octets, frame.length, c);
    }
    (void)tap_flush(t, c);
    fuzz_require(t->rest.at >= t->rest.of.length, "a segment is left");
    fuzz_require(c->tap_out == delivered && c->tap_refused == 0, "a frame is not counted once");
    return 0;
}
