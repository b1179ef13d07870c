/* Frames of a packet socket (device/link.c, segments.c and frames.c). An input has frames: how many octets of auxiliary
 * data there are, or 255 for none, these octets, the virtio header of 10 octets, the frame's length in two octets, and
 * the frame. */
#define _GNU_SOURCE
#include "fuzz.h"
#include <errno.h>
#include <fcntl.h>
#include <linux/if_packet.h>
#include <linux/virtio_net.h>
#include <string.h>
#include <sys/socket.h>

enum { NONE = 255 };

static struct device *device;
static struct input input;
static unsigned given;

/* Gives auxiliary data, as much of them as fits. */
static void give_control(struct msghdr *header, uint8_t length) {
    struct tpacket_auxdata data;
    struct cmsghdr about = { .cmsg_level = SOL_PACKET, .cmsg_type = PACKET_AUXDATA };
    uint8_t octets[CMSG_SPACE(sizeof data)];
    size_t most = length < sizeof data ? length : sizeof data;
    if (length == NONE) {
        header->msg_controllen = 0;
        return;
    }
    (void)input_take(&input, &data, most);
    about.cmsg_len = CMSG_LEN(most);
    memset(octets, 0, sizeof octets);
    memcpy(octets, &about, sizeof about);
    memcpy(octets + CMSG_LEN(0), &data, most);
    header->msg_controllen = fuzz_fill(header->msg_control, header->msg_controllen, octets, about.cmsg_len, 0);
}

static void give_frame(struct mmsghdr *header) {
    struct virtio_net_hdr about;
    struct iovec *parts = header->msg_hdr.msg_iov;
    uint8_t control;
    size_t length;
    (void)input_take(&input, &control, 1);
    give_control(&header->msg_hdr, control);
    (void)input_take(&input, &about, sizeof about);
    (void)fuzz_fill(parts[0].iov_base, parts[0].iov_len, (const uint8_t *)&about, sizeof about, 0);
    length = input_number(&input);
    if (length > input.left)
        length = input.left;
    header->msg_len = (unsigned)(sizeof about + fuzz_fill(parts[1].iov_base, parts[1].iov_len, input.at, length, 0));
    input.at += length;
    input.left -= length;
}

int __wrap_recvmmsg(int socket, struct mmsghdr *headers, unsigned count, int flags, struct timespec *timeout) {
    unsigned got = 0;
    (void)socket, (void)flags, (void)timeout;
    for (; got < count && input.left > 0; got++)
        give_frame(&headers[got]);
    given += got;
    errno = EAGAIN;
    return got == 0 ? -1 : (int)got;
}

/* An endpoint that delivers frames without a SecTAG. */
int LLVMFuzzerInitialize(int *count, char ***arguments) {
    static const char text[] = "end A gcm128 0200000000090001 9216 sci\nA validate disabled\n";
    uint32_t line;
    (void)count, (void)arguments;
    device = fuzz_device();
    fuzz_require(macsec_configure(device->endpoint, (const uint8_t *)text, sizeof text - 1, &line) == MACSEC_OK,
                 "there is no endpoint");
    device->tap.file = open("/dev/null", O_WRONLY | O_CLOEXEC);
    fuzz_require(device->tap.file >= 0, "/dev/null");
    device->port.off = false;
    return 0;
}

int LLVMFuzzerTestOneInput(const uint8_t *octets, size_t length) {
    struct counts *c = &device->counts;
    input = (struct input){ octets, length };
    given = 0;
    memset(c, 0, sizeof *c);
    while (frames_from_link(device) == DONE)
        ;
    fuzz_require(c->tap_out <= c->link_in && c->tap_refused == 0, "a frame is delivered twice");
    fuzz_require(c->link_too_short + c->link_too_long <= c->link_in, "refused frames are counted twice");
    return 0;
}
