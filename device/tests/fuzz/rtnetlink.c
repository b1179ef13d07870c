/* Reports of rtnetlink (device/rtnetlink.c). An input has messages: an octet for the sender (0: the system; 1: another
 * process; 2: no message, since the system has dropped some), the length in two octets, and the message. */
#define _GNU_SOURCE
#include "fuzz.h"
#include <errno.h>
#include <linux/if_tun.h>
#include <linux/netlink.h>
#include <stdarg.h>
#include <sys/ioctl.h>
#include <sys/socket.h>

enum { PROCESS = 1, DROPPED = 2 };

static struct device *device;
static struct input input;
static bool has_carrier;

ssize_t __wrap_recvfrom(int socket, void *buffer, size_t room, int flags, struct sockaddr *from, socklen_t *length) {
    uint8_t sender;
    size_t count;
    (void)socket, (void)flags;
    if (input_take(&input, &sender, 1) == 0 || sender == DROPPED) {
        errno = sender == DROPPED ? ENOBUFS : EAGAIN;
        return -1;
    }
    fuzz_require(*length >= sizeof(struct sockaddr_nl), "there is no space for the sender");
    *(struct sockaddr_nl *)from = (struct sockaddr_nl){ .nl_family = AF_NETLINK, .nl_pid = sender == PROCESS };
    count = input_number(&input);
    if (count > input.left)
        count = input.left;
    input.at += count;
    input.left -= count;
    return (ssize_t)fuzz_fill(buffer, room, input.at - count, count, 0);
}

/* Questions get no answer. */
ssize_t __wrap_send(int socket, const void *octets, size_t length, int flags) {
    (void)socket, (void)octets, (void)flags;
    return (ssize_t)length;
}

int __wrap_ioctl(int file, unsigned long request, ...) {
    va_list arguments;
    (void)file;
    va_start(arguments, request);
    if (request == TUNSETCARRIER)
        has_carrier = *va_arg(arguments, const int *) != 0;
    va_end(arguments);
    return request == TUNSETCARRIER ? 0 : -1;
}

int __wrap_setsockopt(int socket, int level, int option, const void *value, socklen_t length) {
    (void)socket, (void)level, (void)option, (void)value, (void)length;
    return 0;
}

int LLVMFuzzerInitialize(int *count, char ***arguments) {
    (void)count, (void)arguments;
    device = fuzz_device();
    return 0;
}

int LLVMFuzzerTestOneInput(const uint8_t *octets, size_t length) {
    input = (struct input){ octets, length };
    device->link.up = device->rtnetlink.lost = false;
    device->link.promiscuous = false;
    device->port.off = false;
    device->port.ticks = 0;
    (void)rtnetlink_read(device);
    fuzz_require(rtnetlink_tick(device), "a second is not counted");
    fuzz_require(has_carrier == device->link.up, "TAP is not as LINK is");
    input = (struct input){ octets, length }; /* the same, as what is known of the host's devices */
    device->over.asked = true;
    device->over.number = 0;
    over_read(device);
    return 0;
}
