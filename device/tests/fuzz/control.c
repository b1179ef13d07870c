/* Requests at the control socket (device/control.c and requests.c). An input has requests, separated by empty lines.
 * Two clients make them by turns. */
#define _GNU_SOURCE
#include "fuzz.h"
#include <fcntl.h>
#include <string.h>
#include <sys/socket.h>

enum { CALLERS = 2 };

static struct device *device;
static struct input input;
static size_t answers;

/* The next request. macsecd puts a zero after it. */
ssize_t __wrap_recv(int socket, void *buffer, size_t room, int flags) {
    const uint8_t *end = memmem(input.at, input.left, "\n\n", 2);
    size_t length = end == NULL ? input.left : (size_t)(end - input.at);
    const uint8_t *octets = input.at;
    (void)socket, (void)flags;
    input.at += end == NULL ? length : length + 2;
    input.left -= end == NULL ? length : length + 2;
    return (ssize_t)fuzz_fill(buffer, room, octets, length, 1);
}

ssize_t __wrap_send(int socket, const void *octets, size_t length, int flags) {
    (void)socket, (void)flags;
    fuzz_require(length > 0, "an answer is empty");
    fuzz_require(memchr(octets, '\0', length) == NULL, "an answer has a zero");
    answers++;
    return (ssize_t)length;
}

/* Requests may do everything. */
int LLVMFuzzerInitialize(int *count, char ***arguments) {
    (void)count, (void)arguments;
    device = fuzz_device();
    device->config.limits = (struct limits){ true, true, true, true, true, true, 16, UINT64_MAX };
    return 0;
}

/* No request has changed what the next input finds, except the journal. */
static void clear(struct device *d) {
    endpoint_close(d);
    port_open(d);
    memset(&d->history, 0, sizeof d->history);
}

int LLVMFuzzerTestOneInput(const uint8_t *octets, size_t length) {
    struct device *d = device;
    size_t asked = 0;
    input = (struct input){ octets, length };
    answers = 0;
    for (int caller = 0; input.left > 0; caller = (caller + 1) % CALLERS) {
        int *client = &d->control.clients[caller];
        if (*client < 0)
            *client = open("/dev/null", O_RDONLY | O_CLOEXEC);
        fuzz_require(*client >= 0, "/dev/null");
        asked += control_answer(d, caller);
    }
    fuzz_require(answers == asked, "a request has no answer, or two");
    clear(d);
    return 0;
}
