/* System calls that a signal interrupts, for the test macsecd: of the calls of macsecd that can wait, every third one
 * ends by EINTR and has done nothing. It is linked with --wrap. */
#define _GNU_SOURCE
#include <errno.h>
#include <stdbool.h>
#include <sys/epoll.h>
#include <sys/socket.h>
#include <unistd.h>

static bool is_interrupted(void) {
    static unsigned calls;
    if (++calls % 3 != 0)
        return false;
    errno = EINTR;
    return true;
}

#define INTERRUPT(type, name, parameters, ...)                                                                         \
    type __real_##name parameters;                                                                                     \
    type __wrap_##name parameters;                                                                                     \
    type __wrap_##name parameters {                                                                                    \
        return is_interrupted() ? -1 : __real_##name(__VA_ARGS__);                                                     \
    }

INTERRUPT(ssize_t, read, (int file, void *to, size_t length), file, to, length)
INTERRUPT(ssize_t, write, (int file, const void *from, size_t length), file, from, length)
INTERRUPT(ssize_t, pread, (int file, void *to, size_t length, off_t at), file, to, length, at)
INTERRUPT(ssize_t, pwrite, (int file, const void *from, size_t length, off_t at), file, from, length, at)
INTERRUPT(ssize_t, recv, (int file, void *to, size_t length, int flags), file, to, length, flags)
INTERRUPT(ssize_t, send, (int file, const void *from, size_t length, int flags), file, from, length, flags)
INTERRUPT(ssize_t, recvfrom, (int file, void *to, size_t length, int flags, struct sockaddr *from, socklen_t *room),
          file, to, length, flags, from, room)
INTERRUPT(int, recvmmsg, (int file, struct mmsghdr *to, unsigned count, int flags, struct timespec *limit), file, to,
          count, flags, limit)
INTERRUPT(int, sendmmsg, (int file, struct mmsghdr *from, unsigned count, int flags), file, from, count, flags)
INTERRUPT(int, epoll_wait, (int file, struct epoll_event *events, int count, int limit), file, events, count, limit)
