/* Counts how often macsecd waits for events, and prints that on standard error when it ends. It is linked with
 * --wrap=epoll_wait. */
#include <stdio.h>
#include <sys/epoll.h>

int __real_epoll_wait(int file, struct epoll_event *events, int count, int limit);
int __wrap_epoll_wait(int file, struct epoll_event *events, int count, int limit);

static unsigned waits;

int __wrap_epoll_wait(int file, struct epoll_event *events, int count, int limit) {
    waits++;
    return __real_epoll_wait(file, events, count, limit);
}

__attribute__((destructor)) static void end(void) {
    fprintf(stderr, "waits %u\n", waits);
}
