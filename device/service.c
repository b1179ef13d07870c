/* The service manager: systemd's protocol for services, of a datagram with an assignment. A thread of its own has the
 * socket, which could send to other programs too: the thread that has the endpoint may only say what to send. */
#include "system.h"
#include <sys/eventfd.h>
#include <sys/un.h>

/* Octets of the thread's stack. */
enum { STACK = 128 * 1024 };

/* What is sent. Of each one the eventfd counts in so many bits how often it is due. */
enum { READY, WATCHDOG, STOPPING, ASSIGNMENTS };
static const char *const assignments[ASSIGNMENTS] = { "READY=1", "WATCHDOG=1", "STOPPING=1" };
enum { BITS = 16 };

int service_open(struct service *s) {
    struct sockaddr_un address = { .sun_family = AF_UNIX };
    const char *path = getenv("NOTIFY_SOCKET");
    size_t length = path == NULL ? 0 : strlen(path);
    s->socket = s->events = -1;
    if (length == 0)
        return 0;
    if ((path[0] != '/' && path[0] != '@') || length >= sizeof address.sun_path)
        return message_wrong("NOTIFY_SOCKET names no socket");
    memcpy(address.sun_path, path, length);
    if (path[0] == '@')
        address.sun_path[0] = '\0'; /* a name that is no file's */
    s->socket = socket(AF_UNIX, SOCK_DGRAM | SOCK_CLOEXEC, 0);
    if (s->socket >= 0 && connect(s->socket, (const struct sockaddr *)&address,
                                  (socklen_t)(offsetof(struct sockaddr_un, sun_path) + length)) == 0)
        return 0;
    return message_of_errno("NOTIFY_SOCKET");
}

/* If the manager does not get it, its watchdog acts. The watchdog begins with READY=1, so that one waits. */
static void tell(const struct service *s, unsigned what) {
    (void)send(s->socket, assignments[what], strlen(assignments[what]),
               what == READY ? MSG_NOSIGNAL : MSG_NOSIGNAL | MSG_DONTWAIT);
}

static void *work(void *argument) {
    struct service *s = argument;
    uint64_t due = 0;
    s->confined = confine_calls(SERVICE_THREAD, s->events, s->socket);
    (void)sem_post(&s->begun);
    while (due >> STOPPING * BITS == 0 && TEMP_FAILURE_RETRY(read(s->events, &due, sizeof due)) == (ssize_t)sizeof due)
        for (unsigned what = 0; what < ASSIGNMENTS; what++)
            if ((due >> what * BITS & ((1U << BITS) - 1)) != 0)
                tell(s, what);
    return NULL;
}

int service_start(struct service *s) {
    if (s->socket < 0)
        return 0;
    s->events = eventfd(0, EFD_CLOEXEC);
    if (s->events < 0 || sem_init(&s->begun, 0, 0) != 0)
        return message_of_errno("the thread for the service manager");
    errno = thread_start(&s->thread, NULL, STACK, work, s);
    if (errno != 0)
        return message_of_errno("the thread for the service manager");
    while (sem_wait(&s->begun) != 0)
        ; /* a signal came */
    return s->confined;
}

void service_notify(const struct service *s, const char *assignment) {
    for (unsigned what = 0; s->events >= 0 && what < ASSIGNMENTS; what++)
        if (strcmp(assignment, assignments[what]) == 0)
            (void)eventfd_write(s->events, (uint64_t)1 << what * BITS); /* it can't be full */
}

void service_close(const struct service *s) {
    if (s->events >= 0)
        (void)pthread_join(s->thread, NULL); /* after STOPPING=1 it ends */
}
