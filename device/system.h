/* What macsecd uses of the system for itself: standard error, the service manager, memory and rights. */
#ifndef SYSTEM_H
#define SYSTEM_H

/* Each header of the device includes this one first, so no file names these headers of the C library again. */
#ifndef _GNU_SOURCE
#define _GNU_SOURCE
#endif
#include "macsec.h"
#include <errno.h>
#include <fcntl.h>
#include <pthread.h>
#include <semaphore.h>
#include <stdbool.h>
#include <stddef.h>
#include <stdint.h>
#include <stdio.h>
#include <stdlib.h>
#include <string.h>
#include <sys/ioctl.h>
#include <sys/socket.h>
#include <sys/stat.h>
#include <sys/types.h>
#include <time.h>
#include <unistd.h>

/* Exit statuses: the system refused something, or LINK or TAP is gone; the arguments or the configuration are wrong.
 * And of --own-tap: only the deletion of TAP takes it from another user. A call that opens, makes, enters, starts,
 * locks, compares or confines something returns 0, or the exit status after a message. */
enum { ENDS_FAILED = 1, ENDS_WRONG = 2, ENDS_TAKEN = 3 };

/* Makes a call that gives 0 or an exit status. Then the caller returns this status. */
#define RETURN_IF_FAILED(call)                                                                                         \
    do {                                                                                                               \
        int ends_with = (call);                                                                                        \
        if (ends_with != 0)                                                                                            \
            return ends_with;                                                                                          \
    } while (0)

/* 1 for sanitizers and valgrind, which open files, make other calls, and take ten times as long. */
#ifndef MACSECD_UNFILTERED
#define MACSECD_UNFILTERED 0
#endif

/* Are these the same file, folder or namespace? */
static inline bool is_same_file(const struct stat *a, const struct stat *b) {
    return a->st_dev == b->st_dev && a->st_ino == b->st_ino;
}

/* The time of a clock that there is, in microseconds. */
static inline int64_t clock_now(clockid_t clock) {
    struct timespec t;
    (void)clock_gettime(clock, &t);
    return (int64_t)t.tv_sec * 1000000 + t.tv_nsec / 1000;
}

/* Starts a thread with a stack of so many octets, which the system makes if `stack` is NULL. Returns 0 or an errno. */
static inline int thread_start(pthread_t *thread, void *stack, size_t size, void *(*work)(void *), void *argument) {
    pthread_attr_t attributes;
    int error = pthread_attr_init(&attributes);
    if (error != 0)
        return error;
    error =
        stack != NULL ? pthread_attr_setstack(&attributes, stack, size) : pthread_attr_setstacksize(&attributes, size);
    if (error == 0)
        error = pthread_create(thread, &attributes, work, argument);
    (void)pthread_attr_destroy(&attributes);
    return error;
}

/* ---- messages.c: what macsecd says on standard error ---- */

/* Names the device in the messages that follow. */
void messages_name(const char *name);
/* Makes the messages that follow without waiting. What standard error does not take is dropped, and a later message
 * says how many lines that were. To be called before anything is opened. */
void messages_open(void);
/* Prints a line. No frame causes one. A line that comes again and again is printed once a minute, with its count. */
void message(const char *form, ...) __attribute__((format(printf, 1, 2)));
/* The same of a fault of what macsecd was given. Gives ENDS_WRONG. */
#define message_wrong(...) (message(__VA_ARGS__), ENDS_WRONG)
/* The same of a call that failed, with the text of errno after it. Returns ENDS_FAILED. */
int message_of_errno(const char *form, ...) __attribute__((format(printf, 1, 2)));
#define message_of_memory() (message("out of memory"), ENDS_FAILED)
/* Writes what was printed to standard output. */
int messages_flush_output(void);

/* ---- service.c: what macsecd says to the service manager ---- */

struct service {
    int socket, events; /* -1: there is no service manager, or no thread yet */
    pthread_t thread;
    sem_t begun;
    int confined;
};

/* Connects to the service manager's socket, if there is one. */
int service_open(struct service *s);
/* Starts the thread that sends by it. */
int service_start(struct service *s);
/* Has it sent READY=1, WATCHDOG=1 or STOPPING=1. */
void service_notify(const struct service *s, const char *assignment);
/* To be called after STOPPING=1: waits until that was sent. */
void service_close(const struct service *s);

/* ---- memory.c: memory that is not swapped ---- */

/* Locks the stack, the variables and the heap, which is then large enough for what is allocated later. To be called
 * before keys are read, and while macsecd has capabilities. If the system refuses it, a message says so. */
void memory_lock(void);

/* ---- confine.c: what macsecd gives up ---- */

/* No core files, and no access to the memory by other processes of the same user: to be called before keys are read. */
int confine_memory(void);
/* No CAP_SYS_ADMIN: to be called when LINK's namespace was entered. */
int confine_namespace(void);
/* The user of the journal's folder if it is root, no capabilities, no new privileges, and no files except in the folder
 * of the journal: to be called before keys are used and the thread of the journal is started. Without Landlock it
 * fails, unless the configuration allows that. */
int confine_rights(int state, bool unconfined);
/* Allows only the system calls that this thread needs. `own` is the file that it alone writes to: LINK's socket, or an
 * eventfd. The manager's socket is for one thread. */
enum thread { ENDPOINT_THREAD, JOURNAL_THREAD, WORKER_THREAD, SERVICE_THREAD };
int confine_calls(enum thread thread, int own, int manager);

#endif
