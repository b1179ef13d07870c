/* A slow disk, for the test macsecd: each synchronization takes as many milliseconds as SLOW says, if there is no
 * SLOW_FILE or if there is a file of that name. It is linked with macsecd, or loaded before it. The thread of the
 * journal may not sleep, so it waits for a lock. With HURRY in the environment, a poll of no file does not wait. */
#define _GNU_SOURCE
#include <poll.h>
#include <pthread.h>
#include <stdlib.h>
#include <sys/stat.h>
#include <sys/syscall.h>
#include <time.h>
#include <unistd.h>

static void wait_long(void) {
    static pthread_mutex_t lock = PTHREAD_MUTEX_INITIALIZER;
    static pthread_cond_t never = PTHREAD_COND_INITIALIZER;
    const char *text = getenv("SLOW"), *name = getenv("SLOW_FILE");
    long left = text == NULL ? 0 : strtol(text, NULL, 10);
    struct timespec end;
    struct stat status;
    if (name != NULL && stat(name, &status) != 0)
        return;
    (void)clock_gettime(CLOCK_REALTIME, &end);
    end.tv_sec += left / 1000;
    end.tv_nsec += left % 1000 * 1000000;
    if (end.tv_nsec >= 1000000000) {
        end.tv_nsec -= 1000000000;
        end.tv_sec++;
    }
    (void)pthread_mutex_lock(&lock);
    while (left > 0 && pthread_cond_timedwait(&never, &lock, &end) == 0)
        ;
    (void)pthread_mutex_unlock(&lock);
}

int fdatasync(int file) {
    wait_long();
    return (int)syscall(SYS_fdatasync, file);
}

int fsync(int file) {
    wait_long();
    return (int)syscall(SYS_fsync, file);
}

int poll(struct pollfd *files, nfds_t count, int milliseconds) {
    return (int)syscall(SYS_poll, files, count, getenv("HURRY") != NULL && count == 0 ? 0 : milliseconds);
}
