/* The thread that writes the journal. The disk can take seconds to answer, and frames, requests and the watchdog do not
 * wait for it: the thread that has the endpoint gives records to this one, and gets the result later. Of the library
 * this thread calls the journal alone, and it allocates nothing. */
#include "numbers.h"
#include <sys/eventfd.h>

/* Octets of its stack. A journal's calls need less than a tenth of it. */
enum { STACK = 256 * 1024 };

/* After so many milliseconds without an order the thread looks whether another program has changed the file's length:
 * much can be sent until the next order. */
enum { LOOKS = 1000 };

static void carry_out(struct journal_writer *s) {
    int64_t began = clock_now(CLOCK_MONOTONIC);
    s->saved.good = journal_write(s->journal, s->journal->records, s->count, s->anew, &s->saved.fault) == 0;
    s->saved.seconds = (double)(clock_now(CLOCK_MONOTONIC) - began) / 1e6;
    s->looks = s->saved.good;
}

static struct timespec after(int milliseconds) {
    int64_t end = clock_now(CLOCK_MONOTONIC) + 1000 * (int64_t)milliseconds;
    return (struct timespec){ end / 1000000, end % 1000000 * 1000 };
}

/* ---- The thread ---- */

/* Waits for an order, or looks at the file. */
static void wait_for_order(struct journal_writer *s) {
    const struct timespec end = after(LOOKS);
    if (pthread_cond_clockwait(&s->changed, &s->lock, CLOCK_MONOTONIC, &end) != ETIMEDOUT || !s->looks)
        return;
    (void)pthread_mutex_unlock(&s->lock);
    s->looks = !journal_is_cut(s->journal);
    (void)pthread_mutex_lock(&s->lock);
    if (s->looks)
        return;
    s->cut = true;
    (void)eventfd_write(s->events, 1); /* its counter can't be full */
}

static void *work(void *argument) {
    struct journal_writer *s = argument;
    int confined = confine_calls(JOURNAL_THREAD, s->events, -1);
    (void)pthread_mutex_lock(&s->lock);
    s->confined = confined;
    s->begun = true;
    (void)pthread_cond_broadcast(&s->changed);
    while (!s->ends) {
        if (s->state != ORDERED) {
            wait_for_order(s);
            continue;
        }
        (void)pthread_mutex_unlock(&s->lock);
        carry_out(s);
        (void)pthread_mutex_lock(&s->lock);
        s->state = CARRIED_OUT;
        (void)pthread_cond_broadcast(&s->changed);
        (void)eventfd_write(s->events, 1);
    }
    (void)pthread_mutex_unlock(&s->lock);
    return NULL;
}

/* ---- Opening ---- */

int journal_writer_open(struct journal_writer *s, struct journal *journal) {
    *s = (struct journal_writer){ journal, .lock = PTHREAD_MUTEX_INITIALIZER, .changed = PTHREAD_COND_INITIALIZER };
    s->events = eventfd(0, EFD_NONBLOCK | EFD_CLOEXEC);
    return s->events >= 0 ? 0 : message_of_errno("the thread of the journal");
}

int journal_writer_start(struct journal_writer *s) {
    errno = thread_start(&s->thread, NULL, STACK, work, s);
    if (errno != 0)
        return message_of_errno("the thread of the journal");
    s->runs = true;
    (void)pthread_mutex_lock(&s->lock);
    while (!s->begun)
        (void)pthread_cond_wait(&s->changed, &s->lock);
    (void)pthread_mutex_unlock(&s->lock);
    return s->confined;
}

/* ---- Orders ---- */

void journal_writer_order(struct journal_writer *s, size_t count, bool anew) {
    (void)pthread_mutex_lock(&s->lock);
    s->count = count;
    s->anew = anew;
    s->busy = true;
    if (s->runs) {
        s->state = ORDERED;
        (void)pthread_cond_broadcast(&s->changed);
    } else {
        carry_out(s);
        s->state = CARRIED_OUT;
    }
    (void)pthread_mutex_unlock(&s->lock);
}

bool journal_writer_is_done(struct journal_writer *s, struct saved *saved) {
    uint64_t count;
    bool done;
    if (read(s->events, &count, sizeof count) < 0 && errno != EAGAIN && errno != EINTR)
        message_of_errno("the thread of the journal");
    (void)pthread_mutex_lock(&s->lock);
    done = s->state == CARRIED_OUT;
    if (done) {
        *saved = s->saved;
        s->state = IDLE;
        s->busy = false;
    }
    saved->cut = s->cut;
    s->cut = false;
    (void)pthread_mutex_unlock(&s->lock);
    return done;
}

void journal_writer_wait(struct journal_writer *s, int milliseconds) {
    const struct timespec end = after(milliseconds);
    int error = 0;
    (void)pthread_mutex_lock(&s->lock);
    while (s->state == ORDERED && error == 0)
        error = pthread_cond_clockwait(&s->changed, &s->lock, CLOCK_MONOTONIC, &end);
    (void)pthread_mutex_unlock(&s->lock);
}

bool journal_writer_close(struct journal_writer *s) {
    if (s->busy)
        return false;
    (void)pthread_mutex_lock(&s->lock);
    s->ends = true;
    (void)pthread_cond_broadcast(&s->changed);
    (void)pthread_mutex_unlock(&s->lock);
    if (s->runs)
        (void)pthread_join(s->thread, NULL);
    (void)close(s->events); /* nothing is lost if this fails */
    return true;
}
