/* What requests may cost the frames: one thread has both. A client that does not own the device is not read while its
 * user owes time. So a user's requests take at most half of the thread's time, and long ones a hundredth. */
#include "device.h"

/* In microseconds. Frames wait in their queues for BRIEF without a loss. What a request takes beyond it is owed TIMES
 * times. Who owes no more than CREDIT is read, and nobody owes more than MOST. */
enum { BRIEF = 10000, TIMES = 100, CREDIT = 20000, MOST = 60000000 };

/* The account of a user. If there is none, it takes the place of the one that is paid first. */
static struct account *account_of(struct budget *b, uid_t user) {
    struct account *found = b->accounts;
    for (struct account *it = b->accounts; it < b->accounts + CLIENTS; it++) {
        if (it->user == user)
            return it;
        if (it->paid < found->paid)
            found = it;
    }
    *found = (struct account){ .user = user };
    return found;
}

void budget_begin(struct budget *b) {
    b->began = clock_now(CLOCK_MONOTONIC);
    b->used = clock_now(CLOCK_THREAD_CPUTIME_ID);
}

/* Where other programs have the processor, the client owes nothing for that in a brief request. A long one delays
 * frames for all of its time, as a wait for the journal does. */
void budget_end(struct device *d, int client, bool waited) {
    struct budget *b = &d->budget;
    struct account *it = account_of(b, d->control.user[client]);
    int64_t used = clock_now(CLOCK_THREAD_CPUTIME_ID) - b->used;
    int64_t end = clock_now(CLOCK_MONOTONIC), took = end - b->began;
    if (d->port.owner == client)
        return;
    if (waited)
        used = took < used + 1000 * LOAD_WAITS ? took : used + 1000 * LOAD_WAITS;
    it->paid = (it->paid > b->began ? it->paid : b->began) + 2 * used + (used > BRIEF ? TIMES * (took - BRIEF) : 0);
    it->paid = it->paid < end + MOST ? it->paid : end + MOST;
}

bool budget_lets(struct device *d, int client, int64_t *milliseconds) {
    int64_t owed = account_of(&d->budget, d->control.user[client])->paid - clock_now(CLOCK_MONOTONIC) - CREDIT;
    *milliseconds = owed / 1000 + 1;
    return owed <= 0 || d->port.owner == client || MACSECD_UNFILTERED;
}
