/* Answers that wait for the journal. A request that begins or ends an association is carried out at once, and answered
 * when its records are on the disk: so a client that enables the new association then loses no frame. It does not wait
 * for ever: a disk can be slow or fail. */
#include "device.h"
#include <sys/epoll.h>

/* How many milliseconds an answer waits. A key agreement that gets none for two seconds starts again. */
enum { LONGEST = 1000 };

static int64_t now(void) {
    return clock_now(CLOCK_MONOTONIC) / 1000;
}

bool waits_keep(struct device *d, int client, const char *answer, size_t length) {
    struct waiting *w = &d->waits.clients[client];
    uint64_t ticket;
    numbers_go_on(&d->numbers, d->endpoint); /* `open` gives no order, and the mark of a key may wait for one */
    ticket = numbers_ticket(&d->numbers);
    if (numbers_is_written(&d->numbers, ticket) || length > sizeof w->answer)
        return false;
    memcpy(w->answer, answer, length);
    w->length = length;
    w->ticket = ticket;
    w->until = now() + LONGEST;
    d->waits.answers++;
    return true;
}

void waits_rest(struct device *d, int client, int64_t milliseconds) {
    d->waits.clients[client] = (struct waiting){ .until = now() + milliseconds };
    d->waits.answers++;
}

bool waits_for(const struct device *d, int client) {
    return d->waits.clients[client].until != 0;
}

void waits_client_gone(struct device *d, int client) {
    d->waits.answers -= waits_for(d, client);
    d->waits.clients[client].until = 0;
}

bool waits_send(struct device *d, int client) {
    struct waiting *w = &d->waits.clients[client];
    size_t length = w->length;
    bool is_done = length > 0 && numbers_is_written(&d->numbers, w->ticket);
    if (!waits_for(d, client) || (!is_done && now() < w->until))
        return false;
    waits_client_gone(d, client);
    return length == 0 || control_send(d, client, w->answer, length);
}

int waits_left(const struct device *d) {
    int64_t first = INT64_MAX, left;
    if (d->waits.answers == 0)
        return -1;
    for (int client = 0; client < CLIENTS; client++)
        if (waits_for(d, client) && d->waits.clients[client].until < first)
            first = d->waits.clients[client].until;
    left = first - now();
    return left < 0 ? 0 : (int)left;
}
