/* Requests of clients that make as many as they may (device/budget.c), by a clock that the test sets. It prints what
 * part of the time they take where that is wrong. */
#include "device.h"
#include <time.h>

enum { LONG = 120000000, OWNER = 2 };

static struct device device;
static int64_t time_of_clock, time_of_processor;

int __wrap_clock_gettime(clockid_t clock, struct timespec *t) {
    int64_t now = clock == CLOCK_MONOTONIC ? time_of_clock : time_of_processor;
    *t = (struct timespec){ now / 1000000, now % 1000000 * 1000 };
    return 0;
}

/* A request of a client: how long it takes and how much of that it has the processor, in microseconds; may it wait for
 * the journal? Then the least and the most that such requests take of the time, in thousandths. */
static const struct row {
    const char *what;
    int client;
    int64_t takes, has;
    bool waits;
    int64_t least, most;
} rows[] = {
    { "0.1 s", 0, 100000, 100000, true, 9, 12 },
    { "50 ms for the journal", 0, 51000, 1000, true, 9, 13 },
    { "1 ms", 0, 1000, 1000, false, 480, 505 },
    { "10 ms", 0, 10000, 10000, false, 480, 505 },
    { "1 ms, and the processor is elsewhere", 0, 200000, 1000, false, 980, 1000 },
    { "0.1 s, and the processor is elsewhere as long", 0, 200000, 100000, false, 9, 12 },
    { "a minute", 0, 60000000, 60000000, false, 480, 700 },
    { "0.1 s of the owner", OWNER, 100000, 100000, true, 1000, 1000 },
};

static bool request(const struct row *it, int64_t *rest) {
    if (!budget_lets(&device, it->client, rest))
        return false;
    budget_begin(&device.budget);
    time_of_clock += it->takes;
    time_of_processor += it->has;
    budget_end(&device, it->client, it->waits);
    return true;
}

static int64_t part_of_time(const struct row *it) {
    int64_t began = time_of_clock, taken = 0, rest;
    while (time_of_clock < began + LONG)
        if (request(it, &rest))
            taken += it->takes;
        else
            time_of_clock += 1000 * rest;
    return 1000 * taken / (time_of_clock - began);
}

int main(void) {
    int wrong = 0;
    int64_t rest;
    device.port.owner = OWNER;
    for (int client = 0; client < CLIENTS; client++)
        device.control.user[client] = 1000 + (uid_t)client / 2; /* two of each user */
    for (const struct row *it = rows; it < rows + sizeof rows / sizeof *rows; it++) {
        int64_t part = part_of_time(it);
        if (part >= it->least && part <= it->most)
            continue;
        printf("%s: %d thousandths of the time\n", it->what, (int)part);
        wrong = 1;
    }
    (void)request(&rows[0], &rest);
    for (int client = 0; client < CLIENTS; client++)
        if (budget_lets(&device, client, &rest) != (client / 2 != 0)) {
            printf("client %d after a long request of client 0\n", client);
            wrong = 1;
        }
    return wrong;
}
