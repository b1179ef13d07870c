/* How many frames of each receive channel come in a second, and so how many packet numbers are reserved ahead of its
 * associations. Frames count that are accepted, that wait for a reservation, and that are dropped for want of one: else
 * a disk that becomes slow would make the rate fall. The peer goes on at the same rate under a new key, so the rate is
 * the channel's. */
#include "numbers.h"

/* A reservation lasts for so many seconds. The next one is asked for when half of it is left. Where a synchronization
 * takes long, the half lasts for two of them: one that is under way, and the next. Of fast frames less than a second's
 * can wait in held_frames.c. So their reservations last longer, a second for so many frames a second: at most until a
 * disk that suddenly takes five seconds has written the next one. */
#define LASTS 2.0
#define LASTS_MOST 12.0
enum { SYNCHRONIZATIONS = 4, FASTER = 500 };

/* The fewest and the most packet numbers of a reservation. A restart can lose as many frames, since no record lowers a
 * reservation. Frames that come faster wait in held_frames.c, so the fewest can be few. A channel of eight frames a
 * second needs a record each second. A test has another number. While as few frames have come, and no two in a second,
 * fewer are reserved than came: so starts do not add up for a peer that is quiet. */
#ifndef RECEIVE_RATES_LEAST
#define RECEIVE_RATES_LEAST 16
#endif
enum { LEAST = RECEIVE_RATES_LEAST, MOST = 1 << 20 };

/* As many frames of those that lack a reservation count as can wait. If there are more, the rate says it. */
enum { BURST = 1024 };

/* In each second the rate is forgotten by one of so many parts. After each of so many parts of a reservation the device
 * looks whether the next one is needed. */
enum { FORGETS = 8, LOOKS = 16 };

static bool is_of(const struct receive_rate *p, const uint8_t sci[8]) {
    return p->is_used && memcmp(p->sci, sci, sizeof p->sci) == 0;
}

/* The index for a new channel: one that is not used, or the slowest one, of a channel that is gone. */
static size_t free_index(const struct receive_rates *p) {
    size_t found = 0;
    for (size_t i = 0; i < MACSEC_RX_CHANNEL_COUNT && p->all[found].is_used; i++)
        if (!p->all[i].is_used || p->all[i].rate + p->all[i].frames < p->all[found].rate + p->all[found].frames)
            found = i;
    return found;
}

struct receive_rate *receive_rates_of(struct receive_rates *p, const uint8_t sci[8]) {
    size_t i = p->latest;
    if (is_of(&p->all[i], sci))
        return &p->all[i];
    for (i = 0; i < MACSEC_RX_CHANNEL_COUNT && !is_of(&p->all[i], sci); i++)
        continue;
    if (i == MACSEC_RX_CHANNEL_COUNT) {
        i = free_index(p);
        p->all[i] = (struct receive_rate){ .is_used = true };
        memcpy(p->all[i].sci, sci, sizeof p->all[i].sci);
    }
    p->latest = i;
    return &p->all[i];
}

bool receive_rates_is_new(const struct receive_rate *p) {
    return p->first <= LEAST;
}

bool receive_rates_is_fast(const struct receive_rate *p) {
    return p->rate > BURST / 2;
}

bool receive_rates_goes_on(const struct receive_rate *p) {
    return p->rate >= LEAST;
}

static uint64_t amount_of(uint64_t rate, double slow) {
    double lasts = (double)rate / FASTER, wanted;
    if (lasts > LASTS_MOST)
        lasts = LASTS_MOST;
    if (lasts < LASTS)
        lasts = LASTS;
    if (lasts < slow * SYNCHRONIZATIONS)
        lasts = slow * SYNCHRONIZATIONS;
    wanted = lasts * (double)rate;
    return wanted < LEAST ? LEAST : wanted < MOST ? (uint64_t)wanted : MOST;
}

uint64_t receive_rates_amount(struct receive_rate *p, double slow) {
    uint64_t amount = amount_of(p->rate > p->frames ? p->rate : p->frames, slow);
    if (amount < p->burst)
        amount = p->burst;
    if (receive_rates_is_new(p) && p->frames < 2)
        amount = p->first > 0 ? p->first - 1 : 0;
    p->unseen = 0;
    p->patience = (unsigned)(amount / LOOKS);
    return amount;
}

void receive_rates_count(struct receive_rate *p) {
    p->frames++;
    p->first += receive_rates_is_new(p);
}

bool receive_rates_accepted(struct receive_rate *p) {
    return ++p->unseen >= p->patience && !receive_rates_is_new(p);
}

bool receive_rates_lacked(struct receive_rate *p, uint64_t order, bool again) {
    uint64_t waiting;
    p->lacked += !again;
    if (p->asked == order && (again || (p->lacked & (p->lacked - 1)) != 0))
        return false;
    waiting = p->lacked < BURST ? p->lacked : BURST;
    if (p->burst < 2 * waiting)
        p->burst = 2 * waiting; /* as many again come while the record is written */
    if (p->asked != order)
        p->lacked = 0;
    p->asked = order;
    return true;
}

void receive_rates_tick(struct receive_rates *p) {
    for (size_t i = 0; i < MACSEC_RX_CHANNEL_COUNT; i++) {
        struct receive_rate *it = &p->all[i];
        uint64_t forgotten = it->rate - it->rate / FORGETS;
        it->rate = it->frames > forgotten ? it->frames : forgotten;
        it->frames = 0;
        it->burst /= 2;
    }
}
