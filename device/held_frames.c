/* Frames of LINK that wait for a reservation: they are given to the endpoint again when one is on the disk, in their
 * order and before later frames of their channel. So a burst, or a peer that starts again, loses no frame. A later
 * frame of another association, which has a reservation, is accepted at once and delivered after them. One of the same
 * association that is valid has a lower packet number than those of it that lack a reservation, so it is delivered
 * before these: the link has exchanged them. */
#include "device.h"

/* Frames wait until the clock has ticked so often since one of them passed: the first ones of an association can need
 * three records, with the one that is under way, and a disk can take more than a second for each. */
enum { TICKS = 6 };

static bool is_of_channel(const struct held_frame *it, const struct held_frame *other) {
    return memcmp(it->sci, other->sci, sizeof it->sci) == 0;
}

/* How many of the frames that wait come before this one. */
static unsigned before(const struct held_frames *h, const struct held_frame *it) {
    unsigned count = 0;
    while (count < h->count && !(it->accepted && !h->frames[count].accepted && h->frames[count].an == it->an &&
                                 is_of_channel(it, &h->frames[count])))
        count++;
    return count;
}

bool held_frames_keep(struct device *d, const struct held_frame *about, const uint8_t *octets) {
    struct held_frames *h = &d->held_frames;
    uint8_t copy[MACSEC_FRAME_MAX]; /* the octets may be those of one of them */
    size_t length = about->length, at = h->used;
    unsigned index = before(h, about);
    if (h->count == HELD_FRAMES || length > HELD_OCTETS - h->used || length > sizeof copy)
        return false;
    if (h->count == 0) {
        h->grants = d->numbers.grants;
        h->ticks = 0;
    }
    for (unsigned i = h->count; i > index; i--)
        at -= h->frames[i - 1].length;
    memcpy(copy, octets, length);
    memmove(h->octets + at + length, h->octets + at, h->used - at);
    memcpy(h->octets + at, copy, length);
    memmove(h->frames + index + 1, h->frames + index, (h->count - index) * sizeof *h->frames);
    h->frames[index] = *about;
    h->count++;
    h->used += length;
    return true;
}

bool held_frames_wait(const struct device *d, const struct held_frame *accepted) {
    const struct held_frames *h = &d->held_frames;
    for (unsigned i = before(h, accepted); i > 0; i--)
        if (is_of_channel(&h->frames[i - 1], accepted))
            return true;
    return false;
}

/* Has a reservation been reported since the first of them was kept? */
static bool is_granted(const struct device *d) {
    return d->held_frames.count > 0 && d->held_frames.grants != d->numbers.grants;
}

static enum outcome give(struct device *d, const struct held_frame *it, const uint8_t *octets) {
    const struct frame frame = { octets, it->length };
    enum outcome outcome;
    if (it->accepted)
        return frames_deliver(d, octets, it->length);
    d->held_frames.again = true;
    outcome = frames_present(d, &frame);
    d->held_frames.again = false;
    return outcome;
}

/* Gives all frames to the endpoint, or to the client. Frames that still lack a reservation are kept again. If a
 * reservation is reported meanwhile, the frames after them are kept too: else these would overtake them. */
static enum outcome give_all(struct device *d) {
    struct held_frames *h = &d->held_frames;
    unsigned count = h->count, ticks = h->ticks;
    size_t at = 0;
    enum outcome outcome = DONE;
    h->count = 0;
    h->used = 0;
    for (unsigned i = 0; i < count; i++) {
        struct held_frame it = h->frames[i];
        const uint8_t *octets = h->octets + at;
        at += it.length;
        if (is_granted(d) || (it.accepted && held_frames_wait(d, &it)))
            (void)held_frames_keep(d, &it, octets); /* there is space */
        else if (give(d, &it, octets) == GONE)
            outcome = GONE;
    }
    if (h->count == count)
        h->ticks = ticks; /* none has passed */
    return outcome;
}

enum outcome held_frames_give(struct device *d) {
    enum outcome outcome = DONE;
    while (is_granted(d))
        if (give_all(d) == GONE)
            outcome = GONE;
    return outcome;
}

enum outcome held_frames_tick(struct device *d) {
    macsec_received dropped = MACSEC_RECEIVED_INIT;
    struct held_frames *h = &d->held_frames;
    enum outcome outcome = DONE;
    const uint8_t *octets = h->octets;
    if (h->count == 0 || h->grants != d->numbers.grants || ++h->ticks < TICKS)
        return DONE;
    for (const struct held_frame *it = h->frames; it < h->frames + h->count; octets += it++->length) {
        if (it->accepted && frames_deliver(d, octets, it->length) == GONE)
            outcome = GONE;
        d->counts.link_in += !it->accepted;
        d->counts.link_no_reservation += !it->accepted;
    }
    dropped.verdict = MACSEC_VERDICT_NO_RESERVATION;
    history_received(&d->history, &dropped, NULL);
    h->count = 0;
    h->used = 0;
    return outcome;
}
