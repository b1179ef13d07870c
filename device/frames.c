/* The path of frames. The library says what becomes of each one; this file moves octets and counts. */
#include "device.h"

static void count_fault(uint32_t status, uint64_t *too_short, uint64_t *too_long) {
    if (status == MACSEC_E_FRAME_SHORT)
        ++*too_short;
    if (status == MACSEC_E_FRAME_LONG)
        ++*too_long;
}

void frames_sent(struct device *d, const macsec_sent *sent) {
    count_fault(sent->status, &d->counts.tap_too_short, &d->counts.tap_too_long);
    if (sent->fate == MACSEC_FATE_NO_RESERVATION)
        d->counts.no_reservation++;
    history_sent(&d->history, sent);
}

uint32_t frames_send(struct device *d, const struct frame *frame) {
    macsec_sent sent;
    if (d->port.off) {
        d->counts.port_out++;
        return MACSEC_FATE_NONE;
    }
    (void)macsec_send(d->endpoint, frame->octets, frame->length, &sent); /* the status is in the answer too */
    frames_sent(d, &sent);
    if (sent.length > 0)
        link_append(&d->link, sent.frame, sent.length, &d->counts);
    return sent.fate;
}

enum outcome frames_note_fate(struct device *d, struct client_batch *b, uint32_t fate) {
    d->counts.tap_in++;
    b->used += fate == MACSEC_FATE_PROTECTED;
    b->lacked += fate == MACSEC_FATE_NO_RESERVATION;
    return b->count++ == 0 && d->alone ? link_flush(&d->link, &d->counts) : DONE;
}

void frames_end_batch(struct device *d, const struct client_batch *b) {
    if (b->count > 0)
        d->alone = b->count == 1;
    numbers_used(&d->numbers, d->endpoint, b->used, b->lacked > 0);
}

enum outcome frames_from_client(struct device *d) {
    struct client_batch b = { 0, 0, 0 };
    enum outcome outcome = DONE, left;
    if (d->workers != NULL)
        return parallel_from_client(d);
    for (unsigned i = d->link.waiting; outcome == DONE && i < BATCH; i++) {
        struct frame frame;
        outcome = tap_read(&d->tap, &frame);
        if (outcome == DONE)
            outcome = frames_note_fate(d, &b, frames_send(d, &frame));
    }
    left = outcome == GONE ? GONE : link_flush(&d->link, &d->counts);
    frames_end_batch(d, &b);
    return left;
}

enum outcome frames_deliver(struct device *d, const uint8_t *octets, size_t length) {
    if (!d->port.off)
        return tap_write(&d->tap, octets, length, &d->counts);
    d->counts.port_in++;
    return DONE;
}

/* A frame that can wait, or what the endpoint has accepted of it. One that was not found valid, in the modes that
 * deliver it, needs no reservation, so nothing is known of its packet number: it has no association here. */
static struct held_frame held_frame_of(const macsec_received *got, size_t length) {
    bool is_valid = got->verdict == MACSEC_VERDICT_OK || got->verdict == MACSEC_VERDICT_NO_RESERVATION;
    struct held_frame it = { .accepted = got->delivered, .length = (uint16_t)length };
    it.an = is_valid ? got->an : MACSEC_AN_COUNT;
    memcpy(it.sci, got->sci, sizeof it.sci);
    return it;
}

/* Delivers an accepted frame, or keeps it while frames wait that come before it. If there is no space it overtakes
 * none. */
static enum outcome deliver_in_order(struct device *d, const macsec_received *got) {
    const struct held_frame it = held_frame_of(got, got->length);
    if (!got->has_sa || !held_frames_wait(d, &it))
        return frames_deliver(d, got->frame, got->length);
    d->counts.tap_refused += !held_frames_keep(d, &it, got->frame);
    return DONE;
}

/* What follows from the answer of the endpoint. An accepted frame is noted afterwards, since the client waits. */
static enum outcome received(struct device *d, const macsec_received *got, const struct frame *frame) {
    enum outcome outcome = got->delivered ? deliver_in_order(d, got) : DONE;
    d->counts.link_in++;
    count_fault(got->status, &d->counts.link_too_short, &d->counts.link_too_long);
    d->counts.no_endpoint += got->status == MACSEC_E_EMPTY;
    d->counts.link_no_reservation += got->verdict == MACSEC_VERDICT_NO_RESERVATION;
    d->counts.link_earlier_run += got->verdict == MACSEC_VERDICT_EARLIER_RUN;
    history_received(&d->history, got, frame);
    floods_note(d, got->verdict);
    numbers_received(&d->numbers, d->endpoint, got, d->held_frames.again);
    return outcome;
}

enum outcome frames_judged(struct device *d, const macsec_received *got, const struct frame *frame) {
    const struct held_frame it = held_frame_of(got, frame->length);
    if (got->verdict != MACSEC_VERDICT_NO_RESERVATION || !held_frames_keep(d, &it, frame->octets))
        return received(d, got, frame);
    numbers_received(&d->numbers, d->endpoint, got, d->held_frames.again);
    return DONE;
}

enum outcome frames_present(struct device *d, const struct frame *frame) {
    macsec_received got;
    (void)macsec_receive(d->endpoint, frame->octets, frame->length, &got); /* the status is in the answer too */
    return frames_judged(d, &got, frame);
}

enum outcome frames_receive(struct device *d, const struct frame *frame) {
    enum outcome outcome = held_frames_give(d);
    return outcome == GONE ? outcome : frames_present(d, frame);
}

/* Reads a batch of LINK, and says how many frames it has. With workers, one frame alone takes the path without them
 * too. */
static enum outcome read_batch(struct device *d, unsigned *frames_read) {
    struct unfinished frames[BATCH];
    unsigned count;
    enum outcome outcome = link_read(&d->link, frames, &count);
    bool alone = d->workers == NULL || (count == 1 && workers_under_way(d->workers, RECEIVING) == 0);
    *frames_read = count;
    for (unsigned i = 0; i < count; i++) {
        struct segments s;
        struct frame frame;
        segments_begin(&s, &frames[i]);
        while (segments_next(&s, &frame))
            if ((alone ? frames_receive(d, &frame) : parallel_receive(d, &frame, i, s.header == 0)) == GONE)
                return GONE;
    }
    floods_stop(d);
    return outcome;
}

/* Without workers a batch takes so long that more frames have come meanwhile, which can be joined to what waits for
 * TAP. A frame that comes alone does not wait for them. */
enum outcome frames_from_link(struct device *d) {
    enum outcome outcome = parallel_deliver(d);
    unsigned count = BATCH, all = 0;
    while (outcome == DONE && all < BATCH && count > 1 && (all == 0 || d->workers == NULL)) {
        outcome = read_batch(d, &count);
        all += count;
    }
    if (outcome == GONE || all == 0)
        return outcome;
    outcome = parallel_deliver(d);
    return parallel_flush(d) == GONE ? GONE : outcome;
}
