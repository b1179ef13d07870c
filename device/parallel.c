/* The path of frames with workers: they are planned into rings, and leave and are delivered in the order in which they
 * came. One frame alone takes the path without workers, so that it waits for no other thread.
 *
 * The endpoint's thread waits for the jobs under way before each request, each report and each tick of the clock. So
 * these find what they would find without workers: a frame that was read before is counted, and was judged by what the
 * endpoint was then. */
#include "device.h"

/* Sends the finished frames that are first, from the memory of their places. While one of them waits for LINK no client
 * frame is read, so no other frame gets this memory. */
static enum outcome send_finished(struct device *d) {
    struct ring *r = workers_ring(d->workers, SENDING);
    enum outcome outcome = DONE;
    while (outcome == DONE) {
        struct ring_place *p;
        while (d->link.waiting < BATCH && (p = ring_first(r)) != NULL) {
            macsec_sent sent = { p->memory->out, p->length, MACSEC_OK, p->fate, 0, { 0 } };
            frames_sent(d, &sent);
            if (p->length > 0)
                link_lend(&d->link, p->memory->out, p->length);
            else
                d->counts.link_refused++; /* its packet number is used */
            workers_remove(d->workers, SENDING);
        }
        outcome = link_flush(&d->link, &d->counts);
        if (ring_first(r) == NULL)
            return outcome;
    }
    return outcome;
}

/* Plans a client frame into the ring, which has a free place, while the port is on. Returns its fate. */
static uint32_t plan_client_frame(struct device *d, const struct frame *frame) {
    struct ring_place *p = workers_free(d->workers, SENDING);
    struct copies *copies = NULL;
    macsec_planned planned;
    (void)macsec_plan_send(d->endpoint, &p->memory->slot, frame->octets, frame->length, &planned); /* its status too */
    p->length = 0;
    p->fate = planned.fate;
    if (planned.job) {
        copies = workers_copies(d->workers, d->endpoint, planned.key);
        if (copies == NULL)
            (void)macsec_slot_clear(&p->memory->slot); /* nothing is sent; can_plan has looked for this key */
    } else if (planned.fate == MACSEC_FATE_PLAIN) {
        memcpy(p->memory->out, frame->octets, frame->length);
        p->length = frame->length;
    } else {
        macsec_sent dropped = { NULL, 0, planned.status, planned.fate, 0, { 0 } };
        frames_sent(d, &dropped);
        return planned.fate;
    }
    workers_put(d->workers, SENDING, copies);
    return planned.fate;
}

/* Are there copies of the key that the endpoint sends under, or does it send under none? */
static bool can_plan(const struct device *d) {
    macsec_tx_sa sa;
    for (uint8_t an = 0; an < MACSEC_AN_COUNT; an++)
        if (macsec_get_tx_sa(d->endpoint, an, &sa) == MACSEC_OK && sa.on &&
            workers_copies(d->workers, d->endpoint, sa.key) == NULL)
            return false;
    return true;
}

/* Waits until all places of the sending ring but so many are finished and their frames given to LINK. */
static enum outcome leave_at_most(struct device *d, unsigned count) {
    enum outcome outcome = send_finished(d);
    while (outcome == DONE && workers_under_way(d->workers, SENDING) > count) {
        (void)workers_await(d->workers, SENDING, 0);
        outcome = send_finished(d);
    }
    return outcome;
}

/* Reads a batch. The first frame is sealed at once if none is under way, and all are if a key can't be copied. A frame
 * alone needs no copies, so they are looked for when the second frame is there. */
static enum outcome read_client_frames(struct device *d, struct client_batch *b) {
    bool alone = workers_under_way(d->workers, SENDING) == 0, plans = !alone && can_plan(d);
    enum outcome outcome = alone || plans ? DONE : leave_at_most(d, 0);
    for (unsigned i = 0; outcome == DONE && i < BATCH; i++) {
        struct frame frame;
        outcome = tap_read(&d->tap, &frame);
        if (outcome != DONE)
            return outcome;
        if (alone && i == 1)
            plans = can_plan(d);
        outcome = frames_note_fate(d, b, plans && !d->port.off ? plan_client_frame(d, &frame) : frames_send(d, &frame));
    }
    return outcome;
}

enum outcome parallel_from_client(struct device *d) {
    struct client_batch b = { 0, 0, 0 };
    enum outcome outcome = leave_at_most(d, RING - BATCH);
    if (outcome == DONE)
        outcome = read_client_frames(d, &b);
    if (outcome != GONE)
        outcome = send_finished(d);
    frames_end_batch(d, &b);
    return outcome;
}

/* The members that both answers have. The library keeps their places in all versions. */
_Static_assert(sizeof(macsec_received) == offsetof(macsec_received, length) + sizeof(macsec_finished) &&
                   offsetof(macsec_received, pn) == offsetof(macsec_received, length) + offsetof(macsec_finished, pn),
               "macsec_received is a frame and the members of macsec_finished");

/* Judges the frame of the first place, which is finished, and delivers it, or lets it wait for a reservation. */
static enum outcome receive_first(struct device *d, struct ring_place *p) {
    uint8_t out[MACSEC_FRAME_MAX];
    macsec_received got = { .frame = out };
    macsec_finished finished;
    enum outcome outcome = held_frames_give(d);
    if (outcome == GONE)
        return GONE;
    (void)macsec_finish_receive(d->endpoint, &p->memory->slot, out, sizeof out, &finished); /* its status too */
    memcpy((uint8_t *)&got + offsetof(macsec_received, length), &finished, sizeof finished);
    outcome = frames_judged(d, &got, &p->frame);
    workers_remove(d->workers, RECEIVING);
    return outcome;
}

enum outcome parallel_deliver(struct device *d) {
    enum outcome outcome = DONE;
    struct ring_place *p;
    while (outcome == DONE && workers_under_way(d->workers, RECEIVING) > 0 &&
           (p = ring_first(workers_ring(d->workers, RECEIVING))) != NULL)
        outcome = receive_first(d, p);
    return outcome;
}

static enum outcome make_room(struct device *d) {
    enum outcome outcome = parallel_deliver(d);
    if (outcome == DONE && ring_free(workers_ring(d->workers, RECEIVING)) == NULL) {
        (void)workers_await(d->workers, RECEIVING, 0);
        outcome = parallel_deliver(d);
    }
    return outcome;
}

/* If it needs no job or its key can't be copied, macsec_finish_receive does all. */
enum outcome parallel_receive(struct device *d, const struct frame *frame, unsigned index, bool whole) {
    enum outcome outcome = make_room(d);
    struct ring_place *p = workers_free(d->workers, RECEIVING);
    macsec_planned planned;
    if (outcome != DONE)
        return outcome;
    if (macsec_plan_receive(d->endpoint, &p->memory->slot, frame->octets, frame->length, &planned) != MACSEC_OK)
        return frames_receive(d, frame); /* it counts and judges nothing, and says why */
    p->frame = *frame;
    if (whole)
        link_keep(&d->link, index, &p->memory->buffer);
    else
        p->frame.octets = memcpy(p->memory->out, frame->octets, frame->length);
    workers_put(d->workers, RECEIVING, planned.job ? workers_copies(d->workers, d->endpoint, planned.key) : NULL);
    return DONE;
}

enum outcome parallel_go_on(struct device *d) {
    enum outcome outcome;
    if (d->workers == NULL)
        return DONE;
    outcome = parallel_deliver(d);
    return outcome == GONE || send_finished(d) == GONE ? GONE : DONE;
}

enum outcome parallel_flush(struct device *d) {
    return workers_under_way(d->workers, RECEIVING) > 0 ? DONE : tap_flush(&d->tap, &d->counts);
}

enum outcome parallel_drain(struct device *d) {
    bool gone = false;
    if (d->workers == NULL)
        return DONE;
    while (workers_under_way(d->workers, RECEIVING) > 0) { /* also if TAP is gone: then they are refused */
        (void)workers_await(d->workers, RECEIVING, 0);
        gone = parallel_deliver(d) == GONE || gone;
    }
    gone = tap_flush(&d->tap, &d->counts) == GONE || gone;
    for (unsigned i = 0; i < workers_under_way(d->workers, SENDING); i++)
        (void)workers_await(d->workers, SENDING, i);
    return send_finished(d) == GONE || gone ? GONE : DONE;
}
