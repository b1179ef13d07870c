/* When frames last went each way, and why the last one was dropped: for people who look at a running device. */
#include "frames.h"

/* The time by which a frame is noted. */
static uint64_t now(const struct history *h) {
    return h->seconds + 1;
}

static void drop(struct history *h, bool from_link, uint32_t why) {
    h->dropped = now(h);
    h->from_link = from_link;
    h->why = why;
}

void history_sent(struct history *h, const macsec_sent *sent) {
    if (sent->length > 0)
        h->sent = now(h);
    else
        drop(h, false, sent->fate);
}

/* The place of a channel. If no place is free, a new channel gets the place of one that is gone. */
static struct heard *place_of(struct history *h, const uint8_t sci[8]) {
    struct heard *oldest = &h->heard[0];
    for (size_t i = 0; i < MACSEC_RX_CHANNEL_COUNT; i++) {
        if (memcmp(h->heard[i].sci, sci, sizeof h->heard[i].sci) == 0)
            return &h->heard[i];
        if (h->heard[i].time < oldest->time)
            oldest = &h->heard[i];
    }
    memcpy(oldest->sci, sci, sizeof oldest->sci);
    return oldest;
}

static void keep_tag(struct history *h, const struct frame *frame) {
    size_t length = frame != NULL && frame->length > TYPE_AT ? frame->length - TYPE_AT : 0;
    memset(h->tag, 0, sizeof h->tag);
    if (length > 0)
        memcpy(h->tag, frame->octets + TYPE_AT, length < sizeof h->tag ? length : sizeof h->tag);
}

void history_received(struct history *h, const macsec_received *got, const struct frame *frame) {
    if (!got->delivered) {
        drop(h, true, got->verdict);
        keep_tag(h, frame);
    } else if (got->has_sa) {
        place_of(h, got->sci)->time = now(h);
    }
}

int64_t history_age(const struct history *h, uint64_t time) {
    return time == 0 ? -1 : (int64_t)(now(h) - time);
}

int64_t history_heard(const struct history *h, const uint8_t sci[8]) {
    for (size_t i = 0; i < MACSEC_RX_CHANNEL_COUNT; i++)
        if (memcmp(h->heard[i].sci, sci, sizeof h->heard[i].sci) == 0)
            return history_age(h, h->heard[i].time);
    return -1;
}
