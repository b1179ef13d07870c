/* Frames that wait for a reservation (device/held_frames.c), for the test journal. In place of the endpoint and of the
 * journal there are counters: how many packet numbers are reserved of each association. They rise at random moments.
 *
 *     journal_held SEED
 *
 * Each frame has its number in its first octets, and a length and octets that follow from it. It is the packet number
 * of one of two associations of one of two channels. Some frames come up to three frames late, before one of the same
 * association. No frame may be overtaken after it came, altered or lost, except one that comes while there is no space,
 * that waits for six ticks, or that is late for the endpoint. */
#include "device.h"
#include <inttypes.h>

enum { SHORTEST = 60, LENGTHS = 1400, MOST_AHEAD = 40, MOST_LATE = 3 };

/* At the beginning of each period nothing is reserved for so many frames. The last frame comes at such a time. */
enum { TICKS = 6, PERIOD = 4096, STALL = 1500, FRAMES = 49 * PERIOD + STALL / 2 };

/* An association. */
struct association {
    uint64_t reserved, accepted; /* packet numbers: up to this one, and the highest that the endpoint has accepted */
};

static struct device device;
static struct association associations[2][2]; /* of each channel */
static uint64_t last[2];                      /* the packet number that each channel has delivered */
static uint64_t newest, delivered, refused, late;
static uint64_t state;

static unsigned at_random(unsigned below) {
    state = state * 6364136223846793005U + 1442695040888963407U;
    return (unsigned)(state >> 33) % below;
}

static void fail(const char *what, uint64_t pn) {
    fprintf(stderr, "journal_held: packet number %" PRIu64 ": %s\n", pn, what);
    exit(1);
}

static size_t length_of(uint64_t pn) {
    return SHORTEST + (size_t)(pn * 7919 % LENGTHS);
}

static unsigned channel_of(uint64_t pn) {
    return pn % 5 == 0;
}

/* Each seventh frame is of the second association of its channel. */
static unsigned an_of(uint64_t pn) {
    return pn % 7 == 0;
}

static struct association *of(uint64_t pn) {
    return &associations[channel_of(pn)][an_of(pn)];
}

/* Reserves packet numbers of an association up to this one, if these are more. */
static void reserve_up_to(struct association *it, uint64_t pn) {
    if (pn <= it->reserved)
        return;
    it->reserved = pn;
    device.numbers.grants++;
}

/* Reserves a few packet numbers more of an association, or none. In every second period the second association of each
 * channel lacks none. */
static void reserve(void) {
    struct association *it = &associations[at_random(2)][at_random(2)];
    uint64_t more = it->reserved + at_random(30), most = newest + MOST_AHEAD;
    for (unsigned i = 0; i < 2 && newest / PERIOD % 2 == 0; i++)
        reserve_up_to(&associations[i][1], (newest / PERIOD + 1) * PERIOD);
    if (newest % PERIOD >= STALL && at_random(4) == 0)
        reserve_up_to(it, more < most ? more : most);
}

static void test_octets(const struct frame *frame, uint64_t pn) {
    if (frame->length != length_of(pn))
        fail("another length", pn);
    for (size_t at = sizeof pn; at < frame->length; at++)
        if (frame->octets[at] != (uint8_t)(pn + at))
            fail("other octets", pn);
}

enum outcome frames_deliver(struct device *d, const uint8_t *octets, size_t length) {
    const struct frame frame = { octets, length };
    uint64_t pn;
    (void)d;
    memcpy(&pn, octets, sizeof pn);
    test_octets(&frame, pn);
    if (pn <= last[channel_of(pn)])
        fail("it was overtaken, or came twice", pn);
    last[channel_of(pn)] = pn;
    delivered++;
    return DONE;
}

/* As an endpoint with a replay window of 0. */
enum outcome frames_present(struct device *d, const struct frame *frame) {
    struct held_frame it = { .length = (uint16_t)frame->length };
    struct association *a;
    uint64_t pn;
    memcpy(&pn, frame->octets, sizeof pn);
    test_octets(frame, pn);
    a = of(pn);
    it.sci[0] = (uint8_t)channel_of(pn);
    it.an = (uint8_t)an_of(pn);
    it.accepted = pn > a->accepted && pn <= a->reserved;
    if (it.accepted)
        a->accepted = pn;
    if (it.accepted && !held_frames_wait(d, &it))
        (void)frames_deliver(d, frame->octets, frame->length);
    else if (pn < a->accepted)
        late++;
    else
        refused += !held_frames_keep(d, &it, frame->octets);
    reserve();
    return DONE;
}

static void receive(uint64_t pn) {
    static uint8_t octets[SHORTEST + LENGTHS];
    struct frame frame = { octets, length_of(pn) };
    newest = pn > newest ? pn : newest;
    memcpy(octets, &pn, sizeof pn);
    for (size_t at = sizeof pn; at < frame.length; at++)
        octets[at] = (uint8_t)(pn + at);
    if (held_frames_give(&device) != DONE || frames_present(&device, &frame) != DONE)
        fail("it is not taken", pn);
}

/* Frames that wait without a reservation are dropped after some ticks, and counted. */
static void test_ticks(void) {
    unsigned count = device.held_frames.count, dropped = 0;
    for (unsigned i = 0; i < count; i++)
        dropped += !device.held_frames.frames[i].accepted;
    for (int tick = 1; tick < TICKS; tick++)
        if (held_frames_tick(&device) != DONE || device.held_frames.count != count)
            fail("it does not wait", newest);
    delivered = 0;
    if (held_frames_tick(&device) != DONE || device.held_frames.count != 0 || delivered != count - dropped ||
        device.counts.link_no_reservation != dropped || device.counts.link_in != dropped)
        fail("it waits for ever, or is not counted", newest);
    if (device.history.dropped == 0 || device.history.why != MACSEC_VERDICT_NO_RESERVATION)
        fail("it is not shown as the last drop", newest);
}

/* May a frame come late? There is space for the frames before which it is delivered then. */
static bool may_be_late(uint64_t pn) {
    return of(pn) == of(pn + 1) && pn + MOST_LATE < FRAMES && device.held_frames.count < HELD_FRAMES / 2 &&
           at_random(3) == 0;
}

/* Receives all frames: now and then one comes late. */
static void receive_all(void) {
    uint64_t delayed = 0;
    unsigned left = 0;
    for (uint64_t pn = 1; pn <= FRAMES; pn++) {
        if (delayed == 0 && may_be_late(pn)) {
            delayed = pn;
            left = 1 + at_random(MOST_LATE);
            continue;
        }
        receive(pn);
        if (delayed != 0 && --left == 0) {
            receive(delayed);
            delayed = 0;
        }
    }
}

int main(int count, char **words) {
    uint64_t waiting, in_order;
    if (count != 2)
        return 2;
    state = strtoull(words[1], NULL, 10);
    receive_all();
    waiting = device.held_frames.count;
    if (delivered + refused + late + waiting != FRAMES)
        fail("it is lost", newest);
    in_order = delivered;
    test_ticks();
    printf("delivered %" PRIu64 " refused %" PRIu64 " late %" PRIu64 " waiting %" PRIu64 "\n", in_order, refused, late,
           waiting);
    return 0;
}
