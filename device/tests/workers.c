/* Sends frames from one device with workers to another in one process, and looks at each of them. LINK and TAP are
 * queues: frames come in bursts and alone, LINK takes some frames at a time and loses a few, and keys change meanwhile.
 *
 *     workers FRAMES WORKERS SEED SECONDS
 *
 * A device has to be woken within SECONDS when a frame is finished. The program prints what is wrong, and else how many
 * frames were sent, lost and delivered, how many keys there were, and how often a device waited. */
#include "device.h"
#include <inttypes.h>
#include <poll.h>
#include <stdarg.h>

/* The wire between the two, the shortest client frame with a number in it, the octets of its header, the most octets of
 * one, how many frames come alone at the end, how many then come at once, and how many devices end early. */
enum { WIRE = 4 * RING, SHORTEST = 22, HEADER = 14, MOST = 1400, ALONE = 20, FEW = 9, ENDS = 50 };

static const uint8_t sender_sci[8] = { 2, 0, 0, 0, 0, 1, 0, 1 };

static struct device a, b;
static uint64_t to_send, sent, delivered, next_number, lost, waits, last_pn, keys;
static unsigned unflushed; /* frames that were delivered since tap_flush */
static unsigned burst;     /* client frames that come at once */
static unsigned keys_last; /* how many turns there are between changes of keys, on average */
static uint8_t wire[WIRE][MACSEC_FRAME_MAX];
static size_t wire_length[WIRE];
static unsigned wire_first, wire_count;
static int patience;   /* in milliseconds */
static uint64_t state; /* of random numbers */
static uint8_t rising[256 + MOST];

/* ---- Random numbers and faults ---- */

static unsigned below(unsigned limit) {
    state = state * 6364136223846793005u + 1442695040888963407u;
    return (unsigned)(state >> 33) % limit;
}

__attribute__((format(printf, 1, 2), noreturn)) static void wrong(const char *form, ...) {
    va_list arguments;
    va_start(arguments, form);
    printf("WRONG: ");
    vprintf(form, arguments);
    printf("\n");
    va_end(arguments);
    fflush(stdout);
    _Exit(1);
}

/* ---- TAP ---- */

/* What a client frame has: its number, and octets that follow from it, each one greater than the one before. */
static size_t make_frame(uint64_t number, uint8_t *frame) {
    static const uint8_t header[HEADER] = { 2, 0, 0, 0, 0, 2, 2, 0, 0, 0, 0, 1, 0x88, 0xb5 };
    size_t length = SHORTEST + number * 37 % (MOST - SHORTEST);
    memcpy(frame, header, HEADER);
    memcpy(frame + HEADER, &number, sizeof number);
    memcpy(frame + SHORTEST, rising + number % 256, length - SHORTEST);
    return length;
}

enum outcome tap_read(struct tap *t, struct frame *frame) {
    static uint8_t octets[MACSEC_FRAME_MAX];
    (void)t;
    if (burst == 0 || sent == to_send)
        return BUSY;
    burst--;
    frame->octets = octets;
    frame->length = make_frame(sent, octets);
    sent++;
    return DONE;
}

enum outcome tap_write(struct tap *t, const uint8_t *octets, size_t length, struct counts *c) {
    uint8_t frame[MACSEC_FRAME_MAX];
    uint64_t number;
    (void)t;
    c->tap_out++;
    if (length < SHORTEST)
        wrong("a frame of %zu octets is delivered", length);
    memcpy(&number, octets + HEADER, sizeof number);
    if (number < next_number)
        wrong("frame %" PRIu64 " is delivered after %" PRIu64, number, next_number - 1);
    if (length != make_frame(number, frame) || memcmp(octets, frame, length) != 0)
        wrong("frame %" PRIu64 " has other octets", number);
    next_number = number + 1;
    delivered++;
    unflushed++;
    return DONE;
}

/* Nothing is joined, but it could be. No frame is delivered by the other device. */
enum outcome tap_flush(struct tap *t, struct counts *c) {
    (void)c;
    if (t != &b.tap)
        return DONE;
    if (workers_under_way(b.workers, RECEIVING) > 0)
        wrong("TAP gets what waits for it while frames of LINK are under way");
    unflushed = 0;
    return DONE;
}

/* ---- LINK ---- */

void link_append(struct link *l, const uint8_t *octets, size_t length, struct counts *c) {
    unsigned at = (l->first + l->waiting) % BATCH;
    if (l->waiting == BATCH) {
        c->link_refused++;
        return;
    }
    l->frames[at] = (struct iovec){ memcpy(l->copies[at], octets, length), length };
    l->waiting++;
}

void link_lend(struct link *l, uint8_t *octets, size_t length) {
    if (l->waiting == BATCH)
        wrong("LINK gets a frame that it has no space for");
    l->frames[(l->first + l->waiting++) % BATCH] = (struct iovec){ octets, length };
}

/* Transmits a frame, or loses it. Packet numbers of a key have to rise by one each. */
static void transmit(const uint8_t *octets, size_t length) {
    unsigned at = (wire_first + wire_count) % WIRE;
    uint64_t pn = (uint64_t)octets[16] << 24 | (uint64_t)octets[17] << 16 | (uint64_t)octets[18] << 8 | octets[19];
    if (length < SHORTEST || octets[12] != 0x88 || octets[13] != 0xe5)
        wrong("a frame leaves in clear");
    if (pn != last_pn + 1 && pn != 1)
        wrong("packet number %" PRIu64 " leaves after %" PRIu64, pn, last_pn);
    last_pn = pn;
    if (below(50) == 0) {
        lost++;
        return;
    }
    memcpy(wire[at], octets, length);
    wire_length[at] = length;
    wire_count++;
}

enum outcome link_flush(struct link *l, struct counts *c) {
    unsigned taken = below(8) == 0 ? below(BATCH) : BATCH;
    if (taken > l->waiting)
        taken = l->waiting;
    if (taken > WIRE - wire_count)
        taken = WIRE - wire_count;
    for (unsigned i = 0; i < taken; i++) {
        struct iovec *it = &l->frames[(l->first + i) % BATCH];
        transmit(it->iov_base, it->iov_len);
    }
    c->link_out += taken;
    l->first = (l->first + taken) % BATCH;
    l->waiting -= taken;
    return l->waiting == 0 ? DONE : BUSY;
}

enum outcome link_read(struct link *l, struct unfinished frames[BATCH], unsigned *count) {
    unsigned most = below(4) == 0 ? 1 + below(3) : BATCH;
    (void)l;
    *count = wire_count < most ? wire_count : most;
    for (unsigned i = 0; i < *count; i++) {
        unsigned at = (wire_first + i) % WIRE;
        frames[i] = (struct unfinished){ .octets = wire[at], .length = wire_length[at] };
    }
    wire_first = (wire_first + *count) % WIRE;
    wire_count -= *count;
    return *count > 0 ? DONE : BUSY;
}

/* No frame has to wait. */
void link_keep(struct link *l, unsigned index, struct received **spare) {
    (void)l, (void)index, (void)spare;
}

/* ---- The rest of a device ---- */

void numbers_used(struct numbers *n, macsec_endpoint *e, unsigned frames, bool lacked) {
    (void)n, (void)e, (void)frames;
    if (lacked)
        wrong("a reservation is needed");
}

void numbers_received(struct numbers *n, macsec_endpoint *e, const macsec_received *got, bool again) {
    (void)n, (void)e, (void)again;
    if (got->pn != 0)
        wrong("packet number %" PRIu64 " lacks a reservation", got->pn);
}

void floods_note(struct device *d, uint32_t verdict) {
    (void)d;
    if (verdict != MACSEC_VERDICT_OK)
        wrong("the verdict on a frame is %u", (unsigned)verdict);
}

void floods_stop(struct device *d) {
    (void)d;
}

int confine_calls(enum thread thread, int own, int manager) {
    (void)thread, (void)own, (void)manager;
    return 0;
}

static void command(struct device *d, const char *form, ...) {
    char line[128];
    va_list arguments;
    uint32_t status;
    va_start(arguments, form);
    vsnprintf(line, sizeof line, form, arguments);
    va_end(arguments);
    status = macsec_command_line(d->endpoint, (const uint8_t *)line, strlen(line));
    if (status != MACSEC_OK)
        wrong("%s: %s", line, macsec_status_name(status));
    workers_forget(d->workers);
}

/* ---- Runs ---- */

static void drain(void) {
    if (parallel_drain(&a) != DONE || parallel_drain(&b) != DONE)
        wrong("a device is gone");
}

/* Lets the frames that were read arrive. */
static void arrive(void) {
    do {
        drain();
        (void)link_flush(&a.link, &a.counts);
        (void)frames_from_link(&b);
        drain();
    } while (ring_count(workers_ring(a.workers, SENDING)) > 0 || a.link.waiting > 0 || wire_count > 0);
}

/* A key for both: the receiver has it first, and the one before stays until the next change. */
static void change_key(void) {
    unsigned an = (unsigned)(keys % 4);
    char key[33];
    snprintf(key, sizeof key, "%032" PRIx64, keys + 1);
    drain();
    command(&b, "A key %u %s 0", (unsigned)keys, key);
    command(&b, "A rxsa 0200000000010001 %u %u 1", an, (unsigned)keys);
    command(&b, "A rxon 0200000000010001 %u", an);
    command(&a, "A key %u %s 0", (unsigned)keys, key);
    command(&a, "A txsa %u %u 1 conf", an, (unsigned)keys);
    command(&a, "A txon %u", an);
    if (keys > 0) {
        command(&a, "A txdel %u", (an + 3) % 4);
        command(&a, "A retire %u", (unsigned)keys - 1);
    }
    if (keys > 1) {
        arrive();
        command(&b, "A rxdel 0200000000010001 %u", (an + 2) % 4);
        command(&b, "A retire %u", (unsigned)keys - 2);
    }
    keys++;
}

/* Waits as the loop of a device does: it does jobs first. Then workers have the jobs that are left, and one of them
 * wakes it. */
static void wait_for(struct device *d) {
    bool sleeps;
    while (workers_help(d->workers))
        if (parallel_go_on(d) == GONE)
            wrong("a device is gone");
    sleeps = workers_sleep(d->workers, true);
    for (unsigned i = SENDING; sleeps && i <= RECEIVING; i++) {
        struct ring *r = workers_ring(d->workers, i);
        struct pollfd event = { .fd = workers_file(d->workers), .events = POLLIN };
        for (unsigned j = 0; j < ring_count(r); j++)
            if (atomic_load(&ring_at(r, j)->state) == PLANNED)
                wrong("a job is left while the loop waits");
        if (ring_count(r) == 0)
            continue;
        waits++;
        if (poll(&event, 1, patience) != 1)
            wrong("the loop is not woken when a frame is finished");
    }
    workers_woke(d->workers);
    workers_read_event(d->workers);
}

/* One turn of both loops. */
static void turn(void) {
    burst = below(4) == 0 ? 1 : below(3 * BATCH);
    if (a.link.waiting == 0 && parallel_from_client(&a) == GONE)
        wrong("the sender is gone");
    if (below(2) == 0)
        (void)link_flush(&a.link, &a.counts);
    if (frames_from_link(&b) == GONE || parallel_go_on(&a) == GONE || parallel_go_on(&b) == GONE ||
        parallel_flush(&b) == GONE)
        wrong("a device is gone");
    if (unflushed > 0 && workers_under_way(b.workers, RECEIVING) == 0)
        wrong("TAP does not get what waits for it");
    if (below(keys_last) == 0)
        change_key();
    if (below(4) == 0)
        wait_for(below(2) == 0 ? &a : &b);
}

static void open_device(struct device *d, const char *sci, unsigned workers) {
    char line[80];
    uint32_t number;
    d->endpoint = &d->handles[0];
    snprintf(line, sizeof line, "end A gcm128 %s 1518 sci", sci);
    if (macsec_configure(d->endpoint, (const uint8_t *)line, strlen(line), &number) != MACSEC_OK)
        wrong("there is no endpoint");
    if (workers_open(&d->workers, workers) != 0 || workers_start(d->workers) != 0)
        wrong("there are no workers");
}

/* Each frame has to be in the counters of both ends. */
static void compare(void) {
    macsec_tx_counters out;
    macsec_rx_counters in;
    (void)macsec_get_tx_counters(a.endpoint, &out);
    (void)macsec_get_rx_counters(b.endpoint, sender_sci, &in);
    if (out.out_pkts_encrypted != sent || a.counts.link_out != sent || a.counts.tap_in != sent)
        wrong("%" PRIu64 " frames were read, %" PRIu64 " sealed, %" PRIu64 " sent", sent, out.out_pkts_encrypted,
              a.counts.link_out);
    if (in.in_pkts_ok != sent - lost || delivered != sent - lost || b.counts.tap_out != sent - lost)
        wrong("%" PRIu64 " frames arrived, %" PRIu64 " are valid, %" PRIu64 " delivered", sent - lost, in.in_pkts_ok,
              delivered);
}

/* A frame that comes alone goes through both devices, and no worker has it. */
static void send_alone(void) {
    arrive();
    to_send++;
    burst = 1;
    if (parallel_from_client(&a) == GONE || workers_under_way(a.workers, SENDING) != 0)
        wrong("a client frame that comes alone waits for a worker");
    while (a.link.waiting > 0)
        (void)link_flush(&a.link, &a.counts);
    if (frames_from_link(&b) == GONE || workers_under_way(b.workers, RECEIVING) != 0)
        wrong("a frame of LINK that comes alone waits for a worker");
}

/* Few frames at once have the memory of as few, again and again. No frame begins with a zero. */
static void send_few(void) {
    struct ring *r = workers_ring(a.workers, SENDING);
    unsigned used = 0;
    arrive();
    for (unsigned i = 0; i < RING; i++)
        r->memory[i].out[0] = 0;
    for (unsigned i = 0; i < ALONE; i++) {
        to_send = sent + FEW;
        burst = FEW;
        if (parallel_from_client(&a) == GONE)
            wrong("the sender is gone");
        arrive();
    }
    for (unsigned i = 0; i < RING; i++)
        used += r->memory[i].out[0] != 0;
    if (used == 0 || used > FEW)
        wrong("%u frames at once have the memory of %u", (unsigned)FEW, used);
}

/* Devices end while frames are under way. */
static void end_early(unsigned workers) {
    static struct device c;
    for (unsigned i = 0; i < ENDS; i++) {
        memset(&c, 0, sizeof c); /* as a device begins */
        open_device(&c, "0200000000010001", workers);
        command(&c, "A key 0 %032u 0", i + 1);
        command(&c, "A txsa 0 0 1 conf");
        command(&c, "A txon 0");
        to_send = sent + BATCH;
        burst = below(BATCH);
        if (parallel_from_client(&c) == GONE)
            wrong("the device is gone");
        workers_close(c.workers);
        macsec_free(c.endpoint);
        wire_count = 0;
    }
}

int main(int count, char **words) {
    uint64_t frames, frames_lost;
    if (count != 5)
        wrong("usage: workers FRAMES WORKERS SEED SECONDS");
    to_send = strtoull(words[1], NULL, 10);
    for (unsigned i = 0; i < sizeof rising; i++)
        rising[i] = (uint8_t)i;
    keys_last = 20 + (unsigned)(to_send / 100000); /* an endpoint takes 4,096 keys */
    state = strtoull(words[3], NULL, 10);
    patience = 1000 * (int)strtol(words[4], NULL, 10);
    open_device(&a, "0200000000010001", (unsigned)strtoul(words[2], NULL, 10));
    open_device(&b, "0200000000020001", (unsigned)strtoul(words[2], NULL, 10));
    command(&b, "A rxsc 0200000000010001");
    change_key();
    while (sent < to_send)
        turn();
    for (unsigned i = 0; i < ALONE; i++)
        send_alone();
    send_few();
    arrive();
    compare();
    workers_close(a.workers);
    workers_close(b.workers);
    macsec_free(a.endpoint);
    macsec_free(b.endpoint);
    frames = sent;
    frames_lost = lost;
    end_early((unsigned)strtoul(words[2], NULL, 10));
    printf("%" PRIu64 " frames, %" PRIu64 " lost, %" PRIu64 " delivered, %" PRIu64 " keys, waited %" PRIu64 " times\n",
           frames, frames_lost, delivered, keys, waits);
    return 0;
}
