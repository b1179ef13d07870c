/* An endpoint with a journal on a disk. device/tests/journal kills it, starts it again, and reads what it captured.
 *
 *     journal create JOURNAL
 *     journal send JOURNAL LIMIT SUITE AMOUNT FRAMES CAPTURE
 *     journal receive JOURNAL LIMIT SUITE CAPTURE IN..
 *     journal accept JOURNAL LIMIT SUITE AMOUNT CAPTURE PREFIX COUNT
 *
 * send protects frames under two keys, one after another, and writes each to CAPTURE before it protects the next
 * one. It ends after FRAMES of them, or never if FRAMES is 0. receive gives all frames of IN to an endpoint with a
 * replay window of 0. It writes those that the endpoint delivers to CAPTURE, once their packet numbers are saved.
 * accept gives all frames of the captures PREFIX0, PREFIX1, .. to an endpoint that reserves AMOUNT packet numbers ahead
 * of receiving, and writes those that it delivers to CAPTURE at once. It ends after COUNT captures. If COUNT is 0 it
 * never ends: it waits for more frames of the last capture, and for the next one. The status is 3 if the journal can't
 * be created or opened. */
#define _GNU_SOURCE
#include "journal.h"
#include "../../tests/library/suites.h"
#include "journal_end.h"
#include <inttypes.h>

enum { HELD = 16 };

static const uint8_t sender[8] = { 2, 0, 0, 0, 0, 1, 0, 1 }, receiver[8] = { 2, 0, 0, 0, 0, 2, 0, 1 };

/* The end, what it captures, and what it counts. */
static struct journal journal;
static macsec_endpoint e = MACSEC_ENDPOINT_INIT;
static int out;
static uint64_t amount, passed, dropped, failures;

static void print_fault(const char *what, const struct journal_fault *fault) {
    fprintf(stderr, "journal: %s: %s: %s", what, fault->step, strerror(fault->error));
    if (fault->status != MACSEC_OK)
        fprintf(stderr, " (%s)", macsec_status_name(fault->status));
    fprintf(stderr, "\n");
}

static uint64_t number_of(const char *word) {
    char *end;
    unsigned long long number = strtoull(word, &end, 10);
    if (*word == '\0' || *end != '\0') {
        fprintf(stderr, "journal: %s is no number\n", word);
        exit(2);
    }
    return number;
}

/* ---- Memory: the allocation of the number in REFUSED, counted from 1, fails ---- */

void *__real_malloc(size_t size);
void *__real_realloc(void *old, size_t size);

static bool is_refused(void) {
    static unsigned long made;
    const char *number = getenv("REFUSED");
    return number != NULL && ++made == strtoul(number, NULL, 10);
}

void *__wrap_malloc(size_t size) {
    return is_refused() ? NULL : __real_malloc(size);
}

void *__wrap_realloc(void *old, size_t size) {
    return is_refused() ? NULL : __real_realloc(old, size);
}

/* ---- Captures ---- */

/* Reads the next frame of a capture. False at its end, also in the middle of a frame. */
static bool next_frame(FILE *file, uint8_t *frame, size_t *length) {
    uint32_t header[4];
    if (fread(header, 1, sizeof header, file) != sizeof header)
        return false;
    *length = header[2];
    return *length <= LINK_MAX && fread(frame, 1, *length, file) == *length;
}

/* ---- Endpoints ---- */

/* Opens the journal and creates the endpoint with its keys, of the arguments JOURNAL, LIMIT and SUITE. Key and
 * association have the same number. */
static void begin(const uint8_t *sci, bool ahead, char **words) {
    static uint8_t octets[JOURNAL_MAX];
    macsec_config config = { { 0 }, (uint32_t)number_of(words[2]), MACSEC_FORM_SCI, 1600 };
    struct journal_fault fault;
    size_t length = 0;
    if (journal_open(&journal, words[0], (uint32_t)number_of(words[1]), &fault) != 0) {
        print_fault("open", &fault);
        exit(3);
    }
    memcpy(config.sci, sci, sizeof config.sci);
    must("whole", journal_whole(&journal, octets, &length));
    must("reserve_open", macsec_reserve_open(&e, &config, octets, length, ahead));
    for (uint16_t it = 0; it < KEYS; it++) {
        macsec_sak key = { { 0 }, { 0 }, sci[5], MACSEC_SUITE_DEFAULT, it, suite_key_octets(config.suite), 0 };
        memset(key.bytes, 0xa0 + it, sizeof key.bytes); /* only for this test */
        memset(key.salt, 0xb0 + it, sizeof key.salt);
        must("install_key", macsec_install_key(&e, &key));
    }
}

static uint32_t add_sending(uint8_t an, uint64_t next) {
    return macsec_add_tx_sa(&e, an, an, next, true);
}

static uint32_t add_receiving(uint8_t an, uint64_t lowest) {
    return macsec_add_rx_sa(&e, sender, an, an, lowest, sender[5]);
}

/* Creates an association above its floor. At the floor it is refused. */
static void add_lowest(uint8_t an, uint64_t floor, uint32_t (*add)(uint8_t, uint64_t)) {
    if (floor != 0 && add(an, floor) != MACSEC_E_PN_FLOOR) {
        fprintf(stderr, "journal: an association begins at its floor\n");
        exit(1);
    }
    must("add", add(an, floor + 1));
}

/* Prints what was counted, and ends. */
static int end(const char *what) {
    printf("%s %" PRIu64 " dropped %" PRIu64 " failures %" PRIu64 "\n", what, passed, dropped, failures);
    macsec_free(&e);
    journal_close(&journal);
    return close(out) == 0 ? 0 : 1;
}

/* ---- Records ---- */

/* Makes a record durable, and then reports it, if the library's call of this status has made one. */
static bool keep(uint32_t status, const macsec_record *record) {
    struct journal_fault fault;
    if (status == MACSEC_E_NOT_FOUND)
        return true;
    must("record", status);
    if (journal_write(&journal, record, 1, false, &fault) != 0) {
        if (failures++ == 0)
            print_fault("append", &fault);
        return false;
    }
    must("granted", macsec_reserve_granted(&e, record));
    return true;
}

static void reserve(uint8_t an) {
    macsec_record record;
    (void)keep(macsec_reserve_wanted(&e, an, amount, &record), &record);
}

static void reserve_to_accept(uint8_t an, uint64_t pn) {
    macsec_record record;
    (void)keep(macsec_reserve_to_accept(&e, sender, an, amount, pn, &record), &record);
}

/* ---- send ---- */

static int run_send(char **words) {
    const uint64_t frames = number_of(words[4]);
    amount = number_of(words[3]);
    begin(sender, false, words);
    out = create_capture(words[5]);
    for (uint8_t an = 0; an < KEYS; an++) {
        uint64_t floor = 0;
        must("tx_floor", macsec_reserve_tx_floor(&e, an, &floor));
        add_lowest(an, floor, add_sending);
        reserve(an);
    }
    for (uint64_t it = 0; frames == 0 || it < frames; it++) {
        uint8_t an = it / TURN % KEYS;
        if (it % TURN == 0)
            must("enable_tx_sa", macsec_enable_tx_sa(&e, an));
        reserve(an);
        if (send_frame(&e, out))
            passed++;
        else
            dropped++;
    }
    return end("sent");
}

/* ---- receive and accept ---- */

/* Frames that were received and are not yet delivered to the client. */
static struct {
    uint8_t frames[HELD][LINK_MAX];
    size_t lengths[HELD];
    size_t count;
} held;

static void begin_receiving(bool ahead, char **words) {
    begin(receiver, ahead, words);
    must("add_rx_sc", macsec_add_rx_sc(&e, sender));
    for (uint8_t an = 0; an < KEYS; an++) {
        uint64_t floor = 0;
        must("rx_floor", macsec_reserve_rx_floor(&e, sender, an, an, &floor));
        add_lowest(an, floor, add_receiving);
        if (ahead)
            reserve_to_accept(an, 0);
        must("enable_rx_sa", macsec_enable_rx_sa(&e, sender, an));
    }
}

/* Delivers the frames that are held, once their packet numbers are saved: so none of them is delivered again. */
static void deliver(void) {
    macsec_record record;
    for (uint8_t an = 0; an < KEYS; an++)
        if (!keep(macsec_reserve_to_save(&e, sender, an, &record), &record))
            held.count = 0;
    for (size_t at = 0; at < held.count; at++)
        capture(out, held.frames[at], held.lengths[at]);
    passed += held.count;
    held.count = 0;
}

/* Gives a frame to the endpoint, and holds it if it is delivered. */
static void hold_frame(const uint8_t *frame, size_t length) {
    macsec_received got;
    must("receive", macsec_receive(&e, frame, length, &got));
    if (!got.delivered) {
        dropped++;
        return;
    }
    memcpy(held.frames[held.count], frame, length);
    held.lengths[held.count++] = length;
    if (held.count == HELD)
        deliver();
}

/* Gives a frame to the endpoint, and once more if it lacked a reservation. */
static void accept_frame(const uint8_t *frame, size_t length) {
    macsec_received got;
    must("receive", macsec_receive(&e, frame, length, &got));
    if (got.verdict == MACSEC_VERDICT_NO_RESERVATION) {
        reserve_to_accept(got.an, got.pn);
        must("receive", macsec_receive(&e, frame, length, &got));
    }
    if (!got.delivered) {
        dropped++;
        return;
    }
    capture(out, frame, length);
    passed++;
    reserve_to_accept(got.an, 0);
}

/* Gives the frames of a capture that come after this place in it. Returns the place of the next one. */
static long give_from(FILE *in, long at, void (*give)(const uint8_t *, size_t)) {
    uint8_t frame[LINK_MAX];
    size_t length;
    if (fseek(in, at, SEEK_SET) != 0)
        fail("capture");
    while (next_frame(in, frame, &length)) {
        give(frame, length);
        at = ftell(in);
    }
    return at;
}

static int run_receive(int count, char **words) {
    begin_receiving(false, words);
    out = create_capture(words[3]);
    for (int at = 4; at < count; at++) {
        FILE *in = fopen(words[at], "r");
        if (in == NULL)
            fail(words[at]);
        (void)give_from(in, 24, hold_frame);
        fclose(in);
    }
    deliver();
    return end("delivered");
}

/* Accepts the frames of a capture. If it does not end, waits for more until there is the next capture. */
static void accept_capture(const char *prefix, uint64_t number, bool ends) {
    char name[512], next[512];
    bool is_last = false;
    long at = 24;
    FILE *in;
    snprintf(name, sizeof name, "%s%" PRIu64, prefix, number);
    snprintf(next, sizeof next, "%s%" PRIu64, prefix, number + 1);
    while ((in = fopen(name, "r")) == NULL && !ends)
        (void)usleep(500);
    if (in == NULL)
        fail(name);
    while (!is_last) {
        is_last = ends || access(next, F_OK) == 0;
        at = give_from(in, at, accept_frame);
        if (!is_last)
            (void)usleep(500);
    }
    fclose(in);
}

static int run_accept(char **words) {
    const uint64_t count = number_of(words[6]);
    amount = number_of(words[3]);
    begin_receiving(true, words);
    out = create_capture(words[4]);
    for (uint64_t at = 0; count == 0 || at < count; at++)
        accept_capture(words[5], at, count != 0);
    return end("delivered");
}

/* ---- */

static int run_create(const char *name) {
    struct journal_fault fault;
    if (journal_create(name, &fault) == 0)
        return 0;
    print_fault("create", &fault);
    return 3;
}

int main(int count, char **words) {
    if (count == 3 && strcmp(words[1], "create") == 0)
        return run_create(words[2]);
    if (count == 8 && strcmp(words[1], "send") == 0)
        return run_send(words + 2);
    if (count >= 6 && strcmp(words[1], "receive") == 0)
        return run_receive(count - 2, words + 2);
    if (count == 9 && strcmp(words[1], "accept") == 0)
        return run_accept(words + 2);
    fprintf(stderr, "usage: journal create|send|receive|accept ..: see device/tests/journal.c\n");
    return 2;
}
