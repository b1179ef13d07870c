/* An end that reserves as macsecd does (device/numbers.c, without its thread), for the test journal. It sends, and
 * receives what its peer sends: first what the peer has sent before, then new frames.
 *
 *     journal_numbers create JOURNAL
 *     journal_numbers send JOURNAL LIMIT SUITE AMOUNT FRAMES CAPTURE
 *     journal_numbers agree JOURNAL LIMIT COUNT CAPTURE
 *     journal_numbers rates
 *
 * The arguments and the output are as in journal.c, except that SUITE and AMOUNT are not used, and CAPTURE also gets
 * the frames that are delivered. numbers.c finds LIMIT in the environment. The clock ticks a few frames after a
 * failure: each tick makes reservations longer, since no time passes. If nothing fails, each new frame has to be
 * delivered. agree is a key agreement. It sends and receives frames of association 0 under a key, retires the key, and
 * installs it again in a second endpoint. Then it does so with association 1 under COUNT other keys, and ends without
 * an orderly end. rates prints how many packet numbers are reserved for a channel that is new, busy, quiet, whose
 * frames lack a reservation, and that is fast. */
#include "device.h"
#include "journal_end.h"
#include <inttypes.h>
#include <stdarg.h>

enum { TICK = 4, RECORDED = 10, LINE = 128 };

static const char own[] = "0200000000010001", other[] = "0200000000020001";
static const uint8_t other_sci[8] = { 2, 0, 0, 0, 0, 2, 0, 1 }, another_sci[8] = { 2, 0, 0, 0, 0, 3, 0, 1 };

static const char *journal_path;

/* ---- In place of other parts of macsecd ---- */

#define PRINT(end, ...)                                                                                                \
    do {                                                                                                               \
        va_list arguments;                                                                                             \
        va_start(arguments, form);                                                                                     \
        fprintf(stderr, "journal_numbers: ");                                                                          \
        vfprintf(stderr, form, arguments);                                                                             \
        fprintf(stderr, end, __VA_ARGS__);                                                                             \
        va_end(arguments);                                                                                             \
    } while (0)

void message(const char *form, ...) {
    PRINT("%s", "\n");
}

int message_of_errno(const char *form, ...) {
    int error = errno;
    PRINT(": %s\n", strerror(error));
    return ENDS_FAILED;
}

bool config_path(char *path, size_t room, const char *variable, const char *otherwise, const char *name,
                 const char *suffix) {
    (void)variable, (void)otherwise, (void)name, (void)suffix;
    return snprintf(path, room, "%s", journal_path) < (int)room;
}

/* No synchronization takes long, however slow the machine is: else fewer and longer reservations are made. */
int clock_gettime(clockid_t clock, struct timespec *time) {
    (void)clock;
    *time = (struct timespec){ 0, 0 };
    return 0;
}

int confine_calls(enum thread thread, int own, int manager) {
    (void)thread, (void)own, (void)manager;
    return 0;
}

/* ---- Both ends ---- */

static struct numbers numbers, *const n = &numbers;
static macsec_endpoint e = MACSEC_ENDPOINT_INIT, peer = MACSEC_ENDPOINT_INIT;
static struct counts counts;
static int out;

/* Carries out a line. The peer has no journal. */
static void carry_out(macsec_endpoint *to, const char *form, ...) {
    char line[LINE];
    va_list arguments;
    macsec_command command;
    uint64_t raised;
    va_start(arguments, form);
    vsnprintf(line, sizeof line, form, arguments);
    va_end(arguments);
    must(line, macsec_parse_line((const uint8_t *)line, strlen(line), &command));
    must(line, to == &peer ? macsec_carry_out(to, &command) : lines_carry_out(n, to, &command, &raised));
}

/* The octets of a key are only for this test. */
static void install_key(macsec_endpoint *to, unsigned number) {
    carry_out(to, "A key %u a0a1a2a3a4a5a6a7a8a9aaab%08x 0", number, number);
}

/* Creates both ends. */
static void create(void) {
    char end[LINE];
    macsec_config config;
    uint32_t line;
    snprintf(end, sizeof end, "end A gcm128 %s 1600 sci", other);
    must(end, macsec_configure(&peer, (const uint8_t *)end, strlen(end), &line));
    snprintf(end, sizeof end, "end A gcm128 %s 1600 sci", own);
    must(end, macsec_parse_end((const uint8_t *)end, strlen(end), &config));
    if (numbers_configure(n, &e, &config) != MACSEC_OK)
        exit(3);
}

static void create_association(unsigned an, unsigned key) {
    carry_out(&e, "A rxsa %s %u %u 1", other, an, key);
    carry_out(&e, "A rxon %s %u", other, an);
}

/* Ends both. */
static int end(void) {
    macsec_free(&peer);
    macsec_free(&e);
    return close(out) == 0 ? 0 : 1;
}

/* ---- send ---- */

/* The peer's next packet number, and the first one that was not sent before. New frames that were not delivered. */
static uint64_t next[KEYS], first[KEYS];
static unsigned long lacked;

/* Creates the endpoints with their keys and associations. Key and association have the same number. Under each key the
 * peer begins with packet numbers that the receiver may have accepted. */
static void begin(void) {
    create();
    for (unsigned an = 0; an < KEYS; an++) {
        install_key(&e, an);
        carry_out(&e, "A txsa %u %u 1 conf", an, an);
        numbers_reserve(n, &e);
    }
    carry_out(&e, "A rxsc %s", other);
    for (unsigned an = 0; an < KEYS; an++)
        create_association(an, an);
    numbers_begin(n, &e);
    for (unsigned an = 0; an < KEYS; an++) {
        macsec_rx_sa sa;
        must("rx_sa", macsec_get_rx_sa(&e, other_sci, (uint8_t)an, &sa));
        first[an] = sa.lowest;
        next[an] = sa.lowest > RECORDED ? sa.lowest - RECORDED : 1;
        install_key(&peer, an);
        carry_out(&peer, "A txsa %u %u %llx conf", an, an, (unsigned long long)next[an]);
    }
}

/* The peer sends a frame, which is received. It is given again if it lacks a reservation: there is no thread, so the
 * record is written. Returns whether it is delivered. */
static bool receive_frame(void) {
    macsec_sent sent;
    macsec_received got = MACSEC_RECEIVED_INIT;
    must("send", macsec_send(&peer, client_frame, sizeof client_frame, &sent));
    for (int times = 0; times == 0 || (times == 1 && got.verdict == MACSEC_VERDICT_NO_RESERVATION); times++) {
        must("receive", macsec_receive(&e, sent.frame, sent.length, &got));
        numbers_received(n, &e, &got, times > 0);
    }
    if (got.delivered)
        capture(out, sent.frame, sent.length);
    return got.delivered;
}

static int run_send(unsigned long frames, const char *name) {
    unsigned long sent = 0;
    uint64_t failures = 0;
    begin();
    out = create_capture(name);
    for (unsigned long it = 0; it < frames; it++) {
        unsigned an = (unsigned)(it / TURN % KEYS);
        bool went;
        if (it % TURN == 0) {
            carry_out(&e, "A txon %u", an);
            carry_out(&peer, "A txon %u", an);
        }
        went = send_frame(&e, out);
        sent += went;
        numbers_used(n, &e, went, !went);
        lacked += !receive_frame() && next[an] >= first[an];
        next[an]++;
        if (counts.journal_failed != failures && it % TICK == TICK - 1) {
            failures = counts.journal_failed;
            numbers_tick(n, &e);
        }
    }
    numbers_close(n, &e);
    if (lacked > 0 && counts.journal_failed == 0)
        return 1;
    printf("sent %lu dropped %lu failures %" PRIu64 " lacked %lu\n", sent, frames - sent, counts.journal_failed,
           lacked);
    return end();
}

/* ---- A key agreement ---- */

/* Installs a key as the owner of the device does, at both ends, and creates the associations of one end. It sends from
 * this packet number on. */
static void begin_key(unsigned an, unsigned key, unsigned pn) {
    install_key(&e, key);
    numbers_note_key(n, key, true);
    create_association(an, key);
    numbers_begin_to_receive(n, &e, other_sci, (uint8_t)an);
    carry_out(&e, "A txsa %u %u %x conf", an, key, pn);
    numbers_begin_to_send(n, &e, (uint8_t)an);
    carry_out(&e, "A txon %u", an);
    install_key(&peer, key);
}

static void retire_key(unsigned an, unsigned key) {
    carry_out(&e, "A rxdel %s %u", other, an);
    carry_out(&e, "A txdel %u", an);
    carry_out(&e, "A retire %u", key);
    numbers_note_retired(n, key, true);
    numbers_go_on(n, &e);
    carry_out(&peer, "A retire %u", key);
}

/* A frame is sent, and the peer sends one with this packet number. */
static void pass_frames(unsigned an, unsigned key, unsigned pn) {
    (void)send_frame(&e, out);
    carry_out(&peer, "A txsa %u %u %x conf", an, key, pn);
    carry_out(&peer, "A txon %u", an);
    (void)receive_frame();
    carry_out(&peer, "A txdel %u", an);
}

static int run_agree(unsigned count, const char *name) {
    out = create_capture(name);
    for (unsigned number = 0; number < 2; number++) {
        create();
        carry_out(&e, "A rxsc %s", other);
        numbers_begin(n, &e);
        begin_key(0, 0, 1);
        pass_frames(0, 0, 1 + number);
        if (number == 1)
            break;
        retire_key(0, 0);
        numbers_note_accepted(n, &e, NULL);
        numbers_forget(n);
        macsec_free(&e);
        macsec_free(&peer);
    }
    for (unsigned key = 1; key <= count; key++) { /* with packet numbers that no other key has */
        begin_key(1, key, key << 20);
        pass_frames(1, key, key << 20);
        retire_key(1, key);
    }
    return end();
}

/* ---- Amounts ---- */

static void receive_frames(struct receive_rate *p, unsigned count) {
    for (unsigned it = 0; it < count; it++)
        receive_rates_count(p);
}

static void print_amount(const char *what, struct receive_rate *p, double slow) {
    printf("%s %" PRIu64 "\n", what, receive_rates_amount(p, slow));
}

static int run_rates(void) {
    static struct receive_rates rates;
    struct receive_rate *p = receive_rates_of(&rates, other_sci);
    for (int frame = 0; frame < 10; frame++) {
        print_amount("new", p, 5);
        receive_frames(p, 1);
        receive_rates_tick(&rates);
    }
    receive_frames(receive_rates_of(&rates, another_sci), 2);
    print_amount("two", receive_rates_of(&rates, another_sci), 0);
    receive_frames(p, 1000);
    print_amount("busy", p, 0);
    receive_rates_tick(&rates);
    print_amount("slow", p, 5);
    for (int tick = 0; tick < 60; tick++) {
        print_amount("falling", p, 0);
        receive_rates_tick(&rates);
    }
    for (unsigned frame = 0; frame < 300; frame++)
        (void)receive_rates_lacked(p, 1, false);
    print_amount("first", p, 0);
    (void)receive_rates_lacked(p, 2, true);
    print_amount("next", p, 0);
    receive_rates_tick(&rates);
    print_amount("later", p, 0);
    receive_frames(p, 3000);
    print_amount("fast", p, 0);
    receive_frames(p, 17000);
    print_amount("faster", p, 0);
    receive_frames(p, 1 << 20);
    print_amount("most", p, 0);
    return 0;
}

int main(int count, char **words) {
    if (count == 2 && strcmp(words[1], "rates") == 0)
        return run_rates();
    if (count < 3)
        return 2;
    journal_path = words[2];
    if (strcmp(words[1], "create") == 0)
        return numbers_create("journal") == 0 ? 0 : 3;
    if (count > 3 && setenv("LIMIT", words[3], 1) != 0)
        return 1;
    if (numbers_open(n, "journal", "", &counts) != 0)
        return 3;
    if (count == 6 && strcmp(words[1], "agree") == 0)
        return run_agree((unsigned)strtoul(words[4], NULL, 10), words[5]);
    return count == 8 && strcmp(words[1], "send") == 0 ? run_send(strtoul(words[6], NULL, 10), words[7]) : 2;
}
