/* Uses an endpoint under valgrind, with secrets marked as undefined: tests/library/constant-time builds and runs it.
 *
 * usage: constant_time MODE, with some of these letters in MODE:
 *   k  keys are secret        d  the client's data is secret, from octet 12 on
 *   j  with a journal         t  keys are installed as lines of text, and one in a CONFIG
 *   a  the receiver has a journal too, and reserves packet numbers ahead of receiving
 *   s b c e  a planted mistake each: an S-box read by index, a branch on an octet of a key, a tag compared octet by
 *            octet, a search for a key that ends at the first octet that differs
 *
 * Memcheck reports each branch and each address that depends on an undefined value. What an attacker sees in any case
 * is marked as defined again: the status of each call, what it answers, and each frame once it is on the link.
 */
#include "../suites.h"
#include "macsec.h"
#include <stdio.h>
#include <stdlib.h>
#include <string.h>
#include <valgrind/memcheck.h>

#define COUNT(array) (sizeof(array) / sizeof *(array))

static bool keys, data, journal, ahead, text;
static unsigned frames, hidden, unreserved;

static void secret(void *octets, size_t length) {
    (void)VALGRIND_MAKE_MEM_UNDEFINED(octets, length);
}

static void shown(void *octets, size_t length) {
    (void)VALGRIND_MAKE_MEM_DEFINED(octets, length);
}

static void must(const char *what, uint32_t status, uint32_t wanted) {
    shown(&status, sizeof status);
    if (status != wanted) {
        fprintf(stderr, "%s: %s\n", what, macsec_status_name(status));
        exit(2);
    }
}

static void must_be(const char *what, uint32_t found, uint32_t wanted) {
    if (found != wanted) {
        fprintf(stderr, "%s: %u, not %u\n", what, found, wanted);
        exit(2);
    }
}

/* Is an octet of these still marked? */
static bool is_hidden(const uint8_t *octets, size_t length) {
    uint8_t bits[16];
    return VALGRIND_GET_VBITS(octets, bits, length) == 1 && memchr(bits, 0xff, length) != NULL;
}

static const uint8_t own[8] = { 2, 0, 0, 0, 0, 1, 0, 1 }, other[8] = { 2, 0, 0, 0, 0, 2, 0, 1 };
static uint8_t store[1 << 16];
static size_t stored;

static void open_endpoint(macsec_endpoint *e, const uint8_t sci[8], uint32_t suite) {
    macsec_config config = { { 0 }, suite, MACSEC_FORM_SCI, MACSEC_FRAME_MAX };
    memcpy(config.sci, sci, sizeof config.sci);
    if (sci == own ? journal : ahead)
        must("open", macsec_reserve_open(e, &config, store, stored, sci != own), MACSEC_OK);
    else
        must("new", macsec_new(e, &config), MACSEC_OK);
}

static macsec_sak sak(uint16_t number, uint32_t suite, uint8_t offset, uint32_t ssci, unsigned seed) {
    macsec_sak key = {
        .number = number, .suite = suite, .offset = offset, .ssci = suite_is_extended(suite) ? ssci : 0
    };
    key.length = suite_key_octets(suite);
    for (unsigned i = 0; i < key.length; i++)
        key.bytes[i] = (uint8_t)(i * 37 + 11 + seed * 101);
    for (unsigned i = 0; suite_is_extended(suite) && i < sizeof key.salt; i++)
        key.salt[i] = (uint8_t)(i + seed);
    return key;
}

static size_t hex(char *to, const uint8_t *octets, size_t count) {
    for (size_t i = 0; i < count; i++)
        sprintf(to + 2 * i, "%02x", octets[i]);
    return 2 * count;
}

/* The words of a key after `key`, in a line of a script and in a CONFIG. */
static size_t key_words(char line[300], const macsec_sak *key, const char *before) {
    size_t at = (size_t)sprintf(line, "%skey %u ", before, key->number);
    char *digits = line + at;
    at += hex(digits, key->bytes, key->length);
    at += (size_t)sprintf(line + at, " %u %s", key->offset, macsec_suite_name(key->suite));
    if (suite_is_extended(key->suite)) {
        at += (size_t)sprintf(line + at, " %08x ", key->ssci);
        at += hex(line + at, key->salt, sizeof key->salt);
        line[at] = 0;
    }
    if (keys)
        secret(digits, 2u * key->length);
    return at;
}

/* Carries out a line as it is, or parses it first. */
static uint32_t take_line(macsec_endpoint *e, const char *line, size_t length, bool parses) {
    if (!parses)
        return macsec_command_line(e, (const uint8_t *)line, length);
    macsec_command command;
    uint32_t status = macsec_parse_line((const uint8_t *)line, length, &command);
    if (status == MACSEC_OK)
        status = macsec_carry_out(e, &command);
    macsec_clear_command(&command);
    return status;
}

static void install_as(macsec_endpoint *e, macsec_sak key, uint16_t number, uint32_t wanted) {
    char line[300];
    key.number = number;
    if (text) {
        size_t length = key_words(line, &key, "A ");
        must("key line", take_line(e, line, length, number % 2 != 0), wanted);
        return;
    }
    if (keys)
        secret(key.bytes, key.length);
    must("install", macsec_install_key(e, &key), wanted);
}

static void install(macsec_endpoint *e, macsec_sak key) {
    install_as(e, key, key.number, MACSEC_OK);
    if (key.number == 0 && !text)
        install_as(e, key, 77, MACSEC_E_KEY_REPEATED);
}

/* What an endpoint answers to lines, and the record that saves a packet number. */
static void ask(macsec_endpoint *e, const uint8_t sci[8]) {
    static const char *const lines[] = { "A counters", "A numbers" };
    static uint8_t answer[1 << 16];
    for (size_t i = 0; i < COUNT(lines); i++) {
        size_t written = 0;
        uint32_t status =
            macsec_answer(e, 1, (const uint8_t *)lines[i], strlen(lines[i]), answer, sizeof answer, &written);
        must(lines[i], status, MACSEC_OK);
    }
    macsec_record record;
    must("to save", macsec_reserve_to_save(e, sci, 0, &record), MACSEC_OK);
}

/* An endpoint of a text with a key. */
static void configure(void) {
    char line[600];
    macsec_sak key = sak(3, MACSEC_SUITE_GCM_AES_256, 30, 0, 500);
    size_t length = key_words(line, &key, "end A gcm256 0200000000010001 1518 sci\nA ");
    macsec_endpoint e = MACSEC_ENDPOINT_INIT;
    uint32_t at;
    must("configure", macsec_configure(&e, (const uint8_t *)line, length, &at), MACSEC_OK);
    macsec_free(&e);
}

/* A record is on the disk. */
static void grant(macsec_endpoint *e, macsec_record *record) {
    shown(record, sizeof *record);
    memcpy(store + stored, record->octets, MACSEC_RECORD_LENGTH);
    stored += MACSEC_RECORD_LENGTH;
    must("granted", macsec_reserve_granted(e, record), MACSEC_OK);
}

/* A valid frame was dropped because of its packet number: reserves this one and the next one. */
static void accept(macsec_endpoint *b, uint64_t pn) {
    macsec_record record;
    unreserved++;
    must("to accept", macsec_reserve_to_accept(b, own, 0, 1, pn, &record), MACSEC_OK);
    grant(b, &record);
}

static macsec_received received(macsec_endpoint *b, const uint8_t *frame, size_t length) {
    macsec_received got;
    must("receive", macsec_receive(b, frame, length, &got), MACSEC_OK);
    shown(&got, sizeof got);
    return got;
}

/* With a wrong tag, and as it was sent: again, if its packet number was not reserved. */
static void receive_twice(macsec_endpoint *b, uint8_t *frame, size_t length) {
    frame[length - 1] ^= 1;
    must_be("verdict", received(b, frame, length).verdict, MACSEC_VERDICT_NOT_VALID);
    frame[length - 1] ^= 1;
    macsec_received got = received(b, frame, length);
    if (ahead && got.verdict == MACSEC_VERDICT_NO_RESERVATION) {
        accept(b, got.pn);
        got = received(b, frame, length);
    }
    must_be("verdict", got.verdict, MACSEC_VERDICT_OK);
}

static uint8_t *client_frame(size_t length) {
    uint8_t *frame = malloc(length);
    for (size_t i = 0; i < length; i++)
        frame[i] = (uint8_t)(i * 7);
    frame[0] = 2;
    if (length > 13)
        frame[12] = 8, frame[13] = 0;
    if (data)
        secret(frame + 12, length - 12);
    return frame;
}

/* One frame from a to b, with a wrong tag first. */
static void pass(macsec_endpoint *a, macsec_endpoint *b, size_t length) {
    uint8_t *frame = client_frame(length);
    macsec_sent sent;
    must("send", macsec_send(a, frame, length, &sent), MACSEC_OK);
    shown(&sent, sizeof sent);
    must_be("fate", sent.fate, MACSEC_FATE_PROTECTED);
    frames++;
    hidden += is_hidden(sent.frame + sent.length - 16, 16);
    uint8_t *link = malloc(sent.length);
    memcpy(link, sent.frame, sent.length);
    shown(link, sent.length);
    receive_twice(b, link, sent.length);
    free(frame);
    free(link);
}

/* ---- Frames in slots ---- */

/* Keys of a and of b, the key number 1 of a, and a slot at each end. */
static macsec_key of_a, of_b, another;
static macsec_slot at_a, at_b;

static void open_slots(macsec_endpoint *a, macsec_endpoint *b) {
    must("take", macsec_key_take(&of_a, a, 0), MACSEC_OK);
    must("take", macsec_key_take(&of_b, b, 0), MACSEC_OK);
    must("take", macsec_key_take(&another, a, 1), MACSEC_OK);
    must("slot", macsec_slot_new(&at_a), MACSEC_OK);
    must("slot", macsec_slot_new(&at_b), MACSEC_OK);
}

static void free_slots(void) {
    macsec_key_free(&of_a);
    macsec_key_free(&of_b);
    macsec_key_free(&another);
    macsec_slot_free(&at_a);
    macsec_slot_free(&at_b);
}

static macsec_finished finished(macsec_endpoint *b, const uint8_t *link, size_t length) {
    static uint8_t out[MACSEC_FRAME_MAX];
    macsec_planned planned;
    macsec_finished got;
    must("plan a link frame", macsec_plan_receive(b, &at_b, link, length, &planned), MACSEC_OK);
    must("open by another", macsec_open_job(&at_b, &another), MACSEC_E_OTHER_KEY);
    must("open", macsec_open_job(&at_b, &of_b), MACSEC_OK);
    must("finish", macsec_finish_receive(b, &at_b, out, sizeof out, &got), MACSEC_OK);
    shown(&got, sizeof got);
    return got;
}

/* The same in a slot. */
static void open_twice(macsec_endpoint *b, uint8_t *link, size_t length) {
    link[length - 1] ^= 1;
    must_be("verdict", finished(b, link, length).verdict, MACSEC_VERDICT_NOT_VALID);
    link[length - 1] ^= 1;
    macsec_finished got = finished(b, link, length);
    if (ahead && got.verdict == MACSEC_VERDICT_NO_RESERVATION) {
        accept(b, got.pn);
        got = finished(b, link, length);
    }
    must_be("verdict", got.verdict, MACSEC_VERDICT_OK);
}

/* One frame from a to b by jobs, with a wrong tag first. */
static void pass_in_slots(macsec_endpoint *a, macsec_endpoint *b, size_t length) {
    static uint8_t link[MACSEC_FRAME_MAX];
    uint8_t *frame = client_frame(length);
    macsec_planned planned;
    size_t written = 0;
    must("plan", macsec_plan_send(a, &at_a, frame, length, &planned), MACSEC_OK);
    must("seal by another", macsec_seal_job(&at_a, &another, link, sizeof link, &written), MACSEC_E_OTHER_KEY);
    must("seal", macsec_seal_job(&at_a, &of_a, link, sizeof link, &written), MACSEC_OK);
    shown(&written, sizeof written);
    frames++;
    hidden += is_hidden(link + written - 16, 16);
    shown(link, written);
    open_twice(b, link, written);
    free(frame);
}

static void reserve(macsec_endpoint *a) {
    macsec_record record;
    must("wanted", macsec_reserve_wanted(a, 0, 65536, &record), MACSEC_OK);
    grant(a, &record);
}

static void run(uint32_t suite, uint8_t offset, bool encrypts, unsigned seed) {
    static const size_t lengths[] = { 14,  15,  28,  29,  43,  44,  60,   61,   62,   63,   64,  75,  76,
                                      77,  90,  91,  92,  108, 109, 127,  128,  129,  140,  141, 255, 256,
                                      268, 269, 300, 511, 524, 777, 1024, 1500, 1514, 4096, 9216 };
    macsec_endpoint a = MACSEC_ENDPOINT_INIT, b = MACSEC_ENDPOINT_INIT;
    open_endpoint(&a, own, suite);
    open_endpoint(&b, other, suite);
    for (uint16_t number = 0; number < 2; number++) {
        install(&a, sak(number, suite, offset, 1, seed + number));
        install(&b, sak(number, suite, offset, 2, seed + number));
    }
    must("add", macsec_add_tx_sa(&a, 0, 0, journal ? 70000 : 1, encrypts), MACSEC_OK);
    if (journal)
        reserve(&a);
    must("enable", macsec_enable_tx_sa(&a, 0), MACSEC_OK);
    must("rxsc", macsec_add_rx_sc(&b, own), MACSEC_OK);
    must("rxsa", macsec_add_rx_sa(&b, own, 0, 0, 1, suite_is_extended(suite) ? 1 : 0), MACSEC_OK);
    must("rxon", macsec_enable_rx_sa(&b, own, 0), MACSEC_OK);
    open_slots(&a, &b);
    for (size_t i = 0; i < COUNT(lengths); i++) {
        pass(&a, &b, lengths[i]);
        if (i % 4 == 0)
            pass_in_slots(&a, &b, lengths[i]);
    }
    free_slots();
    ask(&b, own);
    must("off", macsec_disable_tx_sa(&a, 0), MACSEC_OK);
    must("delete", macsec_delete_tx_sa(&a, 0), MACSEC_OK);
    must("retire", macsec_retire_key(&a, 0), MACSEC_OK);
    install_as(&a, sak(0, suite, offset, 1, seed), 78, MACSEC_E_KEY_REPEATED);
    macsec_free(&a);
    macsec_free(&b);
}

/* The planted mistakes, which must be reported. */
static const uint8_t planted[256] = { 1, 2, 3 };

__attribute__((noinline)) uint8_t planted_table(uint8_t index) {
    return ((const volatile uint8_t *)planted)[index];
}

__attribute__((noinline)) bool planted_branch(const volatile uint8_t *key) {
    if (key[1] != 0)
        return key[2] < 7;
    return true;
}

__attribute__((noinline)) bool planted_comparison(const volatile uint8_t *a, const volatile uint8_t *b) {
    for (int i = 0; i < 16; i++)
        if (a[i] != b[i])
            return false;
    return true;
}

__attribute__((noinline)) bool planted_search(const volatile uint8_t (*rows)[16], const volatile uint8_t *key) {
    for (int row = 0; row < 2; row++)
        for (int i = 0; i < 16 && rows[row][i] == key[i]; i++)
            if (i == 15)
                return true;
    return false;
}

static void plant(const char *mode) {
    uint8_t key[16] = { 1 }, rows[2][16] = { { 1, 2 }, { 1 } };
    secret(key, sizeof key);
    volatile uint8_t kept = 0;
    if (strchr(mode, 's'))
        kept = planted_table(key[3]);
    if (strchr(mode, 'b'))
        kept = planted_branch(key);
    if (strchr(mode, 'c'))
        kept = planted_comparison(key, rows[0]);
    if (strchr(mode, 'e'))
        kept = planted_search((const volatile uint8_t(*)[16])rows, key);
    (void)kept;
}

int main(int words, char **word) {
    const char *mode = words > 1 ? word[1] : "";
    keys = strchr(mode, 'k'), data = strchr(mode, 'd'), journal = strchr(mode, 'j'), text = strchr(mode, 't');
    ahead = strchr(mode, 'a');
    if (journal || ahead) {
        uint8_t salt[24] = { 9 };
        macsec_record header;
        must("header", macsec_journal_header(salt, &header), MACSEC_OK);
        memcpy(store, header.octets, MACSEC_RECORD_LENGTH), stored = MACSEC_RECORD_LENGTH;
    }
    plant(mode);
    if (text)
        configure();
    unsigned seed = 1;
    for (uint32_t suite = 1; suite <= LAST_SUITE; suite++)
        for (uint8_t offset = 0; offset <= (suite_is_extended(suite) ? 0 : 50); offset = offset == 0 ? 30 : offset + 20)
            for (int encrypts = 0; encrypts < 2; encrypts++, seed += 2)
                run(suite, offset, encrypts, seed);
    must_be("frames that were not reserved", ahead ? unreserved > frames / 4 : unreserved, ahead);
    /* If no mark reaches a tag, the reports mean nothing. */
    printf("%u frames, %u with a hidden tag\n", frames, hidden);
    return 0;
}
