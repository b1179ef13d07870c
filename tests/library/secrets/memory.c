/* Takes keys, uses them, and frees them, and stops after each step: tests/library/keys-in-memory reads its memory then.
 *
 * usage: memory WAY SUITE KEYS: SUITE is 1 to 4. WAY is struct, line, parsed (lines that are parsed, and then carried
 * out), loaded (parsed, and then loaded) or config, and KEYS how many keys come one after another. Or, as with struct:
 * rekeys, and KEYS is how many changes of keys there are; beside, and a third endpoint lives on; locked, and the memory
 * is locked; journal, and the endpoints have a journal; ahead, and they also reserve packet numbers ahead of receiving;
 * jobs, and the frames pass in slots; kept, and no key is retired.
 *
 * Its standard input has the octets of the first key, for each of two rounds, those of the next one for each change of
 * keys, and an octet for each step. The octets of a key are in no variable when a step is announced. The endpoints of
 * the second round take memory that those of the first have freed.
 */
#define _GNU_SOURCE
#include "../suites.h"
#include "macsec.h"
#include <stdio.h>
#include <stdlib.h>
#include <string.h>
#include <sys/mman.h>
#include <unistd.h>

static const uint8_t own[8] = { 2, 0, 0, 0, 0, 1, 0, 1 }, other[8] = { 2, 0, 0, 0, 0, 2, 0, 1 };
static uint32_t suite;
static const char *way;

static void must(const char *what, uint32_t status) {
    if (status != MACSEC_OK) {
        fprintf(stderr, "%s: %s\n", what, macsec_status_name(status));
        exit(2);
    }
}

static void take(void *octets, size_t length) {
    for (size_t at = 0; at < length;) {
        ssize_t got = read(STDIN_FILENO, (uint8_t *)octets + at, length - at);
        if (got <= 0)
            exit(3);
        at += (size_t)got;
    }
}

/* Announces a step, and waits until its reader has looked at this memory. */
static void step(const char *name) {
    char go;
    dprintf(STDOUT_FILENO, "%s\n", name);
    take(&go, 1);
}

static bool is_xpn(void) {
    return suite_is_extended(suite);
}

static uint8_t key_length(void) {
    return suite_key_octets(suite);
}

/* The line of a script that installs a key. */
static size_t key_line(char line[200], const macsec_sak *key, const char *before) {
    size_t at = (size_t)sprintf(line, "%sA key %u ", before, key->number);
    for (unsigned i = 0; i < key->length; i++) {
        line[at++] = "0123456789abcdef"[key->bytes[i] >> 4];
        line[at++] = "0123456789abcdef"[key->bytes[i] & 15];
    }
    at += (size_t)sprintf(line + at, " 0 %s", macsec_suite_name(suite));
    if (is_xpn())
        at += (size_t)sprintf(line + at, " %08x 000000000000000000000000", key->ssci);
    return at;
}

static bool is_way(const char *name) {
    return strcmp(way, name) == 0;
}

static bool is_by_line(void) {
    return is_way("line") || is_way("parsed") || is_way("loaded");
}

static void take_line(macsec_endpoint *e, const char *line, size_t length) {
    if (is_way("line")) {
        must("line", macsec_command_line(e, (const uint8_t *)line, length));
        return;
    }
    macsec_command command;
    must("parse", macsec_parse_line((const uint8_t *)line, length, &command));
    if (is_way("loaded")) {
        uint64_t begins;
        size_t place;
        must("load", macsec_load(e, &command, 1, &begins, &place));
    } else {
        must("carry out", macsec_carry_out(e, &command));
    }
    macsec_clear_command(&command);
}

static void install(macsec_endpoint *e, const macsec_sak *key) {
    if (!is_by_line()) {
        must("install", macsec_install_key(e, key));
        return;
    }
    char line[200];
    size_t length = key_line(line, key, "");
    take_line(e, line, length);
    explicit_bzero(line, sizeof line);
}

/* An endpoint without a key, or of a CONFIG that has one. */
static void make(macsec_endpoint *e, const uint8_t sci[8], const macsec_sak *key) {
    macsec_config config = { { 0 }, suite, MACSEC_FORM_SCI, 1546 };
    memcpy(config.sci, sci, sizeof config.sci);
    if (is_way("journal") || is_way("ahead")) {
        const uint8_t salt[24] = { 9 };
        macsec_record header;
        must("header", macsec_journal_header(salt, &header));
        must("open", macsec_reserve_open(e, &config, header.octets, sizeof header.octets, is_way("ahead")));
        return;
    }
    if (!is_way("config")) {
        must("new", macsec_new(e, &config));
        return;
    }
    char text[300], end[100];
    uint32_t at;
    sprintf(end, "end A gcm128 0200000000%02x0001 1546 sci\n", sci[5]);
    size_t length = key_line(text, key, end);
    must("configure", macsec_configure(e, (const uint8_t *)text, length, &at));
    explicit_bzero(text, sizeof text);
}

/* The copies of a key that this program makes are in these, and are overwritten. */
static uint8_t octets[32];
static macsec_sak key;

/* Fills in all but a key's octets. Its SSCI is the last octet of the endpoint's address. */
static void prepare(uint16_t number, const uint8_t sci[8]) {
    key.number = number;
    key.suite = suite;
    key.ssci = is_xpn() ? sci[5] : 0;
    key.length = key_length();
}

/* The key that is looked for is number 0. */
static void take_key(macsec_endpoint *e, const uint8_t sci[8]) {
    prepare(0, sci);
    memcpy(key.bytes, octets, key.length);
    make(e, sci, &key);
    if (!is_way("config"))
        install(e, &key);
    explicit_bzero(&key, sizeof key);
}

static void take_others(macsec_endpoint *e, const uint8_t sci[8], unsigned count) {
    for (unsigned number = 1; number < count; number++) {
        prepare((uint16_t)number, sci);
        memset(key.bytes, (int)(number & 0xff), sizeof key.bytes);
        key.bytes[0] = (uint8_t)(number >> 8);
        must("install another", macsec_install_key(e, &key));
    }
}

static void associate(macsec_endpoint *a, macsec_endpoint *b, uint8_t an, uint16_t number) {
    macsec_record record;
    must("add", macsec_add_tx_sa(a, an, number, 1, true));
    must("wanted", macsec_reserve_wanted(a, an, 1000, &record));
    must("granted", macsec_reserve_granted(a, &record));
    must("enable", macsec_enable_tx_sa(a, an));
    must("rxsa", macsec_add_rx_sa(b, own, an, number, 1, is_xpn() ? 1 : 0));
    must("rxon", macsec_enable_rx_sa(b, own, an));
}

static void retire(macsec_endpoint *e, uint16_t number) {
    char line[20];
    if (is_by_line()) {
        size_t length = (size_t)sprintf(line, "A retire %u", number);
        take_line(e, line, length);
    } else if (!is_way("kept")) {
        must("retire", macsec_retire_key(e, number));
    }
}

/* The key is no longer used, and is retired at both ends. */
static void give_up(macsec_endpoint *a, macsec_endpoint *b, uint8_t an, uint16_t number) {
    must("disable", macsec_disable_tx_sa(a, an));
    must("delete", macsec_delete_tx_sa(a, an));
    must("rxdel", macsec_delete_rx_sa(b, own, an));
    retire(a, number);
    retire(b, number);
}

/* A frame on the link. */
static uint8_t sent_frame[1500];
static size_t sent_length;

static void send_frame(macsec_endpoint *a, size_t length) {
    const uint8_t frame[1400] = { 2 };
    macsec_sent sent;
    must("send", macsec_send(a, frame, length, &sent));
    memcpy(sent_frame, sent.frame, sent.length);
    sent_length = sent.length;
}

static macsec_received receive_frame(macsec_endpoint *b) {
    macsec_received got;
    must("receive", macsec_receive(b, sent_frame, sent_length, &got));
    return got;
}

/* With `ahead` a frame whose packet number is not reserved is opened on the stack, and dropped. Then this number and
 * the next seven are reserved. */
static void accept(macsec_endpoint *b, const macsec_received *got) {
    macsec_record record;
    must("to accept", macsec_reserve_to_accept(b, got->sci, got->an, 7, got->pn, &record));
    must("granted", macsec_reserve_granted(b, &record));
}

/* Passes frames. With `ahead` the last one is dropped. */
static void pass_frames(macsec_endpoint *a, macsec_endpoint *b) {
    for (size_t i = 0; i < 100; i++) {
        send_frame(a, 14 + i * 13);
        macsec_received got = receive_frame(b);
        if (is_way("ahead") && got.verdict == MACSEC_VERDICT_NO_RESERVATION) {
            accept(b, &got);
            got = receive_frame(b);
        }
        if (!got.delivered)
            exit(4);
    }
    for (bool delivered = is_way("ahead"); delivered;) {
        send_frame(a, 1400);
        delivered = receive_frame(b).delivered;
    }
}

/* ---- Frames in slots ---- */

static macsec_slot slots[2] = { MACSEC_SLOT_INIT, MACSEC_SLOT_INIT };
static macsec_key taken[2] = { MACSEC_KEY_INIT, MACSEC_KEY_INIT };

/* The calls with slots can leave octets of keys on the stack, as the header says. */
__attribute__((noinline)) static void clear_stack(void) {
    uint8_t area[1 << 16];
    explicit_bzero(area, sizeof area);
}

static void take_keys(macsec_endpoint *a, macsec_endpoint *b) {
    must("take", macsec_key_take(&taken[0], a, 0));
    must("take", macsec_key_take(&taken[1], b, 0));
}

static void free_keys(void) {
    macsec_key_free(&taken[0]);
    macsec_key_free(&taken[1]);
}

/* A frame that was planned is sealed, and one that was received is opened. */
static void pass_in_slots(macsec_endpoint *a, macsec_endpoint *b, const uint8_t *frame, size_t length) {
    static uint8_t link[MACSEC_FRAME_MAX], out[MACSEC_FRAME_MAX];
    macsec_planned planned;
    macsec_finished finished;
    size_t written = 0;
    must("plan", macsec_plan_send(a, &slots[0], frame, length, &planned));
    must("seal", macsec_seal_job(&slots[0], &taken[0], link, sizeof link, &written));
    must("plan", macsec_plan_receive(b, &slots[1], link, written, &planned));
    must("open", macsec_open_job(&slots[1], &taken[1]));
    must("finish", macsec_finish_receive(b, &slots[1], out, sizeof out, &finished));
    if (!finished.delivered)
        exit(4);
}

/* Frames in slots, whose jobs are all done. */
static void pass_all_in_slots(macsec_endpoint *a, macsec_endpoint *b) {
    const uint8_t frame[1400] = { 2 };
    must("slot", macsec_slot_new(&slots[0]));
    must("slot", macsec_slot_new(&slots[1]));
    take_keys(a, b);
    for (size_t i = 0; i < 100; i++)
        pass_in_slots(a, b, frame, 14 + i * 13);
    free_keys();
    clear_stack();
}

/* A frame in each slot whose job is not done, and keys that are taken. */
static void leave_in_slots(macsec_endpoint *a, macsec_endpoint *b) {
    const uint8_t frame[1400] = { 2 };
    macsec_sent sent;
    macsec_planned planned;
    must("send", macsec_send(a, frame, sizeof frame, &sent));
    must("plan", macsec_plan_receive(b, &slots[1], sent.frame, sent.length, &planned));
    must("plan", macsec_plan_send(a, &slots[0], frame, sizeof frame, &planned));
    take_keys(a, b);
    clear_stack();
}

static void release(void) {
    free_keys();
    macsec_slot_free(&slots[0]);
    macsec_slot_free(&slots[1]);
    step("released");
}

/* ---- Changes of keys ---- */

/* Each key is used, and given up at both ends when the next one is there. */
static void change_keys(macsec_endpoint *a, macsec_endpoint *b, uint16_t changes) {
    for (uint16_t number = 1; number <= changes; number++) {
        uint8_t an = number % 4, old = (uint8_t)(number - 1) % 4;
        take(octets, key_length());
        prepare(number, own);
        memcpy(key.bytes, octets, key.length);
        install(a, &key);
        key.ssci = is_xpn() ? other[5] : 0;
        install(b, &key);
        explicit_bzero(&key, sizeof key);
        explicit_bzero(octets, sizeof octets);
        associate(a, b, an, number);
        pass_frames(a, b);
        give_up(a, b, old, (uint16_t)(number - 1));
        if (number % 10 == 0)
            step("rekeyed");
    }
}

/* ---- An endpoint that lives on ---- */

static macsec_endpoint beside = MACSEC_ENDPOINT_INIT;

static void begin_beside(void) {
    static const uint8_t sci[8] = { 2, 0, 0, 0, 0, 3, 0, 1 };
    make(&beside, sci, &key);
    prepare(0, sci);
    for (unsigned i = 0; i < key.length; i++)
        key.bytes[i] = (uint8_t)(7 * i + 3);
    install(&beside, &key);
    explicit_bzero(&key, sizeof key);
    must("add", macsec_add_tx_sa(&beside, 0, 0, 1, true));
    must("enable", macsec_enable_tx_sa(&beside, 0));
}

static void send_beside(void) {
    const uint8_t frame[1400] = { 2 };
    macsec_sent sent;
    if (is_way("beside"))
        must("send", macsec_send(&beside, frame, sizeof frame, &sent));
}

/* ---- Rounds ---- */

static void round_of(unsigned count) {
    macsec_endpoint a = MACSEC_ENDPOINT_INIT, b = MACSEC_ENDPOINT_INIT;
    uint16_t changes = is_way("rekeys") ? (uint16_t)count : 0;
    take(octets, key_length());
    take_key(&a, own);
    take_key(&b, other);
    explicit_bzero(octets, sizeof octets);
    take_others(&a, own, changes == 0 ? count : 0);
    take_others(&b, other, changes == 0 ? count : 0);
    step("installed");
    must("rxsc", macsec_add_rx_sc(&b, own));
    associate(&a, &b, 0, 0);
    step("associated");
    pass_frames(&a, &b);
    if (is_way("jobs"))
        pass_all_in_slots(&a, &b);
    send_beside();
    step("used");
    change_keys(&a, &b, changes);
    if (is_way("jobs"))
        leave_in_slots(&a, &b);
    give_up(&a, &b, changes % 4, changes);
    step("retired");
    if (is_way("jobs"))
        release();
    macsec_free(&a);
    macsec_free(&b);
    send_beside();
    step("freed");
}

int main(int words, char **word) {
    if (words != 4)
        return 1;
    way = word[1];
    suite = (uint32_t)atoi(word[2]);
    if (is_way("locked") && mlockall(MCL_CURRENT | MCL_FUTURE | MCL_ONFAULT) != 0)
        return 5;
    if (is_way("beside"))
        begin_beside();
    round_of((unsigned)atoi(word[3]));
    round_of((unsigned)atoi(word[3]));
    macsec_free(&beside);
    return 0;
}
