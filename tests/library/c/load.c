/* Commands that are carried out all or none (macsec_load). It compares what every reader shows before and after. */
#include "macsec.h"
#include <stdio.h>
#include <stdlib.h>
#include <string.h>

enum { COUNT = 8, SENT = 5, TEXT = 8192, REFUSED = 4 };

static const uint8_t peer_sci[8] = { 2, 0, 0, 0, 0, 2, 0, 1 }, other_sci[8] = { 2, 0, 0, 0, 0, 3, 0, 1 };
static const char own_lines[] = "end A gcm128 0200000000010001 1600 sci\n"
                                "A key 0 2b2b2b2b2b2b2b2b2b2b2b2b2b2b2b2b 0\nA txsa 0 0 1 conf\nA txon 0\n"
                                "A key 1 3b3b3b3b3b3b3b3b3b3b3b3b3b3b3b3b 0\nA rxsc 0200000000020001\n"
                                "A rxsa 0200000000020001 0 1 1\nA rxon 0200000000020001 0\n";
static macsec_endpoint e = MACSEC_ENDPOINT_INIT;
static macsec_command commands[COUNT];
static uint64_t begins[COUNT];
static size_t count, place;

/* The allocation that is refused, counted from 1; 0: none. */
static unsigned refused, asked;

void *__real_malloc(size_t size);
void *__wrap_malloc(size_t size) {
    asked++;
    return asked == refused ? NULL : __real_malloc(size);
}

static void report(bool holds, const char *what) {
    if (!holds)
        printf("WRONG: %s\n", what);
}

static void must(const char *what, uint32_t status) {
    report(status == MACSEC_OK, what);
}

/* ---- What the readers show ---- */

struct shown {
    macsec_options options;
    macsec_counters counters;
    macsec_tx_counters tx_counters;
    uint32_t keys_left;
    macsec_tx_sa tx[MACSEC_AN_COUNT];
    uint8_t scis[MACSEC_RX_CHANNEL_COUNT][8];
    macsec_rx_counters rx_counters[2], removed[2], sa_counters[2][MACSEC_AN_COUNT];
    macsec_rx_sa rx[2][MACSEC_AN_COUNT];
    char counters_text[TEXT], numbers_text[TEXT];
};

static void show_text(const char *line, char text[TEXT]) {
    size_t written;
    must(line, macsec_answer(&e, 1, (const uint8_t *)line, strlen(line), (uint8_t *)text, TEXT, &written));
}

static void show_channel(struct shown *s, int number, const uint8_t sci[8]) {
    (void)macsec_get_rx_counters(&e, sci, &s->rx_counters[number]);
    (void)macsec_get_removed_counters(&e, sci, &s->removed[number]);
    for (uint8_t an = 0; an < MACSEC_AN_COUNT; an++) {
        (void)macsec_get_rx_sa(&e, sci, an, &s->rx[number][an]);
        (void)macsec_get_rx_sa_counters(&e, sci, an, &s->sa_counters[number][an]);
    }
}

static void show(struct shown *s) {
    memset(s, 0, sizeof *s);
    must("options", macsec_get_options(&e, &s->options));
    must("counters", macsec_get_counters(&e, &s->counters));
    must("tx counters", macsec_get_tx_counters(&e, &s->tx_counters));
    must("keys left", macsec_keys_left(&e, &s->keys_left));
    for (uint8_t an = 0; an < MACSEC_AN_COUNT; an++)
        (void)macsec_get_tx_sa(&e, an, &s->tx[an]);
    for (size_t i = 0; i < MACSEC_RX_CHANNEL_COUNT; i++)
        (void)macsec_get_rx_sc(&e, i, s->scis[i]);
    show_channel(s, 0, peer_sci);
    show_channel(s, 1, other_sci);
    show_text("A counters", s->counters_text);
    show_text("A numbers", s->numbers_text);
}

/* ---- Commands ---- */

static macsec_command *add(uint32_t kind, uint16_t key, uint8_t an) {
    macsec_command *c = &commands[count++];
    macsec_clear_command(c);
    c->kind = kind;
    c->key = c->sak.number = key;
    c->an = an;
    return c;
}

static void add_key(uint16_t number, uint8_t octet) {
    macsec_command *c = add(MACSEC_COMMAND_KEY, number, 0);
    c->sak.length = 16;
    memset(c->sak.bytes, octet, 16);
}

static void add_tx_sa(uint16_t key, uint8_t an, uint64_t pn) {
    macsec_command *c = add(MACSEC_COMMAND_TX_SA, key, an);
    c->pn = pn;
    c->flag = 1;
}

/* The number of a key that is retired by the command before comes again, and an association begins above what was sent
 * under its key. */
static void add_good(void) {
    count = 0;
    add(MACSEC_COMMAND_TX_DEL, 0, 0);
    add_tx_sa(0, 1, 1);
    add(MACSEC_COMMAND_TX_ON, 0, 1);
    add(MACSEC_COMMAND_RETIRE, 2, 0);
    add_key(2, 0x77);
    add_tx_sa(2, 2, 9);
    add(MACSEC_COMMAND_NONE, 0, 0);
}

static void send_frames(void) {
    static const uint8_t frame[64] = { 2, 0, 0, 0, 0, 9, 2, 0, 0, 0, 0, 1, 8, 0 };
    macsec_sent sent;
    for (int i = 0; i < SENT; i++)
        must("send", macsec_send(&e, frame, sizeof frame, &sent));
}

/* A load that changes nothing: neither the endpoint nor the numbers. */
static uint32_t load_in_vain(const char *what, size_t wanted) {
    static struct shown before, after;
    uint64_t marks[COUNT];
    uint32_t status;
    memset(begins, 0x55, sizeof begins);
    memcpy(marks, begins, sizeof marks);
    show(&before);
    asked = 0;
    place = 99;
    status = macsec_load(&e, commands, count, begins, &place);
    show(&after);
    report(memcmp(&before, &after, sizeof before) == 0, what);
    report(memcmp(marks, begins, sizeof marks) == 0 && place == wanted, what);
    return status;
}

static void load_nothing(void) {
    macsec_endpoint none = MACSEC_ENDPOINT_INIT;
    place = 99;
    report(macsec_load(&none, commands, count, begins, &place) == MACSEC_E_EMPTY && place == 0, "no endpoint");
    place = 99;
    report(macsec_load(&e, NULL, 0, NULL, &place) == MACSEC_OK && place == 0, "no command");
    place = 99;
    report(macsec_load_raw(&e, commands, count, begins, count - 1, &place) == MACSEC_E_SPACE && place == 0, "space");
}

/* One command is refused, at each place between good ones. */
static void load_refused(void) {
    for (size_t at = 0; at <= REFUSED; at++) {
        add_good();
        memmove(&commands[at + 1], &commands[at], (count - at) * sizeof *commands);
        macsec_clear_command(&commands[at]);
        commands[at].kind = MACSEC_COMMAND_TX_ON;
        commands[at].an = 3;
        count++;
        report(load_in_vain("refused", at) == MACSEC_E_NO_SA, "a command that is refused");
        commands[count - 1].kind = 99;
        report(load_in_vain("none", count - 1) == MACSEC_E_NO_SUCH_COMMAND, "a command that means nothing");
    }
    count = 0;
    add(MACSEC_COMMAND_TX_OFF, 0, 0);
    add_key(9, 0x2b);
    report(load_in_vain("repeated", 1) == MACSEC_E_KEY_REPEATED, "octets of another key");
}

/* Each allocation is refused once, and then none is. */
static void load_without_memory(void) {
    add_good();
    for (refused = 1; refused <= 16; refused++)
        report(load_in_vain("memory", 0) == MACSEC_E_MEMORY, "an allocation that is refused");
    refused = 0;
}

static void load_good(void) {
    macsec_tx_sa sa;
    add_good();
    memset(begins, 0x55, sizeof begins);
    must("load", macsec_load(&e, commands, count, begins, &place));
    report(place == count, "the place after all commands");
    for (size_t i = 0; i < count; i++)
        report(begins[i] == (i == 1 ? SENT + 1 : 0), "where an association begins");
    must("the association", macsec_get_tx_sa(&e, 1, &sa));
    report(sa.next == SENT + 1 && sa.on && macsec_get_tx_sa(&e, 0, &sa) == MACSEC_E_NOT_FOUND, "associations");
    must("the association of the new key", macsec_get_tx_sa(&e, 2, &sa));
    report(sa.next == 9 && sa.key == 2, "the number of a retired key");
    count = 0;
    add(MACSEC_COMMAND_TX_DEL, 0, 2);
    add(MACSEC_COMMAND_RETIRE, 2, 0);
    add_key(3, 0x77);
    report(load_in_vain("retired", 2) == MACSEC_E_KEY_REPEATED, "octets of a key that the load retires");
    commands[1].kind = MACSEC_COMMAND_NONE;
    commands[2] = commands[1];
    must("load again", macsec_load(&e, commands, count, begins, &place));
}

/* The association begins above what the journal reserves; no number is left above the last one. */
static void load_beside_journal(void) {
    static const uint8_t salt[24] = { 7 };
    static const uint8_t sci[8] = { 2, 0, 0, 0, 0, 1, 0, 1 };
    macsec_config config = { { 0 }, MACSEC_SUITE_GCM_AES_128, MACSEC_FORM_SCI, 1518 };
    macsec_record journal[2];
    memcpy(config.sci, sci, sizeof sci);
    must("header", macsec_journal_header(salt, &journal[0]));
    for (uint64_t next = 1; next <= 0x100000000u - 7; next += 0x100000000u - 8) {
        must("open", macsec_reserve_open(&e, &config, journal[0].octets, sizeof journal[0], true));
        count = 0;
        add_key(0, 0x2b);
        add_tx_sa(0, 0, next);
        must("load", macsec_load(&e, commands, count, begins, &place));
        must("wanted", macsec_reserve_wanted(&e, 0, 100, &journal[1]));
        macsec_free(&e);
        must("open", macsec_reserve_open(&e, &config, journal[0].octets, sizeof journal, true));
        if (next == 1) {
            must("load", macsec_load(&e, commands, count, begins, &place));
            printf("beside a journal the association begins at %u\n", (unsigned)begins[1]);
        } else {
            report(load_in_vain("floor", 1) == MACSEC_E_PN_FLOOR, "no packet number is left");
        }
        macsec_free(&e);
    }
}

int main(void) {
    uint32_t line;
    must("configure", macsec_configure(&e, (const uint8_t *)own_lines, sizeof own_lines - 1, &line));
    send_frames();
    add_key(2, 0x66);
    must("key", macsec_carry_out(&e, &commands[0]));
    load_nothing();
    load_refused();
    load_without_memory();
    load_good();
    macsec_free(&e);
    load_beside_journal();
    printf("macsec_load carries out all commands or none\n");
    return 0;
}
