/* Sends or receives a frame again and again, also by jobs, or installs keys: a program whose instructions are counted.
 *
 * usage: frames send OCTETS COUNT [OPTION] | receive OCTETS COUNT [OPTION] | jobs OCTETS COUNT | install SUITE COUNT
 *
 * A frame has so many octets of data, and is encrypted under a 128-bit key with an explicit SCI. OPTION is 256 for a
 * 256-bit key, or integrity for a frame that is not encrypted. Or it is journal for an endpoint beside a journal, whose
 * packet numbers are reserved once, before the first frame; or ahead for one that also reserves ahead of receiving. A
 * frame of jobs is planned, sealed, planned by the receiver, opened and finished. */
#include "macsec.h"
#include <stdio.h>
#include <stdlib.h>
#include <string.h>

/* Installs so many keys of a suite, and frees the endpoint. */
static bool install(uint32_t suite, unsigned count) {
    macsec_endpoint e = MACSEC_ENDPOINT_INIT;
    macsec_config config = { { 2, 0, 0, 0, 0, 1, 0, 1 }, suite, MACSEC_FORM_SCI, 1546 };
    if (macsec_new(&e, &config) != MACSEC_OK)
        return false;
    for (unsigned i = 0; i < count; i++) {
        macsec_sak key = { 0 };
        key.number = (uint16_t)i;
        key.length = suite == MACSEC_SUITE_GCM_AES_128 ? 16 : 32;
        key.bytes[0] = (uint8_t)i;
        key.bytes[1] = (uint8_t)(i >> 8);
        if (macsec_install_key(&e, &key) != MACSEC_OK)
            return false;
    }
    macsec_free(&e);
    return true;
}

/* How many packet numbers a record reserves. */
enum { AMOUNT = 1 << 20 };

static const uint8_t sci_a[8] = { 2, 0, 0, 0, 0, 1, 0, 1 };
static const char sends[] = "A txsa 0 0 1 conf\nA txon 0\n", sends_clear[] = "A txsa 0 0 1 int\nA txon 0\n";
static const char receives[] = "A replay on 4294967295\nA rxsc 0200000000010001\nA rxsa 0200000000010001 0 0 1\n"
                               "A rxon 0200000000010001 0\n";

static bool is(const char *option, const char *name) {
    return option != NULL && strcmp(option, name) == 0;
}

static bool has_journal(const char *option) {
    return is(option, "journal") || is(option, "ahead");
}

/* Creates the sender or the receiver, beside a new journal if the option says so. */
static bool create(macsec_endpoint *e, bool is_sender, const char *option) {
    static const uint8_t salt[24] = { 7, 8, 9 };
    static const char key[] = "2b2b2b2b2b2b2b2b2b2b2b2b2b2b2b2b2b2b2b2b2b2b2b2b2b2b2b2b2b2b2b2b";
    int bits = is(option, "256") ? 256 : 128;
    macsec_record header;
    uint32_t line;
    char config[512];
    const uint8_t *text = (const uint8_t *)config;
    snprintf(config, sizeof config, "end A gcm%d 02000000000%d0001 9248 sci\nA key 0 %.*s 0\n", bits, is_sender ? 1 : 2,
             bits / 4, key);
    strcat(config, !is_sender ? receives : is(option, "integrity") ? sends_clear : sends);
    if (!has_journal(option))
        return macsec_configure(e, text, strlen(config), &line) == MACSEC_OK;
    return macsec_journal_header(salt, &header) == MACSEC_OK &&
           macsec_reserve_configure(e, text, strlen(config), header.octets, sizeof header.octets, is(option, "ahead"),
                                    &line) == MACSEC_OK;
}

/* Reserves packet numbers to send, or to accept, as after the record's fdatasync. False if enough are reserved. */
static bool reserve(macsec_endpoint *e, bool to_send) {
    macsec_record record;
    uint32_t status = to_send ? macsec_reserve_wanted(e, 0, AMOUNT, &record)
                              : macsec_reserve_to_accept(e, sci_a, 0, AMOUNT, 0, &record);
    return status == MACSEC_OK && macsec_reserve_granted(e, &record) == MACSEC_OK;
}

/* Creates the sender, and sends a frame. Beside a journal none is sent before its packet number is reserved. */
static bool begin_sending(macsec_endpoint *e, const uint8_t *frame, size_t length, const char *option,
                          macsec_sent *sent) {
    if (!create(e, true, option))
        return false;
    if (has_journal(option) && (macsec_send(e, frame, length, sent) != MACSEC_OK ||
                                sent->fate != MACSEC_FATE_NO_RESERVATION || !reserve(e, true)))
        return false;
    return macsec_send(e, frame, length, sent) == MACSEC_OK && sent->fate == MACSEC_FATE_PROTECTED;
}

/* Creates the receiver. With `ahead` it delivers no frame before its packet number is reserved. */
static bool begin_receiving(macsec_endpoint *e, const uint8_t *frame, size_t length, const char *option) {
    macsec_received received;
    if (!create(e, false, option))
        return false;
    return !is(option, "ahead") || (macsec_receive(e, frame, length, &received) == MACSEC_OK &&
                                    received.verdict == MACSEC_VERDICT_NO_RESERVATION && reserve(e, false));
}

static uint8_t client[MACSEC_FRAME_MAX], link[MACSEC_FRAME_MAX];

/* Sends the client's frame by a job so often, and receives it by another one. */
static bool jobs(macsec_endpoint *a, macsec_endpoint *b, size_t length, int count) {
    macsec_slot slot = MACSEC_SLOT_INIT;
    macsec_key seals = MACSEC_KEY_INIT, opens = MACSEC_KEY_INIT;
    macsec_planned planned;
    macsec_finished finished;
    size_t written;
    bool right = macsec_slot_new(&slot) == MACSEC_OK && macsec_key_take(&seals, a, 0) == MACSEC_OK &&
                 macsec_key_take(&opens, b, 0) == MACSEC_OK;
    for (int i = 0; i < count && right; i++) {
        right = macsec_plan_send(a, &slot, client, length, &planned) == MACSEC_OK &&
                macsec_seal_job(&slot, &seals, link, sizeof link, &written) == MACSEC_OK &&
                macsec_plan_receive(b, &slot, link, written, &planned) == MACSEC_OK &&
                macsec_open_job(&slot, &opens) == MACSEC_OK &&
                macsec_finish_receive(b, &slot, client, sizeof client, &finished) == MACSEC_OK && finished.delivered;
    }
    return right;
}

int main(int words, char **word) {
    macsec_endpoint a = MACSEC_ENDPOINT_INIT, b = MACSEC_ENDPOINT_INIT;
    if (words < 4)
        return 2;
    size_t length = 12 + (size_t)atoi(word[2]), link_length;
    int count = atoi(word[3]), right = 1;
    char what = word[1][0];
    const char *option = words > 4 ? word[4] : NULL;
    bool is_sender = what == 's';
    macsec_sent sent;
    macsec_received received;

    if (what == 'i')
        return !install((uint32_t)atoi(word[2]), (unsigned)count);
    memset(client, 0x5a, sizeof client);
    /* The other end has no journal. */
    if (!begin_sending(&a, client, length, is_sender || !has_journal(option) ? option : NULL, &sent))
        return 1;
    link_length = sent.length;
    memcpy(link, sent.frame, link_length);
    if (!begin_receiving(&b, link, link_length, is_sender && has_journal(option) ? NULL : option))
        return 1;
    if (what == 'j')
        return !jobs(&a, &b, length, count);
    for (int i = 0; i < count; i++) {
        if (is_sender)
            right &= macsec_send(&a, client, length, &sent) == MACSEC_OK && sent.fate == MACSEC_FATE_PROTECTED;
        else
            right &= macsec_receive(&b, link, link_length, &received) == MACSEC_OK && received.delivered;
    }
    return !right;
}
