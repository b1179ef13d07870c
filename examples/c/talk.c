/* Two endpoints in memory talk under GCM-AES-XPN-128, encrypted both ways. The example shows what happens to a repeated
 * frame, an altered one, one without a SecTAG and one for a freed handle, and the counters. talk.txt has the output. */
#include "macsec.h"
#include <inttypes.h>
#include <stdio.h>
#include <stdlib.h>
#include <string.h>

static const uint8_t scis[2][8] = { { 2, 0, 0, 0, 0, 1, 0, 1 }, { 2, 0, 0, 0, 0, 2, 0, 1 } };

/* The example ends if a call returns a status that it does not expect. */
static void must(const char *what, uint32_t status) {
    if (status != MACSEC_OK) {
        fprintf(stderr, "%s: %s\n", what, macsec_status_name(status));
        exit(1);
    }
}

/* Creates one end. It sends under key 0 and receives under key 1, or the other way round, so that each key has only one
 * sender. With extended packet numbers, each sender under a key needs its own SSCI. */
static void make_end(macsec_endpoint *e, int own) {
    macsec_config config = { { 0 }, MACSEC_SUITE_GCM_AES_XPN_128, MACSEC_FORM_SCI, 1518 };
    int other = 1 - own;
    memcpy(config.sci, scis[own], sizeof config.sci);
    must("new", macsec_new(e, &config));
    for (int it = 0; it < 2; it++) {
        macsec_sak key = { { 0 }, { 0 }, 0, MACSEC_SUITE_DEFAULT, 0, 16, 0 };
        memset(key.bytes, 0x10 + it, 16); /* only for this example */
        memset(key.salt, 0x20 + it, sizeof key.salt);
        key.ssci = (uint32_t)own + 1;
        key.number = (uint16_t)it;
        must("install_key", macsec_install_key(e, &key));
    }
    must("add_tx_sa", macsec_add_tx_sa(e, 0, (uint16_t)own, 1, true));
    must("enable_tx_sa", macsec_enable_tx_sa(e, 0));
    must("add_rx_sc", macsec_add_rx_sc(e, scis[other]));
    must("add_rx_sa", macsec_add_rx_sa(e, scis[other], 0, (uint16_t)other, 1, (uint32_t)other + 1));
    must("enable_rx_sa", macsec_enable_rx_sa(e, scis[other], 0));
}

/* Sends a text in a frame, and copies the link frame, which is borrowed only until the next call with this handle. */
static size_t say(macsec_endpoint *e, const char *text, uint8_t *link) {
    uint8_t frame[64] = { 2, 0, 0, 0, 0, 9, 2, 0, 0, 0, 0, 8, 0x88, 0xb5 };
    size_t length = 14 + strlen(text);
    macsec_sent sent;
    memcpy(frame + 14, text, strlen(text));
    must("send", macsec_send(e, frame, length, &sent));
    memcpy(link, sent.frame, sent.length);
    return sent.length;
}

static void hear(const char *who, macsec_endpoint *e, const uint8_t *link, size_t length) {
    macsec_received got;
    uint32_t status = macsec_receive(e, link, length, &got);
    printf("%s: status %s, verdict %s", who, macsec_status_name(status), macsec_verdict_name(got.verdict));
    if (got.has_sa)
        printf(", association %u", (unsigned)got.an);
    if (got.delivered)
        printf(", \"%.*s\"", (int)(got.length - 14), (const char *)got.frame + 14);
    printf("\n");
}

static void count(const char *who, const macsec_endpoint *e, const uint8_t *sci) {
    macsec_counters all;
    macsec_tx_counters tx;
    macsec_rx_counters rx, of_sa, removed;
    must("get_counters", macsec_get_counters(e, &all));
    must("get_tx_counters", macsec_get_tx_counters(e, &tx));
    must("get_rx_counters", macsec_get_rx_counters(e, sci, &rx));
    printf("%s: OutPktsEncrypted %" PRIu64 ", InPktsNoTag %" PRIu64 ", InOctetsDecrypted %" PRIu64 "\n", who,
           tx.out_pkts_encrypted, all.in_pkts_no_tag, all.in_octets_decrypted);
    printf("%s: InPktsOK %" PRIu64 ", InPktsNotValid %" PRIu64 "\n", who, rx.in_pkts_ok, rx.in_pkts_not_valid);
    if (macsec_get_rx_sa_counters(e, sci, 0, &of_sa) == MACSEC_OK)
        printf("%s: association 0: InPktsOK %" PRIu64 "\n", who, of_sa.in_pkts_ok);
    must("get_removed_counters", macsec_get_removed_counters(e, sci, &removed));
    printf("%s: removed: InPktsOK %" PRIu64 "\n", who, removed.in_pkts_ok);
}

int main(void) {
    macsec_endpoint ends[2] = { MACSEC_ENDPOINT_INIT, MACSEC_ENDPOINT_INIT };
    macsec_tx_sa row;
    uint8_t link[128];
    size_t length;
    make_end(&ends[0], 0);
    make_end(&ends[1], 1);

    length = say(&ends[0], "good morning", link);
    printf("a sends %zu octets\n", length);
    link[40] ^= 1; /* an octet of the Secure Data */
    hear("b, altered", &ends[1], link, length);
    link[40] ^= 1;
    hear("b", &ends[1], link, length);
    hear("b, again", &ends[1], link, length);
    length = say(&ends[1], "good night", link);
    hear("a", &ends[0], link, length);
    memcpy(link + 12, "\x88\xb5", 2);
    hear("a, untagged", &ends[0], link, length);
    hear("a, short", &ends[0], link, 13);

    must("get_tx_sa", macsec_get_tx_sa(&ends[0], 0, &row));
    printf("a: next packet number %" PRIu64 "\n", row.next);
    count("a", &ends[0], scis[1]);
    count("b", &ends[1], scis[0]);
    must("delete_rx_sa", macsec_delete_rx_sa(&ends[1], scis[0], 0));
    count("b, without the association", &ends[1], scis[0]);

    /* Refused commands, and a handle without an endpoint. */
    printf("b: enable_tx_sa of 4: %s, of 3: %s\n", macsec_status_name(macsec_enable_tx_sa(&ends[1], 4)),
           macsec_status_name(macsec_enable_tx_sa(&ends[1], 3)));
    macsec_free(&ends[0]);
    macsec_free(&ends[0]);
    hear("a, freed", &ends[0], link, length);
    macsec_free(&ends[1]);
    return 0;
}
