/* Protects the 54-octet test frame of IEEE Std 802.1AE, Annex C, at one endpoint, and validates it twice at another.
 * The second time, the frame is late. The output is in first_frame.txt. */
#include "macsec.h"
#include <stdio.h>
#include <string.h>

static const uint8_t sci_a[8] = { 0x12, 0x15, 0x35, 0x24, 0xc0, 0x89, 0x5e, 0x81 };
static const uint8_t client[] = { 0xd6, 0x09, 0xb1, 0xf0, 0x56, 0x63, 0x7a, 0x0d, 0x46, 0xdf, 0x99, 0x8d, 0x08, 0x00,
                                  0x0f, 0x10, 0x11, 0x12, 0x13, 0x14, 0x15, 0x16, 0x17, 0x18, 0x19, 0x1a, 0x1b, 0x1c,
                                  0x1d, 0x1e, 0x1f, 0x20, 0x21, 0x22, 0x23, 0x24, 0x25, 0x26, 0x27, 0x28, 0x29, 0x2a,
                                  0x2b, 0x2c, 0x2d, 0x2e, 0x2f, 0x30, 0x31, 0x32, 0x33, 0x34, 0x00, 0x01 };
static const uint8_t key_octets[16] = { 0xad, 0x7a, 0x2b, 0xd0, 0x3e, 0xac, 0x83, 0x5a,
                                        0x6f, 0x62, 0x0f, 0xdc, 0xb5, 0x06, 0xb3, 0x45 };
/* The AN and the packet number of the annex. */
enum { AN = 2 };
static const uint64_t FIRST_PN = 0xb2c28465;

static int failed(const char *what, uint32_t status) {
    if (status != MACSEC_OK)
        fprintf(stderr, "%s: %s\n", what, macsec_status_name(status));
    return status != MACSEC_OK;
}

static void print(const char *what, const uint8_t *frame, size_t length) {
    printf("%s ", what);
    for (size_t i = 0; i < length; i++)
        printf("%02x", frame[i]);
    printf("\n");
}

/* Creates an endpoint that sends with integrity only. */
static int make_sender(macsec_endpoint *e, const macsec_sak *key) {
    macsec_config config = { { 0 }, MACSEC_SUITE_GCM_AES_128, MACSEC_FORM_SCI, 1518 };
    memcpy(config.sci, sci_a, sizeof sci_a);
    return failed("new", macsec_new(e, &config)) || failed("install_key", macsec_install_key(e, key)) ||
           failed("add_tx_sa", macsec_add_tx_sa(e, AN, key->number, FIRST_PN, false)) ||
           failed("enable_tx_sa", macsec_enable_tx_sa(e, AN));
}

/* Creates an endpoint that receives what the other one sends. */
static int make_receiver(macsec_endpoint *e, const macsec_sak *key) {
    macsec_config config = { { 0, 0, 0, 0, 0, 0, 0, 2 }, MACSEC_SUITE_GCM_AES_128, MACSEC_FORM_AUTO, 1518 };
    return failed("new", macsec_new(e, &config)) || failed("install_key", macsec_install_key(e, key)) ||
           failed("add_rx_sc", macsec_add_rx_sc(e, sci_a)) ||
           failed("add_rx_sa", macsec_add_rx_sa(e, sci_a, AN, key->number, FIRST_PN, 0)) ||
           failed("enable_rx_sa", macsec_enable_rx_sa(e, sci_a, AN));
}

int main(void) {
    macsec_endpoint a = MACSEC_ENDPOINT_INIT, b = MACSEC_ENDPOINT_INIT;
    macsec_sak key = { { 0 }, { 0 }, 0, MACSEC_SUITE_DEFAULT, 0, sizeof key_octets, 0 };
    macsec_sent sent;
    macsec_received received;

    memcpy(key.bytes, key_octets, sizeof key_octets);
    if (make_sender(&a, &key) || make_receiver(&b, &key))
        return 1;
    if (failed("send", macsec_send(&a, client, sizeof client, &sent)) || sent.fate != MACSEC_FATE_PROTECTED)
        return 1;
    print("sent", sent.frame, sent.length);
    /* The frame borrowed from `a` stays valid, since these calls are to `b`. */
    for (int i = 0; i < 2; i++) {
        if (failed("receive", macsec_receive(&b, sent.frame, sent.length, &received)))
            return 1;
        if (received.delivered)
            print("delivered", received.frame, received.length);
        else
            printf("%s\n", received.verdict == MACSEC_VERDICT_LATE ? "late" : "dropped");
    }
    macsec_free(&a);
    macsec_free(&b);
    return 0;
}
