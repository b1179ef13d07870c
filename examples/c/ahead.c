/* A receiver that reserves packet numbers ahead of receiving, so that no later run accepts a frame again. Three runs
 * over one journal get the same two frames. The journal is in a temporary folder here: keep yours. journal.c does the
 * same for frames that are sent, by the same calls of device/journal.h. The output is in ahead.txt. */
#define _POSIX_C_SOURCE 200809L
#include "journal.h"
#include <inttypes.h>
#include <stdio.h>
#include <stdlib.h>
#include <string.h>
#include <unistd.h>

/* The file has at most 64 KiB, and a record reserves the packet numbers of four seconds at 1,000 frames a second. */
enum { LIMIT = 1 << 16, AMOUNT = 4096 };

struct frame {
    uint8_t octets[128];
    size_t length;
    uint64_t pn;
};

static const uint8_t sci_a[8] = { 2, 0, 0, 0, 0, 1, 0, 1 };
/* The key is a published test vector: use your own. */
static const char sender[] = "end A gcm128 0200000000010001 1518 sci\nA key 0 ad7a2bd03eac835a6f620fdcb506b345 0\n";
static const char receiver[] = "end A gcm128 0200000000020001 1518 sci\nA key 0 ad7a2bd03eac835a6f620fdcb506b345 0\n"
                               "A rxsc 0200000000010001\n";

static int failed(const char *what, uint32_t status) {
    if (status != MACSEC_OK)
        fprintf(stderr, "%s: %s\n", what, macsec_status_name(status));
    return status != MACSEC_OK;
}

static int file_failed(const struct journal_fault *fault) {
    fprintf(stderr, "journal: %s: %s\n", fault->step, strerror(fault->error));
    return 1;
}

/* ---- The receiver ---- */

/* Makes durable what the receive SA needs next, if it needs a record: after its own packet number, or after `pn`. */
static int reserve(struct journal *journal, macsec_endpoint *e, uint64_t pn) {
    macsec_record record;
    struct journal_fault fault;
    uint32_t status = macsec_reserve_to_accept(e, sci_a, 0, AMOUNT, pn, &record);
    if (status == MACSEC_E_NOT_FOUND)
        return 0; /* half of AMOUNT or more is still reserved */
    if (failed("to_accept", status))
        return 1;
    if (journal_write(journal, &record, 1, false, &fault) != 0)
        return file_failed(&fault);
    return failed("granted", macsec_reserve_granted(e, &record));
}

/* Begins a run: an endpoint of what the journal has. Its receive SA begins above what earlier runs reserved, and has a
 * reservation before frames come. */
static int begin(struct journal *journal, macsec_endpoint *e, uint64_t *floor) {
    static uint8_t octets[LIMIT];
    size_t length = 0;
    uint32_t line;
    return failed("whole", journal_whole(journal, octets, &length)) ||
           failed("configure", macsec_reserve_configure(e, (const uint8_t *)receiver, sizeof receiver - 1, octets,
                                                        length, true, &line)) ||
           failed("floor", macsec_reserve_rx_floor(e, sci_a, 0, 0, floor)) ||
           failed("add_rx_sa", macsec_add_rx_sa(e, sci_a, 0, 0, *floor + 1, 0)) || reserve(journal, e, 0) ||
           failed("enable_rx_sa", macsec_enable_rx_sa(e, sci_a, 0));
}

/* Receives a frame, and once more if its packet number was not reserved yet. */
static int receive(struct journal *journal, macsec_endpoint *e, const struct frame *frame) {
    macsec_received got;
    uint32_t status = macsec_receive(e, frame->octets, frame->length, &got);
    printf("  frame %" PRIu64 ": %s", frame->pn, macsec_verdict_name(got.verdict));
    if (status == MACSEC_OK && got.verdict == MACSEC_VERDICT_NO_RESERVATION) {
        if (reserve(journal, e, got.pn))
            return 1;
        status = macsec_receive(e, frame->octets, frame->length, &got);
        printf(", then %s", macsec_verdict_name(got.verdict));
    }
    printf("\n");
    return failed("receive", status);
}

/* Both frames, and the first one again: with replay protection, and without it. */
static int receive_frames(struct journal *journal, macsec_endpoint *b, const struct frame *frames) {
    if (receive(journal, b, &frames[0]) || receive(journal, b, &frames[1]) || receive(journal, b, &frames[0]))
        return 1;
    printf("  without replay protection\n");
    return failed("set_replay", macsec_set_replay(b, false, 0)) || receive(journal, b, &frames[0]);
}

static int run(const char *path, unsigned number, const struct frame *frames) {
    struct journal journal;
    struct journal_fault fault;
    macsec_endpoint b = MACSEC_ENDPOINT_INIT;
    uint64_t floor = 0;
    int result;
    if (journal_open(&journal, path, LIMIT, &fault) != 0)
        return file_failed(&fault);
    result = begin(&journal, &b, &floor);
    if (result == 0) {
        printf("run %u, above %" PRIu64 "\n", number, floor);
        result = receive_frames(&journal, &b, frames);
    }
    macsec_free(&b);
    journal_close(&journal);
    return result;
}

/* ---- The sender ---- */

/* A frame with this packet number. */
static int protect(struct frame *frame, uint64_t pn) {
    static const uint8_t client[60] = { 2, 0, 0, 0, 0, 2, 2, 0, 0, 0, 0, 1, 0x88, 0xb5 };
    macsec_endpoint a = MACSEC_ENDPOINT_INIT;
    uint32_t line;
    macsec_sent sent;
    if (failed("configure", macsec_configure(&a, (const uint8_t *)sender, sizeof sender - 1, &line)) ||
        failed("add_tx_sa", macsec_add_tx_sa(&a, 0, 0, pn, true)) ||
        failed("enable_tx_sa", macsec_enable_tx_sa(&a, 0)) ||
        failed("send", macsec_send(&a, client, sizeof client, &sent)))
        return 1;
    memcpy(frame->octets, sent.frame, sent.length);
    frame->length = sent.length;
    frame->pn = pn;
    macsec_free(&a);
    return 0;
}

int main(void) {
    char folder[] = "/tmp/macsec-ahead-XXXXXX", path[sizeof folder + sizeof "/journal"];
    struct journal_fault fault;
    struct frame frames[2];
    int result;
    if (protect(&frames[0], 1) || protect(&frames[1], 5000))
        return 1;
    if (mkdtemp(folder) == NULL) {
        perror(folder);
        return 1;
    }
    snprintf(path, sizeof path, "%s/journal", folder);
    result = journal_create(path, &fault) != 0 ? file_failed(&fault) : 0;
    for (unsigned number = 1; result == 0 && number <= 3; number++)
        result = run(path, number, frames);
    (void)unlink(path); /* after a failure it may be missing */
    return rmdir(folder) != 0 || fflush(stdout) != 0 || result;
}
