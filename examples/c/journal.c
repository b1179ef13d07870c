/* An endpoint whose packet numbers are kept in a file, by the calls of device/journal.h. Two runs send frames, and the
 * second one begins above all packet numbers that the first one may have used. The journal is in a temporary folder
 * here: keep yours. ahead.c does the same for frames that are received. Build it with device/journal.c, of which
 * journal.h has the rules. The output is in journal.txt. */
#define _POSIX_C_SOURCE 200809L
#include "journal.h"
#include <inttypes.h>
#include <stdio.h>
#include <stdlib.h>
#include <string.h>
#include <unistd.h>

/* The file has at most 64 KiB, and a record reserves the packet numbers of four seconds at 1,000 frames a second. */
enum { LIMIT = 1 << 16, AMOUNT = 4096 };

/* The key is a published test vector: use your own. */
static const char config[] = "end A gcm128 0200000000010001 1518 sci\nA key 0 ad7a2bd03eac835a6f620fdcb506b345 0\n";

static int failed(const char *what, uint32_t status) {
    if (status != MACSEC_OK)
        fprintf(stderr, "%s: %s\n", what, macsec_status_name(status));
    return status != MACSEC_OK;
}

static int file_failed(const struct journal_fault *fault) {
    fprintf(stderr, "journal: %s: %s\n", fault->step, strerror(fault->error));
    return 1;
}

/* ---- The journal ---- */

/* Reserves AMOUNT packet numbers, unless half of them are left. The record is reported once it is durable. If this
 * fails, wait a second and try again: the endpoint can send what is reserved, and drops all other frames. */
static int reserve(struct journal *journal, macsec_endpoint *e) {
    macsec_record record;
    struct journal_fault fault;
    uint32_t status = macsec_reserve_wanted(e, 0, AMOUNT, &record);
    if (status == MACSEC_E_NOT_FOUND)
        return 0;
    if (failed("wanted", status))
        return 1;
    if (journal_write(journal, &record, 1, false, &fault) != 0)
        return file_failed(&fault);
    return failed("granted", macsec_reserve_granted(e, &record));
}

/* ---- A run ---- */

/* Makes the endpoint of the journal. Its SA begins above what earlier runs have reserved, and has a reservation before
 * frames come. */
static int begin(struct journal *journal, macsec_endpoint *e) {
    static uint8_t octets[LIMIT];
    size_t length = 0;
    uint64_t floor = 0;
    uint32_t line;
    if (failed("whole", journal_whole(journal, octets, &length)) ||
        failed("configure",
               macsec_reserve_configure(e, (const uint8_t *)config, sizeof config - 1, octets, length, true, &line)) ||
        failed("floor", macsec_reserve_tx_floor(e, 0, &floor)) ||
        failed("add_tx_sa", macsec_add_tx_sa(e, 0, 0, floor + 1, true)) || reserve(journal, e))
        return 1;
    printf("above %" PRIu64, floor);
    return failed("enable_tx_sa", macsec_enable_tx_sa(e, 0));
}

/* Sends frames, and asks for more packet numbers before each one: twice in AMOUNT frames is enough. */
static int send_frames(struct journal *journal, macsec_endpoint *e, unsigned count) {
    static const uint8_t client[60] = { 2, 0, 0, 0, 0, 2, 2, 0, 0, 0, 0, 1, 0x88, 0xb5 };
    macsec_tx_sa sa;
    for (unsigned number = 0; number < count; number++) {
        macsec_sent sent;
        if (reserve(journal, e) || failed("send", macsec_send(e, client, sizeof client, &sent)))
            return 1;
        if (sent.fate != MACSEC_FATE_PROTECTED) {
            fprintf(stderr, "%s\n", macsec_fate_name(sent.fate));
            return 1;
        }
    }
    if (failed("get_tx_sa", macsec_get_tx_sa(e, 0, &sa)))
        return 1;
    printf(": %u frames, the last one has packet number %" PRIu64 "\n", count, sa.next - 1);
    return 0;
}

static int run(const char *path, unsigned frames) {
    struct journal journal;
    struct journal_fault fault;
    macsec_endpoint e = MACSEC_ENDPOINT_INIT;
    int result;
    if (journal_open(&journal, path, LIMIT, &fault) != 0)
        return file_failed(&fault);
    result = begin(&journal, &e) || send_frames(&journal, &e, frames);
    macsec_free(&e);
    journal_close(&journal);
    return result;
}

int main(void) {
    char folder[] = "/tmp/macsec-journal-XXXXXX", path[sizeof folder + sizeof "/journal"];
    struct journal_fault fault;
    int result;
    if (mkdtemp(folder) == NULL) {
        perror(folder);
        return 1;
    }
    snprintf(path, sizeof path, "%s/journal", folder);
    result = journal_create(path, &fault) != 0 ? file_failed(&fault) : run(path, 5000) || run(path, 10);
    (void)unlink(path); /* after a failure it may be missing */
    return rmdir(folder) != 0 || fflush(stdout) != 0 || result;
}
