/* The calls that create an endpoint, macsec_free, macsec_load, the calls that receive a frame whose packet number is
 * not reserved and so is opened on the stack, and the calls with a journal as a file that compute most: each in a
 * thread with the 96 KB of stack that the header asks for, less what the C library takes of it. No proof says how much
 * stack the library takes: without enough, this program ends with SIGSEGV. It says so too where a call takes more than
 * the header says that it was measured to take. */
#define _XOPEN_SOURCE 700
#include "macsec.h"
#include <pthread.h>
#include <stdio.h>
#include <string.h>

enum { STACK = 96 * 1024, CREATING = 66 * 1024, OTHERS = 43 * 1024, MARK = 0x5a };

static const uint8_t own_sci[8] = { 2, 0, 0, 0, 0, 1, 0, 1 }, sender_sci[8] = { 2, 0, 0, 0, 0, 2, 0, 1 };
static const char lines[] = "end A gcm128 0200000000010001 9248 sci\nA key 0 2b2b2b2b2b2b2b2b2b2b2b2b2b2b2b2b 0\n"
                            "A txsa 0 0 1 conf\nA txon 0\n";
static const char sender_lines[] = "end A gcm128 0200000000020001 9248 sci\n"
                                   "A key 0 2b2b2b2b2b2b2b2b2b2b2b2b2b2b2b2b 0\nA txsa 0 0 1 conf\nA txon 0\n";
static const char receiver_lines[] = "end A gcm128 0200000000010001 9248 sci\n"
                                     "A key 0 2b2b2b2b2b2b2b2b2b2b2b2b2b2b2b2b 0\nA rxsc 0200000000020001\n"
                                     "A rxsa 0200000000020001 0 0 1\nA rxon 0200000000020001 0\n";
static macsec_endpoint endpoint = MACSEC_ENDPOINT_INIT, receiver = MACSEC_ENDPOINT_INIT;
static macsec_slot slot = MACSEC_SLOT_INIT;
static macsec_config config = { { 0 }, MACSEC_SUITE_GCM_AES_128, MACSEC_FORM_SCI, 1518 };
static macsec_record journal, reservation;
static macsec_journal file = MACSEC_JOURNAL_INIT;
static uint8_t link[MACSEC_FRAME_MAX], out[MACSEC_FRAME_MAX], new_file[128], written[8192];
static uint32_t status, line, verdict;

static void *nothing(void *unused) {
    return unused;
}

static void *make(void *unused) {
    status = macsec_new(&endpoint, &config);
    return unused;
}

static void *configure(void *unused) {
    status = macsec_configure(&endpoint, (const uint8_t *)lines, sizeof lines - 1, &line);
    return unused;
}

static void *open_beside(void *unused) {
    status = macsec_reserve_open(&endpoint, &config, journal.octets, sizeof journal.octets, true);
    return unused;
}

static void *configure_beside(void *unused) {
    status = macsec_reserve_configure(&endpoint, (const uint8_t *)lines, sizeof lines - 1, journal.octets,
                                      sizeof journal.octets, true, &line);
    return unused;
}

static void *load(void *unused) {
    macsec_command command = { .kind = MACSEC_COMMAND_PROTECT, .flag = 1 };
    uint64_t begins;
    size_t place;
    status = macsec_load(&receiver, &command, 1, &begins, &place);
    return unused;
}

static void *release(void *unused) {
    macsec_free(&endpoint);
    return unused;
}

static void *receive(void *unused) {
    macsec_received received;
    status = macsec_receive(&receiver, link, sizeof link, &received);
    verdict = received.verdict;
    return unused;
}

static void *finish(void *unused) {
    macsec_finished finished;
    status = macsec_finish_receive(&receiver, &slot, out, sizeof out, &finished);
    verdict = finished.verdict;
    return unused;
}

static void *begin_file(void *unused) {
    status = macsec_journal_begin(&file, new_file, sizeof new_file, sizeof written);
    return unused;
}

static void *order_record(void *unused) {
    status = macsec_journal_order(&file, &reservation, 1, false);
    return unused;
}

static void *show_next(void *unused) {
    macsec_journal_call call;
    status = macsec_journal_next(&file, written, sizeof written, &call);
    return unused;
}

/* Makes a call in a new thread, and says how many octets of stack the thread took; 0 if it can't be made. */
static size_t run(void *(*call)(void *)) {
    static uint8_t area[STACK] __attribute__((aligned(4096)));
    pthread_attr_t attributes;
    pthread_t thread;
    size_t unused = 0;
    memset(area, MARK, sizeof area);
    if (pthread_attr_init(&attributes) != 0)
        return 0;
    int failed = pthread_attr_setstack(&attributes, area, sizeof area);
    if (failed == 0)
        failed = pthread_create(&thread, &attributes, call, NULL);
    if (failed == 0)
        failed = pthread_join(thread, NULL);
    if (pthread_attr_destroy(&attributes) != 0 || failed != 0)
        return 0;
    while (unused < sizeof area && area[unused] == MARK)
        unused++;
    return sizeof area - unused;
}

/* Makes a call, and says if it takes more stack than this, beside what a thread takes without it. */
static int measure(const char *name, void *(*call)(void *), size_t most) {
    size_t thread = run(nothing), used = run(call);
    if (thread == 0 || used == 0)
        return -1;
    if (used - thread > most)
        printf("%s took %zu octets of stack, and not %zu at most\n", name, used - thread, most);
    return 0;
}

static int create(void) {
    void *(*const calls[])(void *) = { make, configure, open_beside, configure_beside };
    const char *const names[] = { "macsec_new", "macsec_configure", "macsec_reserve_open", "macsec_reserve_configure" };
    for (size_t i = 0; i < sizeof calls / sizeof calls[0]; i++) {
        if (measure(names[i], calls[i], CREATING) != 0)
            return -1;
        printf("%s: %s\n", names[i], macsec_status_name(status));
        if (measure("macsec_free", release, OTHERS) != 0)
            return -1;
    }
    return 0;
}

/* A receiver that reserves ahead, and the longest frame for it. */
static int prepare(void) {
    static const uint8_t frame[MACSEC_FRAME_MAX - MACSEC_OVERHEAD_MAX];
    macsec_endpoint sender = MACSEC_ENDPOINT_INIT;
    macsec_planned planned;
    macsec_sent sent;
    if (macsec_configure(&sender, (const uint8_t *)sender_lines, sizeof sender_lines - 1, &line) != MACSEC_OK ||
        macsec_send(&sender, frame, sizeof frame, &sent) != MACSEC_OK || sent.length != sizeof link)
        return -1;
    memcpy(link, sent.frame, sent.length);
    macsec_free(&sender);
    if (macsec_reserve_configure(&receiver, (const uint8_t *)receiver_lines, sizeof receiver_lines - 1, journal.octets,
                                 sizeof journal.octets, true, &line) != MACSEC_OK ||
        macsec_slot_new(&slot) != MACSEC_OK)
        return -1;
    return macsec_plan_receive(&receiver, &slot, link, sizeof link, &planned) == MACSEC_OK && planned.job ? 0 : -1;
}

/* A copy of the receiver takes its place. Then a frame is not reserved, and then it is. */
static int receive_frames(void) {
    macsec_record record;
    if (measure("macsec_load", load, CREATING) != 0)
        return -1;
    printf("macsec_load: %s\n", macsec_status_name(status));
    if (measure("macsec_receive", receive, OTHERS) != 0)
        return -1;
    printf("macsec_receive: %s, %s\n", macsec_status_name(status), macsec_verdict_name(verdict));
    if (measure("macsec_finish_receive", finish, OTHERS) != 0)
        return -1;
    printf("macsec_finish_receive: %s, %s\n", macsec_status_name(status), macsec_verdict_name(verdict));
    if (macsec_reserve_to_accept(&receiver, sender_sci, 0, 8, 0, &record) != MACSEC_OK ||
        macsec_reserve_granted(&receiver, &record) != MACSEC_OK || measure("macsec_receive", receive, OTHERS) != 0)
        return -1;
    printf("macsec_receive: %s, %s\n", macsec_status_name(status), macsec_verdict_name(verdict));
    return 0;
}

/* An order to a new journal, and each step of the replacement. */
static int keep_file(void) {
    const uint8_t name[32] = { 1 };
    if (macsec_journal_noted(name, 1, &reservation) != MACSEC_OK ||
        measure("macsec_journal_begin", begin_file, OTHERS) != 0)
        return -1;
    printf("macsec_journal_begin: %s\n", macsec_status_name(status));
    if (measure("macsec_journal_order", order_record, OTHERS) != 0)
        return -1;
    printf("macsec_journal_order: %s\n", macsec_status_name(status));
    for (int step = MACSEC_STEP_LOOKING_BEFORE; step <= MACSEC_STEP_SYNCING_FOLDER && status == MACSEC_OK; step++)
        if (measure("macsec_journal_next", show_next, OTHERS) != 0 || macsec_journal_answered(&file, true) != MACSEC_OK)
            return -1;
    printf("macsec_journal_next: %s\n", macsec_status_name(status));
    macsec_journal_free(&file);
    return 0;
}

int main(void) {
    const uint8_t salt[24] = { 1 };
    memcpy(config.sci, own_sci, sizeof own_sci);
    if (macsec_journal_header(salt, &journal) != MACSEC_OK || create() != 0 || prepare() != 0 || receive_frames() != 0)
        return 1;
    if (macsec_journal_created(salt, new_file) != MACSEC_OK || keep_file() != 0)
        return 1;
    macsec_slot_free(&slot);
    macsec_free(&receiver);
    return fflush(stdout) == 0 ? 0 : 1;
}
