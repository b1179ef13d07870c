/* Packet numbers that outlive a run. The library decides what a frame may use and what the records are, names.c keeps
 * the durable record of each name, and journal_writer.c writes them. What is sent and what is received is reserved
 * ahead. A reservation counts once its record is durable. */
#include "numbers.h"
#include "frames.h"

/* A reservation lasts for so many seconds at the highest rate so far. The next one is asked for when half of it is
 * left, and can wait for two synchronizations: one that is under way, and the next. Where they take longer than usual,
 * as many seconds, more is reserved in advance: AMOUNT_MIN for each SLOW-th of a second. */
enum { LASTS = 32, SLOW = 16, SLOWEST = 30 };
#define USUAL 0.25

/* After so many seconds a run reserves at least so many times AMOUNT_MIN, so that frames may also begin while
 * the disk stalls. By then it is unlikely that runs end one after another, each skipping what it has reserved. */
enum { STEADY_AFTER = 10, STEADY = 16 };

/* The rate and the seconds that a synchronization takes are forgotten by one of so many parts at a time. */
enum { FORGETS = 64 };

/* From this part of the journal on, its fill is reported: at so many percent. */
enum { FILLED = 50 };

/* So many more names than lines may add are for the associations that have none yet when the journal is full: an
 * endpoint has fewer. */
enum { SPARE = 512 };

/* The fewest packet numbers of a reservation. A test has fewer. */
#ifndef AMOUNT_MIN
#define AMOUNT_MIN 65536
#endif

/* How many milliseconds an order may take when macsecd ends. */
enum { LAST = 15000 };

/* ---- The journal ---- */

static void report(const char *what, const struct journal_fault *fault) {
    errno = fault->error;
    message_of_errno("%s: %s%s%s", what, fault->step, fault->status == MACSEC_OK ? "" : " ",
                     fault->status == MACSEC_OK ? "" : macsec_status_name(fault->status));
}

int numbers_create(const char *name) {
    char path[PATH_MAX];
    struct journal_fault fault;
    if (!journals_path(path, sizeof path, name))
        return ENDS_WRONG;
    if (journal_create(path, &fault) == 0)
        return 0;
    if (strcmp(fault.step, "rename") == 0 && fault.error == EEXIST)
        message("%s is there already, and stays: it has the packet numbers that were used", path);
    else
        report(path, &fault);
    return ENDS_FAILED;
}

/* Says why the journal can't be used. Returns the exit status. */
static int explain(const char *path, const char *name, const struct journal_fault *fault) {
    const char *wrong = journals_fault(path);
    if (wrong != NULL)
        return message_wrong("the journal %s %s", path, wrong);
    if (strcmp(fault->step, "lock") == 0 && fault->error == EWOULDBLOCK) {
        message("%s is locked: another macsecd has this journal", path);
        return ENDS_FAILED;
    }
    report(path, fault);
    if (strcmp(fault->step, "open") != 0 || fault->error != ENOENT)
        return ENDS_FAILED;
    return message_wrong("if the keys of %s.conf were never used: macsecd --create-journal %s", name, name);
}

int numbers_open(struct numbers *n, const char *name, const char *named, struct counts *counts) {
    char path[PATH_MAX];
    const char *wrong;
    struct journal_fault fault;
    n->counts = counts;
    n->amount = AMOUNT_MIN;
    n->anew = true; /* as journal_open says */
    if (!journals_path(path, sizeof path, name))
        return ENDS_WRONG;
    if (journal_open(&n->journal, path, NUMBERS_FILE_LENGTH, &fault) != 0)
        return explain(path, name, &fault);
    if ((wrong = journals_misnamed(path, named)) != NULL)
        return message_wrong("the journal %s %s", path, wrong);
    if (!names_read(&n->names, &n->journal.machine, n->journal.room, NUMBERS_NAMES_MAX + SPARE))
        return message_of_memory();
    return journal_writer_open(&n->writer, &n->journal);
}

bool numbers_has_name(const struct numbers *n, const macsec_endpoint *e, const macsec_command *c) {
    const uint8_t *sci = c->kind == MACSEC_COMMAND_RX_SA ? c->sci : NULL;
    uint64_t floor = 0;
    uint32_t status = sci == NULL ? macsec_reserve_tx_floor(e, c->key, &floor)
                                  : macsec_reserve_rx_floor(e, sci, c->an, c->key, &floor);
    return status != MACSEC_OK || floor != 0 || names_has(&n->names, c->key, sci, c->an);
}

/* ---- Orders ---- */

/* Reports why records can't be written, when that changes. */
static void note_failure(struct numbers *n, const struct journal_fault *fault) {
    n->counts->journal_failed++;
    if (!n->failed && n->grants == 0)
        report("the journal can't be written, so frames are dropped until it can be", fault);
    else if (!n->failed)
        report("the journal can't be written, so frames will be dropped when their packet numbers are used up", fault);
    n->failed = n->waits = n->anew = true;
}

/* No name is left for an association: its frames are dropped. The others go on. */
static bool lacks_name(struct numbers *n) {
    n->counts->journal_failed++;
    if (!n->lacks)
        message("the journal has no name left, so frames of an association are dropped. macsecd(8) says what to do");
    n->lacks = true;
    return false;
}

/* The name of a receive association, or NULL. */
static struct name *received_name(struct numbers *n, const macsec_endpoint *e, const uint8_t sci[8], uint8_t an) {
    macsec_record record;
    return macsec_reserve_to_save(e, sci, an, &record) == MACSEC_OK ? names_find(&n->names, record.octets) : NULL;
}

/* Notes a record for a receive association. Returns false if there is no name for it. */
static bool note_accepting(struct numbers *n, const macsec_record *record, const uint8_t sci[8], uint8_t an,
                           uint16_t key) {
    struct name *name = names_note(&n->names, record, key);
    if (name == NULL)
        return lacks_name(n);
    names_note_received(name, sci, an);
    name->reserves = true;
    return true;
}

/* Does this run reserve for a receive association? */
static bool reserves_for(struct numbers *n, const macsec_endpoint *e, const uint8_t sci[8], uint8_t an) {
    const struct name *name = received_name(n, e, sci, an);
    return name != NULL && name->reserves;
}

/* Fills up the reservation of a receive association, if an eighth of it or more was used. */
static void fill_up(struct numbers *n, const macsec_endpoint *e, const uint8_t sci[8], uint8_t an) {
    uint64_t amount = receive_rates_amount(receive_rates_of(&n->rates, sci), n->slow), part = amount / 4;
    macsec_record record;
    macsec_rx_sa sa;
    if (macsec_get_rx_sa(e, sci, an, &sa) == MACSEC_OK && sa.next_high == 0 &&
        macsec_reserve_to_accept(e, sci, an, part, sa.next + amount - part, &record) == MACSEC_OK)
        (void)note_accepting(n, &record, sci, an, sa.key);
}

/* Each order also fills up what fast channels have used: a disk that becomes slow now can take long until the next. */
static void accept_more(struct numbers *n, const macsec_endpoint *e) {
    uint8_t sci[8];
    for (size_t place = 0; n->begun && macsec_get_rx_sc(e, place, sci) == MACSEC_OK; place++)
        for (uint8_t an = 0; an < MACSEC_AN_COUNT && receive_rates_is_fast(receive_rates_of(&n->rates, sci)); an++)
            if (reserves_for(n, e, sci, an))
                fill_up(n, e, sci, an);
}

/* Is something to be written? When frames come no more, names that have left are taken out of the file too. */
static bool has_order(struct numbers *n) {
    n->anew = n->anew || n->names.left > (n->begun ? LEFT_NAMES : 0);
    return n->names.changes > 0 || n->anew;
}

/* Gives an order, if there is something to be written and none is under way. */
static void order(struct numbers *n, macsec_endpoint *e) {
    size_t count;
    if (n->waits || n->writer.busy || !has_order(n))
        return;
    accept_more(n, e);
    count = names_changes(&n->names, &n->journal.machine, n->journal.records, n->journal.room);
    if (n->anew)
        n->names.left = n->names.note_left = 0; /* if it fails, it is given anew */
    n->orders++;
    if (count == 0 && !n->anew) {
        n->done = n->orders; /* names have left, and nothing is to be written */
        return;
    }
    n->ticks = 0;
    journal_writer_order(&n->writer, count, n->anew);
}

static void note_seconds(struct numbers *n, double seconds) {
    uint64_t by_rate = LASTS * n->highest, least = AMOUNT_MIN;
    n->slow = seconds > n->slow ? seconds : n->slow - n->slow / FORGETS;
    if (n->slow > SLOWEST)
        n->slow = SLOWEST;
    if (n->age >= STEADY_AFTER)
        least *= STEADY;
    if (n->slow > USUAL && AMOUNT_MIN * SLOW * n->slow > (double)least)
        least = (uint64_t)(AMOUNT_MIN * SLOW * n->slow);
    n->amount = by_rate > least ? by_rate : least;
}

/* Another program has cut the file: all that is in memory is written again. */
static bool note_cut(struct numbers *n) {
    message("the journal was cut or changed by another program: it is written again");
    n->anew = true;
    return true;
}

/* Takes the result of an order. Returns false if there is none, and nothing else has to be written at once. */
static bool take_result(struct numbers *n, macsec_endpoint *e) {
    struct saved saved;
    if (!journal_writer_is_done(&n->writer, &saved))
        return saved.cut && note_cut(n);
    if (!saved.good && saved.fault.error == ENODATA)
        return note_cut(n);
    n->done = n->orders;
    note_seconds(n, saved.seconds);
    if (!saved.good) {
        note_failure(n, &saved.fault);
        return true;
    }
    names_written(&n->names, n->journal.records, n->journal.count, e);
    n->grants++;
    if (n->failed)
        message("the journal can be written again");
    n->failed = n->anew = false;
    return true;
}

void numbers_go_on(struct numbers *n, macsec_endpoint *e) {
    do
        order(n, e);
    while (take_result(n, e) && !n->waits && has_order(n));
    if (n->begun && n->names.changes == 0 && !n->anew && !n->writer.busy)
        journals_unlock(); /* a NAME that compares now sees the first records */
}

uint64_t numbers_ticket(const struct numbers *n) {
    return n->orders + (n->names.changes > 0 || n->anew);
}

bool numbers_is_written(const struct numbers *n, uint64_t ticket) {
    return ticket <= n->done || n->waits;
}

/* ---- Reserving what is sent ---- */

/* Reserves for a transmit association. What is durable already is reported first, as for a receive association. */
static void reserve_for(struct numbers *n, macsec_endpoint *e, uint8_t an) {
    macsec_tx_sa sa;
    macsec_record record;
    struct name *name;
    if (macsec_get_tx_sa(e, an, &sa) != MACSEC_OK || macsec_reserve_wanted(e, an, n->amount, &record) != MACSEC_OK)
        return;
    name = names_find(&n->names, record.octets);
    if (name != NULL && name->is_durable) {
        (void)macsec_reserve_granted(e, &name->durable);     /* it is a record */
        (void)names_note(&n->names, &name->durable, sa.key); /* as in accept_for */
        if (macsec_reserve_wanted(e, an, n->amount, &record) != MACSEC_OK)
            return;
    }
    if (names_note(&n->names, &record, sa.key) == NULL)
        (void)lacks_name(n);
}

void numbers_reserve(struct numbers *n, macsec_endpoint *e) {
    n->unseen = 0;
    for (uint8_t an = 0; an < MACSEC_AN_COUNT; an++)
        reserve_for(n, e, an);
    numbers_go_on(n, e);
}

void numbers_begin_to_send(struct numbers *n, macsec_endpoint *e, uint8_t an) {
    macsec_tx_sa sa;
    numbers_reserve(n, e);
    if (macsec_get_tx_sa(e, an, &sa) == MACSEC_OK)
        names_begin_sending(&n->names, &sa);
}

void numbers_used(struct numbers *n, macsec_endpoint *e, unsigned frames, bool lacked) {
    n->unseen += frames;
    n->rate += frames;
    if (n->unseen >= n->amount / 16 || (lacked && !n->waits && !n->writer.busy))
        numbers_reserve(n, e);
}

/* ---- Reserving what is received ---- */

/* Has a receive association a packet number reserved? */
static bool may_accept(const macsec_endpoint *e, const uint8_t sci[8], uint8_t an) {
    macsec_record record;
    return macsec_reserve_to_accept(e, sci, an, 2, 0, &record) != MACSEC_OK;
}

/* Reserves for a receive association, after the packet number of a frame or 0. What is durable already is reported
 * first: it may have been reported when this association was not there. Returns false if nothing more is wanted. */
static bool accept_for(struct numbers *n, macsec_endpoint *e, const uint8_t sci[8], uint8_t an, uint64_t pn) {
    struct receive_rate *rate = receive_rates_of(&n->rates, sci);
    uint64_t amount = receive_rates_amount(rate, n->slow);
    macsec_rx_sa sa;
    macsec_record record;
    struct name *name;
    if (macsec_get_rx_sa(e, sci, an, &sa) != MACSEC_OK ||
        macsec_reserve_to_accept(e, sci, an, amount, pn, &record) != MACSEC_OK)
        return false;
    name = names_find(&n->names, record.octets);
    if (name != NULL && name->is_durable &&
        (names_cover(name, &record) || (names_reach(name, pn) && !may_accept(e, sci, an)))) {
        (void)macsec_reserve_granted(e, &name->durable); /* it is a record */
        n->grants++;
        (void)note_accepting(n, &name->durable, sci, an, sa.key);
        if (macsec_reserve_to_accept(e, sci, an, amount, pn, &record) != MACSEC_OK)
            return false;
    }
    if (pn == 0 && receive_rates_is_new(rate))
        return false;
    return note_accepting(n, &record, sci, an, sa.key);
}

/* Reserves for the receive associations for which this run has reserved before. */
static void accept_all(struct numbers *n, macsec_endpoint *e) {
    uint8_t sci[8];
    for (size_t place = 0; macsec_get_rx_sc(e, place, sci) == MACSEC_OK; place++)
        for (uint8_t an = 0; an < MACSEC_AN_COUNT; an++)
            if (reserves_for(n, e, sci, an))
                (void)accept_for(n, e, sci, an, 0);
}

/* An association gets a name with its first valid frame, so that neither clients nor starts use up names and packet
 * numbers. It gets one at once while frames of its channel come: they will come under a new key too, perhaps more than
 * can wait for the disk. A name that is there is noted: its key is installed, so it is not given up. */
void numbers_begin_to_receive(struct numbers *n, macsec_endpoint *e, const uint8_t sci[8], uint8_t an) {
    struct name *name = received_name(n, e, sci, an);
    macsec_rx_sa sa;
    if (macsec_get_rx_sa(e, sci, an, &sa) != MACSEC_OK)
        return;
    if (name != NULL && (name = names_note(&n->names, &name->made, sa.key)) != NULL)
        names_note_received(name, sci, an);
    if (receive_rates_goes_on(receive_rates_of(&n->rates, sci)))
        (void)accept_for(n, e, sci, an, sa.next);
    numbers_go_on(n, e);
}

void numbers_received(struct numbers *n, macsec_endpoint *e, const macsec_received *got, bool again) {
    bool lacks = got->verdict == MACSEC_VERDICT_NO_RESERVATION, asks;
    struct receive_rate *rate;
    if (!got->has_sa || (!lacks && got->verdict != MACSEC_VERDICT_OK))
        return;
    rate = receive_rates_of(&n->rates, got->sci);
    if (!again)
        receive_rates_count(rate);
    asks = lacks ? receive_rates_lacked(rate, n->orders + !n->writer.busy, again) : receive_rates_accepted(rate);
    if (!asks)
        return;
    if (accept_for(n, e, got->sci, got->an, got->pn))
        numbers_go_on(n, e);
    else if (lacks)
        rate->asked = 0; /* no order follows */
}

/* ---- Beginning ---- */

void numbers_begin(struct numbers *n, macsec_endpoint *e) {
    n->begun = true;
    numbers_reserve(n, e); /* the first reservation has shown how long the disk takes */
}

/* Has each enabled association a packet number reserved, if it has them before a frame lacks one? */
static bool has_reserved(struct numbers *n, const macsec_endpoint *e) {
    macsec_tx_sa tx;
    macsec_rx_sa rx;
    macsec_record record;
    uint8_t sci[8];
    bool all = true;
    for (uint8_t an = 0; an < MACSEC_AN_COUNT; an++)
        if (macsec_get_tx_sa(e, an, &tx) == MACSEC_OK && tx.on)
            all = macsec_reserve_wanted(e, an, 2, &record) != MACSEC_OK && all;
    for (size_t place = 0; macsec_get_rx_sc(e, place, sci) == MACSEC_OK; place++)
        for (uint8_t an = 0; an < MACSEC_AN_COUNT; an++)
            if (macsec_get_rx_sa(e, sci, an, &rx) == MACSEC_OK && rx.on && reserves_for(n, e, sci, an) &&
                !receive_rates_is_new(receive_rates_of(&n->rates, sci)))
                all = may_accept(e, sci, an) && all;
    return all;
}

void numbers_reserve_soon(struct numbers *n, macsec_endpoint *e, int milliseconds) {
    accept_all(n, e);
    numbers_reserve(n, e);
    if (has_reserved(n, e))
        return;
    journal_writer_wait(&n->writer, milliseconds);
    numbers_go_on(n, e);
}

/* ---- The end of an association or an endpoint ---- */

/* Has a receive association accepted or delivered a frame? Its next packet number does not say it: without replay
 * protection lower ones are accepted too. */
static bool has_accepted(const macsec_endpoint *e, const uint8_t sci[8], uint8_t an) {
    macsec_rx_counters c;
    return macsec_get_rx_sa_counters(e, sci, an, &c) != MACSEC_OK ||
           (c.in_pkts_ok | c.in_pkts_unchecked | c.in_pkts_delayed | c.in_pkts_invalid) != 0;
}

void numbers_note_accepted(struct numbers *n, const macsec_endpoint *e, const uint8_t *which) {
    uint8_t sci[8];
    macsec_record record;
    for (size_t place = 0; macsec_get_rx_sc(e, place, sci) == MACSEC_OK; place++)
        for (uint8_t an = 0; an < MACSEC_AN_COUNT; an++)
            if ((which == NULL || memcmp(which, sci, sizeof sci) == 0) &&
                macsec_reserve_to_save(e, sci, an, &record) == MACSEC_OK)
                names_accept(&n->names, &record, has_accepted(e, sci, an));
}

void numbers_note_sent(struct numbers *n, const macsec_endpoint *e) {
    macsec_tx_sa sa;
    for (uint8_t an = 0; an < MACSEC_AN_COUNT; an++)
        if (macsec_get_tx_sa(e, an, &sa) == MACSEC_OK)
            names_sent(&n->names, &sa);
}

void numbers_note_all(struct numbers *n, const macsec_endpoint *e) {
    numbers_note_accepted(n, e, NULL);
    numbers_note_sent(n, e);
}

/* The endpoint still has what was reserved for a deleted association, until it gets a record. If the association comes
 * again, it may accept nothing by that: the name has left. */
void numbers_end_receiving(struct numbers *n, macsec_endpoint *e) {
    static const uint8_t none[NAME];
    macsec_record record;
    if (!names_end(&n->names, e))
        return;
    (void)macsec_journal_noted(none, 0, &record); /* it always succeeds */
    (void)macsec_reserve_granted(e, &record);
    numbers_go_on(n, e);
}

void numbers_forget(struct numbers *n) {
    names_detach(&n->names, NO_KEY);
    memset(&n->rates, 0, sizeof n->rates);
}

/* ---- Keys that are given up ---- */

void numbers_note_key(struct numbers *n, uint16_t key, bool passes) {
    n->names.passes[key] = passes;
}

void numbers_note_retired(struct numbers *n, uint16_t key, bool passes) {
    if (passes && n->names.passes[key])
        names_give_up(&n->names, key);
    else
        names_detach(&n->names, key);
}

/* ---- The clock ---- */

static void look_at_fill(struct numbers *n) {
    size_t count = n->names.count;
    bool filled = count * 100 >= NUMBERS_NAMES_MAX * FILLED;
    if (filled && !n->filled)
        message("the journal is full to %d percent: it has %zu of at most %zu names. macsecd(8) says what to do",
                FILLED, count, NUMBERS_NAMES_MAX);
    n->filled = filled;
    n->lacks = n->lacks && count >= NUMBERS_NAMES_MAX;
}

void numbers_tick(struct numbers *n, macsec_endpoint *e) {
    n->waits = false;
    n->highest = n->rate > n->highest ? n->rate : n->highest - n->highest / FORGETS;
    n->rate = 0;
    n->age += n->age < STEADY_AFTER;
    note_seconds(n, n->writer.busy ? n->ticks : 0);
    n->ticks++;
    receive_rates_tick(&n->rates);
    accept_all(n, e);
    numbers_reserve(n, e);
    look_at_fill(n);
}

/* Gives the last orders, and waits for them. Names that have left are taken out of the file. */
static void write_last(struct numbers *n, macsec_endpoint *e) {
    n->begun = false; /* nothing more is reserved */
    for (int i = 0; i < 4; i++) {
        journal_writer_wait(&n->writer, LAST);
        n->waits = false;
        numbers_go_on(n, e);
        if (!n->writer.busy && !has_order(n))
            return;
    }
}

/* No record lowers a reservation: a later run has to read all that was durable. So what is reserved and was not
 * accepted stays reserved, and nothing that the next run needs is missing if the last records can't be written. */
void numbers_close(struct numbers *n, macsec_endpoint *e) {
    write_last(n, e);
    if (journal_writer_close(&n->writer))
        journal_close(&n->journal);
    names_free(&n->names);
}

/* ---- Creating an endpoint ---- */

uint32_t numbers_configure(struct numbers *n, macsec_endpoint *e, const macsec_config *config) {
    uint8_t *journal = malloc(n->journal.limit);
    size_t length = 0;
    uint32_t status;
    if (journal == NULL)
        return MACSEC_E_MEMORY;
    status = journal_whole(&n->journal, journal, &length);
    names_put(&n->names, journal, length);
    if (status == MACSEC_OK)
        status = macsec_reserve_open(e, config, journal, length, true);
    free(journal);
    return status;
}
