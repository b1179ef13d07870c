/* The names in the journal, found by a hash table: which record of each is durable, and when one may leave. A name
 * belongs to a key of a transmit association, or to a receive association under a key. The library makes the names and
 * the records, and has the table of the file.
 *
 * The names of the keys that a key agreement has given up last stay, so that a key which comes again soon goes on above
 * its packet numbers. Older ones are let go. For the next run each name that was given up has a note in the journal:
 * the record of another name, whose number is twice the turn at which it was given up, and 1 more once its key has come
 * again. The note about a name that a key agreement has begun is BROUGHT until then. If the run ends before the name is
 * given up, the next run gives it up. While more than one part in PARTS of the journal are names, new ones get no such
 * note, since the room is for names. */
#include "numbers.h"

/* Octets of a record: the name, then the packet number, then the check. */
enum { NUMBER_AT = NAME, NUMBER = 8 };

enum { BROUGHT = 1, PARTS = 32 };

static uint64_t number_of(const macsec_record *record) {
    uint64_t number = 0;
    for (int i = 0; i < NUMBER; i++)
        number = number << 8 | record->octets[NUMBER_AT + i];
    return number;
}

/* ---- The table ---- */

/* Names are digests of a salt of this journal's own, so their first octets are as good as random. */
static size_t slot_of(const struct names *n, const uint8_t *name) {
    size_t slot, count = 2 * n->room;
    memcpy(&slot, name, sizeof slot);
    for (slot %= count; n->slots[slot] != 0; slot = (slot + 1) % count)
        if (memcmp(n->at[n->slots[slot] - 1].made.octets, name, NAME) == 0)
            break;
    return slot;
}

struct name *names_find(const struct names *n, const uint8_t *name) {
    uint32_t index = n->slots[slot_of(n, name)];
    return index == 0 ? NULL : &n->at[index - 1];
}

static void add(struct names *n, const struct name *name) {
    n->at[n->count] = *name;
    n->slots[slot_of(n, name->made.octets)] = (uint32_t)++n->count;
}

/* The name of a record, which is added if it is new and there are fewer than `most`. Else it is NULL. */
static struct name *name_of(struct names *n, const macsec_record *record, size_t most) {
    if (n->slots[slot_of(n, record->octets)] == 0 && n->count < most)
        add(n, &(struct name){ .made = *record, .key = NO_KEY });
    return names_find(n, record->octets);
}

static void remove_leaving(struct names *n) {
    size_t count = n->count;
    memset(n->slots, 0, 2 * n->room * sizeof *n->slots);
    n->count = 0;
    for (size_t i = 0; i < count; i++)
        if (!n->at[i].leaves)
            add(n, &n->at[i]);
}

/* ---- Names that were given up ---- */

/* The name of the note about a name: no digest. */
static const uint8_t *note_of(const struct name *name) {
    static uint8_t octets[NAME];
    for (size_t i = 0; i < NAME; i++)
        octets[i] = (uint8_t)(name->made.octets[i] + 1);
    return octets;
}

static bool is_given_up(const struct name *name) {
    return name->note != 0 && name->note % 2 == 0;
}

/* May the name leave the journal? */
static bool is_old(const struct names *n, const struct name *name) {
    return is_given_up(name) && name->note / 2 + KEPT_NAMES <= n->given_up;
}

static void note_change(struct names *n, struct name *name) {
    n->changes += !name->changed;
    name->changed = true;
}

static void set_note(struct names *n, struct name *name, uint64_t note) {
    name->note = note;
    name->notes = true;
    note_change(n, name);
}

/* The names that the last run had not given up are given up now, all as the last of them: however many there are, none
 * leaves before others were given up in this run. One whose key has come again needs no note: it stays without one. */
static void follow_last_run(struct names *n, macsec_journal *journal) {
    for (size_t i = 0; i < n->count; i++)
        n->given_up += n->at[i].note == BROUGHT;
    for (size_t i = 0; i < n->count; i++) {
        struct name *name = &n->at[i];
        if (name->note == BROUGHT) {
            set_note(n, name, 2 * n->given_up);
        } else if (name->note % 2 != 0) {
            (void)macsec_journal_let_go(journal, note_of(name)); /* no order is under way */
            name->note = 0;
        }
    }
}

bool names_read(struct names *n, macsec_journal *journal, size_t room, size_t most) {
    macsec_record record;
    n->room = room;
    n->most = most < room ? most : room;
    n->at = malloc(room * sizeof *n->at);
    n->slots = calloc(2 * room, sizeof *n->slots);
    if (n->at == NULL || n->slots == NULL)
        return false;
    for (size_t i = 0; macsec_journal_record(journal, i, &record) == MACSEC_OK; i++)
        (void)name_of(n, &record, room); /* there is room for all */
    for (size_t i = 0; i < n->count; i++) {
        struct name *note = names_find(n, note_of(&n->at[i]));
        if (note == NULL)
            continue;
        n->at[i].note = number_of(&note->made);
        note->leaves = true; /* it is no name of a key */
        if (n->given_up < n->at[i].note / 2)
            n->given_up = n->at[i].note / 2;
    }
    remove_leaving(n);
    follow_last_run(n, journal);
    return true;
}

/* ---- Changes ---- */

bool names_reach(const struct name *name, uint64_t number) {
    return name->is_durable && number_of(&name->durable) >= number;
}

bool names_cover(const struct name *name, const macsec_record *record) {
    return names_reach(name, number_of(record));
}

struct name *names_note(struct names *n, const macsec_record *record, uint32_t key) {
    bool existed = n->slots[slot_of(n, record->octets)] != 0;
    struct name *name = name_of(n, record, n->most);
    if (name == NULL)
        return NULL;
    name->is_unused = name->is_unused || !existed;
    name->leaves = false;
    if (!existed && n->passes[key] && n->count <= n->room / PARTS)
        set_note(n, name, BROUGHT);
    else if (!existed && n->note_left)
        n->left += LEFT_NAMES; /* that note can be about this name */
    else if (name->key != key && (is_given_up(name) || name->note == BROUGHT))
        set_note(n, name, (name->note + 1) | 1);
    if (name->key != key) {
        name->key = key;
        name->came_again = name->came_again || existed;
    }
    if (!existed || number_of(record) > number_of(&name->made))
        name->made = *record;
    if (!names_cover(name, &name->made))
        note_change(n, name);
    return name;
}

void names_accept(struct names *n, const macsec_record *record, bool has_used) {
    struct name *name = names_find(n, record->octets);
    if (name == NULL)
        return;
    memcpy(name->accepted, record->octets + NAME, sizeof name->accepted);
    name->has_accepted = true;
    name->is_unused = name->is_unused && !has_used;
}

/* ---- Names of which no packet number was used ---- */

/* The name of a key that sends, or NULL. */
static struct name *sent_name(const struct names *n, uint32_t key) {
    for (size_t i = 0; i < n->count; i++)
        if (n->at[i].key == key && !n->at[i].is_received)
            return &n->at[i];
    return NULL;
}

void names_begin_sending(struct names *n, const macsec_tx_sa *sa) {
    struct name *name = sent_name(n, sa->key);
    if (name != NULL)
        name->began = sa->next;
}

void names_sent(struct names *n, const macsec_tx_sa *sa) {
    struct name *name = sent_name(n, sa->key);
    if (name != NULL && (sa->next_high != 0 || sa->next != name->began))
        name->is_unused = false;
}

void names_note_received(struct name *name, const uint8_t sci[8], uint8_t an) {
    memcpy(name->sci, sci, sizeof name->sci);
    name->an = an;
    name->is_received = true;
}

static bool is_of(const struct name *name, const uint8_t sci[8], uint8_t an) {
    return name->is_received && name->an == an && memcmp(name->sci, sci, sizeof name->sci) == 0;
}

bool names_has(const struct names *n, uint32_t key, const uint8_t *sci, uint8_t an) {
    if (sci == NULL)
        return sent_name(n, key) != NULL;
    for (size_t i = 0; i < n->count; i++)
        if (n->at[i].key == key && is_of(&n->at[i], sci, an))
            return true;
    return false;
}

/* The name has no key any more. It leaves if no packet number of it was used or accepted. */
static void detach(struct names *n, struct name *name) {
    name->key = NO_KEY;
    name->is_received = name->reserves = false;
    name->leaves = name->is_unused;
    if (name->leaves)
        note_change(n, name);
}

bool names_end(struct names *n, const macsec_endpoint *e) {
    bool ends = false;
    for (size_t i = 0; i < n->count; i++) {
        struct name *name = &n->at[i];
        macsec_rx_sa sa;
        if (!name->is_unused || !name->is_received ||
            (macsec_get_rx_sa(e, name->sci, name->an, &sa) == MACSEC_OK && sa.key == name->key))
            continue;
        detach(n, name);
        ends = true;
    }
    return ends;
}

/* ---- The end of keys ---- */

void names_give_up(struct names *n, uint32_t key) {
    for (size_t i = 0; i < n->count; i++) {
        struct name *name = &n->at[i];
        if (name->key != key)
            continue;
        detach(n, name);
        if (name->came_again || name->leaves)
            continue;
        set_note(n, name, 2 * ++n->given_up);
    }
}

void names_detach(struct names *n, uint32_t key) {
    for (size_t i = 0; i < n->count; i++)
        if (n->at[i].key != NO_KEY && (key == NO_KEY || n->at[i].key == key))
            detach(n, &n->at[i]);
}

/* Takes the records of a name that has changed. Returns how many. */
static size_t take_changes(struct name *name, macsec_record *out) {
    size_t count = !names_cover(name, &name->made);
    if (count > 0)
        out[0] = name->made;
    if (name->notes)
        (void)macsec_journal_noted(note_of(name), name->note, &out[count++]); /* it always succeeds */
    name->changed = name->notes = false;
    return count;
}

size_t names_changes(struct names *n, macsec_journal *journal, macsec_record *out, size_t room) {
    size_t count = 0;
    bool leaves = false;
    n->changes = 0;
    for (size_t i = 0; i < n->count; i++) {
        struct name *name = &n->at[i];
        if (name->leaves || is_old(n, name)) {
            (void)macsec_journal_let_go(journal, name->made.octets); /* no order is under way */
            (void)macsec_journal_let_go(journal, note_of(name));
            name->leaves = leaves = true;
            n->left += name->is_durable;
            n->note_left = n->note_left || name->note != 0;
        } else if (name->changed && count + 2 <= room) {
            count += take_changes(name, out + count);
        } else {
            n->changes += name->changed;
        }
    }
    if (leaves)
        remove_leaving(n);
    return count;
}

/* ---- What is durable, and what was accepted ---- */

void names_put(const struct names *n, uint8_t *octets, size_t length) {
    for (uint8_t *at = octets + MACSEC_RECORD_LENGTH; at < octets + length; at += MACSEC_RECORD_LENGTH) {
        const struct name *name = names_find(n, at);
        if (name != NULL && name->has_accepted)
            memcpy(at + NAME, name->accepted, sizeof name->accepted);
    }
}

void names_written(struct names *n, const macsec_record *records, size_t count, macsec_endpoint *e) {
    for (size_t i = 0; i < count; i++) {
        struct name *name = names_find(n, records[i].octets);
        if (name == NULL || names_cover(name, &records[i]))
            continue; /* a note, or nothing new */
        name->is_durable = true;
        name->durable = records[i];
        if (name->key != NO_KEY)
            (void)macsec_reserve_granted(e, &name->durable); /* without an endpoint it does nothing */
    }
}

void names_free(struct names *n) {
    free(n->at);
    free(n->slots);
    memset(n, 0, sizeof *n);
}
