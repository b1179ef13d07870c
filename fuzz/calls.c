/* Makes the calls of macsec.h that the lines of standard input name, and prints each answer. fuzz/calls.py runs it.
 *
 * A line is the name of a call without macsec_, the number of a handle, and the other arguments: numbers in decimal,
 * octets in hex, and - for no octets. A line in any other form ends the program. All that a call is given to read is in
 * pages that can't be written meanwhile, and it ends, or begins, where a page follows that can't be read; so do the
 * structs that a call fills in. Linked so that the library's calls of malloc, realloc and free come here first, the
 * program ends at a call that takes or gives back other blocks than the header says; with -DUNCOUNTED it doesn't look.
 *
 * The call of a line that begins with ! or ? is made several times: first with its first allocation refused, then with
 * its second, and so on until none is refused, which is the call itself. With ? all allocations after that one are
 * refused too. Each time an answer is printed.
 */
#define _DEFAULT_SOURCE
#include "macsec.h"
#include <errno.h>
#include <stdio.h>
#include <stdlib.h>
#include <string.h>
#include <sys/mman.h>
#include <unistd.h>

enum {
    HANDLES = 4,
    KEYS = 3,
    SLOTS = 3,
    FILES = 2,
    MOST_WORDS = 64,
    COMMAND_WORDS = 15,
    LONGEST_LINE = 524288,
    MOST_ROOMS = 4
};

static macsec_endpoint handles[HANDLES];
static macsec_key keys[KEYS];
static macsec_slot slots[SLOTS];
static macsec_journal files[FILES];
static bool made[HANDLES];   /* whether they hold an endpoint */
static int blocks[HANDLES];  /* and of how many blocks */
static bool renews[HANDLES]; /* is one of them for the names of keys whose place a new key took? */
static bool loaded[HANDLES]; /* and is it a copy, which may have others? */
static char line[LONGEST_LINE];

static void fail(const char *why) {
    fprintf(stderr, "calls: %s\n", why);
    exit(2);
}

static uint64_t number(const char *word) {
    char *end;
    if (word == NULL)
        fail("a word is missing");
    errno = 0;
    unsigned long long value = strtoull(word, &end, 10);
    if (errno != 0 || end == word || *end != 0)
        fail("a word is no number");
    return value;
}

static unsigned digit(char c) {
    return c >= '0' && c <= '9' ? (unsigned)(c - '0') : (unsigned)(c - 'a') + 10;
}

/* The number of octets that a word has at most. */
static size_t length_of(const char *word) {
    if (word == NULL)
        fail("a word is missing");
    return strlen(word) / 2;
}

/* Writes the octets of a word and returns their number. */
static size_t octets(const char *word, uint8_t *to, size_t most) {
    size_t count = length_of(word); /* 0 for "-" */
    if (count > most)
        fail("too many octets");
    for (size_t i = 0; i < count; i++)
        to[i] = (uint8_t)(digit(word[2 * i]) << 4 | digit(word[2 * i + 1]));
    return count;
}

static void print_octets(const uint8_t *from, size_t count) {
    putchar(' ');
    if (count == 0)
        putchar('-');
    for (size_t i = 0; i < count; i++)
        printf("%02x", from[i]);
}

static void print_number(uint64_t value) {
    printf(" %llu", (unsigned long long)value);
}

/* ---- Memory between pages that can't be read ---- */

struct room {
    uint8_t *pages, *at;
    size_t length, size;
};

static struct room rooms[MOST_ROOMS];
static unsigned room_count, line_count;

/* Returns so much memory, full of 7. In every other line it begins at the page that can't be read, and there is none if
 * the size is 0; else it ends there. */
static void *room_of(size_t size) {
    size_t page = (size_t)sysconf(_SC_PAGESIZE), inside = (size + page - 1) / page * page;
    if (size == 0 && line_count % 2 != 0)
        return NULL;
    struct room *it = &rooms[room_count++];
    if (room_count > MOST_ROOMS)
        fail("too many rooms");
    it->length = inside + 2 * page;
    it->size = size;
    it->pages = mmap(NULL, it->length, PROT_NONE, MAP_PRIVATE | MAP_ANONYMOUS, -1, 0);
    if (it->pages == MAP_FAILED || (inside != 0 && mprotect(it->pages + page, inside, PROT_READ | PROT_WRITE) != 0))
        fail("out of memory");
    it->at = it->pages + page + (line_count % 2 ? 0 : inside - size);
    return memset(it->at, 7, size);
}

/* Lets nobody write to the last memory that was asked for. */
static void seal(void) {
    size_t page = (size_t)sysconf(_SC_PAGESIZE);
    struct room *it = &rooms[room_count - 1];
    if (it->length > 2 * page && mprotect(it->pages + page, it->length - 2 * page, PROT_READ) != 0)
        fail("memory can't be sealed");
}

static void leave_rooms(void) {
    while (room_count > 0) {
        room_count--;
        munmap(rooms[room_count].pages, rooms[room_count].length);
    }
}

/* The octets of a word, which nobody can write. */
static const uint8_t *sealed(const char *word) {
    uint8_t *room = room_of(length_of(word));
    if (octets(word, room, length_of(word)) != 0)
        seal();
    return room;
}

/* The same for so many octets. */
static const uint8_t *sealed_of(const char *word, size_t length) {
    if (length_of(word) != length)
        fail("octets have another length");
    return sealed(word);
}

/* ---- Blocks of the library, whose calls of malloc, realloc and free come here first ---- */

static unsigned asked, refused; /* how often the library asked for memory, and which time it gets none, if not 0 */
static bool refused_after;      /* whether it gets none after that time either */
static int held;                /* how many blocks it holds */
static int for_jobs;            /* how many of them are of a key, a slot or a file that a call made or freed */

#ifndef UNCOUNTED
void *__real_malloc(size_t size);
void *__real_realloc(void *old, size_t size);
void __real_free(void *block);

static bool is_refused(void) {
    asked++;
    return refused != 0 && (asked == refused || (refused_after && asked > refused));
}

void *__wrap_malloc(size_t size) {
    void *block = is_refused() ? NULL : __real_malloc(size);
    held += block != NULL;
    return block;
}

void *__wrap_realloc(void *old, size_t size) {
    void *block = is_refused() ? NULL : __real_realloc(old, size);
    held += block != NULL && old == NULL;
    return block;
}

void __wrap_free(void *block) {
    held -= block != NULL;
    __real_free(block);
}

/* An endpoint has 15 blocks, one more with a journal that has records, and one more once it was to renew a key; a key
 * has one, a slot three, and the file of a journal five. A load leaves a copy of the endpoint, which can have some
 * more. Only the calls that make one, load or renew a key, a line and a journal ask for blocks; one that answers
 * MACSEC_E_TAKEN or MACSEC_E_EMPTY does not. */
enum { BLOCKS = 15 };

static void check_blocks(const char *name, unsigned handle, bool held_before, uint32_t status) {
    const char *reading[] = { "configure",    "command_line",      "parse_line",        "parse_end",     "answer",
                              "reserve_open", "reserve_configure", "journal_compacted", "journal_begin", "renew_key",
                              "load" };
    bool beside = strncmp(name, "reserve_", strlen("reserve_")) == 0, may_ask = false;
    for (size_t i = 0; i < sizeof reading / sizeof reading[0]; i++)
        may_ask = may_ask || strcmp(name, reading[i]) == 0;
    int changed = made[handle] == held_before ? 0 : held_before ? -blocks[handle] : held;
    int names = strcmp(name, "renew_key") == 0 && held == 1 && (!renews[handle] || loaded[handle]);
    renews[handle] = changed == 0 && (renews[handle] || names == 1);
    if (strcmp(name, "load") == 0 && status == MACSEC_OK) {
        names = held;
        loaded[handle] = true;
    }
    blocks[handle] += names;
    if (held != changed + names + for_jobs || (changed > 0 && held != BLOCKS && (held != BLOCKS + 1 || !beside)))
        fail("the library holds another number of blocks");
    if (refused == 0 && !may_ask && asked != (unsigned)(changed > 0 ? BLOCKS : for_jobs > 0 ? for_jobs : 0))
        fail("the library asked for another number of blocks");
    if ((status == MACSEC_E_TAKEN || status == MACSEC_E_EMPTY) && asked != 0)
        fail("the library asked for blocks in vain");
    if (changed > 0)
        blocks[handle] = held;
    loaded[handle] = loaded[handle] && changed == 0;
}
#else
static void check_blocks(const char *name, unsigned handle, bool held_before, uint32_t status) {
    (void)name, (void)handle, (void)held_before, (void)status, (void)blocks, (void)renews, (void)loaded,
        (void)refused_after, (void)for_jobs;
}
#endif

/* ---- The calls ---- */

/* The reserved members of an answer are zeros if it is filled in; else they are as they were. */
static void check_reserved(uint32_t status, const uint64_t *reserved, size_t count) {
    for (size_t i = 0; i < count; i++) {
        if (reserved[i] != (status == MACSEC_OK ? 0 : 7))
            fail("a reserved member has another value");
    }
}

#define RESERVED_OF(answer) (answer).reserved, sizeof(answer).reserved / sizeof(answer).reserved[0]

/* An answer with a status shows the one that its call returns, and is filled in whatever that is. */
#define CHECK_ANSWER(it, returned)                                                                                     \
    do {                                                                                                               \
        if ((it)->status != (returned))                                                                                \
            fail("an answer has another status than its call");                                                        \
        check_reserved(MACSEC_OK, RESERVED_OF(*(it)));                                                                 \
    } while (0)

/* Prints what was received, with its frame there. */
#define PRINT_RECEIVED(it, frame)                                                                                      \
    do {                                                                                                               \
        printf(" %u %d", (unsigned)(it)->verdict, (it)->has_sa);                                                       \
        print_octets((it)->sci, sizeof(it)->sci);                                                                      \
        printf(" %u %d %llu", (unsigned)(it)->an, (it)->delivered, (unsigned long long)(it)->pn);                      \
        print_octets(frame, (it)->length);                                                                             \
    } while (0)

/* What a call has to fill in, with these values before it: the functions show_.. print it, and return the status. */
static void *filled;

static void *room_with(const void *values, size_t size) {
    filled = memcpy(room_of(size), values, size);
    return filled;
}

#define ROOM(type, ...) room_with(&(type){ __VA_ARGS__ }, sizeof(type))
/* Arguments by the words `w` of a line. */
#define OCTETS(i) sealed(w[i]), length_of(w[i])
#define SCI(i) sealed_of(w[i], 8)
#define AN(i) (uint8_t) number(w[i])
#define NUMBER(i) (uint16_t) number(w[i])
#define RECORD (filled = room_of(sizeof(macsec_record)))

/* Prints a number of 128 bits, given as two halves. */
static void print_halves(uint64_t high, uint64_t low) {
    printf(" %llx%016llx", (unsigned long long)high, (unsigned long long)low);
}

static uint32_t send(macsec_endpoint *e, const char *word) {
    macsec_sent *sent = room_of(sizeof *sent);
    uint32_t status = macsec_send(e, sealed(word), length_of(word), sent);
    CHECK_ANSWER(sent, status);
    printf(" %u %u", (unsigned)sent->fate, (unsigned)sent->key);
    print_octets(sent->frame, sent->length);
    return status;
}

static uint32_t receive(macsec_endpoint *e, const char *word) {
    macsec_received *received = room_of(sizeof *received);
    uint32_t status = macsec_receive(e, sealed(word), length_of(word), received);
    CHECK_ANSWER(received, status);
    PRINT_RECEIVED(received, received->frame);
    return status;
}

/* ---- Keys and slots ---- */

static uint64_t place(const char *word, unsigned count) {
    if (number(word) >= count)
        fail("there is no such key, slot or file");
    return number(word);
}

#define KEY_AT(i) (&keys[place(w[i], KEYS)])
#define SLOT_AT(i) (&slots[place(w[i], SLOTS)])

/* Notes that a call has made a thing of so many blocks, or freed it. */
static uint32_t with_blocks(int change, uint32_t status) {
    for_jobs = status == MACSEC_OK ? change : 0;
    return status;
}

static uint32_t free_key(macsec_key *key) {
    with_blocks(key->at == NULL ? 0 : -1, MACSEC_OK);
    macsec_key_free(key);
    return MACSEC_OK;
}

static uint32_t free_slot(macsec_slot *slot) {
    with_blocks(slot->at == NULL ? 0 : -3, MACSEC_OK);
    macsec_slot_free(slot);
    return MACSEC_OK;
}

/* A buffer of octets 7. A call writes only its first octets. */
static void check_rest(const uint8_t *out, size_t written, size_t room) {
    for (size_t i = written; i < room; i++) {
        if (out[i] != 7)
            fail("a call writes more octets than it says");
    }
}

static uint32_t plan(macsec_endpoint *e, bool sends, char **w) {
    macsec_planned *planned = room_of(sizeof *planned);
    uint32_t status = sends ? macsec_plan_send(e, SLOT_AT(0), OCTETS(1), planned)
                            : macsec_plan_receive(e, SLOT_AT(0), OCTETS(1), planned);
    CHECK_ANSWER(planned, status);
    printf(" %u %u %d", (unsigned)planned->fate, (unsigned)planned->key, planned->job);
    return status;
}

static uint32_t seal_job(char **w) {
    size_t room = (size_t)number(w[2]), *written = ROOM(size_t, 7);
    uint8_t *out = room_of(room);
    uint32_t status = macsec_seal_job(SLOT_AT(0), KEY_AT(1), out, room, written);
    size_t shown = status == MACSEC_OK ? *written : 0;
    check_rest(out, shown, room);
    print_number(*written);
    print_octets(out, shown);
    return status;
}

static uint32_t finish_receive(macsec_endpoint *e, char **w) {
    size_t room = (size_t)number(w[1]);
    macsec_finished *finished = room_of(sizeof *finished);
    uint8_t *out = room_of(room);
    uint32_t status = macsec_finish_receive(e, SLOT_AT(0), out, room, finished);
    CHECK_ANSWER(finished, status);
    if (!finished->delivered && finished->length != 0)
        fail("macsec_finish_receive delivers nothing, and shows a length");
    check_rest(out, finished->length, room);
    PRINT_RECEIVED(finished, out);
    return status;
}

static const macsec_config *sealed_config(char **w) {
    macsec_config *config = room_of(sizeof *config);
    octets(w[0], config->sci, sizeof config->sci);
    config->suite = (uint32_t)number(w[1]);
    config->form = (uint32_t)number(w[2]);
    config->max_frame = (uint32_t)number(w[3]);
    seal();
    return config;
}

/* Makes an endpoint of a text, and with a journal if there is one. */
static uint32_t configure(macsec_endpoint *e, const char *text, const char *journal, bool ahead) {
    uint32_t *at = room_of(sizeof *at), status;
    const uint8_t *lines = sealed(text);
    if (journal == NULL)
        status = macsec_configure(e, lines, length_of(text), at);
    else
        status = macsec_reserve_configure(e, lines, length_of(text), sealed(journal), length_of(journal), ahead, at);
    print_number(*at);
    return status;
}

static uint32_t journal_compacted(const char *word) {
    size_t length = length_of(word);
    uint8_t *out = room_of(length);
    size_t *written = ROOM(size_t, 7);
    uint32_t status = macsec_journal_compacted(sealed(word), length, out, written);
    print_number(*written);
    print_octets(out, length);
    return status;
}

static uint32_t show_octets(size_t count, uint32_t status) {
    print_octets(filled, count);
    return status;
}

/* ---- A journal as a file ---- */

#define FILE_AT(i) (&files[place(w[i], FILES)])

static uint32_t free_file(macsec_journal *file) {
    with_blocks(file->at == NULL ? 0 : -5, MACSEC_OK);
    macsec_journal_free(file);
    return MACSEC_OK;
}

/* Octets that are not so many whole records go to the library's part of the call. */
static uint32_t journal_order(char **w) {
    const uint8_t *records = sealed(w[1]);
    size_t length = length_of(w[1]), count = length / MACSEC_RECORD_LENGTH;
    bool anew = number(w[2]) != 0;
    if (length % MACSEC_RECORD_LENGTH != 0)
        return macsec_journal_order_raw(FILE_AT(0), records, length, anew);
    return macsec_journal_order(FILE_AT(0), (const macsec_record *)(const void *)records, count, anew);
}

static uint32_t journal_next(char **w) {
    size_t room = (size_t)number(w[1]);
    macsec_journal_call *it = ROOM(macsec_journal_call, 7, 7, 7, 7, { 7, 7, 7, 7 });
    uint8_t *out = room_of(room);
    uint32_t status = macsec_journal_next(FILE_AT(0), out, room, it);
    size_t shown = status == MACSEC_OK ? it->length : 0;
    check_reserved(status, RESERVED_OF(*it));
    check_rest(out, shown, room);
    printf(" %u", (unsigned)it->step);
    print_number(it->at);
    print_number(it->end);
    print_octets(out, shown);
    return status;
}

static uint32_t journal_whole(char **w) {
    size_t room = (size_t)number(w[1]), *written = ROOM(size_t, 7);
    uint8_t *out = room_of(room);
    uint32_t status = macsec_journal_whole(FILE_AT(0), out, room, written);
    size_t shown = status == MACSEC_OK ? *written : 0;
    check_rest(out, shown, room);
    print_number(*written);
    print_octets(out, shown);
    return status;
}

static uint32_t show_floor(uint32_t status) {
    print_number(*(uint64_t *)filled);
    return status;
}

static uint32_t answer(macsec_endpoint *e, char **w) {
    size_t room = (size_t)number(w[2]);
    uint8_t *out = room_of(room);
    size_t *written = ROOM(size_t, 7);
    uint32_t status = macsec_answer(e, (uint32_t)number(w[0]), OCTETS(1), out, room, written);
    print_number(*written);
    print_octets(out, room);
    return status;
}

static void read_key(macsec_sak *key, char **w) {
    octets(w[0], key->bytes, sizeof key->bytes);
    octets(w[1], key->salt, sizeof key->salt);
    key->ssci = (uint32_t)number(w[2]);
    key->suite = (uint32_t)number(w[3]);
    key->number = (uint16_t)number(w[4]);
    key->length = (uint8_t)number(w[5]);
    key->offset = (uint8_t)number(w[6]);
}

static const macsec_sak *sealed_key(char **w) {
    macsec_sak *key = room_of(sizeof *key);
    read_key(key, w);
    seal();
    return key;
}

/* ---- Commands as structs ---- */

static void read_command(macsec_command *it, char **w) {
    memset(it, 7, sizeof *it);
    read_key(&it->sak, w);
    it->pn = number(w[7]);
    octets(w[8], it->sci, sizeof it->sci);
    it->ssci = (uint32_t)number(w[9]);
    it->kind = (uint32_t)number(w[10]);
    it->choice = (uint32_t)number(w[11]);
    it->key = (uint16_t)number(w[12]);
    it->an = (uint8_t)number(w[13]);
    it->flag = (uint8_t)number(w[14]);
}

static macsec_command *room_of_command(char **w) {
    macsec_command *it = room_of(sizeof *it);
    read_command(it, w);
    return it;
}

static void print_command(const macsec_command *it) {
    check_reserved(MACSEC_OK, RESERVED_OF(*it));
    print_octets(it->sak.bytes, sizeof it->sak.bytes);
    print_octets(it->sak.salt, sizeof it->sak.salt);
    printf(" %u %u %u %u %u", (unsigned)it->sak.ssci, (unsigned)it->sak.suite, (unsigned)it->sak.number,
           (unsigned)it->sak.length, (unsigned)it->sak.offset);
    print_number(it->pn);
    print_octets(it->sci, sizeof it->sci);
    printf(" %u %u %u %u %u %u", (unsigned)it->ssci, (unsigned)it->kind, (unsigned)it->choice, (unsigned)it->key,
           (unsigned)it->an, (unsigned)it->flag);
}

static uint32_t parse_line(const char *word) {
    macsec_command *it = room_of(sizeof *it);
    uint32_t status = macsec_parse_line(sealed(word), length_of(word), it);
    print_command(it);
    return status;
}

static uint32_t parse_end(const char *word) {
    macsec_config *it = room_of(sizeof *it);
    uint32_t status = macsec_parse_end(sealed(word), length_of(word), it);
    print_octets(it->sci, sizeof it->sci);
    printf(" %u %u %u", (unsigned)it->suite, (unsigned)it->form, (unsigned)it->max_frame);
    return status;
}

static uint32_t carry_out(macsec_endpoint *e, char **w) {
    const macsec_command *it = room_of_command(w);
    seal();
    return macsec_carry_out(e, it);
}

/* Loads so many commands. Shows the place, and where their associations begin. */
static uint32_t load(macsec_endpoint *e, char **w) {
    size_t count = (size_t)number(w[0]), *place = room_of(sizeof *place);
    uint64_t *begins = room_of(count * sizeof *begins);
    macsec_command *all = room_of(count * sizeof *all);
    for (size_t i = 0; i < count; i++) {
        begins[i] = 7;
        read_command(&all[i], w + 1 + i * COMMAND_WORDS);
    }
    if (count > 0)
        seal();
    uint32_t status = macsec_load(e, all, count, begins, place);
    print_number(*place);
    for (size_t i = 0; i < count; i++)
        print_number(begins[i]);
    return status;
}

static uint32_t clear_command(char **w) {
    macsec_command *it = room_of_command(w);
    macsec_clear_command(it);
    print_command(it);
    return MACSEC_OK;
}

/* Seals a frame of a tester, which is shown also where nothing was done. */
static uint32_t seal_frame(char **w) {
    const macsec_sak *key = sealed_key(w);
    const uint8_t *sci = SCI(7);
    size_t length = length_of(w[11]);
    uint8_t *frame = room_of(length);
    octets(w[11], frame, length);
    uint32_t status = macsec_seal(key, sci, number(w[8]), number(w[9]) != 0, (size_t)number(w[10]), frame, length);
    print_octets(frame, length);
    return status;
}

static uint32_t show_options(uint32_t status) {
    macsec_options *it = filled;
    check_reserved(status, RESERVED_OF(*it));
    print_number(it->window);
    printf(" %u %u %d %d", (unsigned)it->mode, (unsigned)it->form, it->protect, it->replay);
    return status;
}

static uint32_t show_keys_left(uint32_t status) {
    print_number(*(uint32_t *)filled);
    return status;
}

/* A struct of counters alone, each of them 7 before the call. */
static void *counters_of(size_t size) {
    uint64_t *all = filled = room_of(size);
    for (size_t i = 0; i < size / sizeof *all; i++)
        all[i] = 7;
    return all;
}

/* The first members are counters, and the others are reserved. c/layout.txt has their order. */
static uint32_t show_counters(uint32_t status, size_t count, size_t size) {
    const uint64_t *all = filled;
    check_reserved(status, all + count, size / sizeof *all - count);
    for (size_t i = 0; i < count; i++)
        print_number(all[i]);
    return status;
}

/* Makes a call that fills in so many counters of a struct. */
#define COUNTERS(count, type, call, ...)                                                                               \
    show_counters(call(__VA_ARGS__, counters_of(sizeof(type))), count, sizeof(type))

static uint32_t show_tx_sa(uint32_t status) {
    macsec_tx_sa *row = filled;
    check_reserved(status, RESERVED_OF(*row));
    print_halves(row->next_high, row->next);
    printf(" %u %d %d", (unsigned)row->key, row->conf, row->on);
    return status;
}

static uint32_t show_rx_sa(uint32_t status) {
    macsec_rx_sa *row = filled;
    check_reserved(status, RESERVED_OF(*row));
    print_halves(row->next_high, row->next);
    print_halves(row->lowest_high, row->lowest);
    printf(" %u %u %d", (unsigned)row->ssci, (unsigned)row->key, row->on);
    return status;
}

/* Returns this result if the line names this call. */
#define CALL(it, result)                                                                                               \
    do {                                                                                                               \
        if (strcmp(name, it) == 0)                                                                                     \
            return result;                                                                                             \
    } while (0)
#define COMMAND(it, ...) CALL(#it, macsec_##it(e, __VA_ARGS__))

static uint32_t command(macsec_endpoint *e, const char *name, char **w) {
    COMMAND(send_uncontrolled, OCTETS(0));
    COMMAND(command_line, OCTETS(0));
    CALL("carry_out", carry_out(e, w));
    CALL("load", load(e, w));
    COMMAND(set_protect, number(w[0]) != 0);
    COMMAND(set_validation, (uint32_t)number(w[0]));
    COMMAND(set_replay, number(w[0]) != 0, number(w[1]));
    COMMAND(set_tag_form, (uint32_t)number(w[0]));
    COMMAND(install_key, sealed_key(w));
    COMMAND(renew_key, sealed_key(w));
    COMMAND(retire_key, NUMBER(0));
    COMMAND(add_tx_sa, AN(0), NUMBER(1), number(w[2]), number(w[3]) != 0);
    COMMAND(enable_tx_sa, AN(0));
    COMMAND(disable_tx_sa, AN(0));
    COMMAND(delete_tx_sa, AN(0));
    COMMAND(add_rx_sc, SCI(0));
    COMMAND(delete_rx_sc, SCI(0));
    COMMAND(add_rx_sa, SCI(0), AN(1), NUMBER(2), number(w[3]), (uint32_t)number(w[4]));
    COMMAND(enable_rx_sa, SCI(0), AN(1));
    COMMAND(disable_rx_sa, SCI(0), AN(1));
    COMMAND(set_lowest_pn, SCI(0), AN(1), number(w[2]));
    COMMAND(delete_rx_sa, SCI(0), AN(1));
    COMMAND(reserve_granted, (const macsec_record *)(const void *)sealed_of(w[0], sizeof(macsec_record)));
    fail("no such call");
    return 0;
}

static uint32_t file_call(macsec_endpoint *e, const char *name, char **w) {
    CALL("journal_created", show_octets(128, macsec_journal_created(sealed_of(w[0], 24), filled = room_of(128))));
    CALL("journal_begin", with_blocks(5, macsec_journal_begin(FILE_AT(0), OCTETS(1), (uint32_t)number(w[2]))));
    CALL("journal_order", journal_order(w));
    CALL("journal_next", journal_next(w));
    CALL("journal_answered", macsec_journal_answered(FILE_AT(0), number(w[1]) != 0));
    CALL("journal_shown", show_octets(64, macsec_journal_shown(FILE_AT(0), (size_t)number(w[1]), RECORD)));
    CALL("journal_record", show_octets(64, macsec_journal_record(FILE_AT(0), (size_t)number(w[1]), RECORD)));
    CALL("journal_let_go", macsec_journal_let_go(FILE_AT(0), sealed_of(w[1], 32)));
    CALL("journal_noted", show_octets(64, macsec_journal_noted(sealed_of(w[0], 32), number(w[1]), RECORD)));
    CALL("journal_whole", journal_whole(w));
    CALL("journal_free", free_file(FILE_AT(0)));
    return command(e, name, w);
}

static uint32_t call(macsec_endpoint *e, const char *name, char **w) {
    CALL("free", (macsec_free(e), MACSEC_OK));
    CALL("new", macsec_new(e, sealed_config(w)));
    CALL("configure", configure(e, w[0], NULL, false));
    CALL("reserve_open", macsec_reserve_open(e, sealed_config(w), OCTETS(4), number(w[5]) != 0));
    CALL("reserve_configure", configure(e, w[0], w[1], number(w[2]) != 0));
    CALL("send", send(e, w[0]));
    CALL("receive", receive(e, w[0]));
    CALL("answer", answer(e, w));
    CALL("parse_line", parse_line(w[0]));
    CALL("parse_end", parse_end(w[0]));
    CALL("clear_command", clear_command(w));
    CALL("seal", seal_frame(w));
    CALL("key_take", with_blocks(1, macsec_key_take(KEY_AT(0), e, NUMBER(1))));
    CALL("key_free", free_key(KEY_AT(0)));
    CALL("slot_new", with_blocks(3, macsec_slot_new(SLOT_AT(0))));
    CALL("slot_free", free_slot(SLOT_AT(0)));
    CALL("slot_clear", macsec_slot_clear(SLOT_AT(0)));
    CALL("plan_send", plan(e, true, w));
    CALL("seal_job", seal_job(w));
    CALL("plan_receive", plan(e, false, w));
    CALL("open_job", macsec_open_job(SLOT_AT(0), KEY_AT(1)));
    CALL("finish_receive", finish_receive(e, w));
    CALL("get_options",
         show_options(macsec_get_options(e, ROOM(macsec_options, 7, 7, 7, false, false, { 7, 7, 7, 7, 7 }))));
    CALL("keys_left", show_keys_left(macsec_keys_left(e, ROOM(uint32_t, 7))));
    CALL("get_counters", COUNTERS(11, macsec_counters, macsec_get_counters, e));
    CALL("get_tx_counters", COUNTERS(4, macsec_tx_counters, macsec_get_tx_counters, e));
    CALL("get_rx_counters", COUNTERS(6, macsec_rx_counters, macsec_get_rx_counters, e, SCI(0)));
    CALL("get_rx_sa_counters", COUNTERS(6, macsec_rx_counters, macsec_get_rx_sa_counters, e, SCI(0), AN(1)));
    CALL("get_removed_counters", COUNTERS(6, macsec_rx_counters, macsec_get_removed_counters, e, SCI(0)));
    CALL("get_rx_sc", show_octets(8, macsec_get_rx_sc(e, (size_t)number(w[0]), filled = room_of(8))));
    CALL("get_tx_sa",
         show_tx_sa(macsec_get_tx_sa(e, AN(0), ROOM(macsec_tx_sa, 7, 7, 7, false, false, { 7, 7, 7, 7, 7 }))));
    CALL("get_rx_sa",
         show_rx_sa(macsec_get_rx_sa(e, SCI(0), AN(1), ROOM(macsec_rx_sa, 7, 7, 7, 7, 7, 7, false, { 7, 7, 7 }))));
    CALL("reserve_wanted", show_octets(64, macsec_reserve_wanted(e, AN(0), number(w[1]), RECORD)));
    CALL("reserve_to_accept",
         show_octets(64, macsec_reserve_to_accept(e, SCI(0), AN(1), number(w[2]), number(w[3]), RECORD)));
    CALL("reserve_to_save", show_octets(64, macsec_reserve_to_save(e, SCI(0), AN(1), RECORD)));
    CALL("reserve_tx_floor", show_floor(macsec_reserve_tx_floor(e, NUMBER(0), ROOM(uint64_t, 7))));
    CALL("reserve_rx_floor", show_floor(macsec_reserve_rx_floor(e, SCI(0), AN(1), NUMBER(2), ROOM(uint64_t, 7))));
    CALL("journal_header", show_octets(64, macsec_journal_header(sealed_of(w[0], 24), RECORD)));
    CALL("journal_compacted", journal_compacted(w[0]));
    return file_call(e, name, w);
}

/* Makes the call of a line, and checks the blocks that it takes and gives back. */
static uint32_t checked(unsigned handle, const char *name, char **w) {
    bool before = made[handle], makes = strcmp(name, "new") == 0 || strcmp(name, "configure") == 0 ||
                                        strcmp(name, "reserve_open") == 0 || strcmp(name, "reserve_configure") == 0;
    asked = 0;
    held = 0;
    for_jobs = 0;
    uint32_t status = call(&handles[handle], name, w);
    if (makes && status == MACSEC_OK)
        made[handle] = true;
    if (strcmp(name, "free") == 0)
        made[handle] = false;
    check_blocks(name, handle, before, status);
    leave_rooms();
    return status;
}

int main(void) {
    if (macsec_version() != MACSEC_VERSION_NUMBER)
        fail("the library has another version than the header");
    for (; fgets(line, sizeof line, stdin) != NULL; line_count++) {
        char *words[MOST_WORDS] = { NULL }, *rest = line;
        int count = 0;
        for (char *word; count < MOST_WORDS && (word = strtok(rest, " \n")) != NULL; rest = NULL)
            words[count++] = word;
        if (count < 2 || number(words[1]) >= HANDLES)
            fail("a line names no call of a handle");
        refused_after = *words[0] == '?';
        refused = refused_after || *words[0] == '!';
        words[0] += refused;
        do {
            printf("%s", words[0]);
            printf(" : %u\n", (unsigned)checked((unsigned)number(words[1]), words[0], words + 2));
        } while (refused != 0 && asked >= refused++);
    }
    for (int i = 0; i < HANDLES; i++)
        macsec_free(&handles[i]);
    for (int i = 0; i < KEYS; i++)
        macsec_key_free(&keys[i]);
    for (int i = 0; i < SLOTS; i++)
        macsec_slot_free(&slots[i]);
    for (int i = 0; i < FILES; i++)
        macsec_journal_free(&files[i]);
    macsec_free(NULL);
    macsec_key_free(NULL);
    macsec_slot_free(NULL);
    macsec_journal_free(NULL);
    return fflush(stdout) == 0 && !ferror(stdout) ? 0 : 1;
}
