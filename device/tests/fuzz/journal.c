/* The journal (device/journal.c and names.c). An input is the file. What is read of it is written and read again:
 * each name must have the same greatest packet number then, and be given up or not as before. */
#define _GNU_SOURCE
#include "journal.h"
#include "fuzz.h"
#include <stdlib.h>
#include <string.h>

enum { LIMIT = 8192 };

/* Opens the journal, and reads its names. */
static bool read_file(struct journal *journal, struct names *names) {
    struct journal_fault fault;
    char path[256];
    memset(names, 0, sizeof *names);
    fuzz_require(journals_path(path, sizeof path, "fuzz"), "the path is too long");
    if (journal_open(journal, path, LIMIT, &fault) != 0)
        return false;
    fuzz_require(names_read(names, &journal->machine, journal->room, journal->room), "out of memory");
    return true;
}

/* Writes the journal again with the names that stay in it. */
static void write_anew(struct journal *journal, struct names *names) {
    struct journal_fault fault;
    size_t count = names_changes(names, &journal->machine, journal->records, journal->room);
    fuzz_require(journal_write(journal, journal->records, count, true, &fault) == 0,
                 "the journal can't be written anew");
}

int LLVMFuzzerTestOneInput(const uint8_t *octets, size_t length) {
    struct journal journal = { .file = -1, .new_file = -1, .folder = -1 };
    struct names before, after;
    fuzz_write("STATE_DIRECTORY", "fuzz.journal", octets, length);
    if (read_file(&journal, &before)) {
        write_anew(&journal, &before);
        journal_close(&journal);
        fuzz_require(read_file(&journal, &after), "a journal that was written anew can't be read");
        for (size_t i = 0; i < before.count; i++) {
            const struct name *was = &before.at[i], *is = names_find(&after, was->made.octets);
            fuzz_require(is != NULL && memcmp(&is->made, &was->made, sizeof is->made) == 0, "a packet number is lost");
            fuzz_require(is->note == was->note, "a name that was given up is not, or one more is");
        }
        names_free(&after);
    }
    names_free(&before);
    journal_close(&journal);
    return 0;
}
