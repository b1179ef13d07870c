/*
 * journal.h - the journal of an endpoint's packet numbers as a file on a disk. C11 on Linux.
 *
 * An endpoint that has a journal sends a frame only if a durable record reserves its packet number, so that no later
 * run repeats the number. The library of macsec.h decides what is reserved, what the records are, and which system call
 * is next when they are written ("A journal as a file"). journal.c makes these calls, and says whether they succeed. It
 * is not proved: the promises of macsec_reserve_open rest on it and on the disk. examples/c/journal.c is a program with
 * a journal; numbers.c is the part of macsecd that has one.
 *
 * CREATION   Create a journal when the operator asks for one, and never because journal_open failed: without its
 *            records all packet numbers can be used again. If a journal is lost, install new keys.
 * ONE USER   The file is locked from journal_open to journal_close, so that one process uses it at a time. The lock is
 *            flock: a child made by fork shares it, and may not use the journal or its endpoint. Use a local file
 *            system.
 * ENDPOINT   Make the next one of what journal_whole gives after the last reservation of the one before, which has to
 *            be freed or to stay without associations.
 * FAILURES   After a failed fdatasync, Linux marks the pages as clean, and the next one can return 0 although nothing
 *            was written. So after a failed call, and at first, since an earlier process may have failed, journal_write
 *            puts a new file in the place of the old one. Until it succeeds, the endpoint uses up what it has reserved,
 *            and then drops its frames (MACSEC_FATE_NO_RESERVATION, MACSEC_VERDICT_NO_RESERVATION). After a failure,
 *            wait a second before the next call.
 * DAMAGE     If one sector is damaged, no record is lost, or journal_open refuses the file (MACSEC_E_JOURNAL_DAMAGED).
 *            Then nobody knows which packet numbers were used: install new keys at both ends, and create another
 *            journal. A crash makes no such damage. A journal of version 1.0.0 is not tested so, before it is replaced.
 *            docs/JOURNAL.md says what is not noticed, and what a disk must promise.
 * CUT        If another program has changed the length of the file, journal_write fails (ENODATA). Then, and when
 *            journal_is_cut says so, replace the file (`anew`).
 * LENGTH     Names of old keys stay, unless macsec_journal_let_go takes them out. If one record for each name does not
 *            fit into the limit, nothing more can be written (MACSEC_E_JOURNAL_FULL): create another journal, and
 *            install new keys. A start compares all names with each other: 0.04 s with 4,000, 1 s with 28,000.
 * LEFTOVERS  A new file has the name of the journal with the suffix .new until it is complete. A crash or a failure can
 *            leave one. The next one removes it, but journal_create does not (EEXIST): remove it manually.
 * SECRETS    The journal contains no key. Anyone who can write it can make the endpoint repeat packet numbers.
 * ERRORS     A call returns 0, or -1 and fills in `fault`. Nothing is printed. Use a journal in one call at a time,
 *            except journal_whole, which can be called beside journal_write.
 */
#ifndef JOURNAL_H
#define JOURNAL_H

#include "macsec.h"
#include <limits.h>
#include <pthread.h>
#include <stdbool.h>
#include <stddef.h>
#include <stdint.h>
#include <sys/stat.h>
#include <sys/types.h>

/* The most octets of a file that is read. */
#define JOURNAL_MAX (1 << 22)

struct journal_fault {
    const char *step; /* what failed, for messages: "open", "rename" or "library", say */
    int error;        /* errno; ENODATA: another program has cut the file */
    uint32_t status;  /* the library's, or MACSEC_OK */
};

/* An open journal. The members from `lock` on belong to these calls. */
struct journal {
    macsec_journal machine; /* the library's part */
    uint32_t limit;         /* the most octets of the file */
    macsec_record *records; /* those that the last journal_write showed to be durable; there is room for the limit */
    size_t room, count;     /* for how many records, and how many there are */
    pthread_mutex_t lock;   /* of `machine` */
    macsec_journal_call call;
    off_t length; /* of the file; -1: unknown */
    int file;     /* locked */
    int new_file; /* until it has the name; or -1 */
    int folder;
    bool is_created; /* may it replace no file? */
    char name[NAME_MAX + 1];
    char new_name[NAME_MAX + 1];
};

/* Creates a journal with a random salt and no records. It replaces no file. If it fails, there is none. */
int journal_create(const char *path, struct journal_fault *fault);

/* Opens, locks and reads a journal, whose file may have `limit` octets. Later calls allocate nothing. */
int journal_open(struct journal *journal, const char *path, uint32_t limit, struct journal_fault *fault);

/* Makes records durable together; with `anew` by a new file, else as macsec_journal_order says. They can be in
 * `records`, which has `count` durable records afterwards: these, or those of all names if the file was replaced. Only
 * then report them to the endpoint (macsec_reserve_granted). */
int journal_write(struct journal *journal, const macsec_record *records, size_t count, bool anew,
                  struct journal_fault *fault);

/* What an endpoint is made of (macsec_journal_whole): at most `limit` octets. Returns the library's status. */
uint32_t journal_whole(struct journal *journal, uint8_t *octets, size_t *length);

/* Has another program changed the length of the file since journal_write returned 0? */
bool journal_is_cut(const struct journal *journal);

/* Reads a file. Returns its octets, which are to be freed, or NULL with errno set. */
uint8_t *journal_read(int file, size_t *length);

/* 0; EACCES: others may read or write the file; or EPERM: it is neither this user's nor of the folder's owner. */
int journal_check_owner(const struct stat *file, const struct stat *folder);

/* Unlocks and closes an open journal. Nothing is lost: each record was made durable when it was written. */
void journal_close(struct journal *journal);

#endif
