/* The journal of an endpoint's packet numbers as a file on a disk. journal.h has the rules. The library says which
 * system call is next; here each one is a short function. */
#define _GNU_SOURCE /* renameat2, RENAME_NOREPLACE, TEMP_FAILURE_RETRY */
#include "journal.h"
#include <errno.h>
#include <fcntl.h>
#include <stdio.h>
#include <stdlib.h>
#include <string.h>
#include <sys/file.h>
#include <sys/random.h>
#include <unistd.h>

/* The suffix of a new file until it takes the place of the old one. */
#define NEW_SUFFIX ".new"
/* How often another process may put a new file in place between opening and locking. */
#define OPEN_ATTEMPTS 8

static int failed(struct journal_fault *fault, const char *step, int error) {
    *fault = (struct journal_fault){ step, error, MACSEC_OK };
    return -1;
}

static int failed_in_library(struct journal_fault *fault, uint32_t status) {
    failed(fault, "library", status == MACSEC_E_MEMORY ? ENOMEM : status == MACSEC_E_JOURNAL_FULL ? EFBIG : EINVAL);
    fault->status = status;
    return -1;
}

/* Closes a descriptor. An error says nothing of what fdatasync has made durable, and Linux closes it all the same. */
static void close_file(int *file) {
    if (*file >= 0)
        (void)close(*file);
    *file = -1;
}

/* ---- Reading and writing ---- */

/* Reads or writes all octets from this offset of a file on. Returns false with errno set if that fails. */
static bool pass_all(int file, bool writes, void *octets, size_t length, uint64_t at) {
    for (size_t done = 0; done < length;) {
        char *left = (char *)octets + done;
        ssize_t count = TEMP_FAILURE_RETRY(writes ? pwrite(file, left, length - done, (off_t)(at + done))
                                                  : pread(file, left, length - done, (off_t)(at + done)));
        if (count == 0)
            errno = EIO;
        if (count <= 0)
            return false;
        done += (size_t)count;
    }
    return true;
}

uint8_t *journal_read(int file, size_t *length) {
    struct stat about;
    uint8_t *octets;
    if (fstat(file, &about) != 0)
        return NULL;
    errno = !S_ISREG(about.st_mode) ? EINVAL : about.st_size > JOURNAL_MAX ? EFBIG : ENOMEM;
    if (errno != ENOMEM)
        return NULL;
    *length = (size_t)about.st_size;
    octets = malloc(*length + 1);
    if (octets == NULL || pass_all(file, false, octets, *length, 0))
        return octets;
    free(octets);
    return NULL;
}

/* ---- The folder and the names in it ---- */

/* Opens a file of the folder. Returns -1 with errno set. */
static int open_in(int folder, const char *name, int flags, mode_t mode) {
    return (int)TEMP_FAILURE_RETRY(openat(folder, name, flags | O_RDWR | O_CLOEXEC | O_NOFOLLOW | O_NOCTTY, mode));
}

/* Opens the folder of a path, and notes the name in it. */
static int open_folder(struct journal *journal, const char *path, struct journal_fault *fault) {
    char folder[PATH_MAX];
    const char *slash = strrchr(path, '/');
    const char *name = slash == NULL ? path : slash + 1;
    size_t length = slash == NULL ? 0 : (size_t)(slash - path) + 1;
    if (strcmp(name, "") == 0 || strcmp(name, ".") == 0 || strcmp(name, "..") == 0)
        return failed(fault, "path", EINVAL);
    if (length + 2 > sizeof folder || strlen(name) + strlen(NEW_SUFFIX) >= sizeof journal->name)
        return failed(fault, "path", ENAMETOOLONG);
    memcpy(folder, path, length);
    memcpy(folder + length, ".", 2);
    strcpy(journal->name, name);
    strcpy(journal->new_name, name);
    strcat(journal->new_name, NEW_SUFFIX);
    journal->folder = (int)TEMP_FAILURE_RETRY(open(folder, O_RDONLY | O_DIRECTORY | O_CLOEXEC));
    return journal->folder < 0 ? failed(fault, "folder", errno) : 0;
}

/* Does the name lead to this file? If not, errno says why. */
static bool is_named(const struct journal *journal, int file) {
    struct stat named, own;
    bool found = fstatat(journal->folder, journal->name, &named, AT_SYMLINK_NOFOLLOW) == 0;
    if ((!found && errno != ENOENT) || fstat(file, &own) != 0)
        return false;
    errno = ESTALE;
    return found && named.st_dev == own.st_dev && named.st_ino == own.st_ino;
}

int journal_check_owner(const struct stat *file, const struct stat *folder) {
    if ((file->st_mode & (S_IRWXG | S_IRWXO)) != 0)
        return EACCES;
    return file->st_uid == geteuid() || file->st_uid == folder->st_uid ? 0 : EPERM;
}

/* Refuses what is no regular file, has other names too, or is not its owner's alone. */
static int check_file(const struct journal *journal, struct journal_fault *fault) {
    struct stat file, folder;
    int error;
    if (fstat(journal->file, &file) != 0 || fstat(journal->folder, &folder) != 0)
        return failed(fault, "status", errno);
    if (!S_ISREG(file.st_mode) || file.st_nlink > 1)
        return failed(fault, "kind", S_ISREG(file.st_mode) ? EMLINK : EINVAL);
    error = journal_check_owner(&file, &folder);
    return error != 0 ? failed(fault, "owner", error) : 0;
}

/* ---- The steps: each makes one call. If that does not succeed, errno says why ---- */

bool journal_is_cut(const struct journal *journal) {
    struct stat status;
    return journal->length >= 0 && fstat(journal->file, &status) == 0 && status.st_size != journal->length;
}

/* Has the file as many octets as this process has written? */
static bool is_whole(const struct journal *journal) {
    errno = ENODATA;
    return !journal_is_cut(journal);
}

static bool append(struct journal *journal) {
    return is_whole(journal) && pass_all(journal->file, true, journal->records, journal->call.length, journal->call.at);
}

/* Did a call make octets durable? A bad disk can say ENODATA, which means here that the file was cut. */
static bool is_synced(int result) {
    if (result != 0 && errno == ENODATA)
        errno = EIO;
    return result == 0;
}

static bool sync_file(struct journal *journal) {
    return is_synced(fdatasync(journal->file));
}

static bool look_after(struct journal *journal) {
    journal->length = (off_t)journal->call.end;
    return is_named(journal, journal->file) && is_whole(journal);
}

/* The new file has the name, and is the journal from now on. */
static void take_new(struct journal *journal) {
    close_file(&journal->file);
    journal->file = journal->new_file;
    journal->new_file = -1;
}

/* A rename that failed may be done all the same. */
static bool look_before(struct journal *journal) {
    if (journal->new_file >= 0 && is_named(journal, journal->new_file))
        take_new(journal);
    return is_named(journal, journal->file);
}

/* This process holds the lock, so a file of this name is left over. */
static bool remove_new(struct journal *journal) {
    close_file(&journal->new_file);
    return unlinkat(journal->folder, journal->new_name, 0) == 0 || errno == ENOENT;
}

static bool create_new(struct journal *journal) {
    journal->new_file = open_in(journal->folder, journal->new_name, O_CREAT | O_EXCL, 0600);
    return journal->new_file >= 0;
}

static bool lock_new(struct journal *journal) {
    return flock(journal->new_file, LOCK_EX | LOCK_NB) == 0;
}

static bool fill_new(struct journal *journal) {
    journal->length = (off_t)journal->call.length;
    return pass_all(journal->new_file, true, journal->records, journal->call.length, journal->call.at);
}

static bool sync_new(struct journal *journal) {
    return is_synced(fsync(journal->new_file));
}

static bool rename_new(struct journal *journal) {
    unsigned flags = journal->is_created ? RENAME_NOREPLACE : 0;
    if (renameat2(journal->folder, journal->new_name, journal->folder, journal->name, flags) != 0)
        return false;
    take_new(journal);
    return true;
}

static bool sync_folder(struct journal *journal) {
    return is_synced(fsync(journal->folder));
}

/* Makes the call that is next. Returns 0, or -1 if it does not succeed. */
static int make_call(struct journal *journal, struct journal_fault *fault) {
    static const struct {
        bool (*make)(struct journal *journal);
        const char *step;
    } calls[] = {
        [MACSEC_STEP_APPENDING] = { append, "write" },
        [MACSEC_STEP_SYNCING] = { sync_file, "sync" },
        [MACSEC_STEP_LOOKING_AFTER] = { look_after, "named" },
        [MACSEC_STEP_LOOKING_BEFORE] = { look_before, "named" },
        [MACSEC_STEP_REMOVING] = { remove_new, "new file" },
        [MACSEC_STEP_CREATING] = { create_new, "new file" },
        [MACSEC_STEP_LOCKING] = { lock_new, "lock" },
        [MACSEC_STEP_FILLING] = { fill_new, "write" },
        [MACSEC_STEP_SYNCING_NEW] = { sync_new, "sync" },
        [MACSEC_STEP_RENAMING] = { rename_new, "rename" },
        [MACSEC_STEP_SYNCING_FOLDER] = { sync_folder, "sync folder" },
    };
    const uint32_t step = journal->call.step;
    bool (*make)(struct journal * journal) = calls[step].make;
    return make != NULL && make(journal) ? 0 : failed(fault, calls[step].step, errno);
}

/* ---- Creating ---- */

/* The folder can be as new as the journal, and then its name is made durable too. Who may not open the folder above has
 * not made it. */
static int sync_above(const struct journal *journal, struct journal_fault *fault) {
    int above = openat(journal->folder, "..", O_RDONLY | O_DIRECTORY | O_CLOEXEC);
    int error = above < 0 ? errno : is_synced(fsync(above)) ? 0 : errno;
    close_file(&above);
    return error == 0 || error == EACCES ? 0 : failed(fault, "sync folder above", error);
}

int journal_create(const char *path, struct journal_fault *fault) {
    uint8_t salt[24];
    macsec_record records[2];
    struct journal journal = { .records = records, .file = -1, .new_file = -1, .is_created = true };
    int result = 0;
    if (TEMP_FAILURE_RETRY(getrandom(salt, sizeof salt, 0)) != sizeof salt)
        return failed(fault, "random", errno);
    (void)macsec_journal_created(salt, (uint8_t *)records); /* it always succeeds */
    if (open_folder(&journal, path, fault) != 0)
        return -1;
    journal.call = (macsec_journal_call){ .length = sizeof records, .step = MACSEC_STEP_CREATING };
    for (; result == 0 && journal.call.step <= MACSEC_STEP_SYNCING_FOLDER; journal.call.step++)
        result = make_call(&journal, fault);
    if (result == 0)
        result = sync_above(&journal, fault);
    /* The file is still locked, so nobody uses it. Where this fails too, it stays. */
    if (result != 0 && (journal.file >= 0 || journal.new_file >= 0))
        (void)unlinkat(journal.folder, journal.file >= 0 ? journal.name : journal.new_name, 0);
    close_file(&journal.file);
    close_file(&journal.new_file);
    close_file(&journal.folder);
    return result;
}

/* ---- Opening ---- */

/* Opens the file and locks it. Returns 0; 1 if another file has its name by then, as after a rewriting; or -1. */
static int open_and_lock(struct journal *journal, struct journal_fault *fault) {
    journal->file = open_in(journal->folder, journal->name, O_NONBLOCK, 0);
    if (journal->file < 0)
        return failed(fault, "open", errno);
    if (check_file(journal, fault) != 0)
        return -1;
    if (flock(journal->file, LOCK_EX | LOCK_NB) != 0)
        return failed(fault, "lock", errno);
    if (is_named(journal, journal->file))
        return 0;
    failed(fault, "named", errno);
    return fault->error == ESTALE ? 1 : -1;
}

/* Has the library read the file, and makes a buffer for what is written. */
static int begin(struct journal *journal, uint32_t limit, struct journal_fault *fault) {
    size_t length = 0;
    uint8_t *octets = journal_read(journal->file, &length);
    uint32_t status;
    if (octets == NULL)
        return failed(fault, "read", errno);
    status = macsec_journal_begin(&journal->machine, octets, length, limit);
    free(octets);
    if (status != MACSEC_OK)
        return failed_in_library(fault, status);
    journal->limit = limit;
    journal->room = limit / MACSEC_RECORD_LENGTH;
    journal->records = malloc((journal->room + 1) * sizeof *journal->records);
    if (journal->records == NULL)
        return failed(fault, "memory", ENOMEM);
    memset(journal->records, 0, limit); /* all pages come now, and not one after another as the file fills */
    return 0;
}

int journal_open(struct journal *journal, const char *path, uint32_t limit, struct journal_fault *fault) {
    int result = 1;
    *journal = (struct journal){ .lock = PTHREAD_MUTEX_INITIALIZER, .length = -1, .file = -1, .new_file = -1 };
    if (open_folder(journal, path, fault) != 0)
        return -1;
    for (int attempt = 0; result == 1 && attempt < OPEN_ATTEMPTS; attempt++) {
        close_file(&journal->file);
        result = open_and_lock(journal, fault);
    }
    if (result == 0 && begin(journal, limit, fault) == 0)
        return 0;
    journal_close(journal);
    return -1;
}

void journal_close(struct journal *journal) {
    macsec_journal_free(&journal->machine);
    free(journal->records);
    journal->records = NULL;
    close_file(&journal->file);
    close_file(&journal->new_file);
    close_file(&journal->folder);
}

/* ---- Records ---- */

/* Answers the call that was made. What it showed to be durable is noted. */
static void answer(struct journal *journal, bool ok) {
    macsec_record record;
    (void)macsec_journal_answered(&journal->machine, ok);
    journal->count = 0;
    while (macsec_journal_shown(&journal->machine, journal->count, &record) == MACSEC_OK)
        journal->records[journal->count++] = record;
}

/* Finds the call that is next. Returns false if there is none. The buffer has the limit, which is always enough. */
static bool find_next(struct journal *journal) {
    (void)macsec_journal_next(&journal->machine, (uint8_t *)journal->records, journal->limit, &journal->call);
    return journal->call.step != MACSEC_STEP_RESTING;
}

int journal_write(struct journal *journal, const macsec_record *records, size_t count, bool anew,
                  struct journal_fault *fault) {
    int result = 0;
    uint32_t status;
    (void)pthread_mutex_lock(&journal->lock);
    status = macsec_journal_order(&journal->machine, records, count, anew);
    while (status == MACSEC_OK && find_next(journal)) {
        (void)pthread_mutex_unlock(&journal->lock);
        result = make_call(journal, fault);
        (void)pthread_mutex_lock(&journal->lock);
        answer(journal, result == 0);
    }
    (void)pthread_mutex_unlock(&journal->lock);
    if (result != 0)
        journal->length = -1; /* the file is in doubt */
    return status == MACSEC_OK ? result : failed_in_library(fault, status);
}

uint32_t journal_whole(struct journal *journal, uint8_t *octets, size_t *length) {
    uint32_t status;
    (void)pthread_mutex_lock(&journal->lock);
    status = macsec_journal_whole(&journal->machine, octets, journal->limit, length);
    (void)pthread_mutex_unlock(&journal->lock);
    return status;
}
