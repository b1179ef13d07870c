/* A library that the test journal loads before a program with a journal. It makes system calls fail, stops the program,
 * and logs what it does to the disk.
 *
 * FAULTS is a list of CALL:FIRST:COUNT:KIND, separated by commas: COUNT calls of this name, from the one of number
 * FIRST, counted from 1. CALL is pwrite, fdatasync, fsync, openat, renameat2, unlinkat or flock, or `any` of them. KIND
 * is the number of an errno, `short` (pwrite writes a third and returns that), `torn` (pwrite writes a half, renameat2
 * all, and fails with EIO), or `stop` (SIGKILL before the call).
 *
 * LOG is a file to which each call is added that writes, makes, renames or synchronizes a file or folder: a line with
 * its name, the inode, the place in the file, the octets, whether it is reported as done, and how many frames were
 * captured before. The octets follow. Then nothing is synchronized really: what a power failure leaves is for the
 * reader of the log.
 *
 * PAUSE is CALL:NUMBER:FILE, where CALL is fdatasync or flock. The call of this number makes the file, and begins when
 * the file is removed. */
#define _GNU_SOURCE
#include <dlfcn.h>
#include <errno.h>
#include <fcntl.h>
#include <limits.h>
#include <signal.h>
#include <stdarg.h>
#include <stdint.h>
#include <stdio.h>
#include <stdlib.h>
#include <string.h>
#include <sys/stat.h>
#include <time.h>
#include <unistd.h>

/* The calls, and how often each was made. */
static struct call {
    const char *name;
    unsigned long made;
} calls[] = { { "pwrite", 0 },    { "fdatasync", 0 }, { "fsync", 0 }, { "openat", 0 },
              { "renameat2", 0 }, { "unlinkat", 0 },  { "flock", 0 }, { "any", 0 } };
enum { PWRITE, FDATASYNC, FSYNC, OPENAT, RENAMEAT2, UNLINKAT, FLOCK, ANY };

static void *next(const char *name) {
    void *found = dlsym(RTLD_NEXT, name);
    if (found == NULL)
        abort();
    return found;
}

/* The call itself. */
#define REAL(name) ((__typeof__(name) *)next(#name))

/* ---- Faults ---- */

/* Does one item of the list apply to this call? Then its kind is copied. */
static int applies(const char *item, int call, char *kind) {
    char name[16];
    unsigned long first, count, made;
    if (sscanf(item, "%15[^:]:%lu:%lu:%15[^,]", name, &first, &count, kind) != 4)
        abort();
    if (strcmp(name, "any") != 0 && strcmp(name, calls[call].name) != 0)
        return 0;
    made = calls[strcmp(name, "any") == 0 ? ANY : call].made;
    return made >= first && made - first < count;
}

/* Counts a call. Returns how it fails, or an empty text. A failure by errno also sets it. */
static const char *fault_of(int call) {
    static char kind[16];
    const char *item = getenv("FAULTS");
    calls[call].made++;
    calls[ANY].made++;
    for (; item != NULL && *item != '\0'; item = strchr(item, ',') ? strchr(item, ',') + 1 : NULL)
        if (applies(item, call, kind)) {
            if (strcmp(kind, "stop") == 0)
                raise(SIGKILL);
            errno = atoi(kind);
            return kind;
        }
    return "";
}

static int is_refused(int call) {
    return *fault_of(call) != '\0';
}

/* Waits, if it is the call for that. */
static void pause_in(int call) {
    const char *item = getenv("PAUSE");
    const struct timespec moment = { 0, 1000000 };
    char name[16];
    unsigned long number;
    int at = 0;
    if (item == NULL)
        return;
    if (sscanf(item, "%15[^:]:%lu:%n", name, &number, &at) != 2 || at == 0)
        abort();
    if (strcmp(name, calls[call].name) != 0 || calls[call].made + 1 != number)
        return;
    close(open(item + at, O_WRONLY | O_CREAT, 0600));
    for (int it = 0; it < 10000 && access(item + at, F_OK) == 0; it++)
        nanosleep(&moment, NULL);
}

/* ---- The log ---- */

static unsigned long written; /* how often a capture was written, at first its header */

static void note(int call, ino_t inode, off_t at, const void *octets, size_t length, int done) {
    const char *name = getenv("LOG");
    int file;
    if (name == NULL)
        return;
    file = REAL(open)(name, O_WRONLY | O_APPEND | O_CREAT | O_CLOEXEC, 0600);
    if (file < 0 || dprintf(file, "%s %ju %jd %zu %d %lu\n", calls[call].name, (uintmax_t)inode, (intmax_t)at, length,
                            done, written) < 0)
        abort();
    if (REAL(write)(file, octets, length) != (ssize_t)length)
        abort();
    close(file);
}

static ino_t inode_of(int file) {
    struct stat status;
    if (fstat(file, &status) != 0)
        abort();
    return status.st_ino;
}

/* Synchronizes a file or folder, if that is not for the reader of the log. */
static int synchronize(int call, int file, int (*real)(int)) {
    int refused, error;
    pause_in(call);
    refused = is_refused(call);
    error = errno;
    note(call, inode_of(file), 0, NULL, 0, !refused);
    errno = error;
    if (!refused && getenv("LOG") == NULL)
        return real(file);
    return refused ? -1 : 0;
}

/* ---- The calls ---- */

int fdatasync(int file) {
    return synchronize(FDATASYNC, file, REAL(fdatasync));
}

int fsync(int file) {
    return synchronize(FSYNC, file, REAL(fsync));
}

ssize_t write(int file, const void *octets, size_t length) {
    written++;
    return REAL(write)(file, octets, length);
}

/* A write that a signal interrupts before its first octet has done nothing, as POSIX says, so the disk isn't told. */
ssize_t pwrite(int file, const void *octets, size_t length, off_t at) {
    const char *kind = fault_of(PWRITE);
    int is_torn = strcmp(kind, "torn") == 0, is_short = strcmp(kind, "short") == 0, error = errno;
    size_t part = is_torn ? length / 2 : is_short && length > 1 ? length / 3 : length;
    ssize_t count = *kind != '\0' && !is_torn && !is_short ? -1 : REAL(pwrite)(file, octets, part + (part == 0), at);
    int done = count >= 0 && !is_torn;
    if (done || is_torn || error != EINTR)
        note(PWRITE, inode_of(file), at, octets, done ? (size_t)count : length, done);
    errno = is_torn ? EIO : error;
    return is_torn ? -1 : count;
}

int openat(int folder, const char *name, int flags, ...) {
    va_list rest;
    mode_t mode;
    int file;
    va_start(rest, flags);
    mode = flags & O_CREAT ? va_arg(rest, mode_t) : 0;
    va_end(rest);
    if (is_refused(OPENAT))
        return -1;
    file = REAL(openat)(folder, name, flags, mode);
    if (file >= 0 && flags & O_CREAT)
        note(OPENAT, inode_of(file), 0, NULL, 0, 1);
    return file;
}

int renameat2(int from, const char *name, int to, const char *new_name, unsigned flags) {
    const char *kind = fault_of(RENAMEAT2);
    int is_torn = strcmp(kind, "torn") == 0, error = errno, result;
    struct stat status;
    if (fstatat(from, name, &status, AT_SYMLINK_NOFOLLOW) != 0)
        return -1;
    result = *kind != '\0' && !is_torn ? -1 : REAL(renameat2)(from, name, to, new_name, flags);
    if (*kind == '\0')
        error = errno;
    note(RENAMEAT2, status.st_ino, result, NULL, 0, result == 0 && !is_torn);
    errno = is_torn ? EIO : error;
    return is_torn ? -1 : result;
}

int unlinkat(int folder, const char *name, int flags) {
    return is_refused(UNLINKAT) ? -1 : REAL(unlinkat)(folder, name, flags);
}

int flock(int file, int operation) {
    pause_in(FLOCK);
    return is_refused(FLOCK) ? -1 : REAL(flock)(file, operation);
}
