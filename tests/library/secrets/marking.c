/* Preloaded under valgrind by tests/library/constant-time: marks the digits of keys as undefined when the program
 * `macsec` reads them, and the data of client frames in a capture that it protects, from octet 12 on. What it writes is
 * marked as defined, since an attacker sees that in any case. At the end it says how many digits and how many octets of
 * data had a mark, and how many octets that were written.
 */
#define _GNU_SOURCE
#include <dlfcn.h>
#include <stdbool.h>
#include <stdint.h>
#include <stdio.h>
#include <stdlib.h>
#include <string.h>
#include <unistd.h>
#include <valgrind/memcheck.h>

static unsigned long digits, data, written;

/* Marks the digits after each `key N `. */
static void mark(char *text, size_t length) {
    const char *end = text + length;
    char *at = text;
    while ((at = memmem(at, (size_t)(end - at), "key ", 4)) != NULL) {
        size_t count = 0;
        at += 4;
        while (at < end && *at >= '0' && *at <= '9')
            at++;
        while (at < end && *at == ' ')
            at++;
        while (at + count < end && strchr("0123456789abcdefABCDEF", at[count]) != NULL && at[count] != 0)
            count++;
        (void)VALGRIND_MAKE_MEM_UNDEFINED(at, count);
        digits += count;
        at += count;
    }
}

/* Marks the records of a capture file in the format pcap, of this processor's byte order, which is read by one call. */
static void mark_records(uint8_t *octets, size_t length) {
    uint32_t magic, held;
    memcpy(&magic, octets, sizeof magic);
    if (magic != 0xa1b2c3d4 && magic != 0xa1b23c4d)
        return;
    for (size_t at = 24; at + 16 <= length; at += 16 + held) {
        memcpy(&held, octets + at + 8, sizeof held);
        if (held < 12 || held > length - at - 16)
            return;
        (void)VALGRIND_MAKE_MEM_UNDEFINED(octets + at + 16 + 12, held - 12);
        data += held - 12;
    }
}

/* Are the frames of captures a client's? Else they are on the link, where everybody sees them. */
static bool protects(void) {
    const char *secret = getenv("SECRET_FRAMES");
    return secret != NULL && secret[0] == '1';
}

ssize_t read(int file, void *octets, size_t room) {
    ssize_t (*next)(int, void *, size_t) = (ssize_t(*)(int, void *, size_t))dlsym(RTLD_NEXT, "read");
    ssize_t count = next(file, octets, room);
    if (count > 0)
        mark(octets, (size_t)count);
    if (count > 24 && protects())
        mark_records(octets, (size_t)count);
    return count;
}

ssize_t write(int file, const void *octets, size_t count) {
    ssize_t (*next)(int, const void *, size_t) = (ssize_t(*)(int, const void *, size_t))dlsym(RTLD_NEXT, "write");
    for (size_t i = 0; i < count; i++) {
        uint8_t bits = 0;
        if (VALGRIND_GET_VBITS((const uint8_t *)octets + i, &bits, 1) == 1 && bits != 0)
            written++;
    }
    (void)VALGRIND_MAKE_MEM_DEFINED(octets, count);
    return next(file, octets, count);
}

__attribute__((destructor)) static void tell(void) {
    char line[100];
    int length = snprintf(line, sizeof line, "marked: %lu digits, %lu of data, %lu written\n", digits, data, written);
    ssize_t (*next)(int, const void *, size_t) = (ssize_t(*)(int, const void *, size_t))dlsym(RTLD_NEXT, "write");
    if (next(STDERR_FILENO, line, (size_t)length) != length)
        _exit(9);
}
