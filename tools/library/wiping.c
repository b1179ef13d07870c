/* The allocation calls of the library for C: blocks come from the program's malloc and are overwritten before free.
 * tools/merged-library links this in place of the toolchain's part. The 16 octets before a block hold its length. */
#define _DEFAULT_SOURCE
#include <stddef.h>
#include <stdint.h>
#include <stdlib.h>
#include <string.h>
#ifdef __linux__
#include <sys/mman.h>
#ifndef MADV_DONTNEED_LOCKED
#define MADV_DONTNEED_LOCKED 24
#endif
#endif

enum { HEAD = 16, PAGE = 4096, LARGE = 1 << 20 };

/* What the library expects of a call that allocates: 1 and a block, or 0. */
typedef struct {
    uint64_t is_given;
    void *block;
} allocated;

static char nothing;

/* The compiler must not drop the write because free follows. */
static void clear(uint8_t *from, size_t length) {
    memset(from, 0, length);
    __asm__ volatile("" : : "r"(from) : "memory");
}

#ifdef __linux__
/* Lets the kernel take pages back. For locked ones there is another call, since Linux 5.18. */
static int give_back(uint8_t *from, size_t length) {
    return madvise(from, length, MADV_DONTNEED) == 0 || madvise(from, length, MADV_DONTNEED_LOCKED) == 0;
}

/* Is the middle of a block in memory? Blocks are written from their beginning on, so half of it is then. */
static int is_written(uint8_t *from, size_t length) {
    unsigned char there = 0;
    return mincore(from + length / 2 - (uintptr_t)(from + length / 2) % PAGE, PAGE, &there) == 0 && (there & 1) != 0;
}
#endif

/* The table of keys has space for 4,096 keys, most of it never written. The kernel takes its pages back at once, where
 * clearing them would first make them resident. If half of them are, new ones would take longer than clearing all.
 * Pages that it refuses are cleared, and pages that are shared, where the mark stays. */
static void overwrite(uint8_t *from, size_t length) {
#ifdef __linux__
    if (length >= LARGE && !is_written(from, length)) {
        size_t before = -(uintptr_t)from % PAGE, whole = (length - before) / PAGE * PAGE;
        volatile uint8_t *mark = from + before;
        *mark = 1;
        if (give_back(from + before, whole) && *mark == 0) {
            clear(from, before);
            clear(from + before + whole, length - before - whole);
            return;
        }
    }
#endif
    clear(from, length);
}

allocated rattle_alloc(size_t length, size_t align) {
    uint8_t *whole;
    if (length == 0)
        length = align;
    whole = length > SIZE_MAX - HEAD ? NULL : malloc(HEAD + length);
    if (whole == NULL)
        return (allocated){ 0, &nothing };
    memcpy(whole, &length, sizeof length);
    return (allocated){ 1, whole + HEAD };
}

void rattle_dealloc(void *block) {
    size_t length;
    if (block == NULL)
        return;
    memcpy(&length, (uint8_t *)block - HEAD, sizeof length);
    overwrite(block, length);
    free((uint8_t *)block - HEAD);
}

allocated rattle_realloc(void *block, size_t old_length, size_t length, size_t align) {
    allocated next = rattle_alloc(length, align);
    if (next.is_given) {
        memcpy(next.block, block, old_length < length ? old_length : length);
        rattle_dealloc(block);
    }
    return next;
}
