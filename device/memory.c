/* Keys are in the blocks of an endpoint, in requests and their commands, in blocks of the parser and, for a moment, on
 * the stack. No page of that is written to swap: all of it is locked at the start, while macsecd has the right to do
 * so. The heap and the stack are made as large before that as they have to be later: a part that comes later would not
 * be locked, and a locked stack can't grow above the limit of locked memory. Core files are in confine.c, and macsecd
 * starts no process. */
#include "system.h"
#include <limits.h>
#include <malloc.h>
#include <sys/mman.h>
#include <sys/resource.h>

/* Two endpoints have 38 MB, with blocks of up to 18.6 MB, and the journal has up to 15 MB. A block of two pieces or
 * more would not be in the heap. */
enum { PIECE = 16 << 20, PIECES = 6, STACK = 512 << 10 };

/* Has blocks be taken from the heap, and makes it large. What is freed stays in it, for the blocks that come. It is the
 * only heap: where it has no block left, the C library would look for another one, by calls that macsecd gives up. */
static bool reserve_heap(void) {
    void *volatile pieces[PIECES];
    bool good = mallopt(M_MMAP_THRESHOLD, 2 * PIECE) != 0 && mallopt(M_TRIM_THRESHOLD, INT_MAX) != 0 &&
                mallopt(M_ARENA_MAX, 1) != 0;
    for (int i = 0; i < PIECES; i++) {
        pieces[i] = malloc(PIECE);
        good = good && pieces[i] != NULL;
    }
    for (int i = 0; i < PIECES; i++)
        free(pieces[i]);
    return good;
}

/* Its own function, which the caller's frame does not have. */
__attribute__((noinline)) static void reserve_stack(void) {
    char area[STACK];
    explicit_bzero(area, sizeof area);
}

void memory_lock(void) {
    struct rlimit limit;
    bool reserved = reserve_heap();
    reserve_stack();
    if (getrlimit(RLIMIT_MEMLOCK, &limit) == 0) {
        limit.rlim_cur = limit.rlim_max;
        (void)setrlimit(RLIMIT_MEMLOCK, &limit); /* the next call says whether it is enough */
    }
    if (!reserved || mlockall(MCL_CURRENT | MCL_ONFAULT) != 0)
        message_of_errno("memory can't be locked, so keys may be swapped");
}
