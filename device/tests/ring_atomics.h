/* A ring of few places, whose atomic operations are calls of device/tests/ring.c. gcc reads it before device/ring.c. */
#ifndef RING_ATOMICS_H
#define RING_ATOMICS_H

#include "frames.h"
#include <stdatomic.h>

/* How many frames and places there are, if the build does not say. RING is instead of the constant of frames.h. */
#ifndef PLACES
#define FRAMES 2
#define PLACES 2
#endif
#define RING PLACES

enum operation { LOAD, STORE, EXCHANGE };

/* Returns what it reads. An exchange writes only if that is what was expected. */
uint64_t operate(enum operation what, const volatile void *at, uint64_t value, uint64_t expected, memory_order order);

static inline bool exchange(const volatile void *at, uint32_t *expected, uint64_t value, memory_order order) {
    uint32_t before = *expected;
    *expected = (uint32_t)operate(EXCHANGE, at, value, before, order);
    return *expected == before;
}

#undef atomic_load
#undef atomic_load_explicit
#undef atomic_store
#undef atomic_store_explicit
#undef atomic_compare_exchange_strong_explicit
#define atomic_load_explicit(at, order) operate(LOAD, at, 0, 0, order)
#define atomic_load(at) atomic_load_explicit(at, memory_order_seq_cst)
#define atomic_store_explicit(at, value, order) ((void)operate(STORE, at, value, 0, order))
#define atomic_store(at, value) atomic_store_explicit(at, value, memory_order_seq_cst)
#define atomic_compare_exchange_strong_explicit(at, expected, value, order, other) exchange(at, expected, value, order)

#endif
