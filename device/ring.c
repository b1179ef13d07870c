/* Frames that are under way, in the order in which they came. The endpoint's thread puts frames at the end of a ring,
 * and takes them from its beginning; any thread does jobs between. No lock is in the way of a frame. A place passes
 * from thread to thread by its state alone:
 *
 *     FREE to PLANNED     the endpoint's thread, when the frame and its job are there (release)
 *     FREE to FINISHED    the same thread, with a frame that has no job
 *     PLANNED to TAKEN    the thread that does the job, by an exchange that one thread alone wins (acquire)
 *     TAKEN to FINISHED   this thread, when the job is done (release)
 *     FINISHED to FREE    the endpoint's thread (acquire), if the place is the first */
#include "workers.h"

uint32_t ring_open(struct ring *r) {
    uint32_t status = MACSEC_OK;
    for (unsigned i = 0; i < RING && status == MACSEC_OK; i++) {
        r->idle[r->idle_count++] = &r->memory[i];
        status = macsec_slot_new(&r->memory[i].slot);
    }
    return status;
}

void ring_close(struct ring *r) {
    for (unsigned i = 0; i < RING; i++)
        macsec_slot_free(&r->memory[i].slot);
}

unsigned ring_count(const struct ring *r) {
    return (unsigned)(atomic_load_explicit(&r->end, memory_order_relaxed) -
                      atomic_load_explicit(&r->first, memory_order_relaxed));
}

struct ring_place *ring_at(struct ring *r, unsigned index) {
    return &r->places[(atomic_load_explicit(&r->first, memory_order_relaxed) + index) % RING];
}

struct ring_place *ring_free(struct ring *r) {
    unsigned count = ring_count(r);
    return count == RING ? NULL : ring_at(r, count);
}

/* The state is there before the end is, so that a thread which sees the end sees the state too. */
void ring_put(struct ring *r, bool job) {
    uint64_t end = atomic_load_explicit(&r->end, memory_order_relaxed);
    atomic_store_explicit(&r->places[end % RING].state, job ? PLANNED : FINISHED, memory_order_release);
    atomic_store_explicit(&r->end, end + 1, memory_order_release);
}

/* `next` can be an older value: then it returns too many. */
unsigned ring_untaken(const struct ring *r) {
    uint64_t end = atomic_load_explicit(&r->end, memory_order_relaxed);
    uint64_t next = atomic_load_explicit(&r->next, memory_order_relaxed);
    uint64_t first = atomic_load_explicit(&r->first, memory_order_relaxed);
    return (unsigned)(end - (next > first ? next : first));
}

bool ring_is_finished(const struct ring_place *p) {
    return atomic_load(&p->state) == FINISHED;
}

struct ring_place *ring_first(struct ring *r) {
    struct ring_place *p = ring_at(r, 0);
    return ring_count(r) > 0 && ring_is_finished(p) ? p : NULL;
}

void ring_remove(struct ring *r) {
    uint64_t first = atomic_load_explicit(&r->first, memory_order_relaxed);
    atomic_store_explicit(&r->places[first % RING].state, FREE, memory_order_relaxed);
    atomic_store_explicit(&r->first, first + 1, memory_order_relaxed);
}

bool ring_take_place(struct ring_place *p) {
    uint32_t state = PLANNED;
    return atomic_load_explicit(&p->state, memory_order_relaxed) == PLANNED &&
           atomic_compare_exchange_strong_explicit(&p->state, &state, TAKEN, memory_order_acquire,
                                                   memory_order_relaxed);
}

/* All jobs before `next` are taken: a thread writes to it only what it has seen to be taken. Another one can write an
 * older value after that, which costs some looks and no job. */
struct ring_place *ring_take(struct ring *r) {
    uint64_t end = atomic_load_explicit(&r->end, memory_order_acquire);
    uint64_t next = atomic_load_explicit(&r->next, memory_order_relaxed);
    for (uint64_t i = end > next + RING ? end - RING : next; i < end; i++) {
        if (ring_take_place(&r->places[i % RING])) {
            atomic_store_explicit(&r->next, i + 1, memory_order_relaxed);
            return &r->places[i % RING];
        }
    }
    if (next < end)
        atomic_store_explicit(&r->next, end, memory_order_relaxed);
    return NULL;
}

void ring_finish(struct ring_place *p) {
    atomic_store(&p->state, FINISHED);
}

bool ring_is_first(struct ring *r, const struct ring_place *p) {
    return p == &r->places[atomic_load(&r->first) % RING];
}
