/* Threads that do the work of the cipher. The endpoint's thread plans a frame, a worker seals or opens it, and the
 * endpoint's thread takes it from its ring. So this thread alone calls the library with the endpoint.
 *
 * A worker that finds no job looks for a moment more and then sleeps, by a futex. One is woken for each WAKES jobs that
 * no thread has taken, so a few frames wake none. The endpoint's thread does jobs too, when it has nothing else to do
 * and when a ring is too full. It leaves no job undone when it waits, so each job is done although no worker may have
 * been woken for it. While it waits in its loop, an eventfd reports that the first frame is finished. */
#include "workers.h"
#include <limits.h>
#include <linux/futex.h>
#include <sched.h>
#include <sys/eventfd.h>
#include <sys/mman.h>
#include <sys/syscall.h>

/* A page, the octets of a worker's stack (sanitizers need most of them), and how many it overwrites before it sleeps:
 * the calls of jobs need less and can leave octets of keys there. */
enum { PAGE = 4096, STACK = 1024 * 1024, USED = 64 * 1024 };

/* How often a worker looks before it sleeps, which is for some 15 us. Under ThreadSanitizer a look takes ten times as
 * long, so a test there has fewer. */
#ifndef WORKERS_LOOKS
#define WORKERS_LOOKS 300
#endif

enum { LOOKS = WORKERS_LOOKS, WAKES = 8 };

/* What the endpoint's thread waits for: nothing, any event of its loop, or one place. */
enum awaited { NOTHING, EVENT, PLACE };

/* The copies of a key: one for each worker, and one for the endpoint's thread. */
struct copies {
    bool there, usable; /* not usable: the key could not be taken, which is not tried for each frame */
    macsec_key keys[WORKERS_MAX + 1];
};

struct worker {
    struct workers *all;
    unsigned index;
    pthread_t thread;
};

struct workers {
    /* Of the endpoint's thread alone. */
    unsigned count, started, jobs; /* the threads, those that were started, and the jobs since the rings were empty */
    int events;                    /* an eventfd, written when a first frame is there and the loop waits */
    uint8_t *stacks;
    struct copies copies[MACSEC_KEY_COUNT]; /* by the numbers of the keys */
    bool has_copies;
    struct worker each[WORKERS_MAX];
    /* Of all threads. */
    _Alignas(64) _Atomic uint32_t bell; /* changes with each wake */
    _Atomic uint32_t sleepers, begun, unconfined, ends;
    _Alignas(64) _Atomic uint32_t awaits;
    struct ring rings[2];
};

/* ---- Sleeping ---- */

/* Sleeps while there is this value. It can end at any time, so the caller looks again. */
static void sleep_while(_Atomic uint32_t *at, uint32_t value) {
    (void)syscall(SYS_futex, at, FUTEX_WAIT_PRIVATE, value, NULL, NULL, 0);
}

/* It can't fail: the address is good, and nobody needs to sleep there. */
static void wake(_Atomic uint32_t *at, int count) {
    (void)syscall(SYS_futex, at, FUTEX_WAKE_PRIVATE, count, NULL, NULL, 0);
}

static void ring_bell(struct workers *w, int count) {
    atomic_fetch_add(&w->bell, 1);
    if (atomic_load(&w->sleepers) > 0)
        wake(&w->bell, count);
}

/* Its own function, which the caller's frame does not have. */
__attribute__((noinline)) static void overwrite_stack(void) {
    char area[USED];
    explicit_bzero(area, sizeof area);
}

/* ---- Jobs ---- */

/* Does the job of a place that this thread has taken, with the copy of this index. What was sealed has its length; an
 * opened frame is judged later, whatever came of it. */
static void carry_out(struct ring_place *p, unsigned index) {
    size_t written = 0;
    macsec_key *key = &p->copies->keys[index];
    struct ring_memory *m = p->memory;
    if (!p->seals)
        (void)macsec_open_job(&m->slot, key);
    else if (macsec_seal_job(&m->slot, key, m->out, sizeof m->out, &written) == MACSEC_OK)
        p->length = written;
    else
        (void)macsec_slot_clear(&m->slot); /* else the slot would take no other frame */
    ring_finish(p);
}

/* Does a job of either ring. Returns its place, or NULL if there is none. */
static struct ring_place *do_job(struct workers *w, unsigned index, unsigned ring) {
    struct ring_place *p = ring_take(&w->rings[ring]);
    if (p == NULL)
        p = ring_take(&w->rings[1 - ring]);
    if (p != NULL)
        carry_out(p, index);
    return p;
}

/* Wakes the endpoint's thread if it waits for a place that is finished. The place may be another frame's already: then
 * it wakes for nothing. */
static void wake_for(struct workers *w, struct ring_place *p) {
    uint32_t awaited = atomic_load(&w->awaits);
    if (awaited == PLACE)
        wake(&p->state, 1);
    else if (awaited == EVENT && (ring_is_first(&w->rings[0], p) || ring_is_first(&w->rings[1], p)) &&
             atomic_exchange(&w->awaits, NOTHING) == EVENT)
        (void)eventfd_write(w->events, 1); /* its counter can't be full here */
}

static void *work(void *argument) {
    struct worker *it = argument;
    struct workers *w = it->all;
    unsigned looks = 0;
    if (confine_calls(WORKER_THREAD, w->events, -1) != 0)
        atomic_store(&w->unconfined, 1);
    atomic_fetch_add(&w->begun, 1);
    wake(&w->begun, 1);
    for (;;) {
        uint32_t bell = atomic_load(&w->bell); /* before all looks: a later bell ends the sleep */
        struct ring_place *p;
        if (atomic_load(&w->ends) != 0)
            break;
        p = do_job(w, it->index, it->index % 2);
        if (p != NULL) {
            wake_for(w, p);
            looks = 0;
        } else if (++looks < LOOKS) {
            __builtin_ia32_pause();
        } else {
            overwrite_stack();
            atomic_fetch_add(&w->sleepers, 1);
            sleep_while(&w->bell, bell);
            atomic_fetch_sub(&w->sleepers, 1);
            looks = 0;
        }
    }
    overwrite_stack();
    return NULL;
}

/* ---- Opening and closing ---- */

/* The set has as many processors as Linux can have on x86-64. */
unsigned workers_fitting(void) {
    cpu_set_t processors[8];
    int count = 0;
    if (sched_getaffinity(0, sizeof processors, processors) == 0)
        count = CPU_COUNT_S(sizeof processors, processors) - 1;
    else
        message_of_errno("the number of processors is unknown, so there are no workers");
    return count < WORKERS_MAX ? (unsigned)count : WORKERS_MAX;
}

/* Their stacks are locked in memory, as the heap is. Below each one is a page that can't be used. */
static int make_stacks(struct workers *w) {
    size_t length = (size_t)w->count * STACK;
    void *stacks = mmap(NULL, length, PROT_READ | PROT_WRITE, MAP_PRIVATE | MAP_ANONYMOUS | MAP_STACK, -1, 0);
    if (stacks == MAP_FAILED)
        return message_of_errno("workers");
    w->stacks = stacks;
    if (mlock2(stacks, length, MLOCK_ONFAULT) != 0)
        message_of_errno("the stacks of workers can't be locked, so keys may be swapped");
    for (unsigned i = 0; i < w->count; i++)
        if (mprotect(w->stacks + (size_t)i * STACK, PAGE, PROT_NONE) != 0)
            return message_of_errno("workers");
    return 0;
}

int workers_open(struct workers **w, unsigned count) {
    struct workers *it;
    *w = NULL;
    if (count == 0)
        return 0;
    it = aligned_alloc(_Alignof(struct workers), sizeof *it);
    if (it == NULL)
        return message_of_errno("workers");
    memset(it, 0, sizeof *it);
    it->count = count;
    *w = it;
    it->events = eventfd(0, EFD_NONBLOCK | EFD_CLOEXEC);
    if (it->events < 0 || ring_open(&it->rings[SENDING]) != MACSEC_OK || ring_open(&it->rings[RECEIVING]) != MACSEC_OK)
        return message_of_errno("workers");
    return make_stacks(it);
}

int workers_start(struct workers *w) {
    if (w == NULL)
        return 0;
    for (; w->started < w->count; w->started++) {
        struct worker *it = &w->each[w->started];
        uint8_t *stack = w->stacks + (size_t)w->started * STACK;
        *it = (struct worker){ .all = w, .index = w->started };
        errno = thread_start(&it->thread, stack + PAGE, STACK - PAGE, work, it);
        if (errno != 0)
            return message_of_errno("workers");
    }
    for (uint32_t begun; (begun = atomic_load(&w->begun)) < w->count;)
        sleep_while(&w->begun, begun);
    return atomic_load(&w->unconfined) == 0 ? 0 : ENDS_FAILED;
}

/* No octet of a key is left in the stacks: the threads have overwritten what they used. */
void workers_close(struct workers *w) {
    if (w == NULL)
        return;
    atomic_store(&w->ends, 1);
    ring_bell(w, INT_MAX);
    while (w->started > 0)
        (void)pthread_join(w->each[--w->started].thread, NULL);
    workers_forget(w); /* it does the jobs that are left */
    ring_close(&w->rings[SENDING]);
    ring_close(&w->rings[RECEIVING]);
    (void)close(w->events); /* nothing is lost if this or the next call fails */
    if (w->stacks != NULL)
        (void)munmap(w->stacks, (size_t)w->count * STACK);
    free(w);
}

int workers_file(const struct workers *w) {
    return w->events;
}

struct ring *workers_ring(struct workers *w, enum direction direction) {
    return &w->rings[direction];
}

unsigned workers_under_way(const struct workers *w, enum direction direction) {
    return w == NULL ? 0 : ring_count(&w->rings[direction]);
}

/* ---- Keys ---- */

struct copies *workers_copies(struct workers *w, const macsec_endpoint *e, uint16_t number) {
    struct copies *c = &w->copies[number];
    if (!c->there) {
        c->there = c->usable = w->has_copies = true;
        for (unsigned i = 0; i <= w->count && c->usable; i++)
            c->usable = macsec_key_take(&c->keys[i], e, number) == MACSEC_OK;
    }
    return c->usable ? c : NULL;
}

void workers_forget(struct workers *w) {
    if (w == NULL)
        return;
    for (unsigned i = 0; i < ring_count(&w->rings[SENDING]); i++)
        (void)workers_await(w, SENDING, i);
    for (unsigned i = 0; i < ring_count(&w->rings[RECEIVING]); i++)
        (void)workers_await(w, RECEIVING, i);
    for (struct copies *c = w->copies; w->has_copies && c < w->copies + MACSEC_KEY_COUNT; c++) {
        for (unsigned i = 0; c->there && i <= w->count; i++)
            macsec_key_free(&c->keys[i]);
        c->there = c->usable = false;
    }
    w->has_copies = false;
    overwrite_stack();
}

/* ---- In the endpoint's thread ---- */

struct ring_place *workers_free(struct workers *w, enum direction direction) {
    struct ring *r = &w->rings[direction];
    struct ring_place *p = ring_free(r);
    if (p != NULL && p->memory == NULL)
        p->memory = r->idle[--r->idle_count];
    return p;
}

void workers_remove(struct workers *w, enum direction direction) {
    struct ring *r = &w->rings[direction];
    struct ring_place *p = ring_at(r, 0);
    r->idle[r->idle_count++] = p->memory;
    p->memory = NULL;
    ring_remove(r);
}

void workers_put(struct workers *w, enum direction direction, struct copies *copies) {
    struct ring *r = &w->rings[direction];
    struct ring_place *p = ring_free(r);
    if (workers_under_way(w, SENDING) + workers_under_way(w, RECEIVING) == 0)
        w->jobs = 0;
    p->copies = copies;
    p->seals = direction == SENDING;
    ring_put(r, copies != NULL);
    if (copies == NULL)
        return;
    if (++w->jobs % WAKES == 0 && ring_untaken(r) >= WAKES)
        ring_bell(w, 1);
}

bool workers_help(struct workers *w) {
    return do_job(w, w->count, RECEIVING) != NULL;
}

struct ring_place *workers_await(struct workers *w, enum direction direction, unsigned index) {
    struct ring_place *p = ring_at(&w->rings[direction], index);
    for (unsigned looks = 0; !ring_is_finished(p); looks++) {
        if (ring_take_place(p)) {
            carry_out(p, w->count);
        } else if (do_job(w, w->count, direction) == NULL && looks > LOOKS) {
            atomic_store(&w->awaits, PLACE);
            sleep_while(&p->state, TAKEN);
            atomic_store(&w->awaits, NOTHING);
        } else {
            __builtin_ia32_pause();
        }
    }
    return p;
}

bool workers_sleep(struct workers *w, bool sends) {
    atomic_store(&w->awaits, EVENT);
    return (!sends || ring_first(&w->rings[SENDING]) == NULL) && ring_first(&w->rings[RECEIVING]) == NULL;
}

void workers_woke(struct workers *w) {
    atomic_store(&w->awaits, NOTHING);
}

void workers_read_event(struct workers *w) {
    uint64_t count;
    if (read(w->events, &count, sizeof count) < 0 && errno != EAGAIN && errno != EINTR)
        message_of_errno("workers");
}
