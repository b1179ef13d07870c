/* Runs device/ring.c in all schedules of a few frames, and compares each one with crates/macsec_lane/specs: frames
 * leave in the order of their plans, each once and each finished before, and none waits that may leave.
 *
 * The endpoint's thread puts frames with and without a job, does the first job, and lets the first frame leave. Two
 * workers do jobs. A step is one atomic operation (ring_atomics.h). A load reads the newest value, or an older one if
 * nothing has shown this thread a newer one, as C allows. A release shows what its thread has seen to each thread that
 * acquires its value. Two threads that use a place without that are reported, whatever a processor would do.
 *
 * C allows two things more, which are not tried: a load of a value that is stored later, and two threads that see two
 * relaxed stores of `next` in different orders than they were made. */
#include "ring_atomics.h"
#include "workers.h"
#include <inttypes.h>
#include <setjmp.h>
#include <stdio.h>
#include <stdlib.h>
#include <string.h>

/* The atomic variables: `end` and `next` of the ring, and the states of its places. `first` is none, since only the
 * endpoint's thread reads and writes it here. */
enum { END, NEXT, STATES, VARIABLES = STATES + RING };
/* The threads, the most values of a variable that can be read, the most operations of a call, and of all worlds. */
enum { ENDPOINT, ONE, OTHER, THREADS, VALUES = 16, OPERATIONS = 16, WORLDS = 1 << 22 };

/* What a thread does. The endpoint's thread has the choice from LEAVING to PUTTING_FINISHED, the others only take. */
enum phase { CHOOSING, LEAVING, TAKING_FIRST, PUTTING, PUTTING_FINISHED, TAKING, FINISHING, REMOVING };

/* How far a thread has seen the values of each variable, and of which places it has seen the last use. */
struct view {
    uint8_t at[VARIABLES], uses;
};

/* The values of a variable that can still be read, the oldest first, each with what it shows who acquires it. */
struct variable {
    uint8_t count;
    struct {
        uint8_t value;
        struct view shows;
    } values[VALUES];
};

struct runner {
    struct view sees;
    uint8_t phase, place, count, read[OPERATIONS]; /* what the operations of its call have read so far */
};

/* All is octets without gaps, so equal states have equal octets. */
struct world {
    struct variable variables[VARIABLES];
    struct runner threads[THREADS];
    struct {
        uint8_t number, is_done;
    } frames[RING];                  /* of the places */
    uint8_t first, first_before;     /* of the ring, now and before the call of the endpoint's thread */
    uint8_t planned, finished, left; /* the lane: how many, a set, how many */
};

static struct ring ring; /* only its addresses matter */
static struct world *w;
static unsigned it, position; /* the thread that runs, and which operation of its call is next */
static struct {
    bool is_choice;
    enum operation what;
    unsigned at;
    uint8_t value, expected;
    memory_order order;
} asked; /* what it does next */
static jmp_buf stopped;
static uint64_t seen[WORLDS], worlds = 1;

__attribute__((noreturn)) static void wrong(unsigned number, const char *what) {
    printf("WRONG: in a ring of %u frame %u of %u %s\n", (unsigned)RING, number, (unsigned)FRAMES, what);
    exit(1);
}

/* ---- The lane, as Lane.antt has it ---- */

static int first_out(void) {
    return w->left < w->planned && (w->finished >> w->left & 1) ? w->left : -1;
}

static void finishes(unsigned number) {
    w->finished |= (uint8_t)(number < w->planned ? 1u << number : 0);
}

/* ---- Operations ---- */

uint64_t operate(enum operation what, const volatile void *at, uint64_t value, uint64_t expected, memory_order order) {
    unsigned variable = at == &ring.end ? END : NEXT;
    for (unsigned i = 0; i < RING; i++)
        if (at == &ring.places[i].state)
            variable = STATES + i;
    if (at == &ring.first)
        return w->first = what == STORE ? (uint8_t)value : w->first;
    if (it == ENDPOINT && what == LOAD && variable == END) /* no other thread writes it: this is no step */
        return w->variables[END].values[w->variables[END].count - 1].value;
    if (position < w->threads[it].count)
        return w->threads[it].read[position++];
    asked.is_choice = false;
    asked.what = what, asked.at = variable, asked.order = order;
    asked.value = (uint8_t)value, asked.expected = (uint8_t)expected;
    longjmp(stopped, 1);
}

static void learn(struct view *v, const struct view *shown) {
    for (unsigned i = 0; i < VARIABLES; i++)
        if (v->at[i] < shown->at[i])
            v->at[i] = shown->at[i];
    v->uses |= shown->uses;
}

/* Does what the thread asked for. Choice 0 is the newest value. Returns false if there is no such choice. */
static bool apply(unsigned chosen) {
    struct variable *v = &w->variables[asked.at];
    struct runner *t = &w->threads[it];
    unsigned index = v->count - 1 - chosen;
    uint8_t read = v->values[index].value;
    bool writes = asked.what == STORE || (asked.what == EXCHANGE && read == asked.expected);
    bool reads = asked.what == LOAD || (asked.what == EXCHANGE && writes); /* else it is relaxed */
    if (index < t->sees.at[asked.at] || (writes && chosen > 0))
        return false;
    if (asked.what != STORE)
        t->sees.at[asked.at] = (uint8_t)index;
    if (reads && asked.order != memory_order_relaxed && asked.order != memory_order_release)
        learn(&t->sees, &v->values[index].shows);
    if (writes) {
        if (v->count == VALUES || t->count == OPERATIONS)
            wrong(w->left, "is in a ring with more values or operations than this test has space for");
        t->sees.at[asked.at] = ++index;
        v->count++;
        v->values[index].value = asked.value;
        if (asked.what == EXCHANGE) /* what was released before it stays so */
            v->values[index].shows = v->values[index - 1].shows;
        if (asked.order != memory_order_relaxed && asked.order != memory_order_acquire)
            learn(&v->values[index].shows, &t->sees);
        v->values[index].shows.at[asked.at] = index;
    }
    t->read[t->count++] = read;
    return true;
}

/* ---- Threads ---- */

/* Uses the members of a place that are not atomic. */
static void use(unsigned place) {
    if ((w->threads[it].sees.uses >> place & 1) == 0)
        wrong(w->frames[place].number, "has a place that two threads use at once");
    for (unsigned i = 0; i < THREADS; i++)
        w->threads[i].sees.uses &= (uint8_t) ~(1u << place);
    for (unsigned i = 0; i < VARIABLES; i++)
        for (unsigned j = 0; j < w->variables[i].count; j++)
            w->variables[i].values[j].shows.uses &= (uint8_t) ~(1u << place);
    w->threads[it].sees.uses |= (uint8_t)(1u << place);
}

static void put(const struct ring_place *p, bool job) {
    unsigned place = (unsigned)(p - ring.places);
    use(place);
    w->frames[place].number = w->planned++;
    w->frames[place].is_done = !job;
    if (!job)
        finishes(w->planned - 1u);
}

static enum phase took(const struct ring_place *p) {
    struct runner *t = &w->threads[it];
    t->place = (uint8_t)(p - ring.places);
    use(t->place);
    if (w->frames[t->place].is_done)
        wrong(w->frames[t->place].number, "has its job done twice");
    w->frames[t->place].is_done = 1;
    return FINISHING;
}

static enum phase leave(const struct ring_place *p) {
    unsigned place = (unsigned)(p - ring.places);
    use(place);
    if (w->frames[place].number != w->left)
        wrong(w->frames[place].number, "overtakes another one");
    if (first_out() != w->left || !w->frames[place].is_done)
        wrong(w->left, "leaves before it is finished");
    w->left++;
    return REMOVING;
}

/* Goes on to the next operation or choice. Its call begins anew, with what its operations have read. */
static void call(void) {
    struct runner *t = &w->threads[it];
    enum phase next = it == ENDPOINT ? CHOOSING : TAKING;
    struct ring_place *p;
    switch ((enum phase)t->phase) {
    case CHOOSING:
        asked.is_choice = true;
        longjmp(stopped, 1);
    case LEAVING:
        if ((p = ring_first(&ring)) != NULL)
            next = leave(p);
        break;
    case REMOVING:
        ring_remove(&ring);
        break;
    case TAKING:
        if ((p = ring_take(&ring)) != NULL)
            next = took(p);
        break;
    case TAKING_FIRST:
        if (ring_take_place(ring_at(&ring, 0)))
            next = took(ring_at(&ring, 0));
        break;
    case PUTTING:
    case PUTTING_FINISHED:
        ring_put(&ring, t->phase == PUTTING);
        break;
    case FINISHING:
        ring_finish(&ring.places[t->place]);
        finishes(w->frames[t->place].number);
        t->place = 0;
    }
    w->first_before = w->first;
    t->phase = (uint8_t)next;
    t->count = 0;
    memset(t->read, 0, sizeof t->read);
}

static void run(unsigned thread) {
    it = thread;
    if (setjmp(stopped) == 0)
        for (;;) {
            position = 0;
            w->first = w->first_before;
            call();
        }
}

static bool choose(unsigned chosen) {
    struct runner *t = &w->threads[it];
    enum phase phase = LEAVING + chosen;
    if (phase >= PUTTING) {
        struct ring_place *p = w->planned < FRAMES ? ring_free(&ring) : NULL;
        if (p == NULL)
            return false;
        put(p, phase == PUTTING);
    } else if (w->left == w->planned) {
        return false;
    }
    t->phase = (uint8_t)phase;
    return true;
}

/* ---- All schedules ---- */

/* Does a thread need nothing to know of a value, since the next one is the same and shows the same? */
static bool is_double(unsigned variable, unsigned index) {
    const struct variable *v = &w->variables[variable];
    struct view older = v->values[index].shows, newer = v->values[index + 1].shows;
    older.at[variable] = newer.at[variable];
    return v->values[index].value == v->values[index + 1].value && memcmp(&older, &newer, sizeof older) == 0;
}

/* Removes a value, so that the next one counts as seen where this one is. */
static void forget(unsigned variable, unsigned index) {
    struct variable *v = &w->variables[variable];
    memmove(v->values + index, v->values + index + 1, (v->count - index - 1) * sizeof v->values[0]);
    memset(v->values + --v->count, 0, sizeof v->values[0]);
    for (unsigned i = 0; i < THREADS; i++)
        w->threads[i].sees.at[variable] -= w->threads[i].sees.at[variable] > index;
    for (unsigned i = 0; i < VARIABLES; i++)
        for (unsigned j = 0; j < w->variables[i].count; j++)
            w->variables[i].values[j].shows.at[variable] -= w->variables[i].values[j].shows.at[variable] > index;
}

/* Forgets the values that no thread can read, and doubles. The workers are alike, so their order is no difference. */
static void reduce(void) {
    struct runner one;
    for (unsigned i = 0; i < VARIABLES; i++) {
        const struct runner *t = w->threads;
        while (t[ENDPOINT].sees.at[i] > 0 && t[ONE].sees.at[i] > 0 && t[OTHER].sees.at[i] > 0)
            forget(i, 0);
        for (unsigned j = 0; j + 1u < w->variables[i].count; j++)
            if (is_double(i, j))
                forget(i, j--);
    }
    one = w->threads[ONE];
    if (memcmp(&one, &w->threads[OTHER], sizeof one) > 0) {
        w->threads[ONE] = w->threads[OTHER];
        w->threads[OTHER] = one;
    }
}

/* Two worlds can have one number of 64 bits. Then the second one is left out: of a million the odds are 1 to 10^7. */
static bool is_new(void) {
    const uint8_t *octets = (const uint8_t *)w;
    uint64_t number = 14695981039346656037u;
    for (size_t i = 0; i < sizeof *w; i++)
        number = (number ^ octets[i]) * 1099511628211u;
    size_t at = (number ^ number >> 32) % WORLDS;
    while (seen[at] != 0 && seen[at] != number)
        at = (at + 1) % WORLDS;
    if (seen[at] == number)
        return false;
    seen[at] = number;
    if (++worlds > WORLDS / 2)
        wrong(w->left, "has more schedules than this test has space for");
    return true;
}

/* Ends what a thread does with the newest values, and then does what it is to do. */
static void end_with(unsigned thread, enum phase phase) {
    enum phase rests = thread == ENDPOINT ? CHOOSING : TAKING;
    for (unsigned i = 0; i < 2; i++) {
        run(thread);
        while (w->threads[thread].phase != rests || w->threads[thread].count > 0) {
            (void)apply(0);
            run(thread);
        }
        if (i == 0)
            w->threads[thread].phase = (uint8_t)phase;
    }
}

/* If no thread is in the middle of a call: the first frame leaves if it is finished, and any call finds each job. */
static void compare(const struct world *from) {
    struct world copy = *from;
    w = &copy;
    end_with(ONE, TAKING);
    end_with(OTHER, TAKING);
    end_with(ENDPOINT, CHOOSING);
    while (w->left < w->planned) {
        unsigned left = w->left;
        if (first_out() < 0)
            end_with(ENDPOINT, TAKING);
        if (first_out() < 0)
            wrong(left, "has a job that no thread finds");
        end_with(ENDPOINT, LEAVING);
        if (w->left == left)
            wrong(left, "is finished and does not leave");
    }
}

static void visit(const struct world *from) {
    compare(from);
    for (unsigned thread = 0; thread < THREADS; thread++) {
        for (unsigned i = 0, choices = 1; i < choices; i++) {
            struct world next = *from;
            w = &next;
            run(thread);
            choices = asked.is_choice ? PUTTING_FINISHED - LEAVING + 1u : w->variables[asked.at].count;
            if (!(asked.is_choice ? choose(i) : apply(i)))
                continue;
            run(thread);
            reduce();
            if (is_new())
                visit(&next);
        }
    }
}

int main(void) {
    static struct world first;
    for (unsigned i = 0; i < VARIABLES; i++)
        first.variables[i].count = 1;
    for (unsigned i = 0; i < THREADS; i++) {
        first.threads[i].phase = i == ENDPOINT ? CHOOSING : TAKING;
        first.threads[i].sees.uses = (1u << RING) - 1;
    }
    visit(&first);
    printf("all schedules of %u frames in a ring of %u: %" PRIu64 " worlds\n", (unsigned)FRAMES, (unsigned)RING,
           worlds);
    return 0;
}
