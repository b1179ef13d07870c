/* Frames on several cores, in macsecd. Each section is the interface of one file. */
#ifndef WORKERS_H
#define WORKERS_H

#include "frames.h"
#include <stdatomic.h>

/* ---- ring.c: frames that are under way, in their order ---- */

/* The most workers. */
enum { WORKERS_MAX = 8 };

struct copies;
struct device;
struct workers;

enum place_state { FREE, PLANNED, TAKEN, FINISHED };

/* The memory of a frame that is under way. */
struct ring_memory {
    macsec_slot slot;              /* the frame with its job */
    struct received *buffer;       /* of a frame of LINK: the one that has this frame, or a spare one */
    uint8_t out[MACSEC_FRAME_MAX]; /* what is sent; or a segment, of those that have a buffer together */
};

/* A frame that is under way. Its state says which thread has the other members, and the memory. */
struct ring_place {
    _Alignas(64) _Atomic uint32_t state;
    bool seals;                 /* is its job to seal the frame, and not to open it? */
    struct copies *copies;      /* of the key of its job, or NULL */
    struct ring_memory *memory; /* of a frame; a free place can have none (NULL) */
    size_t length;              /* of what is sent; 0: it could not be sealed */
    uint32_t fate;              /* of a client frame */
    struct frame frame;         /* of LINK, since it may have to wait */
};

/* Frames are numbered from 0 on: those from `first` to before `end` are in it. */
struct ring {
    _Alignas(64) _Atomic uint64_t first;
    _Alignas(64) _Atomic uint64_t end;
    _Alignas(64) _Atomic uint64_t next; /* before it no job waits for a thread */
    struct ring_place places[RING];
    /* Of the endpoint's thread alone: the memory that no frame has. What was used last is used next, so that few frames
     * fit into caches: all of it together is 3.6 MB. */
    unsigned idle_count;
    struct ring_memory *idle[RING], memory[RING];
};

/* Makes the memory of a ring that is all zero. Returns the library's status. */
uint32_t ring_open(struct ring *r);
void ring_close(struct ring *r);
/* In the endpoint's thread: how many frames are in it, and the place of this index among them. */
unsigned ring_count(const struct ring *r);
struct ring_place *ring_at(struct ring *r, unsigned index);
/* The place for the next frame, or NULL if the ring is full; adds this place, with or without a job. */
struct ring_place *ring_free(struct ring *r);
void ring_put(struct ring *r, bool job);
/* About how many jobs no thread has taken. */
unsigned ring_untaken(const struct ring *r);
/* Is the job of a place done, or had it none? */
bool ring_is_finished(const struct ring_place *p);
/* The first place if it is finished, else NULL; removes it. */
struct ring_place *ring_first(struct ring *r);
void ring_remove(struct ring *r);
/* In any thread: takes any job, or a place's job, so that no other thread has it. NULL and false: there is none. */
struct ring_place *ring_take(struct ring *r);
bool ring_take_place(struct ring_place *p);
void ring_finish(struct ring_place *p);
/* Is this the first place, as the endpoint's thread has it when it waits? */
bool ring_is_first(struct ring *r, const struct ring_place *p);

/* ---- workers.c: threads that do the work of the cipher ---- */

enum direction { SENDING, RECEIVING };

/* How many workers have a processor beside the endpoint's thread, at most WORKERS_MAX: one less than this process may
 * run on. To be called before confine_calls. */
unsigned workers_fitting(void);
/* Makes the rings, and memory for so many workers; for 0 there are none (NULL). To be called after memory_lock. */
int workers_open(struct workers **w, unsigned count);
/* Starts the threads, which have their own list of system calls. */
int workers_start(struct workers *w);
/* Waits for the jobs that are under way, ends the threads, and frees all. */
void workers_close(struct workers *w);
/* A descriptor that can be read when a first frame is finished for which the loop waits, and reads it. */
int workers_file(const struct workers *w);
void workers_read_event(struct workers *w);
struct ring *workers_ring(struct workers *w, enum direction direction);
/* How many frames are in a ring; 0 if there are no workers. */
unsigned workers_under_way(const struct workers *w, enum direction direction);
/* Copies of the endpoint's key of this number, which the jobs of this key need. NULL: it can't be taken. */
struct copies *workers_copies(struct workers *w, const macsec_endpoint *e, uint16_t number);
/* Waits for the jobs that are under way and frees all copies: to be called after a line, and with another endpoint. */
void workers_forget(struct workers *w);
/* The place for the next frame, with memory, or NULL if the ring is full. Removes the first one, which is finished: the
 * next workers_free can give its memory to another frame. */
struct ring_place *workers_free(struct workers *w, enum direction direction);
void workers_remove(struct workers *w, enum direction direction);
/* Puts the frame of the free place into the ring, with a job for a key, or without one if that is NULL. */
void workers_put(struct workers *w, enum direction direction, struct copies *copies);
/* Does a job that no thread has taken. Returns false if there is none: none may be left when the loop waits, since no
 * worker may have been woken for it. */
bool workers_help(struct workers *w);
/* Waits until the frame of this index is finished, and does jobs meanwhile. */
struct ring_place *workers_await(struct workers *w, enum direction direction, unsigned index);
/* The loop is about to wait, for finished frames too (to be sent: if `sends`). Returns false if there are some. Then it
 * does not wait any more. */
bool workers_sleep(struct workers *w, bool sends);
void workers_woke(struct workers *w);

/* ---- parallel.c: the path of frames with workers ---- */

/* What frames_from_client does with workers. */
enum outcome parallel_from_client(struct device *d);
/* Plans a frame of LINK, which is the `whole` content of the buffer of this index, or a segment. */
enum outcome parallel_receive(struct device *d, const struct frame *frame, unsigned index, bool whole);
/* Delivers the finished frames that are first. Does nothing without workers. Returns GONE if TAP is. */
enum outcome parallel_deliver(struct device *d);
/* Sends and delivers the finished frames that are first. Does nothing without workers. */
enum outcome parallel_go_on(struct device *d);
/* Gives TAP what waits for it, unless frames of LINK are under way: these can be joined to it. */
enum outcome parallel_flush(struct device *d);
/* Waits until no job is under way. Then all frames that were read are counted by the endpoint. Those that LINK does not
 * take yet are sealed, and wait. Does nothing without workers. */
enum outcome parallel_drain(struct device *d);

#endif
