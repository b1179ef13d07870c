/* A MACsec device for Linux over include/macsec.h. README.md says which header has which files. */
#ifndef DEVICE_H
#define DEVICE_H

#include "control.h"
#include "frames.h"
#include "numbers.h"
#include "text.h"
#include "workers.h"

struct device {
    const char *name;
    struct config config;
    macsec_endpoint handles[2];
    uint32_t suites[MACSEC_KEY_COUNT]; /* of the keys that were installed last under their numbers */
    struct load load;
    macsec_endpoint *endpoint; /* one of them. It is empty if there is no endpoint; the other one always is. */
    macsec_config end;         /* of which it was created */
    struct counts counts;
    bool alone; /* was the last batch that was read of TAP one frame? */
    struct history history;
    struct link link;
    struct floods floods;
    struct held_frames held_frames;
    struct tap tap;
    struct rtnetlink rtnetlink;
    struct over over;
    struct control control;
    struct waits waits;
    struct budget budget;
    struct port port;
    struct service service;
    struct numbers numbers;
    struct workers *workers; /* NULL: there are none */
    int signals, clock, events;
};

/* ---- loop.c: waiting ---- */

/* Blocks the signals that end macsecd. To be called first. */
int loop_block_signals(struct device *d);
/* Opens what the loop waits for. */
int loop_open(struct device *d);
/* Runs until a signal ends it. Returns the exit status. */
int loop_run(struct device *d);

#endif
