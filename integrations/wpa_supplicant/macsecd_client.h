/*
 * A client of macsecd's control socket
 *
 * This software may be distributed under the terms of the BSD license.
 * See README for more details.
 */

#ifndef MACSECD_CLIENT_H
#define MACSECD_CLIENT_H

#include <sys/un.h>

/* What a request returns if it was not done and the endpoint did not refuse it: a fault, or no answer. A positive
 * result is the number of a refusal. */
#define MACSECD_NOT_DONE (-1)

struct macsecd_client {
    int fd; /* -1: not connected */
    char path[sizeof(((struct sockaddr_un *)0)->sun_path)];
    char answer[256];        /* the last one, without its line feed */
    bool silent;             /* it is known that macsecd can't be reached */
    void *ctx;               /* of messages */
    void (*back)(void *arg); /* macsecd can be reached again */
    void *arg;
};

/* Sets the path, of at most so many characters; returns -1 if it is too long */
int macsecd_set_path(struct macsecd_client *c, const char *path, size_t length);

/* Connects, and owns the device: nobody else may change something then, and macsecd blocks the controlled port when the
 * connection ends, however it ends. If that fails, returns -1, tries again each second, and calls `back` when it can be
 * done. */
int macsecd_call(struct macsecd_client *c);

/* Ends the connection. Attempts to connect, if there are any, go on. */
void macsecd_hang_up(struct macsecd_client *c);

/* Ends the connection and the attempts */
void macsecd_stop(struct macsecd_client *c);

/* Ends the connection because of a fault, and begins to try again */
void macsecd_lost(struct macsecd_client *c, const char *why);

/* Makes a request and reads the answer. Returns 0 if it was done, else the number of a refusal or MACSECD_NOT_DONE. The
 * request is not logged, since it may hold a key. */
int PRINTF_FORMAT(2, 3) macsecd_line(struct macsecd_client *c, const char *form, ...);

/* The packet number of the answer "ok pn NUMBER", else 0 */
u64 macsecd_raised_pn(const struct macsecd_client *c);

#endif /* MACSECD_CLIENT_H */
