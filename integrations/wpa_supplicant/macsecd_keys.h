/*
 * The keys of macsecd's endpoint
 *
 * This software may be distributed under the terms of the BSD license.
 * See README for more details.
 */

#ifndef MACSECD_KEYS_H
#define MACSECD_KEYS_H

#include "macsecd_client.h"

struct data_key;

#define MACSECD_KEYS 4096 /* key numbers of an endpoint */

struct macsecd_key {
    struct ieee802_1x_mka_ki ki;
    unsigned int users; /* SAs that were created and not deleted */
    bool installed;     /* and not retired */
};

struct macsecd_keys {
    struct macsecd_key keys[MACSECD_KEYS]; /* by key number */
    unsigned int next;                     /* the number that is tried first */
    unsigned int used;                     /* keys that were installed */
};

/* For a new endpoint, which has no keys */
void macsecd_forget_keys(struct macsecd_keys *keys);

/* The number of a SAK, which is installed if it is not yet; else -1 */
int macsecd_key_number(struct macsecd_keys *keys, struct macsecd_client *c, const struct data_key *k);

/* An SA of the SAK was deleted: retires keys that are of no use any more */
void macsecd_key_released(struct macsecd_keys *keys, struct macsecd_client *c, const struct data_key *k);

#endif /* MACSECD_KEYS_H */
