/*
 * The keys of macsecd's endpoint
 *
 * This software may be distributed under the terms of the BSD license.
 * See README for more details.
 *
 * KaY names a SAK by its key server's MI and a number, macsecd by a number
 * from 0 to 4,095. macsecd takes a number again once all of them were used and
 * the key of that number is retired.
 */

#include "includes.h"

#include "utils/common.h"
#include "pae/ieee802_1x_kay.h"
#include "macsecd_keys.h"

static bool is_key(const struct macsecd_key *key, const struct data_key *k) {
    return key->installed && os_memcmp(key->ki.mi, k->key_identifier.mi, MI_LEN) == 0 &&
           key->ki.kn == k->key_identifier.kn;
}

void macsecd_forget_keys(struct macsecd_keys *keys) {
    os_memset(keys, 0, sizeof(*keys));
}

static int key_offset(const struct data_key *k) {
    switch (k->confidentiality_offset) {
    case CONFIDENTIALITY_OFFSET_30:
        return 30;
    case CONFIDENTIALITY_OFFSET_50:
        return 50;
    default:
        return 0;
    }
}

/* A number whose key is not installed; else -1 */
static int free_number(const struct macsecd_keys *keys) {
    unsigned int i, n;
    for (i = 0; i < MACSECD_KEYS; i++) {
        n = (keys->next + i) % MACSECD_KEYS;
        if (!keys->keys[n].installed)
            return n;
    }
    return -1;
}

static int install(struct macsecd_keys *keys, struct macsecd_client *c, const struct data_key *k, unsigned int n) {
    char hex[2 * 32 + 1], mi[2 * MI_LEN + 1];
    int status;
    wpa_snprintf_hex(hex, sizeof(hex), k->key, k->key_len);
    status = macsecd_line(c, "A key %u %s %d gcm%d", n, hex, key_offset(k), 8 * k->key_len);
    forced_memzero(hex, sizeof(hex));
    wpa_snprintf_hex(mi, sizeof(mi), k->key_identifier.mi, MI_LEN);
    wpa_printf(MSG_DEBUG, "macsecd: SAK %s/%u is key %u, offset %d -> %s", mi, k->key_identifier.kn, n, key_offset(k),
               c->answer);
    if (status)
        return -1;
    keys->keys[n].ki = k->key_identifier;
    keys->keys[n].users = 0;
    keys->keys[n].installed = true;
    keys->next = n + 1;
    keys->used++;
    return n;
}

int macsecd_key_number(struct macsecd_keys *keys, struct macsecd_client *c, const struct data_key *k) {
    int n;
    for (n = 0; n < MACSECD_KEYS; n++) {
        if (is_key(&keys->keys[n], k))
            return n;
    }
    if (k->key_len != 16 && k->key_len != 32) {
        os_strlcpy(c->answer, "no suite has such a SAK", sizeof(c->answer));
        return -1;
    }
    n = free_number(keys);
    return n < 0 ? -1 : install(keys, c, k, n);
}

void macsecd_key_released(struct macsecd_keys *keys, struct macsecd_client *c, const struct data_key *k) {
    struct macsecd_key *key;
    unsigned int n;
    for (n = 0; n < MACSECD_KEYS; n++) {
        key = &keys->keys[n];
        if (is_key(key, k) && key->users)
            key->users--;
        /* KaY may create SAs of the youngest again */
        if (!key->installed || key->users || n + 1 == keys->next)
            continue;
        if (macsecd_line(c, "A retire %u", n) == 0)
            key->installed = false;
        wpa_printf(MSG_DEBUG, "macsecd: retire key %u -> %s", n, c->answer);
    }
}
