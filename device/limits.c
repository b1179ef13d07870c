/* What requests may weaken: only what the configuration allows, since the client of the control socket can be a key
 * agreement that another host leads. Lines of the configuration itself are not limited. */
#include "text.h"

/* The suite of this name, or 0. */
static uint32_t suite_of(const struct words *w, unsigned index) {
    /* made: last-suite of tools/families.json */
    uint32_t suite = MACSEC_SUITE_GCM_AES_XPN_256;
    /* end */
    while (suite > MACSEC_SUITE_DEFAULT && !words_is(w, index, macsec_suite_name(suite)))
        suite--;
    return suite;
}

/* The shortest key of those suites that the configuration names is the limit. */
void limits_take_suite(struct limits *l, uint32_t suite) {
    /* made: key-octets of tools/families.json */
    unsigned length = suite == MACSEC_SUITE_GCM_AES_128 || suite == MACSEC_SUITE_GCM_AES_XPN_128 ? 16 : 32;
    /* end */
    if (l->key_length == 0 || length < l->key_length)
        l->key_length = length;
}

const char *limits_take(struct limits *l, const struct words *w) {
    uint64_t number;
    if (w->count == 3 && suite_of(w, 2) != MACSEC_SUITE_DEFAULT)
        limits_take_suite(l, suite_of(w, 2));
    else if (w->count == 4 && words_is(w, 2, "replay") && words_number(w, 3, &number))
        l->window = number;
    else
        return "after `device allow` comes `protect off`, `validate check`, `validate disabled`, `replay off`, "
               "`replay WINDOW`, `int`, `offset` or a suite";
    return NULL;
}

/* There is no `default`: the compiler reports a kind that is not here. Other numbers are refused. */
bool limits_allow(const struct limits *l, const macsec_command *c) {
    switch ((enum macsec_command_kind)c->kind) {
    case MACSEC_COMMAND_PROTECT:
        return l->unprotected || c->flag;
    case MACSEC_COMMAND_VALIDATE:
        return c->choice == MACSEC_MODE_STRICT || (l->check && c->choice == MACSEC_MODE_CHECK) ||
               (l->disabled && c->choice == MACSEC_MODE_DISABLED);
    case MACSEC_COMMAND_REPLAY:
        return l->late || (c->flag && c->pn <= l->window);
    case MACSEC_COMMAND_KEY: /* with an offset, the first 30 or 50 octets of the data stay readable */
        return (l->offset || c->sak.offset == 0) && c->sak.length >= l->key_length;
    case MACSEC_COMMAND_TX_SA:
        return l->integrity || c->flag;
    case MACSEC_COMMAND_NONE:
    case MACSEC_COMMAND_TAG:
    case MACSEC_COMMAND_RETIRE:
    case MACSEC_COMMAND_TX_ON:
    case MACSEC_COMMAND_TX_OFF:
    case MACSEC_COMMAND_TX_DEL:
    case MACSEC_COMMAND_RX_SC:
    case MACSEC_COMMAND_RX_SC_DEL:
    case MACSEC_COMMAND_RX_SA:
    case MACSEC_COMMAND_RX_ON:
    case MACSEC_COMMAND_RX_OFF:
    case MACSEC_COMMAND_RX_LOW:
    case MACSEC_COMMAND_RX_DEL:
        return true;
    }
    return false;
}
