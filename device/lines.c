/* Commands that begin and end associations. An association must not begin at a packet number that was used under its
 * key, or accepted, whether in this run or in an earlier one. */
#include "numbers.h"

/* There is no `default`: the compiler reports a kind that is not here. */
enum effect lines_effect(uint32_t kind) {
    switch ((enum macsec_command_kind)kind) {
    case MACSEC_COMMAND_KEY:
        return KEEPS_KEY;
    case MACSEC_COMMAND_RETIRE:
        return WIPES_KEY;
    case MACSEC_COMMAND_TX_SA:
    case MACSEC_COMMAND_RX_SA:
        return BEGINS_SA;
    case MACSEC_COMMAND_RX_DEL:
    case MACSEC_COMMAND_RX_SC_DEL:
        return ENDS_SA;
    case MACSEC_COMMAND_NONE:
    case MACSEC_COMMAND_PROTECT:
    case MACSEC_COMMAND_VALIDATE:
    case MACSEC_COMMAND_REPLAY:
    case MACSEC_COMMAND_TAG:
    case MACSEC_COMMAND_TX_ON:
    case MACSEC_COMMAND_TX_OFF:
    case MACSEC_COMMAND_TX_DEL:
    case MACSEC_COMMAND_RX_SC:
    case MACSEC_COMMAND_RX_ON:
    case MACSEC_COMMAND_RX_OFF:
    case MACSEC_COMMAND_RX_LOW:
        break;
    }
    return NO_EFFECT;
}

uint32_t lines_carry_out(struct numbers *n, macsec_endpoint *e, const macsec_command *c, uint64_t *raised) {
    uint32_t status;
    size_t place;
    *raised = 0;
    if (lines_effect(c->kind) == ENDS_SA)
        numbers_note_accepted(n, e, c->sci);
    if (c->kind == MACSEC_COMMAND_TX_DEL)
        numbers_note_sent(n, e);
    /* The number of a key may be that of a retired one. */
    status = c->kind == MACSEC_COMMAND_KEY ? macsec_renew_key(e, &c->sak) : macsec_carry_out(e, c);
    /* An association whose packet numbers may have been used begins above them. */
    return status == MACSEC_E_PN_FLOOR ? macsec_load(e, c, 1, raised, &place) : status;
}
