/* Frames of LINK that are dropped. Floods are those that the endpoint drops unopened, many in a second. The system then
 * drops the next ones before it copies them, so that the other frames get through. No counter of the endpoint has them.
 * So this is done only while the endpoint is strict, and ends after a second, and when a line may have changed the
 * endpoint. */
#include "device.h"
#include <linux/filter.h>

/* So many such frames are read in a second. The socket has space for twice as many of them, if they are short. */
enum { FLOOD = 4096 };

/* The EtherType of a SecTAG, and where its TCI is, with SC, which says that there is an SCI, and this SCI. */
enum { TYPE = 0x88e5, TCI_AT = 14, SC = 0x20, SCI_AT = 20, SCI = 8 };

/* Instructions of the program: before the channels, of a channel, and after them. */
enum { BEFORE = 8, EACH = 5, AFTER = 1, PROGRAM = BEFORE + EACH * MACSEC_RX_CHANNEL_COUNT + AFTER };

static uint32_t word(const uint8_t *octets) {
    return (uint32_t)octets[0] << 24 | (uint32_t)octets[1] << 16 | (uint32_t)octets[2] << 8 | octets[3];
}

/* Makes a program that drops frames without a SecTAG and those with an SCI of no channel. After a VLAN tag, which the
 * system has taken out, the endpoint looks for no SecTAG. A frame that is too short for a load is dropped. */
static unsigned short make_program(const struct device *d, struct sock_filter program[PROGRAM]) {
    static const struct sock_filter before[BEFORE] = {
        BPF_STMT(BPF_LD | BPF_B | BPF_ABS, (uint32_t)(SKF_AD_OFF + SKF_AD_VLAN_TAG_PRESENT)),
        BPF_JUMP(BPF_JMP | BPF_JEQ | BPF_K, 0, 0, 2),
        BPF_STMT(BPF_LD | BPF_H | BPF_ABS, TYPE_AT),
        BPF_JUMP(BPF_JMP | BPF_JEQ | BPF_K, TYPE, 1, 0),
        BPF_STMT(BPF_RET | BPF_K, 0),
        BPF_STMT(BPF_LD | BPF_B | BPF_ABS, TCI_AT),
        BPF_JUMP(BPF_JMP | BPF_JSET | BPF_K, SC, 1, 0),
        BPF_STMT(BPF_RET | BPF_K, UINT32_MAX),
    };
    struct sock_filter *at = (struct sock_filter *)memcpy(program, before, sizeof before) + BEFORE;
    uint8_t sci[SCI];
    for (size_t i = 0; i < MACSEC_RX_CHANNEL_COUNT && macsec_get_rx_sc(d->endpoint, i, sci) == MACSEC_OK; i++) {
        const struct sock_filter each[EACH] = {
            BPF_STMT(BPF_LD | BPF_W | BPF_ABS, SCI_AT),     BPF_JUMP(BPF_JMP | BPF_JEQ | BPF_K, word(sci), 0, 3),
            BPF_STMT(BPF_LD | BPF_W | BPF_ABS, SCI_AT + 4), BPF_JUMP(BPF_JMP | BPF_JEQ | BPF_K, word(sci + 4), 0, 1),
            BPF_STMT(BPF_RET | BPF_K, UINT32_MAX),
        };
        at = (struct sock_filter *)memcpy(at, each, sizeof each) + EACH;
    }
    *at++ = (struct sock_filter)BPF_STMT(BPF_RET | BPF_K, 0);
    return (unsigned short)(at - program);
}

void floods_note(struct device *d, uint32_t verdict) {
    d->floods.frames += verdict == MACSEC_VERDICT_NO_TAG || verdict == MACSEC_VERDICT_NO_SA_ERROR;
}

void floods_stop(struct device *d) {
    struct sock_filter program[PROGRAM];
    struct sock_fprog filter = { 0, program };
    macsec_options options;
    if (d->floods.frames < FLOOD || d->floods.filtered || macsec_get_options(d->endpoint, &options) != MACSEC_OK ||
        options.mode != MACSEC_MODE_STRICT)
        return;
    filter.len = make_program(d, program);
    if (setsockopt(d->link.socket, SOL_SOCKET, SO_ATTACH_FILTER, &filter, sizeof filter) != 0) {
        message_of_errno("LINK %s: no filter against a flood", d->link.name);
        return;
    }
    d->floods.filtered = true;
    d->counts.link_floods++;
}

void floods_end(struct device *d) {
    int none = 0;
    if (d->floods.filtered && setsockopt(d->link.socket, SOL_SOCKET, SO_DETACH_FILTER, &none, sizeof none) == 0)
        d->floods.filtered = false;
    d->floods.frames = 0;
}

/* ---- Frames that are dropped for their packet numbers alone ---- */

/* Another message comes after so many seconds without such a frame. */
enum { SILENCE = 60 };

static const char *const texts[2] = {
    "frames of LINK are dropped (LinkNoReservation): their packet numbers are not reserved yet. They come faster than "
    "before, or the journal can't be written in time",
    "frames of LINK are dropped (LinkEarlierRun): an earlier run may have delivered them. Somebody has recorded them, "
    "or the peer has not reached the packet number from which this run delivers",
};

void floods_say(struct device *d) {
    const uint64_t counts[2] = { d->counts.link_no_reservation, d->counts.link_earlier_run };
    for (int i = 0; i < 2; i++) {
        unsigned *silence = &d->floods.silence[i];
        bool more = counts[i] != d->floods.drops[i];
        if (more && *silence == 0)
            message("%s", texts[i]);
        *silence = more ? SILENCE : *silence - (*silence > 0);
        d->floods.drops[i] = counts[i];
    }
}
