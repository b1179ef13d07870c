/* The answer to `show`: the state of the device for people, as `wg show` prints it. Programs read `json`. */
#include "device.h"
#include <inttypes.h>

enum { AGE = 40, NUMBER = 24 };

/* "3 s ago", "2 min ago", "never". */
static const char *age_text(int64_t seconds, char text[AGE]) {
    if (seconds < 0)
        return "never";
    if (seconds < 120)
        snprintf(text, AGE, "%" PRId64 " s ago", seconds);
    else if (seconds < 7200)
        snprintf(text, AGE, "%" PRId64 " min ago", seconds / 60);
    else if (seconds < 172800)
        snprintf(text, AGE, "%" PRId64 " h ago", seconds / 3600);
    else
        snprintf(text, AGE, "%" PRId64 " days ago", seconds / 86400);
    return text;
}

static const char *number_text(uint64_t number, uint64_t high, char text[NUMBER]) {
    snprintf(text, NUMBER, "%" PRIu64, number);
    return high != 0 ? "none left" : text;
}

/* Has this key's suite extended packet numbers? A key that names no suite has the endpoint's. */
static bool is_extended(const struct device *d, uint16_t key) {
    uint32_t suite = d->suites[key];
    if (suite == MACSEC_SUITE_DEFAULT)
        suite = d->end.suite;
    /* made: is-extended of tools/families.json */
    return suite == MACSEC_SUITE_GCM_AES_XPN_128 || suite == MACSEC_SUITE_GCM_AES_XPN_256;
    /* end */
}

uint64_t show_left(const struct device *d, const macsec_tx_sa *sa) {
    uint64_t last = is_extended(d, sa->key) ? UINT64_MAX : UINT32_MAX, next = sa->next;
    return sa->next_high != 0 || next > last ? 0 : last - next + 1;
}

static void add_link(struct text *t, const struct device *d) {
    const uint8_t *a = d->link.address;
    char path[NAMESPACE_PATH];
    text_add(t, "  link %s: %s, MTU %u, %02x:%02x:%02x:%02x:%02x:%02x, %s%s\n", d->link.name,
             d->link.up ? "up" : "down", (unsigned)d->link.mtu, a[0], a[1], a[2], a[3], a[4], a[5],
             d->config.shared ? "in the host's network namespace" : "in ",
             d->config.shared ? "" : namespace_path(path, d->name));
    text_add(t, "  tap %s: port %s, segments %s\n", d->tap.name, d->port.off ? "off" : "on",
             d->tap.datagrams ? "TCP and UDP"
             : d->tap.joins   ? "TCP"
                              : "off");
}

/* The SCI and the association number of a dropped frame, as its SecTAG says. */
static void add_tag(struct text *t, const uint8_t tag[TAG_ROOM]) {
    enum { TYPE = 0x88e5, TCI_AT = 2, SC = 0x20, AN = 3, SCI_AT = 8 };
    char sci[SCI_TEXT];
    if ((tag[0] << 8 | tag[1]) != TYPE)
        return;
    text_add(t, ", SCI %s, AN %d", (tag[TCI_AT] & SC) != 0 ? sci_text(tag + SCI_AT, sci) : "none", tag[TCI_AT] & AN);
}

static void add_last(struct text *t, const struct history *h) {
    char text[AGE];
    text_add(t, "  last frame sent: %s\n", age_text(history_age(h, h->sent), text));
    text_add(t, "  last drop: %s", age_text(history_age(h, h->dropped), text));
    if (h->dropped != 0)
        text_add(t, ", from %s: %s", h->from_link ? "the link" : "the client",
                 h->from_link ? macsec_verdict_name(h->why) : macsec_fate_name(h->why));
    if (h->dropped != 0 && h->from_link)
        add_tag(t, h->tag);
    text_add(t, "\n");
}

static void add_endpoint(struct text *t, const struct device *d) {
    char name[SCI_TEXT];
    uint32_t left = 0;
    if (macsec_keys_left(d->endpoint, &left) != MACSEC_OK) {
        text_add(t, "  no endpoint: a client opens one\n");
        return;
    }
    text_add(t, "  suite %s, SCI %s, %u keys left\n", macsec_suite_name(d->end.suite), sci_text(d->end.sci, name),
             (unsigned)left);
}

static void add_transmit(struct text *t, const struct device *d) {
    bool any = false;
    for (uint8_t an = 0; an < MACSEC_AN_COUNT; an++) {
        macsec_tx_sa sa;
        uint64_t left;
        char next[NUMBER], rest[NUMBER], state[AGE];
        if (macsec_get_tx_sa(d->endpoint, an, &sa) != MACSEC_OK)
            continue;
        if (!any)
            text_add(t, "\nsends:\n  AN   key  state                        next PN         PNs left\n");
        any = true;
        left = show_left(d, &sa);
        snprintf(state, sizeof state, "%s, %s", sa.on ? "on" : "off", sa.conf ? "encrypts" : "integrity only");
        text_add(t, "  %2u  %4u  %-19s  %15s  %15s\n", an, sa.key, state, number_text(sa.next, sa.next_high, next),
                 left > 1000000000000 ? "> 10^12" : number_text(left, 0, rest));
    }
}

struct column {
    const char *heading;
    unsigned counter;
};

/* made: columns of tools/families.json */
static const struct column columns[] = {
    { "OK", 0 },
    { "late", 3 },
    { "not valid", 5 },
};
/* end */

enum { COLUMNS = sizeof columns / sizeof *columns };

static void add_associations(struct text *t, const struct device *d, const uint8_t sci[8]) {
    bool any = false;
    for (uint8_t an = 0; an < MACSEC_AN_COUNT; an++) {
        macsec_rx_sa sa;
        uint64_t values[RX_COUNTERS];
        char next[NUMBER], lowest[NUMBER];
        if (macsec_get_rx_sa(d->endpoint, sci, an, &sa) != MACSEC_OK ||
            answer_rx_counters(d, sci, an, values) != MACSEC_OK)
            continue;
        if (!any) {
            text_add(t, "  AN   key  state          next PN       lowest PN");
            for (size_t i = 0; i < COLUMNS; i++)
                text_add(t, " %11s%s", columns[i].heading, i + 1 < COLUMNS ? "" : "\n");
        }
        any = true;
        text_add(t, "  %2u  %4u  %-5s  %15s %15s", an, sa.key, sa.on ? "on" : "off",
                 number_text(sa.next, sa.next_high, next), number_text(sa.lowest, sa.lowest_high, lowest));
        for (size_t i = 0; i < COLUMNS; i++)
            text_add(t, " %11" PRIu64, values[columns[i].counter]);
        text_add(t, "\n");
    }
}

static void add_peers(struct text *t, const struct device *d) {
    uint8_t sci[8];
    for (size_t place = 0; macsec_get_rx_sc(d->endpoint, place, sci) == MACSEC_OK; place++) {
        char name[SCI_TEXT], text[AGE];
        text_add(t, "\npeer %s: last frame %s\n", sci_text(sci, name), age_text(history_heard(&d->history, sci), text));
        add_associations(t, d, sci);
    }
}

void answer_show(struct text *t, const struct device *d) {
    text_add(t, "%s\n", d->name);
    add_link(t, d);
    add_endpoint(t, d);
    text_add(t, "  journal: %zu of %zu names\n", d->numbers.names.count, NUMBERS_NAMES_MAX);
    if (d->counts.link_over > 0)
        text_add(t, "  over the link: %" PRIu64 " devices or addresses were found (LinkOver)\n", d->counts.link_over);
    text_add(t, "  receive ahead: dropped %" PRIu64 " without a reservation, %" PRIu64 " of an earlier run\n",
             d->counts.link_no_reservation, d->counts.link_earlier_run);
    add_last(t, &d->history);
    add_transmit(t, d);
    add_peers(t, d);
}
