/* The text of answers: what the library's reading calls show. */
#include "device.h"
#include <ctype.h>
#include <inttypes.h>

enum { OWN = OWN_COUNTERS, TX = TX_COUNTERS, RX = RX_COUNTERS, METRIC = 40 };

/* The names of the counters, in the order of the members of the library's structs and of docs/ENDPOINT.md's table. */
/* made: own-counters of tools/families.json */
static const char *const own_names[OWN] = {
    "InPktsUntagged",    "InPktsNoTag",       "InPktsBadTag",    "InPktsReserved", "InPktsNoSA",  "InPktsNoSAError",
    "InOctetsValidated", "InOctetsDecrypted", "OutPktsUntagged", "OutPktsTooLong", "OutPktsNoSA",
};
/* end */
/* made: tx-counters of tools/families.json */
static const char *const tx_names[TX] = {
    "OutPktsProtected",
    "OutPktsEncrypted",
    "OutOctetsProtected",
    "OutOctetsEncrypted",
};
/* end */
/* made: rx-counters of tools/families.json */
static const char *const rx_names[RX] = {
    "InPktsOK", "InPktsUnchecked", "InPktsDelayed", "InPktsLate", "InPktsInvalid", "InPktsNotValid",
};
/* end */

/* made: device-counters of tools/families.json */
static const char *const device_names[COUNT_OF_COUNTS] = {
    "LinkIn",
    "LinkLost",
    "LinkTooShort",
    "LinkTooLong",
    "NoEndpoint",
    "LinkOut",
    "LinkRefused",
    "TapIn",
    "TapTooShort",
    "TapTooLong",
    "TapOut",
    "TapRefused",
    "PortOut",
    "PortIn",
    "NoReservation",
    "JournalFailed",
    "Requests",
    "LinkFloods",
    "LinkNoReservation",
    "LinkEarlierRun",
    "RequestsDelayed",
    "LinkOver",
};
/* end */

const char *sci_text(const uint8_t sci[8], char text[SCI_TEXT]) {
    for (int i = 0; i < 8; i++)
        snprintf(text + 2 * i, 3, "%02x", sci[i]);
    return text;
}

/* The counts are members of one type, so they are an array too. */
static const uint64_t *counts_of(const struct device *d) {
    return (const uint64_t *)&d->counts;
}

/* A packet number after its upper half. 2^64, one past the last, has 17 digits. */
#define NUMBER "%.0" PRIu64 "%016" PRIx64

/* ---- Commands ---- */

void answer_result(struct text *t, struct result r) {
    if (r.fault != NULL)
        text_add(t, "fault %s\n", r.fault);
    else if (r.status == MACSEC_OK && r.raised != 0)
        text_add(t, "ok pn %016" PRIx64 "\n", r.raised);
    else if (r.status == MACSEC_OK)
        text_add(t, "ok\n");
    else if (r.status < MACSEC_E_EMPTY)
        text_add(t, "refused %u %s\n", (unsigned)r.status, macsec_status_name(r.status));
    else
        text_add(t, "fault %s\n", macsec_status_name(r.status));
}

/* ---- What the library prints ---- */

/* Takes the number 1 and the space from the beginning of each line. */
static size_t without_number(char *octets, size_t length) {
    size_t kept = 0;
    for (size_t i = 0, column = 0; i < length; i++) {
        column = i > 0 && octets[i - 1] == '\n' ? 0 : column;
        if (column++ >= strlen("1 "))
            octets[kept++] = octets[i];
    }
    return kept;
}

bool answer_line(struct text *t, macsec_endpoint *e, const char *line, size_t length) {
    char *octets = t->octets + t->length;
    size_t written = 0, room = t->room - t->length;
    macsec_command command;
    uint32_t status = macsec_parse_line((const uint8_t *)line, length, &command);
    macsec_clear_command(&command);
    if (status != MACSEC_E_LINE_ENDS)
        return false; /* a command, or a wrong line */
    status = macsec_answer(e, 1, (const uint8_t *)line, length, (uint8_t *)octets, room, &written);
    if (status == MACSEC_E_LINE_ENDS)
        return false;
    if (status != MACSEC_OK)
        answer_result(t, result_of(status));
    else if (written > 0)
        t->length += without_number(octets, written);
    else
        text_add(t, "none\n"); /* an answer without octets would look like the end of the connection */
    return true;
}

void answer_numbers(struct text *t, const struct device *d) {
    static const char line[] = "A numbers";
    (void)answer_line(t, d->endpoint, line, sizeof line - 1);
}

/* ---- Counters ---- */

/* The counters of the endpoint and of its transmit channel, in the order of the structs; 0 if there is no endpoint. */
static void own_counters(const struct device *d, uint64_t own[OWN], uint64_t tx[TX]) {
    macsec_counters all = { 0 };
    macsec_tx_counters sent = { 0 };
    (void)macsec_get_counters(d->endpoint, &all); /* MACSEC_E_EMPTY leaves 0 */
    (void)macsec_get_tx_counters(d->endpoint, &sent);
    memcpy(own, &all, OWN * sizeof *own);
    memcpy(tx, &sent, TX * sizeof *tx);
}

uint32_t answer_rx_counters(const struct device *d, const uint8_t sci[8], int an, uint64_t values[RX]) {
    const macsec_endpoint *e = d->endpoint;
    macsec_rx_counters shown = { 0 };
    uint32_t status;
    status = an < 0 ? macsec_get_rx_counters(e, sci, &shown) : macsec_get_rx_sa_counters(e, sci, (uint8_t)an, &shown);
    memcpy(values, &shown, RX * sizeof *values);
    return status;
}

/* ---- Lines ---- */

static void add_lines(struct text *t, const char *before, const char *const *names, const uint64_t *values, int count) {
    for (int i = 0; i < count; i++)
        text_add(t, "%s%s %" PRIu64 "\n", before, names[i], values[i]);
}

static void add_channel_lines(struct text *t, const struct device *d, const uint8_t sci[8]) {
    char name[SCI_TEXT], before[SCI_TEXT + 4];
    uint64_t values[RX];
    sci_text(sci, name);
    for (int an = -1; an < MACSEC_AN_COUNT; an++) {
        if (answer_rx_counters(d, sci, an, values) != MACSEC_OK)
            continue;
        if (an < 0)
            snprintf(before, sizeof before, "%s ", name);
        else
            snprintf(before, sizeof before, "%s %d ", name, an & 3);
        add_lines(t, before, rx_names, values, RX);
    }
}

void answer_counters(struct text *t, const struct device *d) {
    uint64_t own[OWN], tx[TX];
    uint8_t sci[8];
    own_counters(d, own, tx);
    add_lines(t, "", own_names, own, OWN);
    add_lines(t, "", tx_names, tx, TX);
    for (size_t place = 0; macsec_get_rx_sc(d->endpoint, place, sci) == MACSEC_OK; place++)
        add_channel_lines(t, d, sci);
    add_lines(t, "device ", device_names, counts_of(d), COUNT_OF_COUNTS);
}

/* LINK, as `ip link` would show it: an isolated one is not in the host's namespace. */
void answer_link(struct text *t, const struct device *d) {
    const uint8_t *a = d->link.address;
    char path[NAMESPACE_PATH];
    text_add(t, "link %s %s mtu %u address %02x:%02x:%02x:%02x:%02x:%02x namespace %s tap %s\n", d->link.name,
             d->link.up ? "up" : "down", (unsigned)d->link.mtu, a[0], a[1], a[2], a[3], a[4], a[5],
             d->config.shared ? "shared" : namespace_path(path, d->name), d->tap.name);
}

/* ---- JSON ---- */

static void add_object(struct text *t, const char *name, const char *const *names, const uint64_t *values, int count) {
    text_add(t, "\"%s\":{", name);
    for (int i = 0; i < count; i++)
        text_add(t, "%s\"%s\":%" PRIu64, i == 0 ? "" : ",", names[i], values[i]);
    text_add(t, "}");
}

static void add_json_transmit(struct text *t, const macsec_endpoint *e) {
    const char *comma = "";
    text_add(t, ",\"transmit\":[");
    for (uint8_t an = 0; an < MACSEC_AN_COUNT; an++) {
        macsec_tx_sa sa;
        if (macsec_get_tx_sa(e, an, &sa) != MACSEC_OK)
            continue;
        text_add(t, "%s{\"an\":%u,\"key\":%u,\"next\":\"" NUMBER "\",\"on\":%s,\"conf\":%s}", comma, an, sa.key,
                 sa.next_high, sa.next, sa.on ? "true" : "false", sa.conf ? "true" : "false");
        comma = ",";
    }
    text_add(t, "]");
}

static void add_json_associations(struct text *t, const struct device *d, const uint8_t sci[8]) {
    const char *comma = "";
    text_add(t, ",\"associations\":[");
    for (uint8_t an = 0; an < MACSEC_AN_COUNT; an++) {
        macsec_rx_sa sa;
        uint64_t values[RX];
        if (macsec_get_rx_sa(d->endpoint, sci, an, &sa) != MACSEC_OK ||
            answer_rx_counters(d, sci, an, values) != MACSEC_OK)
            continue;
        text_add(t, "%s{\"an\":%u,\"key\":%u,\"next\":\"" NUMBER "\",\"lowest\":\"" NUMBER "\",\"on\":%s,", comma, an,
                 sa.key, sa.next_high, sa.next, sa.lowest_high, sa.lowest, sa.on ? "true" : "false");
        add_object(t, "counters", rx_names, values, RX);
        text_add(t, "}");
        comma = ",";
    }
    text_add(t, "]");
}

static void add_json_receive(struct text *t, const struct device *d) {
    uint8_t sci[8];
    text_add(t, ",\"receive\":[");
    for (size_t place = 0; macsec_get_rx_sc(d->endpoint, place, sci) == MACSEC_OK; place++) {
        char name[SCI_TEXT];
        uint64_t values[RX];
        (void)answer_rx_counters(d, sci, -1, values); /* the channel is there */
        text_add(t, "%s{\"sci\":\"%s\",", place == 0 ? "" : ",", sci_text(sci, name));
        add_object(t, "counters", rx_names, values, RX);
        add_json_associations(t, d, sci);
        text_add(t, "}");
    }
    text_add(t, "]");
}

void answer_json(struct text *t, const struct device *d) {
    char path[NAMESPACE_PATH];
    uint64_t own[OWN], tx[TX];
    uint32_t left = 0;
    own_counters(d, own, tx);
    (void)macsec_keys_left(d->endpoint, &left); /* without an endpoint it is 0 */
    text_add(t, "{\"device\":\"%s\",\"tap\":\"%s\",\"link\":\"%s\",\"up\":%s,", d->name, d->tap.name, d->link.name,
             d->link.up ? "true" : "false");
    if (!d->config.shared)
        text_add(t, "\"namespace\":\"%s\",", namespace_path(path, d->name));
    text_add(t, "\"port\":\"%s\",\"keys_left\":%u,", d->port.off ? "off" : "on", (unsigned)left);
    text_add(t, "\"journal_names\":%zu,\"journal_names_max\":%zu,", d->numbers.names.count, NUMBERS_NAMES_MAX);
    add_object(t, "device_counters", device_names, counts_of(d), COUNT_OF_COUNTS);
    text_add(t, ",");
    add_object(t, "counters", own_names, own, OWN);
    text_add(t, ",");
    add_object(t, "transmit_counters", tx_names, tx, TX);
    add_json_transmit(t, d->endpoint);
    add_json_receive(t, d);
    text_add(t, "}\n");
}

/* ---- Prometheus ---- */

/* InPktsNoSAError: in_pkts_no_sa_error. */
static void metric_name(const char *name, char metric[METRIC]) {
    size_t length = 0;
    for (size_t i = 0; name[i] != '\0' && length + 2 < METRIC; i++) {
        bool begins = i > 0 && isupper((unsigned char)name[i]) &&
                      (islower((unsigned char)name[i - 1]) || islower((unsigned char)name[i + 1]));
        if (begins)
            metric[length++] = '_';
        metric[length++] = (char)tolower((unsigned char)name[i]);
    }
    metric[length] = '\0';
}

/* What a counter counts is in the manual page, under its own name. */
static void add_head(struct text *t, const char *prefix, const char *metric, const char *name, const char *of) {
    text_add(t, "# HELP macsec_%s%s_total %s of the %s\n", prefix, metric, name, of);
    text_add(t, "# TYPE macsec_%s%s_total counter\n", prefix, metric);
}

static void add_plain_metrics(struct text *t, const char *device, bool of_device, const char *const *names,
                              const uint64_t *values, int count) {
    const char *prefix = of_device ? "device_" : "";
    for (int i = 0; i < count; i++) {
        char metric[METRIC];
        metric_name(names[i], metric);
        add_head(t, prefix, metric, names[i], of_device ? "device: macsecctl(8)" : "endpoint: macsec(5)");
        text_add(t, "macsec_%s%s_total{device=\"%s\"} %" PRIu64 "\n", prefix, metric, device, values[i]);
    }
}

static void add_rx_metrics(struct text *t, const struct device *d, int counter, bool of_sas) {
    char metric[METRIC], name[SCI_TEXT];
    uint64_t values[RX];
    uint8_t sci[8];
    metric_name(rx_names[counter], metric);
    add_head(t, of_sas ? "sa_" : "", metric, rx_names[counter],
             of_sas ? "receive association: macsec(5)" : "receive channel: macsec(5)");
    for (size_t place = 0; macsec_get_rx_sc(d->endpoint, place, sci) == MACSEC_OK; place++) {
        sci_text(sci, name);
        if (!of_sas && answer_rx_counters(d, sci, -1, values) == MACSEC_OK)
            text_add(t, "macsec_%s_total{device=\"%s\",sci=\"%s\"} %" PRIu64 "\n", metric, d->name, name,
                     values[counter]);
        for (int an = 0; of_sas && an < MACSEC_AN_COUNT; an++)
            if (answer_rx_counters(d, sci, an, values) == MACSEC_OK)
                text_add(t, "macsec_sa_%s_total{device=\"%s\",sci=\"%s\",an=\"%d\"} %" PRIu64 "\n", metric, d->name,
                         name, an, values[counter]);
    }
}

static void add_gauge_head(struct text *t, const char *name, const char *help) {
    text_add(t, "# HELP macsec_%s %s\n# TYPE macsec_%s gauge\n", name, help, name);
}

/* Of each association that sends: its next packet number, or how many are left. */
static void add_numbers(struct text *t, const struct device *d, const char *name, bool left) {
    for (uint8_t an = 0; an < MACSEC_AN_COUNT; an++) {
        macsec_tx_sa sa;
        if (macsec_get_tx_sa(d->endpoint, an, &sa) == MACSEC_OK && (left || sa.next_high == 0))
            text_add(t, "macsec_%s{device=\"%s\",an=\"%u\",key=\"%u\",on=\"%d\"} %" PRIu64 "\n", name, d->name, an,
                     sa.key, sa.on, left ? show_left(d, &sa) : sa.next);
    }
}

static void add_gauges(struct text *t, const struct device *d) {
    static const char next[] = "next_packet_number", left[] = "packet_numbers_left";
    uint32_t keys = 0;
    (void)macsec_keys_left(d->endpoint, &keys);
    const struct {
        const char *name, *help;
        size_t value;
    } gauges[] = {
        { "link_up", "1 while LINK has carrier", d->link.up },
        { "port_on", "1 while the controlled port is on", !d->port.off },
        { "keys_left", "keys that the endpoint can still take", keys },
        { "journal_names", "names in the journal", d->numbers.names.count },
        { "journal_names_max", "names that the journal can have", NUMBERS_NAMES_MAX },
    };
    for (size_t i = 0; i < sizeof gauges / sizeof *gauges; i++) {
        add_gauge_head(t, gauges[i].name, gauges[i].help);
        text_add(t, "macsec_%s{device=\"%s\"} %zu\n", gauges[i].name, d->name, gauges[i].value);
    }
    add_gauge_head(t, next, "the packet number of the next frame of a transmit association");
    add_numbers(t, d, next, false);
    add_gauge_head(t, left, "packet numbers that a transmit association has left");
    add_numbers(t, d, left, true);
}

void answer_metrics(struct text *t, const struct device *d) {
    uint64_t own[OWN], tx[TX];
    own_counters(d, own, tx);
    add_plain_metrics(t, d->name, false, own_names, own, OWN);
    add_plain_metrics(t, d->name, false, tx_names, tx, TX);
    for (int i = 0; i < RX; i++)
        add_rx_metrics(t, d, i, false);
    for (int i = 0; i < RX; i++)
        add_rx_metrics(t, d, i, true);
    add_plain_metrics(t, d->name, true, device_names, counts_of(d), COUNT_OF_COUNTS);
    add_gauges(t, d);
}
