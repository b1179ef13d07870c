/* Requests at the control socket: requests that only read, requests to the device, and lines for the endpoint. */
#include "device.h"

/* Adds the line of one association. The library reads `numbers tx AN` and `numbers rx SCI AN` as the lines `A txon AN`
 * and `A rxon SCI AN`, which are written over the request. */
static void answer_one_number(struct device *d, struct text *t, const struct words *w, char *request, size_t length) {
    bool sends = words_is(w, 1, "tx");
    size_t at = (size_t)(w->at[1] + strlen("tx") - request) - strlen("A txon");
    char sci[SCI_TEXT], begin[SCI_TEXT + 8], *line;
    macsec_command c;
    macsec_tx_sa tx;
    macsec_rx_sa rx;
    uint32_t status;
    memcpy(request + at, sends ? "A txon" : "A rxon", strlen("A txon"));
    status = macsec_parse_line((const uint8_t *)request + at, length - at, &c);
    if (status == MACSEC_OK)
        status = sends ? macsec_get_tx_sa(d->endpoint, c.an, &tx) : macsec_get_rx_sa(d->endpoint, c.sci, c.an, &rx);
    if (status != MACSEC_OK) {
        answer_result(t, result_of(status));
        return;
    }
    snprintf(begin, sizeof begin, "%s%s %u ", sends ? "tx" : "rx ", sends ? "" : sci_text(c.sci, sci), c.an);
    answer_numbers(t, d);
    line = memmem(t->octets, t->length, begin, strlen(begin));
    if (line == NULL)
        return; /* the answer says that memory ran out */
    t->length = (size_t)((char *)memchr(line, '\n', t->length - (size_t)(line - t->octets)) + 1 - line);
    memmove(t->octets, line, t->length);
}

static void answer_port(struct text *t, const struct device *d) {
    text_add(t, "port %s\n", d->port.off ? "off" : "on");
}

static const struct {
    const char *request;
    void (*answer)(struct text *t, const struct device *d);
} readers[] = {
    { "counters", answer_counters }, { "json", answer_json }, { "link", answer_link }, { "metrics", answer_metrics },
    { "numbers", answer_numbers },   { "port", answer_port }, { "show", answer_show },
};

static bool answer_reader(struct device *d, struct text *t, const struct words *w, char *line, size_t length) {
    for (size_t i = 0; i < sizeof readers / sizeof *readers; i++)
        if (words_are(w, 0, readers[i].request)) {
            readers[i].answer(t, d);
            return true;
        }
    if (!words_is(w, 0, "numbers") || (!words_is(w, 1, "tx") && !words_is(w, 1, "rx")))
        return answer_line(t, d->endpoint, line, length);
    answer_one_number(d, t, w, line, length);
    return true;
}

static struct result change(struct device *d, int client, const struct words *w, const char *line, size_t length) {
    if (words_are(w, 0, "own"))
        port_own(d, client);
    else if (words_are(w, 0, "port on") && !endpoint_is_open(d))
        return result_of(MACSEC_E_EMPTY);
    else if (words_are(w, 0, "port on") || words_are(w, 0, "port off"))
        port_set(d, words_is(w, 1, "on"));
    else if (words_is(w, 0, "open"))
        return endpoint_open(d, w);
    else if (words_are(w, 0, "close"))
        endpoint_close(d);
    else
        return endpoint_command(d, line, length);
    return result_of(MACSEC_OK);
}

/* Does the answer wait for the journal? It does if the request has begun an association, for which packet numbers are
 * reserved, or ended the endpoint. One that is refused is answered at once. */
static bool has_made_records(const struct words *w, const struct result *r) {
    return r->fault == NULL && r->status == MACSEC_OK &&
           (lines_effect(r->kind) == BEGINS_SA || words_is(w, 0, "open") || words_is(w, 0, "close"));
}

static const char load[] = "load\n";

bool requests_loads(const char *request, size_t length) {
    return length >= sizeof load - 1 && memcmp(request, load, sizeof load - 1) == 0;
}

bool requests_answer(struct device *d, struct text *t, int client, char *request, size_t length) {
    struct words w;
    struct result r = { "Owned", MACSEC_OK, 0, MACSEC_COMMAND_NONE };
    bool loads = requests_loads(request, length);
    bool reads;
    link_count_lost(&d->link, &d->counts);
    if (!loads && length > 0 && request[length - 1] == '\n')
        length--;
    words_split(&w, request, length);
    reads = !loads && answer_reader(d, t, &w, request, length);
    if (loads && port_may_change(d, client) && length <= REQUEST_MAX) {
        endpoint_load(d, t, request + sizeof load - 1, length - (sizeof load - 1));
    } else if (!reads) {
        if (loads && length > REQUEST_MAX)
            r.fault = "LoadLong";
        else if (words_are(&w, 0, "own") ? port_may_own(d, client) : port_may_change(d, client))
            r = change(d, client, &w, request, length);
        answer_result(t, r);
    }
    if (t->full) {
        t->full = false;
        t->length = 0;
        text_add(t, "fault AnswerLong\n");
    }
    return has_made_records(&w, &r);
}
