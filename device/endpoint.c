/* The endpoint, by the lines of requests and of the configuration. The library judges each line. */
#include "device.h"

/* What a command that was carried out means for the device. `passes`: a key agreement owns the device, so the key of
 * the command does not come again once it is retired. */
static void note(struct device *d, const macsec_command *c, bool passes) {
    workers_forget(d->workers);
    floods_end(d);
    switch (lines_effect(c->kind)) {
    case NO_EFFECT:
        break;
    case KEEPS_KEY:
        d->suites[c->key] = c->sak.suite;
        numbers_note_key(&d->numbers, c->key, passes);
        break;
    case WIPES_KEY:
        numbers_note_retired(&d->numbers, c->key, passes);
        break;
    case BEGINS_SA:
        if (c->kind == MACSEC_COMMAND_TX_SA)
            numbers_begin_to_send(&d->numbers, d->endpoint, c->an);
        else
            numbers_begin_to_receive(&d->numbers, d->endpoint, c->sci, c->an);
        break;
    case ENDS_SA:
        numbers_end_receiving(&d->numbers, d->endpoint);
        break;
    }
}

struct result result_of(uint32_t status) {
    return (struct result){ NULL, status, 0, MACSEC_COMMAND_NONE };
}

/* ---- Creation and end ---- */

bool endpoint_is_open(const struct device *d) {
    uint32_t left;
    return macsec_keys_left(d->endpoint, &left) != MACSEC_E_EMPTY;
}

void endpoint_close(struct device *d) {
    port_set(d, false);
    floods_end(d);
    workers_forget(d->workers);
    numbers_note_all(&d->numbers, d->endpoint);
    numbers_forget(&d->numbers);
    macsec_free(d->endpoint);
}

/* Creates an endpoint, which replaces the one that there is. If it fails, nothing has changed. */
static uint32_t create(struct device *d, const macsec_config *end) {
    macsec_endpoint *e = &d->handles[d->endpoint == &d->handles[0]];
    uint32_t status;
    numbers_note_all(&d->numbers, d->endpoint); /* its associations may come again at the new one */
    status = numbers_configure(&d->numbers, e, end);
    if (status != MACSEC_OK)
        return status;
    endpoint_close(d);
    d->endpoint = e;
    d->end = *end;
    return status;
}

struct result endpoint_open(struct device *d, const struct words *w) {
    char line[4 * WORD], suite[WORD], sci[WORD], form[WORD] = "sci";
    macsec_config end;
    uint32_t status;
    if (!words_copy(w, 1, sci, sizeof sci) || !words_copy(w, 2, suite, sizeof suite) || w->count > 4 ||
        (w->count == 4 && !words_copy(w, 3, form, sizeof form)))
        return result_of(MACSEC_E_LINE_COUNT);
    snprintf(line, sizeof line, "end A %s %s %u %s", suite, sci, (unsigned)link_max_frame(d->link.mtu), form);
    status = macsec_parse_end((const uint8_t *)line, strlen(line), &end);
    return result_of(status == MACSEC_OK ? create(d, &end) : status);
}

/* ---- The configuration ---- */

static uint32_t configure_line(struct device *d, const struct commands *it) {
    uint64_t raised = 0;
    uint32_t status = it->status;
    if (status == MACSEC_OK)
        status = lines_carry_out(&d->numbers, d->endpoint, &it->command, &raised);
    if (status == MACSEC_OK)
        note(d, &it->command, false);
    if (raised != 0)
        message("line %u: the association begins at packet number %llx, since lower ones may have been %s", it->number,
                (unsigned long long)raised,
                it->command.kind == MACSEC_COMMAND_RX_SA ? "delivered: frames of the peer with those are dropped"
                                                         : "used");
    return status;
}

uint32_t endpoint_configure(struct device *d, const char *text, size_t length, uint32_t *line) {
    struct commands it = { .text = text, .left = length };
    macsec_config end;
    uint32_t status = commands_end(&it, &end);
    if (status == MACSEC_OK)
        status = create(d, &end);
    while (status == MACSEC_OK && commands_next(&it))
        status = configure_line(d, &it);
    macsec_clear_command(&it.command);
    *line = it.number;
    return status == MACSEC_E_EMPTY ? MACSEC_OK : status; /* without a line there is no endpoint */
}

/* ---- Requests ---- */

static bool is_refused(const struct result *r) {
    return r->fault != NULL || r->status != MACSEC_OK;
}

/* Why the endpoint does not get a command, if it does not. `status` is the library's for its line. */
static struct result judge(const struct device *d, uint32_t status, const macsec_command *c, bool lacks_name) {
    struct result r = { NULL, status, 0, c->kind };
    if (status != MACSEC_OK)
        r.status = endpoint_is_open(d) ? status : MACSEC_E_EMPTY;
    else if (!limits_allow(&d->config.limits, c))
        r.fault = "NotAllowed";
    else if (lacks_name)
        r.fault = "JournalFull";
    return r;
}

/* Does the command begin an association that may need a name? It may if the association has none yet, or if `installs`
 * says that an earlier line of `load` installs its key: the endpoint knows no name of such a key, be it in the journal
 * or not. */
static bool needs_name(const struct device *d, const macsec_command *c, bool installs) {
    return lines_effect(c->kind) == BEGINS_SA && (installs || !numbers_has_name(&d->numbers, d->endpoint, c));
}

static struct result carry_out(struct device *d, uint32_t status, const macsec_command *c) {
    struct result r = judge(d, status, c, d->numbers.names.count >= NUMBERS_NAMES_MAX && needs_name(d, c, false));
    if (!is_refused(&r) && (r.status = lines_carry_out(&d->numbers, d->endpoint, c, &r.raised)) == MACSEC_OK)
        note(d, c, d->port.owner >= 0);
    return r;
}

struct result endpoint_command(struct device *d, const char *line, size_t length) {
    macsec_command c;
    uint32_t status = macsec_parse_line((const uint8_t *)line, length, &c);
    struct result r = carry_out(d, status, &c);
    macsec_clear_command(&c);
    return r;
}

/* ---- All lines or none ---- */

/* Is no name left for a line of `load`? Each line that may need one counts. */
static bool lacks_name(const struct device *d, struct load *l, const macsec_command *c) {
    if (lines_effect(c->kind) == KEEPS_KEY)
        l->installs[c->key] = true;
    return needs_name(d, c, l->installs[c->key]) && d->numbers.names.count + l->names++ >= NUMBERS_NAMES_MAX;
}

/* Takes a line. In place of a command that the endpoint does not get comes one that every endpoint refuses, a channel
 * of its own SCI: so an earlier line that it refuses is found first, and nothing is carried out. */
static void take_line(const struct device *d, struct load *l, const struct commands *it) {
    macsec_command *c = &l->commands[l->count];
    l->numbers[l->count++] = it->number;
    *c = it->command;
    l->last = judge(d, it->status, c, lacks_name(d, l, c));
    if (l->count == LINES)
        l->last.fault = "LoadLong"; /* never: LINES are enough */
    if (!is_refused(&l->last))
        return;
    *c = (macsec_command){ .kind = MACSEC_COMMAND_RX_SC };
    memcpy(c->sci, d->end.sci, sizeof c->sci);
}

/* Takes lines up to the first one that the endpoint does not get. */
static void take_lines(const struct device *d, struct load *l, const char *lines, size_t left) {
    struct commands it = { .text = lines, .left = left };
    l->last = result_of(MACSEC_OK);
    l->count = l->names = 0;
    memset(l->installs, 0, sizeof l->installs);
    while (!is_refused(&l->last) && commands_next(&it))
        if (!commands_skips(&it))
            take_line(d, l, &it);
    macsec_clear_command(&it.command);
}

/* What lines mean for the device, now that all are carried out. Associations begin last: a key can have the number of
 * one that a later line retires. */
static void note_lines(struct device *d, const struct load *l) {
    for (int begins = 0; begins < 2; begins++)
        for (size_t i = 0; i < l->count; i++)
            if ((lines_effect(l->commands[i].kind) == BEGINS_SA) == begins)
                note(d, &l->commands[i], d->port.owner >= 0);
    numbers_reserve_soon(&d->numbers, d->endpoint, LOAD_WAITS);
}

static void answer_at(struct text *t, const struct load *l, size_t place, struct result r) {
    text_add(t, "%u ", l->numbers[place]);
    answer_result(t, r);
}

/* All answers fit: none has more than twice the octets of its line. */
static void load_lines(struct device *d, struct load *l, struct text *t) {
    size_t place;
    uint32_t status;
    numbers_note_all(&d->numbers, d->endpoint); /* associations may end */
    status = macsec_load(d->endpoint, l->commands, l->count, l->begins, &place);
    if (status == MACSEC_E_MEMORY)
        answer_result(t, result_of(status));
    else if (status != MACSEC_OK)
        answer_at(t, l, place, place + 1 == l->count && is_refused(&l->last) ? l->last : result_of(status));
    else
        note_lines(d, l);
    for (size_t i = 0; status == MACSEC_OK && i < l->count; i++)
        answer_at(t, l, i, (struct result){ NULL, status, l->begins[i], l->commands[i].kind });
}

void endpoint_load(struct device *d, struct text *t, const char *lines, size_t length) {
    struct load *l = &d->load;
    take_lines(d, l, lines, length);
    if (!endpoint_is_open(d))
        answer_result(t, result_of(MACSEC_E_EMPTY));
    else if (l->count == 0)
        text_add(t, "ok\n");
    else if (l->count > 1)
        load_lines(d, l, t);
    else
        answer_at(t, l, 0, is_refused(&l->last) ? l->last : carry_out(d, MACSEC_OK, l->commands));
    explicit_bzero(l->commands, l->count * sizeof *l->commands); /* they may have keys */
}
