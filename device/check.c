/* `macsecd --check`: every fault of a configuration by its line, and what is legal but likely to be a slip. The library
 * judges each line for the endpoint at an endpoint that nothing else uses. Only the file and the journal's folder are
 * read. No message repeats a word of the file other than a number, an SCI or a name, so none shows a key.
 *
 * `macsec-config --lint` says the same of the lines for the endpoint, in the same words. */
#include "device.h"
#include <limits.h>
#include <linux/if_arp.h>
#include <stdarg.h>

/* What is found: what keeps macsecd from starting, and what is likely to be a slip. */
enum kind { FAULT, HINT };

struct check {
    struct config config;
    const char *name; /* NULL: a path was given, and its NAME is unknown */
    macsec_endpoint endpoint;
    bool begun;     /* was there a line that creates the endpoint? */
    bool text_only; /* it has a fault, so what the library would refuse is unknown */
    bool sends[MACSEC_KEY_COUNT], receives[MACSEC_KEY_COUNT]; /* the keys of `txsa` and `rxsa` lines */
    bool enables, has_sent; /* is there a `txon` line, and was there a `txsa` line already? */
    uint8_t address[6];     /* of LINK, if it is an Ethernet device */
    uint32_t mtu;           /* of LINK, or 0 */
    bool is_there, is_ethernet;
    unsigned line; /* that is checked; 0: the whole file */
    struct words words;
    unsigned found[2]; /* by their kinds */
    bool is_failed;    /* did memory run out? */
};

/* ---- What is printed ---- */

__attribute__((format(printf, 3, 4))) static void say(struct check *c, enum kind kind, const char *form, ...) {
    va_list arguments;
    if (c->line == 0)
        printf("the file: ");
    else
        printf("line %u: ", c->line);
    printf("%s", kind == HINT ? "hint: " : "");
    va_start(arguments, form);
    vprintf(form, arguments);
    va_end(arguments);
    putchar('\n');
    c->found[kind]++;
}

static bool is_right(struct check *c, const char *wrong) {
    if (wrong != NULL)
        say(c, FAULT, "%s", wrong);
    return wrong == NULL;
}

/* ---- What the library says of a line ---- */

struct meaning {
    uint32_t status;
    const char *text, *remedy;
};

/* made: meanings of tools/families.json */
static const struct meaning meanings[] = {
    { MACSEC_E_KEY_LENGTH, "the key has another length than its suite's keys",
      "gcm128 and xpn128 need 32 digits, gcm256 and xpn256 64" },
    { MACSEC_E_OFFSET, "the suite's keys have no such confidentiality offset", "write 0" },
    { MACSEC_E_KEY_NUMBER_USED, "a key of this number was installed before", "write another number" },
    { MACSEC_E_KEY_REPEATED, "a key of these octets was installed before", "make another key" },
    { MACSEC_E_NO_KEY, "there is no such key", "install it in a line before this one" },
    { MACSEC_E_KEY_RETIRED, "the key is retired", "install another one" },
    { MACSEC_E_KEY_IN_USE, "an association uses the key", "name another key, or delete that first" },
    { MACSEC_E_OWN_SCI, "the SCI is the endpoint's own", "write the peer's" },
    { MACSEC_E_SC_TAKEN, "there is such a channel", "delete one of the two lines" },
    { MACSEC_E_SC_FULL, "there are as many channels as there can be", "delete lines `rxsc`" },
    { MACSEC_E_NO_SC, "there is no such channel", "write A rxsc SCI before this line" },
    { MACSEC_E_AN_TAKEN, "there is such an association", "write another AN" },
    { MACSEC_E_NO_SA, "there is no such association", "begin it in a line before this one" },
    { MACSEC_E_PN_RANGE, "the packet number is not from 1 to the last", "write 1" },
    { MACSEC_E_PN_LOWER, "the packet number is below the lowest acceptable one", "write a higher one" },
    { MACSEC_E_PN_FLOOR, "the packet number may have been used before", "write a higher one" },
    { MACSEC_E_SSCI_OWN, "packet numbers are extended, and the SSCI is the key's own", "write the peer's" },
    { MACSEC_E_WINDOW, "the replay window is too wide", "write 0" },
    { MACSEC_E_SCI_FORM, "the tag form does not fit the endpoint's SCI", "write sci" },
    { MACSEC_E_LINE_WORD, "a keyword is unknown, or an argument is not allowed there", NULL },
    { MACSEC_E_LINE_COUNT, "too few words or too many", NULL },
    { MACSEC_E_LINE_HEX, "a word is not hex, or not of as many digits as it must have", NULL },
    { MACSEC_E_LINE_NUMBER, "a word is not a decimal number in its range", NULL },
    { MACSEC_E_LINE_ENDS, "the line is in a wrong place, or its tag form does not fit its SCI",
      "the first line is end A SUITE SCI MAX FORM, and the others are commands at A; es needs an SCI with port 0001, "
      "scb one with port 0000" },
    { MACSEC_E_LINE_LONG, "the line has more than 20000 octets", "divide it" },
};
/* end */

/* made: usages of tools/families.json */
static const char *const usages[] = {
    "A protect on|off",
    "A validate strict|check|disabled",
    "A replay on|off WINDOW",
    "A tag auto|sci|es|scb",
    "A key N KEY OFFSET [SUITE] [SSCI SALT], with N up to 4095, and 32 or 64 digits of KEY",
    "A retire N",
    "A txsa AN N PN int|conf, with AN up to 3 and 1 to 16 hex digits of PN",
    "A txon AN",
    "A txoff AN",
    "A txdel AN",
    "A rxsc SCI, with 16 digits of SCI",
    "A rxscdel SCI",
    "A rxsa SCI AN N PN [SSCI], with 16 digits of SCI and AN up to 3",
    "A rxon SCI AN",
    "A rxoff SCI AN",
    "A rxlow SCI AN PN",
    "A rxdel SCI AN",
};
/* end */

/* How a line with the word of this index as its keyword is to be written, or NULL. */
static const char *usage_at(const struct words *w, unsigned index) {
    for (size_t i = 0; i < sizeof usages / sizeof *usages; i++) {
        struct words usage;
        char keyword[WORD];
        words_split(&usage, usages[i], strlen(usages[i]));
        if (words_copy(&usage, 1, keyword, sizeof keyword) && words_is(w, index, keyword))
            return usages[i];
    }
    return words_is(w, index, "end") ? "end A SUITE SCI MAX FORM, with MAX from 64 to 9248" : NULL;
}

/* How a line with these words is to be written. The A may be missing. */
static const char *usage_of(const struct words *w) {
    const char *usage = usage_at(w, 1);
    if (usage == NULL)
        usage = usage_at(w, 0);
    return usage != NULL ? usage : "`device ..`, end A SUITE SCI MAX FORM, or a command at A of macsec(5)";
}

static void say_status(struct check *c, uint32_t status) {
    const char *kind = status < MACSEC_E_EMPTY ? "refused: " : "";
    for (size_t i = 0; i < sizeof meanings / sizeof *meanings; i++)
        if (meanings[i].status == status) {
            bool is_text = meanings[i].remedy == NULL;
            say(c, FAULT, "%s%s%s%s", kind, meanings[i].text, is_text ? "; expected: " : "; ",
                is_text ? usage_of(&c->words) : meanings[i].remedy);
            return;
        }
    say(c, FAULT, "%s%s", kind, macsec_status_name(status));
}

static bool is_good(struct check *c, uint32_t status) {
    if (status == MACSEC_E_MEMORY)
        c->is_failed = true;
    else if (status >= MACSEC_E_LINE_WORD || (status != MACSEC_OK && !c->text_only))
        say_status(c, status);
    return status == MACSEC_OK;
}

/* Creates the endpoint. If that fails, later lines are for another one, and only faults of their text are known. */
static bool create(struct check *c, const struct commands *it, macsec_config *end) {
    static const macsec_config other = { { 2, 0, 0, 0, 0, 0, 0, 1 }, MACSEC_SUITE_GCM_AES_128, MACSEC_FORM_SCI, 1514 };
    uint32_t status = macsec_parse_end((const uint8_t *)it->line, it->length, end);
    if (status == MACSEC_OK)
        status = macsec_new(&c->endpoint, end);
    c->begun = true;
    c->text_only = status != MACSEC_OK;
    if (c->text_only && macsec_new(&c->endpoint, &other) != MACSEC_OK)
        status = MACSEC_E_MEMORY;
    return is_good(c, status);
}

/* ---- Likely slips ---- */

/* What `macsec-config --lint` says of them too. */
/* made: slips of tools/families.json */
#define UNUSED_KEY "no association uses key %u"
#define BOTH_DIRECTIONS "key %u is for both directions: AES-GCM breaks if both ends ever have one SCI. Write two keys"
#define READABLE_OCTETS "the first %u octets of each frame stay readable under this key: write 0"
#define DECIMAL_NUMBER "packet numbers are hex: decimal %s is %x"
#define INTEGRITY_ALONE "int does not encrypt: everybody on the link can read the frames; write conf"
#define NOT_ENABLED_TX "no transmit association is enabled, so no frame is sent: A txon %u"
#define NOT_ENABLED_RX "this association is never enabled, so it receives nothing: A rxon %s %u"
/* end */

static bool is_enabled(const struct check *c, const macsec_command *of) {
    struct commands it = { .text = (const char *)c->config.text, .left = c->config.length };
    bool found = false;
    while (!found && commands_next(&it))
        found = it.command.kind == MACSEC_COMMAND_RX_ON && it.command.an == of->an &&
                memcmp(it.command.sci, of->sci, sizeof of->sci) == 0;
    return found;
}

static void look_at_key(struct check *c, const macsec_sak *sak) {
    unsigned key = sak->number;
    if (!c->sends[key] && !c->receives[key])
        say(c, HINT, UNUSED_KEY, key);
    if (c->sends[key] && c->receives[key])
        say(c, HINT, BOTH_DIRECTIONS, key);
    if (sak->offset != 0)
        say(c, HINT, READABLE_OCTETS, sak->offset);
}

/* Packet numbers of several digits without a letter may be meant in decimal. */
static void look_at_number(struct check *c, unsigned index) {
    uint64_t number;
    char word[WORD];
    if (!words_copy(&c->words, index, word, sizeof word) || strlen(word) < 2 || strlen(word) > 8 ||
        !words_number(&c->words, index, &number) || number < 2)
        return;
    say(c, HINT, DECIMAL_NUMBER, word, (unsigned)number);
}

static void look_at_association(struct check *c, const macsec_command *it) {
    bool sends = it->kind == MACSEC_COMMAND_TX_SA;
    char sci[SCI_TEXT];
    look_at_number(c, sends ? 4 : 5);
    if (sends && !it->flag)
        say(c, HINT, INTEGRITY_ALONE);
    if (sends && !c->has_sent && !c->enables)
        say(c, HINT, NOT_ENABLED_TX, it->an);
    if (!sends && !is_enabled(c, it))
        say(c, HINT, NOT_ENABLED_RX, sci_text(it->sci, sci), it->an);
    c->has_sent = c->has_sent || sends;
}

/* What a mode lets pass. A request for it is refused unless the configuration allows that. */
static void look_at_mode(struct check *c, const macsec_command *it) {
    const char *refused = limits_allow(&c->config.limits, it) ? "" : ". No `device allow` lets requests say the same";
    if (it->kind == MACSEC_COMMAND_PROTECT && !it->flag)
        say(c, HINT, "frames are sent in clear: write on%s", refused);
    if (it->kind == MACSEC_COMMAND_VALIDATE && it->choice != MACSEC_MODE_STRICT)
        say(c, HINT, "forged and unprotected frames reach TAP: write strict%s", refused);
    if (it->kind == MACSEC_COMMAND_REPLAY && !it->flag)
        say(c, HINT, "recorded frames are delivered again: write on 0%s", refused);
    else if (it->kind == MACSEC_COMMAND_REPLAY && it->pn > 0)
        say(c, HINT, "frames that were recorded within this window can be delivered again: write 0%s", refused);
}

static void look_at_end(struct check *c, const macsec_config *end) {
    uint32_t fitting = link_max_frame(c->mtu);
    char right[SCI_TEXT];
    uint8_t sci[8];
    memcpy(sci, end->sci, sizeof sci);
    memcpy(sci, c->address, sizeof c->address);
    config_take_end(&c->config, end);
    if (c->is_ethernet && memcmp(end->sci, sci, sizeof sci) != 0)
        say(c, HINT, "the SCI is not that of LINK %s, so another host may have it: write %s", c->config.link,
            sci_text(sci, right));
    if (c->is_ethernet && c->mtu != 0 && c->config.max_frame != fitting)
        say(c, HINT, "MAX does not fit the MTU %u of LINK %s: TAP's MTU is %u; write %u", (unsigned)c->mtu,
            c->config.link, (unsigned)tap_mtu(c->mtu, c->config.max_frame), (unsigned)fitting);
}

static void look_at_command(struct check *c, const macsec_command *it) {
    if (it->kind == MACSEC_COMMAND_KEY)
        look_at_key(c, &it->sak);
    if (it->kind == MACSEC_COMMAND_TX_SA || it->kind == MACSEC_COMMAND_RX_SA)
        look_at_association(c, it);
    if (it->kind == MACSEC_COMMAND_RX_SC && c->is_ethernet && memcmp(it->sci, c->address, sizeof c->address) == 0)
        say(c, HINT, "the peer's SCI has the address of this host's LINK %s: this may be the other host's file",
            c->config.link);
    look_at_mode(c, it);
}

/* ---- The device ---- */

/* Looks at a network device of this namespace, which is not opened. */
static bool read_device(struct check *c, const char *name, uint32_t *mtu) {
    int any = socket(AF_UNIX, SOCK_DGRAM | SOCK_CLOEXEC, 0), type = link_type(any, name, c->address, mtu);
    if (any >= 0)
        (void)close(any);
    c->is_ethernet = type == ARPHRD_ETHER;
    return type >= 0;
}

/* An isolated LINK is in another namespace while its TAP is here, which has its address. */
static void find_link(struct check *c) {
    uint32_t of_tap;
    if (c->config.link[0] == '\0')
        return;
    c->is_there = read_device(c, c->config.link, &c->mtu) ||
                  (!c->config.shared && c->config.tap[0] != '\0' && read_device(c, c->config.tap, &of_tap));
}

static void check_device_line(struct check *c) {
    const struct words *w = &c->words;
    if (!is_right(c, config_take(&c->config, w)))
        return;
    if (words_is(w, 1, "link") && !c->is_there)
        say(c, HINT, "there is no network device %s: macsecd ends with status 1 until there is", c->config.link);
    else if (words_is(w, 1, "link") && !c->is_ethernet)
        say(c, FAULT, "LINK %s is not an Ethernet device; name one", c->config.link);
    else if (words_is(w, 1, "user") && c->config.user != 0)
        say(c, HINT, "while macsecd does not run, this user can read and send TAP's frames in clear: delete the line");
    else if (words_is(w, 1, "workers") && c->config.workers > workers_fitting())
        say(c, HINT, "there are too few processors for so many workers, so frames wait for them: write at most %u",
            workers_fitting());
}

/* ---- The lines ---- */

/* What is needed of later lines when a line is judged. */
static void look_ahead(struct check *c) {
    struct commands it = { .text = (const char *)c->config.text, .left = c->config.length };
    while (commands_next(&it)) {
        struct words w;
        words_split(&w, it.line, it.length);
        if (config_zero(it.line, it.length) == NULL && words_is(&w, 0, "device"))
            (void)config_take(&c->config, &w); /* a fault is reported with its line */
        c->enables = c->enables || it.command.kind == MACSEC_COMMAND_TX_ON;
        if (it.command.kind == MACSEC_COMMAND_TX_SA)
            c->sends[it.command.key] = true;
        if (it.command.kind == MACSEC_COMMAND_RX_SA)
            c->receives[it.command.key] = true;
    }
}

static void check_command(struct check *c, const struct commands *it) {
    macsec_config end;
    uint32_t status = it->status;
    if (!c->begun) {
        if (create(c, it, &end))
            look_at_end(c, &end);
        return;
    }
    if (status == MACSEC_OK)
        status = macsec_carry_out(&c->endpoint, &it->command);
    if (is_good(c, status))
        look_at_command(c, &it->command);
}

static void check_line(struct check *c, const struct commands *it) {
    uint8_t *line = c->config.text + (it->line - (const char *)c->config.text);
    c->line = it->number;
    words_split(&c->words, it->line, it->length);
    if (!is_right(c, config_zero(it->line, it->length))) {
        memset(line, '#', it->length); /* as below */
    } else if (words_is(&c->words, 0, "device")) {
        check_device_line(c);
        line[c->words.at[0] - it->line] = '#'; /* for the calls that look at the others */
    } else if (!commands_skips(it)) {
        check_command(c, it);
    }
}

static void check_lines(struct check *c) {
    struct commands it = { .text = (const char *)c->config.text, .left = c->config.length };
    while (!c->is_failed && commands_next(&it))
        check_line(c, &it);
    macsec_clear_command(&it.command);
    c->line = 0;
    (void)is_right(c, config_disagreement(&c->config));
}

/* ---- The journal ---- */

static void check_journal(struct check *c) {
    char path[PATH_MAX];
    struct stat about;
    const char *wrong;
    if (!journals_path(path, sizeof path, c->name))
        c->found[FAULT]++;
    else if (lstat(path, &about) != 0 && errno == ENOENT)
        say(c, FAULT, "there is no journal %s; if the keys were never used: macsecd --create-journal %s", path,
            c->name);
    else if ((wrong = journals_fault(path)) != NULL)
        say(c, FAULT, "the journal %s %s", path, wrong);
    else if (access(path, R_OK) != 0)
        say(c, HINT, "the journal %s can't be looked at: %s", path, strerror(errno));
    else if ((wrong = journals_misnamed(path, c->config.journal)) != NULL)
        say(c, FAULT, "the journal %s %s", path, wrong);
    else if (journals_check_keys(&c->config, c->name) != 0)
        c->found[FAULT]++; /* it has said why */
}

/* TAP has the NAME of the configuration. That of one at a path may be none. */
static void name_tap(struct config *config, const char *name) {
    const char *slash = strrchr(name, '/'), *base = slash == NULL ? name : slash + 1;
    const char *end = slash == NULL ? NULL : strstr(base, ".conf");
    char copy[IF_NAMESIZE] = "";
    size_t length = end == NULL ? strlen(base) : (size_t)(end - base);
    if (length < sizeof copy)
        memcpy(copy, base, length);
    if (config_is_name(copy))
        memcpy(config->tap, copy, sizeof copy);
}

static int finish(struct check *c) {
    unsigned faults = c->found[FAULT], hints = c->found[HINT];
    macsec_free(&c->endpoint);
    config_wipe(&c->config);
    if (c->is_failed)
        return message_of_memory();
    printf("%s: %u fault%s%s, %u hint%s\n", c->config.path, faults, faults == 1 ? "" : "s",
           faults == 0 ? "" : ", so macsecd does not start", hints, hints == 1 ? "" : "s");
    RETURN_IF_FAILED(messages_flush_output());
    return faults == 0 ? 0 : ENDS_WRONG;
}

int check_configuration(const char *name) {
    static struct check check = { .endpoint = MACSEC_ENDPOINT_INIT };
    struct check *c = &check;
    const char *wrong;
    if (strchr(name, '/') == NULL && !config_is_name(name))
        return message_wrong("no device can have the name %s", name);
    c->name = strchr(name, '/') == NULL ? name : NULL;
    name_tap(&c->config, name);
    RETURN_IF_FAILED(confine_memory());
    RETURN_IF_FAILED(config_look(&c->config, name, &wrong));
    (void)is_right(c, wrong);
    if (c->config.text == NULL)
        return finish(c);
    c->line = 1;
    (void)is_right(c, config_take_mark(&c->config));
    look_ahead(c);
    find_link(c);
    check_lines(c);
    if (c->name != NULL)
        check_journal(c);
    return finish(c);
}
