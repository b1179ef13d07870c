/* A MACsec device for Linux: a TAP device whose frames are protected on the network device below. man/macsecd.8 has the
 * manual. The library of macsec.h judges every frame; this program moves octets. */
#include "device.h"
#include <limits.h>

static struct device device = { .handles = { MACSEC_ENDPOINT_INIT, MACSEC_ENDPOINT_INIT } };

/* Creates the endpoint of the configuration, whose text is wiped then. */
static int configure(struct device *d) {
    uint32_t line, status;
    d->endpoint = &d->handles[0];
    status = endpoint_configure(d, (const char *)d->config.text, d->config.length, &line);
    config_wipe(&d->config);
    port_open(d);
    if (status == MACSEC_OK || status == MACSEC_E_MEMORY)
        return status == MACSEC_OK ? 0 : message_of_memory();
    return message_wrong(
        "%s: line %u: %s%s", d->config.path, (unsigned)line, macsec_status_name(status),
        status == MACSEC_E_PN_FLOOR ? ": the key has no packet number left: install a new one at both ends" : "");
}

/* Opens everything, and then gives up the rights to open more. The endpoint is last: it reserves packet numbers, which
 * a start that fails again and again would use up. */
static int start(struct device *d) {
    const struct config *c = &d->config;
    RETURN_IF_FAILED(confine_memory());
    memory_lock();
    RETURN_IF_FAILED(service_open(&d->service));
    RETURN_IF_FAILED(config_read(&d->config, d->name));
    RETURN_IF_FAILED(over_open(&d->over, !c->shared && !c->alone));
    RETURN_IF_FAILED(namespace_enter(&d->tap, c, d->name));
    RETURN_IF_FAILED(journals_check_disk(d->name, false));
    RETURN_IF_FAILED(numbers_open(&d->numbers, d->name, c->journal, &d->counts));
    RETURN_IF_FAILED(journals_lock(d->name));
    RETURN_IF_FAILED(journals_check_keys(c, d->name));
    RETURN_IF_FAILED(link_open(&d->link, c->link));
    RETURN_IF_FAILED(tap_open(&d->tap, c, &d->link));
    RETURN_IF_FAILED(control_open(&d->control, d->name, c));
    RETURN_IF_FAILED(rtnetlink_open(d));
    RETURN_IF_FAILED(workers_open(&d->workers, c->has_workers ? c->workers : workers_fitting()));
    RETURN_IF_FAILED(loop_open(d));
    RETURN_IF_FAILED(confine_rights(d->numbers.journal.folder, c->unconfined));
    RETURN_IF_FAILED(configure(d));
    numbers_begin(&d->numbers, d->endpoint);
    RETURN_IF_FAILED(journal_writer_start(&d->numbers.writer)); /* the threads have no other rights either */
    RETURN_IF_FAILED(service_start(&d->service));
    RETURN_IF_FAILED(workers_start(d->workers));
    RETURN_IF_FAILED(rtnetlink_begin(d));
    return confine_calls(ENDPOINT_THREAD, d->link.socket, d->service.socket);
}

/* Says which frames pass beside MACsec, which no line of the configuration can close. */
static void say_what_is_open(const struct device *d) {
    if (d->config.shared)
        message("`device shared`: LINK %s is in the host's network namespace. The host's programs receive frames of it "
                "that are not protected, and can send such frames",
                d->link.name);
    else if (d->config.alone)
        message("`device isolate alone`: if devices below LINK %s, or others over them, are in the host's network "
                "namespace, its programs receive frames by them that are not protected",
                d->link.name);
}

static int serve(struct device *d) {
    int result;
    message("protects %s on %s%s", d->tap.name, d->link.name,
            endpoint_is_open(d) ? "" : "; it has no endpoint until a client opens one");
    say_what_is_open(d);
    service_notify(&d->service, "READY=1");
    result = loop_run(d);
    service_notify(&d->service, "STOPPING=1");
    workers_close(d->workers);
    d->workers = NULL;
    numbers_close(&d->numbers, d->endpoint);
    service_close(&d->service);
    return result;
}

static int run(struct device *d) {
    int result;
    messages_open();
    result = loop_block_signals(d);
    if (result == 0)
        result = start(d);
    if (result == 0)
        result = serve(d);
    config_wipe(&d->config);
    workers_close(d->workers);
    macsec_free(d->endpoint);
    return result;
}

static int read_device(struct config *c, const char *name) {
    RETURN_IF_FAILED(confine_memory());
    RETURN_IF_FAILED(config_read(c, name));
    config_wipe(c);
    return 0;
}

/* Prints what macsec-link needs of NAME.conf: LINK, TAP, the largest frame, whether LINK is isolated, and TAP's user.
 */
static int print_settings(const char *name) {
    struct config c;
    const char *way;
    RETURN_IF_FAILED(read_device(&c, name));
    way = c.alone ? "alone" : "isolated";
    printf("%s %s %u %s %u\n", c.link, c.tap, (unsigned)c.max_frame, c.shared ? "shared" : way, (unsigned)c.user);
    return messages_flush_output();
}

/* The journal belongs to the user of macsecd. */
static int own_tap(const char *name) {
    char path[PATH_MAX];
    struct config c;
    struct stat journal;
    RETURN_IF_FAILED(read_device(&c, name));
    if (!journals_path(path, sizeof path, name))
        return ENDS_FAILED;
    return tap_own(&c, stat(path, &journal) == 0 ? journal.st_uid : 0);
}

static int create_journal(const char *name) {
    int result = journals_check_disk(name, true);
    if (result == 0)
        result = numbers_create(name);
    journals_print(name);
    return result != 0 ? result : messages_flush_output();
}

int main(int count, char **words) {
    bool creates = count == 3 && strcmp(words[1], "--create-journal") == 0;
    bool prints = count == 3 && strcmp(words[1], "--settings") == 0;
    bool owns = count == 3 && strcmp(words[1], "--own-tap") == 0;
    if (count == 2 && strcmp(words[1], "--version") == 0) {
        printf("macsecd %s\n", MACSEC_VERSION);
        return messages_flush_output();
    }
    if (count == 3 && strcmp(words[1], "--check") == 0)
        return check_configuration(words[2]);
    if ((count != 2 && !creates && !prints && !owns) || !config_is_name(words[count - 1]))
        return message_wrong("usage: macsecd NAME, macsecd --check NAME or FILE, macsecd --create-journal NAME, "
                             "macsecd --settings NAME, macsecd --own-tap NAME, or macsecd --version");
    device.name = words[count - 1];
    messages_name(device.name);
    if (prints)
        return print_settings(device.name);
    if (owns)
        return own_tap(device.name);
    return creates ? create_journal(device.name) : run(&device);
}
