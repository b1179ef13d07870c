/* NAME.conf: the lines of docs/SCRIPT.md for one end, and lines of the device, which begin with the word `device`. */
#include "text.h"
#include "workers.h"
#include <ctype.h>
#include <grp.h>
#include <pwd.h>

/* The most octets of a configuration, as the library has it. */
enum { LONGEST = 1048576 };

bool config_is_name(const char *name) {
    size_t length = strlen(name);
    if (length == 0 || length >= IF_NAMESIZE || name[0] == '.' || name[0] == '-')
        return false;
    for (size_t i = 0; i < length; i++)
        if (!isalnum((unsigned char)name[i]) && strchr("_-.:@", name[i]) == NULL)
            return false;
    return true;
}

bool config_path(char *path, size_t room, const char *variable, const char *otherwise, const char *name,
                 const char *suffix) {
    const char *folder = getenv(variable);
    int length;
    if (folder == NULL || folder[0] == '\0')
        folder = otherwise;
    length = snprintf(path, room, "%s/%s%s", folder, name, suffix);
    return length > 0 && (size_t)length < room;
}

/* Keys are in the file, so only its owner may read it. A credential is guarded by the service manager. Returns what is
 * wrong with the file, or NULL. */
static const char *fault_of_file(const struct stat *status, bool is_credential) {
    if (!S_ISREG(status->st_mode))
        return "it is not a regular file";
    if (!is_credential && (status->st_mode & 077) != 0)
        return "it has keys, and others may read or write it: chmod 600";
    if (!is_credential && status->st_uid != geteuid() && status->st_uid != 0)
        return "it has keys, and belongs to another user than root or the one that runs macsecd: chown root";
    return NULL;
}

/* Reads the text into one block, which has no copy. */
static int read_text(struct config *c, int file, size_t size) {
    if (size > LONGEST)
        return message_wrong("%s has more than 1,048,576 octets", c->path);
    c->room = size + 1;
    c->text = calloc(c->room, 1);
    if (c->text == NULL)
        return message_of_memory();
    for (ssize_t count = 1; count > 0 && c->length < size; c->length += (size_t)count) {
        count = TEMP_FAILURE_RETRY(read(file, c->text + c->length, size - c->length));
        if (count < 0)
            return message_of_errno("%s", c->path);
    }
    return 0;
}

/* Opens NAME.conf: the service manager's credential of this name if there is one, else the file. A name with a slash is
 * the path of the file. */
static int open_file(struct config *c, const char *name, bool *is_credential) {
    const int flags = O_RDONLY | O_CLOEXEC | O_NOFOLLOW | O_NONBLOCK;
    int file;
    *is_credential = false;
    if (strchr(name, '/') != NULL && snprintf(c->path, sizeof c->path, "%s", name) < (int)sizeof c->path)
        return open(c->path, flags);
    *is_credential = getenv("CREDENTIALS_DIRECTORY") != NULL &&
                     config_path(c->path, sizeof c->path, "CREDENTIALS_DIRECTORY", "", name, ".conf");
    if (*is_credential && ((file = open(c->path, flags)) >= 0 || errno != ENOENT))
        return file;
    *is_credential = false;
    if (config_path(c->path, sizeof c->path, "CONFIGURATION_DIRECTORY", "/etc/macsec", name, ".conf"))
        return open(c->path, flags);
    errno = ENAMETOOLONG;
    return -1;
}

int config_look(struct config *c, const char *name, const char **fault) {
    struct stat status;
    bool is_credential;
    int result, file = open_file(c, name, &is_credential);
    *fault = NULL;
    if (file < 0)
        return message_of_errno("cannot open %s", c->path);
    result = fstat(file, &status) == 0 ? 0 : message_of_errno("%s", c->path);
    if (result == 0) {
        *fault = fault_of_file(&status, is_credential);
        result = S_ISREG(status.st_mode) ? read_text(c, file, (size_t)status.st_size) : 0;
    }
    (void)close(file); /* it was only read */
    if (result != 0)
        config_wipe(c);
    return result;
}

static bool take_name(char *to, const struct words *w) {
    char name[IF_NAMESIZE];
    if (!words_copy(w, 2, name, sizeof name) || !config_is_name(name))
        return false;
    memcpy(to, name, sizeof name);
    return true;
}

static bool take_journal(struct config *c, const struct words *w) {
    return words_copy(w, 2, c->journal, sizeof c->journal) &&
           strspn(c->journal, "0123456789abcdef") == sizeof c->journal - 1;
}

static bool take_group(struct config *c, const struct words *w) {
    char name[WORD];
    const struct group *group = words_copy(w, 2, name, sizeof name) ? getgrnam(name) : NULL;
    if (group == NULL)
        return false;
    c->group = group->gr_gid;
    c->has_group = true;
    return true;
}

static bool take_user(struct config *c, const struct words *w) {
    char name[WORD];
    const struct passwd *user = words_copy(w, 2, name, sizeof name) ? getpwnam(name) : NULL;
    if (user == NULL)
        return false;
    c->user = user->pw_uid;
    c->user_group = user->pw_gid;
    return true;
}

static bool take_workers(struct config *c, const struct words *w) {
    uint64_t count;
    if (!words_number(w, 2, &count) || count > WORKERS_MAX)
        return false;
    c->workers = (unsigned)count;
    c->has_workers = true;
    return true;
}

static bool take_switch(struct config *c, const struct words *w) {
    const struct {
        const char *words;
        bool *says;
    } switches[] = {
        { "persist", &c->persistent },
        { "transient", &c->transient },
        { "shared", &c->shared },
        { "isolate", &c->isolated },
        { "isolate alone", &c->alone },
        { "landlock optional", &c->unconfined },
        { "port off", &c->begins_off },
        { "segments off", &c->single },
        { "allow protect off", &c->limits.unprotected },
        { "allow validate check", &c->limits.check },
        { "allow validate disabled", &c->limits.disabled },
        { "allow replay off", &c->limits.late },
        { "allow int", &c->limits.integrity },
        { "allow offset", &c->limits.offset },
    };
    for (size_t i = 0; i < sizeof switches / sizeof *switches; i++)
        if (words_are(w, 1, switches[i].words)) {
            *switches[i].says = true;
            return true;
        }
    return false;
}

static const char *wrong_receive(const struct words *w) {
    if (words_is(w, 2, "behind"))
        return "`device receive behind` is gone: what is received is reserved ahead, so that no frame is delivered "
               "twice; delete the line";
    return "the word after `device receive` is not ahead";
}

const char *config_take(struct config *c, const struct words *w) {
    if (take_switch(c, w))
        return NULL;
    if (words_is(w, 1, "allow"))
        return limits_take(&c->limits, w);
    if (w->count != 3)
        return "`device link NAME`, `tap NAME`, `journal HEX`, `user NAME`, `group NAME`, `port off`, `segments off`, "
               "`workers N`, `receive ahead`, `persist`, `transient`, `isolate`, `shared`, `landlock optional` or "
               "`allow ..` is expected";
    if (words_is(w, 1, "link") || words_is(w, 1, "tap"))
        return take_name(words_is(w, 1, "link") ? c->link : c->tap, w) ? NULL : "no network device can have this name";
    if (words_is(w, 1, "journal"))
        return take_journal(c, w) ? NULL : "the name of a journal has 16 digits, of 0 to 9 and a to f";
    if (words_is(w, 1, "group"))
        return take_group(c, w) ? NULL : "there is no such group";
    if (words_is(w, 1, "user"))
        return take_user(c, w) ? NULL : "there is no such user";
    if (words_is(w, 1, "workers"))
        return take_workers(c, w) ? NULL : "the number of workers is not 0 to 8";
    if (words_is(w, 1, "receive"))
        return words_is(w, 2, "ahead") ? NULL : wrong_receive(w);
    return "the word after `device` is not link, tap, journal, user, group, port, segments, workers, receive, persist, "
           "transient, isolate, shared, landlock or allow";
}

const char *config_take_mark(struct config *c) {
    static const uint8_t mark[] = { 0xef, 0xbb, 0xbf };
    if (c->length < sizeof mark || memcmp(c->text, mark, sizeof mark) != 0)
        return NULL;
    memset(c->text, ' ', sizeof mark);
    return "the file begins with a byte order mark (EF BB BF); save it without one";
}

const char *config_zero(const char *line, size_t length) {
    return memchr(line, '\0', length) == NULL ? NULL : "the line has a zero octet; save the file as plain text";
}

/* Takes the lines of the device, and makes comments of them, so that the others keep their numbers. */
static int take_lines(struct config *c) {
    struct commands it = { .text = (const char *)c->text, .left = c->length };
    const char *wrong = NULL;
    while (wrong == NULL && commands_next(&it)) {
        struct words w;
        words_split(&w, it.line, it.length);
        wrong = it.number == 1 ? config_take_mark(c) : NULL;
        if (wrong == NULL)
            wrong = config_zero(it.line, it.length);
        if (wrong == NULL && words_is(&w, 0, "device")) {
            wrong = config_take(c, &w);
            c->text[w.at[0] - (const char *)c->text] = '#';
        }
    }
    macsec_clear_command(&it.command);
    return wrong == NULL ? 0 : message_wrong("%s: line %u: %s", c->path, it.number, wrong);
}

/* A line that lets frames pass without MACsec must not be hidden by another one, nor hide it. */
const char *config_disagreement(const struct config *c) {
    if (c->link[0] == '\0')
        return "there is no line `device link NAME`, which names the network device below";
    if (strcmp(c->link, c->tap) == 0)
        return "LINK and TAP have one name: `device tap` names another TAP";
    if (c->shared && (c->isolated || c->alone))
        return "`device shared` and `device isolate` exclude each other";
    if (c->transient && c->persistent)
        return "`device transient` and `device persist` exclude each other";
    if (c->transient && !c->shared)
        return "`device transient` needs `device shared`: the TAP of an isolated LINK stays";
    return NULL;
}

void config_take_end(struct config *c, const macsec_config *end) {
    c->max_frame = end->max_frame;
    limits_take_suite(&c->limits, end->suite);
}

/* Reads the `end` line, if there is one. What is wrong with it is reported when the endpoint is created. */
static int read_end(struct config *c) {
    struct commands it = { .text = (const char *)c->text, .left = c->length };
    macsec_config end;
    uint32_t status = commands_end(&it, &end);
    c->max_frame = MACSEC_FRAME_MAX;
    if (status == MACSEC_OK)
        config_take_end(c, &end);
    return status == MACSEC_E_MEMORY ? message_of_memory() : 0;
}

int config_read(struct config *c, const char *name) {
    const char *fault = NULL;
    int result;
    memset(c, 0, sizeof *c);
    memcpy(c->tap, name, strlen(name));
    RETURN_IF_FAILED(config_look(c, name, &fault));
    result = fault == NULL ? take_lines(c) : 0;
    if (result == 0 && (fault != NULL || (fault = config_disagreement(c)) != NULL))
        result = message_wrong("%s: %s", c->path, fault);
    if (result == 0)
        result = read_end(c);
    if (result != 0)
        config_wipe(c);
    return result;
}

void config_wipe(struct config *c) {
    if (c->text != NULL)
        explicit_bzero(c->text, c->room);
    free(c->text);
    c->text = NULL;
    c->length = c->room = 0;
}
