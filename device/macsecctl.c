/* Requests to a running macsecd: `help` lists them, and man/macsecctl.8 has the manual. The exit status is 0, 1 if
 * macsecd can't be reached, or 2 if a request is refused or at fault. */
#include "system.h"
#include <ctype.h>
#include <inttypes.h>
#include <sys/un.h>

/* The longest request is `load` with its lines. */
enum { REQUEST = 128 * 1024, ANSWER = 512 * 1024 };

static char request[REQUEST + 1], answer[ANSWER], earlier[ANSWER];

/* Prints a line about what is wrong. Its value is the status. */
#define WRONG(status, ...) (fprintf(stderr, "macsecctl: " __VA_ARGS__), (status))

static int fail(const char *what, int status) {
    return WRONG(status, "%s: %s\n", what, strerror(errno));
}

static int connected(const char *path, const char *name) {
    struct sockaddr_un address = { .sun_family = AF_UNIX };
    int length = path != NULL ? snprintf(address.sun_path, sizeof address.sun_path, "%s", path)
                              : snprintf(address.sun_path, sizeof address.sun_path, "/run/macsec/%s.sock", name);
    int file = socket(AF_UNIX, SOCK_SEQPACKET | SOCK_CLOEXEC, 0);
    if (length < 0 || (size_t)length >= sizeof address.sun_path)
        return WRONG(-1, "the path of the socket is too long\n");
    if (file >= 0 && connect(file, (const struct sockaddr *)&address, sizeof address) == 0)
        return file;
    if (errno != ENOENT && errno != ECONNREFUSED)
        return fail(address.sun_path, -1);
    return WRONG(-1, "%s: %s: is macsecd@%s running?\n", address.sun_path, strerror(errno), name);
}

/* Whatever has answered, no octet of it is a command to the terminal. */
static void make_printable(char *octets, size_t length) {
    for (size_t i = 0; i < length; i++)
        if (!isprint((unsigned char)octets[i]) && octets[i] != '\n' && octets[i] != '\t')
            octets[i] = '?';
    octets[length] = '\0';
}

/* Sends the request and reads the answer. The request is wiped: it may be a key. */
static bool ask(int file, size_t length) {
    ssize_t count = TEMP_FAILURE_RETRY(send(file, request, length, MSG_NOSIGNAL));
    explicit_bzero(request, sizeof request);
    if (count < 0)
        return fail("macsecd", false);
    count = TEMP_FAILURE_RETRY(recv(file, answer, sizeof answer - 1, 0));
    if (count <= 0)
        return WRONG(false, "macsecd has closed the connection\n");
    make_printable(answer, (size_t)count);
    return true;
}

/* Is the answer, or the answer to a line of `load`, not that it was done? */
static bool is_refused(void) {
    const char *at = answer + strspn(answer, "0123456789");
    if (at > answer && *at == ' ')
        at++;
    return strncmp(at, "refused ", 8) == 0 || strncmp(at, "fault ", 6) == 0;
}

/* What an answer `fault NAME` says, on standard error. */
static void explain(void) {
    static const struct {
        const char *name, *means;
    } faults[] = {
        { "Word", "a word is not one that can be there: `help` lists the requests, macsec(5) the commands after A" },
        { "Count", "there are too many or too few words: `help` lists the requests, macsec(5) the commands after A" },
        { "Hex", "hex digits are expected there, without 0x and colons, as many as the value has" },
        { "Number", "a decimal number is expected there, or it is too large" },
        { "Ends", "it is no line of endpoint A, or one that only a configuration can have" },
        { "Owned", "another connection owns the device, such as that of wpa_supplicant" },
        { "NotAllowed", "the configuration does not allow it: `device allow` in macsecd(8)" },
        { "Empty", "there is no endpoint: `open` makes one" },
        { "JournalFull", "the journal has no name left for the association: JOURNAL in macsecd(8)" },
    };
    const char *fault = strstr(answer, "fault ");
    size_t length = fault == NULL ? 0 : strcspn(fault + 6, "\n");
    for (size_t i = 0; i < sizeof faults / sizeof faults[0]; i++)
        if (length == strlen(faults[i].name) && strncmp(fault + 6, faults[i].name, length) == 0)
            fprintf(stderr, "macsecctl: %s: %s\n", faults[i].name, faults[i].means);
}

static int ask_and_print(int file, size_t length) {
    if (!ask(file, length))
        return 1;
    fputs(answer, stdout);
    if (!is_refused())
        return 0;
    explain();
    return 2;
}

static int ask_words(int file, int count, char **words) {
    size_t length = 0;
    for (int i = 0; i < count; i++) {
        int more = snprintf(request + length, sizeof request - length, "%s%s", i == 0 ? "" : " ", words[i]);
        length += more < 0 ? 0 : (size_t)more;
        if (length >= sizeof request)
            return WRONG(2, "the request is too long\n");
    }
    return ask_and_print(file, length);
}

static int load(int file, int lines) {
    size_t length = 5;
    ssize_t count = 1;
    memcpy(request, "load\n", length);
    while (count > 0 && length < sizeof request) {
        count = TEMP_FAILURE_RETRY(read(lines, request + length, sizeof request - length));
        length += count > 0 ? (size_t)count : 0;
    }
    (void)close(lines); /* it was only read */
    if (count == 0)
        return ask_and_print(file, length);
    explicit_bzero(request, sizeof request);
    return count < 0 ? fail("the lines", 2) : WRONG(2, "the lines have more than %d octets\n", REQUEST - 5);
}

/* The line after this one. The last line may have no line feed. */
static char *next_line(char *line) {
    line += strcspn(line, "\n");
    return *line == '\n' ? line + 1 : line;
}

/* The value that a line of counters had in the earlier answer. A line is a name, a space and a number. */
static uint64_t earlier_value(const char *line, size_t name, uint64_t otherwise) {
    for (char *at = earlier; *at != '\0'; at = next_line(at))
        if (strncmp(at, line, name) == 0)
            return strtoull(at + name, NULL, 10);
    return otherwise;
}

static void print_changes(void) {
    bool any = false;
    for (char *line = answer; *line != '\0'; line = next_line(line)) {
        size_t length = strcspn(line, "\n"), name = length;
        uint64_t value, before;
        while (name > 0 && line[name - 1] != ' ')
            name--;
        value = strtoull(line + name, NULL, 10);
        before = earlier_value(line, name, value);
        if (value == before)
            continue;
        printf("%.*s +%" PRIu64 "\n", (int)length, line, value - before);
        any = true;
    }
    if (any)
        printf("\n");
    (void)fflush(stdout); /* main looks at what was written */
}

static int watch(int file) {
    for (;;) {
        memcpy(request, "counters", 8);
        if (!ask(file, 8))
            return 1;
        print_changes();
        if (ferror(stdout))
            return fail("standard output", 1);
        memcpy(earlier, answer, strlen(answer) + 1);
        (void)sleep(1);
    }
}

static const char help[] = "A COMMAND ..            a command of macsec(5) for end A\n"
                           "close                   ends the endpoint\n"
                           "counters                the counters of the endpoint and of the device\n"
                           "help                    this list; macsecctl(8) says more\n"
                           "json                    the whole state, for programs\n"
                           "link                    what LINK is, and where\n"
                           "load FILE               carries out the lines of a file, or none of them\n"
                           "metrics                 counters and packet numbers for Prometheus\n"
                           "numbers                 the packet numbers of all associations\n"
                           "numbers tx AN           of one that sends\n"
                           "numbers rx SCI AN       of one that receives\n"
                           "open SCI SUITE [FORM]   makes an endpoint without keys\n"
                           "own                     the connection owns the device\n"
                           "port [on|off]           the controlled port\n"
                           "show                    the whole state, for people\n"
                           "watch                   each second the counters that have changed\n";

static int run(const char *path, const char *name, int count, char **words) {
    int file, lines;
    if (count == 1 && strcmp(words[0], "help") == 0) {
        (void)fputs(help, stdout); /* main looks at what was written */
        return 0;
    }
    file = connected(path, name);
    if (file < 0)
        return 1;
    if (count == 0)
        return load(file, STDIN_FILENO);
    if (count == 2 && strcmp(words[0], "load") == 0) {
        lines = open(words[1], O_RDONLY | O_CLOEXEC);
        return lines < 0 ? fail(words[1], 2) : load(file, lines);
    }
    return count == 1 && strcmp(words[0], "watch") == 0 ? watch(file) : ask_words(file, count, words);
}

int main(int count, char **words) {
    const char *path = NULL;
    int result, first = 1;
    if (count > 2 && strcmp(words[1], "-s") == 0) {
        path = words[2];
        first = 3;
    }
    if (count <= first || words[first][0] == '-') {
        fprintf(stderr, "usage: macsecctl [-s SOCKET] NAME [REQUEST..], or macsecctl NAME help\n");
        return 2;
    }
    result = run(path, words[first], count - first - 1, words + first + 1);
    return fflush(stdout) != 0 || ferror(stdout) ? fail("standard output", 1) : result;
}
