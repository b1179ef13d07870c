/* What macsecd says, on standard error: a line for what starts, changes, fails and ends, and none for a frame. A client
 * that makes one message again and again must not fill the log, and nobody who does not read it may stop frames. */
#include "system.h"
#include <poll.h>
#include <stdarg.h>
#include <time.h>

/* The most octets of a line. A text has half of them; what is before it and after it needs fewer. */
enum { LONGEST = 2048 };

/* Of each form so many messages are printed in so many seconds; and how many forms there are at most. */
enum { OFTEN = 10, SECONDS = 60, FORMS = 128 };

struct said {
    const char *form;
    time_t since;      /* when its seconds began */
    unsigned count;    /* messages since then */
    unsigned left_out; /* messages that were not printed, before this one */
};

/* Static, here and below: a process has one standard error, which all files use, also before there is a device. */
static const char *device_name = "";

/* Where lines go, and what keeps a call from waiting: the descriptor, a flag of the call, or a call before it. */
static int lines = STDERR_FILENO;
static enum { BY_DESCRIPTOR, BY_FLAG, BY_POLL } way;

void messages_name(const char *name) {
    device_name = name;
}

/* O_NONBLOCK is set where no other process has it: it belongs to what was opened, and a shell has opened its terminal.
 * A pipe of another user can't be opened again. A file is written as it is: it would be written from its beginning. */
void messages_open(void) {
    struct stat about;
    int file = open("/dev/null", O_RDWR);
    while (file >= 0 && file <= STDERR_FILENO)
        file = dup(file); /* a stream that is closed gets no descriptor that macsecd opens later */
    if (file >= 0)
        (void)close(file);
    if (fstat(STDERR_FILENO, &about) != 0)
        return;
    if (S_ISSOCK(about.st_mode))
        way = BY_FLAG;
    if (!S_ISFIFO(about.st_mode) && !S_ISCHR(about.st_mode))
        return;
    file = open("/proc/self/fd/2", O_WRONLY | O_NONBLOCK | O_NOCTTY | O_CLOEXEC);
    if (file >= 0)
        lines = file;
    else
        way = BY_POLL;
}

/* Writes a line by one call, so that lines of several processes do not mix. A pipe that can be written to takes a line
 * of this length, unless another process fills it in between. Returns false if the line is not written. */
static bool write_line(const char *line, size_t length) {
    struct pollfd it = { .fd = lines, .events = POLLOUT };
    ssize_t count;
    if (way == BY_POLL && poll(&it, 1, 0) != 1)
        return false;
    count = TEMP_FAILURE_RETRY(way == BY_FLAG ? send(lines, line, length, MSG_DONTWAIT | MSG_NOSIGNAL)
                                              : write(lines, line, length));
    return count == (ssize_t)length;
}

/* Is a message of this form to be printed? Then `left_out` is how many were not. */
static bool may_print(const char *form, unsigned *left_out) {
    static struct said said[FORMS];
    struct timespec now = { 0, 0 };
    struct said *s = said;
    *left_out = 0;
    while (s < said + FORMS && s->form != NULL && s->form != form)
        s++;
    if (s == said + FORMS || clock_gettime(CLOCK_MONOTONIC, &now) != 0)
        return true;
    if (s->form == NULL || now.tv_sec - s->since >= SECONDS) {
        *left_out = s->left_out;
        *s = (struct said){ form, now.tv_sec, 0, 0 };
    }
    if (s->count++ < OFTEN)
        return true;
    s->left_out++;
    return false;
}

/* Writes a line, and before it how many were not written. */
static void print_line(char line[LONGEST], size_t end) {
    static unsigned lost;
    char note[LONGEST];
    int length;
    line[end++] = '\n'; /* there is space: see LONGEST */
    if (lost > 0) {
        length = snprintf(note, sizeof note, "macsecd %s: lines missing here, which standard error did not take: %u\n",
                          device_name, lost);
        if (write_line(note, (size_t)length))
            lost = 0;
    }
    if (lost > 0 || !write_line(line, end))
        lost++;
}

static void print(const char *form, va_list arguments, int error) {
    char line[LONGEST], text[LONGEST / 2], more[40] = "";
    unsigned left_out;
    int length;
    if (!may_print(form, &left_out))
        return;
    (void)vsnprintf(text, sizeof text, form, arguments); /* it may be cut */
    if (left_out > 0)
        snprintf(more, sizeof more, " (%u times more before)", left_out);
    length = snprintf(line, sizeof line, "macsecd%s%s: %s%s%s%s", device_name[0] == '\0' ? "" : " ", device_name, text,
                      error == 0 ? "" : ": ", error == 0 ? "" : strerror(error), more);
    print_line(line, (size_t)length);
}

void message(const char *form, ...) {
    va_list arguments;
    va_start(arguments, form);
    print(form, arguments, 0);
    va_end(arguments);
}

int message_of_errno(const char *form, ...) {
    int error = errno;
    va_list arguments;
    va_start(arguments, form);
    print(form, arguments, error);
    va_end(arguments);
    return ENDS_FAILED;
}

int messages_flush_output(void) {
    return fflush(stdout) == 0 && !ferror(stdout) ? 0 : message_of_errno("standard output");
}
