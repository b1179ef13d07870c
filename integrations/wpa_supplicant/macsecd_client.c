/*
 * A client of macsecd's control socket
 *
 * This software may be distributed under the terms of the BSD license.
 * See README for more details.
 *
 * The socket is of the type SOCK_SEQPACKET: a message is a request, and its answer is one message.
 */

#include "includes.h"
#include <sys/socket.h>
#include <poll.h>
#include <inttypes.h>

#include "utils/common.h"
#include "utils/eloop.h"
#include "macsecd_client.h"

#define ANSWER_MS 2000
#define AGAIN_SECONDS 1

static void macsecd_reach(void *eloop_ctx, void *timeout_ctx);

int macsecd_set_path(struct macsecd_client *c, const char *path, size_t length) {
    if (length == 0 || length >= sizeof(c->path))
        return -1;
    os_memcpy(c->path, path, length);
    c->path[length] = '\0';
    return 0;
}

void macsecd_hang_up(struct macsecd_client *c) {
    if (c->fd < 0)
        return;
    eloop_unregister_read_sock(c->fd);
    close(c->fd); /* nothing is written by it, so nothing can fail late */
    c->fd = -1;
}

void macsecd_stop(struct macsecd_client *c) {
    macsecd_hang_up(c);
    eloop_cancel_timeout(macsecd_reach, c, NULL);
}

static void macsecd_try_later(struct macsecd_client *c) {
    eloop_cancel_timeout(macsecd_reach, c, NULL);
    if (eloop_register_timeout(AGAIN_SECONDS, 0, macsecd_reach, c, NULL))
        wpa_msg(c->ctx, MSG_ERROR, "macsecd: %s: out of memory, no further attempt", c->path);
}

/* An answer that comes late must not be taken for the answer to a later request, so a connection without an answer is
 * of no use any more. */
void macsecd_lost(struct macsecd_client *c, const char *why) {
    wpa_msg(c->ctx, MSG_ERROR, "macsecd: %s: %s", c->path, why);
    macsecd_hang_up(c);
    macsecd_try_later(c);
}

/* Between requests the socket is readable only if macsecd has closed it. */
static void macsecd_readable(int sock, void *eloop_ctx, void *sock_ctx) {
    char octet;
    if (recv(sock, &octet, 1, MSG_PEEK | MSG_DONTWAIT) < 0 && (errno == EAGAIN || errno == EINTR))
        return;
    macsecd_lost(eloop_ctx, "macsecd has closed the connection");
}

static bool macsecd_send(struct macsecd_client *c, const char *line, int length) {
    ssize_t n;
    do {
        n = send(c->fd, line, length, MSG_NOSIGNAL | MSG_DONTWAIT);
    } while (n < 0 && errno == EINTR);
    return n == length;
}

static bool macsecd_receive(struct macsecd_client *c) {
    struct pollfd p = { .fd = c->fd, .events = POLLIN };
    ssize_t n;
    int ready;
    do {
        ready = poll(&p, 1, ANSWER_MS);
    } while (ready < 0 && errno == EINTR);
    if (ready != 1)
        return false;
    n = recv(c->fd, c->answer, sizeof(c->answer) - 1, MSG_DONTWAIT);
    if (n <= 0)
        return false;
    if (c->answer[n - 1] == '\n')
        n--;
    c->answer[n] = '\0';
    return true;
}

static bool macsecd_ask(struct macsecd_client *c, const char *line, int length) {
    if (macsecd_send(c, line, length) && macsecd_receive(c))
        return true;
    os_strlcpy(c->answer, "no answer", sizeof(c->answer));
    return false;
}

int macsecd_line(struct macsecd_client *c, const char *form, ...) {
    char line[256];
    int length, refused;
    bool answered;
    va_list a;
    os_strlcpy(c->answer, "no connection", sizeof(c->answer));
    if (c->fd < 0)
        return MACSECD_NOT_DONE;
    va_start(a, form);
    length = vsnprintf(line, sizeof(line), form, a);
    va_end(a);
    if (os_snprintf_error(sizeof(line), length)) {
        forced_memzero(line, sizeof(line));
        os_strlcpy(c->answer, "too long", sizeof(c->answer));
        return MACSECD_NOT_DONE;
    }
    answered = macsecd_ask(c, line, length);
    forced_memzero(line, sizeof(line));
    if (!answered) {
        macsecd_lost(c, "no answer");
        return MACSECD_NOT_DONE;
    }
    if (sscanf(c->answer, "refused %d", &refused) == 1 && refused > 0)
        return refused;
    return os_strncmp(c->answer, "fault", 5) == 0 ? MACSECD_NOT_DONE : 0;
}

u64 macsecd_raised_pn(const struct macsecd_client *c) {
    u64 pn;
    return sscanf(c->answer, "ok pn %" SCNx64, &pn) == 1 ? pn : 0;
}

/* Connects and owns the device, or says in c->answer why not. */
static bool macsecd_connect(struct macsecd_client *c) {
    struct sockaddr_un u;
    os_memset(&u, 0, sizeof(u));
    u.sun_family = AF_UNIX;
    os_strlcpy(u.sun_path, c->path, sizeof(u.sun_path));
    c->fd = socket(AF_UNIX, SOCK_SEQPACKET | SOCK_CLOEXEC | SOCK_NONBLOCK, 0);
    if (c->fd < 0 || connect(c->fd, (struct sockaddr *)&u, sizeof(u)) < 0) {
        os_strlcpy(c->answer, strerror(errno), sizeof(c->answer));
        return false;
    }
    if (!macsecd_ask(c, "own", 3) || os_strcmp(c->answer, "ok") != 0)
        return false;
    if (eloop_register_read_sock(c->fd, macsecd_readable, c, NULL)) {
        os_strlcpy(c->answer, "out of memory", sizeof(c->answer));
        return false;
    }
    return true;
}

int macsecd_call(struct macsecd_client *c) {
    macsecd_stop(c);
    if (macsecd_connect(c)) {
        c->silent = false;
        return 0;
    }
    wpa_msg(c->ctx, c->silent ? MSG_DEBUG : MSG_ERROR, "macsecd: %s: %s", c->path,
            os_strcmp(c->answer, "fault Owned") == 0 ? "another client owns the device" : c->answer);
    c->silent = true;
    if (c->fd >= 0)
        close(c->fd);
    c->fd = -1;
    macsecd_try_later(c);
    return -1;
}

static void macsecd_reach(void *eloop_ctx, void *timeout_ctx) {
    struct macsecd_client *c = eloop_ctx;
    if (macsecd_call(c))
        return;
    macsecd_hang_up(c); /* who is called back calls again */
    wpa_msg(c->ctx, MSG_INFO, "macsecd: %s: macsecd answers", c->path);
    c->back(c->arg);
}
