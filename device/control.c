/* The control socket: a packet is a request, and its answer is a packet. */
#include "device.h"
#include <sys/un.h>

/* An earlier run has left its socket: macsecd may remove no file of this folder when it ends, since other instances
 * have sockets there too. The lock on the journal says that the earlier one runs no more. Nobody can connect before the
 * socket has its owner and its mode: listen is the last call. */
int control_open(struct control *k, const char *name, const struct config *c) {
    struct sockaddr_un address = { .sun_family = AF_UNIX };
    char *path = address.sun_path, *slash;
    for (int i = 0; i < CLIENTS; i++)
        k->clients[i] = -1;
    if (!config_path(path, sizeof address.sun_path, "RUNTIME_DIRECTORY", "/run/macsec", name, ".sock"))
        return message_wrong("the path of the control socket is too long");
    slash = strrchr(path, '/');
    *slash = '\0';
    if (mkdir(path, 0755) != 0 && errno != EEXIST)
        return message_of_errno("%s", path);
    *slash = '/';
    k->listener = socket(AF_UNIX, SOCK_SEQPACKET | SOCK_NONBLOCK | SOCK_CLOEXEC, 0);
    if (k->listener >= 0 && (unlink(path) == 0 || errno == ENOENT) &&
        bind(k->listener, (const struct sockaddr *)&address, sizeof address) == 0 &&
        (!c->has_group || fchownat(AT_FDCWD, path, (uid_t)-1, c->group, AT_SYMLINK_NOFOLLOW) == 0) &&
        chmod(path, c->has_group ? 0660 : 0600) == 0 && listen(k->listener, CLIENTS) == 0)
        return 0;
    return message_of_errno("the control socket %s", path);
}

static void close_client(struct device *d, int index) {
    (void)close(d->control.clients[index]); /* this also takes it out of what the loop waits for */
    d->control.clients[index] = -1;
    waits_client_gone(d, index);
    port_client_gone(d, index);
}

/* Whose process has connected; if that is unknown, nobody's. */
static uid_t user_of(int client) {
    struct ucred who;
    socklen_t length = sizeof who;
    return getsockopt(client, SOL_SOCKET, SO_PEERCRED, &who, &length) == 0 ? who.uid : (uid_t)-1;
}

/* Connections end in the order of this number: others' before root's, and then the one that is idle longest. */
static uint64_t rank(const struct control *k, int i) {
    return k->used[i] | (uint64_t)(k->user[i] == 0) << 63;
}

/* Finds a free place for a client. If there is none, an idle connection ends: never the owner's, and root's only for
 * root. Returns -1 if none can end. */
static int make_place(struct device *d, bool for_root) {
    struct control *k = &d->control;
    int idle = -1;
    for (int i = 0; i < CLIENTS; i++) {
        if (k->clients[i] < 0)
            return i;
        if (i != d->port.owner && (k->user[i] != 0 || for_root) && (idle < 0 || rank(k, i) < rank(k, idle)))
            idle = i;
    }
    if (idle >= 0)
        close_client(d, idle);
    return idle;
}

int control_accept(struct device *d) {
    struct control *k = &d->control;
    int octets = sizeof k->answer, at, client = accept4(k->listener, NULL, NULL, SOCK_NONBLOCK | SOCK_CLOEXEC);
    uid_t user = client < 0 ? (uid_t)-1 : user_of(client);
    bool was_held_up = k->held_up;
    k->held_up = client < 0 && errno != EAGAIN && errno != ECONNABORTED && errno != EINTR;
    if (k->held_up && !was_held_up)
        message_of_errno("a connection to the control socket can't be accepted yet");
    if (client < 0)
        return -1; /* it is held up, or has gone again */
    at = make_place(d, user == 0);
    if (at < 0) {
        (void)close(client); /* there are as many as there can be */
        return -1;
    }
    (void)setsockopt(client, SOL_SOCKET, SO_SNDBUF, &octets, sizeof octets); /* else a long answer closes it */
    k->clients[at] = client;
    k->user[at] = user;
    k->used[at] = ++k->uses;
    return at;
}

bool control_send(struct device *d, int index, const char *octets, size_t length) {
    ssize_t sent = TEMP_FAILURE_RETRY(send(d->control.clients[index], octets, length, MSG_DONTWAIT | MSG_NOSIGNAL));
    if (sent < 0)
        close_client(d, index); /* it does not read its answers, or has gone */
    return sent >= 0;
}

bool control_may_read(struct device *d, int index, bool has_ended) {
    int64_t milliseconds;
    if (budget_lets(d, index, &milliseconds))
        return true;
    d->counts.requests_delayed++;
    if (has_ended)
        close_client(d, index); /* else a client that waits for no answer could make as many as it likes */
    else
        waits_rest(d, index, milliseconds);
    return false;
}

bool control_answer(struct device *d, int index) {
    struct control *k = &d->control;
    struct text t = { k->answer, 0, sizeof k->answer, false };
    bool waits;
    ssize_t length = recv(k->clients[index], k->request, REQUEST_MAX + 1, MSG_DONTWAIT);
    if (length < 0 && (errno == EAGAIN || errno == EINTR))
        return true;
    if (length <= 0) {
        close_client(d, index);
        return false;
    }
    k->request[length] = '\0';
    d->counts.requests++;
    k->used[index] = ++k->uses;
    budget_begin(&d->budget);
    waits = requests_answer(d, &t, index, k->request, (size_t)length);
    budget_end(d, index, requests_loads(k->request, (size_t)length));
    explicit_bzero(k->request, (size_t)length); /* it may be a key */
    return (waits && waits_keep(d, index, k->answer, t.length)) || control_send(d, index, k->answer, t.length);
}
