/* The host's network namespace, which has TAP, and LINK's own. The host has no addresses in LINK's namespace, so its
 * programs get frames of LINK only through MACsec. The program `macsec-link` makes the namespace. */
#include "frames.h"
#include "text.h"
#include <linux/nsfs.h>
#include <linux/sockios.h>
#include <sched.h>

/* The first descriptor that a service manager passes. */
enum { PASSED = 3 };

const char *namespace_path(char path[NAMESPACE_PATH], const char *name) {
    snprintf(path, NAMESPACE_PATH, "/run/netns/macsec-%s", name);
    return path;
}

/* A file of /dev/net/tun belongs to the namespace in which it was opened. A service manager that starts macsecd in
 * LINK's namespace (OpenFile= of systemd) passes one of the host's. */
static int open_tun(void) {
    const char *process = getenv("LISTEN_PID"), *count = getenv("LISTEN_FDS");
    if (process == NULL || count == NULL || strtol(process, NULL, 10) != getpid() || strcmp(count, "1") != 0)
        return open("/dev/net/tun", O_RDWR | O_NONBLOCK | O_CLOEXEC);
    return fcntl(PASSED, F_SETFD, FD_CLOEXEC) == 0 && fcntl(PASSED, F_SETFL, O_NONBLOCK) == 0 ? PASSED : -1;
}

/* TAP must be in another namespace than LINK. It is not if its file was opened in LINK's, or if the namespace of this
 * name is the host's. */
static int check_tun(int tun, const char *path, const struct stat *wanted) {
    struct stat status;
    int file = ioctl(tun, SIOCGSKNS), result = file < 0 ? -1 : fstat(file, &status);
    if (file >= 0)
        (void)close(file); /* it was only looked at */
    if (result != 0)
        return message_of_errno("the network namespace of /dev/net/tun");
    if (!is_same_file(&status, wanted))
        return 0;
    return message_wrong("%s is the network namespace of /dev/net/tun too: start macsecd in that of the host", path);
}

/* Enters LINK's namespace, unless the process is there. */
static int enter(int file, const char *path, const char *name, struct stat *wanted) {
    struct stat own;
    if (ioctl(file, NS_GET_NSTYPE) != CLONE_NEWNET) {
        message("%s is no network namespace: `macsec-link isolate %s` makes it", path, name);
        return ENDS_FAILED;
    }
    if (fstat(file, wanted) == 0 && stat("/proc/self/ns/net", &own) == 0 &&
        (is_same_file(wanted, &own) || setns(file, CLONE_NEWNET) == 0))
        return 0;
    return message_of_errno("LINK's network namespace %s can't be entered", path);
}

/* Opens LINK's namespace, enters it, and sees that TAP is in another one. */
static int isolate(int tun, const char *name) {
    char path[NAMESPACE_PATH];
    struct stat wanted;
    int file, result;
    file = open(namespace_path(path, name), O_RDONLY | O_CLOEXEC | O_NONBLOCK);
    if (file < 0)
        return message_of_errno("LINK's network namespace %s, which `macsec-link isolate %s` makes", path, name);
    result = enter(file, path, name, &wanted);
    (void)close(file); /* it was only read */
    return result == 0 ? check_tun(tun, path, &wanted) : result;
}

int namespace_enter(struct tap *t, const struct config *c, const char *name) {
    t->file = open_tun();
    if (t->file < 0)
        return message_of_errno("/dev/net/tun");
    if (!c->shared)
        RETURN_IF_FAILED(isolate(t->file, name));
    return confine_namespace();
}
