/* The process that has TAP: /proc says of each file of /dev/net/tun which TAP it is attached to. Root sees the files of
 * all processes, and macsecd as another user at most its own. */
#include "frames.h"
#include <ctype.h>
#include <dirent.h>
#include <linux/if_tun.h>
#include <linux/sockios.h>
#include <sys/syscall.h>

enum { PATH = 64, TEXT = 512 };

static bool read_text(const char *path, char text[TEXT]) {
    int file = open(path, O_RDONLY | O_CLOEXEC);
    ssize_t length = file < 0 ? -1 : read(file, text, TEXT - 1);
    if (file >= 0)
        (void)close(file); /* it was only read */
    text[length > 0 ? length : 0] = '\0';
    return length > 0;
}

/* Is a file of a process attached to a TAP of this name? */
static bool names_tap(int process, int number, const char *name) {
    char path[PATH], text[TEXT], line[PATH];
    snprintf(path, sizeof path, "/proc/%d/fdinfo/%d", process, number);
    snprintf(line, sizeof line, "\niff:\t%s\n", name);
    return read_text(path, text) && strstr(text, line) != NULL;
}

/* Is the TAP of this name in another network namespace? If that can't be seen, the answer is no. The process may have
 * changed the file since it was looked at, so the copy is looked at too: no other file is asked. */
static bool is_elsewhere(int process, int number, const struct tap *t) {
    int files[] = { -1, -1, -1, -1 };
    struct stat here, there;
    bool is_other = false;
    files[0] = (int)syscall(SYS_pidfd_open, process, 0);
    if (files[0] >= 0)
        files[1] = (int)syscall(SYS_pidfd_getfd, files[0], number, 0);
    if (files[1] >= 0 && names_tap(getpid(), files[1], t->name)) {
        files[2] = ioctl(files[1], TUNGETDEVNETNS);
        files[3] = ioctl(t->file, SIOCGSKNS);
        is_other = files[2] >= 0 && files[3] >= 0 && fstat(files[2], &there) == 0 && fstat(files[3], &here) == 0 &&
                   !is_same_file(&there, &here);
    }
    for (size_t i = 0; i < sizeof files / sizeof *files; i++)
        if (files[i] >= 0)
            (void)close(files[i]);
    return is_other;
}

static bool has_tap(int process, const struct tap *t) {
    char path[PATH];
    const struct dirent *entry;
    bool found = false;
    DIR *files;
    snprintf(path, sizeof path, "/proc/%d/fdinfo", process);
    files = opendir(path);
    while (files != NULL && !found && (entry = readdir(files)) != NULL) {
        int number = atoi(entry->d_name);
        found = isdigit((unsigned char)entry->d_name[0]) && names_tap(process, number, t->name) &&
                !is_elsewhere(process, number, t);
    }
    if (files != NULL)
        (void)closedir(files);
    return found;
}

/* A process of which the name and the real user are known. */
struct holder {
    int process;
    uid_t user;
    char name[16];
};

/* A process chooses its name, which can have any octets but a line feed. */
static bool describe(struct holder *h, int process) {
    static const char before[] = "Name:\t", before_user[] = "\nUid:\t";
    char path[PATH], text[TEXT];
    const char *name = text + sizeof before - 1, *user;
    snprintf(path, sizeof path, "/proc/%d/status", process);
    if (!read_text(path, text) || (user = strstr(text, before_user)) == NULL)
        return false;
    h->process = process;
    h->user = (uid_t)strtoul(user + sizeof before_user - 1, NULL, 10);
    memset(h->name, 0, sizeof h->name);
    for (size_t i = 0; i < sizeof h->name - 1 && name[i] != '\n'; i++)
        h->name[i] = isprint((unsigned char)name[i]) ? name[i] : '?';
    return true;
}

bool holder_say(const struct tap *t, uid_t user) {
    struct holder h = { .process = 0 }, it;
    const struct dirent *entry;
    bool may = false;
    DIR *processes = opendir("/proc");
    while (processes != NULL && !may && (entry = readdir(processes)) != NULL) {
        int process = atoi(entry->d_name);
        if (process > 0 && has_tap(process, t) && describe(&it, process)) {
            h = it;
            may = h.user == 0 || h.user == user;
        }
    }
    if (processes != NULL)
        (void)closedir(processes);
    if (h.process == 0)
        message("TAP %s is in use", t->name);
    else
        message("TAP %s is in use by process %d (%s) of user %u", t->name, h.process, h.name, (unsigned)h.user);
    return may;
}
