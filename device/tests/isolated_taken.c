/* What a macsecd that was taken over tries. device/tests/isolated links it into macsecd, which calls it once its rights
 * are gone. */
#include "device.h"
#include <linux/if_packet.h>
#include <linux/if_tun.h>
#include <linux/sockios.h>
#include <sched.h>
#include <sys/un.h>

enum { INDEXES = 100 };

/* A broadcast of an EtherType for experiments, after the ten octets that LINK's socket expects before a frame. */
static uint8_t frame[70] = { [10] = 0xff, 0xff, 0xff, 0xff, 0xff, 0xff, 2,   2,   2,   2,
                             2,           2,    0x88, 0xb5, 's',  't',  'o', 'l', 'e', 'n' };

/* Not by message(), which limits how often one is printed. */
static void say(const char *call, int index, long result) {
    char line[80];
    int length = snprintf(line, sizeof line, "macsecd: taken %s %d %d\n", call, index, result < 0 ? errno : 0);
    if (write(STDERR_FILENO, line, (size_t)length) != length)
        abort();
}

/* The journal's thread may write to no such file, but it may pwrite: the log is opened to append, so at its end. */
static void say_by_journal(const char *call, int index, long result) {
    char line[80];
    int length = snprintf(line, sizeof line, "macsecd: taken %s %d %d\n", call, index, result < 0 ? errno : 0);
    if (pwrite(STDERR_FILENO, line, (size_t)length, 0) != length)
        abort();
}

/* Frames by each device, and each device made to pass frames to any address. */
static void try_devices(int socket) {
    for (int index = 1; index <= INDEXES; index++) {
        struct sockaddr_ll to = { .sll_family = AF_PACKET, .sll_protocol = 8, .sll_ifindex = index, .sll_halen = 6 };
        struct iovec part = { frame, sizeof frame };
        struct mmsghdr header = { .msg_hdr = { &to, sizeof to, &part, 1, NULL, 0, 0 } };
        struct packet_mreq join = { .mr_ifindex = index, .mr_type = PACKET_MR_PROMISC };
        say("sendmmsg", index, sendmmsg(socket, &header, 1, 0));
        say("join", index, setsockopt(socket, SOL_PACKET, PACKET_ADD_MEMBERSHIP, &join, sizeof join));
    }
}

/* The journal and the control socket of another instance, by the thread that writes the journal. */
void taken_files(void) {
    const char *what = getenv("TAKEN"), *journal = getenv("JOURNAL"), *control = getenv("CONTROL");
    if (what == NULL || strcmp(what, "files") != 0)
        return;
    say_by_journal("openat", 0, openat(AT_FDCWD, journal, O_RDONLY));
    say_by_journal("openat", 1, openat(AT_FDCWD, journal, O_RDWR));
    say_by_journal("unlinkat", 0, unlinkat(AT_FDCWD, journal, 0));
    say_by_journal("unlinkat", 1, unlinkat(AT_FDCWD, control, 0));
}

/* The socket of the service manager. */
int taken_manager = -1;

/* What a thread without sockets tries once it is confined, and the one that has this socket. */
void taken_thread(const char *thread) {
    const struct sockaddr_un other = { .sun_family = AF_UNIX };
    const char *what = getenv("TAKEN");
    if (what == NULL || strcmp(what, thread) != 0)
        return;
    if (strcmp(what, "service") != 0)
        (void)!write(taken_manager, "STATUS=no", 9);
    else
        (void)sendto(taken_manager, "STATUS=no", 9, 0, (const struct sockaddr *)&other, sizeof other);
}

/* The socket of the service manager, which could send to other programs: EVIL names another one. */
static void try_manager(const char *what, int socket) {
    struct sockaddr_un evil = { .sun_family = AF_UNIX };
    struct iovec part = { "STATUS=no", 9 };
    struct mmsghdr header = { .msg_hdr = { &evil, sizeof evil, &part, 1, NULL, 0, 0 } };
    strncpy(evil.sun_path, getenv("EVIL"), sizeof evil.sun_path - 1);
    if (strcmp(what, "write") == 0)
        say(what, 0, write(socket, "STATUS=no", 9));
    else if (strcmp(what, "send") == 0)
        say(what, 0, send(socket, "STATUS=no", 9, 0));
    else if (strcmp(what, "sendmmsg") == 0)
        say(what, 0, sendmmsg(socket, &header, 1, 0));
    else
        say(what, 0, sendto(socket, "STATUS=no", 9, 0, (struct sockaddr *)&evil, sizeof evil));
}

void taken(struct device *d) {
    const char *what = getenv("TAKEN");
    struct sockaddr_ll to = { .sll_family = AF_PACKET, .sll_protocol = 8, .sll_ifindex = 1, .sll_halen = 6 };
    if (getenv("EVIL") != NULL)
        try_manager(what, d->service.socket);
    else if (strcmp(what, "sendto") == 0)
        say(what, 0, sendto(d->link.socket, frame, sizeof frame, 0, (struct sockaddr *)&to, sizeof to));
    else if (strcmp(what, "devices") == 0)
        try_devices(d->link.socket);
    else if (strcmp(what, "openat") == 0)
        say(what, 0, openat(AT_FDCWD, "/etc/passwd", O_RDONLY));
    else if (strcmp(what, "setns") == 0)
        say(what, 0, setns(d->tap.file, CLONE_NEWNET));
    else if (strcmp(what, "unshare") == 0)
        say(what, 0, unshare(CLONE_NEWNET));
    else if (strcmp(what, "socket") == 0)
        say(what, 0, socket(AF_INET, SOCK_DGRAM, 0));
    else if (strcmp(what, "bind") == 0)
        say(what, 0, bind(d->link.socket, NULL, 0));
    else if (strcmp(what, "SIOCGSKNS") == 0)
        say(what, 0, ioctl(d->tap.file, SIOCGSKNS));
    else if (strcmp(what, "TUNGETDEVNETNS") == 0)
        say(what, 0, ioctl(d->tap.file, TUNGETDEVNETNS));
    else if (strcmp(what, "TUNSETIFF") == 0)
        say(what, 0, ioctl(d->tap.file, TUNSETIFF, frame));
}
