/* TAP: the network device of the client, this host's network stack. */
#include "frames.h"
#include "text.h"
#include <limits.h>
#include <linux/if_arp.h>
#include <linux/if_ether.h>
#include <linux/if_tun.h>

/* TUN_F_USO4 and TUN_F_USO6, which older headers lack. */
enum { DATAGRAMS = 0x20 | 0x40 };

uint32_t tap_mtu(uint32_t link_mtu, uint32_t max_frame) {
    uint32_t most = link_max_frame(link_mtu), frame = max_frame < most ? max_frame : most;
    return frame < ETH_HLEN + MACSEC_OVERHEAD_MAX ? 0 : frame - ETH_HLEN - MACSEC_OVERHEAD_MAX;
}

static struct ifreq request_of(const struct tap *t) {
    struct ifreq request;
    memset(&request, 0, sizeof request);
    memcpy(request.ifr_name, t->name, IF_NAMESIZE);
    return request;
}

/* Attaches the file to TAP, which is made if it is not there. Root and macsecd's user may have TAP. Another one has it
 * since it had no owner, and loses it only if it is deleted. */
static int attach(struct tap *t, const struct config *c, uid_t user) {
    struct ifreq request;
    memcpy(t->name, c->tap, IF_NAMESIZE);
    request = request_of(t);
    request.ifr_flags = IFF_TAP | IFF_NO_PI | IFF_VNET_HDR;
    if (ioctl(t->file, TUNSETIFF, &request) == 0) {
        tap_set_carrier(t, false); /* until LINK is up, which rtnetlink_read finds out */
        return 0;
    }
    if (errno == EBUSY)
        return holder_say(t, user) ? ENDS_FAILED : ENDS_TAKEN;
    if (errno != EINVAL)
        return message_of_errno("TAP %s can't be made or attached to", t->name);
    message("TAP %s: the device of this name is no TAP with one queue: delete it, or name another by `device tap`",
            t->name);
    return ENDS_FAILED;
}

/* Can a group have TAP? The system has no call that takes a group away. */
static bool has_group(const char *name) {
    char path[64];
    long group = -1;
    FILE *file;
    snprintf(path, sizeof path, "/sys/class/net/%s/group", name);
    file = fopen(path, "re");
    if (file != NULL && fscanf(file, "%ld", &group) != 1)
        group = -1;
    if (file != NULL)
        (void)fclose(file); /* it was only read */
    return group >= 0;
}

/* A user who had TAP before it had an owner can have left filters, a limit, another form of what is said about a frame,
 * and another type, which stay when the file is closed. A system that lacks one of these calls has nothing to undo. */
static int undo(const struct tap *t) {
    const struct tun_filter all = { .flags = 0, .count = 0 };
    const int most = INT_MAX, no_program = -1, about = sizeof(struct virtio_net_hdr), little_endian = 1;
    struct ifreq request = request_of(t);
    (void)ioctl(t->file, TUNSETTXFILTER, &all);
    (void)ioctl(t->file, TUNSETSNDBUF, &most);
    (void)ioctl(t->file, TUNSETSTEERINGEBPF, &no_program);
    (void)ioctl(t->file, TUNSETFILTEREBPF, &no_program);
    (void)ioctl(t->file, TUNSETVNETHDRSZ, &about);
    (void)ioctl(t->file, TUNSETVNETLE, &little_endian);
    if (ioctl(t->file, SIOCGIFHWADDR, &request) == 0 &&
        (request.ifr_hwaddr.sa_family == ARPHRD_ETHER || ioctl(t->file, TUNSETLINK, (unsigned long)ARPHRD_ETHER) == 0))
        return 0;
    message_of_errno("TAP %s can't be made an Ethernet device", t->name);
    return ENDS_TAKEN;
}

/* Without an owner every user can attach to TAP while macsecd does not run, and read and send frames in clear. */
static int set_owner(const struct tap *t, const struct config *c) {
    if (ioctl(t->file, TUNSETOWNER, (unsigned long)c->user) == 0 &&
        (!has_group(t->name) || ioctl(t->file, TUNSETGROUP, (unsigned long)c->user_group) == 0))
        return undo(t);
    return message_of_errno("TAP %s: its owner", t->name);
}

int tap_own(const struct config *c, uid_t user) {
    struct tap t = { .file = open("/dev/net/tun", O_RDWR | O_CLOEXEC) };
    int result;
    if (t.file < 0)
        return message_of_errno("/dev/net/tun");
    result = attach(&t, c, user);
    if (result == 0)
        result = set_owner(&t, c);
    (void)close(t.file); /* which detaches it */
    return result;
}

/* Gives TAP LINK's address, as the system's own MACsec devices have it: a LINK that filters by address then passes the
 * frames for TAP. The MTU leaves space for what the endpoint adds. */
static int set_properties(const struct tap *t, const struct config *c, const struct link *l) {
    struct ifreq request = request_of(t);
    request.ifr_hwaddr.sa_family = ARPHRD_ETHER;
    memcpy(request.ifr_hwaddr.sa_data, l->address, sizeof l->address);
    if (ioctl(t->file, SIOCSIFHWADDR, &request) != 0)
        return message_of_errno("TAP %s: its address", t->name);
    if (!c->shared)
        return 0;
    request = request_of(t);
    request.ifr_mtu = (int)tap_mtu(l->mtu, c->max_frame);
    return ioctl(l->socket, SIOCSIFMTU, &request) == 0 ? 0 : message_of_errno("TAP %s: its MTU", t->name);
}

/* What is done with a TAP that TUNSETIFF has made. Its MTU can be set in the host's namespace alone, so `macsec-link`
 * makes the TAP of an isolated LINK. */
static int persist(const struct tap *t, const struct config *c) {
    if (!c->shared) {
        message("TAP %s is not there: `macsec-link isolate` makes it", t->name);
        return ENDS_FAILED;
    }
    return c->transient || ioctl(t->file, TUNSETPERSIST, 1UL) == 0 ? 0 : message_of_errno("TAP %s", t->name);
}

/* Lets the client leave checksums, and to divide what it sends, to macsecd: then one call reads many segments. Systems
 * before Linux 6.2 do so for TCP alone. */
static int set_offload(struct tap *t, bool joins) {
    const unsigned long tcp = TUN_F_CSUM | TUN_F_TSO4 | TUN_F_TSO6 | TUN_F_TSO_ECN;
    t->joins = joins;
    t->datagrams = joins && ioctl(t->file, TUNSETOFFLOAD, tcp | DATAGRAMS) == 0;
    return t->datagrams ? 0 : ioctl(t->file, TUNSETOFFLOAD, joins ? tcp : 0UL);
}

int tap_open(struct tap *t, const struct config *c, const struct link *l) {
    struct ifreq request;
    if (attach(t, c, geteuid()) != 0 || set_owner(t, c) != 0)
        return ENDS_FAILED;
    request = request_of(t);
    if (set_offload(t, !c->single) != 0 || ioctl(t->file, TUNGETIFF, &request) != 0)
        return message_of_errno("TAP %s", t->name);
    if ((request.ifr_flags & IFF_PERSIST) == 0 && persist(t, c) != 0)
        return ENDS_FAILED;
    return set_properties(t, c, l);
}

enum outcome tap_read(struct tap *t, struct frame *frame) {
    struct unfinished u;
    ssize_t length;
    if (segments_next(&t->rest, frame))
        return DONE;
    length = TEMP_FAILURE_RETRY(read(t->file, &t->buffer, sizeof t->buffer));
    if (length < (ssize_t)sizeof t->buffer.about)
        return length < 0 && is_gone(errno) ? GONE : BUSY;
    u = segments_unfinished(&t->buffer.about, t->buffer.octets, (size_t)length - sizeof t->buffer.about);
    segments_begin(&t->rest, &u);
    return segments_next(&t->rest, frame) ? DONE : BUSY;
}

enum outcome tap_flush(struct tap *t, struct counts *c) {
    unsigned frames = t->joined.count;
    size_t length;
    if (frames == 0)
        return DONE;
    length = segments_finish(&t->joined);
    if (TEMP_FAILURE_RETRY(write(t->file, &t->joined.whole, length)) >= 0) {
        c->tap_out += frames;
        return DONE;
    }
    c->tap_refused += frames;
    return is_gone(errno) ? GONE : DONE;
}

enum outcome tap_write(struct tap *t, const uint8_t *octets, size_t length, struct counts *c) {
    enum outcome outcome;
    if (segments_join(&t->joined, octets, length))
        return DONE;
    outcome = tap_flush(t, c);
    segments_keep(&t->joined, octets, length, t->joins, t->datagrams);
    return outcome == DONE && t->joined.closed ? tap_flush(t, c) : outcome;
}

bool tap_address(const struct tap *t, uint8_t address[6]) {
    struct ifreq request = request_of(t);
    if (ioctl(t->file, SIOCGIFHWADDR, &request) != 0)
        return false;
    memcpy(address, request.ifr_hwaddr.sa_data, 6);
    return true;
}

void tap_set_carrier(struct tap *t, bool on) {
    int value = on;
    if (ioctl(t->file, TUNSETCARRIER, &value) != 0)
        message_of_errno("TAP %s: its carrier", t->name);
}
