/* Devices over LINK, by which frames pass without MACsec. A program with CAP_NET_ADMIN can make one from another
 * namespace. The system reports in LINK's namespace that something changed, and names the device in the device's own.
 * So macsecd then asks for the devices of the host's namespace, and every few seconds, since of a tunnel over LINK's
 * namespace nothing is reported. It sees none in a third one. */
#include "device.h"
#include <ctype.h>
#include <linux/net_namespace.h>
#include <linux/netlink.h>
#include <linux/rtnetlink.h>

/* The most messages that are read in one call. */
enum { MESSAGES = 64 };

/* The attribute of this number, or NULL if there is none. */
static const struct rtattr *find(const struct rtattr *a, int left, unsigned short number) {
    for (; RTA_OK(a, left); a = RTA_NEXT(a, left))
        if ((a->rta_type & NLA_TYPE_MASK) == number)
            return a;
    return NULL;
}

static int32_t number_of(const struct rtattr *a, int left, unsigned short number) {
    const struct rtattr *found = find(a, left, number);
    return found == NULL || RTA_PAYLOAD(found) < sizeof(int32_t) ? -1 : *(const int32_t *)RTA_DATA(found);
}

/* A veth device names its peer, which it is not over. */
static bool is_veth(const struct rtattr *a, int left) {
    const struct rtattr *about = find(a, left, IFLA_LINKINFO);
    const struct rtattr *kind = about == NULL ? NULL : find(RTA_DATA(about), (int)RTA_PAYLOAD(about), IFLA_INFO_KIND);
    return kind != NULL && RTA_PAYLOAD(kind) >= sizeof "veth" && strcmp(RTA_DATA(kind), "veth") == 0;
}

/* Who made the device chose its name. */
static void copy_name(const struct rtattr *a, int left, char name[IF_NAMESIZE]) {
    const struct rtattr *found = find(a, left, IFLA_IFNAME);
    const char *its = found == NULL ? "" : RTA_DATA(found);
    size_t length = found == NULL ? 0 : strnlen(its, RTA_PAYLOAD(found)), i = 0;
    for (; i < length && i < IF_NAMESIZE - 1; i++)
        name[i] = isgraph((unsigned char)its[i]) ? its[i] : '?';
    name[i] = '\0';
}

static void say(struct device *d, const char *name, const char *where) {
    d->counts.link_over++;
    message("%s of %s is over LINK %s: programs can receive frames of LINK by it, and send such, without MACsec", name,
            where, d->link.name);
}

void over_note(struct device *d, const struct ifinfomsg *about, int left) {
    const struct rtattr *a = IFLA_RTA(about);
    char name[IF_NAMESIZE];
    bool is_link = about->ifi_index == d->link.index;
    int32_t other = number_of(a, left, is_link ? IFLA_MASTER : IFLA_LINK);
    int index = is_link ? other : about->ifi_index;
    if (d->over.socket < 0 || index <= 0 || index == d->over.last || (!is_link && other != d->link.index) ||
        is_veth(a, left))
        return;
    d->over.last = index;
    copy_name(a, left, name);
    say(d, is_link ? "a bridge or the like" : name, "LINK's namespace");
}

void over_note_address(struct device *d, const struct ifaddrmsg *about) {
    if (d->over.socket < 0 || (int)about->ifa_index != d->link.index)
        return;
    d->counts.link_over++;
    message("LINK %s has an address: programs of its namespace can use it without MACsec", d->link.name);
}

/* ---- The host's namespace ---- */

/* Which number has LINK's namespace there? */
static void ask_number(struct over *o) {
    const struct {
        struct nlmsghdr header;
        struct rtgenmsg about;
        uint8_t filling[NLMSG_ALIGN(sizeof(struct rtgenmsg)) - sizeof(struct rtgenmsg)];
        struct rtattr attribute;
        int32_t process;
    } request = { { .nlmsg_len = sizeof request, .nlmsg_type = RTM_GETNSID, .nlmsg_flags = NLM_F_REQUEST },
                  { .rtgen_family = AF_UNSPEC },
                  { 0 },
                  { .rta_len = RTA_LENGTH(sizeof(int32_t)), .rta_type = NETNSA_PID },
                  o->process };
    o->due = false; /* if it is not asked, it is in a second again */
    o->asked = TEMP_FAILURE_RETRY(send(o->socket, &request, sizeof request, 0)) == (ssize_t)sizeof request;
}

void over_look(struct device *d) {
    struct over *o = &d->over;
    if (o->socket < 0)
        return;
    o->due = true;
    if (!o->asked)
        ask_number(o);
}

/* All devices were named. */
static void finish(struct over *o) {
    o->known = o->found;
    o->found = 0;
    o->asked = false;
    if (o->due)
        ask_number(o);
}

static void take_device(struct device *d, const struct nlmsghdr *header) {
    const struct ifinfomsg *about = NLMSG_DATA(header);
    int left = (int)IFLA_PAYLOAD(header);
    char name[IF_NAMESIZE];
    if (header->nlmsg_len < NLMSG_LENGTH(sizeof *about) ||
        number_of(IFLA_RTA(about), left, IFLA_LINK_NETNSID) != d->over.number || is_veth(IFLA_RTA(about), left))
        return;
    if (++d->over.found <= d->over.known)
        return;
    copy_name(IFLA_RTA(about), left, name);
    say(d, name, "the host's namespace");
}

static void take(struct device *d, const struct nlmsghdr *header) {
    struct over *o = &d->over;
    const struct rtattr *a = (const void *)((const char *)NLMSG_DATA(header) + NLMSG_ALIGN(sizeof(struct rtgenmsg)));
    if (header->nlmsg_type == RTM_NEWLINK) {
        take_device(d, header);
    } else if (header->nlmsg_type == RTM_NEWNSID && header->nlmsg_len >= NLMSG_LENGTH(sizeof(struct rtgenmsg))) {
        o->number = number_of(a, (int)NLMSG_PAYLOAD(header, NLMSG_ALIGN(sizeof(struct rtgenmsg))), NETNSA_NSID);
        if (o->number < 0)
            finish(o); /* no device refers to it */
        else
            o->asked = rtnetlink_ask(o->socket, NLM_F_DUMP, 0);
    } else if (header->nlmsg_type == NLMSG_DONE || header->nlmsg_type == NLMSG_ERROR) {
        finish(o);
    }
}

void over_read(struct device *d) {
    for (int i = 0; i < MESSAGES; i++) {
        const struct nlmsghdr *it = (const struct nlmsghdr *)d->rtnetlink.buffer;
        ssize_t length = rtnetlink_message(&d->rtnetlink, d->over.socket);
        if (length < 0)
            return; /* there is none; where the system has no memory, the look goes on at the next report */
        for (int left = (int)length; left > 0 && NLMSG_OK(it, (unsigned)left); it = NLMSG_NEXT(it, left))
            take(d, it);
    }
}

int over_open(struct over *o, bool is_isolated) {
    o->socket = is_isolated ? socket(AF_NETLINK, SOCK_RAW | SOCK_NONBLOCK | SOCK_CLOEXEC, NETLINK_ROUTE) : -1;
    o->process = getpid();
    return !is_isolated || o->socket >= 0 ? 0 : message_of_errno("rtnetlink");
}
