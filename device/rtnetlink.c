/* LINK goes up and down, changes and ends: what rtnetlink reports in LINK's namespace. TAP can be in another one, so
 * its file says what becomes of it.
 *
 * The system drops reports while the socket's queue is full, and also the answer to a question. So a question is asked
 * when the queue is empty, and each second, whatever was reported. */
#include "device.h"
#include <linux/netlink.h>
#include <linux/rtnetlink.h>

/* The most messages of one call, so that frames go on beside a busy system; and the seconds between two looks. */
enum { MESSAGES = 256, LOOKS = 8 };

/* The number by which an answer is known. A report has 0. */
enum { ANSWER = 1 };

bool rtnetlink_ask(int socket, uint16_t flags, int index) {
    const struct {
        struct nlmsghdr header;
        struct ifinfomsg about;
    } request = { { .nlmsg_len = sizeof request,
                    .nlmsg_type = RTM_GETLINK,
                    .nlmsg_flags = NLM_F_REQUEST | flags,
                    .nlmsg_seq = ANSWER },
                  { .ifi_family = AF_UNSPEC, .ifi_index = index } };
    return TEMP_FAILURE_RETRY(send(socket, &request, sizeof request, 0)) == (ssize_t)sizeof request;
}

/* Asks for LINK's state. The answer is read as a report is. Without memory the question is asked again in a second. */
static bool ask(const struct device *d) {
    if (rtnetlink_ask(d->rtnetlink.socket, 0, d->link.index) || errno == ENOBUFS || errno == ENOMEM || errno == EAGAIN)
        return true;
    message_of_errno("rtnetlink");
    return false;
}

static void note_link_up(struct device *d, unsigned flags) {
    bool up = (flags & IFF_UP) != 0 && (flags & IFF_RUNNING) != 0;
    if (up == d->link.up)
        return;
    d->link.up = up;
    port_set_carrier(d);
    message("LINK %s is %s", d->link.name, up ? "up" : "down");
}

/* Without capabilities macsecd can't change the MTU of TAP: it says what it should be. */
static void note_link_mtu(struct device *d, uint32_t mtu) {
    uint32_t fits;
    if (mtu == d->link.mtu)
        return;
    d->link.mtu = mtu;
    fits = tap_mtu(mtu, d->config.max_frame);
    message("the MTU of LINK %s is %u now, so that of TAP should be %u: ip link set %s mtu %u", d->link.name,
            (unsigned)mtu, (unsigned)fits, d->tap.name, (unsigned)fits);
}

/* An operator or a bridge can give LINK or TAP another address. */
static void note_address(struct device *d, const uint8_t *address, size_t length) {
    if (length != sizeof d->link.address || memcmp(address, d->link.address, length) == 0)
        return;
    memcpy(d->link.address, address, length);
    link_make_promiscuous(&d->link);
}

/* Nobody reports that a program has changed TAP's address or its carrier, or has made a tunnel over LINK. */
bool rtnetlink_tick(struct device *d) {
    uint8_t address[6];
    if (tap_address(&d->tap, address) && memcmp(address, d->link.address, sizeof address) != 0)
        link_make_promiscuous(&d->link);
    if (d->history.seconds % LOOKS == 0)
        over_look(d);
    port_set_carrier(d);
    return ask(d);
}

static void note_attributes(struct device *d, const struct ifinfomsg *about, int left) {
    for (const struct rtattr *a = IFLA_RTA(about); RTA_OK(a, left); a = RTA_NEXT(a, left)) {
        if (a->rta_type == IFLA_ADDRESS)
            note_address(d, RTA_DATA(a), RTA_PAYLOAD(a));
        if (a->rta_type == IFLA_MTU && RTA_PAYLOAD(a) == sizeof(uint32_t))
            note_link_mtu(d, *(const uint32_t *)RTA_DATA(a));
    }
}

/* Reads one report. Returns false if it says that LINK is gone. That also comes when LINK is moved to another
 * namespace. What is made over LINK is a change of LINK. */
static bool read_report(struct device *d, const struct nlmsghdr *header) {
    const struct ifinfomsg *about = NLMSG_DATA(header);
    if (header->nlmsg_type == RTM_NEWADDR && header->nlmsg_len >= NLMSG_LENGTH(sizeof(struct ifaddrmsg)))
        over_note_address(d, NLMSG_DATA(header));
    if (header->nlmsg_len < NLMSG_LENGTH(sizeof *about) ||
        (header->nlmsg_type != RTM_NEWLINK && header->nlmsg_type != RTM_DELLINK) ||
        about->ifi_family != AF_UNSPEC) /* that of a bridge, which reports a device that leaves it, is another one */
        return true;
    if (header->nlmsg_type == RTM_NEWLINK)
        over_note(d, about, (int)IFLA_PAYLOAD(header));
    if (about->ifi_index != d->link.index)
        return true;
    if (header->nlmsg_seq != ANSWER)
        over_look(d);
    if (header->nlmsg_type == RTM_DELLINK) {
        message("LINK %s was deleted or moved", d->link.name);
        return false;
    }
    note_attributes(d, about, (int)IFLA_PAYLOAD(header));
    note_link_up(d, about->ifi_flags);
    return true;
}

/* The answer to a question about a device that is not there. For want of memory the question is asked again. */
static bool read_error(const struct nlmsghdr *header) {
    const struct nlmsgerr *error = NLMSG_DATA(header);
    if (header->nlmsg_len < NLMSG_LENGTH(sizeof *error) || error->error == 0 || error->error == -ENOBUFS ||
        error->error == -ENOMEM)
        return true;
    errno = error->error < -INT32_MAX ? EPROTO : -error->error; /* the lowest number has no negation */
    message_of_errno("LINK is gone");
    return false;
}

static bool read_reports(struct device *d, int left) {
    const struct nlmsghdr *it = (const struct nlmsghdr *)d->rtnetlink.buffer;
    for (; left > 0 && NLMSG_OK(it, (unsigned)left); it = NLMSG_NEXT(it, left))
        if (it->nlmsg_type == NLMSG_ERROR ? !read_error(it) : !read_report(d, it))
            return false;
    return true;
}

ssize_t rtnetlink_message(struct rtnetlink *f, int socket) {
    struct sockaddr_nl from = { .nl_pid = UINT32_MAX }; /* nobody's, until the system names the sender */
    socklen_t room = sizeof from;
    ssize_t length = TEMP_FAILURE_RETRY(
        recvfrom(socket, f->buffer, sizeof f->buffer, MSG_DONTWAIT, (struct sockaddr *)&from, &room));
    return length > 0 && from.nl_pid != 0 ? 0 : length;
}

bool rtnetlink_read(struct device *d) {
    for (int i = 0; i < MESSAGES; i++) {
        ssize_t length = rtnetlink_message(&d->rtnetlink, d->rtnetlink.socket);
        if (length >= 0) {
            if (!read_reports(d, (int)length))
                return false;
        } else if (errno == ENOBUFS) {
            d->rtnetlink.lost = true;
        } else if (errno != EAGAIN) {
            message_of_errno("rtnetlink");
            return false;
        } else if (!d->rtnetlink.lost) {
            return true;
        } else { /* the queue is empty now */
            d->rtnetlink.lost = false;
            if (!ask(d))
                return false;
        }
    }
    return true;
}

int rtnetlink_open(struct device *d) {
    const unsigned groups = RTMGRP_LINK | RTMGRP_IPV4_IFADDR | RTMGRP_IPV6_IFADDR;
    struct sockaddr_nl address = { .nl_family = AF_NETLINK, .nl_groups = groups };
    d->rtnetlink.socket = socket(AF_NETLINK, SOCK_RAW | SOCK_NONBLOCK | SOCK_CLOEXEC, NETLINK_ROUTE);
    if (d->rtnetlink.socket >= 0 && bind(d->rtnetlink.socket, (const struct sockaddr *)&address, sizeof address) == 0)
        return 0;
    return message_of_errno("rtnetlink");
}

int rtnetlink_begin(struct device *d) {
    over_look(d);
    return ask(d) && rtnetlink_read(d) ? 0 : ENDS_FAILED;
}
