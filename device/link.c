/* LINK: the network device below, by a packet socket. */
#include "frames.h"
#include <arpa/inet.h>
#include <linux/if_arp.h>
#include <net/ethernet.h>

/* Octets of a VLAN tag, and where it is in a frame. */
enum { TAG = 4, TAG_AT = 12 };

/* The octets that the socket can hold until macsecd reads them: some 2,000 frames of the usual length. */
enum { BUFFER = 4 << 20 };

static int set(const struct link *l, int option, const void *value, socklen_t length, const char *what) {
    return setsockopt(l->socket, SOL_PACKET, option, value, length) == 0 ? 0 : message_of_errno("LINK: %s", what);
}

static int join(const struct link *l, unsigned short type, const char *what) {
    struct packet_mreq request = { .mr_ifindex = l->index, .mr_type = type };
    return set(l, PACKET_ADD_MEMBERSHIP, &request, sizeof request, what);
}

/* With CAP_NET_ADMIN the buffer may be larger than what the system allows to all. */
static void set_buffer(int socket) {
    int octets = BUFFER;
    if (setsockopt(socket, SOL_SOCKET, SO_RCVBUFFORCE, &octets, sizeof octets) != 0)
        (void)setsockopt(socket, SOL_SOCKET, SO_RCVBUF, &octets, sizeof octets); /* LinkLost counts what it loses */
    if (setsockopt(socket, SOL_SOCKET, SO_SNDBUFFORCE, &octets, sizeof octets) != 0)
        (void)setsockopt(socket, SOL_SOCKET, SO_SNDBUF, &octets, sizeof octets); /* more calls are needed */
}

int link_type(int any, const char *name, uint8_t address[6], uint32_t *mtu) {
    struct ifreq request;
    int type;
    memset(&request, 0, sizeof request);
    memcpy(request.ifr_name, name, strnlen(name, IF_NAMESIZE - 1));
    if (ioctl(any, SIOCGIFHWADDR, &request) != 0)
        return -1;
    type = request.ifr_hwaddr.sa_family;
    memcpy(address, request.ifr_hwaddr.sa_data, 6);
    if (ioctl(any, SIOCGIFMTU, &request) != 0)
        return -1;
    *mtu = (uint32_t)request.ifr_mtu;
    return type;
}

static int read_properties(struct link *l) {
    int type = link_type(l->socket, l->name, l->address, &l->mtu);
    if (type < 0)
        return message_of_errno("LINK %s: its address and its MTU", l->name);
    return type == ARPHRD_ETHER ? 0 : message_wrong("LINK %s is not an Ethernet device", l->name);
}

int link_open(struct link *l, const char *name) {
    struct sockaddr_ll address = { .sll_family = AF_PACKET, .sll_protocol = htons(ETH_P_ALL) };
    const int one = 1;
    memcpy(l->name, name, IF_NAMESIZE); /* no protocol before bind, and so no frame of another device */
    l->socket = socket(AF_PACKET, SOCK_RAW | SOCK_NONBLOCK | SOCK_CLOEXEC, 0);
    if (l->socket < 0)
        return message_of_errno("LINK %s: packet socket", name);
    l->index = (int)if_nametoindex(name); /* 0 would mean all devices */
    if (l->index == 0)
        return message_of_errno("LINK %s", name);
    set_buffer(l->socket);
    RETURN_IF_FAILED(read_properties(l));
    RETURN_IF_FAILED(set(l, PACKET_AUXDATA, &one, sizeof one, "auxiliary data"));
    RETURN_IF_FAILED(set(l, PACKET_VNET_HDR, &one, sizeof one, "what frames lack"));
    RETURN_IF_FAILED(set(l, PACKET_IGNORE_OUTGOING, &one, sizeof one, "ignoring sent frames"));
    RETURN_IF_FAILED(join(l, PACKET_MR_ALLMULTI, "all multicast frames"));
    address.sll_ifindex = l->index;
    if (bind(l->socket, (const struct sockaddr *)&address, sizeof address) == 0)
        return 0;
    return message_of_errno("LINK %s: bind", name);
}

uint32_t link_max_frame(uint32_t mtu) {
    return mtu < MACSEC_FRAME_MAX - ETHER_HDR_LEN ? mtu + ETHER_HDR_LEN : MACSEC_FRAME_MAX;
}

void link_make_promiscuous(struct link *l) {
    if (l->promiscuous || join(l, PACKET_MR_PROMISC, "promiscuous mode") != 0)
        return;
    l->promiscuous = true;
    message("LINK %s passes frames to any address now, since TAP has another address than LINK", l->name);
}

/* Reads the data about a frame. Returns false if the system took no VLAN tag out of it. */
static bool vlan_tag(struct msghdr *header, uint8_t tag[TAG]) {
    for (struct cmsghdr *c = CMSG_FIRSTHDR(header); c != NULL; c = CMSG_NXTHDR(header, c)) {
        struct tpacket_auxdata data;
        uint16_t protocol, control;
        if (c->cmsg_level != SOL_PACKET || c->cmsg_type != PACKET_AUXDATA || c->cmsg_len < CMSG_LEN(sizeof data))
            continue;
        memcpy(&data, CMSG_DATA(c), sizeof data);
        if ((data.tp_status & TP_STATUS_VLAN_VALID) == 0)
            return false;
        protocol = htons((data.tp_status & TP_STATUS_VLAN_TPID_VALID) != 0 ? data.tp_vlan_tpid : ETHERTYPE_VLAN);
        control = htons(data.tp_vlan_tci);
        memcpy(tag, &protocol, sizeof protocol);
        memcpy(tag + sizeof protocol, &control, sizeof control);
        return true;
    }
    return false;
}

static struct unfinished frame_of(struct received *r, size_t length, struct msghdr *header) {
    uint8_t tag[TAG];
    struct unfinished frame = segments_unfinished(&r->about, r->octets + TAG, length);
    if (length < TAG_AT || !vlan_tag(header, tag))
        return frame;
    memmove(r->octets, r->octets + TAG, TAG_AT);
    memcpy(r->octets + TAG_AT, tag, TAG);
    frame.octets = r->octets;
    frame.length += TAG;
    frame.sum_start = (uint16_t)(frame.sum_start + TAG);
    frame.sum_at = (uint16_t)(frame.sum_at + TAG);
    return frame;
}

/* Prepares the headers that the last call may have changed. */
static void prepare(struct link *l) {
    for (unsigned i = 0; i < BATCH - l->prepared; i++) {
        struct received *r = l->buffers[i] != NULL ? l->buffers[i] : &l->received[l->used++];
        l->buffers[i] = r;
        l->parts[i][0] = (struct iovec){ &r->about, sizeof r->about };
        l->parts[i][1] = (struct iovec){ r->octets + TAG, sizeof r->octets - TAG };
        l->headers[i] = (struct mmsghdr){ .msg_hdr = { .msg_iov = l->parts[i], .msg_iovlen = 2 } };
        l->headers[i].msg_hdr.msg_control = r->control;
        l->headers[i].msg_hdr.msg_controllen = sizeof r->control;
    }
}

enum outcome link_read(struct link *l, struct unfinished frames[BATCH], unsigned *count) {
    int got;
    prepare(l);
    *count = 0;
    got = TEMP_FAILURE_RETRY(recvmmsg(l->socket, l->headers, BATCH, MSG_DONTWAIT, NULL));
    l->prepared = got < 0 ? BATCH - 1 : got < BATCH ? BATCH - 1 - (unsigned)got : 0;
    if (got < 0) {
        l->unreadable += errno == EINVAL; /* segments of another protocol, or that a card has joined (LRO) */
        return is_gone(errno) ? GONE : BUSY;
    }
    for (int i = 0; i < got; i++)
        frames[i] =
            frame_of(l->buffers[i], l->headers[i].msg_len - sizeof l->buffers[i]->about, &l->headers[i].msg_hdr);
    *count = (unsigned)got;
    return DONE;
}

void link_keep(struct link *l, unsigned index, struct received **spare) {
    struct received *read = l->buffers[index];
    l->buffers[index] = *spare;
    *spare = read;
}

void link_count_lost(struct link *l, struct counts *c) {
    struct tpacket_stats lost;
    socklen_t length = sizeof lost;
    if (getsockopt(l->socket, SOL_PACKET, PACKET_STATISTICS, &lost, &length) == 0) /* it also resets them */
        c->link_lost += lost.tp_drops;
    c->link_lost += l->unreadable;
    l->unreadable = 0;
}

void link_append(struct link *l, const uint8_t *octets, size_t length, struct counts *c) {
    unsigned at = (l->first + l->waiting) % BATCH;
    if (l->waiting == BATCH) {
        c->link_refused++;
        return;
    }
    l->frames[at] = (struct iovec){ memcpy(l->copies[at], octets, length), length };
    l->waiting++;
}

void link_lend(struct link *l, uint8_t *octets, size_t length) {
    l->frames[(l->first + l->waiting++) % BATCH] = (struct iovec){ octets, length };
}

/* When none waits, the next one gets the memory that was used last, while caches have it. */
static void remove_waiting(struct link *l, unsigned count) {
    l->waiting -= count;
    l->first = l->waiting == 0 ? 0 : (l->first + count) % BATCH;
}

/* Sends what waits, as far as the system takes it. Nothing is left to a network card. Returns what sendmmsg does. */
static int send_waiting(struct link *l) {
    struct virtio_net_hdr complete = { .flags = 0 };
    struct mmsghdr headers[BATCH]; /* only those that are used are written */
    struct iovec parts[BATCH][2];
    for (unsigned i = 0; i < l->waiting; i++) {
        parts[i][0] = (struct iovec){ &complete, sizeof complete };
        parts[i][1] = l->frames[(l->first + i) % BATCH];
        headers[i] = (struct mmsghdr){ .msg_hdr = { .msg_iov = parts[i], .msg_iovlen = 2 } };
    }
    return sendmmsg(l->socket, headers, l->waiting, MSG_DONTWAIT);
}

enum outcome link_flush(struct link *l, struct counts *c) {
    while (l->waiting > 0) {
        int sent = send_waiting(l);
        if (sent > 0) {
            c->link_out += (unsigned)sent;
            remove_waiting(l, (unsigned)sent);
        } else if (errno == EAGAIN) {
            return BUSY;
        } else if (is_gone(errno)) {
            return GONE;
        } else if (errno != EINTR) {
            c->link_refused++; /* this frame alone: too long for LINK, LINK is down, or its queue is full */
            remove_waiting(l, 1);
        }
    }
    return DONE;
}
