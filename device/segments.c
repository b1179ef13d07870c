/* Frames that the system has not completed. Frames of a virtual device have no checksum yet, and several segments are
 * one frame of up to 64 KiB, since the sender leaves both to a network card that is not there. The system also joins
 * segments that a card has received. The endpoint wants frames as they are on a link, so they are divided.
 *
 * The other way, frames for TAP are joined, so that one call delivers many. A frame is joined to those before it if its
 * headers are those that dividing would write, octet for octet: dividing gives back the same frames. */
#include "frames.h"
#include <arpa/inet.h>
#include <emmintrin.h>

/* EtherTypes. */
enum { VLAN = 0x8100, PROVIDER_VLAN = 0x88a8, IPV4 = 0x0800, IPV6 = 0x86dd };
/* Octets of the header of IPv6, and the least ones of the others; protocols. */
enum { IPV4_MIN = 20, IPV6_HEADER = 40, TCP_MIN = 20, UDP_HEADER = 8, TCP = 6, UDP = 17 };
/* TCP: where the sequence number, the header's length, the flags and the checksum are; flags. And UDP's checksum. */
enum { SEQUENCE_AT = 4, OFFSET_AT = 12, FLAGS_AT = 13, TCP_SUM_AT = 16, UDP_SUM_AT = 6 };
enum { FIN = 0x01, PSH = 0x08, ACK = 0x10, ECE = 0x40, CWR = 0x80 };
/* VIRTIO_NET_HDR_GSO_UDP_L4, which older headers lack. What is joined has at most so many frames, which are the most
 * datagrams that older systems take, and so many octets, since IP has a length of 16 bits. */
enum { UDP_SEGMENTS = 5, JOINED_MAX = 64, LONGEST = 65535 };

static uint32_t get16(const uint8_t *at) {
    return (uint32_t)at[0] << 8 | at[1];
}

static void put16(uint8_t *at, uint32_t value) {
    at[0] = (uint8_t)(value >> 8);
    at[1] = (uint8_t)value;
}

static uint32_t fold(uint64_t sum) {
    while (sum >> 16 != 0)
        sum = (sum & 0xffff) + (sum >> 16);
    return (uint32_t)sum;
}

/* Adds octets to a sum of the Internet checksum. They begin at an even place of it. The order of octets in a number
 * changes only their order in the sum. Two numbers of eight octets are in a vector, which every x86-64 processor has.
 * They are added modulo 2^64, and their upper halves apart, so that no carry is lost. */
static uint32_t add(uint32_t sum, const uint8_t *octets, size_t length) {
    __m128i whole = _mm_setzero_si128(), upper = whole, a, b;
    uint64_t parts[2], last;
    for (; length >= sizeof a + sizeof b; octets += sizeof a + sizeof b, length -= sizeof a + sizeof b) {
        memcpy(&a, octets, sizeof a);
        memcpy(&b, octets + sizeof a, sizeof b);
        whole = _mm_add_epi64(whole, _mm_add_epi64(a, b));
        upper = _mm_add_epi64(upper, _mm_add_epi64(_mm_srli_epi64(a, 32), _mm_srli_epi64(b, 32)));
    }
    whole = _mm_add_epi64(upper, _mm_sub_epi64(whole, _mm_slli_epi64(upper, 32)));
    memcpy(parts, &whole, sizeof parts);
    parts[0] += parts[1];
    for (; length >= sizeof last; octets += sizeof last, length -= sizeof last) {
        memcpy(&last, octets, sizeof last);
        parts[0] += (last >> 32) + (last & UINT32_MAX);
    }
    last = 0;
    memcpy(&last, octets, length);
    parts[0] += (last >> 32) + (last & UINT32_MAX);
    return fold((uint64_t)sum + htons((uint16_t)fold(parts[0])));
}

struct unfinished segments_unfinished(const struct virtio_net_hdr *about, uint8_t *octets, size_t length) {
    uint8_t kind = about->gso_type & (uint8_t)~VIRTIO_NET_HDR_GSO_ECN;
    struct unfinished u = { .octets = octets, .length = length };
    if (length > WHOLE)
        return u;
    u.lacks_sum = (about->flags & VIRTIO_NET_HDR_F_NEEDS_CSUM) != 0;
    u.sum_start = about->csum_start;
    u.sum_at = (uint16_t)(about->csum_start + about->csum_offset);
    u.is_udp = kind == UDP_SEGMENTS;
    if (u.is_udp || kind == VIRTIO_NET_HDR_GSO_TCPV4 || kind == VIRTIO_NET_HDR_GSO_TCPV6)
        u.segment = about->gso_size;
    return u;
}

/* Puts a checksum. 0 would say that a datagram has none. */
static void put_sum(uint8_t *at, uint32_t sum, bool is_udp) {
    put16(at, is_udp && sum == 0xffff ? 0xffff : ~sum);
}

/* Finds the IP header in the octets before `end`, and where it ends without extension headers. */
static bool find_ip(struct segments *s, const uint8_t *octets, size_t end) {
    size_t at = TYPE_AT;
    uint32_t type = VLAN;
    for (; at + 2 + IPV4_MIN <= end && ((type = get16(octets + at)) == VLAN || type == PROVIDER_VLAN); at += 4)
        ;
    s->ip = at + 2;
    s->is_ipv4 = type == IPV4;
    s->transport = s->ip + (s->is_ipv4 ? 4 * (size_t)(octets[s->ip] & 15) : IPV6_HEADER);
    return (s->is_ipv4 || type == IPV6) && s->transport <= end;
}

/* Finds the header that each segment gets. Returns false if the frame can't be divided. */
static bool find_header(struct segments *s, const struct unfinished *u) {
    size_t least = u->is_udp ? UDP_HEADER : TCP_MIN;
    if (u->segment == 0 || !u->lacks_sum || u->sum_start + least > u->length || !find_ip(s, u->octets, u->sum_start) ||
        (s->is_ipv4 && s->transport != u->sum_start))
        return false;
    s->transport = u->sum_start;
    s->header = s->transport + (u->is_udp ? UDP_HEADER : 4 * (size_t)(u->octets[s->transport + OFFSET_AT] >> 4));
    return s->header >= s->transport + least && s->header <= sizeof s->head && s->header < u->length &&
           u->sum_at >= s->transport && (size_t)u->sum_at + 2 <= s->header;
}

/* Where the checksum is to be, the frame has the sum of the addresses, the protocol and the whole length. */
void segments_begin(struct segments *s, const struct unfinished *u) {
    s->of = *u;
    s->at = 0;
    if (find_header(s, u)) {
        memcpy(s->head, u->octets, s->header);
        s->pseudo = fold(get16(s->head + u->sum_at) + 0xffff - (uint32_t)(u->length - s->transport) % 0xffff);
        s->at = s->header;
        return;
    }
    s->header = 0; /* there can be one that was found to be wrong */
    if (u->lacks_sum && u->sum_start < u->length && (size_t)u->sum_at + 2 <= u->length)
        put_sum(u->octets + u->sum_at, add(0, u->octets + u->sum_start, u->length - u->sum_start), true);
}

/* Fits the IP header to the segment that begins at s->at and has so many octets of data. */
static void fit_ip(const struct segments *s, uint8_t *ip, size_t data) {
    uint32_t number = (uint32_t)((s->at - s->header) / s->of.segment);
    if (!s->is_ipv4) {
        put16(ip + 4, (uint32_t)(s->header - s->ip - IPV6_HEADER + data));
        return;
    }
    put16(ip + 2, (uint32_t)(s->header - s->ip + data));
    put16(ip + 4, get16(ip + 4) + number);
    put16(ip + 10, 0);
    put16(ip + 10, ~add(0, ip, s->transport - s->ip));
}

/* Writes this segment's headers. In the checksum's place is the sum of the addresses, protocol and length. */
static void fit(const struct segments *s, uint8_t *head, size_t data) {
    uint8_t *it = head + s->transport;
    uint32_t own = (uint32_t)(s->header - s->transport + data), sequence;
    memcpy(head, s->head, s->header);
    fit_ip(s, head + s->ip, data);
    if (s->of.is_udp) {
        put16(it + 4, own);
    } else {
        sequence = (get16(it + SEQUENCE_AT) << 16 | get16(it + SEQUENCE_AT + 2)) + (uint32_t)(s->at - s->header);
        put16(it + SEQUENCE_AT, sequence >> 16);
        put16(it + SEQUENCE_AT + 2, sequence);
        if (s->at + data < s->of.length)
            it[FLAGS_AT] &= (uint8_t) ~(FIN | PSH);
        if (s->at > s->header)
            it[FLAGS_AT] &= (uint8_t)~CWR;
    }
    put16(head + s->of.sum_at, fold(s->pseudo + own));
}

/* Completes the checksum in headers before so many octets of data. */
static void complete(const struct segments *s, uint8_t *head, const uint8_t *octets, size_t data) {
    uint32_t sum = add(0, head + s->transport, s->header - s->transport);
    put_sum(head + s->of.sum_at, add(sum, octets, data), s->of.is_udp);
}

bool segments_next(struct segments *s, struct frame *frame) {
    size_t data = s->of.length - s->at;
    uint8_t *start;
    if (data == 0)
        return false;
    start = s->of.octets + s->at - s->header;
    if (s->header != 0) {
        data = data > s->of.segment ? s->of.segment : data;
        fit(s, start, data); /* in place of data of the segment before, which is not needed any more */
        complete(s, start, start + s->header, data);
    }
    frame->octets = start;
    frame->length = s->header + data;
    s->at += data;
    return true;
}

/* Finds what joining needs of a frame. Returns false if none can follow it. */
static bool find_segment(struct segments *s, const uint8_t *octets, size_t length, bool datagrams) {
    const uint8_t *ip, *it;
    uint8_t protocol;
    if (!find_ip(s, octets, length) || s->transport + TCP_MIN >= length)
        return false;
    ip = octets + s->ip;
    it = octets + s->transport;
    if (s->is_ipv4 ? ip[0] != 0x45 || (get16(ip + 6) & 0xbfff) != 0 : ip[0] >> 4 != 6)
        return false; /* options, a fragment, or another version */
    protocol = ip[s->is_ipv4 ? 9 : 6];
    s->of.is_udp = protocol == UDP;
    if (s->of.is_udp ? !datagrams : protocol != TCP || (it[FLAGS_AT] & ~ECE) != ACK)
        return false;
    s->header = s->transport + (s->of.is_udp ? UDP_HEADER : 4 * (size_t)(it[OFFSET_AT] >> 4));
    s->of.sum_at = (uint16_t)(s->transport + (s->of.is_udp ? UDP_SUM_AT : TCP_SUM_AT));
    s->pseudo = s->is_ipv4 ? add(protocol, ip + 12, 8) : add(protocol, ip + 8, 32);
    return s->header < length && s->header <= sizeof s->head && s->header > s->of.sum_at;
}

void segments_keep(struct joined *j, const uint8_t *octets, size_t length, bool joins, bool datagrams) {
    struct segments *s = &j->as;
    memcpy(j->whole.octets, octets, length);
    s->of = (struct unfinished){ .octets = j->whole.octets, .length = length };
    j->count = 1;
    j->closed = !joins || !find_segment(s, octets, length, datagrams);
    if (j->closed)
        return;
    s->of.segment = (uint16_t)(length - s->header);
    memcpy(s->head, octets, s->header);
}

/* Is this frame what dividing gives at s->at? */
static bool is_divided(const struct segments *s, const uint8_t *octets, size_t length) {
    uint8_t head[HEAD];
    size_t at = s->of.sum_at;
    fit(s, head, length - s->header);
    if (!s->of.is_udp) /* it may be the last one */
        head[s->transport + FLAGS_AT] |= octets[s->transport + FLAGS_AT] & PSH;
    if (memcmp(head, octets, at) != 0)
        return false;
    complete(s, head, octets + s->header, length - s->header);
    return memcmp(head + at, octets + at, s->header - at) == 0;
}

bool segments_join(struct joined *j, const uint8_t *octets, size_t length) {
    struct segments *s = &j->as;
    size_t data = length - s->header;
    if (j->count == 0 || j->closed || length <= s->header || data > s->of.segment || s->of.length + data > LONGEST)
        return false;
    s->at = s->of.length;
    if (!is_divided(s, octets, length))
        return false;
    s->at = s->header; /* the first one was not looked at yet */
    j->closed = j->count == 1 && !is_divided(s, j->whole.octets, s->of.length);
    if (j->closed)
        return false;
    memcpy(j->whole.octets + s->of.length, octets + s->header, data);
    s->of.length += data;
    if (!s->of.is_udp)
        s->head[s->transport + FLAGS_AT] |= octets[s->transport + FLAGS_AT] & PSH;
    j->closed = ++j->count == JOINED_MAX || data < s->of.segment ||
                (!s->of.is_udp && (octets[s->transport + FLAGS_AT] & PSH) != 0);
    return true;
}

size_t segments_finish(struct joined *j) {
    struct segments *s = &j->as;
    uint8_t kind = s->is_ipv4 ? VIRTIO_NET_HDR_GSO_TCPV4 : VIRTIO_NET_HDR_GSO_TCPV6;
    memset(&j->whole.about, 0, sizeof j->whole.about);
    if (j->count > 1) { /* the headers are those of one long segment, whose checksum the system completes */
        s->at = s->header;
        fit(s, j->whole.octets, s->of.length - s->header);
        j->whole.about = (struct virtio_net_hdr){ .flags = VIRTIO_NET_HDR_F_NEEDS_CSUM,
                                                  .gso_type = s->of.is_udp ? UDP_SEGMENTS : kind,
                                                  .hdr_len = (uint16_t)s->header,
                                                  .gso_size = s->of.segment,
                                                  .csum_start = (uint16_t)s->transport,
                                                  .csum_offset = (uint16_t)(s->of.sum_at - s->transport) };
    }
    j->count = 0;
    return sizeof j->whole.about + s->of.length;
}
