/* Joins random frames as tap.c does, divides what was joined, and compares: the same frames must come, in their order
 * and octet for octet. There are streams of TCP and UDP over IPv4 and IPv6, some with a VLAN tag; what must not be
 * joined comes between.
 *
 *     segments FRAMES SEED
 *
 * It prints how many frames were joined, or what is wrong. */
#include "frames.h"

/* The longest frame, the streams, and the frames that can wait. */
enum { MOST = 1600, STREAMS = 6, QUEUE = 128 };
enum { TCP = 6, UDP = 17, ACK = 0x10, PSH = 8 };
/* For so many frames of this many nothing is odd, so that as many are joined as may be. */
enum { EVEN = 500, OF = 4000 };

static uint64_t state; /* of random numbers */
static bool is_even;
static struct joined joined;
static struct {
    size_t length;
    uint8_t octets[MOST];
} queue[QUEUE];
static unsigned first, end;
static unsigned long in_several[2]; /* how many frames of TCP and of UDP were joined to others */

static struct stream {
    bool is_ipv4, is_udp;
    size_t tags, options, each;
    uint32_t sequence, number;
} streams[STREAMS];

static unsigned below(unsigned limit) {
    state = state * 6364136223846793005u + 1442695040888963407u;
    return (unsigned)(state >> 33) % limit;
}

static bool once_in(unsigned times) {
    return below(times) == 0 && !is_even;
}

static void put16(uint8_t *at, uint32_t value) {
    at[0] = (uint8_t)(value >> 8);
    at[1] = (uint8_t)value;
}

/* The checksum of RFC 1071, octet by octet. */
static uint16_t checksum(uint32_t sum, const uint8_t *octets, size_t length) {
    for (size_t i = 0; i < length; i++)
        sum += i % 2 == 0 ? (uint32_t)octets[i] << 8 : octets[i];
    sum = (sum & 0xffff) + (sum >> 16);
    return (uint16_t) ~(sum + (sum >> 16));
}

static void begin_stream(struct stream *s) {
    s->is_ipv4 = once_in(2);
    s->is_udp = once_in(3);
    s->tags = once_in(3);
    s->options = s->is_udp ? 0 : 4 * below(11);
    s->each = 1 + below(once_in(3) ? 40 : 1400);
    s->sequence = below(1U << 31) * 2U;
    s->number = below(1U << 16);
}

/* The header of IP. Returns the sum of what the checksum has of it. */
static uint32_t make_ip(struct stream *s, uint8_t *ip, size_t length) {
    uint8_t protocol = s->is_udp ? UDP : TCP;
    uint8_t sums[36] = { 0 };
    if (s->is_ipv4) {
        ip[0] = once_in(200) ? 0x46 : 0x45; /* an option that is not there */
        put16(ip + 2, (uint32_t)(20 + length));
        put16(ip + 4, s->number++);
        put16(ip + 6, once_in(100) ? below(1U << 16) : 0x4000); /* fragments */
        ip[8] = once_in(100) ? 63 : 64;
        ip[9] = once_in(100) ? 51 : protocol;
        put16(ip + 12, 0x0a09);
        put16(ip + 10, checksum(0, ip, 20));
        memcpy(sums, ip + 12, 8);
    } else {
        ip[0] = 0x60;
        put16(ip + 4, (uint32_t)length);
        ip[6] = once_in(100) ? 0 : protocol; /* an extension header */
        ip[7] = once_in(100) ? 63 : 64;
        put16(ip + 8, 0xfd09);
        memcpy(sums, ip + 8, 32);
    }
    put16(sums + 32, (uint32_t)length);
    sums[35] = protocol;
    return (uint16_t)~checksum(0, sums, sizeof sums);
}

/* The header of UDP or TCP, and octets of data after it. */
static void make_transport(struct stream *s, uint8_t *it, size_t header, size_t data, uint32_t sum) {
    size_t at = s->is_udp ? 6 : 16;
    put16(it, 7);
    for (size_t i = 0; i < data; i++)
        it[header + i] = (uint8_t)below(256);
    if (s->is_udp) {
        put16(it + 4, (uint32_t)(header + data));
    } else {
        put16(it + 4, s->sequence >> 16);
        put16(it + 6, s->sequence);
        it[12] = (uint8_t)(header / 4 << 4 | once_in(100));
        it[13] = once_in(12) ? (uint8_t)below(256) : once_in(15) ? ACK | PSH : ACK;
        put16(it + 14, once_in(100) ? 7 : 8); /* the window */
        put16(it + 18, once_in(100));         /* the urgent pointer */
        memset(it + 20, once_in(100) ? 1 : 0, s->options);
        s->sequence += (uint32_t)data;
    }
    sum = checksum(sum, it, header + data);
    put16(it + at, s->is_udp && sum == 0 ? 0xffff : sum);
}

/* A frame of a stream, mostly of the first one. */
static size_t make_frame(uint8_t *frame) {
    struct stream *s = &streams[once_in(20) ? below(STREAMS) : 0];
    size_t ip, header, data, length;
    if (once_in(100) || s->each == 0)
        begin_stream(s);
    ip = 14 + 4 * s->tags;
    header = s->is_udp ? 8 : 20 + s->options;
    data = once_in(25) ? below((unsigned)s->each + 3) : s->each;
    memset(frame, 0, MOST);
    frame[5] = (uint8_t)(s - streams);
    put16(frame + 12, 0x8100);
    put16(frame + ip - 2, s->is_ipv4 ? 0x0800 : 0x86dd);
    length = ip + (s->is_ipv4 ? 20 : 40) + header + data;
    s->number += once_in(40); /* frames that are lost, or come again */
    s->sequence += once_in(40) ? below(3) - 1U : 0;
    make_transport(s, frame + length - data - header, header, data, make_ip(s, frame + ip, header + data));
    if (once_in(50))
        frame[ip + below((unsigned)(length - ip))] ^= (uint8_t)(1U << below(8));
    return once_in(100) ? length + below(5) - 2 : length;
}

static void expect(const uint8_t *octets, size_t length) {
    if (first != end && length == queue[first % QUEUE].length &&
        memcmp(octets, queue[first % QUEUE].octets, length) == 0) {
        first++;
        return;
    }
    printf("WRONG: frame %u of %u comes as another one, of %zu octets\n", first, end, length);
    exit(1);
}

/* Divides what waits, as a system does. */
static void flush(void) {
    unsigned count = joined.count, before = first;
    struct unfinished u;
    struct segments s;
    struct frame frame;
    if (count == 0)
        return;
    u = segments_unfinished(&joined.whole.about, joined.whole.octets,
                            segments_finish(&joined) - sizeof joined.whole.about);
    segments_begin(&s, &u);
    while (segments_next(&s, &frame))
        expect(frame.octets, frame.length);
    if (first - before != count || count > 64) { /* Linux before 6.5 takes 64 datagrams in a frame */
        printf("WRONG: %u frames were joined, and %u came\n", count, first - before);
        exit(1);
    }
    if (count > 1)
        in_several[u.is_udp] += count;
}

int main(int count, char **words) {
    unsigned long frames = count == 3 ? strtoul(words[1], NULL, 10) : 0;
    state = count == 3 ? strtoull(words[2], NULL, 10) : 0;
    for (unsigned long i = 0; i < frames; i++) {
        uint8_t *frame = queue[end % QUEUE].octets;
        size_t length;
        is_even = i % OF < EVEN;
        length = queue[end % QUEUE].length = make_frame(frame);
        if (!segments_join(&joined, frame, length)) {
            flush();
            segments_keep(&joined, frame, length, true, true);
        }
        end++;
    }
    flush();
    printf("segments: %lu frames, %lu of TCP and %lu of UDP in frames of several\n", frames, in_several[0],
           in_several[1]);
    if (first == end && in_several[0] >= frames / 4 && in_several[1] >= frames / 10)
        return 0;
    printf("WRONG: %u of %u frames came\n", first, end);
    return 1;
}
