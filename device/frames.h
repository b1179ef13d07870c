/* The path of frames, and the network devices that they come from and go to. */
#ifndef FRAMES_H
#define FRAMES_H

#include "system.h"
#include <linux/if_packet.h>
#include <linux/virtio_net.h>
#include <net/if.h>

struct config;
struct device;

/* The most frames that one call takes from a device or gives to it, and that workers can have of a direction. */
enum { BATCH = 64, RING = 128 };

/* Where a frame has its first EtherType. */
enum { TYPE_AT = 12 };

/* ---- What the device counts, in addition to the endpoint: macsecctl(8) has a table ---- */

struct counts {
    uint64_t link_in, link_lost, link_too_short, link_too_long, no_endpoint, link_out, link_refused;
    uint64_t tap_in, tap_too_short, tap_too_long, tap_out, tap_refused;
    uint64_t port_out, port_in, no_reservation, journal_failed, requests, link_floods;
    uint64_t link_no_reservation, link_earlier_run, requests_delayed;
    uint64_t link_over;
};

enum { COUNT_OF_COUNTS = sizeof(struct counts) / sizeof(uint64_t) };

/* ---- link.c: LINK, the network device below ---- */

/* The longest frame that the system makes of segments: IP has 65,535 octets, after VLAN tags. A tag, such a frame, and
 * one octet by which a longer frame is seen. */
enum { WHOLE = 65560, LINK_BUFFER = 4 + WHOLE + 1 };

/* A received frame, with space before it for a VLAN tag. The system gives a page of it once a frame is there. */
struct received {
    struct virtio_net_hdr about;
    uint8_t octets[LINK_BUFFER];
    _Alignas(struct cmsghdr) uint8_t control[CMSG_SPACE(sizeof(struct tpacket_auxdata))];
};

struct link {
    int socket, index;
    uint32_t mtu;
    uint8_t address[6];
    bool promiscuous;
    bool up;             /* has it carrier? */
    uint64_t unreadable; /* frames that the system can't describe, since they were last counted */
    char name[IF_NAMESIZE];
    /* The frames that wait, in a ring: so many from `first` on. Those that link_append has added are in `copies`. */
    unsigned first, waiting;
    struct iovec frames[BATCH];
    uint8_t copies[BATCH][MACSEC_FRAME_MAX];
    /* What frames are read into. The last headers, so many, are prepared for the next call. */
    unsigned prepared;
    struct mmsghdr headers[BATCH];
    struct iovec parts[BATCH][2];
    struct received *buffers[BATCH];
    /* Those of the first call, and one for each frame that link_keep keeps. */
    unsigned used;
    struct received received[BATCH + RING];
};

/* A frame in a buffer of link.c or tap.c. Its length is above MACSEC_FRAME_MAX if it is too long. */
struct frame {
    const uint8_t *octets;
    size_t length;
};

/* A frame of LINK or TAP as the system has it, which may leave work to a network card. */
struct unfinished {
    uint8_t *octets;
    size_t length;
    bool lacks_sum;                      /* is its checksum to be computed? */
    bool is_udp;                         /* are its segments of UDP, and not of TCP? */
    uint16_t sum_start, sum_at, segment; /* what the checksum covers, where it is, and the data of a segment or 0 */
};

/* What became of a call to a device: it was done, it can't be done now, or the device is gone. */
enum outcome { DONE, BUSY, GONE };

/* Is the device gone after this error? One that is down or full has errors that pass. */
static inline bool is_gone(int error) {
    return error == EBADFD || error == EBADF || error == ENODEV || error == ENXIO;
}

/* Reads the address and the MTU of a network device, by any socket of its namespace. Returns its type, ARPHRD_.., or -1
 * after an error. */
int link_type(int any, const char *name, uint8_t address[6], uint32_t *mtu);
/* Opens LINK, in the namespace that the process is in. */
int link_open(struct link *l, const char *name);
/* Reads at most BATCH frames. A VLAN tag that the system took out of a frame is in it again. */
enum outcome link_read(struct link *l, struct unfinished frames[BATCH], unsigned *count);
/* Keeps the octets of the frame of this index, until the next call with this `spare`: it gets the frame's buffer, and
 * gives the one that it had. RING of them can be kept. */
void link_keep(struct link *l, unsigned index, struct received **spare);
/* Adds a copy of a frame to those that wait to be sent. If BATCH frames wait, it is counted as refused. */
void link_append(struct link *l, const uint8_t *octets, size_t length, struct counts *c);
/* Adds a frame without a copy, if fewer than BATCH wait. Its octets must stay as they are until it has left. */
void link_lend(struct link *l, uint8_t *octets, size_t length);
/* Sends the frames that were added. BUSY: some still wait, until LINK can be written to. */
enum outcome link_flush(struct link *l, struct counts *c);
/* Counts the frames that LINK's socket has lost since the last call. */
void link_count_lost(struct link *l, struct counts *c);
void link_make_promiscuous(struct link *l);
/* The most octets of a frame of the endpoint, for an MTU of LINK. */
uint32_t link_max_frame(uint32_t mtu);

/* ---- segments.c: frames of several segments ---- */

/* The octets of the longest header that is divided from its data. */
enum { HEAD = 256 };

/* A frame of LINK or TAP that is divided into segments. */
struct segments {
    struct unfinished of;
    size_t ip, transport, header; /* where the headers begin, and what each segment gets; 0: there is one segment */
    size_t at;                    /* where the data of the next segment begin */
    bool is_ipv4;
    uint32_t pseudo; /* the sum of the addresses and the protocol */
    uint8_t head[HEAD];
};

/* What the system says about a frame. One that is longer than WHOLE is left alone. */
struct unfinished segments_unfinished(const struct virtio_net_hdr *about, uint8_t *octets, size_t length);
/* Completes a frame. If it can't be divided it stays one, which may be too long. */
void segments_begin(struct segments *s, const struct unfinished *u);
/* Takes the next segment, which is there until the next call. Returns false if there is none. */
bool segments_next(struct segments *s, struct frame *frame);

/* A frame after what the system says about it, and one octet by which a longer frame is seen. */
struct described {
    struct virtio_net_hdr about;
    uint8_t octets[WHOLE + 1];
};

/* Frames for TAP that wait, joined to one that the system takes. */
struct joined {
    struct segments as; /* how it is divided */
    unsigned count;     /* of the frames */
    bool closed;        /* can no frame follow? */
    struct described whole;
};

/* Begins with a copy of a frame, while none waits. If `joins`, frames can follow, datagrams only if `datagrams` too. */
void segments_keep(struct joined *j, const uint8_t *octets, size_t length, bool joins, bool datagrams);
/* Adds a frame, if dividing what waits would give it again. Else it returns false. */
bool segments_join(struct joined *j, const uint8_t *octets, size_t length);
/* Completes what waits: a description with the frame after it. Returns the octets of both. None waits then. */
size_t segments_finish(struct joined *j);

/* ---- tap.c: TAP, the network device of the client ---- */

struct tap {
    int file; /* of /dev/net/tun, opened in the host's network namespace */
    char name[IF_NAMESIZE];
    bool joins, datagrams; /* does it take and give several segments of TCP in one frame, and of UDP? */
    struct described buffer;
    struct segments rest; /* of the frame in the buffer */
    struct joined joined;
};

/* The MTU of TAP: 32 octets below LINK's, and so small that no frame is longer than the configuration's largest. */
uint32_t tap_mtu(uint32_t link_mtu, uint32_t max_frame);
/* Gives a TAP that is there its owner. Returns 0, or the exit status after a message: ENDS_TAKEN if a process of
 * neither root nor this user, macsecd's, has TAP, or if TAP has another type and is up. */
int tap_own(const struct config *c, uid_t user);
/* Attaches the file to TAP, which gets its owner, LINK's address and this MTU. An isolated LINK's TAP has it. */
int tap_open(struct tap *t, const struct config *c, const struct link *l);
/* Reads a frame. It is there until the next call. */
enum outcome tap_read(struct tap *t, struct frame *frame);
/* Delivers a frame, and counts whether TAP took it. A frame that others can be joined to waits until tap_flush. */
enum outcome tap_write(struct tap *t, const uint8_t *octets, size_t length, struct counts *c);
enum outcome tap_flush(struct tap *t, struct counts *c);
/* Reads TAP's address. Returns false if it can't be read, as after TAP was moved to a third namespace. */
bool tap_address(const struct tap *t, uint8_t address[6]);
void tap_set_carrier(struct tap *t, bool on);

/* ---- holder.c: the process that has TAP ---- */

/* Says that TAP is in use, and by which process if one can be seen: if there are several, one of root or of this user.
 * Returns whether there is such a one. */
bool holder_say(const struct tap *t, uid_t user);

/* ---- namespace.c: the host's network namespace, which has TAP, and LINK's own ---- */

/* The path of the namespace of the LINK of NAME, which is returned too, and its most octets. */
enum { NAMESPACE_PATH = sizeof "/run/netns/macsec-" + IF_NAMESIZE };
const char *namespace_path(char path[NAMESPACE_PATH], const char *name);
/* Opens TAP's file in the host's namespace, enters LINK's unless LINK is shared, and gives up CAP_SYS_ADMIN. To be
 * called before the journal is read and a socket of a device is opened. */
int namespace_enter(struct tap *t, const struct config *c, const char *name);

/* ---- rtnetlink.c: LINK goes up and down, changes and ends; TAP gets another address ---- */

struct rtnetlink {
    int socket;
    bool lost;                             /* did the system drop reports since it was asked? */
    _Alignas(uint64_t) char buffer[32768]; /* as many octets as a message about a device has at most */
};

/* Asks by a socket for the state of the device of this index, or of all with NLM_F_DUMP. Returns false if it can't. */
bool rtnetlink_ask(int socket, uint16_t flags, int index);
int rtnetlink_open(struct device *d);
/* Gives TAP LINK's carrier. */
int rtnetlink_begin(struct device *d);
/* Reads a message of this socket into the buffer. Returns its length; 0 if it is empty, or not the system's; or -1. */
ssize_t rtnetlink_message(struct rtnetlink *f, int socket);
/* Reads what the system reports. Returns false, after a message, if LINK is gone. */
bool rtnetlink_read(struct device *d);
/* To be called each second: asks for LINK's state, looks at TAP's address, and sets its carrier. Returns false, after a
 * message, if the system can't be asked. */
bool rtnetlink_tick(struct device *d);

/* ---- over.c: devices over LINK, by which frames pass without MACsec ---- */

struct over {
    int socket; /* rtnetlink of the host's namespace; -1: frames may pass so, as the configuration says */
    int process, last;
    int32_t number;        /* of LINK's namespace in the host's */
    bool asked, due;       /* is there a look under way, and is another one due after it? */
    unsigned found, known; /* devices, in this look and in the one before */
};

struct ifinfomsg;
struct ifaddrmsg;

/* To be called in the host's namespace. */
int over_open(struct over *o, bool is_isolated);
/* Asks for the devices of the host. over_read takes the answers, and says which one is over LINK. */
void over_look(struct device *d);
void over_read(struct device *d);
/* Says that a device of LINK's namespace is over LINK, if it is; or that LINK has got an address. */
void over_note(struct device *d, const struct ifinfomsg *about, int left);
void over_note_address(struct device *d, const struct ifaddrmsg *about);

/* ---- history.c: when frames last went each way ---- */

/* Times are in seconds since macsecd started, and one more; 0 is never. */
struct heard {
    uint8_t sci[8];
    uint64_t time;
};

/* The EtherType, and a SecTAG with an SCI. */
enum { TAG_ROOM = 16 };

struct history {
    uint64_t seconds; /* since macsecd started, by the loop's clock: no frame asks the system for the time */
    uint64_t sent, dropped;
    bool from_link;                              /* did LINK bring the last frame that was dropped? Else TAP did. */
    uint32_t why;                                /* its verdict, or its fate */
    uint8_t tag[TAG_ROOM];                       /* of one of LINK: its octets from the EtherType on, then zeros */
    struct heard heard[MACSEC_RX_CHANNEL_COUNT]; /* when a channel's last frame was delivered */
};

void history_sent(struct history *h, const macsec_sent *sent);
/* The frame is NULL if it is not there any more. */
void history_received(struct history *h, const macsec_received *got, const struct frame *frame);
/* How many seconds ago this time was, and a frame of this channel was delivered; -1 for never. */
int64_t history_age(const struct history *h, uint64_t time);
int64_t history_heard(const struct history *h, const uint8_t sci[8]);

/* ---- frames.c: the path of frames ---- */

/* Reads a batch of frames from TAP, and sends what the endpoint makes of them. */
enum outcome frames_from_client(struct device *d);
/* Reads frames from LINK, less than two batches, and delivers what the endpoint makes of them. */
enum outcome frames_from_link(struct device *d);
/* The frames that were read of TAP in a batch; those that used a packet number, and those that had none reserved. */
struct client_batch {
    unsigned count, used, lacked;
};
/* Notes a frame that was read. If it is the first one and the last batch was one frame, it leaves before TAP is read
 * again. BUSY, GONE: no more are to be read. */
enum outcome frames_note_fate(struct device *d, struct client_batch *b, uint32_t fate);
/* To be called when the frames of the batch have left, since the peer waits for them. */
void frames_end_batch(struct device *d, const struct client_batch *b);
/* Adds to the waiting frames what the endpoint makes of a client frame. Returns its fate. */
uint32_t frames_send(struct device *d, const struct frame *frame);
/* Judges a frame of LINK, after those that wait, and delivers it. Returns GONE if TAP is. */
enum outcome frames_receive(struct device *d, const struct frame *frame);
/* Judges a frame, and delivers it, or lets it wait for a reservation. */
enum outcome frames_present(struct device *d, const struct frame *frame);
/* Parts of frames_send and of frames_present: what follows from the answer of the endpoint about a frame. frames_sent
 * does not send it. */
void frames_sent(struct device *d, const macsec_sent *sent);
enum outcome frames_judged(struct device *d, const macsec_received *got, const struct frame *frame);
/* Delivers what the endpoint has accepted, while the controlled port is on. */
enum outcome frames_deliver(struct device *d, const uint8_t *octets, size_t length);

/* ---- held_frames.c: frames of LINK that wait for a reservation, and accepted ones that wait for these ---- */

/* The most of them, and of their octets. */
enum { HELD_FRAMES = 1024, HELD_OCTETS = 1 << 20 };
struct held_frames {
    unsigned count, ticks; /* how many; and of the clock, since the first of them came or another one passed */
    bool again;            /* is one of them being given to the endpoint once more? */
    uint64_t grants;       /* how many reservations had been reported when it was kept */
    size_t used;
    struct held_frame {
        uint8_t sci[8]; /* its channel */
        uint8_t an;     /* and its association, or MACSEC_AN_COUNT */
        bool accepted;  /* is it what the endpoint has accepted, and not a frame that is to be judged again? */
        uint16_t length;
    } frames[HELD_FRAMES];
    uint8_t octets[HELD_OCTETS];
};

/* Keeps a copy of what this has: an accepted frame before those of its association that lack a reservation, else after
 * all. Returns false if there is no space. */
bool held_frames_keep(struct device *d, const struct held_frame *about, const uint8_t *octets);
/* Do frames of its channel wait before this accepted one? After a change of keys they can be of the association before
 * it. */
bool held_frames_wait(const struct device *d, const struct held_frame *accepted);
/* Gives the frames that are kept to the endpoint if a reservation was reported. To be called before a later frame is
 * given to it, and when a reservation may have been reported. Returns GONE if TAP is. */
enum outcome held_frames_give(struct device *d);
/* To be called each second: drops the kept frames that have waited too long. Returns GONE if TAP is. */
enum outcome held_frames_tick(struct device *d);

/* ---- floods.c: frames of LINK that are dropped ---- */

struct floods {
    unsigned frames; /* that had no SecTAG or no association, in this second */
    bool filtered;   /* does the system drop such frames? */
    /* Frames dropped for their numbers alone, unreserved or of an earlier run; how many seconds to be silent. */
    uint64_t drops[2];
    unsigned silence[2];
};

void floods_note(struct device *d, uint32_t verdict);
/* If there were too many such frames, has the system drop the next ones, before it copies them. */
void floods_stop(struct device *d);
/* Reads all frames again: to be called each second, and when the endpoint may have other channels or options. */
void floods_end(struct device *d);
/* To be called each second: says when frames begin to be dropped for their packet numbers alone. */
void floods_say(struct device *d);

#endif
