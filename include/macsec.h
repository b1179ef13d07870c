/*
 * macsec.h - a MACsec security entity (SecY, IEEE Std 802.1AE-2018) for C99, C++11 and later.
 *
 * An endpoint protects the frames that its client sends, validates those that the link delivers, and counts both.
 * It has no key agreement: the caller installs keys (SAKs) and creates secure associations (SAs) by commands. Suites:
 * GCM-AES-128, GCM-AES-256, GCM-AES-XPN-128 and GCM-AES-XPN-256. It opens no socket and no file, starts no thread,
 * reads no clock, and keeps no state outside its endpoints.
 *
 * An endpoint's packet numbers are lost when it is freed. Give the next endpoint new keys, start it above every packet
 * number that was used under its key, or keep a journal (macsec_reserve_open). After a fork, or when a snapshot of a
 * machine is restored or copied, only one of the copies may send. Otherwise IVs repeat, which breaks GCM.
 *
 *     macsec_endpoint a = MACSEC_ENDPOINT_INIT;
 *     macsec_config config = { { 0x12, 0x15, 0x35, 0x24, 0xc0, 0x89, 0x5e, 0x81 },
 *                              MACSEC_SUITE_GCM_AES_128, MACSEC_FORM_SCI, 1546 };
 *     if (macsec_new(&a, &config) != MACSEC_OK) ...
 *     macsec_install_key(&a, &sak); macsec_add_tx_sa(&a, 0, sak.number, 1, true); macsec_enable_tx_sa(&a, 0);
 *
 *     macsec_sent sent;
 *     if (macsec_send(&a, frame, length, &sent) == MACSEC_OK && sent.length != 0)
 *         transmit(sent.frame, sent.length);        // before the next call with &a
 *     macsec_free(&a);
 *
 * Link with -lmacsec. examples/c has complete programs; docs/C.md compares the calls with `ip macsec`.
 *
 * FRAMES     A frame is the octets of an Ethernet frame from the destination address to the end of the data,
 *            without preamble and without FCS. Every length is a number of octets. An endpoint takes frames of 14
 *            to 9,248 octets (MACSEC_FRAME_MIN, MACSEC_FRAME_MAX). It refuses others, changes nothing and counts
 *            nothing.
 * NUMBERS    Integers are in host byte order. SCIs, keys and salts are octets in the order in which the standard
 *            writes them: an SCI is the six octets of a MAC address and two of a port number.
 * STATUS     Each call with a handle, except those that free it, returns a status: MACSEC_OK, or why nothing was done
 *            (MACSEC_E_..). In the second case nothing has changed, and the caller's output structs are unchanged,
 *            except that a macsec_sent, a macsec_received, the line of macsec_configure and of
 *            macsec_reserve_configure, the answer of macsec_answer, the command of macsec_parse_line, the
 *            configuration of macsec_parse_end and the place of macsec_load are always filled in. The handle is tested
 *            first (MACSEC_E_EMPTY, MACSEC_E_TAKEN), then the arguments (MACSEC_E_NO_SUCH_..), then the rest. If
 *            several statuses of arguments apply, or several refusals of a command, the call returns the lowest; but
 *            MACSEC_E_PN_FLOOR comes first where a journal is the reason.
 * MEMORY     macsec_new allocates 15 blocks by malloc, 19.1 MB in all: five for 4,096 keys, two for a frame, eight for
 *            the rest. macsec_free frees them. macsec_configure allocates the same, and so do macsec_reserve_open and
 *            macsec_reserve_configure, with one more for a journal that has records. macsec_key_take allocates one
 *            block, macsec_slot_new three, and macsec_journal_begin five. macsec_renew_key allocates one for names when
 *            it first takes a place, and makes it larger from time to time. macsec_load allocates a copy of the
 *            endpoint, and frees the endpoint or the copy before it returns. It and macsec_configure,
 *            macsec_reserve_configure, macsec_command_line, macsec_parse_line, macsec_parse_end and macsec_answer also
 *            allocate while they read commands or a text, macsec_answer while it composes counters and packet numbers,
 *            and macsec_journal_compacted and macsec_journal_begin while they work, and free that before they return.
 *            No other call allocates, so no other call runs out of memory. malloc must align a block to each power of
 *            two up to 16 that divides its size, as all C libraries do. It must return: no exception may be thrown
 *            through the library, which has no unwinding tables. The library overwrites a block before it frees it. For
 *            blocks of 1 MB or more, of which less than half is in memory (mincore), it asks the kernel for new pages
 *            (madvise), and overwrites them if the kernel refuses. The calls that take a key, a text or an association
 *            overwrite the stack that they used. An endpoint overwrites a key when it retires it (macsec_retire_key). A
 *            macsec_key, and a slot with a job, keep the octets of their key also after that. Registers, swap, core
 *            dumps and the caller's own copies are not covered. Give each call 96 KB of stack: the calls that create an
 *            endpoint and macsec_load took 66 KB on x86-64, and the others 43 KB or less (measured, not proved).
 * PROCESSOR  An x86-64 processor with SSSE3 (every x86-64-v2 has it). The library does not test for it: on another one
 *            the process ends with SIGILL.
 * HANDLES    A handle is the caller's memory, initialized with MACSEC_ENDPOINT_INIT (all zero). Do not copy, move or
 *            write it while it holds an endpoint. A handle that was never used, or that was freed, holds none: then
 *            macsec_free does nothing, and every other call returns MACSEC_E_EMPTY, except those that create an
 *            endpoint: macsec_new, macsec_configure, macsec_reserve_open and macsec_reserve_configure.
 * OWNERSHIP  The library keeps no pointer that a call was given. The frame that macsec_send or macsec_receive returns
 *            is in the endpoint's buffer, or is (a part of) the caller's own frame. Read it before the next call with
 *            that handle, and while the caller's frame is unchanged. Do not write to it, and copy it before you give
 *            it to a call with that handle.
 * POINTERS   A null handle may be given to macsec_free, which then does nothing, and a null frame or text of length 0
 *            to every call that takes one. No other pointer may be null. The handle, the frame and the output structs
 *            must not overlap. Nothing may write to the frame during the call: copy a frame first that is in memory
 *            which another process, a guest or a device can write.
 * GROWTH     In every version 1 each struct has the same size, and each member the same place. What a later library
 *            shows more goes into the `reserved` members of the structs that calls fill in; these are 0 where a library
 *            has nothing to show. So a program that was built over one library of version 1 runs over every later one.
 * THREADS    Use a handle in one call at a time, also in a call that takes it as const and changes nothing. Synchronize
 *            when you pass it from one thread to another, with a lock or the thread's start or join. Different handles
 *            are independent. Make no call from a signal handler, and no call that allocates or frees memory in the
 *            forked child of a process with threads.
 * RAW CALLS  A call whose name ends in _raw is the library's part of the inline function without _raw, for languages
 *            that can't call inline functions. No pointer of it may be null, and what `out` of macsec_send_raw and
 *            macsec_receive_raw leads to must be an answer that names no frame, as MACSEC_SENT_INIT and
 *            MACSEC_RECEIVED_INIT are.
 *
 * Proved with Rattle: each call creates an endpoint, takes it out of its handle, is one step of the written machine
 * (crates/macsec_secy/specs/Step.antt; with a journal, ahead_step of crates/macsec_ahead/specs/Ahead.antt; a command,
 * with or without a journal, command_forgetting there, and once a key is renewed command_renewing of Renewing.antt), or
 * renews a key (ahead_after_renewing there), or reads its state, for the arguments that C gave; or it takes the steps
 * that the lines of a text say. A call with a journal as a file is one step of its machine
 * (crates/macsec_journal/specs/Machine.antt), or shows it. Each call reads and writes only what it was given, and
 * returns. A reader that finds nothing leaves its output struct unchanged. Measured or tested, not proved: sizes and
 * stack, that macsec_free frees each block, that memory is overwritten, and which calls allocate. Not proved: this
 * header and its inline functions, which a script compares with the library's source; the library's part in C, by which
 * it allocates and overwrites memory; C's side of what the header says; malloc; the compilers.
 *
 * In the calls for keys, frames and jobs no branch and no address depends on a key or on data, except the verdict, the
 * refusal KeyRepeated (is the key one of the endpoint's, or its fingerprint a retired key's?), whether a key that is
 * installed has the 32-bit checksum of one that the endpoint has, and MACSEC_E_OTHER_KEY (is it the key of the job?).
 * The digits of a key in a line or a text decide two branches more, in the same way for every key: does an octet end
 * the word or the line, and are all of them hex digits? With a journal, and once a key is renewed, names of keys decide
 * branches too: they are digests, which the journal shows. This is measured on the libraries by
 * tests/library/constant-time, and not proved.
 */
#ifndef MACSEC_H
#define MACSEC_H

#include <stdbool.h>
#include <stddef.h>
#include <stdint.h>

#ifdef __cplusplus
extern "C" {
#endif

/* The version of this header as text, as the pkg-config file has it, and as a number: 1,000,000 times its first
 * number, plus 1,000 times its second, plus its third. macsec_version() returns the number of the library. */
#define MACSEC_VERSION "1.1.0"
#define MACSEC_VERSION_NUMBER 1001000

/* The fewest and the most octets of a frame that is given to an endpoint. */
#define MACSEC_FRAME_MIN 14
#define MACSEC_FRAME_MAX 9248
/* A frame that is sent protected has 24 to this many octets more than the client's: SecTAG (8 or 16) and ICV (16). */
#define MACSEC_OVERHEAD_MAX 32
/* The octets of a record of a journal, and of a journal's header. */
#define MACSEC_RECORD_LENGTH 64
/* The fewest octets of a buffer for macsec_answer. */
#define MACSEC_ANSWER_MIN 64
/* Association numbers, key numbers and places of receive channels are below these. */
#define MACSEC_AN_COUNT 4
#define MACSEC_KEY_COUNT 4096
#define MACSEC_RX_CHANNEL_COUNT 64

/* Statuses. 1 to 20 are the refusals of commands. */
enum {
    /* made: statuses of tools/families.json */
    MACSEC_OK = 0,
    MACSEC_E_KEY_LENGTH = 1,          /* the key has another length than its suite's keys */
    MACSEC_E_OFFSET = 2,              /* the suite's keys have no such confidentiality offset */
    MACSEC_E_KEY_NUMBER_USED = 3,     /* a key of this number was installed before, retired or not */
    MACSEC_E_KEY_REPEATED = 4,        /* a key of these octets was installed before, retired or not */
    MACSEC_E_NO_KEY = 5,              /* there is no such key */
    MACSEC_E_KEY_RETIRED = 6,         /* the key is retired */
    MACSEC_E_KEY_IN_USE = 7,          /* an association uses the key */
    MACSEC_E_OWN_SCI = 8,             /* the SCI is the endpoint's own */
    MACSEC_E_SC_TAKEN = 9,            /* there is such a channel */
    MACSEC_E_SC_FULL = 10,            /* there are as many channels as there can be */
    MACSEC_E_NO_SC = 11,              /* there is no such channel */
    MACSEC_E_AN_TAKEN = 12,           /* there is such an association */
    MACSEC_E_NO_SA = 13,              /* there is no such association */
    MACSEC_E_PN_RANGE = 14,           /* the packet number is not from 1 to the last */
    MACSEC_E_PN_LOWER = 15,           /* the packet number is below the lowest acceptable one */
    MACSEC_E_PN_FLOOR = 16,           /* the packet number may have been used before */
    MACSEC_E_SSCI_OWN = 17,           /* packet numbers are extended, and the SSCI is the key's own */
    MACSEC_E_WINDOW = 18,             /* the replay window is too wide */
    MACSEC_E_SCI_FORM = 19,           /* the tag form does not fit the endpoint's SCI */
    MACSEC_E_EXHAUSTED = 20,          /* the association has no packet number left */
    MACSEC_E_EMPTY = 32,              /* the handle is empty */
    MACSEC_E_TAKEN = 33,              /* the handle holds something already */
    MACSEC_E_NO_SUCH_SUITE = 34,      /* the number names no cipher suite */
    MACSEC_E_NO_SUCH_FORM = 35,       /* the number names no tag form */
    MACSEC_E_NO_SUCH_MODE = 36,       /* the number names no mode of validation */
    MACSEC_E_NO_SUCH_AN = 37,         /* the association number is above 3 */
    MACSEC_E_NO_SUCH_KEY_NUMBER = 38, /* the key number is above 4,095 */
    MACSEC_E_NO_SUCH_KEY_OCTETS = 39, /* no key has so many octets: they have 16 or 32 */
    MACSEC_E_NOT_FOUND = 40,          /* there is no such channel or association to show */
    MACSEC_E_MEMORY = 41,             /* out of memory, for an endpoint or for the words of a text */
    MACSEC_E_NEW_MAX_FRAME = 42,      /* the configuration's largest frame is not 64 to 9,248 octets */
    MACSEC_E_NEW_SCI_FORM = 43,       /* the configuration's tag form does not fit its SCI */
    MACSEC_E_FRAME_SHORT = 44,        /* the frame has fewer than 14 octets */
    MACSEC_E_FRAME_LONG = 45,         /* the frame has more than 9,248 octets */
    MACSEC_E_LINE_WORD = 46,          /* the line's keyword is unknown, or an argument is not allowed there */
    MACSEC_E_LINE_COUNT = 47,         /* the line has too few words or too many */
    MACSEC_E_LINE_HEX = 48,           /* a word of the line is not hex text of as many octets as it must have */
    MACSEC_E_LINE_NUMBER = 49,        /* a word of the line is not a decimal number in its range */
    MACSEC_E_LINE_ENDS = 50,          /* the line is in a wrong place, or its tag form does not fit its SCI */
    MACSEC_E_LINE_LONG = 51,          /* the line has more than 20,000 octets */
    MACSEC_E_CONFIG_LONG = 52,        /* the configuration has more than 1,048,576 octets or 65,536 lines */
    MACSEC_E_NOT_JOURNAL = 53,        /* no journal, one of another version, or one with a damaged header */
    MACSEC_E_NOT_RECORD = 54,         /* the octets are not a record of a journal */
    MACSEC_E_ANSWER_LONG = 55,        /* the buffer is too small for the answer to the line */
    MACSEC_E_JOB = 56,                /* the slot has no such job, or it has a frame already */
    MACSEC_E_OTHER_KEY = 57,          /* the key is not the one that the job needs */
    MACSEC_E_SPACE = 58,              /* the buffer is too small for what is to be written */
    MACSEC_E_NO_SUCH_COMMAND = 59,    /* a macsec_command means nothing: its kind, flag or key is wrong */
    MACSEC_E_JOURNAL_DAMAGED = 60,    /* the count of the journal is damaged, or does not agree with its entries */
    MACSEC_E_JOURNAL_FULL = 61,       /* the entries of the journal would not fit into a file of its limit */
    MACSEC_E_JOURNAL_BUSY = 62        /* an order to the journal is under way */
    /* end */
};

/* Cipher suites (clause 14). Only a key can have the default: the suite of the endpoint's configuration. */
enum {
    /* made: suites of tools/families.json */
    MACSEC_SUITE_DEFAULT = 0,
    MACSEC_SUITE_GCM_AES_128 = 1,
    MACSEC_SUITE_GCM_AES_256 = 2,
    MACSEC_SUITE_GCM_AES_XPN_128 = 3, /* extended packet numbers, of 64 bits */
    MACSEC_SUITE_GCM_AES_XPN_256 = 4
    /* end */
};

/* Tag forms: which SecTAG a frame gets (9.5). */
enum {
    MACSEC_FORM_AUTO = 0, /* with the SCI if there is more than one receive channel, else without ES, SCB and SCI */
    MACSEC_FORM_SCI = 1,  /* with the SCI */
    MACSEC_FORM_ES = 2,   /* ES and no SCI, if the source address is the SCI's; for SCIs of port 0001 */
    MACSEC_FORM_SCB = 3   /* SCB and no SCI, if the source address is the SCI's; for SCIs of port 0000 */
};

/* Modes: how received frames are validated (10.6). */
enum {
    MACSEC_MODE_DISABLED = 0, /* no frame is validated */
    MACSEC_MODE_CHECK = 1,    /* invalid frames are delivered too, unless their C bit is set */
    MACSEC_MODE_STRICT = 2    /* only valid frames are delivered */
};

/* Kinds of commands (10.7), as lines say them, and the members of a macsec_command that each uses. */
enum macsec_command_kind {
    /* made: commands of tools/families.json */
    MACSEC_COMMAND_NONE = 0,       /* no command: the line is skipped */
    MACSEC_COMMAND_PROTECT = 1,    /* protect: flag (on) */
    MACSEC_COMMAND_VALIDATE = 2,   /* validate: choice (MACSEC_MODE_..) */
    MACSEC_COMMAND_REPLAY = 3,     /* replay: flag (on), pn (the window) */
    MACSEC_COMMAND_TAG = 4,        /* tag: choice (MACSEC_FORM_..) */
    MACSEC_COMMAND_KEY = 5,        /* key: sak, key (the same as sak.number) */
    MACSEC_COMMAND_RETIRE = 6,     /* retire: key */
    MACSEC_COMMAND_TX_SA = 7,      /* txsa: an, key, pn (the first one), flag (conf) */
    MACSEC_COMMAND_TX_ON = 8,      /* txon: an */
    MACSEC_COMMAND_TX_OFF = 9,     /* txoff: an */
    MACSEC_COMMAND_TX_DEL = 10,    /* txdel: an */
    MACSEC_COMMAND_RX_SC = 11,     /* rxsc: sci */
    MACSEC_COMMAND_RX_SC_DEL = 12, /* rxscdel: sci */
    MACSEC_COMMAND_RX_SA = 13,     /* rxsa: sci, an, key, pn (the lowest acceptable one), ssci */
    MACSEC_COMMAND_RX_ON = 14,     /* rxon: sci, an */
    MACSEC_COMMAND_RX_OFF = 15,    /* rxoff: sci, an */
    MACSEC_COMMAND_RX_LOW = 16,    /* rxlow: sci, an, pn (the lowest acceptable one) */
    MACSEC_COMMAND_RX_DEL = 17     /* rxdel: sci, an */
    /* end */
};

/* Fates of client frames. */
enum {
    /* made: fates of tools/families.json */
    MACSEC_FATE_NONE = 0,      /* the status is not MACSEC_OK */
    MACSEC_FATE_PROTECTED = 1, /* the frame is sent protected, under the key of number `key` */
    MACSEC_FATE_PLAIN = 2,     /* it is sent as it is: frames are not protected */
    MACSEC_FATE_NO_SA = 3,     /* dropped: no association is enabled, or the enabled one is exhausted */
    MACSEC_FATE_TOO_LONG = 4,  /* dropped: it would be longer than the configuration's largest frame */
    MACSEC_FATE_NO_RESERVATION = 5 /* dropped: its packet number is not reserved */
    /* end */
};

/* Verdicts on link frames, named as their counters are, without InPkts (10.7). The last two are no verdicts of the
 * standard: an endpoint that reserves ahead of receiving drops the frame, and no counter counts it. */
enum {
    /* made: verdicts of tools/families.json */
    MACSEC_VERDICT_NONE = 0,        /* the status is not MACSEC_OK */
    MACSEC_VERDICT_UNTAGGED = 1,    /* no SecTAG; delivered */
    MACSEC_VERDICT_NO_TAG = 2,      /* no SecTAG; dropped */
    MACSEC_VERDICT_BAD_TAG = 3,     /* the SecTAG is invalid, or it has no packet number; dropped */
    MACSEC_VERDICT_RESERVED = 4,    /* E is set and C clear; dropped */
    MACSEC_VERDICT_NO_SA_ERROR = 5, /* no association is enabled for it; dropped */
    MACSEC_VERDICT_NO_SA = 6,       /* no association is enabled for it; delivered */
    MACSEC_VERDICT_LATE = 7,        /* the packet number is late; dropped */
    MACSEC_VERDICT_NOT_VALID = 8,   /* not valid, or can't be used unopened; dropped */
    MACSEC_VERDICT_UNCHECKED = 9,   /* not validated; delivered */
    MACSEC_VERDICT_DELAYED = 10,    /* the packet number is late; delivered */
    MACSEC_VERDICT_INVALID = 11,    /* not valid; delivered */
    MACSEC_VERDICT_OK = 12,         /* valid and not late; delivered */
    MACSEC_VERDICT_NO_RESERVATION = 13, /* valid, but its packet number is not reserved yet; dropped */
    MACSEC_VERDICT_EARLIER_RUN = 14     /* valid, but an earlier run had reserved its packet number; dropped */
    /* end */
};

/* A handle. Its member is the library's. */
typedef struct macsec_endpoint {
    void *secy;
} macsec_endpoint;

#define MACSEC_ENDPOINT_INIT { NULL }

/* The handles of a key for jobs and of a slot. */
typedef struct macsec_key {
    void *at;
} macsec_key;
typedef struct macsec_slot {
    void *at;
} macsec_slot;

#define MACSEC_KEY_INIT { NULL }
#define MACSEC_SLOT_INIT { NULL }

/* A configuration. */
typedef struct macsec_config {
    uint8_t sci[8];
    uint32_t suite;     /* MACSEC_SUITE_GCM_..: the suite of keys that name none */
    uint32_t form;      /* MACSEC_FORM_..: the first tag form */
    uint32_t max_frame; /* the most octets of a frame that is sent for a client frame: 64 to 9,248 */
} macsec_config;

/* A key to be installed. */
typedef struct macsec_sak {
    uint8_t bytes[32]; /* the first `length` of them are the key */
    uint8_t salt[12];  /* of its IVs, if packet numbers are extended; else not used */
    uint32_t ssci;     /* the endpoint's own under this key, if packet numbers are extended; else not used */
    uint32_t suite;    /* MACSEC_SUITE_.. */
    uint16_t number;   /* the caller's name for the key, never sent: 0 to 4,095 */
    uint8_t length;    /* 16 or 32 */
    uint8_t offset;    /* the confidentiality offset: 0, 30 or 50; 0 if packet numbers are extended */
} macsec_sak;

/* A command. Its kind says which other members it uses. */
typedef struct macsec_command {
    macsec_sak sak;  /* the key to be installed */
    uint64_t pn;     /* a packet number, or the replay window */
    uint8_t sci[8];  /* the SCI of a receive channel */
    uint32_t ssci;   /* the sender's, if packet numbers are extended */
    uint32_t kind;   /* MACSEC_COMMAND_.. */
    uint32_t choice; /* MACSEC_MODE_.. or MACSEC_FORM_.. */
    uint16_t key;    /* the number of a key: 0 to 4,095 */
    uint8_t an;      /* an association number: 0 to 3 */
    uint8_t flag;    /* on, or conf: 1 if so, else 0 */
    uint64_t reserved[5];
} macsec_command;

/* What becomes of a client frame. */
typedef struct macsec_sent {
    const uint8_t *frame; /* what is to be transmitted */
    size_t length;        /* 0 if nothing is */
    uint32_t status;
    uint32_t fate; /* MACSEC_FATE_.. */
    uint16_t key;  /* the number of the key, of a frame that is sent protected; else 0 */
    uint64_t reserved[4];
} macsec_sent;

/* What becomes of a link frame. The uncontrolled port is not shown: it delivers the frame as it came, but with the last
 * two verdicts only when the frame is given again. */
typedef struct macsec_received {
    const uint8_t *frame; /* what the controlled port delivers, if `delivered` is true */
    size_t length;        /* 0 if it delivers nothing */
    uint32_t status;
    uint32_t verdict; /* MACSEC_VERDICT_.. */
    uint8_t sci[8];   /* if `has_sa` is true: the association that the frame is for, by the SCI of its channel */
    uint8_t an;       /* and its number; else both are 0 */
    bool has_sa;
    bool delivered;
    uint64_t pn; /* the packet number of a frame with MACSEC_VERDICT_NO_RESERVATION or _EARLIER_RUN; else 0 */
    uint64_t reserved[2];
} macsec_received;

/* The plan for a frame. */
typedef struct macsec_planned {
    uint32_t status;
    uint32_t fate; /* MACSEC_FATE_.. of a client frame; of a link frame 0 */
    uint16_t key;  /* the number of the key that the job needs, if there is one; else 0 */
    bool job;      /* is the frame of the slot to be sealed, or to be opened? */
    uint64_t reserved[4];
} macsec_planned;

/* What becomes of the link frame of a slot, as in macsec_received. What is delivered is in the caller's buffer. */
typedef struct macsec_finished {
    size_t length; /* how many octets are delivered: at most the buffer's; 0 if none are */
    uint32_t status;
    uint32_t verdict; /* MACSEC_VERDICT_.. */
    uint8_t sci[8];
    uint8_t an;
    bool has_sa;
    bool delivered;
    uint64_t pn; /* as in macsec_received */
    uint64_t reserved[2];
} macsec_finished;

/* Answers that name no frame. */
#define MACSEC_SENT_INIT { (const uint8_t *)"", 0, 0, 0, 0, { 0 } }
#define MACSEC_RECEIVED_INIT { (const uint8_t *)"", 0, 0, 0, { 0 }, 0, false, false, 0, { 0 } }

typedef struct macsec_options {
    uint64_t window; /* the replay window, in packet numbers */
    uint32_t mode;   /* MACSEC_MODE_.. */
    uint32_t form;   /* MACSEC_FORM_.. */
    bool protect;    /* are client frames protected? */
    bool replay;     /* are late frames dropped? */
    uint64_t reserved[5];
} macsec_options;

/* The endpoint's counters. All counters count modulo 2^64. */
typedef struct macsec_counters {
    /* made: endpoint-counters of tools/families.json */
    uint64_t in_pkts_untagged;
    uint64_t in_pkts_no_tag;
    uint64_t in_pkts_bad_tag;
    uint64_t in_pkts_reserved;
    uint64_t in_pkts_no_sa;
    uint64_t in_pkts_no_sa_error;
    uint64_t in_octets_validated;
    uint64_t in_octets_decrypted;
    uint64_t out_pkts_untagged;
    uint64_t out_pkts_too_long;
    uint64_t out_pkts_no_sa;
    uint64_t reserved[5];
    /* end */
} macsec_counters;

/* The transmit channel's counters. */
typedef struct macsec_tx_counters {
    /* made: tx-counters of tools/families.json */
    uint64_t out_pkts_protected;
    uint64_t out_pkts_encrypted;
    uint64_t out_octets_protected;
    uint64_t out_octets_encrypted;
    uint64_t reserved[4];
    /* end */
} macsec_tx_counters;

/* The counters of a receive channel, of one of its SAs, or of its deleted SAs together. */
typedef struct macsec_rx_counters {
    /* made: rx-counters of tools/families.json */
    uint64_t in_pkts_ok;
    uint64_t in_pkts_unchecked;
    uint64_t in_pkts_delayed;
    uint64_t in_pkts_late;
    uint64_t in_pkts_invalid;
    uint64_t in_pkts_not_valid;
    uint64_t reserved[10];
    /* end */
} macsec_rx_counters;

/* A transmit association. Its next packet number is `next`, and 2^64 more if `next_high` is 1: it is one past the
 * last if the association is exhausted. */
typedef struct macsec_tx_sa {
    uint64_t next;
    uint64_t next_high;
    uint16_t key;
    bool conf; /* does it encrypt? */
    bool on;   /* is it enabled? */
    uint64_t reserved[5];
} macsec_tx_sa;

/* A receive association, with its packet numbers in the same form. */
typedef struct macsec_rx_sa {
    uint64_t next; /* past each that was accepted */
    uint64_t next_high;
    uint64_t lowest; /* the lowest acceptable packet number */
    uint64_t lowest_high;
    uint32_t ssci; /* the sender's */
    uint16_t key;
    bool on;
    uint64_t reserved[3];
} macsec_rx_sa;

/* A record of a journal, or a journal's header. */
typedef struct macsec_record {
    uint8_t octets[MACSEC_RECORD_LENGTH];
} macsec_record;

/* A journal as a file, or none: what macsec_journal_begin has read of it, and which system call is next. */
typedef struct macsec_journal {
    void *at;
} macsec_journal;
#define MACSEC_JOURNAL_INIT { 0 }

/* The system call that is next. */
typedef struct macsec_journal_call {
    uint64_t at;   /* where the octets are written, of MACSEC_STEP_APPENDING; else 0 */
    uint64_t end;  /* how many octets the file has at least, of MACSEC_STEP_LOOKING_AFTER */
    size_t length; /* how many octets are written, of MACSEC_STEP_APPENDING and _FILLING; else 0 */
    uint32_t step; /* MACSEC_STEP_.. */
    uint64_t reserved[4];
} macsec_journal_call;

/* ---- Creation and end ---- */

/* Creates an endpoint of a configuration in a handle that holds none. It has no keys and no associations, its
 * counters are 0, it protects, validates strictly, and drops late frames with a replay window of 0. MACSEC_E_TAKEN,
 * MACSEC_E_NO_SUCH_SUITE, MACSEC_E_NO_SUCH_FORM, MACSEC_E_NEW_MAX_FRAME, MACSEC_E_NEW_SCI_FORM, MACSEC_E_MEMORY: the
 * first of them that applies, in this order. */
uint32_t macsec_new(macsec_endpoint *e, const macsec_config *config);

/* A pointer that is not null, for as many octets. */
static inline const uint8_t *macsec_octets(const uint8_t *octets, size_t length) {
    return length == 0 ? (const uint8_t *)"" : octets;
}

uint32_t macsec_configure_raw(macsec_endpoint *e, const uint8_t *text, size_t length, uint32_t *line);
/* Creates the endpoint of a configuration's text in a handle that holds none, and carries out the text's commands. The
 * lines are as docs/SCRIPT.md says for one end: `end A SUITE SCI MAX FORM`, and then commands at A, in their order.
 * Blank lines, and lines whose first word begins with #, are skipped. All of it is done, or nothing has changed:
 * MACSEC_E_TAKEN; the first fault of the text, MACSEC_E_LINE_.. or MACSEC_E_CONFIG_LONG; if the text has no fault, the
 * refusal of the first command that is refused; or MACSEC_E_MEMORY. `line` is always written: the number of the line
 * that is at fault or refused, from 1; else, and if every line is skipped, 0. Each endpoint begins at the packet number
 * of its `txsa`: the same text given twice protects two frames with one IV. */
static inline uint32_t macsec_configure(macsec_endpoint *e, const uint8_t *text, size_t length, uint32_t *line) {
    return macsec_configure_raw(e, macsec_octets(text, length), length, line);
}

/* Frees the endpoint of a handle, which holds none then. A handle that holds none stays as it is, and a null pointer is
 * no error. */
void macsec_free_raw(macsec_endpoint *e);
static inline void macsec_free(macsec_endpoint *e) {
    if (e != NULL)
        macsec_free_raw(e);
}

/* ---- Frames ---- */

uint32_t macsec_send_raw(macsec_endpoint *e, const uint8_t *frame, size_t length, macsec_sent *out);
/* What becomes of a client frame of the controlled port (10.5). `out` need not be initialized. Returns out->status:
 * MACSEC_E_FRAME_SHORT, MACSEC_E_FRAME_LONG. */
static inline uint32_t macsec_send(macsec_endpoint *e, const uint8_t *frame, size_t length, macsec_sent *out) {
    const macsec_sent none = MACSEC_SENT_INIT;
    *out = none;
    return macsec_send_raw(e, macsec_octets(frame, length), length, out);
}

uint32_t macsec_send_uncontrolled_raw(macsec_endpoint *e, const uint8_t *frame, size_t length);
/* A client frame of the uncontrolled port: if the status is MACSEC_OK, it is to be transmitted as it is. Nothing
 * counts it. MACSEC_E_FRAME_SHORT, MACSEC_E_FRAME_LONG. */
static inline uint32_t macsec_send_uncontrolled(macsec_endpoint *e, const uint8_t *frame, size_t length) {
    return macsec_send_uncontrolled_raw(e, macsec_octets(frame, length), length);
}

uint32_t macsec_receive_raw(macsec_endpoint *e, const uint8_t *frame, size_t length, macsec_received *out);
/* What becomes of a frame from the link, from any source, forged ones too (10.6). `out` need not be initialized.
 * Returns out->status: MACSEC_E_FRAME_SHORT, MACSEC_E_FRAME_LONG. */
static inline uint32_t macsec_receive(macsec_endpoint *e, const uint8_t *frame, size_t length, macsec_received *out) {
    const macsec_received none = MACSEC_RECEIVED_INIT;
    *out = none;
    return macsec_receive_raw(e, macsec_octets(frame, length), length, out);
}

/* ---- Frames on several cores ----
 *
 * The cipher's work on a frame can be left to another thread. A call with the endpoint plans the frame in a slot, which
 * holds a copy of it. The job then needs the slot and a key, and no endpoint. The endpoint takes the steps of
 * macsec_send and macsec_receive, in the order of the calls of macsec_plan_send and macsec_finish_receive.
 *
 *     macsec_slot slot = MACSEC_SLOT_INIT;  // for each frame that is under way: 18.7 KB in three blocks
 *     macsec_slot_new(&slot);
 *     macsec_key key = MACSEC_KEY_INIT;     // for each key and thread: 4.5 KB in one block
 *     macsec_key_take(&key, &a, sak.number);
 *
 *     macsec_planned planned; // a client frame, in the endpoint's thread
 *     if (macsec_plan_send(&a, &slot, frame, length, &planned) == MACSEC_OK && planned.job)
 *         macsec_seal_job(&slot, &key, out, sizeof out, &written);  // in any thread
 *
 *     macsec_plan_receive(&a, &slot, frame, length, &planned);      // a link frame, in the endpoint's thread
 *     if (planned.job)
 *         macsec_open_job(&slot, &key);                             // in any thread
 *     macsec_finish_receive(&a, &slot, out, sizeof out, &finished); // in the endpoint's thread
 *
 * The caller owes what it owes for an endpoint: HANDLES, POINTERS and THREADS hold for keys and slots too. So each key
 * and each slot is in one call at a time, and passes from thread to thread by a lock or by a thread's start or join.
 * The library refuses everything else: a job that is not there or that was done (MACSEC_E_JOB), and every key but the
 * one of the plan (MACSEC_E_OTHER_KEY).
 *
 * ORDER      Transmit sealed frames in the order of their plans, and finish link frames in the order of their arrival:
 *            a replay window of 0 drops what was overtaken. A plan uses its packet number, also if it is never sealed.
 * BETWEEN    Any call may come between a plan and its job. A frame is sealed as it was planned, also after its SA was
 *            deleted. macsec_finish_receive judges a frame by the state that it finds. What was opened is used if the
 *            endpoint would open the frame in the same way now, under the same key. Else the call opens it itself; and
 *            with `ahead` where the packet number is not reserved.
 * SECRETS    A key, and a slot with a job, hold the octets of a key. Freeing overwrites them, and retiring the key does
 *            not: free the macsec_key, and clear or finish the slot. The calls with slots can leave such octets on the
 *            stack. A retired key can't be taken, but one that was taken before still works. */

/* Prepares the endpoint's key of this number once more, in a handle that holds no key. MACSEC_E_TAKEN, MACSEC_E_EMPTY
 * (the endpoint), MACSEC_E_NO_SUCH_KEY_NUMBER, MACSEC_E_NO_KEY, MACSEC_E_KEY_RETIRED, MACSEC_E_MEMORY. */
uint32_t macsec_key_take(macsec_key *key, const macsec_endpoint *e, uint16_t number);
/* Frees the key of a handle, as macsec_free an endpoint. */
void macsec_key_free_raw(macsec_key *key);
static inline void macsec_key_free(macsec_key *key) {
    if (key != NULL)
        macsec_key_free_raw(key);
}

/* Creates a slot without a frame, in a handle that holds none. MACSEC_E_TAKEN, MACSEC_E_MEMORY. */
uint32_t macsec_slot_new(macsec_slot *slot);
/* Frees the slot of a handle, as macsec_free an endpoint. */
void macsec_slot_free_raw(macsec_slot *slot);
static inline void macsec_slot_free(macsec_slot *slot) {
    if (slot != NULL)
        macsec_slot_free_raw(slot);
}
/* Gives up the frame of a slot, planned or opened, if it has one. */
uint32_t macsec_slot_clear(macsec_slot *slot);

uint32_t macsec_plan_send_raw(macsec_endpoint *e, macsec_slot *slot, const uint8_t *frame, size_t length,
                              macsec_planned *out);
/* Takes the step of macsec_send, without the work of the cipher. `job` is true for the fate MACSEC_FATE_PROTECTED
 * alone: then the slot has the frame, and what macsec_seal_job makes of it is to be transmitted. Else the slot has
 * none; a frame of fate MACSEC_FATE_PLAIN is to be transmitted as it is. Returns out->status: MACSEC_E_JOB if the slot
 * has a frame, MACSEC_E_FRAME_SHORT, MACSEC_E_FRAME_LONG. */
static inline uint32_t macsec_plan_send(macsec_endpoint *e, macsec_slot *slot, const uint8_t *frame, size_t length,
                                        macsec_planned *out) {
    return macsec_plan_send_raw(e, slot, macsec_octets(frame, length), length, out);
}

uint32_t macsec_seal_job_raw(macsec_slot *slot, macsec_key *key, uint8_t *out, size_t length, size_t *written);
/* Writes the protected frame of the slot to `out`, which has room for `length` octets; `written` is how many it has, at
 * most MACSEC_FRAME_MAX. The slot then has no frame. MACSEC_E_JOB, MACSEC_E_OTHER_KEY, MACSEC_E_SPACE: then nothing has
 * changed, and the job can be done later. */
static inline uint32_t macsec_seal_job(macsec_slot *slot, macsec_key *key, uint8_t *out, size_t length,
                                       size_t *written) {
    uint8_t none;
    return macsec_seal_job_raw(slot, key, length == 0 ? &none : out, length, written);
}

uint32_t macsec_plan_receive_raw(const macsec_endpoint *e, macsec_slot *slot, const uint8_t *frame, size_t length,
                                 macsec_planned *out);
/* Puts a link frame into a slot without one. `job` says whether macsec_finish_receive would open it now: then
 * macsec_open_job can do that before, or need not. Nothing of the endpoint changes. Returns out->status: MACSEC_E_JOB
 * if the slot has a frame, MACSEC_E_FRAME_SHORT, MACSEC_E_FRAME_LONG. */
static inline uint32_t macsec_plan_receive(const macsec_endpoint *e, macsec_slot *slot, const uint8_t *frame,
                                           size_t length, macsec_planned *out) {
    return macsec_plan_receive_raw(e, slot, macsec_octets(frame, length), length, out);
}

/* Opens the link frame of a slot. MACSEC_OK says nothing of the frame: macsec_finish_receive says whether its ICV is
 * valid. MACSEC_E_JOB, MACSEC_E_OTHER_KEY. */
uint32_t macsec_open_job(macsec_slot *slot, macsec_key *key);

uint32_t macsec_finish_receive_raw(macsec_endpoint *e, macsec_slot *slot, uint8_t *out, size_t length,
                                   macsec_finished *finished);
/* Takes the step of macsec_receive for the link frame of a slot, opened before or not. What is delivered is written to
 * `out`, which has room for `length` octets: MACSEC_FRAME_MAX or more. The slot then has no frame. Returns
 * finished->status: MACSEC_E_JOB if the slot has no link frame, MACSEC_E_SPACE. */
static inline uint32_t macsec_finish_receive(macsec_endpoint *e, macsec_slot *slot, uint8_t *out, size_t length,
                                             macsec_finished *finished) {
    uint8_t none;
    return macsec_finish_receive_raw(e, slot, length == 0 ? &none : out, length, finished);
}

/* ---- Commands (10.7): each is carried out, or refused and then nothing has changed ---- */

/* Protect client frames, or send them as they are. */
uint32_t macsec_set_protect(macsec_endpoint *e, bool on);
/* Validate received frames in this mode. */
uint32_t macsec_set_validation(macsec_endpoint *e, uint32_t mode);
/* Drop late frames or not, and set the replay window, in packet numbers. MACSEC_E_WINDOW if it is above 2^32 - 1, or,
 * while a key of extended packet numbers is not retired, above 2^30 - 1. */
uint32_t macsec_set_replay(macsec_endpoint *e, bool protect, uint64_t window);
/* Set the tag form. */
uint32_t macsec_set_tag_form(macsec_endpoint *e, uint32_t form);

/* Install a key. This endpoint never takes the key's number or its octets again, even after the key is retired: it
 * takes 4,096 keys in its life (macsec_keys_left), unless they are renewed (macsec_renew_key). Another endpoint, or the
 * next run of the program, knows nothing of the key: see macsec_add_tx_sa. */
uint32_t macsec_install_key(macsec_endpoint *e, const macsec_sak *key);
/* The same, also under the number of a retired key that no association uses. The new key then takes that key's place,
 * so 4,096 is a limit on keys at one time. Associations, packet numbers, windows and counters go on. Every later call
 * refuses the octets of the key whose place was taken (KeyRepeated, before any other refusal): the endpoint keeps 32
 * octets for each, which only calls that install a key search. MACSEC_E_MEMORY if there is no memory for them; then
 * nothing has changed. */
uint32_t macsec_renew_key(macsec_endpoint *e, const macsec_sak *key);
/* Retire a key that no association uses: no new association may use it. The endpoint overwrites its octets, and what it
 * had computed from them. Of the key only a fingerprint stays, by which the octets are still refused: the first octets
 * of a SHA-256 digest, as many as the key had. */
uint32_t macsec_retire_key(macsec_endpoint *e, uint16_t key);

/* Create a transmit association (an: 0 to 3), disabled, whose first packet number is `next`; it encrypts if `conf`,
 * and else protects integrity only. Packet numbers are forgotten when the endpoint is freed or the process ends: with
 * a key that was used before, `next` must be above all numbers used under it, else IVs repeat, which breaks GCM. */
uint32_t macsec_add_tx_sa(macsec_endpoint *e, uint8_t an, uint16_t key, uint64_t next, bool conf);
/* Enable it, and disable every other one; disable it; delete it. */
uint32_t macsec_enable_tx_sa(macsec_endpoint *e, uint8_t an);
uint32_t macsec_disable_tx_sa(macsec_endpoint *e, uint8_t an);
uint32_t macsec_delete_tx_sa(macsec_endpoint *e, uint8_t an);

/* Create a receive channel, of another endpoint's SCI; delete it with its associations and counters. */
uint32_t macsec_add_rx_sc(macsec_endpoint *e, const uint8_t sci[8]);
uint32_t macsec_delete_rx_sc(macsec_endpoint *e, const uint8_t sci[8]);
/* Create a receive association, disabled, whose lowest acceptable packet number is `lowest`. `ssci` is the
 * sender's, if packet numbers are extended; else it is not used. */
uint32_t macsec_add_rx_sa(macsec_endpoint *e, const uint8_t sci[8], uint8_t an, uint16_t key, uint64_t lowest,
                      uint32_t ssci);
/* Enable it; disable it; raise its lowest acceptable packet number; delete it. */
uint32_t macsec_enable_rx_sa(macsec_endpoint *e, const uint8_t sci[8], uint8_t an);
uint32_t macsec_disable_rx_sa(macsec_endpoint *e, const uint8_t sci[8], uint8_t an);
uint32_t macsec_set_lowest_pn(macsec_endpoint *e, const uint8_t sci[8], uint8_t an, uint64_t pn);
uint32_t macsec_delete_rx_sa(macsec_endpoint *e, const uint8_t sci[8], uint8_t an);

uint32_t macsec_command_line_raw(macsec_endpoint *e, const uint8_t *text, size_t length);
/* Any of these commands, as a line says it: `A txon 0` is macsec_enable_tx_sa(e, 0). The line is text without its line
 * feed. A blank line, and a line whose first word begins with #, do nothing. The first status that applies:
 * MACSEC_E_LINE_LONG, MACSEC_E_LINE_WORD, MACSEC_E_LINE_COUNT, what is wrong with a word, from left to right,
 * MACSEC_E_LINE_ENDS for a line that is no command at A, or the refusal of the command. Or MACSEC_E_MEMORY. */
static inline uint32_t macsec_command_line(macsec_endpoint *e, const uint8_t *text, size_t length) {
    return macsec_command_line_raw(e, macsec_octets(text, length), length);
}

uint32_t macsec_parse_line_raw(const uint8_t *text, size_t length, macsec_command *command);
/* The command of such a line, as a struct. A caller can look at it, allow it or not, change it, and give it to
 * macsec_carry_out. Members that its kind does not use are 0. A skipped line is a MACSEC_COMMAND_NONE. The statuses are
 * those of macsec_command_line for a line that is wrong, or MACSEC_E_MEMORY. Then all of `command` is 0, as for a
 * skipped line: carry out nothing after another status than MACSEC_OK.
 *
 * A key line puts a key into `command`: overwrite it with macsec_clear_command. Proved, of a handle that holds an
 * endpoint: a line that is parsed, and then carried out as it is, does what macsec_command_line does
 * (crates/macsec_c/specs/RowLaws.antt). */
static inline uint32_t macsec_parse_line(const uint8_t *text, size_t length, macsec_command *command) {
    return macsec_parse_line_raw(macsec_octets(text, length), length, command);
}

uint32_t macsec_parse_end_raw(const uint8_t *text, size_t length, macsec_config *config);
/* The configuration of the line `end A SUITE SCI MAX FORM`, for macsec_new. The first status that applies: what is
 * wrong with a line of its kind; MACSEC_E_LINE_ENDS if its tag form does not fit its SCI, or if it is another line,
 * also a skipped one. Or MACSEC_E_MEMORY. After every status but MACSEC_OK all of `config` is 0, which macsec_new
 * refuses. */
static inline uint32_t macsec_parse_end(const uint8_t *text, size_t length, macsec_config *config) {
    return macsec_parse_end_raw(macsec_octets(text, length), length, config);
}

/* Carries out the command that a struct means. A MACSEC_COMMAND_NONE does nothing. Members that the kind does not use
 * have no effect. Leave the reserved ones 0, as macsec_parse_line and macsec_clear_command do. MACSEC_E_NO_SUCH_COMMAND
 * if there is no such kind, if the flag of a kind that uses it is neither 0 nor 1, or if the `key` of a
 * MACSEC_COMMAND_KEY is not `sak.number`. The other statuses are those of the command's own call; for a key, those of
 * macsec_install_key with `sak`. */
uint32_t macsec_carry_out(macsec_endpoint *e, const macsec_command *command);

/* Overwrites a command with zeros, and so the key in it. The caller's copies of it stay. */
void macsec_clear_command(macsec_command *command);

uint32_t macsec_load_raw(macsec_endpoint *e, const macsec_command *commands, size_t count, uint64_t *begins,
                         size_t begins_count, size_t *place);
/* Carries out all of these commands, in their order, or none. A key is installed as by macsec_renew_key: it may take
 * the number of a retired key, also of one that an earlier command retires. Other commands are carried out as by
 * macsec_carry_out. But a command that creates an association, and would be refused with MACSEC_E_PN_FLOOR, begins it
 * above its floor: above all packet numbers that may have been used under its key, or above what
 * macsec_reserve_rx_floor gives. `begins[i]` is then the number at which the association of `commands[i]` begins, and
 * otherwise 0. MACSEC_E_PN_FLOOR remains if there is no such number.
 *
 * With MACSEC_OK `place` is `count`. If a command is refused, the call returns its status, and `place` is its index;
 * commands that mean nothing come first (MACSEC_E_NO_SUCH_COMMAND and other statuses of macsec_carry_out). Then neither
 * the endpoint nor `begins` has changed: no packet number is lost, and keys, counters and windows are as they were. The
 * same after MACSEC_E_EMPTY and MACSEC_E_MEMORY, with `place` 0. The raw call also returns MACSEC_E_SPACE, with `place`
 * 0, if `begins_count` is not `count`.
 *
 * The commands are carried out at a copy of the endpoint, which then takes its place. The copy has as many octets as an
 * endpoint of macsec_new, and 4.5 KB of them are written for each key; what is not in use is overwritten and freed. Use
 * macsec_carry_out for a command alone. Overwrite the commands if there are keys in them (macsec_clear_command).
 * Proved: what is said here, but for the memory (crates/macsec_c_calls/specs/Loading.antt). */
static inline uint32_t macsec_load(macsec_endpoint *e, const macsec_command *commands, size_t count, uint64_t *begins,
                                   size_t *place) {
    macsec_command none;
    uint64_t nothing;
    if (count != 0)
        return macsec_load_raw(e, commands, count, begins, count, place);
    macsec_clear_command(&none);
    return macsec_load_raw(e, &none, 0, &nothing, 0, place);
}

uint32_t macsec_answer_raw(macsec_endpoint *e, uint32_t number, const uint8_t *text, size_t text_length, uint8_t *out,
                           size_t out_length, size_t *written);
/* As macsec_command_line, with the text that `macsec run` prints, and `A counters` and `A numbers` too: does line
 * `number` of a script at end A, and writes its text to `out`, which has `room` octets. `written` is how many octets
 * are written; no zero octet is added. The text depends on the number and on the endpoint, and on nothing else.
 *
 *     a command               `3 done`, or `3 refused 5 NoKey` with the status of the refusal
 *     A counters, A numbers   a line for each counter, or for each association
 *     a skipped line          nothing
 *     a wrong line            `macsec: line 3: Word`, with the status that macsec_command_line has for it
 *     any other line          `macsec: line 3: Ends`, with MACSEC_E_LINE_ENDS: lines of B, of frames (send, sendu,
 *                             deliver) and of the link (alter, pad, inject), and `end` lines, are in a wrong place
 *
 * MACSEC_E_ANSWER_LONG if `room` is below MACSEC_ANSWER_MIN or too small for the counters or packet numbers: then
 * `written` is the octets that the answer needs. After it and MACSEC_E_MEMORY nothing is written. */
static inline uint32_t macsec_answer(macsec_endpoint *e, uint32_t number, const uint8_t *line, size_t length,
                                     uint8_t *out, size_t room, size_t *written) {
    uint8_t none;
    return macsec_answer_raw(e, number, macsec_octets(line, length), length, room == 0 ? &none : out, room, written);
}

/* ---- What an endpoint shows; nothing changes. MACSEC_E_NOT_FOUND if there is no such channel or association ---- */

uint32_t macsec_get_options(const macsec_endpoint *e, macsec_options *out);
uint32_t macsec_get_counters(const macsec_endpoint *e, macsec_counters *out);
uint32_t macsec_get_tx_counters(const macsec_endpoint *e, macsec_tx_counters *out);
/* How many numbers of keys are left that no key had: 4,096 less the number of keys, retired or not. A key that took a
 * retired key's place counts once with it. */
uint32_t macsec_keys_left(const macsec_endpoint *e, uint32_t *out);
/* A receive channel's counters. Each is, modulo 2^64, the sum of its SAs' and of its deleted SAs' counters. */
uint32_t macsec_get_rx_counters(const macsec_endpoint *e, const uint8_t sci[8], macsec_rx_counters *out);
/* The counters of one of its associations, since it was created. */
uint32_t macsec_get_rx_sa_counters(const macsec_endpoint *e, const uint8_t sci[8], uint8_t an, macsec_rx_counters *out);
/* What its deleted associations had counted, together. */
uint32_t macsec_get_removed_counters(const macsec_endpoint *e, const uint8_t sci[8], macsec_rx_counters *out);
/* The SCI of the receive channel at this place in the order of creation, 0 to 63. */
uint32_t macsec_get_rx_sc(const macsec_endpoint *e, size_t place, uint8_t sci[8]);
uint32_t macsec_get_tx_sa(const macsec_endpoint *e, uint8_t an, macsec_tx_sa *out);
uint32_t macsec_get_rx_sa(const macsec_endpoint *e, const uint8_t sci[8], uint8_t an, macsec_rx_sa *out);

/* ---- Reservations: packet numbers that outlive the endpoint ----
 *
 * An endpoint that was made with a journal uses a packet number only if a record that is already on the disk reserves
 * it. It begins no association at a number that a record of an earlier run reserves (MACSEC_E_PN_FLOOR, before every
 * other refusal). So no two frames of all runs over one journal have the same key and IV, whatever the moment at which
 * each run ended. With `ahead` it also accepts a packet number only if a record that is already on the disk reserves
 * it, and if no record of an earlier run does. docs/THEOREM.md says what follows for two ends that crash: with `ahead`,
 * strict validation, replay protection and a window of 0, no frame is delivered twice in all runs.
 * With and without `ahead`, an endpoint with a journal remembers the lowest acceptable packet number of a receive
 * association that it deletes. Under the same key it does not create the association again below that number
 * (MACSEC_E_PN_FLOOR too). It remembers the numbers of 1,024 associations, until their key is retired. For further ones
 * it remembers the highest number for each key, and for more than 1,024 keys the highest of all. Then it can refuse
 * more than it must.
 *
 * The caller keeps the file and does the following in this order; the library opens none.
 *
 * 1. Create the file only if the operator asks for it: with a new journal every number counts as unused. Write a header
 *    (macsec_journal_header), then sync the file and its folder. A missing, empty or shorter file is no journal.
 * 2. One endpoint at a time sends with it, even in one process. Make the next endpoint of the file as it is when the
 *    one before sends nothing more, and with `ahead` also receives nothing more. Lock the file as long as an endpoint
 *    lives. Never restore or copy an older file.
 * 3. Read the whole file, and make the endpoint with macsec_reserve_open or macsec_reserve_configure.
 * 4. After macsec_add_tx_sa, before macsec_enable_tx_sa, and then from time to time ask macsec_reserve_wanted for a
 *    record. With `ahead` ask macsec_reserve_to_accept in the same way after macsec_add_rx_sa, and then from time to
 *    time with the `pn` 0. After a frame with MACSEC_VERDICT_NO_RESERVATION ask with its `pn`: the frame can be given
 *    again after step 6 for that record. After MACSEC_VERDICT_EARLIER_RUN there is nothing to ask for.
 *    Without `ahead` take the record of each receive association from macsec_reserve_to_save, before an orderly end and
 *    from time to time. With a replay window of 0, a later run then does not deliver again what was accepted before
 *    that record. What was accepted after the last record can be delivered again.
 * 5. Write each record with pwrite at the greatest multiple of 64 that is not above the file's length. A crash may
 *    have left a part of a record there: write over it. After such a part no record would be read.
 * 6. When fdatasync has returned 0, call macsec_reserve_granted. If it fails, a later one may return 0 although the
 *    record is lost: write the record again first.
 * 7. To shorten the file, write what macsec_journal_compacted gives to a new file, sync it, rename it over the old one,
 *    and sync the folder.
 *
 * Choose `amount` by the rate of frames, a second's worth or more: a run that ends loses up to so many numbers. A
 * sender loses only numbers. A receiver with `ahead` that begins again drops up to so many frames of its peer, unless
 * the peer begins above them, or under a new key. */

/* The header of a new journal, with a salt of 24 random octets and a check: in journals of different salts the records
 * of one key have different names. Returns MACSEC_OK. */
uint32_t macsec_journal_header(const uint8_t salt[24], macsec_record *out);

uint32_t macsec_journal_compacted_raw(const uint8_t *journal, size_t journal_length, uint8_t *out, size_t out_length,
                                      size_t *written);
/* A journal with the same header that reserves the same, with one record for each name. `out` has room for `length`
 * octets; `out_length` is how many of them are written. MACSEC_E_NOT_JOURNAL, MACSEC_E_MEMORY. */
static inline uint32_t macsec_journal_compacted(const uint8_t *journal, size_t length, uint8_t *out,
                                                size_t *out_length) {
    uint8_t none;
    return macsec_journal_compacted_raw(macsec_octets(journal, length), length, length == 0 ? &none : out, length,
                                        out_length);
}

uint32_t macsec_reserve_open_raw(macsec_endpoint *e, const macsec_config *config, const uint8_t *journal,
                                 size_t length, bool ahead);
/* As macsec_new, with a journal: all octets of its file. With `ahead` the endpoint reserves packet numbers ahead of
 * receiving. MACSEC_E_NOT_JOURNAL comes after MACSEC_E_NO_SUCH_FORM. */
static inline uint32_t macsec_reserve_open(macsec_endpoint *e, const macsec_config *config, const uint8_t *journal,
                                           size_t length, bool ahead) {
    return macsec_reserve_open_raw(e, config, macsec_octets(journal, length), length, ahead);
}

uint32_t macsec_reserve_configure_raw(macsec_endpoint *e, const uint8_t *text, size_t text_length,
                                      const uint8_t *journal, size_t journal_length, bool ahead, uint32_t *line);
/* As macsec_configure, with a journal, and with `ahead` as for macsec_reserve_open. A fault of the text comes first,
 * then MACSEC_E_NOT_JOURNAL with `line` 0. A `txsa` or `rxsa` at a number that an earlier run reserved or saved is
 * refused, and then there is no endpoint. */
static inline uint32_t macsec_reserve_configure(macsec_endpoint *e, const uint8_t *text, size_t text_length,
                                                const uint8_t *journal, size_t length, bool ahead, uint32_t *line) {
    return macsec_reserve_configure_raw(e, macsec_octets(text, text_length), text_length,
                                        macsec_octets(journal, length), length, ahead, line);
}

/* The record to write next for a transmit association: it reserves the numbers up to its next one plus `amount`.
 * MACSEC_E_NOT_FOUND if there is no such association, or if half of `amount` are still reserved for it. */
uint32_t macsec_reserve_wanted(const macsec_endpoint *e, uint8_t an, uint64_t amount, macsec_record *out);
/* The record to write next for a receive association of an endpoint with `ahead`: it reserves the numbers up to the
 * next one plus `amount`, where the next one is the association's own, or `pn` if that is higher: the packet number of
 * a frame that was dropped, or 0. MACSEC_E_NOT_FOUND if there is no such association, or if half of `amount` are still
 * reserved for it. */
uint32_t macsec_reserve_to_accept(const macsec_endpoint *e, const uint8_t sci[8], uint8_t an, uint64_t amount,
                                  uint64_t pn, macsec_record *out);
/* The record that saves the lowest acceptable packet number of a receive association, or MACSEC_E_NOT_FOUND. */
uint32_t macsec_reserve_to_save(const macsec_endpoint *e, const uint8_t sci[8], uint8_t an, macsec_record *out);
/* The floor of a key, and of a receive association under a key: the highest packet number that earlier runs reserved or
 * saved, 0 if none; for a receive association at least what the endpoint remembers of those that it deleted (above). An
 * association that begins at it or below is refused. The floor of a key stays the same until the key is retired, and is
 * then 0. MACSEC_E_NOT_FOUND if there is no such key. */
uint32_t macsec_reserve_tx_floor(const macsec_endpoint *e, uint16_t key, uint64_t *out);
uint32_t macsec_reserve_rx_floor(const macsec_endpoint *e, const uint8_t sci[8], uint8_t an, uint16_t key,
                                 uint64_t *out);
/* A record is on the disk, where every later run will read it. MACSEC_E_NOT_RECORD if its octets are none: then nothing
 * has changed. */
uint32_t macsec_reserve_granted(macsec_endpoint *e, const macsec_record *record);

/* ---- A journal as a file ----
 *
 * These calls keep the file of a journal, in place of steps 1 and 5 to 7. They open no file and make no system call: a
 * handle says which one is next, and is given its answer. Its caller makes the call, and says truly whether it
 * succeeded. Then each record that macsec_journal_shown shows is on the disk, where a later run will read it, whatever
 * fails and whenever the process or the system stops; crates/macsec_journal says what is proved, and of which disks.
 *
 *     macsec_journal j = MACSEC_JOURNAL_INIT; // octets: all of the locked file; buffer: of `limit` octets
 *     macsec_journal_begin(&j, octets, length, limit);
 *     macsec_journal_whole(&j, buffer, limit, &length); // for macsec_reserve_open
 *
 *     macsec_journal_call call;
 *     macsec_journal_order(&j, records, count, false);
 *     while (macsec_journal_next(&j, buffer, limit, &call) == MACSEC_OK && call.step != MACSEC_STEP_RESTING)
 *         macsec_journal_answered(&j, carried_out(&call, buffer)); // the system call of this step
 *     for (size_t i = 0; macsec_journal_shown(&j, i, &record) == MACSEC_OK; i++)
 *         macsec_reserve_granted(&e, &record);
 *
 * A file begins with a header and a count of its entries, with a digest of them. Records are appended twice, in sectors
 * of 4,096 octets of their own. So a file with one damaged sector is refused, or says all that it said before. The
 * first order, and each after a failure, replaces the file by a new one with all that was read or ordered. If a
 * renameat fails, its new file may have the name all the same: keep it open and locked. If the name leads to it at the
 * next MACSEC_STEP_LOOKING_BEFORE, it is the journal. A file with a header of macsec_journal_header is read too,
 * without a test for damage, and then replaced by one of the new form. Names are compared one with another:
 * macsec_journal_begin makes n * n comparisons for n names, and an order of k records 3 * k * n. */

/* The system call that is next. */
enum {
    MACSEC_STEP_RESTING = 0,        /* none: there is no order */
    MACSEC_STEP_APPENDING = 1,      /* pwrite of the octets to the file, at `at`: succeeded once all are written */
    MACSEC_STEP_SYNCING = 2,        /* fdatasync of the file */
    MACSEC_STEP_LOOKING_AFTER = 3,  /* fstatat: the name leads to this file, and it has at least `end` octets */
    MACSEC_STEP_LOOKING_BEFORE = 4, /* fstatat: the name leads to the file that the process has */
    MACSEC_STEP_REMOVING = 5,       /* unlinkat of a new file that was left; succeeded too if there is none */
    MACSEC_STEP_CREATING = 6,       /* openat of a new file beside it, with O_CREAT, O_EXCL and O_NOFOLLOW */
    MACSEC_STEP_LOCKING = 7,        /* flock of the new file */
    MACSEC_STEP_FILLING = 8,        /* pwrite of the octets to it, at 0: succeeded once all are written */
    MACSEC_STEP_SYNCING_NEW = 9,    /* fsync of it */
    MACSEC_STEP_RENAMING = 10,      /* renameat: it gets the journal's name, and is the journal from then on */
    MACSEC_STEP_SYNCING_FOLDER = 11 /* fsync of the folder */
};

/* The octets of a new file with a salt of 24 random octets. Returns MACSEC_OK. */
uint32_t macsec_journal_created(const uint8_t salt[24], uint8_t out[128]);

uint32_t macsec_journal_begin_raw(macsec_journal *j, const uint8_t *octets, size_t length, uint32_t limit);
/* Begins, in a handle that holds no journal, with all octets of a file that may have `limit` octets. It allocates all
 * that later calls need: five blocks, of less than three times the limit. MACSEC_E_TAKEN; MACSEC_E_NOT_JOURNAL, and
 * MACSEC_E_JOURNAL_DAMAGED: install new keys at both ends, and create another journal; MACSEC_E_JOURNAL_FULL: the
 * journal was read, but its entries do not fit into a file of the limit, which has 128 octets and 64 for each entry;
 * MACSEC_E_MEMORY. */
static inline uint32_t macsec_journal_begin(macsec_journal *j, const uint8_t *octets, size_t length, uint32_t limit) {
    return macsec_journal_begin_raw(j, macsec_octets(octets, length), length, limit);
}

uint32_t macsec_journal_order_raw(macsec_journal *j, const uint8_t *records, size_t length, bool anew);
/* Orders that records be made durable. With `anew`, if the file is in doubt, or if they do not fit after its end, the
 * file is replaced, also without records. The first that applies, and then nothing has changed:
 * MACSEC_E_JOURNAL_BUSY (the step is not MACSEC_STEP_RESTING), MACSEC_E_JOURNAL_FULL (more than limit / 64 records),
 * MACSEC_E_NOT_RECORD, MACSEC_E_JOURNAL_FULL (limit / 64 records; or with an entry for each record whose name has none,
 * the entries would not fit). */
static inline uint32_t macsec_journal_order(macsec_journal *j, const macsec_record *records, size_t count, bool anew) {
    const size_t length = MACSEC_RECORD_LENGTH * count;
    return macsec_journal_order_raw(j, macsec_octets((const uint8_t *)records, length), length, anew);
}

uint32_t macsec_journal_next_raw(macsec_journal *j, uint8_t *out, size_t length, macsec_journal_call *call);
/* Shows the system call that is next. What it writes is at the start of `out`, which has `room` octets: as many as the
 * limit are enough. MACSEC_E_SPACE. */
static inline uint32_t macsec_journal_next(macsec_journal *j, uint8_t *out, size_t room, macsec_journal_call *call) {
    uint8_t none;
    return macsec_journal_next_raw(j, room == 0 ? &none : out, room, call);
}

/* Did the system call succeed? If it did not, there is no order any more, and the file is in doubt: the next order
 * replaces it by one with all that was read and ordered. Without an order, `false` says only that it is in doubt. */
uint32_t macsec_journal_answered(macsec_journal *j, bool ok);

/* The record at this index, from 0, of those that the last answer showed to be durable: those of an order that were
 * appended, or all entries of a file that was replaced. They are shown until the next order, answer, or call of
 * macsec_journal_let_go. MACSEC_E_NOT_FOUND after the last one. */
uint32_t macsec_journal_shown(macsec_journal *j, size_t place, macsec_record *out);

/* The entry at this index, from 0: the highest record of a name that was read or ordered. A new name is the last one.
 * MACSEC_E_NOT_FOUND after the last one. */
uint32_t macsec_journal_record(macsec_journal *j, size_t place, macsec_record *out);

/* Lets a name go, the first 32 octets of its records: the next file that replaces the journal has no record of it.
 * A name in use is not refused: let a name go only if no endpoint has its key, and no later one will have it. Else a
 * later one begins below numbers that were used. MACSEC_E_JOURNAL_BUSY as for macsec_journal_order. */
uint32_t macsec_journal_let_go(macsec_journal *j, const uint8_t name[32]);

/* The record with this name and number: a program can keep numbers of its own in a journal, under names that no key
 * has. Returns MACSEC_OK. */
uint32_t macsec_journal_noted(const uint8_t name[32], uint64_t number, macsec_record *out);

uint32_t macsec_journal_whole_raw(macsec_journal *j, uint8_t *out, size_t length, size_t *written);
/* Writes what an endpoint is made with (macsec_reserve_open): a header, and the records of all entries in their order,
 * of 64 octets each. `length` is the number of these octets, and `out` has `room`: as many as the limit are enough.
 * MACSEC_E_SPACE. */
static inline uint32_t macsec_journal_whole(macsec_journal *j, uint8_t *out, size_t room, size_t *length) {
    uint8_t none;
    return macsec_journal_whole_raw(j, room == 0 ? &none : out, room, length);
}

/* Frees the journal of a handle, which holds none then. */
void macsec_journal_free_raw(macsec_journal *j);
static inline void macsec_journal_free(macsec_journal *j) {
    if (j != NULL)
        macsec_journal_free_raw(j);
}

/* ---- Frames for tests ---- */

uint32_t macsec_seal_raw(const macsec_sak *key, const uint8_t sci[8], uint64_t pn, bool conf, size_t head,
                         uint8_t *frame, size_t length);
/* For testers alone: seals a frame in place, whatever its SecTAG is, so that a receiver that drops it has judged the
 * tag and not the ICV. It knows no packet numbers: given the same key, SCI (or SSCI) and `pn` twice, it repeats an IV,
 * which breaks GCM. Never give it a key that an endpoint uses outside a test.
 *
 * `frame` has `head` octets (destination, source and SecTAG, of any content and number), the data, and 16 octets into
 * which the ICV is written. Octets that are to follow the ICV are no part of it. With `conf`, the data after the first
 * key->offset octets are encrypted; all octets before them are only authenticated, without `conf` all but the ICV
 * (10.5, 14.5). The IV is `sci` and the 32 bits of `pn` (14.5, 14.6); with extended packet numbers the exclusive or of
 * key->salt with key->ssci and the 64 bits of `pn` (14.7, 14.8). Nothing is read from the SecTAG: E, C, PN and SCI in
 * it can say something else. `pn` can be 0, key->offset any number; key->number is not used.
 *
 * The first that applies, and then the frame is unchanged: MACSEC_E_NO_SUCH_SUITE (there is no default),
 * MACSEC_E_NO_SUCH_KEY_OCTETS, MACSEC_E_KEY_LENGTH, MACSEC_E_PN_RANGE (`pn` is above the suite's last),
 * MACSEC_E_FRAME_SHORT (`length` is below `head` + 16), MACSEC_E_FRAME_LONG (above 2^36 - 32). Proved: else the frame
 * is as said here (crates/macsec_c_values/specs/Sealing.antt), by AES-GCM as crates/macsec_gcm/specs defines it. */
static inline uint32_t macsec_seal(const macsec_sak *key, const uint8_t sci[8], uint64_t pn, bool conf, size_t head,
                                   uint8_t *frame, size_t length) {
    uint8_t none;
    return macsec_seal_raw(key, sci, pn, conf, head, length == 0 ? &none : frame, length);
}

/* ---- Names, as the program `macsec` prints them; "unknown" for a number without a meaning ---- */

static inline const char *macsec_status_name(uint32_t status) {
    switch (status) {
        /* made: names-of-statuses of tools/families.json */
        case MACSEC_OK: return "OK";
        case MACSEC_E_KEY_LENGTH: return "KeyLength";
        case MACSEC_E_OFFSET: return "Offset";
        case MACSEC_E_KEY_NUMBER_USED: return "KeyNumberUsed";
        case MACSEC_E_KEY_REPEATED: return "KeyRepeated";
        case MACSEC_E_NO_KEY: return "NoKey";
        case MACSEC_E_KEY_RETIRED: return "KeyRetired";
        case MACSEC_E_KEY_IN_USE: return "KeyInUse";
        case MACSEC_E_OWN_SCI: return "OwnSci";
        case MACSEC_E_SC_TAKEN: return "ScTaken";
        case MACSEC_E_SC_FULL: return "ScFull";
        case MACSEC_E_NO_SC: return "NoSc";
        case MACSEC_E_AN_TAKEN: return "AnTaken";
        case MACSEC_E_NO_SA: return "NoSa";
        case MACSEC_E_PN_RANGE: return "PnRange";
        case MACSEC_E_PN_LOWER: return "PnLower";
        case MACSEC_E_PN_FLOOR: return "PnFloor";
        case MACSEC_E_SSCI_OWN: return "SsciOwn";
        case MACSEC_E_WINDOW: return "Window";
        case MACSEC_E_SCI_FORM: return "SciForm";
        case MACSEC_E_EXHAUSTED: return "Exhausted";
        case MACSEC_E_EMPTY: return "Empty";
        case MACSEC_E_TAKEN: return "Taken";
        case MACSEC_E_NO_SUCH_SUITE: return "NoSuchSuite";
        case MACSEC_E_NO_SUCH_FORM: return "NoSuchForm";
        case MACSEC_E_NO_SUCH_MODE: return "NoSuchMode";
        case MACSEC_E_NO_SUCH_AN: return "NoSuchAn";
        case MACSEC_E_NO_SUCH_KEY_NUMBER: return "NoSuchKeyNumber";
        case MACSEC_E_NO_SUCH_KEY_OCTETS: return "NoSuchKeyOctets";
        case MACSEC_E_NOT_FOUND: return "NotFound";
        case MACSEC_E_MEMORY: return "Memory";
        case MACSEC_E_NEW_MAX_FRAME: return "NewMaxFrame";
        case MACSEC_E_NEW_SCI_FORM: return "NewSciForm";
        case MACSEC_E_FRAME_SHORT: return "Short";
        case MACSEC_E_FRAME_LONG: return "Long";
        case MACSEC_E_LINE_WORD: return "Word";
        case MACSEC_E_LINE_COUNT: return "Count";
        case MACSEC_E_LINE_HEX: return "Hex";
        case MACSEC_E_LINE_NUMBER: return "Number";
        case MACSEC_E_LINE_ENDS: return "Ends";
        case MACSEC_E_LINE_LONG: return "LineLong";
        case MACSEC_E_CONFIG_LONG: return "ScriptLong";
        case MACSEC_E_NOT_JOURNAL: return "NotJournal";
        case MACSEC_E_NOT_RECORD: return "NotRecord";
        case MACSEC_E_ANSWER_LONG: return "AnswerLong";
        case MACSEC_E_JOB: return "Job";
        case MACSEC_E_OTHER_KEY: return "OtherKey";
        case MACSEC_E_SPACE: return "Space";
        case MACSEC_E_NO_SUCH_COMMAND: return "NoSuchCommand";
        case MACSEC_E_JOURNAL_DAMAGED: return "JournalDamaged";
        case MACSEC_E_JOURNAL_FULL: return "JournalFull";
        case MACSEC_E_JOURNAL_BUSY: return "JournalBusy";
        /* end */
        default: return "unknown";
    }
}

static inline const char *macsec_verdict_name(uint32_t verdict) {
    switch (verdict) {
        /* made: names-of-verdicts of tools/families.json */
        case MACSEC_VERDICT_NONE: return "None";
        case MACSEC_VERDICT_UNTAGGED: return "Untagged";
        case MACSEC_VERDICT_NO_TAG: return "NoTag";
        case MACSEC_VERDICT_BAD_TAG: return "BadTag";
        case MACSEC_VERDICT_RESERVED: return "Reserved";
        case MACSEC_VERDICT_NO_SA_ERROR: return "NoSAError";
        case MACSEC_VERDICT_NO_SA: return "NoSA";
        case MACSEC_VERDICT_LATE: return "Late";
        case MACSEC_VERDICT_NOT_VALID: return "NotValid";
        case MACSEC_VERDICT_UNCHECKED: return "Unchecked";
        case MACSEC_VERDICT_DELAYED: return "Delayed";
        case MACSEC_VERDICT_INVALID: return "Invalid";
        case MACSEC_VERDICT_OK: return "OK";
        case MACSEC_VERDICT_NO_RESERVATION: return "NoReservation";
        case MACSEC_VERDICT_EARLIER_RUN: return "EarlierRun";
        /* end */
        default: return "unknown";
    }
}

static inline const char *macsec_fate_name(uint32_t fate) {
    switch (fate) {
        /* made: names-of-fates of tools/families.json */
        case MACSEC_FATE_NONE: return "None";
        case MACSEC_FATE_PROTECTED: return "Protected";
        case MACSEC_FATE_PLAIN: return "Plain";
        case MACSEC_FATE_NO_SA: return "NoSA";
        case MACSEC_FATE_TOO_LONG: return "TooLong";
        case MACSEC_FATE_NO_RESERVATION: return "NoReservation";
        /* end */
        default: return "unknown";
    }
}

static inline const char *macsec_suite_name(uint32_t suite) {
    switch (suite) {
        /* made: names-of-suites of tools/families.json */
        case MACSEC_SUITE_DEFAULT: return "default";
        case MACSEC_SUITE_GCM_AES_128: return "gcm128";
        case MACSEC_SUITE_GCM_AES_256: return "gcm256";
        case MACSEC_SUITE_GCM_AES_XPN_128: return "xpn128";
        case MACSEC_SUITE_GCM_AES_XPN_256: return "xpn256";
        /* end */
        default: return "unknown";
    }
}

/* The number of the library's version, as MACSEC_VERSION_NUMBER is the header's. */
uint32_t macsec_version(void);

#ifdef __cplusplus
}
#endif

#endif
