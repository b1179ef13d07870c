/* Packet numbers that outlive a run, and the journal that has them. journal.h has the file. */
#ifndef NUMBERS_H
#define NUMBERS_H

#include "system.h"

#include "journal.h"

struct config;
struct counts;

/* The most octets of the file. A test has fewer. */
#ifndef NUMBERS_FILE_LENGTH
#define NUMBERS_FILE_LENGTH ((size_t)1 << 21)
#endif
/* The most names in it. The rest is for what is appended, and for the names of an order. */
#define NUMBERS_NAMES_MAX (NUMBERS_FILE_LENGTH / MACSEC_RECORD_LENGTH / 8 * 7)

/* ---- names.c: the names in the journal, and their records ---- */

/* The octets of a name; the number of no key; how many names of keys that were given up stay in the journal; and how
 * many that have left can still be in the file before it is written anew: a run after a kill has them. */
enum { NAME = 32, NO_KEY = MACSEC_KEY_COUNT, KEPT_NAMES = 256, LEFT_NAMES = 16 };

struct name {
    macsec_record made;    /* the record with the greatest packet number: durable, being written, or to be written */
    macsec_record durable; /* the durable one */
    /* What a receive association has accepted, where more is reserved: of that record what follows the name. */
    uint8_t accepted[MACSEC_RECORD_LENGTH - NAME];
    uint64_t note;  /* the number of the note about it, or 0 */
    uint64_t began; /* of a transmit association: the packet number that it began at last */
    uint32_t key;   /* the key's number in the endpoint, or NO_KEY */
    uint8_t sci[8]; /* of its receive association, with the association number */
    uint8_t an;
    bool is_received;  /* is it of a receive association? Known while it has a key. */
    bool reserves;     /* and does this run reserve for it? */
    bool is_unused;    /* is it of this run, and has no association of it used or accepted a packet number? */
    bool is_durable;   /* is there a durable record? */
    bool has_accepted; /* is it known what was accepted? */
    bool came_again;   /* was the name in the journal before the key was installed? Then that may happen again */
    bool notes;        /* is the note to be written? */
    bool changed;      /* is it among the changed names? */
    bool leaves;       /* is it to be removed? */
};

struct names {
    struct name *at;
    size_t count, room;            /* how many there are, and can be read */
    size_t most;                   /* how many there can be when one is added */
    uint32_t *slots;               /* of the hash table: 0, or 1 more than the index of a name */
    size_t changes;                /* how many names have something to be written */
    uint64_t given_up;             /* how many names were given up */
    size_t left;                   /* how many names have left that can still be in the file */
    bool note_left;                /* and is there a note about one of them? */
    bool passes[MACSEC_KEY_COUNT]; /* has a key agreement brought the key of this number? */
};

/* Takes the names of a journal with this room. Others are added up to `most`. Returns false if memory runs out. */
bool names_read(struct names *n, macsec_journal *journal, size_t room, size_t most);
/* The name in a record, or NULL if it is new. It is valid until the next call that adds or removes names. */
struct name *names_find(const struct names *n, const uint8_t *record);
/* Does a durable record of this name reserve this packet number, or as much as this record? */
bool names_reach(const struct name *name, uint64_t number);
bool names_cover(const struct name *name, const macsec_record *record);
/* Notes a record that the library has made for a key of this number. It is written later if it says something new.
 * Returns its name, or NULL if there is no room for it. */
struct name *names_note(struct names *n, const macsec_record *record, uint32_t key);
/* The name is of this receive association. */
void names_note_received(struct name *name, const uint8_t sci[8], uint8_t an);
/* Notes what a receive association has accepted, where more is reserved, and whether it has accepted a frame. */
void names_accept(struct names *n, const macsec_record *record, bool has_used);
/* Notes that a transmit association has begun, and whether it has sent since then. */
void names_begin_sending(struct names *n, const macsec_tx_sa *sa);
void names_sent(struct names *n, const macsec_tx_sa *sa);
/* Has an association under this key a name? It is a receive association if `sci` is not NULL. */
bool names_has(const struct names *n, uint32_t key, const uint8_t *sci, uint8_t an);
/* Gives up the names of a key, which will not be installed again. A name that has come again before stays. */
void names_give_up(struct names *n, uint32_t key);
/* The number of this key, or of all keys if it is NO_KEY, will be given to another key: names forget it. */
void names_detach(struct names *n, uint32_t key);
/* Lets go the unused names of receive associations that the endpoint has no more. Returns whether there are any. */
bool names_end(struct names *n, const macsec_endpoint *e);
/* Takes the records that have changed, as many as there is room for, and lets names go. Returns how many. No order may
 * be under way. */
size_t names_changes(struct names *n, macsec_journal *journal, macsec_record *out, size_t room);
/* Changes what an endpoint is made of for another endpoint of this run: a name of a receive association gets the number
 * up to which the association has accepted. */
void names_put(const struct names *n, uint8_t *octets, size_t length);
/* Notes that these records are durable. Reports those that reserve something new to the endpoint. */
void names_written(struct names *n, const macsec_record *records, size_t count, macsec_endpoint *e);
void names_free(struct names *n);

/* ---- receive_rates.c: how many packet numbers to reserve ahead of receiving ---- */

/* Of a receive channel. */
struct receive_rate {
    uint8_t sci[8];
    uint64_t frames, rate;     /* that came since the last tick; and in a second */
    uint64_t burst;            /* how many to reserve at least, since frames lacked a reservation */
    uint64_t lacked;           /* frames that did since it was asked for one */
    uint64_t asked;            /* the order before whose end it was asked for them, or 0 */
    unsigned first;            /* how many frames came in this run, until it is no new channel */
    unsigned unseen, patience; /* frames since the last call of receive_rates_amount, and at most until the next one */
    bool is_used;
};
struct receive_rates {
    struct receive_rate all[MACSEC_RX_CHANNEL_COUNT];
    size_t latest; /* the index of the one that was looked for last */
};

/* The rate of a channel. It is there until the next call with another channel. */
struct receive_rate *receive_rates_of(struct receive_rates *p, const uint8_t sci[8]);
/* Have so few frames come in this run that nothing is reserved before a frame lacks it? Are frames coming? And so many
 * that those of two seconds can't wait? */
bool receive_rates_is_new(const struct receive_rate *p);
bool receive_rates_goes_on(const struct receive_rate *p);
bool receive_rates_is_fast(const struct receive_rate *p);
/* How many packet numbers to reserve, if a synchronization of the disk takes so many seconds. */
uint64_t receive_rates_amount(struct receive_rate *p, double slow);
/* Counts a frame that is accepted or lacks a reservation: once, also if it is given to the endpoint again. */
void receive_rates_count(struct receive_rate *p);
/* Notes that a frame was accepted. Returns true if it is time to look whether a reservation is wanted. */
bool receive_rates_accepted(struct receive_rate *p);
/* Notes that a frame lacks a reservation while this order of the writer is under way or the next one, and whether it
 * did before. Returns true if one is to be asked for: once for an order, and whenever twice as many frames lack it. */
bool receive_rates_lacked(struct receive_rate *p, uint64_t order, bool again);
/* To be called each second. */
void receive_rates_tick(struct receive_rates *p);

/* ---- journal_writer.c: the thread that writes the journal ---- */

/* What became of an order. */
struct saved {
    bool good, cut; /* was it carried out, and has another program changed the length of the file? */
    struct journal_fault fault;
    double seconds;
};

enum writer_state { IDLE, ORDERED, CARRIED_OUT };

struct journal_writer {
    struct journal *journal;
    pthread_t thread;
    bool runs;  /* is there a thread? */
    bool busy;  /* is an order under way? */
    int events; /* an eventfd, written when an order was carried out, or another program has cut the file */
    bool looks; /* is the thread to look at the file? */
    pthread_mutex_t lock;
    pthread_cond_t changed;
    /* Guarded by the lock from here on. The journal and the result belong to the thread while the state is
     * ORDERED, and to the other one else. */
    enum writer_state state;
    bool begun, ends;
    int confined;
    size_t count; /* of the records of an order */
    bool anew, cut;
    struct saved saved;
};

/* Makes a writer of this journal, which belongs to the thread while it works. */
int journal_writer_open(struct journal_writer *s, struct journal *journal);
/* Starts the thread. Until then, orders are carried out at once. */
int journal_writer_start(struct journal_writer *s);
/* Orders that so many `records` of the journal be written (journal_write). */
void journal_writer_order(struct journal_writer *s, size_t count, bool anew);
/* Has the order been carried out? Then the writer has none any more. Of `saved`, `cut` is filled in always. */
bool journal_writer_is_done(struct journal_writer *s, struct saved *saved);
/* Waits until the order has been carried out, at most so many milliseconds. */
void journal_writer_wait(struct journal_writer *s, int milliseconds);
/* Ends the thread and closes the eventfd, unless an order is under way. Returns false if one is. */
bool journal_writer_close(struct journal_writer *s);

/* ---- numbers.c: packet numbers that outlive a run ---- */

struct numbers {
    struct journal journal; /* the thread's, while it has an order */
    struct names names;
    struct receive_rates rates;
    struct journal_writer writer;
    struct counts *counts;
    uint64_t grants;        /* how often a reservation of received packet numbers may have been reported */
    bool begun;             /* may frames come now? */
    bool lacks;             /* is it reported that there is no name for an association? */
    uint64_t orders, done;  /* how many orders were given, and were carried out */
    uint64_t amount;        /* of a reservation */
    uint64_t unseen;        /* frames sent since the reservations were looked at */
    uint64_t rate, highest; /* frames sent since the last tick, and the highest rate */
    double slow;            /* how many seconds a synchronization takes */
    unsigned ticks;         /* since the order was given */
    unsigned age;           /* in ticks, until it is steady */
    bool anew;              /* is the whole journal to be written, since the file is in doubt? */
    bool failed;            /* did the last order fail, and is that reported? */
    bool waits;             /* is no order to be given before the next tick? */
    bool filled;            /* is it reported that the journal fills? */
};

/* Makes, and opens, the journal of this name. `named` is as for journals_misnamed. */
int numbers_create(const char *name);
int numbers_open(struct numbers *n, const char *name, const char *named, struct counts *counts);
/* Frames may come from now on: makes all reservations for sending. It waits for the disk, as calls before it do. */
void numbers_begin(struct numbers *n, macsec_endpoint *e);
/* To be called when the writer's eventfd can be read: reports the records, and has the next ones written. */
void numbers_go_on(struct numbers *n, macsec_endpoint *e);
/* Creates an endpoint with a copy of the journal, in which what numbers_note_accepted has noted replaces what is
 * reserved for receive associations. Returns the library's status. */
uint32_t numbers_configure(struct numbers *n, macsec_endpoint *e, const macsec_config *config);
/* To be called when a key was installed or retired. `passes`: a key agreement has brought the key or retires it, so it
 * is given up. */
void numbers_note_key(struct numbers *n, uint16_t key, bool passes);
void numbers_note_retired(struct numbers *n, uint16_t key, bool passes);
/* Makes the reservations that transmit associations want. */
void numbers_reserve(struct numbers *n, macsec_endpoint *e);
/* To be called when an association has begun. */
void numbers_begin_to_send(struct numbers *n, macsec_endpoint *e, uint8_t an);
void numbers_begin_to_receive(struct numbers *n, macsec_endpoint *e, const uint8_t sci[8], uint8_t an);
/* To be called when receive associations have ended. */
void numbers_end_receiving(struct numbers *n, macsec_endpoint *e);
/* Makes all reservations. If an enabled association has nothing reserved, it waits for the disk, at most so long. */
void numbers_reserve_soon(struct numbers *n, macsec_endpoint *e, int milliseconds);
/* Notes that frames were sent, and whether one lacked a reservation; reserves in time. */
void numbers_used(struct numbers *n, macsec_endpoint *e, unsigned frames, bool lacked);
/* Notes what became of a frame of LINK, and whether it had waited for a reservation; reserves in time. */
void numbers_received(struct numbers *n, macsec_endpoint *e, const macsec_received *got, bool again);
/* To be called each second: fits the reservations to the rate. */
void numbers_tick(struct numbers *n, macsec_endpoint *e);
/* Notes what the receive associations of a channel have accepted. To be called before one ends. In another endpoint of
 * this run the association begins above that. */
void numbers_note_accepted(struct numbers *n, const macsec_endpoint *e, const uint8_t *sci);
/* Notes whether the transmit associations have sent. To be called before one ends. */
void numbers_note_sent(struct numbers *n, const macsec_endpoint *e);
/* Both, of all associations. To be called before the endpoint ends. */
void numbers_note_all(struct numbers *n, const macsec_endpoint *e);
/* To be called when an endpoint has ended: the numbers of its keys will be given to other keys. */
void numbers_forget(struct numbers *n);
/* A ticket for the records that are to be written. */
uint64_t numbers_ticket(const struct numbers *n);
/* Were the records of a ticket written, or could they not be? */
bool numbers_is_written(const struct numbers *n, uint64_t ticket);
/* Has the association that this command begins a name, or no key? */
bool numbers_has_name(const struct numbers *n, const macsec_endpoint *e, const macsec_command *c);
/* Writes the last records, and closes the journal. */
void numbers_close(struct numbers *n, macsec_endpoint *e);

/* ---- lines.c: commands that begin and end associations ---- */

/* What a command that is carried out means for the device beside its endpoint: associations begin or end, say. */
enum effect { NO_EFFECT, KEEPS_KEY, WIPES_KEY, BEGINS_SA, ENDS_SA };
enum effect lines_effect(uint32_t kind);

/* Carries out a command. If an association begins above the command's packet number, since lower ones may have been
 * used, `raised` is where; else it is 0. */
uint32_t lines_carry_out(struct numbers *n, macsec_endpoint *e, const macsec_command *c, uint64_t *raised);

/* ---- journals.c: the journals of the host ---- */

/* Makes the path of the journal of NAME. Returns false, after a message, if it is too long. */
bool journals_path(char *path, size_t room, const char *name);
/* Says if the file system does not keep the journal. A new one is refused then if it is lost for certain. */
int journals_check_disk(const char *name, bool creates);
/* Compares the keys under which this NAME sends with the other journals of the host, in the same folder and in those
 * beside one that has the name of the device. */
int journals_check_keys(const struct config *c, const char *name);
/* Locks the folders of the host's journals, so that no other NAME compares until the first records of this one are on
 * the disk, and unlocks them. The first call waits for other starts. */
int journals_lock(const char *name);
void journals_unlock(void);
/* Why macsecd does not start with the journal that is there; or NULL, also if it can't be read. Nothing is locked. The
 * text is valid until the next call. */
const char *journals_fault(const char *path);
/* Why this is another journal than the one of which `device journal` names the first octets of the salt, or NULL. It is
 * NULL if `named` is empty. */
const char *journals_misnamed(const char *path, const char *named);
/* Prints the line `device journal ..` for the journal of this name, if there is one that can be read. */
void journals_print(const char *name);

#endif
