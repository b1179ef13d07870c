/* The endpoint, and the clients of the control socket that change it or ask about it. */
#ifndef CONTROL_H
#define CONTROL_H

#include "text.h"

struct device;
struct numbers;

/* ---- endpoint.c: the endpoint, by the lines of requests and of the configuration ---- */

/* What became of a line. */
struct result {
    const char *fault; /* NULL, or why macsecd did not give it to the endpoint */
    uint32_t status;   /* the library's */
    uint64_t raised;   /* as of lines_carry_out */
    uint32_t kind;     /* MACSEC_COMMAND_.. */
};

/* The most octets of a request, which is `load` with its lines; the fewest of a command with its line feed (`A txon
 * 0`); how many of these a request can have, with a shorter line that ends them; and how many milliseconds `load` waits
 * for the reservations of new associations, while no frame is read. */
enum { REQUEST_MAX = 128 * 1024, LINE_MIN = 9, LINES = REQUEST_MAX / LINE_MIN + 1, LOAD_WAITS = 50 };

/* The lines of a `load`, but for those that are skipped. */
struct load {
    macsec_command commands[LINES];
    uint64_t begins[LINES]; /* as of macsec_load */
    unsigned numbers[LINES];
    size_t count;
    struct result last;              /* why the endpoint does not get the last one, if it does not */
    size_t names;                    /* how many lines may need a name in the journal */
    bool installs[MACSEC_KEY_COUNT]; /* which keys they install */
};

struct result result_of(uint32_t status);
/* Creates the endpoint of a configuration's text, or none if the text has no line. Returns the status of the first line
 * that fails, and its number. */
uint32_t endpoint_configure(struct device *d, const char *text, size_t length, uint32_t *line);
bool endpoint_is_open(const struct device *d);
/* Creates an endpoint without keys by `open SCI SUITE FORM`; the present one ends. */
struct result endpoint_open(struct device *d, const struct words *w);
void endpoint_close(struct device *d);
struct result endpoint_command(struct device *d, const char *line, size_t length);
/* Carries out all lines of a text, or none. Adds the answer. */
void endpoint_load(struct device *d, struct text *t, const char *lines, size_t length);

/* ---- answers.c: the text of answers, each for a request ---- */

/* made: counts-of-counters of tools/families.json */
enum { OWN_COUNTERS = 11, TX_COUNTERS = 4, RX_COUNTERS = 6 };
/* end */

/* Writes an SCI as text, and returns it. */
const char *sci_text(const uint8_t sci[8], char text[SCI_TEXT]);
/* The values of a receive channel, or, if `an` is not -1, of an association. Returns the library's status. */
uint32_t answer_rx_counters(const struct device *d, const uint8_t sci[8], int an, uint64_t values[RX_COUNTERS]);
void answer_result(struct text *t, struct result r);
/* What `macsec run` prints for a line that only reads, `A counters` or `A numbers`, without the number of the line.
 * Returns false if it is another line. */
bool answer_line(struct text *t, macsec_endpoint *e, const char *line, size_t length);
void answer_numbers(struct text *t, const struct device *d);
/* The counters of the endpoint, and what the device counts. */
void answer_counters(struct text *t, const struct device *d);
void answer_link(struct text *t, const struct device *d);
/* All counters as one JSON object, and in the text format of Prometheus. */
void answer_json(struct text *t, const struct device *d);
void answer_metrics(struct text *t, const struct device *d);

/* The state of the device for people: show.c. */
void answer_show(struct text *t, const struct device *d);
/* How many packet numbers a transmit association has left. */
uint64_t show_left(const struct device *d, const macsec_tx_sa *sa);

/* ---- requests.c: requests and their answers ---- */

/* Is it `load`, with the lines of it? */
bool requests_loads(const char *request, size_t length);
/* Answers a request of a client, which ends with a zero and may have others. Returns true if the answer is to wait for
 * the journal. */
bool requests_answer(struct device *d, struct text *t, int client, char *request, size_t length);

/* ---- waits.c: answers that wait for the journal ---- */

/* The most clients of the control socket, and octets of an answer that can wait. */
enum { CLIENTS = 16, KEPT_ANSWER = 64 };

struct waiting {
    int64_t until; /* in milliseconds; 0: it does not wait */
    size_t length; /* of the answer; 0: there is none, so it waits for nothing but the time */
    char answer[KEPT_ANSWER];
    uint64_t ticket;
};

struct waits {
    unsigned answers; /* how many wait: as a rule none, so that the loop looks at no client after each frame */
    struct waiting clients[CLIENTS];
};

/* Keeps the answer of a client until the records of its request are on the disk. Returns false if they are, or if the
 * answer is too long to be kept: it is to be sent at once. */
bool waits_keep(struct device *d, int client, const char *answer, size_t length);
/* Lets a client wait for so long, without an answer. */
void waits_rest(struct device *d, int client, int64_t milliseconds);
/* Does the client wait? Its next requests are read after that. */
bool waits_for(const struct device *d, int client);
/* Sends a client's answer if its records are on the disk, or if it has waited too long; or ends its rest. Returns true
 * if so, and the client is there. */
bool waits_send(struct device *d, int client);
/* How many milliseconds the loop may wait; -1: for ever. */
int waits_left(const struct device *d);
void waits_client_gone(struct device *d, int client);

/* ---- budget.c: what requests may cost the frames ---- */

struct account {
    uid_t user;
    int64_t paid; /* when the user owes nothing, in microseconds */
};

struct budget {
    struct account accounts[CLIENTS];
    int64_t began, used; /* when the request did, and the time of a processor until then */
};

/* To be called before a request of a client, and after it. `waited`: it may have waited for the journal. */
void budget_begin(struct budget *b);
void budget_end(struct device *d, int client, bool waited);
/* May the client make a request? If not, it may after so many milliseconds. */
bool budget_lets(struct device *d, int client, int64_t *milliseconds);

/* ---- control.c: the control socket ---- */

struct control {
    int listener, clients[CLIENTS]; /* -1: there is none */
    uid_t user[CLIENTS];
    uint64_t used[CLIENTS]; /* which use of the socket was a client's last one */
    uint64_t uses;
    bool held_up; /* could the system not give a descriptor for a connection? Then it is tried again each second. */
    char request[REQUEST_MAX + 2]; /* with one octet by which a longer one is seen, and a zero */
    char answer[256 * 1024];
};

/* Opens the socket. It stays when macsecd ends, and the next start replaces it. */
int control_open(struct control *k, const char *name, const struct config *c);
/* Accepts a connection, for which an idle one may end. Returns its index, or -1. If the system has no descriptor for
 * it, the connection is held up. */
int control_accept(struct device *d);
/* May a request of the client be read? If not, the client rests; but a connection that has ended is closed. */
bool control_may_read(struct device *d, int index, bool has_ended);
/* Answers a request of a client. Returns false if the connection has ended; it is closed then. */
bool control_answer(struct device *d, int index);
/* Sends an answer to a client. Returns false if the connection has ended; it is closed then. */
bool control_send(struct device *d, int index, const char *octets, size_t length);

/* ---- port.c: the controlled port, and the client that owns the device ---- */

struct port {
    bool off;
    int ticks; /* how often the clock has ticked since it is off */
    int owner; /* a client, or -1 */
};

void port_open(struct device *d);
/* Gives TAP carrier while LINK has and the port is on. */
void port_set_carrier(struct device *d);
void port_set(struct device *d, bool on);
void port_tick(struct device *d);
/* May a client change something? Then it may become the owner, and so may root if the owner is not root. */
bool port_may_change(const struct device *d, int client);
bool port_may_own(const struct device *d, int client);
void port_own(struct device *d, int client);
void port_client_gone(struct device *d, int client);

#endif
