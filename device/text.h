/* Texts: answers, the words of lines, and the configuration. */
#ifndef TEXT_H
#define TEXT_H

#include "system.h"
#include <net/if.h>

/* ---- text.c: texts that are composed piece by piece ---- */

struct text {
    char *octets;
    size_t length, room;
    bool full; /* has something been left out? */
};

/* Adds to it, as printf does. What does not fit is left out. */
void text_add(struct text *t, const char *form, ...) __attribute__((format(printf, 2, 3)));

/* The most words of a line that are found, and the octets of a word that is copied and of an SCI as text. */
enum { WORDS = 9, WORD = 64, SCI_TEXT = 17 };

struct words {
    const char *at[WORDS];
    size_t length[WORDS];
    unsigned count; /* more than WORDS: the line has more words than these */
};

/* Splits a line. The words are in it. */
void words_split(struct words *w, const char *line, size_t length);
/* Is there a word of this index, and is it this text? */
bool words_is(const struct words *w, unsigned index, const char *text);
/* Are these the words from this index on? */
bool words_are(const struct words *w, unsigned index, const char *text);
/* Copies a word, with zeros after it. Returns false if there is none, or if it is too long. */
bool words_copy(const struct words *w, unsigned index, char *to, size_t room);
/* Reads a decimal number; one that does not fit is UINT64_MAX. Returns false if the word is no decimal number. */
bool words_number(const struct words *w, unsigned index, uint64_t *number);

/* The lines of a text for the endpoint. */
struct commands {
    const char *text; /* what follows */
    size_t left;
    const char *line; /* the one that was taken last */
    size_t length;
    unsigned number; /* of this line */
    uint32_t status; /* the library's */
    macsec_command command;
};

/* Takes the next line, which may put a key into `command`. Returns false if there is none; then no key is left. */
bool commands_next(struct commands *c);
/* Does the library skip the line? */
bool commands_skips(const struct commands *c);
/* Takes the first line that the library does not skip, as the `end` line. Returns the library's status, or
 * MACSEC_E_EMPTY if there is no such line. */
uint32_t commands_end(struct commands *c, macsec_config *end);

/* ---- limits.c: what requests may weaken ---- */

struct limits {
    bool unprotected, check, disabled, late, integrity, offset;
    unsigned key_length; /* the octets of the shortest key */
    uint64_t window;     /* the widest replay window */
};

/* Takes a line `device allow ..` with a suite or a window. Returns what is wrong with it, or NULL. */
const char *limits_take(struct limits *l, const struct words *w);
/* Takes the suite of the endpoint: requests may not install keys that are shorter than this suite's. */
void limits_take_suite(struct limits *l, uint32_t suite);
bool limits_allow(const struct limits *l, const macsec_command *c);

/* ---- config.c: NAME.conf, and where files are ---- */

struct config {
    char link[IF_NAMESIZE];
    char tap[IF_NAMESIZE];
    char path[256];
    char journal[SCI_TEXT]; /* the first octets of the salt of its journal, or "" if no line says them */
    gid_t group;            /* that may use the control socket */
    bool has_group;
    uid_t user; /* the owner of TAP; root if no line names another one */
    gid_t user_group;
    bool transient, persistent; /* does TAP end with macsecd, and does a line say that it stays? */
    bool shared, isolated;      /* is LINK in the host's network namespace, and does a line say that it is not? */
    bool alone;                 /* are the devices below LINK not in LINK's own namespace? */
    bool unconfined;            /* does macsecd go on without Landlock? */
    bool begins_off;            /* is the controlled port off at the start? */
    bool single;                /* does TAP take and give each segment as a frame alone? */
    bool has_workers;           /* does a line say how many threads do the work of the cipher? */
    unsigned workers;           /* how many; 0: the thread that has the endpoint does it */
    struct limits limits;
    uint32_t max_frame; /* MAX of the `end` line */
    uint8_t *text;      /* the lines for the endpoint; those for the device are comments in it */
    size_t length, room;
};

/* Can a device have this name? It is also the name of files. */
bool config_is_name(const char *name);
/* Makes the path FOLDER/NAME SUFFIX. FOLDER is the value of an environment variable, else `otherwise`. Returns false if
 * it is too long. */
bool config_path(char *path, size_t room, const char *variable, const char *otherwise, const char *name,
                 const char *suffix);
/* Reads the configuration of this name. */
int config_read(struct config *c, const char *name);
/* Wipes and frees its text, which has keys. */
void config_wipe(struct config *c);
/* The parts of config_read, for a look at a configuration that has faults. config_look reads only the text, even of a
 * file that macsecd does not take: `fault` is why, or NULL. A name with a slash is a path. */
int config_look(struct config *c, const char *name, const char **fault);
/* Takes a byte order mark out of the first line. Returns what is wrong with it, or NULL. */
const char *config_take_mark(struct config *c);
/* Says what is wrong with a line that has a zero, or NULL. It would hide from some readers what others see. */
const char *config_zero(const char *line, size_t length);
/* Takes a line of the device. Returns what is wrong with it, or NULL. */
const char *config_take(struct config *c, const struct words *w);
/* Says what is wrong with the lines of the device together, or NULL. */
const char *config_disagreement(const struct config *c);
/* Takes the values of the `end` line: MAX, for the MTU of TAP, and the suite, for the limits. */
void config_take_end(struct config *c, const macsec_config *end);

/* ---- check.c: `macsecd --check` ---- */

/* Prints every fault of the configuration of this name or path, and likely slips. Returns the exit status. */
int check_configuration(const char *name);

#endif
