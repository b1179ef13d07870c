/* The journals of the host: where the one of a NAME is, whether its file system keeps it, and whether another one has
 * packet numbers of a key under which this NAME sends. No two devices compare at one time: the folders of the journals
 * are locked until the own records are on the disk. Whoever can open a folder can lock it. */
#include "numbers.h"
#include "text.h"
#include <dirent.h>
#include <linux/magic.h>
#include <poll.h>
#include <sys/file.h>
#include <sys/statfs.h>

#define SUFFIX ".journal"
#define FOLDER "/var/lib/macsec"

/* Where a journal has its salt. */
enum { SALT_AT = 16 };

/* Network file systems that <linux/magic.h> of some systems lacks. */
#define CIFS 0xff534d42UL
#define SMB2 0xfe534d42UL

/* ---- Where it is ---- */

bool journals_path(char *path, size_t room, const char *name) {
    char folder[sizeof FOLDER + IF_NAMESIZE];
    snprintf(folder, sizeof folder, "%s/%s", FOLDER, name);
    if (config_path(path, room, "STATE_DIRECTORY", folder, name, SUFFIX))
        return true;
    message("the path of the journal is too long");
    return false;
}

/* Says why the file system does not keep the journal. In memory it is lost for certain. */
int journals_check_disk(const char *name, bool creates) {
    char path[PATH_MAX];
    struct statfs about;
    const char *why = NULL;
    bool is_lost = false;
    if (!journals_path(path, sizeof path, name))
        return ENDS_WRONG;
    *strrchr(path, '/') = '\0';
    if (statfs(path, &about) != 0)
        return 0; /* opening the journal says why */
    switch ((unsigned long)about.f_type & 0xffffffff) {
    case TMPFS_MAGIC:
    case RAMFS_MAGIC:
        is_lost = true;
        why = "in memory, so the journal is lost when the system ends";
        break;
    case OVERLAYFS_SUPER_MAGIC:
        why = "an overlay, so the journal is lost if its upper file system is";
        break;
    case NFS_SUPER_MAGIC:
    case CIFS:
    case SMB2:
        why = "of a network, whose locks and writes are not those of a local disk";
    }
    if (why != NULL)
        message("the file system of %s is %s. Packet numbers are used twice then", path, why);
    return is_lost && creates ? ENDS_WRONG : 0;
}

/* ---- Keys under which this NAME sends ---- */

/* Does another journal have packet numbers of a key under which this NAME sends? An endpoint gets the journal and the
 * keys of the configuration. A wrong line is reported later. */
static int compare(const struct config *c, const char *path, const uint8_t *octets, size_t length) {
    struct commands it = { .text = (const char *)c->text, .left = c->length };
    macsec_endpoint e = MACSEC_ENDPOINT_INIT;
    macsec_config end;
    uint64_t floor = 0;
    uint32_t status = commands_end(&it, &end);
    if (status == MACSEC_OK)
        status = macsec_reserve_open(&e, &end, octets, length, false);
    while (status == MACSEC_OK && floor == 0 && commands_next(&it)) {
        if (it.command.kind == MACSEC_COMMAND_KEY)
            (void)macsec_carry_out(&e, &it.command);
        if (it.command.kind == MACSEC_COMMAND_TX_SA)
            (void)macsec_reserve_tx_floor(&e, it.command.key, &floor); /* 0 if there is no such key */
        if (it.status == MACSEC_E_MEMORY)
            status = it.status;
    }
    macsec_free(&e);
    if (floor != 0)
        return message_wrong("key %u has packet numbers in %s too: both would use the same ones. Install new keys at "
                             "one of the two",
                             it.command.key, path);
    return status == MACSEC_E_MEMORY ? message_of_memory() : 0;
}

/* ---- The other journals ---- */

/* Reads a journal. Returns its octets, which are to be freed, or NULL. */
static uint8_t *read_file(const char *path, size_t *length) {
    int file = open(path, O_RDONLY | O_CLOEXEC | O_NOFOLLOW | O_NONBLOCK | O_NOCTTY);
    uint8_t *octets = file < 0 ? NULL : journal_read(file, length);
    if (file >= 0)
        (void)close(file); /* it was only read */
    return octets;
}

/* The first octets of the salt of a journal, as text. It is empty if the file can't be read. */
static const char *salt_of(const char *path) {
    static char salt[SCI_TEXT];
    size_t length = 0;
    uint8_t *octets = read_file(path, &length);
    salt[0] = '\0';
    for (size_t i = 0; octets != NULL && length >= MACSEC_RECORD_LENGTH && i < SCI_TEXT / 2; i++)
        snprintf(salt + 2 * i, sizeof salt - 2 * i, "%02x", octets[SALT_AT + i]);
    free(octets);
    return salt;
}

const char *journals_misnamed(const char *path, const char *named) {
    static char text[256];
    const char *salt = salt_of(path);
    if (named[0] == '\0' || strcmp(salt, named) == 0)
        return NULL;
    snprintf(text, sizeof text,
             "is %s, and not %s: put the journal of this host there, or install new keys at both ends and write "
             "`device journal %s`",
             salt, named, salt);
    return text;
}

void journals_print(const char *name) {
    char path[PATH_MAX];
    if (journals_path(path, sizeof path, name) && salt_of(path)[0] != '\0')
        printf("device journal %s\n", salt_of(path));
}

/* Does the library begin with the octets of a file? Returns its status. */
static uint32_t test_octets(const uint8_t *octets, size_t length) {
    macsec_journal journal = MACSEC_JOURNAL_INIT;
    uint32_t status = macsec_journal_begin(&journal, octets, length, NUMBERS_FILE_LENGTH);
    macsec_journal_free(&journal);
    return status;
}

static const char *fault_of_octets(const uint8_t *octets, size_t length) {
    switch (test_octets(octets, length)) {
    case MACSEC_E_NOT_JOURNAL:
        return "is none, is of another version, or has a damaged header";
    case MACSEC_E_JOURNAL_DAMAGED:
        return "is damaged, so it does not say which packet numbers were used. Install new keys at both ends, move it "
               "away, and create another";
    case MACSEC_E_JOURNAL_FULL:
        return "has too many names. Install new keys at both ends, move it away, and create another";
    default:
        return NULL;
    }
}

/* What is wrong with the owner of a journal, or NULL. Started by root, macsecd becomes the user of its folder. */
static const char *fault_of_owner(const struct stat *about, const char *path) {
    char folder[PATH_MAX];
    struct stat of_folder;
    snprintf(folder, sizeof folder, "%s", path);
    *strrchr(folder, '/') = '\0';
    if (stat(folder, &of_folder) != 0)
        return NULL;
    if (journal_check_owner(about, &of_folder) == EACCES)
        return "can be read or written by others, who could make macsecd repeat packet numbers: chmod 600";
    return about->st_uid == of_folder.st_uid
               ? NULL
               : "belongs to another user than its folder, so macsecd can't write it: chown";
}

const char *journals_fault(const char *path) {
    struct stat about;
    const char *fault;
    uint8_t *octets;
    size_t length;
    if (lstat(path, &about) != 0)
        return NULL;
    if (!S_ISREG(about.st_mode))
        return "is not a regular file";
    if ((fault = fault_of_owner(&about, path)) != NULL)
        return fault;
    if (about.st_nlink > 1)
        return "has another name too";
    if (about.st_size > (off_t)JOURNAL_MAX)
        return "is too long";
    octets = read_file(path, &length);
    fault = octets == NULL ? NULL : fault_of_octets(octets, length);
    free(octets);
    return fault;
}

/* Compares with one journal, which can be written meanwhile. An endpoint reads each valid record of a damaged one too,
 * after a header. */
static int compare_file(const struct config *c, const char *folder, const char *name) {
    char path[PATH_MAX];
    uint8_t *octets;
    macsec_record header;
    uint32_t status = MACSEC_E_NOT_JOURNAL;
    size_t length;
    int result = 0;
    if (snprintf(path, sizeof path, "%s/%s", folder, name) >= (int)sizeof path)
        return 0;
    octets = read_file(path, &length);
    if (octets == NULL)
        message("%s can't be read, so keys are not compared with it", path);
    else
        status = test_octets(octets, length);
    if (status != MACSEC_E_NOT_JOURNAL) {
        (void)macsec_journal_header(octets + SALT_AT, &header); /* it always succeeds */
        memcpy(octets, header.octets, sizeof header.octets);
        result = compare(c, path, octets, length);
    }
    if (result == 0 && status == MACSEC_E_JOURNAL_DAMAGED)
        message("%s is damaged, so not all its keys are compared", path);
    free(octets);
    return result;
}

static bool is_journal(const char *name) {
    const char *dot = strrchr(name, '.');
    return dot != NULL && dot != name && strcmp(dot, SUFFIX) == 0;
}

/* The configuration of this NAME; the folder of its journal, and the name there. */
struct place {
    const struct config *config;
    char folder[PATH_MAX];
    const char *name;
};

/* Compares with the journals of a folder, except the own one. A folder that can't be read has none of this user's. */
static int compare_folder(const struct place *p, const char *folder) {
    bool is_own = strcmp(folder, p->folder) == 0;
    DIR *entries = opendir(folder);
    const struct dirent *entry;
    int result = 0;
    if (entries == NULL)
        return 0;
    while (result == 0 && (entry = readdir(entries)) != NULL)
        if (is_journal(entry->d_name) && !(is_own && strcmp(entry->d_name, p->name) == 0))
            result = compare_file(p->config, folder, entry->d_name);
    (void)closedir(entries);
    return result;
}

static int is_visible(const struct dirent *entry) {
    return entry->d_name[0] != '.';
}

/* Visits the folder of the own journal and, if that has the name of the device, those beside it. All devices do so in
 * one order, and until a visit returns another status than 0. */
static int visit(struct place *p, const char *name, int (*each)(const struct place *p, const char *folder)) {
    struct dirent **entries;
    char parent[PATH_MAX], *slash;
    int result = 0, count = -1;
    if (!journals_path(p->folder, sizeof p->folder, name))
        return ENDS_WRONG;
    slash = strrchr(p->folder, '/');
    *slash = '\0';
    p->name = slash + 1;
    memcpy(parent, p->folder, sizeof parent);
    slash = strrchr(parent, '/');
    if (slash != NULL && slash != parent && strcmp(slash + 1, name) == 0) {
        *slash = '\0';
        count = scandir(parent, &entries, is_visible, alphasort);
    }
    if (count < 0)
        return each(p, p->folder);
    for (int i = 0; i < count; i++) {
        char folder[PATH_MAX];
        if (result == 0 && snprintf(folder, sizeof folder, "%s/%s", parent, entries[i]->d_name) < PATH_MAX)
            result = each(p, folder);
        free(entries[i]);
    }
    free(entries);
    return result;
}

int journals_check_keys(const struct config *c, const char *name) {
    struct place p = { .config = c };
    return visit(&p, name, compare_folder);
}

/* ---- One start at a time ---- */

/* How long it waits for other devices that start, how long if anyone could keep the lock, and how often it looks, in
 * milliseconds. */
enum { WAITS = 30000, WAITS_FOR_ANYONE = 5000, LOOKS = 20 };

/* The locked folders. Static, since numbers.c unlocks them, which has no device. */
static struct {
    int *files;
    size_t count;
    int waited;
} locks;

/* Has a folder another name, by which it is locked already? */
static bool is_locked(const struct stat *about) {
    struct stat other;
    for (size_t i = 0; i < locks.count; i++)
        if (fstat(locks.files[i], &other) == 0 && is_same_file(about, &other))
            return true;
    return false;
}

static int lock_file(int file, const char *path, bool is_private) {
    int waits = is_private ? WAITS : WAITS_FOR_ANYONE;
    while (flock(file, LOCK_EX | LOCK_NB) != 0) {
        if (errno != EWOULDBLOCK && errno != EINTR) {
            message_of_errno("%s can't be locked, so devices with one key that start together are not noticed", path);
            return 0;
        }
        if (locks.waited >= waits) {
            message("%s has been locked for %d seconds%s", path, waits / 1000,
                    is_private ? ": another device is starting, and can't write its journal"
                               : ". Anyone can do that: chmod 700");
            return is_private ? ENDS_FAILED : 0;
        }
        locks.waited += LOOKS;
        (void)poll(NULL, 0, LOOKS);
    }
    return 0;
}

/* Locks a folder. One that this user can't open has no journal of this user's. */
static int lock_folder(const struct place *p, const char *path) {
    struct stat about;
    int *grown, file = open(path, O_RDONLY | O_DIRECTORY | O_CLOEXEC);
    (void)p;
    if (file < 0 && errno != EMFILE && errno != ENFILE && errno != ENOMEM)
        return 0;
    if (file < 0 || fstat(file, &about) != 0)
        return message_of_errno("%s", path);
    if (is_locked(&about))
        return close(file);
    grown = realloc(locks.files, (locks.count + 1) * sizeof *grown);
    if (grown == NULL)
        return message_of_memory();
    locks.files = grown;
    locks.files[locks.count++] = file;
    return lock_file(file, path, (about.st_mode & (S_IRGRP | S_IROTH)) == 0);
}

/* All lock in one order, so that no two wait for each other. Whoever makes a folder later locks these folders too. */
int journals_lock(const char *name) {
    struct place p = { .config = NULL };
    return visit(&p, name, lock_folder);
}

void journals_unlock(void) {
    for (size_t i = 0; i < locks.count; i++)
        (void)close(locks.files[i]);
    free(locks.files);
    locks.files = NULL;
    locks.count = 0;
}
