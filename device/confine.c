/* What macsecd gives up. libseccomp is not used: the lists of system calls are short, for one processor, and never
 * change while macsecd runs. Without it the program needs the C library alone. */
#include "system.h"
#include <grp.h>
#include <linux/audit.h>
#include <linux/capability.h>
#include <linux/filter.h>
#include <linux/if_tun.h>
#include <linux/landlock.h>
#include <linux/seccomp.h>
#include <sys/mman.h>
#include <sys/prctl.h>
#include <sys/resource.h>
#include <sys/syscall.h>

int confine_memory(void) {
    const struct rlimit none = { 0, 0 };
    if (setrlimit(RLIMIT_CORE, &none) == 0 && prctl(PR_SET_DUMPABLE, 0, 0, 0, 0) == 0)
        return 0;
    return message_of_errno("core files can't be forbidden");
}

int confine_namespace(void) {
    struct __user_cap_header_struct header = { _LINUX_CAPABILITY_VERSION_3, 0 };
    struct __user_cap_data_struct sets[2];
    const uint32_t kept = ~(1U << CAP_SYS_ADMIN);
    if (syscall(SYS_capget, &header, sets) == 0) {
        sets[0].effective &= kept;
        sets[0].permitted &= kept;
        sets[0].inheritable &= kept;
        if (syscall(SYS_capset, &header, sets) == 0)
            return 0;
    }
    return message_of_errno("CAP_SYS_ADMIN can't be given up");
}

/* Without CAP_SETPCAP the bounding set stays. Even so, no new privileges can be gained. */
static void drop_bounding_set(void) {
    for (unsigned long capability = 0; prctl(PR_CAPBSET_READ, capability, 0, 0, 0) >= 0; capability++)
        if (prctl(PR_CAPBSET_DROP, capability, 0, 0, 0) != 0)
            break;
}

/* If it was started by root, it becomes the user of the journal's folder, so that what it writes there is that user's.
 * With some settings of the system a change of the user allows core files again. */
static int leave_root(int state) {
    struct stat folder;
    if (geteuid() != 0)
        return 0;
    if (fstat(state, &folder) == 0 &&
        (folder.st_uid == 0 ||
         (setgroups(0, NULL) == 0 && setresgid(folder.st_gid, folder.st_gid, folder.st_gid) == 0 &&
          setresuid(folder.st_uid, folder.st_uid, folder.st_uid) == 0 && prctl(PR_SET_DUMPABLE, 0, 0, 0, 0) == 0)))
        return 0;
    return message_of_errno("macsecd can't become the user of the journal's folder");
}

static int drop_capabilities(void) {
    struct __user_cap_header_struct header = { _LINUX_CAPABILITY_VERSION_3, 0 };
    const struct __user_cap_data_struct none[2] = { { 0, 0, 0 }, { 0, 0, 0 } };
    if (prctl(PR_CAP_AMBIENT, PR_CAP_AMBIENT_CLEAR_ALL, 0, 0, 0) != 0 || syscall(SYS_capset, &header, none) != 0 ||
        prctl(PR_SET_NO_NEW_PRIVS, 1, 0, 0, 0) != 0)
        return message_of_errno("capabilities can't be given up");
    return 0;
}

/* From now on files can be opened and removed in the journal's folder alone. Other instances of macsecd have the folder
 * of the control socket too. */
static int restrict_files(int state, bool unconfined) {
    const struct landlock_ruleset_attr all = { .handled_access_fs = (LANDLOCK_ACCESS_FS_MAKE_SYM << 1) - 1 };
    const struct landlock_path_beneath_attr journal = {
        .allowed_access = LANDLOCK_ACCESS_FS_READ_FILE | LANDLOCK_ACCESS_FS_WRITE_FILE | LANDLOCK_ACCESS_FS_MAKE_REG |
                          LANDLOCK_ACCESS_FS_REMOVE_FILE,
        .parent_fd = state,
    };
    int set = (int)syscall(SYS_landlock_create_ruleset, &all, sizeof all, 0);
    if (set < 0 && (errno == ENOSYS || errno == EOPNOTSUPP)) {
        message("this system has no Landlock: files can't be restricted%s",
                unconfined ? "" : ". `device landlock optional` goes on without it");
        return unconfined ? 0 : ENDS_WRONG;
    }
    if (set >= 0 && syscall(SYS_landlock_add_rule, set, LANDLOCK_RULE_PATH_BENEATH, &journal, 0) == 0 &&
        syscall(SYS_landlock_restrict_self, set, 0) == 0)
        return close(set);
    return message_of_errno("files can't be restricted");
}

/* The calls of the thread that has the endpoint: for frames, control, reports, signals, the clock, the other threads
 * and standard error, and from SYS_brk on for memory and the end; and those of `limited`. It opens no file. By no
 * socket it reaches a program that has not connected to it. */
static const unsigned of_frames[] = {
    SYS_read,  SYS_recvmmsg,        SYS_recvfrom,    SYS_getsockopt, SYS_setsockopt, SYS_accept4,
    SYS_close, SYS_epoll_wait,      SYS_epoll_pwait, SYS_epoll_ctl,  SYS_poll,       SYS_clock_gettime,
    SYS_futex, SYS_restart_syscall, SYS_brk,         SYS_munmap,     SYS_mremap,     SYS_madvise,
    SYS_exit,  SYS_exit_group,      SYS_mincore,
};

/* The calls of the thread of the journal, which writes it again from SYS_openat on and ends from SYS_rt_sigprocmask on.
 * It allocates no memory and uses no socket. */
static const unsigned of_journal[] = {
    SYS_pwrite64, SYS_fdatasync, SYS_newfstatat,     SYS_clock_gettime, SYS_futex,    SYS_restart_syscall,
    SYS_openat,   SYS_fsync,     SYS_flock,          SYS_fstat,         SYS_renameat, SYS_renameat2,
    SYS_unlinkat, SYS_close,     SYS_rt_sigprocmask, SYS_madvise,       SYS_exit,
};

/* The calls of a worker and of the thread of the service manager. The last three end them. */
static const unsigned of_others[] = { SYS_futex, SYS_restart_syscall, SYS_rt_sigprocmask, SYS_madvise, SYS_exit };

/* What an argument must be or may not be: a number, or a file of confine_calls; or it may not have a bit. */
enum how { ANYTHING, IS, IS_OWN, IS_MANAGER, IS_NOT_MANAGER, HAS_NOT };
enum { TESTS = 3 };
struct test {
    enum how how;
    unsigned half; /* of an argument: twice its index, and one more for the upper 32 bits */
    unsigned value;
};

/* Calls of which the arguments are limited. sendto has no address, which is its argument of index 4: so it sends where
 * a socket is connected or bound. */
static const struct limited {
    enum thread thread;
    unsigned call;
    struct test tests[TESTS];
} limited[] = {
    { ENDPOINT_THREAD, SYS_write, { { IS_NOT_MANAGER, 0, 0 } } },
    { ENDPOINT_THREAD, SYS_sendmmsg, { { IS_OWN, 0, 0 } } },
    { ENDPOINT_THREAD, SYS_sendto, { { IS_NOT_MANAGER, 0, 0 }, { IS, 8, 0 }, { IS, 9, 0 } } },
    { ENDPOINT_THREAD, SYS_ioctl, { { IS, 2, TUNSETCARRIER } } },
    { ENDPOINT_THREAD, SYS_ioctl, { { IS, 2, SIOCGIFHWADDR } } },
    { ENDPOINT_THREAD, SYS_mmap, { { HAS_NOT, 4, PROT_EXEC } } },
    { JOURNAL_THREAD, SYS_write, { { IS_OWN, 0, 0 } } },
    { WORKER_THREAD, SYS_write, { { IS_OWN, 0, 0 } } },
    { SERVICE_THREAD, SYS_read, { { IS_OWN, 0, 0 } } },
    { SERVICE_THREAD, SYS_sendto, { { IS_MANAGER, 0, 0 }, { IS, 8, 0 }, { IS, 9, 0 } } },
};

static const struct {
    const unsigned *calls;
    unsigned count;
} lists[] = {
    [ENDPOINT_THREAD] = { of_frames, sizeof of_frames / sizeof *of_frames },
    [JOURNAL_THREAD] = { of_journal, sizeof of_journal / sizeof *of_journal },
    [WORKER_THREAD] = { of_others, sizeof of_others / sizeof *of_others },
    [SERVICE_THREAD] = { of_others, sizeof of_others / sizeof *of_others },
};

/* The most instructions of a limited call, and of a program. */
enum { LIMITED = sizeof limited / sizeof *limited, OF_ONE = 3 + 2 * TESTS };
enum { PROGRAM = 4 + LIMITED * OF_ONE + 2 * sizeof of_frames / sizeof *of_frames + 1 };
_Static_assert(sizeof of_journal <= sizeof of_frames && sizeof of_others <= sizeof of_frames, "a list is too long");

#define LOAD(member) BPF_STMT(BPF_LD | BPF_W | BPF_ABS, (unsigned)offsetof(struct seccomp_data, member))
#define JUMP_IF(test, value, yes, no) BPF_JUMP(BPF_JMP | (test) | BPF_K, (value), (yes), (no))
#define RETURN(what) BPF_STMT(BPF_RET | BPF_K, (what))

/* Adds a test. Unless it passes, so many instructions after it are skipped. */
static struct sock_filter *add_test(struct sock_filter *next, const struct test *it, unsigned value, unsigned skip) {
    bool wanted = it->how != IS_NOT_MANAGER && it->how != HAS_NOT;
    unsigned char otherwise = (unsigned char)skip;
    *next++ = (struct sock_filter)LOAD(args[0]);
    next[-1].k += 4 * it->half;
    *next++ = (struct sock_filter)JUMP_IF(it->how == HAS_NOT ? BPF_JSET : BPF_JEQ, value, wanted ? 0 : otherwise,
                                          wanted ? otherwise : 0);
    return next;
}

/* Adds instructions that allow a call, if its arguments pass all tests. */
static struct sock_filter *add_limited(struct sock_filter *next, const struct limited *it, int own, int manager) {
    unsigned tests = 0;
    while (tests < TESTS && it->tests[tests].how != ANYTHING)
        tests++;
    *next++ = (struct sock_filter)LOAD(nr);
    *next++ = (struct sock_filter)JUMP_IF(BPF_JEQ, it->call, 0, (unsigned char)(2 * tests + 1));
    for (const struct test *test = it->tests; tests > 0; test++, tests--) {
        bool of_manager = test->how == IS_MANAGER || test->how == IS_NOT_MANAGER;
        unsigned value = test->how == IS_OWN ? (unsigned)own : of_manager ? (unsigned)manager : test->value;
        next = add_test(next, test, value, 2 * tests - 1);
    }
    *next++ = (struct sock_filter)RETURN(SECCOMP_RET_ALLOW);
    return next;
}

/* Makes the program, which allows the calls of a thread. Any other ends the process. */
static unsigned short make_filter(struct sock_filter program[PROGRAM], enum thread thread, int own, int manager) {
    struct sock_filter *next = program;
    *next++ = (struct sock_filter)LOAD(arch);
    *next++ = (struct sock_filter)JUMP_IF(BPF_JEQ, AUDIT_ARCH_X86_64, 1, 0);
    *next++ = (struct sock_filter)BPF_STMT(BPF_JMP | BPF_JA, 0);
    for (const struct limited *it = limited; it < limited + LIMITED; it++)
        if (it->thread == thread)
            next = add_limited(next, it, own, manager);
    *next++ = (struct sock_filter)LOAD(nr);
    for (unsigned i = 0; i < lists[thread].count; i++) {
        *next++ = (struct sock_filter)JUMP_IF(BPF_JEQ, lists[thread].calls[i], 0, 1);
        *next++ = (struct sock_filter)RETURN(SECCOMP_RET_ALLOW);
    }
    program[2].k = (unsigned)(next - program) - 3;
    *next++ = (struct sock_filter)RETURN(SECCOMP_RET_KILL_PROCESS);
    return (unsigned short)(next - program);
}

int confine_calls(enum thread thread, int own, int manager) {
    struct sock_filter program[PROGRAM];
    struct sock_fprog filter = { make_filter(program, thread, own, manager), program };
    if (MACSECD_UNFILTERED && thread == ENDPOINT_THREAD)
        message("this build restricts neither its files nor its system calls");
    if (MACSECD_UNFILTERED)
        return 0;
    return prctl(PR_SET_SECCOMP, SECCOMP_MODE_FILTER, &filter, 0, 0) == 0
               ? 0
               : message_of_errno("the list of system calls");
}

int confine_rights(int state, bool unconfined) {
    drop_bounding_set();
    RETURN_IF_FAILED(leave_root(state));
    RETURN_IF_FAILED(drop_capabilities());
    return MACSECD_UNFILTERED ? 0 : restrict_files(state, unconfined);
}
