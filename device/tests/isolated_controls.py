"""Mistakes for each check of device/tests/isolated, which the check has to report."""

from __future__ import annotations

from typing import NamedTuple

from isolated_attacks import ROWS


class Control(NamedTuple):
    """A mistake: a file, a text of it and another one; or an attribute to invert; and what has to be reported."""

    what: str
    edit: tuple[str, str, str] | None
    setting: str
    reports: tuple[str, ...]


def edited(what: str, name: str, text: str, other: str, *reports: str, setting: str = "") -> Control:
    """An edit of a file."""
    return Control(what, (name, text, other), setting, reports)


def inverted(what: str, setting: str, *reports: str) -> Control:
    """Another attribute."""
    return Control(what, None, setting, reports)


# What LINK sends in eight seconds with `device shared` depends on the system.
REPORTED = tuple(it for it in ROWS if it != "frames in clear from LINK")
# fmt: off
CONTROLS: dict[str, list[Control]] = {
    "attacks": [inverted("`device shared`", "shared", *REPORTED)],
    "devices": [
        inverted("`device isolate alone`", "alone", "by the device below LINK"),
        edited("no look at devices over LINK", "macsec-link", "        check_over $moving\n", "",
               "up0 is over link0"),
        edited("no look at devices that were made later", "macsec-link", '    [ -z "$over" ]\n', "    true\n",
               "up0 is over the link"),
        edited("no look at ports", "macsec-link", "    check_ports $moving\n", "", "link0 is a port"),
        edited("no look at the device below LINK", "macsec-link", " || check_below $own\n", " || true\n",
               "the device below mv0 is not with it", setting="alone"),
        edited("LINK moves alone", "macsec-link", 'moving=$(column "$link")', "moving=$link",
               "the device below mv0 is not with it")],
    "faults": [
        edited("errors are ignored", "macsec-link", "set -euf", "set -uf", "not all is done"),
        edited("ip's own status is returned", "macsec-link", "|| exit 1' EXIT", "|| exit $status' EXIT",
               "is a fault of the configuration"),
        edited("no device is moved back", "macsec-link", "move_back $moved\n            fail", "fail", "are apart")],
    "kills": [inverted("no blackhole route", "blackhole", "routes that need carrier")],
    "carrier": [inverted("no blackhole route", "blackhole", "left by another device")],
    "over": [
        edited("no look at the host's devices", "over.c", "    if (!o->asked)\n        ask_number(o);\n", "",
               "a device of the host: 0 found"),
        edited("no look without a report", "rtnetlink.c", "seconds % LOOKS == 0", "seconds == 0", "a tunnel: 4 found"),
        edited("a veth device is over its peer", "over.c", 'strcmp(RTA_DATA(kind), "veth") == 0', "false",
               "what is not over"),
        edited("each look finds all again", "over.c", "    if (++d->over.found <= d->over.known)\n        return;\n",
               "", "a device is found again"),
        edited("no look at LINK's namespace", "rtnetlink.c", "        over_note(d, about", "        (void)(d, about",
               "a device of LINK's namespace"),
        edited("no look at addresses", "rtnetlink.c", "        over_note_address(d", "        (void)(d", "an address")],
    "taken": [
        inverted("`device shared`", "shared", "left by another device", "sendmmsg", "join"),
        edited("no restriction of files", "confine.c", "MACSECD_UNFILTERED ? 0 : restrict_files(state, unconfined);",
               "(void)restrict_files, 0;", "openat 0", "openat 1", "unlinkat 0", "unlinkat 1"),
        edited("no list of system calls", "confine.c", "SECCOMP_RET_KILL_PROCESS", "SECCOMP_RET_ALLOW", "setns",
               "unshare", "socket", "bind", "SIOCGSKNS", "TUNGETDEVNETNS", "TUNSETIFF", "taken: sendto: "),
        edited("the endpoint's thread has the manager's socket", "macsecd.c", "d->link.socket, d->service.socket);",
               "d->link.socket, -1);", "write by", "send by", "sent by the manager's socket"),
        edited("it sends to any address", "confine.c", "{ IS_NOT_MANAGER, 0, 0 }, { IS, 8, 0 }, { IS, 9, 0 }",
               "{ ANYTHING, 0, 0 }", "sendto by", "taken: sendto: ", "sent by the manager's socket"),
        edited("sendmmsg by any file", "confine.c", "SYS_sendmmsg, { { IS_OWN, 0, 0 } }",
               "SYS_sendmmsg, { { ANYTHING, 0, 0 } }", "sendmmsg by", "sent by the manager's socket"),
        edited("it sends to other programs", "confine.c", "{ IS_MANAGER, 0, 0 }, { IS, 8, 0 }, { IS, 9, 0 }",
               "{ IS_MANAGER, 0, 0 }", "the thread: service"),
        edited("a worker writes to any file", "confine.c", "{ WORKER_THREAD, SYS_write, { { IS_OWN, 0, 0 } } }",
               "{ WORKER_THREAD, SYS_write, { { ANYTHING, 0, 0 } } }", "the thread: worker")],
    "rights": [
        edited("CAP_SYS_ADMIN stays", "confine.c", "~(1U << CAP_SYS_ADMIN)", "~0U", "isolated, by root",
               "isolated, as nobody", "shared, by root", "shared, as nobody"),
        edited("it goes after the journal with `device shared`", "namespace.c",
               "    return confine_namespace();",
               "    return !c->shared ? confine_namespace() : 0;", "shared, by root")],
    "names": [edited("LINK is not waited for", "macsec-link", "tries=30", "tries=1", "is not there")],
    "starts": [
        edited("TAP may be in LINK's namespace", "namespace.c", "if (!is_same_file(&status, wanted))", "if (true)",
               "the host's namespace", "inside LINK's namespace"),
        edited("a TAP is made", "tap.c", "    if (!c->shared) {\n", "    if (false) {\n", "without TAP"),
        edited("lines hide each other", "config.c", "c->shared && (c->isolated || c->alone)", "false", "exclude"),
        edited("the host's namespace is taken", "macsec-link", "    ! is_host || fail", "    true || fail",
               "the host's settings"),
        edited("several at a time", "macsec-link", '    flock -w 30 9 || fail "another macsec-link runs"\n', "",
               "at once"),
        edited("the mask of the unit", "macsec-link", "umask 022", "umask 077", "has the mode")],
    "life": [
        edited("a deleted TAP is not seen", "loop.c", "    if ((events & (EPOLLERR | EPOLLHUP)) != 0) {\n",
               "    if (false) {\n", "TAP is deleted"),
        edited("TAP's address is not read", "loop.c", "return rtnetlink_tick(d) ?", "return true ?",
               "TAP's new address"),
        edited("no release with `device shared`", "macsec-link", "release() {\n",
               'release() {\n    [ "$way" != shared ] || return 0\n', "life: release"),
        edited("TAP ends", "tap.c", "c->transient ||", "!c->transient ||", "TAP ended")],
    "clients": [edited("the port is off", "frames.c", "    if (!d->port.off)\n        return tap_write",
                       "    if (d->port.off)\n        return tap_write")],
    "users": [
        edited("TAP has no owner before the first start", "macsec-link", ' user "$user"\n', "\n",
               "before the first start: 1 times attached, 50 datagrams read, 50 sent as the peer", "is gone"),
        edited("macsecd sets no owner", "tap.c", "ioctl(t->file, TUNSETOWNER, (unsigned long)c->user) == 0 &&",
               "true &&", "after SIGTERM: 1 times", "after SIGKILL: 1 times", "tries at", "(TAP is free): 1 times"),
        edited("a user keeps the TAP that he has", "macsec-link", '    ip link del dev "$tap"\n', "    return 1\n",
               "(the user has TAP): macsecd does not start", "(fake,vanish): macsecd", "(hide): macsecd"),
        edited("the TAP of any program is deleted", "macsec-link", "    had_tap || fail", "    true || fail",
               "TAP deleted"),
        edited("macsecd's user loses TAP", "holder.c", "|| h.user == user;", ";", "the journal's user has"),
        edited("filters stay", "tap.c", "        return undo(t);", "        return (void)undo, 0;", "poison"),
        edited("a group stays", "tap.c", "return group >= 0;", "return group > 1 << 30;", "and group 0 65534"),
        edited("the TAP of another namespace is taken for it", "holder.c", "!is_elsewhere(process, number, t);",
               "(true || is_elsewhere(process, number, t));", "in use by process")],
}
# fmt: on
