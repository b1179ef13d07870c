"""What the handles of the C library hold, and what each call answers, worked out from keeping.py. calls.py compares the
library with this."""

from __future__ import annotations

import collections
import contextlib
import copy
import pathlib
import re
import struct

import expected
import files
import journals
import tables
from keeping import Dropped, Endpoint, NoReservation

ROOT = pathlib.Path(__file__).resolve().parent.parent
HEADER = (ROOT / "include/macsec.h").read_text()
# The constants of the header, by their names without MACSEC_.
CONSTANTS = {name: int(value) for name, value in re.findall(r"\bMACSEC_(\w+) = (\d+)", HEADER)}
CONSTANTS |= {name: int(value) for name, value in re.findall(r"#define MACSEC_(\w+) (\d+)\n", HEADER)}
# Its calls, by their names without macsec_. The call of the version is made once.
CALLS = set(re.findall(r"^(?:uint32_t|void) macsec_(\w+?)(?:_raw)?\(", HEADER, re.M)) - {"version"}
FRAME_MIN, FRAME_MAX = CONSTANTS["FRAME_MIN"], CONSTANTS["FRAME_MAX"]

HANDLES = 3
KEYS = SLOTS = 3
FILES = 2
SUITES = {CONSTANTS[it]: name for it, name in tables.SUITE_CONSTANTS.items()}
FORMS = {CONSTANTS["FORM_" + it.upper()]: it for it in expected.FORMS}
MODES = {CONSTANTS["MODE_" + it.upper()]: it for it in expected.MODES}
# The calls that a handle without an endpoint does not refuse.
HANDLE_FREE = (
    "new", "configure", "reserve_open", "reserve_configure", "free", "journal_header", "journal_compacted", "seal",
    "answer", "parse_line", "parse_end", "clear_command", "key_take", "key_free", "slot_new", "slot_free", "slot_clear",
    "plan_send", "seal_job", "plan_receive", "open_job", "finish_receive", "journal_created", "journal_begin",
    "journal_order", "journal_next", "journal_answered", "journal_shown", "journal_record", "journal_let_go",
    "journal_noted", "journal_whole", "journal_free", "load",
)  # fmt: skip
# The most octets of a frame that is sealed.
MOST_SEALED = 2**36 - 32
ALL_COUNTERS, TX_COUNTERS = tables.ENDPOINT_COUNTERS, tables.TX_COUNTERS


def constant_name(name):
    """NoSAError: NO_SA_ERROR."""
    return re.sub(r"(?<=[a-z])(?=[A-Z])|(?<=[A-Z])(?=[A-Z][a-z])", "_", name).upper()


class Status(Exception):
    """Why nothing is done: the name of the status, and what is shown with it, if that is not the same for all."""


def status_if(applies, *why):
    if applies:
        raise Status(*why)


class Slot:
    """A frame, what is to be done with it (seal, open, finish or nothing), and the key for that."""

    def __init__(self, work=None, key=None, frame=None):
        self.work, self.key, self.frame = work, key, frame


def named(table, number, status):
    status_if(number not in table, status)
    return table[number]


def an_of(number):
    return named(range(CONSTANTS["AN_COUNT"]), number, "E_NO_SUCH_AN")


def key_number_of(number):
    return named(range(CONSTANTS["KEY_COUNT"]), number, "E_NO_SUCH_KEY_NUMBER")


def found(it):
    status_if(it is None, "E_NOT_FOUND")
    return it


def framed(frame):
    status_if(len(frame) < FRAME_MIN, "E_FRAME_SHORT")
    status_if(len(frame) > FRAME_MAX, "E_FRAME_LONG")
    return frame


# The statuses of the faults of a configuration.
FAULTS = {it["name"]: it["c"] for it in tables.TEXT_FAULTS}


def parsed(text, told):
    """The lines of a configuration; a fault is shown with its line."""
    try:
        return expected.parse(text, is_config=True)
    except expected.ScriptFault as fault:
        name, line = fault.args
        raise Status(FAULTS[name], told(line)) from None


def asked(line):
    """The fault of a line, or its keyword and values, if it is about end A alone. A skipped line has no keyword."""
    ends = b"end A gcm128 0200000000010001 1518 sci\nend B gcm128 0200000000020001 1518 sci\n"
    try:
        _, _, *lines = expected.parse(ends + line, is_config=False)
    except expected.ScriptFault as fault:
        return fault.args[0], None, ()
    for _, keyword, end, values in lines:
        is_alone = end == "A" and keyword in {*expected.COMMANDS, "counters", "numbers"}
        return None if is_alone else "Ends", keyword, values
    return None, None, ()


def hex_of(octets):
    return octets.hex() or "-"


def flag(is_on):
    return "on" if is_on else "off"


# The calls that are commands: the keyword of each, and what reads its arguments.
COMMANDS = {
    "set_protect": ("protect", flag),
    "set_validation": ("validate", lambda mode: named(MODES, mode, "E_NO_SUCH_MODE")),
    "set_replay": ("replay", flag, int),
    "set_tag_form": ("tag", lambda form: named(FORMS, form, "E_NO_SUCH_FORM")),
    "retire_key": ("retire", key_number_of),
    "add_tx_sa": ("txsa", an_of, key_number_of, int, lambda conf: "conf" if conf else "int"),
    "enable_tx_sa": ("txon", an_of),
    "disable_tx_sa": ("txoff", an_of),
    "delete_tx_sa": ("txdel", an_of),
    "add_rx_sc": ("rxsc", bytes),
    "delete_rx_sc": ("rxscdel", bytes),
    "enable_rx_sa": ("rxon", bytes, an_of),
    "disable_rx_sa": ("rxoff", bytes, an_of),
    "set_lowest_pn": ("rxlow", bytes, an_of, int),
    "delete_rx_sa": ("rxdel", bytes, an_of),
}


# The members of a command as a struct, as its call takes and shows them, after those of its key; and the row of none.
MEMBERS = ("pn", "sci", "ssci", "kind", "choice", "key", "an", "flag")
NO_SAK = (bytes(32), bytes(12), 0, 0, 0, 0, 0)
# For each keyword the kind, and for each value of a line the member that has it, by the field of the line.
PLACES = {
    "switch": "flag", "protection": "flag", "mode": "choice", "form": "choice", "number": "key", "window": "pn",
    "an": "an", "pn": "pn", "sci": "sci", "ssci": "ssci",
}  # fmt: skip
KINDS = {it["name"]: it["c"] for it in tables.COMMANDS}
# The longest line of each keyword.
FIELDS = {keyword: fields for keyword, *fields in sorted((it.split() for it in expected.LINES), key=len)}
# A value of a line as a member, and a member as a value of a line.
TO_MEMBER = {
    "switch": lambda it: int(it == "on"), "protection": lambda it: int(it == "conf"),
    "mode": lambda it: CONSTANTS["MODE_" + it.upper()], "form": lambda it: CONSTANTS["FORM_" + it.upper()],
    "ssci": lambda it: int.from_bytes(it, "big"),
}  # fmt: skip
FROM_MEMBER = {
    "switch": lambda it: named({0: "off", 1: "on"}, it, "E_NO_SUCH_COMMAND"),
    "protection": lambda it: named({0: "int", 1: "conf"}, it, "E_NO_SUCH_COMMAND"),
    "mode": lambda it: named(MODES, it, "E_NO_SUCH_MODE"), "form": lambda it: named(FORMS, it, "E_NO_SUCH_FORM"),
    "an": an_of, "number": key_number_of, "ssci": struct.Struct(">I").pack,
}  # fmt: skip


def shown_command(sak=NO_SAK, **members):
    """A command as a struct. The members that are not given are 0."""
    shown = {**dict.fromkeys(MEMBERS, 0), "sci": bytes(8), **members}
    words = (*sak, *(shown[it] for it in MEMBERS))
    return "".join(f" {it.hex() if isinstance(it, bytes) else it}" for it in words)


def sak_of(number, octets, offset, *others):
    """The key of a line, as a struct. Its last words are SUITE, or SSCI and SALT, or all three."""
    suite = {name: it for it, name in SUITES.items()}[others[0]] if len(others) in (1, 3) else 0
    ssci, salt = others[-2:] if len(others) > 1 else (bytes(4), bytes(12))
    return octets.ljust(32, b"\0"), salt, int.from_bytes(ssci, "big"), suite, number, len(octets), offset


def rx_sa_of(end, sci, an):
    an = an_of(an)
    return found(found(end.channel(sci)).sas.get(an))


def shown_tx_sa(sa):
    return f"{sa.next:017x}", sa.key, int(sa.conf), int(sa.on)


def shown_rx_sa(sa):
    return f"{sa.next:017x}", f"{sa.lowest:017x}", int.from_bytes(sa.ssci, "big"), sa.key, int(sa.on)


def shown_record(reservation):
    return [journals.record(found(reservation)).hex()]


# The calls that show something of an endpoint.
SHOWING = {
    "keys_left": lambda end: [CONSTANTS["KEY_COUNT"] - len(end.keys)],
    "get_counters": lambda end: (end.counters[it] for it in ALL_COUNTERS),
    "get_tx_counters": lambda end: (end.counters[it] for it in TX_COUNTERS),
    "get_rx_counters": lambda end, sci: found(end.channel(sci)).counters.values(),
    "get_rx_sa_counters": lambda end, sci, an: rx_sa_of(end, sci, an).counters.values(),
    "get_removed_counters": lambda end, sci: found(end.channel(sci)).removed.values(),
    "get_rx_sc": lambda end, place: [found(dict(enumerate(end.channels)).get(place)).sci.hex()],
    "get_tx_sa": lambda end, an: shown_tx_sa(found(end.tx.get(an_of(an)))),
    "get_rx_sa": lambda end, sci, an: shown_rx_sa(rx_sa_of(end, sci, an)),
    "reserve_wanted": lambda end, an, amount: shown_record(end.wanted(an_of(an), amount)),
    "reserve_to_accept": lambda end, sci, an, *numbers: shown_record(end.to_accept(sci, an_of(an), *numbers)),
    "reserve_to_save": lambda end, sci, an: shown_record(end.to_save(sci, an_of(an))),
    "reserve_tx_floor": lambda end, number: [found(end.floor((), key_number_of(number)))],
    "reserve_rx_floor": lambda end, sci, an, number: [found(end.floor((sci, an_of(an)), key_number_of(number)))],
}

# What a call shows if it does nothing. The program sets what most of them fill in to 7 before the call.
UNSHOWN = {
    **dict.fromkeys(("configure", "reserve_configure"), " 0"),
    "parse_line": shown_command(),
    "parse_end": f" {'00' * 8} 0 0 0",
    "send": f" {CONSTANTS['FATE_NONE']} 0 -",
    "seal_job": " 7 -",
    **dict.fromkeys(("plan_send", "plan_receive"), f" {CONSTANTS['FATE_NONE']} 0 0"),
    **dict.fromkeys(("receive", "finish_receive"), f" {CONSTANTS['VERDICT_NONE']} 0 {'00' * 8} 0 0 0 -"),
    **dict.fromkeys(("reserve_wanted", "reserve_to_accept", "reserve_to_save"), " " + "07" * journals.RECORD),
    **dict.fromkeys(("journal_shown", "journal_record"), " " + "07" * journals.RECORD),
    "journal_next": " 7 7 7 -",
    "journal_whole": " 7 -",
    **dict.fromkeys(("reserve_tx_floor", "reserve_rx_floor", "keys_left"), " 7"),
    "get_options": " 7 7 7 0 0",
    "get_counters": " 7" * len(ALL_COUNTERS),
    "get_tx_counters": " 7" * len(TX_COUNTERS),
    **dict.fromkeys(("get_rx_counters", "get_rx_sa_counters", "get_removed_counters"), " 7" * 6),
    "get_rx_sc": " " + "07" * 8,
    "get_tx_sa": f" 7{7:016x} 7 0 0",
    "get_rx_sa": f" 7{7:016x} 7{7:016x} 7 7 0",
}


def not_loaded(place, count):
    """What a load shows that does nothing: the place, and as many numbers as rows."""
    return f" {place}" + " 7" * count


def without_memory(line):
    """The answer to the call of a line that is refused an allocation: it does nothing."""
    name, *words = line.split()
    shown = UNSHOWN.get(name, "")
    if name == "answer":
        shown = f" 0 {hex_of(bytes([7]) * int(words[-1]))}"
    elif name == "load":
        shown = not_loaded(0, int(words[1]))
    elif name == "journal_compacted":
        shown = f" 7 {'07' * (len(words[-1]) // 2) or '-'}"
    return f"{name}{shown} : {CONSTANTS['E_MEMORY']}"


class Model:
    """What the handles hold, and what each call answers: the text before its status, and the status."""

    def __init__(self):
        self.ends = [None] * HANDLES
        self.keys, self.slots, self.files = [None] * KEYS, [None] * SLOTS, [None] * FILES
        # Each constant that was given or answered.
        self.met = collections.Counter({"OK": 0})

    def answer(self, name, handle, *words):
        shown = UNSHOWN.get(name, "")
        status = "OK"
        try:
            status_if(name not in HANDLE_FREE and self.ends[handle] is None, "E_EMPTY")
            if name in COMMANDS:
                keyword, *readers = COMMANDS[name]
                self.command(handle, keyword, *(read(it) for read, it in zip(readers, words)))
            elif name in SHOWING:
                shown = "".join(f" {it}" for it in SHOWING[name](self.ends[handle], *words))
            else:
                shown = getattr(self, "call_" + name)(handle, *words) or ""
        except Status as it:
            status, *told = it.args
            shown = told[0] if told else shown
        except expected.Refused as it:
            status = "E_" + constant_name(str(it))
        except files.Refused as it:
            status = str(it)
        self.met[status] += 1
        return f"{name}{shown} : {CONSTANTS[status]}"

    # Creation and end.

    def call_new(self, handle, sci, suite, form, max_frame, journal=None, ahead=0):
        status_if(self.ends[handle] is not None, "E_TAKEN")
        suite, form = named(SUITES, suite, "E_NO_SUCH_SUITE"), named(FORMS, form, "E_NO_SUCH_FORM")
        status_if(journal is not None and not journals.is_journal(journal), "E_NOT_JOURNAL")
        status_if(not 64 <= max_frame <= FRAME_MAX, "E_NEW_MAX_FRAME")
        status_if(not expected.form_fits(form, sci), "E_NEW_SCI_FORM")
        self.ends[handle] = Endpoint(suite, sci, max_frame, form, journal, ahead != 0)

    call_reserve_open = call_new

    def call_configure(self, handle, text, journal=None, ahead=0):
        status_if(self.ends[handle] is not None, "E_TAKEN")
        (_, _, _, (_, suite, sci, max_frame, form)), *commands = parsed(text, lambda line: f" {line or 0}")
        status_if(journal is not None and not journals.is_journal(journal), "E_NOT_JOURNAL")
        made = Endpoint(suite, sci, max_frame, form, journal, ahead != 0)
        for line, keyword, _, values in commands:
            try:
                made.command(keyword, values)
            except expected.Refused as it:
                raise Status("E_" + constant_name(str(it)), f" {line}") from None
        self.ends[handle] = made
        return " 0"

    call_reserve_configure = call_configure

    def call_free(self, handle):
        self.ends[handle] = None

    # Reservations.

    def call_reserve_granted(self, handle, octets):
        read = journals.read_record(octets)
        status_if(read is None, "E_NOT_RECORD")
        self.ends[handle].note_durable(read)

    def call_journal_header(self, handle, salt):
        return f" {journals.header(salt).hex()}"

    def call_journal_compacted(self, handle, journal):
        status_if(not journals.is_journal(journal), "E_NOT_JOURNAL", f" 7 {hex_of(bytes([7]) * len(journal))}")
        shorter = journals.compacted(journal)
        return f" {len(shorter)} {hex_of(shorter + bytes([7]) * (len(journal) - len(shorter)))}"

    # A journal as a file.

    def file_of(self, place):
        status_if(self.files[place] is None, "E_EMPTY")
        return self.files[place]

    def call_journal_created(self, handle, salt):
        return f" {files.file_of(salt, {}).hex()}"

    def call_journal_begin(self, handle, place, octets, limit):
        status_if(self.files[place] is not None, "E_TAKEN")
        self.files[place] = files.File(octets, limit)

    def call_journal_order(self, handle, place, octets, anew):
        self.file_of(place).order(octets, anew != 0)

    def call_journal_next(self, handle, place, room):
        it = self.file_of(place)
        status_if(room < len(it.written()), "E_SPACE")
        self.met["STEP_" + it.step] += 1
        at = it.at if it.step == "APPENDING" else 0
        return f" {CONSTANTS['STEP_' + it.step]} {at} {it.at} {hex_of(it.written())}"

    def call_journal_answered(self, handle, place, good):
        self.file_of(place).answer(good != 0)

    def call_journal_shown(self, handle, place, index):
        return f" {shown_record(dict(enumerate(self.file_of(place).shown)).get(index))[0]}"

    def call_journal_record(self, handle, place, index):
        return f" {shown_record(dict(enumerate(self.file_of(place).table.items())).get(index))[0]}"

    def call_journal_let_go(self, handle, place, name):
        self.file_of(place).let_go(name)

    def call_journal_noted(self, handle, name, number):
        return f" {journals.record((name, number)).hex()}"

    def call_journal_whole(self, handle, place, room):
        octets = self.file_of(place).for_endpoint()
        status_if(room < len(octets), "E_SPACE")
        return f" {len(octets)} {octets.hex()}"

    def call_journal_free(self, handle, place):
        self.files[place] = None

    # Frames.

    def call_send(self, handle, frame):
        end = self.ends[handle]
        key = next((sa.key for sa in end.tx.values() if sa.on), 0) if end.protects else 0
        try:
            sent, reason = end.send(framed(frame))
        except NoReservation:
            sent, reason = None, "NoReservation"
        fate = "FATE_" + (constant_name(reason) if sent is None else "PROTECTED" if end.protects else "PLAIN")
        self.met[fate] += 1
        self.met["OVERHEAD_MAX"] += sent is not None and len(sent) - len(frame) == CONSTANTS["OVERHEAD_MAX"]
        assert sent is None or len(sent) - len(frame) <= CONSTANTS["OVERHEAD_MAX"]
        return f" {CONSTANTS[fate]} {0 if sent is None else key} {hex_of(sent or b'')}"

    # Keys and slots. The frame of a slot that is to be sealed is the protected one.

    def end_of(self, handle):
        status_if(self.ends[handle] is None, "E_EMPTY")
        return self.ends[handle]

    def slot_of(self, slot, *works):
        """A slot whose work is one of these."""
        status_if(self.slots[slot] is None, "E_EMPTY")
        status_if(self.slots[slot].work not in works, "E_JOB")
        return self.slots[slot]

    def call_key_take(self, handle, key, number):
        status_if(self.keys[key] is not None, "E_TAKEN")
        end, number = self.end_of(handle), key_number_of(number)
        expected.refuse("NoKey", number not in end.keys)
        expected.refuse("KeyRetired", end.keys[number].retired)
        self.keys[key] = end.identity(number)

    def call_key_free(self, handle, key):
        self.keys[key] = None

    def call_slot_new(self, handle, slot):
        status_if(self.slots[slot] is not None, "E_TAKEN")
        self.slots[slot] = Slot()

    def call_slot_free(self, handle, slot):
        self.slots[slot] = None

    def call_slot_clear(self, handle, slot):
        self.slot_of(slot, None, "seal", "open", "finish")
        self.slots[slot] = Slot()

    def call_plan_send(self, handle, slot, frame):
        end = self.end_of(handle)
        self.slot_of(slot, None)
        fate, key, sent = self.call_send(handle, frame).split()
        if int(fate) != CONSTANTS["FATE_PROTECTED"]:
            return f" {fate} 0 0"
        self.slots[slot] = Slot("seal", end.identity(int(key)), bytes.fromhex(sent))
        return f" {fate} {key} 1"

    def keyed(self, slot, key, work):
        """A slot with this work, whose key this is."""
        status_if(self.slots[slot] is None or self.keys[key] is None, "E_EMPTY")
        it = self.slot_of(slot, work)
        status_if(it.key != self.keys[key], "E_OTHER_KEY")
        return it

    def call_seal_job(self, handle, slot, key, room):
        frame = self.keyed(slot, key, "seal").frame
        status_if(room < len(frame), "E_SPACE")
        self.slots[slot] = Slot()
        return f" {len(frame)} {frame.hex()}"

    def call_plan_receive(self, handle, slot, frame):
        end = self.end_of(handle)
        self.slot_of(slot, None)
        key = end.opened_with(framed(frame))
        work, identity = ("finish", None) if key is None else ("open", end.identity(key))
        self.slots[slot] = Slot(work, identity, frame)
        return f" 0 {key or 0} {int(key is not None)}"

    def call_open_job(self, handle, slot, key):
        it = self.keyed(slot, key, "open")
        self.slots[slot] = Slot("finish", it.key, it.frame)

    def call_finish_receive(self, handle, slot, room):
        self.end_of(handle)
        frame = self.slot_of(slot, "open", "finish").frame
        status_if(room < FRAME_MAX, "E_SPACE")
        self.slots[slot] = Slot()
        return self.call_receive(handle, frame)

    def call_send_uncontrolled(self, handle, frame):
        framed(frame)

    def call_receive(self, handle, frame):
        end, pn = self.ends[handle], 0
        row = end.row_of(framed(frame))
        try:
            verdict, delivered = end.receive(frame)
        except Dropped as it:
            (verdict, pn), delivered = it.args, None
        verdict = "VERDICT_" + constant_name(verdict)
        self.met[verdict] += 1
        sci, an = row or (bytes(8), 0)
        told = f"{int(row is not None)} {sci.hex()} {an} {int(delivered is not None)} {pn} {hex_of(delivered or b'')}"
        return f" {CONSTANTS[verdict]} {told}"

    def call_seal(self, handle, octets, salt, ssci, suite, number, length, offset, sci, pn, conf, head, frame):
        lengths = {it: expected.SUITES[name][0] for it, name in SUITES.items()}
        for status, applies in (
            ("E_NO_SUCH_SUITE", suite not in SUITES), ("E_NO_SUCH_KEY_OCTETS", length not in (16, 32)),
            ("E_KEY_LENGTH", lengths.get(suite) != length), ("E_PN_RANGE", pn >> (64 if suite > 2 else 32)),
            ("E_FRAME_SHORT", len(frame) < head + 16), ("E_FRAME_LONG", len(frame) > MOST_SEALED),
        ):  # fmt: skip
            status_if(applies, status, f" {hex_of(frame)}")
        key = expected.Key(octets[:length], offset, SUITES[suite], struct.pack(">I", ssci), salt)
        data = frame[head:-16]
        clear = head + (min(offset, len(data)) if conf else len(data))
        iv = expected.Endpoint.iv(None, key, sci, key.ssci, pn)
        return f" {(frame[:clear] + expected.seal(key.octets, iv, frame[:clear], frame[clear:-16])).hex()}"

    # Commands.

    def command(self, handle, keyword, *values):
        self.ends[handle].command(keyword, values)

    def call_renew_key(self, handle, *sak):
        self.key(self.ends[handle].renew, handle, *sak)

    def call_install_key(self, handle, *sak):
        self.key(lambda *values: self.command(handle, "key", *values), handle, *sak)

    def key(self, install, handle, octets, salt, ssci, suite, number, length, offset, shown=None):
        """A key that this function installs."""
        end = self.ends[handle]
        suite = end.suite if suite == CONSTANTS["SUITE_DEFAULT"] else named(SUITES, suite, "E_NO_SUCH_SUITE")
        number = key_number_of(number)
        status_if(length not in (16, 32), "E_NO_SUCH_KEY_OCTETS")
        status_if(shown not in (None, number), "E_NO_SUCH_COMMAND")
        install(number, octets[:length], offset, suite, struct.pack(">I", ssci), salt)

    def call_add_rx_sa(self, handle, sci, an, key, pn, ssci):
        self.command(handle, "rxsa", sci, an_of(an), key_number_of(key), pn, struct.pack(">I", ssci))

    def call_command_line(self, handle, line):
        """A line is read as the second one of a configuration."""
        _, *commands = parsed(b"end A gcm128 0200000000010001 1518 sci\n" + line, lambda _: "")
        for _, keyword, _, values in commands:
            self.command(handle, keyword, *values)

    def call_parse_line(self, handle, line):
        """The command of a line that is the second one of a configuration."""
        _, *commands = parsed(b"end A gcm128 0200000000010001 1518 sci\n" + line, lambda _: shown_command())
        for _, keyword, _, values in commands:
            self.met[KINDS[keyword]] += 1
            kind = CONSTANTS[KINDS[keyword]]
            if keyword == "key":
                return shown_command(sak_of(*values), kind=kind, key=values[0])
            fields = FIELDS[keyword][: len(values)]
            return shown_command(
                kind=kind, **{PLACES[it]: TO_MEMBER.get(it, lambda it: it)(v) for it, v in zip(fields, values)}
            )
        self.met["COMMAND_NONE"] += 1
        return shown_command()

    def call_parse_end(self, handle, line):
        """The configuration of a line that is the first one of a configuration."""
        for _, _, _, (_, suite, sci, most, form) in parsed(line, lambda _: UNSHOWN["parse_end"]):
            suite, form = {name: it for it, name in SUITES.items()}[suite], CONSTANTS["FORM_" + form.upper()]
            return f" {sci.hex()} {suite} {form} {most}"

    def call_carry_out(self, handle, *row):
        sak, members = row[: len(NO_SAK)], dict(zip(MEMBERS, row[len(NO_SAK) :]))
        keywords = {CONSTANTS[it]: keyword for keyword, it in KINDS.items()}
        if members["kind"] == CONSTANTS["COMMAND_NONE"]:
            return
        keyword = named(keywords, members["kind"], "E_NO_SUCH_COMMAND")
        if keyword == "key":
            self.call_install_key(handle, *sak, members["key"])
        else:
            values = [FROM_MEMBER.get(it, lambda it: it)(members[PLACES[it]]) for it in FIELDS[keyword]]
            self.command(handle, keyword, *values)

    def call_load(self, handle, count, *words):
        """Rows that are all carried out, or none. First come those that mean nothing."""
        end, length = self.ends[handle], len(NO_SAK) + len(MEMBERS)
        rows = [words[length * it : length * (it + 1)] for it in range(count)]
        status_if(end is None, "E_EMPTY", not_loaded(0, count))
        begins: list[int] = []
        try:
            for place, row in enumerate(rows):
                self.ends[handle] = copy.deepcopy(end)
                with contextlib.suppress(expected.Refused):
                    self.call_carry_out(handle, *row)
            self.ends[handle] = copy.deepcopy(end)
            for place, row in enumerate(rows):
                begins.append(self.loaded(handle, row))
        except Status as it:
            self.ends[handle] = end
            raise Status(it.args[0], not_loaded(place, count)) from None
        except expected.Refused as it:
            self.ends[handle] = end
            raise Status("E_" + constant_name(str(it)), not_loaded(place, count)) from None
        return f" {count}" + "".join(f" {it}" for it in begins)

    def loaded(self, handle, row):
        """One row of a load. Returns where its association begins, if that is above its number, otherwise 0."""
        end, sak, members = self.ends[handle], row[: len(NO_SAK)], dict(zip(MEMBERS, row[len(NO_SAK) :]))
        if members["kind"] == CONSTANTS["COMMAND_KEY"]:
            self.key(end.renew, handle, *sak, members["key"])
            return 0
        try:
            self.call_carry_out(handle, *row)
            return 0
        except expected.Refused as it:
            if str(it) != "PnFloor":
                raise
        is_tx = members["kind"] == CONSTANTS["COMMAND_TX_SA"]
        number = end.first_free(members["key"], () if is_tx else (members["sci"], members["an"]))
        expected.refuse("PnFloor", number >= 2**64)
        try:
            self.call_carry_out(handle, *sak, *{**members, "pn": number}.values())
        except expected.Refused as it:
            expected.refuse("PnFloor", str(it) == "PnRange")
            raise
        return number

    def call_clear_command(self, handle, *row):
        return shown_command()

    def call_answer(self, handle, number, line, room):
        """The text that a script prints for the line, and octets of 7 after it."""
        end, least = self.ends[handle], CONSTANTS["ANSWER_MIN"]
        shown = lambda length, text=b"": f" {length} {hex_of(text + bytes([7]) * (room - len(text)))}"
        status_if(end is None, "E_EMPTY", shown(0))
        fault, keyword, values = asked(line)
        status, text, needed = "OK", b"", least
        if fault:
            status, text = FAULTS[fault], f"macsec: line {number}: {fault}\n".encode()
        elif keyword in ("counters", "numbers"):
            text = expected.text_of(end.counter_lines(number) if keyword == "counters" else end.number_lines(number))
            needed = max(least, len(text))
        status_if(room < needed, "E_ANSWER_LONG", shown(needed))
        if keyword in expected.COMMANDS and not fault:
            result = expected.command_result(end, keyword, values)
            text = f"{number} {result}\n".encode()
            status = "OK" if result == "done" else "E_" + constant_name(result.split()[2])
        raise Status(status, shown(len(text), text))

    # What an endpoint shows.

    def call_get_options(self, handle):
        end = self.ends[handle]
        mode, form = CONSTANTS["MODE_" + end.mode.upper()], CONSTANTS["FORM_" + end.form.upper()]
        self.met.update(["MODE_" + end.mode.upper(), "FORM_" + end.form.upper()])
        return f" {end.window} {mode} {form} {int(end.protects)} {int(end.replay)}"
