"""What the program must print, write and return, by the rules of docs/: scripts, endpoints, links and captures.

The rules of docs/ are written here again in Python, so that the program's answers can be compared with them. The rules
for capture files are in captures.py. AES and GCM are those of OpenSSL.
"""

from __future__ import annotations

import ctypes
import ctypes.util
import struct

import captures
from tables import ENDPOINT_COUNTERS, REFUSALS, RX_COUNTERS, SUITES, TX_COUNTERS, WORLD_FAULTS

MAX_SCRIPT, MAX_LINES, MAX_LINE = 1_048_576, 65_536, 20_000
MAX_LINK_FRAMES, MIN_FRAME, MAX_FRAME = 65_536, 14, 9_248
FORMS, MODES = ("auto", "sci", "es", "scb"), ("disabled", "check", "strict")
SECY_COUNTERS = ENDPOINT_COUNTERS + TX_COUNTERS


class LineFault(Exception):
    """The fault of a line."""


class ScriptFault(Exception):
    """The fault of a script or of a configuration: its name, and the number of the line or None."""

    def __str__(self):
        name, line = self.args
        return name if line is None else f"line {line}: {name}"


class WorldFault(Exception):
    """Why an event does not happen."""


class Refused(Exception):
    """Why a command is refused."""


def fail(applies, fault):
    if applies:
        raise fault


# The words of a line.


def one_of(*choices):
    def read(word):
        fail(word not in choices, LineFault("Word"))
        return word

    return read


def decimal(low, high):
    def read(word):
        is_number = 1 <= len(word) <= 20 and all(it in "0123456789" for it in word)
        fail(not is_number or not low <= int(word) <= high, LineFault("Number"))
        return int(word)

    return read


def hexadecimal(*lengths):
    def read(word):
        is_octets = word and len(word) % 2 == 0 and is_hex(word)
        fail(not is_octets or (lengths and len(word) // 2 not in lengths), LineFault("Hex"))
        return bytes.fromhex(word)

    return read


def packet_number(word):
    fail(not (1 <= len(word) <= 16 and is_hex(word)), LineFault("Hex"))
    return int(word, 16)


def is_hex(word):
    return all(it in "0123456789abcdefABCDEF" for it in word)


# What a word of a line has to be.
FIELDS = {
    "an": decimal(0, 3), "number": decimal(0, 4095), "offset": decimal(0, 255), "window": decimal(0, 2**64 - 1),
    "link": decimal(0, 2**32 - 1), "most": decimal(64, MAX_FRAME), "pn": packet_number, "sci": hexadecimal(8),
    "ssci": hexadecimal(4), "salt": hexadecimal(12), "octets": hexadecimal(16, 32), "octet": hexadecimal(1),
    "frame": hexadecimal(), "suite": one_of(*SUITES), "form": one_of(*FORMS), "mode": one_of(*MODES),
    "switch": one_of("on", "off"), "protection": one_of("int", "conf"), "end": one_of("A", "B"),
}  # fmt: skip
# The lines of commands, after the end.
LINES = (
    "protect switch", "validate mode", "replay switch window", "tag form", "key number octets offset",
    "key number octets offset suite", "key number octets offset ssci salt", "retire number", "txon an", "txoff an",
    "key number octets offset suite ssci salt", "txsa an number pn protection", "txdel an", "rxsc sci",
    "rxscdel sci", "rxsa sci an number pn", "rxsa sci an number pn ssci", "rxon sci an", "rxoff sci an",
    "rxlow sci an pn", "rxdel sci an",
)  # fmt: skip


def forms_of(*lines):
    """The keywords of lines, and what the words after each have to be, for each form."""
    forms = {}
    for line in lines:
        keyword, *fields = line.split()
        forms.setdefault(keyword, []).append([FIELDS[it] for it in fields])
    return forms


# The lines that do not begin with an end, and those that do.
PLAIN = forms_of("end end suite sci most form", "alter link link octet", "pad link", "inject frame")
COMMANDS = forms_of(*LINES)
AT_END = COMMANDS | forms_of("send frame", "sendu frame", "deliver link", "counters", "numbers")


def parse_words(words):
    """The keyword, the end if there is one, and the values of the other words."""
    end = None
    if words[0] in ("A", "B"):
        end = words[0]
        fail(len(words) == 1, LineFault("Count"))
        words = words[1:]
    forms = (AT_END if end else PLAIN).get(words[0])
    fail(forms is None, LineFault("Word"))
    fitting = [it for it in forms if len(it) == len(words) - 1]
    if not fitting:
        raise LineFault("Count")
    values = [read(word) for read, word in zip(fitting[0], words[1:])]
    fail(words[0] == "end" and not form_fits(values[4], values[2]), LineFault("Ends"))
    return words[0], end, values


def form_fits(form, sci):
    return form not in ("es", "scb") or sci[6:] == {"es": b"\0\1", "scb": b"\0\0"}[form]


def is_in_place(index, keyword, end, values, is_config):
    if index < (1 if is_config else 2):
        return keyword == "end" and values[0] == "AB"[index]
    if is_config:
        return end == "A" and keyword in COMMANDS
    return keyword != "end"


def parse(octets, is_config):
    """The lines of a script or of a configuration that are not skipped, with their numbers."""
    lines = octets.split(b"\n")
    if not lines[-1]:
        lines.pop()
    if len(octets) > MAX_SCRIPT or len(lines) > MAX_LINES:
        raise ScriptFault("ScriptLong", None)
    parsed = []
    for number, line in enumerate(lines, 1):
        if len(line) > MAX_LINE:
            raise ScriptFault("LineLong", number)
        line = line.removesuffix(b"\r").decode("latin-1")
        words = [it for it in line.replace("\t", " ").split(" ") if it]
        if not words or words[0].startswith("#"):
            continue
        try:
            keyword, end, values = parse_words(words)
        except LineFault as fault:
            raise ScriptFault(str(fault), number) from None
        if not is_in_place(len(parsed), keyword, end, values, is_config):
            raise ScriptFault("Ends", number)
        parsed.append((number, keyword, end, values))
    if is_config and not parsed:
        raise ScriptFault("Ends", 0)
    if not is_config and len(parsed) == 1:
        raise ScriptFault("Ends", len(lines))
    return parsed


# An endpoint.


class Sa:
    """An SA. A transmit SA has no lowest packet number, and a receive SA has no `conf`."""

    def __init__(self, key, next_pn, ssci=None, conf=None):
        self.key, self.next, self.lowest, self.ssci, self.conf, self.on = key, next_pn, next_pn, ssci, conf, False
        self.counters = dict.fromkeys(RX_COUNTERS, 0)


class Key:
    def __init__(self, octets, offset, suite, ssci, salt):
        self.octets, self.offset, self.suite, self.ssci, self.salt = octets, offset, suite, ssci, salt
        self.is_xpn = SUITES[suite][1]
        self.last = 2**64 - 1 if self.is_xpn else 2**32 - 1
        self.retired, self.first_unused = False, 1


class Channel:
    def __init__(self, sci):
        self.sci, self.sas, self.counters = sci, {}, dict.fromkeys(RX_COUNTERS, 0)


class Endpoint:
    def __init__(self, suite, sci, max_frame, form):
        self.suite, self.sci, self.max_frame, self.form = suite, sci, max_frame, form
        self.protects, self.mode, self.replay, self.window = True, "strict", True, 0
        self.keys, self.tx, self.channels = {}, {}, []
        self.counters = dict.fromkeys(SECY_COUNTERS, 0)

    # Commands. Each tests its refusals in the order of their numbers.

    def command(self, keyword, values):
        getattr(self, "do_" + keyword)(*values)

    def do_protect(self, word):
        self.protects = word == "on"

    def do_validate(self, word):
        self.mode = word

    def do_replay(self, word, window):
        is_narrow = any(it.is_xpn and not it.retired for it in self.keys.values())
        refuse("Window", window > (2**30 - 1 if is_narrow else 2**32 - 1))
        self.replay, self.window = word == "on", window
        for channel in self.channels:
            for sa in channel.sas.values():
                sa.lowest = max(sa.lowest, sa.next - window)

    def do_tag(self, form):
        refuse("SciForm", not form_fits(form, self.sci))
        self.form = form

    def is_taken(self, number):
        return number in self.keys

    def do_key(self, number, octets, offset, *rest):
        """After the offset come no words, a suite, an SSCI and a salt, or all three."""
        suite = rest[0] if len(rest) in (1, 3) else self.suite
        ssci, salt = rest[-2:] if len(rest) > 1 else (bytes(4), bytes(12))
        key_length, is_xpn = SUITES[suite]
        refuse("KeyLength", len(octets) != key_length)
        refuse("Offset", offset not in ((0,) if is_xpn else (0, 30, 50)))
        refuse("KeyNumberUsed", self.is_taken(number))
        refuse("KeyRepeated", any(it.octets == octets for it in self.keys.values()))
        refuse("Window", is_xpn and self.window > 2**30 - 1)
        self.keys[number] = Key(octets, offset, suite, ssci, salt)

    def usable_key(self, number):
        refuse("NoKey", number not in self.keys)
        refuse("KeyRetired", self.keys[number].retired)
        return self.keys[number]

    def do_retire(self, number):
        key = self.usable_key(number)
        rows = list(self.tx.values()) + [sa for it in self.channels for sa in it.sas.values()]
        refuse("KeyInUse", any(sa.key == number for sa in rows))
        key.retired = True

    def do_txsa(self, an, number, pn, conf):
        key = self.usable_key(number)
        refuse("KeyInUse", any(sa.key == number for sa in self.tx.values()))
        refuse("AnTaken", an in self.tx)
        refuse("PnRange", not 1 <= pn <= key.last)
        refuse("PnFloor", pn < key.first_unused)
        self.tx[an] = Sa(number, pn, conf=conf == "conf")

    def is_exhausted(self, sa):
        return sa.next > self.keys[sa.key].last

    def do_txon(self, an):
        refuse("NoSa", an not in self.tx)
        refuse("Exhausted", self.is_exhausted(self.tx[an]))
        for number, sa in self.tx.items():
            sa.on = number == an

    def do_txoff(self, an):
        refuse("NoSa", an not in self.tx)
        self.tx[an].on = False

    def do_txdel(self, an):
        refuse("NoSa", an not in self.tx)
        del self.tx[an]

    def channel(self, sci):
        return next((it for it in self.channels if it.sci == sci), None)

    def do_rxsc(self, sci):
        refuse("OwnSci", sci == self.sci)
        refuse("ScTaken", self.channel(sci) is not None)
        refuse("ScFull", len(self.channels) >= 64)
        self.channels.append(Channel(sci))

    def do_rxscdel(self, sci):
        refuse("NoSc", self.channel(sci) is None)
        self.channels.remove(self.channel(sci))

    def do_rxsa(self, sci, an, number, pn, ssci=bytes(4)):
        key = self.usable_key(number)
        channel = self.channel(sci)
        refuse("NoSc", channel is None)
        refuse("AnTaken", an in channel.sas)
        refuse("PnRange", not 1 <= pn <= key.last)
        refuse("SsciOwn", key.is_xpn and ssci == key.ssci)
        channel.sas[an] = Sa(number, pn, ssci=ssci)

    def rx_sa(self, sci, an):
        refuse("NoSc", self.channel(sci) is None)
        refuse("NoSa", an not in self.channel(sci).sas)
        return self.channel(sci).sas[an]

    def do_rxon(self, sci, an):
        self.rx_sa(sci, an).on = True

    def do_rxoff(self, sci, an):
        self.rx_sa(sci, an).on = False

    def do_rxlow(self, sci, an, pn):
        sa = self.rx_sa(sci, an)
        refuse("PnRange", not 1 <= pn <= self.keys[sa.key].last)
        refuse("PnLower", pn < sa.lowest)
        sa.lowest, sa.next = pn, max(sa.next, pn)

    def do_rxdel(self, sci, an):
        self.rx_sa(sci, an)
        del self.channel(sci).sas[an]

    # Frames.

    def count(self, name, by=1):
        self.counters[name] = (self.counters[name] + by) % 2**64

    def iv(self, key, sci, ssci, pn):
        if not key.is_xpn:
            return sci + struct.pack(">I", pn)
        return bytes(a ^ b for a, b in zip(key.salt, ssci + struct.pack(">Q", pn)))

    def tag_bits(self, source):
        """The bits of the SecTAG that identify the sender: SC, ES, SCB or none."""
        if self.form == "auto":
            return 0x20 if len(self.channels) > 1 else 0
        if self.form != "sci" and source == self.sci[:6]:
            return {"es": 0x40, "scb": 0x10}[self.form]
        return 0x20

    def send(self, frame):
        """The link frame, or the reason why there is none."""
        if not self.protects:
            if len(frame) > self.max_frame:
                self.count("OutPktsTooLong")
                return None, "TooLong"
            self.count("OutPktsUntagged")
            return frame, None
        an = next((it for it, sa in self.tx.items() if sa.on and not self.is_exhausted(sa)), None)
        if an is None:
            self.count("OutPktsNoSA")
            return None, "NoSA"
        bits, data = self.tag_bits(frame[6:12]), frame[12:]
        if len(frame) + (32 if bits & 0x20 else 24) > self.max_frame:
            self.count("OutPktsTooLong")
            return None, "TooLong"
        return self.protected(frame, bits, an, self.tx[an], data), None

    def protected(self, frame, bits, an, sa, data):
        key, pn = self.keys[sa.key], sa.next
        tci = bits | (0x0C if sa.conf else 0) | an
        tag = b"\x88\xe5" + bytes([tci, len(data) if len(data) < 48 else 0]) + struct.pack(">I", pn % 2**32)
        if bits & 0x20:
            tag += self.sci
        clear = min(key.offset, len(data)) if sa.conf else len(data)
        head = frame[:12] + tag + data[:clear]
        sealed = seal(key.octets, self.iv(key, self.sci, key.ssci, pn), head, data[clear:])
        name = "Encrypted" if sa.conf else "Protected"
        self.count("OutPkts" + name)
        self.count("OutOctets" + name, len(data))
        sa.next, key.first_unused = pn + 1, pn + 1
        return head + sealed

    def receive(self, frame):
        """The verdict on a link frame, and the frame delivered at the controlled port or None."""
        verdict, delivered, counting = self.judged(frame)
        for it in counting or (self,):
            it.counters["InPkts" + verdict] = (it.counters["InPkts" + verdict] + 1) % 2**64
        return verdict, delivered

    def judged(self, frame):
        """The verdict, the delivered frame, and the channel and SA that count it or None."""
        read = read_frame(frame)
        if read == "Untagged":
            return ("NoTag", None, None) if self.mode == "strict" else ("Untagged", frame, None)
        if read == "Bad":
            return "BadTag", None, None
        e, c = read["tci"] & 8, read["tci"] & 4
        if e and not c:
            return "Reserved", None, None
        plain = frame[:12] + read["data"]
        channel = self.channel_of(read, frame)
        sa = channel.sas.get(read["tci"] & 3) if channel else None
        if sa is None or not sa.on:
            if self.mode == "strict" or c:
                return "NoSAError", None, None
            return "NoSA", plain, None
        pn = self.recovered(sa, read["pn"])
        if pn is None:
            return "BadTag", None, None
        is_late = pn < sa.lowest
        counting = (channel, sa)
        if self.replay and is_late:
            return "Late", None, counting
        if self.mode == "disabled":
            if c:
                return "NotValid", None, counting
            return "Delayed" if is_late else "Unchecked", plain, counting
        opened = self.opened(read, frame, channel.sci, sa, pn)
        if opened is None:
            return ("NotValid", None, counting) if c or self.mode == "strict" else ("Invalid", plain, counting)
        sa.next = max(sa.next, pn + 1)
        sa.lowest = max(sa.lowest, sa.next - self.window)
        return "Delayed" if is_late else "OK", frame[:12] + opened, counting

    def channel_of(self, read, frame):
        if read["sci"] is not None:
            return self.channel(read["sci"])
        if read["tci"] & 0x10:
            return self.channel(frame[6:12] + b"\0\0")
        if read["tci"] & 0x40:
            return self.channel(frame[6:12] + b"\0\1")
        return self.channels[0] if len(self.channels) == 1 else None

    def recovered(self, sa, low):
        if not self.keys[sa.key].is_xpn:
            return low or None
        upper, lowest_low = divmod(sa.lowest, 2**32)
        if low < 2**31 <= lowest_low:
            upper += 1
        pn = upper * 2**32 + low
        return pn if 0 < pn < 2**64 else None

    def opened(self, read, frame, sci, sa, pn):
        key, data, is_encrypted = self.keys[sa.key], read["data"], read["tci"] & 8
        self.count("InOctetsDecrypted" if is_encrypted else "InOctetsValidated", len(data))
        clear = min(key.offset, len(data)) if is_encrypted else len(data)
        head = frame[: 12 + read["tag_length"] + clear]
        text = open_sealed(key.octets, self.iv(key, sci, sa.ssci, pn), head, data[clear:], read["icv"])
        return None if text is None else data[:clear] + text

    # What the lines `counters` and `numbers` print.

    def counter_lines(self, label):
        lines = [f"{label} {name} {self.counters[name]}" for name in SECY_COUNTERS]
        for channel in self.channels:
            sci = channel.sci.hex()
            lines += [f"{label} {sci} {name} {channel.counters[name]}" for name in RX_COUNTERS]
            for an, sa in sorted(channel.sas.items()):
                lines += [f"{label} {sci} {an} {name} {sa.counters[name]}" for name in RX_COUNTERS]
        return lines

    def number_lines(self, label):
        state = {True: "on", False: "off"}
        lines = []
        for an, sa in sorted(self.tx.items()):
            mode = "conf" if sa.conf else "int"
            lines.append(f"{label} tx {an} {sa.key} {sa.next:016x} {state[sa.on]} {mode}")
        for channel in self.channels:
            for an, sa in sorted(channel.sas.items()):
                numbers = f"{sa.next:016x} {sa.lowest:016x} {state[sa.on]}"
                lines.append(f"{label} rx {channel.sci.hex()} {an} {sa.key} {numbers}")
        return lines


def refuse(name, applies):
    if applies:
        raise Refused(name)


def read_frame(frame):
    """`Untagged`, `Bad`, or the parts of a tagged frame."""
    if len(frame) < 14:
        return "Bad"
    if frame[12:14] != b"\x88\xe5":
        return "Untagged"
    if len(frame) < 20 or (frame[14] & 0x20 and len(frame) < 28):
        return "Bad"
    tci, short = frame[14], frame[15]
    if tci & 0x80 or (tci & 0x20 and tci & 0x50) or short >= 48:
        return "Bad"
    length = 16 if tci & 0x20 else 8
    rest = frame[12 + length :]
    if len(rest) < (short + 16 if short else 64):
        return "Bad"
    size = short or len(rest) - 16
    return {
        "tci": tci, "pn": int.from_bytes(frame[16:20], "big"), "sci": frame[20:28] if length == 16 else None,
        "tag_length": length, "data": rest[:size], "icv": rest[size : size + 16],
    }  # fmt: skip


# Two ends and the link.


class World:
    def __init__(self, ends):
        self.ends, self.link = ends, []

    def frame(self, number):
        fail(number >= len(self.link), WorldFault("NoFrame"))
        return self.link[number]

    def add(self, frame):
        self.link.append(frame)
        return f"frame {len(self.link) - 1} {frame.hex()}"

    def event(self, keyword, end, values):
        """Carries out an event, and returns what it prints."""
        if keyword in ("send", "sendu", "inject"):
            return self.sending(keyword, end, *values)
        if keyword == "deliver":
            frame = self.frame(*values)
            fail(len(frame) < MIN_FRAME, WorldFault("Short"))
            verdict, delivered = self.ends[end].receive(frame)
            return verdict if delivered is None else f"{verdict} {delivered.hex()}"
        frame = self.frame(values[0])
        fail(keyword == "alter" and values[1] >= len(frame), WorldFault("AlterRange"))
        self.test_room()
        if keyword == "pad":
            return self.add(frame.ljust(60, b"\0"))
        return self.add(frame[: values[1]] + values[2] + frame[values[1] + 1 :])

    def test_room(self):
        fail(len(self.link) >= MAX_LINK_FRAMES, WorldFault("LinkFull"))

    def sending(self, keyword, end, frame):
        fail(len(frame) < MIN_FRAME and keyword != "inject", WorldFault("Short"))
        fail(len(frame) > MAX_FRAME, WorldFault("Long"))
        self.test_room()
        if keyword != "send":
            return self.add(frame)
        made, reason = self.ends[end].send(frame)
        return f"dropped {reason}" if made is None else self.add(made)

    def result(self, keyword, end, values):
        """Carries out a command or an event, and returns what it prints."""
        if keyword not in COMMANDS:
            try:
                return self.event(keyword, end, values)
            except WorldFault as fault:
                return f"fault {WORLD_FAULTS[str(fault)]} {fault}"
        return command_result(self.ends[end], keyword, values)


def command_result(endpoint, keyword, values):
    try:
        endpoint.command(keyword, values)
        return "done"
    except Refused as refusal:
        return f"refused {REFUSALS.index(str(refusal)) + 1} {refusal}"


def text_of(lines):
    return "".join(it + "\n" for it in lines).encode()


def lines_told(world, number, keyword, end, values):
    """The lines that are printed for a line of a script."""
    if keyword == "counters":
        return world.ends[end].counter_lines(number)
    if keyword == "numbers":
        return world.ends[end].number_lines(number)
    return [f"{number} {world.result(keyword, end, values)}"]


def run_script(script):
    """The exit status, the text and the line on standard error."""
    try:
        lines = parse(script, is_config=False)
    except ScriptFault as fault:
        return 2, b"", f"macsec: {fault}\n".encode()
    ends = {values[0]: Endpoint(*values[1:]) for _, keyword, _, values in lines if keyword == "end"}
    world, text = World(ends), []
    for line in lines[2:]:
        text += lines_told(world, *line)
    return 0, text_of(text), b""


# Captures.


def run_capture(direction, config, file):
    """The exit status, the text, the line on standard error, and the output file."""
    try:
        lines = parse(config, is_config=True)
    except ScriptFault as fault:
        return 2, b"", f"macsec: {fault}\n".encode(), b""
    endpoint = Endpoint(*lines[0][3][1:])
    text = [f"{number} {command_result(endpoint, keyword, values)}" for number, keyword, _, values in lines[1:]]
    output = b""
    try:
        is_nano, records = captures.read_capture(file)
        output = captures.write_header(is_nano)
        for number, (seconds, fraction, frame) in enumerate(records):
            told, sent = record_result(endpoint, direction, frame)
            text.append(f"record {number} {told}")
            if sent is not None:
                output += captures.write_record(seconds, fraction, sent)
    except captures.PcapFault as fault:
        return 1, text_of(text), f"macsec: pcap {fault}\n".encode(), output
    return 0, text_of(text + endpoint.counter_lines("end")), b"", output


def record_result(endpoint, direction, frame):
    """What is printed for a record, and the frame that is written or None."""
    if frame is None:
        return "partial", None
    if isinstance(frame, int):
        return f"linktype {frame}", None
    if len(frame) < MIN_FRAME:
        return "fault 1 Short", None
    if len(frame) > MAX_FRAME:
        return "fault 2 Long", None
    if direction == "protect":
        sent, reason = endpoint.send(frame)
        return (f"dropped {reason}" if sent is None else f"link {len(sent)}"), sent
    verdict, delivered = endpoint.receive(frame)
    return (verdict if delivered is None else f"{verdict} {len(delivered)}"), delivered


# AES, and GCM with IVs of 12 octets and tags of 16, by OpenSSL's libcrypto, which Python has for its module ssl.

CRYPTO = ctypes.CDLL(ctypes.util.find_library("crypto") or "libcrypto.so.3")
CIPHERS = {(bits // 8, it): getattr(CRYPTO, f"EVP_aes_{bits}_{it}") for bits in (128, 256) for it in ("ecb", "gcm")}
for function in (CRYPTO.EVP_CIPHER_CTX_new, *CIPHERS.values()):
    function.restype = ctypes.c_void_p
GET_TAG = 16  # EVP_CTRL_GCM_GET_TAG


def cipher(mode, key, octets, iv=None, aad=b""):
    """The octets under AES in the mode ecb or gcm, and of GCM the tag."""
    context, length = ctypes.c_void_p(CRYPTO.EVP_CIPHER_CTX_new()), ctypes.byref(ctypes.c_int())
    made, tag = (ctypes.create_string_buffer(it) for it in (len(octets) + 16, 16))
    is_good = CRYPTO.EVP_EncryptInit_ex(context, ctypes.c_void_p(CIPHERS[len(key), mode]()), None, key, iv)
    for out, part in ((None, aad), (made, octets)):
        is_good &= not part or CRYPTO.EVP_EncryptUpdate(context, out, length, part, len(part))
    if iv:
        is_good &= CRYPTO.EVP_EncryptFinal_ex(context, tag, length)
        is_good &= CRYPTO.EVP_CIPHER_CTX_ctrl(context, GET_TAG, 16, tag)
    CRYPTO.EVP_CIPHER_CTX_free(context)
    assert is_good == 1, f"OpenSSL does not encrypt in the mode {mode}"
    return made.raw[: len(octets)], tag.raw


def encrypt(key, block):
    return cipher("ecb", key, block)[0]


def seal(key, iv, aad, plaintext):
    return b"".join(cipher("gcm", key, plaintext, iv, aad))


def open_sealed(key, iv, aad, ciphertext, tag):
    plaintext, _ = cipher("gcm", key, ciphertext, iv)
    return plaintext if seal(key, iv, aad, plaintext) == ciphertext + tag else None
