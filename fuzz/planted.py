#!/usr/bin/env python3
"""Puts a wrong rule into a copy of the rules, one at a time, and says which input of fuzz.py first shows it.

The rules are expected.py and captures.py.

    python3 fuzz/planted.py [--inputs N] [--seed TEXT]

So it is seen that a program with that mistake would not get past `make fuzz`. No program is run here. The status is 1
if a mistake was not shown, if there are fewer mistakes than COUNT says, or if a copy without a mistake seems to have
one. """

from __future__ import annotations

import argparse
import concurrent.futures
import os
import sys
import time
import types

sys.dont_write_bytecode = True
import inputs

# The mistake, a text that occurs once in the rules, and the text that replaces it.
# fmt: off
PLANTED = [
    ("a late frame is one at the lowest acceptable number too", "is_late = pn < sa.lowest",
     "is_late = pn <= sa.lowest"),
    ("after a frame is accepted its own number stays acceptable",
     "        sa.lowest = max(sa.lowest, sa.next - self.window)\n",
     "        sa.lowest = max(sa.lowest, pn - self.window)\n"),
    ("an invalid frame moves the numbers on", "        if opened is None:\n",
     "        sa.next = max(sa.next, pn + 1)\n        if opened is None:\n"),
    ("a replay command leaves the lowest numbers", "sa.lowest = max(sa.lowest, sa.next - window)", "pass"),
    ("the lowest number falls where the window grows", "sa.lowest = max(sa.lowest, sa.next - window)",
     "sa.lowest = sa.next - window"),
    ("an extended number keeps the upper half of the lowest one", "            upper += 1\n", "            pass\n"),
    ("an extended number is recovered from the next one", "divmod(sa.lowest, 2**32)", "divmod(sa.next, 2**32)"),
    ("the IV has 32 bits of an extended number", 'ssci + struct.pack(">Q", pn)',
     'ssci + struct.pack(">Q", pn % 2**32)'),
    ("a transmit association begins below the key's first unused number", 'refuse("PnFloor", pn < key.first_unused)',
     "pass"),
    ("a retired key's octets are taken again", "it.octets == octets for it",
     "it.octets == octets and not it.retired for it"),
    ("a key of another transmit association is taken",
     'refuse("KeyInUse", any(sa.key == number for sa in self.tx.values()))', "pass"),
    ("a receive channel of the own SCI", 'refuse("OwnSci", sci == self.sci)', "pass"),
    ("a receive association of the own SSCI", 'refuse("SsciOwn", key.is_xpn and ssci == key.ssci)', "pass"),
    ("an exhausted association is enabled", 'refuse("Exhausted", self.is_exhausted(self.tx[an]))', "pass"),
    ("a number is used by a frame that is too long",
     '24) > self.max_frame:\n            self.count("OutPktsTooLong")\n',
     '24) > self.max_frame:\n            self.count("OutPktsTooLong")\n            self.tx[an].next += 1\n'),
    ("another association stays enabled", "sa.on = number == an", "sa.on = sa.on or number == an"),
    ("SL 48 is taken", "short >= 48", "short >= 49"),
    ("a frame with SL 0 has 47 octets of data", "else 64)", "else 63)"),
    ("padding is taken for data", "size = short or len(rest) - 16\n", "size = len(rest) - 16\n"),
    ("an SCI beside ES", "(tci & 0x20 and tci & 0x50)", "(tci & 0x20 and tci & 0x10)"),
    ("ES before SCB", 'if read["tci"] & 0x10:', 'if read["tci"] & 0x10 and not read["tci"] & 0x40:'),
    ("number 0 under a key of 32-bit ones", "return low or None", "return low"),
    ("by the endpoint's suite number 0 is a fault of the SecTAG", 'if read == "Bad":',
     'if read == "Bad" or (read["pn"] == 0 and not SUITES[self.suite][1]):'),
    ("the IV is that of the endpoint's suite", 'if not key.is_xpn:\n            return sci + struct.pack(">I", pn)',
     'if not SUITES[self.suite][1]:\n            return sci + struct.pack(">I", pn % 2**32)'),
    ("no number is extended where those of the endpoint's suite are not", "if not self.keys[sa.key].is_xpn:",
     "if not (self.keys[sa.key].is_xpn and SUITES[self.suite][1]):"),
    ("a 32-bit number is extended where those of the endpoint's suite are", "return low or None",
     "return None if SUITES[self.suite][1] and low < 2**31 <= sa.lowest % 2**32 else low or None"),
    ("no number is above the last one of the endpoint's suite", "return sa.next > self.keys[sa.key].last",
     "return sa.next > min(self.keys[sa.key].last, 2**64 - 1 if SUITES[self.suite][1] else 2**32 - 1)"),
    ("the endpoint's suite is the limit of the window",
     "is_narrow = any(it.is_xpn and not it.retired for it in self.keys.values())", "is_narrow = SUITES[self.suite][1]"),
    ("a retired key of extended numbers is a limit of the window", "it.is_xpn and not it.retired for it",
     "it.is_xpn for it"),
    ("a key of extended numbers beside a wide window", 'refuse("Window", is_xpn and self.window > 2**30 - 1)', "pass"),
    ("a key without a suite is one of gcm128", "else self.suite\n", 'else "gcm128"\n'),
    ("a key's octets are taken again under another suite", "it.octets == octets for it",
     "(it.octets, it.suite) == (octets, suite) for it"),
    ("no transmit association begins above the last number of the endpoint's suite",
     'not 1 <= pn <= key.last)\n        refuse("PnFloor"',
     'not 1 <= pn <= (2**32 - 1, key.last)[SUITES[self.suite][1]])\n        refuse("PnFloor"'),
    ("a receive association of the own SSCI is refused with 32-bit numbers too",
     'refuse("SsciOwn", key.is_xpn and ssci == key.ssci)', 'refuse("SsciOwn", ssci == key.ssci)'),
    ("a key has the length of the endpoint's suite", 'refuse("KeyLength", len(octets) != key_length)',
     'refuse("KeyLength", len(octets) != SUITES[self.suite][0])'),
    ("the offset counts for frames of integrity only",
     "clear = min(key.offset, len(data)) if is_encrypted else len(data)", "clear = min(key.offset, len(data))"),
    ("an encrypted invalid frame is delivered", 'if c or self.mode == "strict" else ("Invalid"',
     'if self.mode == "strict" else ("Invalid"'),
    ("a frame is counted by its channel alone", "for it in counting or (self,):",
     "for it in counting[:1] if counting else (self,):"),
    ("a frame is counted by its association alone", "for it in counting or (self,):",
     "for it in counting[1:] if counting else (self,):"),
    (
        "a new association begins with what the channel has counted",
        "        channel.sas[an] = Sa(number, pn, ssci=ssci)\n",
        "        channel.sas[an] = Sa(number, pn, ssci=ssci)\n"
        "        channel.sas[an].counters = dict(channel.counters)\n",
    ),
    ("encrypted data are delivered unopened", '            if c:\n                return "NotValid", None, counting\n',
     ""),
    ("replay protection also holds where it is off", "if self.replay and is_late", "if is_late"),
    ("a key of any length is taken", 'refuse("KeyLength", len(octets) != key_length)', "pass"),
    ("a carriage return is no octet of a long line", "if len(line) > MAX_LINE:",
     'if len(line.removesuffix(b"\\r")) > MAX_LINE:'),
    ("two carriage returns are dropped", 'removesuffix(b"\\r").decode', 'rstrip(b"\\r").decode'),
    ("the number of words comes after the words", "    if not fitting:\n",
     "    for read, word in zip(forms[0], words[1:]):\n        read(word)\n    if not fitting:\n"),
    ("a missing end is told at the last line that counts", 'ScriptFault("Ends", len(lines))',
     'ScriptFault("Ends", parsed[0][0])'),
    ("a decimal number of 21 digits", "1 <= len(word) <= 20 and", "1 <= len(word) <= 21 and"),
    ("a capture of more octets than the frame had is partial", "place + captured] if captured >= original",
     "place + captured] if captured == original"),
    ("the captured length comes after the octets", "        fail(captured > MAX_RECORD, PcapFault",
     "        fail(captured > MAX_RECORD and len(file) - place >= captured, PcapFault"),
    ("nanoseconds are written as microseconds", "output = captures.write_header(is_nano)",
     "output = captures.write_header(False)"),
    ("another minor version is taken", "(major, minor) != (2, 4)", "major != 2"),
    ("a partial record has no number", "enumerate(records):", "enumerate(it for it in records if it[2] is not None):"),
    ("the padding of a packet is taken for data", "start + captured] if captured >= original",
     "start + (captured + 3) // 4 * 4] if captured >= original"),
    ("a section is read in the order of the one before it", "order = ORDERS[magic]",
     "order = order if place else ORDERS[magic]"),
    ("a section has the interfaces of the one before it", "            interfaces = []\n        elif",
     "            pass\n        elif"),
    ("a packet of another link type ends the run", "    if not has_ethernet:\n", "    if True:\n"),
    ("packets in obsolete blocks are skipped", "elif kind in NUMBERS:", "elif kind == ENHANCED:"),
    ("times are in the unit of the first interface", "link, _, resolution, offset = interface_of(interfaces, number)",
     "link, _, resolution, offset = *interface_of(interfaces, number)[:2], *interfaces[0][2:]"),
    ("a power of two is taken for one of ten", "2 ** (resolution - 128) if", "10 ** (resolution - 128) if"),
    ("of two equal options the last one counts", "if code == 9 and resolution is None:", "if code == 9:"),
    ("an offset has no sign", 'order + "q"', 'order + "Q"'),
    ("a simple packet has more octets than the snap length", "min(original, snap or original)", "original"),
    ("a block is skipped without its last four octets", "file[place + 8 : end - 4], end\n",
     "file[place + 8 : end - 4], end - 4 * (kind not in LEAST)\n"),
    ("the key does not note that a number is used", "sa.next, key.first_unused = pn + 1, pn + 1", "sa.next = pn + 1"),
    ("the last octet of a frame is not what was sealed", "        return head + sealed\n",
     '        return head + sealed[:-1] + b"\\0"\n'),
    ("a strict end delivers an invalid frame of integrity only",
     'if c or self.mode == "strict" else ("Invalid"', 'if c else ("Invalid"'),
    ("a strict end delivers late frames", "if self.replay and is_late",
     'if self.replay and is_late and self.mode != "strict"'),
    ("the window is one wider than it is set", "        sa.lowest = max(sa.lowest, sa.next - self.window)\n",
     "        sa.lowest = max(sa.lowest, sa.next - self.window - 1)\n"),
    ("data are delivered as they were received", "frame[:12] + opened, counting", "plain, counting"),
]
# fmt: on
# How many mistakes there are, so that one that is missing is noticed.
COUNT = 70

# No mistake: a text that takes its own place. The first inputs must not show it.
SAME = ("no mistake", *["is_late = pn < sa.lowest"] * 2)
SAME_INPUTS = 100


class Plant:
    """A copy of the rules with a wrong one."""

    def __init__(self, mistake, old, new):
        texts = [(inputs.ROOT / "fuzz" / name).read_text() for name in ("expected.py", "captures.py")]
        assert sum(it.count(old) for it in texts) == 1, mistake
        self.model, rules = (module_of(it.replace(old, new)) for it in texts)
        self.model.captures = rules

    def is_shown(self, case):
        """Is the answer to an input another one?"""
        if case.kind == "words":
            return False
        if case.words[0] == "run":
            return self.model.run_script(case.stdin or case.files.get("script", b"")) != case.answer[:3]
        return self.model.run_capture(case.words[0], case.files["config"], case.files["in"]) != case.answer


def module_of(text):
    module = types.ModuleType("planted")
    exec(compile(text, "planted", "exec"), module.__dict__)
    return module


def first_shown(job):
    """Of some wrong rules, each with its place in the list, the first of so many inputs that shows it."""
    rules, seed, count = job
    corpus, left, shown = inputs.Corpus(), {place: Plant(*rule) for place, rule in rules}, {}
    for number in range(count):
        if not left:
            break
        case = inputs.case_of(seed, number, corpus)
        for place in [it for it, plant in left.items() if plant.is_shown(case)]:
            shown[place] = number
            del left[place]
    return shown


def main():
    parser = argparse.ArgumentParser(description=__doc__.split("\n")[0])
    parser.add_argument("--inputs", type=int, default=20_000, help="how many inputs at most (20,000)")
    parser.add_argument("--seed", default="1", help="which inputs, by any text (1)")
    parser.add_argument("--jobs", type=int, default=os.cpu_count(), help="how many processes")
    options = parser.parse_args()
    began, shown = time.monotonic(), {}
    rules, same = list(enumerate(PLANTED)), (len(PLANTED), SAME)
    jobs = [(rules[it :: options.jobs], options.seed, options.inputs) for it in range(options.jobs)]
    with concurrent.futures.ProcessPoolExecutor(options.jobs) as pool:
        for found in pool.map(first_shown, [*jobs, ([same], options.seed, SAME_INPUTS)]):
            shown.update(found)
    return report([*rules, same], shown, time.monotonic() - began)


def report(rules, shown, seconds):
    """Prints which input showed which rule first. The last one is right. The status is 1 if that is not so."""
    for place, (mistake, *_) in rules:
        print(f"{shown[place] + 1:9,} inputs  {mistake}" if place in shown else f"      not shown  {mistake}")
    same = shown.pop(len(rules) - 1, None)
    print(f"{len(shown)} of {len(rules) - 1} mistakes are shown, in {seconds:.0f} seconds")
    wrong = [] if same is None else [f"a copy without a mistake: input {same} shows one"]
    if len(rules) - 1 != COUNT:
        wrong.append(f"there are {len(rules) - 1} mistakes, and not {COUNT}")
    for what in wrong:
        print(f"WRONG: {what}")
    return 1 if wrong or len(shown) < len(rules) - 1 else 0


if __name__ == "__main__":
    sys.exit(main())
