#!/usr/bin/env python3
"""Runs the program on mutated inputs, and compares each answer with the one that expected.py works out.

    make fuzz                                      100,000 inputs, to the program as both compilers build it
    python3 fuzz/fuzz.py --inputs 5000 --seed 7    fewer, and others

Scripts, configurations and captures of this repository are cut, repeated and exchanged, and their octets, words, lines,
records and fields altered (inputs.py). Input number N of a seed is the same on every machine, however many processes
share the work; --only N runs that one and prints it.

Of each input it asks: the program ends within some seconds, by itself and not by a signal; status, standard output,
standard error and OUT are those expected, and no other file is created or changed; standard error is nothing or one of
the lines that the documents name, with its status; and OUT is an empty file, or a header and whole records.

From 2,000 inputs on, the inputs must also have met each kind of input, each verdict, each refusal, and the faults
listed below (EXPECTED). The status is 1 if one was not met, and its name is printed.
"""

from __future__ import annotations

import argparse
import collections
import concurrent.futures
import os
import pathlib
import re
import subprocess
import sys
import tempfile
import time

sys.dont_write_bytecode = True
import captures
import forged
import tables
from inputs import ROOT, Corpus, case_of

SECONDS = 20
PROGRAMS = [ROOT / "build/macsec", ROOT / "build/macsec-rattle"]
# What standard error may have, and the status that goes with it.
STATED = [
    (0, rb""),
    (2, rb"macsec: line [0-9]+: (%s)\n" % "|".join(tables.LINE_FAULTS).encode()),
    (2, rb"macsec: (ScriptLong|usage)\n"),
    (1, rb"macsec: (Memory|Read|Write)\n"),
    (1, rb"macsec: pcap (%s)\n" % "|".join(tables.CAPTURE_FAULTS).encode()),
    (1, rb"macsec: cannot open [^\n]*\n"),
]
# The outcome in a line of the text.
OUTCOME = re.compile(
    rb"^(?:record )?\d+ "
    rb"(refused \d+ \w+|fault \d \w+|dropped \w+|frame|link|partial|linktype|done|(?!InP|InO|OutP|OutO)[A-Z]\w+)\b",
    re.M,
)
# What 2,000 inputs of any seed meet, by its place in the report. Each is met by more than 20 of them on average.
MET_FROM = 2_000
EXPECTED = {
    "kind of input": "made|run|run -|protect|validate|there and back|words|forged".split("|"),
    "line on standard error": [
        *("macsec: line: " + it for it in "Word Count Hex Number Ends".split()),
        *("macsec: pcap " + it for it in "CutRecord RecordLength BlockLength".split()),
    ],
    "verdict": tables.VERDICTS,
    "refusal": [f"refused {number} {name}" for number, name in enumerate(tables.REFUSALS, 1)],
    "fault": ["fault 1 Short", "fault 2 NoFrame", "fault 4 AlterRange", "fault 5 Short"],
    "outcome": ["done", "frame", "link", "partial", *(f"dropped {it}" for it in tables.DROPS)],
}


def answer_of(program, case, folder):
    """Status, standard output, standard error and the files after the run; or why the program gave none."""
    for name, octets in case.files.items():
        (folder / name).write_bytes(octets)
    try:
        words = [program, *(it.encode("utf-8", "surrogateescape") for it in case.words)]
        done = subprocess.run(words, input=case.stdin, capture_output=True, timeout=SECONDS, cwd=folder)
    except subprocess.TimeoutExpired:
        return f"no end within {SECONDS} seconds"
    finally:
        files = {it.name: it.read_bytes() for it in folder.iterdir()}
        for name in files:
            (folder / name).unlink()
    return done.returncode, done.stdout, done.stderr, files


def is_capture(octets):
    """Is it nothing, or a header and whole records?"""
    try:
        order, _ = captures.read_header(octets)
        return order == "<" and all(it is not None for *_, it in captures.read_records(octets, order))
    except captures.PcapFault:
        return not octets


def complaint(case, answer):
    """What is wrong with an answer, or None."""
    if isinstance(answer, str):
        return answer
    status, text, told, files = answer
    if status < 0:
        return f"ended by signal {-status}"
    if not any(status == it and re.fullmatch(form, told) for it, form in STATED):
        return f"status {status} with {told[:200]!r}"
    if status == 2 and text:
        return "a text beside a fault of the script or of the words"
    if case.answer[3] is not None and not is_capture(files.get(case.out, b"")):
        return "OUT is no capture file"
    for name, found, wanted in zip(("status", "text", "standard error"), answer, case.answer):
        if found != wanted:
            return f"{name}: {difference(found, wanted)}"
    return difference_of_files(files, case.files_after())


def difference_of_files(found, wanted):
    """Which file is there and should not be, is not there, or has other octets; or None."""
    name = next((it for it in sorted({*found, *wanted}) if found.get(it) != wanted.get(it)), None)
    return None if name is None else f"file {name}: {difference(found.get(name), wanted.get(name))}"


def difference(found, wanted):
    if not isinstance(found, bytes) or not isinstance(wanted, bytes):
        return f"{found!r} and not {wanted!r}"
    place = next((it for it, (a, b) in enumerate(zip(found, wanted)) if a != b), min(len(found), len(wanted)))
    first = max(0, place - 60)
    return f"at {place}: {found[first : place + 60]!r} and not {wanted[first : place + 60]!r}"


def told_of(case):
    """An answer, for the table: by the words on standard error without numbers and names, or by its verdicts."""
    told = case.answer[2].decode("utf-8", "replace").strip()
    return re.sub(r"cannot open .*", "cannot open", re.sub(r"line \d+", "line", told)) or "status 0"


class Tally:
    """What the inputs of a share were, and what was found."""

    def __init__(self):
        self.count, self.findings = 0, []
        self.answers, self.outcomes = collections.Counter(), collections.Counter()

    def add(self, case):
        self.count += 1
        self.answers[case.kind, told_of(case)] += 1
        self.outcomes.update(OUTCOME.findall(case.answer[1]))

    def merge(self, other):
        self.count += other.count
        self.findings += other.findings
        self.answers.update(other.answers)
        self.outcomes.update(other.outcomes)

    def unmet(self):
        met = {it.decode() for it in self.outcomes} | {it for answer in self.answers for it in answer}
        return [f"{what} `{it}`" for what, names in EXPECTED.items() for it in names if it not in met]


def start_worker(seed, programs):
    """Each worker reads the files of this repository itself."""
    global SEED, CORPUS, BUILDS
    SEED, CORPUS, BUILDS = seed, Corpus(), programs


def run_share(share):
    """Runs some inputs in a folder of their own."""
    tally = Tally()
    with tempfile.TemporaryDirectory() as folder:
        for number in share:
            case = case_of(SEED, number, CORPUS)
            tally.add(case)
            for program in BUILDS:
                what = complaint(case, answer_of(program, case, pathlib.Path(folder)))
                if what:
                    tally.findings.append((number, program.name, what))
    return tally


def run_forged(options):
    """The same of forged frames, of which the verdict is known without the rules."""
    tally = Tally()
    with tempfile.TemporaryDirectory() as folder:
        for number, (case, text) in enumerate(forged.cases(options.seed), options.inputs):
            tally.add(case)
            answers = [(it.name, answer_of(it, case, pathlib.Path(folder))) for it in options.programs]
            told = [(name, complaint(case, it)) for name, it in [("the rules", (0, text, b"", {})), *answers]]
            tally.findings += [(number, name, what) for name, what in told if what]
    return tally


def report(options, tally, seconds):
    """Prints what was met and found. The status is 1 if something is wrong."""
    names = " and ".join(it.name for it in options.programs)
    print(f"{options.inputs:,} inputs of seed {options.seed}, each to {names}, in {seconds:.0f} seconds")
    for (kind, told), many in sorted(tally.answers.items()):
        print(f"{many:9,}  {kind}: {told}")
    to_the_end = sum(many for (_, told), many in tally.answers.items() if told == "status 0")
    print(f"{to_the_end:9,}  runs to the end")
    print(f"{sum(tally.outcomes.values()):9,}  lines of commands, events and records in the texts expected, of which")
    for outcome, many in sorted(tally.outcomes.items()):
        print(f"{many:9,}  {outcome.decode()}")
    print(f"{len(tally.findings):9,}  answers other than expected")
    for number, program, what in sorted(tally.findings)[:20]:
        print(f"input {number}, {program}: {what}")
    unmet = tally.unmet() if options.inputs >= options.met_from else []
    for what in unmet:
        print(f"no input met the {what}")
    return 1 if tally.findings or unmet else 0


def show(options):
    case = case_of(options.seed, options.only, Corpus())
    print(f"words: {case.words}\nstandard input: {case.stdin!r}")
    for name, octets in case.files.items():
        print(f"{name}: {octets!r}")
    print(f"expected: {case.answer}")
    found = []
    with tempfile.TemporaryDirectory() as folder:
        for program in options.programs:
            answer = answer_of(program, case, pathlib.Path(folder))
            found.append(complaint(case, answer))
            print(f"{program.name}: {found[-1] or 'as expected'}\n{answer}")
    return 1 if any(found) else 0


def programs_of(named):
    """The programs named; or the built one, and the one of the other compiler if it is there."""
    missing = [it for it in named or PROGRAMS[:1] if not it.is_file()]
    if missing:
        sys.exit(f"there is no program {missing[0]}")
    if not named and not PROGRAMS[1].is_file():
        print(f"{PROGRAMS[1].name} is not there: only {PROGRAMS[0].name} is run")
    return [it.resolve() for it in named or PROGRAMS if it.is_file()]


def main():
    parser = argparse.ArgumentParser(description=__doc__.split("\n")[0])
    parser.add_argument("--inputs", type=int, default=100_000, help="how many inputs (100,000)")
    parser.add_argument("--seed", default="1", help="which inputs, by any text (1)")
    parser.add_argument("--jobs", type=int, default=os.cpu_count(), help="how many processes")
    parser.add_argument("--met-from", type=int, default=MET_FROM, help="how many inputs must meet everything (2,000)")
    parser.add_argument("--only", type=int, help="runs the input of this number alone, and prints it")
    parser.add_argument("programs", nargs="*", type=pathlib.Path, help="the builds of the program")
    options = parser.parse_args()
    options.programs = programs_of(options.programs)
    if options.only is not None:
        return show(options)
    Corpus()
    began, tally, size = time.monotonic(), Tally(), 100
    shares = [range(it, min(it + size, options.inputs)) for it in range(0, options.inputs, size)]
    of_worker = (options.seed, options.programs)
    with concurrent.futures.ProcessPoolExecutor(options.jobs, None, start_worker, of_worker) as pool:
        for number, of_share in enumerate(pool.map(run_share, shares), 1):
            tally.merge(of_share)
            if number % 100 == 0:
                print(f"{number * size:,} inputs, {len(tally.findings)} findings", file=sys.stderr, flush=True)
    tally.merge(run_forged(options))
    return report(options, tally, time.monotonic() - began)


if __name__ == "__main__":
    sys.exit(main())
