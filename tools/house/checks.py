"""The table of checks: what `make test`, the gate and a person run. tools/check runs them, and writes the pages' list
of them."""

from __future__ import annotations

from typing import NamedTuple

from house.processors import EVERY, KINDS, WIDER, runs
from house.written import table

# What a check needs, in the order in which the gate makes it: nothing but sources; the compiler of `rt`, its log, or
# the crates that it has proved; the program, also as Rattle's own compiler builds it; the libraries for C; what is
# built of these, and no check that writes into build/ beside it.
NOTHING, TOOLCHAIN, LOG, PROVED = "nothing", "rt", "the log of rt ci", "proved crates"
PROGRAM, PROGRAMS, LIBRARY, ROOT_USER = "program", "both programs", "library", "library, root"
SHOWN, ALL = "programs, library", "all of these"
GUEST = "root, qemu, Debian"
# What is built beside `rt ci`, and the checks can use side by side.
BUILT_NEEDS = (PROGRAM, PROGRAMS, LIBRARY, ROOT_USER)

# The check that builds what the controls take.
BEFORE_CONTROLS = "c-programs"

# A check that takes less than this many seconds is made before the proofs, and not beside them.
QUICK = 10

PROOFS = "proofs"

# The line of `rt ci` after which it goes on with the other crates, and can only fail.
NOT_PROVED = r"^rt: \S+(: its tests are)? NOT PROVED"


class Check(NamedTuple):
    """A check. `test`, `gate` and `hand` are the arguments with which `make test`, the gate and a person run its
    command; None where they do not run it. `seconds` is what it takes in the gate, or else in `make test` or for a
    person. `control` is the wrong thing that it is shown; None where it is shown none. `counted` is the form of the
    line that it prints for each test of its own that passes."""

    name: str
    does: str
    command: str
    needs: str
    seconds: int
    control: str | None
    test: str | None = None
    gate: str | None = None
    hand: str | None = None
    counted: str | None = None

    def arguments(self, when: str) -> str | None:
        return {"test": self.test, "gate": self.gate, "hand": self.hand}[when]

    @property
    def is_manual(self) -> bool:
        return self.test is None and self.gate is None


BUILT = "--program {program}"
# The builds that this processor runs.
LIBRARIES = "build/libmacsec.a" + (f" build/glibc-hwcaps/{WIDER}/libmacsec.a" if runs(WIDER) else "")
BUILT_PROGRAMS = [f"build/macsec-{it}" for it in KINDS if runs(it)]
ALL_PROGRAMS = "--program {program} --program {rattle}" + (f" --program build/macsec-{WIDER}" if runs(WIDER) else "")
BUILDS = " ".join(f"--program {it}" for it in BUILT_PROGRAMS)
# The archives for libraries, and the program, that the check `instructions` must find too slow for vectors of 256 bits.
NARROWER = f"--mistakes build/libmacsec_c.a build/libmacsec_c-{WIDER}.a build/macsec-{EVERY} " if runs(WIDER) else ""

# fmt: off
CHECKS: list[Check] = [
    Check("needed", "finds the commands that the checks run", "tools/needed", NOTHING, 1,
          "a PATH without a command", test="", gate="--gate"),
    Check("edits", "checks that each must-fail edit still applies, and that docs/MISTAKES.md is made of them",
          "tools/edits", NOTHING, 1, "an edit that cannot be applied, one that is deleted", test="", gate=""),
    Check("c-header", "compares the header for C with the crates, and with the calls that it keeps",
          "tests/library/c-header", NOTHING, 1,
          "headers with another constant, struct and call; one without an earlier call", test="", gate=""),
    Check("version", "finds a file that has another version", "tools/version", NOTHING, 1, "another version",
          test="", gate=""),
    Check("reference", "finds a page or part that its sources do not make, and compares tools/families.json with them",
          "tools/reference --check", NOTHING, 2, "another page, parts, and data that the proofs do not have",
          test="", gate=""),
    Check("style", "finds Python and C with another layout than the formatters give", "python3 tools/house/style.py",
          NOTHING, 10, "files with another layout", test=""),
    Check("table", "compares the checks in docs/MAINTAINING.md and the Makefile with this table",
          "tools/check --table --check", NOTHING, 1, "another list", test="", gate=""),
    Check("sizes", "compares each part with its limit of size, and finds wide lines in files that changed",
          "tools/sizes --check", NOTHING, 1, "a part over its limit, two files with wide lines", test="", gate=""),
    Check("kept-frames", "sees that callers which keep a frame over the next call are refused",
          "tools/refused", PROVED, 10, None, gate="--after-ci", hand=""),
    Check("mistakes", "plants the mistakes of each crate in the bodies of its functions, which the prover must refuse",
          "tools/mistakes", PROVED, 1200, "a mistake that is none, one that is no code, one of another function",
          gate="--controls --beside-ci --jobs 2", hand="", counted=r"^\S+: refused: "),
    Check(PROOFS, "proves every crate and runs its tests, must-fail edits and programs", "rt ci", TOOLCHAIN, 2300,
          "the must-fail edits", gate=""),
    Check("edits-refused", "reads in the log of the proofs that each edit was tried and refused",
          "tools/edits --after build/ci.log", LOG, 1, "a log without edits", gate=""),
    Check("stored-runs", "compares the answers to stored runs and example scripts with stored ones",
          "tests/program/stored-runs", PROGRAM, 5, "a program with other answers, a run that is deleted", test=BUILT,
          gate=ALL_PROGRAMS, counted="^  .*: as stored$"),
    Check("conformance", "runs the table of docs/CONFORMANCE.md and the test vectors", "conformance/conformance",
          PROGRAM, 10, "the check conformance-controls", test=BUILT, gate="--json build/conformance.json"),
    Check("conformance-controls", "alters the table's evidence, which the table must report",
          "conformance/conformance --controls", PROGRAM, 10, "it is made of them", gate=""),
    Check("planted", "plants mistakes in the rules in Python, which the inputs have to show", "python3 fuzz/planted.py",
          PROGRAM, 25, "it is made of them", gate="--seed {seed}"),
    Check("fuzz", "gives mutated inputs to the program as both compilers build it", "python3 fuzz/fuzz.py", PROGRAMS,
          20, "programs with other answers, too few inputs", test="--inputs 300 --seed {seed} {program}",
          gate="--inputs 2000 --seed {seed} {program} {rattle}", hand="--inputs {inputs} --seed {seed}"),
    Check("failures", "makes files and streams fail, and refuses memory", "tests/program/failures",
          PROGRAMS, 15, "programs that do not fail, or otherwise", gate=""),
    Check("c-programs", "builds and runs the programs over the library for C, and makes random calls",
          "tests/library/c-programs", LIBRARY, 50, "other texts, programs that are missing, calls with other answers",
          test="--library {library} --calls 1500 --seed {seed}",
          gate="--calls 6000 --seed {seed} --x86-64-v3 build/glibc-hwcaps/x86-64-v3/libmacsec.a",
          hand="--calls {inputs} --seed {seed}"),
    Check("constant-time", "reports what depends on keys or on data, in the library for C and in the program",
          "tests/library/constant-time", LIBRARY, 60,
          "a table read by index, branches on a key, comparisons that end early",
          gate=f"--mistakes {BUILDS} {LIBRARIES}"),
    Check("keys-in-memory", "looks for keys in the memory of a process that has retired or freed them",
          "tests/library/keys-in-memory", LIBRARY, 20, "libraries that overwrite no blocks, or no stack",
          test="{library}", gate=f"--mistakes build/libmacsec_c.a {LIBRARIES}"),
    Check("instructions",
          "counts the instructions of a frame and of a key through the library for C and the program, against limits",
          "tests/library/instructions", LIBRARY, 50,
          "a limit below what is counted, one far above it; a record asked for with each frame, a job left to the "
          "endpoint, jobs of longer frames, other keys, a search before a late key; builds without wide planes or "
          "their vectors",
          gate=f"{NARROWER}{LIBRARIES} {' '.join(BUILT_PROGRAMS)}"),
    Check("pages", "runs the examples of the pages, and checks their links", "tools/pages", LIBRARY, 10,
          "another output, file, table or list, links to nowhere", test=f"{BUILT} --library {{shared}}", gate=""),
    Check("axioms", "compares what the proofs assume of functions in C with docs/PROVED.md", "tools/axioms", LIBRARY, 1,
          "a list that lacks a contract, one with another contract, another word of a verdict", gate=""),
    Check("packages", "makes the packages and tries them", "tools/dist --check", LIBRARY, 30,
          "a build that was not proved of these sources", test="--unproved", gate=""),
    Check("journal", "kills, stops and fails a program with a journal, and reads what it sent", "device/tests/journal",
          LIBRARY, 35, "a journal with mistakes", test="--short --library {library} --seed {seed}",
          gate="--short --seed {seed}", hand="--seed {seed}"),
    Check("python", "tests the Python package and its examples, and makes random calls", "python/tests/run", LIBRARY,
          40, "a package with mistakes, another text",
          test="--library {shared} --program {program} --calls 500 --seed {seed}", gate="--seed {seed}"),
    Check("readers", "gives mutated captures, logs and texts to the commands in Python", "python3 fuzz/readers.py",
          LIBRARY, 30, "commands with mistakes, limits of time and memory, too few inputs",
          test="--inputs 300 --seed {seed} --library {shared}", gate="--inputs 2000 --seed {seed}",
          hand="--inputs {inputs} --seed {seed}"),
    Check("device", "compiles the device", "make --no-print-directory device CPU=x86-64-v2", LIBRARY, 10, None,
          gate=""),
    Check("device-fuzz", "gives mutated octets to macsecd's readers, under sanitizers", "device/tests/device-fuzz",
          LIBRARY, 20, "readers with mistakes; clang that is missing", gate="--inputs 2000 --mistakes --seed {seed}",
          hand="--minutes 2 --mistakes --seed {seed}"),
    Check("macsecd", "runs the device in network namespaces", "device/tests/macsecd", ROOT_USER, 60,
          "the check macsecd-controls", gate="--short --seed {seed}", hand="--seed {seed}"),
    Check("workers", "sends frames through the workers, and joins frames, under sanitizers; tries all schedules",
          "device/tests/workers", LIBRARY, 20, "workers, rings and segments with mistakes (--mistakes)",
          test="--short --library {library} --seed {seed}", gate="--seed {seed}", hand="--mistakes --seed {seed}"),
    Check("macsecd-workers", "passes frames through the device with no worker and with one", "device/tests/macsecd",
          ROOT_USER, 20, "the checks macsecd-controls and workers",
          gate="--short --workers 0,1 --seed {seed} traffic handover restart port losses",
          hand="--workers 0,1,3 --seed {seed}"),
    Check("controls", "sees that the checks report something wrong", "tests/program/controls", SHOWN, 60,
          "it is made of them", gate=""),
    Check("any-order", "sees that rt ci accepts what make run leaves", "tests/any-order", ALL, 60, None, gate=""),
    Check("isolated", "runs the device with LINK in a separate network namespace", "device/tests/isolated",
          ROOT_USER, 60, "the check isolated-controls", gate="--short --seed {seed}", hand="--seed {seed}"),
    Check("two-hosts", "runs the commands of docs/TWO-HOSTS.md at two simulated hosts", "device/tests/two-hosts",
          ROOT_USER, 12, "pages with another command", gate=""),
    Check("doctor", "plants faults at two simulated hosts, which macsec-link doctor has to name", "device/tests/doctor",
          ROOT_USER, 30, "a doctor with a mistake", gate="--short", hand=""),
    Check("device-forged", "sends frames of macsec-forge to the device, and judges what it delivers",
          "device/tests/device-forged", ROOT_USER, 15, "devices that differ from their CONFIG", gate=""),
    Check("device-forged-linux", "sends them to Linux's own MACsec in a virtual machine",
          "device/tests/device-forged --linux", GUEST, 30, "the check device-forged", hand=""),
    Check("isolated-controls", "plants mistakes in the isolation of LINK", "device/tests/isolated --controls",
          ROOT_USER, 1100, "it is made of them", hand=""),
    Check("isolated-kinds", "runs the device with each kind of LINK in a virtual machine",
          "device/tests/isolated-kinds", GUEST, 180, "device/tests/isolated-kinds --controls", hand=""),
    Check("isolated-unit", "runs the unit of macsecd under systemd", "device/tests/isolated-unit", ROOT_USER, 35,
          "device/tests/isolated-unit --controls", gate=""),
    Check("device-installed",
          "installs the packages in a virtual machine with systemd: upgrade, reboots, a card pulled, purge",
          "device/tests/device-installed", GUEST, 900, "device/tests/device-installed --controls", hand=""),
    Check("macsecd-isolated", "runs the device's other checks with an isolated LINK", "device/tests/macsecd --isolated",
          ROOT_USER, 600, "the check macsecd-controls", hand="--seed {seed}"),
    Check("macsecd-controls", "plants mistakes in the device", "device/tests/macsecd --short --controls", ROOT_USER,
          1200, "it is made of them", hand=""),
    Check("device-analyzed", "runs the analyzers of gcc and clang over the device and the examples in C, and compiles "
          "the tests in C", "device/tests/device-analyzed", NOTHING, 15,
          "memory that is read after it was freed, a call with too few arguments", test=""),
    Check("peer", "compares frames with Scapy's and with what tshark reads", "tests/program/peer", PROGRAM, 40,
          "another packet number", gate="--frames 80 --seed {seed}", hand=""),
    Check("against", "measures the program and the library beside OpenSSL: speeds, which have no limits",
          "tests/program/against", LIBRARY, 180, None, hand=""),
    Check("device-kernel", "runs the device against a Linux kernel in a virtual machine", "device/tests/device-kernel",
          GUEST, 900, None, hand=""),
    Check("kernel-captures", "opens captures of a Linux kernel in a virtual machine", "python/tests/kernel-captures",
          GUEST, 300, None, hand=""),
    Check("live", "opens frames while they come: tcpdump, tshark and the extcap of Wireshark", "python/tests/live",
          ROOT_USER, 15, "a macsec-decrypt that is late (--late)", gate="--patience 10", hand=""),
    Check("mka", "runs wpa_supplicant over the device", "integrations/wpa_supplicant/tests/mka", GUEST, 600,
          "ends with mistakes (--controls)", hand=""),
]
# fmt: on

NAMED = {it.name: it for it in CHECKS}


def of_gate(*needs: str) -> list[Check]:
    """The checks of the gate that need one of these, and nothing more."""
    return [it for it in CHECKS if it.gate is not None and it.needs in needs]


def listed() -> str:
    """The table for a terminal, and after it the checks without a control."""
    lines = []
    for it in CHECKS:
        runs_of = {"test": it.test, "gate": it.gate, "manually": it.hand}
        when = [name for name, arguments in runs_of.items() if arguments is not None]
        lines.append(f"{it.name:21} {', '.join(when):20} {it.seconds:5} s  {it.needs:20} {it.does}")
    without = [it.name for it in CHECKS if it.control is None]
    return "\n".join([*lines, "", f"No control: {', '.join(without)}"]) + "\n"


def markdown() -> str:
    """The table for docs/MAINTAINING.md."""
    rows = []
    for it in CHECKS:
        time = f"{it.seconds} s" if it.gate is not None else f"({it.seconds} s)" if it.hand is not None else ""
        mark = "yes" if it.test is not None else ""
        rows.append([f"`{it.name}`", it.does, it.needs, mark, time, it.control or "**nothing**"])
    return table("check | does | needs | `make test` | gate | is shown", rows)


def targets() -> list[Check]:
    """The checks that are targets of the Makefile under their names. Of some names the target does something else."""
    return [it for it in CHECKS if it.name not in (PROOFS, "edits-refused", "device", "reference")]
