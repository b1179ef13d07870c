"""What a row of the table names as evidence: definitions, contracts, scripts, stored runs, captures, tests, vectors.

A name is looked up in the files of the project. Scripts, stored runs, captures and vectors are also run, each once, and
what they print is compared. A function here returns None if the evidence is good, or else what is wrong with it."""

from __future__ import annotations

import functools
import os
import re
import subprocess
import tempfile
from pathlib import Path

from house import ROOT

CAPTURES = f"{ROOT}/examples/captures"
SECONDS = 60

# A definition, and the function or law of a contract.
DEFINITION = re.compile(r"^(?:abbrev|unfoldable) pub (\w+) :|^pub (?:record|data) (\w+)\b", re.M)
FUNCTION = re.compile(r"^\s*(?:pub(?:\(crate\))? )?fn (\w+)\b")
CLAUSE = re.compile(r"^\s*ensures\*? (?:(\w+) )?\{")


def text_of(path: str | Path) -> str | None:
    """A text file of the project, None if it is not there."""
    return Path(path).read_text(encoding="utf-8") if os.path.isfile(path) else None


@functools.lru_cache(None)
def definitions(crate: str, name: str) -> frozenset[str]:
    text = text_of(f"{ROOT}/crates/{crate}/specs/{name}.antt")
    return frozenset(a or b for a, b in DEFINITION.findall(text or ""))


@functools.lru_cache(None)
def clauses(crate: str, name: str) -> frozenset[str]:
    """The clauses of the functions of a source file: FUNCTION.CLAUSE, or FUNCTION for one without a name."""
    found: set[str] = set()
    function = ""
    for line in (text_of(f"{ROOT}/crates/{crate}/src/{name}.rt") or "").split("\n"):
        begins, clause = FUNCTION.match(line), CLAUSE.match(line)
        if begins:
            function = begins[1]
        elif clause and function:
            found.add(f"{function}.{clause[1]}" if clause[1] else function)
        elif line.strip() in ("{", "{}"):
            function = ""
    return frozenset(found)


def test_definition(reference: str) -> str | None:
    """CRATE/FILE.NAME: a definition."""
    parts = re.fullmatch(r"(\w+)/(\w+)\.(\w+)", reference)
    if not parts:
        return f"{reference} does not have the form CRATE/FILE.NAME"
    crate, file, name = parts.groups()
    return None if name in definitions(crate, file) else f"crates/{crate}/specs/{file}.antt does not define {name}"


def test_contract(reference: str) -> str | None:
    """CRATE/FILE FUNCTION.CLAUSE, or CRATE/FILE FUNCTION: a clause of a contract."""
    parts = re.fullmatch(r"(\w+)/(\w+) ([\w.]+)", reference)
    if not parts:
        return f"{reference} does not have the form CRATE/FILE FUNCTION.CLAUSE"
    crate, file, name = parts.groups()
    return None if name in clauses(crate, file) else f"crates/{crate}/src/{file}.rt has no clause {name}"


class Runs:
    def __init__(self, program: str, captures: dict[str, dict[str, str]], vectors: dict[str, list[str]]) -> None:
        """Takes the program, the captures, and what is wrong with each group of vectors."""
        self.program = program
        self.captures = captures
        self.vectors = vectors
        self.known: dict[str, str | None] = {}

    def test(self, reference: str) -> str | None:
        """What is wrong with a script, a stored run, a capture, a test or a group of vectors."""
        if reference not in self.known:
            kind, _, name = reference.partition(" ")
            test = getattr(self, f"test_{kind}", None)
            self.known[reference] = test(name) if test and name else f"{reference} has no kind that is known"
        return self.known[reference]

    @functools.lru_cache(None)
    def stored(self) -> dict[str, str]:
        """What tests/program/stored-runs says of each script of examples/scripts and each stored run."""
        words = [f"{ROOT}/tests/program/stored-runs", "--program", self.program]
        ran = subprocess.run(words, capture_output=True, text=True)
        lines = (re.fullmatch(r"  (?:WRONG: )?(script )?([\w-]+): (.*)", it) for it in ran.stdout.split("\n"))
        return {f"{it[1] or 'run '}{it[2]}": it[3] for it in lines if it}

    def test_script(self, name: str) -> str | None:
        """A script of examples/scripts: what it prints is stored beside it."""
        return self.test_run(name, "script", "examples/scripts")

    def test_run(self, name: str, kind: str = "run", folder: str = "tests/program/runs") -> str | None:
        said = self.stored().get(f"{kind} {name}")
        if said is None:
            return f"{folder} has no {name}"
        return None if said == "as stored" else f"{kind} {name}: {said}"

    def test_capture(self, name: str) -> str | None:
        """A run over a capture of examples/captures: OUT is another of these captures, or the lines are as listed."""
        if name not in self.captures:
            return f"conformance/captures.json has no {name}"
        it = self.captures[name]
        with tempfile.TemporaryDirectory() as folder:
            out = f"{folder}/out.pcap"
            words = [self.program, it["command"], it["config"], it["in"], out]
            ran = subprocess.run(words, capture_output=True, timeout=SECONDS, cwd=CAPTURES)
            status, printed = ran.returncode, (ran.stdout + ran.stderr).decode(errors="replace")
            lines = " ".join(re.findall(r"^record \d+ (\w+)", printed, re.M))
            if status or lines != it["verdicts"]:
                return f"capture {name}: {lines}, and not {it['verdicts']}; status {status}"
            if "out" in it and Path(out).read_bytes() != Path(CAPTURES, it["out"]).read_bytes():
                return f"capture {name}: OUT is not {it['out']}"
        return None

    def test_test(self, name: str) -> str | None:
        """CRATE::FUNCTION: a test that the gate runs. Only that it is there is tested here."""
        crate, _, function = name.partition("::")
        for path in Path(ROOT, "crates", crate, "src").rglob("*.rt"):
            if re.search(rf"#\[test\]\s+(?:pub )?fn {function}\b", path.read_text(encoding="utf-8")):
                return None
        return f"crates/{crate}/src has no test {function}"

    def test_tool(self, name: str) -> str | None:
        """A tool that the gate or a reader runs. Only that it is there is tested here."""
        return None if os.access(f"{ROOT}/{name}", os.R_OK) else f"there is no {name}"

    def test_vectors(self, name: str) -> str | None:
        if name not in self.vectors:
            return f"vectors/macsec-vectors.json has no group {name}"
        wrong = self.vectors[name]
        return f"vectors {name}: {wrong[0]}, {len(wrong)} wrong" if wrong else None
