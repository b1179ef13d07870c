"""tests/manual.tsv: when each check that only a person runs was last run, on which machine, and how it ended. The gate
prints it, and `tools/check --record` writes it."""

from __future__ import annotations

import datetime
import os
import pathlib
import platform
import re
import subprocess
from typing import NamedTuple

from house import ROOT
from house.checks import CHECKS

FILE = ROOT / "tests/manual.tsv"
HEAD = "check\tcommit\tdate\tmachine\tresult"
# The forms of the columns after the first one.
FORMS = (r"[0-9a-f]{12}", r"\d{4}-\d\d-\d\d", r"\S.*\S", r"(passed|FAILED)( in part)? after \d+ s")
NAMES = [it.name for it in CHECKS if it.is_manual]


class Run(NamedTuple):
    check: str
    commit: str
    date: str
    machine: str
    result: str


def git(*words: str) -> str | None:
    """What git prints, if it succeeds."""
    told = subprocess.run(["git", "-C", str(ROOT), *words], capture_output=True, text=True)
    return told.stdout.strip() if told.returncode == 0 else None


def rows() -> dict[str, Run]:
    lines = (line.split("\t") for line in FILE.read_text(encoding="utf-8").splitlines())
    whole = (it for it in lines if len(it) == len(Run._fields) and all(map(re.fullmatch, FORMS, it[1:])))
    return {it[0]: Run(*it) for it in whole}


def text_of(found: dict[str, Run]) -> str:
    """The file with these rows, in the order of the table of checks."""
    return "".join(f"{line}\n" for line in (HEAD, *("\t".join(found[it]) for it in NAMES if it in found)))


def fault() -> str | None:
    if FILE.read_text(encoding="utf-8") == text_of(rows()):
        return None
    return f"each row has {HEAD.split()}, and is of one of these, in this order: {', '.join(NAMES)}"


def age(commit: str) -> str:
    """How many commits ago a commit was."""
    count = git("rev-list", "--count", f"{commit}..HEAD")
    return "at a commit that this clone lacks" if count is None else f"{count} commit{'s' * (count != '1')} ago"


def listed() -> list[str]:
    lines, known = [], rows()
    for name in NAMES:
        it = known.get(name)
        told = f"{it.result}, {age(it.commit)} ({it.commit}, {it.date}, {it.machine})" if it else "never recorded"
        lines.append(f"manual: {name}: {told}")
    return lines


def machine() -> str:
    """The processors of this machine, whether virtual machines are emulated on it, and its kernel."""
    about = pathlib.Path("/proc/cpuinfo").read_text(encoding="utf-8")
    found = re.search(r"^model name\s*: (.*)", about, re.M)
    kvm = "KVM" if os.path.exists("/dev/kvm") and {"vmx", "svm"} & set(about.split()) else "no KVM"
    model = " ".join(found[1].split()) if found else platform.machine()
    return f"{len(os.sched_getaffinity(0))} of {model}, {kvm}, Linux {platform.release()}"


def refusal() -> str | None:
    """Why no run can be recorded: the row names a commit, so the files have to be those of it."""
    from house.crates import BUILD, proved_by

    changes = git("status", "--porcelain", "--untracked-files=no", "--", ".", f":!{FILE.relative_to(ROOT)}")
    if changes is None or changes:
        return (
            f"commit these changes first, so that the record is of a commit:\n{changes or 'this is no git repository'}"
        )
    if not proved_by(f"{BUILD}/libmacsec_c.a", "macsec_c"):
        return "build/libmacsec_c.a was not proved of the sources as they are: make lib builds it, and so does the gate"
    return None


def note(check: str, is_good: bool, is_whole: bool, seconds: float) -> None:
    """Writes how a check ended in place of its row."""
    commit, date = str(git("rev-parse", "--short=12", "HEAD"))[:12], datetime.datetime.now(datetime.timezone.utc).date()
    result = f"{'passed' if is_good else 'FAILED'}{'' if is_whole else ' in part'} after {seconds:.0f} s"
    found = rows() | {check: Run(check, commit, str(date), machine(), result)}
    FILE.write_text(text_of(found), encoding="utf-8")
