"""The table of docs/WHO.md beside the checks: each line names checks that are there, or says that none has tried it."""

from __future__ import annotations

import re
from collections.abc import Iterator

from house import ROOT
from house.checks import NAMED

PAGE = ROOT / "docs/WHO.md"
UNTRIED, MOST_UNTRIED = "not tried", 4
CELLS = 5


def parts(check: str) -> set[str]:
    """The parts of a check: the keys of CHECKS in its program, which its arguments can name."""
    program = next((it for it in NAMED[check].command.split() if "/" in it), "")
    text = (ROOT / program).read_text(encoding="utf-8") if program else ""
    table = re.search(r"^CHECKS\b[^\n]*= \{\n(.*?)^\}", text, re.M | re.S)
    return set(re.findall(r'^    "([\w-]+)":', table[1], re.M)) if table else set()


def is_there(name: str) -> bool:
    """Is this a check that tools/check runs, or a part of one?"""
    check, _, part = name.partition(" ")
    return check in NAMED and (not part or part in parts(check))


def differing(page: str) -> Iterator[str]:
    """What the table says of checks and is not so."""
    rows = [re.split(r" *\| *", it.strip("| ")) for it in re.findall(r"^\|.*\|$", page, re.M)][2:]
    if not rows:
        yield "has no table"
    for row in rows:
        names = re.findall("`([^`]+)`", row[-1])
        if len(row) != CELLS or bool(names) == (row[-1] == UNTRIED):
            yield f"{row[0]!r} has neither {CELLS - 1} more cells with a check nor {UNTRIED!r}"
        yield from (f"{row[0]!r}: there is no check `{it}`" for it in names if not is_there(it))
    untried = sum(it[-1] == UNTRIED for it in rows)
    if untried > MOST_UNTRIED:
        yield f"{untried} lines are {UNTRIED}, and at most {MOST_UNTRIED} may be"
