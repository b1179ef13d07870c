"""Files that a tool writes from the sources, or compares with those that are there, and tables in them."""

from __future__ import annotations

import pathlib
import re
import sys
from collections.abc import Iterable
from typing import Callable

from house import ROOT


def table(head: str, rows: Iterable[Iterable[object]]) -> str:
    """A table in Markdown, without a newline at its end. The titles of its columns are in one text, as in a row."""
    lines = [f"| {head} |", "|---" * (head.count(" | ") + 1) + "|"]
    return "\n".join([*lines, *(f"| {' | '.join(map(str, row))} |" for row in rows)])


PART = re.compile(r"(<!-- made: ([\w-]+) -->\n).*?(<!-- end -->)", re.S)


def with_parts(page: str, parts: dict[str, str], others: Iterable[str] = ()) -> str:
    """A page with its made parts made again. It must have these parts, those that other tools make, and no more."""
    found, named = {it[1] for it in PART.findall(page)}, {*parts, *others}
    if found != named:
        raise ValueError(f"a page has the parts {sorted(found)}, and not {sorted(named)}")
    return PART.sub(lambda it: f"{it[1]}\n{parts[it[2]]}\n\n{it[3]}" if it[2] in parts else it[0], page)


def write_or_check(
    tool: str, arguments: list[str], folder: pathlib.Path, make: Callable[[], dict[str, str]], is_own: bool = False
) -> int:
    """Writes the files into the folder; with --check names what is stale, missing or not made. Returns the status."""
    if arguments not in ([], ["--check"]):
        print(f"usage: {tool} [--check]", file=sys.stderr)
        return 2
    made = make()
    if not arguments:
        folder.mkdir(parents=True, exist_ok=True)
        for name, text in made.items():
            (folder / name).write_text(text, encoding="utf-8")
        return 0
    where = {name: (folder / name).relative_to(ROOT) for name in made}
    wrong = [f"{where[name]} is missing" for name in made if not (folder / name).is_file()]
    wrong += [
        f"{where[name]} is stale"
        for name, text in made.items()
        if (folder / name).is_file() and (folder / name).read_text(encoding="utf-8") != text
    ]
    if is_own:
        unmade = (it for it in sorted(folder.glob("*")) if it.name not in made)
        wrong += [f"{it.relative_to(ROOT)} is of nothing" for it in unmade]
    for each in wrong:
        print(f"{each}: run {tool}", file=sys.stderr)
    return 1 if wrong else 0
