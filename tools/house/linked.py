"""The links of a page to files of the project, and the pages that lead on from one."""

from __future__ import annotations

import os
import re
from collections.abc import Iterable, Iterator

from . import ROOT

# A link or a picture of a page without its code.
LINK = re.compile(r"\]\(([^()\s]+)(?: \"[^\"]*\")?\)")


def prose(page: str) -> list[str]:
    """The lines of a page, with nothing in place of code and comments."""
    lines: list[str] = []
    is_fenced = False
    for line in page.split("\n"):
        is_fence = line.startswith("```")
        is_indented = line.startswith("    ") and not (lines and lines[-1])
        is_code = is_fence or is_fenced or is_indented
        lines.append("" if is_code else re.sub(r"<!--.*?-->", "", line).rstrip())
        is_fenced ^= is_fence
    return lines


def links(page: str) -> Iterator[tuple[int, str]]:
    """The links of a page to files and anchors, with their lines."""
    for number, line in enumerate(prose(page), 1):
        for target in LINK.findall(re.sub(r"`[^`]*`", "``", line)):
            if not re.match(r"[a-z][a-z0-9+.-]*:", target):
                yield number, target


def targets(path: str) -> Iterator[str]:
    """The files and folders that a page of the project links to, as paths from the top."""
    with open(ROOT / path, encoding="utf-8") as file:
        for _, target in links(file.read()):
            there = target.partition("#")[0]
            if there:
                yield os.path.normpath(os.path.join(os.path.dirname(path), there))


def linked(names: Iterable[str], goes_on: bool = True) -> list[str]:
    """Some pages, and the files and folders that they link to; with those that these pages link to, and so on."""
    found: dict[str, None] = dict.fromkeys(names)
    begin = list(found)
    waiting = list(begin)
    while waiting:
        path = waiting.pop(0)
        if path.endswith(".md") and (goes_on or path in begin):
            new = [it for it in dict.fromkeys(targets(path)) if it not in found]
            found.update(dict.fromkeys(new))
            waiting += new
    return sorted(found)
