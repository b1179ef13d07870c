"""How the tests compile programs in C, and count their instructions."""

from __future__ import annotations

import pathlib
import re
import shutil
import subprocess
import sys
from typing import Callable

from house import ROOT

WARNINGS = ["-std=c11", "-Wall", "-Wextra", "-Werror"]
INCLUDED = ["-I", f"{ROOT}/include"]
SANITIZED = ["-g", "-fsanitize=address,undefined", "-fno-sanitize-recover=all"]


def device_sources(folder: pathlib.Path = ROOT / "device") -> list[str]:
    return [str(it) for it in sorted(folder.glob("*.c")) if it.name != "macsecctl.c"]


def compiled(folder: str, source: pathlib.Path, library: pathlib.Path, *flags: str) -> str:
    """A program over a static library, in a folder that has no other one of this source."""
    program = f"{folder}/{source.stem}"
    words = ["gcc", *WARNINGS, *(flags or ["-O1"]), *INCLUDED, str(source), str(library), "-o", program]
    subprocess.run(words, check=True)
    return program


def run(words: list[str], environment: dict[str, str] | None = None) -> str:
    """Runs a program that must succeed. Returns its standard error."""
    ended = subprocess.run(words, env=environment, capture_output=True, text=True)
    if ended.returncode or ": false" in ended.stdout:
        sys.exit(f"{' '.join(words)} ended with status {ended.returncode}: {ended.stderr[-300:]}")
    return ended.stderr


def altered_library(room: pathlib.Path, archive: pathlib.Path, file: str, old: str, new: str) -> pathlib.Path:
    """A library for C, made in a new folder, in which one text of a file of tools/library is another one."""
    shutil.copytree(ROOT / "tools/library", room / "tools/library")
    shutil.copytree(ROOT / "include", room / "include")
    shutil.copy(ROOT / "tools/merged-library", room / "tools")
    path = room / "tools/library" / file
    text = path.read_text(encoding="utf-8")
    assert old in text, f"{file} has no {old!r}"
    path.write_text(text.replace(old, new), encoding="utf-8")
    subprocess.run([room / "tools/merged-library", archive.resolve(), room / "libmacsec.a"], check=True)
    return room / "libmacsec.a"


# The instructions of a frame are the difference between runs over so many frames.
MORE, FEWER = 300, 100


def instructions_of_frame(
    folder: str, words_of: Callable[[int], list[str]], environment: dict | None = None, within: str = ""
) -> float:  # fmt: skip
    """The instructions of a frame, of a program with these arguments for a number of frames; or those within a call."""
    more, fewer = (instructions(folder, words_of(count), environment, within) for count in (MORE, FEWER))
    return (more - fewer) / (MORE - FEWER)


def instructions(folder: str, words: list[str], environment: dict[str, str] | None = None, within: str = "") -> int:
    tool = ["valgrind", "--tool=callgrind", f"--callgrind-out-file={folder}/callgrind"]
    told = run([*tool, *([f"--toggle-collect={within}"] if within else []), *words], environment)
    found = re.search(r"Collected : (\d+)", told)
    assert found, told
    return int(found[1])
