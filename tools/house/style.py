"""The layout of Python and C: what a formatter or a linter would change. `python3 tools/house/style.py`, after a change
`python3 tools/house/style.py --write`.

`pyproject.toml` and `.clang-format` have the rules. ruff is used if it is installed, otherwise black, isort and pyflakes;
for C clang-format 14. What is not installed is said and left out. First a made-up file with another layout has to be
reported. The status is 1 if a file has another layout, or if that one is not reported."""

from __future__ import annotations

import pathlib
import shutil
import subprocess
import sys
import tempfile

sys.path.insert(0, str(pathlib.Path(__file__).resolve().parents[1]))
from house import ROOT

# The commands that compare, and the commands that write. The first set whose commands are all installed is used.
PYTHON = (
    (["ruff"], ["ruff format --check", "ruff check"], ["ruff format", "ruff check --fix"]),
    (["black", "isort", "pyflakes3"], ["black -q --check", "isort -q --check", "pyflakes3"], ["isort -q", "black -q"]),
)
C = ((["clang-format-14"], ["clang-format-14 --dry-run --Werror"], ["clang-format-14 -i"]),)
# Laid out in columns.
LEFT = {"include/macsec.h"}


def files() -> list[str]:
    """The files of the project, and what is not committed yet."""
    words = ["git", "ls-files", "-co", "--exclude-standard"]
    named = subprocess.run(words, cwd=ROOT, stdout=subprocess.PIPE, text=True, check=True).stdout.split()
    return [it for it in named if (ROOT / it).is_file() and it not in LEFT]


def is_python(name: str) -> bool:
    """Is it a module, or a program by its first line?"""
    if "." in pathlib.PurePath(name).name:
        return name.endswith(".py")
    return (ROOT / name).read_bytes().startswith(b"#!/usr/bin/env python3")


def is_reported(command: str, suffix: str) -> bool:
    """Does a command that compares the layout report a made-up file?"""
    with tempfile.NamedTemporaryFile("w", suffix=suffix) as it:
        it.write("int  x = 1 ;\n" if suffix == ".c" else "x  = 1\n")
        it.flush()
        told = subprocess.run([*command.split(), it.name], stdout=subprocess.DEVNULL, stderr=subprocess.DEVNULL)
    return told.returncode != 0


def layout(kind: str, named: list[str], tools: tuple, is_written: bool) -> bool:
    """Compares or writes these files. Returns whether all have the layout."""
    for needed, compare, write in tools:
        if all(map(shutil.which, needed)):
            if not is_reported(compare[0], ".c" if kind == "C" else ".py"):
                print(f"style: {compare[0]} does not report another layout", file=sys.stderr)
                return False
            words = [it.split() + named for it in (write if is_written else compare)]
            return all([subprocess.run(it, cwd=ROOT).returncode == 0 for it in words])
    print(f"style: {kind} is not looked at: {' or '.join(tools[-1][0])} is not installed")
    return True


def main() -> int:
    if sys.argv[1:] not in ([], ["--write"]):
        print("usage: tools/house/style.py [--write]", file=sys.stderr)
        return 2
    if not (ROOT / ".git").exists():
        print("style: not looked at: that needs a git repository")
        return 0
    is_written, found = bool(sys.argv[1:]), files()
    python = [it for it in found if is_python(it)]
    c = [it for it in found if it.endswith((".c", ".h"))]
    told = [layout("Python", python, PYTHON, is_written), layout("C", c, C, is_written)]
    if not all(told):
        print("style: run python3 tools/house/style.py --write", file=sys.stderr)
    return 0 if all(told) else 1


if __name__ == "__main__":
    sys.exit(main())
