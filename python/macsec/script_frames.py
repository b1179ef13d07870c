"""Frames of captures as lines of a script for `macsec run`, and back."""

from __future__ import annotations

import re
from collections.abc import Iterator

from .errors import UsageError

# The longest line of a script, without its line feed.
_MOST_DIGITS = 20_000 - len("inject ")


def inject_line(frame: bytes) -> str:
    """The line that injects a frame.

    >>> inject_line(bytes(14))
    'inject 0000000000000000000000000000'
    """
    if not frame or 2 * len(frame) > _MOST_DIGITS:
        raise UsageError(f"a frame of {len(frame)} octets fits into no line of a script")
    return f"inject {frame.hex()}"


def frames_of_text(text: str) -> Iterator[tuple[int, bytes]]:
    """The frames of a text, and its lines from 1: those that a script injects or sends, and those that `macsec run`
    printed as `frame K`. All other lines are skipped.

    >>> text = "# a\\ninject 00ff\\nA send 01\\nB sendu 02\\nA deliver 0\\n9 frame 3 03\\n9 OK 04\\n"
    >>> [(line, frame.hex()) for line, frame in frames_of_text(text)]
    [(2, '00ff'), (3, '01'), (4, '02'), (6, '03')]
    """
    for number, line in enumerate(text.split("\n"), 1):
        words = line.split()
        is_frame = (
            (len(words) == 2 and words[0] == "inject")
            or (len(words) == 3 and words[0] in ("A", "B") and words[1] in ("send", "sendu"))
            or (len(words) == 4 and words[0].isdecimal() and words[1] == "frame")
        )
        if not is_frame:
            continue
        try:
            yield number, bytes.fromhex(words[-1])
        except ValueError:
            raise UsageError(f"line {number}: the last word is not hex") from None


def named_frames(text: str) -> Iterator[tuple[str, bytes]]:
    """The frames of a list, and their names. Each line has one in hex, also with spaces and colons. Its name is what
    follows `#`, else the comment on the line before. Lines of `macsec-forge -` are such a list too; the verdicts that
    these name are left out.

    >>> text = "02:00:00 # short\\n# icv: changed; here NotValid\\ninject 00ff\\n\\n01\\n"
    >>> [(name, frame.hex()) for name, frame in named_frames(text)]
    [('short', '020000'), ('icv: changed', '00ff'), ('line 5', '01')]
    """
    before = ""
    for number, line in enumerate(text.split("\n"), 1):
        left, _, comment = line.partition("#")
        comment = re.sub(r"(^|; )here (no verdict, .*|\w+)$", "", comment.strip())
        digits = left.strip().removeprefix("inject ").replace(":", "")
        if digits:
            try:
                yield comment or before or f"line {number}", bytes.fromhex(digits)
            except ValueError:
                raise UsageError(f"line {number}: no frame in hex") from None
        before = "" if digits else comment
