"""The commands of the package, a module each, and how each one ends (`run`)."""

from __future__ import annotations

import argparse
import contextlib
import os
import re
import signal
import sys
import textwrap
from collections.abc import Iterator
from types import FrameType
from typing import BinaryIO, Callable, TextIO

from ..errors import CaptureError, MacsecError, UsageError
from ..secy import version

# Everything that a terminal could take for a command: control characters, except tab and line feed.
_CONTROL = re.compile("[\x00-\x08\x0b-\x1f\x7f-\x9f]")
_SIGNALS = (signal.SIGTERM, signal.SIGHUP)


class _Ended(BaseException):
    """A signal asks the command to end."""

    def __init__(self, number: int) -> None:
        super().__init__(number)
        self.number = number


def new_parser(prog: str, usage: str, description: str, status: str, *examples: str) -> argparse.ArgumentParser:
    """A parser whose help has a usage, a description, statuses, and examples each on a line."""
    parts = [textwrap.fill(f"exit status: {status}", 100, subsequent_indent="  ")]
    parts.append("\n".join(["examples:", *(f"  {it}" for it in examples)]))
    parts.append(f"Manual: man {prog}, man 5 macsec")
    parser = argparse.ArgumentParser(
        prog=prog, usage=f"{prog} {usage}", description=textwrap.fill(description, 100), epilog="\n\n".join(parts),
        formatter_class=argparse.RawDescriptionHelpFormatter,
    )  # fmt: skip
    parser.add_argument("--version", action=_Version, help="print the version, and end")
    return parser


class _Version(argparse.Action):
    """Prints the version of the library that the command uses."""

    def __init__(self, option_strings: list[str], dest: str, help: str | None = None) -> None:
        super().__init__(option_strings, argparse.SUPPRESS, 0, help=help)

    def __call__(self, parser: argparse.ArgumentParser, *_: object) -> None:
        def show() -> int:
            number = version()
            say(f"{parser.prog} {number // 1_000_000}.{number // 1000 % 1000}.{number % 1000}\n")
            return 0

        parser.exit(run(parser.prog, show))


def shown(text: str) -> str:
    r"""A text without the control characters that a file put into it.

    >>> shown("\x1b]0;title\x07\n")
    '\\x1b]0;title\\x07\n'
    """
    return _CONTROL.sub(lambda it: f"\\x{ord(it[0]):02x}", text)


@contextlib.contextmanager
def _named(what: str) -> Iterator[None]:
    """Names what was written, if an error does not."""
    try:
        yield
    except OSError as why:
        if why.filename is not None or why.errno is None:
            raise
        raise OSError(why.errno, why.strerror, what) from None


def say(text: str, to: TextIO | None = None) -> None:
    """Prints a text on standard output or another stream, and nothing that a terminal takes for a command."""
    with _named("standard error" if to is sys.stderr else "standard output"):
        (to or sys.stdout).write(shown(text))


def say_octets(octets: bytes) -> None:
    """Writes octets of a file as they are; on a terminal as text."""
    buffer = getattr(sys.stdout, "buffer", None)
    if buffer is None or sys.stdout.isatty():
        say(octets.decode(errors="replace"))
    else:
        sys.stdout.flush()
        buffer.write(octets)


def open_octets(path: str) -> BinaryIO:
    """A file for reading; standard input if the path is `-`."""
    if path != "-":
        return open(path, "rb")
    if sys.stdin is None:
        raise OSError("standard input is closed")
    return open(sys.stdin.fileno(), "rb", closefd=False)


def warn(name: str, text: object) -> None:
    """Prints a line on standard error, if that is open."""
    if sys.stderr is not None:
        print(f"{name}: {shown(str(text))}", file=sys.stderr, flush=True)


def run(name: str, work: Callable[[], int]) -> int:
    """Does the work of a command. A fault is one line on standard error, and status 1 for files, 2 for arguments.

    A signal ends the command after it has removed its temporary files.
    """
    before = _catch_signals()
    try:
        return _status(name, work)
    except _Ended as it:
        return _end_by(it.number)
    except KeyboardInterrupt:
        return _end_by(signal.SIGINT)
    finally:
        for number, handler in before.items():
            signal.signal(number, handler)


def _status(name: str, work: Callable[[], int]) -> int:
    try:
        if sys.stdout is None:
            raise OSError("standard output is closed")
        status = work()
        with _named("standard output"):
            sys.stdout.flush()
        return status
    except (UsageError, MacsecError) as why:
        warn(name, why)
        return 2
    except BrokenPipeError:
        os.dup2(os.open(os.devnull, os.O_WRONLY), sys.stdout.fileno())
        return 1
    except OSError as why:
        warn(name, f"{why.filename}: {why.strerror}" if why.filename and why.strerror else why.strerror or why)
        return 1
    except (CaptureError, ImportError) as why:
        warn(name, why)
        return 1


def _catch_signals() -> dict[int, Callable[[int, FrameType | None], object] | int | None]:
    """Makes the signals end the work as an exception does. Returns what they did before; nothing if that is none of
    this thread's."""

    def end(number: int, _: FrameType | None) -> None:
        for each in _SIGNALS:
            signal.signal(each, signal.SIG_IGN)
        raise _Ended(number)

    found: dict[int, Callable[[int, FrameType | None], object] | int | None] = {}
    try:
        for each in _SIGNALS:
            # A signal that is ignored, as by nohup, stays so.
            if signal.getsignal(each) == signal.SIG_DFL:
                found[each] = signal.signal(each, end)
    except ValueError:  # not the main thread
        pass
    return found


def _end_by(number: int) -> int:
    """Ends the process by a signal, as it would have ended without a handler."""
    signal.signal(number, signal.SIG_DFL)
    os.kill(os.getpid(), number)
    return 128 + number
