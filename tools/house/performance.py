"""What was measured, in tests/performance.tsv, and what docs/PERFORMANCE.md shows of it: tables and a picture.

A line of the file has the name of a table, the name of a row, and figures. A table's first line has the names of its
columns, and its second one, `about`, says when it was measured, at which commit, and on what. tests/program/against
and device/tests/macsecd --turns write tables, and tools/reference makes the page of them."""

from __future__ import annotations

import datetime
import statistics
from collections.abc import Iterable, Sequence
from html import escape

from house import ROOT
from house.manual import git, machine
from house.written import table, with_parts

FILE, PAGE, PICTURE = ROOT / "tests/performance.tsv", ROOT / "docs/PERFORMANCE.md", "pictures/throughput.svg"
OWN = "macsecd"


def read() -> dict[str, list[list[str]]]:
    """The lines of each table, without its name."""
    found: dict[str, list[list[str]]] = {}
    for line in FILE.read_text(encoding="utf-8").splitlines():
        name, *rest = line.split("\t")
        found.setdefault(name, []).append(rest)
    return found


def write(name: str, columns: Sequence[str], rows: Iterable[Sequence[str]], beside: str) -> None:
    """Writes a table in the place of the one before. `beside` says what else was measured."""
    tables = read() if FILE.is_file() else {}
    about = [
        "about",
        datetime.date.today().isoformat(),
        git("rev-parse", "--short=12", "HEAD") or "",
        machine(),
        beside,
    ]
    tables[name] = [["row", *columns], about, *map(list, rows)]
    lines = ["\t".join([each, *line]) for each, found in tables.items() for line in found]
    FILE.write_text("\n".join([*lines, ""]), encoding="utf-8")


def ratios(ours: Sequence[float], theirs: Sequence[float], digits: int = 2) -> str:
    """The ratio within a turn: its median, and the least and greatest."""
    if not all(theirs):
        return "-"
    found = sorted(it / other for it, other in zip(ours, theirs))
    return f"{statistics.median(found):.{digits}f} ({found[0]:.{digits}f} to {found[-1]:.{digits}f})"


def columns(name: str) -> tuple[list[str], list[str], list[list[str]]]:
    """The names of a table's columns, what is said about it, and its rows."""
    first, about, *rows = read()[name]
    return first, about[1:], rows


def with_origin(name: str, shown: str) -> str:
    """A table on the page, and when it was measured, at which commit, and on what."""
    date, commit, on, beside = columns(name)[1]
    return f"{shown}\n\n{date}, `{commit}`, {on}; {beside}."


def of_frames(name: str) -> str:
    """A table of frames of several lengths."""
    first, _, rows = columns(name)
    head = " | ".join(["octets of data", *(f"{int(it):,}" for it in first[1:])])
    body = [[row, *(f"{float(it):,.0f}" for it in figures)] for row, *figures in rows]
    return with_origin(name, table(head, body))


def turns() -> dict[str, dict[str, list[float]]]:
    """Of each row of the device, the figures of all turns by the names of the columns."""
    first, _, rows = columns("turns")
    found: dict[str, dict[str, list[float]]] = {}
    for row, _, *figures in rows:
        for column, figure in zip(first[2:], figures):
            found.setdefault(row, {}).setdefault(column, []).append(float(figure))
    return found


def of_devices(found: dict[str, dict[str, list[float]]]) -> str:
    """The medians of each row, and macsecd by it within a turn."""
    rows = []
    for name, it in found.items():
        middle = {column: statistics.median(figures) for column, figures in it.items()}
        is_own = name.startswith(OWN)
        rows.append(
            [
                name.replace(OWN, f"`{OWN}`"),
                f"{middle['tcp']:,.0f} ({max(it['tcp']):,.0f})",
                "" if name == OWN else ratios(found[OWN]["tcp"], it["tcp"]),
                f"{middle['seconds']:.1f}" if middle["seconds"] else "",
                f"{100 * middle['sender']:.0f}, {100 * middle['receiver']:.0f}" if is_own else "",
                f"{round(middle['udp'], -3):,.0f}",
                f"{middle['echo']:.0f}",
            ]
        )
    head = [
        "program",
        "TCP, 10^6 octets/s: median (best)",
        "`macsecd` ÷ this row",
        "processor s for 10^9 octets",
        "first thread, %: sender, receiver",
        "datagrams of 1,358 octets/s",
        "echo, us",
    ]
    count = max(len(it["tcp"]) for it in found.values())
    return with_origin("turns", table(" | ".join(head), rows)).replace("; ", f", {count} turns; ", 1)


# The picture: a bar for each row, as long as the median of TCP, and paler up to the best turn.
NAMES, WIDE, TALL, STYLE = 250, 430, 26, (
    'text{font:13px system-ui,sans-serif;fill:#1f2328}.own{fill:#8250df}.other{fill:#59636e}.best{opacity:.4}'
    "@media (prefers-color-scheme:dark){text{fill:#e6edf3}.ground{fill:#0d1117}.own{fill:#ab7df8}.other{fill:#9198a1}}"
)  # fmt: skip


def picture(found: dict[str, dict[str, list[float]]]) -> str:
    """The throughput of TCP of macsecd and of other programs, without Linux alone, whose bar would be far longer."""
    shown = {name: it["tcp"] for name, it in found.items() if "MTU" not in name and name != "veth"}
    scale, height = WIDE / max(map(max, shown.values())), TALL * len(shown) + 16
    told = "; ".join(f"{name}: {statistics.median(it):.0f} ({max(it):.0f})" for name, it in shown.items())
    lines = [
        f'<svg xmlns="http://www.w3.org/2000/svg" viewBox="0 0 800 {height}" width="800" height="{height}" role="img" '
        'aria-labelledby="title description">',
        '  <title id="title">TCP through tunnels, million octets a second</title>',
        f'  <desc id="description">Medians, and the best turn in brackets. {escape(told)}.</desc>',
        f"  <style>.ground{{fill:#fff}}{STYLE}</style>",
        f'  <rect class="ground" width="800" height="{height}" rx="8"/>',
    ]
    for number, (name, figures) in enumerate(shown.items()):
        y, kind, middle = 8 + TALL * number, "own" if name.startswith(OWN) else "other", statistics.median(figures)
        lines.append(f'  <text x="{NAMES - 8}" y="{y + 17}" text-anchor="end">{escape(name.replace("`", ""))}</text>')
        for style, figure in ((f"{kind} best", max(figures)), (kind, middle)):
            lines.append(
                f'  <rect class="{style}" x="{NAMES}" y="{y + 4}" width="{figure * scale:.0f}" height="{TALL - 8}"/>'
            )
        end = NAMES + max(figures) * scale + 8
        lines.append(f'  <text x="{end:.0f}" y="{y + 17}">{middle:,.0f} ({max(figures):,.0f})</text>')
    return "\n".join([*lines, "</svg>", ""])


def files() -> dict[str, str]:
    """The page with its parts made again, and the picture."""
    found = turns()
    parts = {name: of_frames(name) for name in ("instructions", "times")} | {"devices": of_devices(found)}
    page = with_parts(PAGE.read_text(encoding="utf-8"), parts)
    return {PAGE.name: page, PICTURE: picture(found)}
