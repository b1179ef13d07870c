"""The HTML file of a report: what is judged as JSON, and the style and the script that draw it."""

from __future__ import annotations

import base64
import hashlib
import html
import json
from collections.abc import Sequence
from pathlib import Path
from typing import NamedTuple

from ..cli import shown
from ..secy import version
from .drawn import compact
from .judging import Judged

FORMAT = 1
# How many lines of text a page has.
_MOST_LINES = 5000
_SCRIPTS = ("data.js", "pictures.js", "tables.js")


class Source(NamedTuple):
    """A capture: its name, and how many records it has."""

    name: str
    records: int


def _asset(name: str) -> str:
    return Path(__file__).with_name(name).read_text(encoding="utf-8")


def data_of(judged: Judged, sources: Sequence[Source], start: int, receiver: str | None) -> dict[str, object]:
    """What the page draws. `start` is the time of the first record, `receiver` the name of a CONFIG."""
    number = version()
    events = [{**it._asdict(), "time": it.time - start} for it in judged.events]
    return {
        "format": FORMAT, "version": f"{number // 1_000_000}.{number // 1000 % 1000}.{number % 1000}",
        "captures": [it._asdict() for it in sources], "start": str(start), "config": receiver,
        "receiver": judged.receiver, "objects": compact(judged.objects), "asks": judged.asks, "events": events,
        "counters": judged.counters, **judged.drawn.as_dict(start),
    }  # fmt: skip


def page_of(data: dict[str, object], lines: Sequence[str]) -> str:
    """The page. Nothing in it is loaded from elsewhere, and a browser runs no script but its own."""
    style, script = _asset("page.css"), "".join(map(_asset, _SCRIPTS))
    hashes = [base64.b64encode(hashlib.sha256(it.encode()).digest()).decode() for it in (style, script)]
    # No text of the data can end its element.
    made = json.dumps(data, separators=(",", ":")).replace("<", "\\u003c")
    text = [*lines[:_MOST_LINES], *[f"{len(lines) - _MOST_LINES} more lines"] * (len(lines) > _MOST_LINES)]
    parts = {
        "style-hash": hashes[0], "script-hash": hashes[1], "style": style, "script": script, "data": made,
        "text": html.escape(shown("\n".join(text))),
    }  # fmt: skip
    page = _asset("page.html").split("@")
    return "".join(parts[it] if place % 2 else it for place, it in enumerate(page))
