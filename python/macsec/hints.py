"""What was tried for the frames that do not open, what was not, and what to give: hints by sender and tag form."""

from __future__ import annotations

import dataclasses
from collections.abc import Sequence

from . import attempts
from .attempts import Frame, Keys
from .names import SUITES, Suite, suite_of
from .summary import frames_text, ranges
from .trial import Key, KeyArgument

_MALFORMED = ("BadTag", "Reserved")
_KEY_OR_SALT = "another key or salt"
_MOST_GROUPS, _MOST_LINES = 256, 16
_XPN_OF = {it: suite_of(it.key_octets, True) for it in SUITES if not it.is_extended}


@dataclasses.dataclass
class _Group:
    """Frames of one sender, association number and tag form, malformed or not, and how widely they were searched."""

    frame: Frame
    record: int
    verdict: str
    keys: int
    count: int = 0
    is_wide: bool = False
    is_wider: bool = False
    is_spent: bool = False


class Hints:
    """The frames that do not open."""

    def __init__(self) -> None:
        self._groups: dict[tuple[bytes, int, int, bool], _Group] = {}
        self._more = 0

    def add(
        self, record: int, frame: Frame, verdict: str, keys: int, is_wide: bool, is_wider: bool, is_spent: bool
    ) -> None:  # fmt: skip
        """Adds a frame, with the verdict under a key that it can have, how many keys there were, and how widely they
        were tried."""
        if verdict == "BadTag" and frame.tag.pn == 0:
            # Under an extended suite the lower half of a packet number can be 0.
            verdict = "NotValid"
        place = frame.tag.sci or frame.address, frame.tag.tci, frame.tag.an, verdict in _MALFORMED
        if place not in self._groups and len(self._groups) >= _MOST_GROUPS:
            self._more += 1
            return
        group = self._groups.setdefault(place, _Group(frame, record, verdict, keys))
        group.count, group.keys = group.count + 1, keys
        # A search that was cut short has not tried all of what it began.
        group.is_wide |= is_wide and not is_spent
        group.is_wider |= is_wider and not is_spent
        group.is_spent |= is_spent

    def lines(self, keys: Keys) -> list[str]:
        """A text of several lines for the groups with the same one, the largest first."""
        texts: dict[tuple[str, str], list[_Group]] = {}
        for each in self._groups.values():
            texts.setdefault((each.frame.tag.flags, _text(each, keys)), []).append(each)
        alike = sorted(texts.items(), key=lambda it: -sum(group.count for group in it[1]))
        lines = [f"{_head(groups)}:\n{text}" for (_, text), groups in alike[:_MOST_LINES]]
        rest = sum(group.count for _, groups in alike[_MOST_LINES:] for group in groups) + self._more
        return lines + (
            [f"{frames_text(rest)} more not opened, of other senders or association numbers"] if rest else []
        )


def _head(groups: Sequence[_Group]) -> str:
    frame = groups[0].frame
    # A tag that names nobody: the address that sends is in parentheses.
    who = f"({frame.address.hex()})" if frame.names_nobody else frame.meant.hex()
    others = f" and {len(groups) - 1} more senders or numbers" if len(groups) > 1 else ""
    count, first = sum(it.count for it in groups), min(it.record for it in groups)
    return (
        f"{frames_text(count)} not opened, SCI {who} AN {frame.tag.an}{others}, {frame.tag.flags}, from record {first}"
    )


def _text(group: _Group, keys: Keys) -> str:
    """What was tried for a group, and what was not."""
    if group.verdict in _MALFORMED:
        return f"  {group.verdict}: a malformed SecTAG, or octets are missing; no key opens it"
    found: dict[Suite, list[tuple[KeyArgument, Key]]] = {}
    for argument, key in keys.fitting(group.frame, group.keys):
        found.setdefault(key.suite, []).append((argument, key))
    if not found:
        return f"  {keys.misfit(group.frame, group.keys)}"
    tried = [_tried(suite, pairs, group) for suite, pairs in found.items()]
    untried = dict.fromkeys(it for suite, pairs in found.items() for it in _untried(suite, pairs, group, keys))
    untried[_KEY_OR_SALT if any(it.is_extended for it in found) else "another key"] = None
    lines = [f"  tried: {it}" for it in tried] + [f"  not tried: {'; '.join(untried)}"]
    if group.is_spent:
        lines.append("  the search was cut short: give fewer keys, or more about them")
    return "\n".join(lines)


def _names(pairs: Sequence[tuple[KeyArgument, Key]]) -> str:
    """The names of keys, those with numbers as ranges."""
    names = list(dict.fromkeys(key.name for _, key in pairs))
    numbers: dict[str, list[int]] = {}
    for name in names:
        kind, _, number = name.rpartition(" ")
        if not number.isdecimal():
            return ", ".join(names[:8]) + (f" and {len(names) - 8} more" if len(names) > 8 else "")
        numbers.setdefault(kind, []).append(int(number))
    return ", ".join(f"{kind} {ranges(sorted(each))}" for kind, each in numbers.items())


def _tried(suite: Suite, pairs: Sequence[tuple[KeyArgument, Key]], group: _Group) -> str:
    names = f"{_names(pairs)} as {suite.name}"
    arguments = [argument for argument, _ in pairs]
    if suite.is_extended:
        return f"{names} with {_sscis(arguments, group)}, {_uppers(arguments, group)}"
    offsets = sorted({key.offset for _, key in pairs})
    text = f"{names} with offset {', '.join(map(str, offsets))}"
    if group.frame.tag.sci is not None:
        return text
    if all(it.sci for it in arguments):
        return f"{text} and the SCI of the key"
    return f"{text} and {'all ports' if group.is_wider else 'the usual ports'} of the source address"


def _sscis(arguments: Sequence[KeyArgument], group: _Group) -> str:
    if all(it.ssci is not None for it in arguments):
        return "their SSCIs" if len(arguments) > 1 else f"SSCI 0x{arguments[0].ssci:x}"
    if group.is_wider and any(it.ssci is None and it.upper is not None for it in arguments):
        return f"SSCIs below 0x{attempts.WIDE:x}"
    return f"SSCIs 0x1 to 0x{attempts.SSCIS if group.is_wide else 4:x}"


def _uppers(arguments: Sequence[KeyArgument], group: _Group) -> str:
    if all(it.upper is not None for it in arguments):
        return "their upper halves" if len(arguments) > 1 else f"upper half 0x{arguments[0].upper:x}"
    if group.is_wider and any(it.ssci is not None and it.upper is None for it in arguments):
        return f"upper halves below 0x{attempts.WIDE:x}"
    return f"upper halves below 0x{attempts.UPPER_HALVES if group.is_wide else 4:x}"


def _untried(suite: Suite, pairs: Sequence[tuple[KeyArgument, Key]], group: _Group, keys: Keys) -> list[str]:
    arguments = [argument for argument, _ in pairs]
    found = keys.restrictions()
    if suite.is_extended:
        numbers = [
            text for text, is_given in (
                ("SSCIs", all(it.ssci is not None for it in arguments)),
                ("upper halves", all(it.upper is not None for it in arguments)),
            ) if not is_given
        ]  # fmt: skip
        if numbers:
            found.append(f"other {' and '.join(numbers)} (KEY:SALT:SSCI:UPPER)")
        return found
    if any(it.salt is None and it.suite is None for it in arguments) and not keys.suite:
        found.append(f"{_XPN_OF[suite].name}, which needs a salt (KEY:SALT)")
    if group.frame.tag.sci is None and any(it.sci is None for it in arguments):
        found.append(f"{'' if group.is_wider else 'other ports, and '}SCIs of other addresses (SCI=KEY)")
    if group.frame.tag.sci is None and not group.frame.names_nobody and any(key.offset for _, key in pairs):
        found.append("an SCI in the IV that the tag does not mean, with offset 30 or 50")
    return found
