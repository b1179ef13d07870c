"""Explains the frames of a capture that did not open: each by itself, and together those with the same causes."""

from __future__ import annotations

import collections
import dataclasses
import itertools
from array import array
from typing import Callable, Counter, NamedTuple, Optional

from .altered import too_short
from .causes import Search
from .frames import ICV_OCTETS, SecTag, ethertype, read_tag, without_vlan
from .names import Verdict
from .settings import Change, Found, Setting
from .summary import frames_text, ranges
from .ways import upper_half

MOST_FRAMES = 20_000
# A verdict, and an SCI with an association number or an EtherType.
Kind = tuple[Verdict, str, Optional[int]]
# Notes a frame that opens under a setting: its record, the setting of its IV, its whole packet number, octets and tag.
Note = Callable[[int, Setting, int, bytes, SecTag], None]
# Causes whose texts are of one frame, and how many groups with such other texts there are.
_OF_FRAMES, _MOST_ALIKE = ("vlan", "cut"), 8


class Seen(NamedTuple):
    """A frame that was not opened: its record, its octets, and the whole packet number that was expected of it."""

    record: int
    frame: bytes
    next: int | None = None


@dataclasses.dataclass
class Unopened:
    """The frames of a run that did not open, of each kind at most so many, and what is known of those that did."""

    kinds: dict[Kind, list[Seen]] = dataclasses.field(default_factory=dict)
    # How many more frames of a kind there are than are kept.
    more: Counter[Kind] = dataclasses.field(default_factory=collections.Counter)
    # Of each frame that was accepted a hash of its octets, and its record.
    hashes: array[int] = dataclasses.field(default_factory=lambda: array("q"))
    records: array[int] = dataclasses.field(default_factory=lambda: array("q"))
    first_opened: dict[tuple[str, int | None], int] = dataclasses.field(default_factory=dict)
    last_opened: dict[tuple[str, int | None], int] = dataclasses.field(default_factory=dict)

    def add(self, kind: Kind, seen: Seen) -> None:
        """Adds a frame that did not open."""
        kept = self.kinds.setdefault(kind, [])
        if len(kept) < MOST_FRAMES:
            kept.append(seen)
        else:
            self.more[kind] += 1

    def add_opened(self, sender: tuple[str, int | None], record: int, frame: bytes) -> None:
        """Adds a frame that was delivered as it was sent."""
        self.first_opened.setdefault(sender, record)
        self.last_opened[sender] = record
        self.hashes.append(hash(frame))
        self.records.append(record)

    def accepted(self) -> dict[int, int]:
        """The first accepted record with the octets of a frame that did not open, by their hash."""
        wanted = {hash(it.frame) for seen in self.kinds.values() for it in seen}
        pairs = zip(reversed(self.hashes), reversed(self.records)) if wanted else ()
        return {octets: record for octets, record in pairs if octets in wanted}


class Group(NamedTuple):
    """Frames of one kind with the same explanation. `changes` are empty if nothing that was tried explains them."""

    verdict: Verdict
    sender: str
    an: int | None
    records: list[int]
    changes: tuple[Change, ...]
    note: str = ""
    more: int = 0  # frames that nobody looked at, in place of records

    def as_dict(self) -> dict[str, object]:
        causes = [{key: value for key, value in it._asdict().items() if value is not None} for it in self.changes]
        named: dict[str, object] = {"sci": self.sender, "an": self.an}
        if self.an is None:
            named = {"ethertype": self.sender}
        note = {"note": self.note} if self.note else {}
        more = {"more": self.more} if self.more else {}
        return {"verdict": self.verdict.name, **named, "records": self.records, "causes": causes, **note, **more}

    def lines(self) -> list[str]:
        of = f"EtherType {self.sender}" if self.an is None else f"SCI {self.sender} AN {self.an}"
        found = [f"record {ranges(self.records)} {self.verdict.name} ({frames_text(len(self.records))}), {of}:"]
        if self.more:
            found = [f"{self.more} more frames {self.verdict.name}, {of}:"]
        for each in self.changes:
            found.append(f"  {each.cause}: " + (f"line {each.line}: " if each.line else "") + each.text)
        return found + ([f"  {self.note}"] if self.note else [])


class _Explained(NamedTuple):
    """A frame and its causes."""

    record: int
    changes: tuple[Change, ...]
    missing: int


class Explanation:
    """The causes of all verdicts that are not OK."""

    def __init__(self, unopened: Unopened, search: Search, note: Note) -> None:
        self._unopened, self._search, self._note = unopened, search, note
        self._unknown: dict[Kind, list[Seen]] = collections.defaultdict(list)
        self._accepted = unopened.accepted()
        # Of each sender the last record under the key of CONFIG's association, and the first one under each other key.
        self._last: dict[tuple[str, int | None], int] = dict(unopened.last_opened)
        self._firsts: dict[tuple[tuple[str, int | None], Change], int] = {}
        self._explained: dict[Kind, list[_Explained]] = collections.defaultdict(list)
        # How many octets are cut off the frames of each sender.
        self._missing: dict[tuple[str, int | None], set[int]] = collections.defaultdict(set)
        causes = self._causes()
        for kind, _, it in causes:
            self._missing[kind[1:]] |= {it.missing} if it.missing >= 0 else set()
        for kind, seen, it in causes:
            self._explained[kind].append(self._with_others(kind, seen, self._cut_as_others(kind, it)))
        self.groups = [it for kind in unopened.kinds for it in self._groups(kind)]

    def _causes(self) -> list[tuple[Kind, Seen, Found]]:
        """The causes of each frame that has some, in the order of the records; the others are unknown."""
        search = self._search
        frames = sorted((it.record, kind, it) for kind, seen in self._unopened.kinds.items() for it in seen)
        found = {record: search.of(it.frame, kind[0], kind[1:], it.next) for record, kind, it in frames}
        for record, kind, it in frames:
            known = found[record]
            if known is None or known.is_partial or "bits" in [change.cause for change in known.changes]:
                found[record] = search.again(it.frame, kind[0], kind[1:], it.next) or known
        self._search_widely(frames, found)
        made = []
        for record, kind, it in frames:
            known = found[record]
            if known is None:
                self._unknown[kind].append(it)
                continue
            made.append((kind, it, known))
            self._note_iv(it, known)
            self._note_key(kind[1:], record, known)
        return made

    def _search_widely(self, frames: list[tuple[int, Kind, Seen]], found: dict[int, Found | None]) -> None:
        """Searches for what takes long: for one frame of each kind that nothing opens, most frames first."""
        kinds: dict[Kind, list[Seen]] = collections.defaultdict(list)
        for record, kind, it in frames:
            known = found[record]
            if known is None or known.is_partial:
                kinds[kind].append(it)
        for kind, seen in sorted(kinds.items(), key=lambda it: -len(it[1])):
            first = self._search.widely(seen[0].frame, kind[0], kind[1:], seen[0].next)
            for it in seen if first else ():
                found[it.record] = self._search.again(it.frame, kind[0], kind[1:], it.next) or found[it.record]

    def _note_key(self, sender: tuple[str, int | None], record: int, found: Found) -> None:
        """Notes under which key a frame is."""
        keys = [it for it in found.changes if it.cause == "key"]
        for change in keys:
            self._firsts.setdefault((sender, change), record)
        if not keys and (found.setting or found.changes[-1].cause == "altered"):
            self._last[sender] = max(self._last.get(sender, 0), record)

    def _note_iv(self, seen: Seen, found: Found) -> None:
        setting = found.setting
        if setting is None or found.number is None:
            return
        octets = setting.octets(without_vlan(seen.frame)[0])
        tag = read_tag(octets)
        if tag is not None:
            of_iv = setting if setting.iv_sci is None else setting._replace(sci=setting.iv_sci)
            self._note(seen.record, of_iv, found.number, octets, tag)

    def _cut_as_others(self, kind: Kind, found: Found) -> Found:
        """A frame that can lack octets does, and was not altered, if all others of its association lack as many."""
        is_cut = self._missing[kind[1:]] == {-found.missing} and kind[1:] not in self._unopened.first_opened
        if found.missing >= 0 or not is_cut:
            return found
        return found._replace(
            changes=(*found.changes[:-1], too_short("its length", -found.missing)), missing=-found.missing
        )

    def _with_others(self, kind: Kind, seen: Seen, found: Found) -> _Explained:
        """With the causes that other frames show: a key that follows another one of the same association is a rekey."""
        changes = found.changes
        expected = None if seen.next is None or found.number is None else upper_half(found.number % 2**32, seen.next)
        if not changes and found.number is not None and expected is not None and found.number >> 32 > expected:
            upper = f"upper half 0x{found.number >> 32:x} of the packet number, not 0x{expected:x}"
            text = f"{upper}: none before it was accepted"
            changes = (Change("upper", text),)
        elif not changes and found.setting is not None:
            earlier = self._accepted.get(hash(seen.frame))
            if earlier is not None and earlier < seen.record:
                text = f"it repeats record {earlier}, from before the upper half of the numbers changed"
                changes = (Change("replay", text),)
            else:
                text = "it opens as the first frame: its packet number is far from those that were accepted"
                changes = (Change("order", text),)
        return _Explained(seen.record, tuple(self._rekey_of(kind, it) for it in changes), found.missing)

    def _rekey_of(self, kind: Kind, change: Change) -> Change:
        """Another key is a rekey if no frame after the first one under it opens under the key of CONFIG."""
        last = self._last.get(kind[1:])
        first = self._firsts.get((kind[1:], change))
        if kind[1:] not in self._unopened.first_opened or last is None or first is None or first < last:
            return change
        return change._replace(cause="rekey", text=f"from here on {change.text}: macsec-decrypt follows rekeys")

    def _groups(self, kind: Kind) -> list[Group]:
        """The groups of a kind: frames with the same causes, and those without a known one."""
        alike: dict[tuple[Change, ...], list[_Explained]] = collections.defaultdict(list)
        for it in self._explained[kind]:
            alike[it.changes].append(it)
        # Many groups that differ in what is of one frame alone are one.
        likes: dict[tuple[Change, ...], list[list[_Explained]]] = collections.defaultdict(list)
        for changes, frames in alike.items():
            likes[tuple(it._replace(text="") if it.cause in _OF_FRAMES else it for it in changes)].append(frames)
        groups = []
        for several in likes.values():
            joined = [sorted(itertools.chain.from_iterable(several))] if len(several) > _MOST_ALIKE else several
            groups += [Group(*kind, [it.record for it in frames], self._together(kind, frames)) for frames in joined]
        unknown = self._unknown[kind]
        if unknown:
            groups.append(Group(*kind, [it.record for it in unknown], (), self._note_of(kind, unknown)))
        if self._unopened.more[kind]:
            note = f"the first {MOST_FRAMES} were looked at"
            groups.append(Group(*kind, [], (), note, self._unopened.more[kind]))
        return groups

    def _together(self, kind: Kind, frames: list[_Explained]) -> tuple[Change, ...]:
        """The causes of frames with the same ones."""
        first = frames[0]
        made = []
        for place, it in enumerate(first.changes):
            if any(other.changes[place] != it for other in frames):
                it = it._replace(text=f"{it.text} (record {first.record}; others differ)")
            if it.cause == "cut" and first.missing == self._short_by(kind):
                text = f"{it.text}, or the sender has icvlen {ICV_OCTETS - first.missing}, which is not supported"
                it = it._replace(text=text)
            made.append(it)
        return tuple(made)

    def _short_by(self, kind: Kind) -> int | None:
        """The octets that each frame of an association lacks, if a shorter ICV would explain that."""
        missing = self._missing[kind[1:]]
        is_possible = len(missing) == 1 and missing <= {4, 8} and kind[1:] not in self._unopened.first_opened
        return next(iter(missing)) if is_possible else None

    def _note_of(self, kind: Kind, unknown: list[Seen]) -> str:
        """What is known of frames for which no change was found, and what was tried."""
        verdict, sender, an = kind
        frame = unknown[0].frame
        if an is None:
            return f"the frame has no SecTAG: EtherType {ethertype(frame)}"
        if verdict == Verdict.BadTag:
            return "its SecTAG is malformed, or the frame is shorter than the tag says"
        if verdict == Verdict.Reserved:
            return "E is set and C is clear: not a data frame"
        tried, count = self._search.tried(frame, kind[1:]), self._search.in_vain(kind[1:])
        fewer = f" for {count} of them, and less for the others" if count < len(unknown) else ""
        after = f" (tried{fewer}: {tried})" if tried else ""
        first = self._unopened.first_opened.get((sender, an))
        if first is not None and verdict in (Verdict.NotValid, Verdict.Invalid):
            return (
                f"no change that was tried opens it; others of the association open (record {first}): altered, or "
                f"under a key that is not given{after}"
            )
        return f"no change that was tried opens it: another key or salt, or altered; give more keys by --key{after}"
