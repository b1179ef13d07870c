"""What the library says of each frame of some captures: as the receiver of a CONFIG judges it, or by keys alone."""

from __future__ import annotations

import collections
from collections import Counter
from collections.abc import Container, Iterable, Sequence
from typing import NamedTuple, cast

from ..cak import Cak, KeyAgreements, mkpdus_text
from ..capture import Packet
from ..causes import Search
from ..cli.why import Run, lines_of_all, objects_of
from ..endpoint_of_config import Configuration
from ..explanation import Explanation, Group, Seen, Unopened
from ..frames import SecTag
from ..ivs import UsedTwice
from ..ledger import Ledger
from ..names import Verdict
from ..opener import Opened, Opener
from ..plan import OBSERVER_MAX, Plan, PlannedSa
from ..settings import Setting
from ..summary import Association, Summary, frames_text
from ..trial import OPENED, Trial, own_sci
from ..unseen import Unseen
from .drawn import MOST_ROWS, Drawn, Row

_DELIVERED = (*OPENED, Verdict.Unchecked)
# How many IVs used twice a report lists one by one, how many associations and rekeys; how many associations by keys get
# lines in a CONFIG, under which the causes of other frames are searched for.
MOST_LISTED = 1000
_MOST_PLANNED = 256
_NEVER = 1 << 64
_VERDICTS = {it.name: it for it in Verdict}
# Verdicts of frames that no key opens; causes that are an association which CONFIG lacks.
_MALFORMED = (Verdict.BadTag, Verdict.Reserved)
_LACKING = ("sci", "an", "channel", "own-sci", "off", "refused")
Place = tuple[str, int]


class Event(NamedTuple):
    """From this record on, an association uses a key."""

    record: int
    time: int
    sci: str
    an: int
    key: str


class Judged(NamedTuple):
    """What a report says. `objects` and `lines` are those of `macsec-why`, `asks` what to ask for, and `counters` those
    of the receiver, by whose they are. `keys` has the number of each record's key in `key_names`, from 1, if the rows
    that are drawn do not have it."""

    drawn: Drawn
    objects: list[dict[str, object]]
    lines: list[str]
    events: list[Event]
    asks: list[str]
    counters: dict[str, dict[str, int]]
    receiver: dict[str, object] | None
    is_bad: bool
    groups: Sequence[Group]
    twice: Sequence[UsedTwice]
    keys: Sequence[int] = ()
    key_names: Sequence[str] = ()


def _listed(objects: list[dict[str, object]]) -> list[dict[str, object]]:
    """The objects, at most so many of each kind, then how many more there are, and the records of further IVs."""
    found: list[dict[str, object]] = []
    left: Counter[str] = collections.Counter()
    records: list[int] = []
    for it in objects:
        kind = next(iter(it))
        left[kind] += 1
        if left[kind] <= MOST_LISTED:
            found.append(it)
        elif kind == "iv used twice":
            records += it[kind]["records"]  # type: ignore[index]
    more = {kind: count - MOST_LISTED for kind, count in left.items() if count > MOST_LISTED}
    return found + [{"more": more, "records": sorted(set(records))}] * bool(more)


class _Events:
    """The first record that opened of each association and key."""

    def __init__(self) -> None:
        self.all: list[Event] = []
        self._last: dict[Place, str] = {}

    def add(self, packet: Packet, sci: str, an: int, key: str) -> None:
        if self._last.get((sci, an)) != key:
            self._last[sci, an] = key
            if len(self.all) < MOST_LISTED:
                self.all.append(Event(packet.number, packet.time, sci, an, key))


# By a CONFIG.


class ByConfig(Run):
    """The run of `macsec-why`, which draws each frame."""

    def __init__(self, search: Search, packets: Iterable[Packet], caks: Sequence[Cak], ledger: Ledger | None) -> None:
        self.drawn, self.events, self._rows = (Drawn(), _Events(), cast(dict[Association, Row], {}))
        self._has_window = search.configuration.secy.options().replay
        super().__init__(search.configuration, search, packets, None, caks, ledger)

    def note(
        self, packet: Packet, found: Association, number: int, verdict: Verdict, place: tuple[bytes, int] | None
    ) -> None:
        """Draws a frame."""
        row = self._rows.get(found)
        if row is None:
            row = self._rows[found] = self.drawn.row((found.sci, found.an, ""))
        record, time = packet[:2]
        if time >= row.due and place is not None and verdict in _DELIVERED:
            self._note_opened(packet, row, *place)
        row.add(record, time, number, verdict)

    def _note_opened(self, packet: Packet, row: Row, sci: bytes, an: int) -> None:
        """Notes the window after a frame that was delivered, and the key of the association."""
        sa = self._secy.rx_sa(sci, an)
        row.add_window(packet.time, sa.lowest, sa.next)
        if not self._has_window:
            row.due = _NEVER
        key = self._configuration.keys.get(sa.key)
        self.events.add(packet, row.sci, row.an, key.name if key else "")


def by_config(search: Search, packets: Iterable[Packet], caks: Sequence[Cak], ledger: Ledger | None = None) -> Judged:
    """What the receiver of a CONFIG says."""
    made = ByConfig(search, packets, caks, ledger)
    configuration, opened = search.configuration, set(made.unopened.first_opened)

    def note(record: int, setting: Setting, number: int, octets: bytes, tag: SecTag) -> None:
        made.ivs.add(record, setting, number, octets, tag)
        # A frame whose tag names nobody is listed by its address.
        opened.update(((setting.sci.hex(), setting.an), (f"({setting.sci[:6].hex()})", setting.an)))

    groups = Explanation(made.unopened, search, note).groups
    made.summary.note_keys(made.ivs.keys)
    twice, found = made.ivs.twice, (made.unseen, groups, configuration.refusals)
    asks = [*_asked_keys(groups, opened), *_asked_lines(groups, opened), *_asked_of_mka(made.agreements)]
    options, secy = configuration.secy.options(), configuration.secy
    receiver: dict[str, object] = {"mode": options.mode.name, "replay": options.replay, "window": options.window}
    counters = {"endpoint": secy.counters(), **{it.hex(): secy.rx_counters(it) for it in secy.rx_scs()}}
    is_bad = bool(twice or made.unseen.has_protected or any(it.an is not None or it.changes for it in groups))
    return Judged(
        made.drawn, _listed(objects_of(twice, made.summary.as_dicts(), *found)),
        lines_of_all(twice, made.summary.lines(), *found), made.events.all, [*asks, *made.unseen.hints()],
        counters, receiver, is_bad, groups, twice, made.ivs.keys, made.ivs.names,
    )  # fmt: skip


def _asked_keys(groups: Sequence[Group], opened: Container[tuple[str, int | None]]) -> list[str]:
    """The keys to ask for: of associations of which no frame opens, and of frames without a cause among those of others
    that open."""
    counts: Counter[tuple[str, int]] = collections.Counter()
    firsts: dict[tuple[str, int], list[int]] = {}
    for it in groups:
        is_explained = bool(it.changes or not it.records) and (it.sender, it.an) in opened
        if it.an is not None and it.verdict not in _MALFORMED and not is_explained:
            counts[it.sender, it.an] += len(it.records) + it.more
            firsts.setdefault((it.sender, it.an), []).extend(it.records[:1])
    lines = [
        f"{'a later key' if place in opened else 'the key (SAK)'} of SCI {place[0]} AN {place[1]}: no key opens "
        f"{frames_text(count)}, the first is record {min(firsts[place])}"
        for place, count in counts.most_common(MOST_ROWS)
    ]
    more = len(counts) - len(lines)
    return lines + [f"the keys of {more} more associations"] * bool(more)


def _asked_lines(groups: Sequence[Group], opened: Container[tuple[str, int | None]]) -> list[str]:
    """What CONFIG lacks: associations whose frames open."""
    found: dict[tuple[str, int | None], str] = {}
    for it in groups:
        if it.changes and it.changes[0].cause in _LACKING and (it.sender, it.an) in opened:
            found.setdefault(
                (it.sender, it.an), f"lines of CONFIG, for {frames_text(len(it.records))}: {it.changes[0].text}"
            )
    return list(found.values())


def _asked_of_mka(agreements: KeyAgreements) -> list[str]:
    """The CAK, if there are frames of MKA and none was given; or what became of them under it."""
    if not agreements.seen or agreements.has_caks:
        return agreements.notes()
    return [f"the CAK of the link: the capture has {mkpdus_text(agreements.seen)}, and --cak takes keys from them"]


# By keys.


class _ByKeys:
    """Opens each frame by the keys, follows rekeys, and draws it."""

    def __init__(self, packets: Iterable[Packet], opener: Opener) -> None:
        self.drawn, self.events, self.unopened = Drawn(), _Events(), Unopened()
        # A summary of the frames under each key: packet numbers begin again with each one.
        self.summaries: dict[str, Summary] = collections.defaultdict(Summary)
        self.unseen = Unseen()
        self.uses: dict[tuple[bytes, int], tuple[Trial, int]] = {}
        self._keys: dict[Place, str] = {}
        for packet in packets:
            if not self.unseen.add(packet):
                self._add(packet, opener.open(packet.number, packet.frame, packet.fcs), opener)

    def _add(self, packet: Packet, it: Opened, opener: Opener) -> None:
        _, state, name, sci, an, pn, key, _, _ = it
        if self.unseen.add_fault(packet, name):
            return
        number, time, frame = packet[:3]
        if an is None or pn is None:
            self.summaries[""].add(number, frame, state)
            return
        # A frame that does not open is likely under the key of those before it.
        place = sci.strip("()"), an
        before = self._keys.get(place, "")
        key, verdict = key or before, _VERDICTS[name]
        summary, tag = self.summaries[key], opener.tag
        if tag is None:
            of = summary.add(number, frame, name)
        else:
            found = summary.of(frame, tag)
            found.add(number, tag, pn & 0xFFFF_FFFF, frame, name)
            of = found.place
        self.drawn.row((of[0], an, key)).add(number, time, pn, verdict)
        if state != "opened":
            self.unopened.add((verdict, *of), Seen(number, frame))
            return
        self.unopened.first_opened.setdefault(of, number)
        self.unopened.last_opened[of] = number
        if key != before:
            self._keys[place] = key
            self.events.add(packet, of[0], an, key)
            if opener.last and opener.last.trial.sci_of_iv is None and len(self.uses) < _MOST_PLANNED:
                self.uses[opener.last.trial.sci, an] = opener.last.trial, pn

    def configuration(self) -> Configuration:
        """The CONFIG of an observer that has the keys which opened frames, by the names that they were given."""
        plan = Plan(own_sci(*(sci for sci, _ in self.uses)), max_frame=OBSERVER_MAX, replay=False)
        names = {}
        for (sci, an), (trial, pn) in self.uses.items():
            key = plan.key_of(trial.key.octets, trial.key.salt, trial.key.offset, trial.key.suite)
            names[key] = trial.key.name
            plan.rx.setdefault(sci, {})[an] = PlannedSa(key, pn >> 32 << 32 | 1, True, trial.ssci)
        made = Configuration(plan.text().encode())
        made.keys = {number: it._replace(called=names[number]) for number, it in made.keys.items()}
        return made


def by_keys(opener: Opener, packets: Iterable[Packet]) -> Judged:
    """What keys open."""
    made = _ByKeys(packets, opener)
    search = Search(made.configuration())
    groups = Explanation(made.unopened, search, lambda *_: None).groups
    search.close()
    all_of = made.summaries.items()
    summary: list[dict[str, object]] = [
        {"association": dict(it.as_dict(), key=key)} for key, each in all_of for it in each.associations.values()
    ]
    summary += [it for it in made.summaries[""].as_dicts() if "ethertype" in it]
    lines = [f"{line}, {key}" if key else line for key, each in all_of for line in each.lines()]
    twice: Sequence[UsedTwice] = opener.ivs.twice
    keys = _asked_keys(groups, made.unopened.first_opened)
    asks = [*keys, *(opener.hints() if keys else ()), *made.unseen.hints()]
    is_bad = bool(twice or made.unseen.has_protected or any(it.an is not None for it in groups))
    return Judged(
        made.drawn, _listed(objects_of(twice, summary, made.unseen, groups)),
        lines_of_all(twice, lines, made.unseen, groups), made.events.all, asks, {}, None, is_bad, groups, twice,
    )  # fmt: skip
