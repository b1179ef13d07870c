"""Opens the frames of a capture under any of several keys: both directions, and rekeys that return to an association
number. The library judges each frame; this chooses what it is asked."""

from __future__ import annotations

import dataclasses
from collections import OrderedDict
from collections.abc import Iterator, Sequence
from typing import Any, Callable, NamedTuple

from .attempts import Attempt, Effort, Frame, Keys, Known, Place, usual_attempts, wide_attempts
from .cak import Cak, KeyAgreements, mkpdus_text
from .errors import FrameFault
from .frames import MACSEC, SecTag, has_fcs, head_of, new_tuple, octets_after, pn_of, read_tag, sender_of, without_vlan
from .hints import Hints
from .ivs import Sender, UsedIvs
from .names import Suite, Verdict
from .trial import OPENED, KeyArgument, Trial, Trials

# How many associations of a sender, and how many senders with their association numbers, are kept.
_MOST_LIVE, _MOST_STREAMS, _MOST_HEADS = 8, 65_536, 4096
# How many frames of an association that never opened, and of all, are searched widely; and for how many that is more.
_WIDE_SEARCHES, _WIDE_SEARCHES_OF_ALL, _WIDER_SEARCHES = 3, 20, 1
_FCS = 4


class Opened(NamedTuple):
    """What became of a record. `frame` is the client's, or what was captured if it is not opened. `iv_also_in` is a
    record with the same IV under the same key and other octets, of another capture as text.
    """

    frame: bytes
    state: str  # "opened", "not opened", "not protected"
    verdict: str = ""
    sci: str = ""
    an: int | None = None
    pn: int | None = None
    key: str = ""
    iv_also_in: int | str | None = None
    note: str = ""

    @property
    def comment(self) -> str:
        """A line about it."""
        _, state, verdict, sci, an, pn, key, iv_also_in, note = self
        if an is None:
            return f"macsec: {state}"
        what = verdict if state == "opened" else f"{state} ({verdict})"
        whose = f"macsec: {what}, SCI {sci}, AN {an}{'' if pn is None else f', PN {hex(pn)}'}{', ' if key else ''}{key}"
        if iv_also_in is None and not note:
            return whose
        twice = "" if iv_also_in is None else f"; IV USED TWICE: also in record {iv_also_in}"
        return f"{whose}{twice}{'; ' if note else ''}{note}"


@dataclasses.dataclass(eq=False)
class Live:
    """An association that has opened frames, how many octets are cut off at their end, whose IVs they use, how it is
    shown, a note if their tags mean another SCI than the IVs have, and what judges its frames."""

    trial: Trial
    cut: int
    sender: Sender
    shown: str
    note: str
    judged: Callable[[bytes], Sequence[Any]]

    def __post_init__(self) -> None:
        self.an, self.is_extended = self.trial.an, self.trial.is_extended


class _Stream:
    """The frames of one sender and association number."""

    def __init__(self) -> None:
        self.live: list[Live] = []
        self.failures = 0
        self.upper = 0

    def keep(self, live: Live) -> None:
        """Puts an association first."""
        self.live = [live, *(it for it in self.live if it is not live)]
        for old in self.live[_MOST_LIVE:]:
            old.trial.close()
        del self.live[_MOST_LIVE:]


class Event(NamedTuple):
    """From this record on, an association uses this key."""

    record: int
    sci: str
    an: int
    key: str

    def __str__(self) -> str:
        return f"record {self.record}: SCI {self.sci} AN {self.an} under {self.key}"


def _shown_sci(sci: bytes, is_guess: bool) -> str:
    """An SCI; in parentheses if neither the tag nor the IV has it, so that it is a guess from the source address."""
    return f"({sci.hex()})" if is_guess else sci.hex()


class Opener:
    """Opens frames under keys, and notes their IVs. `ivs` has the IVs of an earlier run over the same capture. Keys of
    `caks` come with the frames of MKA that distribute them."""

    def __init__(
        self,
        keys: Sequence[KeyArgument],
        suite: Suite | None = None,
        offset: int | None = None,
        ivs: UsedIvs | None = None,
        caks: Sequence[Cak] = (),
    ) -> None:
        self._keys = Keys(keys, suite, offset)
        self._streams: OrderedDict[tuple[bytes, bool, int], _Stream] = OrderedDict()
        # The stream of frames with a head, and the tag of the first one of them.
        self._heads: dict[bytes, tuple[SecTag, _Stream]] = {}
        self._trials = Trials()
        self._effort = Effort(len(keys))
        self._wide_searches = 0
        # Of the last search: was it wide, was it still wider, and was something left out?
        self._widths = False, False, False
        self._hints = Hints()
        self.agreements = KeyAgreements(caks)
        self._known = Known(self.agreements.scis, {}, self.agreements.uppers)
        self.ivs = ivs or UsedIvs()
        self.events: list[Event] = []
        # How the last frame was opened, or None; and its tag, if what was captured is no longer than what opened.
        self.last: Live | None = None
        self.tag: SecTag | None = None
        self._latest: dict[tuple[str, int], str] = {}

    def open(self, record: int, frame: bytes, fcs: int = 0) -> Opened:
        """Opens a frame, whose last octets can be announced as a frame check sequence."""
        self.last = self.ivs.last = self.tag = None
        is_cut = bool(fcs) or has_fcs(frame)
        whole = plain = frame[:-_FCS] if is_cut else frame
        tags = b""
        known = self._heads.get(head_of(whole))
        if known is not None:
            tag, stream = known
            (pn,) = pn_of(whole)
        else:
            plain, tags = (whole, b"") if whole[12:14] == MACSEC else without_vlan(whole)
            read = read_tag(plain)
            if read is None:
                self._read_mka(record, whole)
                state = "not opened" if plain[12:14] == MACSEC else "not protected"
                return Opened(whole, state)
            tag, pn = read, read.pn
            stream = self._stream(plain, tag)
        try:
            for live in stream.live:
                opened = self._under(record, live, stream, plain, tag, pn, tags)
                if opened:
                    self.tag = tag if plain is frame and not live.cut else None
                    return opened
            it = Frame(plain, tag._replace(pn=pn))
            # A frame that is too long with its last octets may not be so without them.
            self._trials.check(plain if is_cut else plain[:-_FCS])
            # What is cut off can have what a tap adds after a frame check sequence.
            cuts = (0,) if is_cut else (0, _FCS, octets_after(frame))
            return self._found(record, stream, it, tags, cuts) or self._failed(record, stream, whole, it)
        except FrameFault as why:
            shown = _shown_sci(sender_of(plain, tag), tag.names_nobody)
            return Opened(whole, "not opened", why.name, shown, tag.an, pn)

    def _stream(self, plain: bytes, tag: SecTag) -> _Stream:
        """The stream of a frame whose head is new."""
        place = tag.sci or plain[6:12], tag.sci is None, tag.an
        stream = self._streams.get(place) or _Stream()
        self._streams[place] = stream
        if len(self._streams) > _MOST_STREAMS or len(self._heads) > _MOST_HEADS:
            self._heads.clear()
        if len(self._streams) > _MOST_STREAMS:
            # A capture without an end can have any number of senders. One that comes again is searched for again.
            for live in self._streams.popitem(last=False)[1].live:
                live.trial.close()
        if tag.sci:
            self._heads[head_of(plain)] = tag, stream
        return stream

    def _read_mka(self, record: int, frame: bytes) -> None:
        """Takes a key from a frame of MKA."""
        key = self.agreements.add(record, frame)
        if key is not None:
            self._keys.add(key)
            self._effort.add_key()

    def _found(self, record: int, stream: _Stream, frame: Frame, tags: bytes, cuts: Sequence[int]) -> Opened | None:
        """Opens a frame that no association of its stream opens under another key."""
        found = self._search(stream, frame, cuts)
        if found is None:
            return None
        attempt, cut = found
        trial = attempt.trial(frame)
        self._keys.opened(trial.key.name)
        self._known.note(trial, attempt.upper)
        is_guess = frame.names_nobody and trial.key.suite.is_extended
        event = Event(record, _shown_sci(trial.sci_of_iv or trial.sci, is_guess), frame.tag.an, trial.key.name)
        # Under an extended suite the SSCI says who sends, whatever the source address is.
        place = f"{trial.ssci:08x}" if is_guess else event.sci, event.an
        if self._latest.get(place) != event.key:
            self.events.append(event)
            self._latest[place] = event.key
        sci, note = trial.sci, ""
        if trial.sci_of_iv is not None:
            sci, note = (trial.sci_of_iv, f"its IV has this SCI, its tag means {trial.sci.hex()}")
        sender = self.ivs.sender(trial.key, sci, trial.ssci)
        # The first frame has opened: what a trial has to note by `receive` is noted.
        judged = trial.secy.judged if trial.sci_of_iv is None else trial.receive
        live = Live(trial, cut, sender, _shown_sci(sci, is_guess), note, judged)
        return self._under(record, live, stream, *frame, frame.tag.pn, tags)

    def _under(
        self, record: int, live: Live, stream: _Stream, plain: bytes, tag: SecTag, pn: int, tags: bytes
    ) -> Opened | None:
        """Opens a frame under an association. The packet number is not that of `tag`, which can be an earlier one's."""
        cut, sender, shown, number = live.cut, live.sender, live.shown, pn
        octets = plain[: len(plain) - cut] if cut else plain
        verdict, frame, _, _, _ = live.judged(octets)
        if verdict not in OPENED or frame is None:
            return None
        if not stream.live or stream.live[0] is not live:
            stream.keep(live)
        stream.failures = 0
        self.last = live
        if live.is_extended:
            number = live.trial.packet_number(pn)
            stream.upper = number >> 32
            shown = _shown_sci(sender.sci, tag.names_nobody)
        client = frame[:12] + tags + frame[12:] if tags else frame
        again = self.ivs.add(record, sender, number, octets, tag)
        other, name = again[1] if again else None, sender.key.name
        made: Opened = new_tuple(
            Opened, (client, "opened", verdict._name_, shown, live.an, number, name, other, live.note)
        )
        return made

    def _failed(self, record: int, stream: _Stream, whole: bytes, frame: Frame) -> Opened:
        """A frame that no key opens: its verdict is that under the first one which it can have."""
        stream.failures += 1
        found: Verdict | None = None
        for _, key in self._keys.fitting(frame):
            found = self._trials.verdict(key, frame.meant, frame.tag.an, frame.octets, 1)
            break
        verdict = found.name if found else Verdict.NoSAError.name
        self._hints.add(record, frame, verdict, len(self._keys), *self._widths)
        shown = _shown_sci(frame.meant, frame.names_nobody)
        return Opened(whole, "not opened", verdict, shown, frame.tag.an, frame.tag.pn)

    # The search.

    def _search(self, stream: _Stream, frame: Frame, cuts: Sequence[int]) -> tuple[Attempt, int] | None:
        """A setting under which a frame opens, and how many octets of `cuts` are cut off at its end."""
        failures = stream.failures
        is_wide = not stream.live and failures < _WIDE_SEARCHES and self._wide_searches < _WIDE_SEARCHES_OF_ALL
        is_wider = is_wide and failures < _WIDER_SEARCHES
        self._wide_searches += is_wide
        self._effort.begin()
        for cut in dict.fromkeys(cuts):
            octets = frame.octets[: len(frame.octets) - cut] if cut else frame.octets
            if len(octets) < 14 or read_tag(octets) is None:
                continue
            # Likely and usual settings with the octets cut off come before all others of the whole frame.
            place = Place(stream.upper, is_wide and not cut)
            found = self._first_that_opens(usual_attempts(self._keys, frame, self._known, place), frame, octets)
            if found:
                return found, cut
        found = (
            self._first_that_opens(wide_attempts(self._keys, frame, self._known), frame, frame.octets)
            if is_wider
            else None
        )
        self._widths = is_wide, is_wider, self._effort.is_spent
        return (found, 0) if found else None

    def _first_that_opens(self, settings: Iterator[Attempt], frame: Frame, octets: bytes) -> Attempt | None:
        for it in settings:
            if not self._effort.take(it.key, octets):
                return None
            if it.opens(self._trials, frame.tag.an, octets):
                self._effort.refund()
                return it
        return None

    def hints(self) -> list[str]:
        """What was tried for the frames that did not open, and what was not."""
        found = self._hints.lines(self._keys)
        count = self.agreements.seen
        if found and count and not self.agreements.has_caks:
            found.append(f"the capture has {mkpdus_text(count)}: with the CAK, --cak takes the keys from them")
        return found + self.agreements.notes()

    def close(self) -> None:
        """Closes all endpoints."""
        self._trials.close()
        for stream in self._streams.values():
            for live in stream.live:
                live.trial.close()
