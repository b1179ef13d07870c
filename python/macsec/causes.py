"""Why a frame is not delivered: found by asking the library about other settings, those first that opened other frames
of its association; then by what its data show; then one change at a time or several, for few frames."""

from __future__ import annotations

import dataclasses
import itertools
from collections.abc import Iterator, Sequence
from typing import Optional

from .altered import AGAINST_BITS, altered, cut_of, data_under, is_sealed, packet_of, too_short
from .alternatives import SSCIS, UPPER_HALVES, WIDE, Alternatives, Shown, trailer
from .associations import Associations
from .endpoint_of_config import Configuration
from .frames import SecTag, read_tag, without_vlan
from .names import Mode, Verdict
from .settings import Change, Found, Option, Setting, changed, go_together
from .trial import OPENED, Key, KeyArgument, Trials
from .ways import MOST_WAYS, Way, covers_all, data_octets, near

# How many settings a run tries at first, and for each frame; how many searches of it may be wide; and of how many
# senders it keeps what is known.
_MOST_TRIES, _FOR_A_FRAME, _MOST_WIDE, _MOST_PLACES = 200_000, 4, 1, 256
# How many frames of a sender and association number are searched for in vain, and how many of a run; for how many more
# few settings are tried. How many settings with other addresses are tried in vain for readable frames.
_MOST_SEARCHES, _MOST_SEARCHES_OF_ALL, _MOST_QUICK, _MOST_QUICK_OF_ALL, _MOST_ADDRESSES = 4, 16, 64, 1024, 4_000
# How many settings can open a frame without changes, how many are asked what its data show, and how many keys are.
_MOST_STARTS, _MOST_LOOKS, _MOST_KEYS, _LONGEST_TRAILER = 16, 4, 8, 64
# Causes after which a frame is still one of the association that CONFIG has.
_OF_THE_SAME_NUMBERS = {"fcs", "padding", "cut", "altered", "address", "bits"}
_REPLAY = Change("replay", "replay protection is on: the frame repeats an accepted one or is late")
# Why frames of a sender are not opened: in the usual way, since CONFIG has no association, or by the mode of CONFIG.
_USUAL, _LACKING, _DISABLED = _STATES = ("usual", "lacking", "disabled")
# An SCI, or a source address or EtherType, and an association number.
Sender = tuple[str, Optional[int]]


@dataclasses.dataclass
class _Place:
    """What is known of the frames of one sender and association number. `before` is why CONFIG opens none of them, if
    that is known; `starts` are what it opens them under, or what is likely; `ways` opened some. Numbers are of frames
    for which all was tried in vain, or a part, and of addresses; `is_wide`: was what takes long tried, too?"""

    before: tuple[Change, ...] = ()
    starts: Sequence[Setting] = ()
    line: int | None = None
    lowest: int = 0
    is_wide: bool = False
    ways: list[Way] = dataclasses.field(default_factory=list)
    in_vain: int = 0
    quick: int = 0
    addresses: int = 0

    def keep(self, way: Way) -> None:
        """Puts a way first."""
        self.ways = [way, *(it for it in self.ways if it is not way)]
        for old in self.ways[MOST_WAYS:]:
            old.close()
        del self.ways[MOST_WAYS:]

    def close(self) -> None:
        """Closes the endpoints of the ways."""
        for way in self.ways:
            way.close()


class _Asked:
    """A frame without VLAN tags before its SecTAG, where it belongs, and the settings that are tried first."""

    def __init__(self, frame: bytes, tag: SecTag, verdict: Verdict, place: _Place, next_number: int | None) -> None:
        self.frame, self.tag, self.verdict, self.place = frame, tag, verdict, place
        self.starts, few = place.starts, place.starts[:_MOST_STARTS]
        if next_number is not None:
            self.starts = [near(it, tag.pn, next_number) for it in place.starts]
        # And as CONFIG has them before any frame.
        self.alone = list(dict.fromkeys([*self.starts[:_MOST_STARTS], *few]))

    @property
    def has_good_tag(self) -> bool:
        """Does a receiver take its SecTAG? Its sender can have made another one."""
        return self.verdict not in (Verdict.BadTag, Verdict.Reserved)

    @property
    def is_low(self) -> bool:
        """Is the packet number lower than CONFIG accepts?"""
        return bool(self.starts) and self.starts[0].upper << 32 | self.tag.pn < self.place.lowest


class Search:
    """Searches for the causes of frames under one CONFIG. `shown` is what the capture shows."""

    def __init__(self, configuration: Configuration) -> None:
        self.configuration, self.trials, self.shown = configuration, Trials(), Shown()
        self._more_keys: list[tuple[Key, int | None]] = []
        self._ways = Alternatives(configuration, self._more_keys, self.shown)
        self._associations = Associations(configuration, self._ways.keys)
        self._places: dict[tuple[Sender, str], _Place] = {}
        # The source addresses of frames that are read under a setting.
        self._sources: set[bytes] = set()
        self._left, self._wide_left = _MOST_TRIES, _MOST_WIDE
        self._in_vain = self._quick = 0
        self._is_disabled = configuration.secy.options().mode == Mode.disabled

    def add_key(self, argument: KeyArgument, name: str) -> None:
        """Adds a key that is tried too, with what is known of it."""
        suite, offset, salt = argument.suites()[0], argument.offset or 0, argument.salt or bytes(12)
        self._more_keys.append((Key(argument.octets, suite, offset, salt, name), argument.an))
        self.shown.add_key(argument)

    def note_opened(self, frame: bytes) -> None:
        """Notes a frame that CONFIG opens."""
        self._sources.add(frame[6:12])

    def setting(self, sci: bytes, an: int) -> Setting | None:
        """What CONFIG opens the frames of an association under; None if it has none."""
        return self._associations.setting(sci, an)

    def close(self) -> None:
        """Closes all endpoints."""
        self.trials.close()
        for place in self._places.values():
            place.close()

    # The causes of a verdict.

    def of(self, frame: bytes, verdict: Verdict, sender: Sender, next_number: int | None) -> Found | None:
        """Why a frame has a verdict that CONFIG gave it; None if nothing that was tried explains it. `next_number` is
        the whole packet number that its association expected, if it has one."""
        plain, tags = without_vlan(frame)
        tag = read_tag(plain)
        self._left += _FOR_A_FRAME
        if tag is None:
            return _behind(tags, None)
        if tags:
            found = self.again(frame, verdict, sender, next_number)
            if found:
                return found
            verdict = self.configuration.alone(plain).verdict
        found = self._of_plain(plain, tag, verdict, sender, next_number, bool(tags))
        if found and (found.setting or "altered" in [it.cause for it in found.changes]):
            self._sources.add(plain[6:12])
        return _behind(tags, found)

    def again(self, frame: bytes, verdict: Verdict, sender: Sender, next_number: int | None) -> Found | None:
        """The same, if a way opens the frame that opened another one."""
        plain, tags = without_vlan(frame)
        for asked in self._asked(plain, verdict, sender, next_number):
            found = self._by_ways(asked)
            if found:
                is_late = verdict == Verdict.Late or bool(tags) and asked.is_low
                return _behind(tags, self._and_late(asked, found) if is_late else found)
        return None

    def _asked(self, plain: bytes, verdict: Verdict, sender: Sender, next_number: int | None) -> Iterator[_Asked]:
        """A frame in each place of its sender."""
        tag = read_tag(plain)
        for state in _STATES if tag else ():
            place = self._places.get((sender, state))
            if tag and place:
                yield _Asked(plain, tag, verdict, place, next_number)

    def in_vain(self, sender: Sender) -> int:
        """How many frames of a sender and association number were searched for in vain, with all settings."""
        return sum(self._places[sender, state].in_vain for state in _STATES if (sender, state) in self._places)

    def _of_plain(
        self, frame: bytes, tag: SecTag, verdict: Verdict, sender: Sender, next_number: int | None, is_alone: bool
    ) -> Found | None:
        """The same, of a frame without VLAN tags before its SecTAG. Has it the verdict if it is the first one?"""
        cut = cut_of(frame, tag) if verdict == Verdict.BadTag else None
        if cut:
            return cut
        place = self._place(frame, tag, verdict, sender)
        asked = _Asked(frame, tag, verdict, place, next_number)
        if verdict == Verdict.Late and (not is_alone or asked.is_low):
            return self._late(asked)
        return self._searched(asked) or (Found(place.before, is_partial=True) if place.before else None)

    def _place(self, frame: bytes, tag: SecTag, verdict: Verdict, sender: Sender) -> _Place:
        """What is known of the sender of a frame, which can be nothing so far."""
        lacks = verdict in (Verdict.NoSAError, Verdict.NoSA)
        is_disabled = self._is_disabled and verdict in (Verdict.NotValid, Verdict.Unchecked)
        key = sender, _LACKING if lacks else _DISABLED if is_disabled else _USUAL
        if key not in self._places:
            self._places[key] = self._lacking(frame, tag) if lacks else self._usual(frame, tag, is_disabled)
            if len(self._places) > _MOST_PLACES:
                self._places.pop(next(iter(self._places))).close()
        return self._places[key]

    def _lacking(self, frame: bytes, tag: SecTag) -> _Place:
        associations = self._associations
        return _Place((associations.why_none(frame, tag),), associations.likely(frame, tag))

    def _usual(self, frame: bytes, tag: SecTag, is_disabled: bool) -> _Place:
        row = self._associations.row_of(frame, tag)
        setting = self._associations.setting_of(row) if row else None
        if row is None or setting is None:
            return _Place()
        text = "validate disabled: no ICV is checked, and no frame with E is opened"
        before = (Change("mode", text, self.configuration.line_of_validate()),) if is_disabled else ()
        return _Place(before, [setting], self.configuration.line_of_rxsa(row.sci, row.an), row.sa.lowest)

    def _late(self, asked: _Asked) -> Found | None:
        """Of a frame that is late: its ICV was not checked."""
        if self.configuration.alone(asked.frame).verdict in OPENED:
            return Found((_REPLAY,))
        found = self._searched(asked, 2)
        return self._and_late(asked, found) if found else None

    def _and_late(self, asked: _Asked, found: Found) -> Found:
        """The causes of a frame that is late, too."""
        if found.number is not None and found.number >> 32 > asked.starts[0].upper:
            # It is not late: the receiver takes it for one of an earlier upper half.
            return found
        if self.configuration.alone(asked.frame).verdict == Verdict.Late and asked.is_low:
            late = Change("pn", f"a lower packet number than 0x{asked.place.lowest:x} in rxsa", asked.place.line)
            return found._replace(changes=(late, *found.changes))
        if {it.cause for it in found.changes} <= _OF_THE_SAME_NUMBERS:
            return found._replace(changes=(_REPLAY, *found.changes))
        # Another key or IV begins with numbers of its own.
        return found

    def _searched(self, asked: _Asked, most: int = 3) -> Found | None:
        found = self._by_ways(asked)
        if found:
            return found
        for start in asked.alone:
            if self._opens(start, asked.frame):
                return self._new_way(asked, start, ())
        shown = self._by_data(asked)
        return shown or self._by_search(asked, most)

    # What opened other frames.

    def _by_ways(self, asked: _Asked) -> Found | None:
        start = asked.starts[0] if asked.starts else None
        for way in asked.place.ways:
            found = way.open(asked.frame, asked.tag, start, self.trials)
            if found:
                asked.place.keep(way)
                return found
        return None

    def _new_way(self, asked: _Asked, base: Setting, chosen: Sequence[Option]) -> Found:
        """Keeps the changes of a setting that open a frame."""
        setting = changed(base, chosen)
        assert setting is not None
        before = self._before(asked.place.before, setting, [it.cause for it, _ in chosen])
        way = Way(base, chosen, setting, before)
        asked.place.keep(way)
        found = way.open(asked.frame, asked.tag, None, self.trials)
        return found or Found((*before, *(it for it, _ in chosen)), setting)

    def _before(self, before: tuple[Change, ...], setting: Setting, causes: Sequence[str]) -> tuple[Change, ...]:
        """Why CONFIG does not open a frame that a setting opens, if its changes do not say that."""
        change = before[0] if before else None
        if change is None or change.cause == "sci" and {"iv-sci", "address"} & set(causes):
            return ()
        if change.cause == "channel":
            return change, Change("channel", f"it opens as a frame of SCI {setting.sci.hex()}")
        if not causes:
            change = self._associations.with_hint(change)
        if "key" in causes:
            return (change,)
        return (change._replace(text=f"{change.text}; it opens under {setting.key.name}"),)

    # What data show.

    def _by_data(self, asked: _Asked) -> Found | None:
        """What the data of a frame show that no such setting opens."""
        seen = set()
        for base, chosen, setting in self._looks(asked):
            if setting is not None and setting not in seen:
                seen.add(setting)
                found = self._shown_under(asked, base, chosen, setting)
                if found:
                    return found
        return self._of_another_sender(asked)

    def _of_another_sender(self, asked: _Asked) -> Found | None:
        """A frame whose SCI was altered: its data can be read under an SCI of CONFIG."""
        before, tag = asked.place.before, asked.tag
        if tag.sci is None or "sci" not in [it.cause for it in before] or not tag.tci & 8 or not asked.has_good_tag:
            return None
        for setting in self._associations.settings(tag.an)[:_MOST_LOOKS]:
            packet = packet_of(data_under(asked.frame, tag, setting, True))
            if packet and not setting.key.offset and not is_sealed(asked.frame, tag, setting, True):
                return Found((*before, altered(setting, packet.name)))
        return None

    def _looks(self, asked: _Asked) -> Iterator[tuple[Setting, tuple[Option, ...], Setting | None]]:
        """The settings under which data are looked at, and of what they are changes."""
        known: list[tuple[Setting, tuple[Option, ...], Setting | None]]
        known = [(it, (), it) for it in asked.starts[:_MOST_LOOKS]]
        known += [(way.base, *way.of_keys(asked.tag)) for way in asked.place.ways]
        yield from known
        if not asked.tag.tci & 8 or not packet_of(asked.frame[asked.tag.end :]):
            return
        # A packet begins in clear although E is set.
        for base, chosen, setting in known:
            if setting is not None and not setting.key.offset and not setting.key.suite.is_extended:
                for option in self._ways.offsets(setting):
                    yield base, (*chosen, option), changed(setting, (option,))

    def _shown_under(self, asked: _Asked, base: Setting, chosen: tuple[Option, ...], setting: Setting) -> Found | None:
        """Opens a frame under changes that others needed with more, or looks at its data under them."""
        frame, tag = asked.frame, asked.tag
        base = base._replace(upper=setting.upper)
        if chosen and self._opens(setting, frame) and not covers_all(setting, frame):
            return self._new_way(asked, base, chosen)
        before, changes = asked.place.before, tuple(it for it, _ in chosen)
        is_encrypted = bool(tag.tci & 8)
        # Data that are not encrypted can be read under every key.
        is_right = is_encrypted and not setting.key.offset
        data = data_under(frame, tag, setting, is_encrypted)
        packet = packet_of(data)
        if packet is None or is_encrypted and not is_right:
            change = self._against_bits(asked, setting, False)
            if change or packet is None:
                return Found((*before, *changes, change)) if change else None
        has = data_octets(frame, tag)
        missing = packet.octets - has if not tag.sl else 0
        if missing > 0 and not (is_right and packet.can_be_altered(missing)):
            return Found((*before, *(changes if is_right else ()), too_short(packet.name, missing)), missing=missing)
        option = self._trailer(asked, setting, data[packet.octets : has])
        if is_right and not option:
            option = self._addresses(asked, setting)
        if option:
            return self._new_way(asked, base, (*chosen, option))
        # With a bad SecTAG, that data can be read does not show that they were altered.
        if not is_right or self.is_spent or not asked.has_good_tag or not (tag.pn or setting.key.suite.is_extended):
            return None
        return Found((*before, *changes, altered(setting, packet.name)), missing=-max(missing, 0))

    def _against_bits(self, asked: _Asked, setting: Setting, is_search: bool) -> Change | None:
        """Is a frame encrypted although its bits say that it is not, or the other way round?"""
        frame, tag = asked.frame, asked.tag
        if not asked.has_good_tag:
            return None
        is_encrypted = not tag.tci & 8
        packet = packet_of(data_under(frame, tag, setting, is_encrypted))
        if packet is None and not is_search:
            return None
        if is_sealed(frame, tag, setting, is_encrypted):
            return Change("bits", AGAINST_BITS[is_encrypted])
        if packet is None or not is_encrypted or setting.key.offset:
            return None
        return altered(setting, packet.name)

    def _trailer(self, asked: _Asked, setting: Setting, rest: bytes) -> Option | None:
        """Octets after the ICV, if there are octets after the packet in the data."""
        if asked.tag.sl or not rest:
            return None
        # Before a trailer are octets of an ICV, or of another trailer. Zeros are the client's padding.
        counts = [len(rest), 4, *range(1, _LONGEST_TRAILER + 1)] if any(rest[-3:]) else [1, 2, 3]
        for count in dict.fromkeys(counts):
            if count <= len(rest) and self._opens(setting._replace(cut=count), asked.frame):
                return trailer(count)
        return None

    def _addresses(self, asked: _Asked, setting: Setting) -> Option | None:
        """Other addresses of a frame."""
        place, left = asked.place, self._left
        if place.addresses >= _MOST_ADDRESSES:
            return None
        for option in self._ways.addresses(setting, asked.frame):
            if self._opens(changed(setting, (option,)), asked.frame):
                return option
        place.addresses += left - self._left
        return None

    # The search.

    @property
    def is_spent(self) -> bool:
        """Was something left out, since the run had tried enough?"""
        return self._left <= 0

    def _opens(self, setting: Setting | None, frame: bytes) -> bool:
        """Does a frame open so? Nothing is tried once the run has tried enough."""
        if setting is None or self._left <= 0:
            return False
        self._left -= 1 + len(frame) // 800
        return setting.opens(self.trials, frame)

    def _by_search(self, asked: _Asked, most: int) -> Found | None:
        """Tries changes: many for the first frames that nothing explains, few for some more."""
        place = asked.place
        is_full = place.in_vain < _MOST_SEARCHES and self._in_vain < _MOST_SEARCHES_OF_ALL
        if not is_full and (place.quick >= _MOST_QUICK or self._quick >= _MOST_QUICK_OF_ALL):
            return None
        found = self._by_changes(asked, most if is_full else 0)
        if found:
            return found
        for start in asked.starts[:_MOST_LOOKS]:
            change = self._against_bits(asked, start, True)
            if change:
                return Found((*place.before, change))
        found = self._under_other_keys(asked)
        if found is None:
            place.in_vain, self._in_vain = place.in_vain + is_full, self._in_vain + is_full
            place.quick, self._quick = place.quick + 1, self._quick + 1
        return found

    def _by_changes(self, asked: _Asked, most: int) -> Found | None:
        """The fewest changes of a likely setting."""
        place, best = asked.place, None
        starts = asked.starts if place.before else asked.alone
        for number, start in enumerate(starts if most else starts[:2]):
            # Where CONFIG has no association, its first likely setting can need two changes and the others one.
            chosen = self._changes(asked, start, min(most, 1 if number else 2) if place.before else most)
            if chosen is not None and (best is None or len(chosen) < len(best[1])):
                best = start, chosen
                if len(chosen) < 2:
                    break
        return self._new_way(asked, *best) if best else None

    def _under_other_keys(self, asked: _Asked) -> Found | None:
        """What the data of a frame show under the other keys."""
        for start in asked.starts[:1]:
            options = self._ways.usual(start, asked.place.line, asked.frame, asked.tag, False)["key"][:_MOST_KEYS]
            for option in options:
                setting = changed(start, (option,))
                found = self._shown_under(asked, start, (option,), setting) if setting else None
                if found:
                    return found
        return None

    def _changes(self, asked: _Asked, base: Setting, most: int) -> tuple[Option, ...] | None:
        """The fewest changes of a setting under which a frame opens, up to `most`; few are tried if that is 0."""
        if self._opens(base, asked.frame):
            return ()
        if not most:
            return self._few_changes(asked, base)
        for count in range(1, most + 1):
            options = self._ways.usual(base, asked.place.line, asked.frame, asked.tag, count == 1)
            for ways in itertools.combinations(options, count):
                if go_together(base, ways):
                    for chosen in itertools.product(*(options[it] for it in ways)):
                        if self._opens_by(asked, base, chosen):
                            return chosen
            if count == 1:
                for option in self._ways.addresses(base, asked.frame):
                    if self._opens_by(asked, base, (option,)):
                        return (option,)
        return None

    def _few_changes(self, asked: _Asked, base: Setting) -> tuple[Option, ...] | None:
        """Changes that are likely of one frame among others: a setting; and if CONFIG has an association, a frame check
        sequence with it, a trailer, or other addresses."""
        options = self._ways.usual(base, asked.place.line, asked.frame, asked.tag, False)
        has_association, fcs = not asked.place.before, trailer(4)
        for option in itertools.chain.from_iterable(it for way, it in options.items() if go_together(base, [way])):
            for chosen in ((option,), (option, fcs)) if has_association else ((option,),):
                if self._opens_by(asked, base, chosen):
                    return chosen
        for count in range(1, _LONGEST_TRAILER + 1) if has_association and not asked.tag.sl else ():
            if self._opens(base._replace(cut=count), asked.frame):
                return (trailer(count),)
        sent = self._addresses(asked, base) if has_association else None
        return (sent,) if sent else None

    def _opens_by(self, asked: _Asked, base: Setting, chosen: tuple[Option, ...]) -> bool:
        """Do these changes open a frame, each of them for a reason?"""
        made = changed(base, chosen)
        if made is None or not self._opens(made, asked.frame):
            return False
        return not (any("offset" in given for _, given in chosen) and covers_all(made, asked.frame))

    def widely(self, frame: bytes, verdict: Verdict, sender: Sender, next_number: int | None) -> Found | None:
        """The cause of a frame by the changes that take long to try: once in vain, and not if frames of its source are
        known to be read so."""
        plain, tags = without_vlan(frame)
        if plain[6:12] in self._sources:
            return None
        for asked in self._asked(plain, verdict, sender, next_number):
            for start in asked.starts[:_MOST_LOOKS]:
                option = self._widely(asked, start) if self._wide_left else None
                if option:
                    return _behind(tags, self._new_way(asked, start, (option,)))
        return None

    def _widely(self, asked: _Asked, base: Setting) -> Option | None:
        for change, given in self._ways.wide(base, asked.place.line, asked.frame, asked.tag):
            asked.place.is_wide = True
            if self._opens(changed(base, ((change, given),)), asked.frame):
                # A frame whose tag names nobody opens under the SCI of its IV.
                return change, {"sci": given["iv_sci"]} if "iv_sci" in given and asked.tag.names_nobody else given
        self._wide_left -= asked.place.is_wide
        return None

    def tried(self, frame: bytes, sender: Sender) -> str:
        """What was tried for a frame that no change opens, at most."""
        plain, _ = without_vlan(frame)
        tag, place = read_tag(plain), self._places.get((sender, _USUAL))
        if tag is None or place is None or not place.starts:
            return ""
        base = place.starts[0]
        parts = ["all keys of CONFIG and of the options", "the other suite of the key's length"]
        if base.key.suite.is_extended:
            uppers, sscis = (WIDE, WIDE) if place.is_wide else (UPPER_HALVES, SSCIS + 1)
            parts += ["the salt reversed", f"upper halves below 0x{uppers:x}, SSCIs below 0x{sscis:x}"]
        else:
            parts.append("offsets 0, 30 and 50")
            if tag.sci is None:
                parts.append("all ports of the source address" if place.is_wide else "its usual ports")
        parts += ["addresses that the capture shows", "up to 64 octets cut off"]
        cut = "; the search was cut short" if self.is_spent else ""
        return f"{', '.join(parts)}{cut}"


def _behind(tags: bytes, found: Found | None) -> Found | None:
    """What was found of a frame, with the VLAN tags before its SecTAG."""
    if not tags:
        return found
    change = Change("vlan", f"without the VLAN tag {tags.hex()} before the SecTAG")
    return found._replace(changes=(change, *found.changes)) if found else Found((change,), is_partial=True)
