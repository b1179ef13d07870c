"""Families of names that many files have: counters, statuses (of which 1 to 20 are the refusals of commands), faults of
events, verdicts, fates, suites, commands, requests and the counters of the device. tools/families.json has them.

made.py makes parts of files from them. Proofs and what is proved keep definitions of their own, and so does the device
where it is code: `faults` compares these with the data."""

from __future__ import annotations

import functools
import json
import re
from collections.abc import Iterator
from typing import Any

from house import ROOT

FILE = ROOT / "tools/families.json"
# The names in the proved sources of what the data call otherwise.
SPELLED = {"Done": "OK", "None": "NotFound", "NewMemory": "Memory", "Passed": "OK"}

Member = dict[str, Any]


@functools.cache
def families() -> dict[str, list[Member]]:
    """The families. A text that the file divides into lines is one text."""
    found = json.loads(FILE.read_text(encoding="utf-8"))
    texts = {"page", "manual", "remedy", "differs", "header", "counts"}
    return {
        name: [
            {key: " ".join(it) if key in texts and isinstance(it, list) else it for key, it in each.items()}
            for each in rows
        ]
        for name, rows in found.items()
        if isinstance(rows, list) and isinstance(rows[0], dict)
    }


def family(name: str, **having: object) -> list[Member]:
    """The members of a family that have these values."""
    return [it for it in families()[name] if all(it.get(key) == value for key, value in having.items())]


def names(name: str, **having: object) -> list[str]:
    """The names of these members."""
    return [it["name"] for it in family(name, **having)]


def refusals() -> list[Member]:
    """The statuses that are refusals of commands."""
    return [it for it in family("statuses") if 1 <= it["number"] <= 20]


def text_faults() -> list[Member]:
    """The statuses that are faults of a line or a text."""
    return [it for it in family("statuses") if 46 <= it["number"] <= 52]


def verdicts() -> list[Member]:
    """The verdicts of the standard, which counters count."""
    return [it for it in family("verdicts") if it["clause"]]


def suites() -> list[Member]:
    """The cipher suites, without the number by which a key names none."""
    return [it for it in family("suites") if it["number"]]


# The comparison with the sources.


def text_of(path: str) -> str:
    return (ROOT / path).read_text(encoding="utf-8")


def part_of(path: str, form: str) -> str:
    """The part of a file that has a form, from a line on; nothing if no part has."""
    found = re.search(form, text_of(path), re.M | re.S)
    return found[0] if found else ""


def camel(name: str) -> str:
    return "".join(it.capitalize() for it in name.split("_"))


def numbered(pairs: list[tuple[str, str]], before: str = "") -> dict[str, int]:
    """Names with their numbers, as the data spell them."""
    return {SPELLED.get(before + name, before + name): int(number) for name, number in pairs}


def statuses_of_specs() -> dict[str, int]:
    """The statuses as specs/ number them."""
    text = "".join(text_of(f"crates/{it}/specs/Statuses.antt") for it in ("macsec_c_values", "macsec_c_journals"))
    found = numbered([(camel(name), number) for name, number in re.findall(r"^(\w+)_status = (\d+)$", text, re.M)])
    for kind, before in (("argument", "NoSuch"), ("new", "New"), ("frame", ""), ("line", ""), ("script", "")):
        found |= numbered(re.findall(rf"^status_of_{kind}_fault (?:\w+\.)?(\w+) = (\d+)$", text, re.M), before)
    refused = text_of("crates/macsec_suite/specs/RefusalNumbers.antt")
    return found | numbered(re.findall(r"^number_of_refusal (\w+) = (\d+)$", refused, re.M))


def verdicts_of_specs() -> dict[str, int]:
    """The verdicts by the names that are printed, with their numbers."""
    names = text_of("crates/macsec_rx/specs/Verdicts.antt")
    printed = dict(re.findall(r'^verdict_name (\w+) = codes "(\w+)"$', names, re.M))
    numbers = text_of("crates/macsec_c_values/specs/Statuses.antt")
    found = re.findall(r"^number_of_verdict (\w+) = (\d+)$", numbers, re.M)
    return {printed.get(it, it): int(number) for it, number in found}


def suites_of_specs() -> list[tuple[object, ...]]:
    """Each suite's name, number, octets of a key, and whether its packet numbers are extended."""
    words = re.findall(
        r'codes "(\w+)", (\w+)', part_of("crates/macsec_script_parser/specs/Fields.antt", r"^suites =.*?\[\]")
    )
    row = r"^facts_of (\w+) = record { key_length = (\d+); is_xpn = (\w+); number = (\d+) }$"
    facts = re.findall(row, text_of("crates/macsec_suite/specs/Suites.antt"), re.M)
    rows = {variant: (int(number), int(octets), xpn == "true") for variant, octets, xpn, number in facts}
    return [(word, *rows[it]) for word, it in words]


def counters_of_specs() -> dict[str, list[tuple[str, str]]]:
    """The counters that are printed, with their members, in their order."""
    path = "crates/macsec_script_printer/specs/Counters.antt"
    return {
        it: re.findall(r'"(\w+)", \w+\.(\w+)', part_of(path, rf"^{it} \w+.*?\n\n"))
        for it in ("own_counters", "channel_counters")
    }


def members_of(path: str, struct: str) -> list[str]:
    """The members of a struct of the source or of the device, in their order."""
    body = re.sub(r"/\*.*?\*/", "", part_of(path, rf"struct {struct} \{{.*?^\}}"), flags=re.S)
    in_c = [it for line in re.findall(r"uint64_t ([\w, ]+);", body) for it in line.split(", ")]
    return in_c or re.findall(r"pub (\w+): u64,", body)


def keywords() -> set[str]:
    """The keywords of commands, as specs/ read them: those whose line is told to an endpoint."""
    text = text_of("crates/macsec_script_parser/specs/Kinds.antt")
    return set(re.findall(r'kind \(codes "(\w+)"\) [^\n]*?(?:\n[^\n]*?)?tells e', text))


def requests_of(place: str) -> set[str]:
    """The first words of the requests that a function or the table of device/requests.c names."""
    body = part_of("device/requests.c", rf"^[^\n]* {place}.*?^\}}")
    return set(re.findall(r'(?:words_(?:is|are)\(w, 0, |\{ )"(\w+)', body))


def numbered_names(name: str, numbers: range) -> dict[str, int]:
    return {it["name"]: it["number"] for it in family(name) if it["number"] in numbers}


# What is compared, what the data have, and what the sources have.
Compared = Iterator[tuple[str, Any, Any]]


def compared_counters() -> Compared:
    counters = [(it["name"], it["c"], it["of"]) for it in family("counters")]
    printed = counters_of_specs()
    yield "counters", [it[:2] for it in counters if it[2] != "rx"], printed["own_counters"]
    yield "counters of channels", [it[:2] for it in counters if it[2] == "rx"], printed["channel_counters"]
    for struct, of in (("Counters", "endpoint"), ("TxCounters", "tx"), ("RxCounters", "rx")):
        there = members_of("crates/macsec_secy/src/counters.rt", struct)
        yield f"members of {struct}", [it[1] for it in counters if it[2] == of], there
    device = family("device_counters")
    yield "members of struct counts", [it["c"] for it in device], members_of("device/frames.h", "counts")
    yield "counters of the device", [it["name"] for it in device], [camel(it["c"]) for it in device]


def compared_numbers() -> Compared:
    numbers = {it["name"]: it["number"] for it in family("statuses")}
    yield "statuses", numbers, statuses_of_specs()
    faults = text_of("crates/macsec_link_events/specs/FaultNumbers.antt")
    there = numbered(re.findall(r"^number_of_world_fault (\w+) = ([2-9])$", faults, re.M))
    yield "faults of events", {it["name"]: it["number"] for it in family("faults")}, there
    here = {it["name"]: it["number"] for it in family("capture_faults")}
    text = text_of("crates/macsec_pcap/specs/FaultNumbers.antt")
    yield "faults of captures", here, numbered(re.findall(r"^number_of_fault (\w+) = (\d+)$", text, re.M))
    yield "verdicts", numbered_names("verdicts", range(1, 13)), verdicts_of_specs()
    statuses = text_of("crates/macsec_c_values/src/statuses.rt")
    for what, start, of in (("fates", "FATE", range(6)), ("verdicts of a journal", "VERDICT", range(13, 99))):
        here = {it["c"]: it["number"] for it in family(start.lower() + "s") if it["number"] in of}
        yield what, here, numbered(re.findall(rf"pub const ({start}_\w+): u32 = (\d+);", statuses))
    keys = "name", "number", "key_octets", "extended"
    yield "suites", [tuple(it[key] for key in keys) for it in suites()], suites_of_specs()


def compared_words() -> Compared:
    commands = {it["name"]: it["number"] for it in family("commands") if it["number"]}
    kinds = re.findall(
        r"^number_of_kind kind\.(\w+) = ([1-9]\d*)$", text_of("crates/macsec_c_values/specs/Rows.antt"), re.M
    )
    yield "commands", commands, {name.lower(): int(number) for name, number in kinds}
    yield "keywords of commands", set(commands), keywords()
    for does, place in (("reads", r"readers\[\]"), ("changes", r"change\(")):
        here = {it["name"] for it in family("requests") if does in it["does"].split(", ")}
        there = requests_of(place)
        # Lines for the endpoint, and the request of many lines, are read elsewhere.
        yield f"requests that macsecd {does}", here - {"A", "load"}, there


def unknown() -> Iterator[str]:
    """Members of a clause that no row of conformance/ has, or since a version that is to come."""
    rows = "".join(text_of(f"conformance/clause-{it}.json") for it in (10, 14))
    clauses = set(re.findall(r'"clause": "([\d.]+)"', rows))
    version = text_of("VERSION").strip()
    numbers = [int(it) for it in version.split(".")]
    for name, found in families().items():
        for it in found:
            if it.get("clause", "") not in {"", *clauses}:
                yield f"{it['name']} of the {name} has the clause {it['clause']}, and no row of conformance/"
            if [int(number) for number in it.get("since", version).split(".")] > numbers:
                yield f"{it['name']} of the {name} is since {it['since']}, and this is version {version}"


def beyond(these: Any, others: Any) -> str:
    """What these have and the others have not."""
    first, second = ([*it.items()] if isinstance(it, dict) else [*it] for it in (these, others))
    return ", ".join(map(str, (it for it in first if it not in second))) or "nothing else, or another order"


def faults() -> Iterator[str]:
    """How the data differ from the sources."""
    for what, here, there in (*compared_counters(), *compared_numbers(), *compared_words()):
        if here != there:
            only = f"here {beyond(here, there)}; in the sources {beyond(there, here)}"
            yield f"{FILE.relative_to(ROOT)}: {what} differ: {only}"
    yield from (f"{FILE.relative_to(ROOT)}: {it}" for it in unknown())
