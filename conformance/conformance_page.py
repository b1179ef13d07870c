"""The parts of docs/CONFORMANCE.md that are made from conformance/*.json and vectors/macsec-vectors.json."""

from __future__ import annotations

from typing import Any

from house.written import table, with_parts

Row = "dict[str, Any]"

SUPPORT = {"yes": "yes", "own": "own profile", "no": "not supported", "n/a": "not applicable"}


def joined(text: str | list[str]) -> str:
    """A text that the table keeps in one or in several lines."""
    return text if isinstance(text, str) else " ".join(text)


def clause_of(row: Row) -> str:
    """The clause; with a star if its number is from memory."""
    return f"{row['clause']}{'*' if row['cited'] == 'memory' else ''}"


def coded(names: list[str]) -> str:
    return ", ".join(f"`{it}`" for it in names)


def evidence_of(row: Row) -> str:
    """The last column: definitions, contracts, what shows it, or the reason."""
    parts = []
    for key, title in (("defined", "defined"), ("proved", "proved"), ("shown", "shown"), ("see", "rows")):
        if row.get(key):
            parts.append(f"{title}: {coded(row[key])}")
    if "reason" in row and row["support"] in ("no", "n/a"):
        parts.append(joined(row["reason"]))
    return "; ".join(parts)


def clause_table(rows: list[Row]) -> str:
    about = lambda it: (it["id"], clause_of(it), joined(it["requirement"]), SUPPORT[it["support"]], evidence_of(it))
    cells = map(about, rows)
    return table("row | clause | requirement | support | evidence, or why not", cells)


def own_rows(rows: list[Row]) -> str:
    """Where the profile is stricter or different."""
    cells = ((it["id"], joined(it["strict"]), joined(it["reason"])) for it in rows if it["support"] == "own")
    return table("row | what a strict reading would do | why it differs here", cells)


def names(rows: list[Row], first: tuple[str, str]) -> str:
    keys = {first[0]: first[1], "mib": "MIB*", "ip": "`ip macsec`", "linux": "`if_macsec.h`"}
    keys.update(dpdk="DPDK `rte_security`", wpa="wpa_supplicant", differs="differs")
    if any("standard" in it for it in rows):
        keys = {first[0]: first[1], "standard": "10.7*", **{key: it for key, it in keys.items() if key != first[0]}}
    return table(" | ".join(keys.values()), ([joined(it[key]) for key in keys] for it in rows))


def vector_groups(vectors: dict[str, Any]) -> str:
    frames = lambda group: sum(len(it.get("frames", [0])) for it in group["vectors"])
    cells = ((f"`{it['name']}`", it["about"], len(it["vectors"]), frames(it)) for it in vectors["groups"])
    return table("group | has | vectors | frames or blocks", cells)


def counted(rows: list[Row]) -> str:
    """How many rows have each support, and how many clause numbers are from memory."""
    numbers = {it: sum(row["support"] == it for row in rows) for it in SUPPORT}
    memory = sum(row["cited"] == "memory" for row in rows)
    text = ", ".join(f"{number} {SUPPORT[it]}" for it, number in numbers.items())
    return f"{len(rows)} rows: {text}. The clause numbers of {memory} are from memory."


def made(page: str, tables: dict[str, Any], vectors: dict[str, Any], linux: str) -> str:
    """The page with its parts made again. `linux` is the table of what Linux does otherwise."""
    rows = [row for it in tables["clauses"].values() for row in it["rows"]]
    parts = {name: clause_table(it["rows"]) for name, it in tables["clauses"].items()}
    parts["count"] = counted(rows)
    parts["own"] = own_rows(rows)
    parts["counters"] = names(tables["names"]["counters"], ("here", "here"))
    parts["objects"] = names(tables["names"]["objects"], ("here", "here"))
    parts["vectors"] = vector_groups(vectors)
    parts["linux"] = linux
    return with_parts(page, parts)
