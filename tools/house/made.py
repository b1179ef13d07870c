"""The parts of files that tools/reference makes from tools/families.json. Each is between two comments, in C

    /* made: NAME of tools/families.json */ .. /* end */

and so in Python, pages and manual pages. In C the formatter decides how a part is laid out: one that differs in nothing
else is left as it is."""

from __future__ import annotations

import re
import textwrap
from collections.abc import Callable, Iterable

from house import ROOT
from house.families import Member, family, refusals, suites, text_faults
from house.written import PART, table

SOURCE = "tools/families.json"
WIDTH = 120
# How a comment begins and ends, by the form of a path.
COMMENTS = ((r".*\.[ch]", "/* ", " */"), (r".*\.md", "<!-- ", " -->"), (r"man/.*", '.\\" ', ""), (r".*", "# ", ""))


def lines(made: Iterable[str]) -> str:
    return "".join(f"{it}\n" for it in made)


def quoted(text: str) -> str:
    return f'"{text}"'


def any_of(words: list[str], last: str) -> str:
    """A list in a sentence."""
    return f"{', '.join(words[:-1])} {last} {words[-1]}"


def by_text(rows: list[Member], key: str) -> dict[str, list[str]]:
    """The names of members by a text that several can share."""
    found: dict[str, list[str]] = {}
    for it in rows:
        found.setdefault(it[key], []).append(it["name"])
    return found


def coded(names: Iterable[str]) -> list[str]:
    return [f"`{it}`" for it in names]


# The header for C.

# The counters that each struct of the header has room for, with those that are there.
ROOM = {"endpoint": 16, "tx": 8, "rx": 16}


def enum(rows: list[Member], column: int, text: Callable[[Member], str]) -> str:
    """The lines of an enum. Comments begin in this column, and from a longer line on where that one's begins."""
    made = []
    for it in rows:
        line = f"    MACSEC_{it['c']} = {it['number']}" + ("" if it is rows[-1] else ",")
        column = max(column, len(line) + 1)
        made.append(f"{line:{column - 1}} /* {text(it)} */" if text(it) else line)
    return lines(made)


def text_of_member(it: Member) -> str:
    return it.get("header", "")


def text_of_command(it: Member) -> str:
    return f"{it['name'] if it['number'] else 'no command'}: {it['header']}"


def cases(rows: list[Member]) -> str:
    return lines(f'        case MACSEC_{it["c"]}: return "{it["name"]}";' for it in rows)


def reserved(of: str) -> int:
    """How many reserved members a struct of counters has left."""
    return ROOM[of] - len(family("counters", of=of))


def members(of: str) -> str:
    """The members of a struct of counters."""
    names = [*(it["c"] for it in family("counters", of=of)), f"reserved[{reserved(of)}]"]
    return lines(f"    uint64_t {it};" for it in names)


def header() -> dict[str, str]:
    made = {f"{it}-counters": members(it) for it in ("endpoint", "tx", "rx")}
    for name, column in (("statuses", 38), ("suites", 38), ("fates", 31), ("verdicts", 36)):
        made[name] = enum(family(name), column, text_of_member)
        made[f"names-of-{name}"] = cases(family(name))
    return {**made, "commands": enum(family("commands"), 35, text_of_command)}


# Python.


def filled(start: str, words: list[str], end: str, indent: str = "") -> str:
    """A list over as many lines as it needs, as no formatter lays it out."""
    one = f"{indent}{start}{', '.join(words)}{end}"
    if len(one) <= WIDTH:
        return f"{one}\n"
    inner = indent + "    "
    text = textwrap.fill(", ".join(it.replace(" ", "\0") for it in words) + ",", WIDTH, initial_indent=inner,
                         subsequent_indent=inner, break_long_words=False, break_on_hyphens=False)  # fmt: skip
    return f"{indent}{start}\n{text}\n{indent}{end}  # fmt: skip\n".replace("\0", " ")


def variants(rows: list[Member]) -> str:
    return lines(f"    {it['name']} = {it['number']}" for it in rows)


def names_of_counters() -> str:
    made = ""
    for name, of in (("ENDPOINT", "endpoint"), ("TX", "tx"), ("RX", "rx")):
        made += filled(f"{name}_COUNTERS = (", [quoted(it["name"]) for it in family("counters", of=of)], ")")
    return made


def of_suites() -> str:
    rows = ((it["name"], it["key_octets"], it["extended"], it["ip"], it["mka"]) for it in suites())
    made = (f'    Suite.{name}: ({octets}, {extended}, "{ip}", "{mka}"),' for name, octets, extended, ip, mka in rows)
    return lines(["_OF_SUITES = {", *made, "}"])


def fields(of: str) -> str:
    """The members of a struct of counters."""
    words = [f'("{it["c"]}", c_uint64)' for it in family("counters", of=of)]
    return filled("_fields_ = [", [*words, f'("reserved", c_uint64 * {reserved(of)})'], "]", "    ")


def meaning(it: Member) -> str:
    """What a status says in Python and in the device: without a text of its own what the header says."""
    return str(it.get("short", it["header"]))


def meanings() -> str:
    rows = [it for it in family("statuses") if it["number"]]
    return lines(f"    Status.{it['name']}: {quoted(meaning(it))}," for it in rows)


def usages_in_python() -> str:
    """What follows each keyword of a command: its usage without A, the keyword, and what is said of the arguments."""
    rows = [it for it in family("commands") if it["number"]]
    return lines(f'    "{it["name"]}": {quoted(it["usage"].partition(",")[0].split(maxsplit=2)[2])},' for it in rows)


def remedies() -> str:
    rows = (it for it in refusals() if it.get("remedy"))
    return lines(f"    Status.{it['name']}: {quoted(it['remedy'])}," for it in rows)


def slips_in_python() -> str:
    return lines(f'{it["c"]} = {quoted(it["text"])}' for it in family("slips"))


# The device, and tests in C.


def array(kind: str, name: str, rows: Iterable[str]) -> str:
    return lines([f"static {kind}{name} = {{", *(f"    {it}," for it in rows), "};"])


def counter_names(name: str, of: str) -> str:
    return array("const char *const ", name, (quoted(it["name"]) for it in family("counters", of=of)))


def answers() -> dict[str, str]:
    device = (quoted(it["name"]) for it in family("device_counters"))
    of = {"own": "endpoint", "tx": "tx", "rx": "rx"}
    made = {f"{it}-counters": counter_names(f"{it}_names[{it.upper()}]", of[it]) for it in of}
    return {**made, "device-counters": array("const char *const ", "device_names[COUNT_OF_COUNTS]", device)}


def columns() -> str:
    """The counters of a receive association that `show` shows, by their places."""
    rows = enumerate(family("counters", of="rx"))
    shown = (f"{{ {quoted(it['column'])}, {place} }}" for place, it in rows if "column" in it)
    return array("const struct column ", "columns[]", shown)


def check_of_device() -> dict[str, str]:
    rows = [it for it in family("statuses") if "remedy" in it]
    remedies = (quoted(it["remedy"]) if it["remedy"] else "NULL" for it in rows)
    said = (f"{{ MACSEC_{it['c']}, {quoted(meaning(it))}, {remedy} }}" for it, remedy in zip(rows, remedies))
    commands = [it for it in family("commands") if it["number"]]
    usages = (quoted(it["usage"]) for it in commands)
    slips = (f'#define {it["c"]} {quoted(it["text"])}' for it in family("slips"))
    return {
        "slips": lines(slips),
        "meanings": array("const struct meaning ", "meanings[]", said),
        "usages": array("const char *const ", "usages[]", usages),
    }


def counts_of_counters() -> str:
    of = {"OWN": "endpoint", "TX": "tx", "RX": "rx"}
    counts = (f"{it}_COUNTERS = {len(family('counters', of=of[it]))}" for it in of)
    return f"enum {{ {', '.join(counts)} }};\n"


def suites_with(**having: object) -> list[Member]:
    return [it for it in family("suites", **having) if it["number"]]


def is_one_of(rows: list[Member]) -> str:
    return " || ".join(f"suite == MACSEC_{it['c']}" for it in rows)


def suites_in_c() -> str:
    """What tests in C ask of a suite."""
    return f"""/* Has it extended packet numbers? */
static inline bool suite_is_extended(uint32_t suite) {{
    return {is_one_of(suites_with(extended=True))};
}}

/* The octets of its keys. */
static inline uint8_t suite_key_octets(uint32_t suite) {{
    return {is_one_of(suites_with(key_octets=32))} ? 32 : 16;
}}

enum {{ LAST_SUITE = MACSEC_{suites()[-1]['c']} }};
"""


# Pages and manual pages.


def in_roff(text: str) -> str:
    """A text with code in backticks as troff has it, each sentence on lines of its own."""
    text = re.sub(r"`(.*?)`", r"\\fB\1\\fR", re.sub(r"(?<=\.) (?=[A-Z])", "\n", text))
    return "\n".join(textwrap.fill(it, WIDTH, break_on_hyphens=False) for it in text.split("\n"))


def roff(rows: Iterable[tuple[str, str]]) -> str:
    """A table of two columns."""
    made = (f"{name}\tT{{\n{in_roff(text)}\nT}}" for name, text in rows)
    return lines([".TS", "lb lx.", *made, ".TE"])


def of_lines(it: Member) -> str:
    """What macsec(5) says of a refusal: the lines that can have it, unless the text names them, and when."""
    text: str = it.get("manual", it["page"])
    return text if text.startswith("`") else f"{', '.join(coded(it['lines']))}: {text}"


def in_twos(names: list[str]) -> str:
    """Names for the left column of a table, over several rows."""
    pairs = [names[at : at + 2] for at in range(0, len(names), 2)]
    return "\\fR,\n".join("\\fR, \\fB".join(it) for it in pairs)


def grouped(name: str) -> str:
    """The table of a family: a text that several members have is beside the first two."""
    made = []
    for text, named in by_text(family(name), "manual").items():
        first, *rest = in_twos(named).split("\n")
        made += [f"{first}\tT{{\n{in_roff(text)}\nT}}", *rest]
    return lines([".TS", "lb lx.", *made, ".TE"])


def named_suites() -> tuple[list[str], list[str]]:
    """The names of the suites without extended packet numbers, and of those with them."""
    narrow, extended = suites_with(extended=False), suites_with(extended=True)
    return coded(it["name"] for it in narrow), coded(it["name"] for it in extended)


def macsec_5() -> dict[str, str]:
    narrow, extended = named_suites()
    of_suites = f"{', '.join(narrow)}; extended: {', '.join(extended)}"
    return {
        "suites": f"{in_roff(of_suites)}\n",
        "refusals": roff((f"{it['number']} {it['name']}", of_lines(it)) for it in refusals()),
        "counters": grouped("counters"),
        "faults-of-texts": roff((it["name"], it.get("manual", it["page"])) for it in text_faults()),
        "faults-of-events": roff((f"{it['number']} {it['name']}", it["manual"]) for it in family("faults")),
    }


def bits(suite: Member) -> int:
    """The width of its packet numbers."""
    return 64 if suite["extended"] else 32


def endpoint_page() -> dict[str, str]:
    of = {"endpoint": "the endpoint", "tx": "the transmit SC", "rx": "each receive SC, each of its SAs"}
    counters = []
    for key, where in of.items():
        rows = by_text(family("counters", of=key), "counts")
        counters += [(", ".join(named), where, text) for text, named in rows.items()]
    named = ((f"{it['number']} `{it['name']}`", ", ".join(coded(it["lines"])), it["page"]) for it in refusals())
    cells = (
        (it["title"], f"`{it['name']}`", it["clause"], it["key_octets"], bits(it), f"`{it['ip']}`") for it in suites()
    )
    return {
        "suites": table("suite | in scripts | clause | octets of a key | bits of a PN | in `ip macsec`", cells),
        "refusals": table("refusal | lines | when", named),
        "counters": table("counter | of | counts", counters),
    }


def script_page() -> dict[str, str]:
    rows = by_text(text_faults(), "page").items()
    narrow, extended = named_suites()
    return {
        "suites": f"SUITE is {', '.join(narrow)}, or with extended packet numbers {any_of(extended, 'or')}.",
        "faults": table("fault | when", ((", ".join(coded(named)), text) for text, named in rows)),
    }


def parts() -> dict[str, dict[str, str]]:
    """The made parts of each file."""
    named = [it["name"] for it in suites()]
    return {
        "include/macsec.h": header(),
        "python/macsec/names.py": {
            "statuses": variants(family("statuses")),
            "suites": variants(family("suites")),
            "kinds": variants([it for it in family("commands") if it["number"]]),
            "fates": variants([it for it in family("fates") if it["number"]]),
            "verdicts": variants([it for it in family("verdicts") if it["number"]]),
            "of-suites": of_suites(),
            "counters": names_of_counters(),
        },
        "python/macsec/errors.py": {"meanings": meanings()},
        "python/macsec/grammar.py": {"usages": usages_in_python()},
        "python/macsec/lint.py": {"remedies": remedies(), "slips": slips_in_python()},
        "python/macsec/_library.py": {f"{of}-counters": fields(of) for of in ROOM},
        "device/answers.c": answers(),
        "device/check.c": check_of_device(),
        "device/control.h": {"counts-of-counters": counts_of_counters()},
        "device/limits.c": {
            "last-suite": f"    uint32_t suite = MACSEC_{suites()[-1]['c']};\n",
            "key-octets": f"    unsigned length = {is_one_of(suites_with(key_octets=16))} ? 16 : 32;\n",
        },
        "device/show.c": {
            "is-extended": f"    return {is_one_of(suites_with(extended=True))};\n",
            "columns": columns(),
        },
        "tests/library/suites.h": {"suites": suites_in_c()},
        "docs/ENDPOINT.md": endpoint_page(),
        "docs/SCRIPT.md": script_page(),
        "man/macsec.1": {"faults-of-captures": grouped("capture_faults")},
        "man/macsec.5": macsec_5(),
        "man/macsec-decrypt.1": {"suites": f"{any_of(named, 'or')};\n"},
    }


# Files.


def comment(path: str, text: str) -> str:
    _, begin, end = next(it for it in COMMENTS if re.fullmatch(it[0], path))
    return f"{begin}{text}{end}"


def marks(path: str) -> re.Pattern[str]:
    """A made part of a file: its first line, its name, its text and its last line."""
    first = re.escape(comment(path, f"made: NAME of {SOURCE}")).replace("NAME", r"([\w-]+)")
    return re.compile(rf"^([ ]*{first}\n)(.*?)^([ ]*{re.escape(comment(path, 'end'))}$)", re.M | re.S)


def without_made(path: str, text: str) -> str:
    """What of a file is written by hand."""
    return PART.sub("", marks(path).sub("", text))


def without_layout(path: str, text: str) -> str:
    """What the formatter of C does not decide."""
    if not path.endswith((".c", ".h")) or path == "include/macsec.h":
        return text
    return " ".join(re.sub(r'"\s+"', "", text).split()).replace(", }", " }")


def made_again(path: str, text: str, made: dict[str, str]) -> str:
    """A file with these parts made again. It must have them, each once, and no more."""
    found = [it[2] for it in marks(path).finditer(text)]
    if sorted(found) != sorted(made):
        raise SystemExit(f"tools/reference: {path} has the parts {sorted(found)} of {SOURCE}, and not {sorted(made)}")

    def part(it: re.Match[str]) -> str:
        new = f"\n{made[it[2]]}\n\n" if path.endswith(".md") else made[it[2]]
        is_same = without_layout(path, it[3]) == without_layout(path, new)
        return it[0] if is_same else f"{it[1]}{new}{it[4]}"

    return marks(path).sub(part, text)


def files() -> dict[str, str]:
    """Each file with its parts made again, by its path from the top."""
    return {path: made_again(path, (ROOT / path).read_text(encoding="utf-8"), made) for path, made in parts().items()}
