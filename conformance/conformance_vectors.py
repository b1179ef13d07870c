"""Makes the results in vectors/macsec-vectors.json by the rules in Python, and runs its vectors on the program.

The rules are those of fuzz/expected.py: no result comes from the program. Those of the groups aes, gcm and annex-c are
published. vectors/schema.json describes the file, and docs/CONFORMANCE.md how another maker uses it."""

from __future__ import annotations

import itertools
import json
import re
import subprocess
import sys
from collections.abc import Iterable, Iterator
from typing import Any

from house import ROOT, families

VECTORS, SCHEMA = ROOT / "vectors/macsec-vectors.json", ROOT / "vectors/schema.json"
sys.dont_write_bytecode = True
sys.path.insert(0, f"{ROOT}/fuzz")
import expected

SECONDS = 60
Vector = "dict[str, Any]"

# What a script calls each suite.
SUITES = {it["title"]: it["name"] for it in families.suites()}
# The results of each kind of vector, beside what is given.
RESULTS = {
    "aes": ("ciphertext",),
    "gcm": ("ciphertext", "tag"),
    "protect": ("link", "dropped", "iv"),
    "receive": ("verdict", "client", "numbers"),
}


def key_line(end: str, it: Vector) -> str:
    """The line that installs the key of a sender or a receiver."""
    extended = f" {it['own_ssci']} {it['salt']}" if "salt" in it else ""
    return f"{end} key 0 {it['key']} {it['offset']}{extended}"


def sender_lines(it: Vector) -> Iterator[str]:
    """The lines of a script up to the first frame that the sender gets."""
    yield f"end A {SUITES[it['suite']]} {it['sci']} {it['max_frame']} {it['form']}"
    yield "end B gcm128 02ffffffffff0001 9248 sci"
    yield key_line("A", it)
    for number in range(it["receive_channels"]):
        yield f"A rxsc 02000000ff{number:02x}0001"
    yield f"A txsa {it['an']} 0 {it['pn']} {'conf' if it['encrypt'] else 'int'}"
    yield f"A txon {it['an']}"


def receiver_lines(it: Vector) -> Iterator[str]:
    """The lines of a script up to the first frame that the receiver gets."""
    yield "end A gcm128 02ffffffffff0002 9248 sci"
    yield f"end B {SUITES[it['suite']]} {it['sci']} 9248 sci"
    yield f"B validate {it['validate']}"
    yield f"B replay {'on' if it['replay'] else 'off'} {it['window']}"
    yield key_line("B", it)
    for channel in it["channels"]:
        ssci = f" {channel['ssci']}" if "ssci" in channel else ""
        yield f"B rxsc {channel['sci']}"
        yield f"B rxsa {channel['sci']} {channel['an']} 0 {channel['pn']}{ssci}"
        yield f"B rxon {channel['sci']} {channel['an']}"


def config_of(lines: Iterable[str], end: str) -> str:
    """The lines of one end of a script as a configuration."""
    ours = (it for it in lines if it.startswith((f"{end} ", f"end {end} ")))
    return "".join(f"{it.replace(end, 'A', 1)}\n" for it in ours)


def script_of(vector: Vector) -> str:
    """A script that carries out a vector."""
    if vector["kind"] == "protect":
        lines = [*sender_lines(vector["sender"]), *(f"A send {it['client']}" for it in vector["frames"])]
    else:
        lines = list(receiver_lines(vector["receiver"]))
        for number, it in enumerate(vector["frames"]):
            lines += [f"inject {it['link']}", f"B deliver {number}", "B numbers"]
    return "".join(f"{it}\n" for it in lines)


def results_of(vector: Vector, text: str) -> list[Vector]:
    """What such a script printed of each frame: what was sent or why not; or verdict, client frame, numbers."""
    if vector["kind"] == "protect":
        found = re.findall(r"^\d+ (?:frame \d+ (\w+)|dropped (\w+))$", text, re.M)
        return [{"link": link} if link else {"dropped": reason} for link, reason in found]
    results: list[Vector] = []
    for line in text.split("\n"):
        words = line.split()
        if len(words) < 2 or words[1] in ("done", "frame"):
            continue
        if words[1] == "rx":
            results[-1].setdefault("numbers", []).append(f"{words[5]} {words[6]}")
        elif len(results) < len(vector["frames"]):
            results.append({"verdict": words[1], "client": words[2] if len(words) > 2 else None, "numbers": []})
    return results


def iv_of(it: Vector, sci: str, ssci: str, pn: int) -> str:
    """The IV of a frame under an end's key."""
    if "XPN" not in it["suite"]:
        return f"{sci}{pn:08x}"
    return f"{int(it['salt'], 16) ^ int(f'{ssci}{pn % 2**64:016x}', 16):024x}"


def parts_of(vector: Vector) -> list[Vector]:
    """What a vector has results of: its frames, or a block of the cipher."""
    return vector.get("frames") or [vector["cipher"]]


def by_rules(vector: Vector) -> list[Vector]:
    if "cipher" in vector:
        given = {name: bytes.fromhex(it) for name, it in vector["cipher"].items()}
        if vector["kind"] == "aes":
            return [{"ciphertext": expected.encrypt(given["key"], given["plaintext"]).hex()}]
        sealed = expected.seal(*(given[it] for it in ("key", "iv", "aad", "plaintext"))).hex()
        return [{"ciphertext": sealed[:-32], "tag": sealed[-32:]}]
    _, text, _ = expected.run_script(script_of(vector).encode())
    results = results_of(vector, text.decode())
    for number, result in enumerate(it for it in results if "link" in it):
        it = vector["sender"]
        result["iv"] = iv_of(it, it["sci"], it.get("own_ssci", ""), int(it["pn"], 16) + number)
    return results


def stored(vector: Vector) -> list[Vector]:
    return [{it: part[it] for it in RESULTS[vector["kind"]] if it in part} for part in parts_of(vector)]


def differences(program: str, vector: Vector) -> str | None:
    """How the program's results differ from those of a vector of frames."""
    script = script_of(vector)
    ran = subprocess.run([program, "run", "-"], input=script.encode(), capture_output=True, timeout=SECONDS)
    text = ran.stdout.decode(errors="replace")
    if ran.returncode or " refused " in text or " fault " in text:
        return f"{vector['id']}: status {ran.returncode}, or a line is refused"
    wanted = [{name: it for name, it in result.items() if name != "iv"} for result in stored(vector)]
    for number, (result, due) in enumerate(itertools.zip_longest(results_of(vector, text), wanted)):
        if result != due:
            return f"{vector['id']}: frame {number} gives {result}"
    return None


def tested_cipher(vector: Vector) -> str | None:
    """A vector of the cipher, compared with the rules: the program has no command for it."""
    return None if stored(vector) == by_rules(vector) else f"{vector['id']}: another result"


def test(program: str, vectors: Vector) -> dict[str, list[str]]:
    """For each group, what is wrong with its vectors."""
    found: dict[str, list[str]] = {}
    for group in vectors["groups"]:
        results = [
            differences(program, it) if it["kind"] in ("protect", "receive") else tested_cipher(it)
            for it in group["vectors"]
        ]
        found[group["name"]] = [it for it in results if it]
    return found


def frame_count(vectors: Vector) -> int:
    """The number of frames and of blocks of the cipher."""
    return sum(len(parts_of(it)) for it in vectors_of(vectors))


def vectors_of(vectors: Vector) -> list[Vector]:
    return [vector for group in vectors["groups"] for vector in group["vectors"]]


def others(vectors: Vector) -> list[str]:
    """The vectors that have other results than the rules, in so far as they have any."""
    return [
        f"{vector['id']}, {number}: {has}"
        for vector in vectors_of(vectors)
        for number, (has, result) in enumerate(itertools.zip_longest(stored(vector), by_rules(vector)))
        if has and has != result
    ]


def made(vectors: Vector) -> str:
    """The file of these vectors, with their results by the rules."""
    for vector in vectors_of(vectors):
        for part, result in zip(parts_of(vector), by_rules(vector)):
            part.update(result)
    # A frame is on one line.
    frame = re.compile(r"\{\s+(\"(?:client|link)\"[^{}]*?)\s+\}")
    return frame.sub(lambda it: "{" + " ".join(it[1].split()) + "}", json.dumps(vectors, indent=1)) + "\n"


def loaded() -> Vector:
    return json.loads(VECTORS.read_text(encoding="utf-8"))


# The schema, as far as this tool needs it: "type", "enum", "pattern", "required", "properties", "additionalProperties",
# "items", "anyOf" and "$ref" to a definition of the same file.
TYPES = {"object": dict, "array": list, "string": str, "boolean": bool, "integer": int, "null": type(None)}


def faults_by_schema(value: Any, schema: Vector, whole: Vector, where: str = "") -> Iterator[str]:
    """How a value differs from what its schema asks for."""
    if "$ref" in schema:
        schema = whole["definitions"][schema["$ref"].rpartition("/")[2]]
    if "anyOf" in schema:
        if all(any(True for _ in faults_by_schema(value, it, whole)) for it in schema["anyOf"]):
            yield f"{where} is none of the forms"
        return
    kind = schema.get("type")
    if kind and (not isinstance(value, TYPES[kind]) or (kind == "integer" and isinstance(value, bool))):
        yield f"{where} is not of type {kind}"
        return
    if "enum" in schema and value not in schema["enum"]:
        yield f"{where} is {value}"
    if isinstance(value, str) and not re.search(schema.get("pattern", ""), value):
        yield f"{where} does not match {schema['pattern']}"
    if isinstance(value, list):
        for number, it in enumerate(value):
            yield from faults_by_schema(it, schema.get("items", {}), whole, f"{where}[{number}]")
    if isinstance(value, dict):
        known = schema.get("properties", {})
        yield from (f"{where} has no {it}" for it in schema.get("required", []) if it not in value)
        for name, it in value.items():
            if name in known:
                yield from faults_by_schema(it, known[name], whole, f"{where}.{name}")
            elif schema.get("additionalProperties") is False:
                yield f"{where}.{name} is not known"


def schema_faults(vectors: Vector) -> list[str]:
    schema = json.loads(SCHEMA.read_text(encoding="utf-8"))
    return list(faults_by_schema(vectors, schema, schema, "vectors"))
