"""Frames that are forged for chosen keys: an end opens each under these keys, and under no other.

GCM's tag is a polynomial in the hash key, which is AES of the block of zeros (SP 800-38D, 6.4 and 7.1). To alter
ciphertexts by the coefficients of another polynomial leaves the tag right exactly under its roots. Here these are the
hash keys of some keys, and 0. So docs/SECRECY.md counts keys that exist."""

from __future__ import annotations

import hashlib

import expected
import tables
from inputs import Case

ONE, REDUCTION = 1 << 127, 0xE1 << 120
KEYS = 4  # The last one is that of no root.
DATA = 16 * KEYS
# Both ends: their suite, the key with its octets, and the short SCI and salt that an extended suite has.
LINES = """end A {suite} 0200000000010001 1518 sci
end B {suite} 0200000000020001 1518 auto
A key 0 {key} 0 {suite} {own_a}
A txsa 0 0 1 conf
A txon 0
B key 0 {key} 0 {suite} {own_b}
B rxsc 0200000000010001
B rxsa 0200000000010001 0 0 1 {sender}
B rxon 0200000000010001 0
A send {client}
"""


def product(a, b):
    """The product of two blocks (6.3)."""
    total = 0
    for bit in range(127, -1, -1):
        total ^= b if a >> bit & 1 else 0
        b = b >> 1 ^ (REDUCTION if b & 1 else 0)
    return total


def polynomial(roots):
    """The coefficients of the polynomial with these roots, the highest one first, as octets."""
    lowest_first = [ONE]
    for root in roots:
        shifted = zip([0, *lowest_first], [*lowest_first, 0])
        lowest_first = [before ^ product(root, here) for before, here in shifted]
    return b"".join(it.to_bytes(16, "big") for it in reversed(lowest_first))


def added(octets, others):
    return bytes(a ^ b for a, b in zip(octets, others))


def cases(seed):
    """For each suite and key: what B answers to the frame, and the text by the rules, which use OpenSSL's GCM."""
    for suite, (long, extended) in tables.SUITES.items():
        octets = hashlib.shake_256(f"forged {suite} {seed}".encode()).digest(KEYS * long + 12 + DATA)
        keys, client = [octets[it * long :][:long] for it in range(KEYS)], octets[KEYS * long :]
        hash_keys = [int.from_bytes(expected.encrypt(key, bytes(16)), "big") for key in keys]
        change = polynomial(hash_keys[:-1])
        own = [f"{it:08x} {'5a' * 12}" if extended else "" for it in (1, 2)]
        for key in keys:
            names = {"suite": suite, "key": key.hex(), "client": client.hex(), "sender": own[0][:8]}
            lines = LINES.format(own_a=own[0], own_b=own[1], **names)
            sent = bytes.fromhex(expected.run_script(lines.encode())[1].decode().split()[-1])
            at = len(sent) - 16 - DATA
            forged = sent[:at] + added(sent[at:-16], change) + sent[-16:]
            script = f"{lines}inject {forged.hex()}\nB deliver 1\n".encode()
            text = expected.run_script(script)[1]
            verdict = f"OK {(client[:12] + added(client[12:], change)).hex()}" if key is not keys[-1] else "NotValid"
            wanted = b"\n".join([*text.splitlines()[:-1], b"%d %s\n" % (len(script.splitlines()), verdict.encode())])
            yield Case("forged", ["run", "-"], (0, wanted, b"", None), script), text
