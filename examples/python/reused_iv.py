#!/usr/bin/env python3
"""Two runs under one key begin at one packet number. Shows what an attacker reads who knows one of the two frames.

GCM encrypts by the XOR of the data and a key stream, which the key and the IV (SCI and packet number) determine: the
same IV, the same stream. Nothing below computes a cipher. The key is a published test vector: use your own."""

from __future__ import annotations

from macsec import SecY

CONFIG = """\
end A gcm128 0200000000010001 1546 sci
A key 0 ad7a2bd03eac835a6f620fdcb506b345 0
A txsa 0 0 1 conf
A txon 0
"""
HEAD = bytes.fromhex("ffffffffffff" "020000000001")
DATA = slice(28, -16)


def xor(one, other):
    """The XOR of two texts, octet by octet."""
    return bytes(a ^ b for a, b in zip(one, other))


known = bytes.fromhex("0800") + b"GET /index.html HTTP/1.1"
secret = bytes.fromhex("0800") + b"user=root password=pizza"

print("the first run sends what the attacker knows, the second run a secret")
with SecY.configure(CONFIG) as first_run:
    first = first_run.send(HEAD + known).frame
with SecY.configure(CONFIG) as second_run:
    second = second_run.send(HEAD + secret).frame
print(f"  IV of the first   {first[20:28].hex()} {first[16:20].hex()}")
print(f"  IV of the second  {second[20:28].hex()} {second[16:20].hex()}")

print("the XOR of the first frame and the known data is the key stream, which opens the second frame")
stream = xor(first[DATA], known)
print(f"  the secret        {xor(second[DATA], stream)[2:].decode()}")

print("within one run the library refuses to use a number again")
with SecY.configure(CONFIG) as run:
    run.send(HEAD + known)
    run.delete_tx_sa(0)
    try:
        run.add_tx_sa(0, key=0, pn=1, conf=True)
    except Exception as why:
        print(f"  {why}")
    run.add_tx_sa(0, key=0, pn=2, conf=True)
    run.enable_tx_sa(0)
    third = run.send(HEAD + secret).frame
print("under the next number the same attack reads noise")
print(f"  {xor(third[DATA], stream)[2:].hex()}")
