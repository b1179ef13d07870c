#!/usr/bin/env python3
"""Takes a protected frame apart, field by field, and shows what its receiver checks and opens.

The key is a published test vector: use your own."""

from macsec import SecY
from macsec.frames import ICV_OCTETS, read_tag

SENDER = """\
end A gcm128 0200000000010001 1546 sci
A key 0 ad7a2bd03eac835a6f620fdcb506b345 0
A txsa 0 0 1 conf
A txon 0
"""
RECEIVER = """\
end A gcm128 0200000000020001 1546 sci
A key 0 ad7a2bd03eac835a6f620fdcb506b345 0
A rxsc 0200000000010001
A rxsa 0200000000010001 0 0 1
A rxon 0200000000010001 0
"""

client = bytes.fromhex("ffffffffffff" "020000000001" "0800") + b"what the client says"
sender, receiver = SecY.configure(SENDER), SecY.configure(RECEIVER)
link = sender.send(client).frame
tag = read_tag(link)

print("the client's frame")
print(f"  destination       {client[:6].hex()}")
print(f"  source            {client[6:12].hex()}")
print(f"  data              {client[12:].hex()}")
print()
print("on the link")
print(f"  destination       {link[:6].hex()}        authenticated")
print(f"  source            {link[6:12].hex()}        authenticated")
print(f"  EtherType         {link[12:14].hex()}                authenticated: MACsec")
print(f"  TCI and AN        {link[14]:02x}                  authenticated: {tag.flags}; association {tag.an}")
print(f"  SL                {link[15]:02x}                  authenticated: {tag.sl} octets of data, 0 for 48 or more")
print(f"  packet number     {link[16:20].hex()}            authenticated: {tag.pn}")
print(f"  SCI               {tag.sci.hex()}    authenticated: address and port of the sender")
print(f"  data              {link[tag.end : -ICV_OCTETS].hex()}  encrypted")
print(f"  ICV               {link[-ICV_OCTETS:].hex()}  proves all of the above")
print(f"  {len(link) - len(client)} octets more than the client's")
print()
print(f"the IV is the SCI and the packet number: {tag.sci.hex()} {tag.pn:08x}")
print(f"the receiver: {receiver.receive(link).verdict.name}")
print()
print("one bit altered")
fields = {
    "destination": 0,
    "source": 6,
    "EtherType": 12,
    "SL": 15,
    "packet number": 19,
    "SCI": 27,
    "data": 28,
    "ICV": len(link) - 1,
}
for name, at in fields.items():
    altered = bytearray(link)
    altered[at] ^= 0x10
    with SecY.configure(RECEIVER) as fresh:
        print(f"  {name:<16}  {fresh.receive(altered).verdict.name}")
