"""MACsec endpoints (IEEE Std 802.1AE-2018) in Python, over the proved library libmacsec.so.1.

`SecY` is an endpoint: it has a method for each call of include/macsec.h. `Verdict`, `Fate`, `Suite`, `Form`, `Mode` and
`Status` have the names that the program `macsec` prints. The library judges every frame; no cipher is computed here.

>>> import macsec
>>> sender = macsec.SecY.configure(\"\"\"
... end A gcm128 0200000000010001 1546 sci
... A key 0 ad7a2bd03eac835a6f620fdcb506b345 0
... A txsa 0 0 1 conf
... A txon 0
... \"\"\")
>>> sent = sender.send(bytes.fromhex("ffffffffffff0200000000010800"))
>>> sent.frame.hex()[:56]
'ffffffffffff02000000000188e52c02000000010200000000010001'
>>> sender.counters()["OutPktsEncrypted"]
1
>>> try:
...     sender.enable_tx_sa(1)
... except macsec.Refused as why:
...     print(why.number, why.name)
13 NoSa
"""

from .errors import CaptureError, FrameFault, JournalFault, MacsecError, NotFound, Refused, TextFault, UsageError
from .forging import Forged, forged
from .journal import Journal, Step, journal_created
from .journal_file import JournalFile
from .names import Fate, Form, Mode, Status, Suite, Verdict
from .sealing import seal
from .secy import Options, Received, RxSa, SecY, Sent, TxSa, journal_compacted, journal_header, version

__all__ = [
    "CaptureError", "Fate", "Forged", "Form", "FrameFault", "Journal", "JournalFault", "JournalFile", "MacsecError",
    "Mode", "NotFound", "Options", "Received", "Refused", "RxSa", "SecY", "Sent", "Status", "Step", "Suite",
    "TextFault", "TxSa", "UsageError", "Verdict", "forged", "journal_compacted", "journal_created", "journal_header",
    "seal", "version",
]  # fmt: skip
