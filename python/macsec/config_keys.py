"""The keys of a CONFIG, or of macsecd's file, each with the senders that the file names for it."""

from __future__ import annotations

from .endpoint_of_config import Configuration, KeyLine
from .trial import KeyArgument


def keys_of_config(text: bytes) -> list[KeyArgument]:
    """The keys of a text: first for the associations that have them, with the upper half of their packet numbers and
    then with any, and last for any sender. A line that is refused is left out.

    >>> text = b"device link eth0\\nend A gcm128 0200000000010001 1546 sci\\n"
    >>> text += b"A key 3 ad7a2bd03eac835a6f620fdcb506b345 0\\n"
    >>> [(it.octets.hex(), it.id) for it in keys_of_config(text)]
    [('ad7a2bd03eac835a6f620fdcb506b345', 'key 3')]
    """
    configuration = Configuration(text)
    found = []
    for sci in configuration.channels():
        for an in range(4):
            row = configuration.rx_sa(sci, an)
            if row is not None:
                found += _arguments(configuration.keys[row.key], row.ssci, sci, an, row.lowest)
    for an in range(4):
        try:
            sending = configuration.secy.tx_sa(an)
        except LookupError:
            continue
        key = configuration.keys[sending.key]
        found += _arguments(key, key.ssci, configuration.sci, an, sending.next)
    found += [_argument(it) for it in configuration.keys.values()]
    configuration.close()
    return list(dict.fromkeys(found))


def _arguments(key: KeyLine, ssci: int, sci: bytes, an: int, number: int) -> list[KeyArgument]:
    """The key of an association whose packet numbers begin at this one."""
    made = _argument(key, ssci, sci, an)
    return [made._replace(upper=number >> 32), made] if number >> 32 else [made]


def _argument(key: KeyLine, ssci: int | None = None, sci: bytes | None = None, an: int | None = None) -> KeyArgument:
    if not key.suite.is_extended:
        return KeyArgument(key.octets, sci=sci, an=an, id=key.name)
    return KeyArgument(key.octets, key.salt, ssci, sci, an, key.name)
