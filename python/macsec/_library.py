"""Finds libmacsec.so.1, and declares its structures and calls as include/macsec.h does."""

from __future__ import annotations

import ctypes
import functools
import os
from ctypes import c_bool, c_char_p, c_size_t, c_uint8, c_uint16, c_uint32, c_uint64, c_void_p
from typing import Any

SONAME = "libmacsec.so.1"
Sci = c_uint8 * 8


class Endpoint(ctypes.Structure):
    _fields_ = [("secy", c_void_p)]


class Config(ctypes.Structure):
    _fields_ = [("sci", Sci), ("suite", c_uint32), ("form", c_uint32), ("max_frame", c_uint32)]


class Sak(ctypes.Structure):
    _fields_ = [
        ("bytes", c_uint8 * 32), ("salt", c_uint8 * 12), ("ssci", c_uint32), ("suite", c_uint32), ("number", c_uint16),
        ("length", c_uint8), ("offset", c_uint8),
    ]  # fmt: skip


class Command(ctypes.Structure):
    _fields_ = [
        ("sak", Sak), ("pn", c_uint64), ("sci", Sci), ("ssci", c_uint32), ("kind", c_uint32), ("choice", c_uint32),
        ("key", c_uint16), ("an", c_uint8), ("flag", c_uint8), ("reserved", c_uint64 * 5),
    ]  # fmt: skip


class Sent(ctypes.Structure):
    _fields_ = [
        ("frame", c_void_p), ("length", c_size_t), ("status", c_uint32), ("fate", c_uint32), ("key", c_uint16),
        ("reserved", c_uint64 * 4),
    ]  # fmt: skip


class Received(ctypes.Structure):
    _fields_ = [
        ("frame", c_void_p), ("length", c_size_t), ("status", c_uint32), ("verdict", c_uint32), ("sci", Sci),
        ("an", c_uint8), ("has_sa", c_bool), ("delivered", c_bool), ("pn", c_uint64), ("reserved", c_uint64 * 2),
    ]  # fmt: skip


class Options(ctypes.Structure):
    _fields_ = [
        ("window", c_uint64), ("mode", c_uint32), ("form", c_uint32), ("protect", c_bool), ("replay", c_bool),
        ("reserved", c_uint64 * 5),
    ]  # fmt: skip


class Counters(ctypes.Structure):
    # made: endpoint-counters of tools/families.json
    _fields_ = [
        ("in_pkts_untagged", c_uint64), ("in_pkts_no_tag", c_uint64), ("in_pkts_bad_tag", c_uint64),
        ("in_pkts_reserved", c_uint64), ("in_pkts_no_sa", c_uint64), ("in_pkts_no_sa_error", c_uint64),
        ("in_octets_validated", c_uint64), ("in_octets_decrypted", c_uint64), ("out_pkts_untagged", c_uint64),
        ("out_pkts_too_long", c_uint64), ("out_pkts_no_sa", c_uint64), ("reserved", c_uint64 * 5),
    ]  # fmt: skip
    # end


class TxCounters(ctypes.Structure):
    # made: tx-counters of tools/families.json
    _fields_ = [
        ("out_pkts_protected", c_uint64), ("out_pkts_encrypted", c_uint64), ("out_octets_protected", c_uint64),
        ("out_octets_encrypted", c_uint64), ("reserved", c_uint64 * 4),
    ]  # fmt: skip
    # end


class RxCounters(ctypes.Structure):
    # made: rx-counters of tools/families.json
    _fields_ = [
        ("in_pkts_ok", c_uint64), ("in_pkts_unchecked", c_uint64), ("in_pkts_delayed", c_uint64),
        ("in_pkts_late", c_uint64), ("in_pkts_invalid", c_uint64), ("in_pkts_not_valid", c_uint64),
        ("reserved", c_uint64 * 10),
    ]  # fmt: skip
    # end


class TxSa(ctypes.Structure):
    _fields_ = [
        ("next", c_uint64), ("next_high", c_uint64), ("key", c_uint16), ("conf", c_bool), ("on", c_bool),
        ("reserved", c_uint64 * 5),
    ]  # fmt: skip


class RxSa(ctypes.Structure):
    _fields_ = [
        ("next", c_uint64), ("next_high", c_uint64), ("lowest", c_uint64), ("lowest_high", c_uint64),
        ("ssci", c_uint32), ("key", c_uint16), ("on", c_bool), ("reserved", c_uint64 * 3),
    ]  # fmt: skip


class Record(ctypes.Structure):
    _fields_ = [("octets", c_uint8 * 64)]


class Journal(ctypes.Structure):
    _fields_ = [("at", c_void_p)]


class JournalCall(ctypes.Structure):
    _fields_ = [
        ("at", c_uint64), ("end", c_uint64), ("length", c_size_t), ("step", c_uint32), ("reserved", c_uint64 * 4),
    ]  # fmt: skip


# The structures by their names in the header without macsec_.
STRUCTURES = {
    "endpoint": Endpoint, "config": Config, "sak": Sak, "command": Command, "sent": Sent, "received": Received,
    "options": Options, "counters": Counters, "tx_counters": TxCounters, "rx_counters": RxCounters, "tx_sa": TxSa,
    "rx_sa": RxSa, "record": Record, "journal": Journal, "journal_call": JournalCall,
}  # fmt: skip

# The arguments of each call after the handle. An SCI and a frame are octets that the call only reads.
_TO_FILL, _SCI = c_void_p, c_char_p
CALLS = {
    "new": (_TO_FILL,),
    "configure_raw": (c_char_p, c_size_t, _TO_FILL),
    "free_raw": (),
    "send_raw": (c_char_p, c_size_t, _TO_FILL),
    "send_uncontrolled_raw": (c_char_p, c_size_t),
    "receive_raw": (c_char_p, c_size_t, _TO_FILL),
    "set_protect": (c_bool,),
    "set_validation": (c_uint32,),
    "set_replay": (c_bool, c_uint64),
    "set_tag_form": (c_uint32,),
    "install_key": (_TO_FILL,),
    "renew_key": (_TO_FILL,),
    "retire_key": (c_uint16,),
    "add_tx_sa": (c_uint8, c_uint16, c_uint64, c_bool),
    "enable_tx_sa": (c_uint8,),
    "disable_tx_sa": (c_uint8,),
    "delete_tx_sa": (c_uint8,),
    "add_rx_sc": (_SCI,),
    "delete_rx_sc": (_SCI,),
    "add_rx_sa": (_SCI, c_uint8, c_uint16, c_uint64, c_uint32),
    "enable_rx_sa": (_SCI, c_uint8),
    "disable_rx_sa": (_SCI, c_uint8),
    "set_lowest_pn": (_SCI, c_uint8, c_uint64),
    "delete_rx_sa": (_SCI, c_uint8),
    "command_line_raw": (c_char_p, c_size_t),
    "get_options": (_TO_FILL,),
    "get_counters": (_TO_FILL,),
    "get_tx_counters": (_TO_FILL,),
    "keys_left": (_TO_FILL,),
    "get_rx_counters": (_SCI, _TO_FILL),
    "get_rx_sa_counters": (_SCI, c_uint8, _TO_FILL),
    "get_removed_counters": (_SCI, _TO_FILL),
    "get_rx_sc": (c_size_t, _TO_FILL),
    "get_tx_sa": (c_uint8, _TO_FILL),
    "get_rx_sa": (_SCI, c_uint8, _TO_FILL),
    "reserve_open_raw": (_TO_FILL, c_char_p, c_size_t, c_bool),
    "reserve_configure_raw": (c_char_p, c_size_t, c_char_p, c_size_t, c_bool, _TO_FILL),
    "reserve_wanted": (c_uint8, c_uint64, _TO_FILL),
    "reserve_to_accept": (_SCI, c_uint8, c_uint64, c_uint64, _TO_FILL),
    "reserve_to_save": (_SCI, c_uint8, _TO_FILL),
    "reserve_granted": (c_char_p,),
    "reserve_tx_floor": (c_uint16, _TO_FILL),
    "reserve_rx_floor": (_SCI, c_uint8, c_uint16, _TO_FILL),
    "answer_raw": (c_uint32, c_char_p, c_size_t, _TO_FILL, c_size_t, _TO_FILL),
}
# The calls without an endpoint; the first argument of most with a journal is its handle.
FREE_CALLS = {
    "parse_line_raw": (c_char_p, c_size_t, _TO_FILL),
    "parse_end_raw": (c_char_p, c_size_t, _TO_FILL),
    "journal_header": (c_char_p, _TO_FILL),
    "journal_compacted_raw": (c_char_p, c_size_t, _TO_FILL, c_size_t, _TO_FILL),
    "journal_created": (c_char_p, _TO_FILL),
    "journal_begin_raw": (_TO_FILL, c_char_p, c_size_t, c_uint32),
    "journal_order_raw": (_TO_FILL, c_char_p, c_size_t, c_bool),
    "journal_next_raw": (_TO_FILL, _TO_FILL, c_size_t, _TO_FILL),
    "journal_answered": (_TO_FILL, c_bool),
    "journal_shown": (_TO_FILL, c_size_t, _TO_FILL),
    "journal_record": (_TO_FILL, c_size_t, _TO_FILL),
    "journal_let_go": (_TO_FILL, c_char_p),
    "journal_whole_raw": (_TO_FILL, _TO_FILL, c_size_t, _TO_FILL),
    "journal_free_raw": (_TO_FILL,),
    "seal_raw": (_TO_FILL, _SCI, c_uint64, c_bool, c_size_t, _TO_FILL, c_size_t),
}


def path() -> str:
    """What is loaded: the file that MACSEC_LIBRARY names, else the library that the system's loader finds."""
    return os.environ.get("MACSEC_LIBRARY") or SONAME


@functools.cache
def load() -> ctypes.CDLL:
    """The library, with the types of its calls. It is loaded once."""
    try:
        library = ctypes.CDLL(path())
    except OSError as why:
        raise ImportError(
            f"cannot load {path()} ({why}): install libmacsec1, or name the file in MACSEC_LIBRARY"
        ) from None
    library.macsec_version.restype, library.macsec_version.argtypes = c_uint32, []
    if library.macsec_version() >= 2_000_000:
        raise ImportError(f"{path()} has version {library.macsec_version()}; this package needs one below 2000000")
    taken = {**{name: (c_void_p, *arguments) for name, arguments in CALLS.items()}, **FREE_CALLS}
    for name, arguments in taken.items():
        call = getattr(library, f"macsec_{name}", None)
        if call is None:
            raise ImportError(f"{path()} has no macsec_{name}: it is older than this package")
        call.argtypes = list(arguments)
        call.restype = None if name.endswith("free_raw") else c_uint32
    return library


@functools.cache
def frame_calls() -> tuple[Any, Any]:
    """macsec_send_raw and macsec_receive_raw for arguments that are octets or objects of ctypes. A conversion of each
    argument takes longer than the rest of the call."""
    library = load()
    send, receive = library["macsec_send_raw"], library["macsec_receive_raw"]
    send.restype = receive.restype = c_uint32
    return send, receive
