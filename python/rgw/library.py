"""The library: where it is, and its functions.

Calls keep the interpreter's lock (`PyDLL`), so no two of them overlap.
"""

import ctypes
import os
from ctypes import POINTER, Structure, c_char_p, c_size_t, c_uint16, c_uint32, c_uint64, c_void_p
from ctypes.util import find_library
from pathlib import Path

# The version of the library that this package is written for.
VERSION = 100


class Handle(Structure):
    """One word, null or a pointer, that the library alone reads and writes."""

    _fields_ = [("inner", c_void_p)]


class OutputInfo(Structure):
    """rgw_output_info"""

    _fields_ = [("moment", c_uint64), ("host", c_uint32), ("port", c_uint16)]


class MessageInfo(Structure):
    """rgw_message_info"""

    _fields_ = [
        ("moment", c_uint64),
        ("host", c_uint32),
        ("id", c_uint32),
        ("port", c_uint16),
        ("whose", c_uint16),
        ("line", c_uint16),
        ("what", c_uint16),
        ("code", c_uint16),
        ("verb", c_uint16),
        ("send", c_uint16),
    ]


class OutcomeInfo(Structure):
    """rgw_outcome_info"""

    _fields_ = [
        ("place", c_uint64),
        ("id", c_uint32),
        ("came", c_uint16),
        ("verb", c_uint16),
        ("got", c_uint16),
        ("code", c_uint16),
        ("fault", c_uint16),
    ]


class GivenUpInfo(Structure):
    """rgw_given_up_info"""

    _fields_ = [("moment", c_uint64), ("id", c_uint32), ("line", c_uint16), ("verb", c_uint16)]


class SignalInfo(Structure):
    """rgw_signal_info"""

    _fields_ = [("end", c_uint64), ("signal", c_uint16), ("ends", c_uint16)]


class ConnectionInfo(Structure):
    """rgw_connection_info"""

    _fields_ = [
        ("number", c_uint32),
        ("local_host", c_uint32),
        ("remote_host", c_uint32),
        ("local_port", c_uint16),
        ("remote_port", c_uint16),
        ("is_remote_known", c_uint16),
        ("mode", c_uint16),
        ("packet_time", c_uint16),
        ("payloads", c_uint16),
        ("first_payload", c_uint16),
        ("last_payload", c_uint16),
    ]


_AT = POINTER(Handle)
_TEXT = [c_char_p, c_size_t]
_BUFFER = [c_char_p, c_size_t, POINTER(c_size_t)]

# The parameters of each export of rgw.h, whose names end in `_nonnull`; the first of all but `check` is the handle.
PARAMETERS = {
    "open": [_AT, *_TEXT, c_uint32],
    "check": [*_TEXT, *_BUFFER],
    "close": [_AT],
    "datagram": [_AT, c_uint32, c_uint16, *_TEXT],
    "phone": [_AT, c_uint16, c_uint32],
    "tick": [_AT, c_uint64],
    "now": [_AT, POINTER(c_uint64)],
    "next_due": [_AT, POINTER(c_uint64)],
    "outputs": [_AT, POINTER(c_size_t)],
    "output": [_AT, c_size_t, POINTER(OutputInfo), *_BUFFER],
    "messages": [_AT, POINTER(c_size_t)],
    "message": [_AT, c_size_t, POINTER(MessageInfo)],
    "outcome": [_AT, c_size_t, POINTER(OutcomeInfo)],
    "given_up": [_AT, c_size_t, POINTER(GivenUpInfo)],
    "lines": [_AT, POINTER(c_uint16)],
    "hook": [_AT, c_uint16, POINTER(c_uint32)],
    "lost": [_AT, c_uint16, POINTER(c_uint64)],
    "signal": [_AT, c_uint16, c_size_t, POINTER(SignalInfo)],
    "connection": [_AT, c_uint16, c_uint16, POINTER(ConnectionInfo)],
}


def _path() -> str:
    """Where the library is: RGW_LIBRARY, in this package, as ./build or tools/unproved left it last, or as it is installed."""
    here = Path(__file__).resolve().parent
    for path in (os.environ.get("RGW_LIBRARY"), here / "librgw.so.1"):
        if path and Path(path).is_file():
            return str(path)
    out = here.parent.parent / "out"
    built = [it for it in (out / "librgw.so.1", out / "unproved" / "librgw.so.1") if it.is_file()]
    if built:
        return str(max(built, key=lambda it: it.stat().st_mtime))
    found = find_library("rgw")
    if found is None:
        raise ImportError("there is no librgw.so.1: RGW_LIBRARY may say where it is; ./build makes it, and `tools/unproved library` "
                          "an unproved one in minutes")
    return found


def _loaded() -> ctypes.PyDLL:
    library = ctypes.PyDLL(PATH)
    library.rgw_version.restype, library.rgw_version.argtypes = c_uint32, []
    if library.rgw_version() != VERSION:
        raise ImportError(f"librgw has version {library.rgw_version()}, and this package is for {VERSION}")
    for name, parameters in PARAMETERS.items():
        function = getattr(library, f"rgw_{name}_nonnull")
        function.restype, function.argtypes = c_uint32, parameters
    return library


PATH = _path()
LIBRARY = _loaded()
# Whether nothing of the library is proved: tools/unproved made it.
IS_UNPROVED = hasattr(LIBRARY, "rgw_unproved")
# Each export by its name in PARAMETERS.
CALLS = {name: getattr(LIBRARY, f"rgw_{name}_nonnull") for name in PARAMETERS}
