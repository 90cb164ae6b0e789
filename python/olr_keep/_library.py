"""The shared library, loaded by ctypes."""
import ctypes
import os
from typing import Dict, List, Optional, Union

ACCEPTED, REJECTED, NO_MEMORY = 0, 1, 4
NAME = "libolr_keep.so.1"
HERE = os.path.dirname(os.path.realpath(__file__))

LibraryName = Union[str, "os.PathLike[str]", None]


class Handle(ctypes.Structure):
    """A register: `olr_keep` of olr_keep.h."""

    _fields_ = [("at", ctypes.c_void_p), ("full", ctypes.c_bool)]


# The flags of Linux for what x86-64-v2 has beyond x86-64. On a processor without them a call would end the process.
V2 = ("cx16", "lahf_lm", "popcnt", "sse4_1", "sse4_2", "ssse3")

_loaded: Dict[str, ctypes.CDLL] = {}


def lacking(cpuinfo: str) -> List[str]:
    """What a processor lacks of x86-64-v2, by the text of /proc/cpuinfo; nothing if that has no flags."""
    flags = next((it.split() for it in cpuinfo.splitlines() if it.startswith("flags")), list(V2))
    return [it for it in V2 if it not in flags]


def check_processor(name: str = "/proc/cpuinfo") -> None:
    """Raises OSError on a processor that the library isn't for, as far as that is known."""
    try:
        with open(name, encoding="utf-8", errors="replace") as file:
            lost = lacking(file.read())
    except OSError:
        return
    if lost:
        raise OSError(f"the library needs a processor with x86-64-v2, and this one lacks {', '.join(lost)}")


def load(name: LibraryName = None) -> ctypes.CDLL:
    """The library, with the types of its functions. Raises OSError if it can't be loaded, or this processor can't execute it.

    It is the file of this name, else the one that the variable OLR_KEEP_LIBRARY names, else the one beside this file, else the
    one that the system's loader finds.
    """
    beside = os.path.join(HERE, NAME)
    file = os.fspath(name or os.environ.get("OLR_KEEP_LIBRARY") or (beside if os.path.exists(beside) else NAME))
    if file not in _loaded:
        check_processor()
        _loaded[file] = typed(ctypes.CDLL(file))
    return _loaded[file]


def typed(library: ctypes.CDLL) -> ctypes.CDLL:
    """The library, with the types of its functions."""
    handle, size = ctypes.POINTER(Handle), ctypes.POINTER(ctypes.c_size_t)
    types: Dict[str, List[object]] = {
        "version": [ctypes.c_char_p],
        "status_text": [ctypes.c_char_p, ctypes.c_int],
        "make": [ctypes.c_int, handle],
        "drop": [None, handle],
        "ask": [ctypes.c_int, handle, ctypes.c_char_p, ctypes.c_size_t],
        "text": [ctypes.c_void_p, handle, size],
    }
    for name, (result, *arguments) in types.items():
        function = getattr(library, f"olr_keep_{name}")
        function.restype, function.argtypes = result, arguments
    return library


def library_version(name: LibraryName = None) -> str:
    """The version of the library."""
    found: Optional[bytes] = load(name).olr_keep_version()
    return (found or b"").decode()
