"""The functions of libxv6, with their types, and the structs that they fill."""
from __future__ import annotations

import ctypes
import os

__all__ = [
    "AssembledPut", "DescriptorPut", "EntryPut", "Error", "ExpandedPut", "FaultPut", "MachinePut", "ProcessPut", "StatPut", "SummaryPut",
    "VERSION", "WaitPut", "WalkPut", "library",
]

VERSION = 1004
"""The number of the interface, not of the release: the major number times 1000, and the minor one."""


class Error(Exception):
    """What this module raises. `reason` says why in words."""

    def __init__(self, reason: str):
        super().__init__(reason)
        self.reason = reason


class MachinePut(ctypes.Structure):
    _fields_ = [("inside", ctypes.c_void_p)]


class ProcessPut(ctypes.Structure):
    _fields_ = [
        ("registers", ctypes.c_uint64 * 32), ("pc", ctypes.c_uint64), ("size", ctypes.c_uint64), ("pid", ctypes.c_uint32),
        ("parent", ctypes.c_uint32), ("state", ctypes.c_uint32), ("call", ctypes.c_uint32), ("status", ctypes.c_int32),
        ("killed", ctypes.c_uint32),
    ]


class DescriptorPut(ctypes.Structure):
    _fields_ = [
        ("number", ctypes.c_uint64), ("file", ctypes.c_uint32), ("kind", ctypes.c_uint32), ("offset", ctypes.c_uint32),
        ("readable", ctypes.c_uint32), ("writable", ctypes.c_uint32), ("descriptors", ctypes.c_uint32),
    ]


class WaitPut(ctypes.Structure):
    _fields_ = [("arguments", ctypes.c_uint64 * 3), ("done", ctypes.c_uint64), ("since", ctypes.c_uint32)]


class FaultPut(ctypes.Structure):
    _fields_ = [("address", ctypes.c_uint64), ("pc", ctypes.c_uint64), ("cause", ctypes.c_uint32)]


class StatPut(ctypes.Structure):
    _fields_ = [("kind", ctypes.c_uint32), ("links", ctypes.c_uint32), ("size", ctypes.c_uint32)]


class WalkPut(ctypes.Structure):
    _fields_ = [("entries", ctypes.c_uint64 * 3), ("count", ctypes.c_uint32)]


class EntryPut(ctypes.Structure):
    _fields_ = [
        ("path", ctypes.c_uint64), ("size", ctypes.c_uint64), ("kind", ctypes.c_uint32), ("major", ctypes.c_uint16),
        ("minor", ctypes.c_uint16),
    ]


class SummaryPut(ctypes.Structure):
    _fields_ = [("inodes", ctypes.c_uint64), ("blocks", ctypes.c_uint64)]


class AssembledPut(ctypes.Structure):
    _fields_ = [("bytes", ctypes.c_uint64), ("line", ctypes.c_uint64)]


class ExpandedPut(ctypes.Structure):
    _fields_ = [("bytes", ctypes.c_uint64), ("report", ctypes.c_uint64)]


def load() -> ctypes.CDLL:
    """The library, each of its functions with its types."""
    name = os.environ.get("XV6_LIBRARY") or os.path.join(os.path.dirname(os.path.abspath(__file__)), "libxv6.so")
    try:
        library = ctypes.CDLL(name)
    except OSError as error:
        raise ImportError(f"{name} cannot be loaded ({error}): pip install a release's wheel, run make library, or name it by XV6_LIBRARY") from None
    at = ctypes.POINTER(MachinePut)
    u32, u64, size, data = ctypes.c_uint32, ctypes.c_uint64, ctypes.c_size_t, ctypes.c_char_p
    for function_name, answer, takes in [
        ("version", u32, []),
        ("boot", u32, [data, size, u32, at]),
        ("copy", u32, [at, at]),
        ("close", None, [MachinePut]),
        ("steps", u32, [at, u32]),
        ("run", u32, [at, u32, ctypes.POINTER(u32)]),
        ("compute", u32, [at, u32, ctypes.POINTER(u64), size]),
        ("tick", u32, [at]),
        ("key", u32, [at, ctypes.c_uint8]),
        ("console", size, [at, data, size]),
        ("is_idle", u32, [at]),
        ("is_anyone_asleep", u32, [at]),
        ("running", u32, [at]),
        ("next_pid", u32, [at, u32]),
        ("process", u32, [at, u32, ctypes.POINTER(ProcessPut)]),
        ("descriptor", u32, [at, u32, size, ctypes.POINTER(DescriptorPut)]),
        ("pipe", u32, [at, size, data, size, ctypes.POINTER(size)]),
        ("wait", u32, [at, u32, ctypes.POINTER(WaitPut)]),
        ("directory", u32, [at, u32]),
        ("fault", u32, [at, u32, ctypes.POINTER(FaultPut)]),
        ("page", u32, [at, u32, u64, data, size]),
        ("walk", u32, [at, u32, u64, ctypes.POINTER(WalkPut)]),
        ("free_frames", u32, [at]),
        ("ticks", u32, [at]),
        ("coming_pid", u32, [at]),
        ("digest", u32, [at, ctypes.POINTER(u64)]),
        ("stat", u32, [at, size, ctypes.POINTER(StatPut)]),
        ("read", u32, [at, size, size, data, size, ctypes.POINTER(size)]),
        ("save", u32, [MachinePut, data, size, ctypes.POINTER(size)]),
        ("mkfs", u32, [ctypes.POINTER(EntryPut), size, data, size, u32, data, size]),
        ("check", u32, [data, size, ctypes.POINTER(SummaryPut)]),
        ("list", u32, [data, size, data, size, data, size, ctypes.POINTER(size)]),
        ("get", u32, [data, size, data, size, data, size, ctypes.POINTER(size)]),
        ("put", u32, [data, size, data, size, data, size]),
        ("migrate", u32, [data, size]),
        ("locate", u32, [data, size, u64, data, size, ctypes.POINTER(size)]),
        ("asm", u32, [data, size, data, size, ctypes.POINTER(AssembledPut)]),
        ("as", u32, [data, size, data, size, data, size, ctypes.POINTER(ExpandedPut)]),
    ]:
        function = getattr(library, "xv6_raw_" + function_name)
        function.restype, function.argtypes = answer, takes
    return library


library = load()
if library.xv6_raw_version() // 1000 != VERSION // 1000:
    raise ImportError(f"libxv6 has version {library.xv6_raw_version()}, and this file is for {VERSION // 1000} thousand and some")
