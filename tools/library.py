"""The library from Python: the shared library, by ctypes."""

import ctypes
import os
import sys

import building

ARCHIVE = os.path.join(building.ROOT, "target/staticlib/libvornulica.a")
SHARED = os.path.join(building.ROOT, "target/shared/libvornulica.so")
BYTES = [ctypes.c_char_p, ctypes.c_size_t]
NUMBER = ctypes.c_uint64
PARAMETERS = {
    "rig_house": BYTES,
    "rig_open": [NUMBER, NUMBER, *BYTES, *BYTES],
    "rig_take": [*BYTES, *BYTES],
    "rig_ask": [*BYTES, *BYTES],
    "rig_write": [*BYTES, *BYTES],
    "rig_read_term": [*BYTES, *BYTES, *BYTES],
    "rig_write_term": [*BYTES, NUMBER, *BYTES],
}


class Library:
    """The calls of vornulica.h. A parameter of bytes is one argument here; what a call writes is a ctypes buffer."""

    def __init__(self, path):
        self._library = ctypes.CDLL(path)
        for name, types in PARAMETERS.items():
            call = getattr(self._library, name)
            call.restype, call.argtypes = NUMBER, types

    def __getattr__(self, name):
        call = getattr(self._library, name)

        def with_sizes(*arguments):
            words = []
            for argument in arguments:
                words += [argument] if isinstance(argument, int) else [argument, len(argument)]
            return call(*words)

        return with_sizes


def number_of(answer):
    return answer & 0xFF


def place_of(answer):
    return answer >> 32


def built():
    """The library of this project; built first where there is no archive yet."""
    if not os.path.exists(ARCHIVE):
        print("building the library; from nothing its proof takes some minutes", file=sys.stderr)
        building.run("building the library", ["tools/build", "staticlib", "vornulica"])
    if not os.path.exists(SHARED) or os.path.getmtime(SHARED) < os.path.getmtime(ARCHIVE):
        os.makedirs(os.path.dirname(SHARED), exist_ok=True)
        building.run("looking for a compiler", ["tools/need", "gcc"])
        whole = ["-Wl,--whole-archive", ARCHIVE, "-Wl,--no-whole-archive"]
        building.run("linking the library", ["gcc", "-shared", *whole, "-o", SHARED])
    return Library(SHARED)
