#!/usr/bin/env python3
"""Prints what `edicheck edit STORE TEXT` prints, with the script on standard input.

  edit.py LIBRARY STORE TEXT

LIBRARY is libedicheck.so, which is made of the static library as docs/EMBEDDING.md says.
"""
import ctypes
import sys

DONE, NO_ROOM, BAD_SCRIPT = 0, 4, 9
OCTETS = [ctypes.c_char_p, ctypes.c_size_t]
OUT = [ctypes.c_char_p, ctypes.c_size_t, ctypes.POINTER(ctypes.c_size_t)]


class Refused(Exception):
    """A code that isn't `DONE`, and the number that goes with it."""


def load(path):
    library = ctypes.CDLL(path)
    for name, inputs in {"errors": 2, "tree": 2, "contrl": 4, "script": 3}.items():
        call = getattr(library, "edicheck_" + name)
        call.argtypes, call.restype = OCTETS * inputs + OUT, ctypes.c_uint32
    return library


def ask(call, *inputs, also=()):
    """What a call puts for these octets; a code beside DONE that puts something is named in `also`."""
    told = [word for octets in inputs for word in (octets, len(octets))]
    room, needed = 1024, ctypes.c_size_t()
    while True:
        out = ctypes.create_string_buffer(room)
        code = call(*told, out, room, ctypes.byref(needed))
        if code == DONE or code in also:
            return out.raw[:needed.value]
        if code != NO_ROOM:
            raise Refused(code, needed.value)
        room = needed.value


def main(path, *names):
    store, text = (open(name, "rb").read() for name in names)
    script = sys.stdin.buffer.read()
    sys.stdout.buffer.write(ask(load(path).edicheck_script, store, text, script, also=[BAD_SCRIPT]))


if __name__ == "__main__":
    main(*sys.argv[1:])
