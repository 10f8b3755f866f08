"""The record that carries one request and its answer; FORMAT.md in ../compare describes it."""

import os
import struct
import sys
from collections import namedtuple

sys.dont_write_bytecode = True
sys.path.insert(0, os.path.join(os.path.dirname(os.path.abspath(__file__)), "..", "tools", "boundary"))
import table

HEAD = struct.Struct(">BQQHHHBHQHH")

# Entry numbers of the records are places in this list.
ENTRIES = tuple(function.name for function in table.functions())

CASES = ("done", "good", "bad", "clean", "mended", "beyond", "matched", "differs", "refused", "panicked",
         "unasked")

Record = namedtuple("Record", "entry a b c source target seed trellis answer written zeroed")


def target_before(seed, n):
    return [(29 * i + seed) % 251 + 2 for i in range(n)]


def trellis_before(seed, n):
    return [(257 * i + seed) % 65535 + 1 for i in range(n)]


def pack(case, value, number):
    return number << 40 | CASES.index(case) << 32 | value


def unpack(answer):
    """Case, value, number (the place of a mended bit, or a refusal's number)."""
    return CASES[answer >> 32 & 0xFF], answer & 0xFFFFFFFF, answer >> 40


def read(stream):
    while True:
        head = stream.read(HEAD.size)
        if not head:
            return
        entry, a, b, c, source, target, seed, trellis, answer, written, zeroed = HEAD.unpack(head)
        body = stream.read(source + written)
        yield Record(entry, a, b, c, body[:source], target, seed, trellis, answer, body[source:], zeroed)


def write(stream, r):
    stream.write(HEAD.pack(r.entry, r.a, r.b, r.c, len(r.source), r.target, r.seed, r.trellis, r.answer,
                           len(r.written), r.zeroed))
    stream.write(r.source)
    stream.write(r.written)


def changed(before, after):
    """The front of `after` up to the last entry that is not as it was."""
    n = len(before)
    while n > 0 and before[n - 1] == after[n - 1]:
        n -= 1
    return after[:n]


def show(r):
    case, value, number = unpack(r.answer)
    words = [ENTRIES[r.entry], str(r.a), str(r.b), str(r.c), "source", bytes(r.source).hex() or "-",
             "target %d seed %d trellis %d" % (r.target, r.seed, r.trellis), "->",
             case, "%d" % number, "%d" % value,
             "written", bytes(r.written).hex() or "-", "zeroed %d" % r.zeroed]
    return " ".join(words)
