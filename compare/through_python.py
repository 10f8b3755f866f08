"""Reads requests on standard input and answers each through ctypes, from the shared object that its argument names."""

import ctypes
import os
import sys

sys.path.insert(0, os.path.join(os.path.dirname(os.path.abspath(__file__)), "..", "independent"))
import record
from record import table

TYPES = {"u8": ctypes.c_uint8, "u16": ctypes.c_uint16, "u32": ctypes.c_uint32, "usize": ctypes.c_size_t}
FUNCTIONS = {function.name: function for function in table.functions()}


class Answer(ctypes.Structure):
    _fields_ = [(member, ctypes.c_uint64) for member in table.MEMBERS]


def slices_of(function, r):
    """The slices of a call, each with what it holds before. Of two sources the request's first number parts them."""
    sources = [p.name for p in function.parameters if p.type == "&[u8]"]
    parts = (r.source[: r.a], r.source[r.a:]) if len(sources) == 2 else (r.source,)
    held = dict(zip(sources, parts))
    lent = not sources
    for parameter in function.parameters:
        if parameter.type == "&mut [u8]":
            held[parameter.name] = list(r.source) if lent else record.target_before(r.seed, r.target)
        elif parameter.type == "&mut [u16]":
            held[parameter.name] = record.trellis_before(r.seed, r.trellis)
    return held


def packed(function, number, said, r):
    """A call's number and answer in the form of compare/FORMAT.md. Of value and disagreements one is always 0."""
    if number:
        stays = r.a if any(p.name == "delays" for p in function.parameters) else 0
        return record.pack("refused", stays % 2**32, number)
    return record.pack(record.CASES[said.verdict], (said.value + said.disagreements) % 2**32, said.place)


def answered(library, r):
    function = FUNCTIONS[record.ENTRIES[r.entry]]
    before, numbers, said = slices_of(function, r), iter((r.a, r.b, r.c)), Answer()
    held, arguments = {}, []
    for parameter in function.parameters:
        if parameter.type in TYPES:
            arguments.append(TYPES[parameter.type](next(numbers)))
        else:
            entry = TYPES["u16" if "u16" in parameter.type else "u8"]
            held[parameter.name] = (entry * len(before[parameter.name]))(*before[parameter.name])
            arguments += [held[parameter.name], ctypes.c_size_t(len(before[parameter.name]))]
    if function.says:
        arguments.append(ctypes.byref(said))
    call = getattr(library, "caplattice_" + function.name)
    call.restype = ctypes.c_uint8
    number = call(*arguments)
    changed = {name: record.changed(list(before[name]), list(held[name])) for name in held}
    zeroed, written = changed.get("trellis", []), changed.get("target", [])
    assert not any(zeroed)
    return r._replace(answer=packed(function, number, said, r), written=bytes(written), zeroed=len(zeroed))


def main():
    library = ctypes.CDLL(sys.argv[1])
    for r in record.read(sys.stdin.buffer):
        record.write(sys.stdout.buffer, answered(library, r))


main()
