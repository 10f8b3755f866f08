"""Reads tools/boundary/functions.txt, the one table of the public functions."""
import re
from collections import namedtuple
from pathlib import Path

ROOT = Path(__file__).resolve().parent.parent.parent
NUMBERS = ("u8", "u16", "u32", "usize")
SLICES = ("&[u8]", "&mut [u8]", "&mut [u16]")
# 9 is retired and may never be given to anything else: a new refusal takes the next number from 10 on.
REFUSALS = {"LIMIT": 1, "SHORT": 2, "ROOM": 3, "BIT": 4, "SHUFFLE": 5, "WORD": 6, "FIELD": 7, "KIND": 8}
ORDER = ("KIND", "FIELD", "WORD", "LIMIT", "SHUFFLE", "SHORT", "ROOM", "BIT")
MEMBERS = ("verdict", "value", "disagreements", "place", "erasures", "bits")

Group = namedtuple("Group", "title text functions")
Parameter = namedtuple("Parameter", "name type meaning")
Function = namedtuple("Function", "name does parameters writes says refuses")


class Fault(Exception):
    """What is wrong with the table or with a file that follows it."""


def function_of(paragraph):
    """A function from its paragraph: the name, then a line for each thing that is said of it."""
    name, does, parameters, writes, says, refuses = paragraph[0].strip(), "", [], "", [], None
    for line in paragraph[1:]:
        word, _, rest = line.strip().partition(" ")
        rest = rest.strip()
        kind = next((kind for kind in SLICES + NUMBERS if rest.startswith(kind + " ")), None)
        if word == "does":
            does = rest
        elif word == "writes":
            writes = rest
        elif word == "says":
            says.append(tuple(part.strip() for part in rest.split(None, 1)))
        elif word == "refuses":
            refuses = refuses or []
            if rest != "nothing":
                refuses.append(tuple(part.strip() for part in rest.split(None, 1)))
        elif kind:
            parameters.append(Parameter(word, kind, rest[len(kind):].strip()))
        else:
            raise Fault(f"tools/boundary/functions.txt: {name}: cannot read the line '{line.strip()}'")
    order = [ORDER.index(number) for number, _ in refuses or [] if number in ORDER]
    if not does or refuses is None or len(order) != len(refuses) or order != sorted(order):
        raise Fault(f"tools/boundary/functions.txt: {name} needs a 'does' line, and 'refuses' lines in document 01's order")
    if any(member not in MEMBERS for member, _ in says):
        raise Fault(f"tools/boundary/functions.txt: {name} speaks of a member that the answer does not have")
    return Function(name, does, parameters, writes, says, refuses)


def groups():
    found, paragraph = [], []
    lines = (ROOT / "tools/boundary/functions.txt").read_text().splitlines()
    for line in [line for line in lines if not line.startswith("#")] + [""]:
        if line.startswith("["):
            found.append(Group(line.strip("[]"), [], []))
        elif paragraph and (not line or line[0] != " "):
            found[-1].functions.append(function_of(paragraph))
            paragraph = []
        if re.fullmatch(r"[a-z]\w*", line):
            paragraph = [line]
        elif paragraph:
            paragraph.append(line)
        elif found and not line.startswith("[") and (line or found[-1].text):
            found[-1].text.append(line)
    for group in found:
        while group.text and not group.text[-1]:
            group.text.pop()
    return found


def functions():
    return [function for group in groups() for function in group.functions]


def version():
    """Major, minor and patch, from the file VERSION."""
    words = (ROOT / "VERSION").read_text().strip().split(".")
    if len(words) != 3 or not all(word.isdigit() and int(word) < 1000 for word in words):
        raise Fault("VERSION must be MAJOR.MINOR.PATCH, each below 1,000")
    return tuple(map(int, words))
