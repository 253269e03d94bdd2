"""The catalogue of a file, Blender's SDNA: its payload, as it is read and written, and the names of members."""
import array
import collections
import itertools
import re
import struct
import sys

Catalogue = collections.namedtuple("Catalogue", "names types lengths structs")

PLAIN_NAME = re.compile(rb"(\**)\w+((?:\[\d{1,9}\])*)")
FUNCTION_NAME = re.compile(rb"\(\*\w+\).*", re.DOTALL)
MOST_ELEMENTS = 2 ** 31 - 1


def read(payload, order):
    """The catalogue of a payload that is good; each struct is the number of its type, and pairs of the
    numbers of a member's type and name."""
    at = 4

    def tag(expected):
        nonlocal at
        at += -at % 4
        assert payload[at:at + 4] == expected, f"no {expected} at {at}"
        at += 4

    def numbers(form, count):
        nonlocal at
        found = struct.unpack_from(f"{order}{count}{form}", payload, at)
        at += struct.calcsize(f"{order}{count}{form}")
        return found

    def strings():
        nonlocal at
        words = []
        for _ in range(*numbers("I", 1)):
            behind = payload.index(0, at)
            words.append(payload[at:behind])
            at = behind + 1
        return words

    tag(b"NAME")
    names = strings()
    tag(b"TYPE")
    types = strings()
    tag(b"TLEN")
    lengths = numbers("H", len(types))
    tag(b"STRC")
    structs = []
    for _ in range(*numbers("I", 1)):
        number, count = numbers("H", 2)
        members = numbers("H", 2 * count)
        structs.append((number, list(zip(members[::2], members[1::2]))))
    return Catalogue(names, types, lengths, structs)


def elements(name):
    """Whether a member's name makes a pointer, and how many elements it has."""
    if FUNCTION_NAME.fullmatch(name):
        return True, 1
    found = PLAIN_NAME.fullmatch(name)
    assert found, f"a bad name {name}"
    count = 1
    for extent in re.findall(rb"\d+", found[2]):
        count *= int(extent)
    assert count <= MOST_ELEMENTS, f"too many elements in {name}"
    return found[1] != b"", count


def padded(part):
    return part + b"\0" * (-len(part) % 4)


def written(names, types, lengths, structs, order="<"):
    """A payload of the names and types as bytes, the types' lengths, and the structs: of each the number of
    its type, and of each of its members the numbers of type and name."""
    def numbers(form, values):
        those = array.array(form, values)
        if (order == "<") != (sys.byteorder == "little"):
            those.byteswap()
        return those.tobytes()

    def strings(words):
        return numbers("I", [len(words)]) + b"".join(word + b"\0" for word in words)

    entries = array.array("H")
    for number, members in structs:
        entries.extend((number, len(members)))
        entries.extend(itertools.chain.from_iterable(members))
    return (padded(b"SDNANAME" + strings(names)) + padded(b"TYPE" + strings(types))
            + padded(b"TLEN" + numbers("H", lengths))
            + b"STRC" + numbers("I", [len(structs)]) + numbers("H", entries))
