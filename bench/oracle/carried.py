"""What becomes of an element of a struct under another catalogue, by the table of fates."""
import collections

from blend.graph import MEMBER
from oracle import fates

# What is done to an element of the source: numbers of so many bytes stay, which may be turned, a whole number has another
# size, or a pointer names the new block. `says` is what the pointer says of a raw block under the new catalogue.
Copy = collections.namedtuple("Copy", "source target length unit")
Cast = collections.namedtuple("Cast", "source size signed target new_size")
Pointer = collections.namedtuple("Pointer", "source target says")


# The bytes of a number that a pointer to a basic type names. A `long` has those that it has in its file.
NUMBER_BYTES = {
    **dict.fromkeys((b"char", b"int8_t", b"uchar"), 1), **dict.fromkeys((b"short", b"ushort"), 2),
    **dict.fromkeys((b"int", b"float"), 4), **dict.fromkeys((b"int64_t", b"uint64_t", b"double"), 8),
}
BYTES, POINTERS, PAIR = 1, "pointers", "pair"


def said(stars, kind, length):
    """What a pointer to a type says of a raw block that it names: pointers, numbers of so many bytes, or nothing."""
    if stars == 2:
        return POINTERS
    if stars != 1 or kind not in fates.HOLDS:
        return BYTES
    return None if kind == b"void" else NUMBER_BYTES.get(kind, length)


class FloatClash(Exception):
    """A float meets another number, in a member of a struct."""

    def __init__(self, owner, member):
        self.owner, self.member = owner, member


def kept_elements(source, target):
    """How many elements of an array are carried; a text that is cut keeps room for its zero."""
    if source.kind == target.kind == b"char" and not target.pointer and target.count < source.count:
        return target.count - 1
    return min(source.count, target.count)


def moved(move, by, to):
    return move._replace(source=move.source + by, target=move.target + to)


def joined(moves):
    """The moves, where copies of what stands side by side before and after are one."""
    found = []
    for move in moves:
        last = found[-1] if found else None
        if (isinstance(move, Copy) and isinstance(last, Copy) and last.source + last.length == move.source
                and last.target + last.length == move.target and last.unit == move.unit):
            found[-1] = last._replace(length=last.length + move.length)
        else:
            found.append(move)
    return found


class Carrying:
    """The moves that carry structs of a catalogue at a width of pointers to another."""

    def __init__(self, source, width, target, new_width):
        self.sources, self.targets = fates.structs(source, width), fates.structs(target, new_width)
        self.found = {}

    def of(self, name):
        """The moves for an element of the struct of a name, which both have; a clash where a float meets another
        number, the first over the new members in order."""
        if name not in self.found:
            try:
                self.found[name] = joined(self.of_members(name))
            except FloatClash as clash:
                self.found[name] = clash
        if isinstance(self.found[name], FloatClash):
            raise self.found[name]
        return self.found[name]

    def of_members(self, name):
        met, at = {}, 0
        for member in self.sources[name]:
            met[fates.key(member.name)] = at, member
            at += member.size
        to = 0
        for member in self.targets[name]:
            at, source = met.get(fates.key(member.name), (0, None))
            yield from self.of_member(name, source, member, at, to)
            to += member.size

    def of_member(self, owner, source, target, at, to):
        """The moves for a member at a place of its struct, and at another of the new one."""
        fate = fates.fate(source, target)
        if fate == b"fresh":
            return
        if fate == b"float-cast":
            raise FloatClash(owner, MEMBER.match(target.name)[2])
        size, new_size = source.size // source.count, target.size // target.count
        places = [(at + k * size, to + k * new_size) for k in range(kept_elements(source, target))]
        if target.pointer:
            found = MEMBER.match(target.name)
            says = said(len(found[1]), target.kind, target.length) if found else BYTES
            yield from (Pointer(*place, says) for place in places)
        elif target.holds == "struct":
            inner = self.of(target.kind)
            yield from (moved(move, *place) for place in places for move in inner)
        elif size == new_size:
            yield Copy(at, to, len(places) * size, 1 if source.holds == "opaque" else size)
        else:
            yield from (Cast(here, size, source.holds == "signed", there, new_size) for here, there in places)
