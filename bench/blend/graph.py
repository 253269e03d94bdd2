"""The nodes of a file, and what their pointers name. The file has to be one that is accepted: no check is made here."""
import collections
import itertools
import re
import struct

from blend import parts, sdna

# A struct in the file: its length, the ranges outside all its leaves, and the places of its pointers, each
# with what it says of a raw block that it names.
Shape = collections.namedtuple("Shape", "length gaps pointers")

BASIC = b"char int8_t uchar short ushort int long ulong int64_t uint64_t float double void".split()
MEMBER = re.compile(rb"(\**)(\w+)")
# Raw blocks of these codes never hold pointers.
PAIRS = (b"REND", b"TEST")


# ---- what stands in a struct

def saying(stars, type_):
    """What a pointer to a type says of a raw block that it names: that it holds pointers or that it doesn't,
    or nothing."""
    return None if (stars, type_) == (1, b"void") else stars == 2


class Structs:
    """The structs of a catalogue, at a width of pointers."""

    def __init__(self, read, width):
        self.catalogue, self.width = read, width
        self.numbers = {type_: number for number, (type_, _) in enumerate(read.structs)
                        if read.types[type_] not in BASIC}
        self.shapes = {}

    def inner(self, kind, name):
        """The number of the struct that a member of this type and name is by value, or nothing."""
        pointer, _ = sdna.elements(name)
        return None if pointer else self.numbers.get(kind)

    def has_id_part(self, number):
        """The struct is `ID`, or its first member is `id`, by value, one struct `ID`."""
        _, types, _, structs = self.catalogue
        type_, members = structs[number]
        if types[type_] == b"ID":
            return True
        if not members:
            return False
        kind, name = members[0][0], self.catalogue.names[members[0][1]]
        _, count = sdna.elements(name)
        return (types[kind] == b"ID" and self.inner(kind, name) is not None and count == 1
                and MEMBER.match(name)[2] == b"id")

    def leaves(self, number):
        """The leaves of a struct in order, each with place, bytes, whether it is a pointer, and what that
        says; an array is one leaf, and one of pointers as many as it has elements."""
        names, types, lengths, structs = self.catalogue
        at = 0
        for kind, field in structs[number][1]:
            pointer, count = sdna.elements(names[field])
            inner = self.inner(kind, names[field])
            size = self.width if pointer else lengths[kind]
            if pointer:
                found = MEMBER.match(names[field])
                says = saying(len(found[1]), types[kind]) if found else False
                yield from ((at + k * size, size, True, says) for k in range(count))
            elif inner is None:
                yield at, count * size, False, None
            elif count * size > 0:
                for k in range(count):
                    yield from ((at + k * size + place, *leaf) for place, *leaf in self.leaves(inner))
            at += count * size

    def shape(self, number):
        if number not in self.shapes:
            length = self.catalogue.lengths[self.catalogue.structs[number][0]]
            gaps, pointers, behind = [], [], 0
            for at, size, pointer, says in itertools.chain(self.leaves(number), [(length, 0, False, None)]):
                if at > behind:
                    gaps.append((behind, at))
                behind = at + size
                if pointer:
                    pointers.append((at, says))
            self.shapes[number] = Shape(length, gaps, pointers)
        return self.shapes[number]


# ---- what a file says

class File:
    """The nodes of a file, numbered from 0, with what their pointers name."""

    def __init__(self, file):
        self.form = parts.form(file)
        every = list(parts.blocks(file, self.form))
        payload = next(block.payload for block in every if block.code == b"DNA1")
        self.catalogue = sdna.read(payload, self.form.order)
        self.structs = Structs(self.catalogue, self.form.width)
        self.nodes = [block for block in every if block.code != b"DNA1"]
        self.groups = list(itertools.accumulate(node.code != b"DATA" for node in self.nodes))
        # The last node of a group with an address, and the last ID with it.
        self.in_group = {(group, node.address): k for k, (group, node) in enumerate(zip(self.groups, self.nodes))}
        self.ids = {node.address: k for k, node in enumerate(self.nodes) if self.is_id(node)}
        self.pointer = struct.Struct(self.form.order + {4: "I", 8: "Q"}[self.form.width])
        self.arrays = self.pointer_arrays()

    def is_id(self, node):
        return (parts.is_two_letter(node.code) and node.count == 1 and node.index != 0
                and self.structs.has_id_part(node.index))

    def target(self, group, address):
        """The number of the node that an address names in a group, or nothing."""
        if address == 0:
            return None
        return self.in_group.get((group, address), self.ids.get(address))

    def targets(self, k, places):
        """What node k's pointers at some places name."""
        payload, group = self.nodes[k].payload, self.groups[k]
        return (self.target(group, self.pointer.unpack_from(payload, at)[0]) for at in places)

    def element_places(self, node):
        """Where the elements of a struct node begin."""
        length = self.structs.shape(node.index).length
        return range(0, node.count * length, length) if length else ()

    def pointer_arrays(self):
        """The numbers of the raw nodes that hold pointers: something is said of them, and that by all."""
        sayings = collections.defaultdict(set)
        for k, node in enumerate(self.nodes):
            if node.index == 0:
                continue
            slots = [(start + at, says) for start in self.element_places(node)
                     for at, says in self.structs.shape(node.index).pointers]
            for to, (_, says) in zip(self.targets(k, (at for at, _ in slots)), slots):
                if to is not None and says is not None:
                    sayings[to].add(says)
        return {k for k, found in sayings.items()
                if found == {True} and self.nodes[k].index == 0 and self.nodes[k].code not in PAIRS}
