"""Pairs of small catalogues that are drawn at random, and share most structs and many members.

Each is a catalogue with its width of pointers. A member has the same identifier in both, and now and then another
type or other brackets in the second; structs and members are left out of either. Some structs begin with `ID id`, in
one or in both. Of every other pair no member is a float, so that none meets another number."""
import random

from blend.sdna import Catalogue

BASIC = {b"char": (1,), b"int8_t": (1,), b"uchar": (1,), b"short": (2,), b"ushort": (2,), b"int": (4,), b"long": (4, 8),
         b"ulong": (4, 8), b"int64_t": (8,), b"uint64_t": (8,), b"float": (4,), b"double": (8,), b"void": (0,)}
OPAQUE = (b"Opaque0", b"Opaque1")
FLOATS = (b"float", b"double")
STRUCTS = [b"ID"] + [b"Struct%d" % number for number in range(6)] + [b"Struct \"\xc3\""]
IDENTIFIERS = 12
MEMBERS = (0, 4, 9, 9, 9)
BRACKETS = {b"": 1, b"[2]": 2, b"[3]": 3, b"[2][3]": 6, b"[0]": 0}
MOST_LEAVES = 1_000


class Pair:
    def __init__(self, seed, width=None):
        self.draw = random.Random(seed)
        self.basic = [name for name in BASIC if seed % 2 == 0 or name not in FLOATS]
        self.members = {}
        self.both = [self.side(changed, width) for changed in (False, True)]

    def kind(self, below):
        sort = self.draw.randrange(8)
        if sort == 0:
            return self.draw.choice(OPAQUE)
        return self.draw.choice(STRUCTS[:below]) if sort == 1 and below else self.draw.choice(self.basic)

    def member(self, owner, number):
        """A type and a name that a member may have."""
        kind = self.kind(STRUCTS.index(owner))
        if self.draw.randrange(8) == 0:
            return kind, self.draw.choice((b"(*m%d)()", b"(*m%d)(int)")) % number
        stars = self.draw.choice((b"", b"", b"", b"*", b"**"))
        return kind, stars + b"m%d" % number + self.draw.choice(list(BRACKETS))

    def drawn(self, owner, number, changed):
        """The member of a struct, which the second catalogue may have anew."""
        place = owner, number
        if place not in self.members or changed and self.draw.randrange(3) == 0:
            self.members[place] = self.member(owner, number)
        return self.members[place]

    def begins_with_id(self, owner, changed):
        """Whether a struct's first member is its `ID`, which may be another way in the second catalogue."""
        if owner not in self.members or changed and self.draw.randrange(6) == 0:
            self.members[owner] = owner != b"ID" and self.draw.randrange(2) == 0
        return self.members[owner]

    def side(self, changed, width):
        """One of the two catalogues: structs in order, so that a struct stands only in those behind it."""
        width = width or self.draw.choice((4, 8))
        lengths = {name: self.draw.choice(sizes) for name, sizes in BASIC.items()}
        lengths.update((name, self.draw.randrange(4)) for name in OPAQUE)
        leaves, inside = dict.fromkeys(lengths, 1), {}
        for owner in STRUCTS:
            if self.draw.randrange(8) == 0:
                continue
            length, count, members = 0, 0, []
            drawn = [(b"ID", b"id")] if self.begins_with_id(owner, changed) else []
            for number in self.draw.sample(range(IDENTIFIERS), self.draw.choice(MEMBERS)):
                drawn.append(self.drawn(owner, number, changed))
            for kind, name in drawn:
                pointer, elements = name[:1] in (b"*", b"("), BRACKETS[name[name.index(b"["):] if b"[" in name else b""]
                size = elements * (width if pointer else lengths.get(kind, 0))
                more = elements * (1 if pointer else leaves.get(kind, 1))
                if count + more > MOST_LEAVES or not pointer and kind not in lengths:
                    continue
                members.append((kind, name))
                length, count = length + size, count + more
            inside[owner], lengths[owner], leaves[owner] = members, length + self.draw.randrange(3), count
        return self.catalogue(lengths, inside), width

    def catalogue(self, lengths, inside):
        types = list(lengths) + [name for name in STRUCTS if name not in lengths]
        names = sorted({name for members in inside.values() for _, name in members})
        self.draw.shuffle(types)
        order = list(inside)
        self.draw.shuffle(order)
        structs = [(types.index(owner), [(types.index(kind), names.index(name)) for kind, name in inside[owner]])
                   for owner in order]
        return Catalogue(names, types, [lengths.get(name, 0) for name in types], structs)


def pair(seed, width=None):
    """Two catalogues, each with its width: this one, or one that is drawn."""
    return Pair(seed, width).both
