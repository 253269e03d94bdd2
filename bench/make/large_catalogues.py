"""Large and hostile catalogues for `schema`, each with the status and the line that it has to end with.

A case that is accepted has status 0 and no line; its text is then that of the oracle. Each case is made by a
function of its own."""
import random

from blend.sdna import Catalogue

BASIC = ((b"char", 1), (b"uchar", 1), (b"short", 2), (b"ushort", 2), (b"int", 4), (b"int64_t", 8), (b"float", 4),
         (b"double", 8), (b"void", 0))
CHAR, VOID = 0, 8
LONGEST_TYPE = 65535
MOST_LEAVES = 2 ** 20
DEEPEST = 32


def numbered(letter, count):
    return [b"%s%d" % (letter, number) for number in range(count)]


def of_structs(names, lengths, members):
    """A catalogue of structs S0, S1, .. with these lengths; members name types by the number of a struct, or
    `char` by -1."""
    count = len(lengths)
    types = [b"S%d" % number for number in range(count)] + [b"char"]
    structs = [(number, [(kind % (count + 1), name) for kind, name in inside])
               for number, inside in enumerate(members)]
    return Catalogue(names, types, [*lengths, 1], structs)


# ---- accepted

class Builder:
    """Draws structs of some members each, whose inner structs were drawn before."""

    def __init__(self, seed, names, structs, opaque, width):
        self.draw = random.Random(seed)
        self.width = width
        self.most = MOST_LEAVES // structs
        self.names, self.forms = [], []
        for number in range(names):
            self.name(number)
        self.types = [name for name, _ in BASIC] + numbered(b"Opaque", opaque) + numbered(b"Struct", structs)
        self.lengths = [length for _, length in BASIC] + [0] * opaque
        self.first = len(self.lengths)
        self.leaves, self.depths, self.structs = [], [], []
        for _ in range(structs):
            self.struct()

    def name(self, number):
        """A name with its number of elements, 0 for a pointer of one."""
        spelled, elements = self.draw.choice((
            (b"value%d", 1), (b"value%d", 1), (b"*pointer%d", 0), (b"**pointers%d", 0), (b"(*call%d)()", 0),
            (b"array%d[2]", 2), (b"matrix%d[2][3]", 6), (b"text%d[64]", 64)))
        self.names.append(spelled % number)
        self.forms.append(elements)

    def kind(self, elements, room):
        """A type for a member with so many elements, and its leaves."""
        if elements == 0:
            return self.draw.randrange(len(self.types)), 1
        if self.structs and self.draw.random() < 0.3:
            inner = self.draw.randrange(len(self.structs))
            leaves = elements * self.leaves[inner]
            if leaves <= room and self.depths[inner] < 6:
                return self.first + inner, leaves
        return self.draw.randrange(VOID), 1

    def struct(self):
        length, leaves, depth, members = 0, 0, 1, []
        for field in self.draw.sample(range(len(self.names)), self.draw.randint(2, 10)):
            elements = self.forms[field]
            kind, more = self.kind(elements, self.most - leaves)
            size = elements * self.lengths[kind] if elements else self.width
            if leaves + more > self.most or length + size > LONGEST_TYPE:
                break
            members.append((kind, field))
            length, leaves = length + size, leaves + more
            if elements and kind >= self.first:
                depth = max(depth, 1 + self.depths[kind - self.first])
        self.lengths.append(min(LONGEST_TYPE, length + self.draw.randrange(5)))
        self.leaves.append(leaves)
        self.depths.append(depth)
        self.structs.append((self.first + len(self.structs), members))

    def catalogue(self):
        self.draw.shuffle(self.structs)
        return Catalogue(self.names, self.types, self.lengths, self.structs)


def ordinary(width):
    """60,000 names and 20,000 structs, nested a few deep."""
    return Builder(1, 60_000, 20_000, 1_000, width).catalogue()


def most_leaves(width):
    """As many leaves as a catalogue may have, in structs of one array each."""
    counts = [1] + [LONGEST_TYPE] * 16
    counts.append(MOST_LEAVES - sum(counts))
    names = [b"cells[%d]" % count for count in counts]
    return of_structs(names, counts, [[(-1 if s == 0 else 0, s)] for s in range(len(counts))])


def deepest(width):
    """20,000 structs in chains that are as deep as they may be."""
    members = [[(s + 1 if (s + 1) % DEEPEST else -1, 0)] for s in range(20_000)]
    return of_structs([b"next"], [1] * 20_000, members)


def wide(width):
    """16 structs of 65,535 members each, 65,535 of them leaves of one byte."""
    inside = [(-1, name) for name in range(LONGEST_TYPE)]
    return of_structs(numbered(b"m", LONGEST_TYPE), [LONGEST_TYPE] * 16, [inside] * 16)


def cross(width):
    """2,000 structs that each hold 2,000 others, which are empty."""
    inside = [(2_000 + name, name) for name in range(2_000)]
    return of_structs(numbered(b"m", 2_000), [0] * 4_000, [inside] * 2_000 + [[]] * 2_000)


def layers(width):
    """32 layers of 200 empty structs, each of which holds all of the next layer: 200 ^ 31 ways down."""
    members = []
    for layer in range(1, DEEPEST + 1):
        below = [] if layer == DEEPEST else [(200 * layer + name, name) for name in range(200)]
        members += [below] * 200
    return of_structs(numbered(b"m", 200), [0] * len(members), members)


def empty_arrays(width):
    """20,000 structs with almost 2 ^ 31 elements of no bytes, structs and not."""
    members = [[]] + [[(0, 0), (-1, 1)]] * 19_999
    return of_structs([b"x[999999999][2]", b"y[999999999][0]"], [0] * 20_000, members)


def long_name(width):
    """100 structs with a member whose name has a MiB, of brackets."""
    return of_structs([b"x" + b"[1]" * (2 ** 20 // 3)], [1] * 100, [[(-1, 0)]] * 100)


def escaped_name(width):
    """100 structs with a function whose name has a MiB, of bytes that are printed as four."""
    return of_structs([b"(*x)" + b"\xff" * 2 ** 20], [width] * 100, [[(-1, 0)]] * 100)


# ---- refused

def ring(width):
    """20,000 structs, each in the one before, and the first in the last."""
    return of_structs([b"next"], [8] * 20_000, [[((s + 1) % 20_000, 0)] for s in range(20_000)])


def ring_at_end(width):
    """A chain of 10,000 structs that ends in a ring of 10,000."""
    members = [[(s + 1 if s + 1 < 20_000 else 10_000, 0)] for s in range(20_000)]
    return of_structs([b"next"], [8] * 20_000, members)


def all_in_all(width):
    """A chain of two that ends in 2,000 structs, each of which holds all the others."""
    inside = [(s, s) for s in range(2_002)]
    members = [[inside[1]], [inside[2]]] + [inside[2:s] + inside[s + 1:] for s in range(2, 2_002)]
    return of_structs(numbered(b"m", 2_002), [0] * 2_002, members)


def chain(width):
    """20,000 structs, each of which holds the next."""
    members = [[(s + 1 if s + 1 < 20_000 else -1, 0)] for s in range(20_000)]
    return of_structs([b"next"], [8] * 20_000, members)


def chain_backwards(width):
    """20,000 structs, each of which holds the one before."""
    return of_structs([b"next"], [8] * 20_000, [[(s - 1, 0)] for s in range(20_000)])


def all_behind(width):
    """2,000 structs, each of which holds all behind it."""
    inside = [(s, s) for s in range(2_000)]
    return of_structs(numbered(b"m", 2_000), [0] * 2_000, [inside[s + 1:] for s in range(2_000)])


def too_many_leaves(width):
    """20 structs that hold 65,535 times one of a leaf."""
    members = [[(-1, 0)]] + [[(0, 1)]] * 20
    return of_structs([b"cell", b"cells[65535]"], [1] + [LONGEST_TYPE] * 20, members)


def leaves_one_by_one(width):
    """2,000 structs that each hold 2,000 others of a leaf each."""
    inside = [(2_000 + name, name) for name in range(2_000)]
    return of_structs(numbered(b"m", 2_000), [2_000] * 2_000 + [1] * 2_000, [inside] * 2_000 + [[(-1, 0)]] * 2_000)


def last_twice(width):
    """A struct of 65,535 members, the last with the identifier of the first."""
    names = numbered(b"m", LONGEST_TYPE - 1) + [b"*m0"]
    return of_structs(names, [LONGEST_TYPE], [[(-1, name) for name in range(LONGEST_TYPE)]])


def last_overruns(width):
    """20,000 structs, the last of which is too short for its last member."""
    return of_structs([b"x", b"y[999999999]"], [3] * 20_000, [[(-1, 0)]] * 19_999 + [[(-1, 0), (-1, 1)]])


# Each with its status and its line.
CASES = (
    (ordinary, 0, None),
    (most_leaves, 0, None),
    (deepest, 0, None),
    (wide, 0, None),
    (cross, 0, None),
    (layers, 0, None),
    (empty_arrays, 0, None),
    (long_name, 0, None),
    (escaped_name, 0, None),
    (ring, 6, b"bad file input: Cyclic S0 next\n"),
    (ring_at_end, 6, b"bad file input: Cyclic S10000 next\n"),
    (all_in_all, 6, b"bad file input: Cyclic S2 m3\n"),
    (chain, 9, b"limit depth 20000\n"),
    (chain_backwards, 9, b"limit depth 33\n"),
    (all_behind, 9, b"limit depth 2000\n"),
    (too_many_leaves, 9, b"limit leaves %d\n" % (1 + 17 * LONGEST_TYPE)),
    (leaves_one_by_one, 9, b"limit leaves %d\n" % (525 * 2_000)),
    (last_twice, 6, b"bad file input: DuplicateMember S0 *m0\n"),
    (last_overruns, 6, b"bad file input: Overrun S19999 y[999999999]\n"),
)
