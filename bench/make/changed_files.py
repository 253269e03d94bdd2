"""Small files that were changed at random, each from a seed: of raw blocks alone, or of groups with structs whose
pointers name each other's blocks."""
import itertools
import random
import struct

from blend import example, parts, sdna
from make import struct_blocks

# Numbers at the edges of what a field of 32 bits holds.
EDGES = (0, 1, 3, 4, 2 ** 16, 2 ** 31 - 1, 2 ** 31, 2 ** 32 - 1)
FORMS = tuple(itertools.product((4, 8), "<>"))
CODES = (b"DATA", b"REND", b"TEST", b"GLOB", b"OB", b"LI", b"ID", b"\0\0\0\0")
# What may stand at a place of a header: marks of compressed files, marks, versions.
HEADERS = ((0, b"\x1f\x8b"), (0, b"\x28\xb5\x2f\xfd"), (0, b"blender"), (7, b"_"), (7, b"-"), (8, b"v"), (8, b"V"),
           (9, b"249"), (9, b"250"), (9, b"499"), (9, b"500"), (9, b"4"), (11, b":"))
# Structs behind those of the small catalogue: one with a tail, one with a tail in a tail and pointers, and
# one that has nothing, so that a block may have any number of it.
TAIL, HOLES, NOTHING = range(len(example.STRUCTS), len(example.STRUCTS) + 3)


class File:
    """A file as its parts: a header, blocks of a head's fields and a payload, and an end."""

    def __init__(self, draw):
        self.width, self.order = draw.choice(FORMS)
        self.header = parts.header(self.width, self.order, draw.choice((250, 279, 405, 499)))
        self.blocks = self.nodes(draw)
        payload = self.catalogue()
        place = draw.randint(0, len(self.blocks))
        self.blocks.insert(place, [b"DNA1", len(payload), 0, 0, 1, payload])
        self.end = b"ENDB" + draw.randbytes(draw.randrange(30))

    def catalogue(self):
        return example.payload(self.width, self.order)

    def bytes(self):
        form = self.order + {4: "4sIIII", 8: "4sIQII"}[self.width]
        heads = (struct.pack(form, *fields) + payload for *fields, payload in self.blocks)
        return self.header + b"".join(heads) + self.end


class Raw(File):
    """A file of raw blocks alone."""

    def nodes(self, draw):
        return [self.block(draw) for _ in range(draw.randrange(6))]

    def block(self, draw):
        code = draw.choice(CODES)
        spelled = code.rjust(4, b"\0") if self.order == ">" else code.ljust(4, b"\0")
        payload = draw.randbytes(draw.choice((0, 1, 4, 24, 40)))
        return [spelled, len(payload), draw.getrandbits(8 * self.width), 0, draw.getrandbits(31), payload]


class Grouped(File):
    """A file of groups, with blocks of odd structs among them."""

    def catalogue(self):
        names, types, lengths, inside = example.parts(self.width)

        def member(kind, field):
            return types.index(kind), names.index(field)

        types += [b"Tail", b"Holes", b"Nothing"]
        lengths += [5, 18 + 2 * self.width, 0]
        inside += [(types.index(b"Tail"), [member(b"char", b"_pad[2]")]),
                   (types.index(b"Holes"), [member(b"Tail", b"loc[3]"), member(b"void", b"*extra"),
                                            member(b"Nothing", b"name[1024]"), member(b"Object", b"**users")]),
                   (types.index(b"Nothing"), [])]
        return sdna.written(names, types, lengths, inside, self.order)

    def nodes(self, draw):
        maker = struct_blocks.Maker(draw, self.width, self.order)
        made = list(maker.groups(draw.randint(1, 12)))
        for _ in range(draw.randrange(4)):
            made.insert(draw.randint(0, len(made)), self.odd_block(draw, maker))
        return made

    def odd_block(self, draw, maker):
        """A block of one of the structs behind those of the small catalogue, with bytes behind its elements."""
        own = maker.places(5)
        number, count = draw.choice((TAIL, HOLES, HOLES, NOTHING)), draw.randrange(4)
        elements = {TAIL: lambda: draw.randbytes(5), NOTHING: lambda: b"",
                    HOLES: lambda: draw.randbytes(15) + maker.array([maker.pointer(own), maker.pointer(own)])
                    + draw.randbytes(3)}
        payload = b"".join(elements[number]() for _ in range(count)) + draw.randbytes(draw.randrange(3))
        if number == NOTHING:
            count = draw.choice((count, 2 ** 31 - 1))
        return maker.block(draw.choice((b"DATA", b"DATA", b"OB")), draw.choice(own), number, count, payload)


# What is done to a file: some changes to its parts, and one to its bytes.

def keep(draw, file_parts):
    pass


def change_field(draw, file_parts):
    block = draw.choice(file_parts.blocks)
    place = draw.choice((1, 1, 1, 3, 4))
    block[place] = draw.choice(EDGES + ((block[place] + 1) % 2 ** 32, (block[place] - 1) % 2 ** 32))


def change_code(draw, file_parts):
    draw.choice(file_parts.blocks)[0] = draw.choice((b"DNA1", b"ENDB", b"ENDb", b"\0\0DN", draw.randbytes(4)))


def double_block(draw, file_parts):
    file_parts.blocks.insert(draw.randint(0, len(file_parts.blocks)), list(draw.choice(file_parts.blocks)))


def drop_block(draw, file_parts):
    file_parts.blocks.remove(draw.choice(file_parts.blocks))


def move_block(draw, file_parts):
    block = file_parts.blocks.pop(draw.randrange(len(file_parts.blocks)))
    file_parts.blocks.insert(draw.randint(0, len(file_parts.blocks)), block)


def share_address(draw, file_parts):
    draw.choice(file_parts.blocks)[2] = draw.choice(file_parts.blocks)[2]


def change_number(draw, file_parts):
    draw.choice(file_parts.blocks)[3] = draw.randrange(NOTHING + 2)


def drop_end(draw, file_parts):
    file_parts.end = file_parts.end[:draw.randrange(5)]


def as_made(draw, file):
    return bytes(file)


def flip_bytes(draw, file):
    for _ in range(draw.randint(1, 8)):
        file[draw.randrange(len(file))] = draw.getrandbits(8)
    return bytes(file)


def flip_bit(draw, file):
    file[draw.randrange(len(file))] ^= 1 << draw.randrange(8)
    return bytes(file)


def change_header(draw, file):
    place, spelled = draw.choice(HEADERS)
    file[place:place + len(spelled)] = spelled
    return bytes(file)


def cut_short(draw, file):
    return bytes(file[:draw.randrange(len(file))])


def insert_bytes(draw, file):
    place = draw.randint(0, len(file))
    return bytes(file[:place] + draw.randbytes(draw.randint(1, 30)) + file[place:])


PARTS = (keep, keep, change_field, change_field, change_code, double_block, drop_block, move_block, share_address,
         change_number, drop_end)
BYTES = (as_made, as_made, as_made, as_made, flip_bytes, flip_bit, change_header, cut_short, insert_bytes)


def made(seed):
    draw = random.Random(seed)
    file_parts = draw.choice((Raw, Grouped))(draw)
    draw.choice(PARTS)(draw, file_parts)
    return draw.choice(BYTES)(draw, bytearray(file_parts.bytes()))
