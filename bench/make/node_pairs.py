"""Small files that are converted under the catalogue of another file, each pair drawn from a seed.

The catalogues are those of `catalogue_pairs`. The file has groups with and without a head, of structs and raw data,
whose pointers name blocks of their group, heads of any group, or nothing; some addresses stand there twice. Most
pairs have one width of pointers. A struct without length may have as many elements as can be."""
import random
import struct

from blend import parts, sdna
from blend.graph import Structs
from make import catalogue_pairs

HEADS = (b"OB", b"OB", b"ME", b"LI", b"ID", b"GLOB", b"REND", b"TEST")
MOST = 2 ** 31 - 1
OWN_PLACES = [0x100 * number for number in range(1, 7)]
MOST_HEADS = 6


class Nodes:
    """Draws the blocks of a file over a catalogue."""

    def __init__(self, draw, catalogue, form):
        self.draw, self.form = draw, form
        self.structs = Structs(catalogue, form.width)
        self.numbers = range(1, len(catalogue.structs))
        self.pointer = struct.Struct(form.order + {4: "I", 8: "Q"}[form.width])
        self.head_places = [0x10000 + 0x10 * number for number in range(MOST_HEADS)]

    def address(self):
        """What a pointer holds: most often the address of a block."""
        sort = self.draw.randrange(8)
        if sort < 4:
            return self.draw.choice(OWN_PLACES)
        if sort < 6:
            return self.draw.choice(self.head_places)
        return 0 if sort == 6 else self.draw.getrandbits(8 * self.form.width)

    def element(self, number):
        shape = self.structs.shape(number)
        made = bytearray(self.draw.randbytes(shape.length))
        for at, _ in shape.pointers:
            self.pointer.pack_into(made, at, self.address())
        return bytes(made)

    def block(self, code, at, number, count, payload):
        return parts.Block(code.ljust(4, b"\0"), at, number, count, payload)

    def of_struct(self, code, at, counts):
        number, count = self.draw.choice(self.numbers), self.draw.choice(counts)
        payload = b"".join(self.element(number) for _ in range(count))
        if self.structs.shape(number).length == 0 and self.draw.randrange(2):
            count = MOST
        return self.block(code, at, number, count, payload + self.draw.randbytes(self.draw.choice((0, 0, 3))))

    def raw(self, code, at):
        pointers = b"".join(self.pointer.pack(self.address()) for _ in range(self.draw.randrange(5)))
        tail = self.draw.randbytes(self.draw.choice((0, 0, 1, 4, 12)))
        return self.block(code, at, 0, self.draw.randrange(4), pointers + tail)

    def data(self):
        at = self.draw.choice(OWN_PLACES)
        return self.raw(b"DATA", at) if self.draw.randrange(2) else self.of_struct(b"DATA", at, (0, 1, 1, 2, 3))

    def group(self, at):
        code = self.draw.choice(HEADS)
        raw = self.draw.randrange(4) == 0
        yield self.raw(code, at) if raw else self.of_struct(code, at, (1, 1, 1, 1, 2, 0))
        yield from (self.data() for _ in range(self.draw.randrange(6)))

    def blocks(self):
        found = [self.data() for _ in range(self.draw.choice((0, 0, 2)))]
        for at in self.head_places[:self.draw.randint(1, MOST_HEADS)]:
            found.extend(self.group(at))
        return found


def made(seed):
    """A file, and another that has a catalogue and no other block."""
    draw = random.Random(seed)
    (source, width), (target, new_width) = catalogue_pairs.pair(seed, draw.choice((4, 8, 8, 8, 4, 8, None)))
    form = parts.Form(width, draw.choice("<>"), draw.choice((250, 304, 499)))
    new_form = parts.Form(new_width, draw.choice("<>"), draw.choice((250, 405, 499)))
    nodes = Nodes(draw, source, form)
    blocks = nodes.blocks() if source.structs[1:] else [nodes.raw(b"DATA", 16)]
    file = parts.written(form, blocks, sdna.written(*source, form.order))
    return file, parts.alone(sdna.written(*target, new_form.order), *new_form)
