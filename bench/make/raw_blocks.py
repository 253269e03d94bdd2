"""A large file of raw blocks. Half of it is one block and the other half many small ones; the catalogue stands between
them. What `convert` has to make of it is kept as a digest, since the file may be larger than memory."""
import hashlib
import random

from blend import example, parts

MEBIBYTE = 2 ** 20
# A file of 512 MiB has this many small blocks, and other files as many for their size.
SMALL_BLOCKS_A_MEBIBYTE = 200_000 / 512
CODES = (b"DATA", b"REND", b"TEST", b"GLOB", b"OB\0\0")
END = b"ENDB" + bytes(20)


class Writer:
    """Writes an input, and keeps the digest of the output that has to come of it."""

    def __init__(self, file):
        self.file = file
        self.expected = hashlib.sha256(parts.header())
        self.blocks = self.length = 0
        file.write(parts.header())

    def block(self, draw, pieces):
        length = sum(map(len, pieces))
        code, count = draw.choice(CODES), draw.getrandbits(31)
        self.blocks += 1
        self.file.write(parts.head(code, length, draw.getrandbits(64), 0, count))
        self.expected.update(parts.head(code, length, 16 * self.blocks, 0, count))
        for piece in pieces:
            self.file.write(piece)
            self.expected.update(piece)

    def catalogue(self, draw):
        payload = example.payload()
        self.file.write(parts.head(b"DNA1", len(payload), draw.getrandbits(64), 0, 5) + payload)

    def end(self):
        payload = example.payload()
        self.file.write(END)
        self.expected.update(parts.head(b"DNA1", len(payload)) + payload + END)
        self.length = self.file.tell()


def make(path, mebibytes, small):
    draw = random.Random(1)
    noise = memoryview(draw.randbytes(MEBIBYTE))
    size = max(0, mebibytes * MEBIBYTE // 2 // small - len(parts.head(b"DATA", 0)))
    spread = min(8, size)
    with open(path, "wb", buffering=MEBIBYTE) as file:
        writer = Writer(file)
        writer.block(draw, [noise] * (mebibytes // 2))
        writer.catalogue(draw)
        for _ in range(small):
            # Some blocks are a little longer, others as much shorter.
            length = size + draw.randint(-spread, spread)
            start = draw.randrange(len(noise) - length)
            writer.block(draw, [noise[start:start + length]])
        writer.end()
    return writer
