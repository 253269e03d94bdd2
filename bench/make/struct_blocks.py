"""Files of struct blocks over the small catalogue.

- `objects`: objects that name each other, each with a mesh that has an array.
- `groups`: objects and meshes with data of their own, whose pointers name blocks of their group, IDs of others, or
  nothing, as they are drawn.
- `slots`: a group with very many pointers to few raw blocks, from structs and from arrays of pointers.
- `one_group`: a group of very many blocks, of which half stood at one address."""
import itertools
import random
import struct

from blend import example, parts

# Structs of the catalogue, and what stands in them: pointers, and numbers of other bytes. `Link` has number 0,
# which no struct block can have.
ID, LIBRARY, OBJECT, MESH = range(1, 5)
POINTER = "pointer"
ID_PART = [POINTER] * 4 + [72]
FIELDS = {ID: ID_PART, LIBRARY: ID_PART + [1024], OBJECT: ID_PART + [POINTER] * 2 + [16],
          MESH: ID_PART + [POINTER] * 4 + [8]}
ARRAYS = 16
SORTS = ("objects", "groups", "slots", "one_group")


class Maker:
    """Draws files over the small catalogue, as lists of blocks, which are lists of a head's fields and a
    payload."""

    def __init__(self, draw, width=8, order="<"):
        self.draw, self.width, self.order = draw, width, order
        self.number = {4: "I", 8: "Q"}[width]
        self.forms = {
            number: struct.Struct(order + "".join(self.number if field == POINTER else f"{field}s" for field in fields))
            for number, fields in FIELDS.items()}
        self.heads = 1

    def address(self, number):
        """An address for each number from 1 on: all of them differ, and none is null."""
        return (number * 0x9E3779B97F4A7C15 << 3) % 2 ** (8 * self.width)

    def head(self, number):
        """The address of the head of a group."""
        return self.address(1_000 + number)

    def own_head(self, number):
        """The address of the head of a group, which now and then is that of another one too."""
        return self.head(number if self.draw.randrange(24) else self.draw.randrange(self.heads))

    def pointer(self, own):
        """A pointer from a group whose data has some addresses: to one of them, to the head of any group, to
        nothing, or null."""
        sort = self.draw.randrange(8)
        if sort < 3:
            return self.draw.choice(own)
        if sort < 6:
            return self.head(self.draw.randrange(self.heads))
        return 0 if sort == 6 else self.draw.getrandbits(8 * self.width)

    def element(self, number, pointers):
        """One element of a struct with some pointers, whose other bytes are drawn."""
        given = iter(pointers)
        return self.forms[number].pack(*(next(given) if field == POINTER else self.draw.randbytes(field)
                                         for field in FIELDS[number]))

    def elements(self, number, count, own):
        """Some elements whose pointers are drawn."""
        pointers = FIELDS[number].count(POINTER)
        return b"".join(self.element(number, [self.pointer(own) for _ in range(pointers)]) for _ in range(count))

    def array(self, pointers):
        return struct.pack(f"{self.order}{len(pointers)}{self.number}", *pointers)

    def block(self, code, address, number, count, payload):
        return [parts.spelled(code.ljust(4, b"\0"), self.order), len(payload), address, number, count, payload]

    def places(self, count):
        """The addresses of a group's data: the same in all groups but for a few, which are those of the data
        before or of a head."""
        found = []
        for number in range(1, count + 1):
            sort = self.draw.randrange(24)
            another = found[-1] if sort == 0 and found else self.head(self.draw.randrange(self.heads))
            found.append(another if sort < 2 else self.address(number))
        return found

    def of_object(self, number):
        """An object, and three blocks of structs that are no IDs."""
        own = self.places(3)
        counts = ((ID, 1), (ID, self.draw.randrange(4)), (OBJECT, 1))
        return [self.block(b"OB", self.own_head(number), OBJECT, 1, self.elements(OBJECT, 1, own)),
                *(self.block(b"DATA", at, inside, count, self.elements(inside, count, own))
                  for at, (inside, count) in zip(own, counts))]

    def of_mesh(self, number):
        """A mesh, its raw data, which most often is named as it ought to be, and two structs; the last has
        bytes behind its element."""
        own = self.places(5)
        index, co, users, extra = own[0], own[1], own[2], self.pointer(own)
        if self.draw.randrange(4) == 0:
            index, co, users = (self.pointer(own) for _ in range(3))
        mesh = self.element(MESH, [*(self.pointer(own) for _ in range(4)), index, co, users, extra])
        array = self.array([self.pointer(own) for _ in range(3)])
        return [self.block(b"ME", self.own_head(number), MESH, 1, mesh),
                self.block(b"DATA", own[0], 0, 1, self.draw.randbytes(12)),
                self.block(b"DATA", own[1], 0, 3, self.draw.randbytes(36)),
                self.block(b"DATA", own[2], 0, 1, array + self.draw.randbytes(4)),
                self.block(b"DATA", own[3], ID, 1, self.elements(ID, 1, own)),
                self.block(b"DATA", own[4], MESH, 1, self.elements(MESH, 1, own) + self.draw.randbytes(4))]

    def of_library(self, number):
        """A library or a placeholder, or two in one block, which are no ID, and a struct."""
        own, count = self.places(1), self.draw.choice((1, 1, 1, 2))
        code, inside = self.draw.choice(((b"LI", LIBRARY), (b"ID", ID)))
        return [self.block(code, self.own_head(number), inside, count, self.elements(inside, count, own)),
                self.block(b"DATA", own[0], ID, 1, self.elements(ID, 1, own))]

    def of_raw(self, number):
        """A raw block and an array, and two meshes in one block, whose `users` name these."""
        at, own = self.own_head(number), self.places(2)
        code = self.draw.choice((b"REND", b"TEST", b"GLOB"))
        meshes = [self.element(MESH, [*(self.head(self.draw.randrange(self.heads)) for _ in range(6)), to, 0])
                  for to in (at, own[0])]
        array = self.array([self.pointer(own) for _ in range(4)])
        return [self.block(code, at, 0, 1, array[:self.draw.choice((4, 8, 20, 32))]),
                self.block(b"DATA", own[0], 0, 1, array),
                self.block(b"DATA", own[1], MESH, 2, b"".join(meshes))]

    def objects(self, count):
        """Objects, half as many as structs are wanted, each of which names one before it and has a mesh with
        an array of its own."""
        for number in range(count // 2):
            at = [16 * (3 * number + k + 1) for k in range(3)]
            parent = 16 * (3 * self.draw.randrange(number) + 1) if number else 0
            array = self.draw.randbytes(4 * self.draw.randint(1, 4))
            yield self.block(b"OB", at[0], OBJECT, 1, self.element(OBJECT, [0, 0, 0, 0, parent, at[1]]))
            yield self.block(b"ME", at[1], MESH, 1, self.element(MESH, [0, 0, 0, 0, at[2], 0, 0, 0]))
            yield self.block(b"DATA", at[2], 0, 1, array)

    def groups(self, count):
        """Blocks of groups, up to so many struct blocks or a few more."""
        sorts = ((self.of_object, 4), (self.of_mesh, 3), (self.of_library, 2), (self.of_raw, 1))
        chosen, total = [], 0
        while total < count:
            make, structs = self.draw.choices(sorts, (10, 10, 1, 1))[0]
            chosen.append(make)
            total += structs
        self.heads = max(1, len(chosen))
        return itertools.chain.from_iterable(make(number) for number, make in enumerate(chosen))

    def slots(self, count):
        """A group of a mesh, raw blocks, and meshes in one block: so many pointers, half of them in structs
        and half in arrays, and each names a raw block."""
        arrays, other = [self.address(number) for number in range(2, 2 + ARRAYS)], self.address(1)
        own = arrays + [other]
        yield self.block(b"ME", self.head(0), MESH, 1, self.element(MESH, [0] * 8))
        yield self.block(b"DATA", other, 0, 1, self.draw.randbytes(100))
        for at in arrays:
            inside = self.draw.choices(own, k=count // 2 // ARRAYS)
            yield self.block(b"DATA", at, 0, 1, self.array(inside))
        meshes = []
        for _ in range(count // 2 // FIELDS[MESH].count(POINTER)):
            to = self.draw.choices(arrays, k=4)
            meshes.append(self.element(MESH, [to[0], to[1], other, other, other, other, to[2], to[3]]))
        yield self.block(b"DATA", self.head(1), MESH, len(meshes), b"".join(meshes))

    def one_group(self, count):
        """A group of an object and structs, each of which names four of them; half of them stood at one
        address."""
        own = [self.address(number // 2 + 1) for number in range(count)]
        own[1::2] = own[:1] * (count // 2)
        self.draw.shuffle(own)
        yield self.block(b"OB", self.head(0), OBJECT, 1, self.element(OBJECT, [0] * 6))
        for at in own:
            yield self.block(b"DATA", at, ID, 1, self.element(ID, self.draw.choices(own, k=4)))


def write(path, name, count):
    """Writes a file of a sort; the catalogue stands behind the first block."""
    maker = Maker(random.Random(1))
    head, payload = struct.Struct("<4sIQII"), example.payload()
    catalogue_block = [b"DNA1", len(payload), 7, 0, 3, payload]
    with open(path, "wb", buffering=2 ** 20) as file:
        file.write(parts.header())
        made = iter(getattr(maker, name)(count))
        for *fields, inside in itertools.chain([next(made), catalogue_block], made):
            file.write(head.pack(*fields))
            file.write(inside)
        file.write(parts.end())
