"""What `schema` prints of a catalogue."""
from blend import sdna

# A byte as it is printed.
SHOWN = [b"%c" % byte if 0x20 <= byte <= 0x7e and byte not in b'"\\' else b"\\x%02x" % byte for byte in range(256)]


def shown(text):
    return b"".join(map(SHOWN.__getitem__, text))


def lines(catalogue, width, order, version):
    """What `schema` prints of a catalogue that has a layout, a struct at a time."""
    names, types, lengths, structs = catalogue
    word = {"<": b"little", ">": b"big"}[order]
    yield b"version %d width %d order %s names %d types %d structs %d\n" % (
        version, width, word, len(names), len(types), len(structs))
    said = [(*sdna.elements(name), shown(name)) for name in names]
    of_types = [shown(name) for name in types]
    for number, (type_, members) in enumerate(structs):
        text = [b"struct %d %s %d\n" % (number, of_types[type_], lengths[type_])]
        offset = 0
        for kind, field in members:
            pointer, count, name = said[field]
            size = count * (width if pointer else lengths[kind])
            text.append(b"  %d %d %s %s\n" % (offset, size, of_types[kind], name))
            offset += size
        assert offset <= lengths[type_], f"members of {types[type_]} pass its length"
        yield b"".join(text)
