"""Makes a large file of one that Blender saved, with 8-byte pointers and the lowest byte first: its blocks stand
many times over, each time at other addresses, and what they name moves with them. So groups, structs and pointers are
as many and as large as Blender's are."""
import array
import struct
import sys

from blend import parts

HEAD = struct.Struct("<4sIQII")
# How far the addresses of one repetition are at least from those of the one before: about what a program's memory takes.
LEAST_APART = 2 ** 32


def words(payload):
    """The aligned words of a payload that are whole."""
    found = array.array("Q", payload[:len(payload) // 8 * 8])
    if sys.byteorder == "big":
        found.byteswap()
    return found


def moved(payload, places, by):
    """A payload whose words at some places are addresses that move."""
    if not places or not by:
        return payload
    own = words(payload)
    for place in places:
        own[place] += by
    if sys.byteorder == "big":
        own.byteswap()
    return own.tobytes() + payload[len(own) * 8:]


def distance(addresses, times):
    """How far the addresses of one repetition are from those of the one before: the least power of two by which no two
    blocks of different repetitions stand at one address, and the last ones are still addresses."""
    apart = LEAST_APART
    while max(addresses) + apart * (times - 1) < 2 ** 64:
        if len({address + apart * n for address in addresses for n in range(times)}) == len(addresses) * times:
            return apart
        apart *= 2
    sys.exit("the sample's addresses are too far from one another to stand so often in a file")


def write(path, name, structs):
    """Writes the blocks of a file so often that so many of structs stand in the new one."""
    sample = name.read_bytes()
    form = parts.form(sample)
    if form is None or (form.width, form.order) != (8, "<"):
        sys.exit(f"{name} hasn't 8-byte pointers and the lowest byte first, or is compressed")
    blocks = list(parts.blocks(sample, form))
    nodes = [block for block in blocks if block.code != b"DNA1"]
    own = sum(block.index != 0 for block in nodes)
    if own == 0:
        sys.exit(f"{name} has no blocks of structs")
    addresses = {block.address for block in nodes} - {0}
    named = [[place for place, word in enumerate(words(block.payload)) if word in addresses] for block in nodes]
    times = -(-structs // own)
    apart = distance(addresses, times)
    with open(path, "wb", buffering=2 ** 20) as file:
        file.write(sample[:12])
        for by in range(0, times * apart, apart):
            for block, places in zip(nodes, named):
                payload = moved(block.payload, places, by)
                address = block.address + by
                file.write(HEAD.pack(block.code, len(payload), address, block.index, block.count) + payload)
        for block in blocks:
            if block.code == b"DNA1":
                file.write(HEAD.pack(block.code, len(block.payload), block.address, block.index, block.count)
                           + block.payload)
        file.write(b"ENDB" + bytes(20))
