"""The header, the heads and the blocks of a file, as they are read and written."""
import collections
import re
import struct

Form = collections.namedtuple("Form", "width order version")
Block = collections.namedtuple("Block", "code address index count payload")

HEADER = re.compile(rb"BLENDER([_-])([vV])(\d{3})")
WIDTHS = {b"_": 4, b"-": 8}
ORDERS = {b"v": "<", b"V": ">"}


def form(file):
    """The width, the order and the version of a file, or nothing where it isn't read here."""
    found = HEADER.match(file)
    return found and Form(WIDTHS[found[1]], ORDERS[found[2]], int(found[3]))


def is_two_letter(code):
    return 0 not in code[:2] and code[2:] == b"\0\0"


def meant(code):
    """A code as it is meant: two letters behind two zeros are a code of two letters."""
    return code[2:] + code[:2] if code[:2] == b"\0\0" and 0 not in code[2:] else code


def spelled(code, order):
    """A code as it is written: where the highest byte comes first, one of two letters has its zeros first."""
    return code[2:] + code[:2] if order == ">" and is_two_letter(code) else code


def blocks(file, form):
    """The blocks of a file up to its end, the catalogue's among them."""
    head_form = struct.Struct(form.order + {4: "4siIii", 8: "4siQii"}[form.width])
    at = 12
    while file[at:at + 4] != b"ENDB":
        code, length, *fields = head_form.unpack_from(file, at)
        at += head_form.size
        yield Block(meant(code), *fields, file[at:at + length])
        at += length


def head(code, length, address=0, index=0, count=1, width=8, order="<"):
    return struct.pack(order + "4si" + {8: "Q", 4: "I"}[width] + "ii", code, length, address, index, count)


def header(width=8, order="<", version=405):
    return b"BLENDER" + {8: b"-", 4: b"_"}[width] + {"<": b"v", ">": b"V"}[order] + b"%03d" % version


def end(width=8):
    return b"ENDB" + bytes(8 + width + 4)


def written(form, nodes, catalogue):
    """A file of a form, with some blocks and the payload of a catalogue."""
    def spell(block):
        code = spelled(block.code, form.order)
        return head(code, len(block.payload), *block[1:4], form.width, form.order) + block.payload

    every = (*map(spell, nodes), spell(Block(b"DNA1", 0, 0, 1, catalogue)))
    return b"".join((header(*form), *every, end(form.width)))


def alone(payload, width=8, order="<", version=405):
    """A file of a catalogue and no other block."""
    return written(Form(width, order, version), (), payload)
