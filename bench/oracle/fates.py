"""What `fates` prints of two catalogues."""
import collections

from blend import sdna
from oracle.schema import shown

# What the basic types hold: whole numbers by their sign, floats, or nothing.
HOLDS = {
    **dict.fromkeys((b"char", b"int8_t", b"short", b"int", b"long", b"int64_t"), "signed"),
    **dict.fromkeys((b"uchar", b"ushort", b"ulong", b"uint64_t"), "unsigned"),
    **dict.fromkeys((b"float", b"double"), "float"),
    b"void": "void",
}
WHOLE = {"signed", "unsigned"}
NUMBERS = {*WHOLE, "float"}

Member = collections.namedtuple("Member", "name pointer count size kind length holds")


def structs(catalogue, width):
    """The members of each struct, by the name of the struct."""
    names, types, lengths, entries = catalogue
    forms = {field: sdna.elements(names[field]) for _, members in entries for _, field in members}
    held = {types[type_] for type_, _ in entries}

    def member(kind, field):
        pointer, count = forms[field]
        size = count * (width if pointer else lengths[kind])
        holds = HOLDS.get(types[kind]) or ("struct" if types[kind] in held else "opaque")
        return Member(names[field], pointer, count, size, types[kind], lengths[kind], holds)

    return {types[type_]: [member(*entry) for entry in members] for type_, members in entries}


def key(name):
    """What members of two catalogues are compared by."""
    return name if name.startswith(b"(") else name.split(b"[")[0]


def by_counts(source, target):
    return b"cut" if target.count < source.count else b"extended" if source.count < target.count else b"kept"


def fate(source, target):
    """What becomes of a member, which meets another one or none."""
    if source is None or source.size == 0 or target.size == 0 or source.pointer != target.pointer:
        return b"fresh"
    if source.pointer:
        return by_counts(source, target)
    both = {source.holds, target.holds}
    same_name, same_length = source.kind == target.kind, source.length == target.length
    if both <= WHOLE:
        return by_counts(source, target) if len(both) == 1 and same_length else b"cast"
    if both <= NUMBERS:
        return by_counts(source, target) if same_name else b"float-cast"
    carried = both == {"struct"} and same_name or both == {"opaque"} and same_name and same_length
    return by_counts(source, target) if carried else b"fresh"


def lines(source, source_width, target, target_width):
    """What `fates` prints of two catalogues that have layouts, a struct of the second at a time."""
    sources = structs(source, source_width)
    for name, members in structs(target, target_width).items():
        if name not in sources:
            yield b"struct %s new\n" % shown(name)
            continue
        met = {key(member.name): member for member in sources[name]}
        yield b"struct %s\n" % shown(name)
        yield from (b"  %s %s\n" % (shown(member.name), fate(met.get(key(member.name)), member)) for member in members)
