"""Prints what Blender shows of a file through its Python interface: `blender --background FILE --python` this.

A line is a place and its value: all datablocks but those of the user interface, and in each its numbers, texts, flags,
the names of datablocks that it names, and what it owns, element by element."""
import sys

import bpy

# The user interface, which a run in background doesn't have whole, and what only tells of the run.
LEFT_OUT = {"window_managers", "screens", "workspaces", "filepath", "version", "is_dirty", "is_saved", "use_autopack"}
# What changes from run to run, or is worked out when a file is opened.
FLEETING = {"rna_type", "bl_rna", "is_evaluated", "is_updated", "is_updated_data", "original", "session_uid", "depsgraph"}
PLAIN = {"BOOLEAN", "INT", "FLOAT", "STRING", "ENUM"}
DEEPEST = 8


def plain(value):
    if isinstance(value, (set, frozenset)):
        return sorted(value)
    if hasattr(value, "__len__") and not isinstance(value, (str, bytes)):
        return [plain(each) for each in value]
    return value


def lines(place, owner, path):
    """The lines of a struct, with the structs in which it stands."""
    for property_ in owner.bl_rna.properties:
        name = property_.identifier
        if name in FLEETING:
            continue
        try:
            value = getattr(owner, name)
        except Exception as fault:
            yield f"{place}.{name}", type(fault).__name__
            continue
        here = f"{place}.{name}"
        if property_.type in PLAIN:
            yield here, repr(plain(value))
        elif property_.type == "POINTER":
            yield from of_struct(here, value, path)
        elif property_.type == "COLLECTION":
            yield here, len(value)
            for number, each in enumerate(value):
                yield from of_struct(f"{here}[{number}]", each, path)


def of_struct(place, value, path):
    if value is None:
        yield place, "nothing"
    elif isinstance(value, bpy.types.ID) and not value.is_embedded_data:
        yield place, f"{value.bl_rna.identifier} {value.name_full}"
    elif value.as_pointer() in path or len(path) > DEEPEST:
        yield place, "above"
    else:
        yield from lines(place, value, (*path, value.as_pointer()))


def main():
    out = open(sys.argv[-1], "w", encoding="utf-8", errors="backslashreplace")
    for property_ in bpy.data.bl_rna.properties:
        name = property_.identifier
        if name in LEFT_OUT or property_.type != "COLLECTION":
            continue
        for number, datablock in enumerate(getattr(bpy.data, name)):
            place = f"{name}[{number}]"
            print(place, datablock.name_full, file=out)
            for each in lines(place, datablock, (datablock.as_pointer(),)):
                print(*each, file=out)


main()
