"""Catalogues in which each struct of another one has a member more at its end, so that elements become longer and no
value is lost."""
from blend import sdna
from blend.graph import Structs

ADDED, BYTES = b"added_behind_all", 8
LONGEST_TYPE = 65535


class Growth:
    """By how many bytes each struct of a catalogue grows; one that would be too long gets no member."""

    def __init__(self, catalogue, width):
        self.catalogue, self.structs = catalogue, Structs(catalogue, width)
        self.inside = {}

    def of_inner(self, number):
        """By how many bytes a struct's members grow."""
        if number not in self.inside:
            members = ((sdna.elements(self.catalogue.names[name])[1], self.inner(kind, name))
                       for kind, name in self.catalogue.structs[number][1])
            self.inside[number] = sum(count * self.of(inner) for count, inner in members if inner is not None)
        return self.inside[number]

    def inner(self, kind, name):
        return self.structs.inner(kind, self.catalogue.names[name])

    def has_room(self, number):
        return self.catalogue.lengths[self.catalogue.structs[number][0]] + self.of_inner(number) + BYTES <= LONGEST_TYPE

    def of(self, number):
        return self.of_inner(number) + (BYTES if self.has_room(number) else 0)


def grown(catalogue, width):
    """A catalogue with a member more in each struct that has room."""
    names, types, lengths, structs = catalogue
    growth, member = Growth(catalogue, width), (types.index(b"char"), len(names))
    new_lengths = list(lengths)
    for number, (type_, _) in enumerate(structs):
        new_lengths[type_] += growth.of(number)
    new = [(type_, list(members) + ([member] if growth.has_room(number) else []))
           for number, (type_, members) in enumerate(structs)]
    return sdna.Catalogue([*names, b"%s[%d]" % (ADDED, BYTES)], types, new_lengths, new)
