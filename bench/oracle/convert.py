"""What `convert` makes of a file, and the line that it prints: with its own catalogue, or with that of another file, and in
its own width and order, or in others.

The version is that of the catalogue's file. Both files have to be ones that are accepted: no check is made here."""
import collections
import functools
import itertools
import struct

from blend import parts, sdna
from blend.graph import PAIRS, File, Structs
from oracle.carried import BYTES, PAIR, POINTERS, Carrying, Cast, Copy, FloatClash, Pointer
from oracle.schema import shown

# The status of a run, its line, and the output, where there is one.
Outcome = collections.namedtuple("Outcome", "status line output")

LONGEST_BLOCK = 2 ** 31 - 1
LONGEST_FILE = 2 ** 31
MOST_BLOCKS = 2 ** 23
LONGEST_TYPE = 2 ** 16 - 1
ORDERS = {"<": "little", ">": "big"}


def new_address(k):
    """The address of a node in the output, or null."""
    return 0 if k is None else 16 * (k + 1)


class Rebuilt:
    """The nodes of a file that a catalogue keeps, and what is written of them in a form."""

    def __init__(self, file, catalogue, form):
        self.file, self.form = file, form
        self.turns = form.order != file.form.order
        self.new_pointer = struct.Struct(form.order + {4: "I", 8: "Q"}[form.width])
        types, lengths, structs = catalogue.types, catalogue.lengths, catalogue.structs
        own = file.catalogue
        self.names = [own.types[type_] for type_, _ in own.structs]
        self.numbers = {types[type_]: number for number, (type_, _) in enumerate(structs)}
        self.lengths = {types[type_]: lengths[type_] for type_, _ in structs}
        self.carrying = Carrying(own, file.form.width, catalogue, form.width)
        self.structs = Structs(catalogue, form.width)
        self.nodes = self.kept()
        self.images = {k: image for image, k in enumerate(self.nodes)}

    def name(self, k):
        return self.names[self.file.nodes[k].index]

    def number(self, k):
        """The number of a node's struct in the catalogue; a raw node has 0."""
        return self.numbers[self.name(k)] if self.file.nodes[k].index else 0

    def kept(self):
        """The numbers of the nodes that are raw or whose struct the catalogue has behind its first one, in groups
        whose head is such a node."""
        found, group_is_kept = [], True
        for k, node in enumerate(self.file.nodes):
            is_kept = node.index == 0 or self.numbers.get(self.name(k), 0) != 0
            if node.code != b"DATA":
                group_is_kept = is_kept
            if is_kept and group_is_kept:
                found.append(k)
        return found

    def is_id(self, k):
        node = self.file.nodes[k]
        return (parts.is_two_letter(node.code) and node.count == 1 and node.index != 0
                and self.structs.has_id_part(self.number(k)))

    def image(self, k, address):
        """The number that an address which node k holds has in the output, or nothing: that of a kept node of its
        group, or of an ID under the catalogue."""
        to = self.file.target(self.file.groups[k], address)
        if to not in self.images:
            return None
        return self.images[to] if self.file.groups[to] == self.file.groups[k] or self.is_id(to) else None

    def clash(self, k):
        """The first clash of a float with another number in a node's struct, or nothing."""
        try:
            if self.file.nodes[k].index and self.name(k) in self.numbers:
                self.carrying.of(self.name(k))
            return None
        except FloatClash as found:
            return found

    def elements(self, k):
        """Where the elements of a struct node begin, before and after, if anything is carried."""
        node = self.file.nodes[k]
        own_length, length = self.file.structs.shape(node.index).length, self.lengths[self.name(k)]
        return ((n * own_length, n * length) for n in range(node.count if self.carrying.of(self.name(k)) else 0))

    @functools.cached_property
    def kinds(self):
        """What the kept raw nodes hold: what is said of each under the catalogue, where that is one thing."""
        sayings = collections.defaultdict(set)
        for k in self.nodes:
            node = self.file.nodes[k]
            if node.index == 0:
                continue
            pointers = [move for move in self.carrying.of(self.name(k))
                        if isinstance(move, Pointer) and move.says is not None]
            for (own, _), move in itertools.product(self.elements(k) if pointers else (), pointers):
                image = self.image(k, self.file.pointer.unpack_from(node.payload, own + move.source)[0])
                if image is not None:
                    sayings[image].add(move.says)
        return {k: self.kind(self.file.nodes[k], sayings[self.images[k]]) for k in self.nodes if self.file.nodes[k].index == 0}

    @staticmethod
    def kind(node, sayings):
        """What a raw node holds, by what is said of it."""
        if node.code in PAIRS:
            return PAIR if len(node.payload) >= 8 else BYTES
        return min(sayings, key=str) if len(sayings) == 1 else BYTES

    def length(self, k):
        """The length of a node's new payload."""
        node = self.file.nodes[k]
        if node.index:
            return node.count * self.lengths[self.name(k)]
        if self.kinds[k] == POINTERS:
            return len(node.payload) // self.file.form.width * self.form.width
        return len(node.payload)

    def payload(self, k):
        """A node's new payload."""
        return self.struct_payload(k) if self.file.nodes[k].index else self.raw_payload(k)

    def struct_payload(self, k):
        node, moves, pointer = self.file.nodes[k], self.carrying.of(self.name(k)), self.file.pointer
        own_order, order = ORDERS[self.file.form.order], ORDERS[self.form.order]
        payload = bytearray(self.length(k))
        for (own, new), move in itertools.product(self.elements(k), moves):
            at, to = own + move.source, new + move.target
            if isinstance(move, Copy):
                payload[to:to + move.length] = self.turned(node.payload[at:at + move.length], move.unit)
            elif isinstance(move, Cast):
                number = int.from_bytes(node.payload[at:at + move.size], own_order, signed=move.signed)
                payload[to:to + move.new_size] = (number % 256 ** move.new_size).to_bytes(move.new_size, order)
            else:
                self.new_pointer.pack_into(payload, to, new_address(self.image(k, *pointer.unpack_from(node.payload, at))))
        return payload

    def turned(self, bytes_, unit):
        """Numbers of so many bytes in the order of the form; a rest that is shorter stays."""
        if unit == 1 or not self.turns:
            return bytes_
        whole = len(bytes_) // unit * unit
        return b"".join(bytes_[at:at + unit][::-1] for at in range(0, whole, unit)) + bytes_[whole:]

    def raw_payload(self, k):
        """Pointers, of which a rest is dropped, numbers, a pair, or the bytes as they are."""
        node, kind = self.file.nodes[k], self.kinds[k]
        if kind == PAIR:
            return self.turned(node.payload[:8], 4) + node.payload[8:]
        if kind != POINTERS:
            return self.turned(node.payload, kind)
        whole = len(node.payload) // self.file.form.width * self.file.form.width
        slots = self.file.pointer.iter_unpack(node.payload[:whole])
        return b"".join(self.new_pointer.pack(new_address(self.image(k, address))) for address, in slots)

    def refusal(self):
        """The status and the line of what keeps the nodes from being written, or nothing."""
        clash = next((found for k in self.nodes if (found := self.clash(k))), None)
        if clash:
            return Outcome(8, b"float cast %s.%s\n" % (shown(clash.owner), shown(clash.member)), None)
        if len(self.nodes) > MOST_BLOCKS:
            return Outcome(9, b"limit output blocks %d\n" % len(self.nodes), None)
        long = next((self.length(k) for k in self.nodes if self.length(k) > LONGEST_BLOCK), None)
        return long and Outcome(9, b"limit block bytes %d\n" % long, None)


def catalogue_of(bytes_):
    """The catalogue of a file, and its form."""
    form = parts.form(bytes_)
    payload = next(block.payload for block in parts.blocks(bytes_, form) if block.code == b"DNA1")
    return sdna.read(payload, form.order), form


def at_width(catalogue, width, new_width):
    """A catalogue at another width of pointers: each struct is as long as its members are then, with its old tail."""
    names, types, lengths, entries = catalogue
    structs = {type_: members for type_, members in entries}
    forms = {field: sdna.elements(names[field]) for members in structs.values() for _, field in members}
    found = {}

    def size(kind, field, bytes_, length):
        pointer, count = forms[field]
        return count * (bytes_ if pointer else length(kind))

    def new_length(type_):
        if type_ not in structs:
            return lengths[type_]
        if type_ not in found:
            members = structs[type_]
            tail = lengths[type_] - sum(size(*member, width, lengths.__getitem__) for member in members)
            found[type_] = tail + sum(size(*member, new_width, new_length) for member in members)
        return found[type_]

    return catalogue._replace(lengths=[new_length(type_) for type_ in range(len(types))])


def too_long(catalogue):
    """The length of the first struct that is too long for a type, or nothing."""
    return next((catalogue.lengths[type_] for type_, _ in catalogue.structs if catalogue.lengths[type_] > LONGEST_TYPE), None)


def without_clashes(bytes_, like):
    """A file without its nodes of structs in which a float meets another number under the catalogue of another file."""
    file = File(bytes_)
    catalogue, form = catalogue_of(like)
    rebuilt = Rebuilt(file, at_width(catalogue, form.width, file.form.width), file.form)
    nodes = [node for k, node in enumerate(file.nodes) if not rebuilt.clash(k)]
    return parts.written(file.form, nodes, sdna.written(*file.catalogue, file.form.order))


def outcome(bytes_, like=None, width=None, order=None):
    """What a run makes of a file with its own catalogue, or with that of another file, at a width and in an order."""
    file = File(bytes_)
    catalogue, form = catalogue_of(like) if like else (file.catalogue, file.form)
    new = parts.Form(width or file.form.width, order or file.form.order, form.version)
    catalogue = at_width(catalogue, form.width, new.width)
    long = too_long(catalogue)
    if long:
        return Outcome(9, b"limit type bytes %d\n" % long, None)
    rebuilt = Rebuilt(file, catalogue, new)
    refused = rebuilt.refusal()
    if refused:
        return refused
    payload = sdna.written(*catalogue, new.order)
    head = len(parts.head(b"DATA", 0, width=new.width))
    length = len(parts.alone(payload, *new)) + sum(head + rebuilt.length(k) for k in rebuilt.nodes)
    if length > LONGEST_FILE:
        return Outcome(9, b"limit file bytes %d\n" % length, None)
    nodes = (file.nodes[k]._replace(address=new_address(image), index=rebuilt.number(k), payload=rebuilt.payload(k))
             for image, k in enumerate(rebuilt.nodes))
    return Outcome(0, b"blocks %d bytes %d\n" % (len(rebuilt.nodes), length), parts.written(new, nodes, payload))
