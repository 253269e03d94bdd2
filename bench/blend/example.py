"""The small catalogue of the worked examples, for either pointer width."""
from blend import sdna

NAMES = ("*next *prev *newid *lib name[66] flag us id name[1024] *parent *data loc[3] type _pad[2] "
         "*index *co **users *extra totindex totco").split()
TYPES = ("char uchar short ushort int int64_t float double void Link ID Library Object Mesh").split()
LENGTHS = {
    8: (1, 1, 2, 2, 4, 8, 4, 8, 0, 16, 104, 1128, 136, 144),
    4: (1, 1, 2, 2, 4, 8, 4, 8, 0, 8, 88, 1112, 112, 112),
}
STRUCTS = (
    ("Link", "Link *next", "Link *prev"),
    ("ID", "void *next", "void *prev", "ID *newid", "Library *lib", "char name[66]", "short flag", "int us"),
    ("Library", "ID id", "char name[1024]"),
    ("Object", "ID id", "Object *parent", "Mesh *data", "float loc[3]", "short type", "char _pad[2]"),
    ("Mesh", "ID id", "int *index", "float *co", "Object **users", "void *extra", "int totindex", "int totco"),
)


def member(spelled):
    kind, field = spelled.split()
    return TYPES.index(kind), NAMES.index(field)


def parts(width=8):
    """The names, types, lengths and structs, as `sdna.written` takes them."""
    structs = [(TYPES.index(name), [member(spelled) for spelled in members]) for name, *members in STRUCTS]
    return [name.encode() for name in NAMES], [name.encode() for name in TYPES], list(LENGTHS[width]), structs


def payload(width=8, order="<"):
    return sdna.written(*parts(width), order)
