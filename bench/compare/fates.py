"""Runs `calumevio fates`, and compares its status and its text with what the oracle says.

Tried are pairs of small catalogues that were drawn at random, of either width and order; pairs of large ones; inputs
that are refused; and pairs of the `.blend` files of a folder, where one is given. Each catalogue stands behind a header
with no other block. The status is 1 where something is wrong."""
import argparse
import pathlib
import tempfile

import driver
from blend import example, parts, sdna
from make import catalogue_pairs, large_catalogues
from oracle import fates as oracle

ORDERS = "<>"
LARGE = (large_catalogues.ordinary, large_catalogues.most_leaves, large_catalogues.deepest, large_catalogues.wide,
         large_catalogues.cross, large_catalogues.layers, large_catalogues.escaped_name)
GIBIBYTE = 2 ** 30


def fates(given, folder, source="input", target="cat"):
    """The answer of a run of `fates` on two files of a folder."""
    words = [given.program, "fates", source, target]
    return driver.Run(words, folder, None, given.seconds, given.mebibytes).answer


def line_that_differs(found, wanted):
    """The first line in which two texts differ."""
    pairs = zip(found.split(b"\n") + [None], wanted.split(b"\n") + [None])
    return next((f"line {number}: {one}, not {other}"
                 for number, (one, other) in enumerate(pairs, 1) if one != other), None)


def fault(given, folder, source, target):
    """What is wrong with the answer on two catalogues, each with its form, if something is."""
    for name, (catalogue, form) in (("input", source), ("cat", target)):
        (folder / name).write_bytes(parts.alone(sdna.written(*catalogue, form.order), *form))
    wanted = b"".join(oracle.lines(source[0], source[1].width, target[0], target[1].width))
    status, text = fates(given, folder)
    return f"status {status}, {text[:100]}" if status else line_that_differs(text, wanted)


def drawn_pairs(given, folder):
    """How many pairs that were drawn are wrong, after a line of each of these."""
    wrong = 0
    for seed in range(given.pairs):
        (source, width), (target, other_width) = catalogue_pairs.pair(seed)
        forms = (parts.Form(width, ORDERS[seed % 2], 405), parts.Form(other_width, ORDERS[seed // 2 % 2], 300))
        found = fault(given, folder, (source, forms[0]), (target, forms[1]))
        wrong += bool(found)
        if found:
            print(f"pair {seed}: {found}", flush=True)
    print(f"{given.pairs} pairs that were drawn: {wrong} wrong", flush=True)
    return wrong


def large_pairs(given, folder):
    """How many large catalogues are wrong beside themselves, after a line of each."""
    wrong, form = 0, parts.Form(8, "<", 405)
    for make in LARGE:
        catalogue = make(8)
        found = fault(given, folder, (catalogue, form), (catalogue, form))
        wrong += bool(found)
        print(f"{make.__name__}: {found or 'as the oracle says'}", flush=True)
    return wrong


def large_file(path):
    """A file whose one block makes it longer than half of what both inputs may have."""
    payload = example.payload()
    with open(path, "wb") as file:
        file.write(parts.header() + parts.head(b"DATA", GIBIBYTE // 2, address=16))
        file.seek(GIBIBYTE // 2, 1)
        file.write(parts.head(b"DNA1", len(payload)) + payload + parts.end())
    return path.stat().st_size


def refusals(given, folder):
    """How many inputs that are refused are answered wrong, after a line of each of these."""
    good, bad = parts.alone(example.payload()), b"BLENDER-v999"
    cases = (
        ("good", "none", (4, b"absent none\n")),
        ("none", "good", (4, b"absent none\n")),
        ("none", "bad", (4, b"absent none\n")),
        ("bad", "none", (6, b"bad file bad: BadVersion 999\n")),
        ("good", "bad", (6, b"bad file bad: BadVersion 999\n")),
        ("good", "large", (0, None)),
        ("large", "large", (9, b"limit input bytes %d\n" % (2 * large_file(folder / "large")))),
    )
    (folder / "good").write_bytes(good)
    (folder / "bad").write_bytes(bad)
    wrong = 0
    for source, target, wanted in cases:
        status, text = fates(given, folder, source, target)
        right = status == wanted[0] and wanted[1] in (None, text)
        wrong += not right
        if not right:
            print(f"fates {source} {target}: status {status}, {text[:100]}", flush=True)
    print(f"{len(cases)} inputs that are refused: {wrong} wrong", flush=True)
    return wrong


def samples(given, folder):
    """How many pairs of real files are wrong, after a line of each: a file with itself, with the one before, and with
    the small catalogue."""
    wrong, before = 0, (sdna.Catalogue(*example.parts()), parts.Form(8, "<", 405))
    small = before
    for path in sorted(given.samples.glob("*.blend")):
        file = path.read_bytes()
        form = parts.form(file)
        if not form:
            print(f"{path.name}: skipped, it begins with {file[:12]}")
            continue
        payload = next(block.payload for block in parts.blocks(file, form) if block.code == b"DNA1")
        own = sdna.read(payload, form.order), form
        found = [fault(given, folder, *pair) for pair in ((own, own), (before, own), (own, small))]
        wrong += any(found)
        print(f"{path.name}: {next(filter(None, found), 'as the oracle says')}", flush=True)
        before = own
    return wrong


def main():
    words = argparse.ArgumentParser(description=__doc__)
    driver.add_program(words)
    words.add_argument("--samples", type=pathlib.Path, help="a folder of files that Blender saved")
    words.add_argument("--pairs", type=int, default=400, help="how many are drawn")
    words.add_argument("--seconds", type=float, default=60, help="after which a run is killed")
    words.add_argument("--mebibytes", type=int, default=8192, help="of address space that a run may have; 0 for all")
    given = words.parse_args()
    given.program = driver.built(given.program)
    if given.samples and not given.samples.is_dir():
        words.error(f"there is no folder {given.samples}")
    with tempfile.TemporaryDirectory() as name:
        folder = pathlib.Path(name)
        wrong = drawn_pairs(given, folder) + large_pairs(given, folder) + refusals(given, folder)
        wrong += samples(given, folder) if given.samples else 0
    return 1 if wrong else 0
