"""Runs `calumevio schema`, and compares its status and its text with what the oracle says.

Tried are large and hostile catalogues, and the catalogues of the `.blend` files of a folder, where one is given; each
catalogue stands behind a header with no other block. The status is 1 where something is wrong."""
import argparse
import filecmp
import pathlib
import tempfile

import driver
from blend import parts, sdna
from make import large_catalogues
from oracle import schema as oracle

VERSION = 405
CASES = {make.__name__: (make, status, line) for make, status, line in large_catalogues.CASES}


def add_cases(words):
    words.add_argument("--only", nargs="+", choices=CASES, default=list(CASES), metavar="CASE",
                       help="some of: " + " ".join(CASES))
    words.add_argument("--width", type=int, choices=(4, 8), default=8)
    words.add_argument("--order", choices="<>", default="<", help="low bytes first or high ones")
    words.add_argument("--seconds", type=float, default=60, help="after which a run is killed")
    words.add_argument("--mebibytes", type=int, default=8192, help="of address space that a run may have; 0 for all")


def write_case(folder, case, width, order):
    """Writes a case as the file `input`, and what is printed of it as the file `wanted`."""
    build, _, line = CASES[case]
    made = build(width)
    (folder / "input").write_bytes(parts.alone(sdna.written(*made, order), width, order, VERSION))
    with open(folder / "wanted", "wb", buffering=driver.MEBIBYTE) as file:
        file.writelines([line] if line else oracle.lines(made, width, order, VERSION))


def schema(given, folder):
    """A run of `schema` on the file `input`, whose text goes to the file `found`."""
    return driver.Run([given.program, "schema", "input"], folder, "found", given.seconds, given.mebibytes)


def is_right(folder, case, status):
    """Whether a run ended as its case wants, with the text that is wanted."""
    return status == CASES[case][1] and filecmp.cmp(folder / "found", folder / "wanted", shallow=False)


def catalogues(given, folder):
    """How many cases are wrong, after a line of each."""
    wrong = 0
    for case in given.only:
        write_case(folder, case, given.width, given.order)
        status = schema(given, folder).status
        right = is_right(folder, case, status)
        wrong += not right
        print(f"{case}: status {status}; {'as the oracle says' if right else 'WRONG'}", flush=True)
    return wrong


def line_that_differs(found, wanted):
    """The first line in which two texts differ."""
    pairs = zip(found.split(b"\n") + [None], wanted.split(b"\n") + [None])
    return next((f"line {number}: {one}, not {other}"
                 for number, (one, other) in enumerate(pairs, 1) if one != other), None)


def samples(given, folder):
    """How many catalogues of real files are wrong, after a line of each."""
    wrong = 0
    for path in sorted(given.samples.glob("*.blend")):
        file = path.read_bytes()
        form = parts.form(file)
        if not form:
            print(f"{path.name}: skipped, it begins with {file[:12]}")
            continue
        payload = next(block.payload for block in parts.blocks(file, form) if block.code == b"DNA1")
        wanted = b"".join(oracle.lines(sdna.read(payload, form.order), *form))
        (folder / "input").write_bytes(parts.alone(payload, *form))
        status, text = schema(given, folder).status, (folder / "found").read_bytes()
        differs = f"status {status}" if status else line_that_differs(text, wanted)
        wrong += bool(differs)
        print(f"{path.name}: {len(text)} bytes; {differs or 'as the oracle says'}", flush=True)
    return wrong


def main():
    words = argparse.ArgumentParser(description=__doc__)
    driver.add_program(words)
    words.add_argument("--samples", type=pathlib.Path, help="a folder of files that Blender saved")
    add_cases(words)
    given = words.parse_args()
    given.program = driver.built(given.program)
    if given.samples and not given.samples.is_dir():
        words.error(f"there is no folder {given.samples}")
    with tempfile.TemporaryDirectory() as name:
        folder = pathlib.Path(name)
        wrong = catalogues(given, folder) + (samples(given, folder) if given.samples else 0)
    return 1 if wrong else 0
