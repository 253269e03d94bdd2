"""Runs `calumevio convert`, and compares each output byte for byte with what the oracle makes.

Tried are a small file of each sort of struct blocks, small files that were changed at random, small files under the
catalogue of another in any width and order, and the `.blend` files of a folder, where one is given. These are also
converted to the other width and the other order, and back, and to the catalogue of an old file of each version, and
back. Where a float meets another number, that is tried once more without the blocks of such structs. The old files are
those of Debian's package `assimp-testmodels`. The text of `fates` is compared, too.

Each run has to end soon and in little memory, with a line of its status, and what it makes has to convert to itself. A
run that refuses leaves the output as it was; no part of a file is left. Real files that aren't read are skipped. The
status is 1 where something is wrong."""
import argparse
import collections
import gzip
import pathlib
import shutil
import subprocess
import tempfile

import driver
from blend import example, parts
from compare import fates
from make import changed_files, node_pairs, struct_blocks
from oracle import convert as oracle

SECONDS, LONG_SECONDS = 1, 60
SMALL = 2_000
LEAST_VERSION = 250
BEFORE = b"what the output was"
LINES = {0: b"blocks ", 6: b"bad file ", 8: b"float cast ", 9: b"limit "}
ORDERS = {"<": "little", ">": "big"}
# The forms that are wanted: any width with any order, or what the file has.
FORMS = [(width, order) for width in (None, 4, 8) for order in (None, "<", ">")]
OWN_FORM = FORMS[0]
PACKAGE = "assimp-testmodels"
# The lines of files that Blender 3.4 saved, by their names and their bytes.
SAVED = {
    ("animation.blend", 386852): b"blocks 945 bytes 386852\n",
    ("default.blend", 861720): b"blocks 2068 bytes 861720\n",
    ("empty.blend", 238300): b"blocks 279 bytes 238300\n",
    ("link_a.blend", 285592): b"blocks 434 bytes 285592\n",
    ("link_b.blend", 280344): b"blocks 420 bytes 280344\n",
    ("link_c.blend", 269732): b"blocks 384 bytes 269732\n",
    ("meshes.blend", 721330): b"blocks 883 bytes 721330\n",
}


def convert(given, folder, name, out, seconds, like=None, width=None, order=None):
    options = {"--like": like, "--width": width and str(width), "--order": order and ORDERS[order]}
    words = [given.program, "convert", name, out, *(word for each in options.items() if each[1] for word in each)]
    return driver.Run(words, folder, None, seconds, given.mebibytes)


def first_place(found, wanted):
    """The first place at which two rows of bytes differ."""
    return next((at for at, (one, other) in enumerate(zip(found, wanted)) if one != other),
                min(len(found), len(wanted)))


def output_faults(given, folder, wanted, line, seconds):
    """What is wrong with an output and its line."""
    made = (folder / "output").read_bytes()
    if line != wanted.line:
        yield f"the line {line}, not {wanted.line}"
    if made != wanted.output:
        yield f"the output has another byte at {first_place(made, wanted.output)}"
    again = convert(given, folder, "output", "again", seconds).answer
    if again != (0, line) or (folder / "again").read_bytes() != made:
        yield f"the output doesn't convert to itself, with the answer {again}"


def faults(given, folder, file, before, seconds=LONG_SECONDS, like=None, form=OWN_FORM):
    """The status of a run on a file, where the output was `before`, and what is wrong with it. A file that is converted
    under the catalogue of another one, or to another form, is accepted, and so is that one."""
    for old in folder.iterdir():
        old.unlink()
    inputs = {"input": file, **({"cat": like} if like else {})}
    for name, bytes_ in inputs.items():
        (folder / name).write_bytes(bytes_)
    output = folder / "output"
    if before:
        output.write_bytes(before)
    status, line = convert(given, folder, "input", "output", seconds, like and "cat", *form).answer
    wanted = oracle.outcome(file, like, *form) if like or form != OWN_FORM or status == 0 else None
    found = []
    if status not in LINES:
        found.append(f"status {status}, {line}")
    elif not line.startswith(LINES[status]) or line.count(b"\n") != 1 or not line.endswith(b"\n"):
        found.append(f"status {status} with the line {line}")
    elif wanted and (status, line) != wanted[:2]:
        found.append(f"status {status}, {line}, and not {wanted[:2]}")
    elif status == 0:
        found.extend(output_faults(given, folder, wanted, line, seconds))
    elif (output.read_bytes() if output.exists() else None) != before:
        found.append("the output changed")
    if any((folder / name).read_bytes() != bytes_ for name, bytes_ in inputs.items()):
        found.append("an input changed")
    if list(folder.glob("*.bl-part")):
        found.append("a part of a file is left")
    return status, found


def small_files(given, folder):
    """How many small files of struct blocks are wrong, after a line of each."""
    wrong = 0
    for sort in struct_blocks.SORTS:
        struct_blocks.write(folder / "made", sort, SMALL)
        status, found = faults(given, folder, (folder / "made").read_bytes(), None)
        if status != 0 and not found:
            found = [f"status {status}"]
        wrong += bool(found)
        print(f"{sort}, a small file: {'; '.join(found) or 'as the oracle says'}", flush=True)
    return wrong


def random_files(given, folder):
    """How many files that were changed at random are wrong, after a line of each of these."""
    statuses, wrong = collections.Counter(), 0
    for seed in range(given.first, given.first + given.count):
        file = changed_files.made(seed)
        status, found = faults(given, folder, file, BEFORE if seed % 2 else None, given.seconds)
        statuses[status] += 1
        if found:
            wrong += 1
            print(f"seed {seed}: {'; '.join(found)}: {file.hex()}")
    print(f"{given.count} files changed at random, {wrong} wrong; by status: {dict(statuses.most_common())}", flush=True)
    return wrong


def random_pairs(given, folder):
    """How many small files are wrong under the catalogue of another, in any form, after a line of each of these."""
    statuses, wrong = collections.Counter(), 0
    for seed in range(given.first, given.first + given.pairs):
        file, like = node_pairs.made(seed)
        form = FORMS[seed % len(FORMS)]
        status, found = faults(given, folder, file, BEFORE if seed % 2 else None, given.seconds, like, form)
        statuses[status] += 1
        if found:
            wrong += 1
            print(f"pair {seed}, {form}: {'; '.join(found)}: {file.hex()} {like.hex()}")
    print(f"{given.pairs} pairs of small files, {wrong} wrong; by status: {dict(statuses.most_common())}", flush=True)
    return wrong


def refusals(given, folder):
    """How many runs under a catalogue end wrong that have one of their files missing, bad, or more than once, after a
    line of each of these."""
    good, bad = parts.alone(example.payload()), b"BLENDER-v999"
    done = 0, b"blocks 0 bytes %d\n" % len(good)
    size = fates.large_file(folder / "large")
    cases = (
        ("none", "good", "output", (4, b"absent none\n")),
        ("good", "none", "output", (4, b"absent none\n")),
        ("bad", "none", "output", (6, b"bad file bad: BadVersion 999\n")),
        ("none", "bad", "output", (4, b"absent none\n")),
        ("good", "bad", "output", (6, b"bad file bad: BadVersion 999\n")),
        ("large", "large", "output", (9, b"limit input bytes %d\n" % (2 * size))),
        ("good", "large", "output", done),
        ("good", "good", "output", done),
        ("good", "other", "other", done),
        ("good", "other", "good", done),
    )
    wrong = 0
    for name, like, out, wanted in cases:
        for old in ("output", "other", "good"):
            (folder / old).unlink(missing_ok=True)
        for own in ("good", "other"):
            (folder / own).write_bytes(good)
        (folder / "bad").write_bytes(bad)
        before = {path.name: path.read_bytes() for path in folder.iterdir() if path.name != "large"}
        answer = convert(given, folder, name, out, LONG_SECONDS, like).answer
        after = {path.name: path.read_bytes() for path in folder.iterdir() if path.name != "large"}
        right = answer == wanted and after == ({**before, out: good} if wanted == done else before)
        wrong += not right
        if not right:
            print(f"convert {name} {out} --like {like}: {answer}, and not {wanted}")
    (folder / "large").unlink()
    print(f"{len(cases)} runs with a file missing, bad, or twice: {wrong} wrong", flush=True)
    return wrong


def saved(paths):
    """The files that were saved in a form that is read here, by their names, after a line of each other one."""
    found = {}
    for path in sorted(paths):
        file = path.read_bytes()
        if file[:2] == b"\x1f\x8b":
            file = gzip.decompress(file)
        form = parts.form(file)
        if form and form.version >= LEAST_VERSION:
            found[path.name] = file
        else:
            print(f"{path.name}: skipped, it begins with {file[:12]}")
    return found


def old_files():
    """The files of Debian's package, after a line where it isn't there."""
    listed = shutil.which("dpkg") and subprocess.run(["dpkg", "-L", PACKAGE], capture_output=True, text=True)
    paths = [pathlib.Path(line) for line in listed.stdout.split("\n") if line.endswith(".blend")] if listed else []
    if not paths:
        print(f"old files are skipped: the package {PACKAGE} isn't there")
    return saved(paths)


def own_forms(given, folder, files):
    """How many real files are wrong in their own form, after a line of each."""
    wrong = 0
    for name, file in files.items():
        status, found = faults(given, folder, file, None)
        line = oracle.outcome(file).line
        if SAVED.get((name, len(file)), line) != line:
            found.append(f"the oracle says {line}, and {SAVED[name, len(file)]} stands in the table")
        if status != 0 and not found:
            found = [f"status {status}"]
        wrong += bool(found)
        print(f"{name}: {line.decode().rstrip()}; {'; '.join(found) or 'as the oracle says'}", flush=True)
    return wrong


def like(given, folder, file, cat, back=True):
    """What is wrong with a file under the catalogue of another one, and what the oracle says of it; and so with the
    output under the first one's own catalogue."""
    wanted = oracle.outcome(file, cat)
    _, found = faults(given, folder, file, None, like=cat)
    said = [wanted.line.decode().rstrip()]
    if wanted.status == 8:
        more, again = like(given, folder, oracle.without_clashes(file, cat), cat, back)
        return found + more, said + again
    if back and wanted.status == 0:
        more, again = like(given, folder, wanted.output, file, False)
        return found + more, said + again
    return found, said


def both_ways(given, folder, files, one, other):
    """How many of two real files are wrong under the other's catalogue, after a line of each."""
    wrong = 0
    for name, cat in ((one, other), (other, one)):
        found, said = like(given, folder, files[name], files[cat])
        fault = fates.fault(given, folder, oracle.catalogue_of(files[name]), oracle.catalogue_of(files[cat]))
        found += [f"fates: {fault}"] if fault else []
        wrong += bool(found)
        print(f"{name} like {cat}: {', '.join(said)}; {'; '.join(found) or 'as the oracle says'}", flush=True)
    return wrong


def other_forms(given, folder, files):
    """How many real files are wrong in the other width, in the other order, in both, or back from there, after a line of
    each."""
    wrong = 0
    for name, file in files.items():
        own = parts.form(file)
        width, order = 12 - own.width, {"<": ">", ">": "<"}[own.order]
        found = [f"{form}: {fault}" for form in ((width, None), (None, order), (width, order))
                 for fault in faults(given, folder, file, None, form=form)[1]]
        there = oracle.outcome(file, width=width, order=order)
        if there.status == 0:
            found += [f"back: {fault}" for fault in faults(given, folder, there.output, None, form=own[:2])[1]]
            if oracle.outcome(there.output, width=own.width, order=own.order).output != oracle.outcome(file).output:
                found.append("the oracle doesn't come back to the own form")
        wrong += bool(found)
        print(f"{name}, other forms: {there.line.decode().rstrip()}; {'; '.join(found) or 'as the oracle says'}", flush=True)
    return wrong


def samples(given, folder):
    """How many real files are wrong, in their own form and in others, and under each other's catalogues: each sample with
    an old file of each version, and each old file with the next one."""
    new, old = saved(given.samples.glob("*.blend")), old_files()
    in_order = sorted(old, key=lambda name: parts.form(old[name]).version)
    versions = {parts.form(old[name]).version: name for name in in_order}
    pairs = [(one, other) for one in new for other in versions.values()] + list(zip(in_order, in_order[1:]))
    files = {**new, **old}
    return (own_forms(given, folder, files) + other_forms(given, folder, files)
            + sum(both_ways(given, folder, files, *pair) for pair in pairs))


def main():
    words = argparse.ArgumentParser(description=__doc__)
    driver.add_program(words)
    words.add_argument("--samples", type=pathlib.Path, help="a folder of files that Blender saved")
    words.add_argument("--first", type=int, default=0, help="the first seed of the files changed at random")
    words.add_argument("--count", type=int, default=1000, help="how many of these are tried")
    words.add_argument("--pairs", type=int, default=1000, help="how many pairs of small files are tried")
    words.add_argument("--seconds", type=float, default=SECONDS, help="within which each of these runs has to end")
    words.add_argument("--mebibytes", type=int, default=256, help="of address space that a run may have; 0 for all")
    given = words.parse_args()
    given.program = driver.built(given.program)
    if given.samples and not given.samples.is_dir():
        words.error(f"there is no folder {given.samples}")
    with tempfile.TemporaryDirectory() as name:
        folder = pathlib.Path(name)
        wrong = small_files(given, folder) + random_files(given, folder) + random_pairs(given, folder)
        wrong += refusals(given, folder)
        wrong += samples(given, folder) if given.samples else 0
    return 1 if wrong else 0
