"""Times `calumevio convert` beside `cp` on large files, and checks what it writes.

Files of struct blocks are `objects`, `groups`, `slots`, `one_group` (make/struct_blocks.py) and, where a sample is
given, `repeated`: the blocks of a file that Blender saved, many times over. `raw` is a file of raw blocks. `slots`
and `one_group` are made a second time, twice as large, to show how the time grows.

Both programs read a file from the page cache and write a new one in the same folder, by turns. Of each file it prints
the blocks, the bytes, the median seconds of both, their ratio, the peak memory of `convert`, and what that is for
each block. An output has to convert to itself, and that of `raw` has the bytes that are known beforehand.

With `--like` each file is also converted under the catalogue of another file, by turns with the rest. `same` has the
file's own catalogue, and the output has to be that of the file's own form. In `grown` each struct has a member more,
and what becomes of the output under `same` has to be that. With `--forms` each is also converted to pointers of 4 bytes
and the highest byte first (`turned`), and back from there it has to be that, too. The last column is the time beside that
of the own form.

The status is 1 where an output isn't right, and 0 whatever the times are."""
import argparse
import hashlib
import os
import pathlib
import statistics
import tempfile

import driver
from blend import example, parts, sdna
from make import apart, grown_catalogues, raw_blocks, repeated_blocks, struct_blocks

# The files whose catalogue a file is converted under, and another form.
SAME, GROWN, TURNED = "same", "grown", "turned"
OPTIONS = {None: [], SAME: ["--like", SAME], GROWN: ["--like", GROWN], TURNED: ["--width", "4", "--order", "big"]}
# What makes the own form of an output again, where it isn't that.
BACK = {GROWN: OPTIONS[SAME], TURNED: ["--width", "8", "--order", "little"]}
FILES = ("objects", "groups", "repeated", "slots", "one_group", "raw")
# What a time may be at most beside that of `cp`, and how many bytes of memory a block.
WANTED = {"raw": "at most 3, in memory twice the file and 64 MiB"}
WANTED_OF_STRUCTS = "at most 4, and 200 bytes a block"


def digest(path):
    sum_ = hashlib.sha256()
    with open(path, "rb") as file:
        while piece := file.read(driver.MEBIBYTE):
            sum_.update(piece)
    return sum_.digest()


def write_raw(folder, mebibytes, small):
    """Writes the raw file, and the digest of what has to come of it as a file beside it."""
    writer = raw_blocks.make(folder / "input", mebibytes, small)
    (folder / "digest").write_bytes(writer.expected.digest())


def write_catalogues(folder, given, name):
    """Writes the files that have the catalogue of a file, and the grown one, and no other block."""
    form, payload = parts.Form(8, "<", 405), example.payload()
    if name == "repeated":
        sample = given.sample.read_bytes()
        form = parts.form(sample)
        payload = next(block.payload for block in parts.blocks(sample, form) if block.code == b"DNA1")
    grown = grown_catalogues.grown(sdna.read(payload, form.order), form.width)
    (folder / SAME).write_bytes(parts.alone(payload, *form))
    (folder / GROWN).write_bytes(parts.alone(sdna.written(*grown, form.order), *form))


def make(folder, given, name, count):
    if name == "raw":
        apart.call(write_raw, folder, given.mebibytes, count)
    elif name == "repeated":
        apart.call(repeated_blocks.write, folder / "input", given.sample, count)
    else:
        apart.call(struct_blocks.write, folder / "input", name, count)
    if given.like:
        apart.call(write_catalogues, folder, given, name)
    os.sync()
    digest(folder / "input")


def convert(folder, given, name, out, options=()):
    return driver.Run([given.program, "convert", name, out, *options], folder)


def output(way):
    """The name of the output under the catalogue of a file, in another form, or in a file's own form."""
    return f"output-{way}" if way else "output"


def measure(folder, given):
    """The median seconds of `cp`, and the runs of `convert` by the way, where none is the own form."""
    ways = (None, *((SAME, GROWN) if given.like else ()), *((TURNED,) if given.forms else ()))
    copied, runs = [], {way: [] for way in ways}
    for _ in range(given.rounds):
        for name in ("copy", *map(output, runs)):
            (folder / name).unlink(missing_ok=True)
        copied.append(driver.Run(["cp", "input", "copy"], folder).seconds)
        for way, found in runs.items():
            found.append(convert(folder, given, "input", output(way), OPTIONS[way]))
    return statistics.median(copied), runs


def faults(folder, given, name, runs):
    """What is wrong with the answers in a file's own form, and with the output."""
    status, line = runs[0].answer
    if {run.answer for run in runs} != {(0, line)}:
        yield f"{ {run.answer for run in runs} }"
        return
    if not line.endswith(b" bytes %d\n" % (folder / "output").stat().st_size):
        yield f"the line is {line}"
    made = digest(folder / "output")
    if name == "raw" and made != (folder / "digest").read_bytes():
        yield "the output isn't the input's blocks with new addresses, the catalogue and the end"
    again = convert(folder, given, "output", "again").answer
    if again != (0, line) or digest(folder / "again") != made:
        yield "the output doesn't convert to itself"


def faults_otherwise(folder, given, way, runs):
    """What is wrong with the answers under a catalogue or in another form, and with the output."""
    status, line = runs[0].answer
    if {run.answer for run in runs} != {(0, line)}:
        yield f"{ {run.answer for run in runs} }"
        return
    if way in BACK and convert(folder, given, output(way), "again", BACK[way]).status != 0:
        yield "the output doesn't convert back"
    elif digest(folder / ("again" if way in BACK else output(way))) != digest(folder / "output"):
        yield "the own form doesn't come of it"


def row(folder, name, count, copied, runs, own, wrong):
    """Prints a row of the table."""
    size, peak = (folder / "input").stat().st_size, max(run.memory for run in runs)
    blocks = int(runs[0].line.split()[1]) if runs[0].status == 0 else 0
    done, by_own = (statistics.median(run.seconds for run in those) for those in (runs, own))
    print(f"{name:10} {count:9,} {blocks:9,} {size:12,} {copied:7.3f} {done:9.3f} {done / copied:6.2f}"
          f" {peak:10,} {1024 * peak / max(1, blocks):9,.0f} {done / by_own:8.2f}  {'; '.join(wrong) or 'right'}",
          flush=True)
    return None if wrong else done


def attempt(folder, given, name, count):
    """The seconds of `convert` on a file, none where something is wrong, after the lines that tell of it."""
    make(folder, given, name, count)
    copied, runs = measure(folder, given)
    own = runs.pop(None)
    done = row(folder, name, count, copied, own, own, list(faults(folder, given, name, own)))
    others = [row(folder, f"  {way}", count, copied, those, own, list(faults_otherwise(folder, given, way, those)))
              for way, those in runs.items()]
    return None if None in others else done


def counts(given, name):
    """How much of a file is made, and whether once more as much."""
    own = {"raw": given.small or round(given.mebibytes * raw_blocks.SMALL_BLOCKS_A_MEBIBYTE), "slots": given.slots}
    count = own.get(name, given.blocks)
    return [count, 2 * count] if name in ("slots", "one_group") else [count]


def bench(folder, given):
    """Whether all is right, after the lines of all files."""
    alone = statistics.median(driver.Run([given.program], folder).seconds for _ in range(given.rounds))
    print(f"load {os.getloadavg()[0]:.1f}; seconds are the median of {given.rounds}, memory is the most;"
          f" convert's seconds have {alone:.3f} in which the program starts")
    print(f"{'file':10} {'of':>9} {'blocks':>9} {'bytes':>12} {'cp s':>7} {'convert s':>9} {'ratio':>6}"
          f" {'peak KiB':>10} {'a block':>9} {'own form':>8}")
    right = True
    for name in given.only:
        if name == "repeated" and not given.sample:
            continue
        times = [attempt(folder, given, name, count) for count in counts(given, name)]
        right = right and None not in times
        if None not in times and len(times) == 2:
            print(f"{name}: twice as much takes {times[1] / times[0]:.2f} times as long")
        elif name in ("objects", "groups", "repeated", "raw"):
            print(f"{name}: wanted is a ratio of {WANTED.get(name, WANTED_OF_STRUCTS)}")
    return 0 if right else 1


def main():
    words = argparse.ArgumentParser(description=__doc__)
    driver.add_program(words)
    words.add_argument("--only", nargs="+", choices=FILES, default=FILES, metavar="FILE",
                       help="some of: " + " ".join(FILES))
    words.add_argument("--blocks", type=int, default=200_000, help="how many struct blocks, 10 to 1000000")
    words.add_argument("--slots", type=int, default=1_000_000, help="how many pointers, 1000 to 4000000")
    words.add_argument("--mebibytes", type=int, default=512, help="the size of the raw file, 2 to 1000")
    words.add_argument("--small", type=int, help="its small blocks, 1 to 4000000; 391 a mebibyte if left out")
    words.add_argument("--rounds", type=int, default=5, help="how often both are run")
    words.add_argument("--sample", type=pathlib.Path, help="a file that Blender saved, uncompressed")
    words.add_argument("--like", action="store_true", help="also under catalogues of other files")
    words.add_argument("--forms", action="store_true", help="also to the other width and the other order")
    words.add_argument("--folder", help="where the temporary folder is made")
    given = words.parse_args()
    if not 10 <= given.blocks <= 1_000_000 or not 1_000 <= given.slots <= 4_000_000 or given.rounds < 1:
        words.error("10 to 1000000 blocks, 1000 to 4000000 pointers, a round at least")
    if not 2 <= given.mebibytes <= 1000 or not 1 <= (given.small or 1) <= 4_000_000:
        words.error("2 to 1000 mebibytes, 1 to 4000000 small blocks")
    given.program = driver.built(given.program)
    with tempfile.TemporaryDirectory(dir=given.folder) as folder:
        return bench(pathlib.Path(folder), given)
