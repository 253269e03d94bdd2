#!/usr/bin/env python3
"""Tries what becomes of files where `calumevio` meets a disk and a terminal, and checks each run.

Each trial has a folder of its own, with links, pipes and device nodes of its own. What a run has to make is
worked out by the oracle. A run is held, where a trial needs it, by a full pipe as its output: its part is
then written, and its line isn't. Trials that the machine can't make (device nodes without the right to make
them, say) are skipped. The argument is the program itself, and not the launcher. The status is 1 where a trial
failed."""
import argparse
import contextlib
import fcntl
import os
import pathlib
import random
import re
import resource
import shutil
import signal
import socket
import stat
import subprocess
import sys
import tempfile
import threading
import time

sys.dont_write_bytecode = True
from blend import example, parts
from oracle import convert

SECONDS = 30
NOBODY = 65534
NULL_DEVICE = os.makedev(1, 3)
KILLS, RACES = 50, 30
# Longer than the coarsest clock by which a system stamps files.
STEP = 0.03
PART = re.compile(r"-?[0-9a-f]{16}\.bl-part$")
OLD = b"what the output was"
TRIALS = []
program = None


class Skip(Exception):
    """What a trial needs isn't here."""


def trial(test):
    TRIALS.append(test)
    return test


def check(holds, *told):
    if not holds:
        raise AssertionError(" ".join(map(str, told)))


# ---- files

def blend(size, seed=0):
    """A file of one block of random bytes that name nothing."""
    payload = random.Random(seed).randbytes(size)
    body = example.payload()
    return (parts.header() + parts.head(b"TEST", size, 4096) + payload
            + parts.head(b"DNA1", len(body)) + body + parts.end())


SMALL = blend(4)
LARGE = blend(2 ** 21, 1)


class Case:
    """A folder with an input, and perhaps an output."""

    def __init__(self, folder, file=SMALL, old=OLD):
        self.folder, self.file = folder, file
        self.input, self.out = folder / "in", folder / "out"
        _, self.line, self.made = convert.outcome(file)
        self.input.write_bytes(file)
        if old is not None:
            self.out.write_bytes(old)

    def run(self, out="out", input="in", **how):
        how = {"stdin": subprocess.DEVNULL, "stdout": subprocess.PIPE, "stderr": subprocess.PIPE, **how}
        ended = subprocess.run([program, "convert", input, out], cwd=self.folder, timeout=SECONDS, **how)
        check(not ended.stderr, "standard error:", ended.stderr)
        return ended.returncode, ended.stdout

    def done(self, out=None, **how):
        """Runs, and checks that the output is made."""
        out = out or self.out
        ended = self.run(str(out), **how)
        check(ended == (0, self.line), "ended with", ended)
        check(out.read_bytes() == self.made, "the output isn't the conversion")
        self.clean()

    def refused(self, out="out", input="in", **how):
        """Runs, and checks that it ends with `device` alone and leaves all as it was."""
        before = look(self.folder)
        ended = self.run(out, input, **how)
        check(ended == (5, b"device\n"), "ended with", ended)
        after = look(self.folder)
        check(before == after, "was", before, "and is", after)

    def clean(self):
        """Checks that no part is left, and the input is as it was."""
        check(not left_in(self.folder), "left", left_in(self.folder))
        check(self.input.read_bytes() == self.file, "the input isn't as it was")


def left_in(folder):
    """The names of parts in a folder."""
    return sorted(it.name for it in folder.rglob("*.bl-part"))


def look(folder):
    """What stands in a folder: of each name its node, its mode, its owner, and its bytes or where it leads."""
    seen = {}
    for it in sorted(folder.rglob("*")):
        found = it.lstat()
        held = os.readlink(it) if it.is_symlink() else it.read_bytes() if stat.S_ISREG(found.st_mode) else None
        node = found.st_ino, found.st_mode, found.st_uid, found.st_gid, found.st_rdev
        seen[str(it.relative_to(folder))] = (*node, held)
    return seen


# ---- a run that is held

class Held:
    """A run that stands before its line: its part is written, and waits for `go`."""

    def __init__(self, case, out="out", place=None, options=(), **how):
        self.case = case
        self.reader, writer = os.pipe()
        self.filled = fill(writer)
        self.run = subprocess.Popen([program, "convert", "in", out, *options], cwd=case.folder,
                                    stdin=subprocess.DEVNULL, stdout=writer, stderr=subprocess.DEVNULL, **how)
        os.close(writer)
        self.part = self.wait(place or case.folder)

    def wait(self, folder):
        until = time.monotonic() + SECONDS
        while time.monotonic() < until and self.run.poll() is None:
            for it in folder.glob("*.bl-part"):
                if PART.search(it.name) and it.stat().st_size == len(self.case.made):
                    time.sleep(STEP)
                    return it
            time.sleep(0.002)
        raise AssertionError(f"no part was written in {folder}: status {self.run.poll()}")

    def go(self):
        """Lets it go on, and gives its status and what it put."""
        with open(self.reader, "rb") as reader:
            put = reader.read()[self.filled:]
        return self.run.wait(SECONDS), put

    def __enter__(self):
        return self

    def __exit__(self, *_):
        self.run.kill()
        self.run.wait()
        with contextlib.suppress(OSError):
            os.close(self.reader)


def fill(writer):
    """Fills a pipe, and gives the number of bytes."""
    os.set_blocking(writer, False)
    filled = 0
    with contextlib.suppress(BlockingIOError):
        while True:
            filled += os.write(writer, bytes(4096))
    with contextlib.suppress(BlockingIOError):
        while True:
            filled += os.write(writer, bytes(1))
    os.set_blocking(writer, True)
    return filled


# ---- what stands at OUT and IN

def make_device(path):
    try:
        os.mknod(path, stat.S_IFCHR | 0o666, NULL_DEVICE)
    except OSError:
        raise Skip("no right to make a device node")


def make_socket(path):
    with socket.socket(socket.AF_UNIX) as it:
        it.bind(str(path))


NODES = {"device": make_device, "pipe": os.mkfifo, "socket": make_socket, "folder": os.mkdir}


def trial_of_node(kind, make):
    def out_is(folder):
        case = Case(folder, old=None)
        make(case.out)
        case.refused()
        (folder / "link").symlink_to("out")
        case.refused("link")

    def in_is(folder):
        case = Case(folder)
        make(folder / "node")
        case.refused(input="node")
        (folder / "link").symlink_to("node")
        case.refused(input="link")

    out_is.__name__, in_is.__name__ = f"out_is_a_{kind}", f"in_is_a_{kind}"
    trial(out_is)
    trial(in_is)


for kind, make in NODES.items():
    trial_of_node(kind, make)


@trial
def out_has_no_folder(folder):
    case = Case(folder)
    (folder / "stdout").symlink_to("/proc/self/fd/1")
    for out in (".", "..", "/", "no/out", "in/out", "out/", "new/", "new/.", "stdout"):
        case.refused(out)


@trial
def out_is_in_a_folder_without_rights(folder):
    case = Case(folder)
    (folder / "shut").mkdir(mode=0o555)
    case.refused("shut/out", **as_nobody(folder))


@trial
def out_is_new(folder):
    case = Case(folder, old=None)
    for number, umask in enumerate((0o022, 0o077, 0)):
        out = folder / str(number)
        case.done(out, umask=umask)
        check(stat.S_IMODE(out.stat().st_mode) == 0o666 & ~umask, "mode", oct(out.stat().st_mode))


@trial
def out_is_in(folder):
    case = Case(folder, LARGE)
    os.link(case.input, folder / "other")
    check(case.run("in") == (0, case.line), "in place")
    check(case.input.read_bytes() == case.made, "the input is the output")
    check((folder / "other").read_bytes() == LARGE, "another name has the old bytes")


# ---- links

@trial
def out_is_a_link(folder):
    case = Case(folder)
    (folder / "far" / "deep").mkdir(parents=True)
    for name, target in (("to file", "far/old"), ("to nothing", "far/deep/new"), ("whole", folder / "far/whole")):
        (folder / name).symlink_to(target)
    (folder / "far/old").write_bytes(OLD)
    (folder / "far/link").symlink_to("deep/../../to file")
    (folder / "chain").symlink_to("far/link")
    for name, target in (("to file", "old"), ("to nothing", "deep/new"), ("whole", "whole"), ("chain", "old")):
        leads = os.readlink(folder / name)
        case.done(folder / name)
        check(os.readlink(folder / name) == leads, name, "was replaced")
        check((folder / "far" / target).read_bytes() == case.made, name, "leads elsewhere")
    with Held(case, "chain", place=folder / "far") as held:
        check(held.part.name.startswith("old-"), held.part)
        check(held.go() == (0, case.line), "held behind a link")


@trial
def out_is_a_link_in_a_ring(folder):
    case = Case(folder, old=None)
    case.out.symlink_to("other")
    (folder / "other").symlink_to("out")
    case.refused()


# ---- mode and owner

def give(path, user, group):
    try:
        os.chown(path, user, group, follow_symlinks=False)
    except OSError:
        raise Skip("no right to give files to others")


def as_nobody(folder):
    """Gives all of a folder to nobody, and says how a run is made as nobody."""
    for it in [folder, *folder.rglob("*")]:
        give(it, NOBODY, NOBODY)
    how = {"user": NOBODY, "group": NOBODY, "extra_groups": []}
    try:
        subprocess.run([program], cwd=folder, stdin=subprocess.DEVNULL, stdout=subprocess.DEVNULL, **how)
    except OSError:
        raise Skip("no right to be nobody here")
    return how


@trial
def mode_is_kept(folder):
    for mode in (0o600, 0o640, 0o644, 0o664, 0o666, 0o755, 0o400):
        case = Case(folder)
        case.out.chmod(mode)
        with Held(case) as held:
            check(stat.S_IMODE(held.part.stat().st_mode) == mode, "the part's mode", oct(held.part.stat().st_mode))
            check(held.go() == (0, case.line), "mode", oct(mode))
        check(stat.S_IMODE(case.out.stat().st_mode) == mode, oct(mode), "became", oct(case.out.stat().st_mode))
        case.out.unlink()


@trial
def owner_is_kept(folder):
    case = Case(folder)
    give(case.out, 12345, 23456)
    case.out.chmod(0o754)
    with Held(case) as held:
        found = held.part.stat()
        check((found.st_uid, found.st_gid) == (12345, 23456), "the part's owner")
        check(held.go() == (0, case.line), "owner")
    found = case.out.stat()
    check((found.st_uid, found.st_gid, stat.S_IMODE(found.st_mode)) == (12345, 23456, 0o754), found)


@trial
def rights_do_not_grow_where_the_owner_is_not_kept(folder):
    for mode, group, wanted in ((0o640, 23456, 0o600), (0o644, 23456, 0o644), (0o664, 23456, 0o644),
                                (0o604, 23456, 0o600), (0o640, NOBODY, 0o640)):
        case = Case(folder)
        how = as_nobody(folder)
        give(case.out, 12345, group)
        case.out.chmod(mode)
        case.done(**how)
        found = case.out.stat()
        check((found.st_uid, stat.S_IMODE(found.st_mode)) == (NOBODY, wanted), oct(mode), "became", oct(found.st_mode))
        case.out.unlink()


# ---- names

@trial
def long_names(folder):
    case = Case(folder, old=None)
    for name in (*("n" * length for length in (200, 201, 247, 248, 254, 255)), "é" * 127):
        case.done(folder / name)
        case.done(folder / name)
    case.refused("n" * 256)


@trial
def names_of_parts_are_left_alone(folder):
    case = Case(folder)
    for name in ("out.bl-part", "out-0123456789abcdef.bl-part", "in.bl-part"):
        (folder / name).write_bytes(b"precious")
    kept = named_as_parts(folder)
    for how, status in (({}, 0), ({"out": "no/out"}, 5), ({"stdout": full_device()}, 10), ({"input": "no"}, 4)):
        check(case.run(**how)[0] == status, how)
        check(named_as_parts(folder) == kept, "a file of the user's was touched")


def named_as_parts(folder):
    return {name: seen for name, seen in look(folder).items() if name.endswith(".bl-part")}


# ---- what others do meanwhile

def write_in_place(path):
    with open(path, "r+b") as it:
        it.seek(-40, os.SEEK_END)
        it.write(b"x")


def append(path):
    with open(path, "ab") as it:
        it.write(b"x")


def replace(path):
    new = path.with_name("new")
    shutil.copyfile(path, new)
    new.replace(path)


CHANGES = {"written_to": write_in_place, "longer": append, "shorter": lambda path: os.truncate(path, 100),
           "replaced": replace, "removed": os.unlink}


def trial_of_change(name, change, options=()):
    def meanwhile(folder):
        case = Case(folder, LARGE)
        cat = folder / "cat"
        cat.write_bytes(LARGE)
        time.sleep(STEP)
        with Held(case, options=options) as held:
            change(cat if options else case.input)
            ended = held.go()
        check(ended == (5, case.line + b"device\n"), "ended with", ended)
        check(case.out.read_bytes() == OLD, "the output isn't as it was")
        check(not left_in(folder), "left", left_in(folder))

    meanwhile.__name__ = f"{name}_meanwhile"
    trial(meanwhile)


for name, change in CHANGES.items():
    trial_of_change(f"in_is_{name}", change)
    trial_of_change(f"cat_is_{name}", change, ("--like", "cat"))


@trial
def the_rename_fails(folder):
    case = Case(folder)
    with Held(case) as held:
        case.out.unlink()
        case.out.mkdir()
        check(held.go() == (5, case.line + b"device\n"), "a folder in the way")
    check(case.out.is_dir() and not list(case.out.iterdir()), "the folder isn't as it was")
    case.clean()
    case.out.rmdir()
    case.out.write_bytes(OLD)
    with Held(case) as held:
        held.part.unlink()
        check(held.go() == (5, case.line + b"device\n"), "the part was removed")
    check(case.out.read_bytes() == OLD, "the output isn't as it was")
    case.clean()


def three_cases(folder):
    """Inputs of different lengths, each in a folder of its own."""
    for number in range(3):
        (folder / str(number)).mkdir()
    return [Case(folder / str(number), blend(2 ** 17 << number, number), old=None) for number in range(3)]


@trial
def two_runs_at_once(folder):
    first, second, third = three_cases(folder)
    out = folder / "out"
    out.write_bytes(OLD)
    with Held(first, "../out", folder) as a, Held(second, "../out", folder) as b:
        check(out.read_bytes() == OLD, "the output isn't as it was")
        for case, held in ((first, a), (second, b)):
            check(held.go() == (0, case.line), "held")
            check(out.read_bytes() == case.made, "the output is of another run")
            third.done(out)
    check(not left_in(folder), "left", left_in(folder))


@trial
def races(folder):
    draw = random.Random(2)
    cases = three_cases(folder)
    out = folder / "out"
    whole = {OLD, *(case.made for case in cases)}
    for _ in range(RACES):
        out.write_bytes(OLD)
        over, torn, looks = threading.Event(), [], 0

        def watch():
            while not over.is_set():
                seen = out.read_bytes()
                if seen not in whole:
                    torn.append(len(seen))

        watcher = threading.Thread(target=watch)
        watcher.start()
        try:
            runs = []
            for case in draw.sample(cases, draw.choice((2, 3))):
                runs.append((case, subprocess.Popen([program, "convert", "in", "../out"], cwd=case.folder,
                             stdin=subprocess.DEVNULL, stdout=subprocess.PIPE, stderr=subprocess.PIPE)))
                time.sleep(draw.random() / 200)
            ended = [(case, run.communicate(timeout=SECONDS), run.returncode) for case, run in runs]
        finally:
            over.set()
            watcher.join()
        for case, said, status in ended:
            check((status, said) == (0, (case.line, b"")), "ended with", status, said)
        check(not torn, "torn:", torn)
        check(out.read_bytes() in {case.made for case, _, _ in ended}, "the output is of none of the runs")
        check(not left_in(folder), "left", left_in(folder))


@trial
def races_of_small_files(folder):
    draw = random.Random(4)
    case = Case(folder)
    for race in range(RACES):
        out = folder / f"out {race}"
        if draw.random() < 0.5:
            out.write_bytes(OLD)
        runs = [subprocess.Popen([program, "convert", "in", out], cwd=folder, stdin=subprocess.DEVNULL,
                                 stdout=subprocess.PIPE, stderr=subprocess.PIPE) for _ in range(6)]
        for run in runs:
            said = run.communicate(timeout=SECONDS)
            check((run.returncode, said) == (0, (case.line, b"")), "ended with", run.returncode, said)
        check(out.read_bytes() == case.made, "the output isn't the conversion")
    case.clean()


@trial
def kills(folder):
    draw = random.Random(3)
    case = Case(folder, LARGE)
    began = time.monotonic()
    case.done()
    longest = time.monotonic() - began
    for _ in range(KILLS):
        case.out.write_bytes(OLD)
        run = subprocess.Popen([program, "convert", "in", "out"], cwd=folder, stdin=subprocess.DEVNULL,
                               stdout=subprocess.PIPE, stderr=subprocess.PIPE)
        time.sleep(draw.random() * longest)
        run.send_signal(draw.choice((signal.SIGKILL, signal.SIGTERM, signal.SIGINT)))
        run.communicate(timeout=SECONDS)
        check(case.out.read_bytes() in (OLD, case.made), "the output is torn")
        check(run.returncode < 0 or case.out.read_bytes() == case.made, "ended with", run.returncode)
        left = left_in(folder)
        check(len(left) <= 1 and all(PART.search(name) for name in left), "left", left)
        for name in left:
            (folder / name).unlink()
        case.clean()


@trial
def killed_where_the_part_is_whole(folder):
    case = Case(folder)
    for number in (signal.SIGKILL, signal.SIGTERM, signal.SIGINT):
        with Held(case) as held:
            held.run.send_signal(number)
            check(held.run.wait(SECONDS) == -number, "ended with", held.run.returncode)
            check(left_in(folder) == [held.part.name], "left", left_in(folder))
            held.part.unlink()
        check(case.out.read_bytes() == OLD, "the output isn't as it was")
        case.done()
        case.out.write_bytes(OLD)


# ---- descriptors and standard output

@trial
def closed_descriptors(folder):
    case = Case(folder)
    for closed in range(8):
        which = [it for it in range(3) if closed >> it & 1]
        script = 'exec "$0" "$@" ' + " ".join(f"{it}>&-" for it in which)
        case.out.write_bytes(OLD)
        ended = subprocess.run(["/bin/sh", "-c", script, program, "convert", "in", "out"], cwd=folder, timeout=SECONDS,
                               stdin=subprocess.DEVNULL, stdout=subprocess.PIPE, stderr=subprocess.PIPE)
        status, wanted, line = (10, OLD, b"") if 1 in which else (0, case.made, case.line)
        check((ended.returncode, ended.stdout) == (status, line), "closed", which, "ended with", ended)
        check(case.out.read_bytes() == wanted, "closed", which, "the output is wrong")
        case.clean()


def full_device():
    try:
        return open("/dev/full", "wb")
    except OSError:
        raise Skip("no /dev/full")


@trial
def standard_output_is_full(folder):
    case = Case(folder)
    check(case.run(stdout=full_device())[0] == 10, "a full device")
    check(case.out.read_bytes() == OLD, "the output isn't as it was")
    case.clean()


@trial
def nobody_reads_standard_output(folder):
    case = Case(folder)
    reader, writer = os.pipe()
    os.close(reader)
    with open(writer, "wb") as it:
        check(case.run(stdout=it)[0] == 10, "a pipe without a reader")
    check(case.out.read_bytes() == OLD, "the output isn't as it was")
    case.clean()


@trial
def standard_output_takes_little_at_a_time(folder):
    case = Case(folder)
    words = [program, "schema", "in"]
    whole = subprocess.run(words, cwd=folder, stdin=subprocess.DEVNULL, stdout=subprocess.PIPE, timeout=SECONDS)
    if whole.returncode == 2:
        raise Skip("no command that prints much")
    for _ in range(3):
        reader, writer = os.pipe()
        fcntl.fcntl(writer, getattr(fcntl, "F_SETPIPE_SZ", 1031), 4096)
        filled = fill(writer)
        run = subprocess.Popen(words, cwd=folder, stdin=subprocess.DEVNULL, stdout=writer)
        os.close(writer)
        with open(reader, "rb", buffering=0) as it:
            put = b"".join(iter(lambda: it.read(random.randrange(1, 400)), b""))
        check((run.wait(SECONDS), put[filled:]) == (0, whole.stdout), "the lines aren't whole")


@trial
def the_disk_is_full(folder):
    case = Case(folder, LARGE)

    def limit():
        signal.signal(signal.SIGXFSZ, signal.SIG_IGN)
        resource.setrlimit(resource.RLIMIT_FSIZE, (2 ** 20, 2 ** 20))

    case.refused(preexec_fn=limit, restore_signals=False)


# ---- the disk itself

@trial
def bytes_are_synced_before_the_name(folder):
    if not shutil.which("strace"):
        raise Skip("no strace")
    case = Case(folder)
    log = folder / "log"
    calls = ["strace", "-f", "-o", log, "-e", "trace=fsync,fdatasync,rename,renameat,renameat2", program]
    for out in ("out", "new"):
        ended = subprocess.run([*calls, "convert", "in", out], cwd=folder, timeout=SECONDS, stdin=subprocess.DEVNULL,
                               stdout=subprocess.DEVNULL, stderr=subprocess.DEVNULL)
        found = re.findall(r"\b(fsync|rename)\w*\(", log.read_text() if log.exists() else "")
        if ended.returncode and not found:
            raise Skip("strace can't trace here")
        check(found == ["fsync", "rename", "fsync"], "calls:", found)


# ---- all of them

def attempt(test, room):
    """Runs a trial in a folder of its own. Gives what is wrong, or nothing."""
    folder = room / test.__name__
    folder.mkdir()
    folder.chmod(0o777)
    try:
        test(folder)
    except Skip as why:
        return "skipped", str(why)
    except (AssertionError, subprocess.TimeoutExpired, OSError) as why:
        return "failed", f"{type(why).__name__}: {why}"
    return "passed", ""


def main():
    global program
    words = argparse.ArgumentParser(description=__doc__)
    words.add_argument("program", help="the program, as the gate leaves it in crates/bl_cli/out/bl_cli")
    words.add_argument("--quiet", action="store_true", help="say only what failed")
    given = words.parse_args()
    if sys.version_info < (3, 9):
        print("edge: not tried: Python 3.9 is wanted", file=sys.stderr)
        return 0
    counts = dict.fromkeys(("passed", "failed", "skipped"), 0)
    with tempfile.TemporaryDirectory(prefix="calumevio-edge-") as name:
        room = pathlib.Path(name).resolve()
        room.chmod(0o755)
        # A copy that anybody may run.
        program = str(room / "program")
        shutil.copyfile(given.program, program)
        os.chmod(program, 0o755)
        for test in TRIALS:
            began = time.monotonic()
            how, why = attempt(test, room)
            counts[how] += 1
            if how == "failed" or not given.quiet:
                seconds = time.monotonic() - began
                print(f"edge: {test.__name__}: {how} in {seconds:.1f} s {why[:800]}".rstrip(), file=sys.stderr)
    if counts["failed"] or not given.quiet:
        print("edge: " + ", ".join(f"{count} {how}" for how, count in counts.items()), file=sys.stderr)
    return 1 if counts["failed"] else 0


if __name__ == "__main__":
    sys.exit(main())
