"""What `bench/check` and `bench/time` share: they start the script of a command, and scripts start the program."""
import importlib
import os
import pathlib
import resource
import signal
import subprocess
import sys
import threading
import time

HERE = pathlib.Path(__file__).resolve().parent
LAUNCHER = HERE.parent / "calumevio"
MEBIBYTE = 2 ** 20


def start(name, folder, says):
    """Runs the `main` of a command's script in a folder, with the words behind the command."""
    commands = sorted(path.stem for path in (HERE / folder).glob("[a-z]*.py"))
    if sys.argv[1:2] == [] or sys.argv[1] not in commands:
        print(f"{says}\n\nusage: {name} COMMAND [OPTIONS]; the commands are {', '.join(commands)}", file=sys.stderr)
        return 2
    command = sys.argv[1]
    sys.argv[:2] = [f"{name} {command}"]
    return importlib.import_module(f"{folder}.{command}").main()


def add_program(words):
    words.add_argument("--program", type=pathlib.Path, default=LAUNCHER, help="this repository's launcher if left out")


def built(path):
    """The program's whole path, once it has answered a call without words."""
    program = str(path.resolve())
    if subprocess.run([program], stdout=subprocess.DEVNULL).returncode != 2:
        sys.exit(f"{program} isn't built")
    return program


class Run:
    """A program that was run in a folder: `status` is none where it didn't end in time, `line` is what it printed,
    unless that went to a file of the folder, and `memory` is its peak in KiB."""

    def __init__(self, words, folder, output=None, seconds=None, mebibytes=None):
        def limit():
            if mebibytes:
                resource.setrlimit(resource.RLIMIT_AS, (mebibytes * MEBIBYTE,) * 2)

        started = time.perf_counter()
        with open(folder / output if output else os.devnull, "wb") as file:
            process = subprocess.Popen(words, cwd=folder, stdout=file if output else subprocess.PIPE, preexec_fn=limit)
            guard = threading.Timer(seconds or threading.TIMEOUT_MAX, process.kill)
            guard.start()
            self.line = b"" if output else process.stdout.read()
            _, status, usage = os.wait4(process.pid, 0)
            guard.cancel()
        process.returncode = os.waitstatus_to_exitcode(status)
        self.status = None if process.returncode == -signal.SIGKILL else process.returncode
        self.seconds = time.perf_counter() - started
        self.memory = usage.ru_maxrss
        self.answer = self.status, self.line
