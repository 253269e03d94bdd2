"""Times `calumevio schema` beside `cp` on large and hostile catalogues, and compares what it prints.

Each file is a header, a catalogue and the end. Of each it prints the bytes, the best seconds of both, the peak memory of
`schema`, the bytes that it printed, its status, and whether status and text are right. A peak below 16,000 KiB may
be that of this script. The status is 1 where an answer is wrong or a run doesn't end, and 0 whatever the times are."""
import argparse
import os
import pathlib
import subprocess
import tempfile

import driver
from compare import schema
from make import apart


def attempt(given, folder, case):
    """Whether the answer on a case is right, after a line that tells of it."""
    apart.call(schema.write_case, folder, case, given.width, given.order)
    size = (folder / "input").stat().st_size
    subprocess.run(["cat", "input"], cwd=folder, stdout=subprocess.DEVNULL)
    copied, runs = [], []
    for _ in range(given.rounds):
        copied.append(driver.Run(["cp", "input", "copy"], folder).seconds)
        runs.append(schema.schema(given, folder))
    right = {run.status for run in runs} == {runs[0].status} and schema.is_right(folder, case, runs[0].status)
    print(f"{case:17} {size:11,} {min(copied):7.3f} {min(run.seconds for run in runs):8.3f}"
          f" {max(run.memory for run in runs):10,} {(folder / 'found').stat().st_size:12,}"
          f"  {'right' if right else 'WRONG'}  {runs[0].status}", flush=True)
    return right


def main():
    words = argparse.ArgumentParser(description=__doc__)
    driver.add_program(words)
    schema.add_cases(words)
    words.add_argument("--rounds", type=int, default=3, help="how often both are run")
    words.add_argument("--folder", help="where the temporary folder is made")
    given = words.parse_args()
    if given.rounds < 1:
        words.error("a round at least")
    given.program = driver.built(given.program)
    print(f"load {os.getloadavg()[0]:.1f}; seconds are the best of {given.rounds}, memory is the most")
    print(f"{'case':17} {'bytes':>11} {'cp s':>7} {'schema s':>8} {'peak KiB':>10} {'printed':>12}")
    with tempfile.TemporaryDirectory(dir=given.folder) as folder:
        answers = [attempt(given, pathlib.Path(folder), case) for case in given.only]
    print(f"{len(answers)} cases, {answers.count(False)} wrong")
    return 0 if all(answers) else 1
