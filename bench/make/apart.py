"""Makes a file in a process of its own, so that the memory that this takes isn't counted as a run's."""
import multiprocessing
import sys


def call(make, *words):
    maker = multiprocessing.Process(target=make, args=words)
    maker.start()
    maker.join()
    if maker.exitcode != 0:
        sys.exit(f"{make.__name__} made no file")
