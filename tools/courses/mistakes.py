#!/usr/bin/env -S python3 -B
"""Shows that the random workloads find mistakes.

usage: tools/courses/mistakes.py [PROGRAM]

The built program is run with one mistake after the other, which is made on its way: another line is handed to it than
the one that it is to answer, or a sync of it does not count. Of each the first course is told that finds it; the status
is 1 where none of the first hundred does.
"""
import re
import sys
import tempfile

import disk
from course import Bench, Course, Difference
from run import arguments, built_stopping

COURSES = range(1, 101)

# A pattern of the lines, and what is handed to the program in its place.
LINES = {
    "a reset keeps the value of a key": ("reset-key", "recover-key"),
    "a reset keeps the content of a file": ("reset-file", "recover-file"),
    "a reset keeps what a storage has": ("reset-storage", "recover-storage"),
    "a discard makes durable": ("discard", "sync"),
    "a flush makes nothing durable": ("flush files 1", "seek files 1 0"),
    "a rollback keeps the new version": ("rollback", "finish"),
    "an update that is given up is made": ("update-abort", "update-commit"),
    "a sync is one of the other application": ("1 sync", "0 sync"),
}

# Which syncs do not count, by the file and whether the program has written before.
SYNCS = {
    "contents are not synced": lambda name, _has_written: kind_of(name) == "content",
    "indexes are not synced": lambda name, _has_written: kind_of(name) == "index",
    "roots are not synced": lambda name, _has_written: kind_of(name) == "root",
    "names of files are not synced": lambda name, _has_written: kind_of(name) == "folder",
    "what an earlier run wrote is not synced": lambda _name, has_written: not has_written,
}


def kind_of(name):
    if name == disk.FOLDER:
        return "folder"
    number = int(name[1:])
    if number % 4096 < 1024:
        return "root"
    return "content" if number % 4 == 2 else "index"


class WithLines(Bench):
    """The program with a mistake in its lines."""

    def run(self, folder, text, stop=None, words=()):
        return super().run(folder, re.sub(*self.mistake, text), stop, words)


class WithoutSyncs(Bench):
    """The program with a mistake in its syncs."""

    def run(self, folder, text, stop=None, words=()):
        status, output, calls, errors = super().run(folder, text, stop, words)
        return status, output, list(self.counting(calls)), errors

    def counting(self, calls):
        has_written = False
        for call in calls:
            has_written = has_written or call[0] in ("made", "write")
            if call[0] != "sync" or not self.mistake(call[1], has_written):
                yield call


def first_found(bench):
    """Returns the first workload that finds a mistake, with what differs, or None."""
    bench.format()
    for seed in COURSES:
        course = Course(bench, seed)
        try:
            course.take()
        except Difference as difference:
            return seed, difference
        finally:
            course.disk.remove()
    return None


def main():
    program, _ = arguments(sys.argv[1:])
    missed = 0
    with tempfile.TemporaryDirectory() as work:
        library = built_stopping(work)
        for kind, mistakes in ((WithLines, LINES), (WithoutSyncs, SYNCS)):
            for name, mistake in mistakes.items():
                with tempfile.TemporaryDirectory() as folder:
                    bench = kind(program, library, folder)
                    bench.mistake = mistake
                    found = first_found(bench)
                print(f"{name}: course {found[0]}: {found[1]}" if found else f"{name}: not found", flush=True)
                missed += not found
    return 1 if missed else 0


if __name__ == "__main__":
    sys.exit(main())
