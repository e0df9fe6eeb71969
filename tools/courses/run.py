"""Runs seeded random workloads, and says which replies of the program no world gives.

usage: .ci/courses [PROGRAM] [FIRST LAST]

PROGRAM is the built program itself, and else crates/per_cli/out/per_cli. The courses of the seeds FIRST to LAST are
taken, else 1 to 1200; where it is one, all that was done is told.
"""
import multiprocessing
import os
import shutil
import subprocess
import sys
import tempfile

from course import Bench, Counts, Course, Difference

HERE = os.path.dirname(os.path.abspath(__file__))
TOP = os.path.dirname(os.path.dirname(HERE))
SEEDS = (1, 1200)
# Where files are in memory.
MEMORY = "/dev/shm"


def arguments(words):
    """Returns the program and the seeds."""
    numbers = [int(word) for word in words if word.isdigit()]
    programs = [word for word in words if not word.isdigit()]
    if len(programs) > 1 or len(numbers) not in (0, 2):
        sys.exit(__doc__.split("\n\n", 1)[1])
    program = os.path.abspath(programs[0]) if programs else f"{TOP}/crates/per_cli/out/per_cli"
    if not os.access(program, os.X_OK):
        sys.exit(f"the program is not built: {program}")
    return program, tuple(numbers) or SEEDS


def built_stopping(work):
    """Returns the library that stops the program, or None where no compiler is to be had."""
    if not shutil.which("cc") and os.geteuid() == 0:
        subprocess.run(["apt-get", "install", "-y", "gcc", "libc6-dev"], capture_output=True, check=False)
    if not shutil.which("cc"):
        return None
    library = f"{work}/stopping.so"
    subprocess.run(["cc", "-O1", "-shared", "-fPIC", "-o", library, f"{HERE}/stopping.c"], check=True)
    return library


def taken(program, library, seeds, log=None):
    """Runs workloads, and returns what was counted and each that differs with the reason."""
    counts, differences = Counts(), []
    with tempfile.TemporaryDirectory(dir=MEMORY if os.access(MEMORY, os.W_OK) else None) as work:
        bench = Bench(program, library, work)
        bench.format()
        for seed in seeds:
            course = Course(bench, seed, log)
            try:
                course.take()
            except Difference as difference:
                differences.append((seed, str(difference)))
                course.counts.differ += 1
            course.disk.remove()
            counts.add(course.counts)
    return counts, differences


def main():
    program, (first, last) = arguments(sys.argv[1:])
    seeds, jobs = range(first, last + 1), os.cpu_count() or 1
    with tempfile.TemporaryDirectory() as work:
        library = built_stopping(work)
        if not library:
            print("courses: skipped, since there is no C compiler (cc)")
            return 0
        if first == last:
            results = [taken(program, library, seeds, print)]
        else:
            with multiprocessing.Pool(jobs) as pool:
                results = pool.starmap(taken, [(program, library, seeds[job::jobs]) for job in range(jobs)])
    counts, differences = Counts(), []
    for part, more in results:
        counts.add(part)
        differences += more
    for seed, difference in sorted(differences):
        print(f"course {seed}: {difference}")
    print(
        f"courses {first} to {last}: {counts.courses - counts.differ} kept, {counts.differ} not; {counts.runs} runs,"
        f" {counts.killed} of them killed and {counts.failed} on a device that fails; {counts.damaged} files damaged;"
        f" {counts.replies} replies"
    )
    return 1 if differences else 0


if __name__ == "__main__":
    sys.exit(main())
