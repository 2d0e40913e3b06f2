"""Times a program's works at each pixel format against its plain copy of as many bytes, in the same run.

The program takes a work, a format and how many rounds. Each time is the best of several runs, less that of a run
without rounds; copy and works take turns, since the machine's speed wanders.
"""
import pathlib
import subprocess
import time

CRATES = pathlib.Path(__file__).parent.parent / "crates"
TURNS = 5


def seconds(program, work, form, rounds):
    start = time.perf_counter()
    subprocess.run([program, work, form, str(rounds)], check=True, stdout=subprocess.DEVNULL)
    return time.perf_counter() - start


def compare(name, works, pixels, rounds):
    """Prints a line for the copy and each work at each format; a round goes through so many pixels."""
    program = CRATES / name / "out" / name
    print("format  work    million pixels/s  times a copy")
    for form in ("32", "24", "16", "15"):
        best = {}
        for _ in range(TURNS):
            for work in ("copy", *works):
                taken = seconds(program, work, form, rounds) - seconds(program, work, form, 0)
                best[work] = min(taken, best.get(work, taken))
        for work, taken in best.items():
            print(f"{form:7} {work:7} {pixels * rounds / taken / 1e6:16.0f}  {taken / best['copy']:12.1f}")
