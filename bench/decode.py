#!/usr/bin/env python3
"""Measures the decoder on 32 million words of mixed commands, against adding the same words up.

Needs crates/bench_decode/out/bench_decode, which `rt run` in crates/bench_decode or `rt ci` leaves. Each time is the best
of several runs of the program, less that of a run that only reads; they take turns, since the machine's speed
wanders.
"""
import pathlib
import subprocess
import tempfile
import time

from commands import write_commands

PROGRAM = pathlib.Path(__file__).parent.parent / "crates/bench_decode/out/bench_decode"
TURNS = 5


def seconds(work, path):
    with open(path, "rb") as file:
        start = time.perf_counter()
        subprocess.run([PROGRAM, work], check=True, stdin=file, stdout=subprocess.DEVNULL)
        return time.perf_counter() - start


def main():
    with tempfile.NamedTemporaryFile() as file:
        words = write_commands(file.name) // 4
        best = {}
        for _ in range(TURNS):
            for work in ("read", "sum", "feed", "scan"):
                taken = seconds(work, file.name)
                best[work] = min(taken, best.get(work, taken))
    print(f"{words / 1e6:.1f} million words")
    print("work  seconds  million words/s  times adding up")
    for work in ("sum", "feed", "scan"):
        taken = best[work] - best["read"]
        print(f"{work:5} {taken:7.3f} {words / taken / 1e6:16.0f} {taken / (best['sum'] - best['read']):16.1f}")
    print(f"reading and feeding take {best['feed'] / best['sum']:.1f} times reading and adding up")


if __name__ == "__main__":
    main()
