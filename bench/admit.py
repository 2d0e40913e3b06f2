#!/usr/bin/env python3
"""Measures the admission of a blit of 4,096 rows, of one pixel and of 8,192 pixels each.

Needs crates/bench_admit/out/bench_admit, which `rt run` in crates/bench_admit or `rt ci` leaves. A row of 8,192 pixels
touches 8 places of the region, and one of one pixel a single place; so the wide blit may take some times as long, but
not 8,192 times. The two take turns, since the machine's speed wanders.
"""
import pathlib
import subprocess
import time

PROGRAM = pathlib.Path(__file__).parent.parent / "crates/bench_admit/out/bench_admit"
TURNS = 5
ADMISSIONS = 5000
ROWS = 4096


def seconds(work):
    start = time.perf_counter()
    subprocess.run([PROGRAM, work], check=True, stdout=subprocess.DEVNULL)
    return time.perf_counter() - start


def main():
    best = {}
    for _ in range(TURNS):
        for work in ("narrow", "wide"):
            taken = seconds(work)
            best[work] = min(taken, best.get(work, taken))
    print("blit    seconds  rows/s")
    for work, taken in best.items():
        print(f"{work:6} {taken:8.3f} {ADMISSIONS * ROWS / taken:9.0f}")
    print(f"8,192 times the pixels and 8 times the places take {best['wide'] / best['narrow']:.1f} times as long")


if __name__ == "__main__":
    main()
