#!/usr/bin/env python3
"""Measures the reader of scripts on 64 MiB of lines of all kinds, against counting their line feeds.

Needs crates/bench_scripts/out/bench_scripts, which `rt run` in crates/bench_scripts or `rt ci` leaves. Each time is the
best of several runs of the program, less that of a run that only reads; they take turns, since the machine's speed
wanders. A script has at most 1,048,576 lines, so most of the bytes are those of `write` lines. A second script, of
half the size, shows whether twice the work takes twice the time.
"""
import pathlib
import subprocess
import tempfile
import time

PROGRAM = pathlib.Path(__file__).parent.parent / "crates/bench_scripts/out/bench_scripts"
TURNS = 5
SESSION = b"session 65536 300 64 64 307200 1 reserve\n"
LINES = (
    b"screen 0 640 480 -1 2\ndrop 3\nregion 1 300\nmap 1 0 0+300 7 9+2\nsame 1 0 20 5\ngmrfb frame 0 2560 24\n"
    b"blit 0 0 -1 -2 640 480 all\nback 0 0 0 479 640 480 0\nupdate 1 2 3 4\nfence\nfill p0 ff\nlend p0+300\n"
    b"take f0\nshow p0\ndescribe 1 5\n# a comment\n\n"
)


def script(size):
    """A script of about so many bytes: all other lines once for every `write` of 480 bytes."""
    block = LINES + b"write p7 16 " + b"0a1b2c3d" * 120 + b"\n"
    return SESSION + block * (size // len(block))


def seconds(work, path):
    with open(path, "rb") as file:
        start = time.perf_counter()
        subprocess.run([PROGRAM, work], check=True, stdin=file, stdout=subprocess.DEVNULL)
        return time.perf_counter() - start


def best_of(path):
    best = {}
    for _ in range(TURNS):
        for work in ("bytes", "lines", "script"):
            taken = seconds(work, path)
            best[work] = min(taken, best.get(work, taken))
    return best["script"] - best["bytes"], best["lines"] - best["bytes"]


def main():
    times = []
    for size in (1 << 25, 1 << 26):
        text = script(size)
        with tempfile.NamedTemporaryFile() as file:
            file.write(text)
            file.flush()
            read, counted = best_of(file.name)
        times.append(read)
        print(
            f"{len(text) / 2**20:.0f} MiB in {text.count(10)} lines: {read:.3f} s, "
            f"{len(text) / read / 2**20:.0f} MiB/s, {read / counted:.1f} times counting line feeds"
        )
    print(f"twice the script takes {times[1] / times[0]:.2f} times as long")


if __name__ == "__main__":
    main()
