#!/usr/bin/env python3
"""Measures `svga replay` on a capture whose ring of 64 MiB is full of blits, against reading the same file.

Needs crates/svga/out/svga, which `rt run` in crates/svga or `rt ci` leaves. The capture comes from a seed, and is the
same each time. Each time is the best of several runs, which take turns, since the machine's speed wanders.
"""
import os
import pathlib
import random
import subprocess
import sys
import tempfile
import time

ROOT = pathlib.Path(__file__).parent.parent
sys.path.insert(0, str(ROOT / "examples"))

from capture import MIN, PAGE, blit_to_screen, capture, define_gmrfb, define_region, define_screen, fence, remap  # noqa: E402

PROGRAM = ROOT / "crates/svga/out/svga"
RING_END = 64 * 1024 * 1024
SEED = 1164
TURNS = 3

# The screen, and the image in guest memory that is blitted from, are squares of this side.
SIDE = 256
# A blit's sides are from 1 to this.
MOST = 16
IMAGE_PAGES = 4 * SIDE * SIDE // PAGE


def blits(count):
    """So many blits from and to random places, and how many pixels they paint."""
    source = random.Random(SEED)
    parts, pixels = [], 0
    for _ in range(count):
        width, height = source.randint(1, MOST), source.randint(1, MOST)
        x, y, left, top = (source.randint(0, SIDE - MOST) for _ in range(4))
        parts.append(blit_to_screen((x, y), (left, top, left + width, top + height), 0))
        pixels += width * height
    return b"".join(parts), pixels


def full_ring():
    """Commands that fill the ring but for one dword at least, and how many pixels they paint."""
    opening = b"".join(
        [
            define_screen(0, SIDE, SIDE),
            define_region(1, IMAGE_PAGES),
            remap(1, 0, list(range(IMAGE_PAGES))),
            define_gmrfb(1, 0, 4 * SIDE, 32, 24),
        ]
    )
    block, pixels = blits(4096)
    room = RING_END - MIN - 4 - len(opening) - len(fence(1))
    count = room // len(block)
    return opening + block * count + fence(1), pixels * count


def image():
    """Pages of random bytes."""
    source = random.Random(SEED)
    return [(key, source.randbytes(PAGE)) for key in range(IMAGE_PAGES)]


def replay(path):
    """The seconds and the peak memory in bytes of a replay."""
    with open(path, "rb") as source:
        start = time.perf_counter()
        child = subprocess.Popen([PROGRAM, "replay"], stdin=source, stdout=subprocess.DEVNULL)
        _, status, used = os.wait4(child.pid, 0)
        taken = time.perf_counter() - start
        child.returncode = os.waitstatus_to_exitcode(status)
        assert child.returncode == 0, child.returncode
        return taken, used.ru_maxrss * 1024


def read(path):
    """The seconds of reading the file."""
    start = time.perf_counter()
    subprocess.run(["cat", path], stdout=subprocess.DEVNULL, check=True)
    return time.perf_counter() - start


def main():
    commands, pixels = full_ring()
    content = capture(commands, guest_pages=IMAGE_PAGES, budget=SIDE * SIDE, ring_end=RING_END, pages=image())
    with tempfile.NamedTemporaryFile() as file:
        file.write(content)
        file.flush()
        replays, peaks, reads = [], [], []
        for _ in range(TURNS):
            reads.append(read(file.name))
            taken, peak = replay(file.name)
            replays.append(taken)
            peaks.append(peak)
    best = min(replays)
    print(f"a capture of {len(content) / 2**20:.1f} MiB: {len(commands) // 4:,} words, {pixels:,} pixels painted")
    print(f"svga replay {best:.2f} s, {best / min(reads):.0f} times the time of reading the file")
    print(f"{len(commands) / 4 / best / 1e6:.0f} million words and {pixels / best / 1e6:.0f} million pixels a second")
    print(f"peak memory {max(peaks) / 2**20:.1f} MiB, {max(peaks) / len(content):.2f} times the capture")


if __name__ == "__main__":
    main()
