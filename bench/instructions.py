#!/usr/bin/env python3
"""Counts the instructions of `svga words` and `svga replay` by callgrind, beside what each work is to cost.

Needs valgrind, and crates/svga/out/svga, which `rt run` in crates/svga or `rt ci` leaves. A row is the difference of
two runs, of which the second has twice the work, over the work: what both do alike, such as starting and printing one
state, is not in it. Counts are the same in each run, whatever else the machine does. Words on the command line name
the rows to measure; without any it measures all, which takes some minutes.
"""
import pathlib
import random
import re
import subprocess
import sys
import tempfile

ROOT = pathlib.Path(__file__).parent.parent
sys.path.insert(0, str(ROOT / "examples"))

from capture import (  # noqa: E402
    MIN,
    PAGE,
    blit_to_gmrfb,
    blit_to_screen,
    capture,
    define_gmrfb,
    define_screen,
    fence,
)

PROGRAM = ROOT / "crates/svga/out/svga"
SEED = 1164

# A picture of the usual size, and the bits and the depth that name each format.
WIDTH, HEIGHT = 1024, 768
FORMATS = {32: (32, 24), 24: (24, 24), 16: (16, 16), 15: (16, 15)}

# The most places of a region, and the most pages on which they lie.
PLACES, PAGES = 65536, 16384


def run(command, data):
    """The instructions of a run of the program on these bytes, and how many bytes it writes."""
    with tempfile.TemporaryFile() as source, tempfile.TemporaryFile() as sink:
        source.write(data)
        source.seek(0)
        valgrind = ["valgrind", "--tool=callgrind", "--callgrind-out-file=/dev/null", PROGRAM, command]
        done = subprocess.run(valgrind, stdin=source, stdout=sink, stderr=subprocess.PIPE, check=True, text=True)
        count = re.search(r"Collected : (\d+)", done.stderr)
        return int(count[1]), sink.tell()


def held(commands, **more):
    """A capture with just the ring that these commands need."""
    return capture(commands, ring_end=MIN + len(commands) + 4, **more)


def repeated(block, count):
    return b"".join(block(k) for k in range(count))


def fences(count):
    return repeated(lambda k: fence(k), count)


def gmrfbs(count):
    return repeated(lambda k: define_gmrfb(1, 4 * k, 4096, 32, 24), count)


def row_length(bits):
    """The bytes of a row of the picture."""
    return WIDTH * FORMATS[bits][0] // 8


def picture(bits):
    """The screen, and the same picture in the region with the id 1, whose pages lie one behind another."""
    pages = row_length(bits) * HEIGHT // PAGE
    opening = define_screen(0, WIDTH, HEIGHT) + define_gmrfb(1, 0, row_length(bits), *FORMATS[bits])
    return opening, dict(guest_pages=pages, regions=[(1, list(range(pages)))], budget=WIDTH * HEIGHT)


def one_pixel_blits(count, places=None):
    """Blits of one pixel each to places all over the picture."""
    opening, more = picture(32)
    if places:
        more = dict(guest_pages=PAGES, regions=[(1, places)], budget=WIDTH * HEIGHT)
    source = random.Random(SEED)
    parts = [opening]
    for _ in range(count):
        x, y = source.randrange(WIDTH), source.randrange(HEIGHT)
        parts.append(blit_to_screen((x, y), (x, y, x + 1, y + 1), 0))
    return held(b"".join(parts), **more)


def whole_blits(count, bits, blit=blit_to_screen):
    opening, more = picture(bits)
    return held(opening + blit((0, 0), (0, 0, WIDTH, HEIGHT), 0) * count, **more)


def random_pages(count):
    """So many pages of random bytes in a region, and a screen that shows them."""
    source = random.Random(SEED)
    pages = [(key, source.randbytes(PAGE)) for key in range(count)]
    side = 32 * count
    blit = blit_to_screen((0, 0), (0, 0, 32, side), 0)
    commands = define_screen(0, 32, side) + define_gmrfb(1, 0, 128, 32, 24) + blit
    return held(commands, guest_pages=count, regions=[(1, list(range(count)))], pages=pages, budget=32 * side)


def scattered(count):
    """65,536 places of which hardly any neighbours continue each other."""
    places = [place % PAGES for place in range(PLACES)]
    random.Random(SEED).shuffle(places)
    return one_pixel_blits(count, places)


def in_a_row(count):
    """65,536 places on pages that lie one behind another, four times over."""
    return one_pixel_blits(count, [place % PAGES for place in range(PLACES)])


def each(command, data, count, units=1):
    """The instructions of one unit of work."""
    first, _ = run(command, data(count))
    second, _ = run(command, data(2 * count))
    return (second - first) / (count * units)


def each_byte(command, data, count):
    """The instructions of one byte of text."""
    first, short = run(command, data(count))
    second, long = run(command, data(2 * count))
    return (second - first) / (long - short)


def ratio(count):
    return each("replay", scattered, count) / each("replay", in_a_row, count)


PIXELS = WIDTH * HEIGHT
ROWS = {
    "fence-line": ("words, one FENCE listed", 240, lambda: each("words", fences, 262144)),
    "gmrfb-line": ("words, one DEFINE_GMRFB listed", 450, lambda: each("words", gmrfbs, 131072)),
    "fence": ("replay, one FENCE run", 200, lambda: each("replay", lambda n: held(fences(n)), 500000)),
    "one-pixel": ("replay, one blit of one pixel", 870, lambda: each("replay", one_pixel_blits, 50000)),
    "to-32": ("one pixel of 1024 x 768 blits to the screen, 32 bits", 1.3, lambda: pixels(32)),
    "to-24": ("the same at 24 bits", 2.3, lambda: pixels(24)),
    "to-16": ("the same at 16 bits", 3.3, lambda: pixels(16)),
    "to-15": ("the same at 15 bits", 3.3, lambda: pixels(15)),
    "back-32": ("one pixel of 1024 x 768 blits back, 32 bits", 1, lambda: pixels(32, blit_to_gmrfb)),
    "text": ("text of a screen and of pages, one byte", 10, lambda: each_byte("replay", random_pages, 32)),
    "scattered": ("a blit of one pixel, scattered places against a row", 1.5, lambda: ratio(1000)),
}


def pixels(bits, blit=blit_to_screen):
    return each("replay", lambda count: whole_blits(count, bits, blit), 4, PIXELS)


def main():
    names = sys.argv[1:] or list(ROWS)
    print(f"{'work':54} {'measured':>10} {'at most':>8}")
    for name in names:
        work, most, measure = ROWS[name]
        found = measure()
        met = "" if found <= most else "  not met"
        print(f"{work:54} {found:10.2f} {most:8}{met}", flush=True)


if __name__ == "__main__":
    main()
