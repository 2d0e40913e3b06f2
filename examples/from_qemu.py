#!/usr/bin/env python3
"""Makes a capture from dumps of a guest's FIFO and framebuffer; docs/CAPTURING.md says how to take them.

A device without screens shows its framebuffer as one picture of the mode's size. So one DEFINE_SCREEN of that size goes
before the words that wait, and each UPDATE then shows its part.
"""
import argparse
import pathlib
import struct
import sys

from capture import PAGE, define_screen, words

FRAME_KEY = 1 << 31
# The FIFO's word 6, below MIN, is its fence.
FENCE_END = 28


class Refused(Exception):
    """The dumps make no capture; the text says why."""


def ring_of(fifo):
    """MIN, MAX, NEXT_CMD and STOP of a FIFO."""
    if len(fifo) < 16:
        raise Refused(f"the FIFO's dump has {len(fifo)} bytes, fewer than the 16 of MIN, MAX, NEXT_CMD and STOP")
    ends = struct.unpack("<4I", fifo[:16])
    low, high, following, stop = ends
    for name, value in zip(("MIN", "MAX", "NEXT_CMD", "STOP"), ends):
        if value % 4:
            raise Refused(f"{name} is {value}, which is no whole number of words: is this the FIFO's memory?")
    if not 20 <= high <= 67108864 or not 16 <= low < high:
        raise Refused(f"MIN {low} and MAX {high} are no ring: is this the FIFO's memory, and did a driver set it up?")
    for name, value in (("NEXT_CMD", following), ("STOP", stop)):
        if not low <= value < high:
            raise Refused(f"{name} is {value}, outside the ring from {low} to {high}")
    if len(fifo) < high:
        raise Refused(f"the FIFO's dump has {len(fifo)} bytes, and its MAX is {high}")
    return ends


def from_min(fifo, ring):
    """The ring with all words that were ever written in it, if it has not wrapped yet."""
    low, high, following, stop = ring
    if stop > following or any(fifo[following:high]):
        raise Refused("the ring has wrapped, so that older words are gone: leave --all out")
    return low, high, following, low


def with_screen(fifo, ring, command):
    """The FIFO with a command put before its words, and its ring then."""
    low, high, following, stop = ring
    size = high - low
    waiting = (following - stop) % size
    if waiting + len(command) < size:
        # The bytes before STOP, round the ring, were consumed. One word of the ring stays free.
        for at in range(0, len(command), 4):
            offset = low + (stop - low - len(command) + at) % size
            fifo[offset : offset + 4] = command[at : at + 4]
        return low, high, following, low + (stop - low - len(command)) % size
    below = low - len(command)
    if stop != low or below < FENCE_END:
        raise Refused("the ring is full, so that there is no room for a DEFINE_SCREEN before its words")
    fifo[below:low] = command
    return below, high, following, below


def frame_records(framebuffer, width, height):
    """The pages of the framebuffer that aren't all 0, each with its key."""
    length = 4 * width * height
    if len(framebuffer) < length:
        raise Refused(f"the framebuffer's dump has {len(framebuffer)} bytes, and {width} by {height} pixels have {length}")
    for number in range(-(-length // PAGE)):
        page = framebuffer[number * PAGE : (number + 1) * PAGE].ljust(PAGE, b"\0")
        if any(page):
            yield words([FRAME_KEY + number]) + page


def captured(fifo, framebuffer, width, height, everything=False):
    """The capture, and how many words wait in it behind the DEFINE_SCREEN."""
    if not 1 <= width <= 4096 or not 1 <= height <= 2048:
        raise Refused(f"a framebuffer has 1 to 4096 by 1 to 2048 pixels, not {width} by {height}")
    ring = ring_of(fifo)
    if everything:
        ring = from_min(fifo, ring)
    low, high, following, stop = ring
    memory = bytearray(fifo[:high])
    count = (following - stop) % (high - low) // 4
    ring = with_screen(memory, ring, define_screen(0, width, height))
    memory[:16] = words(ring)
    pages = list(frame_records(framebuffer, width, height))
    # One guest page, which no region has, since a device has at least one.
    header = words([0x46475653, 1, high, 1, width, height, width * height, 0, len(pages)])
    return header + bytes(memory) + b"".join(pages), count


def sides(text):
    width, height = text.split("x")
    return int(width), int(height)


def main():
    parser = argparse.ArgumentParser(description="Makes a capture from dumps of a guest's FIFO and framebuffer.")
    parser.add_argument("fifo", type=pathlib.Path, help="the dump of the FIFO's memory")
    parser.add_argument("framebuffer", type=pathlib.Path, help="the dump of the framebuffer's memory, 32 bits a pixel")
    parser.add_argument("mode", type=sides, help="the mode's size in pixels, as 800x600")
    parser.add_argument("capture", type=pathlib.Path, help="where the capture goes")
    parser.add_argument("--all", action="store_true", help="with all words since the ring was set up, if it has not wrapped")
    given = parser.parse_args()
    try:
        made, count = captured(given.fifo.read_bytes(), given.framebuffer.read_bytes(), *given.mode, given.all)
        given.capture.write_bytes(made)
    except (OSError, Refused) as why:
        sys.exit(f"from_qemu.py: {why}")
    print(f"{given.capture}: {len(made)} bytes, a DEFINE_SCREEN and then {count} words")


if __name__ == "__main__":
    main()
