"""Captures: a FIFO and its device's memory, as bytes."""
import struct

MIN = 1164
UNMAPPED = 0xFFFFFFFF
PAGE = 4096


def words(numbers):
    """Numbers as 32-bit words, the low byte first; a negative one as its two's complement."""
    return struct.pack(f"<{len(numbers)}I", *(number & 0xFFFFFFFF for number in numbers))


def capture(commands, *, guest_pages=16, frame=(1, 1), budget=65536, ring_end=11404, stop=MIN, regions=(), pages=()):
    """A capture in whose ring, from byte `stop` on, the words of `commands` wait.

    `regions` are pairs of an id and a list of page numbers; `pages` are pairs of a key word and 4,096 bytes. Both are to
    be ascending.
    """
    fifo = bytearray(ring_end)
    at = stop
    for byte in range(0, len(commands), 4):
        fifo[at : at + 4] = commands[byte : byte + 4]
        at = at + 4 if at + 4 < ring_end else MIN
    fifo[:16] = words([MIN, ring_end, at, stop])
    header = words([0x46475653, 1, ring_end, guest_pages, *frame, budget, len(regions), len(pages)])
    records = b"".join(words([region, len(places), *places]) for region, places in regions)
    return header + bytes(fifo) + records + b"".join(words([key]) + content for key, content in pages)


def define_screen(screen, width, height, x=0, y=0):
    return words([34, 28, screen, 1, width, height, x, y])


def destroy_screen(screen):
    return words([35, screen])


def define_gmrfb(region, offset, pitch, bits, depth):
    return words([36, region, offset, pitch, bits | depth << 8])


def blit_to_screen(point, rect, screen):
    return words([37, *point, *rect, screen])


def blit_to_gmrfb(point, rect, screen):
    return words([38, *point, *rect, screen])


def define_region(region, pages):
    return words([41, region, pages])


def remap(region, offset, pages):
    return words([42, region, 0, offset, len(pages), *pages])


def fence(value):
    return words([30, value])
