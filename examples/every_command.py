#!/usr/bin/env python3
"""Writes every_command.words, which has each command in each of its forms, and every_command.txt, its listing."""
import pathlib

from capture import blit_to_gmrfb, blit_to_screen, define_gmrfb, define_region, define_screen, destroy_screen, fence, words
from list_words import listing

SVGA_ID_INVALID = 0xFFFFFFFF


def commands():
    return b"".join(
        [
            define_screen(0, 640, 480),
            # With a backing: region, offset, pitch, clones.
            words([34, 44, 1, 1, 800, 600, -800, 0, 0, 0, 3200, 1]),
            define_region(1, 300),
            # A remap in its six forms: region, flags, offset, pages, entries.
            words([42, 1, 0, 0, 3, 10, 11, 12]),
            words([42, 1, 2, 3, 2, 13, 0, 14, 1]),
            words([42, 1, 4, 5, 290, 15]),
            words([42, 1, 6, 295, 1, 16, 0]),
            words([42, 1, 1, 296, 2, 1, 0]),
            words([42, 1, 3, 298, 2, 1, 64]),
            # The four formats.
            define_gmrfb(1, 0, 2560, 32, 24),
            define_gmrfb(1, 0, 2560, 24, 24),
            define_gmrfb(1, 0, 2560, 16, 16),
            define_gmrfb(1, 0, 2560, 16, 15),
            blit_to_screen((0, 0), (-8, -8, 632, 472), 0),
            fence(1),
            blit_to_gmrfb((0, 0), (0, 479, 640, 480), SVGA_ID_INVALID),
            words([1, 0, 0, 640, 480]),
            fence(2),
            destroy_screen(1),
        ]
    )


def main():
    content = commands()
    name = pathlib.Path(__file__).with_suffix(".words")
    name.write_bytes(content)
    name.with_suffix(".txt").write_text("".join(f"{line}\n" for line in listing(content)))


if __name__ == "__main__":
    main()
