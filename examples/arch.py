#!/usr/bin/env python3
"""Writes arch.capture, a capture that draws an arch, and arch.txt, the text that `svga replay` is to give for it.

The text is worked out here from the picture, by its own few lines.
"""
import itertools
import pathlib

from capture import PAGE, blit_to_gmrfb, blit_to_screen, capture, define_gmrfb, define_region, define_screen, fence, remap, words

PICTURE = """\
........................
........................
.........######.........
.......##########.......
......####,,,,####......
.....####,,,,,,####.....
.....###,,,,,,,,###.....
.....###,,,,,,,,###.....
.....###,,,,,,,,###.....
~~~~~~~~~~~~~~~~~~~~~~~~
""".split()
COLOURS = {".": 0x87CEEB, "#": 0xC2B280, ",": 0xDFF0F7, "~": 0x3B7A57}
SUN = 0xFFFFFF
WIDTH, HEIGHT = len(PICTURE[0]), len(PICTURE)

# The page of the picture, in 32 bits a pixel, that of the sun, in 16 bits, and the one to which a row is read back.
PICTURE_PAGE, SUN_PAGE, BACK_PAGE = 3, 5, 9


def page(content):
    return content.ljust(PAGE, b"\0")


def commands():
    return b"".join(
        [
            define_screen(0, WIDTH, HEIGHT, -12, 0),
            define_region(1, 3),
            remap(1, 0, [PICTURE_PAGE, SUN_PAGE, BACK_PAGE]),
            # The picture, as a whole.
            define_gmrfb(1, 0, 4 * WIDTH, 32, 24),
            blit_to_screen((0, 0), (0, 0, WIDTH, HEIGHT), 0),
            fence(1),
            # The sun: 4 by 2 pixels at the right edge, of which 3 columns lie on the screen.
            define_gmrfb(1, PAGE, 8, 16, 16),
            blit_to_screen((0, 0), (WIDTH - 3, 1, WIDTH + 1, 3), 0),
            # Its row back, to the region's third page, and the picture's own pages given up.
            define_gmrfb(1, 2 * PAGE, 64, 16, 16),
            blit_to_gmrfb((0, 0), (WIDTH - 3, 1, WIDTH, 2), 0),
            fence(2),
            define_region(1, 0),
            define_region(2, 1),
            remap(2, 0, [BACK_PAGE]),
        ]
    )


def runs(items):
    return [(len(list(group)), item) for item, group in itertools.groupby(items)]


def picture_lines():
    rows = [[COLOURS[letter] for letter in row] for row in PICTURE]
    for y in (1, 2):
        rows[y][WIDTH - 3 :] = [SUN] * 3
    first = 0
    for count, row in runs(rows):
        pixels = " ".join(f"{length}*{colour:06x}" for length, colour in runs(row))
        yield f"rows {first} {count} {pixels}"
        first += count


def text():
    # Three white pixels of 16 bits are six bytes of ff.
    lines = ["commands 14", "fence 2", f"screen 0 {WIDTH} {HEIGHT} -12 0", *picture_lines(), f"page p{BACK_PAGE}", "0 6 ff", f"6 {PAGE - 6} 00", "end"]
    return "".join(line + "\n" for line in lines)


def main():
    folder = pathlib.Path(__file__).parent
    # A pixel of 32 bits is blue, green, red and a byte that isn't used.
    picture = words([COLOURS[letter] for row in PICTURE for letter in row])
    pages = [(PICTURE_PAGE, page(picture)), (SUN_PAGE, page(b"\xff" * 16))]
    (folder / "arch.capture").write_bytes(capture(commands(), stop=11404 - 64, pages=pages))
    (folder / "arch.txt").write_text(text())


if __name__ == "__main__":
    main()
