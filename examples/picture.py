#!/usr/bin/env python3
"""Shows the screens of `svga replay`'s text in the terminal's colours, two columns a pixel; lines of other kinds pass.

With `--letters` each colour is a letter instead, for a terminal without 24-bit colours.
"""
import sys

LETTERS = "#.o+x*=-:%@abcdefghijklmnpqrstuvwyzABCDEFGHIJKLMNOPQRSTUVWXYZ0123456789"


def blocks(length, colour):
    red, green, blue = (int(colour[i : i + 2], 16) for i in (0, 2, 4))
    return f"\x1b[48;2;{red};{green};{blue}m{'  ' * length}\x1b[0m"


class Letters:
    """A letter for each colour, in the order in which they come."""

    def __init__(self):
        self.letters = {}

    def __call__(self, length, colour):
        number = self.letters.setdefault(colour, len(self.letters))
        return 2 * length * (LETTERS[number] if number < len(LETTERS) else "?")


def main():
    painted = Letters() if "--letters" in sys.argv[1:] else blocks
    for line in sys.stdin:
        kind, *fields = line.split()
        if kind != "rows":
            print(line, end="")
            continue
        _first, count, *runs = fields
        row = "".join(painted(int(length), colour) for length, colour in (run.split("*") for run in runs))
        print("\n".join([row] * int(count)))


if __name__ == "__main__":
    main()
