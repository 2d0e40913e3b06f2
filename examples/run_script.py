#!/usr/bin/env python3
"""Does the acts of scripts on one plain machine, one after another, and writes what `svga race` is to write.

It is worked out from docs/SCRIPTS.md, docs/MACHINE.md and docs/TEXTS.md and shares nothing with the program: it has no
ring, no device and no threads. It takes sound scripts alone, whose commands have no faults, and slowly: it goes pixel
by pixel. With `--write`, the text of FILE.script becomes FILE.txt.
"""
import itertools
import pathlib
import sys

PAGE = 4096
NO_FENCE, PAGE_OUT, PAGE_LENT, NOT_LENT = (24, "NoFence"), (21, "PageOut"), (22, "PageLent"), (23, "NotLent")
PIXEL_BYTES = {32: 4, 24: 3, 16: 2, 15: 2}


class Refused(Exception):
    """A refused act: the fault and the page."""


def widened(value, bits):
    """A part of a colour that has so many bits, as eight."""
    return value * 8 + value // 4 if bits == 5 else value * 4 + value // 16


def colour_in(depth, data):
    if depth in (32, 24):
        return data[2] << 16 | data[1] << 8 | data[0]
    word = data[0] | data[1] << 8
    green_bits = 6 if depth == 16 else 5
    red, green, blue = word >> 5 + green_bits & 31, word >> 5 & (1 << green_bits) - 1, word & 31
    return widened(red, 5) << 16 | widened(green, green_bits) << 8 | widened(blue, 5)


def bytes_of(depth, colour):
    red, green, blue = colour >> 16, colour >> 8 & 255, colour & 255
    if depth in (32, 24):
        return bytes([blue, green, red, 0])[: PIXEL_BYTES[depth]]
    green_bits = 6 if depth == 16 else 5
    word = red // 8 << 5 + green_bits | green // (4 if depth == 16 else 8) << 5 | blue // 8
    return bytes([word & 255, word >> 8])


class Screen:
    def __init__(self, width, height, x, y):
        self.width, self.height, self.x, self.y = width, height, x, y
        self.rows = [[0] * width for _ in range(height)]

    def has(self, x, y):
        return 0 <= x < self.width and 0 <= y < self.height


class Machine:
    """The state of a session as its client sees it: each act is done at once."""

    def __init__(self, pages, width, height, first):
        self.width, self.height, self.first = width, height, first
        self.frame = [("f", k) for k in range(-(-4 * width * height // PAGE))]
        self.pages = {key: bytearray(PAGE) for key in [("p", k) for k in range(pages)] + self.frame}
        self.regions, self.screens, self.gmrfb = {}, {}, None
        self.lent, self.touched, self.fences, self.commands = set(), {}, [], 0
        self.out = []

    def region(self, name):
        return self.frame if name == "frame" else self.regions[int(name)]

    def touch(self, places):
        """A command touches what stands in these places: all of it has to be lent."""
        keys = [key for key in places if key is not None]
        for key in keys:
            if key not in self.lent:
                raise Refused(PAGE_OUT, key)
        for key in keys:
            self.touched[key] = self.commands

    def byte(self, places, at):
        return places[at // PAGE], at % PAGE

    def covering(self, screen, x, y):
        """The screens that show this pixel, by ascending id, and where."""
        if screen != "all":
            shown = self.screens[int(screen)]
            return [(shown, x, y)] if shown.has(x, y) else []
        found = [(s, x - s.x, y - s.y) for _, s in sorted(self.screens.items())]
        return [(s, left, top) for s, left, top in found if s.has(left, top)]

    def pixels(self, words):
        """The pixels of a blit: on which screens each is, and where its bytes begin."""
        point_x, point_y, left, top, right, bottom = (int(word) for word in words[:6])
        places, offset, pitch, depth = self.gmrfb
        for y in range(top, bottom):
            for x in range(left, right):
                shown = self.covering(words[6], x, y)
                if shown:
                    at = offset + (point_y + y - top) * pitch + (point_x + x - left) * PIXEL_BYTES[depth]
                    yield shown, at

    def blit(self, *words):
        places, _, _, depth = self.gmrfb
        self.touch(places)
        found = []
        for shown, at in self.pixels(words):
            homes = (self.byte(places, at + k) for k in range(PIXEL_BYTES[depth]))
            found.append((shown, colour_in(depth, [self.pages[key][n] for key, n in homes])))
        for shown, colour in found:
            for screen, x, y in shown:
                screen.rows[y][x] = colour
        self.commands += 1

    def back(self, *words):
        places, _, _, depth = self.gmrfb
        self.touch(places)
        for shown, at in self.pixels(words):
            screen, x, y = shown[0]
            for k, byte in enumerate(bytes_of(depth, screen.rows[y][x])):
                key, n = self.byte(places, at + k)
                self.pages[key][n] = byte
        self.commands += 1

    def update(self, left, top, width, height):
        self.touch(self.frame)
        left, top = int(left), int(top)
        for y in range(top, min(top + int(height), self.height)):
            for x in range(left, min(left + int(width), self.width)):
                key, n = self.byte(self.frame, 4 * (y * self.width + x))
                colour = colour_in(32, self.pages[key][n : n + 4])
                for screen, screen_x, screen_y in self.covering("all", x, y):
                    screen.rows[screen_y][screen_x] = colour
        self.commands += 1

    def define_screen(self, number, *numbers):
        self.screens[int(number)] = Screen(*map(int, numbers))
        self.commands += 1

    def drop(self, number):
        del self.screens[int(number)]
        self.commands += 1

    def define_region(self, number, places):
        self.regions[int(number)] = [None] * int(places)
        self.commands += 1

    def map(self, number, offset, *runs):
        pages = [("p", page) for run in runs for page in numbers_of(run)]
        self.regions[int(number)][int(offset) : int(offset) + len(pages)] = pages
        self.commands += 1

    def same(self, number, offset, count, page):
        self.regions[int(number)][int(offset) : int(offset) + int(count)] = [("p", int(page))] * int(count)
        self.commands += 1

    def define_gmrfb(self, region, offset, pitch, depth):
        self.gmrfb = (self.region(region), int(offset), int(pitch), int(depth))
        self.commands += 1

    def fence(self):
        number = 1 + (self.first - 1 + len(self.fences)) % (2**32 - 1)
        self.fences.append(self.commands)
        self.commands += 1
        self.out.append(f"fence {number}")

    def mine(self, key):
        if key in self.lent:
            raise Refused(PAGE_LENT, key)
        return self.pages[key]

    def write(self, key, offset, digits):
        data = bytes.fromhex(digits)
        self.mine(key_of(key))[int(offset) : int(offset) + len(data)] = data

    def fill(self, key, digits):
        self.mine(key_of(key))[:] = bytes.fromhex(digits) * PAGE

    def lend(self, keys):
        for key in keys_of(keys):
            self.mine(key)
            self.lent.add(key)
            self.touched.pop(key, None)

    def take(self, keys):
        for key in keys_of(keys):
            if key not in self.lent:
                raise Refused(NOT_LENT, key)
            if key in self.touched and not any(place > self.touched[key] for place in self.fences):
                raise Refused(NO_FENCE, key)
            self.lent.remove(key)

    def show(self, key):
        data = self.mine(key_of(key))
        self.out.append(f"page {key}")
        offset = 0
        for byte, run in itertools.groupby(data):
            count = len(list(run))
            self.out.append(f"{offset} {count} {byte:02x}")
            offset += count

    def describe(self, number, page):
        """The region gets the pages that the chain lists, of pairs of words on lent pages."""
        listed, page, pair = [], int(page), 0
        if page == 0:
            self.regions.pop(int(number), None)
            return
        while True:
            if ("p", page) not in self.lent:
                raise Refused(PAGE_OUT, ("p", page))
            data = self.pages["p", page][8 * pair : 8 * pair + 8]
            first, count = int.from_bytes(data[:4], "little"), int.from_bytes(data[4:], "little")
            if (first, count) == (0, 0):
                break
            if count == 0:
                page, pair = first, 0
            else:
                listed += [("p", first + k) for k in range(count)]
                pair += 1
        self.regions[int(number)] = listed

    ACTS = {"screen": define_screen, "drop": drop, "region": define_region, "map": map, "same": same,
            "gmrfb": define_gmrfb, "blit": blit, "back": back, "update": update, "fence": fence, "write": write,
            "fill": fill, "lend": lend, "take": take, "show": show, "describe": describe}


def numbers_of(run):
    first, _, count = run.partition("+")
    return range(int(first), int(first) + int(count or 1))


def key_of(word):
    return word[0], int(word[1:])


def keys_of(word):
    return [(word[0], number) for number in numbers_of(word[1:])]


def picture(number, screen):
    yield f"screen {number} {screen.width} {screen.height} {screen.x} {screen.y}"
    first = 0
    for row, equal in itertools.groupby(screen.rows):
        count = len(list(equal))
        runs = (f"{len(list(run))}*{colour:06x}" for colour, run in itertools.groupby(row))
        yield f"rows {first} {count} {' '.join(runs)}"
        first += count


def text(script):
    """The text of a script."""
    machine, last = None, "end"
    for number, line in enumerate(script.split("\n"), 1):
        if not line or line.startswith("#"):
            continue
        name, *words = line.split(" ")
        if machine is None:
            _, pages, width, height, _, first, _ = words
            machine = Machine(int(pages), int(width), int(height), int(first))
            continue
        try:
            Machine.ACTS[name](machine, *words)
        except Refused as refused:
            (fault, cause), (letter, page) = refused.args
            last = f"refused line {number} fault {fault} {cause} {letter}{page}"
            break
    pictures = [row for number, screen in sorted(machine.screens.items()) for row in picture(number, screen)]
    return "\n".join(machine.out + pictures + [last]) + "\n"


def main():
    names = [name for name in sys.argv[1:] if name != "--write"]
    for name in names:
        path = pathlib.Path(name)
        found = text(path.read_text())
        if "--write" in sys.argv:
            path.with_suffix(".txt").write_text(found)
        else:
            sys.stdout.write(found)


if __name__ == "__main__":
    main()
