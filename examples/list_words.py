#!/usr/bin/env python3
"""Lists the commands in files of FIFO words, as `svga words` is to list them.

It is worked out from docs/GRAMMAR.md and docs/TEXTS.md and shares nothing with the program, so that each can be held
against the other. With `--write`, the listing of FILE.words becomes FILE.txt.
"""
import pathlib
import struct
import sys

# The commands of a fixed length, by their ids: the name, and how each field is written.
FIXED = {
    1: ("UPDATE", ["plain"] * 4),
    30: ("FENCE", ["plain"]),
    35: ("DESTROY_SCREEN", ["plain"]),
    36: ("DEFINE_GMRFB", ["plain", "plain", "plain", "format"]),
    37: ("BLIT_GMRFB_TO_SCREEN", ["signed"] * 6 + ["plain"]),
    38: ("BLIT_SCREEN_TO_GMRFB", ["signed"] * 6 + ["plain"]),
    41: ("DEFINE_GMR2", ["plain", "plain"]),
}
DEFINE_SCREEN, REMAP_GMR2 = 34, 42
UNSUPPORTED, ESCAPE, THREE_D = {3, 19, 22, 25, 29, 39, 40}, 33, range(1000, 3000)
FORMATS = {0x1820: "32/24", 0x1818: "24/24", 0x1010: "16/16", 0x0F10: "16/15"}
# How the entries of a remap are given, by its flags.
ENTRIES = {0: "ppn32", 1: "via32", 2: "ppn64", 3: "via64", 4: "single32", 6: "single64"}
MOST_PAGES = 65536


def cause(command):
    """Why the last of these words of one command is refused, or None."""
    number, name, word = len(command) - 1, command[0], command[-1]
    if number == 0 and name not in FIXED and name not in (DEFINE_SCREEN, REMAP_GMR2):
        if name in UNSUPPORTED:
            return "Unsupported"
        if name in THREE_D:
            return "ThreeD"
        return "Escape" if name == ESCAPE else "Unknown"
    if (number, name) == (1, DEFINE_SCREEN) and word not in (28, 44):
        return "BadSize"
    if (number, name) == (2, REMAP_GMR2) and word not in ENTRIES:
        return "BadFlags"
    if (number, name) == (4, 36) and word not in FORMATS:
        return "BadFormat"
    if (number, name) == (4, REMAP_GMR2) and word > MOST_PAGES:
        return "TooManyPages"
    return None


def length(command):
    """How many words the command has that begins with these, none of which is refused. None where they don't tell."""
    name = command[0]
    if name in FIXED:
        return 1 + len(FIXED[name][1])
    if name == DEFINE_SCREEN:
        # The size counts bytes from the size word on.
        return 1 + command[1] // 4 if len(command) > 1 else None
    if len(command) < 5:
        return None
    pages = command[4]
    return 5 + {0: pages, 1: 2, 2: 2 * pages, 3: 2, 4: 1, 6: 2}[command[2]]


def written(word, how):
    if how == "signed":
        return str(word - (1 << 32) if word >> 31 else word)
    return FORMATS[word] if how == "format" else str(word)


def line(command):
    """A whole command's name and fields."""
    name, fields = command[0], command[1:]
    if name in FIXED:
        name, how = FIXED[name]
    elif name == DEFINE_SCREEN:
        name, how = "DEFINE_SCREEN", ["plain"] * 5 + ["signed"] * 2 + ["plain"] * (len(fields) - 7)
    else:
        name, fields = "REMAP_GMR2", remap_fields(*fields[:4], fields[4:])
        how = ["plain"] * len(fields)
    return " ".join([name, *(field if isinstance(field, str) else written(field, h) for field, h in zip(fields, how))])


def remap_fields(region, flags, offset, pages, entries):
    given = ENTRIES[flags]
    if given in ("ppn64", "single64"):
        entries = [low + (high << 32) for low, high in zip(entries[::2], entries[1::2])]
    return [region, offset, pages, given, *entries]


def listing(content):
    """The lines for the bytes of a file."""
    count = len(content) // 4
    words = struct.unpack(f"<{count}I", content[: 4 * count])
    fence, start, command = 0, 0, []
    for number, word in enumerate(words):
        command.append(word)
        why = cause(command)
        if why:
            yield from (f"fence {fence}", f"refused at word {number} {why}")
            return
        if len(command) == length(command):
            yield f"at {start} {line(command)}"
            fence = command[1] if command[0] == 30 else fence
            start, command = number + 1, []
    yield f"fence {fence}"
    if command or len(content) % 4:
        yield f"torn at word {count}"


def main():
    names = [pathlib.Path(name) for name in sys.argv[1:] if name != "--write"]
    for name in names:
        text = "".join(f"{text}\n" for text in listing(name.read_bytes()))
        if "--write" in sys.argv:
            name.with_suffix(".txt").write_text(text)
        else:
            sys.stdout.write(text)


if __name__ == "__main__":
    main()
