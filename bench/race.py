#!/usr/bin/env python3
"""Measures `svga race` on many rounds of take, fill, lend, blit and fence, against `svga replay` of the same commands.

Needs crates/svga/out/svga, which `rt run` in crates/svga or `rt ci` leaves. The replay has one thread, no driver, and
pages that hold zeros; the race has both ends, and lends a page and takes it back in each round. Both write each picture
once. Each time is the best of several runs, which take turns. With `--same COUNT` it runs the script so often instead,
and says whether all texts are one.
"""
import pathlib
import subprocess
import sys
import tempfile
import time

ROOT = pathlib.Path(__file__).parent.parent
sys.path.insert(0, str(ROOT / "examples"))

from capture import MIN, blit_to_screen, capture, define_gmrfb, define_region, define_screen, fence, remap  # noqa: E402

PROGRAM = ROOT / "crates/svga/out/svga"
TURNS = 3
ROUNDS = 20_000
# A page is a picture of 32 x 32 pixels in 32 bits.
SIDE = 32
WAYS = ["reserve", "dword"]


def script(rounds, way):
    lines = [
        f"session 65536 1 64 64 {SIDE * SIDE} 1 {way}",
        f"screen 0 {SIDE} {SIDE} 0 0",
        "region 1 1",
        "map 1 0 0",
        f"gmrfb 1 0 {4 * SIDE} 32",
        "lend p0",
    ]
    for k in range(rounds):
        lines += ["take p0", f"fill p0 {k % 256:02x}", "lend p0", f"blit 0 0 0 0 {SIDE} {SIDE} 0", "fence"]
    return ("\n".join(lines) + "\n").encode()


def commands(rounds):
    opening = define_screen(0, SIDE, SIDE) + define_region(1, 1) + remap(1, 0, [0]) + define_gmrfb(1, 0, 4 * SIDE, 32, 24)
    return opening + b"".join(blit_to_screen((0, 0), (0, 0, SIDE, SIDE), 0) + fence(k + 1) for k in range(rounds))


def run(form, path):
    begun = time.perf_counter()
    with open(path, "rb") as source:
        done = subprocess.run([PROGRAM, form], stdin=source, stdout=subprocess.PIPE, check=True)
    return time.perf_counter() - begun, done.stdout


def same(path, count):
    texts = {run("race", path)[1] for _ in range(count)}
    print(f"{count} runs write {len(texts)} text" + ("s" if len(texts) > 1 else ""))


def main():
    with tempfile.TemporaryDirectory() as folder:
        paths = {}
        for way in WAYS:
            paths[way] = pathlib.Path(folder) / way
            paths[way].write_bytes(script(ROUNDS, way))
        replayed = pathlib.Path(folder) / "replay"
        words = commands(ROUNDS)
        replayed.write_bytes(capture(words, guest_pages=1, frame=(64, 64), budget=SIDE * SIDE, ring_end=MIN + len(words) + 4))
        if sys.argv[1:2] == ["--same"]:
            for way in WAYS:
                same(paths[way], int(sys.argv[2]))
            return
        plain = min(run("replay", replayed)[0] for _ in range(TURNS))
        print(f"replay: {plain:.2f} s, {2 * ROUNDS / plain:,.0f} commands a second")
        for way in WAYS:
            best = min(run("race", paths[way])[0] for _ in range(TURNS))
            print(f"race by {way}: {best:.2f} s, {2 * ROUNDS / best:,.0f} commands a second, {best / plain:.1f} times the replay")


if __name__ == "__main__":
    main()
