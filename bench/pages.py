#!/usr/bin/env python3
"""Measures a page that is lent and taken back behind a fence, against the copy of a page there and back.

Needs crates/bench_ring/out/bench_ring, which `rt run` in crates/bench_ring or `rt ci` leaves, and a C compiler. The
program writes 64 pages, lends them, sends a fence that its other thread takes, and takes the pages back; so its time
has the fences in it, and since both of its threads look again and again, it wants two processors that are free. The C
program copies each page to another place and back, on one thread and with no fence. Each time is the best of several
runs, less that of a run over no page; the programs take turns, since the machine's speed wanders.
"""
import pathlib
import subprocess
import tempfile
import time

PROGRAM = pathlib.Path(__file__).parent.parent / "crates/bench_ring/out/bench_ring"
RUNS = 5
# Pages are lent 64 at a time.
TURNS = 16_384
PAGES = 64 * TURNS

COPY = r"""
#include <stdio.h>
#include <stdlib.h>
#include <string.h>

enum { PAGES = 4096, PAGE = 4096, AT_ONCE = 64 };
static unsigned char here[PAGES][PAGE], there[PAGES][PAGE];

static unsigned char byte_of(unsigned page) { return (unsigned char)(page % 255 + 1); }

int main(int argc, char **argv) {
  unsigned turns = argc > 2 ? (unsigned)atoi(argv[2]) : 0, found = 0;
  for (unsigned turn = 0; turn < turns; turn++) {
    unsigned from = turn % (PAGES / AT_ONCE) * AT_ONCE;
    for (unsigned page = from; page < from + AT_ONCE; page++) {
      here[page][page] = byte_of(page);
      memcpy(there[page], here[page], PAGE);
    }
    for (unsigned page = from; page < from + AT_ONCE; page++) {
      memcpy(here[page], there[page], PAGE);
      found += here[page][page] == byte_of(page);
    }
  }
  printf("%u\n", found);
  return found != turns * AT_ONCE;
}
"""


def seconds(program, turns):
    start = time.perf_counter()
    subprocess.run([program, "pages", str(turns)], check=True, stdout=subprocess.DEVNULL)
    return time.perf_counter() - start


def best_of(programs):
    """The best time of each program for all pages, less its best for none."""
    best = {}
    for _ in range(RUNS):
        for name, program in programs.items():
            for turns in (0, TURNS):
                taken = seconds(program, turns)
                best[name, turns] = min(taken, best.get((name, turns), taken))
    return {name: best[name, TURNS] - best[name, 0] for name in programs}


def main():
    with tempfile.TemporaryDirectory() as folder:
        source = pathlib.Path(folder) / "copy.c"
        source.write_text(COPY)
        copy = pathlib.Path(folder) / "copy"
        subprocess.run(["cc", "-O2", "-o", copy, source], check=True)
        taken = best_of({"proved": PROGRAM, "copy": copy})
        print(
            f"{taken['proved'] / PAGES * 1e9:.0f} ns a page lent and taken back, "
            f"{taken['copy'] / PAGES * 1e9:.0f} ns a page copied there and back, "
            f"{taken['proved'] / taken['copy']:.2f} times the time"
        )


if __name__ == "__main__":
    main()
