#!/usr/bin/env python3
"""Measures words a second through the ring on two threads, by each way of writing, against plain atomics.

Needs crates/bench_ring/out/bench_ring, which `rt run` in crates/bench_ring or `rt ci` leaves, and a C compiler. The
other program does the same loads and stores on a ring of the same size, without proofs, in C. Each time is the best of
several runs, less that of a run that passes no command; the programs take turns, since the machine's speed wanders.
"""
import pathlib
import subprocess
import tempfile
import time

PROGRAM = pathlib.Path(__file__).parent.parent / "crates/bench_ring/out/bench_ring"
TURNS = 5
COMMANDS = 1_000_000
# Of 16 commands 15 have 5 words and one has 2.
WORDS = COMMANDS // 16 * (15 * 5 + 2)

PLAIN = r"""
#include <pthread.h>
#include <stdatomic.h>
#include <stdint.h>
#include <stdio.h>
#include <stdlib.h>
#include <string.h>

enum { MIN = 1164, MAX = 11404 };
static _Atomic uint64_t table[MAX / 4 + 16];
static _Atomic uint64_t *const next_cmd = &table[2], *const stop = &table[3], *const fence = &table[6],
    *const reserved = &table[14];
static uint32_t count;
static int by_dword;

static uint32_t behind(uint32_t at) { return at + 4 == MAX ? MIN : at + 4; }

static uint32_t command(uint32_t n, uint32_t fences, uint32_t words[5]) {
  if (n % 16 == 15) {
    words[0] = 30; words[1] = 1 + fences;
    return 2;
  }
  words[0] = 36; words[1] = 1; words[2] = n; words[3] = 16; words[4] = 0x1820;
  return 5;
}

static uint32_t send(uint32_t at, const uint32_t *words, uint32_t length) {
  uint32_t free;
  do {
    uint32_t known = (uint32_t)atomic_load(stop);
    free = at < known ? known - at : MAX - MIN - (at - known);
  } while (free <= 4 * length);
  if (!by_dword) atomic_store(reserved, 4 * length);
  for (uint32_t i = 0; i < length; i++) {
    atomic_store(&table[at / 4], words[i]);
    at = behind(at);
    if (by_dword) atomic_store(next_cmd, at);
  }
  if (!by_dword) {
    atomic_store(next_cmd, at);
    atomic_store(reserved, 0);
  }
  return at;
}

static void *receive(void *unused) {
  uint32_t at = MIN, next = MIN, words[5], fences = 0;
  for (uint32_t n = 0; n < count; n++) {
    uint32_t length = command(n, fences, words);
    for (uint32_t i = 0; i < length; i++) {
      while (next == at) next = (uint32_t)atomic_load(next_cmd);
      if ((uint32_t)atomic_load(&table[at / 4]) != words[i]) exit(1);
      at = behind(at);
    }
    if (length == 2) { atomic_store(fence, words[1]); fences++; }
    atomic_store(stop, at);
  }
  return unused;
}

int main(int argc, char **argv) {
  by_dword = argc > 1 && !strcmp(argv[1], "dword");
  count = argc > 2 ? (uint32_t)atoi(argv[2]) : 0;
  atomic_store(next_cmd, MIN);
  atomic_store(stop, MIN);
  pthread_t thread;
  if (pthread_create(&thread, 0, receive, 0)) return 1;
  uint32_t at = MIN, words[5], fences = 0;
  for (uint32_t n = 0; n < count; n++) {
    uint32_t length = command(n, fences, words);
    at = send(at, words, length);
    if (length == 2) fences++;
  }
  return pthread_join(thread, 0);
}
"""


def seconds(program, way, count):
    start = time.perf_counter()
    subprocess.run([program, way, str(count)], check=True, stdout=subprocess.DEVNULL)
    return time.perf_counter() - start


def best_of(programs, way):
    """The best time of each program for all commands, less its best for none."""
    best = {}
    for _ in range(TURNS):
        for name, program in programs.items():
            for count in (0, COMMANDS):
                taken = seconds(program, way, count)
                best[name, count] = min(taken, best.get((name, count), taken))
    return {name: best[name, COMMANDS] - best[name, 0] for name in programs}


def main():
    with tempfile.TemporaryDirectory() as folder:
        source = pathlib.Path(folder) / "plain.c"
        source.write_text(PLAIN)
        plain = pathlib.Path(folder) / "plain"
        subprocess.run(["cc", "-O2", "-pthread", "-o", plain, source], check=True)
        for way in ("reserve", "dword"):
            taken = best_of({"proved": PROGRAM, "plain": plain}, way)
            print(
                f"{way}: {WORDS / taken['proved'] / 1e6:.2f} million words a second, plain atomics "
                f"{WORDS / taken['plain'] / 1e6:.2f} million, {taken['proved'] / taken['plain']:.2f} times the time"
            )


if __name__ == "__main__":
    main()
