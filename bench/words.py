#!/usr/bin/env python3
"""Measures `svga words` on 128 MiB of mixed commands, against `od -An -tu4 -w4 -v` on the same file.

Needs crates/svga/out/svga, which `rt run` in crates/svga or `rt ci` leaves. Each time is the best of several runs; the two
take turns, since the machine's speed wanders. The pieces are those of a run that writes to a socket which keeps them
apart.
"""
import os
import pathlib
import socket
import subprocess
import tempfile
import time

from commands import write_commands

PROGRAM = pathlib.Path(__file__).parent.parent / "crates/svga/out/svga"
COMMANDS = {"svga": [PROGRAM, "words"], "od": ["od", "-An", "-tu4", "-w4", "-v"]}
TURNS = 3


def run(name, path):
    """The seconds, the peak memory in bytes and the bytes of a run whose text goes to a file."""
    with open(path, "rb") as source, tempfile.TemporaryFile() as sink:
        start = time.perf_counter()
        child = subprocess.Popen(COMMANDS[name], stdin=source, stdout=sink)
        _, status, used = os.wait4(child.pid, 0)
        taken = time.perf_counter() - start
        child.returncode = os.waitstatus_to_exitcode(status)
        assert child.returncode == 0, child.returncode
        return taken, used.ru_maxrss * 1024, os.fstat(sink.fileno()).st_size


def pieces(path):
    """The lengths of the pieces in which `svga words` writes."""
    here, there = socket.socketpair(socket.AF_UNIX, socket.SOCK_SEQPACKET)
    lengths = []
    with open(path, "rb") as source, here:
        with there:
            child = subprocess.Popen(COMMANDS["svga"], stdin=source, stdout=there)
        while length := len(here.recv(1 << 20)):
            lengths.append(length)
        assert child.wait() == 0
    return lengths


def main():
    with tempfile.NamedTemporaryFile() as file:
        length = write_commands(file.name)
        best, peak, text = {}, {}, {}
        for _ in range(TURNS):
            for name in COMMANDS:
                taken, peak[name], text[name] = run(name, file.name)
                best[name] = min(taken, best.get(name, taken))
        *full, last = pieces(file.name)
    print(f"{length / 2**20:.1f} MiB of commands")
    print("program  seconds  MiB of text  peak MiB  times the input")
    for name in COMMANDS:
        print(f"{name:8} {best[name]:7.2f} {text[name] / 2**20:12.1f} {peak[name] / 2**20:9.1f} {peak[name] / length:16.2f}")
    print(f"svga writes {len(full) + 1} pieces, of at least {min(full)} bytes but for the last of {last}")
    print(f"svga takes {best['svga'] / best['od']:.2f} times the time of od")


if __name__ == "__main__":
    main()
