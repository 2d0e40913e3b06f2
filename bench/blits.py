#!/usr/bin/env python3
"""Measures blits of 1,024 by 1,024 pixels to a screen and back, in each format, against a plain copy of as many bytes.

Needs crates/bench_blits/out/bench_blits, which `rt run` in crates/bench_blits or `rt ci` leaves.
"""
from against_a_copy import compare

if __name__ == "__main__":
    compare("bench_blits", ("show", "back"), pixels=1024 * 1024, rounds=200)
