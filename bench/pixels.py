#!/usr/bin/env python3
"""Measures read_row and write_row of svga_pixel on rows of 4,096 pixels, against a plain copy of as many bytes.

Needs crates/bench_pixels/out/bench_pixels, which `rt run` in crates/bench_pixels or `rt ci` leaves.
"""
from against_a_copy import compare

if __name__ == "__main__":
    compare("bench_pixels", ("read", "write"), pixels=4096, rounds=200000)
