#!/usr/bin/env python3
"""Writes a.gds beside this file: a cell TOP with a wire of overlapping rectangles on layer 1, in database units."""
import os
import sys

HERE = os.path.dirname(os.path.abspath(__file__))
sys.path.insert(0, f"{HERE}/../first")
from make import library, rectangle  # noqa: E402

WIRE = [
    rectangle(1, 0, 0, 400, 200),        # a bar
    rectangle(1, 400, 0, 800, 200),      # another that touches it along a side: together one bar of 800
    rectangle(1, 300, 150, 500, 600),    # a post that overlaps both
    rectangle(1, 300, 150, 500, 600),    # the same post again
    rectangle(1, 500, 500, 620, 600),    # a stub at the post's side
    rectangle(1, 800, 200, 1000, 400),   # a square that touches the bar at a corner only
]

if __name__ == "__main__":
    with open(f"{HERE}/a.gds", "wb") as file:
        file.write(library(WIRE))
