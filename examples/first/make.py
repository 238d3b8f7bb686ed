#!/usr/bin/env python3
"""Writes a.gds beside this file: one cell TOP with one rectangle, 100 by 300 database units, on layer 1."""
import os
import struct

UNITS = bytes.fromhex("3E4189374BC6A7F0 3944B82FA09B5A54")


def record(record_type, data_type, data=b""):
    """A record: its length, two bytes of types, and its data."""
    return struct.pack(">HBB", 4 + len(data), record_type, data_type) + data


def rectangle(layer, x0, y0, x1, y1):
    """A BOUNDARY of five points, from the lower left corner counterclockwise."""
    points = struct.pack(">10i", x0, y0, x1, y0, x1, y1, x0, y1, x0, y0)
    return b"".join([
        record(0x08, 0),
        record(0x0D, 2, struct.pack(">H", layer)),
        record(0x0E, 2, struct.pack(">H", 0)),
        record(0x10, 3, points),
        record(0x11, 0),
    ])


def library(elements):
    """A library of one cell, TOP, with these elements."""
    return b"".join([
        record(0x00, 2, struct.pack(">H", 600)),
        record(0x01, 2, bytes(24)),
        record(0x02, 6, b"LIB\0"),
        record(0x03, 5, UNITS),
        record(0x05, 2, bytes(24)),
        record(0x06, 6, b"TOP\0"),
        *elements,
        record(0x07, 0),
        record(0x04, 0),
    ])


if __name__ == "__main__":
    with open(f"{os.path.dirname(os.path.abspath(__file__))}/a.gds", "wb") as file:
        file.write(library([rectangle(1, 0, 0, 100, 300)]))
