#!/usr/bin/env python3
"""Times the built program on layouts with many separate rectangles.

    bench/first.py [N ..]       10,000, 100,000 and 1,000,000 where no N is given

For each N it writes a layout of N rectangles on one layer and a deck to bench/out/, runs the program three times, and
prints N, the seconds of the quickest run, the greatest peak of memory of the three, and the number of results, which
it knows beforehand. The rectangles stand in the cells of a square grid and come in a shuffled order; the check finds
the sides below 0.2 microns.
"""
import functools
import math
import random
import sys

from layouts import BOUND, begin, measure

# A cell of the grid, the greatest offset and the sizes of its rectangle, in database units.
PITCH = 400
OFFSETS = range(0, 80)
SIZES = range(100, 310)


def rectangles(count):
    """As many rectangles, each in a cell of its own, in an order of its own that is always the same."""
    draw = random.Random(1)
    columns = math.isqrt(count - 1) + 1
    places = list(range(count))
    draw.shuffle(places)
    for place in places:
        x = place % columns * PITCH + draw.choice(OFFSETS)
        y = place // columns * PITCH + draw.choice(OFFSETS)
        yield x, y, x + draw.choice(SIZES), y + draw.choice(SIZES)


def short_sides(count):
    return sum(2 * (x1 - x0 < BOUND) + 2 * (y1 - y0 < BOUND) for x0, y0, x1, y1 in rectangles(count))


def main():
    counts = [int(word.replace(",", "")) for word in sys.argv[1:]] or [10_000, 100_000, 1_000_000]
    if not begin():
        return 1
    done = [measure(f"separate-{count}", functools.partial(rectangles, count), 3, short_sides(count)) for count in counts]
    return 0 if all(done) else 1


if __name__ == "__main__":
    sys.exit(main())
