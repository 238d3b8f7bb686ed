#!/usr/bin/env python3
"""Times the built program on layouts whose rectangles meet, and on those that are hard for a sweep.

    bench/merge.py [NAME ..]        all layouts where no name is given

It writes each layout and a deck to bench/out/, runs the program, and prints the number of rectangles, the seconds of the
quickest run, the greatest peak of memory, and the number of results: the sides of the rectangles' union that are below
0.2 microns. The layouts:

    column      524,288 unit squares above one another with a gap of one unit, listed from the top down
    random-1e5  100,000 rectangles with sides of 20 to 220 units anywhere in a square of four times their area
    random-1e6  1,000,000 such
    finer-1e6   the same with sides and coordinates ten times as large
    rows-64     100,000 rectangles, 64 to a row, each with sides of 20 to 219 units in a cell of 300
    rows-64-1e6 1,000,000 such
    comb        a back with 20,000 teeth, each of a height of its own
    comb-250000 the same with 250,000 teeth
"""
import functools
import math
import random
import sys

from layouts import begin, measure


def column():
    for k in reversed(range(524_288)):
        yield 0, 2 * k, 1, 2 * k + 1


def at_random(count, times=1):
    draw = random.Random(1)
    reach = times * math.isqrt(4 * count * 120 * 120)
    low, high = 20 * times, 220 * times
    for _ in range(count):
        x, y = draw.randrange(reach), draw.randrange(reach)
        yield x, y, x + draw.randint(low, high), y + draw.randint(low, high)


def rows_of_64(count):
    draw = draws(1)
    for k in range(count):
        draw(2)  # the layer, of two; here all are on one
        x = 300 * (k % 64) + draw(150)
        y = 300 * (k // 64) + draw(150)
        width = 20 + draw(200)
        yield x, y, x + width, y + 20 + draw(200)


def draws(seed):
    """A small generator of numbers, which is the same everywhere: a call gives one below its argument."""
    state = [seed]

    def draw(below):
        state[0] = (state[0] * 1103515245 + 12345) % 2**31
        return state[0] // 256 % below
    return draw


def comb(teeth):
    draw = random.Random(1)
    heights = list(range(1, teeth + 1))
    draw.shuffle(heights)
    yield 0, -1000, 600 * teeth, 0
    for k, height in enumerate(heights):
        yield 600 * k, -500, 600 * k + 300, 1000 * height


# a square has four short sides; a comb has none, since its teeth are 300 wide
LAYOUTS = {
    "column": (column, 3, 4 * 524_288),
    "random-1e5": (functools.partial(at_random, 100_000), 3, None),
    "random-1e6": (functools.partial(at_random, 1_000_000), 1, None),
    "finer-1e6": (functools.partial(at_random, 1_000_000, 10), 1, None),
    "rows-64": (functools.partial(rows_of_64, 100_000), 3, None),
    "rows-64-1e6": (functools.partial(rows_of_64, 1_000_000), 1, None),
    "comb": (functools.partial(comb, 20_000), 1, 0),
    "comb-250000": (functools.partial(comb, 250_000), 1, 0),
}


def main():
    names = sys.argv[1:] or list(LAYOUTS)
    if not begin():
        return 1
    done = [measure(name, *LAYOUTS[name]) for name in names]
    return 0 if all(done) else 1


if __name__ == "__main__":
    sys.exit(main())
