#!/usr/bin/env python3
"""Writes the binary files of the examples beside itself: canyon.floats, and the nodes of canyon, harbour, pacific and quake."""

from fractions import Fraction
from pathlib import Path
from struct import pack, unpack

MARK = -2147483648

# Annex E.1.1: latitudeOffset and longitudeOffset of each node in arc-seconds, rows from north to south, each from west
# to east.
CANYON_QUANTUM = 20
SOUTH = """
    1.00 -2.70  1.20 -2.50  1.40 -2.30  1.60 -2.10  1.80 -1.90
    1.20 -2.74  1.40 -2.52  1.65 -2.31  1.83 -2.13  2.00 -1.92
    1.40 -2.78  1.80 -2.53  2.00 -2.33  2.10 -2.14  2.20 -1.93
"""
NORTH = """
    0.86 -2.62  1.06 -2.34  1.20 -2.04
    0.91 -2.64  1.13 -2.36  1.30 -2.06
    0.95 -2.66  1.20 -2.38  1.50 -2.08
    1.00 -2.70  1.30 -2.40  1.60 -2.10
"""

# Silt of each node in metres, rows from south to north, each from west to east; `none` is no data.
HARBOUR_QUANTUM = 10
BAY = """
    1.000  1.250  1.500  1.750  2.000
    1.125  1.375  1.625  1.875  2.125
    1.250  1.500  1.750  2.000  2.250
    1.375  1.625  1.875  2.125  2.375
"""
WEST_BASIN = """
    2.500  2.625  2.750
    2.625  3.000  2.875
    2.750  2.875  3.000
"""
EAST_BASIN = """
    2.000  2.125  2.250  2.500
    2.125  2.375  2.500  2.625
    2.250  2.500  2.625  none
"""

# The sea's level in metres: at the first node, a node further east, a node further north, and how many there are each way.
PACIFIC_QUANTUM = 10
PACIFIC_LAGOON = "1.000", "0.250", "0.125", 13, 4
PACIFIC_SEA = "0.500", "0.125", "0.250", 17, 5

# How far the earthquake lowered the floor at each node, in steps of 2 to the power -20 metre, rows from south to north, each
# from west to east.
QUAY = """
    1000000   500000  250000
    2000000  1000000  500000
"""


def steps(value, quantum):
    """The value in steps: nearest, ties to even."""
    return round(Fraction(value) * 2**quantum)


def plane(first, east, north, ni, nj):
    """The values of a grid's nodes, first along i, then along j."""
    first, east, north = map(Fraction, (first, east, north))
    return [first + i * east + j * north for j in range(nj) for i in range(ni)]


def write(name, kind, values):
    """Writes little-endian 32-bit values: kind `f` for floats, `i` for whole numbers."""
    Path(__file__).with_name(name).write_bytes(pack(f"<{len(values)}{kind}", *values))


offsets = (SOUTH + NORTH).split()
floats = unpack(f"<{len(offsets)}f", pack(f"<{len(offsets)}f", *map(float, offsets)))
write("canyon.floats", "f", floats)
write("canyon.nodes", "i", [steps(value, CANYON_QUANTUM) for value in floats])

silt = (BAY + WEST_BASIN + EAST_BASIN).split()
write("harbour.nodes", "i", [MARK if value == "none" else steps(value, HARBOUR_QUANTUM) for value in silt])

level = plane(*PACIFIC_LAGOON) + plane(*PACIFIC_SEA)
write("pacific.nodes", "i", [steps(value, PACIFIC_QUANTUM) for value in level])

write("quake.nodes", "i", [int(value) for value in QUAY.split()])
