#!/usr/bin/env python3
"""Makes figure files, as document 01's section 8 has them.

    python3 examples/figure.py FIGURE > FILE

FIGURE is one of
  tesseract  the eight cubes that bound a cube of four dimensions: closed, every face is met once from each side
  torn       seven of them: the six faces of the missing one are open
  trefoil    a knot of 24 vertices: a closed curve, and the lines along it
"""
import math
import struct
import sys

CUBES, SIMPLICES = 0, 1


def word(n):
    """All that isn't called a byte is 4 bytes, big-endian."""
    return struct.pack(">I", n)


def vertex(position):
    """Four coordinates, no flags, tag and k 0."""
    return struct.pack(">ffff", *position) + bytes([0]) + word(0) + word(0)


def element(corners, parity):
    """Vertex numbers, then the parity byte: 0 even, 1 odd."""
    return b"".join(map(word, corners)) + bytes([parity])


def curve(vertices, parities):
    """Tag 0, how many vertices, the vertices, and a parity for each step from one to the next."""
    return word(0) + word(len(vertices)) + b"".join(map(word, vertices)) + bytes(parities)


def figure(kind, vertices, lines=(), volumes=(), curves=()):
    """Version 1, the kind, then each list with its count first: vertices, points, lines, areas, volumes, curves."""
    lists = [vertices, [], lines, [], volumes, curves]
    return bytes([1, kind]) + b"".join(word(len(entries)) + b"".join(entries) for entries in lists)


def cubes(sides):
    """The corners of a cube of four dimensions, from -8 to 8 on each axis, and some of the cubes that bound it."""
    corners = range(16)
    vertices = [vertex([16 * (corner >> axis & 1) - 8 for axis in range(4)]) for corner in corners]
    # A side has the corners that lie on it; signs alternate from axis to axis and from side to side.
    volumes = [element([c for c in corners if c >> axis & 1 == bit], (axis + bit) % 2) for axis, bit in sides]
    return figure(CUBES, vertices, volumes=volumes)


SIDES = [(axis, bit) for axis in range(4) for bit in (0, 1)]


def trefoil(count=24):
    """Twice round the axis of a ring, and three times round the ring itself. Sixteenths, so that every machine makes the same."""
    def position(i):
        t = 2 * math.pi * i / count
        radius = 16 + 8 * math.cos(3 * t)
        place = (radius * math.cos(2 * t), radius * math.sin(2 * t), 8 * math.sin(3 * t), 0)
        return [round(16 * at) / 16 for at in place]

    vertices = [vertex(position(i)) for i in range(count)]
    ring = [i % count for i in range(count + 1)]
    lines = [element(step, 0) for step in zip(ring, ring[1:])]
    return figure(SIMPLICES, vertices, lines=lines, curves=[curve(ring, [0] * count)])


FIGURES = {"tesseract": cubes(SIDES), "torn": cubes(SIDES[:-1]), "trefoil": trefoil()}

if __name__ == "__main__":
    if len(sys.argv) != 2 or sys.argv[1] not in FIGURES:
        sys.exit(__doc__)
    sys.stdout.buffer.write(FIGURES[sys.argv[1]])
