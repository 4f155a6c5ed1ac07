#!/usr/bin/env python3
"""Makes six footprint files: night, clean, neighbours, cut_night, editions and sums.

    make_night.py [DIRECTORY]      writes them there, else beside this script

All of it is computed in whole numbers, and the random numbers are its own, so every Python from 3.8 on makes the same bytes.
"""

import math
import pathlib
import struct
import sys

TRAINING, TEST = 0, 1
EDITION_1, EDITION_2 = 0, 1  # the last byte of an entry
FARTHEST = 1_000_000  # centimetres from the origin, along each axis
STEPS = 12  # stretches of a recording, each of them a quadrilateral of about 170 m


class Dice:
    """A linear congruential generator over 64 bits, of which the upper ones are used."""

    def __init__(self, seed):
        self.state = seed

    def below(self, n):
        self.state = (self.state * 6364136223846793005 + 1442695040888963407) % 2**64
        return (self.state >> 33) % n

    def within(self, most):
        """A number from -most to most."""
        return self.below(2 * most + 1) - most


class Boat:
    """Sails legs, and keeps what the sonar saw on them as recordings: (id, set, triangles)."""

    def __init__(self, seed, first_id):
        self.dice = Dice(seed)
        self.next_id = first_id
        self.recordings = []
        self.reach = 6000  # of the sonar to either side; it changes with the depth
        self.drift = 0  # of the boat, off its line

    def sail(self, start, end, sets):
        """One leg, cut into recordings of these sets. Neighbours share the edge where one ends and the other begins."""
        edges = [self.edge_at(start, end, k, STEPS * len(sets)) for k in range(STEPS * len(sets) + 1)]
        for i, which in enumerate(sets):
            triangles = []
            for k in range(STEPS * i, STEPS * (i + 1)):
                if self.dice.below(40) > 0:  # else the position fix dropped
                    triangles += halves(edges[k], edges[k + 1])
            self.recordings.append((self.next_id, which, triangles))
            self.next_id += 1

    def edge_at(self, start, end, k, steps):
        """The edge across the boat's way after k of so many steps: its left and its right point."""
        along = (end[0] - start[0], end[1] - start[1])
        length = math.isqrt(along[0] ** 2 + along[1] ** 2)
        self.reach = min(max(self.reach + self.dice.within(700), 3000), 9000)
        self.drift = self.drift * 3 // 4 + self.dice.within(400)
        return tuple(
            (
                start[0] + along[0] * k // steps - along[1] * off // length,
                start[1] + along[1] * k // steps + along[0] * off // length,
            )
            for off in (self.drift + self.reach, self.drift - self.reach)
        )


def halves(before, after):
    """The two triangles between two edges, but for one that has no area or goes too far."""
    (left, right), (left_after, right_after) = before, after
    both = ((left, right, left_after), (right, right_after, left_after))
    return [t for t in both if area_of(t) != 0 and all(abs(c) <= FARTHEST for vertex in t for c in vertex)]


def area_of(triangle):
    """Twice its area, with a sign."""
    (ax, ay), (bx, by), (cx, cy) = triangle
    return (bx - ax) * (cy - ay) - (by - ay) * (cx - ax)


def footprint(recordings):
    """The bytes of a footprint file: triangles, table, trailer. What names no edition is of the first."""
    triangles = table = b""
    for identity, which, own, *last in recordings:
        table += struct.pack("<IIHBB", identity, len(triangles), len(own), which, *last or [EDITION_1])
        for triangle in own:
            triangles += struct.pack("<6i", *(c for vertex in triangle for c in vertex))
    length = len(triangles) + len(table) + 12
    return triangles + table + struct.pack("<III", len(triangles), len(recordings), length)


def on_grid(along, across):
    """A point of the survey, so many metres along its lines, which run 4 east to 3 north, and across them."""
    return (80 * along - 60 * across, 60 * along + 80 * across)


def line(boat, across, sets):
    """A line of the survey, in recordings of 2 km."""
    boat.sail(on_grid(-6000, across), on_grid(-6000 + 2000 * len(sets), across), sets)


def night():
    """Eight lines 1.6 km apart, a part of the last again, and the way home across the others."""
    boat = Boat(seed=20240917, first_id=240917001)
    line(boat, -5600, [TRAINING] * 6)
    line(boat, -4000, [TRAINING] * 6)
    line(boat, -2400, [TRAINING] * 4 + [TEST] * 2)  # the sets change in the middle of a line
    line(boat, -800, [TRAINING] * 6)
    line(boat, 800, [TRAINING] * 6)
    line(boat, 2400, [TEST] * 6)
    line(boat, 4000, [TRAINING] * 4 + [TEST] * 2)
    line(boat, 5600, [TRAINING] * 6)
    boat.sail(on_grid(-1500, 5640), on_grid(2500, 5580), [TRAINING, TEST])  # the eighth line again
    boat.sail(on_grid(5600, 5200), on_grid(-5200, -5900), [TRAINING, TEST, TRAINING, TRAINING, TEST, TRAINING, TEST])
    return footprint(boat.recordings)


def clean():
    """Three lines, and a way home that crosses the two of them that are training."""
    boat = Boat(seed=20240921, first_id=240921001)
    line(boat, -1600, [TRAINING] * 3)
    line(boat, 0, [TRAINING] * 3)
    line(boat, 1600, [TEST] * 3)
    boat.sail(on_grid(-1000, 800), on_grid(-5000, -2000), [TRAINING] * 2)
    return footprint(boat.recordings)


def neighbours():
    """One line in two recordings: its first half is training, its second test. What they share is the edge between them."""
    boat = Boat(seed=20240923, first_id=240923001)
    line(boat, 0, [TRAINING, TEST])
    return footprint(boat.recordings)


def stretch(begin, end, across):
    """What a boat sees that sails due east: a rectangle, 60 m wide."""
    before, after = (((x, across + 3000), (x, across - 3000)) for x in (begin, end))
    return halves(before, after)


def editions():
    """Three lines, on each of which a test recording begins before the training recording ends: twice by 1 m of 201, and on the third
    by 10 m of 210. On the first a training recording follows, which shares an edge with the test recording."""
    recordings = [
        (TRAINING, stretch(0, 20000, 0)),
        (TEST, stretch(19900, 40000, 0), EDITION_2),
        (TRAINING, stretch(40000, 60000, 0)),
        (TRAINING, stretch(0, 20000, 20000)),
        (TEST, stretch(19900, 40000, 20000), EDITION_1),
        (TRAINING, stretch(0, 20000, 40000)),
        (TEST, stretch(19000, 40000, 40000), EDITION_2),
    ]
    return footprint([(240925001 + i, *recording) for i, recording in enumerate(recordings)])


def sums():
    """Two training recordings of the same three triangles, in one order and in the other. Each cuts the corner off the triangle of the
    test recording, which has 60 square centimetres: a tenth of one, two tenths, and three."""
    cuts = [((-w, 6), (w, -4), (-w, -4)) for w in (1, 2, 3)]
    return footprint([(7, TRAINING, cuts), (8, TRAINING, cuts[::-1]), (9, TEST, [((0, 0), (8, 0), (0, 15))], EDITION_2)])


def main():
    directory = pathlib.Path(sys.argv[1]) if len(sys.argv) > 1 else pathlib.Path(__file__).resolve().parent
    whole = night()
    files = {"night": whole, "clean": clean(), "neighbours": neighbours(), "cut_night": whole[: 40 * 512], "editions": editions(), "sums": sums()}
    for name, content in files.items():
        (directory / f"{name}.footprint").write_bytes(content)


main()
