"""Tests of meskelow.py with the library. What is expected was worked out by hand: the twelve cases and the example in docs/RULES.md
and README.md. The night's list and an area that rounding makes are the second program's. Files that are written must have the bytes
that `footprint` packs, and well-known texts those that `text_of` makes in another way."""

import array
import collections
import contextlib
import copy
import ctypes
import decimal
import fractions
import functools
import itertools
import math
import operator
import pathlib
import pickle
import random
import struct
import threading
import types
import unittest
import unittest.mock

import meskelow
from meskelow import CornerOfV, Crossing, Kind, VertexOfU

try:
    import numpy
except ImportError:
    numpy = None

EXAMPLES = pathlib.Path(__file__).resolve().parent.parent / "examples"

V = [(0, 0), (4, 0), (0, 4)]
TURNED_OVER = [(0, 0), (0, 4), (4, 0)]
A = [(1, 1), (2, 1), (1, 2)]
B = [(0, 0), (8, 0), (0, 8)]
C = [(6, 6), (-2, 6), (6, -2)]
D = [(1, 1), (-3, 1), (1, -3)]
E = [(10, 10), (11, 10), (10, 11)]
F = [(0, 0), (4, 0), (0, -4)]
G = [(-3, 5), (5, -3), (9, 9)]
FLAT = [(0, 0), (1, 1), (2, 2)]

# Every y of the second is below every y of the first; by rounding they have a ring, with an area of 2^-33.
BEYOND = [(327628, 2), (-335623, 719289), (-969092, 2)], [(-778994, -314945), (-940499, -380241), (0, 0)]

# The first has an area of 60. Each of the others cuts its corner off, (0, 0), (w/5, 0), (0, 1), for w of 1, 2 and 3: 0.1, 0.2 and 0.3.
SIXTY = [(0, 0), (8, 0), (0, 15)]
CUTS = [[(-w, 6), (w, -4), (-w, -4)] for w in (1, 2, 3)]


def far_off(size):
    """A triangle far from all others, with half this area."""
    return [(1000, 1000), (1000 + size, 1000), (1000, 1001)]


# 84 bytes: training recording 7 has V, test recording 9 has D's U.
LEAK = bytes.fromhex(
    "00000000 00000000 04000000 00000000 00000000 04000000"
    "01000000 01000000 fdffffff 01000000 01000000 fdffffff"
    "07000000 00000000 0100 00 00"
    "09000000 18000000 0100 01 00"
    "30000000 02000000 54000000"
)
EMPTY = bytes.fromhex("00000000 00000000 0c000000")
LIST = "leaks 1\ntest 9 train 7 pairs 1\ntouching 0\nformerly held back 0\n"
NO_LEAKS = "leaks 0\ntouching 0\nformerly held back 0\n"


def closing(touching, old=0):
    return f"touching {touching}\nformerly held back {old}\n"


def neither(touching, old=0):
    """The list without a leak."""
    return f"leaks 0\n{closing(touching, old)}"


def changed(place, byte):
    return LEAK[:place] + bytes([byte]) + LEAK[place + 1 :]


def footprint(*recordings):
    """The bytes of a footprint file with these recordings: id, set, triangles, and a last byte if it is not 0."""
    triangles = table = b""
    for identity, which, own, *last in recordings:
        table += struct.pack("<IIHBB", identity, len(triangles), len(own), which, *last or [0])
        triangles += b"".join(struct.pack("<6i", *(c for vertex in triangle for c in vertex)) for triangle in own)
    return triangles + table + struct.pack("<III", len(triangles), len(recordings), len(triangles) + len(table) + 12)


REFUSED_FILES = [
    (b"", 11, 0),
    (bytes(65537), 11, 0),
    (LEAK[:60], 12, 0),
    (bytes(65536), 12, 0),
    (changed(76, 3), 13, 72),
    (changed(70, 3), 14, 60),
    (changed(71, 2), 14, 60),
    (changed(71, 129), 14, 60),
    (changed(71, 255), 14, 60),
    (changed(59, 1), 14, 48),
    (footprint((7, 2, [V], 1), (9, 1, [D])), 14, 24 * 2),
    (changed(68, 2), 15, 48),
    (changed(60, 7), 16, 60),
    (changed(27, 0x80), 17, 24),
    (LEAK[:8] + bytes(8) + LEAK[16:], 18, 0),
]


def own(identity, which, triangles, **more):
    """A recording to be written, of a user's own kind."""
    return types.SimpleNamespace(id=identity, set=which, triangles=triangles, **more)


def flags(text):
    return tuple(c == "1" for c in text)


class Whole:
    """A whole number that is no int, as numpy's."""

    def __init__(self, value):
        self.value = value

    def __index__(self):
        return self.value


class Scalar:
    """A number that is no float, as numpy's float32 and the elements of tensors."""

    def __init__(self, value):
        self.value = value

    def __float__(self):
        return float(self.value)


class Cut(complex):
    """A complex number that would do for a float, as numpy's."""

    def __float__(self):
        return self.real


class Array:
    """A sequence that is no list: it has a length, and rows or numbers by their index."""

    def __init__(self, rows):
        self.rows = rows

    def __len__(self):
        return len(self.rows)

    def __getitem__(self, i):
        row = self.rows[i]
        return Array(row) if isinstance(row, (list, tuple)) else row


class Case(unittest.TestCase):
    @contextlib.contextmanager
    def refused(self, number, place):
        with self.assertRaises(meskelow.Refused) as caught:
            yield
        self.assertEqual((caught.exception.number, caught.exception.place), (number, place))


class Triangles(Case):
    def answers(self, u, v, ring, area, u_in_v, v_in_u, neighbour):
        got = meskelow.intersect(u, v)
        self.assertEqual(got, (tuple(ring), area, flags(u_in_v), flags(v_in_u), flags(neighbour)))

    def test_a(self):
        self.answers(A, V, A, 0.5, "111", "000", "000")

    def test_b(self):
        self.answers(B, A, A, 0.5, "000", "111", "111")

    def test_c(self):
        ring = [(2, 6), (0, 6), (0, 4), (4, 0), (6, 0), (6, 2)]
        self.answers(C, [(0, 0), (8, 0), (0, 8)], ring, 20, "000", "000", "111")

    def test_d(self):
        self.answers(D, V, [(1, 1), (0, 1), (0, 0), (1, 0)], 1, "100", "100", "110")

    def test_e(self):
        self.answers(E, V, [], 0, "000", "000", "000")

    def test_f(self):
        self.answers(F, V, [(0, 0), (4, 0), (4, 0), (0, 0)], 0, "110", "000", "010")

    def test_g(self):
        self.answers(G, V, [(0, 2), (2, 0), (4, 0), (0, 4)], 6, "000", "011", "111")

    def test_h(self):
        self.answers(A, TURNED_OVER, A, 0.5, "111", "000", "000")

    def test_i_flat_v(self):
        with self.refused(3, 0):
            meskelow.intersect(A, FLAT)

    def test_j_flat_u(self):
        with self.refused(5, 0):
            meskelow.intersect(FLAT, V)

    def test_k_nan(self):
        for place in range(12):
            values = [float(c) for vertex in A + V for c in vertex]
            values[place] = float("nan")
            vertices = list(zip(values[::2], values[1::2]))
            with self.refused(2, 0):
                meskelow.intersect(vertices[:3], vertices[3:])

    def test_l_overflow(self):
        with self.refused(4, 0):
            meskelow.intersect(A, [(0, 0), (1e300, 0), (0, 1e300)])

    def test_shapes(self):
        four = V + [(1, 1)]
        for u, v in [(V[:2], four), (four, V[:2]), (V[:2], V), (V, []), (V, [(0, 0), (4, 0, 0), (4,)])]:
            with self.refused(1, 0):
                meskelow.intersect(u, v)
        for u in [("aa", "bb", "cc"), [(None, 0), (1, 0), (0, 1)], [0, 0, 1], 1, None]:
            with self.assertRaises(TypeError):
                meskelow.intersect(u, V)

    def test_kinds_of_triangles(self):
        expected = meskelow.intersect(D, V)
        for u, v in [(tuple(D), tuple(V)), ([list(c) for c in D], [array.array("d", c) for c in V]), (Array(D), Array(V))]:
            self.assertEqual(meskelow.intersect(u, v), expected)

    def test_kinds_of_numbers(self):
        expected = meskelow.intersect(D, V)
        for kind in (float, Scalar, Whole, fractions.Fraction, decimal.Decimal):
            with self.subTest(kind=kind):
                u, v = ([(kind(x), kind(y)) for x, y in triangle] for triangle in (D, V))
                self.assertEqual(meskelow.intersect(u, v), expected)
        self.assertEqual(meskelow.intersect([(True, True), (-3, True), (True, -3)], V), expected)
        for value in (1j, 1 + 0j, Cut(1), "1", b"1", None, (1,), [1], object()):
            with self.subTest(value=value), self.assertRaises(TypeError):
                meskelow.intersect([(value, 1), (-3, 1), (1, -3)], V)

    def test_large_numbers(self):
        """What is beyond every f64 is an error of Python's; what an f64 has, or cannot tell from infinity, goes by the rules."""
        for value in (10**400, -(10**400), fractions.Fraction(10**400)):
            with self.assertRaises(OverflowError):
                meskelow.intersect([(value, 1), (-3, 1), (1, -3)], V)
        for value in (float("inf"), float("-inf"), 1e400, decimal.Decimal("1e400"), Scalar("nan")):
            with self.subTest(value=value), self.refused(2, 0):
                meskelow.intersect([(value, 1), (-3, 1), (1, -3)], V)
        with self.refused(4, 0):
            meskelow.intersect([(10**300, 1), (-3, 1), (1, -(10**300))], V)
        whole = 2**53 + 1  # rounded to 2^53, as float() has it
        self.assertEqual(meskelow.intersect([(whole, 0), (0, 9), (0, 0)], V), meskelow.intersect([(2.0**53, 0), (0, 9), (0, 0)], V))


def bits(*values):
    """The bits of f64 values, by which 0.0 is not -0.0."""
    return struct.pack(f"<{len(values)}d", *values)


def cross(p, q):
    return p[0] * q[1] - p[1] * q[0]


def less(p, q):
    return p[0] - q[0], p[1] - q[1]


def area_of(triangle):
    """Exact, for whole numbers that are not large; with a sign."""
    return cross(less(triangle[1], triangle[0]), less(triangle[2], triangle[0])) / 2


def parameters(vertex, v):
    """x, y and w of a vertex of U, by the rules."""
    a, b, r = less(v[1], v[0]), less(v[2], v[0]), less(vertex, v[0])
    d, x, y = cross(a, b), cross(r, b), cross(a, r)
    if d < 0:
        d, x, y = -d, -x, -y
    return x, y, (d - x) - y


class Corners(Case):
    def has(self, u, v, *expected):
        """Bit for bit; and place by place, with 6 behind the last."""
        got = meskelow.corners(u, v)
        self.assertIs(type(got), list)
        for one, other in zip(got, expected):
            self.same(one, other)
        self.assertEqual(len(got), len(expected))
        for place, corner in enumerate(got):
            self.same(meskelow.corner_at(u, v, place), corner)
        for place in (len(got), len(got) + 1, 2**8, 2**31, 2**32, 2**32 + 1, 2**63, 2**64 - 1):
            with self.subTest(place=place), self.refused(6, 0):
                meskelow.corner_at(u, v, place)
        self.assertEqual([bits(c.x, c.y) for c in got], [bits(*position) for position in meskelow.intersect(u, v).ring])

    def same(self, got, expected):
        self.assertEqual((type(got), got), (type(expected), expected))
        for name, value in vars(expected).items():
            if name in ("t", "x", "y"):
                self.assertIs(type(getattr(got, name)), float)
                self.assertEqual(bits(getattr(got, name)), bits(value), name)

    def never(self, number, u, v):
        """Refused at any place, and as a whole unless it is for the place."""
        for place in (0, 1, 5, 6, 2**32, 2**64 - 1):
            with self.subTest(place=place), self.refused(number, 0):
                meskelow.corner_at(u, v, place)
        if number != 6:
            with self.refused(number, 0):
                meskelow.corners(u, v)

    def test_a(self):
        self.has(A, V, VertexOfU(0, 1, 1), VertexOfU(1, 2, 1), VertexOfU(2, 1, 2))

    def test_b(self):
        self.has(B, A, CornerOfV(0, 1, 1), CornerOfV(1, 2, 1), CornerOfV(2, 1, 2))

    def test_c(self):
        """x, y and w are 48, 48, -32 at U0, -16, 48, 32 at U1 and 48, -16, 32 at U2."""
        self.has(
            C,
            [(0, 0), (8, 0), (0, 8)],
            Crossing(0, 2, 0.5, 2, 6),
            Crossing(0, 0, 0.75, 0, 6),
            Crossing(1, 0, 0.75, 0, 4),
            Crossing(1, 1, 0.75, 4, 0),
            Crossing(2, 1, 0.75, 6, 0),
            Crossing(2, 2, 0.5, 6, 2),
        )

    def test_d(self):
        """x and y are 4 at U0; x is -12 at U1, and y at U2."""
        self.has(D, V, VertexOfU(0, 1, 1), Crossing(0, 0, 0.25, 0, 1), CornerOfV(0, 0, 0), Crossing(2, 1, 0.25, 1, 0))

    def test_e(self):
        self.has(E, V)
        self.never(6, E, V)

    def test_f(self):
        """Two corners at (4,0) and two at (0,0): what a corner is does not go by where it stands."""
        self.has(F, V, VertexOfU(0, 0, 0), VertexOfU(1, 4, 0), Crossing(1, 1, 0, 4, 0), Crossing(2, 1, 0, 0, 0))

    def test_g(self):
        """x is -12 at U0 and 20 at U1, y the other way round."""
        self.has(G, V, Crossing(0, 0, 0.625, 0, 2), Crossing(0, 1, 0.625, 2, 0), CornerOfV(1, 4, 0), CornerOfV(2, 0, 4))

    def test_h(self):
        self.has(A, TURNED_OVER, VertexOfU(0, 1, 1), VertexOfU(1, 2, 1), VertexOfU(2, 1, 2))

    def test_v_turned_over(self):
        """Lines 0 and 1 change places. With F a parameter of 0.0 is negated, as d is below zero, and t is -0.0."""
        self.has(D, TURNED_OVER, VertexOfU(0, 1, 1), Crossing(0, 1, 0.25, 0, 1), CornerOfV(0, 0, 0), Crossing(2, 0, 0.25, 1, 0))
        self.has(F, TURNED_OVER, VertexOfU(0, 0, 0), VertexOfU(1, 4, 0), Crossing(1, 0, -0.0, 4, 0), Crossing(2, 0, -0.0, 0, 0))

    def test_t_is_measured_from_the_end_with_plus(self):
        """x is 4 at that end and -8 at the other, whichever of the two the edge starts from."""
        third = 1 / 3
        leaving = [(1, 1), (-2, 1), (1, 2)]
        self.has(leaving, V, VertexOfU(0, 1, 1), Crossing(0, 0, third, 0, 1), Crossing(1, 0, third, 0, 2 - third), VertexOfU(2, 1, 2))
        entering = [(-2, 1), (1, 1), (1, 2)]
        self.has(entering, V, Crossing(0, 0, third, 0, 1), VertexOfU(1, 1, 1), VertexOfU(2, 1, 2), Crossing(2, 0, third, 0, 2 - third))

    def test_t_is_one(self):
        """x is 4 at U0 and U2 and -2^-58 at U1, and their difference is rounded to 4."""
        u = [(1, 1), (-(2.0**-60), 1), (1, 2)]
        self.has(u, V, VertexOfU(0, 1, 1), Crossing(0, 0, 1, 0, 1), Crossing(1, 0, 1, 0, 1), VertexOfU(2, 1, 2))

    def test_corners_that_coincide(self):
        """Vertices of U on corners of V are vertices; and where an edge passes through V0 there are two crossings."""
        for v in (V, TURNED_OVER):
            self.has(V, v, VertexOfU(0, 0, 0), VertexOfU(1, 4, 0), VertexOfU(2, 0, 4))
        through = meskelow.corners([(-1, 1), (1, -1), (9, 9)], V)
        self.assertEqual(through[:2], [Crossing(0, 0, 0.5, 0, 0), Crossing(0, 1, 0.5, 0, 0)])
        self.assertNotEqual(VertexOfU(0, 0, 0), CornerOfV(0, 0, 0))
        self.assertNotEqual(CornerOfV(0, 0, 0), VertexOfU(0, 0, 0))

    def test_zeros_that_are_copied(self):
        self.has([(-0.0, 0), (1, -0.0), (0, 1)], V, VertexOfU(0, -0.0, 0), VertexOfU(1, 1, -0.0), VertexOfU(2, 0, 1))
        v = [(-0.0, -0.0), (1, -0.0), (-0.0, 1)]
        self.has([(-8, -8), (16, -8), (-8, 16)], v, CornerOfV(0, -0.0, -0.0), CornerOfV(1, 1, -0.0), CornerOfV(2, -0.0, 1))

    def test_far_boxes_are_no_matter(self):
        self.assertEqual(meskelow.decide(*BEYOND), (Kind.APART, 0))
        ring = meskelow.intersect(*BEYOND).ring
        self.assertEqual([(c.x, c.y) for c in meskelow.corners(*BEYOND)], list(ring))
        self.assertNotEqual(ring, ())

    def test_refused_cases(self):
        self.never(3, A, FLAT)
        self.never(5, FLAT, V)
        self.never(4, A, [(0, 0), (1e300, 0), (0, 1e300)])
        for v in (V, FLAT):
            for place in range(12):
                values = [float(c) for vertex in A + v for c in vertex]
                values[place] = math.nan
                vertices = list(zip(values[::2], values[1::2]))
                self.never(2, vertices[:3], vertices[3:])

    def test_another_corner_overflows(self):
        """U0 lies in V, and edge 1 passes through V from -end to end: with 2^1023 Q - P is not finite there, and no corner is told."""
        h = 2.0**-520
        for end, number in [(2.0**1022, None), (2.0**1023, 4)]:
            u, v = [(1, h / 2), (-end, h), (end, h)], [(0, 0), (4, 0), (0, 4 * h)]
            if number is None:
                self.same(meskelow.corner_at(u, v, 0), VertexOfU(0, 1, h / 2))
            else:
                self.never(number, u, v)

    def test_lengths(self):
        """The library judges any number of values, NULL too, and has zeros beside every refusal."""
        ask = meskelow._library().meskelow_corner_at
        for length in (*range(12), *range(13, 27)):
            for value in (1.0, math.nan):
                values = (ctypes.c_double * length)(*[value] * length)
                for place in (0, 2**64 - 1):
                    self.zeros(1, ask(values, length, place))
        self.zeros(1, ask(None, 0, 0))
        values = (ctypes.c_double * 12)(*(c for vertex in D + V for c in vertex))
        self.zeros(6, ask(values, 12, 4))
        self.zeros(6, ask(values, 12, 2**32))
        values[3] = math.inf
        self.zeros(2, ask(values, 12, 0))

    def zeros(self, number, got):
        self.assertEqual((got.number, got.kind, got.which, got.edge, got.line), (number, 0, 0, 0, 0))
        self.assertEqual(bits(got.t, got.x, got.y), bytes(24))

    def test_layout(self):
        corner = meskelow._Corner
        self.assertEqual((ctypes.sizeof(corner), corner.line.offset, corner.t.offset, corner.x.offset, corner.y.offset), (48, 16, 24, 32, 40))

    def test_shapes(self):
        four = V + [(1, 1)]
        for u, v in [(V[:2], four), (four, V[:2]), (V[:2], V), (V, []), (V, [(0, 0), (4, 0, 0), (4,)])]:
            self.never(1, u, v)
        for u in [("aa", "bb", "cc"), [(None, 0), (1, 0), (0, 1)], [(1j, 0), (1, 0), (0, 1)], [0, 0, 1], 1, None]:
            with self.assertRaises(TypeError):
                meskelow.corners(u, V)
            with self.assertRaises(TypeError):
                meskelow.corner_at(u, V, 0)
        with self.assertRaises(OverflowError):
            meskelow.corners([(10**400, 1), (-3, 1), (1, -3)], V)

    def test_places(self):
        """Those that no ring has are 6; what no size_t holds is an error of Python's, whatever the triangles are."""
        for place in (1, True, Whole(1)):
            self.same(meskelow.corner_at(D, V, place), Crossing(0, 0, 0.25, 0, 1))
        for place in (1.0, math.nan, "1", None, 1j, Scalar(1), fractions.Fraction(1), [1]):
            for u, v in [(D, V), (A, FLAT)]:
                with self.subTest(place=place), self.assertRaises(TypeError):
                    meskelow.corner_at(u, v, place)
        for place in (-1, -4, -(2**32), -(2**64), -(2**64) + 1, Whole(-1), 2**64, 2**64 + 1, 2**65, 10**5000):
            for u, v in [(D, V), (E, V), (A, FLAT), (V, [])]:
                with self.assertRaises(OverflowError) as caught:
                    meskelow.corner_at(u, v, place)
                self.assertIn("from 0 to 18,446,744,073,709,551,615", str(caught.exception))

    def test_kinds_of_triangles_and_numbers(self):
        expected = meskelow.corners(D, V)
        for u, v in [(tuple(D), tuple(V)), ([list(c) for c in D], [array.array("d", c) for c in V]), (Array(D), Array(V))]:
            self.assertEqual(meskelow.corners(u, v), expected)
        for kind in (float, Scalar, Whole, fractions.Fraction, decimal.Decimal):
            u, v = ([(kind(x), kind(y)) for x, y in triangle] for triangle in (D, V))
            self.assertEqual(meskelow.corners(u, v), expected)
            self.assertEqual(meskelow.corner_at(u, v, 3), expected[3])

    def test_corners_stay_as_they_are(self):
        for corner in meskelow.corners(D, V):
            self.assertEqual((pickle.loads(pickle.dumps(corner)), hash(corner)), (corner, hash(corner)))
            with self.assertRaises(AttributeError):
                corner.x = 1.0
        self.assertEqual(repr(meskelow.corner_at(D, V, 1)), "Crossing(edge=0, line=0, t=0.25, x=0.0, y=1.0)")

    def test_how_p_is_told(self):
        """Of a crossing's ends one is plus on its line, by the rules' parameter, and t leads from there to its very position."""
        source = random.Random(4)
        grids = [lambda: source.randint(-4, 4), lambda: source.randint(-1000000, 1000000), lambda: source.uniform(-1, 1)]
        found = {kind: 0 for kind in (VertexOfU, CornerOfV, Crossing)}
        for _ in range(1000):
            draw = source.choice(grids)
            u, v = ([(float(draw()), float(draw())) for _ in range(3)] for _ in range(2))
            try:
                got = meskelow.corners(u, v)
            except meskelow.Refused as refused:
                self.assertIn(refused.number, (3, 5))
                continue
            self.assertEqual([bits(c.x, c.y) for c in got], [bits(*position) for position in meskelow.intersect(u, v).ring])
            for corner in got:
                found[type(corner)] += 1
                position = {VertexOfU: u, CornerOfV: v}.get(type(corner))
                if position is None:
                    ends = [u[corner.edge], u[(corner.edge + 1) % 3]]
                    (p, a), (q, b) = sorted(((end, parameters(end, v)[corner.line]) for end in ends), key=lambda end: end[1] < 0)
                    self.assertTrue(b < 0 <= a and 0 <= corner.t <= 1)
                    self.assertEqual(bits(corner.t), bits(a / (a - b)))
                    self.assertEqual(bits(corner.x, corner.y), bits(*(p[k] + corner.t * (q[k] - p[k]) for k in range(2))))
                else:
                    self.assertEqual(bits(corner.x, corner.y), bits(*position[corner.which]))
        self.assertGreater(min(found.values()), 100)


class Decisions(Case):
    def decides(self, u, v, kind, area):
        got = meskelow.decide(u, v)
        self.assertEqual(got, (kind, area))
        self.assertEqual(math.copysign(1, got.area), 1)  # no area is -0.0
        self.assertEqual(got.area, meskelow.intersect(u, v).area)
        self.assertEqual(got.kind is Kind.APART, meskelow.intersect(u, v).ring == ())

    def test_worked_cases(self):
        for case, u, v, kind, area in [
            ("A", A, V, Kind.OVERLAPPING, 0.5),
            ("B", B, A, Kind.OVERLAPPING, 0.5),
            ("C", C, [(0, 0), (8, 0), (0, 8)], Kind.OVERLAPPING, 20),
            ("D", D, V, Kind.OVERLAPPING, 1),
            ("E", E, V, Kind.APART, 0),
            ("F", F, V, Kind.TOUCHING, 0),
            ("G", G, V, Kind.OVERLAPPING, 6),
            ("H", A, TURNED_OVER, Kind.OVERLAPPING, 0.5),
        ]:
            with self.subTest(case=case):
                self.decides(u, v, kind, area)

    def test_refused_cases(self):
        for case, u, v, number in [("I", A, FLAT, 3), ("J", FLAT, V, 5), ("L", A, [(0, 0), (1e300, 0), (0, 1e300)], 4)]:
            with self.subTest(case=case), self.refused(number, 0):
                meskelow.decide(u, v)
        for v in (V, FLAT):
            for place in range(12):
                values = [float(c) for vertex in A + v for c in vertex]
                values[place] = float("nan")
                vertices = list(zip(values[::2], values[1::2]))
                with self.subTest(case="K", place=place), self.refused(2, 0):
                    meskelow.decide(vertices[:3], vertices[3:])

    def test_an_area_that_is_halved_to_zero(self):
        """The area's sum is 2^-1074, the smallest f64 above zero, and half of it is rounded to 0.0."""
        tiny = [(0, 0), (2.0**-537, 0), (0, 2.0**-537)]
        self.decides(tiny, tiny, Kind.TOUCHING, 0)
        larger = [(0, 0), (2.0**-536, 0), (0, 2.0**-537)]
        self.decides(larger, larger, Kind.OVERLAPPING, 2.0**-1074)

    def test_by_the_computed_ring_and_area(self):
        """They share a part of an edge, and rounding gives it an area; and a corner on an edge, a tie that gives no ring."""
        part_of_an_edge = [(458, -958), (-13747, -4524), (-1189, -975)], [(-6479, -2470), (-805, -156), (-12827, -4264)]
        self.decides(*part_of_an_edge, Kind.OVERLAPPING, 2.0**-30)
        corner_on_an_edge = [(0, -1), (-1, 0), (0, 3)], [(4, 1), (2, -1), (0, 1)]
        self.decides(*corner_on_an_edge, Kind.APART, 0)
        self.decides(*reversed(corner_on_an_edge), Kind.TOUCHING, 0)

    def test_boxes(self):
        """Boxes that share no point leave a pair apart, whatever the triangle rules say; an edge or a corner is a point."""
        for u, v in [BEYOND, ([(4, 591250), (1, -164391), (500204, -582337)], [(0, 0), (-933757, -541494), (-973496, -564539)])]:
            self.assertNotEqual(meskelow.intersect(u, v).ring, ())
            self.assertEqual(meskelow.decide(u, v), (Kind.APART, 0))
        huge = [(0, 0), (1e300, 0), (0, 1e300)]
        for across, up, number in [(5, 0, None), (-3, 0, None), (0, 5, None), (0, -3, None), (4, 0, 5), (-2, 0, 5), (0, 4, 5), (0, -2, 5), (4, 4, 5)]:
            flat = [(across + i, up + i) for i in range(3)]
            with self.subTest(flat=flat):
                if number is None:
                    self.assertEqual(meskelow.decide(flat, V), (Kind.APART, 0))
                else:
                    with self.refused(number, 0):
                        meskelow.decide(flat, V)
        self.assertEqual(meskelow.decide([(-2, -3), (-1, -3), (-2, -1)], huge), (Kind.APART, 0))
        self.assertEqual(meskelow.decide(huge, [(-2, -3), (-1, -3), (-2, -1)]), (Kind.APART, 0))
        for value in (math.nan, math.inf, -math.inf):
            with self.subTest(value=value), self.refused(2, 0):
                meskelow.decide([(10, 10), (14, 10), (10, value)], V)

    def test_shapes(self):
        four = V + [(1, 1)]
        for u, v in [(V[:2], four), (four, V[:2]), (V[:2], V), (V, []), (V, [(0, 0), (4, 0, 0), (4,)])]:
            with self.refused(1, 0):
                meskelow.decide(u, v)
        for u in [("aa", "bb", "cc"), [(None, 0), (1, 0), (0, 1)], [(1j, 0), (1, 0), (0, 1)], [0, 0, 1], 1, None]:
            with self.assertRaises(TypeError):
                meskelow.decide(u, V)
        with self.assertRaises(OverflowError):
            meskelow.decide([(10**400, 1), (-3, 1), (1, -3)], V)

    def test_kinds_of_triangles_and_numbers(self):
        for u, v in [(tuple(D), tuple(V)), ([list(c) for c in D], [array.array("d", c) for c in V]), (Array(D), Array(V))]:
            self.assertEqual(meskelow.decide(u, v), (Kind.OVERLAPPING, 1))
        for kind in (float, Scalar, Whole, fractions.Fraction, decimal.Decimal):
            u, v = ([(kind(x), kind(y)) for x, y in triangle] for triangle in (F, V))
            self.assertEqual(meskelow.decide(u, v), (Kind.TOUCHING, 0))

    def test_kinds_have_the_header_s_numbers(self):
        self.assertEqual([kind.value for kind in (Kind.APART, Kind.TOUCHING, Kind.OVERLAPPING)], [0, 1, 2])
        got = meskelow.decide(F, V)
        self.assertIs(pickle.loads(pickle.dumps(got)).kind, Kind.TOUCHING)
        self.assertIs(type(got.area), float)


class Files(Case):
    def test_check_has_no_answer(self):
        self.assertIsNone(meskelow.check(LEAK))
        self.assertIsNone(meskelow.check(EMPTY))

    def test_refusals(self):
        asked = (meskelow.check, meskelow.leaks, lambda f: meskelow.recording(f, 5), lambda f: list(meskelow.recordings(f)))
        for file, number, place in REFUSED_FILES:
            for ask in asked:
                with self.subTest(number=number), self.refused(number, place):
                    ask(file)

    def test_recording(self):
        first = (7, meskelow.TRAINING, 0, 0, (((0, 0), (4, 0), (0, 4)),))
        second = (9, meskelow.TEST, 24, 0, (((1, 1), (-3, 1), (1, -3)),))
        self.assertEqual(meskelow.recording(LEAK, 0), first)
        self.assertEqual(meskelow.recording(LEAK, 1), second)
        self.assertEqual(list(meskelow.recordings(LEAK)), [first, second])
        self.assertEqual(next(meskelow.recordings(LEAK)), first)
        self.assertEqual(list(meskelow.recordings(EMPTY)), [])

    def test_editions_of_recordings(self):
        self.assertEqual((meskelow.EDITION_1, meskelow.EDITION_2), (0, 1))
        self.assertEqual([r.last for r in meskelow.recordings(LEAK)], [meskelow.EDITION_1] * 2)
        found = list(meskelow.recordings(changed(71, 1)))
        self.assertEqual([r.last for r in found], [meskelow.EDITION_1, meskelow.EDITION_2])
        self.assertEqual([r._replace(last=0) for r in found], list(meskelow.recordings(LEAK)))

    def test_recordings_are_refused_at_the_call(self):
        with self.refused(12, 0):
            meskelow.recordings(LEAK[:60])
        with self.assertRaises(TypeError):
            meskelow.recordings("leak.footprint")

    def test_recordings_keep_the_bytes(self):
        file = bytearray(LEAK)
        found = meskelow.recordings(file)
        file[:] = bytes(84)
        self.assertEqual(list(found), list(meskelow.recordings(LEAK)))

    def test_recordings_of_the_night(self):
        night = (EXAMPLES / "night.footprint").read_bytes()
        self.assertEqual([r.id for r in meskelow.recordings(night)], list(range(240917001, 240917058)))
        self.assertEqual(list(meskelow.recordings(night)), [meskelow.recording(night, k) for k in range(57)])

    def test_kinds_of_indexes(self):
        for k in (1, True, Whole(1)):
            self.assertEqual(meskelow.recording(LEAK, k).id, 9)
        with self.refused(10, 0):
            meskelow.recording(LEAK, Whole(-1))
        for k in (1.0, float("nan"), "1", None, 1j, Scalar(1), fractions.Fraction(1), [1]):
            for file in (LEAK, b""):
                with self.subTest(k=k), self.assertRaises(TypeError):
                    meskelow.recording(file, k)

    def test_recording_of_two_triangles(self):
        file = LEAK[:48] + bytes.fromhex("07000000 00000000 0200 00 00" "30000000 01000000 48000000")
        both = (((0, 0), (4, 0), (0, 4)), ((1, 1), (-3, 1), (1, -3)))
        self.assertEqual(meskelow.recording(file, 0), (7, meskelow.TRAINING, 0, 0, both))

    def test_no_such_recording(self):
        for k in (2, 2**32, 2**64 - 1, 2**64, 2**64 + 1, -1, -(2**64)):
            with self.subTest(k=k), self.refused(10, 0):
                meskelow.recording(LEAK, k)
        with self.refused(10, 0):
            meskelow.recording(EMPTY, 0)

    def test_leaks(self):
        got = meskelow.leaks(LEAK)
        self.assertEqual(got, (((9, 7, 1),), LIST, 0, 1, 0))
        self.assertEqual((got.leaks[0].test, got.leaks[0].train, got.leaks[0].pairs), (9, 7, 1))
        self.assertEqual((got.text, got.touching, got.tested, got.formerly_held_back), (LIST, 0, 1, 0))

    def test_touching(self):
        """Each two recordings count once, however many of their triangles touch, and not if any overlap."""
        train, test = meskelow.TRAINING, meskelow.TEST
        for recordings, expected in [
            ([(7, train, [V]), (9, test, [F])], ((), neither(1), 1, 1, 0)),
            ([(7, train, [V, V]), (9, test, [F, F])], ((), neither(1), 1, 4, 0)),
            ([(7, train, [V]), (9, test, [F, D])], (((9, 7, 1),), LIST, 0, 2, 0)),
            ([(7, train, [V]), (9, test, [D, F, F])], (((9, 7, 1),), LIST, 0, 3, 0)),
            ([(7, train, [V]), (9, test, [F]), (3, train, [V])], ((), neither(2), 2, 2, 0)),
            ([(7, train, [V]), (9, test, [F]), (3, test, [D])], (((3, 7, 1),), f"leaks 1\ntest 3 train 7 pairs 1\n{closing(1)}", 1, 2, 0)),
            ([(7, train, [V]), (9, train, [F])], ((), NO_LEAKS, 0, 0, 0)),
        ]:
            with self.subTest(recordings=recordings):
                self.assertEqual(meskelow.leaks(footprint(*recordings)), expected)

    def test_formerly_held_back(self):
        """Set 2 is training, in the table's order; how many have it is counted, whether they meet a test recording or not."""
        train, test, old = meskelow.TRAINING, meskelow.TEST, meskelow.FORMERLY_HELD_BACK
        for recordings, expected in [
            ([(7, old, [V]), (9, test, [D])], (((9, 7, 1),), f"leaks 1\ntest 9 train 7 pairs 1\n{closing(0, 1)}", 0, 1, 1)),
            ([(7, old, [V]), (9, test, [F])], ((), neither(1, 1), 1, 1, 1)),
            ([(7, train, [V]), (9, old, [F])], ((), neither(0, 1), 0, 0, 1)),
            ([(7, old, [V]), (9, old, [D])], ((), neither(0, 2), 0, 0, 2)),
            ([(7, old, [V]), (9, test, [E])], ((), neither(0, 1), 0, 0, 1)),
            (
                [(9, test, [D]), (7, train, [V]), (5, old, [V, V]), (3, train, [V])],
                (
                    ((9, 7, 1), (9, 5, 2), (9, 3, 1)),
                    f"leaks 3\ntest 9 train 7 pairs 1\ntest 9 train 5 pairs 2\ntest 9 train 3 pairs 1\n{closing(0, 1)}",
                    0,
                    4,
                    1,
                ),
            ),
        ]:
            with self.subTest(recordings=recordings):
                file = footprint(*recordings)
                got = meskelow.leaks(file)
                self.assertEqual(got, expected)
                self.assertEqual([r.set for r in meskelow.recordings(file)], [which for _, which, _ in recordings])
                now = footprint(*((identity, train if which == old else which, own) for identity, which, own in recordings))
                text = got.text.replace(closing(got.touching, got.formerly_held_back), closing(got.touching))
                self.assertEqual(meskelow.leaks(now), got._replace(text=text, formerly_held_back=0))

    def test_old_file(self):
        """How an old file is moved over, as README has it."""
        old = (EXAMPLES / "old.footprint").read_bytes()
        self.assertEqual(old, changed(58, 2))
        with self.refused(14, 0):
            meskelow.write(meskelow.recordings(old))
        moved = meskelow.write(
            r._replace(set=meskelow.TRAINING) if r.set == meskelow.FORMERLY_HELD_BACK else r for r in meskelow.recordings(old)
        )
        self.assertEqual(moved, LEAK)
        self.assertEqual(meskelow.leaks(old), (((9, 7, 1),), LIST.replace("back 0", "back 1"), 0, 1, 1))

    def by_either(self, recordings, first, second):
        """The leaks by both editions, of a file with one test recording, which is 9: as they are expected, and all else the same."""
        with self.subTest(recordings=recordings):
            lists = []
            for last, leaks in [(meskelow.EDITION_1, first), (meskelow.EDITION_2, second)]:
                got = meskelow.leaks(footprint(*((*r, last) if r[1] == meskelow.TEST else r for r in recordings)))
                lines = "".join(f"test 9 train {train} pairs {pairs}\n" for train, pairs in leaks)
                self.assertEqual(got.leaks, tuple((9, train, pairs) for train, pairs in leaks))
                self.assertEqual(got.text, f"leaks {len(leaks)}\n{lines}{closing(got.touching, got.formerly_held_back)}")
                lists.append(got)
            self.assertEqual(lists[0][2:], lists[1][2:])
            return lists[1]

    def test_the_order_of_a_sum(self):
        """README's example: by edition 2 it is a leak unless 0.1 comes last. One hundredth of 60 is 0.6, which three tenths, two and
        one add up to exactly; 0.1 and 0.2 make 0.30000000000000004, and 0.1, 0.3 and 0.2 the next number above 0.6."""
        self.assertEqual([meskelow.decide(SIXTY, cut) for cut in CUTS], [(Kind.OVERLAPPING, area) for area in (0.1, 0.2, 0.3)])
        self.assertEqual((100 * (0.1 + 0.2 + 0.3), 100 * (0.3 + 0.2 + 0.1)), (60.00000000000001, 60))
        for order in itertools.permutations(range(3)):
            recordings = [(7, meskelow.TRAINING, [CUTS[i] for i in order]), (9, meskelow.TEST, [SIXTY])]
            got = self.by_either(recordings, [(7, 3)], [] if order[2] == 0 else [(7, 3)])
            self.assertEqual((got.touching, got.tested), (0, 3))

    def test_slivers(self):
        """V shares 1 with D, which has 8: what is far off makes up the rest of the own area. More than a hundredth is a leak."""
        train, test, old = meskelow.TRAINING, meskelow.TEST, meskelow.FORMERLY_HELD_BACK
        own = [D, far_off(184)]  # 8 + 92
        for triangles, leaks in [
            (own, []),  # one per cent
            ([D, far_off(183)], [(7, 1)]),
            ([D, far_off(185)], []),
            (own[::-1], []),
            ([D[::-1], far_off(184)[::-1]], []),  # either way round
            ([D, far_off(183)[::-1]], [(7, 1)]),
            ([D], [(7, 1)]),
        ]:
            self.by_either([(7, train, [V]), (9, test, triangles)], [(7, 1)], leaks)
        for recordings, first, second in [
            ([(7, train, [CUTS[0]]), (9, test, [[(0, 0), (4, 0), (0, 5)]])], [(7, 1)], []),  # 0.1 of 10
            ([(7, train, [V, V]), (9, test, own)], [(7, 2)], [(7, 2)]),
            ([(7, train, [V]), (9, test, own), (5, train, [V])], [(7, 1), (5, 1)], []),  # each by itself
            ([(7, train, [V]), (9, test, own), (5, train, [V, V]), (3, old, [V])], [(7, 1), (5, 2), (3, 1)], [(5, 2)]),
            ([(7, old, [V]), (9, test, [D])], [(7, 1)], [(7, 1)]),
            ([(7, train, [V]), (9, test, [E])], [], []),
            ([(7, train, [BEYOND[1]]), (9, test, [BEYOND[0]])], [], []),
        ]:
            self.by_either(recordings, first, second)

    def test_a_sliver_is_not_touching(self):
        """Nor are its recordings, if other triangles of theirs touch; and what only touches does so by either edition."""
        train, test = meskelow.TRAINING, meskelow.TEST
        own = [D, far_off(184)]
        for recordings, first, second, touching, tested in [
            ([(7, train, [V]), (9, test, own)], [(7, 1)], [], 0, 1),
            ([(7, train, [V]), (9, test, [F, *own, F])], [(7, 1)], [], 0, 3),
            ([(7, train, [V]), (9, test, [F])], [], [], 1, 1),
            ([(7, train, [V]), (9, test, [F, F]), (5, train, [V])], [], [], 2, 4),
        ]:
            got = self.by_either(recordings, first, second)
            self.assertEqual((got.touching, got.tested), (touching, tested))

    def test_both_editions_in_one_file(self):
        train, test, own = meskelow.TRAINING, meskelow.TEST, [D, far_off(184)]
        second = meskelow.EDITION_2
        recordings = [(1, test, own, second), (7, train, [V]), (2, test, own), (3, test, [D], second), (4, test, [F], second)]
        expected = f"leaks 2\ntest 2 train 7 pairs 1\ntest 3 train 7 pairs 1\n{closing(1)}"
        self.assertEqual(meskelow.leaks(footprint(*recordings)), (((2, 7, 1), (3, 7, 1)), expected, 1, 4, 0))

    def test_sums_at_the_border(self):
        """Of a test triangle tenths are cut off that add up to a hundredth of it, but for what rounding makes of their sum."""
        source = random.Random(8)
        found = {(as_stored, ascending): 0 for as_stored in (True, False) for ascending in (True, False)}
        for _ in range(400):
            widths = [source.randint(1, 9) for _ in range(source.randint(2, 12))]
            test = [[(0, 0), (8, 0), (0, (sum(widths) + 1) // 2 * 5)]]
            if sum(widths) % 2 == 1:
                widths.append(1)
            if source.randint(0, 1) == 1:  # twice the triangle, in two parts, and so twice the sum
                test.append([*test[0][1:], test[0][0]])
            train = [[(-w, 6), (w, -4), (-w, -4)] for w in widths]
            areas = [meskelow.decide(u, v).area for u in test for v in train]
            own = sum(abs(area_of(u)) for u in test)
            as_stored, ascending = (100 * functools.reduce(operator.add, row, 0.0) > own for row in (areas, sorted(areas)))
            pairs = len(areas)
            self.by_either([(7, 0, train), (9, 1, test)], [(7, pairs)], [(7, pairs)] if as_stored else [])
            found[as_stored, ascending] += 1
        self.assertGreater(min(found.values()), 10)

    def test_tested(self):
        """Pairs whose boxes share a point, of test and training recordings: each, also once a pair leaks, and no other."""
        train, test, old = meskelow.TRAINING, meskelow.TEST, meskelow.FORMERLY_HELD_BACK
        corner, aside = [(4, 4), (8, 4), (8, 8)], [(5, 0), (9, 0), (9, 4)]
        for recordings, expected in [
            ([(7, train, [V]), (9, test, [corner])], ((), NO_LEAKS, 0, 1, 0)),
            ([(7, train, [V]), (9, test, [aside])], ((), NO_LEAKS, 0, 0, 0)),
            ([(7, train, [V, V, V]), (9, test, [aside, corner, D, D])], (((9, 7, 6),), f"leaks 1\ntest 9 train 7 pairs 6\n{closing(0)}", 0, 9, 0)),
            ([(7, train, [V]), (9, test, [corner]), (5, old, [V, F])], ((), neither(0, 1), 0, 2, 1)),
            ([(7, train, [BEYOND[1]]), (9, test, [BEYOND[0]])], ((), NO_LEAKS, 0, 0, 0)),
        ]:
            with self.subTest(recordings=recordings):
                self.assertEqual(meskelow.leaks(footprint(*recordings)), expected)

    def test_neighbours(self):
        """Two strips one behind the other, of which one is a test recording."""
        got = meskelow.leaks((EXAMPLES / "neighbours.footprint").read_bytes())
        self.assertEqual(got, ((), neither(1), 1, 3, 0))

    def test_examples_of_both_editions(self):
        """A sliver of edition 2, the same of edition 1, and a leak of edition 2; and README's example, in one order and the other."""
        leaks = (240925005, 240925004, 3), (240925007, 240925006, 3)
        text = f"leaks 2\ntest 240925005 train 240925004 pairs 3\ntest 240925007 train 240925006 pairs 3\n{closing(1)}"
        editions = (EXAMPLES / "editions.footprint").read_bytes()
        self.assertEqual(meskelow.leaks(editions), (leaks, text, 1, 16, 0))
        self.assertEqual([r.last for r in meskelow.recordings(editions)], [0, 1, 0, 0, 0, 0, 1])
        sums = footprint((7, 0, CUTS), (8, 0, CUTS[::-1]), (9, 1, [SIXTY], meskelow.EDITION_2))
        self.assertEqual((EXAMPLES / "sums.footprint").read_bytes(), sums)
        self.assertEqual(meskelow.leaks(sums), (((9, 7, 3),), f"leaks 1\ntest 9 train 7 pairs 3\n{closing(0)}", 0, 6, 0))

    def test_night(self):
        """Its list comes from the second program."""
        got = meskelow.leaks((EXAMPLES / "night.footprint").read_bytes())
        self.assertEqual((got.text, got.tested), ((EXAMPLES / "night.expected").read_text(), 155))
        first, *lines, touching, last = got.text.splitlines()
        self.assertEqual((first, touching, last), (f"leaks {len(got.leaks)}", f"touching {got.touching}", "formerly held back 0"))
        self.assertEqual([f"test {leak.test} train {leak.train} pairs {leak.pairs}" for leak in got.leaks], lines)

    def test_no_leaks(self):
        self.assertEqual(meskelow.leaks(EMPTY), ((), NO_LEAKS, 0, 0, 0))
        self.assertEqual(meskelow.leaks(changed(70, 2)), ((), neither(0, 1), 0, 0, 1))  # 9 was held back once, and is training
        self.assertEqual(meskelow.leaks(changed(58, 1)), ((), NO_LEAKS, 0, 0, 0))  # both are test recordings

    def test_kinds_of_bytes(self):
        """By the bytes that they hold, whatever these are called, in their order."""
        twice = bytes(b for c in LEAK for b in (c, 1))
        numbers = memoryview(LEAK)
        for file in (
            bytearray(LEAK),
            memoryview(LEAK),
            memoryview(bytearray(LEAK)),
            memoryview(twice)[::2],
            memoryview(LEAK[::-1])[::-1],
            array.array("B", LEAK),
            array.array("i", LEAK),
            numbers.cast("I"),
            numbers.cast("c"),
            numbers.cast("B", (7, 12)),
        ):
            self.assertIsNone(meskelow.check(file))
            self.assertEqual(meskelow.recording(file, 1).id, 9)
            self.assertEqual(len(list(meskelow.recordings(file))), 2)
            self.assertEqual(meskelow.leaks(file).text, LIST)
        for file in ("leak.footprint", EXAMPLES / "leak.footprint", 84, list(LEAK), None):
            for ask in (meskelow.check, meskelow.leaks, meskelow.recordings):
                with self.assertRaises(TypeError):
                    ask(file)

    def test_threads(self):
        texts = []
        threads = [threading.Thread(target=lambda: texts.append(meskelow.leaks(LEAK).text)) for _ in range(8)]
        for thread in threads:
            thread.start()
        for thread in threads:
            thread.join()
        self.assertEqual(texts, [LIST] * 8)

    def test_a_thread_with_little_stack(self):
        night = (EXAMPLES / "night.footprint").read_bytes()
        texts = []
        before = threading.stack_size(512 * 1024)
        self.addCleanup(threading.stack_size, before)
        thread = threading.Thread(target=lambda: texts.append(meskelow.leaks(night).text))
        thread.start()
        thread.join()
        self.assertEqual(texts, [(EXAMPLES / "night.expected").read_text()])


def cut(file, *places):
    """The file, cut at these places, of which some may be the same."""
    ends = [0, *sorted(places), len(file)]
    return [file[i:j] for i, j in zip(ends, ends[1:])]


class Arrivals(Case):
    def arrival(self, *pieces):
        """Of these pieces. Nothing is said of them before the end, and the bytes that came are counted, up to one too many."""
        arrival = meskelow.Arrival()
        total = 0
        self.has(arrival, 0, False)
        for piece in pieces:
            self.assertIsNone(arrival.piece(piece))
            total += len(piece)
            self.has(arrival, min(total, 65537), False)
        return arrival

    def has(self, arrival, arrived, ended):
        self.assertEqual((arrival.arrived, arrival.ended), (arrived, ended))
        self.assertEqual((type(arrival.arrived), type(arrival.ended)), (int, bool))

    def has_ended(self, arrival, arrived, held):
        """And whatever comes now is refused and changes nothing."""
        for late in (lambda: arrival.piece(b""), lambda: arrival.piece(LEAK), lambda: arrival.piece(bytes(65537)), arrival.end):
            self.has(arrival, arrived, True)
            self.assertEqual(bytes(arrival), held)
            with self.refused(22, 0):
                late()

    def good(self, *pieces):
        file = b"".join(pieces)
        arrival = self.arrival(*pieces)
        got = arrival.end()
        self.assertIs(type(got), bytes)
        self.assertEqual(got, file)
        self.has_ended(arrival, len(file), file)

    def bad(self, number, place, *pieces):
        file = b"".join(pieces)
        arrival = self.arrival(*pieces)
        with self.refused(number, place):
            arrival.end()
        self.has_ended(arrival, min(len(file), 65537), file[:65536])

    def test_cut_anywhere(self):
        for place in range(85):
            self.good(*cut(LEAK, place))
        for places in itertools.combinations_with_replacement(range(0, 85, 7), 3):
            self.good(*cut(LEAK, *places))
        for place in range(13):
            self.good(*cut(EMPTY, place))

    def test_byte_by_byte(self):
        self.good(*cut(LEAK, *range(85)))
        self.good(*cut(LEAK, *range(85), *range(85)))

    def test_whole(self):
        self.good(LEAK)
        self.good(b"", b"", LEAK, b"")

    def test_refusals(self):
        for file, number, place in REFUSED_FILES:
            self.bad(number, place, file)
            for at in (0, 1, 12, 30, 48, 60, 71, 72, 83, 84, 65535, 65536):
                with self.subTest(number=number, at=at):
                    self.bad(number, place, *cut(file, min(at, len(file))))
                    self.bad(number, place, *cut(file, min(at, len(file)), len(file) // 2, len(file) // 2))
        for file, number, place in [("cut", 12, 0), ("cut_night", 12, 0), ("dropped", 17, 24)]:
            pieces = cut((EXAMPLES / f"{file}.footprint").read_bytes(), 5, 5, 59)
            self.bad(number, place, *pieces)

    def test_nothing(self):
        self.bad(11, 0)
        self.bad(11, 0, b"")
        self.bad(11, 0, b"", b"", b"")
        self.bad(11, 0, EMPTY[:6], EMPTY[6:11])

    def test_a_part(self):
        """Every file that is cut off has another length than its last four bytes say, here at least."""
        for length in range(12, 84):
            self.bad(12, 0, *cut(LEAK[:length], 7))

    def test_long(self):
        """65,536 bytes are judged as any others, and with one more it is too long, wherever it is cut and however far it goes on."""
        for places in [(), (1,), (65535,), (32768, 32768), range(0, 65536, 1000)]:
            self.bad(12, 0, *cut(bytes(65536), *places))
            self.bad(11, 0, *cut(bytes(65537), *places))
        for lengths in [(65536, 1), (65536, 0, 1, 0), (65535, 2), (65536, 65536), (1, 65536, 1), (131072,), (2**20, 2**20), (65537, 0)]:
            with self.subTest(lengths=lengths):
                self.bad(11, 0, *map(bytes, lengths))
        longest = footprint((7, 1, [V] * 2000), (9, 0, [D] * 729))
        self.assertEqual(len(longest), 65532)
        self.good(*cut(longest, *range(0, 65532, 999)))
        self.bad(12, 0, longest, bytes(4))
        self.bad(11, 0, longest, bytes(5))
        self.bad(11, 0, longest, bytes(4), b"", LEAK)
        self.bad(11, 0, longest, longest)

    def test_what_does_not_fit_is_dropped(self):
        arrival = self.arrival(b"a" * 65530, b"bcdefghijk")
        self.has(arrival, 65537, False)
        self.assertEqual(bytes(arrival), b"a" * 65530 + b"bcdefg")
        arrival.piece(b"x")
        self.has(arrival, 65537, False)
        self.assertEqual(bytes(arrival), b"a" * 65530 + b"bcdefg")

    def test_too_late(self):
        """Neither of a good file nor of one that was refused; and what was handed over stays as it is."""
        arrival = self.arrival(LEAK)
        file = arrival.end()
        for _ in range(3):
            for late in (b"", b"x", LEAK, bytes(65537)):
                with self.refused(22, 0):
                    arrival.piece(late)
            with self.refused(22, 0):
                arrival.end()
        self.assertEqual(file, LEAK)

    def test_kinds_of_bytes(self):
        twice = memoryview(bytes(b for c in LEAK[40:] for b in (c, 1)))[::2]
        rest = LEAK[40:]
        for kind in (bytes, bytearray, memoryview, lambda b: array.array("B", b), lambda b: array.array("i", b), lambda b: twice):
            arrival = self.arrival(LEAK[:40])
            arrival.piece(kind(rest))
            self.assertEqual((arrival.arrived, arrival.end()), (84, LEAK))

    def test_no_bytes(self):
        """What is none changes nothing, and neither does it after the end."""
        arrival = self.arrival(LEAK[:40])
        for piece in ("leak.footprint", EXAMPLES / "leak.footprint", 84, list(LEAK), None, 1.0):
            with self.assertRaises(TypeError):
                arrival.piece(piece)
        self.has(arrival, 40, False)
        arrival.piece(LEAK[40:])
        self.assertEqual(arrival.end(), LEAK)
        with self.assertRaises(TypeError):
            arrival.piece("x")
        with self.assertRaises(TypeError):
            meskelow.check(arrival)

    def test_a_piece_that_changes_later(self):
        arrival = meskelow.Arrival()
        piece = bytearray(7)
        for part in cut(LEAK, *range(7, 84, 7)):
            piece[:] = part
            arrival.piece(piece)
            piece[:] = b"changed"
        self.assertEqual(arrival.end(), LEAK)

    def test_what_has_arrived(self):
        arrival = self.arrival()
        for end in range(0, 84, 12):
            self.assertEqual(bytes(arrival), LEAK[:end])
            arrival.piece(LEAK[end : end + 12])
        self.assertEqual(bytes(arrival), LEAK)

    def test_several_at_once(self):
        files = [LEAK, EMPTY, footprint((3, 1, [A, B, C])), footprint((9, 0, [D]), (7, 1, [E, F]))]
        arrivals = [meskelow.Arrival() for _ in files]
        for place in range(0, 200, 5):
            for file, arrival in zip(files, arrivals):
                arrival.piece(file[place : place + 5])
        self.assertEqual([arrival.end() for arrival in arrivals], files)

    def test_lists(self):
        self.assertEqual(meskelow.leaks(self.arrival(*cut(LEAK, 1, 50)).end()).text, LIST)
        night = (EXAMPLES / "night.footprint").read_bytes()
        source = random.Random(9)
        for _ in range(20):
            pieces = cut(night, *(source.randint(0, len(night)) for _ in range(source.choice((1, 5, 100)))))
            self.assertEqual(meskelow.leaks(self.arrival(*pieces).end()).text, (EXAMPLES / "night.expected").read_text())

    def test_random_cuts(self):
        source = random.Random(90)
        files = [(LEAK, 0, 0), (EMPTY, 0, 0), *REFUSED_FILES]
        for _ in range(1000):
            file, number, place = source.choice(files)
            places = [source.randint(0, min(len(file), source.choice((84, 65537)))) for _ in range(source.randint(0, 9))]
            if number == 0:
                self.good(*cut(file, *places))
            else:
                self.bad(number, place, *cut(file, *places))

    def test_threads(self):
        """Pieces of one file from several threads: none is lost or torn, whatever their order."""
        arrival = meskelow.Arrival()
        pieces = [bytes([number]) * 5 for number in range(8)]

        def send(piece):
            for _ in range(500):
                arrival.piece(piece)

        threads = [threading.Thread(target=send, args=(piece,)) for piece in pieces]
        for thread in threads:
            thread.start()
        for thread in threads:
            thread.join()
        self.has(arrival, 8 * 500 * 5, False)
        held = bytes(arrival)
        self.assertEqual(collections.Counter(held[i : i + 5] for i in range(0, len(held), 5)), dict.fromkeys(pieces, 500))

    def test_no_copies(self):
        arrival = self.arrival(LEAK)
        for take in (copy.copy, copy.deepcopy, pickle.dumps):
            with self.assertRaises(TypeError):
                take(arrival)
        self.assertEqual(arrival.end(), LEAK)


class Buffers(Case):
    """What the library does with the buffer and the two numbers, of which an Arrival has its own."""

    def setUp(self):
        self.memory = bytearray(b"#" * (100 + 65536 + 100))
        self.buffer = (ctypes.c_char * 65536).from_buffer(self.memory, 100)
        self.expected = bytearray(self.memory)  # all of it, with what lies before and behind

    def answers(self, got, number, place, arrived, ended):
        self.assertEqual((got.number, got.place, got.arrived, got.ended), (number, place, arrived, ended))
        self.assertEqual(self.memory, self.expected)

    def piece(self, arrived, ended, piece, length=65536):
        return meskelow._library().meskelow_piece(arrived, ended, piece, 0 if piece is None else len(piece), self.buffer, length)

    def end(self, arrived, ended, length=65536):
        return meskelow._library().meskelow_end(arrived, ended, self.buffer, length)

    def puts(self, place, some):
        self.expected[100 + place : 100 + place + len(some)] = some

    def test_layout(self):
        self.assertEqual(ctypes.sizeof(meskelow._Arrived), 16)
        self.assertEqual([getattr(meskelow._Arrived, name).offset for name in ("number", "place", "arrived", "ended")], [0, 4, 8, 12])

    def test_what_lies_behind_stays(self):
        arrived = 0
        for piece in (LEAK[:7], b"", LEAK[7:8], None, LEAK[8:60], LEAK[60:]):
            self.puts(arrived, piece or b"")
            arrived += len(piece or b"")
            self.answers(self.piece(arrived - len(piece or b""), 0, piece), 0, 0, arrived, 0)
        self.answers(self.end(84, 0), 0, 0, 84, 1)
        self.assertEqual(meskelow.check(self.buffer.raw[:84]), None)

    def test_the_end_judges_what_has_arrived(self):
        self.puts(0, LEAK)
        self.answers(self.piece(0, 0, LEAK), 0, 0, 84, 0)
        self.answers(self.end(84, 0), 0, 0, 84, 1)
        for arrived in (0, 1, 11):
            self.answers(self.end(arrived, 0), 11, 0, arrived, 1)
        for arrived in (12, 60, 83, 85, 100, 65535, 65536):
            self.answers(self.end(arrived, 0), 12, 0, arrived, 1)
        self.puts(76, b"\3")
        self.answers(self.piece(76, 0, b"\3"), 0, 0, 77, 0)
        self.answers(self.end(84, 0), 13, 72, 84, 1)

    def test_at_the_buffer_s_end(self):
        for arrived, piece, fits, after in [
            (65530, b"abcdef", b"abcdef", 65536),
            (65530, b"ghijklm", b"ghijkl", 65537),
            (65530, bytes(200), bytes(6), 65537),
            (65535, b"n", b"n", 65536),
            (65535, b"op", b"o", 65537),
            (65536, b"", b"", 65536),
            (65536, None, b"", 65536),
            (65536, b"q", b"", 65537),
            (65536, bytes(65536), b"", 65537),
            (65537, b"", b"", 65537),
            (65537, b"r", b"", 65537),
        ]:
            with self.subTest(arrived=arrived, piece=piece and piece[:9]):
                self.puts(arrived, fits)
                self.answers(self.piece(arrived, 0, piece), 0, 0, after, 0)
        self.answers(self.end(65536, 0), 12, 0, 65536, 1)
        self.answers(self.end(65537, 0), 11, 0, 65537, 1)
        self.puts(0, b"s" * 65536)
        self.answers(self.piece(0, 0, b"s" * 70000), 0, 0, 65537, 0)

    def test_an_arrived_that_is_none(self):
        """No call hands it back: it is too many, and no sum of it and a length is cut to 32 bits."""
        for arrived in (65538, 65539, 2**16 + 2**8, 2**17, 2**31, 2**32 - 65536, 2**32 - 50, 2**32 - 1):
            for piece in (b"", b"x", b"y" * 50, b"z" * 100, bytes(65536)):
                self.answers(self.piece(arrived, 0, piece), 0, 0, 65537, 0)
            self.answers(self.end(arrived, 0), 11, 0, 65537, 1)

    def test_ended(self):
        """Any number but 0, and both come back as they are."""
        for ended in (1, 2, 128, 256, 2**16, 2**31, 2**32 - 1):
            for arrived in (0, 1, 84, 65536, 65537, 65538, 2**32 - 1):
                for piece in (b"", None, b"x", LEAK):
                    self.answers(self.piece(arrived, ended, piece), 22, 0, arrived, ended)
                self.answers(self.end(arrived, ended), 22, 0, arrived, ended)

    def test_other_lengths(self):
        """Before 22, of an empty piece too, and both come back as they are. The buffer lies in memory that is as long."""
        for length in (0, 1, 12, 84, 65520, 65535, 65537, 65636):
            for ended in (0, 1, 2, 2**32 - 1):
                for arrived in (0, 84, 65536, 65537, 65538, 2**32 - 1):
                    for piece in (b"", None, b"x", LEAK):
                        self.answers(self.piece(arrived, ended, piece, length), 23, 0, arrived, ended)
                    self.answers(self.end(arrived, ended, length), 23, 0, arrived, ended)
        got = meskelow._library().meskelow_piece(3, 0, b"x", 1, None, 0)
        self.answers(got, 23, 0, 3, 0)
        self.answers(meskelow._library().meskelow_end(3, 4, None, 0), 23, 0, 3, 4)


class Writing(Case):
    def test_bytes(self):
        file = meskelow.write([own(7, meskelow.TRAINING, [V]), own(9, meskelow.TEST, [D])])
        self.assertIs(type(file), bytes)
        self.assertEqual(file, LEAK)
        self.assertEqual(meskelow.write([]), EMPTY)

    def test_every_field(self):
        """Each byte of the table where it belongs: ids of four different bytes, places over 255 and 65,535, counts over 255."""
        far = [(-1000000, 1000000), (1000000, -999999), (-65536, 65537)]
        drafts = [(0x04030201, 0, [far] * 300), (0, 0, [V]), (0xFFFFFFFF, 1, [D, far] * 1200), (7, 1, [far])]
        file = meskelow.write(own(*draft) for draft in drafts)
        self.assertEqual(file, footprint(*drafts))
        self.assertEqual([r.first for r in meskelow.recordings(file)], [0, 7200, 7224, 64824])

    def test_the_very_bytes(self):
        for name in ("leak", "night", "clean", "neighbours", "editions", "sums"):
            file = (EXAMPLES / f"{name}.footprint").read_bytes()
            with self.subTest(name=name):
                self.assertEqual(meskelow.write(meskelow.recordings(file)), file)
                self.assertEqual(meskelow.write(list(meskelow.recordings(file))), file)

    def test_read_back(self):
        """A part of the night in another order: everything comes back but the places, which are the new file's."""
        night = list(meskelow.recordings((EXAMPLES / "night.footprint").read_bytes()))
        kept = [r for r in reversed(night) if r.set == meskelow.TEST or r.id % 3 > 0]
        file = meskelow.write(kept)
        self.assertIsNone(meskelow.check(file))
        found = list(meskelow.recordings(file))
        self.assertEqual([r._replace(first=0) for r in found], [r._replace(first=0) for r in kept])
        self.assertNotEqual(found, kept)
        self.assertEqual(meskelow.write(found), file)

    def test_first_is_the_file_s_own(self):
        one, other = meskelow.recordings(LEAK)
        for first in (24, -1, 2**64, 1.5, None, "0"):
            self.assertEqual(meskelow.write([one._replace(first=first), other._replace(first=first)]), LEAK)

    def test_what_is_iterated(self):
        """Whatever can be iterated over will do, and each is asked once."""
        drafts = [own(7, 0, [V]), own(9, 1, [D])]
        for recordings in (drafts, tuple(drafts), iter(drafts), (r for r in drafts), dict(enumerate(drafts)).values()):
            self.assertEqual(meskelow.write(recordings), LEAK)
        asked = []

        def counted(things):
            for thing in things:
                asked.append(thing)
                yield thing

        given = counted([own(7, 0, counted([V])), own(9, 1, counted([D]))])
        self.assertEqual(meskelow.write(given), LEAK)
        self.assertEqual((len(asked), list(given)), (4, []))
        for recordings in ((), iter(()), {}, meskelow.recordings(EMPTY)):
            self.assertEqual(meskelow.write(recordings), EMPTY)

    def test_kinds_of_triangles(self):
        for u, v in [(tuple(D), tuple(V)), ([list(c) for c in D], [array.array("b", c) for c in V]), (Array(D), Array(V))]:
            for kind in (list, tuple, iter):
                self.assertEqual(meskelow.write([own(7, 0, kind([v])), own(9, 1, kind([u]))]), LEAK)
        self.assertEqual(meskelow.write([own(7, 0, Array([V])), own(9, 1, Array([D]))]), LEAK)

    def test_kinds_of_numbers(self):
        u = [(Whole(1), True), (Whole(-3), Whole(1)), (1, Whole(-3))]
        self.assertEqual(meskelow.write([own(Whole(7), False, [V], last=False), own(9, True, [u], last=Whole(0))]), LEAK)
        for value in (1.0, 1.5, float("nan"), "1", b"1", None, 1j, (1,), [1], Scalar(1), fractions.Fraction(1), decimal.Decimal(1)):
            for draft in (
                own(value, 0, [V]),
                own(7, value, [V]),
                own(7, 0, [V], last=value),
                own(7, 0, [[(value, 0), (4, 0), (0, 4)]]),
                own(7, 0, [V, [(0, 0), (4, 0), (0, value)]]),
            ):
                with self.subTest(value=value), self.assertRaises(TypeError):
                    meskelow.write([own(9, 3, []), draft])

    def test_what_is_no_recording(self):
        for recordings in (None, 1, 1.5, own(7, 0, [V])):
            with self.subTest(recordings=recordings), self.assertRaises(TypeError):
                meskelow.write(recordings)
        for draft in (None, 7, "7", (7, 0, [V]), {"id": 7, "set": 0, "triangles": [V]}, types.SimpleNamespace(id=7, set=0)):
            with self.subTest(draft=draft), self.assertRaises(AttributeError):
                meskelow.write([draft])
        for triangles in (None, 1, [1], [None], [[0, 0, 1]], [iter(V)], [[iter((0, 0)), (4, 0), (0, 4)]], [[{7, 9}, (4, 0), (0, 4)]], [set(V)]):
            with self.subTest(triangles=triangles), self.assertRaises(TypeError):
                meskelow.write([own(7, 0, triangles)])

    def test_ids(self):
        for identity in (0, 1, 2**31 - 1, 2**31, 2**32 - 1):
            self.assertEqual(meskelow.write([own(identity, 0, [V])]), footprint((identity, 0, [V])))
        for identity in (-1, 2**32, 2**32 + 7, 2**64, -(2**31), -(2**32), 10**5000):
            with self.assertRaises(OverflowError):
                meskelow.write([own(9, 3, []), own(identity, 0, [V])])

    def test_sets(self):
        for which in (meskelow.TRAINING, meskelow.TEST):
            self.assertEqual(meskelow.write([own(7, which, [V])]), footprint((7, which, [V])))
        for which in (meskelow.FORMERLY_HELD_BACK, 3, 128, 255, 256, 257, 2**32, 2**64, 10**5000, -1, -254, -255, -256, -(2**64)):
            with self.refused(14, 0):
                meskelow.write([own(7, which, [V])])

    def test_editions(self):
        """Edition 1 if none is named; edition 2 of test recordings only."""
        first, second = meskelow.EDITION_1, meskelow.EDITION_2
        self.assertEqual(meskelow.write([own(7, 0, [V], last=first), own(9, 1, [D], last=first)]), LEAK)
        for last in (second, True, Whole(1)):
            file = meskelow.write([own(7, 0, [V]), own(9, 1, [D], last=last)])
            self.assertEqual(file, changed(71, 1))
            self.assertEqual([(r.id, r.set, r.last) for r in meskelow.recordings(file)], [(7, 0, first), (9, 1, second)])
            self.assertEqual(meskelow.write(meskelow.recordings(file)), file)
        allowing = meskelow.write(r._replace(last=second) if r.set == meskelow.TEST else r for r in meskelow.recordings(LEAK))
        self.assertEqual(allowing, changed(71, 1))
        for which in (meskelow.TRAINING, meskelow.FORMERLY_HELD_BACK, 3, 255):
            with self.refused(14, 0):
                meskelow.write([own(7, which, [V], last=second)])
        for last in (2, 3, 128, 129, 255, 256, 257, 2**32 + 1, 2**64, 2**64 + 1, 10**5000, -1, -255, -256, -(2**64) + 1):
            for which in (0, 1, 2):
                with self.refused(14, 0):
                    meskelow.write([own(7, which, [V], last=last)])
        for refused in (own(9, 0, [D], last=1), own(9, 1, [D], last=2)):  # in its turn
            with self.refused(16, 0):
                meskelow.write([own(7, 0, [V]), own(7, 1, [D], last=1), refused])
            with self.refused(14, 0):
                meskelow.write([own(9, 0, [V]), refused])

    def test_lists(self):
        """The library's five lists, each behind the other with its length. One that is shorter is 15, and NULL is an empty list."""
        write = meskelow._library().meskelow_write
        ids, counts, numbers = (ctypes.c_uint32 * 2)(7, 9), (ctypes.c_uint32 * 2)(1, 1), (ctypes.c_int32 * 12)(*(c for vertex in V + D for c in vertex))
        sets, lasts = (ctypes.c_uint8 * 2)(meskelow.TRAINING, meskelow.TEST), (ctypes.c_uint8 * 2)(meskelow.EDITION_1, meskelow.EDITION_2)
        lists = [ids, counts, sets, lasts, numbers]

        def written(*lengths):
            room = ctypes.create_string_buffer(b"#" * 100, 100)
            words = (word for pair in zip(lists, lengths) for word in (pair if pair[1] else (None, 0)))
            got = write(*words, room, 100)
            return got.number, got.place, room.raw[: got.length], room.raw[got.length :]

        self.assertEqual(written(2, 2, 2, 2, 12), (0, 0, changed(71, 1), b"#" * 16))
        self.assertEqual(written(0, 0, 0, 0, 0), (0, 0, EMPTY, b"#" * 88))
        for short in range(5):
            for length in (0, 1):
                lengths = [length if i == short else len(own) for i, own in enumerate(lists)]
                self.assertEqual(written(*lengths), (15, 0, b"", b"#" * 100))

    def test_a_test_that_becomes_training(self):
        _, test = meskelow.recordings(changed(71, 1))
        with self.refused(14, 0):
            meskelow.write([test._replace(set=meskelow.TRAINING)])
        self.assertEqual(meskelow.write([test._replace(set=meskelow.TRAINING, last=meskelow.EDITION_1)]), footprint((9, 0, [D])))

    def test_editions_come_back(self):
        """Each byte of the table as it was given, whatever stands beside it."""
        source = random.Random(81)
        for _ in range(200):
            sets = [source.randint(0, 1) for _ in range(source.randint(1, 64))]
            drafts = [(i, which, [V, D, F][: source.randint(1, 3)], which & source.randint(0, 1)) for i, which in enumerate(sets)]
            file = meskelow.write(own(*draft[:3], last=draft[3]) for draft in drafts)
            self.assertEqual(file, footprint(*drafts))
            self.assertEqual([(r.set, r.last) for r in meskelow.recordings(file)], [(which, last) for _, which, _, last in drafts])
            self.assertEqual(meskelow.write(meskelow.recordings(file)), file)

    def test_coordinates(self):
        """Those at the ends of the range are written; none beyond it is cut to one within."""
        for value in (1000000, -1000000, 65536, -65537):
            triangle = [(value, 0), (0, 4), (0, value)]
            self.assertEqual(meskelow.write([own(7, 0, [triangle])]), footprint((7, 0, [triangle])))
        for value in (1000001, 2**31 - 1, 2**31, 2**32, 2**32 + 4, 2**64, 10**5000):
            for number in (value, -value):
                for place in range(6):
                    numbers = [0, 0, 4, 0, 0, 4]
                    numbers[place] = number
                    with self.refused(17, 0):
                        meskelow.write([own(7, 0, [V, list(zip(numbers[::2], numbers[1::2]))])])

    def test_no_area(self):
        far, near = 1000000, 999999
        for triangle in (
            [(0, 0), (0, 0), (0, 0)],
            [(0, 0), (1, 1), (2, 2)],
            [(4, 4), (0, 4), (4, 4)],
            [(-far, -far), (0, 0), (far, far)],
        ):
            with self.refused(18, 0):
                meskelow.write([own(7, 0, [V, triangle])])
        sliver = [(-far, -far), (0, 0), (far, near)]
        self.assertEqual(meskelow.write([own(7, 0, [sliver])]), footprint((7, 0, [sliver])))

    def test_broken_off(self):
        """Also where two make up for each other: 12 numbers are not two triangles because of their number."""
        four = V + [(1, 1)]
        for triangle in (V[:2], four, [], [(0, 0), (4, 0), (0,)], [(0, 0), (4, 0), (0, 4, 0)], [(), (), ()], [0, 0, 4, 0, 0, 4]):
            with self.subTest(triangle=triangle), self.refused(15, 0):
                meskelow.write([own(7, 0, [V]), own(9, 1, [D, triangle])])
        with self.refused(15, 0):
            meskelow.write([own(7, 0, [V[:2], four])])

    def test_how_many_recordings(self):
        for count in (1, 63, 64):
            drafts = [(i, i % 2, [V]) for i in range(count)]
            self.assertEqual(meskelow.write(own(*draft) for draft in drafts), footprint(*drafts))
        for count in (65, 66, 128, 256, 320, 1000):
            with self.subTest(count=count), self.refused(13, 0):
                meskelow.write(own(i, 0, [V]) for i in range(count))

    def test_how_many_triangles(self):
        """65,532 bytes are the most; lengths are multiples of 12."""

        def drafted(recordings, triangles):
            return [(7, 0, [V] * (triangles - recordings + 1)), *((i, 1, [D]) for i in range(100, 99 + recordings))]

        for recordings, triangles, length in [(1, 2729, 65520), (2, 2729, 65532), (4, 2728, 65532), (64, 2698, 65532)]:
            drafts = drafted(recordings, triangles)
            file = meskelow.write(own(*draft) for draft in drafts)
            self.assertEqual((file, len(file)), (footprint(*drafts), length))
            self.assertIsNone(meskelow.check(file))
        for recordings, triangles in [(1, 2730), (3, 2729), (64, 2699), (1, 65536)]:
            with self.subTest(recordings=recordings, triangles=triangles), self.refused(19, 0):
                meskelow.write(own(*draft) for draft in drafted(recordings, triangles))

    def test_which_comes_first(self):
        """A draft that is wrong in more and more ways; each is said before all those that were there already."""
        flat, far = [(0, 0), (1, 1), (2, 2)], [(-(2**31), 0), (4, 0), (0, 4)]
        drafts = [own(i, 0, [V] * 43, last=0) for i in range(64)]
        with self.refused(19, 0):
            meskelow.write(drafts)
        drafts.append(own(64, 0, [V] * 43, last=0))

        def triangle(i, k, value):
            drafts[i].triangles[k] = value

        def entry(i, **fields):
            vars(drafts[i]).update(fields)

        for number, make_wrong in [
            (13, lambda: None),
            (18, lambda: triangle(64, 42, flat)),
            (17, lambda: triangle(64, 41, far)),
            (18, lambda: triangle(64, 0, flat)),
            (17, lambda: triangle(3, 42, far)),
            (18, lambda: triangle(3, 41, flat)),
            (17, lambda: triangle(3, 41, [(0, 0), (0, 0), (0, 1000001)])),
            (16, lambda: entry(64, id=63)),
            (14, lambda: entry(64, set=3)),
            (16, lambda: entry(63, id=0)),
            (14, lambda: entry(63, last=1)),
            (16, lambda: entry(5, id=4)),
            (14, lambda: entry(5, triangles=[])),
            (16, lambda: entry(1, id=0)),
            (14, lambda: entry(0, set=256)),
            (15, lambda: triangle(64, 20, V[:2])),
        ]:
            make_wrong()
            with self.subTest(number=number), self.refused(number, 0):
                meskelow.write(drafts)
        drafts[64].id = 2**32
        with self.assertRaises(OverflowError):
            meskelow.write(drafts)
        drafts[0].set = None
        with self.assertRaises(TypeError):
            meskelow.write(drafts)

    def test_leaks_of_what_was_written(self):
        file = meskelow.write([own(7, meskelow.TRAINING, [V, V]), own(9, meskelow.TEST, [F, D]), own(3, meskelow.TEST, [F])])
        self.assertEqual(meskelow.leaks(file), (((9, 7, 2),), f"leaks 1\ntest 9 train 7 pairs 2\n{closing(1)}", 1, 6, 0))


def metres(z):
    """Whole centimetres as metres with two decimals, by Python's own formatting of the two parts."""
    whole, rest = divmod(abs(z), 100)
    return f"{'-' * (z < 0)}{whole:d}.{rest:02d}"


def text_of(triangles):
    """The well-known text of a recording with these triangles."""
    rings = [", ".join(f"{metres(x)} {metres(y)}" for x, y in (*triangle, triangle[0])) for triangle in triangles]
    return f"GEOMETRYCOLLECTION ({', '.join(f'POLYGON (({ring}))' for ring in rings)})"


class Texts(Case):
    def test_one_triangle(self):
        text = meskelow.wkt(footprint((7, 0, [[(0, 0), (400, 0), (0, -5)]])), 7)
        self.assertIs(type(text), str)
        self.assertEqual(text, "GEOMETRYCOLLECTION (POLYGON ((0.00 0.00, 4.00 0.00, 0.00 -0.05, 0.00 0.00)))")

    def test_two_triangles(self):
        """In the order in which they are stored, as their vertices are, whichever way round."""
        expected = (
            "GEOMETRYCOLLECTION (POLYGON ((0.00 0.00, 0.04 0.00, 0.00 0.04, 0.00 0.00)), "
            "POLYGON ((0.00 0.00, 0.00 0.04, 0.04 0.00, 0.00 0.00)))"
        )
        self.assertEqual(meskelow.wkt(footprint((7, 0, [V, TURNED_OVER])), 7), expected)
        expected = (
            "GEOMETRYCOLLECTION (POLYGON ((0.00 0.00, 0.00 0.04, 0.04 0.00, 0.00 0.00)), "
            "POLYGON ((0.00 0.00, 0.04 0.00, 0.00 0.04, 0.00 0.00)))"
        )
        self.assertEqual(meskelow.wkt(footprint((7, 0, [TURNED_OVER, V])), 7), expected)

    def test_numbers(self):
        """At every change of the sign and of the width, in each of the six places. Only a number below zero has a minus."""
        for z, text in [
            (-1000000, "-10000.00"),
            (-999999, "-9999.99"),
            (-100000, "-1000.00"),
            (-1000, "-10.00"),
            (-999, "-9.99"),
            (-101, "-1.01"),
            (-100, "-1.00"),
            (-99, "-0.99"),
            (-10, "-0.10"),
            (-9, "-0.09"),
            (-5, "-0.05"),
            (-1, "-0.01"),
            (0, "0.00"),
            (1, "0.01"),
            (5, "0.05"),
            (9, "0.09"),
            (10, "0.10"),
            (99, "0.99"),
            (100, "1.00"),
            (101, "1.01"),
            (999, "9.99"),
            (1000, "10.00"),
            (100000, "1000.00"),
            (999999, "9999.99"),
            (1000000, "10000.00"),
        ]:
            for place in range(6):
                numbers = [(30, "0.30"), (-20, "-0.20"), (40, "0.40"), (700, "7.00"), (-60, "-0.60"), (-8000, "-80.00")]
                numbers[place] = z, text
                triangle = [(numbers[k][0], numbers[k + 1][0]) for k in (0, 2, 4)]
                points = [f"{numbers[k][1]} {numbers[k + 1][1]}" for k in (0, 2, 4, 0)]
                with self.subTest(z=z, place=place):
                    got = meskelow.wkt(footprint((7, 0, [triangle])), 7)
                    self.assertEqual(got, f"GEOMETRYCOLLECTION (POLYGON (({', '.join(points)})))")

    def test_the_recording_with_the_id(self):
        """Not the one at a place; of any set and edition; also the smallest and the largest id."""
        texts = {
            1: "GEOMETRYCOLLECTION (POLYGON ((0.00 0.00, 0.04 0.00, 0.00 0.04, 0.00 0.00)))",
            0: "GEOMETRYCOLLECTION (POLYGON ((0.01 0.01, -0.03 0.01, 0.01 -0.03, 0.01 0.01)))",
            2**32 - 1: "GEOMETRYCOLLECTION (POLYGON ((0.00 0.00, 0.04 0.00, 0.00 -0.04, 0.00 0.00)))",
        }
        file = footprint((1, 0, [V]), (0, 1, [D], 1), (2**32 - 1, 2, [F]))
        for identity, text in texts.items():
            self.assertEqual(meskelow.wkt(file, identity), text)
        for identity in (2, 3, 256, 257, 2**31, 2**31 + 1, 2**32 - 2):
            with self.subTest(identity=identity), self.refused(21, 0):
                meskelow.wkt(file, identity)

    def test_refusals(self):
        """The file's own comes first, with its place, whether it seems to have the id or not."""
        for file, number, place in [
            (b"", 11, 0),
            (bytes(65537), 11, 0),
            (LEAK[:60], 12, 0),
            (bytes(65536), 12, 0),
            (changed(76, 3), 13, 72),
            (changed(70, 3), 14, 60),
            (changed(59, 1), 14, 48),
            (changed(71, 2), 14, 60),
            (changed(68, 2), 15, 48),
            (changed(60, 7), 16, 60),
            (changed(27, 0x80), 17, 24),
            (LEAK[:8] + bytes(8) + LEAK[16:], 18, 0),
        ]:
            for identity in (7, 9, 8, 0, 2**32 - 1):
                with self.subTest(number=number, identity=identity), self.refused(number, place):
                    meskelow.wkt(file, identity)
        for file, identity in [(EMPTY, 0), (EMPTY, 7), (LEAK, 8), (LEAK, 0), (LEAK, 7 + 2**16)]:
            with self.subTest(identity=identity), self.refused(meskelow.REFUSED_NO_ID, 0):
                meskelow.wkt(file, identity)
        self.assertEqual((meskelow.REFUSED_TEXT_ROOM, meskelow.REFUSED_NO_ID), (20, 21))

    def test_kinds_of_ids(self):
        file = footprint((1, 1, [V]))
        for identity in (1, True, Whole(1)):
            self.assertEqual(meskelow.wkt(file, identity), text_of([V]))
        for identity in (1.0, math.nan, "1", b"1", None, 1j, Scalar(1), fractions.Fraction(1), decimal.Decimal(1), [1]):
            for lent in (file, b""):
                with self.subTest(identity=identity), self.assertRaises(TypeError):
                    meskelow.wkt(lent, identity)
        for identity in (-1, 2**32, 2**32 + 1, 2**64, 2**64 + 1, -(2**32) + 1, -(2**64), Whole(-1), 10**5000):
            for lent in (file, b""):
                with self.assertRaises(OverflowError) as caught:
                    meskelow.wkt(lent, identity)
                self.assertIn("from 0 to 4,294,967,295", str(caught.exception))

    def test_kinds_of_bytes(self):
        twice = bytes(b for c in LEAK for b in (c, 1))
        expected = "GEOMETRYCOLLECTION (POLYGON ((0.01 0.01, -0.03 0.01, 0.01 -0.03, 0.01 0.01)))"
        for file in (LEAK, bytearray(LEAK), memoryview(LEAK), memoryview(twice)[::2], array.array("i", LEAK)):
            self.assertEqual(meskelow.wkt(file, 9), expected)
        for file in ("leak.footprint", EXAMPLES / "leak.footprint", 84, list(LEAK), None):
            with self.assertRaises(TypeError):
                meskelow.wkt(file, 9)

    def test_longest(self):
        """The room that is lent is enough, also where no file can have a longer text: six numbers of nine characters have no area."""
        widest = [(-1000000, -1000000), (-1000000, -999999), (-999999, -1000000)]
        for count in (1, 2, 3, 1000, 2728, 2729):
            text = meskelow.wkt(footprint((7, 1, [widest] * count)), 7)
            self.assertEqual((len(text), text), (94 * count + 19, text_of([widest] * count)))
        self.assertEqual(len(text), 256545)
        file = footprint(*((i, 0, [widest] * (42 + (i < 10))) for i in range(64)))
        for identity in (0, 9, 10, 63):
            self.assertEqual(meskelow.wkt(file, identity), text_of([widest] * (42 + (identity < 10))))

    def test_rooms(self):
        """The library writes at the front of the room and nowhere else, or nothing: 20 if the text is a byte longer than the room."""
        ask = meskelow._library().meskelow_wkt
        text = b"GEOMETRYCOLLECTION (POLYGON ((0.00 0.00, 0.04 0.00, 0.00 0.04, 0.00 0.00)))"
        for length in range(len(text)):
            room = ctypes.create_string_buffer(b"#" * 100, 100)
            got = ask(LEAK, 84, 7, room, length)
            self.assertEqual((got.number, got.place, got.length, room.raw), (meskelow.REFUSED_TEXT_ROOM, 0, 0, b"#" * 100))
        for length in (len(text), len(text) + 1, 100):
            room = ctypes.create_string_buffer(b"#" * 100, 100)
            got = ask(LEAK, 84, 7, room, length)
            self.assertEqual((got.number, got.place, got.length), (0, 0, len(text)))
            self.assertEqual(room.raw, text + b"#" * (100 - len(text)))
        for file, identity, number, place in [(LEAK, 8, 21, 0), (LEAK[:60], 7, 12, 0), (changed(76, 3), 7, 13, 72)]:
            room = ctypes.create_string_buffer(b"#" * 100, 100)
            got = ask(file, len(file), identity, room, 0)
            self.assertEqual((got.number, got.place, got.length, room.raw), (number, place, 0, b"#" * 100))
        got = ask(LEAK, 84, 7, None, 0)
        self.assertEqual((got.number, got.place, got.length), (20, 0, 0))

    def test_examples(self):
        for name in ("leak", "night", "clean", "neighbours", "editions", "sums"):
            file = (EXAMPLES / f"{name}.footprint").read_bytes()
            for recording in meskelow.recordings(file):
                self.assertEqual(meskelow.wkt(file, recording.id), text_of(recording.triangles))

    def test_random_files(self):
        source = random.Random(12)
        grids = [
            lambda: source.choice((-1000000, -100, -99, -5, -1, 0, 1, 5, 99, 100, 1000000)),
            lambda: source.randint(-200, 200),
            lambda: source.randint(-1000000, 1000000),
            lambda: source.choice((-1, 1)) * min(10 ** source.randint(0, 6) + source.randint(-1, 1), 1000000),
        ]
        written = 0
        for _ in range(300):
            drafts = []
            for identity in source.sample(range(2**32), source.randint(1, 5)):
                triangles = []
                while len(triangles) < source.randint(1, 6):
                    draw = source.choice(grids)
                    p, q, r = triangle = [(draw(), draw()) for _ in range(3)]
                    if cross(less(q, p), less(r, p)) != 0:
                        triangles.append(triangle)
                drafts.append((identity, source.randint(0, 2), triangles))
            file = footprint(*drafts)
            for identity, _, triangles in drafts:
                self.assertEqual(meskelow.wkt(file, identity), text_of(triangles))
                written += 1
        self.assertGreater(written, 500)

    def test_threads(self):
        night = (EXAMPLES / "night.footprint").read_bytes()
        expected = {r.id: text_of(r.triangles) for r in meskelow.recordings(night)}
        texts = []
        threads = [threading.Thread(target=lambda: texts.append({i: meskelow.wkt(night, i) for i in expected})) for _ in range(8)]
        for thread in threads:
            thread.start()
        for thread in threads:
            thread.join()
        self.assertEqual(texts, [expected] * 8)


@unittest.skipIf(numpy is None, "there is no numpy here")
class Numpy(Case):
    def test_triangles(self):
        expected = meskelow.intersect(D, V)
        for kind in ("f8", "f4", "f2", "i8", "i4", "i1", ">f8", "g", "O"):
            with self.subTest(kind=kind):
                pair = numpy.array([D, V], dtype=kind)
                self.assertEqual(meskelow.intersect(*pair), expected)
                self.assertEqual(meskelow.intersect(list(pair[0]), [tuple(c) for c in pair[1]]), expected)
                self.assertEqual(meskelow.decide(*pair), (Kind.OVERLAPPING, 1))
                self.assertEqual(meskelow.decide(*numpy.array([F, V], dtype=kind)), (Kind.TOUCHING, 0))
                self.assertEqual(meskelow.corners(*pair), meskelow.corners(D, V))
        pair = numpy.array([D, V], dtype="f8")
        doubled = numpy.repeat(numpy.repeat(pair, 2, axis=1), 3, axis=2)
        for u, v in [
            (doubled[0, ::2, ::3], doubled[1, ::2, ::3]),
            numpy.asfortranarray(pair),
            pair[:, ::-1, ::-1][:, ::-1, ::-1],
            (pair[0].T.copy().T, V),
            (D, pair[1]),
        ]:
            self.assertEqual(meskelow.intersect(u, v), expected)

    def test_answers_are_plain(self):
        got = meskelow.intersect(*numpy.array([D, V], dtype="f4"))
        self.assertEqual({type(c) for corner in got.ring for c in corner} | {type(got.area)}, {float})
        self.assertIs(type(meskelow.decide(*numpy.array([D, V], dtype="f4")).area), float)
        corner = meskelow.corner_at(*numpy.array([D, V], dtype="f4"), 1)
        self.assertEqual([type(value) for value in (corner.edge, corner.line, corner.t, corner.x, corner.y)], [int, int, float, float, float])

    def test_refused(self):
        pair = numpy.array([D, V], dtype="f8")
        for u in (pair, pair[0, :2], pair[0, :, :1], pair[0].T, numpy.zeros((3, 3)), numpy.zeros(12), numpy.zeros((0, 2))):
            for ask in (meskelow.intersect, meskelow.decide, meskelow.corners):
                with self.subTest(shape=u.shape), self.refused(1, 0):
                    ask(u, V)
        for value in (numpy.nan, numpy.inf):
            pair[0, 0, 0] = value
            for ask in (meskelow.intersect, meskelow.decide, meskelow.corners):
                with self.refused(2, 0):
                    ask(*pair)

    def test_no_numbers(self):
        for kind in ("c16", "c8", "G", "U4", "S4"):
            pair = numpy.array([D, V], dtype=kind)
            for ask in (meskelow.intersect, meskelow.decide, meskelow.corners):
                with self.subTest(kind=kind), self.assertRaises(TypeError):
                    ask(*pair)

    def test_files(self):
        file = numpy.frombuffer(LEAK, dtype="u1")
        mapped = numpy.memmap(EXAMPLES / "leak.footprint", mode="r")
        for lent in (file, file.view("<i4"), file.reshape(7, 12), numpy.repeat(file, 2)[::2], mapped):
            self.assertEqual(meskelow.leaks(lent).text, LIST)
            self.assertEqual(meskelow.wkt(lent, 7), text_of([V]))
        with self.refused(12, 0):
            meskelow.check(file[:60])
        arrival = meskelow.Arrival()
        for piece in (file[:12].view("<i4"), file[:0], numpy.repeat(file[12:48], 2)[::2], mapped[48:]):
            arrival.piece(piece)
        self.assertEqual(arrival.end(), LEAK)

    def test_writing(self):
        for kind in ("i8", "i4", "i1", ">i4", "O"):
            u, v = numpy.array([D, V], dtype=kind)
            drafts = [own(numpy.uint32(7), numpy.uint8(0), v.reshape(1, 3, 2)), own(numpy.int64(9), numpy.int8(1), [u])]
            with self.subTest(kind=kind):
                self.assertEqual(meskelow.write(drafts), LEAK)
        for kind in ("f8", "f4", "c16", "U4"):
            with self.subTest(kind=kind), self.assertRaises(TypeError):
                meskelow.write([own(7, 0, numpy.array([V], dtype=kind))])
        for shape in ((1, 2, 3), (1, 4, 2), (1, 3, 3), (1, 6), (2, 0)):
            with self.subTest(shape=shape), self.refused(15, 0):
                meskelow.write([own(7, 0, numpy.zeros(shape, dtype="i4"))])
        with self.refused(17, 0):
            meskelow.write([own(7, 0, numpy.array([[(2**32, 0), (4, 0), (0, 4)]]))])

    def test_indexes(self):
        for kind in (numpy.int64, numpy.uint8, numpy.int32):
            self.assertEqual(meskelow.recording(LEAK, kind(1)).id, 9)
            self.assertEqual(meskelow.corner_at(D, V, kind(1)), Crossing(0, 0, 0.25, 0, 1))
            self.assertEqual(meskelow.wkt(LEAK, kind(9)), text_of([D]))
        for k in (numpy.float64(1), numpy.float32(1), numpy.nan):
            with self.assertRaises(TypeError):
                meskelow.wkt(LEAK, k)
            with self.assertRaises(TypeError):
                meskelow.recording(LEAK, k)
            with self.assertRaises(TypeError):
                meskelow.corner_at(D, V, k)


class Errors(Case):
    def test_refused_is_a_value_error_with_words(self):
        refused = meskelow.Refused(13, 72)
        self.assertIsInstance(refused, ValueError)
        self.assertTrue(str(refused).startswith("refused 13 at 72: "))
        again = pickle.loads(pickle.dumps(refused))
        self.assertEqual((again.number, again.place), (13, 72))

    def test_words(self):
        for number, words in [
            (meskelow.REFUSED_LENGTHS, "there are not twelve values"),
            (meskelow.REFUSED_FLAT_V, "V is flat"),
            (meskelow.REFUSED_NO_CORNER, "the ring has no such corner"),
            (meskelow.REFUSED_STORED_LENGTH, "the length in the trailer is not the file's"),
            (meskelow.REFUSED_NO_AREA, "a triangle has no area"),
            (meskelow.REFUSED_FILE_ROOM, "the room is shorter than the file to be written, or "),
            (meskelow.REFUSED_AFTER_END, "the file has already ended"),
            (meskelow.REFUSED_BUFFER_LENGTH, "the buffer in which a file arrives does not have exactly 65,536 bytes"),
            (6000, "a number that has no words here"),
        ]:
            self.assertTrue(str(meskelow.Refused(number, 24)).startswith(f"refused {number} at 24: {words}"))

    def test_no_words(self):
        for table in (pathlib.Path("/nowhere/refusals.tsv"), EXAMPLES / "night.footprint", pathlib.Path(__file__)):
            self.put("REFUSALS", table)
            self.assertEqual(str(meskelow.Refused(13, 72)), "refused 13 at 72: a number that has no words here")

    def put(self, name, value):
        """Another value for a name of the module, until the test ends."""
        for kept in (meskelow._library, meskelow._words):
            self.addCleanup(kept.cache_clear)
            kept.cache_clear()
        self.addCleanup(setattr, meskelow, name, getattr(meskelow, name))
        setattr(meskelow, name, value)

    def says(self, words, ask, *given):
        with self.assertRaises(meskelow.LibraryError) as caught:
            ask(*given)
        self.assertIn(words, str(caught.exception))

    def nothing_works(self, words):
        for text in (words, "run 'bin/make meskelow && python3 python/meskelow.py build'"):
            self.says(text, meskelow.intersect, A, V)
            self.says(text, meskelow.decide, A, V)
            self.says(text, meskelow.corners, A, V)
            self.says(text, meskelow.corner_at, A, V, 0)
            self.says(text, meskelow.check, LEAK)
            self.says(text, meskelow.Arrival().piece, LEAK)
            self.says(text, meskelow.Arrival().end)
            self.says(text, meskelow.recording, LEAK, 0)
            self.says(text, meskelow.write, [])
            self.says(text, meskelow.leaks, LEAK)
            self.says(text, meskelow.wkt, LEAK, 7)

    def test_no_library(self):
        self.put("LIBRARY", pathlib.Path("/nowhere/libmeskelow.so"))
        self.nothing_works("there is no /nowhere/libmeskelow.so")

    def test_library_of_another_archive(self):
        self.put("ARCHIVE", pathlib.Path(__file__))
        self.nothing_works("was made from another ")

    def test_no_archive(self):
        self.put("ARCHIVE", pathlib.Path("/nowhere/libmeskelow.a"))
        self.assertIsNone(meskelow.check(LEAK))
        self.says("run 'bin/make meskelow'", meskelow.build)

    def test_what_is_no_library(self):
        self.put("ARCHIVE", pathlib.Path("/nowhere/libmeskelow.a"))
        self.put("LIBRARY", pathlib.Path(__file__))
        self.nothing_works("cannot load ")

    def test_a_library_without_editions(self):
        """Its writer takes the numbers for the room. There are none, so that it has to refuse."""
        asked = []

        def write(*words):
            asked.append(words)
            return meskelow._Written(19, 0, 0)

        functions = {**{name: lambda *words: self.fail() for name in meskelow._FUNCTIONS}, "meskelow_write": write}
        self.put("LIBRARY", meskelow.LIBRARY)  # so that it is loaded again
        with unittest.mock.patch.object(ctypes, "CDLL", lambda path: types.SimpleNamespace(**functions)):
            self.nothing_works("is of a version before 0.8")
        self.assertEqual({words[:10] for words in asked}, {(None, 0) * 5})

    def test_other_lists(self):
        line = "test 9 train 7 pairs 1\n"
        for text, count, touching, old in [
            (f"leaks 1\n{closing(0)}", 1, 0, 0),
            (f"leaks 0\n{line}{closing(0)}", 0, 0, 0),
            (f"leaks 0\n{line}{closing(0)}", 1, 0, 0),
            (f"leaks 1\n{line}{line}{closing(0)}", 1, 0, 0),
            (f"leaks 1\n{line}{closing(0)}", 1, 1, 0),
            (f"leaks 1\n{line}{closing(1)}", 1, 0, 0),
            (f"leaks 1\n{line}{closing(0)}", 1, 0, 1),
            (f"leaks 1\n{line}{closing(0, 1)}", 1, 0, 0),
            (f"leaks 1\n{line}", 1, 0, 0),
            (f"leaks 1\n{line}touching 0\n", 1, 0, 0),
            (f"leaks 1\n{line}formerly held back 0\n", 1, 0, 0),
            (f"leaks 1\n{line}formerly held back 0\ntouching 0\n", 1, 0, 0),
            (f"leaks 1\n{line}{closing(0)[:-1]}", 1, 0, 0),
            (f"leaks 1\n{line}touching 00\nformerly held back 0\n", 1, 0, 0),
            (f"leaks 1\n{line}touching 0\nformerly held back 00\n", 1, 0, 0),
            (f"leaks 1\n{line}touching 0\n{closing(0)}", 1, 0, 0),
            (f"leaks 1\n{line}{closing(0)}formerly held back 0\n", 1, 0, 0),
            (f"leaks 1\n{line}{closing(0)}junk\n", 1, 0, 0),
            (f"leaks 1\n{closing(0)}{line}", 1, 0, 0),
            (f"{closing(0)}leaks 1\n{line}", 1, 0, 0),
            ("leaks 0\n", 0, 0, 0),
            (closing(0), 0, 0, 0),
            ("", 0, 0, 0),
        ]:

            class Other:
                @staticmethod
                def meskelow_leaks(file, length, room, room_length):
                    room[: len(text)] = text.encode()
                    return meskelow._List(0, 0, len(text), count, touching, 0, old)

            with self.subTest(text=text):
                self.put("_library", functools.lru_cache(maxsize=None)(lambda: Other))
                self.says("other lists", meskelow.leaks, LEAK)


if __name__ == "__main__":
    unittest.main()
