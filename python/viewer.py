"""Has well-known texts of recordings read back by GEOS, and compares with what is stored.

    viewer.py             the texts of the examples, of files that are made here, and of those on standard input, which has
                          each as its length, four bytes with the lowest first, and then its bytes
    viewer.py --version   GEOS's version; the status is not 0 if there is none

Every text must be a collection of polygons, one for each triangle in the order of the file, each a ring of four points of which the
last is the first again, and the points x/100 and y/100: the f64 next to the quotient, bit for bit.
"""

import ctypes
import pathlib
import random
import struct
import sys
import types

import meskelow

EXAMPLES = pathlib.Path(__file__).resolve().parent.parent / "examples"
FILES = 3000
POLYGON, COLLECTION = 3, 7  # GEOS's numbers for the two kinds

# Where the sign or the width of a number changes.
EDGES = [0, 1, 5, 9, 10, 11, 99, 100, 101, 999, 1000, 1001, 9999, 10000, 99999, 100000, 999999, 1000000]
EDGES += [-edge for edge in EDGES if edge]


class Geos:
    """The library, by its functions that need no context of ours."""

    def __init__(self):
        self.library = ctypes.CDLL("libgeos_c.so.1")
        pointer, number = ctypes.c_void_p, ctypes.c_int
        out = ctypes.POINTER(ctypes.c_double)
        self.library.GEOSversion.restype = ctypes.c_char_p
        self.library.GEOS_init_r.restype = pointer
        self.context = ctypes.c_void_p(self.library.GEOS_init_r())
        self.function("GEOSWKTReader_create_r", pointer)
        self.function("GEOSWKTReader_read_r", pointer, pointer, ctypes.c_char_p)
        self.function("GEOSGeomTypeId_r", number, pointer)
        self.function("GEOSGetNumGeometries_r", number, pointer)
        self.function("GEOSGetGeometryN_r", pointer, pointer, number)
        self.function("GEOSGetExteriorRing_r", pointer, pointer)
        self.function("GEOSGetNumInteriorRings_r", number, pointer)
        self.function("GEOSGeom_getCoordSeq_r", pointer, pointer)
        self.function("GEOSCoordSeq_getSize_r", number, pointer, ctypes.POINTER(ctypes.c_uint))
        self.function("GEOSCoordSeq_getX_r", number, pointer, ctypes.c_uint, out)
        self.function("GEOSCoordSeq_getY_r", number, pointer, ctypes.c_uint, out)
        self.function("GEOSGeom_getCoordinateDimension_r", number, pointer)
        self.function("GEOSisValid_r", ctypes.c_char, pointer)
        self.function("GEOSGeom_destroy_r", None, pointer)
        self.reader = ctypes.c_void_p(self.ask("GEOSWKTReader_create_r"))

    def function(self, name, answer, *words):
        function = getattr(self.library, name)
        function.restype = answer
        function.argtypes = [ctypes.c_void_p, *words]

    def ask(self, name, *words):
        return getattr(self.library, name)(self.context, *words)

    def version(self):
        return self.library.GEOSversion().decode("ascii")

    def read(self, text):
        """The rings of the collection, as lists of points; or None, if it is no collection of two-dimensional, valid polygons with a
        single ring each."""
        collection = self.ask("GEOSWKTReader_read_r", self.reader, text.encode("ascii"))
        if not collection:
            return None
        try:
            if self.ask("GEOSGeomTypeId_r", collection) != COLLECTION or self.ask("GEOSGeom_getCoordinateDimension_r", collection) != 2:
                return None
            polygons = [self.ask("GEOSGetGeometryN_r", collection, i) for i in range(self.ask("GEOSGetNumGeometries_r", collection))]
            if not all(self.is_plain(polygon) for polygon in polygons):
                return None
            return [self.points(self.ask("GEOSGetExteriorRing_r", polygon)) for polygon in polygons]
        finally:
            self.ask("GEOSGeom_destroy_r", collection)

    def is_plain(self, polygon):
        kind, inner = self.ask("GEOSGeomTypeId_r", polygon), self.ask("GEOSGetNumInteriorRings_r", polygon)
        return (kind, inner, self.ask("GEOSisValid_r", polygon)) == (POLYGON, 0, b"\1")

    def points(self, ring):
        sequence = self.ask("GEOSGeom_getCoordSeq_r", ring)
        size, x, y = ctypes.c_uint(), ctypes.c_double(), ctypes.c_double()
        self.ask("GEOSCoordSeq_getSize_r", sequence, ctypes.byref(size))
        points = []
        for i in range(size.value):
            self.ask("GEOSCoordSeq_getX_r", sequence, i, ctypes.byref(x))
            self.ask("GEOSCoordSeq_getY_r", sequence, i, ctypes.byref(y))
            points.append((x.value, y.value))
        return points


def bits(rings):
    """By which 0.0 is not -0.0."""
    return [struct.pack(f"<{2 * len(ring)}d", *(c for point in ring for c in point)) for ring in rings]


def is_same(rings, triangles):
    """Whether these are the triangles, in metres: whole numbers are divided with one rounding, as texts are read."""
    stored = [[(x / 100, y / 100) for x, y in (*triangle, triangle[0])] for triangle in triangles]
    return rings is not None and bits(rings) == bits(stored)


def examples():
    for path in sorted(EXAMPLES.glob("*.footprint")):
        file = path.read_bytes()
        try:
            meskelow.check(file)
        except meskelow.Refused:
            continue
        yield path.name, file


def made():
    """Files with numbers of all widths; the first has each of EDGES in each place."""
    source = random.Random(20240917)
    grids = [
        lambda: source.choice(EDGES),
        lambda: source.randint(-1000000, 1000000),
        lambda: source.randint(-110, 110),
        lambda: source.choice((-1, 1)) * source.randint(0, 10 ** source.randint(0, 6)),
    ]
    triangles = []
    for edge in EDGES:
        for place in range(6):
            numbers = [30, -20, 40, 700, -60, -8000]
            numbers[place] = edge
            triangles.append(list(zip(numbers[::2], numbers[1::2])))
    yield "every edge", meskelow.write([types.SimpleNamespace(id=0, set=0, triangles=triangles)])
    for n in range(FILES - 1):
        drafts = []
        for identity in source.sample(range(2**32), source.randint(1, 4)):
            own = []
            for _ in range(source.choice((1, 2, 3, 8))):
                draw = source.choice(grids)
                triangle = [(draw(), draw()) for _ in range(3)]
                while not has_area(triangle):
                    triangle = [(draw(), draw()) for _ in range(3)]
                own.append(triangle)
            which = source.choice((meskelow.TRAINING, meskelow.TEST))
            last = source.choice((meskelow.EDITION_1, meskelow.EDITION_2)) if which == meskelow.TEST else meskelow.EDITION_1
            drafts.append(types.SimpleNamespace(id=identity, set=which, last=last, triangles=own))
        yield f"made {n + 1}", meskelow.write(drafts)


def has_area(triangle):
    (ax, ay), (bx, by), (cx, cy) = triangle
    return (bx - ax) * (cy - ay) != (by - ay) * (cx - ax)


def given(stream):
    """The files on standard input."""
    for n in range(2**32):
        head = stream.read(4)
        if not head:
            return
        length = int.from_bytes(head, "little")
        file = stream.read(length)
        if len(head) < 4 or len(file) < length:
            sys.exit(f"viewer: standard input breaks off in file {n}")
        yield f"given {n}", file


def main():
    geos = Geos()
    if sys.argv[1:] == ["--version"]:
        print(geos.version())
        return
    files = recordings = triangles = 0
    for source in (examples(), made(), given(sys.stdin.buffer)):
        for name, file in source:
            for recording in meskelow.recordings(file):
                text = meskelow.wkt(file, recording.id)
                if not is_same(geos.read(text), recording.triangles):
                    sys.exit(f"viewer: GEOS reads recording {recording.id} of {name} otherwise than it is stored: {text[:300]}")
                recordings += 1
                triangles += len(recording.triangles)
            files += 1
    notice(geos)
    print(f"viewer: GEOS {geos.version()} reads {recordings} recordings of {files} files, {triangles} triangles, as they are stored")


def notice(geos):
    """What differs is seen to differ."""
    stored = [[(0, 0), (400, 0), (0, -5)], [(1, 1), (2, 1), (1, 2)]]
    one, other = "POLYGON ((0.00 0.00, 4.00 0.00, 0.00 -0.05, 0.00 0.00))", "POLYGON ((0.01 0.01, 0.02 0.01, 0.01 0.02, 0.01 0.01))"
    assert is_same(geos.read(f"GEOMETRYCOLLECTION ({one}, {other})"), stored)
    for text in (
        f"GEOMETRYCOLLECTION ({other}, {one})",
        f"GEOMETRYCOLLECTION ({one})",
        f"GEOMETRYCOLLECTION ({one}, {other}, {other})",
        f"GEOMETRYCOLLECTION ({one}, {other}",
        f"GEOMETRYCOLLECTION ({one}, {other.replace('0.02 0.01', '0.01 0.02, 0.02 0.01')})",
        f"GEOMETRYCOLLECTION ({one.replace('-0.05', '0.05')}, {other})",
        f"GEOMETRYCOLLECTION ({one.replace('((0.00', '((-0.00')}, {other})",
        f"GEOMETRYCOLLECTION ({one}, POINT (0 0))",
        "GEOMETRYCOLLECTION EMPTY",
        f"MULTIPOLYGON ({one[8:]}, {other[8:]})",
        one,
        "",
    ):
        assert not is_same(geos.read(text), stored), text


if __name__ == "__main__":
    main()
