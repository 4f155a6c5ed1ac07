"""Tests of draw.py. A picture is read back: its triangles, its scale and its texts must be those of the file and of its leak list.

    test_draw.py [WORDS...]     the words that start a Python that can load the library, else the one that runs this
"""

import contextlib
import functools
import itertools
import os
import pathlib
import random
import re
import shutil
import subprocess
import sys
import tempfile
import types
import unittest
import xml.etree.ElementTree

import draw
import meskelow

ROOT = pathlib.Path(__file__).resolve().parent.parent
EXAMPLES = ROOT / "examples"
PYTHON = sys.argv[1:] or [sys.executable]
NAMES = ("night", "clean", "leak", "old", "neighbours", "editions", "sums")
SVG = "{http://www.w3.org/2000/svg}"
OLD = meskelow.FORMERLY_HELD_BACK
SETS = {meskelow.TRAINING: ("training", "#0072b2"), meskelow.TEST: ("test", "#f0a500"), OLD: ("formerly held back (training)", "#b3d4ea")}
SLIVER = "#a0286e"
NUMBER = re.compile(r"-?(?:[0-9]+(?:\.[0-9]+)?|\.[0-9]+)")

V = [(0, 0), (400, 0), (0, 400)]
FAR = 1000000


def example(name):
    return (EXAMPLES / f"{name}.footprint").read_bytes()


def file_of(*recordings):
    """The file with these recordings: id, set, triangles, and an edition if it is not the first. The set of old files is put in
    afterwards, as nothing is written with it."""
    drafts = (types.SimpleNamespace(id=i, set=which % OLD, triangles=own, last=sum(last)) for i, which, own, *last in recordings)
    file = bytearray(meskelow.write(drafts))
    table = int.from_bytes(file[-12:-8], "little")
    file[table + 10 : -12 : 12] = bytes(recording[1] for recording in recordings)
    return bytes(file)


def strip(x, y, dx, dy, steps, half):
    """Two triangles for each step of a way, with a width of about twice the half."""
    length = max(abs(dx), abs(dy))
    off = -dy * half // length, dx * half // length
    triangles = []
    for k in range(steps):
        (a, b), (c, d) = (((x + i * dx - off[0], y + i * dy - off[1]), (x + i * dx + off[0], y + i * dy + off[1])) for i in (k, k + 1))
        triangles += [(a, b, c), (b, d, c)] if k % 3 else [(b, a, c), (b, d, c)]  # either way round
    return triangles


def crossings(pairs, seed):
    """A file with so many training recordings, and across each a test recording."""
    source = random.Random(seed)
    recordings = []
    for i in range(pairs):
        x, y = source.randint(-900000, 600000), source.randint(-600000, 600000)
        recordings.append((240900000 + i, 0, strip(x, y, 17000, source.randint(-6000, 6000), 12, source.randint(3000, 9000))))
        recordings.append((240900100 + i, 1, strip(x + 100000, y - 100000, source.randint(-6000, 6000), 17000, 12, 4000)))
    return file_of(*recordings)


def slivers_in(recordings, found):
    """The test and training recordings that overlap and have no line, by all their triangle pairs."""
    told = {(leak.test, leak.train) for leak in found.leaks}
    tests = [r for r in recordings if r.set == meskelow.TEST and r.last == meskelow.EDITION_2]
    pairs = [(test, train) for test in tests for train in recordings if train.set != meskelow.TEST and (test.id, train.id) not in told]

    def overlap(test, train):
        return any(meskelow.decide(u, v).kind is meskelow.Kind.OVERLAPPING for u in test.triangles for v in train.triangles)

    return [(test.id, train.id) for test, train in pairs if overlap(test, train)]


def soup(count, seed):
    """Triangles anywhere."""
    source = random.Random(seed)
    triangles = []
    while len(triangles) < count:
        a, b, c = triangle = [(source.randint(-FAR, FAR), source.randint(-FAR, FAR)) for _ in range(3)]
        if (b[0] - a[0]) * (c[1] - a[1]) != (b[1] - a[1]) * (c[0] - a[0]):
            triangles.append(triangle)
    return triangles


def made():
    """Files by their names, with what a picture may stumble over."""
    corner = [(FAR, FAR), (FAR - 1, FAR), (FAR, FAR - 1)]
    tiny = soup(1364, 5)
    beside = [(399, 0), (400, 400), (799, 400)]  # of V it has a corner, at (399, 0)
    return {
        "nothing": file_of(),
        "one centimetre": file_of((5, 1, [[(7, 7), (8, 7), (7, 8)]])),
        "at the far ends": file_of((1, 0, [corner]), (2, 1, [[(-x, -y) for x, y in corner]])),
        "a corner and a leak": file_of((1, 0, [corner]), (2, 1, [corner]), (3, 2, [[(-x, -y) for x, y in corner]])),
        "all over the sea": file_of((1, 0, [[(-FAR, -FAR), (FAR, -FAR), (-FAR, FAR)]]), (2, 1, [[(FAR, FAR), (FAR, -FAR), (-FAR, FAR)]])),
        "64 crossing": crossings(32, 3),
        "64 at one place": file_of(*((4294967232 + i, i % 2, [V]) for i in range(64))),
        "64 in a row": file_of(*((240910000 + i, i % 2, strip(-950000 + 29000 * i, 0, 7500, 0, 4, 4000)) for i in range(64))),
        "from west to east": file_of((1, 0, [[(-FAR, 0), (FAR, 0), (0, 1)]]), (2, 1, [[(-FAR, 0), (FAR, 1), (0, 1)]])),
        "from south to north": file_of((1, 0, [[(0, -FAR), (0, FAR), (1, 0)]]), (2, 1, [[(0, -FAR), (1, FAR), (1, 0)]]), (3, 2, [V])),
        "2,729 triangles": file_of((7, 1, strip(-900000, -500000, 650, 200, 1365, 4000)[:2729])),
        "many pairs": file_of((1, 0, tiny), (2, 1, tiny)),
        "formerly held back": file_of((1, OLD, [V])),
        "a leak with what was held back": file_of((1, OLD, [V]), (2, 1, [V]), (3, 0, [V])),
        "training": file_of((1, 0, [V]), (2, 0, [V])),
        "beside": file_of((1, 0, [V]), (2, 1, [beside], 1)),
        "beside what was held back": file_of((1, OLD, [V]), (2, 1, [beside], 1)),
        "beside one and on another": file_of((1, 0, [V]), (2, 1, [beside], 1), (3, 0, [beside])),
        "beside, with a neighbour": file_of((1, 0, [V]), (2, 1, [beside], 1), (4, 0, [[(400, 400), (799, 400), (799, 800)]])),
        "beside, at both ends": file_of(*((i, i % 2, strip(19990 * i, 0, 500, 0, 40, 50), i % 2) for i in range(3))),
        "beside, by edition 1": file_of((1, 0, [V]), (2, 1, [beside])),
        "all or nothing": file_of((1, 0, [V]), (2, 1, [V], 1), (3, 1, [[(x + 900, y) for x, y in V]], 1)),
        "64 beside each other": file_of(*((i, i % 2, strip(-950000 + 29900 * i, 0, 7500, 0, 4, 4000), i % 2) for i in range(64))),
        "twice": file_of((1, 0, strip(0, 0, 500, 0, 40, 50)), (2, 1, [t for x in (2000, 17000) for t in strip(x, -1000, 0, 200, 10, 20)])),
    }


class Read:
    """What a picture shows."""

    def __init__(self, svg):
        self.svg = svg
        self.root = xml.etree.ElementTree.fromstring(svg)
        self.width, self.height = (float(self.root.get(name)) for name in ("width", "height"))
        self.texts = ["".join(element.itertext()) for element in self.root.iter(f"{SVG}text")]
        self.labels = {"".join(e.itertext()): e for e in self.root.iter(f"{SVG}text") if re.fullmatch("[0-9]+", "".join(e.itertext()))}
        self.strips = [steps(path.get("d")) for path in self.root.iter(f"{SVG}path") if path.get("d").startswith("m")]

    def element(self, identity):
        return next(element for element in self.root.iter() if element.get("id") == identity)

    def bar(self):
        """How long the scale's bar is, and how many centimetres it stands for."""
        long = re.fullmatch(r"M[-0-9.]+ [-0-9.]+v7h([0-9.]+)v-7", self.element("scale").get("d"))[1]
        (metres,) = [re.fullmatch("([0-9,.]+) m", line)[1] for line in self.texts if re.fullmatch("[0-9,.]+ m", line)]
        return float(long), round(float(metres.replace(",", "")) * 100, 6)


def steps(d):
    """The corners of the parts of a path that has `m` and `z` alone."""
    triangles = []
    start = (0, 0)
    for part in d[:-1].split("z"):
        numbers = [round(float(n) * 100) for n in NUMBER.findall(part)]
        corners = list(itertools.accumulate(zip(numbers[::2], numbers[1::2]), lambda p, q: (p[0] + q[0], p[1] + q[1]), initial=start))
        triangles.append(corners[1:])
        start = corners[1]
    return triangles


def of_each(check):
    """A test of every picture."""

    @functools.wraps(check)
    def test(self):
        for name, file in self.files.items():
            with self.subTest(name=name):
                check(self, self.read[name], list(meskelow.recordings(file)), meskelow.leaks(file))

    return test


class Pictures(unittest.TestCase):
    @classmethod
    def setUpClass(cls):
        cls.files = {**{name: example(name) for name in NAMES}, **made()}
        cls.read = {name: Read(draw.picture(file, name)) for name, file in cls.files.items()}

    @contextlib.contextmanager
    def refused(self, number, place):
        with self.assertRaises(meskelow.Refused) as caught:
            yield
        self.assertEqual((caught.exception.number, caught.exception.place), (number, place))

    @of_each
    def test_document(self, read, recordings, found):
        """It stands for itself, says what it is, and is white below."""
        self.assertIs(type(read.svg), str)
        self.assertTrue(read.svg.startswith("<svg ") and read.svg.endswith("\n</svg>"))
        self.assertEqual((read.root.tag, read.root.get("role")), (f"{SVG}svg", "img"))
        self.assertEqual((read.root.get("aria-labelledby"), read.root.get("aria-describedby")), ("title", "desc"))
        self.assertEqual(read.root.get("viewBox"), f"0 0 {read.root.get('width')} {read.root.get('height')}")
        title, desc, white = list(read.root)[:3]
        self.assertEqual((title.tag, title.get("id"), desc.tag, desc.get("id")), (f"{SVG}title", "title", f"{SVG}desc", "desc"))
        self.assertIn(found.text, desc.text)
        self.assertEqual((white.tag, white.get("fill")), (f"{SVG}rect", "#fff"))
        self.assertEqual([white.get(name) for name in ("width", "height")], [read.root.get(name) for name in ("width", "height")])
        kinds = {element.tag for element in read.root.iter()}
        self.assertLessEqual(kinds, {SVG + kind for kind in "svg title desc rect g path circle text use clipPath".split()})
        names = [element.get("id") for element in read.root.iter() if element.get("id")]
        self.assertEqual(len(names), len(set(names)))
        for element in read.root.iter():
            for name, value in element.items():
                self.assertFalse(name.startswith("on") or "http" in value or "data:" in value)
                if "#" in value and name in ("href", "clip-path"):
                    self.assertIn(re.search(r"#(\w+)", value)[1], names)

    @of_each
    def test_ids(self, read, recordings, found):
        """Every recording of a leak has its id, and no other has; those of test recordings are bold."""
        self.assertEqual(set(read.labels), {str(i) for leak in found.leaks for i in (leak.test, leak.train)})
        self.assertEqual(sum(re.fullmatch("[0-9]+", line) is not None for line in read.texts), len(read.labels))
        bold = {label for label, element in read.labels.items() if element.get("font-weight") == "bold"}
        self.assertEqual(bold, {str(leak.test) for leak in found.leaks})

    @of_each
    def test_labels_are_apart(self, read, recordings, found):
        """As wide as digits are in wide fonts."""
        boxes = []
        for label, element in read.labels.items():
            x, y, size = (float(element.get(name)) for name in ("x", "y", "font-size"))
            half = len(label) * size * (0.35 if element.get("font-weight") == "bold" else 0.32)
            boxes.append((x - half, y - 0.75 * size, x + half, y))
        for a, b in itertools.combinations(boxes, 2):
            self.assertFalse(a[0] < b[2] and b[0] < a[2] and a[1] < b[3] and b[1] < a[3], (a, b))

    @of_each
    def test_colours(self, read, recordings, found):
        """A set's colour, its name and its count are there exactly if the set is."""
        for which, (name, colour) in SETS.items():
            count = sum(r.set == which for r in recordings)
            self.assertEqual(colour in read.svg, count > 0)
            words = f"{name}: {count} recording{'s' * (count > 1)}"
            self.assertEqual([line for line in read.texts if line.startswith(f"{name}: ")], [words] if count else [])

    @of_each
    def test_colours_of_strips(self, read, recordings, found):
        for which, (_, colour) in SETS.items():
            groups = [e for e in read.root.iter(f"{SVG}g") if e.get("fill") == colour]
            drawn = [steps(path.get("d")) for group in groups for path in group.iter(f"{SVG}path")]
            self.assertEqual(sorted(map(len, drawn)), sorted(len(r.triangles) for r in recordings if r.set == which))

    @of_each
    def test_sentence(self, read, recordings, found):
        (sentence,) = [line for line in read.texts if "leak" in line and line.endswith(".")]
        self.assertEqual(read.svg.count("no leaks") > 0, not found.leaks)
        self.assertEqual("no leaks" in sentence, not found.leaks)
        if recordings:
            self.assertIn(f"{found.touching} ", sentence)
            self.assertIn("only touch", sentence)
        else:
            self.assertIn("no recordings", sentence)
            self.assertIn("no recordings", read.texts)
        if found.leaks:
            self.assertTrue(sentence.startswith(f"{len(found.leaks)} leak"))
        entries = [line for line in read.texts if "overlap of test and training" in line]
        words = f": {len(found.leaks)} leak{'s' * (len(found.leaks) > 1)}"
        self.assertEqual([entry.endswith(words) for entry in entries], [True] if found.leaks else [])

    def test_words(self):
        for name, words in [
            ("nothing", "There are no leaks: the file has no recordings."),
            ("clean", "There are no leaks: no test recording overlaps a training recording. 0 pairs only touch."),
            ("neighbours", "There are no leaks: no test recording overlaps a training recording. 1 pair only touches."),
            ("leak", "1 leak: a test recording overlaps a training recording. 0 more pairs only touch."),
            ("night", "5 leaks: pairs of a test and a training recording that overlap. 7 more pairs only touch."),
            ("editions", "2 leaks, and 1 sliver that edition 2 allows. 1 more pair only touches."),
            ("sums", "1 leak, and 1 sliver that edition 2 allows. 0 more pairs only touch."),
            ("beside", "There are no leaks, and 1 sliver that edition 2 allows. 0 more pairs only touch."),
            ("beside, with a neighbour", "There are no leaks, and 1 sliver that edition 2 allows. 1 more pair only touches."),
            ("64 beside each other", "There are no leaks, and 63 slivers that edition 2 allows. 0 more pairs only touch."),
            ("beside, by edition 1", "1 leak: a test recording overlaps a training recording. 0 more pairs only touch."),
        ]:
            self.assertIn(words, self.read[name].texts)

    @of_each
    def test_triangles(self, read, recordings, found):
        """All of them are there, each as one part of its recording's path, where the scale says; y goes up; all one way round."""
        self.assertEqual(sum(map(len, read.strips)), sum(len(r.triangles) for r in recordings))
        if not recordings:
            return
        long, centimetres = read.bar()
        scale = long * 100 / centimetres
        left, bottom = (min(vertex[k] for r in recordings for t in r.triangles for vertex in t) for k in range(2))
        corners = [corner for triangles in read.strips for triangle in triangles for corner in triangle]
        west, south = min(x for x, _ in corners), max(y for _, y in corners)
        slack = 2 + 100000 * 0.5 / (long * 100)  # the bar's own rounding, over the whole picture

        def there(vertex):
            return west + (vertex[0] - left) * scale, south - (vertex[1] - bottom) * scale

        drawn = sorted(read.strips, key=repr)
        expected = [[[there(vertex) for vertex in triangle] for triangle in r.triangles] for r in recordings]
        for triangles in drawn:
            fits = [own for own in expected if len(own) == len(triangles) and all(same(t, o, slack) for t, o in zip(triangles, own))]
            self.assertNotEqual(fits, [])
            expected.remove(fits[0])
        self.assertEqual(expected, [])
        for a, b, c in itertools.chain(*read.strips):
            self.assertGreaterEqual((b[0] - a[0]) * (c[1] - a[1]) - (b[1] - a[1]) * (c[0] - a[0]), 0)

    @of_each
    def test_scale(self, read, recordings, found):
        """A bar of 1, 2 or 5 and zeros, in metres, neither short nor long."""
        if recordings:
            long, centimetres = read.bar()
            self.assertIn(f"{centimetres:.0f}".rstrip("0"), ("1", "2", "5"))
            self.assertTrue(60 <= long <= 180)
        else:
            self.assertNotIn('id="scale"', read.svg)

    def test_scales(self):
        self.assertEqual(self.read["night"].bar()[1], 200000)
        self.assertIn("2,000 m", self.read["night"].texts)
        self.assertIn("0.02 m", self.read["leak"].texts)

    @of_each
    def test_within(self, read, recordings, found):
        """Nothing lies outside the picture, and no strip, mark or label outside the map."""
        x, y, across, up = (float(list(read.root)[5].get(name)) for name in ("x", "y", "width", "height"))
        self.assertTrue(0 < x and x + across < read.width and 0 < y and y + up < read.height)
        points = [(cx / 100, cy / 100) for triangles in read.strips for triangle in triangles for cx, cy in triangle]
        for path in read.root.iter(f"{SVG}path"):
            if path.get("d").startswith("M") and path.get("id") != "scale":
                for command, numbers in re.findall("([MLA])([^MLAz]+)", path.get("d")):
                    points.append(tuple(float(n) for n in NUMBER.findall(numbers)[-2:]))
        for circle in read.root.iter(f"{SVG}circle"):
            cx, cy, r = (float(circle.get(name)) for name in ("cx", "cy", "r"))
            points += [(cx - r, cy - r), (cx + r, cy + r)]
        for label, element in read.labels.items():
            cx, cy, size = (float(element.get(name)) for name in ("x", "y", "font-size"))
            points += [(cx + sign * len(label) * size * 0.35, cy + drop) for sign in (-1, 1) for drop in (-0.75 * size, 0)]
        for px, py in points:
            self.assertTrue(x < px < x + across and y < py < y + up, (px, py))
        for element in read.root.iter(f"{SVG}text"):
            line, cx, cy, size = "".join(element.itertext()), *(float(element.get(name)) for name in ("x", "y", "font-size"))
            wide = len(line) * size * 0.64
            begin = cx - wide / 2 if element.get("text-anchor") == "middle" or line in read.labels else cx
            self.assertTrue(0 < begin and begin + wide < read.width and size < cy < read.height, line)
        for rect in list(read.root.iter(f"{SVG}rect"))[1:]:
            left, top, wide, high = (float(rect.get(name)) for name in ("x", "y", "width", "height"))
            self.assertTrue(0 < left and left + wide < read.width and 0 < top and top + high < read.height)

    @of_each
    def test_legend_is_apart(self, read, recordings, found):
        """Its entries and the scale do not lie on each other."""
        spans = []
        frame_bottom = sum(float(list(read.root)[5].get(name)) for name in ("y", "height"))
        for element in read.root.iter(f"{SVG}text"):
            line, x, y, size = "".join(element.itertext()), *(float(element.get(name)) for name in ("x", "y", "font-size"))
            if y > frame_bottom:
                wide = len(line) * size * 0.64
                left = x - wide / 2 if element.get("text-anchor") == "middle" else x - 34
                spans.append((left, y - 10, left + wide + (0 if element.get("text-anchor") else 34), y))
        for a, b in itertools.combinations(spans, 2):
            self.assertFalse(a[0] < b[2] and b[0] < a[2] and a[1] < b[3] and b[1] < a[3], (a, b))

    @of_each
    def test_overlaps(self, read, recordings, found):
        """Each test recording of a leak, or of a sliver, is cut to the training recordings that it overlaps. Leaks are black, and come
        later."""
        cut = {}
        for clip in read.root.iter(f"{SVG}clipPath"):
            cut[clip.get("id")] = [use.get("href") for use in clip]
        expected = {}
        for letter, pairs in [("s", slivers_in(recordings, found)), ("c", [leak[:2] for leak in found.leaks])]:
            for test, train in pairs:
                expected.setdefault(f"{letter}{test}", []).append(f"#r{train}")
        self.assertEqual(cut, expected)
        shown = []
        for group in read.root.iter(f"{SVG}g"):
            shown += [(group.get("fill"), use.get("href"), use.get("clip-path")) for use in group if use.get("clip-path")]
        colours = {"s": SLIVER, "c": "#000"}
        self.assertEqual(shown, [(colours[name[0]], f"#r{name[1:]}", f"url(#{name})") for name in expected])

    @of_each
    def test_slivers(self, read, recordings, found):
        """Their colour, their words and the broken line are there exactly if there are any; and it is written which they are."""
        slivers = slivers_in(recordings, found)
        words = f"{len(slivers)} sliver{'s' * (len(slivers) > 1)}"
        legend = [line for line in read.texts if line.startswith("overlap that edition 2 allows")]
        self.assertEqual(legend, [f"overlap that edition 2 allows, in a broken line: {words}"] if slivers else [])
        self.assertEqual(f", and {words} that edition 2 allows." in read.texts[1], slivers != [])
        self.assertEqual((SLIVER in read.svg, "sliver" in read.svg, 'id="slivers"' in read.svg), (slivers != [],) * 3)
        if slivers:
            (line,) = [group for group in read.root.iter(f"{SVG}g") if any(inner.get("id") == "slivers" for inner in group)]
            self.assertEqual((line.get("stroke"), line.get("stroke-dasharray")), (SLIVER, "5 3"))
        desc = list(read.root)[1].text.split(" The leak list:")[0]
        told = re.findall(" test ([0-9]+) and train ([0-9]+)[,.]", desc)
        self.assertEqual([(int(test), int(train)) for test, train in told], slivers)
        count = sum(r.last == meskelow.EDITION_2 for r in recordings)
        self.assertEqual(re.findall(" By edition 2: ([0-9]+) recordings?[.]", desc), [str(count)] if count else [])

    def test_marks(self):
        """There is a line around what strips share; places far from each other have one each."""
        for name, read in self.read.items():
            self.assertEqual('id="marks"' in read.svg, meskelow.leaks(self.files[name]).leaks != ())
        leaking = [("night", 4), ("leak", 1), ("twice", 2), ("a corner and a leak", 1), ("64 at one place", 1), ("editions", 2), ("sums", 1)]
        for name, count in leaking:
            with self.subTest(name=name):
                self.assertEqual(len(list(self.read[name].element("marks"))), count)
        for name, count in [("beside", 1), ("beside, at both ends", 2), ("64 beside each other", 63), ("editions", 1), ("sums", 1)]:
            with self.subTest(name=name):
                self.assertEqual(len(list(self.read[name].element("slivers"))), count)

    def test_sizes(self):
        """Small enough for a page, with all triangles that a file can have."""
        self.assertLess(len(self.read["night"].svg), 60000)
        for read in self.read.values():
            self.assertLess(len(read.svg), 300000)

    def test_refused(self):
        for file, number, place in [(b"", 11, 0), (bytes(65537), 11, 0), (example("cut"), 12, 0), (example("dropped"), 17, 24)]:
            with self.refused(number, place):
                draw.picture(file, "title")

    def test_kinds_of_bytes(self):
        file = example("leak")
        for lent in (bytearray(file), memoryview(file)):
            self.assertEqual(draw.picture(lent, "leak"), self.read["leak"].svg)
        with self.assertRaises(TypeError):
            draw.picture("examples/leak.footprint", "leak")

    def test_titles(self):
        """What a title has is text, whatever it is; only what XML cannot have is another sign. A long one is cut off, where it is seen."""
        for title, shown in [
            ("night.footprint", "night.footprint"),
            ("<script>&amp;\"'</svg>", "<script>&amp;\"'</svg>"),
            ("]]><!-- --><![CDATA[", "]]><!-- --><![CDATA["),
            ("gr\u00fc\u00dfe \u5c71 \U0001f41f", "gr\u00fc\u00dfe \u5c71 \U0001f41f"),
            ("a\nb\tc\x00\x01\x7f\x85\ud800\ufffe\uffff", "a\ufffdb\ufffdc" + "\ufffd" * 7),
            ("", ""),
        ]:
            with self.subTest(title=title):
                svg = draw.picture(example("leak"), title)
                read = Read(svg.encode("utf-8"))
                self.assertEqual((read.root[0].text or "", read.texts[0], read.texts[1:]), (shown, shown, self.read["leak"].texts[1:]))
                self.assertEqual((svg.count("</svg>"), len(svg.splitlines())), (1, len(self.read["leak"].svg.splitlines())))
        for length in (20, 43, 44, 60, 79, 80, 5000):
            read = Read(draw.picture(example("leak"), "W" * length))
            self.assertEqual(read.root[0].text, "W" * length)
            self.assertEqual(read.texts[0], "W" * length if length < 80 else "W" * 78 + "\u2026")
            self.assertLessEqual(len(read.texts[0]) * float(next(read.root.iter(f"{SVG}text")).get("font-size")) * 1.1, 960)
        self.assertEqual(Read(draw.picture(example("leak"))).texts[0], "A footprint file")


def same(triangle, other, slack):
    """Whether the corners are the same two by two, but for what rounding does; two of them may have changed places."""
    orders = (triangle, [triangle[0], triangle[2], triangle[1]])
    return any(all(abs(p[k] - q[k]) <= slack for p, q in zip(order, other) for k in range(2)) for order in orders)


class Parts(unittest.TestCase):
    def test_numbers(self):
        for hundredths, words in [(0, "0"), (1, ".01"), (10, ".1"), (99, ".99"), (100, "1"), (-1, "-.01"), (-150, "-1.5"), (2345, "23.45")]:
            self.assertEqual(draw.number(hundredths), words)

    def test_hull(self):
        square = [(0, 0), (4, 0), (4, 4), (0, 4)]
        self.assertEqual(sorted(draw.hull([*square, (2, 2), (2, 0), (0, 0)])), sorted(square))
        self.assertEqual(draw.hull([(1, 1), (1, 1)]), [(1, 1)])
        self.assertEqual(draw.hull([(0, 0), (2, 2), (1, 1)]), [(0, 0), (2, 2)])

    def test_around(self):
        self.assertEqual(draw.around([(0, 0)], 900), "M-9 0A9 9 0 0 1 9 0A9 9 0 0 1 -9 0z")
        self.assertEqual(draw.around([(0, 0), (500, 0)], 900), "M0 -9L5 -9A9 9 0 0 1 5 9L0 9A9 9 0 0 1 0 -9z")

    def test_shared_parts(self):
        """Where there are not very many all are found, as many as the list has; and of each leak one at least."""
        for file in (example("night"), example("leak"), example("editions"), crossings(32, 3)):
            recordings, found = list(meskelow.recordings(file)), meskelow.leaks(file)
            shared = draw.shared_parts(recordings, found.leaks, draw.chart_of(recordings, 0))
            for leak in found.leaks:
                self.assertEqual(sum((part.test, part.train) == (leak.test, leak.train) for part in shared), leak.pairs)
        for file in (file_of((1, 0, [V] * 1300), (2, 1, [V] * 1300)), file_of(*((i, i % 2, [V] * 40) for i in range(64)))):
            recordings, found = list(meskelow.recordings(file)), meskelow.leaks(file)
            shared = draw.shared_parts(recordings, found.leaks, draw.chart_of(recordings, 0))
            self.assertEqual({(part.test, part.train) for part in shared}, {(leak.test, leak.train) for leak in found.leaks})
            self.assertLess(len(shared), 2000)


    def test_slivers_of(self):
        """With the number of triangle pairs, in the list's order; whatever lends the bytes, which stay as they are."""
        file = bytearray(file_of((1, 0, [V]), (2, 1, [V, V], 1), (3, OLD, [V]), (4, 1, [V]), (5, 1, [V, [(x + 9, y) for x, y in V]], 1)))
        self.assertEqual(draw.slivers_of(file, meskelow.leaks(file)), [])
        sums = example("sums")
        for lent in (sums, bytearray(sums), memoryview(sums), memoryview(sums).cast("I")):
            self.assertEqual(draw.slivers_of(lent, meskelow.leaks(lent)), [(9, 8, 3)])
            self.assertEqual(bytes(lent), sums)
        self.assertEqual(draw.slivers_of(example("editions"), meskelow.leaks(example("editions"))), [(240925002, 240925001, 3)])
        self.assertEqual(draw.slivers_of(file_of(), meskelow.leaks(file_of())), [])


class Command(unittest.TestCase):
    def ends(self, status, *words, script=ROOT / "python" / "draw.py", options=(), **streams):
        """Runs the command, and returns what it wrote. With status 3 standard error says why, and else nothing."""
        streams.setdefault("stdout", subprocess.PIPE)
        command = [*PYTHON, "-E", "-s", "-B", *options, os.fspath(script), *words]
        ended = subprocess.run(command, stderr=subprocess.PIPE, check=False, **streams)
        self.assertEqual((ended.returncode, ended.stderr != b""), (status, status != 0), ended.stderr)
        if status != 0:
            self.assertTrue(ended.stderr.startswith(b"draw.py: no picture: ") and ended.stderr.count(b"\n") == 1, ended.stderr)
        return ended.stdout

    def test_pictures(self):
        for name in NAMES:
            self.assertEqual(self.ends(0, name, input=example(name)).decode(), draw.picture(example(name), name) + "\n")
        self.assertEqual(self.ends(0, input=example("leak")).decode(), draw.picture(example("leak"), "A footprint file") + "\n")

    def test_the_night(self):
        """The picture in docs/ is the one that is drawn."""
        drawn = self.ends(0, "night.footprint", input=example("night"))
        self.assertEqual((ROOT / "docs" / "night.svg").read_bytes(), drawn)

    def test_refused(self):
        for file, line in [
            (b"", b"refused 11 at 0\n"),
            (bytes(70000), b"refused 11 at 0\n"),
            (example("leak") + bytes(65536), b"refused 11 at 0\n"),
            (example("cut"), b"refused 12 at 0\n"),
            (example("cut_night"), b"refused 12 at 0\n"),
            (example("dropped"), b"refused 17 at 24\n"),
        ]:
            self.assertEqual(self.ends(0, "title", input=file), line)

    def test_titles(self):
        """In UTF-8, in every locale; what is no text is another sign."""
        for title, shown in [(b"<&>", "<&>"), ("\u5c71.footprint".encode(), "\u5c71.footprint"), (b"\xff.footprint", "\ufffd.footprint")]:
            for locale, mode in itertools.product(("C", "C.UTF-8", "en_US.ISO-8859-1"), ("utf8=0", "utf8=1")):
                drawn = self.ends(0, title, options=("-X", mode), input=example("leak"), env={**os.environ, "LC_ALL": locale})
                self.assertEqual(drawn.decode("utf-8"), draw.picture(example("leak"), shown) + "\n")

    def test_the_same_everywhere(self):
        """Whatever the seed of hashes is. (With -E it would not be heeded.)"""
        for seed in ("0", "1", "77"):
            environment = {**os.environ, "PYTHONHASHSEED": seed}
            script = "import sys, draw; sys.stdout.write(draw.picture(sys.stdin.buffer.read(), 'night.footprint') + '\\n')"
            streams = {"input": example("night"), "stdout": subprocess.PIPE, "cwd": ROOT / "python", "env": environment}
            ended = subprocess.run([*PYTHON, "-B", "-c", script], check=True, **streams)
            self.assertEqual(ended.stdout, (ROOT / "docs" / "night.svg").read_bytes())

    def test_wrong_usage(self):
        self.assertEqual(self.ends(3, "night", "title", input=example("leak")), b"")

    def test_what_cannot_be_read(self):
        with open("/dev/null", "wb") as unreadable:
            self.assertEqual(self.ends(3, "title", stdin=unreadable), b"")
        self.assertEqual(self.without(0), b"")
        command = [*PYTHON, "-E", "-s", "-B", os.fspath(ROOT / "python" / "draw.py")]
        handle = os.open(EXAMPLES, os.O_RDONLY)  # Python does not begin with a directory, and has a status of its own
        ended = subprocess.run(command, stdin=handle, stdout=subprocess.PIPE, stderr=subprocess.PIPE, check=False)
        os.close(handle)
        self.assertEqual((ended.returncode != 0, ended.stdout), (True, b""))

    def test_what_cannot_be_written(self):
        with open("/dev/full", "wb") as full:
            self.ends(3, "title", input=example("night"), stdout=full)
            self.ends(3, "title", input=example("cut"), stdout=full)
        with open("/dev/null", "rb") as unwritable:
            self.ends(3, "title", input=example("leak"), stdout=unwritable)
        read, written = os.pipe()
        os.close(read)
        self.ends(3, "title", input=example("night"), stdout=written)
        os.close(written)
        self.without(1)

    def without(self, handle):
        """The same, where standard input or output is closed."""
        words = {} if handle == 0 else {"stdout": None}
        return self.ends(3, "title", input=None if handle == 0 else example("leak"), preexec_fn=lambda: os.close(handle), **words)

    def test_a_file_that_may_not_grow(self):
        import resource

        def limit():
            resource.setrlimit(resource.RLIMIT_FSIZE, (1000, 1000))

        with tempfile.TemporaryFile() as file:
            self.ends(3, "title", input=example("night"), stdout=file, preexec_fn=limit)
            file.seek(0)
            self.assertNotIn(b"</svg>", file.read())

    def test_no_library(self):
        """The words of the module that has none, and how it is made."""
        with tempfile.TemporaryDirectory() as directory:
            python = pathlib.Path(directory, "python")
            python.mkdir()
            for name in ("draw.py", "meskelow.py"):
                shutil.copy(ROOT / "python" / name, python / name)
            self.assertEqual(self.ends(3, "title", script=python / "draw.py", input=example("leak")), b"")

    def test_no_standard_error(self):
        """The status tells it all the same."""
        command = [*PYTHON, "-E", "-s", "-B", os.fspath(ROOT / "python" / "draw.py"), "one", "two"]
        ended = subprocess.run(command, input=b"", stdout=subprocess.PIPE, preexec_fn=lambda: os.close(2), check=False)
        self.assertEqual((ended.returncode, ended.stdout), (3, b""))


if __name__ == "__main__":
    unittest.main(argv=sys.argv[:1])
