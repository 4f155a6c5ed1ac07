"""A picture of a footprint file: the strips of its recordings, in which the leaks are marked, as SVG.

    python3 -E -B python/draw.py [TITLE] <night.footprint >night.svg

prints the picture, or for a file that the rules refuse the line `refused N at P`, and ends with status 0. With any other status, which
is 3 unless Python itself does not begin, there is no picture, or not all of one: standard error says why. From Python:

    import draw

    svg = draw.picture(file, "night.footprint")     # raises meskelow.Refused, 11 to 18

Training recordings are blue, test recordings orange, and those of old files that were held back once, which are training too, light
blue with a broken outline. Recordings that stand in the leak list have a black outline and their ids; what a test recording shares
with training recordings is black, with a line around it, since it may be too small to be seen. Where that is no leak, as the test
recording is of edition 2 and it is a sliver, it is purple, with a broken line around it. Both axes have one scale, x to the right and
y upwards.

All is computed in whole numbers, so the same file and title give the same bytes everywhere. (Where the parts lie that strips share
is the library's answer, in f64, which is the same everywhere too.)
"""

from __future__ import annotations

import itertools
import math
import os
import sys
from typing import Container, Dict, Iterable, Iterator, List, NamedTuple, Sequence, Set, Tuple

import meskelow

# Lengths in the picture are whole hundredths of its unit, which is a pixel unless the picture is scaled.
UNIT = 100
WIDTH = 1000 * UNIT
MARGIN = 20 * UNIT
PADDING = 22 * UNIT  # between the map's frame and what is on it
TOP = 76 * UNIT  # where the map begins
HIGHEST = 640 * UNIT  # of what is on the map
LARGEST = 80 * UNIT  # for a centimetre
LONGEST_BAR = 180 * UNIT
FONT = 13 * UNIT
LINE = 24 * UNIT  # from one line of the legend to the next


class Style(NamedTuple):
    """How the recordings of a set are drawn. The three differ in lightness too, and one has a broken outline."""

    name: str
    fill: str
    stroke: str  # the colour of the outline, and of ids
    dashes: str


STYLES = {
    meskelow.TRAINING: Style("training", "#0072b2", "#00456b", ""),
    meskelow.TEST: Style("test", "#f0a500", "#7a4b00", ""),
    meskelow.FORMERLY_HELD_BACK: Style("formerly held back (training)", "#b3d4ea", "#00456b", ' stroke-dasharray="3 2"'),
}
MARK = "#000"
SLIVER = "#a0286e"

AROUND = 9 * UNIT  # from what strips share to the line around it
BROKEN = 13 * UNIT  # the same for slivers, so that either line is seen where there are both
ENOUGH = 1500  # shared parts, to know where that line goes
CELL = 6 * UNIT  # of the squares by which labels know what they cover

# Sixteen directions, as thousandths.
DIRECTIONS = [(1000, 0), (924, 383), (707, 707), (383, 924), (0, 1000), (-383, 924), (-707, 707), (-924, 383)]
DIRECTIONS += [(-x, -y) for x, y in DIRECTIONS]

Point = Tuple[int, int]


class Box(NamedTuple):
    """An upright box, by its least and its greatest coordinates."""

    left: int
    top: int
    right: int
    bottom: int

    def meets(self, other: Box) -> bool:
        return self.left <= other.right and other.left <= self.right and self.top <= other.bottom and other.top <= self.bottom

    def holds(self, other: Box) -> bool:
        return self.left <= other.left and other.right <= self.right and self.top <= other.top and other.bottom <= self.bottom

    def wider(self, by: int) -> Box:
        return Box(self.left - by, self.top - by, self.right + by, self.bottom + by)

    def middle(self) -> Point:
        return (self.left + self.right) // 2, (self.top + self.bottom) // 2


def box_of(points: Iterable[Point]) -> Box:
    xs, ys = zip(*points)
    return Box(min(xs), min(ys), max(xs), max(ys))


class Chart(NamedTuple):
    """Where the map is in the picture, and what a place in centimetres is there."""

    frame: Box
    sea: Box  # the box around all triangles, in centimetres
    numerator: int  # so many hundredths for
    denominator: int  # so many centimetres

    def length(self, centimetres: int) -> int:
        return (2 * centimetres * self.numerator + self.denominator) // (2 * self.denominator)

    def at(self, point: Sequence[int]) -> Point:
        left = (self.frame.left + self.frame.right - self.length(self.sea.right - self.sea.left)) // 2
        top = (self.frame.top + self.frame.bottom - self.length(self.sea.bottom - self.sea.top)) // 2
        return left + self.length(point[0] - self.sea.left), top + self.length(self.sea.bottom - point[1])


class Label(NamedTuple):
    """An id beside its recording."""

    text: str
    style: Style
    bold: bool
    anchor: Point  # on the recording's strip
    end: Point  # of the line from there to the label
    box: Box


def picture(file: meskelow.Bytes, title: str = "A footprint file") -> str:
    """The picture of the file, as the text of an SVG document without a line feed at its end. Raises `meskelow.Refused`, 11 to 18."""
    recordings = list(meskelow.recordings(file))
    found = meskelow.leaks(file)
    slivers = slivers_of(file, found)
    leaking = ids_of(found.leaks)
    chart = chart_of(recordings, len(leaking))
    title = "".join(c if is_character(c) else "\ufffd" for c in title)
    legend, height = legend_of(recordings, len(found.leaks), len(slivers), len(leaking), chart)
    sentence = sentence_of(found, len(slivers), len(recordings))
    parts = [
        f'<svg xmlns="http://www.w3.org/2000/svg" width="{number(WIDTH)}" height="{number(height)}"'
        f' viewBox="0 0 {number(WIDTH)} {number(height)}" font-family="sans-serif"'
        ' role="img" aria-labelledby="title" aria-describedby="desc">',
        f'<title id="title">{escaped(title)}</title>',
        f'<desc id="desc">{sentence} {sets_in_words(recordings)}{editions_in_words(recordings, slivers)} The y axis points up.'
        f" The leak list:\n{found.text}</desc>",
        f'<rect width="{number(WIDTH)}" height="{number(height)}" fill="#fff"/>',
        headline(title),
        text(MARGIN, 61 * UNIT, sentence, 15 * UNIT),
        rectangle(chart.frame, ' fill="none" stroke="#bbb"'),
        *map_of(recordings, found.leaks, slivers, chart),
        *legend,
        "</svg>",
    ]
    return "\n".join(parts)


def slivers_of(file: meskelow.Bytes, found: meskelow.LeakList) -> List[meskelow.Leak]:
    """The recordings that overlap and do not leak: those that the list has beside the leaks if every last byte is that of edition 1."""
    first = bytearray(memoryview(file).tobytes())
    lasts = slice(int.from_bytes(first[-12:-8], "little") + 11, -12, 12)  # from the table's place, which the trailer has
    first[lasts] = bytes([meskelow.EDITION_1]) * len(first[lasts])
    told = set(found.leaks)
    return [leak for leak in meskelow.leaks(first).leaks if leak not in told]


def ids_of(leaks: Iterable[meskelow.Leak]) -> Set[int]:
    return {i for leak in leaks for i in (leak.test, leak.train)}


# ---- words


def sentence_of(found: meskelow.LeakList, slivers: int, recordings: int) -> str:
    if recordings == 0:
        return "There are no leaks: the file has no recordings."
    touching = "1 more pair only touches" if found.touching == 1 else f"{found.touching} more pairs only touch"
    if slivers > 0:
        leaks = "1 leak" if len(found.leaks) == 1 else f"{len(found.leaks)} leaks" if found.leaks else "There are no leaks"
        return f"{leaks}, and {slivers} sliver{'s' * (slivers > 1)} that edition 2 allows. {touching}."
    if not found.leaks:
        touching = touching.replace(" more", "")
        return f"There are no leaks: no test recording overlaps a training recording. {touching}."
    if len(found.leaks) == 1:
        return f"1 leak: a test recording overlaps a training recording. {touching}."
    return f"{len(found.leaks)} leaks: pairs of a test and a training recording that overlap. {touching}."


def counted(n: int) -> str:
    return "1 recording" if n == 1 else f"{n} recordings"


def sets_in_words(recordings: Sequence[meskelow.Recording]) -> str:
    counts = [(style.name, sum(r.set == which for r in recordings)) for which, style in STYLES.items()]
    return f"{counted(len(recordings))}: {', '.join(f'{name} {n}' for name, n in counts)}."


def editions_in_words(recordings: Sequence[meskelow.Recording], slivers: Sequence[meskelow.Leak]) -> str:
    count = sum(r.last == meskelow.EDITION_2 for r in recordings)
    if count == 0:
        return ""
    pairs = f" Slivers, which it allows: {', '.join(f'test {s.test} and train {s.train}' for s in slivers)}." if slivers else ""
    return f" By edition 2: {counted(count)}.{pairs}"


def is_character(c: str) -> bool:
    """Whether a line of XML can have it, and a reader see it."""
    return " " <= c <= "~" or "\xa0" <= c <= "\ud7ff" or "\ue000" <= c <= "\ufffd" or c >= "\U00010000"


def escaped(line: str) -> str:
    return line.replace("&", "&amp;").replace("<", "&lt;").replace(">", "&gt;")


# ---- elements


def number(hundredths: int) -> str:
    """So many hundredths, with no more digits than are needed."""
    whole, rest = divmod(abs(hundredths), 100)
    digits = f"{whole}.{rest:02d}".rstrip("0").rstrip(".")
    return ("-" if hundredths < 0 else "") + (digits[1:] if digits.startswith("0.") else digits)


def text(x: int, y: int, line: str, size: int, more: str = "") -> str:
    return f'<text x="{number(x)}" y="{number(y)}" font-size="{number(size)}"{more}>{escaped(line)}</text>'


def headline(title: str) -> str:
    """The title in one line that is no wider than the map: in smaller letters if it is long, and at last cut off."""
    line = title if len(title) <= 79 else title[:78] + "\u2026"
    size = min(20 * UNIT, (WIDTH - 2 * MARGIN) * 100 // (110 * max(len(line), 1)))  # a W of 20 is 22 wide
    return text(MARGIN, 36 * UNIT, line, size, ' font-weight="bold"')


def rectangle(box: Box, more: str) -> str:
    sides = f'width="{number(box.right - box.left)}" height="{number(box.bottom - box.top)}"'
    return f'<rect x="{number(box.left)}" y="{number(box.top)}" {sides}{more}/>'


def width_of(line: str, size: int, bold: bool = False) -> int:
    """How wide a line is at most, in the usual fonts."""
    return len(line) * size * (70 if bold else 64) // 100


def path_of(recording: meskelow.Recording, chart: Chart) -> str:
    """A part `m .. z` for each triangle: where it begins from where the one before did, and two steps. All run the same way round, so
    that no part is taken out of another where they overlap."""
    steps = []
    before = (0, 0)
    for triangle in recording.triangles:
        a, b, c = (chart.at(vertex) for vertex in triangle)
        if (b[0] - a[0]) * (c[1] - a[1]) < (b[1] - a[1]) * (c[0] - a[0]):
            b, c = c, b
        numbers = [number(q[k] - p[k]) for p, q in ((before, a), (a, b), (b, c)) for k in range(2)]
        steps.append("m" + "".join(n if i == 0 or n.startswith("-") else " " + n for i, n in enumerate(numbers)) + "z")
        before = a
    return "".join(steps)


# ---- the map


def chart_of(recordings: Sequence[meskelow.Recording], labels: int) -> Chart:
    """As large as there is room, but no centimetre larger than LARGEST. Where there are many labels the map is never low."""
    vertices = [vertex for r in recordings for triangle in r.triangles for vertex in triangle]
    sea = box_of(vertices or [(0, 0)])
    across, up = max(sea.right - sea.left, 1), max(sea.bottom - sea.top, 1)
    room = WIDTH - 2 * MARGIN - 2 * PADDING
    fits = [(room, across), (HIGHEST, up), (LARGEST, 1)]
    numerator, denominator = fits[0]
    for n, d in fits[1:]:
        if n * denominator < numerator * d:
            numerator, denominator = n, d
    needed = max(up * numerator // denominator + 1, min(160 + 6 * labels, 460) * UNIT)
    frame = Box(MARGIN, TOP, WIDTH - MARGIN, TOP + (needed + 2 * PADDING + UNIT - 1) // UNIT * UNIT)
    return Chart(frame, sea, numerator, denominator)


def map_of(
    recordings: Sequence[meskelow.Recording], leaks: Sequence[meskelow.Leak], slivers: Sequence[meskelow.Leak], chart: Chart
) -> Iterator[str]:
    if not recordings:
        x, y = chart.frame.middle()
        yield text(x, y, "no recordings", 18 * UNIT, ' text-anchor="middle" fill="#595959"')
        return
    leaking, shown = ids_of(leaks), ids_of(slivers)
    upwards = (meskelow.FORMERLY_HELD_BACK, meskelow.TRAINING, meskelow.TEST)
    for which in upwards:
        yield from strips([r for r in recordings if r.set == which and r.id not in leaking], STYLES[which], shown, chart)
    for which in upwards:
        yield from outlined_strips([r for r in recordings if r.set == which and r.id in leaking], STYLES[which], chart)
    shared = shared_parts(recordings, leaks, chart)
    marks, around_slivers = marks_of(shared), marks_of(shared_parts(recordings, slivers, chart))
    if slivers:
        yield from overlaps(slivers, "s", SLIVER)
        yield from marked(around_slivers, BROKEN, "slivers", SLIVER, ' stroke-dasharray="5 3"')
    if leaks:
        yield from overlaps(leaks, "c", MARK)
        yield from marked(marks, AROUND, "marks", MARK)
        yield from labelled(labels_of(recordings, leaking, shared, [*marks, *around_slivers], chart))


def strips(recordings: Sequence[meskelow.Recording], style: Style, shown: Container[int], chart: Chart) -> Iterator[str]:
    """The outline comes first and the fill over it, so that of a strip's triangles only what lies outside has a line. What is too
    small to be seen has a dot around it. Those that are shown again have a name for it."""
    if recordings:
        line = f'stroke="{style.stroke}" stroke-linejoin="round"{style.dashes}'
        yield f'<g fill="{style.fill}" {line} paint-order="stroke" opacity=".85">'
        for r in recordings:
            name = f' id="r{r.id}"' if r.id in shown else ""
            yield f'<path{name} d="{path_of(r, chart)}"/>{dot_of(r, chart)}'
        yield "</g>"


def outlined_strips(recordings: Sequence[meskelow.Recording], style: Style, chart: Chart) -> Iterator[str]:
    """The strips in their colour, however thin they are, with a black outline."""
    if recordings:
        line = 'stroke-linejoin="round" stroke-linecap="round"'  # also what is a point has it
        yield f'<g fill="{MARK}" stroke="{MARK}" stroke-width="3.6" {line}>'
        yield from (f'<use href="#r{r.id}"/>' for r in recordings)
        yield "</g>"
        yield f'<g fill="{style.fill}" stroke="{style.fill}" stroke-width="1.2" {line}>'
        yield from (f'<path id="r{r.id}" d="{path_of(r, chart)}"/>' for r in recordings)
        yield "</g>"


def dot_of(recording: meskelow.Recording, chart: Chart) -> str:
    box = box_of(chart.at(vertex) for triangle in recording.triangles for vertex in triangle)
    if max(box.right - box.left, box.bottom - box.top) > 5 * UNIT:
        return ""
    x, y = box.middle()
    return f'<circle cx="{number(x)}" cy="{number(y)}" r="4"/>'


def overlaps(leaks: Iterable[meskelow.Leak], letter: str, colour: str) -> Iterator[str]:
    """Each test recording once more, in this colour, cut to the training recordings that it overlaps."""
    trains: Dict[int, List[int]] = {}
    for leak in leaks:
        trains.setdefault(leak.test, []).append(leak.train)
    for test, own in trains.items():
        yield f'<clipPath id="{letter}{test}">{"".join(f"""<use href="#r{i}"/>""" for i in own)}</clipPath>'
    yield f'<g fill="{colour}" stroke="none">'
    for test in trains:
        yield f'<use href="#r{test}" clip-path="url(#{letter}{test})"/>'
    yield "</g>"


# ---- what strips share


class Shared(NamedTuple):
    """A triangle of a test recording and one of a training recording that overlap, and the corners of what they share."""

    test: int  # the recordings' ids
    train: int
    u: int  # the triangles' numbers in their recordings
    v: int
    ring: Tuple[Point, ...]  # in the picture


def shared_parts(recordings: Sequence[meskelow.Recording], leaks: Sequence[meskelow.Leak], chart: Chart) -> List[Shared]:
    """Parts that the recordings of leaks, or of slivers, share, of each two at least one: all, if there are not many more than ENOUGH,
    and else some from all over the test recording."""
    by_id = {r.id: r for r in recordings}
    most = max(ENOUGH // max(len(leaks), 1), 1)
    return [part for leak in leaks for part in parts_of(leak, by_id[leak.test], by_id[leak.train], chart, most)]


def parts_of(leak: meskelow.Leak, test: meskelow.Recording, train: meskelow.Recording, chart: Chart, most: int) -> List[Shared]:
    vs = [(k, v, box_of(v)) for k, v in enumerate(train.triangles)]
    around_train = box_of(vertex for v in train.triangles for vertex in v)
    us = [(i, u, box_of(u)) for i, u in enumerate(test.triangles)]
    us = [u for u in us if u[2].meets(around_train)]
    us.sort(key=lambda u: u[0] * 40503 % 65536)  # so that those which follow each other lie far apart
    each = leak.pairs if leak.pairs <= most else max(most // len(us), 1)
    parts: List[Shared] = []
    for i, u, around_u in us:
        own = (k for k, v, around_v in vs if around_u.meets(around_v) and meskelow.decide(u, v).kind is meskelow.Kind.OVERLAPPING)
        for k in itertools.islice(own, each):
            ring = meskelow.intersect(u, train.triangles[k]).ring
            parts.append(Shared(test.id, train.id, i, k, tuple(chart.at([round(c) for c in corner]) for corner in ring)))
        if len(parts) >= most:
            break
    return parts


def marks_of(shared: Sequence[Shared]) -> List[List[Point]]:
    """The corners of shapes around what is shared. Parts that lie close together, or are joined by such, have one."""
    boxes = [box_of(part.ring).wider(6 * UNIT) for part in shared]
    left = list(range(len(shared)))
    marks = []
    while left:
        joined, left = left[:1], left[1:]
        for i in joined:
            near = {k for k in left if boxes[i].meets(boxes[k])}
            joined += sorted(near)
            left = [k for k in left if k not in near]
        corners = [corner for i in joined for corner in shared[i].ring]
        marks.append(hull((round_to(x, 50), round_to(y, 50)) for x, y in corners))
    return marks


def round_to(value: int, step: int) -> int:
    return (value + step // 2) // step * step


def hull(points: Iterable[Point]) -> List[Point]:
    """The corners of the smallest convex shape around the points, clockwise on the screen."""
    ordered = sorted(set(points))
    if len(ordered) < 3:
        return ordered
    halves = []
    for row in (ordered, ordered[::-1]):
        half: List[Point] = []
        for point in row:
            while len(half) > 1 and side(half[-2], half[-1], point) <= 0:
                half.pop()
            half.append(point)
        halves += half[:-1]
    return halves


def around(corners: Sequence[Point], distance: int) -> str:
    """The line at this distance around a convex shape: straight along its sides, and an arc at each corner."""
    arc = f"A{number(distance)} {number(distance)} 0 0 1 "
    if len(corners) == 1:
        x, y = corners[0]
        left, right = (f"{number(x + off)} {number(y)}" for off in (-distance, distance))
        return f"M{left}{arc}{right}{arc}{left}z"
    ends = []
    for p, q in zip(corners, [*corners[1:], corners[0]]):
        x, y = q[0] - p[0], q[1] - p[1]
        length = math.isqrt((x * x + y * y) * 10**8)
        off = y * distance * 10**4 // length, -x * distance * 10**4 // length
        ends.append([f"{number(end[0] + off[0])} {number(end[1] + off[1])}" for end in (p, q)])
    return f"M{ends[0][0]}" + "".join(f"L{this[1]}{arc}{following[0]}" for this, following in zip(ends, ends[1:] + ends[:1])) + "z"


def marked(marks: Sequence[Sequence[Point]], distance: int, name: str, stroke: str, dashes: str = "") -> Iterator[str]:
    yield from on_white(name, [f'<path d="{around(mark, distance)}"/>' for mark in marks], stroke, "1.8", "4.5", dashes)


def on_white(name: str, shapes: Sequence[str], stroke: str, width: str, below: str, dashes: str = "") -> Iterator[str]:
    """Lines that are seen on any strip, as there is white below them."""
    yield f'<use href="#{name}" stroke="#fff" stroke-width="{below}" opacity=".8"/>'
    yield f'<g stroke="{stroke}" stroke-width="{width}"{dashes}><g id="{name}" fill="none">'
    yield from shapes
    yield "</g></g>"


# ---- labels


def labels_of(
    recordings: Sequence[meskelow.Recording],
    leaking: Iterable[int],
    shared: Sequence[Shared],
    marks: Sequence[Sequence[Point]],
    chart: Chart,
) -> List[Label]:
    """A label for each leaking recording, one after the other where it costs least: near its strip, on no other label, and if possible
    on no strip, mark or line."""
    leaking = set(leaking)
    taken = {(part.test, part.u) for part in shared} | {(part.train, part.v) for part in shared}
    cells = cells_of(recordings, marks, chart)
    labels: List[Label] = []
    for r in recordings:
        if r.id in leaking:
            bold = r.set == meskelow.TEST
            size = width_of(str(r.id), FONT, bold) + 4 * UNIT, FONT * 5 // 4
            anchors = anchors_of(r, {i for identity, i in taken if identity == r.id}, chart)
            anchor, box = place(anchors, size, labels, cells, chart.frame.wider(-3 * UNIT))
            labels.append(Label(str(r.id), STYLES[r.set], bold, anchor, nearest(anchor, box), box))
    return labels


def anchors_of(recording: meskelow.Recording, taken: Iterable[int], chart: Chart) -> List[Point]:
    """The middles of some triangles, of such as overlap none if there are any: first of one near the strip's middle."""
    count = len(recording.triangles)
    free = sorted(set(range(count)) - set(taken)) or list(range(count))
    chosen = [min(free, key=lambda i: abs(2 * i + 1 - count)), free[len(free) // 4], free[len(free) * 3 // 4]]
    anchors = []
    for i in chosen:
        points = [chart.at(vertex) for vertex in recording.triangles[i]]
        anchors.append((sum(x for x, _ in points) // 3, sum(y for _, y in points) // 3))
    return list(dict.fromkeys(anchors))


def cells_of(recordings: Sequence[meskelow.Recording], marks: Sequence[Sequence[Point]], chart: Chart) -> Dict[Point, int]:
    """What it costs to cover the small squares of the map that have the edge of a triangle in them, or a mark."""
    cells: Dict[Point, int] = {}
    for r in recordings:
        for triangle in r.triangles:
            for cell in cells_along([chart.at(vertex) for vertex in triangle]):
                cells[cell] = 40
    for mark in marks:
        for x, y in cells_along(mark):
            for near in ((x + i, y + k) for i in (-2, -1, 0, 1, 2) for k in (-2, -1, 0, 1, 2)):
                cells[near] = 80
    return cells


def cells_along(corners: Sequence[Point]) -> Iterator[Point]:
    for p, q in zip(corners, [*corners[1:], corners[0]]):
        steps = max(abs(q[0] - p[0]), abs(q[1] - p[1])) // CELL + 1
        for i in range(steps):
            yield (p[0] + (q[0] - p[0]) * i // steps) // CELL, (p[1] + (q[1] - p[1]) * i // steps) // CELL


def place(anchors: Sequence[Point], size: Point, labels: Sequence[Label], cells: Dict[Point, int], frame: Box) -> Tuple[Point, Box]:
    """Where a label of this size costs least, and at which of the points on its strip: at first in sixteen directions from each, and
    if all is taken there, on the whole map."""
    best = None
    for tried in (close_to(anchors, size), anywhere(anchors[0], size, frame)):
        least = math.inf
        for way, anchor, box in sorted((way_to(anchor, box), anchor, box) for anchor, box in tried if frame.holds(box)):
            if way >= least:
                break
            cost = way + cost_of(anchor, box, labels, cells, least - way)
            if cost < least:
                least, best = cost, (anchor, box)
        if best is not None:
            return best
    return anchors[0], Box(frame.left, frame.top, frame.left + size[0], frame.top + size[1])


def close_to(anchors: Sequence[Point], size: Point) -> Iterator[Tuple[Point, Box]]:
    across, up = size[0] // 2, size[1] // 2
    for distance in (10, 16, 24, 34, 46, 60, 80, 105, 135, 170):
        for anchor in anchors:
            for dx, dy in DIRECTIONS:
                x = anchor[0] + dx * (distance * UNIT + across) // 1000
                y = anchor[1] + dy * (distance * UNIT + up) // 1000
                yield anchor, Box(x - across, y - up, x + across, y + up)


def anywhere(anchor: Point, size: Point, frame: Box) -> Iterator[Tuple[Point, Box]]:
    width, height = size
    for y in range(frame.top, frame.bottom - height, height * 2 // 3):
        for x in range(frame.left, frame.right - width, width // 3):
            yield anchor, Box(x, y, x + width, y + height)


def way_to(anchor: Point, box: Box) -> int:
    """What the line from an anchor to its label costs."""
    end = nearest(anchor, box)
    return 3 * (abs(end[0] - anchor[0]) + abs(end[1] - anchor[1])) // UNIT


def cost_of(anchor: Point, box: Box, labels: Sequence[Label], cells: Dict[Point, int], below: float) -> float:
    """What else it costs to have a label here: what it covers, and the lines that are crossed. It may not stand on another label. From
    `below` on it makes no difference how much it is."""
    near = box.wider(2 * UNIT)
    if any(near.meets(label.box) for label in labels):
        return math.inf
    cost = 0
    for x in range(box.left // CELL, box.right // CELL + 1):
        for y in range(box.top // CELL, box.bottom // CELL + 1):
            cost += cells.get((x, y), 0)
    end = nearest(anchor, box)
    for label in labels:
        if cost >= below:
            break
        cost += 400 * cross(anchor, end, label.anchor, label.end)
        cost += 800 * (passes(anchor, end, label.box) + passes(label.anchor, label.end, near))
    return cost


def nearest(point: Point, box: Box) -> Point:
    """The point of the box that is nearest to a point."""
    return min(max(point[0], box.left), box.right), min(max(point[1], box.top), box.bottom)


def side(p: Point, q: Point, r: Point) -> int:
    turn = (q[0] - p[0]) * (r[1] - p[1]) - (q[1] - p[1]) * (r[0] - p[0])
    return (turn > 0) - (turn < 0)


def cross(a: Point, b: Point, c: Point, d: Point) -> bool:
    return side(a, b, c) * side(a, b, d) < 0 and side(c, d, a) * side(c, d, b) < 0


def passes(a: Point, b: Point, box: Box) -> bool:
    """Whether the line from a to b passes through the box."""
    for k in range(2):
        if max(a[k], b[k]) < box[k] or min(a[k], b[k]) > box[k + 2]:
            return False
    corners = [(box.left, box.top), (box.right, box.top), (box.right, box.bottom), (box.left, box.bottom)]
    return len({side(a, b, corner) for corner in corners}) > 1


def labelled(labels: Sequence[Label]) -> Iterator[str]:
    leaders = []
    for label in labels:
        start, end = (f"{number(x)} {number(y)}" for x, y in (label.anchor, label.end))
        leaders.append(f'<path d="M{start}L{end}"/>')
    yield from on_white("leaders", leaders, "#333", ".9", "3")
    yield f'<g fill="{MARK}" stroke="#fff" stroke-width=".8">'
    yield from (f'<circle cx="{number(label.anchor[0])}" cy="{number(label.anchor[1])}" r="2.2"/>' for label in labels)
    yield "</g>"
    yield '<use href="#labels" stroke="#fff" stroke-width="4" stroke-linejoin="round"/>'
    yield '<g id="labels" text-anchor="middle">'
    for label in labels:
        more = f' fill="{label.style.stroke}"' + (' font-weight="bold"' if label.bold else "")
        yield text(label.box.middle()[0], label.box.bottom - FONT * 36 // 100, label.text, FONT, more)
    yield "</g>"


# ---- legend and scale


def legend_of(recordings: Sequence[meskelow.Recording], leaks: int, slivers: int, leaking: int, chart: Chart) -> Tuple[List[str], int]:
    """The legend and the scale, below the map, and how high the picture is with them."""
    entries = []
    for which, style in STYLES.items():
        count = sum(r.set == which for r in recordings)
        if count > 0:
            look = f' fill="{style.fill}" stroke="{style.stroke}"{style.dashes} opacity=".85"'
            entries.append((look, f"{style.name}: {counted(count)}"))
    if leaking > 0:
        entries.append((f' fill="#fff" stroke="{MARK}" stroke-width="1.8"', f"in a leak, with its id (test bold): {counted(leaking)}"))
        entries.append((f' fill="{MARK}"', f"overlap of test and training, encircled: {leaks} leak{'s' * (leaks > 1)}"))
    if slivers > 0:
        words = f"overlap that edition 2 allows, in a broken line: {slivers} sliver{'s' * (slivers > 1)}"
        entries.append((f' fill="{SLIVER}"', words))
    right = WIDTH - MARGIN
    parts: List[str] = []
    if recordings:
        bar, right = scale_bar(chart)
        parts += bar
    x, y = MARGIN, chart.frame.bottom + (LINE if entries else 0)
    for look, words in entries:
        wide = 34 * UNIT + width_of(words, FONT)
        if x > MARGIN and x + wide > right:
            x, y, right = MARGIN, y + LINE, WIDTH - MARGIN
        parts.append(rectangle(Box(x, y - 10 * UNIT, x + 26 * UNIT, y), look))
        parts.append(text(x + 34 * UNIT, y, words, FONT))
        x += wide + 16 * UNIT
    return parts, y + MARGIN


def scale_bar(chart: Chart) -> Tuple[List[str], int]:
    """The longest of 1, 2, 5, 10, .. centimetres that is not too long, and where it leaves off to the left."""
    steps = [digit * 10**power for power in range(7) for digit in (1, 2, 5)]
    centimetres = max(step for step in steps if chart.length(step) <= LONGEST_BAR)
    words = f"{centimetres // 100:,} m" if centimetres >= 100 else f"0.{centimetres:02d}".rstrip("0") + " m"
    long, right, y = chart.length(centimetres), WIDTH - MARGIN, chart.frame.bottom + LINE
    left = right - long
    bar = f'<path id="scale" d="M{number(left)} {number(y - 7 * UNIT)}v7h{number(long)}v-7" fill="none" stroke="#000" stroke-width="1.5"/>'
    label = text((left + right) // 2, y - 5 * UNIT, words, FONT, ' text-anchor="middle"')
    return [bar, label], left - 12 * UNIT


# ---- the command


def put(line: bytes) -> None:
    rest = memoryview(line)
    while rest:
        rest = rest[os.write(1, rest) :]


def main(words: Sequence[str]) -> int:
    """The status. Nothing is printed before all of it is made."""
    try:
        if len(words) > 1:
            raise ValueError("usage: draw.py [TITLE] <FILE")
        if sys.stdin is None or sys.stdout is None:
            raise OSError("standard input or standard output is closed")
        file = sys.stdin.buffer.read(65537)  # a byte more than any file has
        try:
            line = picture(file, *(os.fsencode(word).decode("utf-8", "replace") for word in words))
        except meskelow.Refused as refused:
            line = f"refused {refused.number} at {refused.place}"
        put(line.encode("utf-8") + b"\n")
        return 0
    except Exception as error:
        try:
            os.write(2, f"draw.py: no picture: {str(error) or type(error).__name__}\n".encode("utf-8", "replace"))
        except OSError:
            pass
        return 3


if __name__ == "__main__":
    sys.exit(main(sys.argv[1:]))
