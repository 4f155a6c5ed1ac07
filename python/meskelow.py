"""Meskelow from Python: the proved library, called by ctypes. include/meskelow.h says what each answer means.

    import meskelow

    answer = meskelow.intersect([(1, 1), (-3, 1), (1, -3)], [(0, 0), (4, 0), (0, 4)])
    print(answer.ring, answer.area)
    for corner in meskelow.corners([(1, 1), (-3, 1), (1, -3)], [(0, 0), (4, 0), (0, 4)]):
        if isinstance(corner, meskelow.Crossing):
            print(corner.edge, corner.line, corner.t, corner.x, corner.y)
    if meskelow.decide([(0, 0), (4, 0), (0, -4)], [(0, 0), (4, 0), (0, 4)]).kind is meskelow.Kind.TOUCHING:
        print("neighbours")

    with open("night.footprint", "rb") as stream:
        file = stream.read()
    found = meskelow.leaks(file)
    for leak in found.leaks:
        print(leak.test, leak.train, leak.pairs)
    print(found.touching, "pairs of recordings only touch;", found.tested, "pairs of triangles had boxes that meet")

    tests = [r for r in meskelow.recordings(file) if r.set == meskelow.TEST]
    with open("tests.footprint", "wb") as stream:
        stream.write(meskelow.write(tests))

    if found.formerly_held_back > 0:  # an old file: what was held back once is training now
        old = meskelow.FORMERLY_HELD_BACK
        file = meskelow.write(r._replace(set=meskelow.TRAINING) if r.set == old else r for r in meskelow.recordings(file))

    second = meskelow.EDITION_2  # by which slivers are no leaks
    allowing = meskelow.write(r._replace(last=second) if r.set == meskelow.TEST else r for r in meskelow.recordings(file))
    print(len(meskelow.leaks(allowing).leaks), "leaks are more than slivers")

    print(meskelow.wkt(file, found.leaks[0].test))  # for a viewer: GEOMETRYCOLLECTION (POLYGON ((0.00 0.00, 4.00 0.00, ...

    arrival = meskelow.Arrival()  # of a file that comes in pieces, cut anywhere
    for piece in link:  # an iterable that raises an error where the link breaks off: that is no end of the file
        arrival.piece(piece)
    file = arrival.end()  # the whole file, which is good; or it is refused, as it would have been in one

What the rules refuse is raised as `Refused`, a ValueError that carries their number and place. So whatever a function
returns is an answer.

The library has to be made first, and again whenever the static library has changed:

    bin/make meskelow && python3 python/meskelow.py build

It is x86-64 Linux code, for a Python of that kind. Any number of threads may call it at once. `leaks` needs 400 KB of stack: a
thread has that, unless `threading.stack_size` or the system gave it less than 512 KB.

A triangle is three vertices with two coordinates each, in lists, tuples or arrays such as numpy's. A coordinate is whatever Python
takes for a float, and becomes one by Python's rules: a whole number may be rounded, and one that is beyond every float is an
OverflowError. Text and complex numbers are a TypeError. Only `write` asks for whole centimetres, and takes no float for one. A file
is what lends its bytes: bytes, bytearray, memoryview, mmap or an array of any kind, by the bytes that it holds, in its order; and
so is a piece of one. A file's name is a TypeError.
"""

from __future__ import annotations

import array
import ctypes
import dataclasses
import enum
import functools
import numbers
import operator
import os
import pathlib
import platform
import re
import struct
import sys
import threading
from typing import Dict, Iterable, Iterator, List, NamedTuple, NoReturn, Protocol, Sequence, SupportsIndex, Tuple, Type, Union

ROOT = pathlib.Path(__file__).resolve().parent.parent
ARCHIVE = ROOT / "target" / "staticlib" / "libmeskelow.a"
LIBRARY = ROOT / "target" / "python" / "libmeskelow.so"
REFUSALS = ROOT / "refusals.tsv"

TRAINING, TEST, FORMERLY_HELD_BACK = 0, 1, 2  # the sets of recordings, as they are stored; the last, of old files, is training too
EDITION_1, EDITION_2 = 0, 1  # the editions of the leak rule, as a recording's last byte names them; the second of test recordings only

# The refusals by name, from refusals.tsv.
REFUSED_LENGTHS = 1
REFUSED_NOT_FINITE = 2
REFUSED_FLAT_V = 3
REFUSED_OVERFLOW = 4
REFUSED_FLAT_U = 5
REFUSED_NO_CORNER = 6
REFUSED_LIST_ROOM = 7
REFUSED_NO_RECORDING = 10
REFUSED_FILE_LENGTH = 11
REFUSED_STORED_LENGTH = 12
REFUSED_TRAILER = 13
REFUSED_ENTRY = 14
REFUSED_TABLE = 15
REFUSED_SAME_ID = 16
REFUSED_OUT_OF_RANGE = 17
REFUSED_NO_AREA = 18
REFUSED_FILE_ROOM = 19
REFUSED_TEXT_ROOM = 20
REFUSED_NO_ID = 21
REFUSED_AFTER_END = 22
REFUSED_BUFFER_LENGTH = 23

Bytes = Union[bytes, bytearray, memoryview]  # or whatever else has a buffer
Triangle = Sequence[Sequence[float]]  # three (x, y)
WholeTriangle = Sequence[Sequence[SupportsIndex]]  # the same in whole centimetres
Flags = Tuple[bool, bool, bool]

_LEAK = re.compile("test ([0-9]+) train ([0-9]+) pairs ([0-9]+)\n")
_LONGEST_TEXT = 256545  # bytes: 94 for each of 2,729 triangles, with the comma and the space before it, and 19
_BUFFER = 65536  # bytes, as many as the longest file has: the library collects the pieces of a file in just so many


class Refused(ValueError):
    """There is no answer. `number` is the rules' refusal, one of the numbers above: 1 to 5 of two triangles, 6 of a corner that their
    ring does not have, 11 to 18 of a file, 10 of a recording that a good file does not have, 21 of an id that it does not have, 13 to
    19 of recordings that are to be written, 22 of what comes after the end of a file that arrived in pieces. (7, 20 and 23 do not
    occur: a list and a text get all the room that they can need, and pieces the buffer that they ask for.) `place` is the byte offset
    in the file that the refusal reports, or 0; of triangles, corners, what is to be written and what comes too late it is 0. The text
    has the words of refusals.tsv."""

    def __init__(self, number: int, place: int = 0) -> None:
        super().__init__(number, place)
        self.number = number
        self.place = place

    def __str__(self) -> str:
        return f"refused {self.number} at {self.place}: {_words().get(self.number, 'a number that has no words here')}"


class LibraryError(RuntimeError):
    """The library is not built, not up to date, or not for this Python. The message says what to run."""


class Answer(NamedTuple):
    """What two triangles share."""

    ring: Tuple[Tuple[float, float], ...]  # none or three to six corners, in the ring's order; positions may coincide
    area: float
    u_in_v: Flags  # vertex i of U is in V
    v_in_u: Flags  # corner k of V is in U
    neighbour: Flags  # a crossing lies on V's edge on line a, or one of its ends is in U


@dataclasses.dataclass(frozen=True)
class VertexOfU:
    """A corner of the ring that is a vertex of U. (The kinds of corners are no tuples: as such, vertex 0 of U and corner 0 of V would
    be equal where they coincide.)"""

    which: int  # its number, 0 to 2
    x: float
    y: float


@dataclasses.dataclass(frozen=True)
class CornerOfV:
    """A corner of the ring that is a corner of V."""

    which: int  # its number, 0 to 2
    x: float
    y: float


@dataclasses.dataclass(frozen=True)
class Crossing:
    """A corner of the ring where an edge of U crosses a line of V. It stands at P + t * (Q - P), in x and in y, computed as it is
    written here. P is the end of the edge that is plus on the line, which is the one on V's side of it, or on the line itself, and Q
    the other: so P may be the edge's start or its finish. It is the end from which this gives x and y; if both do, it makes no
    difference to the position which is taken."""

    edge: int  # of U: edge 0 runs from U0 to U1, 1 from U1 to U2, 2 from U2 to U0
    line: int  # of V: line 0 goes through V0 and V2, 1 through V0 and V1, 2 through V1 and V2
    t: float  # 0 <= t <= 1; a zero may be -0.0
    x: float
    y: float


Corner = Union[VertexOfU, CornerOfV, Crossing]


class Kind(enum.Enum):
    """What two triangles are to each other, by the ring that they share and its computed area."""

    APART = 0  # there is no ring
    TOUCHING = 1  # there is a ring, and its area is zero
    OVERLAPPING = 2  # there is a ring, and its area is above zero


class Decision(NamedTuple):
    """Whether two triangles overlap, touch or are apart, and the area of what they share: above zero if they overlap, else 0.0."""

    kind: Kind
    area: float


class Recording(NamedTuple):
    """An entry of a footprint file's table, and its triangles."""

    id: int
    set: int  # TRAINING, TEST or FORMERLY_HELD_BACK, as the file has it
    first: int  # place of the first triangle
    last: int  # the entry's last byte: EDITION_1, or of a test recording also EDITION_2
    triangles: Tuple[Tuple[Tuple[int, int], Tuple[int, int], Tuple[int, int]], ...]  # whole centimetres


class Draft(Protocol):
    """What `write` asks of a recording: a `Recording`, or any object that has these. It may have a `last` too, EDITION_1 or EDITION_2,
    and is of EDITION_1 if it has none."""

    @property
    def id(self) -> SupportsIndex: ...

    @property
    def set(self) -> SupportsIndex: ...

    @property
    def triangles(self) -> Iterable[WholeTriangle]: ...


class Leak(NamedTuple):
    """A test recording and a training recording that leak, by their ids: they overlap, by EDITION_2 in more than a sliver."""

    test: int
    train: int
    pairs: int  # how many pairs of their triangles overlap


class LeakList(NamedTuple):
    """The leaks of a file in the list's order, the list itself, the numbers of its two closing lines, and how many pairs of triangles
    were given to the triangle rules, which the text does not say. More may come behind these: take them by their names."""

    leaks: Tuple[Leak, ...]
    text: str
    touching: int  # how many pairs of a test and a training recording touch and do not overlap
    tested: int  # how many triangle pairs of test and training recordings have boxes that share a point
    formerly_held_back: int  # how many recordings are stored with FORMERLY_HELD_BACK; they are training recordings here


def intersect(u: Triangle, v: Triangle) -> Answer:
    """What U and V share. V is the reference: exchanged they may give another answer, by rounding. Raises `Refused`, 1 to 5, where
    1 says that a triangle is not three vertices with two coordinates each."""
    values = _values(u, v)
    room = (ctypes.c_double * 12)()
    got = _library().meskelow_intersect(values, 12, room, 12)
    _raise_if_refused(got.number)
    ring = tuple((room[2 * k], room[2 * k + 1]) for k in range(got.n))
    return Answer(ring, got.area, _three(got.u_in_v), _three(got.v_in_u), _three(got.neighbour))


def corners(u: Triangle, v: Triangle) -> List[Corner]:
    """What the corners of the ring are that U and V share, in its order; none if there is no ring. Their positions are those of
    `intersect`, bit for bit. Corners that coincide keep their own kinds. Raises `Refused` where `intersect` does, 1 to 5."""
    values = _values(u, v)
    got = _library().meskelow_intersect(values, 12, (ctypes.c_double * 12)(), 12)
    _raise_if_refused(got.number)
    return [_corner_at(values, place) for place in range(got.n)]


def corner_at(u: Triangle, v: Triangle, place: SupportsIndex) -> Corner:
    """The corner at a place of the ring, from 0: the one that `corners` has there. What is no index of a list is no place: 1.0 is a
    TypeError, True is 1. A place below 0 is an OverflowError, as none counts from the end, and so is one above 2^64 - 1, which the
    library cannot be asked for. Raises `Refused`, 1 to 5 where `intersect` does, and then 6 for a place that is not below the number
    of corners."""
    number = operator.index(place)
    if not 0 <= number < 2**64:  # ctypes would cut it to its lowest 64 bits
        raise OverflowError("a place in a ring must be from 0 to 18,446,744,073,709,551,615")
    return _corner_at(_values(u, v), number)


def decide(u: Triangle, v: Triangle) -> Decision:
    """Whether U and V overlap, touch or are apart. This is what the leak list asks of each triangle pair, U being the test
    recording's. Where the upright boxes around the two share no point they are apart, also if one is flat or `intersect` would find
    a ring by rounding. Raises `Refused` where `intersect` does, 1 and 2 always and 3 to 5 where the boxes share a point; in the list
    such a pair would count as overlapping."""
    values = _values(u, v)
    got = _library().meskelow_decide(values, 12)
    _raise_if_refused(got.number)
    return Decision(Kind(got.kind), got.area)


def check(file: Bytes) -> None:
    """Returns None if these bytes are a good footprint file, and raises `Refused`, 11 to 18, if they are not. So it is called for
    itself, not in an `if`."""
    lent = _lent(file)
    got = _library().meskelow_check(lent, len(lent))
    _raise_if_refused(got.number, got.place)


class Arrival:
    """A file that arrives in pieces, of any lengths, some of them empty. Each is put behind those before it, and `end` says what the
    file is. An Arrival is of one file; the next one has its own. Any number of threads may call it: no piece is lost then, and they
    come in the order of the calls."""

    def __init__(self) -> None:
        self._buffer = ctypes.create_string_buffer(_BUFFER)
        self._arrived = self._ended = 0
        self._lock = threading.Lock()  # as other threads go on while the library works

    @property
    def arrived(self) -> int:
        """How many bytes have arrived; 65,537 if there are over 65,536, which no file has, however many they are."""
        return self._arrived

    @property
    def ended(self) -> bool:
        """Whether `end` was called, of a file that was refused too."""
        return self._ended != 0

    def piece(self, piece: Bytes) -> None:
        """Adds a piece. Nothing is said of a file before its end: bytes beyond 65,536 are dropped, and it is the end that refuses the
        file for them. Raises `Refused`, 22, if the file has ended; nothing changes then, nor by a TypeError for what is no bytes."""
        lent = _lent(piece)
        with self._lock:
            self._take(_library().meskelow_piece(self._arrived, self._ended, lent, len(lent), self._buffer, _BUFFER))

    def end(self) -> bytes:
        """Ends the file and returns it, if it is good: the bytes of all pieces in their order. To be called when the sender says that
        the file is whole, and not where a link broke off. Raises `Refused`, 11 to 18, as `check` does of the same bytes in one, and the
        file has ended all the same; or 22, if it had ended before."""
        with self._lock:
            file = self._held()
            self._take(_library().meskelow_end(self._arrived, self._ended, self._buffer, _BUFFER))
            return file

    def __bytes__(self) -> bytes:
        """What has arrived, whether it is a file or not; the first 65,536 bytes, if there are more. So what was refused can be kept."""
        with self._lock:
            return self._held()

    def __reduce__(self) -> NoReturn:
        raise TypeError("an Arrival cannot be copied or pickled")  # a copy would write to the same buffer

    def _held(self) -> bytes:
        return ctypes.string_at(self._buffer, min(self._arrived, _BUFFER))

    def _take(self, got: _Arrived) -> None:
        self._arrived, self._ended = got.arrived, got.ended
        _raise_if_refused(got.number, got.place)


def recording(file: Bytes, k: SupportsIndex) -> Recording:
    """Recording k of the file, from 0. What is no index of a list is none here: 1.0 is a TypeError, True is 1. Raises `Refused`,
    11 to 18, or 10 for a number that is not there, also one below 0: none counts from the end."""
    number = operator.index(k)
    lent = _lent(file)
    none = 2**64 - 1  # ctypes would cut a number to its lowest 64 bits
    got = _library().meskelow_recording(lent, len(lent), number if 0 <= number <= none else none)
    _raise_if_refused(got.number, got.place)
    triangles = struct.iter_unpack("<6i", lent[got.first : got.first + 24 * got.count])
    return Recording(got.id, got.set, got.first, got.last, tuple(((n[0], n[1]), (n[2], n[3]), (n[4], n[5])) for n in triangles))


def recordings(file: Bytes) -> Iterator[Recording]:
    """All recordings of the file, in its order. The call itself raises `Refused`, 11 to 18; of a good file all recordings come. The
    iterator keeps the bytes as they were at the call. For each recording the library judges the whole file again, in microseconds."""
    lent = _lent(file)
    check(lent)
    count = int.from_bytes(lent[-8:-4], "little")  # in the trailer of a good file
    return (recording(lent, k) for k in range(count))


def write(recordings: Iterable[Draft]) -> bytes:
    """The footprint file with these recordings, in their order. `check` accepts it, and the function `recordings` gives their ids,
    sets, editions and triangles back; and `write(recordings(file))` are the bytes of the file, unless it has FORMERLY_HELD_BACK, with
    which nothing is written. What is iterated is gone through once: of an iterator that was used up before there are no recordings
    left, and the file is the one without any, of 12 bytes.

    Each recording is taken by its id, set and triangles, and by `last`, the edition of the leak rule that it goes by, which is
    EDITION_1 if it has none. Where it begins is the file's own, so `first` is not looked at. Ids, sets, editions and coordinates are
    whole numbers as indexes of lists are: True is 1, and 1.0 is a TypeError. An id that is not from 0 to 2^32 - 1 is an OverflowError.
    These errors are raised before anything is judged; but the coordinates of a triangle that is refused for its shape are not looked
    at.

    Raises `Refused` with place 0, for the first of these that applies: 15 for a triangle that is not three vertices with two
    coordinates each; for recording after recording 14, which is one without triangles, a set other than TRAINING and TEST or a `last`
    other than EDITION_1 and, with TEST, EDITION_2, and 16, an id that an earlier one has; for triangle after triangle 17, a coordinate
    out of range, and 18, no area; 13 for over 64 recordings; 19 for a file that would be longer than 65,536 bytes. So what becomes
    TRAINING needs EDITION_1 as well. Very many recordings take long: each id is compared with all earlier ones before 13 is said."""
    ids, counts, sets, lasts, coordinates = array.array("I"), array.array("I"), bytearray(), bytearray(), array.array("i")
    whole = True
    for draft in recordings:
        ids.append(_id(draft.id))
        sets.append(_byte(draft.set))
        lasts.append(_byte(getattr(draft, "last", EDITION_1)))
        count = 0
        for triangle in draft.triangles:
            if len(triangle) == 3 and all(len(vertex) == 2 for vertex in triangle):
                coordinates.extend(_centimetres(triangle[i][k]) for i in range(3) for k in range(2))
            else:
                whole = False
            count += 1
        counts.append(count)
    if not whole:
        raise Refused(REFUSED_TABLE)
    room = ctypes.create_string_buffer(65536)
    of_recordings = (*_slice(ctypes.c_uint32, ids), *_slice(ctypes.c_uint32, counts), *_slice(ctypes.c_uint8, sets))
    got = _library().meskelow_write(
        *of_recordings, *_slice(ctypes.c_uint8, lasts), *_slice(ctypes.c_int32, coordinates), room, len(room)
    )
    _raise_if_refused(got.number, got.place)
    return room.raw[: got.length]


def leaks(file: Bytes) -> LeakList:
    """The file's leak list. Of a test recording of EDITION_1 any overlap with a training recording is a leak; of EDITION_2 one is that
    is more than a hundredth of its own area, by the sums that the header tells, and else it has no line and is not in `touching`.
    Raises `Refused`, 11 to 18. A thread needs 400 KB of stack for it (`threading.stack_size`)."""
    lent = _lent(file)
    room = ctypes.create_string_buffer(65536)
    got = _library().meskelow_leaks(lent, len(lent), room, len(room))
    _raise_if_refused(got.number, got.place)
    text = room.raw[: got.length].decode("ascii")
    found = tuple(Leak(*map(int, line)) for line in _LEAK.findall(text))
    lines = "".join(f"test {leak.test} train {leak.train} pairs {leak.pairs}\n" for leak in found)
    closing = f"touching {got.touching}\nformerly held back {got.formerly_held_back}\n"
    if text != f"leaks {got.leaks}\n{lines}{closing}" or len(found) != got.leaks:
        raise LibraryError("the library writes other lists than this module reads; are both of one version?")
    return LeakList(found, text, got.touching, got.tested, got.formerly_held_back)


def wkt(file: Bytes, id: SupportsIndex) -> str:
    """The recording with this id as well-known text, which viewers of maps read: a collection with a polygon for each triangle, in
    the file's order, in metres with two decimals. Each polygon is a ring of four points, of which the last is the first again, and
    the three are as they are stored: a ring may run either way round. No line feed stands behind the text. An id is a whole number as
    for `write`: True is 1, 1.0 is a TypeError, and one that is not from 0 to 2^32 - 1 an OverflowError, whatever the file is. Raises
    `Refused`, 11 to 18, or then 21 for an id that no recording of the file has."""
    number = _id(id)
    lent = _lent(file)
    room = ctypes.create_string_buffer(min(94 * (len(lent) // 24) + 19, _LONGEST_TEXT))
    got = _library().meskelow_wkt(lent, len(lent), number, room, len(room))
    _raise_if_refused(got.number, got.place)
    return room.raw[: got.length].decode("ascii")


def build() -> None:
    """Makes the shared library from the static one."""
    import subprocess  # which no other function needs

    if not ARCHIVE.exists():
        raise LibraryError(f"there is no {ARCHIVE}: run 'bin/make meskelow'")
    compiler = "gcc" if platform.machine() == "x86_64" else "x86_64-linux-gnu-gcc"
    LIBRARY.parent.mkdir(parents=True, exist_ok=True)
    unfinished = LIBRARY.with_suffix(f".{os.getpid()}")
    made_at = ARCHIVE.stat().st_mtime_ns
    whole = ["-Wl,--whole-archive", str(ARCHIVE), "-Wl,--no-whole-archive"]
    try:
        subprocess.run([compiler, "-shared", "-Wl,-z,defs", *whole, "-o", str(unfinished)], check=True)
        os.utime(unfinished, ns=(made_at, made_at))  # by which _library tells that it is of this archive
        os.replace(unfinished, LIBRARY)
    except (OSError, subprocess.CalledProcessError) as error:
        unfinished.unlink(missing_ok=True)
        raise LibraryError(f"cannot make {LIBRARY}: {error}") from error


class _Answer(ctypes.Structure):
    _fields_ = [
        ("number", ctypes.c_uint32),
        ("n", ctypes.c_uint32),
        ("area", ctypes.c_double),
        ("u_in_v", ctypes.c_bool * 3),
        ("v_in_u", ctypes.c_bool * 3),
        ("neighbour", ctypes.c_bool * 3),
    ]


class _Corner(ctypes.Structure):
    _fields_ = [
        *((name, ctypes.c_uint32) for name in ("number", "kind", "which", "edge", "line")),
        *((name, ctypes.c_double) for name in ("t", "x", "y")),
    ]


class _Decision(ctypes.Structure):
    _fields_ = [("number", ctypes.c_uint32), ("kind", ctypes.c_uint32), ("area", ctypes.c_double)]


class _Verdict(ctypes.Structure):
    _fields_ = [("number", ctypes.c_uint32), ("place", ctypes.c_uint32)]


class _Arrived(ctypes.Structure):
    _fields_ = [(name, ctypes.c_uint32) for name in ("number", "place", "arrived", "ended")]


class _Entry(ctypes.Structure):
    _fields_ = [(name, ctypes.c_uint32) for name in ("number", "place", "id", "first", "count", "set", "last")]


class _Written(ctypes.Structure):
    _fields_ = [("number", ctypes.c_uint32), ("place", ctypes.c_uint32), ("length", ctypes.c_size_t)]


class _List(ctypes.Structure):
    _fields_ = [
        ("number", ctypes.c_uint32),
        ("place", ctypes.c_uint32),
        ("length", ctypes.c_size_t),
        ("leaks", ctypes.c_uint32),
        ("touching", ctypes.c_uint32),
        ("tested", ctypes.c_uint32),
        ("formerly_held_back", ctypes.c_uint32),
    ]


_DOUBLES = ctypes.POINTER(ctypes.c_double)
_U32S, _U8S, _I32S = ctypes.POINTER(ctypes.c_uint32), ctypes.POINTER(ctypes.c_uint8), ctypes.POINTER(ctypes.c_int32)
_FUNCTIONS = {
    "meskelow_intersect": (_Answer, [_DOUBLES, ctypes.c_size_t, _DOUBLES, ctypes.c_size_t]),
    "meskelow_corner_at": (_Corner, [_DOUBLES, ctypes.c_size_t, ctypes.c_size_t]),
    "meskelow_decide": (_Decision, [_DOUBLES, ctypes.c_size_t]),
    "meskelow_check": (_Verdict, [ctypes.c_char_p, ctypes.c_size_t]),
    "meskelow_piece": (
        _Arrived,
        [ctypes.c_uint32, ctypes.c_uint32, ctypes.c_char_p, ctypes.c_size_t, ctypes.c_char_p, ctypes.c_size_t],
    ),
    "meskelow_end": (_Arrived, [ctypes.c_uint32, ctypes.c_uint32, ctypes.c_char_p, ctypes.c_size_t]),
    "meskelow_recording": (_Entry, [ctypes.c_char_p, ctypes.c_size_t, ctypes.c_size_t]),
    "meskelow_write": (
        _Written,
        [word for pointer in (_U32S, _U32S, _U8S, _U8S, _I32S, ctypes.c_char_p) for word in (pointer, ctypes.c_size_t)],
    ),
    "meskelow_leaks": (_List, [ctypes.c_char_p, ctypes.c_size_t, ctypes.c_char_p, ctypes.c_size_t]),
    "meskelow_wkt": (_Written, [ctypes.c_char_p, ctypes.c_size_t, ctypes.c_uint32, ctypes.c_char_p, ctypes.c_size_t]),
}


@functools.lru_cache(maxsize=None)
def _library() -> ctypes.CDLL:
    to_build = "run 'bin/make meskelow && python3 python/meskelow.py build'"
    if not LIBRARY.exists():
        raise LibraryError(f"there is no {LIBRARY}: {to_build}")
    if ARCHIVE.exists() and ARCHIVE.stat().st_mtime_ns != LIBRARY.stat().st_mtime_ns:
        raise LibraryError(f"{LIBRARY} was made from another {ARCHIVE.name}: {to_build}")
    try:
        library = ctypes.CDLL(str(LIBRARY))
        for name, (answer, words) in _FUNCTIONS.items():
            function = getattr(library, name)
            function.restype = answer
            function.argtypes = words
        if not _has_editions(library):
            raise LibraryError(f"{LIBRARY} is of a version before 0.8: {to_build}")
    except (OSError, AttributeError) as error:
        kind = f"it is x86-64 Linux code, and this Python is for {platform.machine()}"
        raise LibraryError(f"cannot load {LIBRARY} ({kind}): {error}; to make it again, {to_build}") from error
    return library


def _has_editions(library: ctypes.CDLL) -> bool:
    """Whether the writer takes last bytes. One that does not takes the numbers here, of which there are none, for the room, finds it too
    short and writes nothing; with recordings it would go by lengths that are not true."""
    room = ctypes.create_string_buffer(12)
    return library.meskelow_write(*[None, 0] * 5, room, len(room)).length == len(room)


@functools.lru_cache(maxsize=None)
def _words() -> Dict[int, str]:
    """What each refusal means; none where the table is not to be had, as an exception must have its text all the same."""
    try:
        rows = [line.split("\t") for line in REFUSALS.read_text(encoding="ascii").splitlines()[1:]]
        return {int(number): words for number, _, _, _, words in rows}
    except (OSError, ValueError):
        return {}


def _values(u: Triangle, v: Triangle) -> ctypes.Array[ctypes.c_double]:
    """The twelve values of U and V."""
    if any(len(triangle) != 3 or any(len(vertex) != 2 for vertex in triangle) for triangle in (u, v)):
        raise Refused(REFUSED_LENGTHS)
    return (ctypes.c_double * 12)(*(_real(c) for triangle in (u, v) for vertex in triangle for c in vertex))


def _real(value: float) -> float:
    """The value, if it is no complex number, of which numpy's would be cut to their real part. What else is no number, ctypes tells."""
    if isinstance(value, numbers.Complex) and not isinstance(value, numbers.Real):
        raise TypeError(f"a coordinate must be a real number, not {type(value).__name__}")
    return value


def _corner_at(values: ctypes.Array[ctypes.c_double], place: int) -> Corner:
    got = _library().meskelow_corner_at(values, 12, place)
    _raise_if_refused(got.number)
    if got.kind == 2:
        return Crossing(got.edge, got.line, got.t, got.x, got.y)
    return (VertexOfU, CornerOfV)[got.kind](got.which, got.x, got.y)


def _id(value: SupportsIndex) -> int:
    identity = operator.index(value)
    if not 0 <= identity < 2**32:  # ctypes would cut it to its lowest 32 bits
        raise OverflowError("an id must be from 0 to 4,294,967,295")
    return identity


def _byte(value: SupportsIndex) -> int:
    """A set or an edition, if a byte has it; else 255, which is refused as well."""
    number = operator.index(value)
    return number if 0 <= number <= 255 else 255


def _centimetres(value: SupportsIndex) -> int:
    """The coordinate, if 32 bits have it; else the nearest that they have, which is out of range as well."""
    return min(max(operator.index(value), -(2**31)), 2**31 - 1)


def _slice(kind: Type[ctypes._SimpleCData], values: Union[array.array, bytearray]) -> Tuple[ctypes.Array, int]:
    """The values as C has a list: where they stand, and how many they are."""
    return (kind * len(values)).from_buffer(values), len(values)


def _lent(file: Bytes) -> bytes:
    """The bytes of the file, which nobody changes while the library reads them."""
    return file if isinstance(file, bytes) else memoryview(file).tobytes()


def _three(flags: Sequence[bool]) -> Flags:
    return flags[0], flags[1], flags[2]


def _raise_if_refused(number: int, place: int = 0) -> None:
    if number != 0:
        raise Refused(number, place)


if __name__ == "__main__":
    if sys.argv[1:] != ["build"]:
        sys.exit("usage: meskelow.py build")
    try:
        build()
    except LibraryError as error:
        sys.exit(f"meskelow.py: {error}")
