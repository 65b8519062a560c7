"""Bulhyemik from Python: shift grids for simulators, by ctypes and the shared library.

    from bulhyemik import Group, Model, read_nodes
    model = Model(Group.read("harbour.txt"), read_nodes("harbour.nodes"))
    print(model.lookup(-14395000, 180005000, 200))
    for answer in model.replay([(-14395000, 180005000, 133), (0, 0, 133)]):
        print(answer)

Longitudes and latitudes are whole milliarcseconds, nodes and results whole steps. Coordinates and days may have any
size; what is no whole number is a TypeError, bool too. What the library refuses is raised as Refused, a longitude
beyond 180 degrees (648000000) too: turn it by 1296000000 first, and ask for an area across that meridian in two calls.

The library is the file that BULHYEMIK_SHARED_LIBRARY names, else what the loader finds as libbulhyemik.so with the major
version behind it.

There is no state: calls may run at once on several threads, each with at least 128 KiB of stack. The library reads and
writes only memory of this module's own, so that no buffer can change or go away under a call. Python 3.8 or later.
"""
from __future__ import annotations

import ctypes
import operator
import os
from array import array
from collections import namedtuple
from collections.abc import Sequence
from ctypes import POINTER, c_char, c_char_p, c_double, c_float, c_int32, c_int64, c_size_t, c_uint64, sizeof
from dataclasses import dataclass, field, fields
from pathlib import Path

# The library's version that brought the limits and the youngest calls of this module: an older one lacks them, a later
# one has them, until the major number changes.
NEEDED = 4000000

(ACCEPTED, BAD_FORM, BAD_NUMBER, SAME_NAME, BAD_EXTENT, SAME_RANK, BAD_POINT, NO_GRID, NO_DATA, BAD_DAY, BAD_AREA,
 BAD_NODE, BAD_LENGTH, FEW_NODES) = range(14)
REASONS = {
    BAD_FORM: "header text not of its form, or it ends early",
    BAD_NUMBER: "number outside its limit, A above B, or START not below END",
    SAME_NAME: "grid name stands earlier",
    BAD_EXTENT: "far edge or width outside its limit, or START + NI*NJ*NP above 16,777,216",
    SAME_RANK: "holds a point that an earlier grid of its rank holds too",
    BAD_POINT: "point outside the limits",
    NO_GRID: "no grid holds the point",
    NO_DATA: "a used corner is the no-data mark",
    BAD_DAY: "day outside the limit",
    BAD_AREA: "a side outside the limits, west above east or south above north",
    BAD_NODE: "a float is infinite or rounds beyond 2,147,483,647 steps",
    BAD_LENGTH: "lent output of another length",
    FEW_NODES: "node list ends before the grid's range does",
}
UNITS = ("arc-second", "metre")
LOG_PASSES, LOG_FORM, LOG_REFUSED, LOG_GRID, LOG_SHIFT = range(5)
KINDS = ("passes", "form", "lookup refused", "other grid", "other shift")  # of a log's bad line
NAME_BYTES, MOST_FUNCTIONS, MOST_GRIDS, MOST_PARAMETERS, HEADER_BYTES, LOG_LINE_BYTES = 24, 8, 64, 3, 16384, 128
MARK = -2**31  # the no-data mark of a node list


class Refused(Exception):
    """What the library refuses: the refusal's number, and its place, 0 where none is named."""

    def __init__(self, number: int, place: int):
        super().__init__(number, place)
        self.number, self.place = number, place

    def __str__(self):
        return f"refused by {self.number} at {self.place}: {REASONS.get(self.number, 'no refusal has this number')}"


@dataclass(frozen=True)
class Ramp:
    """A function of time whose factor, in millionths, is s0 until day a, s1 from day b on and linear between."""
    a: int
    s0: int
    b: int
    s1: int


@dataclass(frozen=True)
class Step:
    """One whose factor is mult millionths times f(day) - f(reference); f is 0 before the day event and 1 from it on."""
    event: int
    reference: int
    mult: int


@dataclass(frozen=True)
class Ramp2:
    """One whose factor is mult millionths times f(day) - f(reference), rounded once; f is 0 until start, 1 from end on
    and linear between."""
    start: int
    end: int
    reference: int
    mult: int


_KINDS = (("ramp", Ramp), ("step", Step), ("ramp2", Ramp2))  # of functions of time, by their numbers in C

# Node (i, j) of ni by nj lies at lon + i*dlon, lat + j*dlat; the first stands at `start` in the node list.
Grid = namedtuple("Grid", "number name lon lat dlon dlat ni nj rank start")
# What a lookup finds: the chosen grid's number and name, and the results in steps, one for each parameter.
Fix = namedtuple("Fix", "grid name results")
# A point in degrees, what the lookup finds there, and its results as shifts in the group's unit.
Screen = namedtuple("Screen", "longitude latitude fix shifts")
# A grid in force, and of the area's coordinates at which it is chosen the southmost, of these the westmost.
InForce = namedtuple("InForce", "grid name lon lat")
# The first bad line of a log, from 1, and its kind: LOG_FORM, LOG_REFUSED, LOG_GRID or LOG_SHIFT.
Fault = namedtuple("Fault", "line kind")


def _struct(name, *fields):
    """A struct of bulhyemik.h; a field with no type is an int64_t."""
    typed = [(each, c_int64) if isinstance(each, str) else each for each in fields]
    return type(name, (ctypes.Structure,), {"_fields_": typed})


_NAME = ("name", c_char * NAME_BYTES)
_Ramp = _struct("_Ramp", "a", "s0", "b", "s1")
_Step = _struct("_Step", "event", "reference", "mult", "unused")
_Ramp2 = _struct("_Ramp2", "start", "end", "reference", "mult")
_Numbers = type("_Numbers", (ctypes.Union,), {"_fields_": [("ramp", _Ramp), ("step", _Step), ("ramp2", _Ramp2)]})
_Function = _struct("_Function", "kind", ("numbers", _Numbers))
_Grid = _struct("_Grid", _NAME, "name_length", "lon", "lat", "dlon", "dlat", "ni", "nj", "rank", "start")
_Group = _struct("_Group", _NAME, "name_length", "unit", "quantum", "parameters", "functions", "grids",
                 ("function", _Function * MOST_FUNCTIONS), ("grid", _Grid * MOST_GRIDS))
_Fix = _struct("_Fix", "grid", ("result", c_int64 * MOST_PARAMETERS))
_Position = _struct("_Position", "lon", "lat", "day")
_Answer = _struct("_Answer", ("number", c_uint64), ("place", c_uint64), ("fix", _Fix))
_Entry = _struct("_Entry", "grid", "lon", "lat")
_InForce = _struct("_InForce", "count", ("entry", _Entry * MOST_GRIDS))
_Uncovered = _struct("_Uncovered", "found", "lon", "lat")
_Fault = _struct("_Fault", ("line", c_uint64), ("kind", c_uint64))
_Screen = _struct("_Screen", ("longitude", c_double), ("latitude", c_double), ("shift", c_double * MOST_PARAMETERS))


def _load():
    """The shared library, if it is there and has all calls that are used here."""
    named = os.environ.get("BULHYEMIK_SHARED_LIBRARY")
    path = os.path.abspath(named) if named else f"libbulhyemik.so.{NEEDED // 1000000}"
    advice = "install the library and run ldconfig, or name its file in BULHYEMIK_SHARED_LIBRARY"
    try:
        library = ctypes.CDLL(path)
        library.bulhyemik_version.argtypes, library.bulhyemik_version.restype = (), c_uint64
        version = library.bulhyemik_version()
    except (OSError, AttributeError) as error:
        raise ImportError(f"bulhyemik: {path} is not the library ({error}); {advice}") from error
    if version // 1000000 != NEEDED // 1000000 or version // 1000 < NEEDED // 1000:
        raise ImportError(f"bulhyemik: {path} has version {version}, needed is {NEEDED} or a later minor one; {advice}")
    return library


def _prototype(name, *arguments):
    """A function of the library; the place is the last argument of each."""
    function = getattr(_library, f"bulhyemik_{name}")
    function.argtypes, function.restype = (*arguments, POINTER(c_uint64)), c_uint64
    return function


_library = _load()
_GROUP, _NODES, _AREA = POINTER(_Group), (POINTER(c_int32), c_size_t), (c_int64,) * 4
_read_header = _prototype("read_header", c_char_p, c_size_t, _GROUP)
_write_header = _prototype("write_header", _GROUP, c_char_p, c_size_t, POINTER(c_uint64))
_lookup = _prototype("lookup", _GROUP, *_NODES, c_int64, c_int64, c_int64, POINTER(_Fix))
_lookup_many = _prototype("lookup_many", _GROUP, *_NODES, POINTER(_Position), c_size_t, POINTER(_Answer), c_size_t)
_grids_in_force = _prototype("grids_in_force", _GROUP, *_AREA, POINTER(_InForce))
_hole = _prototype("hole", _GROUP, *_AREA, POINTER(_Uncovered))
_judge_log = _prototype("judge_log", _GROUP, *_NODES, c_char_p, c_size_t, POINTER(_Fault))
_write_log_line = _prototype("write_log_line", _GROUP, *_NODES, POINTER(_Position), c_char_p, c_size_t,
                             POINTER(c_uint64))
_load_nodes = _prototype("load_nodes", POINTER(c_float), c_size_t, c_float, c_int64, *_NODES)
_screen_record = _prototype("screen_record", *(c_int64,) * 4, c_uint64, c_uint64, POINTER(_Fix), POINTER(_Screen))


def _call(function, *arguments):
    """Calls a function of the library, and raises what it refuses."""
    place = c_uint64()
    number = function(*arguments, place)
    if number != ACCEPTED:
        raise Refused(number, place.value)


def _whole(value):
    """A whole number as an int."""
    if isinstance(value, bool):
        raise TypeError("'bool' object is no whole number")
    return int.__index__(operator.index(value))


def _cut(value):
    """A whole number, cut to 64 bits: the ends of these lie beyond every limit, so the library refuses them."""
    return max(-2**63, min(_whole(value), 2**63 - 1))


def _triple(point):
    lon, lat, day = point
    return _cut(lon), _cut(lat), _cut(day)


# A list that the library reads: its name, one element of it, the array code and the buffer formats of its numbers in
# this machine's order, whether a file's bytes are taken too, the numbers of one value, and what to hand over.
_List = namedtuple("_List", "name element code formats raw numbers_of wanted")
_NODE_LIST = _List("nodes", c_int32, "i", frozenset("il"), True, lambda value: (_whole(value),),
                   "a list of whole numbers, a buffer of 32-bit signed ones, or the bytes of a node file")
_FLOAT_LIST = _List("floats", c_float, "f", frozenset("f"), True, lambda value: (value,),
                    "a list of numbers, a buffer of 32-bit floats, or the bytes of a file of them")
_POINT_LIST = _List("points", _Position, "q", frozenset("lqn"), False, _triple,
                    "a list of (lon, lat, day), or a buffer of 64-bit signed numbers, flat or of shape (n, 3)")


def _array(values, of):
    """An array of the numbers of each of the values; an exception names the value's position, from 0."""
    try:
        values = iter(values)
    except TypeError:
        raise TypeError(f"{of.name}: a {type(values).__name__}; hand over {of.wanted}") from None
    numbers = array(of.code)
    for position, value in enumerate(values):
        try:
            numbers.extend(of.numbers_of(value))
        except TypeError as error:
            raise TypeError(f"{of.name}: position {position}: {error}; hand over {of.wanted}") from error
        except (ValueError, OverflowError) as error:
            raise ValueError(f"{of.name}: position {position}: {error}; hand over {of.wanted}") from error
    return numbers


def _copy(source, of):
    """Memory of our own with what a buffer or any other iterable holds, if it is of the list's form."""
    try:
        view = memoryview(source)
    except TypeError:
        view = memoryview(_array(source, of))
    letter, size = view.format.lstrip("@=<"), array(of.code).itemsize
    if not (letter in of.formats and view.itemsize == size or of.raw and letter in ("B", "c")):
        raise TypeError(f"{of.name}: elements of {view.itemsize} bytes, format {view.format}; hand over {of.wanted}")
    if not view.c_contiguous:
        raise ValueError(f"{of.name}: elements with gaps between them, or in another order; hand over a copy")
    in_rows = of.element is not _Position or view.ndim == 1 or view.shape[1:] == (3,)
    if view.nbytes % sizeof(of.element) != 0 or not in_rows:
        raise ValueError(f"{of.name}: {view.nbytes} bytes of shape {view.shape}; hand over {of.wanted}")
    return (of.element * (view.nbytes // sizeof(of.element))).from_buffer_copy(view)


def _bytes(text, name, what):
    """The bytes of a text in a copy of our own."""
    try:
        return str.encode(text, "utf-8", "surrogatepass") if isinstance(text, str) else memoryview(text).tobytes()
    except TypeError:
        raise TypeError(f"{name}: a {type(text).__name__}; hand over the {what}'s bytes or a str") from None


def read_nodes(path) -> array:
    """The nodes of a node file."""
    raw = Path(path).read_bytes()
    if len(raw) % 4 != 0:
        raise ValueError(f"{path}: {len(raw)} bytes are no node file; it has four for each node")
    return array("i", raw)


def load_nodes(floats, quantum: int, flag: float | None = None) -> array:
    """Floats in units as nodes in steps of 2 to the power -quantum; NaN, and floats of the flag's bits, are the mark.

    floats: a list, a buffer of 32-bit floats, or the bytes of a file of them; the flag too is taken as a 32-bit float
    """
    lent = _copy(floats, _FLOAT_LIST)
    nodes = (c_int32 * len(lent))()
    flag = c_float(float("nan") if flag is None else flag)
    _call(_load_nodes, lent, len(lent), flag, _cut(quantum), nodes, len(nodes))
    return array("i", bytes(nodes))


def _function(record):
    """A function of time of an accepted group."""
    name, kind = _KINDS[record.kind]
    numbers = getattr(record.numbers, name)
    return kind(*(getattr(numbers, each.name) for each in fields(kind)))


@dataclass(frozen=True, init=False)
class Group:
    """A group of grids, read from its header text and accepted; it can't be changed.

    text: the header's bytes, in any buffer, or a str, which is taken as UTF-8 (only ASCII can be accepted)
    functions: its functions of time, each a Ramp, a Step or a Ramp2, as they were written
    """
    name: str
    unit: str
    quantum: int
    parameters: int
    functions: tuple
    grids: tuple
    _record: _Group = field(repr=False, compare=False)

    def __init__(self, text):
        raw, record = _bytes(text, "text", "header"), _Group()
        _call(_read_header, raw, len(raw), record)
        functions = map(_function, record.function[:record.functions])
        grids = (Grid(number, g.name.decode("ascii"), g.lon, g.lat, g.dlon, g.dlat, g.ni, g.nj, g.rank, g.start)
                 for number, g in enumerate(record.grid[:record.grids], 1))
        vars(self).update(name=record.name.decode("ascii"), unit=UNITS[record.unit], quantum=record.quantum,
                          parameters=record.parameters, functions=tuple(functions), grids=tuple(grids), _record=record)

    @classmethod
    def read(cls, path) -> Group:
        """The group of a header file."""
        return cls(Path(path).read_bytes())

    def __reduce__(self):
        return type(self), (self.text(),)

    def text(self) -> bytes:
        """The header text: the bytes that the group was read from."""
        out, count = ctypes.create_string_buffer(HEADER_BYTES), c_uint64()
        _call(_write_header, self._record, out, HEADER_BYTES, count)
        return out.raw[:count.value]

    def in_force(self, west: int, east: int, south: int, north: int) -> list:
        """The grids that are chosen at one or more coordinates of an area, best rank first."""
        found = _InForce()
        _call(_grids_in_force, self._record, _cut(west), _cut(east), _cut(south), _cut(north), found)
        return [InForce(e.grid, self.grids[e.grid - 1].name, e.lon, e.lat) for e in found.entry[:found.count]]

    def hole(self, west: int, east: int, south: int, north: int) -> tuple | None:
        """(lon, lat) of the area's southmost, then westmost coordinate that no grid holds; None if there is none."""
        found = _Uncovered()
        _call(_hole, self._record, _cut(west), _cut(east), _cut(south), _cut(north), found)
        return (found.lon, found.lat) if found.found else None

    def _fix(self, grid, results):
        return Fix(grid, self.grids[grid - 1].name, tuple(results[:self.parameters]))


@dataclass(frozen=True, init=False, eq=False)
class Model:
    """A group with its nodes. These are copied once, here: later changes of what was handed over are not seen.

    nodes: a list of whole numbers, a buffer of 32-bit signed ones in any shape, or the bytes of a node file
    """
    group: Group
    _nodes: ctypes.Array = field(repr=False)

    def __init__(self, group: Group, nodes):
        if not isinstance(group, Group):
            raise TypeError(f"group: a {type(group).__name__}; hand over a Group")
        vars(self).update(group=group, _nodes=_copy(nodes, _NODE_LIST))

    def __reduce__(self):
        return type(self), (self.group, bytes(self._nodes))

    def _find(self, lon, lat, day):
        """The lookup's own answer, for numbers of 64 bits."""
        found = _Fix()
        _call(_lookup, self.group._record, self._nodes, len(self._nodes), lon, lat, day, found)
        return found

    def lookup(self, lon: int, lat: int, day: int) -> Fix:
        """Looks a point up on a day."""
        found = self._find(_cut(lon), _cut(lat), _cut(day))
        return self.group._fix(found.grid, found.result)

    def screen(self, lon: int, lat: int, day: int) -> Screen:
        """Looks a point up on a day for the screen: degrees, and shifts in the group's unit."""
        group, lon, lat, shown = self.group, _cut(lon), _cut(lat), _Screen()
        found = self._find(lon, lat, _cut(day))
        _call(_screen_record, lon, lat, group.quantum, group.parameters, ACCEPTED, 0, found, shown)
        return Screen(shown.longitude, shown.latitude, group._fix(found.grid, found.result),
                      tuple(shown.shift[:group.parameters]))

    def replay(self, points) -> Answers:
        """Looks many points up, each on its own day. A point that is refused has its Refused among the answers.

        points: any iterable of (lon, lat, day), or a buffer of 64-bit signed numbers, flat or of shape (n, 3)
        """
        positions = _copy(points, _POINT_LIST)
        count = len(positions)
        memory = array("q", [0]) * (6 * count)
        results = (_Answer * count).from_buffer(memory)
        _call(_lookup_many, self.group._record, self._nodes, len(self._nodes), positions, count, results, count)
        return Answers(self.group, memory)

    def log_line(self, lon: int, lat: int, day: int) -> bytes:
        """Looks a point up on a day and writes the line of a log, with its line feed. Such lines pass `judge_log`."""
        at, count = _Position(_cut(lon), _cut(lat), _cut(day)), c_uint64()
        out = ctypes.create_string_buffer(LOG_LINE_BYTES)
        _call(_write_log_line, self.group._record, self._nodes, len(self._nodes), at, out, LOG_LINE_BYTES, count)
        return out.raw[:count.value]

    def judge_log(self, log) -> Fault | None:
        """The first bad line of a log, whoever wrote it, and its kind; None if every line says what the lookup says.

        log: its bytes, in any buffer, or a str, which is taken as UTF-8 (only ASCII can pass)
        """
        raw, found = _bytes(log, "log", "log"), _Fault()
        _call(_judge_log, self.group._record, self._nodes, len(self._nodes), raw, len(raw), found)
        return Fault(found.line, found.kind) if found.line else None


class Answers(Sequence):
    """The answers of a replay in the points' order, each a Fix or a Refused, made when asked for; a slice is a list.

    words: their memory, to be read by other programs without a copy: six 64-bit signed numbers for each point, which
           are number, place, grid and three results
    """

    def __init__(self, group: Group, memory: array):
        self._group, self.words = group, memoryview(memory).toreadonly()

    def __reduce__(self):
        return type(self), (self._group, array("q", self.words.tobytes()))

    def __len__(self):
        return len(self.words) // 6

    def __iter__(self):
        return (self[k] for k in range(len(self)))

    def __getitem__(self, at):
        if isinstance(at, slice):
            return [self[k] for k in range(len(self))[at]]
        k = range(len(self))[at]
        number, place, grid, *results = self.words[6 * k:6 * k + 6]
        return Refused(number, place) if number != ACCEPTED else self._group._fix(grid, results)
