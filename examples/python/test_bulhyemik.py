"""Tests of bulhyemik.py and exercise.py, on the shared library that BULHYEMIK_SHARED_LIBRARY names:

    BULHYEMIK_SHARED_LIBRARY=FILE python3 -m unittest
"""
import contextlib
import copy
import ctypes
import importlib.util
import math
import multiprocessing
import os
import pickle
import random
import re
import subprocess
import sys
import tempfile
import threading
import unittest
from array import array
from pathlib import Path
from unittest import mock

HERE = Path(__file__).resolve().parent
sys.path.insert(0, str(HERE))

import bulhyemik  # noqa: E402: it stands beside this file
from bulhyemik import (  # noqa: E402
    Fault, Fix, Grid, Group, InForce, MARK, Model, Ramp, Ramp2, Refused, Step, load_nodes, read_nodes)

EXAMPLES = HERE.parent
HEADER = (EXAMPLES.parent / "include" / "bulhyemik.h").read_text(encoding="utf-8")
DOCK = b"group\tdock\tmetre\t13\t1\t1\t1\nramp\t100\t0\t200\t1000000\ngrid\tbasin\t0\t0\t10\t10\t3\t2\t1\t0\n"
MIXED = (b"group\tdock\tmetre\t13\t1\t3\t1\nstep\t300\t0\t-400000\nramp2\t100\t200\t150\t1000000\n"
         b"ramp\t100\t0\t200\t1000000\ngrid\tbasin\t0\t0\t10\t10\t3\t2\t1\t0\n")
DOCK_NODES = [0, 10, 20, 100, 110, 120]
HUGE = 10**30


def example(name):
    """The model of one of the examples."""
    return Model(Group.read(EXAMPLES / f"{name}.txt"), read_nodes(EXAMPLES / f"{name}.nodes"))


def points_of(name):
    """The points of one of the examples."""
    return [tuple(map(int, line.split())) for line in (EXAMPLES / f"{name}.points").read_text().splitlines()]


def plain(answer):
    """An answer in a form that can be compared."""
    return (answer.number, answer.place) if isinstance(answer, Refused) else answer


def single(model, point):
    """The plain answer of a single lookup."""
    try:
        return model.lookup(*point)
    except Refused as refused:
        return plain(refused)


def random_points(count, seed):
    """Points in and around the harbour, a few of them and a few days beyond every limit."""
    chance = random.Random(seed)
    wild = (HUGE, -HUGE, 2**63, -2**63 - 1, 648000001, -648000001, -324000001)
    return [(chance.choice(wild) if chance.random() < .02 else chance.randint(-14401000, -14359000),
             chance.choice(wild) if chance.random() < .02 else chance.randint(179999000, 180031000),
             chance.choice(wild) if chance.random() < .02 else chance.randint(90, 310)) for _ in range(count)]


def cut(points):
    """Points as a flat array of 64-bit numbers."""
    return array("q", [max(-2**63, min(number, 2**63 - 1)) for point in points for number in point])


class Hostile:
    """A whole number that calls back when it is taken."""

    def __init__(self, number, back):
        self.number, self.back = number, back

    def __index__(self):
        self.back()
        return self.number


class Case(unittest.TestCase):
    def assertRefused(self, number, place, call, *arguments, **named):
        with self.assertRaises(Refused) as caught:
            call(*arguments, **named)
        self.assertEqual((number, place), plain(caught.exception))


class Interface(Case):
    """What the module says beside what include/bulhyemik.h says."""

    def test_sizes_and_offsets(self):
        sizes = dict(re.findall(r"^BULHYEMIK_WORDS\((\w+), (\d+)\)", HEADER, re.M))
        offsets = re.findall(r"^BULHYEMIK_WORD\((\w+), (\w+), (\d+)\)", HEADER, re.M)
        structs = {name: getattr(bulhyemik, "_" + name.title().replace("_", ""), None) for name in sizes}
        self.assertEqual(["part"], [name for name, struct in structs.items() if struct is None])  # of bulhyemik_field
        del structs["part"]
        for name, struct in structs.items():
            self.assertEqual(8 * int(sizes[name]), ctypes.sizeof(struct), name)
            fields = [(field, 8 * int(word)) for owner, field, word in offsets if owner == name]
            self.assertEqual(fields, [(field, getattr(struct, field).offset) for field, _ in struct._fields_], name)
        self.assertEqual(14, len(structs))

    def test_prototypes(self):
        numbers = {"int64_t": ctypes.c_int64, "uint64_t": ctypes.c_uint64, "size_t": ctypes.c_size_t,
                   "float": ctypes.c_float}
        structs = {f"bulhyemik_{name}": getattr(bulhyemik, "_" + name.title().replace("_", ""))
                   for name in "group fix position answer in_force uncovered fault screen".split()}
        targets = {**numbers, **structs, "int32_t": ctypes.c_int32}
        kinds = {**numbers, **{f"{name} *": ctypes.POINTER(target) for name, target in targets.items()},
                 "uint8_t *": ctypes.c_char_p}
        used = set()
        for name, arguments in re.findall(r"^uint64_t (bulhyemik_\w+)\(([^)]*)\);", HEADER, re.M):
            function = getattr(bulhyemik._library, name)
            if function.argtypes is not None:
                declared = re.findall(r"(?:const )?(\w+ \*?)\w+(?:,|$)", arguments)
                self.assertEqual([kinds[kind.strip()] for kind in declared], list(function.argtypes), name)
                self.assertIs(ctypes.c_uint64, function.restype, name)
                used.add(name)
        self.assertEqual(11, len(used))

    def test_constants(self):
        constants = {name: int(value) for name, value in re.findall(r"^ +BULHYEMIK_(\w+) = (\d+)", HEADER, re.M)}
        self.assertEqual(25, len(constants))
        for name, value in constants.items():
            self.assertEqual(value, getattr(bulhyemik, name), name)
        units = re.search(r"BULHYEMIK_ARC_SECOND = (\d), BULHYEMIK_METRE = (\d)", HEADER)
        self.assertEqual(("arc-second", "metre"), tuple(bulhyemik.UNITS[int(unit)] for unit in units.groups()))
        kinds = re.search(r"BULHYEMIK_RAMP = (\d), BULHYEMIK_STEP = (\d), BULHYEMIK_RAMP2 = (\d)", HEADER)
        self.assertEqual((Ramp, Step, Ramp2), tuple(bulhyemik._KINDS[int(kind)][1] for kind in kinds.groups()))
        self.assertEqual("other shift", bulhyemik.KINDS[bulhyemik.LOG_SHIFT])
        self.assertIn("#define BULHYEMIK_MARK INT32_MIN", HEADER)
        self.assertEqual(-2147483648, MARK)

    def test_reasons_are_the_headers(self):
        refusals = re.search(r"enum bulhyemik_refusal \{(.*?)\};", HEADER, re.S).group(1)
        said = {int(number): words for number, words in re.findall(r"= (\d+),? +/\* (.*?) \*/", refusals, re.S)}
        self.assertEqual(set(said), {bulhyemik.ACCEPTED, *bulhyemik.REASONS})
        for number, reason in bulhyemik.REASONS.items():
            self.assertEqual(set(), set(re.findall(r"\w{4,}", reason)) - set(re.findall(r"\w+", said[number])))
        self.assertEqual("refused by 7 at 0: no grid holds the point", str(Refused(7, 0)))

    def test_versions(self):
        version = int(re.search(r"#define BULHYEMIK_VERSION (\d+)", HEADER).group(1))
        self.assertEqual(version // 1000000, bulhyemik.NEEDED // 1000000)
        self.assertLessEqual(bulhyemik.NEEDED, version)

    def load(self, library):
        """A second copy of the module, over another library."""
        spec = importlib.util.spec_from_file_location("second", HERE / "bulhyemik.py")
        second = importlib.util.module_from_spec(spec)
        with mock.patch("ctypes.CDLL", library), mock.patch.dict("sys.modules", second=second):
            spec.loader.exec_module(second)

    def test_library_of_another_version(self):
        for version in (0, 1004000, 3000000, 3999999, 5000000, 5004000):
            with self.assertRaisesRegex(ImportError, f"version {version}.*BULHYEMIK_SHARED_LIBRARY"):
                self.load(lambda path: mock.Mock(bulhyemik_version=mock.Mock(return_value=version)))
        for version in (4000000, 4000005, 4001000, 4999999):
            self.load(lambda path: mock.Mock(bulhyemik_version=mock.Mock(return_value=version)))

    def test_library_that_is_none(self):
        for named in ("/nowhere/libbulhyemik.so.4", __file__, str(HERE)):
            with mock.patch.dict("os.environ", BULHYEMIK_SHARED_LIBRARY=named):
                with self.assertRaisesRegex(ImportError, "name its file in BULHYEMIK_SHARED_LIBRARY"):
                    self.load(ctypes.CDLL)
        running = ctypes.CDLL(None)  # this program itself, which has no such function
        with self.assertRaisesRegex(ImportError, "is not the library"):
            self.load(lambda path: running)


class Groups(Case):
    def test_dock(self):
        group = Group(DOCK)
        self.assertEqual(("dock", "metre", 13, 1), (group.name, group.unit, group.quantum, group.parameters))
        self.assertEqual((Ramp(100, 0, 200, 1000000),), group.functions)
        self.assertEqual((Grid(1, "basin", 0, 0, 10, 10, 3, 2, 1, 0),), group.grids)

    def test_canyon(self):
        group = Group.read(str(EXAMPLES / "canyon.txt"))
        self.assertEqual(("Catalano_Canyon", "arc-second", 20, 2, ()),
                         (group.name, group.unit, group.quantum, group.parameters, group.functions))
        self.assertEqual(Grid(2, "North", 27360000, 144540000, 360000, -180000, 3, 4, 2, 30), group.grids[1])

    def test_functions_of_all_kinds_keep_their_order(self):
        group = Group(MIXED)
        functions = (Step(300, 0, -400000), Ramp2(100, 200, 150, 1000000), Ramp(100, 0, 200, 1000000))
        self.assertEqual(functions, group.functions)
        self.assertEqual(MIXED, group.text())
        self.assertEqual(group, pickle.loads(pickle.dumps(group)))
        self.assertNotEqual(Ramp(1, 2, 3, 4), Ramp2(1, 2, 3, 4), "kinds differ, whatever their numbers")
        self.assertRaises(AttributeError, setattr, group.functions[0], "mult", 1)
        model = Model(group, [1000000] * 6)
        factors = [model.lookup(5, 5, day).results[0] for day in (99, 133, 200, 299, 300)]
        self.assertEqual([-500000, 160000, 1500000, 1500000, 1100000], factors)

    def test_a_factor_is_rounded_once(self):
        text = DOCK.replace(b"ramp\t100\t0\t200\t1000000", b"ramp2\t0\t3\t1\t1")
        model = Model(Group(text), [1000000] * 6)
        self.assertEqual([0, 0, 0, 1], [model.lookup(5, 5, day).results[0] for day in range(4)])

    def test_refused_functions(self):
        for number, place, one, other in [
            (1, 2, b"step\t300", b"step"), (1, 2, b"-400000", b"-400000\t0"), (1, 3, b"\t150", b""),
            (1, 3, b"ramp2", b"ramp3"), (1, 3, b"ramp2", b"step"), (1, 4, b"\nramp\t", b"\nstep\t"),
            (1, 4, b"\t3\t1\n", b"\t2\t1\n"), (2, 1, b"\t3\t1\n", b"\t9\t1\n"),
            (2, 2, b"300", b"1000001"), (2, 2, b"-400000", b"-10000001"), (2, 3, b"100\t200", b"200\t200"),
            (2, 3, b"100\t200", b"201\t200"), (2, 3, b"150", b"-1000001"),
        ]:
            self.assertIn(one, MIXED)
            self.assertRefused(number, place, Group, MIXED.replace(one, other, 1))

    def test_text_is_given_back(self):
        name = "N" * 24
        grids = [f"grid\t{'G' * 22}{number:02}\t-{number * 1000}\t-324000000\t1\t1\t2\t2\t1000\t16777000\n"
                 for number in range(1, 65)]
        ramps = ["ramp\t-1000000\t-10000000\t1000000\t10000000\n"] * 8
        full = "".join([f"group\t{name}\tarc-second\t20\t3\t8\t64\n", *ramps, *grids])
        examples = [(EXAMPLES / f"{each}.txt").read_bytes() for each in ("canyon", "harbour", "pacific", "world")]
        for text in (DOCK, full.encode(), *examples):
            self.assertEqual(text, Group(text).text())
        self.assertEqual((name, 8, 64), (Group(full).name, len(Group(full).functions), len(Group(full).grids)))
        self.assertEqual("G" * 22 + "64", Group(full).grids[63].name)

    def test_forms_of_a_text(self):
        for text in (DOCK.decode(), bytearray(DOCK), memoryview(DOCK), ctypes.create_string_buffer(DOCK, len(DOCK)),
                     array("B", DOCK)):
            self.assertEqual(Group(DOCK), Group(text))
        self.assertNotEqual(Group(DOCK), Group(DOCK.replace(b"13", b"12")))

    def test_refusals(self):
        two = DOCK.replace(b"1\t1\n", b"1\t2\n") + b"grid\tquay\t20\t10\t10\t10\t3\t2\t2\t0\n"
        apart = two.replace(b"basin\t0", b"basin\t647999980").replace(b"quay\t20", b"quay\t-648000000")
        across = apart.replace(b"2\t2\t0", b"2\t1\t0")  # two grids of a rank that meet at 180 degrees
        self.assertEqual((2, 2), (len(Group(two).grids), len(Group(apart).grids)))
        for number, place, text in [
            (1, 1, b""), (1, 2, DOCK[:40]), (1, 4, DOCK + b"\n"), (1, 1, b"\xef\xbb\xbf" + DOCK), (1, 1, "\0" * 70000),
            (1, 3, DOCK.decode().replace("basin", "Becken-ä")), (1, 1, "\ud800"),
            (2, 1, DOCK.replace(b"13", b"21")), (2, 1, DOCK.replace(b"13", b"9" * 5000)),
            (2, 2, DOCK.replace(b"100\t", b"201\t")), (3, 2, two.replace(b"quay", b"basin")),
            (4, 1, DOCK.replace(b"3\t2\t1\t0", b"3\t2\t1\t16777215")),
            (4, 1, DOCK.replace(b"0\t0\t10\t10\t3", b"-648000001\t0\t1000000\t10\t1298")),
            (5, 2, two.replace(b"2\t2\t0", b"2\t1\t0")),
            (5, 2, across),
        ]:
            self.assertRefused(number, place, Group, text)

    def test_no_text(self):
        for text in (None, 5, 1.5, [103], object(), Group(DOCK)):
            self.assertRaisesRegex(TypeError, "^text: .*hand over", Group, text)
        released = memoryview(DOCK)
        released.release()
        self.assertRaises(ValueError, Group, released)
        self.assertRaises(TypeError, Group)

    def test_no_file(self):
        self.assertRaises(FileNotFoundError, Group.read, EXAMPLES / "nowhere.txt")
        self.assertRaises(IsADirectoryError, Group.read, EXAMPLES)
        self.assertRaises(TypeError, Group.read, 0)

    def test_it_cannot_be_changed(self):
        group = Group(DOCK)
        for name in ("name", "quantum", "grids", "_record", "other"):
            self.assertRaises(AttributeError, setattr, group, name, 1)
        self.assertRaises(AttributeError, delattr, group, "name")
        self.assertRaises(AttributeError, setattr, group.grids[0], "lon", 1)

    def test_copies(self):
        group = Group(DOCK)
        pickled = (pickle.loads(pickle.dumps(group, protocol)) for protocol in range(5))
        for again in (copy.copy(group), copy.deepcopy(group), *pickled):
            self.assertEqual((group, hash(group), DOCK), (again, hash(again), again.text()))
        self.assertIn("dock", repr(group))
        refused = pickle.loads(pickle.dumps(Refused(11, 3)))
        self.assertEqual((11, 3), plain(refused))


class Areas(Case):
    EARTH = (-648000000, 648000000, -324000000, 324000000)

    def setUp(self):
        self.harbour = Group.read(EXAMPLES / "harbour.txt")

    def test_in_force(self):
        self.assertEqual([InForce(1, "basin", 0, 3)], Group(DOCK).in_force(-648000000, 648000000, 3, 324000000))
        basins = [InForce(2, "west-basin", -14390000, 180010000), InForce(3, "east-basin", -14379999, 180010000)]
        self.assertEqual(basins + [InForce(1, "bay", -14400000, 180000000)], self.harbour.in_force(*self.EARTH))
        self.assertEqual([], self.harbour.in_force(0, 0, 0, 0))

    def test_hole(self):
        self.assertEqual((21, 3), Group(DOCK).hole(0, 30, 3, 10))
        self.assertEqual((-14359999, 180000000), self.harbour.hole(-14400000, -14359999, 180000000, 180030000))
        self.assertIsNone(self.harbour.hole(-14400000, -14360000, 180000000, 180030000))
        self.assertEqual((0, 0), self.harbour.hole(0, 0, 0, 0))

    def test_across_the_meridian(self):
        pacific = Group.read(EXAMPLES / "pacific.txt")
        south, north = -62100000, -58500000
        self.assertEqual([InForce(1, "lagoon", 644400000, -61200000), InForce(2, "sea", 640800000, south)],
                         pacific.in_force(640800000, 648000000, south, north))
        there = [InForce(1, "lagoon", -648000000, -61200000), InForce(2, "sea", -648000000, south)]
        self.assertEqual(there, pacific.in_force(-648000000, -640800000, south, north))
        self.assertEqual(there, pacific.in_force(*self.EARTH))
        self.assertIsNone(pacific.hole(640800000, 648000000, south, north))
        self.assertEqual((-640799999, south), pacific.hole(-648000000, 648000000, south, north))

    def test_refused_and_wrong(self):
        for call in (self.harbour.in_force, self.harbour.hole):
            for area in ((1, 0, 0, 0), (0, 0, 1, 0), (-648000001, 0, 0, 0), (0, 648000001, 0, 0), (0, 0, 0, 324000001),
                         (-HUGE, HUGE, 0, 0), (0, 0, -2**64, 2**64), (648000000, -648000000, 0, 0)):
                self.assertRefused(10, 0, call, *area)
            for bad in (0.0, None, "0", True, b"0", [0]):
                for place in range(4):
                    self.assertRaises(TypeError, call, *(bad if k == place else 0 for k in range(4)))
            self.assertRaises(TypeError, call, 0, 0, 0)


class Lookups(Case):
    def setUp(self):
        self.dock = Model(Group(DOCK), DOCK_NODES)

    def test_dock(self):
        self.assertEqual(Fix(1, "basin", (55,)), self.dock.lookup(5, 5, 200))
        self.assertEqual((28,), self.dock.lookup(5, 5, 150).results)
        self.assertEqual((120,), self.dock.lookup(20, 10, 200).results)

    def test_canyon(self):
        canyon = example("canyon")
        self.assertEqual([Fix(1, "South", (1520435, -2527068)), Fix(2, "North", (901775, -2747269)),
                          Fix(1, "South", (2306867, -2023752)), Fix(1, "South", (1363148, -2516582)),
                          Fix(2, "North", (1363148, -2516582)), (7, 0)],
                         [single(canyon, point) for point in points_of("canyon")])

    def test_pacific(self):
        pacific = example("pacific")
        self.assertEqual([Fix(1, "lagoon", (1984,)), Fix(1, "lagoon", (3520,)), Fix(1, "lagoon", (2752,)),
                          Fix(1, "lagoon", (2752,)), Fix(2, "sea", (1280,)), Fix(2, "sea", (2816,)), (7, 0), (6, 0)],
                         [single(pacific, point) for point in points_of("pacific")])
        self.assertEqual(-179.5, pacific.screen(-646200000, -60300000, 0).longitude)

    def test_greatest_values(self):
        dock = Model(Group(DOCK), [2147483647, -2147483647, 0, -2147483647, 2147483647, 0])
        for point, result in [((0, 0), 2147483647), ((10, 0), -2147483647), ((5, 0), 0), ((1, 0), 1717986918),
                              ((5, 5), 0), ((1, 1), 1374389534)]:
            self.assertEqual((result,), dock.lookup(*point, 200).results)
        ramps = "ramp\t0\t10000000\t0\t10000000\n" * 8
        wide = "grid\twide\t-648000000\t-324000000\t36000000\t36000000\t37\t19\t1\t0\n"
        for value in (2147483647, -2147483647):
            model = Model(Group(f"group\tg\tmetre\t20\t1\t8\t1\n{ramps}{wide}"), [value] * 703)
            shown = model.screen(-647999999, 17999999, 0)
            self.assertEqual(((80 * value,), (80 * value / 2**20,)), (shown.fix.results, shown.shifts))

    def test_screen(self):
        self.assertEqual((5 / 3600000, 5 / 3600000, Fix(1, "basin", (55,)), (55 / 8192,)), self.dock.screen(5, 5, 200))
        shown = example("canyon").screen(27720000, 143880000, 0)
        self.assertEqual((7.7, 39.96666666666667, (1.4499998092651367, -2.4099998474121094)),
                         (shown.longitude, shown.latitude, shown.shifts))

    def test_refused_and_wrong(self):
        few = Model(Group(DOCK), DOCK_NODES[:5])
        marked = Model(Group(DOCK), [0, MARK, 0, 0, 0, 0])
        for model, number, place, point in [
            (self.dock, 6, 0, (648000001, 0, 0)), (self.dock, 6, 0, (0, -324000001, HUGE)),
            (self.dock, 6, 0, (HUGE, 0, 0)), (self.dock, 6, 0, (0, -HUGE, 0)), (self.dock, 6, 0, (2**64, 0, 0)),
            (self.dock, 9, 0, (0, 0, 1000001)), (self.dock, 9, 0, (0, 0, -2**64)), (self.dock, 7, 0, (21, 10, 0)),
            (few, 13, 1, (0, 0, 0)), (few, 6, 0, (HUGE, 0, 0)), (Model(Group(DOCK), []), 13, 1, (0, 0, 0)),
            (marked, 8, 0, (1, 0, 0)),
        ]:
            for call in (model.lookup, model.screen):
                self.assertRefused(number, place, call, *point)
        for call in (self.dock.lookup, self.dock.screen):
            for bad in (0.0, math.nan, None, "0", True, False, b"0", [0], 1j, object()):
                for place in range(3):
                    self.assertRaises(TypeError, call, *(bad if k == place else 0 for k in range(3)))
            self.assertRaises(TypeError, call, 0, 0)
        self.assertEqual((55,), self.dock.lookup(Hostile(5, lambda: None), 5, 200).results)


class Nodes(Case):
    def assertModel(self, nodes):
        self.assertEqual((55,), Model(Group(DOCK), nodes).lookup(5, 5, 200).results)

    def test_forms(self):
        numbers = array("i", DOCK_NODES)
        shaped = memoryview(numbers).cast("B").cast("i", (2, 3))
        raw = numbers.tobytes()
        odd = bytearray(b"x" + raw)
        for nodes in (DOCK_NODES, tuple(DOCK_NODES), iter(DOCK_NODES), numbers, raw, bytearray(raw),
                      memoryview(numbers), memoryview(raw).cast("i"), shaped, shaped.toreadonly(),
                      (ctypes.c_int32 * 6)(*DOCK_NODES), (ctypes.c_int32 * 3 * 2).from_buffer(numbers),
                      ctypes.create_string_buffer(raw, 24), memoryview(odd)[1:], memoryview(odd)[1:].cast("i")):
            self.assertModel(nodes)

    def test_copied_once(self):
        numbers = array("i", DOCK_NODES)
        model = Model(Group(DOCK), numbers)
        numbers[0] = 4000000
        numbers.extend(range(100))  # the memory isn't held
        self.assertEqual((55,), model.lookup(5, 5, 200).results)
        self.assertRaises(AttributeError, setattr, model, "group", None)
        for again in (copy.copy(model), copy.deepcopy(model), pickle.loads(pickle.dumps(model))):
            self.assertEqual((55,), again.lookup(5, 5, 200).results)

    def test_wrong(self):
        group = Group(DOCK)
        wide = memoryview(array("i", range(12)))
        for nodes in (None, 5, 1.5, "012345", [0.5], [None], [True], ["1"], [[1]], {"a": 1}, group, bulhyemik._Fix(),
                      *(array(code, DOCK_NODES) for code in "IhqfdbL"), (ctypes.c_int32.__ctype_be__ * 6)()):
            self.assertRaisesRegex(TypeError, "^nodes: .*hand over", Model, group, nodes)
        for nodes in (wide[::2], wide[::-1], bytes(23), memoryview(bytes(48))[::2]):
            self.assertRaisesRegex(ValueError, "^nodes: .*hand over", Model, group, nodes)
        for bad in (2**31, -2**31 - 1, HUGE):
            with self.assertRaisesRegex(ValueError, "nodes: position 2"):
                Model(group, [0, 1, bad])
        with self.assertRaisesRegex(TypeError, "nodes: position 1"):
            Model(group, [0, 1.0])
        wide.release()
        self.assertRaises(ValueError, Model, group, wide)
        for wrong in (None, DOCK, bulhyemik._Group()):
            self.assertRaises(TypeError, Model, wrong, DOCK_NODES)

    def test_hostile_lists(self):
        nodes = list(DOCK_NODES)
        nodes[0] = Hostile(0, nodes.clear)
        self.assertRefused(13, 1, Model(Group(DOCK), nodes).lookup, 0, 0, 0)

    def test_files(self):
        self.assertEqual(41, len(read_nodes(EXAMPLES / "harbour.nodes")))
        self.assertRaises(FileNotFoundError, read_nodes, EXAMPLES / "nowhere.nodes")
        self.assertRaises(TypeError, read_nodes, None)
        with tempfile.TemporaryDirectory() as folder:
            path = Path(folder) / "odd.nodes"
            for count in (1, 2, 3, 23):
                path.write_bytes(bytes(count))
                self.assertRaisesRegex(ValueError, "odd.nodes", read_nodes, path)
            path.write_bytes(b"")
            self.assertEqual(array("i"), read_nodes(str(path)))

    def test_load(self):
        self.assertEqual(array("i", [0, 2, MARK]), load_nodes([0.5, 1.5, -9999.0], 0, -9999.0))
        self.assertEqual(array("i", [MARK, 8192, 0, 0]), load_nodes((math.nan, 1, 0.0, -0.0), 13))
        self.assertEqual(array("i"), load_nodes([], 0))
        self.assertEqual(array("i", [104857600, 0]), load_nodes([100.0, 2.0**-21], 20))
        self.assertEqual(array("i", [2147483520, -2147483520]), load_nodes([2147483520.0, -2147483520.0], 0))
        raw = (EXAMPLES / "canyon.floats").read_bytes()
        for floats in (raw, bytearray(raw), array("f", raw), memoryview(raw).cast("f"), list(array("f", raw)),
                       (ctypes.c_float * 54).from_buffer_copy(raw)):
            self.assertEqual(read_nodes(EXAMPLES / "canyon.nodes"), load_nodes(floats, 20))

    def test_load_refused_and_wrong(self):
        self.assertRefused(2, 0, load_nodes, [0.5], 21)
        self.assertRefused(2, 0, load_nodes, [0.5], -HUGE)
        self.assertRefused(11, 2, load_nodes, [0.5, math.inf], 0)
        self.assertRefused(11, 3, load_nodes, [0, 0, 1e300, 0], 0)
        self.assertRefused(11, 2, load_nodes, [0, 2147483648.0], 0)
        self.assertRefused(11, 1, load_nodes, [-2048.0], 20)  # its steps are the mark's number
        self.assertEqual(array("i", [2**31 - 128, 128 - 2**31]), load_nodes([2.0**31 - 128, 128 - 2.0**31], 0))
        self.assertEqual(array("i", [0, MARK]), load_nodes([0.5, math.inf], 0, math.inf))
        for floats in (None, 5, "1.5", ["1"], [None], [1j], array("d", [1.5]), array("i", [1]), object()):
            self.assertRaises(TypeError, load_nodes, floats, 0)
        for floats in (bytes(7), memoryview(array("f", [1, 2, 3, 4]))[::2], [10**400]):
            self.assertRaises(ValueError, load_nodes, floats, 0)
        for flag in ("1", b"1", [], object(), 1j):
            self.assertRaises(TypeError, load_nodes, [1.5], 0, flag)
        self.assertRaises(TypeError, load_nodes, [1.5], 1.0)


class Replays(Case):
    def setUp(self):
        self.harbour = example("harbour")
        self.points = points_of("harbour")

    def test_dock(self):
        answers = Model(Group(DOCK), DOCK_NODES).replay([(5, 5, 200), (5, 5, 150), (21, 10, 150)])
        self.assertEqual([Fix(1, "basin", (55,)), Fix(1, "basin", (28,)), (7, 0)], list(map(plain, answers)))
        self.assertEqual([0, 0, 1, 55, 0, 0, 0, 0, 1, 28, 0, 0, 7, 0, 0, 0, 0, 0], answers.words.tolist())

    def test_list_buffer_and_single_lookups_agree(self):
        for model, seed in ((self.harbour, 1), (example("canyon"), 2)):
            points = random_points(3000, seed) + points_of("harbour") + points_of("canyon")
            singles = [single(model, point) for point in points]
            self.assertLessEqual({(6, 0), (7, 0), (9, 0)}, {answer for answer in singles if len(answer) == 2})
            flat = cut(points)
            for form in (points, iter(points), flat, memoryview(flat.tobytes()).cast("q")):
                self.assertEqual(singles, list(map(plain, model.replay(form))))

    def test_forms(self):
        flat = cut(self.points)
        known = self.harbour.replay(self.points).words
        odd = bytearray(b"x" + flat.tobytes())
        rows = memoryview(flat).cast("B").cast("q", (len(self.points), 3))
        for form in (tuple(self.points), map(list, self.points), (array("q", point) for point in self.points), flat,
                     rows, rows.toreadonly(), memoryview(bytearray(flat.tobytes())).cast("q"),
                     memoryview(flat.tobytes()).cast("n"), (ctypes.c_int64 * len(flat))(*flat),
                     (ctypes.c_int64 * 3 * len(self.points)).from_buffer(flat), memoryview(odd)[1:].cast("q")):
            self.assertEqual(known, self.harbour.replay(form).words)

    def test_answers(self):
        answers = self.harbour.replay(self.points)
        whole = list(map(plain, answers))
        self.assertEqual((13, 13), (len(answers), len(whole)))
        self.assertEqual(whole[::-1], list(map(plain, reversed(answers))))
        for part in (slice(None), slice(2, 5), slice(-3, None), slice(None, None, -2), slice(5, 2), slice(-99, 99)):
            self.assertEqual(whole[part], list(map(plain, answers[part])))
        self.assertEqual(((8, 0), (7, 0)), (plain(answers[10]), plain(answers[-1])))
        for outside in (13, -14, HUGE):
            self.assertRaises(IndexError, answers.__getitem__, outside)
        for wrong in (1.0, None, "1", (0, 1)):
            self.assertRaises(TypeError, answers.__getitem__, wrong)
        self.assertIn(Fix(1, "bay", (401,)), answers)
        self.assertEqual((1, 2), (answers.index(Fix(1, "bay", (401,))), answers.count(Fix(1, "bay", (1216,)))))
        self.assertEqual(("q", 8, (78,), True),
                         (answers.words.format, answers.words.itemsize, answers.words.shape, answers.words.readonly))
        for again in (copy.copy(answers), copy.deepcopy(answers), pickle.loads(pickle.dumps(answers))):
            self.assertEqual((whole, answers.words), (list(map(plain, again)), again.words))

    def test_empty(self):
        flat, threes = (ctypes.c_int64 * 0)(), (ctypes.c_int64 * 3 * 0)()
        if memoryview(flat).itemsize == 0:  # so in Python 3.8 and 3.9
            flat = threes = array("q")
        for points in ([], (), iter([]), array("q"), flat, threes):
            answers = self.harbour.replay(points)
            self.assertEqual((0, [], b""), (len(answers), answers[:], bytes(answers.words)))
        self.assertRefused(13, 1, Model(Group(DOCK), []).replay, [])

    def test_points_are_copied(self):
        flat = cut(self.points)
        answers = self.harbour.replay(flat)
        known = answers.words.tolist()
        flat[:] = array("q", [0] * len(flat))
        flat.append(0)  # the memory isn't held
        self.assertEqual(known, answers.words.tolist())

    def test_wrong_points(self):
        numbers = memoryview(array("q", range(90)))
        shaped = numbers.cast("B")
        for wrong, forms in [
            (TypeError, [None, 5, 1.5, object(), [5], [None], [(0, 0, 0.0)], [(0, 0, True)], [(0, "0", 0)], ["abc"],
                         bytes(24), bytearray(24), *(array(code, [0, 0, 0]) for code in "iQdb"),
                         (ctypes.c_int64.__ctype_be__ * 3)(), (bulhyemik._Position * 2)()]),
            (ValueError, [[()], [(0, 0)], [(0, 0, 0, 0)], [(0, 0, 0), range(10**9)], ["ab"], "ab", ctypes.c_int64(),
                          array("q", [0, 0]), array("q", [0] * 40), numbers[::2], numbers[::-1],
                          shaped.cast("q", (3, 30)), shaped.cast("q", (15, 6)), shaped.cast("q", (5, 6, 3))]),
        ]:
            for points in forms:
                self.assertRaisesRegex(wrong, "^points: .*hand over", self.harbour.replay, points)
        with self.assertRaisesRegex(ValueError, "points: position 1"):
            self.harbour.replay([(0, 0, 0), (0, 0)])
        numbers.release()
        self.assertRaises(ValueError, self.harbour.replay, numbers)

    def test_hostile_points(self):
        points = list(self.points)
        points[0] = (Hostile(-14395000, points.clear), 180005000, 133)
        self.assertEqual([Fix(1, "bay", (401,))], list(self.harbour.replay(points)))

        def broken():
            yield 0, 0, 0
            raise KeyError("broken")
        self.assertRaises(KeyError, self.harbour.replay, broken())

    @unittest.skipIf(sys.version_info < (3, 12), "a class of Python's own can't be a buffer")
    def test_buffers_that_differ_each_time(self):
        class Less:
            def __init__(self, memory):
                self.memory = memory

            def __buffer__(self, flags):
                lent, self.memory = self.memory, self.memory[:6]
                return memoryview(lent)
        words = self.harbour.replay(Less(cut(self.points))).words
        self.assertEqual(self.harbour.replay(self.points).words, words)
        model = Model(self.harbour.group, Less(read_nodes(EXAMPLES / "harbour.nodes")))
        self.assertEqual(words, model.replay(self.points).words)

    def test_threads(self):
        points = random_points(4000, 3)
        flat, known = cut(points), self.harbour.replay(points).words.tolist()
        canyon, found = example("canyon"), []

        def work(number):
            for _ in range(10):
                found.append(self.harbour.replay(flat).words.tolist() == known)
                found.append(canyon.lookup(27720000, 143880000, number).results == (1520435, -2527068))
        threads = [threading.Thread(target=work, args=(number,)) for number in range(4)]
        for thread in threads:
            thread.start()
        for thread in threads:
            thread.join()
        self.assertEqual([True] * 80, found)

    def test_processes(self):
        """As docs/CALLING.md shares a replay out."""
        points = random_points(900, 4)
        with multiprocessing.Pool(2) as pool:
            parts = pool.map(self.harbour.replay, [points[:300], points[300:301], points[301:]])
        self.assertEqual(self.harbour.replay(points).words.tobytes(), b"".join(part.words for part in parts))

    def test_points_changed_by_another_thread(self):
        """The library reads a copy, taken at once: the answers are those of one list or the other."""
        here, far = (-14395000, 180005000, 200), (2**62, -2**62, 2**62)
        flat, over = array("q", here * 20000), threading.Event()

        def change():
            while not over.is_set():
                memoryview(flat)[:] = array("q", far * 20000)
                memoryview(flat)[:] = array("q", here * 20000)
        thread = threading.Thread(target=change)
        thread.start()
        try:
            for _ in range(20):
                words = self.harbour.replay(flat).words.tolist()
                self.assertIn(words, ([0, 0, 1, 1216, 0, 0] * 20000, [6, 0, 0, 0, 0, 0] * 20000))
        finally:
            over.set()
            thread.join()


class Logs(Case):
    GOOD = b"fix\t5\t5\t200\tbasin\t55\n"

    def setUp(self):
        self.dock = Model(Group(DOCK), DOCK_NODES)
        self.harbour = example("harbour")

    def log(self, name):
        return (EXAMPLES / f"{name}.log").read_bytes()

    def test_lines_are_those_of_the_examples_log(self):
        accepted = [point for point in points_of("harbour") if isinstance(single(self.harbour, point), Fix)]
        self.assertEqual(self.log("harbour"), b"".join(self.harbour.log_line(*point) for point in accepted))
        self.assertEqual(self.GOOD, self.dock.log_line(5, 5, 200))
        self.assertEqual(b"fix\t27720000\t143880000\t0\tSouth\t1520435\t-2527068\n",
                         example("canyon").log_line(27720000, 143880000, 0))

    def test_the_longest_line(self):
        ramps = "ramp\t-1000000\t10000000\t1000000\t0\n" * 8
        text = f"group\tlong\tmetre\t0\t3\t8\t1\n{ramps}grid\t{'N' * 24}\t-648000000\t-324000000\t1\t1\t2\t2\t1\t0\n"
        model = Model(Group(text), [-2147483647] * 12)
        line = model.log_line(-648000000, -324000000, -1000000)
        self.assertEqual((102, None), (len(line), model.judge_log(line)))

    def test_what_is_written_passes(self):
        for model, seed in ((self.harbour, 5), (example("canyon"), 6)):
            points = random_points(500, seed) + points_of("harbour") + points_of("canyon")
            accepted = [point for point in points if isinstance(single(model, point), Fix)]
            lines = [model.log_line(*point) for point in accepted]
            self.assertLess(4, len(lines))
            self.assertIsNone(model.judge_log(b"".join(lines)))
            damaged = lines[:3] + [lines[3].replace(b"\n", b"0\n")] + lines[4:]
            self.assertEqual(4, model.judge_log(b"".join(damaged)).line)

    def test_faults(self):
        for name, fault in [("form", Fault(2, bulhyemik.LOG_FORM)), ("refused", Fault(3, bulhyemik.LOG_REFUSED)),
                            ("grid", Fault(2, bulhyemik.LOG_GRID)), ("shift", Fault(3, bulhyemik.LOG_SHIFT))]:
            self.assertEqual(fault, self.harbour.judge_log(self.log(f"harbour-{name}")))
        huge = str(HUGE).encode()
        for kind, line in [
            (1, b"\n"), (1, b"\0\n"), (1, b"fix\t5\t5\t200\tbasin\t55\r\n"), (1, b"fix\t5\t5\t200\tbasin\n"),
            (1, b"fix\t5\t5\t200\tbasin\t55\t0\n"), (1, b"fix\t5\t5\t200\tbasin\t055\n"), (1, b"\xff" * 300 + b"\n"),
            (2, b"fix\t21\t5\t200\tquay\t1\n"), (2, b"fix\t5\t5\t1000001\tbasin\t55\n"),
            (2, b"fix\t-" + huge + b"\t5\t200\tbasin\t55\n"), (3, b"fix\t5\t5\t200\tquay\t1\n"),
            (4, b"fix\t5\t5\t200\tbasin\t56\n"), (4, b"fix\t5\t5\t200\tbasin\t" + huge + b"\n"),
        ]:
            self.assertEqual(Fault(3, kind), self.dock.judge_log(self.GOOD * 2 + line + self.GOOD), line)
        self.assertEqual(Fault(2, bulhyemik.LOG_FORM), self.dock.judge_log(self.GOOD + self.GOOD[:-1]))

    def test_forms_of_a_log(self):
        log = self.log("harbour")
        for form in (log, log.decode(), bytearray(log), memoryview(log), memoryview(bytearray(log)), array("B", log),
                     ctypes.create_string_buffer(log, len(log))):
            self.assertIsNone(self.harbour.judge_log(form))
        for empty in (b"", "", bytearray(), memoryview(b""), array("B")):
            self.assertIsNone(self.harbour.judge_log(empty))
        for text in ("fix\t5\t5\t200\tBecken-\u00e4\t55\n", "\ud800\n", "\ufefffix\t5\t5\t200\tbasin\t55\n"):
            self.assertEqual(Fault(1, bulhyemik.LOG_FORM), self.dock.judge_log(text))

    def test_refused_and_wrong(self):
        few = Model(Group(DOCK), DOCK_NODES[:5])
        for log in (b"", self.GOOD, b"\n"):
            self.assertRefused(13, 1, few.judge_log, log)
        marked = Model(Group(DOCK), [0, MARK, 0, 0, 0, 0])
        for model, number, place, point in [
            (self.dock, 6, 0, (HUGE, 0, 0)), (self.dock, 6, 0, (0, -324000001, HUGE)), (self.dock, 9, 0, (0, 0, -HUGE)),
            (few, 13, 1, (21, 0, 0)), (self.dock, 7, 0, (21, 10, 0)), (marked, 8, 0, (1, 0, 0)),
        ]:
            self.assertRefused(number, place, model.log_line, *point)
        for log in (None, 5, 1.5, [102], object(), self.dock):
            self.assertRaisesRegex(TypeError, "^log: .*hand over", self.dock.judge_log, log)
        released = memoryview(self.GOOD)
        released.release()
        self.assertRaises(ValueError, self.dock.judge_log, released)
        for bad in (0.0, None, "0", True, b"0", [0]):
            for place in range(3):
                self.assertRaises(TypeError, self.dock.log_line, *(bad if k == place else 0 for k in range(3)))
        self.assertRaises(TypeError, self.dock.log_line, 0, 0)
        self.assertRaises(TypeError, self.dock.judge_log)


class Example(unittest.TestCase):
    """exercise.py, run as a program."""

    def run_exercise(self, *arguments):
        return subprocess.run([sys.executable, str(HERE / "exercise.py"), *map(str, arguments)], stdout=subprocess.PIPE,
                              stderr=subprocess.PIPE, check=False)

    def test_use_on_top_of_the_module(self):
        use = "".join(re.findall(r"^    (.*\n)", bulhyemik.__doc__, re.M))
        done = subprocess.run([sys.executable, "-c", use], cwd=str(EXAMPLES), stdout=subprocess.PIPE, check=True,
                              env={**os.environ, "PYTHONPATH": str(HERE)})
        self.assertEqual(["Fix(grid=1, name='bay', results=(1216,))", "Fix(grid=1, name='bay', results=(401,))",
                          "refused by 7 at 0: no grid holds the point"], done.stdout.decode().splitlines())

    def test_statuses(self):
        text, nodes, points = (EXAMPLES / f"harbour.{kind}" for kind in ("txt", "nodes", "points"))
        for status, files, said in [
            (2, (), b"usage"), (2, (text, nodes), b"usage"), (2, ("nowhere", nodes, points), b"nowhere"),
            (2, (text, "nowhere", points), b"nowhere"), (2, (text, nodes, "nowhere"), b"nowhere"),
            (2, (text, points, points), b"node file"), (2, (text, nodes, text), b"a line is not"),
            (2, (text, nodes, nodes), b"a line is not"), (1, (points, nodes, points), b"refused by 1 at 1"),
            (1, (text, "/dev/null", points), b"refused by 13 at 1"),
        ]:
            done = self.run_exercise(*files)
            self.assertEqual(status, done.returncode, done.stderr)
            self.assertRegex(done.stderr, b"^exercise: .*" + re.escape(said))


class Fuzz(unittest.TestCase):
    """Random objects to every call: none of them crashes, and nothing is raised that is not told of."""
    TOLD = (TypeError, ValueError, Refused, OSError, BufferError)

    def setUp(self):
        self.chance = random.Random(20)
        self.model = example("harbour")

    def number(self):
        """A whole number, rarely something else."""
        pick = self.chance.choice
        if self.chance.random() < .1:
            return pick([True, 1.5, None, "7", b"7", math.nan, Hostile(7, lambda: None), HUGE, -HUGE])
        return pick([0, 1, -1, -14395000, 180005000, 2**31, 2**63, -2**63 - 1, self.chance.randint(-2**70, 2**70),
                     self.chance.randint(-400, 400)])

    def buffer(self):
        """Memory of some bytes, seen in some form."""
        pick = self.chance.choice
        raw = self.chance.getrandbits(8 * 240).to_bytes(240, "little")
        size = pick([0, 1, 8, 23, 24, 48, 72, 96, 144, 164, 240])
        view = memoryview(pick([bytes, bytearray])(raw[:size]))[pick([0, 0, 0, 1, 4]):]
        form = pick("bBhHiIlLqQfdcn?qqif")
        if len(view) % ctypes.sizeof(ctypes.c_int64) == 0:
            view = view.cast(form)
        if self.chance.random() < .1:
            view = view[::pick([-1, 2])]
        if self.chance.random() < .05:
            view.release()
        return view

    def anything(self, depth=0):
        """A number, a buffer, one of our own things, or a list or an iterator of such."""
        kind = "number" if depth == 3 else self.chance.choice("number buffer buffer thing list points".split())
        if kind == "number":
            return self.number()
        if kind == "buffer":
            return self.buffer()
        if kind == "points":
            return [tuple(self.number() for _ in range(3)) for _ in range(self.chance.randrange(4))]
        if kind == "thing":
            return self.chance.choice([DOCK, DOCK[:self.chance.randrange(80)], DOCK.decode(), self.model.group,
                                       EXAMPLES / "nowhere", "nowhere\0", (ctypes.c_int64 * 6)(), {}, object()])
        items = [self.anything(depth + 1) for _ in range(self.chance.choice([0, 1, 2, 3, 3, 6]))]
        return self.chance.choice([items, iter(items)])

    def test_every_call(self):
        group, model = self.model.group, self.model
        objects, numbers = self.anything, self.number
        answers = model.replay([(0, 0, 0), (-14395000, 180005000, 200)])

        def answer(at):
            with contextlib.suppress(IndexError):
                return answers[at]

        for call, count, pick in [
            (Group, 1, objects), (Group.read, 1, objects), (read_nodes, 1, objects), (load_nodes, 3, objects),
            (lambda floats: load_nodes(floats, 3), 1, objects), (Model, 2, objects),
            (lambda nodes: Model(group, nodes).lookup(-14395000, 180005000, 200), 1, objects),
            (group.in_force, 4, objects), (group.in_force, 4, numbers), (group.hole, 4, numbers),
            (model.lookup, 3, objects), (model.lookup, 3, numbers), (model.screen, 3, numbers),
            (model.replay, 1, objects), (answer, 1, objects), (model.judge_log, 1, objects),
            (model.log_line, 3, objects), (model.log_line, 3, numbers),
        ]:
            raised = set()
            for _ in range(800):
                try:
                    call(*(pick() for _ in range(count)))
                except self.TOLD as error:
                    raised.add(type(error))
            self.assertIn(TypeError, raised)


if __name__ == "__main__":
    unittest.main()
