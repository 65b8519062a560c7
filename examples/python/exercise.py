#!/usr/bin/env python3
"""An exercise from start to end: a header and its nodes are read, one point is looked up, a list of points replayed and
its log judged; then which grids an area uses, and whether they cover another.

    python3 exercise.py ../harbour.txt ../harbour.nodes ../harbour.points

It prints what ../callers.expected holds, as the examples in the other languages do.
"""
import sys

from bulhyemik import Group, Model, Ramp, Refused, Step, read_nodes


def read_points(path):
    """The points of a file, one a line: longitude, latitude and day."""
    with open(path, encoding="ascii") as file:
        try:
            return [(int(lon), int(lat), int(day)) for lon, lat, day in map(str.split, file)]
        except ValueError:
            raise ValueError(f"{path}: a line is not longitude, latitude and day") from None


def said(function):
    """A function of time by its kind; factors are in millionths."""
    if isinstance(function, Ramp):
        return f"ramp, {function.s0} until day {function.a}, {function.s1} from day {function.b} on"
    if isinstance(function, Step):
        return f"step, {function.mult} on day {function.event}, counted from day {function.reference}"
    return (f"ramp2, {function.mult} from day {function.start} to day {function.end},"
            f" counted from day {function.reference}")


def exercise(header, nodes, points):
    group = Group.read(header)
    model = Model(group, read_nodes(nodes))
    print(f"group {group.name}: {len(group.grids)} grids, steps of 2 to the power -{group.quantum} {group.unit}")
    for number, function in enumerate(group.functions, 1):
        print(f"function {number}: {said(function)}")

    # One point, in steps, and what a screen shows of it.
    shown = model.screen(-14395000, 180005000, 133)
    print(f"one point: grid {shown.fix.name}, {shown.fix.results[0]} steps, {shown.shifts[0]:.10f} {group.unit}"
          f" at {shown.longitude:.7f}, {shown.latitude:.7f}")

    # A list of points by one call. A point that is refused has its refusal there and does not stop the others.
    track, log = read_points(points), b""
    for number, (point, answer) in enumerate(zip(track, model.replay(track)), 1):
        if isinstance(answer, Refused):
            print(f"point {number}: refused by {answer.number}")
        else:
            print(f"point {number}: grid {answer.name}, {answer.results[0]} steps")
            log += model.log_line(*point)

    # A log has a line for each accepted point; anybody's is judged line by line. Here the last line is cut off.
    print(f"the log of these points {'fails' if model.judge_log(log) else 'passes'}")
    fault = model.judge_log(log[:-1])
    if fault is not None:
        print(f"without its last byte it fails at line {fault.line}, by kind {fault.kind}")

    # The grids that an area uses, and the first point of a wider one that no grid holds.
    for grid in group.in_force(-14390000, -14370000, 180010000, 180020000):
        print(f"in force: grid {grid.name}, first at {grid.lon}, {grid.lat}")
    hole = group.hole(-14400000, -14359999, 180000000, 180030000)
    if hole is not None:
        print(f"no grid holds {hole[0]}, {hole[1]}")

    # A refusal says what is wrong, and where: this text is cut off in its second line.
    try:
        Group(group.text()[:40])
    except Refused as refused:
        print(f"a header that is cut off: refused by {refused.number} at line {refused.place}")


def main():
    if len(sys.argv) != 4:
        print("exercise: usage: exercise.py HEADER NODES POINTS", file=sys.stderr)
        return 2
    try:
        exercise(*sys.argv[1:])
    except (OSError, ValueError, Refused) as error:
        print(f"exercise: {error}", file=sys.stderr)
        return 1 if isinstance(error, Refused) else 2
    return 0


if __name__ == "__main__":
    sys.exit(main())
