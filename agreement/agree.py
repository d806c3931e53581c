"""Compares the library, through its boundary, with the second solver on random files: every line of every report, every
sheet, and the multipliers of every contradiction.

    agreement/run [--files N] [--seed N]
"""

import argparse
import collections
import ctypes
import random
import sys

import files
import solver

NUMBERS = 1056
LIST = 64


class Spot(ctypes.Structure):
    _fields_ = [("tie", ctypes.c_size_t), ("place", ctypes.c_size_t)]


class Summary(ctypes.Structure):
    _fields_ = [
        ("standing", ctypes.c_size_t),
        ("stopped_at", Spot),
        ("free", ctypes.c_uint16),
        ("stopped", ctypes.c_uint8),
        ("heads", ctypes.c_uint8),
        ("counters", ctypes.c_uint8),
        ("settled", ctypes.c_uint8 * 32),
    ]


class Library:
    def __init__(self, path):
        self.calls = ctypes.CDLL(path)
        size = ctypes.c_size_t
        pointer = ctypes.c_void_p
        for name, types in {
            "report": [ctypes.c_char_p, size, pointer],
            "sheet": [ctypes.c_char_p, size, pointer, size, pointer],
            "multipliers": [ctypes.c_char_p, size, pointer, size, pointer],
            "check": [ctypes.c_char_p, size, pointer, size, pointer, pointer],
        }.items():
            call = getattr(self.calls, f"counter_ties_{name}")
            call.argtypes = types
            call.restype = ctypes.c_uint8

    def report(self, data):
        """The lines of the report, from the numbers that the library answers."""
        summary = Summary()
        status = self.calls.counter_ties_report(data, len(data), ctypes.byref(summary))
        if status:
            return [f"refused {status}"]
        lines = [f"standing {summary.standing} free {summary.free}"]
        if summary.stopped:
            lines.append(f"stopped {summary.stopped_at.tie} {summary.stopped}")
        for place in range(summary.heads * summary.counters):
            head, counter = divmod(place, summary.counters)
            lines.append(f"{head} {counter} {summary.settled[place]}")
        return lines

    def sheet(self, data):
        numbers = (ctypes.c_uint32 * NUMBERS)()
        free = ctypes.c_uint16()
        status = self.calls.counter_ties_sheet(data, len(data), numbers, NUMBERS, ctypes.byref(free))
        return status, list(numbers), free.value

    def multipliers(self, data):
        numbers = (ctypes.c_uint32 * LIST)()
        spot = Spot()
        status = self.calls.counter_ties_multipliers(data, len(data), numbers, LIST, ctypes.byref(spot))
        return status, list(numbers), spot.tie

    def check(self, data, multipliers):
        numbers = (ctypes.c_uint32 * LIST)(*multipliers)
        yes = ctypes.c_uint8()
        spot = Spot()
        status = self.calls.counter_ties_check(
            data, len(data), numbers, len(multipliers), ctypes.byref(yes), ctypes.byref(spot)
        )
        return status, bool(yes.value)


def sheet_is_right(system, standing, sheet):
    """Whether a sheet has just the solutions: its point and generators are, and there are as many combinations."""
    status, numbers, free = sheet
    if status or free != system.free() or any(number >= system.size for number in numbers):
        return False
    places = system.places
    rows = [
        [system.value(code) for code in numbers[at : at + places]]
        for at in range(0, places * (places + 1), places)
    ]
    point, generators = rows[0], rows[1:]
    spare = system.heads * sum(system.length - width for width in system.widths)
    return (
        system.solves(point)
        and all(system.vanishes(generator) for generator in generators)
        and system.spans(generators) == system.free() + spare
    )


def multipliers_are_right(library, maker, data, system, standing):
    """Whether the library's multipliers show the contradiction, and the check says so, and of others what it should."""
    status, numbers, tie = library.multipliers(data)
    if (status, tie) != (15, standing):
        return False
    ties = standing + 1
    layout, bodies = solver.read_bodies(data)
    only = files.file_of(layout, bodies[:ties])
    others = [maker.random.randrange(system.size) for _ in range(ties)]
    return (
        solver.shows(system, ties, numbers)
        and library.check(only, numbers[:ties]) == (0, True)
        and library.check(only, others) == (0, solver.shows(system, ties, others))
    )


def agrees(library, maker, data, counts):
    """Whether both say the same of a file."""
    lines = solver.report(data)
    if library.report(data) != lines:
        return False
    if lines[0].startswith("refused"):
        counts[lines[0]] += 1
        return True
    system, standing, stopped = solver.solve(data)
    counts["whole" if stopped is None else f"stopped {stopped}"] += 1
    if not sheet_is_right(system, standing, library.sheet(data)):
        return False
    return stopped != 15 or multipliers_are_right(library, maker, data, system, standing)


def main():
    parser = argparse.ArgumentParser()
    parser.add_argument("library")
    parser.add_argument("--files", type=int, default=20_000)
    parser.add_argument("--seed", type=int, default=random.SystemRandom().getrandbits(32))
    given = parser.parse_args()
    print(f"seed {given.seed}")
    library = Library(given.library)
    maker = files.Maker(random.Random(given.seed))
    counts = collections.Counter()
    for number in range(given.files):
        data = maker.file()
        if not agrees(library, maker, data, counts):
            print(f"file {number} differs: {data.hex()}")
            print("library:", *library.report(data), "solver:", *solver.report(data), sep="\n")
            sys.exit(1)
    for outcome, count in sorted(counts.items()):
        print(f"{count:6} {outcome}")
    print(f"{given.files} files agree")


if __name__ == "__main__":
    main()
