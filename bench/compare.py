"""Solves the same systems by the library and its peers, compares the answers, and prints the times as ratios.

    bench/run [--turns N] [--instructions]
"""

import argparse
import ctypes
import pathlib
import random
import subprocess
import sys
import time

TOP = pathlib.Path(__file__).resolve().parent.parent
sys.path.insert(0, str(TOP / "agreement"))

import agree  # noqa: E402
import files  # noqa: E402
import solver  # noqa: E402

HEADS, COUNTERS, TIES = 8, 4, 64
PLACES = HEADS * COUNTERS


def dense(maker):
    return [maker.randrange(maker.size) for _ in range(PLACES)]


def mixed(maker):
    """Factors of all levels, in rows of all levels."""
    row = [code * maker.base ** min(maker.length, int(maker.expovariate(0.35))) for code in dense(maker)]
    lift = maker.base ** maker.randint(0, 6) if maker.random() < 0.5 else 1
    return [code * lift % maker.size for code in row]


def system(kind, base, length, row, seed):
    """A file of 64 ties that one assignment meets, with its factors and right sides."""
    maker = random.Random(seed)
    maker.base, maker.length, maker.size = base, length, base**length
    start = dense(maker)
    factors = [row(maker) for _ in range(TIES)]
    rights = [sum(a * b for a, b in zip(line, start)) % maker.size for line in factors]
    layout = bytes([kind, base, length, HEADS, COUNTERS] + [length] * COUNTERS)
    little = files.little
    ties = [
        bytes([maker.randrange(COUNTERS)])
        + little(right, 4)
        + b"".join(bytes(divmod(place, COUNTERS)) + little(factor, 4) for place, factor in enumerate(line))
        for line, right in zip(factors, rights)
    ]
    return files.file_of(layout, ties), factors, rights, maker.size


class Peer:
    """A shared library whose calls take a file and how many times to do their work, and answer the free digits."""

    def __init__(self, path, prefix):
        self.path = str(path)
        self.calls = ctypes.CDLL(self.path)
        self.prefix = prefix

    def timed(self, task, data, turns):
        """The seconds that one turn takes, in the best of nine rounds, and the answer."""
        call = getattr(self.calls, f"{self.prefix}_{task}")
        call.argtypes = [ctypes.c_char_p, ctypes.c_size_t, ctypes.c_uint32]
        call.restype = ctypes.c_uint32
        best = float("inf")
        for _ in range(9):
            begin = time.perf_counter()
            answer = call(data, len(data), turns)
            best = min(best, time.perf_counter() - begin)
        return best / turns, answer

    def counted(self, task, data):
        """The instructions of one turn, by callgrind: what ten turns more take."""
        file = TOP / "bench" / "out" / "system"
        file.write_bytes(data)
        few, many = (
            subprocess.run(
                ["valgrind", "--tool=callgrind", "--callgrind-out-file=/dev/null", str(TOP / "bench" / "out" / "driver")]
                + [self.path, f"{self.prefix}_{task}", str(file), str(turns)],
                capture_output=True,
                text=True,
                check=True,
            ).stderr
            for turns in (2, 12)
        )
        collected = [int(said.rsplit("Collected : ", 1)[1].split()[0]) for said in (few, many)]
        return (collected[1] - collected[0]) / 10


PARI = """
M = {factors}; B = {rights}~; D = {size};
for(i = 1, 3, s = matsolvemod(M, D, B));
t = getwalltime(); for(i = 1, {turns}, s = matsolvemod(M, D, B)); print(getwalltime() - t); print(s~ % D);
"""

GAP = """
LoadPackage("polycyclic", false);
A := TransposedMat({factors});; b := {rights};; e := [{size}];;
t := NanosecondsSinceEpoch();; for i in [1..{turns}] do s := SolveSystemGauss(A, e, {base}, b);; od;
Print(NanosecondsSinceEpoch() - t, "\\n"); Print(List(s.sol, x -> x mod {size}), "\\n"); QUIT;
"""


def scripted(command, script, unit):
    """The seconds of one turn, and the solution that the program printed."""
    lines = subprocess.run(command, input=script, capture_output=True, text=True, check=True).stdout
    lines = lines.replace("\\\n", "").strip().split("\n", 1)
    solution = [int(code) for code in lines[1].replace("[", "").replace("]", "").replace("~", "").split(",")]
    return int(lines[0]) * unit, solution


def by_pari(factors, rights, size, turns):
    rows = "[" + "; ".join(",".join(map(str, row)) for row in factors) + "]"
    script = PARI.format(factors=rows, rights=rights, size=size, turns=turns)
    seconds, solution = scripted(["gp", "-q", "--default", "linewrap=0"], script, 1e-3)
    return seconds / turns, solution


def by_gap(factors, rights, size, base, turns):
    script = GAP.format(factors=factors, rights=rights, size=size, base=base, turns=turns)
    path = TOP / "bench" / "out" / "system.g"
    path.write_text(script)
    seconds, solution = scripted(["gap", "-q", "--norepl", "-x", "100000", str(path)], "", 1e-9)
    return seconds / turns, solution


def main():
    parser = argparse.ArgumentParser()
    parser.add_argument("--turns", type=int, default=400)
    parser.add_argument("--instructions", action="store_true")
    asked = parser.parse_args()
    turns, counting = asked.turns, asked.instructions
    out = TOP / "bench" / "out"
    ours = Peer(out / "libours.so", "bench")
    plain = Peer(out / "libplain.so", "plain")
    flint = Peer(out / "libflint_peer.so", "flint")
    boundary = agree.Library(str(out / "libcounter_ties.so"))
    print("times of one turn in microseconds, and how often ours goes into the other's")
    for name, kind, base, length, row, seed in [
        ("dense, modulo 2^31", 1, 2, 31, dense, 1),
        ("mixed, modulo 2^31", 1, 2, 31, mixed, 2),
        ("dense, modulo 3^19", 2, 3, 19, dense, 3),
        ("mixed, modulo 3^19", 2, 3, 19, mixed, 4),
    ]:
        data, factors, rights, size = system(kind, base, length, row, seed)
        free = solver.solve(data)[0].free()
        print(f"\n{name}: {HEADS} heads by {COUNTERS} counters, {TIES} ties, {free} digits free")
        whole, answer = ours.timed("whole", data, turns)
        assert answer == free, (answer, free)
        rows = [("whole system, ours", whole, None)]
        for peer, label in [(plain, "plain Rust"), (flint, "FLINT, Howell form")]:
            seconds, answer = peer.timed("whole", data, turns)
            assert answer == free, (label, answer, free)
            rows.append((f"whole system, {label}", seconds, whole))
        status, sheet, _ = boundary.sheet(data)
        assert status == 0
        point = sheet[:PLACES]
        few = max(1, turns // 40)
        for label, (seconds, solution) in [
            ("PARI, matsolvemod", by_pari(factors, rights, size, few)),
            ("GAP, Polycyclic", by_gap(factors, rights, size, base, few)),
        ]:
            assert meets(solution, factors, rights, size), label
            assert free or solution == point, label
            rows.append((f"whole system, {label}", seconds, whole))
        unload, answer = ours.timed("unload", data, turns)
        unload_plain, answer_plain = plain.timed("unload", data, turns)
        assert answer == answer_plain == PLACES * length, (answer, answer_plain)
        whole_plain = rows[1][1]
        rows.append(("a post, ours", whole / TIES, None))
        rows.append(("a post, plain Rust", whole_plain / TIES, whole / TIES))
        rows.append(("a withdrawal, ours", (unload - whole) / TIES, None))
        rows.append(("a withdrawal, plain Rust", (unload_plain - whole_plain) / TIES, (unload - whole) / TIES))
        refusal, answer = ours.timed("refuse", data, turns * 10)
        refusal_plain, answer_plain = plain.timed("refuse", data, turns * 10)
        assert answer == answer_plain < PLACES * length, (answer, answer_plain)
        rows.append(("a refusal with multipliers, ours", refusal, None))
        rows.append(("a refusal with multipliers, plain Rust", refusal_plain, refusal))
        rows.append(("a sheet, ours", ours.timed("draw", data, turns * 10)[0], None))
        for label, seconds, base_time in rows:
            ratio = "" if base_time is None else f"{seconds / base_time:10.2f}"
            print(f"  {label:40} {seconds * 1e6:12.2f} {ratio}")
        if counting:
            print_counts(ours, plain, flint, data)


def print_counts(ours, plain, flint, data):
    """The instructions of each task, and how often ours go into the other's."""
    print("  instructions")
    whole = {}
    for peer, label in [(ours, "ours"), (plain, "plain Rust"), (flint, "FLINT, Howell form")]:
        whole[label] = peer.counted("whole", data)
        print_count(f"whole system, {label}", whole[label], whole["ours"])
    ours_back, plain_back = (
        (peer.counted("unload", data) - whole[label]) / TIES for peer, label in [(ours, "ours"), (plain, "plain Rust")]
    )
    print_count("a post, ours", whole["ours"] / TIES, whole["ours"] / TIES)
    print_count("a withdrawal, ours", ours_back, ours_back)
    print_count("a withdrawal, plain Rust", plain_back, ours_back)
    refusal = ours.counted("refuse", data)
    print_count("a refusal with multipliers, ours", refusal, refusal)
    print_count("a refusal with multipliers, plain Rust", plain.counted("refuse", data), refusal)


def print_count(label, count, base_count):
    print(f"    {label:38} {count:12.0f} {count / base_count:10.2f}")


def meets(solution, factors, rights, size):
    return all(sum(a * b for a, b in zip(row, solution)) % size == right for row, right in zip(factors, rights))


if __name__ == "__main__":
    main()
