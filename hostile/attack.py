"""Times the script program under hashes that an attacker may choose, beside random ones: nanoseconds of processor time a
line.

The own hash of a key is not keyed, so whoever chooses the keys chooses their slots. A script supplies its hashes
itself. Each figure is the least of some runs, less that of a run without the lines that it is about.

python3 hostile/attack.py PROGRAM
"""

import random
import resource
import subprocess
import sys
from bisect import bisect

WORD = 1 << 64
FACTOR = 0x9E3779B97F4A7C15
RUNS = 5
LOOK_UPS = 10_000
REMOVALS = 1_000


def promoted(hash):
    return hash * FACTOR % WORD


def one_home(count):
    """Hashes whose promoted bits 32 to 46 are its lowest 15, ascending: one home in every table of up to 32768 places."""
    # of a hash a + 2^15 b, a alone makes the lowest bits; b moves those above, by so much modulo 2^32
    moves = sorted((b * FACTOR % (1 << 32), b) for b in range(1 << 17))
    hashes = []
    for a in range(1 << 15):
        above, lowest = divmod(promoted(a), 1 << 15)
        first = ((lowest << 17) - above) % (1 << 32)
        at = bisect(moves, (first,))
        while (moves[at % len(moves)][0] - first) % (1 << 32) < 1 << 17:
            hashes.append(a + (moves[at % len(moves)][1] << 15))
            at += 1
        if len(hashes) >= count:
            return sorted(hashes[:count])


def cases(count):
    draw = random.Random(1)
    yield "random hashes", draw.sample(range(1 << 32), count)
    yield "one hash", [7] * count
    yield "one home", one_home(count)
    for stride in 7037, 46368, 75025, 121393:
        yield f"stride {stride}", [i * stride for i in range(count)]


def seconds(program, lines):
    text, best = "".join(lines).encode(), float("inf")
    for _ in range(RUNS):
        before = resource.getrusage(resource.RUSAGE_CHILDREN)
        subprocess.run([program], input=text, stdout=subprocess.DEVNULL, check=True)
        after = resource.getrusage(resource.RUSAGE_CHILDREN)
        best = min(best, after.ru_utime + after.ru_stime - before.ru_utime - before.ru_stime)
    return best


def main(program):
    print(f"{'hashes':<16}{'entries':>8}{'insertion':>12}{'hit':>12}{'miss':>12}{'removal':>12}")
    for count in 1_000, 10_000:
        for name, hashes in cases(count):
            places = random.Random(2).sample(range(count), count) * (LOOK_UPS // count)
            puts = [f"put {hash} k{i} {i}\n" for i, hash in enumerate(hashes)]
            hits = [f"get {hashes[i]} k{i}\n" for i in places]
            misses = [f"get {hashes[i]} n{i}\n" for i in places]
            removals = [f"del {hashes[i]} k{i}\n" for i in places[:REMOVALS]]
            empty, built = seconds(program, []), seconds(program, puts)
            row = [(built - empty) / count]
            row += [(seconds(program, puts + it) - built) / len(it) for it in (hits, misses, removals)]
            print(f"{name:<16}{count:>8}" + "".join(f"{max(it, 0) * 1e9:>12.0f}" for it in row), flush=True)


if __name__ == "__main__":
    main(*sys.argv[1:])
