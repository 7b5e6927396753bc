"""Sets our maps beside Rust's and beside the kit's, out of the lines of benchmark runs.

usage: compare.py OURS[,OURS ..] [RUST[,RUST ..]]

A line is `WORKLOAD.WHAT.KEYS N NS_PER_OP CHECKSUM`; of several runs of one side the least time of each line counts. Ours
are `proved`, whose look-ups are by a precomputed hash, and `by_key`; they are compared with Rust's `upstream` and
`upstream-hashing`, or with the one of these that there is. Of the kit's maps the quickest counts. A ratio is our time by
the other: above 1 ours takes longer. Ends with status 1 where two checksums of one workload differ, but for those of
hashes, of which ours and Rust's are not the same.
"""

import sys

OURS = "proved", "by_key"
RUST = {"proved": "upstream", "by_key": "upstream-hashing"}


def lines_of(paths):
    """The lines of some runs: (workload, what, keys, length), nanoseconds and checksum, the least of each line."""
    found = {}
    for path in paths.split(","):
        with open(path, encoding="utf-8") as file:
            for line in file:
                words = line.split()
                if len(words) == 4 and words[0].count(".") == 2:
                    name = (*words[0].split("."), int(words[1]))
                    time = min(float(words[2]), found.get(name, (float(words[2]),))[0])
                    found[name] = time, words[3]
    return [(name, time, checksum) for name, (time, checksum) in found.items()]


def beside(time, other):
    """Another's time, its name and the ratio of ours to it, or blanks."""
    if other is None:
        return " " * 31
    base, name = other
    return f"{base:>10.2f} {name:<12}{time / max(base, 0.01):>7.2f} "


def main():
    if len(sys.argv) not in (2, 3):
        sys.exit(__doc__)
    rows, rust = {}, {}
    for (work, what, keys, n), time, checksum in lines_of(sys.argv[1]):
        rows.setdefault((work, keys, n), {})[what] = time, checksum
    for (work, what, keys, n), time, checksum in lines_of(sys.argv[2]) if len(sys.argv) == 3 else []:
        rust.setdefault((work, keys, n), {})[what] = time, checksum
    differ = False
    print(f"{'workload':<14}{'ours':<8}{'keys':<10}{'n':>8}{'ns':>10}{'Rust':>10}{'ratio':>20} {'kit':>10}{'ratio':>20}")
    for (work, keys, n), row in rows.items():
        theirs = rust.get((work, keys, n), {})
        kit = min(((time, what) for what, (time, _) in row.items() if what not in OURS), default=None)
        for ours in [it for it in OURS if it in row]:
            name = RUST[ours] if RUST[ours] in theirs else next((it for it in theirs if it in RUST.values()), None)
            other = (theirs[name][0], name.replace("upstream", "").strip("-")) if name else None
            time = row[ours][0]
            print(f"{work:<14}{ours:<8}{keys:<10}{n:>8}{time:>10.2f}{beside(time, other)}{beside(time, kit)}".rstrip())
        sums = {what: checksum for what, (_, checksum) in row.items()}
        sums |= {what: checksum for what, (_, checksum) in theirs.items() if what in RUST.values()}
        if len(set(sums.values())) > 1 and not work.startswith("t_hash"):
            differ = True
            print("  checksums: " + ", ".join(f"{what} {checksum}" for what, checksum in sums.items()))
    sys.exit(1 if differ else 0)


if __name__ == "__main__":
    main()
