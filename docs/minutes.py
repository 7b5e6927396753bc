#!/usr/bin/env python3
"""Runs the gate, and writes into CONTRIBUTING.md how many minutes of a processor each crate took.

A crate's proof, the proof of its tests, its mutants and its runs are told apart by the folder in which the kit works on
them. The kit may keep what an earlier run proved; `--anew`, where the kit knows it, has all done in this run.
"""
import os
import re
import subprocess
import sys
import time
from pathlib import Path

TOP = Path(__file__).resolve().parent.parent
PAGE = TOP / "CONTRIBUTING.md"
BEGIN, END = "<!-- minutes: begin -->", "<!-- minutes: end -->"
TICKS = os.sysconf("SC_CLK_TCK")


def sample(session, seen):
    """Notes what each process of the session that works on a crate has taken of a processor so far."""
    for process in Path("/proc").glob("[0-9]*"):
        try:
            fields = (process / "stat").read_text().rpartition(")")[2].split()
            if int(fields[3]) != session:
                continue
            words = (process / "cmdline").read_bytes().decode().split("\0")
            if "--crate-name" not in words:
                continue
            folder = os.readlink(process / "cwd")
        except (OSError, ValueError):
            continue
        crate = words[words.index("--crate-name") + 1]
        seen[process.name, fields[19]] = crate, "rt-edit-" in folder, (int(fields[11]) + int(fields[12])) / TICKS


def table(seen, seconds, total):
    """The lines of the table: the crates that took most come first."""
    crates = {}
    for crate, is_edit, taken in seen.values():
        crates.setdefault(crate, [0, 0])[is_edit] += taken / 60
    yield "| Crate | Proof | Mutants |"
    yield "|---|---|---|"
    for crate, (proof, edits) in sorted(crates.items(), key=lambda item: -sum(item[1])):
        yield f"| `{crate}` | {proof:.1f} | {f'{edits:.1f}' if edits else ''} |"
    proofs, edits = (sum(taken[kind] for taken in crates.values()) for kind in (0, 1))
    yield f"| all | {proofs:.0f} | {edits:.0f} |"
    yield ""
    yield f"The run took {seconds / 60:.0f} minutes on {os.cpu_count()} processors, and {total / 60:.0f} minutes of a processor with what links, runs and compares."


def main():
    gate = subprocess.Popen(["rt", "ci", *sys.argv[1:]], cwd=TOP, start_new_session=True)
    start, seen = time.time(), {}
    while gate.poll() is None:
        sample(gate.pid, seen)
        time.sleep(0.5)
    took = os.times()
    page = PAGE.read_text()
    lines = "\n".join(table(seen, time.time() - start, took.children_user + took.children_system))
    PAGE.write_text(re.sub(f"{BEGIN}.*{END}", lambda _: f"{BEGIN}\n{lines}\n{END}", page, flags=re.S))
    sys.exit(gate.returncode)


main()
