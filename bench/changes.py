#!/usr/bin/env python3
"""Times changes of documents by the program `mm_cases` as LLVM builds it: a `$set` of 4,000, 16,000 and 64,000 paths of an empty document,
and a `$set` of 1, 4,000 and 16,000 fields of a document that has 20,000.

usage: bench/changes.py [RUNS]      (default: 3 runs of each; run `rt run` in crates/mm_cases first, which builds the program)

Prints for each the median of the processor's time past that of reading the same documents, or for changes that are carried out past that of
looking at them, and how much more that is than for the size before. What has to be read is read by a line
whose answer comes at once: as a filter, which it isn't. A change that is carried out is made by the program itself, and one of 20,000 fields
is also written out.
"""
import os
import statistics
import subprocess
import sys
import tempfile
from pathlib import Path

TOP = Path(__file__).resolve().parent.parent
PROGRAM = TOP / "crates/mm_cases/out/mm_cases"
PATHS = (4_000, 16_000, 64_000)
FIELDS = 20_000
EDITS = (1, 4_000, 16_000)


def document(fields: list[str]) -> str:
    return "{" + ", ".join(f'"{name}": 1' for name in fields) + "}"


def set_of(fields: list[str]) -> str:
    return '{"$set": ' + document(fields) + "}"


def cost(line: str, runs: int) -> float:
    """Seconds of the processor, the median."""
    took = []
    for _ in range(runs):
        with tempfile.TemporaryFile() as source:
            source.write(line.encode() + b"\n")
            source.seek(0)
            done = subprocess.Popen([PROGRAM], stdin=source, stdout=subprocess.DEVNULL)
            _, status, usage = os.wait4(done.pid, 0)
        if status:
            sys.exit(f"{line[:40]}: status {status}")
        took.append(usage.ru_utime + usage.ru_stime)
    return statistics.median(took)


def report(what: str, whole: float, read: float, before: float | None) -> float:
    past = whole - read
    growth = f", {past / before:.1f} times the size before" if before else ""
    print(f"{what} {past * 1000:8.1f} ms past {read * 1000:.1f}{growth}")
    return past


def main() -> None:
    runs = int(sys.argv[1]) if len(sys.argv) > 1 else 3
    looked = before = None
    for n in PATHS:
        change = set_of([str(i) for i in range(n)])
        form = cost(f"change {change}", runs)
        looked = report(f"{n:6} paths, looked at   ", form, cost(f"filter {change}", runs), looked)
        before = report(f"{n:6} paths, carried out ", cost(f"wide {n}", runs), form, before)
    old = document([f"field{i}" for i in range(FIELDS)])
    before = None
    for n in EDITS:
        line = set_of([f"field{i * (FIELDS // n)}" for i in range(n)])
        read = cost(f"matches {line} {old}", runs)
        before = report(f"{n:6} of {FIELDS:,} fields", cost(f"apply {old} {line}", runs), read, before)


if __name__ == "__main__":
    main()
