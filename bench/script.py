#!/usr/bin/env python3
"""Times the reading of scripts as LLVM builds it, through `mmap play`, which reads a whole script before it stores anything.

usage: bench/script.py [RUNS]      (default: 5 runs of each size; the program is built first where it is missing)

The scripts have 1,000, 10,000 and 100,000 lines of about 100 bytes, each an insert of a document in notation, or of a smaller one in
hex. Their last line has no verb, so the script is refused (status 3), the folder isn't touched and nothing is stored. Prints for each size
the median of the processor's time past start-up, how many MB of script that is a second, and how much more time ten times the lines
took. The reading of standard input, which is a file, is in the figures.
"""
import os
import statistics
import subprocess
import sys
import tempfile
from pathlib import Path

TOP = Path(__file__).resolve().parent.parent
FOLDER = TOP / "crates/mmap"
PROGRAM = FOLDER / "out/mmap"
SIZES = (1_000, 10_000, 100_000)


def notation(n: int) -> str:
    return '1 test insert c {"_id": %d, "name": "a name of some length", "count": NumberLong(%d), "open": true}' % (n, n % 1000)


def in_hex(n: int) -> str:
    inside = b"\x10_id\0" + n.to_bytes(4, "little") + b"\x02s\0" + (11).to_bytes(4, "little") + b"0123456789\0"
    spelled = (len(inside) + 5).to_bytes(4, "little") + inside + b"\0"
    return "1 test insert c hex:" + spelled.hex()


def script(line, lines: int) -> str:
    return "\n".join([line(n) for n in range(lines - 1)] + ["1 test frob c {}\n"])


def cost(text: str, runs: int, answer: str) -> float:
    """Seconds of the processor, the median."""
    taken = []
    with tempfile.TemporaryDirectory() as above, tempfile.TemporaryFile() as source, tempfile.TemporaryFile() as out:
        source.write(text.encode())
        for _ in range(runs):
            source.seek(0)
            out.seek(0)
            out.truncate()
            done = subprocess.Popen([PROGRAM, "play", Path(above) / "store"], stdin=source, stdout=out)
            _, status, usage = os.wait4(done.pid, 0)
            out.seek(0)
            said = out.read().decode()
            if os.waitstatus_to_exitcode(status) != 3 or said != answer:
                sys.exit(f"another answer: {os.waitstatus_to_exitcode(status)} {said[:80]}")
            taken.append(usage.ru_utime + usage.ru_stime)
    return statistics.median(taken)


def main() -> None:
    runs = int(sys.argv[1]) if len(sys.argv) > 1 else 5
    if not PROGRAM.exists():
        with tempfile.TemporaryDirectory() as above:
            subprocess.run(["rt", "run", "--", "play", f"{above}/store"], cwd=FOLDER, stdin=subprocess.DEVNULL, stdout=subprocess.DEVNULL, check=True)
    start_up = cost("1 test frob c {}\n", runs, "line 1: verb\n")
    print(f"start-up {start_up * 1000:.1f} ms")
    for name, line in (("notation", notation), ("hex", in_hex)):
        before = None
        for lines in SIZES:
            text = script(line, lines)
            past = max(cost(text, runs, f"line {lines}: verb\n") - start_up, 1e-9)
            growth = "" if before is None else f", {past / before:.1f} times the size before"
            print(f"{name}: {lines} lines, {len(text) / 1e6:.2f} MB: {past * 1000:.1f} ms, {len(text) / 1e6 / past:.0f} MB/s{growth}")
            before = past


if __name__ == "__main__":
    main()
