#!/usr/bin/env python3
"""Times the sections of the journal: hashed, read and written by the proved program mm_speed, as LLVM builds it.

usage: bench/journal.py [RUNS]     (5 runs, if no number is given; crates/mm_speed/out/mm_speed is built by rt run there)

Each section holds ranges of 1,000 bytes of one database, in all 0.1, 1 and 10 MB. What is said is how many MB of section are
hashed by the crate md5 alone, read and written in a second: medians of the times of many rounds less those of one round. A
round of the word `write` reads and writes, so what reading takes is taken off.
"""

import hashlib
import os
import statistics
import subprocess
import sys
import time

PROGRAM = os.path.join(os.path.dirname(os.path.abspath(__file__)), "..", "crates", "mm_speed", "out", "mm_speed")
RANGE = 1000


def le(number: int, width: int) -> bytes:
    return number.to_bytes(width, "little")


def section(size: int) -> bytes:
    """The section 1 in the file with id 1: ranges of database `test`, which don't touch, padded to a multiple of 8192."""
    entries = [le(0xFFFFFFFE, 4), b"test\0"]
    for i in range(size // RANGE):
        entries += [le(RANGE, 4), le(8192 + 2 * RANGE * i, 4), le(0, 4), os.urandom(RANGE)]
    body = b"".join(entries)
    front = le(20 + len(body) + 32, 4) + le(1, 8) + le(1, 8) + body
    whole = front + le(0xFFFFFFFF, 4) + hashlib.md5(front).digest() + bytes(8) + b"\n\n\n\n"
    return whole + bytes(-len(whole) % 8192)


def timed(word: str, times: int, spelled: bytes) -> float:
    began = time.perf_counter()
    done = subprocess.run([PROGRAM], input=f"{word} {times}\n".encode() + spelled, capture_output=True, check=True)
    took = time.perf_counter() - began
    if done.stdout != f"{times} times {len(spelled)} bytes\n".encode():
        sys.exit(f"{word}: {done.stdout!r}")
    return took


def round_time(word: str, spelled: bytes, runs: int) -> float:
    """Seconds a round, by the times of many rounds less those of one."""
    times = max(11, 100_000_000 // len(spelled))
    many = statistics.median(timed(word, times, spelled) for _ in range(runs))
    one = statistics.median(timed(word, 1, spelled) for _ in range(runs))
    return (many - one) / (times - 1)


def main() -> None:
    runs = int(sys.argv[1]) if len(sys.argv) > 1 else 5
    for size in (100_000, 1_000_000, 10_000_000):
        spelled = section(size)
        hashed, read, both = (round_time(word, spelled, runs) for word in ("hash", "read", "write"))
        said = ", ".join(f"{word} {len(spelled) / took / 1e6:.0f} MB/s" for word, took in (("hash", hashed), ("read", read), ("write", both - read)))
        print(f"{len(spelled):>10} bytes: {said}")


main()
