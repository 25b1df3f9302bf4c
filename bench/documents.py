#!/usr/bin/env python3
"""Times documents, and tells the memory that they take, by the proved program mm_speed as LLVM builds it.

usage: bench/documents.py [RUNS]     (3 runs, if no number is given; crates/mm_speed/out/mm_speed is built by rt run there)

- Small, flat and nested documents: how many MB a second are looked at in place, made and copied.
- 1 MB of text under 99 levels, and 16,777,216 bytes under 100 levels: seconds and memory for reading, copying, changing, and for
  reading their notation. Memory is the most that the program held, its input included, of which `check` takes no more. It can't be told
  below some 9 MB, which the process has that starts the program.
- A filter on 10,000, 100,000 and 1,000,000 documents of some 100 bytes, which are looked at in place before: what matching adds.
Times are the processor's: medians of many rounds less those of one round.
"""

import os
import statistics
import struct
import subprocess
import sys
import tempfile

PROGRAM = os.path.join(os.path.dirname(os.path.abspath(__file__)), "..", "crates", "mm_speed", "out", "mm_speed")


def field(kind: int, name: bytes, value: bytes) -> bytes:
    return bytes([kind]) + name + b"\0" + value


def document(*fields: bytes) -> bytes:
    inside = b"".join(fields)
    return struct.pack("<i", len(inside) + 5) + inside + b"\0"


def text(value: bytes) -> bytes:
    return struct.pack("<i", len(value) + 1) + value + b"\0"


def int32(number: int) -> bytes:
    return struct.pack("<i", number)


def small(n: int) -> bytes:
    """About 100 bytes: numbers, a text, a date and an inner document."""
    inner = document(field(16, b"x", int32(n)), field(16, b"y", int32(2)))
    return document(field(16, b"_id", int32(n)), field(2, b"name", text(b"a name of some length")), field(18, b"count", struct.pack("<q", n)), field(9, b"when", struct.pack("<q", 14 * 10**11 + n)), field(3, b"at", inner))


def nested() -> bytes:
    """About 11 KB: an array of a hundred documents like the small one."""
    return document(field(16, b"_id", int32(1)), field(4, b"all", document(*(field(3, b"%d" % i, small(i)) for i in range(100)))))


def deep(levels: int, total: int) -> bytes:
    """A text under so many levels, the outermost one included, in so many bytes."""
    front = 8 * (levels - 1)
    inner = document(field(2, b"s", text(b"x" * (total - front - 13))))
    for _ in range(levels - 1):
        inner = document(field(3, b"a", inner))
    assert len(inner) == total
    return inner


def deep_text(levels: int, total: int) -> bytes:
    front = 8 * (levels - 1)
    return b'{"a": ' * (levels - 1) + b'{"s": "' + b"x" * (total - front - 13) + b'"}' + b"}" * (levels - 1)


# A process counts the memory of the one that it came of until it begins, so what is measured comes of a small one.
SPAWN = "import os, sys; p = os.posix_spawn(sys.argv[1], sys.argv[1:], os.environ); _, s, u = os.wait4(p, 0); print(s, u.ru_utime + u.ru_stime, u.ru_maxrss, file=sys.stderr)"


def run(word: str, times: int, given: bytes) -> tuple[float, int]:
    """Seconds of the processor, and kilobytes at most."""
    with tempfile.TemporaryFile() as source:
        source.write(f"{word} {times}\n".encode() + given)
        source.seek(0)
        done = subprocess.run([sys.executable, "-S", "-E", "-c", SPAWN, PROGRAM], stdin=source, capture_output=True)
    status, seconds, kilobytes = done.stderr.split()
    if int(status) or not done.stdout.startswith(b"%d times" % times):
        sys.exit(f"{word}: {status!r} {done.stdout!r}")
    return float(seconds), int(kilobytes)


def round_time(word: str, given: bytes, runs: int, times: int) -> float:
    """Seconds a round, by the times of many rounds less those of one."""
    many = statistics.median(run(word, times + 1, given)[0] for _ in range(runs))
    one = statistics.median(run(word, 1, given)[0] for _ in range(runs))
    return (many - one) / times


def most(word: str, given: bytes, runs: int) -> int:
    """Kilobytes at most, in any of some runs of one round."""
    return max(run(word, 1, given)[1] for _ in range(runs))


def rates(runs: int) -> None:
    for name, given in (("small", small(7)), ("200 int32", document(*(field(16, b"field%d" % i, int32(i)) for i in range(200)))), ("100 documents in an array", nested())):
        times = max(20, 100_000_000 // len(given))
        said = ", ".join(f"{word} {len(given) / round_time(word, given, runs, times) / 1e6:.0f} MB/s" for word in ("check", "parse", "copy"))
        print(f"{name}, {len(given)} bytes: {said}")


def depths(runs: int) -> None:
    for levels, total in ((1, 1_000_000), (99, 1_000_000), (1, 16_777_216 - 11), (100, 16_777_216 - 11)):
        spelled = deep(levels, total)
        change = document(field(3, b"$set", document(field(16, b"b", int32(1)))))
        inside = document(field(3, b"$set", document(field(16, b".".join([b"a"] * (levels - 1) + [b"b"]), int32(1)))))
        given = {"check": spelled, "parse": spelled, "copy": spelled, "change": change + spelled, "change inside": inside + spelled, "notation": deep_text(levels, total)}
        said = []
        for word, what in given.items():
            took = round_time(word.split()[0], what, runs, 5)
            said.append(f"{word} {took * 1000:.1f} ms {most(word.split()[0], what, runs) / 1000:.1f} MB")
        print(f"{total} bytes of {levels} levels: " + ", ".join(said))


def scans(runs: int) -> None:
    wanted = document(field(16, b"at.y", int32(2)), field(3, b"count", document(field(16, b"$gte", int32(500)), field(16, b"$lt", int32(5000)))))
    before = None
    for count in (10_000, 100_000, 1_000_000):
        docs = b"".join(small(i) for i in range(count))
        looked = round_time("scan", docs, runs, max(1, 2_000_000 // count))
        both = round_time("match", wanted + docs, runs, max(1, 2_000_000 // count))
        growth = f", {(both - looked) / before:.1f} times the count before" if before else ""
        before = both - looked
        print(f"{count} documents of {len(docs) // count} bytes: looked at in {looked * 1000:.1f} ms, matching adds {before * 1000:.1f} ms{growth}")


def main() -> None:
    runs = int(sys.argv[1]) if len(sys.argv) > 1 else 3
    rates(runs)
    depths(runs)
    scans(runs)


main()
