#!/usr/bin/env python3
"""Times `play` and `dump` as LLVM builds them, on 300, 3,000 and 30,000 inserts of a 14-byte document, `dump` on a full file, and
reading documents through `play`.

usage: bench/speed.py [RUNS]      (default: 5 runs of each size; the program is built first where it is missing)

Prints for each size the median of the processor's time, the lines per second past start-up, and how much more time past start-up ten times
the lines took. The start-up of `play` is the time of an empty script, that of `dump` the time of an empty folder. The folders are made in
memory (/dev/shm) where the machine has that, so no disk is in the figures. Documents are read before anything is stored, so those that find
no space are read too: the last figures are of all of them, with their lines and hex digits.
"""
import os
import statistics
import subprocess
import sys
import tempfile
from pathlib import Path

TOP = Path(__file__).resolve().parent.parent
PROGRAM = TOP / "crates/mmap/out/mmap"
SIZES = (300, 3_000, 30_000)
FOLDERS = "/dev/shm" if Path("/dev/shm").is_dir() else None
# documents of one text each, whose records have 65,536 bytes: fifteen fill the extent but for its end
FULL = [65_520] * 15


def small(lines: int) -> bytes:
    return b"".join(b"1 test insert c hex:0e000000105f696400%s00\n" % n.to_bytes(4, "little").hex().encode() for n in range(lines))


def large(lengths: list[int]) -> bytes:
    docs = [n.to_bytes(4, "little") + b"\x02_id\0" + (n - 14).to_bytes(4, "little") + b"x" * (n - 15) + b"\0\0" for n in lengths]
    return lines_of(docs)


def field(kind: int, name: bytes, value: bytes) -> bytes:
    return bytes([kind]) + name + b"\0" + value


def document(fields: list[bytes]) -> bytes:
    inside = b"".join(fields)
    return (len(inside) + 5).to_bytes(4, "little") + inside + b"\0"


def text(value: bytes) -> bytes:
    return (len(value) + 1).to_bytes(4, "little") + value + b"\0"


def flat(n: int) -> bytes:
    """About 100 bytes: numbers, a text and a date."""
    return document(
        [
            field(16, b"_id", n.to_bytes(4, "little")),
            field(2, b"name", text(b"a name of some length")),
            field(18, b"count", n.to_bytes(8, "little")),
            field(9, b"when", (1_400_000_000_000 + n).to_bytes(8, "little")),
            field(8, b"open", b"\1"),
        ]
    )


def nested(n: int) -> bytes:
    """About 10 KB: an array of a hundred documents like the small one."""
    inner = b"".join(field(3, b"%d" % i, flat(n + i)) for i in range(100))
    return document([field(16, b"_id", n.to_bytes(4, "little")), field(4, b"all", (len(inner) + 5).to_bytes(4, "little") + inner + b"\0")])


def lines_of(docs: list[bytes]) -> bytes:
    return b"".join(b"1 test insert c hex:" + doc.hex().encode() + b"\n" for doc in docs)


def timed(command: str, folder: str, text: bytes) -> float:
    """Seconds of the processor."""
    with tempfile.TemporaryFile() as source:
        source.write(text)
        source.seek(0)
        done = subprocess.Popen([PROGRAM, command, folder], stdin=source, stdout=subprocess.DEVNULL)
        _, status, usage = os.wait4(done.pid, 0)
    if status:
        sys.exit(f"{command}: status {os.waitstatus_to_exitcode(status)}")
    return usage.ru_utime + usage.ru_stime


def medians(text: bytes | None, runs: int) -> tuple[float, float]:
    """The medians of `play` with this script and of `dump` after it; of `dump` alone in an empty folder where there is none."""
    plays, dumps = [], []
    for _ in range(runs):
        with tempfile.TemporaryDirectory(dir=FOLDERS) as folder:
            plays.append(timed("play", folder, text) if text is not None else 0.0)
            dumps.append(timed("dump", folder, b""))
    return statistics.median(plays), statistics.median(dumps)


def speed(lines: int, past: float) -> str:
    return f"{lines / past:,.0f} lines a second past start-up" if past > 0 else "within the noise of start-up"


def growth(past: float, before: float | None) -> str:
    return f", {past / before:.1f} times the size before" if before is not None and before > 0 else ""


def main() -> None:
    runs = int(sys.argv[1]) if len(sys.argv) > 1 else 5
    with tempfile.TemporaryDirectory() as folder:
        subprocess.run([TOP / "mmap", "play", folder], input=b"", check=True)
    starts = (medians(b"", runs)[0], medians(None, runs)[1])
    print(f"start-up: play {starts[0] * 1000:.1f} ms, dump {starts[1] * 1000:.1f} ms")
    before: list[float | None] = [None, None]
    for lines in SIZES:
        for i, (command, took) in enumerate(zip(("play", "dump"), medians(small(lines), runs))):
            past = took - starts[i]
            print(f"{command} {lines:6} lines {took * 1000:7.1f} ms, {speed(lines, past)}{growth(past, before[i])}")
            before[i] = past
    took = medians(large(FULL), runs)[1]
    print(f"dump of a full file of {len(FULL)} large documents {took * 1000:7.1f} ms, {1.048576 / (took - starts[1]):,.0f} MB a second past start-up")
    for name, docs in (("flat", [flat(n) for n in range(100_000)]), ("nested", [nested(n) for n in range(3_000)])):
        took = medians(lines_of(docs), runs)[0]
        size = sum(len(doc) for doc in docs)
        print(f"play {len(docs):,} {name} documents of {size // len(docs):,} bytes {took * 1000:7.1f} ms, {size / (took - starts[0]) / 1e6:,.0f} MB of documents a second")


if __name__ == "__main__":
    main()
