#!/usr/bin/env python3
"""Measures setfiles and restorecon by several workers over one tree, by turns.

    workers.py [N [WORKERS..]]     N records (1,000,000) in a tenth as many directories, by so many
                                   workers (1 2 4 64), and 5,600 specifications as distributions
                                   have them

Prints for each number of workers the seconds by the clock and of the processor, medians of five
turns, and how many times as fast it is as one, the whole run and, in brackets, what is left of it
without reading, which a run over an absent operand takes: with lines alone, and with digests, lines
and the dump. All answers are compared with those of one worker. RELABEL names another program.
"""

import os
import statistics
import subprocess
import sys
import tempfile
import time
from pathlib import Path

import realistic

HERE = Path(__file__).resolve().parent
BUILT = HERE.parent / "crates" / "relabel_program" / "out" / "relabel_program"
PROGRAM = os.environ.get("RELABEL", BUILT)
TURNS = 5
READING = ["setfiles", "-n", "-i"]
RUNS = {
    "lines": ["setfiles", "-n", "-F", "-v"],
    "digests, lines, dump": ["restorecon", "-R", "-F", "-v", "-D", "-o", "dump"],
}


def tree(count):
    """Directories of ten entries, below those of services, a directory before what it holds."""
    services = [f"svc{number:03}" for number in range(100)]
    folders = [folder.format(service) for service in services for folder in realistic.FOLDERS]
    seen, entries, below = set(), [], 0
    while len(entries) < count:
        folder = folders[below % len(folders)]
        turn = below // len(folders)
        names = folder[1:].split("/") + [f"d{turn % 10}", f"d{turn // 10}"]
        for length in range(len(names) + 1):
            path = "/" + "/".join(names[:length])
            if path not in seen:
                seen.add(path)
                entries.append(("d", path))
        entries += [("f", f"{path}/f{number}.so") for number in range(9)]
        below += 1
    return entries[:count]


def make(room, count):
    realistic.main(room, 10)
    with open(room / "records", "wb") as out:
        for inode, (letter, path) in enumerate(tree(count), 2):
            label = f"system_u:object_r:svc{inode * 7 % realistic.SERVICES:03}_lib_t:s0"
            out.write(f"{letter} 64768 {inode} {label} {path}\0".encode())


def run(room, words, workers, operand="/"):
    front, *rest = words
    spec = ["-S", "fc", operand] if front == "restorecon" else ["fc", operand]
    with open(room / "records", "rb") as given, open(room / "out", "wb") as out:
        start = time.monotonic()
        words = [PROGRAM, front, *rest, "-T", str(workers), *spec]
        child = subprocess.Popen(words, stdin=given, stdout=out, cwd=room)
        _, status, usage = os.wait4(child.pid, 0)
        clock = time.monotonic() - start
    if status != 0:
        sys.exit(f"{words} -T {workers} ended with status {status}")
    dump = room / "dump"
    answer = (room / "out").read_bytes(), dump.read_bytes() if dump.exists() else b""
    return clock, usage.ru_utime + usage.ru_stime, answer


def reading(room):
    return statistics.median(run(room, READING, 1, "/nowhere")[0] for _ in range(TURNS))


def measure(room, title, words, numbers, least):
    times, meant = {workers: [] for workers in numbers}, None
    for _ in range(TURNS):
        for workers in numbers:
            clock, processor, answer = run(room, words, workers)
            meant = meant or answer
            if answer != meant:
                sys.exit(f"{title}: -T {workers} answers otherwise")
            times[workers].append((clock, processor))
    one = statistics.median(clock for clock, _ in times[numbers[0]])
    for workers in numbers:
        clock, processor = (statistics.median(column) for column in zip(*times[workers]))
        times_as_fast = f"{one / clock:.2f} ({(one - least) / (clock - least):.2f}) times as fast"
        seconds = f"{clock:.3f} s, processor {processor:.3f} s"
        print(f"    {title}, -T {workers}: {seconds}, {times_as_fast}")


def main():
    count = int(sys.argv[1]) if len(sys.argv) > 1 else 1_000_000
    numbers = [int(word) for word in sys.argv[2:]] or [1, 2, 4, 64]
    with tempfile.TemporaryDirectory() as folder:
        room = Path(folder)
        make(room, count)
        least = reading(room)
        print(f"{count} records, {least:.3f} s without a walk")
        for title, words in RUNS.items():
            measure(room, title, words, numbers, least)


main()
