#!/usr/bin/env python3
"""Measures the program beside sort(1) on the same records, in one run.

    run.py [N]                1,000,000 records, 20 exact specifications, in no order and in the
                              order of find(1); a third of the inodes have two to five names
    run.py --realistic [N]    200,000 records in the order of find(1), 5,600 specifications as
                              distributions have them
    run.py --shapes [N]       one directory of N names, one inode with N names, a chain of 2,000
                              directories; each also half as large

Prints the CPU seconds of `LC_ALL=C sort -z --parallel=1` and of the program, the ratio, and the
program's greatest memory, in the realistic mode also what it takes to read the policy and decide
one path. Figures are the least of three runs, taken in turn.
"""

import argparse
import os
import subprocess
import sys
import tempfile
from pathlib import Path

HERE = Path(__file__).resolve().parent
PROGRAM = HERE.parent / "crates" / "relabel_program" / "out" / "relabel_program"
EXACT = "/usr/share/exact-{0}.conf\t--\tsystem_u:object_r:exact_{0}_t:s0\n"
SPECS = "".join(EXACT.format(i) for i in range(19)) + "/\t-d\tsystem_u:object_r:root_t:s0\n"
USAGE = 255

# A child of vfork(2) begins with the greatest memory that this process ever had, and one of fork(2)
# with what it has now.
subprocess._USE_VFORK = False


def build():
    """Without words the program answers that its words are wrong; where it isn't built, or is
    stale, the script before it says so."""
    quiet = dict.fromkeys(("stdin", "stdout", "stderr"), subprocess.DEVNULL)
    if subprocess.run([HERE.parent / "relabel"], **quiet).returncode != USAGE:
        subprocess.run([HERE.parent / "tools" / "build"], check=True)


def timed(words, records, room, **more):
    with open(records, "rb") as given, open(room / "out", "wb") as out:
        child = subprocess.Popen(words, stdin=given, stdout=out, cwd=room, **more)
        _, status, usage = os.wait4(child.pid, 0)
    status = os.waitstatus_to_exitcode(status)
    if status != 0:
        sys.exit(f"{words[0]} ended with status {status}")
    return usage.ru_utime + usage.ru_stime, usage.ru_maxrss * 1024


def measure(records, room):
    relabel = [PROGRAM, "setfiles", "-n", "-v", "-F", "fc", "/"]
    sorting = ["sort", "-z", "--parallel=1"]
    sorts, wholes = [], []
    for _ in range(3):
        sorts.append(timed(sorting, records, room, env={**os.environ, "LC_ALL": "C"}))
        wholes.append(timed(relabel, records, room))
    return min(sorts)[0], min(wholes)


def generate(words, room):
    with open(room / "records", "wb") as out:
        command = [sys.executable, HERE / "generate.py", *map(str, words)]
        subprocess.run(command, stdout=out, check=True)
    (room / "fc").write_text(SPECS)


def tell(title, room):
    records = room / "records"
    size = records.stat().st_size
    count = records.read_bytes().count(b"\0")
    sort, (whole, memory) = measure(records, room)
    print(f"{title}: {count} records, {size / count:.0f} bytes a record")
    print(f"    sort {sort:.2f} s, relabel {whole:.2f} s, ratio {whole / sort:.2f}, "
          f"{memory / size:.2f} bytes of memory a byte of input")
    return whole, count


def run_realistic(count, room):
    subprocess.run([sys.executable, HERE / "realistic.py", room, str(count)], check=True)
    whole, count = tell("realistic", room)
    one = room / "one"
    one.write_bytes(b"d 1 2 system_u:object_r:root_t:s0 /\0")
    _, (least, memory) = measure(one, room)
    print(f"    policy {least * 1000:.0f} ms, {memory / 1e6:.1f} MB, one path decided")
    print(f"    look-up {(whole - least) / count * 1e9:.0f} ns an entry, all else included")


def run_tree(count, room):
    for order in ("random", "find"):
        generate(["--links", "--order", order, count], room)
        tell(f"{order} order", room)


def run_shapes(count, room):
    for part in (count // 2, count):
        for shape in ("flat", "one-inode"):
            generate(["--shape", shape, part], room)
            tell(shape, room)
        generate(["--shape", "chain", 2000, part // 10000], room)
        tell("chain", room)


def main():
    parser = argparse.ArgumentParser(description=__doc__.splitlines()[0])
    parser.add_argument("--realistic", action="store_true")
    parser.add_argument("--shapes", action="store_true")
    parser.add_argument("count", nargs="?", type=int)
    given = parser.parse_args()
    build()
    with tempfile.TemporaryDirectory() as room:
        if given.realistic:
            run_realistic(given.count or 200_000, Path(room))
        elif given.shapes:
            run_shapes(given.count or 1_000_000, Path(room))
        else:
            run_tree(given.count or 1_000_000, Path(room))


main()
