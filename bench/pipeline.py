#!/usr/bin/env python3
"""Measures `find | relabel setfiles` beside setfiles(8) over trees of several sizes, as root.

    pipeline.py PROGRAM SPEC [--sizes N..] [--turns T] [--peer NAME COMMAND COMPILER]..

PROGRAM is relabel. A PEER is a setfiles command with its name for the output and the
sefcontext_compile of its version, which compiles a copy of the policy for it. Each tree has N names
of this machine, as empty files and directories on a tmpfs, all labelled `lib_t`; nothing is set.
The commands take turns. Prints for each size and command the median seconds by the clock and of the
processor (user and system, find included) and how many changes were reported. The figures are rows
of the first table of RESULTS.md.
"""

import argparse
import os
import resource
import shlex
import shutil
import statistics
import subprocess
import sys
import tempfile
import time
from pathlib import Path

BEFORE = b"system_u:object_r:lib_t:s0"
FOLDERS = (b"/etc", b"/usr", b"/var", b"/opt")
FORMAT = r"%y %D %i %Z /%P\0"


def names(count):
    """So many names of this machine, parents first, each with whether it is a directory."""
    found = []
    for folder in FOLDERS:
        device = os.lstat(folder).st_dev
        for place, folders, files in os.walk(folder):
            inner = [os.path.join(place, name) for name in folders]
            folders[:] = sorted(os.path.basename(path) for path in inner
                                if not os.path.islink(path) and os.lstat(path).st_dev == device)
            found.append((place, True))
            found += [(os.path.join(place, name), False) for name in sorted(files)]
            if len(found) >= count:
                return found[:count]
    return found


def make(root, count):
    for name, is_folder in names(count):
        path = root + name
        if is_folder:
            os.makedirs(path, exist_ok=True)
        else:
            os.close(os.open(path, os.O_CREAT | os.O_WRONLY, 0o644))
    total = 0
    for place, folders, files in os.walk(root):
        for path in [place, *(os.path.join(place, name) for name in files)]:
            os.setxattr(path, "security.selinux", BEFORE)
            total += 1
    return total


def policy_for(compiler, spec, room):
    """A copy of the policy, without compiled files but those that this compiler makes."""
    room.mkdir()
    for suffix in ("", ".homedirs", ".local", ".subs", ".subs_dist"):
        given = Path(f"{spec}{suffix}")
        if given.exists():
            shutil.copy(given, room / f"fc{suffix}")
            if compiler and "subs" not in suffix:
                subprocess.run([*compiler, room / f"fc{suffix}"], check=True)
    return room / "fc"


def processor_seconds():
    usage = resource.getrusage(resource.RUSAGE_CHILDREN)
    return usage.ru_utime + usage.ru_stime


def timed(command, out):
    start, before = time.monotonic(), processor_seconds()
    with open(out, "wb") as report:
        done = subprocess.run(command, shell=True, stdout=report, stderr=subprocess.PIPE)
    clock = time.monotonic() - start
    if done.returncode != 0:
        sys.exit(f"{command} ended with status {done.returncode}: {done.stderr.decode()[-2000:]}")
    return clock, processor_seconds() - before


def measure(room, count, given):
    root = os.fsencode(room / "tree")
    os.mkdir(root)
    total = make(root, count)
    tree = shlex.quote(os.fsdecode(root))
    own = policy_for(None, given.spec, room / "own")
    program = shlex.quote(os.path.abspath(given.program))
    runs = {"relabel": f"cd {tree} && find . -printf '{FORMAT}' | "
                       f"{program} setfiles -n -v -F {own} /"}
    for name, command, compiler in given.peer:
        spec = policy_for(shlex.split(compiler), given.spec, room / name)
        runs[name] = f"{command} -n -v -F -r {tree} {spec} {tree}"
    taken = {name: [] for name in runs}
    for _ in range(given.turns):
        for name, command in runs.items():
            taken[name].append(timed(command, room / f"{name}.report"))
    for name, pairs in taken.items():
        clock, used = (statistics.median(column) for column in zip(*pairs))
        changes = (room / f"{name}.report").read_bytes().count(b"Would relabel ")
        print(f"{total} entries, {name}: {clock:.3f} s, processor {used:.3f} s, {changes} changes",
              flush=True)


def main():
    parser = argparse.ArgumentParser(description=__doc__.splitlines()[0])
    parser.add_argument("program")
    parser.add_argument("spec")
    parser.add_argument("--sizes", type=int, nargs="+", default=[1_000, 10_000, 50_000, 200_000])
    parser.add_argument("--turns", type=int, default=3)
    parser.add_argument("--peer", nargs=3, action="append", default=[])
    given = parser.parse_args()
    if "IN_NAMESPACE" not in os.environ:
        os.environ["IN_NAMESPACE"] = "1"
        os.execvp("unshare", ["unshare", "--mount", "--propagation", "private",
                              sys.executable, *sys.argv])
    for count in given.sizes:
        room = tempfile.mkdtemp(dir="/var/tmp")
        try:
            subprocess.run(["mount", "-t", "tmpfs", "none", room], check=True)
            measure(Path(room), count, given)
        finally:
            subprocess.run(["umount", "-l", room])
            os.rmdir(room)


main()
