#!/usr/bin/env python3
"""Measures relabel-tree beside find(1) and setfiles(8) over one tree, by turns, as root.

    host.py SPEC [--entries N] [--turns T] [--jobs J..] [--disk] [--before PROGRAM] [--alone]
        [--check]

SPEC is a policy's file_contexts, beside which its other files stand. The tree has the names of this
machine's /etc, /usr and /var, and where these are fewer than N (200,000) of its other folders, and
then all of them once more below /copy1 and so on, as empty files and directories, in a mount
namespace of its own: on a tmpfs, or with --disk on ext4 in a file, through a loop device. Before
each first run all have the label lib_t; the second follows it. find reads names, inodes and labels,
and writes them nowhere. --before names another relabel-tree, to be measured too. --alone leaves out
find and setfiles. Prints seconds by the clock and of the processor, medians of T turns
(3). --check looks after each first run that setfiles -n -v finds
nothing to change. SETFILES names the command, as '/opt/3.11/run setfiles'; RELABEL_TREE and RELABEL
other programs. Needs Python alone, and for --disk mke2fs.
"""

import argparse
import os
import shutil
import statistics
import subprocess
import sys
import tempfile
import time
from pathlib import Path

HERE = Path(__file__).resolve().parent
TREE = os.environ.get("RELABEL_TREE", str(HERE.parent / "build" / "relabel-tree"))
SETFILES = os.environ.get("SETFILES", "setfiles").split()
BEFORE = b"system_u:object_r:lib_t:s0"
FOLDERS = ("/etc", "/usr", "/var")
NOT_READ = ("/proc", "/sys", "/dev", "/tmp", "/run", "/work", *FOLDERS)


def names_here(count):
    """So many names of this machine, each with whether it is a directory, parents first."""
    found = []
    others = sorted(entry.path for entry in os.scandir("/")
                    if entry.is_dir(follow_symlinks=False) and entry.path not in NOT_READ)
    for folder in (*FOLDERS, *others):
        device = os.lstat(folder).st_dev
        for place, folders, files in os.walk(os.fsencode(folder)):
            folders[:] = sorted(name for name in folders
                                if os.lstat(os.path.join(place, name)).st_dev == device)
            links = [name for name in folders if os.path.islink(os.path.join(place, name))]
            found.append((place, True))
            found += [(os.path.join(place, name), False) for name in sorted(files) + links]
            if len(found) >= count:
                return found[:count]
    return found


def names(count):
    """So many names, those of this machine as often as it takes."""
    here = names_here(count)
    for number in range(count // len(here) + 1):
        above = b"/copy%d" % number if number else b""
        for name, is_folder in here[:count - number * len(here)]:
            yield above + name, is_folder


def make(root, count):
    """The paths of the tree, all made."""
    paths = []
    for name, is_folder in names(count):
        path = os.fsencode(root) + name
        if is_folder:
            os.makedirs(path, exist_ok=True)
        else:
            os.close(os.open(path, os.O_CREAT | os.O_WRONLY, 0o644))
        paths.append(path)
    return paths + [os.fsencode(root)]


def reset(paths):
    for path in paths:
        os.setxattr(path, "security.selinux", BEFORE, follow_symlinks=False)


def timed(words):
    """Seconds by the clock and of the processor, and what was said."""
    with tempfile.TemporaryFile() as told:
        start = time.monotonic()
        started = subprocess.Popen(words, stdout=subprocess.DEVNULL, stderr=told)
        _, status, used = os.wait4(started.pid, 0)
        clock = time.monotonic() - start
        started.returncode = os.waitstatus_to_exitcode(status)
        told.seek(0)
        text = told.read().decode(errors="replace").strip()
    if started.returncode != 0:
        sys.exit(f"{words} ended with status {started.returncode}: {text[-2000:]}")
    return (clock, used.ru_utime + used.ru_stime), text


def check(root, spec):
    words = [*SETFILES, "-n", "-v", "-F", "-r", root, spec, root]
    told = subprocess.run(words, stdout=subprocess.PIPE, stderr=subprocess.STDOUT).stdout
    print(f"    setfiles -n -v afterwards: {told.count(b'Would relabel')} would be relabelled")
    sys.stdout.buffer.write(told[:2000])


def commands(root, given):
    """What is measured: name, words, and whether it sets labels."""
    spec = str(Path(given.spec).resolve())
    if not given.alone:
        records = "%y %D %i %Z %p\\0"
        yield "find", ["find", root, "-xdev", "-printf", records], False
        for threads in given.jobs:
            words = [*SETFILES, "-F", "-T", str(threads), "-r", root, spec, root]
            yield f"setfiles -T {threads}", words, True
    for which, program in (("before", given.before), ("relabel-tree", TREE)):
        for jobs in given.jobs if program else ():
            words = [program, "-F", "-j", str(jobs), "-r", root, "-p", spec]
            yield f"{which} -j {jobs}", words, True


def measure(root, paths, given):
    taken = {}
    reset(paths)
    for _ in range(given.turns):
        for name, words, sets in commands(root, given):
            if sets:
                reset(paths)
            for which in ("first", "second") if sets else ("alone",):
                figures, told = timed(words)
                taken.setdefault((name, which), []).append(figures)
                print(f"    {name}, {which}: {figures[0]:.2f} s, {figures[1]:.2f}; {told[-160:]}",
                      file=sys.stderr)
            if given.check and sets:
                check(root, str(Path(given.spec).resolve()))
    for (name, which), rows in taken.items():
        clock, used = (statistics.median(column) for column in zip(*rows))
        print(f"{name}, {which}: {clock:.2f} s, processor {used:.2f} s", flush=True)


def mount(room, given):
    if not given.disk:
        return subprocess.run(["mount", "-t", "tmpfs", "none", room], check=True)
    image = room + ".image"
    with open(image, "wb") as file:
        file.truncate(given.entries * 2000 + (1 << 28))
    inodes = str(given.entries + given.entries // 10 + 1000)
    subprocess.run(["mke2fs", "-q", "-t", "ext4", "-N", inodes, image], check=True)
    return subprocess.run(["mount", "-o", "loop", image, room], check=True)


def main():
    parser = argparse.ArgumentParser(description=__doc__.splitlines()[0])
    parser.add_argument("spec")
    parser.add_argument("--entries", type=int, default=200_000)
    parser.add_argument("--turns", type=int, default=3)
    parser.add_argument("--jobs", type=int, nargs="*", default=[1, 4])
    parser.add_argument("--before")
    for name in ("--alone", "--check", "--disk"):
        parser.add_argument(name, action="store_true")
    given = parser.parse_args()
    if "IN_NAMESPACE" not in os.environ:
        os.environ["IN_NAMESPACE"] = "1"
        os.execvp("unshare", ["unshare", "--mount", "--propagation", "private",
                              sys.executable, *sys.argv])
    room = tempfile.mkdtemp(dir="/var/tmp")
    spare = tempfile.mkdtemp(dir="/var/tmp")
    try:
        mount(room, given)
        root = room + "/tree"
        os.mkdir(root)
        os.environ["TMPDIR"] = spare
        paths = make(root, given.entries)
        folders = sum(os.path.isdir(path) for path in paths)
        print(f"{len(paths)} entries, {folders} directories", flush=True)
        measure(root, paths, given)
    finally:
        subprocess.run(["umount", "-l", room])
        os.rmdir(room)
        shutil.rmtree(spare)
        Path(room + ".image").unlink(missing_ok=True)


main()
