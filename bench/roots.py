#!/usr/bin/env python3
"""Asks setfiles what it would still change of a real root that relabel-tree has labelled.

    roots.py ROOT PEER..

ROOT is a copy of a Debian root with its policy installed, on a file system that keeps the attribute
security.selinux; the programs are put into its /usr. PEER is a folder with the packages of one
version, unpacked by dpkg -x: policycoreutils, libselinux1, libsepol2, libaudit1, libcap-ng0,
libpcre2-8-0 and libc6. Twice, from outside with -r and from within by chroot, the labels are
removed and relabel-tree runs two times; then setfiles -n -v -F of each PEER says what it would
change. The names of an inode that has more than one are counted as hard links. Ends with 1 if there
are others, or if the second run finds something to change. As root. RELABEL and RELABEL_TREE name
other programs than those of this checkout.
"""

import os
import re
import subprocess
import sys
import time
from pathlib import Path

TOP = Path(__file__).resolve().parent.parent
LABEL = "security.selinux"
WITHIN = "/mnt"  # where a PEER is mounted within ROOT
CHANGE = re.compile(rb"^.*?Would relabel (.*) from (.*) to (\S+)$")
RUN_PEER = """
at=$1
shift
for loader in "$at"/lib/*/ld-linux-*.so.2 "$at"/usr/lib/*/ld-linux-*.so.2; do
    [ ! -f "$loader" ] || break
done
for program in "$at/sbin/setfiles" "$at/usr/sbin/setfiles"; do
    [ ! -f "$program" ] || break
done
libraries=$at/lib/x86_64-linux-gnu:$at/usr/lib/x86_64-linux-gnu
exec "$loader" --library-path "$libraries" "$program" "$@"
"""


def run(words, wanted=(0,)):
    """What the command says on both outputs, and how long it takes."""
    began = time.monotonic()
    done = subprocess.run(words, stdout=subprocess.PIPE, stderr=subprocess.STDOUT, check=False)
    if done.returncode not in wanted:
        told = done.stdout.decode(errors="replace")
        sys.exit(f"roots.py: status {done.returncode}: {words}\n{told}")
    return done.stdout, time.monotonic() - began


def remove_labels(root):
    """Returns the number of entries on the root's file system."""
    device = os.lstat(root).st_dev
    paths = [root]
    for place, folders, files in os.walk(root):
        folders[:] = [name for name in folders
                      if os.lstat(os.path.join(place, name)).st_dev == device]
        paths += [os.path.join(place, name) for name in folders + files]
    for path in paths:
        if LABEL in os.listxattr(path, follow_symlinks=False):
            os.removexattr(path, LABEL, follow_symlinks=False)
    return len(paths)


def spec_of(root):
    config = Path(root + "/etc/selinux/config").read_text(encoding="utf-8")
    kind = re.search(r"^SELINUXTYPE=(\S+)", config, re.MULTILINE).group(1)
    return f"/etc/selinux/{kind}/contexts/files/file_contexts"


def label(root, is_within):
    """Two runs; says the last line of each, and returns whether the second found nothing."""
    words = ["chroot", root, "/usr/bin/relabel-tree", "-e", WITHIN] if is_within else \
        [root + "/usr/bin/relabel-tree", "-r", root]
    for more in ([], ["-c", "-v"]):
        told, _ = run([*words, "-j", "4", *more], wanted=(0, 1))
        print("   ", told.decode(errors="replace").splitlines()[-1])
        is_right = b" 0 would change," in told
        if more and not is_right:
            print(told.decode(errors="replace"))
    return is_right


def ask(root, peer, is_within):
    """Prints what setfiles would change, and returns the number of names that aren't hard links."""
    spec = spec_of(root)
    if is_within:
        run(["mount", "--bind", peer, root + WITHIN])
        words = ["chroot", root, "sh", "-c", RUN_PEER, "sh", WITHIN, "-n", "-v", "-F", "-m",
                 "-e", "/proc", "-e", WITHIN, spec, "/"]
    else:
        words = ["sh", "-c", RUN_PEER, "sh", peer, "-n", "-v", "-F", "-m", "-r", root,
                 root + spec, root]
    told, seconds = run(words)
    if is_within:
        run(["umount", root + WITHIN])
    links, others, words = [], [], []
    for line in told.splitlines():
        found = CHANGE.match(line)
        if not found:
            words.append(line)
            continue
        path = os.fsencode(root if is_within else "") + found.group(1)
        is_link = not os.path.isdir(path) and os.lstat(path).st_nlink > 1
        (links if is_link else others).append(line)
    print(f"    setfiles of {os.path.basename(peer)} would change {len(links)} hard links and"
          f" {len(others)} others, {seconds:.0f} seconds")
    for line in links + others + words:
        print("       ", line.decode(errors="replace"))
    return len(others)


def main(root, peers):
    run([TOP / "tools/install", root, "/usr"])
    wrong = 0
    for is_within in (False, True):
        if is_within:
            run(["mount", "--bind", root, root])
            run(["mount", "-t", "proc", "none", root + "/proc"])
        count = remove_labels(root)
        print(f"{root}: {count} entries, {'by chroot' if is_within else 'with -r'}", flush=True)
        wrong += not label(root, is_within)
        for peer in peers:
            wrong += ask(root, peer, is_within)
            sys.stdout.flush()
    return 1 if wrong else 0


if __name__ == "__main__":
    if len(sys.argv) < 3 or sys.argv[1].startswith("-"):
        sys.exit(__doc__)
    if "ALONE" not in os.environ:  # mounts of its own
        os.execvpe("unshare", ["unshare", "--mount", "--propagation", "private", *sys.argv],
                   {**os.environ, "ALONE": "1"})
    sys.exit(main(os.path.realpath(sys.argv[1]), [os.path.realpath(it) for it in sys.argv[2:]]))
