#!/usr/bin/env python3
"""Exchanges folders, links and hard links in a tree while relabel-tree labels it.

    swaps.py TREE ROOT SPEC SECONDS

What a user owns lies in ROOT/home, and three processes of that user exchange it; victims of root
lie in ROOT/secret, which isn't labelled by these runs, and beside the root. Status 1 where a victim
gets a label, or a run ends with a status that is none of its own.
"""

import ctypes
import itertools
import os
import subprocess
import sys
import time

USER = 12345
EXCHANGE, HERE, RENAMEAT2 = 2, -100, 316
LIBC = ctypes.CDLL(None, use_errno=True)


def exchange(one, other):
    LIBC.syscall(RENAMEAT2, HERE, os.fsencode(one), HERE, os.fsencode(other), EXCHANGE)


def make(root):
    """The victims, and what is exchanged with what leads to them."""
    victims = [root + "/secret/victim", root + "/secret/d/victim", root + ".outside/victim"]
    for victim in victims:
        os.makedirs(os.path.dirname(victim), exist_ok=True)
        os.close(os.open(victim, os.O_CREAT | os.O_WRONLY))
    pairs = []
    for number in range(30):
        place = f"{root}/home/u{number}"
        for folder in ("d", "spare", "deep/d"):
            os.makedirs(f"{place}/{folder}")
            for name in ("victim", "a", "b"):
                os.close(os.open(f"{place}/{folder}/{name}", os.O_CREAT | os.O_WRONLY))
        for link, to in (("l", "../../secret"), ("m", "../../secret/d"), ("o", root + ".outside")):
            os.symlink(to, f"{place}/{link}")
            pairs.append((f"{place}/d", f"{place}/{link}"))
            pairs.append((f"{place}/deep/d", f"{place}/{link}"))
        os.link(victims[number % 2], f"{place}/hard")
        os.symlink("../../secret/victim", f"{place}/file-link")
        pairs += [(f"{place}/d/a", f"{place}/file-link"), (f"{place}/d", f"{place}/spare"),
                  (f"{place}/deep", f"{place}/l")]
    return victims, pairs


def user(pairs):
    """Never ends; each of several has a share of the pairs."""
    os.setgid(USER)
    os.setuid(USER)
    for one, other in itertools.cycle(pairs):
        exchange(one, other)


def has_label(path):
    try:
        return os.getxattr(path, "security.selinux", follow_symlinks=False)
    except OSError:
        return None


def main():
    program, root, spec, seconds = *sys.argv[1:4], float(sys.argv[4])
    victims, pairs = make(root)
    # A hard link to a victim is a name of it that may be labelled; these victims have others.
    linked = {os.stat(victim).st_ino for victim in victims if os.stat(victim).st_nlink > 1}
    for number in range(30):
        os.unlink(f"{root}/home/u{number}/hard")
    subprocess.run(["chown", "-hR", f"{USER}:{USER}", root + "/home"], check=True)
    users = []
    for share in range(3):
        child = os.fork()
        if child == 0:
            user(pairs[share::3])
        users.append(child)
    runs, statuses, bad = 0, {}, []
    end = time.monotonic() + seconds
    try:
        while time.monotonic() < end and not bad:
            words = [program, "-F", "-D", "-j", "4", "-r", root, "-p", spec, "/home"]
            ended = subprocess.run(words, stdout=subprocess.PIPE, stderr=subprocess.PIPE)
            runs += 1
            statuses[ended.returncode] = statuses.get(ended.returncode, 0) + 1
            bad = [victim for victim in victims if has_label(victim)]
            if ended.returncode not in (0, 1):
                bad.append(ended.stderr.decode(errors="replace")[-500:])
            for path, _, files in os.walk(root + "/home"):
                for name in files if runs % 3 else ():
                    try:
                        os.removexattr(f"{path}/{name}", "security.selinux", follow_symlinks=False)
                    except OSError:
                        pass
    finally:
        for child in users:
            os.kill(child, 9)
            os.waitpid(child, 0)
    print(f"    {runs} runs, statuses {statuses}, {len(linked)} victims once had other names",
          file=sys.stderr)
    for text in bad:
        print(f"    labelled, or amiss: {text}")
    sys.exit(1 if bad else 0)


main()
