#!/usr/bin/env python3
"""Times `matchpathcon -n -f SPEC /etc/passwd`, the look-up of one path, by turns.

    paths.py PROGRAM [RUNS [PEER...]]

PROGRAM is relabel; a PEER is a command of words that takes what matchpathcon(8) takes, as another
libselinux's with its loader. SPEC is the policy of realistic.py; where there is no peer, a policy
of 65,536 exact names of 100 bytes is opened too. RUNS is 40 where it is left out. Prints the least
and the median time by the clock, in milliseconds, the greatest memory and the page faults.
"""

import os
import random
import shlex
import subprocess
import sys
import tempfile
import time
from pathlib import Path

import realistic

LETTERS = "abcdefghijklmnop"


def exact(count, length):
    generator = random.Random(count)
    for number in range(count):
        tail = f"{number:07}"
        body = "".join(generator.choices(LETTERS, k=length - 1 - len(tail)))
        yield f"/{body}{tail} system_u:object_r:name_t:s0"


def run(command):
    """By time(1), since a child begins with the memory of this program."""
    told = ["/usr/bin/time", "-f", "%M %R", *command]
    done = subprocess.run(told, capture_output=True, text=True, check=True)
    return [int(word) for word in done.stderr.split()[-2:]]


def timed(command):
    before = time.perf_counter()
    subprocess.run(command, stdout=subprocess.DEVNULL, check=True)
    return 1000 * (time.perf_counter() - before)


def measure(commands, spec, runs):
    words = ["-n", "-f", str(spec), "/etc/passwd"]
    times = {name: [] for name in commands}
    for _ in range(runs):
        for name, command in commands.items():
            times[name].append(timed([*command, *words]))
    for name, command in commands.items():
        memory, faults = run([*command, *words])
        found = sorted(times[name])
        print(f"{spec.name} {name}: least {found[0]:.2f} ms, median {found[len(found) // 2]:.2f},"
              f" {memory} KB, {faults} page faults")


def main(program, runs="40", *peers):
    commands = {"relabel": [os.path.abspath(program), "matchpathcon"]}
    commands.update({peer.split()[-1]: shlex.split(peer) for peer in peers})
    with tempfile.TemporaryDirectory() as room:
        realistic.main(room, 2000)
        measure(commands, Path(room) / "fc", int(runs))
        if not peers:
            names = Path(room) / "exact"
            names.write_text("\n".join(exact(65536, 100)) + "\n")
            measure(commands, names, int(runs))


main(*sys.argv[1:])
