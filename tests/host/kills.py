#!/usr/bin/env python3
"""Kills runs of relabel-tree -D at random moments, and checks the digests afterwards.

    kills.py TREE ROOT SPEC MOMENTS [SEED]

TREE is the program, ROOT a folder in which the tree is made. Each turn spoils some labels, starts a
run with -D and kills it after a random time, by KILL or TERM, until MOMENTS runs were killed. After
each turn a check by digests has to find what a check of everything finds. After each tenth turn
setfiles, where it is installed, has to find nothing more, and a whole run has to leave nothing to
change. The exit status is 1 if one of these fails. TERM ends the test after the turn in hand.
"""

import collections
import os
import random
import shutil
import signal
import subprocess
import sys
import time

CONTEXT = b"system_u:object_r:%s:s0"
CHANGE = b"Would relabel "


class Tree:
    def __init__(self, program, root, spec):
        self.program, self.root, self.spec = program, root, spec
        self.files = []
        self.peer = shutil.which("setfiles")
        self.compared = 0
        self.is_stopping = False

    def stop(self, *_):
        self.is_stopping = True

    def make(self, folders, each):
        for number in range(folders):
            place = f"{self.root}/etc/a{number % 7}/b{number % 5}/c{number}"
            os.makedirs(place)
            for count in range(each):
                path = f"{place}/f{count}"
                os.close(os.open(path, os.O_CREAT | os.O_WRONLY))
                self.files.append(path)
        os.makedirs(self.root + "/home/ana")
        for number in range(0, len(self.files), 37):
            os.link(self.files[number], f"{self.root}/home/ana/l{number}")

    def words(self, *words, jobs=1):
        return [self.program, *words, "-j", str(jobs), "-r", self.root, "-p", self.spec]

    def run(self, *words):
        subprocess.run(self.words(*words), check=True, stdout=subprocess.DEVNULL,
                       stderr=subprocess.DEVNULL)

    def changes(self, *words):
        """What a check finds, as lines."""
        told = subprocess.run(self.words("-n", "-v", *words), stdout=subprocess.PIPE,
                              stderr=subprocess.PIPE)
        if told.returncode != 0:
            raise SystemExit(f"a check ends with {told.returncode}: {told.stderr.decode()}")
        return [line for line in told.stdout.split(b"\n") if line.startswith(CHANGE)]

    def inodes_in(self, lines, root):
        """The inodes that the lines name, and how many of their names stand there."""
        paths = [root + line[len(CHANGE):].split(b" from ")[0] for line in lines]
        return collections.Counter(os.lstat(path).st_ino for path in paths)

    def missed(self, found):
        """The inodes that setfiles finds under each of their names, and a check doesn't."""
        if not self.peer:
            return []
        words = [self.peer, "-n", "-v", "-r", self.root, self.spec, self.root]
        told = subprocess.run(words, stdout=subprocess.PIPE, stderr=subprocess.DEVNULL)
        if told.returncode not in (0, 1):
            raise SystemExit(f"setfiles ends with {told.returncode}")
        lines = [line for line in told.stdout.split(b"\n") if line.startswith(CHANGE)]
        known = self.inodes_in(found, os.fsencode(self.root))
        self.compared += len(lines)
        links = {os.lstat(path).st_ino: os.lstat(path).st_nlink for path in self.files}
        return [inode for inode, names in self.inodes_in(lines, b"").items()
                if inode not in known and names == links.get(inode, names)]

    def spoil(self, chance, count):
        for path in chance.sample(self.files, count):
            kind = chance.choice([b"tmp_t", b"usr_t", b"odd_t"])
            os.setxattr(path, "security.selinux", CONTEXT % kind)

    def killed(self, seconds, number, jobs):
        """Starts a run, kills it, and gives its status."""
        run = subprocess.Popen(self.words("-D", jobs=jobs), stdout=subprocess.DEVNULL,
                               stderr=subprocess.DEVNULL)
        time.sleep(seconds)
        run.send_signal(number)
        return run.wait()


def faults_after(tree, is_tenth):
    """What is wrong after a run that was killed."""
    found = tree.changes()
    if tree.changes("-D") != found:
        yield "a digest lies"
    if is_tenth:
        if tree.missed(found):
            yield "setfiles finds more"
        tree.run("-D")
        if tree.changes():
            yield "a whole run left something to change"


def main():
    program, root, spec, moments = *sys.argv[1:4], int(sys.argv[4])
    seed = int(sys.argv[5]) if len(sys.argv) > 5 else random.randrange(1 << 30)
    chance = random.Random(seed)
    tree = Tree(program, root, spec)
    tree.make(24, 40)
    signal.signal(signal.SIGTERM, tree.stop)
    began = time.monotonic()
    tree.run("-D")
    longest = time.monotonic() - began
    ends, turn, killed, faults = collections.Counter(), 0, 0, 0
    while killed < moments and not tree.is_stopping:
        tree.spoil(chance, chance.choice([1, 5, 150, 600]))
        number = chance.choice([signal.SIGKILL, signal.SIGTERM])
        status = tree.killed(chance.uniform(0, longest), number, chance.choice([1, 4]))
        ends[status] += 1
        # About a third of the runs ends by itself, so that each phase is met.
        longest *= 0.98 if status == 0 else 1.01
        killed += status != 0
        for fault in faults_after(tree, turn % 10 == 9):
            faults += 1
            print(f"    seed {seed}, turn {turn}, status {status}: {fault}", flush=True)
        turn += 1
    told = ", ".join(f"{count} ended with {status}" for status, count in sorted(ends.items()))
    told += f"; setfiles found {tree.compared} names" if tree.peer else "; no setfiles here"
    print(f"    {killed} killed of {turn} runs: {told}; {faults} faults", file=sys.stderr)
    sys.exit(1 if faults or killed < moments else 0)


main()
