#!/usr/bin/env python3
"""Writes the records of a made tree to standard output. The same words give the same bytes.

    generate.py [--order find|random] [--links] N   N records: paths of 3 to 12 names, a few hundred
                                                    different contexts
    generate.py --shape flat N                      one directory of N names
    generate.py --shape one-inode N                 one inode with N names, in a thousand
                                                    directories
    generate.py --shape chain DEPTH FILES           a chain of directories so deep, with so many
                                                    files in each

In the order of find(1) a directory comes before what it holds, and what it holds in no order, each
subtree whole. With links a third of the inodes have two to five names.
"""

import argparse
import random
import sys

WORDS = ("usr lib share local include python doc man locale icons fonts modules kernel drivers net "
         "media sound vendor cache spool mail backups archive projects build release tests data "
         "images logs config state run system user service socket target mount device session "
         "network daemon worker plugin module theme").split()
KINDS = ("conf", "data", "exec", "var", "log", "tmp", "lib", "run")
TYPES = [f"{word}_{kind}_t" for word in WORDS[:40] for kind in KINDS]


def context(generator):
    return f"system_u:object_r:{generator.choice(TYPES)}:s0"


def paths(count, generator):
    """Each entry's letter, path and the number of its directory, a directory before what it
    holds."""
    folders = [(0, "", 0)]
    yield "d", "/", None
    for number in range(1, count):
        place, parent, depth = generator.choice(folders)
        while depth > 10:
            place, parent, depth = generator.choice(folders)
        is_folder = number < 41 or depth < 2 or generator.random() < 0.08
        path = f"{parent}/{generator.choice(WORDS)}{number:x}"
        if is_folder:
            folders.append((number, path, depth + 1))
        yield "d" if is_folder else "f", path, place


def in_find_order(entries):
    below = [[] for _ in entries]
    for number, (_, _, place) in enumerate(entries):
        if place is not None:
            below[place].append(number)
    pile = [0]
    while pile:
        number = pile.pop()
        yield entries[number]
        pile.extend(reversed(below[number]))


def inodes(count, has_links, generator):
    """An inode number and a label for each of so many names."""
    number = 3
    while count > 0:
        names = generator.randrange(2, 6) if has_links and generator.random() < 1 / 3 else 1
        label = context(generator)
        for _ in range(min(names, count)):
            yield number, label
        count -= names
        number += 1


def made_tree(count, order, has_links):
    generator = random.Random(count)
    entries = list(paths(count, generator))
    entries = list(in_find_order(entries))
    files = [pair for pair in inodes(count, has_links, generator)]
    generator.shuffle(files)
    labelled = []
    folder = 10 ** 9
    for (letter, path, _), (inode, label) in zip(entries, files):
        if letter == "d":
            folder += 1
            inode = folder
        labelled.append(f"{letter} 2049 {inode} {label} {path}\0".encode())
    if order == "random":
        generator.shuffle(labelled)
    return labelled


def flat(count):
    generator = random.Random(count)
    yield b"d 2049 2 system_u:object_r:root_t:s0 /\0"
    for number in range(3, count + 2):
        label = context(generator)
        yield f"f 2049 {number} {label} /{generator.choice(WORDS)}-{number:x}\0".encode()


def one_inode(count):
    yield b"d 2049 2 system_u:object_r:root_t:s0 /\0"
    for folder in range(1000):
        yield f"d 2049 {folder + 3} system_u:object_r:usr_t:s0 /d{folder:03}\0".encode()
        for number in range(count // 1000):
            yield f"f 2049 5000 system_u:object_r:usr_t:s0 /d{folder:03}/name{number}\0".encode()


def chain(depth, count):
    path = ""
    yield b"d 2049 2 system_u:object_r:root_t:s0 /\0"
    inode = 2
    for _ in range(depth):
        path += "/a"
        inode += 1
        yield f"d 2049 {inode} system_u:object_r:usr_t:s0 {path}\0".encode()
        for number in range(count):
            inode += 1
            yield f"f 2049 {inode} system_u:object_r:usr_t:s0 {path}/{number}\0".encode()


def main():
    parser = argparse.ArgumentParser(description=__doc__.splitlines()[0])
    parser.add_argument("--order", choices=("find", "random"), default="random")
    parser.add_argument("--links", action="store_true")
    parser.add_argument("--shape", choices=("tree", "flat", "one-inode", "chain"), default="tree")
    parser.add_argument("counts", nargs="+", type=int)
    given = parser.parse_args()
    if given.shape == "tree":
        records = made_tree(given.counts[0], given.order, given.links)
    else:
        records = {"flat": flat, "one-inode": one_inode, "chain": chain}[given.shape](*given.counts)
    for record in records:
        sys.stdout.buffer.write(record)


main()
