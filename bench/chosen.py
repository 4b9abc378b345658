#!/usr/bin/env python3
"""Makes inputs that cost as much as whoever chooses labels, or patterns, can make them cost.

    chosen.py FOLDER labels N   N files with as many labels, for all of which find_records has one
                                guess; it takes a millisecond a label
    chosen.py FOLDER random N   N files with as many labels at random
    chosen.py FOLDER stars N    N patterns of 4,153 bytes: 49 nested stars over 1,950 sides
    chosen.py FOLDER long N     N patterns `/a.{1980}NNNNN`, and a path for the last of them

FOLDER gets the policy `fc` and the tree `records`. The same words give the same bytes. To walk it:

    time ./relabel setfiles -n FOLDER/fc / <FOLDER/records
"""

import argparse
import itertools
import os
import random

MIX = 0x9E3779B97F4A7C15
WORD = 2 ** 64
LABEL = "unconfined_u:object_r:user_home_t:s0"
ROOT = "system_u:object_r:root_t:s0"


def mixed_to(mixed, word):
    product = (mixed ^ word) * MIX % WORD
    return product ^ product >> 32


def chosen_labels(count):
    """Labels of seven words of eight bytes, the uppermost bits of whose mix are 0."""
    ends = [
        int.from_bytes(b"%d,c%d" % pair, "little")
        for pair in itertools.combinations(range(220, 1000), 2)
    ]
    for first, second in itertools.combinations(range(100, 220), 2):
        front = b"%s:c%d,c%d,c" % (LABEL.encode(), first, second)
        mixed = 0
        for at in range(0, 48, 8):
            mixed = mixed_to(mixed, int.from_bytes(front[at : at + 8], "little"))
        for end in ends:
            if (mixed ^ end) * MIX % WORD < 2 ** 52:
                yield front + end.to_bytes(8, "little")
                count -= 1
                if count == 0:
                    return


def random_labels(count):
    source = random.Random(1)
    for _ in range(count):
        categories = sorted(source.sample(range(1024), 4))
        yield f"{LABEL}:{','.join(f'c{category}' for category in categories)}".encode()


def write_labelled(folder, labels):
    with open(f"{folder}/fc", "w") as policy:
        policy.write(f"/home/[^/]+(/.*)? {LABEL}\n")
    with open(f"{folder}/records", "wb") as records:
        for number, path in enumerate(("/", "/home", "/home/u"), 2):
            records.write(f"d 1 {number} {ROOT} {path}\0".encode())
        for number, label in enumerate(labels, 5):
            records.write(b"f 1 %d %s /home/u/%07d\0" % (number, label, number))


def write_patterns(folder, patterns, paths):
    with open(f"{folder}/fc", "w") as policy:
        policy.writelines(f"{pattern} system_u:object_r:usr_t:s0\n" for pattern in patterns)
    with open(f"{folder}/records", "w") as records:
        for number, path in enumerate(("/", *paths), 2):
            records.write(f"f 1 {number} {ROOT} {path}\0")


def stars(folder, count):
    part = "|".join("acdefghij"[side % 9] for side in range(1950))
    for _ in range(49):
        part = f"({part}|b)*"
    write_patterns(folder, [f"/({part})((()))"] * count, ["/" + "abcdefghij" * 10])


def long(folder, count):
    path = ("/a" + "/abcdefghi" * 198) + f"{count - 1:05}"
    write_patterns(folder, [f"/a.{{1980}}{number:05}" for number in range(count)], [path])


def main():
    parser = argparse.ArgumentParser(description=__doc__.splitlines()[0])
    parser.add_argument("folder")
    parser.add_argument("kind", choices=("labels", "random", "stars", "long"))
    parser.add_argument("count", type=int)
    given = parser.parse_args()
    os.makedirs(given.folder, exist_ok=True)
    if given.kind == "labels":
        write_labelled(given.folder, chosen_labels(given.count))
    elif given.kind == "random":
        write_labelled(given.folder, random_labels(given.count))
    elif given.kind == "stars":
        stars(given.folder, given.count)
    else:
        long(given.folder, given.count)


if __name__ == "__main__":
    main()
