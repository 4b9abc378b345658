#!/usr/bin/env python3
"""Writes into a folder what makes digests dear: `fc` with the specifications, and `records`.

    digests.py FOLDER names N       N exact names, each in a directory of its own
    digests.py FOLDER lists N       N directories in a folder with a specification of its own among
                                    5,600, each named so that it leads to lists of specifications
                                    that no other does
    digests.py FOLDER folders N     N directories in 2,790 folders, each with a specification of
                                    its own among 5,600

In the folder, `relabel restorecon -R -D -S fc -o dump / < records` makes a digest for each
directory. The same words give the same bytes.
"""

import random
import sys
from pathlib import Path

import realistic

OWN = "/var/lib/own"


def names(count):
    """The number's digits from the last one on, so that names part at their first byte."""
    folders = [f"/d{str(number).zfill(6)[::-1]}" for number in range(count)]
    lines = [f"{folder}/name\t--\tsystem_u:object_r:name_t:s0" for folder in folders]
    return lines, folders, "name"


def lists(count):
    """Which of a name's last letters are an a is another set of the pattern's places for each."""
    generator = random.Random(count)
    letters = str.maketrans("01", "ab")
    numbers = [f"{generator.getrandbits(24):024b}" for _ in range(count)]
    folders = [f"{OWN}/{number.translate(letters)}" for number in numbers]
    line = f"{OWN}/[^/]*a[^/]{{20}}(/.*)?\t\tsystem_u:object_r:own_t:s0"
    return [*realistic.policy(), line], [OWN, *sorted(set(folders))], "file"


def folders(count):
    services = [f"svc{number:03}" for number in range(realistic.SERVICES)]
    tops = [folder.format(service) for service in services for folder in realistic.FOLDERS]
    below = [f"{top}/d{turn}" for turn in range(count // len(tops)) for top in tops]
    return realistic.policy(), sorted(tops + below), "file"


def directories(folders):
    """With those above them, a directory before what it holds."""
    seen = set()
    for folder in folders:
        parts = folder.split("/")
        for length in range(2, len(parts) + 1):
            seen.add(tuple(parts[:length]))
    return ["/".join(parts) for parts in sorted(seen)]


def main(room, shape, count):
    room = Path(room)
    lines, given, name = {"names": names, "lists": lists, "folders": folders}[shape](count)
    room.mkdir(exist_ok=True)
    (room / "fc").write_text("/.*\t\tsystem_u:object_r:default_t:s0\n" + "\n".join(lines) + "\n")
    entries = [("d", "/")]
    for folder in directories(given):
        entries += [("d", folder), ("f", f"{folder}/{name}")]
    with open(room / "records", "wb") as out:
        for inode, (letter, path) in enumerate(entries, 2):
            out.write(f"{letter} 1 {inode} system_u:object_r:default_t:s0 {path}\0".encode())


main(sys.argv[1], sys.argv[2], int(sys.argv[3]))
