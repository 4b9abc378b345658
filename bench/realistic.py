#!/usr/bin/env python3
"""Writes a policy and a tree of the size and the shapes that distributions have into a folder:
`fc`, `fc.homedirs`, `fc.subs_dist` with 5,600 specifications, and `records` of N entries in the
order in which find(1) meets them, no hard links.

    realistic.py FOLDER N

The same N gives the same bytes. The core of the policy is the example that examples/realistic has.
"""

import random
import sys
from pathlib import Path

HERE = Path(__file__).resolve().parent
CORE = HERE.parent / "examples" / "realistic"
SERVICES = 279
SHAPES = (
    ("/etc/{0}(/.*)?", "", "etc"), ("/etc/{0}\\.conf", "--", "conf"),
    ("/usr/bin/{0}", "--", "exec"), ("/usr/sbin/{0}d", "--", "exec"),
    ("/usr/lib/{0}(/.*)?", "", "lib"), ("/usr/share/{0}(/.*)?", "", "usr"),
    ("/usr/lib/systemd/system/{0}.*\\.service", "--", "unit"),
    ("/etc/rc\\.d/init\\.d/{0}", "--", "initrc"), ("/var/lib/{0}(/.*)?", "", "var_lib"),
    ("/var/log/{0}(/.*)?", "", "log"), ("/var/log/{0}\\.log.*", "--", "log"),
    ("/var/run/{0}(/.*)?", "", "var_run"), ("/var/run/{0}\\.pid", "--", "var_run"),
    ("/var/cache/{0}(/.*)?", "", "cache"), ("/var/spool/{0}(/.*)?", "", "spool"),
    ("/opt/{0}/s?bin(/.*)?", "", "exec"), ("/dev/{0}[0-9]*", "-c", "device"),
    ("/usr/(local/)?lib(64)?/{0}/.*\\.so(\\.[^/]*)*", "--", "lib"),
    ("/srv/([^/]*/)?{0}(/.*)?", "", "content"),
    ("/home/[^/]+/\\.{0}(/.*)?", "", "home"),
)
FOLDERS = ("/etc/{0}", "/usr/lib/{0}", "/usr/share/{0}", "/var/lib/{0}", "/var/log/{0}",
           "/var/cache/{0}", "/srv/www/{0}", "/opt/{0}/bin", "/usr/lib64/{0}/plugins",
           "/home/ana/.{0}")


def policy():
    services = [f"svc{number:03}" for number in range(SERVICES)]
    return [f"{shape.format(service)}\t{kind}\tsystem_u:object_r:{service}_{what}_t:s0"
            for service in services for shape, kind, what in SHAPES]


def paths(count, generator):
    """Rising lists of names, a directory before what it holds."""
    files = set()
    while len(files) < count:
        folder = generator.choice(FOLDERS).format(f"svc{generator.randrange(SERVICES):03}")
        names = [f"d{generator.randrange(30)}" for _ in range(generator.randrange(3))]
        names.append(f"f{generator.randrange(10 ** 6)}.so")
        files.add(tuple(folder[1:].split("/") + names))
    folders = {file[:length] for file in files for length in range(len(file))}
    every = sorted([(folder, "d") for folder in folders] + [(file, "f") for file in files])
    return every[:count]


def main(room, count):
    generator = random.Random(count)
    room = Path(room)
    for name in ("fc.homedirs", "fc.subs_dist"):
        (room / name).write_bytes((CORE / name).read_bytes())
    (room / "fc").write_text((CORE / "fc").read_text() + "\n".join(policy()) + "\n")
    with open(room / "records", "wb") as out:
        for inode, (names, letter) in enumerate(paths(count, generator), 2):
            label = f"system_u:object_r:svc{generator.randrange(SERVICES):03}_lib_t:s0"
            out.write(f"{letter} 64768 {inode} {label} /{'/'.join(names)}\0".encode())


if __name__ == "__main__":
    main(sys.argv[1], int(sys.argv[2]))
