#!/usr/bin/env python3
"""Writes into a folder what makes substitutions dear: `fc` with one specification, `fc.subs`, and
`records`.

    subs.py FOLDER deep N     one line whose source has 2,000 names, and N files below it
    subs.py FOLDER real N     a distribution's 22 lines, and N files as find(1) meets them in /usr,
                              /etc and /var

The same words give the same bytes.
"""

import random
import sys
from pathlib import Path

REAL = """/bin /usr/bin
/lib /usr/lib
/lib32 /usr/lib
/lib64 /usr/lib
/libx32 /usr/lib
/sbin /usr/sbin
/etc/init.d /etc/rc.d/init.d
/etc/systemd/system /usr/lib/systemd/system
/etc/systemd/user /usr/lib/systemd/user
/lib/systemd /usr/lib/systemd
/run/lock /var/lock
/usr/lib32 /usr/lib
/usr/lib64 /usr/lib
/usr/libx32 /usr/lib
/usr/local/lib32 /usr/lib
/usr/local/lib64 /usr/lib
/usr/local/lib /usr/lib
/var/lib/private /var/lib
/var/cache/private /var/cache
/var/log/private /var/log
/var/run /run
/run /var/run
"""
FOLDERS = ("/etc/{0}", "/usr/lib/{0}", "/usr/lib/x86_64-linux-gnu/{0}", "/usr/share/{0}/doc",
           "/usr/share/locale/{0}", "/var/lib/{0}/info", "/var/cache/{0}", "/usr/include/{0}/bits",
           "/usr/src/{0}/include/config")


def deep(count):
    source = "/a" * 2000
    return f"{source} /b\n", [f"{source}/f{number:05}" for number in range(count)]


def real(count):
    generator = random.Random(count)
    paths = set()
    while len(paths) < count:
        folder = generator.choice(FOLDERS).format(f"svc{generator.randrange(300):03}")
        paths.add(f"{folder}/d{generator.randrange(30)}/f{generator.randrange(10 ** 6)}.so")
    return REAL, sorted(paths, key=lambda path: path.split("/"))


def main(room, shape, count):
    room = Path(room)
    lines, paths = {"deep": deep, "real": real}[shape](count)
    room.mkdir(exist_ok=True)
    (room / "fc").write_text("/.*\tsystem_u:object_r:default_t:s0\n")
    (room / "fc.subs").write_text(lines)
    with open(room / "records", "wb") as out:
        out.write(b"d 1 1 system_u:object_r:default_t:s0 /\0")
        for inode, path in enumerate(paths, 2):
            out.write(f"f 1 {inode} system_u:object_r:default_t:s0 {path}\0".encode())


main(sys.argv[1], sys.argv[2], int(sys.argv[3]))
