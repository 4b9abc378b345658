#!/usr/bin/env python3
"""Times genhomedircon: bench/homes.py PROGRAM. Each figure is the least of three runs, in seconds
of one processor (user and system)."""

import os
import resource
import subprocess
import sys
import tempfile

CONTEXT = "unconfined_u:object_r:ROLE_home_t:s0"
DEBIAN = """HOME_ROOT\t-d\tsystem_u:object_r:home_root_t:s0
HOME_ROOT\t-l\tsystem_u:object_r:home_root_t:s0
HOME_DIR\t-d\tunconfined_u:object_r:ROLE_home_dir_t:s0
HOME_DIR\t-l\tunconfined_u:object_r:ROLE_home_dir_t:s0
HOME_DIR/.+\tunconfined_u:object_r:ROLE_home_t:s0
HOME_DIR/\\.ssh(/.*)?\tunconfined_u:object_r:ssh_home_t:s0
HOME_DIR/\\.config(/.*)?\tunconfined_u:object_r:xdg_config_t:s0
/tmp/gconfd-USER/.*\t--\tunconfined_u:object_r:gconf_tmp_t:s0
"""
CASES = (
    ("Debian's words, eight lines", DEBIAN),
    ("long patterns", "".join(f"HOME_DIR/{'a' * 960}{k}/.*\t{CONTEXT}\n" for k in range(6))),
    ("long patterns, a set first",
     "".join(f"/[^/]*/USER/{'a' * 960}{k}/.*\t{CONTEXT}\n" for k in range(6))),
    ("long contexts", "".join(f"HOME_DIR/{k}\t{CONTEXT}-{'c' * 960}\n" for k in range(6))),
)


def processor_seconds(words):
    before = resource.getrusage(resource.RUSAGE_CHILDREN)
    subprocess.run(words, check=True)
    after = resource.getrusage(resource.RUSAGE_CHILDREN)
    return after.ru_utime + after.ru_stime - before.ru_utime - before.ru_stime


def main():
    program = os.path.abspath(sys.argv[1])
    with tempfile.TemporaryDirectory() as folder:
        names = ("template", "users", "homes")
        template, users, homes = (os.path.join(folder, name) for name in names)
        with open(users, "w") as file:
            file.writelines(f"u{n} user /home/u{n}\n" for n in range(10_000))
        for name, text in CASES:
            with open(template, "w") as file:
                file.write(text)
            words = [program, "genhomedircon", "-t", template, "-u", users, "-o", homes]
            least = min(processor_seconds(words) for _ in range(3))
            with open(homes, "rb") as file:
                lines = sum(1 for _ in file)
            print(f"{name}: {lines} lines, {os.path.getsize(homes)} bytes, {least:.2f} s")


if __name__ == "__main__":
    main()
