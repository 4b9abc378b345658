#!/usr/bin/env python3
"""Writes records whose inodes were chosen to be slow to number to standard output.

    inodes.py --same-hash N     N files: devices and inodes that the kit's hash of a pair, which
                                has no key, puts together
    inodes.py --same-chain N    N files of one device, whose inodes tree_model mixes to one bucket

Each stands in one directory. The same words give the same bytes. To walk them is to take as long as
to walk N other records:

    inodes.py --same-chain 80000 >records; printf '/.* system_u:object_r:usr_t:s0\\n' >fc
    time ./relabel setfiles -n fc / <records
"""

import argparse
import sys

WORD = 2 ** 64
MIX = 0x9E3779B97F4A7C15
START = 0x243F6A8885A308D3
DEVICE = 2049


def folded(first, second):
    product = first * second
    return product % WORD ^ product // WORD


def same_hash(count):
    """The hash is 0 where the second part is what the first was folded to."""
    for device in range(count):
        yield device, folded(START ^ device, MIX ^ 16)


def same_chain(count):
    """The numbers that tree_model mixes to 0, 1, 2 ..: it takes the upper half, which is 0."""
    back = pow(MIX, -1, WORD)
    for mixed in range(count):
        yield DEVICE, (mixed * back - DEVICE) * back % WORD


def main():
    parser = argparse.ArgumentParser(description=__doc__.splitlines()[0])
    kinds = parser.add_mutually_exclusive_group(required=True)
    kinds.add_argument("--same-hash", action="store_const", dest="kind", const=same_hash)
    kinds.add_argument("--same-chain", action="store_const", dest="kind", const=same_chain)
    parser.add_argument("count", type=int)
    given = parser.parse_args()
    out = sys.stdout.buffer
    out.write(b"d 2049 2 system_u:object_r:root_t:s0 /\0")
    for number, (device, inode) in enumerate(given.kind(given.count)):
        out.write(f"f {device} {inode} system_u:object_r:usr_t:s0 /{number:06}\0".encode())


main()
