#!/usr/bin/env python3
"""Says how many bytes of read-only memory the library for C and the replay take: code, constants, and the rest that is loaded and never written.

    bench/read_only.py [FILE]...

The files are target/staticlib/liblock_engine_c.a and target/bin/replay unless named. By the sections that `readelf` of binutils lists: code is what may
be executed, constants are .rodata and .rodata.*, and the rest of a program is what starts it, finds the C library and unwinds its stack. A program
that is linked with `-Wl,--gc-sections` gets of the library what it calls, since each function has a section of its own.
"""
import re
import subprocess
import sys

from common import ROOT, built, print_table

FILES = {'target/staticlib/liblock_engine_c.a': 'tools/build.sh library', 'target/bin/replay': 'tools/build.sh replay'}
SECTION = re.compile(r'^\s*\[\s*\d+\]\s+(\S+)\s+\S+\s+[0-9a-f]+\s+[0-9a-f]+\s+([0-9a-f]+)\s+\S+\s+([A-Z]*)\s', re.M)


def kind_of(name, flags):
    if 'X' in flags:
        return 'code'
    return 'constants' if re.match(r'\.rodata(\.|$)', name) else 'rest'


def read_only(file):
    """Bytes by kind of the sections that are loaded and not written."""
    listed = subprocess.run(['readelf', '--sections', '--wide', file], check=True, capture_output=True, text=True).stdout
    bytes_of = {'code': 0, 'constants': 0, 'rest': 0}
    for name, size, flags in SECTION.findall(listed):
        if 'A' in flags and 'W' not in flags:
            bytes_of[kind_of(name, flags)] += int(size, 16)
    return bytes_of


def main():
    files = sys.argv[1:] or [built(ROOT / file, by) for file, by in FILES.items()]
    rows = []
    for file in files:
        found = read_only(file)
        rows.append([file.rpartition('/')[2], *(f'{found[kind]:,}' for kind in found), f'{sum(found.values()):,}'])
    print_table(['File', 'Code', 'Constants', 'Rest', 'In all'], rows)


if __name__ == '__main__':
    main()
