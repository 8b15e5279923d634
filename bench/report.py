#!/usr/bin/env python3
"""Holds the report against the replay of the same lines: one header and as many lines as a run may hold.

    bench/report.py

The lines are a schedule of make_schedule's, in which all threads collide over one object; ticks, which touch every object; and malformed lines, which
change nothing. Printed are instructions of the whole run by line, and the report's as a multiple of the replay's. Above MOST for any of them the program
ends with status 1. It needs valgrind.
"""
import sys

from common import COUNTS, ROOT, built, instructions, print_table, run, shown

LINES = 60_000
MOST = 1.1
SIZES = [(8, 16), (32, 64)]
CARGO = 'CARGO_TARGET_DIR=target/cargo cargo build --offline --release --manifest-path tests/reference/Cargo.toml'


def inputs(make_schedule):
    """Names and inputs; make_schedule adds a last step for each thread."""
    for threads, objects in SIZES:
        header = f'L {threads} {objects} 0\n'.encode()
        size = f'{threads} threads, {objects} objects'
        yield f'a schedule, {size}', run([make_schedule, str(LINES - threads), str(threads), str(objects)]).stdout
        yield f'ticks, {size}', header + b'C\n' * LINES
        yield f'malformed, {size}', header + b'x\n' * LINES


def main():
    if len(sys.argv) > 1 or not COUNTS:
        sys.exit('usage: bench/report.py, with valgrind installed')
    programs = [built(ROOT / 'target' / 'bin' / name, f'tools/build.sh {name}') for name in ('replay', 'report')]
    make_schedule = built(ROOT / 'target' / 'cargo' / 'release' / 'make_schedule', CARGO)
    rows, most = [], 0
    for name, given in inputs(make_schedule):
        if run([programs[1]], given).stdout == b'24\n':
            sys.exit(f'{name}: more lines than a run may hold')
        replay, report = (instructions([program], given) / LINES for program in programs)
        rows.append([name, shown(replay), shown(report), f'{report / replay:.2f}'])
        most = max(most, report / replay)
    print_table(['Lines', 'Replay, instructions a line', 'Report', 'Times the replay'], rows)
    sys.exit(most > MOST)


if __name__ == '__main__':
    main()
