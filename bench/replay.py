#!/usr/bin/env python3
"""Replays one long schedule with the proved program and with the second program in Rust, with and without its test of soundness.

    bench/replay.py [EVENTS]

Document 01 asks for the test at every event. The second program does just that. The proved one tests once for each part of the input, since no event
changes whether a table is sound; so what it is fairly held against is a program without the test: `reference_replay_untested`, made for this alone.
The schedule is make_schedule's: all threads collide over one object. Printed for each line of it are user time, and instructions of the part between
its first COUNTED[0] and COUNTED[1] lines; common.py says how they are taken.
"""
import sys

from common import ROOT, built, instructions_each, least_times, print_table, run, shown

SIZES = [(8, 16), (8, 3), (32, 64)]
COUNTED = (10_000, 40_000)
CARGO = 'CARGO_TARGET_DIR=target/cargo cargo build --offline --release --manifest-path tests/reference/Cargo.toml'
RELEASE = ROOT / 'target' / 'cargo' / 'release'
PROGRAMS = {'proved': (ROOT / 'target' / 'bin' / 'replay', 'tools/build.sh replay'),
            'Rust, untested': (RELEASE / 'reference_replay_untested', CARGO + ' --features untested --bin reference_replay_untested'),
            'Rust, tested': (RELEASE / 'reference_replay', CARGO)}


def first_lines(schedule, number):
    return b''.join(schedule.splitlines(keepends=True)[:number])


def rows_of(programs, schedule, size):
    """A row for each program: time and instructions by line, and its time as a multiple of the untested program's."""
    lines = schedule.count(b'\n')
    times = least_times([([program], schedule) for program in programs.values()])
    untested = times[list(programs).index('Rust, untested')]
    if not untested:
        sys.exit(f'{lines} lines take no time that can be measured: name more EVENTS')
    few, many = (first_lines(schedule, number) for number in COUNTED)
    for (name, program), time in zip(programs.items(), times):
        counted = instructions_each(([program], few), ([program], many), COUNTED[1] - COUNTED[0])
        yield [size, name, shown(time / lines * 1e9, ' ns'), shown(counted), f'{time / untested:.2f}']


def main():
    if len(sys.argv) > 2 or not all(word.isdecimal() for word in sys.argv[1:]):
        sys.exit('usage: bench/replay.py [EVENTS]')
    events = sys.argv[1] if len(sys.argv) > 1 else '4000000'
    programs = {name: built(*place) for name, place in PROGRAMS.items()}
    make_schedule = built(RELEASE / 'make_schedule', CARGO)
    rows = []
    for threads, objects in SIZES:
        schedule = run([make_schedule, events, str(threads), str(objects)]).stdout
        if schedule.count(b'\n') < COUNTED[1]:
            sys.exit(f'too few lines: name at least {COUNTED[1]} EVENTS')
        outputs = {run([program], schedule).stdout for program in programs.values()}
        if len(outputs) != 1:
            sys.exit(f'the programs print different answers with {threads} threads and {objects} objects')
        rows += rows_of(programs, schedule, f'{threads} threads, {objects} objects')
    print_table(['Table', 'Program', 'Time a line', 'Instructions a line', 'Times the untested'], rows)


if __name__ == '__main__':
    main()
