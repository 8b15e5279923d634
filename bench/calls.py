#!/usr/bin/env python3
"""Times the calls of the library for C: a begin, a step, a refused event, a tick, an enter and exit, and a question on four tables, and several events in
one call.

    bench/calls.py [LIBRARY]

LIBRARY is target/staticlib/liblock_engine_c.a unless named; `tools/build.sh library` makes it. bench/calls.c makes the calls, each on the same
bytes; the copying that this takes is measured alone and taken off. A tick without its soundness test is one of those by which two runs of ticks
differ. common.py says how time and instructions are taken.
"""
import pathlib
import subprocess
import sys
import tempfile

from common import ROOT, built, instructions_each, least_times, print_table, shown

TABLES = {'typical': 'typical (8 threads, 7 of them at 3 of 16 objects)', 'idle': 'idle (32 threads, 64 objects)',
          'worst': 'worst (31 threads queued on one of 64 objects, all in use)', 'waiting': 'waiting (8 threads, 6 of them in timed waits at 3 of 16 objects)'}
CALLS = {'begin': 'begin', 'step': 'step', 'refused': 'refused step', 'tick': 'tick', 'pair': 'enter and exit, all calls', 'question': 'question'}
EVENTS_OF_CALL = [1, 8, 64]
TIMED, COUNTED = (1_000, 101_000), (100, 300)


def compiled(folder, library):
    program = f'{folder}/calls'
    subprocess.run(['gcc', '-O2', '-I', ROOT / 'include', ROOT / 'bench' / 'calls.c', library, '-o', program], check=True)
    return program


def costs(program, table, cases):
    """Seconds and instructions of one call for each (call, events) of the cases, with what the copying costs taken off."""
    def jobs(repeats):
        return [([program, table, call, str(events), str(repeats)],) for call, events in [('none', 1), *cases]]

    few, many = (least_times(jobs(repeats)) for repeats in TIMED)
    times = [(more - less) / (TIMED[1] - TIMED[0]) for less, more in zip(few, many)]
    counts = [instructions_each(less, more, COUNTED[1] - COUNTED[0]) for less, more in zip(jobs(COUNTED[0]), jobs(COUNTED[1]))]
    return [(time - times[0], None if count is None else count - counts[0]) for time, count in zip(times[1:], counts[1:])]


def tick_alone(found):
    """Time and instructions of one tick, by the difference of two runs of ticks."""
    (few_time, few_count), (many_time, many_count) = found
    between = EVENTS_OF_CALL[2] - EVENTS_OF_CALL[1]
    return shown((many_time - few_time) / between * 1e9, ' ns'), shown(many_count and (many_count - few_count) / between)


def main():
    if len(sys.argv) > 2:
        sys.exit('usage: bench/calls.py [LIBRARY]')
    library = built(sys.argv[1] if len(sys.argv) > 1 else ROOT / 'target' / 'staticlib' / 'liblock_engine_c.a', 'tools/build.sh library')
    with tempfile.TemporaryDirectory() as folder:
        program = compiled(folder, pathlib.Path(library))
        calls, several, ticks = [], [], []
        for table, name in TABLES.items():
            for call, (time, count) in zip(CALLS.values(), costs(program, table, [(call, 1) for call in CALLS])):
                calls.append([name, call, shown(time * 1e9, ' ns'), shown(count)])
            ticks.append([name, *tick_alone(costs(program, table, [('ticks', events) for events in EVENTS_OF_CALL[1:]]))])
        for events, (time, count) in zip(EVENTS_OF_CALL, costs(program, 'typical', [('run', events) for events in EVENTS_OF_CALL])):
            several.append([str(events), *(shown(time / part * 1e9, ' ns') for part in (1, events)),
                            *(shown(count and count / part) for part in (1, events))])
    print_table(['Table', 'Call', 'Time', 'Instructions'], calls)
    print()
    print_table(['Events in one call', 'Time', 'for each', 'Instructions', 'for each'], several)
    print()
    print_table(['Table', 'A tick without the test', 'Instructions'], ticks)


if __name__ == '__main__':
    main()
