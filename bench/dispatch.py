#!/usr/bin/env python3
"""Times an event, a begin or a step, of the library's dispatcher against the same event in a call of duskclamp_run.

    bench/dispatch.py [LIBRARY]

LIBRARY is target/staticlib/liblock_engine_c.a unless named; `tools/build.sh library` makes it. bench/dispatch.c makes the calls: scripts of threads
that contend, and the events of that run, as its trace tells of them. What an event costs is the difference of two lengths of script, so that reading,
testing and writing the table fall out. Above MOST times the run's at the first of QUANTA, by instructions or, where they cannot be counted, by
time, the program ends with status 1. common.py says how time and instructions are taken.
"""
import pathlib
import subprocess
import sys
import tempfile

from common import ROOT, built, instructions_each, least_times, print_table, run, shown

SIZES = [(8, 16), (3, 2)]
QUANTA = [10, 1]
CALLS = ['dispatch', 'run']
LENGTHS = (400, 2000)
TIMED, COUNTED = (5, 105), (1, 3)
MOST = 1.2


def compiled(folder, library):
    program = f'{folder}/dispatch'
    subprocess.run(['gcc', '-O2', '-I', ROOT / 'include', ROOT / 'bench' / 'dispatch.c', library, '-o', program], check=True)
    return program


def costs(program, threads, objects, quantum):
    """Events of the longer run, then seconds and instructions of one event for each of CALLS."""
    def job(call, length, repeats):
        return ([program, *map(str, (threads, objects, quantum, length)), call, str(repeats)],)

    events = [int(run(*job('run', length, 0)).stdout) for length in LENGTHS]
    between = events[1] - events[0]
    times = least_times([job(call, length, repeats) for call in CALLS for length in LENGTHS for repeats in TIMED])
    found = []
    for call in CALLS:
        (few, many), (few_long, many_long) = (times[:2], times[2:4])
        times = times[4:]
        seconds = ((many_long - few_long) - (many - few)) / (TIMED[1] - TIMED[0]) / between
        counts = [instructions_each(*(job(call, length, repeats) for repeats in COUNTED), COUNTED[1] - COUNTED[0]) for length in LENGTHS]
        found.append((seconds, None if counts[0] is None else (counts[1] - counts[0]) / between))
    return events[1], found


def row(program, threads, objects, quantum):
    """A row of the table, and how many times the run's the dispatcher's event costs."""
    events, ((time, count), (run_time, run_count)) = costs(program, threads, objects, quantum)
    ratio = time / run_time if count is None else count / run_count
    cells = [f'{threads} threads, {objects} objects', str(quantum), shown(events), shown(time * 1e9, ' ns'), shown(run_time * 1e9, ' ns'),
             f'{time / run_time:.2f}', shown(count), shown(run_count), '-' if count is None else f'{ratio:.2f}']
    return cells, ratio


def main():
    if len(sys.argv) > 2:
        sys.exit('usage: bench/dispatch.py [LIBRARY]')
    library = built(sys.argv[1] if len(sys.argv) > 1 else ROOT / 'target' / 'staticlib' / 'liblock_engine_c.a', 'tools/build.sh library')
    rows, most = [], 0
    with tempfile.TemporaryDirectory() as folder:
        program = compiled(folder, pathlib.Path(library))
        for threads, objects in SIZES:
            for quantum in QUANTA:
                cells, ratio = row(program, threads, objects, quantum)
                rows.append(cells)
                most = max(most, ratio if quantum == QUANTA[0] else 0)
    print_table(['Table', 'Steps a turn', 'Events', 'Dispatcher', 'Run', 'Times', 'Instructions', 'Run', 'Times'], rows)
    sys.exit(most > MOST)


if __name__ == '__main__':
    main()
