#!/usr/bin/env python3
"""Times the soundness test on three tables.

    bench/soundness.py [PROGRAM]

PROGRAM is target/bin/soundness_bench unless named; `tools/build.sh soundness_bench` makes it. common.py says how time and instructions are taken.
"""
from common import case_costs, print_table, shown

CASES = ['idle (32 threads, 64 objects, nobody parked)', 'typical (8 threads at 3 of 16 objects)',
         'worst (31 threads queued on one of 64 objects, all in use)']
TIMED, COUNTED = (1_000, 201_000), (64, 192)


def main():
    # Every test finds its table sound.
    cases = {case: (name, lambda repeats: repeats) for case, name in enumerate(CASES)}
    rows = [[name, shown(time, ' ns'), shown(counted)] for name, time, counted in case_costs(cases, TIMED, COUNTED)]
    print_table(['Table', 'Time', 'Instructions'], rows)


if __name__ == '__main__':
    main()
