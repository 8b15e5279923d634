#!/usr/bin/env python3
"""Times the reading of a lock word, with who owns by it and how deep.

    bench/words.py [PROGRAM]

PROGRAM is target/bin/soundness_bench unless named; `tools/build.sh soundness_bench` makes it. common.py says how time and instructions are taken. What the
loop around it takes, and the adding up of what was read, is in the figures: compare two builds of the program, and nothing else.
"""
from common import case_costs, print_table, shown

# The program's cases, and the words that each reads by turns: the first, and how far apart they are.
CASES = {3: ('flat', 0x100, 4), 4: ('reserved', 0x102, 4), 5: ('fat', 0x101, 0x100), 6: ('mixed: flat, none, reserved, none', 0x100, 5)}
WORDS = 64
TIMED, COUNTED = (1_000_000, 51_000_000), (WORDS, 3 * WORDS)


def owned(word):
    """Owner and depth, added up; thread 1 holds every monitor at depth 1."""
    number, count = word >> 8, word >> 2 & 63
    if word & 1:
        return 2 if word & 0xff == 1 else 0
    if word & 2:
        return number + count if count else 0
    return number + count + 1


def summed(first, apart):
    """What the program writes for so many repetitions, each word as often as the others."""
    return lambda repeats: repeats // WORDS * sum(owned(first + turn * apart) for turn in range(WORDS))


def main():
    cases = {case: (name, summed(first, apart)) for case, (name, first, apart) in CASES.items()}
    rows = [[name, shown(time, ' ns', 2), shown(counted, digits=1)] for name, time, counted in case_costs(cases, TIMED, COUNTED)]
    print_table(['Words', 'Time', 'Instructions'], rows)


if __name__ == '__main__':
    main()
