"""What the benchmarks share: programs that must be there, user time, instructions, and a table of what was found.

Time is the least user time of RUNS runs, programs by turns, so that a busy machine slows all alike. Instructions are callgrind's, where valgrind is
installed, by the difference of two lengths of run, so that start and set-up fall out; they hardly vary from run to run.
"""
import os
import pathlib
import re
import resource
import shutil
import subprocess
import sys
import tempfile

ROOT = pathlib.Path(__file__).resolve().parent.parent
RUNS = 7
COUNTS = shutil.which('valgrind') is not None


def built(program, by):
    """The program's path, or the end with how to build it."""
    if not os.access(program, os.R_OK):
        sys.exit(f'{os.path.relpath(program, ROOT)} is not there. In the repository: {by}')
    return str(program)


def run(command, given=b'', output=subprocess.PIPE):
    """Runs a command with these bytes in a file as its input."""
    with tempfile.TemporaryFile() as file:
        file.write(given)
        file.seek(0)
        done = subprocess.run(command, stdin=file, stdout=output, stderr=subprocess.PIPE)
    if done.returncode != 0:
        sys.exit(f'{command} ended with {done.returncode}: {done.stderr.decode()}')
    return done


def user_time(command, given=b''):
    """Seconds of user time."""
    before = resource.getrusage(resource.RUSAGE_CHILDREN).ru_utime
    run(command, given, subprocess.DEVNULL)
    return resource.getrusage(resource.RUSAGE_CHILDREN).ru_utime - before


def least_times(jobs):
    """The least user time of each job, a (command, input), of RUNS runs by turns."""
    times = [[user_time(*job) for job in jobs] for _ in range(RUNS)]
    return [min(column) for column in zip(*times)]


def instructions(command, given=b''):
    done = run(['valgrind', '--tool=callgrind', '--callgrind-out-file=/dev/null', *command], given)
    return int(re.search(rb'Collected : (\d+)', done.stderr).group(1))


def instructions_each(few, many, between):
    """Instructions for one of the `between` things by which two jobs differ; None where they cannot be counted."""
    return (instructions(*many) - instructions(*few)) / between if COUNTS else None


def case_costs(cases, timed, counted):
    """Name, nanoseconds and instructions of one repetition, for each case of soundness_bench, or of another build of it that the command line names.

    A case has its number, its name, and what the program must write for a number of repetitions. `timed` and `counted` are two such numbers each.
    """
    if len(sys.argv) > 2:
        sys.exit(f'usage: {sys.argv[0]} [PROGRAM]')
    program = built(sys.argv[1] if len(sys.argv) > 1 else ROOT / 'target' / 'bin' / 'soundness_bench', 'tools/build.sh soundness_bench')

    def job(case, repeats):
        return [program], f'{case} {repeats}\n'.encode()

    for case, (name, due) in cases.items():
        found = run(*job(case, counted[0])).stdout.decode().strip()
        if found != str(due(counted[0])):
            sys.exit(f'{name}: {due(counted[0])} is due, and the program writes {found}')
        few, many = least_times([job(case, repeats) for repeats in timed])
        each = instructions_each(job(case, counted[0]), job(case, counted[1]), counted[1] - counted[0])
        yield name, (many - few) / (timed[1] - timed[0]) * 1e9, each


def shown(number, unit='', digits=0):
    return '-' if number is None else f'{number:,.{digits}f}{unit}'


def print_table(head, rows):
    """A table of Markdown, its columns even."""
    lines = [head, *rows]
    widths = [max(len(line[place]) for line in lines) for place in range(len(head))]
    for place, line in enumerate(lines):
        print('| ' + ' | '.join(cell.ljust(width) for cell, width in zip(line, widths)) + ' |')
        if place == 0:
            print('|' + '|'.join('-' * (width + 2) for width in widths) + '|')
