#!/usr/bin/env python3
"""Runs a program on pipes that a shell cannot make, and prints what it did, a case to a line.

    tests/pipes.py replay|report PROGRAM

bad_input.sh compares the lines with those it expects.
"""
import fcntl
import os
import subprocess
import sys
import threading
import time

TIME_LIMIT = 20
EVENTS = 100_000
# What ends a run before the end of its input, in one write, and what the program prints of PIECES.
EARLY = {'replay': b'x\n', 'report': b'\n' * 60_001}
PIECES = (b'L 1 1', b' 0\nE 1 1\n', b'S 1\nX', b' 1 1\nS 1\n')
ANSWERS = {'replay': b'0 1 0 000000 00000000\n1 0 0 000100 00000000\n0 1 0 000100 00000000\n0 9 0 000000 00000000\n',
           'report': b'1 0 0 1 0 0 0 0 10000 0 0 0 0 0 0 0\n0 0 0 1 0 0 0 0 10000 0 0 0 0 0 0 0\n'}


def nonblocking(descriptor):
    fcntl.fcntl(descriptor, fcntl.F_SETFL, fcntl.fcntl(descriptor, fcntl.F_GETFL) | os.O_NONBLOCK)


def start(program, stdin, stdout):
    return subprocess.Popen([program], stdin=stdin, stdout=stdout, stderr=subprocess.DEVNULL)


def ending(child):
    """The exit status, which says how the run ended."""
    try:
        return child.wait(TIME_LIMIT)
    except subprocess.TimeoutExpired:
        child.kill()
        return 'does not end'


def early_then_silence(program, early):
    """What ends the run, on an input that stays open, as at a terminal: it ends and does not wait for more."""
    reader, writer = os.pipe()
    child = start(program, reader, subprocess.PIPE)
    os.close(reader)
    os.write(writer, early)
    result = ending(child)
    return f'{child.stdout.read().decode().strip()} {result}'


def no_input_yet(program):
    """A non-blocking input with nothing in it yet is a read that fails, and not the end of the input."""
    reader, _writer = os.pipe()
    nonblocking(reader)
    child = start(program, reader, subprocess.PIPE)
    result = ending(child)
    return f'{child.stdout.read().decode()}{result}'


def in_pieces(program, answers):
    """An input that comes in pieces, cut inside a line and at its end: what has not come yet is not the end of the input."""
    child = start(program, subprocess.PIPE, subprocess.PIPE)
    for piece in PIECES:
        child.stdin.write(piece)
        child.stdin.flush()
        time.sleep(0.2)
    child.stdin.close()
    result = ending(child)
    return f'{"all" if child.stdout.read() == answers else "other answers"} {result}'


def full_output(program):
    """A non-blocking output that is full before anything is written: the run has failed."""
    _reader, writer = os.pipe()
    nonblocking(writer)
    try:
        while True:
            os.write(writer, b' ' * (1 << 12))
    except BlockingIOError:
        pass
    child = start(program, subprocess.PIPE, writer)
    try:
        child.stdin.write(b''.join(PIECES))
        child.stdin.close()
    except BrokenPipeError:
        pass
    return ending(child)


def slow_reader(program):
    """A non-blocking output that fills up, and is read while the input goes on: a start of the answers is written, and the run has failed."""
    answers = b'0 1 0 000000 00000000\n' + b'14\n' * (2 * EVENTS - 1)
    reader, writer = os.pipe()
    nonblocking(writer)
    child = start(program, subprocess.PIPE, writer)
    os.close(writer)

    def feed():
        try:
            child.stdin.write(b'L 1 1 0\n' + b'E 1 1\n' * EVENTS)
            child.stdin.flush()
            time.sleep(1)
            child.stdin.write(b'E 1 1\n' * EVENTS)
            child.stdin.close()
        except BrokenPipeError:
            pass

    feeding = threading.Thread(target=feed)
    feeding.start()
    time.sleep(0.5)
    output = b''
    while piece := os.read(reader, 1 << 16):
        output += piece
    feeding.join()
    result = ending(child)
    shape = 'all' if output == answers else 'a start' if answers.startswith(output) else 'holes'
    return f'{shape} {result}'


def main(name, program):
    print(early_then_silence(program, EARLY[name]), flush=True)
    print(no_input_yet(program), flush=True)
    print(in_pieces(program, ANSWERS[name]), flush=True)
    print(full_output(program), flush=True)
    # No report is long enough to fill a pipe.
    if name == 'replay':
        print(slow_reader(program), flush=True)


if len(sys.argv) != 3 or sys.argv[1] not in ANSWERS:
    sys.exit(__doc__)
if not os.access(sys.argv[2], os.X_OK):
    sys.exit(f'pipes: {sys.argv[2]} is no program: tools/build.sh {sys.argv[1]} builds target/bin/{sys.argv[1]}')
main(*sys.argv[1:])
