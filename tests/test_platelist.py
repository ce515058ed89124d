#!/usr/bin/env python3
"""Runs build/bin/platelist on many maps and compares what it prints, the lifted list rounded to nearest, with the reference.

usage: test_platelist.py      after `make`

The maps are the frames of crates/list_vectors/stdin, whatever their fate, and inputs around the longest map's length. Then what the
proof says nothing of: input that comes in pieces, the text written at once, and input or output that fails.
"""
import os
import pathlib
import socket
import subprocess
import sys

ROOT = pathlib.Path(__file__).resolve().parent.parent
PROGRAM = ROOT / 'build' / 'bin' / 'platelist'
sys.path.insert(0, str(ROOT / 'tests' / 'reference'))
import plate  # noqa: E402
from frames import frames  # noqa: E402


def in_pieces(given, size):
    """What the program prints where its input comes in pieces of `size` bytes, each its own write into a pipe."""
    with subprocess.Popen([PROGRAM], stdin=subprocess.PIPE, stdout=subprocess.PIPE, bufsize=0) as run:
        for at in range(0, len(given), size):
            run.stdin.write(given[at:at + size])
        run.stdin.close()
        return run.stdout.read()


def writes(given):
    """The pieces in which the program writes, by a socket that keeps each write apart."""
    ours, its = socket.socketpair(socket.AF_UNIX, socket.SOCK_SEQPACKET)
    with ours:
        with its:
            subprocess.run([PROGRAM], input=given, stdout=its, check=True)
        return list(iter(lambda: ours.recv(1 << 20), b''))


def failed(stdin, stdout):
    """What the program prints if its input or its output fails, what it says on standard error, and its exit status."""
    run = subprocess.run([PROGRAM], stdin=stdin, stdout=stdout, stderr=subprocess.PIPE)
    return run.stdout, run.stderr, run.returncode


def main():
    maps = list(frames())
    longest = next(m for m in maps if len(m) == 16400 and not plate.platelist(m).startswith(b'refused'))
    maps += [b'', longest + b'\0', longest[:-1], b'\0' + longest, b'\0' * 16400, b'\0' * 16401, b'\0' * 70000]
    wrong = []
    for number, given in enumerate(maps):
        printed = subprocess.run([PROGRAM], input=given, stdout=subprocess.PIPE, check=True).stdout
        if printed != plate.platelist(given):
            wrong.append(f'map {number}, {len(given)} bytes: platelist prints {printed[:60]!r}')
    for size in (1000, 4096, 16399):
        if in_pieces(longest, size) != plate.platelist(longest):
            wrong.append(f'input in pieces of {size} bytes')
    for given in (longest, b''):
        if writes(given) != [plate.platelist(given)]:
            wrong.append(f'{len(given)} bytes: the text is not written at once')
    with open('/dev/full', 'wb') as full, open(ROOT / 'samples' / 'example.plt', 'rb') as sample:
        if failed(sample, full) != (None, b'platelist: standard output: No space left on device\n', 1):
            wrong.append('a full device')
    folder = os.open(ROOT, os.O_RDONLY)
    if failed(folder, subprocess.PIPE) != (b'', b'platelist: standard input: Is a directory\n', 1):
        wrong.append('a folder as input')
    os.close(folder)
    for line in wrong:
        print(line)
    print(f'platelist: {len(maps)} maps and 7 ways to run it, {len(wrong)} wrong')
    return 1 if wrong else 0


sys.exit(main())
