#!/usr/bin/env python3
"""Times two builds of platelist on one map, in turns, each run a process of its own with its output in a file.

usage: programs.py FIRST SECOND [MAP]      MAP: by default the first accepted map of 16,400 bytes of crates/list_vectors/stdin

Prints the least and the middle time of each, and the ratio of SECOND to FIRST. Both must print the same.
"""
import os
import pathlib
import statistics
import sys
import tempfile
import time

ROOT = pathlib.Path(__file__).resolve().parent.parent
ROUNDS = 500


def largest():
    data = (ROOT / 'crates' / 'list_vectors' / 'stdin').read_bytes()
    at = 0
    while at < len(data):
        length = int.from_bytes(data[at:at + 4], 'little')
        room = int.from_bytes(data[at + 4:at + 8], 'little')
        if length == 16400 and room >= 46146:
            return data[at + 8:at + 8 + length]
        at += 8 + length
    sys.exit('no map of 16,400 bytes')


def run(program, given, out):
    """The time of one run, in seconds."""
    files = [(os.POSIX_SPAWN_OPEN, 0, given, os.O_RDONLY, 0), (os.POSIX_SPAWN_OPEN, 1, out, os.O_WRONLY | os.O_CREAT | os.O_TRUNC, 0o600)]
    start = time.perf_counter()
    child = os.posix_spawn(program, [program], os.environ, file_actions=files)
    os.waitpid(child, 0)
    return time.perf_counter() - start


def main():
    programs = sys.argv[1:3]
    with tempfile.TemporaryDirectory() as folder:
        given = os.path.join(folder, 'map')
        pathlib.Path(given).write_bytes(pathlib.Path(sys.argv[3]).read_bytes() if len(sys.argv) > 3 else largest())
        outs = [os.path.join(folder, name) for name in ('first', 'second')]
        times = [[], []]
        for _ in range(ROUNDS):
            for program, out, kept in zip(programs, outs, times):
                kept.append(run(program, given, out))
        texts = [pathlib.Path(out).read_bytes() for out in outs]
    if texts[0] != texts[1]:
        sys.exit('the two print different texts')
    for program, kept in zip(programs, times):
        print(f'{min(kept) * 1e3:.2f} ms least, {statistics.median(kept) * 1e3:.2f} ms in the middle of {ROUNDS}  {program}')
    print(f'ratio {min(times[1]) / min(times[0]):.3f} least, {statistics.median(times[1]) / statistics.median(times[0]):.3f} in the middle; {len(texts[0])} bytes')


main()
