"""What the tests of the command plate(1) share: running it in a folder of its own, maps from rows, and the sentences of the header.

The command is the one that the environment variable PLATE names, else build/bin/plate. What is expected comes from the header, from the
reference program, and from what is written here, never from the command.
"""
import os
import pathlib
import re
import resource
import shutil
import struct
import subprocess
import sys
import tempfile
import unittest

ROOT = pathlib.Path(__file__).resolve().parent.parent.parent
COMMAND = pathlib.Path(os.environ.get('PLATE') or ROOT / 'build' / 'bin' / 'plate').resolve()
HEADER = (ROOT / 'include' / 'plate.h').read_text(encoding='utf-8')
SAMPLES = ROOT / 'samples'
# As a shop has it: nothing that tells Python to write at once, or to keep nothing compiled
ENVIRONMENT = {name: value for name, value in os.environ.items() if not name.startswith(('PYTHON', 'PLATE'))}
sys.path[:0] = [str(ROOT / 'tests'), str(ROOT / 'tests' / 'reference')]
import plate  # noqa: E402
from frames import frames  # noqa: E402

ROUNDINGS = {'nearest': plate.NEAREST, 'up': plate.UP, 'down': plate.DOWN, 'zero': plate.TOWARD_ZERO}
OPERATIONS = {'reciprocal': plate.RECIPROCAL, 'root': plate.ROOT, 'inverse-root': plate.INVERSE_ROOT}
ROWS = [[4000, 4100, 4300], [4250, 3900, 4000], [5000, 4444, -1234]]


def sentences():
    """The sentence of each refusal number, as the header has it."""
    numbers = dict(re.findall(r'#define (PLATE_REFUSED_\w+) (\d+)', HEADER))
    words = dict(re.findall(r'case (PLATE_REFUSED_\w+):\s+return "([^"]+)";', HEADER))
    return {int(number): words[name] for name, number in numbers.items()}


def refusal_words(number):
    """What the command says of a refusal: its number and its sentence."""
    return f'{number}: {sentences()[number]}\n'


def map_of(rows, step=5600, radius=6000):
    """A map's bytes, of rows of heights, all in micrometres."""
    heights = [height for row in rows for height in row]
    end = struct.pack('<4sI4H', b'PLT1', 4 * len(heights), len(rows[0]), len(rows), step, radius)
    return struct.pack(f'<{len(heights)}i', *heights) + end


def table_of(rows):
    """The same heights as a table in millimetres, with commas between them."""
    return ''.join(','.join(f'{height / 1000:.3f}' for height in row) + '\n' for row in rows)


def refusal_of(some_map):
    """The number with which the list calls refuse a map, 0 where they take it."""
    return plate.list_refusal(plate.NEAREST, some_map, plate.LONGEST_LIST)


def some_maps(count, first=0):
    """This many accepted maps from all over the vectors, from the first on, and the longest one."""
    good = [m for m in frames() if not refusal_of(m)]
    return good[first::len(good) // (count - 1)][:count - 1] + [max(good, key=len)]


def refused_maps():
    """Maps of the vectors that are refused, one of each number, then two that are cut off and one that is longer than any."""
    chosen = {refusal_of(some_map): some_map for some_map in frames() if refusal_of(some_map)}
    sound = map_of(ROWS)
    others = sound[:-1], sound[4:], bytes(4) + some_maps(2)[-1]
    return [*chosen.items(), *((refusal_of(some_map), some_map) for some_map in others)]


def expected_list(some_map, rounding, lifted=False):
    """The reference's list of an accepted map, in a rounding named as the command names it."""
    return plate.whole_list(ROUNDINGS[rounding], some_map, plate.lifted_centres if lifted else plate.centres)


def counts(line):
    """The whole numbers of a line, which may have commas between thousands."""
    return [int(number.replace(',', '')) for number in re.findall(r'\d[\d,]*', line)]


def closing(*streams):
    """For preexec_fn: the command starts with these file descriptors closed."""
    return lambda: [os.close(stream) for stream in streams]


def no_longer_than(length):
    """How to run the command where no file can grow beyond this many bytes. Python keeps nothing compiled then: it would be cut off."""
    return {'preexec_fn': lambda: resource.setrlimit(resource.RLIMIT_FSIZE, (length, length)),
            'env': {**ENVIRONMENT, 'PYTHONDONTWRITEBYTECODE': '1'}}


class ShopTest(unittest.TestCase):
    """A test with a folder of its own, in which it runs the command."""

    def setUp(self):
        self.folder = pathlib.Path(tempfile.mkdtemp(prefix='workshop'))
        self.addCleanup(shutil.rmtree, self.folder)

    def write(self, name, content):
        """Puts a file into the folder, and gives its name."""
        (self.folder / name).write_bytes(content.encode() if isinstance(content, str) else content)
        return name

    def read(self, name):
        return (self.folder / name).read_bytes()

    def contents(self):
        """Everything in the folder: each name with its kind, its permissions and its bytes."""
        return {path.name: (path.lstat().st_mode, path.read_bytes() if path.is_file() else None) for path in self.folder.iterdir()}

    def plate(self, *arguments, given=b'', **how):
        """Runs the command in the folder, `given` on its standard input, unless `how` says otherwise."""
        if 'stdin' not in how:
            how['input'] = given
        how = {'stdout': subprocess.PIPE, 'stderr': subprocess.PIPE, 'timeout': 60, 'env': ENVIRONMENT, **how}
        return subprocess.run([COMMAND, *map(str, arguments)], cwd=self.folder, check=False, **how)

    def done(self, *arguments, **how):
        """The bytes that the command prints where it must do what it is asked."""
        run = self.plate(*arguments, **how)
        message = run.stderr.decode()
        self.assertEqual(run.returncode, 0, message)
        self.assertNotRegex(message, 'Traceback|Warning')
        return run.stdout

    def fails(self, status, words, *arguments, **how):
        """The command exits with this status and these words in a message without a traceback, and the folder stays as it is."""
        before = self.contents()
        run = self.plate(*arguments, **how)
        message = run.stderr.decode()
        self.assertEqual(run.returncode, status, message)
        self.assertIn(words, message)
        self.assertNotIn('Traceback', message)
        self.assertEqual(self.contents(), before)
        return message
