"""What the command does where standard output is full, closed, or without a reader, and what it says of a library that is none."""
import os
import shutil
import subprocess
import unittest

from shop_tests import COMMAND, ENVIRONMENT, ROWS, ShopTest, closing, expected_list, map_of, no_longer_than, table_of

PRINTING = {'map': ['map', 'top.csv', '-o', '-', '--step', '5.6', '--radius', '6'],
            'list': ['list', 'top.plt', '--rounding', 'up', '-o', '-'], 'bracket': ['bracket', 'top.plt', '--table'],
            'show': ['show', 'top.cut'], 'number': ['number', 'root', 'up', '2'], 'raw': ['raw', 'root', '8388608']}
TELLING = {'help': ['--help'], 'help of one': ['list', '--help']}


class Output(ShopTest):

    def setUp(self):
        super().setUp()
        self.write('top.csv', table_of(ROWS))
        self.write('top.plt', map_of(ROWS))
        self.write('top.cut', expected_list(map_of(ROWS), 'up'))

    def test_full(self):
        """Standard output on a full disk."""
        for name, command in {**PRINTING, **TELLING}.items():
            with self.subTest(name), open('/dev/full', 'wb') as full:
                self.fails(2, 'standard output: No space left on device\n', *command, stdout=full)

    def test_closed(self):
        for name, command in PRINTING.items():
            with self.subTest(name):
                self.fails(2, 'standard output: ', *command, preexec_fn=closing(1))

    def test_no_reader(self):
        """A reader that has gone away is an error of writing."""
        reading, writing = os.pipe()
        os.close(reading)
        self.addCleanup(os.close, writing)
        for name, command in (*TELLING.items(), ('list', PRINTING['list']), ('show', PRINTING['show'])):
            with self.subTest(name):
                self.fails(2, 'standard output: Broken pipe\n', *command, stdout=writing)

    def test_all_closed(self):
        """With nothing open at all a list is still the list: no message gets into it."""
        self.assertEqual(self.plate('list', 'top.plt', '--rounding', 'up', '-o', 'new', preexec_fn=closing(0, 1, 2)).returncode, 0)
        self.assertEqual(self.read('new'), self.read('top.cut'))
        refused = self.plate('list', 'top.cut', '--rounding', 'up', '-o', 'new', preexec_fn=closing(0, 1, 2))
        self.assertEqual((refused.returncode, self.read('new')), (1, self.read('top.cut')))

    def test_no_errors(self):
        """A wrong command line has its status also where nobody is told."""
        self.assertEqual(self.plate('number', 'root', 'up', preexec_fn=closing(2)).returncode, 2)

    def test_name_of_no_text(self):
        """A file's name is printed as it is, byte for byte, whatever the shop's language is."""
        name = self.write(os.fsdecode(b'\xff.plt'), map_of(ROWS))
        printed = self.done('bracket', name, env={**ENVIRONMENT, 'PYTHONIOENCODING': 'utf-8:strict'})
        self.assertTrue(printed.startswith(b'\xff.plt: 3 columns'))

    def test_errors_apart(self):
        """What goes wrong is told on standard error, and standard output stays empty."""
        for command in (['show', 'top.plt'], ['list', 'missing', '--rounding', 'up', '-o', '-'], ['map', 'top.csv'], ['raw', 'root', '1']):
            run = self.plate(*command)
            self.assertEqual((run.stdout, run.stderr.count(b'Traceback')), (b'', 0))
            self.assertTrue(run.stderr)

    def test_first_start(self):
        """A disk that is full where the command starts for the first time does not spoil it for the next time."""
        installed = COMMAND.parent.parent
        shutil.copytree(installed / 'share' / 'plate', self.folder / 'share' / 'plate', ignore=shutil.ignore_patterns('__pycache__'))
        (self.folder / 'bin').mkdir()
        (self.folder / 'lib').symlink_to(installed / 'lib')
        copied = [shutil.copy(COMMAND, self.folder / 'bin'), *PRINTING['raw']]
        for limit in (no_longer_than(20)['preexec_fn'], None):
            run = subprocess.run(copied, preexec_fn=limit, env=ENVIRONMENT, capture_output=True, check=False)
            self.assertEqual((run.returncode, run.stderr), (0, b''))

    def test_no_package(self):
        """A package that is not installed is named."""
        self.write('matplotlib.py', "raise ModuleNotFoundError('no', name='matplotlib')")
        self.fails(2, 'Python has no matplotlib: install ', *PRINTING['show'], '--picture', 'top.png',
                   env={**ENVIRONMENT, 'PYTHONPATH': str(self.folder), 'PYTHONDONTWRITEBYTECODE': '1'})

    def test_library(self):
        """Another library that has not the calls is told, as one that is not there."""
        for library in ('/missing/libplate.so', 'libc.so.6', self.folder / 'top.csv'):
            with self.subTest(library):
                self.fails(2, str(library), *PRINTING['number'], env={**ENVIRONMENT, 'PLATE_LIBRARY': str(library)})


if __name__ == '__main__':
    unittest.main()
