"""What the command does where it cannot read or write a file, and how it puts a new file in the place of an old one."""
import errno
import os
import stat
import subprocess
import unittest

from shop_tests import ROWS, ShopTest, closing, expected_list, map_of, no_longer_than, table_of

SIZES = ('--step', '5.6', '--radius', '6')
READING = {'map': ['map', '-o', 'new', *SIZES], 'picture': ['map', '-o', 'new', *SIZES, '--low', '0', '--high', '1'],
           'list': ['list', '--rounding', 'up', '-o', 'new'], 'bracket': ['bracket', '--lower', 'new'], 'show': ['show']}
WRITING = {'map': ['map', 'top.csv', *SIZES, '-o'], 'list': ['list', 'top.plt', '--rounding', 'up', '--lifted', '-o']}
BRACKETS = {'lower': ['bracket', 'top.plt', '--lower'], 'upper': ['bracket', 'top.plt', '--upper']}
MADE = {'map': map_of(ROWS), 'list': expected_list(map_of(ROWS), 'up', True)}
OLD = b'what stood there before'


def said(name, number):
    """A file's name and what the system says of an error."""
    return f'{name}: {os.strerror(number)}\n'


class Reading(ShopTest):

    def test_unreadable(self):
        """A file that is missing and a folder, for every subcommand that reads one."""
        (self.folder / 'folder').mkdir()
        for name, command in READING.items():
            with self.subTest(name):
                self.fails(2, said('missing', errno.ENOENT), *command, 'missing')
                self.fails(2, said('folder', errno.EISDIR), *command, 'folder')

    def test_long(self):
        """A file that is longer than any table is refused before it is gone through."""
        self.fails(1, 'long.csv: more than 1 MiB', *READING['map'], self.write('long.csv', '1,2,3\n' * 200000))

    def test_endless(self):
        """A file without an end is not read to the end of the memory."""
        for name in ('map', 'picture', 'list'):
            with self.subTest(name):
                self.fails(1, '/dev/zero: ', *READING[name], '/dev/zero')

    def test_standard_input(self):
        """A file of the name - is standard input, which may be closed."""
        self.done(*READING['map'], '-', given=table_of(ROWS).encode())
        self.assertEqual(self.read('new'), MADE['map'])
        self.done(*READING['list'], '-', given=map_of(ROWS))
        self.assertEqual(self.read('new'), expected_list(map_of(ROWS), 'up'))
        self.fails(2, 'standard input: ', *READING['list'], '-', stdin=subprocess.DEVNULL, preexec_fn=closing(0))


class Writing(ShopTest):

    def setUp(self):
        super().setUp()
        self.write('top.csv', table_of(ROWS))
        self.write('top.plt', map_of(ROWS))

    def test_places(self):
        """A folder that is not there, a folder itself, a file taken for a folder, and a full disk."""
        for name, command in WRITING.items():
            with self.subTest(name):
                self.fails(2, said('folder/new', errno.ENOENT), *command, 'folder/new')
                self.fails(2, said('.', errno.EISDIR), *command, '.')
                self.fails(2, said('top.csv/new', errno.ENOTDIR), *command, 'top.csv/new')
                self.fails(2, said('/dev/full', errno.ENOSPC), *command, '/dev/full')

    def test_names_of_no_file(self):
        """A name that only a folder can have, and no name at all, which is not taken for standard output."""
        self.fails(2, 'shelf/', *WRITING['list'], 'shelf/')
        for name, command in {**WRITING, **BRACKETS}.items():
            with self.subTest(name):
                self.assertNotIn('standard output', self.fails(2, 'plate', *command, ''))

    def test_disk_that_fills(self):
        """Where a file cannot grow, the old one is kept, and nothing is left beside it or in its place."""
        for name, command in {**WRITING, **BRACKETS}.items():
            with self.subTest(name):
                self.write('old', OLD)
                self.fails(2, said('old', errno.EFBIG), *command, 'old', **no_longer_than(20))
        self.fails(2, said('new', errno.EFBIG), *WRITING['list'], 'new', **no_longer_than(20))

    def test_replaced(self):
        """A new file takes the place of an old one with its permissions; one where none was has those that the umask leaves."""
        for name, command in WRITING.items():
            self.write('old', OLD)
            (self.folder / 'old').chmod(0o754)
            before = self.contents()
            self.done(*command, 'old')
            self.assertEqual(self.contents(), {**before, 'old': (stat.S_IFREG | 0o754, MADE[name])}, name)
            (self.folder / 'old').unlink()
            self.done(*command, 'old', preexec_fn=lambda: os.umask(0o027))
            self.assertEqual(self.contents()['old'], (stat.S_IFREG | 0o640, MADE[name]), name)

    def test_open_old_file(self):
        """Who reads the old file meanwhile goes on reading the old one, whole: the new one is another file."""
        self.write('old', OLD)
        with open(self.folder / 'old', 'rb') as reading:
            self.done(*WRITING['list'], 'old')
            self.assertEqual((reading.read(), self.read('old')), (OLD, MADE['list']))

    def test_links(self):
        """A symbolic link stays one, and the file that it leads to is the one written, in its own folder."""
        (self.folder / 'shelf').mkdir()
        (self.folder / 'linked').symlink_to('shelf/top.cut')
        for _ in ('new', 'old'):
            self.done(*WRITING['list'], 'linked')
            self.assertEqual(os.readlink(self.folder / 'linked'), 'shelf/top.cut')
            self.assertEqual(os.listdir(self.folder / 'shelf'), ['top.cut'])
            self.assertEqual(self.read('shelf/top.cut'), MADE['list'])

    def test_link_in_a_circle(self):
        """A link that leads to itself is told, and stays."""
        (self.folder / 'circle').symlink_to('circle')
        self.fails(2, said('circle', errno.ELOOP), *WRITING['list'], 'circle')

    def test_no_file(self):
        """What is no regular file is written to and not replaced: a pipe by its name, and standard output by both of its names."""
        for name in ('-', '/dev/stdout'):
            with self.subTest(name):
                self.assertEqual(self.done(*WRITING['list'], name), MADE['list'])
        os.mkfifo(self.folder / 'pipe')
        reading = os.open(self.folder / 'pipe', os.O_RDONLY | os.O_NONBLOCK)
        self.addCleanup(os.close, reading)
        self.done(*WRITING['list'], 'pipe')
        self.assertEqual(os.read(reading, 1000), MADE['list'])
        self.assertTrue((self.folder / 'pipe').is_fifo())

    def test_same_file(self):
        """No file is written over the one that is read, nor over the other list of a bracket, by any name of it."""
        (self.folder / 'linked').symlink_to('top.plt')
        for command in ([*WRITING['map'], 'top.csv'], [*WRITING['list'], './top.plt'], [*WRITING['list'], 'linked'],
                        ['bracket', 'top.plt', '--lower', 'new', '--upper', self.folder / 'new']):
            with self.subTest(command):
                self.fails(2, 'the same file would be read or written twice', *command)
        with open(self.folder / 'top.plt', 'rb') as given:
            self.fails(2, 'the same file', 'list', '-', '--rounding', 'up', '-o', 'top.plt', stdin=given)


if __name__ == '__main__':
    unittest.main()
