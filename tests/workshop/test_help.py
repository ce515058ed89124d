"""The help, the manual pages and the version agree, and a wrong command line is told."""
import re
import subprocess
import unittest

from shop_tests import COMMAND, HEADER, ShopTest

COMMANDS = ['map', 'list', 'bracket', 'show', 'number', 'raw']
PAGES = COMMAND.parent.parent / 'share' / 'man' / 'man1'
OPTION = r'(?<![\w-])--?[a-z][a-z0-9-]*'


def manual():
    """The page of the command, without what groff alone reads."""
    text = (PAGES / 'plate.1').read_text(encoding='utf-8').replace(r'\-', '-')
    return re.sub(r'"|\\f[BIR]', '', text)


def synopsis(command):
    """The options in the line of the synopsis for a subcommand."""
    lines = re.split(r'^\.br$', manual().partition('.SH SYNOPSIS')[2].partition('.SH ')[0], flags=re.M)
    line, = (line for line in lines if re.search(rf'plate {command}\b', line))
    return set(re.findall(OPTION, line))


class Help(ShopTest):

    def options(self, *command):
        """The options that the help of a subcommand lists, each of which stands at the front of a line."""
        printed = self.done(*command, '--help').decode()
        return {option for line in re.findall(r'^  (-\S.*?)(?:  |$)', printed, re.M) for option in re.findall(OPTION, line)}

    def test_commands(self):
        """The help names each subcommand, and so does the manual page, with an example of use."""
        printed = self.done('--help').decode()
        self.assertEqual(re.findall(r'^    ([a-z]+) ', printed, re.M), COMMANDS)
        for command in COMMANDS:
            self.assertRegex(manual(), rf'(?m)^\.B plate {command}$')
            self.assertRegex(manual(), rf'(?m)^\.TP\n\.B {command}$')

    def test_options(self):
        """Each option of each help stands in the manual page; the synopsis has just those of its subcommand."""
        for command in COMMANDS:
            with self.subTest(command):
                listed = self.options(command)
                self.assertLess({'-h', '--help'}, listed)
                self.assertEqual(synopsis(command), listed - {'-h', '--help'})
        self.assertEqual(self.options(), {'-h', '--help', '--version'})

    def test_own_options(self):
        """The manual page tells of the help and of the version."""
        for option in self.options():
            with self.subTest(option):
                self.assertIn(option, re.findall(OPTION, manual()))

    def test_statuses(self):
        """The manual page and the help tell the three exit statuses."""
        page = manual().partition('.SH EXIT STATUS')[2].partition('.SH ')[0]
        self.assertEqual(re.findall(r'^\.B (\d)$', page, re.M), ['0', '1', '2'])
        self.assertRegex(self.done('--help').decode(), r'exit status is 0, or 1 [\s\S]* or 2 ')

    def test_pages(self):
        """groff takes both pages without a word, and the version stands in them."""
        version = re.search(r'#define PLATE_VERSION "(.*)"', HEADER)[1]
        for page in ('plate.1', 'platelist.1'):
            with self.subTest(page):
                run = subprocess.run(['groff', '-man', '-ww', '-z', PAGES / page], capture_output=True, check=False)
                self.assertEqual((run.returncode, run.stdout, run.stderr), (0, b'', b''))
                self.assertIn(f'plate {version}', (PAGES / page).read_text(encoding='utf-8').split('\n')[0])
        self.assertEqual(self.done('--version').decode(), f'plate {version}\n')

    def test_wrong_command_lines(self):
        """No subcommand, one that is none, and an option that is none."""
        for words in ([], ['lists'], ['bracket'], ['bracket', 'top.plt', '--lifted']):
            with self.subTest(words):
                self.fails(2, 'usage: ', *words)


if __name__ == '__main__':
    unittest.main()
