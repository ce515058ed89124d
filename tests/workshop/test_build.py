"""What `make install` puts where, the version that is said in one place, and what ./run says where it cannot prove."""
import os
import pathlib
import re
import shutil
import subprocess
import sys
import tempfile
import unittest

ROOT = pathlib.Path(__file__).resolve().parent.parent.parent
VERSION = re.search(r'#define PLATE_VERSION "(.*)"', (ROOT / 'include' / 'plate.h').read_text(encoding='utf-8'))[1]
sys.path.insert(0, str(ROOT / 'tests' / 'reference'))
import plate  # noqa: E402

PROGRAM = '''#include <plate.h>
int main(void) { return plate_refusal(plate_raw(0, 0, 0)) != PLATE_REFUSED_OPERATION; }
'''


def printed(*command, **options):
    return subprocess.run(command, stdout=subprocess.PIPE, check=True, text=True, **options).stdout


class Installed(unittest.TestCase):
    """Below a DESTDIR, as a packager does it."""

    @classmethod
    def setUpClass(cls):
        folder = tempfile.TemporaryDirectory()
        cls.addClassCleanup(folder.cleanup)
        cls.folder = pathlib.Path(folder.name)
        cls.usr = cls.folder / 'usr'
        subprocess.run(['make', '-s', 'install', f'DESTDIR={folder.name}', 'PREFIX=/usr'], cwd=ROOT, check=True)

    def test_command(self):
        """The command finds its modules and the library beside it, from any folder and through a link."""
        os.symlink(self.usr / 'bin' / 'plate', self.folder / 'linked')
        for command in (self.usr / 'bin' / 'plate', self.folder / 'linked'):
            self.assertEqual(printed(command, '--version', cwd='/'), f'plate {VERSION}\n')
            self.assertIn('0x3F800000', printed(command, 'number', 'root', 'up', '1', cwd='/'))

    def test_no_library(self):
        """A library that is not there is told by its name."""
        command = [self.usr / 'bin' / 'plate', 'number', 'root', 'up', '1']
        run = subprocess.run(command, env=dict(os.environ, PLATE_LIBRARY='/nowhere/libplate.so'), capture_output=True, text=True)
        self.assertEqual((run.returncode, run.stdout), (2, ''))
        self.assertIn('/nowhere/libplate.so', run.stderr)

    def test_platelist(self):
        sample = (ROOT / 'samples' / 'top.plt').read_bytes()
        made = subprocess.run([self.usr / 'bin' / 'platelist'], input=sample, stdout=subprocess.PIPE, check=True).stdout
        self.assertEqual(made, plate.platelist(sample))

    def test_library(self):
        """A program is linked with the shared library by what pkg-config says, and runs."""
        environment = dict(os.environ, PKG_CONFIG_PATH=str(self.usr / 'lib' / 'pkgconfig'), LD_LIBRARY_PATH=str(self.usr / 'lib'))
        self.assertEqual(printed('pkg-config', '--modversion', 'plate', env=environment), f'{VERSION}\n')
        flags = printed('pkg-config', '--cflags', '--libs', 'plate', env=environment).split()
        source, program = self.folder / 'program.c', self.folder / 'program'
        source.write_text(PROGRAM, encoding='ascii')
        subprocess.run(['cc', source, *flags, '-o', program], check=True)
        subprocess.run([program], env=environment, check=True)
        self.assertIn(f'[libplate.so.{VERSION.split(".")[0]}]', printed('readelf', '-d', program))

    def test_exports(self):
        """The shared library has the calls that the header declares, and nothing else."""
        names = {line.split()[-1] for line in printed('nm', '-D', '--defined-only', self.usr / 'lib' / 'libplate.so').splitlines()}
        header = (self.usr / 'include' / 'plate.h').read_text(encoding='utf-8')
        self.assertEqual(names, set(re.findall(r'^(?!static)\w[^(\n]* (plate_\w+)\(', header, re.M)))

    def test_uninstall(self):
        with tempfile.TemporaryDirectory() as folder:
            for target in ('install', 'uninstall'):
                subprocess.run(['make', '-s', target, f'DESTDIR={folder}'], cwd=ROOT, check=True)
            self.assertEqual([str(path) for path in pathlib.Path(folder).rglob('*') if not path.is_dir()], [])


class Version(unittest.TestCase):
    """The header's version is that of the newest entry of the changes, and of the Rust package."""

    def test_changes(self):
        self.assertEqual(re.search(r'^## (\S+)', (ROOT / 'CHANGELOG.md').read_text(encoding='utf-8'), re.M)[1], VERSION)

    def test_rust(self):
        self.assertIn(f'\nversion = "{VERSION}"\n', (ROOT / 'rust' / 'Cargo.toml').read_text(encoding='utf-8'))


class Run(unittest.TestCase):
    """./run with a kit that is not there, one that fails, and one of another number."""

    def run_with(self, script):
        with tempfile.TemporaryDirectory() as folder:
            for name in ('sh', 'cat', 'dirname', 'mktemp', 'rm'):
                os.symlink(shutil.which(name), f'{folder}/{name}')
            if script:
                kit = pathlib.Path(folder, 'rt')
                kit.write_text(f'#!/bin/sh\n{script}\n', encoding='ascii')
                kit.chmod(0o755)
            return subprocess.run([ROOT / 'run'], env=dict(os.environ, PATH=folder), capture_output=True, text=True)

    def test_no_kit(self):
        run = self.run_with(None)
        self.assertEqual((run.returncode, run.stdout), (2, ''))
        self.assertIn('This needs the Rattle kit', run.stderr)
        self.assertIn('tests/reference/plate.py', run.stderr)

    def test_proof_fails(self):
        run = self.run_with('if [ "$1" = version ]; then echo rattle-kit-13; else echo this is not proved; exit 1; fi')
        self.assertEqual((run.returncode, run.stdout), (1, ''))
        self.assertIn('with rattle-kit-13;', run.stderr)
        self.assertIn('this is not proved\nrun: the proof failed', run.stderr)

    def test_another_kit(self):
        run = self.run_with('[ "$1" = version ] && echo rattle-kit-12')
        self.assertEqual(run.returncode, 1)
        self.assertIn('The proofs were made with rattle-kit-13; this is rattle-kit-12', run.stderr)


class Sample(unittest.TestCase):
    """The sample's table is the one that its program draws."""

    def test_table(self):
        self.assertIn('as made', printed(sys.executable, ROOT / 'tools' / 'make_sample.py', '--check'))
