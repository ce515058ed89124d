"""The lines and programs of README.md, as they are printed there, after `make`."""
import os
import pathlib
import re
import subprocess
import tempfile
import unittest

ROOT = pathlib.Path(__file__).resolve().parent.parent.parent
SAMPLE = ROOT / 'samples' / 'top.plt'
README = (ROOT / 'README.md').read_text(encoding='utf-8')
STRICT = ['-Wall', '-Wextra', '-Wpedantic', '-Wconversion', '-Werror', f'-I{ROOT}/build/include']
STRICT_CPP = ['-Wold-style-cast', '-Wuseless-cast', '-Wcast-qual', '-Wsign-conversion']


def blocks(kind):
    """The fenced blocks of a kind."""
    return re.findall(rf'^```{kind}\n(.*?)^```', README, re.M | re.S)


def steps(block):
    """The commands of a console block, each with what it prints there."""
    found = []
    for line in block.splitlines():
        if line.startswith('$ '):
            found.append((line[2:], []))
        else:
            found[-1][1].append(line)
    return found


class Lines(unittest.TestCase):
    """Each command in its order, with a home of its own into which the library is installed."""

    def walk(self, block, folder, home):
        for command, expected in steps(block):
            run = subprocess.run(['bash', '-ec', command], cwd=folder, capture_output=True, text=True,
                                 env=dict(os.environ, HOME=str(home), PATH=f'{home}/.local/bin:{os.environ["PATH"]}'))
            self.assertEqual(run.returncode, 0, f'{command}\n{run.stderr}')
            if not command.startswith('make'):
                self.assertEqual(run.stdout.splitlines(), expected, command)

    def test_lines(self):
        build, session = blocks('console')
        with tempfile.TemporaryDirectory() as home, tempfile.TemporaryDirectory() as folder:
            os.symlink(ROOT / 'samples', f'{folder}/samples')
            self.walk(build, ROOT, home)
            self.walk(session, folder, home)
            made = {name: pathlib.Path(folder, name).read_bytes() for name in ('top.plt', 'lower.cut', 'upper.cut', 'bracket.png')}
        self.assertEqual(made['top.plt'], SAMPLE.read_bytes())
        self.assertEqual(len(made['lower.cut']), 12 * 62 * 46 + 18)
        self.assertNotEqual(made['lower.cut'], made['upper.cut'])
        self.assertGreater(len(made['bracket.png']), 10000)


class Programs(unittest.TestCase):
    """The programs compile as printed, without a warning, and do what is said of them."""

    def setUp(self):
        folder = tempfile.TemporaryDirectory()
        self.addCleanup(folder.cleanup)
        self.folder = pathlib.Path(folder.name)

    def compiled(self, compiler, name, text, *options):
        (self.folder / name).write_text(text, encoding='utf-8')
        library = ROOT / 'build' / 'lib' / 'libplate.a'
        subprocess.run([*compiler, *STRICT, *options, name, library, '-o', 'program'], cwd=self.folder, check=True)
        return self.folder / 'program'

    def check_upper(self, program):
        """The upper list of the sample is the command's, byte for byte, and a refusal is told in words."""
        command = [ROOT / 'build' / 'bin' / 'plate', 'list', SAMPLE, '--rounding', 'up', '-o', '-']
        upper = subprocess.run(command, stdout=subprocess.PIPE, check=True).stdout
        made = subprocess.run([program], input=SAMPLE.read_bytes(), stdout=subprocess.PIPE, check=True).stdout
        self.assertEqual(made, upper)
        refused = subprocess.run([program], input=b'sixteen bytes or more', capture_output=True)
        self.assertEqual((refused.returncode, refused.stdout), (1, b''))
        self.assertIn(b'the letters at the end are not PLT1', refused.stderr)

    def test_c(self):
        program, = blocks('c')
        self.check_upper(self.compiled(['cc', '-std=c99'], 'upper.c', program))

    def test_cpp(self):
        program, = blocks('cpp')
        made = self.compiled(['c++', '-std=c++11'], 'root.cpp', program, *STRICT_CPP)
        self.assertEqual(subprocess.run([made], stdout=subprocess.PIPE, check=True).stdout, b'1.58114\n')

    def test_rust(self):
        dependency, = blocks('toml')
        program, = blocks('rust')
        (self.folder / 'src').mkdir()
        (self.folder / 'src' / 'main.rs').write_text(program, encoding='utf-8')
        package = '[package]\nname = "upper"\nversion = "0.1.0"\nedition = "2021"\n\n'
        (self.folder / 'Cargo.toml').write_text(package + dependency.replace('FOLDER', str(ROOT)), encoding='utf-8')
        environment = dict(os.environ, RUSTFLAGS='-D warnings', CARGO_TARGET_DIR=str(self.folder / 'target'))
        subprocess.run(['cargo', 'build', '--quiet', '--offline'], cwd=self.folder, env=environment, check=True)
        self.check_upper(self.folder / 'target' / 'debug' / 'upper')
