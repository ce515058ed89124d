"""The command line: which subcommand, and what becomes of a refusal and of a failure."""
import argparse
import importlib
import os
import sys

from shop.version import VERSION
from shop.words import Refused, Unreadable, tell

PACKAGES = ('python3-numpy', 'python3-pil', 'python3-matplotlib')
COMMANDS = ('map', 'list', 'bracket', 'show', 'number', 'raw')

EPILOG = """\
A plate from a table of heights to its bracket:

  plate map top.csv -o top.plt --step 5.6 --radius 6
  plate list top.plt --rounding down -o lower.cut
  plate list top.plt --rounding up -o upper.cut
  plate bracket top.plt --picture bracket.png

`plate COMMAND --help` tells the rest of each. The exit status is 0, or 1 where a
map, a list or a number was refused, or 2 where something could not be read or
written.
"""


def parser():
    whole = argparse.ArgumentParser(
        prog='plate', description='Height maps of plates, and the lists of centres that a ball cutter follows.', epilog=EPILOG,
        formatter_class=argparse.RawDescriptionHelpFormatter)
    whole.add_argument('--version', action='version', version=f'plate {VERSION}')
    commands = whole.add_subparsers(metavar='COMMAND', required=True)
    for name in COMMANDS:
        module = importlib.import_module(f'shop.commands.{name}')
        one = commands.add_parser(name, help=module.SUMMARY, description=module.__doc__,
                                  formatter_class=argparse.RawDescriptionHelpFormatter)
        module.arguments(one)
        one.set_defaults(run=module.run)
    return whole


def failed(status, words):
    """Says why on standard error, and leaves nothing that is still to be written on standard output."""
    tell(words)
    os.dup2(os.open(os.devnull, os.O_WRONLY), 1)
    return status


def main(given=None):
    if sys.stderr is None:
        sys.stderr = open(os.devnull, 'w', encoding='utf-8')
    if sys.stdout is not None:
        # a file's name is printed as it is, also where it is no text
        sys.stdout.reconfigure(errors='surrogateescape')
    try:
        try:
            arguments = parser().parse_args(given)
            arguments.run(arguments)
        finally:
            if sys.stdout is not None:
                sys.stdout.flush()
        return 0
    except Refused as refusal:
        return failed(1, refusal)
    except Unreadable as failure:
        return failed(2, failure)
    except OSError as failure:
        name = 'standard output' if failure.filename is None else failure.filename
        return failed(2, f'{name}: {failure.strerror or failure}')
    except ModuleNotFoundError as missing:
        return failed(2, f"Python has no {missing.name}: install Debian's {', '.join(PACKAGES)}")
    except KeyboardInterrupt:
        return failed(130, 'stopped')
