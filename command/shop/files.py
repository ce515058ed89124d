"""Files read whole, and written so that none is ever left half written. The name - stands for standard input and output."""
import argparse
import os
import stat
import sys

from shop.words import Refused, Unreadable

# far more than any map, list or table has, and any picture of a map's size
LONGEST, LONGEST_PICTURE = 1 << 20, 1 << 26
PICTURES = ('.png', '.svg', '.pdf')


def named(path):
    """What a file that is read is called in a message."""
    return 'standard input' if path == '-' else path


def output(path):
    """A file's name to write to, on the command line."""
    if not path or path.endswith('/'):
        raise argparse.ArgumentTypeError(f'{path!r} is not the name of a file')
    return path


def picture(path):
    """A picture's name to write to: its end is the format."""
    if not path.lower().endswith(PICTURES):
        raise argparse.ArgumentTypeError(f'{path!r}: the name of a picture ends in {", ".join(PICTURES)}')
    return path


def identity(path):
    """What tells a regular file from others, also one that is not there yet; nothing of a device or a pipe."""
    try:
        found = os.stat(0 if path == '-' else path)
    except OSError:
        return os.path.realpath(path)
    return (found.st_dev, found.st_ino) if stat.S_ISREG(found.st_mode) else None


def check_apart(source, *outputs):
    """The file that a command reads, and those that it writes, are different ones."""
    seen = {identity(source)} - {None}
    for path in outputs:
        one = None if path in (None, '-') else identity(path)
        if one in seen:
            raise Unreadable(f'{path}: the same file would be read or written twice')
        seen |= {one} - {None}


def read(path, longest=LONGEST):
    """The bytes of a file."""
    try:
        if path == '-':
            if sys.stdin is None:
                raise Unreadable('standard input: closed')
            data = sys.stdin.buffer.read(longest + 1)
        else:
            with open(path, 'rb') as file:
                data = file.read(longest + 1)
    except OSError as failure:
        raise Unreadable(f'{named(path)}: {failure.strerror}') from None
    if len(data) > longest:
        raise Refused(f'{named(path)}: more than {longest >> 20} MiB')
    return data


def write(path, data):
    """The bytes into a new file beside, which then takes the name; into a device or a pipe directly."""
    if path == '-':
        write_all(1, data)
        return
    try:
        try:
            mode = os.stat(path).st_mode
        except FileNotFoundError:
            mode = None
        if mode is None or stat.S_ISREG(mode):
            replace(os.path.realpath(path), mode, data)
        else:
            put(os.open(path, os.O_WRONLY), data)
    except OSError as failure:
        raise OSError(failure.errno, failure.strerror, path) from None


def replace(place, mode, data):
    """The bytes under a name of their own, then under the name that is meant, with the mode of what stood there."""
    beside = os.path.join(os.path.dirname(place), f'.{os.path.basename(place)[:200]}.{os.getpid()}')
    descriptor = os.open(beside, os.O_WRONLY | os.O_CREAT | os.O_EXCL, 0o666)
    try:
        if mode is not None:
            os.fchmod(descriptor, stat.S_IMODE(mode))
        put(descriptor, data)
        os.replace(beside, place)
    except BaseException:
        os.unlink(beside)
        raise


def put(descriptor, data):
    """The bytes, on the disk before the descriptor is closed."""
    try:
        write_all(descriptor, data)
        if stat.S_ISREG(os.fstat(descriptor).st_mode):
            os.fsync(descriptor)
    finally:
        os.close(descriptor)


def write_all(descriptor, data):
    while data:
        data = data[os.write(descriptor, data):]
