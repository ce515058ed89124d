"""The maps of the list vectors."""
import pathlib

FILE = pathlib.Path(__file__).resolve().parent.parent / 'crates' / 'list_vectors' / 'stdin'


def frames():
    """Every map of the vectors, whatever its fate."""
    data = FILE.read_bytes()
    at = 0
    while at < len(data):
        length = int.from_bytes(data[at:at + 4], 'little')
        yield data[at + 8:at + 8 + length]
        at += 8 + length
