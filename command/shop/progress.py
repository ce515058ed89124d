"""What takes more than a second says so on standard error."""
import contextlib
import threading
import time

from shop.words import tell

AFTER = 1.0


@contextlib.contextmanager
def progress(what, after=AFTER):
    """Tells what is being done once it has taken some time, and at its end how long it took."""
    begun = time.monotonic()
    told = threading.Event()

    def begin():
        told.set()
        tell(f'{what} ...')

    timer = threading.Timer(after, begin)
    timer.daemon = True
    timer.start()
    try:
        yield
    finally:
        timer.cancel()
    if told.is_set():
        tell(f'{what}: {time.monotonic() - begun:.1f} s')
