"""What takes long is told, and what does not is not."""
import contextlib
import io
import pathlib
import sys
import time
import unittest

sys.path.insert(0, str(pathlib.Path(__file__).resolve().parent.parent.parent / 'build' / 'share' / 'plate'))
from shop.progress import progress  # noqa: E402


class Progress(unittest.TestCase):
    def test_told(self):
        """At its beginning, and at its end how long it took."""
        told = io.StringIO()
        with contextlib.redirect_stderr(told):
            with progress('drawing', after=0):
                until = time.monotonic() + 60
                while not told.getvalue() and time.monotonic() < until:
                    time.sleep(0.01)
        self.assertRegex(told.getvalue(), r'\Aplate: drawing \.\.\.\nplate: drawing: \d+\.\d s\n\Z')

    def test_quick(self):
        told = io.StringIO()
        with contextlib.redirect_stderr(told), progress('drawing', after=3600):
            pass
        self.assertEqual(told.getvalue(), '')
