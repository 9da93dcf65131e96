"""What a program of `bench/` has printed when it was called with `--write` stands beside it, in a file of its name that
ends with `.costs`."""

import contextlib
import io
import sys
from pathlib import Path


class Both:
    """Two outputs, each of which gets all that is written."""

    def __init__(self, one, other):
        self.outputs = one, other

    def write(self, text):
        for output in self.outputs:
            output.write(text)

    def flush(self):
        for output in self.outputs:
            output.flush()


@contextlib.contextmanager
def kept():
    """Takes `--write` off the words of the command line; where it stood there, the file is written at the end."""
    if "--write" not in sys.argv:
        yield
        return
    sys.argv.remove("--write")
    printed = io.StringIO()
    with contextlib.redirect_stdout(Both(sys.stdout, printed)):
        yield
    Path(sys.argv[0]).with_suffix(".costs").write_text(printed.getvalue())
