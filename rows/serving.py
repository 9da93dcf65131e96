"""A service of the program whose clients are played here: both ends of each stream are held by one thread."""
import os
import subprocess
import time

from rows import BUILT, EXAMPLE

# So long is waited, in seconds, for what is to come.
PATIENCE = 30
STAT = b"0 1000:100 stat /\n"


def until(is_so, seconds=PATIENCE):
    """Whether something comes to be so in time."""
    end = time.monotonic() + seconds
    while not is_so():
        if time.monotonic() > end:
            return False
        time.sleep(0.01)
    return True


class Client:
    """A client that writes into a FIFO and reads from another; bound to a caller where one is told."""

    def __init__(self, folder, number, caller=""):
        self.paths = [folder / f"{number}.{side}" for side in ("in", "out")]
        for path in self.paths:
            os.mkfifo(path)
        self.word = (caller and f"{caller}=") + ":".join(path.name for path in self.paths)

    def open(self):
        """Opens its streams, the input first, as the service does."""
        self.lines = open(self.paths[0], "wb", 0)
        self.replies = open(self.paths[1], "rb")
        return self

    def ask(self, line):
        """The reply to a line."""
        self.lines.write(line)
        return self.replies.readline()

    def close(self):
        """Ends its lines, and gives what it is still told."""
        self.lines.close()
        told = self.replies.read()
        self.replies.close()
        return told

    def leave(self):
        self.lines.close()
        self.replies.close()


class Service:
    """A service with so many clients over FIFOs in a folder, or one for each of these callers, or with the clients of
    these words."""

    def __init__(self, folder, clients=0, words=(), config=EXAMPLE, stdin=subprocess.DEVNULL, callers=(), **further):
        folder.mkdir(exist_ok=True)
        self.folder = folder
        self.clients = [Client(folder, *client) for client in enumerate(callers or [""] * clients, 1)]
        words = ["serve", "--config", config, *words, *(client.word for client in self.clients)]
        pipes = {"stdin": stdin, "stdout": subprocess.PIPE, "stderr": subprocess.PIPE, **further}
        self.process = subprocess.Popen([BUILT, *words], cwd=folder, **pipes)

    def open(self):
        """Its clients, with their streams open."""
        return [client.open() for client in self.clients]

    def end(self, text=None):
        """Status, output and error output, when all clients have ended."""
        out, err = self.process.communicate(text, timeout=PATIENCE)
        return self.process.returncode, out, err

    def is_alive(self):
        return self.process.poll() is None
