#!/usr/bin/env python3
"""A build worker of a service: it keeps the newest objects of a build, and takes the oldest away when its quota is used
up. Its arguments are the two streams of its client."""
import sys


class Store:
    """A client's end of two streams: a call goes into the first, and its reply comes out of the second."""

    def __init__(self, lines, replies, caller):
        self.lines, self.replies = open(lines, "w", buffering=1), open(replies)
        self.caller, self.moment = caller, 0

    def call(self, words):
        """The reply to a call, behind its place in the journal."""
        print(self.moment, self.caller, words, file=self.lines)
        line = self.replies.readline()
        if not line:
            raise EOFError("the service has ended")
        return line.rstrip("\n").partition(" ")[2]


def keep(store, name, blocks, kept):
    """Writes an object, once it fits: as long as it does not, the oldest one is taken away."""
    store.call(f"create {name}")
    while store.call(f"fill {name} 0 {4096 * blocks} 7f").startswith("refused EDQUOT"):
        print("away with", kept[0], store.call(f"unlink {kept.pop(0)}"))
    kept.append(name)


def build(lines, replies):
    store, kept = Store(lines, replies, "1000:100"), []
    for number, blocks in enumerate([12, 8, 6, 10, 16]):
        store.moment += 60
        keep(store, f"/object{number}", blocks, kept)
        print("object", number, store.call("quota user 1000"))
    print("kept", *kept)


build(*sys.argv[1:])
