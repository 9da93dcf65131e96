"""An image of a store, read by its format alone."""

SECTIONS = ["user", "group", "project", "dir", "name"]
# How many bytes a block has, and how many a read gives at most.
BLOCK, MOST = 4_096, 65_536


class Image:
    """The rows of an image, by the format alone: its records, its inodes with their bytes, and its names."""

    def __init__(self, text):
        lines = text.decode("ascii").split("\n")
        head, store, graces, *rows, end, none = [line.split(" ") for line in lines]
        self.place = int(head[4])
        self.whole = head[:4] == ["quotafs", "image", "2", "at"] and (end, none) == (["end"], [""])
        self.whole &= (store[0], graces[0]) == ("store", "graces")
        self.size, self.most, self.next = map(int, store[1:])
        sections = [SECTIONS.index("dir" if verb in ("file", "block") else verb) for verb, *_ in rows]
        self.records, self.inodes, self.names, self.blocks = {}, {}, {}, {}
        for verb, *words in rows:
            if verb in ("user", "group", "project"):
                self.records[verb, int(words[0])] = words[1:]
            elif verb == "name":
                self.names[int(words[0]), words[1]] = int(words[2])
            elif verb == "block":
                self.blocks[number][int(words[0])] = bytes.fromhex(words[1])
            else:
                number = int(words[0])
                self.inodes[number], self.blocks[number] = (verb, *words[1:]), {}
        orders = [list(self.inodes), [(at, name.encode()) for at, name in self.names], *map(list, self.blocks.values())]
        orders += [[id for kind, id in self.records if kind == one] for one in ("user", "group", "project")]
        told = len(self.records) + len(self.inodes) + len(self.names) + sum(map(len, self.blocks.values()))
        self.in_order = told == len(rows) and all(order == sorted(order) for order in [sections, *orders])

    def owner(self, kind, number):
        word = self.inodes[number][1 + ("user", "group", "project").index(kind)]
        return None if word == "-" else int(word)

    def are_uses(self):
        """Whether each record's uses are those of its inodes."""
        for (kind, id), words in self.records.items():
            own = [number for number in self.inodes if self.owner(kind, number) == id]
            if [int(word) for word in words[1:3]] != [sum(len(self.blocks[number]) for number in own), len(own)]:
                return False
        return True

    def is_bounded(self):
        blocks = sum(map(len, self.blocks.values()))
        return blocks <= self.size and len(self.inodes) <= self.most and max(self.inodes) < self.next

    def are_blocks(self):
        """Whether each block is within its file, whole or up to the file's end."""
        return all(
            len(data) == min(BLOCK, int(self.inodes[number][4]) - index * BLOCK)
            for number, blocks in self.blocks.items()
            for index, data in blocks.items()
        )

    def paths(self, number=1, before=""):
        """Each path, with the inode that it leads to."""
        for (at, name), inode in self.names.items():
            if at == number:
                yield f"{before}/{name}", inode
                if self.inodes[inode][0] == "dir":
                    yield from self.paths(inode, f"{before}/{name}")

    def bytes_at(self, number, offset):
        """The bytes of a file from there on, as many as a read gives, as hexadecimal digits."""
        data = bytearray(max(0, min(int(self.inodes[number][4]) - offset, MOST)))
        for index, block in self.blocks[number].items():
            if 0 <= index * BLOCK - offset < len(data):
                data[index * BLOCK - offset : index * BLOCK - offset + len(block)] = block
        return data.hex() or "-"

    def report(self):
        """Of each record its kind, name, KiB and inodes, as a report has them."""
        return [[kind, words[0], str(4 * int(words[1])), words[2]] for (kind, _), words in self.records.items()]
