"""Writes a sound volume for the benchmarks: make_volume.py KIND FILE COUNT [READ].

`empty`: what `mkfs` makes, but for the moments. `files`: COUNT files in directories of 100, with names of 20 bytes: of twenty files eighteen have one block, one has
thirteen and a pointer block, and one has none. `names`: one directory with COUNT names of three bytes, of files with
10,000 names each. `chain`: COUNT directories, each inside the one before. docs/FORMAT.md has the layout.

Into the file READ, where it is named, go copies of the blocks that a check of the volume reads after its log, in the
order in which it reads them: those of the groups, those of the inodes, and then of each inode its pointer block and,
of a directory, its blocks.
"""
import struct
import sys

GROUPS, BPG, IPG, LOG = 64, 2048, 1024, 256
FIRST = 3 + LOG // 8
FILE, DIRECTORY = 0o100644, 0o040755


class Volume:
    def __init__(self, path):
        self.out = open(path, "wb")
        self.blocks = FIRST + GROUPS * BPG
        self.out.truncate(4096 * self.blocks)
        self.inode_bits = [bytearray(128) for _ in range(GROUPS)]
        self.block_bits = [bytearray(256) for _ in range(GROUPS)]
        self.inodes = {}
        self.read = {}
        self.next_inode, self.next_block = 2, FIRST
        self.set_inode(0)
        self.set_inode(1)
        for group in range(GROUPS):
            for place in range(1 + IPG // 32):
                self.block_bits[group][place // 8] |= 1 << place % 8

    def set_inode(self, i):
        self.inode_bits[i // IPG][i % IPG // 8] |= 1 << i % 8

    def take_inode(self):
        i = self.next_inode
        self.next_inode += 1
        self.set_inode(i)
        return i

    def take_block(self):
        while True:
            group, place = divmod(self.next_block - FIRST, BPG)
            self.next_block += 1
            if place > IPG // 32:
                self.block_bits[group][place // 8] |= 1 << place % 8
                return self.next_block - 1

    def put(self, block, data):
        self.out.seek(4096 * block)
        self.out.write(data)

    def make(self, i, mode, links, size, wanted):
        """Inode i with so many blocks; answers them in the order of their indexes."""
        numbers = [self.take_block() for _ in range(wanted)]
        pointer = 0
        if wanted > 12:
            pointer = self.take_block()
            self.read[i] = [pointer]
            self.put(pointer, struct.pack(">1024I", *(numbers[12:] + [0] * (1036 - wanted))))
        direct = (numbers + [0] * 12)[:12]
        self.inodes[i] = struct.pack(">HHIIIQQ12I3II32x", mode, links, 0, 0, 0, size, 1000, *direct, pointer, 0, 0,
                                     wanted + (pointer != 0))
        return numbers

    def directory(self, i, parent, entries, children):
        """Directory i with these names, packed as they are entered one after the other."""
        chunks, chunk, room = [], [(i, 12, b"."), (parent, 12, b"..")], 488
        for name, number in entries:
            least = 8 + 4 * ((len(name) + 4) // 4)
            if least > room:
                chunks.append(chunk)
                chunk, room = [], 512
            chunk.append((number, least, name))
            room -= least
        chunks.append(chunk)
        data = bytearray()
        for chunk in chunks:
            used = sum(length for _, length, _ in chunk)
            for at, (number, length, name) in enumerate(chunk):
                if at == len(chunk) - 1:
                    length += 512 - used
                data += struct.pack(">IHH", number, length, len(name)) + name.ljust(length - 8, b"\0")
        numbers = self.make(i, DIRECTORY, 2 + children, len(data), -(-len(data) // 4096))
        self.read[i] = self.read.get(i, []) + numbers
        for at, block in enumerate(numbers):
            self.put(block, bytes(data[4096 * at:4096 * at + 4096]).ljust(4096, b"\0"))

    def close(self):
        for group in range(GROUPS):
            start = FIRST + group * BPG
            free_inodes = IPG - sum(bin(byte).count("1") for byte in self.inode_bits[group])
            free_blocks = BPG - sum(bin(byte).count("1") for byte in self.block_bits[group])
            self.put(start, struct.pack(">IIII16x", 0x00090255, group, free_inodes, free_blocks)
                     + bytes(self.inode_bits[group]) + bytes(self.block_bits[group]))
            records = (self.inodes.get(group * IPG + j, bytes(128)) for j in range(IPG))
            self.put(start + 1, b"".join(records))
        self.put(3, struct.pack(">4I", 0x4C554653, 1, 0, 1))
        self.out.seek(512 * 16)
        self.out.write(struct.pack(">7I", 0x00011954, 1, GROUPS, BPG, IPG, LOG, self.blocks))
        self.out.close()

    def copy_read(self, path, to):
        starts = [FIRST + group * BPG for group in range(GROUPS)]
        blocks = starts + [start + 1 + k for start in starts for k in range(IPG // 32)]
        blocks += [block for i in sorted(self.read) for block in self.read[i]]
        with open(path, "rb") as volume, open(to, "wb") as out:
            for block in blocks:
                volume.seek(4096 * block)
                out.write(volume.read(4096))


def empty(volume, count):
    root = volume.take_inode()
    volume.directory(root, root, [], 0)


def files(volume, count):
    root = volume.take_inode()
    directories = []
    for first in range(0, count, 100):
        directory = volume.take_inode()
        entries = []
        for k in range(first, min(first + 100, count)):
            i = volume.take_inode()
            wanted = 13 if k % 20 == 0 else 0 if k % 20 == 1 else 1
            volume.make(i, FILE, 1, 4096 * wanted, wanted)
            entries.append((b"file-%015d" % k, i))
        volume.directory(directory, root, entries, 0)
        directories.append((b"directory-%010d" % first, directory))
    volume.directory(root, root, directories, len(directories))


def names(volume, count):
    root = volume.take_inode()
    entries = []
    for k in range(count):
        if k % 10000 == 0:
            i = volume.take_inode()
            volume.make(i, FILE, min(10000, count - k), 0, 0)
        entries.append((bytes([48 + k // 2500 % 50, 48 + k // 50 % 50, 48 + k % 50]), i))
    volume.directory(root, root, entries, 0)


def chain(volume, count):
    numbers = [volume.take_inode() for _ in range(count + 1)]
    for at in reversed(range(count + 1)):
        child = [(b"inside", numbers[at + 1])] if at < count else []
        volume.directory(numbers[at], numbers[max(at - 1, 0)], child, len(child))


kind, path, count = sys.argv[1], sys.argv[2], int(sys.argv[3])
made = Volume(path)
{"empty": empty, "files": files, "names": names, "chain": chain}[kind](made, count)
made.close()
if len(sys.argv) > 4:
    made.copy_read(path, sys.argv[4])
