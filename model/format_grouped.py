"""The model of docs/FORMAT.md, section 13: segments with grouped stripes, and the script language of their conformance vectors.

Written along that page, to be read beside it, not to be fast.
"""
import struct
import zlib
from collections import namedtuple

from format_volume import SECTOR_SIZES, Refused

RECORD_BYTES = 20
FILLER = 2**64 - 1
PREFILL = 0xEE

Numbers = namedtuple("Numbers", "D B G N")
Block = namedtuple("Block", "address timestamp data")


def numbers(seed):
    """The stream of a seed."""
    x = seed % 2**31
    while True:
        x = (x * 1103515245 + 12345) % 2**31
        yield x


def stream_bytes(seed, count):
    stream = numbers(seed)
    return bytes(next(stream) // 65536 % 256 for _ in range(count))


def exclusive_or(lists):
    """Of byte strings of one length."""
    total = 0
    for data in lists:
        total ^= int.from_bytes(data, "little")
    return total.to_bytes(len(lists[0]), "little")


class Segment:
    """What the drives hold of the stripes; one drive may be missing."""

    def __init__(self, g, missing, blocks, metadata):
        self.g, self.missing, self.blocks, self.metadata = g, missing, blocks, metadata

    def record(self, d, i):
        """Address, timestamp and stripe ID of block i of drive d."""
        return struct.unpack_from("<QQI", self.metadata, (d * self.g.N + i) * RECORD_BYTES)

    def find_places(self):
        """Refusal 23: for each drive that is present where each stripe's block lies; stripe n is that with ID n mod G in group n div G."""
        g, self.places = self.g, {}
        for d in range(g.D):
            if d == self.missing:
                continue
            for first in range(0, g.N, g.G):
                ids = [self.record(d, i)[2] for i in range(first, first + g.G)]
                if sorted(ids) != list(range(g.G)):
                    raise Refused(23)
                for offset, stripe_id in enumerate(ids):
                    self.places[d, first + stripe_id] = first + offset

    def held(self, d, n):
        """The block of drive d, which is present, in stripe n."""
        i = self.places[d, n]
        at = (d * self.g.N + i) * self.g.B
        return Block(*self.record(d, i)[:2], bytes(self.blocks[at:at + self.g.B]))

    def block(self, d, n):
        """The missing drive's is the exclusive or of its stripe's others, parity's included."""
        if d != self.missing:
            return self.held(d, n)
        others = [self.held(e, n) for e in range(self.g.D) if e != d]
        address = timestamp = 0
        for other in others:
            address, timestamp = address ^ other.address, timestamp ^ other.timestamp
        return Block(address, timestamp, exclusive_or([other.data for other in others]))

    def data_blocks(self):
        """Every data block that is no filler."""
        for n in range(self.g.N):
            for d in range(self.g.D):
                if d != n % self.g.D:
                    block = self.block(d, n)
                    if block.address != FILLER:
                        yield block

    def read(self, address):
        """Refusals 24 and 13; else the bytes of the block with the address and the greatest timestamp."""
        seen, newest = set(), None
        for block in self.data_blocks():
            if block[:2] in seen:
                raise Refused(24)
            seen.add(block[:2])
            if block.address == address and (newest is None or block.timestamp > newest.timestamp):
                newest = block
        if newest is None:
            raise Refused(13)
        return newest.data


def grouped_read(g, named, blocks, metadata, work_numbers, address, answer_bytes):
    """The bytes read; Refused otherwise. The order of the conditions is the page's: 1, 2, 4, 23, 24, 13."""
    if not (3 <= g.D <= 8 and g.B in SECTOR_SIZES and 1 <= g.G <= 256 and g.N <= 65536 and g.N % g.G == 0):
        raise Refused(1)
    cells = g.D * g.N
    if (len(blocks), len(metadata), work_numbers, answer_bytes) != (cells * g.B, cells * RECORD_BYTES, 2 * cells, g.B):
        raise Refused(2)
    missing = [d for d in range(g.D) if not named >> d & 1]
    if len(missing) > 1:
        raise Refused(4)
    segment = Segment(g, missing[0] if missing else None, blocks, metadata)
    segment.find_places()
    return segment.read(address)


class GroupedReplay:
    """A script's commands carried out on one segment."""

    def __init__(self):
        self.command_g(0, 0, 0, 0)
        self.short = (0, 0, 0, 0)

    def answer(self, line):
        letter, *arguments = line.split()
        code, total = getattr(self, "command_" + letter)(*map(int, arguments)) or (0, 1)
        if letter != "n":
            self.short = (0, 0, 0, 0)
        return "%s %d %d" % (letter, code, total)

    def command_g(self, D, B, G, N):
        self.made = self.handed = Numbers(D, B, G, N)
        self.blocks, self.metadata = bytearray(D * N * B), bytearray(D * N * RECORD_BYTES)

    def command_h(self, D, B, G, N):
        self.handed = Numbers(D, B, G, N)

    def command_n(self, *short):
        self.short = short

    def shown(self, cell):
        B = self.made.B
        return 0, zlib.adler32(self.metadata[cell * RECORD_BYTES:(cell + 1) * RECORD_BYTES], zlib.adler32(self.blocks[cell * B:(cell + 1) * B]))

    def command_m(self, drive, block, address, timestamp, stripe_id):
        cell = drive * self.made.N + block
        struct.pack_into("<QQI", self.metadata, cell * RECORD_BYTES, address, timestamp, stripe_id)
        return self.shown(cell)

    def command_q(self, drive, block, seed):
        cell, B = drive * self.made.N + block, self.made.B
        self.blocks[cell * B:(cell + 1) * B] = stream_bytes(seed, B)
        return self.shown(cell)

    def first_with(self, drive, group, stripe_id):
        first = drive * self.made.N + group * self.made.G
        for cell in range(first, first + self.made.G):
            if struct.unpack_from("<I", self.metadata, cell * RECORD_BYTES + 16)[0] == stripe_id:
                return cell
        return None

    def command_y(self, group, stripe_id):
        D, B, G, _ = self.made
        cells = [self.first_with(d, group, stripe_id) for d in range(D)]
        if None in cells:
            return 0, 1
        to = cells.pop((group * G + stripe_id) % D)
        self.blocks[to * B:(to + 1) * B] = exclusive_or([self.blocks[c * B:(c + 1) * B] for c in cells])
        self.metadata[to * RECORD_BYTES:to * RECORD_BYTES + 16] = exclusive_or([self.metadata[c * RECORD_BYTES:c * RECORD_BYTES + 16] for c in cells])
        return self.shown(to)

    def command_r(self, named, address):
        made = self.made
        whole = (len(self.blocks), len(self.metadata), 2 * made.D * made.N, made.B)
        blocks, metadata, work, answer = (max(0, length - short) for length, short in zip(whole, self.short))
        buffer, code = bytes([PREFILL]) * answer, 0
        try:
            buffer = grouped_read(self.handed, named, self.blocks[:blocks], self.metadata[:metadata], work, address, answer)
        except Refused as refused:
            code = refused.number
        return code, zlib.adler32(buffer)
