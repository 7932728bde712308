"""The cases of docs/FORMAT.md: the volume V of its introduction, brought by calls and power cuts to where the page's examples begin."""
from collections import namedtuple
from itertools import groupby

from format_host import Host
from format_numbers import FIRST_DATA_ZONE, GENERAL_LOG, LOGS, PARITY_LOG, Answer, Condition
from format_volume import Drives, Geometry, Logs, read_entry

V = Geometry(D=4, B=64, U=2, L=2, C=32)
ARRAY = 0x1122334455667788
FILLS = bytes([0x01, 0x02, 0x04, 0x08, 0x10, 0x20, 0x40, 0x80])
ALL_DRIVES = 15
SPARE = 2       # the spare zone after a format

Run = namedtuple("Run", "stores drives span")


def without(*drives):
    return ALL_DRIVES - sum(1 << d for d in drives)


def sector(a):
    """What the cases write at an offset of a zone: past the eight that the introduction lists, the offset itself."""
    return bytes([FILLS[a] if a < len(FILLS) else a]) * V.B


class Volume(Host):
    """A host of V, and what the cases do to it."""

    def __init__(self):
        super().__init__(V)
        self.drives = Drives(V, self.memory)

    def write(self, address, sectors, named=ALL_DRIVES, host=0):
        offset = address % V.Q
        return self.store("write", named, host, address, sectors, b"".join(sector(a) for a in range(offset, offset + sectors)))

    def read(self, address, sectors, named=ALL_DRIVES):
        return self.ask("read", named, address, sectors, sectors * V.B)

    def shown(self, z=0, named=ALL_DRIVES):
        """What a look shows of a zone: `open at 5`."""
        answer, state = self.ask("look", named)
        return "refusal %d" % answer if answer else in_words(state.zones[z])

    def keep(self, zones, choose=max, recall=lambda views: None):
        """A power cut: of the zones given so many sectors are kept; of every other one what `choose` makes of (durable, written). Before that, of each
        zone that was reset since its drive's flush, the view comes back that `recall` picks of those remembered, oldest first, if it picks one."""
        for i, views in self.memory.remembered.items():
            view = recall(views)
            if view:
                self.memory.bring_back(i, view)
        self.memory.remembered.clear()
        for i, pair in enumerate(zip(self.memory.durable, self.memory.written)):
            self.memory.written[i] = self.memory.durable[i] = zones.get(divmod(i, V.Z), choose(pair))

    def walk(self, d, log):
        return Logs(self.drives, [d]).walks[d, log]

    def entry(self, store):
        """The entry that an appended sector is, None for a row or a sector of a zone."""
        found = [read_entry(V, store.drive, log, store.data) for log in LOGS] if store.zone < FIRST_DATA_ZONE else []
        return next((entry for entry in found if entry), None)

    def type_of(self, store):
        entry = self.entry(store)
        return entry and entry.type

    def runs(self):
        """The stores of the last call in runs of one kind: each with its drives, and its first and last number."""
        def kind(pair):
            store = pair[1]
            return store.kind, store.zone, self.type_of(store) if store.kind == "append" and store.zone == GENERAL_LOG else None

        for _, pairs in groupby(enumerate(self.stores, 1), kind):
            numbers, stores = zip(*pairs)
            yield Run(stores, sorted({store.drive for store in stores}), (numbers[0], numbers[-1]))


def formatted(named=ALL_DRIVES):
    volume = Volume()
    volume.store("format", named, ARRAY)
    return volume


def five_written():
    """Section 6: five sectors written at address 0 and no flush."""
    volume = formatted()
    volume.write(0, 5)
    return volume


def kept(zone_0, parity_log):
    """Section 6: of the five sectors, what a cut leaves on each drive and in drive 3's parity log."""
    volume = five_written()
    volume.keep({(d, FIRST_DATA_ZONE): count for d, count in enumerate(zone_0)} | {(3, PARITY_LOG): parity_log})
    return volume


def before_mount():
    """Section 9: the drives as the worked mount finds them."""
    volume = five_written()
    volume.store("flush", ALL_DRIVES)
    volume.write(96, 2)
    volume.write(98, 3)
    volume.store("reset", ALL_DRIVES, 0, count=1)
    volume.keep({(0, PARITY_LOG): 4, (1, FIRST_DATA_ZONE + 1): 1, (3, FIRST_DATA_ZONE + 1): 1})
    return volume


def before_compact():
    """Section 8: zone 0 written sector by sector, up to where the next write is past its host's share."""
    volume = formatted()
    while volume.write(volume.state.zones[0].pointer, 1) == Answer.FINISHED:
        pass
    return volume


def before_emptied_general_log():
    """Section 8: drive 3 left out of the format, and zone 0 reset again and again, up to where the next reset empties a log."""
    volume = formatted(without(3))
    for _ in range(13):
        volume.store("reset", without(3), 0)
    return volume


def ends(store):
    """Start and end of a header."""
    return int.from_bytes(store.data[8:16], "little"), int.from_bytes(store.data[16:24], "little")


def in_words(record):
    word = record.condition.name.lower()
    return word if record.condition == Condition.EMPTY else "%s at %d" % (word, record.pointer)


def either(answers):
    """The one answer that all of these are; where they differ, all of them."""
    return " or ".join(sorted({str(answer) for answer in answers}))
