"""The model of docs/FORMAT.md, first half: sections 1 to 6, what lies on the drives and what it shows.

Written along that page, to be read beside it, not to be fast. Each part names its section; one-letter names are the page's letters.
"""
import struct
from collections import namedtuple

from format_numbers import (CLOSING, COUNTERS, FIRST_DATA_ZONE, GENERAL_LOG, HEADER_BYTES, LABEL, LAST_GENERATION, LEAST_DRIVES, LOGS, MOST_DRIVES,
                            MOST_UNIT, MOST_ZONE_SECTORS, MOST_ZONES, NO_DRIVE, PARITY_LOG, PARTIAL_PARITY, RESET, SEAL, SECTOR_SIZES, Answer, Condition)
from format_state import ZoneRecord

Place = namedtuple("Place", "drive sector parity_drive stripe unit row")
Store = namedtuple("Store", "kind drive zone data sector", defaults=(None,) * 3)     # kind: append, reset or flush
View = namedtuple("View", "sectors written durable")                                  # a zone as it was just before a reset
Walk = namedtuple("Walk", "whole torn bad", defaults=((), None, None))
Bad = namedtuple("Bad", "sector answer")                # where a walk found no entry, and the refusal that this is
BadPlace = namedtuple("BadPlace", "drive zone sector")
Role = namedtuple("Role", "log generation")
MARK, VERSION = b"ZRV", bytes([1, 0])


class Entry(namedtuple("Entry", "type zone stripe end generation rows lost array generations", defaults=(None,) * 4 + (0,) + (None,) * 3)):
    """Section 4: an entry of a log."""

    def is_current(self, z, generation):
        return (self.zone, self.generation) == (z, generation)


class Refused(Exception):
    """Section 7: the call is refused with this number; with 6, 16 or 17 for the sector at that place."""

    def __init__(self, number, place=None):
        super().__init__(number)
        self.number, self.place = number, place


class Unfinished(Exception):
    """Section 2, budgets of stores: the count ran out with a store left."""


class Geometry:
    """Section 1: the five numbers and what follows from them. Section 3: placement."""

    def __init__(self, D, B, U, L, C):
        self.D, self.B, self.U, self.L, self.C = D, B, U, L, C
        self.Z = L + FIRST_DATA_ZONE
        self.K = (D - 1) * U
        self.Q = (D - 1) * C
        self.R = L * (1 + U) + U

    def in_bounds(self):
        D, B, U, L, C = self.D, self.B, self.U, self.L, self.C
        return (LEAST_DRIVES <= D <= MOST_DRIVES and B in SECTOR_SIZES and 1 <= U <= MOST_UNIT and 1 <= L <= MOST_ZONES
                and HEADER_BYTES + 8 * L <= B and C % U == 0 and max(L * (1 + U) + 2 * U + 1, L + 6) <= C <= MOST_ZONE_SECTORS)

    def lengths(self):
        """Section 2: bytes of the sectors, numbers of written and of durable."""
        return (self.D * self.Z * self.C * self.B, self.D * self.Z, self.D * self.Z)

    def byte_of(self, d, y, x):
        return ((d * self.Z + y) * self.C + x) * self.B

    def parity_drive(self, z, s):
        return (z + s + self.D - 1) % self.D

    def unit_of(self, z, s, d):
        return (d + self.D - self.parity_drive(z, s) - 1) % self.D

    def place(self, z, a):
        s, j, r = a // self.K, a % self.K // self.U, a % self.U
        p = self.parity_drive(z, s)
        return Place((p + 1 + j) % self.D, s * self.U + r, p, s, j, r)

    def row_offsets(self, s, r):
        """The offsets of row r of stripe s, unit by unit."""
        return [s * self.K + j * self.U + r for j in range(self.D - 1)]

    def need(self, z, n, d):
        """What a pointer needs of a drive."""
        s, f = divmod(n, self.K)
        if d == self.parity_drive(z, s):
            return s * self.U
        return s * self.U + min(self.U, max(0, f - self.unit_of(z, s, d) * self.U))

    def reset_drives(self, z):
        """Section 4: the two drives of a zone's type 3 entry: parity and first unit of its stripe 0."""
        return (z + self.D - 1) % self.D, z % self.D


class Memory:
    """Section 2: the three ranges that stand for the drives, laid out by the geometry that they were made for; and what was reset and may come back.
    Zones are numbered as their pointers are."""

    def __init__(self, geometry):
        sectors, written, durable = geometry.lengths()
        self.geometry = geometry
        self.sectors, self.written, self.durable = bytearray(sectors), [0] * written, [0] * durable
        self.remembered = {}

    def part(self, i):
        """The bytes of a zone."""
        size = self.geometry.C * self.geometry.B
        return slice(i * size, (i + 1) * size)

    def remember(self, i):
        """Before a reset: until the drive's next flush a cut may leave the zone as it could now."""
        self.remembered.setdefault(i, []).append(View(bytes(self.sectors[self.part(i)]), self.written[i], self.durable[i]))

    def forget(self, zones):
        for i in zones:
            self.remembered.pop(i, None)

    def bring_back(self, i, view):
        self.sectors[self.part(i)], self.written[i], self.durable[i] = view


class Drives:
    """Section 2: the memory as a call sees it, by the geometry that the call was handed; and the three kinds of store."""

    def __init__(self, geometry, memory):
        self.geometry, self.memory = geometry, memory

    def written(self, d, y):
        return self.memory.written[d * self.geometry.Z + y]

    def room(self, d, y):
        return self.geometry.C - self.written(d, y)

    def sector(self, d, y, x):
        at = self.geometry.byte_of(d, y, x)
        return bytes(self.memory.sectors[at:at + self.geometry.B])

    def append(self, d, y, data):
        g, i = self.geometry, d * self.geometry.Z + y
        at = g.byte_of(d, y, self.memory.written[i])
        self.memory.sectors[at:at + g.B] = data
        self.memory.written[i] += 1

    def reset(self, d, y):
        i = d * self.geometry.Z + y
        self.memory.remember(i)
        self.memory.written[i] = self.memory.durable[i] = 0

    def flush(self, d):
        first, end = d * self.geometry.Z, (d + 1) * self.geometry.Z
        self.memory.durable[first:end] = self.memory.written[first:end]
        self.memory.forget(range(first, end))

    def make(self, store):
        if store.kind == "append":
            self.append(store.drive, store.zone, store.data)
        elif store.kind == "reset":
            self.reset(store.drive, store.zone)
        else:
            self.flush(store.drive)


def exclusive_or(sectors, B):
    total = 0
    for sector in sectors:
        total ^= int.from_bytes(sector, "little")
    return total.to_bytes(B, "little")


# ---- section 4: log entries

def header(g, kind, start=0, end=0, generation=0, rest=b""):
    fields = MARK + struct.pack("<B2sHQQQ", kind, VERSION, 0, start, end, generation) + rest
    return fields + bytes(g.B - len(fields))


def label(g, d, lost, array):
    return header(g, LABEL, rest=struct.pack("<5B3xIIQ", g.D, g.U, g.B.bit_length() - 1, d, lost, g.C, g.Z, array))


def counters(g, generations):
    return header(g, COUNTERS, rest=struct.pack("<%dQ" % g.L, *generations))


def reset_entry(g, z, generation):
    return header(g, RESET, z * g.Q, z * g.Q + g.Q, generation)


def partial_parity(g, z, n, generation):
    """The header for a pointer n inside a stripe."""
    return header(g, PARTIAL_PARITY, z * g.Q + n // g.K * g.K, z * g.Q + n, generation)


def seal(g, z, n, generation):
    return header(g, SEAL, z * g.Q, z * g.Q + n, generation)


def closing(g, log, generation):
    return header(g, CLOSING, log, 0, generation)


def read_label(g, d, sector):
    lost, (array,) = sector[36], struct.unpack_from("<Q", sector, 48)
    legal = (lost < g.D or lost == NO_DRIVE) and sector == label(g, d, lost, array)
    return Entry(LABEL, lost=lost, array=array) if legal else None


def read_counters(g, sector):
    generations = struct.unpack_from("<%dQ" % g.L, sector, HEADER_BYTES)
    return Entry(COUNTERS, generations=generations) if sector == counters(g, generations) else None


def read_closing(g, log, sector):
    generation, = struct.unpack_from("<Q", sector, 24)
    return Entry(CLOSING, generation=generation) if generation and sector == closing(g, log, generation) else None


def read_entry(g, d, log, sector):
    """The entry whose legal header this sector is, on this drive and in this log; None if it is none. `end` is an offset in the zone."""
    kind = sector[3]
    if kind == CLOSING:
        return read_closing(g, log, sector)
    if (kind == PARTIAL_PARITY) != (log == PARITY_LOG):
        return None
    if kind == LABEL:
        return read_label(g, d, sector)
    if kind == COUNTERS:
        return read_counters(g, sector)
    start, end, generation = struct.unpack_from("<QQQ", sector, 8)
    z, a = divmod(start, g.Q)
    if z >= g.L or end <= start or sector != header(g, kind, start, end, generation):
        return None
    length, s = end - start, a // g.K
    if kind == RESET and a == 0 and length == g.Q and d in g.reset_drives(z):
        return Entry(RESET, z, end=length, generation=generation)
    if kind == PARTIAL_PARITY and a % g.K == 0 and length < g.K and d == g.parity_drive(z, s):
        return Entry(PARTIAL_PARITY, z, s, a + length, generation, rows=min(length, g.U))
    if kind == SEAL and a == 0 and length <= g.Q:
        return Entry(SEAL, z, end=length, generation=generation)
    return None


def has_mark(sector):
    """Whether a sector has the mark and the version of an entry."""
    return sector[:3] == MARK and sector[4:6] == VERSION


def walk(drives, d, log, y):
    """Section 5: zone y walked as a log of that kind: the whole entries with their sectors, the torn entry with its sector or None, the sector where
    no entry stands, with the reason, or None."""
    g, x, written, whole = drives.geometry, 0, drives.written(d, y), []
    while x < written:
        sector = drives.sector(d, y, x)
        entry = read_entry(g, d, log, sector)
        if entry is None:
            return Walk(whole, None, Bad(x, Answer.ENTRY if has_mark(sector) else Answer.LOG))
        if x + 1 + entry.rows > g.C:
            return Walk(whole, None, Bad(x, Answer.ROWS))
        if x + 1 + entry.rows > written:
            return Walk(whole, (x, entry), None)
        whole.append((x, entry))
        x += 1 + entry.rows
    return Walk(whole, None, None)


def role(drives, d, y):
    """Section 5: which kind of log zone y of a drive is, by its first closing entry, and the log's generation."""
    for log in LOGS:
        generations = [entry.generation for _, entry in walk(drives, d, log, y).whole if entry.type == CLOSING]
        if generations:
            return Role(log, generations[0])
    return Role(y if y in LOGS else None, 0)


class Logs:
    """Section 5: which zones the counting logs of some drives are, and those logs walked. `zones` has no log that its drive lacks."""

    def __init__(self, drives, numbers):
        self.walks = {(d, log): Walk() for d in numbers for log in LOGS}
        self.zones, self.generations = {}, {}
        for d in numbers:
            roles = [role(drives, d, y) for y in range(FIRST_DATA_ZONE)]
            for log in {role.log for role in roles} - {None}:
                y = max((y for y in range(FIRST_DATA_ZONE) if roles[y].log == log), key=lambda y: (roles[y].generation, -y))
                self.zones[d, log], self.generations[d, log] = y, roles[y].generation
                self.walks[d, log] = walk(drives, d, log, y)

    def lacks(self, d):
        """Whether the drive lacks a kind of log."""
        return any((d, log) not in self.zones for log in LOGS)

    def first_bad(self, numbers):
        """Of the counting logs of these drives the first place, by drive, zone and sector, where a walk found no entry, and the refusal; None if none did."""
        found = [(BadPlace(d, self.zones[d, log], bad.sector), bad.answer)
                 for d in numbers for log in LOGS for bad in [self.walks[d, log].bad] if bad]
        return min(found, default=None)

    def spare(self, d):
        """The zone that is neither counting log; None where the drive lacks one."""
        if self.lacks(d):
            return None
        y, = set(range(FIRST_DATA_ZONE)) - {self.zones[d, log] for log in LOGS}
        return y

    def entries(self, d, kind):
        log = PARITY_LOG if kind == PARTIAL_PARITY else GENERAL_LOG
        return [entry for _, entry in self.walks[d, log].whole if entry.type == kind]

    def last(self, d, kind):
        return (self.entries(d, kind) or [None])[-1]

    def first_label(self, d):
        """The label that the drive's general log begins with, or None."""
        whole = self.walks[d, GENERAL_LOG].whole
        return whole[0][1] if whole and whole[0][1].type == LABEL else None

    def torn(self, d):
        return self.walks[d, PARITY_LOG].torn


class Zone:
    """Section 6, rules 3 to 6: one zone, by its generation, the present drives and their walked logs."""

    def __init__(self, drives, logs, present, z, generation):
        self.drives, self.logs, self.present, self.z, self.generation = drives, logs, present, z, generation
        self.seals = {d: [e.end for e in logs.entries(d, SEAL) if self.current(e)] for d in present}
        self.sealed_at = min(sum(self.seals.values(), [drives.geometry.Q]))
        self.emptied = any(self.current(e) for d in present for e in logs.entries(d, RESET))

    def current(self, entry):
        return entry.is_current(self.z, self.generation)

    def held(self, d, x):
        return d in self.present and self.drives.written(d, FIRST_DATA_ZONE + self.z) > x

    def value(self, a):
        """Rule 4: the value of a known sector; None if it is not known."""
        g, at = self.drives.geometry, self.drives.geometry.place(self.z, a)
        if self.held(at.drive, at.sector):
            return self.sum_of([at.drive], at.sector)
        others = {g.place(self.z, b).drive: b for b in g.row_offsets(at.stripe, at.row) if b != a}
        if all(self.held(d, at.sector) for d in [at.parity_drive, *others]):
            return self.sum_of([at.parity_drive, *others], at.sector)
        return self.value_by_entry(a, at, others)

    def value_by_entry(self, a, at, others):
        """Rule 4, the third way: the last entry that serves. `others` are the row's other offsets by their drives."""
        p = at.parity_drive
        if p not in self.present:
            return None
        for x, entry in reversed(self.logs.walks[p, PARITY_LOG].whole):
            if self.current(entry) and entry.stripe == at.stripe and a < entry.end <= self.sealed_at:
                below = [d for d, b in others.items() if b < entry.end]
                if all(self.held(d, at.sector) for d in below):
                    return self.sum_of(below, at.sector, self.drives.sector(p, self.logs.zones[p, PARITY_LOG], x + 1 + at.row))
        return None

    def sum_of(self, numbers, x, *more):
        """The exclusive or of sector x of these drives, and of more sectors."""
        own = [self.drives.sector(d, FIRST_DATA_ZONE + self.z, x) for d in numbers]
        return exclusive_or([*own, *more], self.drives.geometry.B)

    def shown(self):
        """Rules 5 and 6: the zone's record; `values` and `clean` are kept beside it."""
        self.values = []
        while not self.emptied and len(self.values) < self.sealed_at:
            value = self.value(len(self.values))
            if value is None:
                break
            self.values.append(value)
        n = len(self.values)
        self.clean = self.is_clean(n)
        if self.generation == LAST_GENERATION:
            condition = Condition.WORN
        elif n == 0:
            condition = Condition.EMPTY
        else:
            condition = Condition.SEALED if not self.clean or any(self.seals.values()) else Condition.OPEN
        self.record = ZoneRecord(self.generation, condition, n)
        return self.record

    def is_clean(self, n):
        g, y = self.drives.geometry, FIRST_DATA_ZONE + self.z
        if any(self.drives.written(d, y) > g.need(self.z, n, d) for d in self.present):
            return False
        whole = [e for d in self.present for e in self.logs.entries(d, PARTIAL_PARITY)]
        torn = [self.logs.torn(d)[1] for d in self.present if self.logs.torn(d)]
        return not any(self.current(e) and e.end > n for e in whole + torn)
