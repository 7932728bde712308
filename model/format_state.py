"""The model of docs/FORMAT.md, section 10: what the host keeps between calls, who holds which zone, and a report's descriptors."""
import struct
from collections import namedtuple

from format_numbers import HOSTS, NO_DRIVE, NO_OWNER, STATE_DRIVES, STATE_RECORD_BYTES, STATE_RECORDS, Condition, Told

TOLD = {Condition.EMPTY: Told.EMPTY, Condition.OPEN: Told.OPEN, Condition.SEALED: Told.READ_ONLY, Condition.WORN: Told.READ_ONLY}
NO_SHARES = (0,) * HOSTS


def owner_of(host):
    """The owner byte of a zone that a host wrote last."""
    return host + 1


class ZoneRecord(namedtuple("ZoneRecord", "generation condition pointer owner", defaults=(NO_OWNER,))):
    """One zone: its generation, its condition with its pointer, and the host that last wrote it."""

    def counts(self, g):
        """Whether the zone counts among the open ones."""
        return self.condition == Condition.OPEN and self.pointer < g.Q

    def counts_to(self, host, g):
        return self.counts(g) and self.owner == owner_of(host)


class State:
    """The lost drive, the zones, and what is left of the two hosts' shares of each drive's parity log: a pair for each drive that a shelf can have.
    `drives` is how many there are by the geometry with which the state was made."""

    def __init__(self, lost, zones, shares, drives):
        self.lost, self.zones, self.drives = lost, list(zones), drives
        self.shares = (list(shares) + [NO_SHARES] * STATE_DRIVES)[:STATE_DRIVES]

    def seen_by(self, g):
        """The state as a geometry's calls see it: records past its zones and shares past its drives must be all zero, and missing records are. None
        where they are not."""
        nothing = ZoneRecord(0, Condition.EMPTY, 0)
        if any(record != nothing for record in self.zones[g.L:]) or any(shares != NO_SHARES for shares in self.shares[g.D:]):
            return None
        return State(self.lost, (self.zones + [nothing] * g.L)[:g.L], self.shares, g.D)

    def in_bounds(self, g):
        return (self.lost < g.D or self.lost == NO_DRIVE) and all(record.pointer <= g.Q and record.owner <= HOSTS for record in self.zones)

    def changed(self, lost=None, zones=(), shares=()):
        """The same with another lost drive, other records of some zones, other shares of some drives: pairs of a number and what it gets."""
        zones, shares = dict(zones), dict(shares)
        return State(self.lost if lost is None else lost, [zones.get(z, record) for z, record in enumerate(self.zones)],
                     [shares.get(d, pair) for d, pair in enumerate(self.shares)], self.drives)

    def counting(self, g):
        """How many zones count."""
        return sum(record.counts(g) for record in self.zones)

    def counting_to(self, host, g):
        return sum(record.counts_to(host, g) for record in self.zones)

    def to_bytes(self):
        records = [struct.pack("<QBB2xI", record.generation, record.condition, record.owner, record.pointer) for record in self.zones]
        zones = b"".join(records) + bytes(STATE_RECORD_BYTES * (STATE_RECORDS - len(records)))
        return bytes([self.lost]) + bytes(7) + zones + b"".join(struct.pack("<%dI" % HOSTS, *shares) for shares in self.shares)


def descriptor(g, z, record):
    """The bytes in which a report tells of a zone."""
    return struct.pack("<QQQB7x", z * g.Q, g.Q, record.pointer, TOLD[record.condition])
