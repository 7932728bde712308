"""The model of docs/FORMAT.md, second half: sections 7 and 8, the calls, their refusals and their stores. The mount is in format_mount.py.

A call that stores is a generator: it raises Refused before its first store, yields its stores in order, and returns the state that it
hands on.
"""
from format_numbers import (ALL_STORES, COUNTERS, FIRST_DATA_ZONE, GENERAL_LOG, HOST_LIMITS, HOSTS, LABEL, LAST_GENERATION, NO_DRIVE, OPEN_ZONES,
                            PARITY_LOG, RESET, SEAL, Answer, Condition)
from format_state import NO_SHARES, State, ZoneRecord, descriptor, owner_of
from format_volume import (Drives, Logs, Refused, Store, Unfinished, Zone, closing, counters, exclusive_or, label, partial_parity, reset_entry,
                           seal, walk)


class Call:
    """One call: the geometry, memory and state handed over, and the drives named. Refusals are in the order of section 7's table."""

    def __init__(self, geometry, memory, named, state=None, lengths=None):
        self.geometry, self.memory, self.state = geometry, memory, state
        self.named_mask, self.lengths = named, lengths or (len(memory.sectors), len(memory.written), len(memory.durable))
        self.drives = Drives(geometry, memory)
        self.made = []

    def carry_out(self, stores, count):
        """Section 2, budgets of stores."""
        while True:
            try:
                store = next(stores)
            except StopIteration as end:
                return end.value
            if len(self.made) == count != ALL_STORES:
                raise Unfinished
            sector = self.drives.written(store.drive, store.zone) if store.kind == "append" else None
            self.drives.make(store)
            self.made.append(store._replace(sector=sector))

    # ---- section 7: refusals

    def check_bounds(self, state=None):
        """Refusal 1."""
        g = self.geometry
        if not g.in_bounds():
            raise Refused(Answer.GEOMETRY)
        if state:
            self.state = state.seen_by(g)
            if self.state is None or not self.state.in_bounds(g):
                raise Refused(Answer.GEOMETRY)

    def check_input(self, state=None, buffer=0, sectors=0):
        """Refusals 1 to 3."""
        g, memory = self.geometry, self.memory
        self.check_bounds(state)
        if self.lengths != g.lengths() or buffer != sectors * g.B:
            raise Refused(Answer.LENGTH)
        self.named = [d for d in range(g.D) if self.named_mask >> d & 1]
        for d in self.named:
            for i in range(d * g.Z, d * g.Z + g.Z):
                if not memory.durable[i] <= memory.written[i] <= g.C:
                    raise Refused(Answer.POINTER)

    def settle_present(self, lost):
        """Refusal 4. `lost` are drives that count as lost although they may be named."""
        self.present = [d for d in self.named if d not in lost]
        missing = [d for d in range(self.geometry.D) if d not in self.present]
        if len(missing) > 1:
            raise Refused(Answer.TWO_LOST)
        self.lost = missing[0] if missing else NO_DRIVE

    def settle_by_labels(self):
        """Look and mount: rule 1 and refusals 4 to 6, 16 and 17."""
        self.logs = logs = Logs(self.drives, self.named)
        self.settle_present([logs.last(d, LABEL).lost for d in self.named if logs.first_label(d)])
        firsts = [logs.first_label(d) for d in self.present]
        if any(logs.lacks(d) for d in self.present) or None in firsts or len({first.array for first in firsts}) > 1:
            raise Refused(Answer.LABEL)
        self.array = firsts[0].array
        bad = logs.first_bad(self.present)
        if bad:
            place, answer = bad
            raise Refused(answer, place)

    def settle_by_state(self):
        """The other calls: refusal 4, and the logs that they find."""
        self.settle_present([self.state.lost])
        self.logs = Logs(self.drives, self.present)

    def check_zone(self, z):
        """Refusals 7 and 8; the zone's record in the state."""
        if z >= self.geometry.L:
            raise Refused(Answer.ADDRESS)
        self.check_stale([z])
        return self.state.zones[z]

    def check_stale(self, zones):
        """Refusal 7 of these zones."""
        for z in zones:
            record = self.state.zones[z]
            for d in self.present:
                written, need = self.drives.written(d, FIRST_DATA_ZONE + z), self.geometry.need(z, record.pointer, d)
                if written < need or (written > need and record.condition in (Condition.EMPTY, Condition.OPEN)):
                    raise Refused(Answer.STALE)

    def check_run(self, address, sectors, buffer, host=0):
        """Refusals 1 to 4 and 7 to 9 of a write or a read: zone, offset and record."""
        self.check_input(self.state, buffer, sectors)
        self.settle_by_state()
        z, a = divmod(address, self.geometry.Q)
        record = self.check_zone(z)
        if host >= HOSTS:
            raise Refused(Answer.ADDRESS)
        if sectors == 0 or a + sectors > self.geometry.Q:
            raise Refused(Answer.RUN)
        return z, a, record

    def known(self, z, offsets):
        """Refusal 15: the values of these offsets by rule 4, with the state's generation."""
        zone = Zone(self.drives, self.logs, self.present, z, self.state.zones[z].generation)
        values = {a: zone.value(a) for a in offsets}
        if None in values.values():
            raise Refused(Answer.GONE)
        return values

    # ---- section 8: stores

    def append(self, d, y, data):
        if d in self.present:
            yield Store("append", d, y, data)

    def on_all(self, kind, y=None):
        for d in self.present:
            yield Store(kind, d, y)

    def row_sum(self, values, s, r, end):
        """The exclusive or of the sectors of row r of stripe s that lie below end."""
        return exclusive_or([values[a] for a in self.geometry.row_offsets(s, r) if a < end], self.geometry.B)

    def parity_entry(self, z, n, generation, values):
        """The sectors of a type 4 entry for the pointer n, inside a stripe: header, then rows."""
        g = self.geometry
        s, f = divmod(n, g.K)
        return [partial_parity(g, z, n, generation)] + [self.row_sum(values, s, r, n) for r in range(min(f, g.U))]

    def to_log(self, d, log, *sectors):
        for data in sectors:
            yield Store("append", d, self.logs.zones[d, log], data)

    # ---- section 8: emptying a log

    def lacking(self, drives, log, least, records, in_mount=False):
        """Refusal 14: the drives whose log has less room than that, to be emptied first. `records` tell the zones' generations and pointers."""
        lacking = [d for d in drives if self.room(d, log) < least]
        for d in lacking:
            self.check_emptied(d, log, least, records, in_mount)
        return lacking

    def check_emptied(self, d, log, least, records, in_mount=False):
        """Refusal 14 of an emptying that has to leave so much room."""
        spare = self.logs.spare(d)
        if spare is None or self.logs.generations[d, log] == LAST_GENERATION or (self.drives.written(d, spare) and not in_mount):
            raise Refused(Answer.LOG_FULL)
        if self.geometry.C - self.copied(d, log, records) - 1 < least:
            raise Refused(Answer.LOG_FULL)

    def room(self, d, log):
        """A log that the drive lacks has none."""
        return self.drives.room(d, self.logs.zones[d, log]) if (d, log) in self.logs.zones else 0

    def copied(self, d, log, records):
        """How many sectors an emptying copies."""
        g = self.geometry
        if log == GENERAL_LOG:
            return len(self.general_copies(d, records))
        return sum(1 + min(records[z].pointer % g.K, g.U) for z in self.zones_inside(d, records))

    def general_copies(self, d, records):
        """Label, counters, seals and resets that are still needed of the walked general log."""
        g, logs = self.geometry, self.logs
        first, last = logs.first_label(d), logs.last(d, LABEL)
        copies = [label(g, d, last.lost, (first or last).array)] if last else []
        copies.append(counters(g, [record.generation for record in records]))
        for z, record in enumerate(records):
            ends = [entry.end for entry in logs.entries(d, SEAL) if entry.is_current(z, record.generation)]
            copies += [seal(g, z, min(ends), record.generation)] if ends else []
        for z, record in enumerate(records):
            if any(entry.is_current(z, record.generation) for entry in logs.entries(d, RESET)):
                copies.append(reset_entry(g, z, record.generation))
        return copies

    def zones_inside(self, d, records):
        """The zones whose pointer lies inside a stripe that has its parity on this drive."""
        g = self.geometry
        return [z for z, record in enumerate(records) if record.pointer % g.K and d == g.parity_drive(z, record.pointer // g.K)]

    def parity_copies(self, d, records, values_below):
        """For each of these zones the last whole current entry at its pointer, as it stands in the log by now, or else one that is made."""
        y, sectors = self.logs.zones[d, PARITY_LOG], []
        whole = walk(self.drives, d, PARITY_LOG, y).whole
        for z in self.zones_inside(d, records):
            generation, n = records[z].generation, records[z].pointer
            found = [range(x, x + 1 + entry.rows) for x, entry in whole if entry.is_current(z, generation) and entry.end == n]
            if found:
                sectors += [self.drives.sector(d, y, x) for x in found[-1]]
            else:
                sectors += self.parity_entry(z, n, generation, values_below(z, n))
        return sectors

    def empty(self, d, log, copies):
        """The stores; the spare zone is the log from then on, and the old zone the spare."""
        old, new = self.logs.zones[d, log], self.logs.spare(d)
        yield from self.on_all("flush")
        for data in copies + [closing(self.geometry, log, self.logs.generations[d, log] + 1)]:
            yield Store("append", d, new, data)
        yield from self.on_all("flush")
        yield Store("reset", d, old)
        self.logs.zones[d, log] = new

    # ---- section 8: the calls and their stores

    def format(self, array):
        self.check_input()
        self.settle_present([])
        g = self.geometry
        for d in self.present:
            for y in range(g.Z):
                yield Store("reset", d, y)
        yield from self.on_all("flush")
        for d in self.present:
            yield Store("append", d, GENERAL_LOG, label(g, d, self.lost, array))
            yield Store("append", d, GENERAL_LOG, counters(g, [1] * g.L))
        yield from self.on_all("flush")
        self.logs = Logs(self.drives, self.present)
        return State(self.lost, [ZoneRecord(1, Condition.EMPTY, 0)] * g.L, self.all_shares(), g.D)

    def write(self, host, address, sectors, data):
        g = self.geometry
        z, a, record = self.check_run(address, sectors, len(data), host)
        end = a + sectors
        self.check_order(a, record)
        self.check_limits(host, record, end)
        shares = self.shares_after_entry(host, z, end)
        first = a // g.K
        values = self.known(z, range(first * g.K, a) if g.parity_drive(z, first) in self.present else ())
        values.update((a + i, data[i * g.B:(i + 1) * g.B]) for i in range(sectors))
        for b in range(a, end):
            at = g.place(z, b)
            yield from self.append(at.drive, FIRST_DATA_ZONE + z, values[b])
            if (b + 1) % g.K == 0 and at.parity_drive in self.present:
                for r in range(g.U):
                    yield from self.append(at.parity_drive, FIRST_DATA_ZONE + z, self.row_sum(values, at.stripe, r, b + 1))
        for p in shares:
            yield from self.to_log(p, PARITY_LOG, *self.parity_entry(z, end, record.generation, values))
        return self.state.changed(self.lost, {z: ZoneRecord(record.generation, Condition.OPEN, end, owner_of(host))}, shares)

    def check_order(self, a, record):
        """Refusals 10 to 12 of a write from offset a."""
        if a != record.pointer:
            raise Refused(Answer.ORDER)
        if record.condition in (Condition.SEALED, Condition.WORN):
            raise Refused(Answer.SEALED if record.condition == Condition.SEALED else Answer.WORN)

    def check_limits(self, host, record, end):
        """Refusals 18 and 19 of a write up to the offset `end`. One that fills the zone puts and opens none."""
        g = self.geometry
        if end == g.Q:
            return
        if not record.counts_to(host, g) and self.state.counting_to(host, g) >= HOST_LIMITS[host]:
            raise Refused(Answer.HOST_LIMIT)
        if not record.counts(g) and self.state.counting(g) >= OPEN_ZONES:
            raise Refused(Answer.OPEN_LIMIT)

    def shares_after_entry(self, host, z, n):
        """Refusal 14 of a write up to the pointer n. What its entry leaves of the shares of the drive that gets it; nothing where none is stored."""
        g = self.geometry
        s, f = divmod(n, g.K)
        p, entry = g.parity_drive(z, s), 1 + min(f, g.U)
        if f == 0 or p not in self.present:
            return {}
        left = list(self.state.shares[p])
        if entry > left[host] or self.room(p, PARITY_LOG) < entry + g.R:
            raise Refused(Answer.LOG_FULL)
        left[host] -= entry
        return {p: tuple(left)}

    def shares(self, d):
        """What the hosts get of a drive's parity log: each half of the room past R."""
        return (max(0, self.room(d, PARITY_LOG) - self.geometry.R) // HOSTS,) * HOSTS

    def all_shares(self):
        return [self.shares(d) if d in self.present else NO_SHARES for d in range(self.geometry.D)]

    def compact(self, d):
        """The emptying of a drive's parity log, whether it lacks room or not."""
        g = self.geometry
        self.check_input(self.state)
        self.settle_by_state()
        records = self.state.zones
        self.check_stale(range(g.L))
        if d not in self.present:
            raise Refused(Answer.ADDRESS)
        self.check_emptied(d, PARITY_LOG, g.R, records)
        copies = self.parity_copies(d, records, lambda z, n: self.known(z, range(n - n % g.K, n)))
        yield from self.empty(d, PARITY_LOG, copies)
        return self.state.changed(self.lost, shares={d: self.shares(d)})

    def flush(self):
        self.check_input(self.state)
        self.settle_by_state()
        yield from self.on_all("flush")
        return self.state.changed(self.lost)

    def reset(self, z):
        g = self.geometry
        self.check_input(self.state)
        self.settle_by_state()
        record = self.check_zone(z)
        if record.condition == Condition.WORN or record.generation == LAST_GENERATION:
            raise Refused(Answer.WORN)
        for d in self.lacking(self.present, GENERAL_LOG, g.L + 4, self.state.zones):
            yield from self.empty(d, GENERAL_LOG, self.general_copies(d, self.state.zones))
        for d in sorted(set(g.reset_drives(z)) & set(self.present)):
            yield from self.to_log(d, GENERAL_LOG, reset_entry(g, z, record.generation))
        yield from self.on_all("flush")
        yield from self.on_all("reset", FIRST_DATA_ZONE + z)
        yield from self.on_all("flush")
        raised = record.generation + 1
        after = self.state.changed(self.lost, {z: ZoneRecord(raised, Condition.WORN if raised == LAST_GENERATION else Condition.EMPTY, 0)})
        for d in self.present:
            yield from self.to_log(d, GENERAL_LOG, counters(g, [zone.generation for zone in after.zones]))
        yield from self.on_all("flush")
        return after

    def read(self, address, sectors, buffer):
        z, a, record = self.check_run(address, sectors, buffer)
        if a + sectors > record.pointer:
            raise Refused(Answer.UNWRITTEN)
        return b"".join(self.known(z, range(a, a + sectors)).values())

    def peek(self, address):
        g = self.geometry
        self.check_input(self.state)
        self.settle_by_state()
        z, a = divmod(address, g.Q)
        if a >= self.check_zone(z).pointer:
            raise Refused(Answer.UNWRITTEN)
        at = g.place(z, a)
        if at.drive not in self.present or self.drives.written(at.drive, FIRST_DATA_ZONE + z) <= at.sector:
            raise Refused(Answer.GONE)
        return g.byte_of(at.drive, FIRST_DATA_ZONE + z, at.sector)

    def report(self, room):
        """The descriptors of the first zones, as many as there is room for."""
        self.check_bounds(self.state)
        g = self.geometry
        return [descriptor(g, z, record) for z, record in enumerate(self.state.zones[:room])]

    def look(self):
        self.check_input()
        self.settle_by_labels()
        return self.show()

    def show(self):
        """Section 6: rule 2, and the zones by rules 3 to 6."""
        self.zones = []
        lasts = [last for last in (self.logs.last(d, COUNTERS) for d in self.present) if last]
        for z in range(self.geometry.L):
            generation = max((last.generations[z] for last in lasts), default=0)
            self.zones.append(Zone(self.drives, self.logs, self.present, z, generation))
        return State(self.lost, [zone.shown() for zone in self.zones], self.all_shares(), self.geometry.D)
