"""The model of docs/FORMAT.md, section 9: the mount and its steps."""
from format_calls import Call
from format_numbers import COUNTERS, FIRST_DATA_ZONE, GENERAL_LOG, LABEL, NO_DRIVE, PARITY_LOG, Condition
from format_volume import Logs, Store, counters, label, reset_entry, seal, walk


class MountCall(Call):
    """A call that may be a mount too."""

    def mount(self):
        g = self.geometry
        self.check_input()
        self.settle_by_labels()
        self.records = self.show().zones
        self.lacking_general = self.lacking(self.present, GENERAL_LOG, g.L + 2, self.records, in_mount=True)
        self.lacking_parity = self.lacking(self.present, PARITY_LOG, g.R, self.records, in_mount=True)
        yield from self.on_all("flush")
        for step in (self.spares_step, self.general_logs_step, self.labels_step, self.type_3_step, self.resets_step, self.counters_step,
                     self.seals_step, self.torn_rows_step, self.sectors_step, self.parity_logs_step, self.type_4_step):
            stored = False
            for store in step():
                stored = True
                yield store
            if stored:
                yield from self.on_all("flush")
        self.logs = Logs(self.drives, self.present)
        return self.show()

    def each_zone(self):
        """Drives ascend, and zones in each drive."""
        return ((d, z, zone) for d in self.present for z, zone in enumerate(self.zones))

    def spares_step(self):
        for d in self.present:
            if self.drives.written(d, self.logs.spare(d)):
                yield Store("reset", d, self.logs.spare(d))

    def general_logs_step(self):
        for d in self.lacking_general:
            yield from self.empty(d, GENERAL_LOG, self.general_copies(d, self.records))

    def parity_logs_step(self):
        for d in self.lacking_parity:
            yield from self.empty(d, PARITY_LOG, self.parity_copies(d, self.records, lambda z, n: self.zones[z].values))

    def labels_step(self):
        for d in self.present:
            if self.lost not in (NO_DRIVE, self.logs.last(d, LABEL).lost):
                yield from self.to_log(d, GENERAL_LOG, label(self.geometry, d, self.lost, self.array))

    def type_3_step(self):
        for d, z, zone in self.each_zone():
            if zone.emptied and d in self.geometry.reset_drives(z):
                yield from self.to_log(d, GENERAL_LOG, reset_entry(self.geometry, z, zone.generation))

    def resets_step(self):
        for d, z, zone in self.each_zone():
            if zone.record.condition != Condition.WORN and (zone.emptied or (zone.record.pointer == 0 and not zone.clean)):
                yield Store("reset", d, FIRST_DATA_ZONE + z)

    def counters_step(self):
        empty = [zone.record.condition == Condition.EMPTY for zone in self.zones]
        if any(empty) or len({self.logs.last(d, COUNTERS) for d in self.present}) > 1:
            generations = [zone.generation + raised for zone, raised in zip(self.zones, empty)]
            for d in self.present:
                yield from self.to_log(d, GENERAL_LOG, counters(self.geometry, generations))

    def seals_step(self):
        for d, z, zone in self.each_zone():
            if zone.record.condition == Condition.SEALED and zone.record.pointer not in zone.seals[d]:
                yield from self.to_log(d, GENERAL_LOG, seal(self.geometry, z, zone.record.pointer, zone.generation))

    def torn_rows_step(self):
        for d in self.present:
            if self.logs.torn(d):
                x, entry = self.logs.torn(d)
                zone = self.zones[entry.zone]
                true = zone.current(entry) and entry.end <= zone.record.pointer
                for r in range(self.drives.written(d, self.logs.zones[d, PARITY_LOG]) - x - 1, entry.rows):
                    row = self.row_sum(zone.values, entry.stripe, r, entry.end) if true else bytes(self.geometry.B)
                    yield from self.to_log(d, PARITY_LOG, row)

    def sectors_step(self):
        g = self.geometry
        for d, z, zone in self.each_zone():
            for x in range(self.drives.written(d, FIRST_DATA_ZONE + z), g.need(z, zone.record.pointer, d)):
                s, r = divmod(x, g.U)
                if d == g.parity_drive(z, s):
                    data = self.row_sum(zone.values, s, r, zone.record.pointer)
                else:
                    data = zone.values[g.row_offsets(s, r)[g.unit_of(z, s, d)]]
                yield Store("append", d, FIRST_DATA_ZONE + z, data)

    def type_4_step(self):
        g = self.geometry
        for d, z, zone in self.each_zone():
            n = zone.record.pointer
            if n % g.K and d == g.parity_drive(z, n // g.K):
                whole = walk(self.drives, d, PARITY_LOG, self.logs.zones[d, PARITY_LOG]).whole
                if not any(zone.current(entry) and entry.end == n for _, entry in whole):
                    yield from self.to_log(d, PARITY_LOG, *self.parity_entry(z, n, zone.generation, zone.values))
