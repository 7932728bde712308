"""The worked values of docs/FORMAT.md, sections 8 and 9: the stores of the calls and of a mount, as the model makes them on the page's volume V."""
import re
from itertools import groupby
from random import Random

from format_cases import (ALL_DRIVES, SPARE, V, before_emptied_general_log, before_mount, either, ends, five_written, formatted, in_words, kept,
                          without)
from format_numbers import CLOSING, COUNTERS, FIRST_DATA_ZONE, GENERAL_LOG, LABEL, PARITY_LOG, PARTIAL_PARITY, RESET, Condition
from format_page import written_out
from format_volume import counters

DRAWN_CUTS = 6


def check_emptying(page):
    """Section 8: an emptying of general logs. That of a parity log is a compact's."""
    volume = before_emptied_general_log()
    room = volume.drives.room(0, GENERAL_LOG)
    volume.store("reset", without(3), 0)
    heading = "V formatted without drive 3, zone 0 reset 13 times: drive 0's general log has room for"
    page.phrase(heading + " {}, and {} are wanted. Reset of zone 0, {} stores, of which", room, V.L + 4, len(volume.stores))
    check_runs(page, heading, volume)


def check_runs(page, heading, volume):
    """The lines under a heading, each a run of stores of one kind on one zone, from the first store on."""
    found = page.matches(heading, r"^ +(\d+(?: to \d+)?) +((?:flush|reset|drive).*)$")
    for (position, match), (span, words) in zip(found, runs_in_words(volume)):
        page.compare(position, match[1], span)
        page.compare(position, match[2], words)


def runs_in_words(volume):
    def run(pair):
        return pair[1].kind, pair[1].zone, pair[1].kind == "flush" or pair[1].drive

    for _, pairs in groupby(enumerate(volume.stores, 1), run):
        numbers, stores = zip(*pairs)
        d, y = stores[0].drive, stores[0].zone
        if stores[0].kind == "flush":
            words = "flush of " + ", ".join(str(store.drive) for store in stores)
        elif stores[0].kind == "reset":
            words = "reset of drive %d zone %d" % (d, y)
        else:
            at = span([store.sector for store in stores])
            words = "drive %d zone %d sector%s %s: %s" % (d, y, "s" * (len(stores) > 1), at, ", ".join(in_log(volume, store) for store in stores))
        yield span(numbers), words


def span(numbers):
    return str(numbers[0]) if len(numbers) == 1 else "%d to %d" % (numbers[0], numbers[-1])


def in_log(volume, store):
    """A stored sector in words: an entry's type, or the byte that a sector is filled with."""
    kind = volume.type_of(store)
    if kind == COUNTERS:
        return "counters %d and %d" % volume.entry(store).generations
    if kind in (RESET, PARTIAL_PARITY):
        return "type %d %d to %d" % (kind, *ends(store))
    return {LABEL: "label", CLOSING: "type 6"}.get(kind) or written_out(store.data)


def check_stores(page):
    """Section 8: the stores of format, write and reset."""
    page.phrase("V: {} stores; with one drive left out {}.", len(formatted().stores), len(formatted(without(1)).stores))
    lists, volume = [], formatted()
    for _, match in page.matches("V, fresh: write of", r"write of (\d+) at (\d+)"):
        volume.write(int(match[2]), int(match[1]))
        lists.append([(number, *listed(volume, store)) for number, store in enumerate(volume.stores, 1)])
    pattern = r"(\d+)  (drive \d+ zone \d+ sector \d+: (?:type 4, \d+ to \d+|[0-9a-f]{2}))(?:  (parity|row \d+))?"
    found = page.matches("V, fresh: write of", pattern)
    found.sort(key=lambda pair: (pair[1].start(2), pair[0]))
    page.compare(found[0][0], "%d stores in all" % len(found), "%d stores in all" % sum(map(len, lists)))
    for (position, match), (number, store, note) in zip(found, sum(lists, [])):
        page.compare(position, "%s  %s" % match.groups()[:2], "%d  %s" % (number, store))
        if match[3]:
            page.compare(position, match[3], note)
    page.phrase("({} and {}: parity)", *(number for number, _, note in lists[1] if note == "parity"))
    check_stores_with_a_loss(page)
    check_reset(page)


def listed(volume, store):
    """A store of a write as the page lists it, and the word that may follow."""
    where = "drive %d zone %d sector %d: " % (store.drive, store.zone, store.sector)
    if store.zone == PARITY_LOG:
        header_at = max(x for x, _ in volume.walk(store.drive, PARITY_LOG).whole if x <= store.sector)
        if header_at == store.sector:
            return where + "type 4, %d to %d" % ends(store), ""
        return where + written_out(store.data), "row %d" % (store.sector - header_at - 1)
    is_parity = store.drive == V.parity_drive(store.zone - FIRST_DATA_ZONE, store.sector // V.U)
    return where + written_out(store.data), "parity" if is_parity else ""


def check_stores_with_a_loss(page):
    volume = five_written()
    volume.write(5, 3, without(0))
    data = [store.data for store in volume.stores]
    page.phrase("Without drive 0, a write of 3 at 5 after the first list makes {} stores: {}, parity {} and {} on drive {}",
                len(data), *data[:3], volume.stores[1].drive)
    page.phrase("(offsets 0 and 1 taken from the entry), {}, {}; no entry, since drive {} is the parity drive of stripe 1.",
                *data[3:], V.parity_drive(0, 1))
    volume = five_written()
    volume.write(5, 3, without(3))
    data = [store.data for store in volume.stores]
    page.phrase("Without drive 3: {}, {}, {}, and the entry {} to {} with rows {} and {} on drive {}.",
                *data[:3], *ends(volume.stores[3]), *data[4:], volume.stores[3].drive)


def check_reset(page):
    volume = formatted()
    volume.store("reset", ALL_DRIVES, 0)
    (type_3, flush, reset, lasting, raised, last) = volume.runs()
    page.phrase("V, zone 0, {} stores: {}, {} type 3 on drives {} and {} {} to {} flush of {}, {}, {}, {}",
                len(volume.stores), *type_3.span, *type_3.drives, *flush.span, *flush.drives)
    page.phrase("{} to {} reset of zone {} on {}, {}, {}, {} {} to {} flush of {}, {}, {}, {}",
                *reset.span, reset.stores[0].zone, *reset.drives, *lasting.span, *lasting.drives)
    page.phrase("{} to {} counters {} and {} on {}, {}, {}, {} {} to {} flush of {}, {}, {}, {}",
                *raised.span, *volume.entry(raised.stores[0]).generations, *raised.drives, *last.span, *last.drives)
    page.phrase("Reset of V's zone 0 ({} at {}, flushed), then a cut, after stores", *five_written().shown().split(" at "))
    (position, counts), *rows = page.table("| Reset of V's zone 0 (")
    page.compare(position, counts[-1].split()[-1], str(len(volume.stores)))
    for (position, cells), cut in zip(rows, ((max, none), (min, none), (max, oldest)), strict=True):
        for count, stands in zip(counts[1:], cells[1:], strict=True):
            first, final = re.search(r"(\d+)(?:(?:,| to) (\d+))?$", count).groups()
            gives = (after_reset(stores, *cut) for stores in range(int(first), int(final or first) + 1))
            page.compare(position, stands.replace("generation ", ""), either(gives))
    page.phrase("Without the flush {} to {}, a cut behind the counters could", *lasting.span)
    page.phrase("zone 3 of every drive back: the look would show zone 0 {} at {}, generation {}.", *counters_before_flush())


def none(views):
    return None


def oldest(views):
    return views[0]


def stopped_reset(count):
    volume = five_written()
    volume.store("flush", ALL_DRIVES)
    volume.store("reset", ALL_DRIVES, 0, count=count)
    return volume


def counters_before_flush():
    """A wrong reset: counters raised while the zone resets are still in the caches, and what a look may show then."""
    volume = stopped_reset(10)
    for d in range(V.D):
        volume.drives.append(d, GENERAL_LOG, counters(V, [2, 1]))
    volume.keep({}, max, oldest)
    record = volume.ask("look", ALL_DRIVES)[1].zones[0]
    return *in_words(record).split(" at "), record.generation


def after_reset(count, choose, recall):
    """What a look shows of zone 0 after a reset of so many stores and a cut."""
    volume = stopped_reset(count)
    volume.keep({}, choose, recall)
    record = volume.ask("look", ALL_DRIVES)[1].zones[0]
    return "empty, %d" % record.generation if record.condition == Condition.EMPTY else in_words(record)


def check_mount(page):
    """Section 9: the worked mount, and the other mounts told beside it."""
    page.phrase("V: write of 5 at 0, flush; write of 2 at 96, of 3 at 98; a reset of zone 0 stopped after one store. Power goes; drive 2 "
                "does not come back. Drive 0 keeps its type 3 and 4 sectors of its parity log, drives 1 and 3 keep one sector each of zone "
                "4. A look by drives 0, 1, 3:")
    volume = before_mount()
    zone_0, zone_1 = volume.ask("look", without(2))[1].zones
    type_3, torn = volume.walk(0, GENERAL_LOG).whole[-1][1], volume.walk(0, PARITY_LOG).torn[1]
    page.phrase("zone 0: type 3 of generation {} on drive 0 -> {}, generation {}", type_3.generation, in_words(zone_0), zone_0.generation)
    page.phrase("zone 1: offset 0 held on drive {}; 1 by the entry 96 to 98 on drive {} (row 1: {}); 2 was on drive {},",
                V.place(1, 0).drive, V.parity_drive(1, 0), volume.drives.sector(0, PARITY_LOG, 2), V.place(1, 2).drive)
    page.phrase("drive 3 has a sector too many -> {} at {}, generation {}", *in_words(zone_1).split(" at "), zone_1.generation)
    volume.store("mount", without(2))
    page.phrase("mount, {} stores drives", len(volume.stores))
    found = page.matches("stores drives", r"^ +(\d+ to \d+) +(\S.*?) {2,}(\d[\d ]*(?:, flush \d[\d ]*)?)$")
    steps = list(mount_steps(volume))
    page.compare(found[0][0], "%d steps that stored" % len(found), "%d steps that stored" % len(steps))
    for (position, match), (span, words, drives) in zip(found, steps):
        page.compare(position, match[1], span)
        page.compare(position, match[2].split(": the torn entry")[0], words)
        page.compare(position, match[3], drives)
    page.phrase("the torn entry ends at {}, past {}", torn.end, zone_1.pointer)
    page.phrase("11 nothing: the entry {} to {} is whole,", V.Q, V.Q + volume.walk(0, PARITY_LOG).whole[0][1].end)
    page.phrase("written drive 0: {} {} {} {} {} drive 1: {} {} {} {} {} drive 3: {} {} {} {} {}",
                *(volume.drives.written(d, y) for d in (0, 1, 3) for y in range(V.Z)))
    page.phrase("Stopped after any of the {} stores, and whatever a cut then keeps, the next look shows zone 0 {} and zone 1 {} at {}.",
                len(volume.stores), *stopped_mounts(len(volume.stores)))
    check_other_mounts(page)


def mount_steps(volume):
    """The page's lines of a mount: numbers, what was stored, drives; a step's flush is told with it."""
    parts = list(volume.runs())
    opening = parts[0]
    yield "%d to %d" % opening.span, "flush", joined(opening.drives)
    for step, flush in zip(parts[1::2], parts[2::2]):
        drives = "%s, flush %s" % (joined(step.drives), joined(flush.drives))
        yield "%d to %d" % (step.span[0], flush.span[1]), step_words(volume, step), drives


def joined(drives):
    return " ".join(str(d) for d in drives)


def step_words(volume, step):
    store = step.stores[0]
    if store.kind == "reset":
        return "5 reset of physical zone %d" % store.zone
    if store.zone == PARITY_LOG:
        return "8 %s of zeros" % {1: "one row", 2: "two rows"}[len(step.stores)] if not any(store.data) else "8 true rows"
    if store.zone >= FIRST_DATA_ZONE:
        return "9 zone %d of drive %d, sector %d: %s" % (store.zone, store.drive, store.sector, written_out(store.data))
    entry = volume.entry(store)
    if entry.type == LABEL:
        return "3 labels: lost drive %d" % entry.lost
    if entry.type == RESET:
        return "4 type 3 of zone %d, generation %d" % (entry.zone, entry.generation)
    if entry.type == COUNTERS:
        return "6 counters %d and %d" % entry.generations
    return "7 seal %d to %d, generation %d" % (*ends(store), entry.generation)


def stopped_mounts(stores):
    """What a look shows after the worked mount stopped anywhere, and a cut, with zones brought back that were reset: the first zone, the second one and
    its pointer."""
    seen, draw = set(), Random(1)
    for count in range(stores + 1):
        drawn = (lambda pair: draw.randint(*pair)), (lambda views: draw.choice([None, *views]))
        for cut in [(max, none), (min, none), (max, oldest)] + [drawn] * DRAWN_CUTS:
            volume = before_mount()
            volume.store("mount", without(2), count=count)
            volume.keep({}, *cut)
            seen.add((volume.shown(0, without(2)), volume.shown(1, without(2))))
    zone_0, zone_1 = (either(zones) for zones in zip(*seen))
    return zone_0, *zone_1.split(" at ", 1)


def check_other_mounts(page):
    j, k, torn, fresh = kept([2, 1, 1, 0], 0), kept([2, 1, 1, 0], 3), kept([2, 2, 1, 0], 1), formatted()
    page.phrase("so the entry is torn and the zone {} at {};", *torn.shown().split(" at "))
    for volume in (j, k, torn, fresh):
        volume.store("mount", ALL_DRIVES)
    entry, = [run for run in j.runs() if run.stores[0].zone == PARITY_LOG]
    page.phrase("case j of section 6 (sealed at 3) mounts with {} stores, of which {} to {} are a type 4 entry {} to {} on drive {}",
                len(j.stores), *entry.span, *ends(entry.stores[0]), *entry.drives)
    page.phrase("on drive 3 with rows {} and {}. Case k", *(store.data for store in entry.stores[1:]))
    _, raised, _, sector, _ = k.runs()
    page.phrase("Case k (open at 5) with {}: flush, counters {} and {}, flush, the sector {} on drive {}, flush.",
                len(k.stores), *k.entry(raised.stores[0]).generations, sector.stores[0].data, *sector.drives)
    rows, = [run.stores for run in torn.runs() if run.stores[0].zone == PARITY_LOG]
    page.phrase("the mount appends the rows {} and {}.", *(store.data for store in rows))
    page.phrase("One that finds an empty zone always stores counters: V, fresh: {} stores.", len(fresh.stores))
    mounts = 1
    while not fresh.drives.written(0, SPARE):
        room = fresh.drives.room(0, GENERAL_LOG)
        fresh.store("mount", ALL_DRIVES)
        mounts += 1
    page.phrase("Mount {} of it finds room for {} in each general log, empties them, and makes {}.", mounts, room, len(fresh.stores))
