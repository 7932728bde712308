"""The worked values of docs/FORMAT.md, section by section: each is computed by the model on the page's volume V and compared. Sections 8 and 9 are in
format_check_stores.py."""
import re

from format_cases import (ALL_DRIVES, ARRAY, FILLS, SPARE, V, Volume, before_compact, before_emptied_general_log, before_mount, either, ends,
                          five_written, formatted, kept, sector, without)
from format_check_hosts import check_compact, check_limits, check_shares
from format_check_stores import check_emptying, check_mount, check_stores
from format_numbers import (CLOSING, COUNTERS, FIRST_DATA_ZONE, GENERAL_LOG, LABEL, LOGS, MOST_ZONE_SECTORS, PARITY_LOG, PARTIAL_PARITY, RESET,
                            SEAL, SECTOR_SIZES, Answer, Condition)
from format_page import NotFound, Page
from format_volume import Geometry, Logs, closing, counters, header, partial_parity, reset_entry, seal

CALL_LETTERS = {"f": "format", "l": "look", "m": "mount", "w": "write", "u": "flush", "r": "reset", "k": "compact", "d": "read", "p": "peek",
                "o": "report"}


def check_geometry(page):
    """Introduction, sections 1 and 2."""
    page.phrase("V: D = {} drives, B = {} bytes, U = {} sectors, L = {} zones, C = {} sectors; array number {}",
                V.D, V.B, V.U, V.L, V.C, hex(ARRAY))
    page.phrase("one byte each: {}, {}, {}, {}, {}, {}, {}, {} for offsets 0 to 7 of a zone, then the offset itself", *(sector(a) for a in range(len(FILLS))))
    page.phrase("| Z, physical zones of a drive | L + 3 | {} |", V.Z)
    page.phrase("| K, data sectors of a stripe | (D − 1) × U | {} |", V.K)
    page.phrase("| Q, sectors of a logical zone | (D − 1) × C | {} |", V.Q)
    page.phrase("| R, what a mount may need of a parity log | L × (1 + U) + U | {} |", V.R)
    most = [max(L for L in range(1, 17) if Geometry(V.D, B, 1, L, 64).in_bounds()) for B in SECTOR_SIZES[:2]]
    page.phrase("at most {} for B = 64, {} for B = 128", *most)
    page.phrase("With V's D, B, U and L the least C is {}.", min(C for C in range(MOST_ZONE_SECTORS + 1) if Geometry(V.D, V.B, V.U, V.L, C).in_bounds()))
    page.phrase("D × Z × C × B bytes (V: {})", V.lengths()[0])
    page.phrase("D × Z numbers of 32 bits (V: {})", V.lengths()[1])


def check_placement(page):
    """Section 3: the picture, the addresses, the needs."""
    page.phrase("zone 0 (physical zone {}) zone 1 (physical zone {}) sectors " + "drive {} " * V.D * V.L + "0, 1",
                FIRST_DATA_ZONE, FIRST_DATA_ZONE + 1, *list(range(V.D)) * V.L)
    for position, line in page.block("V, addresses by drive (P: parity)")[3:]:
        sectors, *cells = re.findall(r"(P|\d+), ?(P|\d+)", line)
        page.compare(position, line.split()[-1], str(int(sectors[0]) // V.U))
        for column, cell in enumerate(cells):
            for x, stands in zip(map(int, sectors), cell):
                page.compare(position, stands, address_at(*divmod(column, V.D), x))
    for position, cells in page.table("| Address | s, j, r | p |")[1:]:
        z, a = divmod(int(cells[0]), V.Q)
        at = V.place(z, a)
        y = FIRST_DATA_ZONE + z
        page.compare(position, cells[1], "%d, %d, %d" % (at.stripe, at.unit, at.row) + (" (zone %d)" % z if z else ""))
        page.compare(position, cells[2], str(at.parity_drive))
        page.compare(position, cells[3], "%d, %d, %d" % (at.drive, y, at.sector))
        page.compare(position, cells[4], format(V.byte_of(at.drive, y, at.sector), ","))
    page.phrase("| needs of drives {}, {}, {}, {} |", *range(V.D))
    (_, pointers), (position, needs) = page.table("| V, zone 0, pointer n |")
    for pointer, need in zip(pointers[1:], needs[1:]):
        page.compare(position, need, " ".join(str(V.need(0, int(pointer), d)) for d in range(V.D)))


def address_at(z, d, x):
    """The address that lies in sector x of a drive, or P."""
    s, r = divmod(x, V.U)
    return "P" if d == V.parity_drive(z, s) else str(z * V.Q + V.row_offsets(s, r)[V.unit_of(z, s, d)])


def check_entries(page):
    """Sections 4 and 10: every dump, and the words about the dumped entries."""
    five, reset, lost, mounted = five_written(), formatted(), formatted(), before_mount()
    reset.store("reset", ALL_DRIVES, 0)
    lost.store("mount", without(0))
    sealed = kept([2, 1, 1, 0], 0)
    sealed.store("mount", ALL_DRIVES)
    mounted.store("mount", without(2))
    general, parity = before_emptied_general_log(), before_compact()
    general.store("reset", without(3), 0)
    parity.store("compact", ALL_DRIVES, 3)
    page.dumps({
        "drive 2 of V after a format with all drives": formatted().drives.sector(2, GENERAL_LOG, 0),
        "the same, on drive 1, by a mount without drive 0": only(lost, LABEL, 1),
        "every drive of V after a format: generations 1 and 1": formatted().drives.sector(1, GENERAL_LOG, 1),
        "after a reset of zone 0: 2 and 1": only(reset, COUNTERS, 1),
        "type 3: zone 0 of V, 0 to 96, generation 1 (drives 0 and 3)": only(reset, RESET, 3),
        "type 5: zone 0 of V sealed at 3, generation 1": only(sealed, SEAL, 2),
        "type 6: a general log emptied once": only(general, CLOSING, 0),
        "type 6: a parity log emptied once": only(parity, CLOSING, 3),
        "V, addresses 0 to 4 written to zone 0: sectors 0, 1 and 2 of drive 3's parity log": five.drives.sector(3, PARITY_LOG, 0),
        "V after the write of 5 at 0": five.state.to_bytes(),
        "V after the mount of section 9": mounted.state.to_bytes(),
    })
    page.phrase("At the C edge it is {} bytes, whatever D and L:", len(five.state.to_bytes()))
    page.phrase("type 3: zone 0 of V, 0 to 96, generation 1 (drives {} and {})", *sorted(V.reset_drives(0)))
    page.phrase("start {} 10: 05 00 00 00 00 00 00 00 01 00 00 00 00 00 00 00 end {}, generation {};", *ends(five.stores[-3]), 1)
    rows = [five.drives.sector(3, PARITY_LOG, x) for x in (1, 2)]
    page.phrase("row 0 {} in all {} bytes = {} ⊕ {} ⊕ {} addresses 0, 2, 4", rows[0], V.B, *(sector(a) for a in (0, 2, 4)))
    page.phrase("row 1 {} in all {} bytes = {} ⊕ {} addresses 1, 3", rows[1], V.B, *(sector(a) for a in (1, 3)))


def only(volume, kind, d):
    """The one entry of a type that the last call appended to a drive's logs."""
    data, = [store.data for store in volume.stores if store.drive == d and store.kind == "append" and volume.type_of(store) == kind]
    return data


def check_walks(page):
    """Section 5: the table of walks."""
    row = bytes(V.B)
    first = log_of(0, [partial_parity(V, 1, 2, 1), row, row, partial_parity(V, 1, 5, 1)])
    fifteen = [partial_parity(V, 0, 1, 0), row] * 15
    two_rows, elsewhere, one_row = (log_of(3, fifteen + [partial_parity(V, 0, n, 0)]) for n in (2, V.K + 2, 1))
    page.phrase("header 96 to 98, two rows, header 96 to 101; written 4 (drive 0) | one whole entry at {}, a torn one at {} without rows",
                first.whole[0][0], first.torn[0])
    page.phrase("header that wants two rows at sector 30; written 31 | no entry at {} ({}): {} is past C",
                *two_rows.bad, two_rows.bad.sector + 3)
    page.phrase("the same, of a stripe with its parity on another drive | no entry at {} ({})", *elsewhere.bad)
    page.phrase("header that wants one row at sector 30; written 31 | torn at {}", one_row.torn[0])
    zeros, complete = (log_of(0, [partial_parity(V, 1, 2, 1), row, row, last]) for last in (row, header(V, PARTIAL_PARITY, V.Q, V.Q + V.K, 1)))
    page.phrase("header 96 to 98, two rows, a sector of zeros; written 4 (drive 0) | no entry at {} ({})", *zeros.bad)
    page.phrase("header 96 to 98, two rows, header 96 to 102; written 4 (drive 0) | no entry at {} ({})", *complete.bad)
    check_roles(page)


def check_roles(page):
    """Section 5: the table of which zones are the logs."""
    copied, closed, lacking = formatted(), formatted(), Volume()
    copy_general_log(copied)
    copy_general_log(closed)
    closed.drives.append(0, SPARE, closing(V, GENERAL_LOG, 1))
    lacking.drives.append(0, 0, closing(V, PARITY_LOG, 1))
    rows = page.table("| Zones 0, 1, 2 of a drive of V |")[1:]
    for (position, (_, *zones)), volume in zip(rows, (formatted(), copied, closed, lacking), strict=True):
        logs = Logs(volume.drives, [0])
        found = [logs.zones.get((0, log), "lacks") for log in LOGS] + ["none" if logs.spare(0) is None else logs.spare(0)]
        page.compare(position, " ".join(zones), " ".join(str(zone) for zone in found))


def copy_general_log(volume):
    """What a format left in drive 0's general log, into its spare."""
    for x in (0, 1):
        volume.drives.append(0, SPARE, volume.drives.sector(0, GENERAL_LOG, x))


def log_of(d, sectors):
    """The walk of a parity log that holds these sectors."""
    volume = Volume()
    for sector in sectors:
        volume.drives.append(d, PARITY_LOG, sector)
    return volume.walk(d, PARITY_LOG)


def check_looks(page):
    """Section 6: the table of kept sectors, and the two entries."""
    before = None
    for position, (_, left, log, named, zone_0, _) in page.table("| | Kept of zone 0 | Of the parity log |")[1:]:
        left = before = before if left == "the same" else left
        volume = kept([int(count) for count in left.split(",")[0].split()], int(log))
        if "a seal at 3 on drive 0" in left:
            volume.drives.append(0, GENERAL_LOG, seal(V, 0, 3, 1))
        if "a type 3 on drive 0" in left:
            volume.drives.append(0, GENERAL_LOG, reset_entry(V, 0, 1))
        page.compare(position, zone_0, either(volume.shown(0, mask) for mask in masks_named(named)))
    row_0, row_1 = (five_written().drives.sector(3, PARITY_LOG, x) for x in (1, 2))
    page.phrase("3 is row 1 ⊕ address 1 = {} ⊕ {} = {}", row_1, sector(1), sector(3))
    page.phrase("0 is {} ⊕ {} ⊕ {}; 1 would need 3", row_0, sector(2), sector(4))
    check_two_entries(page)


def masks_named(words):
    """The masks of the column Named: all drives, each set of three too, or the drives listed."""
    if words.startswith("all"):
        return [ALL_DRIVES] + [without(d) for d in range(V.D) if words == "all, or any three"]
    return [sum(1 << int(d) for d in words.split(", "))]


def check_two_entries(page):
    volume = formatted()
    volume.write(0, 3)
    volume.write(3, 2)
    log = [volume.drives.sector(3, PARITY_LOG, x) for x in range(volume.drives.written(3, PARITY_LOG))]
    end = [entry.end for _, entry in volume.walk(3, PARITY_LOG).whole]
    page.phrase("two entries in drive 3's log: end {} with rows {} and {}, end {} with rows {} and {}.",
                end[0], *log[1:3], end[1], *log[4:])
    page.phrase("Kept 2 1 0 0 and the whole log, drives 1, 2, 3 named: offset 0 is {} ⊕ {} by the older entry", log[1], sector(2))
    page.phrase("1 is {} by the older", log[2])
    volume.keep({(d, FIRST_DATA_ZONE): count for d, count in enumerate([2, 1, 0, 0])})
    page.phrase("3 needs 1 held. {} at {}. With all four drives named: 3 and 4 come from the newer entry, and the zone is {} at {}.",
                *volume.shown(0, without(0)).split(" at "), *volume.shown().split(" at "))


def check_refusals(page):
    """Section 7: the room that the calls want, and the answers worked out."""
    mount, reset = (lambda volume: volume.store("mount", ALL_DRIVES)), (lambda volume: volume.store("reset", ALL_DRIVES, 0))
    write_1, write_5 = (lambda volume: volume.write(0, 1)), (lambda volume: volume.write(0, 5))
    cases = ((GENERAL_LOG, mount), (PARITY_LOG, mount), (GENERAL_LOG, reset), (PARITY_LOG, write_1))
    rooms = [least_room(log, call) for log, call in cases]
    page.phrase("V: mount {} and {}, reset {}, write of one sector at 0 {}, of five sectors {}.", *rooms, least_room(PARITY_LOG, write_5))
    check_refusals_on_v(page)


def check_refusals_on_v(page):
    five = five_written()
    page.phrase("read of 4 to 5: {}. Read of 95 and 96: {}. Read of 192: {}, of no sectors there too.",
                five.read(4, 2)[0], five.read(95, 2)[0], either(five.read(192, count)[0] for count in (0, 1)))
    page.phrase("Write at 4 or 6: {}, of no sectors at 6: {}, by host 2 there: {}.",
                either(five.write(at, 1) for at in (4, 6)), five.write(6, 0), five.write(6, 0, host=2))
    page.phrase("Compact of drive 4: {}, of drive 2 without it: {}.", five.store("compact", ALL_DRIVES, 4), five.store("compact", without(2), 2))
    page.phrase("Peek of 4: byte {}; without drive 2: {}, while a read of it without drive 2 gives its bytes, {}.",
                five.ask("peek", ALL_DRIVES, 4)[1], five.ask("peek", without(2), 4)[0], five.read(4, 1, without(2))[1])
    page.phrase("Mask 3 (drives 0 and 1): {}.", five.read(0, 1, 3)[0])
    at_0 = five.state.changed(zones={0: five.state.zones[0]._replace(pointer=0)})
    page.phrase("State open at 0: {}.", five.ask("read", ALL_DRIVES, 0, 1, V.B, state=at_0)[0])
    five.memory.written[V.Z + 4] = 33
    page.phrase("With a write pointer of 33 in zone 4 of drive 1: {}, also for a read in zone 0.", five.read(0, 1)[0])


def changed(sector, at, byte):
    """A sector with one byte changed."""
    return sector[:at] + bytes([byte]) + sector[at + 1:]


def check_bad_places(page):
    """Sections 7 and 10: the table of bad logs, and a place as a number. Of each row what is appended, and the drives named."""
    zeros, odd, generations = bytes(V.B), header(V, 7), counters(V, [1] * V.L)
    past_the_end = [(3, PARITY_LOG, data) for data in [partial_parity(V, 0, 1, 0), zeros] * 15 + [partial_parity(V, 0, 2, 0)]]
    cases = [([(2, GENERAL_LOG, zeros)], ALL_DRIVES), ([(2, GENERAL_LOG, zeros)], without(2)), ([(2, SPARE, zeros)], ALL_DRIVES),
             ([(2, GENERAL_LOG, changed(generations, 4, 2))], ALL_DRIVES), ([(2, GENERAL_LOG, odd)], ALL_DRIVES),
             ([(2, GENERAL_LOG, changed(generations, 6, 1))], ALL_DRIVES),
             ([(2, GENERAL_LOG, formatted().drives.sector(1, GENERAL_LOG, 0))], ALL_DRIVES), (past_the_end, ALL_DRIVES),
             ([(3, GENERAL_LOG, zeros), (1, PARITY_LOG, odd)], ALL_DRIVES),
             ([(0, SPARE, closing(V, GENERAL_LOG, 1)), (0, SPARE, zeros), (0, PARITY_LOG, odd)], ALL_DRIVES)]
    rows = page.table("| V, fresh, and at the write pointers of |")[1:]
    for (position, (words, stands)), (appended, named) in zip(rows, cases, strict=True):
        volume = formatted()
        if "emptied into it" in words:
            copy_general_log(volume)
        for d, y, data in appended:
            volume.drives.append(d, y, data)
        page.compare(position, stands, refused_at(*volume.ask("look", named)))
        page.compare(position, stands, refused_at(volume.store("mount", named), volume.bad_place))
    page.phrase("Drive 3, zone 1, sector 30 is {}.", 3 * 2**24 + 1 * 2**16 + 30)


def refused_at(answer, place):
    return "%d at drive %d, zone %d, sector %d" % (answer, *place) if answer else "finished"


def check_names(page):
    """Sections 7 and 10: the numbers' words."""
    rows = page.table("| | Word | Refused if |")[1:]
    refusals = [answer for answer in Answer if Answer.FINISHED < answer < Answer.NO_STATE]
    page.compare(rows[0][0], "%d refusals" % len(rows), "%d refusals" % len(refusals))
    for (position, (number, word, _)), answer in zip(rows, refusals):
        page.compare(position, "%s %s" % (number, word), "%d %s" % (answer, answer.name.lower().replace("_", " ")))
    page.phrase("condition (1: 0 {}, 1 {}, 2 {}, 3 {})", *(condition.name.lower() for condition in Condition))
    page.phrase("owner (1: 0 none, 1 host {}, 2 host {})", *(owner - 1 for owner in (1, 2)))


def check_matrix(page, answers):
    """Section 7: which call knows which refusal, by the answers of the vectors; and refusals 2, 3 and 8, which not every call meets there."""
    met = {name: set() for name in CALL_LETTERS.values()}
    for letter, code, *_ in answers:
        if letter in CALL_LETTERS and Answer.FINISHED < int(code) < Answer.NO_STATE:
            met[CALL_LETTERS[letter]].add(int(code))
    (_, numbers), *rows = page.table("| Call | 1 | 2 | 3 |")
    page.compare(rows[0][0], " ".join(cells[0] for _, cells in rows), " ".join(met))
    for position, (name, *marks) in rows:
        gives = met[name] | tried(name)
        stands = [number for number, mark in zip(numbers[1:], marks) if mark == "x"]
        page.compare(position, " ".join(stands), " ".join(str(number) for number in sorted(gives)))


def tried(name):
    """The refusals of a call where a drive's pointers are out of order, where a table is short, where two drives are named, past the last address, zone
    or drive, where a log's last header has its rows past the zone's end, and where an entry is gone with a drive."""
    calls = {"format": (ARRAY,), "write": (0, 5, 1, sector(5)), "reset": (0,), "compact": (0,), "read": (0, 1, V.B), "peek": (0,), "report": (V.L,)}
    past = {"write": (0, V.L * V.Q, 1, sector(5)), "reset": (V.L,), "compact": (V.D,), "read": (V.L * V.Q, 1, V.B), "peek": (V.L * V.Q,)}
    sectors, written, durable = V.lengths()

    def answer(arguments, named=ALL_DRIVES, change=lambda volume: None, lengths=None):
        volume = five_written()
        change(volume)
        if name in ("look", "read", "peek", "report"):
            return volume.ask(name, named, *arguments, lengths=lengths)[0]
        return volume.store(name, named, *arguments, lengths=lengths)

    own = calls.get(name, ())
    found = {answer(own, change=pointers_out_of_order), answer(own, lengths=(sectors - 1, written, durable)), answer(own, 0b11),
             answer(past.get(name, own)), answer(own, change=rows_past_the_end), answer(own, without(0), empty_parity_log)}
    return found - {Answer.FINISHED}


def pointers_out_of_order(volume):
    volume.memory.written[0] += V.C


def rows_past_the_end(volume):
    """Drive 3's parity log, which has 3 sectors: entries up to a header in its last sector."""
    for data in [partial_parity(V, 0, 1, 0), bytes(V.B)] * ((V.C - 4) // 2) + [partial_parity(V, 0, 1, 0)]:
        volume.drives.append(3, PARITY_LOG, data)


def empty_parity_log(volume):
    volume.drives.reset(3, PARITY_LOG)


def least_room(log, call):
    """The least room in one log of drive 3 with which a call on V, formatted, is not refused and does not empty that log. It is filled with old
    entries."""
    row = bytes(V.B)
    for room in range(V.C - 3, -1, -1):
        volume = formatted()
        while volume.drives.room(3, log) > room:
            more = volume.drives.room(3, log) - room
            rows = 0 if log == GENERAL_LOG else 2 if more == 3 else 1
            for sector in [partial_parity(V, 0, rows, 0) if rows else counters(V, [1] * V.L)] + [row] * rows:
                volume.drives.append(3, log, sector)
        if call(volume) or volume.drives.written(3, SPARE):
            return room + 1
    return 0


def check_script(page, replay):
    """Section 12: the first commands with their answers."""
    found = page.matches("g 4 64 2 2 32 g 0", r"^ +(\S.*?) {2,}(\S.*)$")
    for (position, match), gives in zip(found, replay([match[1] for _, match in found])):
        page.compare(position, match[2], gives)


def check(path, answers, replay):
    """Compares the page with the model and with the answers of the vectors; 0 if they agree. `replay` gives the answers to the lines of a script."""
    page = Page(path)
    for section in (check_geometry, check_placement, check_entries, check_walks, check_looks, check_refusals, check_bad_places, check_names,
                    check_shares, check_emptying, check_stores, check_limits, check_compact, check_mount, lambda page: check_matrix(page, answers), lambda page: check_script(page, replay)):
        try:
            section(page)
        except NotFound as missing:
            page.not_found(missing)
    for difference in page.differences:
        print(difference)
    if page.differences:
        print("format: %d differences between %s and the model" % (len(page.differences), path))
        return 1
    print("format: %d worked values of %s are as the model gives them" % (page.compared, path))
    return 0
