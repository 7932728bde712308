"""The worked values of docs/FORMAT.md about the two hosts: shares, limits and compacts, on the page's volumes V and W."""
import re

from format_cases import ALL_DRIVES, ARRAY, V, before_compact, either, formatted
from format_check_stores import check_runs
from format_host import Host
from format_numbers import HOST_LIMITS, OPEN_ZONES, Answer
from format_volume import Geometry

W = Geometry(D=3, B=256, U=1, L=16, C=64)


def check_shares(page):
    """Sections 2 and 8: the limits, the shares of fresh logs, and writes up to a share's end."""
    page.phrase("Host 0 may hold {} zones open and host 1 may hold {}; the drives allow {} in all.", *HOST_LIMITS, OPEN_ZONES)
    for position, (words, share) in page.table("| Fresh | Share of each host |")[1:]:
        page.compare(position, share, fresh_share(geometry_in(words)))
        page.compare(position, "least" if "the least" in words else "larger", "least" if is_least(geometry_in(words)) else "larger")
    first = after_writes((0, 1), (1, 1), (2, 1), (3, 22))
    page.phrase("writes of 1 at 0, of 1 at 1, of 1 at 2 and of 22 at 3 leave {} of its share of drive 3.", first.state.shares[3][0])
    page.phrase("A write of 24 at 25 stores its entry of one row there and leaves {}.", left_by(first, 25, 24, 0))
    second = after_writes((0, 1), (1, 1), (2, 1), (3, 1))
    page.phrase("after writes of 1 at 0, at 1, at 2 and at 3 its share has {} left, and a write of 21 at 4 is {}:",
                second.state.shares[3][0], second.write(4, 21))
    page.phrase("Host 1 has its {} in both cases, and its write of 21 at 4 is {}.", second.state.shares[3][1], answer_word(second.write(4, 21, host=1)))


def geometry_in(words):
    """The geometry that a line of the table names: V, or V with some of its numbers changed."""
    return Geometry(**{name: getattr(V, name) for name in "DBULC"} | {name: int(number) for name, number in re.findall(r"([DBULC]) = (\d+)", words)})


def fresh_share(geometry):
    """What each host has of each drive after a format."""
    host = Host(geometry)
    host.store("format", 2**geometry.D - 1, ARRAY)
    return either(share for pair in host.state.shares[:geometry.D] for share in pair)


def is_least(g):
    return g.in_bounds() and not any(Geometry(g.D, g.B, g.U, g.L, C).in_bounds() for C in range(g.C))


def after_writes(*runs):
    """V, formatted and written by host 0: of each run its address and its sectors."""
    volume = formatted()
    for address, sectors in runs:
        assert volume.write(address, sectors) == Answer.FINISHED
    return volume


def left_by(volume, address, sectors, host):
    """What a finished write leaves of its host's share of drive 3; the number of a refused one."""
    answer = volume.write(address, sectors, host=host)
    return volume.state.shares[3][host] if answer == Answer.FINISHED else "refusal %d" % answer


def answer_word(answer):
    return "finished" if answer == Answer.FINISHED else str(int(answer))


class WideVolume(Host):
    """A host of W."""

    def __init__(self):
        super().__init__(W)
        self.all = 2**W.D - 1
        self.store("format", self.all, ARRAY)

    def write(self, host, zone, rest=False):
        """A write of one stripe at the zone's pointer, or of the zone's rest."""
        pointer = self.state.zones[zone].pointer
        sectors = W.Q - pointer if rest else W.K
        return self.store("write", self.all, host, zone * W.Q + pointer, sectors, bytes(sectors * W.B))

    def write_all(self, host, zones):
        """Writes of one stripe to each of these zones: the answer that they share."""
        return either(answer_word(self.write(host, zone)) for zone in zones)


def check_limits(page):
    """Section 8: refusals 18 and 19 on W."""
    page.phrase("W: D = {} drives, B = {} bytes, U = {} sector, L = {} zones, C = {} sectors, formatted. Each write is of {} sectors, a stripe,",
                W.D, W.B, W.U, W.L, W.C, W.K)
    volume = WideVolume()
    for position, (host, writes, stands, counting) in page.table("| Host | Writes | Answer | Zones that count")[1:]:
        first, last = re.search(r"zones? (\d+)(?: to (\d+))?$", writes).groups()
        if writes.startswith("the rest"):
            gives = answer_word(volume.write(int(host), int(first), rest=True))
        else:
            gives = volume.write_all(int(host), range(int(first), int(last or first) + 1))
        page.compare(position, stands, gives)
        page.compare(position, counting, "%d, %d, %d" % (volume.state.counting(W), *(volume.state.counting_to(h, W) for h in (0, 1))))
    volume = WideVolume()
    page.phrase("On a fresh W, host 0 writes zones 0 to {}.", most_zones(volume, 0) - 1)
    page.phrase("Its write to zone 14 is {}; host 1's is {}.", *(answer_word(volume.write(host, 14)) for host in (0, 1)))
    volume.store("mount", volume.all)
    page.phrase("After a mount all {} count and none to a host: a write to zone 14 is {} by either,",
                volume.state.counting(W) - volume.state.counting_to(0, W), either(answer_word(volume.write(host, 14)) for host in (0, 1)))
    page.phrase("host 1 may write {} of the others; a fifth is {}.", most_zones(volume, 1), answer_word(volume.write(1, 4)))


def most_zones(volume, host):
    """How many zones a host can write a stripe to, from zone 0 on."""
    for zone in range(W.L):
        if volume.write(host, zone) != Answer.FINISHED:
            return zone
    return W.L


def check_compact(page):
    """Section 8: a write past its host's share, the compact of that log, and the write again."""
    volume = before_compact()
    n, left = volume.state.zones[0].pointer, volume.state.shares[3][0]
    refused = volume.write(n, 1)
    volume.store("compact", ALL_DRIVES, 3)
    heading = "V, zone 0 written sector by sector by host 0: at"
    page.phrase(heading + " {} its share of drive 3 has {} left, and {} are wanted: {}. Compact of drive 3, {} stores:",
                n, left, 1 + min((n + 1) % V.K, V.U), refused, len(volume.stores))
    check_runs(page, heading, volume)
    shares = volume.state.shares[3]
    volume.store("compact", ALL_DRIVES, 3)
    page.phrase("Now both shares of drive 3 are {}, and stay so if it is compacted again. The write at 4 is then {}.",
                either(shares + volume.state.shares[3]), answer_word(volume.write(n, 1)))
    volume = after_writes((0, 2), (V.Q, 20))
    volume.store("compact", ALL_DRIVES, 3)
    law = (V.C - 1 - 2 * V.L * (1 + V.U) - V.U) // 2
    page.phrase("V: {}, as with zone 0 at 2 and zone 1 at 20, drive 3 compacted.", either(volume.state.shares[3] + (law,)))
