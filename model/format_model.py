#!/usr/bin/env python3
"""A second implementation of the volume, written along docs/FORMAT.md, and its uses. It is in format_volume.py, format_state.py, format_calls.py,
format_mount.py, format_host.py and format_grouped.py.

    model/format_model.py replay < crates/replay/stdin     the answers to a script of commands (section 12), one a line
    model/format_model.py grouped < c/vectors/grouped.txt  the same for segments with grouped stripes (section 13)
    model/format_model.py check docs/FORMAT.md crates/replay/stdout
                                                           the page's worked values against the model's, and which call knows which
                                                           refusal against the answers of the vectors
"""
import struct
import sys
import zlib

from format_check import check
from format_grouped import GroupedReplay, numbers, stream_bytes
from format_host import Host
from format_numbers import DESCRIPTOR_BYTES, Answer, Condition
from format_volume import Drives, Geometry, header

NOTHING_SHORT = (0, 0, 0, 0)
UNTOUCHED = bytes([0xEE]) * DESCRIPTOR_BYTES


def at(place):
    """Where a look or mount met the sector for which it was refused."""
    return ["at", *place] if place else []


def words(state):
    return ["lost", state.lost] + ["%d:%d:%d:%d" % record for record in state.zones] + ["%d/%d" % pair for pair in state.shares[:state.drives]]


class Replay:
    """Section 12: one host, and a script's commands carried out on it."""

    def __init__(self):
        self.host, self.short = None, NOTHING_SHORT

    def answer(self, line):
        letter, *arguments = line.split()
        arguments = [int(argument) for argument in arguments]
        if letter in "wurkdpo" and self.host.state is None:
            code, rest = Answer.NO_STATE, []
        else:
            code, rest = getattr(self, "command_" + letter)(*arguments) or (Answer.FINISHED, [])
        if letter != "n":
            self.short = NOTHING_SHORT
        return " ".join(str(word) for word in [letter, int(code), *self.checksums(), *self.kept_state(letter), *rest])

    def checksums(self):
        memory = self.host.memory
        pointers = struct.pack("<%dI" % (2 * len(memory.written)), *memory.written, *memory.durable)
        return zlib.adler32(memory.sectors), zlib.adler32(pointers)

    def kept_state(self, letter):
        if self.host.state is None:
            return ["none"]
        return words(self.host.state) if letter in "fmwurk" else ["same"]

    def lengths(self):
        memory = self.host.memory
        whole = (len(memory.sectors), len(memory.written), len(memory.durable))
        return tuple(max(0, length - short) for length, short in zip(whole, self.short))

    def buffer(self, sectors):
        return max(0, sectors * self.host.geometry.B - self.short[3])

    # ---- the calls

    def store(self, name, named, *arguments, count):
        return self.host.store(name, named, *arguments, count=count, lengths=self.lengths()), []

    def ask(self, name, named, *arguments):
        return self.host.ask(name, named, *arguments, lengths=self.lengths())

    def command_f(self, named, array, count):
        return self.store("format", named, array, count=count)

    def command_m(self, named, count):
        code, _ = self.store("mount", named, count=count)
        return code, at(self.host.bad_place)

    def command_w(self, named, host, address, sectors, seed, count):
        return self.store("write", named, host, address, sectors, stream_bytes(seed, self.buffer(sectors)), count=count)

    def command_u(self, named, count):
        return self.store("flush", named, count=count)

    def command_r(self, named, zone, count):
        return self.store("reset", named, zone, count=count)

    def command_k(self, named, drive, count):
        return self.store("compact", named, drive, count=count)

    def command_d(self, named, address, sectors):
        code, data = self.ask("read", named, address, sectors, self.buffer(sectors))
        return code, [] if code else [zlib.adler32(data)]

    def command_p(self, named, address):
        code, at = self.ask("peek", named, address)
        return code, [] if code else [at, zlib.adler32(self.host.memory.sectors[at:at + self.host.geometry.B])]

    def command_o(self, room):
        code, filled = self.ask("report", 0, room)
        if code:
            return code, []
        return code, [len(filled), zlib.adler32(b"".join(filled) + UNTOUCHED * (room - len(filled)))]

    def command_l(self, named):
        code, shown = self.ask("look", named)
        return code, at(shown) if code else words(shown) + [self.zone_checksum(named, shown, z) for z in range(self.host.geometry.L)]

    def zone_checksum(self, named, shown, z):
        """Of a read up to the pointer that a look shows."""
        g, n = self.host.geometry, shown.zones[z].pointer
        code, data = self.host.ask("read", named, z * g.Q, n, n * g.B, state=shown) if n else (Answer.FINISHED, b"")
        return "r%d" % code if code else zlib.adler32(data)

    # ---- what is no call

    def command_g(self, D, B, U, L, C):
        self.host = Host(Geometry(D, B, U, L, C))

    def command_y(self, D, B, U, L, C):
        self.host.geometry = Geometry(D, B, U, L, C)

    def command_n(self, sectors, written, durable, buffer):
        self.short = (sectors, written, durable, buffer)

    def command_c(self, seed):
        """A cut of drives whose resets last at once: nothing comes back."""
        memory = self.host.memory
        memory.remembered.clear()
        for i, x in zip(range(len(memory.written)), numbers(seed)):
            spread = max(0, memory.written[i] - memory.durable[i])
            memory.written[i] = memory.durable[i] = memory.durable[i] + x // 65536 % (spread + 1)

    def command_b(self, offset, value):
        self.host.memory.sectors[offset] = value

    def command_t(self, index, written, durable):
        self.host.memory.written[index], self.host.memory.durable[index] = written, durable

    def command_s(self, zone, generation, condition, pointer):
        self.change_zone(zone, generation=generation, condition=condition, pointer=0 if condition == Condition.EMPTY else pointer)

    def command_i(self, zone, owner):
        self.change_zone(zone, owner=owner)

    def command_x(self, lost):
        self.change_state(lost=lost)

    def command_h(self, drive, *shares):
        self.change_state(shares={drive: shares})

    def change_zone(self, zone, **fields):
        if self.host.state and zone < len(self.host.state.zones):
            self.change_state(zones={zone: self.host.state.zones[zone]._replace(**fields)})

    def change_state(self, **parts):
        if self.host.state:
            self.host.state = self.host.state.changed(**parts)

    def command_e(self, drive, zone, kind, start, end, generation):
        self.append(drive, zone, header(self.host.memory.geometry, kind, start, end, generation))

    def command_q(self, drive, zone, seed):
        self.append(drive, zone, stream_bytes(seed, self.host.memory.geometry.B))

    def append(self, drive, zone, data):
        drives = Drives(self.host.memory.geometry, self.host.memory)
        if drives.room(drive, zone) > 0:
            drives.append(drive, zone, data)


def replay(lines, script=None):
    """The answers to a script."""
    script = script or Replay()
    return [script.answer(line) for line in lines]


def main(arguments):
    if arguments == ["replay"]:
        print("\n".join(replay(sys.stdin)))
        return 0
    if arguments == ["grouped"]:
        print("\n".join(replay(sys.stdin, GroupedReplay())))
        return 0
    if len(arguments) == 3 and arguments[0] == "check":
        with open(arguments[2], encoding="utf-8") as answers:
            return check(arguments[1], [line.split() for line in answers], replay)
    print(__doc__, file=sys.stderr)
    return 2


if __name__ == "__main__":
    sys.exit(main(sys.argv[1:]))
