#!/usr/bin/env python3
"""The expected output of the program log_walks, worked out from document 01 alone ("Log entries", the geometry of "Both edges").

    python3 scripts/expect_log_walks.py > crates/log_walks/stdout
"""
import struct

D, U, C, B, L = 4, 2, 32, 64, 2
Z = L + 3               # physical zones of a drive
K = (D - 1) * U         # sectors of a stripe
Q = (D - 1) * C         # sectors of a logical zone
DRIVE = 3
ARRAY = 0x0123456789ABCDEF


def parity_drive(zone, stripe):
    return (zone + stripe + D - 1) % D


def unit_drive(zone, stripe, unit):
    return (parity_drive(zone, stripe) + 1 + unit) % D


# ---- writing
def header(kind, start=0, end=0, generation=0, rest=b""):
    s = b"ZRV" + bytes([kind]) + struct.pack("<HH", 1, 0) + struct.pack("<QQQ", start, end, generation) + rest
    return s + bytes(B - len(s))


def label(lost):
    log2 = B.bit_length() - 1
    return header(1, rest=bytes([D, U, log2, DRIVE, lost, 0, 0, 0]) + struct.pack("<IIQ", C, Z, ARRAY))


def made(kind, x):
    """The entry of a type that the program makes from one number."""
    if kind == 1:
        return label(255 if x == 0 else x)
    if kind == 2:
        return header(2, rest=struct.pack("<QQ", x, 9))
    if kind == 3:
        return header(3, 0, Q, x)
    if kind == 4:
        return header(4, 0, x, 7)
    return header(5, Q, Q + x, 9)


# ---- reading: the fields of a legal entry, or None
def entry(s, parity_log):
    kind = s[3]
    if s[0:3] != b"ZRV" or s[4:8] != bytes([1, 0, 0, 0]) or parity_log != (kind == 4):
        return None
    start, end, generation = struct.unpack("<QQQ", s[8:32])
    if kind in (1, 2) and (start, end, generation) != (0, 0, 0):
        return None
    used = {1: 56, 2: 32 + 8 * L}.get(kind, 32)
    if any(s[used:]):
        return None
    if kind == 1:
        if list(s[32:36]) != [D, U, B.bit_length() - 1, DRIVE] or not (s[36] < D or s[36] == 255) or any(s[37:40]):
            return None
        capacity, zones, array = struct.unpack("<IIQ", s[40:56])
        return dict(kind=1, lost=s[36], array=array) if (capacity, zones) == (C, Z) else None
    if kind == 2:
        return dict(kind=2, generations=struct.unpack("<%dQ" % L, s[32:32 + 8 * L]))
    zone, inside = divmod(start, Q)
    if kind not in (3, 4, 5) or zone >= L:
        return None
    if kind == 3:
        fits = inside == 0 and end == start + Q and DRIVE in (unit_drive(zone, 0, 0), parity_drive(zone, 0))
    elif kind == 4:
        fits = inside % K == 0 and start < end < start + K and DRIVE == parity_drive(zone, inside // K)
    else:
        fits = inside == 0 and start < end <= start + Q
    return dict(kind=kind, zone=zone, start=start, end=end, generation=generation) if fits else None


def walk(log, n, parity_log):
    """The whole entries with their places, the position, the reason, the rows of a torn entry."""
    whole, p = [], 0
    while p < n:
        e = entry(log[p], parity_log)
        rows = min(e["end"] - e["start"], U) if e and e["kind"] == 4 else 0
        if e is None or p + 1 + rows > C:
            return whole, p, 1, None
        if p + 1 + rows > n:
            return whole, p, 2, n - p - 1
        whole.append((p, e))
        p += 1 + rows
    return whole, p, 0, None


# ---- the lines
zones = {0: [bytes(B)] * C, 1: [bytes(B)] * C}


def general(*words, n):
    whole, p, why, _ = walk(zones[0], n, False)
    lost, place, generation, reset, least = 255, 0, 0, 0, Q
    for at, e in whole:
        if e["kind"] == 1:
            lost = e["lost"]
        elif e["kind"] == 2:
            place, generation = at + 1, e["generations"][0]
        elif e["kind"] == 3 and (e["zone"], e["generation"]) == (0, 2):
            reset = 1
        elif e["kind"] == 5 and (e["zone"], e["generation"]) == (1, 9):
            least = min(least, e["end"] - e["start"])
    print(*words, p, why, lost, place, generation, reset, least)


def parity(*words, n):
    whole, p, why, rows = walk(zones[1], n, True)
    ends = [(at + 1, e["end"]) for at, e in whole if (e["zone"], e["generation"]) == (0, 7)]
    any_place = max([at for at, end in ends if end > 0], default=0)
    past_place = max([at for at, end in ends if end > 2], default=0)
    print(*words, p, why, any_place, past_place, *([rows] if why == 2 else []))


def changed(s, b):
    return s[:b] + bytes([s[b] ^ 1]) + s[b + 1:]


for kind in range(1, 6):
    for b in range(56):
        if kind == 4:
            zones[1][0], zones[1][3] = changed(made(4, 2), b), made(4, 2)
            parity("damaged", kind, b, n=6)
        else:
            zones[0][0], zones[0][1] = changed(made(kind, 2), b), made(kind, 2)
            general("damaged", kind, b, n=2)
for fill in range(1, 6):
    for n in range(5):
        zones[1][0] = made(4, fill)
        parity("torn", fill, n, n=n)
for i in range(15):
    zones[1][2 * i] = made(4, 1)
for fill, n in [(1, 30), (1, 31), (1, 32), (2, 31), (2, 32)]:
    zones[1][30] = made(4, fill)
    parity("full", fill, n, n=n)
for i, (kind, x) in enumerate([(1, 0), (2, 1), (1, 2), (3, 2), (5, 3), (5, 4), (2, 3), (1, 5)]):
    zones[0][i] = made(kind, x)
for n in range(10):
    general("mixed", n, n=n)
