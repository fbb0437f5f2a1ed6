#!/usr/bin/env python3
"""The calls of `apply` stand in an order of which each stop leaves the old table or the goal, and wrong orders are broken by an image.

Nothing is run: the calls of small plans are made here, by the rules of docs/FORMATS.md, and what a stop leaves is read by a reader
of its own. The calls are parts, each ended by a sync: the growth, the contents of new partitions, of each copy its header closed
with zeros, its array and its header, and the protective MBR. A stop has all parts up to a sync, and of each call behind it nothing,
the whole, a first or a last part of its sectors, a single sector, all but one, or in place of one of these a torn sector of other
bytes: half of it new, any bytes, or bytes by which the sum over an array is the one that a header there wants. A torn header isn't
made to pass its checksum: that it doesn't is what the promise rests on. Then the image has to show the old table or the goal, hold
the bytes of old partitions, and, where the goal is shown, those of new ones.

The wrong orders are: each sync left out, each two parts that follow one another exchanged, the copies exchanged, and the contents
behind the copies. The test fails where the order as it is breaks, or where other wrong orders break than are noted here for each
image.
"""
import functools
import itertools
import random
import struct
import uuid
import zlib

from lib import gpt
from lib.images import random_bytes
from lib.program import end, wrong

FIRST, LAST = "first copy", "last copy"


# Bytes by which a sum comes out as it is wanted.

@functools.lru_cache(maxsize=None)
def patches(tail):
    """How each bit of the four bytes that stand so far from the end changes a CRC-32, as a basis: changes with their bits."""
    basis = {}
    for bit in range(32):
        bits = 1 << bit
        change = zlib.crc32(bits.to_bytes(4, "little") + bytes(tail - 4)) ^ zlib.crc32(bytes(tail))
        while change.bit_length() in basis:
            other, more = basis[change.bit_length()]
            change, bits = change ^ other, bits ^ more
        basis[change.bit_length()] = change, bits
    return basis


def forged(data, at, wanted):
    """The bytes with other four at this place, such that their CRC-32 is the wanted one."""
    bits = 0
    data = data[:at] + bytes(4) + data[at + 4:]
    change = zlib.crc32(data) ^ wanted
    while change:
        other, more = patches(len(data) - at)[change.bit_length()]
        change, bits = change ^ other, bits ^ more
    return data[:at] + bits.to_bytes(4, "little") + data[at + 4:]


# The plans.

def entry(first, last, name, number):
    return gpt.entry("home", str(uuid.UUID(int=number)), first, last, name=name)


class Case:
    """An image, a goal, and the parts of the calls that lead from one to the other."""

    def __init__(self, name, old, goal, rows, new, order, grows=False, sector=512, mbr=False):
        self.name, self.old, self.goal, self.sector = name, old, goal, sector
        sectors, array_sectors = len(goal) // sector, gpt.array_sectors(sector=sector)
        self.rows = [(at * sector, old[at * sector:(last + 1) * sector]) for at, last in rows]
        self.new = [(at * sector, goal[at * sector:(last + 1) * sector]) for at, last in new]
        self.had, self.wanted = gpt.table_of(old, sector), gpt.table_of(goal, sector)
        self.parts = [("growth", [("length", len(goal))])] if grows else []
        self.parts.append(("contents", [("write", at, data) for at, data in self.new]))
        for label, which in zip((FIRST, LAST), order):
            head, array = (1, 2) if which == "primary" else (sectors - 1, sectors - 1 - array_sectors)
            self.parts += [(f"close of the {label}", [("write", head * sector, bytes(sector))]),
                           (f"array of the {label}", [("write", array * sector, goal[array * sector:(array + array_sectors) * sector])]),
                           (f"header of the {label}", [("write", head * sector, goal[head * sector:(head + 1) * sector])])]
        if mbr:
            self.parts.append(("MBR", [("write", 446, goal[446:512])]))

    def fault_of(self, image):
        """What is wrong with an image that is left, or none."""
        if len(image) not in (len(self.old), len(self.goal)):
            return "it has another length"
        table = gpt.table_of(image, self.sector)
        if table not in (self.had, self.wanted):
            return "it shows no table" if table is None else "it shows a table that is neither the old one nor the goal"
        if any(image[at:at + len(data)] != data for at, data in self.rows):
            return "an old partition lost its bytes"
        if table == self.wanted and any(image[at:at + len(data)] != data for at, data in self.new):
            return "the goal is shown, and a new partition lacks its contents"
        return None


def cases():
    length, rows = 256, {0: entry(40, 47, "old", 1)}
    both = {**rows, 1: entry(48, 55, "new", 2)}

    def image(sectors, rows, sector=512):
        last = sectors - 2 - gpt.array_sectors(sector=sector)
        made = bytearray(gpt.image(sectors, 34 if sector == 512 else 6, last, rows, sector=sector))
        for slot, row in rows.items():
            first, end = struct.unpack_from("<QQ", row, 32)
            made[first * sector:(end + 1) * sector] = bytes([0xA0 + slot]) * ((end + 1 - first) * sector)
        return bytes(made)

    def turned(made, *places):
        made = bytearray(made)
        for place in places:
            made[place] ^= 1
        return bytes(made)

    old, goal = image(length, rows), image(length, both)
    first = image(length, {0: entry(48, 55, "new", 2)})
    new, end = [(48, 55)], 512 * length
    yield Case("a blank image", bytes(end), first, [], new, ("backup", "primary"), mbr=True)
    yield Case("a new partition beside an old one", old, goal, [(40, 47)], new, ("backup", "primary"))
    yield Case("a damaged primary", turned(old, 512 + 20), goal, [(40, 47)], new, ("primary", "backup"))
    yield Case("a damaged backup", turned(old, end - 512 + 20), goal, [(40, 47)], new, ("backup", "primary"))
    yield Case("both arrays damaged", turned(old, 1024 + 8 * 128 + 60, end - 512 * 33 + 8 * 128 + 60), first, [], new, ("backup", "primary"))
    yield Case("an image that grows", old, image(length + 64, both), [(40, 47)], new, ("backup", "primary"), grows=True, mbr=True)
    large = {0: entry(8, 9, "old", 1)}
    yield Case("sectors of 4,096 bytes", image(32, large, 4096), image(32, {**large, 1: entry(10, 11, "new", 2)}, 4096), [(8, 9)],
               [(10, 11)], ("backup", "primary"), sector=4096)


# What a stop leaves.

def remains_of(call, few):
    """What may be left of a call: how to change the bytes that were there, each with its words. None of all where there are others."""
    if call[0] == "length":
        return [("lost", None), ("done", call)]
    _, at, data = call
    step = 512
    cuts = list(range(0, len(data), step))
    found = [("lost", None), ("whole", call)]
    if len(data) < step or len(cuts) == 1:
        half = len(data) // 2
        return found + [("torn, half of it", ("write", at, data[:half])), ("torn", ("any", at, len(data), at))]
    places = cuts if not few else sorted({cuts[0], cuts[len(cuts) // 2], cuts[-1]})
    for cut in places:
        tail = f"sector {cut // step}"
        found += [(f"up to {tail}", ("write", at, data[:cut])), (f"from {tail} on", ("write", at + cut, data[cut:])),
                  (f"{tail} alone", ("write", at + cut, data[cut:cut + step])),
                  (f"up to {tail}, which is torn", ("torn", at, data[:cut], at + cut)),
                  (f"{tail} alone, torn", ("torn", at, b"", at + cut)),
                  (f"whole but for {tail}, which is torn", ("torn", at, data, at + cut))]
    return found


def done(image, call):
    if call[0] == "length":
        return image[:call[1]].ljust(call[1], b"\0")
    end = call[1] + len(call[2])
    return image[:call[1]] + call[2] + image[end:] if end <= len(image) else image


def torn_arrays(image, sector, at):
    """A sector of an array with a partition that nobody asked for, and bytes by which a valid header takes it."""
    sectors, array_sectors = len(image) // sector, gpt.array_sectors(sector=sector)
    for lba, array_lba in ((1, 2), (sectors - 1, sectors - 1 - array_sectors)):
        begin = array_lba * sector
        head = gpt.header_at(image, lba * sector, sector, lba, array_lba)
        if head is None or not begin <= at < begin + 16384:
            continue
        array = bytearray(image[begin:begin + 16384])
        place = at - begin
        array[place:place + 512] = entry(60, 61, "nobody's", 3).ljust(512, b"\0")
        found = forged(bytes(array), place + 3 * 128 + 60, head[0])
        yield image[:begin] + found + image[begin + 16384:]


def left(image, choice, sector, dice):
    """The images that are left where of each call this is left."""
    torn = []
    for _, call in choice:
        if call is None:
            continue
        if call[0] == "any":
            image = done(image, ("write", call[1], random_bytes(dice, call[2])))
        elif call[0] == "torn":
            image = done(image, ("write", call[1], call[2]))
            torn.append(call[3])
        else:
            image = done(image, call)
    yield image if not torn else done(image, ("write", torn[0], random_bytes(dice, 512)))
    for at in torn:
        yield from torn_arrays(image, sector, at)


def broken_by(case, parts, syncs):
    """Tries each stop; the first that breaks, in words, and how many images were tried. The syncs are the parts that have one."""
    dice, base, pending, behind, tried = random.Random(1), case.old, [], "nothing", 0
    for number, (name, calls) in enumerate(parts):
        pending.append((name, calls))
        if number not in syncs and number + 1 < len(parts):
            continue
        flat = [(part, call) for part, calls in pending for call in calls]
        kinds = [remains_of(call, len(flat) > 1) for _, call in flat]
        for choice in itertools.product(*kinds):
            for image in left(base, choice, case.sector, dice):
                tried += 1
                fault = case.fault_of(image)
                if fault:
                    what = "; ".join(f"{part}: {words}" for (part, _), (words, _) in zip(flat, choice))
                    return f"behind {behind}, with {what}: {fault}", tried
        for _, call in flat:
            base = done(base, call)
        behind, pending = name, []
    return None, tried


def wrong_orders(case):
    """Each wrong order: its name, its parts, and the parts that have a sync."""
    parts = case.parts
    all_syncs = set(range(len(parts)))
    for number in range(len(parts) - 1):
        yield f"no sync between {parts[number][0]} and {parts[number + 1][0]}", parts, all_syncs - {number}
    for number in range(len(parts) - 1):
        turned = parts[:number] + [parts[number + 1], parts[number]] + parts[number + 2:]
        yield f"{parts[number + 1][0]} before {parts[number][0]}", turned, all_syncs
    copies = [place for place, (name, _) in enumerate(parts) if name.endswith("copy")]
    begin, end = copies[0], copies[-1] + 1
    yield "the last copy before the first", parts[:begin] + parts[begin + 3:end] + parts[begin:begin + 3] + parts[end:], all_syncs
    contents = next(place for place, (name, _) in enumerate(parts) if name == "contents")
    yield "contents behind the copies", parts[:contents] + parts[contents + 1:end] + [parts[contents]] + parts[end:], all_syncs


# The wrong orders that an image breaks; nothing breaks the others.

def opened(label):
    """A header opens its copy before the array is there."""
    return [f"no sync between array of the {label} and header of the {label}", f"header of the {label} before array of the {label}"]


def torn(label):
    """An array is written under a header that is still valid."""
    return [f"no sync between close of the {label} and array of the {label}", f"array of the {label} before close of the {label}"]


SECOND = [f"no sync between header of the {FIRST} and close of the {LAST}", f"close of the {LAST} before header of the {FIRST}"]
COPIES = "the last copy before the first"
EMPTY = "contents behind the copies"
MUST = {
    "a blank image": [*opened(FIRST), *opened(LAST), EMPTY],
    "a new partition beside an old one": [*SECOND, *torn(LAST), *opened(LAST), EMPTY],
    "a damaged primary": [*SECOND, *opened(FIRST), COPIES, EMPTY],
    "a damaged backup": [*SECOND, *torn(LAST), *opened(LAST), COPIES, EMPTY],
    "both arrays damaged": [*torn(FIRST), *opened(FIRST), *torn(LAST), *opened(LAST), EMPTY],
    "an image that grows": [*SECOND, *torn(LAST), *opened(LAST), COPIES, EMPTY],
    "sectors of 4,096 bytes": [*SECOND, *torn(LAST), *opened(LAST), EMPTY],
}


for case in cases():
    fault, tried = broken_by(case, case.parts, set(range(len(case.parts))))
    print(f"{case.name}: {len(case.parts)} parts, {tried} images: " + (fault or "each shows the old table or the goal"), flush=True)
    if fault:
        wrong(f"{case.name}: {fault}")
    found, total = set(), 0
    for name, parts, syncs in wrong_orders(case):
        broken, _ = broken_by(case, parts, syncs)
        total += 1
        if broken:
            found.add(name)
    print(f"  of {total} wrong orders {len(found)} are broken by an image", flush=True)
    for name in sorted(found.symmetric_difference(MUST[case.name])):
        wrong(f"{case.name}: {name}: {'an image breaks it' if name in found else 'nothing breaks it'}")
end()
