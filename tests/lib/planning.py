"""A second planner, for blank disks alone: what new partitions get by their limits, weights and priorities, after repart.d(5) and
docs/DECISIONS.md.

Sizes are in grains of 4,096 bytes, places and lengths that are printed in units of 512 bytes.
"""
import hmac
import struct
import uuid

from lib.gpt import array_sectors
from lib.reading import Item, definitions_of
from lib.verity import BLOCK, digest, salt_of, tree_over

FIRST, SLOTS = 2048, 128
MOST = 1 << 32


class Refused(Exception):
    """Why nothing is planned: the status, and what is printed behind it."""

    def __init__(self, status, text):
        super().__init__(text)
        self.status, self.text = status, text


def grains(bytes_):
    return -(-bytes_ // BLOCK)


def hash_blocks(blocks):
    """The blocks of a superblock and the tree over so many blocks."""
    many = 1
    while blocks > 1:
        blocks = -(-blocks // 128)
        many += blocks
    return many


def derived(seed, text, number=0):
    """The identifier with a number that a seed gives a text."""
    made = bytearray(hmac.new(seed, text + (struct.pack("<Q", number) if number else b""), "sha256").digest()[:16])
    made[6] = 0x40 | made[6] & 0x0F
    made[8] = 0x80 | made[8] & 0x3F
    return str(uuid.UUID(bytes=bytes(made)))


def shares(span, items):
    """How a span is divided: from the least of each, grain by grain, each to the item whose number of grains by its weight is least
    then; of two alike the first has it."""
    def at(level):
        return [max(item.least, min(item.most, level * item.weight >> 20)) for item in items]

    low, high = 0, 1 << 60
    while low + 1 < high:
        middle = (low + high) // 2
        low, high = (middle, high) if sum(at(middle)) <= span else (low, middle)
    found = at(low)
    # no item gains more than a grain from one level to the next
    while sum(found) < span:
        able = [place for place, item in enumerate(items) if item.weight and found[place] < item.most]
        if not able:
            break
        best = able[0]
        for place in able[1:]:
            if (found[place] + 1) * items[best].weight < (found[best] + 1) * items[place].weight:
                best = place
        found[best] += 1
    return found


def sized(definitions, lengths):
    """The sizes that are asked for, by what the sources' lengths need; or the first that is too large."""
    asked = []

    def blocks_of(one):
        return max(one.size.least, grains(lengths[one.source]), 1)

    for one in definitions:
        most = min(one.size.most, MOST)
        if one.half == "off":
            least = max(one.size.least, grains(lengths[one.source]) if one.source is not None else 0)
        elif one.half == "data":
            least = blocks_of(one)
        else:
            least = max(one.size.least, hash_blocks(min(blocks_of(definitions[one.partner]), MOST)))
        judged = one.half != "hash" or blocks_of(definitions[one.partner]) <= MOST
        if judged and least > most:
            raise Refused(5, f"SourceTooLarge {one.file} {min(BLOCK * least, (1 << 64) - 1)} {BLOCK * most}")
        asked.append(one.size._replace(least=least) if one.half == "off" else Item(least, least, 0))
    return asked


def kept_of(definitions, sizes, span):
    """The places of the definitions that get a partition: those of the highest priorities are dropped until all fit, but never those of
    0 or less."""
    def tried(threshold):
        room, kept = span, []
        for place, one in enumerate(definitions):
            if one.priority <= threshold:
                need = sizes[place].least + one.padding.least
                if need > room:
                    raise Refused(5, f"Room {one.file} {BLOCK * need} {BLOCK * room}")
                room -= need
                kept.append(place)
        if len(kept) > SLOTS:
            raise Refused(5, f"Slot {definitions[kept[SLOTS]].file}")
        return kept

    for threshold in sorted({(1 << 31) - 1, *(one.priority - 1 for one in definitions if one.priority > 0)}, reverse=True):
        try:
            return tried(threshold)
        except Refused:
            pass
    return tried(0)


def roots_of(definitions, sizes, sources, seed):
    """The root hash of each pair, by the place of its data."""
    roots = {}
    for place, one in enumerate(definitions):
        if one.half == "data":
            salt, data = salt_of(seed, one.guid), sources[one.source]
            digests = [digest(salt, data[at:at + BLOCK].ljust(BLOCK, b"\0")) for at in range(0, len(data), BLOCK)]
            digests += [digest(salt, bytes(BLOCK))] * (sizes[place].least - len(digests))
            roots[place] = tree_over(digests, salt)[0]
    return roots


def identifiers(definitions, kept, roots, seed):
    """The identifiers of the partitions: those that are given, in order, and then those that are derived, in order."""
    found = {}
    for place in kept:
        one = definitions[place]
        half = roots[place][:16] if one.half == "data" else roots[one.partner][16:] if one.half == "hash" else None
        given = one.id or (str(uuid.UUID(bytes=half)) if half else None)
        if given in found.values():
            raise Refused(5, f"TakenIdentifier {one.file}")
        if given:
            found[place] = given
    for place in kept:
        number = 0
        while place not in found:
            made = derived(seed, uuid.UUID(definitions[place].guid).bytes, number)
            if made not in found.values():
                found[place] = made
            number += 1
    return found


def escaped(text):
    """A name as it is printed."""
    data = text.encode("utf-16-le")
    units = struct.unpack(f"<{len(data) // 2}H", data)
    return "".join(chr(unit) if 0x20 <= unit <= 0x7E and unit not in (0x22, 0x5C) else f"\\u{unit:04x}" for unit in units)


def goal(definitions, ignored, sources, size, seed):
    """What `plan` prints for a blank image, but for its last line."""
    for one in definitions:
        if one.source is not None and one.source not in sources:
            raise Refused(8, "source")
    key = uuid.UUID(seed.replace("--seed=", "")).bytes
    units = size // 512
    last = units - 2 - array_sectors()
    sizes = sized(definitions, {name: len(data) for name, data in sources.items()})
    kept = kept_of(definitions, sizes, (last + 1) // 8 - FIRST // 8)
    names = identifiers(definitions, kept, roots_of(definitions, sizes, sources, seed), key)
    divided = shares((last + 1) // 8 - FIRST // 8, [item for place in kept for item in (sizes[place], definitions[place].padding)])
    lines, start = [f"plan target {units} usable {FIRST}-{last} disk {derived(key, b'disk-uuid')}"], FIRST // 8
    for slot, place in enumerate(kept):
        one, (own, padding) = definitions[place], divided[2 * slot:2 * slot + 2]
        name = escaped(one.type if one.label is None else one.label)
        lines.append(f'{slot} new {one.file} {one.type} start {8 * start} size {8 * own} id {names[place]} attrs {one.attrs:016x} name "{name}"')
        start += own + padding
    lines += [f"dropped {one.file}" for place, one in enumerate(definitions) if place not in kept] + [f"ignored {ignored}"]
    return "\n".join(lines) + "\n"


def planned(tops, sources, size, seed):
    """The status of `plan --empty=allow` on a blank image of this length, and what it prints but for the last line."""
    read, ignored = definitions_of(tops)
    if read is None:
        return 3, f"error 3 {ignored}\n"
    try:
        return 0, goal(read, ignored, sources, size, seed)
    except Refused as refused:
        return refused.status, f"error {refused.status} {refused.text}\n"
