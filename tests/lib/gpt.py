"""Tables as bytes (UEFI 2.10, 5.3): what the tests make and read by themselves. LBAs and lengths are in sectors."""
import collections
import re
import struct
import uuid
import zlib

from lib.program import TOP

ENTRY, ENTRIES = 128, 128
# attribute bits (Discoverable Partitions Specification)
NO_AUTO, READ_ONLY, GROW = 1 << 63, 1 << 60, 1 << 59
Type = collections.namedtuple("Type", "guid bits")
HEADER = "<8sIIIIQQQQ16sQIII"


def types_of_the_manual():
    """The types of docs/FORMATS.md by name: the GUID and the bits that it has."""
    bits = {"none": 0, "all": NO_AUTO | READ_ONLY | GROW, "no-auto": NO_AUTO, "no-auto, read-only": NO_AUTO | READ_ONLY}
    text = (TOP / "docs" / "FORMATS.md").read_text(encoding="utf-8")
    return {name: Type(guid, bits[said]) for name, guid, said in re.findall(r"^\| ([a-z0-9-]+) \| ([0-9a-f-]{36}) \| ([a-z, -]+) \|$", text, re.M)}


TYPES = types_of_the_manual()


def guid_of(kind):
    """The GUID of a type that is given by name or by itself."""
    return TYPES[kind].guid if kind in TYPES else kind


def entry(kind, ident, first, last, attributes=0, name=""):
    """An entry of the array, with its first and its last sector."""
    units = name.encode("utf-16-le")
    return (uuid.UUID(guid_of(kind)).bytes_le + uuid.UUID(ident).bytes_le
            + struct.pack("<QQQ", first, last, attributes) + units.ljust(72, b"\0"))


def array(rows, entries=ENTRIES):
    """The array of so many entries, from a map of slots to entries."""
    return b"".join(rows.get(slot, b"").ljust(ENTRY, b"\0") for slot in range(entries))


def array_sectors(entries=ENTRIES, sector=512):
    """The sectors that an array of so many entries takes."""
    return -(-ENTRY * entries // sector)


def summed(head):
    """The bytes of a header with their checksum."""
    return head[:16] + struct.pack("<I", zlib.crc32(head[:16] + bytes(4) + head[20:])) + head[20:]


def header(my_lba, other_lba, first, last, disk, array_lba, entries, sector=512):
    """A header's sector, for an array of these bytes."""
    return summed(struct.pack(HEADER, b"EFI PART", 0x00010000, 92, 0, 0, my_lba, other_lba, first, last, uuid.UUID(disk).bytes_le, array_lba,
                              len(entries) // ENTRY, ENTRY, zlib.crc32(entries))).ljust(sector, b"\0")


def protective_mbr(sectors):
    """The first 512 bytes, whose one record covers the disk (UEFI 2.10, 5.2.3)."""
    record = struct.pack("<B3sB3sII", 0, b"\0\2\0", 0xEE, b"\xff\xff\xff", 1, min(sectors - 1, 0xFFFFFFFF))
    return bytes(446) + record + bytes(48) + b"\x55\xaa"


def put(image, at, part):
    image[at:at + len(part)] = part


def image(sectors, first, last, rows, disk="aaaaaaaa-bbbb-4ccc-8ddd-eeeeeeeeeeee", sector=512, entries=ENTRIES):
    """An image with the same table in both copies."""
    made = bytearray(sectors * sector)
    put(made, 0, protective_mbr(sectors))
    end, table = sectors - 1, array(rows, entries)
    backup = end - array_sectors(entries, sector)
    put(made, sector, header(1, end, first, last, disk, 2, table, sector))
    put(made, 2 * sector, table)
    put(made, backup * sector, table)
    put(made, end * sector, header(end, 1, first, last, disk, backup, table, sector))
    return bytes(made)


# A reader of tables of 128 entries.

def header_at(image, at, sector, lba, array_lba):
    """What the header of a sector says of its table, if it is valid in itself: the array's checksum, the bounds and the disk."""
    head = image[at:at + sector]
    if len(head) < sector or head[:8] != b"EFI PART":
        return None
    _, revision, size, crc, _, my_lba, _, first, last, disk, array, entries, each, array_crc = struct.unpack_from(HEADER, head)
    if revision != 0x10000 or not 92 <= size <= sector or crc != zlib.crc32(head[:16] + bytes(4) + head[20:size]):
        return None
    return (array_crc, first, last, disk) if (my_lba, array, entries, each) == (lba, array_lba, ENTRIES, ENTRY) else None


def copy_of(image, sector, which):
    """The table that the copy `primary` or `backup` tells, or none: its bounds, its disk, and its used entries with their slots."""
    sectors = len(image) // sector
    lba, array_lba = (1, 2) if which == "primary" else (sectors - 1, sectors - 1 - array_sectors(ENTRIES, sector))
    found = header_at(image, lba * sector, sector, lba, array_lba)
    array = image[array_lba * sector:array_lba * sector + ENTRY * ENTRIES]
    if found is None or zlib.crc32(array) != found[0]:
        return None
    entries = [array[at:at + ENTRY] for at in range(0, ENTRY * ENTRIES, ENTRY)]
    return (*found[1:], tuple((slot, one) for slot, one in enumerate(entries) if one[:16] != bytes(16)))


def table_of(image, sector=512):
    """The table that an image shows, or none."""
    return copy_of(image, sector, "primary") or copy_of(image, sector, "backup")


# What the program prints of tables.

ROW = re.compile(r'(\d+) (?:(new|changed|same) (\S+) )?(\S+) start (\d+) size (\d+) id (\S+) attrs ([0-9a-f]{16}) name "(.*)"')
# `change` and `file` are those of a plan; start and size are in units of 512 bytes.
Row = collections.namedtuple("Row", "slot change file type start size id attrs name")


def rows_of(text):
    """The rows that `show`, `plan` and `apply` print, by slot."""
    found = [ROW.fullmatch(line) for line in text.splitlines()]
    return {int(one[1]): Row(int(one[1]), one[2], one[3], one[4], int(one[5]), int(one[6]), one[7], one[8], one[9]) for one in found if one}


def name_of(printed):
    """A name that is printed, as text."""
    units = re.sub(r"\\u([0-9a-f]{4})", lambda found: chr(int(found[1], 16)), printed)
    return units.encode("utf-16-le", "surrogatepass").decode("utf-16-le")
