"""Images that tests show, plan and check, each the same byte for byte each time."""
import struct
import uuid

from lib import gpt
from lib.gpt import entry, image, put
from lib.verity import partition_over

ID, OTHER = "11111111-2222-4333-8444-555555555555", "11111111-2222-4333-8444-666666666666"
LUKS = b"LUKS\xba\xbe"
ESP = entry("esp", ID, 40, 87, name="EFI")


def full(entries, used=None):
    """64 MiB with so many of the entries used, or all of them, each by a partition of 4 KiB."""
    rows = {k: entry("esp", str(uuid.UUID(int=k + 1)), 2048 + 8 * k, 2055 + 8 * k, name=f"row {k}") for k in range(used or entries)}
    return image(131072, 2048, 131070 - gpt.array_sectors(entries), rows, entries=entries)


def small():
    """64 KiB with one EFI system partition."""
    return image(128, 34, 94, {0: ESP})


def wider():
    """The small image with a primary header of 132 entries, whose array is broken. The backup is as it was."""
    made = bytearray(small())
    put(made, 512 + 80, struct.pack("<I", 132))
    put(made, 512, gpt.summed(bytes(made[512:512 + 92])))
    return bytes(made)


def pair(turned=False, begin=b""):
    """128 KiB with an EFI system partition and a root file system with its hash tree, whose top block may have a turned bit. The
    file system may begin with other bytes."""
    data = begin + (bytes(range(256)) * 64)[len(begin):]
    root, hashes = partition_over(data, b"salt", uuid.UUID(ID))
    hashes = bytearray(hashes)
    hashes[4096 + 1] ^= turned
    made = bytearray(image(256, 34, 222, {
        0: entry("esp", ID, 40, 87, name="EFI"),
        1: entry("root-x86-64", str(uuid.UUID(bytes=root[:16])), 88, 119, gpt.READ_ONLY, "root"),
        2: entry("root-x86-64-verity", str(uuid.UUID(bytes=root[16:])), 120, 135, gpt.READ_ONLY, "root-verity")}))
    put(made, 512 * 88, data)
    put(made, 512 * 120, hashes)
    return bytes(made)


def luks(last=87, attributes=0):
    """The small image, whose partition begins as an encrypted volume and ends here, and has these attributes."""
    made = bytearray(image(128, 34, 94, {0: entry("esp", ID, 40, last, attributes, "EFI")}))
    put(made, 512 * 40, LUKS)
    return bytes(made)


IMAGES = {
    "small": small,
    # 64 MiB with one EFI system partition
    "esp": lambda: image(131072, 2048, 131038, {0: entry("esp", ID, 2048, 22527, name="EFI")}),
    # the same in sectors of 4,096 bytes
    "large-sectors": lambda: image(16384, 256, 16378, {0: entry("esp", ID, 256, 2815, name="EFI")}, sector=4096),
    # 64 MiB, 256 entries, one swap partition in slot 200
    "wide": lambda: image(131072, 2048, 131006, {200: entry("swap", ID, 2048, 22527, name="swap")}, entries=256),
    # 64 MiB with as many partitions as entries
    "full": lambda: full(128),
    "full-wide": lambda: full(1024),
    # 64 MiB, 1,024 entries, 800 of them used
    "many": lambda: full(1024, 800),
    "wider": wider,
    # for image policies: a root file system and its hash tree, the same with a turned bit in the tree's top block
    "pair": pair,
    "turned": lambda: pair(True),
    # the pair, whose data begin as an encrypted volume
    "luks-pair": lambda: pair(begin=LUKS),
    # the small image with other bounds than a table of its size has
    "narrow": lambda: image(128, 34, 90, {0: ESP}),
    # an encrypted partition, the same in 7 sectors, and the same where it isn't to be found by itself
    "luks": luks,
    "short-luks": lambda: luks(46),
    "hidden": lambda: luks(87, gpt.NO_AUTO),
    # two EFI system partitions
    "two": lambda: image(128, 34, 94, {3: entry("esp", ID, 40, 47), 5: entry("esp", OTHER, 48, 55)}),
}


def random_bytes(dice, many):
    """So many bytes by chance."""
    return dice.getrandbits(8 * many).to_bytes(many, "little") if many else b""


def random_guid(dice):
    return "%08x-%04x-4%03x-8%03x-%012x" % tuple(dice.getrandbits(bits) for bits in (32, 16, 12, 12, 48))


def sparse(path, size, *parts):
    """Writes a file of so many zero bytes, but for these parts at their places."""
    with open(path, "wb") as file:
        for at, part in parts:
            file.seek(at)
            file.write(part)
        file.truncate(size)
    return path
