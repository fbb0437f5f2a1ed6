"""Cases of `apply` that are unlike, on small images: what is stopped at each moment, and refused memory."""
import collections

from lib import definitions, gpt
from lib.images import ID

Case = collections.namedtuple("Case", "name image files words")
# bytes of partitions that are found again
FOUND = bytes(range(256)) * 1024


def table(sector=512, turned=None, longer=0):
    """4 MiB with one partition of 256 KiB; a byte may be damaged, and the disk longer."""
    unit = sector // 512
    sectors = 8192 // unit
    last = sectors - 2 - gpt.array_sectors(sector=sector)
    home = gpt.entry("home", ID, 2048 // unit, 2560 // unit - 1, name="home")
    made = bytearray(gpt.image(sectors, 2048 // unit, last, {1: home}, sector=sector))
    gpt.put(made, 1 << 20, FOUND)
    if turned is not None:
        made[turned] ^= 1
    return bytes(made) + bytes(longer)


def resettable():
    """8 MiB with a partition that is to be reset, and home of 1 MiB behind it."""
    generic = gpt.entry("linux-generic", ID, 2048, 2048 + 8192 - 1, name="linux-generic")
    home = gpt.entry("home", ID[:-1] + "6", 10240, 10240 + 2048 - 1, name="home")
    made = bytearray(gpt.image(16384, 2048, 16384 - 34, {0: generic, 1: home}))
    gpt.put(made, 1 << 20, FOUND)
    gpt.put(made, 5 << 20, FOUND[::-1])
    return bytes(made)


SWAP = {"b.conf": "Type=swap\nSizeMinBytes=64K\nSizeMaxBytes=64K\n"}
HOME_AND_SWAP = {"a.conf": "Type=home\nSizeMinBytes=64K\n", **SWAP}
PAIR = {"root.conf": "Type=root\nVerity=data\nVerityMatchKey=m\nCopyBlocks=root.raw\n",
        "root-verity.conf": "Type=root-verity\nVerity=hash\nVerityMatchKey=m\n", **SWAP}
RESET = {"a.conf": "Type=linux-generic\nFactoryReset=yes\nSizeMinBytes=4M\nWeight=0\n", "b.conf": "Type=home\nSizeMinBytes=1M\n"}

CASES = [
    Case("blank", lambda: bytes(3 << 20), HOME_AND_SWAP, []),
    Case("beside", table, HOME_AND_SWAP, []),
    Case("primary", lambda: table(turned=512 + 20), HOME_AND_SWAP, []),
    Case("primary-array", lambda: table(turned=1024 + 70), SWAP, []),
    Case("backup", lambda: table(turned=(4 << 20) - 512 + 20), HOME_AND_SWAP, []),
    Case("grown", table, HOME_AND_SWAP, ["--size=5M"]),
    Case("longer", lambda: table(longer=1 << 20), HOME_AND_SWAP, []),
    Case("sectors", lambda: table(4096), HOME_AND_SWAP, ["--sector-size=4096"]),
    Case("pair", table, PAIR, []),
    Case("reset", resettable, RESET, ["--factory-reset=on"]),
    Case("reset-grown", resettable, RESET, ["--factory-reset=on", "--size=10M"]),
]


def prepare(case, folder):
    """Writes a case's definitions and source into a folder, and gives the bytes of its image."""
    definitions.write(folder / "repart.d", case.files)
    (folder / "root.raw").write_bytes(b"root" * 150000)
    return case.image()
