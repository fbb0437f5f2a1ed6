#!/usr/bin/env python3
"""Tables of sfdisk, sgdisk, parted and systemd-repart are shown as sfdisk tells them, and those find no fault in what `apply` wrote.

Tables in sectors of 4,096 bytes are compared with what fdisk tells. Each copy has to be what would be written. Then `apply` writes a
copy anew whose header was damaged, and changes images: a blank one, which gets a pair of data and hash tree, one beside whose partition
others are added, and one that a longer disk has. sfdisk, sgdisk and partx must find no fault and the same rows in them, and veritysetup
the tree of the root hash that the identifiers of a pair are.

Needs: sfdisk; where they are there, fdisk, sgdisk, parted, partx, veritysetup and systemd-repart
"""
import json
import os
import pathlib
import re
import tempfile

from lib import definitions
from lib.gpt import guid_of, name_of, rows_of
from lib.images import sparse
from lib.program import SEED, asked, end, expect, has, need, run, wrong

SFDISK = """label: gpt
label-id: 12345678-9ABC-4DEF-8123-456789ABCDEF
first-lba: 2048
size=8192, type=C12A7328-F81F-11D2-BA4B-00A0C93EC93B, name="EFI"
size=16384, type=4F68BCE3-E8CD-4DB1-96E7-FBCAF984B709, name="räume \\x22q\\x22", attrs="GUID:59,60"
start=40960, size=1000, type=0FC63DAF-8483-4772-8E79-3D69D8477DE4, name="日本", attrs="LegacyBIOSBootable"
"""

SGDISK = [
    "--new=1:2048:+1M", "--typecode=1:ef00", "--change-name=1:EFI",
    "--new=5:10240:20479", "--typecode=5:8300", "--change-name=5:größe",
    "--attributes=5:set:63", "--attributes=5:set:2",
    "--new=128:0:0", "--typecode=128:8200",
]


def shown(image, sector=512):
    """The table that `repart show` prints: its first line, and its rows by slot."""
    answer = run("show", f"--sector-size={sector}", image)
    if "primary=same backup=same" not in answer.out:
        wrong(f"{image}: {answer}")
    rows = {slot: (guid_of(row.type), row.start, row.size, row.id, int(row.attrs, 16), name_of(row.name)) for slot, row in rows_of(answer.out).items()}
    return answer.out.partition("\n")[0], rows


BITS = {"RequiredPartition": 0, "NoBlockIOProtocol": 1, "LegacyBIOSBootable": 2}


def attributes(text):
    """The bits of sfdisk's attributes, such as `LegacyBIOSBootable GUID:59,60`."""
    bits = 0
    for word in text.split():
        if word.startswith("GUID:"):
            bits |= sum(1 << int(bit) for bit in word[5:].split(","))
        else:
            bits |= 1 << BITS[word]
    return bits


def told(image):
    """The same table, by sfdisk."""
    table = json.loads(asked("sfdisk", "--json", image).out)["partitiontable"]
    first = (f"table primary sectors {os.path.getsize(image) // 512} usable {table['firstlba']}-{table['lastlba']}"
             f" disk {table['id'].lower()}")
    rows = {}
    for row in table.get("partitions", []):
        slot = int(row["node"][len(str(image)):]) - 1
        rows[slot] = (row["type"].lower(), row["start"], row["size"], row["uuid"].lower(), attributes(row.get("attrs", "")), row.get("name", ""))
    return first, rows


COLUMNS = re.compile(r"\S+?(\d+) +(\d+) +(\d+) +([0-9A-F-]{36}) +([0-9A-F-]{36}) *(.*)")


def told_large(image):
    """The rows of a table in sectors of 4,096 bytes, by fdisk, in units of 512 bytes; fdisk prints no bounds."""
    text = asked("fdisk", "--sector-size=4096", "--list", "--output=Device,Start,Sectors,Type-UUID,UUID,Name", image).out
    found = (COLUMNS.fullmatch(line.rstrip()) for line in text.splitlines())
    return {int(one[1]) - 1: (one[4].lower(), 8 * int(one[2]), 8 * int(one[3]), one[5].lower(), one[6]) for one in found if one}


def blank(folder, name):
    """An image of 64 MiB without a table."""
    return sparse(folder / (name + ".img"), 64 << 20)


def made(*words, **more):
    """Runs a tool that makes a table."""
    answer = asked(*words, **more)
    if answer.status:
        wrong(f"{words[0]} makes no table: {answer}")


def by_sfdisk(folder, name="sfdisk"):
    image = blank(folder, name)
    made("sfdisk", "--quiet", image, input=SFDISK.encode())
    return image


def by_sgdisk(folder):
    image = blank(folder, "sgdisk")
    made("sgdisk", *SGDISK, image)
    return image


def by_parted(folder):
    image = blank(folder, "parted")
    made("parted", "--script", image, "mklabel", "gpt", "mkpart", "'one two'", "1MiB", "10MiB",
         "mkpart", "größe", "linux-swap", "10MiB", "20MiB", "set", "1", "esp", "on")
    return image


def by_systemd_repart(folder):
    wish = definitions.write(folder / "repart.d", {"10-esp.conf": "Type=esp\nSizeMinBytes=8M\nSizeMaxBytes=8M\n",
                                                   "20-root.conf": "Type=root\nLabel=räume\n"})
    image = folder / "systemd-repart.img"
    made("systemd-repart", "--empty=create", "--size=64M", "--dry-run=no", f"--definitions={wish}", SEED, image)
    return image


def by_fdisk_large(folder):
    image = blank(folder, "fdisk-large")
    made("fdisk", "--sector-size=4096", image, input=b"g\nn\n1\n256\n2815\nt\nuefi\nn\n5\n2816\n5000\nw\n")
    return image


def by_parted_large(folder):
    image = blank(folder, "parted-large")
    made("parted", "--script", image, "mklabel", "gpt", "mkpart", "one", "1MiB", "10MiB", "mkpart", "two", "10MiB", "20MiB",
         env={**os.environ, "PARTED_SECTOR_SIZE": "4096"})
    return image


MAKERS = {"sfdisk": by_sfdisk, "sgdisk": by_sgdisk, "parted": by_parted, "systemd-repart": by_systemd_repart}


def judged(image):
    """Whether sfdisk and sgdisk find no fault in an image, and sfdisk the table that is shown; gives its rows."""
    table = shown(image)
    expect(f"{image}: as sfdisk tells it", table, told(image))
    for tool, good in (("sfdisk", "No errors detected"), ("sgdisk", "No problems found")):
        if tool in there:
            answer = asked(tool, "--verify", image)
            if answer.status or good not in answer.out:
                wrong(f"{image}: {tool}: {answer}")
    return table[1]


def by_partx(image, rows):
    """partx tells the same rows."""
    answer = asked("partx", "--show", "--noheadings", "--output=NR,START,SECTORS,TYPE,UUID", image)
    ours = [[str(slot + 1), str(start), str(size), kind, ident] for slot, (kind, start, size, ident, _, _) in sorted(rows.items())]
    expect(f"{image}: as partx tells it", [line.split() for line in answer.out.splitlines()], ours)


def by_veritysetup(folder, image, rows):
    """veritysetup verifies the pair of an image, where there is one."""
    pair = [next((row for row in rows.values() if row[0] == guid_of(kind)), None) for kind in ("root-x86-64", "root-x86-64-verity")]
    if None in pair:
        return
    parts = []
    for name, (_, start, size, *_) in zip(("data", "hash"), pair):
        parts.append(folder / (name + ".part"))
        with open(image, "rb") as whole:
            whole.seek(512 * start)
            parts[-1].write_bytes(whole.read(512 * size))
    answer = asked("veritysetup", "verify", *parts, "".join(row[3] for row in pair).replace("-", ""))
    if answer.status:
        wrong(f"{image}: veritysetup: {answer}")


def changed(folder, image, files, *options):
    """`apply` changes an image by these definitions, and the others find no fault in it."""
    wish = definitions.write(tempfile.mkdtemp(dir=folder), {name: lines.replace("ROOT", str(folder / "root.raw")) for name, lines in files.items()})
    answer = run("apply", f"--definitions={wish}", SEED, *options, image)
    if answer.status or not answer.out.endswith("\napplied\n"):
        return wrong(f"{image}: {answer}")
    rows = judged(image)
    if "partx" in there:
        by_partx(image, rows)
    if "veritysetup" in there:
        by_veritysetup(folder, image, rows)


PAIR = {
    "10-root.conf": "Type=root\nVerity=data\nVerityMatchKey=root\nCopyBlocks=ROOT\n",
    "20-root-verity.conf": "Type=root-verity\nVerity=hash\nVerityMatchKey=root\n",
    "30-home.conf": "Type=home\n",
}


def of_others(folder):
    """Tables that others made are shown as others tell them."""
    for tool, make in MAKERS.items():
        if tool in there:
            image = make(folder)
            expect(f"the table of {tool}", shown(image), told(image))
    for tool, make in (("fdisk", by_fdisk_large), ("parted", by_parted_large)):
        if tool in there and "fdisk" in there:
            image = make(folder)
            rows = {slot: (kind, start, size, ident, name) for slot, (kind, start, size, ident, _, name) in shown(image, 4096)[1].items()}
            expect(f"the table of {tool} in large sectors", (bool(rows), rows), (True, told_large(image)))


def rewritten(folder):
    """A copy that was damaged is written anew."""
    image = by_sfdisk(folder, "rewritten")
    before = shown(image)
    with open(image, "r+b") as file:
        file.seek(512 + 16)
        file.write(bytes(4))
    changed(folder, image, {})
    expect("the table of the copy that was written anew", shown(image), before)


def of_apply(folder):
    """Images that `apply` changed."""
    (folder / "root.raw").write_bytes(os.urandom((600 << 10) + 7))
    image = blank(folder, "applied")
    changed(folder, image, PAIR, "--empty=require")
    # a longer disk, whose table's second copy isn't at the end
    os.truncate(image, 96 << 20)
    changed(folder, image, PAIR)
    changed(folder, image, PAIR, "--size=128M")
    changed(folder, by_sfdisk(folder, "beside"), {"50-swap.conf": "Type=swap\nSizeMaxBytes=8M\n", "60-var.conf": "Type=var\n"})


need("sfdisk")
there = {"sfdisk", *(tool for tool, part in (
    ("fdisk", "no tables in sectors of 4,096 bytes are compared"), ("sgdisk", "it makes no table and judges none"),
    ("parted", "it makes no table"), ("systemd-repart", "it makes no table"), ("partx", "it isn't asked for rows"),
    ("veritysetup", "it isn't asked whether trees are right")) if has(tool, part))}
with tempfile.TemporaryDirectory() as name:
    top = pathlib.Path(name)
    of_others(top)
    rewritten(top)
    of_apply(top)
end()
