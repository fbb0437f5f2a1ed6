#!/usr/bin/env python3
"""`apply` writes the hash tree that veritysetup makes, byte for byte, and `check` finds what is damaged in it.

Of each number of data blocks, from none to three levels of hash blocks: the partition that `apply` writes is compared with the one that
veritysetup makes by the same salt and UUID, and its root hash with the identifiers; veritysetup verifies it; and `check` says which block
is wrong where a byte of each part is changed.

Needs: veritysetup
"""
import pathlib
import random
import tempfile
import uuid

from lib import definitions
from lib.gpt import rows_of
from lib.images import random_bytes, sparse
from lib.program import SEED, asked, end, expect, need, run, wrong
from lib.verity import BLOCK, salt_of

DATA = "Type=root\nVerity=data\nVerityMatchKey=m\nCopyBlocks=data\n"
HASH = "Type=root-verity\nVerity=hash\nVerityMatchKey=m\n"


def level_sizes(blocks):
    """The blocks of each level, the topmost first."""
    sizes = []
    while blocks > 1:
        blocks = (blocks + 127) // 128
        sizes.insert(0, blocks)
    return sizes


def by_veritysetup(data, hashes, ident):
    """Makes a hash partition, and gives its root hash."""
    if hashes.exists():
        hashes.unlink()
    made = asked("veritysetup", "format", data, hashes, f"--salt={salt_of(SEED, 'root-x86-64').hex()}", f"--uuid={ident}")
    return next((line.split()[-1] for line in made.out.splitlines() if line.startswith("Root hash:")), f"none: {made.err}")


def damages(blocks):
    """Bytes that are changed, in the data and then in the hash partition behind it, and what `check` says first then."""
    sizes, start = level_sizes(blocks), blocks * BLOCK
    yield start + 8, "superblock"
    yield start + 64, "superblock"
    yield start + 16, None
    yield start + 300, None
    yield start + 360, None
    yield 5, "data 0" if sizes else "top"
    if not sizes:
        return
    yield (blocks - 1) * BLOCK + 4095, f"data {blocks - 1}"
    yield (blocks // 2) * BLOCK + 77, f"data {blocks // 2}"
    number = 1
    for level, size in enumerate(sizes):
        for place in sorted({0, size // 2, size - 1}):
            yield start + (number + place) * BLOCK + 3, "top" if level == 0 else f"hash {number + place}"
        number += size


def part(image, row):
    with open(image, "rb") as file:
        file.seek(512 * row.start)
        return file.read(512 * row.size)


def compare(folder, blocks, length=None):
    """One number of data blocks; the source may be shorter, and zeros follow."""
    what, length = f"{blocks} blocks", blocks * BLOCK if length is None else length
    (folder / "data").write_bytes(random_bytes(random.Random(blocks), length))
    wish = {"root.conf": DATA + f"SizeMinBytes={blocks * BLOCK}\n", "root-verity.conf": HASH}
    options = [f"--definitions={definitions.write(folder / 'repart.d', wish)}", SEED]
    image = sparse(folder / "image", (3 << 20) + (blocks + blocks // 64) * BLOCK)
    done = run("apply", "--empty=allow", *options, image, cwd=folder)
    rows = {row.type: row for row in rows_of(done.out).values()}
    if done.status:
        return wrong(f"{what}: {done}")
    data, hashes = rows["root-x86-64"], rows["root-x86-64-verity"]
    expect(f"{what}: sizes", (data.size, hashes.size), (8 * blocks, 8 * (1 + sum(level_sizes(blocks)))))
    ours, theirs = folder / "ours", folder / "theirs"
    ours.write_bytes(part(image, hashes))
    (folder / "data").write_bytes(part(image, data))
    root = by_veritysetup(folder / "data", theirs, uuid.UUID(bytes=ours.read_bytes()[16:32]))
    expect(f"{what}: the root hash", (data.id + hashes.id).replace("-", ""), root)
    expect(f"{what}: the bytes are those of veritysetup", ours.read_bytes() == theirs.read_bytes(), True)
    expect(f"{what}: veritysetup verifies", asked("veritysetup", "verify", folder / "data", ours, root).status, 0)
    for place, first in damages(blocks):
        at = 512 * data.start + place if place < blocks * BLOCK else 512 * hashes.start + place - blocks * BLOCK
        turn(image, at)
        expect(f"{what}, byte {place} changed", run("check", *options, image, cwd=folder)[:2],
               (1, f"differs verity root {first}\n") if first else (0, "ok\n"))
        turn(image, at)
    expect(f"{what}: check", run("check", *options, image, cwd=folder)[:2], (0, "ok\n"))


def turn(image, at):
    """Changes a bit of a byte."""
    with open(image, "r+b") as file:
        file.seek(at)
        byte = file.read(1)[0]
        file.seek(at)
        file.write(bytes([byte ^ 0x20]))


need("veritysetup")
with tempfile.TemporaryDirectory() as name:
    for blocks in (1, 2, 3, 128, 129, 256, 257, 16384, 16385):
        compare(pathlib.Path(name), blocks)
    compare(pathlib.Path(name), 200, 130 * BLOCK + 1234)
end()
