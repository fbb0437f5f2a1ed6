#!/usr/bin/env python3
"""`make` gives an image its table, contents and line from a number alone, and refuses an image that is in use.

What is made from a number is written here anew, in files: `check` by these files has to find no difference in an image that was made,
and the root hash of the line has to be the identifiers of root and its hash tree.
"""
import os
import pathlib
import tempfile

from lib import definitions
from lib.gpt import rows_of
from lib.images import IMAGES, sparse
from lib.program import end, expect, run

GIB = 1 << 30
WORDS = (2, "error 2 words\n")


def asked(folder, *words):
    return run(*words, cwd=folder)[:2]


def source(number):
    """The source of a number: the highest bytes of a linear congruential generator."""
    state, made = number, bytearray()
    for _ in range(4096 * number + 17):
        state = (state * 6364136223846793005 + 1442695040888963407) % (1 << 64)
        made.append(state >> 56)
    return bytes(made)


def input_of(folder, number):
    """The definition files and the source of a number; gives the words by which the other commands use them."""
    texts = {f"part-{i:03}.conf": f"Type=linux-generic\nSizeMinBytes={1 + i % 7}M\nWeight={100 + 37 * (i % 11)}\n" for i in range(number)}
    texts["root.conf"] = "Type=root\nVerity=data\nVerityMatchKey=m\nCopyBlocks=make.raw\n"
    texts["root-hash.conf"] = "Type=root-verity\nVerity=hash\nVerityMatchKey=m\n"
    definitions.write(folder / f"input-{number}", texts)
    (folder / "make.raw").write_bytes(source(number))
    return [f"--definitions=input-{number}", f"--seed=00000000-0000-0000-0000-{number:012x}"]


def made(folder, number, image):
    """An image is made from a number; the line has the number, the rows and the root hash, and the image is what it says."""
    status, line = asked(folder, "make", f"--number={number}", image)
    words = line.split(" ")
    expect(f"number {number}", (status, words[:4], words[8:]), (0, ["number", str(number), "rows", str(number + 2)], ["check", "ok\n"]))
    expect(f"number {number}: length", os.path.getsize(image), GIB)
    if status != 0:
        return line
    rows = rows_of(asked(folder, "show", image)[1]).values()
    ids = "".join(row.id.replace("-", "") for kind in ("root-x86-64", "root-x86-64-verity") for row in rows if row.type == kind)
    expect(f"number {number}: rows", len(rows), number + 2)
    expect(f"number {number}: root hash", words[7], ids)
    expect(f"number {number}: hash before data", [row.slot for row in rows if row.type.startswith("root")], [number, number + 1])
    expect(f"number {number}: check", asked(folder, "check", *input_of(folder, number), image), (0, "ok\n"))
    return line


def refused(folder, what, size, parts, wanted):
    """An image is refused, and stays as it is."""
    image = sparse(folder / "refused", size, *parts)
    expect(what, asked(folder, "make", "--number=1", image), wanted)
    expect(f"{what}: length", os.path.getsize(image), size)
    with open(image, "rb") as file:
        for at, part in parts:
            file.seek(at)
            expect(f"{what}: bytes", file.read(len(part)), part)
    image.unlink()


def refusals(folder):
    for words in ([], ["--number=0"], ["--number=101"], ["--number=03"], ["--number="], ["--number=3", "--number=3"]):
        expect(f"words {words}", asked(folder, "make", *words, sparse(folder / "words", 0)), WORDS)
    refused(folder, "a byte more than 1 GiB", GIB + 1, [], (4, "error 4 MakeLength 1073741825\n"))
    refused(folder, "1 TiB", 1 << 40, [], (4, "error 4 MakeLength 1099511627776\n"))
    small = IMAGES["small"]()
    refused(folder, "a table", len(small), [(0, small)], (4, "error 4 NotEmpty\n"))
    refused(folder, "another table", 1 << 20, [(446, b"\0\0\2\0\x83" + bytes(11)), (510, b"\x55\xaa")], (4, "error 4 OtherTable 131\n"))
    expect("no image", asked(folder, "make", "--number=1", folder / "missing"), (7, "error 7 disk\n"))


with tempfile.TemporaryDirectory() as name:
    top = pathlib.Path(name)
    refusals(top)
    made(top, 3, sparse(top / "three", 0))
    expect("made again", asked(top, "make", "--number=3", top / "three"), (4, "error 4 NotEmpty\n"))
    for size in (1, 67 * 512, 68 * 512, 2081 * 512, (1 << 20) + 7, GIB - 512, GIB):
        image = sparse(top / "blank", size)
        status, line = asked(top, "make", "--number=1", image)
        expect(f"{size} bytes", (status, line[:16], line[-10:], os.path.getsize(image)), (0, "number 1 rows 3 ", " check ok\n", GIB))
        image.unlink()
    first = made(top, 50, sparse(top / "fifty", 0))
    expect("the same line", asked(top, "make", "--number=50", sparse(top / "again", 0)), (0, first))
    made(top, 100, sparse(top / "hundred", 0))
end()
