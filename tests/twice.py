#!/usr/bin/env python3
"""Random definitions that are applied to random images keep what is there and do what was planned, and a second run does nothing.

    tests/twice.py [COUNT [SEED]]

An image of some MiB has no table, or one with random partitions, a damaged copy, a disk that is longer than its table, a
protective MBR of another table. Definitions ask for random sizes, weights, paddings, priorities, labels, identifiers,
sources and hash trees. Of each case is checked:

- `plan` writes nothing and prints what `apply` then prints, but for the line `applied`;
- a run that is refused leaves each byte as it was;
- behind status 0 `show` prints the rows that were planned, with both copies exact; each old partition has its slot, type, start and
  attributes, no less size, the label and the identifier that it had, and its bytes; new ones begin with their source; what
  lies in no new partition and isn't the table's is as before;
- the second run prints `steps 0 writes 0` and changes no byte, where the first dropped no definition; with another seed too.

With --all there are 5,000 cases. The test ends at the first case that differs, whose files are kept where TMPDIR is.
"""
import collections
import pathlib
import random
import re
import shutil
import sys
import tempfile

from lib import gpt
from lib.definitions import KINDS, random_files, write
from lib.gpt import rows_of
from lib.images import random_bytes, random_guid
from lib.program import ALL, end, run, wrong

MIB = 1 << 20
NONE = "00000000-0000-0000-0000-000000000000"


class Differs(Exception):
    """What is not as it has to be."""


def random_rows(dice, first, last, unit, entries):
    """Entries by slot, of partitions that share no sector; LBAs are of sectors of so many units of 512 bytes."""
    at, spans = first + dice.choice([0, 0, 8, dice.randint(0, 300)]), []
    for _ in range(dice.choice([1, 1, 2, 3, 5, 9])):
        grain = dice.choice([8 // unit, 8 // unit, 1])
        at = -(-at // grain) * grain
        size = max(1, dice.choice([dice.randint(1, 40), dice.randint(1, 400), dice.randint(8, 2000)]) // unit)
        if dice.random() < .6:
            size = -(-size // grain) * grain
        if at + size - 1 > last:
            break
        spans.append((at, at + size - 1))
        at += size + dice.choice([0, 0, 0, dice.randint(0, 64), dice.randint(0, 3000)]) // unit
    slots = sorted(dice.sample(range(dice.choice([len(spans), len(spans) + 2, entries])), len(spans)))
    if dice.random() < .4:
        dice.shuffle(slots)
    rows = {}
    for slot, (start, end) in zip(slots, spans):
        attributes = dice.choice([0, 0, 1 << 60, 1 << 63, 1 << 59, dice.getrandbits(64)])
        rows[slot] = gpt.entry(dice.choice(KINDS), dice.choice([random_guid(dice), random_guid(dice), NONE]), start, end, attributes,
                                  dice.choice(["", "a", "name", "ü" * 36]))
    return rows


def random_image(dice, path):
    """Writes an image, and gives the bytes of its sectors and what it is, in a word."""
    sector = dice.choice([512, 512, 512, 512, 4096])
    unit = sector // 512
    sectors = dice.randint(5 * MIB // 4, 5 * MIB) // 4096 * 8 // unit + (0 if sector == 4096 else dice.choice([0, 0, dice.randint(0, 7)]))
    if dice.random() < .3:
        with open(path, "wb") as file:
            file.write(random_bytes(dice, dice.choice([0, 4096])).ljust(sectors * sector, b"\0"))
        return sector, "blank"
    entries = dice.choice([128, 128, 128, 256, 1024])
    most = sectors - 2 - gpt.array_sectors(entries, sector)
    least = 2 + gpt.array_sectors(entries, sector)
    first = dice.choice([least, 2048 // unit, dice.randint(least, 3000 // unit)])
    first, last = max(first, least), dice.choice([most, most, most - dice.randint(0, 200)])
    rows = random_rows(dice, first, last, unit, entries) if dice.random() < .93 else {}
    disk = dice.choice([random_guid(dice), random_guid(dice), NONE])
    made = bytearray(gpt.image(sectors, first, last, rows, disk=disk, sector=sector, entries=entries))
    # Old partitions, and what lies beside them, hold bytes that are found again.
    for _ in range(dice.randint(3, 40)):
        at = dice.randrange(least * sector, (most + 1) * sector - 600)
        made[at:at + 600] = random_bytes(dice, 600)
    word = "table"
    damage = dice.random()
    places = {"primary": sector, "backup": (sectors - 1) * sector, "arrays": 2 * sector, "end": (most + 1) * sector}
    if damage < .1:
        made[places["primary"] + dice.randrange(92)] ^= 1 << dice.randrange(8)
        word = "primary header damaged"
    elif damage < .15:
        made[places["arrays"] + dice.randrange(128 * 128)] ^= 1 << dice.randrange(8)
        word = "primary array damaged"
    elif damage < .25:
        made[places[dice.choice(["backup", "end"])] + dice.randrange(92)] ^= 1 << dice.randrange(8)
        word = "backup damaged"
    elif damage < .28:
        made[places["primary"] + 3] ^= 1
        made[places["backup"] + 3] ^= 1
        word = "both damaged"
    if dice.random() < .1:
        made[446:512] = dice.choice([bytes(66), random_bytes(dice, 66)])
        word += ", another MBR"
    if dice.random() < .3:
        made += bytes(dice.randint(1, 2 * MIB) // sector * sector)
        word += ", on a longer disk"
    with open(path, "wb") as file:
        file.write(made)
    return sector, word


def answer(words, folder):
    """The status of the program and what it prints."""
    return tuple(run(*words, cwd=folder)[:2])


def must(holds, why):
    if not holds:
        raise Differs(why)


def source_of(folder, file):
    """The bytes of a definition's source, or none."""
    found = re.search(r"^CopyBlocks=(.*)$", (folder / "repart.d" / file).read_text(), re.M)
    return (folder / found[1]).read_bytes() if found else b""


def kept(old, before, after, text, folder):
    """What must hold of rows and bytes behind a run that changed an image."""
    goal = rows_of(text)
    for slot, row in old.items():
        now = goal.get(slot)
        must(now is not None, f"slot {slot} is gone")
        must((row.type, row.start, row.attrs) == (now.type, now.start, now.attrs), f"slot {slot}: {row} became {now}")
        must(row.size <= now.size and row.id in (now.id, NONE) and row.name in (now.name, ""),
             f"slot {slot}: {row} became {now}")
        must(now.file != "-" or row[3:] == now[3:], f"slot {slot}: {row}, which is of no definition, became {now}")
        must(now.change == ("same" if row[3:] == now[3:] else "changed"), f"slot {slot}: {row} is called {now.change}")
    must(list(goal) == sorted(goal), "rows aren't in the order of slots")
    ends = sorted((row.start, row.start + row.size) for row in goal.values())
    must(all(end <= start for (_, end), (start, _) in zip(ends, ends[1:])), "partitions share a sector")
    for slot in set(goal) - set(old):
        row = goal[slot]
        must(row.change == "new", f"slot {slot} is called {row.change}")
        source = source_of(folder, row.file)
        must(after[512 * row.start:512 * row.start + len(source)] == source, f"slot {slot} doesn't begin with its source")
    # all bytes but those of new rows and of the table
    grown, now = bytearray(before.ljust(len(after), b"\0")), bytearray(after)
    for slot in set(goal) - set(old):
        start, end = 512 * goal[slot].start, 512 * (goal[slot].start + goal[slot].size)
        grown[start:end] = now[start:end] = bytes(end - start)
    found = re.match(r"plan target (\d+) usable (\d+)-(\d+) disk ", text)
    first, last = 512 * int(found[2]), 512 * (int(found[3]) + 1)
    must(len(after) == 512 * int(found[1]), "another length than the planned one")
    must(grown[first:last] == now[first:last], "bytes outside of new partitions changed")
    must(before[:446] == after[:446], "the first 446 bytes changed")
    return goal


def one_case(dice, folder, seen):
    """A case in a folder of its own."""
    image = folder / "image"
    sector, word = random_image(dice, image)
    for number in (1, 2, 3):
        (folder / f"source-{number}").write_bytes(random_bytes(dice, dice.choice([1, 4096, 5000, 200000, 600000])))
    before = image.read_bytes()
    empty = dice.choice(["allow"] * 5 + ["refuse"] * 2 + ["require"])
    sectors = [f"--sector-size={sector}"] if sector != 512 else []
    old = rows_of(answer(["show", *sectors, "image"], folder)[1])
    write(folder / "repart.d", random_files(dice, [row.type for row in old.values()]))
    options = [f"--empty={empty}", "--definitions=repart.d", *sectors]
    if dice.random() < .3:
        options.append(f"--size={len(before) + dice.randint(-MIB, MIB)}")
    seed, other = (f"--seed={random_guid(dice)}" for _ in range(2))
    (folder / "words").write_text(" ".join(["apply", *options, seed, "image"]) + "\n")

    planned = answer(["plan", *options, seed, "image"], folder)
    must(image.read_bytes() == before, "plan wrote")
    status, text = answer(["apply", *options, seed, "image"], folder)
    after = image.read_bytes()
    must(planned == (status, re.sub("applied\n$", "", text)), f"planned {planned}, applied {(status, text)}")
    if status != 0:
        must(status in (3, 4, 5), f"status {status}")
        must(after == before, f"status {status}, and the image is another")
        seen["refused: " + " ".join(re.sub(r" [0-9a-z.:]+\.conf\S*| \d+", "", text.strip()).split()[1:])] += 1
        return
    must(text.endswith("\napplied\n"), f"printed {text!r}")
    dropped, still = "\ndropped " in text, "\nsteps 0 writes 0\n" in text
    must(not still or after == before, "no steps, and the image is another")
    goal = kept(old, before, after, text, folder)
    status, shown = answer(["show", *sectors, "image"], folder)
    must(status == 0, f"show: {status} {shown}")
    must([row[3:] for row in rows_of(shown).values()] == [row[3:] for row in goal.values()], f"planned {text}, shows {shown}")
    must("table primary " in shown and re.search(r"^copies primary=same backup=same mbr=(same|foreign)$", shown, re.M), f"shows {shown}")

    for which in (seed, other) if dice.random() < .3 else (seed,):
        status, text = answer(["apply", *options, which, "image"], folder)
        if empty == "require":
            must((status, text) == (4, "error 4 NotEmpty\n"), f"second run: {status} {text}")
        elif not dropped:
            idle = "\nsteps 0 writes 0\n" in text and " new " not in text and " changed " not in text
            must(status == 0 and idle, f"second run: {status} {text}")
        else:
            must(status in (0, 5), f"second run: {status} {text}")
        if not dropped or status != 0:
            must(image.read_bytes() == after, "the second run changed the image")
        else:
            kept(goal, after, image.read_bytes(), text, folder)
            break
    seen[f"{word}, {'nothing to do' if still else 'some dropped' if dropped else 'applied'}"] += 1
    seen["new partitions"] += sum(row.change == "new" for row in goal.values())
    seen["grown partitions"] += sum(old[slot].size < goal[slot].size for slot in old)
    seen["old partitions"] += len(old)
    seen["hash trees"] += sum(row.change == "new" and row.type.endswith("-verity") for row in goal.values())
    seen["sectors of 4,096 bytes"] += sector == 4096


COUNT = int(sys.argv[1]) if len(sys.argv) > 1 else 5000 if ALL else 400
SEED = int(sys.argv[2]) if len(sys.argv) > 2 else 1
seen = collections.Counter()
for number in range(COUNT):
    folder = pathlib.Path(tempfile.mkdtemp())
    try:
        one_case(random.Random(f"{SEED} {number}"), folder, seen)
    except Differs as differs:
        wrong(f"case {number} of seed {SEED}, kept in {folder}: {differs}")
        break
    shutil.rmtree(folder)
for word, many in seen.most_common():
    print(f"{many:6} {word}")
end()
