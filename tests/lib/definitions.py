"""Folders of definition files."""
import pathlib

from lib.images import random_guid

# types of random definitions and partitions
KINDS = ["linux-generic", "home", "swap", "esp", "root-x86-64", "root-x86-64-verity", "21686148-6449-6e6f-744e-656564454649"]


def write(folder, files):
    """Writes a folder, each of whose files has a section [Partition] with these lines; gives its path."""
    path = pathlib.Path(folder)
    path.mkdir(parents=True, exist_ok=True)
    for name, lines in files.items():
        (path / name).write_text("[Partition]\n" + lines, encoding="utf-8")
    return path


def numbered(texts):
    """Files in the order of these texts, whose lines are cut at `|`."""
    return {f"{place:02}.conf": text.replace("|", "\n") + "\n" for place, text in enumerate(texts)}


def random_size(dice):
    return dice.choice(["4K", "8K", "100K", f"{dice.randint(1, 300) * 4}K", str(dice.randint(1, 1 << 20)), f"{dice.randint(1, 3)}M"])


def random_definition(dice, kind):
    """The lines of a definition, without verity; sources are called source-1 to source-3."""
    lines = [f"Type={kind}", f"SizeMinBytes={dice.choice(['0', '4K', '64K', random_size(dice)])}"]
    switches = ["yes", "no"]
    for chance, key, value in (
            (.2, "SizeMaxBytes", dice.choice(["2M", "3M", "64K", random_size(dice)])),
            (.5, "Weight", dice.choice([0, 1, 333, 1000, 2000, 999999])), (.2, "PaddingWeight", dice.choice([1, 100, 1000])),
            (.2, "PaddingMinBytes", dice.choice(["4K", "64K", random_size(dice)])),
            (.15, "PaddingMaxBytes", dice.choice(["1M", random_size(dice)])),
            (.4, "Priority", dice.choice([-1, 0, 1, 2, 5])), (.2, "Label", dice.choice(["x", "a b", "é" * 36])), (.15, "UUID", random_guid(dice)),
            (.2, "NoAuto", dice.choice(switches)), (.2, "ReadOnly", dice.choice(switches)), (.2, "GrowFileSystem", dice.choice(switches)),
            (.2, "CopyBlocks", f"source-{dice.randint(1, 3)}")):
        if dice.random() < chance:
            lines.append(f"{key}={value}")
    return lines


def random_files(dice, there=()):
    """Files of good definitions, more often than not of types that are there, and now and then with a pair."""
    kinds = [kind for kind in KINDS if "verity" not in kind]
    made = [random_definition(dice, dice.choice(there if there and dice.random() < .7 else kinds))
            for _ in range(dice.choice([0, 1, 1, 2, 2, 3, 4, 6]))]
    if dice.random() < .25:
        made.append(["Type=root", "Verity=data", "VerityMatchKey=m", f"CopyBlocks=source-{dice.randint(1, 3)}",
                     *dice.choice([[], ["SizeMinBytes=400K"], ["Priority=3"]])])
        made.append(["Type=root-verity", "Verity=hash", "VerityMatchKey=m"])
    dice.shuffle(made)
    return {f"{place}.conf": "\n".join(lines) + "\n" for place, lines in enumerate(made)}
