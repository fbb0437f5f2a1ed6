#!/usr/bin/env python3
"""Random definition folders are read, and planned for on a blank disk, as a second reader and a second planner do it.

    tests/hostile_definitions.py [COUNT [SEED]]

A run is given one to three folders with main files and drop-ins, good and bad values, lines and bytes, files that mask others,
names that are no candidates, and now and then too many or too big files; sources that are there and some that aren't; and blank images of
several lengths. `plan` has to print exactly what lib/reading.py and lib/planning.py say: the rows, what is dropped and ignored, or the
first fault. With --all there are 20,000 runs. The test ends at the first run that differs.
"""
import collections
import pathlib
import random
import sys
import tempfile

from lib.definitions import random_files
from lib.images import random_bytes, sparse
from lib.planning import planned
from lib.program import ALL, SEED, end, run, wrong
from lib.reading import ARCH, KEYS, REFUSED

ANY_GUID = ["0123456789abcdef0123456789abcdef", "0" * 32, "{01234567-89ab-cdef-0123-456789ABCDEF}", "{" + "1" * 32 + "}",
            "Urn:UUID:01234567-89ab-cdef-0123-456789abcdef", "null", "NULL", "01234567-89ab-cdef-0123-456789abcdeg", ""]
ANY_SIZE = ["0", "1", "8M", "4M", "4095", "4096", "4097", "10M", "1048576T", "1048577T", "1B", "B", "5k", "1.5G", "+1", "2P",
            "1152921504606846976", "1152921504606846977", "9" * 40, "0" * 30 + "5K", ""]
VALUES = {
    "Type": ["swap", "home", "root", "root-verity", "esp", "root-arm64-verity", "usr-verity-sig", "linux-generic",
             "xbootldr", "ROOT", "0fc63daf-8483-4772-8e79-3d69d8477de4", *ANY_GUID],
    "Label": ["a", "%%", "%a", "x" * 36, "%", "%x", "a%", "%%%", "x" * 37, "x" * 40 + "\0", "x" * 40 + "%", "a\0b",
              "\U0001F600" * 18, "\U0001F600" * 18 + "a", "é" * 36, "%a" * 6, "%a" * 7, ""],
    "UUID": ANY_GUID,
    "Priority": ["5", "-3", "+7", "-0", "2147483647", "2147483648", "-2147483648", "-2147483649", "--1", "+", "1.0", ""],
    "Weight": ["0", "7", "1000000", "0001000000", "1000001", "+1", "1K", ""],
    "PaddingWeight": ["0", "3", "-1", "x", ""],
    "CopyBlocks": ["a", "%a", "%%", "x" * 4080 + "%a%a", "x" * 4080 + "%a%a%a", "auto", "%", "a\0", ""],
    "Verity": ["off", "data", "hash", "data", "hash", "signature", "Data", ""],
    "VerityMatchKey": ["m", "m", "n", "x" * 64, "x" * 65, "é" * 32, "é" * 33, ""],
    **{key: ANY_SIZE for key in ("SizeMinBytes", "SizeMaxBytes", "PaddingMinBytes", "PaddingMaxBytes")},
    **{key: ["yes", "NO", "t", "F", "1", "0", "oN", "maybe", "ſ", ""] for key in KEYS[13:17]},
    **{key: ["off", "x", "", "OFF"] for key in REFUSED},
    "SplitName": ["a", "usr-%a", "%%.raw", "-", "--", "x" * 128, "x" * 129, "a/b", "/", ".", "..", "...", "a\0", "%x", "é" * 64, "é" * 65, ""],
}
ODD_LINES = ["# c \\", "; x", "", "Size=1", "[Other]", "[Partition]", "=x", "x", "a = b\\", "\\", "[x", "SplitName=a", "[[a]",
             "x" * 4096 + "=", "k=" + "v" * 4093 + " ", "a==b", "[Partition]x", "\ufeffa=b"]


def random_lines(dice, keys, count):
    lines = []
    for _ in range(count):
        if dice.random() < .02:
            lines.append(dice.choice(ODD_LINES))
            continue
        key = dice.choice(keys)
        texts = VALUES[key][:3] if dice.random() < .95 else VALUES[key]
        lines.append(key + dice.choice(["=", "=", " = ", "=\t"]) + dice.choice(texts) + dice.choice(["", "", "", " ", "\\\n# c\n", "\r"]))
    return lines


def half_lines(dice, half, key):
    """Lines of what is most often half of a pair."""
    lines = [f"Verity={half}", f"VerityMatchKey={key}"]
    if (half == "data") != (dice.random() < .05):
        lines.append("CopyBlocks=s")
    return lines


def random_file(dice, is_main, half=None):
    lines = [dice.choice(["[Partition]"] * 20 + ["[Other]", "[ Partition]", "[Partition] ", "\\\n[Partition]", ""])]
    if is_main and dice.random() < .97:
        lines.append("Type=" + dice.choice(VALUES["Type"][:9] if dice.random() < .9 else VALUES["Type"]))
    if half:
        lines += half_lines(dice, half, dice.choice(["m", "m", "m", "m", "m", "m", "n"]))
    keys = [key for key in KEYS[1:17] + ["SplitName"] if key not in ("Verity", "VerityMatchKey") or dice.random() < .1]
    lines += random_lines(dice, keys * 20 + REFUSED, dice.randint(0, 5 if is_main else 2))
    data = "\n".join(lines).encode() + dice.choice([b"\n", b"\n", b"", b"\r"])
    if dice.random() < .01:
        place = dice.randint(0, len(data))
        data = data[:place] + dice.choice([b"\xc3", b"\xff", b"\xed\xa0\x80"]) + data[place:]
    return dice.choice([b"\xef\xbb\xbf", b"", b"", b"", b"", b"", b"", b""]) + data


def random_tops(dice):
    """One to three folders, each as its files by name and its drop-in folders' files."""
    tops = [({}, {}) for _ in range(dice.choice([1, 1, 1, 2, 3]))]
    halves = dice.choice([[], [], ["data", "hash"], ["hash", "data"], ["data"], ["data", "hash", "data"]])
    halves += [None] * dice.randint(0 if halves else 1, 2)
    dice.shuffle(halves)
    for place, half in enumerate(halves):
        file = f"{place}.conf"
        dice.choice(tops)[0][file] = random_file(dice, True, half)
        for part in range(dice.choice([0, 0, 0, 1, 2])):
            dice.choice(tops)[1].setdefault(file + ".d", {})[f"{part}.conf"] = random_file(dice, False)
    for own, drops in tops:
        for name in (".hidden.conf", "0.conf~", "x.txt", "conf"):
            if dice.random() < .05:
                own[name] = b"x"
                drops.setdefault("0.conf.d", {})[name] = b"x"
        if dice.random() < .1:
            own[f"{dice.randint(0, 3)}.conf"] = dice.choice([b"", random_file(dice, True)])
        if dice.random() < .1:
            drops.setdefault(f"{dice.randint(0, 3)}.conf.d", {})[f"{dice.randint(0, 1)}.conf"] = dice.choice([b"", random_file(dice, False)])
    if dice.random() < .02:
        own, drops = dice.choice(tops)
        for number in range(dice.randint(250, 256)):
            dice.choice([own, drops.setdefault("0.conf.d", {})])[f"m{number}.conf"] = dice.choice([b"", b"[Partition]\nType=swap\n"])
    if dice.random() < .02:
        own, drops = dice.choice(tops)
        dice.choice([own, drops.setdefault("0.conf.d", {})])["0.conf"] = b"[Partition]\nType=swap\n" + b"#" * dice.choice([65513, 65514, 65515])
    return tops


def good_tops(dice):
    """A folder of good definitions, some of them of the same identifier, and now and then more than there are slots."""
    files = random_files(dice)
    if dice.random() < .02:
        files.update({f"m{number}.conf": "Type=swap\nSizeMinBytes=4K\n" for number in range(dice.randint(120, 140))})
    same = "UUID=11111111-2222-4333-8444-555555555555\n"
    return [({name: ("[Partition]\n" + lines + (same if dice.random() < .05 else "")).encode() for name, lines in files.items()}, {})]


def write(tops, top):
    """Writes the folders below one, and gives their paths."""
    paths = []
    for place, (own, drops) in enumerate(tops):
        path = top / str(place)
        paths.append(path)
        for folder, files in [(path, own), *((path / name, files) for name, files in drops.items())]:
            folder.mkdir(parents=True, exist_ok=True)
            for name, data in files.items():
                (folder / name).write_bytes(data)
    return paths


# what the sources hold that are there, and the lengths of images
SOURCES = {"a": 5000, ARCH: 1, "%": 700000, "s": 130 * 4096 + 100, "source-1": 4096, "source-2": 200000, "source-3": 0}
SIZES = [64 << 20, 64 << 20, 2 << 20, (1 << 20) + (36 << 10), 5 << 30, 3 << 40]


def one_run(dice, folder, sources, size, seen):
    """A run in a folder of its own; gives what differs, or none."""
    tops = good_tops(dice) if dice.random() < .4 else random_tops(dice)
    paths = write(tops, folder)
    image = sparse(folder / "image", size)
    answer = run("plan", "--definitions=" + ":".join(map(str, paths)), SEED, "--empty=allow", image, cwd=folder.parent, timeout=60)
    status, text = planned(tops, sources, size, SEED)
    # the last line has the steps
    printed = "".join(answer.out.splitlines(True)[:-1]) if answer.status == 0 else answer.out
    if (answer.status, printed) != (status, text):
        return f"{tops}\nrepart: {answer.status} {answer.out!r}\nhere: {status} {text!r}"
    seen[f"planned on {size} bytes" if status == 0 else " ".join([*text.split()[:2], *text.split()[(3 if status == 3 else 2):][:1]])] += 1
    seen["with a pair"] += "-verity start" in text
    seen["with some dropped"] += "\ndropped " in text
    seen["with several rows"] += "\n1 new " in text
    seen["several folders"] += len(tops) > 1
    return None


COUNT = int(sys.argv[1]) if len(sys.argv) > 1 else 20000 if ALL else 1500
NUMBER = int(sys.argv[2]) if len(sys.argv) > 2 else 1
seen = collections.Counter()
with tempfile.TemporaryDirectory() as name:
    top = pathlib.Path(name)
    sources = {source: random_bytes(random.Random(length), length) for source, length in SOURCES.items()}
    for source, data in sources.items():
        (top / source).write_bytes(data)
    for number in range(COUNT):
        dice = random.Random(f"{NUMBER} {number}")
        with tempfile.TemporaryDirectory(dir=name) as own:
            fault = one_run(dice, pathlib.Path(own), sources, dice.choice(SIZES), seen)
        if fault:
            wrong(f"run {number} of seed {NUMBER}: {fault}")
            break
for what, many in seen.most_common():
    print(f"{many:6} {what}")
end()
