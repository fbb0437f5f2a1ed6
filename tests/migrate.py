#!/usr/bin/env python3
"""docs/migrate.md says what the program does with each option and key of systemd-repart.

Each that it names is read, refused by name, ignored or unknown as it says there, and each key of the manual is in it. Last,
tools/try-migrate finds both programs of one mind on a folder that has nothing in it that is read otherwise.

Needs: for the last part systemd-repart
"""
import pathlib
import re
import sys
import tempfile

from lib import definitions
from lib.images import sparse
from lib.program import TOP, asked, end, expect, has, run, wrong

SEED = "00000000-0000-0000-0000-000000000001"

# A value of each key and option that one can't do without, and what it needs beside it.
VALUES = {
    "Type": "home", "Label": "a%%b-%a", "UUID": "11111111-2222-4333-8444-555555555555", "Priority": "010", "Weight": "0333",
    "PaddingWeight": "1", "SizeMinBytes": "12345678", "PaddingMinBytes": "1M", "SizeMaxBytes": "1G", "PaddingMaxBytes": "2M",
    "CopyBlocks": "source", "Verity": "off", "VerityMatchKey": "m", "FactoryReset": "yes", "NoAuto": "YES", "ReadOnly": "t",
    "GrowFileSystem": "0", "SplitName": "x",
    "Format": "ext4", "CopyFiles": "/a:/b", "MakeDirectories": "/a /b", "Subvolumes": "/a", "Minimize": "best", "Encrypt": "tpm2",
    "MountPoint": "/a", "Flags": "0x1",
}
OFF = {"Minimize": "off", "Encrypt": "off"}


def rows_of(text, heading):
    """The first two columns of the table behind a heading."""
    part = text.split(f"\n## {heading}\n")[1].split("\n## ")[0]
    return re.findall(r"^\| (.*?) \| ([a-z ]+?) \|", part, re.M)


def plan(folder, words, lines):
    """What is answered to a plan of one definition with these words."""
    definitions.write(folder / "repart.d", {"x.conf": "\n".join(["Type=home", *lines]) + "\n"})
    named = {word.split("=")[0] for word in words}
    needed = (("--definitions", "repart.d"), ("--seed", SEED), ("--empty", "allow"))
    return run("plan", *(f"{name}={value}" for name, value in needed if name not in named), *words, "image", cwd=folder)


def keys(folder, text):
    """The keys: each assignment of the table, and each key of the manual."""
    named = set()
    for names, word in rows_of(text, "Keys of `[Partition]`"):
        for key, value in re.findall(r"([A-Z][A-Za-z]+)=([a-z]*)", names):
            named.add(key)
            if key not in VALUES:
                wrong(f"{key}=: no value to try")
                continue
            lines = ["VerityMatchKey=m"] if value in ("data", "hash") else []
            status, out, _ = plan(folder, [], lines + [f"{key}={value or VALUES[key]}"])
            # half a pair alone is a fault of its own
            wanted = f"error 3 x.conf:{3 + len(lines)} Unsupported {key}\n" if word == "refused" else \
                "error 3 x.conf:0 VerityPair\n" if lines else None
            if (wanted and out != wanted) or (not wanted and status != 0):
                wrong(f"{key}={value}: {word}, but it prints {out!r}")
            if key in OFF and plan(folder, [], [f"{key}={OFF[key]}"]).status != 0:
                wrong(f"{key}={OFF[key]} is refused")
    out = plan(folder, [], ["MakeSymlinks=/a:/b"]).out
    if "\nignored 1\n" not in out:
        wrong(f"an unknown key: {out!r}")
    manual = (TOP / "docs" / "repart.d.5").read_text(encoding="utf-8").split(".Sh KEYS")[1].split("All other keys are unknown")[0]
    for key in sorted(set(re.findall(r"\bCm ([A-Z][A-Za-z]+) Ns =", manual)) - named):
        wrong(f"{key}= is in repart.d.5 alone")


def options(folder, text):
    """The options: which are read, and which are unknown."""
    good = {"--empty": ["refuse", "allow", "require"], "--size": ["100M"], "--seed": [SEED, SEED.replace("-", "")],
            "--json": ["short", "off"], "--definitions": ["repart.d", "none:repart.d"], "--sector-size": ["512", "4096"],
            "--arch": ["x86-64", "arm64"], "--factory-reset": ["off", "on"]}
    bad = {"--empty": ["force", "create"], "--size": ["auto"], "--seed": ["random"], "--json": ["pretty"],
           "--factory-reset": ["yes"]}
    for names, word in rows_of(text, "Options"):
        for option in re.findall(r"(--[a-z0-9-]+)", names):
            if option in good or option in ("--help", "--version"):
                continue
            status, _, err = plan(folder, [f"{option}=yes"], [])
            if status != 2 or not re.search("no such option|not an option of this command", err):
                wrong(f"{option}: {word}, but status {status}: {err!r}")
    for option, values in good.items():
        for value in values:
            answer = plan(folder, [f"{option}={value}"], [])
            if answer.status == 2:
                wrong(f"{option}={value}: {answer.err!r}")
    for option, values in bad.items():
        for value in values:
            expect(f"{option}={value}", plan(folder, [f"{option}={value}"], []).status, 2)


def values(folder):
    """What is said there of values."""
    for line, wanted in (("Weight=1x", "BadValue Weight"), ("word", "BadLine"), ("Label=%x", "BadValue Label"), ("Label=", None),
                         ("SizeMinBytes=1.5M", "BadValue SizeMinBytes"), ("SizeMinBytes=1P", "BadValue SizeMinBytes"),
                         ("UUID=null", "Unsupported UUID")):
        status, out, _ = plan(folder, [], [line])
        if (wanted and out != f"error 3 x.conf:3 {wanted}\n") or (not wanted and status != 0):
            wrong(f"{line}: {out!r}")


def both(folder):
    """tools/try-migrate finds nothing that differs."""
    wish = definitions.write(folder / "both", {
        "10-esp.conf": "Type=esp\nSizeMinBytes=100M\nSizeMaxBytes=100M\n", "20-home.conf": "Type=home\nWeight=2000\nNoAuto=yes\n",
        "30-srv.conf": "Type=srv\nLabel=data\nReadOnly=yes\n", "40-swap.conf": "Type=swap\nSizeMinBytes=90G\nPriority=1\n"})
    answer = asked(sys.executable, TOP / "tools" / "try-migrate", "--size=4G", wish)
    if answer.status:
        wrong(f"try-migrate: {answer}")


said = (TOP / "docs" / "migrate.md").read_text(encoding="utf-8")
with tempfile.TemporaryDirectory() as name:
    top = pathlib.Path(name)
    sparse(top / "image", 4 << 30)
    sparse(top / "source", 10001)
    keys(top, said)
    options(top, said)
    values(top)
    if has("systemd-repart", "tools/try-migrate isn't tried"):
        both(top)
end()
