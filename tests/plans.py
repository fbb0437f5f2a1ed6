#!/usr/bin/env python3
"""What `plan` says of an image is what systemd-repart makes of it, and `apply` has nothing left to do on what that made.

For each list of definition files below, systemd-repart makes an image of 2 GiB, and later the same image as one of 4 GiB, and
`repart plan` says before each what is to become of it. Rows are compared in slot order: type, attributes, name (but for the
number that systemd-repart puts behind a second default label), identifier where the definition sets one, and place and size,
which may differ by the grains that are divided otherwise. Then the image that systemd-repart made has to be idle by the same
definitions and seed: `plan` has no steps for it, and `apply` leaves each byte of it. Left out is what systemd-repart 252 reads
otherwise (docs/migrate.md), and what is this project's own.

Needs: systemd-repart
"""
import hashlib
import os
import pathlib
import re
import tempfile

from lib import definitions
from lib.gpt import name_of, rows_of
from lib.images import sparse
from lib.program import SEED, asked, end, need, run, wrong

FOLDERS = [
    ["Type=root"],
    ["Type=home", "Type=swap|SizeMinBytes=64M|SizeMaxBytes=1G|Weight=333"],
    ["Type=home", "Type=swap|SizeMinBytes=64M|SizeMaxBytes=1G|Priority=1|Weight=333"],
    ["Type=root|SizeMinBytes=512M|SizeMaxBytes=512M", "Type=root-verity|SizeMinBytes=64M|SizeMaxBytes=64M"],
    ["Type=linux-generic|SizeMinBytes=10485761|SizeMaxBytes=10489856"],
    ["Type=esp|SizeMinBytes=32M|SizeMaxBytes=32M", "Type=xbootldr|SizeMinBytes=16777216|SizeMaxBytes=16384K"],
    ["Type=swap|Label=a b|UUID=11111111-2222-4333-8444-555555555555|SizeMaxBytes=1G"],
    ["Type=linux-generic|Label=%a and 100%%|UUID=11111111222243338444555555555556"],
    ["Type=0fc63daf-8483-4772-8e79-3d69d8477de4|Label=größe 日本"],
    ["Type=home|NoAuto=yes", "Type=srv|ReadOnly=on", "Type=var|ReadOnly=no", "Type=tmp|ReadOnly=1|GrowFileSystem=yes"],
    ["Type=root-verity", "Type=usr-arm64-verity|SizeMinBytes=16K|SizeMaxBytes=16K", "Type=usr-verity|ReadOnly=off"],
    ["# a comment|;another|Type=usr|Label=one\\|two|Weight=7|Weight=1000"],
    ["Type=home|  SizeMinBytes = 20M  |SizeMaxBytes=20M|PaddingMinBytes=1M|PaddingMaxBytes=1M", "Type=srv"],
    ["Type=swap|SizeMinBytes=24M|Weight=0", "Type=srv|Weight=0", "Type=home"],
    ["Type=swap|SizeMinBytes=24M|Weight=0|SizeMaxBytes=24M", "Type=home"],
    ["Type=linux-generic|Weight=1000", "Type=linux-generic|Weight=2000"],
    ["Type=linux-generic|Weight=1000|SizeMaxBytes=100M", "Type=linux-generic|Weight=2000"],
    ["Type=linux-generic|Weight=1", "Type=linux-generic|Weight=999999"],
    ["Type=home|SizeMinBytes=1500M|Priority=0", "Type=srv|SizeMinBytes=1500M|Priority=10"],
    ["Type=esp|SizeMinBytes=100M|SizeMaxBytes=100M", "Type=root|Weight=2000", "Type=home|Weight=1000", "Type=var|Weight=500"],
]


def differing(files, planned, made):
    """What differs in the rows of a plan from those that were made, or none."""
    if list(planned) != list(made):
        return f"slots {list(planned)} planned, {list(made)} made"
    for ours, theirs in zip(planned.values(), made.values()):
        # systemd-repart numbers the labels that it gives by default: the second linux-generic is linux-generic-2
        names = (name_of(theirs.name), re.sub(r"-\d+$", "", name_of(theirs.name)))
        same = (ours.type, ours.attrs) == (theirs.type, theirs.attrs) and name_of(ours.name) in names
        given = any("UUID=" in lines and ours.id.replace("-", "") in lines.replace("-", "") for lines in files)
        # one grain for each definition
        near = all(abs(a - b) <= 8 * len(files) for a, b in ((ours.start, theirs.start), (ours.size, theirs.size)))
        if not same or not near or (given and ours.id != theirs.id):
            return f"planned {ours}, made {theirs}"
    return None


def bytes_of(image):
    """A digest of a file's length and of its bytes that aren't in holes, with their places."""
    digest, at = hashlib.sha256(), 0
    with open(image, "rb") as file:
        end_ = os.fstat(file.fileno()).st_size
        digest.update(b"%d" % end_)
        while at < end_:
            try:
                at = os.lseek(file.fileno(), at, os.SEEK_DATA)
            except OSError:  # nothing but a hole is left
                break
            hole = os.lseek(file.fileno(), at, os.SEEK_HOLE)
            while at < hole:
                part = os.pread(file.fileno(), min(hole - at, 1 << 20), at)
                digest.update(b" %d " % at + part)
                at += len(part)
    return digest.digest()


def busy(folder, image):
    """What is done on an image that has nothing left to do, or none."""
    before = bytes_of(image)
    for command in ("plan", "apply"):
        answer = run(command, f"--definitions={folder}", SEED, image)
        if "\nsteps 0 writes 0\n" not in answer.out or bytes_of(image) != before:
            return f"{command} changes what systemd-repart made: {answer.out}"
    return None


def fault_in(top, files):
    """What differs for these files, or none."""
    folder = definitions.write(top / "repart.d", definitions.numbered(files))
    image = sparse(top / "image", 2 << 30)
    for empty, size in (("allow", "2G"), ("refuse", "4G")):
        words = [f"--definitions={folder}", SEED, f"--empty={empty}", f"--size={size}", image]
        planned = run("plan", *words)
        if planned.status:
            return f"no plan for {size}: {planned.out}"
        made = asked("systemd-repart", "--dry-run=no", *words)
        if made.status:
            return f"systemd-repart made no image of {size}: {made.err}"
        fault = differing(files, rows_of(planned.out), rows_of(run("show", image).out)) or busy(folder, image)
        if fault:
            return f"{size}: {fault}"
    return None


need("systemd-repart")
for files in FOLDERS:
    with tempfile.TemporaryDirectory() as name:
        fault = fault_in(pathlib.Path(name), files)
    if fault:
        wrong(f"{files}: {fault}")
end()
