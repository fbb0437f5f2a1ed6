#!/usr/bin/env python3
"""A block device is read and written in sectors of its own size where `--sector-size=` is left out.

Where another size is given a line on standard error says so, and it is taken. The devices are loop devices over files, detached at the
end; one of them is partitioned, so that a partition's size is asked of its disk.

Needs: --all, since it needs root and loop devices
"""
import contextlib
import fcntl
import os
import pathlib
import signal
import sys
import tempfile
import threading

from lib import definitions
from lib.images import sparse
from lib.program import SEED, asked, end, expect, need, run, skip

SIZE = 64 << 20
HAS = ["--definitions=folder", SEED]


@contextlib.contextmanager
def loop(path, sector):
    """The loop device of a file."""
    made = asked("losetup", "--find", "--show", f"--sector-size={sector}", path)
    if made.status:
        skip(f"no loop device of sectors of {sector} bytes: {made.err.strip()}")
    device = made.out.strip()
    try:
        yield device
    finally:
        asked("partx", "--delete", device)
        asked("losetup", "--detach", device)


def other(device, size, given):
    return f"repart: {device}: its sectors have {size} bytes, and --sector-size={given} is taken as it is given\n"


def answers(what, folder, device, sector):
    """Commands that read answer as where the size is given, and say nothing."""
    for words in (["show"], ["show", "--json=short"], ["plan", *HAS], ["check", *HAS], ["dissect"]):
        given = run(*words, f"--sector-size={sector}", device, cwd=folder)
        expect(f"{what}: {words[0]}", run(*words, device, cwd=folder), given)
        expect(f"{what}: {words[0]} by the size", (given.status, given.err), (0, ""))


def own_sectors(folder, sector):
    """A disk gets a table of its own sectors, which a second run finds."""
    other_size, what = {512: 4096, 4096: 512}[sector], f"sectors of {sector} bytes"
    file = sparse(pathlib.Path(folder, "file"), SIZE)
    with loop(file, sector) as device:
        done = run("apply", *HAS, "--empty=require", device, cwd=folder)
        expect(f"{what}: a blank disk", (done.status, done.out[-8:], done.err), (0, "applied\n", ""))
        shown = run("show", f"--sector-size={sector}", file)
        expect(f"{what}: its file", (shown.status, shown.out[:13]), (0, "table primary"))
        before = file.read_bytes()
        done = run("apply", *HAS, "--empty=allow", device, cwd=folder)
        expect(f"{what}: a second run", (done.status, done.out[-32:], done.err), (0, "ignored 0\nsteps 0 writes 0\napplied\n"[-32:], ""))
        expect(f"{what}: the bytes behind it", file.read_bytes() == before, True)
        answers(what, folder, device, sector)
        link = pathlib.Path(folder, "link")
        link.symlink_to(device)
        answers(f"{what}, by a link", folder, "link", sector)
        link.unlink()
        found = run("show", f"--sector-size={other_size}", device)
        expect(f"{what}: another size", found, (4, "error 4 NoTable\n", other(device, sector, other_size)))
        found = run("plan", SEED, device)
        expect(f"{what}: words that aren't right", (found.status, found.out), (2, "error 2 words\n"))
        expect(f"{what}: a command without the option", run("make", "--number=1", device).err, "")
        waits(folder, device)


def waits(folder, device):
    """Another program lets the device's lock go after a second."""
    handle = os.open(device, os.O_RDONLY)
    fcntl.flock(handle, fcntl.LOCK_SH)
    timer = threading.Timer(1, os.close, (handle,))
    timer.start()
    done = run("apply", *HAS, device, cwd=folder)
    timer.join()
    expect("a lock that is let go", done[::2], (0, f"repart: {device}: another program has its lock; waiting up to 10 seconds for it\n"))


def odd_sectors(folder):
    """A size that no table has changes nothing."""
    file = sparse(pathlib.Path(folder, "file"), SIZE)
    with loop(file, 2048) as device:
        expect("sectors of 2,048 bytes", run("apply", *HAS, "--empty=require", device, cwd=folder)[::2], (0, ""))
        expect("its file", run("show", file).status, 0)
        expect("a size that is given", run("show", "--sector-size=4096", device), (4, "error 4 NoTable\n", ""))


def partition(folder):
    """A partition of a disk of 4,096-byte sectors."""
    file = sparse(pathlib.Path(folder, "file"), 2 * SIZE)
    run("apply", *HAS, "--empty=require", "--sector-size=4096", file, cwd=folder)
    with loop(file, 4096) as disk:
        told = asked("partx", "--add", disk)
        if told.status:
            print(f"without partitions, which the kernel doesn't take: {told.err.strip()}")
            return
        device = f"{disk}p1"
        done = run("apply", *HAS, "--empty=require", device, cwd=folder)
        expect("a blank partition", (done.status, done.err), (0, ""))
        answers("a partition", folder, device, 4096)
        expect("another size", run("show", "--sector-size=512", device), (4, "error 4 NoTable\n", other(device, 4096, 512)))


signal.signal(signal.SIGTERM, lambda *_: sys.exit(1))
if os.geteuid() or not os.path.exists("/dev/loop-control"):
    skip("no root, or no loop devices")
need("losetup", "partx")
with tempfile.TemporaryDirectory() as name:
    definitions.write(f"{name}/folder", {"a.conf": "Type=home\n"})
    for sector in (4096, 512):
        own_sectors(name, sector)
    odd_sectors(name)
    partition(name)
end()
