"""A disk for nbdkit(1) that keeps in memory what was written and not yet flushed, and loses it when the power goes.

    nbdkit python losing_disk.py file=DISK log=LOG [cut=N] [keep=SEED] [fail=N]

Writes and flushes are counted together from 1, and LOG gets a line for each: its number, `write` with place and length, or `flush`.
At number N of `cut` the power goes: that one isn't done, what wasn't flushed is lost, and this process ends. With `keep` some
sectors of it, chosen by chance from SEED, have reached the disk before, as disks may do. At number N of `fail` a flush, the next
if it is a write, fails with EIO once, and what wasn't flushed is lost.
"""
import builtins
import errno
import os
import random

import nbdkit

API_VERSION = 2
SECTOR = 512
settings = {}
pending = []
count = 0


def config(key, value):
    settings[key] = value


def thread_model():
    return nbdkit.THREAD_MODEL_SERIALIZE_ALL_REQUESTS


def open(readonly):
    return {"disk": os.open(settings["file"], os.O_RDWR), "log": builtins.open(settings["log"], "a", buffering=1, encoding="ascii")}


def get_size(h):
    return os.fstat(h["disk"]).st_size


def pread(h, buf, offset, flags):
    buf[:] = os.pread(h["disk"], len(buf), offset)
    for at, data in pending:
        first, end = max(at, offset), min(at + len(data), offset + len(buf))
        if first < end:
            buf[first - offset:end - offset] = data[first - at:end - at]


def counted(h, line):
    """Notes a write or a flush; the power goes at the one that was chosen."""
    global count
    count += 1
    h["log"].write(f"{count} {line}\n")
    if count == int(settings.get("cut", 0)):
        if "keep" in settings:
            dice = random.Random(int(settings["keep"]))
            for at, data in pending:
                for place in range(0, len(data), SECTOR):
                    if dice.getrandbits(1):
                        os.pwrite(h["disk"], data[place:place + SECTOR], at + place)
        os._exit(0)


def pwrite(h, buf, offset, flags):
    pending.append((offset, bytes(buf)))
    counted(h, f"write {offset} {len(buf)}")


def flush(h, flags):
    counted(h, "flush")
    if count >= int(settings.get("fail", 0)) > 0:
        del settings["fail"]
        pending.clear()
        h["log"].write(f"{count} failed\n")
        nbdkit.set_error(errno.EIO)
        raise OSError("the disk lost what it had in memory")
    for at, data in pending:
        os.pwrite(h["disk"], data, at)
    pending.clear()
