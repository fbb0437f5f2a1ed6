#!/usr/bin/env python3
"""Of two programs that write to one image at once the second waits for the first, or gives up.

`apply` and `make` hold the image's exclusive advisory lock (flock(2)) to the end. They try for 10 seconds; then no path stands for the
image. Commands that only read take none.
"""
import fcntl
import os
import pathlib
import random
import signal
import subprocess
import tempfile
import threading
import time

from lib import definitions
from lib.images import sparse
from lib.program import REPART, end, expect, wrong

WORDS = ["--definitions=folder", "--empty=allow"]
SEEDS = ["--seed=00000000-0000-0000-0000-00000000000%d" % place for place in (1, 2)]
WAITS = ": another program has its lock; waiting up to 10 seconds for it\n"
GIVES_UP = ": another program still has its lock; try again when that has ended\n"
WHOLE = "copies primary=same backup=same mbr=same"
ROUNDS = 50


def start(folder, *words):
    return subprocess.Popen([REPART, *words], cwd=folder, stdin=subprocess.DEVNULL, stdout=subprocess.PIPE, stderr=subprocess.PIPE, text=True)


def ended(process):
    """The status of a program, its two outputs, and how many seconds it took from now on."""
    begun = time.monotonic()
    out, err = process.communicate(timeout=120)
    return process.returncode, out, err, time.monotonic() - begun


def fresh(folder, name="image"):
    return sparse(pathlib.Path(folder, name), 256 << 20)


def locked(image):
    """Whether another program has the image's exclusive lock."""
    with open(image, "rb") as file:
        try:
            fcntl.flock(file, fcntl.LOCK_SH | fcntl.LOCK_NB)
            return False
        except BlockingIOError:
            return True


def stopped(folder, image):
    """A program that is stopped while it has the lock."""
    for _ in range(20):
        fresh(folder)
        first = start(folder, "apply", *WORDS, SEEDS[0], "image")
        while first.poll() is None:
            if locked(image):
                first.send_signal(signal.SIGSTOP)
                if locked(image):
                    return first
                first.send_signal(signal.SIGCONT)
            time.sleep(0.001)
        first.communicate()
    wrong("apply was never seen with a lock")
    return None


def gives_up(folder, image):
    """The first is stopped once it has the lock."""
    first = stopped(folder, image)
    if not first:
        return
    os.symlink("image", pathlib.Path(folder, "link"))
    others = {name: start(folder, *words) for name, words in {
        "apply": ["apply", *WORDS, SEEDS[1], "image"],
        "apply by a link": ["apply", *WORDS, SEEDS[1], "link"],
        "make": ["make", "--number=1", "image"],
        "apply by definitions that aren't right": ["apply", "--definitions=bad", SEEDS[1], "image"],
    }.items()}
    for words in (["show", "image"], ["plan", *WORDS, SEEDS[0], "image"], ["check", "--definitions=folder", SEEDS[0], "image"], ["dissect", "image"]):
        status, _, err, seconds = ended(start(folder, *words))
        expect(f"{words[0]} beside it", (status in (0, 1, 4), err, seconds < 5), (True, "", True))
    begun = time.monotonic()
    for name, other in others.items():
        status, out, err, _ = ended(other)
        path = "link" if "link" in name else "image"
        wanted = (3, "error 3 a.conf:3 BadValue Weight\n") if "definitions" in name else (7, "error 7 disk\n")
        expect(f"{name} beside it", (status, out, err), (*wanted, f"repart: {path}{WAITS}repart: {path}{GIVES_UP}"))
    expect("they waited for ten seconds", 6 < time.monotonic() - begun < 20, True)
    first.send_signal(signal.SIGCONT)
    status, out, err, _ = ended(first)
    expect("the first goes on", (status, out[-8:], err), (0, "applied\n", ""))
    expect("its table", ended(start(folder, "show", "image"))[1].splitlines()[-1:], [WHOLE])


def waits(folder):
    """Another program lets a shared lock go after two seconds, as udev does after moments."""
    image = fresh(folder)
    with open(image, "rb") as file:
        fcntl.flock(file, fcntl.LOCK_SH)
        timer = threading.Timer(2, fcntl.flock, (file, fcntl.LOCK_UN))
        timer.start()
        status, out, err, seconds = ended(start(folder, "apply", *WORDS, SEEDS[0], "image"))
        timer.join()
    expect("a lock that is let go", (status, out[-8:], err), (0, "applied\n", f"repart: image{WAITS}"))
    expect("it waits for it", 1.5 < seconds < 10, True)


def at_once(folder):
    """Two at once, each by a seed of its own: one makes the table, and the other finds nothing to do."""
    dice = random.Random(1)
    for turn in range(ROUNDS):
        fresh(folder)
        pair = []
        for seed in SEEDS:
            pair.append(start(folder, "apply", *WORDS, seed, "image"))
            time.sleep(dice.choice([0, 0, 0.01, 0.03]))
        answers = [ended(one) for one in pair]
        shown = ended(start(folder, "show", "image"))
        if [(status, out[-8:]) for status, out, *_ in answers] != [(0, "applied\n")] * 2:
            wrong(f"round {turn}: {answers}")
        elif sorted("steps 0 writes 0" in out for _, out, *_ in answers) != [False, True]:
            wrong(f"round {turn}: not just one has something to do")
        if shown[0] or shown[1].splitlines()[-1] != WHOLE:
            wrong(f"round {turn}: the image shows {shown[1]}")


with tempfile.TemporaryDirectory() as name:
    definitions.write(f"{name}/folder", {"a.conf": "Type=home\nCopyBlocks=source\nSizeMaxBytes=100M\n"})
    definitions.write(f"{name}/bad", {"a.conf": "Type=home\nWeight=x\n"})
    sparse(f"{name}/source", 100 << 20)
    gives_up(name, pathlib.Path(name, "image"))
    waits(name)
    at_once(name)
end()
