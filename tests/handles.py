#!/usr/bin/env python3
"""With standard handles closed each command leaves the image's bytes and ends as it does with all of them open.

Some service managers start programs so. What is printed went into the image that had got the number of a handle. Where standard
output is closed, what was done and can't be printed ends with 9.
"""
import itertools
import os
import pathlib
import subprocess
import tempfile

from lib import definitions
from lib.images import IMAGES, sparse
from lib.program import REPART, SEED, asked, end, expect, has

# the words of each run, behind the image that it gets
TWO = ["--definitions=two", SEED]
RUNS = [
    ("small", ["show", "image"]),
    ("blank", ["show", "image"]),
    ("esp", ["plan", *TWO, "image"]),
    ("blank", ["apply", *TWO, "--empty=allow", "image"]),
    ("blank", ["apply", "--definitions=bad", SEED, "--empty=allow", "image"]),
    ("blank", ["apply", *TWO, "image"]),
    ("small", ["check", "--definitions=none", SEED, "image"]),
    ("esp", ["check", *TWO, "image"]),
    ("small", ["dissect", "image"]),
    ("small", ["dissect", "--policy=root=verity", "image"]),
    ("blank", ["policy", "--policy=root=verity"]),
    ("blank", ["policy", "--policy=rot=verity"]),
    ("empty", ["make", "--number=1", "image"]),
    ("blank", ["compare", "--policy=root=signed", "--against=root=signed+verity"]),
    ("blank", ["compare", "--policy=root=signed+verity", "--against=root=signed"]),
    ("blank", ["--help"]),
    ("blank", ["--version"]),
    ("blank", []),
    ("blank", ["show", "--size=1M", "image"]),
]


def blocks(path):
    """The blocks of a file that aren't zero, by their places, and its length."""
    found = {}
    with open(path, "rb") as file:
        length, at = os.fstat(file.fileno()).st_size, 0
        while at < length:
            try:
                start = os.lseek(file.fileno(), at, os.SEEK_DATA)
            except OSError:
                break
            at = os.lseek(file.fileno(), start, os.SEEK_HOLE)
            file.seek(start)
            for place in range(start, at, 4096):
                block = file.read(min(4096, at - place))
                if block.strip(b"\0"):
                    found[place] = block
    return found, length


def ran(folder, kind, words, closed=(), before=()):
    """The status of a run on an image of its own with these handles closed, what it printed, and the image."""
    image = pathlib.Path(folder, "image")
    if kind == "blank":
        sparse(image, 64 << 20)
    else:
        image.write_bytes(IMAGES[kind]() if kind in IMAGES else b"")

    def close():
        for handle in closed:
            os.close(handle)

    done = subprocess.run([*before, REPART, *words], cwd=folder, stdin=subprocess.DEVNULL, stdout=subprocess.PIPE, stderr=subprocess.PIPE,
                          preexec_fn=close)
    return done.returncode, done.stdout, done.stderr, blocks(image)


def each_way(folder):
    for kind, words in RUNS:
        status, out, err, image = ran(folder, kind, words)
        for closed in itertools.chain.from_iterable(itertools.combinations(range(3), many) for many in range(4)):
            found = ran(folder, kind, words, closed)
            what = f"{' '.join(words)}, closed {closed}"
            expect(f"{what}: its status", found[0], 9 if 1 in closed and status in (0, 1) else status)
            expect(f"{what}: standard output", found[1], b"" if 1 in closed else out)
            expect(f"{what}: standard error", found[2], b"" if 2 in closed else err)
            if found[3] != image:
                expect(f"{what}: the image", "other bytes", "the same bytes")


def no_null(folder):
    """Where nothing can stand for a handle it ends with 9 before anything else is opened."""
    refuse = ["strace", "-o", "trace", "-P", "/dev/null", "-e", "inject=openat:error=EMFILE"]
    if not has("strace", "/dev/null that can't be opened") or asked(*refuse, "true", cwd=folder).status:
        return
    for kind, words in RUNS:
        status, out, _, image = ran(folder, kind, words, before=refuse)
        expect(f"{' '.join(words)}, no /dev/null", (status, out), (9, b""))
        expect("its image", image == ran(folder, kind, [])[3], True)


with tempfile.TemporaryDirectory() as name:
    definitions.write(f"{name}/two", {"a.conf": "Type=home\nSizeMaxBytes=1M\nCopyBlocks=source\n", "b.conf": "Type=swap\n"})
    definitions.write(f"{name}/bad", {"a.conf": "Type=home\nWeight=x\n"})
    definitions.write(f"{name}/none", {})
    pathlib.Path(name, "source").write_bytes(bytes(range(256)) * 1024)
    each_way(name)
    no_null(name)
end()
