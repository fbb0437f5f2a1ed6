#!/usr/bin/env python3
"""Whenever `apply` is stopped, the image shows the old table or the goal, and a further `apply` goes on.

The cases are a blank image, a new partition beside an old one, each copy damaged, growth by --size and on a longer disk, sectors of
4,096 bytes, a root file system with its hash tree, a factory reset, and one with growth. How an image is stopped, and what is looked at
then, says lib/torture.py. With --all more images are tried for each sync.

Needs: strace, which has to be allowed to trace
"""
import pathlib
import tempfile

from lib.cases import CASES, prepare
from lib.program import ALL, asked, end, has, need, skip, wrong
from lib.torture import NotRecorded, Torture

# the most images for each sync
BOUND = 100 if ALL else 12

need("strace")
if asked("strace", "-o", "/dev/null", "true").status:
    skip("strace may trace nothing here")
has("sfdisk", "it isn't asked what it finds in the images")
for case in CASES:
    with tempfile.TemporaryDirectory() as name:
        folder = pathlib.Path(name)
        (folder / "image").write_bytes(prepare(case, folder))
        torture = Torture(folder, folder / "image", ["--definitions=repart.d", *case.words], BOUND)
        try:
            torture.prepare()
            print(f"{case.name}: {torture.all()}", flush=True)
        except NotRecorded as why:
            wrong(f"{case.name}: {why}")
        for fault in torture.wrong:
            wrong(f"{case.name}: {fault}")
end()
