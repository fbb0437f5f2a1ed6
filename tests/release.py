"""release/ has the programs that its record tells, made of these sources, and a byte or a source that is turned is found.

All of it is by checksums, which need no kit; that a build of the sources gives the same bytes is compared by `tools/release --check`.
"""
import os
import pathlib
import re
import shutil
import sys
import tempfile
import time

from lib.program import TOP, asked, end, expect, wrong

PARTS = ("src", "specs", "proofs")
# Neither the kit nor what tools/release calls beside python is found here.
BARE = {"PATH": "/usr/bin:/bin"}
# The version of glibc that the documents name.
GLIBC = (2, 34)


def copy(to):
    """The sources, release/ and what reads them, in a folder."""
    for name in ("tools", "release"):
        shutil.copytree(TOP / name, to / name)
    shutil.copy(TOP / "crates.txt", to)
    for crate in (TOP / "crates").iterdir():
        for part in PARTS:
            if (crate / part).is_dir():
                shutil.copytree(crate / part, to / "crates" / crate.name / part)


def check(to, *words):
    """How `tools/release` ends there, with what it finds."""
    answer = asked(sys.executable, to / "tools" / "release", *words, env=BARE)
    return answer.status, answer.err


def turned(to, path, change, what):
    """Changes a file, and sees that `tools/release --check` finds it before it builds anything."""
    file = to / path
    old = file.read_bytes()
    file.write_bytes(change(old))
    status, said = check(to, "--check")
    expect(f"{path} changed", (status, what in said), (1, True))
    file.write_bytes(old)


def main():
    with tempfile.TemporaryDirectory() as room:
        to = pathlib.Path(room)
        copy(to)
        status, said = check(to, "--sums")
        expect("release/ and its record", (status, said), (0, ""))
        if status:
            end()

        seconds = []
        for _ in range(5):
            begun = time.monotonic()
            answer = asked(to / "tools" / "repart", "--version", env=BARE)
            seconds.append(time.monotonic() - begun)
        expect("tools/repart --version", (answer.status, answer.err), (0, ""))
        if min(seconds) >= 1:
            wrong(f"tools/repart --version took {min(seconds):.2f} s")
        chosen = asked(to / "tools" / "program", env=BARE).out.strip()
        expect("the program that is chosen", os.path.dirname(chosen), str(to / "release"))

        image = TOP / "crates" / "repart" / "data" / "small.img"
        answers = [asked(to / "release" / name, "show", image) for name in ("repart", "repart-v3")]
        expect("show by release/repart", answers[0], (0, (TOP / "crates" / "repart" / "stdout").read_text(), ""))
        if answers[1].status == 127:
            print("without a processor of x86-64-v3: release/repart-v3 isn't run", flush=True)
        else:
            expect("show by release/repart-v3", answers[1], answers[0])
        for name in ("repart", "repart-v3"):
            program = (to / "release" / name).read_bytes()
            expect(f"libraries of {name}", set(re.findall(rb"\0(lib[\w+-]+\.so[.\d]*)\0", program)), {b"libc.so.6"})
            versions = {tuple(map(int, it.split(b"."))) for it in re.findall(rb"GLIBC_(\d+\.\d+)", program)}
            expect(f"the newest glibc that {name} asks for", max(versions), GLIBC)

        turned(to, "release/repart", lambda it: it[:5000] + bytes([it[5000] ^ 1]) + it[5001:], "release/repart isn't the program")
        turned(to, "release/repart-v3", lambda it: it + b"\0", "release/repart-v3 isn't the program")
        turned(to, "release/record", lambda it: it.replace(b"sources ", b"sources 0"), "made of other sources")
        for path in ("crates/repart/src/main.rt", "crates/rp_gpt/specs/Lib.antt", "crates/rp_gpt/proofs/Lib.antt"):
            turned(to, path, lambda it: it + b"\n", "made of other sources")
        turned(to, "crates.txt", lambda it: it.replace(b"\nrepart: ", b"\nrepart: rp_crc "), "made of other sources")
        (to / "crates/rp_gpt/src/more.rt").write_text("")
        expect("a source more", check(to, "--sums")[0], 1)
        answer = asked(to / "tools" / "repart", "--version", env=BARE)
        expect("other sources and no kit", (answer.status, answer.out, answer.err.count("\n")), (1, "", 2))
        os.remove(to / "crates/rp_gpt/src/more.rt")

        # What no proof of the program reads is no part of it.
        (to / "crates" / "rp_rows" / "src" / "lib.rt").write_text("")
        expect("a crate that the program doesn't stand on", check(to, "--sums")[0], 0)
    end()


if __name__ == "__main__":
    main()
