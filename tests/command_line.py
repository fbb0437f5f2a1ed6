#!/usr/bin/env python3
"""The program takes its words, opens what it is given, prints and ends as the manual says.

This is what no proof reaches: how `main` takes its words, which file it opens and how, `--help` and `--version`, the line on standard
error behind status 2, and each status that comes from the system.
"""
import json
import os
import pathlib
import shutil
import subprocess
import tempfile

from lib import definitions, verity
from lib.gpt import rows_of
from lib.images import IMAGES, sparse
from lib.program import REPART, SEED, end, expect, wrong

SMALL = IMAGES["small"]()
TABLE = ('table primary sectors 128 usable 34-94 disk aaaaaaaa-bbbb-4ccc-8ddd-eeeeeeeeeeee\n'
         '0 esp start 40 size 48 id 11111111-2222-4333-8444-555555555555 attrs 0000000000000000 name "EFI"\n'
         'copies primary=same backup=same mbr=same\n')
JSON = ('{"backup":"same","disk":"aaaaaaaa-bbbb-4ccc-8ddd-eeeeeeeeeeee","mbr":"same","origin":"primary","primary":"same",'
        '"rows":[{"attrs":"0000000000000000","id":"11111111-2222-4333-8444-555555555555","name":"EFI","size":48,"slot":0,'
        '"start":40,"type":"esp"}],"sectors":128,"usable":[34,94]}\n')
# as many partitions as entries, 1,024 of them
FULL = ("table primary sectors 131072 usable 2048-130814 disk aaaaaaaa-bbbb-4ccc-8ddd-eeeeeeeeeeee\n"
        + "".join('%d esp start %d size 8 id 00000000-0000-0000-0000-%012x attrs 0000000000000000 name "row %d"\n'
                  % (slot, 2048 + 8 * slot, slot + 1, slot) for slot in range(1024))
        + "copies primary=same backup=same mbr=same\n")
# 64 MiB with 256 entries, whose backup array begins at LBA 131,007
WIDE_SWAP = ('table primary sectors 131072 usable 2048-131006 disk aaaaaaaa-bbbb-4ccc-8ddd-eeeeeeeeeeee\n'
             '200 swap start 2048 size 20480 id 11111111-2222-4333-8444-555555555555 attrs 0000000000000000 name "swap"\n'
             'copies primary=same backup=same mbr=same\n')
# what `plan` prints of the small image without definitions, and of a blank one by two definitions
ID_A, ID_B = "0f6335f7-f5f3-4f84-b2b1-48862cde1d53", "aedfb21e-6a45-4cbf-a80f-61b151a39a08"
SAME = ('plan target 128 usable 34-94 disk aaaaaaaa-bbbb-4ccc-8ddd-eeeeeeeeeeee\n'
        '0 same - esp start 40 size 48 id 11111111-2222-4333-8444-555555555555 attrs 0000000000000000 name "EFI"\n'
        'ignored 0\nsteps 0 writes 0\n')
TWO = ('plan target 131072 usable 2048-131038 disk 5604b68e-37df-48a8-a451-502e27e8ed09\n'
       f'0 new a.conf linux-generic start 2048 size 42992 id {ID_A} attrs 0000000000000000 name "linux-generic"\n'
       f'1 new b.conf linux-generic start 45040 size 85992 id {ID_B} attrs 0000000000000000 name "linux-generic"\n'
       'ignored 0\nsteps 19 writes 23\n')
WORDS = "error 2 words\n"
SEE = "; see repart --help\n"

# a root file system of so many blocks, which has a hash tree of two levels
BLOCKS = 300

# folders that the runs find
FOLDERS = {
    "two": {"a.conf": "Type=linux-generic\nWeight=1000\n", "b.conf": "Type=linux-generic\nWeight=2000\n"},
    "sealed": {
        "10-esp.conf": "Type=esp\nSizeMinBytes=512M\nSizeMaxBytes=512M\n",
        "20-root.conf": "Type=root\nVerity=data\nVerityMatchKey=root\nCopyBlocks=root.raw\nReadOnly=yes\n",
        "30-root-verity.conf": "Type=root-verity\nVerity=hash\nVerityMatchKey=root\n",
        "40-home.conf": "Type=home\n",
    },
    "bad": {"a.conf": "Type=linux-generic\nWeight=1000001\n"},
    "mix": {"a.conf": "Type=home\nFactoryReset=yes\n", "b.conf": "Type=home\n"},
    "gone": {"a.conf": "Type=linux-generic\nCopyBlocks=missing.raw\n"},
    "none": {},
}

DESIGNATORS = ["root", "usr", "home", "srv", "esp", "xbootldr", "swap", "root-verity", "root-verity-sig", "usr-verity",
               "usr-verity-sig", "tmp", "var"]


def verdicts(rows, *extra):
    """What `dissect` prints, where all designators but these are absent, and these slots are left over."""
    return "".join([f"{name} {rows.get(name, '- absent')}\n" for name in DESIGNATORS] + [f"extra {slot}\n" for slot in extra])


def flags(text, default, **others):
    """What `policy` prints: the canonical text, and the flags of each designator, by default these."""
    return "".join([f"{text}\n"] + [f"{name} {others.get(name.replace('-', '_'), default)}\n" for name in DESIGNATORS])


HELPER = "unprotected+unused+absent"
LUKS_JSON = (json.dumps({"extra": [], "verdicts": [{"designator": name, "slot": 0, "verdict": "encrypted"} if name == "esp" else
                                                  {"designator": name, "slot": None, "verdict": "absent"} for name in DESIGNATORS]},
                        separators=(",", ":")) + "\n")

# words, status, standard output, standard error; None is anything
ROWS = [
    (["show", "small.img"], 0, TABLE, ""),
    (["show", "read-only.img"], 0, TABLE, ""),
    (["show", "--json=short", "small.img"], 0, JSON, ""),
    (["show", "--json=off", "--sector-size=512", "./small.img"], 0, TABLE, ""),
    (["show", "--sector-size=4096", "small.img"], 4, "error 4 NoTable\n", ""),
    (["show", "full.img"], 0, FULL, ""),
    (["show", "wide-swap.img"], 0, WIDE_SWAP, ""),
    (["show", "wider.img"], 4, "error 4 EntryCount 132 128\n", ""),
    (["show", "empty.img"], 4, "error 4 TooShort 0\n", ""),
    (["show", "missing.img"], 7, "error 7 disk\n", ""),
    (["show", "."], 7, "error 7 disk\n", ""),
    (["show", "pipe"], 7, "error 7 disk\n", ""),
    (["plan", "--definitions=none", SEED, "small.img"], 0, SAME, ""),
    (["plan", "--definitions=two", SEED, "--empty=allow", "blank.img"], 0, TWO, ""),
    (["plan", "--definitions=none:two", SEED, "--empty=allow", "blank.img"], 0, TWO, ""),
    (["plan", "--definitions=two", SEED, "blank.img"], 4, "error 4 NoTable\n", ""),
    (["plan", "--definitions=two", SEED, "full.img"], 5, "error 5 Slot a.conf\n", ""),
    (["plan", "--definitions=bad", SEED, "missing.img"], 3, "error 3 a.conf:3 BadValue Weight\n", ""),
    (["plan", "--definitions=two", SEED, "missing.img"], 7, "error 7 disk\n", ""),
    (["plan", "--definitions=small.img", SEED, "small.img"], 8, "error 8 folder\n", ""),
    (["plan", "--definitions=gone", SEED, "--empty=allow", "blank.img"], 8, "error 8 source\n", ""),
    (["plan", SEED, "small.img"], 2, WORDS, "repart: definitions: this option has to be given, with FOLDER[:FOLDER...]" + SEE),
    (["plan", "--definitions=two", "small.img"], 2, WORDS, "repart: seed: this option has to be given, with UUID" + SEE),
    (["plan", "--definitions=two:", SEED, "small.img"], 2, WORDS,
     "repart: --definitions=two:: not a value of this option, which takes FOLDER[:FOLDER...]" + SEE),
    (["plan", "--definitions=mix", SEED, "--factory-reset=on", "small.img"], 5, "error 5 ResetMix b.conf\n", ""),
    (["plan", "--definitions=none", SEED, "--factory-reset=on", "small.img"], 0, SAME, ""),
    (["plan", "--definitions=none", SEED, "--factory-reset=yes", "small.img"], 2, WORDS,
     "repart: --factory-reset=yes: not a value of this option, which takes off|on" + SEE),
    (["check", "--definitions=none", SEED, "small.img"], 0, "ok\n", ""),
    (["check", "--definitions=none", SEED, "read-only.img"], 0, "ok\n", ""),
    (["check", "--definitions=none", SEED, "narrow.img"], 1, "differs table\n", ""),
    (["check", "--definitions=two", SEED, "esp.img"], 1, "differs row 1\n", ""),
    (["check", "--definitions=none", SEED, "pair.img"], 0, "ok\n", ""),
    (["check", "--definitions=none", SEED, "turned.img"], 1, "differs verity root top\n", ""),
    (["check", "--definitions=none", SEED, "--arch=arm64", "turned.img"], 0, "ok\n", ""),
    (["check", "--definitions=none", SEED, "luks-pair.img"], 0, "ok\n", ""),
    (["check", "--definitions=none", SEED, "--sector-size=4096", "large-sectors.img"], 0, "ok\n", ""),
    (["check", "--definitions=none", SEED, "blank.img"], 4, "error 4 NoTable\n", ""),
    (["check", "--definitions=two", SEED, "full.img"], 5, "error 5 Slot a.conf\n", ""),
    (["check", "--definitions=bad", SEED, "missing.img"], 3, "error 3 a.conf:3 BadValue Weight\n", ""),
    (["check", "--definitions=two", SEED, "missing.img"], 7, "error 7 disk\n", ""),
    (["check", "--definitions=small.img", SEED, "small.img"], 8, "error 8 folder\n", ""),
    (["check", SEED, "small.img"], 2, WORDS, "repart: definitions: this option has to be given, with FOLDER[:FOLDER...]" + SEE),
    (["check", "--size=1M", "small.img"], 2, WORDS, "repart: --size=1M: not an option of this command" + SEE),
    (["dissect", "small.img"], 0, verdicts({"esp": "0 unprotected"}), ""),
    (["dissect", "two.img"], 0, verdicts({"esp": "3 unprotected"}, 5), ""),
    (["dissect", "pair.img"], 0, verdicts({"root": "1 verity", "esp": "0 unprotected", "root-verity": "2 unprotected"}), ""),
    (["dissect", "--arch=arm64", "pair.img"], 0, verdicts({"esp": "0 unprotected"}), ""),
    (["dissect", "--policy=root=verity", "pair.img"], 0,
     verdicts({"root": "1 verity", "esp": "0 ignored", "root-verity": "2 unprotected"}), ""),
    (["dissect", "--policy=root=unprotected+read-only-off", "pair.img"], 6, "denied root read-only\n", ""),
    (["dissect", "turned.img"], 0, verdicts({"root": "1 unprotected", "esp": "0 unprotected", "root-verity": "2 unprotected"}), ""),
    (["dissect", "--policy=root=verity", "turned.img"], 6, "denied root protection\n", ""),
    (["dissect", "luks.img"], 0, verdicts({"esp": "0 encrypted"}), ""),
    (["dissect", "--json=short", "luks.img"], 0, LUKS_JSON, ""),
    (["dissect", "--policy=esp=unprotected", "luks.img"], 6, "denied esp protection\n", ""),
    (["dissect", "--policy=esp=unprotected", "--json=short", "luks.img"], 6, "denied esp protection\n", ""),
    (["dissect", "short-luks.img"], 0, verdicts({"esp": "0 unprotected"}), ""),
    (["dissect", "hidden.img"], 0, verdicts({}, 0), ""),
    (["dissect", "--policy=esp=unprotected", "hidden.img"], 6, "denied esp absence\n", ""),
    (["dissect", "--policy=esp=unprotected+growfs-on", "small.img"], 6, "denied esp growfs\n", ""),
    (["dissect", "--sector-size=4096", "large-sectors.img"], 0, verdicts({"esp": "0 unprotected"}), ""),
    (["dissect", "--sector-size=4096", "small.img"], 4, "error 4 NoTable\n", ""),
    (["dissect", "missing.img"], 7, "error 7 disk\n", ""),
    (["dissect", "--policy=root=fast", "missing.img"], 6, "error 6 policy 5 UnknownFlag\n", ""),
    (["dissect"], 2, WORDS, "repart: no image is given, as the last word" + SEE),
    (["policy", "--policy=*"], 0,
     flags("*", "open", root_verity=HELPER, root_verity_sig=HELPER, usr_verity=HELPER, usr_verity_sig=HELPER), ""),
    (["policy", "--policy=usr=absent+unused:root=signed+verity"], 0,
     flags("root=verity+signed:usr=ignore", "ignore", root="verity+signed", root_verity="unprotected", root_verity_sig="unprotected"), ""),
    (["policy", "--policy=root=verity:root=signed"], 6, "error 6 policy 12 Repeated\n", ""),
    (["policy", "--policy=root"], 6, "error 6 policy 0 NoEquals\n", ""),
    (["policy"], 2, WORDS, "repart: policy: this option has to be given, with POLICY" + SEE),
    (["policy", "--policy=*", "small.img"], 2, WORDS, "repart: small.img: not an option, which is written --NAME=VALUE" + SEE),
    (["compare", "--policy=root=signed", "--against=root=signed+verity"], 0, "within\n", ""),
    (["compare", "--against=root=signed", "--policy=root=signed+verity"], 1, "beyond root verity read-only-off growfs-off\n", ""),
    (["compare", "--policy=*", "--against=root=verity"], 1, "beyond root absent\n", ""),
    (["compare", "--policy=root=fast", "--against=usr"], 6, "error 6 policy 5 UnknownFlag\n", ""),
    (["compare", "--policy=*", "--against=usr"], 6, "error 6 policy 0 NoEquals\n", ""),
    (["compare", "--policy=*"], 2, WORDS, "repart: against: this option has to be given, with POLICY" + SEE),
    ([], 2, WORDS, "repart: no command is given" + SEE),
    (["show"], 2, WORDS, "repart: no image is given, as the last word" + SEE),
    (["show", "-x"], 2, WORDS, "repart: -x: not an option, which is written --NAME=VALUE" + SEE),
    (["show", "small.img", "--json=off"], 2, WORDS, "repart: small.img: not an option, which is written --NAME=VALUE" + SEE),
    (["list", "small.img"], 2, WORDS, "repart: list: no such command" + SEE),
    (["show", "--json=off", "--json=off", "small.img"], 2, WORDS, "repart: --json=off: the option is given twice" + SEE),
    (["show", "--json=long", "small.img"], 2, WORDS,
     "repart: --json=long: not a value of this option, which takes off|short" + SEE),
    (["show", "--json=", "small.img"], 2, WORDS, "repart: --json=: not a value of this option, which takes off|short" + SEE),
    (["show", "--sector-size=1024", "small.img"], 2, WORDS,
     "repart: --sector-size=1024: not a value of this option, which takes 512|4096" + SEE),
    (["show", "--color=x", "small.img"], 2, WORDS, "repart: --color=x: no such option" + SEE),
    (["show", "--seed=x", "small.img"], 2, WORDS, "repart: --seed=x: not an option of this command" + SEE),
    (["show", b"\xff"], 2, WORDS, "repart: a word isn't UTF-8" + SEE),
    (["--help"], 0, None, ""),
    (["--version"], 0, None, ""),
    (["--help", "small.img"], 2, WORDS, None),
]


# Run as an ordinary user, since root may write each file.
ORDINARY = {"preexec_fn": lambda: os.setuid(65534)} if os.geteuid() == 0 else {}


def run(words, folder, **more):
    """The status of a copy of the program in a folder, and what it prints there."""
    more = {"stdout": subprocess.PIPE, "stderr": subprocess.PIPE, "timeout": 300, **more}
    answer = subprocess.run([folder / "repart", *words], cwd=folder, **ORDINARY, **more)
    return answer.returncode, (answer.stdout or b"").decode(), (answer.stderr or b"").decode()


def answers(folder):
    """Each row's words are answered by its status and its texts."""
    for words, status, out, err in ROWS:
        found = run(words, folder)
        expect(words, found, (status, found[1] if out is None else out, found[2] if err is None else err))
    help_text = run(["--help"], folder)[1]
    for named in ("--sector-size=", "--json=", "--definitions=", "--policy=", "show", "plan", "apply", "check", "make", "dissect", "policy",
                  "compare", "repart(8)"):
        if named not in help_text:
            wrong(f"--help doesn't name {named}")


def sealed(folder):
    """A root file system of zeros and the hash tree over it are planned for each architecture, with its root hash."""
    for arch, given in (("x86-64", []), ("arm64", ["--arch=arm64"])):
        salt = verity.salt_of(SEED, f"root-{arch}")
        root, _ = verity.tree_over([verity.digest(salt, bytes(verity.BLOCK))] * BLOCKS, salt)
        text = run(["plan", "--definitions=sealed", SEED, "--empty=allow", *given, "sparse.img"], folder)[1]
        rows = [(row.file, row.type, row.start, row.size, row.attrs) for row in rows_of(text).values()]
        expect(f"the pair of {arch}", rows, [
            ("10-esp.conf", "esp", 2048, 1048576, "0" * 16), ("20-root.conf", f"root-{arch}", 1050624, 8 * BLOCKS, "1" + "0" * 15),
            ("30-root-verity.conf", f"root-{arch}-verity", 1050624 + 8 * BLOCKS, 40, "1" + "0" * 15),
            ("40-home.conf", "home", 1053064, 3141200, "08" + "0" * 14)])
        expect(f"its root hash for {arch}", "".join(row.id for row in rows_of(text).values() if row.type.startswith("root")).replace("-", ""),
               root.hex())
        expect(f"its steps for {arch}", text.splitlines()[-1:], ["steps 21 writes 33"])


def applied(folder):
    """What `apply` answers: with a pair on a sparse file, behind which `show` shows what was planned and a second run writes
    nothing; on an image that has nothing left to do, on one that may not be written, and to an output that is full."""
    wish = ["--definitions=sealed", SEED, "--empty=allow", "sparse.img"]
    planned = run(["plan", *wish], folder)[1]
    expect("apply, the pair", run(["apply", *wish], folder), (0, planned + "applied\n", ""))
    shown = run(["show", "sparse.img"], folder)[1]
    expect("apply, its table", [row[3:] for row in rows_of(shown).values()], [row[3:] for row in rows_of(planned).values()])
    expect("apply, its copies", shown.splitlines()[-1:], ["copies primary=same backup=same mbr=same"])
    again = run(["apply", *wish], folder)
    expect("apply, a second run", (again[0], again[1].splitlines()[-2:]), (0, ["steps 0 writes 0", "applied"]))
    expect("apply, nothing to do", run(["apply", "--definitions=none", SEED, "idle.img"], folder)[:2], (0, SAME + "applied\n"))
    expect("apply, nothing to do: bytes", (folder / "idle.img").read_bytes() == SMALL, True)
    expect("apply, a file that may not be written", run(["apply", "--definitions=none", SEED, "read-only.img"], folder)[:2],
           (7, "error 7 disk\n"))
    with open("/dev/full", "wb") as full:
        status = run(["apply", "--definitions=two", SEED, "--empty=allow", "full-output.img"], folder, stdout=full)[0]
    expect("apply, a full output", (status, ID_B in run(["show", "full-output.img"], folder)[1]), (9, True))


# the definitions, an image, a byte of it of which one bit is turned, and what `check` prints then
TURNED = [
    ("two", "full-output.img", 131050 * 512, "differs backup\n"),
    ("two", "full-output.img", 1024 + 60, "differs primary\n"),
    ("two", "full-output.img", 447, "differs mbr\n"),
    # a partition of another table
    ("two", "full-output.img", 450, "ok\n"),
    ("two", "full-output.img", 2048 * 512, "ok\n"),
    ("sealed", "sparse.img", 1050624 * 512 + 5 * 4096, "differs verity root data 5\n"),
    ("sealed", "sparse.img", 1050624 * 512 + BLOCKS * 4096 - 1, f"differs verity root data {BLOCKS - 1}\n"),
    ("sealed", "sparse.img", 1053024 * 512, "differs verity root superblock\n"),
    ("sealed", "sparse.img", 1053024 * 512 + 4096, "differs verity root top\n"),
    ("sealed", "sparse.img", 1053024 * 512 + 2 * 4096, "differs verity root hash 2\n"),
    ("sealed", "sparse.img", 1053024 * 512 + 4 * 4096, "differs verity root hash 4\n"),
    ("none", "luks-pair.img", 88 * 512 + 3 * 4096, "differs verity root data 3\n"),
]


def turn(image, at):
    """Turns the lowest bit of a byte."""
    with open(image, "r+b") as file:
        file.seek(at)
        byte = file.read(1)[0]
        file.seek(at)
        file.write(bytes([byte ^ 1]))


def checked(folder):
    """What `check` answers, of images that were applied, and of these with one bit turned."""
    for definitions_, name in (("two", "full-output.img"), ("sealed", "sparse.img")):
        expect(f"check, {name} as it was applied", run(["check", f"--definitions={definitions_}", SEED, name], folder), (0, "ok\n", ""))
    for definitions_, name, at, wanted in TURNED:
        turn(folder / name, at)
        expect(f"check, {name} turned at {at}", run(["check", f"--definitions={definitions_}", SEED, name], folder),
               (int(wanted != "ok\n"), wanted, ""))
        turn(folder / name, at)


def full_outputs(folder):
    """Where standard output is full, it is the output that failed."""
    for words in (["show", "small.img"], ["check", "--definitions=none", SEED, "small.img"], ["dissect", "small.img"],
                  ["policy", "--policy=*"], ["--help"]):
        with open("/dev/full", "wb") as full:
            expect(f"{words} to a full output", run(words, folder, stdout=full)[0], 9)


def prepare(folder):
    """The files that the runs find."""
    folder.chmod(0o755)
    shutil.copy(REPART, folder / "repart")
    (folder / "repart").chmod(0o755)
    for made, name in (("small", "small"), ("small", "read-only"), ("small", "idle"), ("full-wide", "full"), ("wide", "wide-swap"),
                       *((made, made) for made in ("wider", "large-sectors", "pair", "turned", "luks-pair", "narrow", "esp", "luks",
                                                   "short-luks", "hidden", "two"))):
        (folder / f"{name}.img").write_bytes(IMAGES[made]())
    (folder / "empty.img").touch()
    os.mkfifo(folder / "pipe")
    for name, files in FOLDERS.items():
        definitions.write(folder / name, files)
    for name, size in (("blank.img", 64 << 20), ("full-output.img", 64 << 20), ("sparse.img", 2 << 30), ("root.raw", BLOCKS * verity.BLOCK)):
        sparse(folder / name, size)
    for name in ("sparse.img", "idle.img", "full-output.img"):
        (folder / name).chmod(0o666)
    (folder / "read-only.img").chmod(0o444)


with tempfile.TemporaryDirectory() as name:
    top = pathlib.Path(name)
    prepare(top)
    answers(top)
    sealed(top)
    applied(top)
    checked(top)
    full_outputs(top)
    expect("the image that was shown", (top / "small.img").read_bytes() == SMALL, True)
end()
