"""Stops `repart apply` at each moment, and looks at what is left.

The program is run once on a copy of an image, and strace(1) records its calls: writes, syncs, changes of length. Then the images are
made that a power failure may leave: all calls up to a sync are done, and each write behind it, up to the next sync, is done whole, not
at all, up to one of its sectors of 512 bytes, or has a torn sector there; in every combination, so in every order too. Where there are
more than the bound of them, every single write is cut and the rest is chosen by chance. Of each such image is checked:

- `show` shows the table that the image shows, or the goal, and refuses nothing that isn't refused of the image; with --factory-reset=on
  it may also show the table without the rows that are taken out;
- each partition of the image that is shown holds its bytes; where the goal is shown, new partitions hold theirs;
- sfdisk(8), where it is there, finds the same table (none too, where there was none or the protective MBR isn't written yet);
- `apply` with the same words ends with 0 and leaves the goal, byte for byte, and then has nothing left to do (where the plan dropped a
  definition: ends with 0 or 5, and old partitions hold their bytes); once the rows are taken out, it goes on without
  --factory-reset=on. Where the image is to grow after a reset and shows its backup, it first repairs without --size, and then old
  partitions hold their bytes and nothing is left to do.

A torn sector is what the disk's promise is about: a header that is torn is found by its checksum, but by chance. Nothing but copies is
written to.
"""
import collections
import itertools
import math
import os
import pathlib
import random
import re
import shutil
import subprocess

from lib.gpt import rows_of
from lib.images import random_bytes
from lib.program import REPART, SEED, asked, run

SECTOR = 512
CALL = re.compile(r'(?:\d+ +)?(\w+)\((\d+)<((?:\\x[0-9a-f]{2})*)>(?:, )?(.*)\) += (-?\d+)')
NO_TABLE = "error 4 NoTable\n"


class NotRecorded(Exception):
    """What keeps the calls from being recorded whole."""


def unescaped(text):
    return bytes.fromhex(text.replace("\\x", ""))


def copy(source, target):
    subprocess.run(["cp", "--sparse=always", source, target], check=True)


def recorded(words, image, log, folder):
    """The calls that change the image while a program runs, and how it ends."""
    answer = asked("strace", "-f", "-y", "-xx", "-s", str(1 << 24), "-o", log, "-e",
                   "trace=lseek,write,pwrite64,writev,pwritev,fsync,fdatasync,sync_file_range,ftruncate,fallocate", *words,
                   cwd=folder)
    if not os.path.exists(log):
        raise NotRecorded(f"strace records nothing: {answer.err}")
    calls, places = [], {}
    wanted = os.path.realpath(image).encode()
    with open(log, encoding="ascii", errors="replace") as file:
        for line in file:
            found = CALL.match(line)
            if not found or unescaped(found[3]) != wanted:
                continue
            name, handle, given, result = found[1], found[2], found[4], int(found[5])
            if result < 0:
                raise NotRecorded(f"a call failed while it was recorded: {name} {given[:60]} = {result}")
            if name == "lseek":
                places[handle] = result
            elif name in ("write", "pwrite64"):
                text, _, rest = given[1:].partition('"')
                if rest.startswith("..."):
                    raise NotRecorded("strace cut a write")
                at = int(rest.split(", ")[-1]) if name == "pwrite64" else places.get(handle, 0)
                calls.append(("write", at, unescaped(text)[:result]))
                if name == "write":
                    places[handle] = at + result
            elif name in ("fsync", "fdatasync"):
                calls.append(("sync",))
            elif name == "ftruncate":
                calls.append(("length", int(given.split(", ")[-1])))
            else:
                raise NotRecorded(f"a call that isn't known here: {name}")
    os.unlink(log)
    return calls, answer


def blocks_of(calls):
    """The calls between two syncs, each block as the number of calls before it and its calls without the sync."""
    blocks, start, block = [], 0, []
    for number, call in enumerate(calls):
        if call[0] == "sync":
            blocks.append((start, block))
            start, block = number + 1, []
        else:
            block.append(call)
    return blocks + [(start, block)]


def do(file, call):
    if call[0] == "write":
        file.seek(call[1])
        file.write(call[2])
    elif call[0] == "length":
        file.truncate(call[1])


# What is left of a call: `None` for nothing, or the bytes of a write that are done, and the bytes of a torn sector that follows.
def remains_of(call, dice):
    """All that may be left of a call: nothing, the whole, all up to each sector, and with a torn sector there: one of which a
    first part is new and the rest as it was, or, where all of a sector is written, one of any bytes. A write within a sector is
    torn in many ways, and each sector of a longer one in one."""
    if call[0] != "write":
        return [None, (0, b"")]
    at, data = call[1], call[2]
    cuts = [0, *(cut for cut in range(-at % SECTOR, len(data), SECTOR) if cut)]
    found = [None, (len(data), b""), *((cut, b"") for cut in cuts[1:])]
    for cut in cuts:
        part = data[cut:cut + SECTOR - (at + cut) % SECTOR]
        torn = [part[:end] for end in range(4, len(part), 4)]
        torn += [random_bytes(dice, SECTOR) for _ in range(8)] if len(part) == SECTOR else []
        found += [(cut, bytes_) for bytes_ in (torn if len(cuts) == 1 else dice.sample(torn, min(1, len(torn))))]
    return found


def left(call, remains):
    """What is left of a call on the disk, as a call."""
    return ("write", call[1], call[2][:remains[0]] + remains[1]) if call[0] == "write" else call


def choices_of(block, bound, dice):
    """Choices of what is left of each call of a block."""
    kinds = [remains_of(call, dice) for call in block]
    if math.prod(map(len, kinds)) <= bound:
        return list(itertools.product(*kinds))
    whole = [(len(call[2]) if call[0] == "write" else 0, b"") for call in block]
    # each single call in each way, with all others whole, all others lost, or all before it whole and all behind it lost
    singles = [(place, one) for place, remains in enumerate(kinds) for one in remains]
    ways = 3 if len(block) > 1 else 1
    if ways * len(singles) > bound:
        singles = dice.sample(singles, max(1, bound // (ways + (ways > 1))))
    found = []
    for place, one in singles:
        found.append(tuple(whole[:place] + [one] + whole[place + 1:]))
        found.append(tuple([None] * place + [one] + [None] * (len(block) - place - 1)))
        found.append(tuple(whole[:place] + [one] + [None] * (len(block) - place - 1)))
    while len(found) < bound:
        found.append(tuple(dice.choice([None, full, dice.choice(remains)]) for full, remains in zip(whole, kinds)))
    return list(dict.fromkeys(found))[:bound]


class Torture:
    """An image, the folder of a run beside it, and the words of `apply`; `empty` is that of the first run."""

    def __init__(self, folder, image, words, bound, empty="allow"):
        self.folder, self.image, self.bound, self.empty, self.wrong, self.tried = pathlib.Path(folder), image, bound, empty, [], 0
        self.seen = collections.Counter()

        def given(name):
            return [word for word in words if word.startswith(f"--{name}=")]

        self.sectors, self.size, self.reset = given("sector-size"), given("size"), given("factory-reset")
        self.options = [*given("definitions"), SEED, *self.sectors]
        self.old, self.base, self.stop = (self.folder / name for name in ("old", "base", "stop"))
        self.peer = bool(shutil.which("sfdisk"))

    def show(self, path):
        """What `show` says of the table, without what copies are there and how long the image is."""
        status, out, _ = run("show", *self.sectors, path)
        if status:
            return out
        return re.sub(r"^table \w+ sectors \d+", "table", re.sub(r"^copies .*\n", "", out, flags=re.M))

    def sfdisk(self, path):
        """What sfdisk finds, or none. It wants a protective MBR."""
        status, out, _ = asked("sfdisk", "--dump", *self.sectors, path)
        if status or "label: gpt" not in out:
            return None
        return [line.split(" : ", 1)[1] for line in out.splitlines() if " : " in line], re.findall(r"^label-id: .*$", out, re.M)

    def apply(self, path, empty, *more):
        return run("apply", f"--empty={empty}", *more, *self.options, path, cwd=self.folder)

    def prepare(self):
        """Runs the program once, and keeps its calls and what is to be there behind them."""
        copy(self.image, self.old)
        copy(self.image, self.stop)
        words = [REPART, "apply", f"--empty={self.empty}", *self.reset, *self.size, *self.options, self.stop]
        self.calls, (status, out, err) = recorded(words, self.stop, self.folder / "log", self.folder)
        if status:
            raise NotRecorded(f"apply ended with status {status}: {out}{err}")
        self.dropped = "\ndropped " in out
        self.final = self.stop.read_bytes()
        copy(self.old, self.base)
        self.had, self.goal = self.show(self.old), self.show(self.stop)
        taken = {int(slot) for slot in re.findall(r"^reset (\d+)$", out, re.M)}
        old, new = rows_of(self.had), rows_of(self.goal)
        self.left = "".join(line for line in self.had.splitlines(True) if not set(rows_of(line)) & taken)
        peers = {}
        with open(self.base, "r+b") as file:
            for call in self.calls:
                do(file, call)
                file.flush()
                if self.peer and taken and call[0] == "sync" and self.show(self.base) == self.left:
                    peers[self.left] = self.sfdisk(self.base)
        if self.base.read_bytes() != self.final:
            raise NotRecorded("the recorded calls aren't all that changed the image")
        copy(self.old, self.base)
        # what sfdisk finds where each of the tables is shown
        self.peers = {**peers, **({self.had: self.sfdisk(self.old), self.goal: self.sfdisk(self.stop)} if self.peer else {})}
        was = self.old.read_bytes()
        self.old_bytes = [(slot, 512 * row.start, was[512 * row.start:512 * (row.start + row.size)], slot in taken) for slot, row in old.items()]
        self.new_bytes = [(slot, 512 * row.start, self.final[512 * row.start:512 * (row.start + row.size)]) for slot, row in new.items()
                          if slot not in old or slot in taken]

    def fault_of(self, has_mbr):
        """What is wrong with the image that is left, or none."""
        shown = self.show(self.stop)
        if shown not in (self.had, self.left, self.goal) and not (shown == NO_TABLE and self.had.startswith("error")):
            return f"it shows {shown.splitlines()[:1]}"
        found = self.stop.read_bytes()
        for slot, at, data, taken in self.old_bytes:
            if found[at:at + len(data)] != data and not (taken and shown != self.had):
                return f"old partition {slot} lost its bytes"
        if shown == self.goal != self.had:
            for slot, at, data in self.new_bytes:
                if found[at:at + len(data)] != data:
                    return f"the goal is shown, and new partition {slot} doesn't hold its contents"
        self.seen["shows the goal" if shown == self.goal else "shows the old table" if shown == self.had
                  else "shows the reset table" if shown == self.left else "shows no table"] += 1
        if self.peer:
            table = self.sfdisk(self.stop)
            wanted = self.peers.get(shown, self.peers[self.had])
            if table != wanted and not (table is None and (self.peers[self.had] is None or not has_mbr)):
                return f"sfdisk finds {table}"
        words = ["allow" if self.empty == "require" else self.empty, *(self.reset if shown == self.had else [])]
        status, out, err = self.apply(self.stop, *words, *self.size)
        repaired = self.reset and self.size and out == "error 4 RepairFirst\n"
        if repaired:
            self.seen["was repaired first"] += 1
            self.apply(self.stop, *words)
            status, out, err = self.apply(self.stop, words[0], *self.size)
        if self.dropped:
            found = self.stop.read_bytes()
            if status not in (0, 5) or any(found[at:at + len(data)] != data for _, at, data, taken in self.old_bytes if not taken):
                return f"a further apply: status {status}: {out}{err}"
            return None
        if status:
            return f"a further apply ends with status {status}: {out}{err}"
        found = self.stop.read_bytes()
        if repaired and any(found[at:at + len(data)] != data for _, at, data, taken in self.old_bytes if not taken):
            return "an old partition lost its bytes behind a repair"
        if not repaired and found != self.final:
            return "a further apply leaves another image than the goal"
        status, out, _ = self.apply(self.stop, "refuse", *self.size)
        if status or "\nsteps 0 writes 0\n" not in out:
            return f"there is something left to do: {out}"
        return None

    def stops_of(self, place, block, dice):
        """Tries the images that a stop within a block may leave; the base has all that is before it."""
        for choice in choices_of(block, self.bound, dice):
            copy(self.base, self.stop)
            with open(self.stop, "r+b") as file:
                for call, remains in zip(block, choice):
                    if remains is not None:
                        do(file, left(call, remains))
                file.seek(510)
                has_mbr = file.read(2) == b"\x55\xaa"
            self.tried += 1
            fault = self.fault_of(has_mbr)
            if fault:
                told = ", ".join("lost" if one is None else f"{one[0]} bytes" + f" and {len(one[1])} of a torn sector" * (len(one[1]) > 0)
                                 for one in choice[:6])
                self.wrong.append(f"behind {place} calls, of {len(block)} more is left: {told}: {fault}")
                if len(self.wrong) >= 10:
                    return

    def all(self):
        """Tries what a stop leaves at each moment; gives what was tried, in words. What is wrong is in `wrong`."""
        dice = random.Random(1)
        for place, block in blocks_of(self.calls):
            self.stops_of(place, block, dice)
            if len(self.wrong) >= 10:
                break
            with open(self.base, "r+b") as file:
                for call in block:
                    do(file, call)
        return (f"{len(self.calls)} calls, {self.tried} images were tried ({', '.join(f'{many} {word}' for word, many in self.seen.most_common())}), "
                f"{len(self.wrong) or 'nothing'} was wrong" + (", sfdisk agrees" if self.peer and not self.wrong else ""))
