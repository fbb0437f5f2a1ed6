#!/usr/bin/env python3
"""Random image policies are read and compared as a second reader does it, and read as systemd-analyze reads them.

    tests/policies.py [COUNT [SEED]]

The second reader below is written from docs/FORMATS.md, and tries all that may be found of each designator. The texts are the same for
the same seed: good ones, and ones with unknown names, entries without an equals sign and repeated entries. Where systemd-analyze has the
command image-policy, which came with version 254, what `repart policy` says of each text is compared with its table; they may differ
where one of EXPLAINED says why.

Needs: for the last part systemd-analyze of version 254 or later
"""
import collections
import random
import shutil
import sys

from lib.program import ALL, asked, end, expect, run, wrong

DESIGNATORS = ["root", "usr", "home", "srv", "esp", "xbootldr", "swap", "root-verity", "root-verity-sig", "usr-verity",
               "usr-verity-sig", "tmp", "var"]
NAMES = ["verity", "signed", "encrypted", "unprotected", "unused", "absent", "read-only-on", "read-only-off", "growfs-on", "growfs-off"]
BITS = {name: 1 << place for place, name in enumerate(NAMES)}
OPEN, IGNORE, ABSENT, UNUSED = 63, 48, 32, 16
# a tree or a signature: its data, and the protections that want it
HELPERS = {"root-verity": ("root", 3), "usr-verity": ("usr", 3), "root-verity-sig": ("root", 2), "usr-verity-sig": ("usr", 2)}


class Fault(Exception):
    """A text that is no policy: the byte, and what is wrong there."""


def read_flags(at, text):
    bits = 0
    for word in text.split("+") if text else []:
        if word not in (*BITS, "open", "ignore"):
            raise Fault(at, "UnknownFlag")
        bits |= {"open": OPEN, "ignore": IGNORE}.get(word) or BITS[word]
        at += len(word) + 1
    bits |= 0 if bits & OPEN else OPEN
    for pair in (192, 768):
        bits ^= pair if bits & pair == pair else 0
    return bits


def read(text):
    """The flags that are listed, the default's under an empty name."""
    if len(text) > 4096:
        raise Fault(4096, "TooLong")
    if text in ("*", "-", "", "~"):
        return {"": {"*": OPEN, "~": ABSENT}.get(text, IGNORE)}
    listed, at = {}, 0
    for entry in text.split(":"):
        name, equals, flags = entry.partition("=")
        if not equals:
            raise Fault(at, "NoEquals")
        if name and name not in DESIGNATORS:
            raise Fault(at, "UnknownDesignator")
        if name in listed:
            raise Fault(at, "Repeated")
        listed[name] = read_flags(at + len(name) + 1, flags)
        at += len(entry) + 1
    return {"": IGNORE, **listed}


def flags_of(policy, name):
    data, wanted = HELPERS.get(name, (None, 0))
    if name not in policy and data and policy.get(data, policy[""]) & wanted:
        return policy.get(data, policy[""]) & 1008 | 8
    return policy.get(name, policy[""])


def written(bits):
    words = ["open"] if bits & OPEN == OPEN else ["ignore"] if bits & OPEN == IGNORE else [n for n in NAMES[:6] if bits & BITS[n]]
    return "+".join(words + [name for name in NAMES[6:] if bits & BITS[name]])


def canonical(policy):
    entries = [f"{name}={written(policy[name])}" for name in DESIGNATORS if name in policy]
    if not entries:
        return {OPEN: "*", IGNORE: "-", ABSENT: "~"}.get(policy[""], "=" + written(policy[""]))
    return ":".join(entries + ([] if policy[""] == IGNORE else ["=" + written(policy[""])]))


def allows(bits, found):
    if found is None:
        return bool(bits & ABSENT)
    kinds, read_only, growfs = found
    if not bits & kinds:
        return bool(bits & UNUSED)
    return not bits & (128 if read_only else 64) and not bits & (512 if growfs else 256)


FOUND = [None] + [(kinds, read_only, growfs) for kinds in range(1, 16) for read_only in (0, 1) for growfs in (0, 1)]


def answer_policy(text):
    policy = read(text)
    return 0, canonical(policy) + "\n" + "".join(f"{name} {written(flags_of(policy, name))}\n" for name in DESIGNATORS)


def answer_compare(text, against):
    first, second = read(text), read(against)
    for name in DESIGNATORS:
        for found in FOUND:
            if allows(flags_of(first, name), found) and not allows(flags_of(second, name), found):
                facts = "absent" if found is None else (f"{written(found[0])} read-only-{('off', 'on')[found[1]]} "
                                                       f"growfs-{('off', 'on')[found[2]]}")
                return 1, f"beyond {name} {facts}\n"
    return 0, "within\n"


# What `systemd-analyze image-policy swap=encrypted:usr=read-only-on+verity:root=encrypted` prints, by systemd-analyze(1).
EXAMPLE = """\
Analyzing policy: root=encrypted:usr=verity+read-only-on:swap=encrypted
       Long form: root=encrypted:usr=verity+read-only-on:swap=encrypted:=unused+absent

PARTITION       MODE        READ-ONLY GROWFS
root            encrypted   -         -
usr             verity      yes       -
home            ignore      -         -
srv             ignore      -         -
esp             ignore      -         -
xbootldr        ignore      -         -
swap            encrypted   -         -
root-verity     ignore      -         -
usr-verity      unprotected yes       -
root-verity-sig ignore      -         -
usr-verity-sig  ignore      -         -
tmp             ignore      -         -
var             ignore      -         -
default         ignore      -         -
"""


def table_of(printed):
    """The flags of each designator in what systemd-analyze prints: a mode, and whether read-only and growfs are demanded."""
    _, _, rows = printed.partition("PARTITION")
    table = {}
    for row in rows.splitlines()[1:]:
        name, mode, *states = [*row.split(), "", ""]
        if name in DESIGNATORS:
            words = mode.split("+")
            for word, state in zip(("read-only", "growfs"), states):
                words += [f"{word}-{'on' if state == 'yes' else 'off'}"] if state in ("yes", "no") else []
            table[name] = "+".join(words)
    return table


def is_of_unlisted_data(policy, name, said):
    """A hash tree's or signature's flags, where neither it nor its data is listed: there the default's, here by those of its data."""
    return name in HELPERS and name not in policy and HELPERS[name][0] not in policy and said == written(policy[""])


EXPLAINED = [is_of_unlisted_data]


def compare_beside(texts):
    """Compares the flags of each text's designators with what systemd-analyze tells."""
    expect("the table of the manual's example", table_of(EXAMPLE),
           {name: written(flags_of(read("swap=encrypted:usr=read-only-on+verity:root=encrypted"), name)) for name in DESIGNATORS})

    def theirs_of(text):
        return asked("systemd-analyze", "--no-pager", "image-policy", text)

    if not shutil.which("systemd-analyze") or not table_of(theirs_of("-").out):
        print("without systemd-analyze of version 254 or later (Debian package systemd): policies aren't read by it")
        return
    for text in texts:
        theirs, ours = theirs_of(text), run("policy", f"--policy={text}")
        if theirs.status or ours.status:
            if not theirs.status or ours.status != 6:
                wrong(f"{text!r}: {ours} beside {theirs}")
            counts["refused by systemd-analyze too"] += 1
            continue
        policy, said = read(text), table_of(theirs.out)
        for name, flags in (line.split(" ") for line in ours.out.splitlines()[1:]):
            why = next((rule.__name__ for rule in EXPLAINED if rule(policy, name, said.get(name))), None)
            if said.get(name) != flags and not why:
                wrong(f"{text!r}: {name} {flags} beside {said.get(name)}")
            counts["read by systemd-analyze alike" if said.get(name) == flags else why] += 1


def random_flags(rng):
    words = rng.sample([*NAMES, "open", "ignore"], rng.choice([0, 1, 1, 2, 3]))
    return "+".join(words + (["fast"] if rng.random() < 0.02 else []))


def random_policy(rng):
    if rng.random() < 0.1:
        return rng.choice(["*", "-", "", "~"])
    names = [rng.choice([*DESIGNATORS, "", "root", "root-verity"]) for _ in range(rng.choice([1, 1, 2, 3]))]
    entries = [f"{name}={random_flags(rng)}" for name in (dict.fromkeys(names) if rng.random() < 0.9 else names)]
    if rng.random() < 0.05:
        entries.append(rng.choice(["root", "boot=open", ""]))
    return ":".join(entries)


COUNT = int(sys.argv[1]) if len(sys.argv) > 1 else 5000 if ALL else 500
rng, counts = random.Random(int(sys.argv[2]) if len(sys.argv) > 2 else 1), collections.Counter()
for _ in range(COUNT):
    text, against = random_policy(rng), random_policy(rng)
    for words, ask in ((["policy", f"--policy={text}"], lambda: answer_policy(text)),
                       (["compare", f"--policy={text}", f"--against={against}"], lambda: answer_compare(text, against))):
        try:
            wanted = ask()
        except Fault as fault:
            wanted = 6, "error 6 policy {} {}\n".format(*fault.args)
        answer = run(*words)
        counts[f"{words[0]} status {answer.status}"] += 1
        expect(words, answer[:2], wanted)
compare_beside([random_policy(rng) for _ in range(COUNT)])
for what, many in sorted(counts.items()):
    print(f"{many:6} {what}")
end()
