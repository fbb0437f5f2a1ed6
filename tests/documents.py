#!/usr/bin/env python3
"""Documents say what is so: each command that one shows prints what stands below it, and each file, crate, function and lemma is there.

Commands stand behind `$ ` in blocks of `console`, or in literal blocks of manuals; one that shows nothing is run only before one of
its block that shows something. A literal block that begins with `# NAME.conf` is a file in repart.d. Documents are kept to their
lengths, manuals parse, PROVED.md names each clause of the top call, and ARCHITECTURE.md has the floors of crates.txt.
"""
import functools
import os
import pathlib
import re
import shutil
import subprocess
import sys
import tempfile

from lib.program import REPART, TOP, asked, end, expect, has, wrong

MARKDOWN = [TOP / "README.md", TOP / "CONTRIBUTING.md", TOP / "CHANGELOG.md", *sorted((TOP / "docs").glob("*.md")),
            *sorted((TOP / "examples").glob("*/README.md")), TOP / "tests" / "README.md"]
MANUALS = sorted((TOP / "docs").glob("*.[1-8]"))
WORDS = {"README.md": 1300, "CONTRIBUTING.md": 600, "docs/ARCHITECTURE.md": 2500, "docs/PROVED.md": 3500, "docs/DECISIONS.md": 4000, "docs/BOOT.md": 800}
# What stands at the top of the repository, but for what is made there.
PARTS = {path.name for path in TOP.iterdir()} - {"out"}
# Names of Rust's own that documents speak of.
OUTSIDE = {"Vec", "String", "None", "std"}


def read(path):
    return path.read_text(encoding="utf-8")


# Commands.

def shown(block):
    """The commands of a block that are run, each with the lines below it."""
    parts = [part.partition("\n")[::2] for part in re.split(r"^\$ ", block, flags=re.M)[1:]]
    while parts and not parts[-1][1]:
        parts.pop()
    return parts


def blocks_of(path):
    """The blocks of a document that show commands."""
    text = read(path)
    if path in MANUALS:
        return [re.sub(r"\\\(dq", '"', re.sub(r"\\e", r"\\", re.sub(r"\\&", "", block)))
                for block in re.findall(r"^\.Bd -literal.*?\n(.*?)^\.Ed$", text, re.M | re.S)]
    return re.findall(r"^```console\n(.*?)^```$", text, re.M | re.S)


def copy_to(folder):
    """What documents show commands of, with the program that is tested as tools/repart."""
    for part in ("docs", "examples", "share", "tests", "tools"):
        shutil.copytree(TOP / part, folder / part)
    (folder / "tools" / "repart").unlink()
    (folder / "tools" / "repart").symlink_to(REPART)


def is_file(folder, block):
    """Whether a block is a definition file, which is written then."""
    named = re.match(r"# (\S+\.conf)\n", block)
    if named:
        (folder / "repart.d").mkdir(exist_ok=True)
        (folder / "repart.d" / named[1]).write_text(block, encoding="utf-8")
    return bool(named)


def run_all(path, folder, programs):
    """Runs what a document shows, block by block."""
    environment = {**os.environ, "PATH": f"{programs}:{os.environ['PATH']}"}
    for block in blocks_of(path):
        if path in MANUALS and is_file(folder, block):
            continue
        for command, printed in shown(block):
            answer = subprocess.run(["sh", "-c", command], cwd=folder, env=environment, stdin=subprocess.DEVNULL, stdout=subprocess.PIPE,
                                    stderr=subprocess.PIPE)
            if answer.stdout.decode() != printed:
                wrong(f"{path.relative_to(TOP)}: {command}\nprinted\n{answer.stdout.decode()}{answer.stderr.decode()}in place of\n{printed}")


def commands():
    for path in [*MARKDOWN, *MANUALS]:
        if not any(map(shown, blocks_of(path))):
            continue
        with tempfile.TemporaryDirectory() as name:
            folder, programs = pathlib.Path(name) / "here", pathlib.Path(name) / "bin"
            folder.mkdir()
            programs.mkdir()
            (programs / "repart").symlink_to(REPART)
            if path in MARKDOWN:
                copy_to(folder)
            run_all(path, folder, programs)


def options():
    """Each line and span that calls the program has the options of its command."""
    help_text = asked(REPART, "--help").out
    known = {}
    for command, block in re.findall(r"^    repart ([a-z]+)\n((?:        .*\n)*)", help_text, re.M):
        known[command] = set(re.findall(r"--[a-z-]+", block))
    for path in [*MARKDOWN, *MANUALS]:
        text = read(path)
        calls = re.findall(r"(?:^|\$ |`|&& |\|\| |; )(?:sudo )?(?:tools/)?repart ([a-z]+)((?: [^|;&`\n]*)?)", "\n".join(blocks_of(path)), re.M)
        if path in MARKDOWN:
            calls += re.findall(r"`(?:[^`\n]* )?(?:tools/)?repart ([a-z]+)((?: [^|;&`\n]*)?)`", text)
        for command, words in calls:
            if command not in known:
                wrong(f"{path.relative_to(TOP)}: the program has no command {command}")
            for option in re.findall(r"(?<= )--[a-z-]+", words):
                if option not in known.get(command, ()):
                    wrong(f"{path.relative_to(TOP)}: {command} has no option {option}")


# Names.

@functools.lru_cache(maxsize=None)
def crates():
    """The crates of crates.txt, with what each stands on."""
    return {name: used.split() for name, used in re.findall(r"^([a-z_0-9]+)[^:#\n]*:(.*)$", read(TOP / "crates.txt"), re.M)}


def declared_in(path):
    """The names that a file of code, definitions or lemmas declares."""
    text = read(path)
    if path.suffix == ".rt":
        text = re.sub(r"//.*", "", text)
        yield from re.findall(r"\b(?:fn|struct|enum|trait|const|type|mod|static|ensures|requires)\s+([A-Za-z_]\w*)", text)
        yield from re.findall(r"^\s+(?:pub )?([A-Za-z_]\w*)\s*[,({:]", text, re.M)
    else:
        text = re.sub(r"--.*", "", text)
        yield from re.findall(r"^(?:(?:abbrev|unfoldable|pub|record|data|private)\s+)*([^\s:({=]+)", text, re.M)
        for names in re.findall(r"^\s+(?:pub )?((?:[^\s:({=]+\s+)+):", text, re.M):
            yield from names.split()
    yield path.stem


class Names:
    """What is declared: of each crate, and of all; and other words that documents may have in code."""

    def __init__(self):
        self.of, self.words = {}, OUTSIDE | PARTS
        for crate, used in crates().items():
            folder = TOP / "crates" / crate
            own = self.of[crate] = set()
            for part, suffix in (("src", "*.rt"), ("specs", "*.antt"), ("proofs", "*.antt")):
                for path in folder.joinpath(part).rglob(suffix):
                    own.update(declared_in(path))
                    if part == "src":
                        self.words.update(word for text in re.findall(r'"((?:[^"\\]|\\.)*)"', read(path)) for word in re.findall(r"[\w-]+", text))
                        self.words.update(re.findall(r"\w+", " ".join(re.findall(r"^use .*?;", read(path), re.M | re.S))))
            self.words.update(own, used, [crate], (path.stem for path in folder.joinpath("must-fail").glob("*.edit")))
        for part in ("tools", "tests", "examples", "share"):
            for path in (TOP / part).rglob("*"):
                if path.is_file():
                    self.words.add(path.stem)
                    if path.suffix not in (".svg", ".pyc"):
                        self.words.update(re.findall(r"[\w-]+", read(path)))


def is_path(word):
    """Whether a word names a file or a folder of the repository."""
    return "/" in word and (word.split("/")[0] in PARTS or word.split("/")[0] in crates())


def path_of(word):
    return TOP / "crates" / word if word.split("/")[0] in crates() else TOP / word


def faults_of(span, names):
    """What a span of code names that isn't there."""
    word = span.split()[0]
    if is_path(word) and not any(each in word for each in "<$="):
        found = list(TOP.glob(str(path_of(word.rstrip(":,")).relative_to(TOP)).rstrip("/")))
        if not found:
            yield f"there is no file {word}"
    for crate, rest in re.findall(r"\b(rp_[a-z0-9_]+)((?:(?:::|\.)[\w{}, -]+)*)", span):
        if crate not in names.of:
            yield f"there is no crate {crate}"
            continue
        parts = re.findall(r"[\w-]+", rest)
        if parts[:1] in (["specs"], ["proofs"]) and len(parts) > 1:
            at = TOP / "crates" / crate / parts[0]
            while len(parts) > 2 and (at / parts[1]).is_dir():
                at, parts = at / parts[1], [parts[0], *parts[2:]]
            if not (at / f"{parts[1]}.antt").exists() and not (at / parts[1]).is_dir():
                yield f"{crate} has no module {rest}"
        for part in parts[1 if parts[:1] in (["specs"], ["proofs"]) else 0:]:
            if part not in names.of[crate]:
                yield f"{crate} has no {part}"
    if re.fullmatch(r"[A-Za-z][\w-]*", span) and span not in names.words:
        yield f"there is nothing of the name {span}"


def named():
    names = Names()
    for path in MARKDOWN:
        text = re.sub(r"^```.*?^```$", "", read(path), flags=re.M | re.S)
        for target in re.findall(r"\]\(([^)#\s]+)(?:#[^)]*)?\)", text):
            if ":" not in target and not (path.parent / target).exists():
                wrong(f"{path.relative_to(TOP)}: there is no file {target}")
        for anchor in re.findall(r"\]\(#([^)\s]+)\)", text):
            if anchor not in {re.sub(r"[^\w -]", "", head.lower()).replace(" ", "-") for head in re.findall(r"^#+ (.*)$", text, re.M)}:
                wrong(f"{path.relative_to(TOP)}: there is no section {anchor}")
        for span in re.findall(r"`([^`\n]+)`", text):
            for fault in faults_of(span, names):
                wrong(f"{path.relative_to(TOP)}: {span}: {fault}")
        plain = re.sub(r"`[^`\n]*`", "", text)
        for crate in re.findall(r"(?<![\w/])rp_[a-z0-9_]+", plain):
            if crate not in names.of:
                wrong(f"{path.relative_to(TOP)}: there is no crate {crate}")
        for word in re.findall(r"(?<![\w./(-])(?:[\w.-]+/)+[\w-][\w.-]*[\w-]", plain):
            if is_path(word) and not path_of(word).exists():
                wrong(f"{path.relative_to(TOP)}: there is no file {word}")
    for path in MANUALS:
        for target in re.findall(r"^\.Pa (\S+)", read(path), re.M):
            if target.split("/")[0] in PARTS and not (TOP / target).exists():
                wrong(f"{path.relative_to(TOP)}: there is no file {target}")


# All else.

def clauses():
    """PROVED.md names each clause of the top call."""
    text = read(TOP / "crates" / "rp_cli" / "src" / "commands.rt")
    head = text[text.index("pub fn run<"):]
    for name in re.findall(r"^    ensures (\w+) ", head[:head.index("\n{\n")], re.M):
        if f"`{name}`" not in read(TOP / "docs" / "PROVED.md"):
            wrong(f"PROVED.md names no clause {name}")


def version():
    """CHANGELOG.md has the version that the program prints."""
    number = asked(REPART, "--version").out.split()[-1]
    if not re.search(rf"^## {re.escape(number)}$", read(TOP / "CHANGELOG.md"), re.M):
        wrong(f"CHANGELOG.md has no heading {number}")


def lengths():
    for path, most in WORDS.items():
        count = len(read(TOP / path).split())
        if count > most:
            wrong(f"{path} has {count} words, more than {most}")
    wide = [line for line in read(TOP / "docs" / "PROVED.md").splitlines() if len(line) > 100]
    if wide:
        wrong(f"PROVED.md has lines of more than 100 columns: {wide[0]}")


def manuals():
    """Manuals parse, and name the program at their foot and no other system."""
    for page in MANUALS:
        if has("mandoc", f"{page.name} parses"):
            expect(f"{page.name} parses", asked("mandoc", "-T", "lint", "-W", "warning", page)[:2], (0, ""))
            expect(f"the foot of {page.name}", asked("mandoc", page).out.split()[-1], "repart")
        if shutil.which("man"):
            printed = asked("man", "--warnings", "-l", page)
            expect(f"{page.name} parses by man", (printed.status, printed.err), (0, ""))
            expect(f"the foot of {page.name} by man", printed.out.split()[-1], "repart")
            if "BSD" in printed.out:
                wrong(f"{page.name} names another system")


def floors():
    """ARCHITECTURE.md has the floors of crates.txt."""
    expect("tools/floors --check", asked(sys.executable, TOP / "tools" / "floors", "--check"), (0, "", ""))


commands()
options()
named()
clauses()
version()
lengths()
manuals()
floors()
end()
