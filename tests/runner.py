#!/usr/bin/env python3
"""The runner tells what passed, failed and was skipped, and README.md has a line for each test."""
import os
import pathlib
import shutil
import sys
import tempfile

from lib.program import TOP, asked, end, expect, wrong

TESTS = {
    "good.py": '"""What is good passes."""\nprint("without x (Debian package y): z")\n',
    "bad.sh": "#!/bin/sh\n# What is bad fails.\n# It says more.\necho why\nexit 3\n",
    "lacking.py": '"""What lacks something is skipped.\n\nNeeds: a thing\nof two lines\n"""\nimport sys\nprint("no thing")\nsys.exit(77)\n',
    "long.sh": '#!/bin/sh\n# What takes long is run with --all alone.\n#\n# Needs: --all, since it takes long\n[ -n "$ALL" ]\n',
    "killed.sh": "#!/bin/sh\n# What is killed fails.\nkill -9 $$\n",
}


def ran(folder, *words):
    """The status of a runner of its own folder, its lines in order of their words, and its last line."""
    environment = {**os.environ, "REPART": "/bin/true", "TMPDIR": str(folder)}
    environment.pop("ALL", None)
    answer = asked(sys.executable, folder / "tests" / "run", *words, env=environment)
    lines = [line for line in answer.out.splitlines() if not line.startswith("what failed is kept in ")]
    return answer.status, sorted(" ".join(word for word in line.split() if not word[0].isdigit() and word != "s,") for line in lines[:-1]), lines[-1:]


def statuses(folder):
    bad = ["failed bad status", "why"]
    expect("all", ran(folder), (1, sorted([
        *bad, "failed killed status -9", "passed good s", "without x (Debian package y): z", "skipped lacking: no thing",
        "skipped long: it runs with --all alone (--all, since it takes long)"]), ["1 passed, 2 failed, 2 skipped"]))
    expect("one that is good", ran(folder, "good"), (0, ["passed good s", "without x (Debian package y): z"], ["1 passed, 0 failed, 0 skipped"]))
    expect("one that is bad", ran(folder, "bad"), (1, sorted(bad), ["0 passed, 1 failed, 0 skipped"]))
    expect("one that is good and one that is bad", ran(folder, "good", "bad")[::2], (1, ["1 passed, 1 failed, 0 skipped"]))
    expect("nothing but one that is skipped", ran(folder, "lacking"), (1, ["skipped lacking: no thing"], ["0 passed, 0 failed, 1 skipped"]))
    expect("with --all", ran(folder, "--all", "long"), (0, ["passed long s"], ["1 passed, 0 failed, 0 skipped"]))
    expect("a name that isn't there", ran(folder, "good", "none"), (2, [], []))
    expect("no program", asked(sys.executable, folder / "tests" / "run", "good", env={**os.environ, "REPART": "/none"})[:2], (1, ""))
    for name in TESTS:
        (folder / "tests" / name).unlink()
    expect("no tests", ran(folder), (1, [], ["0 passed, 0 failed, 0 skipped"]))


def listed():
    """README.md has the table of the runner, and each test says what it shows."""
    table = asked(sys.executable, TOP / "tests" / "run", "--list").out
    rows = table.splitlines()[2:]
    for row in rows:
        if not row.split(" | ")[1].endswith("."):
            wrong(f"no sentence: {row}")
    if table not in (TOP / "tests" / "README.md").read_text(encoding="utf-8"):
        wrong("tests/README.md hasn't the table that `tests/run --list` prints")


with tempfile.TemporaryDirectory() as name:
    top = pathlib.Path(name)
    shutil.copytree(TOP / "tests" / "lib", top / "tests" / "lib", ignore=shutil.ignore_patterns("__pycache__"))
    shutil.copy(TOP / "tests" / "run", top / "tests" / "run")
    for file, text in TESTS.items():
        (top / "tests" / file).write_text(text)
    statuses(top)
listed()
end()
