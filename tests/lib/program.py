"""The program, the tools beside it, and how a test ends."""
import collections
import os
import pathlib
import shutil
import subprocess
import sys

TOP = pathlib.Path(__file__).resolve().parent.parent.parent
SEED = "--seed=00000000-0000-0000-0000-000000000001"
# Tools that tests ask, and the Debian packages that have them.
PACKAGES = {
    "bash": "bash", "cc": "gcc", "dpkg-deb": "dpkg", "fdisk": "fdisk", "hyperfine": "hyperfine", "man": "man-db", "mandoc": "mandoc", "parted": "parted", "partx": "util-linux", "sfdisk": "fdisk",
    "sgdisk": "gdisk", "shellcheck": "shellcheck", "strace": "strace", "systemd-analyze": "systemd", "systemd-repart": "systemd-repart or systemd",
    "time": "time", "veritysetup": "cryptsetup-bin",
}
Answer = collections.namedtuple("Answer", "status out err")
faults = []


def chosen():
    """The program that is tested: $REPART, or the one that tools/program names."""
    if os.environ.get("REPART"):
        return os.path.abspath(os.environ["REPART"])
    return subprocess.run([TOP / "tools" / "program"], stdout=subprocess.PIPE).stdout.decode().strip()


def prepare():
    """Sets what tests find in their environment; ends where there is no program."""
    os.environ["REPART"] = chosen()
    os.environ["PYTHONDONTWRITEBYTECODE"] = "1"
    if not os.access(os.environ["REPART"], os.X_OK):
        sys.exit(f"tests: there is no program {os.environ['REPART']}")


REPART = chosen()
# Big counts are for --all.
ALL = bool(os.environ.get("ALL"))
os.environ["LC_ALL"] = "C.UTF-8"
os.environ["PATH"] = os.environ.get("PATH", "") + ":/usr/sbin:/sbin"


def run(*words, **more):
    """The status of `repart` with these words, and what it prints, as texts."""
    return asked(REPART, *words, **more)


def asked(*words, **more):
    """The status of another program, and what it prints, as texts."""
    answer = subprocess.run([os.fspath(word) for word in words], stdout=subprocess.PIPE, stderr=subprocess.PIPE, **more)
    return Answer(answer.returncode, answer.stdout.decode(errors="replace"), answer.stderr.decode(errors="replace"))


def skip(why):
    """Ends a test that can't run here."""
    print(why)
    sys.exit(77)


def package(tool):
    return f"no {tool} (Debian package {PACKAGES[tool]})"


def need(*tools):
    """Skips the test where a tool isn't there."""
    for tool in tools:
        if not shutil.which(tool):
            skip(package(tool))


def has(tool, part):
    """Whether a tool is there; else it is said which part of the test is left out."""
    if shutil.which(tool):
        return True
    print(f"without {tool} (Debian package {PACKAGES[tool]}): {part}", flush=True)
    return False


def wrong(what):
    """Notes a fault: the test fails at its end."""
    faults.append(what)
    print(what, flush=True)


def expect(what, found, wanted):
    if found != wanted:
        wrong(f"{what}: {found!r} in place of {wanted!r}")


def end():
    """Ends a test."""
    if faults:
        print(f"{len(faults)} faults")
    sys.exit(1 if faults else 0)
