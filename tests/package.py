"""The Debian package is the same bytes each time, installs by dpkg, runs, completes words, has its manuals, and leaves nothing behind.

Needs: dpkg-deb (Debian package dpkg); man (man-db) and bash for a part.
"""
import gzip
import os
import pathlib
import re
import subprocess
import sys
import tarfile
import tempfile

from lib.program import TOP, asked, end, expect, has, need, wrong

LIBC = "Package: libc6\nStatus: install ok installed\nVersion: {}\nArchitecture: amd64\nMaintainer: -\nDescription: -\n\n"
COMPLETE = """
. "$1"
COMP_WORDS=(repart sho) COMP_CWORD=1 COMP_LINE='repart sho' COMP_POINT=10
$(complete -p repart | sed 's/.*-F \\([^ ]*\\).*/\\1/') repart sho repart
printf '%s\\n' "${COMPREPLY[@]}"
"""


def make(folder, **more):
    """Both packages, made with these words of the environment; gives their paths."""
    answer = asked(TOP / "tools" / "package", folder, env={**os.environ, **more})
    expect("tools/package", (answer.status, answer.err), (0, ""))
    if answer.status:
        end()
    return [pathlib.Path(line) for line in answer.out.splitlines()]


def tree_of(folder):
    """What lies in a folder: each path with its mode, and its bytes or where it leads."""
    def one(path):
        mode = path.lstat().st_mode
        return mode, os.readlink(path) if path.is_symlink() else path.read_bytes() if path.is_file() else None
    return {str(path.relative_to(folder)): one(path) for path in sorted(folder.rglob("*"))}


def dpkg(root, *words):
    """dpkg on a folder that is a system of its own, with no rights needed."""
    forces = ["--force-script-chrootless", "--force-not-root", "--force-bad-path"]
    return asked("dpkg", f"--root={root}", "--log=/dev/null", *forces, *words)


def system(root, libc):
    """A folder with dpkg's lists and this version of the C library."""
    (root / "var/lib/dpkg/updates").mkdir(parents=True)
    (root / "var/lib/dpkg/info").mkdir()
    (root / "var/lib/dpkg/info/libc6.list").write_text("")
    (root / "var/lib/dpkg/status").write_text(LIBC.format(libc))
    (root / "var/lib/dpkg/available").write_text("")


def is_installed(root):
    """What is installed does what it has to."""
    image = TOP / "crates" / "repart" / "data" / "small.img"
    shown = asked(root / "usr/bin/repart", "show", image)
    expect("what is installed shows an image", (shown.status, shown.out), (0, (TOP / "crates/repart/stdout").read_text()))
    expect("the program in a system for other machines", os.readlink(root / "usr/bin/repart"), "../lib/repart/repart")
    for name in ("man7/image-policy.7", "man8/repart.8"):
        manual = gzip.decompress((root / "usr/share/man" / f"{name}.gz").read_bytes()).decode()
        expect(f"{name} names the page on definition files", (".Xr repart-definitions 5" in manual, ".Xr repart.d 5" in manual), (True, False))
    expect("copyright", len((root / "usr/share/doc/repart/copyright").read_text().splitlines()), 1)
    if has("man", "manuals aren't shown"):
        for section, name in (("8", "repart"), ("5", "repart-definitions"), ("7", "image-policy")):
            page = asked("man", "-M", root / "usr/share/man", section, name, env={**os.environ, "MANPAGER": "cat"})
            expect(f"man {section} {name}", (page.status, name.upper() in page.out.split("\n", 1)[0]), (0, True))
    if has("bash", "completions aren't tried"):
        words = asked("bash", "-c", COMPLETE, "-", root / "usr/share/bash-completion/completions/repart")
        expect("completion of sho", words.out.split(), ["show"])
    example = root / "usr/share/doc/repart/examples/first-boot/run"
    path = f"{root}/usr/bin:{os.environ['PATH']}"
    ran = asked(example, env={**{key: it for key, it in os.environ.items() if key != "REPART"}, "PATH": path})
    printed = re.sub(r"^\$ veritysetup .*\n", "", ran.out, flags=re.M)
    expect("the example of a first boot", (ran.status, printed), (0, (TOP / "examples/first-boot/printed").read_text()))


def chosen(root, unpacked, in_chroot):
    """What the package's script makes `repart` there, where this is a chroot or not."""
    script = (unpacked / "DEBIAN/postinst").read_text().replace("/usr/", f"{root}/usr/")
    tools = root / "tools"
    tools.mkdir(exist_ok=True)
    (tools / "ischroot").write_text(f"#!/bin/sh\nexit {0 if in_chroot else 1}\n")
    (tools / "ischroot").chmod(0o755)
    answer = asked("sh", "-c", script, "postinst", "configure", env={"PATH": f"{tools}:{os.environ['PATH']}"})
    expect("postinst", (answer.status, answer.out, answer.err), (0, "", ""))
    return os.readlink(root / "usr/bin/repart")


def main():
    need("dpkg-deb")
    with tempfile.TemporaryDirectory() as room:
        room = pathlib.Path(room)
        first = make(room / "first", TZ="UTC", LC_ALL="C")
        other = make(room / "other", TZ="Asia/Tokyo", LC_ALL="C.UTF-8", SOURCE_DATE_EPOCH=str(int(first_time(first[0]))))
        for one, two in zip(first, other):
            expect(f"{one.name} is the same bytes", one.read_bytes() == two.read_bytes(), True)
        version = asked(TOP / "release/repart", "--version").out.strip().replace(" ", "_")
        expect("names", [path.name for path in first], [f"{version}_amd64.tar.gz", f"{version}_amd64.deb"])

        unpacked = room / "unpacked"
        subprocess.run(["dpkg-deb", "--raw-extract", first[1], unpacked], check=True)
        with tarfile.open(first[0]) as packed:
            packed.extractall(room / "tree")
        expect("both have the same tree", tree_of(unpacked / "usr") == tree_of(room / "tree/usr"), True)

        old, root = room / "old", room / "root"
        system(old, "2.31-13")
        if dpkg(old, "-i", first[1]).status == 0:
            wrong("it is configured where the C library is too old")
        system(root, "2.34-0")
        answer = dpkg(root, "-i", first[1])
        expect("dpkg -i", (answer.status, answer.err), (0, ""))
        is_installed(root)
        expect("dpkg --verify", dpkg(root, "--verify", "repart").out, "")
        expect("in a chroot", chosen(root, unpacked, True), "../lib/repart/repart")
        runs = asked(root / "usr/lib/repart/repart-v3", "--version").status == 0
        expect("on the machine", chosen(root, unpacked, False), f"../lib/repart/{'repart-v3' if runs else 'repart'}")
        expect("dpkg --purge", dpkg(root, "--purge", "repart").status, 0)
        left = [path for path in tree_of(root) if not path.startswith(("var", "tools"))]
        expect("what is left", left, [])
    end()


def first_time(path):
    """The time that the files of a packed tree have."""
    with tarfile.open(path) as packed:
        return packed.next().mtime


if __name__ == "__main__":
    sys.exit(main())
