"""What tools/install puts in place runs, and `--remove` takes away each file and folder that it made, and nothing else."""
import os
import pathlib
import tempfile

from lib.program import REPART, TOP, asked, end, expect, wrong

INSTALLED = ["bin/repart", "bin/repart-layout", "share/man/man5/repart.d.5", "share/man/man7/image-policy.7", "share/man/man8/repart.8",
             "share/bash-completion/completions/repart", "share/zsh/site-functions/_repart",
             "share/doc/repart/examples/first-boot/run", "share/doc/repart/examples/first-boot/repart.d/20-root.conf"]
OTHERS_PAGE = "share/man/man5/repart.d.5.gz"


def install(to, *words, **more):
    """How tools/install ends with a folder for DESTDIR."""
    return asked(TOP / "tools" / "install", *words, env={**os.environ, "DESTDIR": str(to), "PREFIX": "/usr", "REPART": REPART, **more})


def below(folder):
    return sorted(str(path.relative_to(folder)) for path in folder.rglob("*"))


def everything(to):
    """Into an empty folder, and out of it again; also twice, and where it lies in folders of others."""
    for _ in range(2):
        answer = install(to)
        expect("install", (answer.status, answer.err), (0, ""))
    for name in INSTALLED:
        if not (to / "usr" / name).is_file():
            wrong(f"{name} isn't installed")
    image = TOP / "crates" / "repart" / "data" / "small.img"
    expect("what is installed shows an image", asked(to / "usr/bin/repart", "show", image).out, (TOP / "crates/repart/stdout").read_text())
    shown = asked(to / "usr/bin/repart", "show", "--json=short", image).out
    drawn = asked(to / "usr/bin/repart-layout", "--width=72", input=shown.encode())
    expect("what is installed draws it", (drawn.status, drawn.out.startswith("64 KiB, disk ")), (0, True))
    (to / "usr/share/man/man8/other.8").write_text("")
    expect("remove", install(to, "--remove").status, 0)
    expect("what is left", below(to), ["usr", "usr/share", "usr/share/man", "usr/share/man/man8", "usr/share/man/man8/other.8"])
    expect("remove once more", install(to, "--remove").status, 1)


def folders_of_others(to):
    """Empty folders that were there stay."""
    kept = ["usr", "usr/bin", "usr/share", "usr/share/doc", "usr/share/man", "usr/share/man/man5"]
    for name in kept:
        (to / name).mkdir()
    expect("install", install(to).status, 0)
    expect("remove", install(to, "--remove").status, 0)
    expect("what is left", below(to), kept)


def stopped(to):
    """What was made until it was stopped is removed as well."""
    words = f"'{TOP}/tools/install' | head -n 3"
    asked("sh", "-c", words, env={**os.environ, "DESTDIR": str(to), "PREFIX": "/usr", "REPART": REPART})
    expect("remove", install(to, "--remove").status, 0)
    expect("what is left", below(to), [])


def page_of_others(to):
    """Another's page repart.d(5) stays the one of that name, and the manuals name ours."""
    other = to / "usr" / OTHERS_PAGE
    other.parent.mkdir(parents=True)
    other.write_text("")
    expect("install beside another's page", install(to).status, 0)
    expect("pages", below(other.parent), ["repart-definitions.5", "repart.d.5.gz"])
    page = (other.parent / "repart-definitions.5").read_text()
    expect("its title", ("\n.Dt REPART-DEFINITIONS 5\n" in page, "\n.Nm repart-definitions\n" in page), (True, True))
    for name in ("man7/image-policy.7", "man8/repart.8"):
        manual = (to / "usr/share/man" / name).read_text()
        expect(f"{name} names it", (".Xr repart-definitions 5" in manual, ".Xr repart.d 5" in manual), (True, False))
    expect("remove", install(to, "--remove").status, 0)
    expect("another's page is left", below(other.parent), ["repart.d.5.gz"])


def main():
    for case in (everything, folders_of_others, stopped, page_of_others):
        with tempfile.TemporaryDirectory() as room:
            case(pathlib.Path(room))
    end()


if __name__ == "__main__":
    main()
