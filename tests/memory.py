#!/usr/bin/env python3
"""`apply` that is refused any allocation ends as with all memory, or with status 10, nothing printed and each byte as it was.

A small library of the test's own, built by cc(1) and loaded before the C library, counts the allocations of a run and refuses the one
of a given number, or that and all behind it. The cases are those of lib/cases.py, with --all each of them.

Needs: cc
"""
import os
import pathlib
import subprocess
import tempfile

from lib.cases import CASES, prepare
from lib.program import ALL, REPART, SEED, asked, end, need, skip, wrong

FEW = ["blank", "pair", "reset"]
LIBRARY = r"""
#define _GNU_SOURCE
#include <dlfcn.h>
#include <errno.h>
#include <fcntl.h>
#include <stdlib.h>
#include <unistd.h>

extern void *__libc_malloc(size_t), *__libc_calloc(size_t, size_t), *__libc_realloc(void *, size_t), *__libc_memalign(size_t, size_t);

static unsigned long made, from, until;

/* The program's own allocations begin once the loader has run this. */
__attribute__((constructor)) static void begin(void) {
    const char *first = getenv("REFUSE_FROM"), *last = getenv("REFUSE_UNTIL");
    from = first ? strtoul(first, 0, 10) : 0;
    until = last ? strtoul(last, 0, 10) : 0;
    made = 0;
}

/* How many there were, for whoever asks. */
__attribute__((destructor)) static void end(void) {
    const char *to = getenv("REFUSE_COUNT");
    char text[24];
    int at = sizeof text, file = to ? open(to, O_WRONLY | O_CREAT | O_TRUNC, 0600) : -1;
    if (file < 0) return;
    do text[--at] = '0' + made % 10; while (made /= 10);
    if (write(file, text + at, sizeof text - at) < 0) abort();
}

static int refused(void) {
    made++;
    if (made < from || made > until) return 0;
    errno = ENOMEM;
    return 1;
}

void *malloc(size_t size) { return refused() ? 0 : __libc_malloc(size); }
void *calloc(size_t many, size_t size) { return refused() ? 0 : __libc_calloc(many, size); }
void *realloc(void *old, size_t size) { return refused() ? 0 : __libc_realloc(old, size); }
void *memalign(size_t align, size_t size) { return refused() ? 0 : __libc_memalign(align, size); }
void *aligned_alloc(size_t align, size_t size) { return refused() ? 0 : __libc_memalign(align, size); }
int posix_memalign(void **to, size_t align, size_t size) {
    void *made = refused() ? 0 : __libc_memalign(align, size);
    if (!made) return ENOMEM;
    *to = made;
    return 0;
}
"""


def run(words, folder, before, library, first=0, last=0):
    """The status, the text and the bytes left by a run that is refused these allocations, and how many it asked for."""
    (folder / "image").write_bytes(before)
    count = folder / "count"
    if count.exists():
        count.unlink()
    limits = {"LD_PRELOAD": str(library), "REFUSE_FROM": str(first), "REFUSE_UNTIL": str(last), "REFUSE_COUNT": str(count)}
    answer = subprocess.run([REPART, "apply", "--definitions=repart.d", SEED, *words, "image"], cwd=folder,
                            stdout=subprocess.PIPE, stderr=subprocess.DEVNULL, env={**os.environ, **limits})
    made = int(count.read_text()) if count.exists() else None
    return (answer.returncode, answer.stdout, (folder / "image").read_bytes()), made


def tried(case, folder, library):
    """Runs a case with each allocation refused."""
    before = prepare(case, folder)
    words = ["--empty=allow", *case.words]
    ample, count = run(words, folder, before, library)
    if count is None:
        skip("the library that counts allocations can't be loaded before the program's")
    if ample[0] != 0:
        return wrong(f"{case.name}: status {ample[0]} with all memory")
    if count == 0:
        return wrong(f"{case.name}: no allocation was counted")
    wanting = runs = 0
    for first in range(1, count + 1):
        for last in (first, 1 << 62):
            answer, _ = run(words, folder, before, library, first, last)
            runs += 1
            wanting += answer[0] == 10
            if answer not in (ample, (10, b"", before)):
                changed = "the image is changed" if answer[2] != before else "the image is as it was"
                more = " and all behind it" if last > first else ""
                wrong(f"{case.name}: allocation {first}{more} refused: status {answer[0]}, {changed}, printed {answer[1]!r}")
    print(f"{case.name}: {count} allocations, {runs} runs, {wanting} with status 10", flush=True)


need("cc")
with tempfile.TemporaryDirectory() as name:
    top = pathlib.Path(name)
    library = top / "refuse.so"
    (top / "refuse.c").write_text(LIBRARY)
    if asked("cc", "-shared", "-fPIC", "-O1", "-o", library, top / "refuse.c").status:
        skip("cc builds no shared library here (Debian package libc6-dev)")
    for case in CASES:
        if ALL or case.name in FEW:
            (top / case.name).mkdir()
            tried(case, top / case.name, library)
end()
