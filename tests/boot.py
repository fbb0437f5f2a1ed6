#!/usr/bin/env python3
"""In virtual machines the example of a first boot grows a disk before its root is mounted, and no lost power leaves a bad state.

Needs: --all, and the Debian packages qemu-system-x86, linux-image-cloud-amd64, initramfs-tools, busybox-static, nbdkit,
nbdkit-plugin-python, e2fsprogs; dracut-core for one part

An initrd of initramfs-tools is made with the example's own scripts, and qemu boots the small image of the example on a larger disk, by
software emulation. The second boot writes nothing. Then the power is cut at 20 moments, each chosen by the number of a write or a
flush, over a disk that loses what wasn't flushed (lib/losing_disk.py): each time `show` tells the old table or the goal, old
partitions hold their bytes, and the next boot leaves the bytes of the boot that wasn't cut. These next boots find the root by each form
of root=, on a virtio disk and on NVMe. A flush fails; sectors have 4,096 bytes; a source is copied in the initrd, and a factory reset
copies it anew; a loop device and a mapping are found; and a dracut initrd does the same.
"""
import hashlib
import hmac
import os
import pathlib
import re
import shutil
import subprocess
import sys
import tempfile
import time
import uuid

from lib.program import REPART, TOP, asked, end, expect, run, skip, wrong

EXAMPLE = TOP / "examples" / "first-boot"
MIB = 1 << 20
SMALL, LARGE = 64 * MIB, 256 * MIB
SEED = "0123456789abcdef0123456789abcdef"
LABEL, FILE_SYSTEM = "first-boot", "11111111-2222-4333-8444-555555555555"
CUTS, LIMIT = 20, 900
VAR = "4d21b016-b534-45c2-a9fb-5c16e091fd2d"
# What tries a loop device with partitions, and a mapping onto a partition, once the root is mounted.
DEVICES = {"hooks/tools": """#!/bin/sh
[ "$1" != prereqs ] || exit 0
. /usr/share/initramfs-tools/hook-functions
copy_exec "$(command -v losetup || echo /sbin/losetup)" /usr/bin/losetup
copy_exec "$(command -v dmsetup || echo /sbin/dmsetup)" /usr/bin/dmsetup
""", "scripts/local-bottom/devices": """#!/bin/sh
[ "$1" != prereqs ] || exit 0
read -r line </proc/cmdline
for word in $line; do case $word in repart.seed=*) seed=${word#*=} ;; esac; done
modprobe loop
modprobe dm_mod
losetup -P /dev/loop0 /dev/vdb
/usr/lib/repart/grow-disk /dev/loop0p2 /usr/lib/repart/repart.d "$seed"
echo "DEVICE loop0p2 $?"
dmsetup create root --table "0 8192 linear /dev/vdc2 0"
/usr/lib/repart/grow-disk /dev/mapper/root /usr/lib/repart/repart.d "$seed"
echo "DEVICE mapping $?"
"""}
NEEDED = {"qemu-system-x86_64": "qemu-system-x86", "mkinitramfs": "initramfs-tools", "nbdkit": "nbdkit", "mke2fs": "e2fsprogs"}
ROW = re.compile(r'^(\d+) (?:new |same |changed )?(?:\S+\.conf )?(\S+) start (\d+) size (\d+) id (\S+) attrs (\S+) name "(.*)"$', re.M)
# What the root file system's own init tells of the boot, before it switches the machine off.
INIT = """#!/bin/sh
b=/bin/busybox
echo "ROOT MOUNTED"
$b grep ' / ' /proc/mounts
$b cat /proc/partitions
for file in /run/repart-grow.status /run/repart-grow.log; do [ ! -e $file ] || $b sed "s,^,$file: ," $file; done
echo "BOOT ENDS"
$b poweroff -f
"""


def kernel():
    """The kernel to boot: the smallest whose modules are here."""
    found = [path for path in pathlib.Path("/boot").glob("vmlinuz-*")
             if os.access(path, os.R_OK) and os.path.isdir("/lib/modules/" + version(path))]
    return min(found, key=lambda path: path.stat().st_size, default=None)


def version(path):
    return path.name[len("vmlinuz-"):]


def need_all():
    """Skips the test where something isn't there; the last line names the packages."""
    lacking = [package for tool, package in NEEDED.items() if not shutil.which(tool)]
    if not kernel():
        lacking.append("linux-image-cloud-amd64")
    if not os.path.exists("/bin/busybox") or asked("ldd", "/bin/busybox").status == 0:
        lacking.append("busybox-static")
    if not shutil.which("nbdkit") or asked("nbdkit", "python", "--dump-plugin").status:
        lacking.append("nbdkit-plugin-python")
    if lacking:
        skip("Debian packages are missing: " + " ".join(lacking))


def rows(text):
    """The rows of a table or a plan: by slot its type, start, size, identifier, attributes and name."""
    return {int(found[0]): found[1:] for found in ROW.findall(text)}


def shown(disk, *words):
    answer = run("show", *words, disk)
    if answer.status:
        wrong(f"show {disk}: status {answer.status}: {answer.out}")
    return rows(answer.out)


def bytes_of(disk, row):
    with open(disk, "rb") as file:
        file.seek(512 * int(row[1]))
        return file.read(512 * int(row[2]))


def digest(path):
    return hashlib.sha256(path.read_bytes()).hexdigest()


def larger(small, disk, size=LARGE):
    """A disk of so many bytes that begins with the small image."""
    subprocess.run(["cp", "--sparse=always", small, disk], check=True)
    os.truncate(disk, size)
    return disk


def root_file_system(folder):
    """A file with a root file system, whose init tells what it finds."""
    tree = folder / "root"
    for name in ("bin", "sbin", "dev", "proc", "sys", "run", "tmp", "etc"):
        (tree / name).mkdir(parents=True)
    shutil.copy("/bin/busybox", tree / "bin" / "busybox")
    (tree / "bin" / "sh").symlink_to("busybox")
    (tree / "sbin" / "init").write_text(INIT, encoding="ascii")
    (tree / "sbin" / "init").chmod(0o755)
    (tree / "etc" / "os-release").touch()
    made = folder / "root.raw"
    subprocess.run(["mke2fs", "-q", "-t", "ext4", "-b", "4096", "-O", "^has_journal", "-L", LABEL, "-U", FILE_SYSTEM, "-d", tree,
                    made, "4M"], check=True, stdout=subprocess.DEVNULL)
    return made


def small_image(folder, name, *words):
    """The small image of the example's definitions."""
    image = folder / name
    image.touch()
    os.truncate(image, SMALL)
    answer = run("apply", "--definitions=" + str(EXAMPLE / "repart.d"), "--seed=a1b2c3d4-e5f6-4711-8899-aabbccddeeff", "--empty=require",
                 *words, image, cwd=folder)
    if answer.status:
        wrong(f"the small image: status {answer.status}: {answer.out}")
    return image


class System:
    """A folder in which the example is installed by its own script, for one maker of initrds."""

    def __init__(self, folder, maker):
        self.folder, self.maker, self.lib = folder, maker, folder / "usr/lib/repart"
        subprocess.run([EXAMPLE / "install", maker, folder], check=True, stdout=subprocess.DEVNULL)

    def initrd(self, name, scripts=()):
        """The path of an initrd that is made of what is installed now, with scripts of the test's own by their places."""
        made, base = self.folder / name, self.folder / "etc/initramfs-tools"
        environment = {**os.environ, "REPART": REPART, "REPART_LIB": str(self.lib)}
        if self.maker == "initramfs-tools":
            files = {"initramfs.conf": "MODULES=list\nBUSYBOX=auto\nKEYMAP=n\nCOMPRESS=zstd\nCOMPRESSLEVEL=1\nRUNSIZE=10%\nFSTYPE=auto\n",
                     "modules": "virtio_pci\nvirtio_blk\nnvme\next4\nloop\ndm_mod\n", "conf.d/none": "", **dict(scripts)}
            for place, text in files.items():
                (base / place).parent.mkdir(parents=True, exist_ok=True)
                (base / place).write_text(text, encoding="ascii")
                (base / place).chmod(0o755)
            words = ["mkinitramfs", "-d", base, "-o", made, version(kernel())]
        else:
            # dracut as it is installed, with a module more
            base = self.folder / "dracut"
            shutil.copytree("/usr/lib/dracut", base, symlinks=True)
            shutil.copytree(self.folder / "usr/lib/dracut/modules.d", base / "modules.d", dirs_exist_ok=True)
            environment["dracutbasedir"] = str(base)
            words = ["dracut", "--force", "--quiet", "--no-hostonly", "--no-early-microcode", "--zstd", "--tmpdir", self.folder,
                     "--modules", "base systemd systemd-initrd dracut-systemd kernel-modules rootfs-block udev-rules fs-lib repart-grow",
                     "--drivers", "virtio_pci virtio_blk", "--kver", version(kernel()), made]
        answer = asked(*words, env=environment)
        if answer.status or not made.exists():
            wrong(f"{words[0]}: status {answer.status}: {answer.out}{answer.err}")
            end()
        return made


def without_program(system):
    """An initrd of initramfs-tools that has no program ends with a sentence."""
    if not shutil.which("repart"):
        answer = asked("mkinitramfs", "-d", system.folder / "etc/initramfs-tools", "-o", system.folder / "none", version(kernel()),
                       env={**os.environ, "REPART": "/nowhere/repart", "REPART_LIB": str(system.lib)})
        if answer.status == 0 or "repart-grow: no program repart in " not in answer.err:
            wrong(f"mkinitramfs without a program: status {answer.status}: {answer.err}")


class Machine:
    """A virtual machine that boots a disk with an initrd and the words of a kernel's command line."""

    def __init__(self, initrd):
        self.initrd, self.seconds = initrd, 0

    def boot(self, disk, *words, device="virtio-blk-pci", losing=None, qemu=(), quiet=True):
        """The console of a boot, and the writes and flushes that reached a losing disk: their lines."""
        folder = pathlib.Path(tempfile.mkdtemp())
        console, log, socket = folder / "console", folder / "log", folder / "socket"
        server, drive = None, str(disk)
        if losing is not None:
            log.touch()
            server = subprocess.Popen(["nbdkit", "--foreground", "--unix", socket, "python", TOP / "tests/lib/losing_disk.py",
                                       f"file={disk}", f"log={log}", *(f"{name}={value}" for name, value in losing.items())],
                                      stderr=subprocess.DEVNULL)
            drive = f"nbd:unix:{socket}"
            while not socket.exists() and server.poll() is None:
                time.sleep(0.02)
        begun = time.monotonic()
        with open(console, "wb") as out:
            machine = subprocess.Popen(
                ["qemu-system-x86_64", "-accel", "tcg", "-cpu", "max", "-m", "512", "-nodefaults", "-nic", "none", "-display", "none",
                 "-serial", "stdio", "-no-reboot", "-kernel", kernel(), "-initrd", self.initrd,
                 "-append", " ".join(["console=ttyS0", "panic=-1", *["quiet"] * quiet, *words]),
                 "-drive", f"file={drive},format=raw,if=none,id=disk,cache=writeback", "-device", f"{device},drive=disk", *qemu],
                stdin=subprocess.DEVNULL, stdout=out, stderr=out)
            try:
                while machine.poll() is None and time.monotonic() - begun < LIMIT and not (server and server.poll() is not None):
                    time.sleep(0.05)
            finally:
                # without its disk the machine has no power
                for process in [machine] + [server] * bool(server):
                    process.kill()
                    process.wait()
        self.seconds = time.monotonic() - begun
        text = console.read_text(encoding="utf-8", errors="replace").replace("\r", "")
        return text, log.read_text(encoding="ascii").splitlines() if server else []


def booted(what, text, status="0"):
    """Whether the root was mounted behind a growth of this status."""
    found = re.search(r"^/run/repart-grow.status: (\d+)$", text, re.M)
    if "BOOT ENDS" not in text or not found or found[1] != status:
        wrong(f"{what}: the boot doesn't end with status {status}:\n{text[-3000:]}")
        return False
    return True


def knows(text, disk, name="vda", *words):
    """Whether the kernel of a boot knows the partitions that a disk shows."""
    known = {int(part): int(blocks) for blocks, part in re.findall(rf"^ *\d+ +\d+ +(\d+) {name}(\d+)$", text, re.M)}
    expect("what the kernel knows", known, {slot + 1: int(row[2]) // 2 for slot, row in shown(disk, *words).items()})


def first_boots(machine, small, goal, folder):
    """The lines of the writes and flushes of a first boot, which leaves the goal; a second boot writes nothing."""
    before = shown(small)
    disk = larger(small, folder / "uncut.img")
    text, lines = machine.boot(disk, f"root=PARTUUID={before[1][3]}", f"repart.seed={SEED}", losing={}, quiet=False)
    told(f"first boot, {machine.seconds:.0f} s")
    if booted("first boot", text):
        growth, mount = text.find("\napplied"), re.search(r"EXT4-fs \(vda2\): mounted|ROOT MOUNTED", text)
        if not 0 <= growth < mount.start():
            wrong("the root was mounted before the growth")
        knows(text, disk)
    expect("the bytes behind the first boot", digest(disk), digest(goal))
    kept("first boot", small, disk)
    text, nothing = machine.boot(disk, f"root=PARTUUID={before[1][3]}", losing={})
    told(f"second boot, {machine.seconds:.0f} s")
    if booted("second boot", text) and "steps 0 writes 0" not in text:
        wrong("the second boot has something to write")
    expect("what the second boot writes", [line for line in nothing if "write" in line], [])
    expect("the bytes behind the second boot", digest(disk), digest(goal))
    return lines


def kept(what, small, disk, *words):
    """Whether each partition of the small image is at its place on a disk, with its bytes."""
    now = shown(disk, *words)
    for slot, row in shown(small, *words).items():
        if slot not in now or now[slot][:2] != row[:2] or now[slot][3:] != row[3:] or int(now[slot][2]) < int(row[2]):
            wrong(f"{what}: slot {slot} is another: {now.get(slot)}")
        elif bytes_of(small, row) != bytes_of(disk, row):
            wrong(f"{what}: slot {slot} lost its bytes")


def told(line):
    print(line, flush=True)


def moments(lines):
    """Numbers of writes and flushes at which to cut, from the first write to the last flush, with each flush among them; and the first
    and the last write."""
    kinds = {int(line.split()[0]): line.split()[1] for line in lines}
    writes = [number for number, kind in kinds.items() if kind == "write"]
    span = range(writes[0], max(kinds) + 1)
    first = [number for number in span if kinds[number] == "flush"]
    rest = [number for number in span if kinds[number] == "write"]
    chosen = sorted(first + rest[:: max(1, len(rest) // max(1, CUTS - len(first)))])[:CUTS]
    while len(chosen) < CUTS:
        chosen.append(span[len(chosen) * 7 % len(span)])
    return sorted(chosen), (writes[0], writes[-1])


def forms(small):
    """Each form of root=, and the device on which it is tried."""
    root = shown(small)[1]
    texts = [f"PARTUUID={root[3]}", f"PARTLABEL={root[5]}", f"UUID={FILE_SYSTEM}", f"LABEL={LABEL}", "/dev/vda2",
             f"/dev/disk/by-partuuid/{root[3]}"]
    return [(text, "virtio-blk-pci") for text in texts] + [(text, "nvme,serial=1") for text in ("/dev/nvme0n1p2", texts[1])]


def cuts(machine, small, goal, lines, folder):
    """Cuts the power, and lets the next boot finish."""
    chosen, (first, last) = moments(lines)
    between = sum(first < number <= last for number in chosen)
    told(f"{len(chosen)} cuts among {len(lines)} writes and flushes, {between} between the first write and the last")
    if between < 12:
        wrong(f"only {between} cuts lie between the first write and the last")
    old, new, final, results = shown(small), shown(goal), digest(goal), {"old": 0, "goal": 0}
    for place, number in enumerate(chosen):
        disk = larger(small, folder / "cut.img")
        losing = {"cut": number, **({"keep": place} if place % 4 in (1, 2) else {})}
        text, _ = machine.boot(disk, f"root={forms(small)[0][0]}", f"repart.seed={SEED}", losing=losing)
        cut = machine.seconds
        if "BOOT ENDS" in text:
            wrong(f"cut {number}: the boot ended before")
        table = shown(disk)
        result = "old" if table == old else "goal" if table == new else "neither"
        if result == "neither":
            wrong(f"cut {number}: show tells neither the old table nor the goal: {table}")
        else:
            results[result] += 1
        kept(f"cut {number}", small, disk)
        form, device = forms(small)[place % len(forms(small))]
        text, _ = machine.boot(disk, f"root={form}", f"repart.seed={SEED}", device=device)
        booted(f"the boot behind cut {number}, root={form}", text)
        expect(f"the bytes behind cut {number}", digest(disk), final)
        told(f"cut at {number}, {lines[number - 1].split(' ', 1)[1]}, {'some of the rest kept' if 'keep' in losing else 'the rest lost'}: "
             f"{result}; next boot by root={form}; {cut:.0f} s and {machine.seconds:.0f} s")
    if not results["old"] or not results["goal"]:
        wrong(f"only one result occurs: {results}")
    told(f"old table {results['old']} times, goal {results['goal']} times")


def failed_flushes(machine, small, goal, lines, folder):
    """A flush that fails: status 7, the boot goes on, and the next one repairs."""
    flushes = [int(line.split()[0]) for line in lines if line.split()[1] == "flush"]
    writes = [int(line.split()[0]) for line in lines if line.split()[1] == "write"]
    for number in (next(number for number in flushes if number > writes[0]), next(number for number in flushes if number > writes[-1])):
        disk = larger(small, folder / "failed.img")
        text, _ = machine.boot(disk, f"root={forms(small)[0][0]}", f"repart.seed={SEED}", losing={"fail": number})
        if booted(f"flush {number} fails", text, "7") and "error 7" not in text:
            wrong("no line says that the disk failed")
        table = shown(disk)
        if table not in (shown(small), shown(goal)):
            wrong(f"flush {number} fails: show tells {table}")
        kept(f"flush {number} fails", small, disk)
        text, _ = machine.boot(disk, f"root={forms(small)[0][0]}", f"repart.seed={SEED}")
        booted("the boot behind it", text)
        expect(f"the bytes behind the failed flush {number}", digest(disk), digest(goal))
        told(f"flush {number} fails: status 7, {'goal' if table == shown(goal) else 'old table'}, and the next boot leaves the goal")




def large_sectors(machine, folder):
    """A disk with sectors of 4,096 bytes."""
    words = ("--sector-size=4096",)
    small = small_image(folder, "small4k.img", *words)
    disk = larger(small, folder / "large4k.img")
    text, _ = machine.boot(disk, f"root=PARTUUID={shown(small, *words)[1][3]}", f"repart.seed={SEED}",
                           device="virtio-blk-pci,logical_block_size=4096,physical_block_size=4096")
    if booted("sectors of 4,096 bytes", text):
        knows(text, disk, "vda", *words)
        expect("the partitions of the disk with large sectors", len(shown(disk, *words)), 5)
    kept("sectors of 4,096 bytes", small, disk, *words)
    told(f"a disk with sectors of 4,096 bytes, {machine.seconds:.0f} s")


def var_of(machine_id):
    """The identifier of the /var of a machine (Discoverable Partitions Specification)."""
    made = bytearray(hmac.new(uuid.UUID(machine_id).bytes, uuid.UUID(VAR).bytes, "sha256").digest()[:16])
    made[6], made[8] = made[6] & 0x0F | 0x40, made[8] & 0x3F | 0x80
    return str(uuid.UUID(bytes=bytes(made)))


def source_and_reset(folder, small):
    """Definitions with a drop-in, a source that is copied in the initrd, a /var that is this machine's, and a factory reset."""
    system = System(folder / "with-source", "initramfs-tools")
    definitions, source = system.lib / "repart.d", os.urandom(3 * MIB)
    for name, lines in {"40-swap.conf.d/size.conf": "SizeMinBytes=32M\nSizeMaxBytes=32M\n",
                        "50-data.conf": "Type=linux-generic\nCopyBlocks=/usr/lib/repart/sources/data.raw\n"
                                        "SizeMaxBytes=3M\nFactoryReset=yes\n",
                        "60-var.conf": "Type=var\nSizeMinBytes=8M\nSizeMaxBytes=8M\n"}.items():
        (definitions / name).parent.mkdir(exist_ok=True)
        (definitions / name).write_text("[Partition]\n" + lines, encoding="ascii")
    (system.lib / "sources").mkdir()
    (system.lib / "sources/data.raw").write_bytes(source)
    machine = Machine(system.initrd("initrd"))
    disk = larger(small, folder / "source.img")
    words = (f"root={forms(small)[0][0]}", f"systemd.machine_id={SEED}")
    text, _ = machine.boot(disk, *words)
    if not booted("a source in the initrd", text):
        return
    kept("a source in the initrd", small, disk)
    found = {row[0]: row for row in shown(disk).values()}
    expect("the size that the drop-in says", int(found["swap"][2]) * 512, 32 * MIB)
    expect("the identifier of /var", found["var"][3], var_of(SEED))
    expect("the copy of the source", bytes_of(disk, found["linux-generic"]) == source, True)
    told(f"a drop-in, a source that is copied in the initrd, and the /var of the machine's identifier, {machine.seconds:.0f} s")
    with open(disk, "r+b") as file:
        file.seek(512 * int(found["linux-generic"][1]))
        file.write(b"what a user wrote" * 1000)
    before = larger(disk, folder / "before-reset.img")
    text, _ = machine.boot(disk, *words, "systemd.factory_reset=1")
    if booted("factory reset", text) and not re.search(r"^/run/repart-grow.log: reset \d+$", text, re.M):
        wrong("no row is reset")
    expect("the table behind a factory reset", sorted(shown(disk).values()), sorted(shown(before).values()))
    for slot, row in shown(disk).items():
        expect(f"the bytes of slot {slot} behind a factory reset", bytes_of(disk, row) == (source if row == found["linux-generic"] else
                                                                                           bytes_of(before, row)), True)
    told(f"a factory reset, {machine.seconds:.0f} s")


def other_devices(folder, small, goal):
    """A loop device with partitions, and a mapping onto a partition."""
    if not shutil.which("dmsetup"):
        told("without dmsetup (Debian package dmsetup): a loop device and a mapping")
        return
    system = System(folder / "devices", "initramfs-tools")
    machine = Machine(system.initrd("initrd", DEVICES.items()))
    disks = [larger(small, folder / f"device{number}.img") for number in range(3)]
    more = [word for number in (1, 2) for word in ("-drive", f"file={disks[number]},format=raw,if=none,id=more{number}",
                                                   "-device", f"virtio-blk-pci,drive=more{number}")]
    text, _ = machine.boot(disks[0], "root=/dev/vda2", f"repart.seed={SEED}", qemu=more)
    if booted("a loop device and a mapping", text):
        expect("the statuses", re.findall(r"^DEVICE (.*)$", text, re.M), ["loop0p2 0", "mapping 0"])
        for name, disk in (("loop0p", disks[1]), ("vdc", disks[2])):
            knows(text, disk, name)
            expect(f"the bytes behind {name}", digest(disk), digest(goal))
    told(f"a loop device and a mapping, {machine.seconds:.0f} s")


def dracut(folder, small, goal):
    """An initrd of dracut, which gets its seed by a credential, and finds a disk of which only the second copy of the table is valid."""
    if not shutil.which("dracut"):
        told("without dracut (Debian package dracut-core): its initrd")
        return
    system = System(folder / "dracut", "dracut")
    machine = Machine(system.initrd("initrd"))
    disk = larger(small, folder / "dracut.img")
    for what in ("first boot", "second boot", "boot behind a cut in the first copy"):
        if "cut" in what:
            with open(disk, "r+b") as file:
                file.seek(512)
                file.write(bytes(512))
        text, _ = machine.boot(disk, f"root={forms(small)[0][0]}", "systemd.journald.forward_to_console=1",
                               qemu=["-smbios", f"type=11,value=io.systemd.credential:repart.seed={SEED}"])
        growth, mount = re.search(r"grow-disk\[\d+\]: applied", text), text.find("ROOT MOUNTED")
        if not growth or not growth.start() < mount or "BOOT ENDS" not in text:
            wrong(f"dracut, {what}: the root isn't mounted behind a growth:\n{text[-4000:]}")
            return
        expect(f"the bytes behind dracut's {what}", digest(disk), digest(goal))
        told(f"dracut, {what}, {machine.seconds:.0f} s")


def main(parts):
    need_all()
    begun = time.monotonic()
    folder = pathlib.Path(tempfile.mkdtemp())
    tempfile.tempdir = str(folder)
    try:
        root_file_system(folder)
        small = small_image(folder, "small.img")
        goal = larger(small, folder / "goal.img")
        answer = run("apply", "--definitions=" + str(EXAMPLE / "repart.d"), "--seed=" + SEED, goal)
        expect("the status of the goal", answer.status, 0)
        system = System(folder / "system", "initramfs-tools")
        machine = Machine(system.initrd("initrd"))
        without_program(system)
        told(f"small image, its goal and an initrd, {time.monotonic() - begun:.0f} s")
        if "boots" in parts:
            lines = first_boots(machine, small, goal, folder)
            cuts(machine, small, goal, lines, folder)
            failed_flushes(machine, small, goal, lines, folder)
        if "sectors" in parts:
            large_sectors(machine, folder)
        if "source" in parts:
            source_and_reset(folder, small)
        if "devices" in parts:
            other_devices(folder, small, goal)
        if "dracut" in parts:
            dracut(folder, small, goal)
        told(f"{(time.monotonic() - begun) / 60:.0f} minutes")
    finally:
        shutil.rmtree(folder, ignore_errors=True)
    end()


if __name__ == "__main__":
    main(sys.argv[1:] or ["boots", "sectors", "source", "devices", "dracut"])
