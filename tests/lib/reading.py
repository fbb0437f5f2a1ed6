"""A second reader of definition folders, written from docs/FORMATS.md alone."""
import collections
import re

from lib.gpt import GROW, NO_AUTO, READ_ONLY, TYPES

# limits and weight, in grains of 4,096 bytes
Item = collections.namedtuple("Item", "least most weight")
Definition = collections.namedtuple("Definition", "file guid type size padding attrs priority half partner match id source label")
ARCH = "x86-64"
HEX = "[0-9a-f]"
HYPHENATED = f"{HEX}{{8}}(?:-{HEX}{{4}}){{3}}-{HEX}{{12}}"
GUID = re.compile(rf"(?ai:{HEX}{{32}}|{HYPHENATED}|\{{{HYPHENATED}\}}|urn:uuid:{HYPHENATED})")
UNITS = {"": 1, "B": 1, "K": 1 << 10, "M": 1 << 20, "G": 1 << 30, "T": 1 << 40}
ON, OFF = ("1", "yes", "y", "true", "t", "on"), ("0", "no", "n", "false", "f", "off")
REFUSED = ["CopyFiles", "Encrypt", "Flags", "Format", "MakeDirectories", "Minimize", "MountPoint", "Subvolumes"]
KEYS = ["Type", "Label", "UUID", "Priority", "Weight", "PaddingWeight", "SizeMinBytes", "SizeMaxBytes", "PaddingMinBytes",
        "PaddingMaxBytes", "CopyBlocks", "Verity", "VerityMatchKey", "NoAuto", "ReadOnly", "GrowFileSystem",
        "FactoryReset"] + REFUSED + ["SplitName"]


class Fault(Exception):
    """The first fault of a definition: the drop-in, the line, and what is wrong, as the program prints it."""

    def __init__(self, part, line, kind):
        super().__init__(kind)
        self.part, self.line, self.kind = part, line, kind


def guid(text):
    """The GUID that a text says, hyphenated and in lower case, or none where it says none or is all zero."""
    if not GUID.fullmatch(text):
        return None
    digits = "".join(re.findall(HEX, re.sub("^urn:uuid:", "", text.lower())))
    if not digits.strip("0"):
        return None
    return "-".join((digits[:8], digits[8:12], digits[12:16], digits[16:20], digits[20:]))


def assignments(data, part):
    """The assignments of a definition file in order, each with its section and line."""
    def fail(line, kind):
        raise Fault(part, line, kind)

    try:
        data.decode()
    except UnicodeDecodeError as error:
        fail(1 + data.count(b"\n", 0, error.start), "NotUtf8")
    lines = (data[3:] if data[:3] == b"\xef\xbb\xbf" else data).split(b"\n")
    if not lines[-1]:
        lines.pop()
    logical, open_line = [], None
    for number, line in enumerate(lines, 1):
        line = (line[:-1] if line[-1:] == b"\r" else line).lstrip(b" \t")
        if line[:1] in (b"#", b";"):
            continue
        start, front = open_line or (number, b"")
        if (len(line) - len(line.rstrip(b"\\"))) % 2:
            open_line = start, front + line[:-1] + b" "
        else:
            open_line = None
            logical.append((start, front + line))
    if open_line:
        logical.append(open_line)
    found, section = [], None
    for number, line in logical:
        if len(line) > 4096:
            fail(number, "TooLong")
        line = line.rstrip(b" \t")
        if not line:
            continue
        if line[:1] == b"[":
            name = line[1:-1]
            if line[-1:] != b"]" or len(line) < 3 or b"[" in name or b"]" in name:
                fail(number, "BadLine")
            section = name
            continue
        key, equals, value = line.partition(b"=")
        if not equals or not key.strip(b" \t"):
            fail(number, "BadLine")
        if section is None:
            fail(number, "NoSection")
        found.append((section, key.strip(b" \t").decode(), value.strip(b" \t").decode(), number))
    return found


def specified(text):
    """A text with its specifiers replaced, or none."""
    if "%" in re.sub("%[%a]", "", text):
        return None
    return re.sub("%([%a])", lambda found: "%" if found[1] == "%" else ARCH, text)


def type_of(text):
    if re.fullmatch("(root|usr)(-verity|-verity-sig)?", text):
        first, *rest = text.split("-", 1)
        text = "-".join([first, ARCH, *rest])
    return TYPES[text].guid if text in TYPES else guid(text)


def number(text, sign, least, most):
    found = re.fullmatch(rf"{sign}[0-9]+", text)
    return int(text) if found and least <= int(text) <= most else None


def size(text):
    found = re.fullmatch("([0-9]+)([BKMGT]?)", text)
    bytes_ = int(found[1]) * UNITS[found[2]] if found else 1 << 61
    return bytes_ if bytes_ <= 1 << 60 else None


def value(key, text):
    """The value of a key, or the kind of fault."""
    if (key, text) in (("UUID", "null"), ("CopyBlocks", "auto"), ("Verity", "signature")):
        return None, "Unsupported"
    if key in REFUSED:
        return None, None if (key, text) in (("Encrypt", "off"), ("Minimize", "off")) else "Unsupported"
    if key == "Type":
        read = type_of(text)
    elif key == "UUID":
        read = guid(text)
    elif key == "Label":
        read = specified(text)
        if read is not None and len(read.encode("utf-16-le")) > 72:
            return None, "LabelTooLong"
        read = None if read is not None and "\0" in read else read
    elif key == "Priority":
        read = number(text, "[-+]?", -1 << 31, (1 << 31) - 1)
    elif key in ("Weight", "PaddingWeight"):
        read = number(text, "", 0, 1000000)
    elif key.endswith("Bytes"):
        read = size(text)
    elif key == "CopyBlocks":
        read = specified(text)
        read = read if read is not None and "\0" not in read and len(read.encode()) <= 4095 else None
    elif key == "Verity":
        read = text if text in ("off", "data", "hash") else None
    elif key == "VerityMatchKey":
        read = text if len(text.encode()) <= 64 else None
    elif key == "SplitName":
        read = specified(text)
        if read == "-":
            return None, None
        if read is not None and (read in (".", "..") or "/" in read or "\0" in read or len(read.encode()) > 128):
            read = None
    else:
        read = True if re.sub("[A-Z]", lambda c: c[0].lower(), text) in ON else \
            False if re.sub("[A-Z]", lambda c: c[0].lower(), text) in OFF else None
    return read, "BadValue" if read is None else None


def definition(pieces):
    """A definition of a main file and its drop-ins, and how many assignments are ignored."""
    last, ignored = {}, 0
    for part, data in pieces:
        for section, key, text, line in assignments(data, part):
            if section == b"Partition" and key in KEYS:
                last[key] = text, part, line
            else:
                ignored += 1
    values = {}
    for key in KEYS:
        text, part, line = last.get(key, ("", "", 0))
        values[key] = None
        if text:
            values[key], kind = value(key, text)
            if kind:
                named = kind in ("BadValue", "Unsupported")
                raise Fault(part, line, f"{kind} {key}" if named else kind)
        elif key == "Type":
            raise Fault("", 0, "NoType")

    def of(key, unset):
        return unset if values[key] is None else values[key]

    half = of("Verity", "off")
    greatest, padding_greatest = (of(key, 1 << 64) // 4096 for key in ("SizeMaxBytes", "PaddingMaxBytes"))
    least = -(-of("SizeMinBytes", min(2560, greatest) * 4096 if half == "off" else 0) // 4096)
    least = max(least, 1) if half == "off" else least
    padding_least = -(-of("PaddingMinBytes", 0) // 4096)
    if least > greatest or padding_least > padding_greatest:
        raise Fault("", 0, "Limits")
    name = next((name for name, row in TYPES.items() if row.guid == values["Type"]), "")
    supported = TYPES[name].bits if name else 0
    attrs = NO_AUTO if of("NoAuto", False) else 0
    attrs |= READ_ONLY if of("ReadOnly", "-verity" in name) else 0
    attrs &= supported
    attrs |= GROW & supported if of("GrowFileSystem", not attrs & READ_ONLY) else 0
    weight = 0 if half != "off" else of("Weight", 1000)
    return Definition(
        file="", guid=values["Type"], type=name or values["Type"], size=Item(least, greatest, weight),
        padding=Item(padding_least, padding_greatest, of("PaddingWeight", 0)), attrs=attrs, priority=of("Priority", 0), half=half, partner=None,
        match=values["VerityMatchKey"], id=values["UUID"], source=values["CopyBlocks"], label=values["Label"]), ignored


def winners(folders):
    """The candidates of folders by name, in byte order: of one name in several folders the first counts."""
    found = {}
    for files in folders:
        for name, data in files.items():
            if name.endswith(".conf") and not name.startswith("."):
                found.setdefault(name, data)
    return sorted(found.items(), key=lambda one: one[0].encode())


def loaded(tops):
    """The main files of these folders with their pieces, or the text of the first fault. A folder is its files by name, and the
    files of its drop-in folders by that folder's name and theirs."""
    mains = [(file, data, winners([drops.get(file + ".d", {}) for _, drops in tops])) for file, data in winners([own for own, _ in tops])]
    if len(mains) + sum(len(parts) for _, _, parts in mains) > 256:
        return None, "TooMany"
    folder = []
    for file, data, parts in mains:
        pieces = [("", data), *((part, own) for part, own in parts if own)] if data else []
        for part, own in pieces:
            if len(own) > 65536:
                return None, f"{file}{f'.d/{part}' if part else ''} TooBig"
        if pieces:
            folder.append((file, pieces))
    return folder, None


def definitions_of(tops):
    """The definitions of folders and how many assignments are ignored; or the line of the first fault."""
    folder, fault = loaded(tops)
    if fault:
        return None, fault
    read, ignored = [], 0
    for file, pieces in folder:
        try:
            one, more = definition(pieces)
        except Fault as fault:
            return None, f"{file}{f'.d/{fault.part}' if fault.part else ''}:{fault.line} {fault.kind}"
        read.append(one._replace(file=file))
        ignored += more
    halves = collections.defaultdict(list)
    for place, one in enumerate(read):
        if one.half != "off":
            halves[one.match, one.half].append(place)
    for place, one in enumerate(read):
        if one.half == "off":
            continue
        pair = [halves[one.match, half] for half in ("data", "hash")]
        if one.match is None or [len(places) for places in pair] != [1, 1] or (one.source is None) != (one.half == "hash"):
            return None, f"{one.file}:0 VerityPair"
        read[place] = one._replace(partner=pair[one.half == "data"][0], priority=max(read[places[0]].priority for places in pair))
    return read, ignored
