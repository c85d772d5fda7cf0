"""The released program: what its line says of it, how it is unpacked and checked, which program a call takes, and whether the one that was proved here
is the released one."""

import contextlib
import errno
import os
import re

from calling import LIBC, PROGRAM, RELEASE, UNPACKED, UNPACKED_STAMP, WRONG, Fault, hold_streams, kit, kit_id, put, say
from sources import checksum, clock, here, of_all, proved, read, renew, stamp, tree, write_stamp

LINES, PACKED = f"{RELEASE}/RELEASED", f"{RELEASE}/koth.xz"
WHOLE = f"{RELEASE}/out/whole"  # where a gate that tried everything notes what it proved
# a line is a release, and the last one that of koth.xz
FORM = re.compile(
    r"(koth (\d+\.\d+\.\d+) of \d{4}-\d\d-\d\d, (\S[^,]*), sources ([0-9a-f]{64}), commit ([0-9a-f]{40,64}), "
    r"(\d{1,9}) bytes, program ([0-9a-f]{64})), line ([0-9a-f]{64})"
)
ROOM, MEMORY = 1 << 16, 64 << 20  # bytes by which a packed program may be longer than the program, and that unpacking it may take
NOT_WRITABLE = (errno.EACCES, errno.EPERM, errno.EROFS, errno.ENOSPC, errno.EDQUOT)
DIFFERS = 1


class Line:
    """What a line says of a release."""

    def __init__(self, text):
        found = FORM.fullmatch(text)
        if not found or checksum(found[1].encode()) != found[8]:
            raise damaged(LINES, "has a line that isn't as it was written")
        self.version, self.kit, self.sources, self.commit, self.size, self.program, self.sum = *found.groups()[1:5], int(found[6]), *found.groups()[6:]


def damaged(path, what):
    return Fault(f"{path} {what}, so nothing of the release can be trusted: git checkout -- release brings it back as it was committed")


def line_of(version, date, by, of_sources, commit, program):
    """The line of a release."""
    told = f"koth {version} of {date}, {by}, sources {of_sources}, commit {commit}, {len(program)} bytes, program {checksum(program)}"
    return f"{told}, line {checksum(told.encode())}"


def lines():
    """What the lines say, the newest release last. Nothing is released in a clone without them."""
    try:
        text = read(LINES).decode(errors="replace")
    except (FileNotFoundError, NotADirectoryError):
        return []
    if not text.endswith("\n"):
        raise damaged(LINES, "is cut off")
    return [Line(it) for it in text[:-1].split("\n")]


def released():
    """What the line of the newest release says, or nothing if nothing is released."""
    found = lines()
    return found[-1] if found else None


def unpacked(line):
    """The program of this release: no more bytes are unpacked than its line says, and they have to be those that it means."""
    try:
        import lzma
    except ImportError:
        raise Fault("this Python has no module lzma, which unpacks the released program: call koth by another one") from None
    with open(PACKED, "rb") as file:
        packed = file.read(line.size + ROOM)
    reader = lzma.LZMADecompressor(lzma.FORMAT_XZ, memlimit=MEMORY)
    try:
        data = reader.decompress(packed, line.size + 1)
    except (lzma.LZMAError, EOFError):
        data = b""
    if not reader.eof or reader.unused_data or len(data) != line.size or checksum(data) != line.program:
        raise damaged(PACKED, f"is not the program of {line.version}")
    return data


def look_at_libc():
    """Ends the call if the released program can't start here."""
    try:
        found = os.confstr("CS_GNU_LIBC_VERSION") or ""
    except (ValueError, OSError):
        found = ""
    number = re.fullmatch(r"glibc (\d+)\.(\d+).*", found)
    if not number or (int(number[1]), int(number[2])) < tuple(map(int, LIBC.split("."))):
        raise Fault(f"the released program can't start: it needs glibc {LIBC} or newer, and this system has {found or 'none that tells its version'}")


def write_file(path, data, mode):
    """Writes a file beside its place, and then gives it that."""
    made = f"{path}.{os.getpid()}"
    try:
        with open(made, "wb") as file:
            file.write(data)
            os.fchmod(file.fileno(), mode)
            file.flush()
            os.fsync(file.fileno())
        os.replace(made, path)
    finally:
        with contextlib.suppress(OSError):
            os.remove(made)


def is_first(line):
    """Whether no call in this clone has told of this release, which is noted."""
    note = f"{os.path.dirname(UNPACKED)}/told.{checksum((line.sum + here()).encode())[:16]}"
    try:
        os.close(os.open(note, os.O_CREAT | os.O_EXCL | os.O_WRONLY, 0o644))
    except FileExistsError:
        return False
    except OSError:
        pass
    return True


def place_of(line, data, note, began, found):
    """Where the released program can be started: below release/out, or in memory if nothing can be written or started there."""
    try:
        os.makedirs(os.path.dirname(UNPACKED), exist_ok=True)
        if not (os.path.isfile(UNPACKED) and not os.path.islink(UNPACKED) and os.access(UNPACKED, os.X_OK) and read(UNPACKED) == data):
            write_file(UNPACKED, data, 0o755)
        if os.access(UNPACKED, os.X_OK):
            with contextlib.suppress(OSError):
                write_stamp(UNPACKED_STAMP, [note, line.sum, line.program, here()], began, found, UNPACKED, LINES, PACKED)
            return UNPACKED
    except OSError as fault:
        if fault.errno not in NOT_WRITABLE:
            raise
    # what is said must not get into it
    hold_streams()
    at = os.memfd_create("koth")
    with open(at, "wb", closefd=False) as file:
        file.write(data)
    return at


def note_whole():
    """Notes the kit and the checksums of the sources and of the program that was just proved and tried whole."""
    os.makedirs(os.path.dirname(WHOLE), exist_ok=True)
    write_file(WHOLE, "\n".join(stamp()[:3]).encode(), 0o644)


def whole():
    """What was noted of the last program that was proved and tried whole, or nothing."""
    try:
        found = read(WHOLE).decode(errors="replace").split("\n")
    except (FileNotFoundError, NotADirectoryError):
        return None
    return found if len(found) == 3 else None


class Choice:
    """The program that a call takes: where it is started, how it was made, by which kit and from which sources, and its checksum. Of a released one also its
    bytes, and what each call says of it."""

    def __init__(self, at, how, told, data=None, note=""):
        self.at, self.how, (self.kit, self.sources, self.sum), self.data, self.note = at, how, told, data, note

    def bytes(self):
        return read(self.at) if self.data is None else self.data

    def path(self):
        """Where its file is."""
        if isinstance(self.at, str):
            return self.at
        raise Fault(f"{os.path.dirname(UNPACKED)} can't be written, so there is no file of the program")


def choice_of(told):
    """The program of this stamp."""
    return Choice(PROGRAM, "proved here" if told[3] == here() else "proved elsewhere", told[:3])


def choice_of_release(line, note, began, found):
    """The released program, checked. What a call says of it is said here."""
    data = unpacked(line)
    look_at_libc()
    at = place_of(line, data, note, began, found)
    if note:
        say(note)
    elif is_first(line):
        say(f"this is {line.version}, proved and built from these sources by {line.kit}; nothing was proved on this machine")
    return Choice(at, f"released {line.version}, built from commit {line.commit}", [line.kit, line.sources, line.program], data, note)


def chosen():
    """The program that a call takes: the first of what was proved here from these sources, what was released of them and what was proved of them elsewhere.
    Else the kit proves them now, and without the kit it is the released one of other sources."""
    began, by, found = clock(), kit_id(), tree()
    told = proved(by, found)
    line = None if told and told[3] == here() else released()
    if line and of_all(line.kit, found) == line.sources:
        return choice_of_release(line, "", began, found)
    if told:
        renew(told, began, found)
        return choice_of(told)
    if line and not kit():
        note = f"this is {line.version}, built from commit {line.commit[:12]}; the sources here differ from that, and nothing is proved of them"
        return choice_of_release(line, note, began, found)
    import building

    building.bring_up_to_date()
    return choice_of(stamp())


def compared(told):
    """A sentence on whether the program of this stamp is the released one, and whether it is, or nothing if the two can't be compared."""
    by, of_sources, program = told[:3]
    line, is_not = released(), "the program is proved and built here, and not compared"
    if not line:
        return f"{is_not}: nothing is released here", None
    if by != line.kit:
        return f"{is_not}: it was proved by {by}, and the released {line.version} by {line.kit}", None
    if of_sources != line.sources:
        return f"{is_not}: the sources here are not those of the released {line.version}", None
    if program == line.program:
        return f"the program that was proved and built here is the released {line.version}, byte for byte", True
    return f"the program that was proved and built here is not the released {line.version}: its checksum is {program}, and that one's {line.program}", False


def proved_and_compared():
    """Proves and builds the program here, if that is not done, and compares it with the released one."""
    import building

    # a line that can't be read ends the call before anything is proved
    released()
    building.bring_up_to_date(is_here=True)
    return compared(stamp())


def prove(words):
    """Does what `koth --prove` with these further words says, and returns the status."""
    if words:
        raise Fault("usage: koth --prove", WRONG)
    sentence, is_same = proved_and_compared()
    put(sentence)
    return DIFFERS if is_same is False else 0
