"""What a call of koth does: it looks which program is that of the sources as they are, has it built if none is, and runs it.

All that a call needs which finds nothing changed stands here, and imports next to nothing.
"""

import os
import time

HERE = os.path.dirname(os.path.dirname(os.path.realpath(__file__)))
OUT = f"{HERE}/crates/koth/out"
PROGRAM = f"{OUT}/koth"
RELEASE = f"{HERE}/release"
UNPACKED = f"{RELEASE}/out/koth"
# a stamp has four lines, then its own time, which a copy hasn't, and then each file and folder whose times tell whether something changed. That of what was
# proved: the kit, the checksums of the sources and of the program, and where it was proved. That of what was released: a sentence that each call says, or
# nothing, the checksums of its line and of the program, and where it was unpacked.
STAMP, UNPACKED_STAMP = f"{OUT}/koth.sum", f"{RELEASE}/out/koth.sum"
MEMORY, LEAST_MEMORY = 1 << 20, 8192  # KiB
LIBC = "2.34"
WRONG, NOT_BUILT = 2, 70


class Fault(Exception):
    """A sentence on why a call goes no further, and its status."""

    def __init__(self, sentence, status=NOT_BUILT):
        super().__init__(sentence)
        self.status = status


def say(text):
    """Tells it on standard error, if that can be written."""
    put(f"koth: {text}", 2)


def put(text, place=1):
    """Writes a line to this descriptor, if it can be written."""
    try:
        os.write(place, os.fsencode(f"{text}\n"))
    except OSError:
        pass


def hold_streams():
    """After this no file that is opened gets the number of a standard stream that is closed."""
    for _ in range(3):
        os.open(os.devnull, os.O_RDWR)


def kit():
    """The folder of the Rattle kit whose command rattle is on the path, or nothing."""
    for folder in os.environ.get("PATH", os.defpath).split(":"):
        command = f"{folder}/rattle"
        if os.access(command, os.X_OK) and not os.path.isdir(command):
            return os.path.dirname(os.path.dirname(os.path.realpath(command)))
    return None


def id_of(folder):
    """What the kit in this folder calls itself."""
    with open(f"{folder}/KIT-ID", encoding="utf-8", errors="replace") as file:
        return " ".join(file.read().split())


def kit_id():
    """What the kit on the path calls itself, or nothing if there is none that tells it."""
    folder = kit()
    try:
        return folder and id_of(folder)
    except OSError:
        return None


def untouched(stamp):
    """The first four lines of this stamp, if all that it names is older than it, else nothing. A stamp of a time to come was made before the clock was set:
    it tells nothing."""
    try:
        with open(stamp, encoding="utf-8", errors="surrogateescape") as file:
            lines = file.read().split("\n")
            then = os.fstat(file.fileno()).st_mtime_ns
        if then > time.time_ns() or lines[4:5] != [str(then)]:
            return None
        at, stat = os.open(HERE, os.O_PATH), os.stat
        try:
            for path in lines[5:]:
                found = stat(path, dir_fd=at)
                if found.st_ctime_ns >= then or found.st_mtime_ns >= then:
                    return None
        finally:
            os.close(at)
    except (FileNotFoundError, NotADirectoryError, PermissionError, ValueError):
        return None
    return lines[:4]


def memory():
    """How many KiB of address space the program may take."""
    said = os.environ.get("KOTH_MEMORY", str(MEMORY))
    if not (said.isascii() and said.isdigit() and len(said) <= 12 and int(said) >= LEAST_MEMORY):
        raise Fault(f"KOTH_MEMORY is a number of KiB, at least {LEAST_MEMORY}, and not '{said}'", WRONG)
    return int(said)


def run(program, most, words):
    """Becomes the program at this path or descriptor, with this limit or a lower one that stands already."""
    import resource

    before, hard = resource.getrlimit(resource.RLIMIT_AS)
    wanted = most << 10
    resource.setrlimit(resource.RLIMIT_AS, (wanted if hard == resource.RLIM_INFINITY else min(wanted, hard), hard))
    try:
        os.execve(program, [program if isinstance(program, str) else UNPACKED, *words], os.environ)
    except OSError as fault:
        # the sentence takes memory
        resource.setrlimit(resource.RLIMIT_AS, (before, hard))
        why = fault.strerror
    raise Fault(f"the program can't start: {why}. It is made for Linux on x86-64 with glibc {LIBC} or newer")


def call(words):
    """Does what these arguments say, and returns the status, unless it becomes the program."""
    if words[:1] in (["--install"], ["--uninstall"]):
        import installing

        return installing.call(words)
    if words[:1] == ["--prove"]:
        import releasing

        return releasing.prove(words[1:])
    most = memory()
    told = untouched(STAMP)
    if told and kit_id() in (None, told[0]):
        return run(PROGRAM, most, words)
    told = untouched(UNPACKED_STAMP)
    if told and not (told[0] and kit()):
        if told[0]:
            say(told[0])
        return run(UNPACKED, most, words)
    import releasing

    return run(releasing.chosen().at, most, words)


def sentence_of(fault):
    """A fault, or what the system refused, in a sentence."""
    import errno

    if isinstance(fault, Fault):
        return str(fault)
    if fault.errno in (errno.ENOSPC, errno.EDQUOT):
        return f"the disk is full, so {fault.filename or 'a file'} can't be written: make room and call again; what is proved so far is kept"
    return f"{fault.filename}: {fault.strerror}" if fault.filename else str(fault.strerror or fault)


def main(words):
    try:
        return call(words)
    except Fault as fault:
        say(fault)
        return fault.status
    except OSError as fault:
        say(sentence_of(fault))
        return NOT_BUILT
