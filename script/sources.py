"""What the program is made of, and whether it was proved from what stands there now: the bytes of the files decide, and not when they were written."""

import hashlib
import os
import time

from calling import HERE, PROGRAM, STAMP, kit_id

PARTS = ("src", "specs", "proofs")
LATE = 20_000_000  # nanoseconds by which the system's times of files may be behind its clock
ELSEWHERE = "several clones"  # where a program was proved that is made of libraries of more than one clone


def uses():
    """What each line of crates.txt names: a crate, and what it uses."""
    with open(f"{HERE}/crates.txt", encoding="utf-8", errors="replace") as file:
        lines = [line.partition("#")[0].partition(":") for line in file]
    return {name.split()[0]: rest.split() for name, _, rest in lines if name.split()}


def crates():
    """The repository's crates that the program is made of, each with those of them that it stands on, lowest first."""
    named, found = uses(), {}

    def visit(name):
        if name in found or name not in named:
            return
        for below in named[name]:
            visit(below)
        found[name] = [below for below in named[name] if below in named]

    visit("koth")
    return found


def raised(fault):
    raise fault


def folders_of(crate):
    """The folders of a crate's sources, and the sources in each. What an editor keeps beside them is none."""
    for folder in (f"{HERE}/crates/{crate}/{part}" for part in PARTS):
        if os.path.isdir(folder):
            for at, _, names in sorted(os.walk(folder, onerror=raised)):
                yield at, sorted(it for it in names if not it.startswith(".") and not it.endswith("~"))


def paths(folders):
    """These folders, each with the files in it."""
    return [path for at, names in folders for path in [at, *(f"{at}/{it}" for it in names)]]


def newest(crate):
    """When one of the crate's sources was written last, or one of its folders got or lost a file."""
    return max(map(os.path.getmtime, paths(folders_of(crate))), default=0.0)


def tree():
    """The crates that the program is made of, lowest first, and for each the folders of its sources."""
    return {crate: list(folders_of(crate)) for crate in crates()}


def read(path):
    with open(path, "rb") as file:
        return file.read()


def checksum(data):
    return hashlib.sha256(data).hexdigest()


def sum_of(path):
    return checksum(read(path))


def sums(kit, found):
    """For each crate of this tree the checksum of its sources, of those of the crates below it and of what the kit calls itself."""
    sums_of, named, stands_on = {}, uses(), crates()
    for name, folders in found.items():
        text = hashlib.sha256(f"{kit}\n".encode() + repr([named[name], [sums_of[it] for it in stands_on[name]]]).encode())
        for at, names in folders:
            for it in names:
                text.update(repr((at[len(HERE) + 1 :], it, read(f"{at}/{it}"))).encode())
        sums_of[name] = text.hexdigest()
    return sums_of


def of_all(kit, found):
    """One checksum of all sources of this tree, of what its crates use and of what the kit calls itself: sooner taken than that of each crate."""
    named = uses()
    text = hashlib.sha256(repr([kit, [named[it] for it in found]]).encode())
    for at, names in (it for folders in found.values() for it in folders):
        for name in names:
            data = read(f"{at}/{name}")
            text.update(os.fsencode(f"{at[len(HERE) :]}/{name} {len(data)}\n"))
            text.update(data)
    return text.hexdigest()


def looked_at(found):
    """The files and folders of this tree, one of which changes whenever the sources do."""
    below = [it[len(HERE) + 1 :] for crate, folders in found.items() for it in [f"{HERE}/crates/{crate}", *paths(folders)]]
    return ["crates.txt", *below]


def clock():
    """A time before which no file can seem to be written from now on."""
    return time.time_ns() - LATE


def here():
    """What tells this clone on this machine from others, without telling what the machine calls itself."""
    try:
        machine = read("/etc/machine-id").strip() or os.uname().nodename.encode()
    except OSError:
        machine = os.uname().nodename.encode()
    return checksum(b"koth " + machine + b" " + os.fsencode(HERE))


def write_stamp(stamp, told, began, found, *others):
    """Writes these four lines to this stamp, which goes by the sources of this tree and these other files as they were when it began."""
    made = f"{stamp}.{os.getpid()}"
    try:
        with open(made, "w", encoding="utf-8", errors="surrogateescape") as file:
            os.utime(made, ns=(began, began))
            # some file systems keep a time less exactly
            began = os.stat(made).st_mtime_ns
            file.write("\n".join([*told, str(began), *(it[len(HERE) + 1 :] for it in others), *looked_at(found)]))
        os.utime(made, ns=(began, began))
        os.replace(made, stamp)
    finally:
        if os.path.lexists(made):
            os.remove(made)


def note_proved(kit, of_sources, began, found, where):
    """Notes that the program was proved there, by this kit, from the sources of this tree, whose checksum this is. Both were taken after `began`."""
    write_stamp(STAMP, [kit, of_sources, sum_of(PROGRAM), where], began, found, PROGRAM)


def stamp():
    """The kit, the checksums of the sources and of the program, and where it was proved, or nothing if no stamp is there."""
    try:
        with open(STAMP, encoding="utf-8", errors="surrogateescape") as file:
            return (file.read().split("\n") + [""] * 3)[:4]
    except (FileNotFoundError, NotADirectoryError, PermissionError):
        return None


def proved(by, found):
    """The stamp of the program, if that was proved from what this tree holds, by this kit or, if it is none, by any."""
    told = stamp()
    if not told or by not in (None, told[0]) or not os.path.isfile(PROGRAM) or sum_of(PROGRAM) != told[2]:
        return None
    return told if of_all(told[0], found) == told[1] else None


def is_current(is_here=False):
    """Whether the program was proved from what the sources hold, by the kit on the path if there is one; with `is_here`, all of it in this clone."""
    told = proved(kit_id(), tree())
    return bool(told) and (not is_here or told[3] == here())


def renew(told, began, found):
    """Renews the stamp of the program, if that can be written."""
    try:
        note_proved(*told[:2], began, found, told[3])
    except OSError:
        pass
