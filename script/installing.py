"""Installs the program below a folder, compares what is installed there with its record, and takes it away again."""

import contextlib
import os
import shlex
import time

from calling import HERE, LEAST_MEMORY, MEMORY, WRONG, Fault, put
from sources import checksum, of_all, read, sum_of, tree

PLACE, RECORD = "libexec/koth/koth", "libexec/koth/koth.txt"
EDITORS = "redcode.tmLanguage.json", "vim/ftdetect/redcode.vim", "vim/ftplugin/redcode.vim", "vim/syntax/redcode.vim"
TEXTS = {"koth.1": "share/man/man1/koth.1", "koth.bash": "share/bash-completion/completions/koth", "_koth": "share/zsh/site-functions/_koth"}
TEXTS |= {name: f"share/koth/{name}" for name in (*EDITORS, "koth.nginx.conf")}
UNITS = (".service", ".socket", ".timer")
EXPECTED = b"/usr/local/bin/koth"  # where the units of the repository have the program
HOMES = "/home/", "/root/", "/run/user/"  # what `ProtectHome=yes` hides from a unit
ODD = "'\"`$\\"  # what the units and /bin/sh read otherwise than it stands
WRAPPER = """#!/bin/sh
# Runs koth in 1 GiB of address space, or in as many KiB as KOTH_MEMORY says. A growth past that is refused, and koth answers MEMORY and goes on.
memory=${KOTH_MEMORY-%(most)d}
if case $memory in '' | *[!0-9]* | ?????????????*) false ;; esac && [ "$memory" -ge %(least)d ]; then
    ulimit -S -v "$memory" 2>/dev/null
    trap '' XFSZ # a write past a limit on the size of files fails, as on a full disk
    exec %(program)s "$@"
fi
printf '%%s\\n' "koth: KOTH_MEMORY is a number of KiB, at least %(least)d, and not '$memory'" >&2
exit 2
"""
DIFFERS = 1
USAGE = "usage: koth --install [PREFIX], koth --install --prove [PREFIX], koth --install --check [PREFIX] or koth --uninstall [PREFIX]"


class Record:
    """What an install put below a folder: the files with their checksums, the folders that it made, and what it tells of the program."""

    def __init__(self, text=""):
        self.files, self.folders, self.told = {}, [], {}
        for line in text.split("\n"):
            word, _, rest = line.partition(" ")
            of_file, _, place = rest.partition(" ")
            # no install has written what leads out of its folder
            if word == "file" and is_below(place):
                self.files[place] = of_file
            elif word == "folder" and is_below(rest):
                self.folders.append(rest)
            elif word not in ("", "file", "folder"):
                self.told[word] = rest

    def bytes(self):
        lines = [*(f"{word} {rest}" for word, rest in self.told.items()), *(f"folder {it}" for it in self.folders)]
        return os.fsencode("\n".join([*lines, *(f"file {of_file} {place}" for place, of_file in self.files.items()), ""]))


def is_below(place):
    """Whether this place doesn't lead out of the folder that it is counted from, by its words."""
    return not os.path.isabs(place) and ".." not in place.split("/")


def is_inside(prefix, place):
    """Whether this is the prefix or below it, by links too."""
    if os.path.normpath(place) == ".":
        return True
    folder, root = os.path.realpath(os.path.dirname(os.path.normpath(f"{prefix}/{place}"))), os.path.realpath(prefix)
    return is_below(place) and os.path.commonpath([folder, root]) == root


def record_of(prefix):
    """The record of what is installed there, or nothing."""
    with contextlib.suppress(FileNotFoundError, NotADirectoryError):
        return Record(os.fsdecode(read(f"{prefix}/{RECORD}")))
    return None


def is_as(path, of_file):
    """Whether this is a file of this checksum."""
    return os.path.isfile(path) and not os.path.islink(path) and sum_of(path) == of_file


def texts(prefix):
    """What is to stand below the prefix beside the program: for each place the bytes, and the mode."""
    wrapper = WRAPPER % {"most": MEMORY, "least": LEAST_MEMORY, "program": shlex.quote(f"{prefix}/{PLACE}")}
    found = {"bin/koth": (os.fsencode(wrapper), 0o755)}
    for name, place in TEXTS.items():
        found[place] = read(f"{HERE}/share/{name}"), 0o644
    for name in sorted(it for it in os.listdir(f"{HERE}/warriors") if it.endswith(".red")):
        found[f"share/koth/warriors/{name}"] = read(f"{HERE}/warriors/{name}"), 0o644
    for name in sorted(it for it in os.listdir(f"{HERE}/share") if it.endswith(UNITS)):
        found[f"share/koth/systemd/{name}"] = unit(prefix, read(f"{HERE}/share/{name}")), 0o644
    return found


def unit(prefix, text):
    """This unit, with the program where it is installed: as /bin/sh reads it in a line of systemd, to which `%` is a sign."""
    program = shlex.quote(f"{prefix}/bin/koth").replace("%", "%%")
    if prefix.startswith(HOMES):
        text = text.replace(b"ProtectHome=yes", b"ProtectHome=read-only")
    return text.replace(EXPECTED, os.fsencode(program))


def said_by_git(*words):
    """What git says of this clone, or nothing if it can't say it."""
    import subprocess

    # a clone may be another user's, and a folder that is no clone may stand in one
    command = ["git", "--no-optional-locks", "-c", f"safe.directory={HERE}", "-C", HERE, *words]
    environment = dict(os.environ, GIT_CEILING_DIRECTORIES=os.path.dirname(HERE))
    with contextlib.suppress(OSError):
        ran = subprocess.run(command, stdin=subprocess.DEVNULL, capture_output=True, text=True, errors="replace", env=environment, check=False)
        return "" if ran.returncode else ran.stdout.strip()
    return ""


def commit():
    found = said_by_git("rev-parse", "HEAD")
    is_changed = said_by_git("status", "--porcelain", "--", "crates", "crates.txt", "koth", "script", "share", "warriors")
    return f"{found}, with changes that are not committed" if found and is_changed else found or "unknown"


def refuse_prefix(prefix):
    """Ends the call if this name would be read otherwise in a unit, a record or by /bin/sh. What is installed below one can be taken away."""
    if not prefix.isprintable() or any(it in prefix for it in ODD):
        raise Fault(f"nothing can be installed below {ascii(prefix)}: quotes, `$`, backslashes, line feeds and what can't be printed may not be in its name")


def look_first(prefix, places):
    """Ends the call if the folders of these places can't be written, or lead elsewhere: the program may take half an hour to prove."""
    for place in places:
        if not is_inside(prefix, place):
            raise Fault(f"nothing can be installed below {prefix}: a link leads out of it from {os.path.dirname(f'{prefix}/{place}')}")
    for at in {os.path.dirname(f"{prefix}/{it}") for it in places}:
        while not os.path.lexists(at):
            at = os.path.dirname(at)
        if not os.path.isdir(at):
            raise Fault(f"nothing can be installed below {prefix}: {at} is no folder")
        if not os.access(at, os.W_OK | os.X_OK):
            raise Fault(f"nothing can be installed below {prefix}: you may not write to {at}")


def make_folders(prefix, places):
    """Makes the folders of these places that are not there, and returns them."""
    made = []

    def make(folder):
        if not os.path.isdir(folder):
            make(os.path.dirname(folder))
            os.mkdir(folder)
            os.chmod(folder, 0o755)
            made.append(os.path.relpath(folder, prefix))

    try:
        for place in places:
            make(os.path.dirname(f"{prefix}/{place}"))
    except OSError:
        remove_folders(prefix, made)
        raise
    return made


def remove_folders(prefix, folders):
    """Removes those of these folders that are empty, the lowest first."""
    for folder in sorted((os.path.normpath(f"{prefix}/{it}") for it in folders), key=len, reverse=True):
        with contextlib.suppress(OSError):
            os.rmdir(folder)


def write_all(prefix, files):
    """Writes all files beside their places, and only then gives each its own."""
    beside = {place: f"{prefix}/{os.path.dirname(place)}/.{os.path.basename(place)}.{os.getpid()}" for place in files}
    try:
        for place, (data, mode) in files.items():
            with open(beside[place], "xb") as file:
                file.write(data)
                os.fchmod(file.fileno(), mode)
                file.flush()
                os.fsync(file.fileno())
        for place in files:
            os.replace(beside[place], f"{prefix}/{place}")
            put(f"put {prefix}/{place}")
    finally:
        for it in beside.values():
            with contextlib.suppress(OSError):
                os.remove(it)


def take_away(prefix, files):
    """Removes those of these files that are as they were installed."""
    for place, of_file in files.items():
        path = f"{prefix}/{place}"
        if not os.path.lexists(path):
            continue
        if not is_inside(prefix, place):
            put(f"left {path}: a link leads out of {prefix} there")
        elif is_as(path, of_file):
            os.remove(path)
            put(f"took away {path}")
        else:
            put(f"left {path}, which was changed")


def new_record(prefix, files, program):
    """The record of an install of these files, the program among them."""
    found = Record()
    found.files = {place: checksum(data) for place, (data, _) in files.items()}
    if found.files[PLACE] != program.sum:
        raise Fault("another call has built the program meanwhile: call again")
    date = time.strftime("%Y-%m-%dT%H:%M:%SZ", time.gmtime())
    found.told = {"koth": f"below {prefix}", "commit": commit(), "kit": program.kit, "date": date, "program": program.sum, "sources": program.sources}
    word, _, rest = program.how.partition(" ")
    found.told.update({word: rest, **({"note": program.note} if program.note else {})})
    return found


def refuse_strangers(prefix, files):
    """Ends the call if a file is in the way that no install has put there so."""
    before = record_of(prefix) or Record()
    for place, (data, _) in files.items():
        path = f"{prefix}/{place}"
        if os.path.lexists(path) and not is_as(path, before.files.get(place)) and not is_as(path, checksum(data)):
            raise Fault(f"{path} is not as an install left it: move it away, and call again")
    return before


def install(prefix, proves):
    """Puts the program below the prefix with what belongs to it; with `proves` the one that is proved here, once that is compared with the released one."""
    import building
    import releasing

    refuse_prefix(prefix)
    look_first(prefix, [PLACE, *texts(prefix)])
    refuse_strangers(prefix, texts(prefix))
    sentence, is_same = releasing.proved_and_compared() if proves else ("", None)
    if is_same is False:
        put(f"{sentence}; nothing was installed")
        return DIFFERS
    program = releasing.chosen()
    files = {PLACE: (program.bytes(), 0o755), **texts(prefix)}
    before, now = refuse_strangers(prefix, files), new_record(prefix, files, program)
    building.heed_no_signals()
    made = make_folders(prefix, files)
    now.folders = [it for it in [*before.folders, *made] if is_below(it) and os.path.isdir(f"{prefix}/{it}")]
    try:
        write_all(prefix, {**files, RECORD: (now.bytes(), 0o644)})
    except OSError:
        remove_folders(prefix, made)
        raise
    gone = {place: of_file for place, of_file in before.files.items() if place not in files}
    take_away(prefix, gone)
    remove_folders(prefix, [it for it in {*before.folders} & {os.path.dirname(it) for it in gone} if is_inside(prefix, it)])
    if f"{prefix}/bin" not in os.get_exec_path():
        put(f"{prefix}/bin is not on the path")
    if sentence:
        put(sentence)
    return 0


def found_record(prefix):
    found = record_of(prefix) if is_inside(prefix, RECORD) else None
    if not found:
        raise Fault(f"nothing is installed below {prefix}: there is no {prefix}/{RECORD}", DIFFERS)
    return found


def check(prefix):
    """Compares what is installed with its record, and the record with the sources of this clone."""
    record = found_record(prefix)
    changed = [f"{prefix}/{place}" for place, of_file in record.files.items() if not is_as(f"{prefix}/{place}", of_file)]
    for it in changed:
        put(f"{it} is not as it was installed" if os.path.lexists(it) else f"{it} is gone")
    if not changed:
        put(f"the program and all else below {prefix} are as they were installed, from commit {record.told.get('commit')}")
    how = f"the released {record.told['released']}" if "released" in record.told else f"proved {record.told.get('proved', '')}".rstrip()
    is_same = of_all(record.told.get("kit"), tree()) == record.told.get("sources")
    put(f"the program is {how}, and made from {'the sources that stand' if is_same else 'other sources than those that stand'} in {HERE}")
    return DIFFERS if changed or not is_same else 0


def uninstall(prefix):
    """Takes away what was installed below the prefix, and nothing else, whatever its record says."""
    record = found_record(prefix)
    take_away(prefix, record.files)
    os.remove(f"{prefix}/{RECORD}")
    put(f"took away {prefix}/{RECORD}")
    remove_folders(prefix, [it for it in record.folders if is_inside(prefix, it)])
    return 0


def call(words):
    """Does what these arguments say, and returns the status."""
    what, given = words[0], words[1:]
    flag = next((it for it in ("--check", "--prove") if what == "--install" and it in given), "")
    if flag:
        given.remove(flag)
    if len(given) > 1 or any(not it or it.startswith("-") for it in given):
        raise Fault(USAGE, WRONG)
    prefix = os.path.abspath(given[0] if given else "/usr/local" if os.geteuid() == 0 else os.path.expanduser("~/.local"))
    if what == "--install" and flag != "--check":
        return install(prefix, flag == "--prove")
    return (check if flag else uninstall)(prefix)
