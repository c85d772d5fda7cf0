"""Assembles sources by the program and by a service, and measures what that takes."""

import os
import re
import resource
import shutil
import subprocess
import tempfile
import time
import typing

from .hills import create
from .processes import kib_of
from .program import contents
from .service import Service

PATIENCE = 300  # seconds of the processor after which an assembly is stopped
MEMORY = 1 << 30  # bytes of address space that it may take
# seconds of the processor that a service takes for a source, and the bytes that it has after it
MOST_SERVED, MOST_LEFT = 0.05, 16 << 20


class Assembly(typing.NamedTuple):
    """What a command prints on standard output (`MEMORY` if it says so on standard error, nothing if it was stopped),
    its seconds on the clock and of the processor, and the bytes that it had at most."""

    text: str | None
    seconds: float
    processor: float
    memory: int


def bound(process: int = 0, seconds: int = PATIENCE) -> None:
    """Bounds the memory and the processor time of a process, or of the one that calls it."""
    resource.prlimit(process, resource.RLIMIT_AS, (MEMORY, MEMORY))
    resource.prlimit(process, resource.RLIMIT_CPU, (seconds, seconds))


def assemble(command: list[str], path: str, seconds: int = PATIENCE) -> Assembly:
    with open(path, "rb") as source, tempfile.TemporaryFile() as printed, tempfile.TemporaryFile() as errors:
        begin = time.perf_counter()
        child = subprocess.Popen(command, stdin=source, stdout=printed, stderr=errors,
                                 preexec_fn=lambda: bound(0, seconds))
        _, status, usage = os.wait4(child.pid, 0)
        took = time.perf_counter() - begin
        child.returncode = os.waitstatus_to_exitcode(status)
        printed.seek(0)
        errors.seek(0)
        text = "MEMORY" if errors.read().startswith(b"MEMORY") else printed.read().decode("latin-1")
    is_stopped = child.returncode < 0
    return Assembly(None if is_stopped else text, took, usage.ru_utime + usage.ru_stime, usage.ru_maxrss << 10)


def processor(process: int) -> float:
    """The seconds of the processor that a process has taken, by the system's finest count."""
    return int(contents(f"/proc/{process}/schedstat").split()[0]) / 1e9


def peak(process: int) -> int:
    """The bytes that a process had at most, or none once it has ended."""
    try:
        return kib_of(process, "VmHWM") << 10
    except ProcessLookupError:
        return 0


def answered(service: Service, path: str) -> str | None:
    """What a service answers to a submission of this source, or nothing if no answer and no end comes in a minute. A
    reset is an end."""
    source = contents(path)
    with service.connect(patience=60) as peer:
        peer.send_if_open(b"SUBMIT\n" + source + b"\n" * (source[-1:] != b"\n") + b".\nQUIT\n")
        found = peer.read()
        return None if peer.is_late else found.decode()


def empty_hill(koth: str, folder: str) -> str:
    return create(koth, f"{folder}/empty.hill")


def served(koth: str, hill: str, path: str, seconds: int = PATIENCE) -> Assembly:
    """What a service of the default settings answers to a submission of this source to a copy of this hill, and what it
    takes for it."""
    with Service(koth, shutil.copyfile(hill, f"{hill}.copy"), "--quiet") as service:
        process = service.process.pid
        bound(process, seconds)
        begin, before = time.perf_counter(), processor(process)
        text = answered(service, path)
        return Assembly(text, time.perf_counter() - begin, processor(process) - before, peak(process))


def count_of(text: str | None) -> str:
    """The number of instructions in a listing or a load text, or the refusal."""
    if text is None:
        return f"none in {PATIENCE} seconds of the processor"
    if text.startswith(("REFUSED", "MEMORY")):
        return text.strip()
    count = len(re.findall(r"[A-Z]{3}\.[ABFXI]{1,2} ", text))
    return str(count) if count else "refused"
