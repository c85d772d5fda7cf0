"""Runs commands, and reads what they and the processes of a service take."""

import os
import re
import resource
import subprocess
import typing

from .program import text_of

PATIENCE = 60.0  # seconds for a command


class Result(typing.NamedTuple):
    """How a command ended, and what it wrote."""

    status: int
    output: str
    errors: str


def run(*command: str, folder: str | None = None, seconds: float | None = PATIENCE, **options: typing.Any) -> Result:
    """Runs a command in a folder, without input unless an option of `subprocess.run` gives some."""
    if "input" not in options:
        options.setdefault("stdin", subprocess.DEVNULL)
    options = {"capture_output": True, "text": True, "timeout": seconds, "check": False, "cwd": folder, **options}
    done = subprocess.run(command, **options)
    return Result(done.returncode, done.stdout, done.stderr)


def output_of(*command: str, folder: str | None = None, seconds: float = PATIENCE) -> str:
    """What a command prints. Raises `subprocess.CalledProcessError` if it fails."""
    done = run(*command, folder=folder, seconds=seconds)
    if done.status:
        raise subprocess.CalledProcessError(done.status, command, done.output, done.errors)
    return done.output


def children_seconds() -> float:
    """The seconds of processors, user and system, of all commands of this script that have ended."""
    took = resource.getrusage(resource.RUSAGE_CHILDREN)
    return took.ru_utime + took.ru_stime


def timed(*command: str, folder: str | None = None) -> tuple[str, float]:
    """What a command prints, and the seconds of processors that it takes."""
    before = children_seconds()
    return output_of(*command, folder=folder, seconds=600), children_seconds() - before


def seconds_of(process: int) -> float:
    """The seconds of processors, user and system, of a process that runs."""
    with open(f"/proc/{process}/stat", encoding="ascii", errors="replace") as file:
        fields = file.read().rpartition(")")[2].split()
    return (int(fields[11]) + int(fields[12])) / os.sysconf("SC_CLK_TCK")


def kib_of(process: int, field: str) -> int:
    """A size of a process in KiB: `VmRSS` now, `VmHWM` at most. Raises `ProcessLookupError` if it has ended."""
    with open(f"/proc/{process}/status", encoding="ascii", errors="replace") as file:
        fields = dict(line.split(":", 1) for line in file)
    if field not in fields:
        raise ProcessLookupError(f"process {process} has no {field}")
    return int(fields[field].split()[0])


def free_memory() -> int:
    """The KiB of memory that the system has free."""
    found = re.search(r"MemAvailable:\s+(\d+)", text_of("/proc/meminfo"))
    return int(found[1]) if found else 0


def limit_memory(kib: int) -> None:
    """Limits the address space of this script and of what it starts, unless `kib` is 0."""
    if kib:
        resource.setrlimit(resource.RLIMIT_AS, (kib << 10, resource.getrlimit(resource.RLIMIT_AS)[1]))
