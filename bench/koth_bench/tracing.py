"""Stops a process at calls of the system by ptrace, and shows them by strace. Their numbers are those of x86-64."""

import ctypes
import os
import shutil
import typing

from .processes import run

LIBC = ctypes.CDLL(None, use_errno=True)
LIBC.ptrace.argtypes = [ctypes.c_long, ctypes.c_long, ctypes.c_void_p, ctypes.c_void_p]
LIBC.ptrace.restype = ctypes.c_long
TRACE_ME, DETACH, TO_NEXT_CALL, SET_OPTIONS, SEIZE, INTERRUPT, TELL_CALL = 0, 17, 24, 0x4200, 0x4206, 0x4207, 0x420E
MARK_CALLS, ENTERED = 1, 1


def ptrace(request: int, process: int, size: int = 0, place: typing.Any = None) -> None:
    """A call of ptrace, which raises what the system refuses."""
    if LIBC.ptrace(request, process, size, place) < 0:
        raise OSError(ctypes.get_errno(), "ptrace")


def next_call(process: int) -> int | None:
    """Goes on up to the begin or the end of the next call, and returns its number at its begin, else -1; nothing if the
    process has ended."""
    about = (ctypes.c_uint64 * 11)()
    ptrace(TO_NEXT_CALL, process)
    if not os.WIFSTOPPED(os.waitpid(process, 0)[1]):
        return None
    ptrace(TELL_CALL, process, ctypes.sizeof(about), about)
    return int(about[3]) if about[0] & 0xFF == ENTERED else -1


def start(folder: str, words: list[str]) -> int:
    """Starts a traced command in a folder, and returns its process, stopped before it begins. Its output is dropped."""
    child = os.fork()
    if child == 0:
        os.chdir(folder)
        for place in (1, 2):
            os.dup2(os.open("/dev/null", os.O_WRONLY), place)
        LIBC.ptrace(TRACE_ME, 0, None, None)
        os.execv(words[0], words)
    os.waitpid(child, 0)
    ptrace(SET_OPTIONS, child, 0, MARK_CALLS)
    return child


def traced(folder: str, *options: str) -> list[str]:
    """The words that run others under strace, which writes their calls to the file `calls` of this folder. Raises
    `PermissionError` where that can't be."""
    strace = ["strace", "-f", "-y", "-o", f"{folder}/calls", *options]
    if shutil.which("strace") is None or run(*strace, "true", folder=folder).status:
        raise PermissionError("no strace, or it may not trace; apt-get install -y strace puts it there")
    return strace
