r"""Texts of rows, in which `\n`, `\t` and `\r` are these characters, `\xHH` is the byte HH, and `\\` a backslash.

`\(COUNT:PART\)` is the part COUNT times. `\(FIRST..LAST:PART\)` has the part once for each number, up or down. There
`\#` stands for the number, `\+` for the one after it, and `\@` for the name with that number: short ones in order, but
for reserved words and those of counters, `w` to `z`.
"""

import functools
import itertools
import re
import string
import typing

from .program import data

ESCAPE = re.compile(rb"\\(?:\((\d+)(?:\.\.(\d+))?:((?:[^\\]|\\[^)])*)\\\)|x([0-9a-f]{2})|(.))", re.S)
SIGNS = {b"n": b"\n", b"t": b"\t", b"r": b"\r", b"\\": b"\\"}
OPERATIONS = "dat mov add sub mul div mod jmp jmz jmn djn cmp seq sne slt spl nop ldp stp".split()
RESERVED = {*OPERATIONS, *"pin org end equ for rof w x y z".split()}


def names() -> typing.Iterator[str]:
    for size in itertools.count(1):
        for name in map("".join, itertools.product(string.ascii_letters, repeat=size)):
            if name.lower() not in RESERVED:
                yield name


@functools.cache
def first_names(count: int) -> list[str]:
    return list(itertools.islice(names(), count))


def name_of(number: int) -> str:
    return first_names(-(-number // 1024) * 1024)[number - 1]


def read(text: bytes, number: int | None = None) -> bytes:
    """The bytes that a text of a row stands for, in a part that has this number. Raises `KeyError` for an escape that
    is none."""

    def sign(found: re.Match[bytes]) -> bytes:
        first, last, part, code, letter = found.groups()
        if code is not None:
            return bytes([int(code, 16)])
        if part is None:
            if number is None or letter not in b"#+@":
                return SIGNS[letter]
            return name_of(number).encode() if letter == b"@" else b"%d" % (number + (letter == b"+"))
        if last is None:
            return read(part) * int(first)
        step = 1 if int(first) <= int(last) else -1
        return b"".join(read(part, it) for it in range(int(first), int(last) + step, step))

    return ESCAPE.sub(sign, text)


def unread(name: str) -> dict[str, list[list[str]]]:
    """The rows of a file of bench/data, by the headings over them, which begin with `@`. ` => ` parts the texts of a
    row, which stand here as they stand there. A line that begins with `#` says what follows."""
    found: dict[str, list[list[str]]] = {}
    for line in data(name).splitlines():
        if line.startswith("@ "):
            under = found.setdefault(line[2:], [])
        elif line and not line.startswith("#"):
            under.append([it.strip(" ") for it in line.split("=>")])
    return found


def rows(name: str) -> dict[str, list[list[bytes]]]:
    return {head: [[read(it.encode()) for it in row] for row in found] for head, found in unread(name).items()}
