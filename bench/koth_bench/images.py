"""The files of hills, byte by byte, as docs/STORAGE.md has them."""

import re
import struct
import typing

SECTOR = 512
OPERATIONS = "DAT MOV ADD SUB MUL DIV MOD JMP JMZ JMN DJN SEQ SNE SLT SPL NOP".split()
MODIFIERS, MODES = "A B AB BA F X I".split(), "#$*@{<}>"
INSTRUCTION = re.compile(r"(\w+)\.(\w+) (.)(\d+), (.)(\d+)")
Settings = dict[str, int]
Entry = tuple[int, int, int]  # its number, its slot and its age
Results = dict[int, tuple[int, int]]  # rounds that the older one and the younger one won, by the older one's slot


class Warrior(typing.NamedTuple):
    code: list[str]
    start: int = 0
    name: str = "Imp"
    author: str = "Ann"


def stored(text: str) -> bytes:
    found = INSTRUCTION.fullmatch(text)
    assert found, text
    operation, modifier, a_mode, a, b_mode, b = found.groups()
    codes = OPERATIONS.index(operation), MODIFIERS.index(modifier), MODES.index(a_mode), MODES.index(b_mode)
    return struct.pack(">4B2H", *codes, int(a), int(b))


def slot(warrior: Warrior, results: Results | None = None, is_old: bool = False) -> bytes:
    wins = [count for place in range(21) for count in (results or {}).get(place, (0, 0))]
    titles = warrior.name.encode(), warrior.author.encode()
    fields = struct.pack(">HH48s48s42H", len(warrior.code), warrior.start, *titles, *wins)
    code = b"".join(map(stored, warrior.code)).ljust(SECTOR * (1 if is_old else 3) + 288, b"\0")
    return code + fields.ljust(224, b"\0")


def header(settings: Settings, generation: int, counter: int, entries: list[Entry], is_old: bool = False) -> bytes:
    *others, read, write = settings.values()
    limits = [0 if it == settings["core"] else it for it in (read, write)]
    name = b"KOTHHIL1" if is_old else b"KOTHHIL2"
    fields = struct.pack(">8sQHIHHHHIHHHQH", name, generation, *others, *limits, counter, len(entries))
    return (fields + b"".join(struct.pack(">QBQ", *it) for it in entries)).ljust(SECTOR, b"\0")


def image(settings: Settings, generation: int, counter: int, entries: list[Entry], slots: dict[int, bytes],
          is_old: bool = False) -> bytes:
    """A whole file, with one header. Slots that aren't given are zeros."""
    headers = [header(settings, generation, counter, entries, is_old), bytes(SECTOR)][:: -1 if generation % 2 else 1]
    blank = bytes(SECTOR * (2 if is_old else 4))
    return b"".join([*headers, *(slots.get(n, blank) for n in range(settings["capacity"] + 1))])
