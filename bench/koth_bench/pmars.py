"""pMARS, another program that fights warriors, and what it prints. And what valgrind counts of either program."""

import os
import re
import subprocess

from .checks import Checks, say

SEED, DISTANCE = 1, 100  # usual settings: pMARS takes the position of the first round, which is their sum
ABSENT = "there is no pMARS, so nothing was compared with it"
CODE = re.compile(r"(START)?\s*([A-Z]{3}\.[ABFXI]{1,2}\s+.\s*-?\d+,\s*.\s*-?\d+)\s*$")
COUNTING = ["valgrind", "--tool=cachegrind", "--cache-sim=no", "--cachegrind-out-file=/dev/null"]
Counts = tuple[int, int, int]  # rounds that the first warrior won, that the second one won, and ties


def named(path: str | None) -> str | None:
    """The path of the headless pMARS that `--pmars` or the variable PMARS names."""
    found = path or os.environ.get("PMARS")
    return os.path.abspath(found) if found else None


def absent(checks: Checks, theirs: object) -> None:
    """Says that there is no pMARS, and counts it as not tried, if so."""
    if not theirs:
        say(ABSENT)
        checks.not_tried += 1


def fight(program: str, rounds: int, first: str, second: str, *more: str, position: int = SEED + DISTANCE) -> list[str]:
    return [program, "-b", "-k", *more, "-r", str(rounds), "-F", str(position), first, second]


def match(program: str, koth: str, older: str, younger: str, rounds: int = 1, cycles: int = 80000) -> list[str]:
    """The command by which the program, koth or pMARS, plays a match under the usual settings."""
    if program != koth:
        return fight(program, rounds, older, younger, "-c", str(cycles))
    return [koth, "fight", older, younger, *f"--rounds {rounds} --cycles {cycles} --seed {SEED}".split()]


def counts(output: str) -> list[Counts]:
    """The counts of matches of pMARS, which prints two lines each: a warrior's wins, and the ties."""
    rows = [tuple(map(int, line.split())) for line in output.splitlines() if re.fullmatch(r"\d+ \d+", line)]
    return [(first[0], second[0], first[1]) for first, second in zip(rows[::2], rows[1::2])]


def counts_of_koth(output: str) -> list[Counts]:
    """The counts of matches of `koth fight`, whose lines begin with three numbers."""
    rows = [line.split()[:3] for line in output.splitlines()]
    return [(int(won), int(lost), int(tied)) for won, lost, tied in rows]


def load_text(listing: str) -> list[str]:
    code = [found for found in map(CODE.match, listing.splitlines()) if found]
    start = max((at for at, found in enumerate(code) if found[1]), default=0)
    return [f"ORG {start}", *(found[2] for found in code), "END"]


def instructions(command: list[str]) -> int | None:
    """How many instructions of the processor a command takes, or nothing if valgrind doesn't count them."""
    try:
        done = subprocess.run(COUNTING + command, stdin=subprocess.DEVNULL, capture_output=True, text=True, check=False)
    except FileNotFoundError:
        return None
    found = re.search(r"I +refs: +([0-9,]+)", done.stderr)
    return int(found[1].replace(",", "")) if found and not done.returncode else None


def of_a_turn(program: str, koth: str, older: str, younger: str, turns: int, cycles: int = 80000) -> float | None:
    """The instructions that a turn takes in a round of these turns, without those of a round of one cycle."""
    long, short = (instructions(match(program, koth, older, younger, 1, it)) for it in (cycles, 1))
    return None if long is None or short is None else (long - short) / max(turns - 2, 1)
