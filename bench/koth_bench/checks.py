"""Counts what is as expected, and reports what is not."""

import argparse
import os
import subprocess
import sys
import tempfile
import typing

from .program import NOT_TRIED, ROOT, arguments, contents, write

NAME = f"bench/{os.path.basename(sys.argv[0])}"


def say(text: str) -> None:
    """Prints a line under the name of the script."""
    print(f"{NAME}: {text}", flush=True)


class Checks:
    """What was checked, and whether it was as expected."""

    def __init__(self) -> None:
        self.found: list[bool] = []
        self.not_tried = 0

    def that(self, holds: object, otherwise: str) -> bool:
        """Counts a check, prints the sentence unless it holds, and returns whether it does."""
        self.found.append(bool(holds))
        if not holds:
            say(otherwise)
        return bool(holds)

    def same(self, found: object, expected: object, what: str) -> bool:
        return self.that(found == expected, f"{what}: {found!r}, and not {expected!r}")

    def fault(self, what: str, fault: str) -> bool:
        """Counts a check whose fault is known: none if that is empty. A line reports either."""
        self.found.append(not fault)
        say(f"{what}: {fault or 'as expected'}")
        return not fault

    def trial(self, what: str, trial: typing.Callable[..., str], *given: object,
              prepare: typing.Callable[..., object] | None = None) -> None:
        """Counts a trial that returns its fault, or nothing. After what it is given comes a new folder, in which
        `prepare` has made what it needs by the program, the last that is given. One that the system doesn't permit is
        not tried."""
        with tempfile.TemporaryDirectory() as place:
            folder = os.path.realpath(place)
            try:
                if prepare:
                    prepare(given[-1], folder)
                self.fault(what, trial(*given, folder))
            except PermissionError as refused:
                self.not_tried += 1
                say(f"{what}: not tried: {refused}")
            except (OSError, subprocess.SubprocessError, ValueError) as failure:
                self.fault(what, repr(failure))

    def trials(self, trials: typing.Mapping[str, typing.Callable[..., str]], *given: object,
               prepare: typing.Callable[..., object] | None = None) -> None:
        for what, trial in trials.items():
            self.trial(what, trial, *given, prepare=prepare)

    def made(self, path: str, text: str | bytes, is_written: bool) -> bool:
        """Counts whether this file, below the repository, is what the script makes. It is written first, if that is
        asked for."""
        content, place = text.encode() if isinstance(text, str) else text, f"{ROOT}/{path}"
        if is_written:
            write(place, content)
        there = contents(place) if os.path.isfile(place) else b""
        lines = there.split(b"\n"), content.split(b"\n")
        at = len(os.path.commonprefix(lines))
        old, new = (it[at][:200] if at < len(it) else b"" for it in lines)
        fault = f"{path} isn't what is made, first in line {at + 1}: {old!r}, and not {new!r}; {NAME} --write"
        return self.that(there == content, fault)

    def end(self) -> typing.NoReturn:
        """Ends the script with the count as its last line. The status is 1 if a check failed or none was made, else 77
        if one was not tried."""
        failed = self.found.count(False)
        say(f"{self.found.count(True)} as expected, {failed} not" + f", {self.not_tried} not tried"
            * bool(self.not_tried))
        sys.exit(1 if failed or not (self.found or self.not_tried) else NOT_TRIED if self.not_tried else 0)


Given = argparse.Namespace
Main = typing.Callable[[Checks, Given], object]


def script(text: str | None, places: dict[str, type] | None = None, **options: typing.Any
           ) -> typing.Callable[[Main], Main]:
    """Runs the function below it, if the file is the script that is called: with checks, whose count ends the script,
    and with what the script was given, by `arguments`, and a new folder, as `room`."""

    def run_of(main: Main) -> Main:
        if main.__module__ == "__main__":
            checks, given = Checks(), arguments(text, places, **options)
            with tempfile.TemporaryDirectory() as given.room:
                main(checks, given)
            checks.end()
        return main

    return run_of
