"""The program that a script tries, and the arguments of the script."""

import argparse
import os
import subprocess
import sys
import typing

ROOT = os.path.dirname(os.path.dirname(os.path.dirname(os.path.realpath(__file__))))
SCRIPT = f"{ROOT}/koth"  # the script that limits the memory of the program
NOT_TRIED = 77  # the status of a script that can't try everything on this machine


def program() -> str:
    """The path of the program that the script `koth` takes: the one proved in this clone, else the released one. Ends
    the script if there is none."""
    found = subprocess.run([f"{ROOT}/script/program"], stdout=subprocess.PIPE, text=True, check=False)
    if found.returncode:
        sys.exit(found.returncode)
    return os.path.realpath(found.stdout.rstrip("\n"))


def arguments(text: str | None, places: dict[str, type] | None = None, koth: typing.Callable[[], str] | None = program,
              **options: object) -> argparse.Namespace:
    """What a script was given, whose help is this text: words by `places`, each with its type, or `list` for any number
    of words, and options by their defaults, `False` for a flag. A script that tries the program takes `--koth PROGRAM`
    too, and `koth` finds that where none was given."""
    parser = argparse.ArgumentParser(description=text, formatter_class=argparse.RawDescriptionHelpFormatter)
    for name, kind in (places or {}).items():
        more: dict[str, typing.Any] = {"nargs": "*"} if kind is list else {"type": kind}
        parser.add_argument(name, metavar=name.upper(), **more)
    if koth:
        parser.add_argument("--koth", metavar="PROGRAM")
    for name, default in options.items():
        option = f"--{name.replace('_', '-')}"
        if default is False:
            parser.add_argument(option, action="store_true")
        elif isinstance(default, list):
            parser.add_argument(option, nargs="+", default=default, metavar=name.upper())
        else:
            parser.add_argument(option, type=str if default is None else type(default), default=default,
                                metavar=name.upper())
    given = parser.parse_args()
    if koth:
        given.koth = os.path.realpath(given.koth) if given.koth else koth()
    return given


def write(path: str, content: str | bytes, mode: int | None = None) -> str:
    os.makedirs(os.path.dirname(path) or ".", exist_ok=True)
    with open(path, "wb") as file:
        file.write(content.encode() if isinstance(content, str) else content)
    if mode is not None:
        os.chmod(path, mode)
    return path


def contents(path: str) -> bytes:
    with open(path, "rb") as file:
        return file.read()


def text_of(path: str) -> str:
    return contents(path).decode(errors="replace")


def data(name: str) -> str:
    return text_of(f"{ROOT}/bench/data/{name}")


def filled(name: str, **parts: str) -> str:
    """A text of bench/data, with these parts at their marks, `@NAME@`."""
    text = data(name)
    for mark, part in parts.items():
        text = text.replace(f"@{mark}@", part)
    return text
