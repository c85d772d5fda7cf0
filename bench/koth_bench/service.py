"""A service that `koth serve` runs for a script."""

import contextlib
import os
import re
import signal
import subprocess
import typing
import urllib.error
import urllib.request

from .peer import PATIENCE, Peer

PAGES = re.compile(r".*\bpages\b.*(http://127\.0\.0\.1:(\d+)/).*\n")  # in the log, as text and as an object
LOGGED = re.compile(r"\S+ 127\.0\.0\.1:(\d+): (.*)")
TITLED = re.compile(r'(PLACED \d+ \d+ \d+) ".*')


class Service:
    """A service on a hill, at ports that the system has chosen. With `--http` among the flags it has pages, too."""

    def __init__(self, koth: str, hill: str, *flags: str, folder: str | None = None, log: int = subprocess.PIPE,
                 before: typing.Sequence[str] = (), memory: int | None = None) -> None:
        """Starts it, and waits until it listens. `log` is where its standard error goes, `before` what stands before
        the command, and `memory` the KiB that the script `koth` lets it have. Raises `OSError` if it ends instead."""
        environment = {**os.environ, **({"KOTH_MEMORY": str(memory)} if memory else {})}
        self.process = subprocess.Popen([*before, koth, "serve", hill, "--port", "0", *flags], cwd=folder,
                                        stdin=subprocess.DEVNULL, stdout=subprocess.PIPE, stderr=log, text=True,
                                        env=environment)
        line = self.process.stdout.readline() if self.process.stdout else ""
        if not line.startswith("LISTENING "):
            log_of_it = self.process.communicate(timeout=PATIENCE)[1]
            raise OSError(f"koth serve {' '.join(flags)} ended with {self.process.returncode}: {log_of_it}")
        self.port, self.log, self.output, self.address, self.pages = int(line.split()[1]), "", "", "", 0
        self.peers: list[Peer] = []
        while "--http" in flags and not self.pages and self.process.stderr and (line := self.process.stderr.readline()):
            self.log += line
            if found := PAGES.fullmatch(line):
                self.address, self.pages = found[1], int(found[2])

    def __enter__(self) -> typing.Self:
        return self

    def __exit__(self, *_: object) -> None:
        """Ends it, at once if it doesn't by itself, and closes all connections to it."""
        if self.process.poll() is None:
            self.end()
        for peer in self.peers:
            peer.close()

    def connect(self, address: str = "127.0.0.1", patience: float = PATIENCE) -> Peer:
        self.peers.append(Peer(self.port, address, patience))
        return self.peers[-1]

    def browse(self, address: str = "127.0.0.1") -> Peer:
        self.peers.append(Peer(self.pages, address))
        return self.peers[-1]

    def answers(self, sent: bytes) -> bytes:
        """What a peer that sends these bytes is answered until its connection is closed."""
        with self.connect() as peer:
            return peer.send_if_open(sent).read()

    def table(self) -> bytes:
        return self.answers(b"SHOW\nQUIT\n")

    def page(self, path: str = "", method: str = "GET") -> tuple[int, bytes]:
        try:
            asked = urllib.request.Request(self.address + path, method=method)
            with urllib.request.urlopen(asked, timeout=PATIENCE) as answer:
                return answer.status, answer.read()
        except urllib.error.HTTPError as refused:
            return refused.code, b""

    def stop(self) -> None:
        self.process.send_signal(signal.SIGSTOP)

    def go_on(self) -> None:
        self.process.send_signal(signal.SIGCONT)

    def end(self) -> str:
        self.process.terminate()
        self.go_on()
        return self.wait()

    def wait(self, seconds: float = PATIENCE) -> str:
        """Waits for its end, kills it after these seconds, and returns its log. What it printed after `LISTENING` is
        its `output`."""
        try:
            output, rest = self.process.communicate(timeout=seconds)
        except subprocess.TimeoutExpired:
            self.process.kill()
            output, rest = self.process.communicate()
        self.output, self.log = self.output + output, self.log + (rest or "")
        return self.log

    def logged(self) -> dict[int, list[str]]:
        """Waits for its end, and returns what its log has of each port."""
        with contextlib.suppress(subprocess.TimeoutExpired):
            self.process.wait(PATIENCE)
        return by_port(self.end() if self.process.poll() is None else self.wait())


def untitled(line: str) -> str:
    """A line of a log without the titles of warriors."""
    return TITLED.sub(r"\1", line)


def by_port(log: str) -> dict[int, list[str]]:
    """The lines of a log by the ports of this machine that they name, each without its time."""
    found: dict[int, list[str]] = {}
    for line in filter(None, map(LOGGED.fullmatch, log.splitlines())):
        found.setdefault(int(line[1]), []).append(line[2])
    return found
