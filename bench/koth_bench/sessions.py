"""The load whose answers are compared: connections to a service of one peer, and what their submissions earn again."""

import argparse
import collections
import concurrent.futures
import itertools
import os
import random
import re
import select
import shutil
import socket
import subprocess
import tempfile
import threading
import time
import typing

from . import peer
from .checks import say
from .grammar import Grammar
from .processes import kib_of, run
from .program import contents, text_of, write
from .rows import rows
from .service import Service, by_port, untitled

SECTOR = 512
CORE, ROUNDS, CAPACITY, LENGTH, DISTANCE, HILL_SEED = 800, 4, 10, 20, 20, 20261122
SETTINGS = [f"--core={CORE}", "--cycles=800", f"--rounds={ROUNDS}", f"--capacity={CAPACITY}"]
SETTINGS += [f"--length={LENGTH}", f"--distance={DISTANCE}", f"--seed={HILL_SEED}"]
PATIENCE = 100  # seconds that a peer waits for an answer, after all others
GROWTH = 1024  # KiB that the service may grow
SHARES = {"plain": 53, "piped": 16, "slow": 4, "late": 1, "cut": 12, "gone": 12, "deaf": 2}
TABLES = 2000  # that a peer asks for which reads late or never: fewer bytes than it may leave unread
SHOW, QUIT = b"SHOW\n", b"QUIT\n"
NO_COMMANDS = [b"\n", b"hello\n", b"SHOW \n", b"show\n", b".\n", b"SUBMIT SHOW\n", b"SHOW\r\r\n", b"a\rb\xff\n"]
NUMBER = rb"(0|[1-9][0-9]*)"
ENTRY = re.compile(rb"PLACED %b %b %b|FELL %b %b" % ((NUMBER,) * 5))
ROW = re.compile(rb"%b %b %b %b [ -~]+ by [ -~]+" % ((NUMBER,) * 4))
TITLE_LINES = 2
WARRIORS = Grammar("load")
# the lines of sources that are refused, after those of the title, the line of these that is to blame, and the kind
REFUSED = rows("load_refused")["refused"]


class Source(typing.NamedTuple):
    """A source, and the line of its refusal if it is no warrior."""

    text: bytes
    refusal: bytes


Command = Source | bytes


def sent(command: Command) -> bytes:
    return b"SUBMIT\n" + command.text + b".\n" if isinstance(command, Source) else command


def places() -> list[int]:
    """Where the younger of two warriors is loaded, in each round."""
    seed, found = HILL_SEED, []
    for _ in range(ROUNDS):
        found.append(DISTANCE + seed % (CORE + 1 - 2 * DISTANCE))
        seed = 16807 * seed % 2147483647
    return found


class Connection:
    """One connection: what its peer does, and what came of it."""

    def __init__(self, kind: str, commands: list[Command], way: str = "", served: bool = False) -> None:
        self.kind, self.commands, self.way, self.served = kind, commands, way, served
        self.number, self.port, self.is_mark, self.transcript, self.part = 0, 0, False, b"", b""
        self.answers: list[bytes] = []

    def sources(self) -> list[Source]:
        return [it for it in self.commands if isinstance(it, Source)]


class Maker:
    """Makes what a connection is to do, the same from the same numbers."""

    def __init__(self, seed: int, number: int) -> None:
        self.random, self.number, self.made = random.Random(f"{seed} {number}"), number, 0

    def shooter(self) -> bytes:
        """Writes to where the other one is if it is the older one: so it beats most that are on the hill, and later
        ones beat it."""
        shots, rest = self.random.randrange(1, 9), WARRIORS.make(self.random, "rest of a shooter")
        bomb = shots + rest.count(b"\n")
        aims = [self.random.choice(places()) - self.random.randrange(shots + 1) for _ in range(shots)]
        return b"".join(b"MOV %d, %d\n" % (bomb - at, -aim - at) for at, aim in enumerate(aims)) + rest + b"DAT 0\n"

    def titled(self, body: bytes, refusal: bytes = b"") -> Source:
        """A source with these lines after a title that no other has."""
        self.made += 1
        name = WARRIORS.make(self.random, "name") % (self.number, self.made)
        author = WARRIORS.make(self.random, "author")
        return Source(b";name %b\n;author %b\n%b" % (name, author, body), refusal)

    def warrior(self) -> Source:
        is_shooter = self.random.random() < 0.4
        return self.titled(self.shooter() if is_shooter else WARRIORS.make(self.random, "warrior"))

    def source(self) -> Source:
        if self.random.random() < 0.85:
            return self.warrior()
        body, line, kind = self.random.choice(REFUSED)
        return self.titled(body, b"REFUSED %d %b" % (int(line) + TITLE_LINES if int(line) else 0, kind))

    def connection(self, kind: str) -> Connection:
        chance = self.random
        if kind == "plain":
            return Connection(kind, [self.source(), SHOW])
        if kind == "piped":
            commands: list[Command] = []
            for _ in range(chance.randrange(1, 4)):
                others = [SHOW, chance.choice(NO_COMMANDS)]
                commands += [*chance.choices(others, k=chance.randrange(3)), self.source()]
            return Connection(kind, [*commands, SHOW], chance.choice(["quit", "end"]))
        if kind == "gone":
            return Connection(kind, [self.warrior()], chance.choice(["close", "reset"]), chance.random() < 0.5)
        if kind != "cut":
            commands = [*[SHOW] * (kind == "slow"), self.warrior(), *[SHOW] * (kind != "deaf")]
            return Connection(kind, commands, "close" if kind == "deaf" else "")
        found = Connection(kind, [], chance.choice(["close", "reset", "end"]), chance.random() < 0.5)
        found.commands, text = [SHOW] * found.served, sent(self.warrior())
        ends = [0, len(b"SUB"), len(b"SUBMIT\n"), chance.randrange(len(text)), len(text) - 1]
        found.part = text[: chance.choice(ends)]
        return found


def plan(seed: int, submissions: int) -> list[Connection]:
    """The connections until this number of sources were sent. Those at which sizes are taken are plain, and the last is
    one of them."""
    made: list[Connection] = []
    count = 0
    while count < submissions:
        maker = Maker(seed, len(made))
        made.append(maker.connection(maker.random.choices(list(SHARES), list(SHARES.values()))[0]))
        count += len(made[-1].sources()) + (made[-1].kind == "cut")
    for quarter in range(1, 5):
        at = max(len(made) * quarter // 4 - 1, 0)
        made[at] = Connection("plain", [Maker(seed, at).warrior(), SHOW])
        made[at].is_mark = True
    for number, connection in enumerate(made):
        connection.number = number
    return made


def answers_in(commands: list[Command], transcript: bytes) -> tuple[list[bytes], bytes | None]:
    """The answers that came whole, and the first line that belongs to none, if there is one."""
    lines, answers, at = transcript.split(b"\n")[:-1], list[bytes](), 0
    for command in commands:
        end = at
        while command == SHOW and end < len(lines) and ROW.fullmatch(lines[end]):
            end += 1
        if end == len(lines):
            return answers, None
        if isinstance(command, Source):
            is_end = lines[end] == command.refusal if command.refusal else ENTRY.fullmatch(lines[end]) is not None
        else:
            is_end = lines[end] == (b"." if command == SHOW else b"BAD")
        if not is_end:
            return answers, lines[end]
        answers.append(b"".join(line + b"\n" for line in lines[at : end + 1]))
        at = end + 1
    return answers, lines[at] if at < len(lines) else None


def is_table(answer: bytes) -> bool:
    """Whether the rows of a table are in order."""
    rows = [[int(number) for number in line.split(b" ", 4)[:4]] for line in answer.split(b"\n")[:-2]]
    order = [(-score, entry) for _, entry, score, _ in rows]
    are_ordered = [row[0] for row in rows] == [*range(1, len(rows) + 1)] and order == sorted(order)
    return are_ordered and len({row[1] for row in rows}) == len(rows) <= CAPACITY


class Peer(peer.Peer):
    """The peer of one connection: does what it is to do, and writes down what comes."""

    def __init__(self, connection: Connection, port: int, weigh: typing.Callable[[Connection], None]) -> None:
        self.connection, self.weigh = connection, weigh
        self.random = random.Random(connection.number)
        super().__init__(port, patience=PATIENCE, room=4096 if connection.kind == "deaf" else 0)
        self.socket.setsockopt(socket.IPPROTO_TCP, socket.TCP_NODELAY, 1)
        connection.port = self.port

    def hear(self, count: int | None = None) -> None:
        """Reads until this number of commands are answered or there is a line that is no answer; else to the end."""
        it = self.connection

        def is_whole(found: bytes) -> bool:
            if count is None:
                return False
            answers, wrong = answers_in(it.commands[:count], it.transcript + found)
            return len(answers) == count or wrong is not None

        it.transcript += self.read(is_whole)
        if self.is_late or self.is_gone:
            raise TimeoutError("nothing came") if self.is_late else ConnectionError("it was reset")

    def leave(self) -> None:
        """Goes away as it is to do, and at once if that is by a reset."""
        if self.connection.way == "end":
            self.finish()
            self.hear()
        if self.connection.way == "reset":
            self.reset()
        else:
            self.close()

    def say(self, command: Command, place: int, is_slow: bool) -> None:
        """Sends a command, at once or by the byte, and reads until it is answered."""
        text = sent(command)
        delay = self.random.uniform(1, 3) / len(text) if is_slow else 0
        for piece in [text[at : at + 1] for at in range(len(text))] if is_slow else [text]:
            self.send(piece)
            time.sleep(delay)
        self.hear(place + 1)

    def talk(self) -> None:
        it = self.connection
        with self:
            if it.kind in ("plain", "slow"):
                for place, command in enumerate(it.commands):
                    self.say(command, place, it.kind == "slow" and isinstance(command, Source))
                if it.is_mark:
                    self.weigh(it)
                self.send(QUIT)
            elif it.kind == "piped":
                self.send(b"".join(map(sent, it.commands)) + QUIT * (it.way == "quit"))
                if it.way == "end":
                    self.finish()
            elif it.kind == "cut":
                if it.served:
                    self.say(SHOW, 0, False)
                self.send(it.part)
            else:
                self.send(sent(it.commands[0]) + SHOW * TABLES * (it.kind in ("late", "deaf")))
                self.wait(it)
            if it.kind in ("plain", "slow", "piped", "late"):
                self.hear()
            else:
                self.leave()
        if it.kind == "late":
            # all tables but the first are dropped if they are the same, and as many as were asked for
            line, _, tables = it.transcript.partition(b"\n")
            first = tables[: len(tables) // TABLES]
            it.transcript = line + b"\n" + first if first * TABLES == tables else it.transcript

    def wait(self, it: Connection) -> None:
        """Waits until something of an answer is there, and leaves it; one that reads late waits for a second more."""
        if it.kind == "gone" and not it.served:
            return
        if not select.select([self.socket], [], [], PATIENCE)[0]:
            raise TimeoutError("nothing came")
        if it.kind != "gone":
            time.sleep(self.random.uniform(1, 1.5))
        if it.kind == "late":
            self.send(QUIT)


class Load:
    """A folder with the program, a service and the connections to it, which several threads take one after the other;
    and how much of what comes is odd."""

    def __init__(self, given: argparse.Namespace, folder: str) -> None:
        self.given, self.folder, self.lock = given, folder, threading.Lock()
        self.connections = plan(given.random, given.submissions)
        self.odd, self.begun, self.is_over, self.sizes = 0, 0, False, list[tuple[int, int, int]]()
        limited = ["sh", "-c", 'ulimit -v "$0" && exec "$@"', str(given.memory)]
        flags = ("--peers", "1", "--connections", str(len(self.connections)))
        self.expect("CREATED\n", "create", "served", *SETTINGS)
        # to a file, so that no line of it is dropped
        with open(f"{folder}/log", "wb") as log:
            self.service = Service(given.koth, "served", *flags, folder=folder, log=log.fileno(), before=limited,
                                   memory=given.memory)

    def tell(self, what: str, connection: Connection | None = None) -> None:
        with self.lock:
            self.odd += 1
            say(f"connection {connection.number}, {connection.kind}: {what}" if connection else what)

    def ran(self, *words: str) -> bytes:
        """What a command writes, and then its standard error."""
        done = run(self.given.koth, *words, folder=self.folder, text=False, capture_output=False,
                   stdout=subprocess.PIPE, stderr=subprocess.STDOUT)
        return typing.cast(bytes, done.output)

    def expect(self, expected: str, *words: str) -> None:
        if (said := self.ran(*words)) != expected.encode():
            self.tell(f"{words[0]} says {said!r}")

    def next(self) -> Peer | None:
        """The next connection, made before any later one, so that they are served in the order of their numbers;
        nothing if there is no other."""
        with self.lock:
            if self.is_over or self.begun == len(self.connections):
                return None
            connection = self.connections[self.begun]
            self.begun += 1
            found = Peer(connection, self.service.port, self.weigh)
            # by then the service's side of it waits after those before it
            time.sleep(0.001)
            return found

    def peers(self) -> None:
        while found := self.next():
            try:
                found.talk()
            except OSError as fault:
                self.is_over |= isinstance(fault, TimeoutError) or self.service.process.poll() is not None
                self.tell(f"{fault!r} after {found.connection.transcript[-80:]!r}", found.connection)
            self.look_at(found.connection)

    def look_at(self, it: Connection) -> None:
        it.answers, wrong = answers_in(it.commands, it.transcript)
        count = f"{len(it.answers)} of {len(it.commands)}"
        reads_all = it.way not in ("close", "reset")
        if wrong is not None:
            self.tell(f"answered {wrong!r} after {count} answers", it)
        elif reads_all and b"".join(it.answers) != it.transcript:
            self.tell(f"a part of an answer: {it.transcript[-80:]!r}", it)
        elif reads_all and len(it.answers) != len(it.commands):
            self.tell(f"answered {count} commands", it)
        for command, answer in zip(it.commands, it.answers):
            if command == SHOW and not is_table(answer):
                self.tell(f"a table out of order: {answer!r}", it)

    def weigh(self, connection: Connection) -> None:
        process = self.service.process.pid
        self.sizes.append((connection.number, kib_of(process, "VmRSS"), kib_of(process, "VmHWM")))

    def run(self) -> None:
        """Has the peers connect, waits for the end of the service, and looks at how it ended and has grown."""
        try:
            with concurrent.futures.ThreadPoolExecutor(self.given.peers) as pool:
                for running in [pool.submit(self.peers) for _ in range(self.given.peers)]:
                    running.result()
            if not self.is_over:
                self.service.process.wait(PATIENCE)
        except (OSError, subprocess.TimeoutExpired) as fault:
            self.is_over = True
            self.tell(f"a peer doesn't connect, or the service goes on behind the last one: {fault!r}")
        finally:
            self.service.process.kill()
        self.service.wait()
        if (status := self.service.process.returncode) or self.service.output:
            self.tell(f"the service ended with {status}, {self.service.output!r}")
        grown = [last - first for first, last in zip(self.sizes[0][1:], self.sizes[-1][1:])] if self.sizes else []
        if max(grown, default=0) > GROWTH:
            self.tell(f"the service has grown by {grown[0]} KiB, and the most that it was by {grown[1]} KiB")

    def again(self) -> int:
        """Submits once more what was judged, by commands, in the order in which it was served, and compares all that
        was answered, and the hill. Returns how many were stored without an answer."""
        text, stored, table = text_of(f"{self.folder}/log"), 0, b""
        logged = by_port(text)
        if sum(map(len, logged.values())) != text.count("\n"):
            self.tell(f"the log has lines of no connection: {text[-80:]!r}")
        self.expect("CREATED\n", "create", "replayed", *SETTINGS)
        for it in self.connections:
            lines = logged.get(it.port, [])
            # (a later connection may have the same port)
            end = next((at for at, line in enumerate(lines, 1) if line.startswith("ended")), len(lines))
            judged = [line for line in map(untitled, lines[:end]) if line.startswith(("PLACED ", "FELL ", "REFUSED "))]
            del lines[:end]
            for command, answer in itertools.zip_longest(it.commands, it.answers):
                due, said = answer, judged.pop(0) if isinstance(command, Source) and judged else ""
                if isinstance(command, Source) and said and not command.refusal:
                    write(f"{self.folder}/source", command.text)
                    due, table, stored = self.ran("submit", "replayed", "source"), b"", stored + (answer is None)
                    answer = answer or said.encode() + b"\n"
                elif command == SHOW and answer:
                    due = table = table or self.ran("show", "replayed")
                if answer != due:
                    self.tell(f"answered {answer!r}, and one after another {due!r}", it)
        one, other = (contents(f"{self.folder}/{name}") for name in ("served", "replayed"))
        if one != other:
            at = len(os.path.commonprefix([one, other]))
            self.tell(f"sector {at // SECTOR} of the hill is not what its submissions earn")
        return stored

    def report(self, stored: int | str, seconds: float) -> None:
        begun = self.connections[: self.begun]
        kinds = collections.Counter(it.kind for it in begun)
        words = collections.Counter(answer.split()[0].decode() for it in begun for answer in it.answers)
        answered = {what: words[what] for what in ("PLACED", "FELL", "REFUSED")}
        unanswered = sum(len(it.sources()) for it in begun) - sum(answered.values())
        tables = sum(command == SHOW for it in begun for command, _ in zip(it.commands, it.answers))
        of_kinds, of_words = (", ".join(f"{count} {what}" for what, count in counts.items())
                              for counts in ({kind: kinds[kind] for kind in SHARES}, answered))
        say(f"{self.begun} connections in {seconds:.0f} s: {of_kinds}")
        say(f"sources: {of_words}, {unanswered} unanswered, {stored} of them stored, {kinds['cut']} cut")
        say(f"{tables} tables, {words['BAD']} BAD")
        for number, size, most in self.sizes:
            say(f"at connection {number}: {size} KiB resident, {most} KiB at most")


def tried(given: argparse.Namespace) -> bool:
    """Serves the connections, looks at the hill after them, and returns whether nothing is odd. Else keeps the hills,
    and what was sent and answered."""
    load = Load(given, tempfile.mkdtemp(prefix="load."))
    began = time.monotonic()
    load.run()
    seconds = time.monotonic() - began
    load.expect("true\n", "audit", "served")
    load.report("an unknown number" if load.is_over else load.again(), seconds)
    if not load.odd:
        shutil.rmtree(load.folder)
        return True
    record = [(it.number, it.kind, it.way, it.served, *it.sources(), it.transcript) for it in load.connections]
    write(f"{load.folder}/record", "".join("\t".join(map(str, it)) + "\n" for it in record))
    say(f"{load.odd} oddities; the hills are kept in {load.folder}")
    return False
