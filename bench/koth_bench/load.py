"""The load generator: what kinds of peers and browsers do to a service, many at once, and what is seen of it."""

import asyncio
import collections
import contextlib
import random
import re
import socket
import time
import typing

from .checks import say
from .peer import reset
from .processes import kib_of
from .service import Service

ENTRY = re.compile(rb"(PLACED \d+ \d+ \d+|FELL \d+ \d+)\n")
ROW = re.compile(rb"\d+ \d+ \d+ \d+ [ -~]+ by [ -~]+\n")
SUBMITTERS = 16  # whose warriors are different ones
Wait = tuple[float, float]  # when something was asked for, and the seconds until it was answered


class Run:
    """What is seen of a service, and until when."""

    def __init__(self, service: Service, seconds: float, source: typing.Callable[[int], bytes]) -> None:
        """The peers go on for these seconds. `source` makes a warrior of a number."""
        self.service, self.port, self.until, self.source = service, service.port, time.monotonic() + seconds, source
        self.pause = (0.2, 0.8)  # the seconds between two tables or pages of a peer
        self.waits: dict[str, list[Wait]] = {"a table": [], "a page": [], "a submission": []}
        self.unanswered: dict[str, list[float]] = {what: [] for what in self.waits}
        self.came: collections.Counter[str] = collections.Counter()
        self.odd: list[str] = []
        self.sizes: list[int] = []

    def goes_on(self) -> bool:
        return time.monotonic() < self.until

    @contextlib.asynccontextmanager
    async def connected(self, port: int = 0) -> typing.AsyncIterator[tuple[asyncio.StreamReader, asyncio.StreamWriter]]:
        """A connection to this port, else to that of sessions, which is closed at the end."""
        reader, writer = await asyncio.open_connection("127.0.0.1", port or self.port)
        try:
            yield reader, writer
        finally:
            writer.close()

    @contextlib.contextmanager
    def timed(self, what: str) -> typing.Iterator[None]:
        """Notes how long this takes, apart from the others if it is given up."""
        began = time.monotonic()
        try:
            yield
        except asyncio.CancelledError:
            self.unanswered[what].append(time.monotonic() - began)
            raise
        self.waits[what].append((began, time.monotonic() - began))

    def seconds(self, what: str) -> list[float]:
        return [took for _, took in self.waits[what]]


Kind = typing.Callable[[Run, int], typing.Coroutine[typing.Any, typing.Any, None]]


async def table_of(reader: asyncio.StreamReader) -> list[bytes]:
    """Reads a table, to its line of one dot, and returns its rows."""
    rows = []
    while (line := await reader.readline()) != b".\n":
        if not line:
            raise ConnectionError("the table was cut off")
        rows.append(line)
    return rows


async def plain(run: Run, number: int) -> None:
    """Asks for tables now and then, and quits."""
    chance = random.Random(number)
    async with run.connected() as (reader, writer):
        while run.goes_on():
            await asyncio.sleep(chance.uniform(*run.pause))
            with run.timed("a table"):
                writer.write(b"SHOW\n")
                rows = await table_of(reader)
            run.odd += [f"plain peer {number}: {row!r}" for row in rows if not ROW.fullmatch(row)]
        writer.write(b"QUIT\n")
        if await reader.read():
            run.odd.append(f"plain peer {number}: an answer to QUIT")


async def submitting(run: Run, number: int) -> None:
    async with run.connected() as (reader, writer):
        while run.goes_on():
            number += SUBMITTERS
            with run.timed("a submission"):
                writer.write(b"SUBMIT\n" + run.source(number) + b".\n")
                answer = await reader.readline()
            if not ENTRY.fullmatch(answer):
                run.odd.append(f"a submission: {answer!r}")
                return


async def page_of(run: Run, path: bytes) -> bytes:
    """The answer to a browser that asks for this."""
    with run.timed("a page"):
        async with run.connected(run.service.pages) as (reader, writer):
            writer.write(b"GET %s HTTP/1.1\r\nHost: localhost\r\n\r\n" % path)
            return await reader.read()


async def reading(run: Run, number: int) -> None:
    chance = random.Random(-number)
    while run.goes_on():
        await asyncio.sleep(chance.uniform(*run.pause))
        page = await page_of(run, b"/")
        if not page.startswith(b"HTTP/1.1 200 OK\r\n"):
            run.odd.append(f"a page: {page[:60]!r}")
            return


async def replaying(run: Run, number: int) -> None:
    """Reads rounds without a pause, and the page of the hill for those that it leads to, first and whenever a warrior
    is gone."""
    rounds: list[bytes] = []
    while run.goes_on():
        number += 1
        page = await page_of(run, rounds[number % len(rounds)] if rounds else b"/")
        if not page.startswith((b"HTTP/1.1 200 OK\r\n", b"HTTP/1.1 404 ")):
            run.odd.append(f"a page: {page[:60]!r}")
            return
        rounds = rounds if rounds and b" 200 " in page[:16] else re.findall(rb'href="(/replay/[\d/]+)"', page)


def repeating(sent: bytes, expected: bytes, count: int) -> Kind:
    """A peer that sends this so often at a time, and again before the last of them are answered, each by what is
    expected."""

    async def repeating_peer(run: Run, _number: int) -> None:
        async with run.connected() as (reader, writer):
            writer.write(sent * count)
            while run.goes_on():
                writer.write(sent * count)
                answers = await reader.readexactly(len(expected) * count)
                if answers != expected * count:
                    run.odd.append(f"{sent[:20]!r}: {answers[:60]!r}")
                    return
                run.came["answers to the other peers"] += count

    return repeating_peer


def assembling(texts: list[str]) -> Kind:
    """A peer that submits these sources one after another, each over a connection of its own."""

    async def assembling_peer(run: Run, number: int) -> None:
        while run.goes_on():
            number += 1
            with contextlib.suppress(ConnectionError):
                async with run.connected() as (reader, writer):
                    writer.write(b"SUBMIT\n" + texts[7 * number % len(texts)].encode() + b".\nQUIT\n")
                    answer = await reader.read()
                    run.came[f"of the others {answer.decode().split(' ')[0].strip() or 'ended'}"] += 1

    return assembling_peer


async def silent(run: Run, _number: int) -> None:
    """Connects and says nothing, and comes again."""
    while run.goes_on():
        began = time.monotonic()
        async with run.connected() as (reader, _):
            if await reader.read():
                run.odd.append("a silent peer was told something")
        if run.goes_on() and not 59 < time.monotonic() - began < 75:
            run.odd.append(f"a silent peer was let go after {time.monotonic() - began:.0f} seconds")
        run.came["silent peers let go"] += 1


async def slow(run: Run, _number: int) -> None:
    """Sends `SHOW` a byte a second."""
    async with run.connected() as (reader, writer):
        while run.goes_on():
            for byte in b"SHOW\n":
                writer.write(bytes([byte]))
                await asyncio.sleep(1)
            await table_of(reader)
            run.came["tables of slow peers"] += 1


async def sends(run: Run, peer: socket.socket, data: bytes) -> None:
    loop = asyncio.get_running_loop()
    peer.setblocking(False)
    await loop.sock_connect(peer, ("127.0.0.1", run.port))
    await loop.sock_sendall(peer, data)


async def deaf(run: Run, _number: int) -> None:
    """Asks for tables without end and reads none."""
    with socket.socket() as peer:
        await sends(run, peer, b"SHOW\n" * 4096 * 64)
        await asyncio.sleep(1)


async def endless(run: Run, _number: int) -> None:
    async with run.connected() as (_, writer):
        for _ in range(512):
            writer.write(b"x" * 65536)
            await writer.drain()


async def resetting(run: Run, number: int) -> None:
    """Resets before all of its answers have come."""
    with socket.socket() as peer:
        await sends(run, peer, b"SHOW\n" * 50)
        await asyncio.sleep(0.05 * (number % 3))
        reset(peer)


async def hostile(run: Run, number: int) -> None:
    """Is deaf, endless or resetting, again and again."""
    kind = [deaf, endless, resetting][number % 3]
    while run.goes_on():
        with contextlib.suppress(OSError, asyncio.TimeoutError):
            await asyncio.wait_for(kind(run, number), max(1, run.until - time.monotonic()))
        run.came[f"{kind.__name__} peers"] += 1
        await asyncio.sleep(0.2)


async def weigh(run: Run) -> None:
    while run.goes_on():
        run.sizes.append(kib_of(run.service.process.pid, "VmRSS"))
        await asyncio.sleep(1)


async def guarded(run: Run, kind: Kind, number: int) -> None:
    try:
        await kind(run, number)
    except (OSError, asyncio.IncompleteReadError) as error:
        if run.goes_on():
            run.odd.append(f"{kind.__name__} peer {number}: {error!r}")


async def go_on(run: Run, kinds: list[Kind]) -> None:
    tasks = [asyncio.create_task(guarded(run, kind, number)) for number, kind in enumerate(kinds)]
    tasks.append(asyncio.create_task(weigh(run)))
    await asyncio.sleep(run.until - time.monotonic())
    await asyncio.wait(tasks, timeout=5)
    for task in tasks:
        task.cancel()


def load(run: Run, kinds: list[Kind]) -> None:
    """Has these peers and browsers at the service, and ends it."""
    asyncio.run(go_on(run, kinds))
    if run.service.process.poll() is not None:
        run.odd.append(f"the service ended with status {run.service.process.returncode}")
    run.service.end()


def summary(what: str, seconds: list[float]) -> tuple[float, float]:
    if not seconds:
        say(f"{what}: none")
        return 0, 0
    ordered = sorted(seconds)
    half, late, longest = (ordered[min(len(ordered) - 1, int(part * len(ordered)))] for part in (0.5, 0.99, 1))
    times = f"median {1000 * half:.1f} ms, 99th of a hundred {1000 * late:.1f} ms, longest {1000 * longest:.1f} ms"
    say(f"{what}: {len(ordered)}, {times}")
    return late, longest
