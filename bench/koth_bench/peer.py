"""A peer of a service: an author over a session, or a browser."""

import contextlib
import socket
import struct
import time
import typing

PATIENCE = 20.0  # seconds that a peer waits for more of an answer
BLOCK = 65536


def reset(one: socket.socket) -> None:
    """Closes a connection so that the other side meets a reset."""
    one.setsockopt(socket.SOL_SOCKET, socket.SO_LINGER, struct.pack("ii", 1, 0))
    one.close()


class Peer:
    """A connection to a port of this machine. A reset ends it, and so does nothing for its patience, in seconds."""

    def __init__(self, port: int, address: str = "127.0.0.1", patience: float = PATIENCE, room: int = 0) -> None:
        """Connects from this address. If `room` isn't 0, the system holds about as many bytes that were not read."""
        self.socket = socket.socket()
        self.socket.settimeout(patience)
        if room:
            self.socket.setsockopt(socket.SOL_SOCKET, socket.SO_RCVBUF, room)
        try:
            if address != "127.0.0.1":
                self.socket.bind((address, 0))
            self.socket.connect(("127.0.0.1", port))
        except OSError:
            self.socket.close()
            raise
        self.port: int = self.socket.getsockname()[1]
        self.is_late = self.is_gone = False  # whether nothing came in time, and whether the connection was reset

    def __enter__(self) -> typing.Self:
        return self

    def __exit__(self, *_: object) -> None:
        self.close()

    def send(self, data: bytes) -> typing.Self:
        """Sends these bytes. Raises `OSError` if the connection is gone."""
        self.socket.sendall(data)
        return self

    def send_if_open(self, data: bytes) -> typing.Self:
        """Sends these bytes, or as many as the other side takes before it is gone."""
        try:
            self.socket.sendall(data)
        except TimeoutError:
            self.is_late = True
        except OSError:
            self.is_gone = True
        return self

    def read(self, is_whole: typing.Callable[[bytes], bool] = lambda _: False, seconds: float | None = None) -> bytes:
        """What comes until it is whole or the connection has ended, for these seconds at most if they are given."""
        found, before, until = b"", self.socket.gettimeout(), time.monotonic() + (seconds or 0)
        try:
            while not is_whole(found):
                if seconds is not None:
                    self.socket.settimeout(max(until - time.monotonic(), 0.001))
                if not (some := self.socket.recv(BLOCK)):
                    break
                found += some
        except TimeoutError:
            self.is_late = True
        except OSError:
            self.is_gone = True
        self.socket.settimeout(before)
        return found

    def read_to(self, end: bytes, seconds: float | None = None) -> bytes:
        return self.read(lambda found: found.endswith(end), seconds)

    def read_lines(self, count: int) -> bytes:
        return self.read(lambda found: found.count(b"\n") >= count)

    def read_bytes(self, count: int) -> bytes:
        """This number of bytes, and none of those after them."""
        found = b""
        with contextlib.suppress(OSError):
            while len(found) < count and (some := self.socket.recv(min(count - len(found), BLOCK))):
                found += some
        return found

    def submit(self, source: bytes, seconds: float | None = None) -> bytes:
        """The reply to a source, which ends with a newline."""
        return self.send_if_open(b"SUBMIT\n" + source + b".\n").read_to(b"\n", seconds)

    def table(self, seconds: float | None = None) -> bytes:
        """The answer to `SHOW`, whole if it ends with the line of one dot."""
        return self.send_if_open(b"SHOW\n").read_table(seconds)

    def read_table(self, seconds: float | None = None) -> bytes:
        """What comes up to the line of one dot."""
        return self.read(lambda found: found == b".\n" or found.endswith(b"\n.\n"), seconds)

    def finish(self) -> typing.Self:
        self.socket.shutdown(socket.SHUT_WR)
        return self

    def finish_if_open(self) -> typing.Self:
        """Ends what this side sends, if the other side is still there."""
        with contextlib.suppress(OSError):
            self.finish()
        return self

    def reset(self) -> None:
        reset(self.socket)

    def is_closed(self) -> bool:
        """Whether the other side has ended the connection and sent nothing before."""
        self.socket.setblocking(False)
        try:
            return self.socket.recv(1) == b""
        except BlockingIOError:
            return False
        except OSError:
            return True

    def close(self) -> None:
        self.socket.close()
