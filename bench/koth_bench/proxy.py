"""A proxy that splits, delays, cuts and resets connections."""

import contextlib
import socket
import threading
import time
import typing

from .peer import reset

Place = tuple[str, int]


class Cut(typing.NamedTuple):
    """What becomes of the first connection: after how many bytes that the client sends, or that it is sent, it ends,
    and whether it is reset then."""

    up: int | None = None
    down: int | None = None
    reset: bool = False


class Proxy:
    """A port before that of a service. The first connection is cut, and all others pass whole: as many as may come."""

    def __init__(self, to: Place, cut: Cut = Cut(), piece: int = 65536, late: float = 0, at: Place = ("127.0.0.1", 0),
                 most: int = 1 << 30) -> None:
        self.to, self.cut, self.piece, self.late, self.most = to, cut, piece, late, most
        self.listener = socket.create_server(at)
        self.port: int = self.listener.getsockname()[1]
        self.taken = 0
        threading.Thread(target=self.serve, daemon=True).start()

    def __enter__(self) -> typing.Self:
        return self

    def __exit__(self, *_: object) -> None:
        self.listener.close()

    def serve(self) -> None:
        with contextlib.suppress(OSError):
            while self.taken < self.most:
                client = self.listener.accept()[0]
                cut = self.cut if self.taken == 0 else Cut()
                self.taken += 1
                if self.taken == self.most:
                    self.listener.close()
                self.join(client, cut)

    def join(self, client: socket.socket, cut: Cut) -> None:
        """Passes on what one side sends the other, up to where it is cut. The service has ended its session then."""
        service = socket.create_connection(self.to)
        up = threading.Thread(target=self.passed, args=(client, service, cut.up))
        up.start()
        if cut.up is not None:
            up.join()
            (reset if cut.reset else socket.socket.close)(service)
        else:
            self.passed(service, client, cut.down)
            service.close()
        (reset if cut.reset else socket.socket.close)(client)

    def passed(self, one: socket.socket, other: socket.socket, most: int | None) -> None:
        """Passes on bytes, as many at most as may pass."""
        left = most if most is not None else 1 << 30
        with contextlib.suppress(OSError):
            while left and (some := one.recv(min(left, self.piece))):
                left -= len(some)
                time.sleep(self.late)
                other.sendall(some)
