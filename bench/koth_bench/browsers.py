"""A browser without a screen, and a site for it on the loopback."""

import http.server
import threading
import typing

from .processes import output_of

FLAGS = ["--headless", "--no-sandbox", "--disable-gpu", "--virtual-time-budget=15000"]


class Handler(http.server.BaseHTTPRequestHandler):
    """Answers by the pages of a site, and keeps what else was asked for."""

    server: "Site"

    def do_GET(self) -> None:
        body = self.server.pages.get(self.path)
        if body is None:
            self.server.asked.append(self.path)
        self.send_response(200 if body is not None else 404)
        self.send_header("Content-Type", "text/html")
        self.end_headers()
        self.wfile.write(body or b"")

    def log_message(self, *_: object) -> None:
        pass


class Site(http.server.ThreadingHTTPServer):
    """A site of these pages, by their paths, up to the end of a `with`."""

    def __init__(self, pages: dict[str, bytes]) -> None:
        super().__init__(("127.0.0.1", 0), Handler)
        self.pages, self.asked, self.address = pages, list[str](), f"http://127.0.0.1:{self.server_port}"

    def __enter__(self) -> typing.Self:
        threading.Thread(target=self.serve_forever, daemon=True).start()
        return self

    def __exit__(self, *_: object) -> None:
        self.shutdown()


def seen(browser: str, address: str, *flags: str) -> str:
    """What a browser makes of a page, once its script has run."""
    return output_of(browser, *FLAGS, *flags, "--dump-dom", address, seconds=180)
