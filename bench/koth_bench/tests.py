"""Tests of the package: what a script would take for a fault of the program if the package had it."""

import contextlib
import io
import os
import socket
import tempfile
import typing
import unittest

from . import checks, judgements, pmars, rows
from .crates import crates
from .functions import applied, constant_at, functions_in
from .hills import Hill
from .peer import Peer
from .processes import kib_of, output_of, run, seconds_of
from .program import NOT_TRIED, contents, write
from .service import Service, by_port, untitled

# A service that answers each line with itself, then a line of its log, and ends when its peer does.
ECHO = """#!/usr/bin/env python3
import socket, sys
listener = socket.create_server(("127.0.0.1", 0))
if "--http" in sys.argv:
    print("2026-01-01T00:00:00Z pages at http://127.0.0.1:1234/", file=sys.stderr, flush=True)
print("LISTENING", listener.getsockname()[1], flush=True)
peer, place = listener.accept()
for line in peer.makefile("rb"):
    peer.sendall(line)
print(f"2026-01-01T00:00:01Z 127.0.0.1:{place[1]}: gone", file=sys.stderr)
"""


def told(trial: typing.Callable[[checks.Checks], object]) -> tuple[int, str]:
    """The status with which a script ends that makes these checks, and what it prints."""
    found = checks.Checks()
    with contextlib.redirect_stdout(io.StringIO()) as output:
        trial(found)
        try:
            found.end()
        except SystemExit as end:
            return int(end.code or 0), output.getvalue()


class Checked(unittest.TestCase):
    """What is counted and how a script ends."""

    def test_status_is_that_of_what_was_found(self) -> None:
        self.assertEqual(told(lambda it: it.that(True, "no"))[0], 0)
        self.assertEqual(told(lambda it: [it.that(True, ""), it.that(False, "no")])[0], 1)
        self.assertEqual(told(lambda _: None)[0], 1)

    def test_last_line_counts(self) -> None:
        _, output = told(lambda it: [it.that(True, ""), it.same(1, 2, "a number")])
        first, last = output.splitlines()
        self.assertTrue(first.endswith(": a number: 1, and not 2"), first)
        self.assertTrue(last.endswith(": 1 as expected, 1 not"), last)

    def test_what_is_not_permitted_is_not_tried(self) -> None:
        def refused(_: str) -> str:
            raise PermissionError("strace")

        for fault, status in (("", NOT_TRIED), ("wrong", 1)):

            def trials(it: checks.Checks, fault: str = fault) -> None:
                it.trial("a", lambda _: fault)
                it.trial("b", refused)

            self.assertEqual(told(trials)[0], status)

    def test_a_trial_that_fails_is_no_end(self) -> None:
        def fails(_: str) -> str:
            raise OSError("no service")

        status, output = told(lambda it: it.trial("a", fails))
        self.assertEqual((status, "no service" in output), (1, True))


class Judged(unittest.TestCase):
    """What is compared with a judgement."""

    def test_places_kinds_and_words(self) -> None:
        judged = judgements.judgements("1:5+1 | 1:5+3 BadToken\nhas a | b\nlacks c\n0 warning\n")
        for told in ("1:5+1 BadToken: a", "1:5+3 BadToken: b"):
            self.assertEqual(judgements.fault(judged, [told, "0:1+1 warning: Any: c"]), "")
        for told in ("1:4+1 BadToken: a", "1:5+1 BadEqu: a", "1:5+1 BadToken: d", "1:5+1 BadToken: a c", "1:5 a"):
            self.assertTrue(judgements.fault(judged, [told, "0:1+1 warning: Any: c"]), told)
        self.assertTrue(judgements.fault(judged, ["1:5+1 BadToken: a"]))
        self.assertTrue(judgements.fault(judged[:1], ["1:5+1 BadToken: a", "0:1+1 warning: Any: c"]))

    def test_the_first_refusal_is_that_of_asm(self) -> None:
        self.assertEqual(judgements.refusal(judgements.judgements("2 warning\n3:1+1 Empty")), "REFUSED 3 Empty\n")
        self.assertIsNone(judgements.refusal(judgements.judgements("2 warning")))
        with self.assertRaises(ValueError):
            judgements.judgements("has a")


class Peers(unittest.TestCase):
    """What a peer reads, and when it stops."""

    def setUp(self) -> None:
        listener = socket.create_server(("127.0.0.1", 0))
        self.peer = Peer(listener.getsockname()[1], patience=5)
        self.other = listener.accept()[0]
        listener.close()
        self.addCleanup(self.other.close)
        self.addCleanup(self.peer.close)

    def test_tables_end_with_a_line_of_one_dot(self) -> None:
        self.other.sendall(b"1 1 0 0 A. by B.\n.\n")
        self.assertEqual(self.peer.read_table(), b"1 1 0 0 A. by B.\n.\n")
        self.other.sendall(b".\n")
        self.assertEqual(self.peer.table(), b".\n")

    def test_nothing_behind_what_is_asked_for_is_taken(self) -> None:
        self.other.sendall(b"abcdef")
        self.assertEqual((self.peer.read_bytes(2), self.peer.read_bytes(4)), (b"ab", b"cdef"))

    def test_patience_ends(self) -> None:
        self.assertEqual(self.peer.read_to(b"\n", 0.05), b"")
        self.assertEqual((self.peer.is_late, self.peer.is_gone), (True, False))

    def test_an_end_and_a_reset_are_ends(self) -> None:
        self.assertFalse(self.peer.is_closed())
        self.other.sendall(b"x")
        self.other.close()
        self.assertEqual(self.peer.read(), b"x")
        self.assertTrue(self.peer.is_closed())


class Services(unittest.TestCase):
    """A service is found at its port, and its log is kept."""

    def setUp(self) -> None:
        folder = tempfile.TemporaryDirectory()
        self.addCleanup(folder.cleanup)
        self.echo = write(f"{folder.name}/echo", ECHO, 0o755)

    def test_ports_answers_and_log(self) -> None:
        service = Service(self.echo, "hill", "--http", "0")
        self.assertEqual((service.pages, service.address), (1234, "http://127.0.0.1:1234/"))
        with service.connect() as peer:
            self.assertEqual(peer.send(b"SHOW\n").read_lines(1), b"SHOW\n")
        self.assertEqual(service.logged(), {peer.port: ["gone"]})
        self.assertEqual((service.process.returncode, service.output), (0, ""))

    def test_a_service_that_ends_at_once(self) -> None:
        with self.assertRaisesRegex(OSError, "ended with 1"):
            Service("/bin/false", "hill")

    def test_lines_of_a_log(self) -> None:
        log = "T 127.0.0.1:7: connected\nT pages at x\nT 127.0.0.1:7: ended\nT 127.0.0.1:8: connected\n"
        self.assertEqual(by_port(log), {7: ["connected", "ended"], 8: ["connected"]})
        self.assertEqual(untitled('PLACED 3 1 9 "A" by "B", pushed 2 "C" by "D"'), "PLACED 3 1 9")


class Rules(unittest.TestCase):
    """The rules of a hill, by tables that were worked by hand."""

    def test_the_one_with_the_least_points_falls(self) -> None:
        # the third one beats both others in two rounds, and these tie
        matches = {(1, 2): (0, 0, 2), (1, 3): (0, 2, 0), (2, 3): (0, 2, 0)}
        hill = Hill(2, lambda older, younger: matches[older, younger])
        self.assertEqual([hill.submit() for _ in range(3)], ["PLACED 1 1 0\n", "PLACED 2 2 2\n", "PLACED 3 1 6\n"])
        self.assertEqual((hill.ages, hill.ranked()), ({1: 2, 3: 0}, [(6, 3), (0, 1)]))

    def test_of_equal_ones_the_youngest_falls(self) -> None:
        hill = Hill(1, lambda *_: (0, 0, 1))
        self.assertEqual([hill.submit(), hill.submit()], ["PLACED 1 1 0\n", "FELL 2 1\n"])
        self.assertEqual(hill.ages, {1: 0})


class Others(unittest.TestCase):
    """Commands, files, crates and pMARS."""

    def test_commands(self) -> None:
        self.assertEqual(run("sh", "-c", "cat; echo x >&2; exit 3", input="in"), (3, "in", "x\n"))
        self.assertEqual(output_of("cat"), "")
        with self.assertRaisesRegex(Exception, "non-zero"):
            output_of("false")

    def test_sizes(self) -> None:
        self.assertGreater(kib_of(os.getpid(), "VmHWM"), 1000)
        self.assertGreaterEqual(seconds_of(os.getpid()), 0)

    def test_files(self) -> None:
        with tempfile.TemporaryDirectory() as folder:
            self.assertEqual(contents(write(f"{folder}/a", "ä")), b"\xc3\xa4")

    def test_crates(self) -> None:
        found = crates()
        self.assertEqual((next(iter(found)), found["koth"]), ("war_types", ["koth_server"]))

    def test_rows(self) -> None:
        self.assertEqual(rows.read(rb"a\x41\(2:b\n\)\(1..2:\#\)\\"), b"aAb\nb\n12\\")
        with self.assertRaises(KeyError):
            rows.read(rb"\q")

    def test_functions(self) -> None:
        text = "const STEP: u8 = 3;\n\nimpl<T> Held<T> {\n    fn held(&self) -> u8 {\n        STEP\n    }\n}\n"
        (found,) = functions_in("src/lib.rt", text, {})
        self.assertEqual((found.path, found.first, found.body, found.last), ("Held::held", 3, 3, 5))
        self.assertEqual((constant_at(text, 0), constant_at(text, 4)), ("STEP", None))
        with tempfile.TemporaryDirectory() as folder:
            write(f"{folder}/src/lib.rt", text)
            texts, places, fault = applied("file: src/lib.rt\nold:         STEP\nnew:         4\n", folder, {})
            self.assertEqual((places, fault), ([("src/lib.rt", 4)], None))
            self.assertIn("        4\n", (texts or {})["src/lib.rt"])
            self.assertIn("0 times", applied("file: src/lib.rt\nold: x\nnew: y\n", folder, {})[2] or "")

    def test_counts(self) -> None:
        output = "A by B scores 3\nC by D scores 5\n1 4\n2 4\nResults: 1 2 4\n"
        self.assertEqual(pmars.counts(output), [(1, 2, 4)])
        self.assertEqual(pmars.counts_of_koth("1 2 4 Name by Author\n"), [(1, 2, 4)])
