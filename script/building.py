"""Proves what has changed and what stands on it, and builds the program."""

import contextlib
import errno
import fcntl
import os
import pwd
import re
import shutil
import signal
import subprocess
import time

from calling import HERE, OUT, PROGRAM, Fault, hold_streams, id_of, kit, put, say
from sources import ELSEWHERE, LATE, clock, crates, folders_of, here, is_current, newest, note_proved, of_all, paths, sums, tree, uses

LIBRARIES = f"{OUT}/libraries"
TARGET = "x86_64-unknown-linux-gnu"
CHECK_MEMORY = 2 << 20  # KiB that a check at one job takes, with some to spare
MORE_JOBS, MOST_JOBS = 0.6, 4  # of that for each further job of a check; more than these gain little
# processor seconds of each crate's proof at one job, on a processor of 2.5 GHz, as bench/gate prints them; by the clock four jobs take about half
SECONDS = {
    "war_types": 84, "redcode_text": 77, "redcode_lines": 87, "redcode_statement": 64, "redcode_copies": 98, "redcode_names": 134,
    "redcode_expand": 351, "redcode_warnings": 121, "redcode_asm": 139, "redcode_scene": 142, "redcode_blame": 241, "redcode_diagnosis": 145,
    "mars_words": 30, "mars_operations": 77, "mars_core": 377, "koth_match": 29, "koth_replay": 72, "koth_hill": 123, "sector_disk": 84,
    "hill_bytes": 76, "hill_file": 171, "hill_images": 154, "hill_store": 132, "hill_look": 90, "koth_protocol": 122, "koth_session": 268,
    "koth_http": 57, "koth_seats": 40, "koth_service": 320, "koth_sockets": 141, "koth_text": 93, "koth_options": 97, "koth_words": 156, "koth_json": 144,
    "koth_views": 161, "koth_page": 122, "koth_watch": 94, "koth_commands": 218, "koth_contests": 290, "koth_files": 168, "koth_keeping": 145,
    "koth_hills": 165, "koth_server": 273, "koth": 105,
}
READING = 10  # seconds in which a check reads what was proved below
SPEED = 1000  # bytes of a crate that was never measured, a second
FULL = re.compile(rb"No space left on device|Disk quota exceeded|os error (28|122)\b")
ENDING = (signal.SIGINT, signal.SIGTERM, signal.SIGHUP)
signals = []


def stop_if_told():
    if signals:
        raise Fault("interrupted; what is proved so far is kept, and the next call goes on there", 128 + signals[0])


def pause():
    """Waits for a moment, unless a signal says that all is to end."""
    time.sleep(0.1)
    stop_if_told()


def heed_no_signals():
    """For what takes a moment and is not to be left half done."""
    for it in ENDING:
        signal.signal(it, signal.SIG_IGN)


@contextlib.contextmanager
def noted_signals():
    """Signals that end a call are noted alone, so that they find nothing half done: the next pause ends it."""
    before = {it: signal.getsignal(it) for it in ENDING}
    heeded = [it for it, how in before.items() if how != signal.SIG_IGN]
    for it in heeded:
        signal.signal(it, lambda number, _: signals.append(number))
    yield
    for it in heeded:
        signal.signal(it, before[it])
    stop_if_told()


def most_by_memory():
    """How many checks there is memory for at once."""
    with open("/proc/meminfo", encoding="ascii") as file:
        free = re.search(r"MemAvailable:\s+(\d+)", file.read())
    return max(1, int(free[1]) // CHECK_MEMORY if free else 1)


def arguments_of(name, root, jobs):
    """The command that proves a crate over the libraries that are there, and builds it."""
    named, of_kit = uses(), kit()
    below = {it: LIBRARIES if it in named else f"{of_kit}/rlibs" for it in ["std", *named[name]]}
    arguments = ["rattle", "build", "--crate-name", name, root]
    arguments += [argument for it, at in below.items() for argument in ("--extern", f"{it}={at}/{it}.rlib")]
    arguments += ["-L", f"dependency={of_kit}/rlibs", "-L", f"dependency={LIBRARIES}"]
    arguments += ["--antt-project", f"{of_kit}/rattle/logic/antt-project.json", "--logic-built", f"{of_kit}/logic_built"]
    return [*arguments, "--links", f"{name}=", "--jobs", str(jobs)]


class Run:
    """A command of the kit that runs in a crate's folder. While it runs, no other call builds: it holds the lock, too."""

    def __init__(self, name, command, lock):
        # what it says is held in memory, since the disk may be full
        self.name, self.began, self.log = name, time.time(), open(os.memfd_create(name), "r+b")
        how = {"stdin": subprocess.DEVNULL, "stdout": self.log, "stderr": self.log, "pass_fds": [lock]}
        self.run = subprocess.Popen(command, cwd=f"{HERE}/crates/{name}", **how)

    def has_ended(self):
        return self.run.poll() is not None

    def said(self):
        self.log.seek(0)
        return self.log.read()

    def look(self, what):
        """Ends the call if the command failed."""
        stop_if_told()
        if not self.run.returncode:
            return
        said, at = self.said(), f"{OUT}/{self.name}.log"
        if FULL.search(said):
            raise Fault(f"the disk is full, so {what}: make room and call again; what is proved so far is kept")
        put("\n".join(os.fsdecode(said).rstrip().split("\n")[-20:]), 2)
        with open(at, "wb") as file:
            file.write(said)
        raise Fault(f"{what}; {at} has the whole story")

    def stop(self):
        self.run.terminate()
        try:
            self.run.wait(5)
        except subprocess.TimeoutExpired:
            self.run.kill()
            self.run.wait()


class Proof(Run):
    """A crate's proof from nothing, which makes its library: what other crates may read of it, without its proofs."""

    def __init__(self, name, sum_of_it, jobs, gives_way, lock):
        self.sum, self.jobs, self.kept, library = sum_of_it, jobs, f"{LIBRARIES}/{name}.sum", f"{LIBRARIES}/{name}.rlib"
        with contextlib.suppress(FileNotFoundError):
            os.remove(self.kept)
        shutil.rmtree(library, ignore_errors=True)
        command = [*(["nice"] if gives_way else []), *arguments_of(name, "src/lib.rt", jobs), "--statements", "-o", library]
        super().__init__(name, command, lock)

    def end(self):
        """Keeps it, if it is still that of the sources, and returns how many functions were proved."""
        self.look(f"{self.name} is not proved")
        found = re.search(rb"^logic=proved functions=(\d+)", self.said(), re.M)
        if not found:
            raise Fault(f"{self.name} is not proved: its check does not say that it is")
        if newest(self.name) >= self.began - LATE / 1e9:
            raise Fault(f"the sources of {self.name} were written while they were proved: call again, and they are proved as they are now")
        with open(self.kept, "w", encoding="ascii") as file:
            file.write(f"{self.sum}\n{here()}")
        return int(found[1])


def where_made(name, sum_of_it):
    """Where the library that is kept of this crate was proved, if it is that of these sources, else nothing."""
    try:
        with open(f"{LIBRARIES}/{name}.sum", encoding="ascii") as file:
            found, _, where = file.read().partition("\n")
    except (OSError, ValueError):
        return None
    return (where or ELSEWHERE) if found == sum_of_it else None


def seconds(name):
    """How long a crate's proof takes, roughly."""
    return SECONDS.get(name) or READING + sum(map(os.path.getsize, paths(folders_of(name)))) / SPEED


def chains(stands_on):
    """For each crate, its seconds and those of the crates above it that stand one on the other, added up along the chain that takes longest."""
    found = {}
    for name in reversed(stands_on):
        found[name] = seconds(name) + max((found[it] for it in stands_on if name in stands_on[it]), default=0)
    return found


def clock_seconds(names, chain, processors):
    """How long these proofs take by the clock, roughly: as long as the longest chain of them, or as all on these processors."""
    return max(sum(map(seconds, names)) / processors, 0.5 * max((chain[it] for it in names), default=0))


def prove_libraries(stands_on, wanted, taken, lock):
    """Proves all that the program stands on but the libraries that are taken, crates that don't stand on each other side by side."""
    chain, done, proved = chains(stands_on), [], {*taken}
    left = sorted((it for it in stands_on if it not in proved and it != "koth"), key=lambda it: -chain[it])
    processors, total, running = len(os.sched_getaffinity(0)), len(stands_on), []
    jobs = min(processors, MOST_JOBS, 1 + int((most_by_memory() - 1) / MORE_JOBS))
    most = max(1, min(processors, int(most_by_memory() / (1 + MORE_JOBS * (jobs - 1)))))
    try:
        while left or running:
            ready = [it for it in left if proved.issuperset(stands_on[it])][: most - len(running)]
            for at, name in enumerate(ready):
                # a crate off the longest chain gives way; a further job costs a tenth of a proof, so it has one more only if a processor is idle
                gives_way = chain[name] < max(chain[it] for it in [*left, *(it.name for it in running)])
                idle = processors - sum(it.jobs for it in running) - len(ready[at + 1 :])
                least, top = (1, 2) if gives_way else (3, MOST_JOBS)
                left.remove(name)
                running.append(Proof(name, wanted[name], min(jobs, max(least, min(top, idle))), gives_way, lock))
                say(f"{len(proved)} of {total} proved; {name} begins")
            pause()
            for it in [it for it in running if it.has_ended()]:
                running.remove(it)
                functions = it.end()
                proved.add(it.name)
                done.append(it.name)
                # what the crates so far took of the processors says how fast this machine is
                pace = sum(os.times()[2:4]) / sum(map(seconds, done))
                minutes = 1 + round(pace * clock_seconds([*left, *(it.name for it in running), "koth"], chain, processors) / 60)
                took = f"{functions} functions, {round(time.time() - it.began)} s"
                say(f"{len(proved)} of {total} proved; {it.name}, {took}; about {minutes} min left")
    finally:
        for it in running:
            it.stop()


def make_program(lock):
    """Proves the program over its libraries, builds it and links it. Returns where it stands."""
    made, linked, of_kit, jobs = f"{OUT}/koth.o", f"{PROGRAM}.linked", kit(), min(most_by_memory(), len(os.sched_getaffinity(0)))
    tools = ["--toolchain", f"{of_kit}/toolchain"]
    build = [*arguments_of("koth", "src/main.rt", jobs), *tools, "--backend", "llvm", "-o", made]
    link = [f"{of_kit}/bin/rattle-link", "--target", TARGET, *tools, "-o", linked, made, f"{of_kit}/c/libos_c.a", f"{of_kit}/c/liblibc_c.a"]
    for command, what in ((build, "koth, the program, is not proved"), (link, "the program is not linked")):
        run = Run("koth", command, lock)
        try:
            while not run.has_ended():
                pause()
            run.look(what)
        finally:
            run.stop()
    return linked


def build(by, is_here, lock):
    """Proves and builds the program by the kit that calls itself so, with `is_here` over no library that another clone has proved."""
    began, stands_on, found = clock(), crates(), tree()
    of_sources, wanted, own = of_all(by, found), sums(by, found), here()
    made = {it: where_made(it, wanted[it]) for it in stands_on if it != "koth"}
    taken = {it: where for it, where in made.items() if where == own or where and not is_here}
    prove_libraries(stands_on, wanted, taken, lock)
    say(f"{len(stands_on) - 1} of {len(stands_on)} proved; koth, the program, begins")
    linked = make_program(lock)
    if of_all(by, tree()) != of_sources:
        raise Fault("sources were written while they were proved: call again, and they are proved as they are now")
    os.replace(linked, PROGRAM)
    note_proved(by, of_sources, began, found, own if {*taken.values()} <= {own} else ELSEWHERE)


def id_of_kit():
    """What the kit that is to prove calls itself."""
    folder = kit()
    if not folder:
        raise Fault("the Rattle kit's command rattle is not on the path")
    try:
        return id_of(folder)
    except OSError as fault:
        raise Fault(f"the Rattle kit in {folder} doesn't tell what it is: {folder}/KIT-ID: {fault.strerror}") from fault


def whose(fault):
    """Whom to ask, where a clone can't be written."""
    of = os.stat(HERE).st_uid
    try:
        owner = pwd.getpwuid(of).pw_name
    except KeyError:
        owner = f"user {of}"
    what = f"{HERE} has changed since it was proved, or never was, and {fault.filename} can't be written ({fault.strerror})"
    mine = f"{what}: make it writable, and call again"
    return Fault(mine if of == os.geteuid() else f"{what}: let {owner}, whose clone it is, call koth there, or build in a clone of your own")


def in_turn(lock):
    """Waits while another call builds."""
    is_told = False
    while True:
        try:
            return fcntl.flock(lock, fcntl.LOCK_EX | fcntl.LOCK_NB)
        except BlockingIOError:
            if not is_told:
                say("another call is proving and building; this one waits for it")
            is_told = True
            pause()


def bring_up_to_date(is_here=False):
    """Proves and builds the program, unless another call does it meanwhile; with `is_here` all of it in this clone."""
    hold_streams()
    try:
        os.makedirs(LIBRARIES, exist_ok=True)
        with noted_signals(), open(f"{OUT}/build.lock", "ab") as lock:
            in_turn(lock)
            if not is_current(is_here):
                by = id_of_kit()
                say("proving and building what has changed; the first time this takes 25 to 45 minutes")
                build(by, is_here, lock.fileno())
                say("proved and built")
    except OSError as fault:
        if fault.errno in (errno.EACCES, errno.EPERM, errno.EROFS) and str(fault.filename).startswith(OUT):
            raise whose(fault) from fault
        raise
