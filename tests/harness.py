"""What the scripts of this repository share: their words, parts that are counted, and servers with those who talk to them.

A script asks `words` for its words, gives its parts to a `Tally`, and ends by its `end`, which prints `N passed, M failed`.
"""
import argparse
import concurrent.futures
import contextlib
import json
import os
import pathlib
import re
import signal
import socket
import subprocess
import sys
import tempfile
import threading

TOP = pathlib.Path(__file__).resolve().parent.parent
LIMIT = 60
# The program that is tried. `words` may set another.
PROGRAM = os.environ.get("SLOTCTL", str(TOP / "crates/slotctl/out/slotctl"))


# The memory in bytes that a check of a crate may take: 3.7 GB of a library, and 7 GB of the program, which is checked once most others are done.
MEMORY = 5_000_000_000


class Refused(Exception):
    """What was seen is not what is wanted."""


class Skipped(Exception):
    """What a part wants is absent."""


def wanted(what, want, got):
    """Refuses what is not what is wanted."""
    if want != got:
        raise Refused(f"{what}: wanted {want!r:.300}, got {got!r:.300}")


def checks_at_once():
    """How many checks may run side by side: one each processor, if each has MEMORY."""
    return max(1, min(len(os.sched_getaffinity(0)), os.sysconf("SC_PHYS_PAGES") * os.sysconf("SC_PAGE_SIZE") // MEMORY))


def kit_settings():
    """The environment of `rt ci`, with as many checks side by side as there are processors, if each has MEMORY. Of itself it runs half as many: it reckons
    with three times the memory that a check of a crate of a few thousand lines takes."""
    processors = len(os.sched_getaffinity(0))
    return {"RT_JOBS": str(processors), **os.environ} if processors == checks_at_once() else dict(os.environ)


# Words and parts.

def words(page, **options):
    """The words of a script with this page: `--program`, these options with their defaults, and names of parts. An option whose default is an empty
    list may be given more than once."""
    global PROGRAM
    parser = argparse.ArgumentParser(description=page, formatter_class=argparse.RawDescriptionHelpFormatter)
    parser.add_argument("--program", default=PROGRAM)
    for name, default in options.items():
        kind = {"action": "store_true"} if default is False else {"action": "append"} if default == [] else {"type": type(default)}
        parser.add_argument(f"--{name}", default=default, **kind)
    parser.add_argument("names", nargs="*")
    asked = parser.parse_args()
    PROGRAM = asked.program = os.path.abspath(asked.program)
    if not os.path.exists(PROGRAM):
        sys.exit("run 'rt run' in crates/slotctl first")
    return asked


class Tally:
    """Counts parts: functions, or pairs of a name and a call. With names only these. A quiet one shows failures alone."""

    def __init__(self, names=(), is_quiet=False):
        self.names, self.is_quiet, self.passed, self.failed, self.known = names, is_quiet, 0, 0, set()

    def run(self, parts, width=1):
        """Runs the parts, so many at once."""
        named = [part if isinstance(part, tuple) else (part.__name__, part) for part in parts]
        self.known |= {name for name, _ in named}
        chosen = [part for part in named if not self.names or part[0] in self.names]
        with concurrent.futures.ThreadPoolExecutor(width) as pool:
            for (name, _), (word, why) in zip(chosen, pool.map(lambda part: become(part[1]), chosen)):
                self.count(word, name, why)

    def compare(self, name, want, got):
        """Counts one comparison."""
        word, why = become(lambda: wanted("what is told", want, got))
        self.count(word, name, why)

    def count(self, word, name, why=""):
        """Counts a part that `passed`, `FAILED` or is `skipped`, and says so."""
        self.passed += word == "passed"
        self.failed += word == "FAILED"
        if word != "passed" or not self.is_quiet:
            print(f"{word} {name}{why and f': {why}'}", flush=True)

    def end(self):
        """Prints the counts, and ends the script. A name that no part has is a failure."""
        for name in [name for name in self.names if name not in self.known]:
            self.count("FAILED", name, "there is no such part")
        print(f"{self.passed} passed, {self.failed} failed")
        sys.exit(1 if self.failed else 0)


def become(call):
    """What becomes of a part, and why."""
    try:
        call()
        return "passed", ""
    except Skipped as reason:
        return "skipped", str(reason)
    except Exception as fault:  # Whatever goes wrong, the other parts are run.
        return "FAILED", f"{type(fault).__name__}: {fault}"


def at_once(calls):
    """Runs these at once, each in a thread, and raises the first fault."""
    with concurrent.futures.ThreadPoolExecutor(max(1, len(calls))) as pool:
        for done in [pool.submit(call) for call in calls]:
            done.result()


# Streams.

def read_all(stream):
    """What comes up to the end."""
    pieces = []
    while piece := stream.recv(1 << 18):
        pieces.append(piece)
    return b"".join(pieces)


def whole(stream, text):
    """Sends a text and the end, and reads beside that to the end."""
    def send():
        with contextlib.suppress(OSError):  # The other end may have quit.
            stream.sendall(text)
            stream.shutdown(socket.SHUT_WR)
    sender = threading.Thread(target=send)
    sender.start()
    answer = read_all(stream)
    sender.join()
    return answer


def free_ports(count):
    """Ports that nobody listens on now."""
    with contextlib.ExitStack() as held:
        doors = [held.enter_context(socket.create_server(("127.0.0.1", 0))) for _ in range(count)]
        return [door.getsockname()[1] for door in doors]


# `host`.

def with_new(given):
    """These words, with `--new` where they name a journal that is not there."""
    given = list(map(str, given))
    return given + ["--new"] if "--journal" in given[:-1] and "--new" not in given and not os.path.exists(given[given.index("--journal") + 1]) else given


class Server:
    """A running `host`, behind words that run it, where some are given: then signals that are ignored here, as that of a file too large, are
    ignored there. What it says is read at its end."""

    def __init__(self, *given, prepare=None, behind=(), errors=subprocess.PIPE):
        given = with_new(given)
        self.child = subprocess.Popen([*behind, PROGRAM, "host", *given], stdin=subprocess.PIPE, stdout=subprocess.PIPE, stderr=errors,
                                      preexec_fn=prepare, restore_signals=not behind)
        self.port = self.path = self.metrics = None
        if "--unix" not in given or "--port" in given:
            line = self.told(b"listening " if "--address" in given else b"listening 127.0.0.1:")
            self.port = int(line.rsplit(b":", 1)[-1])
        if "--unix" in given:
            self.path = self.told(b"listening ").decode()
        if "--metrics" in given:
            self.metrics = int(self.told(b"metrics 127.0.0.1:"))

    def told(self, begins):
        """What its next line says behind these bytes."""
        line = self.child.stdout.readline()
        if not line.startswith(begins):
            rest, errors = self.child.communicate(timeout=LIMIT)
            raise Refused(f"no line {begins!r}: {line + rest!r}, status {self.child.returncode}, {errors!r}")
        return line[len(begins):-1]

    def dial_local(self):
        """A connection by the socket of the file system."""
        stream = socket.socket(socket.AF_UNIX)
        stream.settimeout(LIMIT)
        stream.connect(self.path)
        return stream

    def dial(self, room=None):
        """A connection, with so much room for what is not read yet; by the port where there is one."""
        if self.port is None:
            return self.dial_local()
        stream = socket.socket()
        if room:
            stream.setsockopt(socket.SOL_SOCKET, socket.SO_RCVBUF, room)
        stream.settimeout(LIMIT)
        stream.connect(("127.0.0.1", self.port))
        stream.setsockopt(socket.IPPROTO_TCP, socket.TCP_NODELAY, 1)
        return stream

    def talk(self, text):
        """All that is answered to this text."""
        with self.dial() as stream:
            stream.sendall(text)
            stream.shutdown(socket.SHUT_WR)
            return read_all(stream)

    def end(self):
        """Ends its standard input: how many it served, and what it said on standard error."""
        rest, errors = self.child.communicate(timeout=LIMIT)
        wanted("the status", 0, self.child.returncode)
        if not rest.startswith(b"served ") or not rest.endswith(b"\n"):
            raise Refused(f"no line `served N`: {rest!r}")
        return int(rest.split()[1]), errors

    def fault(self):
        """Waits until it ended of itself: its status, and what it said on standard error."""
        self.child.wait(timeout=LIMIT)
        return self.child.returncode, self.child.communicate(timeout=LIMIT)[1]

    def kill(self):
        self.child.send_signal(signal.SIGKILL)
        self.child.communicate(timeout=LIMIT)


@contextlib.contextmanager
def host(*given, kind=Server, **more):
    """A running `host`, which is killed where it has not ended."""
    server = kind(*given, **more)
    try:
        yield server
    finally:
        if server.child.poll() is None:
            server.child.kill()
        with contextlib.suppress(ValueError):
            server.child.communicate(timeout=LIMIT)


def refused_start(*given, prepare=None, bare=False):
    """The status with which `host` does not start, and what it says. Where it starts its standard input ends at once, and so does it. A journal that
    is not there is to be made, unless no words are added."""
    done = subprocess.run([PROGRAM, "host", *(map(str, given) if bare else with_new(given))], input=b"", capture_output=True, timeout=LIMIT, preexec_fn=prepare)
    wanted("what is written", b"", done.stdout)
    return done.returncode, done.stderr


# Journals.

@contextlib.contextmanager
def journal_path(name="journal"):
    """Where a journal may be made."""
    with tempfile.TemporaryDirectory() as folder:
        yield pathlib.Path(folder) / name


def verdict_of(path):
    """What `check` says of a journal."""
    with open(path, "rb") as record:
        return subprocess.run([PROGRAM, "check"], stdin=record, capture_output=True, timeout=LIMIT).stdout


def opened(text):
    """The lines of a journal, each without its checksum, as the record of version 2 has them."""
    return re.sub(rb'(?m)^\{"crc32c":"[0-9a-f]{8}","line":(.*)\}$', rb"\1", text)


def rows_of(path):
    """The whole lines of a journal behind its header, each as what was asked and what was answered."""
    lines = opened(path.read_bytes()).rsplit(b"\n", 1)[0].split(b"\n")[1:]
    return [(row["command"], row["reply"]) for row in map(json.loads, lines)]
