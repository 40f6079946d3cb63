"""A client of `slotctl host`: numbers that are held and given back, and names for good. The standard library alone; Python 3.8 or later.

    with Hall("127.0.0.1:7070").acquire() as number:
        work(number.value, number.token)    # nobody else holds this number now

A number is held until `leave`, which the end of the block sends, or until its connection has been gone for the server's grace time.
A thread keeps the connection, and comes back by itself. The number may be used until `valid_until`; `on_lost` is called if that passes.
The token rises with each holder of a number. A resource that refuses a lower token than it has seen refuses a former holder.

`AsyncHall` is the same for `asyncio`. `python3 beglushan.py take --at ADDRESS -- COMMAND ..` runs a command while it holds a number.

A connection that fails is closed, and nothing of it is used again. The client goes on at the next front end, and asks there what
lost replies said. A front end may still take lines that it has not answered. So each stay has an identity of its own, unless `Hall`
is given one. This client is tested, and not proved.
"""

import argparse
import asyncio
import contextlib
import hashlib
import math
import os
import random
import re
import secrets
import selectors
import signal
import socket
import subprocess
import sys
import threading
import time
import traceback
from typing import Any, AsyncIterator, Callable, Dict, Generator, Iterable, Iterator, List, NamedTuple, Optional, Sequence, Tuple, TypeVar, Union

__all__ = ["AsyncHall", "BeglushanError", "Change", "Hall", "LostNumber", "NoNames", "NoPool", "Number", "NumbersExhausted", "Refused", "Terms", "Unreachable"]

Result = TypeVar("Result")

# The refusals of docs/PROTOCOL.md, each with its name and when it comes.
REFUSALS = {
    1: "ZeroIdentity: the identity is 0",
    2: "AlreadyBegun: the identity has begun",
    3: "Full: as many participants as the world takes have begun",
    4: "NotBegun: the identity has not begun",
    5: "Finished: the participant has ended",
    6: "Spent: the participant has used up its rounds",
    7: "Crowded: as many compete as the pool has numbers",
    8: "NotCompeting: the identity does not compete",
    9: "AlreadyCompeting: the identity competes already",
    10: "Holding: the identity holds a number already",
    11: "NotHolding: the identity competes and holds no number",
    12: "NoMemory: a growth was refused in this call",
    13: "HistoryFull: the history is full",
    14: "OutOfRange: a parameter is outside its range",
}
_ALREADY_BEGUN, _FINISHED, _CROWDED, _NOT_COMPETING, _ALREADY_COMPETING, _NO_MEMORY, _OUT_OF_RANGE = 2, 5, 7, 8, 9, 12, 14

# The replies that a line may have, by its first word. N is a decimal of 64 bits.
_FORMS = {
    "": "bad 3",
    "enter": "ok|refused N",
    "probe": "missed|got N|refused N",
    "seek": "got N|refused N|bad 3",
    "take": "got N(?: N)?|refused N|bad 3",
    "put": "ok|value N|refused N",
    "held": "none|N N N",
    "leave": "left N|refused N",
    "begin": "ok|refused N",
    "step": "quiet|place N|proposed N|saw N:N(?: N:N)*|named N|spent|refused N",
    "owner": "owner N|owner none|refused N|bad 3",
    "terms": "terms (?:forever|connection) N N|bad 3",
}
_REPLIES = {word: re.compile(form.replace("N", "(?:0|[1-9][0-9]{0,19})")) for word, form in _FORMS.items()}
# The last line of a reply of several lines: of `held`, or of `watch`.
_PAGE_END = re.compile(rb"(?:\A|\n)(?:ok|(?:more|point|lost|bad) [0-9]+)\n\Z")
# The most seconds for which a line waits for a number.
_MOST_WAIT = 9999
# How many probes are sent at once: a competitor has a number after as many probes, unless the pool may have more than 64. There `seek` is known.
_PROBES = (8, 16, 40)
# After how many seconds a call that waits looks whether it was stopped.
_LOOK = 0.25
# How many steps of renaming are sent at once; the most names, which are at most 2m - 1, where m is at most 64; the longest reply, in bytes.
_STEPS, _MOST_NAMES, _LONGEST = 64, 127, 8192


class BeglushanError(Exception):
    """The base of each error here. By itself: a number was used in a process that was forked, or a slot has the greatest value."""


class Unreachable(BeglushanError):
    """No front end answered in time: each was closed, silent, or gave a reply that is none of the line's. The text has the last fault.

    What was asked may have been done, or may be done later. `identity` asked it, and may hold a number. `Hall(.., identity=..).acquire()`
    takes that number up."""

    def __init__(self, text: str, identity: int) -> None:
        super().__init__(f"{text} (identity {identity})")
        self.identity = identity


class Refused(BeglushanError):
    """A front end refused a call. `number` and `text` are those of docs/PROTOCOL.md, "Refusals"."""

    def __init__(self, number: int) -> None:
        self.number = number
        self.text = REFUSALS.get(number, "unknown")
        super().__init__(f"refused {number}: {self.text}")


class NumbersExhausted(Refused):
    """`acquire` found as many competitors as the pool has numbers. It holds nothing, and may be called again."""

    def __init__(self) -> None:
        super().__init__(_CROWDED)


class LostNumber(BeglushanError):
    """A number is no longer held with its token. `check` and `confirm` raise it, and `leave` if they have not.

    Its connection was gone for the grace time, or somebody has sent `leave` for the identity, or has taken it up in another process, or the
    server has forgotten its history. They raise it after `leave` too."""


class NoNames(BeglushanError):
    """`rename` was called where the front end gives no names: its world has none, or it was started without `--world`."""


class NoPool(BeglushanError):
    """A front end has no pool of the name that was given, or hosts one pool alone."""


class _Fault(Exception):
    """An attempt has failed, and may be made again."""


class _Held(NamedTuple):
    """A number, and the value in its slot."""

    number: int
    value: int


class Change(NamedTuple):
    """A number that was taken or given back, as `Hall.watch` yields it."""

    number: int
    """The number, from 1 to the size of the pool."""
    holder: Optional[int]
    """The identity that holds it from now on, or None once it was given back."""


class Terms(NamedTuple):
    """What a front end says of the ends of stays, as the line `terms` is answered. All is in seconds."""

    holds_forever: bool
    """Whether a number is held until `leave`, whatever becomes of its connection."""
    grace: int
    """How long after the end of its connection a stay ends, unless `enter` is said before."""
    idle: int
    """After how long a connection of which nothing comes is closed. 0 is never."""

    @property
    def least(self) -> float:
        """The least time in which something has to be said; `math.inf` if there is none."""
        return min(math.inf if self.holds_forever else self.grace, self.idle or math.inf)


# What is assumed of a front end that does not know `terms`: the defaults of `slotctl host --hold connection`.
_ASSUMED = Terms(False, 10, 30)


class _Connection:
    """One connection at a time to one of the front ends, for one identity. Replies are matched to lines in their order."""

    def __init__(
        self, addresses: Sequence[Tuple[str, int]], timeout: float, owner: "_Owner", pool: Optional[str], stopped: Optional[threading.Event] = None
    ) -> None:
        self.owner, self.identity, self.said = owner, owner.identity, owner.said
        self._pool = pool  # which of several pools it is of
        self._stopped = stopped  # ends a wait for a number
        self.serial = 0  # of the last connection: what was said on an earlier one counts no more
        self.terms = _ASSUMED  # those of the last connection
        self.is_wide: Optional[bool] = None  # whether the pool may have more than 64 numbers, as far as it is known
        self.sent = -math.inf  # when the last lines that were answered were sent, by `time.monotonic`
        self._addresses, self._timeout, self._at = addresses, timeout, 0
        self._stream: Optional[socket.socket] = None

    @property
    def count(self) -> int:
        """How many front ends there are."""
        return len(self._addresses)

    def stream(self) -> Optional[socket.socket]:
        """The connection, to be waited on."""
        return self._stream

    def has_ended(self) -> bool:
        """Whether there is none, or it has ended, or something came unasked. Nobody may be in `exchange`."""
        try:
            return self._stream is None or self._listened(self._stream) is None
        except OSError:
            return True

    def is_open(self, serial: int) -> bool:
        """Whether this is the connection's serial, and it is not known to have ended."""
        return self._stream is not None and self.serial == serial

    def close(self) -> None:
        """Closes the connection, if there is one."""
        stream, self._stream = self._stream, None
        if stream is not None:
            stream.close()

    def exchange(self, *lines: str, limit: float = math.inf, wait: float = 0.0) -> List[str]:
        """Sends lines at once, and returns the reply to each. A fault closes the connection; the next one is to the next address.

        A new connection is asked for its terms before. The replies may come so many seconds later as the lines wait."""
        limit = min(limit, self._timeout)
        end = time.monotonic() + limit + wait
        with self._closing():
            serial = self.serial
            stream = self._silent_stream(limit)
            asked = lines if serial == self.serial else ("terms", *lines)
            stream.settimeout(limit)
            sent = time.monotonic()
            stream.sendall("".join(line + "\n" for line in asked).encode("ascii"))
            replies = _read_replies(stream, len(asked), end, self._stopped if wait else None)
            for line, reply in zip(asked, replies):
                if self.owner.has_secret and reply.startswith("bad ") and self.said in line:
                    raise BeglushanError("the front end takes no secrets: it was started without --owners")
                if not _fits(line, reply, self.identity):
                    raise OSError(f"{reply[:80]!r} is no reply to {line!r}")
            self.sent = sent
            if serial == self.serial:
                return replies
            self.terms = _as_terms(replies[0])
            return replies[1:]

    @contextlib.contextmanager
    def _closing(self) -> Iterator[None]:
        """Closes the connection after a fault; the next one is to the next address."""
        host, port = self._addresses[self._at]
        try:
            yield
        except (OSError, UnicodeError) as fault:
            self.close()
            self._at = (self._at + 1) % len(self._addresses)
            raise _Fault(f"{host}:{port}: {fault}") from fault
        except BaseException:
            self.close()
            raise

    def persist(self, attempt: Callable[[], Result], patience: float) -> Result:
        """Makes an attempt, and again after a fault, until it ends or the patience does. Each front end has its turn at least once.

        An attempt may find done what an earlier one has asked for."""
        count, faults = len(self._addresses), 0
        end = time.monotonic() + patience
        while True:
            try:
                return attempt()
            except _Fault as fault:
                error: BeglushanError = Unreachable(str(fault), self.owner.given)
                error.__cause__ = fault
            except Refused as refusal:
                if refusal.number != _NO_MEMORY:
                    raise
                error = refusal
            faults += 1
            left = end - time.monotonic()
            if faults >= count and left <= 0:
                raise error
            if faults % count == 0:
                time.sleep(min(_pause(faults // count), max(left, 0.0)))

    def held(self) -> Optional[_Held]:
        """The number that the identity holds, if any."""
        return _as_held(self.exchange(f"held {self.said}")[0])

    def give_back(self) -> None:
        """Gives back what the identity holds, or would get, by one try that may fail."""
        tried = [f"seek {self.said}"] if self.is_wide else [f"probe {self.said}"] * sum(_PROBES)
        try:
            self.exchange(*tried, f"leave {self.said}")
        except _Fault:
            pass

    def _silent_stream(self, limit: float) -> socket.socket:
        """The connection, which is made where there is none; a fault where it has ended, or says what was not asked."""
        if self._stream is None:
            self._stream = socket.create_connection(self._addresses[self._at], limit)
            self._stream.setsockopt(socket.IPPROTO_TCP, socket.TCP_NODELAY, 1)
            self._stream.setsockopt(socket.SOL_SOCKET, socket.SO_KEEPALIVE, 1)
            if self._pool is not None:
                self._choose(self._stream, self._pool, limit)
            self.serial += 1
        return self._listened(self._stream)

    @staticmethod
    def _choose(stream: socket.socket, pool: str, limit: float) -> None:
        """Chooses one of several pools, by the first line."""
        stream.settimeout(limit)
        stream.sendall(f"pool {pool}\n".encode("ascii"))
        if _read_replies(stream, 1, time.monotonic() + limit, None) != ["ok"]:
            raise NoPool(f"there is no pool {pool}")

    @staticmethod
    def _listened(stream: socket.socket) -> socket.socket:
        """A connection that says nothing; a fault where it has ended, or says what was not asked."""
        stream.setblocking(False)
        try:
            said = stream.recv(1)
        except BlockingIOError:
            return stream
        raise OSError("it says what was not asked" if said else "it closed the connection")


class _Watch(_Connection):
    """A connection that is told what changes of who holds numbers, and who holds them as far as it was told."""

    def __init__(self, addresses: Sequence[Tuple[str, int]], timeout: float, pool: Optional[str], stopped: threading.Event) -> None:
        super().__init__(addresses, timeout, _as_owner(0, None), pool, stopped)
        self._holders: Dict[int, int] = {}
        self._point: Optional[str] = None  # the changes before it were told, on this connection

    def close(self) -> None:
        super().close()
        self._point = None

    def look(self) -> List[Change]:
        """An attempt to be told changes, which waits for one as long as it takes. Where some were not told, it asks who holds numbers."""
        if self._point is None:
            return self._look_at_all()
        try:
            *lines, last = self._ask(f"watch {self._point}", math.inf)
        except _Fault:
            return []  # the next attempt begins anew, and has its own patience
        word, _, self._point = last.partition(" ")
        if word == "lost":
            return self._look_at_all()
        return self._note(Change(int(number), int(identity) if what == "got" else None) for what, number, identity in map(str.split, lines))

    def _look_at_all(self) -> List[Change]:
        """Asks who holds numbers, page by page. What changes meanwhile is told behind the point that was asked for before."""
        word, _, point = self._ask("watch", self._timeout)[-1].partition(" ")
        if word != "point":
            raise BeglushanError("the front end tells no changes")
        holders: Dict[int, int] = {}
        line = "held"
        while line:
            *lines, last = self._ask(line, self._timeout)
            holders.update((int(number), int(identity)) for number, identity, _ in map(str.split, lines))
            word, _, first = last.partition(" ")
            line = f"held from {first}" if word == "more" else ""
        self._point = point
        return self._note([Change(number, holders.get(number)) for number in sorted({*holders, *self._holders})])

    def _note(self, changes: Iterable[Change]) -> List[Change]:
        """Those of the changes that are news."""
        news = []
        for change in changes:
            if change.holder == self._holders.get(change.number):
                continue
            if change.holder is None:
                del self._holders[change.number]
            else:
                self._holders[change.number] = change.holder
            news.append(change)
        return news

    def _ask(self, line: str, limit: float) -> List[str]:
        """Sends a line, and returns the lines of the reply to it."""
        with self._closing():
            stream = self._silent_stream(self._timeout)
            stream.settimeout(self._timeout)
            stream.sendall(f"{line}\n".encode("ascii"))
            return _read_until(stream, _ends_page, 1, time.monotonic() + limit, self._stopped)


def _ends_page(text: bytes) -> bool:
    """Whether a reply of several lines is read whole."""
    return bool(_PAGE_END.search(text))


def _read_replies(stream: socket.socket, count: int, end: float, stopped: Optional[threading.Event]) -> List[str]:
    """So many lines until that time, with nothing behind them, unless the call is stopped before."""
    replies = _read_until(stream, lambda text: text.count(b"\n") >= count, count, end, stopped)
    if len(replies) != count:
        raise OSError("it says more than was asked")
    return replies


def _read_until(stream: socket.socket, is_whole: Callable[[bytes], bool], count: int, end: float, stopped: Optional[threading.Event]) -> List[str]:
    """The lines of so many replies until that time, with nothing behind them, unless the call is stopped before."""
    text = b""
    while not is_whole(text):
        left = end - time.monotonic()
        if left <= 0:
            raise OSError("it does not answer in time")
        if stopped is not None and stopped.is_set():
            raise BeglushanError("the call was cancelled")
        stream.settimeout(min(left, _LOOK))
        try:
            piece = stream.recv(1 << 16)
        except socket.timeout:
            continue
        text += piece
        if not piece or len(text) > count * _LONGEST:
            raise OSError("it says too much" if piece else "it closed the connection")
    *replies, rest = text.decode("latin-1").split("\n")
    if rest:
        raise OSError("it says more than was asked")
    return replies


def _fits(line: str, reply: str, identity: int) -> bool:
    """Whether this may be the reply to this line, which is of this identity."""
    word = line.partition(" ")[0]
    return bool(_REPLIES[word].fullmatch(reply)) and (word != "held" or reply == "none" or reply.split(" ")[1] == str(identity))


def _pause(rounds: int) -> float:
    """How long to wait after so many rounds of faults. Clients of one server do not come back all at once."""
    return min(0.025 * (1 << min(rounds, 6)), 1.0) * random.uniform(0.75, 1.0)


def _as_terms(reply: str) -> Terms:
    word, _, rest = reply.partition(" ")
    if word != "terms":
        return _ASSUMED
    hold, grace, idle = rest.split(" ")
    return Terms(hold == "forever", int(grace), int(idle))


def _as_held(reply: str) -> Optional[_Held]:
    return None if reply == "none" else _Held(int(reply.split(" ")[0]), int(reply.split(" ")[2]))


def _raise_refusal(reply: str, *but: int) -> None:
    """Raises what a reply refuses, unless that is one of these."""
    word, _, number = reply.partition(" ")
    if word == "refused" and int(number) not in but:
        raise Refused(int(number))


def _as_addresses(addresses: Union[str, Iterable[str]]) -> List[Tuple[str, int]]:
    """Hosts and ports."""
    pairs = []
    for text in addresses.split(",") if isinstance(addresses, str) else addresses:
        host, _, port = text.strip().rpartition(":")
        if not host or not re.fullmatch("[0-9]{1,5}", port) or not 0 < int(port) < 65536:
            raise ValueError(f"{text!r} is no host:port")
        pairs.append((host[1:-1] if host.startswith("[") and host.endswith("]") else host, int(port)))
    if not pairs:
        raise ValueError("no address of a front end")
    return pairs


def _drawn_identity() -> int:
    """One below 2^63, since a server with `--owners` gives the others to secrets."""
    return secrets.randbelow(2**63 - 1) + 1


class _Owner(NamedTuple):
    """Who asks: its identity, the one by which the server knows it, and what lines say for it."""

    given: int
    identity: int
    said: str
    has_secret: bool


def _as_owner(identity: int, secret: Optional[str]) -> _Owner:
    """A server with `--owners` knows an identity with a secret by the SHA-256 of both."""
    if secret is None:
        return _Owner(identity, identity, str(identity), False)
    said = f"{identity} {secret}"
    digest = hashlib.sha256(said.encode("ascii")).digest()
    return _Owner(identity, int.from_bytes(digest[:8], "big") | 1 << 63, said, True)


class Number:
    """A number that is held, as `Hall.acquire` returns it. A `with` block gives it back at its end. Threads may share it.

    A thread of its own keeps it: it says something in time, watches the connection, and comes back where that has ended.
    After an exception in the block a failure to give back is not raised, so that the exception is."""

    def __init__(self, connection: _Connection, is_drawn: bool, wait: float, patience: float, heartbeat: float,
                 on_lost: Optional[Callable[["Number"], None]], at_end: Callable[[], None]) -> None:
        """For `Hall.acquire` alone."""
        self._connection, self._patience, self._heartbeat = connection, patience, heartbeat
        self._on_lost, self._at_end = on_lost, at_end
        self._lock, self._over, self._wakes = threading.Lock(), threading.Event(), _Wakes()
        self._is_left = self._is_leaving = self._is_reported = False
        self._is_drawn = is_drawn
        self._is_own = is_drawn  # whether nobody else can have entered for this identity before
        self._own = _Held(0, 0)
        self._lost: Optional[str] = None
        self._process = os.getpid()
        self._wait_until = time.monotonic() + wait
        self._entered_on = 0  # the serial of the connection on which `enter` was said last
        self._valid_until = -math.inf
        self._thread = threading.Thread(target=self._keep_on, name=f"beglushan {connection.identity}", daemon=True)
        try:
            connection.persist(self._acquire, wait + patience)
            self._thread.start()
        except BaseException as fault:
            if self._is_own and not isinstance(fault, (Unreachable, NumbersExhausted)):
                connection.give_back()
            connection.close()
            self._wakes.close()
            raise

    @property
    def identity(self) -> int:
        """Who holds it: from 1 to 2^64 - 1."""
        return self._connection.identity

    @property
    def value(self) -> int:
        """The number, from 1 to the size of the pool."""
        return self._own.number

    @property
    def token(self) -> int:
        """The fencing token, at least 1: above that of each earlier holder of this number."""
        return self._own.value

    @property
    def terms(self) -> Terms:
        """What the front end says of the ends of stays."""
        return self._connection.terms

    @property
    def valid_until(self) -> float:
        """Until when the number may be used, by `time.monotonic`: the grace time after the last line that was answered was sent.

        `math.inf` where the front end holds numbers for ever, and `-math.inf` once the number is given back, or is known to be lost."""
        return self._valid_until

    @property
    def is_valid(self) -> bool:
        """Whether the number may be used now. It asks nobody."""
        return time.monotonic() < self._valid_until

    def check(self) -> None:
        """Has a front end answer that the number is held. If `check` returns, that was so at a moment of the call.

        On the connection that keeps a number of a drawn identity an empty line is enough, which is no entry of a history. It does not tell that
        somebody else has sent `leave` for the identity: `confirm` does.

        Raises LostNumber if it is not held, Unreachable, and Refused."""
        self._ask(self._renew)

    def confirm(self) -> None:
        """Asks a front end whether the number is held with this token. If `confirm` returns, that was so at a moment of the call.

        Over etcd this is an entry of the log.

        Raises LostNumber if it is not, Unreachable, and Refused."""
        self._ask(self._assure)

    def leave(self) -> None:
        """Gives the number back. Once that is done, or once LostNumber was raised, it does nothing.

        Raises LostNumber, and then gives nothing back; Unreachable, and Refused (13 where the history is full). After these two the number
        may be held, and `leave` may be called again."""
        self._refuse_fork()
        self._over.set()
        self._wakes.wake()
        if threading.current_thread() is not self._thread:  # as `on_lost` is
            self._thread.join()
        with self._lock:
            if not self._is_left and not self._is_reported:
                self._settle(self._leave)
                self._is_left = True
                self._end()

    def __enter__(self) -> "Number":
        return self

    def __exit__(self, kind: object, fault: object, trace: object) -> None:
        try:
            self.leave()
        except BeglushanError:
            if kind is None:
                raise

    def __repr__(self) -> str:
        return f"<Number {self.value} of identity {self.identity} with token {self.token}>"

    def _ask(self, attempt: Callable[[], None]) -> None:
        self._refuse_fork()
        with self._lock:
            if self._is_left:
                raise LostNumber(f"number {self.value} was given back")
            self._settle(attempt)
        self._wakes.wake()

    def _refuse_fork(self) -> None:
        if os.getpid() != self._process:
            raise BeglushanError("a number is not taken into a process that was forked")

    def _search(self, last: str) -> str:
        """Has the identity, which competes and holds no number, hold one: by one line where the pool may have many, and else by more probes."""
        exchange, probe, held = self._connection.exchange, f"probe {self._connection.said}", f"held {self._connection.said}"
        if self._connection.is_wide is None:
            sought, last = exchange(f"seek {self._connection.said}", held)
            self._connection.is_wide = sought != "bad 3"
            _raise_refusal("missed" if sought == "bad 3" else sought)
        for count in _PROBES[1:]:
            if last == "none":
                *probes, last = exchange(*[probe] * count, held)
                if last == "none":
                    _raise_refusal(next((reply for reply in probes if reply != "missed"), "missed"))
        return last

    def _wait_in_line(self) -> str:
        """Waits at the front end for a number, behind those who came before, and returns what `enter` is answered then."""
        left = self._wait_until - time.monotonic()
        if left > 0:
            seconds = min(math.ceil(left), _MOST_WAIT)
            reply = self._connection.exchange(f"take {self._connection.said} {seconds}", wait=seconds)[0]
            if reply.startswith("got "):
                return "ok"
            if reply not in (f"refused {_CROWDED}", "bad 3"):
                return reply
        raise NumbersExhausted()

    def _acquire(self) -> None:
        """An attempt to get a number and its token. It goes on where an earlier one has ended."""
        exchange, held = self._connection.exchange, f"held {self._connection.said}"
        tried = [f"seek {self._connection.said}"] if self._connection.is_wide else [f"probe {self._connection.said}"] * _PROBES[0]
        entered, *probes, last = exchange(f"enter {self._connection.said}", *tried, held)
        if entered == f"refused {_CROWDED}":
            entered = self._wait_in_line()
            last = exchange(held)[0]
        _raise_refusal(entered, _ALREADY_COMPETING)
        self._is_own = self._is_own or entered == "ok"
        if last == "none":
            _raise_refusal(next((reply for reply in probes if reply != "missed"), "missed"))
            last = self._search(last)
        now = _as_held(last)
        if now is None:
            raise _Fault(f"no number after {sum(_PROBES)} probes")
        # A `put` of an earlier attempt may have been taken, or may be taken yet. The same token makes it harmless.
        if entered == "ok" or now.number != self.value or now.value not in (self.token - 1, self.token):
            self._own = _Held(now.number, now.value + 1)
        if self.token >= 2**64:
            raise BeglushanError(f"the slot of number {self.value} has the greatest value, and no token is above that")
        put = exchange(f"put {self._connection.said} {self.token}")[0]
        _raise_refusal(put)
        if put != "ok":  # a server with --tokens, which gives them itself
            self._own = _Held(now.number, int(put.partition(" ")[2]))
        self._note_answer()

    def _note_answer(self) -> None:
        """The connection on which `enter` was said last, which is this one, has answered."""
        self._entered_on = self._connection.serial
        terms = self._connection.terms
        self._valid_until = math.inf if terms.holds_forever else self._connection.sent + terms.grace

    def _assure(self, limit: float = math.inf) -> None:
        """An attempt to find that the number is held. On a new connection it says `enter` too."""
        self._compare(_as_held(self._connection.exchange(f"held {self._connection.said}", limit=limit)[0]))
        if not self._connection.is_open(self._entered_on):
            reply = self._connection.exchange(f"enter {self._connection.said}", limit=limit)[0]
            if reply == "ok":
                self._connection.give_back()
            if reply in ("ok", f"refused {_CROWDED}"):
                raise self._lose("the identity has left")
            _raise_refusal(reply, _ALREADY_COMPETING)
        self._note_answer()

    def _leave(self) -> None:
        """An attempt to give the number back, unless an earlier one has done that."""
        held = self._connection.held()
        if held is None and self._is_leaving:
            return
        self._compare(held)
        is_again, self._is_leaving = self._is_leaving, True
        reply = self._connection.exchange(f"leave {self._connection.said}")[0]
        _raise_refusal(reply, _NOT_COMPETING)
        if reply != f"left {self.value}" and not (is_again and reply == f"refused {_NOT_COMPETING}"):
            raise self._lose(f"`leave` was answered `{reply}`")

    def _is_kept(self) -> bool:
        """Whether the connection that keeps the stay goes on."""
        return self._connection.is_open(self._entered_on) and not self._connection.has_ended()

    def _renew(self) -> None:
        """An attempt to find that the number is held, by its connection alone where that keeps it and nobody else knows the identity."""
        if self._is_drawn and not self._connection.terms.holds_forever and self._is_kept():
            self._connection.exchange("")
            self._note_answer()
        else:
            self._assure()

    def _keep(self) -> None:
        """An attempt to keep the connection, or to have another, that leaves time for one at each other front end."""
        limit = max(0.1, self._connection.terms.least / 3 / self._connection.count)
        if self._is_kept():
            self._connection.exchange("", limit=limit)
            self._note_answer()
        else:
            self._assure(limit)

    def _compare(self, held: Optional[_Held]) -> None:
        if held is None:
            raise self._lose("the identity holds none")
        if held != self._own:
            raise self._lose(f"the identity holds {held.number}, with token {held.value}")

    def _lose(self, why: str) -> LostNumber:
        self._lost = f"number {self.value} with token {self.token} is lost: {why}"
        self._end()
        return LostNumber(self._lost)

    def _end(self) -> None:
        self._valid_until = -math.inf
        self._over.set()
        self._wakes.wake()
        self._connection.close()
        self._at_end()

    def _settle(self, attempt: Callable[[], None]) -> None:
        """Makes an attempt, unless the number is lost. Raises LostNumber where it is, now or before."""
        try:
            if self._lost is None:
                self._connection.persist(attempt, self._patience)
        except LostNumber:
            pass
        if self._lost is not None:
            self._is_reported = True
            raise LostNumber(self._lost)

    def _keep_on(self) -> None:
        """What the thread does: it keeps the number while that is held, and calls `on_lost` each time that it comes to be valid no more."""
        faults, was_valid, is_over = 0, True, False
        while not is_over:
            is_over = self._over.is_set()
            if not is_over:
                self._wait(faults)
                faults = self._go_on(faults)
            is_valid = self.is_valid
            if was_valid and not is_valid and (self._lost is not None or not self._over.is_set()):
                self._call_on_lost()
            was_valid = is_valid
        self._wakes.close()

    def _beat(self) -> float:
        """The longest time in which nothing is said."""
        return min(self._heartbeat, self._connection.terms.least / 3)

    def _wait(self, faults: int) -> None:
        """Waits until something is to be said, or the number is valid no more, or the connection has ended, or another thread wakes this one."""
        now = time.monotonic()
        until = now + _pause(faults) if faults else self._connection.sent + self._beat()
        self._wakes.wait(min(until, self._valid_until if self.is_valid else math.inf) - now, None if faults else self._connection.stream())

    def _go_on(self, faults: int) -> int:
        """Says something where it is due. Returns how many attempts have failed since the last that did not."""
        left = self._valid_until - time.monotonic()
        if not self._lock.acquire(timeout=min(left, 1.0) if left > 0 else 1.0):
            return faults  # another thread asks
        try:
            is_due = faults > 0 or self._connection.sent + self._beat() <= time.monotonic() or self._connection.has_ended()
            if is_due and not self._over.is_set():
                self._connection.persist(self._keep, 0.0)
            return 0
        except BeglushanError:
            return faults + 1  # a number that is lost is over
        finally:
            self._lock.release()

    def _call_on_lost(self) -> None:
        if self._on_lost is not None:
            try:
                self._on_lost(self)
            except Exception:
                traceback.print_exc()


class _Wakes:
    """What a thread waits on beside a connection, so that others can wake it."""

    def __init__(self) -> None:
        self._read, self._written = socket.socketpair()
        self._read.setblocking(False)
        self._written.setblocking(False)

    def wake(self) -> None:
        """Ends a wait, or the next one."""
        try:
            self._written.send(b"w")
        except OSError:
            pass  # it is awake, or over

    def wait(self, seconds: float, stream: Optional[socket.socket]) -> None:
        """Waits for so long at most, or until it is woken, or the connection has something to read or has ended."""
        with selectors.DefaultSelector() as selector:
            selector.register(self._read, selectors.EVENT_READ)
            try:
                if stream is not None:
                    selector.register(stream, selectors.EVENT_READ)
            except (OSError, ValueError):
                return  # it was closed
            selector.select(min(max(0.0, seconds), 3600.0))
        try:
            while self._read.recv(1 << 10):
                pass
        except OSError:
            pass

    def close(self) -> None:
        """No thread waits any more."""
        self._read.close()
        self._written.close()


class Hall:
    """A hall that front ends serve: a pool of numbers, and names. It has no connection of its own. Threads may share it."""

    def __init__(
        self,
        addresses: Union[str, Iterable[str]],
        *,
        identity: Optional[int] = None,
        secret: Optional[str] = None,
        pool: Optional[str] = None,
        timeout: float = 5.0,
        heartbeat: float = 60.0,
        patience: float = 20.0,
        on_lost: Optional[Callable[[Number], None]] = None,
    ) -> None:
        """Takes note of the front ends, and connects to none.

        `addresses` are `host:port` texts, or one text with commas between them, tried in turn; an IPv6 address stands in brackets.
        `identity` holds the number and has the name, from 1 to 2^64 - 1. With it the hall holds one number at a time. Without it an identity
        is drawn for each number, and one for the name. `secret` has 22 to 64 letters, digits, '-' and '_', as `secrets.token_urlsafe()` draws them: at
        a server with `--owners` nobody without it speaks for the identity, which is below 2^63 then. `pool` names one of the pools of a server that has
        several (`--pools`).
        All else is in seconds. `timeout` is the longest that a front end may take to connect or to answer. A held number's connection says
        something each `heartbeat`, or each third of the least of the server's `--grace` and `--idle`, if that is shorter. A call tries the front
        ends for `patience`.
        `on_lost` is called with a number, in the number's thread, once its `valid_until` has passed, or once it is known to be lost. In the first
        case the thread goes on, and the number may come to be valid again: `check` tells.

        Raises ValueError for a text that is no address, an identity out of range, a secret or a name of a pool that is none, and seconds that are not
        positive."""
        if identity is not None and not 0 < identity < (2**64 if secret is None else 2**63):
            raise ValueError("an identity is from 1 to 2^64 - 1, and with a secret to 2^63 - 1")
        if secret is not None and not re.fullmatch("[A-Za-z0-9_-]{22,64}", secret):
            raise ValueError("a secret has 22 to 64 letters, digits, '-' and '_'")
        if pool is not None and not re.fullmatch(r"(?!\.)[A-Za-z0-9_.-]{1,64}", pool):
            raise ValueError("a pool's name has 1 to 64 letters, digits, '-', '_' and '.', and does not begin with '.'")
        if min(timeout, heartbeat, patience) <= 0:
            raise ValueError("seconds are positive")
        self.identity = _drawn_identity() if identity is None else identity
        self._is_drawn = identity is None
        self._addresses, self._pool, self._secret = _as_addresses(addresses), pool, secret
        self._timeout, self._heartbeat, self._patience, self._on_lost = timeout, heartbeat, patience, on_lost
        self._busy = threading.Lock()

    def acquire(self, wait: float = 0.0) -> Number:
        """Gets a number and its token. A given identity that still holds a number, as after a crash, gets that one with a new token.

        While all numbers are held it waits for so many seconds, which are rounded up to whole ones. The server gives a number that is free to
        who has waited longest. Each number has a connection of its own, and a thread for the heartbeat.

        Raises NumbersExhausted; NoPool; Refused (13 where the history is full, 9 where this hall's given identity holds its number); Unreachable;
        BeglushanError where the slot has the greatest value."""
        return self._acquire_within(wait, threading.Event())

    def _acquire_within(self, wait: float, stopped: threading.Event) -> Number:
        """The same, until it is stopped. A front end that knows no waiting, or was overtaken by another, is asked again."""
        end, rounds = time.monotonic() + wait, 0
        while True:
            left = max(end - time.monotonic(), 0.0)
            try:
                return self._acquire_once(left, stopped)
            except NumbersExhausted:
                left = end - time.monotonic()
                if left <= 0 or stopped.is_set():
                    raise
            rounds += 1
            stopped.wait(min(_pause(rounds), left))

    def _acquire_once(self, wait: float, stopped: threading.Event) -> Number:
        if self._is_drawn:
            return self._acquired(_drawn_identity(), wait, stopped, lambda: None)
        if not self._busy.acquire(blocking=False):
            raise Refused(_ALREADY_COMPETING)
        try:
            return self._acquired(self.identity, wait, stopped, self._busy.release)
        except BaseException:
            self._busy.release()
            raise

    def watch(self) -> Iterator[Change]:
        """Yields each change of who holds numbers, at first one for each number that is held. It waits for the next as long as that takes.

        Where the connection or the server has ended, or more has changed meanwhile than the server remembers, it asks who holds numbers, and yields what
        differs: then a number that was taken and given back meanwhile may be left out. What was yielded adds up to who holds numbers.
        It has a connection of its own until the iterator is closed. No entry of a history is made.

        The iterator raises NoPool; Unreachable; BeglushanError where the front end is older, and tells no changes."""
        return self._watched(threading.Event())

    def _watched(self, stopped: threading.Event) -> Generator[Change, None, None]:
        """The same, until it is stopped."""
        watch = _Watch(self._addresses, self._timeout, self._pool, stopped)
        try:
            while True:
                yield from watch.persist(watch.look, self._patience)
        finally:
            watch.close()

    def rename(self) -> int:
        """The name of this hall's identity, from 1 to 2m - 1, where m is the most participants. It is for good: each call returns the same.

        Raises Refused (3 where as many have begun as the world takes, 6 where the proposals are used up, 13), NoNames and Unreachable."""
        connection = _Connection(self._addresses, self._timeout, _as_owner(self.identity, self._secret), self._pool)
        try:
            return connection.persist(lambda: self._named(connection), self._patience)
        finally:
            connection.close()

    def _acquired(self, identity: int, wait: float, stopped: threading.Event, at_end: Callable[[], None]) -> Number:
        connection = _Connection(self._addresses, self._timeout, _as_owner(identity, self._secret), self._pool, stopped)
        return Number(connection, self._is_drawn, wait, self._patience, self._heartbeat, self._on_lost, at_end)

    def _named(self, connection: _Connection) -> int:
        """An attempt to be named, which goes on where an earlier one has ended."""
        if connection.exchange("owner 1")[0] == "bad 3":
            raise NoNames("the world gives no names")
        begun = connection.exchange(f"begin {connection.said}")[0]
        if begun == f"refused {_OUT_OF_RANGE}":
            raise NoNames("the front end gives no names")
        _raise_refusal(begun, _ALREADY_BEGUN)
        while True:
            for reply in connection.exchange(*[f"step {connection.said}"] * _STEPS):
                if reply.startswith("named "):
                    return int(reply.split(" ")[1])
                if reply == f"refused {_FINISHED}":
                    return self._owned(connection)
                _raise_refusal(reply)  # after `spent` each step is refused 6

    def _owned(self, connection: _Connection) -> int:
        """The name that was given by a step whose reply was lost, or before."""
        names = range(1, _MOST_NAMES + 1)
        for name, reply in zip(names, connection.exchange(*[f"owner {name}" for name in names])):
            if reply == f"owner {connection.identity}":
                return name
        raise _Fault("the participant has ended, and owns no name")


class AsyncHall:
    """A hall for `asyncio`. A call waits in a thread of its own, so the event loop goes on.

        async with AsyncHall("127.0.0.1:7070").acquire() as number:
            await work(number.value, number.token)

    `on_lost` is called in the event loop that `acquire` was called in."""

    def __init__(self, addresses: Union[str, Iterable[str]], *, on_lost: Optional[Callable[[Number], None]] = None, **options: Any) -> None:
        """Takes what `Hall` takes, and raises what that raises."""
        self._loop: Optional[asyncio.AbstractEventLoop] = None
        self._on_lost = on_lost
        self._hall = Hall(addresses, on_lost=None if on_lost is None else self._call_on_lost, **options)

    @contextlib.asynccontextmanager
    async def acquire(self, wait: float = 0.0) -> AsyncIterator[Number]:
        """Holds a number in an `async with` block, as `Hall.acquire` does, and raises what that raises.

        A task that is cancelled while it waits for the number holds none. After an exception in the block a failure to give back is not
        raised, so that the exception is."""
        self._loop = asyncio.get_running_loop()
        stopped = threading.Event()
        number = await _unless_cancelled(lambda: self._hall._acquire_within(wait, stopped), stopped.set, _give_back)
        try:
            yield number
        except BaseException:
            await asyncio.shield(self._loop.run_in_executor(None, _give_back, number))
            raise
        await asyncio.shield(self._loop.run_in_executor(None, number.leave))

    async def watch(self) -> AsyncIterator[Change]:
        """Yields each change of who holds numbers, as `Hall.watch` does, and raises what that raises."""
        stopped = threading.Event()
        changes = self._hall._watched(stopped)
        try:
            while True:
                yield await _unless_cancelled(lambda: next(changes), stopped.set, lambda _: None)
        finally:
            changes.close()

    async def rename(self) -> int:
        """The name of this hall's identity, as of `Hall.rename`."""
        return await asyncio.get_running_loop().run_in_executor(None, self._hall.rename)

    def _call_on_lost(self, number: Number) -> None:
        if self._loop is not None and self._on_lost is not None:
            try:
                self._loop.call_soon_threadsafe(self._on_lost, number)
            except RuntimeError:
                pass  # the loop has ended, and nobody is there to be told


def _give_back(number: Number) -> None:
    """Gives a number back by one call that may fail."""
    try:
        number.leave()
    except BeglushanError:
        pass


async def _unless_cancelled(call: Callable[[], Result], stop: Callable[[], None], undo: Callable[[Result], None]) -> Result:
    """What a call returns that is made in a thread. Where the task is cancelled meanwhile, the call is stopped, and what it did is undone."""
    loop = asyncio.get_running_loop()
    done = loop.run_in_executor(None, call)
    try:
        return await asyncio.shield(done)
    except asyncio.CancelledError:
        stop()
        try:
            got = await asyncio.shield(done)
        except BaseException:
            pass
        else:
            await asyncio.shield(loop.run_in_executor(None, undo, got))
        raise


# The status where no number could be had, and the command was not run (EX_TEMPFAIL); where its number was lost (EX_SOFTWARE); where there is none.
_NONE_HAD, _WAS_LOST, _NOT_THERE = 75, 70, 127
# The signals that are passed on to a command.
_PASSED_ON = ("SIGTERM", "SIGHUP", "SIGINT", "SIGQUIT", "SIGUSR1", "SIGUSR2")

_USAGE = """Runs a command while it holds a number of a pool, with SLOT_NUMBER and SLOT_TOKEN in its environment.

The number is given back once the command has ended. The command gets SIGTERM when a quarter of the server's grace time is left of the time
for which the number is sure, and SIGKILL when nothing is left or the number is known to be lost. On Linux it is killed with this program."""

_STATUSES = f"""The status is that of the command, or 128 and the number of the signal that ended it; {_NONE_HAD} if no number could be had, and the command
was not run; {_WAS_LOST} if the number was lost and the command was ended for that; {_NOT_THERE} if there is no such command."""


def _dies_with_parent() -> Optional[Callable[[], None]]:
    """What has the system kill a new process once this one has ended; None where there is no such call."""
    if sys.platform != "linux":
        return None
    try:
        import ctypes

        prctl, parent, kill = ctypes.CDLL(None).prctl, os.getpid(), int(signal.SIGKILL)
    except (ImportError, OSError, AttributeError):
        return None

    def begin() -> None:
        prctl(1, kill)  # PR_SET_PDEATHSIG
        if os.getppid() != parent:
            os._exit(_WAS_LOST)

    return begin


class _Command:
    """A command that runs while a number is held. Signals are passed on to it; before it runs they end this program in order."""

    def __init__(self, words: Sequence[str], pause: float) -> None:
        """A command of these words. Each so many seconds it is asked whether somebody else gave the number back; never for 0."""
        self._words, self._pause = words, pause
        self._child: Optional["subprocess.Popen[bytes]"] = None
        self._early: Optional[List[int]] = None  # signals that came while it was being started
        for name in _PASSED_ON:
            if hasattr(signal, name):
                signal.signal(getattr(signal, name), self._pass_on)

    def run(self, number: Number) -> int:
        """Its status. It is ended where the number is lost."""
        environment = {**os.environ, "SLOT_NUMBER": str(number.value), "SLOT_TOKEN": str(number.token)}
        self._early = []
        try:
            self._child = subprocess.Popen(self._words, env=environment, preexec_fn=_dies_with_parent())
        except OSError as fault:
            print(f"beglushan: {self._words[0]}: {fault.strerror}", file=sys.stderr)
            return _NOT_THERE
        for which in self._early:
            self._child.send_signal(which)
        if self._pause > 0:
            threading.Thread(target=_confirm_again_and_again, args=(number, self._pause), daemon=True).start()
        status = _status_of(self._child, number)
        if status is None:
            print(f"beglushan: number {number.value} was lost, and the command was ended", file=sys.stderr)
            return _WAS_LOST
        return status if status >= 0 else 128 - status

    def _pass_on(self, which: int, _: object) -> None:
        if self._child is not None:
            self._child.send_signal(which)
        elif self._early is not None:
            self._early.append(which)
        else:
            sys.exit(128 + which)


def _confirm_again_and_again(number: Number, pause: float) -> None:
    """Sees that somebody else has given a number back: then it is valid no more."""
    try:
        while number.valid_until > -math.inf:
            time.sleep(pause)
            with contextlib.suppress(Unreachable, Refused):
                number.confirm()
    except BeglushanError:
        pass  # it is lost, or was given back


def _status_of(child: "subprocess.Popen[bytes]", number: Number) -> Optional[int]:
    """The status of a command; None where it was ended for the number's sake."""
    margin, is_warned = number.terms.grace / 4, False
    while True:
        left = number.valid_until - time.monotonic()
        if left <= 0:
            child.kill()
            child.wait()
            return None
        if left <= margin and not is_warned:
            is_warned = True
            child.terminate()
        try:
            status = child.wait(max(0.02, min(left - margin, 0.25)))
            return None if is_warned else status
        except subprocess.TimeoutExpired:
            pass


def _asked(words: Optional[Sequence[str]]) -> argparse.Namespace:
    parser = argparse.ArgumentParser(prog="beglushan.py", description=__doc__.splitlines()[0])
    commands = parser.add_subparsers(dest="what", required=True)
    take = commands.add_parser("take", description=_USAGE, epilog=_STATUSES, formatter_class=argparse.RawDescriptionHelpFormatter)
    take.add_argument("--at", required=True, metavar="HOST:PORT[,..]", help="the front ends, tried in turn")
    take.add_argument("--id", type=int, metavar="ID", help="who holds the number, from 1 to 2^64 - 1, or with a secret to 2^63 - 1; drawn if not given")
    take.add_argument("--secret", metavar="FILE", help="a file whose first line is a secret, at front ends with --owners: then nobody else speaks for the identity")
    take.add_argument("--pool", metavar="NAME", help="which pool, of a server that has several")
    take.add_argument("--wait", type=float, default=0.0, metavar="SECONDS", help="how long to wait while all numbers are held (0)")
    take.add_argument("--confirm", type=float, default=60.0, metavar="SECONDS", help="how often to ask whether somebody else gave the number back (60; 0: never)")
    take.add_argument("command", nargs="+", metavar="COMMAND", help="the command and its words, behind --")
    return parser.parse_args(words)


def _secret_in(path: Optional[str]) -> Optional[str]:
    """The first line of a file. Who may read the words of a command does not read the file."""
    if path is None:
        return None
    with open(path, encoding="ascii") as file:
        return file.readline().rstrip("\n")


def main(words: Optional[Sequence[str]] = None) -> int:
    """Runs a command while it holds a number: `take --at ADDRESS [--id ID] [--secret FILE] [--pool NAME] [--wait SECONDS] -- COMMAND ..`. Returns its status."""
    asked = _asked(words)
    try:
        hall = Hall(asked.at, identity=asked.id, secret=_secret_in(asked.secret), pool=asked.pool)
    except (OSError, ValueError) as fault:
        print(f"beglushan: {fault}", file=sys.stderr)
        return 2
    command = _Command(asked.command, asked.confirm)
    try:
        number = hall.acquire(asked.wait)
    except BeglushanError as error:
        print(f"beglushan: {error}", file=sys.stderr)
        return _NONE_HAD
    try:
        status = command.run(number)
    except BaseException:
        _give_back(number)
        raise
    if status != _WAS_LOST:
        _give_back(number)
    return status


if __name__ == "__main__":
    sys.exit(main())
