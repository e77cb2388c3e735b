"""Records events in a service of Timeweave, from programs in Python; the standard library alone, from 3.9 on. Its names are those of `timeweave`:

    import timeweave

    with timeweave.Service("/srv/register", name="register") as service:
        receipt = service.record(b"deed 4711 was sold", key="deed-4711")

It hands over to `weft record --serve`, which has to be installed; that program makes the steps, and keeps what it keeps of any service."""

import asyncio
import base64
import hashlib
import json
import logging
import os
import socket
import struct
import subprocess
import threading
import time
import weakref
from collections import deque
from concurrent.futures import CancelledError, Future
from concurrent.futures import TimeoutError as TooLate
from contextlib import suppress
from pathlib import Path
from typing import Any, Callable, Deque, Dict, Iterable, List, Optional, Sequence, Tuple, Union

from timeweave import Data, Thread

MOST_EVENT, MOST_HANDED = 1_024, 1_024
BUSY, IDLE, MOST_STARTING, PATIENCE = 15, 5, 60.0, 1.0
PENDING, FINISHED = "PENDING", "FINISHED"
"""States of a future, as it names them."""
HEADS = [struct.pack(">I", size) for size in range(MOST_EVENT + 1)]
"""What stands before an event of so many bytes."""
LOGGER = logging.getLogger("concurrent.futures")
NO_REQUEST = "that is no request"
"""What a keeper of an earlier version says of events as they are handed over here."""


class RefusedEvent(Exception):
    """An event wasn't recorded, for the reason told: its key was used for another one, say; or the service makes no step now."""

    def __init__(self, told: str, status: int = 7) -> None:
        super().__init__(told)
        self.status = status
        """How `weft record` would have ended."""


class Unknown(Exception):
    """Whether an event was recorded isn't known: what records it ended before it answered, or failed amid a step. Handed over again with its key it stands once."""


class Receipt:
    """Where an event was recorded: the service, or the part of it, the step, the index there; and the SHA-256 digest of what was handed over."""

    __slots__ = ("service", "step", "index", "_digest", "_data")

    def __init__(self, service: str, step: int, index: int, digest: Optional[bytes], data: bytes = b"") -> None:
        self.service, self.step, self.index, self._digest, self._data = service, step, index, digest, data

    @property
    def digest(self) -> bytes:
        """The digest, which is computed once it is asked for."""
        if self._digest is None:
            self._digest = hashlib.sha256(self._data).digest()
        return self._digest

    def _fields(self) -> Tuple[str, int, int, bytes]:
        return self.service, self.step, self.index, self.digest

    def __eq__(self, other: object) -> bool:
        return isinstance(other, Receipt) and self._fields() == other._fields()

    def __hash__(self) -> int:
        return hash(self._fields())

    def __repr__(self) -> str:
        return f"Receipt(service={self.service!r}, step={self.step}, index={self.index}, digest={self.digest!r})"


class Call(Future):  # type: ignore[type-arg]
    """An event that is under way, and the future of its receipt, which is made once it is asked for. All calls of a service share one condition, and one that waits to be
    handed over is told by where it stands: a condition and a state of its own would cost more than all else. So what a future does with them is done here."""

    size = 1
    digest: Optional[bytes] = None
    told: Any = None
    index = 0
    own_waiters: Optional[List[Any]] = None
    _done_callbacks: Tuple[Callable[..., object], ...] = ()
    _state = PENDING
    _result = _exception = None

    def __init__(self, service: "Service", data: bytes, key: str = "") -> None:
        self.service, self.data, self.key = service, data, key

    @property
    def _condition(self) -> threading.Condition:
        return self.service.answered

    @property
    def _waiters(self) -> List[Any]:
        if self.own_waiters is None:
            self.own_waiters, self.service.has_waiters = [], True
        return self.own_waiters

    def wait(self, timeout: Optional[float]) -> None:
        """Waits until it is answered; raises CancelledError where it is cancelled, and TimeoutError where that takes longer."""
        with self.service.answered:
            if not self.service.answered.wait_for(self.done, timeout):
                raise TooLate()
        if self._state != FINISHED:
            raise CancelledError()

    def result(self, timeout: Optional[float] = None) -> Any:
        """The receipt, once the event is durable; raises RefusedEvent, or Unknown."""
        if self._state != FINISHED:
            self.wait(timeout)
        if self._exception is not None:
            try:
                raise self._exception
            finally:
                del self
        return Receipt(self.told[0], self.told[1], self.index, self.digest, self.data)

    def exception(self, timeout: Optional[float] = None) -> Optional[BaseException]:
        """Why there is no receipt; None where there is one."""
        if self._state != FINISHED:
            self.wait(timeout)
        return self._exception

    def add_done_callback(self, fn: Callable[..., object]) -> None:
        """Calls a function with it once it is answered, or cancelled."""
        with self.service.lock:
            if self._state == PENDING:
                self._done_callbacks += (fn,)
                return
        fn(self)

    def done(self) -> bool:
        """Whether it was answered, or cancelled."""
        return self._state != PENDING

    def running(self) -> bool:
        """Whether it was handed over, and isn't answered."""
        return self._state == PENDING and self not in self.service.waiting

    def cancel(self) -> bool:
        """Takes it back, where it wasn't handed over."""
        with self.service.lock:
            with suppress(ValueError):
                self.service.waiting.remove(self)
                super().cancel()
                self.set_running_or_notify_cancel()
            return self.cancelled()


class LongCall(Call):
    """One of what is longer than an event: its digest is recorded."""

    def __init__(self, service: "Service", data: bytes, key: str = "") -> None:
        self.digest = hashlib.sha256(data).digest()
        super().__init__(service, stands_for(self.digest), key)


class Many(Call):
    """Events without keys that are under way together, and the future of their receipts."""

    def __init__(self, service: "Service", events: Sequence[bytes]) -> None:
        super().__init__(service, b"")
        self.size = len(events)
        self.digests = {place: hashlib.sha256(data).digest() for place, data in enumerate(events) if len(data) > MOST_EVENT}
        self.events = [stands_for(self.digests[place]) if place in self.digests else data for place, data in enumerate(events)] if self.digests else events
        self.places: List[Tuple[str, int, int]] = []

    def result(self, timeout: Optional[float] = None) -> List[Receipt]:
        """The receipts, once all are durable; raises RefusedEvent, or Unknown."""
        super().result(timeout)
        digest_of = self.digests.get
        return [Receipt(*it, digest_of(place), data) for place, (it, data) in enumerate(zip(self.places, self.events))]


class Question(Future):  # type: ignore[type-arg]
    """Another request, and the future of its answer."""

    def __init__(self, request: Any) -> None:
        super().__init__()
        self.request = request


class Service:
    """A service in which this process records events, as many threads and processes at once as there are: what waits goes into one step of up to 1,024
    events, and is answered once the disk has it for good.

        with timeweave.Service("/srv/register", name="register") as service:
            receipt = service.record(b"deed 4711 was sold", key="deed-4711")
            proof = service.prove(receipt)

    It hands over to the one `weft record --serve` that keeps the service, which is started where none is at work, and ends by itself some seconds after
    the last one has left. An event may have any bytes; of more than 1,024 its digest is recorded, as `weft record` does it. A key has 1 to 64 letters of
    ASCII and no blank: what has one isn't recorded twice, and is handed over again where the keeper ended. `weft` is the command that is run."""

    def __init__(self, folder: Union[str, "os.PathLike[str]"], name: Optional[str] = None, weft: str = "weft") -> None:
        """Opens the service in a folder, which is made under this name where none is there. Raises RefusedEvent where weft refuses that."""
        self.folder, self.name, self.weft = folder_named(folder), name, weft
        self.closed_told = "the service was closed"
        self.lock = threading.RLock()
        self.answered = threading.Condition(self.lock)
        self.waiting: Deque[Call] = deque()
        self.has_keys = self.has_others = self.has_waiters = False
        self.questions: Deque[Question] = deque()
        self.woken, self.is_asleep, self.wanted = threading.Event(), False, 1
        self.awaited: Dict[asyncio.AbstractEventLoop, List[Tuple["asyncio.Future[Receipt]", Call]]] = {}
        self.lines: Optional[Any] = None
        self.connection: Optional[socket.socket] = None
        self.is_closed = False
        self.last_count, self.last_seconds = 0, 0.0
        self.connect()
        self.worker = threading.Thread(target=self.work, name="timeweave.Service", daemon=True)
        self.worker.start()
        OPENED.add(self)

    def __enter__(self) -> "Service":
        return self

    def __exit__(self, *_: object) -> None:
        self.close()

    def close(self) -> None:
        """Waits until all that was handed over is answered, and leaves."""
        self.is_closed = True
        self.woken.set()
        self.worker.join()

    def leave_to_parent(self) -> None:
        """In a process that was forked off nobody hands anything over: it says so. (What the parent has stays as it is.)"""
        self.is_closed, self.closed_told = True, "the service was opened by the process from which this one was forked off: open one here"
        if self.connection is not None:
            os.close(self.connection.detach())

    # -- what is asked for

    def submit(self, data: Data, key: str = "") -> "Future[Receipt]":
        """Hands an event over; the future has its receipt once it is durable, or the exception: RefusedEvent, or Unknown."""
        if type(data) is not bytes:
            data = bytes_of(data)
        if key:
            expect_key(key)
            self.has_keys = True
        elif key != "":
            raise TypeError("a key is a str, and none is an empty one")
        if len(data) > MOST_EVENT:
            return self.hand(LongCall(self, data, key))
        call = Call(self, data, key)
        # (as `hand` does it: this is done a million times)
        if self.is_closed:
            raise ValueError(self.closed_told)
        self.waiting.append(call)
        if self.is_asleep and len(self.waiting) >= self.wanted:
            self.woken.set()
        return call

    def record(self, data: Data, key: str = "") -> Receipt:
        """Records an event, and answers where it stands once it is durable."""
        return self.submit(data, key).result()

    def record_many(self, events: Iterable[Data]) -> List[Receipt]:
        """Records events in their order, and answers where each stands once all are durable."""
        return [receipt for it in self.submit_many(events) for receipt in it.result()]

    async def record_async(self, data: Data, key: str = "") -> Receipt:
        """The same as `record`, awaited."""
        loop = asyncio.get_running_loop()
        future = loop.create_future()
        call = self.submit(data, key)
        # (what is answered together is told to a loop together)
        call.add_done_callback(lambda it: self.awaited.setdefault(loop, []).append((future, it)))  # type: ignore[arg-type]
        try:
            found: Receipt = await future
        except asyncio.CancelledError:
            call.cancel()
            raise
        return found

    async def record_many_async(self, events: Iterable[Data]) -> List[Receipt]:
        """The same as `record_many`, awaited."""
        found = await asyncio.gather(*[asyncio.wrap_future(it) for it in self.submit_many(events)])
        return [receipt for them in found for receipt in them]

    def line(self) -> Thread:
        """The line of the last step, to be handed out; it is noted beside the service."""
        found: Thread = self.ask({"line": True}).result()
        return found

    def prove(self, receipt: Receipt) -> bytes:
        """The proof that an event was recorded, under the last line of its part."""
        found: bytes = self.ask({"prove": [receipt.service, receipt.step, receipt.index]}).result()
        return found

    def submit_many(self, events: Iterable[Data]) -> List["Future[List[Receipt]]"]:
        """Hands events over, as many together as go into one step."""
        data = [it if type(it) is bytes else bytes_of(it) for it in events]
        return [self.hand(Many(self, data[at : at + MOST_HANDED])) for at in range(0, len(data), MOST_HANDED)]

    def hand(self, call: Call) -> "Future[Any]":
        """Lets the worker hand over what is no single event that is recorded as it is; answers its future."""
        if self.is_closed:
            raise ValueError(self.closed_told)
        self.has_others = True
        self.waiting.append(call)
        if self.is_asleep and len(self.waiting) >= self.wanted:
            self.woken.set()
        return call

    def ask(self, request: Any) -> "Future[Any]":
        """Lets the worker ask something else."""
        if self.is_closed:
            raise ValueError(self.closed_told)
        question = Question(request)
        self.questions.append(question)
        self.woken.set()
        return question

    # -- what the worker does

    def work(self) -> None:
        """Hands over what waits, together, and tells the answers, until the service is closed."""
        again: List[Call] = []
        while True:
            is_again, calls = bool(again), again or self.next_calls()
            try:
                again = self.hand_over(calls) if calls else []
            except BaseException as failure:  # whatever it is, somebody waits for it
                again = []
                # (a keeper that ended before it answered may have recorded what is handed over again)
                fail(calls, Unknown(f"the keeper ended before it answered, and the next one doesn't answer: {failure}") if is_again else failure)
            self.tell_awaited()
            if not again:
                self.ask_questions()
                if self.is_closed and not self.waiting and not self.questions:
                    self.disconnect()
                    return

    def next_calls(self) -> List[Call]:
        """What waits, once something does, as much of it as is handed over together. (Those who were answered together are about to hand over the next ones, and go
        together again.)"""
        if not self.waiting:
            self.sleep(1, None)
        if len(self.waiting) < self.last_count:
            self.sleep(self.last_count, self.last_seconds / 20)
        # (one whose caller has left isn't among them any more; from now on it is handed over, whoever leaves)
        take = self.waiting.popleft
        with self.lock:
            found = [take() for _ in range(min(len(self.waiting), MOST_HANDED))]
        if self.has_others:
            count = 0
            for place, it in enumerate(found):
                count += it.size
                if count > MOST_HANDED:
                    self.waiting.extendleft(reversed(found[place:]))
                    return found[:place]
        return found

    def sleep(self, wanted: int, seconds: Optional[float]) -> None:
        """Sleeps until so many calls wait, or something else is to be done; so many seconds at most."""
        self.wanted, self.is_asleep = wanted, True
        if len(self.waiting) < wanted and not self.questions and not self.is_closed:
            self.woken.wait(seconds)
        self.is_asleep = False
        self.woken.clear()

    def hand_over(self, calls: List[Call]) -> List[Call]:
        """Hands events over and tells the answers; what has a key is to be handed over again where the keeper ended before it answered."""
        began = time.monotonic()
        is_plain = not self.has_keys and not self.has_others
        answer = self.answer_of(message_of([it.data for it in calls]) if is_plain else message_of(*flattened(calls)))
        self.last_count, self.last_seconds = len(calls), time.monotonic() - began
        if answer is None:
            fail([it for it in calls if not it.key], Unknown("the keeper ended before it answered"))
            return [it for it in calls if it.key]
        if all(type(row) is list for row in answer["recorded"]) and not self.has_others:
            self.settle(calls, answer["recorded"])
        else:
            settle_each(calls, answer["recorded"])
        return []

    def settle(self, calls: List[Call], rows: List[Any]) -> None:
        """Tells where events stand: of each row of them that stand one behind another where it begins."""
        place = 0
        with self.lock:
            for row in rows:
                for index, it in enumerate(calls[place : place + row[3]], row[2]):
                    it.told = row
                    it.index = index
                    it._state = FINISHED
                place += row[3]
            for it in calls if self.has_waiters else ():
                for waiter in it._waiters:
                    waiter.add_result(it)
            self.answered.notify_all()
        for it in calls:
            for callback in it._done_callbacks:
                try:
                    callback(it)
                except Exception:
                    LOGGER.exception("exception calling callback for %r", it)

    def tell_awaited(self) -> None:
        """Tells each loop what is answered to those who await it there."""
        while self.awaited:
            loop, them = self.awaited.popitem()
            with suppress(RuntimeError):  # (it was closed)
                loop.call_soon_threadsafe(tell_in_loop, them)

    def ask_questions(self) -> None:
        """Asks what else is to be asked."""
        while self.questions:
            question = self.questions.popleft()
            try:
                settle_question(question, self.answer_of(json.dumps(question.request).encode() + b"\n"))
            except BaseException as failure:
                question.set_exception(failure)

    def answer_of(self, message: bytes) -> Optional[Dict[str, Any]]:
        """The answer to a request, None where the keeper ended before it answered. Raises RefusedEvent where it is refused whole."""
        if self.connection is None:
            self.connect()
        try:
            assert self.connection is not None and self.lines is not None
            self.connection.sendall(message)
            line = self.lines.readline()
        except OSError:
            line = b""
        if not line.endswith(b"\n"):
            self.disconnect()
            return None
        answer: Dict[str, Any] = json.loads(line)
        if answer.get("trouble") == NO_REQUEST:
            self.disconnect()
            raise RefusedEvent(f"the keeper of {self.folder} is of another version of weft: hand over again once it has ended", BUSY)
        if "trouble" in answer:
            raise RefusedEvent(answer["trouble"], answer["status"])
        return answer

    # -- the keeper

    def connect(self) -> None:
        """Connects to the keeper, which is started where there is none. Raises RefusedEvent where it ends at once."""
        started: Optional["subprocess.Popen[bytes]"] = None
        begun = again = time.monotonic()
        while time.monotonic() < begun + MOST_STARTING:
            if self.reach():
                return
            ended = started.poll() if started is not None else None
            # (one that was killed is started anew, and one that found another keeper makes way for it, which may be about to begin, or to end)
            if started is not None and ended is not None and ended > 0 and ended != BUSY:
                assert started.stderr is not None
                raise RefusedEvent(started.stderr.read().decode("utf-8", "replace").strip(), ended)
            if (started is None or ended is not None) and time.monotonic() >= again:
                started, again = self.start(), time.monotonic() + PATIENCE
            time.sleep(0.02)
        raise RefusedEvent(f"no keeper of {self.folder} answers", BUSY)

    def reach(self) -> bool:
        """Connects to the keeper, where there is one."""
        try:
            folder = os.open(self.folder.parent, os.O_PATH | os.O_DIRECTORY | os.O_CLOEXEC)
        except OSError as failure:
            raise RefusedEvent(f"{self.folder.parent}: {os.strerror(failure.errno or 0)}", 5) from None
        found = socket.socket(socket.AF_UNIX, socket.SOCK_STREAM)
        try:
            found.connect(f"/proc/self/fd/{folder}/{self.folder.name}.socket")
            user = struct.unpack("3i", found.getsockopt(socket.SOL_SOCKET, socket.SO_PEERCRED, struct.calcsize("3i")))[1]
        except OSError:
            found.close()
            return False
        finally:
            os.close(folder)
        if user != os.geteuid():
            found.close()
            raise RefusedEvent(f"another user listens at {self.folder}.socket, and nothing was handed to him", 5)
        self.connection, self.lines = found, found.makefile("rb")
        return True

    def start(self) -> "subprocess.Popen[bytes]":
        """Starts a keeper."""
        named = [] if self.name is None else ["--name", self.name]
        words = [self.weft, "record", str(self.folder), "--serve", "--idle", str(IDLE), *named]
        try:
            return subprocess.Popen(words, stdin=subprocess.DEVNULL, stdout=subprocess.DEVNULL, stderr=subprocess.PIPE, start_new_session=True)
        except OSError as failure:
            raise RefusedEvent(f"{self.weft} can't be started: {os.strerror(failure.errno or 0)}", 14) from None

    def disconnect(self) -> None:
        """Leaves the keeper."""
        if self.connection is not None:
            self.connection.close()
            self.connection = self.lines = None


OPENED: "weakref.WeakSet[Service]" = weakref.WeakSet()


def leave_to_parent() -> None:
    """What a process that was forked off does first: it leaves the services that its parent opened."""
    for it in list(OPENED):
        it.leave_to_parent()


os.register_at_fork(after_in_child=leave_to_parent)


def folder_named(folder: Union[str, "os.PathLike[str]"]) -> Path:
    """The path of a service's folder as weft has it: links, and what has `..`, lead to the folder's own name, beside which it listens."""
    plain = Path(os.path.abspath(folder))
    is_plain = ".." not in Path(folder).parts and not plain.is_symlink()
    return plain if is_plain else Path(os.path.realpath(folder))


def bytes_of(data: Data) -> bytes:
    """The bytes of an event; raises TypeError of what has none, as a number, of which `bytes` makes so many zeros."""
    if not isinstance(data, (bytes, bytearray, memoryview)):
        raise TypeError(f"an event is bytes, bytearray or memoryview, and no {type(data).__name__}")
    return bytes(data)


def expect_key(key: str) -> None:
    """Raises ValueError of a key that is none, and TypeError of what is no str."""
    if not isinstance(key, str):
        raise TypeError("a key is a str, and none is an empty one")
    if not (len(key) <= 64 and all("!" <= letter <= "~" for letter in key)):
        raise ValueError("a key has 1 to 64 letters of ASCII, and no blank")


def stands_for(digest: bytes) -> bytes:
    """What is recorded of what is longer than an event."""
    return digest.hex().encode() + b"  -"


def message_of(events: List[bytes], keys: Sequence[str] = (), places: bytes = b"") -> bytes:
    """Events as they are handed over: how many there are, and how many bytes their keys have, the places of those that stand for what is longer, and the events, each
    behind its length; then these."""
    of_keys = "\n".join(keys).encode() if any(keys) else b""
    body = framed(events)
    return b"".join((b"events %d %d %d %d\n" % (len(events), len(of_keys), len(places), len(body)), of_keys, places, body))


def flattened(calls: List[Call]) -> Tuple[List[bytes], List[str], bytes]:
    """The events of calls, of which some may have keys, have many, or be of what is longer than an event: events, keys, and the places of the latter, packed."""
    events: List[bytes] = []
    keys: List[str] = []
    places: List[int] = []
    for it in calls:
        at = len(events)
        if isinstance(it, Many):
            places += [at + place for place in it.digests]
            events += it.events
            keys += [""] * it.size
            continue
        if it.digest is not None:
            places.append(at)
        events.append(it.data)
        keys.append(it.key)
    return events, keys, struct.pack(f">{len(places)}I", *places)


def framed(events: List[bytes]) -> bytes:
    """Each event behind its length in four bytes."""
    sizes = set(map(len, events))
    if len(sizes) == 1:
        head = HEADS[sizes.pop()]
        return head + head.join(events)
    return b"".join([part for event in events for part in (HEADS[len(event)], event)])


def fail(calls: List[Call], failure: BaseException) -> None:
    """Tells those who wait that it failed."""
    for it in calls:
        if not it.done():
            it.set_exception(failure)


def settle_each(calls: List[Call], rows: List[Any]) -> None:
    """Tells what became of each event, where some were refused, or some calls have many."""
    told: List[Any] = []
    for row in rows:
        told += [(row[0], row[1], row[2] + further) for further in range(row[3])] if isinstance(row, list) else [failure_of(row)]
    at = 0
    for it in calls:
        own = told[at : at + it.size]
        at += it.size
        failed = next((one for one in own if isinstance(one, Exception)), None)
        if failed is not None:
            it.set_exception(failed)
        elif isinstance(it, Many):
            it.places, it.told = own, own[0]
            it.set_result(None)
        else:
            it.told, it.index = own[0], own[0][2]
            it.set_result(None)


def failure_of(row: Dict[str, str]) -> Exception:
    """Why an event wasn't recorded, or isn't known to be."""
    return Unknown(row["unknown"]) if "unknown" in row else RefusedEvent(row["refused"])


def tell_in_loop(them: List[Tuple["asyncio.Future[Receipt]", Call]]) -> None:
    """Tells answers to those who await them in this loop."""
    for future, call in them:
        if not future.done() and not call.cancelled():
            failure = call.exception()
            if failure is not None:
                future.set_exception(failure)
            else:
                future.set_result(call.result())


def settle_question(question: Question, told: Optional[Dict[str, Any]]) -> None:
    """Tells the answer to another request."""
    if told is None:
        question.set_exception(Unknown("the keeper ended before it answered"))
    elif "line" in told:
        service, step, authenticator = told["line"]
        question.set_result(Thread(service, step, bytes.fromhex(authenticator)))
    else:
        question.set_result(base64.b64decode(told["proof"]))
