"""One keeper of a service, to which all who record in it hand over: what waits goes into one step, and the answer comes once that is durable.

It listens at SERVICE.socket, which its user alone may open. A request is a line, and so is its answer, in JSON:

    events COUNT KEYS PLACES BODY     {"recorded": [[SERVICE, STEP, INDEX, COUNT], {"refused": WHY} or {"unknown": WHY, "status": STATUS}, ..]}
                                      (COUNT events, one behind another, stand in one step from INDEX on. Behind the line of the request stand so many bytes: the
                                      keys, a line each without the last end, nothing where there are none; the places of what stands for the digest of something
                                      longer, in four bytes each; and the events, each behind its length in four bytes)
    {"line": true}                    {"line": [SERVICE, STEP, AUTHENTICATOR]}, which is noted as one that is handed out
    {"name": true}                    {"name": SERVICE}, the name of the first part
    {"prove": [SERVICE, STEP, INDEX]} {"proof": BASE64}, under the last line

or {"status": STATUS, "trouble": SENTENCE}, of which nothing was recorded that the answer would tell. A keeper that is killed answers nothing: whoever gave keys
hands over again, and what was recorded is told from where it stands."""

from __future__ import annotations

import base64
import fcntl
import functools
import json
import os
import selectors
import socket
import struct
import time
from collections import deque
from contextlib import contextmanager, suppress
from pathlib import Path
from typing import Callable, Iterator, NamedTuple, Optional, Sequence, Union

from weft import files, locks
from weft.deciding.batching import BY_DIGEST, Handed, frame, handed_by_digest, handed_over, is_by_digest, is_framed, is_key, may_go_as_framed, patience_for, runs_of, split_framed
from weft.formats import MOST_EVENTS, MOST_STEP
from weft.judges import Bench
from weft.lines import Line
from weft.output import complain
from weft.recording import Receipt, Recorder, Told, record_all
from weft.statuses import Status
from weft.stores import Store
from weft.texts import beside, name_of
from weft.trouble import Trouble

# A request has no more bytes, and so many are taken of one who is connected at once.
MOST_REQUEST, PIECE = 1 << 21, 1 << 16
# Who takes none of his answers for so many seconds is left.
MOST_UNREAD = 2.0
# A keeper lets other runs at the service after so many seconds, for so long: they look for the lock every 0.05 seconds.
TURN, PAUSE = 10.0, 0.12
QUIET = 0.05
MOST_WAITING = 4_096
# The path of a socket has 107 bytes at most, and in front of its name stands that of the open folder.
MOST_NAME = 107 - len("/proc/self/fd/9999/")

Answer = dict[str, object]


class Asked:
    """A request, and where its answer goes: one, whatever ends the work on it."""

    def __init__(self, value: Union[dict[str, object], Framed], to: Client):
        self.to, self.is_answered = to, False
        self.value = value if isinstance(value, dict) else {}
        self.waiting = Waiting(self, value) if isinstance(value, Framed) else None

    @property
    def size(self) -> int:
        """How many events it has."""
        return self.waiting.count if self.waiting is not None else 0

    def answer(self, value: Answer) -> None:
        """Answers it, where that wasn't done."""
        self.answer_bytes(json.dumps(value).encode() + b"\n")

    def answer_bytes(self, line: bytes) -> None:
        """The same by the line of the answer."""
        if not self.is_answered:
            self.is_answered = True
            self.to.send(line)

    def fail(self, trouble: Trouble, is_begun: bool = True) -> None:
        """A trouble ended the work: of its events those that were recorded are told, and of the others that it isn't known. Before work was begun, none was recorded."""
        if self.waiting is not None and is_begun:
            self.waiting.fail(trouble)
        self.answer({"status": int(trouble.status), "trouble": trouble.describe()})


class Framed(NamedTuple):
    """Events as they are handed over: how many, their keys, where there are some, the places of those that stand for a digest, and the events behind their lengths."""

    number: int
    keys: bytes
    places: bytes
    body: bytes

    @property
    def is_right(self) -> bool:
        """Whether the lengths add up, the keys are some, and what stands for a digest does."""
        if self.number > MOST_EVENTS or not is_framed(self.number, self.body):
            return False
        if not self.keys and not self.places:
            return True
        keys, events = self.split_keys(), split_framed(self.body)
        are_right = len(keys) == self.number and all(not key or is_key(key) for key in keys)
        return are_right and all(place < self.number and BY_DIGEST.fullmatch(events[place]) for place in self.split_places())

    def split_keys(self) -> list[bytes]:
        """The keys of all events, empty where one has none."""
        return self.keys.split(b"\n") if self.keys else [b""] * self.number

    def split_places(self) -> list[int]:
        """The places of what stands for a digest."""
        return [it[0] for it in struct.iter_unpack(">I", self.places)]

    @property
    def is_plain(self) -> bool:
        """Whether they go into a step as they are: they have no keys, each is recorded as it is, and one step takes them."""
        return not self.keys and not self.places and len(self.body) - 4 * self.number <= MOST_STEP and may_go_as_framed(self.body)

    def handed(self) -> list[Handed]:
        """Each for itself."""
        by_digest = set(self.split_places())
        found = enumerate(zip(split_framed(self.body), self.split_keys()))
        return [handed_by_digest(event[:64], key) if place in by_digest else handed_over(event, key) for place, (event, key) in found]


class Pace(NamedTuple):
    """How many events were under way last time, those that went on together and those that waited behind them; and how many seconds that took."""

    count: int  # type: ignore[assignment]
    seconds: float


class Client:
    """Somebody who is connected."""

    def __init__(self, connection: socket.socket):
        self.connection, self.came = connection, b""
        connection.settimeout(MOST_UNREAD)

    def asks(self) -> Optional[list[Asked]]:
        """The requests that came; None where the connection has ended, or what came is no request."""
        try:
            piece = self.connection.recv(PIECE)
        except OSError:
            return None
        self.came += piece
        found: list[Asked] = []
        while self.came:
            try:
                request, self.came = read_request(self.came)
            except (ValueError, RecursionError):
                self.send(json.dumps({"status": int(Status.USAGE), "trouble": "that is no request"}).encode() + b"\n")
                return None
            if request is None:
                break
            found.append(Asked(request, self))
        return found if piece else None

    def send(self, line: bytes) -> None:
        """Sends the line of an answer; one who has left, or doesn't listen, hears nothing more."""
        try:
            self.connection.sendall(line)
        except OSError:
            with suppress(OSError):
                self.connection.shutdown(socket.SHUT_RDWR)


def read_request(came: bytes) -> tuple[Union[dict[str, object], Framed, None], bytes]:
    """The first request of what came, None where it isn't whole, and what stands behind it; raises ValueError where it is none."""
    end = came.find(b"\n") + 1
    if not end:
        if len(came) > MOST_REQUEST:
            raise ValueError
        return None, came
    head = came[:end]
    if not head.startswith(b"events "):
        value = json.loads(head)
        if not isinstance(value, dict):
            raise ValueError
        return value, came[end:]
    number, keys, places, body = (int(it) for it in head[7:].split(b" "))
    if min(number, keys, places, body) < 0 or places % 4 or keys + places + body > MOST_REQUEST:
        raise ValueError
    at = end + keys
    if len(came) < at + places + body:
        return None, came
    found = Framed(number, came[end:at], came[at : at + places], came[at + places : at + places + body])
    if not found.is_right:
        raise ValueError
    return found, came[at + places + body :]


class Waiting:
    """The events of a request, and what is told of each, once it is; the request is answered then."""

    def __init__(self, asked: Asked, framed: Framed):
        self.asked, self.framed, self.count, self.is_plain = asked, framed, framed.number, framed.is_plain
        self.told: list[Optional[Told]] = [None] * self.count
        self.untold = self.count
        self.tell_all_told()

    @functools.cached_property
    def events(self) -> list[Handed]:
        """The events, each for itself."""
        return self.framed.handed()

    def tell(self, place: int, told: Told) -> None:
        """What is told of an event."""
        self.told[place], self.untold = told, self.untold - 1
        self.tell_all_told()

    def tell_together(self, service: str, step: int, first: int) -> None:
        """That all stand in one step, one behind another."""
        self.asked.answer_bytes(b'{"recorded": [["%s", %d, %d, %d]]}\n' % (service.encode(), step, first, self.count))

    def tell_all_told(self) -> None:
        """Answers the request where each of its events is told of."""
        if not self.untold:
            self.asked.answer({"recorded": list(in_runs(self.told))})

    def fail(self, trouble: Trouble) -> None:
        """Answers the request with what is told so far; of the others it isn't known whether they were recorded."""
        unknown: Answer = {"unknown": trouble.describe(), "status": int(trouble.status)}
        self.asked.answer({"recorded": list(in_runs(self.told, unknown))})


def in_runs(told: Sequence[Optional[Told]], unknown: Optional[Answer] = None) -> Iterator[object]:
    """What is told of events as an answer has it: those that stand one behind another together."""
    for first, count in runs_of([None if it is None or isinstance(it, str) else it[:3] for it in told]):
        it = told[first]
        yield unknown if it is None else {"refused": it} if isinstance(it, str) else [it.service, it.step, it.index, count]


def message_of(events: Sequence[Handed]) -> bytes:
    """Events as they are handed over."""
    keys = b"\n".join(it.key for it in events) if any(it.key for it in events) else b""
    places = b"".join(struct.pack(">I", place) for place, it in enumerate(events) if is_by_digest(it))
    body = frame([it.event for it in events])
    return b"events %d %d %d %d\n" % (len(events), len(keys), len(places), len(body)) + keys + places + body


class Keeper:
    """The keeper of a service: it alone makes steps while it listens, and others make theirs in between."""

    def __init__(self, service: Path, judge: Bench, may_claim: bool, wait: float):
        self.service, self.judge, self.may_claim, self.wait = service, judge, may_claim, wait
        self.asked: deque[Asked] = deque()
        self.later: list[Callable[[], None]] = []
        self.selector = selectors.DefaultSelector()
        self.recorder: Optional[Recorder] = None
        self.seen: Optional[tuple[str, ...]] = None
        self.clients = 0
        self.last, self.vain = Pace(0, 0.0), 0

    # ---- those who are connected

    def hear(self, seconds: Optional[float]) -> bool:
        """Takes what comes, in so many seconds at most; answers whether what a step is waited for by has come."""
        is_ended = False
        for key, _ in self.selector.select(seconds):
            if isinstance(key.data, Client):
                self.take(key.data)
            elif key.data is None:
                is_ended = True
            else:
                self.accept(key.data)
        return is_ended

    def accept(self, at: socket.socket) -> None:
        """Takes a connection."""
        try:
            client = Client(at.accept()[0])
        except OSError:
            return
        self.clients += 1
        self.selector.register(client.connection, selectors.EVENT_READ, client)

    def take(self, client: Client) -> None:
        """Takes the requests of one who is connected."""
        asks = client.asks()
        if asks is not None:
            self.asked += asks
            return
        self.clients -= 1
        self.selector.unregister(client.connection)
        client.connection.close()

    def wait_for(self, number: int) -> None:
        """Takes what comes until an open file can be read: what waits then goes into the next step."""
        self.selector.register(number, selectors.EVENT_READ)
        try:
            while len(self.asked) < MOST_WAITING and not self.hear(None):
                pass
        finally:
            self.selector.unregister(number)

    # ---- what is done in turns

    def serve(self, at: socket.socket, idle: Optional[float]) -> None:
        """Answers requests of those who connect at a socket; where nobody has been connected for so many seconds it ends."""
        at.setblocking(False)
        self.selector.register(at, selectors.EVENT_READ, at)
        last = time.monotonic()
        while idle is None or self.clients or time.monotonic() - last < idle:
            if not self.asked:
                self.hear(min(1.0, idle or 1.0))
            if self.asked:
                self.turn()
                time.sleep(PAUSE if self.asked else 0)
            if self.clients or self.asked:
                last = time.monotonic()

    def turn(self) -> None:
        """Answers what waits, under the lock of the service, for some seconds at most."""
        until = time.monotonic() + TURN
        asked = self.all_asked()
        recorder: Optional[Recorder] = None
        try:
            with locks.held(beside(self.service, ".lock"), self.wait, self.service):
                recorder = self.entered()
                while asked:
                    began = time.monotonic()
                    self.answer(recorder, asked, self.later)
                    self.last = Pace(sum(it.size for it in asked) + self.waiting(), time.monotonic() - began)
                    asked = self.next_asked() if time.monotonic() < until else []
                self.tell_later()
                self.leave()
        except Trouble as trouble:
            self.tell_later()
            if self.recorder is not None:
                self.recorder.let_go()
            self.recorder = None
            for it in asked:
                it.fail(trouble, is_begun=recorder is not None)

    def tell_later(self) -> None:
        """Tells what was recorded, where that was left for later."""
        tell_all(self.later)

    def all_asked(self) -> list[Asked]:
        """What waits."""
        found = list(self.asked)
        self.asked.clear()
        return found

    def waiting(self) -> int:
        """How many events wait."""
        return sum(it.size for it in self.asked)

    def next_asked(self) -> list[Asked]:
        """What waits now, or comes soon."""
        if not self.asked or patience_for(self.last.count, self.waiting(), self.last.seconds, self.vain):
            self.tell_later()
        if not self.asked:
            self.hear(QUIET)
        if not self.asked:
            return []
        at_hand, began = self.waiting(), time.monotonic()
        while (left := patience_for(self.last.count, self.waiting(), self.last.seconds, self.vain) - (time.monotonic() - began)) > 0:
            self.hear(left)
        came = self.waiting()
        self.vain = 0 if came > at_hand or came >= self.last.count else self.vain + 1
        return self.all_asked()

    def entered(self) -> Recorder:
        """The open service; it is opened anew where somebody else was at work since."""
        if self.recorder is None or self.signs() != self.seen:
            self.recorder = Recorder(self.service, self.judge, self.may_claim)
            self.recorder.begin(None)
            self.recorder.is_ahead, self.recorder.wait_for, self.recorder.fed = True, self.wait_for, self.tell_later
        return self.recorder

    def leave(self) -> None:
        """Notes how the service is left."""
        if self.recorder is not None:
            self.recorder.rest()
            self.seen = self.signs()

    def signs(self) -> tuple[str, ...]:
        """By what it is seen that somebody else was at work: the states of the files of the service."""
        folder = self.recorder.part.folder if self.recorder is not None else self.service
        paths = [Store(folder).file, *(beside(folder, end) for end in (".records", ".lines", ".seal", ".look", ".anchor")), *(beside(self.service, end) for end in (".next", ".told"))]
        return tuple(f"{path}{state_of(path)}" for path in paths)

    @staticmethod
    def answer(recorder: Recorder, asked: list[Asked], later: Optional[list[Callable[[], None]]] = None) -> None:
        """Answers requests: events first, so that what else is asked for is asked of the steps that have them. Of what goes into steps as it is framed the answers are put into a
        list, where there is one: they are told beside the making of the next step."""
        waiting = [one.waiting for one in asked if one.waiting is not None and one.waiting.count]
        if all(one.is_plain for one in waiting):
            record_framed(recorder, waiting, later)
            waiting = []
        else:
            tell_all(later)
        places = [(one, place) for one in waiting for place in range(len(one.events))]

        def tell(number: int, told: Told) -> None:
            """Tells what became of an event to whom it is."""
            one, place = places[number]
            one.tell(place, told)

        record_all(recorder, [one.events[place] for one, place in places], tell)
        others = [request for request in asked if request.waiting is None]
        # (who asked before hears before)
        if others:
            tell_all(later)
        for request in others:
            request.answer(other_answer(recorder, request.value))


def tell_all(later: Optional[list[Callable[[], None]]]) -> None:
    """Tells what was left for later."""
    while later:
        later.pop(0)()


def record_framed(recorder: Recorder, waiting: Sequence[Waiting], later: Optional[list[Callable[[], None]]]) -> None:
    """Records events that go into steps as they are framed, and tells where they stand, or puts that into a list: in each step as many requests as it takes."""
    left = deque(waiting)
    while left:
        together: list[Waiting] = []
        count = size = 0
        while left and (not together or (count + left[0].count <= MOST_EVENTS and size + len(left[0].framed.body) - 4 * left[0].count <= MOST_STEP)):
            one = left.popleft()
            together.append(one)
            count, size = count + one.count, size + len(one.framed.body) - 4 * one.count
        line = recorder.record_framed(count, b"".join(one.framed.body for one in together))
        first = 0
        for one in together:
            tell = functools.partial(one.tell_together, line.service, line.step, first)
            if later is None:
                tell()
            else:
                later.append(tell)
            first += one.count


def other_answer(recorder: Recorder, value: dict[str, object]) -> Answer:
    """The answer to a request that records nothing."""
    try:
        if "line" in value:
            line: Line = recorder.note_line()
            return {"line": list(line)}
        if "name" in value:
            return {"name": recorder.name}
        if "record" in value:
            return {"status": int(Status.USAGE), "trouble": "this keeper is of a later version of weft, which takes events otherwise: record by the same version"}
        if "prove" in value:
            return {"proof": base64.b64encode(proof_of(recorder, value["prove"])).decode()}
    except Trouble as trouble:
        return {"status": int(trouble.status), "trouble": trouble.describe()}
    return {"status": int(Status.USAGE), "trouble": "that is no request"}


def proof_of(recorder: Recorder, place: object) -> bytes:
    """The proof of an event under the last line of its part."""
    parts = {part.last.service: part for part in [*recorder.former, recorder.part]}
    if not isinstance(place, list) or len(place) != 3 or not isinstance(place[0], str) or place[0] not in parts or not all(type(it) is int for it in place[1:]):
        raise Trouble(Status.USAGE, "that is no place of an event")
    part = parts[place[0]]
    return part.store.done("prove", "event", str(place[1]), str(place[2]), str(part.last.step))


def state_of(path: Path) -> str:
    """The state of a file, as far as it shows that it was written."""
    try:
        found = os.stat(path)
    except FileNotFoundError:
        return ""
    return f" {found.st_ino} {found.st_size} {found.st_mtime_ns}"


# ---- the socket


def place_of(folder: int, name: str) -> str:
    """The path of a socket in an open folder: one that is short enough, whatever the folder is called."""
    return f"/proc/self/fd/{folder}/{name}"


@contextmanager
def alone(service: Path) -> Iterator[bool]:
    """Whether this is the only keeper of a service; then no other one begins while it is."""
    number = os.open(beside(service, ".keeper"), os.O_RDWR | os.O_CREAT | os.O_CLOEXEC | os.O_NOFOLLOW, files.PRIVATE)
    try:
        yield locks.taken(number, fcntl.LOCK_EX)
    finally:
        os.close(number)


@contextmanager
def listening(service: Path) -> Iterator[socket.socket]:
    """The socket at which the only keeper of a service listens."""
    path = beside(service, ".socket")
    if len(os.fsencode(path.name)) > MOST_NAME:
        told = f"{name_of(service)} has a name too long to be listened at: it has {len(os.fsencode(service.name))} bytes, and {MOST_NAME - len('.socket')} at most can be"
        raise Trouble(Status.USAGE, told, "Give the folder a shorter name, with all that stands beside it; or record without --serve.")
    folder = os.open(path.parent, os.O_PATH | os.O_DIRECTORY | os.O_CLOEXEC)
    at = socket.socket(socket.AF_UNIX, socket.SOCK_STREAM)
    try:
        files.remove(path)
        before = os.umask(0o177)
        try:
            at.bind(place_of(folder, path.name))
        finally:
            os.umask(before)
        at.listen(128)
        yield at
        files.remove(path)
    finally:
        at.close()
        os.close(folder)


def told_by(answer: Sequence[object], events: Sequence[Handed]) -> Iterator[Union[Told, Trouble]]:
    """What an answer tells of each event; a trouble where it isn't known whether it was recorded."""
    place = 0
    for it in answer:
        if isinstance(it, list):
            service, step, index, count = it
            yield from (Receipt(service, step, index + further, events[place + further].digest.decode()) for further in range(count))
            place += count
            continue
        assert isinstance(it, dict)
        place += 1
        if "unknown" in it:
            advice = "Whether that was recorded isn't known: with its key hand it over again, or look with weft find."
            yield Trouble(Status(it["status"]), str(it["unknown"]).rstrip("."), advice)
        else:
            yield str(it["refused"])


class Connection:
    """A connection to the keeper of a service, for one who hands over."""

    def __init__(self, at: socket.socket, service: Path):
        self.at, self.service = at, service
        self.lines = at.makefile("rb")

    def ask(self, value: Union[Answer, bytes]) -> Answer:
        """The answer to a request; raises Trouble of one that was refused, and where the keeper left before it answered."""
        try:
            self.at.sendall(value if isinstance(value, bytes) else json.dumps(value).encode() + b"\n")
            line = self.lines.readline()
        except OSError:
            line = b""
        if not line.endswith(b"\n"):
            told = f"the keeper of {name_of(self.service)} left before it answered: whether that was recorded isn't known"
            raise Trouble(Status.STOPPED, told, "Hand it over again where it has a key; weft find looks for what has none.")
        answer: Answer = json.loads(line)
        if "trouble" in answer:
            raise Trouble(Status(int(str(answer["status"]))), str(answer["trouble"]).rstrip("."))
        return answer

    def record(self, events: Sequence[Handed]) -> list[Union[Told, Trouble]]:
        """What is told of events that are handed over."""
        answer = self.ask(message_of(events))
        told = answer["recorded"]
        assert isinstance(told, list)
        return list(told_by(told, events))

    def name(self) -> str:
        """The name of the service."""
        return str(self.ask({"name": True})["name"])

    def line(self) -> Line:
        """The line to hand out."""
        line = self.ask({"line": True})["line"]
        assert isinstance(line, list)
        return Line(*line)


def connected(service: Path) -> Optional[Connection]:
    """A connection to the keeper of a service; None where there is none. Raises Trouble where another user listens there: events aren't handed to him."""
    path = beside(service, ".socket")
    try:
        folder = os.open(path.parent, os.O_PATH | os.O_DIRECTORY | os.O_CLOEXEC)
    except OSError:
        return None
    found = socket.socket(socket.AF_UNIX, socket.SOCK_STREAM)
    try:
        found.connect(place_of(folder, path.name))
        user = user_of(found)
    except OSError:
        found.close()
        return None
    finally:
        os.close(folder)
    if user != os.geteuid():
        found.close()
        raise Trouble(Status.DISK, f"another user listens at {name_of(path)}, and nothing was handed to him", "Run it as the user whose service it is.")
    return Connection(found, service)


def user_of(connection: socket.socket) -> int:
    """The number of the user who listens at the other end."""
    return int(struct.unpack("3i", connection.getsockopt(socket.SOL_SOCKET, socket.SO_PEERCRED, struct.calcsize("3i")))[1])


def keep(service: Path, keeper: Keeper, idle: Optional[float]) -> None:
    """Keeps the service until nobody needs it."""
    with listening(service) as at:
        complain(f"{name_of(service)} takes events at {name_of(beside(service, '.socket'))}.")
        keeper.serve(at, idle)
