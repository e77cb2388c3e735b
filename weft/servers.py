"""Files of a web server, asked by http.client and ssl of Python. Whoever answers may be hostile: of all that comes, heads too, no more is read than a night's
bytes, none behind its last second, and nothing is followed to another host."""

from __future__ import annotations

import http.client
import io
import socket
import ssl
import time
from typing import Any, Optional

from weft import __version__
from weft.deciding.roads import Address, follow
from weft.texts import printable

PIECE = 1 << 16
MOST_REDIRECTS, MOST_ADDRESSES = 3, 4
REDIRECTS = (301, 302, 303, 307, 308)
HEADERS = {"User-Agent": f"weft/{__version__}", "Accept-Encoding": "identity", "Cache-Control": "no-cache", "Accept": "*/*"}
SECONDS_OVER, BYTES_OVER = "its time was up", "more came than is read of a server in a night"


class Unanswered(Exception):
    """Why a file didn't come, as a sentence's end."""


class Spent(Unanswered):
    """The time or the bytes are spent: nothing more is asked of the server."""


class Budget:
    """What may be spent on one server: seconds by a clock that nobody sets, and bytes, those of heads too."""

    def __init__(self, seconds: float, most_bytes: int):
        self.until, self.left = time.monotonic() + seconds, most_bytes

    def seconds(self) -> float:
        """The seconds that are left; raises Spent where there are none."""
        left = self.until - time.monotonic()
        if left <= 0:
            raise Spent(SECONDS_OVER)
        return left

    def spend(self, count: int) -> None:
        """Notes bytes that came; raises Spent where they are more than may come."""
        self.left -= count
        if self.left < 0:
            raise Spent(BYTES_OVER)


class Reader(io.RawIOBase):
    """What comes over a connection, as far as the budget goes."""

    def __init__(self, connection: socket.socket, budget: Budget):
        self.connection, self.budget = connection, budget
        self.raw: Any = connection.makefile("rb", buffering=0)

    def readable(self) -> bool:
        """It is read."""
        return True

    def readinto(self, buffer: Any) -> Optional[int]:
        """Reads what is there, within what is left of the time."""
        self.connection.settimeout(self.budget.seconds())
        count: Optional[int] = self.raw.readinto(buffer)
        self.budget.spend(count or 0)
        return count

    def close(self) -> None:
        """Lets the connection be closed."""
        self.raw.close()
        super().close()


class Bounded:
    """A connection as http.client has it, within a budget."""

    def __init__(self, connection: socket.socket, budget: Budget):
        self.connection, self.budget = connection, budget

    def sendall(self, data: bytes) -> None:
        """Sends all."""
        self.connection.settimeout(self.budget.seconds())
        self.connection.sendall(data)

    def makefile(self, mode: str) -> io.BufferedReader:
        """What comes."""
        return io.BufferedReader(Reader(self.connection, self.budget), PIECE)

    def close(self) -> None:
        """Closes it, once nothing reads it any more."""
        self.connection.close()


class Connection(http.client.HTTPConnection):
    """A connection to the host of an address, within a budget."""

    def __init__(self, address: Address, budget: Budget):
        super().__init__(address.host, address.port)
        self.is_secure, self.budget = address.is_secure, budget
        self.default_port = 443 if address.is_secure else 80

    def connect(self) -> None:
        """Connects, by TLS where the address says so, whose certificate has to be good by the system's authorities."""
        plain = opened(self.host, self.port, self.budget)
        try:
            plain.settimeout(self.budget.seconds())
            made = ssl.create_default_context().wrap_socket(plain, server_hostname=self.host) if self.is_secure else plain
        except BaseException:
            plain.close()
            raise
        self.sock: Any = Bounded(made, self.budget)


def opened(host: str, port: int, budget: Budget) -> socket.socket:
    """A connection to one of the first addresses of a host; raises OSError where none answers."""
    failure: OSError = OSError("no address is known")
    for family, kind, protocol, _, place in socket.getaddrinfo(host, port, type=socket.SOCK_STREAM)[:MOST_ADDRESSES]:
        made = socket.socket(family, kind, protocol)
        try:
            made.settimeout(budget.seconds())
            made.connect(place)
            return made
        except OSError as failed:
            failure = failed
            made.close()
        except BaseException:
            made.close()
            raise
    raise failure


def reason_of(failure: Exception) -> str:
    """Why nothing came, as a sentence's end."""
    if isinstance(failure, ssl.SSLCertVerificationError):
        return f"its certificate isn't good: {printable(failure.verify_message)}"
    if isinstance(failure, (TimeoutError, socket.timeout)):
        return SECONDS_OVER
    if isinstance(failure, OSError):
        return printable(failure.strerror or str(failure))
    return f"what it answered is no answer of a web server ({type(failure).__name__})"


class Server:
    """A server that is asked for files, over one connection as long as that stands."""

    def __init__(self, address: Address, budget: Budget):
        self.address, self.budget = address, budget
        self.connection: Optional[Connection] = None

    def close(self) -> None:
        """Ends the connection."""
        if self.connection is not None:
            self.connection.close()
        self.connection = None

    def get(self, name: str, most: int, wanted: Optional[int] = None) -> bytes:
        """The bytes of a file of the address, so many at most, and where it is said exactly so many; raises Unanswered where they don't come."""
        try:
            return self.followed(self.address.below(name), most, wanted)
        except (Unanswered, OSError, http.client.HTTPException, ValueError) as failure:
            self.close()
            self.budget.seconds()
            raise failure if isinstance(failure, Unanswered) else Unanswered(reason_of(failure)) from None

    def post(self, data: bytes, kind: str, most: int) -> bytes:
        """What the server answers to bytes of a kind, so many at most: it is asked once, and followed nowhere. Raises Unanswered where nothing comes."""
        try:
            self.connection = Connection(self.address, self.budget)
            self.connection.request("POST", self.address.path, data, {**HEADERS, "Content-Type": kind})
            response = self.connection.getresponse()
            if response.status in REDIRECTS:
                raise Unanswered("the server sends elsewhere, and isn't followed")
            if response.status != 200:
                raise Unanswered(f"the server answered {response.status}")
            return body(response, most, None)
        except (Unanswered, OSError, http.client.HTTPException, ValueError) as failure:
            self.budget.seconds()
            raise failure if isinstance(failure, Unanswered) else Unanswered(reason_of(failure)) from None

    def followed(self, address: Address, most: int, wanted: Optional[int]) -> bytes:
        """The bytes of an address, or of that on the same host to which the server sends."""
        for _ in range(MOST_REDIRECTS + 1):
            response = self.ask_once(address)
            if response.status == 200:
                return body(response, most, wanted)
            if response.status not in REDIRECTS:
                raise Unanswered(f"the server answered {response.status}")
            self.close()
            onward = follow(address, response.getheader("Location"))
            if onward is None:
                raise Unanswered("the server sends elsewhere, and nothing is followed to another host, another port or another way")
            address = onward
        raise Unanswered(f"the server sent on more than {MOST_REDIRECTS} times")

    def ask_once(self, address: Address) -> http.client.HTTPResponse:
        """The answer of the server, whose body is still to come; once more where a connection that stood was closed meanwhile."""
        was_open = self.connection is not None
        try:
            return self.answer(address)
        except (http.client.BadStatusLine, ConnectionError):
            self.close()
            if not was_open:
                raise
            return self.answer(address)

    def answer(self, address: Address) -> http.client.HTTPResponse:
        """The answer over the connection that stands, or a new one."""
        if self.connection is None:
            self.connection = Connection(address, self.budget)
        self.connection.request("GET", address.path, headers=HEADERS)
        return self.connection.getresponse()


def body(response: http.client.HTTPResponse, most: int, wanted: Optional[int]) -> bytes:
    """The whole body of an answer; raises Unanswered where it is longer than it may be, or of another length than is said."""
    if response.getheader("Content-Encoding", "identity") != "identity":
        raise Unanswered("it came packed, and wasn't asked for so")
    told = response.length
    if told is not None and (told > most or (wanted is not None and told != wanted)):
        raise Unanswered(f"it has {told:,} bytes, and not {wanted:,}" if wanted is not None else f"it has {told:,} bytes, and at most {most:,} are read")
    data = bytearray()
    while piece := response.read(min(PIECE, most + 1 - len(data))):
        data += piece
        if len(data) > most:
            raise Unanswered(f"it has more than {most:,} bytes")
    if (told is not None and len(data) != told) or (wanted is not None and len(data) != wanted):
        raise Unanswered("it was cut short")
    return bytes(data)
