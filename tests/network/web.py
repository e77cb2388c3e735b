"""A web server on this machine, in a process of its own. It hands out the files below its folder; of a folder without an index it tells what a service would have
published there. Where `.hostile` says so of the beginning of a path, it is hostile in that way. What was asked stands in `.asked`."""

import hashlib
import json
import os
import signal
import socket
import time
from http.server import BaseHTTPRequestHandler, ThreadingHTTPServer
from pathlib import Path
from typing import Iterator

from weft.deciding.roads import Index, Listed, is_listable

PIECE, MOST_HASHED, PAUSE = b"0" * 65_536, 8 << 20, 0.2
# A server that is slow, or silent, goes on so for so many seconds.
SLOW_SECONDS = 40
# How a server is hostile: without an end, slow, sending elsewhere or round and round, failing, with other bytes, cut short, packed, silent, or no server at all.
KINDS = ("endless", "heads", "chunks", "slow", "slow heads", "elsewhere", "round", "failing", "wrong", "short", "packed", "silent", "no server")
# Those by which nothing at all comes.
CUTTING = ("endless", "heads", "slow", "elsewhere", "round", "failing", "short", "silent", "no server")


def files_below(folder: Path) -> Iterator[tuple[str, Path]]:
    """The files of a folder that can be listed, by their names from there on."""
    for path in sorted(folder.rglob("*")):
        name = path.relative_to(folder).as_posix()
        if path.is_file() and is_listable(name):
            yield name, path


def digest_of(path: Path) -> str:
    """The digest of a file; of a very long one a made-up one, since nobody fetches it."""
    return hashlib.sha256(path.read_bytes()).hexdigest() if path.stat().st_size <= MOST_HASHED else "0" * 64


def index_of(folder: Path) -> bytes:
    """The index of a folder BOX/PEER/in, as the peer would have published it."""
    service, receiver = folder.parts[-2], folder.parts[-3].removeprefix("box-")
    listed = [Listed(name, path.stat().st_size, digest_of(path)) for name, path in files_below(folder)]
    return Index(service, receiver, tuple(sorted(listed))).data


class Handler(BaseHTTPRequestHandler):
    """Answers one asker."""

    protocol_version = "HTTP/1.1"
    root: Path

    def log_message(self, *words: object) -> None:
        """Nothing is logged."""

    def do_GET(self) -> None:
        """Answers what is asked."""
        with open(self.root / ".asked", "a") as asked:
            asked.write(f"{self.path}\n")
        noted = self.root / ".hostile"
        ways = json.loads(noted.read_text()) if noted.exists() else {}
        way = next((it for front, it in ways.items() if self.path.startswith(front)), "")
        self.close_connection = bool(way)
        try:
            getattr(self, way.replace(" ", "_"))(self.read_asked()) if way else self.tell(self.read_asked())
        except (OSError, ValueError):
            self.close_connection = True

    def read_asked(self) -> "bytes | None":
        """The bytes of the file that is asked for."""
        path = self.root / self.path.lstrip("/")
        if path.is_file():
            return path.read_bytes()
        if path.name == "index" and path.parent.is_dir():
            return index_of(path.parent)
        return next((it.read_bytes() for _, it in files_below(path.parent) if digest_of(it) == path.name), None) if path.parent.is_dir() else None

    def tell(self, data: "bytes | None") -> None:
        """The answer of an honest server."""
        self.begin(200 if data is not None else 404, {"Content-Length": str(len(data or b""))})
        self.wfile.write(data or b"")

    def begin(self, status: int, heads: "dict[str, str]") -> None:
        """Begins an answer."""
        self.send_response(status)
        for name, value in heads.items():
            self.send_header(name, value)
        self.end_headers()

    # ---- hostile ways

    def endless(self, data: "bytes | None") -> None:
        """A body without an end."""
        self.begin(200, {})
        while True:
            self.wfile.write(PIECE)

    def heads(self, data: "bytes | None") -> None:
        """Heads without an end."""
        while True:
            self.wfile.write(b"HTTP/1.1 100 Continue\r\n\r\n" * 1_000)

    def chunks(self, data: "bytes | None") -> None:
        """Pieces without an end."""
        self.begin(200, {"Transfer-Encoding": "chunked"})
        while True:
            self.wfile.write(b"10000;" + b"x" * 100 + b"\r\n" + PIECE + b"\r\n")

    def slow(self, data: "bytes | None") -> None:
        """A byte now and then."""
        self.begin(200, {"Content-Length": str(len(data or b"") or 1_000)})
        for _ in range(int(SLOW_SECONDS / PAUSE)):
            self.wfile.write(b"t")
            time.sleep(PAUSE)

    def slow_heads(self, data: "bytes | None") -> None:
        """A byte of the heads now and then."""
        self.wfile.write(b"HTTP/1.1 200 OK\r\nX: ")
        while True:
            self.wfile.write(b"t")
            time.sleep(PAUSE)

    def elsewhere(self, data: "bytes | None") -> None:
        """To another host."""
        self.begin(302, {"Location": f"http://localhost:{self.server.server_address[1]}/elsewhere", "Content-Length": "0"})

    def round(self, data: "bytes | None") -> None:
        """Round and round on the same one."""
        self.begin(302, {"Location": f"{self.path}/round", "Content-Length": "0"})

    def failing(self, data: "bytes | None") -> None:
        """A server that is broken."""
        self.begin(500, {"Content-Length": "0"})

    def wrong(self, data: "bytes | None") -> None:
        """Other bytes of the same number in the place of files."""
        self.tell(data if self.path.endswith("/index") else b"x" * len(data or b""))

    def short(self, data: "bytes | None") -> None:
        """Less than was said."""
        self.begin(200, {"Content-Length": str(len(data or b"") + 1)})
        self.wfile.write(data or b"")

    def packed(self, data: "bytes | None") -> None:
        """Packed, as nobody asked."""
        self.begin(200, {"Content-Encoding": "gzip", "Content-Length": str(len(data or b""))})
        self.wfile.write(data or b"")

    def silent(self, data: "bytes | None") -> None:
        """No answer."""
        time.sleep(SLOW_SECONDS)

    def no_server(self, data: "bytes | None") -> None:
        """What no web server answers."""
        self.wfile.write(b"\x00\xffSSH-2.0-none\r\n\r\n")


class Web:
    """A server below a folder, until it is closed."""

    def __init__(self, root: Path, handler: "type[Handler] | None" = None):
        self.root = root
        root.mkdir(parents=True, exist_ok=True)
        listening = socket.create_server(("127.0.0.1", 0))
        self.port: int = listening.getsockname()[1]
        self.process = os.fork()
        if self.process == 0:
            try:
                below = handler or type("Below", (Handler,), {"root": root})
                server = ThreadingHTTPServer(("127.0.0.1", self.port), below, bind_and_activate=False)
                server.socket.close()
                server.socket, server.server_address = listening, listening.getsockname()
                server.serve_forever()
            finally:
                os._exit(0)
        listening.close()

    def address(self, path: str) -> str:
        """The address of a folder below the root."""
        return f"http://127.0.0.1:{self.port}/{path}/"

    def be_hostile(self, ways: "dict[str, str]") -> None:
        """Of paths that begin so the server is hostile in these ways."""
        (self.root / ".new").write_text(json.dumps({f"/{front}": way for front, way in ways.items()}))
        os.replace(self.root / ".new", self.root / ".hostile")

    def take_asked(self) -> "list[str]":
        """What was asked so far, and is forgotten then."""
        path = self.root / ".asked"
        found = path.read_text().splitlines() if path.exists() else []
        path.unlink(missing_ok=True)
        return found

    def close(self) -> None:
        """Ends it."""
        os.kill(self.process, signal.SIGKILL)
        os.waitpid(self.process, 0)
