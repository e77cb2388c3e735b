"""The page of a published folder for people: the last lines of a service, how to keep one, what they mean, and who else received them. It runs no script, and
asks for nothing of another host."""

from __future__ import annotations

from html import escape
from typing import Iterable, Iterator, NamedTuple, Sequence

from weft import formats
from weft.box import Peer
from weft.deciding.lines import Line
from weft.deciding.roads import Lines, name_line_file

MOST_LAST = 7

STYLE = """body { margin: 2rem auto; max-width: 46rem; padding: 0 1rem; font: 1rem/1.5 system-ui, sans-serif; color: #1c2128; background: #fff }
h1 { font-size: 1.6rem } h2 { font-size: 1.15rem; margin-top: 2rem } code, pre { font-family: ui-monospace, monospace; font-size: .85rem }
pre { padding: .6rem .8rem; background: #f5f7f9; overflow-x: auto } li { margin: .3rem 0; overflow-wrap: anywhere } a { color: #0b57d0 }
@media (prefers-color-scheme: dark) { body { color: #e6e9ed; background: #14181d } pre { background: #1d232a } a { color: #8ab4f8 } }"""


class Received(NamedTuple):
    """By a receipt of it, the last line that a peer recorded, and its own step at which it did."""

    peer: str
    line: Line
    step: int


class Front(NamedTuple):
    """What the page says: whose it is, all published lines, the public key that signs them, who received some, and whether the page that checks proofs is beside
    it."""

    service: str
    lines: Sequence[Line]
    key: str
    received: Sequence[Received]
    has_page: bool


def receipts_of(peers: Iterable[Peer], lines: Lines) -> list[Received]:
    """Of each of these peers, and its parts before, the receipt of the latest line that was published. (Nobody signs it; it is of a true step, as it came.)"""
    places = {line: place for place, line in enumerate(lines.lines)}
    found = []
    for peer in peers:
        told: list[tuple[int, Received]] = []
        earlier = peer
        while True:
            told += [(places[it.line], it) for it in read_receipts(earlier) if it.line in places]
            if earlier.earlier is None:
                break
            earlier = earlier.earlier
        found += [max(told, key=lambda it: it[0])[1]] if told else []
    return found


def read_receipts(peer: Peer) -> Iterator[Received]:
    """What a peer's receipts say that came here."""
    for piece in formats.receipt_pieces(peer.read("got")):
        receipt = formats.read_receipt(piece)
        if receipt is not None:
            yield Received(receipt.recorder, Line(receipt.service, receipt.step, receipt.authenticator.hex()), receipt.archived)


def page_of(front: Front) -> bytes:
    """The bytes of the page."""
    name, last = escape(front.service), front.lines[-1] if front.lines else None
    parts = [f"<h1>{name}: its lines</h1>", f"<p>{WHAT}</p>", *last_lines(front.lines)]
    if last is not None:
        parts += ["<h2>Keep one</h2>", f"<p>{KEEP}</p>", f"<pre>weft keep --signer {escape(last.service)} key.pub {escape(name_line_file(last))}</pre>"]
        parts += [f"<p>{KEY}</p>", f"<pre>{escape(front.key)}</pre>"]
    parts += ["<h2>What they show</h2>", f"<p>{SHOW}</p>", *received_by(front.received)]
    if front.has_page:
        parts += ["<h2>Check a proof</h2>", f"<p>{CHECK}</p>"]
    head = "<meta charset=utf-8><meta name=viewport content='width=device-width'><meta http-equiv=Content-Security-Policy content=\"default-src 'none'; style-src 'unsafe-inline'\">"
    return f"<!doctype html><html lang=en>{head}<title>{name}: its lines</title><style>{STYLE}</style>\n{chr(10).join(parts)}\n</html>\n".encode()


WHAT = (
    "This service keeps a log. Each line here stands for all that was recorded up to its step: nobody can make another history under a line that somebody "
    "keeps. Lines show how many steps there are, and none of what was recorded."
)
KEEP = "Print the last line, or save its file, today and now and then. With <code>weft</code>, which notes the key at the first time:"
KEY = "The lines are signed by this key (<a href='key.pub'>key.pub</a>). Compare it, once, with what the service tells you by another way: by telephone, on paper."
SHOW = (
    "A proof from this service is judged under a line that you kept, or that somebody kept whom you trust. A line that you get only now shows nothing about "
    "the time before. Two different lines of one step, both signed, show that there are two histories: keep both, and tell others."
)
CHECK = (
    "<a href='timeweave.html'>This page</a> checks a proof under your lines. This copy comes from the service itself: to judge its proofs take one "
    "from a release, and compare its SHA-256."
)


def last_lines(lines: Sequence[Line]) -> Iterator[str]:
    """The last lines, and the last one of each part before."""
    yield "<h2>The last lines</h2>"
    if not lines:
        yield "<p>None was published.</p>"
        return
    last = lines[-1].service
    ends = {line.service: line for line in lines if line.service != last}
    shown = [*ends.values(), *[line for line in lines if line.service == last][-MOST_LAST:]]
    yield "<ul>"
    for line in reversed(shown):
        end = " (its end: the log goes on under another name)" if line.service != last else ""
        yield f"<li><a href='lines/{escape(name_line_file(line))}'><code>{escape(line.text)}</code></a>{end}"
    yield "</ul>\n<p><a href='lines/index'>All lines</a></p>"


def received_by(received: Sequence[Received]) -> Iterator[str]:
    """Who received which line, by receipts."""
    if received:
        yield "<p>Also received by, as their receipts tell, which nobody signs; ask them:</p>\n<ul>"
        yield from (f"<li>{escape(it.peer)}, at its step {it.step}: step {it.line.step} of {escape(it.line.service)}" for it in received)
        yield "</ul>"
