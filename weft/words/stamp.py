"""`weft stamp`: has a line stamped by a time-stamping authority."""

from __future__ import annotations

import argparse
from pathlib import Path
from typing import Optional

from weft import files, lines, parts, stamping, stamps
from weft.deciding.roads import Address, Unfit, read_address
from weft.deciding.stamps import Weighed, read_pieces
from weft.lines import KeptLines, Line
from weft.output import say, say_json
from weft.servers import Unanswered
from weft.statuses import Status
from weft.texts import name_of
from weft.trouble import Trouble

NAME = "stamp"
DETAILS = (
    "Such an authority (RFC 3161) signs that a text was there at a time by its clock: neither whose it is, nor since when. The query is made and the answer checked by "
    "openssl, by the certificates that you trust (weft keep --authority); nothing of it is proved. It is kept as it came, in LINE.stamp and beside a line that you keep. "
    "Before the certificate expires, have it renewed (--renew), by any authority. Of a service's folder the last line is stamped, and what is due within 90 days renewed, in "
    "SERVICE/stamps."
)
STATUSES = (Status.NOT_SHOWN, Status.REFUSED, Status.LOOK, Status.MISSING, Status.BUSY)
EXAMPLE = "weft stamp line --url https://tsa.example/\nweft stamp line --url https://tsa.example/ --renew line.stamp\nweft stamp /srv/log --url https://tsa.example/"
MOST_BYTES = 1 << 20
SECONDS = 30


def add(parser: argparse.ArgumentParser) -> None:
    """The words."""
    parser.add_argument("line", metavar="LINE", help="a file of a line, signed or not; or the folder of a service")
    parser.add_argument("--url", metavar="URL", required=True, help="the authority's address")
    parser.add_argument("--renew", metavar="STAMP", help="the stamp of it that is renewed")
    parser.add_argument("--out", metavar="OUT", help="the stamp (else LINE.stamp; with --renew STAMP itself)")
    parser.add_argument("--kept", metavar="FILE", type=Path, help="the file of kept lines (else WEFT_KEPT, ..)")
    stamps.add_authorities(parser)
    parser.add_argument("--seconds", metavar="N", type=int, default=SECONDS, help="how long is waited (else 30)")
    parser.add_argument("--json", action="store_true", help="writes JSON")


def address_of(text: str) -> Address:
    """The address of a text; raises Trouble where it is none."""
    found = read_address(text, is_open=True)
    if isinstance(found, Unfit):
        raise Trouble(Status.USAGE, f"{name_of(text)} is no address of an authority: {found.value}")
    return found


def run(options: argparse.Namespace) -> Status:
    """Has the line stamped, or those of a service."""
    if Path(options.line).is_dir():
        return stamp_service(options)
    address, line = address_of(options.url), stamps.line_of(options.line, files.read(options.line, MOST_BYTES))
    old = stamps.read_file(options.renew) if options.renew else b""
    authorities = stamps.read_authorities(options.authorities)
    if not authorities:
        return unstamped(options, stamps.NO_AUTHORITY, Status.MISSING)
    with stamps.Bench(authorities) as bench:
        expect_good(bench, line, old, options.renew)
        try:
            data = old + stamps.ask_authority(line, read_pieces(old) or (), address, options.seconds, bench)
        except Unanswered as why:
            return unstamped(options, f"{address.host}: {why}", Status.LOOK)
        weighed = bench.weigh(line, data)
    if weighed.fault is not None:
        raise Trouble(Status.NOT_SHOWN, stamps.stamp_told(line, weighed).removesuffix("."))
    return stamped(options, line, data, weighed)


def stamp_service(options: argparse.Namespace) -> Status:
    """Has the last line of a service stamped, and renews what is due."""
    if options.renew or options.out or options.kept:
        raise Trouble(Status.USAGE, "--renew, --out and --kept are for a file of a line", "Of a service's folder all is done by itself.")
    folder = files.folder_named(Path(options.line))
    parts.expect_whole(folder)
    done = stamping.stamp_night(folder, stamping.Wanted(address_of(options.url), options.seconds, options.authorities))
    if options.json:
        say_json({"service": str(folder), "told": done.told, "status": int(done.status)})
    else:
        for text in done.told or ["Its last line is stamped, and no stamp is due to be renewed."]:
            say(text)
    return done.status


def expect_good(bench: stamps.Bench, line: Line, old: bytes, name: Optional[str]) -> None:
    """Raises Trouble where the stamp that is to be renewed gives no day: no renewal mends that."""
    weighed = bench.weigh(line, old) if old else None
    if weighed is not None and weighed.fault is not None:
        raise Trouble(Status.NOT_SHOWN, f"{name_of(name or '')} isn't renewed: {stamps.stamp_told(line, weighed)}".removesuffix("."), "Have the line stamped anew.")


def unstamped(options: argparse.Namespace, why: str, status: Status) -> Status:
    """Says why there is no stamp."""
    told = f"{name_of(options.line)} isn't stamped: {why}."
    if options.json:
        say_json({"line": options.line, "file": None, "status": int(status), "says": [told]})
    else:
        say(told)
    return status


def stamped(options: argparse.Namespace, line: Line, data: bytes, weighed: Weighed) -> Status:
    """Writes the stamp, keeps it beside the line where that is kept, and says so."""
    out = options.out or options.renew or files.unchosen(f"{options.line}.stamp", data)
    files.hand_out(out, data, goes_on=out == options.renew)
    kept = options.kept or lines.default_kept()
    is_kept = any(it.line == line for it in KeptLines([kept]).all_at(line.service, line.step))
    if is_kept:
        stamps.keep_stamp(kept, line, data)
    told = [stamps.stamp_told(line, weighed)]
    if options.json:
        say_json({"line": line._asdict(), "file": out, "kept": is_kept, **stamps.as_json(weighed), "status": int(Status.DONE), "says": told})
        return Status.DONE
    say(told[0])
    beside = " and is kept beside the line" if is_kept else ": hand it out beside the line"
    say(f"The stamp stands in {name_of(out)}{beside}.")
    return Status.DONE
