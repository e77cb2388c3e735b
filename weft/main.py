"""The command line: its words, their help, and what ends a run."""

from __future__ import annotations

import argparse
import functools
import itertools
import os
import re
import sys
import traceback
from types import ModuleType
from typing import NoReturn, Optional, Sequence

from weft import __version__, output
from weft.deciding.commands import order_words
from weft.deciding.worst import worst_of
from weft.statuses import Status
from weft.texts import listed, name_of, printable
from weft.trouble import Trouble
from weft.words import WORDS, module_of

ABOUT = (
    "The companion of timeweave: lines, proofs, logs and exchanges in sentences. Verdicts on files are the proved library's or the proved "
    "program's; whose a line is, and what is kept or told, weft decides, or asks you."
)

# A word was taken for an option that isn't one, or wasn't taken for the word of an option.
OPTION_MISTAKEN = re.compile("unrecognized arguments: .*-|expected ")
OPTIONS = "A word that begins with - is an option: name a file as ./-FILE, or put -- in front of the words."


class Parser(argparse.ArgumentParser):
    """A parser whose troubles are sentences, in which nothing stands raw; of a word, with how many words each of its options has."""

    @property
    def counts(self) -> dict[str, int]:
        """How many words each option has."""
        return {name: it.nargs if isinstance(it.nargs, int) else 1 for it in self._actions for name in it.option_strings}

    def error(self, message: str) -> NoReturn:
        """The words are no command."""
        advice = f" {OPTIONS}" if OPTION_MISTAKEN.search(message) else ""
        raise Trouble(Status.USAGE, printable(message), f"See {self.prog} --help.{advice}")

    def _print_message(self, message: str, file: object = None) -> None:
        """Help is said as all else is."""
        for line in message.splitlines():
            output.say(line)


class Version(argparse.Action):
    """Tells the versions when they are asked for, and not before."""

    def __call__(self, parser: argparse.ArgumentParser, *_: object, **__: object) -> None:
        for line in versions():
            output.say(line)
        parser.exit()


def versions() -> list[str]:
    """weft's version, and what is known of the program and the library that it uses."""
    from weft import judges, packages, program

    told = [f"weft {__version__}"]
    path = program.find_program()
    if path:
        told.append(f"program {name_of(path)}: logic {program.logic_of(path)}, SHA-256 {program.digest_of(path)}")
    else:
        told.append("program: none is on the path")
    library = judges.library()
    if library:
        where = judges.library_path()
        logic = f"logic {program.logic_of(where)}, " if where else ""
        told.append(f"library {name_of(where or '')}: version {library.library.version()}, {logic}SHA-256 {judges.library_digest()}")
    else:
        told.append(f"library: none can be loaded: {judges.Unloaded.why}")
    told.append(f"Python reference: {'there, tested, not proved' if packages.HAS_REFERENCE else 'not there'}")
    return told


def parser_of(module: ModuleType, parser: argparse.ArgumentParser) -> None:
    """Gives a word's parser its help, its example and its words."""
    summary = WORDS[module.NAME]
    parser.description = f"{summary[0].upper()}{summary[1:]}. {module.DETAILS}"
    parser.epilog = "example:\n" + "\n".join(f"  {line}" for line in module.EXAMPLE.splitlines())
    parser.formatter_class = Formatter
    module.add(parser)
    parser.set_defaults(run=module.run)


class Formatter(argparse.RawDescriptionHelpFormatter):
    """Fills the description, and leaves the example as it is."""

    def _fill_text(self, text: str, width: int, indent: str) -> str:
        """The description filled, the example as it is."""
        if text.startswith("example:"):
            return super()._fill_text(text, width, indent)
        return argparse.HelpFormatter._fill_text(self, text, width, indent)


def parser(words_given: Sequence[str]) -> Parser:
    """The parser of the word that is given first; where it is none, the names of all, of which none is loaded."""
    return parser_for(words_given[0] if words_given[:1] and words_given[0] in WORDS else None)


@functools.lru_cache(maxsize=None)
def parser_for(known: Optional[str]) -> Parser:
    """The parser of a word, or of the names of all."""
    example = "example:\n  weft line /srv/log --sign ~/.ssh/id_ed25519"
    whole = Parser(prog="weft", description=ABOUT, epilog=example, formatter_class=Formatter, allow_abbrev=False)
    whole.add_argument("--version", nargs=0, action=Version, help="tells the versions and digests of weft and of what it uses")
    words = whole.add_subparsers(metavar="WORD", required=True, parser_class=Parser)
    for word in [known] if known else WORDS:
        below = words.add_parser(word, help=WORDS[word], allow_abbrev=False)
        if known:
            parser_of(module_of(word), below)
    return whole


def ordered(words: Sequence[str]) -> list[str]:
    """The words of a command, its options in front of the others."""
    if words[0] not in WORDS:
        return [*words]
    alone = Parser(allow_abbrev=False)
    parser_of(module_of(words[0]), alone)
    return [words[0], *order_words(words[1:], alone.counts)]


def meant(words: Sequence[str]) -> Sequence[str]:
    """The words that are meant: `help` stands for --help, also behind it of a word. Raises Trouble where there is none."""
    if not words:
        raise Trouble(Status.USAGE, f"no word is named; they are {listed(list(WORDS))}", "See weft --help, or weft WORD --help.")
    return [*words[1:2], "--help"] if words[0] == "help" else words


def ended(words: Sequence[str]) -> Status:
    """Runs the command; answers its status."""
    words = meant(words)
    options = parser(words).parse_args(ordered(words))
    status: Status = options.run(options)
    return status


def run(words: Sequence[str]) -> Status:
    """Runs the command, and tells the trouble that ended it, where one did; in JSON too, where that is asked for."""
    told = None
    try:
        status = ended(words)
    except Trouble as trouble:
        status, told = trouble.status, trouble.describe()
    except OSError as failure:
        what = f"{name_of(os.fsdecode(failure.filename))}: " if isinstance(failure.filename, (str, bytes)) else ""
        why = os.strerror(failure.errno) if failure.errno else printable(str(failure))
        status, told = Status.DISK, f"{what}{why}. What was there before stands; the next run goes on."
    if "--json" in itertools.takewhile(lambda word: word != "--", words):
        output.end_json(status, told)
    if told is not None:
        output.complain(told)
    return status


def main(words: Optional[Sequence[str]] = None) -> int:
    """Runs the command of these words, and tells what ended it."""
    output.prepare()
    try:
        return int(worst_of([run(sys.argv[1:] if words is None else words), *output.finish()]))
    except SystemExit as end:
        return max([end.code if isinstance(end.code, int) else int(Status.DONE), *map(int, output.finish())])
    except MemoryError:
        output.complain("there was no memory.")
        return int(Status.NO_MEMORY)
    except KeyboardInterrupt:
        output.complain("interrupted; the next run goes on.")
        return int(Status.STOPPED)
    except Exception:  # noqa: BLE001 - what nobody foresaw is told as a bug, with nothing raw in it
        for line in traceback.format_exc().splitlines():
            output.complain(printable(line))
        output.complain("this is a bug of weft: please report these lines.")
        return int(Status.BUG)
