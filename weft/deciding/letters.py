"""Lines as they stand in letters: their digits in groups of four, with letters that check each row and the whole; and what was typed wrong where one is read
from a text that somebody typed, as from a letter or a mail. The page reads them by the same rules (web/page/letters.mjs)."""

from __future__ import annotations

import hashlib
import re
from enum import Enum
from typing import NamedTuple, Optional, Sequence

from weft.deciding.lines import LAST_STEP, NAME, Line, read_kept

DIGITS, GROUP, ROW = 64, 4, 16
# None of the letters that check is a digit, or looks like one. There are as many as the prime number by which sums are taken.
LETTERS = "GHJKLMNPQRTUVWXYZ"
PRIME = len(LETTERS)
STEP = re.compile(r"[1-9][0-9]{0,12}|0")
PIECE = re.compile(r"[0-9A-Za-z]{1,128}")
CHECKS = re.compile(rf"[{LETTERS}]{{2}}|[{LETTERS}]{{4}}")
HEX = "0123456789abcdef"
# A text has a line where so many characters stand behind a name and a step, of which no more than one in so many can't be a digit.
FEWEST, SHARE = 24, 6
# What is meant by a letter that can't be a digit, where it looks or is written like one.
MEANT = {"o": "0", "i": "1", "l": "1", "z": "2", "s": "5", "g": "9", "q": "9"}
QUOTE_MARKS = re.compile(r"[ \t]*(?:>[ \t]*)+")
BEHIND = ":;,."
# What stands above and below a line in a letter that weft writes.
ABOVE = "# The line of step {step} of {service}. Behind each row of digits stand two letters that check it, and below all four that check the whole."
BELOW = "# Keep this letter. Whoever types the digits: weft keep FILE --by letter, or the field for lines of the web page, tells what was typed wrong."
OWN_WORDS = re.compile("|".join(re.escape(text).replace(r"\{step\}", "[0-9]{1,13}").replace(r"\{service\}", "[a-z0-9-]{1,16}") for text in (ABOVE, BELOW)))
DATE = re.compile(r"[0-9]{4}-[0-9]{2}-[0-9]{2}T[0-9]{2}:[0-9]{2}:[0-9]{2}Z")


class Fault(Enum):
    """What is wrong with a line that was typed."""

    SHORT = "digits short"
    LONG = "digits long"
    CHARACTER = "digit wrong"
    ROW = "row check"
    WHOLE = "whole check"
    ALONE = "digits alone"


class Slip(NamedTuple):
    """Where two digests differ in one digit, or in two neighbours that are swapped: the places, from 0 on, and what stands there in the one and in the other."""

    places: tuple[int, ...]
    one: str
    other: str

    @property
    def where(self) -> str:
        """The places as people count them, from 1 on."""
        return " and ".join(f"digit {place % GROUP + 1} of group {place // GROUP + 1}" for place in self.places)


class Typed(NamedTuple):
    """A line that was read from a text: in which line of the text it begins, from 1 on, its service and step, its digits as they were typed, and what is wrong: a
    fault with the row that it is of, from 1 on, and what else is to be said of it; None where nothing is."""

    number: int
    service: str
    step: int
    digits: str
    fault: Optional[Fault] = None
    row: int = 0
    said: str = ""

    @property
    def line(self) -> Optional[Line]:
        """The line, where nothing is wrong with it."""
        return None if self.fault is not None else Line(self.service, self.step, self.digits)


# ---- the letters that check


def letters_of(numbers: Sequence[int]) -> str:
    """Numbers as letters."""
    return "".join(LETTERS[number % PRIME] for number in numbers)


def sums_of(row: str, number: int) -> tuple[int, int]:
    """The sum of a row's digits, and that of each digit times its place, both with the row's number, by a prime number: one wrong digit changes both, and the
    two changes tell its place; two swapped ones change the second."""
    digits = [HEX.index(digit) for digit in row]
    return (sum(digits) + number) % PRIME, (sum(place * digit for place, digit in enumerate(digits, 1)) + number) % PRIME


def check_row(row: str, number: int) -> str:
    """A row of sixteen digits, of which this is the number from 1 on, is checked by two letters."""
    return letters_of(sums_of(row, number))


def check_whole(line: Line) -> str:
    """A line, its name and step too, is checked by four letters, which are made of its digest."""
    number = int.from_bytes(hashlib.sha256(line.text.encode()).digest(), "big")
    return letters_of([number // PRIME**place for place in range(4)])


def rows_of(line: Line) -> list[str]:
    """The digits of a line in four rows."""
    return [line.authenticator[at : at + ROW] for at in range(0, DIGITS, ROW)]


def grouped(digits: str) -> str:
    """Digits in groups, as people compare them."""
    return " ".join(digits[at : at + GROUP] for at in range(0, len(digits), GROUP))


def write_letter(line: Line) -> list[str]:
    """A line is written as its name and step, four rows of four groups with their letters, and the letters of the whole."""
    rows = [f"{grouped(row)}  {check_row(row, number)}" for number, row in enumerate(rows_of(line), 1)]
    return [f"{line.service} {line.step}", *rows, check_whole(line)]


# ---- what was typed wrong


def find_slip(one: str, other: str) -> Optional[Slip]:
    """Two digests of which one digit differs, or two neighbours are swapped, are one that was typed wrong: nobody can make two that differ so little."""
    places = [place for place, (here, there) in enumerate(zip(one, other)) if here != there]
    is_swapped = len(places) == 2 and places[1] == places[0] + 1 and one[places[0]] == other[places[1]] and one[places[1]] == other[places[0]]
    if len(places) != 1 and not is_swapped:
        return None
    return Slip(tuple(places), "".join(one[place] for place in places), "".join(other[place] for place in places))


def guess_of(row: str, number: int, letters: str) -> Optional[Slip]:
    """Where one digit of a row is wrong, its letters tell which one, and what belongs there; else the answer is None."""
    first, second = ((LETTERS.index(letter) - is_) % PRIME for letter, is_ in zip(letters, sums_of(row, number)))
    place = second * pow(first, -1, PRIME) % PRIME if first else 0
    right = (HEX.index(row[place - 1]) + first) % PRIME if place else PRIME
    return Slip((place - 1,), row[place - 1], HEX[right]) if 1 <= place <= ROW and right < len(HEX) else None


def told_guess(row: str, number: int, letters: str) -> str:
    """What is said of a row that its letters don't fit: which digit is wrong if one is."""
    slip = guess_of(row, number, letters)
    return "" if slip is None else f"{slip.where}: {slip.other}, and not {slip.one}"


# ---- reading


class Word(NamedTuple):
    """A word of a text, the number of its line there, from 1 on, whether that begins with it, and whether that is somebody else's, as a mail quotes it."""

    text: str
    number: int
    is_first: bool
    is_quoted: bool = False


def is_taken_out(line: str) -> bool:
    """What stands behind # in a line of a text isn't read where it is a line alone, or one as it was kept, with its date: whoever keeps the text took that out; nor what
    letters say that weft writes. Any other such line, as a heading is, has words that may say anything of the lines beside it."""
    if not line.startswith("#"):
        return False
    kept = read_kept(line.lstrip("#").strip())
    return OWN_WORDS.fullmatch(line.strip()) is not None or (kept is not None and (not kept.date or DATE.fullmatch(kept.date) is not None))


def words_of(text: str) -> list[Word]:
    """The words of a text, of a mail that was quoted too; blanks of any kind are blanks, and what nobody sees is none. What was taken out isn't read."""
    lines = [(QUOTE_MARKS.sub("", line, count=1), QUOTE_MARKS.match(line) is not None) for line in re.sub("[\u200b\u2060\ufeff]", "", text).splitlines()]
    read = ((number, line, is_quoted) for number, (line, is_quoted) in enumerate(lines, 1) if not is_taken_out(line))
    return [Word(word, number, place == 0, is_quoted) for number, line, is_quoted in read for place, word in enumerate(line.split())]


def begins(words: Sequence[Word], at: int) -> bool:
    """A line may begin where a name and a step stand at the front of a line of the text, and digits behind them: amid a sentence anything may be said of them."""
    if at + 2 >= len(words) or not words[at].is_first or not NAME.fullmatch(words[at].text.lower()) or not STEP.fullmatch(words[at + 1].text.rstrip(BEHIND)):
        return False
    return int(words[at + 1].text.rstrip(BEHIND)) <= LAST_STEP and is_piece(words[at + 2].text)


def is_piece(word: str) -> bool:
    """A word is a piece of a line's digits where nearly all of its letters can be digits."""
    strange = sum(letter not in HEX for letter in word.lower())
    return PIECE.fullmatch(word) is not None and strange * 4 <= len(word)


class Taken(NamedTuple):
    """What was taken behind a name and a step: the digits, the letters that check with the count of digits before each, and the place of the next word."""

    digits: str
    checks: list[tuple[str, int]]
    end: int


def take_digits(words: Sequence[Word], at: int) -> Taken:
    """The digits of a line go on over words and lines until there are 64, something else comes, or a line of the text begins with the next line's name; a further
    group beside the last one is one too many. Letters that check them stand between and behind."""
    digits, checks, start, size = "", list[tuple[str, int]](), at, 0
    while at < len(words):
        word = words[at]
        is_behind = len(digits) >= DIGITS and not (len(word.text) == size == GROUP and not word.is_first)
        if CHECKS.fullmatch(word.text) and digits:
            checks.append((word.text, len(digits)))
        elif is_behind or not is_piece(word.text) or (at > start and word.is_first and is_next_line(words, at)):
            break
        else:
            digits, size = digits + word.text.lower(), len(word.text)
        at += 1
    return Taken(digits, checks, at)


def is_next_line(words: Sequence[Word], at: int) -> bool:
    """Another line begins where one may, and its first two words aren't two groups of digits."""
    return begins(words, at) and not (len(words[at].text) == len(words[at + 1].text) == GROUP and all(letter in HEX for letter in words[at].text))


class Read(NamedTuple):
    """What was read of a text: its lines, each with what is wrong with it, and the numbers of the text's lines in which anything else stands, or that somebody quotes."""

    typed: list[Typed]
    others: list[int]


def read_typed(text: str) -> Read:
    """The lines of a text, each with what is wrong with it: a name and a step, and behind them digits in pieces of any length. Of too few characters behind a name and a
    number nothing is said, since any text may have these; of many without these, that they stand alone."""
    words, found, others, at = words_of(text), list[Typed](), dict[int, None](), 0
    while at < len(words):
        taken = take_digits(words, at + 2) if begins(words, at) else None
        strange = sum(letter not in HEX for letter in taken.digits) if taken is not None else 0
        if taken is None or len(taken.digits) < FEWEST or strange * SHARE > len(taken.digits):
            if len(words[at].text) >= FEWEST and is_piece(words[at].text):
                found.append(Typed(words[at].number, "", 0, words[at].text.lower(), Fault.ALONE))
            others[words[at].number] = None
            at += 1
            continue
        found.append(judge_typed(Typed(words[at].number, words[at].text.lower(), int(words[at + 1].text.rstrip(BEHIND)), taken.digits), taken))
        others |= dict.fromkeys(word.number for word in words[at : taken.end] if word.is_quoted)
        at = taken.end
    return Read(found, sorted(others))


def judge_typed(typed: Typed, taken: Taken) -> Typed:
    """What is wrong with a line's digits is told by the first thing that is: a character that can't be, a row or a line of another length, a row and then a whole
    that their letters don't fit."""
    place = next((place for place, letter in enumerate(taken.digits) if letter not in HEX), None)
    if place is not None:
        letter = taken.digits[place]
        meant = f" (is it {MEANT[letter]}?)" if letter in MEANT else ""
        return typed._replace(fault=Fault.CHARACTER, row=place // ROW + 1, said=f"{letter} as digit {place % GROUP + 1} of group {place // GROUP + 1}{meant}")
    return wrong_length(typed, taken) or wrong_row(typed, taken) or wrong_whole(typed, taken) or typed


def wrong_length(typed: Typed, taken: Taken) -> Optional[Typed]:
    """A line has 64 digits, and each row that is checked has 16: the first one that hasn't is told."""
    ends = [count for letters, count in taken.checks if len(letters) == 2]
    for row, (begin, end) in enumerate(zip([0, *ends], ends), 1):
        if end - begin != ROW:
            fault = Fault.SHORT if end - begin in range(ROW) else Fault.LONG
            return typed._replace(fault=fault, row=row, said=f"row {row} has {end - begin} digits, and not {ROW}")
    count = len(typed.digits)
    if count == DIGITS:
        return None
    rest = f"group {count // GROUP + 1} has {count % GROUP}" if count % GROUP else f"group {count // GROUP} is the last one"
    fault, said = (Fault.SHORT, rest) if count in range(DIGITS) else (Fault.LONG, f"digit {DIGITS + 1} is behind the end")
    return typed._replace(fault=fault, row=min(count // ROW + 1, DIGITS // ROW), said=said)


def wrong_row(typed: Typed, taken: Taken) -> Optional[Typed]:
    """The first row that its two letters don't fit."""
    for letters, count in taken.checks:
        row, number = typed.digits[count - ROW : count], count // ROW
        if len(letters) == 2 and check_row(row, number) != letters:
            return typed._replace(fault=Fault.ROW, row=number, said=told_guess(row, number, letters))
    return None


def wrong_whole(typed: Typed, taken: Taken) -> Optional[Typed]:
    """A line that the four letters of the whole don't fit."""
    line = Line(typed.service, typed.step, typed.digits)
    is_wrong = any(len(letters) == 4 and letters != check_whole(line) for letters, _ in taken.checks)
    return typed._replace(fault=Fault.WHOLE) if is_wrong else None

