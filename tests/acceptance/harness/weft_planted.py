"""Faults of weft that are planted to see that a search finds them: in which module, what stands there, and what is planted in its place."""

import importlib.abc
import importlib.machinery
import sys
from typing import NamedTuple

from harness.places import TOP


class Planted(NamedTuple):
    """A fault: what it is, the module of weft, the text that stands there once, and the one in its place."""

    what: str
    module: str
    old: str
    new: str


FAULTS = (
    Planted(
        "a store that lacks its last steps counts as the right one", "deciding.restoring",
        "0 and own != it.line:",
        "0 and own is not None and own != it.line:",
    ),
    Planted(
        "what was put back with all that stood beside it counts as what it was", "deciding.restoring",
        "return last.step > 0 and (seal is None or",
        "return last.step < 0 and (seal is None or",
    ),
    Planted(
        "after a restore any word of a peer counts, whenever it came", "deciding.restoring",
        "look.since + look.settled <= word.came",
        "0 <= word.came",
    ),
    Planted(
        "a line that came before ends a silence", "deciding.silence",
        "if heard is Heard.NEW:\n        return Silence(",
        "if heard is not Heard.NOTHING:\n        return Silence(",
    ),
    Planted(
        "what can't be opened counts as what isn't there", "deciding.silence",
        "number == NO_SUCH_FILE else",
        "number is not None else",
    ),
    Planted(
        "a file that has a link in its place is logged as gone", "deciding.gone",
        "    return Fate.REPLACED\n",
        "    return Fate.GONE\n",
    ),
    Planted(
        "a file whose size and times changed counts as the one that was read", "deciding.known",
        "*(number % WHOLE for number in state)",
        "*(0 * number for number in state)",
    ),
    Planted(
        "of a run that was killed the entries are cut off", "logs",
        "            if made is None:\n",
        "            if made is not None:\n",
    ),
    Planted(
        "a message is taken whoever signed its line", "exchange",
        "if self.settings.is_unsigned or any(self.key_of(it) is not None for it in same):",
        "if message.step:",
    ),
    Planted(
        "a line counts as signed whoever signed it", "exchange",
        "            key = signatures.checked(signed, self.signers, self.when_kept(signed) if signatures.has_days(self.signers, signed.line.service) else None)\n",
        '            key = "ED25519 SHA256:" + "x" * 43\n',
    ),
    Planted(
        "whoever asks gets the proof of any event", "asking",
        'if words[0] == "event" and not peer.may_ask(asked.listed(name), words[1], words[2]):',
        'if words[0] == "never":',
    ),
    Planted(
        "of several files the first one's status counts", "words.judge",
        "    return worst_of(statuses)\n",
        "    return statuses[0]\n",
    ),
    Planted(
        "two lines of one step are kept as if they were one", "deciding.keeping",
        "    if len(seen) == 1:\n",
        "    if len(seen) <= 2:\n",
    ),
    Planted(
        "a signed line is written over those before", "box",
        'self.renew("signed", whole)',
        'self.renew("signed", b"")',
    ),
    Planted(
        "the first entry of a file is proved, and not the last", "words.prove",
        "    if read.word != GONE:\n        found[read.path] = it\n",
        "    if read.word != GONE:\n        found.setdefault(read.path, it)\n",
    ),
)


def source_of(fault):
    """The source of the module of a fault."""
    return TOP / f"weft/{fault.module.replace('.', '/')}.py"


class Planter(importlib.abc.MetaPathFinder):
    """Loads one module of weft with a fault in it."""

    def __init__(self, fault):
        self.fault = fault

    def find_spec(self, name, path, target=None):
        """How the module is loaded; of another one nothing."""
        if name != f"weft.{self.fault.module}":
            return None
        source = source_of(self.fault)
        return importlib.machinery.ModuleSpec(name, Loader(name, str(source), self.fault), origin=str(source))


class Loader(importlib.machinery.SourceFileLoader):
    """Compiles the planted text, and keeps nothing of it."""

    def __init__(self, name, path, fault):
        super().__init__(name, path)
        self.fault = fault

    def get_code(self, name):
        """The code of the planted module."""
        text = self.get_data(self.path).decode()
        if text.count(self.fault.old) != 1:
            raise ImportError(f"{self.path} doesn't have once: {self.fault.old}")
        return compile(text.replace(self.fault.old, self.fault.new), self.path, "exec", dont_inherit=True)


def plant(number):
    """Plants a fault, before weft is loaded."""
    sys.meta_path.insert(0, Planter(FAULTS[number]))
