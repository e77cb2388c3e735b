#!/usr/bin/env python3
"""The forms of the command line: they stand in tools/forms.txt, and all else that names them follows from it.

    python3 tools/forms.py           writes the forms of tools/completion.bash, of the README's list and of the manual page's synopsis anew
    python3 tools/forms.py --check   tells where they differ from those of these three, the program's source, the headings of the manual page, the
                                     reference and the cases of words; writes nothing
"""

import json
import re
import sys
from pathlib import Path

TOP = Path(__file__).resolve().parent.parent
sys.path.insert(0, str(TOP / "reference"))

from command_line import reader_of_words, run_script  # noqa: E402
from timeweave_reference import words  # noqa: E402

# Words of which the README says nothing: the manual page has them.
MANUAL_ALONE = {"atlas", "watch", "offer", "heads", "replay", "generate"}

COMPLETION, README, MANUAL = TOP / "tools/completion.bash", TOP / "README.md", TOP / "docs/timeweave.1"


def groups():
    """What the forms are for, each with its forms and what each does, in the order of the file."""
    found = {}
    for line in (TOP / "tools/forms.txt").read_text().splitlines():
        if re.fullmatch(r"\[\w+\]", line):
            found[line[1:-1]] = []
        elif line and not line.startswith("#"):
            form, does = re.split(r"\s{2,}", line)
            list(found.values())[-1].append((form, does))
    return found


def forms():
    """The forms, in the order of the file."""
    return [form for listed in groups().values() for form, _ in listed]


def fixed(form):
    """The words of a form that stand for themselves."""
    return tuple(word for word in form.split() if word.islower())


# ---- what is written from them


def for_completion(form):
    """A form as the completion has it: with the word that may be left out, and FILE for each kind of file."""
    kinds = form.replace("[", "").replace("]", "").split()
    return " ".join("FILE" if kind in words.FILES else kind for kind in kinds)


def completed():
    """The forms of the completion."""
    return "".join(f'    "{form}"\n' for form in dict.fromkeys(map(for_completion, forms())))


def listed():
    """The README's list: a heading for each group, and behind each form what it does."""
    width = max(map(len, forms())) + 3
    lines = []
    for group, of_group in groups().items():
        rows = [f"      {form:{width}}{does}" for form, does in of_group if form.split()[0] not in MANUAL_ALONE]
        lines += [f"    to {group}", *rows] if rows else []
    return "".join(f"{line}\n" for line in lines)


def synopsis():
    """The manual page's synopsis: the forms, with a blank line between groups."""
    return "\n".join("".join(f"timeweave {form}\n" for form, _ in of_group) for of_group in groups().values())


# Each file that is written from the forms: what stands before them, and behind them.
WRITTEN = {
    COMPLETION: (r"_timeweave_forms=\(\n", r"^\)$", completed),
    README: (r"^## Commands\n\n", r"^\n", listed),
    MANUAL: (r"^\.SH SYNOPSIS\n\.nf\n", r"^\.fi$", synopsis),
}


def written(path):
    """A file's text with its forms written anew."""
    before, behind, made = WRITTEN[path]
    return re.sub(rf"({before}).*?({behind})", lambda marks: marks[1] + made() + marks[2], path.read_text(), count=1, flags=re.S | re.M)


# ---- what else names the forms


def of_source():
    """The forms that the docstrings of the program's commands name."""
    return re.findall(r"/// `(.*?)`:", (TOP / "crates/tw_words/src/command.rt").read_text())


def of_manual():
    """The forms that are headings of the manual page's commands."""
    return re.findall(r"^\.SS (.*)$", MANUAL.read_text().split("\n.SH COMMANDS\n")[1].split("\n.SH ")[0], re.M)


def of_cases():
    """The words that stand for themselves of the forms that cases of words are of."""
    given = [case["words"] for name in ("forms", "words") for case in json.loads((TOP / f"tests/acceptance/cases/{name}.json").read_text())]
    known = {fixed(form) for form in forms()}
    return {form for case in given for form in known if case[:1] == [form[0]] and (len(form) == 1 or case[2:3] == [form[1]])}


def differences():
    """What differs, a line each."""
    wanted = set(forms())
    named = {"crates/tw_words": of_source(), "the manual page": of_manual(), "the reference": words.FORMS}
    for place, found in named.items():
        yield from (f"{place} lacks `{form}`" for form in sorted(wanted - set(found)))
        yield from (f"{place} has `{form}`, which is none" for form in sorted(set(found) - wanted))
    if of_manual() != forms():
        yield "the manual page has the commands in another order"
    for path in WRITTEN:
        if written(path) != path.read_text():
            yield f"{path.relative_to(TOP)} isn't as `python3 tools/forms.py` writes it"
    yield from (f"no case of words is of `{' '.join(form)}`" for form in sorted({fixed(form) for form in wanted} - of_cases()))


def main():
    """Writes the forms, or tells where they differ."""
    words_of_line = reader_of_words(__doc__)
    words_of_line.add_argument("--check", action="store_true", help="write nothing, and tell where they differ")
    if words_of_line.parse_args().check:
        found = list(differences())
        print("\n".join(found), end="\n" * bool(found))
        return 1 if found else 0
    for path in WRITTEN:
        path.write_text(written(path))
    return 0


if __name__ == "__main__":
    run_script(main)
