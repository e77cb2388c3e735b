"""Cases of what the program answers of files, as the reference answers. What that is, is asked for once the case runs; so a case that isn't
to run costs no more than its files."""

from timeweave_reference import commands
from timeweave_reference.anchors import anchors_to_bytes


class Asked(dict):
    """A case whose status and output are what the reference answers; what else has to be so of them is looked at then too."""

    def __init__(self, given, has_to_be=()):
        super().__init__(given)
        self.has_to_be = list(has_to_be)

    def __missing__(self, key):
        if key not in ("status", "bytes"):
            raise KeyError(key)
        status, output = commands.answer(self["words"], self["files"])
        for holds in self.has_to_be:
            assert holds(status, output), (self["name"], status, output)
        self["status"], self["bytes"] = status, output
        return self[key]


def make_case(name, words, files):
    """The case of these words over files, as the reference answers them."""
    return Asked({"name": name, "files": files, "words": words})


def renamed(case, name):
    """The case under another name."""
    return Asked({**case, "name": name}, case.has_to_be) if isinstance(case, Asked) else {**case, "name": name}


# ---- what has to be so


def where(case, holds):
    """The case, of whose status and output this has to hold."""
    case.has_to_be.append(holds)
    return case


def answered(case, status, text):
    """The case, which has to be answered so."""
    return where(case, lambda found, output: (found, output) == (status, text.encode()))


def gives(case, data):
    """The case, which has to give these bytes."""
    return where(case, lambda found, output: (found, output) == (0, data))


def is_accepted(case):
    """The case, which has to be answered with status 0."""
    return where(case, lambda found, _: found == 0)


def told_first(case, text):
    """The case, of which this has to be told first."""
    return where(case, lambda _, output: output.startswith(text.encode()))


# ---- proofs


def make_proof_case(name, data, service, pos, auth):
    """The case of a proof under one line."""
    return make_case(name, ["verify", "p", service, str(pos), auth.hex()], {"p": data})


def judged_under(name, data, anchors, form="verify"):
    """The case of a proof under a file of anchors, in the form `verify` or `strict`."""
    return make_case(name, [form, "p", "k"], {"p": data, "k": anchors_to_bytes(anchors)})


# ---- groups

# The front of the names that are looked for, or none: groups of others are left out.
LOOKED_FOR = []


def grouped(*groups):
    """The cases of groups, each group's under its name. A group none of whose names is looked for isn't made."""
    for group in groups:
        front = f"{group.__name__}: "
        if not LOOKED_FOR or any(name.startswith(front) or front.startswith(name) for name in LOOKED_FOR):
            for case in group():
                yield renamed(case, f"{front}{case['name']}")
