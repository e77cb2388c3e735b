"""What the sources of a crate declare: its public functions with their clauses and claims, and the definitions of each module of its
`specs`. A claim is the plain comment right above a clause of a public function, and says in words what the clause says; the record of which
a clause may be has its comments where it is defined."""

import re
from functools import lru_cache
from pathlib import Path
from typing import Callable, Dict, Iterable, List, Mapping, NamedTuple, Optional, Set, Tuple

from command_line import reader_of_words

TOP = Path(__file__).resolve().parent.parent

# A function with its contract, whose comments may end as its head does; a clause with the comment above it; the head of a block of methods,
# with the type that they are of; a definition, constructor or field.
FUNCTION = re.compile(r"^ *(pub )?(?:extern \"C\" )?fn (\w+)((?:^ *//[^\n]*\n|(?!^ *//).)*?)(?:^ *\{|[{;]$)", re.M | re.S)
CLAUSE = re.compile(r"((?:^ *//.*\n)*)^ *ensures\*? (?:(\w+) )?\{\s*([\w'-]*)", re.M)
BLOCK = re.compile(r"^(?:impl(?:<[^\n]*?>)? (?:(\w+)[^\n]* for )?|pub trait ())(\w+).*?^\}", re.M | re.S)
DEFINITION = re.compile(r"^( *)(?:(?:pub|abbrev|unfoldable) )*(?:(?:data|record) ([\w'-]+)|([\w'-]+)(?:, [\w'-]+)* :)", re.M)
ITEM = re.compile(r"\b(?:fn|struct|enum|trait|ghost|const) (\w+)|^ {4}([A-Z]\w*)(?:\(.*\)| \{)?,?", re.M)


class Claim(NamedTuple):
    """What a clause of a public function says, in words, if any; the clause has no name where it is the function's only one. Its term begins
    with a name, where it does."""

    file: Path
    function: str
    clause: str
    words: str
    begins: str = ""


class Crate:
    """What one crate declares."""

    def __init__(self, folder: Path) -> None:
        root = "src/lib.rt" if (folder / "src/lib.rt").exists() else "src/main.rt"
        files = sorted(folder.glob("src/**/*.rt"))
        sources = [path.read_text() for path in files]
        self.handed_out = set(re.findall(r"\w+", " ".join(re.findall(r"^pub use (.*?);", (folder / root).read_text(), re.M | re.S))))
        self.functions: Dict[str, Set[str]] = {}
        self.clauses: List[Claim] = []
        for path, text in zip(files, sources):
            self.add_functions(path, text)
        self.modules = {path.stem: definitions(path.read_text()) for path in sorted(folder.glob("specs/**/*.antt"))}
        self.items = {name for text in sources for pair in ITEM.findall(text) for name in pair if name}

    def add_functions(self, path: Path, text: str) -> None:
        """Adds what others may call: the functions that the root hands out, and methods that are public or of a trait, each by its name
        and, behind its type's, once more; and the clauses of all that the root hands out."""
        blocks = list(BLOCK.finditer(text))
        for match in FUNCTION.finditer(text):
            block = next((block for block in blocks if block.start() < match.start() < block.end()), None)
            is_of_trait = block and (block[1] or block[2] == "")
            if not (is_of_trait or match[1] and (block or match[2] in self.handed_out)):
                continue
            names = [match[2], f"{block[3]}::{match[2]}"] if block else [match[2]]
            clauses = CLAUSE.findall(match[3])
            for name in names:
                self.functions.setdefault(name, set()).update(clause for _, clause, _ in clauses if clause)
            if not block or block[3] in self.handed_out:
                self.clauses += [Claim(path, names[-1], clause, plain(above), begins) for above, clause, begins in clauses]

    def names(self) -> Set[str]:
        """All names that stand in the crate."""
        return self.items.union(self.functions, self.modules, *(module for module in self.modules.values()))

    def members(self, owner: str) -> Optional[Set[str]]:
        """What stands in a module or a record, or the clauses of a function; None where there is no such owner."""
        known: List[Mapping[str, Iterable[str]]] = [self.functions, self.modules, *self.modules.values()]
        found = [members[owner] for members in known if owner in members]
        return {name for names in found for name in names} if found else None


def plain(comment: str) -> str:
    """The words of a comment, in one line."""
    return " ".join(line.strip().lstrip("/!").strip() for line in comment.splitlines())


def definitions(text: str) -> Dict[str, Set[str]]:
    """The names that a module declares, each with those below it where it is a record or data."""
    found: Dict[str, Set[str]] = {}
    owners: List[Tuple[int, str]] = []
    for indent, head, other in DEFINITION.findall(text):
        name = head or other
        owners = [(depth, owner) for depth, owner in owners if depth < len(indent)]
        found.setdefault(name, set())
        for _, owner in owners:
            found[owner].add(name)
        if head:
            owners.append((len(indent), name))
    return found


def root_words(name: str) -> str:
    """What a crate's root file says that the crate is."""
    root = next(path for path in ("src/lib.rt", "src/main.rt") if (TOP / "crates" / name / path).exists())
    first = re.match(r"(?://.*\n)+", (TOP / "crates" / name / root).read_text())
    return plain(first[0]) if first else ""


@lru_cache(maxsize=None)
def crates() -> Dict[str, Crate]:
    """The crates of the repository, by name."""
    return {folder.name: Crate(folder) for folder in sorted((TOP / "crates").iterdir()) if (folder / "src").is_dir()}


# ---- what the pages that are made of the sources have in common


def known_crates(names: List[str], refuse: Callable[[str], object]) -> List[str]:
    """These names, where each is one of a crate; else `refuse` is called with what is wrong."""
    for name in names:
        if name not in crates():
            refuse(f"there is no crate {name}")
    return names


def write_or_print(text: str, path: Optional[Path]) -> None:
    """Writes a page into a file, whose folder is made, or prints it where none is named."""
    if path:
        path.parent.mkdir(parents=True, exist_ok=True)
        path.write_text(f"{text}\n")
    else:
        print(text)


def print_page(page: Callable[[List[str]], str], about: Optional[str]) -> None:
    """Writes or prints the page of the crates that the command line names."""
    words = reader_of_words(about)
    words.add_argument("crates", nargs="*", metavar="CRATE", help="a crate; all of them if none is named")
    words.add_argument("--to", type=Path, metavar="FILE", help="where it is written, if it isn't printed")
    chosen = words.parse_args()
    write_or_print(page(known_crates(chosen.crates, words.error)), chosen.to)
