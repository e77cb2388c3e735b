"""The sources keep the project's own rules: long functions say why they are, attributes fit on a line, files of lemmas say what they are
of, tests stand in crates of their own, crates are small, no chain of crates is long, a definition's name stands for one thing and a body has
one name, little stands twice, want of memory has a cause, the gate tries one wrong body of a crate and those that are named here, and each worked example has its
tests."""

import ast
import json
import os
import re
import shutil
import subprocess
import sys
from collections import Counter
from pathlib import Path

import body_batches
import body_trials
import leave_out
import same_bodies
import theorem
import twins
import wrong_bodies
from crates import height, read_crates

from cases.worked import ROWS
from harness.places import ACCEPTANCE, TOP
from harness.rooms import checked
from texts.ways_out import other_ways, unfound

LONGEST = 40

# The most columns of an attribute, which `rt fmt` lays out as one line. A longer list of definitions has a name of its own in `specs/Seen`.
WIDEST = 140

# A crate's most lines of code and functions, and the longest chain of crates.
MOST_LINES, MOST_FUNCTIONS, MOST_HEIGHT = 1500, 100, 8

# The pairs of files that may share six lines in a row, as tools/twins.py counts them. The number only falls: who takes a pair away lowers it.
MOST_TWINS = 38

# The crates that have more, and how much at most: no crate comes in, no number rises but for a reason that docs/DECISIONS.md tells, and one
# that has no more than the others goes.
LARGE = {
    "tw_base": (3202, 162),
    "tw_history": (2124, 108),
    "tw_hostio": (1605, 93),
    "tw_skiplist": (1582, 100),
    "tw_verifier": (1994, 100),
}

# The names that stand for a definition in two modules of `specs`: one notion over two subjects, which a reader always sees with their module.
# Each line tells why. There are at most so many, and a name that stands for one definition alone goes from the list.
MOST_TWICE = 39
TWICE = {
    "a form in the two tables of forms, of a script's lines and of the command line": """Form ReadsWords TakesWords any_number append choose_form
        end form_named join maybe maybe_number name_form next no_words number_form proofs prove then_form verify""",
    "a part of the two values over a store, the service and the follower": "HasSameDisk IsOver disk_of has_failed head_of pages_of record_of",
    "a part of the two root records, the service's and the follower's": "FitsStore IsAllowed root_bytes root_codec root_kind",
    "what an image stands for: of a service, of a follower, and of a store of any kind": """IsBlankOrNew IsNotOpenedFor IsServed OpensWith
        StandsFor StandsForOneOf""",
    "one thing done after another, of a format and of pages": "◌>>=◌",
}

# The names that stand for a type of code in two files of `src`. There are at most so many: who renames one, or makes one of two, lowers it.
MOST_TYPES_TWICE = 21
TYPES_TWICE = """Answer Command Found Heard Hop Judged Judgement Link Part Place Planned RootRecord Shown Side Slot Stop Store Summary Table Taken
    Told"""


def files(pattern):
    """The files of the repository: where it is a checkout, those that git keeps."""
    git = shutil.which("git")
    listed = subprocess.run([git, "ls-files", "-z"], cwd=TOP, capture_output=True, text=True, check=False) if git else None
    is_checkout = listed and listed.returncode == 0
    names = listed.stdout.split("\0") if is_checkout else [str(path.relative_to(TOP)) for path in TOP.rglob("*")]
    paths = (TOP / name for name in names if name and "/out/" not in name and Path(name).match(pattern))
    return [path for path in paths if path.is_file()]


def functions(lines):
    """The functions of a file: name, the comment above, and how many lines stand between the braces."""
    for start, line in enumerate(lines):
        head = re.match(r"( *)(?:pub(?:\(\w+\))? )?fn (\w+)", line)
        if not head:
            continue
        indent = head[1]
        opening = re.compile(rf"{indent}(?:\S.*)?\{{$")
        begin = next((i for i in range(start, len(lines)) if opening.match(lines[i])), len(lines))
        end = next((i for i in range(start, len(lines)) if re.match(rf"{indent}\}}?$", lines[i]) and lines[i].strip()), len(lines))
        above = start
        while above and re.match(r" *(//|#\[)", lines[above - 1]):
            above -= 1
        yield head[2], "\n".join(lines[above:start]), end - begin - 1


def long_functions(program):
    """The functions of more than 40 lines above which no comment says why they are long."""
    wrong = []
    for path in files("*.rt"):
        for name, comment, count in functions(path.read_text().split("\n")):
            if count > LONGEST and not re.search(r"//.*\blong", comment):
                wrong.append(f"  {path.relative_to(TOP)}: {name} has {count} lines, and no comment says why it is long")
    return "\n".join(wrong) or None


def wide_attributes(program):
    """The attributes of more than 140 columns."""
    wrong = []
    for path in files("*.rt"):
        for number, line in enumerate(path.read_text().split("\n"), 1):
            if re.match(r"\s*#!?\[", line) and len(line) > WIDEST:
                wrong.append(f"  {path.relative_to(TOP)}:{number}: an attribute of {len(line)} columns, at most {WIDEST} are allowed")
    return "\n".join(wrong) or None


def lemma_files(program):
    """The files of lemmas that don't begin with a line that says what they are of."""
    lemmas = [path for path in files("*.antt") if (path.parent.name == "proofs" or "lemmas" in path.parts) and path.name != "Lib.antt"]
    wrong = [path for path in lemmas if not path.read_text().startswith("-- ")]
    return "\n".join(f"  {path.relative_to(TOP)}" for path in wrong) or None


def tests_elsewhere(program):
    """The files with tests outside the crates of tests: a crate that has some is proved twice."""
    wrong = [path for path in files("*.rt") if re.search(r"#\[(cfg\()?test\b", path.read_text())]
    return "\n".join(f"  {path.relative_to(TOP)}" for path in wrong if not path.parent.parent.name.endswith("tests")) or None


def size(name):
    """How many lines of code a crate has, and how many functions."""
    sources = [path.read_text().splitlines() for path in files("*.rt") if path.relative_to(TOP).parts[:2] == ("crates", name)]
    return sum(map(len, sources)), sum(len(list(functions(lines))) for lines in sources)


def crate_sizes(program):
    """The crates that are larger than they may be, and those that are no longer among the large ones."""
    wrong = []
    for name in read_crates():
        lines, count = size(name)
        most_lines, most_count = LARGE.get(name, (MOST_LINES, MOST_FUNCTIONS))
        if lines > most_lines or count > most_count:
            wrong.append(f"  {name} has {lines} lines and {count} functions, at most {most_lines} and {most_count} are allowed")
        elif name in LARGE and lines <= MOST_LINES and count <= MOST_FUNCTIONS:
            wrong.append(f"  {name} has {lines} lines and {count} functions, so it needs no line in LARGE")
    return "\n".join(wrong) or None


def handed_out(program):
    """The free functions of libraries that say `pub` and that their crate doesn't hand out: within a crate they are `pub(crate)`."""
    wrong = []
    for crate in (name for name in read_crates() if (TOP / "crates" / name / "src/lib.rt").exists()):
        texts = {path: path.read_text() for path in files("*.rt") if f"/crates/{crate}/src/" in str(path)}
        given = set(re.findall(r"\w+", " ".join(use for text in texts.values() for use in re.findall(r"pub use [^;]*;", text))))
        for path, text in texts.items():
            names = re.findall(r"^pub fn (\w+)", text, re.M) if path.name != "lib.rt" else []
            wrong += [f"  {path.relative_to(TOP)}: {name}" for name in names if name not in given]
    return "\n".join(wrong) or None


# What a parameter of a function for C is in the header; the allocator is none.
C_PARAMETERS = {
    "&[u8]": "const uint8_t *{0}, size_t {0}_size",
    "&mut [u8]": "uint8_t *{0}, size_t room",
    "&mut usize": "size_t *{0}",
    "Global": "",
}

# How the contract of a function for C begins, where another function for C has the same parameters: no prover tells their names apart.
C_CLAUSES = {"timeweave_verify": "IsVerifierAnswer false proof.now anchors.now", "timeweave_strict": "IsVerifierAnswer true proof.now anchors.now"}


def header(program):
    """The functions for C whose parameters the header has otherwise, or whose contract is another function's."""
    exports = (TOP / "crates/timeweave_c/src/exports.rt").read_text()
    declared = re.sub(r"\s+", " ", (TOP / "include/timeweave.h").read_text())
    wrong = []
    for name, inside, contract in re.findall(r'pub extern "C" fn (\w+)\(([^)]*)\)(.*?)\n\{', exports, re.S):
        parameters = [parameter.split(": ") for parameter in re.findall(r"\w+: [^,\n]+", inside)]
        wanted = ", ".join(filter(None, (C_PARAMETERS[kind].format(parameter) for parameter, kind in parameters)))
        given = re.findall(rf"\w+ {name}\(([^)]*)\);", declared)
        if given != [wanted]:
            wrong.append(f"  {name} is ({wanted}), and the header has {given}")
        if f"ensures {{ {C_CLAUSES.get(name, '')}" not in contract and name in C_CLAUSES:
            wrong.append(f"  {name} doesn't ensure `{C_CLAUSES[name]}`")
    return "\n".join(wrong) or None


# A definition that other modules may use; the head of a block whose lines are fields or constructors.
DEFINITION = re.compile(r" *(?:(?:abbrev|unfoldable) )*pub (?:(?:abbrev|unfoldable|record|data) )*(?!(?:mod|use) )([^\s:({]+)(?=[\s:({])")
BLOCK = re.compile(r" *(?:(?:abbrev|unfoldable|pub) )*(?:record|data) ")


def definitions(text):
    """The names of the definitions of a module, without their fields and constructors."""
    block = None
    for line in text.splitlines():
        indent = len(line) - len(line.lstrip())
        if not line.strip() or line.lstrip().startswith("--") or block is not None and indent > block:
            continue
        block = indent if BLOCK.match(line) else None
        definition = DEFINITION.match(line)
        if definition:
            yield definition[1]


def names_twice(program):
    """The names of definitions in two modules that aren't listed, and those that are listed and don't stand twice."""
    known = {}
    for path in files("*.antt"):
        parts = path.relative_to(TOP).parts
        if parts[0] == "crates" and parts[2] == "specs" and "contracts" not in parts:
            for name in definitions(path.read_text()):
                known.setdefault(name, set()).add(f"{parts[1]}/{path.stem}")
    listed = " ".join(TWICE.values()).split()
    twice = {name for name, modules in known.items() if len(modules) > 1}
    wrong = [f"  {name} is defined in {', '.join(sorted(known[name]))}" for name in sorted(twice.difference(listed))]
    wrong += [f"  {name} stands for one definition, and needs no reason" for name in sorted(set(listed).difference(twice))]
    wrong += [f"  {len(listed)} names stand for two definitions, at most {MOST_TWICE} may"] * (len(listed) > MOST_TWICE)
    return "\n".join(wrong) or None


def bodies_twice(program):
    """The definitions, and the functions of the code, that have one body and two names; and the types of code that stand in two files."""
    definitions, functions, types = same_bodies.find_twice()
    wrong = [f"  {same_bodies.name_places(where)} have one body" for where in definitions + functions]
    listed = TYPES_TWICE.split()
    twice = {where[0][0]: where for where in types}
    wrong += [f"  {same_bodies.name_places(twice[name])} have one name" for name in sorted(set(twice).difference(listed))]
    wrong += [f"  {name} is one type of the code, and goes from TYPES_TWICE" for name in sorted(set(listed).difference(twice))]
    wrong += [f"  {len(listed)} names stand for two types, at most {MOST_TYPES_TWICE} may"] * (len(listed) > MOST_TYPES_TWICE)
    return "\n".join(wrong) or None


# Where the sources say that there was no memory, but to hand on what said so: `file: function`, with the number of places where there
# are more than one, by what it comes from. Status 6 comes from nothing else. No type holds that: neither `NoMemory` nor the variants of faults that hand it on have a field.
WANTS = {
    "an allocation that was refused": """
        timeweave/src/words.rt: read_argument, timeweave_c/src/exports.rt: tell_no_memory, tw_app/src/ending.rt: end_without_memory, tw_base/src/kinds/label_list.rt: push,
        tw_base/src/kinds/label_list.rt: with_capacity, tw_rbtree/src/listing.rt: child_on_heap, tw_follow/src/follower.rt: move_to,
        tw_script/src/word_values.rt: bytes_of""",
    "one that was refused in an earlier call on the same value": """
        tw_audit/src/keys.rt: into_repeated, tw_audit/src/table.rt: into_pair, tw_pieces/src/feeding.rt: feed,
        tw_pieces/src/feeding.rt: finish""",
    "a count beyond 64 bits, or beyond the pages that there may be": """
        tree_pages/src/versions.rt: insert, tw_disk/src/memory_disk.rt: see_countable, tw_export/src/events.rt: add_events,
        tw_export/src/nodes.rt: side_number, tw_export/src/received.rt: take_in, tw_pieces/src/resumed.rt: feed""",
    "a fault of a disk in memory, which isn't stopped": """
        tw_generate/src/telling.rt: given, tw_generate/src/telling.rt: service_made, tw_world/src/serving.rt: end_line,
        tw_world/src/serving.rt: given, tw_world/src/serving.rt: see_stopped, tw_world/src/serving.rt: service_of""",
    "such a fault, or that a history's file would be too long": "tw_generate/src/judging.rt: file_given",
}

# In code: a line that makes want of memory, which is no pattern, type, declaration or clause.
WANT = re.compile(r"(?<![.\w])(?:\w+::)*NoMemory\b(?!>)")
NO_CODE = re.compile(r"\s*(?:pub )?(?:ghost|use|requires|ensures|impl|struct|#)|.*[≡≢→λ×⊎∷]|.*-> .*NoMemory|.*: &?NoMemory\b|\s*(?:\w+, )*NoMemory,")


def is_told(pattern):
    """Whether a pattern is of want of memory, and of nothing else."""
    return all("NoMemory" in part for part in pattern.split("|") if part.strip())


def is_handed_on(lines, number):
    """Whether the line stands in an arm of a match that is told want of memory, or makes a fault of one."""
    indent = len(lines[number]) - len(lines[number].lstrip())
    for line in reversed(lines[:number]):
        at = len(line) - len(line.lstrip())
        if line.strip() and at < indent:
            indent = at
            if "=>" in line or re.match(r" *(?:pub(?:\(\w+\))? )?fn ", line):
                return is_told(line.split("=>")[0]) if "=>" in line else line.lstrip().startswith("fn from(")
    return False


def wants(text):
    """The function of each place of a file that says that there was no memory, but to hand on what said so."""
    lines = [line.split("//")[0].rstrip() for line in text.split("\n")]
    name = None
    for number, line in enumerate(lines):
        head = re.match(r" *(?:pub(?:\(\w+\))? )?(?:extern \"C\" )?fn (\w+)", line)
        name = head[1] if head else name
        pattern, arm, value = line.rpartition("=>")
        is_made = not NO_CODE.match(line) and WANT.search(value) and not (arm and is_told(pattern))
        if is_made and (arm or not re.search(r"^ *\||NoMemory\)+ (?:\||if\b)", line)) and not is_handed_on(lines, number):
            yield name


def memory(program):
    """The places that say otherwise than by `WANTS` that there was no memory, and those of `WANTS` that don't say so."""
    allowed = {place.strip() for places in WANTS.values() for place in places.split(",")}
    paths = [path for path in files("*.rt") if "src" in path.parts and not path.relative_to(TOP).parts[1].endswith("tests")]
    counts = Counter(f"{path.relative_to(TOP / 'crates')}: {name}" for path in paths for name in wants(path.read_text()))
    said = {place if count == 1 else f"{place} ({count})" for place, count in counts.items()}
    wrong = [f"  {place} says that there was no memory, and isn't in WANTS" for place in sorted(said - allowed)]
    return "\n".join(wrong + [f"  {place} doesn't, and is in WANTS" for place in sorted(allowed - said)]) or None


# The wrong bodies that the gate always tries, by crate and edit, each with what it does: what a reader of the promises would try first.
NAMED = {
    # What a proof shows.
    "tw_verifier/hop_later_than_its_archive": "a hop may be archived at a later step than the one whose archive shows it",
    "tw_verifier/first_event_above_its_thread": "the first event may stand at a later step than the thread that tells of it",
    "tw_verifier/first_hop_in_the_archive_of_the_second_event": "the hop nearest to the second event is shown by that event's own step, not by the one before it",
    "tw_verifier/pieces_unread": "a proof that comes in pieces is judged without them",
    "tw_verifier/one_may_be_carried": "the strict form takes a proof that carries a thread",
    "tw_chain/anchor_not_compared": "a path may end at another authenticator than the one held",
    "tw_chain/opening_not_checked": "an opening may belong to another authenticator",
    "tw_chain/wrong_tree_proof_taken": "a tree proof that shows nothing is taken",
    "tw_chain/kind_5_is_malformed": "a proof of a link isn't read",
    "tw_chain/last_hop_written_twice": "a proof is written with one hop more than it has",
    "tw_events/path_length_of_the_path": "an event's path may be shorter than the count of the step's events says",
    "tw_treeproof/an_empty_place_taken_for_an_entry": "a proof of an empty place answers a question for an entry",
    "tw_base/absence_past_the_asked_key": "a search for an absent key goes on at the entry that has it",
    "tw_base/bytes_after_the_end_ignored": "a reader takes bytes behind a word's end",
    "tw_base/name_with_letters_after_zeros": "a name has a second spelling",
    "tw_base/number_written_from_its_high_bytes": "a number is written otherwise than it is read",
    "tw_base/datum_ignores_the_count": "the text of a step's datum doesn't have the count of its events",
    "tw_base/top_level_one_too_low": "a step has fewer links than its number gives",
    # What an audit, an atlas, map files, evidence and a history taken over show.
    "tw_audit/always_stands": "an audit never finds a clash",
    "tw_audit/a_repeated_text_is_a_clash": "an audit tells one text as two",
    "tw_audit/two_texts_of_its_own_making": "an audit tells two texts that stand nowhere in the files",
    "tw_tmap/step_of_any_neighbour": "a thread of another service is told as the peer's",
    "tw_atlas/only_the_first_round": "an atlas goes over the receipts once",
    "tw_atlas/one_leg_to_a_service": "an atlas keeps one way to each service",
    "tw_evidence/path_not_climbed": "the path between two threads isn't climbed",
    "tw_evidence/bottom_not_compared": "the path may begin at the first thread's own authenticator",
    "tw_contradict/two_authenticators_are_one_entry": "a receiver of two authenticators of one step breaks no rule",
    "tw_adopt/the_whole_history_handed_out": "a history is taken over further than its peers hold it",
    # What a store and a service keep.
    "tw_pages/answered_before_the_last_barrier": "a commit answers before the barrier behind the gate",
    "tw_pages/committed_page_rewritten": "a commit writes over a page that stands",
    "tw_pages/spare_body_before_its_gate_is_closed_for_good": "a commit writes a body whose gate may still read open",
    "tw_pages/opened_without_the_first_barrier": "a store is opened without a barrier",
    "tw_pages/good_store_refused": "a good store is opened as none",
    "tw_rbnode/a_split_with_another_middle": "the entry between two halves of a full page is lost",
    "tw_archive/second_authenticator_of_a_step_archived": "another authenticator of a known step may be archived",
    "tw_service/second_authenticator_archived": "a service archives another authenticator of a known step",
    "tw_service/message_answered_by_a_bad_page": "a good message is answered by a bad page",
    "tw_service/always_a_disk_fault": "each append is answered by a disk fault",
    "tw_service/received_though_the_commit_failed": "a receipt is given for a step that may not stand",
    "tw_service/proof_under_the_last_step": "a proof is made under another step than the one asked for",
    "tw_follow/link_not_climbed": "a follower moves without climbing the link",
    "tw_follow/head_told_before_it_is_kept": "a follower answers before its head is kept",
    "tw_world/new_disks_handed_back": "a script is played without the stores that are handed back",
    "tw_generate/new_disks_handed_back": "histories are generated without the stores that are handed back",
    # How a run ends.
    "tw_app/rejected_with_status_0": "a rejected proof ends with status 0",
    "tw_app/always_an_input_fault": "each run ends with a fault of its files",
    "tw_app/always_an_output_fault": "each run ends with a fault of its output",
    "tw_app/always_a_disk_fault": "each run ends with a fault of its disk",
    "tw_app/reason_that_does_not_stand": "a proof is rejected for a reason that doesn't stand",
    "tw_app/done_though_a_barrier_failed": "a run is done though a barrier failed",
    "tw_app/committed_page_rewritten_behind_the_run": "a run writes over a page that stands",
}

# Those that a test refuses, each with the file and the test: want of memory is always allowed, and how many barriers there are no clause of a run says.
TESTED = {
    "each run ends for want of memory": ("crates/tw_runtests/src/runs.rt", "each_command_is_done"),
    "a run opens its store without a barrier": ("crates/tw_runtests/src/disk_runs.rt", "each_page_of_a_way_is_read_once"),
}


def bodies_of_gate(program):
    """The crates of which the gate tries more than one wrong body that isn't named, and what is named and not there."""
    there = {f"{name}/{edit}" for name in read_crates() for edit in wrong_bodies.bodies_of_gate(name)}
    others = [body.split("/")[0] for body in there - set(NAMED)]
    wrong = [f"  {name} has {others.count(name)} besides those that are named, one is allowed" for name in sorted(set(others)) if others.count(name) > 1]
    wrong += [f"  crates/{body.replace('/', '/must-fail/')}.edit isn't there" for body in NAMED if body not in there]
    wrong += [f"  {path} has no test {test}" for path, test in TESTED.values() if f"#[test]\nfn {test}(" not in (TOP / path).read_text()]
    return "\n".join(wrong) or None


def fitting_bodies(program):
    """The wrong bodies that don't fit the sources, and those of the gate that leave out something else than tools/leave_out.py would have them leave out."""
    unfit = wrong_bodies.unfit_bodies(read_crates())
    if unfit:
        return "\n".join(f"  {why}" for why in unfit)
    edits = [path for name in read_crates() for path in leave_out.edits(name)]
    stale = [path.relative_to(TOP) for path in edits if path.read_text() != leave_out.whole(path)]
    return "\n".join(f"  {path}: `python3 tools/leave_out.py {path.parts[1]}`" for path in stale) or None


# What says how many wrong bodies the gate tries, and how many it doesn't.
COUNTING = ("README.md", "Makefile", ".ci/run", "docs/glossary.md", "docs/proving.md", "docs/claims.md")
COUNTED = (re.compile(r"(\d+)\schosen\swrong\s+bod"), re.compile(r"(\d+)\sother\swrong\s+bod"))


def counted_bodies(program):
    """The documents that don't say how many wrong bodies the gate tries, or that tell another number of these or of the others."""
    wrong = []
    for name in COUNTING:
        found = [{int(number) for number in pattern.findall((TOP / name).read_text())} for pattern in COUNTED]
        if not found[0] or any(told - {count} for told, count in zip(found, wrong_bodies.counts(read_crates()))):
            wrong.append(f"  {name} tells of {found[0] or 'no'} chosen wrong bodies and of {found[1] or 'no'} others; `python3 tools/wrong_bodies.py --list` counts them")
    return "\n".join(wrong) or None


def trials(program):
    """What is wrong with the file that tells when the wrong bodies of each crate were tried, or with what is said of crates that it doesn't fit"""
    text = body_trials.TRIED.read_text()
    told = body_trials.trials(text)
    if text != body_trials.text_of(told):
        return "  its lines aren't those of trials, in their order"
    fitting, name = {name: trial.digest for name, trial in told.items()}, next(iter(told))
    said = body_trials.untried(text, fitting | {name: "0" * 64, "tw_new": "0" * 64}) or ""
    if body_trials.untried(text, fitting) is not None or f"of {name}, tw_new weren't tried" not in said or "`make wrong-bodies`" not in said:
        return f"  packages of the crates that were tried are refused, or of others aren't: {said}"
    return None


# Two crates, and what of them changes the digest by which a trial of the upper one's wrong bodies is known.
LOWER = """\
/// The most.
pub const MOST: u32 = 4;

const fn half(of: u32) -> u32 {
    of / 2
}

/// Adds one.
pub fn one_more(to: u32) -> u32
    requires { to < MOST }
    ensures { result ≡ to + 1 }
{
    to + 1
}
"""
OF_TRIAL = {
    "crates.txt": "low: sha2\n# Upper ones.\nhigh: low\n", "KIT": "kit 1\n", "crates/low/src/lib.rt": LOWER, "crates/low/specs/Lib.antt": "pub mod A\n",
    "crates/low/proofs/one_more/Answers.antt": "search\n", "crates/low/proofs/Sums.antt": "sum-one\n", "crates/low/wrong-bodies.txt": "edit: a\n",
    "crates/low/stdin": "a\n", "crates/high/src/lib.rt": LOWER, "crates/high/proofs/one_more/Answers.antt": "search\n",
    "crates/high/must-fail/a.edit": "file: src/lib.rt\n",
}  # fmt: skip
CHANGES_OF_TRIAL = (
    ("crates/low/src/lib.rt", "    to + 1\n}", "    1 + to\n}", False), ("crates/low/src/lib.rt", "Adds one", "Gives one more", False),
    ("crates/low/src/lib.rt", "to < MOST", "to < 3", True), ("crates/low/src/lib.rt", "= 4", "= 5", True), ("crates/low/src/lib.rt", "of / 2", "of", True),
    ("crates/low/specs/Lib.antt", "A", "B", True), ("crates/low/proofs/Sums.antt", "one", "two", True), ("crates/low/wrong-bodies.txt", "a", "b", False),
    ("crates/low/proofs/one_more/Answers.antt", "search", "grind", False), ("crates/low/stdin", "a", "b", False), ("crates.txt", "Upper", "Higher", False),
    ("crates.txt", "sha2", "hex", True), ("KIT", "1", "2", True), ("crates/high/src/lib.rt", "    to + 1\n}", "    1 + to\n}", True),
    ("crates/high/proofs/one_more/Answers.antt", "search", "grind", True), ("crates/high/must-fail/a.edit", "lib", "main", True),
)  # fmt: skip


def digests_of_trials(program):
    """The changes that change what a trial is known by and shouldn't, or don't and should."""
    digest = lambda texts: body_trials.digests({path: text.encode() for path, text in texts.items()})["high"]  # noqa: E731
    wrong = []
    for path, old, new, is_other in CHANGES_OF_TRIAL:
        changed = OF_TRIAL | {path: OF_TRIAL[path].replace(old, new)}
        if changed == OF_TRIAL or (digest(changed) != digest(OF_TRIAL)) != is_other:
            wrong.append(f"  {path}: {old!r} as {new!r}")
    return "\n".join(wrong) or None


# What the prover may say of two edits of tw_events in one copy, and which of them it refuses by that; None where that counts for neither.
TURNED = {"halves_swapped": "root::event_root", "sides_swapped": "check::node_above"}
WHY = "./proofs/root/+event_root/Answers.antt:11:5: error: `returns`: the two types differ\n"
NOTE = "note: src/check.rt:20:1: it is not proved that what the function ensures holds when it returns\n"
SAID = "{}fn tw_events::root::event_root: {}\nfn tw_events::check::node_above: {}\nfn tw_events::check::check_event: {}\n{}\n"
CALLS = "no proof: it calls `tw_events::root::event_root`, which is not proved"
TOLD = (
    (WHY, "not proved", CALLS, CALLS, "logic=not-proved", {"halves_swapped"}),
    (WHY, "not proved", "proved", "proved", "logic=not-proved", {"halves_swapped"}),
    ("", "not proved", CALLS, CALLS, "logic=not-proved", set()),
    (WHY.replace("root/+", "root/+other_"), "not proved", CALLS, CALLS, "logic=not-proved", set()),
    (WHY.replace("the two types differ", "it has no field `a`"), "not proved", CALLS, CALLS, "logic=not-proved", set()),
    (WHY, "not proved", CALLS, "not proved", "logic=not-proved", None),
    (WHY, "not proved", CALLS, CALLS, "rattle: no verdict", None),
    (WHY + NOTE, "not proved", "no proof: `search` did not prove `returns`", CALLS, "logic=not-proved", set(TURNED)),
)


# Edits of methods, each with the function that it changes, as the prover tells of it.
METHODS = (
    ("tw_skiplist", "failed_read_is_a_bad_page", "tw_skiplist::fault::ListFaultFromWalkFault::from"),
    ("tw_service", "thread_not_counted", "tw_service::recorded::Unstaged::archive"),
)
OTHER_METHODS = ("tw_skiplist::fault::ListFaultFromNoMemory::from", "tw_skiplist::fault::RefusalFromListFault::from", "tw_service::unstaged::archive")


def bodies_together(program):
    """What is wrong with how wrong bodies are tried: each once, together or alone; those of a batch in functions of their own, and refused by the
    prover's word of these."""
    wrong = []
    for name in read_crates():
        crate, bodies = leave_out.Crate(name), {edit: leave_out.body_of(text) for edit, text in wrong_bodies.all_bodies(name).items()}
        found, alone = body_batches.batches(crate, bodies)
        turned = sum(len(set(functions)) for batch in found for _, functions in batch.edits.values())
        others = sum(len({it for _, functions in batch.edits.values() for it in functions}) for batch in found)
        if sorted([*alone, *(edit for batch in found for edit in batch.edits)]) != sorted(bodies) or turned != others:
            wrong.append(f"  {name}")
    crate = leave_out.Crate("tw_events")
    bodies = {edit: wrong_bodies.all_bodies("tw_events")[edit] for edit in TURNED}
    (batch,), _ = body_batches.batches(crate, bodies)
    for *said, wanted in TOLD:
        refused = body_batches.refused(crate, batch, SAID.format(*said))
        if (refused if refused is None else set(refused)) != wanted:
            wrong.append(f"  {said}: {refused}")
    for name, edit, told in METHODS:
        crate = leave_out.Crate(name)
        (batch,), _ = body_batches.batches(crate, {edit: wrong_bodies.all_bodies(name)[edit]})
        found = body_batches.names_of(crate, batch.edits[edit][1][0], dict.fromkeys([told, *OTHER_METHODS], "not proved"))
        wrong += [f"  {edit}: {found}"] * (found != [told])
    told = wrong_bodies.REFUSED.match("rt: must-fail tw_pages/nothing_written.edit: refused, as it must be: note: src/recorded.rt:133:5: it is not proved")
    wrong += [] if told and told.groups() == ("tw_pages", "nothing_written") else ["  what `rt must-fail` says of an edit that is tried alone isn't read"]
    return "\n".join(wrong) or None


def is_there(place, name):
    """Whether there is this test of a file of a crate, this function of a module of cases, which another one calls, this case of a table, or this
    file of a crate."""
    kind = Path(place).suffix
    if kind == ".rt":
        crate, file = place.split("/")
        return f"#[test]\nfn {name}(" in (TOP / "crates" / crate / "src" / file).read_text()
    if kind == ".py":
        text = (ACCEPTANCE / "cases" / place).read_text()
        return f"\ndef {name}(" in text and len(re.findall(rf"\b{name}\b", text)) > 1
    if kind == ".json":
        return name in (case["name"] for case in json.loads((ACCEPTANCE / "cases" / place).read_text()))
    return (TOP / "crates" / place / name).is_file()


def worked_examples(program):
    """The tests and cases of worked examples that aren't there."""
    named = [(example, place, name) for example, places in ROWS.items() for place, *names in places for name in names]
    wrong = [f"  {example}: {place} has no {name}" for example, place, name in named if not is_there(place, name)]
    return "\n".join(wrong) or None


def heights(program):
    """The crates at the end of a chain that is too long."""
    known = read_crates()
    wrong = {name: height(name, known) for name in known if height(name, known) > MOST_HEIGHT}
    return "\n".join(f"  {name} stands at {at}, at most {MOST_HEIGHT} is allowed" for name, at in wrong.items()) or None


# The bodies of a run, by file: its work, which has no sink, and then its text, which has no disk; and what of the program calls `run`. (A law that a clause
# is by does nothing.)
RUN_BODIES = {
    "crates/tw_app/src/ending.rt": {
        "run_to_the_end": [
            "let Followed { outcome, disk } = work(alloc, words, disk, inputs);", "let status = tell(alloc, &outcome, out);", "Ran { status, disk }"],
        "run": ["plain_laws::<Sha>();", "plain_map_laws::<Sha>();", "same_laws::<Sha>();", "first_steps_laws::<Sha>();", "run_to_the_end(alloc, words, disk, inputs, out)"],
    },
    "crates/timeweave/src/main.rt": {
        "run_words": [
            "let words = read_arguments(rt.alloc(), &SystemArguments { rt })?;", "let file = file_of(rt.alloc(), &words)?;",
            "let disk = FileDisk::new(rt, file.path.as_str(), file.access);", "let mut inputs = HostInputs::new(rt);",
            "Ok(run(rt.alloc(), &words, disk, &mut inputs, out).status)"],
        "status_of_run": ["let mut out = HostSink::new(rt);", "let ran = run_words(rt, &mut out);", "status_of(ran, &mut out)"],
    },
}


def body_of(text, name):
    """The lines of a function's body that are no comments, or nothing where there is no such function."""
    body = re.search(rf"\bfn {name}\b.*?\n{{\n(.*?)\n}}", text, re.DOTALL)
    return [line.strip() for line in body[1].split("\n") if not line.strip().startswith("//")] if body else None


def halves_of_a_run(program):
    """The functions of a run that do something else than its work and then its text."""
    said = [(path, name, lines, body_of((TOP / path).read_text(), name)) for path, bodies in RUN_BODIES.items() for name, lines in bodies.items()]
    return "\n".join(f"  {path}: {name} isn't as it has to be: {found}" for path, name, lines, found in said if found != lines) or None


def count_what_stands_twice(program):
    """How many pairs of files share six lines in a row, where these are more than there may be."""
    count = len(twins.pairs())
    return f"  {count} pairs, at most {MOST_TWINS} are allowed: `python3 tools/twins.py`" if count > MOST_TWINS else None


def known_to_weft(program):
    """What differs of the digests by which weft knows the packages that may lie beside it."""
    words = [sys.executable, "-c", "from weft import packages; print(packages.known_text(), end='')"]
    done = subprocess.run(words, cwd=TOP, env={**os.environ, "PYTHONPATH": str(TOP)}, capture_output=True, text=True, check=False)
    is_same = done.returncode == 0 and done.stdout == (TOP / "weft/known.py").read_text(encoding="utf-8")
    return None if is_same else f"  weft/known.py has other digests: `python3 -m weft.packages` notes them anew {done.stderr}"


def one_way_out(program):
    """What of weft could write to a terminal by another way than its one function, and planted ways that aren't found."""
    return "\n".join([*other_ways(), *unfound()]) or None


def one_page(program):
    """The clauses of docs/theorem.md that mean more than may stand there, and the pages that aren't what the sources say."""
    return "\n".join([*theorem.too_long(), *theorem.stale()]) or None


# The modules that docs/definitions.md tells to skip.
SKIPPED = re.compile(r"Steps$")


def modules_to_skip(program):
    """The modules of what the clauses of `run` mean that docs/definitions.md tells to skip."""
    found = {home for name in theorem.clauses_of_run() for home, _ in theorem.meaning(name).shown}
    wrong = [f"  {home}" for home in sorted(found) if SKIPPED.search(home)]
    if "A module whose name ends in `Steps`" not in " ".join((TOP / "docs/definitions.md").read_text().split()):
        wrong.append("  docs/definitions.md doesn't say which modules needn't be read")
    return "\n".join(wrong) or None


# Words by which no function is called: a function does something, and to what is told by its name. (Properties are called by what they are.)
BARE, NAMED_IN = {"told", "asked", "shown", "judged", "found"}, ("weft", "tests", "tools", "bench", "reference")


def is_property(function):
    """Whether a function is read as a value."""
    return any("property" in ast.unparse(decorator) for decorator in function.decorator_list)


def bare_names(program):
    """The functions that are called by a bare participle."""
    wrong = []
    for path in files("*.py"):
        if path.relative_to(TOP).parts[0] in NAMED_IN:
            named = (it for it in ast.walk(ast.parse(path.read_text())) if isinstance(it, ast.FunctionDef) and it.name in BARE)
            wrong += [f"  {path.relative_to(TOP)}:{it.lineno}: {it.name}" for it in named if not is_property(it)]
    return "\n".join(wrong) or None


# What tells which modules of cases run.
RUNNING = ("run.py", "cases/weft.py")


def modules_that_run(program):
    """The modules of cases that nothing runs."""
    lists = [names for path in RUNNING for names in re.findall(r"^(?:MODULES|LATER) = \((.*?)\)", (ACCEPTANCE / path).read_text(), re.M | re.S)]
    there = {path.stem for folder in (ACCEPTANCE, TOP / "tests/texts") for path in (folder / "cases").glob("*.py")} - {"__init__"}
    return "\n".join(f"  {name}" for name in sorted(there.difference(*(re.findall(r"\w+", names) for names in lists)))) or None


def cases():
    checks = {
        "the theorem on one page": one_page,
        "modules that needn't be read": modules_to_skip,
        "modules of cases": modules_that_run,
        "names of functions": bare_names,
        "long functions": long_functions,
        "attributes": wide_attributes,
        "files of lemmas": lemma_files,
        "tests": tests_elsewhere,
        "lines and functions of crates": crate_sizes,
        "what is handed out": handed_out,
        "the header for C": header,
        "where memory is wanted": memory,
        "worked examples": worked_examples,
        "wrong bodies of the gate": bodies_of_gate,
        "wrong bodies and the sources": fitting_bodies,
        "the number of wrong bodies": counted_bodies,
        "when wrong bodies were tried": trials,
        "what a trial is known by": digests_of_trials,
        "wrong bodies tried together": bodies_together,
        "heights": heights,
        "names of definitions": names_twice,
        "the halves of a run": halves_of_a_run,
        "bodies with two names": bodies_twice,
        "what stands twice": count_what_stands_twice,
        "packages that weft knows": known_to_weft,
        "the one way out of weft": one_way_out,
    }
    yield from checked("sources", checks)
