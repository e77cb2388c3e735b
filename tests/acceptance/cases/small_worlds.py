"""Cases of the list of rules that two files show broken: over all sound histories of up to four steps it is whole and names nobody who keeps the rules; and what else
a history can break is told by other means, each of which is named. They need no program."""

from harness.elsewhere import ROWS
from harness.rooms import Wrong, case
from harness.small_worlds import SERVICES, Files, Worlds, misjudged, tallied, told_of_two
from timeweave_reference import contradict, verify
from timeweave_reference.broken_rules import RULES

STEPS = 4


def whole(room):
    """two files show a rule broken exactly where no sound history of up to four steps has both, and each rule is needed"""
    for service in SERVICES:
        tally = tallied(Files(Worlds(service, STEPS)))
        idle = [rule.word for number, rule in enumerate(RULES, 1) if not tally.alone[number]]
        if tally.wrong or idle:
            raise Wrong("\n".join([f"  {len(tally.wrong)} pairs are told wrongly; rules that tell none alone: {idle}", *map(str, tally.wrong[:3])]))


def by_file(room):
    """a history of two steps is one of the worlds exactly where its file breaks none of the rules of histories"""
    wrong = misjudged(SERVICES[0])
    if wrong:
        raise Wrong(f"  {len(wrong)} histories, the first is {wrong[0]}")


def of_two_services(room):
    """files of two services show no rule broken"""
    told = told_of_two(*(Files(Worlds(service, 2)) for service in SERVICES))
    if told:
        raise Wrong(f"  {told} pairs are told as broken rules")


def elsewhere(room):
    """what no rule of the list tells of two files is told as no conflict, or the file is a proof of another kind, which is accepted"""
    for row in ROWS:
        files = row.files() if row.files else None
        found = contradict(*files) if files else None
        if files and (found.status, found.text.decode()) != (1, f"rejected {row.told}\n"):
            raise Wrong(f"  {row.what}: {found}")
        if files and row.told.startswith("10 Part") and verify(*files[:2]).status:
            raise Wrong(f"  {row.what}: the first file isn't accepted: {verify(*files[:2])}")


def cases():
    return [case(work, "worlds") for work in (whole, by_file, of_two_services, elsewhere)]
