"""Cases of system calls that fail once, and of short counts, of each command with a folder that is made so."""

from harness.faults import Run, failing, short
from harness.rooms import case


def cases():
    commands = ("init", "append", "prove", "link", "thread", "show", "verify")
    return [case(make(command, Run), "faults") for make in (failing, short) for command in commands]
