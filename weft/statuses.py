"""The statuses that weft ends with. This is the one place of them: the manual page has this table."""

from enum import IntEnum


class Status(IntEnum):
    """How a run ended. Those up to 9 mean what they mean of `timeweave`."""

    DONE = 0
    NOT_SHOWN = 1
    USAGE = 2
    NO_INPUT = 3
    OUTPUT = 4
    DISK = 5
    NO_MEMORY = 6
    REFUSED = 7
    BAD_STORE = 8
    UNREADABLE = 9
    LOOK = 10
    CONTRADICTION = 11
    MISSING = 12
    DIFFER = 13
    NO_JUDGE = 14
    BUSY = 15
    FEWER = 16
    OLD_STORE = 17
    SHOWN_BY_REFERENCE = 20
    NOT_SHOWN_BY_REFERENCE = 21
    BUG = 70
    STOPPED = 130


MEANINGS = {
    Status.DONE: "All that was asked for is done, or shown.",
    Status.NOT_SHOWN: "A proof, a map, evidence or a signature isn't accepted, or a file isn't the one that was logged.",
    Status.USAGE: "The words are no command, or one of them isn't as it has to be; nothing was done.",
    Status.NO_INPUT: "A file that is to be read isn't there, is none that can be read, or is a folder, a pipe or a device.",
    Status.OUTPUT: "Standard output failed. What was done stands.",
    Status.DISK: "A folder isn't there, or a file in it or a store can't be read or written.",
    Status.NO_MEMORY: "There was no memory.",
    Status.REFUSED: "The service refused what was asked for: there is no such step, event or line.",
    Status.BAD_STORE: "A store is none of a service, or a part of it is damaged.",
    Status.UNREADABLE: "A file isn't of the kind that is read there.",
    Status.LOOK: "All that could be done is done, and something needs a look: it was told.",
    Status.CONTRADICTION: "Two lines or two proofs contradict each other.",
    Status.MISSING: "A line or a part is missing; which one, and whom to ask, was told.",
    Status.DIFFER: "Two judges differ. That is a bug: keep the files and report it.",
    Status.NO_JUDGE: "There is neither the proved library nor the proved program, so nothing is judged.",
    Status.BUSY: "Another run of weft is at work there.",
    Status.FEWER: "The folder is empty, or has lost more than half of its files: what is gone wasn't logged as gone.",
    Status.OLD_STORE: (
        "The store isn't the one whose lines went out, or nothing shows that it is: an old one was put back, it has another history, or its lines or "
        "entries don't stand beside it. No step was made."
    ),
    Status.SHOWN_BY_REFERENCE: "Shown, as 0, but by the Python reference, which is tested and not proved.",
    Status.NOT_SHOWN_BY_REFERENCE: "Not shown, as 1, but by the Python reference, which is tested and not proved.",
    Status.BUG: "weft itself failed. That is a bug: report what standard error says.",
    Status.STOPPED: "It was interrupted. The next run goes on.",
}
