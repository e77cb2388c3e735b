"""The bytes of proofs, messages and their pieces, as cases put them together."""

from timeweave_reference import histories, services
from timeweave_reference.event_trees import EventPart, event_part
from timeweave_reference.fields import big_endian as be
from timeweave_reference.fields import padded
from timeweave_reference.messages import Message, message_of, read_message
from timeweave_reference.paths import path_to_bytes
from timeweave_reference.proofs import LINK, event_lines, front_to_bytes
from timeweave_reference.receipts import Receipt
from timeweave_reference.timelines import Timeline

HEX = "9f9cc8f6baef592ed6bf90b106ebe7b882f59a1cc9803a6d1eef6974da5f87ed"


def path_bytes(line, top, step):
    """The path from the top down to the step."""
    return path_to_bytes(line.path(top, step))


def opening_bytes(line, step):
    return line.opening(step).to_bytes()


def event_bytes(events, index):
    return event_part(events, index).to_bytes()


def part_bytes(kind, line, step, top):
    """What a proof of a step's content begins with: its front, the path from the top to the step, and the step's opening."""
    return front_to_bytes(kind, line.name, step, top) + path_bytes(line, top, step) + opening_bytes(line, step)


def proof_bytes(line, step, index, top):
    """The proof that the event of that index stands in the step, under the authenticator of the top."""
    return histories.existence_proof(line, step, index, top).to_bytes()


def thread_bytes(part, entry, shown):
    """The proof of a thread, from its front and its tree proof."""
    return part + entry.to_bytes() + shown.to_bytes()


def absent_bytes(part, key, shown):
    """The proof that a thread is absent, from its front and its tree proof."""
    return part + padded(key[0]) + be(key[1], 8) + shown.to_bytes()


def thread_proof(line, tree, step, top, entry):
    """The proof that the step's archive, which is this tree, has the entry."""
    return services.thread_proof(line, tree, step, top, entry).to_bytes()


def absent_proof(line, tree, step, top, key):
    """The proof that the step's archive, which is this tree, has no thread of this service and step."""
    return services.absence_proof(line, tree, step, top, key).to_bytes()


def link_bytes(name, step, top, auth, path):
    """The proof of a step's authenticator, from its fields."""
    return front_to_bytes(LINK, name, step, top) + auth + path


def link_proof(line, step, top):
    """The proof of the step's authenticator."""
    return services.link_proof(line, step, top).to_bytes()


def message_bytes(line, step, since):
    """The message of that step as the last one, since an earlier one."""
    return message_of(line, step, since).to_bytes()


def pathless_message(name, step, auth, since):
    """The message of a step since itself, or of one whose path is left out."""
    return Message(name, step, auth, since, ()).to_bytes()


def forged(message, auth):
    """The message with another authenticator."""
    read = read_message(message)
    return Message(read.service, read.step, auth, read.since, read.path).to_bytes()


def receipt_bytes(recorder, archived, recorder_auth, service, step, auth):
    """The receipt of a step of a recorder, which archived the thread of that step of a service."""
    return Receipt(recorder, archived, recorder_auth, service, step, auth).to_bytes()


def accepted_text(name, step, index, event, time=None):
    """What is written of an event that stands in a step."""
    return "accepted exists\n" + event_lines(name, step, EventPart(index, event, ()), time)


LEAST = proof_bytes(Timeline("a", [[b""]]), 1, 0, 1)
LEAST_TEXT = accepted_text("a", 1, 0, b"").encode()
