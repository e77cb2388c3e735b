"""Services of a room that receive messages of one another, each beside the reference's."""

from harness.rooms import Wrong
from timeweave_reference.events_files import events_to_bytes
from timeweave_reference.fields import Malformed
from timeweave_reference.proofs import absent_text, thread_text
from timeweave_reference.services import Refused, Service


class Entangled:
    """Services of a room, each in the folder of its name, beside those of the reference."""

    def __init__(self, room, *names):
        self.room = room
        self.services = {name: Service(name) for name in names}
        for name, service in self.services.items():
            (room.folder / name).mkdir()
            room.expect(f"init {name} {name}", 0, service.anchor(0))

    def append(self, name, events, time=None):
        self.room.put("e", events_to_bytes(events))
        self.room.expect(words(f"append {name} e", time), 0, self.services[name].append(events, time))

    def message(self, name, since):
        """The message of a service since a step, which is the reference's."""
        message = self.services[name].message(since)
        self.room.expect(f"thread {name} {since}", 0, message)
        return message

    def deliver(self, name, message, time=None):
        """A message is received, or refused, as the reference does it."""
        self.room.put("m", message)
        try:
            wanted = 0, self.services[name].receive(message, time)
        except Refused as refusal:
            wanted = 7, f"refused {refusal}\n".encode()
        except Malformed as malformed:
            wanted = 9, f"unreadable m byte {malformed.place}\n".encode()
        self.room.expect(words(f"receive {name} m", time), *wanted)
        return wanted[0]

    def stores_are(self):
        for name, service in self.services.items():
            path = self.room.folder / name / "timeline.tw"
            if path.read_bytes() != service.file():
                raise Wrong(f"  the store of {name} isn't the reference's")

    def put_anchor(self, name):
        self.room.put("k", self.services[name].anchor(self.services[name].steps))

    def shows(self, name, step, peer, k, tops):
        """What is proved of a peer's step at a step, under these tops, and that both forms accept it under the last one."""
        service = self.services[name]
        entry = service.entry(step, peer, k)
        for top in tops:
            asked = f"{step} {peer} {k} {top}"
            if entry:
                proof, text = service.thread_proof(step, peer, k, top), thread_text(name, step, entry)
                self.room.expect(f"prove {name} thread {asked}", 0, proof)
                self.room.expect(f"prove {name} absent {asked}", 7, f"refused HasThread {entry.archived}\n".encode())
            else:
                proof, text = service.absent_proof(step, peer, k, top), absent_text(name, step, (peer, k))
                self.room.expect(f"prove {name} absent {asked}", 0, proof)
                self.room.expect(f"prove {name} thread {asked}", 7, b"refused NoThread\n")
        self.room.put("p", proof)
        for judge in ("verify", "strict"):
            self.room.expect(f"{judge} p k", 0, text.encode())


def words(command, time):
    return command if time is None else f"{command} {time}"


def both(room):
    """Two services of a few steps that have received from each other, which steps of theirs are threads' too."""
    pair = Entangled(room, "alpha", "beta")
    for name, events, time in (("alpha", [b"a"], None), ("beta", [b"b", b"c"], 5), ("alpha", [], 7), ("beta", [b"d"], None)):
        pair.append(name, events, time)
    pair.deliver("beta", pair.message("alpha", 0))
    pair.deliver("alpha", pair.message("beta", 0), 9)
    pair.append("alpha", [b"z"])
    pair.deliver("beta", pair.message("alpha", 2), 8)
    return pair
