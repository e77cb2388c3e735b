"""The state machine of a search: three services that exchange, one of which logs a folder; their carrier, a liar, a thief and backups; and a reader who keeps lines and
judges.

A script is a list of steps, each an action's name and three numbers, by which the action chooses; what can't be done then does nothing. So each part of a script is a
script, and the same one does the same."""

import hashlib
import json
import os
import shutil
from pathlib import Path

from harness import weft_model
from harness.weft_inside import Fault, make_key, read_quietly
from harness.weft_model import ENDS, Broken, Model, expect
from timeweave_reference.evidence import accused
from timeweave_reference.events_files import events_to_bytes
from timeweave_reference.messages import read_message
from timeweave_reference.proofs import EXISTS
from timeweave_reference.receipts import Receipt
from timeweave_reference.services import Refused, Service
from timeweave_reference.verdicts import read_proof
from weft.entries import read_event

NAMES = ("shop", "bank", "port")
PAIRS = tuple((one, other) for one in NAMES for other in NAMES if one != other)
DAY, HOUR = 86_400, 3_600
LOGGED = ("a.txt", "b.txt", "sub/c.txt", "sub/d.txt", "-e.txt", "f\ng.txt")
BEGAN = 1_790_000_000
CALM_NIGHTS = 6
MOST_PAST = 12
BESIDE = (".lines", ".anchor", ".seal", ".entries", ".known", ".look", ".others", ".pending")


class Machine:
    """The places of all parties, and the model of what is true."""

    def __init__(self, inside):
        self.inside, self.place = inside, Path(inside.folder)
        self.model = Model(NAMES)
        self.clock = dict.fromkeys(NAMES, 0)
        self.fault = Fault()
        self.past, self.origin, self.word, self.restored = {}, {}, {}, {}
        self.false, self.live, self.is_log_moved = None, set(), False
        self.number, self.kept = 0, set()
        for name in NAMES:
            self.model.true[name] = self.history(name)
            self.note_signed(name)

    # ---- what stands somewhere

    def store(self, folder):
        """The service of a folder, as its file says; None where there is none."""
        path = self.place / folder / "timeline.tw"
        data = read_quietly(path)
        if data is None:
            return None
        kept = self.inside.stores.get(data)
        if kept is None:
            kept = self.inside.read_anew(path, "export")
            self.inside.keep_store(data, kept)
        return kept

    def history(self, folder):
        """The authenticators of a store's steps."""
        found = self.store(folder)
        return [auth.hex() for auth in found.line.auths] if found is not None else []

    def run(self, name, words, ends=ENDS):
        """Runs weft at a service's machine, at its clock, with the fault that waits; it ends as its word does. The reader alone keeps lines: nobody who runs a service is
        told by his own that its store is an old one."""
        self.inside.moment = BEGAN + self.clock.get(name, 0)
        fault, self.fault = self.fault, Fault()
        done = self.inside.run(*words, fault=fault, kept="kept" if name == "reader" else None)
        weft_model.expect_told(done, words, fault, ends)
        expect(done.status != 0 or not self.inside.is_unopened, "what can't be opened isn't told", f"weft {' '.join(words)}, without {fault.name}: {done}")
        return done, bool(fault.kind or fault.name)

    def append(self, folder, *events):
        """Appends a step by the program."""
        path = self.place / "tmp/events"
        path.write_bytes(events_to_bytes(events))
        return self.inside.answer("append", folder, str(path)).status == 0

    def note_signed(self, name, box=None):
        """Notes which signed lines a service has put out."""
        for peer in NAMES:
            data = read_quietly(self.place / f"{box or f'box-{name}'}/{peer}/out/line")
            if data and b"BEGIN SSH" in data:
                _, step, auth = data.split(b"\n")[0].decode().split()
                self.model.signed[name][data] = int(step)
                if not self.model.is_true(name, int(step), auth):
                    self.model.other[name].add((int(step), auth))

    # ---- a service's own

    def do_turn(self, a, b, c):
        """A service's turn, a day after its last one."""
        self.turn_of(NAMES[a % 3], DAY if b % 10 else 3 * DAY)

    def turn_of(self, name, after=DAY, *more):
        """A turn, and what has to hold then."""
        self.clock[name] += after
        before, kept, out = self.history(name), weft_model.kept_lines(self.place, name), weft_model.put_out(self.place, name)
        if name in self.restored and self.restored[name] is None:
            self.restored[name] = self.clock[name]
        self.excuse(name, before)
        hindered = weft_model.unreadable(self.place, name)
        done, has_fault = self.run(name, ["exchange", name, f"box-{name}", "--json", *more])
        after_run = self.history(name)
        weft_model.expect_one_history(self.model, name, before, after_run)
        self.model.may_be_old.discard(name)
        self.live -= {name} if len(after_run) > len(before) else set()
        for what, lines in weft_model.kept_lines(self.place, name).items():
            weft_model.expect_nothing_lost(kept.get(what, []), lines, f"{name} lost of {what}")
            weft_model.expect_signed(self.model, what, lines[len(kept.get(what, [])) :])
        told = told_by(done)
        is_whole = told is not None and told["status"] == done.status and done.status in (0, 10, 11) and not has_fault
        is_made = is_whole and "No step was made, and nothing was put out." not in told["told"]
        if told is not None:
            weft_model.expect_nobody_accused(self.model, name, told.get("peers", {}), done.status)
        if not is_made and not has_fault and done.status is not None:
            expect(out == weft_model.put_out(self.place, name), "something was put out", f"{name}'s turn ended with {done.status}")
        if is_made or has_fault:
            silent = weft_model.note_heard(self.model, name, self.place, is_made, after >= DAY)
            if is_made:
                weft_model.expect_silence_told(silent, name, told["peers"], done.status)
                weft_model.expect_unread_told(hindered, name, told["peers"], done.status)
        self.note_signed(name)
        self.expect_received(name, len(before))
        if is_made:
            self.restored.pop(name, None)
            self.origin[name] = {peer: self.knows(name, peer) for peer in NAMES if peer != name}
        return done

    def expect_received(self, name, first):
        """What a service has recorded of others is of their histories, and no event was given to who may not ask."""
        for entry in self.store(name).threads[first:]:
            if entry is not None:
                words = entry.service, entry.step, entry.authenticator.hex()
                expect(self.model.is_true(*words), "a made-up line is recorded", f"{name} received {words}")
        for path, data in weft_model.put_out(self.place, name).items():
            expect("/answers/" not in path or data[:5] != b"TWP1" + bytes([EXISTS]), "an event is given away", path)

    def knows(self, name, of):
        """The last step of a peer of which a service holds a signed line, or that it has recorded."""
        kept = read_quietly(self.place / f"box-{name}/{of}/kept/signed") or b""
        steps = [int(line.split()[1]) for line in kept.splitlines() if line.startswith(f"{of} ".encode())]
        return max([*steps, *(entry.step for entry in self.store(name).threads if entry and entry.service == of)], default=0)

    def excuse(self, name, before):
        """A service whose store lacks what it handed out may go on where no word that lies there was said by who knew of it: nobody can tell it then."""
        if name not in self.restored or self.restored[name] is None or len(before) - 1 >= self.model.out[name]:
            return
        words = [self.word.get((peer, name)) for peer in NAMES if peer != name]
        if all(word is not None and word[2] >= self.restored[name] + DAY and word[1] < len(before) for word in words):
            self.model.may_be_old.add(name)

    def do_record(self, a, b, c):
        """A service records something by hand: not the one that logs."""
        name = NAMES[1 + a % 2]
        before = self.history(name)
        if before == self.model.true[name]:
            self.number += 1
            self.append(name, b"record %d" % self.number)
            self.model.true[name] = self.history(name)

    def do_write(self, a, b, c):
        """Files of the folder are new or other ones; or one is taken away, or another kind of thing comes in its place."""
        path = self.place / "files" / LOGGED[a % len(LOGGED)]
        if path.is_dir() and not path.is_symlink():
            shutil.rmtree(path)
        path.parent.mkdir(exist_ok=True)
        if path.is_symlink() or (b % 5 == 0 and path.exists()):
            path.unlink()
        if b % 5 == 1 and c % 3 == 0:
            path.unlink(missing_ok=True)
            path.symlink_to("elsewhere")
        elif b % 5:
            self.number += 1
            path.write_bytes(b"content %d" % self.number)

    def do_log(self, a, b, c):
        """The folder is logged."""
        self.clock["shop"] += HOUR
        before, entries = self.history("shop"), self.logged_events()
        words = ["log", "files", "shop", "--workers", "1", *(["--all-read", "0"] if a % 4 == 0 else []), *(["--gone"] if b % 7 == 0 else [])]
        self.excuse("shop", before)
        is_forged = not self.model.is_honest("shop") and (self.place / "shop.told").exists()  # (a turn saw a line of the other history)
        may_wait = self.is_log_moved or is_forged or (self.place / "shop.look").exists()
        done, has_fault = self.run("shop", words, (0, 10, 16, *([17] if may_wait else [])))
        self.is_log_moved = may_wait and done.status not in (0, 10)
        weft_model.expect_one_history(self.model, "shop", before, self.history("shop"))
        self.model.may_be_old.discard("shop")
        if len(self.history("shop")) > len(before):
            self.live.discard("shop")
        self.expect_logged(done, entries, has_fault, "--gone" in words)

    def logged_events(self):
        """The events of the log's store, in their order."""
        return [event for events in self.store("shop").line.steps for event in events]

    def expect_logged(self, done, before, has_fault, is_gone):
        """What a run logged is so: nothing is called gone that is there, nothing logged twice, and where all was logged, all files are."""
        entries = self.logged_events()
        known = {it.path: it.word for it in map(read_event, before) if it}
        for event in entries[len(before) :]:
            found = read_event(event)
            path = self.place / "files" / os.fsdecode(found.path)
            is_there = path.is_file() and not path.is_symlink()
            if found.word == b"gone":
                expect(not is_there and (is_gone or not os.path.lexists(path)), "called gone", f"{path} is there")
                expect(known.get(found.path) not in (None, b"gone"), "logged twice", f"{event!r}")
            else:
                expect(is_there and digest_of(path) == found.word.decode(), "logged as it isn't", f"{event!r}")
                expect(known.get(found.path) != found.word, "logged twice", f"{event!r}")
            known[found.path] = found.word
        if done.status in (0, 10) and not has_fault:
            self.expect_all_logged(known, done)

    def expect_all_logged(self, known, done):
        """Each file of the folder is logged as it is."""
        for path in sorted((self.place / "files").rglob("*")):
            if path.is_file() and not path.is_symlink():
                name = b"./" + os.fsencode(path.relative_to(self.place / "files"))
                expect(known.get(name, b"").decode() == digest_of(path), "a file isn't logged", f"{path}: {done.status} {done.out} {done.err}")

    # ---- the carrier

    def out_of(self, sender, receiver, box=None):
        """What a service has put out for a peer, by names."""
        out = self.place / (box or f"box-{sender}") / receiver / "out"
        return {str(path.relative_to(out)): path.read_bytes() for path in sorted(out.rglob("*")) if path.is_file() and not path.name.endswith(".new")}

    def put_in(self, sender, receiver, name, data):
        """Puts a file down in a peer's folder, and takes away what stands in its way."""
        folder = self.place / f"box-{receiver}/{sender}"
        path = folder / "in" / name
        for part in (*(folder / it for it in reversed(path.relative_to(folder).parents)), path):
            is_right = part.is_file() if part == path else part.is_dir()
            if part.is_symlink() or not is_right:
                take_away(part)
        path.parent.mkdir(parents=True, exist_ok=True)
        path.write_bytes(data)
        self.inside.came[f"box-{receiver}/{sender}/in/{name}"] = BEGAN + self.clock[receiver]

    def carry(self, sender, receiver, only=None):
        """Carries what was put out, all of it or one file."""
        found, knew = self.out_of(sender, receiver), self.origin.get(sender, {}).get(receiver, 0)
        for name, data in found.items():
            if only is None or name == only:
                self.put_in(sender, receiver, name, data)
                self.note_carried(sender, receiver, name, data, knew)
        past = self.past.setdefault((sender, receiver), [])
        if found and (not past or past[-1][0] != found):
            past.append((found, knew))
            del past[:-MOST_PAST]

    def note_carried(self, sender, receiver, name, data, knew):
        """Notes what leaves a machine by a file."""
        if name == "yours":
            self.word[sender, receiver] = data, knew, self.clock[receiver]
        steps = [int(line.split()[1]) for line in data.splitlines()[:1] if name == "line" and len(line.split()) == 3]
        message = read_or_none(read_message, data) if name in ("message", "next") else None
        steps += [message.step] if message is not None else []
        self.model.out[sender] = max([self.model.out[sender], *(step for step in steps if step < len(self.model.true[sender]))])

    def do_carry(self, a, b, c):
        """All files are carried: of all, or from one to another; or one file alone."""
        if a % 3:
            for sender, receiver in PAIRS:
                self.carry(sender, receiver)
            return
        sender, receiver = PAIRS[b % 6]
        names = sorted(self.out_of(sender, receiver))
        self.carry(sender, receiver, names[c % len(names)] if a % 2 and names else None)

    def do_replay(self, a, b, c):
        """Files of before are brought once more: all of them, or one."""
        sender, receiver = PAIRS[a % 6]
        past = self.past.get((sender, receiver))
        if past:
            found, knew = past[b % len(past)]
            names = sorted(found)
            for name in names if c % 3 == 0 else [names[c % len(names)]]:
                self.put_in(sender, receiver, name, found[name])
                self.note_carried(sender, receiver, name, found[name], knew)

    def come(self, a):
        """The folder `in` of a pair, and the files there."""
        sender, receiver = PAIRS[a % 6]
        folder = self.place / f"box-{receiver}/{sender}/in"
        return sender, receiver, sorted(str(path.relative_to(folder)) for path in folder.rglob("*") if path.is_file()), folder

    def do_lose(self, a, b, c):
        """A file that came is lost."""
        _, _, names, folder = self.come(a)
        if names:
            (folder / names[b % len(names)]).unlink()

    def do_damage(self, a, b, c):
        """A file that came is cut, has a byte changed, or something behind it: letters, or another file, good by itself."""
        sender, receiver, names, folder = self.come(a)
        if not names:
            return
        name, how = names[b % len(names)], c % 4
        data = (folder / name).read_bytes()
        other = (folder / names[c // 4 % len(names)]).read_bytes()
        place = c // 4 % max(1, len(data))
        flipped = data[:place] + bytes([data[place] ^ 1 << c % 8]) + data[place + 1 :] if data else b"x"
        self.put_in(sender, receiver, name, [data[: len(data) // 2], flipped, data + b"more\n", data + other][how])

    def do_swap(self, a, b, c):
        """A file takes the place of another one, of this peer's or of another one's."""
        sender, receiver, names, _ = self.come(a)
        _, _, others, folder = self.come(a if c % 2 else b)
        if names and others:
            self.put_in(sender, receiver, names[b % len(names)], (folder / others[c // 2 % len(others)]).read_bytes())

    def do_forge(self, a, b, c):
        """The carrier makes up a message, a receipt, a refusal or requests, which nobody signs. Of the message he has all that he needs but the key, where he has a copy of
        the true store."""
        sender, receiver = PAIRS[a % 6]
        known = [entry.step for entry in self.store(receiver).threads if entry and entry.service == sender]
        forged, since = (self.store(sender).copied(), max(known, default=0)) if b % 2 else (Service(sender), 0)
        for number in range(1 + b % 3 if b % 2 else len(self.model.true[sender]) + b % 3):
            forged.append([b"forged %d" % number])
        refusal = f"refused BadLink {b % 40} {'ab' * 32}\nmessage {c % 40} since {c % 7}\n".encode()
        receipt = self.forged_receipt(sender, receiver, b)
        line = self.sign("thief", forged.anchor(forged.steps)) if b % 2 else self.sign("thief", f"{sender} {1 + b % 9} {'cd' * 32}\n".encode())
        asked = self.forged_requests(receiver, b)
        what = (("message", forged.message(min(since, forged.steps))), ("refusal", refusal), ("receipt", receipt), ("requests", asked), ("line", line))[c % 5]
        if what[1]:
            self.put_in(sender, receiver, *what)

    def forged_requests(self, receiver, which):
        """Requests for an event of a service, a link and a thread."""
        steps = self.store(receiver).line.steps
        filled = [step for step, events in enumerate(steps, 1) if events] or [1]
        return f"event {filled[which % len(filled)]} 0 {len(steps)}\nlink 1 2\nthread 3 bank 1 4\n".encode()

    def forged_receipt(self, sender, receiver, step):
        """A receipt that a peer never gave, of a step of the receiver."""
        return Receipt(sender, 1 + step % 9, bytes(32), receiver, 1 + step % 40, bytes([step % 256]) * 32).to_bytes()

    def do_hinder(self, a, b, c):
        """A folder, a link or a pipe comes in the place of a file that a peer put out; or a link or a file in the place of the folder itself."""
        _, _, names, folder = self.come(a)
        names = [name for name in names if name in weft_model.LOOKED_FOR or c // 4 % 2] or names
        if names:
            path = folder / names[b % len(names)] if c // 8 % 3 else folder
            take_away(path)
            works = [path.mkdir, lambda: path.symlink_to("../../box.conf"), lambda: os.mkfifo(path), lambda: path.symlink_to("nowhere")]
            works[c % 4 if path != folder else 1 + c % 3]()

    # ---- the liar and the thief

    def do_lie(self, a, b, c):
        """A service begins a second history from a copy of its store, or goes on with it: its line and message go to one peer."""
        if self.false is None and len(self.history(NAMES[a % 3])) > 2:
            self.false = NAMES[a % 3]
            shutil.copytree(self.place / self.false, self.place / "false")
        if self.false is None:
            return
        name, receiver = self.false, [it for it in NAMES if it != self.false][b % 2]
        self.number += 1
        if c % 4:
            self.append("false", b"false %d" % self.number)
        service = self.store("false")
        self.hand_signed(name, receiver, service, c)

    def hand_signed(self, name, receiver, service, since):
        """Signs the last line of a store with a service's key, and gives it to a peer, with its message."""
        step, auth = service.steps, service.line.auths[-1].hex()
        data = self.sign(name, f"{name} {step} {auth}\n".encode())
        self.model.signed[name][data] = step
        if not self.model.is_true(name, step, auth):
            self.model.other[name].add((step, auth))
        known = [entry.step for entry in self.store(receiver).threads if entry and entry.service == name]
        self.put_in(name, receiver, "line", data)
        self.put_in(name, receiver, "message", service.message(min(max(known, default=0), step) if since % 3 else 0))

    def sign(self, name, text):
        """A text, signed with a service's key."""
        return text + self.inside.sign(f"{name}.key", text)

    def do_steal(self, a, b, c):
        """A thief signs lines with a service's key: of a history that he makes up, near or far."""
        name, receiver = PAIRS[a % 6]
        self.model.stolen.add(name)
        forged = Service(name)
        for number in range(1 + (b % 12 if c % 2 else len(self.model.true[name]) + b % 3)):
            forged.append([b"stolen %d" % number])
        self.hand_signed(name, receiver, forged, c)

    def do_take_out(self, a, b, c):
        """A peer takes the stolen key of a service out of its file."""
        name, holder = PAIRS[a % 6]
        path = self.place / f"box-{holder}/allowed_signers"
        if name in self.model.stolen:
            path.write_bytes(b"".join(line for line in path.read_bytes().splitlines(True) if not line.startswith(name.encode() + b" ")))
            self.model.taken_out.add((holder, name))

    # ---- backups

    def parts_of(self, name, what):
        """The places that a backup has: of the store, of what stands beside it, of the box."""
        return [*([name] if what & 1 else []), *([f"{name}{end}" for end in BESIDE] if what & 2 else []), *([f"box-{name}"] if what & 4 else [])]

    def copy_parts(self, parts, source, to):
        """Copies places, or takes away what isn't there."""
        for part in parts:
            old, new = source / part, to / part
            shutil.rmtree(new) if new.is_dir() else new.unlink(missing_ok=True)
            if old.exists():
                new.parent.mkdir(parents=True, exist_ok=True)
                shutil.copytree(old, new, symlinks=True, ignore=pipes) if old.is_dir() else shutil.copy2(old, new)

    def do_backup(self, a, b, c):
        """A backup of a service is made, with all that stands beside it and its box."""
        name = NAMES[a % 3]
        if name not in self.live:
            self.copy_parts(self.parts_of(name, 7), self.place, self.place / "backup")

    def do_restore(self, a, b, c):
        """A backup is put back: the store, what stands beside it, the box, or several of them."""
        names, what = [it for it in NAMES if (self.place / "backup" / it).exists()], 1 + b % 7
        if not names:
            return
        name = names[a % len(names)]
        if name not in self.live:
            self.copy_parts(self.parts_of(name, 7), self.place, self.place / "live")
            self.live.add(name)
        self.copy_parts(self.parts_of(name, what), self.place / "backup", self.place)
        self.restored.setdefault(name, None)
        self.is_log_moved |= name == "shop"
        if what & 4:
            self.forget(name)
            self.bring_back(name)

    def bring_back(self, name):
        """What lay in a box comes to it anew by a restore, for all that the system tells of it."""
        for place in (self.place / f"box-{name}").glob("*/in/*"):
            self.inside.came[str(place.relative_to(self.place))] = BEGAN + self.clock[name]

    def forget(self, name):
        """What a box knew of the silence of its peers isn't known any more."""
        for peer in NAMES:
            self.model.heard.pop((name, peer), None)

    def do_repair(self, a, b, c):
        """The right store is put back, with all that stood beside it."""
        if self.live:
            name = sorted(self.live)[a % len(self.live)]
            self.live.discard(name)
            self.copy_parts(self.parts_of(name, 7), self.place / "live", self.place)
            self.is_log_moved |= name == "shop"
            self.forget(name)

    def do_look(self, a, b, c):
        """A person looks after a restore."""
        self.turn_of(NAMES[a % 3], HOUR, "--look")

    def do_adopt(self, a, b, c):
        """A person names the last line of a store, having seen that no later one was handed out."""
        name = NAMES[a % 3]
        found = self.history(name)
        if found == self.model.true[name] and len(found) - 1 >= self.model.out[name] and len(found) > 1:
            self.turn_of(name, HOUR, "--adopt-store", f"{name} {len(found) - 1} {found[-1]}")

    def do_fault(self, a, b, c):
        """The next run is killed, interrupted, or fails at one of its writes; or a name can't be opened."""
        kind = ("before", "half", "ctrl-c", "ENOSPC", "EIO")[a % 5]
        names = ("in", "line", "message", "yours", "sub", "a.txt", "seen", "kept", "timeline.tw")
        self.fault = Fault(1 + b % 90, kind) if c % 3 else Fault(name=names[b % len(names)])

    # ---- the reader

    def do_keep(self, a, b, c):
        """A reader keeps a signed line that a service put out, of its true history or of its other one."""
        name = NAMES[a % 3]
        signed = list(self.model.signed[name].items())
        if not signed:
            return
        kept = self.kept_now()
        others = [(data, step) for data, step in signed if any(it[:2] == (name, step) and it[2].encode() not in data for it in kept)]
        data, step = others[-1 - b % len(others)] if others and c % 2 else signed[-1 - b % min(len(signed), 4)]
        (self.place / "tmp/line").write_bytes(data)
        auth = data.split(b"\n")[0].split()[2].decode()
        before = (read_quietly(self.place / "kept") or b"").splitlines()
        done, has_fault = self.run("reader", ["keep", "tmp/line"], (0, 11))
        weft_model.expect_nothing_lost(before, (read_quietly(self.place / "kept") or b"").splitlines(), "kept")
        others = {it for it in self.kept if it[:2] == (name, step) and it[2] != auth}
        if done.status in (0, 11):
            expect((done.status == 11) == bool(others), "two lines", f"{name} {step}: {done} beside {others}")
        if done.status in (0, 11) or (name, step, auth) in self.kept_now():
            self.kept.add((name, step, auth))
            self.model.out[name] = max(self.model.out[name], step if self.model.true[name][step : step + 1] == [auth] else 0)

    def kept_now(self):
        """The lines in the reader's file."""
        found = (line.decode().split() for line in (read_quietly(self.place / "kept") or b"").splitlines() if not line.startswith(b"#"))
        return {(words[0], int(words[1]), words[2]) for words in found if len(words) > 2 and words[1].isdigit()}

    def made_proof(self, name, top, a, b):
        """A proof of a service's history or of its other one, under a step: of an event, of a line that it received, that it received none, or of an earlier line."""
        folder = "false" if self.false == name and a % 2 else name
        service = self.store(folder)
        step = 1 + b % max(1, min(top, service.steps))
        other = [it for it in NAMES if it != name][a // 2 % 2]
        entries = [entry for entry in service.threads[1:] if entry is not None]
        entry = entries[b % len(entries)] if entries else None
        works = (
            lambda: service.event_proof(step, 0, top), lambda: service.link_proof(step, top), lambda: service.history(),
            lambda: service.thread_proof(entry.archived, entry.service, entry.step, top), lambda: service.absent_proof(step, other, 1 + b % 9, top),
        )  # fmt: skip
        try:
            return works[a // 4 % len(works)](), folder
        except (Refused, AttributeError, IndexError, AssertionError):
            return None, folder

    def do_judge(self, a, b, c):
        """The reader judges a proof, or one that was changed on its way, beside another file."""
        name = NAMES[a % 3]
        steps = sorted(step for service, step, _ in self.kept if service == name)
        top = steps[b % len(steps)] if steps and c % 3 else 1 + b % 20
        data, folder = self.made_proof(name, top, a // 3, b // 3)
        if data is None:
            return
        changed = self.changed(data, c)
        (self.place / "tmp/proof").write_bytes(changed)
        (self.place / "tmp/good").write_bytes(data)
        done, has_fault = self.run("reader", ["judge", "tmp/good", "tmp/proof", "--json"] if c % 2 else ["judge", "tmp/proof", "--json"], (0, 1, 9, 10, 11, 12))
        for row in map(json.loads, done.out.splitlines()):
            if "kind" in row and row["shown"]:
                self.expect_true(row, (self.place / row["files"][0]).read_bytes())
        if done.status == 0 and c % 2 and changed != data:
            expect(False, "a bad file behind a good one", f"{done}")
        is_clear = sum(it[:2] == (name, top) for it in self.kept) == 1 and (name, top, self.history(folder)[top] if top < len(self.history(folder)) else "") in self.kept
        # (a proof tells lines of others too, which those of a liar's other history contradict)
        if changed == data and is_clear and not has_fault and data[:4] != b"TWH1" and not any(self.model.other.values()):
            expect(done.status == 0, "a good proof isn't shown", f"{name} {top}: {done}")

    @staticmethod
    def changed(data, how):
        """A file that was changed on its way, mostly not."""
        place = how // 8 % max(1, len(data))
        changes = {1: data[:place], 3: data[:place] + bytes([data[place] ^ 1 << how % 7]) + data[place + 1 :], 5: data + b"x", 6: b""}
        return changes.get(how % 8, data)

    def do_many(self, a, b, c):
        """The reader judges a folder of proofs into a table, some of which were changed."""
        folder = self.place / "tmp/many"
        shutil.rmtree(folder, ignore_errors=True)
        folder.mkdir()
        are_changed = []
        for number in range(4):
            steps = sorted(step for service, step, _ in self.kept if service == NAMES[(a + number) % 3]) or [1 + b % 9]
            data, _ = self.made_proof(NAMES[(a + number) % 3], steps[-1], b + number, c + number)
            if data is not None:
                changed = self.changed(data, c // (number + 1))
                (folder / f"p{number}").write_bytes(changed)
                are_changed.append(changed != data)
        ends = (0, 1, 9, 10, 11, 12) if are_changed else (16,)
        done, has_fault = self.run("reader", ["judge", "--many", "tmp/many", "--table", "tmp/table", "--workers", "1"], ends)
        expect(not (any(are_changed) and done.status == 0), "a bad file behind a good one", f"{done}")
        if not has_fault and done.status is not None and are_changed:
            rows = [line.split("\t") for line in (self.place / "tmp/table").read_text().splitlines()]
            expect(len(rows) == 2 + len(are_changed), "a file has no row", f"{rows}")

    def do_accuse(self, a, b, c):
        """Somebody makes evidence of two proofs that services received lines of one; the reader judges it."""
        name = NAMES[a % 3]
        holders = [it for it in NAMES if it != name]
        proofs = []
        for holder, which in zip(holders, (b, c)):
            service = self.store(holder)
            entries = [entry for entry in service.threads if entry and entry.service == name]
            steps = sorted(step for of, step, _ in self.kept if of == holder and step <= service.steps)
            entries = [entry for entry in entries if steps and entry.archived <= steps[-1]]
            if not entries:
                return
            entry = entries[which % len(entries)]
            proofs.append(read_proof(service.thread_proof(entry.archived, name, entry.step, steps[-1])))
        first, second = sorted(proofs, key=lambda proof: proof.entry.step)
        link = read_proof(self.store(name).link_proof(first.entry.step, second.entry.step)) if second.entry.step <= self.store(name).steps else None
        made = accused(first, second, None if first.entry.step == second.entry.step else link)
        if isinstance(made, int):
            return
        (self.place / "tmp/proof").write_bytes(made.to_bytes())
        done, _ = self.run("reader", ["judge", "tmp/proof"], (0, 1, 9, 10, 11, 12))
        expect(not (done.status == 0 and self.model.is_honest(name)), "somebody honest is accused", f"by evidence: {done}")

    def do_chain(self, a, b, c):
        """The proof that an event precedes another one is made, of the stores and boxes of all."""
        one, other = PAIRS[a % 6]
        first, second = (1 + place % max(1, len(self.model.true[name]) - 1) for name, place in ((one, b), (other, c)))
        if not (self.store(one).line.steps[first - 1 : first] and self.store(other).line.steps[second - 1 : second]):
            return
        words = ["chain", f"{one}:{first}:0", f"{other}:{second}:0", "--out", "tmp/chain"]
        for name in NAMES:
            words += ["--store", name, "--box", f"box-{name}"]
        done, _ = self.run(one, words, (0, 1, 7, 8, 10, 11, 12, 17))
        if done.status == 0 and not self.model.stolen and self.false is None:
            expect(self.reached(one, first).get(other, second + 1) <= second, "an order that isn't so is shown", f"{done}")

    def reached(self, name, step):
        """To which steps a step of a service leads, by what services received."""
        found, is_done = {name: step}, False
        while not is_done:
            before = dict(found)
            for recorder in NAMES:
                for entry in self.store(recorder).threads:
                    if entry and entry.service in found and entry.step >= found[entry.service]:
                        found[recorder] = min(found.get(recorder, entry.archived), entry.archived)
            is_done = found == before
        return found

    def expect_true(self, row, data):
        """What is called shown is so in a history that the model knows, and rests on lines that the reader kept."""
        for line in row["lines"]:
            words = line["service"], line["step"], line["authenticator"]
            expect(words in self.kept_now(), "shown under a line that wasn't kept", f"{row}")
            expect(sum(it[:2] == words[:2] for it in self.kept_now()) == 1, "shown under a line that another one contradicts", f"{row}")
            expect(self.model.is_true(*words), "shown under a line of nobody", f"{row}")
        if row["kind"] == "history":
            return
        proof = read_proof(data)
        for folder in (proof.service, *(["false"] if self.false == proof.service else [])):
            service = self.store(folder)
            if proof.top <= service.steps and self.is_so(proof, service):
                return
        expect(proof.service in self.model.stolen, "shown, and not so", f"{row}")

    @staticmethod
    def is_so(proof, service):
        """Whether a history has what a proof claims."""
        works = {
            "exists": lambda: service.event_proof(proof.step, proof.event.index, proof.top), "link": lambda: service.link_proof(proof.step, proof.top),
            "thread": lambda: service.thread_proof(proof.step, proof.entry.service, proof.entry.step, proof.top),
            "absence": lambda: service.absent_proof(proof.step, proof.absent_service, proof.absent_step, proof.top),
        }  # fmt: skip
        name = {"ExistenceProof": "exists", "LinkProof": "link", "ThreadProof": "thread", "AbsenceProof": "absence"}[type(proof).__name__]
        try:
            return works[name]() == proof.to_bytes()
        except Refused:
            return False

    def do_prove(self, a, b, c):
        """The keeper proves what was logged of a file, and a reader who holds the line judges it beside the file."""
        name = LOGGED[a % len(LOGGED)]
        if self.history("shop") != self.model.true["shop"]:
            return
        (self.place / "tmp/p").unlink(missing_ok=True)
        done, has_fault = self.run("shop", ["prove", "shop", "--out", "tmp/p", "--", name], (0, 7, 10, 17, 3))
        if done.status not in (0, 10) or has_fault:
            return
        known = [read for read in map(read_event, self.logged_events()) if read and read.path == b"./" + os.fsencode(name) and read.word != b"gone"]
        (self.place / "tmp/own").write_text(f"shop {len(self.history('shop')) - 1} {self.history('shop')[-1]}\n")
        path = self.place / "files" / name
        is_file = path.is_file() and not path.is_symlink()
        judged, has_fault = self.run("reader", ["judge", "tmp/p", "--kept", "tmp/own", *(["--file", f"files/{name}"] if is_file else [])], (0, 1, 3, 10))
        is_same = not is_file or digest_of(path) == known[-1].word.decode()
        expect(judged.status == (0 if is_same else 1) or has_fault, "what was logged can't be proved" if is_same else "another file is called it", f"{judged}")

    def do_check(self, a, b, c):
        """A service's store is checked, as it is or with a byte changed, which is put right behind it."""
        name = NAMES[a % 3]
        path = self.place / name / "timeline.tw"
        data, is_bad = path.read_bytes(), b % 3 == 0
        if is_bad:
            place = 8192 + c * 41 % max(1, len(data) - 8192)
            path.write_bytes(data[:place] + bytes([data[place] ^ 1]) + data[place + 1 :])
        is_changed = is_bad and self.store_or_none(name) is None
        done, has_fault = self.run(name, ["check", name, "--all", "--workers", "1", "--json"], (0, 8, 10, 11, 17))
        path.write_bytes(data)
        expect(not (is_changed and done.status == 0), "a damaged store is called good", f"{done}")
        if not is_bad and not has_fault and self.history(name) == self.model.true[name] and name not in self.live and self.model.is_honest(name):
            is_doubted = done.status == 10 and any(json.loads(line).get("doubt") for line in done.out.splitlines())
            expect(done.status == 0 or is_doubted, "a good store isn't called good", f"{done}")

    def store_or_none(self, name):
        """The store, or None of a damaged one."""
        try:
            return self.store(name)
        except ValueError:
            return None

    def expect_found(self, ends):
        """Two signed lines of one step, of which two peers hold one each, are found once they have exchanged."""
        for name in NAMES:
            holders = [it for it in NAMES if it != name]
            held = [self.signed_by_step(holder, name) for holder in holders]
            is_shown = any(held[0][step] != held[1][step] for step in held[0].keys() & held[1].keys())
            if is_shown:
                told = {holder: ends[holder].status for holder in holders}
                expect(11 in told.values(), "two histories aren't found", f"of {name}: {told} {[ends[holder].out[-500:] for holder in holders]}")

    def signed_by_step(self, holder, name):
        """The authenticators of a peer's steps by the signed lines that a service holds."""
        found = {}
        for line in (read_quietly(self.place / f"box-{holder}/{name}/kept/signed") or b"").splitlines():
            words = line.decode("ascii", "replace").split()
            if len(words) == 3 and words[0] == name:
                found.setdefault(int(words[1]), set()).add(words[2])
        return found

    # ---- a whole script

    def do(self, step):
        """Does a step of a script."""
        getattr(self, f"do_{step[0]}")(*step[1:])

    def calm(self):
        """Nights in which nothing befalls anybody, and all is carried: then no honest party has anything to tell, and those who show two histories are known."""
        self.fault, before = Fault(), [dict.fromkeys(NAMES, 0)] * 2
        for number in range(3):
            self.do_repair(number, 0, 0)
        for number in range(CALM_NIGHTS):
            for name in NAMES:
                if name != "shop":
                    self.do_record(NAMES.index(name) - 1, 0, 0)
            self.do_log(0, 0, 0)
            ends = {name: self.turn_of(name) for name in NAMES}
            for sender, receiver in PAIRS:
                take_away(self.place / f"box-{receiver}/{sender}/in")
                self.carry(sender, receiver)
            if number and all(done.status == 0 for done in ends.values()):
                break
            before.append(dict(self.model.out))
        self.expect_calm(ends, before[-2])

    def expect_calm(self, ends, out):
        """Where nobody lied and no key was stolen, each turn ends with 0, and each has recorded what the others had handed out two nights before. Where one showed two
        histories at one step, those who hold its lines know."""
        if self.model.stolen:
            return
        if any(self.model.other.values()):
            self.expect_found(ends)
            return
        for name, done in ends.items():
            expect(done.status == 0, "it doesn't go on", f"{name}: {done}")
        for recorder, of in PAIRS:
            expect(self.knows(recorder, of) >= out[of], "it isn't recorded", f"{recorder} has step {self.knows(recorder, of)} of {of}, and {out[of]} was handed out")


def take_away(path):
    """Takes away what is there, a folder with all in it."""
    if path.is_dir() and not path.is_symlink():
        shutil.rmtree(path)
    elif os.path.lexists(path):
        path.unlink()


def pipes(folder, names):
    """The pipes of a folder, which a copy can't have."""
    return [name for name in names if Path(folder, name).is_fifo()]


def told_by(done):
    """What a turn says as JSON; None where it says none, and where it ended before it was begun."""
    for line in done.out.splitlines():
        if line.startswith("{"):
            found = json.loads(line)
            return found if "peers" in found else None
    return None


def read_or_none(reader, data):
    """What a file is, or None."""
    try:
        return reader(data)
    except ValueError:
        return None


def digest_of(path):
    """The SHA-256 digest of a file."""
    return hashlib.sha256(path.read_bytes()).hexdigest()


# ---- the beginning


def begin(inside):
    """Makes three services that have exchanged for two nights, one of which logs a folder, and a reader who has their keys."""
    place = Path(inside.folder)
    (place / "files/sub").mkdir(parents=True)
    for kept in ("kept", "kept of keepers"):
        (place / kept).touch()
    for name in LOGGED:
        (place / "files" / name).write_text(f"first of {name}")
    inside.moment = BEGAN - 9 * DAY
    make_key(place / "thief.key")
    for name in NAMES:
        make_key(place / f"{name}.key")
        run_well(inside, "keep", "--signer", name, f"{name}.key.pub")
        if name != "shop":
            (place / name).mkdir()
            inside.answer("init", name, name)
    run_well(inside, "log", "files", "shop", "shop", "--workers", "1")
    for name, other in PAIRS:
        run_well(inside, "accept", f"box-{name}", other, "--key", f"{other}.key.pub", ends=(10,))
        (place / f"box-{name}/box.conf").write_text(f"key = ../{name}.key\n")
    night(inside)
    for name, other in PAIRS:
        line = read_message((place / f"box-{name}/{other}/in/message").read_bytes()).authenticator.hex()
        run_well(inside, "accept", f"box-{name}", other, "--yes", line)
    night(inside)
    night(inside)


def night(inside):
    """A turn of each, and then all is carried."""
    inside.moment += DAY
    for name in NAMES:
        run_well(inside, "exchange", name, f"box-{name}", ends=(0, 10))
    for sender, receiver in PAIRS:
        out, into = (Path(inside.folder) / f"box-{sender}/{receiver}/out", Path(inside.folder) / f"box-{receiver}/{sender}/in")
        for path in sorted(out.rglob("*")):
            if path.is_file():
                to = into / path.relative_to(out)
                to.parent.mkdir(parents=True, exist_ok=True)
                to.write_bytes(path.read_bytes())


def run_well(inside, *words, ends=(0,)):
    """Runs weft, which has to end well."""
    done = inside.run(*words)
    if done.status not in ends:
        raise Broken("the beginning", f"{words}: {done}")
