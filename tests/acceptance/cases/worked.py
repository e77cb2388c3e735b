"""Acceptance cases of examples that were worked out by hand, each with its own values: paths, messages, what isn't there, damaged stores,
forks and followers. `ROWS` names the test or case of each worked example of the project, of those elsewhere too."""

from harness.entangled import Entangled
from harness.making import absent_proof, forged, link_proof, message_bytes
from harness.rooms import case, changed_page, expect
from timeweave_reference.events_files import events_to_bytes
from timeweave_reference.hashed_texts import genesis
from timeweave_reference.proofs import absent_text, thread_text
from timeweave_reference.receipts import read_receipt
from timeweave_reference.services import Service, service_of
from timeweave_reference.timelines import Timeline
from timeweave_reference.tree_pages import PAGE

# The worked examples of the project, each by a name of its own, and what runs it with its own values: tests of a file of a crate,
# functions of a module of cases, cases of a table, or the stored run of a program.
ROWS = {
    # proofs of one event
    "the least proof, another digest and another service": [
        ("timeweave", "stdout"),
        ("least.json", "accepted", "another digest", "another service"),
    ],
    "the least proof padded, cut and empty": [("least.json", "padded by one byte", "cut by one byte", "empty")],
    "the least proof with one field changed": [
        (
            "changed.json", "first letter", "kind 9", "a capital in the name", "a letter after a zero of the name",
            "a step of more than 40 bits", "step 0", "step 2, whose opening has one more label", "another event root", "no events",
            "two events, whose paths have a label", "index 1 of one event", "an event of one byte that is missing",
        ),
        ("generated.py", "other_kinds"),
    ],
    "the least proof under the weak hasher": [
        ("tw_servicetests/worked.rt", "the_least_proof_is_accepted_under_its_own_authenticator_alone"),
    ],
    "three events, and none": [("tw_parttests/events.rt", "root_and_paths_of_three_events", "root_of_no_events")],
    "the paths from 13 to 5, from 16 to 1 and from 15 to 0": [("worked.py", "path_sizes")],
    "two small histories under the weak hasher": [
        ("tw_servicetests/labels.rt", "two_steps_of_events", "a_step_that_received_a_thread"),
        (
            "tw_servicetests/worked.rt", "a_service_of_two_steps_proves_its_first_event_in_209_bytes",
            "a_service_that_received_a_thread_tells_its_receipt",
        ),
    ],
    # proofs of several services
    "a hop needs a second event from step 2 on": [("precedence.py", "first_step_and_a_hop")],
    "the step that received a thread is too early for the second event": [("precedence.py", "orders")],
    "a carried thread": [("precedence.py", "good_proofs", "worked")],
    "a proof cut in two at each place, and byte by byte": [
        ("tw_servicetests/pieces.rt", "each_cutting_has_one_verdict"),
        ("precedence.py", "in_pieces"),
    ],
    "two texts of one digest": [("tw_parttests/audits.rt", "two_events_of_one_digest")],
    "an audit without the history": [("audits.py", "least")],
    # messages
    "a repeated message": [("worked.py", "same_receipt")],
    "a message that forks": [("worked.py", "fork_refused")],
    "a message since a wrong step": [("worked.py", "wrong_start")],
    # archives
    "a root page that splits": [
        ("tw_parttests/paged_trees.rt", "the_25th_key_splits_the_root", "an_earlier_root_keeps_its_24_keys"),
        ("tree_runs.py", "few_keys"),
    ],
    "the archive of one thread, and its proof of 65 bytes": [
        ("tw_servicetests/trees.rt", "the_label_of_an_only_entry", "the_proof_of_an_only_entry"),
    ],
    "a thread that is absent, and who asks otherwise": [("worked.py", "absent_thread")],
    "pages of one, three, five and 25 keys": [
        ("tw_parttests/leaf_pages.rt", "the_bytes_of_one_key", "three_keys_in_two_orders_and_five", "a_full_page_becomes_two"),
        ("tree_runs.py", "few_keys"),
    ],
    "a page that is kept, the first of 1,000 steps in 15 reads, and a key of 25 in two": [
        ("tw_parttests/caches.rt", "a_page_read_twice_is_read_once_below"),
        ("tw_parttests/skip_lists.rt", "the_first_of_a_thousand_steps_is_told_by_fifteen_pages"),
        ("tw_parttests/paged_trees.rt", "an_earlier_root_keeps_its_24_keys"),
    ],
    "60 threads of one peer, and the proof of the third": [("worked.py", "sixty_threads")],
    "60 threads below 1,000 steps, in few reads": [("receiving.py", "few_reads")],
    "between which steps a step lies": [("worked.py", "bounds_of_a_map")],
    # services and their disks
    "what isn't there": [("worked.py", "missing_things")],
    "the most events of a step, and the longest": [
        ("steps.py", "refusals", "full_steps"),
        ("edges.py", "append_calls"),
        ("tw_runtests/disk_runs.rt", "a_full_step_of_long_events_takes_24_device_calls"),
    ],
    "two pages committed by eight device calls": [("tw_parttests/stores.rt", "two_pages_are_committed_by_eight_device_calls")],
    "a store without the body or the gate of its last commit": [("worked.py", "other_slot")],
    "an append stopped at each device call": [
        ("tw_servicetests/services.rt", "a_stopped_append_leaves_the_step_or_none", "an_append_over_a_closed_gate_makes_six_device_calls"),
        ("edges.py", "append_calls"),
    ],
    "an append stopped in a script, by call and choice": [("played.py", "crashed")],
    "the making of a service, torn at its third device call": [
        ("tw_runtests/disk_runs.rt", "each_page_of_a_way_is_read_once", "a_making_stopped_at_its_third_call_leaves_a_blank_disk"),
    ],
    "the making of a service stopped at each device call": [
        ("tw_runtests/disk_runs.rt", "a_crash_at_each_call_of_a_making_leaves_the_service_or_none"),
    ],
    "an append and a receive stopped, or failed, at each device call": [
        ("tw_runtests/disk_runs.rt", "a_crash_at_each_call_leaves_the_step_or_none", "a_step_made_after_a_disk_fault_stands_after_a_crash"),
        ("tw_servicetests/services.rt", "a_service_that_met_a_fault_is_to_be_opened_again"),
    ],
    "faults of an input, an output and a disk": [
        ("outside.json", "a missing file"),
        ("tw_runtests/disk_runs.rt", "a_step_stands_that_could_not_be_told"),
        ("tw_servicetests/services.rt", "an_append_whose_third_device_call_fails_makes_no_step"),
    ],
    "disks that are no store, and a page of zeros": [("worked.py", "no_store")],
    "a service of as many steps as may be": [("failing.py", "last_step")],
    # commands
    "words that have no form": [
        ("words.json", "none", "no command", "a proof alone", "no digest"),
        ("forms.json", "generate 7 0", "init d UPPER"),
    ],
    "the files of small histories, and one that breaks a rule": [
        ("exported.py", "least_files"),
        ("histories.json", "a step below an earlier one"),
    ],
    "histories that break each rule": [
        (
            "histories.json", "a node whose right side is a later one", "a root one above the nodes", "a tree whose keys fall",
            "an own thread that no tree has, rule 3 before 4", "an own thread", "a step below an earlier one",
        ),
        ("generated.py", "broken_by_hand"),
    ],
    "a script of two services": [("played.py", "scripts"), ("precedence.py", "worked")],
    "networks of 1, 50 and 2,000 rounds": [
        ("played.py", "summaries"),
        ("tw_runtests/generated.rt", "two_thousand_rounds_take_less_than_60_million_bytes_a_disk"),
    ],
    # claimed times
    "a step with a time under the weak hasher": [("tw_servicetests/labels.rt", "two_steps_of_events", "a_datum_with_a_time")],
    "the proof and the history of a step with a time": [("times.json", "its proof tells the time"), ("generated.py", "changed_times")],
    "a time below an earlier one": [("steps.py", "clock_back")],
    "a store without times takes a step with one": [("steps.py", "older_store")],
    "a history whose times fall": [("generated.py", "falling_times")],
    # what reaches further
    "hops in a row, and in a circle": [("atlases.py", "worked")],
    "receipts that are cut": [("atlases.py", "bad_files")],
    "evidence of a fork under the weak hasher": [("tw_servicetests/worked.rt", "evidence_of_two_first_steps")],
    "no conflict, and steps that don't fit": [("worked.py", "no_conflict")],
    "a history taken over by one step": [
        ("adoptions.py", "least"),
        ("tw_servicetests/adoptions.rt", "a_history_is_taken_over_as_far_as_it_was_received"),
    ],
    "a follower under the weak hasher, stopped at each device call": [
        ("tw_servicetests/followers.rt", "a_head_is_moved_by_seven_device_calls", "a_stopped_move_leaves_the_head_or_the_next_one"),
    ],
    "offers that a follower refuses": [("worked.py", "refused_offers")],
}

# What a link's proof has before its path: the front of a proof, and the step's authenticator.
FRONT_OF_LINK = 4 + 1 + 16 + 8 + 8 + 32


def path_sizes(room):
    """the path from step 13 to 5 has 320 bytes, that from 16 to 1 has 448, and that from 15 to 0 has 320"""
    store = room.made("a", [[b"%d" % step] for step in range(16)])
    for top, step, size in ((13, 5, 320), (16, 1, 448), (15, 0, 320)):
        proof = link_proof(store.line, step, top)
        expect(len(proof) - FRONT_OF_LINK, size, f"the size of the path from {top} to {step}")
        room.expect(f"prove d link {step} {top}", 0, proof)
    expect(proof[FRONT_OF_LINK - 32 : FRONT_OF_LINK], genesis("a"), "where the path from 15 to 0 ends")


# ---- messages


def three_and_two(room):
    """Two services, `alpha` of three steps and `beta` of two."""
    pair = Entangled(room, "alpha", "beta")
    for name, count in (("alpha", 3), ("beta", 2)):
        for step in range(count):
            pair.append(name, [b"%d" % step])
    return pair


def same_receipt(room):
    """`beta`, of two steps, receives step 3 of `alpha` at its step 3; the same bytes again get the same receipt"""
    pair = three_and_two(room)
    room.put("m", pair.message("alpha", 0))
    receipt = pair.services["beta"].receive(pair.message("alpha", 0))
    expect((len(receipt), read_receipt(receipt).archived), (116, 3), "the receipt's size, and the step that it names")
    for _ in range(2):
        room.expect("receive beta m", 0, receipt)
        pair.stores_are()
    expect(pair.services["beta"].steps, 3, "the steps of beta")


def fork_refused(room):
    """`beta` has received step 3 of `alpha`, and refuses another step 3 of that name; its steps stay"""
    pair = three_and_two(room)
    message = pair.message("alpha", 0)
    pair.deliver("beta", message)
    kept, offered = pair.services["alpha"].line.auths[3], bytes(range(32))
    room.put("n", forged(message, offered))
    room.expect("receive beta n", 7, f"refused Forked 3 {kept.hex()} {offered.hex()}\n".encode())
    pair.stores_are()


def wrong_start(room):
    """behind step 3 of `alpha` its step 5 since 1 is refused, since 3 it is received, and then its step 4 is stale"""
    pair = three_and_two(room)
    pair.deliver("beta", pair.message("alpha", 0))
    for step in (4, 5):
        pair.append("alpha", [b"%d" % step])
    line = pair.services["alpha"].line
    room.put("m", pair.message("alpha", 1))
    room.expect("receive beta m", 7, f"refused BadLink 3 {line.auths[3].hex()}\n".encode())
    expect(pair.deliver("beta", pair.message("alpha", 3)), 0, "the status of a message since step 3")
    room.put("m", message_bytes(line, 4, 3))
    room.expect("receive beta m", 7, b"refused Stale 5\n")
    pair.stores_are()


def sixty_threads(room):
    """of 60 threads of one peer, the proof of the third at the step that received it is accepted under the last head"""
    pair = Entangled(room, "own", "peer")
    for since in range(60):
        pair.append("peer", [])
        pair.deliver("own", pair.services["peer"].message(since))
    own = pair.services["own"]
    pair.put_anchor("own")
    proof = own.thread_proof(3, "peer", 3, 60)
    room.expect("prove own thread 3 peer 3", 0, proof)
    room.put("p", proof)
    room.expect("verify p k", 0, thread_text("own", 3, own.entry(3, "peer", 3)).encode())


# The steps of `a` and `b`, one after another: of an event, or of the other one's last step, since its step that was received last.
TURNS = (
    "b", "b", "b", "b", "a", "a", "a received 0", "a", "a", "b", "b received 0", "b", "b", "b", "a", "a received 4", "a", "b", "b", "b received 5",
    "b", "b", "a",
)

# By the step of `a`: the steps of `b` between which it lies, the second of which there is or isn't.
BOUNDS = {6: ("4", "12"), 3: ("0", "6"), 9: ("9", "none")}


def bounds_of_a_map(room):
    """between which steps of `b` the steps 6, 3 and 9 of `a` lie; files of two steps don't fit"""
    pair = Entangled(room, "a", "b")
    for turn in TURNS:
        name, _, since = turn.partition(" received ")
        if since:
            pair.deliver(name, pair.message("b" if name == "a" else "a", int(since)))
        else:
            pair.append(name, [b"x"])
    own, other = pair.services["a"], pair.services["b"]
    received = archived(own, "b", 4, 9) + archived(other, "a", 5, 8)
    expect(received, [3, 7, 6, 12], "the steps that received steps 4 and 9 of b, and 5 and 8 of a")
    room.put("k", own.anchor(9) + other.anchor(14))
    for step, (low, high) in BOUNDS.items():
        for file, words in ((f"low{step}", f"map a low {step} b"), (f"high{step}", f"map b high {step} a")):
            data = own.low_map(step, "b", 9) if file.startswith("low") else other.high_map(step, "a", 14)
            room.expect(words, 0, data)
            room.put(file, data)
        room.expect(f"checkmap low{step} high{step} k", 0, f"accepted map\nlow {low}\nhigh {high}\nupto 14\n".encode())
    room.expect("checkmap low6 high3 k", 1, b"rejected Gap 2\n")


def archived(service, peer, *steps):
    """The steps of a service that received these steps of a peer."""
    return [service.entry(service.steps, peer, step).archived for step in steps]


# ---- what isn't there


def absent_thread(room):
    """beside step 5 of `alpha` and step 2 of `beta`, step 6 of `alpha` is absent; who asks otherwise is refused"""
    group = Entangled(room, "alpha", "beta", "own")
    for name, count in (("alpha", 5), ("beta", 2)):
        for step in range(count):
            group.append(name, [b"%d" % step])
        group.deliver("own", group.message(name, 0))
    own = group.services["own"]
    proof = absent_proof(own.line, own.tree(2), 2, 2, ("alpha", 6))
    nodes = proof[-(1 + 2 * 96) :]
    found = nodes[0], nodes[1:5], nodes[24], nodes[97:102], nodes[120]
    expect(found, (2, b"beta", 2, b"alpha", 5), "the nodes of the absence, nearest first")
    room.expect("prove own absent 2 alpha 6", 0, proof)
    room.put("p", proof)
    group.put_anchor("own")
    room.expect("verify p k", 0, absent_text("own", 2, ("alpha", 6)).encode())
    room.expect("prove own absent 2 alpha 5", 7, b"refused HasThread 1\n")
    room.expect("prove own thread 2 alpha 6", 7, b"refused NoThread\n")


def missing_things(room):
    """a fourth step of three, a second event of one, a lower top, a message of no step and one's own are refused"""
    store = room.made("d", [[], [], [b"x"]])
    for words, refusal in (("4 0", "NoStep 3"), ("3 1", "NoEvent 1"), ("3 0 2", "NoStep 3")):
        room.expect(f"prove d event {words}", 7, f"refused {refusal}\n".encode())
    room.put("m", message_bytes(store.line, 3, 0))
    room.expect("receive d m", 7, b"refused Own\n")
    (room.folder / "new").mkdir()
    room.expect("init new new", 0, service_of("new", []).anchor(0))
    room.expect("thread new 0", 7, b"refused NoStep 0\n")


# ---- damaged stores


def no_store(room):
    """four pages of zeros are blank, with an open gate they are no store, and a last step of zeros is a bad page"""
    store = room.made("a", [[b""]])
    path, good = room.folder / "d/timeline.tw", store.file()
    for data, text in (
        (bytes(4 * PAGE), "Blank"), (b"\1" + bytes(4 * PAGE - 1), "NotAStore 0"), (changed_page(good, 5, 0, bytes(PAGE)), "BadPage 5"),
    ):
        path.write_bytes(data)
        room.expect("export d", 8, f"store {text}\n".encode())


def other_slot(room):
    """a store of one step is none without the body of its open gate, and with that gate closed it has no step"""
    store = room.made("a", [[b""]])
    path, good = room.folder / "d/timeline.tw", store.file()
    expect(good[PAGE], 1, "the first byte of gate 1")
    path.write_bytes(changed_page(good, 3, 0, bytes(PAGE)))
    room.expect("export d", 8, b"store NotAStore 1\n")
    path.write_bytes(changed_page(good, 1, 0, bytes(PAGE)))
    room.expect("export d", 0, service_of("a", []).history())


# ---- forks and followers


def proof_of(room, name, file, *events):
    """Puts the proof of a new service that its step 1 received the last of these steps of a service `a` into a file; answers its line."""
    told, own = service_of("a", events), Service(name)
    own.receive(told.message(0))
    room.put(file, own.thread_proof(1, "a", told.steps, 1))
    return own.anchor(1)


def no_conflict(room):
    """two services that received the same step are no evidence, and a step 1 and a step 2 without a link don't fit"""
    lines = proof_of(room, "beta", "p", [b""]) + proof_of(room, "gamma", "q", [b""])
    room.put("k", lines)
    status, evidence, _ = room.run("accuse", "p", "q")
    expect(status, 0, "the status of timeweave accuse p q")
    room.put("v", evidence)
    room.expect("checkfork v k", 1, b"rejected 11 NoConflict\n")
    proof_of(room, "gamma", "q", [b""], [b"hi"])
    room.expect("accuse p q", 1, b"rejected Gap 2\n")


def refused_offers(room):
    """a follower of `a` at step 1 refuses another step 1 and a message of `b`; a service's store is no follower's"""
    line = Timeline("a", [[b""]])
    (room.folder / "d").mkdir()
    room.expect("watch d a", 0, f"a 0 {genesis('a').hex()}\n".encode())
    message, offered = message_bytes(line, 1, 0), bytes(range(32))
    room.put("m", message)
    room.expect("offer d m", 0, line.line(1))
    room.put("n", forged(message, offered))
    room.expect("offer d n", 7, f"refused Forked 1 {line.auths[1].hex()} {offered.hex()}\n".encode())
    room.put("o", message_bytes(Timeline("b", [[b""]]), 1, 0))
    room.expect("offer d o", 7, b"refused Other b\n")
    (room.folder / "own").mkdir()
    room.put("e", events_to_bytes([b""]))
    for words, slot, step in (("init own b", 0, 0), ("append own e", 1, 1)):
        room.expect(words, 0, service_of("b", [[b""]]).anchor(step))
        room.expect("heads own", 8, f"store NotAStore {slot}\n".encode())


def cases():
    works = (
        path_sizes, same_receipt, fork_refused, wrong_start, sixty_threads, bounds_of_a_map, absent_thread, missing_things, no_store,
        other_slot, no_conflict, refused_offers,
    )
    return [case(work, "worked") for work in works]
