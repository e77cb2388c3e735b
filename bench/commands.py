"""Commands beside nothing, beside the same calls in C, and beside other programs; what they read and compute by the size of the store, and beside their hashes."""

from typing import List

from measuring import TRUE, Bench, Found, Store, compare, median_times, table
from instructions import count_instructions
from rivals import all_rivals

from harness import large
from harness.deep import deep_proof
from harness.making import proof_bytes
from timeweave_reference.event_trees import ways_down
from timeweave_reference.events_files import events_to_bytes
from timeweave_reference.fields import big_endian as be
from timeweave_reference.services import service_of
from timeweave_reference.timelines import Timeline

STEP, INDEX, TOP_STEP = 1, 777, 2**21 - 1
DEEP_EVENTS = [be(k, 2) for k in range(1024)]
COLUMNS = {"command": 0, "runs": 0, "best": 0, "median": 0, "99 of 100": 0, f"by `{TRUE}`": 2}


def verify_words(bench: Bench, name: str, data: bytes, service: str, top: int, auth: bytes) -> List[str]:
    """The words that verify a proof."""
    return [bench.program, "verify", bench.put(name, data), service, str(top), auth.hex()]


def least_words(bench: Bench) -> List[str]:
    """The words that verify the least proof, of 145 bytes."""
    least = Timeline("a", [[b""]])
    return verify_words(bench, "least", proof_bytes(least, 1, 0, 1), "a", 1, least.auths[1])


def deep_words(bench: Bench) -> List[str]:
    """The words that verify one with a path of 40 links, of one of 1,024 events."""
    data, auth = deep_proof("deep", STEP, INDEX, TOP_STEP, DEEP_EVENTS, b"bench")
    return verify_words(bench, "deep", data, "deep", TOP_STEP, auth)


def stored(bench: Bench, count: int) -> Store:
    """A store of so many steps of one event each."""
    return Store(f"{bench.folder}/s{count}", service_of("bench", [[be(step, 8)] for step in range(1, count + 1)]).file())


class Asked:
    """The words of each command on a store."""

    def __init__(self, bench: Bench, store: Store, count: int):
        events = bench.put("events", events_to_bytes([b"bench"]))
        self.prove = [bench.program, "prove", store.folder, "event", "1", "0"]
        self.append = [bench.program, "append", store.folder, events]
        self.last_thread, self.thread = ([bench.program, "thread", store.folder, str(since)] for since in (count - 1, 1))
        self.link = [bench.program, "prove", store.folder, "link", "1"]


def compare_commands(bench: Bench) -> Found:
    """The part: a table of each command."""
    count, runs = bench.pick(10_000, 1_000), bench.pick(1_000, 3)
    store = stored(bench, count)
    asked, rivals = Asked(bench, store, count), all_rivals(bench.folder, count)
    least, deep = least_words(bench), deep_words(bench)
    one_sync = [("the calls of one sync", [bench.calls, f"open 3 r {store.path}", "sync 3"])] if bench.calls else []
    calls_of_append = bench.same_calls("the calls of `append`", asked.append)
    store.put_back()
    rows = {
        "verify": [*bench.same_calls("the calls of `verify`, 14,547 bytes", deep), ("`timeweave verify`, 145 bytes", least), ("`timeweave verify`, 14,547 bytes", deep)],
        "prove": [*bench.same_calls("the calls of `prove`", asked.prove), ("`timeweave prove`, step 1", asked.prove)],
        "append": [*calls_of_append, ("`timeweave append`", asked.append)],
        "thread": [
            *one_sync, *bench.same_calls("the calls of `thread`", asked.last_thread),
            ("`timeweave thread`, since the step before", asked.last_thread), ("`timeweave thread`, since step 1", asked.thread),
        ],
        "link": [*bench.same_calls("the calls of `prove link`", asked.link), ("`timeweave prove`, link to step 1", asked.link)],
    }  # fmt: skip
    tables = {}
    for name, own in rows.items():
        writes = name == "append"
        found = compare([(f"`{TRUE}`", [TRUE]), *own, *rivals.get(name, [])], min(runs, 100) if writes else runs, store.put_back if writes else lambda: None)
        tables[name] = table(COLUMNS, found)
    return {"tables": tables, "values": goals_of(tables)}


def goals_of(tables: Found) -> Found:
    """The ratios of which goals tell: of a command by another one."""
    times = {row["command"]: row["median"] for it in tables.values() for row in it["rows"]}
    of = {
        "verify": ("`timeweave verify`, 145 bytes", f"`{TRUE}`"), "append": ("`timeweave append`", "the calls of `append`"),
        "thread": ("`timeweave thread`, since the step before", "the calls of `thread`"),
    }  # fmt: skip
    return {name: times[row] / times[beside] for name, (row, beside) in of.items() if beside in times}


def grow(bench: Bench) -> Found:
    """The part: what commands take on stores of several sizes: time, pages and instructions."""
    rows = []
    for count in bench.pick((1_000, 65_535), (1_000,)):
        store = stored(bench, count)
        asked = Asked(bench, store, count)
        nothing, proved = median_times([[TRUE], asked.prove], bench.pick(1_000, 3))
        same = bench.same_calls("", asked.append)
        store.put_back()
        *alone, added = median_times([*(words for _, words in same), asked.append], bench.pick(100, 3), store.put_back)
        row = {"steps": count, "`prove`, step 1, by `/bin/true`": proved / nothing, "`append`, by the calls": added / alone[0] if alone else None}
        for name, words in (("`append`", asked.append), ("`thread`, since step 1", asked.thread), ("`prove link`, step 1", asked.link), ("`prove event`, step 1", asked.prove)):
            pages = bench.pages_read(words)
            store.put_back()
            counted = count_instructions(words, bench.folder)
            store.put_back()
            row[name] = [pages, counted.total if counted else None]
        rows.append(row)
    return {"tables": {"by size": table({name: 2 for name in rows[0]}, rows)}}


def count_hashes(bench: Bench) -> Found:
    """The part: the instructions of `verify` on the longer proof, and those of `generate`, beside those of their hashes."""
    deep = count_instructions(deep_words(bench), bench.folder)
    made = count_instructions([bench.program, "generate", "7", str(bench.pick(2_000, 100))], bench.folder)
    if deep is None or made is None:
        return {"values": {}}
    event = [1 + len(DEEP_EVENTS[INDEX])] + [65] * len(ways_down(len(DEEP_EVENTS), INDEX))
    wanted = large.blocks(large.part_sizes(STEP, TOP_STEP) + event)
    verify = {"own": deep.own, "inside": deep.inside, "blocks": deep.blocks, "wanted_blocks": wanted, "ratio": deep.own / deep.inside}
    ratios = {"ratio": (made.total - made.filled) / made.inside, "ratio_with_filling": made.total / made.inside}
    return {"values": {"verify": verify, "generate": {"blocks": made.blocks, **ratios}}}
