"""Cases of scripts and of networks that are generated, as the reference plays them."""

from harness.judged import answered, grouped, make_case
from harness.played import script_by_chance
from timeweave_reference.scripts import MOST_BYTES as MOST_SCRIPT
from timeweave_reference.worlds import generated

EXAMPLE = """\
service alpha
service beta
append alpha 6869
send alpha 0
deliver 1 beta
append beta -
prove alpha event 1 0 1
prove beta thread 1 alpha 1
prove beta event 2 0
join 3 2 1
anchor beta 2
verify 4
"""

# Each call of an append and of a delivery is stopped, with each choice; the next append goes on.
STOPPED = """\
service a
service b
append b 01
send b 0
crash a {call} {choice}
{line}
crash a {call} {choice}
{line}
append a 02
crash a {call} {choice}
deliver 1 a
deliver 1 a
append a
"""

# The first append is stopped at this call, with this choice; one or two appends follow.
CRASHED = """\
service alpha
append alpha 61
crash alpha {call} {choice}
append alpha 62
"""

# What the append that is stopped prints, by the call; and how many steps are there then, by the choice.
BEFORE, AMID, BEHIND = "stopped reopened 1", ("stopped reopened 1", "stopped reopened 2"), "step 2 reopened 2"

# What the summaries of some networks say: the number, the rounds, and the line.
SUMMARIES = (
    ("1", "1", '{"audit":"stands","high":null,"hops":0,"low":0,"steps":[2,2,2],"threads":0,"verdict":"accepted"}\n'),
    ("9", "50", '{"audit":"stands","high":null,"hops":2,"low":52,"steps":[53,53,53],"threads":6,"verdict":"accepted"}\n'),
    ("7", "2000", '{"audit":"stands","high":null,"hops":2,"low":2080,"steps":[2081,2081,2081],"threads":240,"verdict":"accepted"}\n'),
)


def crashed():
    """An append that is stopped at a call, by a table: what it prints, what a next one prints, and how many steps are there."""
    for call in range(1, 10):
        for choice in range(4):
            line = BEFORE if call < 7 else BEHIND if call > 8 else AMID[choice % 2]
            steps = line[-1]
            text = f"1 ok\n2 step 1\n3 ok\n4 {line}\n" + summary(steps)
            yield play_script(f"call {call}, choice {choice}", CRASHED.format(call=call, choice=choice), text)
    longer = CRASHED.format(call=5, choice=3) + "append alpha 63\n"
    text = f"1 ok\n2 step 1\n3 ok\n4 {BEFORE}\n5 step 2\n" + summary(2)
    yield play_script("call 5, choice 3, and a next append", longer, text)


def play_script(name, script, text):
    """The case of a script, which has to print this."""
    return answered(make_case(name, ["replay", "s"], {"s": script.encode()}), 0, text)


def summary(steps):
    """The last line of a script of one service."""
    return f'{{"accepted":0,"none":0,"refused":0,"rejected":0,"services":{{"alpha":{steps}}}}}\n'


def summaries():
    """The summaries of some networks, by a table."""
    for number, rounds, line in SUMMARIES:
        yield {"name": f"{rounds} rounds by {number}", "words": ["generate", number, rounds], "status": 0, "stdout": line}


def scripts():
    """Each script of a case, with what it shows."""
    yield "the example of docs/formats.md", EXAMPLE.encode()
    yield "parts in another order don't fit, and what would be made of them isn't", EXAMPLE.replace("join 3 2 1", "join 1 2 3").encode()
    yield "no line", b""
    yield "lines that are skipped, and a last one without a line feed", b"\n# a remark\n\nservice a\n#\nappend a"
    for form in ("append a 01 -", "append a"):
        for choice in range(4):
            for call in range(1, 10):
                yield f"`{form}` and a delivery stopped at call {call} with choice {choice}", STOPPED.format(call=call, choice=choice, line=form).encode()
    for seed in range(40):
        yield f"lines by chance, {seed}", script_by_chance(seed, 60)
    good = EXAMPLE.encode()
    for number in range(1, 13):
        lines = good.split(b"\n")
        lines[number - 1] += b" "
        yield f"line {number} with a blank more", b"\n".join(lines)
    yield "a script of as many bytes as may be", good + b"#" * (MOST_SCRIPT - len(good))
    yield "one of a byte more, told by its last line", good + b"#" * (MOST_SCRIPT + 1 - len(good))
    yield "one of a byte more, whose line feeds come behind", b"frob\n" + b"\n" * (MOST_SCRIPT - 4)


def cases():
    for name, data in scripts():
        yield make_case(f"played: {name}", ["replay", "s"], {"s": data})
    for number in (0, 7, 2**64 - 1):
        for rounds in (1, 2, 49, 50, 51, 99, 100, 149):
            yield {"name": f"played: {rounds} rounds by {number}", "words": ["generate", str(number), str(rounds)], "status": 0, "stdout": generated(rounds)}
    yield {"name": "played: as many rounds as may be", "words": ["generate", "7", "10000"], "status": 0, "stdout": generated(10000)}
    yield from grouped(crashed, summaries)
    yield {"name": "played: no file", "words": ["replay", "s"], "status": 3, "stdout": "fault input\n"}
