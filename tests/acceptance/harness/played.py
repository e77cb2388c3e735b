"""Scripts drawn by chance."""

import random

from timeweave_reference.scripts import Made

NAMES = (b"alpha", b"beta", b"x-1", b"liar")


def a_line(rand, made):
    """A line by chance, which may follow or not."""
    name, peer = rand.choice(NAMES), rand.choice(NAMES).decode()
    message, file = (rand.randint(1, max(1, count)) for count in (len(made.messages), made.files))
    step, k, index = rand.randint(0, 4), rand.randint(1, 4), rand.randint(0, 2)
    top = rand.choice(("", f" {rand.randint(0, 5)}"))
    return rand.choice((
        "service {name}", "hostile {name}", "append {name}", "append {name} -", "append {name} 6869 00ff", "append {name} 01", "append {name} 02",
        "send {name} {step}", "send {name} 0", "send {name} 0", "inject {name} 00", "deliver {message} {name}", "deliver {message} {name}", "deliver {message} {name}",
        "drop {message}", "crash {name} {call} {choice}", "prove {name} event {k} {index}{top}", "prove {name} thread {step} {peer} {k}{top}",
        "prove {name} absent {step} {peer} {k}{top}", "prove {name} link {step}{top}", "join {file} {other}", "join {file} {other} {file}", "anchor {name} {k}", "verify {file}", "verify {file}",
    )).format(
        name=name.decode(), peer=peer, message=message, file=file, other=rand.randint(1, max(1, made.files)), step=step, k=k, index=index, top=top,
        call=rand.randint(1, 9), choice=rand.randrange(4),
    ).encode()


def script_by_chance(seed, count):
    """A script of so many lines by chance, between which some are skipped."""
    rand, made, lines = random.Random(f"played {seed}"), Made(), [b"service alpha", b"service beta", b"hostile liar"]
    for words in lines:
        made.add(words.split()[0], words.split()[1:])
    while len(lines) < count:
        text = a_line(rand, made)
        form, *words = text.split(b" ")
        if made.may_follow(form, words):
            made.add(form, words)
            lines.append(text)
            lines += [rand.choice((b"", b"# a remark"))] * (rand.randrange(9) == 0)
    return b"\n".join(lines) + b"\n" * rand.randrange(2)
