"""Scenes of a search: steps that belong together, of which steps that are drawn one by one make too few. Each of them brings about what one rule of weft is there
for; between them, and amid what they left, chance goes on as before."""

from harness.weft_machine import LOGGED, NAMES, PAIRS

# Above all numbers of a step.
MOST = 1_000
# So many calls a run of weft log has, and a turn.
OF_LOG, OF_TURN = 20, 90


def any_number(rand):
    """A number by which a step chooses anything."""
    return rand.randrange(MOST)


def which(rand, place, of):
    """A number by which a step chooses the one at this place, of so many."""
    return place + of * rand.randrange((MOST - place - 1) // of + 1)


def free(rand, name):
    """A step that chooses anything."""
    return name, any_number(rand), any_number(rand), any_number(rand)


def turn(rand, who):
    """The turn of a service a day after its last one."""
    return "turn", which(rand, who, 3), 1 + 10 * rand.randrange(99), any_number(rand)


def all_carried(rand):
    """All files are carried."""
    return "carry", which(rand, 1 + rand.randrange(2), 3), any_number(rand), any_number(rand)


def written(rand, file):
    """A file of the folder has other content."""
    return "write", which(rand, file, len(LOGGED)), which(rand, 2 + rand.randrange(3), 5), any_number(rand)


def stopped(rand, calls):
    """The next run is killed, interrupted or fails at one of so many calls."""
    return "fault", any_number(rand), which(rand, rand.randrange(calls), OF_TURN), which(rand, 1 + rand.randrange(2), 3)


def receiver_of(pair):
    """The place of a pair's receiver."""
    return NAMES.index(PAIRS[pair][1])


# ---- the scenes


def log_stopped(rand):
    """A run of weft log is stopped amid it; the next ones go on, and a file is proved."""
    file = rand.randrange(len(LOGGED))
    return [written(rand, file), stopped(rand, OF_LOG), free(rand, "log"), free(rand, "log"), ("prove", which(rand, file, len(LOGGED)), 0, 0)]


def turn_stopped(rand):
    """A turn is stopped amid it; the next one goes on."""
    who = rand.randrange(3)
    return [all_carried(rand), stopped(rand, OF_TURN), turn(rand, who), turn(rand, who), all_carried(rand)]


def logged_again(rand):
    """A file is logged, changed, logged again and proved."""
    file = rand.randrange(len(LOGGED))
    return [written(rand, file), free(rand, "log"), written(rand, file), free(rand, "log"), ("prove", which(rand, file, len(LOGGED)), 0, 0)]


def unlike_a_file(rand):
    """Another kind of thing comes in the place of a logged file."""
    file = rand.randrange(len(LOGGED))
    return [written(rand, file), free(rand, "log"), ("write", which(rand, file, len(LOGGED)), which(rand, 1, 5), which(rand, 0, 3)), free(rand, "log")]


def forged(rand):
    """The carrier makes something up, and the service that gets it makes its turn."""
    pair = rand.randrange(len(PAIRS))
    recorded = ("record", which(rand, (receiver_of(pair) + 1) % 2, 2), 0, 0)
    return [recorded, ("forge", which(rand, pair, len(PAIRS)), any_number(rand), any_number(rand)), turn(rand, receiver_of(pair)), all_carried(rand)]


def hindered(rand):
    """What is no file lies where a peer's file is looked for."""
    pair = rand.randrange(len(PAIRS))
    return [("hinder", which(rand, pair, len(PAIRS)), any_number(rand), any_number(rand)), turn(rand, receiver_of(pair))]


def unopened(rand):
    """A name can't be opened in a turn, or where the folder is logged."""
    closed = "fault", any_number(rand), any_number(rand), which(rand, 0, 3)
    return [all_carried(rand), closed, free(rand, "turn"), ("fault", any_number(rand), any_number(rand), which(rand, 0, 3)), free(rand, "log")]


def silent(rand):
    """A service makes turns in which nothing comes."""
    who = rand.randrange(3)
    return [turn(rand, who) for _ in range(4)]


def put_back(rand):
    """A service goes on after a backup, which is put back then; its folder is logged and its turns are made, as far as they may be."""
    who = rand.randrange(3)
    night = [turn(rand, who), free(rand, "log"), all_carried(rand)]
    before = [("backup", which(rand, who, 3), 0, 0), free(rand, "write"), *night, *(night if rand.randrange(2) else [])]
    restored = [("restore", any_number(rand), which(rand, rand.randrange(7), 7), 0), free(rand, "write"), free(rand, "log")]
    others = [turn(rand, it) for it in range(3) if it != who and rand.randrange(2)]
    return [*before, *restored, turn(rand, who), *others, all_carried(rand), turn(rand, who), free(rand, "log"), turn(rand, who)]


def two_lines(rand):
    """A reader keeps lines of both histories of a liar, and judges proofs under them."""
    who = rand.randrange(3)
    told = [step for _ in range(3) for step in (("lie", which(rand, who, 3), any_number(rand), any_number(rand)), turn(rand, who))]
    return [*told, *(("keep", which(rand, who, 3), any_number(rand), any_number(rand)) for _ in range(4)), *(("judge", which(rand, who, 3), any_number(rand), any_number(rand)) for _ in range(3))]


SCENES = (log_stopped, turn_stopped, logged_again, unlike_a_file, forged, hindered, unopened, silent, put_back, two_lines)
