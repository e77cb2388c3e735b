"""What may be known against a store, and what each word of weft may do under it.

Nothing inside a store can tell that it is an old one that was put back, or another's. What tells it lies beside it: lines, a seal, a look that goes on, further
parts, and the lines that its user keeps. All of that is found in one place (weft.standing), and each word goes by the one table here. A word that makes no step
may say what it finds where one that makes a step has to end: no second history comes of a sentence."""

from __future__ import annotations

from enum import Enum
from typing import Iterable, Mapping

from weft.deciding.worst import worst_of
from weft.statuses import Status


class Against(Enum):
    """What may be known against the store of a service with all its parts, in the order in which it is looked for."""

    UNJOINED = "a part isn't proved to be the one in which the part before it goes on"
    MISSING_PART = "a part isn't there that the last one names, or of which a line was handed out or noted"
    OTHER_PART = "a further part isn't the one of a line that stands beside the first part"
    UNFOUND = "a file that was named for its user's lines, or for keys, isn't there"
    UNCOUNTED = "lines that its user keeps of it, or of what a further part can be called, don't count"
    DISPUTED = "lines that its user keeps of one of its steps contradict, and none was chosen"
    OTHER_KEPT = "it isn't the store of a line that its user keeps of it"
    LATER_PART = "its user keeps a line as of a part behind its last one"
    OTHER_LINE = "it isn't the store of a line that stands beside it"
    TOLD = "a turn saw a later line of it, or one of another history, which its peers or what it published told"
    LOOK = "peers' words on it are waited for"
    NO_LINES = "it has steps, and no line of it stands beside it"
    COPY = "it is a copy, with what stands beside it"
    NO_ENTRIES = "it recorded entries of a log, and none stand beside it"


class Command(Enum):
    """What is done with a store."""

    LOG = "log"
    EXCHANGE = "exchange"
    ALONE = "exchange without a peer who could tell"
    LINE = "line"
    PROVE = "prove"
    STEP = "prove --step"
    LIST = "list"
    CHECK = "check"
    ENTRIES = "check --entries"
    CHAIN = "chain --store"
    STATUS = "status"
    BACKUP = "backup"
    RESTORE = "restore"
    RECORD = "record, and line --introduce"
    FIND = "find"


class May(Enum):
    """What a word may do where something is known: all, and nothing is said of it; all, and it is told; nothing but wait for the words of peers; or nothing.
    (`weft check`, which makes nothing, looks at all the same, and ends as one that may do nothing.)"""

    GO_ON = "go on"
    TELL = "tell"
    WAIT = "wait"
    END = "end"


STATUSES = {May.GO_ON: Status.DONE, May.TELL: Status.LOOK, May.WAIT: Status.LOOK, May.END: Status.OLD_STORE}
GO_ON, TELL, WAIT, END = May.GO_ON, May.TELL, May.WAIT, May.END

TABLE: Mapping[Against, tuple[May, ...]] = {
    #                       log    exchange alone  line   prove  --step list   check  --entries  chain  status  backup  restore  record  find
    Against.UNJOINED:     (END,   END,     END,   END,   END,   END,   END,   END,   END,       END,   END,    END,    END,     END,    END),
    Against.MISSING_PART: (END,   END,     END,   END,   END,   END,   END,   END,   END,       END,   END,    END,    END,     END,    END),
    Against.OTHER_PART:   (END,   END,     END,   END,   END,   END,   END,   END,   END,       END,   END,    END,    END,     END,    END),
    Against.UNFOUND:      (TELL,  TELL,    TELL,  TELL,  TELL,  GO_ON, TELL,  TELL,  TELL,      GO_ON, TELL,   GO_ON,  GO_ON,   TELL,   TELL),
    Against.UNCOUNTED:    (TELL,  TELL,    TELL,  TELL,  TELL,  GO_ON, TELL,  TELL,  TELL,      GO_ON, TELL,   GO_ON,  GO_ON,   TELL,   TELL),
    Against.DISPUTED:     (END,   END,     END,   END,   END,   GO_ON, END,   END,   END,       GO_ON, END,    GO_ON,  END,     END,    END),
    Against.OTHER_KEPT:   (END,   END,     END,   END,   END,   GO_ON, END,   END,   END,       GO_ON, END,    GO_ON,  END,     END,    END),
    Against.LATER_PART:   (END,   END,     END,   END,   END,   GO_ON, END,   TELL,  TELL,      GO_ON, TELL,   GO_ON,  END,     END,    END),
    Against.OTHER_LINE:   (END,   END,     END,   END,   END,   END,   END,   END,   END,       END,   END,    END,    END,     END,    END),
    Against.TOLD:         (END,   END,     END,   END,   END,   GO_ON, END,   END,   END,       GO_ON, END,    END,    END,     END,    END),
    Against.LOOK:         (END,   WAIT,    END,   TELL,  TELL,  GO_ON, TELL,  TELL,  TELL,      GO_ON, TELL,   TELL,   GO_ON,   END,    TELL),
    Against.NO_LINES:     (END,   END,     END,   GO_ON, GO_ON, GO_ON, GO_ON, GO_ON, END,       GO_ON, GO_ON,  GO_ON,  GO_ON,   END,    GO_ON),
    Against.COPY:         (END,   WAIT,    END,   TELL,  TELL,  GO_ON, TELL,  TELL,  TELL,      GO_ON, TELL,   TELL,   GO_ON,   END,    TELL),
    Against.NO_ENTRIES:   (END,   GO_ON,   GO_ON, GO_ON, END,   END,   GO_ON, TELL,  GO_ON,     GO_ON, GO_ON,  GO_ON,  GO_ON,   GO_ON,  GO_ON),
}  # fmt: skip
"""What each word may do under each of these. A proof of a named step, and the parts of a chain, say nothing of what is last, and a chain is judged under the lines
of whoever asks for it: so they need less."""

BY_KEPT_LINES = frozenset({Against.UNFOUND, Against.UNCOUNTED, Against.DISPUTED, Against.OTHER_KEPT, Against.LATER_PART})
"""What is known by the lines that its user keeps."""

ENDED_BY_A_PERSON = frozenset({Against.NO_LINES, Against.LOOK, Against.COPY, Against.NO_ENTRIES})
"""What is at its end once a person has named the store's last line (--adopt-store): nothing stood beside it that could tell, or only a person could."""


def may_do(against: Against, command: Command, is_named: bool = False) -> May:
    """What a word may do where this is known; a person may have named the store's last line."""
    return GO_ON if is_named and against in ENDED_BY_A_PERSON else TABLE[against][list(Command).index(command)]


def status_under(known: Iterable[Against], command: Command, is_named: bool = False) -> Status:
    """With which status a word ends at best where all of these are known: by the worst of them."""
    return worst_of(STATUSES[may_do(against, command, is_named)] for against in known)
