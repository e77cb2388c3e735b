"""What a run may do less than others: its rights, its memory, the size of its files, its standard output; and the commands that read a store."""

import ctypes
import os
import resource
import signal

from timeweave_reference.tree_pages import PAGE

LIBC = ctypes.CDLL(None, use_errno=True)
DROP_FROM_BOUNDS = 24
PASS_OVER_MODES = (1, 2)
CAPABILITY_VERSION = 0x20080522

# The commands that read a store and write nothing to it.
READING = ("prove d event 1 0", "prove d link 1", "thread d 0", "prove d absent 1 b 1", "map d low 1 b", "map d high 1 b")

# The same and `export`, which is done of a service without steps too.
TELLING = (*READING, "export d")


def plain_rights():
    """Takes from the program what root may do and others may not: to pass over the modes of files and folders."""
    for right in PASS_OVER_MODES:
        if LIBC.prctl(DROP_FROM_BOUNDS, right, 0, 0, 0) and os.geteuid() == 0:
            raise OSError("root's rights can't be taken away here")


def without_rights():
    """Takes the same from this process itself, and from what it runs."""
    plain_rights()
    header, sets = (ctypes.c_uint32 * 2)(CAPABILITY_VERSION, 0), (ctypes.c_uint32 * 6)()
    if os.geteuid() == 0:
        LIBC.capget(header, sets)
        for right in PASS_OVER_MODES:
            sets[0] &= ~(1 << right)
            sets[1] &= ~(1 << right)
        if LIBC.capset(header, sets):
            raise OSError("root's rights can't be taken away here")


def growing_to(pages):
    """No file can grow beyond so many pages, as on a device that is full."""

    def limit():
        # (without this the system would end the program)
        signal.signal(signal.SIGXFSZ, signal.SIG_IGN)
        resource.setrlimit(resource.RLIMIT_FSIZE, (pages * PAGE, pages * PAGE))

    return limit


def closed():
    os.close(1)


def in_memory(size):
    return lambda: resource.setrlimit(resource.RLIMIT_AS, (size, size))


def with_stack(size):
    """The program has at most so many bytes of stack."""
    return lambda: resource.setrlimit(resource.RLIMIT_STACK, (size, size))
