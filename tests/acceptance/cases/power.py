"""Cases of lost power: what it may leave of a store keeps each step that was told."""

from harness.power import SIZES, name_of, recorded, some_images, tried
from harness.rooms import Wrong, case

# ---- what is tried


def loses_nothing(size):
    """The case of one run."""

    def work(room):
        histories, device = recorded(room.program, size)
        images = some_images(device, size)
        wrong = list(tried(room.program, histories, images))
        if wrong:
            raise Wrong(f"  {len(wrong)} of {len(images)} images lost a step or didn't go on; the first:\n{wrong[0]}")

    work.__doc__ = f"what a loss of power in {name_of(size)} may leave keeps each step that was told"
    return work


def without_syncs_it_loses(size):
    """The case of one run whose syncs do nothing: the images have to show it."""

    def work(room):
        histories, device = recorded(room.program, size, ["fsync,fdatasync:retval=0"])
        if not any(tried(room.program, histories, some_images(device, size))):
            raise Wrong("  the program ran without syncs, and no image showed that a step is lost")

    work.__doc__ = f"the program without syncs is found out in {name_of(size)}"
    return work


def each_sync_is_needed(room):
    """without any one of the syncs behind its writes an append of 1 event is found out"""
    histories, device = recorded(room.program, 1)
    calls = device.calls
    begin = next(i for i, call in enumerate(calls) if call[0] == "write")
    for i in range(begin, len(calls)):
        if calls[i] == ("sync",):
            device.calls = calls[:i] + calls[i + 1 :]
            if not any(tried(room.program, histories, some_images(device, 1))):
                raise Wrong(f"  no image showed that call {i} of {[call[0] for call in calls]} is missing")


def cases():
    works = [make(size) for make in (loses_nothing, without_syncs_it_loses) for size in (None, *SIZES)]
    return [case(work, "power") for work in (*works, each_sync_is_needed)]
