"""Tests of what asks for a look in the state of a service."""

import unittest

from weft.deciding.watching import DAY, Asking, Concern, PeerState, State, is_late, list_concerns, status_of
from weft.statuses import Status

NOW = 1_800_000_000
GOOD = PeerState("bank", True, 30, False, False)
STATE = State(31, NOW - DAY, 31, True, NOW - DAY, False, False, (GOOD,))


def concerns(state: State, days: int = 2) -> list[Concern]:
    """What asks for a look."""
    return [it.concern for it in list_concerns(state, NOW, days)]


class Watching(unittest.TestCase):
    """What asks for a look, and with which status."""

    def test_nothing(self) -> None:
        self.assertEqual(list_concerns(STATE, NOW, 2), [])
        self.assertEqual(status_of([]), Status.DONE)
        self.assertEqual(list_concerns(STATE._replace(backed_up=None, turn=None), NOW, 2), [])
        self.assertEqual(list_concerns(STATE._replace(backed_up=32), NOW, 2), [])

    def test_each(self) -> None:
        self.assertEqual(concerns(STATE._replace(is_old=True, is_doubted=True)), [Concern.OLD])
        self.assertEqual(concerns(STATE._replace(is_doubted=True)), [Concern.DOUBT])
        self.assertEqual(concerns(STATE._replace(changed=0)), [Concern.NO_STEP])
        self.assertEqual(concerns(STATE._replace(turn=0)), [Concern.NO_TURN])
        self.assertEqual(concerns(STATE._replace(backed_up=30)), [Concern.BEHIND])
        self.assertEqual(concerns(STATE._replace(is_backup_there=False)), [Concern.LOST_BACKUP])
        self.assertEqual(concerns(STATE._replace(is_backup_there=False, backed_up=None)), [])
        for peer, concern in (
            (GOOD._replace(is_silent=True), Concern.SILENT),
            (GOOD._replace(is_accepted=False, is_silent=True), Concern.NEW),
            (GOOD._replace(has_forks=True), Concern.FORK),
        ):
            self.assertEqual(list_concerns(STATE._replace(peers=(GOOD, peer)), NOW, 2), [Asking(concern, "bank")])

    def test_stamps(self) -> None:
        good = STATE._replace(stamped=NOW - DAY, due=NOW + 900 * DAY)
        self.assertEqual(concerns(good), [])
        self.assertEqual(concerns(good._replace(stamped=NOW - 2 * DAY - 1)), [Concern.NO_STAMP])
        self.assertEqual(concerns(good._replace(stamped=0), 0), [])
        self.assertEqual(concerns(good._replace(due=NOW - 2 * DAY)), [])
        self.assertEqual(concerns(good._replace(due=NOW - 2 * DAY - 1)), [Concern.STAMP_DUE])
        self.assertEqual(concerns(good._replace(due=NOW - DAY - 1), 1), [Concern.STAMP_DUE])
        self.assertEqual(concerns(good._replace(due=0), 0), [])

    def test_statuses(self) -> None:
        self.assertEqual(status_of([Asking(Concern.SILENT, "bank")]), Status.LOOK)
        self.assertEqual(status_of([Asking(Concern.SILENT, "bank"), Asking(Concern.FORK, "bank")]), Status.CONTRADICTION)
        self.assertEqual(status_of([Asking(Concern.OLD), Asking(Concern.NO_STEP)]), Status.OLD_STORE)

    def test_late(self) -> None:
        self.assertFalse(is_late(NOW - 2 * DAY, NOW, 2))
        self.assertTrue(is_late(NOW - 2 * DAY - 1, NOW, 2))
        self.assertFalse(is_late(NOW + DAY, NOW, 2))
        self.assertTrue(is_late(NOW + DAY + 1, NOW, 2))
        self.assertFalse(is_late(0, NOW, 0))
        self.assertTrue(is_late(NOW - DAY - 1, NOW, 1))


if __name__ == "__main__":
    unittest.main()
