"""Tests of what becomes of an answer to what was asked of a peer."""

import unittest

from weft.deciding.answering import Fate, Kind, choose_pending, digest_of, kind_of_answer, settle_answer


class Answers(unittest.TestCase):
    """Answers that came, and those that were kept."""

    def test_an_answer_is_a_proof_or_a_refusal(self) -> None:
        self.assertEqual(kind_of_answer(b"TWP1..."), Kind.PROOF)
        self.assertEqual(kind_of_answer(b"refused NoThread\n"), Kind.REFUSAL)
        for other in (None, b"", b"TWP", b" refused", b"TWT1", b"refuse"):
            self.assertEqual(kind_of_answer(other), Kind.NOTHING)

    def test_a_proof_that_was_of_no_use_is_doubted(self) -> None:
        doubted = {digest_of(b"TWP1 false"), digest_of(b"refused"), "0" * 64}
        self.assertEqual(kind_of_answer(b"TWP1 false", doubted), Kind.DOUBTED)
        self.assertEqual(kind_of_answer(b"TWP1 true", doubted), Kind.PROOF)
        self.assertEqual(kind_of_answer(b"refused", doubted), Kind.REFUSAL)

    def test_a_proof_ends_the_asking_whatever_was_kept(self) -> None:
        for kept in Kind:
            self.assertEqual(settle_answer(kept, Kind.PROOF), Fate.TAKEN)

    def test_a_refusal_and_a_doubted_proof_are_asked_after(self) -> None:
        for kept in Kind:
            self.assertEqual(settle_answer(kept, Kind.REFUSAL), Fate.NOTED)
            self.assertEqual(settle_answer(kept, Kind.DOUBTED), Fate.NOTED)

    def test_a_refusal_that_is_gone_is_forgotten(self) -> None:
        self.assertEqual(settle_answer(Kind.REFUSAL, Kind.NOTHING), Fate.FORGOTTEN)
        self.assertEqual(settle_answer(Kind.NOTHING, Kind.NOTHING), Fate.AWAITED)
        self.assertEqual(settle_answer(Kind.PROOF, Kind.NOTHING), Fate.AWAITED)
        self.assertEqual(settle_answer(Kind.DOUBTED, Kind.NOTHING), Fate.AWAITED)


class Pending(unittest.TestCase):
    """Which requests are put out."""

    def test_as_many_as_fit_are_all_put_out(self) -> None:
        for most in (3, 4):
            self.assertEqual(choose_pending(["a", "b", "c"], {"b"}, most), ["a", "b", "c"])
        self.assertEqual(choose_pending([], set(), 3), [])

    def test_what_has_an_answer_makes_room_first(self) -> None:
        self.assertEqual(choose_pending(["a", "b", "c", "d"], {"b", "c"}, 3), ["a", "c", "d"])
        self.assertEqual(choose_pending(["a", "b", "c", "d"], {"b", "c"}, 2), ["a", "d"])

    def test_then_the_oldest(self) -> None:
        self.assertEqual(choose_pending(["a", "b", "c", "d"], {"c"}, 2), ["b", "d"])
        self.assertEqual(choose_pending(["a", "b", "c"], set(), 2), ["b", "c"])


if __name__ == "__main__":
    unittest.main()
