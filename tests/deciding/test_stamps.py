"""Tests of stamps: which bytes are a file of them, what each is of, what openssl's words say, which day is given, and of what."""

import itertools
import unittest
from datetime import datetime, timezone
from typing import Optional

from weft.deciding.lines import Line
from weft.deciding.stamps import (
    FAILED, GOOD, MOST_PIECE, MOST_PIECES, TOKEN, Check, Dated, Fault, Place, Placing, Stamp, Weighed, choose_check, date_place, date_places, is_token, list_told,
    measure_piece, name_stamp, place_stamp, read_accuracy, read_check, read_pieces, read_stamp, texts_of, weigh_stamps,
)  # fmt: skip

LINE = Line("shop", 2, "ab" * 32)
OTHER = Line("bank", 5, "cd" * 32)


def piece(body: bytes, size: int = 0) -> bytes:
    """A sequence with this body, whose length takes so many bytes."""
    if size:
        return b"0" + bytes([0x80 + size]) + len(body).to_bytes(size, "big") + body
    return b"0" + bytes([len(body)]) + body


class Pieces(unittest.TestCase):
    """Files of stamps."""

    def test_a_piece_is_as_long_as_its_head_says(self) -> None:
        for body, size, head in ((b"", 0, 2), (b"x", 0, 2), (b"x" * 127, 0, 2), (b"x" * 128, 1, 3), (b"x", 1, 3), (b"x" * 300, 2, 4), (b"x", 3, 5)):
            self.assertEqual(measure_piece(piece(body, size)), head + len(body))
        for data in (b"", b"0", b"1\x01x", b"0\x80x", piece(b"x", 4), b"0\xff" + b"\0" * 200):
            self.assertEqual(measure_piece(data), 0, data)

    def test_a_file_has_pieces_and_nothing_else(self) -> None:
        one, two = piece(b"one"), piece(b"two" * 50, 2)
        self.assertEqual(read_pieces(one), (one,))
        self.assertEqual(read_pieces(one + two), (one, two))
        for data in (b"", one + b"\0", one[:-1], one + two[:-1], b"x" + one, one + b"0", b"0\x81\x01"):
            self.assertIsNone(read_pieces(data), data)

    def test_a_file_has_limits(self) -> None:
        one = piece(b"x")
        self.assertEqual(len(read_pieces(one * MOST_PIECES) or ()), MOST_PIECES)
        self.assertIsNone(read_pieces(one * (MOST_PIECES + 1)))
        largest = piece(b"x" * (MOST_PIECE - 5), 3)
        self.assertEqual(read_pieces(largest), (largest,))
        self.assertIsNone(read_pieces(piece(b"x" * (MOST_PIECE - 4), 3)))

    def test_the_signed_part_alone_begins_with_its_name(self) -> None:
        for size in (0, 1, 2, 3):
            self.assertTrue(is_token(piece(TOKEN + b"x", size)))
            self.assertFalse(is_token(piece(b"\x30\x03" + TOKEN, size)))
        self.assertFalse(is_token(piece(b"x" + TOKEN)))

    def test_the_first_is_of_the_line_and_each_other_of_all_before_it_too(self) -> None:
        text = f"{LINE.text}\n".encode()
        self.assertEqual(texts_of(LINE, [b"a", b"b", b"c"]), [text, text + b"a", text + b"ab"])

    def test_a_renewed_stamp_keeps_its_name_and_no_other_has_it(self) -> None:
        self.assertEqual(name_stamp(LINE, [b"a"]), name_stamp(LINE, [b"a", b"b"]))
        self.assertEqual(len({name_stamp(LINE, [b"a"]), name_stamp(LINE, [b"b"]), name_stamp(OTHER, [b"a"]), name_stamp(LINE._replace(step=3), [b"a"])}), 4)
        self.assertTrue(name_stamp(LINE, [b"a"]).startswith(f"2-{'ab' * 32}-"))

    def test_what_goes_on_comes_in_the_place_of_what_is_kept(self) -> None:
        self.assertIs(place_stamp(None, b"a"), Placing.NEW)
        self.assertIs(place_stamp(b"a", b"a"), Placing.KNOWN)
        self.assertIs(place_stamp(b"ab", b"a"), Placing.KNOWN)
        self.assertIs(place_stamp(b"a", b"ab"), Placing.RENEWED)
        self.assertIs(place_stamp(b"ab", b"ac"), Placing.OTHER)


def write_reply(moment: str = "Dec  1 13:24:30 2026 GMT", digest: str = "sha512", accuracy: str = "unspecified", front: str = "Version: 1\n") -> bytes:
    """What openssl prints of an answer."""
    return (
        f"{front}Policy OID: 1.2.3\nHash Algorithm: {digest}\nMessage data:\n    0000 - cf de\n    0010 - 10 21\nSerial number: 0x02\nTime stamp: {moment}\n"
        f"Accuracy: {accuracy}\nOrdering: no\nNonce: 0x76\nTSA: unspecified\nExtensions:\n"
    ).encode()


def second_of(*words: int) -> int:
    """A moment in seconds since 1970."""
    return int(datetime(*words, tzinfo=timezone.utc).timestamp())  # type: ignore[misc,arg-type]


class Told(unittest.TestCase):
    """What an answer tells."""

    def test_its_moment_is_read(self) -> None:
        for text, moment in (
            ("Dec  1 13:24:30 2026 GMT", (2026, 12, 1, 13, 24, 30)), ("Feb 29 00:00:00 2028 GMT", (2028, 2, 29)), ("Mar  1 00:00:00 2027 GMT", (2027, 3, 1)),
            ("Jan 31 23:59:59 2100 GMT", (2100, 1, 31, 23, 59, 59)), ("Mar  1 00:00:00 2100 GMT", (2100, 3, 1)), ("Feb 28 01:02:03 2000 GMT", (2000, 2, 28, 1, 2, 3)),
        ):  # fmt: skip
            self.assertEqual(read_stamp(write_reply(text)), Stamp(second_of(*moment), "sha512"))

    def test_every_month_is_read(self) -> None:
        for number, name in enumerate("Jan Feb Mar Apr May Jun Jul Aug Sep Oct Nov Dec".split(), 1):
            self.assertEqual(read_stamp(write_reply(f"{name} 15 00:00:00 2026 GMT")), Stamp(second_of(2026, number, 15), "sha512"))

    def test_it_is_taken_to_the_end_of_its_second_and_accuracy(self) -> None:
        whole = second_of(2026, 12, 1, 13, 24, 30)
        for text, over in (("Dec  1 13:24:30.25 2026 GMT", 1), ("Dec  1 13:24:30 2026 GMT", 0)):
            self.assertEqual(read_stamp(write_reply(text)), Stamp(whole + over, "sha512"))
        self.assertEqual(read_stamp(write_reply(accuracy="0x0A seconds, unspecified millis, unspecified micros")), Stamp(whole + 10, "sha512"))

    def test_accuracy_is_taken_in_whole_seconds(self) -> None:
        for text, over in (
            ("unspecified", 0), ("0x01 seconds, 0x01F4 millis, 0x64 micros", 2), ("unspecified seconds, 0x01F4 millis, unspecified micros", 1),
            ("unspecified seconds, unspecified millis, 0x01 micros", 1), ("0x01 seconds, unspecified millis, unspecified micros", 1),
            ("0xFFFFFFFF seconds, 0x00 millis, 0x00 micros", 0xFFFFFFFF),
        ):  # fmt: skip
            self.assertEqual(read_accuracy(text.encode()), over)
        for text in ("", "0x seconds, unspecified millis, unspecified micros", "0x1FFFFFFFFF seconds, unspecified millis, unspecified micros", "1 seconds"):
            self.assertIsNone(read_accuracy(text.encode()))

    def test_another_text_tells_nothing(self) -> None:
        for data in (
            b"", write_reply(front=""), write_reply(front="x\nVersion: 1\n"), write_reply(front="Version: 2\n"), write_reply("Foo  1 13:24:30 2026 GMT"), write_reply("Dec  1 13:24:30 2026"), write_reply("Bad time value"),
            write_reply(accuracy=""), write_reply(accuracy="0x1 s"), write_reply().replace(b"    0000 - cf de\n    0010 - 10 21\n", b""), write_reply().replace(b"Serial", b"Time stamp: x\nSerial"),
        ):  # fmt: skip
            self.assertIsNone(read_stamp(data), data)


LIBRARY = b"801B6CBC:error:17800064:time stamp routines:ts_verify_cert:"


class Checks(unittest.TestCase):
    """What openssl says of a stamp."""

    def test_it_is_good_where_openssl_ends_well_and_says_so(self) -> None:
        self.assertEqual(read_check(0, GOOD, b"", "tsa"), Check(None, "tsa"))
        for status, out in ((0, b""), (0, FAILED), (1, GOOD), (1, b""), (-9, GOOD), (2, FAILED), (-11, b"")):
            self.assertIs(read_check(status, out, b"", "tsa").fault, Fault.UNCHECKED, (status, out))

    def test_why_not_is_what_openssl_says(self) -> None:
        for words, fault in (
            (b"Verify error:certificate has expired", Fault.EXPIRED), (b"Verify error:certificate revoked", Fault.REVOKED),
            (b"Verify error:self-signed certificate in certificate chain", Fault.FOREIGN), (b"Verify error:unable to get local issuer certificate", Fault.FOREIGN),
            (b"Verify error:unsuitable certificate purpose", Fault.CHANGED), (b"Verify error:EE certificate key too weak", Fault.CHANGED),
        ):  # fmt: skip
            found = read_check(1, FAILED, b"Using x\n" + LIBRARY + b"certificate verify error:../crypto/ts/ts.c:188:" + words + b"\n", "tsa")
            self.assertEqual(found, Check(fault, "tsa", words.partition(b":")[2].decode()))
        found = read_check(1, FAILED, LIBRARY + b"message imprint mismatch:../crypto/ts/ts.c:508:\n", "tsa")
        self.assertEqual(found, Check(Fault.OTHER, "tsa", "message imprint mismatch"))
        self.assertEqual(read_check(1, FAILED, LIBRARY + b"malloc failure:x.c:1:\n", "tsa").fault, Fault.UNCHECKED)
        self.assertEqual(read_check(1, FAILED, b"", "tsa"), Check(Fault.CHANGED, "tsa", ""))

    def test_the_first_known_error_tells_most(self) -> None:
        both = LIBRARY + b"digest failure:x.c:1:\n" + LIBRARY + b"message imprint mismatch:x.c:2:\n"
        self.assertEqual(read_check(1, FAILED, both, ""), Check(Fault.OTHER, "", "message imprint mismatch"))
        neither = LIBRARY + b"digest failure:x.c:1:\n" + LIBRARY + b"bad:x.c:2:\n"
        self.assertEqual(read_check(1, FAILED, neither, ""), Check(Fault.CHANGED, "", "digest failure"))

    def test_of_several_authorities_the_good_one_counts_else_what_tells_most(self) -> None:
        good = Check(None, "b")
        self.assertEqual(choose_check([]), Check(Fault.FOREIGN))
        for first, second in itertools.combinations(Fault, 2):
            for order in itertools.permutations([Check(second, "b"), Check(first, "a")]):
                self.assertEqual(choose_check(order), Check(first, "a"))
        for fault in Fault:
            self.assertEqual(choose_check([Check(fault, "a"), good]), good)


class Asking:
    """What openssl would say of stamps: each is good until a moment, and tells a fault after it; of the others what is named."""

    def __init__(self, *until: int, after: Fault = Fault.EXPIRED, faults: Optional[dict[int, Fault]] = None):
        self.until, self.after, self.faults = until, after, faults or {}

    def __call__(self, number: int, at: int) -> Check:
        if number in self.faults:
            return Check(self.faults[number], f"a{number}", "said")
        return Check(None, f"a{number}") if at <= self.until[number] else Check(self.after, f"a{number}", "said")


def stamps(*seconds: int) -> list[Optional[Stamp]]:
    """Stamps of these moments."""
    return [Stamp(second, "sha256") for second in seconds]


class Weighing(unittest.TestCase):
    """Which day a file of stamps gives."""

    def test_a_good_one_gives_its_day(self) -> None:
        self.assertEqual(weigh_stamps(stamps(10), 100, Asking(200)), Weighed(None, "a0", 10, False))

    def test_an_expired_one_is_told_so_where_it_was_good(self) -> None:
        self.assertEqual(weigh_stamps(stamps(10), 300, Asking(200)), Weighed(Fault.EXPIRED, "a0", 10, False, "said"))

        def changed(number: int, at: int) -> Check:
            return Check(Fault.EXPIRED if at > 200 else Fault.CHANGED, "a0")

        self.assertIs(weigh_stamps(stamps(10), 300, changed).fault, Fault.CHANGED)

    def test_one_with_another_fault_is_told_so(self) -> None:
        for fault in Fault:
            found = weigh_stamps(stamps(10), 100, Asking(0, faults={0: fault}))
            self.assertEqual(found, Weighed(fault, "a0", 10, False, "said"))

    def test_one_that_was_renewed_in_time_gives_its_day_on(self) -> None:
        self.assertEqual(weigh_stamps(stamps(10, 150), 300, Asking(200, 400)), Weighed(None, "a0", 10, True))
        self.assertEqual(weigh_stamps(stamps(10, 150, 350), 500, Asking(200, 400, 600)), Weighed(None, "a0", 10, True))
        self.assertEqual(weigh_stamps(stamps(10, 150), 180, Asking(200, 400)), Weighed(None, "a0", 10, False))

    def test_one_that_was_renewed_too_late_or_by_what_counts_no_more_gives_none(self) -> None:
        self.assertIs(weigh_stamps(stamps(10, 250), 300, Asking(200, 400)).fault, Fault.EXPIRED)
        self.assertIs(weigh_stamps(stamps(10, 150), 500, Asking(200, 400)).fault, Fault.EXPIRED)
        self.assertIs(weigh_stamps(stamps(10, 150, 450), 500, Asking(200, 400, 600)).fault, Fault.EXPIRED)
        for fault in Fault:
            self.assertIs(weigh_stamps(stamps(10, 150), 300, Asking(200, 400, faults={1: fault})).fault, Fault.EXPIRED)
            self.assertIs(weigh_stamps(stamps(10, 150), 300, Asking(200, 400, faults={0: fault})).fault, fault)

    def test_a_bad_renewal_takes_nothing_from_one_that_is_good_by_itself(self) -> None:
        self.assertEqual(weigh_stamps(stamps(10, 150), 180, Asking(200, 400, faults={1: Fault.FOREIGN})), Weighed(None, "a0", 10, False))

    def test_one_of_a_weak_digest_or_that_cannot_be_read_gives_none(self) -> None:
        weak = Stamp(10, "sha1")
        self.assertEqual(weigh_stamps([weak], 100, Asking(200)), Weighed(Fault.WEAK, "", 10, False, "sha1"))
        self.assertEqual(weigh_stamps([None], 100, Asking(200)), Weighed(Fault.CHANGED, "", None, False, "no time can be read in it"))
        self.assertIs(weigh_stamps([weak, Stamp(150, "sha512")], 300, Asking(200, 400)).fault, Fault.WEAK)
        self.assertIs(weigh_stamps([None, Stamp(150, "sha512")], 300, Asking(200, 400)).fault, Fault.CHANGED)
        for bad in (None, Stamp(150, "md5")):
            self.assertIs(weigh_stamps([Stamp(10, "sha256"), bad], 300, Asking(200, 400)).fault, Fault.EXPIRED)

    def test_of_several_the_earliest_day_of_each_authority_is_told_and_else_each_reason_once(self) -> None:
        early, late, other = Weighed(None, "a", 10), Weighed(None, "a", 20), Weighed(None, "b", 15)
        foreign = Weighed(Fault.FOREIGN)
        self.assertEqual(list_told([late, foreign, other, early]), [early, other])
        self.assertEqual(list_told([foreign, Weighed(Fault.WEAK, "", 5, False, "md5"), foreign]), [foreign, Weighed(Fault.WEAK, "", 5, False, "md5")])
        self.assertEqual(list_told([]), [])


class Days(unittest.TestCase):
    """What was recorded not after a day."""

    def test_what_is_below_a_line_has_its_earliest_day(self) -> None:
        early, late = Dated(LINE, 10, "a"), Dated(LINE._replace(step=3), 20, "b")
        self.assertEqual(date_place(Place("shop", 1), [late, early]), early)
        self.assertEqual(date_place(Place("shop", 2), [late, early]), early)
        self.assertEqual(date_place(Place("shop", 3), [early, late]), late)
        self.assertIsNone(date_place(Place("shop", 4), [early, late]))
        self.assertIsNone(date_place(Place("bank", 1), [early, late]))

    def test_the_first_of_two_in_order_was_there_when_the_second_was(self) -> None:
        shop, bank = Dated(LINE, 30, "a"), Dated(OTHER, 20, "b")
        both = [Place("shop", 1), Place("bank", 5)]
        self.assertEqual(date_places(both, [shop, bank], True), [bank, bank])
        self.assertEqual(date_places(both, [shop, bank], False), [shop, bank])
        self.assertEqual(date_places(both, [bank], True), [bank, bank])
        self.assertEqual(date_places(both, [shop], True), [shop, None])
        self.assertEqual(date_places(both, [], True), [None, None])
        self.assertEqual(date_places(both[::-1], [shop, bank], True), [bank, shop])
        self.assertEqual(date_places(both[:1], [shop, bank], True), [shop])
        self.assertEqual(date_places([], [shop], True), [])


if __name__ == "__main__":
    unittest.main()
