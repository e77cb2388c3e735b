"""Tests of bundles: which bytes are one, and which of its lines count."""

import base64
import io
import itertools
import json
import unittest
import zipfile

import bundle_vectors
from bundle_vectors import RECORD_NAMES, apply_changes, zipped
from weft.deciding.bundles import (
    END, MOST_BYTES, NEEDED, Met, Unfit, are_judged_together, is_on_a_word, list_records, may_judge_under, meet_line, numbered, read_bundle, write_bundle,
)
from weft.deciding.lines import Line

FILES = {"README.txt": b"read", "proof": b"TWP1", "lines": b"shop 2 ..\n", "record": b"bread", "signed-1": b"a", "signed-1.sig": b"b", "stamp-64": b""}
DATA = write_bundle(FILES)
LINE, OTHER = Line("shop", 2, "ab" * 32), Line("shop", 2, "cd" * 32)


class Spelling(unittest.TestCase):
    """The one spelling of a bundle."""

    def test_what_is_written_is_read_and_any_program_opens_it(self) -> None:
        self.assertEqual(read_bundle(DATA), dict(sorted(FILES.items())))
        with zipfile.ZipFile(io.BytesIO(DATA)) as whole:
            self.assertIsNone(whole.testzip())
            self.assertEqual({name: whole.read(name) for name in whole.namelist()}, FILES)

    def test_each_needed_file_has_to_be_there(self) -> None:
        for name in NEEDED:
            self.assertIs(read_bundle(write_bundle({key: data for key, data in FILES.items() if key != name})), Unfit.LACKS)
        self.assertEqual(len(dict(read_bundle(write_bundle({name: b"" for name in NEEDED})))), 3)  # type: ignore[arg-type]

    def test_no_other_name_is_in_one(self) -> None:
        for name in ("../up", "/root", "a", "proof/", "signed-0", "signed-65", "signed-1.asc", "stamp-1.sig", "README", "PROOF", "signed-01", "record.names", "proof-1", "proof-3", "record-1", "record-3", "lines-2", ""):
            self.assertIs(read_bundle(write_bundle({**FILES, name: b"x"})), Unfit.NAME, name)
        for name in ("signed-64", "stamped-9", "stamp-60", "signed-59.sig", "keys", "record.name", "held", "proof-2", "record-2", "record-2.name"):
            self.assertIn(name, read_bundle(write_bundle({**FILES, name: b"x"})))  # type: ignore[arg-type]

    def test_what_another_program_spells_otherwise_is_refused(self) -> None:
        rows = sorted(FILES.items())
        for data, why in (
            (zipped(rows, zipfile.ZIP_DEFLATED), Unfit.PACKED), (zipped(rows, comment=b"hello"), Unfit.END), (zipped(rows, note=b"x"), Unfit.PACKED),
            (zipped(rows, mode=0o120777), Unfit.PACKED), (zipped(rows[::-1]), Unfit.PACKED), (zipped([*rows, ("proof", b"other")]), Unfit.TWICE), (b"", Unfit.END), (b"PK", Unfit.END),
            (DATA + b"\0", Unfit.END), (b"\0" + DATA, Unfit.PLACE), (DATA[: -END.size] + b"\0" + DATA[-END.size :], Unfit.PLACE), (DATA[:-1], Unfit.END), (DATA + DATA, Unfit.PLACE),
            (DATA + DATA[-END.size :], Unfit.PLACE), (DATA.replace(b"bread", b"broad"), Unfit.CHANGED), (DATA[-END.size :], Unfit.PLACE),
            (DATA.replace(b"PK\1\2", b"PK\1\3", 1), Unfit.PLACE), (DATA[: -END.size] + END.pack(*END.unpack(DATA[-END.size :])[:4], 8, *END.unpack(DATA[-END.size :])[5:]), Unfit.PLACE),
        ):  # fmt: skip
            self.assertIs(read_bundle(data), why, data[-80:])
        self.assertIs(read_bundle(write_bundle({})), Unfit.LACKS)

    def test_no_changed_bit_is_taken(self) -> None:
        for place, bit in itertools.product(range(len(DATA)), range(8)):
            changed = bytearray(DATA)
            changed[place] ^= 1 << bit
            self.assertIsInstance(read_bundle(bytes(changed)), Unfit, (place, bit))
        for size in range(len(DATA)):
            self.assertIsInstance(read_bundle(DATA[:size]), Unfit, size)

    def test_each_vector_has_its_answer(self) -> None:
        self.assertEqual(bundle_vectors.PATH.read_text(encoding="utf-8"), bundle_vectors.text(), "python3 tests/deciding/bundle_vectors.py writes it anew")
        told = json.loads(bundle_vectors.PATH.read_text(encoding="utf-8"))
        for it in told["vectors"]:
            found = read_bundle(apply_changes(base64.b64decode(told["bases"][it["base"]]), it["changes"]))
            self.assertEqual(found.name if isinstance(found, Unfit) else sorted(found), it["answer"], it["name"])
        self.assertEqual({it["answer"] for it in told["vectors"] if isinstance(it["answer"], str)}, {why.name for why in Unfit})

    def test_one_has_a_limit(self) -> None:
        self.assertIs(read_bundle(bytes(MOST_BYTES)), Unfit.END)
        self.assertIs(read_bundle(bytes(MOST_BYTES + 1)), Unfit.LONG)


class Lines(unittest.TestCase):
    """Whose the lines of a bundle are."""

    def test_the_readers_own_line_comes_before_a_key_and_that_before_a_stamp(self) -> None:
        for is_signed, is_stamped in itertools.product((False, True), repeat=2):
            self.assertIs(meet_line(LINE, [LINE], is_signed, is_stamped), Met.YOURS)
            self.assertIs(meet_line(LINE, [OTHER], is_signed, is_stamped), Met.OTHER)
            self.assertIs(meet_line(LINE, [OTHER, LINE], is_signed, is_stamped), Met.YOURS)
        self.assertIs(meet_line(LINE, [], True, True), Met.KEY)
        self.assertIs(meet_line(LINE, [], True, False), Met.KEY)
        self.assertIs(meet_line(LINE, [], False, True), Met.STAMP)
        self.assertIs(meet_line(LINE, [], False, False), Met.SENDER)

    def test_a_proof_is_judged_under_none_that_only_the_sender_vouches_for(self) -> None:
        self.assertEqual({met for met in Met if may_judge_under(met)}, {Met.KEY, Met.STAMP})

    def test_what_rests_on_a_stamp_alone_is_on_the_senders_word(self) -> None:
        for met in Met:
            self.assertEqual(is_on_a_word([OTHER, LINE], {LINE: met}), met is Met.STAMP)
        self.assertFalse(is_on_a_word([OTHER], {LINE: Met.STAMP}))
        self.assertFalse(is_on_a_word([], {LINE: Met.STAMP}))


class Parts(unittest.TestCase):
    """What stands beside what."""

    def test_texts_are_taken_with_what_is_beside_them(self) -> None:
        found = {"signed-1": b"a", "signed-1.sig": b"b", "signed-2": b"c", "signed-64": b"d", "signed-64.sig": b"e", "stamped-3": b"f", "stamp-3": b"g", "stamp-4": b"h"}
        self.assertEqual(numbered(found, "signed", ".sig"), [(1, b"a", b"b"), (64, b"d", b"e")])
        self.assertEqual(numbered(found, "stamped"), [(3, b"f", b"g")])

    def test_a_record_has_a_name_that_is_no_path(self) -> None:
        self.assertEqual(list_records({"record.name": b"x", "record-2.name": b"y"}), [])
        for given, told in RECORD_NAMES:
            self.assertEqual(list_records({"record": b"a", "record.name": given}), [(told, b"a")])
        self.assertEqual(list_records({"record": b"a", "record-2": b"b", "record-2.name": b"later\n"}), [("record", b"a"), ("later", b"b")])
        self.assertEqual(list_records({"record-2": b"b", "record.name": b"other"}), [("record-2", b"b")])

    def test_two_files_are_judged_together_where_they_are_a_low_map_and_a_high_one(self) -> None:
        for told, are in (
            ("event", True), ("low map", True), ("low map, high map", True), ("high map, low map", False), ("event, event", False), ("low map, low map", False),
            ("low map, high map, high map", False),
        ):  # fmt: skip
            self.assertIs(are_judged_together(told.split(", ")), are, told)
        self.assertFalse(are_judged_together([]))


if __name__ == "__main__":
    unittest.main()
