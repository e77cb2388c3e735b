"""Tests of how a service takes a new key, and when that counts."""

import base64
import unittest

from weft.deciding.introducing import (
    Introduction,
    Shown,
    find_introduced,
    introduced_line,
    introduction_text,
    key_event,
    list_standing,
    may_stand,
    read_introduced,
    read_introduction,
    read_key_event,
    write_introduction,
)
from weft.deciding.lines import Line
from weft.deciding.signatures import PublicKey

LINE = Line("data", 32, "a" * 64)


def key(letter: bytes) -> PublicKey:
    """A key of these bytes."""
    kind = b"ssh-ed25519"
    return PublicKey(kind.decode(), len(kind).to_bytes(4, "big") + kind + (32).to_bytes(4, "big") + letter * 32)


OLD, NEW, NEWER, OTHER = (key(letter) for letter in (b"o", b"n", b"m", b"x"))
EVENT = key_event(NEW)
ARMOUR = b"-----BEGIN SSH SIGNATURE-----\nAAAA\n-----END SSH SIGNATURE-----\n"
TEXT = introduction_text(LINE, NEW)
INTRODUCTION = Introduction(ARMOUR, b"TWP1 proof")
SHOWN = Shown("data", 32, 32, 1, EVENT)
NOTED = OLD.signers_line("data").removesuffix(b"\n")


def introduced(new: PublicKey, by: PublicKey) -> bytes:
    """The line of a key that another one introduced."""
    return introduced_line("data", new, by.fingerprint).removesuffix(b"\n")


class Introducing(unittest.TestCase):
    """What introduces a key."""

    def test_the_event(self) -> None:
        self.assertEqual(read_key_event(EVENT), NEW)
        self.assertEqual(EVENT, b"new key ssh-ed25519 " + base64.b64encode(NEW.blob))
        for event in (b"", b"new key ", EVENT + b" comment", EVENT + b"\n", EVENT[1:], EVENT.replace(b"new key ", b"new key  "), EVENT[8:], b"new key x" + EVENT[9:]):
            self.assertIsNone(read_key_event(event), event)

    def test_an_introduction_is_read_as_it_was_written(self) -> None:
        data = write_introduction(TEXT, INTRODUCTION)
        self.assertEqual(read_introduced(data, LINE), NEW)
        self.assertEqual(read_introduction(data, TEXT), INTRODUCTION)
        self.assertEqual(TEXT, f"{LINE.text} introduces {NEW.text}\n".encode())

    def test_another_text_introduces_nothing(self) -> None:
        data = write_introduction(TEXT, INTRODUCTION)
        for other in (data[1:], data.replace(b" introduces ", b" introduce "), data.replace(b"ssh-ed25519 ", b"ssh-rsa ", 1), b"", data.replace(b"\n", b" me\n", 1)):
            self.assertIsNone(read_introduced(other, LINE), other)
        self.assertIsNone(read_introduced(data, LINE._replace(step=31)))
        self.assertIsNone(read_introduced(TEXT.removesuffix(b"\n"), LINE))

    def test_a_torn_or_changed_file_is_no_introduction(self) -> None:
        data = write_introduction(TEXT, INTRODUCTION)
        for other in (TEXT, TEXT + ARMOUR, TEXT + ARMOUR[1:] + b"QUFB\n", data + b"x", data.replace(b"AAAA", b"A A"), b"x" + data, TEXT + b"x" + ARMOUR + b"QUFB\n"):
            self.assertIsNone(read_introduction(other, TEXT), other)
        self.assertIsNone(read_introduction(data, introduction_text(LINE, NEWER)))
        self.assertIsNone(read_introduction(write_introduction(b"", INTRODUCTION), TEXT))

    def test_a_line_introduces_what_its_own_step_names(self) -> None:
        self.assertEqual(find_introduced(LINE, SHOWN), NEW)
        for other in (
            SHOWN._replace(service="bank"), SHOWN._replace(step=31), SHOWN._replace(top=33), SHOWN._replace(events=2), SHOWN._replace(event=b"x"),
        ):  # fmt: skip
            self.assertIsNone(find_introduced(LINE, other), other)

    def test_who_introduced_it_stands_in_its_line(self) -> None:
        self.assertTrue(may_stand(NOTED, set()))
        self.assertTrue(may_stand(introduced(NEW, OLD), {OLD.fingerprint}))
        self.assertFalse(may_stand(introduced(NEW, OLD), {NEW.fingerprint}))
        self.assertTrue(may_stand(introduced(NEW, OLD) + b" of the year 2027", {OLD.fingerprint}))
        for odd in (b" ", b" a note", b"\tx"):
            self.assertFalse(may_stand(introduced(NEW, OLD) + odd, {NEW.fingerprint}), odd)
        self.assertFalse(may_stand(introduced(NEW, OLD) + b"x", {OLD.fingerprint}))
        self.assertFalse(may_stand(NOTED + b" introduced-by=somebody", {OLD.fingerprint}))
        self.assertTrue(introduced(NEW, OLD).startswith(NEW.signers_line("data").removesuffix(b"\n") + b" introduced-by=SHA256:"))


class Standing(unittest.TestCase):
    """Which lines of a file of signers count."""

    def test_those_that_a_person_noted(self) -> None:
        self.assertEqual(list_standing([NOTED, OTHER.signers_line("data")]), [NOTED, OTHER.signers_line("data")])
        self.assertEqual(list_standing([]), [])

    def test_introduced_ones_while_their_introducer_counts(self) -> None:
        first, second = introduced(NEW, OLD), introduced(NEWER, NEW)
        self.assertEqual(list_standing([NOTED, first, second]), [NOTED, first, second])
        self.assertEqual(list_standing([second, first, NOTED]), [NOTED, first, second])
        self.assertEqual(list_standing([first, second]), [])
        self.assertEqual(list_standing([NOTED, second]), [NOTED])
        limited = NOTED.replace(b"namespaces=", b'valid-before="20200101",namespaces=')
        self.assertEqual(list_standing([limited, first]), [limited, first])

    def test_none_introduces_itself(self) -> None:
        self.assertEqual(list_standing([introduced(NEW, NEW)]), [])
        self.assertEqual(list_standing([introduced(NEW, NEWER), introduced(NEWER, NEW)]), [])
        self.assertEqual(list_standing([b"data cert-authority x", introduced(NEW, OLD)]), [b"data cert-authority x"])


if __name__ == "__main__":
    unittest.main()
