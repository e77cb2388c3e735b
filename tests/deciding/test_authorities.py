"""Tests of authorities: which bytes are certificates, and by which names authorities go."""

import base64
import hashlib
import unittest

from weft.deciding.authorities import Certificates, Unfit, may_name, read_certificates

ONE, TWO, LIST = b"0\x03one", b"0\x03two" * 30, b"0\x04list"


def block(der: bytes, name: bytes = b"CERTIFICATE", end: bytes = b"") -> bytes:
    """Bytes in PEM."""
    return b"-----BEGIN " + name + b"-----\n" + base64.encodebytes(der) + b"-----END " + (end or name) + b"-----\n"


class Reading(unittest.TestCase):
    """Files of certificates."""

    def test_certificates_and_lists_are_read_and_words_between_them_are_not(self) -> None:
        self.assertEqual(read_certificates(block(ONE)), Certificates((ONE,)))
        self.assertEqual(read_certificates(b"subject=x\n" + block(ONE) + b"\nand\n" + block(TWO) + block(LIST, b"X509 CRL")), Certificates((ONE, TWO), (LIST,)))
        self.assertEqual(read_certificates(block(ONE).replace(b"\n", b"\r\n")), Certificates((ONE,)))
        self.assertEqual(read_certificates(block(ONE) + block(TWO, b"X509 CERTIFICATE")), Certificates((ONE,)))
        self.assertEqual(read_certificates(ONE), Certificates((ONE,)))

    def test_what_has_none_is_told(self) -> None:
        for data in (b"", b"words", block(LIST, b"X509 CRL"), block(ONE, b"PUBLIC KEY")):
            self.assertIs(read_certificates(data), Unfit.EMPTY)
        for data in (block(b"x"), block(ONE, end=b"X509 CRL"), block(ONE) + block(b"y"), b"-----BEGIN CERTIFICATE-----\nA\n-----END CERTIFICATE-----"):
            self.assertIs(read_certificates(data), Unfit.UNREADABLE, data)
        self.assertIs(read_certificates(block(ONE) + block(ONE, b"PRIVATE KEY")), Unfit.PRIVATE)

    def test_what_is_noted_is_read_as_the_same(self) -> None:
        found = Certificates((ONE, TWO), (LIST,))
        self.assertEqual(read_certificates(found.pem), found)
        self.assertLessEqual(max(map(len, found.pem.split(b"\n"))), 64)
        self.assertEqual(found.fingerprints, [hashlib.sha256(ONE).hexdigest(), hashlib.sha256(TWO).hexdigest()])

    def test_names(self) -> None:
        for name in ("tsa", "D-TRUST.2026", "a" * 64, "7_x"):
            self.assertTrue(may_name(name))
        for name in ("", ".pem", "-x", "../up", "a/b", "a b", "a" * 65, "ä"):
            self.assertFalse(may_name(name))


if __name__ == "__main__":
    unittest.main()
