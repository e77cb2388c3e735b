"""Tests of how a file's name stands in a command that is told, and of the order in which one that was typed is read."""

import shlex
import subprocess
import unittest

from weft.deciding.commands import order_words, type_name


class TypeName(unittest.TestCase):
    """A name in a command."""

    def test_a_plain_name_stands_as_it_is_and_no_option_or_folder_of_a_user_is_seen_in_one(self) -> None:
        for path, typed in (("paid.csv", "paid.csv"), ("a/b-c", "a/b-c"), ("--kept=x", "./--kept=x"), ("~root", "./~root"), ("=ls", "./=ls"), ("Größe", "Größe")):
            self.assertEqual(type_name(path), typed)

    def test_what_a_shell_reads_stands_between_single_quotes(self) -> None:
        for path in ("$(touch pwned)", "`id`", "a b", "x;y", "x|y&", "-a b", "$HOME", "*", "!1", "a>b", "#x", "(x)"):
            typed = type_name(path)
            assert typed is not None
            self.assertEqual(shlex.split(typed), [f"./{path}" if path.startswith("-") else path])
            done = subprocess.run(["sh", "-c", f"printf %s {typed}"], capture_output=True, text=True, check=True)
            self.assertEqual(done.stdout, shlex.split(typed)[0])

    def test_the_longest_name_is_typed(self) -> None:
        self.assertEqual(type_name("x" * 1_024), "x" * 1_024)
        self.assertIsNone(type_name("x" * 1_025))

    def test_another_name_isn_t_typed(self) -> None:
        for path in ("it's", 'a"b', "a\\b", "a\nb", "a\x1bb", "\udc80", "\u202ea", "a   b", "x" * 2_000, ""):
            self.assertIsNone(type_name(path), path)


class OrderWords(unittest.TestCase):
    """The order of the words of a command."""

    counts = {"--carried": 0, "--file": 1, "--signer": 2, "-h": 0}

    def test_options_go_in_front_with_their_words_and_what_stands_behind_two_dashes_stays(self) -> None:
        for typed, found in (
            ("p --carried q", "--carried p q"), ("p --file f q --carried", "--file f --carried p q"), ("--file -x p", "--file -x p"), ("p --signer a b", "--signer a b p"),
            ("p - --carried", "--carried p -"), ("p --file=f q", "--file=f p q"), ("p --carried -- --file q", "--carried p -- --file q"), ("p --signer a -- b", "--signer a -- p b"),
            ("", ""), ("--", "--"), ("p q", "p q"), ("p -h", "-h p"),
        ):  # fmt: skip
            self.assertEqual(order_words(typed.split(), self.counts), found.split(), typed)

    def test_where_an_option_is_not_known_or_lacks_a_word_all_stays(self) -> None:
        for typed in ("p --nosuch q --carried", "p --carried -x", "p --file", "p --carried --signer a", "p --nosuch=x --carried"):
            self.assertEqual(order_words(typed.split(), self.counts), typed.split(), typed)


if __name__ == "__main__":
    unittest.main()
