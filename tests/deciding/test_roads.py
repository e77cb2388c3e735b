"""Tests of what is fetched over the web, from where, and what is published."""

import unittest

from weft.deciding.lines import Line
from weft.deciding.roads import (
    MOST_ADDRESS, MOST_LISTED, Address, Claim, Found, Going, Index, Known, Lines, Listed, Share, Strange, Unfit, Wanted, choose_files, choose_place, follow, is_listable, is_part,
    has_moved, is_place, list_foreign, list_old, name_line_file, rank, read_address, read_index, read_lines, weigh_folder, weigh_index, weigh_found, weigh_line, weigh_name,
)  # fmt: skip

ONE, OTHER, THIRD = "a" * 64, "b" * 64, "c" * 64
BANK = Known(["bank"], {"answers/0123456789abcdef", "bank-2/answers/0123456789abcdef"})


def listed(name: str, size: int = 1, digest: str = ONE) -> Listed:
    """A listed file."""
    return Listed(name, size, digest)


def index_of(*files: Listed) -> Index:
    """An index of these files."""
    return Index("bank", "shop", files)


class Addresses(unittest.TestCase):
    """From where something is fetched."""

    def test_an_address_has_a_scheme_a_host_a_port_and_a_path(self) -> None:
        self.assertEqual(read_address("https://Bank.example/log/peers/shop/"), Address(True, "bank.example", 443, "/log/peers/shop/"))
        self.assertEqual(read_address("https://bank.example"), Address(True, "bank.example", 443, "/"))
        self.assertEqual(read_address("https://[2001:db8::1]:8443/x"), Address(True, "[2001:db8::1]", 8443, "/x"))
        self.assertEqual(read_address("https://bank.example:65535/"), Address(True, "bank.example", 65_535, "/"))

    def test_other_texts_are_no_address(self) -> None:
        texts = ("", "bank.example", "ftp://bank.example/", "https://", "https:///x", "https://-a/", "https://a-/", "https://user@bank.example/", "https://a/b?c", "https://a/b#c")
        for text in (*texts, "https://a/b c", "https://a/\n", "https://a:0/", "https://a:65536/", "https://a:999999/", "https://a/ü", "https://a/\\"):
            self.assertIs(read_address(text), Unfit.UNREADABLE, text)
        self.assertIsInstance(read_address("https://a/".ljust(MOST_ADDRESS, "x")), Address)
        self.assertIs(read_address("https://a/".ljust(MOST_ADDRESS + 1, "x")), Unfit.UNREADABLE)

    def test_without_tls_this_machine_alone_is_asked(self) -> None:
        for host in ("localhost", "127.0.0.1", "127.8.9.10", "[::1]"):
            self.assertEqual(read_address(f"http://{host}:8000/x/"), Address(False, host, 8000, "/x/"))
        self.assertEqual(read_address("http://localhost"), Address(False, "localhost", 80, "/"))
        for host in ("bank.example", "localhost.example", "127.0.0.1.example", "[::2]", "10.0.0.1"):
            self.assertIs(read_address(f"http://{host}/"), Unfit.OPEN)

    def test_a_file_stands_below_its_folder(self) -> None:
        for path in ("/x", "/x/"):
            self.assertEqual(Address(True, "a", 443, path).below("index").path, "/x/index")
        self.assertEqual(Address(True, "a", 443, "/").below("index"), Address(True, "a", 443, "/index"))

    def test_nothing_is_followed_elsewhere(self) -> None:
        asked = Address(True, "bank.example", 443, "/x/index")
        self.assertEqual(follow(asked, "/y/index"), asked._replace(path="/y/index"))
        self.assertEqual(follow(asked, "https://BANK.example/y"), asked._replace(path="/y"))
        self.assertEqual(follow(asked._replace(port=8443), "https://bank.example:8443/y"), asked._replace(port=8443, path="/y"))
        places = ("https://other.example/y", "https://bank.example:444/y", "http://bank.example/y", "//other.example/y", "y", "", "https://bank.example/y?z")
        for place in places:
            self.assertIsNone(follow(asked, place), place)
        self.assertIsNone(follow(asked, None))
        here = Address(False, "127.0.0.1", 8000, "/x")
        self.assertEqual(follow(here, "/y"), here._replace(path="/y"))
        self.assertIsNone(follow(here, "http://127.0.0.2:8000/y"))
        self.assertIsNone(follow(here, "https://127.0.0.1:8000/y"))


class Indexes(unittest.TestCase):
    """What an index says, and which texts are one."""

    def test_an_index_is_read_as_it_was_written(self) -> None:
        for index in (index_of(), index_of(listed("line")), index_of(listed("answers/00ff"), listed("bank-2/answers/00ff", 0), listed("line", 70_000, OTHER))):
            self.assertEqual(read_index(index.data), index)

    def test_one_that_is_not_whole_is_none(self) -> None:
        data = index_of(listed("line"), listed("message")).data
        for count in range(len(data)):
            self.assertIsNone(read_index(data[:count]), count)
        self.assertIsNone(read_index(data + b"\n"))
        self.assertIsNone(read_index(data + data.split(b"\n")[2] + b"\n"))

    def test_one_that_is_not_the_one_text_is_none(self) -> None:
        rows = [b"1 " + ONE.encode() + b" " + name for name in (b"line", b"message")]
        self.assertIsNotNone(read_index(b"timeweave-road 1 bank shop 2\n" + b"\n".join(rows) + b"\n"))
        for head in (b"2 bank shop 2", b"1 bank shop 3", b"1 bank shop 02", b"1 bank shop 2 7", b"1 Bank shop 2", b"1 bank 2"):
            self.assertIsNone(read_index(b"timeweave-road " + head + b"\n" + b"\n".join(rows) + b"\n"))
        for bad in (rows[::-1], [rows[0], rows[0]], [rows[0], b"01" + rows[1][1:]], [rows[0], rows[1].upper()], [rows[0], b""], [rows[0] + b"\r", rows[1]]):
            self.assertIsNone(read_index(b"timeweave-road 1 bank shop 2\n" + b"\n".join(bad) + b"\n"))

    def test_no_name_leads_out_of_the_folder(self) -> None:
        for name in ("line", "answers/00ff", "bank-2/answers/00ff"):
            self.assertTrue(is_listable(name))
        for name in ("", ".", "..", "../line", "/line", "a//b", "a/../b", "a/b/c/d", "a/", "line.new", "LINE", "a b", "a" * 65, "line\n", "ü"):
            self.assertFalse(is_listable(name), name)
            self.assertIsNone(read_index(index_of(listed(name)).data), name)

    def test_one_with_too_many_rows_is_none(self) -> None:
        most = [listed(f"f{number:04}") for number in range(MOST_LISTED)]
        self.assertIsNotNone(read_index(index_of(*most).data))
        self.assertIsNone(read_index(index_of(*most, listed("g")).data))

    def test_it_counts_where_it_is_of_the_peer_and_for_this_service(self) -> None:
        self.assertIsNone(weigh_index(index_of(), "bank", "shop"))
        self.assertIsNone(weigh_index(index_of(), "bank", None))
        self.assertIs(weigh_index(index_of(), "port", "shop"), Strange.SERVICE)
        self.assertIs(weigh_index(index_of(), "bank", "port"), Strange.PEER)
        self.assertIs(weigh_index(index_of(), "port", None), Strange.SERVICE)


class Fetching(unittest.TestCase):
    """Which of the listed files are fetched."""

    def test_a_name_is_taken_that_a_service_puts_out(self) -> None:
        for name in ("line", "message", "next", "yours", "seen", "receipt", "receipts", "refusal", "requests", "goes-on", "came-from"):
            self.assertIs(weigh_name(name, BANK), Wanted.TAKEN)
            self.assertIs(weigh_name(f"bank-2/{name}", BANK), Wanted.TAKEN)
        for name in ("lines", "index", "in", "answers", "bank-2", "answers/00ff/line", "bank-2/answers/0/1", "bank-2/bank-3/line", "port/line", "bank-2/lines"):
            self.assertIs(weigh_name(name, BANK), Wanted.FOREIGN, name)

    def test_an_answer_is_taken_while_it_is_asked_for(self) -> None:
        for front in ("", "bank-2/"):
            self.assertIs(weigh_name(f"{front}answers/0123456789abcdef", BANK), Wanted.TAKEN)
            self.assertIs(weigh_name(f"{front}answers/0123456789abcdee", BANK), Wanted.UNASKED)

    def test_a_further_part_is_one_that_is_known_or_may_come_next(self) -> None:
        for name in ("bank-2", "bank-3", "bank-100"):
            self.assertTrue(is_part(name, BANK), name)
        for name in ("bank", "bank-1", "bank-101", "port-2", "bank-02", "bank-x"):
            self.assertFalse(is_part(name, BANK), name)
        further = Known(["bank", "bank-4", "bank-5"], ())
        for name in ("bank-4", "bank-5", "bank-6", "bank-104"):
            self.assertTrue(is_part(name, further), name)
        for name in ("bank-2", "bank-3", "bank-105"):
            self.assertFalse(is_part(name, further), name)

    def test_what_is_here_is_not_fetched_again(self) -> None:
        index = index_of(listed("line"), listed("message", 1, OTHER), listed("seen"))
        choice = choose_files(index, BANK, {"line": ONE, "message": ONE}, Share(9, 9))
        self.assertEqual([it.name for it in choice.fetched], ["message", "seen"])
        self.assertEqual([it.name for it in choice.same], ["line"])
        self.assertEqual((choice.beyond, choice.foreign), ((), 0))

    def test_what_a_turn_needs_most_comes_first_and_a_flood_keeps_none_of_it_back(self) -> None:
        asked = [f"answers/{number:016x}" for number in range(50)]
        index = index_of(*(listed(name, 10) for name in asked), listed("line", 5), listed("message", 5), listed("seen", 1 << 30))
        choice = choose_files(index, Known(["bank"], asked), {}, Share(4, 35))
        self.assertEqual([it.name for it in choice.fetched], ["line", "message", *asked[:2]])
        self.assertEqual({it.name for it in choice.beyond}, {"seen", *asked[2:]})
        self.assertEqual(len(choose_files(index, Known(["bank"], asked), {}, Share(99, 30)).fetched), 4)
        self.assertEqual([it.name for it in choose_files(index, BANK, {}, Share(1, 99)).fetched], ["line"])

    def test_foreign_names_are_counted_and_what_is_not_asked_is_passed_over(self) -> None:
        index = index_of(listed("answers/00"), listed("line"), listed("x"), listed("y/line"))
        choice = choose_files(index, BANK, {}, Share(9, 9))
        self.assertEqual(([it.name for it in choice.fetched], choice.foreign, choice.beyond), (["line"], 2, ()))

    def test_the_order_is_that_of_parts_and_need_and_names(self) -> None:
        known = Known(["bank", "bank-2"], ())
        names = ["seen", "bank-4/line", "bank-2/line", "line", "message", "answers/0", "bank-3/line", "bank-3/message"]
        wanted = ["bank-2/line", "line", "message", "seen", "answers/0", "bank-3/line", "bank-3/message", "bank-4/line"]
        self.assertEqual([it.name for it in sorted(map(listed, names), key=lambda it: rank(it, known))], wanted)

    def test_parts_that_may_come_keep_back_nothing_of_those_that_are_known(self) -> None:
        index = index_of(*(listed(f"bank-{number}/line") for number in range(2, 90)), listed("message"), listed("seen"))
        choice = choose_files(index, BANK, {}, Share(4, 99))
        self.assertEqual([it.name for it in choice.fetched], ["message", "seen", "bank-2/line", "bank-3/line"])


class Publishing(unittest.TestCase):
    """What is published, and what is taken away."""

    def test_what_the_index_of_before_lists_stays_until_the_next_change(self) -> None:
        before, now = index_of(listed("line", 1, ONE)), index_of(listed("line", 1, OTHER))
        names = [ONE, OTHER, THIRD, "index", "index.html", "x", "g" * 64]
        self.assertEqual(list_old(names, before, now), [THIRD])
        self.assertEqual(list_old(names, None, now), [ONE, THIRD])
        self.assertEqual(list_old(names, now, now), [])

    def test_an_index_of_lines_is_read_as_it_was_written(self) -> None:
        lines = Lines((Line("shop", 1, ONE), Line("shop", 2, OTHER)))
        self.assertEqual(read_lines(lines.data), lines)
        self.assertEqual(read_lines(b""), Lines(()))
        for data in (lines.data[:-1], lines.data + b"x\n", lines.data + b"\n", lines.data.upper(), b"\n"):
            self.assertIsNone(read_lines(data), data)

    def test_a_line_goes_out_behind_those_that_went_out(self) -> None:
        published = [Line("shop", 2, ONE), Line("shop", 4, OTHER), Line("shop-2", 9, ONE)]
        self.assertIs(weigh_line(Line("shop", 5, ONE), published), Going.NEW)
        self.assertIs(weigh_line(Line("shop", 4, OTHER), published), Going.SAME)
        self.assertIs(weigh_line(Line("shop", 4, ONE), published), Going.OTHER)
        self.assertIs(weigh_line(Line("shop", 2, OTHER), published), Going.OTHER)
        self.assertIs(weigh_line(Line("shop", 2, ONE), published), Going.OLDER)
        self.assertIs(weigh_line(Line("shop", 3, ONE), published), Going.OLDER)
        self.assertIs(weigh_line(Line("shop-2", 10, ONE), published), Going.NEW)
        self.assertIs(weigh_line(Line("shop-3", 1, ONE), published), Going.NEW)
        self.assertIs(weigh_line(Line("shop", 1, ONE), []), Going.NEW)

    def test_a_line_that_the_box_does_not_know_went_out_or_is_somebody_elses(self) -> None:
        line, last, other = Line("shop", 3, ONE), Line("shop", 4, ONE), Line("shop", 3, OTHER)
        self.assertIs(weigh_found(line, last, None, True), Found.BEFORE)
        self.assertIs(weigh_found(line, last, other, True), Found.LATER)
        self.assertIs(weigh_found(line, other, None, True), Found.LATER)
        self.assertIs(weigh_found(last, line, None, True), Found.LATER)
        self.assertIs(weigh_found(line, None, None, True), Found.LATER)
        self.assertIs(weigh_found(line, last, None, False), Found.FOREIGN)

    def test_what_else_stands_in_the_folder_is_foreign(self) -> None:
        names = ["service", "lines", "peers", "index.html", "timeweave.html", "key.pub", ".git", "robots.txt", ".service.00.new"]
        self.assertEqual(list_foreign(names), [])
        self.assertEqual(list_foreign([*names, "backup", ".data", "x.new", ".new.x"]), [".data", ".new.x", "backup", "x.new"])

    def test_the_file_of_a_line_is_called_by_service_and_step(self) -> None:
        self.assertEqual(name_line_file(Line("shop-2", 5, ONE)), "shop-2-5.line")

    def test_a_folder_is_the_services_own_or_empty(self) -> None:
        self.assertIs(weigh_folder(None, "shop", True), Claim.FREE)
        self.assertIs(weigh_folder(None, "shop", False), Claim.FOREIGN)
        for is_empty in (True, False):
            self.assertIs(weigh_folder("shop", "shop", is_empty), Claim.OWN)
            self.assertIs(weigh_folder("bank", "shop", is_empty), Claim.OTHER)

    def test_a_peers_folder_is_called_by_what_was_drawn_unless_it_is_open(self) -> None:
        self.assertEqual(choose_place("bank", True, "0" * 32), "bank")
        self.assertEqual(choose_place("bank", False, "0" * 32), "0" * 32)

    def test_a_peer_whose_drawn_folder_is_another_one_has_moved(self) -> None:
        old, new = "0" * 32, "1" * 32
        self.assertTrue(has_moved("bank", old, {"bank": new}))
        others: list[tuple[str, dict[str, str]]] = [(old, {"bank": old}), (old, {}), (old, {"port": new}), (old, {"bank": "bank"}), ("bank", {"bank": new})]
        for place, places in others:
            self.assertFalse(has_moved("bank", place, places), (place, places))

    def test_what_can_be_a_peers_folder(self) -> None:
        for name in ("bank", "bank-2", "0123456789abcdef" * 2, "-"):
            self.assertTrue(is_place(name), name)
        for name in ("a" * 17, "A", "a.b", "0" * 33, "", "g" * 32):
            self.assertFalse(is_place(name), name)


if __name__ == "__main__":
    unittest.main()
