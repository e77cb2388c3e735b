"""Acceptance cases of `weft line`, `keep` and `tell`: lines with and without signatures, those that contradict, and what files say."""

import json
import subprocess

from harness.places import TOP
from harness.rooms import Wrong, case
from harness.weft_room import SHARE, Loom, each_fault, events_file


def with_keys(room):
    """A service `shop` of two steps, its key, and its line signed."""
    loom = Loom(room)
    loom.service("shop", [b"bread", b"milk"], [b"paid"])
    loom.key("shop")
    return loom


def printed(room):
    """weft line prints the line of the last step, or of step 0, as append and init do, and nothing else"""
    loom = Loom(room)
    loom.service("shop")
    (loom.folder / "other").mkdir()
    first = loom.timeweave("init", "other", "shop").decode()
    loom.expect("line shop", 0, first)
    for number in range(1, 6):
        line = loom.append("shop", b"x" * number)
        done = loom.expect("line shop", 0)
        if done.out != line:
            raise Wrong(f"  wanted {line!r}, got {done.out!r}")
    (loom.folder / "town").mkdir()
    loom.timeweave("init", "town", "town")
    loom.put("message", loom.timeweave("thread", "shop", "0"))
    loom.timeweave("receive", "town", "message")
    found = json.loads(loom.expect("line town --json", 0).out)
    if (found["service"], found["step"], len(found["authenticator"])) != ("town", 1, 64):
        raise Wrong(f"  {found}")
    loom.expect("line shop --out here", 0)
    if loom.read("here").decode() != line:
        raise Wrong("  --out wrote another line")


def signed(room):
    """a line that was signed is kept by whoever has the key, whichever others are noted, is checked by ssh-keygen alone, and no other key or line goes through"""
    loom = with_keys(room)
    loom.expect("line shop --sign shop.key", 0, "Hand out shop-2.line and shop-2.line.sig")
    loom.expect("keep shop-2.line", 12, "no key of shop is noted", "weft keep --signer shop")
    loom.key("port")
    loom.expect("keep --signer port port.key.pub", 0)
    loom.expect("keep shop-2.line", 12, "no key of shop is noted", absent=("isn't good",))
    loom.expect("keep --signer shop shop.key.pub", 0, "SHA256:")
    loom.expect("keep shop-2.line", 0, "signed by ED25519 SHA256:", "step 2 of shop")
    loom.expect("keep shop-2.line", 0, "kept already")
    checked = subprocess.run(
        ["ssh-keygen", "-Y", "verify", "-n", "timeweave-line", "-f", loom.folder / "signers", "-I", "shop", "-s", loom.folder / "shop-2.line.sig"],
        input=loom.read("shop-2.line"), capture_output=True,
    )  # fmt: skip
    if checked.returncode:
        raise Wrong(f"  ssh-keygen refuses the signature: {checked.stderr}")
    loom.put("both", loom.read("shop-2.line") + loom.read("shop-2.line.sig"))
    loom.expect("keep both", 0, "kept already")
    # another line under the signature, another's key, another's name
    loom.put("shop-3.line", loom.read("shop-2.line").replace(b" 2 ", b" 3 "))
    loom.put("shop-3.line.sig", loom.read("shop-2.line.sig"))
    loom.expect("keep shop-3.line", 1, "isn't good")
    loom.key("thief")
    loom.expect("line shop --sign thief.key --out forged", 0)
    loom.expect("keep forged", 1, "isn't good")
    loom.expect("keep --signer bank shop.key.pub", 0)
    loom.put("bank.line", loom.read("shop-2.line").replace(b"shop", b"bank"))
    loom.put("bank.line.sig", loom.read("shop-2.line.sig"))
    loom.expect("keep bank.line", 1, "isn't good")
    if loom.read("kept").count(b"\n") != 1:
        raise Wrong(f"  {loom.read('kept')}")


def wrong_key(room):
    """a key is noted once the signature is good by it, and never as a second one of its name: that is told, with how to replace the first"""
    loom = with_keys(room)
    loom.key("bank")
    loom.expect("line shop --sign shop.key --out shop.line", 0)
    loom.expect("keep shop.line --signer shop bank.key.pub", 1, "isn't good", "wasn't noted")
    loom.put("fake", loom.read("shop.line").replace(b" 2 ", b" 7 "))
    loom.put("bank.line", loom.read("shop.line").replace(b"shop", b"bank"))
    for name in ("fake", "bank.line"):
        loom.put(f"{name}.sig", loom.read("shop.line.sig"))
    loom.expect("keep fake --signer shop shop.key.pub", 1, "wasn't noted")
    loom.expect("keep bank.line --signer shop shop.key.pub", 2, "is of bank, and --signer names shop")
    loom.expect("keep shop.line --by mail --signer shop shop.key.pub", 2, "--by")
    loom.put("plain", loom.read("shop.line"))
    loom.expect("keep plain --signer shop bank.key.pub", 2, "no signature")
    if (loom.folder / "signers").exists() or loom.read("kept"):
        raise Wrong("  a key was noted, or a line kept")
    loom.expect("keep shop.line --signer shop shop.key.pub", 0, "is noted as the key of shop", "signed by ED25519")
    before = loom.read("signers")
    for words in ("keep shop.line --signer shop bank.key.pub", "keep --signer shop bank.key.pub"):
        loom.expect(words, 10, "has another key of shop already", "wasn't noted", f"take its line out of {loom.folder}/signers")
    loom.expect("keep shop.line --signer shop shop.key.pub", 0, "kept already")
    if loom.read("signers") != before:
        raise Wrong("  the file of signers was changed")
    loom.expect("accept box shop --key shop.key.pub", 10, "No message")
    loom.expect("accept box shop --key bank.key.pub", 10, "has another key of shop already", "take its line out of box/allowed_signers")
    # a line that was written by hand counts too
    loom.put("signers", b"# mine\nport,shop " + b" ".join(loom.read("shop.key.pub").split()[:2]) + b"\n")
    loom.expect("keep --signer shop shop.key.pub", 0)
    loom.expect("keep --signer port bank.key.pub", 10, "has another key of port")
    if loom.read("signers").count(b"\n") != 2:
        raise Wrong("  a key was noted twice")
    loom.put("signers", b"")
    loom.expect("keep --signer shop bank.key.pub", 0)


def by_hand(room):
    """lines without a signature are kept with how they came and when; of two that contradict both are kept and marked, and told whence both came"""
    loom = with_keys(room)
    line = loom.expect("line shop", 0).out
    loom.put("letter", line)
    loom.expect("keep letter", 2, "--by")
    loom.expect(["keep", "letter", "--by", "by letter from the notary"], 0, "by letter from the notary")
    other = line[:-2] + ("0" if line[-2] != "0" else "1") + "\n"
    loom.put("mail", other)
    loom.expect(["keep", "mail", "--by", "by mail"], 11, "at most one is of shop's history", "Ask shop", "by letter from the notary", "by mail")
    loom.put("two", "port 7 " + "a" * 64 + "\nport 7 " + "b" * 64 + "\n")
    loom.expect(["keep", "two", "--by", "by mail"], 11, "at most one is of port's history")
    for text in (line, other, "port 7 " + "a" * 64, "port 7 " + "b" * 64, "contradiction: shop 2 ", "contradiction: port 7 "):
        if sum(it.startswith(f"{text.strip()} ") for it in loom.read("kept").decode().splitlines()) != 1:
            raise Wrong(f"  {text!r} isn't kept once: {loom.read('kept')}")
    loom.put("kept", loom.read("kept").splitlines(True)[0])
    loom.put("raw", "bank 7 " + "A" * 64 + "\r\n")
    done = loom.expect(["keep", "raw", "--by", "an \x1b[31mescape\nand \u202eothers\t\x07"], 0)
    if b"\x1b" in loom.read("kept") or loom.read("kept").count(b"\n") != 2 or b"a" * 64 not in loom.read("kept"):
        raise Wrong(f"  {done} {loom.read('kept')}")
    loom.expect("keep raw --by mail", 0)
    # by hand a line may be added to the file, and notes
    with open(loom.folder / "kept", "a", encoding="utf-8") as file:
        file.write("# from the page\nbank 8 " + "c" * 64 + "\n\n")
    loom.put("eight", "bank 8 " + "d" * 64 + "\n")
    loom.expect(["keep", "eight", "--by", "mail"], 11, "nothing is told of how it came")
    loom.put("kept", b"what is that\n")
    loom.expect(["keep", "eight", "--by", "mail"], 9, "line 1 of", "no line of a service")


def no_lines(room):
    """what is no line is refused by its number or by what was typed wrong, and nothing is kept"""
    loom = Loom(room)
    good = "shop 2 " + "a" * 64
    for bad in ("", "x", "x\ny 3"):
        loom.put("line", bad)
        loom.expect(["keep", "line", "--by", "mail"], 9, "line 1 of line", "64 hexadecimal digits")
    for bad, status, told in (
        (good + "\nx", 10, "Other words stand beside the line of step 2 of shop"), (good[:-1], 9, "after 63 of 64 digits: group 16 has 3"),
        (good.replace("2", "02"), 9, "64 digits stand behind no name and step"), (f"shop {2**40} {'a' * 64}", 9, "64 digits stand behind no name and step"),
    ):  # fmt: skip
        loom.put("line", bad)
        loom.expect(["keep", "line", "--by", "mail"], status, told, "Nothing was kept")
    if loom.read("kept"):
        raise Wrong("  something was kept")


def keep_with_faults(room):
    """weft keep killed, and failing, at each of its writes: what was kept is whole, and the next run keeps the rest; two at once lose nothing"""
    loom = Loom(room)
    loom.put("one", "shop 2 " + "a" * 64 + "\n")
    loom.put("two", "shop 3 " + "b" * 64 + "\n")
    loom.expect(["keep", "one", "--by", "mail"], 0)

    def check(told):
        found = loom.read("kept").decode().splitlines()
        if not found or any(len(line.split(" ", 4)) != 5 for line in found):
            raise Wrong(f"{told}\n  kept: {found}")
        loom.expect(["keep", "two", "--by", "mail"], 0)
        if [line.split()[1] for line in loom.read("kept").decode().splitlines()] != ["2", "3"]:
            raise Wrong(f"{told}\n  kept: {loom.read('kept')}")

    if each_fault(loom, ["keep", "two", "--by", "mail"], check) < 10 // SHARE:
        raise Wrong("  there were fewer than 10 faults")
    running = []
    for number in range(4, 12):
        loom.put(f"n{number}", f"shop {number} " + "c" * 64 + "\n")
        words = ["python3", "-m", "weft", "keep", f"n{number}", "--by", "mail"]
        running.append(subprocess.Popen(words, cwd=loom.folder, env=loom.env | {"PYTHONPATH": str(TOP)}, stdout=subprocess.DEVNULL))
    if any(it.wait(300) for it in running):
        raise Wrong("  one of several at once failed")
    if sorted(int(line.split()[1]) for line in loom.read("kept").decode().splitlines()) != [2, *range(4, 12)]:
        raise Wrong(f"  kept: {loom.read('kept')}")


def tell_files(room):
    """weft tell says what each kind of file is and says, and that it is unjudged"""
    loom = Loom(room)
    loom.service("shop", [b"bread", b"\xff\x00"], [b"\x1b[31mred"])
    loom.service("town", [b"first"])
    loom.put("message", loom.timeweave("thread", "shop", "0"))
    loom.put("receipt", loom.timeweave("receive", "town", "message"))
    loom.append("town", b"later")
    loom.append("shop", b"late")
    loom.put("t-events", events_file(*[b"e%d" % k for k in range(30)]))
    loom.make({
        "event": "prove shop event 1 0", "raw": "prove shop event 1 1", "red": "prove shop event 2 0", "thread": "prove town thread 2 shop 2",
        "absent": "prove town absent 2 shop 1", "link": "prove shop link 2", "low": "map town low 3 shop", "high": "map town high 2 shop",
        "history": "export town", "under2": "prove shop event 1 0 2", "second": "prove town event 3 0", "chain": "join second thread link under2",
    })  # fmt: skip
    expected = {
        "event": ("proof of an event, unjudged", 'step 1, as event 0 of 2: "bread"', "line of step 3 of shop"),
        "raw": ("ff00",), "red": ("1b5b33316d726564",), "thread": ("town had received step 2 of shop", "at its step 2"),
        "absent": ("had received no step 1 of shop by its step 2",), "link": ("step 2 of shop has the authenticator",),
        "low": ("low map file", "had received step 2 of shop last"), "high": ("high map file", "at its step 2"),
        "history": ("of town: 3 steps, 2 events, 1 received line",), "message": ("line: shop 2 ", "recorded its step 0 last"),
        "receipt": ("town recorded step 2 of shop", "at its step 2"), "t-events": ("events file of 30 events", '"e0"', "10 more events"),
        "chain": ("one event precedes another", "hop: town received step 2 of shop at its step 2; bound by the line of step 3 of shop", '"bread"', '"later"'),
    }  # fmt: skip
    for name, texts in expected.items():
        loom.expect(f"tell {name}", 0, "unjudged", *texts)
    loom.expect("tell " + " ".join(expected), 0)
    if len(loom.expect("tell --json " + " ".join(expected), 0).out.splitlines()) != len(expected):
        raise Wrong("  --json doesn't write a line for each")
    loom.put("cut", loom.read("chain")[:-1])
    loom.expect("tell cut", 9, "begins as precedence", f"byte {len(loom.read('chain')) - 1}")
    loom.put("garbage", b"\x1b[31m\0\xff" * 50)
    loom.expect("tell garbage event", 9, "of no format", "bread")
    times = loom.append("shop", b"now")
    del times
    loom.put("tmp/events", events_file(b"timed"))
    loom.timeweave("append", "shop", "tmp/events", "1700000000")
    loom.put("timed", loom.timeweave("prove", "shop", "event", "5", "0"))
    loom.expect("tell timed", 0, "2023-11-14 22:13:20 UTC")


def versions(room):
    """weft tells its version, and digests of what it uses; each word has help with an example; wrong words end with 2, and none with the list of words;
    why the library can't be loaded is told"""
    loom = Loom(room)
    loom.expect("--version", 0, "weft 1.", "SHA-256")
    from weft.words import WORDS

    whole = loom.expect("--help", 0)
    for word in WORDS:
        loom.expect([word, "--help"], 0, "example:", f"weft {word}")
        if f" {word} " not in whole.out:
            raise Wrong(f"  --help doesn't name {word}")
    if loom.expect("help judge", 0).out != loom.expect("judge --help", 0).out or loom.expect("help", 0).out != whole.out:
        raise Wrong("  help isn't --help")
    loom.expect([], 2, "no word is named", *WORDS)
    loom.put("junk.so", b"no library")
    loom.expect("--version", 0, "library: none can be loaded: ", "junk.so", TIMEWEAVE_LIBRARY="./junk.so")
    for words in ([], ["nothing"], ["line"], ["line", "a", "b"], ["\x1b[31m"], ["judge"], ["log", "a"], ["tell"], ["line", "--\x1b"]):
        loom.expect(words, 2)


def cases():
    works = (printed, signed, wrong_key, by_hand, no_lines, keep_with_faults, tell_files, versions)
    return [case(work, "weft lines") for work in works]
