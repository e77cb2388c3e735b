"""Judges files in this process: prints the text of the program's command of the same name, and ends with its status.

    python3 examples/bindings/judge.py strict PROOF ANCHORS
"""

import os
import sys
from pathlib import Path

sys.path.insert(0, str(Path(__file__).resolve().parents[2] / "bindings/python"))

import timeweave  # noqa: E402

FORMS = {
    "verify PROOF ANCHORS": timeweave.verify,
    "strict PROOF ANCHORS": timeweave.strict,
    "checkmap LOW HIGH ANCHORS": timeweave.checkmap,
    "checkfork EVIDENCE ANCHORS": timeweave.checkfork,
    "contradict FIRST ANCHORS SECOND ANCHORS LINK": timeweave.contradict,
    "receiver EVIDENCE ANCHORS LINK": timeweave.receiver,
}


def main() -> int:
    """Judges what the words name; the status to end with."""
    judge = next((call for form, call in FORMS.items() if form.split()[:1] == sys.argv[1:2] and len(form.split()) == len(sys.argv[1:])), None)
    if judge is None:
        print("usage: judge.py", " | ".join(FORMS), file=sys.stderr)
        return 2
    try:
        files = [Path(name).read_bytes() for name in sys.argv[2:]]
    except OSError as why:
        print(why, file=sys.stderr)
        return 3
    try:
        report = judge(*files)
    except timeweave.Rejected as reason:
        print("rejected", reason)
        return timeweave.REJECTED
    except timeweave.BadAnchors as bad:
        print("unreadable", bad.file, "line", bad.line)
        return timeweave.UNREADABLE
    except timeweave.BadFile as bad:
        print("unreadable", bad)
        return timeweave.UNREADABLE
    except MemoryError as failure:
        print(failure, end="")
        return timeweave.NO_MEMORY
    print(report.text, end="")
    return timeweave.ACCEPTED


def ended() -> int:
    """The status to end with: that of the judgement, or 4 where its report couldn't be written, which is no answer."""
    try:
        status = main()
        sys.stdout.flush()
    except OSError as why:
        print(why, file=sys.stderr)
        sys.stderr.flush()
        os._exit(4)  # (what is left of the output can't be written either)
    return status


if __name__ == "__main__":
    sys.exit(ended())
