"""What the scripts have in common: a help that changes nothing, and an end in silence where nobody reads on what they print."""

import argparse
import os
import signal
import sys
from typing import Callable, NoReturn, Optional


def reader_of_words(about: Optional[str]) -> argparse.ArgumentParser:
    """What reads a script's words; its help is what the script says of itself."""
    return argparse.ArgumentParser(description=about, formatter_class=argparse.RawDescriptionHelpFormatter)


def run_script(main: Callable[[], Optional[int]]) -> NoReturn:
    """Runs a script, and ends with its status; in silence, where nobody reads on what it prints."""
    try:
        status = main()
        sys.stdout.flush()
    except BrokenPipeError:
        # (Python would tell of what is left to be written as it ends)
        os.dup2(os.open(os.devnull, os.O_WRONLY), sys.stdout.fileno())
        status = 128 + signal.SIGPIPE
    sys.exit(status)
