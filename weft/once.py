"""A word of the command line that is given once: of two, one would be passed over in silence."""

from __future__ import annotations

import argparse
from typing import Any, Optional


class Once(argparse.Action):
    """Takes the value of a word, and refuses a second one."""

    def __call__(self, parser: argparse.ArgumentParser, namespace: argparse.Namespace, values: Any, option_string: Optional[str] = None) -> None:
        """Takes it."""
        given: set[str] = namespace.__dict__.setdefault("given", set())
        if self.dest in given:
            parser.error(f"{option_string} is named twice, and once is meant")
        given.add(self.dest)
        setattr(namespace, self.dest, values)
