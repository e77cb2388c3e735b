#!/usr/bin/env python3
"""Writes an events file of its words to standard output, each word an event.

    python3 examples/events_file.py bread milk > goods
"""

import os
import sys


def number(value):
    """A number as it stands in the file: four bytes, the highest first."""
    return value.to_bytes(4, "big")


events = [os.fsencode(word) for word in sys.argv[1:]]
sys.stdout.buffer.write(b"TWE1" + number(len(events)) + b"".join(number(len(event)) + event for event in events))
