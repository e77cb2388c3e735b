"""A text as a code for cameras, a picture that telephones read: by the package qrcode of Python (Debian: python3-qrcode), where it is there; weft has none of its
own."""

from __future__ import annotations

import importlib
import io
from typing import Optional

PACKAGE = "qrcode"
NONE = "there is no code for cameras: Python's qrcode isn't there (Debian: python3-qrcode)"


def code_of(text: str) -> Optional[bytes]:
    """The picture of a text, as SVG; None where the package isn't there."""
    try:
        qrcode, svg = importlib.import_module(PACKAGE), importlib.import_module(f"{PACKAGE}.image.svg")
    except ImportError:
        return None
    out = io.BytesIO()
    qrcode.make(text, image_factory=svg.SvgPathImage).save(out)
    return out.getvalue()
