"""What the refusal numbers mean, as the header says it."""

import re

from .build import TOP

HEADER = TOP / "include" / "basilothyn.h"


def meanings():
    """By number; 0 is no refusal."""
    text = HEADER.read_text(encoding="utf-8")
    listed = text[text.index("enum basilothyn_refusal {") :]
    listed = listed[: listed.index("};")]
    return {int(number): words for number, words in re.findall(r"= ([1-9]\d*),?\s*/\* (.*?) \*/", listed)}
