#!/usr/bin/env python3
"""Writes cityseq/reasons.json from docs/RULES.md: for each code its text, its meaning and the
fix."""
import json
import os
import re

HERE = os.path.dirname(os.path.abspath(__file__))
SOURCE = os.path.join(HERE, "..", "docs", "RULES.md")
TARGET = os.path.join(HERE, "cityseq", "reasons.json")


def plain(text):
    """A paragraph in one line, without links."""
    return " ".join(re.sub(r"\[([^\]]*)\]\([^)]*\)", r"\1", text).split())


def reasons(document):
    """The explanation of each code in the document."""
    found = {}
    for code, text, body in re.findall(r"^### (\d+) (.*)\n\n((?:.+\n)+)", document, re.MULTILINE):
        meaning, fix = body.split("*Fix:*")
        found[code] = {"text": text, "meaning": plain(meaning), "fix": plain(fix)}
    return dict(sorted(found.items(), key=lambda item: int(item[0])))


def read_reasons():
    """The explanations that docs/RULES.md has now."""
    with open(SOURCE, encoding="utf-8") as document:
        return reasons(document.read())


if __name__ == "__main__":
    with open(TARGET, "w", encoding="utf-8") as target:
        json.dump(read_reasons(), target, indent=1, ensure_ascii=False)
        target.write("\n")
