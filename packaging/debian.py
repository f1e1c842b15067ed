#!/usr/bin/env python3
"""Writes debian/control and debian/changelog below a folder, from the files of the tree.

    packaging/debian.py FOLDER MAINTAINER INTERFACE

The changelog is that of CHANGELOG.md. A version that is not released has the time of
SOURCE_DATE_EPOCH. INTERFACE is the number in the library's name.
"""
import os
import re
import sys
import textwrap
from datetime import datetime, timezone
from email.utils import format_datetime
from pathlib import Path

ROOT = Path(__file__).resolve().parent.parent


def read(name):
    return (ROOT / name).read_text(encoding="utf-8")


def recommends():
    """The packages that the extras of pyproject.toml ask for, which Debian names so."""
    section = read("python/pyproject.toml").split("[project.optional-dependencies]\n")[1]
    names = re.findall(r'"(\w+)', section.split("\n[")[0])
    return ", ".join(f"python3-{name}" for name in sorted(set(names)))


def control(maintainer, interface):
    text = read("debian/control.in")
    values = {"MAINTAINER": maintainer, "INTERFACE": interface, "RECOMMENDS": recommends()}
    for name, value in values.items():
        text = text.replace(f"@{name}@", value)
    return text


def time_of(date):
    """The time of a version, as Debian writes it."""
    if re.fullmatch(r"\d{4}-\d\d-\d\d", date):
        return format_datetime(datetime.fromisoformat(date).replace(tzinfo=timezone.utc))
    epoch = int(os.environ["SOURCE_DATE_EPOCH"])
    return format_datetime(datetime.fromtimestamp(epoch, timezone.utc))


def entry(version, date, body, maintainer):
    """A version of the changelog, as Debian writes it."""
    items = [
        re.sub(r"[`\[\]]|\(\S+\)", "", " ".join(item.split()))
        for item in re.findall(r"^- (.*(?:\n  .*)*)", body, re.M)
    ]
    lines = "\n".join(
        textwrap.fill(
            item, 76, initial_indent="  * ", subsequent_indent="    ", break_on_hyphens=False
        )
        for item in items
    )
    head = f"cityseq ({version}) unstable; urgency=medium"
    return f"{head}\n\n{lines}\n\n -- {maintainer}  {time_of(date)}\n"


def changelog(maintainer):
    parts = re.split(r"^## \[([^\]]+)\] - (\S+)\n", read("CHANGELOG.md"), flags=re.M)[1:]
    return "\n".join(entry(*parts[at : at + 3], maintainer) for at in range(0, len(parts), 3))


def main():
    if len(sys.argv) != 4:
        sys.exit(__doc__)
    folder, maintainer, interface = sys.argv[1:]
    target = Path(folder) / "debian"
    (target / "control").write_text(control(maintainer, interface), encoding="utf-8")
    (target / "changelog").write_text(changelog(maintainer), encoding="utf-8")


if __name__ == "__main__":
    main()
