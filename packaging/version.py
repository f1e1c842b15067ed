#!/usr/bin/env python3
"""Looks whether all files name the version that VERSION has.

    packaging/version.py [--write]

It prints each file that names another one, and its last line is 'N passed, M failed'. With --write
it puts the version of VERSION into these files; CHANGELOG.md is then still written by hand.
"""
import re
import sys
from pathlib import Path

ROOT = Path(__file__).resolve().parent.parent
NUMBER = r"(\d+\.\d+\.\d+)"

# Each place: the files, the text around the version, and how many times it is there at least.
PLACES = [
    ("crates/*/src/**/*.rt", rf'const VERSION: &(?:\'static )?(?:str|\[u8\]) = b?"{NUMBER}', 1),
    ("crates/cityseq_tests_options/src/tests/*.rt", rf'b"cityseq {NUMBER}\\n"', 1),
    ("tests/capi/library.c", rf'"{NUMBER}"', 0),
    ("tests/cli/program.sh", rf"lines 'cityseq {NUMBER}'", 1),
    ("c/cityseq.h", rf'#define CITYSEQ_VERSION "{NUMBER}"', 1),
    ("python/cityseq/__init__.py", rf'^__version__ = "{NUMBER}"', 1),
    ("README.md", rf"cityseq\*?[_-]{NUMBER}[_-]", 1),
]


def places():
    """Each place's files with the pattern of the version; the count is for all of them together."""
    for pattern, text, least in PLACES:
        yield sorted(ROOT.glob(pattern)), pattern, re.compile(text, re.MULTILINE), least


def other_versions(wanted):
    """The places that do not name this version: a line for each place, empty where it does."""
    for files, pattern, text, least in places():
        found = [
            (file.relative_to(ROOT), version)
            for file in files
            for version in text.findall(file.read_text(encoding="utf-8"))
        ]
        if len(found) < least:
            yield f"{pattern}: the version is not there, as {text.pattern}"
        else:
            yield "; ".join(f"{file} has {version}" for file, version in found if version != wanted)
    changes = (ROOT / "CHANGELOG.md").read_text(encoding="utf-8")
    heads = re.findall(r"^## \[([^\]]*)\]", changes, re.MULTILINE)
    yield "" if heads[:1] == [wanted] else f"CHANGELOG.md begins with {heads[:1]}"


def write(version):
    """Puts the version into each place but the changelog."""
    for files, _, text, _ in places():
        for file in files:
            before = file.read_text(encoding="utf-8")
            after = text.sub(lambda found: found.group(0).replace(found.group(1), version), before)
            if after != before:
                file.write_text(after, encoding="utf-8")


def main():
    wanted = (ROOT / "VERSION").read_text(encoding="utf-8").strip()
    if sys.argv[1:] not in ([], ["--write"]):
        sys.exit(__doc__)
    if not re.fullmatch(NUMBER, wanted):
        sys.exit(f"VERSION is not three numbers: {wanted!r}")
    if sys.argv[1:]:
        write(wanted)
    others = list(other_versions(wanted))
    failed = [line for line in others if line]
    for line in failed:
        print(f"VERSION has {wanted}, but {line}")
    print(f"{len(others) - len(failed)} passed, {len(failed)} failed")
    sys.exit(1 if failed else 0)


if __name__ == "__main__":
    main()
