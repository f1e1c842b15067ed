#!/usr/bin/env python3
"""Looks whether each edit in wrong-bodies/ can be applied. It proves nothing, and takes a moment.

    tests/mutation/edits.py [CRATE..]     (with no crate, all crates)

An edit is lines `file: FILE`, `old: TEXT` and `new: TEXT`; further pairs of texts change what the earlier ones made. Each old
text has to stand once in its file, and the new one has to differ. It prints what is wrong with which edit; the last line is
'N edits, M that cannot be applied', and the status is 0 where M is 0.
"""

import pathlib
import sys

FOLDER = "wrong-bodies"


def pairs_of(lines):
    """The changes that lines ask for, each a file, an old and a new text; or a ValueError that says what is wrong with a line."""
    pairs, file, old = [], None, None
    for line in lines:
        word, colon, text = line.partition(":")
        text = text.removeprefix(" ")
        if (word, colon) == ("file", ":") and old is None:
            file = text.strip()
        elif (word, colon) == ("old", ":") and file and old is None and text.strip():
            old = text
        elif (word, colon) == ("new", ":") and old is not None:
            pairs.append((file, old, text))
            old = None
        elif line.strip():
            raise ValueError(f"a line that is out of place: {line[:80]}")
    if old is not None or not pairs:
        raise ValueError("an old text without a new one" if pairs or old else "no change")
    return pairs


def fault_of(crate, edit):
    """What is wrong with an edit of the crate in this folder, or None."""
    made = {}
    try:
        for file, old, new in pairs_of(edit.read_text(encoding="utf-8").split("\n")):
            text = made.get(file) or (crate / file).read_text(encoding="utf-8")
            count = text.count(old)
            if count != 1:
                return f"stands {count} times in {file}: {old.strip()[:80]}"
            if new == old:
                return f"changes nothing: {old.strip()[:80]}"
            made[file] = text.replace(old, new)
    except (OSError, ValueError) as fault:
        return str(fault)
    return None


def main(names):
    crates = pathlib.Path(__file__).resolve().parent.parent.parent / "crates"
    folders = [crates / name for name in names] or sorted(
        it for it in crates.iterdir() if it.is_dir()
    )
    tried = wrong = 0
    for crate in folders:
        for edit in sorted((crate / FOLDER).glob("*.edit")):
            tried += 1
            fault = fault_of(crate, edit)
            if fault:
                wrong += 1
                print(f"{crate.name}/{edit.parent.name}/{edit.stem}: {fault}")
    print(f"{tried} edits, {wrong} that cannot be applied")
    return 1 if wrong else 0


if __name__ == "__main__":
    sys.exit(main(sys.argv[1:]))
