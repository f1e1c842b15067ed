"""Tries the edits of one crate on a copy of it.

    wrong_bodies.py CRATE FOLDER EDIT..

FOLDER is the copy's crate. The libraries of the crates below stand beside it, as any check left them. A check of some functions
goes on past one that is not proved, and names it. So a batch of edits, each in another function, is one check of these functions:
an edit is refused where its function has a goal that is not proved. Where the function only calls one that is not proved, the
edit is tried again in the next batch. What a batch does not refuse is tried alone by a check of the crate, and so is an edit that
is in no function: it is refused where that check refuses the crate. At last all functions are checked as they are, and all have
to be proved. The last line is 'N refused, M get past'.
"""

import os
import re
import subprocess
import sys

KIT = os.path.dirname(
    subprocess.run(["rt", "doc"], stdout=subprocess.PIPE, text=True, check=True).stdout.strip()
)
BATCH = 6  # edits: in larger ones more functions call one that is not proved

HEAD = re.compile(
    r"( *)(?:pub(?:\([^)]*\))? )?(?:default )?(?:const )?(?:unsafe )?(?:extern \"C\" )?fn (\w+)"
)
IMPL = re.compile(r"impl\b[^{]*")


class Edit:
    """An edit: its name, and its pairs of texts, each with the file that it changes."""

    def __init__(self, path):
        self.name = os.path.basename(path).removesuffix(".edit")
        self.pairs = []
        file = old = ""
        with open(path, encoding="utf-8") as it:
            for line in it.read().split("\n"):
                if line.startswith("file: "):
                    file = line[len("file: ") :].strip()
                elif line.startswith("old: "):
                    old = line[len("old: ") :]
                elif line.startswith("new:"):
                    self.pairs.append((file, old, line[len("new:") :].removeprefix(" ")))


class Sources:
    """The files of the copy: as they are, with edits, and which function a place of one is in."""

    def __init__(self, folder, crate):
        self.folder, self.crate, self.texts = folder, crate, {}
        self.written = set()

    def text(self, file):
        if file not in self.texts:
            with open(f"{self.folder}/{file}", encoding="utf-8") as it:
                self.texts[file] = it.read()
        return self.texts[file]

    def edited(self, edit):
        """The files as this edit alone makes them, or None where it cannot be applied."""
        made = {}
        for file, old, new in edit.pairs:
            try:
                text = made.get(file) or self.text(file)
            except OSError:
                return None
            if text.count(old) != 1:
                return None
            made[file] = text.replace(old, new)
        return made or None

    def spans(self, edit):
        """Where the edit's texts stand in the files as they are, or None where one stands in another's."""
        found = []
        for file, old, new in edit.pairs:
            text = self.text(file)
            if text.count(old) != 1:
                return None
            found.append((file, text.index(old), text.index(old) + len(old), new))
        return found

    def functions(self, spans):
        """The functions that these places are in, or None where one is in none."""
        found = {self.function_at(file, start, stop) for file, start, stop, _ in spans}
        return None if None in found else found

    def function_at(self, file, start, stop):
        """The module, the type and the trait, and the name of the function around a place."""
        if not file.startswith("src/"):
            return None
        module = [
            it for it in file[len("src/") : -len(".rt")].split("/") if it not in ("lib", "main")
        ]
        owner, at = "", 0
        lines = self.text(file).split("\n")
        for row, line in enumerate(lines):
            if line.startswith("impl"):
                owner = owner_of("\n".join(lines[row : row + 6]))
            elif line.startswith("}"):
                owner = ""
            head = HEAD.match(line)
            if head and at <= start:
                length = len("\n".join(lines[row : end_of(lines, row, head[1]) + 1]))
                if stop <= at + length:
                    return "::".join([self.crate, *module]), owner, head[2]
            at += len(line) + 1
        return None

    def write(self, made):
        """Writes these texts, and what was written before as it was."""
        for file in self.written - made.keys():
            self.put(file, self.text(file))
        for file, text in made.items():
            self.put(file, text)
        self.written = set(made)

    def put(self, file, text):
        with open(f"{self.folder}/{file}", "w", encoding="utf-8") as it:
            it.write(text)


def end_of(lines, row, indent):
    """The row that a function ends in: the next with its indent and a brace; one of a trait that has no body ends above it."""
    begun = False
    for at in range(row, len(lines)):
        begun = begun or lines[at].endswith("{")
        if lines[at].startswith(indent + "}") or at == row and lines[at].endswith("}"):
            return at
        if not begun and lines[at].endswith(";"):
            return at
    return len(lines) - 1


def owner_of(text):
    """The type and the trait of an impl, as a check joins them: `SourceRead` for `impl Read for Source`."""
    head = IMPL.match(text)[0]
    while re.search(r"<[^<>]*>", head):
        head = re.sub(r"<[^<>]*>", "", head)
    words = head.split(" where")[0].removeprefix("impl").split()
    names = [re.sub(r".*::|\W", "", it) for it in words if it not in ("for", "pub", "&mut", "&")]
    return "".join(reversed(names[:2]))


def crates_below(table, crate):
    """The crates of the repository below a crate, and the libraries of the kit that it names."""
    lines = (line.partition("#")[0].partition(":") for line in table.splitlines())
    named = {head.split()[0]: words.split() for head, colon, words in lines if colon}
    below, left = [], [crate]
    while left:
        found = [it for it in named[left.pop()] if it in named and it not in below]
        below += found
        left += found
    return below, [it for it in named[crate] if it not in named], named[crate]


def words_of(sources):
    """What a check is told of the crate: its root, the libraries below it, and where the check keeps its work."""
    with open(f"{sources.folder}/../../crates.txt", encoding="utf-8") as it:
        below, of_kit, named = crates_below(it.read(), sources.crate)
    root = next(
        it for it in ("src/lib.rt", "src/main.rt") if os.path.exists(f"{sources.folder}/{it}")
    )
    words = ["--crate-name", sources.crate, root, "-L", f"dependency={KIT}/rlibs"]
    for name in ["std", *of_kit]:
        words += ["--extern", f"{name}={KIT}/rlibs/{name}.rlib"]
    for name in below:
        if name in named:
            words += ["--extern", f"{name}=../{name}/out/rlib/{name}.rlib"]
        words += ["-L", f"dependency=../{name}/out/rlib"]
    words += [
        "--antt-project",
        f"{KIT}/rattle/logic/antt-project.json",
        "--logic-built",
        f"{KIT}/logic_built",
    ]
    os.makedirs(f"{sources.folder}/out/incremental", exist_ok=True)
    return [*words, "--incremental", "out/incremental", "--jobs", "1"]


def check(sources, made, functions=None):
    """What a check of these functions, or of the crate, says with these texts in place: a word for each function, and whether
    all is proved; or None where the check does not come so far."""
    sources.write(made)
    only = [word for it in functions or () for word in ("--only", path_of(it))]
    ran = subprocess.run(
        [f"{KIT}/bin/rattle", "check", *words_of(sources), *only],
        cwd=sources.folder,
        stdin=subprocess.DEVNULL,
        stdout=subprocess.PIPE,
        stderr=subprocess.STDOUT,
        errors="replace",
    )
    last = [it for it in ran.stdout.split("\n") if it.startswith(("only=", "logic="))]
    if not last:
        return None, ran.stdout
    said = {}
    for line in ran.stdout.split("\n"):
        told = re.match(r"fn (\S+): (.*)", line)
        if told:
            said[told[1]] = word_of(told[2])
    return (said, ran.returncode == 0), ran.stdout


def path_of(function):
    """The path of a function below the crate, as a check prints it."""
    module, owner, name = function
    return "::".join([*module.split("::")[1:], *([owner] if owner else []), name])


def word_of(told):
    """Whether a function is proved, waits for another that it calls, or is refused for itself."""
    if told.startswith("proved"):
        return "proved"
    return "waits" if told.startswith("no proof: it calls") else "refused"


def told_of(said, function):
    """What was said of a function and the parts of its own; None where no name or several fit. One of a type has the type's module."""
    module, owner, name = function
    path = f"{module}::{owner}::{name}" if owner else f"{module}::{name}"
    others = [key for key in said if owner and key.endswith(f"::{owner}::{name}")]
    if path not in said and len(others) == 1:
        path = others[0]
    words = [word for key, word in said.items() if key == path or key.startswith(f"{path}+")]
    for word in ("refused", "waits", "proved"):
        if word in words:
            return word
    return None


def joined(sources, batch):
    """The files with all edits of a batch: each is placed in the files as they are."""
    made = {}
    for spans, _ in batch.values():
        for file, start, stop, new in spans:
            made.setdefault(file, []).append((start, stop, new))
    texts = {}
    for file, changes in made.items():
        text = sources.text(file)
        for start, stop, new in sorted(changes, reverse=True):
            text = text[:start] + new + text[stop:]
        texts[file] = text
    return texts


def batch_of(left):
    """Edits that are each in functions of their own."""
    batch, taken = {}, set()
    for edit, (spans, functions) in left.items():
        if len(batch) < BATCH and not functions & taken:
            batch[edit] = spans, functions
            taken |= functions
    return batch


def try_batch(sources, batch):
    """What a batch says of each of its edits; halves are tried where the check does not come so far."""
    functions = set().union(*(it for _, it in batch.values()))
    answer, _ = check(sources, joined(sources, batch), functions)
    if answer is None and len(batch) > 1:
        edits = list(batch)
        half = len(edits) // 2
        parts = edits[:half], edits[half:]
        return {
            **try_batch(sources, {it: batch[it] for it in parts[0]}),
            **try_batch(sources, {it: batch[it] for it in parts[1]}),
        }
    if answer is None:
        return {it: "proved" for it in batch}
    said = answer[0]
    words = {it: [told_of(said, function) for function in batch[it][1]] for it in batch}
    return {
        it: next((word for word in ("refused", "waits") if word in told), "proved")
        for it, told in words.items()
    }


def try_batches(sources, left, tell):
    """Tries the edits by batches. Answers those that none refused."""
    alone = []
    while left:
        batch = batch_of(left)
        told = try_batch(sources, batch)
        moved = False
        for edit, word in told.items():
            if word == "waits":
                continue
            moved = True
            del left[edit]
            if word == "refused":
                tell(edit, "refused")
            else:
                alone.append(edit)
        if not moved:
            alone += left
            break
    return alone


def try_alone(sources, edit):
    """What the check of the crate says with this edit alone."""
    made = sources.edited(edit)
    if not made:
        return "CANNOT BE TRIED: a text that it names does not stand there once"
    answer, printed = check(sources, made)
    if answer is None:
        return (
            "CANNOT BE TRIED: "
            + next((it for it in printed.split("\n") if "error" in it), "no verdict")[:200]
        )
    return "GETS PAST" if answer[1] else "refused"


def main(crate, folder, *paths):
    sources = Sources(folder, crate)
    refused = past = 0

    def tell(edit, what):
        nonlocal refused, past
        refused, past = refused + (what == "refused"), past + (what != "refused")
        print(f"{crate}/{edit.name}: {what}")

    left, alone = {}, []
    for edit in map(Edit, paths):
        spans = sources.spans(edit) if sources.edited(edit) else None
        functions = sources.functions(spans) if spans else None
        if functions:
            left[edit] = spans, functions
        else:
            alone.append(edit)
    tried = set().union(*(functions for _, functions in left.values()))
    for edit in try_batches(sources, left, tell) + alone:
        tell(edit, try_alone(sources, edit))
    # what was kept meanwhile has to stand for the functions, or for the crate itself, as they are
    answer, printed = check(sources, {}, None if alone else tried)
    if not answer or not answer[1]:
        print(f"{printed}\n{crate} is not proved as it is: nothing is known")
        return 1
    print(f"{refused} refused, {past} get past")
    return 1 if past else 0


if __name__ == "__main__":
    sys.exit(main(*sys.argv[1:]))
