#!/usr/bin/env python3
"""Lists the definitions that the headline stands on.

    tools/base.py [--check] [--write FILE] [MODULE]

MODULE is a module of definitions, such as Rattle.cj_spans.specs.Meaning.Json. With no MODULE it is
the one of the headline. The closure of a module is the module and all that its `use` lines reach.
The output has a line for each file of the closure, imports first: its lines that are neither blank
nor `use`, its kind and the first sentence of its first comment. The kinds are:

    meaning  a file in a folder Meaning
    data     a plain type, which the toolchain makes from the sources
    state    a type of the code that is no plain type
    specs    a file of specs/ outside Meaning
    proofs   a file of proofs/

With --check the status is 1 if the closure has a file of the last three kinds. With --write the
text between two marker comments in FILE is replaced, for each part: the headline, the contract that
promises it, the files, the plain types, the words of the standard library and the table of rules.
With both, FILE is compared and not written.
"""

import argparse
import re
import sys
from collections import defaultdict
from dataclasses import dataclass, field
from pathlib import Path
from typing import Iterator, Optional

ROOT = Path(__file__).resolve().parent.parent
HEADLINES = "Rattle.cj_stream.specs.Meaning.Headline", "Rattle.cj_stream.specs.Headline"
USE = re.compile(r"(?:pub )?use ([\w.]+?)(?:\.\{(.*)\})?(?: as \w+)?$")
RULE = re.compile(r"\(RULES, ([^)]*)\)")
DECLARED = re.compile(r"(?:pub |abbrev |unfoldable )*(?:record |data )?([^\s:({]+)")
FUNCTION = re.compile(r"\s*(?:pub(?:\(\w+\))? )?fn (\w+)")

# The types of the code that are plain data: enums and records of numbers. The engine holds nothing
# in them.
PLAIN = {
    "DecimalFault",
    "End",
    "Finding",
    "Kind",
    "Peaks",
    "Reason",
    "Report",
    "WriteFault",
}
FORBIDDEN = "state", "specs", "proofs"
CLAUSES = "headline", "growth"  # of the contract, beside its conditions


@dataclass
class File:
    """A module of the closure.

    Attributes:
        module: its name.
        kind: one of the kinds above.
        lines: how many lines are neither blank nor `use`; 0 for a type of the code.
        sentence: the first sentence of its first comment.
    """

    module: str
    kind: str
    lines: int
    sentence: str


@dataclass
class Closure:
    """The files that a module reaches, imports first, and their words of the standard library."""

    files: list[File] = field(default_factory=list)
    words: dict[str, set[str]] = field(default_factory=lambda: defaultdict(set))

    def count(self, kind: str) -> int:
        """Returns how many files are of a kind."""
        return sum(file.kind == kind for file in self.files)

    def lines(self) -> int:
        """Returns how many lines the files have together."""
        return sum(file.lines for file in self.files)


def path_of(module: str) -> Optional[Path]:
    """Returns the file of a module of this repository, or None."""
    parts = module.split(".")
    if parts[0] != "Rattle" or len(parts) < 4 or parts[2] not in ("specs", "proofs"):
        return None
    path = ROOT.joinpath("crates", *parts[1:]).with_suffix(".antt")
    return path if path.exists() else None


def imports_of(text: str) -> Iterator[tuple[str, list[str]]]:
    """Yields the modules that a text imports, each with the names that it takes."""
    for line in text.splitlines():
        if found := USE.match(line):
            names = found[2].split(", ") if found[2] else []
            yield found[1], [name.split(" as ")[0] for name in names]


def sentence_of(text: str) -> str:
    """Returns the first sentence of the comment that a text begins with."""
    comment = []
    for line in text.splitlines():
        if not line.startswith("--"):
            break
        comment.append(line[2:].strip())
    words = " ".join(comment)
    end = re.search(r"\.(?= [A-Z]|$)", words)
    return words[: end.end()] if end else words


def declared_type(module: str) -> Optional[str]:
    """Returns the type of the code that a module declares, or None."""
    parts = module.split(".")
    if "declared" not in parts or not (ROOT / "crates" / parts[1]).is_dir():
        return None
    names = [part for part in parts if not part.startswith("The")]
    return names[-1]


def read_file(module: str, path: Path) -> File:
    """Reads a file of definitions or proofs."""
    text = path.read_text(encoding="utf-8")
    lines = [line for line in text.splitlines() if line.strip() and not USE.match(line)]
    parts = module.split(".")
    kind = "proofs" if parts[2] == "proofs" else "meaning" if "Meaning" in parts else "specs"
    return File(module, kind, len(lines), sentence_of(text))


def closure_of(module: str) -> Closure:
    """Returns the closure of a module."""
    closure, seen = Closure(), set()

    def visit(name: str, taken: list[str]) -> None:
        if kept := declared_type(name):
            if kept not in seen:
                seen.add(kept)
                crate = name.split(".")[1]
                kind = "data" if kept in PLAIN else "state"
                closure.files.append(File(f"{crate}: {kept}", kind, 0, ""))
            return
        path = path_of(name)
        if path is None:
            closure.words[name].update(taken)
        elif name not in seen:
            seen.add(name)
            for other, names in imports_of(path.read_text(encoding="utf-8")):
                visit(other, names)
            closure.files.append(read_file(name, path))

    visit(module, [])
    return closure


def headline_module() -> str:
    """Returns the module of the headline."""
    return next(module for module in HEADLINES if path_of(module))


# ---- the parts of the page


def link_to(module: str) -> str:
    """Returns a link from a page in docs/ to the file of a module."""
    parts = module.split(".")
    return f"[{parts[1]}: {parts[-1]}](../{'/'.join(['crates', *parts[1:]])}.antt)"


def files_part(closure: Closure) -> str:
    """Returns the table of files, in the order of reading."""
    rows = ["| | File | Lines | What it says |", "|---|---|---|---|"]
    read = [file for file in closure.files if file.lines]
    for number, file in enumerate(read, 1):
        mark = "" if file.kind == "meaning" else f" ({file.kind})"
        rows.append(f"| {number} | {link_to(file.module)}{mark} | {file.lines} | {file.sentence} |")
    rows += [
        "",
        f"To believe the headline read these {closure.lines():,} lines; "
        "nothing else here needs to be believed.",
    ]
    return "\n".join(rows)


def data_part(closure: Closure) -> str:
    """Returns the list of plain types."""
    names = sorted(file.module for file in closure.files if file.kind == "data")
    rows = ["| Crate | Types |", "|---|---|"]
    crates = defaultdict(list)
    for name in names:
        crate, kept = name.split(": ")
        crates[crate].append(f"`{kept}`")
    rows += [f"| {crate} | {', '.join(kept)} |" for crate, kept in crates.items()]
    return "\n".join(rows)


def words_part(closure: Closure) -> str:
    """Returns the words of the standard library, by module."""
    rows = ["| Module | Words |", "|---|---|"]
    for module, names in sorted(closure.words.items()):
        shown = sorted(f"`{name.replace('◌', '')}`" for name in names if "|" not in name)
        for start in range(0, len(shown), 12):
            title = module.replace("Rattle.", "") if not start else ""
            rows.append(f"| {title} | {' '.join(shown[start:start + 12])} |")
    return "\n".join(rows)


def headline_part() -> str:
    """Returns the record of the headline as the code has it, with its comment."""
    path = path_of(headline_module())
    assert path is not None
    lines = path.read_text(encoding="utf-8").splitlines()
    start = next(at for at, line in enumerate(lines) if re.match(r"pub record Headline\b", line))
    while lines[start - 1].startswith("--"):
        start -= 1
    end = next((at for at in range(start, len(lines)) if not lines[at].strip()), len(lines))
    return "\n".join(["```text", *lines[start:end], "```"])


def contract_part() -> str:
    """Returns the function that promises the headline, with its conditions and these clauses."""
    path = ROOT / "crates" / "cj_stream" / "src" / "pieces.rt"
    text = path.read_text(encoding="utf-8") if path.exists() else ""
    found = re.search(r"^pub fn headline\b.*?^\{$", text, re.M | re.S)
    head, *clauses = re.split(r"^ {4}(?=requires |ensures )", found[0] if found else "", flags=re.M)
    shown = [
        f"    {clause.removesuffix('{')}"
        for clause in clauses
        if clause.startswith("requires ") or clause.split()[1] in CLAUSES
    ]
    return f"```text\n{head}{''.join(shown).rstrip()}\n```"


def rules_cited(text: str) -> list[str]:
    """Returns the rules that a comment cites, such as `links, 4`."""
    found = []
    for cited in RULE.findall(text):
        section, comma, numbers = cited.partition(", ")
        if not comma:
            continue
        if re.fullmatch(r"\d+ to \d+", numbers):
            continue  # the list of all rules of a section: it says their order alone
        found += [f"{section}, {number}" for number in re.findall(r"\d+", numbers)]
    return found


def definitions_by_rule(closure: Closure) -> dict[str, list[tuple[str, str]]]:
    """Returns the definitions that cite a rule, each with its crate, by rule."""
    cited: dict[str, list[tuple[str, str]]] = defaultdict(list)
    for file in closure.files:
        path = path_of(file.module)
        if path is None:
            continue
        rules: list[str] = []
        comment: list[str] = []
        for line in path.read_text(encoding="utf-8").splitlines():
            if line.startswith("--"):
                comment.append(line[2:].strip())
                continue
            if comment:
                rules, comment = rules_cited(" ".join(comment)), []
            if not line.strip():
                rules = []
            elif rules and not USE.match(line):
                named = DECLARED.match(line)
                if named:
                    for rule in rules:
                        cited[rule].append((file.module.split(".")[1], named[1]))
                rules = []
    return cited


def functions_by_definition(crate: str) -> dict[str, list[str]]:
    """Returns the functions that check a rule, by the words of their clauses."""
    found: dict[str, list[str]] = defaultdict(list)
    for path in sorted((ROOT / "crates" / crate / "src").rglob("*.rt")):
        name, clause = "", False
        for line in path.read_text(encoding="utf-8").splitlines():
            if start := FUNCTION.match(line):
                name, clause = start[1], False
            elif re.match(r"\s*ensures ", line):
                clause = True
            elif line.strip() in ("{", "{}"):
                clause = False
            if clause and name.startswith("check_"):
                for word in set(re.findall(r"[A-Za-z_]\w*", line)):
                    if name not in found[word]:
                        found[word].append(name)
    return found


def reasons_by_code() -> dict[int, str]:
    """Returns the words of each reason, by its code."""
    table = (ROOT / "docs" / "RULES.md").read_text(encoding="utf-8")
    rows = re.findall(r"^\| \[(\d+)\]\([^)]*\) \| ([^|`]+) \|", table, re.M)
    return {int(code): words for code, words in rows}


def rule_texts() -> dict[str, str]:
    """Returns the text of each numbered rule of docs/RULES.md, such as `links, 4`."""
    texts: dict[str, list[str]] = {}
    section, rule = "", ""
    for line in (ROOT / "docs" / "RULES.md").read_text(encoding="utf-8").splitlines():
        if line.startswith("#"):
            section, rule = line.lstrip("# ").lower(), ""
        elif found := re.match(r"(\d+)\. ", line):
            rule = f"{section}, {found[1]}"
        elif line and not line.startswith(" "):
            rule = ""
        if rule:
            texts.setdefault(rule, []).append(line.strip())
    return {rule: " ".join(lines) for rule, lines in texts.items()}


def vectors_by_code() -> dict[tuple[bool, int], list[str]]:
    """Returns the vectors that end with a reason, by whether the first line has it and by code."""
    found: dict[tuple[bool, int], list[str]] = defaultdict(list)
    for line in (ROOT / "vectors" / "table.tsv").read_text(encoding="utf-8").splitlines()[1:]:
        cells = line.split("\t")
        if ended := re.match(r"line (\d+), byte \d+: (\d+) ", cells[4]):
            if not cells[0].startswith(("cut/", "bad/")):
                found[ended[1] == "1", int(ended[2])].append(cells[0])
    return found


def rules_part(closure: Closure) -> str:
    """Returns the table of rules: definitions, functions that promise them, and vectors."""
    reasons, texts, vectors = reasons_by_code(), rule_texts(), vectors_by_code()
    usual = {"wrong kind", "member missing", "duplicate name"}
    functions: dict[str, dict[str, list[str]]] = {}
    rows = ["| Rule | Definitions | Functions | Vectors |", "|---|---|---|---|"]
    for rule, named in sorted(definitions_by_rule(closure).items()):
        text = re.sub(r"\s+", " ", texts.get(rule, "")).lower()
        codes = [code for code, words in reasons.items() if words.lower() in text]
        own = [code for code in codes if reasons[code] not in usual] or codes
        tried = [
            names[0]
            for code in own
            for names in [vectors.get((rule.startswith("headers"), code), [])]
            if names
        ]
        called: list[str] = []
        for crate, name in named:
            called += functions.setdefault(crate, functions_by_definition(crate)).get(name, [])
        called.sort(key=lambda name: name.endswith(("_if", "_member")))
        cells = [[name for _, name in named], called[:3], tried[:3]]
        shown = [", ".join(f"`{name}`" for name in dict.fromkeys(cell)) for cell in cells]
        rows.append(f"| {rule} | {' | '.join(shown)} |")
    return "\n".join(rows)


def replaced(text: str, part: str, body: str) -> str:
    """Returns the text with a new body between the marker comments of a part.

    Raises:
        ValueError: a marker is missing.
    """
    marks = f"<!-- {part}: made by tools/base.py -->", f"<!-- {part}: end -->"
    start, end = (text.find(mark) for mark in marks)
    if start < 0 or end < start:
        raise ValueError(f"no markers of {part}")
    return text[: start + len(marks[0])] + "\n" + body + "\n" + text[end:]


def page_of(text: str, closure: Closure) -> str:
    """Returns the page with all its parts made anew."""
    parts = {
        "headline": headline_part(),
        "contract": contract_part(),
        "files": files_part(closure),
        "types": data_part(closure),
        "words": words_part(closure),
        "rules": rules_part(closure),
    }
    for part, body in parts.items():
        text = replaced(text, part, body)
    return text


def faults_of(closure: Closure) -> list[str]:
    """Returns what the closure has that it must not have."""
    return [f"{file.module}: {file.kind}" for file in closure.files if file.kind in FORBIDDEN]


def main() -> int:
    """Runs the command. Returns its status."""
    parser = argparse.ArgumentParser(description=(__doc__ or "").partition("\n")[0])
    parser.add_argument("module", nargs="?", default=headline_module())
    parser.add_argument(
        "--check", action="store_true", help="fail if the closure leaves Meaning and plain types"
    )
    parser.add_argument("--write", type=Path, metavar="FILE", help="replace the parts of this page")
    chosen = parser.parse_args()
    closure = closure_of(chosen.module)
    if not closure.files:
        parser.error(f"no module {chosen.module}")
    for file in closure.files:
        print(f"{file.lines:5} {file.kind:8} {file.module}  {file.sentence}".rstrip())
    kinds = ", ".join(f"{closure.count(kind)} {kind}" for kind in ("meaning", "data", *FORBIDDEN))
    print(f"{closure.lines()} lines: {kinds}")
    faults = faults_of(closure) if chosen.check else []
    for fault in faults:
        print(fault, file=sys.stderr)
    if chosen.write:
        text = chosen.write.read_text(encoding="utf-8")
        page = page_of(text, closure)
        if not chosen.check:
            chosen.write.write_text(page, encoding="utf-8")
        elif page != text:
            faults.append(f"{chosen.write} is old: run tools/base.py --write {chosen.write}")
            print(faults[-1], file=sys.stderr)
    return 1 if faults else 0


if __name__ == "__main__":
    sys.exit(main())
