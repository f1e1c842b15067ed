#!/usr/bin/env python3
"""Looks whether the code has what the documents say that it has.

    tests/docs/promises.py

docs/CLAUSES.md is what tools/clauses.py makes of the sources, and that tool reads a small source right.
Of docs/PROMISES.md: each function that the last column of a table names; each clause of a function, as
`function`/clause or `function`: clause; each definition, and each part, as `Definition`: part; each edit
and file. Prose is passed over, but each name between backticks must be the name of something, also in the
section on what is left to tests.
Of docs/RULES.md: each code with its name and its text, and each function of that table, which is what
tools/rules.py makes of the sources.
Of docs/MEASURED.md and README.md: the figures are those of bench/results.
Of docs/json.md: the tables are those of its schema.
Of all documents: they have no more words than their goals.
A name that is not there is printed. The last line is 'N passed, M failed', over the names, and the status
is 0 if none failed.
"""

import importlib.util
import re
import sys
import tempfile
from collections import defaultdict
from pathlib import Path

ROOT = Path(__file__).resolve().parent.parent.parent
NAME = r"`([A-Za-z_][\w:]*)`"
TICKED = re.compile(r"`([^`]*)`")
PARENTHESIS = re.compile(r"\(([^()]*)\)")


class Code:
    """The names that the sources and the definitions have."""

    def __init__(self):
        self.functions = defaultdict(list)  # by name and by Type::name, the clauses of each
        self.placed = defaultdict(set)  # by crate, as module::function and module::Type::function
        self.types = defaultdict(list)  # by type or trait, the clauses of each function
        self.fields = defaultdict(set)  # by definition, its parts
        self.names = set()  # everything else that has a name
        self.files = {path.name for path in ROOT.glob("tests/**/*.*")}
        for path in sorted(ROOT.glob("crates/*/src/**/*.rt")):
            self.read_source(path)
        for folder in "specs", "proofs":
            for path in sorted(ROOT.glob(f"crates/*/{folder}/**/*.antt")):
                self.read_definitions(path)
        self.names.update(path.stem for path in ROOT.glob("crates/*/wrong-bodies/*.edit"))
        for lists in self.functions, self.types:
            self.names.update(lists, *(clauses for each in lists.values() for clauses in each))
        self.names.update(*self.fields.values())

    def read_source(self, path):
        crate = path.relative_to(ROOT / "crates").parts[0]
        modules = list(path.relative_to(ROOT / "crates" / crate / "src").with_suffix("").parts)
        self.names.update([crate, *modules])
        owners, clauses = [], None
        for line in path.read_text().splitlines():
            head = re.sub(r"<[^<>]*>", "", re.sub(r"<[^<>]*>", "", line.replace("->", "")))
            if found := re.match(r"(?:pub )?(impl|trait)\b(?: (\w+) for)? (\w+)", head):
                owners = [name for name in found.group(2, 3) if name]
            elif line == "}":
                owners = []
            if found := re.match(
                r'\s*(?:pub(?:\(\w+\))? )?(?:const )?(?:extern "C" )?fn (\w+)', line
            ):
                clauses = set()
                for name in [found[1], *(f"{owner}::{found[1]}" for owner in owners)]:
                    self.functions[name].append(clauses)
                    self.placed[crate].add("::".join([*modules, name]))
                for owner in owners:
                    self.types[owner].append(clauses)
            elif (
                found := re.match(r"\s*(?:ensures|requires) (\w+) \{", line)
            ) and clauses is not None:
                clauses.add(found[1])
            if found := re.match(r"\s*ghost use [\w.]+\.\{(.*)\};", line):
                self.names.update(re.findall(r"\w+", found[1]))
            if found := re.match(r"    ([A-Z]\w*)(?:\(.*\))?,$", line):
                self.names.add(found[1])  # a variant
            for found in re.finditer(r"\b(?:struct|enum|trait|mod|const|type|ghost) (\w+)", line):
                self.names.add(found[1])
            self.names.update(owners)
            self.names.update(re.findall(r'"([\w-]+)"', line))

    def read_definitions(self, path):
        self.names.add(path.stem)
        record = None
        for line in path.read_text().splitlines():
            words = re.sub(r"^\s*(?:(?:abbrev|pub|unfoldable) )*", "", line)
            if found := re.match(r"(?:record|data) (\w+)", words):
                record = found[1]
                self.names.add(record)
                self.fields[record] |= set()
            elif found := re.match(r"(\w+) (?:\([^)]*\) |\{[^}]*\} )*:", words):
                self.names.add(found[1])
                if line.startswith(" ") and record:
                    self.fields[record].add(found[1])

    def clauses_of(self, function):
        """The clauses of each function of this name; of a type those of its functions together."""
        if function in self.functions:
            return self.functions[function]
        return [set().union(*self.types[function])] if function in self.types else []

    def has(self, name):
        """Whether something has this name, or there is a file of it, at the top or in a crate."""
        if "/" not in name:
            return name in self.names or name in self.files
        folders = [ROOT, *ROOT.glob("crates/*")]
        return any(
            (folder / f"{name}{end}").exists() for folder in folders for end in ("", ".antt")
        )


class Report:
    """What was looked at, and what of it is not there."""

    def __init__(self):
        self.passed = self.failed = 0
        self.place = ""

    def count(self, is_there, text):
        if is_there:
            self.passed += 1
        else:
            self.failed += 1
            print(f"{self.place}: {text}")


def words_in(text):
    """The single words, bare or between backticks, that a list begins with: a, b and c."""
    words = []
    for item in re.split(r", (?:and )?| and ", text.strip()):
        if not (found := re.fullmatch(r"`?(\w+)`?", item.strip())):
            break
        words.append(found[1])
    return words


def check_clauses(code, report, functions, clauses):
    """Each of these functions has these clauses; of functions of one name one has. A definition has them as its parts."""
    for function in functions:
        found = code.clauses_of(function)
        for clause in clauses:
            if found or function not in code.fields:
                report.count(
                    any(clause in each for each in found), f"no clause {clause} of {function}"
                )
            else:
                report.count(clause in code.fields[function], f"no part {clause} of {function}")


def check_slashes(code, report, text, types):
    """Each `function`/clause, of these types if there are any."""
    for name, first, others in re.findall(rf"{NAME}/(\w+)((?:, \w+\b)*(?=[,.:]|$))?", text):
        for function in [f"{each}::{name}" for each in types] or [name]:
            check_clauses(code, report, [function], words_in(first + others))


def check_parenthesis(code, report, text):
    """Definitions, after a colon the parts of the one before it, and clauses."""
    check_slashes(code, report, text, [])
    for name, parts in re.findall(NAME + r": ([\w, ]+)", text):
        for part in words_in(parts):
            report.count(
                name in code.fields and part in code.fields[name], f"no part {part} of {name}"
            )


def check_parts(code, report, cell, bare):
    """After a definition and 'its part' a part of it; after a function a part of a definition that the cell names."""
    named = [name for name in TICKED.findall(cell) if name in code.fields]
    for text in bare, *PARENTHESIS.findall(cell):
        for name, parts in re.findall(rf"{NAME}[,:] its parts? ([\w, ]+)", text):
            for part in words_in(parts):
                there = any(
                    part in code.fields[each] for each in ([name] if name in code.fields else named)
                )
                report.count(there, f"no part {part} of {name}")


def check_names(code, report, text):
    """Each name between backticks is the name of something."""
    for name in TICKED.findall(text):
        if re.fullmatch(r"[A-Za-z_][\w:./-]*", name):
            report.count(code.has(name), f"nothing has the name {name}")


def check_cell(code, report, cell, owner):
    """A cell that names functions and clauses; owner is the one function of the table, if it has one."""
    check_names(code, report, cell)
    for inside in PARENTHESIS.findall(cell):
        check_parenthesis(code, report, inside)
    bare = re.sub(r" +([,;:])", r"\1", " ".join(PARENTHESIS.sub("", cell).split()))
    check_parts(code, report, cell, bare)
    for part in bare.split(";"):
        check_part(code, report, part.strip(), owner)


def check_part(code, report, part, owner):
    """What stands between two semicolons of a cell, without its parentheses."""
    subjects = re.match(rf"((?:(?:, | and )?{NAME})+)(?P<end>: |$|, )", part)
    listed = TICKED.findall(subjects[1]) if subjects else []
    types = [name for name in listed if name in code.types]
    check_slashes(code, report, part, types)
    for words, names in re.findall(
        r"(?:^/|: |clauses )(\w+(?: and \w+)*) of ((?:`\w+`(?:, | and (?:of )?)?)+)", part
    ):
        for name in TICKED.findall(names):
            for function in [f"{each}::{name}" for each in types] or [name]:
                check_clauses(code, report, [function], words_in(words))
    clauses = words_in(part[subjects.end() :]) if subjects and subjects["end"] == ": " else []
    if owner and not any("::" in name for name in listed):
        check_clauses(code, report, [owner], listed)
        for clause in clauses:
            report.count(
                any(clause in fields for fields in code.fields.values()),
                f"no definition has a part {clause}",
            )
    else:
        check_clauses(code, report, listed, clauses)


def check_promises(code, report):
    owner = None
    for number, line in enumerate((ROOT / "docs/PROMISES.md").read_text().splitlines(), 1):
        if not line.startswith("|"):
            owner = None
            continue
        *others, cell = (each.strip() for each in line.strip("|").split("|"))
        report.place = f"docs/PROMISES.md:{number}"
        check_names(code, report, " ".join(others))
        if found := re.fullmatch(rf"Clause of {NAME}", cell):
            owner = found[1]
        elif cell not in ("---", "Carried by"):
            check_cell(code, report, cell, owner)


def check_tests(code, report):
    """The names in the list of what is left to tests."""
    document = (ROOT / "docs/PROMISES.md").read_text()
    section = document.split("\n## What is left to tests\n")[1].split("\n## ")[0]
    report.place = "docs/PROMISES.md, what is left to tests"
    check_names(code, report, section)


SMALL = """
/// A box. It has a lid.
impl Box {
    /// Returns what is in the box: a toy. It stays there.
    pub fn look(&self) -> Toy
        ensures { result ≡ self.toy }

        // A lid is needed.
        // Nothing else is.
        ensures lid { self.lid ≡ true }
        ensures same { self.new ≡ self.old }
    {
        self.toy
    }

    fn hide(&self) {
        if true {
            drop(1);
        }
    }
}

pub(crate) trait Shut {
    fn shut(&self);
}
"""


def check_index(report):
    """The index of clauses is new, and the tool that writes it finds functions, comments, clauses and edits."""
    tool = tool_of("clauses")
    report.place = "docs/CLAUSES.md"
    is_new = (ROOT / tool.INDEX).read_text() == tool.index()
    report.count(is_new, "the index is old: run tools/clauses.py")
    report.place = "tools/clauses.py"
    functions = list(tool.functions_of(SMALL))
    found = [(each.name, each.is_listed, each.last - each.first) for each in functions]
    report.count(
        found == [("Box::look", True, 9), ("Box::hide", False, 4), ("Shut::shut", True, 0)],
        f"found {found}",
    )
    groups = [(group.comment, group.clauses) for group in functions[0].groups]
    wanted = [("", ["unnamed"]), ("A lid is needed.\nNothing else is.", ["lid", "same"])]
    report.count(groups == wanted, f"groups {groups}")
    shown = tool.sentence_of(functions[0].comment)
    report.count(shown == "Returns what is in the box: a toy.", f"other sentences: {shown}")
    shown = tool.sentence_of("One, " + "two " * 30 + "three.")
    report.count(shown == "One ..", f"a sentence that does not fit: {shown}")
    report.count(
        tool.function_at(functions, SMALL, "drop(1);") is functions[1],
        "an edit of another function",
    )
    report.count(
        tool.function_at(functions, SMALL, "/// A box.") is None,
        "an edit outside functions has one",
    )
    long = " ".join(["word"] * 60)
    report.count(
        len(tool.sentence_of(long)) <= 160
        and len(max(tool.cells_of([long[:80]] * 3), key=len)) <= 160,
        "a long cell",
    )


def tool_of(name):
    """A tool of the repository as a module."""
    spec = importlib.util.spec_from_file_location(name, ROOT / f"tools/{name}.py")
    tool = importlib.util.module_from_spec(spec)
    sys.modules[name] = tool
    spec.loader.exec_module(tool)
    return tool


def check_reasons(code, report):
    """Each reason has its row and its heading, the tables of RULES are new, and their functions are there."""
    source = (ROOT / "crates/cj_spans/src/reason.rt").read_text()
    table = re.findall(r'Reason::(\w+) => \((\d+), "([^"]*)"\)', source)
    document = (ROOT / "docs/RULES.md").read_text()
    report.place = "docs/RULES.md"
    report.count(document == tool_of("rules").document(), "a table is old: run tools/rules.py")
    for name, number, text in table:
        report.count(
            f"]({anchor(number, text)}) | {text} | `{name}` | `" in document,
            f"no row of code {number}, {text}",
        )
        report.count(f"\n### {number} {text}\n" in document, f"no heading of code {number}, {text}")
    rows = re.findall(r"^\| \[(\d+)\]\(.*\) \| [^|]* \| `(\w+)` \| (.*) \|$", document, re.M)
    report.count(len(rows) == len(table), f"{len(rows)} rows of reasons")
    for number, name, functions in rows:
        report.count(
            (name, number) in [row[:2] for row in table],
            f"the reason {name} has not the code {number}",
        )
        crate = None
        for owner, function in re.findall(r"`(\w+)`: |`([\w:]+)`", functions):
            crate = owner or crate
            report.count(owner or function in code.placed[crate], f"{crate} has no {function}")


OUTPUT = """1000 MB, 3 rounds
check, 1 jobs               1.021     1.90     526       1.85       17
check, 4 jobs               0.284     0.51    1950       1.99       30
page
    +2.90 s beyond 1.5 times its time (the goal: at most 3 s)
usual.jsonl     cityseq check        650        -      0.30      0.28      0.451       4096
usual.jsonl     cityseq info         620     1.04      0.31      0.29      0.470       4096
"""
FOUND = {
    "bench/run parts": {
        "package-1": "1.021",
        "memory-1": "17",
        "package-4": "0.284",
        "memory-4": "30",
    },
    "bench/run report": {"report-page": "+2.90"},
    "SIMDJSON_FORCE_IMPLEMENTATION=haswell bench/run commands 30": {
        "check-usual": "0.451",
        "info-usual": "1.04",
    },
    "bench/run parts 300 huge": {"package-4-huge": "0.284"},
}


def check_figures(report):
    """The figures of the documents are those of the results, and a run adds those that its output has."""
    tool = tool_of("figures")
    figures = tool.Figures()
    report.place = "bench/results"
    for name, goal in figures.goals.items():
        report.count(bool(figures.values[name]), f"{name} has no value")
        report.count(
            not goal["pattern"] or re.compile(goal["pattern"]).groups == 1,
            f"the pattern of {name} has not one group",
        )
    for row in figures.rows("figures"):
        report.count(row["machine"] in {"", *figures.machines}, f'no machine {row["machine"]}')
        report.count(
            bool(re.fullmatch(r"-?[\d,]+(\.\d+)?", row["value"])),
            f'{row["figure"]} is no number: {row["value"]}',
        )
    for path in tool.DOCUMENTS:
        text = (ROOT / path).read_text()
        report.count(figures.page(text) == text, f"{path} has old figures: run tools/figures.py")
    report.place = "tools/figures.py"
    for command, wanted in FOUND.items():
        found = figures.found_in(OUTPUT, command)
        report.count(found == wanted, f"{command} has {found}")
    words = tool.command_of(
        ["commands", "30"],
        {"SIMDJSON_FORCE_IMPLEMENTATION": "haswell", "HOME": "/"},
        figures.goals.values(),
    )
    report.count(words in FOUND, f"the command {words}")
    check_figures_of(tool, report)


def check_figures_of(tool, report):
    """Small results: a run adds values, the newest counts, and no paragraph mixes runs."""
    with tempfile.TemporaryDirectory() as folder:
        tool.ROOT = Path(folder)
        results = tool.ROOT / tool.RESULTS
        results.mkdir(parents=True)
        (results / "goals.csv").write_text(
            "figure,group,what,unit,goal,command,pattern\n"
            "a,G,of a,s,2,bench/run a,^a (\\S+)\nb,G,of b,s,,bench/run b,\n"
        )
        (results / "machines.csv").write_text("machine,what\nL,a machine\n")
        (results / "figures.csv").write_text(
            "figure,value,command,date,machine,commit\nb,1,bench/run b,2026-01-01,L,\n"
        )
        added = tool.record("a 3.5 s\n", ["a"], {"MACHINE": "L"})
        figures = tool.Figures(tool.ROOT)
        report.count(
            added == ["a: 3.5"] and figures.newest("a")["value"] == "3.5", f"added {added}"
        )
        report.count(
            "| of a | s | 2 (missed) | 3.5 | `bench/run a` |" in figures.table("G"),
            figures.table("G"),
        )
        page = figures.page(
            "- x\n  <!-- figures: On {day} {b} s. -->\n  old\n  <!-- figures end -->\nrest\n"
        )
        report.count(
            "-->\n\n  On 2026-01-01 1 s.\n  <!--" in page
            and page.endswith("end -->\nrest\n")
            and "old" not in page,
            page,
        )
        report.count(figures.page(page) == page, "a page that is new changes")
        for text in (
            "<!-- figures: {a} {b} -->\n<!-- figures end -->",
            "<!-- figures: {c} -->\n<!-- figures end -->",
        ):
            try:
                report.count(False, f"no fault: {figures.page(text)}")
            except (KeyError, ValueError):
                report.count(True, "")


SMALL_SCHEMA = {
    "$defs": {
        "decimal": {"type": ["number", "string"]},
        "it": {
            "properties": {
                "kind": {"const": "it"},
                "a": {"type": "integer", "description": "x"},
                "b": {"type": "integer", "description": "x"},
                "c": {
                    "type": ["array", "null"],
                    "items": {"$ref": "#/$defs/decimal"},
                    "minItems": 3,
                    "description": "y",
                },
            }
        },
    }
}


def check_json(report):
    """The tables of the document are new, and the tool makes those of a small schema."""
    tool = tool_of("json_tables")
    report.place = "docs/json.md"
    is_new = (ROOT / tool.DOCUMENT).read_text() == tool.document()
    report.count(is_new, "a table is old: run tools/json_tables.py")
    report.place = "tools/json_tables.py"
    marks = "<!-- it: made by tools/json_tables.py -->\n", "<!-- it: end -->\n"
    made = tool.page(f"a\n{marks[0]}old\n{marks[1]}b\n", SMALL_SCHEMA)
    rows = "| `a`, `b` | number | x |\n| `c` | array of three decimals, or null | y |\n"
    wanted = f"a\n{marks[0]}{tool.HEAD}\n{rows}{marks[1]}b\n"
    report.count(made == wanted, f"made {made}")


def check_words(report):
    """No document has too many words, and the tool counts those that no tool made."""
    tool = tool_of("words")
    report.place = "tools/words.py"
    for line in [*tool.too_long(list(tool.counts())), None]:
        report.count(line is None, line)
    text = "a b\n<!-- x: made by y -->\nc d\n<!-- x: end -->\ne\n"
    text += "<!-- figures: {f} -->\n3 g\n<!-- figures end -->\n"
    counted = tool.count_of("README.md", text)
    report.count((counted.by_hand, counted.made) == (3, 22), f"counted {counted}")
    missed = list(tool.too_long([tool.Count("README.md", tool.TOTAL + 1, 0)]))
    report.count(len(missed) == 2, f"missed {missed}")
    pair = tool.Count("docs/HACKING.md", 3_000, 0), tool.Count("CONTRIBUTING.md", 501, 0)
    missed = list(tool.too_long(list(pair)))
    report.count(len(missed) == 1, f"missed {missed}")


def anchor(number, text):
    return "#" + re.sub(r"[^a-z0-9-]", "", f"{number}-{text}".lower().replace(" ", "-"))


def main():
    code, report = Code(), Report()
    check_promises(code, report)
    check_tests(code, report)
    check_index(report)
    check_reasons(code, report)
    check_figures(report)
    check_json(report)
    check_words(report)
    print(f"{report.passed} passed, {report.failed} failed")
    return report.failed > 0


if __name__ == "__main__":
    sys.exit(main())
