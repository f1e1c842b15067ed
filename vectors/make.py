#!/usr/bin/env python3
"""Writes the vectors: python3 vectors/make.py. Each is a file NAME.jsonl, and a row of table.tsv
says what has to come of it; README.md says how to read both. The same test cases, but for those of
folders of their own, go into the tests of the engine.

The test cases, in cases.py, are written by hand, from the rules of docs/RULES.md. In a line that is
to be refused the mark ^ stands where the finding is, and is taken out; `place` is given where no
mark can stand. What a complete run holds at most is counted here from the lines, by Python's own
reader of JSON."""
import json
import os
import re
import shutil

HERE = os.path.dirname(os.path.abspath(__file__))
TESTS = os.path.join(
    HERE, os.pardir, "crates", "cj_stream_tests_verdicts", "src", "tests", "table.rt"
)
LIMITS = (
    1_000,
    64,
)  # where a case asks for no others: a line of so many bytes, so many open arrays and objects
TEXTS = {
    1: "no header line",
    2: "line too long",
    3: "not UTF-8",
    4: "syntax",
    5: "nested too deep",
    10: "member missing",
    11: "duplicate name",
    12: "wrong kind",
    13: "number out of range",
    14: "wrong type",
    15: "wrong version",
    16: "not empty",
    17: "not three items",
    18: "not a whole number",
    19: "unknown object type",
    20: "id not among the city objects",
    21: "child not found",
    22: "link not mutual",
    23: "no parent in the feature",
    24: "unknown geometry type",
    25: "vertex index out of range",
    26: "semantics count",
    27: "semantics index out of range",
    28: "template index out of range",
    29: "bad instance",
    30: "transform not fixed",
    31: "not reached from the main object",
}

H = (
    '{"type":"CityJSON","version":"2.0","transform":{"scale":[0.001,0.001,0.001],"translate":[1000.0,2000.0,0.0]},'
    '"CityObjects":{},"vertices":[]}'
)
F = (
    '{"type":"CityJSONFeature","id":"b1","CityObjects":{"b1":{"type":"Building","geometry":[{"type":"MultiSurface",'
    '"lod":"2.2","boundaries":[[[0,1,2,3]]]}]}},"vertices":[[0,0,0],[1000,0,0],[1000,1000,0],[0,1000,0]]}'
)
B = '"b":{"type":"Building"}'


def feature(objects, vertices="[]", more=""):
    """A feature of the id b with these city objects."""
    return f'{{"type":"CityJSONFeature","id":"b","CityObjects":{{{objects}}},"vertices":{vertices}{more}}}'


def header(old="", new=""):
    """The header with a part of it put in another's place."""
    assert H.count(old) == 1 or not old, old
    return H.replace(old, new) if old else H


def one(old, new):
    """The feature with a part of it put in another's place."""
    assert F.count(old) == 1, old
    return F.replace(old, new)


def with_geometry(geometry, vertices="[[0,0,0],[1,0,0],[0,1,0]]"):
    return feature(f'"b":{{"type":"Building","geometry":[{geometry}]}}', vertices)


def solid(values, surfaces='[{"type":"RoofSurface"}]', boundaries="[[[[0,1,2]],[[0,2,1]]]]"):
    """A solid of one shell with two surfaces, and these values for its semantics."""
    return with_geometry(
        f'{{"type":"Solid","lod":"1","boundaries":{boundaries},'
        f'"semantics":{{"surfaces":{surfaces},"values":{values}}}}}'
    )


def templates(
    template='{"type":"MultiSurface","lod":"1","boundaries":[[[0,1,2]]]}',
    points="[[0.0,0.0,0.0],[1.0,0.0,0.0],[0.0,1.0,0.0]]",
):
    """A header with one template."""
    return (
        H[:-1]
        + f',"geometry-templates":{{"templates":[{template}],"vertices-templates":{points}}}}}'
    )


def instance(template="0", boundaries="[0]", matrix="[1,0,0,0,0,1,0,0,0,0,1,0,0,0,0,1]"):
    """A feature of one instance."""
    return feature(
        '"b":{"type":"SolitaryVegetationObject","geometry":[{"type":"GeometryInstance",'
        f'"template":{template},"boundaries":{boundaries},"transformationMatrix":{matrix}}}]}}',
        "[[0,0,0]]",
    )


CASES = []
SECTIONS = []  # each with its title and its test cases


def section(title):
    """The test cases that follow, up to the next section, belong together."""
    SECTIONS.append((title, []))


def case(name, lines, code=None, place=None, limits=LIMITS, words=(), kept=None, end="\n"):
    """A vector of these lines, the last of which ends with `end`: it is complete, or its line with a mark, or its last one,
    is refused for this code. `kept` are the numbers of the lines that are written, where they are not all those before.
    """
    lines = [line.encode() if isinstance(line, str) else line for line in lines]
    marked = (
        [number for number, line in enumerate(lines) if b"^" in line]
        if place is None and code
        else []
    )
    refused = None
    if code:
        at = marked[0] if marked else max(len(lines) - 1, 0)
        place = lines[at].index(b"^") if marked else place
        if marked:
            assert len(marked) == 1 and lines[at].count(b"^") == 1, name
            lines[at] = lines[at].replace(b"^", b"")
        refused = (at + 1, place, code)
    good = lines[: refused[0] - 1] if refused else lines
    blank = [bool(number and not line.strip(b" \t\r")) for number, line in enumerate(good)]
    if kept is None:
        kept = [number + 1 for number in range(len(good)) if not blank[number]]
    text = b"".join(line + b"\n" for line in lines[:-1]) + (
        lines[-1] + end.encode() if lines else b""
    )
    made = (name, text, limits, words, refused, len(good), kept, good)
    CASES.append(made)
    if "/" not in name:
        SECTIONS[-1][1].append(made)


def size(tree):
    """How many values and member names a tree has, and how deep it is nested. An object is a list of pairs of a list."""
    if isinstance(tree, Members):
        parts = [size(value) for _, value in tree.pairs]
        return 1 + len(parts) + sum(count for count, _ in parts), 1 + max(
            [nest for _, nest in parts], default=0
        )
    if isinstance(tree, list):
        parts = [size(value) for value in tree]
        return 1 + sum(count for count, _ in parts), 1 + max([nest for _, nest in parts], default=0)
    return 1, 0


class Members:
    def __init__(self, pairs):
        self.pairs = pairs


def peaks(lines):
    """What is held at most: bytes, tokens, and open containers, of lines that are all good."""
    measured = []
    for line in lines:
        blank = not line.strip(b" \t\r")
        count, nest = (0, 0) if blank else size(json.loads(line, object_pairs_hook=Members))
        measured.append((len(line), count, nest))
    later = measured[1:] or [(0, 0, 0)]
    return (
        measured[0][0] + max(line[0] for line in later),
        measured[0][1] + max(line[1] for line in later),
        max(line[2] for line in measured),
    )


exec(open(os.path.join(HERE, "cases.py"), encoding="utf-8").read())


def answer_of(refused):
    """What is said of a stream that is refused so, or that is complete."""
    return (
        f"line {refused[0]}, byte {refused[1]}: {refused[2]} {TEXTS[refused[2]]}"
        if refused
        else "complete"
    )


def peaks_of(refused, good):
    """What is held at most, where that is told."""
    return "-" if refused else " ".join(map(str, peaks(good)))


def spelled(text):
    """Bytes as a test case of the engine spells them."""
    parts = []
    for part in re.split(
        b"(" + re.escape(H.encode()) + b"|" + re.escape(F.encode()) + b"|\n|[^ -~]|[&|])",
        text,
    ):
        name = {H.encode(): "H", F.encode(): "F", b"\n": "lf"}.get(part)
        if name or re.fullmatch(b"[^ -~]|[&|]", part):
            parts.append(f"&{name or part[0]};")
        else:
            parts.append(part.decode("ascii"))
    return "".join(parts)


def asked(words):
    """The options of a vector as a test case of the engine spells them: a word for each text."""
    told = []
    for word in re.sub("--(id|type|lod) ", r"--\1=", " ".join(words)).split():
        option, _, value = word[2:].partition("=")
        texts = [value] if option == "bbox" else value.split(",")
        told += [f"{option}={text}" if text else option for text in texts]
    return " ".join(told) or "-"


def test_case(name, text, limits, words, refused, lines, kept, good):
    """The line of a vector in the tests of the engine."""
    stream = text.split(b"\n")
    written = b"".join(
        stream[number - 1] + (b"\n" if number < len(stream) else b"") for number in kept
    )
    return "|".join(
        [
            name,
            *map(str, limits),
            asked(words),
            spelled(text),
            "all" if written == text else spelled(written),
            answer_of(refused),
            str(lines),
            str(len(kept) - (1 in kept)),
            peaks_of(refused, good),
        ]
    )


def write_tests():
    """Writes the cases of each section as a constant of the engine's tests, with a test of them."""
    with open(TESTS, "w", encoding="utf-8") as tests:
        print(TESTS_HEAD, end="", file=tests)
        for title, made in SECTIONS:
            name = re.sub("[^a-z0-9]+", "_", title.split(": ")[-1].lower())
            lines = "\n".join(test_case(*case) for case in made)
            print(
                f'\n/// {title[0].upper()}{title[1:]}.\nconst {name.upper()}: &str = r#"\n{lines}\n"#;\n\n#[test]\n'
                f"fn {name}(rt: HostRuntime) -> Result<(), Fail> {{\n    check_rows(&rt, rt.alloc(), {name.upper()})\n}}",
                file=tests,
            )


TESTS_HEAD = """\
//! The vectors of the folder `vectors/`, by section, without its three families. Written by
//! vectors/make.py: change vectors/cases.py and run it again.
//!
//! A row has cells with bars between them:
//!
//! - its name
//! - the line limit
//! - the depth limit
//! - the query, or `-`
//! - the stream
//! - what is written of it, or `all`
//! - the end
//! - how many lines come before the invalid one, or all
//! - how many features are written
//! - the peaks of a complete stream, or `-`
//!
//! The module `rows` says how a query and a stream are spelled.
use super::vectors::check_rows;
use std::test::Fail;
"""


def main():
    for folder in ("cut", "extensions", "not-utf8"):
        shutil.rmtree(os.path.join(HERE, folder), ignore_errors=True)
        os.mkdir(os.path.join(HERE, folder))
    for name in os.listdir(HERE):
        if name.endswith(".jsonl"):
            os.unlink(os.path.join(HERE, name))
    with open(os.path.join(HERE, "table.tsv"), "w", encoding="utf-8") as table:
        print(
            "name",
            "line limit",
            "depth",
            "query",
            "answer",
            "lines",
            "written",
            "peaks",
            sep="\t",
            file=table,
        )
        for name, text, limits, words, refused, lines, kept, good in CASES:
            with open(os.path.join(HERE, name + ".jsonl"), "wb") as file:
                file.write(text)
            print(
                name,
                *limits,
                " ".join(words) or "-",
                answer_of(refused),
                lines,
                ",".join(map(str, kept)) or "-",
                peaks_of(refused, good),
                sep="\t",
                file=table,
            )
    write_tests()
    names = [name for name, *_ in CASES]
    assert len(set(names)) == len(names), "a name stands twice"
    for code in TEXTS:
        told = sum(1 for _, _, _, _, refused, *_ in CASES if refused and refused[2] == code)
        assert told >= 3, f"code {code}: {told} vectors"
    print(f"{len(CASES)} vectors")


if __name__ == "__main__":
    main()
