#!/usr/bin/env python3
"""Checks what the headline stands on, and the page about it.

    tests/docs/proof.py

The closure of the headline has files of Meaning and plain types alone, and docs/PROOF.md is what
tools/base.py makes of the sources. Each definition of Meaning in the crates below the engine keeps
to that too. The other tests run tools/base.py on small trees. The last line is 'N passed, M failed',
and the status is 0 if none failed.
"""

import importlib.util
import shutil
import subprocess
import sys
import tempfile
from pathlib import Path
from types import ModuleType

ROOT = Path(__file__).resolve().parent.parent.parent
TOOL = ROOT / "tools" / "base.py"
HEADLINE = "cj_stream/specs/Meaning/Headline"
PAGE = "\n".join(
    f"<!-- {part}: made by tools/base.py -->\nold\n<!-- {part}: end -->"
    for part in ("headline", "contract", "files", "types", "words", "rules")
)
# a headline with a definition of its own crate, one of the crate below, and a plain type
SMALL = {
    HEADLINE: """-- The promise.
use Rattle.std.specs.Prelude.{ℕ, ◌≡◌}
use Rattle.cj_stream.specs.Meaning.Lines.{lines}
use Rattle.cj_spans.specs.declared.token.Kind.TheVariants.{Null}

-- all lines are written
pub record Headline : Type 0 where
  pub writes : lines
""",
    "cj_stream/specs/Meaning/Lines": """-- The lines of a text. A line ends at LF.
use Rattle.cj_spans.specs.Meaning.Tree.{Tree}

-- a tree for each line (RULES, lines, 2)
abbrev pub lines : Tree
lines = leaf
""",
    "cj_spans/specs/Meaning/Tree": """-- Trees.

pub data Tree : Type 0 where
  leaf : Tree
""",
}


def tree_of(folder: Path, files: dict[str, str]) -> Path:
    """Writes a tree of crates with these definitions into a folder, and returns its page."""
    (folder / "tools").mkdir()
    shutil.copy(TOOL, folder / "tools")
    for name, text in files.items():
        path = (folder / "crates" / name).with_suffix(".antt")
        path.parent.mkdir(parents=True, exist_ok=True)
        path.write_text(text, encoding="utf-8")
    (folder / "docs").mkdir()
    (folder / "docs" / "RULES.md").write_text(
        "| [4](#4) | syntax | `Syntax` |\n\n## Lines\n2. A line, else syntax.\n", encoding="utf-8"
    )
    (folder / "vectors").mkdir()
    rows = "name\t\t\t\tanswer\ncut-short\t\t\t\tline 2, byte 0: 4 syntax\n"
    (folder / "vectors" / "table.tsv").write_text(rows, encoding="utf-8")
    page = folder / "docs" / "PROOF.md"
    page.write_text(PAGE, encoding="utf-8")
    return page


def run(folder: Path, *words: str) -> "subprocess.CompletedProcess[str]":
    """Runs the tool of a tree."""
    command = [sys.executable, str(folder / "tools" / "base.py"), *words]
    return subprocess.run(command, capture_output=True, text=True, check=False)


def base() -> ModuleType:
    """Returns the tool of the repository as a module."""
    spec = importlib.util.spec_from_file_location("base", TOOL)
    assert spec and spec.loader
    module = importlib.util.module_from_spec(spec)
    sys.modules["base"] = module
    spec.loader.exec_module(module)
    return module


def changed(name: str, before: str, after: str) -> dict[str, str]:
    """Returns the small tree with a text of one file changed."""
    assert before in SMALL[name]
    return {**SMALL, name: SMALL[name].replace(before, after)}


def test_files_come_after_their_imports(folder: Path) -> None:
    tree_of(folder, SMALL)
    lines = run(folder).stdout.splitlines()
    shown = [line.split(maxsplit=2) for line in lines]
    assert shown[0] == ["3", "meaning", "Rattle.cj_spans.specs.Meaning.Tree  Trees."], shown
    assert shown[1] == [
        "4",
        "meaning",
        "Rattle.cj_stream.specs.Meaning.Lines  The lines of a text.",
    ]
    assert shown[2] == ["0", "data", "cj_spans: Kind"]
    assert shown[3] == ["4", "meaning", "Rattle.cj_stream.specs.Meaning.Headline  The promise."]
    assert lines[4] == "11 lines: 3 meaning, 1 data, 0 state, 0 specs, 0 proofs", lines


def test_a_closure_within_meaning_passes(folder: Path) -> None:
    tree_of(folder, SMALL)
    assert run(folder, "--check").returncode == 0


def test_a_definition_outside_meaning_is_refused(folder: Path) -> None:
    files = changed(
        "cj_stream/specs/Meaning/Lines", "cj_spans.specs.Meaning.Tree", "cj_spans.specs.Tree"
    )
    files["cj_spans/specs/Tree"] = files.pop("cj_spans/specs/Meaning/Tree")
    tree_of(folder, files)
    refused = run(folder, "--check")
    assert refused.returncode == 1 and "Rattle.cj_spans.specs.Tree: specs" in refused.stderr


def test_a_lemma_is_refused(folder: Path) -> None:
    use = "use Rattle.cj_spans.proofs.Trees.{made}\n"
    files = changed("cj_spans/specs/Meaning/Tree", "-- Trees.\n", "-- Trees.\n" + use)
    tree_of(folder, {**files, "cj_spans/proofs/Trees": "-- Made.\n\npub made : leaf\n"})
    refused = run(folder, "--check")
    assert refused.returncode == 1 and "Rattle.cj_spans.proofs.Trees: proofs" in refused.stderr


def test_a_state_of_the_code_is_refused(folder: Path) -> None:
    tree_of(folder, changed(HEADLINE, "token.Kind.TheVariants.{Null}", "node.Node.{Node}"))
    refused = run(folder, "--check")
    assert refused.returncode == 1 and "cj_spans: Node: state" in refused.stderr


def test_an_old_page_is_refused_and_a_new_one_passes(folder: Path) -> None:
    page = tree_of(folder, SMALL)
    assert run(folder, "--check", "--write", str(page)).returncode == 1
    assert page.read_text(encoding="utf-8") == PAGE
    assert run(folder, "--write", str(page)).returncode == 0
    assert run(folder, "--check", "--write", str(page)).returncode == 0


def test_the_page_has_all_its_parts(folder: Path) -> None:
    page = tree_of(folder, SMALL)
    run(folder, "--write", str(page))
    text = page.read_text(encoding="utf-8")
    assert "To believe the headline read these 11 lines; nothing else here" in text
    assert "-- all lines are written\npub record Headline : Type 0 where" in text
    assert "| cj_spans | `Kind` |" in text
    assert "| std.specs.Prelude | `ℕ` `≡` |" in text, text
    assert "| lines, 2 | `lines` |  | `cut-short` |" in text, text


def test_a_page_without_markers_is_refused(folder: Path) -> None:
    page = tree_of(folder, SMALL)
    page.write_text("no marker", encoding="utf-8")
    assert run(folder, "--write", str(page)).returncode != 0
    assert page.read_text(encoding="utf-8") == "no marker"


def test_the_crates_below_the_engine_keep_to_meaning(_: Path) -> None:
    tool = base()
    for path in sorted(ROOT.glob("crates/*/specs/Meaning/*.antt")):
        crate = path.relative_to(ROOT / "crates").parts[0]
        if crate != "cj_stream":
            faults = tool.faults_of(tool.closure_of(f"Rattle.{crate}.specs.Meaning.{path.stem}"))
            assert not faults, (path.stem, faults)


def test_the_headline_keeps_to_meaning_and_its_page_is_new(_: Path) -> None:
    if not (ROOT / "crates" / HEADLINE).with_suffix(".antt").exists():
        print("the headline is not in Meaning yet, so its closure is not checked")
        return
    checked = run(ROOT, "--check", "--write", str(ROOT / "docs" / "PROOF.md"))
    assert checked.returncode == 0, checked.stderr


def main() -> int:
    """Runs all tests. Returns the status."""
    passed = failed = 0
    for name, test in list(globals().items()):
        if not name.startswith("test_"):
            continue
        with tempfile.TemporaryDirectory() as folder:
            try:
                test(Path(folder))
                passed += 1
            except AssertionError as fault:
                failed += 1
                print(f"{name}: {fault}")
    print(f"{passed} passed, {failed} failed")
    return 1 if failed else 0


if __name__ == "__main__":
    sys.exit(main())
