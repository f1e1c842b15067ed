#!/usr/bin/env python3
"""Counts the lines of code of the Python package: those that are not blank, comment or docstring.

    tools/package_size.py            each folder, and the whole package
    tools/package_size.py --modules  each module too, the longest first
"""
import ast
import io
import pathlib
import sys
import tokenize

PACKAGE = pathlib.Path(__file__).resolve().parents[1] / "python" / "cityseq"
LAYOUT = {tokenize.NL, tokenize.NEWLINE, tokenize.INDENT, tokenize.DEDENT, tokenize.COMMENT}


def docstring_lines(text: str) -> set[int]:
    """Returns the numbers of the lines of docstrings, from 1."""
    owners = (ast.Module, ast.ClassDef, ast.FunctionDef, ast.AsyncFunctionDef)
    lines: set[int] = set()
    for node in ast.walk(ast.parse(text)):
        if isinstance(node, owners) and ast.get_docstring(node, clean=False) is not None:
            first = node.body[0]
            lines.update(range(first.lineno, (first.end_lineno or first.lineno) + 1))
    return lines


def code_lines(text: str) -> int:
    """Returns how many lines of a module have code."""
    lines: set[int] = set()
    for token in tokenize.generate_tokens(io.StringIO(text).readline):
        if token.type not in LAYOUT and token.type != tokenize.ENDMARKER:
            lines.update(range(token.start[0], token.end[0] + 1))
    return len(lines - docstring_lines(text))


def main() -> None:
    """Prints the lines of code and the modules of each folder."""
    counts = {path: code_lines(path.read_text("utf-8")) for path in PACKAGE.rglob("*.py")}
    folders: dict[str, list[int]] = {}
    for path, count in counts.items():
        folders.setdefault(str(path.parent.relative_to(PACKAGE)), []).append(count)
    if "--modules" in sys.argv[1:]:
        for path, count in sorted(counts.items(), key=lambda each: -each[1]):
            print(f"{count:6,}  {path.relative_to(PACKAGE)}")
    for folder, sizes in sorted(folders.items()):
        print(f"{sum(sizes):6,} lines in {len(sizes):3} modules, at most {max(sizes):3}: {folder}")
    print(f"{sum(counts.values()):6,} lines in {len(counts):3} modules: the package")


if __name__ == "__main__":
    main()
