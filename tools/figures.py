#!/usr/bin/env python3
"""Writes the figures of the documents from the results of measurements.

    tools/figures.py [--check]
    tools/figures.py --add FIGURE VALUE MACHINE [COMMAND]

bench/results/goals.csv has each figure: its group, what it is, its unit, its goal, the command that
measures it, and a pattern that finds it in the output of that command. A goal is the greatest value
that is good. bench/results/figures.csv has the values, each with the command, the day, the machine
and the commit. The newest value of a figure counts. If another command measured it, it says which.

docs/MEASURED.md has a table of each group, and docs/DECISIONS.md one of what was tried without
success, which is tried.csv. README.md can cite figures in a paragraph between
`<!-- figures: TEXT -->` and `<!-- figures end -->`. A name in braces in the text becomes the value,
and `{day}` the day. All values of a paragraph are of one day and one machine, so no sentence mixes
versions. With --check the documents are compared and not written, and the status is 1 if one is
old. With --add a value is added that bench/run does not find.
"""

import argparse
import csv
import datetime
import re
import subprocess
import sys
import textwrap
from pathlib import Path
from typing import Iterable, Mapping, Optional

ROOT = Path(__file__).resolve().parent.parent
RESULTS = Path("bench") / "results"
DOCUMENTS = Path("README.md"), Path("docs/DECISIONS.md"), Path("docs/MEASURED.md")
COLUMNS = 130
TABLE = re.compile(r"(<!-- figures of (.*) -->\n)(?:(?!<!-- ).*\n)*(<!-- figures end -->)")
CITED = re.compile(
    r"^(( *)<!-- figures: ((?:(?!-->)[\s\S])*) -->\n)"
    r"(?: *(?!<!-- | ).*\n)*( *<!-- figures end -->)",
    re.M,
)
HEAD = "| What | Unit | Goal | Value | Command | Day | Machine |\n|---|---|---|---|---|---|---|"

Row = dict[str, str]


class Figures:
    """The figures of a repository.

    Attributes:
        folder: where the results are.
        goals: each figure by its name.
        machines: what each machine is.
        values: all values of each figure, the oldest first.
    """

    def __init__(self, root: Optional[Path] = None) -> None:
        self.folder = (root or ROOT) / RESULTS
        self.goals = {row["figure"]: row for row in self.rows("goals")}
        self.machines = {row["machine"]: row["what"] for row in self.rows("machines")}
        self.values: dict[str, list[Row]] = {name: [] for name in self.goals}
        for row in sorted(self.rows("figures"), key=lambda row: row["date"]):
            self.values[row["figure"]].append(row)

    def rows(self, name: str) -> list[Row]:
        """Returns the rows of a file of results."""
        with open(self.folder / f"{name}.csv", newline="", encoding="utf-8") as file:
            return list(csv.DictReader(file))

    def newest(self, figure: str) -> Row:
        """Returns the newest value of a figure.

        Raises:
            KeyError: there is no such figure, or no value of it.
        """
        if not self.values[figure]:
            raise KeyError(f"no value of {figure}")
        return self.values[figure][-1]

    def add(self, rows: list[Row]) -> None:
        """Adds values to the file of figures."""
        with open(self.folder / "figures.csv", "a", newline="", encoding="utf-8") as file:
            names = ["figure", "value", "command", "date", "machine", "commit"]
            csv.DictWriter(file, names, lineterminator="\n").writerows(rows)

    def found_in(self, output: str, command: str) -> dict[str, str]:
        """Returns the values of the figures of a command that its output has, by their names."""
        found = {}
        for name, goal in self.goals.items():
            if goal["command"] == command and goal["pattern"]:
                if match := re.search(goal["pattern"], output, re.MULTILINE):
                    found[name] = match[1]
        return found

    def row_of(self, figure: str) -> str:
        """Returns the row of a figure in a table."""
        goal, value = self.goals[figure], self.newest(figure)
        command = value["command"] if "`" in value["command"] else f"`{value['command']}`"
        wanted = goal["goal"]
        if wanted and number_of(value["value"]) > number_of(wanted):
            wanted += " (missed)"
        cells = goal["what"], goal["unit"], wanted, value["value"], command, value["date"]
        row = f"| {' | '.join([*cells, value['machine']])} |"
        return row.replace("|  |", "| |")

    def table(self, group: str) -> str:
        """Returns the table of a group, of the machines, or of what was tried without success.

        Raises:
            KeyError: there is no such group.
        """
        if group == "machines":
            rows = [f"| {name} | {what} |" for name, what in self.machines.items()]
            return "\n".join(["| Machine | What it is |\n|---|---|", *rows])
        if group == "what was tried":
            rows = [f"| {' | '.join(row.values())} |" for row in self.rows("tried")]
            return "\n".join(["| Part | What was tried | Result |\n|---|---|---|", *rows])
        names = [name for name, goal in self.goals.items() if goal["group"] == group]
        if not names:
            raise KeyError(f"no group {group}")
        return "\n".join([HEAD, *map(self.row_of, names)])

    def cited(self, text: str, indent: str = "") -> str:
        """Returns a paragraph with the values of the figures that it names.

        Raises:
            KeyError: there is no such figure.
            ValueError: the values are not of one day and one machine.
        """
        names = [name for name in re.findall(r"\{([\w-]+)\}", text) if name != "day"]
        runs = {(self.newest(name)["date"], self.newest(name)["machine"]) for name in names}
        if len(runs) > 1:
            raise ValueError(f"values of several runs in one paragraph: {', '.join(names)}")
        for day, _ in runs:
            text = text.replace("{day}", day)
        for name in names:
            text = text.replace(f"{{{name}}}", self.newest(name)["value"])
        words = " ".join(text.split())
        return textwrap.fill(
            words,
            COLUMNS,
            initial_indent=indent,
            subsequent_indent=indent,
            break_on_hyphens=False,
            break_long_words=False,
        )

    def page(self, text: str) -> str:
        """Returns a document with its tables and paragraphs of figures made anew."""
        text = TABLE.sub(lambda it: f"{it[1]}{self.table(it[2])}\n{it[3]}", text)
        return CITED.sub(lambda it: f"{it[1]}\n{self.cited(it[3], it[2])}\n{it[4]}", text)


def number_of(text: str) -> float:
    """Returns the number that a text is."""
    return float(text.replace(",", ""))


def command_of(words: list[str], settings: Mapping[str, str], goals: Iterable[Row]) -> str:
    """Returns the command of a run, after those of its settings that some goal names."""
    named = {name for goal in goals for name in re.findall(r"\b([A-Z_]+)=", goal["command"])}
    given = [f"{name}={settings[name]}" for name in sorted(named) if name in settings]
    return " ".join([*given, "bench/run", *words])


def commit() -> str:
    """Returns the commit of the repository, with a plus if something was changed since."""
    words = ["git", "describe", "--always", "--dirty=+", "--abbrev=8", "--exclude=*"]
    asked = subprocess.run(words, cwd=ROOT, capture_output=True, text=True, check=False)
    return asked.stdout.strip()


def value_of(figure: str, value: str, command: str, machine: str) -> Row:
    """Returns a value that was measured today."""
    return {
        "figure": figure,
        "value": value,
        "command": command,
        "date": datetime.date.today().isoformat(),
        "machine": machine,
        "commit": commit(),
    }


def record(output: str, words: list[str], settings: Mapping[str, str]) -> list[str]:
    """Adds the figures that the output of a run has. Returns a line about each."""
    figures, machine = Figures(), settings["MACHINE"]
    command = command_of(words, settings, figures.goals.values())
    found = figures.found_in(output, command)
    figures.add([value_of(name, value, command, machine) for name, value in found.items()])
    return [f"{name}: {value}" for name, value in found.items()]


def main(words: Optional[list[str]] = None) -> int:
    """Runs the command. Returns its status."""
    parser = argparse.ArgumentParser(description=(__doc__ or "").partition("\n")[0])
    parser.add_argument("--check", action="store_true", help="compare the documents, write nothing")
    parser.add_argument("--add", nargs="+", metavar="WORD", help="FIGURE VALUE MACHINE [COMMAND]")
    chosen = parser.parse_args(words)
    figures, status = Figures(), 0
    if chosen.add:
        figure, value, machine, *command = chosen.add
        usual = figures.goals[figure]["command"]
        figures.add([value_of(figure, value, " ".join(command) or usual, machine)])
        figures = Figures()
    for path in DOCUMENTS:
        text = (ROOT / path).read_text(encoding="utf-8")
        page = figures.page(text)
        if page != text and chosen.check:
            print(f"{path} has old figures: run tools/figures.py", file=sys.stderr)
            status = 1
        elif page != text:
            (ROOT / path).write_text(page, encoding="utf-8")
    return status


if __name__ == "__main__":
    sys.exit(main())
