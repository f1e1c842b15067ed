#!/usr/bin/env python3
"""Writes the options of both commands into manual pages, completions and the guide. Those of
`cityseq` are what its help says, and those of `cityseq-run` are the table of the package.

    packaging/options.py [--write] [PROGRAM]

PROGRAM is the built program, crates/cityseq/out/cityseq if left out. Without --write it looks
whether all is as it would be written, prints what differs, and its last line is 'N passed, M
failed'. In a manual page it writes what is between the lines '.\\" commands', '.\\" options' and
'.\\" end', and in docs/GUIDE.md what is between the marks of options.
"""
import json
import os
import re
import subprocess
import sys
import textwrap
from dataclasses import dataclass
from pathlib import Path
from typing import Dict, List, Optional

ROOT = Path(__file__).resolve().parent.parent
MAN, COMPLETIONS = ROOT / "packaging" / "man", ROOT / "packaging" / "completions"
GUIDE = ROOT / "docs" / "GUIDE.md"
GUIDE_MARKS = "<!-- options: made by packaging/options.py -->\n", "<!-- options: end -->\n"
COMMAND = re.compile(r"^ {2,4}([a-z][a-z-]*) {2,}(.*)$")
OPTION = re.compile(r"^ +(?:(-\w), )?(--[a-z][a-z0-9-]*)(?:[ =]<?([A-Z][A-Z,]*)>?)?(?: {2,}(.*))?$")
COMMAND_TITLES = ("Commands:", "positional arguments:")
OPTION_TITLES = ("Options:", "options:", "optional arguments:")
WRITTEN_BY = "packaging/options.py writes this file."

# What completes the value of an option; all other values are texts.
KINDS = {
    "TYPES": "types",
    "FOLDER": "folders",
    **dict.fromkeys(("FILE", "LIST", "OUTPUT", "INDEX", "RECORD"), "files"),
    "FORMAT": "formats",
}
FORMATS = "sarif"


@dataclass(frozen=True)
class Option:
    """An option as a help has it: what it takes, if anything, and what it does, as sentences."""

    short: Optional[str]
    name: str
    value: Optional[str]
    about: str

    @property
    def names(self):
        return [name for name in (self.short, self.name) if name]

    @property
    def kind(self):
        """What completes its value; none where it takes no value."""
        return None if self.value is None else KINDS.get(self.value, "texts")


@dataclass
class Help:
    """What the help on a program or on one of its commands says, and which other words it takes."""

    commands: Dict[str, str]
    options: List[Option]
    takes_files: bool
    words: str = ""

    @property
    def names(self):
        return [name for option in self.options for name in option.names]


@dataclass
class Command:
    """A program: its name, its own help, and that on each command."""

    name: str
    top: Help
    helps: Dict[str, Help]

    @property
    def all_helps(self):
        return [("", self.top), *self.helps.items()]


# ---- help


def sentences(text):
    """A line of help as sentences."""
    default = re.search(r" \[default: ([^\]]*)\]$", text)
    if default:
        text = text[: default.start()]
    text = text[:1].upper() + text[1:].rstrip(".").replace("`", "") + "."
    return f"{text} The default is {default.group(1)}." if default else text


def rows(text, pattern, titles):
    """The rows of a section of a help, each with the lines that go on with it."""
    inside, found = False, []
    for line in text.split("\n"):
        if not line.strip():
            inside = False
        elif line in titles:
            inside = True
        elif inside and pattern.match(line):
            found.append(list(pattern.match(line).groups()))
        elif inside and found and line.startswith("      "):
            found[-1][-1] = " ".join(filter(None, [found[-1][-1], line.strip()]))
    return found


def parsed(text):
    commands = {name: sentences(about) for name, about in rows(text, COMMAND, COMMAND_TITLES)}
    options = [
        Option(short, name, value, sentences(about or ""))
        for short, name, value, about in rows(text, OPTION, OPTION_TITLES)
    ]
    return Help(
        commands, options, bool(re.search(r"^ *(?:usage|Usage): .*\b(?:FILE|INDEX)\b", text, re.M))
    )


def read(name, words):
    """The program and its commands, by their help."""
    settings = {"COLUMNS": "1000", "PYTHONPATH": str(ROOT / "python")}

    def help_on(*more):
        ran = subprocess.run(
            [*words, *more, "--help"],
            stdout=subprocess.PIPE,
            check=True,
            env={**os.environ, **settings},
        )
        return parsed(ran.stdout.decode("utf-8"))

    top = help_on()
    command = Command(name, top, {each: help_on(each) for each in top.commands if each != "help"})
    readers = [each for each in command.helps.values() if each.takes_files] or [top]
    if len(command.helps) < 3 or any(len(each.options) < 2 for each in readers):
        sys.exit(f"options.py: the help of {name} is not understood")
    return command


def of_package():
    """The command of the package, by its table of options."""
    sys.path.insert(0, str(ROOT / "python"))
    from cityseq.cli.options import options_of
    from cityseq.cli.requests import COMMANDS, TOP, told

    help_option = Option("-h", "--help", None, "Print help.")
    top = [Option(*names.split(", "), None, sentences(text)) for names, text in TOP]
    helps = {}
    for command in COMMANDS.values():
        options = [
            Option(
                f"-{each.short}" if each.short else None,
                f"--{each.name}",
                each.value,
                sentences(each.about),
            )
            for each in options_of(command)
        ]
        takes_codes = command.operands == "[CODE]"
        takes_files = "[" in command.operands and not takes_codes
        words = codes() if takes_codes else ""
        helps[command.command] = Help({}, [*options, help_option], takes_files, words)
    abouts = {name: sentences(told(command)[0]) for name, command in COMMANDS.items()}
    abouts["help"] = "Print this help, or the help on a command."
    return Command("cityseq-run", Help(abouts, top, False), helps)


def codes():
    """The codes of reasons, as one text."""
    reasons = json.loads((ROOT / "python/cityseq/reasons.json").read_text(encoding="utf-8"))
    return " ".join(sorted(reasons, key=int))


def types():
    """The types of city objects, in the order of their table."""
    source = (ROOT / "crates/cj_geometry/src/object_type.rt").read_text(encoding="utf-8")
    return re.findall(r'ObjectType::(\w+) => "\1"', source)


# ---- manual pages


def roff(text):
    """Sentences as lines of a manual page."""
    lines = [
        line
        for each in re.split(r"(?<=[.;]) (?=[A-Z])", text.replace("\\", "\\e"))
        for line in textwrap.wrap(each, 76, break_on_hyphens=False, break_long_words=False)
    ]
    hyphens = re.compile(r"(?<![\w\\])-(?=[-\w])")
    return "\n".join(
        ("\\&" if line[0] in ".'" else "") + hyphens.sub(r"\\-", line) for line in lines
    )


def item(option):
    """An option as an item of a list. A box is written with '=', as it may begin with a minus."""
    head = f"{option.short[1:]} , Fl " if option.short else ""
    shown = "" if option.value is None else f" Ar {option.value.lower()}"
    if option.name == "--bbox":
        shown = " Ns = Ns" + shown
    return f".It Fl {head}\\-{option.name[2:]}{shown}\n{roff(option.about)}"


def title(names):
    if names == ("",):
        return "Options without a command"
    return "Options of " + " and ".join(filter(None, [", ".join(names[:-1]), names[-1]]))


def listed(items):
    return "\n".join([".Bl -tag -width Ds", *items, ".El"])


def option_text(command):
    """The options, those together that the same commands have."""
    owners, groups = {}, {}
    for name, help_on in command.all_helps:
        for option in help_on.options:
            if option.name != "--help" or name == "":
                owners.setdefault(option, []).append(name)
    for option, names in owners.items():
        groups.setdefault(tuple(names), []).append(option)
    ordered = sorted(groups.items(), key=lambda group: group[0] == ("",))
    return "\n".join(
        f".Ss {title(names)}\n{listed(map(item, options))}" for names, options in ordered
    )


def page(command):
    """The manual page, with its commands and options as they are."""
    text = (MAN / f"{command.name}.1").read_text(encoding="utf-8")
    items = [f".It Cm {name}\n{roff(about)}" for name, about in command.top.commands.items()]
    for mark, body in (("commands", listed(items)), ("options", option_text(command))):
        before, rest = text.split(f'.\\" {mark}\n', 1)
        text = f'{before}.\\" {mark}\n{body}\n.\\" end\n' + rest.split('.\\" end\n', 1)[1]
    return text


# ---- completions


def wrapped(words, indent):
    return textwrap.fill(
        " ".join(words), 96, initial_indent=indent, subsequent_indent=indent, break_on_hyphens=False
    )


def brief(text):
    """The first part of a sentence, for a line of a list."""
    return re.split(r"[.;,:] |\.$", text)[0].translate(str.maketrans("[]", "()", "'"))


BASH = """\
# Completion of {name} for bash. {written}

{function}() {{
  local current=${{COMP_WORDS[COMP_CWORD]}} before='' options='' files='' types
  types='
{types}'
  COMPREPLY=()
  if [ "$COMP_CWORD" = 1 ]; then
    options='{top}'
    mapfile -t COMPREPLY < <(compgen -W "$options" -- "$current")
    return
  fi
  case ${{COMP_WORDS[COMP_CWORD - 1]}} in
    --type)
      # the last item of a list with commas
      [[ $current != *,* ]] || before=${{current%,*}},
      mapfile -t COMPREPLY < <(compgen -P "$before" -W "$types" -- "${{current##*,}}")
      return
      ;;
{values}
  esac
  case ${{COMP_WORDS[1]}} in
{cases}
    help) options='{commands}' ;;
  esac
  if [ -n "$files" ] && [[ $current != -* ]]; then
    mapfile -t COMPREPLY < <(compgen -f -- "$current")
  else
    mapfile -t COMPREPLY < <(compgen -W "$options" -- "$current")
  fi
}}

complete -o default{filenames} -F {function} {name}
"""


def bash_values(command):
    """The cases of options that take a value, by what completes it."""
    kinds = {}
    for _, help_on in command.all_helps:
        for option in help_on.options:
            names = kinds.setdefault(option.kind, [])
            names += [name for name in option.names if name not in names]
    for kind, done in (
        ("folders", 'mapfile -t COMPREPLY < <(compgen -d -- "$current")'),
        ("files", 'mapfile -t COMPREPLY < <(compgen -f -- "$current")'),
        ("formats", f"mapfile -t COMPREPLY < <(compgen -W '{FORMATS}' -- \"$current\")"),
        ("texts", None),
    ):
        if kind in kinds:
            steps = f"      {done}\n      return" if done else "      return"
            yield f"    {' | '.join(kinds[kind])})\n{steps}\n      ;;"


def bash(command):
    cases = [
        f"    {name})\n      options='\n{wrapped([*help_on.names, help_on.words], '        ')}'\n"
        f"      files={'yes' if help_on.takes_files else ''}\n      ;;"
        for name, help_on in command.helps.items()
    ]
    takes_files = any(help_on.takes_files for help_on in command.helps.values())
    return BASH.format(
        name=command.name,
        written=WRITTEN_BY,
        function="_" + command.name.replace("-", "_"),
        types=wrapped(types(), "    "),
        top=" ".join([*command.top.commands, *command.top.names]),
        values="\n".join(bash_values(command)),
        cases="\n".join(cases),
        commands=" ".join(command.helps),
        filenames=" -o filenames" if takes_files else "",
    )


ZSH = """\
#compdef {name}
# Completion of {name} for zsh. {written}

local -a commands options arguments types
commands=(
{commands}
)
options=(
{options}
)
types=(
{types}
)

if (( CURRENT == 2 )); then
  if [[ $PREFIX == -* ]]; then
    _describe -o option options
  else
    _describe command commands
  fi
  return
fi
case $words[2] in
{cases}
  help)
    _describe command commands
    return
    ;;
esac
shift words
(( CURRENT-- ))
_arguments -s $arguments
"""
ZSH_ACTIONS = {
    "types": "_values -s , type $types",
    "folders": "_files -/",
    "files": "_files",
    "formats": f"({FORMATS})",
    "texts": "",
}


def zsh_argument(option):
    name = option.name + ("=" if option.name == "--bbox" else "")
    about = f"[{brief(option.about)}]"
    if option.kind:
        about += f":{option.value.lower().replace(',', ' ')}:{ZSH_ACTIONS[option.kind]}"
    if option.short:
        return f"'({option.short} {name})'{{{option.short},{name}}}'{about}'"
    return f"'{name}{about}'"


def zsh_case(name, help_on):
    arguments = [zsh_argument(option) for option in help_on.options]
    if help_on.takes_files:
        arguments.append("'*:stream:_files'")
    if help_on.words:
        arguments.append(f"'1:code:({help_on.words})'")
    body = "\n".join(f"      {argument}" for argument in arguments)
    return f"  {name})\n    arguments=(\n{body}\n    )\n    ;;"


def zsh(command):
    commands = [f"  '{name}:{brief(about)}'" for name, about in command.top.commands.items()]
    options = [
        f"  '{name}:{brief(option.about)}'"
        for option in command.top.options
        for name in option.names
    ]
    cases = [zsh_case(name, help_on) for name, help_on in command.helps.items()]
    return ZSH.format(
        name=command.name,
        written=WRITTEN_BY,
        commands="\n".join(commands),
        options="\n".join(options),
        types=wrapped(types(), "  "),
        cases="\n".join(cases),
    )


def fish_option(start, option, variable):
    values = {
        "types": f" -x -a '(__fish_complete_list , \"string join \\n ${variable}\")'",
        "folders": " -x -a '(__fish_complete_directories)'",
        "files": " -r -F",
        "formats": f" -x -a '{FORMATS}'",
        "texts": " -x",
        None: "",
    }
    short = f" -s {option.short[1:]}" if option.short else ""
    name = f"{short} -l {option.name[2:]}"
    return f"{start}{name}{values[option.kind]} -d '{brief(option.about)}'"


def fish(command):
    start = f"complete -c {command.name}"
    variable = f"__{command.name.replace('-', '_')}_types"
    without = f'{start} -n "not __fish_seen_subcommand_from $commands"'
    lines = [
        f"# Completion of {command.name} for fish. {WRITTEN_BY}",
        "",
        f"set -l commands {' '.join(command.top.commands)}",
        f"set -g {variable} \\",
        wrapped(types(), "    ").replace("\n", " \\\n"),
        "",
        f"{without} -f",
    ]
    lines += [
        f"{without} -a {name} -d '{brief(about)}'" for name, about in command.top.commands.items()
    ]
    lines += [fish_option(without, option, variable) for option in command.top.options]
    for name, help_on in command.helps.items():
        within = f"{start} -n '__fish_seen_subcommand_from {name}'"
        lines += ["", f"{within} {'-F' if help_on.takes_files else '-f'}"]
        lines += [fish_option(within, option, variable) for option in help_on.options]
        lines += [f"{within} -a '{help_on.words}'"] if help_on.words else []
    within = f"{start} -n '__fish_seen_subcommand_from help'"
    return "\n".join([*lines, "", f"{within} -f -a '{' '.join(command.helps)}'"]) + "\n"


# ---- the guide


def shown_helps(command, words):
    """The help of a program and of its commands, as blocks of a document that tests run."""
    for more in ([], *([name] for name in command.helps)):
        ran = subprocess.run([*words, *more, "--help"], stdout=subprocess.PIPE, check=True)
        line = " ".join([command.name, *more, "--help"])
        yield f"```console\n$ {line}\n{ran.stdout.decode('utf-8')}```\n"


def table_row(option, owners):
    """A row of a table: the option, what it does, and the commands that have it."""
    value = "" if option.value is None else f" {option.value}"
    names = ", ".join([*(f"`{name}`" for name in option.names[:-1]), f"`{option.name}{value}`"])
    about = re.sub(r"([|*<>])", r"\\\1", option.about)
    return f"| {names} | {about} | {', '.join(f'`{name}`' for name in owners)} |"


def table(command):
    """The options of all commands as a table."""
    owners = {}
    for name, help_on in command.helps.items():
        for option in help_on.options:
            if option.name != "--help":
                owners.setdefault(option, []).append(name)
    rows_of_all = [table_row(option, names) for option, names in owners.items()]
    head = ["| Option | What it does | Commands |", "|---|---|---|"]
    return "\n".join([*head, *rows_of_all]) + "\n"


def guide(program, words, package):
    """The guide, with the help of the program and the options of the package as they are."""
    text = GUIDE.read_text(encoding="utf-8")
    before, rest = text.split(GUIDE_MARKS[0], 1)
    helps = "\n".join(shown_helps(program, words))
    body = f"\n### {program.name}\n\n{helps}\n### {package.name}\n\n{table(package)}"
    return "".join([before, GUIDE_MARKS[0], body, GUIDE_MARKS[1], rest.split(GUIDE_MARKS[1], 1)[1]])


# ---- files


def files(command):
    """The files of a command, and what they hold."""
    yield MAN / f"{command.name}.1", page(command)
    yield COMPLETIONS / f"{command.name}.bash", bash(command)
    yield COMPLETIONS / f"_{command.name}", zsh(command)
    yield COMPLETIONS / f"{command.name}.fish", fish(command)


def main():
    words = [word for word in sys.argv[1:] if word != "--write"]
    program = os.path.abspath(words[0]) if words else str(ROOT / "crates/cityseq/out/cityseq")
    passed = failed = 0
    of_program, package = read("cityseq", [program]), of_package()
    written = [*files(of_program), *files(package), (GUIDE, guide(of_program, [program], package))]
    for path, text in written:
        if "--write" in sys.argv:
            path.write_text(text, encoding="utf-8")
        if path.is_file() and path.read_text(encoding="utf-8") == text:
            passed += 1
        else:
            failed += 1
            print(f"{path.relative_to(ROOT)} differs from help: run packaging/options.py --write")
    print(f"{passed} passed, {failed} failed")
    sys.exit(1 if failed else 0)


if __name__ == "__main__":
    main()
