"""Runs the scripts of a folder by their names, for tests/run and bench/run."""
import os
import re
import subprocess
import sys

SUFFIXES = (".sh", ".py")  # of two scripts with one name, the first counts


def scripts(folder, kinds=()):
    """Returns the path of each script by its name. It can be executed, or it is NAME/run.sh. Those
    of a folder of a kind are named KIND/NAME."""
    found = {}
    names = os.listdir(folder)
    for kind in kinds:
        names += [f"{kind}/{name}" for name in os.listdir(os.path.join(folder, kind))]
    for name in sorted(names):
        path = os.path.join(folder, name)
        if os.path.isfile(os.path.join(path, "run.sh")):
            found[name] = os.path.join(path, "run.sh")
        stem, suffix = os.path.splitext(name)
        if suffix in SUFFIXES and os.access(path, os.X_OK):
            if SUFFIXES.index(suffix) == 0 or stem not in found:
                found[stem] = path
    return found


def summary(path):
    """Returns the first sentence of what a script says about itself."""
    with open(path, encoding="utf-8") as file:
        head = file.read(2_000)
    if path.endswith(".py"):
        text = head.partition('"""')[2].partition('"""')[0].partition("\n\n")[0]
    else:
        lines = re.match(r"#!.*\n((?:# .*\n)+)", head)
        text = "" if lines is None else lines.group(1).replace("\n# ", " ")[2:]
    sentence = re.match(r".*?(?=[.:](?:\s|$)|$)", " ".join(text.split()))
    return sentence.group() if sentence else ""


def runs(words):
    """Yields the words of each run. `--` separates them."""
    while words:
        end = words.index("--") if "--" in words else len(words)
        yield words[:end]
        words = words[end + 1 :]


def main(folder, words, kinds=()):
    """Runs scripts by name, and returns the greatest status. Lists all without a name."""
    found = scripts(folder, kinds)
    wanted = list(runs(words))
    unknown = [name for name, *_ in wanted if name not in found]
    if unknown or not wanted:
        width = max(map(len, found))
        lines = [f"  {name:<{width}}  {summary(path)}" for name, path in sorted(found.items())]
        usage = f"{os.path.basename(folder)}/run NAME [ARGUMENT..] [-- NAME [ARGUMENT..]]..."
        print(
            *(f"no {name}" for name in unknown),
            f"Usage: {usage}",
            "",
            *lines,
            sep="\n",
            file=sys.stderr if unknown else sys.stdout,
        )
        return 2 if unknown else 0
    status = 0
    for name, *arguments in wanted:
        path = found[name]
        python = [os.environ.get("PYTHON", sys.executable)] if path.endswith(".py") else []
        status = max(status, subprocess.run([*python, path, *arguments]).returncode)
    return status
