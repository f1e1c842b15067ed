"""The vectors' table, with the bytes of each stream, and what has to come of them."""
import os
import subprocess

HERE = os.path.dirname(os.path.abspath(__file__))
COLUMNS = ("name", "line limit", "depth", "query", "answer", "lines", "written", "peaks")


def cases():
    """The test cases of the table, each with the bytes of its stream."""
    with open(os.path.join(HERE, "table.tsv"), encoding="utf-8") as table:
        names, *lines = [line.rstrip("\n").split("\t") for line in table]
    assert tuple(names) == COLUMNS, names
    for line in lines:
        case = dict(zip(COLUMNS, line))
        with open(os.path.join(HERE, case["name"] + ".jsonl"), "rb") as stream:
            case["text"] = stream.read()
        yield case


def run(command, text, environment=None):
    """What a command writes, says and answers on a stream, with these variables alone or with all that this program has."""
    ran = subprocess.run(command, input=text, capture_output=True, timeout=60, env=environment)
    return ran.stdout, ran.stderr, ran.returncode


def wanted_of(case):
    """What `filter` has to write, to say and to answer."""
    *ended, last = case["text"].split(b"\n")
    lines = [line + b"\n" for line in ended] + [last]
    kept = [] if case["written"] == "-" else [int(number) for number in case["written"].split(",")]
    complete = case["answer"] == "complete"
    return (
        b"".join(lines[number - 1] for number in kept),
        b"" if complete else case["answer"].encode() + b"\n",
        int(not complete),
    )
