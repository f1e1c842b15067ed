#!/usr/bin/env python3
"""Tries the library for C by the program of tests/capi/library.c: tests/capi/library.py LIBRARY_TEST PROGRAM

Each vector is judged whole, cut in two behind each LF, and line by line; the answer has to be that of the table. Random streams
are judged the same way, and by the program `cityseq`, which has to answer the same. The last line is 'N passed, M failed'."""
import os
import random
import re
import sys

HERE = os.path.dirname(os.path.abspath(__file__))
sys.path.insert(0, os.path.join(HERE, "..", "..", "vectors"))
from table import cases, run, wanted_of  # noqa: E402

HEADER = (
    b'{"type":"CityJSON","version":"2.0","transform":{"scale":[0.5,1,1e-3],"translate":[0,-7,0.25]},'
    b'"CityObjects":{},"vertices":[]}'
)
FEATURE = (
    b'{"type":"CityJSONFeature","id":"%s","CityObjects":{"%s":{"type":"%s","geometry":[{"type":"MultiPoint",'
    b'"lod":"%s","boundaries":[0,%d]}]}},"vertices":[[%d,0,0],[1,%d,-2]]}'
)
TYPES = (b"Building", b"Road", b"TunnelPart", b"Castle", b"+Shed")
LODS = (b"0", b"1.2", b"2", b"x")
OPTIONS = (
    [],
    ["--keep-going"],
    ["--type", "Road,Building"],
    ["--keep-going", "--lod", "1.2"],
    ["--bbox=0,-10,3,10", "--exclude", "--keep-going"],
    ["--id", "a,c", "--tree"],
    ["--keep-going", "--extensions"],
    ["--keep-going", "--extensions", "--type", "+Shed,Road"],
)
STREAMS = 300


def random_line(chance):
    """A feature, which may be wrong, a blank line, or what is no JSON at all."""
    kind = chance.randrange(20)
    if kind == 0:
        return chance.choice([b"", b" \t", b"\r"])
    if kind == 1:
        return chance.choice([b"{", b"[]", b"\xff", b'{"type":"CityJSONFeature"}', b"[" * 70])
    name = chance.choice([b"a", b"b", b"c"])
    worst = chance.choice([1, 1, 1, 1, 1, 1, 2])
    types = TYPES if chance.random() < 0.1 else TYPES[:3]
    text = FEATURE % (
        name,
        name,
        chance.choice(types),
        chance.choice(LODS),
        worst,
        chance.randrange(-9, 9),
        chance.randrange(99),
    )
    return text + chance.choice([b"", b"", b"\r"])


def random_stream(chance):
    """A header, some lines, and perhaps no LF behind the last one."""
    lines = [HEADER if chance.random() < 0.97 else b"{}"]
    lines += [random_line(chance) for _ in range(chance.randrange(12))]
    return b"\n".join(lines) + chance.choice([b"", b"\n"])


def told(text):
    """The line, the byte and the code in what the program says of a line."""
    return re.match(rb"line (\d+), byte (\d+): (\d+) ", text).groups()


def ending(answer):
    """The status, and the line, byte and code of an answer of the library."""
    status, code, line, place = answer[:4]
    return status, (line, place, code) if status == b"1" else None


def parse(written):
    """An answer of the library's test: its numbers, the reports and the output."""
    first, rest = written.split(b"\n", 1)
    answer = first.split(b" ")
    reports = []
    for _ in range(int(answer[6])):
        report, rest = rest.split(b"\n", 1)
        reports.append(tuple(report.split(b" ")))
    return answer, reports, rest


def try_vector(test, case):
    """What of a vector comes out otherwise."""
    query = [] if case["query"] == "-" else case["query"].split(" ")
    written, said, status = run([test, case["line limit"], case["depth"], *query], case["text"])
    if status != 0:
        return [said]
    answer, _, output = parse(written)
    wanted, fault, _ = wanted_of(case)
    line = (b"1", told(fault)) if fault else (b"0", None)
    wrong = [] if output == wanted else [f"output {output!r}"]
    wrong += [] if ending(answer) == line else [f"ending {answer}"]
    wrong += [] if answer[4].decode() == case["lines"] else [f"lines {answer[4]}"]
    if case["peaks"] != "-" and b" ".join(answer[7:10]).decode() != case["peaks"]:
        wrong.append(f"peaks {answer[7:10]}")
    return wrong


def try_random(test, program, number):
    """What of a random stream the library answers otherwise than the program."""
    chance = random.Random(number)
    text, options = random_stream(chance), chance.choice(OPTIONS)
    limit = chance.choice(["8388608", "150"])
    written, said, status = run([test, limit, "64", *options], text)
    if status != 0:
        return [said]
    answer, reports, output = parse(written)
    wanted, faults, _ = run([program, "filter", "--line-limit", limit, *options], text)
    lines = [told(line) for line in faults.splitlines()]
    status, last = ending(answer)
    got = reports + ([last] if last else [])
    wrong = [] if output == wanted else [f"output {output!r}, not {wanted!r}"]
    return wrong + ([] if got == lines else [f"faults {got}, not {lines}"])


def main(test, program):
    passed = failed = 0
    tried = [(case["name"], try_vector(test, case)) for case in cases()]
    tried += [
        (f"random stream {number}", try_random(test, program, number)) for number in range(STREAMS)
    ]
    for name, wrong in tried:
        for difference in wrong:
            print(f"{name}: {difference}")
        passed, failed = passed + (not wrong), failed + bool(wrong)
    print(f"{passed} passed, {failed} failed")
    return int(failed > 0)


if __name__ == "__main__":
    sys.exit(main(*sys.argv[1:]) if len(sys.argv) == 3 else __doc__)
