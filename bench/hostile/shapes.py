#!/usr/bin/env python3
"""Times `cityseq check`, `cityseq info` and `cityseq filter --lod 2` on lines that are made to cost, and `check --tree` on trees
that are, each of several lengths, beside a usual line of the same length: shapes.py PROGRAM MEETING SECONDS [WORD]. Of several
commands the dearest beside its usual line is shown. MEETING is the program of meeting.c. A run that takes more than SECONDS is
ended, and no longer line of its shape is tried. With a WORD only shapes whose names have it are measured. Times are of the
processor, so that other work on the machine does not count but for the memory it takes; what the program takes to start is in
them."""
import fractions
import functools
import itertools
import json
import os
import random
import resource
import subprocess
import sys
import tempfile

LENGTHS = (125_000, 1_000_000, 8_000_000)
RUNS = 3
COMMANDS = (("check",), ("info",), ("filter", "--lod", "2"))
TREE_COMMANDS = (("check", "--tree"),)
LETTERS = "-0123456789ABCDEFGHIJKLMNOPQRSTUVWXYZ_abcdefghijklmnopqrstuvwxyz"
HEADER = (
    '{"type":"CityJSON","version":"2.0","transform":{"scale":[1,1,1],"translate":[0,0,0]},'
    '"CityObjects":{},"vertices":[]%s}\n'
)
PART = '{"type":"BuildingPart","parents":["b"]}'


def many(length, item):
    """Items from the 0th on, with commas between them, of about so many bytes together."""
    parts, taken = [], 0
    while taken < length:
        parts.append(item(len(parts)))
        taken += len(parts[-1].encode()) + 1
    return ",".join(parts)


def spread(letters, bits, low):
    """A text of so many bits of a number, the lowest first or last."""
    return "".join(letters[bits >> i & 1] for i in (range(24) if low else reversed(range(24))))


def feature(objects, vertices="", more=""):
    """A feature, whose id is `b`, with these city objects beside one of that name."""
    return f'{{"type":"CityJSONFeature","id":"b","CityObjects":{{{objects}}},"vertices":[{vertices}]{more}}}\n'


def building(more=""):
    """The city object `b`, with more members."""
    return f'"b":{{"type":"Building"{more}}}'


def geometry(boundaries, more="", kind="MultiSurface"):
    """The city object `b` with a geometry of these boundaries."""
    return building(
        f',"geometry":[{{"type":"{kind}","lod":"2","boundaries":[{boundaries}]{more}}}]'
    )


def name(i):
    """An unread member."""
    return f'"name {i}":0'


def short_text(i):
    """A text of four letters, in rising order."""
    return "".join(LETTERS[i >> 6 * place & 63] for place in (3, 2, 1, 0))


def against_medians(count):
    """Numbers in an order in which the median of the first, the middle and the last is always nearly the least."""
    half, numbers = count // 2, [0] * count
    for i in range(1, half + 1):
        if i % 2:
            numbers[i - 1] = i - 1
            numbers[i] = half + i - 1
        numbers[half + i - 1] = 2 * i - 1
    rest = iter(sorted(set(range(count)) - set(numbers)))
    seen = set()
    for place, number in enumerate(numbers):
        if number in seen:
            numbers[place] = next(rest)
        seen.add(number)
    return numbers


def in_order(order, count):
    """The numbers below `count`, in an order that has a name."""
    numbers = list(range(count))
    if order == "falling":
        numbers.reverse()
    elif order == "none":
        random.Random(1).shuffle(numbers)
    elif order == "up and down":
        numbers = numbers[::2] + numbers[1::2][::-1]
    elif order == "medians":
        numbers = against_medians(count)
    return numbers


def short_names(n, order, before="", spell=str):
    """Unread members of the feature, as many as there is room for, in an order."""
    count = n // len(f'"{spell(before + short_text(0))}":1,')
    return feature(
        building(),
        more="," + ",".join(f'"{spell(before + short_text(i))}":1' for i in in_order(order, count)),
    )


def escaped(text):
    """A text with each letter as an escape."""
    return "".join(f"\\u{ord(letter):04x}" for letter in text)


def parts(ids, order, spell=str):
    """Parts of these names, which one building lists in an order, each with that one as its parent."""
    listed = ",".join(f'"{spell(ids[i])}"' for i in in_order(order, len(ids)))
    each = ",".join(f'"{ids[i]}":{PART}' for i in in_order("none", len(ids)))
    return feature(building(f',"children":[{listed}]') + "," + each)


def parts_of_one(n, order, before="", spell=str, after=""):
    """Parts that one building lists, in an order, each with that one as its parent."""
    count = n // (2 * len(spell(before + short_text(0) + after)) + len(PART) + 8)
    return parts([before + short_text(i) + after for i in range(count)], order, spell)


def parts_of_one_tag(n):
    """Parts whose names all have the tag by which the texts of links are ordered first, which one building lists."""
    return parts(found("tag", n // (2 * 9 + len(PART) + 8)), "none")


def parents_of_none(n, order, before=""):
    """A part of which the last of many parents alone is in the feature, beside many city objects."""
    count = n // 2 // (len(before) + 7)
    listed = ",".join(f'"{before}{short_text(i)}"' for i in in_order(order, count))
    part = f'"p":{{"type":"BuildingPart","parents":[{listed},"b"]}}'
    others = ",".join(
        f'"{before}~{short_text(i)}":{{"type":"Road"}}'
        for i in in_order("none", n // 2 // (len(before) + 25))
    )
    return feature(building(',"children":["p"]') + "," + part + "," + others)


def all_of_all(n, around="", times=1):
    """Buildings that all list each other and themselves, so many times, by names that are alike at both ends."""
    count = round((n / 2 / times / (len(around) * 2 + 5)) ** 0.5)
    ids = [f'"{around}{short_text(i)[2:]}{around}"' for i in range(count)]
    listed = ",".join(ids * times)
    each = f'{{"type":"Building","children":[{listed}],"parents":[{listed}]}}'
    return feature(building() + "," + ",".join(f"{i}:{each}" for i in ids))


def parents_in_turn(n):
    """A building of a long name that lists two parents in turn, again and again."""
    long, other = "a" * (n // 8), '{"type":"Building","children":["%s"]}'
    listed = ",".join(['"p","q"'] * (n * 5 // 8 // 8))
    return feature(
        building()
        + f',"p":{other % long},"q":{other % long},"{long}":{{"type":"Building","parents":[{listed}]}}'
    )


def links_of_one_hash(n):
    """Parts whose names all have one hash of 64 bits, which one building lists."""
    count = next(count for count in itertools.count(1) if 2**count * (16 * count + 45) > n)
    texts = [
        "".join(text)
        for text in itertools.product(*(pair.split(" ") for pair in found("whole", count)))
    ]
    texts = texts[: n // (16 * count + 45)]
    parts = ",".join(f'"{text}":{{"type":"BuildingPart","parents":["b"]}}' for text in texts)
    return feature(
        building(f',"children":[{",".join(chr(34) + text + chr(34) for text in texts)}]')
        + ","
        + parts
    )


def small_features(n):
    """Features of one instance each, of templates far apart in the list."""
    matrix, count = ",".join(["1"] * 16), n // 2 // 65
    line = (
        '{{"type":"CityJSONFeature","id":"b","CityObjects":{{"b":{{"type":"Building","geometry":[{{"type":'
        '"GeometryInstance","template":{},"boundaries":[0],"transformationMatrix":['
        + matrix
        + ']}}]}}}},"vertices":[[0,0,0]]}}\n'
    )
    return "".join(line.format(count - 1 - i * 7919 % (count // 2)) for i in range(n // 2 // 230))


def usual(n):
    count = n // 72
    surfaces = ",".join(
        f"[[{i % count},{i * 7 % count},{i * 31 % count}]]" for i in range(2 * count)
    )
    values = ",".join(str(i % 3) for i in range(2 * count))
    kinds = ",".join(f'{{"type":"{kind}Surface"}}' for kind in ("Ground", "Roof", "Wall"))
    semantics = f',"semantics":{{"surfaces":[{kinds}],"values":[[{values}]]}}'
    points = ",".join(
        f"[{i * 7919 % 1000000},{i * 104729 % 1000000},{i * 31 % 30000}]" for i in range(count)
    )
    return feature(geometry(f"[{surfaces}]", semantics, "Solid"), points)


def many_surfaces(n):
    semantics = f',"semantics":{{"surfaces":[{many(n, lambda i: json.dumps({"type": "+Part"}))}],"values":[0]}}'
    return feature(geometry("[[0,0,0]]", semantics), "[0,0,0]")


def one_parent(n, backwards=False):
    count = n // 60
    ids = [f'"p{i:06}"' for i in range(count)]
    listed = reversed(ids) if backwards else ids
    parts = ",".join(f'{i}:{{"type":"BuildingPart","parents":["b"]}}' for i in ids)
    return feature(building(f',"children":[{",".join(listed)}]') + "," + parts)


def chain(n):
    count = n // 78
    parts = ",".join(
        f'"p{i}":{{"type":"BuildingPart","parents":["{f"p{i - 1}" if i else "b"}"],"children":[{f"{chr(34)}p{i + 1}{chr(34)}" if i + 1 < count else ""}]}}'
        for i in range(count)
    )
    return feature(building(',"children":["p0"]') + "," + parts)


def pairs_again(n):
    again = n // 8
    children, parents = ",".join(['"q"'] * again), ",".join(['"b"'] * again)
    parts = f'"p":{{"type":"BuildingPart","parents":[{parents}]}},"q":{{"type":"BuildingPart","parents":["b"]}}'
    return feature(building(f',"children":[{children},"p"]') + "," + parts)


def pairs_in_turn(n):
    again = n // 16
    children, parents = ",".join(['"q","r"'] * again), ",".join(['"b","c"'] * again)
    each = f'{{"type":"BuildingPart","parents":[{parents}]}}'
    few = '{"type":"BuildingPart","parents":["b"]}'
    return feature(
        building(f',"children":[{children},"p"]')
        + f',"c":{{"type":"Building","children":["p"]}},"p":{each},"q":{few},"r":{few}'
    )


def absent_parents(n):
    half = many(n // 2, lambda i: f'"p{i}":{{"type":"Building"}}')
    return feature(
        building(f',"parents":[{many(n // 2, lambda i: f"{chr(34)}q{i}{chr(34)}")}]') + "," + half
    )


def absent_children(n):
    half = many(n // 2, lambda i: f'"p{i}":{{"type":"Building"}}')
    group = f'"g":{{"type":"CityObjectGroup","children":[{many(n // 2, lambda i: f"{chr(34)}q{i}{chr(34)}")}]}}'
    return feature(building() + "," + group + "," + half)


MEETING = "meeting"  # the program of meeting.c, unless it is told


def found(kind, count):
    """So many lines of the program of meeting.c."""
    return subprocess.run(
        [MEETING, kind, str(count)], capture_output=True, text=True, check=True
    ).stdout.splitlines()


def names_of_few_marks(n):
    """Names whose marks are nearly all set by a block of them."""
    return ",".join(f'"{text}":0' for text in found("marks", n // 11))


def names_of_one_hash(n):
    """Names that all have one hash of 64 bits: one of each pair of texts, in order."""
    count = next(count for count in itertools.count(1) if 2**count * (8 * count + 5) > n)
    pairs = [pair.split(" ") for pair in found("whole", count)]
    texts = itertools.product(*pairs)
    return many(n, lambda i: f'"{"".join(next(texts))}":0')


def hanging(objects, order):
    """City objects, each a name with its children and with its parents, in an order, behind `b`, which lists the first."""
    each = ",".join(
        '"%s":{"type":"BuildingPart","parents":[%s],"children":[%s]}'
        % (objects[i][0], *(",".join(f'"{text}"' for text in listed) for listed in objects[i][1:]))
        for i in in_order(order, len(objects))
    )
    return feature(building(f',"children":["{objects[0][0]}"]') + "," + each)


def chain_in(n, order, spell=str):
    """A chain of city objects, each of which lists the next one, in an order."""
    count = n // (3 * len(spell("p000000")) + 57)
    ids = [spell(f"p{i:06}") for i in range(count)]
    return hanging(
        [(ids[i], ids[max(i - 1, 0) : i] or ["b"], ids[i + 1 : i + 2]) for i in range(count)], order
    )


def comb(n, order):
    """A chain of which each city object also lists one that lists none, in an order."""
    count = n // 2 // 80
    teeth = [(f"q{i:06}", [f"p{i:06}"], []) for i in range(count)]
    back = [
        (
            f"p{i:06}",
            [f"p{i - 1:06}" if i else "b"],
            [f"q{i:06}"] + [f"p{i + 1:06}"] * (i + 1 < count),
        )
        for i in range(count)
    ]
    return hanging(back + teeth, order)


def one_of_all(n, order):
    """A child that all others list, in an order; the first of these lists the others."""
    count = n // 100
    ids = [f"p{i:06}" for i in range(count)]
    first = [(ids[0], ["b"], ids[1:] + ["q"]), ("q", ids, [])]
    return hanging(first + [(text, [ids[0]], ["q"]) for text in ids[1:]], order)


def groups(n, order):
    """A group in which a group is, and so on, in an order."""
    count = n // 60
    each = ",".join(
        f'"g{i:06}":{{"type":"CityObjectGroup","children":["g{i + 1:06}"]}}'
        for i in in_order(order, count - 1)
    )
    last = f'"g{count - 1:06}":{{"type":"CityObjectGroup","children":["b"]}}'
    return feature('"b":{"type":"CityObjectGroup","children":["g000000"]},' + last + "," + each)


def half_listed(ids):
    """A group that lists half of the city objects, in no order."""
    order = in_order("none", len(ids))
    listed = ",".join(f'"{ids[i]}"' for i in order[::2])
    each = ",".join(f'"{text}":{{"type":"Road"}}' for text in ids)
    return feature(f'"b":{{"type":"CityObjectGroup","children":[{listed}]}},' + each)


def reduced(basis):
    """A basis of the same lattice whose vectors are short (Lenstra, Lenstra and Lovasz)."""

    def dot(left, right):
        return sum(a * b for a, b in zip(left, right))

    def orthogonal():
        found, sizes = [], []
        for row in basis:
            for other, size in zip(found, sizes):
                share = dot(row, other) / size
                row = [a - share * b for a, b in zip(row, other)]
            found.append(row)
            sizes.append(dot(row, row))
        return found, sizes

    basis = [list(map(fractions.Fraction, row)) for row in basis]
    across, sizes = orthogonal()
    place = 1
    while place < len(basis):
        for other in reversed(range(place)):
            times = round(dot(basis[place], across[other]) / sizes[other])
            basis[place] = [a - times * b for a, b in zip(basis[place], basis[other])]
        share = dot(basis[place], across[place - 1]) / sizes[place - 1]
        if sizes[place] >= (fractions.Fraction(3, 4) - share * share) * sizes[place - 1]:
            place += 1
        else:
            basis[place - 1], basis[place] = basis[place], basis[place - 1]
            across, sizes = orthogonal()
            place = max(place - 1, 1)
    return [list(map(int, row)) for row in basis]


@functools.lru_cache()
def vectors_of_no_mix(letters=16, size=1 << 64, factor=11400714819323198485):
    """Short vectors that leave the number as it is to which the code points of a text are mixed."""
    weights = [pow(factor, letters - 1 - i, size) for i in range(letters)]
    basis = [[int(i == j) for j in range(letters - 1)] + [-weights[i]] for i in range(letters - 1)]
    return reduced(basis + [[0] * (letters - 1) + [size]])


def names_of_one_mix(count):
    """Names of 16 letters that are all mixed to one number of 64 bits."""
    names, chance = set(), random.Random(1)
    while len(names) < count:
        codes = [63] * 16
        for vector in vectors_of_no_mix():
            times = chance.choice((-1, 0, 0, 1))
            if times:
                codes = [code + times * step for code, step in zip(codes, vector)]
        if all(35 <= code <= 91 for code in codes):
            names.add("".join(map(chr, codes)))
    return list(names)


def instances(n, template):
    """Instances, each of the template of a number that is told by its own and by how many there are."""
    matrix, count = ",".join(["1"] * 16), n // 80
    listed = many(
        n,
        lambda i: f'{{"type":"GeometryInstance","template":{template(i, count)},"boundaries":[0],"transformationMatrix":[{matrix}]}}',
    )
    return feature(building(f',"geometry":[{listed}]'), "[0,0,0]")


def many_templates(n):
    template = '{"type":"MultiSurface","lod":"2","boundaries":[[[0,0,0]]]}'
    listed = ",".join(
        [template] * (n // 80)
    )  # of a stream of small features, as many as its instances name
    return f',"geometry-templates":{{"templates":[{listed}],"vertices-templates":[[0,0,0]]}}'


def wide_template(n):
    template = f'{{"type":"MultiSurface",{many(n, name)},"lod":"2","boundaries":[[[0,0,0]]]}}'
    return f',"geometry-templates":{{"templates":[{template}],"vertices-templates":[[0,0,0]]}}'


SHAPES = {
    "usual": usual,
    "names in the root": lambda n: feature(building(), more="," + many(n, name)),
    "names of city objects": lambda n: feature(
        building() + "," + many(n, lambda i: f'"p{i}":{{"type":"Road"}}')
    ),
    "names in a city object": lambda n: feature(building("," + many(n, name))),
    "names in a geometry": lambda n: feature(geometry("[[0,0,0]]", "," + many(n, name)), "[0,0,0]"),
    "names in a surface": lambda n: feature(
        geometry(
            "[[0,0,0]]",
            f',"semantics":{{"surfaces":[{{"type":"+A",{many(n, name)}}}],"values":[0]}}',
        ),
        "[0,0,0]",
    ),
    "names of one length, alike at both ends": lambda n: feature(
        building("," + many(n, lambda i: f'"{spread("ab", i, True)}{"x" * 16}":0'))
    ),
    "names that meet in the marks": lambda n: feature(building("," + names_of_few_marks(n))),
    "names of one hash": lambda n: feature(building("," + names_of_one_hash(n))),
    "short names in rising order": lambda n: short_names(n, "rising"),
    "short names in falling order": lambda n: short_names(n, "falling"),
    "short names in no order": lambda n: short_names(n, "none"),
    "short names up and down": lambda n: short_names(n, "up and down"),
    "short names against medians": lambda n: short_names(n, "medians"),
    "names behind nine letters, no order": lambda n: short_names(n, "none", "a" * 9),
    "names behind nine letters, falling": lambda n: short_names(n, "falling", "a" * 9),
    "names behind 200 letters": lambda n: short_names(n, "none", "a" * 200),
    "short names by escapes, falling": lambda n: short_names(n, "falling", spell=escaped),
    "names by escapes": lambda n: feature(
        building("," + many(n, lambda i: '"' + "".join(f"\\u{ord(c):04x}" for c in str(i)) + '":0'))
    ),
    "one parent of all": one_parent,
    "children listed backwards": lambda n: one_parent(n, True),
    "a chain of parents": chain,
    "a pair listed again and again": pairs_again,
    "two pairs in turn again and again": pairs_in_turn,
    "two parents of a long name in turn": parents_in_turn,
    "all list all": all_of_all,
    "all list all, alike at both ends": lambda n: all_of_all(n, "a" * 8),
    "few list each other again and again": lambda n: all_of_all(n, times=50),
    "parents that are not there": absent_parents,
    "a group's children that are not there": absent_children,
    "parts of one, in no order": lambda n: parts_of_one(n, "none"),
    "parts of one, in falling order": lambda n: parts_of_one(n, "falling"),
    "parts of one, behind nine letters": lambda n: parts_of_one(n, "none", "a" * 9),
    "parts of one, behind 200 letters": lambda n: parts_of_one(n, "none", "a" * 200),
    "parts of one, alike at both ends": lambda n: parts_of_one(n, "none", "a" * 8, after="a" * 8),
    "parts of one, by escapes": lambda n: parts_of_one(n, "none", spell=escaped),
    "parts of one hash": links_of_one_hash,
    "parts of one tag": parts_of_one_tag,
    "parts of one mix": lambda n: parts(names_of_one_mix(n // 81), "none"),
    "a part of unknown parents": lambda n: parents_of_none(n, "none"),
    "a part of unknown parents, falling": lambda n: parents_of_none(n, "falling", "a" * 9),
    "instances of the last template": lambda n: instances(n, lambda i, count: count - 1),
    "instances of templates far apart": lambda n: instances(
        n, lambda i, count: (i * 7919 + i % 2 * (count // 2)) % count
    ),
    "instances of a template of many members": lambda n: instances(n, lambda i, count: 0),
    "small features of far templates": small_features,
    "many surfaces": many_surfaces,
    "nests of 60": lambda n: feature(
        building(f',"attributes":[{many(n, lambda i: "[" * 56 + "]" * 56)}]')
    ),
    "a string of escapes": lambda n: feature(
        building(f',"attributes":{{"a":"{chr(92)}u0041' + "\\n" * (n // 2) + '"}')
    ),
    "a number of many digits": lambda n: feature(building(f',"attributes":{{"a":1.{"7" * n}}}')),
    "a coordinate of many digits": lambda n: feature(
        building(), f'[0,0,{"0" if n < 1 else "1"}.{"0" * n}]'
    ),
    "an id of many letters": lambda n: feature(
        building(f',"children":["{"a" * (n // 4)}"]')
        + f',"{"a" * (n // 4)}":{{"type":"Building","parents":["b"]}}'
    ),
}


TREES = {
    "tree: a chain in order": lambda n: chain_in(n, "rising"),
    "tree: a chain in reverse": lambda n: chain_in(n, "falling"),
    "tree: a chain in no order": lambda n: chain_in(n, "none"),
    "tree: a chain by escapes, in no order": lambda n: chain_in(n, "none", escaped),
    "tree: a comb in reverse": lambda n: comb(n, "falling"),
    "tree: a comb in no order": lambda n: comb(n, "none"),
    "tree: one parent of all": one_parent,
    "tree: one parent, listed backwards": lambda n: one_parent(n, True),
    "tree: one child of all": lambda n: one_of_all(n, "none"),
    "tree: groups in groups, in reverse": lambda n: groups(n, "falling"),
    "tree: groups in groups, in no order": lambda n: groups(n, "none"),
    "tree: half are listed": lambda n: half_listed([f"p{i:06}" for i in range(n // 33)]),
    "tree: half are listed, of one list": lambda n: half_listed(found("list", n // 33)),
    "tree: half are listed, of one mix": lambda n: half_listed(names_of_one_mix(n // 47)),
}


# What stands in the header beside lines of a shape; none where it is not told here.
HEADERS = {
    "instances of the last template": many_templates,
    "instances of templates far apart": many_templates,
    "instances of a template of many members": wide_template,
    "small features of far templates": lambda n: many_templates(n // 2 * 80 // 65),
}


def processor_seconds():
    """The processor's time that all programs have taken that were run so far."""
    used = resource.getrusage(resource.RUSAGE_CHILDREN)
    return used.ru_utime + used.ru_stime


def seconds_of(program, command, path, most):
    """The best time of a few runs, or None where one took more than `most`. A city object that is not reached is no error here."""
    best = most
    for _ in range(RUNS):
        before = processor_seconds()
        with open(path, "rb") as stream:
            try:
                ran = subprocess.run(
                    [program, *command],
                    stdin=stream,
                    stdout=subprocess.DEVNULL,
                    stderr=subprocess.PIPE,
                    timeout=4 * most,
                )
            except subprocess.TimeoutExpired:
                return None
        if ran.returncode and b": 31 " not in ran.stderr:
            sys.exit(f"{path}: {ran.stderr.decode()}")
        best = min(best, processor_seconds() - before)
        if best > most / 4:
            break
    return best if best < most else None


def dearest(program, commands, stream, most, usual_seconds):
    """The dearest command on a stream beside a usual one: its time and how many times as long it took; None where one took
    more than `most`. A usual stream, of which no times are known yet, has its times noted."""
    worst = (0, 0)
    for command in commands:
        took = seconds_of(program, command, stream, most)
        if took is None:
            return None
        times = took / usual_seconds.setdefault(command, took)
        worst = max(worst, (times, took))
    return worst


def stream_of(shape, length):
    """A header and a line of this shape and length."""
    line = SHAPES.get(shape) or TREES[shape]
    return HEADER % (HEADERS[shape](length) if shape in HEADERS else "") + line(length)


def main():
    global MEETING
    program, MEETING, most = sys.argv[1], sys.argv[2], float(sys.argv[3])
    word = sys.argv[4] if len(sys.argv) > 4 else ""
    usual_seconds = {length: {} for length in LENGTHS}
    print(
        f"{'shape':<46}"
        + "".join(f"{length:>12,}{'of usual':>10}" for length in LENGTHS)
        + f"{'growth by a doubling':>24}"
    )
    for shape in (*SHAPES, *TREES):
        if word not in shape and shape != "usual":
            continue
        commands = (
            COMMANDS + TREE_COMMANDS
            if shape == "usual"
            else TREE_COMMANDS
            if shape in TREES
            else COMMANDS
        )
        shown, last, growth = "", None, None
        for length in LENGTHS:
            with tempfile.NamedTemporaryFile(delete=False) as stream:
                stream.write(stream_of(shape, length).encode())
            worst = dearest(program, commands, stream.name, most, usual_seconds[length])
            os.unlink(stream.name)
            if worst is None:
                shown += f"{f'over {most:.0f}':>12}{'':>10}"
                break
            times, took = worst
            growth = (took / last) ** (1 / 3) if last else None
            last = took
            shown += f"{took:>12.3f}{times:>10.1f}"
        print(f"{shape:<46}{shown}" + (f"{growth:>24.2f}" if growth else ""), flush=True)


if __name__ == "__main__":
    main()
