#!/usr/bin/env python3
"""Writes a CityJSONSeq stream of a given shape and size to standard output.

    make_stream.py usual|spread|lods|grid|tiny|named|huge|text|linked MEGABYTES

usual: features of 5 to 125 KB, about 4 bytes a JSON token, as city models have them;
lods: features of 5 to 50 KB with four LoDs each, and a semantic surface for each surface;
spread: the same, each of 60 features in a square of 100 m of its own, one beside the other along x;
grid: features of about 2 KB, each in a square of 10 m of its own, 1,000 in a row along x;
tiny: features of about 300 bytes; named: the same, with ids that begin alike; huge: features of about
6 MB; text: features of 2 to 30 KB, most of it long attributes of which half of the letters are not
ASCII; linked: features of 10,000 city objects, one parent and its children, at least one line. The
same arguments give the same bytes."""
import itertools
import random
import sys

HEADER = (
    '{"type":"CityJSON","version":"2.0","transform":{"scale":[0.001,0.001,0.001],'
    '"translate":[84616.468,447422.999,-0.452]},"CityObjects":{},"vertices":[]}\n'
)


def feature(rng, number, vertices, left=0, side=1000000):
    """A building with one solid over this many vertices, in a square of this side that begins there."""
    surfaces = ",".join(
        "[[{},{},{}]]".format(*(rng.randrange(vertices) for _ in range(3)))
        for _ in range(vertices * 2)
    )
    values = ",".join(str(rng.randrange(3)) for _ in range(vertices * 2))
    points = ",".join(
        f"[{left + rng.randrange(side)},{rng.randrange(side)},{rng.randrange(30000)}]"
        for _ in range(vertices)
    )
    return (
        f'{{"type":"CityJSONFeature","id":"b{number}","CityObjects":{{"b{number}":{{"type":"Building",'
        f'"attributes":{{"year":{rng.randrange(1500, 2024)},"street":"Grachtenstraße {number}"}},'
        f'"geometry":[{{"type":"Solid","lod":"2.2","boundaries":[[{surfaces}]],"semantics":{{"surfaces":'
        f'[{{"type":"GroundSurface"}},{{"type":"RoofSurface"}},{{"type":"WallSurface"}}],"values":[[{values}]]}}}}]}}}},'
        f'"vertices":[{points}]}}\n'
    )


def surfaces_of(rng, vertices):
    """A geometry's boundaries and semantics, with a semantic surface of its own for each surface."""
    boundaries = ",".join(
        "[[{},{},{}]]".format(*(rng.randrange(vertices) for _ in range(3))) for _ in range(vertices)
    )
    kinds = ",".join(
        f'{{"type":"{rng.choice(("Wall", "Roof", "Ground"))}Surface"}}' for _ in range(vertices)
    )
    return f'[[{boundaries}]],"semantics":{{"surfaces":[{kinds}],"values":[[{",".join(map(str, range(vertices)))}]]}}'


def lods(rng, number, vertices):
    """A building whose part has a footprint and three solids."""
    solids = ",".join(
        f'{{"type":"Solid","lod":"{lod}","boundaries":{surfaces_of(rng, vertices)}}}'
        for lod in ("1.2", "1.3", "2.2")
    )
    points = ",".join(
        f"[{rng.randrange(1000000)},{rng.randrange(1000000)},{rng.randrange(30000)}]"
        for _ in range(vertices)
    )
    footprint = '{"type":"MultiSurface","lod":"0","boundaries":[[[0,1,2]]]}'
    return (
        f'{{"type":"CityJSONFeature","id":"b{number}","CityObjects":{{"b{number}":{{"type":"Building","children":["b{number}-0"],'
        f'"attributes":{{"year":{rng.randrange(1500, 2024)},"street":"Grachtenstraße {number}"}},"geometry":[{footprint}]}},'
        f'"b{number}-0":{{"type":"BuildingPart","parents":["b{number}"],"geometry":[{solids}]}}}},"vertices":[{points}]}}\n'
    )


GRID = 1000  # features in a row
# a box as a solid, and text as long as usual attributes have
BOX = "[[[[0,1,2,3]],[[4,5,6,7]],[[0,1,5,4]],[[1,2,6,5]],[[2,3,7,6]],[[3,0,4,7]]]]"
NOTE = "".join(f'"measure {i}":{i}.25,' for i in range(80))


def on_grid(number):
    """A building of eight vertices in a square of 10 m of its own."""
    left, low, high = number % GRID * 10000, number // GRID * 10000, 5000 + number % 97 * 100
    corners = (
        (left + x, low + y, z)
        for z in (0, high)
        for x, y in ((1000, 1000), (9000, 1000), (9000, 9000), (1000, 9000))
    )
    return (
        f'{{"type":"CityJSONFeature","id":"b{number}","CityObjects":{{"b{number}":{{"type":"Building",'
        f'"attributes":{{{NOTE}"year":{1500 + number % 500}}},"geometry":[{{"type":"Solid","lod":"2.2",'
        f'"boundaries":{BOX}}}]}}}},"vertices":[{",".join("[%d,%d,%d]" % corner for corner in corners)}]}}\n'
    )


def tiny(rng, number):
    return (
        f'{{"type":"CityJSONFeature","id":"b{number}","CityObjects":{{"b{number}":{{"type":"Building",'
        f'"attributes":{{"street":"Grachtenstraße {number}"}},"geometry":[{{"type":"MultiSurface","lod":"2.2",'
        f'"boundaries":[[[0,1,2,3]]]}}]}}}},"vertices":[[0,0,0],[{rng.randrange(1000, 10000)},0,0],'
        f"[1000,1000,0],[0,{rng.randrange(1000, 10000)},0]]}}\n"
    )


def named(rng):
    """A tiny feature with one of 200,000 ids as a register of buildings has them."""
    name = f"NL.IMBAG.Pand.{rng.randrange(200000):016}"
    return (
        f'{{"type":"CityJSONFeature","id":"{name}","CityObjects":{{"{name}":{{"type":"Building",'
        f'"geometry":[{{"type":"MultiSurface","lod":"2.2","boundaries":[[[0,1,2,3]]]}}]}}}},'
        f'"vertices":[[0,0,0],[{rng.randrange(1000, 10000)},0,0],[1000,1000,0],[0,{rng.randrange(1000, 10000)},0]]}}\n'
    )


ASCII = "abcdefghijklmnopqrstuvwxyz"
# letters of two, three and four bytes
OTHERS = "αβγδεζηθικλμνξοπρστυφχψω", "абвгдежзиклмнопрстуфхцчшщ", "建築物城市街道番地屋根", "🏠🏡🏢🏣🏤"


def words(rng, count):
    """Words of 2 to 12 letters, each in one script; half of them are not ASCII."""
    scripts = (rng.choice((ASCII, rng.choice(OTHERS))) for _ in range(count))
    return " ".join(
        "".join(rng.choice(script) for _ in range(rng.randrange(2, 13))) for script in scripts
    )


def text(rng, number):
    """A building with long attributes and one surface."""
    attributes = ",".join(
        f'"note {i}":"{words(rng, rng.randrange(20, 200))}"' for i in range(rng.randrange(4, 12))
    )
    return (
        f'{{"type":"CityJSONFeature","id":"b{number}","CityObjects":{{"b{number}":{{"type":"Building",'
        f'"attributes":{{{attributes}}},"geometry":[{{"type":"MultiSurface","lod":"2.2",'
        f'"boundaries":[[[0,1,2,3]]]}}]}}}},"vertices":[[0,0,0],[1000,0,0],[1000,1000,0],[0,1000,0]]}}\n'
    )


def linked(parts):
    """A building and its parts, which name each other."""
    children = ",".join(f'"p{i}"' for i in range(parts))
    objects = ",".join(f'"p{i}":{{"type":"BuildingPart","parents":["b"]}}' for i in range(parts))
    return (
        f'{{"type":"CityJSONFeature","id":"b","CityObjects":{{"b":{{"type":"Building","children":[{children}]}},'
        f'{objects}}},"vertices":[]}}\n'
    )


# about how many bytes one vertex adds to a line, and to one of four LoDs
VERTEX = 72
SOLID = 165


def main():
    shape, size = sys.argv[1], int(sys.argv[2]) * 1000000
    rng = random.Random(shape)
    out = sys.stdout.buffer
    written = out.write(HEADER.encode())
    if shape == "grid":
        for number in itertools.count():
            if written >= size and number:
                return
            written += out.write(on_grid(number).encode())
    # a few lines, written over and over: making each line anew would take longer than reading it
    if shape == "tiny":
        lines = [tiny(rng, i).encode() for i in range(2000)]
    elif shape == "named":
        lines = [named(rng).encode() for _ in range(50000)]
    elif shape == "usual":
        lines = [feature(rng, i, rng.randrange(5000, 125000) // VERTEX).encode() for i in range(60)]
    elif shape == "spread":
        lines = [
            feature(rng, i, rng.randrange(5000, 125000) // VERTEX, i * 100000, 100000).encode()
            for i in range(60)
        ]
    elif shape == "lods":
        lines = [lods(rng, i, rng.randrange(5000, 50000) // SOLID).encode() for i in range(60)]
    elif shape == "text":
        lines = [text(rng, i).encode() for i in range(200)]
    elif shape == "huge":
        lines = [feature(rng, i, 6000000 // VERTEX).encode() for i in range(2)]
    elif shape == "linked":
        lines = [linked(9999).encode()]
    else:
        sys.exit(__doc__)
    number = 0
    while written < size or number == 0:
        written += out.write(lines[number % len(lines)])
        number += 1


if __name__ == "__main__":
    main()
