"""A delivery that no stream was read for, of which a page can be made without the library."""
import random
from decimal import Decimal

import cityseq
from cityseq import Status
from cityseq.delivery import facts
from cityseq.engine.reports import Report

SYSTEM = "https://www.opengis.net/def/crs/EPSG/0/7415"
NAMES = ("north.city.jsonl.gz", "south.city.jsonl", "west.city.jsonl")
EXCERPT = 'face","lod":"2.2","boundaries":[[[0,1,2,4]]]}]}},"vertices":[[0,0,0],[1000,0,0],'
HOSTILE = (
    "<script>document.title='run'</script>",
    "</style><style>*{display:none}</style>",
    "</script><script>alert(1)</script>",
    "]]>",
    "<!--<script>",
    '"onmouseover="alert(1)',
    "'`=\"<>&",
    "&lt;&#34;&amp;",
    "\u202egnirts\u202c",
    "\u200f\u2066",
    "\ud800",
    "x\udfff",
    "\0\x07\x1b[31m",
    "\u2028\u2029",
    '=HYPERLINK("http://example.org")',
    "+1",
    "-1",
    "@x",
    "{{ 7 * 7 }}",
    "{% raw %}",
    "javascript:alert(1)",
    "<img src=http://example.org/x.png onerror=alert(1)>",
    "<base href=//example.org>",
    "<meta http-equiv=refresh content=0>",
    "",
    "築é🏠",
    "x" * 1_000_000,
    "\u05d0" * 1_000_000,
    "<b>" * 400_000,
)


def report(
    number, name=NAMES[1], code=25, feature="", excerpt=EXCERPT, column=40, met="the index is 4"
):
    """A report of a line."""
    return Report(
        name,
        number,
        4_662,
        code,
        cityseq.explain(code).text,
        feature or f"NL.IMBAG.Pand.05031000000{number:05}",
        excerpt,
        column,
        met,
    )


def area(cells=False):
    """What lies in a coordinate system: features with their extents, or counted by cells."""
    chance = random.Random(1)
    made = facts.Area(SYSTEM, 3, 900, "84616.468,447422.999,85199.1,448101.25")
    if cells:
        made.size, made.features = 16.0, 60_000
        for _ in range(made.features):
            cell = int(chance.gauss(5_300, 9)), int(chance.gauss(27_980, 9))
            made.cells[cell] = made.cells.get(cell, 0) + 1
    else:
        corners = (
            (chance.uniform(84_620, 85_170), chance.uniform(447_430, 448_080))
            for _ in range(made.features)
        )
        made.extents = [
            (x, y, x + chance.uniform(5, 25), y + chance.uniform(5, 20)) for x, y in corners
        ]
    made.spots = [
        (chance.uniform(84_620, 85_170), chance.uniform(447_430, 448_080)) for _ in range(30)
    ] + [(0.0, 0.0)]
    return made


def file(name, status=0, invalid=0, **more):
    """A file with 1,200 valid features."""
    contents = facts.Contents(
        1_200,
        {"Building": 1_100, "BuildingPart": 700, "SolitaryVegetationObject": 10},
        {"1": 1_100, "2": 1_180},
        {9: 3, 10: 40, 11: 300, 12: 600, 13: 200, 14: 57},
    )
    edges = [
        (Decimal("84616.468"), Decimal("85199.1")),
        (Decimal("447422.999"), Decimal("448101.25")),
        (Decimal("-0.452"), Decimal("31.2")),
    ]
    return facts.File(
        name,
        Status(status),
        123_456_789,
        "ab" * 32,
        1_201,
        invalid,
        scale=[Decimal("0.001")] * 3,
        translate=[Decimal("84616.468"), Decimal("447422.999"), Decimal("-0.452")],
        reference_system=SYSTEM,
        ranges=((0, 9), (0, 9), (0, 9)),
        box="84616.468,447422.999,85199.1,448101.25",
        extent=tuple(edges),
        longest=80_900,
        peaks=(81_234, 900, 11),
        contents=contents,
        **more,
    )


def delivery(reports, files=None, cells=False, title="delivery"):
    """A delivery with these reports, in three files: a valid one, an invalid one, and one that was
    not judged."""
    reasons = facts.Reasons()
    for each in reports:
        reasons.add(each)
    files = files or [
        file(NAMES[0]),
        file(NAMES[1], int(bool(reports)), len(reports)),
        file(NAMES[2], 3, fault="read fault: Input/output error"),
    ]
    repeated = facts.Repeated(
        2, 4, [facts.RepeatedId(name, 2, [(NAMES[0], 3), (NAMES[1], 77)]) for name in ("b1", "b2")]
    )
    run = facts.Run(
        "0.2.0",
        "cityseq-run report 'delivery/*.gz' --output delivery.html",
        "2026-11-27T14:00:00Z",
        3.14,
        4,
        8_388_608,
        64,
        tree=False,
        extensions=False,
    )
    return facts.Delivery(
        title,
        run,
        files,
        [area(cells)],
        reasons.listed(),
        repeated,
        list(reports),
        ("delivery.reports.csv", "delivery.reports.jsonl"),
    )


def usual(count=60, **more):
    """A delivery with so many reports."""
    chance = random.Random(2)
    return delivery(
        [
            report(3 + 2 * number, code=chance.choice((25, 25, 25, 20, 4, 13)))
            for number in range(count)
        ],
        **more,
    )


def hostile():
    """A delivery all of whose texts come from someone who means ill."""
    reports = [
        report(3 + number, text[:50] or "x", 25, text or "x", text[:80], min(40, len(text)), text)
        for number, text in enumerate(HOSTILE)
    ]
    files = [file(text[:50] or "x", 1, 1, hints=[text], fault=text) for text in HOSTILE]
    for made, text in zip(files, HOSTILE):
        made.reference_system = text
    made = delivery(reports, files, title=HOSTILE[0])
    made.areas = [
        facts.Area(text, 1, 1, "0,0,1,1", extents=[(0.0, 0.0, 1.0, 1.0)]) for text in HOSTILE[:2]
    ]
    made.repeated.first = [
        facts.RepeatedId(text, 2, [(text[:50], 1), ("b", 2)]) for text in HOSTILE
    ]
    made.run.words = HOSTILE[1]
    return made
