# The test cases of the vectors, read by make.py. Of each reason some stand at the edge of its rule,
# with the same line beside them that is just valid. A section is a test of the engine.

section("the lines of a stream")
case("empty", [], 1, 0)
case("empty-least-limits", [], 1, 0, limits=(1, 1))
case("empty-asked-for-an-id", [], 1, 0, words=["--id", "b1"])
case("header-and-feature", [H, F])
case("blank-and-no-last-lf", [H, "\r", F.replace("{", "{ ", 1)], end="")
case("header-alone", [H], end="")
case("header-alone-with-lf", [H])
case("small-and-feature", [H, feature(B), F])
case("good-lines-around-a-bad-one", [H, F, one("[[[0,1,2,3]]]", "[[[0,1,2,^4]]]"), F], 25)
case("blanks-of-each-kind", [H, "", " ", "\t", "\r", " \t\r ", F])
case("blank-first-line", ["^", H], 4)
case("spaces-first-line", ["  ^", H], 4)
case("form-feed-is-not-blank", [H, "^\f", F], 4)

section("2: line too long")
case("line-as-long-as-the-limit", [H, F], limits=(210, 64))
case("line-one-byte-too-long", [H, F, F + " "], 2, 210, limits=(210, 64))
case("line-one-byte-too-long-no-lf", [H, F + " "], 2, 210, limits=(210, 64), end="")
case("header-as-long-as-the-limit", [H], limits=(140, 64))
case("header-one-byte-too-long", [H], 2, 139, limits=(139, 64))
case("header-past-the-least-limit", [H], 2, 1, limits=(1, 1))
case("blank-as-long-as-the-limit", [H, " " * 140], limits=(140, 64))
case("blank-one-byte-too-long", [H, " " * 141], 2, 140, limits=(140, 64))
case("too-long-before-not-utf8", [H, b"\xff" * 141], 2, 140, limits=(140, 64))

section("3: not UTF-8")
euro = one(
    '"boundaries":[[[0,1,2,3]]]}]', '"boundaries":[[[0,1,2,3]]]}],"attributes":{"a":"€"}'
).encode()
assert euro.index(b"\xe2\x82\xac") == 170
case("euro", [H, euro])
case("euro-without-its-last-byte", [H, euro.replace(b"\xac", b"")], 3, 170)
case("euro-at-the-end-without-its-last-byte", [H, euro[:172]], 3, 170)
case("surrogate-in-bytes", [H, b'{"a":"\xed\xa0\x80"}'], 3, 6)
case("too-long-form", [H, b'{"a":"\xc0\xaf"}'], 3, 6)
case("greatest-code-point", [H, feature(B, more=',"a":"\U0010ffff"')])
case("past-the-greatest-code-point", [H, b'{"a":"\xf4\x90\x80\x80"}'], 3, 6)
case("blank-with-a-bad-byte", [H, b"  \xff"], 3, 2)
case("bad-byte-before-bad-syntax", [H, b"}\xff"], 3, 1)
case("bad-first-line", [b"\xff" + H.encode()], 3, 0)

section("4: syntax")
case("comma-before-a-brace", [H, '{"type":"CityJSONFeature",^}'], 4)
case("front-of-a-feature", [H, F[:100] + "^"], 4)
case("zero-before-a-digit", [H, "0^1"], 4)
case("minus-alone", [H, "-^"], 4)
case("comma-before-a-bracket", [H, "[1,^]"], 4)
case("escape-of-no-letter", [H, '"\\^q"'], 4)
case("word-cut-by-a-brace", [H, "tru^}"], 4)
case("text-after-a-text", [H, "{} ^x"], 4)
case("array-not-closed", [H, "[1^"], 4)
case("plus-before-a-digit", [H, "^+1"], 4)
case("point-without-digits", [H, "[1.^]"], 4)
case("exponent-without-digits", [H, "[1e^]"], 4)
case("control-character-in-a-string", [H, '["^\x1f"]'], 4)
case("single-quotes", [H, "[^'a']"], 4)
case("name-without-quotes", [H, "{^a:1}"], 4)
case("half-an-escape", [H, '["\\u12^G4"]'], 4)
case("byte-order-mark", ["^\ufeff" + H], 4)
case("record-separator", ["^\x1e" + H], 4)
case("comment", [H, "^// no"], 4)

section("5: nested too deep")
case("deepest-allowed", [H, "[" * 1024 + "^"], 4, limits=(2_000, 1_024))
case("one-deeper-than-allowed", [H, "[" * 1024 + "^["], 5, limits=(2_000, 1_024))
case("one-deeper-than-64", [H, "[" * 64 + "^["], 5)
case("feature-at-its-depth", [H, F], limits=(1_000, 8))
case("feature-past-its-depth", [H, one("[[[0,1,2,3]]]", "[[^[0,1,2,3]]]")], 5, limits=(1_000, 7))
case("header-at-its-depth", [H], limits=(140, 3))
case("header-past-its-depth", [header('"scale":[', '"scale":^[')], 5, limits=(140, 2))
case("too-deep-before-syntax", [H, "[[[^[}"], 5, limits=(1_000, 3))

section("10: member missing")
case("feature-as-the-first-line", ["^" + F], 10)
case("second-header", [H, "^" + H], 10)
case("empty-object-as-the-first-line", ["^{}"], 10)
case("no-lod", [H, one('{"type":"MultiSurface","lod":"2.2",', '^{"type":"MultiSurface",')], 10)
case(
    "no-lod-and-a-bad-index",
    [
        H,
        one(
            '{"type":"MultiSurface","lod":"2.2","boundaries":[[[0,1,2,3]]]}',
            '^{"type":"MultiSurface","boundaries":[[[0,1,2,4]]]}',
        ),
    ],
    10,
)
case("part-without-parents", [H, feature('"b":^{"type":"BuildingPart"}')], 10)
case("city-object-without-type", [H, feature('"b":^{}')], 10)
case("no-boundaries", [H, with_geometry('^{"type":"Solid","lod":"1"}')], 10)
case(
    "semantics-without-values",
    [H, with_geometry('{"type":"Solid","lod":"1","boundaries":[],"semantics":^{"surfaces":[]}}')],
    10,
)
case(
    "instance-without-matrix",
    [
        templates(),
        feature(
            '"b":{"type":"PlantCover","geometry":[^{"type":"GeometryInstance","template":0,"boundaries":[0]}]}',
            "[[0,0,0]]",
        ),
    ],
    10,
)

section("11: duplicate name")
case("one-name-twice", [H, feature('"b":{"type":"Building"},^"b":{"type":"Building"}')], 11)
case(
    "one-name-twice-by-an-escape",
    [H, feature('"b":{"type":"Building"},^"\\u0062":{"type":"Building"}')],
    11,
)
case(
    "one-name-twice-in-attributes",
    [H, feature('"b":{"type":"Building","attributes":{"a":1,"a":2}}')],
)
case("one-name-twice-in-the-root", [H, feature(B, more=',"a":1,^"a":2')], 11)
case(
    "one-name-twice-in-a-geometry",
    [H, with_geometry('{"type":"Solid","lod":"1","boundaries":[],^"lod":"2"}')],
    11,
)
case("one-name-twice-in-a-transform", [header('"transform":{', '"transform":{"a":1,^"a":2,')], 11)
case("names-that-differ-in-case", [H, feature('"b":{"type":"Building"},"B":{"type":"Building"}')])

section("12: wrong kind")
case("an-array", [H, "^[]"], 12)
case("null", [H, "^null"], 12)
case("lod-that-is-a-number", [H, one('"lod":"2.2"', '"lod":^2.2').replace("2,3]]]", "2,4]]]")], 12)
case("vertex-that-is-a-number", [H, feature(B, "[^3]")], 12)
case("children-that-are-null", [H, feature('"b":{"type":"Building","children":^null}')], 12)
case("child-that-is-a-number", [H, feature('"b":{"type":"Building","children":[^3]}')], 12)
case("city-object-that-is-a-text", [H, feature('"b":^"x"')], 12)
case("index-that-is-a-text", [H, one("[[[0,1,2,3]]]", '[[[0,1,2,^"3"]]]')], 12)
case(
    "semantics-that-are-null",
    [H, with_geometry('{"type":"Solid","lod":"1","boundaries":[],"semantics":^null}')],
    12,
)
case("header-that-is-a-number", ["^1"], 12)
case("header-that-is-an-array", ["^[]"], 12)

section("13: number out of range")
case("index-of-37-digits", [H, one("[[[0,1,2,3]]]", "[[[0,1,2,^" + "1" * 37 + "]]]")], 13)
case("index-of-36-digits", [H, one("[[[0,1,2,3]]]", "[[[0,1,2,^" + "1" * 36 + "]]]")], 18)
case("scale-of-37-digits", [header('"scale":[0.001,', '"scale":[^0.' + "1" * 37 + ",")], 13)
case("scale-of-36-digits", [header('"scale":[0.001,', '"scale":[0.' + "1" * 36 + ",")])
case("power-past-a-million", [header('"scale":[0.001,', '"scale":[^1e1000001,')], 13)
case("power-of-a-million", [header('"scale":[0.001,', '"scale":[1e1000000,')])
case("power-past-minus-a-million", [header('"scale":[0.001,', '"scale":[^1e-1000001,')], 13)
case("unread-number-of-any-size", [H, feature(B, more=',"a":1e9999999')])

section("14, 15: type and version")
case("header-of-type-feature", [header('"CityJSON"', '^"CityJSONFeature"')], 14)
case("feature-of-type-header", [H, feature(B).replace('"CityJSONFeature"', '^"CityJSON"')], 14)
case(
    "type-in-small-letters", [H, feature(B).replace('"CityJSONFeature"', '^"cityjsonfeature"')], 14
)
case("type-by-an-escape", [H, feature(B).replace('"CityJSONFeature"', '"\\u0043ityJSONFeature"')])
case("version-1.1", [header('"2.0"', '^"1.1"')], 15)
case("version-2.0.1", [header('"2.0"', '^"2.0.1"')], 15)
case("version-2", [header('"2.0"', '^"2"')], 15)
case("version-by-an-escape", [header('"2.0"', '"2.\\u0030"')])

section("16: not empty")
case("header-with-a-city-object", [header('"CityObjects":{}', '"CityObjects":^{"a":{}}')], 16)
case("header-with-a-vertex", [header('"vertices":[]', '"vertices":^[0]')], 16)
case("header-with-a-whole-vertex", [header('"vertices":[]', '"vertices":^[[0,0,0]]')], 16)

section("17: not three items")
case("scale-of-two", [header("[0.001,0.001,0.001]", "^[1,1]")], 17)
case("scale-of-four", [header("[0.001,0.001,0.001]", "^[1,1,1,1]")], 17)
case("vertex-of-two", [H, feature(B, "[^[0,0]]")], 17)
case("vertex-of-four", [H, feature(B, "[^[0,0,0,0]]")], 17)
case("template-vertex-of-two", [templates(points="[[0,0,0],^[0,0],[0,0,0]]")], 17)

section("18: not a whole number")
case("coordinate-of-a-half", [H, feature(B, "[[0,0,^0.5]]")], 18)
case("coordinate-of-10-18", [H, feature(B, "[[0,0,^1000000000000000000]]")], 18)
case("coordinate-below-10-18", [H, feature(B, "[[0,0,-999999999999999999]]")])
case("index-of-one-and-a-half", [H, one("[[[0,1,2,3]]]", "[[[0,1,2,^1.5]]]")], 18)
case("index-of-1e18", [H, one("[[[0,1,2,3]]]", "[[[0,1,2,^1e18]]]")], 18)
case("index-with-a-point", [H, one("[[[0,1,2,3]]]", "[[[0,1,2,3.0]]]")])
case("index-with-an-exponent", [H, one("[[[0,1,2,3]]]", "[[[0,1,2,3e0]]]")])
case("index-of-minus-zero", [H, one("[[[0,1,2,3]]]", "[[[0,1,2,-0]]]")])

section("19: unknown object type")
case("type-of-an-extension", [H, feature('"b":{"type":^"+Shed"}')], 19)
case("type-in-another-case", [H, feature('"b":{"type":^"building"}')], 19)
case("type-with-a-space", [H, feature('"b":{"type":^"Building "}')], 19)
case("type-that-is-empty", [H, feature('"b":{"type":^""}')], 19)

section("19: types of extensions")
EXTENDED = ["--extensions"]


def of_type(spelled, more=""):
    """A feature of one city object of this type, with these members."""
    return feature(f'"b":{{"type":{spelled}{more}}}')


for name, spelled in (
    ("of-an-extension", '"+Shed"'),
    ("of-a-sign-alone", '"+"'),
    ("of-two-signs", '"++"'),
    ("of-a-sign-by-an-escape", '"\\u002bShed"'),
    ("of-a-sign-by-an-escape-in-capitals", '"\\u002BShed"'),
    ("of-a-sign-before-a-type", '"+Building"'),
    ("of-a-sign-before-a-part", '"+BuildingPart"'),
    ("of-a-sign-before-a-space", '"+ "'),
    ("of-a-sign-before-a-quote", '"+\\""'),
    ("of-a-sign-before-a-letter-of-two-bytes", '"+é"'),
    ("of-a-sign-before-half-a-pair", '"+\\ud800"'),
    ("of-a-sign-before-a-group", '"+CityObjectGroup"'),
):
    case("known-" + name, [H, of_type(spelled)], words=EXTENDED)
    case("unknown-" + name, [H, of_type("^" + spelled)], 19)
for name, spelled in (
    ("of-no-sign", '"Shed"'),
    ("of-no-letters", '""'),
    ("of-a-space-before-the-sign", '" +Shed"'),
    ("of-a-sign-at-the-end", '"Shed+"'),
    ("of-a-spelled-escape", '"\\\\u002bShed"'),
    ("of-a-minus", '"-Shed"'),
    ("of-a-wide-sign", '"＋Shed"'),
    ("of-a-small-letter", '"building"'),
    ("of-a-sign-behind-no-break-space", '"\\u00a0+Shed"'),
):
    case("extended-" + name, [H, of_type("^" + spelled)], 19, words=EXTENDED)
for name, spelled in (("number", "3"), ("null", "null"), ("array", '["+Shed"]'), ("truth", "true")):
    case("extended-type-that-is-a-" + name, [H, of_type("^" + spelled)], 12, words=EXTENDED)
case("extended-of-no-type", [H, feature('"b":^{}')], 10, words=EXTENDED)
case("extended-of-two-types", [H, of_type('"+Shed",^"type":"+Shed"')], 11, words=EXTENDED)
case("extension-of-no-parents", [H, of_type('"+Shed"', ',"parents":[]')], words=EXTENDED)
case("extension-of-a-parent-elsewhere", [H, of_type('"+Shed"', ',"parents":["q"]')], words=EXTENDED)
case(
    "extension-of-null-for-parents", [H, of_type('"+Shed"', ',"parents":^null')], 12, words=EXTENDED
)
case("extension-of-a-lost-child", [H, of_type('"+Shed"', ',"children":[^"q"]')], 21, words=EXTENDED)
case(
    "extension-of-itself-as-child",
    [H, of_type('"+Shed"', ',"children":[^"b"]')],
    22,
    words=EXTENDED,
)
case(
    "extension-of-itself-as-parent",
    [H, of_type('"+Shed"', ',"parents":[^"b"]')],
    22,
    words=EXTENDED,
)
case(
    "extension-named-as-a-group-of-a-lost-child",
    [H, of_type('"+CityObjectGroup"', ',"children":[^"q"]')],
    21,
    words=EXTENDED,
)
for name, part, at in (
    ("a-part", '{"type":"BuildingPart","parents":["b"]}', None),
    ("a-part-of-another", '{"type":"BuildingPart","parents":["q"]}', 22),
    ("one-of-an-extension", '{"type":"+Part","parents":["b"]}', None),
    ("one-that-does-not-list-it", '{"type":"+Part"}', 22),
    ("a-road-that-lists-it", '{"type":"Road","parents":["b"]}', None),
):
    mark = "^" if at else ""
    case(
        "extension-over-" + name,
        [H, feature(f'"b":{{"type":"+Shed","children":[{mark}"p"]}},"p":{part}')],
        at,
        words=EXTENDED,
    )
case(
    "part-of-an-extension-elsewhere",
    [H, feature('"b":^{"type":"BuildingPart","parents":["q"]},"c":{"type":"+Shed"}')],
    23,
    words=EXTENDED,
)
case(
    "extension-in-a-building",
    [H, feature('"b":{"type":"Building","children":["p"]},"p":{"type":"+Part","parents":["b"]}')],
    words=EXTENDED,
)
case(
    "extension-apart",
    [H, feature(B + ',"c":^{"type":"+Shed"}')],
    31,
    words=["--extensions", "--tree"],
)
case("extension-apart-and-no-tree-asked", [H, feature(B + ',"c":{"type":"+Shed"}')], words=EXTENDED)
case(
    "extension-apart-and-unknown", [H, feature(B + ',"c":^{"type":"+Shed"}')], 31, words=["--tree"]
)
case(
    "extension-of-an-index-too-great",
    [H, of_type('"+Shed"', ',"geometry":[{"type":"MultiPoint","lod":"1","boundaries":[^0]}]')],
    25,
    words=EXTENDED,
)
case(
    "extension-of-a-cone",
    [H, of_type('"+Shed"', ',"geometry":[{"type":^"+Cone"}]')],
    24,
    words=EXTENDED,
)
case("semantics-of-an-extension", [H, solid("null", surfaces='[{"type":"+Roof"}]')], words=EXTENDED)
shed = one('"type":"Building"', '"type":"+Shed"')
case("extension-among-others", [H, F, shed, F], words=EXTENDED)
case(
    "extension-among-others-and-unknown", [H, F, one('"type":"Building"', '"type":^"+Shed"'), F], 19
)
case("extension-asked-for-by-its-id", [H, F, shed], words=["--extensions", "--id", "b1"])
case("extension-asked-for-by-its-lod", [H, shed], words=["--extensions", "--lod", "2.2"])
case(
    "extension-asked-for-by-another-lod", [H, shed], words=["--extensions", "--lod", "1"], kept=[1]
)
case(
    "extension-beside-what-is-asked-for",
    [H, F, shed],
    words=["--extensions", "--type", "Building"],
    kept=[1, 2],
)
case(
    "extension-asked-for-by-its-type",
    [H, F, shed],
    words=["--extensions", "--type", "+Shed"],
    kept=[1, 3],
)
case(
    "extension-asked-for-by-an-escape",
    [H, of_type('"\\u002bShed"')],
    words=["--extensions", "--type", "+Shed"],
)
case(
    "extension-asked-for-beside-a-type",
    [H, F, shed],
    words=["--extensions", "--type", "+Hut,+Shed,Building"],
)
case(
    "extension-asked-for-by-another",
    [H, shed],
    words=["--extensions", "--type", "+She,+shed,Road"],
    kept=[1],
)
case(
    "extension-left-out-by-its-type",
    [H, F, shed],
    words=["--extensions", "--exclude", "--type", "+Shed"],
    kept=[1, 2],
)
case("extension-in-a-box", [H, shed], words=["--extensions", "--bbox=1001,2001,1005,2005"])
case(
    "extension-that-is-left-out",
    [H, F, shed],
    words=["--extensions", "--exclude", "--type", "Building"],
    kept=[1, 3],
)
case("extensions-and-an-empty-stream", [], 1, 0, words=EXTENDED)
case("extensions-and-no-feature", [H], words=EXTENDED)
case(
    "extensions-and-members-of-the-header",
    [header('"vertices":[]', '"vertices":[],"+census":3,"extensions":{"Noise":{}}')],
    words=EXTENDED,
)
case(
    "extensions-and-a-type-of-the-header",
    [header('"CityJSON"', '^"+CityJSON"')],
    14,
    words=EXTENDED,
)
case(
    "extensions-and-a-type-of-the-feature",
    [H, feature(B).replace('"CityJSONFeature"', '^"+CityJSONFeature"')],
    14,
    words=EXTENDED,
)

section("20: id not among the city objects")
case(
    "id-of-no-city-object",
    [H, feature('"c":{"type":"Building"}').replace('"id":"b"', '"id":^"b"')],
    20,
)
case("id-and-no-city-objects", [H, feature("").replace('"id":"b"', '"id":^"b"')], 20)
case("id-in-another-case", [H, feature(B).replace('"id":"b"', '"id":^"B"')], 20)
case("id-by-an-escape", [H, feature(B).replace('"id":"b"', '"id":"\\u0062"')])

section("21, 22, 23: links")
case("child-that-is-not-there", [H, feature('"b":{"type":"Building","children":[^"q"]}')], 21)
case(
    "second-child-that-is-not-there",
    [
        H,
        feature(
            '"b":{"type":"Building","children":["p",^"q"]},"p":{"type":"BuildingPart","parents":["b"]}'
        ),
    ],
    21,
)
case("child-in-another-case", [H, feature('"b":{"type":"Building","children":[^"B"]}')], 21)
case(
    "child-of-a-group-that-is-not-there",
    [H, feature('"b":{"type":"CityObjectGroup","children":["q"]}')],
)
case(
    "parent-that-does-not-list-it",
    [H, feature('"b":{"type":"Building"},"p":{"type":"BuildingPart","parents":[^"b"]}')],
    22,
)
case(
    "child-that-does-not-list-it",
    [H, feature('"b":{"type":"Building","children":[^"p"]},"p":{"type":"Building"}')],
    22,
)
case(
    "group-that-does-not-list-it",
    [H, feature('"b":{"type":"Building","parents":[^"g"]},"g":{"type":"CityObjectGroup"}')],
    22,
)
case("parent-of-another-feature", [H, feature('"b":{"type":"Building","parents":["g"]}')])
case(
    "child-and-parent-of-itself",
    [H, feature('"b":{"type":"Building","children":["b"],"parents":["b"]}')],
)
case(
    "links-by-escapes",
    [
        H,
        feature(
            '"b":{"type":"Building","children":["\\u0070"]},"p":{"type":"BuildingPart","parents":["\\u0062"]}'
        ),
    ],
)
case("part-of-another-feature", [H, feature('"b":^{"type":"BuildingPart","parents":["g"]}')], 23)
case("part-of-no-parents", [H, feature('"b":^{"type":"BuildingPart","parents":[]}')], 23)
case("part-of-a-number", [H, feature('"b":^{"type":"BuildingPart","parents":[3]}')], 23)
case(
    "part-of-a-second-parent",
    [
        H,
        feature(
            '"b":{"type":"Building","children":["p"]},"p":{"type":"BuildingPart","parents":["g","b"]}'
        ),
    ],
)

section("24: unknown geometry type")
case(
    "geometry-of-a-cone", [H, feature('"b":{"type":"Building","geometry":[{"type":^"Cone"}]}')], 24
)
case(
    "geometry-in-another-case",
    [H, feature('"b":{"type":"Building","geometry":[{"type":^"solid"}]}')],
    24,
)
case("geometry-with-no-name", [H, feature('"b":{"type":"Building","geometry":[{"type":^""}]}')], 24)
case("template-of-a-cone", [templates('{"type":^"Cone"}')], 24)

section("25: vertex index out of range")
case("index-past-the-vertices", [H, one("[[[0,1,2,3]]]", "[[[0,1,2,^4]]]")], 25)
case("index-below-zero", [H, one("[[[0,1,2,3]]]", "[[[0,1,2,^-1]]]")], 25)
case(
    "index-before-the-lod",
    [H, one('"lod":"2.2","boundaries":[[[0,1,2,3]]]', '"boundaries":[[[0,1,2,^4]]],"lod":2.2')],
    25,
)
case(
    "index-of-a-template",
    [templates('{"type":"MultiSurface","lod":"1","boundaries":[[[0,1,^3]]]}')],
    25,
)
case("index-of-an-instance", [templates(), instance(boundaries="[^1]")], 25)
case(
    "index-with-no-vertices",
    [H, with_geometry('{"type":"MultiPoint","lod":"1","boundaries":[^0]}', "[]")],
    25,
)

section("26, 27: semantics")
for name, values in (("null", "null"), ("null-shell", "[null]"), ("null-surface", "[[0,null]]")):
    case("values-of-" + name, [H, solid(values)])
case("values-of-no-shell", [H, solid("^[]")], 26)
case("values-of-one-surface-of-two", [H, solid("[^[0]]")], 26)
case("values-of-three-surfaces-of-two", [H, solid("[^[0,0,0]]")], 26)
case("value-past-the-surfaces", [H, solid("[[0,^1]]")], 27)
case("value-below-zero", [H, solid("[[0,^-1]]")], 27)
case("value-of-no-surfaces", [H, solid("[[^0,null]]", surfaces="[]")], 27)
case(
    "value-of-the-last-surface",
    [H, solid("[[0,1]]", surfaces='[{"type":"RoofSurface"},{"type":"WallSurface"}]')],
)

section("28, 29: templates and instances")
case("instance-of-a-template", [templates(), instance()])
case("instance-asked-for-by-its-lod", [templates(), instance()], words=["--lod", "1"])
case("instance-of-another-lod", [templates(), instance()], words=["--lod", "2"], kept=[1])
case(
    "templates-after-other-lines",
    [templates(), F, instance(), F, instance(), instance("^1"), F],
    28,
)
case("template-past-the-list", [templates(), instance("^1")], 28)
case("template-below-zero", [templates(), instance("^-1")], 28)
case("template-of-no-list", [H, instance("^0")], 28)
case("template-that-is-an-instance", [templates('{"type":^"GeometryInstance"}')], 29)
case("matrix-of-15", [templates(), instance(matrix="^[1,0,0,0,0,1,0,0,0,0,1,0,0,0,0]")], 29)
case("matrix-of-17", [templates(), instance(matrix="^[1,0,0,0,0,1,0,0,0,0,1,0,0,0,0,1,0]")], 29)
case("instance-at-no-vertex", [templates(), instance(boundaries="^[]")], 29)
case("instance-at-two-vertices", [templates(), instance(boundaries="^[0,0]")], 29)

section("30: boxes")
case("translate-too-fine", [header("[1000.0,", "[^1e-19,"), F], 30, words=["--bbox=0,0,1,1"])
case(
    "translate-just-not-too-fine",
    [header("[1000.0,", "[1e-18,"), F],
    words=["--bbox=0,2000,0.000000000000000001,2001"],
)
case("translate-too-fine-and-no-box", [header("[1000.0,", "[1e-19,")])
case(
    "scale-too-great",
    [header('"scale":[0.001,', '"scale":[^1e18,'), F],
    30,
    words=["--bbox=0,0,1,1"],
)
case(
    "second-scale-too-fine",
    [header("[0.001,0.001,", "[0.001,^0.0000000000000000001,"), F],
    30,
    words=["--bbox=0,0,1,1"],
)
case(
    "third-scale-too-fine",
    [header(",0.001]", ",1e-19]"), F],
    words=["--bbox=1001,2001,1005,2005"],
    kept=[1, 2],
)
case("box-that-touches-a-corner", [H, F], words=["--bbox=1001,2001,1005,2005"])
case(
    "box-just-beside-a-corner",
    [H, F],
    words=["--bbox=1001.000000000000000001,2001,1005,2005"],
    kept=[1],
)
case(
    "box-and-a-scale-below-zero",
    [header('"scale":[0.001,', '"scale":[-0.001,'), F],
    words=["--bbox=999,2000,999,2000"],
)
case(
    "box-on-the-wrong-side",
    [header('"scale":[0.001,', '"scale":[-0.001,'), F],
    words=["--bbox=1000.5,2000,1001,2001"],
    kept=[1],
)
great = '{"type":"CityJSON","version":"2.0","transform":{"scale":[999999999999999999,999999999999999999,1],"translate":[0,0,0]},"CityObjects":{},"vertices":[]}'
case(
    "box-and-a-product-too-great",
    [great, feature(B, "[[999999999999999999,0,0]]")],
    words=["--bbox=0,0,999999999999999999,0"],
    kept=[1],
)
case(
    "box-between-two-products",
    [great, feature(B, "[[-999999999999999999,0,0],[999999999999999999,0,0]]")],
    words=["--bbox=0,0,999999999999999999,0"],
)

section("31: city objects apart")
case("one-apart", [H, feature(B + ',"c":^{"type":"Building"}')], 31, words=["--tree"])
case("one-apart-and-no-tree-asked", [H, feature(B + ',"c":{"type":"Building"}')])
case(
    "one-apart-before-the-main-one",
    [H, feature('"c":^{"type":"Building"},' + B)],
    31,
    words=["--tree"],
)
case(
    "one-apart-of-an-unknown-type", [H, feature(B + ',"c":^{"type":"Shed"}')], 31, words=["--tree"]
)
case(
    "one-apart-asked-for-by-its-type",
    [H, feature(B + ',"c":^{"type":"Road"}')],
    31,
    words=["--tree", "--type", "Road"],
)
case(
    "a-circle-apart",
    [
        H,
        feature(
            B + ',"c":^{"type":"Building","children":["d"],"parents":["d"]},'
            '"d":{"type":"Building","children":["c"],"parents":["c"]}'
        ),
    ],
    31,
    words=["--tree"],
)
case(
    "a-group-apart",
    [H, feature(B + ',"g":^{"type":"CityObjectGroup","children":["b"]}')],
    31,
    words=["--tree"],
)
case(
    "a-chain-from-the-end",
    [
        H,
        feature(
            '"q":{"type":"BuildingPart","parents":["p"]},"p":{"type":"BuildingPart","parents":["b"],'
            '"children":["q"]},"b":{"type":"Building","children":["p"]}'
        ),
    ],
    words=["--tree"],
)
case(
    "a-child-by-an-escape",
    [
        H,
        feature(
            '"b":{"type":"Building","children":["\\u0070"]},"p":{"type":"BuildingPart","parents":["b"]}'
        ),
    ],
    words=["--tree"],
)

section("ids, types and LoDs")
case("asked-for-by-its-id", [H, F], words=["--id", "b1"])
case("asked-for-by-another-id", [H, F], words=["--id", "b2"], kept=[1])
case("asked-for-by-one-of-two-ids", [H, F], words=["--id", "b2,b1"])
case("asked-for-by-its-type", [H, F], words=["--type", "Building"])
case("asked-for-by-its-lod", [H, F], words=["--lod", "2.2"])
case("asked-for-by-a-front-of-its-lod", [H, F], words=["--lod", "2"], kept=[1])
case("asked-for-by-its-lod-and-another-id", [H, F], words=["--lod", "2.2", "--id", "b2"], kept=[1])

# ---- a feature cut short, and with one byte that is no UTF-8, at each place
for count in range(1, 210):
    case(f"cut/{count:03}", [H, F[:count]], 4, count)
for at in range(210):
    case(f"not-utf8/{at:03}", [H, F.encode()[:at] + b"\x80" + F.encode()[at + 1 :]], 3, at)

# ---- each type of CityJSON 2.0, and the same behind the sign of extensions, where these are known
LEVELS = (
    "Bridge Building CityFurniture CityObjectGroup GenericCityObject LandUse OtherConstruction PlantCover Railway Road"
    " SolitaryVegetationObject TINRelief TransportSquare Tunnel WaterBody Waterway",
    "BridgeConstructiveElement BridgeFurniture BridgeInstallation BridgePart BridgeRoom BuildingConstructiveElement"
    " BuildingFurniture BuildingInstallation BuildingPart BuildingRoom BuildingStorey BuildingUnit"
    " TunnelConstructiveElement TunnelFurniture TunnelHollowSpace TunnelInstallation TunnelPart",
)
for level, names in enumerate(LEVELS):
    for name in names.split():
        lines = [H, feature(f'"b":^{{"type":"{name}"}}' if level else f'"b":{{"type":"{name}"}}')]
        case(f"extensions/{name}", lines, 10 if level else None, words=EXTENDED)
        case(f"extensions/plus-{name}", [H, of_type(f'"+{name}"')], words=EXTENDED)
