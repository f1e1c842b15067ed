"""Whole CityJSON files made by chance, with everything in them, and what they mean.

`meaning` and `meaning_of_stream` resolve all indices with Python's own `json`: a vertex becomes
world coordinates, and an index of a material, texture or template becomes the item. Numbers keep
their spelling, except indices and vertices."""
import json
from decimal import Decimal, localcontext

TYPES = ("Building", "Road", "Bridge", "CityFurniture", "TINRelief")
PARTS = {"Building": "BuildingPart", "Bridge": "BridgeRoom"}
NAMES = ("b{}", "築é {}", 'q"\\/{}', "a\u2028:{}", "🏠{{{}}}", "[,{}")
SCALES = ("0.001", "1e-3", "0.5", "10", "-0.25", "1E+2")
THEMES = ("summer", 'wi"nter', "é")


class Number(str):
    """A number as it is spelled."""


def spelled(chance, value):
    """JSON of a value, with white space and escapes by chance."""

    def gap():
        return chance.choice(("", "", "", " ", "\n", "\t \r\n"))

    def text(string):
        if chance.random() < 0.05:
            return json.dumps(string, ensure_ascii=False).replace("b", "\\u0062")
        return json.dumps(string, ensure_ascii=chance.random() < 0.5)

    def joined(parts, ends):
        return ends[0] + gap() + f"{gap()},{gap()}".join(parts) + gap() + ends[1]

    if isinstance(value, Number):
        return str(value)
    if isinstance(value, str):
        return text(value)
    if isinstance(value, dict):
        parts = [
            f"{text(name)}{gap()}:{gap()}{spelled(chance, each)}" for name, each in value.items()
        ]
        return joined(parts, "{}")
    if isinstance(value, list):
        return joined([spelled(chance, each) for each in value], "[]")
    return json.dumps(value)


class Maker:
    """Makes the parts of a file, and the vertices and the appearance that they need."""

    def __init__(self, chance):
        self.chance = chance
        self.vertices = [self.vertex() for _ in range(chance.randrange(3, 30))]
        materials = [{"name": f"m{at}", "transparency": Number("0.50")} for at in range(3)]
        textures = [{"type": "PNG", "image": f"{at % 2}.png"} for at in range(3)]
        corners = [[Number("0.0"), Number(f"{at}e-1")] for at in range(5)]
        self.lists = {"materials": materials, "textures": textures, "vertices-texture": corners}
        self.has_appearance = chance.random() < 0.7
        self.templates = chance.randrange(3)

    def vertex(self):
        return [
            Number(
                self.chance.choice((str(at), f"{at}.0", f"{at}e0"))
                if self.chance.random() < 0.1
                else str(at)
            )
            for at in (self.chance.randrange(-9, 9) for _ in range(3))
        ]

    def index(self, count):
        at = self.chance.randrange(count)
        return Number(f"{at}.0" if self.chance.random() < 0.05 else str(at))

    def ring(self):
        return [self.index(len(self.vertices)) for _ in range(self.chance.randrange(5))]

    def surface(self):
        return [self.ring() for _ in range(self.chance.randrange(1, 3))]

    def themed(self, geometry):
        """Adds materials and textures to surfaces, parallel to their boundaries."""
        surfaces, chance = geometry["boundaries"], self.chance
        if not self.has_appearance:
            return geometry
        if chance.random() < 0.6:
            values = [chance.choice((None, self.index(3))) for _ in surfaces]
            geometry["material"] = {
                THEMES[0]: {"values": values},
                THEMES[1]: {"value": self.index(3)},
            }
        if chance.random() < 0.6:
            values = [
                [
                    [None]
                    if chance.random() < 0.3
                    else [self.index(3), *(self.index(5) for _ in ring)]
                    for ring in surface
                ]
                for surface in surfaces
            ]
            geometry["texture"] = {THEMES[2]: {"values": values}}
        return geometry

    def geometry(self):
        chance = self.chance
        kind = chance.choice(("MultiPoint", "MultiSurface", "Solid", "GeometryInstance"))
        if kind == "GeometryInstance" and self.templates:
            matrix = [Number(each) for each in "1 0.0 0 0 0 1 0 0 0 0 1e0 0 0 0 0 1".split()]
            return {
                "type": kind,
                "template": Number(str(chance.randrange(self.templates))),
                "boundaries": [self.index(len(self.vertices))],
                "transformationMatrix": matrix,
            }
        made = {"type": "MultiPoint", "lod": "1", "boundaries": self.ring()}
        if kind == "MultiSurface":
            surfaces = [self.surface() for _ in range(chance.randrange(4))]
            made = self.themed({"type": kind, "lod": "2.2", "boundaries": surfaces})
        if kind == "Solid":
            shell = [self.surface() for _ in range(chance.randrange(1, 4))]
            values = [[chance.choice((None, 0, 1)) for _ in shell]]
            kinds = [{"type": "RoofSurface", "children": [1]}, {"type": "+Wall", "parent": 0}]
            made = {"type": kind, "lod": "2", "boundaries": [shell]}
            made["semantics"] = {"surfaces": kinds, "values": values}
        return made

    def attributes(self):
        return {
            "boundaries": [[Number("7")]],
            "material": {"x": {"value": Number("7")}},
            "year": Number("1.990e3"),
            "name": '築 \\ " b',
            "nothing": None,
            "yes": True,
            "big": Number("123456789012345678901234567890.10"),
        }

    def city_object(self, kind):
        made = {"type": kind}
        if self.chance.random() < 0.5:
            made["attributes"] = self.attributes()
        made["geometry"] = [self.geometry() for _ in range(self.chance.randrange(3))]
        if self.chance.random() < 0.3:
            place = {"type": "MultiPoint", "lod": "1", "boundaries": self.ring()}
            made["address"] = [{"street": "b", "location": place}]
        return made

    def objects(self, first, count):
        """City objects with a first level of so many. Buildings and bridges have parts."""
        found, mains, shared = {}, [], None
        for number in range(first, first + count):
            kind = self.chance.choice(TYPES)
            name = self.chance.choice(NAMES).format(number)
            main = found[name] = self.city_object(kind)
            mains.append(name)
            if kind not in PARTS or self.chance.random() < 0.4:
                continue
            parts = [f"{name}-{part}" for part in range(self.chance.randrange(1, 3))]
            for part in parts:
                found[part] = {**self.city_object(PARTS[kind]), "parents": [name]}
            main["children"] = parts
            if kind == "Building" and shared is not None and self.chance.random() < 0.5:
                main["children"] = [*parts, shared]
                found[shared]["parents"].append(name)
            shared = parts[0] if kind == "Building" else shared
        if count > 1 and self.chance.random() < 0.5:
            found["group"] = {"type": "CityObjectGroup", "children": mains, "children_roles": ["b"]}
        if self.chance.random() < 0.5:  # parts before what they are part of
            found = dict(reversed(list(found.items())))
        return found

    def appearance(self):
        return {"default-theme-material": THEMES[0], **self.lists}

    def templates_member(self):
        corners = [[Number("0.0"), Number("1"), Number(f"{at}.50")] for at in range(4)]
        made = [
            self.themed(
                {
                    "type": "MultiSurface",
                    "lod": "1",
                    "boundaries": [[[Number(str(self.chance.randrange(4))) for _ in range(3)]]],
                }
            )
            for _ in range(self.templates)
        ]
        return {"templates": made, "vertices-templates": corners}

    def root(self):
        """The members of the root, but for city objects and vertices."""
        scale = [Number(self.chance.choice(SCALES)) for _ in range(3)]
        translate = [Number(self.chance.choice(("0", "1e3", "-12.250"))) for _ in range(3)]
        made = {
            "type": "CityJSON",
            "version": "2.0",
            "transform": {"scale": scale, "translate": translate},
            "metadata": {"title": "b \\ é", "geographicalExtent": [Number("0.10")] * 6},
            "extensions": {"Noise": {"url": "http://example.org/n.json", "version": "1.0"}},
            "+census": {"vertices": [Number("1.0")]},
        }
        if self.templates:
            made["geometry-templates"] = self.templates_member()
        return made

    def file(self):
        """A whole file."""
        members = {
            **self.root(),
            "CityObjects": self.objects(0, self.chance.randrange(5)),
            "vertices": self.vertices,
        }
        if self.has_appearance:
            members["appearance"] = self.appearance()
        names = list(members)
        self.chance.shuffle(names)
        return spelled(self.chance, {name: members[name] for name in names}).encode()

    def stream(self):
        """A stream whose features have one city object of the first level each."""
        root = {**self.root(), "CityObjects": {}, "vertices": []}
        themes = {"default-theme-material": THEMES[0]}
        if self.has_appearance:
            root["appearance"] = self.appearance()
        lines = [root]
        for number in range(self.chance.randrange(5)):
            objects = self.objects(number, 1)
            name = next(name for name, each in objects.items() if "parents" not in each)
            made = {"type": "CityJSONFeature", "id": name, "CityObjects": objects}
            made["vertices"] = self.vertices
            if self.has_appearance:
                made["appearance"] = {**themes, **self.lists}
            lines.append(made)
        texts = [spelled(self.chance, line).replace("\n", " ") for line in lines]
        return "".join(text + "\n" for text in texts).encode()


# ---- what a file means


def read(text):
    """JSON with numbers as they are spelled."""
    return json.loads(text, parse_float=Number, parse_int=Number)


def mapped(value, function):
    """Lists with a function of each item that is no list."""
    if isinstance(value, list):
        return [mapped(each, function) for each in value]
    return None if value is None else function(int(Decimal(value)))


class Meaning:
    """What the indices of a feature or of a file stand for."""

    def __init__(self, transform, vertices, appearance, templates=()):
        with localcontext() as context:
            context.prec = 99
            self.vertices = [
                [
                    (Decimal(at) * Decimal(scale) + Decimal(by)).normalize()
                    for at, scale, by in zip(vertex, transform["scale"], transform["translate"])
                ]
                for vertex in vertices
            ]
        names = ("materials", "textures", "vertices-texture")
        self.materials, self.textures, self.corners = (appearance.get(name, []) for name in names)
        self.templates = templates

    def textured(self, value):
        if value and not isinstance(value[0], list):
            first, *rest = value
            texture = mapped(first, self.textures.__getitem__)
            return [texture, *mapped(rest, self.corners.__getitem__)]
        return [self.textured(each) for each in value]

    def geometry(self, geometry, vertices=None):
        made = dict(geometry)
        vertices = self.vertices if vertices is None else vertices
        made["boundaries"] = mapped(geometry["boundaries"], vertices.__getitem__)
        for theme, each in geometry.get("material", {}).items():
            found = {
                name: mapped(value, self.materials.__getitem__) for name, value in each.items()
            }
            made["material"] = {**made["material"], theme: found}
        for theme, each in geometry.get("texture", {}).items():
            made["texture"] = {theme: {"values": self.textured(each["values"])}}
        if "template" in geometry:
            made["template"] = self.templates[int(geometry["template"])]
        return made

    def objects(self, objects):
        found = {}
        for name, each in objects.items():
            found[name] = made = dict(each)
            if "geometry" in each:
                made["geometry"] = [self.geometry(geometry) for geometry in each["geometry"]]
            if "address" in each:
                made["address"] = [
                    {**place, "location": self.geometry(place["location"])}
                    for place in each["address"]
                ]
        return found


def themes(appearance):
    return {name: each for name, each in appearance.items() if not isinstance(each, list)}


def templates_of(root):
    member = root.get("geometry-templates", {"templates": [], "vertices-templates": []})
    means = Meaning(root["transform"], [], root.get("appearance", {}))
    return [means.geometry(each, member["vertices-templates"]) for each in member["templates"]]


def root_of(root):
    """What the members of the root mean, but for its city objects."""
    own = ("CityObjects", "vertices", "geometry-templates", "appearance")
    made = {name: each for name, each in root.items() if name not in own}
    return {**made, "templates": templates_of(root), "themes": themes(root.get("appearance", {}))}


def meaning(text):
    """What a whole file means."""
    root = read(text)
    means = Meaning(
        root["transform"], root["vertices"], root.get("appearance", {}), templates_of(root)
    )
    return root_of(root), means.objects(root["CityObjects"])


def meaning_of_stream(text):
    """What a stream means: the header, and the id, the city objects and the themes of features."""
    header, *lines = map(read, text.rstrip(b"\n").split(b"\n"))
    found = []
    for line in lines:
        appearance = line.get("appearance", {})
        means = Meaning(header["transform"], line["vertices"], appearance, templates_of(header))
        found.append((line["id"], means.objects(line["CityObjects"]), themes(appearance)))
    return root_of(header), found
