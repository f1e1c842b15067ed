"""The map and the histogram of a page, and the cells that a map counts features by."""
import random
import unittest
from collections import Counter

from cityseq.delivery import facts

from . import made_up
from .test_page import MISSING, Elements

if MISSING is None:
    from cityseq.delivery import areas
    from cityseq.delivery import charts
    from cityseq.delivery import charts as drawing


@unittest.skipIf(MISSING, MISSING)
class Drawings(unittest.TestCase):
    def elements(self, svg):
        found = Elements(svg)
        self.assertEqual(found.open, [])
        self.assertEqual(
            [
                pair
                for pair in found.attributes
                if pair[1] in ("style", "href", "clip-path", "onload")
            ],
            [],
        )
        return found

    def test_a_map_of_extents_has_one_path(self):
        made = charts.map_of(made_up.area(), "a")
        found = self.elements(made.svg)
        self.assertEqual(("path", "class", "fill-extent") in found.attributes, True)
        self.assertEqual(made.shades, [])
        self.assertEqual(made.hidden, 1)
        self.assertIn("900 features, each by its extent, and 30 crosses", made.told)

    def test_a_map_of_cells_is_small(self):
        made = charts.map_of(made_up.area(cells=True), "a")
        self.elements(made.svg)
        self.assertLess(len(made.svg), 120_000)
        self.assertEqual(
            [made.shades[0][1], made.shades[-1][2]],
            [1, max(made_up.area(cells=True).cells.values())],
        )

    def test_any_extent_can_be_drawn(self):
        chance = random.Random(3)
        for _ in range(60):
            x, y = (chance.choice((-1, 1)) * 10.0 ** chance.randrange(-18, 140) for _ in range(2))
            wide, high = (chance.choice((0, 10.0 ** chance.randrange(-18, 140))) for _ in range(2))
            made = facts.Area(
                None, features=1, extents=[(x, y, x + wide, y + high)], spots=[(x, y), (-x, 1e149)]
            )
            svg = charts.map_of(made, "a").svg
            self.elements(svg)
            self.assertNotRegex(svg, "nan|inf")

    def test_strays_are_drawn_apart(self):
        made = made_up.area()
        self.assertEqual(charts.map_of(made, "a").overview, "")
        made.places, made.apart = [(0.0, 0.0, 10.0, 10.0)], 1
        made.strays = [facts.Named("f", 3, "<b>", (5.0, 5.0))]
        found = charts.map_of(made, "a")
        self.elements(found.overview)
        self.assertIn("1 features far from the others", found.overview)
        self.assertIn(">1</text>", found.overview)
        self.assertIn("899 features, each by its extent", found.told)

    def test_a_coarse_map_counts_all_features(self):
        for cells in (False, True):
            made = made_up.area(cells)
            found = charts.coarse(made)
            self.assertEqual(sum(found.cells.values()), made.features)
            self.assertLessEqual(len(found.cells), charts.COARSE**2)
            svg = charts.map_of(found, "a").svg
            self.elements(svg)
            self.assertLess(len(svg), 12_000)
        for far in (0.0, 1e-300, 1e149):
            self.assertEqual(
                sum(
                    charts.coarse(
                        facts.Area(None, features=1, extents=[(far, -far, far, -far)])
                    ).cells.values()
                ),
                1,
            )

    def test_invalid_features_alone_make_a_map(self):
        self.assertIn("0 features", charts.map_of(facts.Area(None, spots=[(1.0, 2.0)]), "a").told)

    def test_a_histogram_of_any_lengths(self):
        for lengths in (
            {6: 1},
            {6: 1, 30: 10**9},
            {n: n for n in range(6, 31)},
            made_up.file("x").contents.lengths,
        ):
            self.elements(charts.histogram(lengths, "a"))

    def test_titles_are_text(self):
        made, _ = drawing.figure(100, 50, 20)
        svg = drawing.drawn(made, "a", "<script>", "</svg>&")
        self.assertIn("&lt;script&gt;", svg)
        self.assertIn("&lt;/svg&gt;&amp;", svg)


@unittest.skipIf(MISSING, MISSING)
class Grids(unittest.TestCase):
    def test_each_centre_is_counted_in_its_cell(self):
        chance = random.Random(4)
        for _ in range(40):
            grid, centres = areas.Grid(), []
            for _ in range(chance.randrange(1, 5)):
                middle, spread = chance.uniform(-1e6, 1e6), 10.0 ** chance.randrange(-3, 7)
                some = [
                    (chance.gauss(middle, spread), chance.gauss(-middle, spread))
                    for _ in range(chance.randrange(1, 3_000))
                ]
                centres += some
                grid.add(*(areas.np.array(axis) for axis in zip(*some)))
                if chance.random() < 0.5:
                    grid.cells()
            size, cells, far = grid.cells()
            wanted = {}
            for x, y in centres:
                cell = int(x // size), int(y // size)
                wanted[cell] = wanted.get(cell, 0) + 1
            self.assertEqual({**cells, **far}, wanted)
            self.assertLessEqual(sum(far.values()), max(1, len(centres) // areas.NEARLY_ALL))
            for axis in (0, 1):
                self.assertLessEqual(
                    max(cell[axis] for cell in cells) - min(cell[axis] for cell in cells),
                    areas.GRID,
                )

    def test_counts_of_cells(self):
        """Cells are added up alike, near to each other or far from each other."""
        chance = random.Random(5)
        for reach in (1, 3, 50, 1_500, 10**9):
            cells = [tuple(chance.randrange(-reach, reach) for _ in "xy") for _ in range(300)]
            counts = [chance.randrange(1, 9) for _ in cells]
            for given in (None, counts):
                wanted = Counter()
                for cell, count in zip(cells, given or [1] * len(cells)):
                    wanted[cell] += count
                columns, rows = (areas.np.array(axis) for axis in zip(*cells))
                told = None if given is None else areas.np.array(given)
                found = [each.tolist() for each in areas._added_up(columns, rows, told)]
                self.assertEqual(sorted(zip(*found)), sorted((*c, n) for c, n in wanted.items()))

    def test_the_farthest_of_many_parts(self):
        chance, rim, middles = random.Random(6), areas.Rim(), []
        for size in (3, 500, 40, 1, 2_000):
            part = [(chance.gauss(0, 99), chance.gauss(0, 99)) for _ in range(size)]
            names = [facts.Named("f", len(middles) + n, "id", each) for n, each in enumerate(part)]
            middles += part
            rim.add(*(areas.np.array(axis) for axis in zip(*part)), names.__getitem__)
        for side, way in zip(
            rim._sides, (lambda p: p[0], lambda p: -p[0], lambda p: p[1], lambda p: -p[1])
        ):
            farthest = sorted(middles, key=way, reverse=True)[: areas.MOST_STRAYS]
            self.assertEqual([each.middle for _, each in side], farthest)

    def test_few_features_keep_their_extents(self):
        place = areas.Place(None)
        edges = areas.np.arange(10.0)
        place.add(edges, edges + 1, edges, edges + 2)
        self.assertEqual(place.area().extents[3], (3.0, 3.0, 4.0, 5.0))
        many = areas.np.zeros(areas.FEW)
        place.add(many, many, many, many)
        self.assertEqual((place.area().extents, place.area().features), ([], areas.FEW + 10))

    def test_what_is_no_place_is_left_out(self):
        place, edges = areas.Place(None), areas.np.array(
            [0.0, 1e200, areas.np.inf, areas.np.nan, -areas.np.inf]
        )
        place.add(edges, edges, edges, edges)
        place.mark([(areas.np.nan, 0.0), (1.0, 2.0), (1e300, 0.0)])
        self.assertEqual((place.area().features, place.area().spots), (1, [(1.0, 2.0)]))

    def test_a_stray_feature_is_apart_and_has_a_name(self):
        """The others keep the map to themselves, whether they are few or many."""
        chance = areas.np.random.default_rng(5)
        for count in (20, 1_000, 150_000):
            for far in ((0.0, 0.0), (85_000.0, 1e12), (-1e9, 450_000.0)):
                place = areas.Place(None)
                x = chance.uniform(84_000, 86_000, count)
                y = chance.uniform(447_000, 449_000, count)
                x[count // 3], y[count // 3] = far
                place.add(
                    x,
                    x + 10,
                    y,
                    y + 10,
                    lambda number, middle: facts.Named("f", number + 2, f"i{number}", middle),
                )
                area = place.area()
                view = charts.view_of(area)
                self.assertLess(view.width, 2_400)
                self.assertEqual((area.apart, area.features), (1, count))
                self.assertEqual(
                    area.strays,
                    [facts.Named("f", count // 3 + 2, f"i{count // 3}", (far[0] + 5, far[1] + 5))],
                )
                if count > areas.FEW:
                    self.assertGreater(len(area.cells), 500)

    def test_a_town_of_its_own_is_not_apart(self):
        for x in (
            [0, 1, 1_000, 1_001],
            [0, 1_000],
            [0],
            [5, 5, 5, 5],
            list(range(100)),
            [0] * 90 + [1_000_000] * 10,
            [*range(50), *range(10_000, 10_050)],
        ):
            place, x = areas.Place(None), areas.np.array(x, "f8")
            place.add(x, x, x, x)
            self.assertEqual(place.area().apart, 0, x)

    def test_strays_beyond_those_that_are_named(self):
        x = areas.np.concatenate((areas.np.linspace(0, 100, 5_000), 1e6 + areas.np.arange(60.0)))
        place = areas.Place(None)
        place.add(x, x + 1, x, x + 1, lambda number, middle: facts.Named("f", number, "a", middle))
        area = place.area()
        self.assertEqual((area.apart, len(area.strays)), (60, areas.MOST_STRAYS))

    def test_a_box_around_boxes(self):
        self.assertEqual(areas.joined(["0.5,1,2,3", "-1,1.25,2,2.000"]), "-1,1,2,3")
        self.assertEqual((areas.joined([]), areas.joined(["0,0,1,1", None])), (None, None))


if __name__ == "__main__":
    unittest.main()
