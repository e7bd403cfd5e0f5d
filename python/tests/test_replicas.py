"""Tests of the views that are proposed for questions, and of what a slice goes to."""
import itertools
import random
import unittest
from typing import FrozenSet, Sequence

import cubetree
from cubetree.design import sample
from cubetree.design.replicas import MOST_EXACT, different, smallest_views
from cubetree.design.views import Needs, View, needs_of
from cubetree.questions import question_of
from tests.helpers import Case, ask, load

NAMES = ("part", "shop", "year", "month")
NUMBERS = ("year", "month")


def taken(views: Sequence[View], points: Sequence[int], needs: Needs) -> View:
    """The view that the program takes, by one rule after the other."""
    left = [(view, count) for view, count in zip(views, points) if needs.attributes <= set(view)]
    left = [(view, count) for view, count in left if count == min(count for _, count in left)]
    suffixes = [
        len(list(itertools.takewhile(needs.equal.__contains__, view[::-1]))) for view, _ in left
    ]
    return left[suffixes.index(max(suffixes))][0]


def is_run(view: View, needs: Needs) -> bool:
    """Whether the last attributes are those with an equality, each of them, and just before them
    stands that with a range, if there is one."""
    bound = len(needs.equal)
    tail, before = view[len(view) - bound :], view[: len(view) - bound][-1:]
    return set(tail) == needs.equal and (not needs.ranges or needs.ranges == set(before))


class Search(unittest.TestCase):
    """The smallest set of views."""

    def views_for(self, *texts: str, sizes: Sequence[int] = (2, 3, 5, 7)) -> "list[str]":
        """The views for some questions, where all combinations of so many values are there."""
        needs = [needs_of(question_of(text), NUMBERS) for text in texts]
        return [
            ",".join(view)
            for view in smallest_views(needs, NAMES, lambda names: self.product(names, sizes))
        ]

    def product(self, names: FrozenSet[str], sizes: Sequence[int]) -> int:
        """How many combinations there are."""
        count = 1
        for name in names:
            count *= sizes[NAMES.index(name)]
        return count

    def test_by_hand(self) -> None:
        """Each order is the one that a person finds."""
        for texts, views in [
            (["count"], [""]),
            (["count by year", "count by part"], ["part,year"]),
            (["count by part where year=1"], ["part,year"]),
            (["count where part=a and year=1"], ["part,year"]),
            (["count by shop where part=a and year=1..2"], ["shop,year,part"]),
            (
                ["count by shop where year=5..5", "count where month=1..3 and year=1"],
                ["shop,month,year"],
            ),
            (
                ["count by part where year=1", "count by year where part=a"],
                ["part,year", "year,part"],
            ),
            (
                ["count by part where year=1", "count by part where year=1 and shop=b"],
                ["part,shop,year"],
            ),
            (
                [
                    "count where year=1",
                    "count by part where month=1..2 and year=3",
                    "count where year=1 and month=1 and shop=a",
                ],
                ["part,shop,month,year"],
            ),
            (
                ["count by part where year=1 and month=1..6", "count by month where part=a"],
                ["part,month,year", "month,part"],
            ),
        ]:
            with self.subTest(texts):
                self.assertEqual(self.views_for(*texts), views)

    def test_smaller_view_in_the_way(self) -> None:
        """The view for shops by part would be taken for the first question, being smaller,
        unless it has the year as well."""
        texts = [
            "count by shop where part=a",
            "count by shop,year where part=a",
            "count by part where shop=b",
        ]
        self.assertEqual(self.views_for(*texts), ["shop,year,part", "part,year,shop"])
        # Where one more view costs nothing in the way, there are three.
        self.assertEqual(self.views_for(*texts[1:]), ["shop,year,part", "part,shop"])

    def test_no_run(self) -> None:
        """Two ranges have no order, and of two ranges behind the same equalities the first one
        has its order."""
        self.assertEqual(self.views_for("count where year=1..2 and month=1..2"), ["year,month"])
        self.assertEqual(
            self.views_for(
                "count by month where year=1..2 and part=a",
                "count by year where month=1..2 and part=a",
            ),
            ["month,year,part"],
        )
        self.assertEqual(
            len(
                different(
                    [
                        needs_of(question_of(f"count by {a} where {b}=1..2 and part=a"), NUMBERS)
                        for a, b in (NUMBERS, NUMBERS[::-1])
                    ]
                )
            ),
            1,
        )

    def test_drawn(self) -> None:
        """The view that the program takes is the right one for each question, and no set of
        fewer views, or of as many with fewer points, is."""
        draw = random.Random(26)
        for number in range(300):
            names = NAMES[: draw.choice([2, 3, 3, 4])]
            asked = [
                self.drawn(draw, names) for _ in range(draw.randint(1, 5 if len(names) < 4 else 3))
            ]
            sizes = [draw.randint(1, 9) for _ in NAMES]
            with self.subTest(number):
                self.expect_right(asked, names, sizes, is_least=min(sizes) > 1)

    def test_many_drawn(self) -> None:
        """The same of many questions, where it need not be the smallest set."""
        draw = random.Random(27)
        for number in range(5):
            asked = [self.drawn(draw, NAMES) for _ in range(60)]
            self.assertGreater(len(different(asked)), MOST_EXACT)
            with self.subTest(number):
                self.expect_right(asked, NAMES, [draw.randint(1, 9) for _ in NAMES], is_least=False)

    def drawn(self, draw: random.Random, names: Sequence[str]) -> Needs:
        """What some question needs."""
        kinds = {
            name: draw.choice(["group", "group", "equal", "equal", "range", "none"])
            for name in names
        }
        named = {
            kind: frozenset(name for name in names if kinds[name] == kind)
            for kind in kinds.values()
        }
        return Needs(
            frozenset(names) - named.get("none", frozenset()),
            named.get("equal", frozenset()),
            named.get("range", frozenset()),
        )

    def expect_right(
        self, asked: Sequence[Needs], names: Sequence[str], sizes: Sequence[int], is_least: bool
    ) -> None:
        """Looks at the views for some questions."""
        views = smallest_views(asked, names, lambda attributes: self.product(attributes, sizes))
        points = [self.product(frozenset(view), sizes) for view in views]
        bound = different(asked)
        self.assertEqual(len(set(views)), len(views))
        for needs in asked:
            self.assertTrue(needs.attributes <= set(taken(views, points, needs)))
        for needs in bound:
            self.assertTrue(is_run(taken(views, points, needs), needs), (views, needs))
        if is_least:
            self.expect_least(bound, names, sizes, len(views), sum(points))

    def expect_least(
        self,
        bound: Sequence[Needs],
        names: Sequence[str],
        sizes: Sequence[int],
        most: int,
        size: int,
    ) -> None:
        """Looks at all smaller sets of views."""
        every = [
            view for count in range(len(names) + 1) for view in itertools.permutations(names, count)
        ]
        points = {view: self.product(frozenset(view), sizes) for view in every}
        for count in range(1, min(most, 2 if len(names) == 4 else 3) + 1):
            for views in itertools.permutations(every, count):
                counts = [points[view] for view in views]
                if count < most or sum(counts) < size:
                    served = all(
                        any(needs.attributes <= set(view) and is_run(view, needs) for view in views)
                        for needs in bound
                    )
                    self.assertFalse(
                        served
                        and all(is_run(taken(views, counts, needs), needs) for needs in bound),
                        (views, bound),
                    )


class Sampled(unittest.TestCase):
    """Different rows of a file, of which some are kept."""

    def setUp(self) -> None:
        self.addCleanup(setattr, sample, "MOST", sample.MOST)
        sample.MOST = 1000

    def test_estimates(self) -> None:
        """What is all different or all seen is told exactly, and what is drawn nearly."""
        kept, draw = sample.Sample(["number", "parity", "drawn"]), random.Random(28)
        drawn = [draw.randrange(20_000) for _ in range(40_000)]
        for number, value in enumerate(drawn):
            kept.see((str(number), str(number % 2), str(value)))
        self.assertLessEqual(len(kept.rows), 2000)
        for names, count in [
            ([], 1),
            (["parity"], 2),
            (["number"], 40_000),
            (["parity", "number"], 40_000),
        ]:
            self.assertEqual(kept.different(names), count)
        self.assertAlmostEqual(kept.different(["drawn"]) / len(set(drawn)), 1, delta=0.2)
        self.assertAlmostEqual(
            kept.different(["number"], lambda row: row[1] == "0"), 20_000, delta=2000
        )

    def test_few(self) -> None:
        """Of a short file all rows are kept."""
        kept = sample.Sample(["a", "b"])
        for number in range(2000):
            kept.see((str(number % 7), str(number % 11)))
        self.assertEqual(
            [kept.different(names) for names in ([], ["a"], ["b"], ["a", "b"])], [1, 7, 11, 77]
        )
        self.assertEqual(kept.different(["b"], lambda row: row[0] == "x"), 0)


class Explained(Case):
    """What a slice goes to, over two orders of 126 points, which are two leaves each with their
    top."""

    SCHEMA = "attr part text\nattr year number\nmeasure qty\nview part,year\nview year,part\n"

    def setUp(self) -> None:
        super().setUp()
        with cubetree.open("w") as warehouse:
            warehouse.declare(self.SCHEMA)
            warehouse.load((f"p{part}", year, part) for year in (1, 2) for part in range(63))

    def test_pages(self) -> None:
        """By years a leaf has one year. By parts the first leaf ends within the 32nd part."""
        by_year, by_part = ("part", "year"), ("year", "part")
        with cubetree.open("w") as warehouse:
            for text, view, suffix, run, pages in [
                ("count by part where year=1", by_year, 1, True, 2),
                ("count by part where year=1..2", by_year, 0, True, 3),
                ("count by part where year=2..2", by_year, 0, True, 2),
                ("count by part where year=2..1", by_year, 0, True, 1),
                ("count by year where part=p0", by_part, 1, True, 2),
                ('count by year where part="p31"', by_part, 1, True, 3),
                ("count by year where part=none", by_part, 1, True, 1),
                ("count where part=p30 and year=1..1", by_part, 1, True, 2),
                ("count where part=p31 and year=1..1", by_part, 1, True, 3),
                ("count where part=p5 and year=1", by_year, 2, True, 2),
                ("count", by_year, 0, True, 3),
            ]:
                with self.subTest(text):
                    self.assertEqual(warehouse.explain(text), cubetree.Choice(view, suffix, run))
                    self.assertEqual(
                        warehouse.visits(text), (cubetree.Choice(view, suffix, run), pages, 3)
                    )

    def test_wide_pages(self) -> None:
        """In format 2 a leaf has 56 points."""
        with cubetree.open("w") as warehouse:
            warehouse.load([("p0", (1 << 63) - 1, 1)])
            for text, pages in [
                (f"count by part where year={(1 << 63) - 1}", 2),
                ("count by part where year=1", 3),
                ("count by year where part=p62", 2),
            ]:
                self.assertEqual(warehouse.visits(text)[1:], (pages, 4))

    def test_refusals(self) -> None:
        with cubetree.open("w") as warehouse:
            for text, reply in [
                ("count by colour", "refused attribute 10"),
                ("count by", "refused syntax 6"),
                ("count where year=x", "refused value 18"),
            ]:
                for call in (warehouse.explain, warehouse.visits):
                    with self.assertRaises(cubetree.Refused) as caught:
                        call(text)
                    self.assertEqual(caught.exception.reply, reply)
            # A refusal leaves a batch that is pending as it is.
            warehouse.begin([("p0", 1, 1)])
            with self.assertRaises(cubetree.Refused):
                warehouse.explain("count by colour")
            self.assertEqual(warehouse.finish(), 127)

    def test_ask(self) -> None:
        told = ask("--in", "w", "--explain", "count by year where part=p0")[0]
        self.assertEqual(
            told,
            "view   year,part\nrun    yes: what it needs is one part of the view\npages  2 of 3\n",
        )
        told = ask(
            "--in",
            "w",
            "--explain",
            "--csv",
            given=b"count by year where part=p0\n\nslice count by part where year=1\n",
        )[0]
        self.assertEqual(
            told,
            (
                'view,suffix,run,pages,of\n"year,part",1,yes,2,3\n\n'
                'view,suffix,run,pages,of\n"part,year",1,yes,2,3\n'
            ),
        )
        self.assertEqual(
            ask("--in", "w", "--explain", "--json", "count")[0],
            '{"view": "part,year", "suffix": 0, "run": "yes", "pages": 3, "of": 3}\n',
        )
        self.assertIn(
            (
                "refused attribute 10: no attribute has this name; there are part, year; a level"
                " needs --level NAME ATTR FILE\n"
            ),
            ask("--in", "w", "--explain", "count by colour", status=1)[1],
        )


class Proposed(Case):
    """load-csv --ask: the schema for questions."""

    ROWS = ["part,shop,year,qty,note"] + [
        f"{part},{shop},{year},{year - 2000},x y"
        for part in ("bolt", "nut")
        for shop in (1, 2, 3)
        for year in (2001, 2002)
    ]

    def setUp(self) -> None:
        super().setUp()
        self.put("file", "\n".join(self.ROWS))

    def propose(self, *texts: str, **more: int) -> "tuple[str, str]":
        self.put("asked", "".join(text + "\n" for text in texts))
        told: "tuple[str, str]" = load("--propose", "--ask", "asked", "file", **more)
        return told

    def test_by_hand(self) -> None:
        texts = [
            "slice sum(qty) by part where year=2001",
            "# mine",
            "",
            "sum(qty) by year where part=bolt",
            "count by part where year=2001..2002 and shop=3",
            "max(qty) by shop",
        ]
        lines = self.propose(*texts)[0].splitlines()
        self.assertEqual(
            lines,
            [
                "schema",
                "# part: 2 different values",
                "attr part text",
                "# shop: 3 different values, 1 to 3",
                "attr shop number",
                "# year: 2 different values, 2001 to 2002",
                "attr year number",
                "# qty: 2 different values, 1 to 2",
                "measure qty",
                "# left out, as no question has them: note",
                "# sum(qty) by part where year=2001: view 1, 2 points of it in one part",
                "# sum(qty) by year where part=bolt: view 2, 2 points of it in one part",
                (
                    "# count by part where year=2001..2002 and shop=3: view 3, 4 points of it in"
                    " one part"
                ),
                "# max(qty) by shop: view 3, 12 points of it in one part",
                "# view 1: 4 points, 4,096 bytes on each of the two sides",
                "view part,year",
                "# view 2: 4 points, 4,096 bytes on each of the two sides",
                "view year,part",
                "# view 3: 12 points, 4,096 bytes on each of the two sides",
                "view part,year,shop",
                "end",
            ],
        )
        self.put("schema", "\n".join(lines))
        load("--schema", "schema", "--into", "w", "file")
        with cubetree.open("w") as warehouse:
            for text in (texts[0][6:], texts[3], texts[4], texts[5]):
                self.assertTrue(warehouse.explain(text).run)
        # A load proposes the same by itself.
        self.assertEqual(load("--script", "--ask", "asked", "file")[1].splitlines(), lines)

    def test_no_run(self) -> None:
        told = self.propose(
            "count where year=2001..2002 and shop=1..2",
            "count where year=2001 and shop=1..2",
            "count by shop where year=2001",
            "count by year where shop=1..1",
        )[0]
        self.assertIn(
            (
                "# count where year=2001..2002 and shop=1..2: view 1, 4 points of it, not in one"
                " part: it has two ranges\n"
            ),
            told,
        )
        self.assertIn("# count by year where shop=1..1: view 1, 2 points of it in one part\n", told)
        self.assertRegex(told, "\nview year,shop\n#.*\nview shop,year\n")
        nine = [f"a{number}" for number in range(9)]
        self.put("file", "\n".join([",".join(nine), ",".join("xxxxxxxxx")]))
        told = self.propose(f"count by {','.join(nine)}", "count")[0]
        self.assertIn(
            (
                "refused, as it has 9 attributes and a view at most 8\n# count: view 1, 1 point of"
                " it in one part\n"
            ),
            told,
        )
        self.assertTrue(told.endswith("measure one\n" + told[told.index("# count by") :]))

    def test_columns(self) -> None:
        """What the questions name decides which columns are measures."""
        for texts, wanted in [
            (["count by qty"], ["attr qty number", "measure one", "view qty"]),
            (
                ["sum(year),sum(shop) by part"],
                ["attr part text", "measure shop", "measure year", "view part"],
            ),
            (["sum(one) by note"], ["attr note text", "measure one", "view note"]),
            (
                ["sum(one),min(qty) by note"],
                ["attr note text", "measure qty", "measure one", "view note"],
            ),
            (["max(qty)"], ["attr part text", "measure qty", "view"]),
        ]:
            with self.subTest(texts):
                lines = self.propose(*texts)[0].splitlines()
                self.assertEqual(
                    [line for line in lines if not line.startswith("#")], ["schema", *wanted, "end"]
                )

    def test_faults(self) -> None:
        for text, words in [
            (
                "count by colour",
                (
                    "a question names colour, and the header has no such column; its columns are"
                    " part, shop, year, qty, note"
                ),
            ),
            ("sum(part)", "the questions sum part, and not all of its values are whole numbers"),
            ("sum(qty) by qty", "the questions sum qty, and group by it or bind it too"),
            (
                "count where year=soon",
                "year has whole numbers, and soon is neither one nor a range",
            ),
            (
                "count by part,part",
                "asked: this is no slice, since it names an attribute twice: count by part,part",
            ),
            ("status", "asked: this is no slice: status"),
            ("# nothing", "asked: there is no question"),
        ]:
            with self.subTest(text):
                self.assertIn(words, self.propose(text, status=1)[1])
        load("--propose", "--ask", "asked", "--schema", "schema", "file", status=2)
        self.assertIn("No such file", load("--propose", "--ask", "none", "file", status=1)[1])
