"""Tests of audit."""
import contextlib
import os
import random
import re
import shutil
import subprocess

import cubetree
from cubetree.format.diagnose import SideLook, look
from cubetree.format.files import live_body
from cubetree.format.nodes import Layout
from cubetree.process import program
from tests.helpers import CUBE, SCHEMA, Case, run

FACTS = [("bolt", 1997, 5), ("nut", 1997, -2), ("bolt", 1998, 4)]
BLIND = "An audit does not see damage after which all rules hold.\n"
STATE_A = "w is sound: 3 facts in 6 points of 3 views, on 4 pages of side1\n" + BLIND
MANY = [
    "attr part text",
    "attr year number",
    "attr shop text",
    "measure qty",
    "measure cost",
    "view part,year",
    "view",
    "view year,part",
    "view shop",
    "view part,shop",
    "view year",
    "view shop,year,part",
]


class Audits(Case):
    def load(
        self, *batches: "list[tuple[cubetree.codec.Value, ...]]", schema: str = SCHEMA
    ) -> None:
        """Begins the folder anew with these batches."""
        shutil.rmtree("w")
        os.mkdir("w")
        with cubetree.open("w") as warehouse:
            warehouse.declare(schema)
            for batch in batches:
                warehouse.load(batch)

    def audit(self, *words: str, status: int = 0) -> str:
        """What audit prints."""
        told, said = run(CUBE, "audit", *words, "w", status=status)
        self.assertEqual(said, "")
        return told

    def change(self, file: str, offset: int, new: bytes) -> None:
        """Changes bytes of a file."""
        with open(f"w/{file}", "r+b") as changed:
            changed.seek(offset)
            changed.write(new)

    def expect(self, file: str, offset: int, place: str, rule: str) -> None:
        """What an audit says of a folder that is not sound."""
        self.assertEqual(
            self.audit(status=1),
            (
                f"w is not sound: {file} is damaged at byte {offset:,}\n  place  {place}\n  rule  "
                f" {rule}\n"
            ),
        )
        with cubetree.open("w") as warehouse:
            self.assertEqual(warehouse.audit(), (True, file, offset))

    def test_sound(self) -> None:
        self.assertEqual(self.audit(status=1), "w has no schema: there is nothing to audit\n")
        self.load(FACTS)
        self.assertEqual((self.audit(), self.audit("--quiet")), (STATE_A, ""))
        with cubetree.open("w") as warehouse:
            self.assertTrue(warehouse.audit().is_sound)
            warehouse.begin(FACTS)
            self.assertEqual(warehouse.audit(), (True, None, None))
            warehouse.finish()
            warehouse.upgrade()
        self.assertEqual(
            self.audit(),
            "w is sound: 6 facts in 6 points of 3 views, on 4 pages of side1\n" + BLIND,
        )
        self.load()
        self.assertEqual(
            self.audit(),
            "w is sound: 0 facts in 0 points of 3 views, on 0 pages of side0\n" + BLIND,
        )

    def test_pages_by_hand(self) -> None:
        """Each byte is changed by hand in the warehouse of docs/FORMATS.md."""
        one, leaf = (
            "page 1 of 4, leaf 1 of 1 of the view (year)",
            "page 2 of 4, leaf 1 of 1 of the view (part,year)",
        )
        inner = "page 3 of 4, an inner page over 3 leaves of the views (), (year), (part,year)"
        for offset, new, page, place, rule in [
            (
                0x0F,
                b"\x04",
                0,
                "page 0 of 4, leaf 1 of 1 of the view ()",
                "its points have 4 facts; there are 3",
            ),
            (
                0x1F,
                b"\x08",
                0,
                "page 0 of 4, leaf 1 of 1 of the view ()",
                (
                    "its points are not those of the view (year), grouped by its attributes: at its"
                    " one point it has 3 facts with qty 8 from -2 to 5 instead of 3 facts with qty"
                    " 7 from -2 to 5"
                ),
            ),
            (
                0x1000 + 8 + 4 + 8 + 15,
                b"\x04",
                1,
                one,
                (
                    "its points are not those of the view (part,year), grouped by its attributes:"
                    " at year=1997 it has 2 facts with qty 4 from -2 to 5 instead of 2 facts with"
                    " qty 3 from -2 to 5"
                ),
            ),
            (0x1000, b"\x02", 1, one, "its header is not that of a leaf of 1 attribute"),
            (0x1001, b"\x02", 1, one, "its header is not that of a leaf of 1 attribute"),
            (0x1003, b"\x01", 1, one, "it has 1 entry; the numbers of points ask for 2"),
            (0x1004, b"\x01", 1, one, "a byte that has to be zero is not"),
            (0x1FFF, b"\x01", 1, one, "a byte that has to be zero is not"),
            (0x1008, bytes(4), 1, one, "a coordinate is zero"),
            (0x1008, b"\xff", 1, one, "its points do not ascend"),
            (0x100C, bytes(8), 1, one, "a point has no fact, or a least value above its greatest"),
            (
                0x2088,
                b"\x00\x00\x00\x03",
                2,
                leaf,
                "a coordinate of part is 3; those of its values go up to 2",
            ),
            (0x3001, b"\x03", 3, inner, "its header is not that of an inner page of 2 dimensions"),
            (
                0x3020 + 4 + 3,
                b"\xd0",
                3,
                inner,
                "its entry 2 does not have the least box of the points below page 1",
            ),
            (0x304F, b"\x01", 3, inner, "its entry 3 names the page 1; the child is the page 2"),
        ]:
            with self.subTest(hex(offset)):
                self.load(FACTS)
                self.change("side1", offset, new)
                self.expect("side1", 4096 * page, place, rule)
                # A look at any other page finds its way over the damage.
                self.assertTrue(all(look("w", "side1", 4096 * page).what for page in range(4)))
        # A leaf that would be lawful by itself is found by the page above it.
        self.load(FACTS)
        self.change("side1", 0x2088 + 4, b"\x00\x00\x07\xd0")
        self.expect(
            "side1",
            0x3000,
            inner,
            "its entry 3 does not have the least box of the points below page 2",
        )

    def test_leaves_by_hand(self) -> None:
        """The second leaf of a view with a hundred points has those from the 69th on: its first
        coordinate is 69."""
        self.load(
            [(number, 1) for number in range(100)], schema="attr n number\nmeasure q\nview n\n"
        )
        self.assertEqual(self.audit("--quiet"), "")
        for coordinate, rule in [
            (68, "its points do not come after those of the view's leaf before it"),
            (70, "its points do not ascend"),
        ]:
            self.change("side1", 4096 + 8, coordinate.to_bytes(4, "big"))
            self.expect("side1", 4096, "page 1 of 3, leaf 2 of 2 of the view (n)", rule)
        self.assertIn("w is not sound: ", self.audit("--quiet", status=1))
        # The greatest coordinate of format 1 is that of a number, though no batch brings it there.
        self.load([(5, 1)], schema="attr n number\nmeasure q\nview n\n")
        self.change("side1", 8, b"\xff" * 4)
        self.assertEqual(
            self.audit(), "w is sound: 1 fact in 1 point of 1 view, on 1 page of side1\n" + BLIND
        )

    def test_other_files(self) -> None:
        """Files that the program does not open, whatever it is asked."""
        body, name = "body 1 of the root file", "the name at byte {} of the names file"
        for file, offset, new, place, rule in [
            ("root", 1024 + 8, b"\x00\x03", body, "its format is 3; there are 1 and 2"),
            ("root", 1024 + 10, b"\x00\x21", body, "it counts 33 views; there are 1 to 32"),
            ("root", 1024 + 10, b"\x00\x04", body, "it counts 4 views; the schema has 3"),
            ("root", 1024 + 15, b"\x51", body, "it counts 3 views; the schema has 2"),
            ("root", 1024 + 23, b"\x02", body, "its generation is one of the other slot"),
            ("root", 1024 + 104, b"\x01", body, "a view has more points than there are facts"),
            (
                "root",
                1024 + 104 + 24,
                bytes(7) + b"\x01",
                body,
                "a view that the schema does not have has points",
            ),
            (
                "root",
                1024 + 63 + 8,
                b"\x01",
                body,
                "a measure that the schema does not have has a mass",
            ),
            ("root", 2047, b"\x01", body, "a byte after its fields is not zero"),
            (
                "names",
                0,
                b"x",
                "the schema in the names file",
                "it is not the canonical text of a schema",
            ),
            (
                "names",
                0x56,
                b"\x01",
                name.format(86),
                "the attribute with the number 1 has no texts",
            ),
            ("names", 0x5D, b"\x04", name.format(92), "it ends after the bytes that count"),
            ("names", 0x56, b"\x00\x03nut\x00\x04bolt", "", ""),
            ("names", 0x5C, b"\x00\x03nux", "", ""),
        ]:
            self.load(FACTS)
            self.change(file, offset, new)
            with self.subTest((file, offset, new)):
                if place:
                    self.expect(
                        file, {"root": 1024}.get(file, offset if offset < 0x5D else 92), place, rule
                    )
                else:
                    # What an audit does not see: other names, and so other facts.
                    self.assertEqual(self.audit(), STATE_A)
        for text, wanted in [(b"\x00\x04bolt\x00\x04bolt", "part has this text already")]:
            self.load([("bolt", 1997, 5), ("nuts", 1997, -2), ("bolt", 1998, 4)])
            self.change("names", 0x56, text)
            self.expect("names", 92, name.format(92), wanted)
        for file, size, wanted in [
            ("names", 96, "it has 96 bytes; 97 count"),
            ("side1", 16383, "it has 16,383 bytes; its 4 pages have 16,384"),
        ]:
            self.load(FACTS)
            os.truncate(f"w/{file}", size)
            self.expect(
                file, size, "the names file" if file == "names" else "the whole file", wanted
            )
            os.remove(f"w/{file}")
            self.expect(
                file,
                0,
                "the names file" if file == "names" else "the whole file",
                re.sub(r"it has [\d,]+", "it has 0", wanted),
            )

    def drawn(self, draw: random.Random, rows: int) -> "list[tuple[cubetree.codec.Value, ...]]":
        """Rows of the schema with seven views."""
        return [
            (
                f"p{draw.randrange(400)}",
                draw.randrange(1990, 2020),
                f"s{draw.randrange(40)}",
                draw.randrange(-99, 1000),
                draw.randrange(9),
            )
            for _ in range(rows)
        ]

    def test_drawn(self) -> None:
        """Of a warehouse with several trees and levels no page and no view breaks a rule, in
        either format; of one with a byte changed the program names a place, and the look names
        the rule that is broken there."""
        draw = random.Random(49)
        self.load(self.drawn(draw, 4000), self.drawn(draw, 1000), schema="\n".join(MANY))
        for form in (1, 2):
            self.assertEqual(live_body("w").format, form)
            with open(f"w/side{live_body('w').slot}", "rb") as file:
                side = SideLook("w", file)
                self.assertGreater(
                    max(side.layout.top(tree).height for tree in range(len(side.layout.trees))), 1
                )
                self.assertEqual(
                    [
                        side.page_fault(side.layout.node_at(page))
                        for page in range(side.layout.pages)
                    ],
                    [""] * side.layout.pages,
                )
                self.assertEqual([side.view_fault(view) for view in range(7)], [""] * 7)
            self.assertIn("w is sound: 5,000 facts in ", self.audit())
            self.damage(draw, 10)
            with cubetree.open("w") as warehouse:
                warehouse.upgrade()

    def damage(self, draw: random.Random, times: int) -> None:
        """Changes a bit, looks, and puts it back. Of the finest view the least and the greatest
        value of a point need not show in any other view."""
        name, seen = f"side{live_body('w').slot}", 0
        pages = os.stat(f"w/{name}").st_size // 4096
        for _ in range(times):
            offset = 4096 * draw.randrange(pages) + draw.choice(
                [0, 1, 3, 5, draw.randrange(8, 200), draw.randrange(8, 4000)]
            )
            with open(f"w/{name}", "rb") as file:
                file.seek(offset)
                former = file.read(1)
            self.change(name, offset, bytes([former[0] ^ 1 << draw.randrange(8)]))
            with self.subTest(offset=offset), cubetree.open("w") as warehouse:
                audit = warehouse.audit()
                seen += not audit.is_sound
                found = look(
                    "w", name, offset - offset % 4096 if audit.offset is None else audit.offset
                )
                self.assertIn("view (shop,year,part)" if audit.is_sound else " ", found.what)
                self.assertEqual(audit.is_sound, found.rule == "", found)
            self.change(name, offset, former)
        self.assertGreater(seen, times // 2)
        with cubetree.open("w") as warehouse:
            self.assertTrue(warehouse.audit().is_sound)

    def test_layout(self) -> None:
        """Each page is one node, and each leaf one page, also in trees with levels that are just
        full."""
        with cubetree.open("w") as warehouse:
            warehouse.declare(
                ["attr n number", "attr m number", "measure q", "view n", "view m,n", "view m"]
            )
            schema = warehouse.schema
        assert schema
        body = live_body("w")
        for points in [
            (1, 1, 1),
            (68, 63, 68),
            (68 * 170, 1, 68 * 255),
            (68 * 170 + 1, 63 * 170, 68 * 255 + 1),
            (68 * 100, 63 * 70, 0),
            (5, 63 * 170 * 170 + 1, 0),
        ]:
            layout = Layout(schema, body._replace(points=[*points, *[0] * 29]))
            nodes = [layout.node_at(page) for page in range(layout.pages)]
            self.assertEqual([node.page for node in nodes], list(range(layout.pages)))
            self.assertEqual(
                sorted(
                    child.page for node in nodes if node.height for child in layout.children(node)
                ),
                sorted(
                    set(range(layout.pages))
                    - {tree.first + tree.pages - 1 for tree in layout.trees}
                ),
            )
            for view in range(3):
                for leaf in {0, 1, layout.leaves(view) // 2, layout.leaves(view) - 1}:
                    if 0 <= leaf < layout.leaves(view):
                        found = layout.leaf(layout.node_at(layout.page_of(view, leaf)))
                        self.assertEqual(
                            (found.view, found.number, found.of), (view, leaf, layout.leaves(view))
                        )

    def test_progress(self) -> None:
        """On a terminal a line shows how far it is."""
        self.load(FACTS)
        try:
            here, there = os.openpty()
        except OSError:
            self.skipTest("no terminal can be made")
        self.addCleanup(os.close, here)
        self.put(
            "later",
            (
                '#!/bin/sh\nwhile IFS= read -r line; do [ "$line" = audit ] && sleep 0.5; printf'
                f" '%s\\n' \"$line\"; done | {program()}\n"
            ),
        )
        os.chmod("later", 0o755)
        done = subprocess.run(
            [CUBE, "audit", "w"],
            stderr=there,
            stdout=subprocess.PIPE,
            env=dict(os.environ, CUBETREE=os.path.abspath("later")),
            timeout=60,
        )
        os.close(there)
        said = b""
        with contextlib.suppress(OSError):
            while piece := os.read(here, 4096):
                said += piece
        self.assertRegex(said.decode(), r"^\r\d of 4 pages, \d+%(, \d+ s left)?\x1b\[K")
        self.assertEqual(done.stdout.decode(), STATE_A)

    def test_beside_others(self) -> None:
        """An audit takes its turn, and one that is not to wait says so; no lock is left."""
        self.load(FACTS)
        with cubetree.open("w") as warehouse:
            warehouse.begin(FACTS)
            told, said = run(CUBE, "audit", "--no-wait", "w", status=4)
            self.assertEqual((told, said), ("", "cube audit: another run is in w\n"))
        self.assertEqual(self.audit(), STATE_A)
        self.change("side1", 0x1004, b"\x01")
        self.audit(status=1)
        self.assertEqual(subprocess.run(["flock", "-n", "w", "true"]).returncode, 0)

    def test_other_ends(self) -> None:
        self.load(FACTS)
        for stub, status, wanted in [
            (
                "sed -u 's/^audit$/other/' | \"$REAL\"",
                5,
                (
                    "cube audit: refused unknown: the program does not know the command: it is"
                    " older than this package\n"
                ),
            ),
            (
                'head -n 1 | "$REAL"; kill -9 $$',
                3,
                "cube audit: the program ended with the status -9\n",
            ),
        ]:
            self.put("stub", f"#!/bin/sh\n{stub}\n")
            os.chmod("stub", 0o755)
            environment = dict(os.environ, REAL=program(), CUBETREE=os.path.abspath("stub"))
            self.assertEqual(run(CUBE, "audit", "w", status=status, env=environment), ("", wanted))
        for words in (["a", "b"], ["--never", "w"], ["--folder", "a", "b"]):
            run(CUBE, "audit", *words, status=2)
        self.assertIn(
            "cube audit: no such folder: nowhere\n",
            run(CUBE, "audit", "nowhere", status=5)[1],
        )
        self.assertIn("usage", run(CUBE, "audit", "--help")[0])
