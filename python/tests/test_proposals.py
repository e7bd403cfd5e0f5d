"""Tests of the schemas that are proposed for csv files, and of what is doubtful about them."""
from typing import List

import pytest

from cubetree import Fault, Schema
from cubetree.csvfile.tables import Table
from cubetree.design import proposals
from cubetree.design.proposals import Asked, Doubt, Told, proposal, questions_in
from cubetree.values import TEXT, WHOLE_NUMBER, Kind


@pytest.fixture
def put(tmp_path):
    """Writes a file, and says its path."""
    number = 0

    def put(content):
        nonlocal number
        number += 1
        path = tmp_path / f"file{number}"
        path.write_bytes(content if isinstance(content, bytes) else content.encode())
        return str(path)

    return put


def words(lines: List[str]) -> List[str]:
    """The lines of a schema without comments."""
    return [line for line in lines if not line.startswith("#")]


SALES = (
    "Day,Shop,Customer,Item,Qty,Price,Note\n"
    "2025-03-14,north,17,bolt,5,12.50,\n"
    "2025-03-14,north,18,nut,2,0.8,x\n"
    "2025-03-15,south,17,nut,1,12,\n"
)


def test_proposal(put):
    found = proposal(Table(put(SALES)))
    assert found.lines == [
        "schema",
        (
            "# day: 2 different values, 2025-03-14 to 2025-03-15; days (a guess: --text day keeps"
            " it as text)"
        ),
        "attr day number",
        "# shop: 2 different values",
        "attr shop text",
        (
            "# customer: 2 different values, 17 to 18; not summed, a key by its title (a guess:"
            " --sum customer sums it)"
        ),
        "attr customer number",
        "# item: 2 different values",
        "attr item text",
        "# note: 2 different values",
        "attr note text",
        (
            "# qty: 3 different values, 1 to 5; summed, an amount by its title (a guess: --text qty"
            " keeps it as text)"
        ),
        "measure qty",
        (
            "# price: 3 different values, 0.8 to 12.50; 2 decimals; summed, an amount by its title"
            " (a guess: --text price keeps it as text)"
        ),
        "measure price",
        "view day,shop,customer,item,note",
        "view day",
        "view shop",
        "view customer",
        "view item",
        "view note",
        "view",
        "end",
    ]
    assert found.kinds == {
        "day": Kind("day", order="YMD"),
        "shop": TEXT,
        "customer": WHOLE_NUMBER,
        "item": TEXT,
        "note": TEXT,
        "qty": WHOLE_NUMBER,
        "price": Kind("decimal", 2),
    }
    assert (found.na, found.left, found.doubts) == ((), [], [])
    table = Table(put(SALES))
    table.convert(found.kinds, found.na)
    assert next(table.rows()) == ["20250314", "north", "17", "bolt", "5", "1250", ""]


def test_proposal_by_words(put):
    told = Told({"price": Kind("decimal", 3)}, {"customer"}, {"day", "item"}, ("none",))
    found = proposal(Table(put(SALES)), told)
    assert words(found.lines) == [
        "schema",
        "attr day text",
        "attr shop text",
        "attr item text",
        "attr note text",
        "measure customer",
        "measure qty",
        "measure price",
        "view day,shop,item,note",
        "view day",
        "view shop",
        "view item",
        "view note",
        "view",
        "end",
    ]
    assert "# customer: 2 different values, 17 to 18" in found.lines
    assert "# price: 3 different values, 0.8 to 12.50; 3 decimals" in found.lines
    assert (found.kinds["price"], found.na) == (Kind("decimal", 3), ("none",))


def test_no_measure(put):
    found = proposal(Table(put("a,a,7th,\nx,y,z,v\n")))
    assert words(found.lines)[1:6] == [
        "attr a text",
        "attr a_2 text",
        "attr column_7th text",
        "attr column_4 text",
        "measure one",
    ]
    assert found.lines[1] == "# the header repeats names: `a` is a_2"
    assert "one" not in found.kinds
    found = proposal(Table(put("k,year\nx,1999\ny,2001\n")))
    assert words(found.lines)[1:4] == ["attr k text", "attr year number", "measure one"]


def test_one_attribute_has_one_view(put):
    found = proposal(Table(put("k,n\nx,4\n")))
    assert words(found.lines) == ["schema", "attr k text", "measure n", "view k", "view", "end"]


def test_too_many_columns(put):
    """There are the first 4 measures and 16 attributes, and first those that the words name."""
    names = [f"n{place}" for place in range(6)] + [f"t{place}" for place in range(18)]
    rows = [["1.5"] * 6 + ["x"] * 18] * 3
    path = put("\n".join(",".join(row) for row in [names, *rows]))
    found = proposal(Table(path))
    schema = Schema(found.lines)
    assert (schema.measures, schema.attributes) == (names[:4], names[6:22])
    assert found.left == ["n4", "n5", "t16", "t17"]
    assert found.lines[41:43] == [
        "# left out, as a schema has at most 4 measures: n4, n5; --sum NAMES chooses others",
        "# left out, as a schema has at most 16 attributes: t16, t17; --text NAMES chooses others",
    ]
    assert schema.views[0] == "t0,t1,t2,t3,t4,t5,t6,t7" and len(schema.views) == 18
    found = proposal(Table(path), Told(sums={"n5"}, texts={"t17", "n0"}))
    schema = Schema(found.lines)
    assert schema.measures == ["n1", "n2", "n3", "n5"]
    assert schema.attributes == ["n0", *names[6:20], "t17"]
    assert found.doubts == []
    found = proposal(Table(path), Told(sums={"n0", "n1", "n2", "n4", "n5"}))
    wanted = Doubt("n5 would be left out, as a schema has at most 4 measures", "name fewer columns")
    assert found.doubts == [wanted]
    found = proposal(Table(path), Told(texts=set(names[6:])))
    text = "t16, t17 would be left out, as a schema has at most 16 attributes"
    assert found.doubts == [Doubt(text, "name fewer columns")]


def test_columns_that_are_left_out(put):
    rows = [f"{n},{'' if n % 2 else '-'},{'é' * 128},{'x' * 255},p{n},{n % 3}" for n in range(150)]
    path = put("\n".join(["row,empty,long,fits,own,group", *rows]))
    found = proposal(Table(path))
    assert words(found.lines) == [
        "schema",
        "attr fits text",
        "attr own text",
        "attr group number",
        "measure one",
        "view fits,own,group",
        "view fits",
        "view group",
        "view",
        "end",
    ]
    assert [line for line in found.lines if "left out" in line] == [
        "# row: left out: row numbers (a guess: --text row keeps it)",
        "# empty: left out: all cells are empty",
        "# long: left out: texts of up to 256 bytes, and at most 255 are possible",
    ]
    assert (found.left, found.doubts) == (["row", "empty", "long"], [])
    found = proposal(Table(path), Told(texts={"row", "empty"}))
    assert words(found.lines)[1:3] == ["attr row text", "attr empty text"]


def test_many_different_texts(put, monkeypatch):
    monkeypatch.setattr(proposals, "MOST_VALUES", 100)
    monkeypatch.setattr(proposals, "MOST_TEXTS", 100)
    path = put("\n".join(["own,n", *(f"p{n},{n * n}" for n in range(150))]) + "\np1,1" * 200)
    assert words(proposal(Table(path)).lines)[1] == "attr own text max 16777215"
    path = put("\n".join(["own,k,n", *(f"p{n},x,{n * n}" for n in range(150))]))
    found = proposal(Table(path))
    why = "more than 100 different values, nearly one for every row"
    assert f"# own: left out: {why} (a guess: --text own keeps it)" in found.lines
    found = proposal(Table(path), Told(texts={"own"}))
    assert words(found.lines)[1] == "attr own text max 16777215"


def test_identifiers_come_last(put):
    """They have no view of their own, and are the last ones of the first view."""
    names = ["own", *(f"t{place}" for place in range(9))]
    rows = [[f"p{n}", *(["x", "y"][n % 2] for _ in range(9))] for n in range(150)]
    found = proposal(Table(put("\n".join(",".join(row) for row in [names, *rows]))))
    views = Schema(found.lines).views
    assert (views[0], "own" in views) == ("t0,t1,t2,t3,t4,t5,t6,t7", False)
    rows = [row[:4] for row in rows]
    found = proposal(Table(put("\n".join(",".join(row) for row in [names[:4], *rows]))))
    assert Schema(found.lines).views == ["own,t0,t1,t2", "t0", "t1", "t2", ""]


def test_no_proposal(put):
    with pytest.raises(Fault, match="there are no rows after the header"):
        proposal(Table(put("a,b\n")))
    with pytest.raises(Fault, match="there is no column to group by: --text NAME makes one"):
        proposal(Table(put("a,b\n1.5,2.5\n2.5,3.5\n")))


# ---- doubts

DOUBTS = [
    # the header
    (
        "MSFT,2000-01-01,39.81\nMSFT,2000-02-01,36.35\nIBM,2000-03-01,43.22\n",
        "the first line may be no header, as it has '2000-01-01', '39.81'",
        "--no-header",
    ),
    (
        "1,2,4,4,5,x\n6,7,8,9,1,y\n",
        "the first line may be no header, as it has '1', '2', '4', ..",
        "--no-header",
    ),
    (
        "1999,a\n1998,b\n2000,c\n",
        "the first line may be no header, as it has '1999'",
        "--no-header",
    ),
    (
        "bolt,north\nnut,south\nbolt,south\nbolt,north\n",
        "the first line may be no header, as it has 'bolt', 'north'",
        "--no-header",
    ),
    # one column
    ("name\nx\ny\n", "the file has one column", "--delimiter ',' if it has only one"),
    # missing values
    (
        "k,fee,n\nx,1.5,2\ny,NA,\nz,,NA\nz,NA,3\n",
        "empty cells would count as 0 in fee (1), n (1), first in row 2 (line 3)",
        "--na ''",
    ),
    (
        "k,fee,n\nx,1.5,2\ny,NA,\nz,,NA\nz,NA,3\n",
        "cells with 'NA' would count as 0 in fee (2), n (1), first in row 2 (line 3)",
        "--na NA",
    ),
    (
        "k,n\nx,?\ny,3\n",
        "cells with '?' would count as 0 in n (1), first in row 1 (line 2)",
        "--na '?'",
    ),
    (
        "day,n\n2025-03-14,1\n-,2\n",
        "cells with '-' would count as 0 in day (1), first in row 2 (line 3)",
        "--na -",
    ),
    (
        ",".join("abcdefg") + ",k\n" + "1.5," * 7 + "x\n" + "," * 7 + "y\n",
        "empty cells would count as 0 in a (1), b (1), c (1), d (1), first in row 2 (line 3)",
        "--na ''",
    ),
    # dates
    (
        "day,n\n1.2.2025,1\n3.4.2025,2\n",
        "day has dates, and 1.2.2025 may have the day or the month first",
        "--dates day=DMY or --dates day=MDY",
    ),
    (
        "day,n\n2025-02-28,1\n\n2025-02-30,2\n",
        "day has dates, and 2025-02-30 in row 2 (line 4) does not exist",
        "--text day keeps them as texts",
    ),
    # bytes
    (
        b"k,n\nK\xf6ln,1\nBonn,2\nK\xf6ln,3\n",
        "2 lines have bytes that are not UTF-8, first line 2",
        "iconv -f CP1252 -t UTF-8 FILE makes it UTF-8",
    ),
    (
        b"k,n\nBonn,1\nK\xf6ln,2\n",
        "1 line has bytes that are not UTF-8, first line 3",
        "iconv -f CP1252 -t UTF-8 FILE makes it UTF-8",
    ),
]


@pytest.mark.parametrize("content, text, word", DOUBTS)
def test_doubts(put, content, text, word):
    assert Doubt(text, word) in proposal(Table(put(content))).doubts


def test_doubts_of_a_wrong_delimiter(put):
    found = proposal(Table(put("a\tb\n1\t2\n3\t4\n"), ","))
    assert found.doubts == [Doubt("the file has one column", "--delimiter tab")]


def test_doubts_that_words_settle(put):
    """Nothing is doubtful any more once the words of the doubts are given."""
    content = "day,fee,when,n\n1.2.2025,NA,2025-02-30,1\n3.4.2025,1.5,2025-02-28,\n"
    doubts = proposal(Table(put(content))).doubts
    assert [doubt.word for doubt in doubts] == [
        "--dates day=DMY or --dates day=MDY",
        "--text when keeps them as texts",
        "--na NA",
        "--na ''",
    ]
    told = Told({"day": Kind("day", order="DMY")}, (), {"when"}, ("NA", ""))
    found = proposal(Table(put(content)), told)
    assert (found.doubts, found.na) == ([], ("NA", ""))
    assert proposal(Table(put("name\nx\ny\n"), ",")).doubts == []
    assert proposal(Table(put("1,a\n2,b\n"), has_header=False)).doubts == []


@pytest.mark.parametrize(
    "content",
    [
        SALES,
        "k,2019,2020\nx,1.5,2000\ny,3.5,2200\n",  # years as titles
        ",0,1,2\na,5,7,9\nb,6,6,8\n",  # as pandas writes a table without titles
        "part,shop\nbolt,north\npart,south\nnut,south\n",
        ",k\n1,x\n2,y\n",
        "k,n,\nx,1,NA\ny,2,-\n",
        "k,NA\nx,NA\ny,z\n",  # nothing in texts
    ],
)
def test_no_doubts(put, content):
    assert proposal(Table(put(content))).doubts == []


# ---- with questions


TIMES = (
    "when,part,fee,qty\n14.3.2025 10:00,bolt,12.5,1\n14.3.2025 11:00,nut,1,2\n"
    "15.3.2025 9:00,nut,NA,3\n"
)


def test_asked(put):
    """Questions decide which columns are measures. Points are counted by what is kept."""
    asked = Asked(Table(put(TIMES)), questions_in(put("sum(fee) by when\n")))
    assert asked.numbers == {"when"}
    assert asked.proposal().lines == [
        "schema",
        (
            "# when: 2 different values, 2025-03-14 to 2025-03-15; days in the order DMY; times of"
            " day are dropped"
        ),
        "attr when number",
        "# fee: 2 different values, 1 to 12.5; 1 decimal; 1 'NA' counted as 0",
        "measure fee",
        "# left out, as no question has them: part, qty",
        "# sum(fee) by when: view 1, 2 points of it in one part",
        "# view 1: 2 points, 4,096 bytes on each of the two sides",
        "view when",
        "end",
    ]


def test_asked_kinds(put):
    path = put(TIMES)
    questions = put("sum(fee) by when\ncount by part where when=20250314..20250401 and qty=2\n")
    asked = Asked(Table(path), questions_in(questions))
    assert asked.numbers == {"when", "qty"}
    found = asked.proposal()
    assert found.lines[9:] == [
        "# sum(fee) by when: view 1, 3 points of it in one part",
        (
            "# count by part where when=20250314..20250401 and qty=2: view 1, 1 point of it in one"
            " part"
        ),
        "# view 1: 3 points, 4,096 bytes on each of the two sides",
        "view part,when,qty",
        "end",
    ]
    assert found.kinds == {
        "when": Kind("day", order="DMY"),
        "part": TEXT,
        "qty": WHOLE_NUMBER,
        "fee": Kind("decimal", 1),
    }
    assert found.doubts == [
        Doubt("cells with 'NA' would count as 0 in fee (1), first in row 3 (line 4)", "--na NA")
    ]
    told = Told({"fee": Kind("decimal", 2)}, na=("NA",))
    found = Asked(Table(path), questions_in(questions), told).proposal()
    assert (found.kinds["fee"], found.na, found.doubts) == (Kind("decimal", 2), ("NA",), [])


def test_asked_with_missing_values(put):
    """A missing value is a point too."""
    path = put("part,qty,n\nbolt,1,5\nnut,2,6\nnut,NA,7\n")
    found = Asked(Table(path), questions_in(put("sum(n) by qty\n"))).proposal()
    assert "# sum(n) by qty: view 1, 3 points of it in one part" in found.lines


def test_asked_faults(put):
    path = put("part,lat,qty\nbolt,1.5,1\nnut,2.5,2\n")
    with pytest.raises(Fault, match="sum part, and not all of its values are whole numbers or dec"):
        Asked(Table(path), questions_in(put("sum(part)\n")))
    assert Asked(Table(path), questions_in(put("sum(lat) by part\n"))).proposal().kinds == {
        "part": TEXT,
        "lat": Kind("decimal", 1),
    }
    assert words(Asked(Table(path), questions_in(put("count by lat\n"))).proposal().lines) == [
        "schema",
        "attr lat text",
        "measure qty",
        "view lat",
        "end",
    ]
