"""Tests of load-csv."""
import contextlib
import csv
import io
import os
import random
import shutil
import signal
import sqlite3
import subprocess
from unittest import mock

from cubetree import Fault
from cubetree import session as sessions
from cubetree.cli import load as cli_load
from cubetree.csvfile import intake, loader
from cubetree.process import program
from cubetree.ui import Progress
from tests.helpers import CUBE, SCHEMA, Case, ask, load, run


class LoadCsv(Case):
    # A file, and the parts and quantities that are loaded from it, in order of the parts.
    ODD = [
        (b"part,qty\na,1\nb,2\n", [("a", "1"), ("b", "2")]),
        (b"\xef\xbb\xbfpart,qty\r\na,1\r\nb,2", [("a", "1"), ("b", "2")]),
        (b"qty,part\n1,a\n\n\n2,b\n", [("a", "1"), ("b", "2")]),
        (b'part,qty\n"a, ""b""",1\n,2\n', [("", "2"), ('a, "b"', "1")]),
        (
            b'part,qty\n"a\nb",1\n"a\r\nb",2\n"a\rb",3\n',
            [("a\nb", "1"), ("a\r\nb", "2"), ("a\rb", "3")],
        ),
        (b"part,qty\n\xff\xfe,1\n\xc3\xa9,2\n", [("\u00e9", "2"), ("\udcff\udcfe", "1")]),
        (b"part,qty\n\xef\xbb\xbfa,1\n", [("\ufeffa", "1")]),
        (b"part,qty\n end,1\n'a',+2\nend,-03\n", [(" end", "1"), ("'a'", "2"), ("end", "-3")]),
        (b"Part;QTY;other\na,b;1;x\n", [("a,b", "1")]),
        (b"part,qty\n", []),
        (b"part,qty\n%s,1\n" % (b"x" * 255), [("x" * 255, "1")]),
    ]

    def test_odd_files(self):
        self.put("schema", "attr part text\nmeasure qty\nview part\n")
        for number, (content, rows) in enumerate(self.ODD):
            with self.subTest(content[:40]):
                words = ["--yes"] if b"\xff" in content else []
                os.mkdir(f"w{number}")
                load(
                    "--schema", "schema", "--into", f"w{number}", *words, self.put("file", content)
                )
                answer = ask("--in", f"w{number}", "--csv", "sum(qty) by part")[0]
                self.assertEqual(
                    [tuple(row) for row in csv.reader(io.StringIO(answer, newline=""))][1:], rows
                )
                # As a script it is the same.
                script = load("--script", "--schema", "schema", *words, "file")[0].encode(
                    "utf-8", "surrogateescape"
                )
                os.mkdir(f"s{number}")
                run(program(), given=script, cwd=f"s{number}")
                self.assertEqual(ask("--in", f"s{number}", "--csv", "sum(qty) by part")[0], answer)

    REFUSED = [
        (b"", "there is no header line"),
        ("part,year,qty\n".encode("utf-16"), "it is UTF-16"),
        (
            b"part,year,qty\na,1,1\nb,2\n",
            (
                "row 2 (line 3) has 2 fields, and the header has 3: --fill takes the missing ones"
                " as empty; the folder keeps 0 facts"
            ),
        ),
        (b'part,year,qty\n"a"b,1,1\n', "line 2, after row 0, is no csv"),
        (b'part,year,qty\na,1,1\n"a,1,1\n', "the quote that opens in line 3 is not closed"),
        (
            b"part,year,qty\nK\xf6ln,1,1\n",
            (
                "line 2 has bytes that are not UTF-8: make the file UTF-8, by iconv -f cp1252 -t"
                " utf-8, or give --yes"
            ),
        ),
        (
            b'part,year,qty\n"a\nb",1,1\n\nc,x,1\n',
            (
                "row 2 (line 5) was refused: year is no whole number, or is out of range: 'x'; the"
                " folder keeps 0 facts"
            ),
        ),
        (b"part,year,qty\na,1,\n", "row 1 (line 2) was refused: qty is no whole number"),
        (
            b"part,year,qty\n%s,1,1\n" % (b"x" * 256),
            "row 1 (line 2) was refused: part has more than 255 bytes",
        ),
        (b'part,year,qty\n"a\nend\nb",1,1\n', "row 1 (line 4) has a line that is `end`"),
        (b'part,year,qty\n"a\nend\r\nb",1,1\n', "row 1 (line 4) has a line that is `end`"),
        (b"part,qty\na,1\n", "the header has no column for `year`; its columns are part, qty"),
    ]

    def test_refused_files(self):
        self.put("schema", SCHEMA)
        for number, (content, words) in enumerate(self.REFUSED):
            with self.subTest(words):
                os.mkdir(f"w{number}")
                said = load(
                    "--schema",
                    "schema",
                    "--into",
                    f"w{number}",
                    self.put("file", content),
                    status=1,
                )[1]
                self.assertIn(words, said)

    def test_refused_batch_is_mended(self):
        self.put("schema", SCHEMA)
        rows = [f"p{i},{1990 + i},{i}" for i in range(10)]
        faulty = "\n".join(["part,year,qty", *rows[:7], "x,y,z", *rows[8:], ""])
        self.put("file", faulty)
        said = load("--schema", "schema", "--into", "w", "--batch", "3", "file", status=1)[1]
        self.assertIn(
            (
                "row 8 (line 9) was refused: year is no whole number, or is out of range: 'y'; the"
                " folder keeps 6 facts"
            ),
            said,
        )
        self.put("file", faulty.replace("x,y,z", rows[7]))
        self.assertEqual(
            load("--into", "w", "file")[1],
            "cube load: 4 rows loaded, 6 were there already; the folder keeps 10 facts\n",
        )
        for words in ([], ["--go-on"], ["--number", "1"], ["--batch", "1"]):
            said = load("--into", "w", *words, "file")[1]
            self.assertIn(
                "cube load: 0 rows loaded, 10 were there already; the folder keeps 10 facts", said
            )
        self.assertEqual(self.rows("count,sum(qty)"), [["10", "45"]])
        said = load("--into", "w", "--from-row", "9", "file", status=6)[1]
        self.assertIn(
            (
                "the folder has rows of it already, from row 1 to 10 (batches 1 to 3): --number 4"
                " --from-row 9 adds its rows from 9 on"
            ),
            said,
        )
        load("--into", "w", "--number", "4", "--from-row", "9", "file")
        self.assertEqual(self.rows("count,sum(qty)"), [["12", "62"]])

    def test_two_faults(self):
        """The row of the batch that is under way is told, and not the one that is read
        meanwhile."""
        self.put("schema", SCHEMA)
        self.put("file", "part,year,qty\na,1,1\nb,x,1\nc,1,1\nd,1\n")
        said = load("--schema", "schema", "--into", "w", "--batch", "1", "file", status=1)[1]
        self.assertIn(
            (
                "row 2 (line 3) was refused: year is no whole number, or is out of range: 'x'; the"
                " folder keeps 1 fact"
            ),
            said,
        )
        self.put("file", "part,year,qty\na,1,1\nb,2,1\nc,1\n")
        self.assertIn(
            (
                "row 3 (line 4) has 2 fields, and the header has 3: --fill takes the missing ones"
                " as empty; the folder keeps 2 facts"
            ),
            load("--into", "w", "--batch", "1", "file", status=1)[1],
        )

    def test_limits(self):
        self.put("schema", "attr part text max 2\nmeasure qty\nview part\n")
        self.put("file", "part,qty\na,1\nb,1\nc,1\n")
        said = load("--schema", "schema", "--into", "w", "--batch", "2", "file", status=1)[1]
        self.assertIn(
            "rows 3 to 3 were refused: refused names part; the folder keeps 2 facts", said
        )
        self.put("other", "# mine\nschema\nattr part text max 3\nmeasure qty\nview part\nend\n")
        self.assertIn(
            "the folder has another schema than other: give a new folder; ",
            load("--schema", "other", "--into", "w", "file", status=1)[1],
        )
        os.mkdir("v")
        self.put("faulty", "attr part text\n# of what\nmeasure QTY\nview part\n")
        self.put("file", "part,qty\n")
        said = load("--schema", "faulty", "--into", "v", "file", status=1)[1]
        self.assertIn("no column for `QTY`", said)
        self.put("faulty", "attr part text\n# of what\nmeasure qty\nview part,part\n")
        self.assertIn(
            "the schema was refused: refused schema repeated 4: view part,part",
            load("--schema", "faulty", "--into", "v", "file", status=1)[1],
        )

    def test_proposal(self):
        """What is proposed is declared, and a slice is answered."""
        self.put(
            "file",
            "Zip code,Shop,Price\n" + "".join(f"{i % 7:03},{i % 9},{i}.5\n" for i in range(200)),
        )
        lines = load("--propose", "file")[0].splitlines()
        declared = [line for line in lines if not line.startswith("#")]
        views = ["view zip_code,shop", "view zip_code", "view shop", "view"]
        self.assertEqual(
            declared,
            ["schema", "attr zip_code text", "attr shop number", "measure price", *views, "end"],
        )
        load("--into", "w", "file")
        self.assertEqual(
            self.rows("sum(price),count where zip_code=003 and shop=3"), [["392.0", "4"]]
        )
        self.put("file", "a,a,7th,\nx,y,z,v\n")
        os.mkdir("v")
        load("--into", "v", "file")
        self.assertEqual(
            ask("--in", "v", "--csv", "sum(one) by a,a_2,column_7th,column_4")[0].splitlines()[1],
            "x,y,z,v,1",
        )

    def test_amounts_and_dates(self):
        """A folder keeps what its columns are, and each later load and answer has it so."""
        self.put(
            "file",
            (
                "Day,Month,Fee\n2025-03-14,2025-03,12.50\n2025-03-15,2025-03,-0.8\n"
                "2025-04-01,2025-04,12\n"
            ),
        )
        words = ["--cents", "Fee", "--dates", "Day,month"]
        lines = [
            line
            for line in load(*words, "--propose", "file")[0].splitlines()
            if not line.startswith("#")
        ]
        views = ["view day,month", "view day", "view month", "view"]
        self.assertEqual(
            lines, ["schema", "attr day number", "attr month number", "measure fee", *views, "end"]
        )
        load(*words, "--into", "w", "file")
        wanted = [["2025-03", "11.70", "-0.80"], ["2025-04", "12.00", "12.00"]]
        self.assertEqual(
            self.rows("sum(fee),min(fee) by month where day=2025-03..2025-04-01"), wanted
        )
        self.assertEqual(self.rows("sum(fee) by day where day=20250314"), [["2025-03-14", "12.50"]])
        self.assertEqual(
            ask("--in", "w", "--raw", "--csv", "sum(fee) by day where month=202504")[0],
            "day,sum(fee)\n20250401,1200\n",
        )
        # Amounts that happen to be whole are amounts all the same, without a word.
        self.put("whole", "day,month,fee\n2025-04-02,2025-04,3\n")
        load("--into", "w", "whole")
        self.assertEqual(self.rows("sum(fee) where day=2025-04-02"), [["3.00"]])
        self.put("more", "day,month,fee\n2025-04-02,2025-04,1\n2025-04-02,2025-04,1e3x\n")
        said = load("--into", "w", "more", status=1)[1]
        self.assertIn(
            "more: row 2 (line 3): fee is no amount like 12.50: '1e3x'; the folder keeps 4 facts",
            said,
        )
        for words, said in [
            (
                ["--decimals", "fee=3"],
                "fee has amounts of 2 decimals in this folder, and not amounts of 3 decimals",
            ),
            (
                ["--dates", "day=DMY"],
                "day has days in the order YMD in this folder, and not days in the order DMY",
            ),
            (
                ["--cents", "day"],
                "day has days in the order YMD in this folder, and not amounts of 2 decimals",
            ),
        ]:
            self.assertIn(said, load(*words, "--into", "w", "whole", status=1)[1])
        load("--cents", "fee", "--dates", "day", "--into", "w", "whole")
        self.assertEqual(self.rows("count"), [["4"]])
        self.assertIn(
            "no column for `Free`; its columns are day, month, fee",
            load("--cents", "Free", "--propose", "file", status=1)[1],
        )
        self.assertIn(
            "a column has one kind: --decimals, --cents or --dates",
            load("--cents", "fee", "--dates", "fee", "--propose", "file", status=2)[1],
        )
        said = ask("--in", "w", "count where day=2025-02-30", status=1)[1]
        self.assertIn(
            "refused value 17: day has days: 2025-03-14, 2025-03, or 2025-03-14..2025-04-13\n", said
        )

    def test_whole_numbers_stay_whole(self):
        """A folder whose first file had whole numbers refuses decimals by their row, and words
        that would make them cents."""
        self.put("schema", "attr part text\nmeasure qty\nview part\n")
        self.put("file", "part,qty\na,3\n")
        load("--schema", "schema", "--into", "w", "file")
        self.assertIn(
            "qty has whole numbers in this folder, and not amounts of 2 decimals",
            load("--cents", "qty", "--into", "w", "file", status=1)[1],
        )
        self.put("more", "part,qty\na,12.50\n")
        said = load("--into", "w", "more", status=1)[1]
        self.assertIn(
            (
                "qty is no whole number, or is out of range: '12.50'; in a new folder, --decimals"
                " qty=2 reads it; the folder keeps 1 fact"
            ),
            said,
        )

    def test_folder_of_older_tools(self):
        """It has no file of columns or batches: what the words say is kept from then on, and
        rows that may be there are not loaded again."""
        run(
            program(),
            given=b"schema\nattr part text\nmeasure fee\nview part\nend\nload\na,1250\nend\n",
            cwd="w",
        )
        self.put("file", "part,fee\na,12.50\n")
        said = load("--cents", "fee", "--into", "w", "file", status=6)[1]
        self.assertIn(
            (
                "it is not known which rows 1 fact of the folder had, so rows of this source may be"
                " among them: --number 1 loads all its rows"
            ),
            said,
        )
        load("--into", "w", "--number", "1", "file")
        self.assertEqual(self.rows("sum(fee)"), [["25.00"]])
        self.put("file", "part,fee\na,12.50\nb,1\n")
        self.assertIn("1 row loaded, 1 was there already", load("--into", "w", "file")[1])
        self.assertEqual(self.rows("sum(fee)"), [["26.00"]])

    def test_summed_columns(self):
        """A column of few numbers is a measure if that is wanted, also beside others."""
        self.put("file", "kind,pieces,year,weight\nx,3,1999,7\ny,4,1999,8\n")
        lines = [
            line
            for line in load("--sum", "Pieces,weight", "--propose", "file")[0].splitlines()
            if not line.startswith("#")
        ]
        self.assertEqual(
            lines,
            [
                "schema",
                "attr kind text",
                "attr year number",
                "measure pieces",
                "measure weight",
                "view kind,year",
                "view kind",
                "view year",
                "view",
                "end",
            ],
        )
        load("--sum", "pieces", "--into", "w", "file")
        self.assertEqual(self.rows("sum(pieces),min(pieces)"), [["7", "3"]])
        self.assertIn(
            "kind cannot be summed: not all of its values are numbers",
            load("--sum", "kind", "--propose", "file", status=1)[1],
        )
        load("--sum", "pieces", "--schema", "schema", "file", status=2)

    def test_great_numbers(self):
        """A column of numbers up to 2^63 - 1 may be an attribute, and one with a greater number
        not."""
        rows = [f"{4294967294 + i},{(1 << 63) - 1 - i},{(1 << 63) - i}" for i in range(3)]
        self.put("file", "\n".join(["Call,Id,Past", *rows, ""]))
        self.put("schema", "attr call number\nattr id number\nmeasure past\nview call,id\n")
        self.assertEqual(
            load("--schema", "schema", "--into", "w", "file")[1].splitlines()[-1],
            "cube load: 3 rows loaded; the folder keeps 3 facts",
        )
        self.assertEqual(
            self.rows("sum(past) by call,id where call=4294967295..9223372036854775807"),
            [row.split(",") for row in rows[1:]],
        )
        self.put("file", f"call,id,past\n1,{1 << 63},1\n")
        said = load("--into", "w", "--number", "2", "file", status=1)[1]
        self.assertIn(
            (
                "row 1 (line 2) was refused: id is no whole number, or is out of range:"
                " '9223372036854775808'; the folder keeps 3 facts"
            ),
            said,
        )

    def test_cut_and_started_again(self):
        """A run that is killed at some moment, or the loader, or both: the sums are those of
        sqlite3 over the same file."""
        draw = random.Random(35)
        rows = [
            (f"p{draw.randrange(300)}", draw.randrange(1990, 2020), draw.randrange(-99, 1000))
            for _ in range(20_000)
        ]
        self.put(
            "file",
            "part,year,qty\n" + "".join(f"{part},{year},{qty}\n" for part, year, qty in rows),
        )
        self.put("schema", SCHEMA)
        self.put("killed", f"#!/bin/sh\nexec timeout -s KILL 0.3 {program()}\n")
        os.chmod("killed", 0o755)
        for way in ([], ["--number", "1"]):
            with self.subTest(way):
                shutil.rmtree("w")
                os.mkdir("w")
                self.cut_and_start_again(
                    ["--schema", "schema", "--into", "w", "--batch", "500", *way, "file"], rows
                )

    def cut_and_start_again(self, words, rows):
        first = subprocess.run(
            [CUBE, "load", *words],
            env=dict(os.environ, CUBETREE=os.path.abspath("killed")),
            capture_output=True,
        )
        self.assertIn(
            b"the program ended with the status" if first.returncode else b" loaded; ", first.stderr
        )
        for kill in (os.kill, os.killpg):
            run = subprocess.Popen(
                [CUBE, "load", *words],
                stderr=subprocess.PIPE,
                start_new_session=True,
            )
            try:
                run.communicate(timeout=0.4)
            except subprocess.TimeoutExpired:
                kill(run.pid, signal.SIGKILL)
                run.communicate()
        load(*words)
        base = sqlite3.connect(":memory:")
        base.execute("create table facts (part text, year int, qty int)")
        base.executemany("insert into facts values (?, ?, ?)", rows)
        for slice, query in [
            (
                "count,sum(qty),min(qty),max(qty)",
                "select count(*), sum(qty), min(qty), max(qty) from facts",
            ),
            (
                "sum(qty),count by part",
                "select part, sum(qty), count(*) from facts group by part order by part",
            ),
            (
                "sum(qty) by year where part=p17",
                "select year, sum(qty) from facts where part = 'p17' group by year order by year",
            ),
        ]:
            self.assertEqual(
                self.rows(slice), [[str(cell) for cell in row] for row in base.execute(query)]
            )

    def test_numbered(self):
        """Each batch counts once, however often it is sent, also beside other loads and in a
        script."""
        self.put("schema", SCHEMA)
        rows = [f"p{i},{1990 + i},{i}" for i in range(10)]
        faulty = "\n".join(["part,year,qty", *rows[:7], "x,y,z", *rows[8:], ""])
        self.put("file", faulty)
        words = ["--schema", "schema", "--into", "w", "--batch", "3", "--number", "1", "file"]
        self.assertIn(
            "row 8 (line 9) was refused: year is no whole number", load(*words, status=1)[1]
        )
        run(program(), given=b"load\nother,1999,1000\nend\n", cwd="w")
        self.put("file", faulty.replace("x,y,z", rows[7]))
        self.assertEqual(
            load(*words)[1],
            (
                "cube load: 4 rows loaded, 6 were there already; the folder keeps 11 facts; the"
                " next number is 5\n"
            ),
        )
        self.assertEqual(
            load(*words)[1],
            (
                "cube load: 0 rows loaded, 10 were there already; the folder keeps 11 facts; the"
                " next number is 5\n"
            ),
        )
        self.assertIn(
            "batch 6 was refused: the folder has no batch 5 yet",
            load("--into", "w", "--number", "6", "file", status=1)[1],
        )
        script = load("--script", "--schema", "schema", "--number", "5", "--batch", "4", "file")[0]
        self.assertEqual(
            [line for line in script.splitlines() if line.startswith("load")],
            ["load 5", "load 6", "load 7"],
        )
        for replies in (
            "committed 15\ncommitted 19\ncommitted 21\n",
            "already 5\nalready 6\nalready 7\n",
        ):
            self.assertEqual(
                run(program(), given=script.encode(), cwd="w")[0], "refused declared\n" + replies
            )
        self.assertEqual(self.rows("count,sum(qty)"), [["21", "1090"]])
        said = load("--into", "w", "file", status=6)[1]
        self.assertIn("it is not known which rows batch 5 of the folder had", said)
        self.assertEqual(
            load("--into", "w", "--number", "8", self.put("empty", "part,year,qty\n"))[1],
            "cube load: 0 rows loaded; the folder keeps 21 facts; the next number is 8\n",
        )

    def test_limits_of_scripts_and_blocks(self):
        """With smaller limits: a block is cut by its bytes, and a new run begins before a script
        is too long."""
        self.put("schema", SCHEMA)
        self.put("file", "part,year,qty\n" + "".join(f"p{i},1999,{i}\n" for i in range(30)))
        options = loader.Options(loader.Reading(), loader.Meanings(), schema="schema")
        with mock.patch.object(intake, "MOST_BYTES", 40), mock.patch.object(
            sessions, "MOST_OF_A_SCRIPT", 264
        ):
            with contextlib.redirect_stderr(io.StringIO()) as told:
                loader.load_files("w", ["file"], options, True, Progress())
        loaded = "cube load: 30 rows loaded; the folder keeps 30 facts\n"
        back = "cube load: to take the last 1 of them back: cube undo --folder w\n"
        self.assertEqual(told.getvalue(), loaded + back)
        self.assertEqual(self.rows("count,sum(qty)"), [["30", "435"]])
        with open("w/.batches") as record:
            sizes = [int(line.split()[3]) for line in record]
        # A row has 10 bytes, or 11 from p10 on: three of them go into 40 bytes, or four.
        self.assertEqual(sizes, [4, 4, *[3] * 7, 1])

    def test_long_script(self):
        """A script that would pass 2^30 bytes ends with a fault that says how to go on."""
        self.put("schema", SCHEMA)
        self.put("file", "part,year,qty\na,1999,1\n")
        options = loader.Options(loader.Reading(), loader.Meanings(), "schema", number=7)
        says = "ends before row 1; load into a folder, or use --from-row for another script, with"
        with mock.patch.object(cli_load, "MOST_OF_A_SCRIPT", 1 << 16), contextlib.redirect_stdout(
            io.TextIOWrapper(io.BytesIO())
        ):
            with self.assertRaisesRegex(Fault, f"{says} --number 7"):
                cli_load.write_script("file", options, Progress())

    def test_words(self):
        for words in (
            [],
            ["--batch", "0", "f"],
            ["--go-on", "--from-row", "2", "f"],
            ["--script", "--propose", "f"],
            ["--script", "f", "g"],
            ["--from-row", "0", "f"],
            ["--number", "0", "f"],
            ["--delimiter", "xx", "f"],
            ["--never", "f"],
        ):
            load(*words, status=2)
        self.assertTrue(load("nothing", status=1)[1].startswith("cube load: nothing: No such file"))
        self.assertIn("usage", load("--help")[0])
