"""Tests of what csv files are read from: packed files, other formats, delimiters and headers."""
import bz2
import contextlib
import gzip
import io
import lzma
import os
import shutil
import sqlite3
import subprocess
import sys
import tarfile
import threading
import time
import zipfile
from typing import Callable, Dict, List

import pytest

from cubetree import Fault, Schema
from cubetree.csvfile import opening
from cubetree.csvfile.opening import open_rows
from cubetree.csvfile.tables import Table, names_of, picker
from cubetree.values import TEXT, WHOLE_NUMBER, Kind
from tests.helpers import PACKAGES

SUM = 29_999 * 30_000 * 59_999 // 6  # of the squares up to 29,999
ROWS = b"part,qty\n" + b"".join(b"p%d,%d\n" % (n, n * n) for n in range(30_000))


def zstd(content: bytes) -> bytes:
    """The content packed by zstd."""
    return subprocess.run(["zstd", "-qc"], input=content, capture_output=True, check=True).stdout


PACKERS: Dict[str, Callable[[bytes], bytes]] = {
    "gzip": gzip.compress,
    "bzip2": bz2.compress,
    "xz": lzma.compress,
    "zstd": zstd,
}
needs_zstd = pytest.mark.skipif(not shutil.which("zstd"), reason="no zstd")
PACKED = [pytest.param(name, marks=needs_zstd if name == "zstd" else []) for name in PACKERS]


@pytest.fixture
def put(tmp_path):
    """Writes a file, and says its path."""

    def put(content):
        path = tmp_path / "file"
        path.write_bytes(content if isinstance(content, bytes) else content.encode())
        return str(path)

    return put


def fault_of(call: Callable[[], object]) -> str:
    """The words of the fault of a call."""
    with pytest.raises(Fault) as caught:
        call()
    return str(caught.value)


def rows_of(path: str, *given, **words) -> List[List[str]]:
    """All rows of a table."""
    return list(Table(path, *given, **words).rows())


# ---- what is read


def test_plain_file(put):
    source = open_rows(put(ROWS))
    assert (source.packed, source.is_file, source.size) == ("", True, len(ROWS))
    assert source.stream.peek(4)[:4] == b"part"
    assert source.position() < len(ROWS)
    assert source.stream.read() == ROWS
    assert (source.position(), source.part()) == (len(ROWS), 1.0)
    source.close()
    with pytest.raises(OSError):
        open_rows("no such file")
    with pytest.raises(IsADirectoryError):
        open_rows("/")


@pytest.mark.parametrize("name", PACKED)
def test_packed_files(put, name):
    """A packed file is read as the plain one, whatever it is called, and its place is that in the
    packed file."""
    content = PACKERS[name](ROWS)
    source = open_rows(put(content))
    assert (source.packed, source.size) == (name, len(content))
    assert source.stream.read() == ROWS
    assert source.position() == len(content)
    table = Table(put(content))
    assert [row for row in table.rows()][-1] == ["p29999", "899940001"]
    assert (table.row, table.line, table.part()) == (30_000, 30_001, 1.0)


@pytest.mark.parametrize("name", PACKED)
@pytest.mark.parametrize("kept", [0.3, 0.9])
def test_cut_packed_files(put, name, kept):
    """A packed file that was cut short is never taken as one with fewer rows."""
    content = PACKERS[name](ROWS)
    path = put(content[: int(kept * len(content))])
    said = fault_of(lambda: rows_of(path, ","))
    assert said.startswith(f"the {name} file ends early: it was cut short")
    path = put(content[:-1])
    assert f"the {name} file ends early" in fault_of(lambda: rows_of(path, ","))


@pytest.mark.parametrize("name", PACKED)
def test_damaged_packed_files(put, name):
    content = bytearray(PACKERS[name](ROWS))
    content[-3] ^= 0x5A  # within the sums or marks at the end, so that all rows are there
    source = open_rows(put(bytes(content)))
    assert fault_of(source.stream.read).startswith(f"the {name} file is damaged: ")


def test_several_members(put):
    """Packed files that were put together are read to the end of the last one."""
    content = gzip.compress(b"a,b\n1,") + gzip.compress(b"2\n")
    assert open_rows(put(content)).stream.read() == b"a,b\n1,2\n"
    assert "it is packed twice, by gzip and xz" in fault_of(
        lambda: open_rows(put(gzip.compress(lzma.compress(b"a,b\n"))))
    )


@needs_zstd
def test_no_zstd(put, monkeypatch):
    path = put(zstd(ROWS))
    monkeypatch.setenv("PATH", "/nowhere")
    assert fault_of(lambda: open_rows(path)).endswith("there is no program zstd: apt install zstd")


@needs_zstd
def test_closed_early(put):
    """A source that is left in the middle leaves no program."""
    source = open_rows(put(zstd(os.urandom(4_000_000).replace(b"\0", b"x"))))
    source.stream.read(10)
    source.close()
    assert source.unpacked.process.poll() is not None


@pytest.fixture
def pipe(tmp_path):
    """A pipe with a content whose first bytes come one by one, as its path."""

    def pipe(content):
        path = str(tmp_path / "pipe")
        os.mkfifo(path)

        def write():
            with open(path, "wb", buffering=0) as file, contextlib.suppress(BrokenPipeError):
                for place in range(min(40, len(content))):
                    file.write(content[place : place + 1])
                    time.sleep(0.002)
                file.write(content[40:])

        threading.Thread(target=write, daemon=True).start()
        return path

    return pipe


@pytest.mark.parametrize("name", ["", *PACKED])
def test_pipes(pipe, name):
    """A pipe can't be read twice, and its size is not known."""
    table = Table(pipe(PACKERS[name](ROWS) if name else ROWS))
    assert sum(int(row[1]) for row in table.rows()) == SUM
    source = table.source
    assert (source.packed, source.size, source.is_file, table.part()) == (name, 0, False, 0.0)


def test_standard_input():
    code = (
        "import sys; sys.path.insert(0, sys.argv[1]); from cubetree.csvfile.tables import Table;"
        " print(sum(int(row[1]) for row in Table('-').rows()))"
    )
    words = [sys.executable, "-c", code, PACKAGES]
    said = subprocess.run(words, input=gzip.compress(ROWS), capture_output=True, check=True)
    assert int(said.stdout) == SUM


def test_faults_of_pipes(pipe):
    assert fault_of(lambda: open_rows(pipe(b"%PDF-1.5\n"))).startswith("it is a PDF document")


def test_quotes_of_pipes(pipe):
    """A pipe is not read again to find the quote."""
    path = pipe(b'a,b\n"1,2\n')
    assert fault_of(lambda: rows_of(path)) == "a quote that opens after line 1 is not closed"


# ---- what is not read


def zipped(name: str) -> bytes:
    """A zip archive with a file of this name."""
    made = io.BytesIO()
    with zipfile.ZipFile(made, "w") as archive:
        archive.writestr(name, "a,b\n1,2\n")
    return made.getvalue()


def tar() -> bytes:
    """A tar archive with a csv file."""
    made = io.BytesIO()
    with tarfile.open(fileobj=made, mode="w") as archive:
        info = tarfile.TarInfo("data.csv")
        info.size = 8
        archive.addfile(info, io.BytesIO(b"a,b\n1,2\n"))
    return made.getvalue()


FOREIGN = [
    ("a,b\n1,2\n".encode("utf-16"), "it is UTF-16: iconv -f UTF-16 -t UTF-8 FILE makes it UTF-8"),
    ("a,b\n1,2\n".encode("utf-32"), "it is UTF-32: iconv -f UTF-32"),
    ("a,b\n1,2\n".encode("utf-16-le"), "it may be UTF-16: iconv -f UTF-16LE -t UTF-8"),
    ("a,b\n1,2\n".encode("utf-16-be"), "it may be UTF-16: iconv -f UTF-16BE -t UTF-8"),
    (zipped("xl/workbook.xml"), "it is a spreadsheet: in2csv FILE makes csv of it"),
    (zipped("[Content_Types].xml"), "it is a spreadsheet: in2csv"),
    (zipped("data.csv"), "it is a zip archive: unzip -p FILE"),
    (b"\xd0\xcf\x11\xe0\xa1\xb1\x1a\xe1" + bytes(500), "it is an old spreadsheet (xls): in2csv"),
    (tar(), "it is a tar archive: tar -xOf FILE NAME"),
    (gzip.compress(tar()), "it is a tar archive in the gzip file: tar -xOf FILE NAME"),
    (b"PAR1\x15\x04\x15\x10", "it is Parquet: in Python, pandas.read_parquet(FILE).to_csv(NEW"),
    (b"ARROW1\0\0\x10\0\0\0", "it is Arrow: in Python, pandas.read_feather(FILE)"),
    (b"FEA1\x10\0\0\0", "it is Arrow"),
    (b"%PDF-1.5\n%\xd0\xd4", "it is a PDF document: export its table as csv"),
    (b'{"a": 1, "b": 2}\n', "it is JSON: mlr --ijson --ocsv cat FILE"),
    (b'\n [\n  {"a": 1}\n]', "it is JSON"),
    (b"[[1, 2], [3, 4]]", "it is JSON"),
    (b"<!DOCTYPE html>\n<html>", "it is XML or HTML: look into it"),
    (b'<?xml version="1.0"?>', "it is XML or HTML"),
    (b"a,b\n1,\0\n", "byte 7 is 0, so it is no text: is it a csv file?"),
    (gzip.compress(b"a,b\n1,\0\n"), "byte 7 in the gzip file is 0, so it is no text"),
]


@pytest.mark.parametrize("content, words", FOREIGN)
def test_other_formats(put, content, words):
    path = put(content)
    assert fault_of(lambda: open_rows(path)).startswith(words)


def test_sqlite(tmp_path):
    base = sqlite3.connect(tmp_path / "base")
    base.execute("create table facts (a, b)")
    base.commit()
    base.close()
    said = fault_of(lambda: open_rows(str(tmp_path / "base")))
    assert said.startswith("it is an SQLite database: sqlite3 -header -csv FILE 'SELECT ..'")


@pytest.mark.parametrize("title", ["PAR1", "ARROW1", "FEA1", "BZh9", "PK", "%PDF", "{x}", "<5"])
def test_titles_like_other_formats(put, title):
    """A file is not taken for another format by a title of its first column."""
    assert Table(put(f"{title},qty\na,1\n")).titles == [title, "qty"]


# ---- lines


def test_lines_across_pieces(put, monkeypatch):
    """However small the pieces are, the rows and their lines are the same."""
    content = b'\xef\xbb\xbfa,b\r\n"x\r\ny",\xc3\xa9\r\n\r\nz,"\n"\n'
    wanted = [["x\r\ny", "é"], ["z", "\n"]]
    for size in (1, 2, 3, 7, 1 << 18):
        monkeypatch.setattr(opening, "PIECE", size)
        table = Table(put(content))
        assert table.titles == ["a", "b"]
        assert [(row, table.line) for row in table.rows()] == list(zip(wanted, (3, 6)))


def test_carriage_returns_only(put):
    table = Table(put(b"a,b\r1,2\r3,4"))
    assert [(row, table.line) for row in table.rows()] == [(["1", "2"], 2), (["3", "4"], 3)]


def test_bytes_that_are_not_utf8(put, monkeypatch):
    """They go through as they are, and the first line that has some is known."""
    content = b'a,b\nx,1\n\xfcx,2\n"\n\xfc",3\nz,\xc3\xa9\n'
    for size in (4, 1 << 18):
        monkeypatch.setattr(opening, "PIECE", size)
        table = Table(put(content))
        assert [row[0] for row in table.rows()] == ["x", "\udcfcx", "\n\udcfc", "z"]
        assert (table.odd_line, table.odd_lines) == (3, 2)
    table = Table(put(b"a,b\n\xc3\xa9,1\n"))
    assert rows_of(put(b"a,b\n\xc3\xa9,1\n")) == [["é", "1"]] and table.odd_line is None


# ---- delimiters


@pytest.mark.parametrize(
    "content, delimiter, width",
    [
        ("a,b\n1,2\n", ",", 2),
        ("a;b;c\n1;2,5;3\n4;5,5;6\n", ";", 3),
        ("a\tb\n1,5\t2,5\n3,5\t4,5\n", "\t", 2),
        ("a|b\n1|2\n", "|", 2),
        ('a,b\n"x;y;z",1\n"x;y;z",2\n', ",", 2),
        ('a;b\n"x\n,y";1\n"x\n,y";2\n', ";", 2),
        ("a;b,c;d\n1;2;3\n4;5;6\n7;8;9\n", ";", 3),
        ("a,b;c\n1,2\n3,4\n5,6\n", ",", 2),
        ("a;b\n1;2,5\n3;4,5\n5,6\n", ";", 2),  # the header alone decides
        ("one\n", ",", 1),
        ("text\nhello; and\nbye\nyes\n", ",", 1),
    ],
)
def test_delimiter_is_found(put, content, delimiter, width):
    table = Table(put(content))
    assert (table.delimiter, len(table.names)) == (delimiter, width)


def test_delimiter_by_the_front(put):
    """The front alone counts, without the row that it cuts in two."""
    path = put("a;b\n" + "x;1\n" * 16_383 + "1,2,3\n" * 50_000)
    assert Table(path).delimiter == ";"
    path = put("b,c\n" + f'1,"{"y" * 50}\n{"z" * 50}",x\n' * 1000)
    assert opening.FRONT - 4 - 606 * 108 in range(54, 108)  # it ends within the quotes of a row
    assert "line 1 has 2 fields, and all rows 3: --row-names" in fault_of(lambda: Table(path))


def test_unclear_delimiter(put):
    path = put("a;b,c\n1;2,3\n4;5,6\n")
    said = "',' and ';' may both be the delimiter: --delimiter ',' or --delimiter ';'"
    assert fault_of(lambda: Table(path)) == said
    assert Table(path, ";").titles == ["a", "b,c"]
    path = put("a\tb,c\n1\t2,3\n")
    assert "--delimiter ',' or --delimiter tab" in fault_of(lambda: Table(path))


def test_one_column(put):
    """An explicit delimiter that separates nothing stays, and a better one is named."""
    table = Table(put("a\tb\n1\t2\n"), ",")
    assert (table.names, table.other_delimiter) == (["a_b"], "--delimiter tab")
    schema = Schema(["attr a text", "measure b", "view a"])
    said = fault_of(lambda: picker(table, schema))
    assert said == "the header has no column for `a`; its columns are a_b: try --delimiter tab"
    path = put("k;n\nx;1,5\n")
    said = fault_of(lambda: rows_of(path, ","))
    assert said == "line 1 has 1 field, and all rows 2: try --delimiter ';'"
    path = put("k;n\nx;1,5\ny;2\nz;3\n")
    said = fault_of(lambda: rows_of(path, ","))
    assert said == "row 1 (line 2) has 2 fields, and the header has 1: try --delimiter ';'"
    assert Table(put("a\n1\n"), ",").other_delimiter == ""


def test_spaces(put):
    path = put("name  n\na 1\nc   2\n")
    said = fault_of(lambda: Table(path))
    assert said.startswith("each row has 2 words and no delimiter: --delimiter space, or --del")
    table = Table(put('name  n\n"a  b"   1\nc\t2  \n'), " ")
    assert table.names == ["name", "n"]
    assert [(row, table.line) for row in table.rows()] == [(["a  b", "1"], 2), (["c", "2"], 3)]
    assert Table(put("full name\nMax\nEva\nUli\n")).names == ["full_name"]


def test_fixed_widths(put):
    path = put("NAME           N\nA B            1\nC   D E        2\nF        10   33\n")
    said = fault_of(lambda: Table(path))
    assert said.startswith("its columns have fixed widths: in2csv -f fixed")


def test_spaces_after_delimiters(put):
    path = put('a, b, c\n1, "x, y", 3\n2, z,\n')
    table = Table(path)
    assert table.titles == ["a", "b", "c"]
    assert table.remarks == ["a space after each delimiter is left out"]
    assert list(table.rows()) == [["1", "x, y", "3"], ["2", "z", ""]]
    assert rows_of(put("a,b\n1, x\n2,y\n")) == [["1", " x"], ["2", "y"]]


# ---- headers


@pytest.mark.parametrize(
    "content, words",
    [
        ("", "there is no header line"),
        ("\n\n", "there is no header line"),
        ("# made by me\na,b\n1,2\n3,4\n", "line 1 is a comment: --skip-lines 1 skips it"),
        ("# made\n# by me\n#a,b\n1,2\n3,4\n", "line 1 is a comment: --skip-lines 2 skips it"),
        (
            ",b,c\n1,x,2,3\n2,y,4,5\n",
            (
                "line 1 has 3 fields, and all rows 4: --row-names if the first column has no name,"
                " --skip-lines 1 if line 2 is the header"
            ),
        ),
        (
            "a,b\n1,2,\n3,4,\n",
            "line 1 has 2 fields, and all rows 3, the last of them empty: sed 's/,\\r*$//' FILE",
        ),
        (
            "a\tb\n1\t2\t\n3\t4\t\n",
            "line 1 has 2 fields, and all rows 3, the last of them empty: sed 's/\\t\\r*$//' FILE",
        ),
        (
            'Source,"World, all"\n\nyear\na,b,c,d\n1,2,3,4\n5,6,7,8\n9,10,11,12\n1,1,1,1\n',
            "line 1 has 2 fields, and most rows 4: --skip-lines 3 if line 4 is the header",
        ),
        ('a,b\n"1,2\n3,4\n', "the quote that opens in line 2 is not closed"),
        ('a,b\n1,2\n\n3,"4\n\n', "the quote that opens in line 4 is not closed"),
        ('a,b\n1,2\n"x\ny","4\n5', "the quote that opens in line 4 is not closed"),
        ('a,"b\n1,2\n', "the quote that opens in line 1 is not closed"),
        ('a,b\n"1"x,2\n', "line 2, after row 0, is no csv: ',' expected after '\"'"),
        (
            "a,b\n1,2\n3\n",
            "row 2 (line 3) has 1 field, and the header has 2: --fill takes the missing",
        ),
        (
            "a,b\n1,2\n\n3,4,5\n",
            (
                "row 2 (line 4) has 3 fields, and the header has 2: a field with ',' in it needs"
                " quotes"
            ),
        ),
    ],
)
def test_faulty_files(put, content, words):
    path = put(content)
    assert words in fault_of(lambda: rows_of(path))


def test_header_that_begins_with_a_comment_sign(put):
    table = Table(put("#id,name\n1,x\n2,y\n"))
    assert (table.names, list(table.rows())) == (["id", "name"], [["1", "x"], ["2", "y"]])


def test_words_for_faulty_files(put):
    """The words that the faults name do it."""
    path = put("# made by me\na,b\n1,2\n3,4\n")
    table = Table(path, skip=1)
    assert [(row, table.place()) for row in table.rows()] == [
        (["1", "2"], "row 1 (line 3)"),
        (["3", "4"], "row 2 (line 4)"),
    ]
    path = put(",b,c\n1,x,2,3\n2,y,4,5\n")
    table = Table(path, row_names=True)
    assert (table.names, len(list(table.rows()))) == (["row", "column_2", "b", "c"], 2)
    path = put("a,b,c\n1\n2,3\n4,5,6\n")
    assert rows_of(path, fill=True) == [["1", "", ""], ["2", "3", ""], ["4", "5", "6"]]
    assert "has 4 fields" in fault_of(lambda: rows_of(put("a,b,c\n1,2,3\n1,2,3,4\n"), fill=True))


def test_no_header(put):
    path = put("x,1\ny,2\n")
    table = Table(path, has_header=False)
    assert (table.names, table.titles) == (["column_1", "column_2"], ["column_1", "column_2"])
    assert [(row, table.place()) for row in table.rows()] == [
        (["x", "1"], "row 1 (line 1)"),
        (["y", "2"], "row 2 (line 2)"),
    ]
    assert Table(path, has_header=False, names=["Part", "Qty"]).names == ["part", "qty"]
    said = fault_of(lambda: Table(path, has_header=False, names=["part"]))
    assert said == "row 1 has 2 fields, and --names has 1"
    table = Table(path, names=["part", "qty"])
    assert (table.names, list(table.rows())) == (["part", "qty"], [["y", "2"]])
    assert "and --names has 1" in fault_of(lambda: rows_of(path, names=["part"]))
    said = fault_of(lambda: rows_of(put("1,2\n1\n"), has_header=False))
    assert said.startswith("row 2 (line 2) has 1 field, and the first row has 2")
    assert fault_of(lambda: Table(put(""), has_header=False)) == "there are no rows"


def test_names(put):
    table = Table(put("Qty,qty,Größe,7th,\n1,2,3,4,5\n"))
    assert table.names == ["qty", "qty_2", "groe", "column_7th", "column_5"]
    assert table.remarks == ["the header repeats names: `qty` is qty_2"]
    assert [table.named(each) for each in ("Qty", "qty", "QTY_2")] == ["qty", "qty_2", "qty_2"]
    said = fault_of(lambda: table.named("Free"))
    assert said == f"the header has no column for `Free`; its columns are {', '.join(table.names)}"
    table = Table(put(",".join("a" * 8) + "\n"))
    assert table.remarks[0].endswith("`a` is a_5, `a` is a_6 and 2 more")
    assert len(set(names_of(["x" * 40] * 12))) == 12
    assert max(map(len, names_of(["x" * 40] * 12))) <= 32


# ---- conversions


def test_convert(put):
    path = put("day,fee,n,note\n3/14/2025,12.5,7,NA\n3/15/2025,NA,,x\n,-0.25,NA,\n")
    table = Table(path)
    kinds = {
        "day": Kind("day", order="MDY"),
        "fee": Kind("decimal", 2),
        "n": WHOLE_NUMBER,
        "note": TEXT,
        "gone": TEXT,
    }
    table.convert(kinds, ["", "NA"])
    assert list(table.rows()) == [
        ["20250314", "1250", "7", ""],
        ["20250315", "0", "0", "x"],
        ["0", "-25", "0", ""],
    ]
    assert table.missing == {"day": 1, "fee": 1, "n": 2, "note": 2}


def test_convert_without_absent_cells(put):
    """Without `na` only some columns are converted, and a cell that can't be is named."""
    path = put('fee,n,month\n"1\n",NA,2025-03\n')
    table = Table(path)
    table.convert({"n": WHOLE_NUMBER, "month": Kind("month")})
    assert [place for place, _, _ in table.forms] == [2]
    assert list(table.rows()) == [["1\n", "NA", "202503"]]
    table = Table(put("fee,n\n1.5,x\n1e3x,y\n"))
    table.convert({"fee": Kind("decimal", 2)})
    said = fault_of(lambda: list(table.rows()))
    assert said == "row 2 (line 3): fee is no amount like 12.50: '1e3x'"


def test_go_on(put):
    table = Table(put("a,b\n1,2\n"))
    table.go_on(10, 20)
    assert [(row, table.place()) for row in table.rows()] == [(["1", "2"], "row 11 (line 22)")]
