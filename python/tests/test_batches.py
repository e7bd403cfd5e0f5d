"""Tests of the record of numbered batches, and of what a load makes of it."""
from __future__ import annotations

import hashlib
import os
import random
import zlib
from pathlib import Path
from typing import Iterator, List, Optional

import pytest

from cubetree.batches import LINES_KEPT, LONGEST, Noted, Record, line_of, sum_of
from cubetree.columns import Columns
from cubetree.csvfile.loader import noted_source
from cubetree.csvfile.resume import (
    Piece,
    Rows,
    Words,
    expect_no_rows,
    expect_rows,
    fronts_of,
    start_of,
)
from cubetree.errors import Changed, Fault


def rows_of(front: str, count: int) -> List[bytes]:
    """Rows that differ by their front and number."""
    return [b"%s%d,1,1" % (front.encode(), number) for number in range(1, count + 1)]


def pieces_of(rows: List[bytes], size: int = 3) -> Iterator[Piece]:
    """Rows in pieces of a size; the row N ends in line N + 1."""
    for place in range(0, len(rows), size):
        part = rows[place : place + size]
        yield Piece(part, range(place + 2, place + 2 + len(part)))


def noted(
    number: int, rows: List[bytes], first: int, source: str, facts: int, has_fronts: bool = False
) -> Noted:
    """The line of a batch with these rows."""
    found = hashlib.blake2b(b"".join(row + b"\n" for row in rows), digest_size=16).hexdigest()
    fronts = fronts_of([Piece(rows, range(len(rows)))]) if has_fronts else ()
    return Noted(number, facts, len(rows), found, first, source, fronts)


class Folder:
    """A folder as far as the record knows it: numbered batches that were taken in."""

    def __init__(self, path: Path) -> None:
        self.path, self.due, self.facts = str(path), 1, 0

    def record(self) -> Record:
        """Its record, as a load opens it."""
        return Record(self.path, self.due, self.facts)

    def take(
        self, rows: List[bytes], first: int, source: str, record: Optional[Record] = None
    ) -> None:
        """Takes a batch in, which a load notes before."""
        line = noted(self.due, rows, first, source, self.facts, has_fronts=first == 1)
        (record or self.record()).note(line)
        self.due, self.facts = self.due + 1, self.facts + len(rows)

    def load(self, rows: List[bytes], words: Words, size: int = 4) -> int:
        """Loads rows as a load does, in batches of a size; how many were there already."""
        record = self.record()
        source = record.name_of(words.source)
        words = words._replace(source=source)
        start, left = start_of(words, record, self.facts), Rows(pieces_of(rows))
        already = expect_rows(left, start, source)
        expect_no_rows(left, start)
        source = noted_source(record, start, source)
        more = [row for piece in left.take(1 << 60) for row in piece.rows]
        for place in range(0, len(more), size):
            first = start.first + already + place
            self.take(more[place : place + size], first, source, record)
        return already


@pytest.fixture
def folder(tmp_path: Path) -> Folder:
    return Folder(tmp_path)


def test_lines_of_the_file(folder: Folder) -> None:
    """A line as the head of batches.py has it; its sum by hashlib."""
    folder.take([b"a,1,1", b"b,1,1"], 1, "/data/Köln \n.csv")
    text = (Path(folder.path) / ".batches").read_text()
    found = hashlib.blake2b(b"a,1,1\nb,1,1\n", digest_size=16).hexdigest()
    one = hashlib.blake2b(b"a,1,1\n", digest_size=16).hexdigest()
    line = f'1 0 2 {found} 1 {one[:8]},{found[:8]} "/data/K\\u00f6ln \\n.csv"'
    assert text == f"{zlib.crc32(line.encode()):08x} {line}\n"
    assert sum_of([b"a,1,1\n", b"b,1,1\n"]) == found
    fronts = (one[:8], found[:8])
    assert folder.record().of(1) == Noted(1, 0, 2, found, 1, "/data/Köln \n.csv", fronts)
    assert folder.record().of(2) is None


def test_grown_cut_and_changed(folder: Folder) -> None:
    """A file that grows goes on whatever its batches are; one that changed is refused."""
    rows, words = rows_of("a", 10), Words("f")
    assert folder.load(rows, words, 4) == 0
    assert (folder.due, folder.facts) == (4, 10)
    assert folder.load(rows, words, 3) == 10
    assert folder.load(rows + rows_of("b", 3), words, 2) == 10
    assert (folder.due, folder.facts) == (6, 13)
    with pytest.raises(Changed, match="ends with row 9, and batch 3 has its rows 9 to 10"):
        folder.load(rows[:9], words)
    with pytest.raises(Changed, match="rows 5 to 8 are not those of batch 2: --number 6 loads all"):
        folder.load(rows[:4] + rows[5:6] + rows[4:5] + rows[6:] + rows_of("b", 3), words)
    with pytest.raises(Changed, match="rows 1 to 4 are not those of batch 1"):
        folder.load(rows_of("c", 20), words)
    assert (folder.due, folder.facts) == (6, 13)
    assert folder.load(rows_of("c", 2), Words("f", 6)) == 0
    assert folder.load(rows_of("c", 3), words) == 2


def test_other_files(folder: Folder) -> None:
    """A file with rows that came under another name is refused; both ways on are named."""
    rows = rows_of("a", 6)
    folder.load(rows, Words("f"), 4)
    assert folder.load(rows_of("g", 5), Words("g"), 5) == 0
    with pytest.raises(Changed) as caught:
        folder.load(rows + rows_of("b", 1), Words("h"))
    assert (
        str(caught.value)
        == "its first 4 rows came already in batches 1 to 2, from f: --number 1 goes on after the"
        " rows"
        " that are there, --number 4 --from-row 1 adds all its rows again"
    )
    with pytest.raises(Changed, match="its first 5 rows came already in batch 3, from g"):
        folder.load(rows_of("g", 5), Words("h"))
    assert folder.load(rows + rows_of("b", 1), Words("h", 1)) == 6
    assert folder.facts == 12
    # From then on h is f under another name.
    for words in (Words("h"), Words("f"), Words("k", 2)):
        assert folder.load(rows + rows_of("b", 1), words) in (7, 3)
    assert folder.facts == 12
    assert folder.load(rows, Words("f", 5, 1)) == 0
    assert folder.facts == 18
    assert folder.load(rows, Words("h")) == 6
    assert folder.facts == 18


def test_shorter_file(folder: Folder) -> None:
    """A file that is shorter than the first batch of another one, and begins with its rows."""
    rows = rows_of("a", 8)
    folder.load(rows, Words("f"), 8)
    two, four = (
        hashlib.blake2b(b"".join(row + b"\n" for row in rows[:size]), digest_size=16).hexdigest()
        for size in (2, 4)
    )
    noted_first = folder.record().of(1)
    assert noted_first and noted_first.fronts[1:3] == (two[:8], four[:8])
    for count, same in [(1, 1), (2, 2), (3, 2), (4, 4), (7, 4)]:
        words = "row" if same == 1 else "rows"
        with pytest.raises(Changed) as caught:
            folder.load(rows[:count], Words("i"))
        assert (
            str(caught.value)
            == f"its first {same} {words} came already in batch 1, from f: --number 2 --from-row 1"
            " adds all its rows again"
        )
    # Fewer than half of its rows are the same.
    assert folder.load(rows[:3] + rows_of("b", 1), Words("i")) == 0
    assert folder.load(rows[:1], Words("k", 3, 1)) == 0
    assert folder.facts == 13


def test_synced(tmp_path: Path, monkeypatch: pytest.MonkeyPatch) -> None:
    """A line is synced before its batch is sent, and what the columns are before a schema."""
    synced: List[str] = []
    sync = os.fsync

    def noticed(descriptor: int) -> None:
        """Syncs a file, and notes which one."""
        synced.append(os.path.basename(os.readlink(f"/proc/self/fd/{descriptor}")))
        sync(descriptor)

    monkeypatch.setattr(os, "fsync", noticed)
    record = Record(str(tmp_path), 1, 0)
    record.note(noted(1, rows_of("a", 2), 1, "f", 0))
    assert synced == [".batches.new", tmp_path.name]
    record.note(noted(2, rows_of("b", 2), 3, "f", 2))
    assert synced[2:] == [".batches"]
    Columns().write(str(tmp_path))
    assert synced[3:] == [".columns.new", tmp_path.name]


def test_copy_with_other_rows(folder: Folder) -> None:
    """A file under another name whose first 64 rows came already, and which then differs."""
    rows = rows_of("a", 200)
    folder.load(rows, Words("f"), 200)
    for same, said in [(64, 64), (127, 64), (128, 128), (199, 128)]:
        for others in (200 - same, 300):
            with pytest.raises(Changed, match=f"^its first {said} rows came already in batch 1, f"):
                folder.load(rows[:same] + rows_of("b", others), Words("i"))
    assert folder.facts == 200
    assert folder.load(rows[:63] + rows_of("b", 200), Words("i"), 300) == 0
    assert folder.load(rows[:64] + rows_of("b", 200), Words("k", 3, 1), 300) == 0
    assert folder.facts == 727


def test_numbers(folder: Folder) -> None:
    """A number that counts has to have the same rows, one that is due takes new ones."""
    folder.load(rows_of("a", 6), Words("f", 1), 4)
    assert folder.load(rows_of("a", 6), Words("f", 1), 1) == 6
    with pytest.raises(Changed, match="rows 1 to 4 are not those of batch 1 .from f.: --number 3"):
        folder.load(rows_of("g", 6), Words("g", 1))
    with pytest.raises(Fault, match="batch 5 was refused: the folder has no batch 3 yet"):
        folder.load(rows_of("g", 6), Words("g", 5))
    assert folder.load(rows_of("g", 6), Words("g", 3)) == 0
    assert folder.load(rows_of("a", 8), Words("f", 2), 9) == 2
    assert folder.facts == 14
    with pytest.raises(Changed, match="batch 2 began with row 5 of f: --number 6 --from-row R"):
        folder.load(rows_of("a", 8), Words("f", 2, 4))
    with pytest.raises(Changed, match="its first 4 rows came already in batches 1 to 5, from f"):
        folder.load(rows_of("a", 8), Words("f", 6))


def test_rows_from_the_middle(folder: Folder) -> None:
    """--from-row without a number never adds rows twice."""
    rows = rows_of("a", 9)
    assert folder.load(rows, Words("f", row=4), 4) == 0
    assert folder.facts == 6
    assert folder.load(rows + rows_of("b", 1), Words("f", row=4), 4) == 6
    assert folder.facts == 7
    for row in (None, 1, 5, 10):
        with pytest.raises(Changed, match="the folder has rows of it already, from row 4 to 10"):
            folder.load(rows + rows_of("b", 1), Words("f", row=row))
    assert folder.load(rows + rows_of("b", 4), Words("f", row=11)) == 0
    assert folder.facts == 10


def test_unknown_rows(folder: Folder) -> None:
    """Facts without a record are no reason to guess."""
    folder.facts = 90
    with pytest.raises(Changed, match="not known which rows 90 facts of the folder had"):
        folder.load(rows_of("a", 3), Words("f"))
    assert folder.load(rows_of("a", 3), Words("f", 1)) == 0
    assert folder.load(rows_of("a", 4), Words("f")) == 3
    folder.due += 1
    folder.facts += 5
    with pytest.raises(Changed, match="not known which rows batch 3 of the folder had"):
        folder.load(rows_of("a", 5), Words("f"))
    with pytest.raises(Changed, match="batch 3 counts, and .*does not say which rows it had"):
        folder.load(rows_of("a", 5), Words("f", 3))


def test_settled_batches(folder: Folder) -> None:
    """Once the user has given the number that is due, batches before it are none to ask for."""
    folder.due, folder.facts = 4, 90
    with pytest.raises(Changed, match="not known which rows 90 facts of the folder had"):
        folder.load(rows_of("a", 3), Words("f"))
    assert folder.load(rows_of("a", 3), Words("f", 4)) == 0
    assert folder.load(rows_of("a", 4), Words("f")) == 3
    assert folder.load(rows_of("b", 4), Words("g")) == 0


def test_forgotten_batches(folder: Folder) -> None:
    """What was taken back is unknown, also if a later batch was noted and never sent."""
    folder.load(rows_of("a", 3), Words("f"), 9)
    folder.load(rows_of("b", 3), Words("g"), 9)
    record = folder.record()
    record.note(noted(3, rows_of("c", 3), 1, "h", 6))
    record.note_same("i", "f")
    folder.due, folder.facts = 2, 3
    with pytest.raises(Fault, match="has batch 3, which this folder never took"):
        folder.record()
    record.forget(2)
    assert folder.record().name_of("i") == "f"
    assert sorted(folder.record().noted) == [1]
    assert folder.load(rows_of("c", 3), Words("g"), 9) == 0
    assert folder.load(rows_of("a", 3), Words("f")) == 3


def test_torn_and_stale_lines(folder: Folder) -> None:
    """What a stop leaves of a line is no batch; a folder begun anew forgets all."""
    folder.load(rows_of("a", 8), Words("f"), 4)
    with open(folder.path + "/.batches", "ab") as file:
        file.write(b"0123abcd 3 8 4 00ff")
    assert folder.load(rows_of("a", 12), Words("f"), 4) == 8
    lines = (Path(folder.path) / ".batches").read_text().splitlines()
    assert [line.split()[1] for line in lines] == ["1", "2", "3", "3"]
    # A line whose batch never came to the program is not believed.
    folder.record().note(noted(4, rows_of("x", 2), 13, "f", 12))
    assert folder.load(rows_of("a", 14), Words("f"), 4) == 12
    folder.due, folder.facts = 1, 0
    assert folder.load(rows_of("b", 5), Words("f"), 4) == 0
    assert folder.load(rows_of("b", 5), Words("f"), 4) == 5


def test_record_of_another_folder(folder: Folder, tmp_path: Path) -> None:
    """A record that cannot be that of the folder is refused."""
    folder.load(rows_of("a", 8), Words("f"), 2)
    os.mkdir(tmp_path / "other")
    other = Folder(tmp_path / "other")
    other.load(rows_of("b", 4), Words("g"), 2)
    os.rename(folder.path + "/.batches", other.path + "/.batches")
    with pytest.raises(Fault, match="has batch 4, which this folder never took"):
        other.load(rows_of("b", 5), Words("g"))
    for facts in (5, 7):
        other.due, other.facts = 5, facts
        with pytest.raises(Fault, match="has batch 4, which this folder never took"):
            other.load(rows_of("b", 5), Words("g"))


def test_damaged_lines_are_unknown(folder: Folder) -> None:
    """Any byte of the file changed: rows are never lost, nor counted twice."""
    rows, draw = rows_of("a", 6), random.Random(69)
    folder.load(rows, Words("f"), 2)
    path = Path(folder.path) / ".batches"
    whole = path.read_bytes()
    for place in range(len(whole)):
        text = bytearray(whole)
        text[place] = draw.choice([48, 49, 57, 32, 10, 97, 255])
        path.write_bytes(bytes(text))
        twin = Folder(Path(folder.path))
        twin.due, twin.facts = folder.due, folder.facts
        for words in (Words("f"), Words("f", 1)):
            try:
                twin.load(rows + rows_of("b", 1), words)
            except Fault:
                continue
            assert twin.facts == 7, (words, text)  # one row is new
            twin.due, twin.facts = folder.due, folder.facts
        path.write_bytes(whole)


def test_old_lines_are_dropped(folder: Folder) -> None:
    """The record of a feed stays short, and what was dropped is unknown."""
    record = folder.record()
    count = LONGEST // 60 + 3 * LINES_KEPT
    with open(folder.path + "/.batches", "wb") as file:
        for number in range(1, count):
            file.write(line_of(noted(number, [b"x"], 0, "feed", number - 1).text()))
    folder.due, folder.facts = count, count - 1
    folder.take([b"x"], 0, "feed")
    record = folder.record()
    assert os.path.getsize(record.path) < LONGEST / 8
    assert record.of(count - LINES_KEPT - 1) is None
    assert record.of(count - LINES_KEPT) is not None
    folder.take([b"y"], 1, "f")
    assert folder.record().of(count + 1) == noted(count + 1, [b"y"], 1, "f", count, True)


@pytest.mark.parametrize("seed", range(200))
def test_drawn(folder: Folder, seed: int) -> None:
    """Retries of files that grow, are cut, changed or reordered: each row counts once, or the load
    is refused by name and changes nothing. Here the rows are counted, and not the record's."""
    draw = random.Random(seed)
    files = {name: rows_of(name, draw.randrange(1, 12)) for name in "fg"}
    loaded: "dict[str, List[bytes]]" = {"f": [], "g": []}
    for _ in range(12):
        name = draw.choice("fg")
        rows = list(files[name])
        way = draw.choice(["same", "grown", "cut", "changed", "reordered"])
        if way == "grown":
            rows += rows_of(f"{name}{draw.random()}", draw.randrange(1, 5))
        elif way == "cut":
            rows = rows[: draw.randrange(len(rows) + 1)]
        elif way == "changed" and rows:
            rows[draw.randrange(len(rows))] = b"other,1,1"
        elif way == "reordered":
            draw.shuffle(rows)
        number: Optional[int] = None
        facts, due = folder.facts, folder.due
        try:
            folder.load(rows, Words(name, number), draw.randrange(1, 6))
        except Changed:
            assert (folder.facts, folder.due) == (facts, due)
            continue
        # All rows of the file count now, those that it had before as well.
        assert rows[: len(loaded[name])] == loaded[name]
        assert folder.facts == facts + len(rows) - len(loaded[name])
        loaded[name], files[name] = rows, rows
    assert folder.facts == sum(map(len, loaded.values()))
