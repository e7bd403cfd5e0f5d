"""What the scripts of this folder share: the facts, the views and the slices, the programs that
keep them, and ways to measure these."""
import glob
import os
import random
import resource
import shutil
import subprocess
import tempfile
import time

TOP = os.path.dirname(os.path.dirname(os.path.abspath(__file__)))
PROGRAM = os.path.abspath(
    os.environ.get("CUBETREE") or os.path.join(TOP, "crates", "cubetree", "out", "cubetree")
)
TIMES = 20
PIECE = 1 << 20

# The views. Points are sorted by the last attribute, then by the one before it, so the keys of
# sqlite3 are reversed.
TWO = [["year", "shop", "part"], ["year"]]
EIGHT = [["year", "shop", "part"], ["shop", "part"], ["year", "part"], ["year", "shop"]]
EIGHT += [["part"], ["shop"], ["year"], []]

# Each slice in both languages: the few rows of a small view, searches of a large view, and few and
# many groups of all its points.
SLICES = [
    ("by year", "sum(qty),count by year", (["year"], "", ["sum", "count"])),
    (
        "one part in three years, by shop",
        "sum(qty),min(qty),max(qty) by shop where part=p17 and year=2003..2005",
        (["shop"], "where part='p17' and year between 2003 and 2005", ["sum", "min", "max"]),
    ),
    (
        "one of each, one row",
        "sum(qty),count by year where part=p17 and shop=42 and year=2003",
        (["year"], "where part='p17' and shop=42 and year=2003", ["sum", "count"]),
    ),
    (
        "by shop in one year",
        "sum(qty),count by shop where year=2003",
        (["shop"], "where year=2003", ["sum", "count"]),
    ),
    ("by part", "sum(qty),count by part", (["part"], "", ["sum", "count"])),
    ("by shop and year", "sum(qty),count by shop,year", (["shop", "year"], "", ["sum", "count"])),
    ("by part and shop", "sum(qty),count by part,shop", (["part", "shop"], "", ["sum", "count"])),
    (
        "a row for each point",
        "sum(qty),count by part,shop,year",
        (["part", "shop", "year"], "", ["sum", "count"]),
    ),
]

# Views for a roll-up and for queries; each has a point for each fact. The keys of sqlite3 are
# reversed.
FOLDED = [["part"], ["shop", "year"], ["year", "shop"]]


def batches_of(facts, batches):
    """The batches as csv, the same ones each time."""
    draw = random.Random(facts)
    size = facts // batches
    rows = [fact_of(draw) for _ in range(facts)]
    return ["".join(rows[first : first + size]) for first in range(0, facts, size)]


def fact_of(draw):
    part, shop, year = draw.randrange(500), draw.randrange(100), 2000 + draw.randrange(20)
    return f"p{part},{shop},{year},{draw.randrange(-99, 1000)}\n"


def folded_rows(facts):
    """Facts with a part of its own each, and each year in each of 1,000 shops."""
    draw = random.Random(facts)
    return "".join(
        f"p{number},{number % 1000},{number // 1000},{draw.randrange(-99, 1000)}\n"
        for number in range(facts)
    )


def build(room, facts, views):
    """Builds a warehouse of these facts in the folder, in batches of at most 100,000."""
    site = Cubetree(room, views)
    for batch in batches_of(facts, -(-facts // 100_000)) if facts else []:
        site.load(batch)
    site.end()


def reply(run, *ends):
    """The lines of a reply before its last one, which begins with one of these words. They are read
    in pieces: reading line by line would take longer than a program takes to write them."""
    text, last = bytearray(), b""
    while not (text.endswith(b"\n") and last.startswith(ends)):
        piece = os.read(run.stdout.fileno(), PIECE)
        text += piece
        last = bytes(text[-200:]).rstrip(b"\n").rsplit(b"\n", 1)[-1]
        if not piece or (last.startswith(b"refused") and not last.startswith(ends)):
            raise SystemExit(f"a program ended, or printed {last}")
    return bytes(text[: text.rfind(b"\n", 0, -1) + 1])


def told(site, command, end):
    site.run.stdin.write(command.encode())
    site.run.stdin.flush()
    return reply(site.run, end)


class Cubetree:
    name = "cubetree"

    def __init__(self, room, views=None, words=()):
        """A run in the folder. It declares a schema with these views, or uses the one there is."""
        self.run = subprocess.Popen(
            [PROGRAM, *words], cwd=room, stdin=subprocess.PIPE, stdout=subprocess.PIPE
        )
        if views is not None:
            self.declare(views)

    def declare(self, views):
        lines = ["schema", "attr part text", "attr shop number", "attr year number", "measure qty"]
        lines += [("view " + ",".join(view)).strip() for view in views]
        self.tell("\n".join(lines + ["end", ""]))

    def tell(self, command):
        self.run.stdin.write(command.encode())
        self.run.stdin.flush()
        return reply(self.run, b"rows ", b"committed ", b"declared")

    def load(self, batch):
        self.tell(f"load\n{batch}end\n")

    def ask(self, number):
        return self.tell(f"slice {SLICES[number][1]}\n")

    def size(self, room):
        paths = [os.path.join(room, name) for name in ("names", "side0", "side1")]
        return sum(os.path.getsize(path) for path in paths if os.path.exists(path))

    def reads(self):
        """How many read calls it has made, those of its script included."""
        with open(f"/proc/{self.run.pid}/io") as file:
            return next(int(line.split()[1]) for line in file if line.startswith("syscr"))

    def peak(self):
        """The peak memory of the run, in bytes."""
        with open(f"/proc/{self.run.pid}/status") as file:
            return next(1024 * int(line.split()[1]) for line in file if line.startswith("VmHWM"))

    def end(self):
        self.run.stdin.close()
        self.run.wait()


BATCH = "create temp table batch(part text, shop integer, year integer, qty integer);"


def keys_of(view):
    """The columns of a table for a view, in SQL."""
    kinds = [f"{attr} {'text' if attr == 'part' else 'integer'}" for attr in view]
    return "".join(f"{each} not null, " for each in kinds or ["one integer"])


class Sqlite:
    name = "sqlite3"
    opening = []

    def __init__(self, room, views):
        self.room = room
        self.views = views
        pipe, words = subprocess.PIPE, ["sqlite3", "-batch", "facts.db"]
        self.run = subprocess.Popen(words, cwd=room, stdin=pipe, stdout=pipe)
        tables = [*self.opening, ".mode csv", ".separator , \\n", BATCH]
        for number, view in enumerate(views):
            tables.append(
                f"create table v{number}({keys_of(view)}n integer, s integer, low integer,"
                f" high integer, primary key({','.join(reversed(view)) or 'one'})) without rowid;"
            )
        self.tell("\n".join(tables) + "\n")

    def tell(self, command):
        self.run.stdin.write((command + ".print done\n").encode())
        self.run.stdin.flush()
        return reply(self.run, b"done")

    def load(self, batch):
        path = os.path.join(self.room, "batch.csv")
        with open(path, "w") as file:
            file.write(batch)
        steps = [".import batch.csv batch", "begin;"]
        for number, view in enumerate(self.views):
            keys = ",".join(view) or "1"
            group = f" group by {keys}" if view else ""
            steps.append(
                f"insert into v{number} select {keys},count(*),sum(qty),min(qty),max(qty)"
                f" from batch where true{group} on conflict do update set n=n+excluded.n,"
                "s=s+excluded.s,low=min(low,excluded.low),high=max(high,excluded.high);"
            )
        self.tell("\n".join(steps + ["commit;", "delete from batch;", ""]))

    def ask(self, number):
        group, where, columns = SLICES[number][2]
        table = self.table_for(set(group) | {attr for attr in EIGHT[0] if attr in where})
        told = {"sum": "sum(s)", "count": "sum(n)", "min": "min(low)", "max": "max(high)"}
        keys, folds = ",".join(group), ",".join(told[column] for column in columns)
        return self.tell(
            f"select {keys},{folds} from v{table} {where} group by {keys} order by {keys};\n"
        )

    def table_for(self, attrs):
        covering = [number for number, view in enumerate(self.views) if attrs <= set(view)]
        return min(covering, key=lambda number: len(self.views[number]))

    def size(self, room):
        return os.path.getsize(os.path.join(room, "facts.db"))

    def end(self):
        self.run.stdin.close()
        self.run.wait()


class SqliteAhead(Sqlite):
    """With a write-ahead log, which is also synced at the end of each transaction."""

    opening = ["pragma journal_mode=wal;", "pragma synchronous=full;"]


class Postgres:
    """A server of its own in the folder, and psql to talk to it. A batch is copied into a temporary
    table."""

    name = "postgres"
    home = max(glob.glob("/usr/lib/postgresql/*/bin"), default="")

    def __init__(self, room, views):
        self.room, self.views = room, views
        os.chmod(room, 0o777)
        self.data = os.path.join(room, "data")
        self.server("initdb", "-D", self.data, "-A", "trust", "--locale=C")
        options = f"-c listen_addresses= -c unix_socket_directories={room}"
        log = os.path.join(room, "log")
        self.server("pg_ctl", "-D", self.data, "-w", "-l", log, "-o", options, "start")
        words = [*"psql -X -q -A -t -F , -v ON_ERROR_STOP=1 -U postgres -h".split(), room]
        pipe = subprocess.PIPE
        self.run = subprocess.Popen([*words, "postgres"], cwd=room, stdin=pipe, stdout=pipe)
        tables = [BATCH]
        for number, view in enumerate(views):
            tables.append(
                f"create table v{number}({keys_of(view)}n bigint, s bigint, low integer,"
                f" high integer, primary key({','.join(reversed(view)) or 'one'}));"
            )
        self.tell("\n".join(tables) + "\n")

    def server(self, program, *words):
        user = ["runuser", "-u", "postgres", "--"] if os.getuid() == 0 else []
        command = [*user, os.path.join(self.home, program), *words]
        subprocess.run(command, cwd=self.room, stdout=subprocess.DEVNULL, check=True)

    def tell(self, command):
        self.run.stdin.write((command + "\\echo done\n").encode())
        self.run.stdin.flush()
        return reply(self.run, b"done")

    def load(self, batch):
        steps = ["begin;", "copy batch from stdin with (format csv);", batch + "\\."]
        for number, view in enumerate(self.views):
            keys = ",".join(view) or "1"
            group = f" group by {keys}" if view else ""
            target = ",".join(reversed(view)) or "one"
            steps.append(
                f"insert into v{number} as v select {keys},count(*),sum(qty),min(qty),max(qty)"
                f" from batch{group} on conflict({target}) do update set n=v.n+excluded.n,"
                "s=v.s+excluded.s,low=least(v.low,excluded.low),"
                "high=greatest(v.high,excluded.high);"
            )
        self.tell("\n".join(steps + ["delete from batch;", "commit;", ""]))

    ask = Sqlite.ask
    table_for = Sqlite.table_for

    def end(self):
        self.run.stdin.close()
        self.run.wait()
        self.server("pg_ctl", "-D", self.data, "-m", "fast", "-w", "stop")


def timed(call):
    start = time.perf_counter()
    answer = call()
    return time.perf_counter() - start, answer


def agree(ours, theirs):
    for number, (mine, other) in enumerate(zip(ours, theirs)):
        if mine.split() != other.split():
            raise SystemExit(f"the answers to slice {number} differ: {mine[:99]} and {other[:99]}")


def processor(site, call):
    """The processor milliseconds that a program takes for a call, and the answer."""
    before = processor_time(site)
    answer = call()
    return (processor_time(site) - before) / 1e6, answer


def processor_time(site):
    """The processor nanoseconds of a program up to where it waits for more input."""
    while True:
        with open(f"/proc/{site.run.pid}/stat") as file:
            if file.read().rpartition(")")[2].split()[0] == "S":
                break
    with open(f"/proc/{site.run.pid}/schedstat") as file:
        return int(file.read().split()[0])


def ended(words, **how):
    """The processor seconds and the seconds of a program until it ends."""
    before = resource.getrusage(resource.RUSAGE_CHILDREN)
    seconds, _ = timed(lambda: subprocess.run(words, check=True, **how))
    after = resource.getrusage(resource.RUSAGE_CHILDREN)
    return after.ru_utime - before.ru_utime + after.ru_stime - before.ru_stime, seconds


def run_over(room, script, words=()):
    """The processor seconds and the seconds of a run with this script in the folder."""
    return ended([PROGRAM, *words], cwd=room, input=script.encode(), stdout=subprocess.DEVNULL)


def spent(room, script):
    """The processor seconds and the seconds of a run with this script over a copy of the folder."""
    with tempfile.TemporaryDirectory() as copy:
        shutil.copytree(room, copy, dirs_exist_ok=True)
        return run_over(copy, script)


def peak_after(room, command, end):
    """The peak memory of a run that opened the files and carried out the command."""
    site = Cubetree(room)
    told(site, command, end)
    peak = site.peak()
    site.end()
    return peak


def counted(room, script):
    """The instructions of a run over a copy of the folder, and the number of points after it."""
    with tempfile.TemporaryDirectory() as copy:
        shutil.copytree(room, copy, dirs_exist_ok=True)
        counts = os.path.join(copy, "counts")
        words = ["valgrind", "--tool=callgrind", f"--callgrind-out-file={counts}", PROGRAM]
        subprocess.run(words, cwd=copy, input=script.encode(), capture_output=True, check=True)
        with open(counts) as file:
            summary = next(line for line in file if line.startswith("summary:"))
        return int(summary.split()[1]), points_in(copy)


def side(number):
    """The side that this batch of a folder is written to."""
    return f"side{number % 2}"


def live_body(room):
    """The live body of the file `root`."""
    with open(os.path.join(room, "root"), "rb") as file:
        root = file.read()
    slots = [slot for slot in range(2) if root[2048 + slot : 2049 + slot] == b"\x01"]
    bodies = [root[1024 * slot : 1024 * slot + 1024] for slot in slots]
    return max(bodies, key=lambda body: int.from_bytes(body[16:24], "big"))


def points_in(room):
    """How many points all views of the live body have."""
    live = live_body(room)
    return sum(int.from_bytes(live[place : place + 8], "big") for place in range(104, 360, 8))


def head(*columns):
    """Prints the head of a table."""
    print("| " + " | ".join(columns) + " |")
    print("|" + "---|" * len(columns), flush=True)


def row(*cells):
    """Prints a row of a table."""
    print("| " + " | ".join(map(str, cells)) + " |", flush=True)


def over(first, second, form):
    return f"{first:{form}} / {second:{form}} ({first / second:.2f})"
