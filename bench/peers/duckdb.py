"""DuckDB in memory by its own shell, in one thread, without keys and indexes but the summary's.

It has no triggers and no kept views, so a table of sums is kept by statements that come with each write. The folder in
DUCKDB_ROOT is the root of another Debian, whose own loader runs the program without chroot."""
import glob
import os
import shutil

from peers.system import Missing, Shell

GET = ("not installed: it is in Debian's unstable suite alone; as root, "
       "debootstrap --variant=minbase --include=duckdb sid ROOT, and then DUCKDB_ROOT=ROOT")


class Duckdb(Shell):
    name = "duckdb"
    KINDS = {"i": "BIGINT", "t": "TEXT", "d": "DATE"}
    CSV = ("FORMAT csv, HEADER false, NULLSTR '\\N', AUTO_DETECT false, DELIM ',', QUOTE '\"', ESCAPE '\"', "
           "NEW_LINE '\\n'")
    ADDED = "ON CONFLICT (nation, yr) DO UPDATE SET rev = rev + excluded.rev, n = n + excluded.n"

    @staticmethod
    def words():
        root = os.environ.get("DUCKDB_ROOT")
        if not root:
            if shutil.which("duckdb"):
                return ["duckdb"]
            raise Missing(GET)
        program = f"{root}/usr/bin/duckdb"
        loaders = glob.glob(f"{root}/usr/lib*/ld-linux*.so.*") + glob.glob(f"{root}/lib*/ld-linux*.so.*")
        if not os.path.exists(program) or not loaders:
            raise Missing(f"no duckdb under {root}: {GET}")
        return [loaders[0], "--library-path", ":".join(glob.glob(f"{root}/usr/lib/*-linux-gnu*")), program]

    def start(self):
        self.spawn([*self.words(), "-batch", "-no-init", "-csv", ":memory:"], cwd=self.work)
        self.send('.headers off\n.separator , "\\n"\n.nullvalue \\\\N\nSET threads = 1;\nSET enable_progress_bar = false;')

    def about(self):
        return "DuckDB " + self.send("SELECT version();")[1].strip()

    def create(self, table, name=None):
        name = name or table
        self.send(f"DROP TABLE IF EXISTS {name};\n{self.schema.created(table, self.KINDS, False, name)}")

    def load(self, table):
        self.create(table)
        return self.send(f"COPY {table} FROM '{self.file(table)}' ({self.CSV});")[0]

    def part(self, table, source, size):
        self.create(source, table)
        self.send(f"INSERT INTO {table} SELECT * FROM {source} WHERE id <= {size};")

    def written(self, upkeep, write):
        """The write, and what it adds to the sums, in one transaction."""
        statement = upkeep.statement(write)
        if not upkeep.is_kept:
            return statement
        if write["op"] == "insert":
            names = ", ".join(it.name for it in self.schema.tables[upkeep.source])
            rows, where, sums = f"({statement.split(None, 3)[3]}) x({names})", "", "SUM(x.revenue), COUNT(*)"
        else:
            rows, where = f"{upkeep.table} x", f"WHERE x.id BETWEEN {write['low']} AND {write['high']}"
            sums = "SUM(-x.revenue), -COUNT(*)" if write["op"] == "delete" else f"SUM({write['add']}), 0"
        kept = (f"INSERT INTO summary SELECT c.nation, d.yr, {sums} FROM {rows} JOIN customer c ON x.custkey = c.custkey "
                f"JOIN dates d ON x.orderdate = d.datekey {where} GROUP BY c.nation, d.yr {self.ADDED}")
        gone = "DELETE FROM summary WHERE n = 0; " if write["op"] == "delete" else ""
        return f"BEGIN; {kept}; {gone}{statement}; COMMIT"
