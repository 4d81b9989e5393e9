"""SQLite in memory by its own shell: days are texts, tables have their keys, and each is analysed."""
import re
import shutil

from peers.system import Missing, Shell


class Sqlite(Shell):
    name = "sqlite"
    KINDS = {"i": "INTEGER", "t": "TEXT", "d": "TEXT"}

    def start(self):
        if not shutil.which("sqlite3"):
            raise Missing("not installed: apt-get install sqlite3")
        self.spawn(["sqlite3", "-batch", ":memory:"])
        self.send('.mode csv\n.separator , "\\n"\n.nullvalue \\N\nPRAGMA case_sensitive_like = ON;\n'
                  "PRAGMA temp_store = MEMORY;\nPRAGMA cache_size = -1000000;")

    def about(self):
        return "SQLite " + self.send("SELECT sqlite_version();")[1].strip()

    def dialect(self, text):
        return re.sub(r"\bDATE '", "'", text)

    def create(self, table, name=None):
        name = name or table
        self.send(f"DROP TABLE IF EXISTS {name};\n{self.schema.created(table, self.KINDS, True, name)}")

    def load(self, table):
        self.create(table)
        nulls = "".join(f"UPDATE {table} SET {it.name} = NULL WHERE {it.name} = '\\N';\n"
                        for it in self.schema.tables[table] if it.is_nullable)
        seconds, _ = self.send(f'.import --csv "{self.file(table)}" {table}\n{nulls}')
        self.send(f"ANALYZE {table};")
        return seconds

    def part(self, table, source, size):
        self.create(source, table)
        self.send(f"INSERT INTO {table} SELECT * FROM {source} WHERE id <= {size};\nANALYZE {table};")
