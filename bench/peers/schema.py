"""The tables, keys and query texts of a benchmark."""
import os
import re
from collections import namedtuple

Column = namedtuple("Column", "name kind is_nullable")
KINDS = {"i": "INTEGER", "t": "TEXT", "d": "DATE"}


class Schema:
    """Tables as lines of `name:kind`, where a kind is i, t or d, with `?` behind it where NULL may stand."""

    def __init__(self, tables, keys, texts):
        self.tables = {name: [self.column(it) for it in line.split()] for name, line in tables.items()}
        self.keys = keys
        self.texts = texts

    @staticmethod
    def column(text):
        name, kind = text.split(":")
        return Column(name, kind[0], kind.endswith("?"))

    def queries(self):
        """The names of all queries: of the files NAME.sql."""
        return sorted(name[:-4] for name in os.listdir(self.texts) if name.endswith(".sql") and name.count(".") == 1)

    def text(self, query, system="colview"):
        """The query's text: that of QUERY.SYSTEM.sql, or of QUERY.sql where there is none."""
        own, common = f"{self.texts}/{query}.{system}.sql", f"{self.texts}/{query}.sql"
        with open(own if os.path.exists(own) else common, encoding="utf-8") as it:
            return " ".join(line for line in it.read().split("\n") if not line.startswith("--")).strip()

    def tables_of(self, query):
        """The tables behind FROM and JOIN, in this order."""
        return list(dict.fromkeys(re.findall(r"\b(?:FROM|JOIN)\s+(\w+)", self.text(query))))

    def created(self, table, kinds, is_keyed=False, name=None):
        """CREATE TABLE with these names for the kinds of columns."""
        parts = []
        for it in self.tables[table]:
            key = " PRIMARY KEY" if is_keyed and self.keys.get(table) == it.name else ""
            parts.append(f"{it.name} {kinds[it.kind]}{'' if it.is_nullable else ' NOT NULL'}{key}")
        return f"CREATE TABLE {name or table}({', '.join(parts)});\n"
