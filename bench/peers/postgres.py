"""PostgreSQL: a cluster of its own on a socket in the work folder, run as a user that is not root.

Tables are unlogged and analysed, all stand in its buffers, and plans have one thread and no compiler."""
import glob
import os
import pwd
import shutil
import subprocess
import tempfile

from peers.system import Missing, Shell

OPTIONS = ("listen_addresses=", "fsync=off", "synchronous_commit=off", "full_page_writes=off", "shared_buffers=3GB",
           "work_mem=512MB", "maintenance_work_mem=512MB", "wal_level=minimal", "max_wal_senders=0", "max_wal_size=8GB",
           "checkpoint_timeout=1h", "autovacuum=off", "max_parallel_workers_per_gather=0",
           "max_parallel_maintenance_workers=0", "jit=off", "max_connections=8")


class Postgres(Shell):
    name = "postgresql"
    KINDS = {"i": "BIGINT", "t": "TEXT", "d": "DATE"}
    ECHO, INCLUDE, QUIT = "\\echo", "\\i", "\\q"

    @staticmethod
    def programs():
        """The folder of its programs, which Debian keeps out of the PATH."""
        found = sorted(glob.glob("/usr/lib/postgresql/*/bin/pg_ctl")) + [shutil.which("pg_ctl") or ""]
        if not found[0] or not shutil.which("psql"):
            raise Missing("not installed: apt-get install postgresql")
        return os.path.dirname(found[0])

    def start(self):
        programs = self.programs()
        self.home, self.user = tempfile.mkdtemp(prefix="postgresql-", dir=self.work), []
        if os.geteuid() == 0:
            user = pwd.getpwnam("postgres")
            os.chown(self.home, user.pw_uid, user.pw_gid)
            self.user = ["setpriv", f"--reuid={user.pw_uid}", f"--regid={user.pw_gid}", "--clear-groups"]
        self.control = [*self.user, f"{programs}/pg_ctl", "-D", f"{self.home}/data", "-w"]
        made = [f"{programs}/initdb", "-D", f"{self.home}/data", "-U", "bench", "-A", "trust", "--locale=C", "-E", "UTF8", "-N"]
        self.quietly([*self.user, *made])
        options = " ".join(f"-c {it}" for it in OPTIONS)
        self.quietly([*self.control, "-l", f"{self.home}/log", "-o", f"{options} -k {self.home}", "start"])
        words = ["psql", "-X", "-q", "-h", self.home, "-U", "bench", "-d", "postgres", "--csv", "-t", "-P", "null=\\N"]
        self.spawn(words, env={**os.environ, "PGOPTIONS": "-c client_min_messages=warning"})

    def quietly(self, words):
        how = {"stdout": subprocess.DEVNULL, "stderr": subprocess.DEVNULL, "cwd": self.home}
        subprocess.run(words, check=True, env={**os.environ, "PGTZ": "UTC"}, **how)

    def stop(self):
        super().stop()
        if hasattr(self, "process"):
            self.quietly([*self.control, "-m", "fast", "stop"])
        shutil.rmtree(getattr(self, "home", ""), ignore_errors=True)

    def about(self):
        return "PostgreSQL " + self.send("SHOW server_version;")[1].split()[0].strip('"')

    def memory(self):
        """The bytes of its tables, which all stand in its buffers."""
        size = "SELECT COALESCE(SUM(pg_total_relation_size(oid)), 0) FROM pg_class WHERE relnamespace = 'public'::regnamespace"
        return int(self.send(f"{size} AND relkind = 'r';")[1])

    def create(self, table, name=None):
        name = name or table
        made = self.schema.created(table, self.KINDS, False, name).replace("CREATE", "CREATE UNLOGGED", 1)
        self.send(f"DROP TABLE IF EXISTS {name};\n{made}")

    def settle(self, table, key):
        self.send((f"ALTER TABLE {table} ADD PRIMARY KEY ({key});\n" if key else "") + f"VACUUM ANALYZE {table};")

    def load(self, table):
        self.create(table)
        seconds, _ = self.send(f"\\copy {table} from '{self.file(table)}' with (format csv, null '\\N')")
        self.settle(table, self.schema.keys.get(table))
        return seconds

    def part(self, table, source, size):
        self.create(source, table)
        self.send(f"INSERT INTO {table} SELECT * FROM {source} WHERE id <= {size};")
        self.settle(table, "id")
