"""ClickHouse: a server of its own on loopback, in one thread, with tables of its Memory engine.

Debian's version has one JOIN in a SELECT, so the joins of several tables are nested by hand in NAME.clickhouse.sql. Its
tables in memory have no DELETE and no UPDATE, and its kept views take INSERTs alone."""
import http.client
import os
import re
import shutil
import socket
import subprocess
import tempfile
import time
from urllib.parse import quote

from peers.system import Missing, System, resident, rows_of

CONFIG = """<yandex><logger><level>warning</level><log>{home}/log</log><errorlog>{home}/errors</errorlog></logger>
<http_port>{ports[0]}</http_port><tcp_port>{ports[1]}</tcp_port><interserver_http_port>{ports[2]}</interserver_http_port>
<listen_host>127.0.0.1</listen_host><path>{home}/data/</path><tmp_path>{home}/tmp/</tmp_path>
<user_files_path>{home}/user/</user_files_path><format_schema_path>{home}/schemas/</format_schema_path>
<users_config>users.xml</users_config><default_profile>default</default_profile><default_database>default</default_database>
<timezone>UTC</timezone><mark_cache_size>1073741824</mark_cache_size><keep_alive_timeout>600</keep_alive_timeout></yandex>"""
USERS = """<yandex><profiles><default><max_threads>1</max_threads><max_memory_usage>8000000000</max_memory_usage>
<max_insert_block_size>1048576</max_insert_block_size></default></profiles>
<users><default><password></password><networks><ip>127.0.0.1</ip></networks><profile>default</profile>
<quota>default</quota></default></users><quotas><default/></quotas></yandex>"""


def free_ports(count):
    """Ports of loopback that nobody has."""
    held = [socket.socket() for _ in range(count)]
    for it in held:
        it.bind(("127.0.0.1", 0))
    ports = [it.getsockname()[1] for it in held]
    for it in held:
        it.close()
    return ports


class Clickhouse(System):
    name = "clickhouse"
    KINDS = {"i": "Int64", "t": "String", "d": "Date"}

    def start(self):
        program = shutil.which("clickhouse-server") or shutil.which("clickhouse-server", path="/usr/sbin")
        if not program:
            raise Missing("not installed: apt-get install clickhouse-server")
        self.home, ports = tempfile.mkdtemp(prefix="clickhouse-", dir=self.work), free_ports(3)
        for name, it in {"config.xml": CONFIG, "users.xml": USERS}.items():
            with open(f"{self.home}/{name}", "w", encoding="utf-8") as out:
                out.write(it.format(home=self.home, ports=ports))
        quiet = {it: subprocess.DEVNULL for it in ("stdin", "stdout", "stderr")}
        words = [program, f"--config-file={self.home}/config.xml"]
        self.process = subprocess.Popen(words, cwd=self.home, start_new_session=True, **quiet)
        self.connect(ports[0])

    def connect(self, port):
        self.connection = http.client.HTTPConnection("127.0.0.1", port, timeout=900)
        for _ in range(200):
            try:
                self.connection.connect()
                self.connection.sock.setsockopt(socket.IPPROTO_TCP, socket.TCP_NODELAY, 1)
                self.ask("SELECT 1")
                return
            except OSError:
                time.sleep(0.1)
                if self.process.poll() is not None:
                    break
        raise Missing("the server does not start")

    def stop(self):
        if hasattr(self, "connection"):
            self.connection.close()
        if hasattr(self, "process") and self.process.poll() is None:
            self.process.terminate()
            try:
                self.process.wait(30)
            except subprocess.TimeoutExpired:
                self.process.kill()
                self.process.wait()
        shutil.rmtree(getattr(self, "home", ""), ignore_errors=True)

    def ask(self, statement, file=None):
        """The answer to a statement; a file is the data behind it."""
        if file:
            size = {"Content-Length": str(os.fstat(file.fileno()).st_size)}
            self.connection.request("POST", f"/?max_threads=1&query={quote(statement)}", body=file, headers=size)
        else:
            self.connection.request("POST", "/?max_threads=1", body=statement.encode())
        answer = self.connection.getresponse()
        said = answer.read().decode(errors="replace")
        if answer.status != 200:
            raise RuntimeError(f"clickhouse: {said[:300]}")
        return said

    def timed(self, statement, file=None):
        begun = time.perf_counter()
        said = self.ask(statement, file)
        return time.perf_counter() - begun, said

    def about(self):
        return f"ClickHouse {self.ask('SELECT version()').strip()}"

    def memory(self):
        return resident(self.process.pid)

    def create(self, table, name=None):
        name, columns = name or table, []
        for it in self.schema.tables[table]:
            kind = self.KINDS[it.kind]
            columns.append(f"{it.name} {f'Nullable({kind})' if it.is_nullable else kind}")
        self.ask(f"DROP TABLE IF EXISTS {name}")
        self.ask(f"CREATE TABLE {name}({', '.join(columns)}) ENGINE = Memory")

    def load(self, table):
        self.create(table)
        with open(self.file(table), "rb") as file:
            return self.timed(f"INSERT INTO {table} FORMAT CSV", file)[0]

    @staticmethod
    def dialect(text):
        return re.sub(r"\bDATE ('[0-9-]{10}')", r"toDate(\1)", text)

    def query(self, name, rounds):
        text = f"{self.dialect(self.schema.text(name, self.name))} FORMAT CSV"
        runs = [self.timed(text) for _ in range(rounds)]
        return min(seconds for seconds, _ in runs), rows_of(runs[0][1])

    def kept(self, upkeep):
        if upkeep.has_changes:
            raise Missing("INSERTs alone")
        self.create(upkeep.source, upkeep.table)
        self.ask(f"INSERT INTO {upkeep.table} SELECT * FROM {upkeep.source} WHERE id <= {upkeep.size}")
        built = self.summed(upkeep) if upkeep.is_kept else 0.0
        query = upkeep.read(self.name)
        if upkeep.is_kept:
            query = "SELECT nation, yr, sum(rev) AS rev, sum(n) AS n FROM summary GROUP BY nation, yr"
        writes, said = [upkeep.statement(it) for it in upkeep.writes], []
        begun = time.perf_counter()
        for write in writes:
            self.ask(write)
            said.append(self.ask(f"{query} FORMAT CSV"))
        seconds = time.perf_counter() - begun
        for table in ("summary", "customers_by_key", "dates_by_key", upkeep.table):
            self.ask(f"DROP TABLE IF EXISTS {table}")
        return built, seconds, [rows_of(it) for it in said]

    def summed(self, upkeep):
        """The seconds to make the kept view."""
        with open(upkeep.summary(self.name), encoding="utf-8") as it:
            statements = [part.strip() for part in it.read().split(";") if part.strip()]
        begun = time.perf_counter()
        for statement in statements:
            self.ask(statement)
        return time.perf_counter() - begun
