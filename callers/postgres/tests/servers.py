"""PostgreSQL servers for tests, each in a folder of its own.

A server listens only on a socket in its folder, and does not run as root.
"""
from __future__ import annotations

import atexit
import contextlib
import glob
import os
import pwd
import shutil
import subprocess
import tempfile

import psycopg
from cedar_postgres import migrate

SETTINGS = """
listen_addresses = ''
unix_socket_directories = '{folder}'
max_connections = 100
shared_buffers = 128MB
max_wal_size = 512MB
wal_level = logical
max_wal_senders = 8
wal_keep_size = 256MB
logging_collector = off
fsync = {fsync}
"""


def program_folder() -> str:
    """Returns the folder with the programs of the newest server of this machine, or an empty text."""
    paths = [path for path in glob.glob("/usr/lib/postgresql/*/bin/initdb") if path.split("/")[4].isdigit()]
    newest = max(paths, key=lambda path: int(path.split("/")[4]), default=None) or shutil.which("initdb")
    return os.path.dirname(os.path.realpath(newest)) if newest else ""


def _server_user() -> dict:
    """Returns the user that a server runs as. `initdb` does not run as root."""
    if os.getuid() != 0:
        return {}
    names = {entry.pw_name: entry for entry in pwd.getpwall()}
    entry = names.get("postgres") or names["nobody"]
    return {"user": entry.pw_uid, "group": entry.pw_gid, "extra_groups": []}


class Server:
    """A server with data of its own. `close` stops it and deletes its folder."""

    def __init__(self, primary: Server | None = None, durable: bool = True) -> None:
        """Creates a server with empty tables, or a replica of the given primary.

        A server that is not `durable` does not wait for the disk. It loses commits if the machine crashes, but not if
        the server crashes.
        """
        self.folder = tempfile.mkdtemp(prefix="cedar-")
        atexit.register(self.close)
        self.dsn = f"host={self.folder} user=cedar dbname=postgres"
        if os.getuid() == 0:
            os.chown(self.folder, _server_user()["user"], _server_user()["group"])
        data_options = ["-D", self.folder + "/data"]
        if primary:
            options = ["-R", "-X", "stream", "-c", "fast", "--no-sync"]
            self._run("pg_basebackup", "-h", primary.folder, "-U", "cedar", *options, *data_options)
        else:
            self._run("initdb", "-U", "cedar", "--auth=trust", "-E", "UTF8", "--locale=C", "--no-sync", *data_options)
        with open(self.folder + "/data/postgresql.conf", "a") as settings:
            settings.write(SETTINGS.format(folder=self.folder, fsync="on" if durable else "off"))
        self.start()

    def _run(self, program: str, *arguments: str) -> None:
        command = [os.path.join(program_folder(), program), *arguments]
        result = subprocess.run(
            command,
            cwd=self.folder,
            stdin=subprocess.DEVNULL,
            stdout=subprocess.PIPE,
            stderr=subprocess.STDOUT,
            text=True,
            **_server_user(),
        )
        if result.returncode != 0:
            raise RuntimeError(f"{program} failed with exit status {result.returncode}: {result.stdout}")

    def _control(self, *arguments: str) -> None:
        self._run("pg_ctl", "-D", self.folder + "/data", "-s", "-w", "-t", "300", *arguments)

    def start(self) -> None:
        """Starts the server, and waits until it accepts connections."""
        self._control("-l", self.folder + "/log", "start")

    def stop(self, mode: str = "fast") -> None:
        """Stops the server. `immediate` is like a power failure, but all files stay as they were written."""
        self._control("-m", mode, "stop")

    def create_database(self, name: str, options: str = "") -> str:
        """Creates a database with the schema of the adapter. Returns the connection string of a service's role."""
        self.sql(f"CREATE DATABASE {name} {options}")
        migrate(self.owner_dsn(name))
        with contextlib.suppress(psycopg.errors.DuplicateObject):
            self.sql("CREATE ROLE app LOGIN IN ROLE cedar_service")
        return self.owner_dsn(name).replace("user=cedar", "user=app")

    def owner_dsn(self, name: str) -> str:
        """Returns the connection string of the superuser who owns the tables."""
        return self.dsn.replace("dbname=postgres", "dbname=" + name)

    def sql(self, statement: str, *values: object, dsn: str = "") -> list:
        """Runs a statement in a connection of its own, without the library. Returns the rows."""
        with psycopg.connect(dsn or self.dsn, autocommit=True) as connection:
            cursor = connection.execute(statement.encode(), values or None)
            return cursor.fetchall() if cursor.description else []

    def close(self) -> None:
        """Stops the server if it runs, and deletes its folder. Called at the end of the process at the latest."""
        if os.path.exists(self.folder + "/data/postmaster.pid"):
            self.stop("immediate")
        shutil.rmtree(self.folder, ignore_errors=True)
        atexit.unregister(self.close)

    def __enter__(self) -> Server:
        return self

    def __exit__(self, *_: object) -> None:
        self.close()


_shared_servers: list[Server] = []


def shared_server() -> Server:
    """Returns the server that tests share. The first test starts it."""
    if not _shared_servers:
        _shared_servers.append(Server(durable=False))
    return _shared_servers[0]
