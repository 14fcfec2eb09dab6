"""Starts two groups of servers, a directory and the example application on this machine, and stops all of it again.

    python3 stack.py [--without-haproxy] [--services N]

Each group is a primary with a synchronous replica, which Patroni supervises over three servers of etcd. With haproxy,
one address leads to the primary of each group, and one to all processes of the application. All servers listen on the
loopback interface.
It needs the packages postgresql-15, patroni, python3-etcd, etcd-server, haproxy, python3-uvicorn and python3-httptools.
"""
from __future__ import annotations

import atexit
import contextlib
import glob
import json
import os
import pwd
import random
import shutil
import signal
import socket
import subprocess
import sys
import tempfile
import time
import urllib.request
from typing import Any, Callable, Optional

HERE = os.path.dirname(os.path.abspath(__file__))
CALLERS = os.path.dirname(os.path.dirname(HERE))
sys.path[:0] = [os.path.dirname(HERE), os.path.join(CALLERS, "python")]

import psycopg
from cedar_postgres import migrate

# With three servers of etcd, one can fail.
ETCD_SERVERS = 3

# The section is `etcd`, which uses version 2 of etcd's interface. With the section `etcd3` of Patroni 3.0.2, a primary
# that hung can take the lock back from its successor, and acknowledged changes are lost.
PATRONI = """
scope: {group}
name: {group}{number}
restapi: {{listen: "127.0.0.1:{rest}", connect_address: "127.0.0.1:{rest}"}}
etcd: {{hosts: "{etcd}"}}
bootstrap:
  dcs:
    ttl: 10
    loop_wait: 2
    retry_timeout: 2
    failsafe_mode: true
    synchronous_mode: true
    postgresql:
      use_pg_rewind: true
      parameters: {{wal_level: logical, max_connections: 100, shared_buffers: 64MB, max_wal_size: 512MB,
                    wal_log_hints: "on", max_replication_slots: 10, max_wal_senders: 10}}
  initdb: [{{encoding: UTF8}}, {{locale: C}}, {{auth: trust}}]
  pg_hba: ["host all all 127.0.0.1/32 trust", "host replication all 127.0.0.1/32 trust"]
postgresql:
  listen: "127.0.0.1:{port}"
  connect_address: "127.0.0.1:{port}"
  data_dir: {folder}/{group}{number}
  bin_dir: {programs}
  pgpass: {folder}/{group}{number}.pgpass
  authentication: {{superuser: {{username: postgres}}, replication: {{username: postgres}}}}
  parameters: {{unix_socket_directories: ""}}
"""

HAPROXY = """
global
    maxconn 1000
defaults
    timeout connect 1s
    timeout client 60s
    timeout server 60s
frontend service
    mode http
    bind 127.0.0.1:{service}
    timeout http-request 3s
    option http-buffer-request
    default_backend services
backend services
    mode http
    # A tenant leads to one process, which has it in memory.
    balance uri depth 2
    hash-type consistent
    option httpchk GET /healthz
    option redispatch
    default-server check inter 500ms fall 2 rise 1
{services}
"""
HAPROXY_GROUP = """
listen primary_{group}
    mode tcp
    bind 127.0.0.1:{front}
    option httpchk GET /primary
    http-check expect status 200
    default-server check inter 500ms fall 2 rise 1 on-marked-down shutdown-sessions
"""


def missing_programs(has_haproxy: bool = True) -> list[str]:
    """Returns the names of the programs that this machine does not have."""
    names = ["etcd", "patroni", *(["haproxy"] if has_haproxy else [])]
    missing = [name for name in names if _program(name) is None]
    return missing if _postgresql_folder() else [*missing, "postgresql"]


def _program(name: str) -> Optional[str]:
    return shutil.which(name, path=os.environ.get("PATH", "") + ":/usr/sbin:/usr/bin")


def _postgresql_folder() -> Optional[str]:
    folders = [path for path in glob.glob("/usr/lib/postgresql/*/bin") if path.split("/")[4].isdigit()]
    return max(folders, key=lambda path: int(path.split("/")[4]), default=None)


_given_ports: set[int] = set()


def free_ports(count: int) -> list[int]:
    """Returns ports that are free, and that no other call has returned.

    They are below the range from which the system takes the ports of connections. A port of that range could be taken
    by a connection before the server that it was meant for has started.
    """
    with open("/proc/sys/net/ipv4/ip_local_port_range") as file:
        end = int(file.read().split()[0])
    ports: list[int] = []
    while len(ports) < count:
        port = random.randrange(min(10_000, end - 2_000), end)
        if port not in _given_ports and _is_free(port):
            _given_ports.add(port)
            ports.append(port)
    return ports


def _is_free(port: int) -> bool:
    with socket.socket() as each:
        try:
            each.bind(("127.0.0.1", port))
        except OSError:
            return False
    return True


def wait_until(condition: Callable[[], Any], seconds: float, what: str) -> Any:
    """Waits until a condition holds. Returns its result. Raises `TimeoutError` after some seconds."""
    deadline = time.monotonic() + seconds
    while True:
        with contextlib.suppress(OSError, ValueError, psycopg.Error):
            result = condition()
            if result:
                return result
        if time.monotonic() > deadline:
            raise TimeoutError(f"{what}: not in {seconds} s")
        time.sleep(0.1)


def _is_primary(dsn: str) -> bool:
    with psycopg.connect(dsn, connect_timeout=2) as connection:
        row = connection.execute("SELECT NOT pg_is_in_recovery()").fetchone()
        return row is not None and bool(row[0])


class Process:
    """A program, and the processes that it starts. They do not run as root."""

    def __init__(self, folder: str, name: str, command: list[str], environment: dict[str, str] = {}) -> None:
        self.folder, self.name, self._command, self._environment = folder, name, command, environment
        self.process: Optional[subprocess.Popen[bytes]] = None

    def start(self) -> None:
        options: dict[str, Any] = {}
        if os.getuid() == 0:
            user = pwd.getpwnam("postgres")
            options = {"user": user.pw_uid, "group": user.pw_gid, "extra_groups": []}
        with open(os.path.join(self.folder, self.name + ".log"), "ab") as log:
            self.process = subprocess.Popen(
                self._command,
                cwd=self.folder,
                stdin=subprocess.DEVNULL,
                stdout=log,
                stderr=log,
                start_new_session=True,
                env={**os.environ, **self._environment},
                **options,
            )

    def pids(self) -> list[int]:
        """Returns the processes: the program, and all that it has started."""
        return _with_children([self.process.pid]) if self.process is not None else []

    def send_signal(self, number: int) -> None:
        """Sends a signal to all processes."""
        for pid in self.pids():
            with contextlib.suppress(ProcessLookupError):
                os.kill(pid, number)

    def stop(self, number: int = signal.SIGKILL) -> None:
        """Ends all processes, by default without a warning, like a machine that dies."""
        if self.process is not None:
            pids = self.pids()
            for pid in pids:
                with contextlib.suppress(ProcessLookupError):
                    os.kill(pid, signal.SIGCONT)
                    os.kill(pid, number)
            self.process.wait(30)
            self.process = None


def _with_children(pids: list[int]) -> list[int]:
    """Returns processes, and all that they have started."""
    children: dict[int, list[int]] = {}
    for name in filter(str.isdigit, os.listdir("/proc")):
        with contextlib.suppress(OSError), open(f"/proc/{name}/stat") as stat:
            children.setdefault(int(stat.read().rsplit(")", 1)[1].split()[1]), []).append(int(name))
    found = list(pids)
    for pid in found:
        found += [child for child in children.get(pid, []) if child not in found]
    return found


class Node(Process):
    """A server of a group, with its Patroni."""

    def __init__(self, folder: str, group: str, number: int, etcd: str) -> None:
        self.port, self.rest = free_ports(2)
        self.data = f"{folder}/{group}{number}"
        with open(self.data + ".yml", "w") as file:
            file.write(
                PATRONI.format(
                    group=group,
                    number=number,
                    folder=folder,
                    etcd=etcd,
                    port=self.port,
                    rest=self.rest,
                    programs=_postgresql_folder(),
                )
            )
        super().__init__(folder, f"{group}{number}", [str(_program("patroni")), self.data + ".yml"])

    def postmaster(self) -> int:
        """Returns the process number of PostgreSQL."""
        with open(self.data + "/postmaster.pid") as file:
            return int(file.readline())

    def pids(self) -> list[int]:
        pids = super().pids()
        with contextlib.suppress(OSError, ValueError):
            pids += [pid for pid in _with_children([self.postmaster()]) if pid not in pids]
        return pids

    def kill_postmaster(self) -> None:
        """Kills PostgreSQL only. Patroni goes on."""
        for pid in _with_children([self.postmaster()]):
            with contextlib.suppress(ProcessLookupError):
                os.kill(pid, signal.SIGKILL)


class Etcd(Process):
    """A server of etcd. `members` has the port for its peers of each server, by its number."""

    def __init__(self, folder: str, number: int, port: int, members: dict[int, int]) -> None:
        self.port = port
        client, peers = f"http://127.0.0.1:{port}", {n: f"http://127.0.0.1:{peer}" for n, peer in members.items()}
        options = {
            "--name": f"etcd{number}",
            "--data-dir": f"{folder}/etcd{number}",
            "--log-level": "error",
            "--listen-client-urls": client,
            "--advertise-client-urls": client,
            "--listen-peer-urls": peers[number],
            "--initial-advertise-peer-urls": peers[number],
            "--initial-cluster": ",".join(f"etcd{n}={url}" for n, url in peers.items()),
        }
        arguments = [argument for option in options.items() for argument in option]
        super().__init__(folder, f"etcd{number}", [str(_program("etcd")), "--enable-v2", *arguments])

    def is_leader(self) -> bool:
        """Returns whether the other servers of etcd follow this one."""
        with urllib.request.urlopen(f"http://127.0.0.1:{self.port}/v2/stats/self", timeout=2) as response:
            return bool(json.load(response)["state"] == "StateLeader")


class Group:
    """A primary and its synchronous replica."""

    def __init__(self, folder: str, name: str, etcd: str) -> None:
        self.name, self.nodes = name, [Node(folder, name, number, etcd) for number in (1, 2)]
        (self.front,) = free_ports(1)

    def members(self) -> dict[str, dict[str, Any]]:
        """Returns what Patroni knows of each node, by its name."""
        for node in self.nodes:
            with contextlib.suppress(OSError, ValueError):
                with urllib.request.urlopen(f"http://127.0.0.1:{node.rest}/cluster", timeout=2) as response:
                    return {member["name"]: member for member in json.load(response)["members"]}
        return {}

    def node_as(self, role: str) -> Node:
        """Returns the node that is the `leader` or the `sync_standby`. Raises `ValueError` if there is none."""
        for name, member in self.members().items():
            if member["role"] == role and member["state"] in ("running", "streaming"):
                return next(node for node in self.nodes if node.name == name)
        raise ValueError(f"group {self.name} has no {role}")

    def start(self) -> None:
        self.nodes[0].start()
        wait_until(lambda: self.node_as("leader"), 180, "a primary")
        self.nodes[1].start()
        self.wait_for_replica()

    def wait_for_replica(self) -> None:
        """Waits until the group has a synchronous replica."""
        wait_until(lambda: self.node_as("leader") and self.node_as("sync_standby"), 180, "a synchronous replica")

    def switch_over(self) -> None:
        """Makes the replica the primary, as an operator does before work on a machine."""
        leader = self.node_as("leader")
        body = json.dumps({"leader": leader.name, "candidate": self.node_as("sync_standby").name}).encode()
        request = urllib.request.Request(
            f"http://127.0.0.1:{leader.rest}/switchover", body, {"Content-Type": "application/json"}
        )
        urllib.request.urlopen(request, timeout=30).close()

    def dsn(self, database: str, user: str, has_haproxy: bool) -> str:
        """Returns a connection string that leads to the primary."""
        if has_haproxy:
            return f"host=127.0.0.1 port={self.front} dbname={database} user={user}"
        return self._hosts(database, user) + " target_session_attrs=read-write"

    def reads(self, database: str, user: str) -> str:
        """Returns a connection string that leads to the replica, or to the primary if there is no replica."""
        return self._hosts(database, user) + " target_session_attrs=prefer-standby"

    def _hosts(self, database: str, user: str) -> str:
        ports = ",".join(str(node.port) for node in self.nodes)
        return f"host=127.0.0.1,127.0.0.1 port={ports} dbname={database} user={user}"


class Stack:
    """Two groups, etcd, haproxy and the example application. `close` stops everything and deletes its folder."""

    def __init__(self, groups: int = 2, services: int = 2, has_haproxy: bool = True) -> None:
        self.folder = tempfile.mkdtemp(prefix="cedar-stack-")
        atexit.register(self.close)
        if os.getuid() == 0:
            shutil.chown(self.folder, "postgres", "postgres")
        self.has_haproxy = has_haproxy
        (self.front,) = free_ports(1)
        ports = free_ports(2 * ETCD_SERVERS)
        members = dict(enumerate(ports[ETCD_SERVERS:]))
        self.etcds = [Etcd(self.folder, number, ports[number], members) for number in members]
        hosts = ",".join(f"127.0.0.1:{etcd.port}" for etcd in self.etcds)
        self.groups = {name: Group(self.folder, name, hosts) for name in "abcdef"[:groups]}
        self.service_ports = free_ports(services)
        self.haproxy = Process(
            self.folder, "haproxy", [str(_program("haproxy")), "-db", "-f", self.folder + "/haproxy.cfg"]
        )
        self.services: list[Process] = []

    def start(self) -> Stack:
        """Starts everything, and waits until it answers."""
        try:
            for etcd in self.etcds:
                etcd.start()
            wait_until(self.etcd_leader, 120, "a leader of etcd")
            for group in self.groups.values():
                group.start()
            if self.has_haproxy:
                self._start_haproxy()
                for group in self.groups.values():
                    # haproxy begins with both servers, and leads to them in turn until it has found the replica.
                    front = group.dsn("postgres", "postgres", True)
                    wait_until(lambda: all([_is_primary(front) for _ in range(6)]), 120, "haproxy")
            self._create_databases()
            for port in self.service_ports:
                self.start_service(port)
        except BaseException:
            self._print_logs()
            self.close()
            raise
        return self

    def _print_logs(self) -> None:
        """Prints the end of each program's log, so that a start that failed can be understood."""
        for path in sorted(glob.glob(self.folder + "/*.log")):
            with open(path, errors="replace") as log:
                lines = log.readlines()[-8:]
            print(f"{os.path.basename(path)}:", *lines, sep="\n    ", file=sys.stderr)

    def etcd_leader(self) -> Optional[Etcd]:
        """Returns the server of etcd that the others follow, or None if there is none."""
        for etcd in self.etcds:
            with contextlib.suppress(OSError, ValueError):
                if etcd.is_leader():
                    return etcd
        return None

    def _start_haproxy(self) -> None:
        services = "\n".join(f"    server service{port} 127.0.0.1:{port}" for port in self.service_ports)
        text = HAPROXY.format(service=self.front, services=services)
        for group in self.groups.values():
            text += HAPROXY_GROUP.format(group=group.name, front=group.front)
            text += "".join(
                f"    server {node.name} 127.0.0.1:{node.port} check port {node.rest}\n" for node in group.nodes
            )
        with open(self.folder + "/haproxy.cfg", "w") as file:
            file.write(text)
        self.haproxy.start()

    def _create_databases(self) -> None:
        """Creates the tables on each group, and the directory on the first."""
        for group in self.groups.values():
            admin = group.dsn("postgres", "postgres", self.has_haproxy)
            wait_until(lambda: _is_primary(admin), 120, "a connection to the primary")
            with psycopg.connect(admin, autocommit=True) as connection:
                for database in ("tenants", *(["directory"] if group is self.groups["a"] else [])):
                    connection.execute(f"CREATE DATABASE {database}".encode())
                    migrate(group.dsn(database, "postgres", self.has_haproxy))
                connection.execute("CREATE ROLE app LOGIN IN ROLE cedar_service")
        with psycopg.connect(self.directory("postgres")) as connection:
            for group in self.groups.values():
                connection.execute(
                    "INSERT INTO cedar.servers VALUES (%s, %s, %s, %s)",
                    (
                        group.name,
                        group.dsn("tenants", "app", self.has_haproxy),
                        group.reads("tenants", "app"),
                        group.dsn("tenants", "postgres", False),
                    ),
                )

    def directory(self, user: str = "app") -> str:
        """Returns the connection string of the directory."""
        return self.groups["a"].dsn("directory", user, self.has_haproxy)

    def start_service(self, port: int) -> Process:
        """Starts a process of the example application."""
        path = os.pathsep.join([os.path.dirname(HERE), os.path.join(CALLERS, "python")])
        service = Process(
            self.folder,
            f"service{port}",
            ["/usr/bin/python3", "-B", os.path.join(HERE, "service.py"), str(port)],
            {"PYTHONPATH": path, "CEDAR_DIRECTORY": self.directory()},
        )
        service.start()
        self.services.append(service)
        wait_until(
            lambda: urllib.request.urlopen(f"http://127.0.0.1:{port}/healthz", timeout=1).status == 200,
            120,
            "an answer of the service",
        )
        return service

    def url(self) -> str:
        """Returns the address of the application."""
        return f"http://127.0.0.1:{self.front if self.has_haproxy else self.service_ports[0]}"

    def close(self) -> None:
        """Stops everything, and deletes the folder."""
        nodes = [node for group in self.groups.values() for node in group.nodes]
        for process in [*self.services, self.haproxy, *nodes, *self.etcds]:
            process.stop()
        shutil.rmtree(self.folder, ignore_errors=True)
        atexit.unregister(self.close)

    def __enter__(self) -> Stack:
        return self.start()

    def __exit__(self, *_: object) -> None:
        self.close()


def main(arguments: list[str]) -> int:
    has_haproxy = "--without-haproxy" not in arguments
    services = int(arguments[arguments.index("--services") + 1]) if "--services" in arguments else 2
    if missing := missing_programs(has_haproxy):
        print("not installed: " + ", ".join(missing), file=sys.stderr)
        return 1
    signal.signal(signal.SIGTERM, lambda *_: sys.exit(0))
    with Stack(services=services, has_haproxy=has_haproxy) as stack:
        print(
            f"application: {stack.url()}\ndirectory: {stack.directory()}\n"
            f"directory, to move tenants: {stack.directory('postgres')}",
            flush=True,
        )
        for group in stack.groups.values():
            print(f"group {group.name}: {group.dsn('tenants', 'app', has_haproxy)}", flush=True)
        print(f"logs: {stack.folder}\nCtrl-C stops everything", flush=True)
        with contextlib.suppress(KeyboardInterrupt):
            signal.pause()
    return 0


if __name__ == "__main__":
    sys.exit(main(sys.argv[1:]))
