"""Tests of the example application: its responses, hostile requests, faults of the database, and a graceful stop."""
from __future__ import annotations

import asyncio
import contextlib
import http.client
import importlib.util
import json
import os
import random
import re
import signal
import socket
import subprocess
import sys
import time
import unittest
import urllib.parse
from typing import Any, Iterator, Optional

from cedar_postgres import Database
from cedar_store import Entity, EntityUid, Store
from limits import TooSlow, assert_within
from servers import Server
from stack_test import stack

HERE = os.path.dirname(os.path.abspath(__file__))
SERVICE = os.path.join(os.path.dirname(HERE), "example", "service.py")
HIDDEN = 'DELETE /tenants/1/entities HTTP/1.1\r\nHost: x\r\nContent-Length: 17\r\n\r\n["Victim::\\"1\\""]'
HEAD = "PUT /tenants/1/entities HTTP/1.1\r\nHost: x\r\n"
CHUNK = f"{len(HIDDEN):x}\r\n{HIDDEN}\r\n0\r\n\r\n"
QUERY = "GET /tenants/1/is-descendant-of?child=A::%22b%22&ancestor=A::%22b%22 HTTP/1.1\r\nHost: x\r\n"
# Requests with an unclear end, and a DELETE hidden after it.
SMUGGLING = {
    "a chunk with the DELETE as its data": HEAD + "Transfer-Encoding: chunked\r\n\r\n" + CHUNK,
    "no number as the length": HEAD + "Content-Length: abc\r\n\r\n" + HIDDEN,
    "a length of -1": HEAD + "Content-Length: -1\r\n\r\n" + HIDDEN,
    "a length of +0": HEAD + "Content-Length: +0\r\n\r\n" + HIDDEN,
    "a length of 0_0": HEAD + "Content-Length: 0_0\r\n\r\n" + HIDDEN,
    "two lengths, first 0": HEAD + f"Content-Length: 0\r\nContent-Length: {len(HIDDEN)}\r\n\r\n" + HIDDEN,
    "two lengths, last 0": HEAD + f"Content-Length: {len(HIDDEN)}\r\nContent-Length: 0\r\n\r\n" + HIDDEN,
    "a length of 0 and chunks": HEAD + "Content-Length: 0\r\nTransfer-Encoding: chunked\r\n\r\n" + CHUNK,
    "chunked, identity": HEAD + "Transfer-Encoding: chunked, identity\r\n\r\n" + CHUNK,
    "xchunked": HEAD + "Transfer-Encoding: xchunked\r\n\r\n" + CHUNK,
    "a space before the colon": HEAD + "Transfer-Encoding : chunked\r\n\r\n" + CHUNK,
    "a length after a bare carriage return": HEAD + f"X: y\rContent-Length: {len(HIDDEN)}\r\n\r\n" + HIDDEN,
    "a folded header": HEAD + "Transfer-Encoding:\r\n chunked\r\n\r\n" + CHUNK,
    "a chunk length of 0x0": HEAD + "Transfer-Encoding: chunked\r\n\r\n0x0\r\n\r\n" + HIDDEN,
    "a GET with a body that is not read": QUERY + f"Content-Length: {len(HIDDEN)}\r\n\r\n" + HIDDEN,
}


def missing_package() -> str:
    """Returns the name of a package that the example needs and this machine does not have, or an empty text."""
    names = [name for name in ("uvicorn", "httptools") if importlib.util.find_spec(name) is None]
    return names[0] if names else ""


def uid(name: str) -> str:
    return f'A::"{name}"'


@unittest.skipIf(missing_package(), f"{missing_package()} is missing")
class Service(unittest.TestCase):
    @classmethod
    def setUpClass(cls) -> None:
        cls.server = Server()
        cls.addClassCleanup(cls.server.close)
        cls.dsn = cls.server.create_database("tenants")
        cls.server.sql(
            "INSERT INTO cedar.servers (server, dsn, admin) VALUES ('a', %s, '')",
            cls.dsn,
            dsn=cls.server.owner_dsn("tenants"),
        )
        cls.process, cls.port = cls.start()
        cls.addClassCleanup(cls.stop, cls.process)

    @classmethod
    def start(cls) -> tuple[subprocess.Popen[bytes], int]:
        """Starts a process of the service. Returns it and its port."""
        (port,) = stack.free_ports(1)
        environment = {
            **os.environ,
            "PYTHONPATH": os.pathsep.join(folder for folder in sys.path if folder),
            "CEDAR_DIRECTORY": cls.dsn,
        }
        process = subprocess.Popen(
            [sys.executable, "-B", SERVICE, str(port)], env=environment, stderr=subprocess.DEVNULL
        )
        deadline = time.monotonic() + 120
        while time.monotonic() < deadline:
            with contextlib.suppress(OSError), socket.create_connection(("127.0.0.1", port), 1):
                return process, port
            time.sleep(0.05)
        process.kill()
        raise AssertionError("the service does not answer")

    @staticmethod
    def stop(process: subprocess.Popen[bytes]) -> int:
        process.terminate()
        return process.wait(120)

    def setUp(self) -> None:
        self.client = http.client.HTTPConnection("127.0.0.1", self.port, timeout=120)
        self.addCleanup(self.client.close)
        self.last_response_at = 0.0
        self.assertIn(self.request("PUT", "/tenants/1")[0], (200, 201))

    def request(self, method: str, path: str, content: Any = None, headers: dict[str, str] = {}) -> tuple[int, Any]:
        """Sends a request. Returns the status and the content of the response."""
        body = content if content is None or isinstance(content, bytes) else json.dumps(content).encode()
        if time.monotonic() > self.last_response_at + 2:
            self.client.close()  # the service ends an idle connection, and a request at this moment would be lost
        self.client.request(method, path, body, headers)
        response = self.client.getresponse()
        self.last_response_at = time.monotonic()
        self.headers = dict(response.getheaders())
        expected = "application/json" if response.status < 300 else "application/problem+json"
        self.assertEqual(response.getheader("content-type"), expected)
        return response.status, json.loads(response.read())

    def query(self, child: str, ancestor: str, tenant: int = 1, token: Optional[int] = None) -> tuple[int, Any]:
        given = {"child": child, "ancestor": ancestor, **({} if token is None else {"token": token})}
        status, content = self.request("GET", f"/tenants/{tenant}/is-descendant-of?" + urllib.parse.urlencode(given))
        return status, content["is_descendant"] if status == 200 else content["title"]


class Responses(Service):
    def test_changes_and_queries(self) -> None:
        a, b = uid("a"), uid("b")
        self.assertEqual(self.query(a, b)[0], 404)
        status, content = self.request(
            "PUT",
            "/tenants/1/entities",
            [
                {
                    "uid": a,
                    "parents": [b],
                    "attrs": {"n": 1, "of": {"__entity": {"type": "A", "id": "b"}}, "l": [True, {}]},
                    "tags": {"ip": {"__extn": {"fn": "ip", "arg": "::1"}}},
                }
            ],
        )
        self.assertEqual((status, self.query(a, b, token=content["token"])), (200, (200, True)))
        self.assertEqual(self.request("PUT", "/tenants/1/entities", [{"uid": b, "parents": [a]}])[0], 409)
        self.assertEqual(self.request("PUT", "/tenants/1/policies/p%2F1", {"effect": "permit"})[0], 200)
        self.assertEqual(self.request("PUT", "/tenants/1/policies/p%2F1", {"effect": "permit"})[0], 409)
        self.assertEqual(self.request("DELETE", "/tenants/1/policies/p%2F1")[0], 200)
        self.assertEqual(self.request("DELETE", "/tenants/1/policies/p%2F1")[0], 404)
        status, content = self.request("DELETE", "/tenants/1/entities", [a])
        self.assertEqual((status, self.query(a, b, token=content["token"])[0]), (200, 404))

    def test_an_idempotency_key_applies_a_change_once(self) -> None:
        tokens = {
            self.request("PUT", "/tenants/1/policies/once", {"effect": "permit"}, {"Idempotency-Key": "k"})[1]["token"]
            for _ in range(3)
        }
        self.assertEqual(len(tokens), 1)

    def test_an_invalid_field_is_named(self) -> None:
        a = uid("a")
        for content, field in (
            (5, "#"),
            ([5], "#/0"),
            ([{"uid": "a"}], "#/0/uid"),
            ([{"uid": a}, {}], "#/1/uid"),
            ([{"uid": a, "parents": a}], "#/0/parents"),
            ([{"uid": a, "parents": [a, 5]}], "#/0/parents/1"),
            ([{"uid": a, "attrs": []}], "#/0/attrs"),
            ([{"uid": a, "attrs": {"x/y": [1, None]}}], "#/0/attrs/x~1y/1"),
            ([{"uid": a, "attrs": {"x": 1.5}}], "#/0/attrs/x"),
            ([{"uid": a, "attrs": {"x": 1 << 63}}], "#/0/attrs/x"),
            ([{"uid": a, "other": 1}], "#/0/other"),
            ([{"uid": a, "attrs": {"x": {"__entity": {"type": "A"}}}}], "#/0/attrs/x/__entity/id"),
            ([{"uid": a, "attrs": {"x": {"__entity": {"type": "a b", "id": ""}}}}], "#/0/attrs/x"),
        ):
            status, problem = self.request("PUT", "/tenants/1/entities", content)
            self.assertEqual((status, problem["status"], problem["errors"][0]["pointer"]), (422, 422, field), content)
        self.assertEqual(self.request("DELETE", "/tenants/1/entities", [a, "b"])[1]["errors"][0]["pointer"], "#/1")
        self.assertEqual(
            self.request("PUT", "/tenants/1/policies/p", {"effect": "allow"})[1]["errors"][0]["pointer"], "#/effect"
        )
        for path, name in (
            ("child=A&ancestor=A::%22b%22", "child"),
            ("child=A::%22b%22", "ancestor"),
            ("child=A::%22b%22&ancestor=A::%22b%22&token=-1", "token"),
        ):
            status, problem = self.request("GET", "/tenants/1/is-descendant-of?" + path)
            self.assertEqual((status, problem["errors"][0]["parameter"]), (422, name))

    def test_other_statuses(self) -> None:
        self.assertEqual(self.request("GET", "/healthz")[0], 200)
        for method, path in (
            ("GET", "/"),
            ("GET", "/tenants"),
            ("POST", "/tenants/1/entities"),
            ("GET", "/tenants/1/x"),
        ):
            self.assertEqual(self.request(method, path)[0], 404, path)
        self.assertEqual(self.query(uid("a"), uid("b"), tenant=99), (404, "no such tenant"))
        self.assertEqual(self.request("PUT", "/tenants/99/policies/p", {"effect": "permit"})[0], 404)
        self.assertEqual(self.request("PUT", "/tenants/x")[0], 422)
        for body in (b"", b"{", b"\xff", b'["\xc3"]'):
            self.assertEqual(self.request("PUT", "/tenants/1/entities", body)[0], 400, body)

    def test_limits_of_the_body(self) -> None:
        status, problem = self.request("PUT", "/tenants/1/entities", b"[" + b" " * (1 << 20) + b"]")
        self.assertEqual((status, self.headers["connection"]), (413, "close"))
        for deep in (
            b"[" * 10000 + b"]" * 10000,
            b'[{"uid": "A::\\"a\\"", "attrs": {"x": ' + b"[" * 10000 + b"]" * 10000 + b"}}]",
            b'[{"uid": "A::\\"a\\"", "attrs": {"x": ' + b'{"a":' * 60 + b"1" + b"}" * 60 + b"}}]",
        ):
            self.assertEqual(self.request("PUT", "/tenants/1/entities", deep)[0], 422)
        many = [{"uid": uid(f"m{number}"), "parents": [uid("g")]} for number in range(10000)]
        self.assertEqual(self.request("PUT", "/tenants/1/entities", many)[0], 200)

    def test_queries_equal_those_of_a_store(self) -> None:
        rng = random.Random(3)
        entities = [
            Entity(uid(str(n)), [uid(str(rng.randrange(n))) for _ in range(2)] if n else []) for n in range(200)
        ]
        self.request("PUT", "/tenants/2")
        token = self.request(
            "PUT",
            "/tenants/2/entities",
            [{"uid": entity.uid, "parents": sorted(entity.parents)} for entity in entities],
        )[1]["token"]
        with Store(entities) as store:
            for _ in range(500):
                child, ancestor = (rng.choice(entities).uid for _ in range(2))
                self.assertEqual(self.query(child, ancestor, 2, token), (200, store.is_descendant_of(child, ancestor)))


class Hostile(Service):
    def _send(self, text: str, quiet_seconds: float = 0.5) -> bytes:
        """Sends bytes, and returns what the service sends back before it is quiet."""
        received = b""
        with contextlib.suppress(OSError), socket.create_connection(("127.0.0.1", self.port), 60) as client:
            client.settimeout(quiet_seconds)
            client.sendall(text.encode())
            while part := client.recv(65536):
                received += part
        return received

    def test_no_request_hides_another(self) -> None:
        victim = 'Victim::"1"'
        for name, text in SMUGGLING.items():
            token = self.request("PUT", "/tenants/1/entities", [{"uid": victim}])[1]["token"]
            self.assertEqual(self.query(victim, victim, token=token)[0], 200)
            self._send(text)
            time.sleep(0.05)
            rows = self.server.sql(
                "SELECT uid FROM cedar.entities WHERE uid = %s", victim, dsn=self.server.owner_dsn("tenants")
            )
            self.assertEqual(len(rows), 1, name)

    def test_a_hidden_request_in_the_open_runs(self) -> None:
        """The same DELETE, sent as a request of its own, has an effect: so the test above can fail."""
        self.request("PUT", "/tenants/1/entities", [{"uid": 'Victim::"1"'}])
        self.assertRegex(self._send(HIDDEN, quiet_seconds=10), rb"^HTTP/1.1 200")
        self.assertEqual(
            self.server.sql(
                "SELECT uid FROM cedar.entities WHERE uid = 'Victim::\"1\"'", dsn=self.server.owner_dsn("tenants")
            ),
            [],
        )

    def _seconds_until_end(self, parts: Iterator[bytes]) -> float:
        """Sends parts with pauses. Returns how long the service keeps the connection."""
        start = time.monotonic()
        with socket.create_connection(("127.0.0.1", self.port), 60) as client:
            client.settimeout(0.2)
            with contextlib.suppress(ConnectionError):
                while time.monotonic() < start + 15:
                    client.sendall(next(parts, b""))
                    with contextlib.suppress(TimeoutError):
                        if not client.recv(1000):
                            break
        return time.monotonic() - start

    def test_a_client_that_drips_is_ended(self) -> None:
        head = (bytes([byte]) for byte in b"GET /healthz HTTP/1.1\r\nHost: x\r\n" + b"X: y\r\n" * 99)
        body = (part for part in [(HEAD + "Content-Length: 1000\r\n\r\n").encode(), *[b" "] * 99])
        second = (part for part in [(QUERY + "\r\n").encode(), *[b"G"] * 99])
        for parts in (head, body, second, iter(())):
            assert_within(12, self._seconds_until_end(parts))

    def test_a_client_that_disconnects_leaves_the_service_working(self) -> None:
        body = json.dumps([{"uid": uid(f"d{number}")} for number in range(3000)])
        for cut in (20, 60, 200, len(body)):
            with socket.create_connection(("127.0.0.1", self.port), 60) as client:
                client.sendall((HEAD + f"Content-Length: {len(body)}\r\n\r\n{body}").encode()[: cut + 60])
        self.assertEqual(self.request("PUT", "/tenants/1/policies/after", {"effect": "permit"})[0], 200)


class Faults(Service):
    def test_a_database_that_is_gone_is_not_the_fault_of_the_client(self) -> None:
        a = uid("a")
        token = self.request("PUT", "/tenants/1/entities", [{"uid": a}])[1]["token"]
        self.assertEqual(self.query(a, a), (200, False))
        self.server.stop("immediate")
        time.sleep(1.2)
        try:
            for call in (
                lambda: self.query(a, a),
                lambda: self.request("PUT", "/tenants/1/policies/p", {"effect": "permit"}),
            ):
                status, content = call()
                self.assertEqual((status, self.headers["retry-after"]), (503, "1"))
                self.assertNotRegex(str(content), re.compile("sql|server|socket|connection", re.I))
            self.assertEqual(self.request("GET", "/healthz")[0], 200)
        finally:
            self.server.start()
        deadline = time.monotonic() + 120
        while self.query(a, a, token=token)[0] != 200 and time.monotonic() < deadline:
            time.sleep(0.1)
        self.assertEqual(self.query(a, a, token=token), (200, False))

    def test_a_stop_finishes_the_requests_that_have_begun(self) -> None:
        process, port = self.start()
        with socket.create_connection(("127.0.0.1", port), 60) as client:
            body = json.dumps([{"uid": uid(f"s{number}")} for number in range(5000)])
            client.sendall((HEAD + f"Content-Length: {len(body)}\r\n\r\n{body}").encode())
            time.sleep(0.15)
            process.send_signal(signal.SIGTERM)
            client.settimeout(120)
            received = client.recv(1000)
            if not received:
                raise TooSlow("the request had not begun")
            self.assertRegex(received, rb"^HTTP/1.1 200")
        self.assertEqual(process.wait(120), 0)
        self.assertEqual(self.query(uid("s1"), uid("s1"))[0], 200)

    def test_the_database_names_nothing_of_another_service(self) -> None:
        async def bodies() -> list[str]:
            async with Database(self.dsn) as database:
                return (await database.view(1)).policies.bodies()

        self.request("PUT", "/tenants/1/policies/%00%E9", {"effect": "forbid"})
        self.assertIn("\0", "".join(asyncio.run(bodies())))
        self.assertEqual(EntityUid(uid("a")), uid("a"))
