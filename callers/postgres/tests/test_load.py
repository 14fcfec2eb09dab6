"""Load over the example application: queries and changes of 100 tenants, while a tenant moves and a primary dies.

Each response is compared with the result of the library. Afterwards the contents of every tenant are compared with what
was acknowledged. `test --minute` runs it for a minute.
"""
from __future__ import annotations

import asyncio
import http.client
import importlib.util
import json
import os
import random
import shutil
import subprocess
import tempfile
import threading
import time
import unittest
import urllib.parse
from typing import Any

from cedar_postgres import Cluster
from cedar_postgres.move import Move
from cedar_store import Entity, EntityUid, Store
from stack_test import HERE, StackTest, stack

SECONDS = int(os.environ.get("CEDAR_LOAD_SECONDS", "15"))
TENANTS, ENTITIES, WRITERS, CONNECTIONS = 100, 1000, 4, 4
USERS = ENTITIES - 40  # the first half is queried, the second half is edited
MISSING = ", ".join(
    [
        *(["wrk"] if shutil.which("wrk") is None else []),
        *(["uvicorn"] if importlib.util.find_spec("uvicorn") is None else []),
    ]
)


def user(number: int) -> EntityUid:
    return EntityUid(f'User::"{number}"')


def group(number: int) -> EntityUid:
    return EntityUid(f'Group::"{number}"')


def entities_of(tenant: int) -> list[Entity]:
    rng = random.Random(tenant)
    groups = [Entity(group(number), [group(rng.randrange(number))] if number else []) for number in range(40)]
    return groups + [
        Entity(user(number), {group(rng.randrange(40)) for _ in range(rng.randrange(4))}, attrs={"age": number % 90})
        for number in range(USERS)
    ]


class Writer(threading.Thread):
    """A client that edits users over HTTP, repeats what fails with the same key, and checks that it sees its edits."""

    def __init__(self, address: str, number: int, stop: threading.Event) -> None:
        super().__init__()
        self.host, self.number, self.stop = address.split("//")[1], number, stop
        self.rng, self.groups = random.Random(number), {}
        self.changes = self.repeated = 0
        self.longest, self.faults = 0.0, []

    def run(self) -> None:
        self.client = http.client.HTTPConnection(self.host, timeout=10)
        while not self.stop.is_set():
            tenant = self.rng.randrange(TENANTS)
            # Each writer has users of its own, so the last edit that was acknowledged is the one that counts.
            edited = user(USERS // 2 + self.number + WRITERS * self.rng.randrange(USERS // 2 // WRITERS))
            parent, start = group(self.rng.randrange(40)), time.monotonic()
            token = self._until_done(
                "PUT",
                f"/tenants/{tenant}/entities",
                [{"uid": edited, "parents": [parent]}],
                f"{self.number}-{self.changes}",
            )["token"]
            self.groups[tenant, edited], self.changes = parent, self.changes + 1
            self.longest = max(self.longest, time.monotonic() - start)
            query = urllib.parse.urlencode({"child": edited, "ancestor": parent, "token": token})
            if not self._until_done("GET", f"/tenants/{tenant}/is-descendant-of?{query}")["is_descendant"]:
                self.faults.append(f"the edit {token} of {edited} in tenant {tenant} is not seen with its token")
            time.sleep(0.01)

    def _until_done(self, method: str, path: str, content: Any = None, key: str = "") -> Any:
        """Sends a request until it succeeds."""
        while True:
            try:
                body = None if content is None else json.dumps(content)
                self.client.request(method, path, body, {"Idempotency-Key": key} if key else {})
                response = self.client.getresponse()
                text = response.read()
                if response.status == 200:
                    return json.loads(text)
                if response.status not in (502, 503, 504):
                    self.faults.append(f"{method} {path}: {response.status} {text[:200]!r}")
                    return {"token": 0, "is_descendant": True}
            except (OSError, http.client.HTTPException):
                self.client.close()
            self.repeated += 1
            time.sleep(0.05)


@unittest.skipIf(MISSING, f"{MISSING} is missing")
class Load(StackTest):
    services = 2

    async def asyncSetUp(self) -> None:
        await super().asyncSetUp()
        async with Cluster(self.stack.directory()) as cluster:
            for tenant in range(TENANTS):
                await cluster.create_tenant(tenant)
                await cluster.change(tenant, lambda draft: draft.add(entities_of(tenant)))

    def _write_queries(self) -> str:
        """Writes a file of queries with their expected results. Returns its path."""
        rng = random.Random(1)
        with tempfile.NamedTemporaryFile("w", suffix=".txt", delete=False) as file:
            for tenant in range(TENANTS):
                with Store(entities_of(tenant)) as store:
                    for _ in range(30):
                        child, ancestor = user(rng.randrange(USERS // 2)), group(rng.randrange(40))
                        query = urllib.parse.urlencode({"child": child, "ancestor": ancestor})
                        result = json.dumps(store.is_descendant_of(child, ancestor))
                        file.write(f'/tenants/{tenant}/is-descendant-of?{query}\t"is_descendant": {result},\n')
        self.addCleanup(os.unlink, file.name)
        return file.name

    def _start_queries(self, path: str, seconds: int, connections: int = CONNECTIONS) -> subprocess.Popen[str]:
        return subprocess.Popen(
            [
                "wrk",
                f"-t{connections}",
                f"-c{connections}",
                f"-d{seconds}s",
                "--timeout",
                "20s",
                "-s",
                os.path.join(HERE, "query.lua"),
                self.stack.url(),
                "--",
                path,
            ],
            stdout=subprocess.PIPE,
            text=True,
        )

    def _processor_seconds(self) -> float:
        """Returns the processor time of all processes of the application."""
        ticks = 0
        for service in self.stack.services:
            for pid in service.pids():
                with open(f"/proc/{pid}/stat") as stat:
                    ticks += sum(map(int, stat.read().rsplit(")", 1)[1].split()[11:13]))
        return ticks / os.sysconf("SC_CLK_TCK")

    async def test_queries_and_changes_during_a_move_and_a_failover(self) -> None:
        path = self._write_queries()
        await asyncio.to_thread(self._measure, self._start_queries(path, 5))  # until all tenants are in memory
        quiet = await asyncio.to_thread(self._measure, self._start_queries(path, 5))
        print(
            f"queries only: {quiet['passed'] / quiet['seconds']:,.0f} a second, {quiet['processor'] * 1e3:.2f} ms of "
            f"processor each, p50 {quiet['p50']:.1f} ms, p99 {quiet['p99']:.1f} ms"
        )
        stop = threading.Event()
        writers = [Writer(self.stack.url(), number, stop) for number in range(WRITERS)]
        for writer in writers:
            writer.start()
        process, start = self._start_queries(path, SECONDS), time.monotonic()
        try:
            moved, failed_over = await asyncio.to_thread(self._harm, start)
            load = await asyncio.to_thread(self._measure, process)
            await asyncio.sleep(max(start + SECONDS - time.monotonic(), 1))
        finally:
            stop.set()
            for writer in writers:
                await asyncio.to_thread(writer.join)
        changes = sum(writer.changes for writer in writers)
        print(
            f"{load['seconds']:.0f} s: {load['passed'] / load['seconds']:,.0f} queries a second, "
            f"p50 {load['p50']:.1f} ms, "
            f"p99 {load['p99']:.1f} ms, at most {load['max']:.0f} ms; {load['failed']} answered 503, {load['lost']} "
            f"connections lost, {load['wrong']} wrong"
        )
        print(
            f"{changes} changes by {WRITERS} writers, {sum(writer.repeated for writer in writers)} requests repeated, "
            "the "
            f"slowest change took {max(writer.longest for writer in writers):.1f} s; the move rejected changes for "
            f"{moved:.2f} s"
        )
        self.assertEqual([fault for writer in writers for fault in writer.faults], [])
        self.assertEqual((quiet["wrong"], load["wrong"]), (0, 0))
        self.assertGreater(changes, SECONDS)
        self.assertGreater(failed_over, 0)
        await self._compare(writers)

    def _measure(self, process: subprocess.Popen[str]) -> dict[str, Any]:
        before = self._processor_seconds()
        output, _ = process.communicate()
        result: dict[str, Any] = json.loads(output.splitlines()[-1])
        result["processor"] = (self._processor_seconds() - before) / max(result["passed"], 1)
        return result

    def _harm(self, start: float) -> tuple[float, int]:
        """Moves a tenant of the first group to the second, and kills the primary of the second."""
        time.sleep(max(start + SECONDS / 6 - time.monotonic(), 0))
        moved = Move(self.stack.directory("postgres"), 0, "b").run()
        time.sleep(max(start + SECONDS / 3 - time.monotonic(), 0))
        leader = self.stack.groups["b"].node_as("leader")
        leader.stop()
        stack.wait_until(lambda: self.stack.groups["b"].node_as("leader") is not leader, 60, "a new primary")
        leader.start()
        return moved.rejected_seconds, 1

    async def _compare(self, writers: list[Writer]) -> None:
        """Compares every tenant with its first contents and the edits that were acknowledged."""
        edits: dict[int, list[Entity]] = {}
        for writer in writers:
            for (tenant, edited), parent in writer.groups.items():
                edits.setdefault(tenant, []).append(Entity(edited, [parent]))
        lost = 0
        async with Cluster(self.stack.directory(), patience_seconds=30) as cluster:
            for tenant in range(TENANTS):
                view = await cluster.view(tenant)
                with Store(entities_of(tenant)) as expected:
                    expected.upsert(edits.get(tenant, []))
                    self.assertTrue(view.store == expected, tenant)
                    lost += sum(view.store.parents(edit.uid) != list(edit.parents) for edit in edits.get(tenant, []))
            self.assertEqual(await cluster._read_place(0), "b")
        edited = sum(map(len, edits.values()))
        print(
            f"afterwards: {TENANTS} tenants equal their stores; {edited} edited users, {lost} acknowledged edits lost"
        )
        self.assertEqual(lost, 0)
