"""Tests of connections: the errors when the server is slow, stopped, full or a replica, and when an answer is lost."""
from __future__ import annotations

import asyncio
import contextlib
import os
import pwd
import shutil
import signal
import subprocess
import tempfile
import time
import unittest
from typing import Any

import psycopg
from cedar_postgres import Database, OutdatedSchema, Retry, Unavailable
from cedar_postgres.errors import database_error
from cedar_postgres.pool import Pool, single_hosts
from cedar_store import Entity, EntityUid
from helpers import DatabaseTest
from limits import assert_within
from proxy import Proxy
from servers import Server, shared_server


class Hosts(unittest.TestCase):
    def test_each_host_is_tried_by_itself(self) -> None:
        hosts = single_hosts("host=a,b port=1,2 dbname=d target_session_attrs=read-write")
        self.assertEqual(
            [set(text.split()) for text in hosts],
            [
                {f"host={host}", f"port={port}", "dbname=d", "target_session_attrs=read-write"}
                for host, port in (("a", 1), ("b", 2))
            ],
        )
        self.assertEqual(single_hosts("dbname=d"), ["dbname=d"])
        any_host = single_hosts("host=a,b port=1 dbname=d target_session_attrs=prefer-standby")
        self.assertEqual([text.split("=")[-1] for text in any_host], ["standby", "standby", "any", "any"])


class Errors(DatabaseTest):
    def _error_of(self, statement: str) -> Any:
        try:
            self.sql(statement)
        except psycopg.Error as error:
            return database_error(error)
        raise AssertionError("no error")

    async def test_each_error_of_the_database_has_a_type(self) -> None:
        states = {
            "40001": Retry,
            "40P01": Retry,
            "55P03": Retry,
            "57014": Unavailable,
            "53100": Unavailable,
            "53300": Unavailable,
            "57P01": Unavailable,
            "25006": Unavailable,
            "58030": Unavailable,
            "3F000": OutdatedSchema,
        }
        for state, expected in states.items():
            error = self._error_of(f"DO $$ BEGIN RAISE 'x' USING ERRCODE = '{state}'; END $$")
            self.assertIs(type(error), expected, state)
            if state in ("53100", "25006", "57014"):
                self.assertFalse(error.may_be_written)
        self.assertIs(type(self._error_of("SELECT 1 / 0")).__name__, "DatabaseError")

    async def test_a_missing_migration_is_reported(self) -> None:
        self.sql("DELETE FROM cedar.migrations WHERE number > 1")
        with self.assertRaises(OutdatedSchema):
            await Database(self.dsn).open()

    async def test_no_server_is_reported_with_its_reason(self) -> None:
        with self.assertRaises(Unavailable) as caught:
            await Database(self.dsn.replace("dbname=", "dbname=no_")).open()
        self.assertIn("does not exist", str(caught.exception))

    async def test_more_callers_than_connections(self) -> None:
        """Callers wait for a connection. If none is returned in time, the error says that."""
        pool = Pool(self.dsn, size=2, wait_seconds=3)
        await pool.open()
        self.addAsyncCleanup(pool.close)
        await asyncio.gather(*(pool.run("SELECT pg_sleep(0.01)") for _ in range(20)))
        async with pool.connection(), pool.connection():
            with self.assertRaises(Retry):
                await pool.run("SELECT 1")
        self.assertEqual(await pool.run("SELECT 1"), [(1,)])


class LostAnswers(DatabaseTest):
    async def asyncSetUp(self) -> None:
        await super().asyncSetUp()
        await self.database.create_tenant(1)
        self.proxy = await self.enterAsyncContext(Proxy(shared_server().folder))

    async def _open_over_proxy(self, **options: Any) -> Database:
        database = await Database(self.proxy.dsn(self.dsn), **options).open()
        self.addAsyncCleanup(database.close)
        return database

    async def test_a_change_whose_answer_is_lost_is_applied_once(self) -> None:
        database = await self._open_over_proxy()
        for number in range(20):
            self.proxy.lose_answer_to = b"cedar.apply"
            applied = await database.change(1, lambda draft: draft.add_static(f"p{number}"))
            self.assertEqual(applied.token, number + 2)
        self.assertEqual(self.proxy.lost_answers, 20)
        self.assertEqual((await self.database.view(1, token=21)).policies.bodies(), [f"p{n}" for n in range(20)])

    async def test_a_change_that_is_repeated_later_with_its_key_is_applied_once(self) -> None:
        database = await self._open_over_proxy(patience_seconds=0)
        self.proxy.lose_answer_to = b"cedar.apply"
        with self.assertRaises(Unavailable) as caught:
            await database.change(1, lambda draft: draft.add_static("p"), key="k")
        self.assertTrue(caught.exception.may_be_written)
        self.assertEqual((await self.database.change(1, lambda draft: draft.add_static("p"), key="k")).token, 2)
        self.assertEqual((await self.database.view(1)).policies.bodies(), ["p"])

    async def test_reads_go_on_after_a_cut(self) -> None:
        database = await self._open_over_proxy()
        for _ in range(5):
            database.cache.drop(1)
            await database.view(1)
            self.proxy.cut()
            start = time.monotonic()
            database.cache.drop(1)
            await database.view(1)
            assert_within(1, time.monotonic() - start)

    async def test_a_silent_server_does_not_hold_its_callers(self) -> None:
        database = await self._open_over_proxy(statement_seconds=0.5, patience_seconds=1)
        await database.view(1)
        self.proxy.is_silent = True
        await asyncio.sleep(1.1)
        for call in (lambda: database.view(1), lambda: database.change(1, lambda draft: draft.add_static("p"))):
            start = time.monotonic()
            with self.assertRaises(Unavailable):
                await call()
            assert_within(8, time.monotonic() - start)
        self.proxy.is_silent = False
        self.proxy.cut()
        applied = await database.change(1, lambda draft: draft.add_static("q"))
        self.assertIsNotNone((await database.view(1, token=applied.token)).policies.get("q"))


class Servers(unittest.IsolatedAsyncioTestCase):
    """Tests that stop a server, or fill its disk. Each has a server of its own."""

    async def asyncSetUp(self) -> None:
        asyncio.get_running_loop().set_debug(False)

    def _server(self) -> Server:
        server = Server()
        self.addCleanup(server.close)
        return server

    async def test_a_server_that_restarts_loses_no_acknowledged_change(self) -> None:
        server = self._server()
        dsn, acknowledged = server.create_database("a"), []
        database = await Database(dsn, patience_seconds=20).open()
        self.addAsyncCleanup(database.close)
        await database.create_tenant(1)
        stop = asyncio.Event()

        async def work() -> None:
            number = 0
            while not stop.is_set():
                await database.change(1, lambda draft: draft.add_static(f"p{number}"))
                acknowledged.append(f"p{number}")
                number += 1

        async def until_acknowledged(count: int) -> None:
            deadline = time.monotonic() + 180
            while len(acknowledged) < count:
                self.assertLess(time.monotonic(), deadline, "the changes do not go on")
                await asyncio.sleep(0.05)

        task = asyncio.create_task(work())
        for mode, count in (("immediate", 20), ("fast", 40)):
            await until_acknowledged(count)
            await asyncio.to_thread(server.stop, mode)
            await asyncio.to_thread(server.start)
        await until_acknowledged(60)
        stop.set()
        await task
        other = await Database(dsn).open()
        self.addAsyncCleanup(other.close)
        self.assertEqual((await other.view(1)).policies.bodies(), acknowledged)

    async def test_a_server_that_hangs_is_given_up(self) -> None:
        server = self._server()
        database = await Database(server.create_database("a"), statement_seconds=0.5, patience_seconds=0.5).open()
        self.addAsyncCleanup(database.close)
        await database.create_tenant(1)
        with open(server.folder + "/data/postmaster.pid") as file:
            postmaster = int(file.readline())
        pids = [
            postmaster,
            *(pid for pid, in server.sql("SELECT pid FROM pg_stat_activity WHERE pid <> pg_backend_pid()")),
        ]
        for pid in pids:
            os.kill(pid, signal.SIGSTOP)
        try:
            start = time.monotonic()
            with self.assertRaises(Unavailable):
                await database.change(1, lambda draft: draft.add_static("p"))
            assert_within(8, time.monotonic() - start)
        finally:
            for pid in pids:
                os.kill(pid, signal.SIGCONT)
        token = (await database.change(1, lambda draft: draft.add_static("q"))).token
        self.assertIn("q", (await database.view(1, token=token)).policies.bodies())

    @unittest.skipUnless(os.getuid() == 0, "root, to mount a small disk")
    async def test_a_full_disk_loses_no_acknowledged_change(self) -> None:
        server = self._server()
        disk = tempfile.mkdtemp(prefix="cedar-disk-")
        if subprocess.run(
            ["mount", "-t", "tmpfs", "-o", "size=24m", "tmpfs", disk], stderr=subprocess.DEVNULL
        ).returncode:
            shutil.rmtree(disk)
            self.skipTest("the right to mount a small disk")
        self.addCleanup(shutil.rmtree, disk, True)
        self.addCleanup(subprocess.run, ["umount", "-l", disk])
        user = pwd.getpwnam("postgres" if "postgres" in [entry.pw_name for entry in pwd.getpwall()] else "nobody")
        os.chown(disk, user.pw_uid, user.pw_gid)
        server.sql(f"CREATE TABLESPACE small LOCATION '{disk}'")
        dsn = server.create_database("a", "TABLESPACE small")
        database = await Database(dsn).open()
        self.addAsyncCleanup(database.close)
        await database.create_tenant(1)
        acknowledged, text = [], os.urandom(1 << 18).hex()
        with self.assertRaises(Unavailable) as caught:
            for number in range(200):
                await database.change(1, lambda draft: draft.add_static(f"p{number}", annotations={"a": text}))
                acknowledged.append(f"p{number}")
        self.assertIn("53100", str(caught.exception))
        self.assertFalse(caught.exception.may_be_written)
        self.assertGreater(len(acknowledged), 3)
        subprocess.run(["mount", "-o", "remount,size=256m", disk], check=True)
        other = await Database(dsn).open()
        self.addAsyncCleanup(other.close)
        self.assertEqual((await other.view(1)).policies.bodies(), acknowledged)
        token = (await database.change(1, lambda draft: draft.add_static("more", annotations={"a": text}))).token
        self.assertEqual((await other.view(1, token=token)).policies.bodies(), [*acknowledged, "more"])


@unittest.skipUnless(shutil.which("pgbouncer") or os.path.exists("/usr/sbin/pgbouncer"), "pgbouncer is missing")
class Pooler(DatabaseTest):
    """pgbouncer in transaction mode: each transaction of a client may get another session."""

    async def asyncSetUp(self) -> None:
        await super().asyncSetUp()
        folder = tempfile.mkdtemp(prefix="cedar-bouncer-")
        self.addCleanup(shutil.rmtree, folder, True)
        names = [entry.pw_name for entry in pwd.getpwall()]
        user = pwd.getpwnam("postgres" if "postgres" in names else "nobody") if os.getuid() == 0 else None
        with open(folder + "/bouncer.ini", "w") as file:
            file.write(
                f"[databases]\n* = host={shared_server().folder}\n[pgbouncer]\nunix_socket_dir = {folder}\n"
                f"listen_addr =\nlisten_port = 5432\nauth_type = trust\nauth_file = {folder}/users\n"
                "pool_mode = transaction\n"
                f"default_pool_size = 2\nlogfile = {folder}/log\n"
            )
        with open(folder + "/users", "w") as file:
            file.write('"app" ""\n')
        as_user: dict[str, Any] = {}
        if user:
            os.chown(folder, user.pw_uid, user.pw_gid)
            as_user = {"user": user.pw_uid, "group": user.pw_gid, "extra_groups": []}
        program = shutil.which("pgbouncer") or "/usr/sbin/pgbouncer"
        process = subprocess.Popen(
            [program, folder + "/bouncer.ini"],
            stdout=subprocess.DEVNULL,
            stderr=subprocess.DEVNULL,
            cwd=folder,
            **as_user,
        )
        self.addCleanup(process.wait)
        self.addCleanup(process.kill)
        self.pooled_dsn = self.dsn.replace(shared_server().folder, folder)
        deadline = time.monotonic() + 120
        while time.monotonic() < deadline:
            with contextlib.suppress(psycopg.Error), psycopg.connect(self.pooled_dsn):
                return
            await asyncio.sleep(0.05)
        self.fail("pgbouncer does not answer")

    async def test_tenants_over_shared_sessions_see_only_their_own(self) -> None:
        with psycopg.connect(self.pooled_dsn, autocommit=True, prepare_threshold=None) as one:
            # What a careless client leaves in the session, another client would get.
            one.execute("SELECT set_config('cedar.tenant', '99', false)")
        databases = [await Database(self.pooled_dsn, listen=self.dsn).open() for _ in range(4)]
        for database in databases:
            self.addAsyncCleanup(database.close)
        for tenant in range(4):
            await databases[tenant].create_tenant(tenant)
        uids = [EntityUid(f'User::"{number}"') for number in range(20)]

        async def work(tenant: int) -> None:
            database, group = databases[tenant], EntityUid(f'Group::"{tenant}"')
            for uid in uids:
                applied = await database.change(tenant, lambda draft: draft.add([Entity(uid, [group])]))
                database.cache.drop(tenant)
                view = await database.view(tenant, token=applied.token)
                self.assertEqual(view.ancestors(uid), [group])
                self.assertEqual(len(view.store), uids.index(uid) + 1)

        await asyncio.gather(*map(work, range(4)))
        ((sessions,),) = self.sql(
            "SELECT count(*) FROM pg_stat_activity WHERE datname = current_database() AND "
            "usename = 'app' AND query LIKE '%%cedar.apply%%' OR query LIKE '%%cedar.read%%'"
        )
        self.assertLessEqual(sessions, 3)
