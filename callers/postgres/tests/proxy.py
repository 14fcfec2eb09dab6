"""A proxy between the adapter and a server. It loses answers, goes silent or cuts connections for a test."""
from __future__ import annotations

import asyncio
import contextlib
import os
import tempfile


class Proxy:
    """Listens on a socket in a folder of its own, and passes everything on to the socket of a server."""

    def __init__(self, folder: str) -> None:
        self._server_path = os.path.join(folder, ".s.PGSQL.5432")
        self._folder = tempfile.TemporaryDirectory(prefix="cedar-proxy-")
        self.lose_answer_to = b""  # the connection is cut after a request that contains this, without its answer
        self.is_silent = False  # passes nothing on
        self.lost_answers = 0
        self._writers: set[asyncio.StreamWriter] = set()

    async def __aenter__(self) -> Proxy:
        path = os.path.join(self._folder.name, ".s.PGSQL.5432")
        self._server = await asyncio.start_unix_server(self._serve, path)
        return self

    async def __aexit__(self, *_: object) -> None:
        self._server.close()
        self.cut()
        self._folder.cleanup()

    def dsn(self, dsn: str) -> str:
        """Returns a connection string with this proxy in the place of the server."""
        return dsn.replace(os.path.dirname(self._server_path), self._folder.name)

    def cut(self) -> None:
        """Cuts all connections."""
        for writer in list(self._writers):
            writer.close()

    async def _serve(self, reader: asyncio.StreamReader, writer: asyncio.StreamWriter) -> None:
        server_reader, server_writer = await asyncio.open_unix_connection(self._server_path)
        self._writers.add(writer)
        state = {"loses": False}
        tasks = [
            asyncio.create_task(self._pass(reader, server_writer, state, True)),
            asyncio.create_task(self._pass(server_reader, writer, state, False)),
        ]
        try:
            await asyncio.wait(tasks, return_when=asyncio.FIRST_COMPLETED)
        finally:
            for task in tasks:
                task.cancel()
            for each in (writer, server_writer):
                each.close()
            self._writers.discard(writer)

    async def _pass(
        self, reader: asyncio.StreamReader, writer: asyncio.StreamWriter, state: dict[str, bool], is_request: bool
    ) -> None:
        with contextlib.suppress(ConnectionError):
            while data := await reader.read(1 << 20):
                while self.is_silent:
                    await asyncio.sleep(0.01)
                if is_request and self.lose_answer_to and self.lose_answer_to in data:
                    state["loses"], self.lose_answer_to = True, b""
                if not is_request and state["loses"]:
                    self.lost_answers += 1
                    return
                writer.write(data)
                await writer.drain()
