"""A base for tests with groups of servers that Patroni supervises."""
from __future__ import annotations

import asyncio
import os
import sys
import unittest

HERE = os.path.dirname(os.path.abspath(__file__))
sys.path.append(os.path.join(os.path.dirname(HERE), "example"))

import stack

MISSING = ", ".join(stack.missing_programs())


@unittest.skipIf(MISSING, f"{MISSING} is missing")
class StackTest(unittest.IsolatedAsyncioTestCase):
    """A test with groups of servers, and with processes of the example, which the tests of a class share."""

    groups, services = 2, 0

    @classmethod
    def setUpClass(cls) -> None:
        cls.stack = stack.Stack(groups=cls.groups, services=cls.services).start()
        cls.addClassCleanup(cls.stack.close)

    async def asyncSetUp(self) -> None:
        asyncio.get_running_loop().set_debug(False)
