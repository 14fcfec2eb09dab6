"""Tests that the example of the page runs."""
from __future__ import annotations

import os
import subprocess
import sys
import unittest

from servers import shared_server

HERE = os.path.dirname(os.path.abspath(__file__))


class Examples(unittest.TestCase):
    def test_example_of_the_page(self) -> None:
        """Runs the example of `callers/README.md` on tables of this test, as a program of its own."""
        with open(os.path.join(os.path.dirname(os.path.dirname(HERE)), "README.md"), encoding="utf-8") as page:
            example = page.read().split("## Over PostgreSQL")[1].split("```python\n")[1].split("```")[0]
        self.assertIn('"dbname=cedar user=app"', example)
        example = example.replace("dbname=cedar user=app", shared_server().create_database("example"))
        path = os.pathsep.join(folder for folder in sys.path if folder)
        output = subprocess.run(
            [sys.executable, "-B", "-X", "dev", "-W", "error", "-c", example],
            text=True,
            check=True,
            env={**os.environ, "PYTHONPATH": path},
            stdout=subprocess.PIPE,
        ).stdout
        self.assertEqual(output, "True ['all']\n")
