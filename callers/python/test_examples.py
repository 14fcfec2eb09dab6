"""Tests of the examples and the sections of the docstrings. `test_cedar_store.py` runs them too."""
import doctest
import enum
import inspect
import re
import unittest

import cedar_store
from cedar_store import (
    _bodies,
    _diff,
    _dot,
    _entity,
    _library,
    _policies,
    _statuses,
    _store,
    _store_queries,
    _uids,
    values,
)

MODULES = (
    cedar_store, _bodies, _diff, _dot, _entity, _library, _policies, _store, _store_queries, _uids, values
)


class Examples(unittest.TestCase):
    def test_examples_of_docstrings(self):
        attempted = 0
        for module in MODULES:
            result = doctest.testmod(module)
            self.assertEqual(result.failed, 0, module.__name__)
            attempted += result.attempted
        self.assertGreater(attempted, 150)

    def test_each_method_of_stores_and_sets_has_an_example(self):
        for cls in (cedar_store.Store, _store_queries.StoreQueries, cedar_store.Policies):
            for name, member in vars(cls).items():
                if inspect.isfunction(member) and not name.startswith("_"):
                    self.assertIn(">>>", member.__doc__, f"{cls.__name__}.{name}")

    def test_sections_name_existing_exceptions(self):
        known = {*_statuses.__all__, "TypeError", "ValueError", "RuntimeError"}
        for module in MODULES:
            for text in docstrings(module):
                for section in re.findall(r"\n *Raises:\n((?: +\S.*\n?)+)", text):
                    named = re.findall(r"(?m)^ +([A-Z]\w+(?:, [A-Z]\w+)*):", section)
                    self.assertTrue(named, section)
                    self.assertLessEqual(set(", ".join(named).split(", ")), known, section)

    def test_each_public_item_has_a_docstring(self):
        for name in cedar_store.__all__:
            item = getattr(cedar_store, name)
            if inspect.isclass(item) or inspect.isfunction(item):
                self.assertTrue(inspect.getdoc(item), name)

    def test_kinds_are_enums(self):
        for kind in (cedar_store.Bound, cedar_store.ConstraintKind, cedar_store.Effect, cedar_store.Mode):
            self.assertTrue(issubclass(kind, enum.Enum))


def docstrings(module):
    """Yields the docstrings of a module and of the classes and functions that it defines."""
    yield module.__doc__
    for item in vars(module).values():
        if getattr(item, "__module__", None) == module.__name__ and (inspect.isclass(item) or inspect.isfunction(item)):
            yield item.__doc__ or ""
            for member in vars(item).values() if inspect.isclass(item) else ():
                yield getattr(member, "__doc__", "") or ""


if __name__ == "__main__":
    unittest.main()
