"""The ways in which an edit keeps the ancestors of a store closed."""
from __future__ import annotations

import enum


class Mode(enum.IntEnum):
    """How a call on a store keeps the ancestors of entities complete.

    A call affects the entities that it inserts or removes, and the entities that have an inserted or removed entity as
    an ancestor. In every mode, a removal first repairs the affected entities: they get all ancestors that they reach.

    - `COMPUTE` gives the affected entities all ancestors that they reach. It raises `Cycle` if an affected entity
      reaches itself. Nothing else is checked.
    - `ENFORCE` takes the parents of an inserted entity as all its ancestors. Then it checks the whole store. It raises
      `MissingAncestor` if an ancestor of an ancestor is missing, and `Cycle` if an entity is its own ancestor.
    - `ASSUME` does the same as `ENFORCE`, but without the check.
    """

    COMPUTE = 0
    ENFORCE = 1
    ASSUME = 2
