"""Stores and policy sets of the Cedar language in PostgreSQL, for many tenants.

    async with Database("host=/run/postgresql dbname=app user=app") as database:
        await database.create_tenant(7)
        applied = await database.change(7, lambda draft: draft.upsert([Entity('User::"alice"', ['Group::"staff"'])]))
        view = await database.view(7, token=applied.token)
        print(view.is_descendant_of('User::"alice"', 'Group::"staff"'))

- `Database` reads and changes the tenants of one server. It keeps tenants that are in use in memory.
- `Cluster` finds the server of a tenant in a directory, and follows moves.
- `python3 -m cedar_postgres` applies the migrations, and moves tenants.
- `cedar_store.CedarError` means that the caller's change is invalid. The exceptions of `errors` are never the caller's
  fault.

The tables are behind row-level security, and each call sets its tenant.
"""
from __future__ import annotations

from . import fields
from .changes import Draft
from .cluster import Cluster
from .database import Applied, Database
from .errors import (
    Behind,
    Conflict,
    DatabaseError,
    InvalidRows,
    Moving,
    NoTenant,
    NotInSlice,
    OutdatedSchema,
    Retry,
    Unavailable,
    Unprotected,
)
from .migrations import migrate
from .tenant import View

__all__ = [
    "Applied",
    "Behind",
    "Cluster",
    "Conflict",
    "Database",
    "DatabaseError",
    "Draft",
    "InvalidRows",
    "Moving",
    "NoTenant",
    "NotInSlice",
    "OutdatedSchema",
    "Retry",
    "Unavailable",
    "Unprotected",
    "View",
    "fields",
    "migrate",
]
