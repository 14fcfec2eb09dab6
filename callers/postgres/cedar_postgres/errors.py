"""The exceptions of the adapter. `cedar_store.CedarError` is the caller's fault. No exception here is.

    DatabaseError
        Retry              the same call can succeed in a moment; nothing was written
            Moving         the tenant is between two servers
            Behind         the server has not reached the version of the token yet
        Conflict           other changes were first at each attempt; nothing was written
        Unavailable        no server answered in time
        NoTenant           the server has no such tenant
        OutdatedSchema     a migration is missing
        Unprotected        the role is not subject to row-level security
        InvalidRows        the library rejects the rows of the tables
"""
from __future__ import annotations

import psycopg


class DatabaseError(Exception):
    """The database did not do its part. The call and its arguments may be right."""


class Retry(DatabaseError):
    """The call was not carried out. The same call can succeed in a moment. Nothing was written."""


class Moving(Retry):
    """The tenant is between two servers, or a move has ended and the directory names another server."""


class Behind(Retry):
    """The server has not reached the version of the token yet."""


class Conflict(DatabaseError):
    """Other changes of the tenant were first at each attempt. Nothing was written."""


class Unavailable(DatabaseError):
    """No server answered in time, or the server cannot write now.

    `may_be_written` is true if a change may have been written. Repeat the change with the same key to find out: it is
    applied at most once. `is_connection_lost` is true if another connection can have another result.
    """

    def __init__(self, text: str, *, is_connection_lost: bool = True, may_be_written: bool = False) -> None:
        super().__init__(text)
        self.is_connection_lost = is_connection_lost
        self.may_be_written = may_be_written


class NoTenant(DatabaseError, LookupError):
    """The server has no tenant with this number."""


class OutdatedSchema(DatabaseError):
    """A migration is missing: run `python3 -m cedar_postgres migrate`."""


class Unprotected(DatabaseError):
    """The role is a superuser or has BYPASSRLS, so row-level security does not protect the tenants."""


class InvalidRows(DatabaseError):
    """The library rejects the rows of the tables. Another program has written them."""


class NotInSlice(LookupError):
    """A slice was queried for a uid that it does not cover. Request the uid together with the others."""


# The classes of SQLSTATE that mean that the server cannot work now. They are connection failures, no resources (also a
# full disk), shutdown and errors of the machine. 25006 is a server that has become a replica.
_UNAVAILABLE = ("08", "53", "57P", "58", "25006", "57014", "F0", "XX001", "XX002")
_RETRY = ("40001", "40P01", "55P03")
# An aborted statement writes nothing. Without a code, or if the connection failed, a commit may have been written.
_NOT_WRITTEN = ("53", "58", "25006", "57014", "F0", "XX001", "XX002")
_OUTDATED = ("42883", "42P01", "3F000")


def is_connection_failure(error: BaseException) -> bool:
    """Returns whether the error ended the connection, so that another connection can have another result."""
    if isinstance(error, psycopg.Error):
        state = error.sqlstate
        return state.startswith(("08", "57P", "25006")) if state else isinstance(error, psycopg.OperationalError)
    return isinstance(error, OSError)


def database_error(error: BaseException) -> DatabaseError:
    """Returns the error of the driver as an exception of this module."""
    if isinstance(error, OSError):
        return Unavailable("the server did not answer in time", may_be_written=True)
    state = getattr(error, "sqlstate", None) or ""
    text = f"{type(error).__name__} {state}: {error}".strip()
    if state.startswith(_RETRY):
        return Retry(text)
    if state.startswith(_UNAVAILABLE) or not state and isinstance(error, psycopg.OperationalError):
        return Unavailable(
            text, is_connection_lost=is_connection_failure(error), may_be_written=not state.startswith(_NOT_WRITTEN)
        )
    return (OutdatedSchema if state.startswith(_OUTDATED) else DatabaseError)(text)
