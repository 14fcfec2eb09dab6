"""Commands of operators.

    python3 -m cedar_postgres migrate DSN
        applies the missing migrations, as a role that owns the tables
    python3 -m cedar_postgres server DIRECTORY NAME DSN ADMIN [READS]
        records a server in the directory, or changes its connection strings (ADMIN is for a superuser)
    python3 -m cedar_postgres move DIRECTORY TENANT SERVER
        moves a tenant to a server, or goes on with an interrupted move
    python3 -m cedar_postgres cancel-move DIRECTORY TENANT SERVER
        ends a move that has not opened the tenant at the server
    python3 -m cedar_postgres moves DIRECTORY
        lists the moves that have not ended
"""
from __future__ import annotations

import sys

import psycopg

from .migrations import migrate
from .move import Move, MoveError


def _migrate(dsn: str) -> None:
    numbers = migrate(dsn)
    for number in numbers:
        print(f"applied migration {number}")
    if not numbers:
        print("nothing to do: all migrations are applied")


def _record_server(directory: str, name: str, dsn: str, admin: str, reads: str | None = None) -> None:
    with psycopg.connect(directory) as connection:
        connection.execute(
            "INSERT INTO cedar.servers (server, dsn, reads, admin) VALUES (%s, %s, %s, %s) ON CONFLICT (server) "
            "DO UPDATE SET dsn = EXCLUDED.dsn, reads = EXCLUDED.reads, admin = EXCLUDED.admin",
            (name, dsn, reads, admin),
        )


def _list_moves(directory: str) -> None:
    with psycopg.connect(directory) as connection:
        for tenant, source, target, started_at in connection.execute(
            "SELECT tenant, source, target, started_at FROM cedar.moves ORDER BY started_at"
        ):
            print(f"tenant {tenant}: from {source} to {target}, since {started_at:%Y-%m-%d %H:%M:%S %z}")


def main(arguments: list[str]) -> int:
    try:
        match arguments:
            case ["migrate", dsn]:
                _migrate(dsn)
            case ["server", directory, name, dsn, admin, *reads] if len(reads) <= 1:
                _record_server(directory, name, dsn, admin, *reads)
            case ["move", directory, tenant, server] if tenant.isdecimal():
                moved = Move(directory, int(tenant), server, lambda step: print(step, flush=True)).run()
                print(f"moved in {moved.seconds:.1f} s; changes were rejected for {moved.rejected_seconds:.2f} s")
            case ["cancel-move", directory, tenant, server] if tenant.isdecimal():
                Move(directory, int(tenant), server).cancel()
            case ["moves", directory]:
                _list_moves(directory)
            case _:
                print(__doc__, file=sys.stderr)
                return 64
    except (MoveError, psycopg.Error, ValueError) as error:
        print(f"{arguments[0]}: {error}", file=sys.stderr)
        return 1
    return 0


if __name__ == "__main__":
    sys.exit(main(sys.argv[1:]))
