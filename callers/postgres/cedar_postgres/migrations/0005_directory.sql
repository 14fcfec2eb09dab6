-- The directory: which server has a tenant. One database has it for all servers. In the others these tables are empty.

-- `dsn` and `reads` are the connection strings of services (see `Database`), `admin` that of a superuser for moves.
CREATE TABLE cedar.servers (
    server text PRIMARY KEY,
    dsn text NOT NULL,
    reads text,
    admin text NOT NULL
);

CREATE TABLE cedar.directory (
    tenant bigint PRIMARY KEY,
    server text NOT NULL REFERENCES cedar.servers
);
CREATE INDEX directory_by_server ON cedar.directory (server);

-- The moves that have begun and not ended.
CREATE TABLE cedar.moves (
    tenant bigint PRIMARY KEY REFERENCES cedar.directory,
    source text NOT NULL REFERENCES cedar.servers,
    target text NOT NULL REFERENCES cedar.servers CHECK (target <> source),
    started_at timestamptz NOT NULL DEFAULT clock_timestamp()
);

-- A service sees no connection string of a superuser, and moves no tenant.
GRANT SELECT (server, dsn, reads) ON cedar.servers TO cedar_service;
GRANT SELECT, INSERT, DELETE ON cedar.directory TO cedar_service;
