"""An example of a service over the adapter: queries and changes by HTTP, with uvicorn.

    CEDAR_DIRECTORY='dbname=directory user=app' python3 service.py 8080

    PUT /tenants/7                          creates a tenant
    PUT, DELETE /tenants/7/entities         [{"uid": "A::\"a\"", "parents": [], "attrs": {}, "tags": {}}], ["A::\"a\""]
    PUT, DELETE /tenants/7/policies/ID      {"effect": "permit"}
    GET /tenants/7/is-descendant-of?child=..&ancestor=..&token=..

A change returns a token, and is applied once for each value of the header `Idempotency-Key`. A query with a token sees
that change. The service checks no permissions: every client that reaches the port can read and write.
"""
import json
import os
import sys
from urllib.parse import parse_qsl, unquote

import uvicorn
from cedar_postgres import Cluster, DatabaseError, NoTenant, fields
from cedar_store import CedarError, Effect
from uvicorn.protocols.http.httptools_impl import HttpToolsProtocol

BODY_BYTES, REQUEST_SECONDS = 1 << 20, 5
# The statuses of errors by their reasons. Any other is 422.
STATUSES = {"no entity": 404, "no static": 404, "not static": 404, "duplicate": 409, "cycle": 409, "occupied": 409}
cluster = Cluster(os.environ.get("CEDAR_DIRECTORY", ""), max_bytes=int(os.environ.get("CEDAR_BYTES", 512 << 20)))


class Problem(Exception):
    """An error of the request, as RFC 9457 describes it."""

    def __init__(self, status, title, field=None):
        self.content = {"status": status, "title": title}
        if field is not None:
            self.content["errors"] = [{"pointer" if field.startswith("#") else "parameter": field, "detail": title}]


class TimedProtocol(HttpToolsProtocol):
    """Ends a connection whose request has not arrived in time, for example because its client sends single bytes."""

    def connection_made(self, transport):
        super().connection_made(transport)
        self.deadline = self.loop.call_later(REQUEST_SECONDS, transport.abort)

    def on_message_begin(self):
        super().on_message_begin()
        self.deadline.cancel()
        self.deadline = self.loop.call_later(REQUEST_SECONDS, self.transport.abort)

    def on_message_complete(self):
        self.deadline.cancel()
        super().on_message_complete()


async def read_json(receive):
    """Reads the body of a request, up to a number of bytes."""
    body, message = b"", {"more_body": True}
    while message.get("more_body"):
        message = await receive()
        body += message.get("body", b"")
        if len(body) > BODY_BYTES:
            raise Problem(413, f"the body has more than {BODY_BYTES} bytes")
    try:
        return json.loads(body)
    except RecursionError:
        raise fields.FieldError("too many levels", "#") from None
    except ValueError:
        raise Problem(400, "the body is not JSON") from None


async def query(tenant, text):
    """Returns whether an entity is a descendant of another one."""
    given = dict(parse_qsl(text.decode("latin-1"), keep_blank_values=True))
    token = fields.number(given.get("token", "0"), "token")
    child, ancestor = (fields.uid(given.get(name), name) for name in ("child", "ancestor"))
    view = cluster.cached_view(tenant, token) or await cluster.view(tenant, [child], token)
    return {"is_descendant": view.is_descendant_of(child, ancestor), "token": view.version}


async def read_change(scope, path, receive):
    """Returns the change that a request describes, as a function of a draft."""
    match scope["method"], *path:
        case "PUT", "entities":
            entities = fields.entities(await read_json(receive))
            return lambda draft: draft.upsert(entities)
        case "DELETE", "entities":
            uids = fields.uids(await read_json(receive))
            return lambda draft: draft.remove(uids)
        case "PUT", "policies", id:
            effect = fields.checked(await read_json(receive), dict, "#").get("effect")
            if effect not in ("permit", "forbid"):
                raise fields.FieldError("expected permit or forbid", "#/effect")
            return lambda draft: draft.add_static(unquote(id), Effect[effect.upper()])
        case "DELETE", "policies", id:
            return lambda draft: draft.remove_static(unquote(id))
    raise Problem(404, "unknown path or method")


async def respond(scope, receive):
    """Returns the status and the content of the response to a request."""
    path = scope["raw_path"].decode("latin-1").split("/")[1:]
    if path == ["healthz"]:
        return 200, {"status": "ok"}
    if len(path) < 2 or path[0] != "tenants":
        raise Problem(404, "unknown path")
    tenant = fields.number(path[1], "tenant")
    if scope["method"] == "GET" and path[2:] == ["is-descendant-of"]:
        return 200, await query(tenant, scope["query_string"])
    if scope["method"] == "PUT" and not path[2:]:
        return (201 if await cluster.create_tenant(tenant) else 200), {"tenant": tenant}
    change, key = await read_change(scope, path[2:], receive), dict(scope["headers"]).get(b"idempotency-key")
    applied = await cluster.change(tenant, change, key=None if key is None else key.decode("latin-1"))
    return 200, {"token": applied.token}


async def app(scope, receive, send):
    if scope["type"] == "lifespan":
        for event, call in ("startup", cluster.open), ("shutdown", cluster.close):
            await receive()
            await call()
            await send({"type": f"lifespan.{event}.complete"})
        return
    headers = [(b"content-type", b"application/problem+json")]
    try:
        (status, content), headers = await respond(scope, receive), [(b"content-type", b"application/json")]
    except (Problem, fields.FieldError, CedarError, NoTenant, DatabaseError) as error:
        status, content = problem_of(error)
        headers += [(b"retry-after", b"1")] if status == 503 else [(b"connection", b"close")] if status == 413 else []
    body = json.dumps(content).encode()
    headers.append((b"content-length", str(len(body)).encode()))
    await send({"type": "http.response.start", "status": status, "headers": headers})
    await send({"type": "http.response.body", "body": body})


def problem_of(error):
    """Returns the status and the content of the response to an error."""
    if isinstance(error, fields.FieldError):
        error = Problem(422, str(error), error.field)
    elif isinstance(error, CedarError):
        error = Problem(STATUSES.get(error.reason, 422), str(error))
    elif isinstance(error, NoTenant):
        error = Problem(404, "no such tenant")
    elif isinstance(error, DatabaseError):  # its text is for the operator, not for the client
        print(f"{type(error).__name__}: {error}", file=sys.stderr, flush=True)
        error = Problem(503, "try again")
    return error.content["status"], error.content


if __name__ == "__main__":
    uvicorn.run(app, port=int(sys.argv[1]), http=TimedProtocol, access_log=False, log_level="error")
