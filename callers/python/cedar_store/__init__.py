"""Stores of entities and policy sets of the Cedar authorization language.

The package calls a library whose functions are proved, within the limits that `cedar.h` describes. The package itself
is tested, not proved. It encodes Python lists for the library, copies results out of it and frees its handles.

`CEDAR_LIBRARY` names the shared library. If it is not set, the package loads the `libcedar.so` in its own folder, which
a wheel contains. In a checkout it then tries `callers/out/libcedar.so`, which `callers/run` builds, and
`callers/out/try/libcedar.so`, which `callers/run-unproved` builds. `__proved__` says whether the library is proved.

A uid is a text like `A::B::"c"`: a type, and an escaped id in quotes. `EntityUid.make` builds one from a type and an
id. The id of a policy or of a template is any text.

All exceptions that report an error of the library are subclasses of `CedarError`. Each names the items concerned in its
text and in attributes like `uid` and `id`. A wrong type raises `TypeError`. An invalid mode, effect or key raises
`ValueError`.

Any thread may call a store or a policy set. Handles that share memory (a store, its copies and its slices) have one
lock, which each call takes. So their calls happen one after another, and two stores that share nothing work in
parallel. `deep_copy` makes such a store. The rule that handles which share are used by one thread at a time is the rule
of `cedar.h` under which the library is proved. That this package keeps the rule is tested, not proved.

A fork waits for the calls of other threads. Ctrl-C during a call raises `KeyboardInterrupt` after the call. A signal
handler that calls a store in the middle of another call of its thread can get a `RuntimeError`.

Entities can have attributes and tags: see `Entity` and the module `values`. Policies can have constraints (see
`Constraint`), annotations and a condition.

The maps of a store or a set are hashed with a key of 16 bytes. If no key is given, `os.urandom` draws one. An attacker
who controls the ids then cannot force hash collisions. The key affects two results: the order of `uids`, and which of
several cycles, or of several missing ancestors, an error names.
"""
from __future__ import annotations

from . import _statuses, values
from ._bodies import Constraint, ConstraintKind
from ._content import Entities
from ._diff import EntityChange, PoliciesDiff, PolicyChange, PolicySnapshot, StoreDiff
from ._entity import Entity, Unknown
from ._errors import CedarError
from ._library import PROVED, VERSION, run, status_text, version
from ._mode import Mode
from ._policies import Bound, Effect, Env, Policies
from ._statuses import *  # noqa: F403
from ._store import Store
from ._uids import EntityUid, is_uid

__version__ = VERSION
# Whether the loaded library is proved. `callers/run-unproved` builds one that is only tested.
__proved__ = PROVED

__all__ = [
    "Bound",
    "CedarError",
    "Constraint",
    "ConstraintKind",
    "Effect",
    "Entities",
    "Entity",
    "EntityChange",
    "EntityUid",
    "Env",
    "Mode",
    "Policies",
    "PoliciesDiff",
    "PolicyChange",
    "PolicySnapshot",
    "Store",
    "StoreDiff",
    "Unknown",
    "is_uid",
    "run",
    "status_text",
    "values",
    "version",
]
__all__ += _statuses.__all__
