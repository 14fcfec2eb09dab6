"""The exceptions by meaning. Written by tools/statuses.py from callers/statuses.txt: do not edit."""
from __future__ import annotations

from typing import Dict, NamedTuple, Tuple, Type

from ._errors import CedarError
from ._uids import EntityUid

__all__ = [
    "BadArgument",
    "Closed",
    "Cycle",
    "DuplicateAncestor",
    "DuplicateEntity",
    "IdInUse",
    "InvalidActionParent",
    "LinkWithoutSlots",
    "MissingAncestor",
    "NotALink",
    "NotAName",
    "NotATemplate",
    "NotAUid",
    "NotActions",
    "NotAnAction",
    "NotStatic",
    "NotUtf8",
    "OutOfMemory",
    "ReservedKey",
    "SelfAncestor",
    "SlotInClause",
    "SlotMismatch",
    "TemplateHasLinks",
    "TooDeep",
    "UnknownEntity",
    "UnknownFunction",
    "UnknownPolicy",
    "UnknownTemplate",
]


class OutOfMemory(CedarError, MemoryError):
    """An allocation failed."""


class Closed(CedarError):
    """A handle is closed."""

    @property
    def object(self) -> str:
        """Returns what was closed: `a store` or `a policy set`."""
        return self._name(0)


class BadArgument(CedarError, ValueError):
    """A part is not within its text, a number is out of range, or nodes are invalid."""

    @property
    def argument(self) -> str:
        """Returns what was wrong."""
        return self._name(0)


class NotAUid(CedarError, ValueError):
    """A text is not the text of a uid."""

    @property
    def text(self) -> str:
        """Returns the text."""
        return self._name(0)


class NotUtf8(CedarError, ValueError):
    """An id, a key, the value of an annotation or a string is not UTF-8."""

    @property
    def text(self) -> str:
        """Returns the text."""
        return self._name(0)


class UnknownEntity(CedarError, KeyError):
    """The store has no entity with this uid."""

    @property
    def uid(self) -> EntityUid:
        """Returns the uid."""
        return self._uid(0)


class DuplicateEntity(CedarError):
    """Two entities with one uid differ."""

    @property
    def uid(self) -> EntityUid:
        """Returns the uid."""
        return self._uid(0)


class Cycle(CedarError):
    """A uid is one of its own ancestors."""

    @property
    def uid(self) -> EntityUid:
        """Returns the uid."""
        return self._uid(0)


class MissingAncestor(CedarError):
    """An ancestor of an ancestor is missing."""

    @property
    def uid(self) -> EntityUid:
        """Returns the uid."""
        return self._uid(0)

    @property
    def ancestor(self) -> EntityUid:
        """Returns the ancestor."""
        return self._uid(1)

    @property
    def missing(self) -> EntityUid:
        """Returns the missing ancestor."""
        return self._uid(2)


class SelfAncestor(CedarError):
    """An entity is one of its own ancestors."""

    @property
    def uid(self) -> EntityUid:
        """Returns the uid."""
        return self._uid(0)


class DuplicateAncestor(CedarError):
    """A uid is both a parent and an indirect ancestor."""

    @property
    def uid(self) -> EntityUid:
        """Returns the uid."""
        return self._uid(0)

    @property
    def ancestor(self) -> EntityUid:
        """Returns the ancestor."""
        return self._uid(1)


class InvalidActionParent(CedarError):
    """An action has an ancestor that is not an action."""

    @property
    def uid(self) -> EntityUid:
        """Returns the uid."""
        return self._uid(0)

    @property
    def parent(self) -> EntityUid:
        """Returns the ancestor."""
        return self._uid(1)


class ReservedKey(CedarError):
    """A key of a record is reserved."""

    @property
    def key(self) -> str:
        """Returns the key."""
        return self._name(0)


class IdInUse(CedarError):
    """An id is already in use. The id of the new link is already in use."""

    @property
    def id(self) -> str:
        """Returns the id."""
        return self._name(0)


class UnknownTemplate(CedarError, KeyError):
    """There is no template with the id to link. The id of the template to remove is not in use."""

    @property
    def id(self) -> str:
        """Returns the id."""
        return self._name(0)


class SlotMismatch(CedarError):
    """The bindings do not match the slots of the template."""

    @property
    def slots(self) -> Tuple[str, ...]:
        """Returns the unbound slots, then the bound slots that do not exist."""
        return self.names


class NotAnAction(CedarError):
    """The slot of the action is bound to a uid that is not an action."""

    @property
    def uid(self) -> EntityUid:
        """Returns the uid."""
        return self._uid(0)


class UnknownPolicy(CedarError, KeyError):
    """The id to unlink is not in use. There is no policy with the id of the static policy to remove. There is
    nothing of the requested kind with this id.
    """

    @property
    def id(self) -> str:
        """Returns the id."""
        return self._name(0)


class NotALink(CedarError):
    """The id to unlink is not the id of a link."""

    @property
    def id(self) -> str:
        """Returns the id."""
        return self._name(0)


class TemplateHasLinks(CedarError):
    """The template has links."""

    @property
    def id(self) -> str:
        """Returns the id."""
        return self._name(0)


class NotATemplate(CedarError):
    """The id is not the id of a template."""

    @property
    def id(self) -> str:
        """Returns the id."""
        return self._name(0)


class NotStatic(CedarError):
    """The id is the id of a link, or a static policy to add has a slot."""

    @property
    def id(self) -> str:
        """Returns the id."""
        return self._name(0)


class NotAName(CedarError, ValueError):
    """A text is not a name, or the key of an annotation is not an identifier."""

    @property
    def text(self) -> str:
        """Returns the text."""
        return self._name(0)


class TooDeep(CedarError, ValueError):
    """A value or an expression has more than 1,000 levels."""


class SlotInClause(CedarError):
    """The clause of a template has a slot."""

    @property
    def id(self) -> str:
        """Returns the id."""
        return self._name(0)


class NotActions(CedarError):
    """The action constraint of a policy or a template has a uid that is not an action."""

    @property
    def id(self) -> str:
        """Returns the id."""
        return self._name(0)


class UnknownFunction(CedarError):
    """The clause of a policy or a template calls an unknown function."""

    @property
    def id(self) -> str:
        """Returns the id."""
        return self._name(0)


class LinkWithoutSlots(CedarError):
    """A link has a template without slots."""

    @property
    def id(self) -> str:
        """Returns the id."""
        return self._name(0)


class Status(NamedTuple):
    """A status of the library: its reason, its exception, the text of the status, and what its error text names."""

    reason: str
    exception: Type[CedarError]
    text: str
    has_text: bool
    names_uids: bool


STATUSES: Dict[int, Status] = {
    1: Status("no memory", OutOfMemory, "out of memory", False, False),
    2: Status("closed", Closed, "closed", False, False),
    3: Status("bad argument", BadArgument, "bad argument", False, False),
    4: Status("not a uid", NotAUid, "not a uid", False, False),
    5: Status("not UTF-8", NotUtf8, "not UTF-8", False, False),
    6: Status("no entity", UnknownEntity, "no entity", False, True),
    7: Status("duplicate", DuplicateEntity, "duplicate entity", True, True),
    8: Status("cycle", Cycle, "cycle at", True, True),
    9: Status("not closed", MissingAncestor, "ancestors not closed at", True, True),
    10: Status("self ancestor", SelfAncestor, "its own ancestor", True, True),
    11: Status("duplicate ancestor", DuplicateAncestor, "parent and indirect ancestor", True, True),
    12: Status("action parent", InvalidActionParent, "ancestor of an action that is none", True, True),
    13: Status("reserved key", ReservedKey, "reserved key", True, False),
    14: Status("occupied", IdInUse, "occupied", True, False),
    15: Status("no such template", UnknownTemplate, "no template to link", True, False),
    16: Status("arity", SlotMismatch, "arity:", True, False),
    17: Status("not an action", NotAnAction, "not an action", True, True),
    18: Status("id conflict", IdInUse, "occupied", True, False),
    19: Status("no link", UnknownPolicy, "no link", True, False),
    20: Status("not a link", NotALink, "not a link", True, False),
    21: Status("no template", UnknownTemplate, "no template", True, False),
    22: Status("with links", TemplateHasLinks, "template with links", True, False),
    23: Status("not a template", NotATemplate, "not a template", True, False),
    24: Status("no static", UnknownPolicy, "no static policy", True, False),
    25: Status("not static", NotStatic, "not a static policy", True, False),
    26: Status("no body", UnknownPolicy, "no body", False, False),
    27: Status("not a name", NotAName, "not a name", False, False),
    28: Status("too deep", TooDeep, "too deep", False, False),
    29: Status("slot in clause", SlotInClause, "slot in the clause of", True, False),
    30: Status("not actions", NotActions, "uid of no action in", True, False),
    31: Status("unknown function", UnknownFunction, "unknown function in", True, False),
    32: Status("slotless link", LinkWithoutSlots, "link without slots", True, False),
}

# The public name of each exception, for example in a traceback.
for _status in STATUSES.values():
    _status.exception.__module__ = "cedar_store"
