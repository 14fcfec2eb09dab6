"""What differs between two stores, and between two policy sets.

The functions of the library that read both are proved. The comparison here is Python: it is tested, not proved.
"""
from __future__ import annotations

import dataclasses
import difflib
from typing import TYPE_CHECKING, Any, Dict, Iterable, List, Mapping, Optional, Set, Tuple, TypeVar

from ._entity import Entity
from ._uids import EntityUid, order_key

if TYPE_CHECKING:
    from ._policies import Bound, Policies
    from ._store import Store

_Item = TypeVar("_Item")
_Ancestors = Mapping[EntityUid, Tuple[EntityUid, ...]]


class _Diff:
    """The base of both kinds of differences: a dataclass whose fields are empty if nothing differs."""

    def __bool__(self) -> bool:
        """Returns whether anything differs."""
        return any(value for _, value in self._parts())

    def _parts(self) -> List[Tuple[str, Any]]:
        return [(field.name, getattr(self, field.name)) for field in dataclasses.fields(self)]

    def __repr__(self) -> str:
        """Returns the parts that are not empty."""
        parts = [f"{name}={_shown(value)!r}" for name, value in self._parts() if value]
        return f"{type(self).__name__}({', '.join(parts)})"


def _shown(value: Any) -> Any:
    """Returns a part of a difference with lists of texts instead of tuples of uids."""
    if isinstance(value, Mapping):
        return {str(uid): list(map(str, ancestors)) for uid, ancestors in value.items()}
    return list(value)


# ---- stores


@dataclasses.dataclass(frozen=True)
class EntityChange:
    """An entity of which the parents, the attributes or the tags differ."""

    before: Entity
    after: Entity

    @property
    def uid(self) -> EntityUid:
        """Returns the uid of the entity."""
        return self.before.uid


@dataclasses.dataclass(frozen=True, repr=False)
class StoreDiff(_Diff):
    """What differs between a store and a later one: see `Store.diff`.

    All lists are in ascending order of uid. It is False if nothing differs. Its `str` is for display: a block of lines
    for each entity, with `-` before what only the first store has, and `+` before what only the second has.

    Attributes:
        removed: the entities that only the first store has, without their indirect ancestors.
        added: the entities that only the second store has, without their indirect ancestors.
        changed: the entities of both stores of which the parents, the attributes or the tags differ.
        lost_ancestors: for the uids of entities of both stores, the ancestors that only the first store gives them.
        gained_ancestors: for the uids of entities of both stores, the ancestors that only the second gives them.
        partial: whether the first and the second store are partial, if that differs, and otherwise an empty tuple.

    >>> from cedar_store import Store
    >>> before = Store({'User::"alice"': ['Group::"staff"'], 'User::"bob"': []})
    >>> after = Store({'User::"alice"': ['Group::"board"']})
    >>> print(before.diff(after))
      User::"alice"
    -   parent Group::"staff"
    +   parent Group::"board"
    - User::"bob"
    """

    removed: Tuple[Entity, ...] = ()
    added: Tuple[Entity, ...] = ()
    changed: Tuple[EntityChange, ...] = ()
    lost_ancestors: _Ancestors = dataclasses.field(default_factory=dict)
    gained_ancestors: _Ancestors = dataclasses.field(default_factory=dict)
    partial: Tuple[bool, ...] = ()

    def __str__(self) -> str:
        """Returns the differences for display."""
        lines: List[str] = []
        if self.partial:
            lines += [f"{sign} {'partial' if is_partial else 'not partial'}" for sign, is_partial in
                      zip("-+", self.partial)]
        removed, added = [{entity.uid: entity for entity in part} for part in (self.removed, self.added)]
        changed = {change.uid: change for change in self.changed}
        uids: Set[EntityUid] = {*removed, *added, *changed, *self.lost_ancestors, *self.gained_ancestors}
        for uid in sorted(uids, key=order_key):
            if uid in removed:
                lines += _block("-", str(uid), _lines_of(removed[uid]))
            elif uid in added:
                lines += _block("+", str(uid), _lines_of(added[uid]))
            else:
                lines += [f"  {uid}", *self._changed_lines(uid, changed.get(uid))]
        return "\n".join(lines)

    def _changed_lines(self, uid: EntityUid, change: Optional[EntityChange]) -> List[str]:
        """Returns the lines of an entity of both stores. A parent is not listed as an ancestor too."""
        before = _lines_of(change.before) if change else []
        after = _lines_of(change.after) if change else []
        sides = (("-", before, after, self.lost_ancestors), ("+", after, before, self.gained_ancestors))
        lines: List[str] = []
        for sign, own, other, ancestors in sides:
            differing = [line for line in own if line not in other]
            lines += [f"{sign}   {line}" for line in differing]
            lines += [f"{sign}   ancestor {ancestor}" for ancestor in ancestors.get(uid, ())
                      if f"parent {ancestor}" not in differing]
        return lines


def _lines_of(entity: Entity) -> List[str]:
    """Returns the lines of an entity for display."""
    lines = [f"parent {parent}" for parent in sorted(entity.parents, key=order_key)]
    for name, terms in (("attribute", entity.attrs), ("tag", entity.tags)):
        lines += [f"{name} {key} = {term!r}" for key, term in sorted(terms.items())]
    return lines


def _block(sign: str, title: str, lines: Iterable[str]) -> List[str]:
    return [f"{sign} {title}", *[f"{sign}   {line}" for line in lines]]


def diff_stores(before: Store, after: Store) -> StoreDiff:
    """Returns what differs between two stores, which no other thread changes meanwhile."""
    old, new = set(before.uids()), set(after.uids())
    changed: List[EntityChange] = []
    lost: Dict[EntityUid, Tuple[EntityUid, ...]] = {}
    gained: Dict[EntityUid, Tuple[EntityUid, ...]] = {}
    for uid in sorted(_differing(before, after, old & new), key=order_key):
        change = EntityChange(before._read_entity(uid), after._read_entity(uid))
        if change.before != change.after:
            changed.append(change)
        ancestors, later = before.ancestors(uid), after.ancestors(uid)
        for one, other, found in ((ancestors, later, lost), (later, ancestors, gained)):
            missing = _without(one, other)
            if missing:
                found[uid] = missing
    return StoreDiff(
        removed=tuple([before._read_entity(uid) for uid in sorted(old - new, key=order_key)]),
        added=tuple([after._read_entity(uid) for uid in sorted(new - old, key=order_key)]),
        changed=tuple(changed),
        lost_ancestors=lost,
        gained_ancestors=gained,
        partial=() if before.is_partial() == after.is_partial() else (before.is_partial(), after.is_partial()),
    )


def _differing(before: Store, after: Store, uids: Iterable[EntityUid]) -> List[EntityUid]:
    """Returns the uids of the entities that differ between two stores."""
    return [
        uid for uid in uids if not before.entity_equal(uid, after) or before.parents(uid) != after.parents(uid)
    ]


def _without(items: List[_Item], others: List[_Item]) -> Tuple[_Item, ...]:
    """Returns the items that are not among others, in their order."""
    excluded = set(others)
    return tuple([item for item in items if item not in excluded])


# ---- policy sets


@dataclasses.dataclass(frozen=True)
class PolicySnapshot:
    """A static policy, a template or a link, as it was read: its id, its kind and its text for display."""

    id: str
    kind: Bound
    text: str

    @property
    def title(self) -> str:
        """Returns the kind and the id."""
        return f"{self.kind.name.lower()} {self.id}"


@dataclasses.dataclass(frozen=True)
class PolicyChange:
    """The item of an id that two sets bind to different items."""

    before: PolicySnapshot
    after: PolicySnapshot

    @property
    def id(self) -> str:
        """Returns the id."""
        return self.before.id


@dataclasses.dataclass(frozen=True, repr=False)
class PoliciesDiff(_Diff):
    """What differs between a policy set and a later one: see `Policies.diff`.

    All lists are in ascending order of id. It is False if nothing differs. Its `str` is for display: it has the lines
    of the texts, with `-` before a line that only the first set has, and `+` before one that only the second has.

    Attributes:
        removed: the static policies, templates and links whose ids only the first set binds.
        added: the static policies, templates and links whose ids only the second set binds.
        changed: the items of the ids that both sets bind, but to different items.
        relinked: the links that are in both sets and not changed, but the template of which is changed.

    >>> from cedar_store import Effect, Policies
    >>> before, after = Policies(), Policies()
    >>> before.add_static("p")
    >>> after.add_static("p", Effect.FORBID)
    >>> after.add_static("q")
    >>> [change.id for change in before.diff(after).changed], [item.title for item in before.diff(after).added]
    (['p'], ['static q'])
    """

    removed: Tuple[PolicySnapshot, ...] = ()
    added: Tuple[PolicySnapshot, ...] = ()
    changed: Tuple[PolicyChange, ...] = ()
    relinked: Tuple[PolicyChange, ...] = ()

    def __str__(self) -> str:
        """Returns the differences for display."""
        blocks = [(item.id, _block("-", item.title, item.text.splitlines())) for item in self.removed]
        blocks += [(item.id, _block("+", item.title, item.text.splitlines())) for item in self.added]
        blocks += [(change.id, _changed_block(change)) for change in self.changed]
        blocks += [(change.id, [f"  {change.before.title}: its template is changed"]) for change in self.relinked]
        return "\n".join([line for _, lines in sorted(blocks) for line in lines])


def _changed_block(change: PolicyChange) -> List[str]:
    """Returns the lines of both texts of an item, each with its sign."""
    before, after = change.before, change.after
    if before.title == after.title:
        titles = [f"  {before.title}"]
    else:
        titles = [f"- {before.title}", f"+ {after.title}"]
    old, new = before.text.splitlines(), after.text.splitlines()
    lines = list(difflib.unified_diff(old, new, lineterm="", n=max(len(old), len(new))))
    # The first three lines name the files and the place.
    return titles + [f"{line[0]}   {line[1:]}" for line in lines[3:]]


def diff_policies(before: Policies, after: Policies) -> PoliciesDiff:
    """Returns what differs between two sets, which no other thread changes meanwhile."""
    old, new = [{*one.bodies(), *one.policies()} for one in (before, after)]
    changed = [id for id in sorted(old & new) if before._content_of(id) != after._content_of(id)]
    same = sorted((old & new) - {*changed})
    relinked = [id for id in same if _is_link(before, id) and before.template_id(id) in {*changed}]
    return PoliciesDiff(
        removed=tuple([_snapshot(before, id) for id in sorted(old - new)]),
        added=tuple([_snapshot(after, id) for id in sorted(new - old)]),
        changed=tuple([PolicyChange(_snapshot(before, id), _snapshot(after, id)) for id in changed]),
        relinked=tuple([PolicyChange(_snapshot(before, id), _snapshot(after, id)) for id in relinked]),
    )


def _is_link(policies: Policies, id: str) -> bool:
    kind = policies.get(id)
    return kind is not None and kind.name == "LINK"


def _snapshot(policies: Policies, id: str) -> PolicySnapshot:
    kind = policies.get(id)
    assert kind is not None
    text = policies.template_text(id) if kind.name == "TEMPLATE" else policies.policy_text(id)
    return PolicySnapshot(id, kind, text)
