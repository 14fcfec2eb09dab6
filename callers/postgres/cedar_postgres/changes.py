"""A draft: the edits of one change, made on copies in memory before anything is written.

A policy is checked by the whole set. Entities of a computed store are checked on the slice at the entities and their
parents, which has every cycle that the edit could close. In another mode, they are checked on the whole store.
"""
from __future__ import annotations

from typing import Any, Awaitable, Callable, Iterable, Optional

from cedar_store import Entity, Mode, Policies, Store, is_uid

from .encoding import LongTexts, encode_entity, encode_policy, insertion_order

# Longer lists of affected uids or ids are not written. A cache then reads the whole tenant again.
_MAX_LISTED = 20_000

_Edit = Callable[[Store], None]


class Draft:
    """The edits of one change. A method that raises an exception leaves the draft unchanged.

    The methods have the arguments and the exceptions of the methods of `cedar_store.Store` and `cedar_store.Policies`.
    """

    def __init__(
        self,
        version: int,
        mode: Mode,
        policies: Policies,
        copy: Callable[[], Policies],
        slice: Callable[[Optional[list[str]]], Awaitable[Store]],
    ) -> None:
        """`copy` returns a copy of the policies that the draft may edit.

        `slice` returns a store of the base for some uids, or of all for None.
        """
        self.version = version
        self._mode, self._base_policies, self._copy, self._slice = mode, policies, copy, slice
        self._policies: Optional[Policies] = None
        self._removed_ids: dict[str, None] = {}
        self._added_ids: dict[str, None] = {}
        self._store: Optional[Store] = None
        self._base_store: Optional[Store] = None
        self._covered: set[str] = set()
        self._edits: list[_Edit] = []
        self._removed: dict[str, None] = {}
        self._written: dict[str, Entity] = {}

    @property
    def policies(self) -> Policies:
        """Returns the policy set with the edits of this draft. Do not change it: the draft would not record that."""
        if self._policies is None:
            self._policies = self._copy()
        return self._policies

    def add_static(self, id: str, *arguments: Any, **options: Any) -> None:
        """Adds a static policy."""
        self.policies.add_static(id, *arguments, **options)
        self._added_ids[id] = None

    def add_template(self, id: str, *arguments: Any, **options: Any) -> None:
        """Adds a template."""
        self.policies.add_template(id, *arguments, **options)
        self._added_ids[id] = None

    def link(self, template: str, id: str, **slots: Optional[str]) -> None:
        """Links a template under the new id."""
        self.policies.link(template, id, **slots)
        self._added_ids[id] = None

    def unlink(self, id: str) -> None:
        """Removes a link."""
        self.policies.unlink(id)
        self._record_removed_id(id)

    def remove_static(self, id: str) -> None:
        """Removes a static policy."""
        self.policies.remove_static(id)
        self._record_removed_id(id)

    def remove_template(self, id: str) -> None:
        """Removes a template."""
        self.policies.remove_template(id)
        self._record_removed_id(id)

    def merge(self, other: Policies, rename: bool = False) -> dict[str, str]:
        """Adds the policies, templates and links of another set. Returns the renamed ids, each with its new id."""
        before = {*self.policies.bodies(), *self.policies.policies()}
        new_ids = self.policies.merge(other, rename)
        self._added_ids.update({id: None for id in insertion_order(self.policies) if id not in before})
        return new_ids

    def _record_removed_id(self, id: str) -> None:
        self._added_ids.pop(id, None)
        if self._base_policies.get(id) is not None:
            self._removed_ids[id] = None

    async def slice(self, uids: Iterable[str]) -> Store:
        """Returns the entities with these uids and all their ancestors, with the edits of this draft.

        Raises:
            CedarError: `not a uid`.
        """
        requested = list(uids)
        return (await self._store_for(requested)).slice(requested)

    async def upsert(self, entities: Iterable[Entity]) -> None:
        """Inserts entities, and replaces the stored entities with the same uids.

        In a computed tenant the indirect ancestors follow from the parents.

        Raises:
            CedarError: see `Store.upsert`.
            ValueError: the tenant is computed, and an indirect ancestor does not follow from the parents.
        """
        items = list(entities)
        await self._edit(
            [uid for item in items for uid in (item.uid, *item.parents)],
            lambda store: store.upsert(self._inserted(items), self._mode),
            items,
        )
        self._written.update((str(item.uid), item) for item in items)

    async def add(self, entities: Iterable[Entity]) -> None:
        """Adds entities. An entity with a stored uid must equal the stored entity, and changes nothing.

        Raises:
            CedarError: see `Store.add`.
            ValueError: the tenant is computed, and an indirect ancestor does not follow from the parents.
        """
        items = list(entities)
        existing = await self._edit(
            [uid for item in items for uid in (item.uid, *item.parents)],
            lambda store: store.add(items, self._mode),
            items,
        )
        for item in items:
            if item.uid not in existing:
                self._written.setdefault(str(item.uid), item)

    async def remove(self, uids: Iterable[str]) -> None:
        """Removes entities, also from the parents of other entities. Uids that are not in the store have no effect.

        Raises:
            CedarError: see `Store.remove`.
        """
        removed = list(uids)
        existing = await self._edit(removed, lambda store: store.remove(removed, self._mode))
        for uid in existing:
            self._written.pop(uid, None)
            # Also if this draft has added it: other entities of the tables may have it as a parent.
            self._removed[uid] = None

    def _inserted(self, items: list[Entity]) -> list[Entity]:
        """Returns entities to insert. In a computed tenant they have no indirect ancestors of their own."""
        if self._mode is not Mode.COMPUTE:
            return items
        return [
            Entity(item.uid, item.parents, attrs=item.attrs, tags=item.tags) if item.indirect_ancestors else item
            for item in items
        ]

    async def _edit(self, uids: list[str], edit: _Edit, items: Iterable[Entity] = ()) -> set[str]:
        """Applies an edit to the draft's store. Returns which of the uids existed before it."""
        store = await self._store_for(uids)
        existing = {str(uid) for uid in uids if is_uid(uid) and uid in store}
        edited = store.copy()
        edit(edited)
        if self._mode is Mode.COMPUTE:
            for item in items:
                if not item.indirect_ancestors <= set(edited.ancestors(item.uid)):
                    raise ValueError(f"an indirect ancestor of {item.uid} does not follow from its parents")
        self._edits.append(edit)
        self._store = edited
        return existing

    async def _store_for(self, uids: list[str]) -> Store:
        """Returns the draft's store, extended to cover the uids."""
        if self._store is not None and (self._mode is not Mode.COMPUTE or self._covered.issuperset(uids)):
            return self._store
        covered = self._covered.union(uid for uid in uids if is_uid(uid))
        base = await self._slice(sorted(covered) if self._mode is Mode.COMPUTE else None)
        store = base.copy()
        for edit in self._edits:
            edit(store)
        self._covered, self._base_store, self._store = covered, base, store
        return store

    def payload(self) -> Optional[dict[str, Any]]:
        """Returns the argument of `cedar.apply`, or None if the draft has no effect."""
        texts = LongTexts()
        entities, repaired = self._entity_rows(texts)
        removed = list(map(texts.key, self._removed))
        policies = [encode_policy(self.policies, id, texts) for id in self._added_ids]
        removed_ids = list(map(texts.key, self._removed_ids))
        if not (entities or repaired or removed or policies or removed_ids):
            return None
        uids = dict.fromkeys([*(row["uid"] for row in entities), *removed])
        ids = dict.fromkeys([*(row["id"] for row in policies), *removed_ids])
        # The affected entities of another mode are not listed, so a cache reads the tenant again.
        is_listed = self._mode is Mode.COMPUTE or not (uids or repaired)
        return {
            "entities": entities,
            "repaired": repaired,
            "removed": removed,
            "policies": policies,
            "removed_ids": removed_ids,
            "texts": texts.texts,
            "touched": {
                "removed": removed if is_listed and len(uids) <= _MAX_LISTED else None,
                "uids": list(uids) if is_listed and len(uids) <= _MAX_LISTED else None,
                "ids": list(ids) if len(ids) <= _MAX_LISTED else None,
            },
        }

    def _entity_rows(self, texts: LongTexts) -> tuple[list[Any], list[Any]]:
        """Returns the rows of written entities, and of entities whose ancestors changed."""
        store, base = self._store, self._base_store
        if store is None or base is None:
            return [], []
        entities = [encode_entity(_with_ancestors(item, store, self._mode), texts) for item in self._written.values()]
        if self._mode is Mode.COMPUTE:
            return entities, []
        repaired = []
        for uid in store.uids():
            if uid not in self._written:
                ancestors = store.parents(uid), store.indirect_ancestors(uid)
                if ancestors != (base.parents(uid), base.indirect_ancestors(uid)):
                    repaired.append(
                        {
                            "uid": texts.key(uid),
                            "parents": list(map(texts.key, ancestors[0])),
                            "indirect": list(map(texts.key, ancestors[1])),
                        }
                    )
        return entities, repaired


def _with_ancestors(item: Entity, store: Store, mode: Mode) -> Entity:
    """Returns an entity with the parents, and in another mode than `COMPUTE` the ancestors, that it has in a store."""
    indirect = () if mode is Mode.COMPUTE else store.indirect_ancestors(item.uid)
    return Entity(item.uid, store.parents(item.uid), attrs=item.attrs, tags=item.tags, indirect_ancestors=indirect)
