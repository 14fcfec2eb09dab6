"""A hierarchy as text for Graphviz, in the form of `Entities::to_dot` of the package in Rust."""
from __future__ import annotations

from typing import Dict, Iterable, List, Set, Tuple

from ._uids import EntityUid

# A uid as its parts, by which uids are sorted, and its text.
_Item = Tuple[Tuple[str, str], EntityUid]


def _quoted(text: str) -> str:
    escaped = text.replace("\\", "\\\\").replace('"', '\\"')
    return f'"{escaped}"'


def _item(uid: EntityUid) -> _Item:
    return uid.parts, uid


def to_dot(parents_by_uid: Iterable[Tuple[EntityUid, Iterable[EntityUid]]]) -> str:
    """Returns the text for entities with their parents."""
    types: Dict[str, List[_Item]] = {}
    edges: List[Tuple[_Item, _Item]] = []
    stored: Set[EntityUid] = set()
    for uid, parents in parents_by_uid:
        item = _item(uid)
        stored.add(uid)
        types.setdefault(item[0][0], []).append(item)
        edges += [(item, _item(parent)) for parent in parents]
    lines = ["digraph store {", "  rankdir=BT;", "  node [shape=box];"]
    for name, items in sorted(types.items()):
        lines += [f"  subgraph {_quoted('cluster ' + name)} {{", f"    label={_quoted(name)};"]
        lines += [f"    {_quoted(uid)} [label={_quoted(EntityUid.escape(id))}];" for (_, id), uid in sorted(items)]
        lines.append("  }")
    absent = {parent for _, parent in edges if parent[1] not in stored}
    lines += [f"  {_quoted(uid)} [style=dotted];" for _, uid in sorted(absent)]
    lines += [f"  {_quoted(child)} -> {_quoted(parent)};" for (_, child), (_, parent) in sorted(edges)]
    return "\n".join([*lines, "}", ""])
