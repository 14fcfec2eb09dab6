"""Twelve tasks of an authorizer or an administration service. `docs/GUIDE.md` quotes these functions."""
from typing import Callable

from cedar_store import CedarError, Constraint, Cycle, DuplicateEntity, Effect, Entities, Policies, Store


def build() -> Store:
    return Store(
        {
            'User::"alice"': ['Group::"admins"'],
            'Group::"admins"': ['Group::"staff"'],
            'File::"q3"': ['Folder::"reports"'],
            'File::"q4"': ['Folder::"reports"'],
        }
    )


def query(store: Store) -> None:
    print("alice is in the staff group:", store.is_descendant_of('User::"alice"', 'Group::"staff"'))
    print("ancestors of alice:", *store.ancestors('User::"alice"'))
    print("the store contains bob:", 'User::"bob"' in store)


def edit(store: Store) -> None:
    store.add({'User::"bob"': ['Group::"admins"']})
    store.upsert({'Group::"admins"': ['Group::"board"']})
    store.remove(['File::"q3"'])


def try_add(store: Store, entities: Entities) -> Store:
    edited = store.copy()
    try:
        edited.add(entities)
        return edited
    except DuplicateEntity as error:
        print("cannot add: a different entity with this uid exists:", error.uid)
    except Cycle as error:
        print("cannot add: an entity would be its own ancestor:", error.uid)
    return store


def slice_for(store: Store, principal: str, action: str, resource: str) -> Store:
    return store.slice([principal, action, resource])


def add_and_link(policies: Policies) -> None:
    policies.add_template("readers", principal=Constraint.is_eq_slot(), resource=Constraint.is_eq_slot())
    policies.link("readers", "staff read reports", principal='Group::"staff"', resource='Folder::"reports"')


def list_applicable_policies(policies: Policies, principal: str, action: str, resource: str) -> None:
    for id in policies.policies():
        env = policies.env(id)
        if all(slot in (None, uid) for slot, uid in zip(env, (principal, action, resource))):
            print(f"applies: {id} ({policies.effect(id).name.lower()})")


def merge(policies: Policies, other: Policies) -> None:
    for old, new in policies.merge(other, rename=True).items():
        print(f"{old} of the other set is {new} here")


def print_ids(policies: Policies) -> None:
    print("static policies and templates:", policies.bodies())
    print("static policies and links:", policies.policies())


def print_error(call: Callable[..., None], *ids: str, **slots: str) -> None:
    try:
        call(*ids, **slots)
    except CedarError as error:
        print(f"{type(error).__name__}: {error}")


def failing_additions(policies: Policies) -> None:
    print_error(policies.add_static, "readers")
    print_error(policies.link, "policy0", "new")
    print_error(policies.link, "readers", "new")
    print_error(policies.link, "doers", "new", action='User::"alice"')
    print_error(policies.link, "doers", "policy0", action='Action::"read"')


def failing_removals(policies: Policies) -> None:
    print_error(policies.unlink, "nobody")
    print_error(policies.unlink, "policy0")
    print_error(policies.remove_static, "nobody")
    print_error(policies.remove_static, "staff read reports")
    print_error(policies.remove_template, "nobody")
    print_error(policies.remove_template, "readers")
    print_error(policies.remove_template, "policy0")


def print_members(store: Store) -> None:
    for member in store.descendants('Group::"staff"', "User"):
        print(*(store.path(member, 'Group::"staff"') or []), sep=" in ")


def what_would_change(store: Store, policies: Policies) -> None:
    print(store.would_change(remove=['Group::"admins"'], upsert={'User::"alice"': ['Group::"staff"']}))
    print("policies that name the staff:", policies.naming('Group::"staff"'))


def main() -> None:
    with build() as store, Policies() as policies, Policies() as other:
        query(store)
        print_members(store)
        with store.copy() as edited:
            edit(edited)
            print("edited:", len(edited), "entities; ancestors of alice:", *edited.ancestors('User::"alice"'))
        print("with bob:", len(try_add(store, {'User::"bob"': []})), "entities")
        print("unchanged:", len(try_add(store, {'Group::"admins"': []})), "entities")
        print("unchanged:", len(try_add(store, {'Group::"staff"': ['Group::"staff"']})), "entities")
        with slice_for(store, 'User::"alice"', 'Action::"read"', 'File::"q3"') as part:
            print("the slice:", len(part), "of", len(store), "entities")
        add_and_link(policies)
        list_applicable_policies(policies, 'Group::"staff"', 'Action::"read"', 'Folder::"reports"')
        what_would_change(store, policies)
        policies.add_static("policy0")
        other.add_static("policy0", Effect.FORBID)
        other.add_static("policy1")
        merge(policies, other)
        print_ids(policies)
        policies.add_template("doers", action=Constraint.is_eq_slot())
        failing_additions(policies)
        failing_removals(policies)


main()
