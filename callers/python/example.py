"""Who may enter: a store of twenty lines."""
from cedar_store import Constraint, DuplicateEntity, Policies, Store

with Store({'User::"alice"': ['Group::"staff"'], 'Group::"staff"': ['Group::"all"']}) as store:
    print(store.is_descendant_of('User::"alice"', 'Group::"all"'))
    store.upsert({'Group::"staff"': []})
    print(*store.ancestors('User::"alice"'))
    try:
        store.add({'Group::"staff"': ['User::"alice"']})
    except DuplicateEntity as error:
        print(error.uid, "is already in", repr(store))

with Policies() as policies:
    policies.add_template("enter", principal=Constraint.is_eq_slot())
    policies.link("enter", "alice", principal='User::"alice"')
    print(repr(policies), list(policies))
