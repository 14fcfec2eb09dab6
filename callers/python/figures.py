"""Prints the cost of a tree of 50,000 entities through this package: the best of three runs, in processor time."""
import pickle
import time

from cedar_store import Entity, EntityUid, Policies, Store
from cedar_store.values import CONTEXT, PRINCIPAL, RESOURCE

SIZE, CHILDREN, QUERIES, PAIRS = 50_000, 8, 1_000_000, 100_000


def uid(number):
    return f'A::"n{number}"'


def best_time(call):
    """Returns the best of three times, in seconds, and the last result."""
    best, result = None, None
    for _ in range(3):
        start = time.process_time()
        result = call()
        seconds = time.process_time() - start
        best = seconds if best is None else min(best, seconds)
    return best, result


def print_time(title, seconds, count=1):
    if count == 1:
        print(f"{title:<52} {seconds * 1e3:8.1f} ms")
    else:
        print(f"{title:<52} {seconds / count * 1e6:8.2f} us each")


def measure_attributes(parents_by_uid):
    """Measures attributes: building entities with three each, and reading a record of ten nodes."""
    grades = {f"g{k}": k for k in range(4)} | {"last": True}
    entities = [
        Entity(uid, parents, attrs={"age": 41, "name": uid, "grades": grades})
        for uid, parents in parents_by_uid.items()
    ]
    seconds, store = best_time(lambda: Store(entities))
    print_time("build the store with three attributes per entity", seconds)
    uids = list(parents_by_uid)[:10_000]
    seconds, _ = best_time(lambda: [store.get(uid, "grades") for uid in uids])
    print_time("get a record of five pairs", seconds, len(uids))


def measure_nodes():
    """Measures an entity with three attributes, and a policy whose clause has twelve nodes."""
    grades = {f"g{k}": k for k in range(4)} | {"last": True}
    uids = [EntityUid(uid(number)) for number in range(10_000)]

    def build():
        attrs = {"age": 41, "name": "a name", "grades": grades}
        return Store([Entity(child, [uids[0]], attrs=attrs) for child in uids[1:]])

    print_time("create and build an entity with three attributes", best_time(build)[0], len(uids))
    ids = [f"p{number}" for number in range(2000)]

    def add():
        policies = Policies()
        for id in ids:
            policies.add_static(id, when=PRINCIPAL.is_in(uids[0]) & ~CONTEXT.eq(1) & RESOURCE.is_in(uids[1]))
        return policies

    seconds, policies = best_time(add)
    print_time("create and add a policy of twelve nodes", seconds, len(ids))

    def read():
        for id in ids:
            policies.effect(id), policies.annotations(id), policies.non_scope_constraints(id)
            policies.principal_constraint(id), policies.action_constraint(id), policies.resource_constraint(id)

    print_time("read a whole policy of twelve nodes", best_time(read)[0], len(ids))
    print_time("read its clause", best_time(lambda: list(map(policies.non_scope_constraints, ids)))[0], len(ids))


def main():
    print(f"a tree of {SIZE} entities, {CHILDREN} children each; queries use 100,000 pairs of uids")
    entities = {uid(number): [uid((number - 1) // CHILDREN)] if number else [] for number in range(SIZE)}
    seconds, store = best_time(lambda: Store(entities))
    print_time("build the store", seconds)
    pairs = [(uid(1 + k * 7919 % (SIZE - 1)), uid(k * 104_729 % SIZE)) for k in range(PAIRS)]

    def query_pairs(function, pairs):
        for _ in range(QUERIES // len(pairs)):
            for child, ancestor in pairs:
                function(child, ancestor)

    def query_one_pair(function, pairs):
        child, ancestor = pairs[0]
        for _ in range(QUERIES):
            function(child, ancestor)

    def measure_queries(title, query, function, pairs):
        print_time(title, best_time(lambda: query(function, pairs))[0], QUERIES)

    by_uid, by_number = store.is_descendant_of, store.is_descendant_of_numbers
    measure_queries("is_descendant_of, a million times, 100,000 pairs", query_pairs, by_uid, pairs)
    measure_queries("is_descendant_of, a million times, one pair", query_one_pair, by_uid, pairs)
    seconds, numbers = best_time(lambda: [(store.number(child), store.number(other)) for child, other in pairs])
    print_time("number, for 200,000 uids", seconds, 2 * len(pairs))
    measure_queries("is_descendant_of_numbers, a million, 100,000 pairs", query_pairs, by_number, numbers)
    measure_queries("is_descendant_of_numbers, a million times, one pair", query_one_pair, by_number, numbers)
    seconds, _ = best_time(lambda: [child in store for child, _ in pairs])
    print_time("`uid in store`, 100,000 times", seconds, len(pairs))
    seconds, _ = best_time(lambda: [store.ancestors(child) for child, _ in pairs])
    print_time("ancestors, 100,000 times", seconds, len(pairs))
    print_time("list all uids", best_time(store.uids)[0])
    print_time("copy the store", best_time(store.copy)[0])
    seconds, pickled = best_time(lambda: pickle.dumps(store))
    print_time("pickle the store", seconds)
    print_time("unpickle the store", best_time(lambda: len(pickle.loads(pickled)))[0])
    measure_attributes(entities)
    measure_nodes()
    with store.slice(list(entities)[:1000]) as part:
        print_time(f"text of a store of {len(part)} entities", best_time(lambda: str(part))[0])
    policies = Policies()
    for number in range(20_000):
        policies.add_static(f"p{number}")
    print_time("copy a set of 20,000 static policies", best_time(policies.copy)[0])
    print_time("create and free 1,000 empty stores", best_time(lambda: [Store() for _ in range(1000)])[0], 1000)


if __name__ == "__main__":
    main()
