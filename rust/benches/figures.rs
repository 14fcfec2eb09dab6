//! Measures the time of calls: `cargo bench`. Each figure is the shortest of several runs, on one thread unless the
//! label says otherwise. An indented figure is of another way to the same result.
//!
//! ```text
//! cargo bench [-- [--size COUNT] [TEXT..]]
//! ```
//!
//! Only figures whose label contains one of the texts are measured. `--size` is the number of entities of the store, by
//! default 100,000.
use cedar_store::ast::{
    ActionConstraint, Annotations, Effect, Entity, EntityReference, EntityUID, Policy, PolicyID, PolicySet,
    PrincipalConstraint, PrincipalOrResourceConstraint, ResourceConstraint, SlotEnv, SlotId, Template,
};
use cedar_store::entities::{Dereference, Entities, TCComputation};
use cedar_store::slice;
use std::hint::black_box;
use std::sync::Arc;
use std::thread;
use std::time::{Duration, Instant};

const FAN: usize = 8;

/// The arguments of the program.
struct Arguments {
    size: usize,
    texts: Vec<String>,
}

impl Arguments {
    fn read() -> Arguments {
        let (mut size, mut texts) = (100_000, Vec::new());
        let mut rest = std::env::args().skip(1);
        while let Some(argument) = rest.next() {
            match argument.as_str() {
                "--bench" => {}
                "--size" => {
                    let number = rest.next().and_then(|text| text.replace(['_', ','], "").parse().ok());
                    size = number
                        .filter(|size| *size >= 100)
                        .expect("--size takes a number of at least 100");
                }
                _ => texts.push(argument),
            }
        }
        Arguments { size, texts }
    }

    /// Returns whether the figure with this label is measured.
    fn has(&self, label: &str) -> bool {
        self.texts.is_empty() || self.texts.iter().any(|text| label.contains(text))
    }

    /// Prints the shortest time of several runs, in total and for each of `count` items. Each run gets a new input.
    fn measure<T, R>(&self, label: &str, count: usize, mut make: impl FnMut() -> T, mut run: impl FnMut(T) -> R) {
        if !self.has(label) {
            return;
        }
        let once = || {
            let input = make();
            let start = Instant::now();
            let output = black_box(run(input));
            let time = start.elapsed();
            drop(output);
            time
        };
        let best = std::iter::repeat_with(once).take(7).min().unwrap_or(Duration::ZERO);
        let each = best.as_nanos() / count as u128;
        println!("{label:<58} {:>10.3} ms {each:>9} ns each", best.as_secs_f64() * 1e3);
    }
}

fn node(number: usize) -> EntityUID {
    EntityUID::with_eid_and_type("Node", &format!("n{number}")).expect("a valid entity type")
}

fn entity(number: usize, parent: Option<usize>) -> Entity {
    let mut entity = Entity::with_uid(node(number));
    if let Some(parent) = parent {
        entity.add_parent(node(parent));
    }
    entity
}

fn tree(size: usize) -> Vec<Entity> {
    (0..size)
        .map(|number| entity(number, number.checked_sub(1).map(|previous| previous / FAN)))
        .collect()
}

fn build_tree(size: usize) -> Entities {
    Entities::from_entities(tree(size), TCComputation::ComputeNow).expect("no cycle")
}

fn stores(arguments: &Arguments) {
    let size = arguments.size;
    arguments.measure(
        "building a tree",
        size,
        || tree(size),
        |list| Entities::from_entities(list, TCComputation::ComputeNow).expect("no cycle"),
    );
    arguments.measure(
        "building a chain of 1,000",
        1_000,
        || (0..1_000).map(|it| entity(it, Some(it + 1))).collect(),
        |list: Vec<_>| Entities::from_entities(list, TCComputation::ComputeNow).expect("no cycle"),
    );
    let store = build_tree(size);
    let (leaves, top) = ((size - size / 10..size).map(node).collect::<Vec<_>>(), node(0));
    arguments.measure(
        "queries for a descendant",
        leaves.len(),
        || (),
        |()| {
            leaves
                .iter()
                .filter(|uid| matches!(store.entity(uid), Dereference::Data(it) if it.is_descendant_of(&top)))
                .count()
        },
    );
    arguments.measure(
        "1,000 slices at one uid",
        1_000,
        || (),
        |()| {
            leaves
                .iter()
                .take(1_000)
                .map(|uid| slice(&store, std::slice::from_ref(uid)).len())
                .sum::<usize>()
        },
    );
    arguments.measure("clone of the tree", 1, || (), |()| store.clone());
    arguments.measure(
        "  a new store of its entities, which shares no map",
        size,
        || (),
        |()| {
            let list = store.iter().cloned();
            Entities::from_entities(list, TCComputation::AssumeAlreadyComputed).expect("each uid is there once")
        },
    );
    let small = build_tree(10_000);
    arguments.measure(
        "overwriting one entity of 10,000, 1,000 times",
        1_000,
        || small.clone(),
        |store| {
            (0..1_000).fold(store, |store, it| {
                let one = [Arc::new(entity(9_999 - it, Some(it / FAN)))];
                store.upsert_entities(one, TCComputation::ComputeNow).expect("no cycle")
            })
        },
    );
}

/// Returns a template whose principal is a slot.
fn slotted_template() -> Template {
    Template::new(
        PolicyID::from_string("t"),
        None,
        Annotations::new(),
        Effect::Permit,
        PrincipalConstraint::is_eq_slot(),
        ActionConstraint::any(),
        ResourceConstraint::any(),
        None,
    )
}

/// Returns a set with this number of links of a template.
fn set_of_links(template: &Template, count: usize) -> PolicySet {
    let mut set = PolicySet::new();
    set.add_template(template.clone()).expect("the id is not bound");
    for number in 0..count {
        let bound = SlotEnv::from([(SlotId::principal(), node(number))]);
        let id = PolicyID::from_string(format!("link{number}"));
        set.link(PolicyID::from_string("t"), id, bound)
            .expect("the id is not bound");
    }
    set
}

fn differences(arguments: &Arguments) {
    let template = slotted_template();
    let set = set_of_links(&template, 20_000);
    let id = PolicyID::from_string("link777");
    let mut edited = set.clone();
    edited.unlink(&id).expect("it is a link");
    arguments.measure(
        "difference of 20,000 links after one edit",
        20_000,
        || (),
        |()| {
            let difference = set.diff(&edited);
            assert_eq!(difference.removed().len(), 1);
            difference
        },
    );
    let mut other = set_of_links(&template, 20_000);
    other.unlink(&id).expect("it is a link");
    arguments.measure("  from a set that shares nothing", 20_000, || (), |()| set.diff(&other));
}

fn sets(arguments: &Arguments) {
    let template = slotted_template();
    let id = |number: usize| PolicyID::from_string(format!("link{number}"));
    let linked_set = || set_of_links(&template, 10_000);
    arguments.measure("10,000 links", 10_000, || (), |()| linked_set());
    let set = linked_set();
    arguments.measure(
        "clone of 10,000 links, and unlink of one",
        1,
        || (),
        |()| {
            let mut copy = set.clone();
            copy.unlink(&id(777)).expect("it is a link");
            copy
        },
    );
    arguments.measure(
        "  a new set of the links, and unlink of one",
        10_000,
        || (),
        |()| {
            let mut copy = PolicySet::new();
            copy.add_template(template.clone()).expect("the id is not bound");
            for link in &set {
                let (id, bound) = (link.id().clone(), link.env().clone());
                copy.link(PolicyID::from_string("t"), id, bound)
                    .expect("the id is not bound");
            }
            copy.unlink(&id(777)).expect("it is a link");
            copy
        },
    );
    arguments.measure(
        "merging an equal set of 10,000 links",
        10_000,
        || set.clone(),
        |mut one| {
            assert!(one.merge_policyset(&set, false).is_ok());
            one
        },
    );
    arguments.measure(
        "10,000 lookups of a policy",
        10_000,
        || (0..10_000).map(id).collect(),
        |ids: Vec<_>| ids.iter().filter(|id| set.get(id).is_some()).count(),
    );
}

/// Prints the number of queries per second of one store by several threads.
fn throughput(arguments: &Arguments) {
    let label = |threads| format!("queries of one store by {threads} threads");
    let measured: Vec<usize> = [1, 2, 4, 8]
        .into_iter()
        .filter(|threads| arguments.has(&label(*threads)))
        .collect();
    if measured.is_empty() {
        return;
    }
    let size = arguments.size;
    let (store, top) = (build_tree(size), node(0));
    let leaves: Vec<EntityUID> = (size - size / 5..size).map(node).collect();
    for threads in measured {
        let start = Instant::now();
        thread::scope(|scope| {
            for _ in 0..threads {
                scope.spawn(|| {
                    for _ in 0..10 {
                        let is_descendant = |uid: &&EntityUID| {
                            matches!(store.entity(uid), Dereference::Data(it) if it.is_descendant_of(&top))
                        };
                        assert_eq!(leaves.iter().filter(is_descendant).count(), leaves.len());
                    }
                });
            }
        });
        let rate = (threads * 10 * leaves.len()) as f64 / start.elapsed().as_secs_f64();
        println!("{:<58} {:>10.2} million per second", label(threads), rate / 1e6);
    }
}

/// Measures edits of one entity: in place, by value, and of a copy, which is the other way to keep a store after an
/// error.
fn edits(arguments: &Arguments) {
    let (size, count) = (arguments.size, 1_000);
    // the store has listed children, as a store has after a few edits
    let store = || {
        let first = |store: Entities, it| store.add_entities(one(size + it, it), TCComputation::ComputeNow);
        (0..20).fold(build_tree(size), |store, it| first(store, it).expect("no cycle"))
    };
    fn one(number: usize, parent: usize) -> [Arc<Entity>; 1] {
        [Arc::new(entity(number, Some(parent)))]
    }
    let list = |it: usize| one(2 * size + it, it % size);
    let now = TCComputation::ComputeNow;
    arguments.measure(
        "try_add_entities of one entity, 1,000 times",
        count,
        store,
        |mut store| {
            (0..count).for_each(|it| store.try_add_entities(list(it), now).expect("no cycle"));
            store
        },
    );
    arguments.measure("  add_entities of one entity, 1,000 times", count, store, |store| {
        (0..count).fold(store, |store, it| store.add_entities(list(it), now).expect("no cycle"))
    });
    arguments.measure("  clone and add_entities of one entity, 10 times", 10, store, |store| {
        (0..10).fold(store, |store, it| {
            store.clone().add_entities(list(it), now).expect("no cycle")
        })
    });
    arguments.measure(
        "try_upsert_entities of one entity, 1,000 times",
        count,
        store,
        |mut store| {
            (0..count).for_each(|it| {
                store
                    .try_upsert_entities(one(size - 1 - it, it), now)
                    .expect("no cycle")
            });
            store
        },
    );
    arguments.measure("  upsert_entities of one entity, 1,000 times", count, store, |store| {
        let edit = |store: Entities, it| store.upsert_entities(one(size - 1 - it, it), now);
        (0..count).fold(store, |store, it| edit(store, it).expect("no cycle"))
    });
    arguments.measure(
        "try_remove_entities of one entity, 1,000 times",
        count,
        store,
        |mut store| {
            (0..count).for_each(|it| store.try_remove_entities([node(size - 1 - it)], now).expect("no cycle"));
            store
        },
    );
    arguments.measure("  remove_entities of one entity, 1,000 times", count, store, |store| {
        let edit = |store: Entities, it| store.remove_entities([node(size - 1 - it)], now);
        (0..count).fold(store, |store, it| edit(store, it).expect("no cycle"))
    });
}

/// Returns whether a policy applies to a principal, by the allocated constraint.
fn applies_by_constraint(store: &Entities, policy: &Policy, principal: &EntityUID) -> bool {
    match policy.principal_constraint().as_inner() {
        PrincipalOrResourceConstraint::In(EntityReference::EUID(other)) => {
            principal == &**other
                || matches!(store.entity(principal), Dereference::Data(it) if it.is_descendant_of(other))
        }
        other => panic!("the constraint is {other:?}"),
    }
}

/// Measures the decision whether links apply to a request: with borrowed and with allocated constraints.
fn scopes(arguments: &Arguments) {
    let (store, principal, other) = (build_tree(1_000), node(999), node(1));
    let (by_principal, any) = (PrincipalConstraint::is_in_slot(), ResourceConstraint::any());
    let (annotations, action) = (Annotations::new(), ActionConstraint::any());
    let id = PolicyID::from;
    let template = Template::new(
        id("t"),
        None,
        annotations,
        Effect::Permit,
        by_principal,
        action,
        any,
        None,
    );
    let mut set = PolicySet::new();
    set.add_template(template).expect("the id is not bound");
    for number in 0..1_000 {
        let bound = SlotEnv::from([(SlotId::principal(), node(number))]);
        set.link(id("t"), format!("link{number}").into(), bound)
            .expect("the id is not bound");
    }
    arguments.measure(
        "applies_to_scope of 1,000 links",
        1_000,
        || (),
        |()| {
            set.iter()
                .filter(|policy| policy.applies_to_scope(&principal, &other, &other, &store))
                .count()
        },
    );
    arguments.measure(
        "  principal_constraint of 1,000 links",
        1_000,
        || (),
        |()| {
            set.iter()
                .filter(|policy| applies_by_constraint(&store, policy, &principal))
                .count()
        },
    );
}

fn main() {
    let arguments = Arguments::read();
    stores(&arguments);
    edits(&arguments);
    sets(&arguments);
    differences(&arguments);
    scopes(&arguments);
    throughput(&arguments);
}
