//! Measures a tree of 100,000 entities through this crate. Compares it with plain hash maps of Rust, and with the
//! program of the library in one call. Prints the shortest of three runs. Times are in seconds of processor time on
//! Linux, and in seconds of wall-clock time elsewhere. Run it with `cargo run --release --example figures`.
use cedar_store_proved::ast::{Entity, EntityUID, Value};
use cedar_store_proved::entities::{Entities, TCComputation::ComputeNow};
use cedar_store_proved::{is_uid, run, UidNumber};
use std::collections::{HashMap, HashSet};
use std::hint::black_box;
use std::time::Instant;

const SIZE: usize = 100_000;
const CHILDREN: usize = 8;
const QUERIES: usize = 100_000;

fn uid(place: usize) -> String {
    format!("A::\"n{place}\"")
}

fn parent(place: usize) -> Option<usize> {
    (place > 0).then(|| (place - 1) / CHILDREN)
}

// Returns the pairs to query. In every second pair, the second uid is an ancestor of the first.
fn pairs() -> Vec<(String, String)> {
    let pair = |index: usize| {
        let child = 1 + index * 7919 % (SIZE - 1);
        let grandparent = parent(child).and_then(parent).unwrap_or(0);
        let other = if index & 1 == 0 {
            grandparent
        } else {
            index * 104_729 % SIZE
        };
        (uid(child), uid(other))
    };
    (0..QUERIES).map(pair).collect()
}

// Returns the processor time of this thread in seconds, if Linux reports it.
fn on_processor() -> Option<f64> {
    let stat = std::fs::read_to_string("/proc/thread-self/schedstat").ok()?;
    let nanoseconds: f64 = stat.split(' ').next()?.parse().ok()?;
    Some(nanoseconds / 1e9)
}

fn seconds_from(start: Instant) -> f64 {
    on_processor().unwrap_or_else(|| start.elapsed().as_secs_f64())
}

// Returns the shortest time of three runs, and the result of the last one.
fn least<T>(call: impl Fn() -> T) -> (f64, T) {
    let timed = || {
        let start = Instant::now();
        let before = seconds_from(start);
        let result = call();
        (seconds_from(start) - before, result)
    };
    let (first, second, (third, result)) = (timed().0, timed().0, timed());
    (first.min(second).min(third), result)
}

fn print(title: &str, seconds: f64) {
    println!("{title:<58} {seconds:8.4} s");
}

fn read(uid: &str) -> EntityUID {
    EntityUID::from_normalized_str(uid).unwrap()
}

fn through_the_crate(pairs: &[(String, String)]) -> usize {
    let entity = |place| {
        let parents = parent(place).map(|parent| read(&uid(parent)));
        Entity::with_uid(read(&uid(place))).with_parents(parents)
    };
    let entities: Vec<Entity> = (0..SIZE).map(entity).collect();
    let (seconds, store) = least(|| Entities::from_entities(&entities, ComputeNow).unwrap());
    print("from_entities through this crate", seconds);
    let pairs_of_uids: Vec<_> = pairs
        .iter()
        .map(|(child, other)| (read(child), read(other)))
        .collect();
    let run_queries = || {
        let is_descendant = |(child, other): &&(EntityUID, EntityUID)| {
            store.is_descendant_of(child, other).unwrap()
        };
        pairs_of_uids.iter().filter(is_descendant).count()
    };
    let (seconds, count) = least(run_queries);
    print("is_descendant_of through this crate", seconds);
    let numbers: Vec<_> = pairs_of_uids
        .iter()
        .map(|(child, other)| (store.number(child).unwrap(), store.number(other).unwrap()))
        .collect();
    let run_queries = || {
        let is_descendant = |&&(child, other): &&(UidNumber, UidNumber)| {
            store.is_descendant_of_numbers(child, other).unwrap()
        };
        numbers.iter().filter(is_descendant).count()
    };
    let (seconds, same) = least(run_queries);
    assert_eq!(same, count);
    print("is_descendant_of by numbers of both uids", seconds);
    let lookups = || {
        let is_descendant = |(child, other): &&(EntityUID, EntityUID)| {
            store.entity(child).unwrap().is_descendant_of(other)
        };
        pairs_of_uids.iter().filter(is_descendant).count()
    };
    print("is_descendant_of after a lookup", least(lookups).0);
    let are_uids =
        |(child, other): &&(String, String)| is_uid(child).unwrap() && is_uid(other).unwrap();
    print(
        "is_uid of both uids",
        least(|| pairs.iter().filter(are_uids).count()).0,
    );
    let lists = || {
        let count = |(child, _): &(EntityUID, EntityUID)| store.ancestors(child).unwrap().len();
        pairs_of_uids.iter().map(count).sum::<usize>()
    };
    print("ancestors through this crate", least(lists).0);
    with_content(entities, &pairs_of_uids);
    count
}

// Measures the same tree, in which each entity has two attributes.
fn with_content(entities: Vec<Entity>, pairs_of_uids: &[(EntityUID, EntityUID)]) {
    let full = |entity: Entity| {
        let names = ["a", "b"].map(Value::from);
        entity
            .with_attr("level", Value::from(7))
            .with_attr("names", Value::set(names, None))
    };
    let entities: Vec<Entity> = entities.into_iter().map(full).collect();
    let (seconds, store) = least(|| Entities::from_entities(&entities, ComputeNow).unwrap());
    print("from_entities with two attributes each", seconds);
    let reads = || {
        let has_names =
            |(child, _): &&(EntityUID, EntityUID)| store.get(child, "names").unwrap().is_some();
        pairs_of_uids.iter().filter(has_names).count()
    };
    print("one of the attributes", least(reads).0);
    let read_entities = || {
        let read_entity =
            |(child, _): &(EntityUID, EntityUID)| store.entity(child).unwrap().into_entity();
        pairs_of_uids
            .iter()
            .map(|pair| read_entity(pair).attrs_len())
            .sum::<usize>()
    };
    print("whole entities", least(read_entities).0);
}

const USERS: usize = 40_000;
const GROUPS: usize = 500;
const MILLION: usize = 1_000_000;

// A generator of pseudorandom numbers below a bound.
struct Random(u64);

impl Random {
    fn next(&mut self, bound: usize) -> usize {
        self.0 ^= self.0 << 13;
        self.0 ^= self.0 >> 7;
        self.0 ^= self.0 << 17;
        (self.0 % bound as u64) as usize
    }
}

// Measures queries of an authorizer, through this crate and in sets of Rust. Each user is in two of many nested groups.
fn users_in_groups() {
    let mut random = Random(88_172_645_463_325_252);
    let numbered_uid = |kind: &str, place: usize| read(&format!("{kind}::\"{place}\""));
    let groups: Vec<EntityUID> = (0..GROUPS)
        .map(|place| numbered_uid("Group", place))
        .collect();
    let users: Vec<EntityUID> = (0..USERS)
        .map(|place| numbered_uid("User", place))
        .collect();
    let mut entities = vec![Entity::with_uid(groups[0].clone())];
    for place in 1..GROUPS {
        let parent = groups[random.next(place)].clone();
        entities.push(Entity::with_uid(groups[place].clone()).with_parents([parent]));
    }
    for user in &users {
        let parents = [random.next(GROUPS), random.next(GROUPS)].map(|place| groups[place].clone());
        entities.push(Entity::with_uid(user.clone()).with_parents(parents));
    }
    let store = Entities::from_entities(&entities, ComputeNow).unwrap();
    let pairs_of_uids: Vec<(usize, usize)> = (0..MILLION)
        .map(|_| (random.next(USERS), random.next(GROUPS)))
        .collect();
    let run_queries = || {
        let is_descendant = |&&(user, group): &&(usize, usize)| {
            store
                .is_descendant_of(&users[user], &groups[group])
                .unwrap()
        };
        pairs_of_uids.iter().filter(is_descendant).count()
    };
    let (seconds, count) = least(run_queries);
    print(
        "a million is_descendant_of, of 40,000 users in 500 groups",
        seconds,
    );
    let texts: Vec<String> = groups.iter().map(EntityUID::to_string).collect();
    let ancestors: Vec<(String, HashSet<String>)> = users
        .iter()
        .map(|user| {
            let ancestors = store.ancestors(user).unwrap();
            (
                user.to_string(),
                ancestors.iter().map(EntityUID::to_string).collect(),
            )
        })
        .collect();
    let sets: HashMap<&str, &HashSet<String>> = ancestors
        .iter()
        .map(|(user, ancestors)| (user.as_str(), ancestors))
        .collect();
    let run_queries = || {
        let is_descendant = |&&(user, group): &&(usize, usize)| {
            sets[ancestors[user].0.as_str()].contains(&texts[group])
        };
        pairs_of_uids.iter().filter(is_descendant).count()
    };
    let (seconds, same) = least(run_queries);
    assert_eq!(same, count);
    print("the same in hash maps of Rust", seconds);
}

type Ancestors = HashMap<String, HashSet<String>>;

// Returns the ancestors of each entity. A parent comes before its children.
fn closed_tree() -> Ancestors {
    let mut ancestors: Ancestors = HashMap::new();
    for place in 0..SIZE {
        let mut uids = HashSet::new();
        if let Some(parent) = parent(place).map(uid) {
            uids.extend(ancestors[&parent].iter().cloned());
            uids.insert(parent);
        }
        ancestors.insert(uid(place), uids);
    }
    ancestors
}

fn in_hash_maps(pairs: &[(String, String)]) -> usize {
    let (seconds, ancestors) = least(closed_tree);
    print("the same tree in hash maps of Rust, parents first", seconds);
    let run_queries = || {
        pairs
            .iter()
            .filter(|(child, other)| ancestors[child].contains(other))
            .count()
    };
    let (seconds, count) = least(run_queries);
    print("is_descendant_of in hash maps of Rust", seconds);
    let lists = || {
        let sorted = |child| {
            let mut list: Vec<String> = ancestors[child].iter().cloned().collect();
            list.sort();
            list.len()
        };
        pairs.iter().map(|(child, _)| sorted(child)).sum::<usize>()
    };
    print("ancestors in hash maps of Rust, sorted", least(lists).0);
    count
}

// Measures the program. The program is run only once if its output is not longer than its input, so the input has many
// empty lines.
fn by_the_program(pairs: &[(String, String)]) {
    let line = |place| match parent(place) {
        Some(parent) => format!("ent\t{}\t{}\n", uid(place), uid(parent)),
        None => format!("ent\t{}\n", uid(place)),
    };
    let build: String = (0..SIZE).map(line).collect::<String>() + "build\n";
    let query_lines: String = pairs
        .iter()
        .map(|(child, _)| format!("anc\t{child}\n"))
        .collect();
    let empty = "\n".repeat(4_000_000);
    let timed = |input: &str| least(|| black_box(run(input.as_bytes()).unwrap())).0;
    print("the same tree by the program in one call", timed(&build));
    let total = timed(&(build.clone() + &query_lines + &empty));
    print(
        "ancestors by the program in one call",
        total - timed(&(build + &empty)),
    );
}

fn main() {
    println!("a tree of {SIZE}, each with {CHILDREN} children; {QUERIES} queries");
    let pairs = pairs();
    let count = through_the_crate(&pairs);
    assert_eq!(count, in_hash_maps(&pairs));
    by_the_program(&pairs);
    users_in_groups();
}
