//! A live store: four threads ask questions of one store while a fifth edits it. A reader never sees a half-made edit,
//! and an edit that fails changes nothing.
//!
//! ```text
//! cargo run --release --example live_store [-- SECONDS [USERS]]
//! ```
use cedar_store::ast::{Entity, EntityUID};
use cedar_store::entities::{Entities, EntitiesError, TCComputation};
use std::sync::atomic::{AtomicBool, Ordering};
use std::sync::{Arc, RwLock};
use std::time::{Duration, Instant};
use std::{env, thread};

const READERS: u64 = 4;
/// The number of users of a group.
const MEMBERS: usize = 100;
/// A reader asks this many questions before it lets the writer edit.
const BATCH: usize = 64;

fn user(number: usize) -> EntityUID {
    EntityUID::with_eid_and_type("User", &format!("u{number}")).expect("a valid entity type")
}

fn group(number: usize) -> EntityUID {
    EntityUID::with_eid_and_type("Group", &format!("g{number}")).expect("a valid entity type")
}

fn child(uid: EntityUID, parent: EntityUID) -> Entity {
    let mut entity = Entity::with_uid(uid);
    entity.add_parent(parent);
    entity
}

/// Returns a pseudorandom number below a limit.
fn below(state: &mut u64, limit: usize) -> usize {
    *state ^= *state << 13;
    *state ^= *state >> 7;
    *state ^= *state << 17;
    (*state % limit as u64) as usize
}

/// Builds a tree of groups, each with users. Users come in pairs: both have the same group.
fn build(users: usize) -> Result<Entities, EntitiesError> {
    let groups = users / MEMBERS;
    let tree = (1..groups).map(|number| child(group(number), group((number - 1) / 8)));
    let members = (0..users).map(|number| child(user(number), group(number / 2 % groups)));
    let top = Entity::with_uid(group(0));
    Entities::from_entities(tree.chain(members).chain([top]), TCComputation::ComputeNow)
}

/// Asks whether pairs of users are in the top group, until the program ends. Returns the number of questions.
fn ask(store: &RwLock<Entities>, users: usize, is_over: &AtomicBool, mut state: u64) -> usize {
    let (mut questions, top) = (0, group(0));
    while !is_over.load(Ordering::Relaxed) {
        let pairs: Vec<_> = (0..BATCH)
            .map(|_| below(&mut state, users / 2))
            .map(|pair| [2 * pair, 2 * pair + 1])
            .collect();
        let store = store.read().expect("no thread panics");
        for [one, other] in pairs.into_iter().map(|pair| pair.map(user)) {
            let (one, other) = (store.stored(&one), store.stored(&other));
            let (one, other) = one.zip(other).expect("no user is removed");
            assert!(
                one.is_descendant_of(&top) && other.is_descendant_of(&top),
                "every user is in the top group"
            );
            assert!(
                one.ancestors().eq(other.ancestors()),
                "an edit moves both users of a pair"
            );
            questions += 2;
        }
    }
    questions
}

/// Moves pairs of users between groups, until the program ends. Each sixteenth edit would create a cycle and fails.
/// Returns the numbers of edits and of failed edits.
fn edit(store: &RwLock<Entities>, users: usize, is_over: &AtomicBool) -> (usize, usize) {
    let (mut edits, mut failed, mut state) = (0, 0, 1);
    while !is_over.load(Ordering::Relaxed) {
        let list = if edits % 16 == 15 {
            vec![Arc::new(child(group(0), group(1)))]
        } else {
            let (pair, to) = (below(&mut state, users / 2), below(&mut state, users / MEMBERS));
            [2 * pair, 2 * pair + 1]
                .map(|number| Arc::new(child(user(number), group(to))))
                .to_vec()
        };
        let mut store = store.write().expect("no thread panics");
        failed += usize::from(store.try_upsert_entities(list, TCComputation::ComputeNow).is_err());
        edits += 1;
    }
    (edits, failed)
}

fn main() -> Result<(), Box<dyn std::error::Error>> {
    let number = |place, default| env::args().nth(place).map_or(Ok(default), |text| text.parse());
    let (seconds, users) = (number(1, 10)?, number(2, 100_000)?.max(4 * MEMBERS) / 2 * 2);
    let (store, is_over) = (RwLock::new(build(users)?), AtomicBool::new(false));
    let start = Instant::now();
    let (questions, (edits, failed)) = thread::scope(|scope| {
        let (store, is_over) = (&store, &is_over);
        let readers: Vec<_> = (1..=READERS)
            .map(|seed| scope.spawn(move || ask(store, users, is_over, seed)))
            .collect();
        let writer = scope.spawn(move || edit(store, users, is_over));
        thread::sleep(Duration::from_secs(seconds as u64));
        is_over.store(true, Ordering::Relaxed);
        let questions: usize = readers
            .into_iter()
            .map(|reader| reader.join().expect("no thread panics"))
            .sum();
        (questions, writer.join().expect("no thread panics"))
    });
    let rate = |count: usize| count as f64 / start.elapsed().as_secs_f64();
    assert_eq!(failed, edits / 16, "exactly the edits that create a cycle fail");
    println!("{users} users, {READERS} readers and one writer for {seconds} seconds");
    println!(
        "{:.0} questions and {:.0} edits a second, of which {:.0} failed",
        rate(questions),
        rate(edits),
        rate(failed)
    );
    Ok(())
}
