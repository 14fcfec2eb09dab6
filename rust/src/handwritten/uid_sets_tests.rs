//! Tests of sets of uids, which are created in several ways and compared with the expected indexes of uids. Also a test
//! of the `Debug` output of `Reached`.
use crate::cedar_components::Reached;
use crate::cedar_ids::EntityUID;
use crate::cedar_uid_sets::{SharedUid, UidSet};
use std::collections::{BTreeSet, HashMap, HashSet};

/// Returns uids with the eids from 1,000 on, in order.
fn numbered(count: usize) -> Vec<EntityUID> {
    let uid = |number: usize| EntityUID::with_eid_and_type("A", &number.to_string()).unwrap();
    (1_000..1_000 + count).map(uid).collect()
}

/// Types and eids that are short, long or have a common prefix. They are in the order of uids: by the last identifier
/// of the type, then by its path, then by the eid.
const FRONTS: [&str; 20] = [
    r#"A::"""#,
    r#"A::"a""#,
    r#"A::"a\0""#,
    r#"A::"a\0\0""#,
    r#"A::"aaaaaaaa""#,
    r#"A::"aaaaaaaa\0""#,
    r#"A::"aaaaaaaab""#,
    r#"A::"aaaaaaaac""#,
    r#"A::"b""#,
    r#"A::"é""#,
    r#"A::A::"""#,
    r#"A::A::"a""#,
    r#"B::A::"""#,
    r#"Abcdefgh::"a""#,
    r#"Abcdefghi::"""#,
    r#"Abcdefgi::"""#,
    r#"B::"a""#,
    r#"B::"aaaaaaaaaaaaaaaab""#,
    r#"C::B::"a""#,
    r#"Zzzzzzzzzzz::"""#,
];

fn fronts() -> Vec<EntityUID> {
    FRONTS
        .map(|text| EntityUID::from_normalized_str(text).unwrap())
        .to_vec()
}

/// Returns uids in groups of four that begin with the same eight bytes.
fn alike(count: usize) -> Vec<EntityUID> {
    let mut uids: Vec<_> = (10_000_000..10_000_000 + count)
        .flat_map(|number| {
            [("A", "a"), ("A", "b"), ("A", ""), ("N::A", "a")].map(|(ty, end)| format!("{ty}::\"{number}{end}\""))
        })
        .map(|text| EntityUID::from_normalized_str(&text).unwrap())
        .collect();
    uids.sort();
    uids
}

fn shared(uids: &[EntityUID], places: impl IntoIterator<Item = usize>) -> Vec<SharedUid> {
    places
        .into_iter()
        .map(|place| SharedUid::new(uids[place].clone()))
        .collect()
}

/// Returns `end` indexes: from `start` in steps of `step`, modulo `end`.
fn turned(start: usize, end: usize, step: usize) -> impl Iterator<Item = usize> {
    (0..end).map(move |n| (start + n * step) % end)
}

fn filled(uids: &[EntityUID], places: impl IntoIterator<Item = usize>) -> UidSet {
    let mut set = UidSet::new();
    for one in shared(uids, places) {
        set.insert(one);
    }
    set
}

/// Asserts that the set contains exactly the uids with these indexes, in order. Asserts the same for a set of its
/// pointers, and that the set is empty after each uid is removed.
fn has(set: UidSet, uids: &[EntityUID], places: impl IntoIterator<Item = usize>) {
    let due: BTreeSet<usize> = places.into_iter().collect();
    assert!(set.iter().eq(due.iter().map(|place| &uids[*place])));
    assert_eq!((set.len(), set.is_empty()), (due.len(), due.is_empty()));
    for (place, one) in shared(uids, 0..uids.len()).iter().enumerate() {
        assert_eq!(
            (set.contains(one.uid()), set.contains_shared(one)),
            (due.contains(&place), due.contains(&place))
        );
    }
    let mut copy = set.clone();
    assert_eq!(copy, set);
    copy.clear();
    assert!(copy.is_empty());
    let mut back = UidSet::from_ascending(set.into_pointers());
    for (place, one) in shared(uids, 0..uids.len()).iter().enumerate() {
        if place % 2 == 0 {
            back.remove_shared(one);
        } else {
            back.remove(one.uid());
        }
        assert_eq!(back.len(), due.range(place + 1..).count());
    }
}

#[test]
fn sets_are_filled_gathered_and_hashed_in_any_order() {
    let uids = numbered(1_002);
    for (start, end, step) in [
        (0, 1, 1),
        (1, 2, 1),
        (3, 8, 5),
        (3, 9, 5),
        (3, 15, 7),
        (3, 16, 7),
        (3, 17, 7),
        (0, 1_000, 1),
        (999, 1_000, 999),
        (3, 1_000, 387),
    ] {
        let twice = || turned(start, end, step).chain(turned(start, end, step));
        has(filled(&uids, twice()), &uids, 0..end);
        has(
            UidSet::from_pointers(shared(&uids, turned(start, end, step))),
            &uids,
            0..end,
        );
        has(UidSet::from_pointers(shared(&uids, twice())), &uids, 0..end);
        let hashed: HashSet<EntityUID> = turned(start, end, step).map(|place| uids[place].clone()).collect();
        has(UidSet::from_set(hashed), &uids, 0..end);
    }
    has(UidSet::from_pointers(vec![]), &uids, []);
    let uids = fronts();
    for places in [
        vec![0],
        (0..9).rev().collect(),
        (0..17).rev().collect(),
        (0..20).rev().step_by(2).collect(),
    ] {
        has(filled(&uids, places.clone()), &uids, places);
    }
}

#[test]
fn sets_remove_and_merge_uids() {
    let uids = numbered(2_000);
    let mut set = filled(&uids, 0..1_000);
    for one in shared(
        &uids,
        (1_000..1_500).chain(turned(7, 1_000, 387).filter(|place| place % 3 != 0)),
    ) {
        set.remove_shared(&one);
    }
    has(set, &uids, (0..1_000).step_by(3));
    type Places = Vec<usize>;
    let steps = |end: usize, step: usize| -> Places { (0..end).step_by(step).collect() };
    let cases: [(Places, Places); 8] = [
        ((0..1_000).collect(), (500..503).collect()),
        ((0..1_000).collect(), steps(1_000, 7)),
        ((0..1_002).collect(), (1..1_001).collect()),
        (steps(1_000, 300), steps(1_000, 2)),
        (steps(1_000, 3), steps(1_000, 2)),
        (steps(1_000, 100), (450..452).collect()),
        ((5..10).collect(), (0..5).collect()),
        ((4..5).collect(), vec![]),
    ];
    for (first, second) in &cases {
        for (one, other) in [(first, second), (second, first)] {
            let mut set = filled(&uids, one.clone());
            set.difference(&filled(&uids, other.clone()));
            has(set, &uids, one.iter().copied().filter(|place| !other.contains(place)));
            let mut set = filled(&uids, one.clone());
            set.extend_ascending(shared(&uids, other.clone()));
            has(set, &uids, one.iter().chain(other).copied());
        }
    }
    let (mut set, mut copy) = (filled(&uids, 0..10), filled(&uids, 0..10));
    copy.insert(shared(&uids, [20]).remove(0));
    copy.remove(&uids[3]);
    assert_ne!(set, copy);
    set.remove(&uids[3]);
    set.insert(shared(&uids, [20]).remove(0));
    assert_eq!(set, copy);
}

/// The union of two sets is in order, and a lookup in either set finds exactly their uids.
#[test]
fn two_sets_are_walked_and_looked_through() {
    let joined = |uids: &[EntityUID], first: &[usize], second: &[usize]| {
        let (one, other) = (filled(uids, first.to_vec()), filled(uids, second.to_vec()));
        let due: BTreeSet<usize> = first.iter().chain(second).copied().collect();
        assert!(one.union(&other).eq(due.iter().map(|place| &uids[*place])));
        for (place, shared) in shared(uids, 0..uids.len()).iter().enumerate() {
            for (one, other) in [(&one, &other), (&other, &one)] {
                assert_eq!(UidSet::either_contains(one, other, shared), due.contains(&place));
            }
        }
    };
    let steps = |start: usize, end: usize, step: usize| (start..end).step_by(step).collect::<Vec<_>>();
    for (first, second) in [
        (steps(0, 300, 2), steps(0, 300, 3)),
        (steps(0, 5, 1), steps(5, 10, 1)),
        (steps(0, 300, 100), steps(150, 152, 1)),
        (steps(0, 5, 1), vec![]),
        (steps(4, 5, 1), steps(4, 5, 1)),
    ] {
        joined(&numbered(300), &first, &second);
        joined(&numbered(300), &second, &first);
    }
    let uids = alike(21);
    for first in [0, 4, 32, 36, 60, 64, 68, 80] {
        for second in [0, 4, 32, 36, 64, 68, 80] {
            joined(&uids, &steps(0, first, 4), &steps(0, second, 5));
        }
    }
}

#[test]
fn uids_are_sorted_shared_or_not() {
    for uids in [fronts(), numbered(3), alike(5)] {
        let (one, other) = (shared(&uids, 0..uids.len()), shared(&uids, 0..uids.len()));
        let mut map = HashMap::new();
        for (n, a) in one.iter().enumerate() {
            for (m, b) in other.iter().enumerate() {
                assert_eq!((a.cmp(b), a.uid().cmp(b.uid()), a == b), (n.cmp(&m), n.cmp(&m), n == m));
            }
            assert_eq!(a.clone().into_uid(), uids[n]);
            assert_eq!(&SharedUid::copy_of(a.uid()), a);
            assert_eq!(a.to_string(), uids[n].to_string());
            map.insert(a.clone(), n);
        }
        assert!(uids.iter().enumerate().all(|(n, uid)| map.get(uid) == Some(&n)));
    }
}

#[test]
fn reachable_numbers_are_written() {
    let reached = Reached {
        component: vec![2, 2, 1],
        start: vec![0, 0, 0, 3],
        lists: vec![0, 1, 2],
        places: vec![0, 1, 2],
        ordered: true,
    };
    assert_eq!(
        format!("{reached:?}"),
        "Reached { component: [2, 2, 1], start: [0, 0, 0, 3], lists: [0, 1, 2], places: [0, 1, 2], ordered: true }"
    );
}
