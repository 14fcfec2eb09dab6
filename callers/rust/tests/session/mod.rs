//! Random lines of the program, and a session that runs the same lines through the crate one by one.
use cedar_store_proved::ast::{
    ActionConstraint, Annotations, Effect, Entity, EntityUID, Expr, PolicyID, PolicySet,
    PolicySetError, PrincipalConstraint, ResourceConstraint, SlotEnv, SlotId, StaticPolicy,
    Template, Value, Var,
};
use cedar_store_proved::entities::{Dereference, Entities, StoredEntity, TCComputation};
use cedar_store_proved::{Error, Reason, Slots};
use std::fmt;

/// A generator of pseudorandom numbers. The same seed always gives the same numbers.
pub struct Dice(u64);

impl Dice {
    pub fn new(seed: u64) -> Dice {
        Dice(seed)
    }

    fn next(&mut self) -> u64 {
        self.0 = self.0.wrapping_add(0x9E37_79B9_7F4A_7C15);
        let mixed = (self.0 ^ (self.0 >> 30)).wrapping_mul(0xBF58_476D_1CE4_E5B9);
        let mixed = (mixed ^ (mixed >> 27)).wrapping_mul(0x94D0_49BB_1331_11EB);
        mixed ^ (mixed >> 31)
    }

    /// Returns a number below `end`.
    pub fn number(&mut self, end: usize) -> usize {
        (self.next() % end as u64) as usize
    }

    fn pick<T: Copy>(&mut self, items: &[T]) -> T {
        items[self.number(items.len())]
    }

    fn pick_many<T: Copy>(&mut self, items: &[T], least: usize, most: usize) -> Vec<T> {
        let count = least + self.number(most + 1 - least);
        (0..count).map(|_| self.pick(items)).collect()
    }
}

/// The uids of random lines.
pub const UIDS: [&str; 8] = [
    "A::\"a\"",
    "A::\"b\"",
    "A::\"c\"",
    "B::\"a\"",
    "N::A::\"it\\'s\"",
    "A::\"\"",
    "Action::\"go\"",
    "N::Action::\"go\"",
];

const IDS: [&str; 8] = ["a", "b", "t", "u", "policy0", "policy1", "it's", ""];

const TEMPLATES: [(&str, Slots); 6] = [
    ("none", Slots::none()),
    ("principal", Slots::principal()),
    ("action", Slots::action()),
    ("resource", Slots::resource()),
    (
        "both",
        Slots {
            action: false,
            ..Slots::all()
        },
    ),
    ("all", Slots::all()),
];

const MODES: [TCComputation; 3] = [
    TCComputation::ComputeNow,
    TCComputation::EnforceAlreadyComputed,
    TCComputation::AssumeAlreadyComputed,
];

type Uid = &'static str;

/// A line of the program.
pub enum Line {
    Ent(Uid, Vec<Uid>),
    Build,
    Add,
    Upsert,
    Remove(Vec<Uid>, TCComputation),
    Slice(Vec<Uid>),
    Anc(Uid),
    /// The id, whether the effect is `permit`, and whether the crate gets a body.
    Static(&'static str, bool, bool),
    /// The id, the word for the slots, the slots, and whether the crate gets a body.
    Template(&'static str, &'static str, Slots, bool),
    Link(&'static str, &'static str, [Option<Uid>; 3]),
    Unlink(&'static str),
    Other,
    Merge(bool),
    Ids,
    Empty,
    None(&'static str),
}

const NO_LINES: [&str; 6] = [
    "frob",
    "build\t",
    "remove",
    "anc\tA::a",
    "template\tt\tsome",
    " ",
];

fn bindings(dice: &mut Dice) -> [Option<Uid>; 3] {
    let bound = dice.pick(&[0, 1, 2, 4, 5, 7]);
    let mut slot = |bit: usize| (bound & bit != 0).then(|| dice.pick(&UIDS));
    [slot(1), slot(2), slot(4)]
}

// Returns an entity. Most of its parents are later in the list, so cycles are rare.
fn entity(dice: &mut Dice) -> Line {
    let at = dice.number(UIDS.len());
    let parents = match dice.number(12) {
        0 => &UIDS[..],
        _ if at + 1 < UIDS.len() => &UIDS[at + 1..],
        _ => return Line::Ent(UIDS[at], Vec::new()),
    };
    Line::Ent(UIDS[at], dice.pick_many(parents, 0, 2))
}

impl Line {
    /// Returns a line on a store.
    fn of_store(dice: &mut Dice) -> Line {
        match dice.number(24) {
            0..=11 => entity(dice),
            12 => Line::Build,
            13..=14 => Line::Add,
            15..=17 => Line::Upsert,
            18 => Line::Remove(dice.pick_many(&UIDS, 1, 3), dice.pick(&MODES)),
            19 => Line::Slice(dice.pick_many(&UIDS, 2, 4)),
            _ => Line::Anc(dice.pick(&UIDS)),
        }
    }

    /// Returns a line on policy sets.
    fn of_sets(dice: &mut Dice) -> Line {
        let id = dice.pick(&IDS);
        match dice.number(14) {
            0..=1 => Line::Static(id, dice.number(2) == 0, dice.number(2) == 0),
            2..=4 => {
                let (word, slots) = dice.pick(&TEMPLATES);
                Line::Template(dice.pick(&IDS[1..5]), word, slots, dice.number(2) == 0)
            }
            5..=8 => Line::Link(dice.pick(&IDS[1..5]), id, bindings(dice)),
            9 => Line::Unlink(id),
            10 => Line::Other,
            11..=12 => Line::Merge(dice.number(2) == 0),
            _ => Line::Ids,
        }
    }

    /// Returns any line. Empty lines are rare, and lines that are not a command are even rarer.
    pub fn random(dice: &mut Dice) -> Line {
        match dice.number(400) {
            0..=7 => Line::Empty,
            8 => Line::None(dice.pick(&NO_LINES)),
            9..=220 => Line::of_store(dice),
            _ => Line::of_sets(dice),
        }
    }
}

impl fmt::Display for Line {
    fn fmt(&self, f: &mut fmt::Formatter<'_>) -> fmt::Result {
        let tabbed = |uids: &[Uid]| {
            uids.iter()
                .map(|uid| format!("\t{uid}"))
                .collect::<String>()
        };
        match self {
            Line::Ent(uid, parents) => write!(f, "ent\t{uid}{}", tabbed(parents)),
            Line::Build => f.write_str("build"),
            Line::Add => f.write_str("add"),
            Line::Upsert => f.write_str("upsert"),
            Line::Remove(uids, _) => write!(f, "remove{}", tabbed(uids)),
            Line::Slice(uids) => write!(f, "slice{}", tabbed(uids)),
            Line::Anc(uid) => write!(f, "anc\t{uid}"),
            Line::Static(id, true, _) => write!(f, "static\t{id}\tpermit"),
            Line::Static(id, false, _) => write!(f, "static\t{id}\tforbid"),
            Line::Template(id, word, ..) => write!(f, "template\t{id}\t{word}"),
            Line::Link(template, id, values) => {
                write!(f, "link\t{template}\t{id}")?;
                let slots = ["principal", "action", "resource"].into_iter().zip(values);
                let bound =
                    slots.filter_map(|(slot, uid)| uid.map(|uid| format!("\t{slot}={uid}")));
                f.write_str(&bound.collect::<String>())
            }
            Line::Unlink(id) => write!(f, "unlink\t{id}"),
            Line::Other => f.write_str("other"),
            Line::Merge(true) => f.write_str("merge\trename"),
            Line::Merge(false) => f.write_str("merge\tkeep"),
            Line::Ids => f.write_str("ids"),
            Line::Empty => Ok(()),
            Line::None(text) => f.write_str(text),
        }
    }
}

/// A session that runs lines through the crate one by one.
#[derive(Default)]
pub struct Session {
    waiting: Vec<Entity>,
    store: Entities,
    set: PolicySet,
    aside: PolicySet,
}

// Escapes an id as the program does.
fn escaped(id: &str) -> String {
    id.escape_debug().to_string()
}

fn uid(text: Uid) -> EntityUID {
    EntityUID::from_normalized_str(text).unwrap()
}

// Adds attributes and tags to every second uid. They depend only on the uid, so the output of a session does not depend
// on them.
fn with_content(entity: Entity) -> Entity {
    let uid = entity.uid().clone();
    let text = uid.to_string();
    if text.len() % 2 == 0 {
        return entity;
    }
    let number = text.len() as i64;
    let values = [
        Value::from(number),
        Value::from(text.as_str()),
        Value::from(uid.clone()),
    ];
    let record = [
        ("uid", Value::from(uid)),
        ("", Value::set(values.clone(), None)),
    ];
    let residual = Expr::is_eq(Expr::var(Var::Context), Expr::val(number));
    entity
        .with_attr("it's", Value::from(true))
        .with_attr("record", Value::record(record, None))
        .with_tag("set", Value::set(values, None))
        .with_tag("residual", residual)
}

// Asserts that the entity in the store has the attributes and tags that were passed to the library.
fn check_content(stored: &StoredEntity<'_>) {
    let expected = with_content(Entity::with_uid(stored.uid().clone()));
    assert_eq!(
        (stored.attrs_len(), stored.tags_len()),
        (expected.attrs_len(), expected.tags_len())
    );
    for (key, value) in expected.attrs() {
        assert_eq!(stored.get(key), Some(value));
    }
    for (key, value) in expected.tags() {
        assert_eq!(stored.get_tag(key), Some(value));
    }
}

// Returns the text of an error as the program writes it.
fn error_line(error: impl Into<Error>) -> String {
    let error = error.into();
    let text = error.to_string();
    let names_after = |prefix: &str| {
        text.strip_prefix(prefix)
            .expect("the text begins with the reason")
            .to_string()
    };
    match error.reason() {
        Reason::Duplicate => format!("refused: duplicate {}\n", names_after("duplicate entity ")),
        Reason::Cycle => String::from("refused: cycle\n"),
        Reason::Occupied | Reason::IdConflict => {
            format!("refused: occupied {}\n", escaped(&names_after("occupied ")))
        }
        Reason::NoSuchTemplate => format!(
            "refused: no template {}\n",
            escaped(&names_after("no template to link "))
        ),
        Reason::Arity => String::from("refused: arity\n"),
        Reason::NotAnAction => {
            format!("refused: not an action {}\n", names_after("not an action "))
        }
        Reason::NoLink => format!("refused: no link {}\n", escaped(&names_after("no link "))),
        Reason::NotALink => format!(
            "refused: not a link {}\n",
            escaped(&names_after("not a link "))
        ),
        _ => panic!("{error:?}"),
    }
}

fn status_line<T, E: Into<Error>>(result: Result<T, E>) -> String {
    result.map_or_else(error_line, |_| String::from("ok\n"))
}

// Returns a template as the program creates it. Each variable with a slot must be equal to the bound uid.
fn body(id: &str, effect: Effect, slots: Slots) -> Template {
    let principal = match slots.principal {
        true => PrincipalConstraint::is_eq_slot(),
        false => PrincipalConstraint::any(),
    };
    let action = match slots.action {
        true => ActionConstraint::is_eq_slot(),
        false => ActionConstraint::any(),
    };
    let resource = match slots.resource {
        true => ResourceConstraint::is_eq_slot(),
        false => ResourceConstraint::any(),
    };
    let (id, none) = (PolicyID::from_string(id), Annotations::new());
    Template::new(id, None, none, effect, principal, action, resource, None)
}

fn tabbed(word: &str, fields: impl IntoIterator<Item = impl fmt::Display>) -> String {
    let fields = fields.into_iter().map(|field| format!("\t{field}"));
    format!("{word}{}\n", fields.collect::<String>())
}

impl Session {
    // Returns the output of a call on the store. After a success, asserts that the other modes build the same store
    // from all of its ancestors.
    fn count_line(&mut self, result: Result<(), Error>) -> String {
        match result {
            Ok(()) => {
                self.check_modes();
                format!("ok {}\n", self.store.len())
            }
            Err(error) => {
                // After an error, the store of the program is empty, but the store of the crate is unchanged.
                self.store = Entities::new();
                error_line(error)
            }
        }
    }

    fn check_modes(&self) {
        let entities: Vec<Entity> = self
            .store
            .iter()
            .map(|entity| {
                let parents = entity.ancestors().cloned();
                with_content(Entity::with_uid(entity.uid().clone()).with_parents(parents))
            })
            .collect();
        assert_eq!(entities.len(), self.store.len());
        for mode in MODES {
            let rebuilt = Entities::from_entities(&entities, mode).unwrap();
            assert!(rebuilt.deep_eq(&self.store) && self.store.deep_eq(&rebuilt));
        }
    }

    fn build(&mut self) -> Result<(), Error> {
        let waiting = std::mem::take(&mut self.waiting);
        self.store = Entities::new();
        self.store = Entities::from_entities(&waiting, TCComputation::ComputeNow)?;
        Ok(())
    }

    // Removes entities. Asserts that the result is the same in each mode.
    fn remove(&mut self, uids: &[Uid], mode: TCComputation) -> Result<(), Error> {
        let computed = self.store.try_clone()?;
        let removed = uids.iter().map(|text| uid(text));
        let computed = computed.remove_entities(removed, TCComputation::ComputeNow)?;
        self.store.remove(uids, mode)?;
        assert!(computed.deep_eq(&self.store));
        Ok(())
    }

    // Returns the output of a query of ancestors. Asserts that the entity is a descendant of exactly its ancestors, and
    // that its parents are among them.
    fn ancestors_line(&self, uid: Uid) -> String {
        let Dereference::Data(entity) = self.store.entity(&self::uid(uid)) else {
            let error = self.store.ancestors(uid).unwrap_err();
            assert_eq!(error.reason(), Reason::NoEntity);
            return String::from("no entity\n");
        };
        check_content(&entity);
        let ancestors: Vec<&EntityUID> = entity.ancestors_in_order().collect();
        assert!(self
            .store
            .ancestors(uid)
            .unwrap()
            .iter()
            .eq(ancestors.iter().copied()));
        for other in UIDS.map(self::uid) {
            let is_descendant = ancestors.contains(&&other);
            assert_eq!(entity.is_descendant_of(&other), is_descendant);
            let is_child = entity.is_child_of(&other);
            assert_eq!(is_child, entity.parents().any(|uid| *uid == other));
            let is_indirect = entity.is_indirect_descendant_of(&other);
            assert_eq!(
                is_indirect,
                entity.indirect_ancestors().any(|uid| *uid == other)
            );
            assert_eq!(is_descendant, is_child || is_indirect);
        }
        tabbed("anc", ancestors)
    }

    fn entities(&mut self, line: &Line) -> Option<String> {
        let now = TCComputation::ComputeNow;
        let result = match line {
            Line::Ent(name, parents) => {
                let parents = parents.iter().map(|text| uid(text));
                let entity = Entity::with_uid(uid(name)).with_parents(parents);
                self.waiting.push(with_content(entity));
                return Some(String::new());
            }
            Line::Anc(uid) => return Some(self.ancestors_line(uid)),
            Line::Build => self.build(),
            Line::Add => self.store.add(std::mem::take(&mut self.waiting), now),
            Line::Upsert => self.store.upsert(std::mem::take(&mut self.waiting), now),
            Line::Remove(uids, mode) => self.remove(uids, *mode),
            Line::Slice(uids) => self.store.slice(uids).map(|slice| self.store = slice),
            _ => return None,
        };
        Some(self.count_line(result))
    }

    fn merge(&mut self, rename: bool) -> String {
        let before = self.set.try_clone().unwrap();
        match self.set.merge_policyset(&self.aside, rename) {
            Ok(renaming) => {
                let ids = renaming
                    .iter()
                    .flat_map(|(old, new)| [old.to_string(), new.to_string()]);
                tabbed("ok", ids)
            }
            Err(error) => {
                assert!(self.set == before);
                error_line(error)
            }
        }
    }

    fn add_static(
        &mut self,
        id: &str,
        permits: bool,
        has_body: bool,
    ) -> Result<(), PolicySetError> {
        let effect = match permits {
            true => Effect::Permit,
            false => Effect::Forbid,
        };
        if !has_body {
            return self.set.bind_static(id, effect);
        }
        let policy = StaticPolicy::try_from(body(id, effect, Slots::none()));
        let policy = policy.expect("the policy has no slots");
        match id.len() % 2 {
            0 => self.set.add_static(policy),
            _ => self.set.add(policy.into()),
        }
    }

    fn policies(&mut self, line: &Line) -> Option<String> {
        Some(match line {
            Line::Static(id, permits, has_body) => {
                status_line(self.add_static(id, *permits, *has_body))
            }
            Line::Template(id, _, slots, false) => {
                status_line(self.set.bind_template(id, Effect::Permit, *slots))
            }
            Line::Template(id, _, slots, true) => {
                status_line(self.set.add_template(body(id, Effect::Permit, *slots)))
            }
            Line::Link(template, id, [principal, action, resource]) => {
                let bound = SlotId::ALL.into_iter().zip([principal, action, resource]);
                let values: SlotEnv = bound
                    .filter_map(|(slot, text)| text.map(|text| (slot, uid(text))))
                    .collect();
                status_line(self.set.link(template, id, values))
            }
            Line::Unlink(id) => status_line(self.set.unlink(&PolicyID::from_string(id))),
            Line::Other => {
                std::mem::swap(&mut self.set, &mut self.aside);
                String::from("ok\n")
            }
            Line::Merge(rename) => self.merge(*rename),
            Line::Ids => {
                let bodies = tabbed("bodies", self.set.all_templates().map(|body| body.id()));
                bodies + &tabbed("policies", self.set.policies().map(|policy| policy.id()))
            }
            Line::Empty => String::new(),
            _ => return None,
        })
    }

    /// Returns the output of a line. Returns `None` if the line is not a command.
    pub fn run_line(&mut self, line: &Line) -> Option<String> {
        match self.entities(line) {
            Some(output) => Some(output),
            None => self.policies(line),
        }
    }
}
