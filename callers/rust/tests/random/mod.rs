//! Random values, expressions, entities and bodies of policies. The same seed always gives the same results.
#![allow(dead_code)]
use cedar_store_proved::ast::{
    ActionConstraint, Annotation, Annotations, AnyId, Effect, Entity, EntityType, EntityUID, Expr,
    ExtensionValue, Name, PartialValue, PolicyID, PrincipalConstraint,
    PrincipalOrResourceConstraint, ResourceConstraint, SlotEnv, SlotId, StaticType, Template,
    Unknown, Value, Var,
};
use std::sync::Arc;

/// A generator of pseudorandom numbers.
pub struct Dice(u64);

impl Dice {
    pub fn new(seed: u64) -> Dice {
        Dice(seed.wrapping_mul(0x9E37_79B9_7F4A_7C15) | 1)
    }

    /// Returns a number below `end`.
    pub fn number(&mut self, end: usize) -> usize {
        self.0 ^= self.0 << 13;
        self.0 ^= self.0 >> 7;
        self.0 ^= self.0 << 17;
        (self.0.wrapping_mul(0x2545_F491_4F6C_DD1D) >> 33) as usize % end
    }

    fn pick<T: Clone>(&mut self, items: &[T]) -> T {
        items[self.number(items.len())].clone()
    }
}

const TEXTS: [&str; 8] = ["", "a", "b", "it's", "é🦀", "a\0b", "\"\\\n", "\u{200b}"];

fn name(dice: &mut Dice) -> Name {
    Name::from_normalized_str(dice.pick(&["ip", "decimal", "N::f"])).unwrap()
}

fn entity_type(dice: &mut Dice) -> EntityType {
    EntityType::from_normalized_str(dice.pick(&["User", "A::B"])).unwrap()
}

pub fn uid(dice: &mut Dice) -> EntityUID {
    let ty = dice.pick(&["A", "B", "N::A", "Action"]);
    EntityUID::with_eid_and_type(ty, dice.pick(&TEXTS)).unwrap()
}

fn number(dice: &mut Dice) -> i64 {
    dice.pick(&[0, 1, -1, 7, i64::MIN, i64::MAX])
}

/// Returns a value with at most `depth` levels below the first one.
pub fn value(dice: &mut Dice, depth: usize) -> Value {
    let count = dice.number(4);
    match dice.number(if depth > 0 { 8 } else { 5 }) {
        0 => Value::from(dice.number(2) == 0),
        1 => Value::from(number(dice)),
        2 => Value::from(dice.pick(&TEXTS)),
        3 => Value::from(uid(dice)),
        4 => Value::from(ExtensionValue {
            func: name(dice),
            arg: dice.pick(&TEXTS).into(),
        }),
        5 | 6 => Value::set((0..count).map(|_| value(dice, depth - 1)), None),
        _ => {
            let pair = |_| (dice.pick(&TEXTS), value(dice, depth - 1));
            Value::record((0..count).map(pair), None)
        }
    }
}

/// Returns an expression with at most `depth` levels below the first one.
pub fn expr(dice: &mut Dice, depth: usize) -> Expr {
    if depth == 0 || dice.number(4) == 0 {
        return match dice.number(7) {
            0 => Expr::val(dice.number(2) == 0),
            1 => Expr::val(number(dice)),
            2 => Expr::val(dice.pick(&TEXTS)),
            3 => Expr::val(uid(dice)),
            4 => Expr::var(dice.pick(&[Var::Principal, Var::Action, Var::Resource, Var::Context])),
            5 => Expr::slot(dice.pick(&SlotId::ALL)),
            _ => Expr::unknown(unknown(dice)),
        };
    }
    let count = dice.number(3);
    let mut operand = || expr(dice, depth - 1);
    let (left, right) = (operand(), operand());
    match dice.number(7) {
        0 => Expr::set((0..count).map(|_| expr(dice, depth - 1))),
        1 => Expr::call(name(dice), vec![left, right]),
        2 => Expr::not(left),
        3 => Expr::and(left, right),
        4 => Expr::is_eq(left, right),
        5 => Expr::is_in(left, right),
        _ => Expr::is_entity_type(left, entity_type(dice)),
    }
}

fn unknown(dice: &mut Dice) -> Unknown {
    let name = dice.pick(&TEXTS);
    match dice.number(2) {
        0 => Unknown::new_untyped(name),
        _ => Unknown::new_with_type(
            name,
            StaticType::Entity {
                ty: entity_type(dice),
            },
        ),
    }
}

/// Returns a value, or in one of three cases an expression.
pub fn term(dice: &mut Dice) -> PartialValue {
    match dice.number(3) {
        0 => PartialValue::from(expr(dice, 3)),
        _ => PartialValue::from(value(dice, 3)),
    }
}

/// Returns an entity with any content. It is not its own ancestor.
pub fn entity(dice: &mut Dice) -> Entity {
    let mut entity = Entity::with_uid(uid(dice));
    for _ in 0..dice.number(4) {
        entity = entity.with_attr(dice.pick(&TEXTS), term(dice));
    }
    for _ in 0..dice.number(3) {
        entity = entity.with_tag(dice.pick(&TEXTS), term(dice));
    }
    for _ in 0..dice.number(3) {
        entity.add_parent(uid(dice));
        entity.add_indirect_ancestor(uid(dice));
    }
    let uid = entity.uid().clone();
    entity.remove_parent(&uid);
    entity.remove_indirect_ancestor(&uid);
    entity
}

/// Returns a constraint of any kind on a principal or a resource.
pub fn constraint(dice: &mut Dice) -> PrincipalOrResourceConstraint {
    let (ty, euid) = (Arc::new(entity_type(dice)), Arc::new(uid(dice)));
    match dice.number(8) {
        0 => PrincipalOrResourceConstraint::any(),
        1 => PrincipalOrResourceConstraint::is_eq(euid),
        2 => PrincipalOrResourceConstraint::is_eq_slot(),
        3 => PrincipalOrResourceConstraint::is_in(euid),
        4 => PrincipalOrResourceConstraint::is_in_slot(),
        5 => PrincipalOrResourceConstraint::is_entity_type(ty),
        6 => PrincipalOrResourceConstraint::is_entity_type_in(ty, euid),
        _ => PrincipalOrResourceConstraint::is_entity_type_in_slot(ty),
    }
}

/// Returns a constraint of any kind on an action.
pub fn action_constraint(dice: &mut Dice) -> ActionConstraint {
    let count = dice.number(4);
    match dice.number(5) {
        0 => ActionConstraint::any(),
        1 => ActionConstraint::is_eq(uid(dice)),
        2 => ActionConstraint::is_eq_slot(),
        3 => ActionConstraint::is_in((0..count).map(|_| uid(dice))),
        _ => ActionConstraint::is_in_slot(),
    }
}

pub fn annotations(dice: &mut Dice) -> Annotations {
    let pair = |dice: &mut Dice| {
        let key = AnyId::from_normalized_str(dice.pick(&["a", "if", "B", "_c", "owner"])).unwrap();
        let val = Some(dice.pick(&TEXTS).into());
        (key, Annotation::with_optional_value(val, None))
    };
    (0..dice.number(4)).map(|_| pair(dice)).collect()
}

/// Returns a template with any content.
pub fn template(dice: &mut Dice, id: &PolicyID) -> Template {
    let clause = (dice.number(3) > 0).then(|| expr(dice, 4));
    Template::new(
        id.clone(),
        None,
        annotations(dice),
        dice.pick(&[Effect::Permit, Effect::Forbid]),
        PrincipalConstraint::new(constraint(dice)),
        action_constraint(dice),
        ResourceConstraint::new(constraint(dice)),
        clause,
    )
}

/// Returns bindings, mostly for the slots of a template. The action's slot is mostly bound to an action.
pub fn bindings(dice: &mut Dice, template: &Template) -> SlotEnv {
    let mut values = SlotEnv::new();
    for slot in SlotId::ALL {
        let is_slot = template.slots().any(|used| used.id == slot);
        if is_slot != (dice.number(10) == 0) {
            let uid = match (slot, dice.number(5)) {
                (SlotId::Action, 1..) => {
                    EntityUID::with_eid_and_type("N::Action", dice.pick(&TEXTS)).unwrap()
                }
                _ => uid(dice),
            };
            values.insert(slot, uid);
        }
    }
    values
}
