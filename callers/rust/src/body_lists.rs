//! Policy bodies and constraints in the format of the C library. A body is one text, with the spans of the texts of its
//! constraints, its annotations and its clause.
use crate::action::ActionConstraint;
use crate::annotation::Annotation;
use crate::body::TemplateBody;
use crate::lists::{Lists, Span};
use crate::name::{AnyId, Name};
use crate::nodes::{Draft, Node};
use crate::scope::{EntityReference, PrincipalOrResourceConstraint};
use crate::uid::{EntityType, EntityUID};
use std::sync::Arc;

/// A constraint on the principal, the action or the resource: its kind, and the spans of its uid and its type, if the
/// kind has them.
#[repr(C)]
#[derive(Clone, Copy, Default)]
pub(crate) struct Scope {
    kind: u32,
    uid: Span,
    ty: Span,
}

/// The spans of the key and the value of an annotation.
#[repr(C)]
#[derive(Clone, Copy)]
pub(crate) struct AnnotationSpans {
    key: Span,
    value: Span,
}

/// The effect and the three scope constraints.
#[repr(C)]
pub(crate) struct Head {
    effect: u32,
    principal: Scope,
    action: Scope,
    resource: Scope,
}

/// An encoded body: its head, its annotations and the nodes of its clause, over one text. The uids of `lists` are the
/// uids of an action constraint with a list.
pub(crate) struct BodyLists {
    pub(crate) lists: Lists,
    pub(crate) head: Head,
    pub(crate) annotations: Vec<AnnotationSpans>,
    pub(crate) nodes: Vec<Node>,
}

const ANY: u32 = 0;
const EQ: u32 = 1;
const EQ_SLOT: u32 = 2;
const IN: u32 = 3;
const IN_SLOT: u32 = 4;
const IS: u32 = 5;
const IS_IN: u32 = 6;
const IS_IN_SLOT: u32 = 7;

/// Returns whether constraints of this kind contain texts.
pub(crate) fn has_texts(kind: u32) -> bool {
    !matches!(kind, ANY | EQ_SLOT | IN_SLOT)
}

// Encodes a reference. `kinds` has the kind for a uid and the kind for the slot.
fn encode_reference(lists: &mut Lists, reference: &EntityReference, kinds: (u32, u32)) -> Scope {
    let (with_uid, with_slot) = kinds;
    let (kind, uid) = match reference {
        EntityReference::EUID(euid) => (with_uid, lists.part(euid.as_str())),
        EntityReference::Slot(_) => (with_slot, Span::default()),
    };
    let ty = Span::default();
    Scope { kind, uid, ty }
}

fn encode_scope(lists: &mut Lists, constraint: &PrincipalOrResourceConstraint) -> Scope {
    use PrincipalOrResourceConstraint as Constraint;
    let push_type = |lists: &mut Lists, ty: &EntityType| lists.part(ty.name().as_str());
    match constraint {
        Constraint::Any => Scope::default(),
        Constraint::Eq(reference) => encode_reference(lists, reference, (EQ, EQ_SLOT)),
        Constraint::In(reference) => encode_reference(lists, reference, (IN, IN_SLOT)),
        Constraint::Is(ty) => Scope {
            kind: IS,
            ty: push_type(lists, ty),
            ..Scope::default()
        },
        Constraint::IsIn(ty, reference) => Scope {
            ty: push_type(lists, ty),
            ..encode_reference(lists, reference, (IS_IN, IS_IN_SLOT))
        },
    }
}

// Encodes the constraint on the action. The uids of a list are added to `lists`.
fn encode_action(lists: &mut Lists, constraint: &ActionConstraint) -> Scope {
    let mut uid = Span::default();
    let kind = match constraint {
        ActionConstraint::Any => ANY,
        ActionConstraint::Eq(euid) => {
            uid = lists.part(euid.as_str());
            EQ
        }
        ActionConstraint::In(euids) => {
            for euid in euids {
                lists.push_uid(euid.as_str());
            }
            IN
        }
        ActionConstraint::EqSlot(_) => EQ_SLOT,
        ActionConstraint::InSlot(_) => IN_SLOT,
    };
    let ty = Span::default();
    Scope { kind, uid, ty }
}

impl BodyLists {
    /// Encodes a body, without its id.
    pub(crate) fn of(body: &TemplateBody) -> BodyLists {
        let mut lists = Lists::default();
        let head = Head {
            effect: body.effect() as u32,
            principal: encode_scope(&mut lists, body.principal_constraint().as_inner()),
            action: encode_action(&mut lists, body.action_constraint()),
            resource: encode_scope(&mut lists, body.resource_constraint().as_inner()),
        };
        let annotation = |(key, annotation): (&AnyId, &Annotation)| {
            let key = lists.part(key.as_ref());
            let value = lists.part(&annotation.val);
            AnnotationSpans { key, value }
        };
        let annotations = body.annotations().map(annotation).collect();
        let mut draft = Draft::over(&mut lists);
        if let Some(clause) = body.non_scope_constraints() {
            draft.clause(clause);
        }
        let nodes = draft.into_nodes();
        BodyLists {
            lists,
            head,
            annotations,
            nodes,
        }
    }
}

fn read_uid(text: &str) -> Arc<EntityUID> {
    Arc::new(EntityUID::from_valid_text(text))
}

/// Decodes a constraint on the principal or the resource from its kind and its texts. Returns `None` if they do not
/// form a constraint, which the library never returns.
pub(crate) fn read_scope(kind: u32, texts: &[String]) -> Option<PrincipalOrResourceConstraint> {
    use PrincipalOrResourceConstraint as Constraint;
    let entity_type = |ty: &str| Arc::new(EntityType::from(Name::from_valid_text(ty)));
    Some(match (kind, texts) {
        (ANY, []) => Constraint::any(),
        (EQ, [uid]) => Constraint::is_eq(read_uid(uid)),
        (EQ_SLOT, []) => Constraint::is_eq_slot(),
        (IN, [uid]) => Constraint::is_in(read_uid(uid)),
        (IN_SLOT, []) => Constraint::is_in_slot(),
        (IS, [ty]) => Constraint::is_entity_type(entity_type(ty)),
        (IS_IN, [ty, uid]) => Constraint::is_entity_type_in(entity_type(ty), read_uid(uid)),
        (IS_IN_SLOT, [ty]) => Constraint::is_entity_type_in_slot(entity_type(ty)),
        _ => return None,
    })
}

/// Decodes a constraint on the action from its kind and its texts. Returns `None` if they do not form a constraint,
/// which the library never returns.
pub(crate) fn read_action(kind: u32, texts: &[String]) -> Option<ActionConstraint> {
    Some(match (kind, texts) {
        (ANY, []) => ActionConstraint::any(),
        (EQ, [uid]) => ActionConstraint::Eq(read_uid(uid)),
        (EQ_SLOT, []) => ActionConstraint::is_eq_slot(),
        (IN, uids) => ActionConstraint::In(uids.iter().map(|uid| read_uid(uid)).collect()),
        (IN_SLOT, []) => ActionConstraint::is_in_slot(),
        _ => return None,
    })
}
