//! Errors of validation: of static policies, action constraints, expressions, templates and sets.
use crate::name::Name;
use crate::policy::PolicyID;
use crate::slots::Slot;
use crate::uid::EntityUID;
use std::error::Error;
use std::fmt;
use std::sync::Arc;

/// A list with at least one element: the first one, and the others in order.
#[derive(Clone, Debug, PartialEq, Eq)]
pub struct NonEmpty<T> {
    /// The first element.
    pub head: T,
    /// The other elements.
    pub tail: Vec<T>,
}

/// An error of a body that is used as a static policy. Equality ignores the location of the slot.
#[derive(Clone, Debug, PartialEq, Eq)]
pub enum UnexpectedSlotError {
    /// The body contains a slot: the first slot of its condition.
    FoundSlot(Slot),
}

/// An error of the uids of an action constraint.
#[derive(Clone, Debug, PartialEq, Eq)]
pub enum ActionTypesError {
    /// These uids are not actions. They are in the order of the list.
    NotActions(NonEmpty<Arc<EntityUID>>),
}

/// An error of an expression.
#[derive(Clone, Debug, PartialEq, Eq)]
pub enum ExprValidationError {
    /// It calls a function other than `ip`, `decimal`, `datetime` and `duration`.
    UnknownFunction {
        /// The name of the function.
        name: Name,
    },
}

/// An error of a template.
#[derive(Clone, Debug, PartialEq, Eq)]
pub enum TemplateValidationError {
    /// The clause contains a slot: this one is the first.
    SlotsInConditionClause(Slot),
    /// These uids of the action constraint are not actions. They are in the order of the list.
    InvalidActionType(NonEmpty<Arc<EntityUID>>),
    /// The stored slots of the template differ from the slots of its condition. No call returns this error, because
    /// such a template cannot be created.
    SlotCacheMismatch,
    /// The clause is not valid: it calls an unknown function.
    InvalidExpression(ExprValidationError),
}

/// An error of a policy set.
#[derive(Clone, Debug, PartialEq, Eq)]
pub enum PolicySetValidationError {
    /// A body is not valid. This is the first invalid one, in the order of bodies.
    InvalidTemplate {
        /// The id of the body.
        id: PolicyID,
        /// The first fault of the body.
        error: TemplateValidationError,
    },
    /// A link belongs to a template without slots. This is the first such link, in the order of policies.
    LinkToSlotlessTemplate {
        /// The id of the link.
        link_id: PolicyID,
        /// The id of the template.
        template_id: PolicyID,
    },
}

impl From<ActionTypesError> for TemplateValidationError {
    fn from(error: ActionTypesError) -> TemplateValidationError {
        let ActionTypesError::NotActions(uids) = error;
        TemplateValidationError::InvalidActionType(uids)
    }
}

impl From<ExprValidationError> for TemplateValidationError {
    fn from(error: ExprValidationError) -> TemplateValidationError {
        TemplateValidationError::InvalidExpression(error)
    }
}

// ---- messages, which are the messages of `cedar-store`

impl fmt::Display for UnexpectedSlotError {
    fn fmt(&self, f: &mut fmt::Formatter<'_>) -> fmt::Result {
        let UnexpectedSlotError::FoundSlot(slot) = self;
        write!(f, "found slot `{}` where slots are not allowed", slot.id)
    }
}

fn not_actions(uids: &NonEmpty<Arc<EntityUID>>, f: &mut fmt::Formatter<'_>) -> fmt::Result {
    let head = &uids.head;
    write!(
        f,
        "the action constraint holds uids that are not actions: {head}"
    )?;
    uids.tail.iter().try_for_each(|uid| write!(f, ",{uid}"))
}

impl fmt::Display for ActionTypesError {
    fn fmt(&self, f: &mut fmt::Formatter<'_>) -> fmt::Result {
        let ActionTypesError::NotActions(uids) = self;
        not_actions(uids, f)
    }
}

impl fmt::Display for ExprValidationError {
    fn fmt(&self, f: &mut fmt::Formatter<'_>) -> fmt::Result {
        let ExprValidationError::UnknownFunction { name } = self;
        write!(f, "`{name}` is not a known function")
    }
}

impl fmt::Display for TemplateValidationError {
    fn fmt(&self, f: &mut fmt::Formatter<'_>) -> fmt::Result {
        use TemplateValidationError as E;
        match self {
            E::SlotsInConditionClause(slot) => {
                write!(f, "found slot `{}` in a condition clause", slot.id)
            }
            E::InvalidActionType(uids) => not_actions(uids, f),
            E::SlotCacheMismatch => {
                f.write_str("template slot cache is inconsistent with condition expression")
            }
            E::InvalidExpression(error) => write!(f, "{error}"),
        }
    }
}

impl fmt::Display for PolicySetValidationError {
    fn fmt(&self, f: &mut fmt::Formatter<'_>) -> fmt::Result {
        use PolicySetValidationError as E;
        match self {
            E::InvalidTemplate { id, error } => write!(f, "invalid template `{id}`: {error}"),
            E::LinkToSlotlessTemplate {
                link_id,
                template_id,
            } => write!(
                f,
                "link `{link_id}` references template `{template_id}` which has no slots"
            ),
        }
    }
}

impl Error for UnexpectedSlotError {}
impl Error for ActionTypesError {}
impl Error for ExprValidationError {}
impl Error for TemplateValidationError {}
impl Error for PolicySetValidationError {}
