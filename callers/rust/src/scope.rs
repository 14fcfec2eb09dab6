//! Constraints on the principal and the resource of a request.
use crate::by_key::compare_by_key;
use crate::expr::Expr;
use crate::name::Loc;
use crate::slots::{SlotId, Var};
use crate::uid::{EntityType, EntityUID};
use std::fmt;
use std::sync::Arc;

/// The entity to which a constraint refers: a uid, or the slot of its variable. In the order of references, every uid
/// is less than the slot. Comparisons ignore locations.
#[derive(Clone, Debug)]
pub enum EntityReference {
    /// This uid.
    EUID(Arc<EntityUID>),
    /// The slot, with its location, if it is known.
    Slot(Option<Loc>),
}

impl EntityReference {
    /// Creates a reference to this uid.
    pub fn euid(euid: Arc<EntityUID>) -> EntityReference {
        EntityReference::EUID(euid)
    }

    /// Creates a reference to this uid, which becomes shared.
    pub fn from_uid(uid: EntityUID) -> EntityReference {
        EntityReference::EUID(Arc::new(uid))
    }

    /// Returns an expression for the uid, or for the given slot. A slot node has the location of the reference.
    // The function has the same name in `cedar-store`.
    #[allow(clippy::wrong_self_convention)]
    pub fn into_expr(&self, slot: SlotId) -> Expr {
        match self {
            EntityReference::EUID(euid) => Expr::shared_uid(euid),
            EntityReference::Slot(loc) => Expr::slot(slot).with_maybe_source_loc(loc.clone()),
        }
    }

    // Returns the uid, unless the reference is a slot.
    fn uid(&self) -> Option<&Arc<EntityUID>> {
        match self {
            EntityReference::EUID(euid) => Some(euid),
            EntityReference::Slot(_) => None,
        }
    }

    // Returns the comparison key.
    fn key(&self) -> (bool, Option<&Arc<EntityUID>>) {
        let uid = self.uid();
        (uid.is_none(), uid)
    }
}

compare_by_key!(EntityReference);

impl From<EntityUID> for EntityReference {
    fn from(uid: EntityUID) -> EntityReference {
        EntityReference::from_uid(uid)
    }
}

/// The variables whose constraints have the same form: the principal and the resource. `Display` writes the name of the
/// variable.
#[derive(Clone, Copy, Debug, PartialEq, Eq, Hash)]
pub enum PrincipalOrResource {
    /// The principal.
    Principal,
    /// The resource.
    Resource,
}

impl From<PrincipalOrResource> for Var {
    fn from(variable: PrincipalOrResource) -> Var {
        match variable {
            PrincipalOrResource::Principal => Var::Principal,
            PrincipalOrResource::Resource => Var::Resource,
        }
    }
}

impl From<PrincipalOrResource> for SlotId {
    fn from(variable: PrincipalOrResource) -> SlotId {
        match variable {
            PrincipalOrResource::Principal => SlotId::Principal,
            PrincipalOrResource::Resource => SlotId::Resource,
        }
    }
}

/// Fails for `Var::Action` and `Var::Context`. The error is the variable itself.
impl TryFrom<Var> for PrincipalOrResource {
    type Error = Var;

    fn try_from(var: Var) -> Result<PrincipalOrResource, Var> {
        match var {
            Var::Principal => Ok(PrincipalOrResource::Principal),
            Var::Resource => Ok(PrincipalOrResource::Resource),
            Var::Action | Var::Context => Err(var),
        }
    }
}

impl fmt::Display for PrincipalOrResource {
    fn fmt(&self, f: &mut fmt::Formatter<'_>) -> fmt::Result {
        write!(f, "{}", Var::from(*self))
    }
}

/// A constraint on the principal or the resource of a request.
///
/// Constraints are ordered by kind, in the order of the variants below. Constraints of one kind are ordered by the
/// entity type, and then by the reference. Comparisons ignore locations.
///
/// ```
/// use cedar_store_proved::ast::{EntityUID, PrincipalOrResource, PrincipalOrResourceConstraint};
/// use std::sync::Arc;
/// let staff = Arc::new(EntityUID::from_normalized_str(r#"Group::"staff""#).unwrap());
/// let within = PrincipalOrResourceConstraint::is_in(staff.clone());
/// assert_eq!(within.display(PrincipalOrResource::Principal), r#"principal in Group::"staff""#);
/// assert_eq!(within.get_euid(), Some(&staff));
/// let slot = PrincipalOrResourceConstraint::is_eq_slot();
/// assert_eq!(slot.as_expr(PrincipalOrResource::Resource).to_string(), "resource == ?resource");
/// ```
#[derive(Clone, Debug, PartialEq, Eq, PartialOrd, Ord, Hash)]
pub enum PrincipalOrResourceConstraint {
    /// Any entity.
    Any,
    /// An entity that is in the referenced entity.
    In(EntityReference),
    /// The referenced entity.
    Eq(EntityReference),
    /// An entity of this type.
    Is(Arc<EntityType>),
    /// An entity of this type that is in the referenced entity.
    IsIn(Arc<EntityType>, EntityReference),
}

use PrincipalOrResourceConstraint as Constraint;

impl PrincipalOrResourceConstraint {
    /// Creates a constraint that allows any entity.
    pub fn any() -> PrincipalOrResourceConstraint {
        Constraint::Any
    }

    /// Creates a constraint that requires equality with this uid.
    pub fn is_eq(euid: Arc<EntityUID>) -> PrincipalOrResourceConstraint {
        Constraint::Eq(EntityReference::euid(euid))
    }

    /// Creates a constraint that requires equality with the uid bound to the slot. The slot has no location.
    pub fn is_eq_slot() -> PrincipalOrResourceConstraint {
        Constraint::Eq(EntityReference::Slot(None))
    }

    /// Creates a constraint that requires the entity to be in this uid.
    pub fn is_in(euid: Arc<EntityUID>) -> PrincipalOrResourceConstraint {
        Constraint::In(EntityReference::euid(euid))
    }

    /// Creates a constraint that requires the entity to be in the uid bound to the slot. The slot has no location.
    pub fn is_in_slot() -> PrincipalOrResourceConstraint {
        Constraint::In(EntityReference::Slot(None))
    }

    /// Creates a constraint that requires this entity type.
    pub fn is_entity_type(entity_type: Arc<EntityType>) -> PrincipalOrResourceConstraint {
        Constraint::Is(entity_type)
    }

    /// Creates a constraint that requires this entity type, and the entity to be in this uid.
    pub fn is_entity_type_in(
        entity_type: Arc<EntityType>,
        in_entity: Arc<EntityUID>,
    ) -> PrincipalOrResourceConstraint {
        Constraint::IsIn(entity_type, EntityReference::euid(in_entity))
    }

    /// Creates a constraint that requires this entity type, and the entity to be in the uid bound to the slot. The slot
    /// has no location.
    pub fn is_entity_type_in_slot(entity_type: Arc<EntityType>) -> PrincipalOrResourceConstraint {
        Constraint::IsIn(entity_type, EntityReference::Slot(None))
    }

    /// Returns the constraint as an expression on this variable and its slot. A constraint that allows any entity is
    /// `true`. A slot node has the location of the reference.
    pub fn as_expr(&self, v: PrincipalOrResource) -> Expr {
        let variable = || Expr::var(Var::from(v));
        let operand = |reference: &EntityReference| reference.into_expr(SlotId::from(v));
        let is = |ty: &EntityType| Expr::is_entity_type(variable(), ty.clone());
        match self {
            Constraint::Any => Expr::val(true),
            Constraint::In(reference) => Expr::is_in(variable(), operand(reference)),
            Constraint::Eq(reference) => Expr::is_eq(variable(), operand(reference)),
            Constraint::Is(ty) => is(ty),
            Constraint::IsIn(ty, reference) => {
                Expr::and(is(ty), Expr::is_in(variable(), operand(reference)))
            }
        }
    }

    /// Returns the text of the constraint on this variable and its slot, for example `principal is T in ?principal`.
    pub fn display(&self, v: PrincipalOrResource) -> String {
        let text = |reference: &EntityReference| match reference {
            EntityReference::EUID(euid) => euid.to_string(),
            EntityReference::Slot(_) => SlotId::from(v).to_string(),
        };
        match self {
            Constraint::Any => v.to_string(),
            Constraint::In(reference) => format!("{v} in {}", text(reference)),
            Constraint::Eq(reference) => format!("{v} == {}", text(reference)),
            Constraint::Is(ty) => format!("{v} is {ty}"),
            Constraint::IsIn(ty, reference) => format!("{v} is {ty} in {}", text(reference)),
        }
    }

    /// Returns the uid to which the constraint refers, if there is one.
    pub fn get_euid(&self) -> Option<&Arc<EntityUID>> {
        self.reference().and_then(EntityReference::uid)
    }

    /// Iterates over the entity types in the constraint: the type of the uid, and then the required type, if there are
    /// any.
    pub fn iter_entity_type_names(&self) -> ConstraintTypeNames<'_> {
        ConstraintTypeNames {
            of_uid: self.get_euid().map(|euid| euid.entity_type()),
            stated: self.stated_type(),
        }
    }

    // Returns the required type, if there is one.
    fn stated_type(&self) -> Option<&EntityType> {
        match self {
            Constraint::Is(ty) | Constraint::IsIn(ty, _) => Some(ty),
            Constraint::Any | Constraint::In(_) | Constraint::Eq(_) => None,
        }
    }

    // Returns the reference, if there is one.
    fn reference(&self) -> Option<&EntityReference> {
        match self {
            Constraint::In(reference)
            | Constraint::Eq(reference)
            | Constraint::IsIn(_, reference) => Some(reference),
            Constraint::Any | Constraint::Is(_) => None,
        }
    }

    /// Returns the location of the slot, if the constraint refers to the slot.
    pub(crate) fn slot(&self) -> Option<&Option<Loc>> {
        match self.reference() {
            Some(EntityReference::Slot(loc)) => Some(loc),
            _ => None,
        }
    }

    // Replaces the slot by a uid.
    fn with_filled_slot(self, euid: Arc<EntityUID>) -> Constraint {
        match self {
            Constraint::Eq(EntityReference::Slot(_)) => Constraint::is_eq(euid),
            Constraint::In(EntityReference::Slot(_)) => Constraint::is_in(euid),
            Constraint::IsIn(ty, EntityReference::Slot(_)) => {
                Constraint::is_entity_type_in(ty, euid)
            }
            other => other,
        }
    }
}

/// An iterator over the entity types in a constraint on the principal or the resource: the type of its uid, and then
/// the required type.
#[derive(Clone, Debug)]
pub struct ConstraintTypeNames<'a> {
    of_uid: Option<&'a EntityType>,
    stated: Option<&'a EntityType>,
}

impl<'a> Iterator for ConstraintTypeNames<'a> {
    type Item = &'a EntityType;

    fn next(&mut self) -> Option<&'a EntityType> {
        self.of_uid.take().or_else(|| self.stated.take())
    }
}

// Defines the constraint type of one variable.
macro_rules! constraints {
    ($($(#[$of:meta])* $kind:ident $variable:ident)*) => {$(
        $(#[$of])*
        #[derive(Clone, Debug, PartialEq, Eq, PartialOrd, Ord, Hash)]
        pub struct $kind {
            constraint: PrincipalOrResourceConstraint,
        }

        impl $kind {
            /// Creates a constraint on the variable.
            pub fn new(constraint: PrincipalOrResourceConstraint) -> $kind {
                $kind { constraint }
            }

            /// Returns the inner constraint.
            pub fn as_inner(&self) -> &PrincipalOrResourceConstraint {
                &self.constraint
            }

            /// Returns the inner constraint, by value.
            pub fn into_inner(self) -> PrincipalOrResourceConstraint {
                self.constraint
            }

            /// Returns the constraint as an expression; see [`PrincipalOrResourceConstraint::as_expr`].
            pub fn as_expr(&self) -> Expr {
                self.constraint.as_expr(PrincipalOrResource::$variable)
            }

            /// Creates a constraint that allows any entity.
            pub fn any() -> $kind {
                $kind::new(Constraint::any())
            }

            /// Creates a constraint that requires equality with this uid.
            pub fn is_eq(euid: Arc<EntityUID>) -> $kind {
                $kind::new(Constraint::is_eq(euid))
            }

            /// Creates a constraint that requires equality with the uid bound to the slot.
            pub fn is_eq_slot() -> $kind {
                $kind::new(Constraint::is_eq_slot())
            }

            /// Creates a constraint that requires the entity to be in this uid.
            pub fn is_in(euid: Arc<EntityUID>) -> $kind {
                $kind::new(Constraint::is_in(euid))
            }

            /// Creates a constraint that requires the entity to be in the uid bound to the slot.
            pub fn is_in_slot() -> $kind {
                $kind::new(Constraint::is_in_slot())
            }

            /// Creates a constraint that requires this entity type.
            pub fn is_entity_type(entity_type: Arc<EntityType>) -> $kind {
                $kind::new(Constraint::is_entity_type(entity_type))
            }

            /// Creates a constraint that requires this entity type, and the entity to be in this uid.
            pub fn is_entity_type_in(
                entity_type: Arc<EntityType>,
                in_entity: Arc<EntityUID>,
            ) -> $kind {
                $kind::new(Constraint::is_entity_type_in(entity_type, in_entity))
            }

            /// Creates a constraint that requires this entity type, and the entity to be in the uid bound to the slot.
            pub fn is_entity_type_in_slot(entity_type: Arc<EntityType>) -> $kind {
                $kind::new(Constraint::is_entity_type_in_slot(entity_type))
            }

            /// Replaces the slot by this uid. A constraint without the slot is returned unchanged.
            pub fn with_filled_slot(self, euid: Arc<EntityUID>) -> $kind {
                $kind::new(self.constraint.with_filled_slot(euid))
            }
        }

        impl fmt::Display for $kind {
            fn fmt(&self, f: &mut fmt::Formatter<'_>) -> fmt::Result {
                f.write_str(&self.constraint.display(PrincipalOrResource::$variable))
            }
        }
    )*};
}

constraints! {
    /// A constraint on the principal of a request. `Display` writes it with `principal` and its slot `?principal`.
    ///
    /// ```
    /// use cedar_store_proved::ast::{EntityUID, PrincipalConstraint};
    /// use std::sync::Arc;
    /// let alice = Arc::new(EntityUID::from_normalized_str(r#"User::"alice""#).unwrap());
    /// let slot = PrincipalConstraint::is_eq_slot();
    /// assert_eq!(slot.to_string(), "principal == ?principal");
    /// assert_eq!(slot.with_filled_slot(alice.clone()), PrincipalConstraint::is_eq(alice));
    /// ```
    PrincipalConstraint Principal
    /// A constraint on the resource of a request. `Display` writes it with `resource` and its slot `?resource`.
    ResourceConstraint Resource
}
