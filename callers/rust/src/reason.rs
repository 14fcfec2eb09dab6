//! The reasons of errors. Written by tools/statuses.py from callers/statuses.txt: do not edit.

/// The reason of an error. Each corresponds to a status of `cedar.h`.
#[derive(Clone, Copy, Debug, PartialEq, Eq, Hash)]
#[non_exhaustive]
pub enum Reason {
    /// An allocation failed.
    Memory,
    /// A part is not within its text, a number is out of range, or nodes are invalid.
    BadArgument,
    /// A text is not the text of a uid.
    NotAUid,
    /// The store has no entity with this uid.
    NoEntity,
    /// Two entities with one uid differ.
    Duplicate,
    /// A uid is one of its own ancestors.
    Cycle,
    /// An ancestor of an ancestor is missing.
    NotClosed,
    /// An entity is one of its own ancestors.
    SelfAncestor,
    /// A uid is both a parent and an indirect ancestor.
    DuplicateAncestor,
    /// An action has an ancestor that is not an action.
    ActionParentIsNotAction,
    /// A key of a record is reserved.
    ReservedKey,
    /// An id is already in use.
    Occupied,
    /// There is no template with the id to link.
    NoSuchTemplate,
    /// The bindings do not match the slots of the template.
    Arity,
    /// The slot of the action is bound to a uid that is not an action.
    NotAnAction,
    /// The id of the new link is already in use.
    IdConflict,
    /// The id to unlink is not in use.
    NoLink,
    /// The id to unlink is not the id of a link.
    NotALink,
    /// The id of the template to remove is not in use.
    NoTemplate,
    /// The template has links.
    WithLinks,
    /// The id is not the id of a template.
    NotATemplate,
    /// There is no policy with the id of the static policy to remove.
    NoStatic,
    /// The id is the id of a link, or a static policy to add has a slot.
    NotStatic,
    /// There is nothing of the requested kind with this id.
    NoBody,
    /// A text is not a name, or the key of an annotation is not an identifier.
    NotAName,
    /// A value or an expression has more than 1,000 levels.
    TooDeep,
    /// The clause of a template has a slot.
    SlotInClause,
    /// The action constraint of a policy or a template has a uid that is not an action.
    NotActions,
    /// The clause of a policy or a template calls an unknown function.
    UnknownFunction,
    /// A link has a template without slots.
    SlotlessLink,
}

// The reasons with their statuses.
pub(crate) const STATUSES: [(u32, Reason); 30] = [
    (1, Reason::Memory),
    (3, Reason::BadArgument),
    (4, Reason::NotAUid),
    (6, Reason::NoEntity),
    (7, Reason::Duplicate),
    (8, Reason::Cycle),
    (9, Reason::NotClosed),
    (10, Reason::SelfAncestor),
    (11, Reason::DuplicateAncestor),
    (12, Reason::ActionParentIsNotAction),
    (13, Reason::ReservedKey),
    (14, Reason::Occupied),
    (15, Reason::NoSuchTemplate),
    (16, Reason::Arity),
    (17, Reason::NotAnAction),
    (18, Reason::IdConflict),
    (19, Reason::NoLink),
    (20, Reason::NotALink),
    (21, Reason::NoTemplate),
    (22, Reason::WithLinks),
    (23, Reason::NotATemplate),
    (24, Reason::NoStatic),
    (25, Reason::NotStatic),
    (26, Reason::NoBody),
    (27, Reason::NotAName),
    (28, Reason::TooDeep),
    (29, Reason::SlotInClause),
    (30, Reason::NotActions),
    (31, Reason::UnknownFunction),
    (32, Reason::SlotlessLink),
];

// Returns whether the text of an error with this reason names uids.
pub(crate) fn names_uids(reason: Reason) -> bool {
    matches!(
        reason,
        Reason::Duplicate
            | Reason::Cycle
            | Reason::NotClosed
            | Reason::SelfAncestor
            | Reason::DuplicateAncestor
            | Reason::ActionParentIsNotAction
            | Reason::NotAnAction
    )
}

// Returns the message of an error for which the library has no text.
pub(crate) fn message(reason: Reason) -> Option<&'static str> {
    match reason {
        Reason::Memory => Some("out of memory"),
        Reason::BadArgument => Some("bad argument"),
        Reason::NotAUid => Some("not a uid"),
        Reason::NoEntity => Some("no entity"),
        Reason::NoBody => Some("no body"),
        Reason::NotAName => Some("not a name"),
        Reason::TooDeep => Some("too deep"),
        _ => None,
    }
}
