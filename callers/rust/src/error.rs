//! Errors of calls of the library, with a reason and a message.
use crate::ffi;
use crate::policy::PolicyID;
use crate::reason::{message, names_uids, STATUSES};
use crate::uid::EntityUID;
use std::fmt;

pub use crate::reason::Reason;

impl Reason {
    // Returns the reason with a status. A status that never reaches a user counts as a bad argument.
    pub(crate) fn of(status: u32) -> Reason {
        let entry = STATUSES.iter().find(|(known, _)| *known == status);
        entry.map_or(Reason::BadArgument, |(_, reason)| *reason)
    }

    // Returns the text with which the message of an error begins.
    fn prefix(self) -> String {
        let entry = STATUSES.iter().find(|(_, reason)| *reason == self);
        entry.map_or_else(String::new, |(status, _)| ffi::status_text(*status))
    }
}

/// An error of a call: a reason, and a message with the uids or the id that it concerns. The errors of all other types
/// can be converted into it by `From`.
///
/// ```
/// use cedar_store_proved::{Effect, PolicySet, Reason, Error};
/// let mut set = PolicySet::new();
/// assert_eq!(set.effect("p").unwrap_err().reason(), Reason::NoBody);
/// set.bind_static("p", Effect::Permit).unwrap();
/// let error = Error::from(set.bind_static("p", Effect::Forbid).unwrap_err());
/// assert_eq!((error.reason(), error.to_string().as_str()), (Reason::Occupied, "occupied p"));
/// ```
#[derive(Clone, Debug, PartialEq, Eq)]
pub struct Error {
    reason: Reason,
    text: String,
}

impl Error {
    /// Converts a status to a result. Requests the message only if the library has one for the status.
    pub(crate) fn check_status(status: u32, text: impl FnOnce() -> Vec<u8>) -> Result<(), Error> {
        match status {
            0 => Ok(()),
            status => Err(Error::new(status, text)),
        }
    }

    /// Creates an error whose message has no uid and no id.
    pub(crate) fn of_reason(reason: Reason) -> Error {
        let text = reason.prefix();
        Error { reason, text }
    }

    /// Creates the error of a status other than 0.
    pub(crate) fn new(status: u32, text: impl FnOnce() -> Vec<u8>) -> Error {
        let reason = Reason::of(status);
        let text = match message(reason) {
            Some(message) => message.to_owned(),
            None => String::from_utf8_lossy(&text()).into_owned(),
        };
        Error { reason, text }
    }

    /// Creates an error that names items, with the message of the library.
    pub(crate) fn with_names<N: fmt::Display>(reason: Reason, names: &[N]) -> Error {
        let mut text = reason.prefix();
        for name in names {
            text += &format!(" {name}");
        }
        Error { reason, text }
    }

    /// Returns the reason.
    pub fn reason(&self) -> Reason {
        self.reason
    }

    /// Returns the message without the text of the reason: the id of a policy, a key, or slots.
    pub(crate) fn details(&self) -> &str {
        let prefix = self.reason.prefix();
        let rest = self.text.get(prefix.len()..).unwrap_or_default();
        rest.strip_prefix(' ').unwrap_or(rest)
    }

    /// Returns the id of the policy or template in the message.
    pub(crate) fn id(&self) -> PolicyID {
        PolicyID::from_string(self.details())
    }

    /// Returns the uids in the message, in order. For `NotClosed` these are the entity, its ancestor, and the missing
    /// ancestor. Returns an empty list if the message names an id or a key.
    ///
    /// ```
    /// use cedar_store_proved::{Entities, Entity, EntityUID, TCComputation};
    /// let a = EntityUID::from_normalized_str(r#"A::"a""#).unwrap();
    /// let own_parent = Entity::with_uid(a.clone()).with_parent(a.clone());
    /// let error = Entities::new().add([own_parent], TCComputation::ComputeNow).unwrap_err();
    /// assert_eq!(error.uids(), [a]);
    /// ```
    pub fn uids(&self) -> Vec<EntityUID> {
        if names_uids(self.reason) {
            parse_uids(&self.text)
        } else {
            Vec::new()
        }
    }
}

// Parses the uids in a message, which are separated by spaces. A space within an id is in quotes.
fn parse_uids(text: &str) -> Vec<EntityUID> {
    let mut uids = Vec::new();
    let (mut start, mut is_quoted, mut is_escaped) = (0, false, false);
    for (at, c) in text.char_indices() {
        match c {
            _ if is_escaped => is_escaped = false,
            '\\' => is_escaped = true,
            ' ' if !is_quoted => start = at + 1,
            '"' if is_quoted => {
                is_quoted = false;
                uids.push(EntityUID::from_valid_text(&text[start..=at]));
            }
            '"' => is_quoted = true,
            _ => {}
        }
    }
    uids
}

impl fmt::Display for Error {
    fn fmt(&self, f: &mut fmt::Formatter<'_>) -> fmt::Result {
        f.write_str(&self.text)
    }
}

impl std::error::Error for Error {}

#[cfg(test)]
mod tests {
    use super::*;

    #[test]
    fn reasons_without_text_have_messages() {
        for (status, reason, text) in [
            (1, Reason::Memory, "out of memory"),
            (4, Reason::NotAUid, "not a uid"),
            (6, Reason::NoEntity, "no entity"),
            (26, Reason::NoBody, "no body"),
            (27, Reason::NotAName, "not a name"),
            (28, Reason::TooDeep, "too deep"),
        ] {
            let error = Error::new(status, || panic!("no text is requested"));
            assert_eq!((error.reason(), error.to_string()), (reason, text.into()));
            assert!(error.uids().is_empty());
        }
    }
}
