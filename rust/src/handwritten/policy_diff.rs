//! The difference of two policy sets.
use crate::ast::{Policy, PolicySet, PolicySetDiff, Template};
use crate::cedar_policy_diff::diff_policy_sets;
use std::collections::HashMap;
use std::fmt;
use std::hash::BuildHasher;

impl<S: BuildHasher + Clone> PolicySet<S> {
    /// Returns what is removed, added and changed from this set to another one.
    ///
    /// Policies and templates are compared by their ids, with the equality of [`Policy`] and [`Template`]: locations do
    /// not count. The difference is empty exactly if both sets have the same policies and templates, in any order.
    /// Applied to this set, it gives the policies and templates of the other set.
    ///
    /// # Complexity
    ///
    /// Looks up each policy and template of both sets in the other set, and compares those with equal ids. Nothing is
    /// copied.
    ///
    /// # Differences from cedar-policy-core
    ///
    /// The original has no such function.
    ///
    /// # Examples
    ///
    /// ```
    /// use cedar_store::ast::{
    ///     ActionConstraint, Annotations, Effect, EntityUID, PolicySet, PrincipalConstraint, ResourceConstraint, SlotEnv,
    ///     SlotId, Template,
    /// };
    ///
    /// let template = |effect| {
    ///     let (principal, action, resource) =
    ///         (PrincipalConstraint::is_eq_slot(), ActionConstraint::any(), ResourceConstraint::any());
    ///     Template::new("owner".into(), None, Annotations::new(), effect, principal, action, resource, None)
    /// };
    /// let alice: EntityUID = "User::\"alice\"".parse()?;
    /// let values = SlotEnv::from([(SlotId::principal(), alice)]);
    ///
    /// let mut before = PolicySet::new();
    /// before.add_template(template(Effect::Permit))?;
    /// before.link("owner".into(), "alice-owns".into(), values.clone())?;
    /// before.link("owner".into(), "old".into(), values.clone())?;
    ///
    /// let mut after = PolicySet::new();
    /// after.add_template(template(Effect::Forbid))?;
    /// after.link("owner".into(), "alice-owns".into(), values.clone())?;
    /// after.link("owner".into(), "new".into(), values)?;
    ///
    /// let difference = before.diff(&after);
    /// assert_eq!(difference.removed().len(), 1);
    /// assert_eq!(difference.added()[0].id().as_ref(), "new");
    /// assert_eq!(
    ///     difference.to_string(),
    ///     "~ template owner\n\
    ///      - link old of owner\n\
    ///      + link new of owner\n\
    ///      ~ link alice-owns of owner\n",
    /// );
    /// assert!(before.diff(&before).is_empty());
    /// # Ok::<(), Box<dyn std::error::Error>>(())
    /// ```
    #[must_use]
    pub fn diff<'a>(&'a self, other: &'a PolicySet<S>) -> PolicySetDiff<'a> {
        diff_policy_sets(self, other)
    }
}

/// Writes a line for each template and policy: `-` if it is removed, `+` if it is added, and `~` if it is changed. A link
/// whose template changed has a line with `~` too. Templates come first. Nothing is written for an empty difference.
///
/// `{:#}` also writes the texts, like a unified diff. A line of the text before has a `-`, a line of the text after has a
/// `+`, and a line of both has neither.
///
/// # Examples
///
/// ```
/// use cedar_store::ast::{Effect, Expr, Policy, PolicySet};
///
/// let guests = |effect| Policy::from_when_clause(effect, Expr::val(true), "guests".into(), None);
/// let (before, after) = (PolicySet::singleton(guests(Effect::Permit)), PolicySet::singleton(guests(Effect::Forbid)));
///
/// assert_eq!(before.diff(&after).to_string(), "~ policy guests\n");
/// assert_eq!(
///     format!("{:#}", before.diff(&after)),
///     "~ policy guests\n- permit(\n+ forbid(\n    principal,\n    action,\n    resource\n  ) when {\n    true\n  };\n",
/// );
/// ```
impl fmt::Display for PolicySetDiff<'_> {
    fn fmt(&self, f: &mut fmt::Formatter<'_>) -> fmt::Result {
        for template in self.removed_templates() {
            write_template(f, Some(template), None)?;
        }
        for template in self.added_templates() {
            write_template(f, None, Some(template))?;
        }
        for (before, after) in self.changed_templates() {
            write_template(f, Some(before), Some(after))?;
        }
        for policy in self.removed() {
            write_policy(f, Some(policy), None)?;
        }
        for policy in self.added() {
            write_policy(f, None, Some(policy))?;
        }
        for (before, after) in self.changed().iter().chain(self.relinked()) {
            write_policy(f, Some(before), Some(after))?;
        }
        Ok(())
    }
}

/// Writes what happens to a template.
fn write_template(f: &mut fmt::Formatter<'_>, before: Option<&Template>, after: Option<&Template>) -> fmt::Result {
    if let Some(template) = after.or(before) {
        writeln!(f, "{} template {}", sign(before, after), template.id())?;
    }
    write_texts(f, before, after)
}

/// Writes what happens to a policy.
fn write_policy(f: &mut fmt::Formatter<'_>, before: Option<&Policy>, after: Option<&Policy>) -> fmt::Result {
    let sign = sign(before, after);
    match after.or(before) {
        Some(policy) if policy.is_static() => writeln!(f, "{sign} policy {}", policy.id())?,
        Some(link) => writeln!(f, "{sign} link {} of {}", link.id(), link.template().id())?,
        None => {}
    }
    write_texts(f, before, after)
}

/// Returns the sign of what is removed, added or changed.
fn sign<T>(before: Option<&T>, after: Option<&T>) -> char {
    match (before, after) {
        (_, None) => '-',
        (None, Some(_)) => '+',
        (Some(_), Some(_)) => '~',
    }
}

/// Writes the texts before and after in the form `{:#}`, and else nothing.
fn write_texts<T: ToString>(f: &mut fmt::Formatter<'_>, before: Option<&T>, after: Option<&T>) -> fmt::Result {
    if !f.alternate() {
        return Ok(());
    }
    let [before, after] = [before, after].map(|item| item.map_or_else(String::new, T::to_string));
    write_lines(f, &before, &after)
}

/// Writes the lines of two texts. A line of both texts is written once and without a sign, if its order in both allows it.
fn write_lines(f: &mut fmt::Formatter<'_>, before: &str, after: &str) -> fmt::Result {
    let after: Vec<&str> = after.lines().collect();
    let places: HashMap<&str, usize> = after.iter().copied().zip(0..).collect();
    let mut next = 0;
    for line in before.lines() {
        match places.get(line) {
            Some(&place) if place >= next => {
                write_added(f, &after[next..place])?;
                writeln!(f, "  {line}")?;
                next = place + 1;
            }
            _ => writeln!(f, "- {line}")?,
        }
    }
    write_added(f, &after[next..])
}

fn write_added(f: &mut fmt::Formatter<'_>, lines: &[&str]) -> fmt::Result {
    for line in lines {
        writeln!(f, "+ {line}")?;
    }
    Ok(())
}
