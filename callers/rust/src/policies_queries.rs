//! Queries of a policy set by id. Each is one call of the library.
use crate::action::ActionConstraint;
use crate::annotation::{Annotation, Annotations};
use crate::body_lists;
use crate::error::Error;
use crate::expr::Expr;
use crate::name::AnyId;
use crate::nodes::read_clause;
use crate::policy::{Effect, PolicyID, Slots};
use crate::policy_set::PolicySet;
use crate::scope::{PrincipalConstraint, PrincipalOrResourceConstraint, ResourceConstraint};
use crate::slots::{SlotEnv, SlotId};
use crate::template::Template;
use crate::uid::EntityUID;

/// The kind of item to which an id of a set is bound.
#[derive(Clone, Copy, Debug, PartialEq, Eq, Hash)]
pub enum Bound {
    /// A static policy.
    Static,
    /// A link of a template.
    Link,
    /// A template.
    Template,
}

impl PolicySet {
    // Returns the texts of the last result.
    pub(crate) fn result_texts(&self, status: u32) -> Result<Vec<String>, Error> {
        self.check_status(status)?;
        Ok(self.handle.map_results(str::to_owned))
    }

    pub(crate) fn text(&self, status: u32) -> Result<String, Error> {
        self.check_status(status)?;
        Ok(self.handle.result_text())
    }

    fn number(&self, (status, number): (u32, u32)) -> Result<u32, Error> {
        self.check_status(status)?;
        Ok(number)
    }

    /// Returns the ids of static policies and templates, in insertion order.
    ///
    /// # Errors
    ///
    /// - `Memory`: an allocation failed.
    pub fn body_ids(&self) -> Result<Vec<String>, Error> {
        self.result_texts(self.handle.ids(0))
    }

    /// Returns the ids of static policies and links, in insertion order.
    ///
    /// # Errors
    ///
    /// - `Memory`: an allocation failed.
    pub fn policy_ids(&self) -> Result<Vec<String>, Error> {
        self.result_texts(self.handle.ids(1))
    }

    /// Returns the kind of item to which an id is bound, if it is bound.
    ///
    /// # Errors
    ///
    /// - `Memory`: an allocation failed.
    ///
    /// ```
    /// use cedar_store_proved::{Bound, Effect, PolicySet, Reason};
    /// let mut set = PolicySet::new();
    /// set.bind_static("p", Effect::Forbid).unwrap();
    /// assert_eq!((set.bound("p").unwrap(), set.bound("q").unwrap()), (Some(Bound::Static), None));
    /// assert_eq!(set.effect("p").unwrap(), Effect::Forbid);
    /// assert_eq!(set.effect("q").unwrap_err().reason(), Reason::NoBody);
    /// ```
    pub fn bound(&self, id: impl AsRef<str>) -> Result<Option<Bound>, Error> {
        Ok(match self.number(self.handle.get(id.as_ref()))? {
            1 => Some(Bound::Static),
            2 => Some(Bound::Link),
            3 => Some(Bound::Template),
            _ => None,
        })
    }

    /// Returns the effect of the policy or template with this id. A link has the effect of its template.
    ///
    /// # Errors
    ///
    /// - `NoBody`: the id is not bound.
    /// - `Memory`: an allocation failed.
    pub fn effect(&self, id: impl AsRef<str>) -> Result<Effect, Error> {
        match self.number(self.handle.effect(id.as_ref()))? {
            0 => Ok(Effect::Permit),
            _ => Ok(Effect::Forbid),
        }
    }

    /// Returns the slots of the template with this id. A static policy has no slots.
    ///
    /// # Errors
    ///
    /// - `NoBody`: no template or static policy has this id.
    /// - `Memory`: an allocation failed.
    pub fn slots(&self, id: impl AsRef<str>) -> Result<Slots, Error> {
        Ok(Slots::of(self.number(self.handle.slots(id.as_ref()))?))
    }

    /// Returns the annotation with this key of a policy or template, if it has one. A link has the annotations of its
    /// template.
    ///
    /// # Errors
    ///
    /// - `NotAName`: the key is not an identifier.
    /// - `NoBody`: the id is not bound.
    /// - `Memory`: an allocation failed.
    pub fn annotation(&self, id: impl AsRef<str>, key: &str) -> Result<Option<String>, Error> {
        let (status, has) = self.handle.annotation(id.as_ref(), key);
        let text = self.text(status)?;
        Ok(has.then_some(text))
    }

    /// Returns the annotations of a policy or template with their keys, in ascending order of the keys. A link has the
    /// annotations of its template.
    ///
    /// # Errors
    ///
    /// - `NoBody`: the id is not bound.
    /// - `Memory`: an allocation failed.
    pub fn annotations(&self, id: impl AsRef<str>) -> Result<Vec<(String, String)>, Error> {
        let mut texts = self
            .result_texts(self.handle.annotations(id.as_ref()))?
            .into_iter();
        let mut pairs = Vec::new();
        while let (Some(key), Some(value)) = (texts.next(), texts.next()) {
            pairs.push((key, value));
        }
        Ok(pairs)
    }

    /// Returns the bindings of the link with this id. A static policy has no bindings.
    ///
    /// # Errors
    ///
    /// - `NoBody`: no link or static policy has this id.
    /// - `Memory`: an allocation failed.
    pub fn env(&self, id: impl AsRef<str>) -> Result<SlotEnv, Error> {
        let texts = self.result_texts(self.handle.env(id.as_ref()))?;
        let bound = SlotId::ALL
            .into_iter()
            .zip(texts)
            .filter(|(_, uid)| !uid.is_empty());
        Ok(bound
            .map(|(id, uid)| (id, EntityUID::from_valid_text(&uid)))
            .collect())
    }

    /// Returns the id of the template of the link with this id. For a static policy, returns its own id.
    ///
    /// # Errors
    ///
    /// - `NoBody`: no link or static policy has this id.
    /// - `Memory`: an allocation failed.
    pub fn template_id(&self, id: impl AsRef<str>) -> Result<String, Error> {
        self.text(self.handle.template_id(id.as_ref()))
    }

    /// Returns the ids of the links of the template with this id, in insertion order. For a static policy, returns only
    /// its own id.
    ///
    /// # Errors
    ///
    /// - `NoBody`: no template or static policy has this id.
    /// - `Memory`: an allocation failed.
    pub fn linked(&self, id: impl AsRef<str>) -> Result<Vec<String>, Error> {
        self.result_texts(self.handle.linked(id.as_ref()))
    }

    /// Returns a readable text of the static policy or the link with this id.
    ///
    /// # Errors
    ///
    /// - `NoBody`: no link or static policy has this id.
    /// - `Memory`: an allocation failed.
    pub fn policy_text(&self, id: impl AsRef<str>) -> Result<String, Error> {
        self.text(self.handle.policy_text(id.as_ref()))
    }

    /// Returns a readable text of the template or the static policy with this id.
    ///
    /// # Errors
    ///
    /// - `NoBody`: no template or static policy has this id.
    /// - `Memory`: an allocation failed.
    pub fn template_text(&self, id: impl AsRef<str>) -> Result<String, Error> {
        self.text(self.handle.template_text(id.as_ref()))
    }

    // Returns the kind of a constraint, and its texts.
    fn scope(&self, id: &str, part: u32) -> Result<(u32, Vec<String>), Error> {
        let kind = self.number(self.handle.scope(id, part))?;
        let texts = match body_lists::has_texts(kind) {
            true => self.handle.map_results(str::to_owned),
            false => Vec::new(),
        };
        Ok((kind, texts))
    }

    // Returns the constraint on the principal (0) or the resource (2).
    fn read_constraint(&self, id: &str, part: u32) -> Result<PrincipalOrResourceConstraint, Error> {
        let (kind, texts) = self.scope(id, part)?;
        Ok(body_lists::read_scope(kind, &texts).expect("the library returns a constraint"))
    }

    /// Returns the constraint on the principal of the policy or template with this id. A link has the constraint of its
    /// template, with the bound uid in place of the slot.
    ///
    /// # Errors
    ///
    /// - `NoBody`: the id is not bound.
    /// - `Memory`: an allocation failed.
    ///
    /// ```
    /// use cedar_store_proved::{EntityUID, Effect, PolicySet, SlotEnv, SlotId, Slots};
    /// let alice = EntityUID::from_normalized_str(r#"User::"alice""#).unwrap();
    /// let mut set = PolicySet::new();
    /// set.bind_template("t", Effect::Permit, Slots::principal()).unwrap();
    /// set.link("t", "l", SlotEnv::from([(SlotId::principal(), alice)])).unwrap();
    /// assert_eq!(set.principal_constraint("t").unwrap().to_string(), "principal == ?principal");
    /// assert_eq!(set.principal_constraint("l").unwrap().to_string(), r#"principal == User::"alice""#);
    /// assert_eq!(set.condition("l").unwrap().to_string(), "(principal == ?principal) && (true && (true && true))");
    /// ```
    pub fn principal_constraint(&self, id: impl AsRef<str>) -> Result<PrincipalConstraint, Error> {
        self.read_constraint(id.as_ref(), 0)
            .map(PrincipalConstraint::new)
    }

    /// Returns the constraint on the action of the policy or template with this id. A link has the constraint of its
    /// template, with the bound uid in place of the slot.
    ///
    /// # Errors
    ///
    /// - `NoBody`: the id is not bound.
    /// - `Memory`: an allocation failed.
    pub fn action_constraint(&self, id: impl AsRef<str>) -> Result<ActionConstraint, Error> {
        let (kind, texts) = self.scope(id.as_ref(), 1)?;
        Ok(body_lists::read_action(kind, &texts).expect("the library returns a constraint"))
    }

    /// Returns the constraint on the resource of the policy or template with this id. A link has the constraint of its
    /// template, with the bound uid in place of the slot.
    ///
    /// # Errors
    ///
    /// - `NoBody`: the id is not bound.
    /// - `Memory`: an allocation failed.
    pub fn resource_constraint(&self, id: impl AsRef<str>) -> Result<ResourceConstraint, Error> {
        self.read_constraint(id.as_ref(), 2)
            .map(ResourceConstraint::new)
    }

    // Returns the last expression that the library wrote.
    fn expr(&self) -> Expr {
        let (text, nodes) = (self.handle.result_text(), self.handle.nodes());
        read_clause(&text, &nodes).expect("the library returns an expression")
    }

    /// Returns the clause of the policy or template with this id, if it has one. A link has the clause of its template,
    /// with unfilled slots.
    ///
    /// # Errors
    ///
    /// - `NoBody`: the id is not bound.
    /// - `Memory`: an allocation failed.
    pub fn non_scope_constraints(&self, id: impl AsRef<str>) -> Result<Option<Expr>, Error> {
        let (status, has) = self.handle.clause(id.as_ref());
        self.check_status(status)?;
        Ok(has.then(|| self.expr()))
    }

    /// Returns the condition of the policy or template with this id. A link has the condition of its template, with
    /// unfilled slots.
    ///
    /// # Errors
    ///
    /// - `NoBody`: the id is not bound.
    /// - `Memory`: an allocation failed.
    pub fn condition(&self, id: impl AsRef<str>) -> Result<Expr, Error> {
        self.check_status(self.handle.condition(id.as_ref()))?;
        Ok(self.expr())
    }

    /// Returns the uids of the unknown entities in the condition of the link or static policy with this id. The uids
    /// are in ascending order, each once. An unknown counts if it has an entity type and its name is the text of a uid.
    ///
    /// # Errors
    ///
    /// - `NoBody`: no link or static policy has this id.
    /// - `Memory`: an allocation failed.
    ///
    /// ```
    /// use cedar_store_proved::{Effect, PolicySet};
    /// let mut set = PolicySet::new();
    /// set.bind_static("p", Effect::Permit).unwrap();
    /// assert!(set.unknown_entities("p").unwrap().is_empty());
    /// ```
    pub fn unknown_entities(&self, id: impl AsRef<str>) -> Result<Vec<EntityUID>, Error> {
        self.check_status(self.handle.unknown_entities(id.as_ref()))?;
        Ok(self.handle.map_results(EntityUID::from_valid_text))
    }

    /// Reads a body of the set.
    pub(crate) fn encoded_body(&self, id: &PolicyID) -> Result<Template, Error> {
        let annotation = |(key, val): (String, String)| {
            (AnyId::from_valid_text(&key), Annotation { val, loc: None })
        };
        let annotations: Annotations = self.annotations(id)?.into_iter().map(annotation).collect();
        Ok(Template::new(
            id.clone(),
            None,
            annotations,
            self.effect(id)?,
            self.principal_constraint(id)?,
            self.action_constraint(id)?,
            self.resource_constraint(id)?,
            self.non_scope_constraints(id)?,
        ))
    }
}
