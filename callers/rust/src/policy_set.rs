//! Policy sets.
use crate::body::TemplateBody;
use crate::body_lists::BodyLists;
use crate::deep_copy::PolicySetDeepCopy;
use crate::error::Error;
use crate::errors::{
    LinkingError, PolicySetError, PolicySetGetLinksError, PolicySetPolicyRemovalError,
    PolicySetTemplateRemovalError, PolicySetUnlinkError,
};
use crate::ffi::{OwnedHandle, Sets};
use crate::invalid::PolicySetValidationError;
use crate::key::Key;
use crate::lists::Lists;
use crate::policies_cache::{get_or_try_init, Renaming, SetCache};
use crate::policies_iters::{
    AllTemplates, IntoPolicies, LinkedIds, Policies, StaticPolicies, Templates,
};
use crate::policies_queries::Bound;
use crate::policy::{Effect, Policy, PolicyID, Slots};
use crate::slots::{SlotEnv, SlotId};
use crate::template::{StaticPolicy, Template};
use crate::uid::EntityUID;
use std::cell::OnceCell;
use std::fmt;
use std::sync::Arc;

// The panic message of calls that cannot return an error.
const MEMORY: &str = "cannot allocate the result of a query";

/// A policy set: ids are bound to static policies, to templates, and to links of templates. A call that returns an
/// error leaves the set unchanged, also after a failed allocation.
///
/// Calls that the package `cedar-store` also has have the same names. Calls that read return references to cached
/// items. Reading all ids needs two calls of the library. A policy needs two calls when it is first requested, and a
/// template needs six. A merge clears the cache. These calls panic if an allocation fails, as the collections of the
/// standard library abort. In addition, there are calls with an id, for example [`PolicySet::bind_static`] and
/// [`PolicySet::effect`]. Each of them calls the library once and returns an error if an allocation fails. An id is a
/// [`PolicyID`] or a text.
///
/// The C library does not store locations, so an item that is read from a set has none.
///
/// ```
/// use cedar_store_proved::ast::*;
/// let (t, l) = (PolicyID::from_string("t"), PolicyID::from_string("l"));
/// let alice = EntityUID::from_normalized_str(r#"User::"alice""#).unwrap();
/// let mut set = PolicySet::new();
/// let template = Template::new(
///     t.clone(),
///     None,
///     Annotations::new(),
///     Effect::Permit,
///     PrincipalConstraint::is_eq_slot(),
///     ActionConstraint::any(),
///     ResourceConstraint::any(),
///     Some(Expr::is_eq(Expr::var(Var::Principal), Expr::var(Var::Resource))),
/// );
/// set.add_template(template.clone()).unwrap();
/// assert_eq!(set.get_template(&t), Some(&template));
/// let link = set.link(t.clone(), l.clone(), SlotEnv::from([(SlotId::principal(), alice.clone())])).unwrap();
/// assert_eq!(link.to_string(), r#"Template Instance of t, slots: [?principal -> User::"alice"]"#);
/// assert_eq!(set.get(&l).unwrap().principal_constraint().to_string(), r#"principal == User::"alice""#);
/// assert_eq!(set.get_linked_policies(&t).unwrap().collect::<Vec<_>>(), [&l]);
/// assert_eq!(set.unlink(&l).unwrap().template().id(), &t);
/// ```
///
/// A set belongs to the thread that created it: it is neither `Send` nor `Sync`. The result of
/// [`PolicySet::deep_copy`] is `Send`.
///
/// ```compile_fail
/// fn sends<T: Send>(_: T) {}
/// sends(cedar_store_proved::ast::PolicySet::new());
/// ```
///
/// ```compile_fail
/// fn shares<T: Sync>(_: T) {}
/// shares(cedar_store_proved::ast::PolicySet::new());
/// ```
pub struct PolicySet {
    pub(crate) handle: OwnedHandle<Sets>,
    cache: OnceCell<SetCache>,
}

pub(crate) fn expect_allocated<T>(result: Result<T, Error>) -> T {
    result.expect(MEMORY)
}

impl PolicySet {
    fn of(handle: Result<OwnedHandle<Sets>, u32>) -> Result<PolicySet, Error> {
        match handle {
            Ok(handle) => Ok(PolicySet::from_handle(handle)),
            Err(status) => Err(Error::new(status, Vec::new)),
        }
    }

    pub(crate) fn from_handle(handle: OwnedHandle<Sets>) -> PolicySet {
        PolicySet {
            handle,
            cache: OnceCell::new(),
        }
    }

    pub(crate) fn check_status(&self, status: u32) -> Result<(), Error> {
        Error::check_status(status, || self.handle.error_text())
    }

    /// Creates an empty set, with a random key.
    ///
    /// # Panics
    ///
    /// Panics if the allocation of a few bytes fails. [`PolicySet::with_key`] returns an error instead.
    pub fn new() -> PolicySet {
        PolicySet::with_key(Key::random()).expect("cannot allocate an empty set")
    }

    /// Creates an empty set. The hash maps of the set and of its copies use this key.
    ///
    /// # Errors
    ///
    /// - `Memory`: an allocation failed.
    pub fn with_key(key: Key) -> Result<PolicySet, Error> {
        PolicySet::of(OwnedHandle::new(key))
    }

    // ---- edits

    /// Creates a set with only this policy and its template.
    ///
    /// # Panics
    ///
    /// Panics if the policy is a link with the id of its template, or if an allocation fails.
    /// [`PolicySet::try_from_iter`] returns an error instead.
    pub fn singleton(policy: Policy) -> PolicySet {
        PolicySet::try_from_iter([policy]).expect("cannot create a set of one policy")
    }

    /// Creates a set by adding policies to an empty set, one after another.
    ///
    /// # Errors
    ///
    /// The first error of [`PolicySet::add`].
    pub fn try_from_iter(
        policies: impl IntoIterator<Item = Policy>,
    ) -> Result<PolicySet, PolicySetError> {
        let mut set = PolicySet::with_key(Key::random())?;
        for policy in policies {
            set.add(policy)?;
        }
        Ok(set)
    }

    /// Adds a static policy.
    ///
    /// # Errors
    ///
    /// - `Occupied`: the id is already bound.
    /// - `Other`: the clause has more than 1,000 levels, or an allocation failed.
    ///
    /// ```
    /// use cedar_store_proved::ast::*;
    /// let policy = |effect| {
    ///     StaticPolicy::new(
    ///         PolicyID::from_string("p"),
    ///         None,
    ///         Annotations::new(),
    ///         effect,
    ///         PrincipalConstraint::any(),
    ///         ActionConstraint::any(),
    ///         ResourceConstraint::any(),
    ///         None,
    ///     )
    ///     .unwrap()
    /// };
    /// let mut set = PolicySet::new();
    /// set.add_static(policy(Effect::Permit)).unwrap();
    /// let error = set.add_static(policy(Effect::Forbid)).unwrap_err();
    /// assert_eq!(error, PolicySetError::Occupied { id: PolicyID::from_string("p") });
    /// ```
    pub fn add_static(&mut self, policy: StaticPolicy) -> Result<(), PolicySetError> {
        self.insert_static_body(policy.body())
    }

    // Adds a static policy with this body. The library returns an error if the body contains a slot.
    fn insert_static_body(&mut self, body: &TemplateBody) -> Result<(), PolicySetError> {
        let id = body.id().as_ref();
        let status = self.handle.add_static_with(id, &BodyLists::of(body));
        self.record_static(status, id)
    }

    fn record_static(&mut self, status: u32, id: &str) -> Result<(), PolicySetError> {
        self.check_status(status)?;
        if let Some(cache) = self.cache.get_mut() {
            let id = PolicyID::from_string(id);
            cache.push_body(id.clone());
            cache.policies.push(id, OnceCell::new());
        }
        Ok(())
    }

    /// Adds a template.
    ///
    /// # Errors
    ///
    /// - `Occupied`: the id is already bound.
    /// - `Other`: the clause has more than 1,000 levels, or an allocation failed.
    pub fn add_template(&mut self, template: Template) -> Result<(), PolicySetError> {
        self.insert_template_body(template.body())
    }

    fn insert_template_body(&mut self, body: &TemplateBody) -> Result<(), PolicySetError> {
        let id = body.id().as_ref();
        let status = self.handle.add_template_with(id, &BodyLists::of(body));
        self.record_template(status, id)
    }

    fn record_template(&mut self, status: u32, id: &str) -> Result<(), PolicySetError> {
        self.check_status(status)?;
        if let Some(cache) = self.cache.get_mut() {
            cache.push_body(PolicyID::from_string(id));
        }
        Ok(())
    }

    /// Adds a policy. A link is added with its template, if the set does not contain the template.
    ///
    /// # Errors
    ///
    /// - `Occupied`: the id of a static policy is already bound.
    /// - `Occupied`: the id of a link's template is bound to anything but an equal template. This is checked before the
    ///   link's own id.
    /// - `Occupied`: the id of a link is already bound, or it is also the id of its template.
    /// - `Other`: a clause has more than 1,000 levels, a static policy contains a slot, or an allocation failed.
    pub fn add(&mut self, policy: Policy) -> Result<(), PolicySetError> {
        if policy.is_static() {
            return self.insert_static_body(policy.template().body());
        }
        let (id, template_id) = (policy.id(), policy.template().id());
        let stored = match self.bound(template_id)? {
            Some(Bound::Template) => self.try_body(template_id)?,
            None => None,
            Some(Bound::Static | Bound::Link) => {
                let id = template_id.clone();
                return Err(PolicySetError::Occupied { id });
            }
        };
        if stored.is_some_and(|stored| **stored != *policy.template()) {
            let id = template_id.clone();
            return Err(PolicySetError::Occupied { id });
        }
        let is_stored = stored.is_some();
        if id == template_id || self.bound(id)?.is_some() {
            return Err(PolicySetError::Occupied { id: id.clone() });
        }
        match is_stored {
            true => Ok(self.insert_link_body(template_id, id, policy.env())?),
            false => self.insert_with_template(&policy),
        }
    }

    // Adds a link and its template. Merges a set of these two, so that either both are added or none.
    fn insert_with_template(&mut self, link: &Policy) -> Result<(), PolicySetError> {
        let (template, id) = (link.template(), link.id());
        let mut pair = PolicySet::with_key(Key::random())?;
        pair.insert_template_body(template.body())?;
        pair.bind_link(template.id(), id, link.env())?;
        let status = self.handle.merge(&pair.handle, false);
        self.check_status(status)?;
        if let Some(cache) = self.cache.get_mut() {
            cache.push_body(template.id().clone());
            cache.policies.push(id.clone(), OnceCell::new());
        }
        Ok(())
    }

    /// Adds a static policy with this effect, whose scope constraints allow any request. Calls the library once.
    ///
    /// # Errors
    ///
    /// - `Occupied`: the id is already bound.
    /// - `Other`: an allocation failed.
    ///
    /// ```
    /// use cedar_store_proved::ast::{Effect, PolicyID, PolicySet};
    /// let mut set = PolicySet::new();
    /// set.bind_static("p", Effect::Permit).unwrap();
    /// let text = "permit(\n  principal,\n  action,\n  resource\n);";
    /// assert_eq!(set.get(&PolicyID::from_string("p")).unwrap().to_string(), text);
    /// ```
    pub fn bind_static(
        &mut self,
        id: impl AsRef<str>,
        effect: Effect,
    ) -> Result<(), PolicySetError> {
        let id = id.as_ref();
        let status = self.handle.add_static(id, effect as u32);
        self.record_static(status, id)
    }

    /// Adds a template with this effect. Each variable with a slot must be equal to the uid bound to the slot. Calls
    /// the library once.
    ///
    /// # Errors
    ///
    /// - `Occupied`: the id is already bound.
    /// - `Other`: an allocation failed.
    pub fn bind_template(
        &mut self,
        id: impl AsRef<str>,
        effect: Effect,
        slots: Slots,
    ) -> Result<(), PolicySetError> {
        let id = id.as_ref();
        let status = self.handle.add_template(id, effect as u32, slots.number());
        self.record_template(status, id)
    }

    /// Links a template: adds a link with this id and these bindings. Returns the link.
    ///
    /// # Errors
    ///
    /// The checks are made in this order:
    ///
    /// - `NoSuchTemplate`: no template has the id `template_id`.
    /// - `ArityError`: the bound ids are not the ids of the template's slots.
    /// - `NotAnAction`: the action's slot is bound to a uid that is not an action.
    /// - `PolicyIdConflict`: the id `new_id` is already bound.
    ///
    /// The call returns `Other` if an allocation failed.
    ///
    /// ```
    /// use cedar_store_proved::ast::{Effect, LinkingError, PolicySet, SlotEnv, SlotId};
    /// use cedar_store_proved::Slots;
    /// let mut set = PolicySet::new();
    /// set.bind_template("t", Effect::Permit, Slots::principal()).unwrap();
    /// match set.link("t", "l", SlotEnv::new()) {
    ///     Err(LinkingError::ArityError { unbound_values, .. }) => assert_eq!(unbound_values, [SlotId::principal()]),
    ///     other => panic!("{other:?}"),
    /// }
    /// assert_eq!(set.policies().count(), 0);
    /// ```
    pub fn link(
        &mut self,
        template_id: impl AsRef<str>,
        new_id: impl AsRef<str>,
        values: SlotEnv,
    ) -> Result<&Policy, LinkingError> {
        let template_id = PolicyID::from_string(template_id);
        let new_id = PolicyID::from_string(new_id);
        self.insert_link_body(&template_id, &new_id, &values)?;
        Ok(self.get(&new_id).expect("the set contains the new link"))
    }

    // Adds a link, and caches it. Reads the template first, so that nothing can fail after the library has added the
    // link.
    fn insert_link_body(
        &mut self,
        template_id: &PolicyID,
        id: &PolicyID,
        values: &SlotEnv,
    ) -> Result<(), Error> {
        let template = self.try_body(template_id)?.cloned();
        self.bind_link(template_id, id, values)?;
        let template = template.expect("the linked template exists");
        // The library does not store the locations of bound uids.
        let bound = values.iter();
        let values = bound.map(|(slot, uid)| (*slot, EntityUID::from_valid_text(uid.as_str())));
        let link = Policy::of(template, Some(id.clone()), values.collect());
        if let Some(cache) = self.cache.get_mut() {
            cache.push_link(id.clone(), link);
        }
        Ok(())
    }

    // Adds a link to the set of the library. Calls the library once.
    fn bind_link(
        &mut self,
        template_id: &PolicyID,
        id: &PolicyID,
        values: &SlotEnv,
    ) -> Result<(), Error> {
        let bound = SlotId::ALL.map(|slot| values.get(&slot).map_or("", EntityUID::as_str));
        let values = Lists::of_texts(bound);
        let (template_id, id) = (template_id.as_ref(), id.as_ref());
        let status = self.handle.link(template_id, id, &values);
        self.check_status(status)
    }

    /// Removes the link with this id, and returns it.
    ///
    /// # Errors
    ///
    /// - `UnlinkingError`: the id is not bound.
    /// - `NotLinkError`: the id belongs to a static policy or a template.
    /// - `Other`: an allocation failed.
    pub fn unlink(&mut self, id: &PolicyID) -> Result<Policy, PolicySetUnlinkError> {
        let policy = self.try_policy(id)?.cloned();
        let status = self.handle.unlink(id.as_ref());
        self.check_status(status)?;
        Ok(self.record_removal(policy))
    }

    // Updates the cache after a policy was removed. `policy` was read before.
    fn record_removal(&mut self, policy: Option<Policy>) -> Policy {
        let policy = policy.expect("the removed policy was in the set");
        if let Some(cache) = self.cache.get_mut() {
            cache.remove_policy(&policy);
        }
        policy
    }

    /// Removes the static policy with this id, and returns it.
    ///
    /// # Errors
    ///
    /// - `RemovePolicyNoLinkError`: no policy has this id.
    /// - `RemovePolicyNoTemplateError`: the id belongs to a link.
    /// - `Other`: an allocation failed.
    pub fn remove_static(&mut self, id: &PolicyID) -> Result<Policy, PolicySetPolicyRemovalError> {
        let policy = self.try_policy(id)?.cloned();
        let status = self.handle.remove_static(id.as_ref());
        self.check_status(status)?;
        Ok(self.record_removal(policy))
    }

    /// Removes the template with this id, and returns it.
    ///
    /// # Errors
    ///
    /// - `RemovePolicyNoTemplateError`: the id is not bound.
    /// - `RemoveTemplateWithLinksError`: the template has links.
    /// - `NotTemplateError`: the id belongs to a static policy or a link.
    /// - `Other`: an allocation failed.
    pub fn remove_template(
        &mut self,
        id: &PolicyID,
    ) -> Result<Template, PolicySetTemplateRemovalError> {
        let template = self.try_body(id)?.cloned();
        let status = self.handle.remove_template(id.as_ref());
        self.check_status(status)?;
        if let Some(cache) = self.cache.get_mut() {
            cache.remove_body(id);
        }
        let template = template.expect("the removed template was in the set");
        Ok(Arc::unwrap_or_clone(template))
    }

    /// Merges another set into this one. If an id is bound to different items in the two sets, `rename` decides what
    /// happens. If it is true, the item of the other set gets a new id; otherwise an error is returned. Returns the
    /// renamed ids.
    ///
    /// # Errors
    ///
    /// - `Occupied`: `rename` is false, and both sets bind the id to different items. The error names the first such
    ///   id.
    /// - `Other`: an allocation failed.
    ///
    /// ```
    /// use cedar_store_proved::ast::{Effect, PolicyID, PolicySet};
    /// let (mut one, mut other) = (PolicySet::new(), PolicySet::new());
    /// one.bind_static("p", Effect::Permit).unwrap();
    /// other.bind_static("p", Effect::Forbid).unwrap();
    /// assert!(one.merge_policyset(&other, false).is_err());
    /// let renaming = one.merge_policyset(&other, true).unwrap();
    /// assert_eq!(renaming.get(&PolicyID::from_string("p")), Some(&PolicyID::from_string("policy0")));
    /// ```
    pub fn merge_policyset(
        &mut self,
        other: &PolicySet,
        rename: bool,
    ) -> Result<Renaming, PolicySetError> {
        let status = self.handle.merge(&other.handle, rename);
        self.check_status(status)?;
        self.cache.take();
        Ok(Renaming::of(
            self.handle.map_results(|id| PolicyID::from_string(id)),
        ))
    }

    // ---- cached reads

    fn try_cache(&self) -> Result<&SetCache, Error> {
        get_or_try_init(&self.cache, || {
            Ok(SetCache::of(self.body_ids()?, self.policy_ids()?))
        })
    }

    fn try_body(&self, id: &PolicyID) -> Result<Option<&Arc<Template>>, Error> {
        let body = self.try_cache()?.bodies.at(id);
        body.map(|body| get_or_try_init(body, || Ok(Arc::new(self.encoded_body(id)?))))
            .transpose()
    }

    fn try_policy(&self, id: &PolicyID) -> Result<Option<&Policy>, Error> {
        let policy = self.try_cache()?.policies.at(id);
        policy
            .map(|policy| get_or_try_init(policy, || self.read_policy(id)))
            .transpose()
    }

    fn cache(&self) -> &SetCache {
        expect_allocated(self.try_cache())
    }

    // Reads a policy of the set.
    fn read_policy(&self, id: &PolicyID) -> Result<Policy, Error> {
        let template_id = PolicyID::from_smolstr(self.template_id(id)?);
        let template = self.try_body(&template_id)?.expect("a policy has a body");
        let link = (template_id != *id).then(|| id.clone());
        Ok(Policy::of(template.clone(), link, self.env(id)?))
    }

    /// Returns whether the set contains neither a policy nor a template.
    ///
    /// # Panics
    ///
    /// Panics if an allocation fails.
    pub fn is_empty(&self) -> bool {
        self.cache().bodies.is_empty()
    }

    /// Returns the static policy or the link with this id, if there is one. The first request calls the library twice,
    /// and reads the template as [`PolicySet::get_template`] does.
    ///
    /// # Panics
    ///
    /// Panics if an allocation fails.
    pub fn get(&self, id: &PolicyID) -> Option<&Policy> {
        expect_allocated(self.try_policy(id))
    }

    /// Returns the template with this id, or the body of the static policy with this id. The first request calls the
    /// library six times.
    ///
    /// # Panics
    ///
    /// Panics if an allocation fails.
    pub fn get_template(&self, id: &PolicyID) -> Option<&Template> {
        expect_allocated(self.try_body(id)).map(Arc::as_ref)
    }

    /// Returns the shared template with this id, or the shared body of the static policy with this id.
    ///
    /// # Panics
    ///
    /// Panics if an allocation fails.
    pub fn get_template_arc(&self, id: &PolicyID) -> Option<Arc<Template>> {
        expect_allocated(self.try_body(id)).cloned()
    }

    /// Iterates over all policies, which are static policies and links, in insertion order.
    ///
    /// # Panics
    ///
    /// Panics if an allocation fails.
    pub fn policies(&self) -> Policies<'_> {
        let ids = self.cache().policies.ids();
        Policies { set: self, ids }
    }

    /// Consumes the set, and iterates over all policies in insertion order.
    ///
    /// # Panics
    ///
    /// Panics if an allocation fails.
    pub fn into_policies(self) -> IntoPolicies {
        let policies: Vec<Policy> = self.policies().cloned().collect();
        IntoPolicies(policies.into_iter())
    }

    /// Iterates over the bodies of all static policies and templates, in insertion order.
    ///
    /// # Panics
    ///
    /// Panics if an allocation fails.
    pub fn all_templates(&self) -> AllTemplates<'_> {
        let ids = self.cache().bodies.ids();
        AllTemplates { set: self, ids }
    }

    /// Iterates over the templates that have slots, in insertion order.
    ///
    /// # Panics
    ///
    /// Panics if an allocation fails.
    pub fn templates(&self) -> Templates<'_> {
        Templates(self.all_templates())
    }

    /// Iterates over the static policies, in insertion order.
    ///
    /// # Panics
    ///
    /// Panics if an allocation fails.
    pub fn static_policies(&self) -> StaticPolicies<'_> {
        StaticPolicies(self.policies())
    }

    /// Iterates over the ids of the links of a template, in insertion order. For a static policy, returns only its own
    /// id.
    ///
    /// # Errors
    ///
    /// - `MissingTemplate`: no template or static policy has this id.
    ///
    /// # Panics
    ///
    /// Panics if an allocation fails.
    pub fn get_linked_policies(
        &self,
        id: &PolicyID,
    ) -> Result<LinkedIds<'_>, PolicySetGetLinksError> {
        let Some(links) = self.cache().links.at(id) else {
            return Err(PolicySetGetLinksError::MissingTemplate(id.clone()));
        };
        let read_links = || {
            expect_allocated(self.linked(id))
                .into_iter()
                .map(PolicyID::from_smolstr)
                .collect()
        };
        Ok(LinkedIds(links.get_or_init(read_links).iter()))
    }

    /// Checks whether the set is valid. Calls the library once. Does not change the set.
    ///
    /// # Errors
    ///
    /// Links are checked before bodies, and the first fault is reported:
    ///
    /// - `SlotlessLink`: a template without slots has a link. The error names the first such link.
    /// - `SlotInClause`, `NotActions` or `UnknownFunction`: a body is not valid; see [`Template::try_validate`]. The
    ///   error names the first such body.
    ///
    /// The call returns `Memory` if an allocation failed.
    ///
    /// ```
    /// use cedar_store_proved::{ast::SlotEnv, Effect, PolicySet, Reason, Slots};
    /// let mut set = PolicySet::new();
    /// set.bind_template("t", Effect::Permit, Slots::none()).unwrap();
    /// assert!(set.validate().is_ok());
    /// set.link("t", "l", SlotEnv::new()).unwrap();
    /// let error = set.validate().unwrap_err();
    /// assert_eq!((error.reason(), error.to_string().as_str()), (Reason::SlotlessLink, "link without slots l"));
    /// ```
    pub fn validate(&self) -> Result<(), Error> {
        self.check_status(self.handle.validate())
    }

    /// Returns the set itself if its links and its bodies are valid. Reads the whole set.
    ///
    /// # Errors
    ///
    /// Links are checked before bodies, and the first fault is reported:
    ///
    /// - `LinkToSlotlessTemplate`: a template without slots has a link. The error names the first such link.
    /// - `InvalidTemplate`: a body is not valid; see [`Template::try_validate`]. The error names the first such body.
    ///
    /// # Panics
    ///
    /// Panics if an allocation fails.
    pub fn try_validate(self) -> Result<PolicySet, PolicySetValidationError> {
        let is_slotless = |link: &&Policy| !link.is_static() && link.template().is_static();
        if let Some(link) = self.policies().find(is_slotless) {
            return Err(PolicySetValidationError::LinkToSlotlessTemplate {
                link_id: link.id().clone(),
                template_id: link.template().id().clone(),
            });
        }
        for template in self.all_templates() {
            template.check().map_err(|error| {
                let id = template.id().clone();
                PolicySetValidationError::InvalidTemplate { id, error }
            })?;
        }
        Ok(self)
    }

    /// Returns a deep copy of the set, which can be sent to another thread. Copies the whole content of the set.
    ///
    /// # Errors
    ///
    /// - `Memory`: an allocation failed.
    pub fn deep_copy(&self) -> Result<PolicySetDeepCopy, Error> {
        match self.handle.deep_copy() {
            Ok(handle) => Ok(PolicySetDeepCopy::of(handle)),
            Err(status) => Err(Error::new(status, Vec::new)),
        }
    }

    /// Copies the set.
    ///
    /// # Errors
    ///
    /// - `Memory`: an allocation failed.
    pub fn try_clone(&self) -> Result<PolicySet, Error> {
        PolicySet::of(self.handle.copy())
    }
}

impl Clone for PolicySet {
    /// Copies the set.
    ///
    /// # Panics
    ///
    /// Panics if an allocation fails. [`PolicySet::try_clone`] returns an error instead.
    fn clone(&self) -> PolicySet {
        expect_allocated(self.try_clone())
    }
}

impl PartialEq for PolicySet {
    /// Returns whether both sets have equal bodies in the same order, and equal policies in the same order.
    fn eq(&self, other: &PolicySet) -> bool {
        self.handle.is_equal(&other.handle)
    }
}

impl Eq for PolicySet {}

impl Default for PolicySet {
    fn default() -> PolicySet {
        PolicySet::new()
    }
}

impl fmt::Display for PolicySet {
    /// Writes the bodies and the policies, in their orders. Calls the library once.
    fn fmt(&self, f: &mut fmt::Formatter<'_>) -> fmt::Result {
        let text = self.text(self.handle.text()).map_err(|_| fmt::Error)?;
        f.write_str(&text)
    }
}

impl fmt::Debug for PolicySet {
    fn fmt(&self, f: &mut fmt::Formatter<'_>) -> fmt::Result {
        f.debug_struct("PolicySet").finish_non_exhaustive()
    }
}
