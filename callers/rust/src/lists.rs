//! Lists of entities in the format of the C library: one text, the spans of the uids in it, edges to parents, and the
//! other content of the entities.
use crate::entity::Entity;
use crate::nodes::{Draft, Node, Term};
use crate::uid::EntityUID;
use std::borrow::Borrow;
use std::collections::HashMap;

/// A span of a text.
#[repr(C)]
#[derive(Clone, Copy, Default)]
pub(crate) struct Span {
    pub(crate) start: usize,
    pub(crate) end: usize,
}

/// An edge from an entity of a list to one of its parents.
#[repr(C)]
#[derive(Clone, Copy)]
pub(crate) struct Edge {
    pub(crate) from: usize,
    pub(crate) to: usize,
}

/// Uids and edges. The first `count` uids are the uids of the entities.
#[derive(Default)]
pub(crate) struct Lists {
    pub(crate) text: String,
    pub(crate) uids: Vec<Span>,
    pub(crate) count: usize,
    pub(crate) edges: Vec<Edge>,
}

/// Uids and edges, with edges to indirect ancestors, attributes and tags.
pub(crate) struct Content {
    pub(crate) lists: Lists,
    pub(crate) indirect: Vec<Edge>,
    pub(crate) terms: Vec<Term>,
    pub(crate) nodes: Vec<Node>,
}

// The index of each uid.
type Places<'a> = HashMap<&'a str, usize>;

impl Lists {
    /// Appends a text, without adding a uid. Returns its span.
    pub(crate) fn part(&mut self, text: &str) -> Span {
        let start = self.text.len();
        self.text.push_str(text);
        Span {
            start,
            end: self.text.len(),
        }
    }

    /// Appends a uid. Returns its index.
    pub(crate) fn push_uid(&mut self, uid: &str) -> usize {
        let at = self.part(uid);
        self.uids.push(at);
        self.uids.len() - 1
    }

    /// Encodes texts, in order.
    pub(crate) fn of_texts<U: AsRef<str>>(texts: impl IntoIterator<Item = U>) -> Lists {
        let mut lists = Lists::default();
        for text in texts {
            lists.push_uid(text.as_ref());
        }
        lists
    }

    // Encodes the uids of entities. Also returns the first index of each.
    fn of_uids<'a>(entities: &[&'a Entity]) -> (Lists, Places<'a>) {
        let uids = || entities.iter().map(|entity| entity.uid().as_str());
        let mut lists = Lists::of_texts(uids());
        lists.count = entities.len();
        let mut places = HashMap::with_capacity(entities.len());
        for (place, uid) in uids().enumerate() {
            places.entry(uid).or_insert(place);
        }
        (lists, places)
    }

    // Returns the index of a uid. Appends the uid if it is new.
    fn place<'a>(&mut self, places: &mut Places<'a>, uid: &'a EntityUID) -> usize {
        *places
            .entry(uid.as_str())
            .or_insert_with(|| self.push_uid(uid.as_str()))
    }

    /// Encodes entities with their parents. The parents that are not among the entities follow the entities.
    pub(crate) fn of_entities(entities: &[impl Borrow<Entity>]) -> Lists {
        let entities: Vec<&Entity> = entities.iter().map(Borrow::borrow).collect();
        let (mut lists, mut places) = Lists::of_uids(&entities);
        for (from, entity) in entities.iter().enumerate() {
            for parent in entity.parents() {
                let to = lists.place(&mut places, parent);
                lists.edges.push(Edge { from, to });
            }
        }
        lists
    }
}

impl Content {
    /// Encodes entities with all of their content. The ancestors that are not among the entities follow the entities.
    pub(crate) fn of_entities(entities: &[impl Borrow<Entity>]) -> Content {
        let entities: Vec<&Entity> = entities.iter().map(Borrow::borrow).collect();
        let (mut lists, mut places) = Lists::of_uids(&entities);
        let (mut indirect, mut terms) = (Vec::new(), Vec::new());
        for (from, entity) in entities.iter().enumerate() {
            for parent in entity.parents() {
                let to = lists.place(&mut places, parent);
                lists.edges.push(Edge { from, to });
            }
            for ancestor in entity.indirect_ancestors() {
                let to = lists.place(&mut places, ancestor);
                indirect.push(Edge { from, to });
            }
        }
        let mut draft = Draft::over(&mut lists);
        for (of, entity) in entities.iter().enumerate() {
            let attrs = entity.attrs().map(|(key, value)| (0, key, value));
            let tags = entity.tags().map(|(key, value)| (1, key, value));
            for (part, key, value) in attrs.chain(tags) {
                let key = draft.key(key);
                let (from, to) = draft.term(value);
                terms.push(Term {
                    of,
                    part,
                    key,
                    from,
                    to,
                });
            }
        }
        let nodes = draft.into_nodes();
        Content {
            lists,
            indirect,
            terms,
            nodes,
        }
    }
}
