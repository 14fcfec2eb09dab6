//! The declarations of the functions of `cedar.h`, and handles with safe calls. All unsafe code of this crate is in
//! this file and in the folder `ffi`. It keeps the rules of the header as follows:
//!
//! - A handle starts as zeroes, and only the library writes its bytes. It is not copied. Because it contains a pointer,
//!   it is neither sent to another thread nor shared with one, except in a [`DeepCopyHandle`]. The library does not
//!   store the address of a handle, so a handle may be moved.
//! - Pointers and lengths are pointers and lengths of slices. The pointer of a slice is never null and its length is
//!   below 2^63. Memory that a call writes does not overlap memory that it reads: the first is borrowed mutably, and
//!   the second is borrowed as shared.
//! - A call runs no code of its caller. So a handle is never used by two calls at the same time, even if both have only
//!   shared borrows.
//! - Two handles of one call are different. Either one of them is new, or one is borrowed mutably, or their addresses
//!   are compared first.
mod deep_copy;
mod numbers;
mod queries;

use crate::body_lists::{AnnotationSpans, BodyLists, Head};
use crate::key::Key;
use crate::lists::{Content, Edge, Lists, Span};
use crate::nodes::{Node, Term};
use std::cell::UnsafeCell;
use std::marker::PhantomData;
use std::os::raw::c_void;

pub(crate) use deep_copy::DeepCopyHandle;

/// The library's handle of a store or a set. All zeroes are a closed handle.
#[repr(C)]
struct Handle {
    at: *mut c_void,
    is_open: bool,
}

// Declares functions of the library with the same parameters, and a pointer type for them.
macro_rules! declare {
    ($kind:ident $args:tt -> $result:ty: $($name:ident)+) => {
        type $kind = unsafe extern "C" fn $args -> $result;
        declare!($args -> $result: $($name)+);
    };
    ($args:tt -> $result:ty: $($name:ident)+) => {
        extern "C" { $(fn $name $args -> $result;)+ }
    };
}

declare!(NewFn(s: *mut Handle, seed: u64, key: u64) -> u32: cedar_store_new cedar_policies_new);
declare!(FreeFn(s: *mut Handle) -> (): cedar_store_free cedar_policies_free);
declare!(CopyFn(from: *mut Handle, to: *mut Handle) -> u32: cedar_store_copy cedar_policies_copy
    cedar_store_deep_copy cedar_policies_deep_copy);
declare!(EqualFn(one: *mut Handle, other: *mut Handle, result: *mut bool) -> u32:
    cedar_store_equal cedar_policies_equal);
declare!(ResultTextFn(s: *mut Handle, from: usize, out: *mut u8, capacity: usize) -> usize:
    cedar_store_result cedar_policies_result);
declare!(SpansFn(s: *mut Handle, from: usize, out: *mut Span, capacity: usize) -> usize:
    cedar_store_result_spans cedar_policies_result_spans);
declare!(ErrorTextFn(s: *mut Handle, out: *mut u8, capacity: usize) -> usize:
    cedar_store_error_text cedar_policies_error_text);
declare!(NodesFn(s: *mut Handle, from: usize, out: *mut Node, capacity: usize) -> usize:
    cedar_store_result_nodes cedar_policies_result_nodes);
declare!(HandleFn(s: *mut Handle) -> u32:
    cedar_store_uids cedar_store_text cedar_store_partial cedar_store_validate
    cedar_policies_text cedar_policies_validate);
declare!(TextFn(s: *mut Handle, text: *const u8, len: usize) -> u32:
    cedar_store_ancestors cedar_store_parents cedar_store_indirect_ancestors
    cedar_store_descendants cedar_store_keys cedar_store_tag_keys cedar_store_entity_text
    cedar_policies_unlink cedar_policies_remove_static cedar_policies_remove_template
    cedar_policies_annotations cedar_policies_env cedar_policies_template_id cedar_policies_linked
    cedar_policies_policy_text cedar_policies_template_text cedar_policies_condition
    cedar_policies_unknown_entities cedar_policies_naming cedar_policies_templates_naming);
declare!((s: *mut Handle, uid: *const u8, len: usize, ty: *const u8, ty_len: usize) -> u32:
    cedar_store_descendants_of_type);
declare!(NumberFn(s: *mut Handle, text: *const u8, len: usize, number: *mut u32) -> u32:
    cedar_store_entity cedar_policies_get cedar_policies_effect cedar_policies_slots);
declare!(BoolFn(s: *mut Handle, text: *const u8, len: usize, result: *mut bool) -> u32:
    cedar_store_has cedar_policies_clause);
declare!(CountFn(s: *mut Handle, uid: *const u8, len: usize, count: *mut usize) -> u32:
    cedar_store_attrs_len cedar_store_tags_len cedar_store_uid_number);
declare!(PairBoolFn(
    s: *mut Handle, first: *const u8, first_len: usize, second: *const u8, second_len: usize, result: *mut bool
) -> u32:
    cedar_store_is_descendant_of cedar_store_is_child_of cedar_store_is_indirect_descendant_of
    cedar_store_path cedar_store_reaches cedar_store_get cedar_store_get_tag cedar_policies_annotation);
declare!(EditFn(
    s: *mut Handle, text: *const u8, text_len: usize, uids: *const Span, uids_len: usize, count: usize,
    edges: *const Edge, edges_len: usize, mode: u32
) -> u32: cedar_store_build cedar_store_add cedar_store_upsert);
declare!(EditWithFn(
    s: *mut Handle, text: *const u8, text_len: usize, uids: *const Span, uids_len: usize, count: usize,
    edges: *const Edge, edges_len: usize, indirect: *const Edge, indirect_len: usize,
    terms: *const Term, terms_len: usize, nodes: *const Node, nodes_len: usize, mode: u32
) -> u32: cedar_store_build_with cedar_store_add_with cedar_store_upsert_with);

declare!(AddFn(
    p: *mut Handle, id: *const u8, len: usize, text: *const u8, text_len: usize, body: *const Head,
    annotations: *const AnnotationSpans, annotations_len: usize, uids: *const Span, uids_len: usize,
    nodes: *const Node, nodes_len: usize
) -> u32: cedar_policies_add_static_with cedar_policies_add_template_with);

declare!((s: *mut Handle) -> usize: cedar_store_len);
declare!((s: *mut Handle, result: *mut bool) -> u32: cedar_store_is_partial);
declare!((s: *mut Handle, number: usize) -> u32: cedar_store_number_uid);
declare!((s: *mut Handle, number: usize, result: *mut bool) -> u32: cedar_store_has_number);
declare!((s: *mut Handle, child: usize, ancestor: usize, result: *mut bool) -> u32:
    cedar_store_is_descendant_of_numbers);
declare!((
    s: *mut Handle, text: *const u8, text_len: usize, uids: *const Span, uids_len: usize, mode: u32
) -> u32: cedar_store_remove);
declare!((
    from: *mut Handle, to: *mut Handle, text: *const u8, text_len: usize, uids: *const Span, uids_len: usize
) -> u32: cedar_store_slice cedar_store_slice_deep_copy);
declare!((s: *mut Handle, uid: *const u8, len: usize, other: *mut Handle, result: *mut bool) -> u32:
    cedar_store_entity_equal);
declare!((p: *mut Handle, id: *const u8, len: usize, effect: u32) -> u32: cedar_policies_add_static);
declare!((p: *mut Handle, id: *const u8, len: usize, effect: u32, slots: u32) -> u32: cedar_policies_add_template);
declare!((
    p: *mut Handle, template: *const u8, template_len: usize, id: *const u8, id_len: usize,
    text: *const u8, text_len: usize, values: *const Span, values_len: usize
) -> u32: cedar_policies_link);
declare!((p: *mut Handle, other: *mut Handle, rename: bool) -> u32:
    cedar_policies_merge cedar_policies_merge_deep_copy);
declare!((p: *mut Handle, kind: u32) -> u32: cedar_policies_ids);
declare!((p: *mut Handle, id: *const u8, len: usize, part: u32, kind: *mut u32) -> u32: cedar_policies_scope);

declare!((
    input: *const u8, input_len: usize, seed: u64, key: u64, out: *mut u8, capacity: usize,
    full_len: *mut usize, exit_status: *mut u32
) -> u32: cedar_run);
declare!((text: *const u8, len: usize) -> u32: cedar_uid_check);
declare!((
    ty: *const u8, ty_len: usize, id: *const u8, id_len: usize, out: *mut u8, capacity: usize, full_len: *mut usize
) -> u32: cedar_uid_make);
declare!((
    uid: *const u8, len: usize, out: *mut u8, capacity: usize, ty_len: *mut usize, full_len: *mut usize
) -> u32: cedar_uid_parts);
declare!((status: u32, out: *mut u8, capacity: usize) -> usize: cedar_status_text);

/// Checks whether a text is a uid. Returns the status.
pub(crate) fn check_uid(text: &str) -> u32 {
    // SAFETY: the pointer and the length come from one `str`.
    unsafe { cedar_uid_check(text.as_ptr(), text.len()) }
}

// Converts bytes from the library, which are always UTF-8, to a string.
fn into_string(bytes: Vec<u8>) -> String {
    String::from_utf8(bytes).expect("the library writes UTF-8")
}

/// Returns the text of the uid with this type and this id, or the status of the failed call.
pub(crate) fn make_uid(ty: &str, id: &str) -> Result<String, u32> {
    let mut out = vec![0; ty.len() + 2 * id.len() + 16];
    loop {
        let (mut full_len, capacity) = (0, out.len());
        let (ty_at, id_at) = (ty.as_ptr(), id.as_ptr());
        // SAFETY: the pointers and the lengths come from two `str`s and a mutably borrowed buffer. The last pointer
        // comes from a mutable reference.
        let status = unsafe {
            cedar_uid_make(
                ty_at,
                ty.len(),
                id_at,
                id.len(),
                out.as_mut_ptr(),
                capacity,
                &mut full_len,
            )
        };
        if status != 0 {
            return Err(status);
        }
        out.resize(full_len, 0);
        if full_len <= capacity {
            return Ok(into_string(out));
        }
    }
}

/// Returns the type and the id of a uid, or the status of the failed call.
pub(crate) fn uid_parts(uid: &str) -> Result<(String, String), u32> {
    let mut out = vec![0; uid.len()];
    let (mut ty_len, mut full_len) = (0, 0);
    let capacity = out.len();
    // SAFETY: the pointers and the lengths come from a `str` and a mutably borrowed buffer. The last two pointers come
    // from mutable references.
    let status = unsafe {
        cedar_uid_parts(
            uid.as_ptr(),
            uid.len(),
            out.as_mut_ptr(),
            capacity,
            &mut ty_len,
            &mut full_len,
        )
    };
    if status != 0 {
        return Err(status);
    }
    // Together they are shorter than the text of the uid.
    out.truncate(full_len);
    let id = out.split_off(ty_len);
    Ok((into_string(out), into_string(id)))
}

/// Returns the message of a status.
pub(crate) fn status_text(status: u32) -> String {
    // SAFETY: the pointer and the length come from a mutably borrowed buffer.
    into_string(copy_output(0, |out| unsafe {
        cedar_status_text(status, out.as_mut_ptr(), out.len())
    }))
}

/// Runs the program on an input and writes its output to `out`. Returns the length of the whole output and the exit
/// status of the program, or the status of the failed call.
pub(crate) fn run(input: &[u8], key: Key, out: &mut [u8]) -> Result<(usize, u32), u32> {
    let (mut full_len, mut exit_status) = (0, 0);
    let (input_at, out_at) = (input.as_ptr(), out.as_mut_ptr());
    let Key { seed, key } = key;
    // SAFETY: the pointers and the lengths come from a slice and a mutably borrowed buffer. The last two pointers come
    // from mutable references.
    let status = unsafe {
        cedar_run(
            input_at,
            input.len(),
            seed,
            key,
            out_at,
            out.len(),
            &mut full_len,
            &mut exit_status,
        )
    };
    match status {
        0 => Ok((full_len, exit_status)),
        status => Err(status),
    }
}

/// The functions that both kinds of handles have.
pub(crate) struct Calls {
    new: NewFn,
    free: FreeFn,
    copy: CopyFn,
    deep_copy: CopyFn,
    equal: EqualFn,
    result_text: ResultTextFn,
    spans: SpansFn,
    nodes: NodesFn,
    error_text: ErrorTextFn,
}

/// A kind of handles.
pub(crate) trait Kind {
    const CALLS: Calls;
}

/// The kind of store handles.
pub(crate) struct Stores;

impl Kind for Stores {
    const CALLS: Calls = Calls {
        new: cedar_store_new,
        free: cedar_store_free,
        copy: cedar_store_copy,
        deep_copy: cedar_store_deep_copy,
        equal: cedar_store_equal,
        result_text: cedar_store_result,
        spans: cedar_store_result_spans,
        nodes: cedar_store_result_nodes,
        error_text: cedar_store_error_text,
    };
}

/// The kind of set handles.
pub(crate) struct Sets;

impl Kind for Sets {
    const CALLS: Calls = Calls {
        new: cedar_policies_new,
        free: cedar_policies_free,
        copy: cedar_policies_copy,
        deep_copy: cedar_policies_deep_copy,
        equal: cedar_policies_equal,
        result_text: cedar_policies_result,
        spans: cedar_policies_result_spans,
        nodes: cedar_policies_result_nodes,
        error_text: cedar_policies_error_text,
    };
}

/// An owned handle, which is freed when it is dropped. Its calls return statuses. The output of a call is valid only if
/// its status is 0.
pub(crate) struct OwnedHandle<K: Kind> {
    handle: UnsafeCell<Handle>,
    kind: PhantomData<K>,
}

// The initial size of the buffer for an output.
const INITIAL_CAPACITY: usize = 32;

// Copies an output of the library. Calls the library a second time if the first buffer is too small.
fn copy_output<T: Clone>(filler: T, call: impl Fn(&mut [T]) -> usize) -> Vec<T> {
    let mut out = vec![filler.clone(); INITIAL_CAPACITY];
    let full_len = call(&mut out);
    out.resize(full_len, filler);
    if full_len > INITIAL_CAPACITY {
        call(&mut out);
    }
    out
}

impl<K: Kind> OwnedHandle<K> {
    // Creates a closed handle.
    fn closed() -> OwnedHandle<K> {
        let at = std::ptr::null_mut();
        OwnedHandle {
            handle: UnsafeCell::new(Handle { at, is_open: false }),
            kind: PhantomData,
        }
    }

    fn at(&self) -> *mut Handle {
        self.handle.get()
    }

    // Creates a handle that a call opens.
    fn open_with(call: impl FnOnce(*mut Handle) -> u32) -> Result<OwnedHandle<K>, u32> {
        let handle = OwnedHandle::closed();
        match call(handle.at()) {
            0 => Ok(handle),
            status => Err(status),
        }
    }

    /// Creates a handle of an empty store or set.
    pub(crate) fn new(key: Key) -> Result<OwnedHandle<K>, u32> {
        // SAFETY: the handle is new.
        OwnedHandle::open_with(|to| unsafe { (K::CALLS.new)(to, key.seed, key.key) })
    }

    /// Copies the store or set. Shares its content.
    pub(crate) fn copy(&self) -> Result<OwnedHandle<K>, u32> {
        // SAFETY: one handle is borrowed, and the other is new.
        OwnedHandle::open_with(|to| unsafe { (K::CALLS.copy)(self.at(), to) })
    }

    /// Returns whether both have the same content. A handle is equal to itself.
    pub(crate) fn is_equal(&self, other: &OwnedHandle<K>) -> bool {
        let mut result = std::ptr::eq(self, other);
        if !result {
            // SAFETY: both handles are borrowed, and they are different.
            unsafe { (K::CALLS.equal)(self.at(), other.at(), &mut result) };
        }
        result
    }

    /// Returns the texts of the last result, concatenated.
    pub(crate) fn result_text(&self) -> String {
        // SAFETY: the handle is borrowed. The pointer and the length come from a mutably borrowed buffer.
        into_string(copy_output(0, |out| unsafe {
            (K::CALLS.result_text)(self.at(), 0, out.as_mut_ptr(), out.len())
        }))
    }

    /// Converts each text of the last result.
    pub(crate) fn map_results<T>(&self, convert: impl Fn(&str) -> T) -> Vec<T> {
        let text = self.result_text();
        // SAFETY: as in `result_text`.
        let spans = copy_output(Span { start: 0, end: 0 }, |out| unsafe {
            (K::CALLS.spans)(self.at(), 0, out.as_mut_ptr(), out.len())
        });
        spans
            .iter()
            .map(|span| convert(&text[span.start..span.end]))
            .collect()
    }

    /// Returns the nodes of the last value, or of the last expression of a set.
    pub(crate) fn nodes(&self) -> Vec<Node> {
        // SAFETY: as in `result_text`.
        copy_output(Node::default(), |out| unsafe {
            (K::CALLS.nodes)(self.at(), 0, out.as_mut_ptr(), out.len())
        })
    }

    /// Returns the message of the last error.
    pub(crate) fn error_text(&self) -> Vec<u8> {
        // SAFETY: as in `result_text`.
        copy_output(0, |out| unsafe {
            (K::CALLS.error_text)(self.at(), out.as_mut_ptr(), out.len())
        })
    }

    // The caller of the next five functions must pass a library function for this kind of handles.
    fn call(&self, call: HandleFn) -> u32 {
        // SAFETY: the handle is borrowed, and has the kind that the function takes.
        unsafe { call(self.at()) }
    }

    fn call_text(&self, call: TextFn, text: &str) -> u32 {
        // SAFETY: as in `call`. The pointer and the length come from one `str`.
        unsafe { call(self.at(), text.as_ptr(), text.len()) }
    }

    fn call_number(&self, call: NumberFn, text: &str) -> (u32, u32) {
        let mut number = 0;
        // SAFETY: as in `call_text`. The last pointer comes from a mutable reference.
        let status = unsafe { call(self.at(), text.as_ptr(), text.len(), &mut number) };
        (status, number)
    }

    fn call_bool(&self, call: BoolFn, text: &str) -> (u32, bool) {
        let mut result = false;
        // SAFETY: as in `call_text`. The last pointer comes from a mutable reference.
        let status = unsafe { call(self.at(), text.as_ptr(), text.len(), &mut result) };
        (status, result)
    }

    fn call_bool_of_two(&self, call: PairBoolFn, first: &str, second: &str) -> (u32, bool) {
        let mut result = false;
        let (at, len) = (first.as_ptr(), first.len());
        let (second_at, second_len) = (second.as_ptr(), second.len());
        // SAFETY: as in `call_text`, with two `str`s. The last pointer comes from a mutable reference.
        let status = unsafe { call(self.at(), at, len, second_at, second_len, &mut result) };
        (status, result)
    }
}

impl<K: Kind> Drop for OwnedHandle<K> {
    fn drop(&mut self) {
        // SAFETY: the handle is borrowed mutably, and is not used after this call.
        unsafe { (K::CALLS.free)(self.at()) }
    }
}

// Defines calls on a kind of handles that take only texts. Each names the method that calls the library.
macro_rules! calls {
    ($kind:ident: $($(#[$doc:meta])* $name:ident($($text:ident),+) -> $result:ty: $method:ident $call:ident;)+) => {
        impl OwnedHandle<$kind> {
            $(
                $(#[$doc])*
                pub(crate) fn $name(&self, $($text: &str),+) -> $result {
                    self.$method($call, $($text),+)
                }
            )+
        }
    };
}

calls!(Stores:
    /// Returns whether the store has an entity with this uid.
    has(uid) -> (u32, bool): call_bool cedar_store_has;
    /// Returns whether an entity is a descendant of a uid.
    is_descendant_of(child, ancestor) -> (u32, bool): call_bool_of_two cedar_store_is_descendant_of;
    /// Returns whether a uid is a parent of an entity.
    is_child_of(child, parent) -> (u32, bool): call_bool_of_two cedar_store_is_child_of;
    /// Returns whether a uid is an indirect ancestor of an entity.
    is_indirect_descendant_of(child, ancestor) -> (u32, bool): call_bool_of_two cedar_store_is_indirect_descendant_of;
    /// Returns whether an entity has an attribute with this key. If so, its nodes can be read.
    get(uid, key) -> (u32, bool): call_bool_of_two cedar_store_get;
    /// Returns whether an entity has a tag with this key. If so, its nodes can be read.
    get_tag(uid, key) -> (u32, bool): call_bool_of_two cedar_store_get_tag;
    /// Looks up a uid: 2 for an entity, 1 for an unknown entity of a partial store, 0 for no entity.
    entity(uid) -> (u32, u32): call_number cedar_store_entity;
    /// Stores the ancestors of an entity as the last result.
    ancestors(uid) -> u32: call_text cedar_store_ancestors;
    /// Stores the parents of an entity as the last result.
    parents(uid) -> u32: call_text cedar_store_parents;
    /// Stores the indirect ancestors of an entity as the last result.
    indirect_ancestors(uid) -> u32: call_text cedar_store_indirect_ancestors;
    /// Stores the keys of the attributes of an entity as the last result.
    keys(uid) -> u32: call_text cedar_store_keys;
    /// Stores the keys of the tags of an entity as the last result.
    tag_keys(uid) -> u32: call_text cedar_store_tag_keys;
    /// Stores the text of an entity as the last result.
    entity_text(uid) -> u32: call_text cedar_store_entity_text;
    /// Returns the number of attributes of an entity.
    attrs_len(uid) -> (u32, usize): call_count cedar_store_attrs_len;
    /// Returns the number of tags of an entity.
    tags_len(uid) -> (u32, usize): call_count cedar_store_tags_len;
);

calls!(Sets:
    /// Looks up an id: 1 for a static policy, 2 for a link, 3 for a template, 0 if it is not bound.
    get(id) -> (u32, u32): call_number cedar_policies_get;
    /// Returns the effect of the policy or template with this id. 0 is `permit`.
    effect(id) -> (u32, u32): call_number cedar_policies_effect;
    /// Returns the slots of a body, as a bit sum.
    slots(id) -> (u32, u32): call_number cedar_policies_slots;
    /// Returns whether there is an annotation with this key. If so, stores it as the last result.
    annotation(id, key) -> (u32, bool): call_bool_of_two cedar_policies_annotation;
    /// Stores the annotations as the last result. Each key is followed by its value.
    annotations(id) -> u32: call_text cedar_policies_annotations;
    /// Returns whether there is a clause. If so, its nodes and their text can be read.
    clause(id) -> (u32, bool): call_bool cedar_policies_clause;
    /// Makes the nodes of the condition and their text readable.
    condition(id) -> u32: call_text cedar_policies_condition;
    /// Stores the uids that are bound to the three slots as the last result.
    env(id) -> u32: call_text cedar_policies_env;
    /// Stores the id of the template of a policy as the last result.
    template_id(id) -> u32: call_text cedar_policies_template_id;
    /// Stores the ids of the policies of a template as the last result.
    linked(id) -> u32: call_text cedar_policies_linked;
    /// Stores the uids of the unknown entities in the condition of a policy as the last result.
    unknown_entities(id) -> u32: call_text cedar_policies_unknown_entities;
    /// Stores the text of a policy as the last result.
    policy_text(id) -> u32: call_text cedar_policies_policy_text;
    /// Stores the text of a body as the last result.
    template_text(id) -> u32: call_text cedar_policies_template_text;
);

/// A change of a store by a list of entities.
#[derive(Clone, Copy)]
pub(crate) enum Change {
    /// Replaces the content of the store by the entities.
    Build,
    /// Adds the entities.
    Add,
    /// Overwrites entities.
    Upsert,
}

impl Change {
    fn plain(self) -> EditFn {
        match self {
            Change::Build => cedar_store_build,
            Change::Add => cedar_store_add,
            Change::Upsert => cedar_store_upsert,
        }
    }

    fn with(self) -> EditWithFn {
        match self {
            Change::Build => cedar_store_build_with,
            Change::Add => cedar_store_add_with,
            Change::Upsert => cedar_store_upsert_with,
        }
    }
}

impl OwnedHandle<Stores> {
    /// Changes the store by entities that have only parents.
    pub(crate) fn change(&mut self, change: Change, lists: &Lists, mode: u32) -> u32 {
        let Lists {
            text,
            uids,
            count,
            edges,
        } = lists;
        let (text_at, uids_at, edges_at) = (text.as_ptr(), uids.as_ptr(), edges.as_ptr());
        let (text_len, uids_len, edges_len) = (text.len(), uids.len(), edges.len());
        // SAFETY: the handle is borrowed mutably. The pointers and the lengths come from borrowed slices.
        unsafe {
            change.plain()(
                self.at(),
                text_at,
                text_len,
                uids_at,
                uids_len,
                *count,
                edges_at,
                edges_len,
                mode,
            )
        }
    }

    /// Changes the store by entities with all of their content.
    pub(crate) fn change_with(&mut self, change: Change, content: &Content, mode: u32) -> u32 {
        let Content {
            lists,
            indirect,
            terms,
            nodes,
        } = content;
        let Lists {
            text,
            uids,
            count,
            edges,
        } = lists;
        let (text_at, uids_at, edges_at) = (text.as_ptr(), uids.as_ptr(), edges.as_ptr());
        let (indirect_at, terms_at, nodes_at) = (indirect.as_ptr(), terms.as_ptr(), nodes.as_ptr());
        // SAFETY: as in `change`.
        unsafe {
            change.with()(
                self.at(),
                text_at,
                text.len(),
                uids_at,
                uids.len(),
                *count,
                edges_at,
                edges.len(),
                indirect_at,
                indirect.len(),
                terms_at,
                terms.len(),
                nodes_at,
                nodes.len(),
                mode,
            )
        }
    }

    /// Removes the entities with these uids.
    pub(crate) fn remove(&mut self, lists: &Lists, mode: u32) -> u32 {
        let Lists { text, uids, .. } = lists;
        let (text_at, uids_at) = (text.as_ptr(), uids.as_ptr());
        // SAFETY: as in `change`.
        unsafe { cedar_store_remove(self.at(), text_at, text.len(), uids_at, uids.len(), mode) }
    }

    /// Returns a slice of the store at these uids.
    pub(crate) fn slice(&self, lists: &Lists) -> Result<OwnedHandle<Stores>, u32> {
        let Lists { text, uids, .. } = lists;
        let (text_at, uids_at) = (text.as_ptr(), uids.as_ptr());
        // SAFETY: one handle is borrowed, and the other is new. The pointers and the lengths come from borrowed slices.
        OwnedHandle::open_with(|to| unsafe {
            cedar_store_slice(self.at(), to, text_at, text.len(), uids_at, uids.len())
        })
    }

    /// Returns the number of entities.
    pub(crate) fn len(&self) -> usize {
        // SAFETY: the handle is borrowed.
        unsafe { cedar_store_len(self.at()) }
    }

    fn call_count(&self, call: CountFn, uid: &str) -> (u32, usize) {
        let mut count = 0;
        // SAFETY: the handle is borrowed. The pointer and the length come from one `str`. The last pointer comes from a
        // mutable reference.
        let status = unsafe { call(self.at(), uid.as_ptr(), uid.len(), &mut count) };
        (status, count)
    }

    /// Returns whether the entities with a uid in this store and in another store have the same attributes, tags and
    /// ancestors. If both are the same store, returns true with the status of a lookup of the uid.
    pub(crate) fn has_equal(&self, uid: &str, other: &OwnedHandle<Stores>) -> (u32, bool) {
        if std::ptr::eq(self, other) {
            return (self.attrs_len(uid).0, true);
        }
        let mut result = false;
        let (at, other_at) = (uid.as_ptr(), other.at());
        // SAFETY: both handles are borrowed, and they are different. Otherwise as in `call_bool`.
        let status =
            unsafe { cedar_store_entity_equal(self.at(), at, uid.len(), other_at, &mut result) };
        (status, result)
    }

    /// Stores the uids of all entities as the last result.
    pub(crate) fn uids(&self) -> u32 {
        self.call(cedar_store_uids)
    }

    /// Stores the text of the store as the last result.
    pub(crate) fn text(&self) -> u32 {
        self.call(cedar_store_text)
    }

    /// Makes the store partial.
    pub(crate) fn partial(&mut self) {
        self.call(cedar_store_partial);
    }

    /// Validates the store. Returns the status of the first fault.
    pub(crate) fn validate(&self) -> u32 {
        self.call(cedar_store_validate)
    }

    /// Returns whether the store is partial.
    pub(crate) fn is_partial(&self) -> bool {
        let mut result = false;
        // SAFETY: the handle is borrowed. The last pointer comes from a mutable reference.
        unsafe { cedar_store_is_partial(self.at(), &mut result) };
        result
    }
}

impl OwnedHandle<Sets> {
    /// Adds a static policy with this effect.
    pub(crate) fn add_static(&mut self, id: &str, effect: u32) -> u32 {
        // SAFETY: the handle is borrowed mutably. The pointer and the length come from one `str`.
        unsafe { cedar_policies_add_static(self.at(), id.as_ptr(), id.len(), effect) }
    }

    /// Adds a template with this effect and these slots.
    pub(crate) fn add_template(&mut self, id: &str, effect: u32, slots: u32) -> u32 {
        // SAFETY: as in `add_static`.
        unsafe { cedar_policies_add_template(self.at(), id.as_ptr(), id.len(), effect, slots) }
    }

    fn add_with(&mut self, call: AddFn, id: &str, body: &BodyLists) -> u32 {
        let BodyLists {
            lists,
            head,
            annotations,
            nodes,
        } = body;
        let Lists { text, uids, .. } = lists;
        let (id_at, text_at, uids_at) = (id.as_ptr(), text.as_ptr(), uids.as_ptr());
        let (annotations_at, nodes_at) = (annotations.as_ptr(), nodes.as_ptr());
        // SAFETY: as in `add_static`, with borrowed slices and a borrowed head. Both functions take handles of sets.
        unsafe {
            call(
                self.at(),
                id_at,
                id.len(),
                text_at,
                text.len(),
                head,
                annotations_at,
                annotations.len(),
                uids_at,
                uids.len(),
                nodes_at,
                nodes.len(),
            )
        }
    }

    /// Adds a static policy with this body.
    pub(crate) fn add_static_with(&mut self, id: &str, body: &BodyLists) -> u32 {
        self.add_with(cedar_policies_add_static_with, id, body)
    }

    /// Adds a template with this body.
    pub(crate) fn add_template_with(&mut self, id: &str, body: &BodyLists) -> u32 {
        self.add_with(cedar_policies_add_template_with, id, body)
    }

    /// Adds a link. `values` has a text for each of the three slots, which is empty for a slot without a binding.
    pub(crate) fn link(&mut self, template: &str, id: &str, values: &Lists) -> u32 {
        let Lists { text, uids, .. } = values;
        let (template_at, id_at) = (template.as_ptr(), id.as_ptr());
        let (text_at, uids_at) = (text.as_ptr(), uids.as_ptr());
        // SAFETY: as in `add_static`, with borrowed slices.
        unsafe {
            cedar_policies_link(
                self.at(),
                template_at,
                template.len(),
                id_at,
                id.len(),
                text_at,
                text.len(),
                uids_at,
                uids.len(),
            )
        }
    }

    /// Removes a link.
    pub(crate) fn unlink(&mut self, id: &str) -> u32 {
        self.call_text(cedar_policies_unlink, id)
    }

    /// Removes a static policy.
    pub(crate) fn remove_static(&mut self, id: &str) -> u32 {
        self.call_text(cedar_policies_remove_static, id)
    }

    /// Removes a template.
    pub(crate) fn remove_template(&mut self, id: &str) -> u32 {
        self.call_text(cedar_policies_remove_template, id)
    }

    /// Merges another set into this one. Stores the renamed ids as the last result.
    pub(crate) fn merge(&mut self, other: &OwnedHandle<Sets>, rename: bool) -> u32 {
        // SAFETY: one handle is borrowed mutably, so the other one is a different handle.
        unsafe { cedar_policies_merge(self.at(), other.at(), rename) }
    }

    /// Stores the ids of this kind as the last result.
    pub(crate) fn ids(&self, kind: u32) -> u32 {
        // SAFETY: the handle is borrowed.
        unsafe { cedar_policies_ids(self.at(), kind) }
    }

    /// Returns the kind of the scope constraint on the principal (0), the action (1) or the resource (2). Stores its
    /// texts as the last result.
    pub(crate) fn scope(&self, id: &str, part: u32) -> (u32, u32) {
        let mut kind = 0;
        // SAFETY: the handle is borrowed. The pointer and the length come from one `str`. The last pointer comes from a
        // mutable reference.
        let status =
            unsafe { cedar_policies_scope(self.at(), id.as_ptr(), id.len(), part, &mut kind) };
        (status, kind)
    }

    /// Stores the text of the set as the last result.
    pub(crate) fn text(&self) -> u32 {
        self.call(cedar_policies_text)
    }

    /// Validates the set. Returns the status of the first fault.
    pub(crate) fn validate(&self) -> u32 {
        self.call(cedar_policies_validate)
    }
}
