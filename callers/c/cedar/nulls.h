/* Checks of pointers before each call. Written by tools/c_header.py from the other headers: do not edit.
 *
 * Each function here has the parameters of the function of the library that its macro replaces. cedar.h says what a
 * null pointer means. The checks are tested, not proved. With CEDAR_UNCHECKED defined there are no macros. */
#ifndef CEDAR_NULLS_H
#define CEDAR_NULLS_H

#include "policies.h"
#include "store.h"

#ifdef __cplusplus
extern "C" {
#endif

/* Returns the address of a list without elements. */
static inline void *cedar_empty_list(void) {
    static uint64_t empty[2];
    return empty;
}

CEDAR_WARN_UNUSED static inline cedar_status cedar_checked_run(const uint8_t *input, size_t input_len, uint64_t seed,
                                                               uint64_t key, uint8_t *out, size_t capacity,
                                                               size_t *length, uint32_t *exit_status) {
    if (!input && input_len) return CEDAR_BAD_ARGUMENT;
    if (!input) input = (const uint8_t *)cedar_empty_list();
    if (!out && capacity) return CEDAR_BAD_ARGUMENT;
    if (!out) out = (uint8_t *)cedar_empty_list();
    if (!length) return CEDAR_BAD_ARGUMENT;
    if (!exit_status) return CEDAR_BAD_ARGUMENT;
    return cedar_run(input, input_len, seed, key, out, capacity, length, exit_status);
}

CEDAR_WARN_UNUSED static inline cedar_status cedar_checked_uid_check(const uint8_t *text, size_t text_len) {
    if (!text && text_len) return CEDAR_BAD_ARGUMENT;
    if (!text) text = (const uint8_t *)cedar_empty_list();
    return cedar_uid_check(text, text_len);
}

CEDAR_WARN_UNUSED static inline cedar_status cedar_checked_uid_make(const uint8_t *type, size_t type_len,
                                                                    const uint8_t *id, size_t id_len, uint8_t *out,
                                                                    size_t capacity, size_t *length) {
    if (!type && type_len) return CEDAR_BAD_ARGUMENT;
    if (!type) type = (const uint8_t *)cedar_empty_list();
    if (!id && id_len) return CEDAR_BAD_ARGUMENT;
    if (!id) id = (const uint8_t *)cedar_empty_list();
    if (!out && capacity) return CEDAR_BAD_ARGUMENT;
    if (!out) out = (uint8_t *)cedar_empty_list();
    if (!length) return CEDAR_BAD_ARGUMENT;
    return cedar_uid_make(type, type_len, id, id_len, out, capacity, length);
}

CEDAR_WARN_UNUSED static inline cedar_status cedar_checked_uid_parts(const uint8_t *uid, size_t uid_len, uint8_t *out,
                                                                     size_t capacity, size_t *type_len,
                                                                     size_t *length) {
    if (!uid && uid_len) return CEDAR_BAD_ARGUMENT;
    if (!uid) uid = (const uint8_t *)cedar_empty_list();
    if (!out && capacity) return CEDAR_BAD_ARGUMENT;
    if (!out) out = (uint8_t *)cedar_empty_list();
    if (!type_len) return CEDAR_BAD_ARGUMENT;
    if (!length) return CEDAR_BAD_ARGUMENT;
    return cedar_uid_parts(uid, uid_len, out, capacity, type_len, length);
}

CEDAR_WARN_UNUSED static inline cedar_status cedar_checked_uids_check(const uint8_t *text, size_t text_len,
                                                                     const cedar_span *uids, size_t uids_len,
                                                                     size_t *place) {
    if (!text && text_len) return CEDAR_BAD_ARGUMENT;
    if (!text) text = (const uint8_t *)cedar_empty_list();
    if (!uids && uids_len) return CEDAR_BAD_ARGUMENT;
    if (!uids) uids = (const cedar_span *)cedar_empty_list();
    if (!place) return CEDAR_BAD_ARGUMENT;
    return cedar_uids_check(text, text_len, uids, uids_len, place);
}

static inline size_t cedar_checked_status_text(uint32_t status, uint8_t *out, size_t capacity) {
    if (!out) capacity = 0, out = (uint8_t *)cedar_empty_list();
    return cedar_status_text(status, out, capacity);
}

CEDAR_WARN_UNUSED static inline bool cedar_checked_error_part(cedar_status status, const uint8_t *text, size_t text_len,
                                                              size_t place, cedar_span *part) {
    if (!text && text_len) return false;
    if (!text) text = (const uint8_t *)cedar_empty_list();
    if (!part) return false;
    return cedar_error_part(status, text, text_len, place, part);
}

CEDAR_WARN_UNUSED static inline cedar_status cedar_checked_store_new(cedar_store *s, uint64_t seed, uint64_t key) {
    if (!s) return CEDAR_CLOSED;
    return cedar_store_new(s, seed, key);
}

static inline void cedar_checked_store_free(cedar_store *s) {
    if (!s) return;
    cedar_store_free(s);
}

CEDAR_WARN_UNUSED static inline cedar_status cedar_checked_store_build(cedar_store *s, const uint8_t *text,
                                                                     size_t text_len, const cedar_span *uids,
                                                                     size_t uids_len, size_t count,
                                                                     const cedar_edge *edges, size_t edges_len,
                                                                     cedar_mode mode) {
    if (!s) return CEDAR_CLOSED;
    if (!text && text_len) return CEDAR_BAD_ARGUMENT;
    if (!text) text = (const uint8_t *)cedar_empty_list();
    if (!uids && uids_len) return CEDAR_BAD_ARGUMENT;
    if (!uids) uids = (const cedar_span *)cedar_empty_list();
    if (!edges && edges_len) return CEDAR_BAD_ARGUMENT;
    if (!edges) edges = (const cedar_edge *)cedar_empty_list();
    return cedar_store_build(s, text, text_len, uids, uids_len, count, edges, edges_len, mode);
}

CEDAR_WARN_UNUSED static inline cedar_status cedar_checked_store_add(cedar_store *s, const uint8_t *text,
                                                                     size_t text_len, const cedar_span *uids,
                                                                     size_t uids_len, size_t count,
                                                                     const cedar_edge *edges, size_t edges_len,
                                                                     cedar_mode mode) {
    if (!s) return CEDAR_CLOSED;
    if (!text && text_len) return CEDAR_BAD_ARGUMENT;
    if (!text) text = (const uint8_t *)cedar_empty_list();
    if (!uids && uids_len) return CEDAR_BAD_ARGUMENT;
    if (!uids) uids = (const cedar_span *)cedar_empty_list();
    if (!edges && edges_len) return CEDAR_BAD_ARGUMENT;
    if (!edges) edges = (const cedar_edge *)cedar_empty_list();
    return cedar_store_add(s, text, text_len, uids, uids_len, count, edges, edges_len, mode);
}

CEDAR_WARN_UNUSED static inline cedar_status cedar_checked_store_upsert(cedar_store *s, const uint8_t *text,
                                                                     size_t text_len, const cedar_span *uids,
                                                                     size_t uids_len, size_t count,
                                                                     const cedar_edge *edges, size_t edges_len,
                                                                     cedar_mode mode) {
    if (!s) return CEDAR_CLOSED;
    if (!text && text_len) return CEDAR_BAD_ARGUMENT;
    if (!text) text = (const uint8_t *)cedar_empty_list();
    if (!uids && uids_len) return CEDAR_BAD_ARGUMENT;
    if (!uids) uids = (const cedar_span *)cedar_empty_list();
    if (!edges && edges_len) return CEDAR_BAD_ARGUMENT;
    if (!edges) edges = (const cedar_edge *)cedar_empty_list();
    return cedar_store_upsert(s, text, text_len, uids, uids_len, count, edges, edges_len, mode);
}

CEDAR_WARN_UNUSED static inline cedar_status cedar_checked_store_build_with(cedar_store *s, const uint8_t *text,
                                                                     size_t text_len, const cedar_span *uids,
                                                                     size_t uids_len, size_t count,
                                                                     const cedar_edge *edges, size_t edges_len,
                                                                     const cedar_edge *indirect, size_t indirect_len,
                                                                     const cedar_term *terms, size_t terms_len,
                                                                     const cedar_node *nodes, size_t nodes_len,
                                                                     cedar_mode mode) {
    if (!s) return CEDAR_CLOSED;
    if (!text && text_len) return CEDAR_BAD_ARGUMENT;
    if (!text) text = (const uint8_t *)cedar_empty_list();
    if (!uids && uids_len) return CEDAR_BAD_ARGUMENT;
    if (!uids) uids = (const cedar_span *)cedar_empty_list();
    if (!edges && edges_len) return CEDAR_BAD_ARGUMENT;
    if (!edges) edges = (const cedar_edge *)cedar_empty_list();
    if (!indirect && indirect_len) return CEDAR_BAD_ARGUMENT;
    if (!indirect) indirect = (const cedar_edge *)cedar_empty_list();
    if (!terms && terms_len) return CEDAR_BAD_ARGUMENT;
    if (!terms) terms = (const cedar_term *)cedar_empty_list();
    if (!nodes && nodes_len) return CEDAR_BAD_ARGUMENT;
    if (!nodes) nodes = (const cedar_node *)cedar_empty_list();
    return cedar_store_build_with(s, text, text_len, uids, uids_len, count, edges, edges_len, indirect, indirect_len,
                                  terms, terms_len, nodes, nodes_len, mode);
}

CEDAR_WARN_UNUSED static inline cedar_status cedar_checked_store_add_with(cedar_store *s, const uint8_t *text,
                                                                     size_t text_len, const cedar_span *uids,
                                                                     size_t uids_len, size_t count,
                                                                     const cedar_edge *edges, size_t edges_len,
                                                                     const cedar_edge *indirect, size_t indirect_len,
                                                                     const cedar_term *terms, size_t terms_len,
                                                                     const cedar_node *nodes, size_t nodes_len,
                                                                     cedar_mode mode) {
    if (!s) return CEDAR_CLOSED;
    if (!text && text_len) return CEDAR_BAD_ARGUMENT;
    if (!text) text = (const uint8_t *)cedar_empty_list();
    if (!uids && uids_len) return CEDAR_BAD_ARGUMENT;
    if (!uids) uids = (const cedar_span *)cedar_empty_list();
    if (!edges && edges_len) return CEDAR_BAD_ARGUMENT;
    if (!edges) edges = (const cedar_edge *)cedar_empty_list();
    if (!indirect && indirect_len) return CEDAR_BAD_ARGUMENT;
    if (!indirect) indirect = (const cedar_edge *)cedar_empty_list();
    if (!terms && terms_len) return CEDAR_BAD_ARGUMENT;
    if (!terms) terms = (const cedar_term *)cedar_empty_list();
    if (!nodes && nodes_len) return CEDAR_BAD_ARGUMENT;
    if (!nodes) nodes = (const cedar_node *)cedar_empty_list();
    return cedar_store_add_with(s, text, text_len, uids, uids_len, count, edges, edges_len, indirect, indirect_len,
                                terms, terms_len, nodes, nodes_len, mode);
}

CEDAR_WARN_UNUSED static inline cedar_status cedar_checked_store_upsert_with(cedar_store *s, const uint8_t *text,
                                                                     size_t text_len, const cedar_span *uids,
                                                                     size_t uids_len, size_t count,
                                                                     const cedar_edge *edges, size_t edges_len,
                                                                     const cedar_edge *indirect, size_t indirect_len,
                                                                     const cedar_term *terms, size_t terms_len,
                                                                     const cedar_node *nodes, size_t nodes_len,
                                                                     cedar_mode mode) {
    if (!s) return CEDAR_CLOSED;
    if (!text && text_len) return CEDAR_BAD_ARGUMENT;
    if (!text) text = (const uint8_t *)cedar_empty_list();
    if (!uids && uids_len) return CEDAR_BAD_ARGUMENT;
    if (!uids) uids = (const cedar_span *)cedar_empty_list();
    if (!edges && edges_len) return CEDAR_BAD_ARGUMENT;
    if (!edges) edges = (const cedar_edge *)cedar_empty_list();
    if (!indirect && indirect_len) return CEDAR_BAD_ARGUMENT;
    if (!indirect) indirect = (const cedar_edge *)cedar_empty_list();
    if (!terms && terms_len) return CEDAR_BAD_ARGUMENT;
    if (!terms) terms = (const cedar_term *)cedar_empty_list();
    if (!nodes && nodes_len) return CEDAR_BAD_ARGUMENT;
    if (!nodes) nodes = (const cedar_node *)cedar_empty_list();
    return cedar_store_upsert_with(s, text, text_len, uids, uids_len, count, edges, edges_len, indirect, indirect_len,
                                   terms, terms_len, nodes, nodes_len, mode);
}

CEDAR_WARN_UNUSED static inline cedar_status cedar_checked_store_remove(cedar_store *s, const uint8_t *text,
                                                                     size_t text_len, const cedar_span *uids,
                                                                     size_t uids_len, cedar_mode mode) {
    if (!s) return CEDAR_CLOSED;
    if (!text && text_len) return CEDAR_BAD_ARGUMENT;
    if (!text) text = (const uint8_t *)cedar_empty_list();
    if (!uids && uids_len) return CEDAR_BAD_ARGUMENT;
    if (!uids) uids = (const cedar_span *)cedar_empty_list();
    return cedar_store_remove(s, text, text_len, uids, uids_len, mode);
}

CEDAR_WARN_UNUSED static inline cedar_status cedar_checked_store_partial(cedar_store *s) {
    if (!s) return CEDAR_CLOSED;
    return cedar_store_partial(s);
}

static inline size_t cedar_checked_store_len(cedar_store *s) {
    if (!s) return 0;
    return cedar_store_len(s);
}

CEDAR_WARN_UNUSED static inline cedar_status cedar_checked_store_has(cedar_store *s, const uint8_t *uid, size_t uid_len,
                                                                     bool *result) {
    if (!s) return CEDAR_CLOSED;
    if (!uid && uid_len) return CEDAR_BAD_ARGUMENT;
    if (!uid) uid = (const uint8_t *)cedar_empty_list();
    if (!result) return CEDAR_BAD_ARGUMENT;
    return cedar_store_has(s, uid, uid_len, result);
}

CEDAR_WARN_UNUSED static inline cedar_status cedar_checked_store_is_descendant_of(cedar_store *s, const uint8_t *child,
                                                                     size_t child_len, const uint8_t *ancestor,
                                                                     size_t ancestor_len, bool *result) {
    if (!s) return CEDAR_CLOSED;
    if (!child && child_len) return CEDAR_BAD_ARGUMENT;
    if (!child) child = (const uint8_t *)cedar_empty_list();
    if (!ancestor && ancestor_len) return CEDAR_BAD_ARGUMENT;
    if (!ancestor) ancestor = (const uint8_t *)cedar_empty_list();
    if (!result) return CEDAR_BAD_ARGUMENT;
    return cedar_store_is_descendant_of(s, child, child_len, ancestor, ancestor_len, result);
}

CEDAR_WARN_UNUSED static inline cedar_status cedar_checked_store_uid_number(cedar_store *s, const uint8_t *uid,
                                                                     size_t uid_len, size_t *number) {
    if (!s) return CEDAR_CLOSED;
    if (!uid && uid_len) return CEDAR_BAD_ARGUMENT;
    if (!uid) uid = (const uint8_t *)cedar_empty_list();
    if (!number) return CEDAR_BAD_ARGUMENT;
    return cedar_store_uid_number(s, uid, uid_len, number);
}

CEDAR_WARN_UNUSED static inline cedar_status cedar_checked_store_number_uid(cedar_store *s, size_t number) {
    if (!s) return CEDAR_CLOSED;
    return cedar_store_number_uid(s, number);
}

CEDAR_WARN_UNUSED static inline cedar_status cedar_checked_store_has_number(cedar_store *s, size_t number,
                                                                     bool *result) {
    if (!s) return CEDAR_CLOSED;
    if (!result) return CEDAR_BAD_ARGUMENT;
    return cedar_store_has_number(s, number, result);
}

CEDAR_WARN_UNUSED static inline cedar_status cedar_checked_store_is_descendant_of_numbers(cedar_store *s, size_t child,
                                                                     size_t ancestor, bool *result) {
    if (!s) return CEDAR_CLOSED;
    if (!result) return CEDAR_BAD_ARGUMENT;
    return cedar_store_is_descendant_of_numbers(s, child, ancestor, result);
}

CEDAR_WARN_UNUSED static inline cedar_status cedar_checked_store_ancestors(cedar_store *s, const uint8_t *uid,
                                                                     size_t uid_len) {
    if (!s) return CEDAR_CLOSED;
    if (!uid && uid_len) return CEDAR_BAD_ARGUMENT;
    if (!uid) uid = (const uint8_t *)cedar_empty_list();
    return cedar_store_ancestors(s, uid, uid_len);
}

CEDAR_WARN_UNUSED static inline cedar_status cedar_checked_store_parents(cedar_store *s, const uint8_t *uid,
                                                                     size_t uid_len) {
    if (!s) return CEDAR_CLOSED;
    if (!uid && uid_len) return CEDAR_BAD_ARGUMENT;
    if (!uid) uid = (const uint8_t *)cedar_empty_list();
    return cedar_store_parents(s, uid, uid_len);
}

CEDAR_WARN_UNUSED static inline cedar_status cedar_checked_store_indirect_ancestors(cedar_store *s, const uint8_t *uid,
                                                                     size_t uid_len) {
    if (!s) return CEDAR_CLOSED;
    if (!uid && uid_len) return CEDAR_BAD_ARGUMENT;
    if (!uid) uid = (const uint8_t *)cedar_empty_list();
    return cedar_store_indirect_ancestors(s, uid, uid_len);
}

CEDAR_WARN_UNUSED static inline cedar_status cedar_checked_store_descendants(cedar_store *s, const uint8_t *uid,
                                                                     size_t uid_len) {
    if (!s) return CEDAR_CLOSED;
    if (!uid && uid_len) return CEDAR_BAD_ARGUMENT;
    if (!uid) uid = (const uint8_t *)cedar_empty_list();
    return cedar_store_descendants(s, uid, uid_len);
}

CEDAR_WARN_UNUSED static inline cedar_status cedar_checked_store_descendants_of_type(cedar_store *s, const uint8_t *uid,
                                                                     size_t uid_len, const uint8_t *type,
                                                                     size_t type_len) {
    if (!s) return CEDAR_CLOSED;
    if (!uid && uid_len) return CEDAR_BAD_ARGUMENT;
    if (!uid) uid = (const uint8_t *)cedar_empty_list();
    if (!type && type_len) return CEDAR_BAD_ARGUMENT;
    if (!type) type = (const uint8_t *)cedar_empty_list();
    return cedar_store_descendants_of_type(s, uid, uid_len, type, type_len);
}

CEDAR_WARN_UNUSED static inline cedar_status cedar_checked_store_path(cedar_store *s, const uint8_t *from,
                                                                     size_t from_len, const uint8_t *to, size_t to_len,
                                                                     bool *has) {
    if (!s) return CEDAR_CLOSED;
    if (!from && from_len) return CEDAR_BAD_ARGUMENT;
    if (!from) from = (const uint8_t *)cedar_empty_list();
    if (!to && to_len) return CEDAR_BAD_ARGUMENT;
    if (!to) to = (const uint8_t *)cedar_empty_list();
    if (!has) return CEDAR_BAD_ARGUMENT;
    return cedar_store_path(s, from, from_len, to, to_len, has);
}

CEDAR_WARN_UNUSED static inline cedar_status cedar_checked_store_reaches(cedar_store *s, const uint8_t *from,
                                                                     size_t from_len, const uint8_t *to, size_t to_len,
                                                                     bool *result) {
    if (!s) return CEDAR_CLOSED;
    if (!from && from_len) return CEDAR_BAD_ARGUMENT;
    if (!from) from = (const uint8_t *)cedar_empty_list();
    if (!to && to_len) return CEDAR_BAD_ARGUMENT;
    if (!to) to = (const uint8_t *)cedar_empty_list();
    if (!result) return CEDAR_BAD_ARGUMENT;
    return cedar_store_reaches(s, from, from_len, to, to_len, result);
}

CEDAR_WARN_UNUSED static inline cedar_status cedar_checked_store_is_child_of(cedar_store *s, const uint8_t *child,
                                                                     size_t child_len, const uint8_t *parent,
                                                                     size_t parent_len, bool *result) {
    if (!s) return CEDAR_CLOSED;
    if (!child && child_len) return CEDAR_BAD_ARGUMENT;
    if (!child) child = (const uint8_t *)cedar_empty_list();
    if (!parent && parent_len) return CEDAR_BAD_ARGUMENT;
    if (!parent) parent = (const uint8_t *)cedar_empty_list();
    if (!result) return CEDAR_BAD_ARGUMENT;
    return cedar_store_is_child_of(s, child, child_len, parent, parent_len, result);
}

CEDAR_WARN_UNUSED static inline cedar_status cedar_checked_store_is_indirect_descendant_of(cedar_store *s,
                                                                     const uint8_t *child, size_t child_len,
                                                                     const uint8_t *ancestor, size_t ancestor_len,
                                                                     bool *result) {
    if (!s) return CEDAR_CLOSED;
    if (!child && child_len) return CEDAR_BAD_ARGUMENT;
    if (!child) child = (const uint8_t *)cedar_empty_list();
    if (!ancestor && ancestor_len) return CEDAR_BAD_ARGUMENT;
    if (!ancestor) ancestor = (const uint8_t *)cedar_empty_list();
    if (!result) return CEDAR_BAD_ARGUMENT;
    return cedar_store_is_indirect_descendant_of(s, child, child_len, ancestor, ancestor_len, result);
}

CEDAR_WARN_UNUSED static inline cedar_status cedar_checked_store_is_partial(cedar_store *s, bool *result) {
    if (!s) return CEDAR_CLOSED;
    if (!result) return CEDAR_BAD_ARGUMENT;
    return cedar_store_is_partial(s, result);
}

CEDAR_WARN_UNUSED static inline cedar_status cedar_checked_store_entity(cedar_store *s, const uint8_t *uid,
                                                                     size_t uid_len, cedar_found *found) {
    if (!s) return CEDAR_CLOSED;
    if (!uid && uid_len) return CEDAR_BAD_ARGUMENT;
    if (!uid) uid = (const uint8_t *)cedar_empty_list();
    if (!found) return CEDAR_BAD_ARGUMENT;
    return cedar_store_entity(s, uid, uid_len, found);
}

CEDAR_WARN_UNUSED static inline cedar_status cedar_checked_store_uids(cedar_store *s) {
    if (!s) return CEDAR_CLOSED;
    return cedar_store_uids(s);
}

CEDAR_WARN_UNUSED static inline cedar_status cedar_checked_store_attrs_len(cedar_store *s, const uint8_t *uid,
                                                                     size_t uid_len, size_t *count) {
    if (!s) return CEDAR_CLOSED;
    if (!uid && uid_len) return CEDAR_BAD_ARGUMENT;
    if (!uid) uid = (const uint8_t *)cedar_empty_list();
    if (!count) return CEDAR_BAD_ARGUMENT;
    return cedar_store_attrs_len(s, uid, uid_len, count);
}

CEDAR_WARN_UNUSED static inline cedar_status cedar_checked_store_tags_len(cedar_store *s, const uint8_t *uid,
                                                                     size_t uid_len, size_t *count) {
    if (!s) return CEDAR_CLOSED;
    if (!uid && uid_len) return CEDAR_BAD_ARGUMENT;
    if (!uid) uid = (const uint8_t *)cedar_empty_list();
    if (!count) return CEDAR_BAD_ARGUMENT;
    return cedar_store_tags_len(s, uid, uid_len, count);
}

CEDAR_WARN_UNUSED static inline cedar_status cedar_checked_store_keys(cedar_store *s, const uint8_t *uid,
                                                                     size_t uid_len) {
    if (!s) return CEDAR_CLOSED;
    if (!uid && uid_len) return CEDAR_BAD_ARGUMENT;
    if (!uid) uid = (const uint8_t *)cedar_empty_list();
    return cedar_store_keys(s, uid, uid_len);
}

CEDAR_WARN_UNUSED static inline cedar_status cedar_checked_store_tag_keys(cedar_store *s, const uint8_t *uid,
                                                                     size_t uid_len) {
    if (!s) return CEDAR_CLOSED;
    if (!uid && uid_len) return CEDAR_BAD_ARGUMENT;
    if (!uid) uid = (const uint8_t *)cedar_empty_list();
    return cedar_store_tag_keys(s, uid, uid_len);
}

CEDAR_WARN_UNUSED static inline cedar_status cedar_checked_store_get(cedar_store *s, const uint8_t *uid, size_t uid_len,
                                                                     const uint8_t *key, size_t key_len, bool *has) {
    if (!s) return CEDAR_CLOSED;
    if (!uid && uid_len) return CEDAR_BAD_ARGUMENT;
    if (!uid) uid = (const uint8_t *)cedar_empty_list();
    if (!key && key_len) return CEDAR_BAD_ARGUMENT;
    if (!key) key = (const uint8_t *)cedar_empty_list();
    if (!has) return CEDAR_BAD_ARGUMENT;
    return cedar_store_get(s, uid, uid_len, key, key_len, has);
}

CEDAR_WARN_UNUSED static inline cedar_status cedar_checked_store_get_tag(cedar_store *s, const uint8_t *uid,
                                                                     size_t uid_len, const uint8_t *key, size_t key_len,
                                                                     bool *has) {
    if (!s) return CEDAR_CLOSED;
    if (!uid && uid_len) return CEDAR_BAD_ARGUMENT;
    if (!uid) uid = (const uint8_t *)cedar_empty_list();
    if (!key && key_len) return CEDAR_BAD_ARGUMENT;
    if (!key) key = (const uint8_t *)cedar_empty_list();
    if (!has) return CEDAR_BAD_ARGUMENT;
    return cedar_store_get_tag(s, uid, uid_len, key, key_len, has);
}

CEDAR_WARN_UNUSED static inline cedar_status cedar_checked_store_entity_equal(cedar_store *s, const uint8_t *uid,
                                                                     size_t uid_len, cedar_store *other, bool *result) {
    if (!s || !other) return CEDAR_CLOSED;
    if (s == other) return CEDAR_BAD_ARGUMENT;
    if (!uid && uid_len) return CEDAR_BAD_ARGUMENT;
    if (!uid) uid = (const uint8_t *)cedar_empty_list();
    if (!result) return CEDAR_BAD_ARGUMENT;
    return cedar_store_entity_equal(s, uid, uid_len, other, result);
}

CEDAR_WARN_UNUSED static inline cedar_status cedar_checked_store_text(cedar_store *s) {
    if (!s) return CEDAR_CLOSED;
    return cedar_store_text(s);
}

CEDAR_WARN_UNUSED static inline cedar_status cedar_checked_store_entity_text(cedar_store *s, const uint8_t *uid,
                                                                     size_t uid_len) {
    if (!s) return CEDAR_CLOSED;
    if (!uid && uid_len) return CEDAR_BAD_ARGUMENT;
    if (!uid) uid = (const uint8_t *)cedar_empty_list();
    return cedar_store_entity_text(s, uid, uid_len);
}

CEDAR_WARN_UNUSED static inline cedar_status cedar_checked_store_validate(cedar_store *s) {
    if (!s) return CEDAR_CLOSED;
    return cedar_store_validate(s);
}

CEDAR_WARN_UNUSED static inline cedar_status cedar_checked_store_slice(cedar_store *from, cedar_store *to,
                                                                     const uint8_t *text, size_t text_len,
                                                                     const cedar_span *uids, size_t uids_len) {
    if (!from || !to) return CEDAR_CLOSED;
    if (from == to) return CEDAR_BAD_ARGUMENT;
    if (!text && text_len) return CEDAR_BAD_ARGUMENT;
    if (!text) text = (const uint8_t *)cedar_empty_list();
    if (!uids && uids_len) return CEDAR_BAD_ARGUMENT;
    if (!uids) uids = (const cedar_span *)cedar_empty_list();
    return cedar_store_slice(from, to, text, text_len, uids, uids_len);
}

CEDAR_WARN_UNUSED static inline cedar_status cedar_checked_store_copy(cedar_store *from, cedar_store *to) {
    if (!from || !to) return CEDAR_CLOSED;
    if (from == to) return CEDAR_BAD_ARGUMENT;
    return cedar_store_copy(from, to);
}

CEDAR_WARN_UNUSED static inline cedar_status cedar_checked_store_slice_deep_copy(cedar_store *from, cedar_store *to,
                                                                     const uint8_t *text, size_t text_len,
                                                                     const cedar_span *uids, size_t uids_len) {
    if (!from || !to) return CEDAR_CLOSED;
    if (from == to) return CEDAR_BAD_ARGUMENT;
    if (!text && text_len) return CEDAR_BAD_ARGUMENT;
    if (!text) text = (const uint8_t *)cedar_empty_list();
    if (!uids && uids_len) return CEDAR_BAD_ARGUMENT;
    if (!uids) uids = (const cedar_span *)cedar_empty_list();
    return cedar_store_slice_deep_copy(from, to, text, text_len, uids, uids_len);
}

CEDAR_WARN_UNUSED static inline cedar_status cedar_checked_store_deep_copy(cedar_store *from, cedar_store *to) {
    if (!from || !to) return CEDAR_CLOSED;
    if (from == to) return CEDAR_BAD_ARGUMENT;
    return cedar_store_deep_copy(from, to);
}

CEDAR_WARN_UNUSED static inline cedar_status cedar_checked_store_equal(cedar_store *first, cedar_store *second,
                                                                     bool *result) {
    if (!first || !second) return CEDAR_CLOSED;
    if (first == second) return CEDAR_BAD_ARGUMENT;
    if (!result) return CEDAR_BAD_ARGUMENT;
    return cedar_store_equal(first, second, result);
}

static inline size_t cedar_checked_store_result(cedar_store *s, size_t from, uint8_t *out, size_t capacity) {
    if (!s) return 0;
    if (!out) capacity = 0, out = (uint8_t *)cedar_empty_list();
    return cedar_store_result(s, from, out, capacity);
}

static inline size_t cedar_checked_store_result_spans(cedar_store *s, size_t from, cedar_span *out, size_t capacity) {
    if (!s) return 0;
    if (!out) capacity = 0, out = (cedar_span *)cedar_empty_list();
    return cedar_store_result_spans(s, from, out, capacity);
}

static inline size_t cedar_checked_store_result_nodes(cedar_store *s, size_t from, cedar_node *out, size_t capacity) {
    if (!s) return 0;
    if (!out) capacity = 0, out = (cedar_node *)cedar_empty_list();
    return cedar_store_result_nodes(s, from, out, capacity);
}

static inline size_t cedar_checked_store_error_text(cedar_store *s, uint8_t *out, size_t capacity) {
    if (!s) return 0;
    if (!out) capacity = 0, out = (uint8_t *)cedar_empty_list();
    return cedar_store_error_text(s, out, capacity);
}

CEDAR_WARN_UNUSED static inline cedar_status cedar_checked_policies_new(cedar_policies *p, uint64_t seed,
                                                                     uint64_t key) {
    if (!p) return CEDAR_CLOSED;
    return cedar_policies_new(p, seed, key);
}

static inline void cedar_checked_policies_free(cedar_policies *p) {
    if (!p) return;
    cedar_policies_free(p);
}

CEDAR_WARN_UNUSED static inline cedar_status cedar_checked_policies_add_static(cedar_policies *p, const uint8_t *id,
                                                                     size_t id_len, cedar_effect effect) {
    if (!p) return CEDAR_CLOSED;
    if (!id && id_len) return CEDAR_BAD_ARGUMENT;
    if (!id) id = (const uint8_t *)cedar_empty_list();
    return cedar_policies_add_static(p, id, id_len, effect);
}

CEDAR_WARN_UNUSED static inline cedar_status cedar_checked_policies_add_template(cedar_policies *p, const uint8_t *id,
                                                                     size_t id_len, cedar_effect effect,
                                                                     uint32_t slots) {
    if (!p) return CEDAR_CLOSED;
    if (!id && id_len) return CEDAR_BAD_ARGUMENT;
    if (!id) id = (const uint8_t *)cedar_empty_list();
    return cedar_policies_add_template(p, id, id_len, effect, slots);
}

CEDAR_WARN_UNUSED static inline cedar_status cedar_checked_policies_add_static_with(cedar_policies *p,
                                                                     const uint8_t *id, size_t id_len,
                                                                     const uint8_t *text, size_t text_len,
                                                                     const cedar_body *body,
                                                                     const cedar_annotation *annotations,
                                                                     size_t annotations_len, const cedar_span *uids,
                                                                     size_t uids_len, const cedar_node *nodes,
                                                                     size_t nodes_len) {
    if (!p) return CEDAR_CLOSED;
    if (!id && id_len) return CEDAR_BAD_ARGUMENT;
    if (!id) id = (const uint8_t *)cedar_empty_list();
    if (!text && text_len) return CEDAR_BAD_ARGUMENT;
    if (!text) text = (const uint8_t *)cedar_empty_list();
    if (!body) return CEDAR_BAD_ARGUMENT;
    if (!annotations && annotations_len) return CEDAR_BAD_ARGUMENT;
    if (!annotations) annotations = (const cedar_annotation *)cedar_empty_list();
    if (!uids && uids_len) return CEDAR_BAD_ARGUMENT;
    if (!uids) uids = (const cedar_span *)cedar_empty_list();
    if (!nodes && nodes_len) return CEDAR_BAD_ARGUMENT;
    if (!nodes) nodes = (const cedar_node *)cedar_empty_list();
    return cedar_policies_add_static_with(p, id, id_len, text, text_len, body, annotations, annotations_len, uids,
                                          uids_len, nodes, nodes_len);
}

CEDAR_WARN_UNUSED static inline cedar_status cedar_checked_policies_add_template_with(cedar_policies *p,
                                                                     const uint8_t *id, size_t id_len,
                                                                     const uint8_t *text, size_t text_len,
                                                                     const cedar_body *body,
                                                                     const cedar_annotation *annotations,
                                                                     size_t annotations_len, const cedar_span *uids,
                                                                     size_t uids_len, const cedar_node *nodes,
                                                                     size_t nodes_len) {
    if (!p) return CEDAR_CLOSED;
    if (!id && id_len) return CEDAR_BAD_ARGUMENT;
    if (!id) id = (const uint8_t *)cedar_empty_list();
    if (!text && text_len) return CEDAR_BAD_ARGUMENT;
    if (!text) text = (const uint8_t *)cedar_empty_list();
    if (!body) return CEDAR_BAD_ARGUMENT;
    if (!annotations && annotations_len) return CEDAR_BAD_ARGUMENT;
    if (!annotations) annotations = (const cedar_annotation *)cedar_empty_list();
    if (!uids && uids_len) return CEDAR_BAD_ARGUMENT;
    if (!uids) uids = (const cedar_span *)cedar_empty_list();
    if (!nodes && nodes_len) return CEDAR_BAD_ARGUMENT;
    if (!nodes) nodes = (const cedar_node *)cedar_empty_list();
    return cedar_policies_add_template_with(p, id, id_len, text, text_len, body, annotations, annotations_len, uids,
                                            uids_len, nodes, nodes_len);
}

CEDAR_WARN_UNUSED static inline cedar_status cedar_checked_policies_link(cedar_policies *p, const uint8_t *template_id,
                                                                     size_t template_id_len, const uint8_t *id,
                                                                     size_t id_len, const uint8_t *text,
                                                                     size_t text_len, const cedar_span *values,
                                                                     size_t values_len) {
    if (!p) return CEDAR_CLOSED;
    if (!template_id && template_id_len) return CEDAR_BAD_ARGUMENT;
    if (!template_id) template_id = (const uint8_t *)cedar_empty_list();
    if (!id && id_len) return CEDAR_BAD_ARGUMENT;
    if (!id) id = (const uint8_t *)cedar_empty_list();
    if (!text && text_len) return CEDAR_BAD_ARGUMENT;
    if (!text) text = (const uint8_t *)cedar_empty_list();
    if (!values && values_len) return CEDAR_BAD_ARGUMENT;
    if (!values) values = (const cedar_span *)cedar_empty_list();
    return cedar_policies_link(p, template_id, template_id_len, id, id_len, text, text_len, values, values_len);
}

CEDAR_WARN_UNUSED static inline cedar_status cedar_checked_policies_unlink(cedar_policies *p, const uint8_t *id,
                                                                     size_t id_len) {
    if (!p) return CEDAR_CLOSED;
    if (!id && id_len) return CEDAR_BAD_ARGUMENT;
    if (!id) id = (const uint8_t *)cedar_empty_list();
    return cedar_policies_unlink(p, id, id_len);
}

CEDAR_WARN_UNUSED static inline cedar_status cedar_checked_policies_remove_static(cedar_policies *p, const uint8_t *id,
                                                                     size_t id_len) {
    if (!p) return CEDAR_CLOSED;
    if (!id && id_len) return CEDAR_BAD_ARGUMENT;
    if (!id) id = (const uint8_t *)cedar_empty_list();
    return cedar_policies_remove_static(p, id, id_len);
}

CEDAR_WARN_UNUSED static inline cedar_status cedar_checked_policies_remove_template(cedar_policies *p,
                                                                     const uint8_t *id, size_t id_len) {
    if (!p) return CEDAR_CLOSED;
    if (!id && id_len) return CEDAR_BAD_ARGUMENT;
    if (!id) id = (const uint8_t *)cedar_empty_list();
    return cedar_policies_remove_template(p, id, id_len);
}

CEDAR_WARN_UNUSED static inline cedar_status cedar_checked_policies_merge(cedar_policies *p, cedar_policies *other,
                                                                     bool rename) {
    if (!p || !other) return CEDAR_CLOSED;
    if (p == other) return CEDAR_BAD_ARGUMENT;
    return cedar_policies_merge(p, other, rename);
}

CEDAR_WARN_UNUSED static inline cedar_status cedar_checked_policies_merge_deep_copy(cedar_policies *p,
                                                                     cedar_policies *other, bool rename) {
    if (!p || !other) return CEDAR_CLOSED;
    if (p == other) return CEDAR_BAD_ARGUMENT;
    return cedar_policies_merge_deep_copy(p, other, rename);
}

CEDAR_WARN_UNUSED static inline cedar_status cedar_checked_policies_ids(cedar_policies *p, cedar_ids list) {
    if (!p) return CEDAR_CLOSED;
    return cedar_policies_ids(p, list);
}

CEDAR_WARN_UNUSED static inline cedar_status cedar_checked_policies_get(cedar_policies *p, const uint8_t *id,
                                                                     size_t id_len, cedar_bound *bound) {
    if (!p) return CEDAR_CLOSED;
    if (!id && id_len) return CEDAR_BAD_ARGUMENT;
    if (!id) id = (const uint8_t *)cedar_empty_list();
    if (!bound) return CEDAR_BAD_ARGUMENT;
    return cedar_policies_get(p, id, id_len, bound);
}

CEDAR_WARN_UNUSED static inline cedar_status cedar_checked_policies_effect(cedar_policies *p, const uint8_t *id,
                                                                     size_t id_len, cedar_effect *effect) {
    if (!p) return CEDAR_CLOSED;
    if (!id && id_len) return CEDAR_BAD_ARGUMENT;
    if (!id) id = (const uint8_t *)cedar_empty_list();
    if (!effect) return CEDAR_BAD_ARGUMENT;
    return cedar_policies_effect(p, id, id_len, effect);
}

CEDAR_WARN_UNUSED static inline cedar_status cedar_checked_policies_slots(cedar_policies *p, const uint8_t *id,
                                                                     size_t id_len, uint32_t *slots) {
    if (!p) return CEDAR_CLOSED;
    if (!id && id_len) return CEDAR_BAD_ARGUMENT;
    if (!id) id = (const uint8_t *)cedar_empty_list();
    if (!slots) return CEDAR_BAD_ARGUMENT;
    return cedar_policies_slots(p, id, id_len, slots);
}

CEDAR_WARN_UNUSED static inline cedar_status cedar_checked_policies_annotation(cedar_policies *p, const uint8_t *id,
                                                                     size_t id_len, const uint8_t *key, size_t key_len,
                                                                     bool *has) {
    if (!p) return CEDAR_CLOSED;
    if (!id && id_len) return CEDAR_BAD_ARGUMENT;
    if (!id) id = (const uint8_t *)cedar_empty_list();
    if (!key && key_len) return CEDAR_BAD_ARGUMENT;
    if (!key) key = (const uint8_t *)cedar_empty_list();
    if (!has) return CEDAR_BAD_ARGUMENT;
    return cedar_policies_annotation(p, id, id_len, key, key_len, has);
}

CEDAR_WARN_UNUSED static inline cedar_status cedar_checked_policies_annotations(cedar_policies *p, const uint8_t *id,
                                                                     size_t id_len) {
    if (!p) return CEDAR_CLOSED;
    if (!id && id_len) return CEDAR_BAD_ARGUMENT;
    if (!id) id = (const uint8_t *)cedar_empty_list();
    return cedar_policies_annotations(p, id, id_len);
}

CEDAR_WARN_UNUSED static inline cedar_status cedar_checked_policies_scope(cedar_policies *p, const uint8_t *id,
                                                                     size_t id_len, cedar_variable variable,
                                                                     cedar_scope_kind *kind) {
    if (!p) return CEDAR_CLOSED;
    if (!id && id_len) return CEDAR_BAD_ARGUMENT;
    if (!id) id = (const uint8_t *)cedar_empty_list();
    if (!kind) return CEDAR_BAD_ARGUMENT;
    return cedar_policies_scope(p, id, id_len, variable, kind);
}

CEDAR_WARN_UNUSED static inline cedar_status cedar_checked_policies_clause(cedar_policies *p, const uint8_t *id,
                                                                     size_t id_len, bool *has) {
    if (!p) return CEDAR_CLOSED;
    if (!id && id_len) return CEDAR_BAD_ARGUMENT;
    if (!id) id = (const uint8_t *)cedar_empty_list();
    if (!has) return CEDAR_BAD_ARGUMENT;
    return cedar_policies_clause(p, id, id_len, has);
}

CEDAR_WARN_UNUSED static inline cedar_status cedar_checked_policies_condition(cedar_policies *p, const uint8_t *id,
                                                                     size_t id_len) {
    if (!p) return CEDAR_CLOSED;
    if (!id && id_len) return CEDAR_BAD_ARGUMENT;
    if (!id) id = (const uint8_t *)cedar_empty_list();
    return cedar_policies_condition(p, id, id_len);
}

CEDAR_WARN_UNUSED static inline cedar_status cedar_checked_policies_env(cedar_policies *p, const uint8_t *id,
                                                                     size_t id_len) {
    if (!p) return CEDAR_CLOSED;
    if (!id && id_len) return CEDAR_BAD_ARGUMENT;
    if (!id) id = (const uint8_t *)cedar_empty_list();
    return cedar_policies_env(p, id, id_len);
}

CEDAR_WARN_UNUSED static inline cedar_status cedar_checked_policies_template_id(cedar_policies *p, const uint8_t *id,
                                                                     size_t id_len) {
    if (!p) return CEDAR_CLOSED;
    if (!id && id_len) return CEDAR_BAD_ARGUMENT;
    if (!id) id = (const uint8_t *)cedar_empty_list();
    return cedar_policies_template_id(p, id, id_len);
}

CEDAR_WARN_UNUSED static inline cedar_status cedar_checked_policies_linked(cedar_policies *p, const uint8_t *id,
                                                                     size_t id_len) {
    if (!p) return CEDAR_CLOSED;
    if (!id && id_len) return CEDAR_BAD_ARGUMENT;
    if (!id) id = (const uint8_t *)cedar_empty_list();
    return cedar_policies_linked(p, id, id_len);
}

CEDAR_WARN_UNUSED static inline cedar_status cedar_checked_policies_text(cedar_policies *p) {
    if (!p) return CEDAR_CLOSED;
    return cedar_policies_text(p);
}

CEDAR_WARN_UNUSED static inline cedar_status cedar_checked_policies_policy_text(cedar_policies *p, const uint8_t *id,
                                                                     size_t id_len) {
    if (!p) return CEDAR_CLOSED;
    if (!id && id_len) return CEDAR_BAD_ARGUMENT;
    if (!id) id = (const uint8_t *)cedar_empty_list();
    return cedar_policies_policy_text(p, id, id_len);
}

CEDAR_WARN_UNUSED static inline cedar_status cedar_checked_policies_template_text(cedar_policies *p, const uint8_t *id,
                                                                     size_t id_len) {
    if (!p) return CEDAR_CLOSED;
    if (!id && id_len) return CEDAR_BAD_ARGUMENT;
    if (!id) id = (const uint8_t *)cedar_empty_list();
    return cedar_policies_template_text(p, id, id_len);
}

CEDAR_WARN_UNUSED static inline cedar_status cedar_checked_policies_unknown_entities(cedar_policies *p,
                                                                     const uint8_t *id, size_t id_len) {
    if (!p) return CEDAR_CLOSED;
    if (!id && id_len) return CEDAR_BAD_ARGUMENT;
    if (!id) id = (const uint8_t *)cedar_empty_list();
    return cedar_policies_unknown_entities(p, id, id_len);
}

CEDAR_WARN_UNUSED static inline cedar_status cedar_checked_policies_naming(cedar_policies *p, const uint8_t *uid,
                                                                     size_t uid_len) {
    if (!p) return CEDAR_CLOSED;
    if (!uid && uid_len) return CEDAR_BAD_ARGUMENT;
    if (!uid) uid = (const uint8_t *)cedar_empty_list();
    return cedar_policies_naming(p, uid, uid_len);
}

CEDAR_WARN_UNUSED static inline cedar_status cedar_checked_policies_templates_naming(cedar_policies *p,
                                                                     const uint8_t *uid, size_t uid_len) {
    if (!p) return CEDAR_CLOSED;
    if (!uid && uid_len) return CEDAR_BAD_ARGUMENT;
    if (!uid) uid = (const uint8_t *)cedar_empty_list();
    return cedar_policies_templates_naming(p, uid, uid_len);
}

CEDAR_WARN_UNUSED static inline cedar_status cedar_checked_policies_validate(cedar_policies *p) {
    if (!p) return CEDAR_CLOSED;
    return cedar_policies_validate(p);
}

CEDAR_WARN_UNUSED static inline cedar_status cedar_checked_policies_copy(cedar_policies *from, cedar_policies *to) {
    if (!from || !to) return CEDAR_CLOSED;
    if (from == to) return CEDAR_BAD_ARGUMENT;
    return cedar_policies_copy(from, to);
}

CEDAR_WARN_UNUSED static inline cedar_status cedar_checked_policies_deep_copy(cedar_policies *from,
                                                                     cedar_policies *to) {
    if (!from || !to) return CEDAR_CLOSED;
    if (from == to) return CEDAR_BAD_ARGUMENT;
    return cedar_policies_deep_copy(from, to);
}

CEDAR_WARN_UNUSED static inline cedar_status cedar_checked_policies_equal(cedar_policies *first, cedar_policies *second,
                                                                     bool *result) {
    if (!first || !second) return CEDAR_CLOSED;
    if (first == second) return CEDAR_BAD_ARGUMENT;
    if (!result) return CEDAR_BAD_ARGUMENT;
    return cedar_policies_equal(first, second, result);
}

static inline size_t cedar_checked_policies_result(cedar_policies *p, size_t from, uint8_t *out, size_t capacity) {
    if (!p) return 0;
    if (!out) capacity = 0, out = (uint8_t *)cedar_empty_list();
    return cedar_policies_result(p, from, out, capacity);
}

static inline size_t cedar_checked_policies_result_spans(cedar_policies *p, size_t from, cedar_span *out,
                                                         size_t capacity) {
    if (!p) return 0;
    if (!out) capacity = 0, out = (cedar_span *)cedar_empty_list();
    return cedar_policies_result_spans(p, from, out, capacity);
}

static inline size_t cedar_checked_policies_result_nodes(cedar_policies *p, size_t from, cedar_node *out,
                                                         size_t capacity) {
    if (!p) return 0;
    if (!out) capacity = 0, out = (cedar_node *)cedar_empty_list();
    return cedar_policies_result_nodes(p, from, out, capacity);
}

static inline size_t cedar_checked_policies_error_text(cedar_policies *p, uint8_t *out, size_t capacity) {
    if (!p) return 0;
    if (!out) capacity = 0, out = (uint8_t *)cedar_empty_list();
    return cedar_policies_error_text(p, out, capacity);
}

#ifdef __cplusplus
}
#endif

#ifndef CEDAR_UNCHECKED
#define cedar_run cedar_checked_run
#define cedar_uid_check cedar_checked_uid_check
#define cedar_uid_make cedar_checked_uid_make
#define cedar_uid_parts cedar_checked_uid_parts
#define cedar_uids_check cedar_checked_uids_check
#define cedar_status_text cedar_checked_status_text
#define cedar_error_part cedar_checked_error_part
#define cedar_store_new cedar_checked_store_new
#define cedar_store_free cedar_checked_store_free
#define cedar_store_build cedar_checked_store_build
#define cedar_store_add cedar_checked_store_add
#define cedar_store_upsert cedar_checked_store_upsert
#define cedar_store_build_with cedar_checked_store_build_with
#define cedar_store_add_with cedar_checked_store_add_with
#define cedar_store_upsert_with cedar_checked_store_upsert_with
#define cedar_store_remove cedar_checked_store_remove
#define cedar_store_partial cedar_checked_store_partial
#define cedar_store_len cedar_checked_store_len
#define cedar_store_has cedar_checked_store_has
#define cedar_store_is_descendant_of cedar_checked_store_is_descendant_of
#define cedar_store_uid_number cedar_checked_store_uid_number
#define cedar_store_number_uid cedar_checked_store_number_uid
#define cedar_store_has_number cedar_checked_store_has_number
#define cedar_store_is_descendant_of_numbers cedar_checked_store_is_descendant_of_numbers
#define cedar_store_ancestors cedar_checked_store_ancestors
#define cedar_store_parents cedar_checked_store_parents
#define cedar_store_indirect_ancestors cedar_checked_store_indirect_ancestors
#define cedar_store_descendants cedar_checked_store_descendants
#define cedar_store_descendants_of_type cedar_checked_store_descendants_of_type
#define cedar_store_path cedar_checked_store_path
#define cedar_store_reaches cedar_checked_store_reaches
#define cedar_store_is_child_of cedar_checked_store_is_child_of
#define cedar_store_is_indirect_descendant_of cedar_checked_store_is_indirect_descendant_of
#define cedar_store_is_partial cedar_checked_store_is_partial
#define cedar_store_entity cedar_checked_store_entity
#define cedar_store_uids cedar_checked_store_uids
#define cedar_store_attrs_len cedar_checked_store_attrs_len
#define cedar_store_tags_len cedar_checked_store_tags_len
#define cedar_store_keys cedar_checked_store_keys
#define cedar_store_tag_keys cedar_checked_store_tag_keys
#define cedar_store_get cedar_checked_store_get
#define cedar_store_get_tag cedar_checked_store_get_tag
#define cedar_store_entity_equal cedar_checked_store_entity_equal
#define cedar_store_text cedar_checked_store_text
#define cedar_store_entity_text cedar_checked_store_entity_text
#define cedar_store_validate cedar_checked_store_validate
#define cedar_store_slice cedar_checked_store_slice
#define cedar_store_copy cedar_checked_store_copy
#define cedar_store_slice_deep_copy cedar_checked_store_slice_deep_copy
#define cedar_store_deep_copy cedar_checked_store_deep_copy
#define cedar_store_equal cedar_checked_store_equal
#define cedar_store_result cedar_checked_store_result
#define cedar_store_result_spans cedar_checked_store_result_spans
#define cedar_store_result_nodes cedar_checked_store_result_nodes
#define cedar_store_error_text cedar_checked_store_error_text
#define cedar_policies_new cedar_checked_policies_new
#define cedar_policies_free cedar_checked_policies_free
#define cedar_policies_add_static cedar_checked_policies_add_static
#define cedar_policies_add_template cedar_checked_policies_add_template
#define cedar_policies_add_static_with cedar_checked_policies_add_static_with
#define cedar_policies_add_template_with cedar_checked_policies_add_template_with
#define cedar_policies_link cedar_checked_policies_link
#define cedar_policies_unlink cedar_checked_policies_unlink
#define cedar_policies_remove_static cedar_checked_policies_remove_static
#define cedar_policies_remove_template cedar_checked_policies_remove_template
#define cedar_policies_merge cedar_checked_policies_merge
#define cedar_policies_merge_deep_copy cedar_checked_policies_merge_deep_copy
#define cedar_policies_ids cedar_checked_policies_ids
#define cedar_policies_get cedar_checked_policies_get
#define cedar_policies_effect cedar_checked_policies_effect
#define cedar_policies_slots cedar_checked_policies_slots
#define cedar_policies_annotation cedar_checked_policies_annotation
#define cedar_policies_annotations cedar_checked_policies_annotations
#define cedar_policies_scope cedar_checked_policies_scope
#define cedar_policies_clause cedar_checked_policies_clause
#define cedar_policies_condition cedar_checked_policies_condition
#define cedar_policies_env cedar_checked_policies_env
#define cedar_policies_template_id cedar_checked_policies_template_id
#define cedar_policies_linked cedar_checked_policies_linked
#define cedar_policies_text cedar_checked_policies_text
#define cedar_policies_policy_text cedar_checked_policies_policy_text
#define cedar_policies_template_text cedar_checked_policies_template_text
#define cedar_policies_unknown_entities cedar_checked_policies_unknown_entities
#define cedar_policies_naming cedar_checked_policies_naming
#define cedar_policies_templates_naming cedar_checked_policies_templates_naming
#define cedar_policies_validate cedar_checked_policies_validate
#define cedar_policies_copy cedar_checked_policies_copy
#define cedar_policies_deep_copy cedar_checked_policies_deep_copy
#define cedar_policies_equal cedar_checked_policies_equal
#define cedar_policies_result cedar_checked_policies_result
#define cedar_policies_result_spans cedar_checked_policies_result_spans
#define cedar_policies_result_nodes cedar_checked_policies_result_nodes
#define cedar_policies_error_text cedar_checked_policies_error_text

/* In C `cedar_status_text` returns a text that ends with a zero. The function of the library is
 * `cedar_status_copy_text`. */
#define cedar_status_copy_text cedar_checked_status_text
#undef cedar_status_text
#define cedar_status_text cedar_status_words
#endif
#endif
