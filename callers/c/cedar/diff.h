/* What differs between a store and a later one, and between a policy set and a later one. The helpers make proved
 * calls; the comparison itself is tested, not proved. They allocate by `malloc`, and replace the results of both handles.
 *
 *     cedar_store_difference difference = CEDAR_EMPTY;
 *     cedar_status status = cedar_store_diff(&before, &after, &difference);
 *     for (const char *uid; (uid = cedar_texts_next(&difference.removed, NULL));) printf("- %s\n", uid);
 *     cedar_store_difference_free(&difference);
 */
#ifndef CEDAR_DIFF_H
#define CEDAR_DIFF_H

#include "lists.h"

#ifdef __cplusplus
extern "C" {
#endif

/* The uids of the entities that differ between two stores. It is empty if all its bytes are zero. */
typedef struct cedar_store_difference {
    cedar_texts removed; /* of the entities that only the first store has */
    cedar_texts added;   /* of the entities that only the second store has */
    cedar_texts changed; /* of the entities with other attributes, tags, parents or ancestors in the second store */
} cedar_store_difference;

/* Frees the uids, and makes the difference empty. */
static inline void cedar_store_difference_free(cedar_store_difference *difference) {
    cedar_texts_free(&difference->removed);
    cedar_texts_free(&difference->added);
    cedar_texts_free(&difference->changed);
}

/* Returns whether two lists of texts are equal. */
static inline bool cedar_texts_equal(const cedar_texts *one, const cedar_texts *other) {
    if (one->len != other->len) return false;
    for (size_t at = 0; at < one->len; at++) {
        cedar_span a = one->spans[at], b = other->spans[at];
        if (a.end - a.start != b.end - b.start) return false;
        if (memcmp(one->bytes + a.start, other->bytes + b.start, a.end - a.start)) return false;
    }
    return true;
}

/* Writes to `result` whether the entities with a uid in two stores have the same attributes, tags, parents and
 * ancestors. */
static inline cedar_status cedar_diff_is_same(cedar_store *before, cedar_store *after, const char *uid, bool *result) {
    cedar_texts old_parents = CEDAR_EMPTY, new_parents = CEDAR_EMPTY;
    cedar_status status = cedar_checked_store_entity_equal(before, CEDAR_TEXT(uid), after, result);
    if (!status && *result) status = cedar_checked_store_parents(before, CEDAR_TEXT(uid));
    if (!status && *result) status = cedar_store_texts(before, &old_parents);
    if (!status && *result) status = cedar_checked_store_parents(after, CEDAR_TEXT(uid));
    if (!status && *result) status = cedar_store_texts(after, &new_parents);
    if (!status && *result) *result = cedar_texts_equal(&old_parents, &new_parents);
    cedar_texts_free(&old_parents);
    cedar_texts_free(&new_parents);
    return status;
}

/* Keeps those uids of a store that another store does not have. Moves all others that differ, if `changed` is not a
 * null pointer, to that list, which has room for them. */
static inline cedar_status cedar_diff_split(cedar_store *store, cedar_store *other, cedar_texts *uids,
                                            cedar_texts *changed) {
    size_t kept = 0;
    for (size_t at = 0; at < uids->len; at++) {
        cedar_span span = uids->spans[at];
        const char *uid = uids->bytes + span.start;
        bool has = false, is_same = true;
        cedar_status status = cedar_checked_store_has(other, CEDAR_TEXT(uid), &has);
        if (!status && has && changed) status = cedar_diff_is_same(store, other, uid, &is_same);
        if (status) return status;
        if (!has) uids->spans[kept++] = span;
        if (is_same || !changed) continue;
        memcpy(changed->bytes + span.start, uid, span.end - span.start + 1);
        changed->spans[changed->len++] = span;
    }
    uids->len = kept;
    return CEDAR_OK;
}

/* Compares a store with a later one. Each list is in the order of `cedar_store_uids` of its store, `changed` in that of
 * the first. Frees the old uids. Returns CEDAR_OK, CEDAR_CLOSED, CEDAR_NO_MEMORY, or CEDAR_BAD_ARGUMENT if both are one
 * handle. After an error the difference is empty. Whether the stores are partial is not compared. */
CEDAR_WARN_UNUSED static inline cedar_status cedar_store_diff(cedar_store *before, cedar_store *after,
                                                              cedar_store_difference *difference) {
    cedar_store_difference_free(difference);
    if (before && before == after) return CEDAR_BAD_ARGUMENT;
    cedar_status status = cedar_checked_store_uids(before);
    if (!status) status = cedar_store_texts(before, &difference->removed);
    if (!status) status = cedar_checked_store_uids(after);
    if (!status) status = cedar_store_texts(after, &difference->added);
    if (!status) {
        size_t bytes_len = cedar_checked_store_result(before, 0, NULL, 0);
        status = cedar_texts_reserve(&difference->changed, bytes_len + difference->removed.len, difference->removed.len);
    }
    if (!status) status = cedar_diff_split(before, after, &difference->removed, &difference->changed);
    if (!status) status = cedar_diff_split(after, before, &difference->added, NULL);
    if (status) cedar_store_difference_free(difference);
    return status;
}

/* Copies those ancestors of the entity with a uid, which ends with a zero, that the entity in another store does not
 * have, in ascending order of uid: the ancestors that it lost in a later store, or with both stores exchanged, those
 * that it gained. Returns the statuses of `cedar_store_ancestors`, and CEDAR_NO_ENTITY also for the other store. */
CEDAR_WARN_UNUSED static inline cedar_status cedar_store_lost_ancestor_texts(cedar_store *before, cedar_store *after,
                                                                             const char *uid, cedar_texts *texts) {
    size_t kept = 0;
    bool has = false;
    cedar_status status = cedar_store_ancestor_texts(before, uid, texts);
    if (!status) status = cedar_checked_store_has(after, CEDAR_TEXT(uid), &has);
    if (!status && !has) status = CEDAR_NO_ENTITY;
    for (size_t at = 0; !status && at < texts->len; at++) {
        const char *ancestor = texts->bytes + texts->spans[at].start;
        status = cedar_checked_store_is_descendant_of(after, CEDAR_TEXT(uid), CEDAR_TEXT(ancestor), &has);
        if (!has) texts->spans[kept++] = texts->spans[at];
    }
    if (status) cedar_texts_free(texts);
    else texts->len = kept;
    return status;
}

/* ---- policy sets */

/* The ids of the static policies, templates and links that differ between two sets. It is empty if all its bytes are
 * zero. */
typedef struct cedar_policies_difference {
    cedar_texts removed;  /* that only the first set binds */
    cedar_texts added;    /* that only the second set binds */
    cedar_texts changed;  /* that the sets bind to different items. The items of links are template ids and bindings. */
    cedar_texts relinked; /* of links that are not changed, but the template of which is */
} cedar_policies_difference;

/* Frees the ids, and makes the difference empty. */
static inline void cedar_policies_difference_free(cedar_policies_difference *difference) {
    cedar_texts_free(&difference->removed);
    cedar_texts_free(&difference->added);
    cedar_texts_free(&difference->changed);
    cedar_texts_free(&difference->relinked);
}

/* Copies the ids that a set binds: of static policies and templates in the order of bodies, and then of links. */
static inline cedar_status cedar_diff_ids(cedar_policies *p, cedar_texts *bodies, cedar_texts *links) {
    size_t kept = 0;
    cedar_status status = cedar_policies_id_texts(p, CEDAR_BODIES, bodies);
    if (!status) status = cedar_policies_id_texts(p, CEDAR_POLICIES, links);
    for (size_t at = 0; !status && at < links->len; at++) {
        cedar_span span = links->spans[at];
        cedar_bound bound = CEDAR_UNBOUND;
        status = cedar_checked_policies_get(p, (uint8_t *)links->bytes + span.start, span.end - span.start, &bound);
        if (bound == CEDAR_LINK) links->spans[kept++] = span;
    }
    if (!status) links->len = kept;
    return status;
}

/* Appends a text to texts that have room for it. */
static inline void cedar_diff_append(cedar_texts *texts, const uint8_t *text, size_t len) {
    cedar_span *span = &texts->spans[texts->len];
    span->start = texts->len ? texts->spans[texts->len - 1].end + 1 : 0;
    span->end = span->start + len;
    memcpy(texts->bytes + span->start, text, len);
    texts->bytes[span->end] = 0;
    texts->len++;
}

/* Sets `same` to false if the texts of the results of two sets differ. */
static inline cedar_status cedar_diff_results(cedar_policies *before, cedar_policies *after, bool *same) {
    cedar_texts old_texts = CEDAR_EMPTY, new_texts = CEDAR_EMPTY;
    cedar_status status = cedar_policies_texts(before, &old_texts);
    if (!status) status = cedar_policies_texts(after, &new_texts);
    *same = *same && !status && cedar_texts_equal(&old_texts, &new_texts);
    cedar_texts_free(&old_texts);
    cedar_texts_free(&new_texts);
    return status;
}

/* Writes to `same` whether a link has the same template id and the same bindings in two sets. */
static inline cedar_status cedar_diff_links(cedar_policies *before, cedar_policies *after, const uint8_t *id, size_t len,
                                            bool *same) {
    *same = true;
    cedar_status status = cedar_checked_policies_template_id(before, id, len);
    if (!status) status = cedar_checked_policies_template_id(after, id, len);
    if (!status) status = cedar_diff_results(before, after, same);
    if (!status) status = cedar_checked_policies_env(before, id, len);
    if (!status) status = cedar_checked_policies_env(after, id, len);
    return status ? status : cedar_diff_results(before, after, same);
}

/* Sets `same` to false if the clauses of a static policy or a template differ between two sets. */
static inline cedar_status cedar_diff_clauses(cedar_policies *before, cedar_policies *after, const uint8_t *id,
                                              size_t len, bool *same) {
    bool had = false, has = false;
    cedar_status status = cedar_checked_policies_clause(before, id, len, &had);
    if (!status) status = cedar_checked_policies_clause(after, id, len, &has);
    if (status || had != has) *same = false;
    if (status || !had || !has) return status;
    size_t nodes_len = cedar_checked_policies_result_nodes(before, 0, NULL, 0);
    if (nodes_len != cedar_checked_policies_result_nodes(after, 0, NULL, 0)) *same = false;
    for (size_t at = 0; *same && at < nodes_len; at++) {
        cedar_node a, b;
        cedar_checked_policies_result_nodes(before, at, &a, 1);
        cedar_checked_policies_result_nodes(after, at, &b, 1);
        *same = a.kind == b.kind && a.len == b.len && a.number == b.number && a.at.start == b.at.start &&
                a.at.end == b.at.end;
    }
    return cedar_diff_results(before, after, same);
}

/* Writes to `same` whether a static policy or a template has the same content in two sets. */
static inline cedar_status cedar_diff_bodies(cedar_policies *before, cedar_policies *after, const uint8_t *id, size_t len,
                                             bool *same) {
    static const cedar_variable variables[3] = {CEDAR_PRINCIPAL, CEDAR_ACTION, CEDAR_RESOURCE};
    cedar_effect old_effect = CEDAR_PERMIT, new_effect = CEDAR_PERMIT;
    cedar_scope_kind old_kind = CEDAR_SCOPE_ANY, new_kind = CEDAR_SCOPE_ANY;
    cedar_status status = cedar_checked_policies_effect(before, id, len, &old_effect);
    if (!status) status = cedar_checked_policies_effect(after, id, len, &new_effect);
    *same = old_effect == new_effect;
    if (!status) status = cedar_checked_policies_annotations(before, id, len);
    if (!status) status = cedar_checked_policies_annotations(after, id, len);
    if (!status) status = cedar_diff_results(before, after, same);
    for (size_t k = 0; !status && *same && k < 3; k++) {
        status = cedar_checked_policies_scope(before, id, len, variables[k], &old_kind);
        if (!status) status = cedar_checked_policies_scope(after, id, len, variables[k], &new_kind);
        *same = old_kind == new_kind;
        if (!status) status = cedar_diff_results(before, after, same);
    }
    return status || !*same ? status : cedar_diff_clauses(before, after, id, len, same);
}

/* Writes to `same` whether two sets bind an id to equal items, and to `has` whether the second set binds it. */
static inline cedar_status cedar_diff_items(cedar_policies *before, cedar_policies *after, const uint8_t *id, size_t len,
                                            bool *has, bool *same) {
    cedar_bound old_bound = CEDAR_UNBOUND, new_bound = CEDAR_UNBOUND;
    cedar_status status = cedar_checked_policies_get(before, id, len, &old_bound);
    if (!status) status = cedar_checked_policies_get(after, id, len, &new_bound);
    *has = new_bound != CEDAR_UNBOUND;
    *same = old_bound == new_bound;
    if (status || !*same || !*has) return status;
    return old_bound == CEDAR_LINK ? cedar_diff_links(before, after, id, len, same)
                                   : cedar_diff_bodies(before, after, id, len, same);
}

/* Appends the ids of a list that differ to the lists of a difference. Appends those that only `before` binds to `only`.
 * If `difference` is a null pointer, appends only these. */
static inline cedar_status cedar_diff_list(cedar_policies *before, cedar_policies *after, const cedar_texts *ids,
                                           cedar_texts *only, cedar_policies_difference *difference) {
    for (size_t at = 0; at < ids->len; at++) {
        const uint8_t *id = (const uint8_t *)ids->bytes + ids->spans[at].start;
        size_t len = ids->spans[at].end - ids->spans[at].start;
        cedar_bound bound = CEDAR_UNBOUND;
        bool has = false, same = false;
        cedar_status status = difference ? cedar_diff_items(before, after, id, len, &has, &same)
                                         : cedar_checked_policies_get(after, id, len, &bound);
        if (status) return status;
        if (!has && bound == CEDAR_UNBOUND) cedar_diff_append(only, id, len);
        else if (difference && !same) cedar_diff_append(&difference->changed, id, len);
    }
    return CEDAR_OK;
}

/* Appends the links of both sets that did not change, but the template of which did. */
static inline cedar_status cedar_diff_relinked(cedar_policies *before, cedar_policies *after, const cedar_texts *links,
                                               cedar_policies_difference *difference) {
    for (size_t at = 0; at < links->len; at++) {
        const uint8_t *id = (const uint8_t *)links->bytes + links->spans[at].start;
        size_t len = links->spans[at].end - links->spans[at].start;
        bool has = false, same = false;
        cedar_texts template_id = CEDAR_EMPTY;
        cedar_status status = cedar_diff_items(before, after, id, len, &has, &same);
        if (!status && has && same) {
            status = cedar_checked_policies_template_id(before, id, len);
            if (!status) status = cedar_policies_texts(before, &template_id);
            if (!status) {
                const uint8_t *text = (const uint8_t *)template_id.bytes;
                status = cedar_diff_items(before, after, text, template_id.spans[0].end, &has, &same);
            }
            if (!status && !same) cedar_diff_append(&difference->relinked, id, len);
            cedar_texts_free(&template_id);
        }
        if (status) return status;
    }
    return CEDAR_OK;
}

/* Reserves room in a list for all ids of a set. */
static inline cedar_status cedar_diff_reserve(cedar_texts *list, const cedar_texts *bodies, const cedar_texts *links) {
    size_t bytes_len = bodies->len ? bodies->spans[bodies->len - 1].end + 1 : 0;
    if (links->len) bytes_len += links->spans[links->len - 1].end + 1;
    return cedar_texts_reserve(list, bytes_len, bodies->len + links->len);
}

/* Compares a set with a later one. Each list has the ids of static policies and templates in the order of
 * `cedar_policies_ids` for bodies, and then those of links: `added` in the order of the second set, the others in that
 * of the first. Frees the old ids. Returns CEDAR_OK, CEDAR_CLOSED, CEDAR_NO_MEMORY, or CEDAR_BAD_ARGUMENT if both are
 * one handle. After an error the difference is empty. The order of the sets is not compared. */
CEDAR_WARN_UNUSED static inline cedar_status cedar_policies_diff(cedar_policies *before, cedar_policies *after,
                                                                 cedar_policies_difference *difference) {
    cedar_texts bodies = CEDAR_EMPTY, links = CEDAR_EMPTY, new_bodies = CEDAR_EMPTY, new_links = CEDAR_EMPTY;
    cedar_policies_difference_free(difference);
    if (before && before == after) return CEDAR_BAD_ARGUMENT;
    cedar_status status = cedar_diff_ids(before, &bodies, &links);
    if (!status) status = cedar_diff_ids(after, &new_bodies, &new_links);
    if (!status) status = cedar_diff_reserve(&difference->removed, &bodies, &links);
    if (!status) status = cedar_diff_reserve(&difference->changed, &bodies, &links);
    if (!status) status = cedar_diff_reserve(&difference->relinked, &bodies, &links);
    if (!status) status = cedar_diff_reserve(&difference->added, &new_bodies, &new_links);
    if (!status) status = cedar_diff_list(before, after, &bodies, &difference->removed, difference);
    if (!status) status = cedar_diff_list(before, after, &links, &difference->removed, difference);
    if (!status) status = cedar_diff_list(after, before, &new_bodies, &difference->added, NULL);
    if (!status) status = cedar_diff_list(after, before, &new_links, &difference->added, NULL);
    if (!status) status = cedar_diff_relinked(before, after, &links, difference);
    cedar_texts_free(&bodies);
    cedar_texts_free(&links);
    cedar_texts_free(&new_bodies);
    cedar_texts_free(&new_links);
    if (status) cedar_policies_difference_free(difference);
    return status;
}

#ifdef __cplusplus
}
#endif
#endif
