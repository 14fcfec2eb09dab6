/* Helpers over the other headers: lists of uids and edges, and iteration over results. They allocate by `malloc`, and
 * are tested, not proved.
 *
 *     cedar_list list = CEDAR_EMPTY;
 *     size_t alice = cedar_list_uid(&list, "User", "alice"), staff = cedar_list_text(&list, "Group::\"staff\"");
 *     cedar_list_parent(&list, alice, staff);
 *     cedar_status status = cedar_store_add_list(&store, &list, CEDAR_COMPUTE);
 *     cedar_list_free(&list);
 *
 * A call that appends returns an index. If it fails, its status is stored in the list, and the call that takes the list
 * returns the first such status. So a program checks a status once for each list. The helpers make the checks of
 * nulls.h, also if CEDAR_UNCHECKED is defined. */
#ifndef CEDAR_LISTS_H
#define CEDAR_LISTS_H

#include "nulls.h"
#include <stdlib.h>
#include <string.h>

#ifdef __cplusplus
extern "C" {
#endif

/* The two arguments of a call for a text that ends with a zero. */
#define CEDAR_TEXT(text) (const uint8_t *)(text), strlen(text)

/* A part of the text of a list: a uid, and its number among the entities, from 1 on, or 0 if it is no entity. */
typedef struct cedar_list_item {
    cedar_span span;
    size_t entity;
} cedar_list_item;

/* A list of texts, of entities among them, and of edges. It is empty if all its bytes are zero. `status` is the first
 * error, or CEDAR_OK. Its other fields are private to this file. */
typedef struct cedar_list {
    uint8_t *text;
    size_t text_len, text_capacity;
    cedar_list_item *items;
    size_t len, capacity;
    cedar_edge *edges;
    size_t edges_len, edges_capacity;
    size_t entities_len;
    cedar_status status;
} cedar_list;

/* Returns an array with room for `more` elements of a size after `len` elements. Returns a null pointer, and stores
 * CEDAR_NO_MEMORY in the list, if an allocation fails. The array stays in that case. */
static inline void *cedar_list_reserve(cedar_list *list, void *array, size_t size, size_t len, size_t more,
                                       size_t *capacity) {
    size_t wanted = *capacity > 8 ? *capacity : 8;
    if (array && len + more <= *capacity) return array;
    while (wanted < len + more) wanted *= 2;
    void *grown = wanted <= SIZE_MAX / 2 / size ? realloc(array, wanted * size) : NULL;
    if (grown) *capacity = wanted;
    if (!grown && !list->status) list->status = CEDAR_NO_MEMORY;
    return grown;
}

/* Returns room for `len` more bytes at the end of the text, or a null pointer. */
static inline uint8_t *cedar_list_room(cedar_list *list, size_t len) {
    void *text = cedar_list_reserve(list, list->text, 1, list->text_len, len, &list->text_capacity);
    if (!text) return NULL;
    list->text = (uint8_t *)text;
    return list->text + list->text_len;
}

/* Appends the bytes at the end of the text as an item. Returns its index. */
static inline size_t cedar_list_item_of(cedar_list *list, size_t len) {
    void *items = cedar_list_reserve(list, list->items, sizeof *list->items, list->len, 1, &list->capacity);
    if (!items) return 0;
    list->items = (cedar_list_item *)items;
    list->items[list->len].span.start = list->text_len;
    list->items[list->len].span.end = list->text_len + len;
    list->items[list->len].entity = 0;
    list->text_len += len;
    return list->len++;
}

/* Appends a text with a length: the text of a uid, or an empty text for an unbound slot. Returns its index. */
static inline size_t cedar_list_bytes(cedar_list *list, const uint8_t *text, size_t len) {
    uint8_t *room = list->status ? NULL : cedar_list_room(list, len);
    if (!room) return 0;
    if (len) memcpy(room, text, len);
    return cedar_list_item_of(list, len);
}

/* Appends a text that ends with a zero. Returns its index. */
static inline size_t cedar_list_text(cedar_list *list, const char *text) {
    return cedar_list_bytes(list, CEDAR_TEXT(text));
}

/* Appends the uid with a type and an id, which end with a zero. The id is not escaped. Returns its index. Stores
 * CEDAR_NOT_A_NAME, CEDAR_NOT_UTF8 or CEDAR_NO_MEMORY in the list after an error. */
static inline size_t cedar_list_uid(cedar_list *list, const char *type, const char *id) {
    size_t room = strlen(type) + 2 * strlen(id) + 8, len = 0;
    while (!list->status) {
        uint8_t *out = cedar_list_room(list, room);
        if (!out) return 0;
        list->status = cedar_checked_uid_make(CEDAR_TEXT(type), CEDAR_TEXT(id), out, room, &len);
        if (!list->status && len <= room) return cedar_list_item_of(list, len);
        room = len;
    }
    return 0;
}

/* Makes the item at an index an entity. An item is also an entity if it gets a parent. Stores CEDAR_BAD_ARGUMENT in the
 * list if there is no such item. */
static inline void cedar_list_entity(cedar_list *list, size_t index) {
    if (!list->status && index >= list->len) list->status = CEDAR_BAD_ARGUMENT;
    if (!list->status && !list->items[index].entity) list->items[index].entity = ++list->entities_len;
}

/* Makes the item at an index an entity whose parents include the item at another index. Stores CEDAR_BAD_ARGUMENT in
 * the list if one of them does not exist. */
static inline void cedar_list_parent(cedar_list *list, size_t entity, size_t parent) {
    cedar_list_entity(list, entity);
    if (!list->status && parent >= list->len) list->status = CEDAR_BAD_ARGUMENT;
    if (list->status) return;
    void *edges = cedar_list_reserve(list, list->edges, sizeof *list->edges, list->edges_len, 1, &list->edges_capacity);
    if (!edges) return;
    list->edges = (cedar_edge *)edges;
    list->edges[list->edges_len].from = list->items[entity].entity - 1;
    list->edges[list->edges_len++].to = parent;
}

/* Frees the memory of a list, and makes it empty. */
static inline void cedar_list_free(cedar_list *list) {
    free(list->text);
    free(list->items);
    free(list->edges);
    memset(list, 0, sizeof *list);
}

/* The arguments of a call that takes a list: the parts of the entities, then of all items, and the edges between. */
typedef struct cedar_list_arguments {
    cedar_span *uids;
    size_t uids_len;
    cedar_edge *edges;
} cedar_list_arguments;

/* Creates the arguments for a list. The caller frees both arrays. */
static inline cedar_status cedar_list_encode(const cedar_list *list, bool has_entities, cedar_list_arguments *out) {
    size_t count = has_entities ? list->entities_len : 0;
    memset(out, 0, sizeof *out);
    if (list->status) return list->status;
    out->uids_len = count + list->len;
    out->uids = (cedar_span *)malloc((out->uids_len + 1) * sizeof *out->uids);
    out->edges = (cedar_edge *)malloc((list->edges_len + 1) * sizeof *out->edges);
    if (!out->uids || !out->edges) return CEDAR_NO_MEMORY;
    for (size_t at = 0; at < list->len; at++) {
        out->uids[count + at] = list->items[at].span;
        if (count && list->items[at].entity) out->uids[list->items[at].entity - 1] = list->items[at].span;
    }
    for (size_t at = 0; at < list->edges_len; at++) {
        out->edges[at].from = list->edges[at].from;
        out->edges[at].to = count + list->edges[at].to;
    }
    return CEDAR_OK;
}

/* Frees the arguments, and returns the status. */
static inline cedar_status cedar_list_end(cedar_list_arguments *arguments, cedar_status status) {
    free(arguments->uids);
    free(arguments->edges);
    return status;
}

/* A call that edits a store by a list of entities. */
typedef cedar_status cedar_store_edit(cedar_store *s, const uint8_t *text, size_t text_len, const cedar_span *uids,
                                      size_t uids_len, size_t count, const cedar_edge *edges, size_t edges_len,
                                      cedar_mode mode);

/* Makes an edit of a store with the entities of a list. */
CEDAR_WARN_UNUSED static inline cedar_status cedar_list_edit(cedar_store *s, const cedar_list *list, cedar_mode mode,
                                                             cedar_store_edit *edit) {
    cedar_list_arguments a;
    cedar_status status = cedar_list_encode(list, true, &a);
    if (!status)
        status = edit(s, list->text, list->text_len, a.uids, a.uids_len, list->entities_len, a.edges, list->edges_len,
                      mode);
    return cedar_list_end(&a, status);
}

/* The three calls below do the same as `cedar_store_build`, `cedar_store_add` and `cedar_store_upsert`, for the
 * entities of a list. They return the first error of the list, or the status of the call. */
CEDAR_WARN_UNUSED static inline cedar_status cedar_store_build_list(cedar_store *s, const cedar_list *list,
                                                                    cedar_mode mode) {
    return cedar_list_edit(s, list, mode, cedar_checked_store_build);
}

CEDAR_WARN_UNUSED static inline cedar_status cedar_store_add_list(cedar_store *s, const cedar_list *list,
                                                                  cedar_mode mode) {
    return cedar_list_edit(s, list, mode, cedar_checked_store_add);
}

CEDAR_WARN_UNUSED static inline cedar_status cedar_store_upsert_list(cedar_store *s, const cedar_list *list,
                                                                     cedar_mode mode) {
    return cedar_list_edit(s, list, mode, cedar_checked_store_upsert);
}

/* Does the same as `cedar_store_remove`, for the uids of a list. */
CEDAR_WARN_UNUSED static inline cedar_status cedar_store_remove_list(cedar_store *s, const cedar_list *list,
                                                                     cedar_mode mode) {
    cedar_list_arguments a;
    cedar_status status = cedar_list_encode(list, false, &a);
    if (!status) status = cedar_checked_store_remove(s, list->text, list->text_len, a.uids, a.uids_len, mode);
    return cedar_list_end(&a, status);
}

/* Does the same as `cedar_store_slice`, for the uids of a list. */
CEDAR_WARN_UNUSED static inline cedar_status cedar_store_slice_list(cedar_store *from, cedar_store *to,
                                                                    const cedar_list *list) {
    cedar_list_arguments a;
    cedar_status status = cedar_list_encode(list, false, &a);
    if (!status) status = cedar_checked_store_slice(from, to, list->text, list->text_len, a.uids, a.uids_len);
    return cedar_list_end(&a, status);
}

/* Links a template under a new id, as `cedar_policies_link` does. Each text ends with a zero. A null pointer leaves the
 * slot unbound. */
CEDAR_WARN_UNUSED static inline cedar_status cedar_policies_link_text(cedar_policies *p, const char *template_id,
                                                                      const char *id, const char *principal,
                                                                      const char *action, const char *resource) {
    const char *values[3] = {principal, action, resource};
    cedar_list list = CEDAR_EMPTY;
    cedar_list_arguments a;
    for (size_t slot = 0; slot < 3; slot++) cedar_list_text(&list, values[slot] ? values[slot] : "");
    cedar_status status = cedar_list_encode(&list, false, &a);
    if (!status)
        status = cedar_checked_policies_link(p, CEDAR_TEXT(template_id), CEDAR_TEXT(id), list.text, list.text_len,
                                             a.uids, a.uids_len);
    cedar_list_free(&list);
    return cedar_list_end(&a, status);
}

/* ---- bodies */

/* Returns the constraint of a kind, on the part of a text with a uid. */
static inline cedar_scope cedar_scope_of(cedar_scope_kind kind, size_t start, size_t end) {
    cedar_scope scope;
    memset(&scope, 0, sizeof scope);
    scope.kind = kind;
    scope.uid.start = start;
    scope.uid.end = end;
    return scope;
}

/* Adds a static policy, as `cedar_policies_add_static_with` does, without annotations and without a clause. Its action
 * is not in a list. Both texts end with a zero. */
CEDAR_WARN_UNUSED static inline cedar_status cedar_policies_add_static_body(cedar_policies *p, const char *id,
                                                                            const char *text, const cedar_body *body) {
    return cedar_checked_policies_add_static_with(p, CEDAR_TEXT(id), CEDAR_TEXT(text), body, NULL, 0, NULL, 0, NULL, 0);
}

/* Adds a template, in the same way. */
CEDAR_WARN_UNUSED static inline cedar_status cedar_policies_add_template_body(cedar_policies *p, const char *id,
                                                                              const char *text,
                                                                              const cedar_body *body) {
    return cedar_checked_policies_add_template_with(p, CEDAR_TEXT(id), CEDAR_TEXT(text), body, NULL, 0, NULL, 0, NULL,
                                                    0);
}

/* ---- iteration over results */

/* The texts of a result, copied out of a handle, so that further calls on it change nothing here. They are empty if
 * all bytes are zero. */
typedef struct cedar_texts {
    char *bytes;
    cedar_span *spans;
    size_t len;
    size_t next;
} cedar_texts;

/* Frees the texts, and makes them empty. */
static inline void cedar_texts_free(cedar_texts *texts) {
    free(texts->bytes);
    free(texts->spans);
    memset(texts, 0, sizeof *texts);
}

/* Returns the next text, with a zero after it, or a null pointer after the last one. The text is valid until the texts
 * are freed or filled again. Writes its length to `length`, unless that is a null pointer. A text can contain zeros. */
static inline const char *cedar_texts_next(cedar_texts *texts, size_t *length) {
    if (texts->next >= texts->len) return NULL;
    cedar_span span = texts->spans[texts->next++];
    if (length) *length = span.end - span.start;
    return texts->bytes + span.start;
}

/* Reserves memory for a result of some bytes and some texts. Frees the old texts. */
static inline cedar_status cedar_texts_reserve(cedar_texts *texts, size_t bytes_len, size_t len) {
    cedar_texts_free(texts);
    texts->bytes = (char *)malloc(bytes_len + len + 1);
    texts->spans = (cedar_span *)malloc((len + 1) * sizeof *texts->spans);
    if (texts->bytes && texts->spans) return CEDAR_OK;
    cedar_texts_free(texts);
    return CEDAR_NO_MEMORY;
}

/* Moves the texts apart, from the last to the first, so that a zero follows each. */
static inline void cedar_texts_separate(cedar_texts *texts, size_t len) {
    texts->len = len;
    for (size_t at = len; at-- > 0;) {
        cedar_span *span = &texts->spans[at];
        size_t length = span->end - span->start;
        memmove(texts->bytes + span->start + at, texts->bytes + span->start, length);
        span->start += at;
        span->end += at;
        texts->bytes[span->end] = 0;
    }
}

/* Copies all texts of the result of a store. Frees the old texts. Returns CEDAR_OK, CEDAR_CLOSED or CEDAR_NO_MEMORY. */
CEDAR_WARN_UNUSED static inline cedar_status cedar_store_texts(cedar_store *s, cedar_texts *texts) {
    size_t bytes_len = cedar_checked_store_result(s, 0, NULL, 0);
    size_t len = cedar_checked_store_result_spans(s, 0, NULL, 0);
    cedar_status status = cedar_texts_reserve(texts, bytes_len, len);
    if (status) return status;
    cedar_checked_store_result(s, 0, (uint8_t *)texts->bytes, bytes_len);
    cedar_checked_store_result_spans(s, 0, texts->spans, len);
    cedar_texts_separate(texts, len);
    return CEDAR_OK;
}

/* Copies all texts of the result of a set, as `cedar_store_texts` does. */
CEDAR_WARN_UNUSED static inline cedar_status cedar_policies_texts(cedar_policies *p, cedar_texts *texts) {
    size_t bytes_len = cedar_checked_policies_result(p, 0, NULL, 0);
    size_t len = cedar_checked_policies_result_spans(p, 0, NULL, 0);
    cedar_status status = cedar_texts_reserve(texts, bytes_len, len);
    if (status) return status;
    cedar_checked_policies_result(p, 0, (uint8_t *)texts->bytes, bytes_len);
    cedar_checked_policies_result_spans(p, 0, texts->spans, len);
    cedar_texts_separate(texts, len);
    return CEDAR_OK;
}

/* Copies the ancestors of the entity with a uid, which ends with a zero. Returns the statuses of
 * `cedar_store_ancestors`. */
CEDAR_WARN_UNUSED static inline cedar_status cedar_store_ancestor_texts(cedar_store *s, const char *uid,
                                                                        cedar_texts *texts) {
    cedar_status status = cedar_checked_store_ancestors(s, CEDAR_TEXT(uid));
    return status ? status : cedar_store_texts(s, texts);
}

/* Copies the descendants of a uid, or with a `type` that is not a null pointer, those of the type. Returns the statuses
 * of `cedar_store_descendants_of_type`. */
CEDAR_WARN_UNUSED static inline cedar_status cedar_store_descendant_texts(cedar_store *s, const char *uid,
                                                                          const char *type, cedar_texts *texts) {
    cedar_status status = type ? cedar_checked_store_descendants_of_type(s, CEDAR_TEXT(uid), CEDAR_TEXT(type))
                               : cedar_checked_store_descendants(s, CEDAR_TEXT(uid));
    return status ? status : cedar_store_texts(s, texts);
}

/* Copies the uids of a shortest path, or no texts if there is no path. Returns the statuses of `cedar_store_path`. */
CEDAR_WARN_UNUSED static inline cedar_status cedar_store_path_texts(cedar_store *s, const char *from, const char *to,
                                                                    cedar_texts *texts) {
    bool has = false;
    cedar_status status = cedar_checked_store_path(s, CEDAR_TEXT(from), CEDAR_TEXT(to), &has);
    return status ? status : cedar_store_texts(s, texts);
}

/* Copies the ids of the policies that name a uid. Returns the statuses of `cedar_policies_naming`. */
CEDAR_WARN_UNUSED static inline cedar_status cedar_policies_naming_texts(cedar_policies *p, const char *uid,
                                                                         cedar_texts *texts) {
    cedar_status status = cedar_checked_policies_naming(p, CEDAR_TEXT(uid));
    return status ? status : cedar_policies_texts(p, texts);
}

/* Copies one of the two lists of ids of a set. Returns the statuses of `cedar_policies_ids`. */
CEDAR_WARN_UNUSED static inline cedar_status cedar_policies_id_texts(cedar_policies *p, cedar_ids list,
                                                                     cedar_texts *texts) {
    cedar_status status = cedar_checked_policies_ids(p, list);
    return status ? status : cedar_policies_texts(p, texts);
}

/* Copies the text of the last error of a store, as much as fits, with a zero after it. Returns `out`. */
static inline const char *cedar_store_error(cedar_store *s, char *out, size_t capacity) {
    size_t length = capacity ? cedar_checked_store_error_text(s, (uint8_t *)out, capacity - 1) : 0;
    if (capacity) out[length < capacity ? length : capacity - 1] = 0;
    return out;
}

/* Copies the text of the last error of a set, as much as fits, with a zero after it. Returns `out`. */
static inline const char *cedar_policies_error(cedar_policies *p, char *out, size_t capacity) {
    size_t length = capacity ? cedar_checked_policies_error_text(p, (uint8_t *)out, capacity - 1) : 0;
    if (capacity) out[length < capacity ? length : capacity - 1] = 0;
    return out;
}

#ifdef __cplusplus
}
#endif
#endif
