/* Helpers of the tests in C: a counter of checks, encoded lists, and short forms of the calls. */
#ifndef CEDAR_SHORT_H
#define CEDAR_SHORT_H
#include "cedar.h"
#include <stdio.h>
#include <stdlib.h>
#include <string.h>

static int passed, failed;

#define CHECK(condition)                                                                                               \
    do {                                                                                                               \
        if (condition) {                                                                                               \
            passed++;                                                                                                  \
        } else {                                                                                                       \
            failed++;                                                                                                  \
            printf("%s:%d: failed: %s\n", __FILE__, __LINE__, #condition);                                             \
        }                                                                                                              \
    } while (0)

/* Ends a test: prints the counts and returns the exit status. */
static inline int report_counts(void) {
    printf("%d passed, %d failed\n", passed, failed);
    return failed != 0;
}

/* The uid with this name. */
#define U(name) "A::\"" name "\""

static inline const uint8_t *bytes(const char *text) { return (const uint8_t *)text; }

#define TEXT(text) bytes(text), strlen(text)

/* ---- encoded lists */

#define MAX_ITEMS 32

typedef struct list {
    uint8_t text[1024];
    size_t text_len;
    cedar_span uids[MAX_ITEMS];
    size_t uids_len;
    size_t count;
    cedar_edge edges[MAX_ITEMS];
    size_t edges_len;
} list;

static inline size_t push_text(list *l, const char *text) {
    size_t len = strlen(text);
    memcpy(l->text + l->text_len, text, len);
    l->uids[l->uids_len].start = l->text_len;
    l->uids[l->uids_len].end = l->text_len + len;
    l->text_len += len;
    return l->uids_len++;
}

static inline size_t push_name(list *l, char name) {
    char uid[16];
    snprintf(uid, sizeof uid, U("%c"), name);
    return push_text(l, uid);
}

/* Returns the list of the uids with these names, one character each: `ab` is two uids. */
static inline list uids(const char *names) {
    list l;
    memset(&l, 0, sizeof l);
    for (; *names; names++) push_name(&l, *names);
    return l;
}

/* Returns a list of entities with their parents: `a bc;b` is the entity a with the parents b and c, and the entity
 * b. */
static inline list parse_entities(const char *spec) {
    list l = uids("");
    for (const char *p = spec; *p; p++) {
        if (p == spec || p[-1] == ';') push_name(&l, *p);
    }
    l.count = l.uids_len;
    size_t from = 0;
    for (const char *p = spec; *p; p++) {
        if (*p == ';') from++;
        if (p == spec || p[-1] == ';' || *p == ';' || *p == ' ') continue;
        l.edges[l.edges_len].from = from;
        l.edges[l.edges_len++].to = push_name(&l, *p);
    }
    return l;
}

/* ---- short forms of the calls */

#define UIDS(l) (l).text, (l).text_len, (l).uids, (l).uids_len
#define ENTITIES(l) UIDS(l), (l).count, (l).edges, (l).edges_len

static inline cedar_status new_store(cedar_store *s) { return cedar_store_new(s, 0x5eed, 0x6b6579); }

/* Defines a call with the entities of a text. */
#define DEFINE_CALL_WITH_ENTITIES(name)                                                                                \
    static inline cedar_status name(cedar_store *s, const char *spec, cedar_mode mode) {                               \
        list l = parse_entities(spec);                                                                                 \
        return cedar_store_##name(s, ENTITIES(l), mode);                                                               \
    }

DEFINE_CALL_WITH_ENTITIES(build)
DEFINE_CALL_WITH_ENTITIES(add)
DEFINE_CALL_WITH_ENTITIES(upsert)

static inline cedar_status remove_uids(cedar_store *s, const char *names, cedar_mode mode) {
    list l = uids(names);
    return cedar_store_remove(s, UIDS(l), mode);
}

static inline cedar_status slice(cedar_store *from, cedar_store *to, const char *names) {
    list l = uids(names);
    return cedar_store_slice(from, to, UIDS(l));
}

static inline cedar_status slice_deep_copy(cedar_store *from, cedar_store *to, const char *names) {
    list l = uids(names);
    return cedar_store_slice_deep_copy(from, to, UIDS(l));
}

static inline cedar_status ancestors(cedar_store *s, const char *uid) { return cedar_store_ancestors(s, TEXT(uid)); }

static inline cedar_status parents(cedar_store *s, const char *uid) { return cedar_store_parents(s, TEXT(uid)); }

/* Returns a Boolean result as 0 or 1, or 100 plus the status. The functions below return this. */
static inline unsigned bool_or_status(cedar_status status, bool result) { return status ? 100 + status : result; }

static inline unsigned has(cedar_store *s, const char *uid) {
    bool result = false;
    cedar_status status = cedar_store_has(s, TEXT(uid), &result);
    return bool_or_status(status, result);
}

static inline unsigned is_descendant(cedar_store *s, const char *child, const char *ancestor) {
    bool result = false;
    cedar_status status = cedar_store_is_descendant_of(s, TEXT(child), TEXT(ancestor), &result);
    return bool_or_status(status, result);
}

static inline unsigned is_child(cedar_store *s, const char *child, const char *parent) {
    bool result = false;
    cedar_status status = cedar_store_is_child_of(s, TEXT(child), TEXT(parent), &result);
    return bool_or_status(status, result);
}

static inline unsigned is_indirect_descendant(cedar_store *s, const char *child, const char *ancestor) {
    bool result = false;
    cedar_status status = cedar_store_is_indirect_descendant_of(s, TEXT(child), TEXT(ancestor), &result);
    return bool_or_status(status, result);
}

static inline unsigned is_partial(cedar_store *s) {
    bool result = false;
    cedar_status status = cedar_store_is_partial(s, &result);
    return bool_or_status(status, result);
}

static inline unsigned entity_equal(cedar_store *s, const char *uid, cedar_store *other) {
    bool result = false;
    cedar_status status = cedar_store_entity_equal(s, TEXT(uid), other, &result);
    return bool_or_status(status, result);
}

static inline unsigned equal(cedar_store *first, cedar_store *second) {
    bool result = false;
    cedar_status status = cedar_store_equal(first, second, &result);
    return bool_or_status(status, result);
}

static inline unsigned sets_equal(cedar_policies *first, cedar_policies *second) {
    bool result = false;
    cedar_status status = cedar_policies_equal(first, second, &result);
    return bool_or_status(status, result);
}

/* Returns a number, or 100 plus the status. */
static inline unsigned number_or_status(cedar_status status, size_t count) {
    return status ? 100 + status : (unsigned)count;
}

/* Defines a function that returns the number that a call writes for a key, or 100 plus the status. */
#define NUMBER_OF(name, handle, type, call)                                                                            \
    static inline unsigned name(handle *h, const char *key) {                                                          \
        type number = (type)9;                                                                                         \
        cedar_status status = call(h, TEXT(key), &number);                                                             \
        return number_or_status(status, number);                                                                       \
    }
NUMBER_OF(look_up, cedar_store, cedar_found, cedar_store_entity)
NUMBER_OF(attributes, cedar_store, size_t, cedar_store_attrs_len)
NUMBER_OF(tags, cedar_store, size_t, cedar_store_tags_len)
NUMBER_OF(kind_of, cedar_policies, cedar_bound, cedar_policies_get)
NUMBER_OF(effect_of, cedar_policies, cedar_effect, cedar_policies_effect)
NUMBER_OF(slots_of, cedar_policies, uint32_t, cedar_policies_slots)

static inline unsigned has_annotation(cedar_policies *p, const char *id, const char *key) {
    bool result = false;
    cedar_status status = cedar_policies_annotation(p, TEXT(id), TEXT(key), &result);
    return bool_or_status(status, result);
}

static inline cedar_status new_set(cedar_policies *p) { return cedar_policies_new(p, 0x5eed, 0x6b6579); }

static inline cedar_status add_static(cedar_policies *p, const char *id, cedar_effect effect) {
    return cedar_policies_add_static(p, TEXT(id), effect);
}

static inline cedar_status add_template(cedar_policies *p, const char *id, uint32_t slots) {
    return cedar_policies_add_template(p, TEXT(id), CEDAR_PERMIT, slots);
}

static inline cedar_status link_id(cedar_policies *p, const char *template_id, const char *id, const char *principal,
                               const char *action, const char *resource) {
    list l = uids("");
    push_text(&l, principal);
    push_text(&l, action);
    push_text(&l, resource);
    return cedar_policies_link(p, TEXT(template_id), TEXT(id), UIDS(l));
}

static inline cedar_status unlink_id(cedar_policies *p, const char *id) { return cedar_policies_unlink(p, TEXT(id)); }

static inline cedar_status remove_static(cedar_policies *p, const char *id) {
    return cedar_policies_remove_static(p, TEXT(id));
}

static inline cedar_status remove_template(cedar_policies *p, const char *id) {
    return cedar_policies_remove_template(p, TEXT(id));
}

/* ---- results of a handle: the texts of its last result, with a comma before each, and the text of its last error */

#define CAPACITY 4096

static inline const char *join_texts(const uint8_t *text, const cedar_span *spans, size_t count) {
    static char out[CAPACITY];
    size_t at = 0;
    for (size_t k = 0; k < count; k++) {
        size_t len = spans[k].end - spans[k].start;
        out[at++] = ',';
        memcpy(out + at, text + spans[k].start, len);
        at += len;
    }
    out[at] = 0;
    return out;
}

static inline const char *store_result(cedar_store *s) {
    uint8_t text[CAPACITY / 2];
    cedar_span spans[MAX_ITEMS];
    cedar_store_result(s, 0, text, sizeof text);
    return join_texts(text, spans, cedar_store_result_spans(s, 0, spans, MAX_ITEMS));
}

static inline const char *set_result(cedar_policies *p) {
    uint8_t text[CAPACITY / 2];
    cedar_span spans[MAX_ITEMS];
    cedar_policies_result(p, 0, text, sizeof text);
    return join_texts(text, spans, cedar_policies_result_spans(p, 0, spans, MAX_ITEMS));
}

static inline const char *store_error(cedar_store *s) {
    static char out[CAPACITY];
    out[cedar_store_error_text(s, (uint8_t *)out, sizeof out - 1)] = 0;
    return out;
}

static inline const char *set_error(cedar_policies *p) {
    static char out[CAPACITY];
    out[cedar_policies_error_text(p, (uint8_t *)out, sizeof out - 1)] = 0;
    return out;
}

#define IS(text, expected) (!strcmp((text), (expected)))

#endif
