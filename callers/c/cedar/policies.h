/* Policy sets. cedar.h has the rules for all calls. A call that returns an error leaves the set as it was, also after a
 * failed allocation. */
#ifndef CEDAR_POLICIES_H
#define CEDAR_POLICIES_H

#include "values.h"

#ifdef __cplusplus
extern "C" {
#endif

/* A handle of a policy set. It is closed if all its bytes are zero. Its fields are private to the library. */
typedef struct cedar_policies {
    void *at;
    bool is_open;
} cedar_policies;

/* The effect of a policy or a template. */
typedef enum cedar_effect { CEDAR_PERMIT = 0, CEDAR_FORBID = 1 } cedar_effect;

/* The slots of a template. A set of slots is their sum. */
typedef enum cedar_slot {
    CEDAR_PRINCIPAL_SLOT = 1,
    CEDAR_ACTION_SLOT = 2,
    CEDAR_RESOURCE_SLOT = 4
} cedar_slot;

/* What an id of a set is bound to. */
typedef enum cedar_bound { CEDAR_UNBOUND = 0, CEDAR_STATIC = 1, CEDAR_LINK = 2, CEDAR_TEMPLATE = 3 } cedar_bound;

/* The two lists of ids: of the bodies, which are static policies and templates, and of the policies, which are static
 * policies and links. */
typedef enum cedar_ids { CEDAR_BODIES = 0, CEDAR_POLICIES = 1 } cedar_ids;

/* The kind of a constraint. An action has only the kinds up to CEDAR_SCOPE_IN_SLOT, and CEDAR_SCOPE_IN means: in one of
 * the uids of a list. */
typedef enum cedar_scope_kind {
    CEDAR_SCOPE_ANY = 0,       /* no constraint */
    CEDAR_SCOPE_EQ = 1,        /* equal to the uid */
    CEDAR_SCOPE_EQ_SLOT = 2,   /* equal to the uid of the slot */
    CEDAR_SCOPE_IN = 3,        /* in the uid */
    CEDAR_SCOPE_IN_SLOT = 4,   /* in the uid of the slot */
    CEDAR_SCOPE_IS = 5,        /* of the type */
    CEDAR_SCOPE_IS_IN = 6,     /* of the type, and in the uid */
    CEDAR_SCOPE_IS_IN_SLOT = 7 /* of the type, and in the uid of the slot */
} cedar_scope_kind;

/* The constraint on the principal, the action or the resource: its kind, the part with its uid, and the part with the
 * name of its type. A part that the kind does not use is ignored. */
typedef struct cedar_scope {
    cedar_scope_kind kind;
    cedar_span uid;
    cedar_span type;
} cedar_scope;

/* An annotation: the part with its key, which is an identifier, and the part with its value, which is any text. */
typedef struct cedar_annotation {
    cedar_span key;
    cedar_span value;
} cedar_annotation;

/* The effect of a policy or a template and its three constraints. */
typedef struct cedar_body {
    cedar_effect effect;
    cedar_scope principal;
    cedar_scope action;
    cedar_scope resource;
} cedar_body;

/* ---- editing
 *
 * Bodies. The parts of a body and of all lists are parts of one text. Among annotations with one key the last counts.
 * `uids` are the uids of an action constraint of kind CEDAR_SCOPE_IN, and are ignored for another kind. `nodes` are the
 * clause; without nodes there is no clause. Statuses of a body: CEDAR_BAD_ARGUMENT also if the effect or a kind is
 * invalid, or the nodes are no expression; CEDAR_NOT_A_UID also for a CEDAR_UID; CEDAR_NOT_A_NAME if a type, or the
 * function or type of a node, is not a name, or a key is not an identifier; CEDAR_TOO_DEEP. They come before the set is
 * read. */

/* Opens a handle with an empty policy set, whose maps use `seed` and `key`. Frees the old contents of the handle. */
CEDAR_WARN_UNUSED cedar_status cedar_policies_new(cedar_policies *p, uint64_t seed, uint64_t key);

/* Frees the contents of a handle, and closes it. A closed handle stays closed. Does not allocate. */
void cedar_policies_free(cedar_policies *p);

/* Adds a static policy without constraints, with an id and an effect. Returns CEDAR_BAD_ARGUMENT if the effect is
 * invalid, and CEDAR_OCCUPIED. */
CEDAR_WARN_UNUSED cedar_status cedar_policies_add_static(cedar_policies *p, const uint8_t *id, size_t id_len,
                                                         cedar_effect effect);

/* Adds a template with an id, an effect and slots, the sum of some `cedar_slot`. Each slot has the constraint to be
 * equal to its binding. Returns CEDAR_BAD_ARGUMENT if the effect or the slots are invalid, and CEDAR_OCCUPIED. */
CEDAR_WARN_UNUSED cedar_status cedar_policies_add_template(cedar_policies *p, const uint8_t *id, size_t id_len,
                                                           cedar_effect effect, uint32_t slots);

/* Adds a static policy with an id and a body. Returns the statuses of a body, then, in this order: CEDAR_NOT_STATIC if
 * a constraint or the clause has a slot; CEDAR_OCCUPIED. */
CEDAR_WARN_UNUSED cedar_status cedar_policies_add_static_with(cedar_policies *p, const uint8_t *id, size_t id_len,
                                                              const uint8_t *text, size_t text_len,
                                                              const cedar_body *body,
                                                              const cedar_annotation *annotations,
                                                              size_t annotations_len, const cedar_span *uids,
                                                              size_t uids_len, const cedar_node *nodes,
                                                              size_t nodes_len);

/* Adds a template with an id and a body. Its slots are the slots of its constraints and of its clause; it may have
 * none. Returns the statuses of a body, then CEDAR_OCCUPIED. */
CEDAR_WARN_UNUSED cedar_status cedar_policies_add_template_with(cedar_policies *p, const uint8_t *id, size_t id_len,
                                                                const uint8_t *text, size_t text_len,
                                                                const cedar_body *body,
                                                                const cedar_annotation *annotations,
                                                                size_t annotations_len, const cedar_span *uids,
                                                                size_t uids_len, const cedar_node *nodes,
                                                                size_t nodes_len);

/* Adds a link of a template, with its own id. Three parts of a text are the bindings of the slots of principal, action
 * and resource; an empty part leaves its slot unbound. Returns CEDAR_BAD_ARGUMENT also if there are not three parts;
 * then, in this order, CEDAR_NO_SUCH_TEMPLATE, CEDAR_ARITY, CEDAR_NOT_AN_ACTION, CEDAR_ID_CONFLICT. */
CEDAR_WARN_UNUSED cedar_status cedar_policies_link(cedar_policies *p, const uint8_t *template_id,
                                                   size_t template_id_len, const uint8_t *id, size_t id_len,
                                                   const uint8_t *text, size_t text_len, const cedar_span *values,
                                                   size_t values_len);

/* Removes the link with an id. Returns CEDAR_NO_LINK or CEDAR_NOT_A_LINK. */
CEDAR_WARN_UNUSED cedar_status cedar_policies_unlink(cedar_policies *p, const uint8_t *id, size_t id_len);

/* Removes the static policy with an id. Returns CEDAR_NO_STATIC or CEDAR_NOT_STATIC. */
CEDAR_WARN_UNUSED cedar_status cedar_policies_remove_static(cedar_policies *p, const uint8_t *id, size_t id_len);

/* Removes the template with an id. Returns CEDAR_NO_TEMPLATE, CEDAR_WITH_LINKS or CEDAR_NOT_A_TEMPLATE. */
CEDAR_WARN_UNUSED cedar_status cedar_policies_remove_template(cedar_policies *p, const uint8_t *id, size_t id_len);

/* Merges another set into this one; the other set stays. An id that both sets use differently is a conflict. With
 * `rename` it gets the first of policy0, policy1 and so on that neither set uses. Otherwise the first conflict returns
 * CEDAR_OCCUPIED. Stores each renamed id, followed by its new id, as the result. The added policies are shared. */
CEDAR_WARN_UNUSED cedar_status cedar_policies_merge(cedar_policies *p, cedar_policies *other, bool rename);

/* Does the same as `cedar_policies_merge`, with a deep copy: the added policies and templates share nothing with the
 * other set. */
CEDAR_WARN_UNUSED cedar_status cedar_policies_merge_deep_copy(cedar_policies *p, cedar_policies *other, bool rename);

/* ---- queries. They do not change the set. A call that takes the id of a policy, of a template or of either returns
 * CEDAR_NO_BODY if there is none with this id. A static policy is a policy and a template. A link has the effect, the
 * annotations, the clause and the condition of its template. */

/* Stores the ids of one of the two lists as the result, in insertion order. */
CEDAR_WARN_UNUSED cedar_status cedar_policies_ids(cedar_policies *p, cedar_ids list);

/* Writes to `bound` what an id is bound to. Never returns CEDAR_NO_BODY. */
CEDAR_WARN_UNUSED cedar_status cedar_policies_get(cedar_policies *p, const uint8_t *id, size_t id_len,
                                                  cedar_bound *bound);

/* Writes the effect of a policy or a template to `effect`. */
CEDAR_WARN_UNUSED cedar_status cedar_policies_effect(cedar_policies *p, const uint8_t *id, size_t id_len,
                                                     cedar_effect *effect);

/* Writes the slots of a template to `slots`, as the sum of some `cedar_slot`. A static policy has no slots. */
CEDAR_WARN_UNUSED cedar_status cedar_policies_slots(cedar_policies *p, const uint8_t *id, size_t id_len,
                                                    uint32_t *slots);

/* Writes to `has` whether a policy or a template has an annotation with a key. Stores the value as the result, which
 * has no text if there is no annotation. Returns CEDAR_NOT_A_NAME if the key is not an identifier. */
CEDAR_WARN_UNUSED cedar_status cedar_policies_annotation(cedar_policies *p, const uint8_t *id, size_t id_len,
                                                         const uint8_t *key, size_t key_len, bool *has);

/* Stores the annotations of a policy or a template as the result, in byte order of their keys: each key, followed by
 * its value. */
CEDAR_WARN_UNUSED cedar_status cedar_policies_annotations(cedar_policies *p, const uint8_t *id, size_t id_len);

/* Writes the kind of the constraint of a policy or a template on a variable to `kind`. Stores its texts as the result:
 * the name of the type, if there is one, followed by the text of each uid. For a link the slots are filled; an action
 * constraint `in` a slot becomes a list of one uid. Returns CEDAR_BAD_ARGUMENT if `variable` is invalid. */
CEDAR_WARN_UNUSED cedar_status cedar_policies_scope(cedar_policies *p, const uint8_t *id, size_t id_len,
                                                    cedar_variable variable, cedar_scope_kind *kind);

/* Writes to `has` whether a policy or a template has a clause. If it has, stores the nodes of the clause, and their
 * text as the result, which is one text. Otherwise both stay. The slots of a link are not filled. */
CEDAR_WARN_UNUSED cedar_status cedar_policies_clause(cedar_policies *p, const uint8_t *id, size_t id_len, bool *has);

/* Stores the nodes and the text of the condition of a policy or a template in the same way. The condition is: principal
 * constraint and (action constraint and (resource constraint and clause)), with `true` for each one that is missing.
 * The slots of a link are not filled. */
CEDAR_WARN_UNUSED cedar_status cedar_policies_condition(cedar_policies *p, const uint8_t *id, size_t id_len);

/* Stores the bindings of a policy as the result: three texts of uids, for principal, action and resource. A text is
 * empty if there is no such slot. A static policy binds nothing. */
CEDAR_WARN_UNUSED cedar_status cedar_policies_env(cedar_policies *p, const uint8_t *id, size_t id_len);

/* Stores the id of the template of a policy as the result, one text. For a static policy it is its own id. */
CEDAR_WARN_UNUSED cedar_status cedar_policies_template_id(cedar_policies *p, const uint8_t *id, size_t id_len);

/* Stores the ids of the links of a template as the result, in insertion order. For a static policy it is its own id. */
CEDAR_WARN_UNUSED cedar_status cedar_policies_linked(cedar_policies *p, const uint8_t *id, size_t id_len);

/* Stores the text of the set as the result, one text for people. The text is proved only if all its contents are
 * ASCII. */
CEDAR_WARN_UNUSED cedar_status cedar_policies_text(cedar_policies *p);

/* Stores the text of a policy as the result, like `cedar_policies_text`. */
CEDAR_WARN_UNUSED cedar_status cedar_policies_policy_text(cedar_policies *p, const uint8_t *id, size_t id_len);

/* Stores the text of a template as the result, like `cedar_policies_text`. */
CEDAR_WARN_UNUSED cedar_status cedar_policies_template_text(cedar_policies *p, const uint8_t *id, size_t id_len);

/* Stores the uids that unknowns name in the condition of a policy as the result, in ascending order of uid, each once.
 * They are the names of the CEDAR_UNKNOWN nodes that have a type and whose name is the text of a uid. */
CEDAR_WARN_UNUSED cedar_status cedar_policies_unknown_entities(cedar_policies *p, const uint8_t *id, size_t id_len);

/* Stores the ids of the policies that name a uid as the result, in insertion order. A policy names a uid if its scope
 * constraints, its bindings or its clause contain it; unknowns are not looked at. So before an entity is removed, an
 * administrator knows which policies will mean something else. Scans each policy and each node of its clause. */
CEDAR_WARN_UNUSED cedar_status cedar_policies_naming(cedar_policies *p, const uint8_t *uid, size_t uid_len);

/* Does the same for the templates with slots, with or without links. A template names the uids in its scope constraints
 * and its clause. */
CEDAR_WARN_UNUSED cedar_status cedar_policies_templates_naming(cedar_policies *p, const uint8_t *uid, size_t uid_len);

/* Validates the set: finds faults that a parser would not have produced. Returns the status of the first fault:
 * CEDAR_SLOTLESS_LINK of the first link, in the order of policies, whose template has no slots; otherwise of the first
 * faulty body, in the order of bodies, one of CEDAR_SLOT_IN_CLAUSE (templates only), CEDAR_NOT_ACTIONS,
 * CEDAR_UNKNOWN_FUNCTION, in this order. The set and the result stay. Copies the set, which shares its bodies; then
 * copies each body in turn, which shares its clause, and scans the clause. */
CEDAR_WARN_UNUSED cedar_status cedar_policies_validate(cedar_policies *p);

/* ---- copies. They fill the handle `to`, and free its old contents. */

/* Fills `to` with a copy of a set, which shares its policies and templates. */
CEDAR_WARN_UNUSED cedar_status cedar_policies_copy(cedar_policies *from, cedar_policies *to);

/* Does the same as `cedar_policies_copy`, with a deep copy of the whole set: `to` shares nothing with another handle.
 * That nothing is shared is tested, not proved. */
CEDAR_WARN_UNUSED cedar_status cedar_policies_deep_copy(cedar_policies *from, cedar_policies *to);

/* Writes to `result` whether two sets have equal bodies and policies in the same order. Does not allocate. */
CEDAR_WARN_UNUSED cedar_status cedar_policies_equal(cedar_policies *first, cedar_policies *second, bool *result);

/* ---- results. A handle keeps the result of the last call at CEDAR_OK that stores one. A handle has no result, no
 * nodes and no error text after `cedar_policies_new` or a copy, deep or not, filled it. The calls do not allocate, and
 * return 0 for a closed handle. */

/* Copies the bytes of all texts of the result, one after another, from byte `from` on, as many as fit. Returns the
 * number of all bytes. */
size_t cedar_policies_result(cedar_policies *p, size_t from, uint8_t *out, size_t capacity);

/* Copies the span of each text of the result in these bytes, from text `from` on, as many as fit. Returns the number of
 * all texts. */
size_t cedar_policies_result_spans(cedar_policies *p, size_t from, cedar_span *out, size_t capacity);

/* Copies the nodes of the last expression, from node `from` on, as many as fit. Returns the number of all nodes. The
 * last expression is the expression of the last `cedar_policies_clause` that found one, or of the last
 * `cedar_policies_condition`. Its parts refer to the result of that call. Other calls leave the nodes, even if they
 * store another result. */
size_t cedar_policies_result_nodes(cedar_policies *p, size_t from, cedar_node *out, size_t capacity);

/* Copies the text of the last error of the set, from CEDAR_OCCUPIED to CEDAR_NOT_STATIC, or from CEDAR_SLOT_IN_CLAUSE
 * on, as much as fits. Returns the whole length. The text is the text of the status, a blank, and the id, the slots or
 * the uid of the error. */
size_t cedar_policies_error_text(cedar_policies *p, uint8_t *out, size_t capacity);

#ifdef __cplusplus
}
#endif
#endif
