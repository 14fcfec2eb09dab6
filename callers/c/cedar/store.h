/* Stores of entities. cedar.h has the rules for all calls. */
#ifndef CEDAR_STORE_H
#define CEDAR_STORE_H

#include "values.h"

#ifdef __cplusplus
extern "C" {
#endif

/* A handle of a store of entities. It is closed if all its bytes are zero. Its fields are private to the library. */
typedef struct cedar_store {
    void *at;
    bool is_open;
} cedar_store;

/* An edge: the uid at position `to` of a list is a parent of the entity at position `from`. */
typedef struct cedar_edge {
    size_t from;
    size_t to;
} cedar_edge;

/* The way in which an edit keeps the ancestors of a store closed. An edit affects the entities that it inserts or
 * removes, and all entities that have one of them as an ancestor. In every mode a removal gives the affected entities
 * the ancestors that they still reach. */
typedef enum cedar_mode {
    /* Affected entities get all uids that they reach as ancestors, in a removal too. An edit returns CEDAR_CYCLE if an
     * affected entity reaches itself. Nothing else is checked. */
    CEDAR_COMPUTE = 0,
    /* Inserted entities keep the ancestors that they are given: nothing is computed for them. Without `indirect` their
     * ancestors are their parents. A removal repairs. Then the whole store is checked. An edit returns CEDAR_NOT_CLOSED
     * if an ancestor of an ancestor is missing, and CEDAR_CYCLE if an entity is one of its own ancestors. */
    CEDAR_ENFORCE = 1,
    /* As CEDAR_ENFORCE, but nothing is checked: neither a cycle nor a missing ancestor is reported. */
    CEDAR_ASSUME = 2
} cedar_mode;

/* The two kinds of a term. */
typedef enum cedar_part { CEDAR_ATTRIBUTE = 0, CEDAR_TAG = 1 } cedar_part;

/* An attribute or a tag of the entity at position `of` of a list. Its key is the part `key` of the text. Its value is
 * the nodes from `from` up to, but not including, `to`. */
typedef struct cedar_term {
    size_t of;
    cedar_part part;
    cedar_span key;
    size_t from;
    size_t to;
} cedar_term;

/* What a store has at a uid. In a partial store a missing entity is unknown. In another store it is absent. */
typedef enum cedar_found { CEDAR_ABSENT = 0, CEDAR_UNKNOWN_ENTITY = 1, CEDAR_PRESENT = 2 } cedar_found;

/* ---- opening, building and editing
 *
 * Lists of entities. The first `count` uids are the uids of the entities. An edge says that the uid at `to` is a parent
 * of the entity at `from`. With content, an edge of `indirect` says that the uid at `to` is an indirect ancestor of the
 * entity at `from`, if it is not a parent. A term is an attribute or a tag; among several with one key the last counts.
 * All values are in one array of nodes, over the text of the uids, and terms may share nodes. Two entities with one uid
 * are the same if their ancestors, attributes and tags are the same.
 *
 * Statuses of all calls that take a list of entities: CEDAR_CYCLE; CEDAR_NOT_CLOSED, in the mode CEDAR_ENFORCE only;
 * CEDAR_BAD_ARGUMENT also if `count` exceeds the number of parts, an edge starts at no entity or ends at no uid, the
 * mode is invalid, or a term has no such entity, an invalid `part`, or nodes that are out of range or invalid. With
 * content also CEDAR_TOO_DEEP, and CEDAR_NOT_A_NAME, CEDAR_NOT_UTF8 or CEDAR_NOT_A_UID for the text of a node.
 *
 * Costs. In the mode CEDAR_COMPUTE, on a store that only this mode and removals have made, a call first tries the edit
 * on the listed entities and all above them. In another mode, or on another store, it copies the store first, and so do
 * all later calls after an entity was given indirect ancestors.
 *
 * After CEDAR_NO_MEMORY from a call that adds, upserts or removes, the store may be empty: then `cedar_store_len` is 0,
 * and the store is partial exactly if it was before. */

/* Opens a handle with an empty store, whose map uses `seed` and `key`. Frees the old contents of the handle. */
CEDAR_WARN_UNUSED cedar_status cedar_store_new(cedar_store *s, uint64_t seed, uint64_t key);

/* Frees the contents of a handle, and closes it. A closed handle stays closed. Does not allocate. */
void cedar_store_free(cedar_store *s);

/* Replaces the store by the entities of a list, without attributes and tags. In mode CEDAR_COMPUTE, the ancestors of
 * each entity are then exactly the uids that it reaches over parents. Returns CEDAR_DUPLICATE if an entity occurs twice
 * with different parents, and the statuses above. The old store is freed only after the new one is built. */
CEDAR_WARN_UNUSED cedar_status cedar_store_build(cedar_store *s, const uint8_t *text, size_t text_len,
                                                 const cedar_span *uids, size_t uids_len, size_t count,
                                                 const cedar_edge *edges, size_t edges_len, cedar_mode mode);

/* Adds the entities of a list, without attributes and tags. Returns CEDAR_DUPLICATE if the store has a different entity
 * with one of the uids, or the list has two, and the statuses above. */
CEDAR_WARN_UNUSED cedar_status cedar_store_add(cedar_store *s, const uint8_t *text, size_t text_len,
                                               const cedar_span *uids, size_t uids_len, size_t count,
                                               const cedar_edge *edges, size_t edges_len, cedar_mode mode);

/* Upserts the entities of a list: each is inserted, or replaces the stored entity with its uid. Among several entities
 * with one uid the last counts. Returns the statuses above. */
CEDAR_WARN_UNUSED cedar_status cedar_store_upsert(cedar_store *s, const uint8_t *text, size_t text_len,
                                                  const cedar_span *uids, size_t uids_len, size_t count,
                                                  const cedar_edge *edges, size_t edges_len, cedar_mode mode);

/* Does the same as `cedar_store_build`, with content. */
CEDAR_WARN_UNUSED cedar_status cedar_store_build_with(cedar_store *s, const uint8_t *text, size_t text_len,
                                                      const cedar_span *uids, size_t uids_len, size_t count,
                                                      const cedar_edge *edges, size_t edges_len,
                                                      const cedar_edge *indirect, size_t indirect_len,
                                                      const cedar_term *terms, size_t terms_len,
                                                      const cedar_node *nodes, size_t nodes_len, cedar_mode mode);

/* Does the same as `cedar_store_add`, with content. */
CEDAR_WARN_UNUSED cedar_status cedar_store_add_with(cedar_store *s, const uint8_t *text, size_t text_len,
                                                    const cedar_span *uids, size_t uids_len, size_t count,
                                                    const cedar_edge *edges, size_t edges_len,
                                                    const cedar_edge *indirect, size_t indirect_len,
                                                    const cedar_term *terms, size_t terms_len, const cedar_node *nodes,
                                                    size_t nodes_len, cedar_mode mode);

/* Does the same as `cedar_store_upsert`, with content. */
CEDAR_WARN_UNUSED cedar_status cedar_store_upsert_with(cedar_store *s, const uint8_t *text, size_t text_len,
                                                       const cedar_span *uids, size_t uids_len, size_t count,
                                                       const cedar_edge *edges, size_t edges_len,
                                                       const cedar_edge *indirect, size_t indirect_len,
                                                       const cedar_term *terms, size_t terms_len,
                                                       const cedar_node *nodes, size_t nodes_len, cedar_mode mode);

/* Removes the entities with these uids, also from the parents of other entities. A uid without an entity changes
 * nothing. Returns CEDAR_CYCLE or CEDAR_NOT_CLOSED, but only on a store that was not computed. */
CEDAR_WARN_UNUSED cedar_status cedar_store_remove(cedar_store *s, const uint8_t *text, size_t text_len,
                                                  const cedar_span *uids, size_t uids_len, cedar_mode mode);

/* Makes the store partial: a missing entity is then unknown, while in another store it does not exist. The entities,
 * the result and the last error stay. A store that is built, or a slice, is not partial; a copy is partial if its
 * source is. Adding, upserting and removing leave a partial store partial, at every status. Does not allocate. */
CEDAR_WARN_UNUSED cedar_status cedar_store_partial(cedar_store *s);

/* ---- queries. They do not change the store. A call that takes the uid of an entity returns CEDAR_NO_ENTITY if the
 * store has no entity with this uid. */

/* Returns the number of entities, which is 0 for a closed handle. Does not allocate. */
size_t cedar_store_len(cedar_store *s);

/* Writes to `result` whether the store has an entity with a uid. Never returns CEDAR_NO_ENTITY. */
CEDAR_WARN_UNUSED cedar_status cedar_store_has(cedar_store *s, const uint8_t *uid, size_t uid_len, bool *result);

/* Writes to `result` whether the entity with the first uid is a descendant of the second uid, over any number of
 * parents. After as many queries since the last edit as the store has entities, the handle caches queries by both
 * texts: then they cost a quarter, unless the entity has more than 32 ancestors. The cache has at most 65,536 texts of
 * entities, as many of other uids, and 4 MiB of text, and none of more than 1,024 bytes. It is emptied when it is full,
 * by each edit (also after an error), and when the handle gets another store. */
CEDAR_WARN_UNUSED cedar_status cedar_store_is_descendant_of(cedar_store *s, const uint8_t *child, size_t child_len,
                                                            const uint8_t *ancestor, size_t ancestor_len,
                                                            bool *result);

/* Writes the number of a uid to `number`: 0 for the first numbered uid of a handle, then 1, and so on. A uid always
 * gets the same number, whether or not the store has the entity. Calls that take numbers parse no text. A number stays
 * valid until the handle is freed, or filled by `cedar_store_new`, a copy or a slice, which start without numbers. The
 * handle stores each numbered uid until then. */
CEDAR_WARN_UNUSED cedar_status cedar_store_uid_number(cedar_store *s, const uint8_t *uid, size_t uid_len,
                                                      size_t *number);

/* Stores the text of the uid of a number as the result. Returns CEDAR_BAD_ARGUMENT if no uid has this number. */
CEDAR_WARN_UNUSED cedar_status cedar_store_number_uid(cedar_store *s, size_t number);

/* Does the same as `cedar_store_has`, for the number of a uid. Returns CEDAR_BAD_ARGUMENT if no uid has this number.
 * Does not allocate. */
CEDAR_WARN_UNUSED cedar_status cedar_store_has_number(cedar_store *s, size_t number, bool *result);

/* Does the same as `cedar_store_is_descendant_of`, for the numbers of uids. Returns CEDAR_BAD_ARGUMENT if no uid has
 * one of the numbers. Does not allocate. */
CEDAR_WARN_UNUSED cedar_status cedar_store_is_descendant_of_numbers(cedar_store *s, size_t child, size_t ancestor,
                                                                    bool *result);

/* Stores the ancestors of the entity with a uid as the result, in ascending order of uid, each once. */
CEDAR_WARN_UNUSED cedar_status cedar_store_ancestors(cedar_store *s, const uint8_t *uid, size_t uid_len);

/* Stores the parents of the entity with a uid as the result, in ascending order of uid, each once. */
CEDAR_WARN_UNUSED cedar_status cedar_store_parents(cedar_store *s, const uint8_t *uid, size_t uid_len);

/* Stores the indirect ancestors of the entity with a uid as the result, in ascending order of uid, each once. In a
 * computed store they are the ancestors that are not parents. */
CEDAR_WARN_UNUSED cedar_status cedar_store_indirect_ancestors(cedar_store *s, const uint8_t *uid, size_t uid_len);

/* Stores the descendants of a uid as the result: the uids of all entities that reach it over one or more parents, in
 * ascending order of uid, each once. A uid on a cycle of parents is its own descendant. Never returns CEDAR_NO_ENTITY:
 * the store need not have an entity for the uid. Looks the uid up in each entity. After some edits in the mode
 * CEDAR_COMPUTE a store lists its children, and is searched down from the uid. In a store that another mode made, reads
 * each parent of each entity. */
CEDAR_WARN_UNUSED cedar_status cedar_store_descendants(cedar_store *s, const uint8_t *uid, size_t uid_len);

/* Does the same as `cedar_store_descendants`, for the descendants of a type. Returns CEDAR_NOT_A_NAME if the type is
 * invalid. */
CEDAR_WARN_UNUSED cedar_status cedar_store_descendants_of_type(cedar_store *s, const uint8_t *uid, size_t uid_len,
                                                               const uint8_t *type, size_t type_len);

/* Writes to `has` whether there is a path over one or more parents from one uid to another. Stores a shortest path as
 * the result: `from`, the uids between, and `to`, each a parent of the one before. Without a path the result has no
 * text. In a computed store there is a path exactly to an ancestor. Never returns CEDAR_NO_ENTITY. */
CEDAR_WARN_UNUSED cedar_status cedar_store_path(cedar_store *s, const uint8_t *from, size_t from_len,
                                                const uint8_t *to, size_t to_len, bool *has);

/* Writes to `result` whether there is such a path. If there is none to an ancestor, the parents do not explain the
 * ancestor: it is an indirect ancestor that the store was given. Never returns CEDAR_NO_ENTITY. */
CEDAR_WARN_UNUSED cedar_status cedar_store_reaches(cedar_store *s, const uint8_t *from, size_t from_len,
                                                   const uint8_t *to, size_t to_len, bool *result);

/* Writes to `result` whether the second uid is a parent of the entity with the first uid. */
CEDAR_WARN_UNUSED cedar_status cedar_store_is_child_of(cedar_store *s, const uint8_t *child, size_t child_len,
                                                       const uint8_t *parent, size_t parent_len, bool *result);

/* Writes to `result` whether the second uid is an indirect ancestor of the entity with the first uid. */
CEDAR_WARN_UNUSED cedar_status cedar_store_is_indirect_descendant_of(cedar_store *s, const uint8_t *child,
                                                                     size_t child_len, const uint8_t *ancestor,
                                                                     size_t ancestor_len, bool *result);

/* Writes to `result` whether the store is partial. Does not allocate. */
CEDAR_WARN_UNUSED cedar_status cedar_store_is_partial(cedar_store *s, bool *result);

/* Writes to `found` what the store has at a uid. Never returns CEDAR_NO_ENTITY. */
CEDAR_WARN_UNUSED cedar_status cedar_store_entity(cedar_store *s, const uint8_t *uid, size_t uid_len,
                                                  cedar_found *found);

/* Stores the uids of all entities as the result, each once, in an order that depends on the key. */
CEDAR_WARN_UNUSED cedar_status cedar_store_uids(cedar_store *s);

/* Writes the number of attributes of the entity with a uid to `count`. */
CEDAR_WARN_UNUSED cedar_status cedar_store_attrs_len(cedar_store *s, const uint8_t *uid, size_t uid_len,
                                                     size_t *count);

/* Writes the number of tags of the entity with a uid to `count`. */
CEDAR_WARN_UNUSED cedar_status cedar_store_tags_len(cedar_store *s, const uint8_t *uid, size_t uid_len, size_t *count);

/* Stores the keys of the attributes of the entity with a uid as the result, in byte order. */
CEDAR_WARN_UNUSED cedar_status cedar_store_keys(cedar_store *s, const uint8_t *uid, size_t uid_len);

/* Stores the keys of the tags of the entity with a uid as the result, in byte order. */
CEDAR_WARN_UNUSED cedar_status cedar_store_tag_keys(cedar_store *s, const uint8_t *uid, size_t uid_len);

/* Writes to `has` whether the entity with a uid has an attribute at a key. If it has, stores the nodes of its partial
 * value, and their text as the result, which is one text. Otherwise both stay. Elements of a set and keys of a record
 * are in ascending order. */
CEDAR_WARN_UNUSED cedar_status cedar_store_get(cedar_store *s, const uint8_t *uid, size_t uid_len, const uint8_t *key,
                                               size_t key_len, bool *has);

/* Does the same as `cedar_store_get`, for a tag. */
CEDAR_WARN_UNUSED cedar_status cedar_store_get_tag(cedar_store *s, const uint8_t *uid, size_t uid_len,
                                                   const uint8_t *key, size_t key_len, bool *has);

/* Writes to `result` whether the entities with a uid in two stores have the same attributes, tags and ancestors. Does
 * not compare which ancestors are parents. Returns CEDAR_NO_ENTITY if one of the stores has no such entity. */
CEDAR_WARN_UNUSED cedar_status cedar_store_entity_equal(cedar_store *s, const uint8_t *uid, size_t uid_len,
                                                        cedar_store *other, bool *result);

/* Stores the text of the store as the result: one text, for people. It has the texts of its entities in ascending order
 * of uid, each followed by a line feed. It is tested, not proved. Needs a list of one pointer per entity. If that list
 * cannot be allocated, each entity is found by a scan of all entities, with the same result. */
CEDAR_WARN_UNUSED cedar_status cedar_store_text(cedar_store *s);

/* Stores the text of the entity with a uid as the result: one text, for people. It has lines for its uid, its
 * attributes and its ancestors. It is tested, not proved. */
CEDAR_WARN_UNUSED cedar_status cedar_store_entity_text(cedar_store *s, const uint8_t *uid, size_t uid_len);

/* Validates the store: first its ancestors, as CEDAR_ENFORCE does, then its entities. Among several invalid entities it
 * reports the one with the least uid. Returns the status of the fault, from CEDAR_CYCLE to CEDAR_RESERVED_KEY. */
CEDAR_WARN_UNUSED cedar_status cedar_store_validate(cedar_store *s);

/* ---- copies. They fill the handle `to`, and free its old contents. */

/* Fills `to` with the slice of a store at some uids: the entities with these uids, and the stored entities among their
 * ancestors. The slice shares its entities with the store. */
CEDAR_WARN_UNUSED cedar_status cedar_store_slice(cedar_store *from, cedar_store *to, const uint8_t *text,
                                                 size_t text_len, const cedar_span *uids, size_t uids_len);

/* Fills `to` with a copy of a store, which shares its entities with the store. */
CEDAR_WARN_UNUSED cedar_status cedar_store_copy(cedar_store *from, cedar_store *to);

/* Does the same as `cedar_store_slice`, with a deep copy: `to` shares nothing with another handle. Costs memory and
 * time as building that store does, but computes no ancestors. That nothing is shared is tested, not proved. */
CEDAR_WARN_UNUSED cedar_status cedar_store_slice_deep_copy(cedar_store *from, cedar_store *to, const uint8_t *text,
                                                           size_t text_len, const cedar_span *uids, size_t uids_len);

/* Does the same as `cedar_store_copy`, with a deep copy: `to` shares nothing with another handle. The costs are those
 * of `cedar_store_slice_deep_copy`. */
CEDAR_WARN_UNUSED cedar_status cedar_store_deep_copy(cedar_store *from, cedar_store *to);

/* Writes to `result` whether two stores have the same uids, under each uid an entity with the same attributes, tags and
 * ancestors, and are both partial or both not. Does not compare which ancestors are parents. Does not allocate. */
CEDAR_WARN_UNUSED cedar_status cedar_store_equal(cedar_store *first, cedar_store *second, bool *result);

/* ---- results. A handle keeps the result of the last call at CEDAR_OK that stores one. Other calls leave it,
 * `cedar_store_build` too. A handle has no result, no nodes and no error text after `cedar_store_new`, a slice or a
 * copy filled it. The calls do not allocate, and return 0 for a closed handle. */

/* Copies the bytes of all texts of the result, one after another, from byte `from` on, as many as fit. Returns the
 * number of all bytes. */
size_t cedar_store_result(cedar_store *s, size_t from, uint8_t *out, size_t capacity);

/* Copies the span of each text of the result in these bytes, from text `from` on, as many as fit. Returns the number of
 * all texts. */
size_t cedar_store_result_spans(cedar_store *s, size_t from, cedar_span *out, size_t capacity);

/* Copies the nodes of the last value, from node `from` on, as many as fit. Returns the number of all nodes. The last
 * value is the value of the last `cedar_store_get` or `cedar_store_get_tag` that found one, and its parts refer to the
 * result of that call. Other calls leave the nodes, even if they store another result. */
size_t cedar_store_result_nodes(cedar_store *s, size_t from, cedar_node *out, size_t capacity);

/* Copies the text of the last error of the store, from CEDAR_DUPLICATE to CEDAR_RESERVED_KEY, as much as fits. Returns
 * the whole length. The text is the text of the status, then a blank and a uid or key for each name. */
size_t cedar_store_error_text(cedar_store *s, uint8_t *out, size_t capacity);

#ifdef __cplusplus
}
#endif
#endif
