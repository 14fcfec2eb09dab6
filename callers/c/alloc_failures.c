/* Repeats each call of the library, each time with a later allocation failing, until none fails. A call whose
 * allocation fails may succeed without the memory, with the expected status and state. Otherwise it must return
 * CEDAR_NO_MEMORY and leave the state that cedar.h describes. It is then repeated without a failure, and must give the
 * expected status and state. At the end, checks that the other calls do not allocate. Prints each failed check, and
 * ends with `N passed, M failed`. Build it with `-Wl,--wrap=malloc -Wl,--wrap=realloc`. */
#include "bodies.h"

/* ---- failing allocations */

static long requests_until_failure; /* the number of requests until one fails; 0 for never */
static long failed_requests;        /* the number of failed requests */
static long requests;               /* the number of all requests */

static long no_memory_count; /* how often a call returned CEDAR_NO_MEMORY */
static long success_count;   /* how often a call succeeded after a failed request */

void *__real_malloc(size_t size);
void *__real_realloc(void *at, size_t size);
void *__wrap_malloc(size_t size);
void *__wrap_realloc(void *at, size_t size);

static bool should_fail(void) {
    requests++;
    if (requests_until_failure == 0 || --requests_until_failure > 0) return false;
    failed_requests++;
    return true;
}

void *__wrap_malloc(size_t size) { return should_fail() ? NULL : __real_malloc(size); }
void *__wrap_realloc(void *at, size_t size) { return should_fail() ? NULL : __real_realloc(at, size); }

/* ---- the handles of the calls */

#define FAULTS 4

typedef struct handles {
    cedar_store s, t;
    cedar_policies p, q;
    cedar_policies faulty[FAULTS]; /* one for each fault, from CEDAR_SLOT_IN_CLAUSE on */
} handles;

/* Returns the content of a, b and x, of which a has an attribute and a tag. */
static content sample_content(void) {
    content c = with_entities("a b;b c;x c");
    push_term(&c, 0, 0, "k", "'x '10.0.0.1 ip(1 'y @b 'z {2 [2");
    push_term(&c, 0, 1, "k", "'User ~u:1 $0 = @c ^User & *");
    return c;
}

static cedar_status build_sample(cedar_store *s) {
    content c = sample_content();
    return cedar_store_build_with(s, CONTENT(c), CEDAR_COMPUTE);
}

/* Creates a template with a slot in its clause, one with a slot and an action constraint that is not an action, a call
 * of an unknown function, and a link without slots. */
static void set_up_faults(cedar_policies *faulty) {
    for (size_t k = 0; k < FAULTS; k++) {
        policy_body g = empty_body();
        if (k == 1) g.body.action = push_scope(&g, 1, U("a"), "");
        if (k == 1) g.body.principal = push_scope(&g, CEDAR_SCOPE_EQ_SLOT, "", "");
        if (k != 1 && k != 3) push_nodes(&g.c, k ? "'x f(1" : "?0 $0 <");
        CHECK(new_set(&faulty[k]) == CEDAR_OK && insert_template_body(&faulty[k], "t", &g) == CEDAR_OK);
        CHECK(k != 3 || link_id(&faulty[k], "t", "l", "", "", "") == CEDAR_OK);
        CHECK(unlink_id(&faulty[k], "f") == CEDAR_NO_LINK);
    }
}

/* Opens each handle, with a result and the text of an error; the first handle also has nodes. */
static void set_up(handles *h) {
    memset(h, 0, sizeof *h);
    CHECK(new_store(&h->s) == CEDAR_OK && build(&h->s, "m m", CEDAR_COMPUTE) == CEDAR_CYCLE);
    CHECK(build_sample(&h->s) == CEDAR_OK && IS(value_at(&h->s, U("a"), 1, "k"), "'User ~u:1 $0 = @c ^User & *"));
    CHECK(new_store(&h->t) == CEDAR_OK && build(&h->t, "n n", CEDAR_COMPUTE) == CEDAR_CYCLE);
    /* another mode, so that the queries of paths search it */
    CHECK(build(&h->t, "y z", CEDAR_ASSUME) == CEDAR_OK && cedar_store_partial(&h->t) == CEDAR_OK);
    CHECK(ancestors(&h->s, U("a")) == CEDAR_OK && parents(&h->t, U("y")) == CEDAR_OK);
    size_t check_number = 9;
    CHECK(cedar_store_uid_number(&h->s, TEXT(U("a")), &check_number) == CEDAR_OK && check_number == 0);
    policy_body g = full_body();
    CHECK(new_set(&h->p) == CEDAR_OK && add_static(&h->p, "a", 0) == CEDAR_OK);
    CHECK(insert_static_body(&h->p, "w", &g) == CEDAR_OK && IS(clause_of(&h->p, "w"), "$0 @b ="));
    CHECK(add_template(&h->p, "t", 5) == CEDAR_OK && add_template(&h->p, "u", 2) == CEDAR_OK);
    CHECK(link_id(&h->p, "t", "l", U("a"), "", "B::\"b\"") == CEDAR_OK && cedar_policies_ids(&h->p, 0) == CEDAR_OK);
    policy_body unknown = empty_body();
    push_nodes(&unknown.c, "'A ~" U("b") ":1 'A ~" U("a") ":1 = 'A ~" U("b") ":1 &");
    CHECK(insert_static_body(&h->p, "x", &unknown) == CEDAR_OK);
    set_up_faults(h->faulty);
    CHECK(new_set(&h->q) == CEDAR_OK && add_static(&h->q, "a", 1) == CEDAR_OK &&
          add_template(&h->q, "t2", 5) == CEDAR_OK);
    CHECK(link_id(&h->q, "t2", "m", U("a"), "", "B::\"b\"") == CEDAR_OK && cedar_policies_ids(&h->q, 1) == CEDAR_OK);
    CHECK(unlink_id(&h->p, "p") == CEDAR_NO_LINK && unlink_id(&h->q, "q") == CEDAR_NO_LINK);
    CHECK(IS(store_error(&h->s), "cycle at " U("m")) && IS(store_error(&h->t), "cycle at " U("n")));
    CHECK(IS(set_error(&h->p), "no link p") && IS(set_error(&h->q), "no link q"));
}

static void free_handles(handles *h) {
    cedar_store_free(&h->s);
    cedar_store_free(&h->t);
    cedar_policies_free(&h->p);
    cedar_policies_free(&h->q);
    for (size_t k = 0; k < FAULTS; k++) cedar_policies_free(&h->faulty[k]);
}

/* ---- the calls that allocate */

#define CALL(name, expression)                                                                                         \
    static cedar_status name(handles *h) {                                                                             \
        (void)h;                                                                                                       \
        return expression;                                                                                             \
    }

/* Returns 99 if a result was written after an error, or a wrong result was written. */
static cedar_status check_bool(cedar_status status, bool result, bool expected) {
    return result == (!status && expected) ? status : 99;
}

/* Returns 99 if a number was written after an error, or a wrong number was written. */
static cedar_status check_number(cedar_status status, size_t result, size_t expected) {
    return result == (status ? 9 : expected) ? status : 99;
}

/* Defines a case of a call that writes to `result`, with the expected Boolean or number. */
#define BOOL_CALL(name, expected, ...)                                                                                 \
    static cedar_status name(handles *h) {                                                                             \
        bool result = false;                                                                                           \
        cedar_status status = __VA_ARGS__;                                                                             \
        return check_bool(status, result, expected);                                                                   \
    }

#define NUMBER_CALL(name, type, expected, ...)                                                                         \
    static cedar_status name(handles *h) {                                                                             \
        type result = (type)9;                                                                                         \
        cedar_status status = __VA_ARGS__;                                                                             \
        return check_number(status, result, expected);                                                                 \
    }

static cedar_status run_program(handles *h) {
    const char *expected = "ok 1\nanc\t" U("b") "\nok\nok\nok\nbodies\tt\npolicies\tl\n";
    const char *input =
        "ent\t" U("a") "\t" U("b") "\nbuild\nanc\t" U("a") "\ntemplate\tt\tprincipal\n"
                                                           "link\tt\tl\tprincipal=" U("a") "\nmerge\tkeep\nids\n";
    uint8_t out[128];
    size_t length = 0;
    uint32_t exit_status = 9;
    (void)h;
    cedar_status status = cedar_run(TEXT(input), 1, 2, out, sizeof out, &length, &exit_status);
    if (status == CEDAR_OK && (length != strlen(expected) || memcmp(out, expected, length) || exit_status != 0))
        return 99;
    return status;
}

BOOL_CALL(query_has, true, cedar_store_has(&h->s, TEXT(U("a")), &result))
BOOL_CALL(query_descendant, true, cedar_store_is_descendant_of(&h->s, TEXT(U("a")), TEXT(U("c")), &result))

/* Repeats a query until the handle caches it: a failed allocation of the cache is not an error of the query. */
static cedar_status query_until_cached(handles *h) {
    cedar_status status = CEDAR_OK;
    for (int i = 0; i < 12 && status == CEDAR_OK; i++) status = query_descendant(h);
    return status;
}

static cedar_status make_uid(handles *h) {
    uint8_t out[16];
    size_t length = 9;
    (void)h;
    cedar_status status = cedar_uid_make(TEXT("A::B"), TEXT("it's"), out, sizeof out, &length);
    if (status == CEDAR_OK && (length != 13 || memcmp(out, "A::B::\"it\\'s\"", 13))) return 99;
    return status;
}

static cedar_status split_uid(handles *h) {
    uint8_t out[16];
    size_t type_len = 9, length = 9;
    (void)h;
    cedar_status status = cedar_uid_parts(TEXT("A::B::\"it\\'s\""), out, sizeof out, &type_len, &length);
    if (status == CEDAR_OK && (type_len != 4 || length != 8 || memcmp(out, "A::Bit's", 8))) return 99;
    return status;
}

BOOL_CALL(query_child, true, cedar_store_is_child_of(&h->s, TEXT(U("a")), TEXT(U("b")), &result))
BOOL_CALL(query_indirect_descendant, true,
          cedar_store_is_indirect_descendant_of(&h->s, TEXT(U("a")), TEXT(U("c")), &result))
BOOL_CALL(find_path, true, cedar_store_path(&h->s, TEXT(U("a")), TEXT(U("c")), &result))
BOOL_CALL(find_no_path, false, cedar_store_path(&h->s, TEXT(U("c")), TEXT(U("a")), &result))
BOOL_CALL(find_path_in_other, true, cedar_store_path(&h->t, TEXT(U("y")), TEXT(U("z")), &result))
BOOL_CALL(query_reaches, true, cedar_store_reaches(&h->s, TEXT(U("a")), TEXT(U("c")), &result))
BOOL_CALL(query_reaches_in_other, true, cedar_store_reaches(&h->t, TEXT(U("y")), TEXT(U("z")), &result))
BOOL_CALL(compare_entities, false, cedar_store_entity_equal(&h->s, TEXT(U("a")), &h->t, &result))
NUMBER_CALL(assign_number, size_t, 1, cedar_store_uid_number(&h->s, TEXT(U("c")), &result))
NUMBER_CALL(assign_number_of_new_type, size_t, 1, cedar_store_uid_number(&h->s, TEXT("B::C::\"c\""), &result))
NUMBER_CALL(get_number, size_t, 0, cedar_store_uid_number(&h->s, TEXT(U("a")), &result))
NUMBER_CALL(look_up_entity, cedar_found, 2, cedar_store_entity(&h->s, TEXT(U("a")), &result))
NUMBER_CALL(look_up_unknown, cedar_found, 1, cedar_store_entity(&h->t, TEXT(U("q")), &result))
NUMBER_CALL(count_attributes, size_t, 1, cedar_store_attrs_len(&h->s, TEXT(U("a")), &result))
NUMBER_CALL(count_tags, size_t, 1, cedar_store_tags_len(&h->s, TEXT(U("a")), &result))
static cedar_status get_value(handles *h) {
    bool has = false;
    cedar_status status = cedar_store_get(&h->s, TEXT(U("a")), TEXT("k"), &has);
    if (status == CEDAR_OK && !IS(store_value(&h->s), "'x '10.0.0.1 ip(1 'y 'z @b {2 [2")) return 99;
    return check_bool(status, has, true);
}

BOOL_CALL(get_absent_value, false, cedar_store_get(&h->s, TEXT(U("b")), TEXT("k"), &result))
BOOL_CALL(get_tag, true, cedar_store_get_tag(&h->s, TEXT(U("a")), TEXT("k"), &result))

/* Returns content with each kind of node, and an indirect ancestor. */
static content more_content(const char *spec) {
    content c = with_entities(spec);
    PUSH_TERMS(&c, {0, 0, "k", "t 1 'one @a {4"}, {0, 0, "k", "'p 1 'q 'p f [1 [2"}, {0, 1, "j", "'x d(1"},
                   {0, 1, "i", "?0 ! $1 @a < & ~u:0 ^A 1 {1 g(2 {2 *"}, {0, 0, "h", "'User ~u:1 2 = *"});
    c.indirect[c.indirect_len++] = (cedar_edge){0, 1};
    return c;
}

/* Defines a call on the store with `more_content`. */
#define CONTENT_CALL(name, call, spec)                                                                                 \
    static cedar_status name(handles *h) {                                                                             \
        content c = more_content(spec);                                                                                \
        return cedar_store_##call##_with(&h->s, CONTENT(c), CEDAR_COMPUTE);                                            \
    }

CONTENT_CALL(build_content, build, "a b;b c;c de;f")
CONTENT_CALL(build_content_cycle, build, "a b;b a")
CONTENT_CALL(add_content, add, "y x;z y")
CONTENT_CALL(add_content_duplicate, add, "a b")
CONTENT_CALL(upsert_content, upsert, "b d;y b")

static cedar_status build_invalid_name(handles *h) {
    content c = more_content("a b;b a");
    push_term(&c, 0, 0, "k", "'x 'y 1f(1 {2");
    return cedar_store_build_with(&h->s, CONTENT(c), CEDAR_COMPUTE);
}

NUMBER_CALL(get_kind, cedar_bound, 2, cedar_policies_get(&h->p, TEXT("l"), &result))
NUMBER_CALL(get_effect, cedar_effect, 0, cedar_policies_effect(&h->p, TEXT("l"), &result))
NUMBER_CALL(get_slots, uint32_t, 5, cedar_policies_slots(&h->p, TEXT("t"), &result))

static cedar_status get_annotation(handles *h) {
    bool result = true;
    cedar_status status = cedar_policies_annotation(&h->p, TEXT("a"), TEXT("key"), &result);
    return result == (status != CEDAR_OK) ? status : 99;
}

static cedar_status add_full_static(handles *h) {
    policy_body g = full_body();
    return insert_static_body(&h->p, "new", &g);
}

static cedar_status add_full_template(handles *h) {
    policy_body g = full_body();
    return insert_template_body(&h->p, "new", &g);
}

static cedar_status add_full_occupied(handles *h) {
    policy_body g = full_body();
    return insert_template_body(&h->p, "a", &g);
}

/* Adds each kind of constraint that allocates and is not in the whole body, and slots. */
static cedar_status add_slots(handles *h) {
    policy_body g = empty_body();
    g.body.principal = push_scope(&g, 3, U("a"), "");
    g.body.action = push_scope(&g, 1, U("a"), "");
    g.body.resource = push_scope(&g, 7, "", "B::C");
    push_nodes(&g.c, "?0 $0 <");
    return insert_template_body(&h->p, "new", &g);
}

static cedar_status add_slot_as_static(handles *h) {
    policy_body g = empty_body();
    g.body.principal = push_scope(&g, 5, "", "B::C");
    push_nodes(&g.c, "?0 $0 <");
    return insert_static_body(&h->p, "new", &g);
}

static cedar_status add_invalid_name(handles *h) {
    policy_body g = full_body();
    g.body.principal.type = push_part(&g, "B::");
    return insert_static_body(&h->p, "new", &g);
}

NUMBER_CALL(get_scope, cedar_scope_kind, 1, cedar_policies_scope(&h->p, TEXT("l"), 0, &result))
NUMBER_CALL(get_action_scope, cedar_scope_kind, 3, cedar_policies_scope(&h->p, TEXT("w"), 1, &result))
NUMBER_CALL(get_resource_scope, cedar_scope_kind, 2, cedar_policies_scope(&h->p, TEXT("t"), 2, &result))
BOOL_CALL(get_clause, true, cedar_policies_clause(&h->p, TEXT("w"), &result))
BOOL_CALL(get_absent_clause, false, cedar_policies_clause(&h->p, TEXT("a"), &result))

CALL(get_condition, cedar_policies_condition(&h->p, TEXT("w")))
CALL(check_uid, cedar_uid_check(TEXT("A::B::\"a\"")))
CALL(check_invalid_uid, cedar_uid_check(TEXT("A::B::\"\\n\\q\"")))
static cedar_status check_uids(handles *h) {
    static const cedar_span two[2] = {{0, 6}, {6, 12}};
    size_t place = 5;
    (void)h;
    cedar_status status = cedar_uids_check(TEXT(U("a") U("b")), two, 2, &place);
    return status == CEDAR_OK && place != 5 ? 99 : status;
}

CALL(open_store, new_store(&h->s))
CALL(build_store, build(&h->s, "a b;b c;c de;f", CEDAR_COMPUTE))
CALL(build_enforced, build(&h->s, "a bc;b c", CEDAR_ENFORCE))
CALL(build_assumed, build(&h->s, "a b;b a", CEDAR_ASSUME))
CALL(build_duplicate, build(&h->s, "a b;a c", CEDAR_COMPUTE))
CALL(build_cycle, build(&h->s, "a b;b a", CEDAR_COMPUTE))
CALL(build_not_closed, build(&h->s, "a b;b c", CEDAR_ENFORCE))
CALL(add_entities, add(&h->s, "y x;z y", CEDAR_COMPUTE))
CALL(add_duplicate, add(&h->s, "a q", CEDAR_COMPUTE))
CALL(add_assumed, add(&h->s, "y x;z y", CEDAR_ASSUME))
CALL(upsert_entities, upsert(&h->s, "b d;y b", CEDAR_COMPUTE))
CALL(upsert_cycle, upsert(&h->s, "c a", CEDAR_COMPUTE))
CALL(upsert_enforced, upsert(&h->s, "b c", CEDAR_ENFORCE))
CALL(remove_entities, remove_uids(&h->s, "bz", CEDAR_COMPUTE))
CALL(remove_enforced, remove_uids(&h->s, "bz", CEDAR_ENFORCE))
CALL(list_ancestors, ancestors(&h->s, U("a")))
CALL(list_parents, parents(&h->s, U("b")))
CALL(list_absent, ancestors(&h->s, U("q")))
CALL(list_uids, cedar_store_uids(&h->s))
CALL(list_indirect, cedar_store_indirect_ancestors(&h->s, TEXT(U("a"))))
CALL(list_descendants, cedar_store_descendants(&h->s, TEXT(U("c"))))
CALL(list_no_descendants, cedar_store_descendants(&h->s, TEXT(U("q"))))
CALL(list_descendants_of_other, cedar_store_descendants(&h->t, TEXT(U("z"))))
CALL(list_descendants_of_type, cedar_store_descendants_of_type(&h->s, TEXT(U("c")), TEXT("A")))
CALL(list_descendants_of_new_type, cedar_store_descendants_of_type(&h->s, TEXT(U("c")), TEXT("B::C")))
CALL(list_descendants_of_no_type, cedar_store_descendants_of_type(&h->s, TEXT(U("c")), TEXT("B::")))
CALL(list_keys, cedar_store_keys(&h->s, TEXT(U("a"))))
CALL(list_tag_keys, cedar_store_tag_keys(&h->s, TEXT(U("a"))))
CALL(get_uid_of_number, cedar_store_number_uid(&h->s, 0))
CALL(get_store_text, cedar_store_text(&h->s))
CALL(get_entity_text, cedar_store_entity_text(&h->s, TEXT(U("a"))))
CALL(validate_store, cedar_store_validate(&h->s))
CALL(slice_store, slice(&h->s, &h->t, "ax"))
CALL(copy_store, cedar_store_copy(&h->s, &h->t))
CALL(slice_store_deep, slice_deep_copy(&h->s, &h->t, "ax"))
CALL(copy_store_deep, cedar_store_deep_copy(&h->s, &h->t))
CALL(open_set, new_set(&h->p))
CALL(add_new_static, add_static(&h->p, "new", 1))
CALL(add_occupied_static, add_static(&h->p, "a", 1))
CALL(add_new_template, add_template(&h->p, "new", 7))
CALL(add_occupied_template, add_template(&h->p, "l", 7))
CALL(link_template, link_id(&h->p, "t", "new", U("b"), "", "B::\"c\""))
CALL(link_too_few, link_id(&h->p, "t", "new", U("b"), "", ""))
CALL(link_absent, link_id(&h->p, "none", "new", U("b"), "", ""))
CALL(link_no_action, link_id(&h->p, "u", "new", "", U("b"), ""))
CALL(link_occupied, link_id(&h->p, "u", "a", "", "Action::\"go\"", ""))
CALL(unlink_link, unlink_id(&h->p, "l"))
CALL(unlink_static, unlink_id(&h->p, "a"))
CALL(remove_existing_static, remove_static(&h->p, "a"))
CALL(remove_absent_static, remove_static(&h->p, "none"))
CALL(remove_unlinked_template, remove_template(&h->p, "u"))
CALL(remove_linked_template, remove_template(&h->p, "t"))
CALL(merge_sets, cedar_policies_merge(&h->p, &h->q, true))
CALL(merge_without_renaming, cedar_policies_merge(&h->p, &h->q, false))
CALL(list_bodies, cedar_policies_ids(&h->p, 0))
CALL(list_policies, cedar_policies_ids(&h->p, 1))
CALL(list_annotations, cedar_policies_annotations(&h->p, TEXT("a")))
CALL(list_bindings, cedar_policies_env(&h->p, TEXT("l")))
CALL(get_template_id, cedar_policies_template_id(&h->p, TEXT("l")))
CALL(list_linked, cedar_policies_linked(&h->p, TEXT("t")))
CALL(list_linked_of_absent, cedar_policies_linked(&h->p, TEXT("none")))
CALL(list_unknown, cedar_policies_unknown_entities(&h->p, TEXT("x")))
CALL(list_no_unknown, cedar_policies_unknown_entities(&h->p, TEXT("l")))
CALL(list_unknown_of_template, cedar_policies_unknown_entities(&h->p, TEXT("t")))
CALL(list_naming_bound, cedar_policies_naming(&h->p, TEXT("B::\"b\"")))
CALL(list_naming_in_clause, cedar_policies_naming(&h->p, TEXT(U("b"))))
CALL(list_naming_none, cedar_policies_naming(&h->p, TEXT(U("q"))))
CALL(list_templates_naming, cedar_policies_templates_naming(&h->faulty[1], TEXT(U("a"))))
CALL(list_no_templates_naming, cedar_policies_templates_naming(&h->p, TEXT(U("a"))))
CALL(validate_set, cedar_policies_validate(&h->p))
CALL(validate_slot, cedar_policies_validate(&h->faulty[0]))
CALL(validate_action, cedar_policies_validate(&h->faulty[1]))
CALL(validate_function, cedar_policies_validate(&h->faulty[2]))
CALL(validate_link, cedar_policies_validate(&h->faulty[3]))
CALL(get_set_text, cedar_policies_text(&h->p))
CALL(get_policy_text, cedar_policies_policy_text(&h->p, TEXT("l")))
CALL(get_template_text, cedar_policies_template_text(&h->p, TEXT("t")))
CALL(copy_set, cedar_policies_copy(&h->p, &h->q))
CALL(copy_set_deep, cedar_policies_deep_copy(&h->p, &h->q))
CALL(merge_sets_deep, cedar_policies_merge_deep_copy(&h->p, &h->q, true))
CALL(merge_deep_without_renaming, cedar_policies_merge_deep_copy(&h->p, &h->q, false))

typedef cedar_status (*call)(handles *);

static const call CALLS[] = {
    run_program,
    check_uid,
    check_invalid_uid,
    check_uids,
    make_uid,
    split_uid,
    open_store,
    build_store,
    build_enforced,
    build_assumed,
    build_duplicate,
    build_cycle,
    build_not_closed,
    add_entities,
    add_duplicate,
    add_assumed,
    upsert_entities,
    upsert_cycle,
    upsert_enforced,
    remove_entities,
    remove_enforced,
    query_has,
    query_descendant,
    query_until_cached,
    list_ancestors,
    list_parents,
    list_absent,
    find_path,
    find_no_path,
    find_path_in_other,
    query_reaches,
    query_reaches_in_other,
    query_child,
    query_indirect_descendant,
    compare_entities,
    assign_number,
    assign_number_of_new_type,
    get_number,
    get_uid_of_number,
    look_up_entity,
    look_up_unknown,
    count_attributes,
    count_tags,
    get_value,
    get_absent_value,
    get_tag,
    build_content,
    build_content_cycle,
    build_invalid_name,
    add_content,
    add_content_duplicate,
    upsert_content,
    list_uids,
    list_indirect,
    list_descendants,
    list_no_descendants,
    list_descendants_of_other,
    list_descendants_of_type,
    list_descendants_of_new_type,
    list_descendants_of_no_type,
    list_keys,
    list_tag_keys,
    get_store_text,
    get_entity_text,
    validate_store,
    slice_store,
    copy_store,
    slice_store_deep,
    copy_store_deep,
    open_set,
    add_new_static,
    add_occupied_static,
    add_new_template,
    add_occupied_template,
    add_full_static,
    add_full_template,
    add_full_occupied,
    add_slots,
    add_slot_as_static,
    add_invalid_name,
    get_scope,
    get_action_scope,
    get_resource_scope,
    get_clause,
    get_absent_clause,
    get_condition,
    link_template,
    link_too_few,
    link_absent,
    link_no_action,
    link_occupied,
    unlink_link,
    unlink_static,
    remove_existing_static,
    remove_absent_static,
    remove_unlinked_template,
    remove_linked_template,
    merge_sets,
    merge_without_renaming,
    list_bodies,
    list_policies,
    get_kind,
    get_effect,
    get_slots,
    get_annotation,
    list_annotations,
    list_bindings,
    get_template_id,
    list_linked,
    list_linked_of_absent,
    list_unknown,
    list_no_unknown,
    list_unknown_of_template,
    list_naming_bound,
    list_naming_in_clause,
    list_naming_none,
    list_templates_naming,
    list_no_templates_naming,
    validate_set,
    validate_slot,
    validate_action,
    validate_function,
    validate_link,
    get_set_text,
    get_policy_text,
    get_template_text,
    copy_set,
    copy_set_deep,
    merge_sets_deep,
    merge_deep_without_renaming,
};

/* ---- each call, with each of its allocations failing in order */

/* Returns whether `count` nodes are the same. */
static bool are_equal_nodes(const cedar_node *nodes, const cedar_node *others, size_t count) {
    for (size_t k = 0; k < count; k++) {
        const cedar_node *n = &nodes[k], *o = &others[k];
        if (n->kind != o->kind || n->len != o->len || n->number != o->number || n->at.start != o->at.start ||
            n->at.end != o->at.end)
            return false;
    }
    return true;
}

/* Returns whether two handles have the same nodes. */
static bool have_equal_nodes(handles *h, handles *other) {
    cedar_node nodes[MAX_NODES], others[MAX_NODES];
    size_t count = cedar_store_result_nodes(&h->s, 0, nodes, MAX_NODES);
    if (count > MAX_NODES || cedar_store_result_nodes(&other->s, 0, others, MAX_NODES) != count) return false;
    if (!are_equal_nodes(nodes, others, count)) return false;
    count = cedar_policies_result_nodes(&h->p, 0, nodes, MAX_NODES);
    if (count > MAX_NODES || cedar_policies_result_nodes(&other->p, 0, others, MAX_NODES) != count) return false;
    return are_equal_nodes(nodes, others, count);
}

/* Defines a function that returns whether two handles have the same text. `text_of` reads it into one shared place. */
#define DEFINE_EQUAL_TEXTS(name, handle, text_of)                                                                      \
    static bool name(handle *one, handle *other) {                                                                     \
        char text[CAPACITY];                                                                                           \
        snprintf(text, sizeof text, "%s", text_of(one));                                                               \
        return IS(text_of(other), text);                                                                               \
    }

DEFINE_EQUAL_TEXTS(have_equal_store_results, cedar_store, store_result)
DEFINE_EQUAL_TEXTS(have_equal_set_results, cedar_policies, set_result)
DEFINE_EQUAL_TEXTS(have_equal_store_errors, cedar_store, store_error)
DEFINE_EQUAL_TEXTS(have_equal_set_errors, cedar_policies, set_error)

/* Returns whether all handles pass a comparison of stores, and one of policy sets. */
static bool are_alike(handles *h, handles *other, bool (*stores_equal)(cedar_store *, cedar_store *),
                      bool (*policies_equal)(cedar_policies *, cedar_policies *)) {
    for (size_t k = 0; k < FAULTS; k++) {
        if (!policies_equal(&h->faulty[k], &other->faulty[k])) return false;
    }
    return stores_equal(&h->s, &other->s) && stores_equal(&h->t, &other->t) && policies_equal(&h->p, &other->p) &&
           policies_equal(&h->q, &other->q);
}

/* Returns whether two handles have the same last result. */
static bool have_equal_results(handles *h, handles *other) {
    return are_alike(h, other, have_equal_store_results, have_equal_set_results) && have_equal_nodes(h, other);
}

/* Returns whether two handles have the same text of the last error. */
static bool have_equal_errors(handles *h, handles *other) {
    return are_alike(h, other, have_equal_store_errors, have_equal_set_errors);
}

/* Returns whether all handles except the called store are alike. */
static bool have_equal_other_handles(handles *h, handles *other) {
    for (size_t k = 0; k < FAULTS; k++) {
        if (sets_equal(&h->faulty[k], &other->faulty[k]) != 1) return false;
    }
    return equal(&h->t, &other->t) == 1 && sets_equal(&h->p, &other->p) == 1 && sets_equal(&h->q, &other->q) == 1;
}

/* Returns whether a failed allocation left the correct state. The store is as it was, or it is empty and partial
 * exactly if it was partial before. Everything else is as it was, including the last results and the texts of the last
 * errors. */
static bool is_valid_after_failure(handles *h, handles *before) {
    if (!have_equal_other_handles(h, before) || !have_equal_results(h, before) || !have_equal_errors(h, before))
        return false;
    if (!h->s.is_open || is_partial(&h->s) != is_partial(&before->s)) return false;
    return cedar_store_len(&h->s) == 0 || equal(&h->s, &before->s) == 1;
}

/* Builds an emptied store again. Its last result and the text of its last error must be unchanged. */
static void rebuild_if_empty(handles *h, handles *before) {
    if (cedar_store_len(&h->s) > 0) return;
    CHECK(build_sample(&h->s) == CEDAR_OK && equal(&h->s, &before->s) == 1);
}

static bool are_equal(handles *h, handles *after) {
    return equal(&h->s, &after->s) == 1 && have_equal_other_handles(h, after) && have_equal_results(h, after) &&
           have_equal_errors(h, after);
}

/* Makes a call with its n-th allocation failing. Returns whether there was an n-th allocation. */
static bool call_with_failure(size_t k, long n, cedar_status expected, handles *before, handles *after) {
    handles h;
    set_up(&h);
    requests_until_failure = n;
    failed_requests = 0;
    cedar_status status = CALLS[k](&h);
    requests_until_failure = 0;
    bool has_failed = failed_requests > 0;
    if (has_failed && status == CEDAR_NO_MEMORY) {
        no_memory_count++;
        CHECK(is_valid_after_failure(&h, before));
        rebuild_if_empty(&h, before);
        status = CALLS[k](&h);
    } else if (has_failed) {
        success_count++;
    }
    if (status != expected) printf("call %zu, failed request %ld: status %u, expected %u\n", k, n, status, expected);
    CHECK(status == expected);
    CHECK(are_equal(&h, after));
    free_handles(&h);
    return has_failed;
}

static void fail_each_allocation(size_t k) {
    handles before, after;
    set_up(&before);
    set_up(&after);
    cedar_status expected = CALLS[k](&after);
    CHECK(expected != CEDAR_NO_MEMORY && expected != 99);
    long n = 1;
    while (call_with_failure(k, n, expected, &before, &after)) n++;
    if (n == 1) printf("call %zu makes no request\n", k);
    CHECK(n > 1);
    free_handles(&before);
    free_handles(&after);
}

/* ---- edits of a partial store */

static cedar_status edit(cedar_store *s, int edit_kind) {
    if (edit_kind == 0) return add(s, "x y", CEDAR_COMPUTE);
    if (edit_kind == 1) return upsert(s, "y x", CEDAR_COMPUTE);
    return remove_uids(s, "y", CEDAR_COMPUTE);
}

/* Makes each allocation of an edit fail in order: the store stays partial, even if it becomes empty. Returns how often
 * it became empty. */
static long emptied_by(int edit_kind) {
    long emptied = 0;
    for (long n = 1; n == 1 || failed_requests > 0; n++) {
        cedar_store s = {0};
        CHECK(new_store(&s) == CEDAR_OK && build(&s, "y z;z", CEDAR_COMPUTE) == CEDAR_OK);
        CHECK(cedar_store_partial(&s) == CEDAR_OK);
        requests_until_failure = n;
        failed_requests = 0;
        cedar_status status = edit(&s, edit_kind);
        requests_until_failure = 0;
        CHECK(status == CEDAR_OK || (status == CEDAR_NO_MEMORY && failed_requests > 0));
        CHECK(is_partial(&s) == 1);
        emptied += status == CEDAR_NO_MEMORY && cedar_store_len(&s) == 0;
        cedar_store_free(&s);
    }
    return emptied;
}

/* ---- the calls that do not allocate */

static void calls_that_do_not_allocate(void) {
    handles h;
    uint8_t out[64];
    cedar_span spans[8];
    cedar_node nodes[8];
    bool result = false;
    set_up(&h);
    CHECK(add_static(&h.p, "a", 1) == CEDAR_OCCUPIED && build(&h.t, "y y", CEDAR_COMPUTE) == CEDAR_CYCLE);
    requests_until_failure = 1;
    requests = 0;
    CHECK(cedar_store_partial(&h.s) == CEDAR_OK && is_partial(&h.s) == 1);
    CHECK(cedar_version() == CEDAR_VERSION && cedar_status_copy_text(CEDAR_OCCUPIED, out, sizeof out) == 8);
    CHECK(cedar_store_len(&h.s) == 3 && equal(&h.s, &h.t) == 0);
    CHECK(cedar_store_has_number(&h.s, 0, &result) == CEDAR_OK && result);
    CHECK(cedar_store_is_descendant_of_numbers(&h.s, 0, 0, &result) == CEDAR_OK && !result);
    CHECK(cedar_store_has_number(&h.s, 1, &result) == CEDAR_BAD_ARGUMENT && !result);
    CHECK(cedar_store_result(&h.s, 0, out, sizeof out) == 12 && cedar_store_result_spans(&h.s, 0, spans, 8) == 2);
    CHECK(cedar_store_result_nodes(&h.s, 0, nodes, 8) == 8 && nodes[7].kind == CEDAR_RESIDUAL);
    CHECK(cedar_store_error_text(&h.t, out, sizeof out) == strlen("cycle at " U("y")));
    CHECK(sets_equal(&h.p, &h.q) == 0);
    CHECK(cedar_policies_result(&h.p, 0, out, sizeof out) == 4 && cedar_policies_result_spans(&h.p, 0, spans, 8) == 4);
    CHECK(cedar_policies_result_nodes(&h.p, 0, nodes, 8) == 3 && nodes[2].kind == CEDAR_EQ);
    CHECK(cedar_policies_error_text(&h.p, out, sizeof out) == strlen("occupied a"));
    free_handles(&h);
    CHECK(requests == 0);
    requests_until_failure = 0;
}

int main(void) {
    for (size_t k = 0; k < sizeof CALLS / sizeof *CALLS; k++) fail_each_allocation(k);
    for (int edit_kind = 0; edit_kind < 3; edit_kind++) CHECK(emptied_by(edit_kind) > 0);
    calls_that_do_not_allocate();
    printf("alloc_failures.c: %ld allocations failed, and %ld of these calls succeeded without the memory\n",
           no_memory_count + success_count, success_count);
    return report_counts();
}
