/* Tests of what the headers add to the library: checks of null pointers, names and texts of statuses, lists of uids and
 * edges, and iteration over results. It is also compiled as C++. */
#include <stdbool.h>
#include <stdlib.h>

/* The number of allocations of the headers until one fails, or a negative number. The library's own do not fail. */
static long allocations_left = -1;

static bool fails(void) { return allocations_left >= 0 && allocations_left-- == 0; }

static void *test_malloc(size_t size) { return fails() ? NULL : malloc(size); }

static void *test_realloc(void *block, size_t size) { return fails() ? NULL : realloc(block, size); }

#define malloc test_malloc
#define realloc test_realloc
#include "short.h"

static void *volatile null; /* volatile, so that the compiler does not know that it is null */

static void null_handles(void) {
    cedar_store *s = (cedar_store *)null, open = CEDAR_EMPTY;
    cedar_policies *p = (cedar_policies *)null, set = CEDAR_EMPTY;
    uint8_t out[4];
    bool result = true;
    size_t count = 9;
    cedar_effect effect = CEDAR_FORBID;
    cedar_store_free(s);
    cedar_policies_free(p);
    CHECK(cedar_store_new(s, 0, 0) == CEDAR_CLOSED && cedar_policies_new(p, 0, 0) == CEDAR_CLOSED);
    CHECK(cedar_store_len(s) == 0 && cedar_store_result(s, 0, out, 4) == 0 && cedar_store_error_text(s, out, 4) == 0);
    CHECK(cedar_policies_result(p, 0, out, 4) == 0 && cedar_policies_error_text(p, out, 4) == 0);
    CHECK(cedar_store_uids(s) == CEDAR_CLOSED && cedar_policies_ids(p, CEDAR_BODIES) == CEDAR_CLOSED);
    CHECK(cedar_store_has(s, TEXT(U("a")), &result) == CEDAR_CLOSED && result);
    CHECK(cedar_store_remove(s, NULL, 0, NULL, 0, CEDAR_COMPUTE) == CEDAR_CLOSED);
    CHECK(cedar_store_attrs_len(s, TEXT(U("a")), &count) == CEDAR_CLOSED && count == 9);
    CHECK(cedar_policies_add_static(p, TEXT("p"), CEDAR_PERMIT) == CEDAR_CLOSED);
    CHECK(cedar_policies_effect(p, TEXT("p"), &effect) == CEDAR_CLOSED && effect == CEDAR_FORBID);
    CHECK(new_store(&open) == CEDAR_OK && new_set(&set) == CEDAR_OK);
    CHECK(cedar_store_copy(s, &open) == CEDAR_CLOSED && cedar_store_copy(&open, s) == CEDAR_CLOSED);
    CHECK(cedar_store_equal(&open, s, &result) == CEDAR_CLOSED && cedar_store_equal(s, &open, &result) == CEDAR_CLOSED);
    CHECK(cedar_policies_merge(&set, p, false) == CEDAR_CLOSED && cedar_policies_copy(p, &set) == CEDAR_CLOSED);
    CHECK(cedar_store_equal(&open, &open, &result) == CEDAR_BAD_ARGUMENT && result);
    CHECK(cedar_policies_merge(&set, &set, true) == CEDAR_BAD_ARGUMENT);
    CHECK(cedar_store_copy(&open, &open) == CEDAR_BAD_ARGUMENT && cedar_store_len(&open) == 0);
    cedar_store_free(&open);
    cedar_policies_free(&set);
}

static void null_lists(void) {
    cedar_store s = CEDAR_EMPTY, part = CEDAR_EMPTY;
    cedar_policies p = CEDAR_EMPTY;
    const cedar_body body = {CEDAR_FORBID, cedar_scope_of(CEDAR_SCOPE_ANY, 0, 0), cedar_scope_of(CEDAR_SCOPE_ANY, 0, 0),
                             cedar_scope_of(CEDAR_SCOPE_ANY, 0, 0)};
    const cedar_span one[] = {{0, 6}};
    bool result = true;
    size_t length = 0;
    CHECK(new_store(&s) == CEDAR_OK && new_set(&p) == CEDAR_OK);
    CHECK(cedar_store_build(&s, NULL, 0, NULL, 0, 0, NULL, 0, CEDAR_COMPUTE) == CEDAR_OK && cedar_store_len(&s) == 0);
    CHECK(cedar_store_add(&s, TEXT(U("a")), one, 1, 1, NULL, 0, CEDAR_COMPUTE) == CEDAR_OK);
    CHECK(cedar_store_upsert_with(&s, TEXT(U("a")), one, 1, 1, NULL, 0, NULL, 0, NULL, 0, NULL, 0, CEDAR_ASSUME) ==
          CEDAR_OK);
    CHECK(cedar_store_remove(&s, NULL, 0, NULL, 0, CEDAR_COMPUTE) == CEDAR_OK && cedar_store_len(&s) == 1);
    CHECK(cedar_store_slice(&s, &part, NULL, 0, NULL, 0) == CEDAR_OK && cedar_store_len(&part) == 0);
    CHECK(cedar_store_has(&s, NULL, 0, &result) == CEDAR_NOT_A_UID && cedar_uid_check(NULL, 0) == CEDAR_NOT_A_UID);
    CHECK(cedar_store_has(&s, NULL, 6, &result) == CEDAR_BAD_ARGUMENT && result);
    CHECK(cedar_store_has(&s, TEXT(U("a")), NULL) == CEDAR_BAD_ARGUMENT);
    CHECK(cedar_store_build(&s, NULL, 6, one, 1, 1, NULL, 0, CEDAR_COMPUTE) == CEDAR_BAD_ARGUMENT);
    CHECK(cedar_store_add(&s, TEXT(U("a")), NULL, 1, 1, NULL, 0, CEDAR_COMPUTE) == CEDAR_BAD_ARGUMENT);
    CHECK(cedar_uid_make(TEXT("A"), NULL, 0, NULL, 0, &length) == CEDAR_OK && length == 5);
    CHECK(cedar_uid_make(TEXT("A"), NULL, 0, NULL, 1, &length) == CEDAR_BAD_ARGUMENT);
    CHECK(cedar_store_uids(&s) == CEDAR_OK && cedar_store_result(&s, 0, NULL, 0) == 6);
    CHECK(cedar_store_result(&s, 0, NULL, 100) == 6 && cedar_store_result_spans(&s, 0, NULL, 3) == 1);
    CHECK(cedar_policies_add_static(&p, NULL, 0, CEDAR_PERMIT) == CEDAR_OK && kind_of(&p, "") == CEDAR_STATIC);
    CHECK(cedar_policies_add_static_with(&p, TEXT("p"), NULL, 0, &body, NULL, 0, NULL, 0, NULL, 0) == CEDAR_OK);
    CHECK(cedar_policies_add_static_with(&p, TEXT("q"), NULL, 0, NULL, NULL, 0, NULL, 0, NULL, 0) ==
          CEDAR_BAD_ARGUMENT);
    CHECK(cedar_policies_link(&p, TEXT("p"), TEXT("q"), NULL, 0, NULL, 0) == CEDAR_BAD_ARGUMENT);
    CHECK(cedar_policies_result_nodes(&p, 0, NULL, 5) == 0 && cedar_store_result_nodes(&s, 0, NULL, 5) == 0);
    CHECK(!cedar_error_part(CEDAR_CYCLE, NULL, 0, 0, NULL));
    cedar_store_free(&s);
    cedar_store_free(&part);
    cedar_policies_free(&p);
}

static void statuses(void) {
    for (int number = 0; number < CEDAR_STATUSES; number++) {
        cedar_status status = (cedar_status)number;
        uint8_t text[64];
        size_t len = cedar_status_copy_text(status, text, sizeof text);
        const char *words = cedar_status_text(status);
        CHECK(len && len == strlen(words) && !memcmp(text, words, len));
        CHECK(!strncmp(cedar_status_name(status), "CEDAR_", 6));
    }
    CHECK(IS(cedar_status_name(CEDAR_CYCLE), "CEDAR_CYCLE") && IS(cedar_status_text(CEDAR_CYCLE), "cycle at"));
    CHECK(cedar_status_copy_text(CEDAR_STATUSES, NULL, 0) == 0);
}

static void lists_build_stores(void) {
    cedar_store s = CEDAR_EMPTY, t = CEDAR_EMPTY;
    cedar_list list = CEDAR_EMPTY, removed = CEDAR_EMPTY;
    CHECK(new_store(&s) == CEDAR_OK && new_store(&t) == CEDAR_OK);
    size_t b = cedar_list_text(&list, U("b")), a = cedar_list_uid(&list, "A", "a");
    size_t quoted = cedar_list_uid(&list, "B::C", "it's \"q\""), c = cedar_list_bytes(&list, TEXT(U("c")));
    CHECK(b == 0 && a == 1 && quoted == 2 && c == 3 && list.status == CEDAR_OK);
    cedar_list_parent(&list, a, b);
    cedar_list_parent(&list, quoted, a);
    cedar_list_parent(&list, quoted, c);
    cedar_list_entity(&list, c);
    CHECK(cedar_store_build_list(&s, &list, CEDAR_COMPUTE) == CEDAR_OK && cedar_store_len(&s) == 3);
    CHECK(is_descendant(&s, U("a"), U("b")) == 1 && has(&s, U("b")) == 0 && has(&s, U("c")) == 1);
    CHECK(parents(&s, "B::C::\"it\\'s \\\"q\\\"\"") == CEDAR_OK && IS(store_result(&s), "," U("a") "," U("c")));
    CHECK(cedar_store_add_list(&t, &list, CEDAR_COMPUTE) == CEDAR_OK && equal(&s, &t) == 1);
    CHECK(cedar_store_upsert_list(&t, &list, CEDAR_COMPUTE) == CEDAR_OK && equal(&s, &t) == 1);
    cedar_list_parent(&list, c, quoted);
    cedar_list_parent(&list, b, quoted);
    CHECK(cedar_store_upsert_list(&t, &list, CEDAR_COMPUTE) == CEDAR_CYCLE && equal(&s, &t) == 1);
    cedar_list_text(&removed, U("c"));
    cedar_list_text(&removed, U("z"));
    CHECK(cedar_store_slice_list(&s, &t, &removed) == CEDAR_OK && cedar_store_len(&t) == 1);
    CHECK(cedar_store_remove_list(&s, &removed, CEDAR_COMPUTE) == CEDAR_OK && cedar_store_len(&s) == 2);
    cedar_list_free(&list);
    CHECK(cedar_store_build_list(&s, &list, CEDAR_COMPUTE) == CEDAR_OK && cedar_store_len(&s) == 0);
    for (int k = 0; k < 1000; k++) {
        char id[16];
        snprintf(id, sizeof id, "%d", k);
        size_t child = cedar_list_uid(&list, "A", id);
        cedar_list_entity(&list, child);
        if (k) cedar_list_parent(&list, child, child / 2);
    }
    CHECK(cedar_store_build_list(&s, &list, CEDAR_COMPUTE) == CEDAR_OK && cedar_store_len(&s) == 1000);
    CHECK(is_descendant(&s, U("999"), U("0")) == 1 && is_descendant(&s, U("999"), U("500")) == 0);
    cedar_list_free(&list);
    cedar_list_free(&removed);
    cedar_store_free(&s);
    cedar_store_free(&t);
}

static void lists_keep_their_first_error(void) {
    cedar_store s = CEDAR_EMPTY;
    cedar_list list = CEDAR_EMPTY;
    CHECK(new_store(&s) == CEDAR_OK && build(&s, "a b", CEDAR_COMPUTE) == CEDAR_OK);
    cedar_list_uid(&list, "not a name", "a");
    CHECK(list.status == CEDAR_NOT_A_NAME && cedar_list_text(&list, U("a")) == 0);
    cedar_list_parent(&list, 0, 5);
    CHECK(cedar_store_build_list(&s, &list, CEDAR_COMPUTE) == CEDAR_NOT_A_NAME && cedar_store_len(&s) == 1);
    CHECK(cedar_store_remove_list(&s, &list, CEDAR_COMPUTE) == CEDAR_NOT_A_NAME);
    cedar_list_free(&list);
    cedar_list_parent(&list, 0, 0);
    CHECK(list.status == CEDAR_BAD_ARGUMENT && cedar_store_add_list(&s, &list, CEDAR_COMPUTE) == CEDAR_BAD_ARGUMENT);
    cedar_list_free(&list);
    cedar_list_parent(&list, cedar_list_text(&list, U("a")), 1);
    CHECK(list.status == CEDAR_BAD_ARGUMENT);
    cedar_list_free(&list);
    cedar_list_entity(&list, cedar_list_text(&list, "a"));
    CHECK(cedar_store_add_list(&s, &list, CEDAR_COMPUTE) == CEDAR_NOT_A_UID && cedar_store_len(&s) == 1);
    cedar_list_free(&list);
    cedar_store_free(&s);
}

static void texts_are_iterated(void) {
    cedar_store s = CEDAR_EMPTY;
    cedar_policies p = CEDAR_EMPTY;
    cedar_texts texts = CEDAR_EMPTY;
    char error[64], small[6];
    size_t len = 9;
    CHECK(cedar_texts_next(&texts, NULL) == NULL);
    CHECK(new_store(&s) == CEDAR_OK && build(&s, "a bc;b;c", CEDAR_COMPUTE) == CEDAR_OK);
    CHECK(cedar_store_ancestor_texts(&s, U("a"), &texts) == CEDAR_OK);
    CHECK(cedar_store_ancestors(&s, TEXT(U("b"))) == CEDAR_OK); /* the texts are a copy */
    CHECK(IS(cedar_texts_next(&texts, &len), U("b")) && len == 6 && IS(cedar_texts_next(&texts, NULL), U("c")));
    CHECK(cedar_texts_next(&texts, NULL) == NULL && cedar_texts_next(&texts, &len) == NULL && len == 6);
    CHECK(cedar_store_ancestor_texts(&s, U("z"), &texts) == CEDAR_NO_ENTITY);
    CHECK(cedar_store_ancestor_texts(&s, U("b"), &texts) == CEDAR_OK && cedar_texts_next(&texts, NULL) == NULL);
    CHECK(add(&s, "a", CEDAR_COMPUTE) == CEDAR_DUPLICATE);
    CHECK(IS(cedar_store_error(&s, error, sizeof error), "duplicate entity " U("a")));
    CHECK(IS(cedar_store_error(&s, small, sizeof small), "dupli") && cedar_store_error(&s, NULL, 0) == NULL);
    CHECK(new_set(&p) == CEDAR_OK && add_static(&p, "one", CEDAR_PERMIT) == CEDAR_OK);
    CHECK(cedar_policies_add_static(&p, (const uint8_t *)"a\0b", 3, CEDAR_FORBID) == CEDAR_OK);
    CHECK(cedar_policies_add_static(&p, NULL, 0, CEDAR_FORBID) == CEDAR_OK);
    CHECK(cedar_policies_id_texts(&p, CEDAR_POLICIES, &texts) == CEDAR_OK);
    CHECK(IS(cedar_texts_next(&texts, &len), "one") && len == 3);
    CHECK(!memcmp(cedar_texts_next(&texts, &len), "a\0b", 4) && len == 3);
    CHECK(IS(cedar_texts_next(&texts, &len), "") && len == 0 && cedar_texts_next(&texts, NULL) == NULL);
    CHECK(add_template(&p, "t", CEDAR_PRINCIPAL_SLOT) == CEDAR_OK);
    CHECK(cedar_policies_link_text(&p, "t", "l", NULL, NULL, NULL) == CEDAR_ARITY);
    CHECK(cedar_policies_link_text(&p, "t", "l", U("a"), NULL, NULL) == CEDAR_OK && kind_of(&p, "l") == CEDAR_LINK);
    CHECK(cedar_policies_link_text(&p, "t", "l", U("a"), NULL, NULL) == CEDAR_ID_CONFLICT);
    CHECK(IS(cedar_policies_error(&p, error, sizeof error), "occupied l"));
    CHECK(cedar_policies_error(&p, error, 9) == error && IS(error, "occupied"));
    cedar_texts_free(&texts);
    cedar_store_free(&s);
    cedar_policies_free(&p);
    CHECK(cedar_store_texts(&s, &texts) == CEDAR_OK && cedar_texts_next(&texts, NULL) == NULL);
    CHECK(cedar_store_ancestor_texts(&s, U("a"), &texts) == CEDAR_CLOSED);
    cedar_texts_free(&texts);
    cedar_texts_free(&texts);
}

static void texts_of_queries(void) {
    cedar_store s = CEDAR_EMPTY;
    cedar_policies p = CEDAR_EMPTY;
    cedar_texts texts = CEDAR_EMPTY;
    CHECK(new_store(&s) == CEDAR_OK && build(&s, "a b;b c", CEDAR_COMPUTE) == CEDAR_OK);
    CHECK(cedar_store_descendant_texts(&s, U("c"), NULL, &texts) == CEDAR_OK);
    CHECK(IS(cedar_texts_next(&texts, NULL), U("a")) && IS(cedar_texts_next(&texts, NULL), U("b")));
    CHECK(cedar_texts_next(&texts, NULL) == NULL);
    CHECK(cedar_store_descendant_texts(&s, U("b"), "A", &texts) == CEDAR_OK);
    CHECK(IS(cedar_texts_next(&texts, NULL), U("a")) && cedar_texts_next(&texts, NULL) == NULL);
    CHECK(cedar_store_descendant_texts(&s, U("b"), "B", &texts) == CEDAR_OK && cedar_texts_next(&texts, NULL) == NULL);
    CHECK(cedar_store_descendant_texts(&s, "b", NULL, &texts) == CEDAR_NOT_A_UID);
    CHECK(cedar_store_descendant_texts(&s, U("b"), "", &texts) == CEDAR_NOT_A_NAME);
    CHECK(cedar_store_path_texts(&s, U("a"), U("c"), &texts) == CEDAR_OK);
    CHECK(IS(cedar_texts_next(&texts, NULL), U("a")) && IS(cedar_texts_next(&texts, NULL), U("b")));
    CHECK(IS(cedar_texts_next(&texts, NULL), U("c")) && cedar_texts_next(&texts, NULL) == NULL);
    CHECK(cedar_store_path_texts(&s, U("c"), U("a"), &texts) == CEDAR_OK && cedar_texts_next(&texts, NULL) == NULL);
    CHECK(cedar_store_path_texts(&s, U("c"), "a", &texts) == CEDAR_NOT_A_UID);
    CHECK(new_set(&p) == CEDAR_OK && add_template(&p, "t", CEDAR_PRINCIPAL_SLOT) == CEDAR_OK);
    CHECK(cedar_policies_link_text(&p, "t", "l", U("a"), NULL, NULL) == CEDAR_OK);
    CHECK(cedar_policies_naming_texts(&p, U("a"), &texts) == CEDAR_OK);
    CHECK(IS(cedar_texts_next(&texts, NULL), "l") && cedar_texts_next(&texts, NULL) == NULL);
    CHECK(cedar_policies_naming_texts(&p, "a", &texts) == CEDAR_NOT_A_UID);
    cedar_texts_free(&texts);
    cedar_store_free(&s);
    cedar_policies_free(&p);
}

/* Returns whether the texts are the uids of these names, one character each, in any order. */
static bool are_uids(cedar_texts *texts, const char *names) {
    size_t count = 0;
    const char *text;
    while ((text = cedar_texts_next(texts, NULL))) {
        count++;
        if (strlen(text) != 6 || !strchr(names, text[4])) return false;
    }
    return count == strlen(names);
}

static void differences_of_stores(void) {
    cedar_store before = CEDAR_EMPTY, after = CEDAR_EMPTY, closed = CEDAR_EMPTY;
    cedar_store_difference difference = CEDAR_EMPTY;
    cedar_texts texts = CEDAR_EMPTY;
    CHECK(new_store(&before) == CEDAR_OK && build(&before, "a b;b c;d e;g;k lm;m l", CEDAR_COMPUTE) == CEDAR_OK);
    CHECK(cedar_store_copy(&before, &after) == CEDAR_OK);
    CHECK(cedar_store_diff(&before, &after, &difference) == CEDAR_OK);
    CHECK(are_uids(&difference.removed, "") && are_uids(&difference.added, "") && are_uids(&difference.changed, ""));
    /* b gets another parent, which a has as an ancestor; k loses a parent that is still an ancestor */
    CHECK(remove_uids(&after, "g", CEDAR_COMPUTE) == CEDAR_OK);
    CHECK(upsert(&after, "b f;h;k m", CEDAR_COMPUTE) == CEDAR_OK);
    CHECK(cedar_store_diff(&before, &after, &difference) == CEDAR_OK);
    CHECK(are_uids(&difference.removed, "g") && are_uids(&difference.added, "h"));
    CHECK(are_uids(&difference.changed, "abk"));
    CHECK(cedar_store_lost_ancestor_texts(&before, &after, U("a"), &texts) == CEDAR_OK && are_uids(&texts, "c"));
    CHECK(cedar_store_lost_ancestor_texts(&after, &before, U("a"), &texts) == CEDAR_OK && are_uids(&texts, "f"));
    CHECK(cedar_store_lost_ancestor_texts(&before, &after, U("k"), &texts) == CEDAR_OK && are_uids(&texts, ""));
    CHECK(cedar_store_lost_ancestor_texts(&before, &after, U("g"), &texts) == CEDAR_NO_ENTITY);
    CHECK(cedar_store_lost_ancestor_texts(&before, &after, "a", &texts) == CEDAR_NOT_A_UID);
    CHECK(cedar_store_diff(&before, &before, &difference) == CEDAR_BAD_ARGUMENT && !difference.changed.len);
    CHECK(cedar_store_diff(&before, &closed, &difference) == CEDAR_CLOSED && !difference.removed.bytes);
    CHECK(cedar_store_diff((cedar_store *)null, &after, &difference) == CEDAR_CLOSED);
    cedar_status status = CEDAR_NO_MEMORY;
    long n = 0;
    for (; status == CEDAR_NO_MEMORY && n < 100; n++) {
        allocations_left = n;
        status = cedar_store_diff(&before, &after, &difference);
        allocations_left = -1;
        CHECK(status == CEDAR_OK || (!difference.removed.bytes && !difference.added.bytes && !difference.changed.bytes));
    }
    CHECK(status == CEDAR_OK && n > 6 && are_uids(&difference.changed, "abk"));
    cedar_store_difference_free(&difference);
    cedar_texts_free(&texts);
    cedar_store_free(&before);
    cedar_store_free(&after);
}

/* Returns whether the texts are these ids, one character each, in this order. */
static bool are_ids(cedar_texts *texts, const char *ids) {
    const char *text;
    while ((text = cedar_texts_next(texts, NULL))) {
        if (strlen(text) != 1 || *text != *ids++) return false;
    }
    return !*ids;
}

static bool differ(cedar_policies_difference *difference, const char *removed, const char *added, const char *changed,
                   const char *relinked) {
    return are_ids(&difference->removed, removed) && are_ids(&difference->added, added) &&
           are_ids(&difference->changed, changed) && are_ids(&difference->relinked, relinked);
}

static void differences_of_sets(void) {
    cedar_policies before = CEDAR_EMPTY, after = CEDAR_EMPTY, closed = CEDAR_EMPTY;
    cedar_policies_difference difference = CEDAR_EMPTY;
    CHECK(new_set(&before) == CEDAR_OK && new_set(&after) == CEDAR_OK);
    CHECK(cedar_policies_diff(&before, &after, &difference) == CEDAR_OK && differ(&difference, "", "", "", ""));
    CHECK(add_static(&before, "p", CEDAR_PERMIT) == CEDAR_OK && add_static(&before, "q", CEDAR_PERMIT) == CEDAR_OK);
    CHECK(add_template(&before, "t", CEDAR_PRINCIPAL_SLOT) == CEDAR_OK && add_static(&before, "r", CEDAR_PERMIT) == CEDAR_OK);
    CHECK(add_template(&before, "u", CEDAR_PRINCIPAL_SLOT) == CEDAR_OK);
    CHECK(link_id(&before, "t", "l", U("a"), "", "") == CEDAR_OK && link_id(&before, "u", "k", U("a"), "", "") == CEDAR_OK);
    CHECK(link_id(&before, "t", "m", U("b"), "", "") == CEDAR_OK && link_id(&before, "u", "n", U("a"), "", "") == CEDAR_OK);
    CHECK(cedar_policies_diff(&before, &after, &difference) == CEDAR_OK && differ(&difference, "pqtrulkmn", "", "", ""));
    CHECK(cedar_policies_diff(&after, &before, &difference) == CEDAR_OK && differ(&difference, "", "pqtrulkmn", "", ""));
    CHECK(cedar_policies_copy(&before, &after) == CEDAR_OK);
    CHECK(cedar_policies_diff(&before, &after, &difference) == CEDAR_OK && differ(&difference, "", "", "", ""));
    /* q gets another effect, r becomes a link, k another template, m other bindings, and u another body */
    CHECK(cedar_policies_remove_static(&after, TEXT("q")) == CEDAR_OK && add_static(&after, "q", CEDAR_FORBID) == CEDAR_OK);
    CHECK(cedar_policies_remove_static(&after, TEXT("r")) == CEDAR_OK && unlink_id(&after, "k") == CEDAR_OK);
    CHECK(link_id(&after, "t", "r", U("a"), "", "") == CEDAR_OK && link_id(&after, "t", "k", U("a"), "", "") == CEDAR_OK);
    CHECK(unlink_id(&after, "m") == CEDAR_OK && link_id(&after, "t", "m", U("c"), "", "") == CEDAR_OK);
    CHECK(unlink_id(&after, "n") == CEDAR_OK && remove_template(&after, "u") == CEDAR_OK);
    CHECK(cedar_policies_add_template(&after, TEXT("u"), CEDAR_FORBID, CEDAR_PRINCIPAL_SLOT) == CEDAR_OK);
    CHECK(link_id(&after, "u", "n", U("a"), "", "") == CEDAR_OK && add_static(&after, "z", CEDAR_PERMIT) == CEDAR_OK);
    CHECK(cedar_policies_remove_static(&after, TEXT("p")) == CEDAR_OK);
    CHECK(cedar_policies_diff(&before, &after, &difference) == CEDAR_OK && differ(&difference, "p", "z", "qrukm", "n"));
    CHECK(cedar_policies_diff(&after, &before, &difference) == CEDAR_OK && differ(&difference, "z", "p", "qurkm", "n"));
    CHECK(cedar_policies_diff(&before, &before, &difference) == CEDAR_BAD_ARGUMENT && !difference.changed.len);
    CHECK(cedar_policies_diff(&before, &closed, &difference) == CEDAR_CLOSED && !difference.removed.bytes);
    CHECK(cedar_policies_diff((cedar_policies *)null, &after, &difference) == CEDAR_CLOSED);
    cedar_status status = CEDAR_NO_MEMORY;
    long n = 0;
    for (; status == CEDAR_NO_MEMORY && n < 500; n++) {
        allocations_left = n;
        status = cedar_policies_diff(&before, &after, &difference);
        allocations_left = -1;
        CHECK(status == CEDAR_OK || (!difference.removed.bytes && !difference.added.bytes && !difference.changed.bytes));
        CHECK(status == CEDAR_OK || !difference.relinked.bytes);
    }
    CHECK(status == CEDAR_OK && n > 20 && differ(&difference, "p", "z", "qrukm", "n"));
    cedar_policies_difference_free(&difference);
    cedar_policies_free(&before);
    cedar_policies_free(&after);
}

/* Builds a store by a list, and reads its result, while one allocation of the headers fails. Returns the status. */
static cedar_status build_and_read(cedar_store *s, cedar_policies *p, cedar_list *list, cedar_texts *texts, long n) {
    char id[16];
    cedar_status status = CEDAR_OK;
    allocations_left = n;
    for (int k = 0; k < 20; k++) {
        snprintf(id, sizeof id, "%d", k);
        cedar_list_parent(list, cedar_list_uid(list, "A", id), cedar_list_text(list, U("root")));
    }
    status = cedar_store_build_list(s, list, CEDAR_COMPUTE);
    if (!status) status = cedar_store_ancestor_texts(s, U("7"), texts);
    if (!status) status = cedar_policies_link_text(p, "t", "l", U("a"), NULL, NULL);
    allocations_left = -1;
    return status;
}

static void failed_allocations_are_reported(void) {
    cedar_status status = CEDAR_NO_MEMORY;
    long n = 0;
    for (; status == CEDAR_NO_MEMORY && n < 100; n++) {
        cedar_store s = CEDAR_EMPTY;
        cedar_policies p = CEDAR_EMPTY;
        cedar_list list = CEDAR_EMPTY;
        cedar_texts texts = CEDAR_EMPTY;
        CHECK(new_store(&s) == CEDAR_OK && build(&s, "q", CEDAR_COMPUTE) == CEDAR_OK);
        CHECK(new_set(&p) == CEDAR_OK && add_template(&p, "t", CEDAR_PRINCIPAL_SLOT) == CEDAR_OK);
        status = build_and_read(&s, &p, &list, &texts, n);
        CHECK(status == CEDAR_OK || status == CEDAR_NO_MEMORY);
        CHECK(has(&s, U("q")) == 1 ? status == CEDAR_NO_MEMORY : cedar_store_len(&s) == 20);
        CHECK((kind_of(&p, "l") == CEDAR_LINK) == (status == CEDAR_OK));
        cedar_list_free(&list);
        cedar_texts_free(&texts);
        cedar_store_free(&s);
        cedar_policies_free(&p);
    }
    CHECK(status == CEDAR_OK && n > 12);
}

int main(void) {
    failed_allocations_are_reported();
    null_handles();
    null_lists();
    statuses();
    lists_build_stores();
    lists_keep_their_first_error();
    texts_are_iterated();
    texts_of_queries();
    differences_of_stores();
    differences_of_sets();
    return report_counts();
}
