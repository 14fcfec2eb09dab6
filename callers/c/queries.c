/* Tests of the questions of administrators: who is below a uid and why, which policies name a uid, and what differs
 * between two sets. Has examples, each status, and closed handles. Prints each failure, and ends with `N passed, M
 * failed`. */
#include "bodies.h"

/* Returns the last result of a store after a call, with a comma before each text, or the status. */
static const char *store_texts(cedar_store *s, cedar_status status) {
    static char status_text[16];
    snprintf(status_text, sizeof status_text, "%u", (unsigned)status);
    return status ? status_text : store_result(s);
}

/* Returns the last result of a set after a call in the same way. */
static const char *set_texts(cedar_policies *p, cedar_status status) {
    static char status_text[16];
    snprintf(status_text, sizeof status_text, "%u", (unsigned)status);
    return status ? status_text : set_result(p);
}

static const char *descendants(cedar_store *s, const char *uid) {
    return store_texts(s, cedar_store_descendants(s, TEXT(uid)));
}

static const char *descendants_of_type(cedar_store *s, const char *uid, const char *type) {
    return store_texts(s, cedar_store_descendants_of_type(s, TEXT(uid), TEXT(type)));
}

/* Returns the uids of a path, `none` if there is none, or the status. */
static const char *path(cedar_store *s, const char *from, const char *to) {
    bool has = false;
    cedar_status status = cedar_store_path(s, TEXT(from), TEXT(to), &has);
    if (status) return has ? "written" : store_texts(s, status);
    return has ? store_result(s) : IS(store_result(s), "") ? "none" : "a result without a path";
}

static unsigned reaches(cedar_store *s, const char *from, const char *to) {
    bool result = false;
    cedar_status status = cedar_store_reaches(s, TEXT(from), TEXT(to), &result);
    return bool_or_status(status, result);
}

/* ---- stores */

static void computed_stores(void) {
    cedar_store s = {0};
    CHECK(new_store(&s) == CEDAR_OK && build(&s, "a b;b c;c de;x bd;y", CEDAR_COMPUTE) == CEDAR_OK);
    CHECK(IS(descendants(&s, U("d")), "," U("a") "," U("b") "," U("c") "," U("x")));
    CHECK(IS(descendants(&s, U("b")), "," U("a") "," U("x")) && IS(descendants(&s, U("a")), ""));
    CHECK(IS(descendants(&s, U("q")), "") && IS(descendants(&s, U("y")), ""));
    CHECK(IS(path(&s, U("a"), U("d")), "," U("a") "," U("b") "," U("c") "," U("d")));
    CHECK(IS(path(&s, U("x"), U("d")), "," U("x") "," U("d")) && IS(path(&s, U("d"), U("a")), "none"));
    CHECK(IS(path(&s, U("a"), U("a")), "none") && IS(path(&s, U("q"), U("a")), "none") &&
          IS(path(&s, U("a"), U("q")), "none"));
    CHECK(reaches(&s, U("a"), U("e")) == 1 && reaches(&s, U("e"), U("a")) == 0 && reaches(&s, U("a"), U("a")) == 0 &&
          reaches(&s, U("q"), U("a")) == 0 && reaches(&s, U("y"), U("d")) == 0);
    /* an edit changes the answers */
    CHECK(remove_uids(&s, "c", CEDAR_COMPUTE) == CEDAR_OK && IS(descendants(&s, U("d")), "," U("x")));
    CHECK(upsert(&s, "y a", CEDAR_COMPUTE) == CEDAR_OK);
    CHECK(IS(path(&s, U("y"), U("b")), "," U("y") "," U("a") "," U("b")));
    CHECK(reaches(&s, U("a"), U("d")) == 0 && reaches(&s, U("y"), U("b")) == 1);
    cedar_store_free(&s);
}

/* Parents count, and indirect ancestors do not. A uid on a cycle is its own descendant. */
static void other_stores(void) {
    cedar_store s = {0};
    content c = with_entities("a b;b");
    c.indirect[c.indirect_len++] = (cedar_edge){1, push_name(&c.l, 'z')};
    CHECK(new_store(&s) == CEDAR_OK && cedar_store_build_with(&s, CONTENT(c), CEDAR_ASSUME) == CEDAR_OK);
    CHECK(is_descendant(&s, U("b"), U("z")) == 1 && reaches(&s, U("b"), U("z")) == 0);
    CHECK(IS(descendants(&s, U("z")), "") && IS(path(&s, U("b"), U("z")), "none"));
    CHECK(IS(descendants(&s, U("b")), "," U("a")) && reaches(&s, U("a"), U("b")) == 1);
    CHECK(build(&s, "a b;b c", CEDAR_ASSUME) == CEDAR_OK && is_descendant(&s, U("a"), U("c")) == 0);
    CHECK(reaches(&s, U("a"), U("c")) == 1 && IS(descendants(&s, U("c")), "," U("a") "," U("b")));
    CHECK(build(&s, "a b;b c;c a;d c", CEDAR_ASSUME) == CEDAR_OK && reaches(&s, U("a"), U("a")) == 1);
    CHECK(IS(descendants(&s, U("a")), "," U("a") "," U("b") "," U("c") "," U("d")));
    CHECK(IS(path(&s, U("a"), U("a")), "," U("a") "," U("b") "," U("c") "," U("a")));
    CHECK(IS(descendants(&s, U("d")), "") && reaches(&s, U("d"), U("d")) == 0);
    cedar_store_free(&s);
}

static void descendants_of_types(void) {
    cedar_store s = {0};
    list l = uids("");
    const char *const names[] = {"B::C::\"c\"", "B::\"b\"", U("b"), U("a"), "A::\"it\\'s\"", U("z")};
    for (size_t k = 0; k < 6; k++) push_text(&l, names[k]);
    l.count = 5;
    for (size_t k = 0; k < 5; k++) l.edges[l.edges_len++] = (cedar_edge){k, 5};
    CHECK(new_store(&s) == CEDAR_OK && cedar_store_build(&s, ENTITIES(l), CEDAR_COMPUTE) == CEDAR_OK);
    CHECK(IS(descendants_of_type(&s, U("z"), "A"), "," U("a") "," U("b") ",A::\"it\\'s\""));
    CHECK(IS(descendants_of_type(&s, U("z"), "B::C"), ",B::C::\"c\"") &&
          IS(descendants_of_type(&s, U("z"), "B"), ",B::\"b\""));
    CHECK(IS(descendants_of_type(&s, U("z"), "C"), "") && IS(descendants_of_type(&s, U("a"), "A"), ""));
    CHECK(IS(descendants_of_type(&s, U("q"), "A"), "") && parents(&s, U("a")) == CEDAR_OK);
    CHECK(IS(descendants_of_type(&s, "z", "A"), "4") && IS(descendants_of_type(&s, U("z"), ""), "27"));
    CHECK(IS(descendants_of_type(&s, U("z"), "A::"), "27") && IS(descendants_of_type(&s, U("z"), " A"), "27"));
    CHECK(IS(descendants_of_type(&s, U("z"), "if"), "27") && IS(descendants_of_type(&s, U("z"), "\xff"), "27"));
    CHECK(IS(store_result(&s), "," U("z")));
    CHECK(cedar_store_descendants_of_type(&s, TEXT(U("z")), NULL, 0) == CEDAR_NOT_A_NAME);
    CHECK(cedar_store_descendants_of_type(&s, TEXT(U("z")), NULL, 1) == CEDAR_BAD_ARGUMENT);
    cedar_store_free(&s);
}

static void misuse_of_stores(void) {
    cedar_store s = {0};
    bool result = true;
    CHECK(IS(descendants(&s, U("a")), "2") && IS(descendants_of_type(&s, U("a"), "A"), "2"));
    CHECK(IS(path(&s, U("a"), U("b")), "2") && reaches(&s, U("a"), U("b")) == 102 && !s.is_open);
    CHECK(cedar_store_reaches(&s, TEXT(U("a")), TEXT(U("b")), &result) == CEDAR_CLOSED && result);
    CHECK(new_store(&s) == CEDAR_OK && build(&s, "a b;m m", CEDAR_COMPUTE) == CEDAR_CYCLE);
    CHECK(build(&s, "a b", CEDAR_COMPUTE) == CEDAR_OK && IS(descendants(&s, U("b")), "," U("a")));
    CHECK(IS(descendants(&s, "a"), "4") && IS(descendants(&s, ""), "4") && IS(descendants(&s, "A::\"\xff\""), "4"));
    CHECK(IS(path(&s, "a", U("b")), "4") && IS(path(&s, U("a"), "b"), "4") && IS(path(&s, U("a"), "A::\"it's\""), "4"));
    CHECK(reaches(&s, "a", U("b")) == 104 && reaches(&s, U("a"), "") == 104 && reaches(&s, U("a"), "A::b") == 104);
    CHECK(cedar_store_path(&s, TEXT(U("a")), TEXT("b"), &result) == CEDAR_NOT_A_UID && result);
    /* an empty text may have a null pointer; an output may not */
    CHECK(cedar_store_descendants(&s, NULL, 0) == CEDAR_NOT_A_UID);
    CHECK(cedar_store_path(&s, NULL, 0, TEXT(U("b")), &result) == CEDAR_NOT_A_UID);
    CHECK(cedar_store_reaches(&s, TEXT(U("a")), NULL, 0, &result) == CEDAR_NOT_A_UID);
    CHECK(cedar_store_descendants(&s, NULL, 6) == CEDAR_BAD_ARGUMENT);
    CHECK(cedar_store_path(&s, TEXT(U("a")), TEXT(U("b")), NULL) == CEDAR_BAD_ARGUMENT);
    CHECK(cedar_store_reaches(&s, TEXT(U("a")), TEXT(U("b")), NULL) == CEDAR_BAD_ARGUMENT);
    CHECK(cedar_store_descendants(NULL, TEXT(U("a"))) == CEDAR_CLOSED);
    CHECK(cedar_store_path(NULL, TEXT(U("a")), TEXT(U("b")), &result) == CEDAR_CLOSED);
    /* after an error everything is as it was; the text of the last error stays after a success too */
    CHECK(IS(store_result(&s), "," U("a")) && IS(store_error(&s), "cycle at " U("m")) && cedar_store_len(&s) == 1);
    CHECK(reaches(&s, U("a"), U("b")) == 1 && IS(store_result(&s), "," U("a")));
    CHECK(IS(path(&s, U("b"), U("a")), "none") && IS(store_error(&s), "cycle at " U("m")));
    cedar_store_free(&s);
}

/* The two calls that read a result: the first returns the number of bytes or texts, the second copies. */
static void results_in_two_calls(void) {
    cedar_store s = {0};
    uint8_t text[16] = {7};
    cedar_span spans[2] = {{5, 6}, {7, 8}};
    CHECK(new_store(&s) == CEDAR_OK && build(&s, "a c;b c", CEDAR_COMPUTE) == CEDAR_OK);
    CHECK(cedar_store_descendants(&s, TEXT(U("c"))) == CEDAR_OK);
    CHECK(cedar_store_result(&s, 0, NULL, 0) == 12 && cedar_store_result_spans(&s, 0, NULL, 0) == 2);
    CHECK(cedar_store_result(&s, 0, text, 0) == 12 && text[0] == 7 && cedar_store_result_spans(&s, 0, spans, 1) == 2);
    CHECK(spans[0].start == 0 && spans[0].end == 6 && spans[1].start == 7);
    CHECK(cedar_store_result(&s, 0, text, sizeof text) == 12 && !memcmp(text, U("a") U("b"), 12));
    CHECK(cedar_store_result_spans(&s, 0, spans, 2) == 2 && spans[1].start == 6 && spans[1].end == 12);
    cedar_store_free(&s);
}

/* ---- policy sets */

static const char *naming(cedar_policies *p, const char *uid) {
    return set_texts(p, cedar_policies_naming(p, TEXT(uid)));
}

static const char *templates_naming(cedar_policies *p, const char *uid) {
    return set_texts(p, cedar_policies_templates_naming(p, TEXT(uid)));
}

/* Creates policies that name uids in constraints, lists, clauses and bindings, in this order. */
static void fill(cedar_policies *p) {
    policy_body full = full_body(), clause = empty_body(), template_body = empty_body();
    push_nodes(&clause.c, "$0 @b = @a $0 < &");
    template_body.body.principal = (cedar_scope){CEDAR_SCOPE_EQ_SLOT, {0, 0}, {0, 0}};
    template_body.body.resource = push_scope(&template_body, CEDAR_SCOPE_IN, U("r"), "");
    CHECK(new_set(p) == CEDAR_OK && insert_static_body(p, "z", &full) == CEDAR_OK);
    CHECK(insert_template_body(p, "t", &template_body) == CEDAR_OK && add_static(p, "s", 0) == CEDAR_OK);
    CHECK(insert_static_body(p, "c", &clause) == CEDAR_OK && add_template(p, "u", 1) == CEDAR_OK);
    CHECK(link_id(p, "t", "l", U("a"), "", "") == CEDAR_OK && link_id(p, "t", "k", U("b"), "", "") == CEDAR_OK);
}

static void naming_policies(void) {
    cedar_policies p = {0};
    policy_body slotless = empty_body();
    slotless.body.resource = push_scope(&slotless, CEDAR_SCOPE_IN, U("r"), "");
    fill(&p);
    CHECK(IS(naming(&p, U("group")), ",z") && IS(naming(&p, U("file")), ",z"));
    CHECK(IS(naming(&p, "Action::\"put\""), ",z") && IS(naming(&p, "Action::\"other\""), ""));
    CHECK(IS(naming(&p, U("a")), ",c,l") && IS(naming(&p, U("b")), ",z,c,k") && IS(naming(&p, U("r")), ",l,k"));
    CHECK(IS(templates_naming(&p, U("r")), ",t") && IS(templates_naming(&p, U("a")), ""));
    CHECK(IS(templates_naming(&p, U("b")), "") && IS(templates_naming(&p, U("group")), ""));
    CHECK(unlink_id(&p, "l") == CEDAR_OK && IS(naming(&p, U("a")), ",c") && IS(naming(&p, U("r")), ",k"));
    CHECK(unlink_id(&p, "k") == CEDAR_OK && IS(naming(&p, U("r")), "") && IS(templates_naming(&p, U("r")), ",t"));
    CHECK(insert_template_body(&p, "slotless", &slotless) == CEDAR_OK && IS(templates_naming(&p, U("r")), ",t"));
    CHECK(remove_template(&p, "t") == CEDAR_OK && IS(templates_naming(&p, U("r")), ""));
    cedar_policies_free(&p);
}

static void misuse_of_sets(void) {
    cedar_policies p = {0};
    CHECK(IS(naming(&p, U("a")), "2") && IS(templates_naming(&p, U("a")), "2") && !p.is_open);
    fill(&p);
    CHECK(unlink_id(&p, "x") == CEDAR_NO_LINK && IS(naming(&p, U("r")), ",l,k"));
    CHECK(IS(naming(&p, "a"), "4") && IS(naming(&p, ""), "4") && IS(naming(&p, "A::\"\xff\""), "4"));
    CHECK(IS(templates_naming(&p, "a"), "4") && IS(templates_naming(&p, "\xff"), "4"));
    CHECK(cedar_policies_naming(&p, NULL, 0) == CEDAR_NOT_A_UID);
    CHECK(cedar_policies_templates_naming(&p, NULL, 0) == CEDAR_NOT_A_UID);
    CHECK(cedar_policies_naming(&p, NULL, 6) == CEDAR_BAD_ARGUMENT);
    CHECK(cedar_policies_naming(NULL, TEXT(U("a"))) == CEDAR_CLOSED);
    CHECK(cedar_policies_templates_naming(NULL, TEXT(U("a"))) == CEDAR_CLOSED);
    CHECK(IS(set_result(&p), ",l,k") && IS(set_error(&p), "no link x") && IS(naming(&p, U("q")), ""));
    CHECK(IS(set_error(&p), "no link x") && kind_of(&p, "l") == 2);
    cedar_policies_free(&p);
}

/* Returns whether a comparison finds that the body with the id `p` changed, and that nothing else differs. */
static bool is_changed(cedar_policies *before, cedar_policies *after) {
    cedar_policies_difference difference = CEDAR_EMPTY;
    CHECK(cedar_policies_diff(before, after, &difference) == CEDAR_OK);
    size_t changed = difference.changed.len;
    CHECK(!difference.removed.len && !difference.added.len && !difference.relinked.len && changed <= 1);
    CHECK(!changed || IS(cedar_texts_next(&difference.changed, NULL), "p"));
    cedar_policies_difference_free(&difference);
    return changed;
}

/* A policy is changed if and only if a part of its body is: each part is changed in turn. */
static void differences_of_bodies(void) {
    static const char *const clauses[] = {"$0 @a =", "$0 @b <", "$1 @b =", "$0 @b = !"};
    for (int part = 0; part < 13; part++) {
        cedar_policies before = {0}, after = {0};
        policy_body one = full_body(), other = empty_body();
        other.body.effect = part == 1 ? CEDAR_PERMIT : CEDAR_FORBID;
        other.body.principal = push_scope(&other, part == 2 ? CEDAR_SCOPE_EQ : one.body.principal.kind, U("group"),
                                          part == 2 ? "" : "A");
        other.body.action = push_scope(&other, one.body.action.kind, "", "");
        other.body.resource = push_scope(&other, part == 12 ? CEDAR_SCOPE_IN : CEDAR_SCOPE_EQ, part == 3 ? U("other") : U("file"), "");
        push_text(&other.c.l, "Action::\"get\"");
        push_text(&other.c.l, part == 4 ? "Action::\"set\"" : "Action::\"put\"");
        push_annotation(&other, "why", part == 5 ? "so" : "thus");
        if (part != 6) push_annotation(&other, "if", "");
        if (part != 7) push_nodes(&other.c, part >= 8 && part < 12 ? clauses[part - 8] : "$0 @b =");
        CHECK(new_set(&before) == CEDAR_OK && new_set(&after) == CEDAR_OK);
        CHECK(add_static(&before, "s", CEDAR_PERMIT) == CEDAR_OK && add_static(&after, "s", CEDAR_PERMIT) == CEDAR_OK);
        CHECK(insert_static_body(&before, "p", &one) == CEDAR_OK && insert_static_body(&after, "p", &other) == CEDAR_OK);
        CHECK(is_changed(&before, &after) == (part != 0) && is_changed(&after, &before) == (part != 0));
        /* a template without slots is not a static policy with its body */
        if (part == 0) CHECK(cedar_policies_remove_static(&after, TEXT("p")) == CEDAR_OK);
        if (part == 0) CHECK(insert_template_body(&after, "p", &other) == CEDAR_OK && is_changed(&before, &after));
        cedar_policies_free(&before);
        cedar_policies_free(&after);
    }
}

int main(void) {
    computed_stores();
    other_stores();
    descendants_of_types();
    misuse_of_stores();
    results_in_two_calls();
    naming_policies();
    misuse_of_sets();
    differences_of_bodies();
    return report_counts();
}
