/* Tests of the validation of policy sets, and of the unknown entities of policies: examples, and each status of both
 * calls. Prints each failure, and ends with `N passed, M failed`. */
#include "bodies.h"

/* ---- faults of a set */

/* Returns a body with the clause of these words. */
static policy_body body_with_clause(const char *words) {
    policy_body g = empty_body();
    push_nodes(&g.c, words);
    return g;
}

/* Returns a body whose action must be this uid (kind 1), or in this uid or Action::"get" (kind 3). */
static policy_body body_with_action(cedar_scope_kind kind, const char *uid) {
    policy_body g = empty_body();
    g.body.action = push_scope(&g, kind, uid, "");
    push_text(&g.c.l, "Action::\"get\"");
    push_text(&g.c.l, uid);
    return g;
}

/* Returns the result of a validation: `ok`, or the status and the text of the error. */
static const char *validate(cedar_policies *p) {
    static char out[CAPACITY];
    cedar_status status = cedar_policies_validate(p);
    if (status == CEDAR_OK) return "ok";
    snprintf(out, sizeof out, "%u %s", (unsigned)status, set_error(p));
    return out;
}

static void valid_sets_have_no_fault(void) {
    cedar_policies p = {0};
    policy_body full = full_body(), qualified = body_with_action(1, "A::Action::\"put\"");
    policy_body calls = body_with_clause("'10.0.0.1 ip(1 '1.5 decimal(1 = 'x datetime(1 'y duration(1 = &");
    CHECK(cedar_policies_validate(&p) == CEDAR_CLOSED && !p.is_open);
    CHECK(new_set(&p) == CEDAR_OK && IS(validate(&p), "ok"));
    CHECK(add_static(&p, "a", 0) == CEDAR_OK && add_template(&p, "t", 7) == CEDAR_OK && IS(validate(&p), "ok"));
    CHECK(link_id(&p, "t", "l", U("a"), "Action::\"get\"", U("b")) == CEDAR_OK && IS(validate(&p), "ok"));
    CHECK(insert_static_body(&p, "w", &full) == CEDAR_OK && insert_static_body(&p, "n", &qualified) == CEDAR_OK);
    CHECK(insert_template_body(&p, "c", &calls) == CEDAR_OK && add_template(&p, "none", 0) == CEDAR_OK);
    CHECK(IS(validate(&p), "ok") && IS(set_result(&p), "") && IS(set_error(&p), ""));
    cedar_policies_free(&p);
}

static void each_fault_of_a_body_is_reported(void) {
    cedar_policies p = {0};
    policy_body slot = body_with_clause("?0 $0 <"), call = body_with_clause("'x A::ip(1");
    policy_body single = body_with_action(1, U("a")), in_list = body_with_action(3, U("a"));
    CHECK(new_set(&p) == CEDAR_OK && insert_template_body(&p, "t", &slot) == CEDAR_OK);
    CHECK(IS(validate(&p), "29 slot in the clause of t") && remove_template(&p, "t") == CEDAR_OK);
    CHECK(insert_static_body(&p, "s", &slot) == CEDAR_NOT_STATIC && IS(validate(&p), "ok"));
    CHECK(insert_static_body(&p, "s", &single) == CEDAR_OK && IS(validate(&p), "30 uid of no action in s"));
    CHECK(remove_static(&p, "s") == CEDAR_OK && insert_template_body(&p, "", &in_list) == CEDAR_OK);
    CHECK(IS(validate(&p), "30 uid of no action in ") && remove_template(&p, "") == CEDAR_OK);
    CHECK(insert_static_body(&p, "a b", &call) == CEDAR_OK && IS(validate(&p), "31 unknown function in a b"));
    CHECK(remove_static(&p, "a b") == CEDAR_OK && IS(validate(&p), "ok"));
    cedar_policies_free(&p);
}

/* Checks that the first fault of the first body with a fault is reported, in the order slot, action, function. */
static void the_first_fault_is_reported(void) {
    cedar_policies p = {0};
    policy_body all_faults = body_with_action(1, U("a")), two_faults = body_with_action(1, U("a")),
                call = body_with_clause("'x f(1");
    push_nodes(&all_faults.c, "'x f(1 ?2 =");
    push_nodes(&two_faults.c, "'x f(1");
    CHECK(new_set(&p) == CEDAR_OK && add_static(&p, "a", 0) == CEDAR_OK &&
          insert_static_body(&p, "two", &two_faults) == CEDAR_OK);
    CHECK(insert_template_body(&p, "all", &all_faults) == CEDAR_OK &&
          insert_static_body(&p, "call", &call) == CEDAR_OK);
    CHECK(IS(validate(&p), "30 uid of no action in two") && remove_static(&p, "two") == CEDAR_OK);
    CHECK(IS(validate(&p), "29 slot in the clause of all") && remove_template(&p, "all") == CEDAR_OK);
    CHECK(IS(validate(&p), "31 unknown function in call"));
    cedar_policies_free(&p);
}

/* Checks that links of templates without slots are reported before the faults of bodies. */
static void links_are_checked_before_bodies(void) {
    cedar_policies p = {0};
    policy_body call = body_with_clause("'x f(1");
    CHECK(new_set(&p) == CEDAR_OK && insert_template_body(&p, "call", &call) == CEDAR_OK);
    CHECK(add_template(&p, "t", 0) == CEDAR_OK && add_template(&p, "u", 0) == CEDAR_OK);
    CHECK(IS(validate(&p), "31 unknown function in call") && link_id(&p, "u", "second u", "", "", "") == CEDAR_OK);
    CHECK(link_id(&p, "t", "l", "", "", "") == CEDAR_OK && IS(validate(&p), "32 link without slots second u"));
    CHECK(unlink_id(&p, "second u") == CEDAR_OK && IS(validate(&p), "32 link without slots l"));
    CHECK(unlink_id(&p, "l") == CEDAR_OK && IS(validate(&p), "31 unknown function in call"));
    CHECK(remove_template(&p, "call") == CEDAR_OK && IS(validate(&p), "ok"));
    CHECK(IS(set_error(&p), "unknown function in call"));
    cedar_policies_free(&p);
}

/* Checks that a validation leaves the set, its last result and its nodes unchanged, and without a fault also the
 * text of the last error. */
static void validation_changes_nothing(void) {
    cedar_policies p = {0}, q = {0};
    policy_body full = full_body(), slot = body_with_clause("?0 $0 <");
    CHECK(new_set(&p) == CEDAR_OK && insert_static_body(&p, "w", &full) == CEDAR_OK &&
          unlink_id(&p, "x") == CEDAR_NO_LINK);
    CHECK(IS(clause_of(&p, "w"), "$0 @b =") && IS(validate(&p), "ok") && IS(set_error(&p), "no link x"));
    CHECK(IS(set_expr(&p), "$0 @b =") && insert_template_body(&p, "t", &slot) == CEDAR_OK);
    CHECK(cedar_policies_copy(&p, &q) == CEDAR_OK && IS(validate(&p), "29 slot in the clause of t"));
    CHECK(sets_equal(&p, &q) == 1 && IS(set_expr(&p), "$0 @b =") && IS(validate(&q), "29 slot in the clause of t"));
    cedar_policies_free(&p);
    cedar_policies_free(&q);
}

/* Checks that the text of each fault names the part after its words. */
static void names_in_fault_texts(void) {
    static const char *const TEXTS[] = {"slot in the clause of a b", "uid of no action in a b",
                                        "unknown function in a b", "link without slots a b"};
    for (uint32_t k = 0; k < 4; k++) {
        cedar_span part = {0, 0};
        size_t len = strlen(TEXTS[k]);
        CHECK(cedar_error_part(CEDAR_SLOT_IN_CLAUSE + k, TEXT(TEXTS[k]), 0, &part));
        CHECK(part.start == len - 3 && part.end == len);
        CHECK(!cedar_error_part(CEDAR_SLOT_IN_CLAUSE + k, TEXT(TEXTS[k]), 1, &part) && part.end == len);
    }
}

/* ---- unknown entities */

/* Returns the unknown entities of a policy, with a comma before each, or the status. */
static const char *unknown_entities_of(cedar_policies *p, const char *id) {
    static char status_text[16];
    cedar_status status = cedar_policies_unknown_entities(p, TEXT(id));
    snprintf(status_text, sizeof status_text, "%u", (unsigned)status);
    return status ? status_text : set_result(p);
}

#define X(name) "'A ~" U(name) ":1"

static void unknown_entities(void) {
    cedar_policies p = {0};
    policy_body no_unknown = body_with_clause("$0 @a ="), one_unknown = body_with_clause(X("a"));
    policy_body two_unknowns = body_with_clause(X("b") " " X("a") " = " X("b") " ! & ");
    policy_body other_unknowns = body_with_clause("'A ~x:1 ~" U("a") ":0 = 'B ~A::B::\"z\":1 &");
    CHECK(IS(unknown_entities_of(&p, "a"), "2") && new_set(&p) == CEDAR_OK && IS(unknown_entities_of(&p, "a"), "26"));
    CHECK(add_static(&p, "a", 0) == CEDAR_OK && insert_static_body(&p, "none", &no_unknown) == CEDAR_OK);
    CHECK(insert_static_body(&p, "one", &one_unknown) == CEDAR_OK &&
          insert_template_body(&p, "twice", &two_unknowns) == CEDAR_OK);
    CHECK(insert_static_body(&p, "others", &other_unknowns) == CEDAR_OK &&
          link_id(&p, "twice", "l", "", "", "") == CEDAR_OK);
    CHECK(IS(unknown_entities_of(&p, "a"), "") && IS(unknown_entities_of(&p, "none"), "") &&
          IS(unknown_entities_of(&p, "one"), "," U("a")));
    CHECK(IS(unknown_entities_of(&p, "l"), "," U("a") "," U("b")) && IS(unknown_entities_of(&p, "twice"), "26"));
    CHECK(IS(set_result(&p), "," U("a") "," U("b")) && IS(unknown_entities_of(&p, "\xff"), "5"));
    CHECK(IS(set_result(&p), "," U("a") "," U("b")) && IS(unknown_entities_of(&p, "others"), ",A::B::\"z\""));
    CHECK(IS(set_error(&p), "") && kind_of(&p, "l") == 2);
    cedar_policies_free(&p);
}

int main(void) {
    valid_sets_have_no_fault();
    each_fault_of_a_body_is_reported();
    the_first_fault_is_reported();
    links_are_checked_before_bodies();
    validation_changes_nothing();
    names_in_fault_texts();
    unknown_entities();
    return report_counts();
}
