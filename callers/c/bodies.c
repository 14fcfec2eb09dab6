/* Tests of policies and templates with annotations, constraints and clauses: examples, each kind of constraint, and
 * each status of the calls. Prints each failure, and ends with `N passed, M failed`. */
#include "bodies.h"

/* ---- policies that are added */

#define FULL_TEXT                                                                                                      \
    "@if(\"\")\n@why(\"thus\")\nforbid(\n  principal is A in A::\"group\",\n"                                          \
    "  action in [Action::\"get\",Action::\"put\"],\n  resource == A::\"file\"\n)"                                     \
    " when {\n  principal == A::\"b\"\n};"

static void bodies_with_all_parts(void) {
    cedar_policies p = {0};
    policy_body g = full_body(), empty = empty_body();
    CHECK(insert_static_body(&p, "s", &g) == CEDAR_CLOSED && insert_template_body(&p, "s", &g) == CEDAR_CLOSED &&
          !p.is_open);
    CHECK(new_set(&p) == CEDAR_OK && insert_static_body(&p, "s", &g) == CEDAR_OK &&
          insert_template_body(&p, "t", &g) == CEDAR_OK);
    CHECK(kind_of(&p, "s") == 1 && kind_of(&p, "t") == 3 && effect_of(&p, "s") == 1 && slots_of(&p, "t") == 0);
    CHECK(IS(body_text(&p, "s"), FULL_TEXT) && IS(body_text(&p, "t"), FULL_TEXT));
    CHECK(has_annotation(&p, "s", "why") == 1 && IS(set_result(&p), ",thus"));
    CHECK(has_annotation(&p, "t", "if") == 1 && IS(set_result(&p), ","));
    CHECK(has_annotation(&p, "t", "else") == 0 && IS(set_result(&p), ""));
    CHECK(cedar_policies_annotations(&p, TEXT("s")) == CEDAR_OK && IS(set_result(&p), ",if,,why,thus"));
    CHECK(insert_static_body(&p, "", &empty) == CEDAR_OK && effect_of(&p, "") == 0);
    CHECK(IS(body_text(&p, ""), "permit(\n  principal,\n  action,\n  resource\n);"));
    cedar_policies_free(&p);
}

/* Checks that adding a policy keeps the last result of the handle, and that the arguments may be overwritten
 * afterwards. */
static void adding_keeps_the_last_result(void) {
    cedar_policies p = {0};
    policy_body g = full_body();
    CHECK(new_set(&p) == CEDAR_OK && add_static(&p, "a", 0) == CEDAR_OK && cedar_policies_ids(&p, 0) == CEDAR_OK);
    CHECK(insert_static_body(&p, "s", &g) == CEDAR_OK && insert_template_body(&p, "t", &g) == CEDAR_OK);
    memset(&g, 0xff, sizeof g);
    CHECK(IS(set_result(&p), ",a") && IS(set_error(&p), "") && IS(body_text(&p, "s"), FULL_TEXT));
    g = full_body();
    CHECK(insert_static_body(&p, "a", &g) == CEDAR_OCCUPIED && IS(set_error(&p), "occupied a"));
    CHECK(insert_static_body(&p, "t", &g) == CEDAR_OCCUPIED && IS(set_error(&p), "occupied t"));
    CHECK(insert_template_body(&p, "s", &g) == CEDAR_OCCUPIED && IS(set_error(&p), "occupied s"));
    CHECK(effect_of(&p, "a") == 0 && kind_of(&p, "s") == 1 && kind_of(&p, "t") == 3);
    CHECK(remove_static(&p, "s") == CEDAR_OK && insert_template_body(&p, "s", &g) == CEDAR_OK && kind_of(&p, "s") == 3);
    cedar_policies_free(&p);
}

/* Checks that a policy is the same if it is added by the call without a body and by the call with one. */
static void calls_with_and_without_a_body_agree(void) {
    cedar_policies p = {0}, q = {0};
    policy_body g = empty_body();
    CHECK(new_set(&p) == CEDAR_OK && new_set(&q) == CEDAR_OK);
    CHECK(add_static(&p, "s", 0) == CEDAR_OK && insert_static_body(&q, "s", &g) == CEDAR_OK && sets_equal(&p, &q) == 1);
    g.body.effect = 1;
    g.body.principal.kind = g.body.action.kind = g.body.resource.kind = 2;
    CHECK(cedar_policies_add_template(&p, TEXT("t"), 1, 7) == CEDAR_OK &&
          insert_template_body(&q, "t", &g) == CEDAR_OK);
    CHECK(sets_equal(&p, &q) == 1);
    push_nodes(&g.c, "t");
    CHECK(cedar_policies_add_template(&p, TEXT("u"), 1, 7) == CEDAR_OK &&
          insert_template_body(&q, "u", &g) == CEDAR_OK);
    CHECK(sets_equal(&p, &q) == 0);
    cedar_policies_free(&p);
    cedar_policies_free(&q);
}

/* ---- constraints */

/* How `cedar_policies_scope` encodes each kind of constraint: of a principal, and of an action. */
static const char *const SCOPES[] = {"0", "1,A::\"a\"", "2", "3,A::\"a\"", "4", "5,B::C", "6,B::C,A::\"a\"", "7,B::C"};
static const char *const ACTION_SCOPES[] = {"0", "1,A::\"a\"", "2", "3,A::\"x\",A::\"y\"", "4"};

/* The text of each kind of constraint, after the name of the variable. */
static const char *const CONSTRAINT_TEXTS[] = {
    "", " == A::\"a\"", " == ?", " in A::\"a\"", " in ?", " is B::C", " is B::C in A::\"a\"", " is B::C in ?"};
static const char *const ACTION_TEXTS[] = {"", " == A::\"a\"", " == ?action", " in [A::\"x\",A::\"y\"]", " in ?action"};

/* Returns the text of a body with these constraints and nothing else. */
static const char *text_with_constraints(const char *principal, const char *action, const char *resource) {
    static char out[CAPACITY];
    bool principal_slot = *principal && principal[strlen(principal) - 1] == '?';
    bool resource_slot = *resource && resource[strlen(resource) - 1] == '?';
    snprintf(out, sizeof out, "permit(\n  principal%s%s,\n  action%s,\n  resource%s%s\n);", principal,
             principal_slot ? "principal" : "", action, resource, resource_slot ? "resource" : "");
    return out;
}

static void each_kind_of_constraint(void) {
    cedar_policies p = {0};
    CHECK(new_set(&p) == CEDAR_OK);
    for (uint32_t kind = 0; kind < 8; kind++) {
        char id[8];
        policy_body g = empty_body(), h = empty_body();
        bool has_slot = kind == 2 || kind == 4 || kind == 7;
        snprintf(id, sizeof id, "p%u", (unsigned)kind);
        g.body.principal = push_scope(&g, kind, U("a"), "B::C");
        CHECK(insert_template_body(&p, id, &g) == CEDAR_OK && slots_of(&p, id) == (has_slot ? 1u : 0u));
        CHECK(IS(body_text(&p, id), text_with_constraints(CONSTRAINT_TEXTS[kind], "", "")));
        CHECK(IS(scope_text(&p, id, 0), SCOPES[kind]) && IS(scope_text(&p, id, 1), "0") &&
              IS(scope_text(&p, id, 2), "0"));
        snprintf(id, sizeof id, "r%u", (unsigned)kind);
        h.body.resource = push_scope(&h, kind, U("a"), "B::C");
        CHECK(insert_template_body(&p, id, &h) == CEDAR_OK && slots_of(&p, id) == (has_slot ? 4u : 0u));
        CHECK(IS(body_text(&p, id), text_with_constraints("", "", CONSTRAINT_TEXTS[kind])));
        CHECK(IS(scope_text(&p, id, 0), "0") && IS(scope_text(&p, id, 1), "0") &&
              IS(scope_text(&p, id, 2), SCOPES[kind]));
        CHECK(insert_static_body(&p, "s", &g) == (has_slot ? CEDAR_NOT_STATIC : CEDAR_OK));
        CHECK(has_slot ? IS(set_error(&p), "not a static policy s") : remove_static(&p, "s") == CEDAR_OK);
    }
    for (uint32_t kind = 0; kind < 5; kind++) {
        char id[8];
        policy_body g = empty_body();
        bool has_slot = kind == 2 || kind == 4;
        snprintf(id, sizeof id, "a%u", (unsigned)kind);
        g.body.action = push_scope(&g, kind, U("a"), "");
        push_text(&g.c.l, U("x"));
        push_text(&g.c.l, U("y"));
        CHECK(insert_template_body(&p, id, &g) == CEDAR_OK && slots_of(&p, id) == (has_slot ? 2u : 0u));
        CHECK(IS(body_text(&p, id), text_with_constraints("", ACTION_TEXTS[kind], "")) &&
              IS(scope_text(&p, id, 1), ACTION_SCOPES[kind]));
        CHECK(insert_static_body(&p, "s", &g) == (has_slot ? CEDAR_NOT_STATIC : CEDAR_OK));
        CHECK(has_slot || remove_static(&p, "s") == CEDAR_OK);
    }
    policy_body g = empty_body();
    g.body.action.kind = 3;
    CHECK(insert_static_body(&p, "none", &g) == CEDAR_OK &&
          IS(body_text(&p, "none"), text_with_constraints("", " in []", "")));
    CHECK(IS(scope_text(&p, "none", 1), "3"));
    CHECK(link_id(&p, "p7", "l", U("b"), "", "") == CEDAR_OK && link_id(&p, "r4", "m", "", "", U("b")) == CEDAR_OK);
    CHECK(link_id(&p, "a4", "n", "", "Action::\"go\"", "") == CEDAR_OK &&
          IS(scope_text(&p, "n", 1), "3,Action::\"go\""));
    CHECK(IS(scope_text(&p, "l", 0), "6,B::C,A::\"b\"") && IS(scope_text(&p, "m", 2), "3,A::\"b\""));
    CHECK(IS(scope_text(&p, "l", 2), "0") && IS(scope_text(&p, "p7", 0), "7,B::C"));
    cedar_policies_free(&p);
}

/* ---- clauses */

/* A clause, and its text; or the status with which a static policy with it fails. */
static const char *const CLAUSES[][2] = {
    {"t", "true"},
    {"f !", "!false"},
    {"$0 $1 = $2 $3 = &", "(principal == action) && (resource == context)"},
    {"$0 @a <", "principal in A::\"a\""},
    {"$0 ^B::C", "principal is B::C"},
    {"1 'x {2", "[1, \"x\"]"},
    {"'10.0.0.1 ip(1", "ip(\"10.0.0.1\")"},
    {"?0 $0 =", "25"},
    {"$2 ?2 <", "25"},
    {"t t", "3"},
    {"!", "3"},
    {"'k 1 [1", "3"},
    {"9", "9"},
    {"'x 1f(1", "27"},
    {"$0 ^B::", "27"},
    {"'\xff", "5"},
};

static void each_kind_of_clause(void) {
    for (size_t k = 0; k < sizeof CLAUSES / sizeof *CLAUSES; k++) {
        const char *words = CLAUSES[k][0], *expected = CLAUSES[k][1];
        char expected_body[128], status_text[16];
        cedar_policies p = {0};
        policy_body g = empty_body();
        push_nodes(&g.c, words);
        CHECK(new_set(&p) == CEDAR_OK);
        cedar_status status = insert_static_body(&p, "s", &g);
        snprintf(status_text, sizeof status_text, "%u", (unsigned)status);
        snprintf(expected_body, sizeof expected_body,
                 "permit(\n  principal,\n  action,\n  resource\n) when {\n  %s\n};", expected);
        const char *actual = status ? status_text : body_text(&p, "s");
        if (!IS(actual, status ? expected : expected_body)) printf("%s gives %s\n", words, actual);
        CHECK(IS(actual, status ? expected : expected_body) && (status == 0) == (kind_of(&p, "s") == 1));
        CHECK(insert_template_body(&p, "t", &g) == (status == CEDAR_NOT_STATIC ? CEDAR_OK : status));
        CHECK(kind_of(&p, "t") == 0 || IS(clause_of(&p, "t"), words));
        cedar_policies_free(&p);
    }
}

static void too_many_levels(void) {
    static cedar_node nodes[CEDAR_LEVELS + 1];
    cedar_policies p = {0};
    policy_body g = empty_body();
    nodes[0] = (cedar_node){CEDAR_BOOL, 0, {0, 0}, 1};
    for (size_t k = 1; k <= CEDAR_LEVELS; k++) nodes[k] = (cedar_node){CEDAR_NOT, 0, {0, 0}, 0};
    CHECK(new_set(&p) == CEDAR_OK);
    CHECK(cedar_policies_add_static_with(&p, TEXT("s"), TEXT(""), &g.body, g.annotations, 0, g.c.l.uids, 0, nodes,
                                         CEDAR_LEVELS + 1) == CEDAR_TOO_DEEP);
    CHECK(cedar_policies_add_template_with(&p, TEXT("s"), TEXT(""), &g.body, g.annotations, 0, g.c.l.uids, 0, nodes,
                                           CEDAR_LEVELS + 1) == CEDAR_TOO_DEEP);
    CHECK(cedar_policies_add_static_with(&p, TEXT("s"), TEXT(""), &g.body, g.annotations, 0, g.c.l.uids, 0, nodes,
                                         CEDAR_LEVELS) == CEDAR_OK);
    cedar_policies_free(&p);
}

/* ---- invalid arguments */

/* Returns the status of both calls. Checks that they leave the set and the text of the last error unchanged. */
static cedar_status fails_with_both_calls(cedar_policies *p, const char *id, const policy_body *g) {
    cedar_status status = insert_static_body(p, id, g);
    CHECK(insert_template_body(p, id, g) == status && IS(set_error(p), "occupied a"));
    CHECK(cedar_policies_ids(p, 0) == CEDAR_OK && IS(set_result(p), ",a"));
    return status;
}

static void invalid_arguments(void) {
    cedar_policies p = {0};
    policy_body g = full_body();
    CHECK(new_set(&p) == CEDAR_OK && add_static(&p, "a", 0) == CEDAR_OK && add_static(&p, "a", 0) == CEDAR_OCCUPIED);
    CHECK(fails_with_both_calls(&p, "\xff", &g) == CEDAR_NOT_UTF8);
    g.body.effect = 2;
    CHECK(fails_with_both_calls(&p, "s", &g) == CEDAR_BAD_ARGUMENT);
    g = full_body(), g.body.principal.kind = 8;
    CHECK(fails_with_both_calls(&p, "s", &g) == CEDAR_BAD_ARGUMENT);
    g = full_body(), g.body.action.kind = 5;
    CHECK(fails_with_both_calls(&p, "s", &g) == CEDAR_BAD_ARGUMENT);
    g = full_body(), g.body.resource.uid.end = 2000;
    CHECK(fails_with_both_calls(&p, "s", &g) == CEDAR_BAD_ARGUMENT);
    g = full_body(), g.body.principal.type.start = 1000;
    CHECK(fails_with_both_calls(&p, "s", &g) == CEDAR_BAD_ARGUMENT);
    g = full_body(), g.annotations[1].value.end = 2000;
    CHECK(fails_with_both_calls(&p, "s", &g) == CEDAR_BAD_ARGUMENT);
    g = full_body(), g.annotations[1].key.end = 2000;
    CHECK(fails_with_both_calls(&p, "s", &g) == CEDAR_BAD_ARGUMENT);
    g = full_body(), g.c.l.uids[1].end = 2000;
    CHECK(fails_with_both_calls(&p, "s", &g) == CEDAR_BAD_ARGUMENT);
    g = full_body(), g.c.nodes[1].at.end = 2000;
    CHECK(fails_with_both_calls(&p, "s", &g) == CEDAR_BAD_ARGUMENT);
    g = full_body(), g.c.nodes_len = 2;
    CHECK(fails_with_both_calls(&p, "s", &g) == CEDAR_BAD_ARGUMENT);
    g = full_body(), g.body.principal.uid = push_part(&g, "A");
    CHECK(fails_with_both_calls(&p, "s", &g) == CEDAR_NOT_A_UID);
    g = full_body(), g.body.action = push_scope(&g, 1, "\xff", "");
    CHECK(fails_with_both_calls(&p, "s", &g) == CEDAR_NOT_A_UID);
    g = full_body(), g.c.l.uids[0] = push_part(&g, "A::\"");
    CHECK(fails_with_both_calls(&p, "s", &g) == CEDAR_NOT_A_UID);
    g = full_body(), g.c.nodes[1].at = push_part(&g, "b");
    CHECK(fails_with_both_calls(&p, "s", &g) == CEDAR_NOT_A_UID);
    g = full_body(), g.body.principal.type = push_part(&g, "A::");
    CHECK(fails_with_both_calls(&p, "s", &g) == CEDAR_NOT_A_NAME);
    g = full_body(), g.body.principal.type = push_part(&g, "\xff");
    CHECK(fails_with_both_calls(&p, "s", &g) == CEDAR_NOT_A_NAME);
    g = full_body(), g.annotations[0].key = push_part(&g, "not so");
    CHECK(fails_with_both_calls(&p, "s", &g) == CEDAR_NOT_A_NAME);
    g = full_body(), g.annotations[0].key = push_part(&g, "\xff");
    CHECK(fails_with_both_calls(&p, "s", &g) == CEDAR_NOT_A_NAME);
    g = full_body(), g.annotations[0].value = push_part(&g, "\xff");
    CHECK(fails_with_both_calls(&p, "s", &g) == CEDAR_NOT_UTF8);
    cedar_policies_free(&p);
}

/* Checks that unused fields are not read: uid and type where the kind has none, and uids where the action needs no
 * list. */
static void unused_fields_are_not_read(void) {
    const cedar_span out = {1, 2000};
    cedar_policies p = {0};
    policy_body g = empty_body();
    g.body.principal = (cedar_scope){0, out, out};
    g.body.resource = (cedar_scope){4, out, out};
    g.body.action = push_scope(&g, 1, U("a"), "");
    g.body.action.type = out;
    g.c.l.uids[g.c.l.uids_len++] = out;
    CHECK(new_set(&p) == CEDAR_OK && insert_template_body(&p, "t", &g) == CEDAR_OK);
    CHECK(IS(body_text(&p, "t"), text_with_constraints("", " == A::\"a\"", " in ?")));
    g.body.resource.kind = 5;
    g.body.resource.type = push_part(&g, "B");
    CHECK(insert_static_body(&p, "s", &g) == CEDAR_OK &&
          IS(body_text(&p, "s"), text_with_constraints("", " == A::\"a\"", " is B")));
    cedar_policies_free(&p);
}

/* ---- reads */

static void reading_constraints_and_clauses(void) {
    const char *condition = "$0 ^A $0 @group < & $1 @q @p {2 < $2 @file = $0 @b = & & &";
    cedar_policies p = {0};
    policy_body g = full_body(), h = empty_body();
    bool has = true;
    CHECK(IS(scope_text(&p, "s", 0), "status 2") && IS(clause_of(&p, "s"), "2") && IS(set_expr(&p), "") && !p.is_open);
    CHECK(cedar_policies_condition(&p, TEXT("s")) == CEDAR_CLOSED && !p.is_open);
    push_nodes(&h.c, "?0 $0 =");
    h.body.principal.kind = 2;
    g.c.l.uids[0] = push_part(&g, U("q"));
    g.c.l.uids[1] = push_part(&g, U("p"));
    CHECK(new_set(&p) == CEDAR_OK && insert_static_body(&p, "s", &g) == CEDAR_OK &&
          insert_template_body(&p, "t", &h) == CEDAR_OK);
    CHECK(add_static(&p, "a", 0) == CEDAR_OK && link_id(&p, "t", "l", U("a"), "", "") == CEDAR_OK);
    CHECK(IS(set_expr(&p), "") && IS(clause_of(&p, "s"), "$0 @b =") && IS(set_result(&p), "," U("b")));
    CHECK(IS(clause_of(&p, "a"), "none") && IS(set_expr(&p), "$0 @b =") && IS(set_result(&p), "," U("b")));
    CHECK(IS(clause_of(&p, "x"), "26") && IS(clause_of(&p, "\xff"), "5") && IS(set_expr(&p), "$0 @b ="));
    CHECK(cedar_policies_condition(&p, TEXT("x")) == CEDAR_NO_BODY);
    CHECK(cedar_policies_condition(&p, TEXT("\xff")) == CEDAR_NOT_UTF8 && IS(set_expr(&p), "$0 @b ="));
    CHECK(IS(clause_of(&p, "l"), "?0 $0 =") && IS(clause_of(&p, "t"), "?0 $0 ="));
    CHECK(IS(scope_text(&p, "l", 0), "1," U("a")));
    CHECK(cedar_policies_condition(&p, TEXT("l")) == CEDAR_OK && IS(set_expr(&p), "$0 ?0 = t t ?0 $0 = & & &"));
    CHECK(cedar_policies_condition(&p, TEXT("a")) == CEDAR_OK && IS(set_expr(&p), "t t t t & & &"));
    CHECK(cedar_policies_condition(&p, TEXT("s")) == CEDAR_OK && IS(set_expr(&p), condition));
    CHECK(IS(scope_text(&p, "x", 0), "status 26") && IS(scope_text(&p, "x", 3), "status 3"));
    CHECK(IS(scope_text(&p, "\xff", 1), "status 5") && IS(scope_text(&p, "s", 3), "status 3") &&
          IS(set_expr(&p), condition));
    cedar_node nodes[2] = {{99, 0, {0, 0}, 0}, {99, 0, {0, 0}, 0}};
    CHECK(cedar_policies_result_nodes(&p, 1, nodes, 1) == 20 && nodes[0].kind == CEDAR_IS && nodes[1].kind == 99);
    CHECK(cedar_policies_ids(&p, 0) == CEDAR_OK && cedar_policies_result_nodes(&p, 19, nodes, 1) == 20);
    CHECK(cedar_policies_clause(&p, TEXT("a"), &has) == CEDAR_OK && !has && IS(set_error(&p), ""));
    CHECK(new_set(&p) == CEDAR_OK && IS(set_expr(&p), ""));
    cedar_policies_free(&p);
}

/* Checks that a clause and a condition that were read can be added in another policy, unchanged. */
static void returned_clauses_can_be_added(void) {
    cedar_policies p = {0};
    policy_body g = full_body();
    CHECK(new_set(&p) == CEDAR_OK && insert_static_body(&p, "s", &g) == CEDAR_OK);
    for (int k = 0; k < 2; k++) {
        char id[24], words[CAPACITY];
        policy_body copy = empty_body();
        if (k) CHECK(cedar_policies_condition(&p, TEXT("s")) == CEDAR_OK);
        snprintf(words, sizeof words, "%s", k ? set_expr(&p) : clause_of(&p, "s"));
        snprintf(id, sizeof id, "copy%d", k);
        copy.c.l.text_len = cedar_policies_result(&p, 0, copy.c.l.text, sizeof copy.c.l.text);
        copy.c.nodes_len = cedar_policies_result_nodes(&p, 0, copy.c.nodes, MAX_NODES);
        CHECK(insert_static_body(&p, id, &copy) == CEDAR_OK && IS(clause_of(&p, id), words));
    }
    cedar_policies_free(&p);
}

int main(void) {
    bodies_with_all_parts();
    adding_keeps_the_last_result();
    calls_with_and_without_a_body_agree();
    each_kind_of_constraint();
    each_kind_of_clause();
    too_many_levels();
    invalid_arguments();
    unused_fields_are_not_read();
    reading_constraints_and_clauses();
    returned_clauses_can_be_added();
    return report_counts();
}
