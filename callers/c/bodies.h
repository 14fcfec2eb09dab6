/* Encoded bodies of policies and templates, for the tests in C. */
#ifndef CEDAR_BODIES_H
#define CEDAR_BODIES_H
#include "nodes.h"

/* A body with its lists. `c` has the uids of the action and the nodes of the clause. */
typedef struct policy_body {
    content c;
    cedar_body body;
    cedar_annotation annotations[MAX_ITEMS];
    size_t annotations_len;
} policy_body;

#define LISTS(g)                                                                                                       \
    (g).c.l.text, (g).c.l.text_len, &(g).body, (g).annotations, (g).annotations_len, (g).c.l.uids, (g).c.l.uids_len,   \
        (g).c.nodes, (g).c.nodes_len

/* Returns the body of a policy that permits everything. */
static inline policy_body empty_body(void) {
    policy_body g;
    memset(&g, 0, sizeof g);
    g.c = with_entities("");
    return g;
}

static inline cedar_span push_part(policy_body *g, const char *text) { return push_bytes(&g->c, text, strlen(text)); }

static inline cedar_scope push_scope(policy_body *g, cedar_scope_kind kind, const char *uid, const char *type) {
    cedar_span at = push_part(g, uid);
    return (cedar_scope){kind, at, push_part(g, type)};
}

static inline void push_annotation(policy_body *g, const char *key, const char *value) {
    cedar_span at = push_part(g, key);
    g->annotations[g->annotations_len++] = (cedar_annotation){at, push_part(g, value)};
}

/* Returns a body with every kind of content: annotations (two with the same key), three constraints and a clause. */
static inline policy_body full_body(void) {
    policy_body g = empty_body();
    g.body.effect = 1;
    g.body.principal = push_scope(&g, 6, U("group"), "A");
    g.body.action = push_scope(&g, 3, "", "");
    g.body.resource = push_scope(&g, 1, U("file"), "");
    push_text(&g.c.l, "Action::\"get\"");
    push_text(&g.c.l, "Action::\"put\"");
    push_annotation(&g, "why", "so");
    push_annotation(&g, "if", "");
    push_annotation(&g, "why", "thus");
    push_nodes(&g.c, "$0 @b =");
    return g;
}

/* ---- short forms of the calls */

static inline cedar_status insert_static_body(cedar_policies *p, const char *id, const policy_body *g) {
    return cedar_policies_add_static_with(p, TEXT(id), LISTS(*g));
}

static inline cedar_status insert_template_body(cedar_policies *p, const char *id, const policy_body *g) {
    return cedar_policies_add_template_with(p, TEXT(id), LISTS(*g));
}

/* Returns the text of a template or of a static policy, or the status. */
static inline const char *body_text(cedar_policies *p, const char *id) {
    static char status_text[16];
    cedar_status status = cedar_policies_template_text(p, TEXT(id));
    snprintf(status_text, sizeof status_text, "%u", (unsigned)status);
    return status ? status_text : set_result(p) + 1;
}

/* Returns a constraint of the principal (0), the action (1) or the resource (2): its kind and its texts, with a
 * comma before each text; or the status. */
static inline const char *scope_text(cedar_policies *p, const char *id, cedar_variable variable) {
    static char out[CAPACITY + 16];
    cedar_scope_kind kind = (cedar_scope_kind)9;
    cedar_status status = cedar_policies_scope(p, TEXT(id), variable, &kind);
    if (status) {
        snprintf(out, sizeof out, "status %u", (unsigned)(kind == 9 ? status : 99));
    } else {
        snprintf(out, sizeof out, "%u%s", (unsigned)kind, set_result(p));
    }
    return out;
}

/* Returns the nodes of the last expression as words. */
static inline const char *set_expr(cedar_policies *p) {
    uint8_t text[CAPACITY];
    cedar_node nodes[MAX_NODES];
    cedar_policies_result(p, 0, text, sizeof text);
    return words_of_nodes(text, nodes, cedar_policies_result_nodes(p, 0, nodes, MAX_NODES));
}

/* Returns the clause as words, `none` if there is none, or the status. */
static inline const char *clause_of(cedar_policies *p, const char *id) {
    static char status_text[16];
    bool has = false;
    cedar_status status = cedar_policies_clause(p, TEXT(id), &has);
    snprintf(status_text, sizeof status_text, "%u", (unsigned)(has && status ? 99 : status));
    return status ? status_text : has ? set_expr(p) : "none";
}

#endif
