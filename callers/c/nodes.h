/* Values and expressions as short texts, for the tests in C. A text has one word for each node, in the order of the
 * nodes, separated by spaces:
 *
 * - `t`, `f`: a Boolean; `12`: a number; `'abc`: a string; `@a`: the uid A::"a"
 * - `{2`: a set of two elements; `[1`: a record of one pair; `ip(1`: a call with one argument
 * - `$0`: a variable; `?1`: a slot; `~x:0`: an unknown without a type
 * - `!`: a negation; `&`, `=`, `<`: the binary operators; `^User`: a test of a type
 * - `*`: the mark of a residual expression */
#ifndef CEDAR_NODES_H
#define CEDAR_NODES_H
#include "short.h"

#define MAX_NODES 64

/* Encoded entities with their content. */
typedef struct content {
    list l;
    cedar_edge indirect[MAX_ITEMS];
    size_t indirect_len;
    cedar_term terms[MAX_ITEMS];
    size_t terms_len;
    cedar_node nodes[MAX_NODES];
    size_t nodes_len;
} content;

#define CONTENT(c) ENTITIES((c).l), (c).indirect, (c).indirect_len, (c).terms, (c).terms_len, (c).nodes, (c).nodes_len

static inline content with_entities(const char *spec) {
    content c;
    memset(&c, 0, sizeof c);
    c.l = parse_entities(spec);
    return c;
}

/* Appends bytes to the text without adding a uid to the list. */
static inline cedar_span push_bytes(content *c, const char *text, size_t len) {
    cedar_span at = {c->l.text_len, c->l.text_len + len};
    memcpy(c->l.text + c->l.text_len, text, len);
    c->l.text_len += len;
    return at;
}

static inline void push_node(content *c, cedar_kind kind, size_t len, cedar_span at, int64_t number) {
    c->nodes[c->nodes_len++] = (cedar_node){kind, len, at, number};
}

/* Appends the node of one word. */
static inline void push_node_of_word(content *c, const char *word, size_t len) {
    const cedar_span none = {0, 0};
    const char *open = memchr(word, '(', len), *colon = word + len;
    const char *binary_operator = strchr("&=<", *word);
    char uid[16];
    if (*word == '\'') {
        push_node(c, CEDAR_STRING, 0, push_bytes(c, word + 1, len - 1), 0);
    } else if (*word == '@') {
        snprintf(uid, sizeof uid, U("%c"), word[1]);
        push_node(c, CEDAR_UID, 0, push_bytes(c, uid, strlen(uid)), 0);
    } else if (*word == '{' || *word == '[') {
        push_node(c, *word == '{' ? CEDAR_SET : CEDAR_RECORD, strtoul(word + 1, NULL, 10), none, 0);
    } else if (*word == '$' || *word == '?') {
        push_node(c, *word == '$' ? CEDAR_VAR : CEDAR_SLOT, 0, none, strtol(word + 1, NULL, 10));
    } else if (*word == '~') {
        while (*colon != ':') colon--;
        push_node(c, CEDAR_UNKNOWN, strtoul(colon + 1, NULL, 10), push_bytes(c, word + 1, colon - word - 1), 0);
    } else if (*word == '^') {
        push_node(c, CEDAR_IS, 0, push_bytes(c, word + 1, len - 1), 0);
    } else if (open) {
        push_node(c, CEDAR_CALL, strtoul(open + 1, NULL, 10), push_bytes(c, word, open - word), 0);
    } else if (*word == '!') {
        push_node(c, CEDAR_NOT, 0, none, 0);
    } else if (*word == '*') {
        push_node(c, CEDAR_RESIDUAL, 1, none, 0);
    } else if (binary_operator) {
        push_node(c, CEDAR_AND + (*binary_operator == '=') + 2 * (*binary_operator == '<'), 0, none, 0);
    } else if (*word == 't' || *word == 'f') {
        push_node(c, CEDAR_BOOL, 0, none, *word == 't');
    } else {
        push_node(c, CEDAR_LONG, 0, none, strtoll(word, NULL, 10));
    }
}

static inline void push_nodes(content *c, const char *words) {
    while (*words) {
        size_t len = strcspn(words, " ");
        push_node_of_word(c, words, len);
        words += len + (words[len] == ' ');
    }
}

/* Adds an attribute (`part` 0) or a tag (1) with the value of these words to the entity with index `of`. */
static inline cedar_term *push_term(content *c, size_t of, cedar_part part, const char *key, const char *words) {
    cedar_term *term = &c->terms[c->terms_len++];
    size_t from = c->nodes_len;
    push_nodes(c, words);
    *term = (cedar_term){of, part, push_bytes(c, key, strlen(key)), from, c->nodes_len};
    return term;
}

/* The arguments of `push_term` for one term. */
typedef struct term_spec {
    size_t of;
    cedar_part part;
    const char *key, *words;
} term_spec;

static inline void push_terms(content *c, const term_spec *terms, size_t count) {
    for (size_t k = 0; k < count; k++) push_term(c, terms[k].of, terms[k].part, terms[k].key, terms[k].words);
}

/* Adds the terms that are listed after the content. */
#define PUSH_TERMS(c, ...)                                                                                             \
    push_terms(c, (const term_spec[]){__VA_ARGS__}, sizeof((const term_spec[]){__VA_ARGS__}) / sizeof(term_spec))

/* ---- reads */

static inline size_t write_node(char *out, size_t capacity, const uint8_t *text, const cedar_node *n) {
    int len = (int)(n->at.end - n->at.start);
    const char *part = (const char *)text + n->at.start;
    switch (n->kind) {
    case CEDAR_BOOL: return snprintf(out, capacity, "%s ", n->number == 1 ? "t" : n->number == 0 ? "f" : "??");
    case CEDAR_LONG: return snprintf(out, capacity, "%lld ", (long long)n->number);
    case CEDAR_STRING: return snprintf(out, capacity, "'%.*s ", len, part);
    case CEDAR_UID: return snprintf(out, capacity, "@%.*s ", len > 5 ? len - 5 : 0, part + 4);
    case CEDAR_SET: return snprintf(out, capacity, "{%zu ", n->len);
    case CEDAR_RECORD: return snprintf(out, capacity, "[%zu ", n->len);
    case CEDAR_CALL: return snprintf(out, capacity, "%.*s(%zu ", len, part, n->len);
    case CEDAR_VAR: return snprintf(out, capacity, "$%lld ", (long long)n->number);
    case CEDAR_SLOT: return snprintf(out, capacity, "?%lld ", (long long)n->number);
    case CEDAR_UNKNOWN: return snprintf(out, capacity, "~%.*s:%zu ", len, part, n->len);
    case CEDAR_NOT: return snprintf(out, capacity, "! ");
    case CEDAR_AND: return snprintf(out, capacity, "& ");
    case CEDAR_EQ: return snprintf(out, capacity, "= ");
    case CEDAR_IN: return snprintf(out, capacity, "< ");
    case CEDAR_IS: return snprintf(out, capacity, "^%.*s ", len, part);
    case CEDAR_RESIDUAL: return snprintf(out, capacity, "%s ", n->len == 1 ? "*" : "??");
    default: return snprintf(out, capacity, "?? ");
    }
}

/* Returns nodes over a text as words. */
static inline const char *words_of_nodes(const uint8_t *text, const cedar_node *nodes, size_t count) {
    static char out[CAPACITY];
    size_t at = 0;
    for (size_t k = 0; k < count && k < MAX_NODES; k++) at += write_node(out + at, sizeof out - at, text, &nodes[k]);
    out[at ? at - 1 : 0] = 0;
    return out;
}

/* Returns the nodes of the last value as words. */
static inline const char *store_value(cedar_store *s) {
    uint8_t text[CAPACITY];
    cedar_node nodes[MAX_NODES];
    cedar_store_result(s, 0, text, sizeof text);
    return words_of_nodes(text, nodes, cedar_store_result_nodes(s, 0, nodes, MAX_NODES));
}

/* Returns the attribute (`part` 0) or the tag (1) with this key as words, `none` if there is none, or the status. */
static inline const char *value_at(cedar_store *s, const char *uid, cedar_part part, const char *key) {
    static char status_text[16];
    bool has = false;
    cedar_status status =
        part ? cedar_store_get_tag(s, TEXT(uid), TEXT(key), &has) : cedar_store_get(s, TEXT(uid), TEXT(key), &has);
    snprintf(status_text, sizeof status_text, "%u", (unsigned)status);
    return status ? status_text : has ? store_value(s) : "none";
}

#endif
