/* Tests of entities with content: examples of values and expressions that are stored and read back, each status of
 * the calls, and random nodes, which must not cause more than an error status. Prints each failure, and ends with `N
 * passed, M failed`. */
#include "nodes.h"

#define BUILD(s, c, mode) cedar_store_build_with(s, CONTENT(c), mode)
#define ADD(s, c, mode) cedar_store_add_with(s, CONTENT(c), mode)
#define UPSERT(s, c, mode) cedar_store_upsert_with(s, CONTENT(c), mode)

/* ---- examples of values */

/* Stores a value and returns the value that is read, as words; or the status of the call that stores it. */
static const char *round_trip(const char *words) {
    static char text[16];
    cedar_store s = {0};
    content c = with_entities("a");
    push_term(&c, 0, 0, "k", words);
    CHECK(new_store(&s) == CEDAR_OK);
    cedar_status status = BUILD(&s, c, CEDAR_COMPUTE);
    snprintf(text, sizeof text, "%u", (unsigned)status);
    const char *actual = status ? text : value_at(&s, U("a"), 0, "k");
    cedar_store_free(&s);
    return actual;
}

/* The stored value and the value that is read. An empty text means the same value. */
static const char *const VALUES[][2] = {
    {"t", ""},
    {"f", ""},
    {"0", ""},
    {"-9223372036854775808", ""},
    {"9223372036854775807", ""},
    {"'", ""},
    {"'abc", ""},
    {"'\xc3\xa9", ""},
    {"@a", ""},
    {"{0", ""},
    {"[0", ""},
    {"1 2 1 {3", "1 2 {2"},
    {"2 1 {2", "1 2 {2"},
    {"'k 1 'j 2 [2", "'j 2 'k 1 [2"},
    {"'k 1 'k 2 [2", "'k 2 [1"},
    {"'a 'b t [1 [1", ""},
    {"'a 1 'b 'c @x {2 [2", "'a 1 'b 'c @x {2 [2"},
    {"'10.0.0.1 ip(1", ""},
    {"'1.5 N::decimal(1", ""},
    {"'k '10.0.0.1 ip(1 [1", ""},
    {"~x:0 *", ""},
    {"'User ~x:1 *", ""},
    {"'A::B ~x:1 *", ""},
    {"$0 $1 = *", ""},
    {"$2 @a < *", ""},
    {"$3 ! *", ""},
    {"?0 ?1 & ?2 & *", ""},
    {"$0 ^User *", ""},
    {"$0 ^A::B *", ""},
    {"2 1 1 {3 *", ""},
    {"{0 *", ""},
    {"g(0 *", ""},
    {"1 2 g(2 *", ""},
    {"'x *", ""},
};

static void values_are_returned_unchanged(void) {
    for (size_t k = 0; k < sizeof VALUES / sizeof *VALUES; k++) {
        const char *stored = VALUES[k][0], *expected = *VALUES[k][1] ? VALUES[k][1] : stored,
                   *actual = round_trip(stored);
        if (!IS(actual, expected)) printf("stored %s, read %s\n", stored, actual);
        CHECK(IS(actual, expected));
    }
}

/* Checks the attributes and tags of two entities, some of them with the same keys. */
static void attributes_and_tags(void) {
    cedar_store s = {0};
    content c = with_entities("a b;b");
    PUSH_TERMS(&c, {1, 0, "k", "1"}, {0, 0, "k", "2"}, {0, 1, "k", "3"}, {0, 0, "", "t"}, {0, 1, "z", "'z"},
                   {0, 0, "\xc3\xa9", "f"});
    CHECK(new_store(&s) == CEDAR_OK && BUILD(&s, c, CEDAR_COMPUTE) == CEDAR_OK && cedar_store_len(&s) == 2);
    CHECK(attributes(&s, U("a")) == 3 && tags(&s, U("a")) == 2 && attributes(&s, U("b")) == 1 && tags(&s, U("b")) == 0);
    CHECK(cedar_store_keys(&s, TEXT(U("a"))) == CEDAR_OK && IS(store_result(&s), ",,k,\xc3\xa9"));
    CHECK(cedar_store_tag_keys(&s, TEXT(U("a"))) == CEDAR_OK && IS(store_result(&s), ",k,z"));
    CHECK(IS(value_at(&s, U("a"), 0, "k"), "2") && IS(value_at(&s, U("a"), 1, "k"), "3"));
    CHECK(IS(value_at(&s, U("b"), 0, "k"), "1") && IS(value_at(&s, U("b"), 1, "k"), "none"));
    CHECK(IS(value_at(&s, U("a"), 0, ""), "t") && IS(value_at(&s, U("a"), 0, "\xc3\xa9"), "f"));
    CHECK(IS(value_at(&s, U("a"), 0, "z"), "none") && IS(value_at(&s, U("a"), 1, "z"), "'z"));
    CHECK(is_descendant(&s, U("a"), U("b")) == 1);
    cedar_store_free(&s);
}

static void the_last_value_of_a_key_is_used(void) {
    cedar_store s = {0};
    content c = with_entities("a");
    PUSH_TERMS(&c, {0, 0, "k", "1"}, {0, 1, "k", "2"}, {0, 0, "k", "3"});
    CHECK(new_store(&s) == CEDAR_OK && BUILD(&s, c, CEDAR_COMPUTE) == CEDAR_OK && attributes(&s, U("a")) == 1);
    CHECK(IS(value_at(&s, U("a"), 0, "k"), "3") && IS(value_at(&s, U("a"), 1, "k"), "2"));
    cedar_store_free(&s);
}

/* Checks terms with overlapping ranges of nodes: two with the same value, and a third with a part of it. */
static void shared_nodes(void) {
    cedar_store s = {0};
    content c = with_entities("a");
    cedar_term *first = push_term(&c, 0, 0, "k", "'x 1 [1");
    cedar_term *other = push_term(&c, 0, 1, "j", ""), *inner = push_term(&c, 0, 1, "i", "");
    other->from = first->from;
    other->to = first->to;
    inner->from = first->from + 1;
    inner->to = first->from + 2;
    CHECK(new_store(&s) == CEDAR_OK && BUILD(&s, c, CEDAR_COMPUTE) == CEDAR_OK);
    CHECK(IS(value_at(&s, U("a"), 0, "k"), "'x 1 [1") && IS(value_at(&s, U("a"), 1, "j"), "'x 1 [1"));
    CHECK(IS(value_at(&s, U("a"), 1, "i"), "1"));
    cedar_store_free(&s);
}

static void push_indirect(content *c, size_t from, size_t to) {
    c->indirect[c->indirect_len++] = (cedar_edge){from, to};
}

static void indirect_ancestors(void) {
    cedar_store s = {0};
    content c = with_entities("a b;b c"); /* the uids are a, b, b, c */
    push_indirect(&c, 0, 3);
    CHECK(new_store(&s) == CEDAR_OK && BUILD(&s, c, CEDAR_ENFORCE) == CEDAR_OK);
    CHECK(is_child(&s, U("a"), U("b")) == 1 && is_child(&s, U("a"), U("c")) == 0);
    CHECK(is_indirect_descendant(&s, U("a"), U("c")) == 1 && is_indirect_descendant(&s, U("a"), U("b")) == 0);
    push_indirect(&c, 0, 2); /* b is a parent of a, so this is no indirect ancestor */
    push_indirect(&c, 0, 3);
    CHECK(BUILD(&s, c, CEDAR_ENFORCE) == CEDAR_OK && cedar_store_validate(&s) == CEDAR_OK);
    CHECK(cedar_store_indirect_ancestors(&s, TEXT(U("a"))) == CEDAR_OK && IS(store_result(&s), "," U("c")));
    CHECK(parents(&s, U("a")) == CEDAR_OK && IS(store_result(&s), "," U("b")));
    c.indirect_len = 0;
    CHECK(BUILD(&s, c, CEDAR_ENFORCE) == CEDAR_NOT_CLOSED && cedar_store_len(&s) == 2);
    cedar_store_free(&s);
}

/* Checks that the calls with content agree with the calls without content, if no entity has content. */
static void calls_without_content_agree(void) {
    cedar_store s = {0}, t = {0};
    content c = with_entities("a b;b c;c de;x");
    CHECK(new_store(&s) == CEDAR_OK && new_store(&t) == CEDAR_OK);
    CHECK(BUILD(&s, c, CEDAR_COMPUTE) == CEDAR_OK && build(&t, "a b;b c;c de;x", CEDAR_COMPUTE) == CEDAR_OK);
    CHECK(equal(&s, &t) == 1);
    c = with_entities("x a;y x");
    CHECK(ADD(&s, c, CEDAR_COMPUTE) == CEDAR_DUPLICATE && IS(store_error(&s), "duplicate entity " U("x")));
    CHECK(cedar_store_copy(&t, &s) == CEDAR_OK && UPSERT(&s, c, CEDAR_COMPUTE) == CEDAR_OK);
    CHECK(upsert(&t, "x a;y x", CEDAR_COMPUTE) == CEDAR_OK && equal(&s, &t) == 1);
    c = with_entities("a b;b a");
    CHECK(BUILD(&s, c, CEDAR_COMPUTE) == CEDAR_CYCLE && equal(&s, &t) == 1);
    cedar_store_free(&s);
    cedar_store_free(&t);
}

static void edits_with_content(void) {
    cedar_store s = {0}, t = {0};
    content c = with_entities("a b"), d = with_entities("a b");
    push_term(&c, 0, 0, "k", "1");
    push_term(&d, 0, 0, "k", "2");
    CHECK(new_store(&s) == CEDAR_OK && BUILD(&s, c, CEDAR_COMPUTE) == CEDAR_OK && cedar_store_copy(&s, &t) == CEDAR_OK);
    CHECK(ADD(&s, c, CEDAR_COMPUTE) == CEDAR_OK && equal(&s, &t) == 1);
    CHECK(UPSERT(&s, d, CEDAR_COMPUTE) == CEDAR_OK && IS(value_at(&s, U("a"), 0, "k"), "2"));
    CHECK(equal(&s, &t) == 0 && entity_equal(&s, U("a"), &t) == 0 && IS(value_at(&t, U("a"), 0, "k"), "1"));
    CHECK(ADD(&t, d, CEDAR_COMPUTE) == CEDAR_DUPLICATE && IS(store_error(&t), "duplicate entity " U("a")));
    CHECK(cedar_store_copy(&s, &t) == CEDAR_OK && add(&t, "a b", CEDAR_COMPUTE) == CEDAR_DUPLICATE);
    CHECK(slice(&s, &t, "a") == CEDAR_OK && IS(value_at(&t, U("a"), 0, "k"), "2"));
    c = with_entities("a;a");
    push_term(&c, 0, 0, "k", "1");
    CHECK(BUILD(&s, c, CEDAR_COMPUTE) == CEDAR_DUPLICATE);
    push_term(&c, 1, 0, "k", "1");
    CHECK(BUILD(&s, c, CEDAR_COMPUTE) == CEDAR_OK && cedar_store_len(&s) == 1);
    c = with_entities("a");
    push_term(&c, 0, 1, "k", "'__entity 1 [1");
    CHECK(BUILD(&s, c, CEDAR_COMPUTE) == CEDAR_OK && cedar_store_validate(&s) == CEDAR_RESERVED_KEY);
    CHECK(IS(store_error(&s), "reserved key __entity"));
    cedar_store_free(&s);
    cedar_store_free(&t);
}

/* ---- state of a handle */

static void last_value_is_unchanged(void) {
    cedar_store s = {0}, t = {0};
    cedar_node nodes[4];
    uint8_t text[8];
    bool has = true;
    content c = with_entities("a b");
    push_term(&c, 0, 0, "k", "'xy 1 [1");
    CHECK(new_store(&s) == CEDAR_OK && BUILD(&s, c, CEDAR_COMPUTE) == CEDAR_OK);
    CHECK(cedar_store_result_nodes(&s, 0, nodes, 4) == 0);
    CHECK(IS(value_at(&s, U("a"), 0, "k"), "'xy 1 [1") && IS(store_result(&s), ",xy"));
    CHECK(cedar_store_get(&s, TEXT(U("a")), TEXT("j"), &has) == CEDAR_OK && !has);
    CHECK(cedar_store_get(&s, TEXT(U("q")), TEXT("k"), &has) == CEDAR_NO_ENTITY && !has);
    has = true;
    CHECK(cedar_store_get(&s, TEXT("q"), TEXT("k"), &has) == CEDAR_NOT_A_UID);
    CHECK(cedar_store_get_tag(&s, TEXT(U("q")), TEXT("k"), &has) == CEDAR_NO_ENTITY);
    CHECK(cedar_store_get_tag(&s, TEXT(U("a")), TEXT("\xff"), &has) == CEDAR_NOT_UTF8);
    CHECK(cedar_store_get(&s, TEXT(U("a")), TEXT("\xff"), &has) == CEDAR_NOT_UTF8 && has);
    CHECK(cedar_store_get_tag(&s, TEXT("q"), TEXT("k"), &has) == CEDAR_NOT_A_UID && has);
    CHECK(IS(store_value(&s), "'xy 1 [1") && IS(store_result(&s), ",xy"));
    /* another result keeps the nodes, and so does an edit */
    CHECK(parents(&s, U("a")) == CEDAR_OK && add(&s, "z", CEDAR_COMPUTE) == CEDAR_OK);
    CHECK(cedar_store_partial(&s) == CEDAR_OK && build(&s, "a a", CEDAR_COMPUTE) == CEDAR_CYCLE);
    CHECK(cedar_store_result_nodes(&s, 0, nodes, 4) == 3 && nodes[0].kind == CEDAR_STRING && nodes[0].at.end == 2);
    CHECK(cedar_store_result_nodes(&s, 2, nodes, 4) == 3 && nodes[0].kind == CEDAR_RECORD && nodes[0].len == 1);
    CHECK(nodes[1].kind == CEDAR_LONG && nodes[1].number == 1 && nodes[1].len == 0 && nodes[1].at.end == 0);
    CHECK(cedar_store_result_nodes(&s, 3, nodes, 4) == 3 && cedar_store_result_nodes(&s, SIZE_MAX, nodes, 4) == 3);
    CHECK(cedar_store_result_nodes(&s, 1, nodes, 1) == 3 && nodes[0].kind == CEDAR_LONG);
    CHECK(cedar_store_result_nodes(&s, 0, nodes, 0) == 3 && nodes[0].kind == CEDAR_LONG);
    /* a number has no text, so the result is one empty text */
    CHECK(BUILD(&s, c, CEDAR_COMPUTE) == CEDAR_OK && cedar_store_copy(&s, &t) == CEDAR_OK);
    CHECK(cedar_store_result_nodes(&t, 0, nodes, 4) == 0 && cedar_store_result_nodes(&s, 0, nodes, 4) == 3);
    c = with_entities("a");
    push_term(&c, 0, 1, "k", "7");
    CHECK(BUILD(&t, c, CEDAR_COMPUTE) == CEDAR_OK && IS(value_at(&t, U("a"), 1, "k"), "7"));
    CHECK(IS(store_result(&t), ",") && cedar_store_result(&t, 0, text, 8) == 0);
    CHECK(slice(&s, &t, "a") == CEDAR_OK && cedar_store_result_nodes(&t, 0, nodes, 4) == 0);
    CHECK(new_store(&s) == CEDAR_OK && cedar_store_result_nodes(&s, 0, nodes, 4) == 0);
    cedar_store_free(&s);
    cedar_store_free(&t);
}

static void closed_handles(void) {
    cedar_store s = {0};
    bool has = true;
    cedar_node nodes[1] = {{9, 9, {9, 9}, 9}};
    content c = with_entities("a");
    CHECK(BUILD(&s, c, 0) == CEDAR_CLOSED && ADD(&s, c, 0) == CEDAR_CLOSED && UPSERT(&s, c, 0) == CEDAR_CLOSED);
    CHECK(cedar_store_get(&s, TEXT(U("a")), TEXT("k"), &has) == CEDAR_CLOSED && has);
    CHECK(cedar_store_get_tag(&s, TEXT(U("a")), TEXT("k"), &has) == CEDAR_CLOSED && has);
    CHECK(cedar_store_result_nodes(&s, 0, nodes, 1) == 0 && nodes[0].kind == 9 && !s.is_open);
}

/* ---- an invalid argument leaves the store unchanged */

static cedar_store test_store;

/* Returns whether each of the three calls fails with this status and leaves the store unchanged. */
static bool fails_with(content c, cedar_status status) {
    return BUILD(&test_store, c, 0) == status && ADD(&test_store, c, 0) == status &&
           UPSERT(&test_store, c, 0) == status && cedar_store_len(&test_store) == 1 && has(&test_store, U("q")) == 1;
}

static void terms_out_of_range(void) {
    const cedar_term invalid[] = {
        {1, 0, {0, 1}, 0, 1},          {SIZE_MAX, 0, {0, 1}, 0, 1}, {0, 2, {0, 1}, 0, 1},
        {0, UINT32_MAX, {0, 1}, 0, 1}, {0, 0, {1, 0}, 0, 1},        {0, 1, {0, SIZE_MAX}, 0, 1},
        {0, 0, {0, 1}, 1, 0},          {0, 0, {0, 1}, 0, 2},        {0, 1, {0, 1}, SIZE_MAX, SIZE_MAX},
        {0, 0, {0, 1}, 0, 0},          {0, 0, {0, 1}, 1, 1},
    };
    for (size_t k = 0; k < sizeof invalid / sizeof *invalid; k++) {
        content c = with_entities("a b");
        push_nodes(&c, "1");
        c.terms[c.terms_len++] = invalid[k];
        CHECK(fails_with(c, CEDAR_BAD_ARGUMENT));
    }
    const cedar_edge edges[] = {{1, 0}, {0, 2}, {SIZE_MAX, 0}, {0, SIZE_MAX}};
    for (size_t k = 0; k < sizeof edges / sizeof *edges; k++) {
        content c = with_entities("a b");
        c.indirect[c.indirect_len++] = edges[k];
        CHECK(fails_with(c, CEDAR_BAD_ARGUMENT));
    }
    content c = with_entities("a b");
    CHECK(cedar_store_build_with(&test_store, CONTENT(c), 3) == CEDAR_BAD_ARGUMENT);
    c.l.edges[0].to = 9;
    CHECK(fails_with(c, CEDAR_BAD_ARGUMENT));
}

/* Words that are not a partial value, and the status. */
static const struct {
    const char *words;
    cedar_status status;
} INVALID[] = {
    {"", CEDAR_BAD_ARGUMENT},
    {"1 2", CEDAR_BAD_ARGUMENT},
    {"1 {2", CEDAR_BAD_ARGUMENT},
    {"1 2 {1", CEDAR_BAD_ARGUMENT},
    {"1 [1", CEDAR_BAD_ARGUMENT},
    {"1 2 [1", CEDAR_BAD_ARGUMENT},
    {"'k [1", CEDAR_BAD_ARGUMENT},
    {"1 ip(1", CEDAR_BAD_ARGUMENT},
    {"ip(0", CEDAR_BAD_ARGUMENT},
    {"'a 'b ip(2", CEDAR_BAD_ARGUMENT},
    {"$0", CEDAR_BAD_ARGUMENT},
    {"?0", CEDAR_BAD_ARGUMENT},
    {"~x:0", CEDAR_BAD_ARGUMENT},
    {"t !", CEDAR_BAD_ARGUMENT},
    {"$4 *", CEDAR_BAD_ARGUMENT},
    {"$-1 *", CEDAR_BAD_ARGUMENT},
    {"?3 *", CEDAR_BAD_ARGUMENT},
    {"~x:1 *", CEDAR_BAD_ARGUMENT},
    {"1 ~x:1 *", CEDAR_BAD_ARGUMENT},
    {"'User ~x:2 *", CEDAR_BAD_ARGUMENT},
    {"'k 1 [1 *", CEDAR_BAD_ARGUMENT},
    {"*", CEDAR_BAD_ARGUMENT},
    {"1 * *", CEDAR_BAD_ARGUMENT},
    {"1 & *", CEDAR_BAD_ARGUMENT},
    {"! *", CEDAR_BAD_ARGUMENT},
    {"1 {18446744073709551615", CEDAR_BAD_ARGUMENT},
    {"[9223372036854775808", CEDAR_BAD_ARGUMENT},
    {"'\xff", CEDAR_NOT_UTF8},
    {"'x \xff(1", CEDAR_NOT_UTF8},
    {"~\xff:0 *", CEDAR_NOT_UTF8},
    {"'k \xff(0 *", CEDAR_NOT_UTF8},
    {"1 ^\xff *", CEDAR_NOT_UTF8},
    {"'\xff ~x:1 *", CEDAR_NOT_UTF8},
    {"'x 1x(1", CEDAR_NOT_A_NAME},
    {"'x A::(1", CEDAR_NOT_A_NAME},
    {"'x (1", CEDAR_NOT_A_NAME},
    {"1 ^if *", CEDAR_NOT_A_NAME},
    {"'1 ~x:1 *", CEDAR_NOT_A_NAME},
    {"' ~x:1 *", CEDAR_NOT_A_NAME},
};

static void invalid_values(void) {
    for (size_t k = 0; k < sizeof INVALID / sizeof *INVALID; k++) {
        content c = with_entities("a");
        push_term(&c, 0, k & 1, "k", INVALID[k].words);
        bool is_expected = fails_with(c, INVALID[k].status);
        if (!is_expected) printf("%s: %u\n", INVALID[k].words, BUILD(&test_store, c, 0));
        CHECK(is_expected);
    }
}

static void invalid_fields(void) {
    content c = with_entities("a");
    push_term(&c, 0, 0, "k", "t");
    c.nodes[0].number = 2;
    CHECK(fails_with(c, CEDAR_BAD_ARGUMENT));
    c.nodes[0] = (cedar_node){16, 0, {0, 0}, 0};
    CHECK(fails_with(c, CEDAR_BAD_ARGUMENT));
    c.nodes[0].kind = UINT32_MAX;
    CHECK(fails_with(c, CEDAR_BAD_ARGUMENT));
    c.nodes[0] = (cedar_node){CEDAR_STRING, 0, {0, c.l.text_len + 1}, 0};
    CHECK(fails_with(c, CEDAR_BAD_ARGUMENT));
    c.nodes[0] = (cedar_node){CEDAR_UID, 0, {1, 6}, 0};
    CHECK(fails_with(c, CEDAR_NOT_A_UID));
    c.nodes[0].at.start = 7;
    CHECK(fails_with(c, CEDAR_BAD_ARGUMENT));
    c.nodes[0] = (cedar_node){CEDAR_UID, 9, {0, 6}, 9}; /* unused fields are not read */
    c.terms[0].key = push_bytes(&c, "\xc3", 1);
    CHECK(fails_with(c, CEDAR_NOT_UTF8));
    c.terms[0].key.end--;
    CHECK(BUILD(&test_store, c, 0) == CEDAR_OK && IS(value_at(&test_store, U("a"), 0, ""), "@a"));
    CHECK(build(&test_store, "q", 0) == CEDAR_OK);
    c = with_entities("a"); /* the mark of a residual expression must have `len` 1 */
    push_term(&c, 0, 0, "k", "t *");
    c.nodes[1].len = 0;
    CHECK(fails_with(c, CEDAR_BAD_ARGUMENT));
    c.l.uids[0].end--;
    CHECK(fails_with(c, CEDAR_NOT_A_UID));
}

static cedar_node deep[CEDAR_LEVELS + 2];

/* Builds nested sets or nested negations with this number of levels. */
static cedar_status build_levels(size_t number_of_levels, cedar_kind kind, bool residual) {
    content c = with_entities("a");
    const cedar_span none = {0, 0};
    size_t count = 0;
    deep[count++] = (cedar_node){CEDAR_BOOL, 0, none, 1};
    while (count < number_of_levels) deep[count++] = (cedar_node){kind, 1, none, 0};
    if (residual) deep[count++] = (cedar_node){CEDAR_RESIDUAL, 1, none, 0};
    cedar_term term = {0, 0, {0, 0}, 0, count};
    return cedar_store_build_with(&test_store, ENTITIES(c.l), c.indirect, 0, &term, 1, deep, count, 0);
}

static void number_of_levels(void) {
    cedar_node *nodes = malloc((CEDAR_LEVELS + 2) * sizeof *nodes);
    bool has = false;
    CHECK(build_levels(CEDAR_LEVELS + 1, CEDAR_SET, false) == CEDAR_TOO_DEEP && cedar_store_len(&test_store) == 1);
    CHECK(build_levels(CEDAR_LEVELS + 1, CEDAR_NOT, true) == CEDAR_TOO_DEEP && build(&test_store, "q", 0) == CEDAR_OK);
    CHECK(build_levels(CEDAR_LEVELS, CEDAR_NOT, true) == CEDAR_OK);
    CHECK(cedar_store_get(&test_store, TEXT(U("a")), TEXT(""), &has) == CEDAR_OK && has);
    CHECK(cedar_store_result_nodes(&test_store, 0, nodes, CEDAR_LEVELS + 2) == CEDAR_LEVELS + 1);
    CHECK(nodes[0].kind == CEDAR_BOOL && nodes[CEDAR_LEVELS - 1].kind == CEDAR_NOT);
    CHECK(nodes[CEDAR_LEVELS].kind == CEDAR_RESIDUAL);
    CHECK(build_levels(CEDAR_LEVELS, CEDAR_SET, false) == CEDAR_OK);
    CHECK(cedar_store_get(&test_store, TEXT(U("a")), TEXT(""), &has) == CEDAR_OK && has);
    CHECK(cedar_store_result_nodes(&test_store, 0, nodes, CEDAR_LEVELS + 2) == CEDAR_LEVELS);
    CHECK(nodes[CEDAR_LEVELS - 1].kind == CEDAR_SET && nodes[CEDAR_LEVELS - 1].len == 1);
    CHECK(build(&test_store, "q", 0) == CEDAR_OK);
    free(nodes);
}

/* ---- random nodes */

static uint64_t state = 0x2545f4914f6cdd1d;

static uint32_t random_number(uint32_t end) {
    state ^= state << 13;
    state ^= state >> 7;
    state ^= state << 17;
    return (uint32_t)((state * 0x9e3779b97f4a7c15u) >> 33) % end;
}

/* Uids, names, strings, and bytes that are none of them. */
static const char *const PARTS[] = {
    "A::\"a\"", "A::\"it\\'s\"", "ip",  "N::f",           "User", "x", "", "\xc3\xa9", "\xff",
    "if",       "A::\"",         "a b", "A::\"\xc3\xa9\""};
static cedar_span parts[sizeof PARTS / sizeof *PARTS];

static cedar_span any_part(const content *c) {
    if (random_number(40)) return parts[random_number(random_number(3) ? 7 : sizeof PARTS / sizeof *PARTS)];
    return (cedar_span){random_number(c->l.text_len + 2), random_number(c->l.text_len + 2)};
}

/* Appends random nodes. Most of them have as many operands before them as they need; `high` is the size of the
 * stack. */
static void push_random_nodes(content *c, size_t count) {
    size_t high = 0;
    for (size_t k = 0; k < count; k++) {
        uint32_t kind = random_number(30) ? random_number(3) ? random_number(7) : random_number(15) : random_number(18);
        size_t len = random_number(20)  ? random_number(high + 1)
                     : random_number(4) ? random_number(6)
                                        : SIZE_MAX - random_number(3);
        int64_t number = random_number(10) ? random_number(4) : (int64_t)state;
        cedar_span at = any_part(c);
        if (kind == CEDAR_BOOL) number = random_number(20) ? number & 1 : number;
        if (kind == CEDAR_UID && random_number(20)) at = parts[random_number(2)];
        if (kind == CEDAR_UNKNOWN && random_number(8)) len = 0;
        if (kind == CEDAR_RECORD && random_number(20)) len = len < 12 ? len / 2 : len;
        if (kind == CEDAR_CALL && random_number(2)) len = 1;
        if (kind == CEDAR_RECORD && high >= 2 && c->nodes_len >= 2 && random_number(2)) {
            c->nodes[c->nodes_len - 2].kind = CEDAR_STRING;
            len = 1;
        }
        size_t operands = kind == CEDAR_SET || kind == CEDAR_CALL ? len
                          : kind == CEDAR_RECORD                  ? 2 * len
                          : kind >= CEDAR_AND && kind <= CEDAR_IN ? 2
                          : kind == CEDAR_NOT || kind == CEDAR_IS ? 1
                                                                  : 0;
        high = (high < operands ? 0 : high - operands) + 1;
        push_node(c, kind, len, at, number);
    }
    if (high > 1 && random_number(8)) push_node(c, CEDAR_SET, high, parts[0], 0);
    if (random_number(3) == 0) push_node(c, CEDAR_RESIDUAL, random_number(8) ? 1 : random_number(3), parts[0], 0);
}

static content random_content(void) {
    content c = with_entities("a b;b");
    for (size_t k = 0; k < sizeof PARTS / sizeof *PARTS; k++) parts[k] = push_bytes(&c, PARTS[k], strlen(PARTS[k]));
    for (uint32_t k = random_number(3); k > 0; k--) {
        size_t from = c.nodes_len;
        push_random_nodes(&c, random_number(10));
        cedar_term term = {random_number(2), random_number(2), parts[5 + random_number(3)], from, c.nodes_len};
        if (random_number(30) == 0)
            term = (cedar_term){random_number(4), random_number(4), any_part(&c), random_number(12), random_number(12)};
        c.terms[c.terms_len++] = term;
    }
    if (random_number(10) == 0) push_indirect(&c, random_number(4), random_number(5));
    return c;
}

/* Adds the value that a store returned last, with its text, as a term of another content. */
static void push_returned(content *c, cedar_store *s, cedar_term term) {
    uint8_t text[CAPACITY];
    size_t len = cedar_store_result(s, 0, text, sizeof text), from = c->nodes_len;
    cedar_span at = push_bytes(c, (const char *)text, len);
    c->nodes_len += cedar_store_result_nodes(s, 0, c->nodes + from, MAX_NODES - from);
    for (size_t k = from; k < c->nodes_len; k++) {
        c->nodes[k].at.start += at.start;
        c->nodes[k].at.end += at.start;
    }
    c->terms[c->terms_len++] = (cedar_term){term.of, term.part, term.key, from, c->nodes_len};
}

/* Returns whether another store, built from the terms that this store returns, has the same entities. */
static bool is_rebuilt_equal(cedar_store *s, const content *c, cedar_store *t) {
    content rebuilt = with_entities("a b;b");
    for (size_t k = 0; k < sizeof PARTS / sizeof *PARTS; k++) push_bytes(&rebuilt, PARTS[k], strlen(PARTS[k]));
    memcpy(rebuilt.indirect, c->indirect, sizeof rebuilt.indirect);
    rebuilt.indirect_len = c->indirect_len;
    for (size_t k = 0; k < c->terms_len; k++) {
        const cedar_term *term = &c->terms[k];
        const uint8_t *uid = term->of ? bytes(U("b")) : bytes(U("a")), *key = c->l.text + term->key.start;
        size_t len = term->key.end - term->key.start;
        bool has = false;
        cedar_status status =
            term->part ? cedar_store_get_tag(s, uid, 6, key, len, &has) : cedar_store_get(s, uid, 6, key, len, &has);
        if (status || !has) return false;
        push_returned(&rebuilt, s, *term);
    }
    return BUILD(t, rebuilt, CEDAR_COMPUTE) == CEDAR_OK && equal(s, t) == 1 && entity_equal(s, U("a"), t) == 1 &&
           entity_equal(s, U("b"), t) == 1;
}

static void random_nodes(long rounds) {
    cedar_store s = {0}, t = {0};
    long accepted = 0, rejected = 0, unexpected = 0;
    CHECK(new_store(&s) == CEDAR_OK && new_store(&t) == CEDAR_OK);
    for (long k = 0; k < rounds; k++) {
        content c = random_content();
        cedar_status status = BUILD(&s, c, CEDAR_COMPUTE);
        if (status == CEDAR_OK) {
            accepted++;
            if (!is_rebuilt_equal(&s, &c, &t)) unexpected++;
        } else if (status == CEDAR_BAD_ARGUMENT || status == CEDAR_NOT_A_UID || status == CEDAR_NOT_UTF8 ||
                   status == CEDAR_NOT_A_NAME) {
            rejected++;
        } else if (status != CEDAR_CYCLE) {
            unexpected++;
        }
    }
    printf("values.c: %ld random contents, %ld accepted, %ld rejected\n", rounds, accepted, rejected);
    CHECK(unexpected == 0);
    CHECK(accepted > rounds / 20 && rejected > rounds / 20);
    cedar_store_free(&s);
    cedar_store_free(&t);
}

int main(void) {
    values_are_returned_unchanged();
    attributes_and_tags();
    the_last_value_of_a_key_is_used();
    shared_nodes();
    indirect_ancestors();
    calls_without_content_agree();
    edits_with_content();
    last_value_is_unchanged();
    closed_handles();
    CHECK(new_store(&test_store) == CEDAR_OK && build(&test_store, "q", 0) == CEDAR_OK);
    terms_out_of_range();
    invalid_values();
    invalid_fields();
    number_of_levels();
    cedar_store_free(&test_store);
    random_nodes(20000);
    return report_counts();
}
