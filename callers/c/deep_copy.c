/* Tests of deep copies, deep slices and deep merges, which share nothing with their source. The allocation functions
 * are wrapped to record each block with the phase of its allocation. After a source is freed, a block of its phase
 * that is left must be shared with a copy. Then several threads use deep copies at the same time. Prints each
 * failure, and ends with `N passed, M failed`. Build it with `-pthread -Wl,--wrap=malloc -Wl,--wrap=realloc
 * -Wl,--wrap=calloc -Wl,--wrap=posix_memalign -Wl,--wrap=free`. */
#include "bodies.h"
#include <pthread.h>

/* ---- the record of the blocks that are not freed */

#define TABLE_SIZE 65536

static struct {
    void *at;
    int phase;
} blocks[TABLE_SIZE]; /* a hash table by address; a freed block leaves a hole */

static int hole;
static int current_phase; /* the current phase; 0: nothing is recorded */

void *__real_malloc(size_t size);
void *__real_realloc(void *at, size_t size);
void *__real_calloc(size_t count, size_t size);
int __real_posix_memalign(void **at, size_t align, size_t size);
void __real_free(void *at);
void *__wrap_malloc(size_t size);
void *__wrap_realloc(void *at, size_t size);
void *__wrap_calloc(size_t count, size_t size);
int __wrap_posix_memalign(void **at, size_t align, size_t size);
void __wrap_free(void *at);

static size_t table_index(const void *at) { return ((uintptr_t)at >> 4) * 0x9e3779b1u % TABLE_SIZE; }

static void record_block(void *at) {
    if (!current_phase || !at) return;
    size_t k = table_index(at);
    while (blocks[k].at && blocks[k].at != &hole) k = (k + 1) % TABLE_SIZE;
    blocks[k].at = at;
    blocks[k].phase = current_phase;
}

static void erase_block(const void *at) {
    if (!current_phase || !at) return;
    for (size_t k = table_index(at); blocks[k].at; k = (k + 1) % TABLE_SIZE) {
        if (blocks[k].at != at) continue;
        blocks[k].at = &hole;
        return;
    }
}

void *__wrap_malloc(size_t size) {
    void *at = __real_malloc(size);
    record_block(at);
    return at;
}

void *__wrap_calloc(size_t count, size_t size) {
    void *at = __real_calloc(count, size);
    record_block(at);
    return at;
}

int __wrap_posix_memalign(void **at, size_t align, size_t size) {
    int status = __real_posix_memalign(at, align, size);
    if (!status) record_block(*at);
    return status;
}

void *__wrap_realloc(void *at, size_t size) {
    erase_block(at);
    void *new_at = __real_realloc(at, size);
    record_block(new_at ? new_at : at);
    return new_at;
}

void __wrap_free(void *at) {
    erase_block(at);
    __real_free(at);
}

/* Returns the number of blocks of a phase that are not freed. */
static size_t blocks_of_phase(int phase) {
    size_t count = 0;
    for (size_t k = 0; k < TABLE_SIZE; k++) count += blocks[k].at && blocks[k].at != &hole && blocks[k].phase == phase;
    return count;
}

/* Empties the record and starts phase 1. */
static void begin_phases(void) {
    memset(blocks, 0, sizeof blocks);
    current_phase = 1;
}

/* ---- a store with every kind of content */

/* A uid with a namespace, and with non-ASCII characters in its eid. */
#define UNUSUAL_UID "N::s::T::\"\\u{301}\xc3\xa9\\\"\""

static cedar_status add_unusual_entity(cedar_store *s) {
    content c = with_entities("");
    c.l.count = push_text(&c.l, UNUSUAL_UID) + 1;
    c.l.edges[c.l.edges_len++] = (cedar_edge){0, push_text(&c.l, U("a"))};
    c.indirect[c.indirect_len++] = (cedar_edge){0, push_text(&c.l, "N::s::T::\"far\"")};
    cedar_span uid_span = push_bytes(&c, UNUSUAL_UID, strlen(UNUSUAL_UID));
    c.terms[c.terms_len++] = (cedar_term){0, 1, push_bytes(&c, "\xe2\x82\xac", 3), 0, 3};
    push_node(&c, CEDAR_UID, 0, uid_span, 0);
    push_nodes(&c, "@a {2");
    return cedar_store_add_with(s, CONTENT(c), CEDAR_COMPUTE);
}

static cedar_status build_full_store(cedar_store *s) {
    content c = with_entities("a b;b c;x ac;c");
    PUSH_TERMS(&c, {0, 0, "k", "'x '10.0.0.1 ip(1 'y 'z @b {2 [2"}, {0, 0, "", "'n 2 'r 'm 3 [1 [2"},
                   {0, 1, "k", "'User ~u:1 $0 = @c ^User & *"}, {2, 0, "l", "'\xc3\xa9"}, {3, 1, "t", "@a"});
    cedar_status status = new_store(s);
    if (!status) status = cedar_store_build_with(s, CONTENT(c), CEDAR_COMPUTE);
    return status ? status : add_unusual_entity(s);
}

/* Returns whether the store has all content of `build_full_store`. Ancestors are checked only of some entities. */
static bool is_full_store(cedar_store *s) {
    return cedar_store_len(s) == 5 && IS(value_at(s, U("a"), 0, "k"), "'x '10.0.0.1 ip(1 'y 'z @b {2 [2") &&
           IS(value_at(s, U("a"), 1, "k"), "'User ~u:1 $0 = @c ^User & *") && attributes(s, U("a")) == 2 &&
           IS(value_at(s, U("x"), 0, "l"), "'\xc3\xa9") && IS(value_at(s, U("c"), 1, "t"), "@a") &&
           tags(s, UNUSUAL_UID) == 1 && parents(s, U("x")) == CEDAR_OK && IS(store_result(s), "," U("a") "," U("c")) &&
           cedar_store_indirect_ancestors(s, TEXT(U("x"))) == CEDAR_OK && IS(store_result(s), "," U("b")) &&
           parents(s, UNUSUAL_UID) == CEDAR_OK && IS(store_result(s), "," U("a")) &&
           is_indirect_descendant(s, UNUSUAL_UID, "N::s::T::\"far\"") == 1 &&
           is_indirect_descendant(s, UNUSUAL_UID, U("c")) == 1;
}

/* Checks that freeing a source frees all its blocks if the copy is deep, and leaves some if the copy is shallow. */
static void copies_of_stores_share_nothing(void) {
    cedar_store s = {0}, t = {0}, u = {0};
    begin_phases();
    CHECK(build_full_store(&s) == CEDAR_OK && is_full_store(&s));
    current_phase = 2;
    CHECK(cedar_store_copy(&s, &t) == CEDAR_OK);
    cedar_store_free(&s);
    CHECK(blocks_of_phase(1) > 0 && is_full_store(&t));
    cedar_store_free(&t);
    CHECK(blocks_of_phase(1) == 0 && blocks_of_phase(2) == 0);

    begin_phases();
    CHECK(build_full_store(&s) == CEDAR_OK);
    size_t block_count = blocks_of_phase(1);
    current_phase = 2;
    CHECK(cedar_store_deep_copy(&s, &t) == CEDAR_OK && is_full_store(&t));
    CHECK(equal(&s, &t) == 1 && entity_equal(&s, UNUSUAL_UID, &t) == 1 && is_partial(&t) == 0);
    CHECK(blocks_of_phase(2) <= block_count);
    current_phase = 3;
    CHECK(cedar_store_partial(&t) == CEDAR_OK && cedar_store_deep_copy(&t, &u) == CEDAR_OK && is_partial(&u) == 1);
    CHECK(equal(&t, &u) == 1 && equal(&s, &u) == 0 && blocks_of_phase(3) <= block_count);
    cedar_store_free(&s);
    CHECK(blocks_of_phase(1) == 0 && is_full_store(&t) && is_full_store(&u));
    cedar_store_free(&t);
    CHECK(blocks_of_phase(2) == 0 && is_full_store(&u));
    CHECK(upsert(&u, "y x;b", CEDAR_COMPUTE) == CEDAR_OK && is_descendant(&u, U("y"), U("c")) == 1);
    cedar_store_free(&u);
    CHECK(blocks_of_phase(3) == 0);

    begin_phases();
    CHECK(build_full_store(&s) == CEDAR_OK);
    current_phase = 2;
    CHECK(slice(&s, &t, "b") == CEDAR_OK && slice_deep_copy(&s, &u, "b") == CEDAR_OK && equal(&t, &u) == 1);
    cedar_store_free(&s);
    CHECK(blocks_of_phase(1) > 0);
    cedar_store_free(&t);
    CHECK(blocks_of_phase(1) == 0 && cedar_store_len(&u) == 2 && IS(value_at(&u, U("c"), 1, "t"), "@a"));
    cedar_store_free(&u);
    CHECK(blocks_of_phase(2) == 0);
    current_phase = 0;
}

/* Checks the statuses, and what a failed call leaves unchanged. */
static void errors_of_store_copies(void) {
    cedar_store s = {0}, t = {0};
    const uint8_t *text = bytes("A::b");
    cedar_span part = {0, 4}, beyond = {0, 5};
    CHECK(cedar_store_deep_copy(&s, &t) == CEDAR_CLOSED && slice_deep_copy(&s, &t, "a") == CEDAR_CLOSED && !t.is_open);
    CHECK(new_store(&t) == CEDAR_OK && build(&t, "q", CEDAR_COMPUTE) == CEDAR_OK);
    CHECK(cedar_store_deep_copy(&s, &t) == CEDAR_CLOSED && cedar_store_len(&t) == 1);
    CHECK(new_store(&s) == CEDAR_OK && build(&s, "a b;b", CEDAR_COMPUTE) == CEDAR_OK);
    CHECK(build(&t, "m m", CEDAR_COMPUTE) == CEDAR_CYCLE && ancestors(&s, U("a")) == CEDAR_OK);
    CHECK(cedar_store_slice_deep_copy(&s, &t, text, 4, &part, 1) == CEDAR_NOT_A_UID && t.is_open);
    CHECK(cedar_store_slice_deep_copy(&s, &t, text, 4, &beyond, 1) == CEDAR_BAD_ARGUMENT);
    CHECK(IS(store_error(&t), "cycle at " U("m")) && IS(store_result(&s), "," U("b")));
    CHECK(cedar_store_deep_copy(&s, &t) == CEDAR_OK && IS(store_result(&t), "") && IS(store_error(&t), ""));
    CHECK(slice_deep_copy(&s, &t, "") == CEDAR_OK && cedar_store_len(&t) == 0 && IS(store_result(&s), "," U("b")));
    CHECK(slice_deep_copy(&s, &t, "zz") == CEDAR_OK && cedar_store_len(&t) == 0);
    cedar_store_free(&s);
    cedar_store_free(&t);
}

/* ---- a policy set with every kind of content */

/* Builds a set in which links come both before and after static policies. */
static cedar_status build_full_set(cedar_policies *p) {
    policy_body full = full_body(), slots = empty_body();
    slots.body.principal = push_scope(&slots, 7, "", "N::User");
    slots.body.action = push_scope(&slots, 4, "", "");
    slots.body.resource = push_scope(&slots, 2, "", "");
    push_annotation(&slots, "if", "\xc3\xa9\"");
    cedar_status status = new_set(p);
    if (!status) status = add_static(p, "s", 1);
    if (!status) status = insert_template_body(p, "t", &slots);
    if (!status) status = link_id(p, "t", "l", UNUSUAL_UID, "Action::\"x\"", U("r"));
    if (!status) status = insert_static_body(p, "w", &full);
    if (!status) status = add_template(p, "\xe2\x82\xac", 1);
    if (!status) status = link_id(p, "t", "m", U("a"), "Action::\"y\"", UNUSUAL_UID);
    if (!status) status = link_id(p, "\xe2\x82\xac", "n", UNUSUAL_UID, "", "");
    if (!status) status = add_static(p, "", 0);
    return status;
}

static bool is_full_set(cedar_policies *p) {
    return cedar_policies_ids(p, 0) == CEDAR_OK && IS(set_result(p), ",s,t,w,\xe2\x82\xac,") &&
           cedar_policies_ids(p, 1) == CEDAR_OK && IS(set_result(p), ",s,l,w,m,n,") &&
           cedar_policies_env(p, TEXT("l")) == CEDAR_OK &&
           IS(set_result(p), "," UNUSUAL_UID ",Action::\"x\"," U("r")) && IS(clause_of(p, "w"), "$0 @b =") &&
           IS(scope_text(p, "t", 0), "7,N::User") && effect_of(p, "s") == 1 && has_annotation(p, "t", "if") == 1 &&
           IS(set_result(p), ",\xc3\xa9\"") && cedar_policies_linked(p, TEXT("t")) == CEDAR_OK &&
           IS(set_result(p), ",l,m");
}

static void copies_of_sets_share_nothing(void) {
    cedar_policies p = {0}, q = {0}, r = {0};
    begin_phases();
    CHECK(build_full_set(&p) == CEDAR_OK && is_full_set(&p));
    current_phase = 2;
    CHECK(cedar_policies_copy(&p, &q) == CEDAR_OK);
    cedar_policies_free(&p);
    CHECK(blocks_of_phase(1) > 0 && is_full_set(&q));
    cedar_policies_free(&q);
    CHECK(blocks_of_phase(1) == 0 && blocks_of_phase(2) == 0);

    begin_phases();
    CHECK(build_full_set(&p) == CEDAR_OK);
    size_t block_count = blocks_of_phase(1);
    current_phase = 2;
    CHECK(cedar_policies_deep_copy(&p, &q) == CEDAR_OK && sets_equal(&p, &q) == 1 && IS(set_result(&q), ""));
    CHECK(blocks_of_phase(2) <= block_count);
    cedar_policies_free(&p);
    CHECK(blocks_of_phase(1) == 0 && is_full_set(&q));
    current_phase = 3;
    CHECK(unlink_id(&q, "l") == CEDAR_OK && unlink_id(&q, "m") == CEDAR_OK && remove_template(&q, "t") == CEDAR_OK);
    CHECK(cedar_policies_deep_copy(&q, &r) == CEDAR_OK && sets_equal(&q, &r) == 1);
    cedar_policies_free(&q);
    CHECK(blocks_of_phase(2) == 0);
    cedar_policies_free(&r);
    CHECK(blocks_of_phase(3) == 0);
}

/* Checks that freeing the source of a merge frees all its blocks if the merge is deep, and leaves some if it is not. */
static void deep_merges_share_nothing(void) {
    cedar_policies p = {0}, q = {0}, r = {0};
    for (int deep = 0; deep < 2; deep++) {
        begin_phases();
        CHECK(build_full_set(&q) == CEDAR_OK);
        current_phase = 2;
        CHECK(new_set(&p) == CEDAR_OK && add_static(&p, "s", 0) == CEDAR_OK && add_template(&p, "o", 1) == CEDAR_OK);
        CHECK(link_id(&p, "o", "policy0", U("a"), "", "") == CEDAR_OK && cedar_policies_copy(&p, &r) == CEDAR_OK);
        cedar_status (*merge)(cedar_policies *, cedar_policies *, bool) =
            deep ? cedar_policies_merge_deep_copy : cedar_policies_merge;
        CHECK(merge(&p, &q, false) == CEDAR_OCCUPIED && sets_equal(&p, &r) == 1);
        CHECK(strstr(set_error(&p), " s"));
        CHECK(merge(&p, &q, true) == CEDAR_OK && IS(set_result(&p), ",s,policy1") && is_full_set(&q));
        CHECK(merge(&p, &q, true) == CEDAR_OK);
        cedar_policies_free(&q);
        CHECK((blocks_of_phase(1) == 0) == (deep == 1));
        CHECK(effect_of(&p, "policy1") == 1 && IS(clause_of(&p, "w"), "$0 @b =") && kind_of(&p, "n") == 2);
        CHECK(merge(&r, &p, true) == CEDAR_OK && kind_of(&r, "m") == 2);
        cedar_policies_free(&p);
        cedar_policies_free(&r);
        CHECK(blocks_of_phase(1) == 0 && blocks_of_phase(2) == 0);
    }
    current_phase = 0;
}

static void errors_of_set_copies(void) {
    cedar_policies p = {0}, q = {0};
    CHECK(cedar_policies_deep_copy(&p, &q) == CEDAR_CLOSED && !q.is_open);
    CHECK(cedar_policies_merge_deep_copy(&p, &q, true) == CEDAR_CLOSED);
    CHECK(new_set(&q) == CEDAR_OK && add_static(&q, "a", 0) == CEDAR_OK && unlink_id(&q, "z") == CEDAR_NO_LINK);
    CHECK(cedar_policies_deep_copy(&p, &q) == CEDAR_CLOSED && kind_of(&q, "a") == 1);
    CHECK(cedar_policies_merge_deep_copy(&q, &p, true) == CEDAR_CLOSED && IS(set_error(&q), "no link z"));
    CHECK(new_set(&p) == CEDAR_OK && cedar_policies_deep_copy(&p, &q) == CEDAR_OK && sets_equal(&p, &q) == 1);
    CHECK(IS(set_error(&q), "") && kind_of(&q, "a") == 0);
    cedar_policies_free(&p);
    cedar_policies_free(&q);
}

/* ---- threads, each with deep copies of its own */

#define THREADS 4
#define ROUNDS 50

typedef struct task {
    cedar_store s;
    cedar_policies p;
    unsigned errors;
} task;

/* Copies, queries and changes the handles of this thread. */
static void use_store(cedar_store *s, unsigned *errors) {
    for (int k = 0; k < ROUNDS; k++) {
        cedar_store copy = {0}, part = {0}, deep = {0};
        *errors += cedar_store_copy(s, &copy) != CEDAR_OK || slice(s, &part, "x") != CEDAR_OK;
        *errors += upsert(&copy, "y x;b", CEDAR_COMPUTE) != CEDAR_OK || is_descendant(&copy, U("y"), U("c")) != 1;
        *errors += is_descendant(s, U("x"), U("b")) != 1 || cedar_store_ancestors(&part, TEXT(U("x"))) != CEDAR_OK;
        *errors += cedar_store_deep_copy(s, &deep) != CEDAR_OK || equal(s, &deep) != 1 || equal(s, &copy) != 0;
        cedar_store_free(&copy);
        cedar_store_free(&part);
        cedar_store_free(&deep);
    }
}

static void use_set(cedar_policies *p, unsigned *errors) {
    for (int k = 0; k < ROUNDS; k++) {
        cedar_policies copy = {0}, deep = {0};
        *errors += cedar_policies_copy(p, &copy) != CEDAR_OK || cedar_policies_deep_copy(p, &deep) != CEDAR_OK;
        *errors += link_id(&copy, "t", "k", U("a"), "Action::\"x\"", U("b")) != CEDAR_OK || kind_of(&copy, "k") != 2;
        *errors += unlink_id(&deep, "l") != CEDAR_OK || cedar_policies_merge(&deep, p, true) != CEDAR_OK;
        *errors += kind_of(&deep, "l") != 2 || sets_equal(&deep, p) != 0 || kind_of(p, "k") != 0;
        cedar_policies_free(&copy);
        cedar_policies_free(&deep);
    }
}

static void *run_task(void *at) {
    task *t = at;
    use_store(&t->s, &t->errors);
    use_set(&t->p, &t->errors);
    cedar_store_free(&t->s);
    cedar_policies_free(&t->p);
    return NULL;
}

static void threads_use_their_own_copies(void) {
    cedar_store s = {0};
    cedar_policies p = {0};
    pthread_t threads[THREADS];
    task tasks[THREADS];
    unsigned errors = 0;
    memset(tasks, 0, sizeof tasks);
    CHECK(build_full_store(&s) == CEDAR_OK && build_full_set(&p) == CEDAR_OK);
    for (int k = 0; k < THREADS; k++) {
        CHECK(cedar_store_deep_copy(&s, &tasks[k].s) == CEDAR_OK);
        CHECK(cedar_policies_deep_copy(&p, &tasks[k].p) == CEDAR_OK);
        CHECK(pthread_create(&threads[k], NULL, run_task, &tasks[k]) == 0);
    }
    use_store(&s, &errors);
    use_set(&p, &errors);
    for (int k = 0; k < THREADS; k++) {
        CHECK(pthread_join(threads[k], NULL) == 0);
        errors += tasks[k].errors;
    }
    CHECK(errors == 0 && is_full_store(&s) && is_full_set(&p));
    cedar_store_free(&s);
    cedar_policies_free(&p);
}

/* ---- handles that share, used by several threads, one at a time */

static pthread_mutex_t group = PTHREAD_MUTEX_INITIALIZER;

/* A store, its copy and its slice, which share entities, and the errors of all threads. The mutex guards them. */
static struct {
    cedar_store s, copy, part;
    cedar_policies p;
    unsigned errors;
} shared;

/* Reads, edits and copies handles that share, and frees one of them, each time with the mutex. */
static void *use_shared_handles(void *unused) {
    cedar_store own = {0};
    (void)unused;
    for (int round = 0; round < 20; round++) {
        pthread_mutex_lock(&group);
        shared.errors += is_descendant(&shared.s, U("a"), U("c")) != 1 || !is_full_set(&shared.p);
        shared.errors += upsert(&shared.copy, round % 2 ? "a" : "a b", CEDAR_COMPUTE) != CEDAR_OK;
        shared.errors += slice(&shared.s, &shared.part, "x") != CEDAR_OK || cedar_store_copy(&shared.copy, &own);
        pthread_mutex_unlock(&group);
        pthread_mutex_lock(&group);
        shared.errors += has(&own, U("c")) != 1 || has(&shared.part, U("a")) != 1;
        cedar_store_free(&own);
        pthread_mutex_unlock(&group);
    }
    return NULL;
}

static void threads_share_handles_one_at_a_time(void) {
    pthread_t threads[THREADS];
    CHECK(build_full_store(&shared.s) == CEDAR_OK && build_full_set(&shared.p) == CEDAR_OK);
    CHECK(cedar_store_copy(&shared.s, &shared.copy) == CEDAR_OK);
    for (int k = 0; k < THREADS; k++) CHECK(pthread_create(&threads[k], NULL, use_shared_handles, NULL) == 0);
    for (int k = 0; k < THREADS; k++) CHECK(pthread_join(threads[k], NULL) == 0);
    CHECK(shared.errors == 0 && is_full_store(&shared.s));
    cedar_store_free(&shared.s);
    cedar_store_free(&shared.copy);
    cedar_store_free(&shared.part);
    cedar_policies_free(&shared.p);
}

int main(void) {
    copies_of_stores_share_nothing();
    errors_of_store_copies();
    copies_of_sets_share_nothing();
    deep_merges_share_nothing();
    errors_of_set_copies();
    threads_use_their_own_copies();
    threads_share_handles_one_at_a_time();
    return report_counts();
}
