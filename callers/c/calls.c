/* Calls each function of the library: worked cases, each status, invalid input, and handles that are closed or freed
 * twice. Prints each failed check, and ends with `N passed, M failed`. */
#include "short.h"
#include <malloc.h>

/* ---- the program, and uids */

static void program(void) {
    const char *input = "ent\t" U("a") "\t" U("b") "\nbuild\nanc\t" U("a") "\nno command\n";
    const char *expected = "ok 1\nanc\t" U("b") "\nline 4: not a command\n";
    uint8_t out[64];
    size_t length = 0;
    uint32_t exit_status = 9;
    CHECK(cedar_run(TEXT(input), 1, 2, out, sizeof out, &length, &exit_status) == CEDAR_OK);
    CHECK(length == strlen(expected) && !memcmp(out, expected, length) && exit_status == 2);
    memset(out, '.', sizeof out);
    CHECK(cedar_run(TEXT(input), 0, 0, out, 3, &length, &exit_status) == CEDAR_OK);
    CHECK(length == strlen(expected) && !memcmp(out, "ok .", 4));
    CHECK(cedar_run(TEXT(""), 0, 0, out, 0, &length, &exit_status) == CEDAR_OK && length == 0 && exit_status == 0);
}

static void uid_texts(void) {
    CHECK(cedar_uid_check(TEXT(U("a"))) == CEDAR_OK);
    CHECK(cedar_uid_check(TEXT("A::B::C::\"\\n\\\"\"")) == CEDAR_OK);
    CHECK(cedar_uid_check(TEXT("A::\"\"")) == CEDAR_OK);
    CHECK(cedar_uid_check(TEXT("A::\"\xc3\xa9\"")) == CEDAR_OK);
    CHECK(cedar_uid_check(TEXT("A::\"it\\'s\\t\"")) == CEDAR_OK);
    CHECK(cedar_uid_check(TEXT("A::\"A::B::\\\"quoted\\\"\"")) == CEDAR_OK);
    CHECK(cedar_uid_check(TEXT("A::\"\\u{0041}\"")) == CEDAR_NOT_A_UID);
    CHECK(cedar_uid_check(TEXT("A::\"it's\"")) == CEDAR_NOT_A_UID);
    CHECK(cedar_uid_check(TEXT("")) == CEDAR_NOT_A_UID);
    CHECK(cedar_uid_check(TEXT("A::a")) == CEDAR_NOT_A_UID);
    CHECK(cedar_uid_check(TEXT("1::\"a\"")) == CEDAR_NOT_A_UID);
    CHECK(cedar_uid_check(TEXT("if::\"a\"")) == CEDAR_NOT_A_UID);
    CHECK(cedar_uid_check(TEXT(U("a") " ")) == CEDAR_NOT_A_UID);
    CHECK(cedar_uid_check(TEXT("A::\"\xff\"")) == CEDAR_NOT_A_UID);
}

/* Returns the position of the first part of a list that is not the text of a uid, and the status after it. */
static const char *first_invalid_uid(const char *text, const cedar_span *uids, size_t uids_len) {
    static char out[32];
    size_t place = 99;
    cedar_status status = cedar_uids_check(TEXT(text), uids, uids_len, &place);
    snprintf(out, sizeof out, "%u at %u", (unsigned)status, (unsigned)place);
    return out;
}

static void uid_lists(void) {
    const char *text = U("a") U("b") "A::c" U("\"");
    cedar_span uids[5] = {{0, 6}, {6, 12}, {12, 16}, {16, 22}, {23, 22}};
    CHECK(IS(first_invalid_uid(text, uids, 0), "0 at 99") && IS(first_invalid_uid(text, uids, 2), "0 at 99"));
    CHECK(IS(first_invalid_uid(text, uids, 3), "4 at 2") && IS(first_invalid_uid(text, uids, 5), "4 at 2"));
    CHECK(IS(first_invalid_uid(text, uids + 3, 1), "4 at 0") && IS(first_invalid_uid(text, uids + 4, 1), "3 at 0"));
    uids[2].end = 1000;
    CHECK(IS(first_invalid_uid(text, uids, 3), "3 at 2"));
    uids[1].start = 7;
    CHECK(IS(first_invalid_uid(text, uids, 3), "4 at 1"));
}

/* Returns the names in the text of an error, each in brackets. */
static const char *names_in_error(cedar_status status, const char *text) {
    static char out[160];
    cedar_span part;
    size_t at = 0, place = 0;
    for (; cedar_error_part(status, TEXT(text), place, &part); place++)
        at += (size_t)snprintf(out + at, sizeof out - at, "[%.*s]", (int)(part.end - part.start), text + part.start);
    part = (cedar_span){7, 9};
    CHECK(!cedar_error_part(status, TEXT(text), SIZE_MAX, &part) && part.start == 7 && part.end == 9);
    out[at] = 0;
    return out;
}

static void names_in_error_texts(void) {
    const char *missing = "arity: the following slots were not provided as arguments: ?principal,?resource";
    const char *missing_and_extra =
        "arity: the following slots were not provided as arguments: ?principal. The following slots were "
        "provided as arguments, but did not exist in the template: ?action,?resource";
    CHECK(IS(names_in_error(CEDAR_DUPLICATE, "duplicate entity " U("a")), "[" U("a") "]"));
    CHECK(IS(names_in_error(CEDAR_NOT_CLOSED, "ancestors not closed at " U("a") " A::B::\"x \\\" y\\\\\" " U("")),
             "[" U("a") "][A::B::\"x \\\" y\\\\\"][" U("") "]"));
    CHECK(IS(names_in_error(CEDAR_CYCLE, "cycle at A::\"\\u{7f} \xc3\xa9\""), "[A::\"\\u{7f} \xc3\xa9\"]"));
    CHECK(IS(names_in_error(CEDAR_NOT_AN_ACTION, "not an action " U("a")), "[" U("a") "]"));
    CHECK(IS(names_in_error(CEDAR_RESERVED_KEY, "reserved key __entity"), "[__entity]"));
    CHECK(IS(names_in_error(CEDAR_OCCUPIED, "occupied a b"), "[a b]") &&
          IS(names_in_error(CEDAR_NO_LINK, "no link "), "[]"));
    CHECK(IS(names_in_error(CEDAR_ARITY, missing), "[?principal][?resource]"));
    CHECK(IS(names_in_error(CEDAR_ARITY, missing_and_extra), "[?principal][?action][?resource]"));
    CHECK(IS(names_in_error(CEDAR_OK, "ok"), "") && IS(names_in_error(CEDAR_NO_MEMORY, "out of memory x"), "") &&
          IS(names_in_error(99, "x y"), ""));
    CHECK(IS(names_in_error(CEDAR_NOT_A_UID, "not a uid"), "") && IS(names_in_error(CEDAR_DUPLICATE, ""), ""));
    CHECK(IS(names_in_error(CEDAR_OCCUPIED, "occ"), "") && IS(names_in_error(CEDAR_ARITY, ""), "") &&
          IS(names_in_error(CEDAR_CYCLE, "cycle at"), ""));
}

/* Returns what a call wrote and the length of the whole result after the text, or 100 and the status. */
static const char *make_uid(const char *type, const char *id, size_t capacity) {
    static char out[96];
    uint8_t text[64];
    size_t length = 99;
    memset(text, '.', sizeof text);
    cedar_status status = cedar_uid_make(TEXT(type), TEXT(id), text, capacity, &length);
    snprintf(out, sizeof out, "%.*s %u", (int)(length < capacity ? length + 1 : capacity + 1), (char *)text,
             (unsigned)(status ? 100 + status : length));
    return out;
}

static void making_uids(void) {
    CHECK(IS(make_uid("A", "a", 64), "A::\"a\". 6"));
    CHECK(IS(make_uid("User", "O'Brien", 64), "User::\"O\\'Brien\". 16"));
    CHECK(IS(make_uid("A::B::C", "", 64), "A::B::C::\"\". 11"));
    CHECK(IS(make_uid("A", "A::\"\n\"", 64), "A::\"A::\\\"\\n\\\"\". 14"));
    CHECK(IS(make_uid("A", "\xc3\xa9", 64), "A::\"\xc3\xa9\". 7"));
    CHECK(IS(make_uid("A", "abc", 3), "A::. 8") && IS(make_uid("A", "abc", 0), ". 8"));
    CHECK(IS(make_uid("", "a", 2), "... 127") && IS(make_uid("A B", "a", 2), "... 127") &&
          IS(make_uid("if", "a", 2), "... 127"));
    CHECK(IS(make_uid("A::", "a", 2), "... 127") && IS(make_uid("1", "a", 2), "... 127"));
    CHECK(IS(make_uid("\xff", "a", 2), "... 127") && IS(make_uid("A", "\xff", 2), "... 105"));
}

static void splitting_uids(void) {
    uint8_t out[32];
    size_t type_len = 9, length = 9;
    memset(out, '.', sizeof out);
    CHECK(cedar_uid_parts(TEXT("A::B::\"O\\'Brien\""), out, sizeof out, &type_len, &length) == CEDAR_OK);
    CHECK(type_len == 4 && length == 11 && !memcmp(out, "A::BO'Brien.", 12));
    memset(out, '.', sizeof out);
    CHECK(cedar_uid_parts(TEXT("A::\"\""), out, sizeof out, &type_len, &length) == CEDAR_OK);
    CHECK(type_len == 1 && length == 1 && !memcmp(out, "A.", 2));
    CHECK(cedar_uid_parts(TEXT("AB::\"\xc3\xa9\""), out, 3, &type_len, &length) == CEDAR_OK);
    CHECK(type_len == 2 && length == 4 && !memcmp(out, "AB\xc3.", 4));
    CHECK(cedar_uid_parts(TEXT("AB::c"), out, 3, &type_len, &length) == CEDAR_NOT_A_UID);
    CHECK(type_len == 2 && length == 4 && !memcmp(out, "AB\xc3.", 4));
}

static void versions_and_status_texts(void) {
    uint8_t out[16];
    CHECK(cedar_version() == CEDAR_VERSION);
    memset(out, '.', sizeof out);
    CHECK(cedar_status_copy_text(CEDAR_OK, out, 16) == 2 && !memcmp(out, "ok.", 3));
    CHECK(cedar_status_copy_text(CEDAR_NOT_A_UID, out, 16) == 9 && !memcmp(out, "not a uid.", 10));
    CHECK(cedar_status_copy_text(CEDAR_NOT_A_NAME, out, 5) == 10 && !memcmp(out, "not a uid.", 10));
    CHECK(cedar_status_copy_text(CEDAR_TOO_DEEP, out, 0) == 8);
    CHECK(cedar_status_copy_text(CEDAR_SLOTLESS_LINK, out, 0) == 18);
    CHECK(cedar_status_copy_text(CEDAR_STATUSES, out, 16) == 0 && !*cedar_status_words((cedar_status)CEDAR_STATUSES));
    CHECK(cedar_status_copy_text(1000, out, 16) == 0 && cedar_status_copy_text(UINT32_MAX, out, 16) == 0);
    CHECK(!memcmp(out, "not a uid.", 10));
    for (uint32_t status = 0; status < CEDAR_STATUSES; status++) {
        const char *words = cedar_status_words((cedar_status)status), *name = cedar_status_name((cedar_status)status);
        uint8_t text[64];
        size_t len = cedar_status_copy_text(status, text, sizeof text);
        CHECK(len == strlen(words) && !memcmp(text, words, len) && !strncmp(name, "CEDAR_", 6));
    }
}

/* ---- stores */

static void closed_store(void) {
    cedar_store s = {0}, t = {0};
    bool result = true;
    CHECK(sizeof s == 16);
    CHECK(cedar_store_len(&s) == 0);
    CHECK(build(&s, "a b", CEDAR_COMPUTE) == CEDAR_CLOSED);
    CHECK(add(&s, "a b", CEDAR_COMPUTE) == CEDAR_CLOSED);
    CHECK(upsert(&s, "a b", CEDAR_COMPUTE) == CEDAR_CLOSED);
    CHECK(remove_uids(&s, "a", CEDAR_COMPUTE) == CEDAR_CLOSED);
    CHECK(cedar_store_has(&s, TEXT(U("a")), &result) == CEDAR_CLOSED && result);
    CHECK(cedar_store_is_descendant_of(&s, TEXT(U("a")), TEXT(U("b")), &result) == CEDAR_CLOSED && result);
    CHECK(ancestors(&s, U("a")) == CEDAR_CLOSED && parents(&s, U("a")) == CEDAR_CLOSED);
    CHECK(cedar_store_validate(&s) == CEDAR_CLOSED);
    CHECK(slice(&s, &t, "a") == CEDAR_CLOSED && cedar_store_copy(&s, &t) == CEDAR_CLOSED);
    CHECK(cedar_store_equal(&s, &t, &result) == CEDAR_CLOSED && result);
    CHECK(!s.is_open && !t.is_open);
}

static void closed_store_has_no_output(void) {
    cedar_store s = {0};
    uint8_t out[4] = {7, 7, 7, 7};
    cedar_span spans[1] = {{5, 6}};
    CHECK(cedar_store_result(&s, 0, out, 4) == 0 && out[0] == 7);
    CHECK(cedar_store_result_spans(&s, 0, spans, 1) == 0 && spans[0].start == 5);
    CHECK(cedar_store_error_text(&s, out, 4) == 0 && out[0] == 7);
}

static void one_store_closed(void) {
    cedar_store s = {0}, t = {0};
    bool result = true;
    CHECK(new_store(&t) == CEDAR_OK && t.is_open);
    CHECK(cedar_store_equal(&s, &t, &result) == CEDAR_CLOSED && cedar_store_equal(&t, &s, &result) == CEDAR_CLOSED);
    CHECK(result && t.is_open);
    CHECK(build(&t, "q", CEDAR_COMPUTE) == CEDAR_OK);
    CHECK(slice(&s, &t, "a") == CEDAR_CLOSED && cedar_store_len(&t) == 1 && t.is_open);
    CHECK(cedar_store_copy(&s, &t) == CEDAR_CLOSED && cedar_store_len(&t) == 1 && t.is_open);
    cedar_store_free(&t);
    cedar_store_free(&t);
    cedar_store_free(&s);
    CHECK(!t.is_open && cedar_store_len(&t) == 0 && build(&t, "a", CEDAR_COMPUTE) == CEDAR_CLOSED);
}

static void building(void) {
    cedar_store s = {0};
    CHECK(new_store(&s) == CEDAR_OK && new_store(&s) == CEDAR_OK);
    CHECK(cedar_store_len(&s) == 0 && has(&s, U("a")) == 0);
    CHECK(build(&s, "a b;b c;c de;x", CEDAR_COMPUTE) == CEDAR_OK);
    CHECK(cedar_store_len(&s) == 4);
    CHECK(has(&s, U("a")) == 1 && has(&s, U("d")) == 0 && has(&s, U("x")) == 1);
    CHECK(has(&s, "A::a") == 100 + CEDAR_NOT_A_UID);
    CHECK(is_descendant(&s, U("a"), U("b")) == 1 && is_descendant(&s, U("a"), U("d")) == 1 &&
          is_descendant(&s, U("a"), U("e")) == 1);
    CHECK(is_descendant(&s, U("a"), U("a")) == 0 && is_descendant(&s, U("b"), U("a")) == 0 &&
          is_descendant(&s, U("x"), U("a")) == 0);
    CHECK(is_descendant(&s, U("d"), U("e")) == 100 + CEDAR_NO_ENTITY);
    CHECK(is_descendant(&s, "A::a", U("e")) == 100 + CEDAR_NOT_A_UID &&
          is_descendant(&s, U("a"), "e") == 100 + CEDAR_NOT_A_UID);
    /* an entity that occurs twice with the same parents counts once; repeated parents, in any order, are a set */
    CHECK(build(&s, "a cbc;a bc", CEDAR_COMPUTE) == CEDAR_OK && cedar_store_len(&s) == 1);
    CHECK(parents(&s, U("a")) == CEDAR_OK && IS(store_result(&s), "," U("b") "," U("c")));
    CHECK(build(&s, "", CEDAR_COMPUTE) == CEDAR_OK && cedar_store_len(&s) == 0);
    cedar_store_free(&s);
}

static void listing(void) {
    cedar_store s = {0};
    CHECK(new_store(&s) == CEDAR_OK && build(&s, "a b;b c;c de;x", CEDAR_COMPUTE) == CEDAR_OK);
    CHECK(ancestors(&s, U("a")) == CEDAR_OK);
    CHECK(IS(store_result(&s), "," U("b") "," U("c") "," U("d") "," U("e")));
    CHECK(parents(&s, U("a")) == CEDAR_OK && IS(store_result(&s), "," U("b")));
    CHECK(parents(&s, U("c")) == CEDAR_OK && IS(store_result(&s), "," U("d") "," U("e")));
    CHECK(ancestors(&s, U("z")) == CEDAR_NO_ENTITY && parents(&s, U("z")) == CEDAR_NO_ENTITY);
    CHECK(ancestors(&s, "z") == CEDAR_NOT_A_UID && parents(&s, "z") == CEDAR_NOT_A_UID);
    CHECK(IS(store_result(&s), "," U("d") "," U("e")));
    CHECK(ancestors(&s, U("x")) == CEDAR_OK && IS(store_result(&s), ""));
    cedar_store_free(&s);
}

static void copying_out(void) {
    cedar_store s = {0};
    uint8_t out[16];
    cedar_span spans[3] = {{9, 9}, {9, 9}, {9, 9}};
    CHECK(new_store(&s) == CEDAR_OK && build(&s, "a bc", CEDAR_COMPUTE) == CEDAR_OK && parents(&s, U("a")) == CEDAR_OK);
    memset(out, '.', sizeof out);
    CHECK(cedar_store_result(&s, 0, out, 16) == 12 && !memcmp(out, U("b") U("c") "....", 16));
    memset(out, '.', sizeof out);
    CHECK(cedar_store_result(&s, 0, out, 5) == 12 && !memcmp(out, "A::\"b...", 8));
    memset(out, '.', sizeof out);
    CHECK(cedar_store_result(&s, 6, out, 16) == 12 && !memcmp(out, U("c") "..", 8));
    memset(out, '.', sizeof out);
    CHECK(cedar_store_result(&s, 12, out, 16) == 12 && cedar_store_result(&s, SIZE_MAX, out, 16) == 12);
    CHECK(!memcmp(out, "....", 4) && cedar_store_result(&s, 0, out, 0) == 12);
    CHECK(cedar_store_result_spans(&s, 0, spans, 3) == 2 && spans[2].start == 9);
    CHECK(spans[0].start == 0 && spans[0].end == 6 && spans[1].start == 6 && spans[1].end == 12);
    CHECK(cedar_store_result_spans(&s, 1, spans, 3) == 2 && spans[0].start == 6 && spans[0].end == 12);
    CHECK(cedar_store_result_spans(&s, 2, spans, 3) == 2 && cedar_store_result_spans(&s, SIZE_MAX, spans, 3) == 2);
    CHECK(cedar_store_result_spans(&s, 0, spans, 0) == 2 && spans[0].start == 6);
    cedar_store_free(&s);
}

/* Checks that calls without a result do not change the last result, and that calls without an error do not change the
 * last error. */
static void last_texts_are_unchanged(void) {
    const char *ancestor_texts = "," U("b") "," U("c"), *error_text = "duplicate entity " U("a");
    cedar_store s = {0}, t = {0};
    CHECK(new_store(&s) == CEDAR_OK && build(&s, "a bc", CEDAR_COMPUTE) == CEDAR_OK &&
          ancestors(&s, U("a")) == CEDAR_OK);
    CHECK(build(&s, "a b;a c", CEDAR_COMPUTE) == CEDAR_DUPLICATE && IS(store_error(&s), error_text));
    CHECK(IS(store_result(&s), ancestor_texts));
    CHECK(build(&s, "x y;y z", CEDAR_COMPUTE) == CEDAR_OK && add(&s, "v x", CEDAR_COMPUTE) == CEDAR_OK);
    CHECK(upsert(&s, "v y", CEDAR_COMPUTE) == CEDAR_OK && remove_uids(&s, "x", CEDAR_COMPUTE) == CEDAR_OK);
    CHECK(has(&s, U("v")) == 1 && is_descendant(&s, U("v"), U("z")) == 1 && cedar_store_validate(&s) == CEDAR_OK);
    CHECK(slice(&s, &t, "v") == CEDAR_OK && cedar_store_copy(&s, &t) == CEDAR_OK && equal(&s, &t) == 1);
    CHECK(parents(&s, U("q")) == CEDAR_NO_ENTITY && build(&s, "a", 3) == CEDAR_BAD_ARGUMENT);
    CHECK(IS(store_result(&s), ancestor_texts) && IS(store_error(&s), error_text));
    CHECK(IS(store_result(&t), "") && IS(store_error(&t), ""));
    CHECK(parents(&s, U("v")) == CEDAR_OK && IS(store_result(&s), "," U("y")) && IS(store_error(&s), error_text));
    CHECK(new_store(&s) == CEDAR_OK && IS(store_result(&s), "") && IS(store_error(&s), ""));
    cedar_store_free(&s);
    cedar_store_free(&t);
}

/* Creates a store with only q. */
static void build_only_q(cedar_store *s) {
    CHECK(new_store(s) == CEDAR_OK && build(s, "q", CEDAR_COMPUTE) == CEDAR_OK);
}

/* Checks that input that cannot be read leaves the store as it was. */
static void check_only_q(cedar_store *s) {
    CHECK(cedar_store_len(s) == 1 && has(s, U("q")) == 1);
    cedar_store_free(s);
}

static void arguments_out_of_range(void) {
    cedar_store s = {0};
    build_only_q(&s);
    CHECK(build(&s, "a b", 3) == CEDAR_BAD_ARGUMENT && add(&s, "a b", 77) == CEDAR_BAD_ARGUMENT);
    CHECK(upsert(&s, "a b", UINT32_MAX) == CEDAR_BAD_ARGUMENT && remove_uids(&s, "q", 3) == CEDAR_BAD_ARGUMENT);
    list l = parse_entities("a b");
    l.count = 3;
    CHECK(cedar_store_add(&s, ENTITIES(l), 0) == CEDAR_BAD_ARGUMENT);
    l.count = SIZE_MAX;
    CHECK(cedar_store_add(&s, ENTITIES(l), 0) == CEDAR_BAD_ARGUMENT);
    l.count = 1;
    l.edges[0].from = 1; /* b is not an entity */
    CHECK(cedar_store_add(&s, ENTITIES(l), 0) == CEDAR_BAD_ARGUMENT);
    l.edges[0] = (cedar_edge){0, 2};
    CHECK(cedar_store_add(&s, ENTITIES(l), 0) == CEDAR_BAD_ARGUMENT);
    l.edges[0] = (cedar_edge){0, SIZE_MAX};
    CHECK(cedar_store_upsert(&s, ENTITIES(l), 0) == CEDAR_BAD_ARGUMENT);
    l.edges[0] = (cedar_edge){SIZE_MAX, 1};
    CHECK(cedar_store_build(&s, ENTITIES(l), 0) == CEDAR_BAD_ARGUMENT);
    check_only_q(&s);
}

static void parts_out_of_range(void) {
    const cedar_span outside[] = {{6, 13}, {13, 13}, {9, 8}, {SIZE_MAX, SIZE_MAX}, {0, SIZE_MAX}};
    cedar_store s = {0}, t = {0};
    build_only_q(&s);
    for (size_t k = 0; k < sizeof outside / sizeof *outside; k++) {
        list l = parse_entities("a b");
        l.uids[1] = outside[k];
        CHECK(cedar_store_build(&s, ENTITIES(l), 0) == CEDAR_BAD_ARGUMENT);
        CHECK(cedar_store_add(&s, ENTITIES(l), 0) == CEDAR_BAD_ARGUMENT);
        CHECK(cedar_store_upsert(&s, ENTITIES(l), 0) == CEDAR_BAD_ARGUMENT);
        CHECK(cedar_store_remove(&s, UIDS(l), 0) == CEDAR_BAD_ARGUMENT);
        CHECK(cedar_store_slice(&s, &t, UIDS(l)) == CEDAR_BAD_ARGUMENT && !t.is_open);
    }
    check_only_q(&s);
}

static void invalid_uids_in_lists(void) {
    cedar_store s = {0}, t = {0};
    build_only_q(&s);
    list l = parse_entities("a b");
    l.uids[1].end = 11;
    CHECK(cedar_store_build(&s, ENTITIES(l), 0) == CEDAR_NOT_A_UID);
    CHECK(cedar_store_add(&s, ENTITIES(l), 0) == CEDAR_NOT_A_UID);
    CHECK(cedar_store_upsert(&s, ENTITIES(l), 0) == CEDAR_NOT_A_UID);
    CHECK(cedar_store_remove(&s, UIDS(l), 0) == CEDAR_NOT_A_UID);
    CHECK(cedar_store_slice(&s, &t, UIDS(l)) == CEDAR_NOT_A_UID && !t.is_open);
    l.uids[1].end = 6; /* an empty part at the end of another part */
    CHECK(cedar_store_remove(&s, UIDS(l), 0) == CEDAR_NOT_A_UID);
    check_only_q(&s);
    /* parts may overlap: one part is an entity and its parent */
    cedar_span uid = {0, 6};
    cedar_edge loop = {0, 0};
    build_only_q(&s);
    CHECK(cedar_store_build(&s, bytes(U("a")), 6, &uid, 1, 1, &loop, 1, CEDAR_COMPUTE) == CEDAR_CYCLE);
    cedar_store_free(&s);
}

static void duplicates(void) {
    cedar_store s = {0};
    uint8_t out[4] = {46, 46, 46, 46};
    CHECK(new_store(&s) == CEDAR_OK);
    CHECK(cedar_store_error_text(&s, (uint8_t *)"", 0) == 0);
    CHECK(build(&s, "q r", CEDAR_COMPUTE) == CEDAR_OK);
    CHECK(build(&s, "a b;a c", CEDAR_COMPUTE) == CEDAR_DUPLICATE && cedar_store_len(&s) == 1);
    CHECK(IS(store_error(&s), "duplicate entity " U("a")));
    CHECK(cedar_store_error_text(&s, out, 3) == strlen("duplicate entity " U("a")) && !memcmp(out, "dup.", 4));
    CHECK(build(&s, "q r", CEDAR_COMPUTE) == CEDAR_OK);
    CHECK(add(&s, "x r;q z", CEDAR_COMPUTE) == CEDAR_DUPLICATE && cedar_store_len(&s) == 1 && has(&s, U("q")) == 1);
    CHECK(ancestors(&s, U("q")) == CEDAR_OK && IS(store_result(&s), "," U("r")));
    CHECK(IS(store_error(&s), "duplicate entity " U("q")));
    cedar_store_free(&s);
}

static void cycles(void) {
    cedar_store s = {0};
    CHECK(new_store(&s) == CEDAR_OK);
    CHECK(build(&s, "a b;b a", CEDAR_COMPUTE) == CEDAR_CYCLE && cedar_store_len(&s) == 0);
    CHECK(IS(store_error(&s), "cycle at " U("a")) || IS(store_error(&s), "cycle at " U("b")));
    CHECK(build(&s, "a b", CEDAR_COMPUTE) == CEDAR_OK);
    CHECK(add(&s, "b a", CEDAR_COMPUTE) == CEDAR_CYCLE && cedar_store_len(&s) == 1);
    CHECK(upsert(&s, "a a", CEDAR_COMPUTE) == CEDAR_CYCLE && is_descendant(&s, U("a"), U("b")) == 1);
    CHECK(IS(store_error(&s), "cycle at " U("a")));
    CHECK(build(&s, "a a", CEDAR_ENFORCE) == CEDAR_CYCLE && IS(store_error(&s), "cycle at " U("a")));
    CHECK(build(&s, "a a", CEDAR_ASSUME) == CEDAR_OK && cedar_store_validate(&s) == CEDAR_CYCLE);
    CHECK(cedar_store_len(&s) == 1);
    cedar_store_free(&s);
}

static void modes(void) {
    const char *expected = "ancestors not closed at " U("a") " " U("b") " " U("c");
    cedar_store s = {0};
    CHECK(new_store(&s) == CEDAR_OK);
    CHECK(build(&s, "a b;b c", CEDAR_ENFORCE) == CEDAR_NOT_CLOSED && cedar_store_len(&s) == 0);
    CHECK(IS(store_error(&s), expected));
    CHECK(build(&s, "a bc;b c", CEDAR_ENFORCE) == CEDAR_OK && cedar_store_len(&s) == 2);
    CHECK(cedar_store_validate(&s) == CEDAR_OK);
    /* ancestors are stored as they are passed: none is computed, and validation reports that without a change */
    CHECK(build(&s, "a b;b c", CEDAR_ASSUME) == CEDAR_OK && is_descendant(&s, U("a"), U("c")) == 0);
    CHECK(cedar_store_validate(&s) == CEDAR_NOT_CLOSED && cedar_store_len(&s) == 2);
    CHECK(IS(store_error(&s), expected));
    /* a removal from such a store repairs the affected entities and then checks the whole store */
    CHECK(build(&s, "a b;b c;c d;x y", CEDAR_ASSUME) == CEDAR_OK);
    CHECK(remove_uids(&s, "x", CEDAR_ENFORCE) == CEDAR_NOT_CLOSED && cedar_store_len(&s) == 4);
    CHECK(is_descendant(&s, U("a"), U("b")) == 1 && is_descendant(&s, U("a"), U("c")) == 0 && has(&s, U("x")) == 1);
    /* an upsert into a closed store, without computing ancestors */
    CHECK(build(&s, "a b;b c;c", CEDAR_COMPUTE) == CEDAR_OK && upsert(&s, "b c", CEDAR_ASSUME) == CEDAR_OK);
    CHECK(ancestors(&s, U("a")) == CEDAR_OK && IS(store_result(&s), "," U("b")));
    CHECK(upsert(&s, "b d", CEDAR_ENFORCE) == CEDAR_NOT_CLOSED && cedar_store_len(&s) == 3);
    CHECK(is_descendant(&s, U("b"), U("c")) == 1 && is_descendant(&s, U("b"), U("d")) == 0);
    cedar_store_free(&s);
}

static void actions(void) {
    cedar_store s = {0};
    list l = uids("");
    push_text(&l, "Action::\"go\"");
    push_text(&l, U("a"));
    l.count = 1;
    l.edges[l.edges_len++] = (cedar_edge){0, 1};
    CHECK(new_store(&s) == CEDAR_OK && cedar_store_build(&s, ENTITIES(l), CEDAR_COMPUTE) == CEDAR_OK);
    CHECK(cedar_store_validate(&s) == CEDAR_ACTION_PARENT && cedar_store_len(&s) == 1);
    CHECK(IS(store_error(&s), "ancestor of an action that is none Action::\"go\" " U("a")));
    cedar_store_free(&s);
}

static void edits(void) {
    cedar_store s = {0};
    CHECK(new_store(&s) == CEDAR_OK);
    CHECK(add(&s, "a b;b c", CEDAR_COMPUTE) == CEDAR_OK && cedar_store_len(&s) == 2);
    CHECK(add(&s, "c d;a bcd", CEDAR_COMPUTE) == CEDAR_DUPLICATE); /* a has b and c as ancestors, not d */
    CHECK(cedar_store_len(&s) == 2 && has(&s, U("c")) == 0 && is_descendant(&s, U("a"), U("c")) == 1);
    CHECK(add(&s, "c x;x a", CEDAR_COMPUTE) == CEDAR_CYCLE &&
          cedar_store_len(&s) == 2); /* c is already an ancestor of a */
    CHECK(add(&s, "b c;a bc;x a", CEDAR_COMPUTE) == CEDAR_OK);
    CHECK(cedar_store_len(&s) == 3 && is_descendant(&s, U("x"), U("c")) == 1);
    CHECK(parents(&s, U("a")) == CEDAR_OK && IS(store_result(&s), "," U("b"))); /* the stored entity is unchanged */
    CHECK(upsert(&s, "b e;b f", CEDAR_COMPUTE) == CEDAR_OK && cedar_store_len(&s) == 3);
    CHECK(ancestors(&s, U("x")) == CEDAR_OK && IS(store_result(&s), "," U("a") "," U("b") "," U("f")));
    CHECK(upsert(&s, "g x", CEDAR_COMPUTE) == CEDAR_OK && cedar_store_len(&s) == 4);
    CHECK(is_descendant(&s, U("g"), U("f")) == 1);
    CHECK(remove_uids(&s, "aaz", CEDAR_COMPUTE) == CEDAR_OK && cedar_store_len(&s) == 3 && has(&s, U("a")) == 0);
    CHECK(ancestors(&s, U("g")) == CEDAR_OK && IS(store_result(&s), "," U("x")));
    /* f is not in the store: it stays a parent */
    CHECK(remove_uids(&s, "f", CEDAR_COMPUTE) == CEDAR_OK && is_descendant(&s, U("b"), U("f")) == 1);
    CHECK(remove_uids(&s, "", CEDAR_ASSUME) == CEDAR_OK && remove_uids(&s, "bxg", CEDAR_ENFORCE) == CEDAR_OK);
    CHECK(cedar_store_len(&s) == 0);
    cedar_store_free(&s);
}

/* Repeats queries: each result stays the same until a call changes the store, and is then computed again. */
static void repeated_queries(void) {
    cedar_store s = {0}, copy = {0};
    CHECK(new_store(&s) == CEDAR_OK && build(&s, "a b;b c;c", CEDAR_COMPUTE) == CEDAR_OK);
    for (int i = 0; i < 3; i++) {
        CHECK(is_descendant(&s, U("a"), U("c")) == 1 && is_descendant(&s, U("c"), U("a")) == 0);
        CHECK(is_descendant(&s, U("a"), U("x")) == 0 && is_descendant(&s, U("d"), U("a")) == 100 + CEDAR_NO_ENTITY);
        CHECK(is_descendant(&s, U("a"), "x") == 100 + CEDAR_NOT_A_UID && is_descendant(&s, "a", U("c")) == 104);
    }
    CHECK(cedar_store_copy(&s, &copy) == CEDAR_OK);
    CHECK(add(&s, "c x;x a", CEDAR_COMPUTE) == CEDAR_DUPLICATE && is_descendant(&s, U("a"), U("x")) == 0);
    CHECK(upsert(&s, "b x", CEDAR_COMPUTE) == CEDAR_OK);
    CHECK(is_descendant(&s, U("a"), U("c")) == 0 && is_descendant(&s, U("a"), U("x")) == 1);
    CHECK(remove_uids(&s, "b", CEDAR_COMPUTE) == CEDAR_OK && is_descendant(&s, U("a"), U("x")) == 0);
    CHECK(is_descendant(&s, U("b"), U("x")) == 100 + CEDAR_NO_ENTITY);
    CHECK(build(&s, "a z", CEDAR_COMPUTE) == CEDAR_OK && is_descendant(&s, U("a"), U("z")) == 1);
    CHECK(is_descendant(&copy, U("a"), U("c")) == 1 && is_descendant(&copy, U("a"), U("x")) == 0);
    CHECK(cedar_store_partial(&copy) == CEDAR_OK && is_descendant(&copy, U("a"), U("c")) == 1);
    cedar_store_free(&s);
    cedar_store_free(&copy);
}

/* Queries 40 MB of uids, of which the handle caches 4 MiB. */
static void more_queries_than_the_cache_can_store(void) {
    cedar_store s = {0};
    static char uid[1001] = "A::\"";
    CHECK(new_store(&s) == CEDAR_OK && build(&s, "a b", CEDAR_COMPUTE) == CEDAR_OK);
    memset(uid + 4, 'x', sizeof uid - 6);
    uid[sizeof uid - 2] = '"';
    size_t before = mallinfo2().uordblks;
    for (int k = 0; k < 40000; k++) {
        for (int i = 0, rest = k; i < 6; i++, rest /= 10) uid[4 + i] = (char)('0' + rest % 10);
        if (is_descendant(&s, U("a"), uid) != 0 || (k % 1000 == 0 && is_descendant(&s, U("a"), U("b")) != 1)) {
            CHECK(false);
            break;
        }
    }
    CHECK(mallinfo2().uordblks < before + (16u << 20));
    CHECK(is_descendant(&s, U("a"), U("b")) == 1 && is_descendant(&s, U("b"), U("a")) == 100 + CEDAR_NO_ENTITY);
    cedar_store_free(&s);
}

static void copies_and_slices(void) {
    cedar_store s = {0}, t = {0};
    CHECK(new_store(&s) == CEDAR_OK && build(&s, "a b;b c;c;x c", CEDAR_COMPUTE) == CEDAR_OK);
    CHECK(cedar_store_copy(&s, &t) == CEDAR_OK && equal(&s, &t) == 1 && cedar_store_len(&t) == 4);
    CHECK(upsert(&t, "c d", CEDAR_COMPUTE) == CEDAR_OK && equal(&s, &t) == 0 && equal(&t, &s) == 0);
    CHECK(is_descendant(&s, U("a"), U("d")) == 0 && is_descendant(&t, U("a"), U("d")) == 1);
    CHECK(cedar_store_copy(&s, &t) == CEDAR_OK && equal(&s, &t) == 1);
    CHECK(remove_uids(&t, "x", CEDAR_COMPUTE) == CEDAR_OK && equal(&s, &t) == 0);
    CHECK(slice(&s, &t, "bz") == CEDAR_OK && cedar_store_len(&t) == 2);
    CHECK(has(&t, U("b")) == 1 && has(&t, U("c")) == 1 && has(&t, U("x")) == 0);
    CHECK(slice(&s, &t, "") == CEDAR_OK && cedar_store_len(&t) == 0);
    CHECK(slice(&s, &t, "ax") == CEDAR_OK && equal(&s, &t) == 1);
    /* which ancestors are parents is not compared; neither is the key of a store */
    CHECK(cedar_store_new(&t, 0, 0) == CEDAR_OK && build(&t, "a bc;b c;c;x c", CEDAR_ENFORCE) == CEDAR_OK);
    CHECK(equal(&s, &t) == 1);
    /* a handle may be moved */
    cedar_store moved = s;
    memset(&s, 0, sizeof s);
    CHECK(cedar_store_len(&moved) == 4 && cedar_store_len(&s) == 0);
    cedar_store_free(&moved);
    CHECK(cedar_store_len(&t) == 4);
    cedar_store_free(&t);
}

/* Returns whether the last result is the uids of these names, in any order. */
static bool result_contains_each(cedar_store *s, const char *names) {
    const char *result = store_result(s);
    char text[16];
    for (const char *p = names; *p; p++) {
        snprintf(text, sizeof text, "," U("%c"), *p);
        if (!strstr(result, text)) return false;
    }
    return strlen(result) == strlen(names) * strlen("," U("a"));
}

static void reading_ancestors(void) {
    cedar_store s = {0};
    CHECK(new_store(&s) == CEDAR_OK && build(&s, "a b;b c;c de;x", CEDAR_COMPUTE) == CEDAR_OK);
    CHECK(is_child(&s, U("a"), U("b")) == 1 && is_child(&s, U("a"), U("c")) == 0 && is_child(&s, U("a"), U("a")) == 0);
    CHECK(is_indirect_descendant(&s, U("a"), U("b")) == 0 && is_indirect_descendant(&s, U("a"), U("c")) == 1);
    CHECK(is_indirect_descendant(&s, U("a"), U("e")) == 1 && is_indirect_descendant(&s, U("x"), U("a")) == 0);
    CHECK(is_child(&s, U("d"), U("a")) == 100 + CEDAR_NO_ENTITY && is_child(&s, "d", U("a")) == 100 + CEDAR_NOT_A_UID);
    CHECK(is_child(&s, U("a"), "d") == 100 + CEDAR_NOT_A_UID);
    CHECK(is_indirect_descendant(&s, U("d"), U("a")) == 100 + CEDAR_NO_ENTITY);
    CHECK(is_indirect_descendant(&s, "d", U("a")) == 100 + CEDAR_NOT_A_UID &&
          is_indirect_descendant(&s, U("a"), "d") == 104);
    CHECK(cedar_store_indirect_ancestors(&s, TEXT(U("a"))) == CEDAR_OK);
    CHECK(IS(store_result(&s), "," U("c") "," U("d") "," U("e")));
    CHECK(cedar_store_indirect_ancestors(&s, TEXT(U("d"))) == CEDAR_NO_ENTITY);
    CHECK(cedar_store_indirect_ancestors(&s, TEXT("d")) == CEDAR_NOT_A_UID);
    CHECK(IS(store_result(&s), "," U("c") "," U("d") "," U("e")));
    CHECK(cedar_store_indirect_ancestors(&s, TEXT(U("c"))) == CEDAR_OK && IS(store_result(&s), ""));
    CHECK(cedar_store_uids(&s) == CEDAR_OK && result_contains_each(&s, "abcx"));
    CHECK(build(&s, "", CEDAR_COMPUTE) == CEDAR_OK && cedar_store_uids(&s) == CEDAR_OK && result_contains_each(&s, ""));
    cedar_store_free(&s);
}

static void partial_stores(void) {
    cedar_store s = {0}, t = {0};
    CHECK(new_store(&s) == CEDAR_OK && build(&s, "a b", CEDAR_COMPUTE) == CEDAR_OK && parents(&s, U("a")) == CEDAR_OK);
    CHECK(is_partial(&s) == 0 && look_up(&s, U("a")) == 2 && look_up(&s, U("b")) == 0);
    CHECK(look_up(&s, "b") == 100 + CEDAR_NOT_A_UID);
    CHECK(cedar_store_copy(&s, &t) == CEDAR_OK && cedar_store_partial(&s) == CEDAR_OK && is_partial(&s) == 1);
    CHECK(look_up(&s, U("a")) == 2 && look_up(&s, U("b")) == 1 && cedar_store_len(&s) == 1 && has(&s, U("b")) == 0);
    CHECK(IS(store_result(&s), "," U("b")) && equal(&s, &t) == 0);
    CHECK(cedar_store_partial(&s) == CEDAR_OK && cedar_store_partial(&t) == CEDAR_OK && equal(&s, &t) == 1);
    CHECK(add(&s, "c a", CEDAR_COMPUTE) == CEDAR_OK && is_partial(&s) == 1 && is_descendant(&s, U("c"), U("b")) == 1);
    CHECK(cedar_store_copy(&s, &t) == CEDAR_OK && is_partial(&t) == 1);
    CHECK(slice(&s, &t, "a") == CEDAR_OK && is_partial(&t) == 0);
    CHECK(build(&s, "a b", CEDAR_COMPUTE) == CEDAR_OK && is_partial(&s) == 0);
    cedar_store_free(&s);
    cedar_store_free(&t);
}

static void reading_entities(void) {
    cedar_store s = {0}, t = {0};
    CHECK(new_store(&s) == CEDAR_OK && build(&s, "a b;b c;x", CEDAR_COMPUTE) == CEDAR_OK);
    CHECK(attributes(&s, U("a")) == 0 && tags(&s, U("a")) == 0);
    CHECK(attributes(&s, U("c")) == 100 + CEDAR_NO_ENTITY && tags(&s, U("c")) == 100 + CEDAR_NO_ENTITY);
    CHECK(attributes(&s, "c") == 100 + CEDAR_NOT_A_UID && tags(&s, "c") == 100 + CEDAR_NOT_A_UID);
    CHECK(parents(&s, U("a")) == CEDAR_OK && cedar_store_keys(&s, TEXT(U("c"))) == CEDAR_NO_ENTITY);
    CHECK(cedar_store_tag_keys(&s, TEXT(U("c"))) == CEDAR_NO_ENTITY);
    CHECK(cedar_store_keys(&s, TEXT("c")) == CEDAR_NOT_A_UID && cedar_store_tag_keys(&s, TEXT("c")) == CEDAR_NOT_A_UID);
    CHECK(IS(store_result(&s), "," U("b")));
    CHECK(cedar_store_keys(&s, TEXT(U("a"))) == CEDAR_OK && IS(store_result(&s), ""));
    CHECK(parents(&s, U("a")) == CEDAR_OK && cedar_store_tag_keys(&s, TEXT(U("a"))) == CEDAR_OK);
    CHECK(IS(store_result(&s), ""));
    CHECK(new_store(&t) == CEDAR_OK && build(&t, "a bc;b;y", CEDAR_COMPUTE) == CEDAR_OK);
    CHECK(entity_equal(&s, U("a"), &t) == 1 && entity_equal(&s, U("b"), &t) == 0);
    CHECK(entity_equal(&s, U("x"), &t) == 100 + CEDAR_NO_ENTITY && entity_equal(&s, U("y"), &t) == 106);
    CHECK(entity_equal(&s, "x", &t) == 100 + CEDAR_NOT_A_UID);
    cedar_store_free(&s);
    cedar_store_free(&t);
}

static void texts_of_stores(void) {
    cedar_store s = {0};
    CHECK(new_store(&s) == CEDAR_OK && cedar_store_text(&s) == CEDAR_OK);
    CHECK(IS(store_result(&s), ",<empty Entities>"));
    CHECK(build(&s, "b c;a b", CEDAR_COMPUTE) == CEDAR_OK && cedar_store_entity_text(&s, TEXT(U("a"))) == CEDAR_OK);
    CHECK(IS(store_result(&s), "," U("a") ":\n  attrs:\n  ancestors:" U("b") ", " U("c")));
    CHECK(cedar_store_entity_text(&s, TEXT(U("c"))) == CEDAR_NO_ENTITY);
    CHECK(cedar_store_entity_text(&s, TEXT("c")) == CEDAR_NOT_A_UID);
    CHECK(IS(store_result(&s), "," U("a") ":\n  attrs:\n  ancestors:" U("b") ", " U("c")));
    CHECK(cedar_store_text(&s) == CEDAR_OK);
    CHECK(IS(store_result(&s), "," U("a") ":\n  attrs:\n  ancestors:" U("b") ", " U("c") "\n" U(
                                   "b") ":\n  attrs:\n  ancestors:" U("c") "\n"));
    cedar_store_free(&s);
}

static void reading_a_closed_store(void) {
    cedar_store s = {0}, t = {0};
    CHECK(new_store(&t) == CEDAR_OK && build(&t, "a", CEDAR_COMPUTE) == CEDAR_OK);
    CHECK(look_up(&s, U("a")) == 102 && attributes(&s, U("a")) == 102 && tags(&s, U("a")) == 102);
    CHECK(is_child(&s, U("a"), U("b")) == 102 && is_indirect_descendant(&s, U("a"), U("b")) == 102 &&
          is_partial(&s) == 102);
    CHECK(entity_equal(&s, U("a"), &t) == 102 && entity_equal(&t, U("a"), &s) == 102 && cedar_store_len(&t) == 1);
    CHECK(cedar_store_uids(&s) == CEDAR_CLOSED && cedar_store_partial(&s) == CEDAR_CLOSED);
    CHECK(cedar_store_indirect_ancestors(&s, TEXT(U("a"))) == CEDAR_CLOSED);
    CHECK(cedar_store_keys(&s, TEXT(U("a"))) == CEDAR_CLOSED && cedar_store_tag_keys(&s, TEXT(U("a"))) == CEDAR_CLOSED);
    CHECK(cedar_store_text(&s) == CEDAR_CLOSED && cedar_store_entity_text(&s, TEXT(U("a"))) == CEDAR_CLOSED);
    CHECK(!s.is_open);
    cedar_store_free(&t);
}

/* ---- policy sets */

static void closed_set(void) {
    cedar_policies p = {0}, q = {0};
    bool result = true;
    uint8_t out[4] = {7, 7, 7, 7};
    cedar_span spans[1] = {{5, 6}};
    CHECK(sizeof p == 16);
    CHECK(add_static(&p, "s", 0) == CEDAR_CLOSED && add_template(&p, "t", 0) == CEDAR_CLOSED);
    CHECK(link_id(&p, "t", "l", "", "", "") == CEDAR_CLOSED && unlink_id(&p, "l") == CEDAR_CLOSED);
    CHECK(remove_static(&p, "s") == CEDAR_CLOSED && remove_template(&p, "t") == CEDAR_CLOSED);
    CHECK(cedar_policies_merge(&p, &q, true) == CEDAR_CLOSED && cedar_policies_ids(&p, 0) == CEDAR_CLOSED);
    CHECK(cedar_policies_copy(&p, &q) == CEDAR_CLOSED);
    CHECK(cedar_policies_equal(&p, &q, &result) == CEDAR_CLOSED && result);
    CHECK(cedar_policies_result(&p, 0, out, 4) == 0 && cedar_policies_result_spans(&p, 0, spans, 1) == 0);
    CHECK(cedar_policies_error_text(&p, out, 4) == 0);
    CHECK(out[0] == 7 && spans[0].start == 5 && !p.is_open && !q.is_open);
}

static void one_set_closed(void) {
    cedar_policies p = {0}, q = {0};
    bool result = true;
    CHECK(new_set(&p) == CEDAR_OK && p.is_open && !q.is_open);
    CHECK(add_static(&p, "s", 0) == CEDAR_OK);
    CHECK(cedar_policies_merge(&p, &q, true) == CEDAR_CLOSED && cedar_policies_merge(&q, &p, true) == CEDAR_CLOSED);
    CHECK(cedar_policies_equal(&p, &q, &result) == CEDAR_CLOSED && result);
    CHECK(cedar_policies_equal(&q, &p, &result) == CEDAR_CLOSED && result);
    CHECK(cedar_policies_copy(&q, &p) == CEDAR_CLOSED && p.is_open);
    CHECK(cedar_policies_ids(&p, 1) == CEDAR_OK && IS(set_result(&p), ",s"));
    cedar_policies_free(&p);
    cedar_policies_free(&p);
    cedar_policies_free(&q);
    CHECK(!p.is_open && cedar_policies_ids(&p, 0) == CEDAR_CLOSED);
}

static void adding_policies(void) {
    cedar_policies p = {0};
    CHECK(new_set(&p) == CEDAR_OK && new_set(&p) == CEDAR_OK);
    CHECK(cedar_policies_ids(&p, 0) == CEDAR_OK && IS(set_result(&p), ""));
    CHECK(add_static(&p, "s", 0) == CEDAR_OK && add_static(&p, "f", 1) == CEDAR_OK);
    CHECK(add_template(&p, "t", 5) == CEDAR_OK && add_template(&p, "all", 7) == CEDAR_OK);
    CHECK(add_template(&p, "none", 0) == CEDAR_OK);
    CHECK(link_id(&p, "t", "l", U("a"), "", "B::\"b\"") == CEDAR_OK);
    CHECK(link_id(&p, "all", "m", U("a"), "Action::\"go\"", "B::\"b\"") == CEDAR_OK);
    CHECK(link_id(&p, "none", "n", "", "", "") == CEDAR_OK);
    CHECK(cedar_policies_ids(&p, 0) == CEDAR_OK && IS(set_result(&p), ",s,f,t,all,none"));
    CHECK(cedar_policies_ids(&p, 1) == CEDAR_OK && IS(set_result(&p), ",s,f,l,m,n"));
    CHECK(cedar_policies_ids(&p, 2) == CEDAR_BAD_ARGUMENT && IS(set_result(&p), ",s,f,l,m,n"));
    CHECK(add_static(&p, "", 0) == CEDAR_OK && add_static(&p, "a b\"\n", 0) == CEDAR_OK); /* any text is an id */
    CHECK(cedar_policies_ids(&p, 1) == CEDAR_OK && IS(set_result(&p), ",s,f,l,m,n,,a b\"\n"));
    cedar_policies_free(&p);
}

static void set_arguments(void) {
    cedar_policies p = {0};
    CHECK(new_set(&p) == CEDAR_OK && add_template(&p, "t", 5) == CEDAR_OK);
    CHECK(add_static(&p, "z", 2) == CEDAR_BAD_ARGUMENT && add_static(&p, "z", UINT32_MAX) == CEDAR_BAD_ARGUMENT);
    CHECK(add_template(&p, "z", 8) == CEDAR_BAD_ARGUMENT);
    CHECK(cedar_policies_add_template(&p, TEXT("z"), 2, 0) == CEDAR_BAD_ARGUMENT);
    CHECK(add_static(&p, "\xff", 0) == CEDAR_NOT_UTF8 && add_template(&p, "\xff", 0) == CEDAR_NOT_UTF8);
    CHECK(link_id(&p, "\xff", "l2", "", "", "") == CEDAR_NOT_UTF8);
    CHECK(link_id(&p, "t", "\xff", "", "", "") == CEDAR_NOT_UTF8);
    CHECK(unlink_id(&p, "\xff") == CEDAR_NOT_UTF8 && remove_static(&p, "\xff") == CEDAR_NOT_UTF8);
    CHECK(remove_template(&p, "\xff") == CEDAR_NOT_UTF8);
    CHECK(link_id(&p, "t", "l2", "a", "", "B::\"b\"") == CEDAR_NOT_A_UID);
    cedar_span parts[3] = {{0, 6}, {0, 0}, {0, 7}};
    CHECK(cedar_policies_link(&p, TEXT("t"), TEXT("l2"), TEXT(U("a")), parts, 3) == CEDAR_BAD_ARGUMENT);
    parts[2].end = 6;
    CHECK(cedar_policies_link(&p, TEXT("t"), TEXT("l2"), TEXT(U("a")), parts, 2) == CEDAR_BAD_ARGUMENT);
    CHECK(cedar_policies_link(&p, TEXT("t"), TEXT("l2"), TEXT(U("a")), parts, 0) == CEDAR_BAD_ARGUMENT);
    CHECK(cedar_policies_ids(&p, 1) == CEDAR_OK && IS(set_result(&p), ""));
    CHECK(cedar_policies_link(&p, TEXT("t"), TEXT("l2"), TEXT(U("a")), parts, 3) == CEDAR_OK);
    CHECK(cedar_policies_ids(&p, 1) == CEDAR_OK && IS(set_result(&p), ",l2"));
    cedar_policies_free(&p);
}

/* Creates a set with a static policy s, a template t with the slots of principal and resource, a template u with the
 * slot of the action, and a link l of t. */
static void build_sample_set(cedar_policies *p) {
    CHECK(new_set(p) == CEDAR_OK && add_static(p, "s", 0) == CEDAR_OK);
    CHECK(add_template(p, "t", 5) == CEDAR_OK && add_template(p, "u", 2) == CEDAR_OK);
    CHECK(link_id(p, "t", "l", U("a"), "", "B::\"b\"") == CEDAR_OK);
}

static void errors_of_additions(void) {
    cedar_policies p = {0};
    build_sample_set(&p);
    CHECK(add_static(&p, "s", 0) == CEDAR_OCCUPIED && IS(set_error(&p), "occupied s"));
    CHECK(add_template(&p, "l", 0) == CEDAR_OCCUPIED && IS(set_error(&p), "occupied l"));
    CHECK(add_static(&p, "t", 0) == CEDAR_OCCUPIED && IS(set_error(&p), "occupied t"));
    CHECK(link_id(&p, "x", "m", "", "", "") == CEDAR_NO_SUCH_TEMPLATE);
    CHECK(IS(set_error(&p), "no template to link x"));
    CHECK(link_id(&p, "s", "m", "", "", "") == CEDAR_NO_SUCH_TEMPLATE);
    CHECK(link_id(&p, "l", "m", "", "", "") == CEDAR_NO_SUCH_TEMPLATE);
    CHECK(link_id(&p, "t", "m", U("a"), "", "") == CEDAR_ARITY);
    CHECK(!strncmp(set_error(&p), "arity: ", 7) && strstr(set_error(&p), "?resource"));
    CHECK(link_id(&p, "t", "m", U("a"), "Action::\"x\"", "B::\"b\"") == CEDAR_ARITY);
    CHECK(strstr(set_error(&p), "?action") && !strstr(set_error(&p), "?resource"));
    CHECK(link_id(&p, "u", "m", "", U("a"), "") == CEDAR_NOT_AN_ACTION);
    CHECK(IS(set_error(&p), "not an action " U("a")));
    CHECK(link_id(&p, "u", "t", "", "Action::\"x\"", "") == CEDAR_ID_CONFLICT);
    CHECK(IS(set_error(&p), "occupied t"));
    CHECK(cedar_policies_ids(&p, 0) == CEDAR_OK && IS(set_result(&p), ",s,t,u"));
    CHECK(cedar_policies_ids(&p, 1) == CEDAR_OK && IS(set_result(&p), ",s,l"));
    cedar_policies_free(&p);
}

static void errors_of_removals(void) {
    cedar_policies p = {0};
    uint8_t out[4] = {'.', '.', '.', '.'};
    build_sample_set(&p);
    CHECK(cedar_policies_error_text(&p, out, 4) == 0);
    CHECK(unlink_id(&p, "x") == CEDAR_NO_LINK && IS(set_error(&p), "no link x"));
    CHECK(unlink_id(&p, "s") == CEDAR_NOT_A_LINK && IS(set_error(&p), "not a link s"));
    CHECK(unlink_id(&p, "t") == CEDAR_NOT_A_LINK && IS(set_error(&p), "not a link t"));
    CHECK(remove_static(&p, "x") == CEDAR_NO_STATIC && remove_static(&p, "t") == CEDAR_NO_STATIC);
    CHECK(IS(set_error(&p), "no static policy t"));
    CHECK(remove_static(&p, "l") == CEDAR_NOT_STATIC && IS(set_error(&p), "not a static policy l"));
    CHECK(remove_template(&p, "x") == CEDAR_NO_TEMPLATE && IS(set_error(&p), "no template x"));
    CHECK(remove_template(&p, "t") == CEDAR_WITH_LINKS && IS(set_error(&p), "template with links t"));
    CHECK(remove_template(&p, "s") == CEDAR_NOT_A_TEMPLATE && remove_template(&p, "l") == CEDAR_NOT_A_TEMPLATE);
    CHECK(IS(set_error(&p), "not a template l"));
    CHECK(cedar_policies_error_text(&p, out, 3) == strlen("not a template l") && !memcmp(out, "not.", 4));
    CHECK(cedar_policies_ids(&p, 0) == CEDAR_OK && IS(set_result(&p), ",s,t,u"));
    CHECK(cedar_policies_ids(&p, 1) == CEDAR_OK && IS(set_result(&p), ",s,l"));
    CHECK(unlink_id(&p, "l") == CEDAR_OK && remove_template(&p, "t") == CEDAR_OK);
    CHECK(remove_static(&p, "s") == CEDAR_OK);
    CHECK(cedar_policies_ids(&p, 0) == CEDAR_OK && IS(set_result(&p), ",u"));
    CHECK(cedar_policies_ids(&p, 1) == CEDAR_OK && IS(set_result(&p), ""));
    cedar_policies_free(&p);
}

static void merging(void) {
    cedar_policies p = {0}, q = {0}, r = {0};
    CHECK(new_set(&p) == CEDAR_OK && cedar_policies_new(&q, 0, 0) == CEDAR_OK);
    CHECK(add_static(&p, "a", 0) == CEDAR_OK && add_template(&p, "t", 1) == CEDAR_OK);
    CHECK(link_id(&p, "t", "l", U("a"), "", "") == CEDAR_OK);
    CHECK(add_static(&q, "a", 1) == CEDAR_OK && add_template(&q, "t", 1) == CEDAR_OK);
    CHECK(link_id(&q, "t", "l", U("b"), "", "") == CEDAR_OK && add_static(&q, "b", 0) == CEDAR_OK);
    CHECK(cedar_policies_copy(&p, &r) == CEDAR_OK && sets_equal(&p, &r) == 1 && sets_equal(&p, &q) == 0);
    CHECK(cedar_policies_merge(&p, &q, false) == CEDAR_OCCUPIED && IS(set_error(&p), "occupied a"));
    CHECK(sets_equal(&p, &r) == 1);
    CHECK(cedar_policies_merge(&p, &q, true) == CEDAR_OK && IS(set_result(&p), ",a,policy0,l,policy1"));
    CHECK(cedar_policies_ids(&p, 0) == CEDAR_OK && IS(set_result(&p), ",a,t,policy0,b"));
    CHECK(cedar_policies_ids(&p, 1) == CEDAR_OK && IS(set_result(&p), ",a,l,policy0,policy1,b"));
    CHECK(cedar_policies_ids(&q, 1) == CEDAR_OK && IS(set_result(&q), ",a,l,b"));
    CHECK(cedar_policies_copy(&p, &q) == CEDAR_OK && cedar_policies_merge(&q, &p, false) == CEDAR_OK);
    CHECK(IS(set_result(&q), "") && sets_equal(&p, &q) == 1);
    CHECK(unlink_id(&q, "policy1") == CEDAR_OK && sets_equal(&p, &q) == 0);
    cedar_policies_free(&p);
    CHECK(cedar_policies_ids(&q, 1) == CEDAR_OK && IS(set_result(&q), ",a,l,policy0,b"));
    cedar_policies_free(&q);
    cedar_policies_free(&r);
}

static void reading_policies(void) {
    cedar_policies p = {0};
    build_sample_set(&p);
    CHECK(add_static(&p, "f", 1) == CEDAR_OK && add_template(&p, "all", 7) == CEDAR_OK);
    CHECK(link_id(&p, "u", "m", "", "Action::\"go\"", "") == CEDAR_OK);
    CHECK(kind_of(&p, "s") == 1 && kind_of(&p, "l") == 2 && kind_of(&p, "t") == 3 && kind_of(&p, "x") == 0);
    CHECK(kind_of(&p, "\xff") == 100 + CEDAR_NOT_UTF8);
    CHECK(effect_of(&p, "s") == 0 && effect_of(&p, "f") == 1 && effect_of(&p, "l") == 0 && effect_of(&p, "t") == 0);
    CHECK(effect_of(&p, "x") == 100 + CEDAR_NO_BODY && effect_of(&p, "\xff") == 100 + CEDAR_NOT_UTF8);
    CHECK(slots_of(&p, "s") == 0 && slots_of(&p, "t") == 5 && slots_of(&p, "u") == 2 && slots_of(&p, "all") == 7);
    CHECK(slots_of(&p, "l") == 100 + CEDAR_NO_BODY && slots_of(&p, "\xff") == 100 + CEDAR_NOT_UTF8);
    CHECK(cedar_policies_env(&p, TEXT("l")) == CEDAR_OK && IS(set_result(&p), "," U("a") ",,B::\"b\""));
    CHECK(cedar_policies_env(&p, TEXT("m")) == CEDAR_OK && IS(set_result(&p), ",,Action::\"go\","));
    CHECK(cedar_policies_env(&p, TEXT("s")) == CEDAR_OK && IS(set_result(&p), ",,,"));
    CHECK(cedar_policies_template_id(&p, TEXT("m")) == CEDAR_OK && IS(set_result(&p), ",u"));
    CHECK(cedar_policies_template_id(&p, TEXT("s")) == CEDAR_OK && IS(set_result(&p), ",s"));
    CHECK(link_id(&p, "t", "k", U("a"), "", U("a")) == CEDAR_OK);
    CHECK(cedar_policies_linked(&p, TEXT("t")) == CEDAR_OK && IS(set_result(&p), ",l,k"));
    CHECK(cedar_policies_linked(&p, TEXT("all")) == CEDAR_OK && IS(set_result(&p), ""));
    CHECK(cedar_policies_linked(&p, TEXT("f")) == CEDAR_OK && IS(set_result(&p), ",f"));
    CHECK(cedar_policies_env(&p, TEXT("t")) == CEDAR_NO_BODY && cedar_policies_env(&p, TEXT("x")) == CEDAR_NO_BODY);
    CHECK(cedar_policies_template_id(&p, TEXT("t")) == CEDAR_NO_BODY);
    CHECK(cedar_policies_linked(&p, TEXT("l")) == CEDAR_NO_BODY);
    CHECK(cedar_policies_env(&p, TEXT("\xff")) == CEDAR_NOT_UTF8);
    CHECK(cedar_policies_template_id(&p, TEXT("\xff")) == CEDAR_NOT_UTF8);
    CHECK(cedar_policies_linked(&p, TEXT("\xff")) == CEDAR_NOT_UTF8);
    CHECK(IS(set_result(&p), ",f") && IS(set_error(&p), ""));
    cedar_policies_free(&p);
}

static void reading_annotations(void) {
    cedar_policies p = {0};
    build_sample_set(&p);
    CHECK(cedar_policies_ids(&p, 1) == CEDAR_OK && IS(set_result(&p), ",s,l"));
    CHECK(has_annotation(&p, "s", "not a key") == 100 + CEDAR_NOT_A_NAME && has_annotation(&p, "s", "") == 127);
    CHECK(has_annotation(&p, "s", "\xff") == 100 + CEDAR_NOT_A_NAME && has_annotation(&p, "\xff", "key") == 105);
    CHECK(has_annotation(&p, "x", "key") == 100 + CEDAR_NO_BODY);
    CHECK(cedar_policies_annotations(&p, TEXT("x")) == CEDAR_NO_BODY);
    CHECK(cedar_policies_annotations(&p, TEXT("\xff")) == CEDAR_NOT_UTF8);
    CHECK(IS(set_result(&p), ",s,l"));
    CHECK(has_annotation(&p, "s", "key") == 0 && IS(set_result(&p), ""));
    CHECK(has_annotation(&p, "l", "if") == 0 && has_annotation(&p, "t", "_1") == 0);
    CHECK(cedar_policies_ids(&p, 1) == CEDAR_OK && cedar_policies_annotations(&p, TEXT("l")) == CEDAR_OK);
    CHECK(IS(set_result(&p), ""));
    cedar_policies_free(&p);
}

static void texts_of_policies(void) {
    const char *body = "permit(\n  principal == ?principal,\n  action,\n  resource == ?resource\n);";
    const char *link = "Template Instance of t, slots: [?principal -> A::\"a\",?resource -> B::\"b\"]";
    char set_text[256];
    cedar_policies p = {0};
    CHECK(new_set(&p) == CEDAR_OK && cedar_policies_text(&p) == CEDAR_OK);
    CHECK(IS(set_result(&p), ",<empty policyset>"));
    CHECK(add_template(&p, "t", 5) == CEDAR_OK && link_id(&p, "t", "l", U("a"), "", "B::\"b\"") == CEDAR_OK);
    CHECK(cedar_policies_template_text(&p, TEXT("t")) == CEDAR_OK && IS(set_result(&p) + 1, body));
    CHECK(cedar_policies_policy_text(&p, TEXT("l")) == CEDAR_OK && IS(set_result(&p) + 1, link));
    CHECK(cedar_policies_template_text(&p, TEXT("l")) == CEDAR_NO_BODY);
    CHECK(cedar_policies_policy_text(&p, TEXT("t")) == CEDAR_NO_BODY);
    CHECK(cedar_policies_template_text(&p, TEXT("\xff")) == CEDAR_NOT_UTF8);
    CHECK(cedar_policies_policy_text(&p, TEXT("\xff")) == CEDAR_NOT_UTF8);
    CHECK(IS(set_result(&p) + 1, link) && cedar_policies_text(&p) == CEDAR_OK);
    snprintf(set_text, sizeof set_text, "Templates:\n%s, Template Linked Policies:\n%s", body, link);
    CHECK(IS(set_result(&p) + 1, set_text));
    CHECK(add_static(&p, "s", 1) == CEDAR_OK && cedar_policies_policy_text(&p, TEXT("s")) == CEDAR_OK);
    CHECK(IS(set_result(&p) + 1, "forbid(\n  principal,\n  action,\n  resource\n);"));
    cedar_policies_free(&p);
}

static void reading_a_closed_set(void) {
    cedar_policies p = {0};
    CHECK(kind_of(&p, "s") == 102 && effect_of(&p, "s") == 102 && slots_of(&p, "s") == 102);
    CHECK(has_annotation(&p, "s", "key") == 102 && cedar_policies_annotations(&p, TEXT("s")) == CEDAR_CLOSED);
    CHECK(cedar_policies_env(&p, TEXT("s")) == CEDAR_CLOSED && cedar_policies_linked(&p, TEXT("s")) == CEDAR_CLOSED);
    CHECK(cedar_policies_template_id(&p, TEXT("s")) == CEDAR_CLOSED && cedar_policies_text(&p) == CEDAR_CLOSED);
    CHECK(cedar_policies_policy_text(&p, TEXT("s")) == CEDAR_CLOSED);
    CHECK(cedar_policies_template_text(&p, TEXT("s")) == CEDAR_CLOSED && !p.is_open);
}

static void last_texts_of_sets_are_unchanged(void) {
    cedar_policies p = {0}, q = {0};
    build_sample_set(&p);
    CHECK(new_set(&q) == CEDAR_OK && add_static(&q, "s", 1) == CEDAR_OK);
    CHECK(cedar_policies_ids(&p, 0) == CEDAR_OK && unlink_id(&p, "x") == CEDAR_NO_LINK);
    CHECK(add_static(&p, "new", 0) == CEDAR_OK && add_template(&p, "newer", 0) == CEDAR_OK);
    CHECK(link_id(&p, "newer", "link", "", "", "") == CEDAR_OK && unlink_id(&p, "link") == CEDAR_OK);
    CHECK(remove_template(&p, "newer") == CEDAR_OK && remove_static(&p, "new") == CEDAR_OK);
    CHECK(IS(set_result(&p), ",s,t,u") && IS(set_error(&p), "no link x"));
    CHECK(cedar_policies_merge(&p, &q, false) == CEDAR_OCCUPIED && IS(set_result(&p), ",s,t,u"));
    CHECK(cedar_policies_merge(&p, &q, true) == CEDAR_OK && IS(set_result(&p), ",s,policy0"));
    CHECK(IS(set_error(&p), "occupied s"));
    CHECK(cedar_policies_copy(&p, &q) == CEDAR_OK && IS(set_result(&q), "") && IS(set_error(&q), ""));
    CHECK(new_set(&p) == CEDAR_OK && IS(set_result(&p), "") && IS(set_error(&p), ""));
    cedar_policies_free(&p);
    cedar_policies_free(&q);
}

int main(void) {
    program();
    uid_texts();
    uid_lists();
    names_in_error_texts();
    making_uids();
    splitting_uids();
    versions_and_status_texts();
    closed_store();
    closed_store_has_no_output();
    one_store_closed();
    building();
    listing();
    copying_out();
    last_texts_are_unchanged();
    arguments_out_of_range();
    parts_out_of_range();
    invalid_uids_in_lists();
    duplicates();
    cycles();
    modes();
    actions();
    edits();
    repeated_queries();
    more_queries_than_the_cache_can_store();
    copies_and_slices();
    reading_ancestors();
    partial_stores();
    reading_entities();
    texts_of_stores();
    reading_a_closed_store();
    closed_set();
    one_set_closed();
    adding_policies();
    set_arguments();
    errors_of_additions();
    errors_of_removals();
    merging();
    reading_policies();
    reading_annotations();
    texts_of_policies();
    reading_a_closed_set();
    last_texts_of_sets_are_unchanged();
    return report_counts();
}
