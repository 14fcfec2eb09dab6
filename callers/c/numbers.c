/* Tests of numbers of uids, and of uids with many types: examples, each status, and closed handles. Prints each
 * failure, and ends with `N passed, M failed`. */
#include "short.h"

/* Returns the number of a uid, or 100 plus the status. */
static unsigned numbered(cedar_store *s, const char *uid) {
    size_t number = 9;
    cedar_status status = cedar_store_uid_number(s, TEXT(uid), &number);
    CHECK(status == CEDAR_OK || number == 9);
    return number_or_status(status, number);
}

static unsigned has_number(cedar_store *s, size_t number) {
    bool result = false;
    cedar_status status = cedar_store_has_number(s, number, &result);
    return bool_or_status(status, result);
}

static unsigned is_descendant_by_number(cedar_store *s, size_t child, size_t ancestor) {
    bool result = false;
    cedar_status status = cedar_store_is_descendant_of_numbers(s, child, ancestor, &result);
    return bool_or_status(status, result);
}

static void numbers_are_assigned_in_order(void) {
    cedar_store s = {0};
    CHECK(new_store(&s) == CEDAR_OK && build(&s, "a b;b c;c de;x", CEDAR_COMPUTE) == CEDAR_OK);
    CHECK(numbered(&s, U("a")) == 0 && numbered(&s, U("b")) == 1 && numbered(&s, U("a")) == 0);
    CHECK(numbered(&s, "B::C::\"a\"") == 2 && numbered(&s, "B::\"a\"") == 3 && numbered(&s, "B::C::\"a\"") == 2);
    CHECK(numbered(&s, "A::\"it\\'s\"") == 4 && numbered(&s, "A::\"\xc3\xa9\"") == 5 && numbered(&s, "A::\"\"") == 6);
    CHECK(numbered(&s, "A::\"it's\"") == 104 && numbered(&s, "") == 104 && numbered(&s, "A::\"\xff\"") == 104);
    CHECK(numbered(&s, "A::\"\xc3\xa9\"") == 5 && numbered(&s, "A::\"it\\'s\"") == 4 && numbered(&s, U("d")) == 7);
    CHECK(cedar_store_number_uid(&s, 4) == CEDAR_OK && IS(store_result(&s), ",A::\"it\\'s\""));
    CHECK(cedar_store_number_uid(&s, 5) == CEDAR_OK && IS(store_result(&s), ",A::\"\xc3\xa9\""));
    CHECK(cedar_store_number_uid(&s, 8) == CEDAR_BAD_ARGUMENT && cedar_store_number_uid(&s, SIZE_MAX) == 3);
    CHECK(IS(store_result(&s), ",A::\"\xc3\xa9\""));
    cedar_store_free(&s);
}

static void queries_by_number(void) {
    cedar_store s = {0};
    CHECK(new_store(&s) == CEDAR_OK && build(&s, "a b;b c;c de;x", CEDAR_COMPUTE) == CEDAR_OK);
    CHECK(has_number(&s, 0) == 103 && is_descendant_by_number(&s, 0, 0) == 103);
    CHECK(numbered(&s, U("a")) == 0 && numbered(&s, U("e")) == 1 && numbered(&s, U("x")) == 2);
    CHECK(has_number(&s, 0) == 1 && has_number(&s, 1) == 0 && has_number(&s, 2) == 1 && has_number(&s, 3) == 103);
    CHECK(is_descendant_by_number(&s, 0, 1) == 1 && is_descendant_by_number(&s, 2, 1) == 0 &&
          is_descendant_by_number(&s, 0, 0) == 0 && is_descendant_by_number(&s, 0, 2) == 0);
    CHECK(is_descendant_by_number(&s, 1, 0) == 100 + CEDAR_NO_ENTITY);
    CHECK(is_descendant_by_number(&s, 3, 0) == 103 && is_descendant_by_number(&s, 0, 3) == 103 &&
          is_descendant_by_number(&s, 1, 3) == 103 && is_descendant_by_number(&s, 0, SIZE_MAX) == 103);
    cedar_store_free(&s);
}

/* Checks that numbers survive every change of the store, and that a copy, a slice and a new store begin without
 * numbers. */
static void numbers_survive_edits(void) {
    cedar_store s = {0}, t = {0};
    CHECK(new_store(&s) == CEDAR_OK && build(&s, "a b;b c", CEDAR_COMPUTE) == CEDAR_OK);
    CHECK(numbered(&s, U("a")) == 0 && numbered(&s, U("z")) == 1 && is_descendant_by_number(&s, 0, 1) == 0);
    CHECK(add(&s, "c z", CEDAR_COMPUTE) == CEDAR_OK && is_descendant_by_number(&s, 0, 1) == 1 &&
          numbered(&s, U("z")) == 1);
    CHECK(upsert(&s, "b q", CEDAR_COMPUTE) == CEDAR_OK && is_descendant_by_number(&s, 0, 1) == 0);
    CHECK(remove_uids(&s, "a", CEDAR_COMPUTE) == CEDAR_OK && has_number(&s, 0) == 0 &&
          is_descendant_by_number(&s, 0, 1) == 106);
    CHECK(build(&s, "a z", CEDAR_COMPUTE) == CEDAR_OK && is_descendant_by_number(&s, 0, 1) == 1);
    CHECK(add(&s, "z a", CEDAR_COMPUTE) == CEDAR_CYCLE && numbered(&s, U("z")) == 1 && numbered(&s, U("y")) == 2);
    CHECK(build(&s, "a z", CEDAR_COMPUTE) == CEDAR_OK && cedar_store_partial(&s) == CEDAR_OK &&
          is_descendant_by_number(&s, 0, 1) == 1);
    CHECK(cedar_store_validate(&s) == CEDAR_OK && ancestors(&s, U("a")) == CEDAR_OK &&
          is_descendant_by_number(&s, 0, 1) == 1);
    CHECK(cedar_store_copy(&s, &t) == CEDAR_OK && has_number(&t, 0) == 103 && numbered(&t, U("z")) == 0);
    CHECK(slice(&s, &t, "a") == CEDAR_OK && has_number(&t, 0) == 103);
    CHECK(new_store(&s) == CEDAR_OK && has_number(&s, 0) == 103 && numbered(&s, U("q")) == 0);
    cedar_store_free(&s);
    cedar_store_free(&t);
}

static void closed_store(void) {
    cedar_store s = {0};
    CHECK(numbered(&s, U("a")) == 102 && has_number(&s, 0) == 102 && is_descendant_by_number(&s, 0, 0) == 102);
    CHECK(cedar_store_number_uid(&s, 0) == CEDAR_CLOSED && !s.is_open);
}

/* Checks uids of more types than a handle caches. */
static void more_types_than_are_cached(void) {
    cedar_store s = {0};
    char uid[32], other[32];
    CHECK(new_store(&s) == CEDAR_OK);
    for (int round = 0; round < 2; round++)
        for (int k = 0; k < 40; k++) {
            snprintf(uid, sizeof uid, "T%d::\"1::\\\"a\"", k);
            snprintf(other, sizeof other, "T%d::X::\"a\"", k);
            CHECK(numbered(&s, uid) == (unsigned)(2 * k) && numbered(&s, other) == (unsigned)(2 * k + 1));
            snprintf(other, sizeof other, "T%d::\"a", k);
            CHECK(numbered(&s, other) == 104 && look_up(&s, uid) == 0 && has(&s, other) == 104);
        }
    CHECK(build(&s, "a b", CEDAR_COMPUTE) == CEDAR_OK && has(&s, U("a")) == 1 &&
          is_descendant(&s, U("a"), U("b")) == 1);
    cedar_store_free(&s);
}

int main(void) {
    numbers_are_assigned_in_order();
    queries_by_number();
    numbers_survive_edits();
    closed_store();
    more_types_than_are_cached();
    return report_counts();
}
