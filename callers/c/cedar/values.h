/* Texts, uids, values and expressions, and the calls without a handle. cedar.h has the rules for all calls. Any thread
 * may make the calls of this file at any time. */
#ifndef CEDAR_VALUES_H
#define CEDAR_VALUES_H

#include <stdbool.h>
#include <stddef.h>
#include <stdint.h>

#include "status.h"

#if defined(__GNUC__) || defined(__clang__)
#define CEDAR_WARN_UNUSED __attribute__((warn_unused_result))
#else
#define CEDAR_WARN_UNUSED
#endif

#ifdef __cplusplus
extern "C" {
static_assert(sizeof(cedar_status) == 4, "an enum has the size of the library's numbers");
#else
_Static_assert(sizeof(cedar_status) == 4, "an enum has the size of the library's numbers");
#endif

/* An initializer that zeroes a handle, a list or texts: `cedar_store store = CEDAR_EMPTY;`. */
#ifdef __cplusplus
#define CEDAR_EMPTY {}
#else
#define CEDAR_EMPTY {0}
#endif

/* The version of this header. `cedar_version` returns the version of the library. */
#define CEDAR_VERSION 0x000100

/* A part of a text: the bytes from `start` up to, but not including, `end`. */
typedef struct cedar_span {
    size_t start;
    size_t end;
} cedar_span;

/* The kind of a node, which determines the meaning of its fields. An array of nodes is one value or one expression, and
 * its last node is the top. The children of a node are right before it, in order, each after all of its own children.
 * `len` is the number of children where the kind does not fix it. A field that a kind does not use is ignored on input,
 * and is 0 on output.
 *
 *   kind              its fields                  its children
 *   CEDAR_BOOL        number: 0 or 1              none
 *   CEDAR_LONG        number                      none
 *   CEDAR_STRING      at: the string, in UTF-8    none
 *   CEDAR_UID         at: the text of the uid     none
 *   CEDAR_SET         len                         len elements; in a value order and repetition do not matter
 *   CEDAR_RECORD      len                         len times a key (CEDAR_STRING) and a value; the last of a key counts
 *   CEDAR_CALL        at: the function's name     len arguments; in a value one CEDAR_STRING, as in decimal("1.5")
 *   CEDAR_VAR         number: a cedar_variable    none; or 3, the context
 *   CEDAR_SLOT        number: a cedar_variable    none
 *   CEDAR_UNKNOWN     at: its name, any string    none if len is 0; if len is 1 a CEDAR_STRING, its type's name
 *   CEDAR_NOT         none                        one expression
 *   CEDAR_AND         none                        two, the left one first; CEDAR_EQ and CEDAR_IN too
 *   CEDAR_IS          at: the entity type's name  one
 *   CEDAR_RESIDUAL    len: 1                      one expression, the residual
 *
 * Values use the kinds up to CEDAR_CALL. A call in a value is a value of an extension type. Expressions use the kinds
 * up to CEDAR_IS, except CEDAR_RECORD. Attributes and tags have partial values: a value, or an expression followed by
 * CEDAR_RESIDUAL as the last node. A node without children has one level. Any other node has one level more than its
 * deepest child. CEDAR_RESIDUAL does not count as a level. */
typedef enum cedar_kind {
    CEDAR_BOOL = 0,
    CEDAR_LONG = 1,
    CEDAR_STRING = 2,
    CEDAR_UID = 3,
    CEDAR_SET = 4,
    CEDAR_RECORD = 5,
    CEDAR_CALL = 6,
    CEDAR_VAR = 7,
    CEDAR_SLOT = 8,
    CEDAR_UNKNOWN = 9,
    CEDAR_NOT = 10,
    CEDAR_AND = 11,
    CEDAR_EQ = 12,
    CEDAR_IN = 13,
    CEDAR_IS = 14,
    CEDAR_RESIDUAL = 15
} cedar_kind;

/* A variable of a request that a policy constrains. */
typedef enum cedar_variable { CEDAR_PRINCIPAL = 0, CEDAR_ACTION = 1, CEDAR_RESOURCE = 2 } cedar_variable;

/* The maximum number of levels of a value or an expression. Comparing and freeing recurse to this depth. */
#define CEDAR_LEVELS 1000

/* One node of a value or an expression. */
typedef struct cedar_node {
    cedar_kind kind;
    size_t len;
    cedar_span at;
    int64_t number;
} cedar_node;

/* Runs the program on all lines of an input, with `seed` and `key` as the key of its maps. Writes as much of the output
 * as fits to `out`, the length of the whole output to `length`, and the exit status of the run, 0 or 2, to
 * `exit_status`. Another call with a larger capacity gives the same output. After CEDAR_NO_MEMORY the contents of the
 * outputs are unspecified. */
CEDAR_WARN_UNUSED cedar_status cedar_run(const uint8_t *input, size_t input_len, uint64_t seed, uint64_t key,
                                         uint8_t *out, size_t capacity, size_t *length, uint32_t *exit_status);

/* Checks whether a text is the text of a uid. If not, returns CEDAR_NOT_A_UID. */
CEDAR_WARN_UNUSED cedar_status cedar_uid_check(const uint8_t *text, size_t text_len);

/* Creates the uid with a type, for example `User` or `A::B`, and an id, which is any text and is not escaped, for
 * example `O'Brien`. Writes as much of the text of the uid (`User::"O\'Brien"`) as fits to `out`, and its whole length
 * to `length`. Returns CEDAR_NOT_A_NAME if the type is not a name. */
CEDAR_WARN_UNUSED cedar_status cedar_uid_make(const uint8_t *type, size_t type_len, const uint8_t *id, size_t id_len,
                                              uint8_t *out, size_t capacity, size_t *length);

/* Splits the text of a uid. Writes the text of its type, followed by the bytes of its id, which are not escaped, to
 * `out`, as much as fits. Writes the length of the type to `type_len`, and the length of both to `length`. */
CEDAR_WARN_UNUSED cedar_status cedar_uid_parts(const uint8_t *uid, size_t uid_len, uint8_t *out, size_t capacity,
                                               size_t *type_len, size_t *length);

/* Checks whether each part of a text is the text of a uid. Otherwise writes the position of the first invalid part,
 * from 0 on, to `place`. Use it to find the uid for which another call returned an error. Returns CEDAR_NOT_A_UID, or
 * CEDAR_BAD_ARGUMENT if the part is not within the text. After CEDAR_NO_MEMORY `place` is the part that was read. */
CEDAR_WARN_UNUSED cedar_status cedar_uids_check(const uint8_t *text, size_t text_len, const cedar_span *uids,
                                                size_t uids_len, size_t *place);

/* Copies the text of a status, for example `ok` for CEDAR_OK or `not a uid`, as much as fits. Returns the whole length,
 * which is 0 for a number that is not a status. The text of an error begins with the text of its status. Does not
 * allocate. With cedar/nulls.h its name is `cedar_status_copy_text`. */
size_t cedar_status_text(uint32_t status, uint8_t *out, size_t capacity);

/* Finds the name at position `place`, from 0 on, in the text of an error: a uid, an id, a key, or for CEDAR_ARITY a
 * slot (first the unbound slots, then the bound slots that do not exist). The text is the whole text of an error with
 * this status. Returns true and writes the part to `part`. Returns false and writes nothing if there is no such name.
 * For a uid whose eid is not ASCII this is tested, not proved. Does not allocate. */
CEDAR_WARN_UNUSED bool cedar_error_part(cedar_status status, const uint8_t *text, size_t text_len, size_t place,
                                        cedar_span *part);

/* Returns the version of the library as one number: 65536 times the major number, plus 256 times the minor number, plus
 * the patch number. Does not allocate. */
uint32_t cedar_version(void);

#ifdef __cplusplus
}
#endif
#endif
