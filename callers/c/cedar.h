/* Stores of entities and policy sets of the Cedar authorization language, for callers in C and C++.
 *
 * This file has the rules for all calls. It includes:
 *
 * - cedar/status.h: the statuses
 * - cedar/values.h: texts, uids, values and expressions
 * - cedar/store.h: stores of entities
 * - cedar/policies.h: policy sets
 * - cedar/nulls.h: checks of pointers before each call
 * - cedar/lists.h: helpers that build lists and iterate over results
 * - cedar/diff.h: what differs between two stores, and between two policy sets
 *
 * Rules for callers. No compiler checks them, and what is proved holds only for callers that follow them.
 *
 * - Zero a handle before its first use (`cedar_store s = CEDAR_EMPTY;`), and never write its bytes. An open handle may
 *   be moved, if the old place is not used again, but not copied. Each call may write the bytes of its handles, also a
 *   call that only reads, so no handle is `const`.
 * - Handles that share are used by one thread at a time, from whatever thread. What one thread did must happen before
 *   what the next thread does, as with a lock. A copy, a slice, and a set after a merge share with their source, except
 *   after calls whose names end in `_deep_copy`. Handles that share nothing may be used by several threads at a time.
 * - A pointer and a length are the pointer and length of one whole, initialised array, readable or writable as needed.
 *   The length is below 2^63. An output overlaps no other argument.
 * - `malloc`, `realloc` and `free` belong to one allocator and align to 16 bytes. Call no function from a signal
 *   handler.
 *
 * Null pointers. The proved functions take no null pointer, and no handle twice in one call. cedar/nulls.h checks this
 * before each call, so `cedar_store_free(NULL)` does nothing:
 *
 * - A null handle is a closed handle.
 * - A null pointer is a list if its length is 0.
 * - Any other null pointer is a bad argument, and so is a handle that is passed twice.
 *
 * These checks are tested, not proved. With CEDAR_UNCHECKED defined before the include, calls go to the proved
 * functions directly.
 *
 * Ownership. A handle owns its contents. `cedar_store_free` and `cedar_policies_free` free them, and may be called any
 * number of times. The caller owns all other arguments, and no call reads them after it has returned. Results are
 * copied out.
 *
 * Statuses. A call writes its outputs only if it returns CEDAR_OK. After any other status the handle is unchanged,
 * except for the text of the last error. Where a function differs from this, its comment says so. A comment lists the
 * statuses of its function, except for these:
 *
 * - CEDAR_CLOSED: a handle is closed. Any call on a handle can return it, except those that open or free a handle.
 * - CEDAR_NO_MEMORY: an allocation failed. Any call can return it, unless its comment says that it does not allocate.
 * - CEDAR_NOT_UTF8: an id, a key or a string is not UTF-8. Any call that takes one can return it.
 * - CEDAR_BAD_ARGUMENT: a part is not within its text, or a number is out of range. Any call that takes one can return
 *   it.
 * - CEDAR_NOT_A_UID: a text that should be the text of a uid is none. Any call that takes a uid can return it.
 *
 * Results. Many calls store their result in the handle: a list of texts. `cedar_store_result` and
 * `cedar_policies_result` copy the bytes of the result out, and `cedar_store_texts` (cedar/lists.h) all its texts. Some
 * calls store nodes too, for a value or an expression.
 *
 * Texts are bytes in UTF-8 without a zero at the end. A uid is written as the program writes it, for example
 * `A::B::"c"`: a type, which is a name, and an eid in quotes, escaped. The id of a policy or a template is any text,
 * also the empty one, and is not escaped. A list of uids is one text and its parts: the start and the end of each uid.
 * Parts may overlap, and may occur twice.
 *
 * The key. Two numbers, `seed` and `key`, are the key of the hash maps of a handle, and of its copies and slices. If an
 * attacker can choose ids that collide under the key, every call becomes slow. So use random numbers that the attacker
 * does not know, as `getrandom` gives. Zeros are a valid key, but everybody knows them: use them only for trusted ids.
 * The key can change two results only: the order of the uids from `cedar_store_uids`, and which of several cycles or of
 * several missing ancestors an error names. That it changes nothing else is tested, not proved.
 *
 * What is proved. Each function of cedar/values.h, cedar/store.h and cedar/policies.h has a contract over the contents
 * of its handle. It says what a status means, what is written, and what the handle contains afterwards. The body is
 * proved to satisfy the contract. The comments state the contracts in short. Not proved, but tested:
 *
 * - CEDAR_NO_MEMORY is returned only if an allocation fails, and all memory is freed.
 * - A text that has the marks of a uid and a name before the first mark, but is not the text of a uid with an ASCII
 *   eid, is read correctly. A uid with another eid is written correctly.
 * - Threads. A contract speaks of one call after another. The library has no state besides its handles, so calls on
 *   handles that share act as the calls of one thread, if they happen one after another.
 *
 * No contract mentions the key. */
#ifndef CEDAR_H
#define CEDAR_H

#include "cedar/status.h"

#include "cedar/values.h"

#include "cedar/policies.h"
#include "cedar/store.h"

#include "cedar/nulls.h"

#include "cedar/lists.h"
#include "cedar/diff.h"

#endif
