/* The statuses of calls. Written by tools/statuses.py from callers/statuses.txt: do not edit. */
#ifndef CEDAR_STATUS_H
#define CEDAR_STATUS_H

/* The status that a call returns. An error whose comment says what its text names has a text. A handle stores the text
 * until its next error that has one. No other status changes the stored text, not even CEDAR_NO_MEMORY.
 * `cedar_store_error_text` and `cedar_policies_error_text` copy it, and `cedar_error_part` finds the names in it. */
typedef enum cedar_status {
    /* The call succeeded. */
    CEDAR_OK = 0,
    /* An allocation failed. */
    CEDAR_NO_MEMORY = 1,
    /* A handle is closed. */
    CEDAR_CLOSED = 2,
    /* A part is not within its text, a number is out of range, or nodes are invalid. */
    CEDAR_BAD_ARGUMENT = 3,
    /* A text is not the text of a uid. */
    CEDAR_NOT_A_UID = 4,
    /* An id, a key, the value of an annotation or a string is not UTF-8. */
    CEDAR_NOT_UTF8 = 5,
    /* The store has no entity with this uid. */
    CEDAR_NO_ENTITY = 6,
    /* Two entities with one uid differ. Its text names: uid. */
    CEDAR_DUPLICATE = 7,
    /* A uid is one of its own ancestors. Its text names: uid. */
    CEDAR_CYCLE = 8,
    /* An ancestor of an ancestor is missing. Its text names: uid, ancestor, missing. */
    CEDAR_NOT_CLOSED = 9,
    /* An entity is one of its own ancestors. Its text names: uid. */
    CEDAR_SELF_ANCESTOR = 10,
    /* A uid is both a parent and an indirect ancestor. Its text names: uid, ancestor. */
    CEDAR_DUPLICATE_ANCESTOR = 11,
    /* An action has an ancestor that is not an action. Its text names: uid, parent. */
    CEDAR_ACTION_PARENT = 12,
    /* A key of a record is reserved. Its text names: key. */
    CEDAR_RESERVED_KEY = 13,
    /* An id is already in use. Its text names: id. */
    CEDAR_OCCUPIED = 14,
    /* There is no template with the id to link. Its text names: id. */
    CEDAR_NO_SUCH_TEMPLATE = 15,
    /* The bindings do not match the slots of the template. Its text names: slots. */
    CEDAR_ARITY = 16,
    /* The slot of the action is bound to a uid that is not an action. Its text names: uid. */
    CEDAR_NOT_AN_ACTION = 17,
    /* The id of the new link is already in use. Its text names: id. */
    CEDAR_ID_CONFLICT = 18,
    /* The id to unlink is not in use. Its text names: id. */
    CEDAR_NO_LINK = 19,
    /* The id to unlink is not the id of a link. Its text names: id. */
    CEDAR_NOT_A_LINK = 20,
    /* The id of the template to remove is not in use. Its text names: id. */
    CEDAR_NO_TEMPLATE = 21,
    /* The template has links. Its text names: id. */
    CEDAR_WITH_LINKS = 22,
    /* The id is not the id of a template. Its text names: id. */
    CEDAR_NOT_A_TEMPLATE = 23,
    /* There is no policy with the id of the static policy to remove. Its text names: id. */
    CEDAR_NO_STATIC = 24,
    /* The id is the id of a link, or a static policy to add has a slot. Its text names: id. */
    CEDAR_NOT_STATIC = 25,
    /* There is nothing of the requested kind with this id. */
    CEDAR_NO_BODY = 26,
    /* A text is not a name, or the key of an annotation is not an identifier. */
    CEDAR_NOT_A_NAME = 27,
    /* A value or an expression has more than 1,000 levels. */
    CEDAR_TOO_DEEP = 28,
    /* The clause of a template has a slot. Its text names: id. */
    CEDAR_SLOT_IN_CLAUSE = 29,
    /* The action constraint of a policy or a template has a uid that is not an action. Its text names: id. */
    CEDAR_NOT_ACTIONS = 30,
    /* The clause of a policy or a template calls an unknown function. Its text names: id. */
    CEDAR_UNKNOWN_FUNCTION = 31,
    /* A link has a template without slots. Its text names: id. */
    CEDAR_SLOTLESS_LINK = 32
} cedar_status;

/* The number of statuses. They are the numbers below it. */
#define CEDAR_STATUSES 33

/* Returns the name of a status, for example `CEDAR_CYCLE`, or an empty text for a number that is not a status. Not
 * proved, but tested. */
static inline const char *cedar_status_name(cedar_status status) {
    switch (status) {
    case CEDAR_OK: return "CEDAR_OK";
    case CEDAR_NO_MEMORY: return "CEDAR_NO_MEMORY";
    case CEDAR_CLOSED: return "CEDAR_CLOSED";
    case CEDAR_BAD_ARGUMENT: return "CEDAR_BAD_ARGUMENT";
    case CEDAR_NOT_A_UID: return "CEDAR_NOT_A_UID";
    case CEDAR_NOT_UTF8: return "CEDAR_NOT_UTF8";
    case CEDAR_NO_ENTITY: return "CEDAR_NO_ENTITY";
    case CEDAR_DUPLICATE: return "CEDAR_DUPLICATE";
    case CEDAR_CYCLE: return "CEDAR_CYCLE";
    case CEDAR_NOT_CLOSED: return "CEDAR_NOT_CLOSED";
    case CEDAR_SELF_ANCESTOR: return "CEDAR_SELF_ANCESTOR";
    case CEDAR_DUPLICATE_ANCESTOR: return "CEDAR_DUPLICATE_ANCESTOR";
    case CEDAR_ACTION_PARENT: return "CEDAR_ACTION_PARENT";
    case CEDAR_RESERVED_KEY: return "CEDAR_RESERVED_KEY";
    case CEDAR_OCCUPIED: return "CEDAR_OCCUPIED";
    case CEDAR_NO_SUCH_TEMPLATE: return "CEDAR_NO_SUCH_TEMPLATE";
    case CEDAR_ARITY: return "CEDAR_ARITY";
    case CEDAR_NOT_AN_ACTION: return "CEDAR_NOT_AN_ACTION";
    case CEDAR_ID_CONFLICT: return "CEDAR_ID_CONFLICT";
    case CEDAR_NO_LINK: return "CEDAR_NO_LINK";
    case CEDAR_NOT_A_LINK: return "CEDAR_NOT_A_LINK";
    case CEDAR_NO_TEMPLATE: return "CEDAR_NO_TEMPLATE";
    case CEDAR_WITH_LINKS: return "CEDAR_WITH_LINKS";
    case CEDAR_NOT_A_TEMPLATE: return "CEDAR_NOT_A_TEMPLATE";
    case CEDAR_NO_STATIC: return "CEDAR_NO_STATIC";
    case CEDAR_NOT_STATIC: return "CEDAR_NOT_STATIC";
    case CEDAR_NO_BODY: return "CEDAR_NO_BODY";
    case CEDAR_NOT_A_NAME: return "CEDAR_NOT_A_NAME";
    case CEDAR_TOO_DEEP: return "CEDAR_TOO_DEEP";
    case CEDAR_SLOT_IN_CLAUSE: return "CEDAR_SLOT_IN_CLAUSE";
    case CEDAR_NOT_ACTIONS: return "CEDAR_NOT_ACTIONS";
    case CEDAR_UNKNOWN_FUNCTION: return "CEDAR_UNKNOWN_FUNCTION";
    case CEDAR_SLOTLESS_LINK: return "CEDAR_SLOTLESS_LINK";
    }
    return "";
}

/* Returns the text of a status, for example `cycle at`, or an empty text for a number that is not a status. The text of
 * an error begins with it. Not proved: a test compares it with `cedar_status_text`. */
static inline const char *cedar_status_words(cedar_status status) {
    switch (status) {
    case CEDAR_OK: return "ok";
    case CEDAR_NO_MEMORY: return "out of memory";
    case CEDAR_CLOSED: return "closed";
    case CEDAR_BAD_ARGUMENT: return "bad argument";
    case CEDAR_NOT_A_UID: return "not a uid";
    case CEDAR_NOT_UTF8: return "not UTF-8";
    case CEDAR_NO_ENTITY: return "no entity";
    case CEDAR_DUPLICATE: return "duplicate entity";
    case CEDAR_CYCLE: return "cycle at";
    case CEDAR_NOT_CLOSED: return "ancestors not closed at";
    case CEDAR_SELF_ANCESTOR: return "its own ancestor";
    case CEDAR_DUPLICATE_ANCESTOR: return "parent and indirect ancestor";
    case CEDAR_ACTION_PARENT: return "ancestor of an action that is none";
    case CEDAR_RESERVED_KEY: return "reserved key";
    case CEDAR_OCCUPIED: return "occupied";
    case CEDAR_NO_SUCH_TEMPLATE: return "no template to link";
    case CEDAR_ARITY: return "arity:";
    case CEDAR_NOT_AN_ACTION: return "not an action";
    case CEDAR_ID_CONFLICT: return "occupied";
    case CEDAR_NO_LINK: return "no link";
    case CEDAR_NOT_A_LINK: return "not a link";
    case CEDAR_NO_TEMPLATE: return "no template";
    case CEDAR_WITH_LINKS: return "template with links";
    case CEDAR_NOT_A_TEMPLATE: return "not a template";
    case CEDAR_NO_STATIC: return "no static policy";
    case CEDAR_NOT_STATIC: return "not a static policy";
    case CEDAR_NO_BODY: return "no body";
    case CEDAR_NOT_A_NAME: return "not a name";
    case CEDAR_TOO_DEEP: return "too deep";
    case CEDAR_SLOT_IN_CLAUSE: return "slot in the clause of";
    case CEDAR_NOT_ACTIONS: return "uid of no action in";
    case CEDAR_UNKNOWN_FUNCTION: return "unknown function in";
    case CEDAR_SLOTLESS_LINK: return "link without slots";
    }
    return "";
}

#endif
