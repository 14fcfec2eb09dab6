/* A small authorizer, decided by the scopes of policies. Evaluating conditions is the task of another layer. */
#include "cedar.h"
#include <stdio.h>
#include <sys/random.h>
#define READ "Action::\"read\""
#define REPORTS "Folder::\"reports\""

/* Writes whether a uid is equal to another, or, unless the kind asks for that only, below it in the store. */
static cedar_status compare(cedar_store *store, cedar_scope_kind kind, const char *uid, const char *other, bool *met) {
    if ((*met = !strcmp(uid, other)) || kind == CEDAR_SCOPE_EQ) return CEDAR_OK;
    cedar_status status = cedar_store_is_descendant_of(store, CEDAR_TEXT(uid), CEDAR_TEXT(other), met);
    return status == CEDAR_NO_ENTITY ? CEDAR_OK : status; /* a uid without an entity is below nothing */
}

/* Sets `applies` to false if a uid does not meet the constraint of a policy on a variable. */
static cedar_status check(cedar_store *store, cedar_policies *set, const char *id, cedar_variable variable,
                          const char *uid, bool *applies) {
    cedar_scope_kind kind = CEDAR_SCOPE_ANY;
    cedar_texts texts = CEDAR_EMPTY;
    cedar_status status = cedar_policies_scope(set, CEDAR_TEXT(id), variable, &kind);
    if (!status) status = cedar_policies_texts(set, &texts);
    const char *other, *type = kind >= CEDAR_SCOPE_IS ? cedar_texts_next(&texts, NULL) : NULL;
    bool has_type = !type || (!strncmp(uid, type, strlen(type)) && !strncmp(uid + strlen(type), "::\"", 3));
    bool met = kind == CEDAR_SCOPE_ANY || kind == CEDAR_SCOPE_IS;
    while (!status && !met && (other = cedar_texts_next(&texts, NULL))) status = compare(store, kind, uid, other, &met);
    *applies = *applies && has_type && met;
    cedar_texts_free(&texts);
    return status;
}

/* Decides a request: it is allowed if a policy permits it and none forbids it. After an error it is not allowed. */
static bool is_allowed(cedar_store *store, cedar_policies *set, const char *user, const char *file) {
    const char *const uids[] = {user, READ, file};
    bool found[2] = {false, false}; /* by effect */
    cedar_texts ids = CEDAR_EMPTY;
    cedar_status status = cedar_policies_id_texts(set, CEDAR_POLICIES, &ids);
    for (const char *id; !status && (id = cedar_texts_next(&ids, NULL));) {
        bool applies = true;
        cedar_effect effect = CEDAR_FORBID;
        for (int k = 0; !status && k < 3; k++) status = check(store, set, id, (cedar_variable)k, uids[k], &applies);
        if (!status) status = cedar_policies_effect(set, CEDAR_TEXT(id), &effect);
        if (!status && applies) found[effect] = true;
    }
    cedar_texts_free(&ids);
    return !status && found[CEDAR_PERMIT] && !found[CEDAR_FORBID];
}

int main(void) {
    const cedar_scope in_slot = cedar_scope_of(CEDAR_SCOPE_IN_SLOT, 0, 0);
    const cedar_body readers = {CEDAR_PERMIT, in_slot, cedar_scope_of(CEDAR_SCOPE_EQ, 0, strlen(READ)), in_slot};
    cedar_store store = CEDAR_EMPTY;
    cedar_policies set = CEDAR_EMPTY;
    cedar_list list = CEDAR_EMPTY;
    uint64_t key[2];
    cedar_list_parent(&list, cedar_list_text(&list, "User::\"alice\""), cedar_list_uid(&list, "Group", "staff"));
    cedar_list_parent(&list, cedar_list_uid(&list, "File", "q3"), cedar_list_text(&list, REPORTS));
    cedar_status status = getrandom(key, sizeof key, 0) == sizeof key ? CEDAR_OK : CEDAR_NO_MEMORY;
    if (!status) status = cedar_store_new(&store, key[0], key[1]);
    if (!status) status = cedar_store_build_list(&store, &list, CEDAR_COMPUTE);
    if (!status) status = cedar_policies_new(&set, key[0], key[1]);
    if (!status) status = cedar_policies_add_template_body(&set, "readers", READ, &readers);
    if (!status) status = cedar_policies_link_text(&set, "readers", "link", "Group::\"staff\"", NULL, REPORTS);
    printf("alice reads q3: %d\n", is_allowed(&store, &set, "User::\"alice\"", "File::\"q3\""));
    printf("bob reads q3: %d\n", is_allowed(&store, &set, "User::\"bob\"", "File::\"q3\""));
    cedar_list_free(&list);
    cedar_policies_free(&set);
    cedar_store_free(&store);
    if (status) printf("%s: %s\n", cedar_status_name(status), cedar_status_text(status));
    return status != CEDAR_OK;
}
