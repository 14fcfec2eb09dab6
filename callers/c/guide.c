/* Twelve tasks of an authorizer or an administration service. docs/GUIDE.md quotes most of these functions. */
#include "cedar.h"
#include <stdio.h>
#include <sys/random.h>

#define ALICE "User::\"alice\""
#define BOB "User::\"bob\""
#define ADMINS "Group::\"admins\""
#define STAFF "Group::\"staff\""
#define BOARD "Group::\"board\""
#define REPORT "File::\"q3\""
#define DRAFT "File::\"q4\""
#define FOLDER "Folder::\"reports\""
#define READ "Action::\"read\""

static uint64_t key[2];

/* Returns a list of one entity, with a parent unless that is a null pointer. */
static cedar_list list_of(const char *uid, const char *parent) {
    cedar_list list = CEDAR_EMPTY;
    cedar_list_entity(&list, cedar_list_text(&list, uid));
    if (parent) cedar_list_parent(&list, 0, cedar_list_text(&list, parent));
    return list;
}

static cedar_status build(cedar_store *store) {
    static const char *const edges[][2] = {{ALICE, ADMINS}, {ADMINS, STAFF}, {REPORT, FOLDER}, {DRAFT, FOLDER}};
    cedar_list list = CEDAR_EMPTY;
    for (size_t at = 0; at < sizeof edges / sizeof *edges; at++)
        cedar_list_parent(&list, cedar_list_text(&list, edges[at][0]), cedar_list_text(&list, edges[at][1]));
    cedar_status status = cedar_store_new(store, key[0], key[1]);
    if (!status) status = cedar_store_build_list(store, &list, CEDAR_COMPUTE);
    cedar_list_free(&list);
    return status;
}

static cedar_status query(cedar_store *store) {
    bool is_staff = false, has_bob = false;
    cedar_texts ancestors = CEDAR_EMPTY;
    cedar_status status = cedar_store_is_descendant_of(store, CEDAR_TEXT(ALICE), CEDAR_TEXT(STAFF), &is_staff);
    if (!status) status = cedar_store_has(store, CEDAR_TEXT(BOB), &has_bob);
    if (!status) status = cedar_store_ancestor_texts(store, ALICE, &ancestors);
    printf("alice is in staff: %d; the store contains bob: %d; ancestors of alice: ", is_staff, has_bob);
    for (const char *uid; (uid = cedar_texts_next(&ancestors, NULL));) printf("%s", uid);
    printf("\n");
    cedar_texts_free(&ancestors);
    return status;
}

static cedar_status edit(cedar_store *store) {
    cedar_list bob = list_of(BOB, ADMINS), admins = list_of(ADMINS, BOARD), report = list_of(REPORT, NULL);
    cedar_status status = cedar_store_add_list(store, &bob, CEDAR_COMPUTE);
    if (!status) status = cedar_store_upsert_list(store, &admins, CEDAR_COMPUTE);
    if (!status) status = cedar_store_remove_list(store, &report, CEDAR_COMPUTE);
    cedar_list_free(&bob);
    cedar_list_free(&admins);
    cedar_list_free(&report);
    return status;
}

static cedar_status try_add(cedar_store *store, const char *uid, const char *parent) {
    cedar_store copy = CEDAR_EMPTY;
    cedar_list list = list_of(uid, parent);
    char text[128];
    cedar_status status = cedar_store_copy(store, &copy);
    if (!status) status = cedar_store_add_list(&copy, &list, CEDAR_COMPUTE);
    cedar_store_error(&copy, text, sizeof text);
    if (status == CEDAR_DUPLICATE) printf("cannot add: a different entity with this uid exists: %s\n", text);
    if (status == CEDAR_CYCLE) printf("cannot add: an entity would be its own ancestor: %s\n", text);
    if (!status) status = cedar_store_copy(&copy, store);
    cedar_list_free(&list);
    cedar_store_free(&copy);
    return status;
}

static cedar_status slice_for(cedar_store *store, cedar_store *part, const char *principal, const char *action,
                              const char *resource) {
    cedar_list request = CEDAR_EMPTY;
    cedar_list_text(&request, principal);
    cedar_list_text(&request, action);
    cedar_list_text(&request, resource);
    cedar_status status = cedar_store_slice_list(store, part, &request);
    cedar_list_free(&request);
    return status;
}

static cedar_status add_and_link(cedar_policies *set) {
    const uint32_t slots = CEDAR_PRINCIPAL_SLOT + CEDAR_RESOURCE_SLOT;
    cedar_status status = cedar_policies_add_template(set, CEDAR_TEXT("readers"), CEDAR_PERMIT, slots);
    if (!status) status = cedar_policies_link_text(set, "readers", "staff read reports", STAFF, NULL, FOLDER);
    return status;
}

/* Returns whether each slot of a policy is bound to the uid of the request, or does not exist. */
static bool are_met(cedar_texts *env, const char *const request[3]) {
    bool met = true;
    for (size_t slot = 0; slot < 3; slot++) {
        const char *uid = cedar_texts_next(env, NULL); /* empty if there is no such slot */
        met = met && uid && (!*uid || !strcmp(uid, request[slot]));
    }
    return met;
}

static cedar_status list_applicable(cedar_policies *set, const char *const request[3]) {
    cedar_texts policies = CEDAR_EMPTY, env = CEDAR_EMPTY;
    cedar_effect effect = CEDAR_PERMIT;
    cedar_status status = cedar_policies_id_texts(set, CEDAR_POLICIES, &policies);
    for (const char *id; !status && (id = cedar_texts_next(&policies, NULL));) {
        status = cedar_policies_env(set, CEDAR_TEXT(id));
        if (!status) status = cedar_policies_texts(set, &env);
        if (!status) status = cedar_policies_effect(set, CEDAR_TEXT(id), &effect);
        if (!status && are_met(&env, request)) printf("applies: %s (%s)\n", id, effect ? "forbid" : "permit");
    }
    cedar_texts_free(&policies);
    cedar_texts_free(&env);
    return status;
}

static cedar_status merge(cedar_policies *set, cedar_policies *other) {
    cedar_texts renamed = CEDAR_EMPTY;
    cedar_status status = cedar_policies_merge(set, other, true);
    if (!status) status = cedar_policies_texts(set, &renamed);
    for (const char *id; (id = cedar_texts_next(&renamed, NULL));)
        printf("%s of the other set is %s here\n", id, cedar_texts_next(&renamed, NULL));
    cedar_texts_free(&renamed);
    return status;
}

static cedar_status print_ids(cedar_policies *set, cedar_ids list) {
    cedar_texts ids = CEDAR_EMPTY;
    cedar_status status = cedar_policies_id_texts(set, list, &ids);
    for (const char *id; (id = cedar_texts_next(&ids, NULL));) printf("%d: %s\n", (int)list, id);
    cedar_texts_free(&ids);
    return status;
}

static const char *meaning_of(cedar_status status) {
    switch (status) {
    case CEDAR_OCCUPIED: return "the id is in use";
    case CEDAR_NO_SUCH_TEMPLATE: return "there is no template with this id";
    case CEDAR_ARITY: return "the bindings do not match the slots";
    case CEDAR_NOT_AN_ACTION: return "the action's slot is bound to a uid that is not an action";
    case CEDAR_ID_CONFLICT: return "the id of the new link is in use";
    case CEDAR_NO_LINK: return "there is no link with this id";
    case CEDAR_NOT_A_LINK: return "this is not a link";
    case CEDAR_NO_TEMPLATE: return "there is no template with this id";
    case CEDAR_WITH_LINKS: return "the template has links";
    case CEDAR_NOT_A_TEMPLATE: return "this is not a template";
    case CEDAR_NO_STATIC: return "there is no policy with this id";
    case CEDAR_NOT_STATIC: return "this is a link";
    default: return cedar_status_text(status);
    }
}

static void print_error(cedar_policies *set, cedar_status status) {
    char text[128];
    printf("%s: %s\n", meaning_of(status), cedar_policies_error(set, text, sizeof text));
}

static void failing_additions(cedar_policies *set) {
    print_error(set, cedar_policies_add_static(set, CEDAR_TEXT("readers"), CEDAR_PERMIT));
    print_error(set, cedar_policies_link_text(set, "policy0", "new", NULL, NULL, NULL));
    print_error(set, cedar_policies_link_text(set, "readers", "new", NULL, NULL, NULL));
    print_error(set, cedar_policies_link_text(set, "doers", "new", NULL, ALICE, NULL));
    print_error(set, cedar_policies_link_text(set, "doers", "policy0", NULL, READ, NULL));
}

static void failing_removals(cedar_policies *set) {
    print_error(set, cedar_policies_unlink(set, CEDAR_TEXT("nobody")));
    print_error(set, cedar_policies_unlink(set, CEDAR_TEXT("policy0")));
    print_error(set, cedar_policies_remove_static(set, CEDAR_TEXT("nobody")));
    print_error(set, cedar_policies_remove_static(set, CEDAR_TEXT("staff read reports")));
    print_error(set, cedar_policies_remove_template(set, CEDAR_TEXT("nobody")));
    print_error(set, cedar_policies_remove_template(set, CEDAR_TEXT("readers")));
    print_error(set, cedar_policies_remove_template(set, CEDAR_TEXT("policy0")));
}

static cedar_status print_members(cedar_store *store) {
    cedar_texts members = CEDAR_EMPTY, path = CEDAR_EMPTY;
    cedar_status status = cedar_store_descendant_texts(store, STAFF, "User", &members);
    for (const char *member; !status && (member = cedar_texts_next(&members, NULL));) {
        status = cedar_store_path_texts(store, member, STAFF, &path);
        for (const char *uid; (uid = cedar_texts_next(&path, NULL));)
            printf("%s%s", uid, strcmp(uid, STAFF) ? " in " : "\n");
    }
    cedar_texts_free(&members);
    cedar_texts_free(&path);
    return status;
}

static cedar_status print_naming(cedar_policies *set) {
    cedar_texts policies = CEDAR_EMPTY;
    cedar_status status = cedar_policies_naming_texts(set, STAFF, &policies);
    for (const char *id; (id = cedar_texts_next(&policies, NULL));) printf("names the staff: %s\n", id);
    cedar_texts_free(&policies);
    return status;
}

static cedar_status stores(void) {
    cedar_store store = CEDAR_EMPTY, other = CEDAR_EMPTY;
    bool in_board = false, in_staff = false;
    cedar_status status = build(&store);
    if (!status) status = query(&store);
    if (!status) status = print_members(&store);
    if (!status) status = cedar_store_copy(&store, &other);
    if (!status) status = edit(&other);
    if (!status) status = cedar_store_is_descendant_of(&other, CEDAR_TEXT(ALICE), CEDAR_TEXT(BOARD), &in_board);
    if (!status) status = cedar_store_is_descendant_of(&other, CEDAR_TEXT(ALICE), CEDAR_TEXT(STAFF), &in_staff);
    printf("edited: %zu entities; alice is in board: %d, in staff: %d\n", cedar_store_len(&other), in_board, in_staff);
    if (!status) status = slice_for(&store, &other, ALICE, READ, REPORT);
    printf("the slice: %zu of %zu entities\n", cedar_store_len(&other), cedar_store_len(&store));
    if (!status) status = try_add(&store, BOB, NULL);
    if (!status && try_add(&store, ADMINS, NULL) != CEDAR_DUPLICATE) status = CEDAR_DUPLICATE;
    if (!status && try_add(&store, STAFF, STAFF) != CEDAR_CYCLE) status = CEDAR_CYCLE;
    printf("the store: %zu entities\n", cedar_store_len(&store));
    cedar_store_free(&store);
    cedar_store_free(&other);
    return status;
}

static cedar_status sets(void) {
    const char *const request[] = {STAFF, READ, FOLDER};
    cedar_policies set = CEDAR_EMPTY, other = CEDAR_EMPTY;
    cedar_status status = cedar_policies_new(&set, key[0], key[1]);
    if (!status) status = cedar_policies_new(&other, key[0], key[1]);
    if (!status) status = add_and_link(&set);
    if (!status) status = list_applicable(&set, request);
    if (!status) status = print_naming(&set);
    if (!status) status = cedar_policies_add_static(&set, CEDAR_TEXT("policy0"), CEDAR_PERMIT);
    if (!status) status = cedar_policies_add_static(&other, CEDAR_TEXT("policy0"), CEDAR_FORBID);
    if (!status) status = cedar_policies_add_static(&other, CEDAR_TEXT("policy1"), CEDAR_PERMIT);
    if (!status) status = merge(&set, &other);
    if (!status) status = print_ids(&set, CEDAR_BODIES);
    if (!status) status = print_ids(&set, CEDAR_POLICIES);
    if (!status) status = cedar_policies_add_template(&set, CEDAR_TEXT("doers"), CEDAR_PERMIT, CEDAR_ACTION_SLOT);
    if (!status) {
        failing_additions(&set);
        failing_removals(&set);
    }
    cedar_policies_free(&set);
    cedar_policies_free(&other);
    return status;
}

int main(void) {
    if (getrandom(key, sizeof key, 0) != sizeof key) return 1;
    cedar_status status = stores();
    if (!status) status = sets();
    return status != CEDAR_OK;
}
