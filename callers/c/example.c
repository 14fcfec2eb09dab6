/* Who may enter: a store of twenty lines. */
#include "cedar.h"
#include <stdio.h>
#include <sys/random.h>

#define ALICE "User::\"alice\""
#define ALL "Group::\"all\""

int main(void) {
    uint64_t key[2];
    bool is_descendant = false;
    cedar_store store = CEDAR_EMPTY;
    cedar_list list = CEDAR_EMPTY;
    cedar_texts ancestors = CEDAR_EMPTY;
    if (getrandom(key, sizeof key, 0) != sizeof key) return 1;
    size_t alice = cedar_list_uid(&list, "User", "alice"), staff = cedar_list_uid(&list, "Group", "staff");
    cedar_list_parent(&list, alice, staff);
    cedar_list_parent(&list, staff, cedar_list_uid(&list, "Group", "all"));
    cedar_status status = cedar_store_new(&store, key[0], key[1]);
    if (!status) status = cedar_store_build_list(&store, &list, CEDAR_COMPUTE);
    if (!status) status = cedar_store_is_descendant_of(&store, CEDAR_TEXT(ALICE), CEDAR_TEXT(ALL), &is_descendant);
    if (!status) status = cedar_store_ancestor_texts(&store, ALICE, &ancestors);
    printf("%s %d\n", cedar_status_name(status), is_descendant);
    for (const char *uid; (uid = cedar_texts_next(&ancestors, NULL));) printf("%s\n", uid);
    cedar_texts_free(&ancestors);
    cedar_list_free(&list);
    cedar_store_free(&store);
    return status != CEDAR_OK;
}
