/*
 * What a daemon in C does with the static library: it makes its maps once, and asks them for every request, in as many
 * threads as it has. docs/C.md explains it, and examples/run builds and runs it.
 */
#include <inttypes.h>
#include <stdio.h>
#include <stdlib.h>
#include <string.h>

#include "virtiofs_map.h"

/* The longest list of names that Linux has, and the entries of an access control list that this daemon takes. */
enum { LIST_ROOM = 65536, ENTRIES = 64 };

/* The maps of a share. If there are none, it says which option is to blame, and why. */
static bool make_maps(const struct virtiofs_options *options, struct virtiofs_maps *maps)
{
    static const char *const names[] = { "start", "--translate-uid", "--translate-gid", "--xattrmap" };
    struct virtiofs_refusal refusal;
    if (virtiofs_maps_make(options, maps, &refusal) == VIRTIOFS_OK)
        return true;
    fprintf(stderr, "%s: %s\n", names[refusal.option], refusal.sentence);
    return false;
}

/* Who owns a file on the host that the guest gives to this user. Nobody does if the code is not VIRTIOFS_OK: chown with
   4294967295 would leave the owner that the file has, and a new file belongs to the daemon's own user. */
static void show_owner(struct virtiofs_uids users, uint32_t user)
{
    uint32_t owner;
    const enum virtiofs_code code = virtiofs_uids_to_host(users, user, &owner);
    if (code == VIRTIOFS_OK)
        printf("user %" PRIu32 " of the guest is user %" PRIu32 " of the host\n", user, owner);
    else
        printf("user %" PRIu32 " of the guest: %s, errno %d\n", user, virtiofs_code_text(code),
               virtiofs_code_errno(code));
}

/* Which name the host has for the guest's attribute. */
static void show_name(struct virtiofs_names names, const char *name)
{
    char host[VIRTIOFS_NAME_ROOM];
    const enum virtiofs_code code = virtiofs_name_to_host(names, name, host);
    if (code == VIRTIOFS_OK)
        printf("%s of the guest is %s of the host\n", name, host);
    else
        printf("%s of the guest: %s, errno %d\n", name, virtiofs_code_text(code), virtiofs_code_errno(code));
}

/* Which names the guest gets to see, where the host lists these: each has a zero after it. */
static void show_list(struct virtiofs_names names, const char *list, size_t list_len)
{
    static char out[LIST_ROOM];
    size_t len;
    if (virtiofs_list_to_guest(names, list, list_len, out, sizeof out, &len) != VIRTIOFS_OK)
        return;
    printf("the guest sees");
    for (const char *name = out; name < out + len; name += strlen(name) + 1)
        printf(" %s", name);
    printf("\n");
}

/* Makes a value that the guest sets one of the host, in place; `name` is the attribute's on the host. Returns 0, or the
   errno that the guest gets: then the value is as it was. */
static int set_value(struct virtiofs_uids users, struct virtiofs_gids groups, const char *name, void *value, size_t len)
{
    struct virtiofs_entry_room entries[ENTRIES];
    struct virtiofs_fault fault;
    enum virtiofs_code code = VIRTIOFS_OK;
    switch (virtiofs_carries_ids(name, strlen(name))) {
    case VIRTIOFS_ACL:
        code = virtiofs_acl_to_host(users, groups, value, len, entries, ENTRIES, &fault);
        break;
    case VIRTIOFS_CAPABILITY:
        code = virtiofs_capability_to_host(users, value, len, &fault);
        break;
    case VIRTIOFS_NO_IDS:
        break;
    }
    return virtiofs_code_errno(code);
}

/* What becomes of `setfacl -m u:5:rw file` of the guest: the id of the second entry. */
static void show_right(struct virtiofs_uids users, struct virtiofs_gids groups)
{
    uint8_t list[] = { 2,  0, 0, 0,                               /* version 2 */
                       1,  0, 6, 0, 0xff, 0xff, 0xff, 0xff,       /* the owner: rw */
                       2,  0, 6, 0, 5,    0,    0,    0,          /* user 5: rw */
                       4,  0, 4, 0, 0xff, 0xff, 0xff, 0xff,       /* the group: r */
                       16, 0, 6, 0, 0xff, 0xff, 0xff, 0xff,       /* the mask: rw */
                       32, 0, 0, 0, 0xff, 0xff, 0xff, 0xff };     /* all others: nothing */
    if (set_value(users, groups, "system.posix_acl_access", list, sizeof list) == 0)
        printf("what the guest lets user 5 do, user %d of the host may\n", list[16] + 256 * list[17]);
}

int main(void)
{
    static const char host_list[] = "trusted.virtiofs.security.selinux\0security.selinux\0user.note";
    char *users[] = { "map:0:1000:10", "forbid-guest:10:4294967284" };
    const struct virtiofs_options options = { users, 2, NULL, 0, ":map:security.selinux:trusted.virtiofs.:" };
    struct virtiofs_maps maps;
    if (!make_maps(&options, &maps))
        return 1;

    /* Any number of threads would do so at once, with these maps. */
    show_owner(maps.users, 5);
    show_owner(maps.users, 10);
    show_owner(maps.users, 4294967295u);
    show_name(maps.names, "security.selinux");
    show_name(maps.names, "trusted.virtiofs.x");
    show_name(maps.names, "user.note");
    show_list(maps.names, host_list, sizeof host_list);
    show_right(maps.users, maps.groups);
    free(maps.memory);
    return 0;
}
