/* The core of a daemon as the header teaches it, in C99 and in C++: it casts no text. It prints one refusal. */
#include "virtiofs_map.h"

#include <stdio.h>

static struct virtiofs_maps maps;

/* Makes the maps of a share, or says why there are none. */
static enum virtiofs_code start(char *user, char *group, const char *rules)
{
    static const char *const names[] = { "start", "uid", "gid", "xattrmap" };
    char *users[] = { user }, *groups[] = { group };
    const struct virtiofs_options options = { users, 1, groups, 1, rules };
    struct virtiofs_refusal refusal;
    const enum virtiofs_code code = virtiofs_maps_make(&options, &maps, &refusal);
    if (code != VIRTIOFS_OK)
        printf("%s %u: %s\n", names[refusal.option], (unsigned)refusal.index, refusal.sentence);
    return code;
}

int main(void)
{
    static const uint32_t kept[] = { 0, 0, 0 }; /* (a map that is only read may be const) */
    const struct virtiofs_uids none = { kept, 3 };
    unsigned char list[] = { 2, 0, 0, 0, 2, 0, 6, 0, 5, 0, 0, 0, 8, 0, 4, 0, 7, 0, 0, 0 }; /* user 5, group 7 */
    char squash[] = "squash-guest:0:4294967295:9", user[] = "map:0:600:9", group[] = "map:0:300:9";
    struct virtiofs_entry_room room[sizeof list / 8];
    struct virtiofs_fault fault;
    char host[VIRTIOFS_NAME_ROOM];
    uint32_t owner = 0;
    int is_well = start(squash, group, ":bad:all\033:::") == VIRTIOFS_REFUSED && !maps.memory
                  && virtiofs_uids_to_host(none, 5, &owner) == VIRTIOFS_NO_MAP && owner == 0;
    is_well = start(squash, group, NULL) == VIRTIOFS_OK && is_well
              && virtiofs_code_errno(virtiofs_uids_to_host(maps.users, 5, &owner)) == EINVAL && owner == 0
              && virtiofs_name_to_host(maps.names, "trusted.x", host) == VIRTIOFS_OK && !strcmp(host, "trusted.x");
    free(maps.memory);
    is_well = start(user, group, ":map:trusted.:user.virtiofs.:") == VIRTIOFS_OK && is_well
              && virtiofs_uids_to_host(maps.users, 5, &owner) == VIRTIOFS_OK && owner == 605
              && virtiofs_name_to_host(maps.names, "trusted.x", host) == VIRTIOFS_OK
              && !strcmp(host, "user.virtiofs.trusted.x")
              && virtiofs_acl_to_host(maps.users, maps.groups, list, sizeof list, room, 2, &fault) == VIRTIOFS_OK
              && list[8] == 0x5d && list[9] == 2 && list[16] == 0x33 && list[17] == 1;
    free(maps.memory);
    return is_well ? 0 : 1;
}
