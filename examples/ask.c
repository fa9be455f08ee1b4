/* The ten lines that make a map and ask it. docs/C.md and include/virtiofs_map.h show them. */
#include <stdio.h>

#include "virtiofs_map.h"

int main(void)
{
    const struct virtiofs_spec specs[] = { { VIRTIOFS_MAP, 0, 100000, 65536 },
                                           { VIRTIOFS_FORBID_GUEST, 65536, 0, 4294901759u } };
    uint32_t words[32], owner;
    struct virtiofs_uids users = { words, 0 };
    struct virtiofs_fault fault;
    enum virtiofs_code code = virtiofs_uids_make(specs, 2, words, 32, &users.count, &fault);
    if (code == VIRTIOFS_OK)
        code = virtiofs_uids_to_host(users, 1000, &owner);
    if (code == VIRTIOFS_OK)
        printf("guest user 1000 is host user %u\n", (unsigned)owner);
    return virtiofs_code_errno(code);
}
