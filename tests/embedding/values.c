/*
 * Ids inside values: as Linux writes them, and each refusal with its fault. A list has every room for its entries up to
 * one more than it needs. Values, rooms and maps end where nobody may read or write. Values of Linux are those of
 * crates/virtiofs_map_tests/src/acl/by_linux.rt, which tests/values_by_linux.sh made; what is wanted of the others is
 * worked out by hand from the documentation.
 */
#include "see.h"

enum call { LIST, ROOT, WRITTEN };

/* A value and what it becomes: of the guest on the host, or also the other way. */
enum way { TO_HOST, BOTH_WAYS };
static const struct crossing_row { enum call call; enum way way; const char *guest, *host; } crossing_rows[] = {
    /* setfacl -m u:1000:rw file, and u:101000:rw */
    { LIST, BOTH_WAYS, "02000000 01000600ffffffff 02000600e8030000 04000400ffffffff 10000600ffffffff 20000000ffffffff",
      "02000000 01000600ffffffff 02000600888a0100 04000400ffffffff 10000600ffffffff 20000000ffffffff" },
    /* setfacl -d -m u:1000:rwx,g:50:rx folder, and the same of the host */
    { LIST, BOTH_WAYS, "02000000 01000700ffffffff 02000700e8030000 04000500ffffffff 0800050032000000 10000700ffffffff"
                       "20000000ffffffff",
      "02000000 01000700ffffffff 02000700888a0100 04000500ffffffff 08000500720d0300 10000700ffffffff"
      "20000000ffffffff" },
    { LIST, BOTH_WAYS, "02000000", "02000000" },
    /* setcap -n 1000 cap_net_bind_service=+ep file, and -n 101000 */
    { ROOT, BOTH_WAYS, "01000003 00040000 00000000 00000000 00000000 e8030000",
      "01000003 00040000 00000000 00000000 00000000 888a0100" },
    { WRITTEN, BOTH_WAYS, "01000003 00040000 00000000 00000000 00000000 e8030000",
      "01000003 00040000 00000000 00000000 00000000 888a0100" },
    /* (without a field for root, which is user 100000 on the host) */
    { WRITTEN, TO_HOST, "01000002 00040000 00000000 00000000 00000000",
      "01000003 00040000 00000000 00000000 00000000 a0860100" },
    { WRITTEN, TO_HOST, "01000001 00040000 02000000", "01000003 00040000 02000000 00000000 00000000 a0860100" },
};

/* Values of the guest that are refused. */
static const struct refused_row {
    enum call call;
    const char *value;
    uint32_t code;
    struct virtiofs_fault fault;
} refused_rows[] = {
#define REFUSED(call, value, code, kind_, part_, place_, seen_) \
    { call, value, VIRTIOFS_##code, \
      { .kind = VIRTIOFS_FAULT_##kind_, .part = VIRTIOFS_##part_, .place = place_, .seen = seen_ } }
    REFUSED(LIST, "", REFUSED, SHORT, ACL_VALUE, 0, 0),
    REFUSED(LIST, "020000", REFUSED, SHORT, ACL_VALUE, 0, 0),
    REFUSED(LIST, "ffffffff 00", REFUSED, VERSION, ACL_VALUE, 0, 4294967295u),
    REFUSED(LIST, "02000000 01000700ffffffff 01", REFUSED, SIZE, ACL_VALUE, 0, 0),
    REFUSED(LIST, "02000000 0100000000000000 0300000000000000", REFUSED, TAG, ACL_ENTRY, 1, 0),
    REFUSED(LIST, "02000000 0100080000000000", REFUSED, PERMISSION, ACL_ENTRY, 0, 0),
    REFUSED(LIST, "02000000 08000700ffffffff", NO_ID, NO_ID, ACL_ENTRY, 0, 0),
    /* (user 90000 and group 90000 become 4294967295) */
    REFUSED(LIST, "02000000 0100070000000000 02000700905f0100", NO_ID, NO_ID, ACL_ENTRY, 1, 0),
    REFUSED(LIST, "02000000 08000700905f0100 02000700e8030000", NO_ID, NO_ID, ACL_ENTRY, 0, 0),
    REFUSED(LIST, "02000000 0200070001000000 0200070070110100", FORBIDDEN, FORBIDDEN, ACL_ENTRY, 1, 0),
    REFUSED(LIST, "02000000 0800070082380100 0200070082380100 0800070080380100", MERGES, MERGES, ACL_ENTRY, 2, 0),
    REFUSED(ROOT, "", REFUSED, SHORT, CAPABILITY_VALUE, 0, 0),
    REFUSED(ROOT, "030000ff", REFUSED, VERSION, CAPABILITY_VALUE, 0, 255),
    REFUSED(ROOT, "01000003 00000000 00000000 00000000 00000000", REFUSED, SIZE, CAPABILITY_VALUE, 0, 0),
    REFUSED(ROOT, "01000003 00000000 00000000 00000000 00000000 ffffffff", NO_ID, NO_ID, CAPABILITY_VALUE, 0, 0),
    REFUSED(ROOT, "01000003 00000000 00000000 00000000 00000000 905f0100", NO_ID, NO_ID, CAPABILITY_VALUE, 0, 0),
    REFUSED(ROOT, "01000003 00000000 00000000 0000000000000000 70110100", FORBIDDEN, FORBIDDEN, CAPABILITY_VALUE, 0, 0),
    REFUSED(ROOT, "01000002 00040000 00000000 00000000 00000000", ROOT_MOVES, ROOT_MOVES, CAPABILITY_VALUE, 0, 0),
};

/* The name ends before its first zero, also if that is counted, or if there is more behind it. */
static const struct { const char *name; size_t len; uint32_t kind; } name_rows[] = {
#define NAME(name, kind) { name, sizeof name - 1, VIRTIOFS_##kind }
    NAME("system.posix_acl_access", ACL), NAME("system.posix_acl_default", ACL),
    NAME("security.capability", CAPABILITY), NAME("security.capability.", NO_IDS), NAME("", NO_IDS),
    NAME("system.posix_acl_access\0", ACL), NAME("system.posix_acl_default\0\0", ACL),
    NAME("security.capability\0x", CAPABILITY), NAME("security.capabilit\0y", NO_IDS),
    NAME("\0security.capability", NO_IDS),
};

static const struct virtiofs_spec user_specs[] = {
    { VIRTIOFS_MAP, 0, 100000, 65536 }, { VIRTIOFS_FORBID_GUEST, 70000, 0, 10 },
    { VIRTIOFS_GUEST, 90000, 4294967295u, 1 },
};
static const struct virtiofs_spec group_specs[] = {
    { VIRTIOFS_MAP, 0, 200000, 65536 }, { VIRTIOFS_SQUASH_GUEST, 80000, 65534, 10 },
    { VIRTIOFS_GUEST, 90000, 4294967295u, 1 },
};

/* ---- calls ---- */

enum { LONGEST = 64 };

/* Where pages end: the value, and the room for entries or for what is written. */
static uint8_t *values, *rooms;
static struct virtiofs_uids users;
static struct virtiofs_gids groups;

/* Asks of a value, which then stands before `values`, and what is written before `rooms`. */
static uint32_t ask(enum call call, int to_host, struct virtiofs_uids uids, const uint8_t *value, size_t len,
                    size_t room, struct virtiofs_fault *fault)
{
    uint8_t *at = lent(values, len);
    struct virtiofs_entry_room *entries = lent(rooms, room * sizeof *entries);
    uint8_t *written = call == WRITTEN ? lent(rooms, 24) : NULL;
    if (len)
        memcpy(at, value, len);
    memset(fault, UNTOUCHED, sizeof *fault);
    if (call == LIST)
        return to_host ? virtiofs_acl_to_host(uids, groups, at, len, entries, room, fault)
                       : virtiofs_acl_to_guest(uids, groups, at, len, entries, room, fault);
    if (call == ROOT)
        return to_host ? virtiofs_capability_to_host(uids, at, len, fault)
                       : virtiofs_capability_to_guest(uids, at, len, fault);
    return to_host ? virtiofs_capability_to_host_in_revision_3(uids, at, len, written, fault)
                   : virtiofs_capability_to_guest_in_revision_3(uids, at, len, written, fault);
}

/* Whether nothing was written but to the value, the entries, or the 24 bytes, and whether the value is this one. */
static int is_left(enum call call, const uint8_t *value, size_t len, size_t room)
{
    size_t written = call == LIST ? room * sizeof(struct virtiofs_entry_room) : call == WRITTEN ? 24 : 0;
    return is_kept(values, len, len) && is_kept(rooms, written, written) && !memcmp(values - len, value, len);
}

/* ---- rows ---- */

static void see_crossing(const struct crossing_row *row, int to_host)
{
    uint8_t value[LONGEST], wanted[LONGEST];
    size_t len = bytes_of(to_host ? row->guest : row->host, value), needed = row->call == LIST ? (len - 4) / 8 : 0;
    bytes_of(to_host ? row->host : row->guest, wanted);
    for (size_t room = 0; room <= needed + 1; room++) {
        struct virtiofs_fault fault, told = { .kind = VIRTIOFS_FAULT_ROOM, .part = VIRTIOFS_ACL_VALUE,
                                              .expected = needed, .seen = room };
        uint32_t code = ask(row->call, to_host, users, value, len, room, &fault);
        SEE_ROW(code == (room < needed ? VIRTIOFS_NO_ROOM : VIRTIOFS_OK), row->guest);
        SEE_ROW(is_fault(fault, room < needed ? told : no_fault), row->guest);
        SEE_ROW(is_left(row->call, room < needed || row->call == WRITTEN ? value : wanted, len, room), row->guest);
        SEE_ROW(row->call != WRITTEN || !memcmp(rooms - 24, wanted, 24), row->guest);
    }
}

/* What is wrong whatever the map, is wrong both ways. */
static void see_refused(const struct refused_row *row, enum call call)
{
    uint8_t value[LONGEST];
    size_t len = bytes_of(row->value, value);
    struct virtiofs_fault fault;
    for (int to_host = row->code != VIRTIOFS_REFUSED; to_host < 2; to_host++) {
        uint32_t code = ask(call, to_host, users, value, len, 8, &fault);
        SEE_ROW(code == row->code && is_fault(fault, row->fault), row->value);
        SEE_ROW(is_left(call, value, len, 8) && (call != WRITTEN || is_untouched(rooms - 24, 24)), row->value);
    }
}

/* No call changes anything if there is no map of users, or for a list none of groups. */
static void see_no_map(const struct crossing_row *row, int to_host)
{
    const struct virtiofs_uids none = { NULL, 0 };
    const struct virtiofs_gids kept = groups;
    uint8_t value[LONGEST];
    size_t len = bytes_of(row->guest, value);
    struct virtiofs_fault fault;
    SEE_ROW(ask(row->call, to_host, none, value, len, 8, &fault) == VIRTIOFS_NO_MAP && is_fault(fault, no_fault)
            && is_left(row->call, value, len, 8) && (row->call != WRITTEN || is_untouched(rooms - 24, 24)), row->guest);
    groups = (struct virtiofs_gids){ NULL, 0 };
    SEE_ROW(row->call != LIST
            || (ask(LIST, to_host, users, value, len, 8, &fault) == VIRTIOFS_NO_MAP && is_fault(fault, no_fault)
                && is_left(LIST, value, len, 8)), row->guest);
    groups = kept;
}

/* A map that ends where nobody may read. */
static uint32_t *made(const struct virtiofs_spec *specs, size_t count, uint8_t *end, size_t *len)
{
    uint32_t words[WORDS];
    struct virtiofs_fault fault;
    SEE(virtiofs_uids_make(specs, count, words, WORDS, len, &fault) == VIRTIOFS_OK);
    return handed(end, words, 4 * *len);
}

int main(void)
{
    values = guarded(1);
    rooms = guarded(1);
    users.words = made(user_specs, COUNT(user_specs), guarded(1), &users.count);
    groups.words = made(group_specs, COUNT(group_specs), guarded(1), &groups.count);
    for (size_t i = 0; i < COUNT(crossing_rows); i++)
        for (int to_host = crossing_rows[i].way == TO_HOST; to_host < 2; to_host++) {
            see_crossing(&crossing_rows[i], to_host);
            see_no_map(&crossing_rows[i], to_host);
        }
    for (size_t i = 0; i < COUNT(refused_rows); i++)
        see_refused(&refused_rows[i], refused_rows[i].call);
    for (size_t i = 0; i < COUNT(refused_rows); i++)
        if (refused_rows[i].call == ROOT && refused_rows[i].code != VIRTIOFS_ROOT_MOVES)
            see_refused(&refused_rows[i], WRITTEN);
    for (size_t i = 0; i < COUNT(name_rows); i++)
        SEE_ROW(virtiofs_carries_ids(handed(values, name_rows[i].name, name_rows[i].len), name_rows[i].len)
                == name_rows[i].kind, name_rows[i].name);
    return counted();
}
