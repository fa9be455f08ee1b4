/*
 * Each request for memory of a call is refused in turn, until a run meets no refusal. Every run says that memory ran
 * out and writes nothing but that, or answers as with ample memory. Calls that need no memory make no request.
 *
 * It is linked with --wrap=malloc and --wrap=realloc.
 */
#include "see.h"

/* The name of a row, the code with ample memory, whether the call takes memory, and the call. */
#define ROWS(ROW) \
    ROW(make, OK, 1, virtiofs_uids_make(specs, 3, to.words, WORDS, &to.len, &fault)) \
    ROW(make_in_no_room, NO_ROOM, 1, virtiofs_gids_make(specs, 3, to.words, 3, &to.len, &fault)) \
    ROW(make_of_two_that_meet, REFUSED, 1, virtiofs_uids_make(met, 2, to.words, WORDS, &to.len, &fault)) \
    ROW(make_of_none, OK, 0, virtiofs_uids_make(NULL, 0, to.words, WORDS, &to.len, &fault)) \
    ROW(texts, OK, 1, virtiofs_uids_make_texts(both, 1, to.words, WORDS, &to.len, &fault, to.quoted, 9)) \
    ROW(wrong_texts, REFUSED, 1, virtiofs_gids_make_texts(both, 2, to.words, WORDS, &to.len, &fault, to.quoted, 9)) \
    ROW(spec_read, OK, 1, virtiofs_spec_read(BYTES("SQUASH-HOST:1:2:3"), &to.spec, &fault, to.quoted, 9)) \
    ROW(wrong_spec, REFUSED, 1, virtiofs_spec_read(BYTES("map:x:1:1"), &to.spec, &fault, to.quoted, 9)) \
    ROW(specs_read, OK, 1, virtiofs_specs_read(both, 1, &to.spec, &fault, to.quoted, 9)) \
    ROW(specs_tested, REFUSED, 1, virtiofs_specs_read(both, 2, NULL, &fault, to.quoted, 9)) \
    ROW(range_read, OK, 0, virtiofs_range_read(BYTES(":0:1:2:"), &to.range, &fault)) \
    ROW(wrong_range, REFUSED, 0, virtiofs_range_read(BYTES(":0:1:x:"), &to.range, &fault)) \
    ROW(names_make, OK, 1, virtiofs_names_make(BYTES(RULES), to.bytes, PAGE, &to.len, &fault, to.quoted, 9)) \
    ROW(names_in_no_room, NO_ROOM, 1, virtiofs_names_make(BYTES(RULES), to.bytes, 3, &to.len, &fault, NULL, 0)) \
    ROW(wrong_rules, REFUSED, 1, virtiofs_names_make(BYTES(":x:y:z:"), to.bytes, 9, &to.len, &fault, to.quoted, 9)) \
    ROW(maps_make, OK, 1, make_maps()) \
    ROW(audit, OK, 1, virtiofs_names_audit(names, &to.yes, to.out, 64, &to.len)) \
    ROW(audit_listed, OK, 1, virtiofs_names_audit_listed(names, &to.yes, to.out, 64, &to.len)) \
    ROW(apart, OK, 1, virtiofs_names_keeps_apart(names, other, &to.yes, to.out, 64, &to.len)) \
    ROW(shares_no_name, OK, 1, virtiofs_names_shares_no_name(names, other, &to.yes, to.out, 64, &to.len)) \
    ROW(comes_back, OK, 1, virtiofs_ids_comes_back(specs, 3, &to.yes, &to.found, &fault)) \
    ROW(alone, OK, 1, virtiofs_ids_is_alone(specs, 3, &to.yes, &to.found, &fault)) \
    ROW(reach, OK, 1, virtiofs_ids_reaches(specs, 3, 7, 7, &to.yes, &to.found, &fault)) \
    ROW(ids_apart, OK, 1, virtiofs_ids_apart(specs, 3, specs, 2, &to.yes, &to.found, &fault)) \
    ROW(ids_that_meet, REFUSED, 1, virtiofs_ids_apart(specs, 3, met, 2, &to.yes, &to.found, &fault)) \
    ROW(guest, OK, 0, virtiofs_uids_to_host(users, 5, &to.number)) \
    ROW(host, OK, 0, virtiofs_gids_to_guest(groups, 1005, &to.number)) \
    ROW(client, OK, 0, virtiofs_name_to_host_bytes(names, BYTES("trusted.a"), to.out, 64, &to.len)) \
    ROW(client_denied, DENIED, 0, virtiofs_name_to_host_bytes(names, BYTES("user.virtiofs.x"), to.out, 64, &to.len)) \
    ROW(name_to_host, OK, 0, virtiofs_name_to_host(names, "trusted.a", to.host)) \
    ROW(server, OK, 0, virtiofs_list_to_guest(names, BYTES("user.virtiofs.a\0b"), to.out, 64, &to.len)) \
    ROW(terminated, OK, 0, virtiofs_names_is_terminated(names, &to.yes)) \
    ROW(acl, OK, 0, virtiofs_acl_to_host(users, groups, to.value, 20, to.entries, 2, &fault)) \
    ROW(root, ROOT_MOVES, 0, virtiofs_capability_to_host(users, to.root, 20, &fault)) \
    ROW(written, OK, 0, virtiofs_capability_to_guest_in_revision_3(users, to.root, 20, to.out, &fault)) \
    ROW(sentence, OK, 0, virtiofs_fault_text(&no_fault, NULL, 0, to.out, 64, &to.len))

#define RULES ":prefix:all:a:b: :bad:client:c:: :map:trusted.:user.virtiofs.:"
#define BYTES(text) text, sizeof text - 1

static const struct virtiofs_spec specs[3] = {
    { VIRTIOFS_SQUASH_GUEST, 20, 7, 5 }, { VIRTIOFS_MAP, 0, 1000, 10 }, { VIRTIOFS_HOST, 5000, 1, 2 },
};
static const struct virtiofs_spec met[2] = { { VIRTIOFS_GUEST, 0, 100, 10 }, { VIRTIOFS_GUEST, 5, 200, 1 } };

/* ---- requests ---- */

void *__real_malloc(size_t size);
void *__real_realloc(void *at, size_t size);
void *__wrap_malloc(size_t size);
void *__wrap_realloc(void *at, size_t size);

/* Requests so far, and the number of the one that is refused, from 1; none where it is 0. */
static unsigned requests, refused;

void *__wrap_malloc(size_t size)
{
    return ++requests == refused ? NULL : __real_malloc(size);
}

void *__wrap_realloc(void *at, size_t size)
{
    return ++requests == refused ? NULL : __real_realloc(at, size);
}

/* ---- calls ---- */

/* The maps that are asked. */
static struct virtiofs_uids users;
static struct virtiofs_gids groups;
static struct virtiofs_names names, other;

/* What a call writes to, but for the fault. */
struct outputs {
    uint32_t words[WORDS], number;
    char host[VIRTIOFS_NAME_ROOM];
    uint8_t bytes[PAGE], out[64], quoted[9], value[20], root[20];
    struct virtiofs_entry_room entries[2];
    struct virtiofs_spec spec;
    struct virtiofs_range range;
    struct virtiofs_ids_found found;
    size_t len;
    bool yes;
};
static struct outputs to;
static struct virtiofs_fault fault;

#define NAME(name, code, takes_memory, call) ROW_##name,
#define CASE(name, code, takes_memory, call) case ROW_##name: return call;
#define ENTRY(name, code, takes_memory, call) { #name, VIRTIOFS_##code, takes_memory },
enum row { ROWS(NAME) NO_ROW };
static const struct { const char *name; uint32_t code; int takes_memory; } rows[] = { ROWS(ENTRY) };

/* Makes all maps of a share, of which it keeps none. Where memory ran out, no option is to blame. */
static uint32_t make_maps(void)
{
    char *values[] = { "map:0:1000:10" };
    const struct virtiofs_options options = { values, 1, values, 1, RULES };
    struct virtiofs_refusal refusal;
    struct virtiofs_maps maps;
    const uint32_t code = virtiofs_maps_make(&options, &maps, &refusal);
    to.len = code == VIRTIOFS_OK ? maps.names.len : maps.memory || refusal.option;
    free(maps.memory);
    return code;
}

static uint32_t call(enum row row)
{
    static const uint8_t list[20] = { 2, 0, 0, 0, 2, 0, 7, 0, 5, 0, 0, 0, 2, 0, 7, 0, 20, 0, 0, 0 };
    static const uint8_t root[20] = { 0, 0, 0, 2 };
    const struct virtiofs_text both[2] = { text_of("MAP:0:1000:10"), text_of("foo:1") };
    memset(&to, 0, sizeof to);
    memset(&fault, 0, sizeof fault);
    memcpy(to.value, list, sizeof list);
    memcpy(to.root, root, sizeof root);
    switch (row) {
        ROWS(CASE)
    default: return UINT32_MAX;
    }
}

/* What is left of a call that ran out of memory: it wrote nothing, but may have said so. A fault has then no part. */
static int is_no_memory(uint32_t code, const struct outputs *before)
{
    static const struct virtiofs_fault told = { .kind = VIRTIOFS_FAULT_MEMORY };
    return code == VIRTIOFS_NO_MEMORY && is_fault(fault, fault.kind ? told : no_fault)
           && !memcmp(&to, before, sizeof to);
}

/* Runs a call with its first request refused, its second, and so on. */
static void see_row(enum row row)
{
    static struct outputs ample, before;
    const char *name = rows[row].name;
    unsigned number = 0;
    call(NO_ROW);
    before = to;
    /* (the answer that warns) */
    before.yes = row == ROW_reach;
    refused = 0;
    SEE_ROW(call(row) == rows[row].code, name);
    ample = to;
    const struct virtiofs_fault ample_fault = fault;
    do {
        refused = ++number;
        requests = 0;
        uint32_t code = call(row);
        int is_ample = code == rows[row].code && is_fault(fault, ample_fault) && !memcmp(&to, &ample, sizeof to);
        SEE_ROW(is_ample || (requests >= number && is_no_memory(code, &before)), name);
    } while (requests >= number);
    printf("%s: %u requests\n", name, number - 1);
    SEE_ROW((number > 1) == rows[row].takes_memory, name);
}

int main(void)
{
    static uint32_t words[WORDS];
    static uint8_t bytes[2][PAGE];
    SEE(virtiofs_uids_make(specs, 3, words, WORDS, &users.count, &fault) == VIRTIOFS_OK);
    users.words = groups.words = words;
    groups.count = users.count;
    names = names_of(RULES, bytes[0], PAGE);
    other = names_of(":map::b.:", bytes[1], PAGE);
    for (enum row row = 0; row < NO_ROW; row++)
        see_row(row);
    return counted();
}
