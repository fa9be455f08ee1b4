/*
 * Maps of ids from arrays and from texts, lookups in them, and the texts of specifications and of ranges. Each buffer
 * has every length up to one more than is needed.
 */
#include "see.h"

#define FAULT(name, ...) { .kind = VIRTIOFS_FAULT_##name, .part = VIRTIOFS_SPECIFICATION, __VA_ARGS__ }

/* An id, the code of its lookup, and what it becomes: 17 stood there before. */
struct lookup { uint32_t id, code, to; };

/* A list as texts and as specifications, and lookups of an id of the guest and of one of the host in its map. */
static const struct made_row {
    const char *texts[2];
    struct virtiofs_spec specs[2];
    size_t count;
    struct lookup guest, host;
} made_rows[] = {
#define BECOMES(id, to) { id, VIRTIOFS_OK, to }
#define FAILS(id, code) { id, VIRTIOFS_##code, 17 }
    { { NULL }, { { 0, 0, 0, 0 } }, 0, BECOMES(4294967294u, 4294967294u), BECOMES(7, 7) },
    { { "map:0:1000:10" }, { { VIRTIOFS_MAP, 0, 1000, 10 } }, 1, BECOMES(9, 1009), BECOMES(1005, 5) },
    { { "guest:0:1000:10", "host:1000:20:10" }, { { VIRTIOFS_GUEST, 0, 1000, 10 }, { VIRTIOFS_HOST, 1000, 20, 10 } }, 2,
      BECOMES(9, 1009), BECOMES(1009, 29) },
    { { "squash-guest:0:1001:4294967295", "squash-host:100:7:3" },
      { { VIRTIOFS_SQUASH_GUEST, 0, 1001, 4294967295u }, { VIRTIOFS_SQUASH_HOST, 100, 7, 3 } }, 2,
      BECOMES(4294967294u, 1001), BECOMES(102, 7) },
    /* (what would be its target is not read) */
    { { "FORBID-GUEST/7/3" }, { { VIRTIOFS_FORBID_GUEST, 7, 99, 3 } }, 1, FAILS(9, FORBIDDEN), BECOMES(99, 99) },
    /* 4294967295 is no id, nor does any id become it */
    { { NULL }, { { 0, 0, 0, 0 } }, 0, FAILS(4294967295u, NO_ID), FAILS(4294967295u, NO_ID) },
    { { "map:0:4294967290:5" }, { { VIRTIOFS_MAP, 0, 4294967290u, 5 } }, 1, BECOMES(4, 4294967294u),
      FAILS(4294967295u, NO_ID) },
    { { "guest:0:4294967290:6", "host:7:4294967295:1" },
      { { VIRTIOFS_GUEST, 0, 4294967290u, 6 }, { VIRTIOFS_HOST, 7, 4294967295u, 1 } }, 2, FAILS(5, NO_ID),
      FAILS(7, NO_ID) },
    { { "squash-guest:0:4294967295:4294967295", "squash-host:100:4294967295:3" },
      { { VIRTIOFS_SQUASH_GUEST, 0, 4294967295u, 4294967295u }, { VIRTIOFS_SQUASH_HOST, 100, 4294967295u, 3 } }, 2,
      FAILS(7, NO_ID), FAILS(102, NO_ID) },
};

/* Arrays of which no map is made, with the first fault. */
static const struct refused_row {
    const char *row;
    struct virtiofs_spec specs[3];
    size_t count;
    struct virtiofs_fault fault;
} refused_rows[] = {
    { "no kind, before all other faults", { { 0, 0, 0, 1 }, { 0, 0, 0, 1 }, { 6, 1, 2, 3 } }, 3,
      FAULT(KIND, .place = 2) },
    { "ids of the guest too far", { { 5, 4294967295u, 9, 1 } }, 1,
      FAULT(OVERFLOW, .end = VIRTIOFS_SOURCE, .spec = { 5, 4294967295u, 0, 1 }) },
    { "ids of the host too far", { { 0, 7, 8, 9 }, { 4, 0, 4294967290u, 6 } }, 2,
      FAULT(OVERFLOW, .place = 1, .direction = VIRTIOFS_HOST_TO_GUEST, .spec = { 4, 0, 4294967290u, 6 }) },
    { "targets too far", { { 0, 0, 4294967290u, 10 } }, 1,
      FAULT(OVERFLOW, .end = VIRTIOFS_TARGET, .spec = { 0, 0, 4294967290u, 10 }) },
    { "two of the guest that meet", { { 0, 0, 100, 10 }, { 5, 7, 0, 1 } }, 2,
      FAULT(INTERSECTS, .place = 1, .spec = { 5, 7, 0, 1 }) },
    { "two of the host that meet", { { 4, 0, 1000, 10 }, { 1, 1005, 0, 1 } }, 2,
      FAULT(INTERSECTS, .place = 1, .direction = VIRTIOFS_HOST_TO_GUEST, .spec = { 1, 1005, 0, 1 }) },
};

/* Lists of texts of which no map is made: what is quoted, and the first fault. A text that is NULL is an empty one. */
static const struct texts_row {
    const char *texts[3];
    size_t count;
    const char *quoted;
    struct virtiofs_fault fault;
} texts_rows[] = {
    { { "FOO-\xc4\xb0r:1" }, 1, "foo-\xc4\xb0r", FAULT(PREFIX, .place = 0) },
    { { NULL }, 1, "", FAULT(LENGTH, .expected = 1) },
    { { "map:1:2:3:" }, 1, "", FAULT(VALUE, .number = VIRTIOFS_NUMBER_EMPTY) },
    { { "foo:x" }, 1, "x", FAULT(VALUE, .number = VIRTIOFS_NUMBER_DIGIT) },
    { { "map:4294967296:0:1" }, 1, "4294967296", FAULT(VALUE, .number = VIRTIOFS_NUMBER_LARGE) },
    { { "map:\xff:0:1" }, 1, "", FAULT(UTF8, .place = 0) },
    { { NULL, "foo:1" }, 2, "", FAULT(LENGTH, .expected = 1) },
    { { "map:0:1:2", NULL }, 2, "", FAULT(LENGTH, .place = 1, .expected = 1) },
    { { "guest:0:1:2", "guest:1:1:2", NULL }, 3, "", FAULT(LENGTH, .place = 2, .expected = 1) },
    { { "guest:0:1:2", "guest:1:1:2", "map:1:x" }, 3, "x", FAULT(VALUE, .place = 2, .number = VIRTIOFS_NUMBER_DIGIT) },
    { { "guest:0:1:2", "guest:1:5:2" }, 2, "", FAULT(INTERSECTS, .place = 1, .spec = { 0, 1, 5, 2 }) },
};

static const struct range_row {
    const char *text;
    struct virtiofs_range range;
    struct virtiofs_fault fault;
} range_rows[] = {
    { "+0+100000+65536+", { 0, 100000, 65536 }, { .kind = 0 } },
    { "", { 9, 9, 9 }, { .kind = VIRTIOFS_FAULT_RANGE_INCOMPLETE } },
    { ":1:2:3", { 9, 9, 9 }, { .kind = VIRTIOFS_FAULT_RANGE_DELIMITER } },
    { "::::", { 9, 9, 9 }, { .kind = VIRTIOFS_FAULT_RANGE_VALUE, .number = VIRTIOFS_NUMBER_EMPTY } },
    { ":0:1x::", { 9, 9, 9 }, { .kind = VIRTIOFS_FAULT_RANGE_VALUE, .number = VIRTIOFS_NUMBER_DIGIT } },
    { ":4294967296:x:1:", { 9, 9, 9 }, { .kind = VIRTIOFS_FAULT_RANGE_VALUE, .number = VIRTIOFS_NUMBER_LARGE } },
    { ":0:\xff:1:", { 9, 9, 9 }, { .kind = VIRTIOFS_FAULT_UTF8 } },
};

/* ---- calls ---- */

enum call { USERS, GROUPS, USERS_OF_TEXTS, GROUPS_OF_TEXTS, READ, READ_ONE };

/* Where pages end: what is handed in, and what is written to. */
static uint8_t *given, *words, *quotes;

/* Asks for a map of specifications or of texts, or for what texts or one text say, with room for so many words. */
static uint32_t ask(enum call call, const struct virtiofs_spec *specs, const char *const *texts, size_t count,
                    size_t room, size_t *wanted, struct virtiofs_fault *fault, size_t quoted_room)
{
    struct virtiofs_text list[3] = { { NULL, 0 } };
    for (size_t i = 0; texts && i < count; i++)
        list[i] = text_of(texts[i]);
    const void *in = call == READ_ONE         ? handed(given, list[0].at, list[0].len)
                     : call >= USERS_OF_TEXTS ? handed(given, list, count * sizeof *list)
                                              : handed(given, specs, count * sizeof *specs);
    void *to = lent(words, 4 * room), *quoted = lent(quotes, quoted_room);
    *wanted = 77;
    memset(fault, UNTOUCHED, sizeof *fault);
    switch (call) {
    case USERS: return virtiofs_uids_make(in, count, to, room, wanted, fault);
    case GROUPS: return virtiofs_gids_make(in, count, to, room, wanted, fault);
    case USERS_OF_TEXTS: return virtiofs_uids_make_texts(in, count, to, room, wanted, fault, quoted, quoted_room);
    case GROUPS_OF_TEXTS: return virtiofs_gids_make_texts(in, count, to, room, wanted, fault, quoted, quoted_room);
    case READ: return virtiofs_specs_read(in, count, to, fault, quoted, quoted_room);
    default: return virtiofs_spec_read(in, list[0].len, to, fault, quoted, quoted_room);
    }
}

/* ---- rows ---- */

/* A lookup in a map of users, and in the same one of groups. */
static void see_lookup(struct virtiofs_uids users, int to_host, struct lookup it, const char *row)
{
    const struct virtiofs_gids groups = { users.words, users.count };
    uint32_t to[] = { 17, 17 };
    uint32_t code = to_host ? virtiofs_uids_to_host(users, it.id, &to[0]) : virtiofs_uids_to_guest(users, it.id, &to[0]);
    SEE_ROW(code == it.code && to[0] == it.to, row);
    code = to_host ? virtiofs_gids_to_host(groups, it.id, &to[1]) : virtiofs_gids_to_guest(groups, it.id, &to[1]);
    SEE_ROW(code == it.code && to[1] == it.to, row);
}

/* Whether nothing was written but so many of the words, the first of which is 0 if the code is not OK. */
static int is_left(size_t room, size_t written, uint32_t code)
{
    const uint32_t *first = (const uint32_t *)(const void *)words - room;
    return is_kept(words, 4 * room, room ? 4 * written : 0) && (!room || !code == !!*first);
}

/* First the room that the bound says, which tells what is needed, and then each room up to that. */
static void see_made(const struct made_row *row, enum call call)
{
    size_t room = virtiofs_uids_bound(row->count), needed = 0, wanted;
    for (size_t next = 0; next <= needed + 1; room = next++) {
        struct virtiofs_fault fault;
        uint32_t code = ask(call, row->specs, row->texts, row->count, room, &wanted, &fault, 0);
        needed = next ? needed : wanted;
        SEE_ROW(code == (room < needed ? VIRTIOFS_NO_ROOM : VIRTIOFS_OK) && needed && wanted == needed, row->texts[0]);
        SEE_ROW(is_fault(fault, no_fault) && is_left(room, code ? 1 : needed, code), row->texts[0]);
    }
    const struct virtiofs_uids map = { (uint32_t *)(void *)words - needed, needed };
    see_lookup(map, 1, row->guest, row->texts[0]);
    see_lookup(map, 0, row->host, row->texts[0]);
}

/* What texts say is written to an array, which ends where nobody may write. */
static void see_read(const struct made_row *row, enum call call)
{
    struct virtiofs_fault fault;
    size_t len = row->count * sizeof *row->specs, wanted;
    SEE_ROW(ask(call, NULL, row->texts, row->count, len / 4, &wanted, &fault, 0) == VIRTIOFS_OK, row->texts[0]);
    SEE_ROW(is_fault(fault, no_fault) && is_kept(words, len, len), row->texts[0]);
    for (size_t i = 0; i < row->count; i++) {
        struct virtiofs_spec spec = row->specs[i], *read = (struct virtiofs_spec *)(void *)(words - len);
        spec.to = spec.kind == VIRTIOFS_FORBID_GUEST ? 0 : spec.to;
        SEE_ROW(are_equal(read[i], spec), row->texts[i]);
    }
}

static void see_refused(const struct refused_row *row, enum call call)
{
    struct virtiofs_fault fault;
    size_t wanted;
    for (size_t room = 0; room <= WORDS; room += WORDS) {
        SEE_ROW(ask(call, row->specs, NULL, row->count, room, &wanted, &fault, 0) == VIRTIOFS_REFUSED, row->row);
        SEE_ROW(!wanted && is_fault(fault, row->fault) && is_left(room, 1, VIRTIOFS_REFUSED), row->row);
    }
}

/* The fault with what is quoted if there is so much room, and whether that is what was quoted. */
static int is_quoted(struct virtiofs_fault it, struct virtiofs_fault wanted, const char *text, size_t room)
{
    wanted.wanted = strlen(text);
    wanted.quoted = room < wanted.wanted ? 0 : wanted.wanted;
    return is_fault(it, wanted) && is_kept(quotes, room, wanted.quoted)
           && !memcmp(quotes - room, text, wanted.quoted);
}

/* Texts that meet are read. With no room for what they say, texts are tested. */
static void see_texts(const struct texts_row *row, enum call call)
{
    struct virtiofs_fault fault, told = row->fault;
    size_t wanted, of_words = call == READ ? 0 : call == READ_ONE ? 4 : WORDS;
    int is_read = call == READ && told.kind == VIRTIOFS_FAULT_INTERSECTS;
    told.part = call == READ_ONE ? VIRTIOFS_NO_PART : VIRTIOFS_SPECIFICATION;
    for (size_t room = 0; room <= strlen(row->quoted) + 1; room++) {
        uint32_t code = ask(call, NULL, row->texts, row->count, of_words, &wanted, &fault, room);
        SEE_ROW(code == (is_read ? VIRTIOFS_OK : VIRTIOFS_REFUSED), row->texts[0]);
        SEE_ROW(call >= READ ? is_kept(words, 4 * of_words, 0) : !wanted && is_left(of_words, 1, code), row->texts[0]);
        SEE_ROW(is_quoted(fault, is_read ? no_fault : told, row->quoted, room), row->texts[0]);
    }
}

static void see_range(const struct range_row *row)
{
    size_t len = strlen(row->text);
    struct virtiofs_range range = { 9, 9, 9 };
    struct virtiofs_fault fault;
    uint32_t code = virtiofs_range_read(handed(given, row->text, len), len, &range, &fault);
    SEE_ROW(code == (row->fault.kind ? VIRTIOFS_REFUSED : VIRTIOFS_OK) && is_fault(fault, row->fault), row->text);
    SEE_ROW(range.inside == row->range.inside && range.outside == row->range.outside
            && range.count == row->range.count, row->text);
}

/* What is no map: nothing, zeros, words of another version, a map of names, and a map with another count than its own. */
static void test_no_map(void)
{
    static uint32_t zeros[8];
    uint32_t other[WORDS], whole[WORDS], of_names[WORDS];
    size_t count = 0, len = names_of(":ok:all:::", of_names, sizeof of_names).len;
    struct virtiofs_fault fault;
    SEE(virtiofs_uids_make(made_rows[1].specs, 1, other, WORDS, &count, &fault) == VIRTIOFS_OK && len > 4);
    memcpy(whole, other, sizeof whole);
    other[0]++;
    const struct virtiofs_uids rows[] = { { NULL, 0 }, { zeros, 8 }, { other, count }, { of_names, len / 4 },
                                          { whole, count - 1 }, { whole, count + 1 }, { whole, WORDS } };
    for (size_t i = 0; i < COUNT(rows); i++)
        for (int to_host = 0; to_host < 2; to_host++)
            see_lookup(rows[i], to_host, (struct lookup)FAILS(1, NO_MAP), "no map");
}

int main(void)
{
    given = guarded(1);
    words = guarded(1);
    quotes = guarded(1);
    SEE(virtiofs_map_version() == VIRTIOFS_MAP_VERSION);
    SEE(virtiofs_uids_bound(SIZE_MAX) == SIZE_MAX && virtiofs_gids_bound(SIZE_MAX) == SIZE_MAX);
    SEE(virtiofs_gids_bound(7) == virtiofs_uids_bound(7) && virtiofs_uids_bound(7) > virtiofs_uids_bound(0));
    for (enum call call = USERS; call <= READ_ONE; call++) {
        for (size_t i = 0; i < COUNT(made_rows); i++)
            if (call < READ)
                see_made(&made_rows[i], call);
            else if (call == READ || made_rows[i].count == 1)
                see_read(&made_rows[i], call);
        for (size_t i = 0; call < USERS_OF_TEXTS && i < COUNT(refused_rows); i++)
            see_refused(&refused_rows[i], call);
        for (size_t i = 0; call >= USERS_OF_TEXTS && i < COUNT(texts_rows); i++)
            if (call < READ_ONE || texts_rows[i].count == 1)
                see_texts(&texts_rows[i], call);
    }
    for (size_t i = 0; i < COUNT(range_rows); i++)
        see_range(&range_rows[i]);
    test_no_map();
    return counted();
}
