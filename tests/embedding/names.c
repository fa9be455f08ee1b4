/*
 * Maps of attribute names: texts of rules, lookups, lists and audits. Each buffer has every length up to one more than
 * is needed, and ends where nobody may write.
 */
#include "see.h"

enum form { CLIENT, SERVER, TERMINATED, AUDIT, AUDIT_LISTED, APART, SHARE_NONE };

static const struct row {
    enum form form;
    const char *rules, *asked; /* what is asked; of APART and SHARE_NONE the second rules */
    size_t asked_len;
    uint32_t code;
    bool yes; /* of an audit */
    const char *answer;
    size_t len;
} rows[] = {
#define SAID(form, rules, asked, code, answer) \
    { form, rules, asked, sizeof asked - 1, VIRTIOFS_##code, false, answer, sizeof answer - 1 }
#define YES(form, rules, asked) { form, rules, asked, sizeof asked - 1, VIRTIOFS_OK, true, "", 0 }
#define NO(form, rules, asked, answer) SAID(form, rules, asked, OK, answer)
    SAID(CLIENT, ":map:trusted.:user.virtiofs.:", "trusted.a", OK, "user.virtiofs.trusted.a"),
    SAID(CLIENT, ":map:trusted.:user.virtiofs.:", "user.virtiofs.a", DENIED, ""),
    SAID(CLIENT, ":map:trusted.:user.virtiofs.:", "x", AS_IT_IS, ""),
    SAID(CLIENT, ":map::user.virtiofs.:", "", OK, "user.virtiofs."),
    SAID(CLIENT, ":prefix:all:\xc3\xa9:\xc3\xbc.:", "\xc3\xa9\xff", OK, "\xc3\xbc.\xc3\xa9\xff"),
    SAID(CLIENT, ":unsupported:client:a:: :ok:all:::", "ab", UNSUPPORTED, ""),
    SAID(CLIENT, ":ok:server::a:", "a1", UNTERMINATED, ""),
    SAID(CLIENT, ":bad:all:::", "a\0b", DENIED, ""),
    SAID(CLIENT, ":bad:client:ab:: :ok:all:::", "a\0b", AS_IT_IS, ""),
    SAID(CLIENT, ":map:a:u.:", "a\0b", OK, "u.a"),
    SAID(CLIENT, ":prefix:all::p.:", "\0b\0", OK, "p."),
    SAID(SERVER, ":map:trusted.:user.virtiofs.:", "user.virtiofs.a\0trusted.b\0c\0user.virtiofs.", OK, "a\0c\0"),
    SAID(SERVER, ":map::user.virtiofs.:", "", OK, ""),
    SAID(SERVER, ":map::user.virtiofs.:", "user.virtiofs.\0x\0\0", OK, ""),
    SAID(SERVER, ":map::u.:", "\0u.a\0\0u.\0u.b", OK, "a\0b\0"),
    SAID(SERVER, ":ok:all:::", "\xff\xc3\0b", OK, "\xff\xc3\0b\0"),
    SAID(SERVER, ":ok:server::a:", "a1\0b\0a2\0", UNTERMINATED, ""),
    YES(TERMINATED, ":map:a:b:", ""),
    NO(TERMINATED, ":ok:client:::", "", ""),
    YES(AUDIT, ":map:trusted.:user.virtiofs.:", ""),
    NO(AUDIT, ":prefix:client:trusted.:user.: :ok:all:::", "", "trusted."),
    YES(AUDIT_LISTED, ":map::a.:", ""),
    NO(AUDIT_LISTED, ":map:trusted.:user.virtiofs.:", "", "user.virtiofs."),
    YES(APART, ":ok:client::: :bad:server:::", ":ok:client::: :bad:server:::"),
    NO(APART, ":map::a.:", ":map::a.b.:", "b."),
    NO(APART, ":map::a.b.:", ":map::a.:", ""),
    YES(SHARE_NONE, ":bad:all:::", ":ok:all:::"),
    NO(SHARE_NONE, ":ok:client::: :bad:server:::", ":ok:client::: :bad:server:::", "\1"),
    NO(SHARE_NONE, ":map::a.:", ":map::a.b.:", "b."),
    NO(SHARE_NONE, ":map::a.b.:", ":map::a.:", ""),
};

#define TEN "0123456789"
#define FIFTY TEN TEN TEN TEN TEN
#define BYTES_250 FIFTY FIFTY FIFTY FIFTY FIFTY
/* A name of one side and the other side's as C strings, which is empty if the code is not OK. */
static const struct name_row { bool to_host; const char *rules, *name; uint32_t code; const char *told; } name_rows[] = {
#define HOST(rules, name, host) { true, rules, name, VIRTIOFS_OK, host }
#define NO_HOST(rules, name, code) { true, rules, name, VIRTIOFS_##code, "" }
#define GUEST(rules, name, guest) { false, rules, name, VIRTIOFS_OK, guest }
#define NO_GUEST(rules, name, code) { false, rules, name, VIRTIOFS_##code, "" }
    HOST(":map:trusted.:user.virtiofs.:", "security.x", "security.x"),
    HOST(":map:trusted.:user.virtiofs.:", "trusted.a", "user.virtiofs.trusted.a"),
    HOST(":ok:all:::", "", ""),
    HOST(":ok:all:::", BYTES_250 "12345", BYTES_250 "12345"),
    NO_HOST(":ok:all:::", BYTES_250 "123456", TOO_LONG),
    HOST(":prefix:all::a.:", BYTES_250 "123", "a." BYTES_250 "123"),
    NO_HOST(":prefix:all::a.:", BYTES_250 "1234", TOO_LONG),
    NO_HOST(":map:trusted.:user.virtiofs.:", "user.virtiofs.a", DENIED),
    NO_HOST(":unsupported:client:a:: :ok:all:::", "ab", UNSUPPORTED),
    NO_HOST(":ok:server::a:", "a1", UNTERMINATED),
    GUEST(":map:trusted.:user.virtiofs.:", "security.x", "security.x"),
    GUEST(":map:trusted.:user.virtiofs.:", "user.virtiofs.trusted.a", "trusted.a"),
    GUEST(":ok:all:::", BYTES_250 "12345", BYTES_250 "12345"),
    NO_GUEST(":ok:all:::", BYTES_250 "123456", TOO_LONG),
    NO_GUEST(":ok:all:::", "", HIDDEN),
    NO_GUEST(":map:trusted.:user.virtiofs.:", "trusted.a", HIDDEN),
    NO_GUEST(":map:trusted.:user.virtiofs.:", "user.virtiofs.", HIDDEN),
    NO_GUEST(":unsupported:server::a: :ok:all:::", "ab", HIDDEN),
    NO_GUEST(":ok:client:::", "a", UNTERMINATED),
};

/* Texts of which no map is made: what is quoted, and the fault. */
static const struct refused_row {
    const char *text;
    size_t len;
    const char *quoted;
    size_t quoted_len;
    uint32_t kind;
    size_t rule;
} refused_rows[] = {
#define REFUSED(text, quoted, kind, rule) \
    { text, sizeof text - 1, quoted, sizeof quoted - 1, VIRTIOFS_FAULT_##kind, rule }
    REFUSED(":ok:all::: :bad:nope\0:::", "nope\0", SCOPE, 2),
    REFUSED(":\xc5\xb0refix:all:::", "\xc5\xb0refix", TYPE, 1),
    REFUSED(":prefix:client:hi", "", INCOMPLETE, 1),
    REFUSED(":bad:all:x:y: :map::P: :ok:all:::", "", MAP_RULE, 2),
    REFUSED("", "", NO_RULES, 0),
    REFUSED(":ok:all:a\0:b:", "", NUL_KEY, 1),
    REFUSED(":map:a:b\0:", "", NUL_PREPEND, 1),
    REFUSED(":ok:all::: :ok:all:\xff::", "", UTF8, 0),
};

/* ---- calls ---- */

/* Where pages end: what is handed in, and what is written to. */
static uint8_t *given, *firsts, *seconds, *outs;

/* Asks maps that end where nobody may read. */
static uint32_t ask(enum form form, struct virtiofs_names map, struct virtiofs_names second, const void *asked,
                    size_t asked_len, bool *yes, size_t room, size_t *len)
{
    const uint8_t *in = handed(given, asked, asked_len);
    uint8_t *out = lent(outs, room);
    map.bytes = handed(firsts, map.bytes, map.len);
    second.bytes = handed(seconds, second.bytes, second.len);
    switch (form) {
    case CLIENT: return virtiofs_name_to_host_bytes(map, in, asked_len, out, room, len);
    case SERVER: return virtiofs_list_to_guest(map, in, asked_len, out, room, len);
    case AUDIT: return virtiofs_names_audit(map, yes, out, room, len);
    case AUDIT_LISTED: return virtiofs_names_audit_listed(map, yes, out, room, len);
    case APART: return virtiofs_names_keeps_apart(map, second, yes, out, room, len);
    case SHARE_NONE: return virtiofs_names_shares_no_name(map, second, yes, out, room, len);
    default: *len = 0; return virtiofs_names_is_terminated(map, yes);
    }
}

/* ---- rows ---- */

/* A list that does not fit, or is none, may write to the room that it has. */
static void see_row(const struct row *row, struct virtiofs_names map, struct virtiofs_names second)
{
    for (size_t room = 0; room <= row->len + 1; room++) {
        uint32_t wanted = room < row->len ? (uint32_t)VIRTIOFS_NO_ROOM : row->code;
        size_t len = 77, written = wanted == VIRTIOFS_OK ? row->len : row->form == SERVER ? room : 0;
        bool yes = !row->yes;
        uint32_t code = ask(row->form, map, second, row->asked, row->asked_len, &yes, room, &len);
        SEE_ROW(code == wanted && len == row->len && is_kept(outs, room, written), row->rules);
        SEE_ROW(code != VIRTIOFS_OK || !memcmp(outs - room, row->answer, row->len), row->rules);
        SEE_ROW(row->form < TERMINATED || yes == (row->yes && code == VIRTIOFS_OK), row->rules);
    }
}

/* A map takes no more than the bound says, and is made in just the room that it takes. */
static void see_made(const char *rules, struct virtiofs_names map)
{
    struct virtiofs_fault fault;
    const size_t len = strlen(rules), rooms[] = { 0, map.len - 1, map.len, map.len + 1 };
    SEE_ROW(map.len && map.len <= virtiofs_names_bound(len), rules);
    for (size_t i = 0; i < COUNT(rooms); i++) {
        size_t room = rooms[i], wanted = 77;
        uint8_t *bytes = lent(firsts, room);
        uint32_t code = virtiofs_names_make(handed(given, rules, len), len, bytes, room, &wanted, &fault, NULL, 0);
        SEE_ROW(code == (room < map.len ? VIRTIOFS_NO_ROOM : VIRTIOFS_OK) && wanted == map.len, rules);
        SEE_ROW(is_fault(fault, no_fault) && is_kept(firsts, room, code ? room > 0 : map.len), rules);
        SEE_ROW(!room || (code ? !bytes[0] : !memcmp(bytes, map.bytes, map.len)), rules);
    }
}

static void see_name(struct virtiofs_names map, struct name_row it)
{
    const size_t len = strlen(it.name) + 1;
    char *out = lent(outs, VIRTIOFS_NAME_ROOM);
    const char *in = handed(given, it.name, len);
    map.bytes = handed(firsts, map.bytes, map.len);
    SEE_ROW((it.to_host ? virtiofs_name_to_host : virtiofs_name_to_guest)(map, in, out) == it.code, it.name);
    SEE_ROW(is_kept(outs, VIRTIOFS_NAME_ROOM, VIRTIOFS_NAME_ROOM) && !strcmp(out, it.told), it.name);
}

static void see_refused(const struct refused_row *row)
{
    for (size_t room = 0; room <= row->quoted_len + 1; room++) {
        size_t wanted = 77, of_map = room % 2 ? PAGE : 0, quoted = room < row->quoted_len ? 0 : row->quoted_len;
        struct virtiofs_fault fault, told = { .kind = row->kind, .part = VIRTIOFS_RULE, .place = row->rule };
        uint8_t *bytes = lent(firsts, of_map), *out = lent(outs, room);
        told.quoted = quoted;
        told.wanted = row->quoted_len;
        memset(&fault, UNTOUCHED, sizeof fault);
        SEE_ROW(virtiofs_names_make(handed(given, row->text, row->len), row->len, bytes, of_map, &wanted, &fault, out,
                                    room) == VIRTIOFS_REFUSED && !wanted, row->text);
        SEE_ROW(is_fault(fault, told) && is_kept(firsts, of_map, of_map > 0) && (!of_map || !bytes[0]), row->text);
        SEE_ROW(is_kept(outs, room, quoted) && !memcmp(outs - room, row->quoted, quoted), row->text);
    }
}

static void see_no_map(enum form form, struct virtiofs_names map, struct virtiofs_names second)
{
    size_t len = 77;
    bool yes = true;
    SEE(ask(form, map, second, "ab", 2, &yes, 3, &len) == VIRTIOFS_NO_MAP && !len && (form < TERMINATED || !yes));
    SEE(is_kept(outs, 3, form == SERVER ? 3 : 0));
}

/* What is no map: nothing, zeros, bytes of another version, a map of ids, and a map with another length than its own. */
static void test_no_map(void)
{
    static uint8_t zeros[64], other[PAGE], bytes[PAGE];
    uint32_t words[WORDS];
    struct virtiofs_names map = names_of(":ok:all:::", bytes, PAGE), of_ids = { words, 0 };
    struct virtiofs_fault fault;
    SEE(virtiofs_uids_make(NULL, 0, words, WORDS, &of_ids.len, &fault) == VIRTIOFS_OK);
    memcpy(other, bytes, PAGE);
    other[0]++;
    of_ids.len *= 4;
    const struct virtiofs_names rows[] = { { NULL, 0 }, { zeros, 64 }, { other, map.len }, of_ids,
                                           { bytes, map.len - 1 }, { bytes, map.len + 1 }, { bytes, PAGE } };
    for (size_t i = 0; i < COUNT(rows); i++) {
        see_name(rows[i], (struct name_row)NO_HOST("", "ab", NO_MAP));
        see_name(rows[i], (struct name_row)NO_GUEST("", "ab", NO_MAP));
        for (enum form form = CLIENT; form <= SHARE_NONE; form++) {
            see_no_map(form, rows[i], map);
            if (form >= APART)
                see_no_map(form, map, rows[i]);
        }
    }
}

int main(void)
{
    static uint8_t bytes[2][PAGE];
    given = guarded(1);
    firsts = guarded(1);
    seconds = guarded(1);
    outs = guarded(1);
    SEE(virtiofs_names_bound(SIZE_MAX) == SIZE_MAX && virtiofs_names_bound(SIZE_MAX / 100) > SIZE_MAX / 100);
    for (size_t i = 0; i < COUNT(rows); i++) {
        struct virtiofs_names map = names_of(rows[i].rules, bytes[0], PAGE), second = { NULL, 0 };
        if (rows[i].form >= APART)
            second = names_of(rows[i].asked, bytes[1], PAGE);
        see_made(rows[i].rules, map);
        see_row(&rows[i], map, second);
    }
    for (size_t i = 0; i < COUNT(name_rows); i++)
        see_name(names_of(name_rows[i].rules, bytes[0], PAGE), name_rows[i]);
    for (size_t i = 0; i < COUNT(refused_rows); i++)
        see_refused(&refused_rows[i]);
    test_no_map();
    return counted();
}
