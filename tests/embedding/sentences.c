/*
 * The sentences of faults, one row each kind: faults that calls report, and numbers that no call wrote. Each sentence
 * is written in every room up to one byte more than it needs. And the errno and the text of each code. What is wanted
 * is worked out by hand from the documentation.
 */
#include "see.h"

enum call { TEXT, TEXTS, RANGE, RULES, LIST, ROOT };

/* A text that is refused, of TEXTS the second one; of LIST and ROOT a value. What is quoted has room for 24 bytes. */
static const struct row {
    enum call call;
    const char *text;
    size_t text_len;
    const char *sentence;
    size_t len;
} rows[] = {
#define ROW(call, text, sentence) { call, text, sizeof text - 1, sentence, sizeof sentence - 1 }
    ROW(TEXT, "FORB\xc4\xb0" "D:1:2", "Invalid ID map prefix forb\xc4\xb0" "d"),
    ROW(TEXT, "", "Invalid ID map length (expected 1 elements, got 0 elements)"),
    ROW(TEXT, "forbid-guest:1:2:3", "Invalid ID map length (expected 2 elements, got 3 elements)"),
    ROW(TEXT, "map:1:2:3:", "Invalid value  in ID map: cannot parse integer from empty string"),
    ROW(TEXT, "map:1:\xc3\xa9\0 ~\177:2",
        "Invalid value \xc3\xa9\\x00 ~\\x7f in ID map: invalid digit found in string"),
    ROW(TEXT, "map:1:\33[2J\n\\x0a:2", "Invalid value \\x1b[2J\\x0a\\\\x0a in ID map: invalid digit found in string"),
    ROW(TEXT, "map:1:\xc2\x85\xc2\xad\xe2\x80\xa8\xe2\x80\xae\xef\xbb\xbf\xe2\x82\xac\xcc\x81\xee\x80\x80:2",
        "Invalid value \\xc2\\x85\\xc2\\xad\\xe2\\x80\\xa8\\xe2\\x80\\xae\\xef\\xbb\\xbf"
        "\xe2\x82\xac\xcc\x81\xee\x80\x80 in ID map: invalid digit found in string"),
    ROW(TEXT, "map:4294967296:0:1", "Invalid value 4294967296 in ID map: number too large to fit in target type"),
    ROW(TEXT, "map:\xff:0:1", "the text is not UTF-8"),
    ROW(TEXT, "a-word-that-is-too-long-:1", "Invalid ID map prefix a-word-that-is-too-long-"),
    ROW(TEXT, "a-word-that-is-too-long-x:1", "Invalid ID map prefix ..."),
    ROW(TEXTS, "foo:1", "specification 2: Invalid ID map prefix foo"),
    ROW(TEXTS, "map:1:2", "specification 2: Invalid ID map length (expected 3 elements, got 2 elements)"),
    ROW(TEXTS, "map:1:0000000000000000000000000:x",
        "specification 2: Invalid value x in ID map: invalid digit found in string"),
    ROW(TEXTS, "map:\xff:0:1", "specification 2: the text is not UTF-8"),
    ROW(TEXTS, "guest:4294967295:0:1", "specification 2: Parameter guest:4294967295:0:1: Range overflow"),
    ROW(TEXTS, "HOST/1/4294967290/10", "specification 2: Parameter host:1:4294967290:10: Range overflow"),
    ROW(TEXTS, "squash-guest:4294967295:7:1", "specification 2: Parameter squash-guest:4294967295:7:1: Range overflow"),
    ROW(TEXTS, "squash-host:1:2:4294967295", "specification 2: Parameter squash-host:1:2:4294967295: Range overflow"),
    ROW(TEXTS, "map:70:4294967290:10", "specification 2: Parameter map:70:4294967290:10: Range overflow"),
    ROW(TEXTS, "forbid-guest:4294967295:1", "specification 2: Parameter forbid-guest:4294967295:1: Range overflow"),
    /* (the first of the texts is map:0:1000:10) */
    ROW(TEXTS, "guest:9:4294967295:1", "specification 2: Guest-to-host mapping 'map [9, 10) to [4294967295, "
                                       "4294967296)' intersects previously added entry"),
    ROW(TEXTS, "squash-guest:9:65534:2",
        "specification 2: Guest-to-host mapping 'squash [9, 11) to 65534' intersects previously added entry"),
    ROW(TEXTS, "forbid-guest:0:4294967295",
        "specification 2: Guest-to-host mapping 'fail [0, 4294967295)' intersects previously added entry"),
    ROW(TEXTS, "host:1005:3:1",
        "specification 2: Host-to-guest mapping 'map [1005, 1006) to [3, 4)' intersects previously added entry"),
    ROW(TEXTS, "map:70:1009:2",
        "specification 2: Host-to-guest mapping 'map [1009, 1011) to [70, 72)' intersects previously added entry"),
    ROW(TEXTS, "squash-host:1007:4294967295:1", "specification 2: Host-to-guest mapping 'squash [1007, 1008) to "
                                                "4294967295' intersects previously added entry"),
    ROW(RANGE, ":0:1:2", "A delimiter has been found that does not match the delimiter the map started with"),
    ROW(RANGE, "", "The map is empty or incorrect number of values are provided"),
    ROW(RANGE, "::::", "cannot parse integer from empty string"),
    ROW(RANGE, ":0:-1:2:", "invalid digit found in string"),
    ROW(RANGE, ":0:1:4294967296:", "number too large to fit in target type"),
    ROW(RANGE, ":0:\xff:2:", "the text is not UTF-8"),
    ROW(RULES, ":ok:all::: :bad:nope\0:::", "rule 2: invalid scope 'nope\\x00', expected one of: all, client, server"),
    ROW(RULES, ":\33[1m\\\r\n\37 '~\177\xf0\x9f\x98\x80:::", "rule 1: invalid type '\\x1b[1m\\\\\\x0d\\x0a\\x1f '~"
        "\\x7f\xf0\x9f\x98\x80', expected one of: prefix, ok, bad, map"),
    ROW(RULES, "ookoallooo", "rule 1: invalid type '', expected one of: prefix, ok, bad, map"),
    ROW(RULES, "/a-word-that-is-too-long-x/x/", "rule 1: invalid type '...', expected one of: prefix, ok, bad, map"),
    ROW(RULES, ":prefix:client:hi", "rule 1: the rule is incomplete"),
    ROW(RULES, ":bad:all:x:y: :map::P: :ok:all:::", "rule 2: a map rule has to stand last"),
    ROW(RULES, " ", "there are no rules"),
    ROW(RULES, ":ok:all:a\0:b:", "rule 1: Key holds NUL"),
    ROW(RULES, ":ok:all::: :map:a:b\0:", "rule 2: Prepend holds NUL"),
    ROW(RULES, ":ok:all::: :ok:all:\xff::", "the text is not UTF-8"),
    /* (user 70 is forbidden, users 0 to 9 move, and users 20 to 29 become one; there is room for two entries) */
    ROW(LIST, "", "the value has no header"),
    ROW(LIST, "\377\377\377\377", "the version is 4294967295"),
    ROW(LIST, "\2\0\0\0\1", "the last entry is cut"),
    ROW(LIST, "\2\0\0\0\1\0\6\0\0\0\0\0\4\0\6\0\0\0\0\0\40\0\6\0\0\0\0\0", "there are 3 entries"),
    ROW(LIST, "\2\0\0\0\3\0\6\0\0\0\0\0", "entry 1: there is no such tag"),
    ROW(LIST, "\2\0\0\0\1\0\6\0\377\377\377\377\4\0\10\0\377\377\377\377", "entry 2: the permissions are above 7"),
    ROW(LIST, "\2\0\0\0\2\0\6\0\377\377\377\377", "entry 1: 4294967295 is no id"),
    ROW(LIST, "\2\0\0\0\2\0\6\0\106\0\0\0", "entry 1: use of the id has been configured to fail"),
    ROW(LIST, "\2\0\0\0\2\0\6\0\24\0\0\0\2\0\6\0\25\0\0\0", "entry 2: the id would become that of an earlier entry"),
    ROW(ROOT, "", "the value has no first word"),
    ROW(ROOT, "\0\0\0\4", "the revision is 4"),
    ROW(ROOT, "\0\0\0\2\0", "the length is not that of the revision"),
    ROW(ROOT, "\0\0\0\3\0\0\0\0\0\0\0\0\0\0\0\0\0\0\0\0\377\377\377\377", "4294967295 is no id"),
    ROW(ROOT, "\0\0\0\3\0\0\0\0\0\0\0\0\0\0\0\0\0\0\0\0\106\0\0\0", "use of the id has been configured to fail"),
    ROW(ROOT, "\0\0\0\2\0\0\0\0\0\0\0\0\0\0\0\0\0\0\0\0", "the revision has no id of root"),
};

/* Faults that none of these calls reports, or that are none, where these bytes were quoted: only two are text. */
static const char any[] = "\xe9\xc3\xa9\xed\xa0\x80\xf0\x9f\x98";
static const struct { const char *sentence; struct virtiofs_fault fault; } any_rows[] = {
#define ANY(sentence, name, ...) { sentence, { .kind = VIRTIOFS_FAULT_##name, __VA_ARGS__ } }
    ANY("there is no fault", NONE, .place = 1),
    ANY("Out of memory", MEMORY, .place = 1),
    ANY("Out of memory", MEMORY, .part = VIRTIOFS_RULE),
    ANY("specification 4: there is no such kind", KIND, .part = VIRTIOFS_SPECIFICATION, .place = 3),
    { "there is no such fault", { .kind = UINT32_MAX, .part = 99 } },
    ANY("Invalid ID map prefix \\xe9\xc3\xa9\\xed\\xa0\\x80\\xf0\\x9f\\x98", PREFIX, .quoted = SIZE_MAX,
        .wanted = SIZE_MAX),
    ANY("rule 18446744073709551615: Invalid ID map prefix ...", PREFIX, .part = VIRTIOFS_RULE, .place = SIZE_MAX,
        .wanted = 1),
    ANY("Host-to-guest mapping '' intersects previously added entry", INTERSECTS, .direction = 7, .spec.kind = 6),
    ANY("Parameter : Range overflow", OVERFLOW, .spec.kind = UINT32_MAX),
    ANY("specification 18446744073709551615: Invalid ID map length (expected 18446744073709551615 elements, "
        "got 18446744073709551615 elements)",
        LENGTH, .part = VIRTIOFS_SPECIFICATION, .place = SIZE_MAX, .expected = SIZE_MAX, .seen = SIZE_MAX),
};

/* Of each code the errno for the guest and the words for a log. A number that is no code has both too. */
static const struct { uint32_t code; int number; const char *text; } code_rows[] = {
#define CODE(code, number, text) { VIRTIOFS_##code, number, text }
    CODE(OK, 0, "success"), CODE(AS_IT_IS, 0, "the name passes unchanged"),
    CODE(FORBIDDEN, EPERM, "a specification forbids this id"), CODE(DENIED, EPERM, "the guest may not use this name"),
    CODE(UNSUPPORTED, ENOTSUP, "a rule says that this name is unsupported"),
    CODE(UNTERMINATED, EPERM, "no rule decides this name"),
    CODE(REFUSED, EINVAL, "a text, a list or a value is wrong"), CODE(NO_ROOM, ERANGE, "the buffer is too short"),
    CODE(NO_MEMORY, ENOMEM, "out of memory"), CODE(NO_MAP, EINVAL, "the numbers are no map"),
    CODE(MERGES, EPERM, "two ids of the value would become the same id"),
    CODE(ROOT_MOVES, EPERM, "the capability has no field for the new id of root"),
    CODE(NO_ID, EINVAL, "4294967295 is no id"),
    CODE(TOO_LONG, ENAMETOOLONG, "the host's name has more than 255 bytes"),
    CODE(HIDDEN, ENODATA, "the guest does not see this name"),
    { 99, EINVAL, "there is no such code" },
    { UINT32_MAX, EINVAL, "there is no such code" },
};

/* Where pages end: what is handed in, and what is written to. */
static uint8_t *given, *outs;
static struct virtiofs_uids users;
static struct virtiofs_gids groups;

static uint32_t refuse(const struct row *row, struct virtiofs_fault *fault, uint8_t *quoted, size_t quoted_room)
{
    static uint32_t words[WORDS];
    const struct virtiofs_text texts[2] = { text_of("map:0:1000:10"), { row->text, row->text_len } };
    struct virtiofs_entry_room entries[2];
    struct virtiofs_spec spec;
    struct virtiofs_range range;
    uint8_t value[64];
    size_t wanted;
    memcpy(value, row->text, row->text_len);
    switch (row->call) {
    case TEXT: return virtiofs_spec_read(row->text, row->text_len, &spec, fault, quoted, quoted_room);
    case TEXTS: return virtiofs_gids_make_texts(texts, 2, words, WORDS, &wanted, fault, quoted, quoted_room);
    case RANGE: return virtiofs_range_read(row->text, row->text_len, &range, fault);
    case RULES: return virtiofs_names_make(row->text, row->text_len, NULL, 0, &wanted, fault, quoted, quoted_room);
    case LIST: return virtiofs_acl_to_host(users, groups, value, row->text_len, entries, 2, fault);
    default: return virtiofs_capability_to_host(users, value, row->text_len, fault);
    }
}

/* How many bytes of that room have whole characters of the sentence. */
static size_t whole_in(const char *sentence, size_t room)
{
    while (room > 0 && (sentence[room] & 0xc0) == 0x80)
        room--;
    return room;
}

/* Sees a sentence in every room: the characters for which there is room are written, spaces behind them, and nothing
   else. */
static void see_sentence(struct virtiofs_fault fault, const void *quoted, size_t quoted_len, const char *sentence,
                         size_t wanted)
{
    for (size_t room = 0; room <= wanted + 1; room++) {
        size_t len = 77, written = room < wanted ? room : wanted, whole = whole_in(sentence, written);
        uint8_t *out = lent(outs, room);
        uint32_t code = virtiofs_fault_text(&fault, handed(given, quoted, quoted_len), quoted_len, out, room, &len);
        SEE_ROW(code == (room < wanted ? VIRTIOFS_NO_ROOM : VIRTIOFS_OK) && len == wanted, sentence);
        SEE_ROW(is_kept(outs, room, written) && !memcmp(outs - room, sentence, whole)
                && !memcmp(outs - room + whole, "   ", written - whole), sentence);
    }
}

int main(void)
{
    static const struct virtiofs_spec specs[] = {
        { VIRTIOFS_FORBID_GUEST, 70, 0, 1 }, { VIRTIOFS_MAP, 0, 1000, 10 }, { VIRTIOFS_SQUASH_GUEST, 20, 5000, 10 },
    };
    uint32_t words[WORDS];
    size_t count = 0;
    struct virtiofs_fault fault;
    given = guarded(1);
    outs = guarded(1);
    SEE(virtiofs_uids_make(specs, COUNT(specs), words, WORDS, &count, &fault) == VIRTIOFS_OK);
    users = (struct virtiofs_uids){ words, count };
    groups = (struct virtiofs_gids){ words, count };
    for (size_t i = 0; i < COUNT(rows); i++) {
        uint8_t quoted[24];
        SEE_ROW(refuse(&rows[i], &fault, quoted, sizeof quoted) != VIRTIOFS_OK, rows[i].sentence);
        see_sentence(fault, quoted, fault.quoted, rows[i].sentence, rows[i].len);
        see_sentence(fault, quoted, sizeof quoted, rows[i].sentence, rows[i].len);
    }
    for (size_t i = 0; i < COUNT(any_rows); i++)
        see_sentence(any_rows[i].fault, any, sizeof any - 1, any_rows[i].sentence, strlen(any_rows[i].sentence));
    for (size_t i = 0; i < COUNT(code_rows); i++) {
        const enum virtiofs_code code = (enum virtiofs_code)code_rows[i].code;
        SEE_ROW(virtiofs_code_errno(code) == code_rows[i].number
                && !strcmp(virtiofs_code_text(code), code_rows[i].text), code_rows[i].text);
    }
    return counted();
}
