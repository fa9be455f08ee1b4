/*
 * Texts of 16 MiB, 200,000 rules and 200,000 specifications: each is read, or refused with its own fault. The texts are
 * those of crates/virtiofs_map_tests/src/hostile.rt; there a build that is not optimized reads smaller ones.
 */
#include "see.h"

enum { MIB_16 = 16 * 1024 * 1024, MANY = 200000, RULE = 40 };
enum call { SPEC, RANGE, RULES };

/* A character over and over between two texts; the fault, and how much is quoted. */
static const struct row {
    enum call call;
    const char *front;
    char c;
    const char *back;
    uint32_t kind;
    size_t quoted;
} rows[] = {
    { SPEC, "", 'a', "", VIRTIOFS_FAULT_LENGTH, 0 },
    { SPEC, "", 'A', ":0", VIRTIOFS_FAULT_PREFIX, MIB_16 },
    { SPEC, "map:", '9', ":0:1", VIRTIOFS_FAULT_VALUE, MIB_16 },
    { SPEC, "", ':', "", VIRTIOFS_FAULT_VALUE, 0 },
    { SPEC, "", ' ', "", VIRTIOFS_FAULT_VALUE, 0 },
    { RANGE, "", 'a', "", VIRTIOFS_FAULT_RANGE_DELIMITER, 0 },
    { RANGE, ":0:", '9', ":1:", VIRTIOFS_FAULT_RANGE_VALUE, 0 },
    { RANGE, "", ':', "", VIRTIOFS_FAULT_RANGE_INCOMPLETE, 0 },
    { RULES, "", ' ', "", VIRTIOFS_FAULT_NO_RULES, 0 },
    { RULES, "", ':', "", VIRTIOFS_FAULT_TYPE, 0 },
    { RULES, ":ok:", 'a', ":::", VIRTIOFS_FAULT_SCOPE, MIB_16 },
    { RULES, ":ok:", 'a', "", VIRTIOFS_FAULT_INCOMPLETE, 0 },
    { RULES, ":ok:all:", '\0', "::", VIRTIOFS_FAULT_NUL_KEY, 0 },
};

static uint8_t text[MIB_16 + 64], quoted[MIB_16], out[MIB_16 + 64];

static size_t write_text(const char *front, char c, const char *back)
{
    size_t len = strlen(front);
    memcpy(text, front, len);
    memset(text + len, c, MIB_16);
    memcpy(text + len + MIB_16, back, strlen(back));
    return len + MIB_16 + strlen(back);
}

static void test_large_texts(void)
{
    for (size_t i = 0; i < COUNT(rows); i++) {
        const struct row *row = &rows[i];
        size_t len = write_text(row->front, row->c, row->back), wanted;
        struct virtiofs_fault fault;
        struct virtiofs_spec spec;
        struct virtiofs_range range;
        uint32_t code = row->call == SPEC ? virtiofs_spec_read(text, len, &spec, &fault, quoted, MIB_16)
                        : row->call == RANGE
                            ? virtiofs_range_read(text, len, &range, &fault)
                            : virtiofs_names_make(text, len, NULL, 0, &wanted, &fault, quoted, MIB_16);
        SEE_ROW(code == VIRTIOFS_REFUSED && fault.kind == row->kind && fault.quoted == row->quoted, row->front);
        SEE_ROW(!row->quoted || (quoted[0] == quoted[MIB_16 - 1] && (quoted[0] | 32) == (row->c | 32)), row->front);
    }
}

/* ---- many rules ---- */

/* The code for a name, and whether the answer is this one. */
static int is_client(struct virtiofs_names map, const char *name, uint32_t wanted, const char *answer)
{
    size_t len;
    uint32_t code = virtiofs_name_to_host_bytes(map, name, strlen(name), out, sizeof out, &len);
    return code == wanted && len == strlen(answer) && !memcmp(out, answer, len);
}

/* The map of so much text, in a buffer that the bound says is enough, at `bytes`. */
static void *bytes;

static struct virtiofs_names map_of_text(size_t len)
{
    size_t room = virtiofs_names_bound(len);
    struct virtiofs_names map = { bytes = malloc(room), 0 };
    struct virtiofs_fault fault;
    SEE(bytes && virtiofs_names_make(text, len, bytes, room, &map.len, &fault, NULL, 0) == VIRTIOFS_OK);
    return map;
}

static void test_many_rules(void)
{
    size_t len = 0, told;
    for (int i = 0; i < MANY; i++)
        len += (size_t)snprintf((char *)text + len, RULE, ":prefix:all:key%d.:host%d.:\n", i, i);
    struct virtiofs_names map = map_of_text(len);
    bool yes = true;
    SEE(is_client(map, "key0.a", VIRTIOFS_OK, "host0.key0.a"));
    SEE(is_client(map, "key199999.a", VIRTIOFS_OK, "host199999.key199999.a"));
    SEE(is_client(map, "key200000.a", VIRTIOFS_UNTERMINATED, ""));
    SEE(virtiofs_list_to_guest(map, "host99999.a", 11, out, 12, &told) == VIRTIOFS_OK);
    SEE(told == 2 && !memcmp(out, "a", 2) && virtiofs_names_is_terminated(map, &yes) == VIRTIOFS_OK && !yes);
    free(bytes);
    for (int i = 0; i < MANY; i++)
        memcpy(text + 11 * i, ":bad:all:::", 11);
    map = map_of_text(11 * MANY);
    SEE(is_client(map, "a", VIRTIOFS_DENIED, "") && virtiofs_names_is_terminated(map, &yes) == VIRTIOFS_OK && yes);
    free(bytes);
}

/* A key of 16 MiB, and the name that it fits. */
static void test_large_key(void)
{
    struct virtiofs_names map = map_of_text(write_text(":bad:client:", 'a', ":: :ok:all:::"));
    size_t len;
    SEE(virtiofs_name_to_host_bytes(map, text + 12, MIB_16, out, 0, &len) == VIRTIOFS_DENIED);
    SEE(virtiofs_name_to_host_bytes(map, text + 12, MIB_16 - 1, out, 0, &len) == VIRTIOFS_AS_IT_IS);
    free(bytes);
}

/* ---- many specifications ---- */

static struct virtiofs_spec specs[MANY];

/* Specification i makes the five guest ids from 10 i on the host ids from 5000000 + 10 i on. */
static void test_many_specifications(void)
{
    size_t room = virtiofs_uids_bound(MANY), count = 0;
    uint32_t *words = malloc(4 * room), host = 0, guest = 0;
    struct virtiofs_fault fault;
    SEE(words && virtiofs_uids_make(specs, MANY, words, room, &count, &fault) == VIRTIOFS_OK);
    const struct virtiofs_uids users = { words, count };
    SEE(virtiofs_uids_to_host(users, 1999994, &host) == VIRTIOFS_OK && host == 6999994);
    SEE(virtiofs_uids_to_guest(users, 6999994, &guest) == VIRTIOFS_OK && guest == 1999994);
    free(words);
}

static void test_many_in_decisions(void)
{
    struct virtiofs_ids_found it;
    struct virtiofs_fault fault;
    bool yes = true;
    SEE(virtiofs_ids_comes_back(specs, MANY, &yes, &it, &fault) == VIRTIOFS_OK && !yes && it.guest == 5000000);
    SEE(virtiofs_ids_is_alone(specs, MANY, &yes, &it, &fault) == VIRTIOFS_OK && !yes && it.other == 5000000);
    SEE(virtiofs_ids_reaches(specs, MANY, 6999994, 6999994, &yes, &it, &fault) == VIRTIOFS_OK && it.guest == 1999994);
    SEE(virtiofs_ids_apart(specs, MANY, specs, MANY, &yes, &it, &fault) == VIRTIOFS_OK && !yes && it.host == 5000000);
}

int main(void)
{
    test_large_texts();
    test_large_key();
    test_many_rules();
    /* (they rise, fall, and stand all over the place) */
    static const uint32_t steps[] = { 1, MANY - 1, 12361 };
    for (size_t order = 0; order < COUNT(steps); order++) {
        for (uint32_t i = 0, at = 0; i < MANY; i++, at = (at + steps[order]) % MANY)
            specs[at] = (struct virtiofs_spec){ VIRTIOFS_MAP, 10 * i, 5000000 + 10 * i, 5 };
        test_many_specifications();
        test_many_in_decisions();
    }
    return counted();
}
