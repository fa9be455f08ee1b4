/*
 * Maps whose numbers were changed since they were made, or that were cut, or of which a part has zeros behind it. They
 * stand against the page before and against the page behind, which nobody may read; so does what is written to. Every
 * call returns, reads and writes nothing outside, and answers a code that the header lists for it.
 */
#include "see.h"

enum { ROUNDS = 200000, MOST = 1024 };

/* A text of rules, or a text of a specification, and its map. */
static struct map { const char *text; int is_names; size_t len; uint8_t bytes[MOST]; } maps[] = {
    { "squash-guest:20:7:5", 0, 0, { 0 } },
    { ":map:security.selinux:trusted.virtiofs.:", 1, 0, { 0 } },
    { ":bad:all:ab:a.ab: :prefix:all:abc1:a.: :ok:client:a:: :unsupported:all:user.:b: :ok:server:::", 1, 0, { 0 } },
};

/* Codes as bits, and those of each call. */
#define CODE(name) (1u << VIRTIOFS_##name)
#define OF_VALUES (CODE(OK) | CODE(FORBIDDEN) | CODE(NO_MAP))
#define OF_AUDITS (CODE(OK) | CODE(NO_ROOM) | CODE(NO_MEMORY) | CODE(NO_MAP))
#define OF_NAMES (CODE(OK) | CODE(UNTERMINATED) | CODE(NO_ROOM) | CODE(NO_MAP))

/* Where pages end: the map, and what is written to. */
static uint8_t *page, *outs;
static uint64_t state = 5;

/* Whether a code is one of these, and is fit for the length, and nothing was written before the room. */
static int is_well(uint32_t code, unsigned listed, size_t len, size_t room)
{
    int fits = code == VIRTIOFS_OK ? len <= room : code == VIRTIOFS_NO_ROOM ? len > room : len == 0;
    return code < 32 && (listed >> code & 1) && fits && is_kept(outs, room, room);
}

/* An id, and a list of two users, which stays as it was if it is refused. */
static int ask_ids(uint8_t *bytes, size_t len)
{
    static const uint32_t numbers[] = { 0, 7, 20, 22, 25, 4294967294u, 4294967295u };
    static const uint8_t list[20] = { 2, 0, 0, 0, 2, 0, 7, 0, 5, 0, 0, 0, 2, 0, 7, 0, 22 };
    const struct virtiofs_uids users = { (uint32_t *)(void *)bytes, len / 4 };
    const struct virtiofs_gids groups = { users.words, len / 4 };
    const uint64_t number = random_number(&state);
    const uint32_t id = number % 8 ? numbers[number % COUNT(numbers)] : (uint32_t)(number >> 32);
    struct virtiofs_entry_room entries[2];
    struct virtiofs_fault fault;
    uint32_t *to = lent(outs, 4), code = virtiofs_uids_to_guest(users, id, to);
    int all = is_well(code, OF_VALUES | CODE(NO_ID), 0, 4) && (code ? is_untouched(to, 4) : *to != UINT32_MAX);
    to = lent(outs, 4);
    code = virtiofs_gids_to_host(groups, id, to);
    all &= is_well(code, OF_VALUES | CODE(NO_ID), 0, 4) && (code ? is_untouched(to, 4) : *to != UINT32_MAX);
    uint8_t *value = memcpy(lent(outs, sizeof list), list, sizeof list);
    code = virtiofs_acl_to_host(users, groups, value, sizeof list, entries, 2, &fault);
    return all && is_well(code, OF_VALUES | CODE(MERGES), 0, sizeof list)
           && (!code || !memcmp(value, list, sizeof list));
}

/* A name, a list, and now and then an audit. */
static int ask_names(uint8_t *bytes, size_t map_len)
{
    static const char *const names[] = { "", "a", "ab", "abc1", "security.selinux", "trusted.virtiofs.x", "user.\xff" };
    static const char list[] = "trusted.virtiofs.security.selinux\0security.selinux\0\0user.note\0a.ab\0abc2";
    const struct virtiofs_names map = { bytes, map_len };
    const uint64_t number = random_number(&state);
    const char *name = names[number % COUNT(names)];
    size_t len = 77, room = number % 5 ? sizeof list : 3;
    bool yes = true;
    uint32_t code = virtiofs_list_to_guest(map, list, sizeof list - 1, lent(outs, room), room, &len);
    int all = is_well(code, OF_NAMES, len, room);
    code = virtiofs_name_to_host_bytes(map, name, strlen(name), lent(outs, room), room, &len);
    all &= is_well(code, OF_NAMES | CODE(AS_IT_IS) | CODE(DENIED) | CODE(UNSUPPORTED), len, room);
    code = virtiofs_names_is_terminated(map, &yes);
    all &= is_well(code, CODE(OK) | CODE(NO_MAP), 0, room) && (!code || !yes);
    if (!all || number >> 32 & 63)
        return all;
    code = virtiofs_names_audit(map, &yes, lent(outs, 9), 9, &len);
    all = is_well(code, OF_AUDITS, len, 9) && (!code || !yes);
    code = virtiofs_names_keeps_apart(map, map, &yes, lent(outs, 9), 9, &len);
    return all && is_well(code, OF_AUDITS, len, 9) && (!code || !yes);
}

/* Asks the first `len` bytes as a map, once against the page before, and once against the page behind. */
static int ask(const struct map *map, const uint8_t *bytes, size_t len)
{
    int (*ask_all)(uint8_t *, size_t) = map->is_names ? ask_names : ask_ids;
    return ask_all(memcpy(page - PAGE, bytes, len), len) && ask_all(memcpy(page - len, bytes, len), len);
}

/* One number or several become others, half of which are small; or the map is cut, or more stands behind it. */
static void see_changed(const struct map *map)
{
    uint8_t bytes[MOST];
    int round = 0, all = 1;
    for (; round < ROUNDS && all; round++) {
        memcpy(bytes, map->bytes, MOST);
        for (uint64_t changes = random_number(&state) % 6; changes; changes--) {
            const uint64_t number = random_number(&state);
            const uint32_t value = changes % 2 ? (uint32_t)number : (uint32_t)number % ((uint32_t)map->len + 9);
            /* (the first number stays in most rounds, else there is no map to ask) */
            const size_t first = round % 16 ? 4 : 0, width = number >> 62 ? 4 : 1;
            memcpy(bytes + first + (number >> 34) % (map->len - first - width), &value, width);
        }
        all = ask(map, bytes, map->len);
    }
    SEE_ROW(all || !printf("round %d\n", round), map->text);
    for (size_t len = 0; len <= map->len + 64; len += 4 >> 2 * map->is_names)
        SEE_ROW(ask(map, map->bytes, len), map->text);
}

/* Whether the bytes, which are as many as the map, are no map. */
static int is_no_map(const struct map *map, uint8_t *bytes)
{
    const struct virtiofs_uids users = { (uint32_t *)(void *)bytes, map->len / 4 };
    const struct virtiofs_names names = { bytes, map->len };
    uint32_t id;
    size_t len;
    return map->is_names ? virtiofs_name_to_host_bytes(names, "ab", 2, lent(outs, 9), 9, &len) == VIRTIOFS_NO_MAP
                         : virtiofs_uids_to_host(users, 7, &id) == VIRTIOFS_NO_MAP;
}

/* A part of the map with zeros behind it, and the length of the whole, is no map. */
static void see_parts(const struct map *map)
{
    uint8_t *const bytes = page - map->len;
    for (size_t part = 0; part < map->len; part++) {
        memset(bytes, 0, map->len);
        SEE_ROW(is_no_map(map, memcpy(bytes, map->bytes, part)), map->text);
    }
    SEE_ROW(!is_no_map(map, memcpy(bytes, map->bytes, map->len)), map->text);
}

int main(void)
{
    page = guarded(1);
    outs = guarded(1);
    for (struct map *map = maps; map < maps + COUNT(maps); map++) {
        const struct virtiofs_text texts[] = { text_of(map->text), text_of("map:0:9:5"), text_of("forbid-guest:25:2") };
        uint32_t words[WORDS];
        struct virtiofs_fault fault;
        if (map->is_names)
            map->len = names_of(map->text, map->bytes, MOST - 64).len;
        else if (virtiofs_uids_make_texts(texts, 3, words, WORDS, &map->len, &fault, NULL, 0) == VIRTIOFS_OK)
            memcpy(map->bytes, words, map->len *= 4);
        SEE_ROW(map->len > 64 && map->len <= MOST - 64, map->text);
        see_changed(map);
        see_parts(map);
    }
    return counted();
}
