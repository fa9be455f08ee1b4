/*
 * All maps of a share from the values of options, by one call: which option is at fault, which of its values, and the
 * sentence. And a sentence for each code.
 */
#include "see.h"

enum { VALUES = 3 };

static const struct row {
    char *users[VALUES], *groups[VALUES]; /* up to the first NULL */
    const char *rules;
    uint32_t code, option;
    size_t index;
    const char *sentence;
} rows[] = {
#define MADE(...) { __VA_ARGS__, VIRTIOFS_OK, VIRTIOFS_NO_OPTION, 0, "success" }
#define REFUSED(option, index, sentence, ...) { __VA_ARGS__, VIRTIOFS_REFUSED, VIRTIOFS_##option, index, sentence }
    MADE({ NULL }, { NULL }, NULL),
    MADE({ "map:0:600:9", "forbid-guest:9:1" }, { "map:0:300:9" }, ":map:trusted.:user.virtiofs.:"),
    REFUSED(USERS, 1, "specification 2: Invalid ID map length (expected 3 elements, got 2 elements)",
            { "map:0:600:9", "map:1:2" }, { "x" }, "x"),
    REFUSED(USERS, 1, "specification 2: Guest-to-host mapping 'map [8, 9) to [7, 8)' intersects previously added entry",
            { "map:0:600:9", "guest:8:7:1" }, { "map:0:300:9" }, NULL),
    REFUSED(GROUPS, 2, "specification 3: Invalid value 2\\x1b in ID map: invalid digit found in string",
            { NULL }, { "map:0:300:9", "host:1:1:0", "map:1:2\33:3" }, NULL),
    REFUSED(RULES, 0, "rule 2: invalid scope 'nope', expected one of: all, client, server",
            { NULL }, { NULL }, ":ok:all::: :bad:nope:::"),
    REFUSED(RULES, 0, "there are no rules", { NULL }, { NULL }, ""),
};

static size_t count_of(char *const values[VALUES])
{
    size_t count = 0;
    for (; count < VALUES && values[count]; count++) { }
    return count;
}

static void see_row(const struct row *row)
{
    const struct virtiofs_options options = { row->users, count_of(row->users), row->groups, count_of(row->groups),
                                              row->rules };
    struct virtiofs_refusal refusal;
    struct virtiofs_maps maps;
    char host[VIRTIOFS_NAME_ROOM];
    uint32_t user = 77, group = 77;
    memset(&refusal, UNTOUCHED, sizeof refusal);
    memset(&maps, UNTOUCHED, sizeof maps);
    SEE_ROW(virtiofs_maps_make(&options, &maps, &refusal) == row->code, row->sentence);
    SEE_ROW(refusal.option == row->option && refusal.index == row->index, row->sentence);
    SEE_ROW(!strcmp(refusal.sentence, row->sentence), refusal.sentence);
    if (row->code == VIRTIOFS_OK) {
        const bool maps_ids = options.user_count, maps_names = options.rules;
        SEE_ROW(virtiofs_uids_to_host(maps.users, 5, &user) == VIRTIOFS_OK && user == (maps_ids ? 605 : 5), "users");
        SEE_ROW(virtiofs_gids_to_host(maps.groups, 5, &group) == VIRTIOFS_OK && group == (maps_ids ? 305 : 5), "groups");
        SEE_ROW(virtiofs_name_to_host(maps.names, "trusted.x", host) == VIRTIOFS_OK
                && !strcmp(host, maps_names ? "user.virtiofs.trusted.x" : "trusted.x"), "names");
    } else {
        SEE_ROW(!maps.memory && !maps.users.count && !maps.groups.count && !maps.names.len, row->sentence);
    }
    free(maps.memory);
}

/* A sentence that is longer than its room is cut, and each code has one. */
static void test_sentences(void)
{
    char sentence[VIRTIOFS_SENTENCE_ROOM], long_text[700];
    struct virtiofs_fault fault = { .kind = VIRTIOFS_FAULT_PREFIX, .quoted = sizeof long_text,
                                    .wanted = sizeof long_text };
    memset(long_text, 'x', sizeof long_text);
    virtiofs_sentence(VIRTIOFS_REFUSED, &fault, long_text, sizeof long_text, sentence);
    SEE(strlen(sentence) == VIRTIOFS_SENTENCE_ROOM - 1 && !strncmp(sentence, "Invalid ID map prefix xxxx", 26));
    virtiofs_sentence(VIRTIOFS_REFUSED, &fault, NULL, 0, sentence);
    SEE(!strcmp(sentence, "Invalid ID map prefix "));
    for (int code = VIRTIOFS_OK; code <= VIRTIOFS_TOO_LONG; code++) {
        virtiofs_sentence((enum virtiofs_code)code, code % 2 ? NULL : &no_fault, NULL, 0, sentence);
        SEE(!strcmp(sentence, virtiofs_code_text((enum virtiofs_code)code)));
    }
}

int main(void)
{
    for (size_t i = 0; i < COUNT(rows); i++)
        see_row(&rows[i]);
    test_sentences();
    return counted();
}
