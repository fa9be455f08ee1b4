/*
 * The forms of virtiofs_mapcheck over the static library, so that the tables of the program show what its calls answer
 * in C. It writes what the program writes, and ends as the program does. It never frees what it lends to the calls.
 */
#include "see.h"

#include <limits.h>

#define UNDECIDED "refused: UnterminatedMapping"
enum { GIVEN = 0, REFUSED = 1, WRONG_WORDS = 2, NO_MEMORY = 3, LARGE = 1 << 22 };

/* More than all words of a command line hold on Linux, which has 2 MiB for them and their pointers. */
static char quoted[LARGE], out[LARGE], list[LARGE];
static struct virtiofs_text texts[LARGE / 16];

/* What a refusal says of each kind of fault, and whether what is quoted follows. */
static const struct { uint32_t kind; const char *said; int is_quoted; } refusals[] = {
    { VIRTIOFS_FAULT_PREFIX, "InvalidPrefix", 1 }, { VIRTIOFS_FAULT_VALUE, "InvalidValue", 1 },
    { VIRTIOFS_FAULT_SCOPE, "InvalidScope", 1 }, { VIRTIOFS_FAULT_TYPE, "InvalidType", 1 },
    { VIRTIOFS_FAULT_RANGE_DELIMITER, "InvalidDelimiter", 0 }, { VIRTIOFS_FAULT_RANGE_INCOMPLETE, "IncompleteMap", 0 },
    { VIRTIOFS_FAULT_RANGE_VALUE, "InvalidValue", 0 }, { VIRTIOFS_FAULT_INCOMPLETE, "IncompleteRule", 0 },
    { VIRTIOFS_FAULT_MAP_RULE, "MapRuleViolation", 0 }, { VIRTIOFS_FAULT_NO_RULES, "NoRulesProvided", 0 },
    { VIRTIOFS_FAULT_NUL_KEY, "NulInPattern key", 0 }, { VIRTIOFS_FAULT_NUL_PREPEND, "NulInPattern prepend", 0 },
};

static void *room_for(size_t bytes)
{
    void *at = malloc(bytes ? bytes : 1);
    if (!at)
        exit(NO_MEMORY);
    return at;
}

static void write_bytes(const char *before, const char *bytes, size_t len, const char *behind)
{
    printf("%s", before);
    for (size_t i = 0; i < len; i++)
        printf(bytes[i] == '\\' ? "\\\\" : bytes[i] >= 32 && bytes[i] < 127 ? "%c" : "\\x%02x", (uint8_t)bytes[i]);
    printf("%s", behind);
}

static int wrong_words(void)
{
    puts("wrong words");
    fputs("usage: the forms of virtiofs_mapcheck\n", stderr);
    return WRONG_WORDS;
}

/* Writes a refusal, in the words of the library if it is about a whole list. The program counts specifications from 0. */
static int refuse(const char *which, uint32_t code, struct virtiofs_fault fault)
{
    size_t len, i = 0;
    if (code != VIRTIOFS_REFUSED)
        return NO_MEMORY;
    printf("refused: %s", which);
    if (fault.part == VIRTIOFS_SPECIFICATION)
        printf("specification %zu: ", fault.place);
    if (fault.part == VIRTIOFS_RULE && fault.place)
        printf("rule %zu: ", fault.place);
    fault.part = VIRTIOFS_NO_PART;
    if (fault.kind == VIRTIOFS_FAULT_OVERFLOW || fault.kind == VIRTIOFS_FAULT_INTERSECTS) {
        if (virtiofs_fault_text(&fault, NULL, 0, out, LARGE, &len) == VIRTIOFS_OK)
            printf("%.*s\n", (int)len, out);
        return REFUSED;
    }
    while (i < COUNT(refusals) && refusals[i].kind != fault.kind)
        i++;
    if (i == COUNT(refusals))
        printf("InvalidLength expected %zu seen %zu\n", fault.expected, fault.seen);
    else if (printf("%s", refusals[i].said) && refusals[i].is_quoted)
        write_bytes(" '", quoted, fault.quoted, "'\n");
    else
        puts("");
    return REFUSED;
}

/* ---- ids ---- */

/* A query is guest= or host= with a number below 2^32, which may have a plus before it. */
static bool read_query(const char *word, bool *is_guest, uint32_t *number)
{
    *is_guest = !strncmp(word, "guest=", 6);
    if (!*is_guest && strncmp(word, "host=", 5))
        return false;
    const char *at = strchr(word, '=') + 1, *digits = at + (*at == '+');
    const unsigned long long value = strtoull(digits, NULL, 10);
    *number = (uint32_t)value;
    return *digits && !digits[strspn(digits, "0123456789")] && value <= UINT32_MAX;
}

static int answer_query(struct virtiofs_uids map, const char *word)
{
    bool is_guest;
    uint32_t number, to;
    read_query(word, &is_guest, &number);
    uint32_t code = is_guest ? virtiofs_uids_to_host(map, number, &to) : virtiofs_uids_to_guest(map, number, &to);
    if (code == VIRTIOFS_OK || code == VIRTIOFS_NO_ID)
        printf("%lu\n", code == VIRTIOFS_OK ? (unsigned long)to : 4294967295ul);
    else if (code == VIRTIOFS_FORBIDDEN)
        printf("Use of ID %lu has been configured to fail\n", (unsigned long)number);
    return code == VIRTIOFS_OK || code == VIRTIOFS_NO_ID || code == VIRTIOFS_FORBIDDEN ? GIVEN : NO_MEMORY;
}

static int answer_ids(char **words)
{
    size_t specs = 0, wanted;
    bool is_guest;
    uint32_t number;
    while (words[specs] && strcmp(words[specs], "ask"))
        specs++;
    if (!words[specs] || !words[specs + 1])
        return wrong_words();
    for (size_t i = specs + 1; words[i]; i++)
        if (!read_query(words[i], &is_guest, &number))
            return wrong_words();
    for (size_t i = 0; i < specs; i++)
        texts[i] = text_of(words[i]);
    size_t room = virtiofs_uids_bound(specs);
    uint32_t *numbers = room_for(room * sizeof *numbers);
    struct virtiofs_fault fault;
    uint32_t code = virtiofs_uids_make_texts(texts, specs, numbers, room, &wanted, &fault, quoted, LARGE);
    const struct virtiofs_uids map = { numbers, wanted };
    int ended = code == VIRTIOFS_OK ? GIVEN : refuse("", code, fault);
    for (size_t i = specs + 1; ended == GIVEN && words[i]; i++)
        ended = answer_query(map, words[i]);
    return ended;
}

static int answer_namespace(char **words)
{
    struct virtiofs_range range;
    struct virtiofs_fault fault;
    uint32_t code = virtiofs_range_read(words[0], strlen(words[0]), &range, &fault);
    if (code != VIRTIOFS_OK)
        return refuse("", code, fault);
    printf(":%lu:%lu:%lu:\n", (unsigned long)range.inside, (unsigned long)range.outside, (unsigned long)range.count);
    return GIVEN;
}

/* ---- names ---- */

/* Makes a map, or ends the program. */
static struct virtiofs_names read_rules(const char *which, const char *word)
{
    struct virtiofs_fault fault;
    size_t room = virtiofs_names_bound(strlen(word));
    void *bytes = room_for(room);
    struct virtiofs_names map = { bytes, 0 };
    uint32_t code = virtiofs_names_make(word, strlen(word), bytes, room, &map.len, &fault, quoted, LARGE);
    if (code != VIRTIOFS_OK)
        exit(refuse(which, code, fault));
    return map;
}

static int answer_client(char **words)
{
    struct virtiofs_text name = text_of(words[1]);
    size_t len;
    uint32_t code = virtiofs_name_to_host_bytes(read_rules("", words[0]), name.at, name.len, out, LARGE, &len);
    if (code == VIRTIOFS_OK || code == VIRTIOFS_AS_IT_IS)
        write_bytes("pass ", code == VIRTIOFS_OK ? out : name.at, code == VIRTIOFS_OK ? len : name.len, "\n");
    else
        puts(code == VIRTIOFS_DENIED ? "deny" : code == VIRTIOFS_UNSUPPORTED ? "unsupported" : UNDECIDED);
    return code == VIRTIOFS_UNTERMINATED ? REFUSED : code < VIRTIOFS_UNTERMINATED ? GIVEN : NO_MEMORY;
}

static int answer_server(char **words)
{
    struct virtiofs_names map = read_rules("", words[0]);
    size_t list_len = 0, len;
    for (size_t i = 1; words[i]; list_len += strlen(words[i++]) + 1)
        strcpy(list + list_len, words[i]);
    uint32_t code = virtiofs_map_server_xattrlist(map.bytes, map.len, (const uint8_t *)list, list_len, (uint8_t *)out,
                                                  LARGE, &len);
    if (code == VIRTIOFS_UNTERMINATED)
        puts(UNDECIDED);
    if (code != VIRTIOFS_OK)
        return code == VIRTIOFS_UNTERMINATED ? REFUSED : NO_MEMORY;
    write_bytes("", out, len, "\n");
    return GIVEN;
}

static int answer_terminated(char **words)
{
    bool yes;
    if (virtiofs_names_is_terminated(read_rules("", words[0]), &yes) != VIRTIOFS_OK)
        return NO_MEMORY;
    puts(yes ? "yes" : "no");
    return GIVEN;
}

/* An audit of one map, or of two. */
static int answer_audit(char **words)
{
    size_t len;
    bool yes;
    struct virtiofs_names map = read_rules(words[1] ? "first: " : "", words[0]);
    uint32_t code = words[1] ? virtiofs_names_keeps_apart(map, read_rules("second: ", words[1]), &yes, out, LARGE, &len)
                             : virtiofs_names_audit(map, &yes, out, LARGE, &len);
    if (code != VIRTIOFS_OK)
        return NO_MEMORY;
    write_bytes(yes ? "yes" : "no ", out, len, "\n");
    return GIVEN;
}

/* A form, how many words follow it, and what answers it. */
static const struct { const char *form; int least, most, (*answer)(char **); } forms[] = {
    { "ids", 0, INT_MAX, answer_ids }, { "ns", 1, 1, answer_namespace }, { "client", 2, 2, answer_client },
    { "server", 1, INT_MAX, answer_server }, { "terminated", 1, 1, answer_terminated },
    { "audit", 1, 1, answer_audit }, { "apart", 2, 2, answer_audit },
};

int main(int argc, char **argv)
{
    for (size_t i = 0; argc > 1 && i < COUNT(forms); i++)
        if (!strcmp(argv[1], forms[i].form) && argc - 2 >= forms[i].least && argc - 2 <= forms[i].most)
            return forms[i].answer(argv + 2);
    return wrong_words();
}
