/*
 * What the tests in C share. They count what they see, and hand in memory that ends where nobody may read or write:
 * what reads or writes past it ends the program, which is then without the last line that is asked of it.
 */
#ifndef SEE_H
#define SEE_H

#define _DEFAULT_SOURCE
#include <stdio.h>
#include <stdlib.h>
#include <string.h>
#include <sys/mman.h>

#include "virtiofs_map.h"

enum { UNTOUCHED = 0xa5, PAGE = 4096, WORDS = 256 };

static int passed, failed;
static const struct virtiofs_fault no_fault;

static inline void see(int is_well, const char *what, int line)
{
    *(is_well ? &passed : &failed) += 1;
    if (!is_well)
        printf("FAILED: line %d: %s\n", line, what);
}

#define SEE(condition) see((condition), #condition, __LINE__)
/* With the row of a table. */
#define SEE_ROW(condition, row) see((condition), (row), __LINE__)
#define COUNT(table) (sizeof(table) / sizeof *(table))

/* The last line of each program of tests, and its status. */
static inline int counted(void)
{
    printf("%d passed, %d failed\n", passed, failed);
    return failed || !passed;
}

/* Pages between two that nobody may read or write: where they end. */
static inline uint8_t *guarded(size_t pages)
{
    uint8_t *at = mmap(NULL, (pages + 2) * PAGE, PROT_READ | PROT_WRITE, MAP_PRIVATE | MAP_ANONYMOUS, -1, 0);
    if (at == MAP_FAILED || mprotect(at, PAGE, PROT_NONE) || mprotect(at + (pages + 1) * PAGE, PAGE, PROT_NONE))
        exit(3);
    return at + (pages + 1) * PAGE;
}

/* Elements to read, or room to write, against the end of a page. If there are none, the pointer is NULL. */
static inline void *handed(uint8_t *end, const void *from, size_t len)
{
    return len ? memcpy(end - len, from, len) : NULL;
}

static inline void *lent(uint8_t *end, size_t room)
{
    memset(end - PAGE, UNTOUCHED, PAGE);
    return room ? end - room : NULL;
}

static inline int is_untouched(const void *from, size_t len)
{
    const uint8_t *bytes = from;
    return !len || (bytes[0] == UNTOUCHED && !memcmp(bytes, bytes + 1, len - 1));
}

/* Whether nothing was written to a page but the first bytes of the room that it lent. */
static inline int is_kept(const uint8_t *end, size_t room, size_t written)
{
    return is_untouched(end - PAGE, PAGE - room) && is_untouched(end - room + written, room - written);
}

static inline int are_equal(struct virtiofs_spec one, struct virtiofs_spec other)
{
    return one.kind == other.kind && one.first == other.first && one.to == other.to && one.count == other.count;
}

static inline int is_fault(struct virtiofs_fault it, struct virtiofs_fault wanted)
{
    return it.kind == wanted.kind && it.part == wanted.part && it.direction == wanted.direction && it.end == wanted.end
           && it.number == wanted.number && it.place == wanted.place && it.expected == wanted.expected
           && it.seen == wanted.seen && it.quoted == wanted.quoted && it.wanted == wanted.wanted
           && are_equal(it.spec, wanted.spec);
}

static inline struct virtiofs_text text_of(const char *text)
{
    return (struct virtiofs_text){ text, text ? strlen(text) : 0 };
}

/* The map of a text of rules, which has no byte if there is none. */
static inline struct virtiofs_names names_of(const char *rules, void *bytes, size_t room)
{
    struct virtiofs_text text = text_of(rules);
    struct virtiofs_names map = { bytes, 0 };
    struct virtiofs_fault fault;
    if (virtiofs_names_make(text.at, text.len, bytes, room, &map.len, &fault, NULL, 0) != VIRTIOFS_OK)
        map.len = 0;
    return map;
}

/* The bytes that a text says in hexadecimal, with blanks between them. */
static inline size_t bytes_of(const char *text, uint8_t *bytes)
{
    size_t len = 0;
    int read = 0;
    for (; sscanf(text, "%2hhx%n", &bytes[len], &read) == 1; text += read)
        len++;
    return len;
}

/* Numbers that look like random ones, the same ones in each run. */
static inline uint64_t random_number(uint64_t *state)
{
    *state ^= *state << 13;
    *state ^= *state >> 7;
    *state ^= *state << 17;
    return *state * 0x2545f4914f6cdd1du;
}

#endif
