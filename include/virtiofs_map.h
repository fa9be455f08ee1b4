/*
 * virtiofs_map: which uids, gids and extended attribute names cross between a guest and its
 * host, for C and for whatever calls C.
 *
 *     const struct virtiofs_spec specs[] = { { VIRTIOFS_MAP, 0, 100000, 65536 },
 *                                            { VIRTIOFS_FORBID_GUEST, 65536, 0, 4294901759u } };
 *     uint32_t words[32], owner;
 *     struct virtiofs_uids users = { words, 0 };
 *     struct virtiofs_fault fault;
 *     enum virtiofs_code code = virtiofs_uids_make(specs, 2, words, 32, &users.count, &fault);
 *     if (code == VIRTIOFS_OK)
 *         code = virtiofs_uids_to_host(users, 1000, &owner);
 *     if (code == VIRTIOFS_OK)
 *         printf("guest user 1000 is host user %u\n", (unsigned)owner);
 *
 * Use a result only if the code is VIRTIOFS_OK; else refuse the request, with the errno that
 * virtiofs_code_errno gives. (VIRTIOFS_AS_IT_IS of virtiofs_name_to_host_bytes is a success too.)
 * Above all, VIRTIOFS_NO_ID means that the id is 4294967295 or becomes it: chown and setresuid
 * read that as "leave unchanged", so a file of the guest would belong to the daemon's own user,
 * which is often root.
 *
 * What is where: virtiofs_uids_.. and virtiofs_gids_.. have maps of ids, virtiofs_names_.. maps of
 * names, virtiofs_acl_.. and virtiofs_capability_.. the ids inside values, and virtiofs_ids_..
 * questions about all ids of a guest. C.md, in docs or installed, is an introduction.
 */

/*
 * MAPS. A map is plain numbers in the caller's memory: words (of 32 bits) for ids,
 * bytes for names. A `make` writes them. All other calls only read them. There is
 * nothing to lock and nothing to free but that memory. A map may be copied, moved and
 * mapped at another address; its words must be aligned for their type.
 *
 * THREADS. Any number of threads may use one map at once. Its memory may be
 * read-only, and may be shared with processes that only read it. Nobody may write to
 * it while a call reads it. No call keeps anything for the next one, and all calls may be
 * made by any number of threads at once.
 *
 * WHAT IS NO MAP. The first numbers of a map say its kind, its version and its length. So these
 * are no map: a struct of zeros, a length of 0, memory of zeros, a map of the other kind (ids
 * instead of names, or names instead of ids), a map of another version, and a map that is passed
 * with another `count` or `len` than its own. None of these is ever treated as the map that
 * changes no id. To get that map, make a map from no specifications. A call that is given one of
 * these returns VIRTIOFS_NO_MAP. A `make` whose code is not OK leaves no map in its buffer.
 * Nor is a copy of a part a map, with zeros behind it and the length of the whole: a map ends with
 * its first number too. If the numbers begin and end as a map does, but others were not written
 * by a `make` or were changed since, the result means nothing. So copy all `count` words, which
 * are 4 * `count` bytes, or all `len` bytes. Whatever the numbers are, a call returns, reads
 * nothing outside of them, and writes nothing outside of its results. But an audit of
 * names may then take time that grows with the square of the number of rules times the
 * number of bytes: we measured a minute for 100 KB. So audit only maps that you made.
 *
 * What the numbers mean is private to a version of the library, and they are in the byte
 * order of the machine. So do not store them in files, and do not send them to another
 * machine.
 *
 * POINTERS. The caller must ensure, for each call:
 *  - a pointer with a length points to that many elements, which nobody else writes
 *    while the call runs; lengths count elements, and the elements together take fewer
 *    than 2^63 bytes. If the length is 0, the pointer may be NULL, or point anywhere;
 *  - no other pointer is NULL, unless the comment of the function says that it may be;
 *  - while the call runs, nobody else uses the memory that it writes to. The arguments
 *    that the call writes to must not overlap each other, nor anything that it reads.
 * No function keeps a pointer after it has returned.
 *
 * MEMORY. Only these calls allocate: `.._make`, `.._make_texts`, `virtiofs_spec_read`,
 * `virtiofs_specs_read`, the audits `virtiofs_names_audit`, `.._audit_listed`, `.._keeps_apart` and
 * `.._shares_no_name`, of ids `virtiofs_ids_comes_back`, `.._is_alone`, `.._reaches` and
 * `.._apart`. Before they return, they free all that they allocated, but for the maps of
 * virtiofs_maps_make. They use malloc, realloc and free, which must be the C library's, or
 * replacements that belong to one allocator and return memory aligned to 16 bytes. So these calls
 * must not be made in a signal handler, or in the child of a fork of a program with threads. All
 * other calls may be made there.
 *
 * BUFFERS. A result in bytes goes to the caller's buffer `out` of `room` bytes, and
 * `*len` is the length of the result. If the result is longer than `room`, the code is
 * VIRTIOFS_NO_ROOM, and `*len` is the length that is needed; call again with a buffer
 * of that length. If a call has no bytes to give, `*len` is 0. Examples are the code
 * VIRTIOFS_AS_IT_IS, and an audit whose answer is yes. No zero is put after
 * the bytes. The rest of the buffer, and every other output that the comment of the
 * function does not mention, is unchanged. Where something else holds, the comment says so.
 *
 * ERRORS. Most functions return a code: VIRTIOFS_OK, which is 0, for success, and, from
 * virtiofs_name_to_host_bytes alone, also VIRTIOFS_AS_IT_IS. The comment of each function,
 * or of its section, lists the codes that it can return; there are no others.
 * virtiofs_code_errno gives the errno that we recommend to send to the guest, and
 * virtiofs_code_text a word for a log. virtiofs_sentence writes a sentence for any code, with the
 * fault that a call has reported. No function prints, and none ends the program.
 */
#ifndef VIRTIOFS_MAP_H
#define VIRTIOFS_MAP_H

#include <errno.h>
#include <stdbool.h>
#include <stddef.h>
#include <stdint.h>
#include <stdlib.h>
#include <string.h>

#ifdef __cplusplus
extern "C" {
#endif

/* The version of this header. A header and an archive of the same version belong together;
   virtiofs_map_version() returns the version of the archive. */
#define VIRTIOFS_MAP_VERSION 3

/* Attributes of a function, for compilers that know them: the caller must use its code, and
   the arguments at these places must not be NULL. */
#if defined(__GNUC__)
#define VIRTIOFS_CHECKED(places) __attribute__((warn_unused_result, nonnull places))
#else
#define VIRTIOFS_CHECKED(places)
#endif

/* ---- maps ---- */

/* A map of user ids: where it is, and how many words it has. Copying the struct does not
   copy the map. No call writes to a map that it is given in such a struct. */
struct virtiofs_uids { const uint32_t *words; size_t count; };

/* A map of group ids: where it is, and how many words it has. */
struct virtiofs_gids { const uint32_t *words; size_t count; };

/* A map of attribute names: where it is, and how many bytes it has. */
struct virtiofs_names { const void *bytes; size_t len; };

/* ---- codes ---- */

/* What the functions return. */
enum virtiofs_code {
    VIRTIOFS_OK = 0,           /* done; the result is where the function says */
    VIRTIOFS_AS_IT_IS = 1,     /* the name passes unchanged; nothing is written */
    VIRTIOFS_FORBIDDEN = 2,    /* a specification forbids the use of this id */
    VIRTIOFS_DENIED = 3,       /* the guest may not use the name */
    VIRTIOFS_UNSUPPORTED = 4,  /* a rule says that the name is unsupported */
    VIRTIOFS_UNTERMINATED = 5, /* no rule decides the name, or a name of the list */
    VIRTIOFS_REFUSED = 6,      /* a text, a list or a value is wrong; *fault says what */
    VIRTIOFS_NO_ROOM = 7,      /* the buffer is too short */
    VIRTIOFS_NO_MEMORY = 8,    /* an allocation failed */
    VIRTIOFS_NO_MAP = 9,       /* the words, or the bytes, are no map */
    VIRTIOFS_HIDDEN = 10,      /* the guest does not see the name */
    VIRTIOFS_MERGES = 11,      /* two ids of the value would become the same id */
    VIRTIOFS_ROOT_MOVES = 12,  /* the capability has no field for the new id of root */
    VIRTIOFS_NO_ID = 13,       /* the id, or what it becomes, is 4294967295 */
    VIRTIOFS_TOO_LONG = 14     /* the host's name has more than 255 bytes */
};

/* The errno that we recommend to send to the guest; 0 if the code is OK or AS_IT_IS. */
static inline int virtiofs_code_errno(enum virtiofs_code code)
{
    switch (code) {
    case VIRTIOFS_OK: return 0;
    case VIRTIOFS_AS_IT_IS: return 0;
    case VIRTIOFS_FORBIDDEN: return EPERM;
    case VIRTIOFS_DENIED: return EPERM;
    case VIRTIOFS_UNSUPPORTED: return ENOTSUP;
    case VIRTIOFS_UNTERMINATED: return EPERM;
    case VIRTIOFS_REFUSED: return EINVAL;
    case VIRTIOFS_NO_ROOM: return ERANGE;
    case VIRTIOFS_NO_MEMORY: return ENOMEM;
    case VIRTIOFS_NO_MAP: return EINVAL;
    case VIRTIOFS_HIDDEN: return ENODATA;
    case VIRTIOFS_MERGES: return EPERM;
    case VIRTIOFS_ROOT_MOVES: return EPERM;
    case VIRTIOFS_NO_ID: return EINVAL;
    case VIRTIOFS_TOO_LONG: return ENAMETOOLONG;
    }
    return EINVAL;
}

/* What a code means, in a few words of ASCII, for a log: "a specification forbids this id". */
static inline const char *virtiofs_code_text(enum virtiofs_code code)
{
    switch (code) {
    case VIRTIOFS_OK: return "success";
    case VIRTIOFS_AS_IT_IS: return "the name passes unchanged";
    case VIRTIOFS_FORBIDDEN: return "a specification forbids this id";
    case VIRTIOFS_DENIED: return "the guest may not use this name";
    case VIRTIOFS_UNSUPPORTED: return "a rule says that this name is unsupported";
    case VIRTIOFS_UNTERMINATED: return "no rule decides this name";
    case VIRTIOFS_REFUSED: return "a text, a list or a value is wrong";
    case VIRTIOFS_NO_ROOM: return "the buffer is too short";
    case VIRTIOFS_NO_MEMORY: return "out of memory";
    case VIRTIOFS_NO_MAP: return "the numbers are no map";
    case VIRTIOFS_HIDDEN: return "the guest does not see this name";
    case VIRTIOFS_MERGES: return "two ids of the value would become the same id";
    case VIRTIOFS_ROOT_MOVES: return "the capability has no field for the new id of root";
    case VIRTIOFS_NO_ID: return "4294967295 is no id";
    case VIRTIOFS_TOO_LONG: return "the host's name has more than 255 bytes";
    }
    return "there is no such code";
}

/* ---- specifications of ids ---- */

/* The kinds of a specification, with the word that a text has for each. */
enum virtiofs_kind {
    VIRTIOFS_GUEST = 0,        /* guest:FIRST:TO:COUNT         guest ids, one to one */
    VIRTIOFS_HOST = 1,         /* host:FIRST:TO:COUNT          host ids, one to one */
    VIRTIOFS_SQUASH_GUEST = 2, /* squash-guest:FIRST:TO:COUNT  guest ids, all to one */
    VIRTIOFS_SQUASH_HOST = 3,  /* squash-host:FIRST:TO:COUNT   host ids, all to one */
    VIRTIOFS_MAP = 4,          /* map:GUEST:HOST:COUNT         both ways, one to one */
    VIRTIOFS_FORBID_GUEST = 5  /* forbid-guest:FIRST:COUNT     guest ids that fail */
};

/* One specification. It covers the `count` ids from `first` on, none if
   `count` is 0. The first of them becomes `to`. For VIRTIOFS_MAP `first` is
   the guest's id and `to` the host's. For VIRTIOFS_FORBID_GUEST `to` is ignored
   on input, and is 0 in every struct virtiofs_spec that the library fills. */
struct virtiofs_spec {
    uint32_t kind; /* one of enum virtiofs_kind */
    uint32_t first;
    uint32_t to;
    uint32_t count;
};

/* One range of a user namespace, as in the text `:inside:outside:count:`. */
struct virtiofs_range {
    uint32_t inside;
    uint32_t outside;
    uint32_t count;
};

/* A text: `len` bytes of UTF-8. A terminating zero is not needed, and not counted. `at` may be
   NULL if `len` is 0. */
struct virtiofs_text {
    const void *at;
    size_t len;
};

/* ---- faults ---- */

/* Why no map is made, or why a text or a value is refused. */
enum virtiofs_fault_kind {
    VIRTIOFS_FAULT_NONE = 0,   /* nothing is wrong */
    VIRTIOFS_FAULT_MEMORY = 1, /* comes with the code VIRTIOFS_NO_MEMORY, and has no part */
    VIRTIOFS_FAULT_UTF8 = 2,   /* the text is not UTF-8 */

    /* of a list of specifications */
    VIRTIOFS_FAULT_KIND = 3,       /* the member `kind` is none of the six */
    VIRTIOFS_FAULT_OVERFLOW = 4,   /* a range of source ids goes past 4294967294, or one of target
                                      ids past 4294967295 */
    VIRTIOFS_FAULT_INTERSECTS = 5, /* an earlier specification covers one of its ids too */

    /* of the text of a specification */
    VIRTIOFS_FAULT_PREFIX = 6, /* its word is none of the six; quoted, its ASCII letters small */
    VIRTIOFS_FAULT_LENGTH = 7, /* its count of numbers is not the one that its word takes */
    VIRTIOFS_FAULT_VALUE = 8,  /* a field is no number below 2^32; quoted */

    /* of the text of a range of a namespace */
    VIRTIOFS_FAULT_RANGE_DELIMITER = 9,   /* its first and its last character differ or are
                                             alphanumeric, or it has only one character */
    VIRTIOFS_FAULT_RANGE_INCOMPLETE = 10, /* it is empty, or does not have exactly three fields */
    VIRTIOFS_FAULT_RANGE_VALUE = 11,      /* a field is no number below 2^32 */

    /* of a text of rules */
    VIRTIOFS_FAULT_SCOPE = 12,      /* there is no such scope; quoted */
    VIRTIOFS_FAULT_TYPE = 13,       /* there is no such type; quoted */
    VIRTIOFS_FAULT_INCOMPLETE = 14, /* a field is not closed by the delimiter */
    VIRTIOFS_FAULT_MAP_RULE = 15,   /* something follows a map rule */
    VIRTIOFS_FAULT_NO_RULES = 16,   /* it has no rules */
    VIRTIOFS_FAULT_NUL_KEY = 17,      /* a key contains U+0000 */
    VIRTIOFS_FAULT_NUL_PREPEND = 18, /* a prepend contains U+0000 */

    /* of a value with ids */
    VIRTIOFS_FAULT_SHORT = 19,      /* it is shorter than the 4 bytes that begin each value */
    VIRTIOFS_FAULT_VERSION = 20,    /* there is no such version, or no such revision */
    VIRTIOFS_FAULT_SIZE = 21,       /* its last entry is cut, or its length not its revision's */
    VIRTIOFS_FAULT_ROOM = 22,       /* comes with the code VIRTIOFS_NO_ROOM */
    VIRTIOFS_FAULT_TAG = 23,        /* there is no such tag */
    VIRTIOFS_FAULT_PERMISSION = 24, /* permissions above 7 */
    VIRTIOFS_FAULT_NO_ID = 25,      /* comes with the code VIRTIOFS_NO_ID */
    VIRTIOFS_FAULT_FORBIDDEN = 26,  /* comes with the code VIRTIOFS_FORBIDDEN */
    VIRTIOFS_FAULT_MERGES = 27,     /* comes with the code VIRTIOFS_MERGES */
    VIRTIOFS_FAULT_ROOT_MOVES = 28  /* comes with the code VIRTIOFS_ROOT_MOVES */
};

/* The direction in which a range is at fault. */
enum virtiofs_direction { VIRTIOFS_GUEST_TO_HOST = 0, VIRTIOFS_HOST_TO_GUEST = 1 };

/* Which range goes too far: that of the ids that are mapped, or of the ids that they become. */
enum virtiofs_end { VIRTIOFS_SOURCE = 0, VIRTIOFS_TARGET = 1 };

/* Which part of the input is at fault. */
enum virtiofs_part {
    VIRTIOFS_NO_PART = 0,       /* the whole input: one text of a specification or a range */
    VIRTIOFS_SPECIFICATION = 1, /* a specification of a list, or its text */
    VIRTIOFS_RULE = 2,          /* a rule of a text of rules, or that text */
    VIRTIOFS_ACL_VALUE = 3,     /* an access control list as a whole */
    VIRTIOFS_ACL_ENTRY = 4,     /* an entry of an access control list */
    VIRTIOFS_CAPABILITY_VALUE = 5 /* a capability */
};

/* Why a field is not a number below 2^32. */
enum virtiofs_number {
    VIRTIOFS_NUMBER_EMPTY = 0, /* it is empty */
    VIRTIOFS_NUMBER_DIGIT = 1, /* one of its characters is no digit */
    VIRTIOFS_NUMBER_LARGE = 2  /* it is too large */
};

/* The first fault, with all details. Members that do not belong to the kind are 0. All
   members are 0 if the code is VIRTIOFS_OK or VIRTIOFS_NO_MAP, or if a `make` returns
   VIRTIOFS_NO_ROOM. */
struct virtiofs_fault {
    /* One of enum virtiofs_fault_kind. */
    uint32_t kind;
    /* One of enum virtiofs_part. */
    uint32_t part;
    /* OVERFLOW and INTERSECTS: one of enum virtiofs_direction. */
    uint32_t direction;
    /* OVERFLOW: one of enum virtiofs_end. Ids that are mapped may go up to 4294967294,
       ids that they become up to 4294967295. */
    uint32_t end;
    /* VALUE and RANGE_VALUE: one of enum virtiofs_number. */
    uint32_t number;
    /* For a list: the index of the specification or of its text, from 0; the indexes of
       a second list continue those of the first. For a text of rules: the number of the
       rule, from 1, or 0 if no rule is at fault. For an access control list: the index of
       the entry, from 0. */
    size_t place;
    /* LENGTH: how many numbers the word takes, and how many there are; 1 and 0 if there is
       no separator after the word, as virtiofsd reports it. ROOM: how many entries there
       are, and for how many there is room. VERSION: 0, and the version or the revision. */
    size_t expected;
    size_t seen;
    /* PREFIX, VALUE, SCOPE and TYPE: `wanted` is the length in bytes of the part of the
       text that is wrong (a word or a field). If it fits into the buffer `quoted` of the
       call, it is copied there, and this member `quoted` equals `wanted`. Otherwise
       nothing is copied, and this member is 0. */
    size_t quoted;
    size_t wanted;
    /* OVERFLOW and INTERSECTS: the specification at `place`; of two that intersect, the later. */
    struct virtiofs_spec spec;
};

/* ---- what audits of ids find ---- */

/* What an audit of all ids has found: the least id that shows the answer. */
struct virtiofs_ids_found {
    uint32_t guest; /* the id of the guest */
    uint32_t host;  /* what it becomes on the host */
    uint32_t other; /* a second id of a guest, if the function gives one; otherwise 0 */
};

/* ---- values with ids ---- */

/* Which ids the values of an attribute contain. */
enum virtiofs_value_kind {
    VIRTIOFS_NO_IDS = 0,    /* none */
    VIRTIOFS_ACL = 1,       /* those of users and groups in an access control list */
    VIRTIOFS_CAPABILITY = 2 /* that of root in a capability */
};

/* Memory for one entry of an access control list. The caller need not set the members, and
   what they contain after a call means nothing. */
struct virtiofs_entry_room {
    uint16_t tag;
    uint32_t id;
    size_t entry;
};

/* ---- exported symbols ----
 *
 * C programs call the inline functions below. These call the symbols here, and replace a pointer
 * whose length is 0 by an address that is not NULL. A caller that cannot use inline functions, such
 * as one in another language, calls the symbols: then no pointer may be NULL, not even one with a
 * length of 0, and each must be aligned for its type. All else is as for the inline function whose
 * name lacks `map_`; ids of users and of groups have one symbol. virtiofs_code_errno,
 * virtiofs_code_text, virtiofs_sentence, virtiofs_specs_read, virtiofs_name_to_host and
 * virtiofs_maps_make have no symbol. virtiofs_map_name_to_guest takes lengths, writes no zero at the
 * end, and returns NO_ROOM where virtiofs_name_to_guest returns TOO_LONG.
 */

/* The version of the archive, which is VIRTIOFS_MAP_VERSION of its own header. */
uint32_t virtiofs_map_version(void);

size_t virtiofs_map_ids_bound(size_t count);

VIRTIOFS_CHECKED((1, 3, 5, 6))
uint32_t virtiofs_map_ids_make(const struct virtiofs_spec *specs, size_t count,
                               uint32_t *words, size_t room, size_t *wanted,
                               struct virtiofs_fault *fault);

VIRTIOFS_CHECKED((1, 3, 5, 6, 7))
uint32_t virtiofs_map_ids_make_texts(const struct virtiofs_text *texts, size_t count,
                                     uint32_t *words, size_t room, size_t *wanted,
                                     struct virtiofs_fault *fault,
                                     uint8_t *quoted, size_t quoted_room);

VIRTIOFS_CHECKED((1, 4))
uint32_t virtiofs_map_ids_to_host(const uint32_t *words, size_t count,
                                  uint32_t guest, uint32_t *host);

VIRTIOFS_CHECKED((1, 4))
uint32_t virtiofs_map_ids_to_guest(const uint32_t *words, size_t count,
                                   uint32_t host, uint32_t *guest);

VIRTIOFS_CHECKED((1, 3, 4, 5))
uint32_t virtiofs_map_ids_comes_back(const struct virtiofs_spec *specs, size_t count, bool *yes,
                                    struct virtiofs_ids_found *found,
                                    struct virtiofs_fault *fault);

VIRTIOFS_CHECKED((1, 3, 4, 5))
uint32_t virtiofs_map_ids_is_alone(const struct virtiofs_spec *specs, size_t count, bool *yes,
                                struct virtiofs_ids_found *found,
                                struct virtiofs_fault *fault);

VIRTIOFS_CHECKED((1, 5, 6, 7))
uint32_t virtiofs_map_ids_reaches(const struct virtiofs_spec *specs, size_t count,
                                uint32_t first, uint32_t last, bool *yes,
                                struct virtiofs_ids_found *found,
                                struct virtiofs_fault *fault);

VIRTIOFS_CHECKED((1, 3, 5, 6, 7))
uint32_t virtiofs_map_ids_apart(const struct virtiofs_spec *specs, size_t count,
                                const struct virtiofs_spec *others, size_t other_count,
                                bool *yes, struct virtiofs_ids_found *found,
                                struct virtiofs_fault *fault);

VIRTIOFS_CHECKED((1, 3, 4, 5))
uint32_t virtiofs_map_spec_read(const uint8_t *text, size_t text_len,
                                struct virtiofs_spec *spec, struct virtiofs_fault *fault,
                                uint8_t *quoted, size_t quoted_room);

VIRTIOFS_CHECKED((1, 3, 4))
uint32_t virtiofs_map_range_read(const uint8_t *text, size_t text_len,
                                 struct virtiofs_range *range, struct virtiofs_fault *fault);

size_t virtiofs_map_names_bound(size_t text_len);

VIRTIOFS_CHECKED((1, 3, 5, 6, 7))
uint32_t virtiofs_map_names_make(const uint8_t *text, size_t text_len,
                                 uint8_t *bytes, size_t room, size_t *wanted,
                                 struct virtiofs_fault *fault,
                                 uint8_t *quoted, size_t quoted_room);

VIRTIOFS_CHECKED((1, 3, 5, 7))
uint32_t virtiofs_map_name_to_host_bytes(const uint8_t *bytes, size_t map_len,
                                         const uint8_t *name, size_t name_len,
                                         uint8_t *out, size_t room, size_t *len);

VIRTIOFS_CHECKED((1, 3, 5, 7))
uint32_t virtiofs_map_name_to_guest(const uint8_t *bytes, size_t map_len,
                                    const uint8_t *name, size_t name_len,
                                    uint8_t *out, size_t room, size_t *len);

VIRTIOFS_CHECKED((1, 3, 5, 7))
uint32_t virtiofs_map_list_to_guest(const uint8_t *bytes, size_t map_len,
                                    const uint8_t *list, size_t list_len,
                                    uint8_t *out, size_t room, size_t *len);

/* For the Rust file: virtiofsd's own list, in which empty names stay; one zero if none is left. */
VIRTIOFS_CHECKED((1, 3, 5, 7))
uint32_t virtiofs_map_server_xattrlist(const uint8_t *bytes, size_t map_len,
                                       const uint8_t *list, size_t list_len,
                                       uint8_t *out, size_t room, size_t *len);

VIRTIOFS_CHECKED((1, 3))
uint32_t virtiofs_map_names_is_terminated(const uint8_t *bytes, size_t map_len, bool *yes);

VIRTIOFS_CHECKED((1, 3, 4, 6))
uint32_t virtiofs_map_names_audit(const uint8_t *bytes, size_t map_len, bool *yes,
                                  uint8_t *out, size_t room, size_t *len);

VIRTIOFS_CHECKED((1, 3, 4, 6))
uint32_t virtiofs_map_names_audit_listed(const uint8_t *bytes, size_t map_len, bool *yes,
                                         uint8_t *out, size_t room, size_t *len);

VIRTIOFS_CHECKED((1, 3, 5, 6, 8))
uint32_t virtiofs_map_names_keeps_apart(const uint8_t *bytes, size_t map_len,
                                  const uint8_t *other_bytes, size_t other_len,
                                  bool *yes, uint8_t *out, size_t room, size_t *len);

VIRTIOFS_CHECKED((1, 3, 5, 6, 8))
uint32_t virtiofs_map_names_shares_no_name(const uint8_t *bytes, size_t map_len,
                                       const uint8_t *other_bytes, size_t other_len,
                                       bool *yes, uint8_t *out, size_t room, size_t *len);

VIRTIOFS_CHECKED((1))
uint32_t virtiofs_map_carries_ids(const uint8_t *name, size_t name_len);

VIRTIOFS_CHECKED((1, 3, 5, 7, 9))
uint32_t virtiofs_map_acl_to_host(const uint32_t *users, size_t user_count,
                                  const uint32_t *groups, size_t group_count,
                                  uint8_t *value, size_t len,
                                  struct virtiofs_entry_room *entries, size_t room,
                                  struct virtiofs_fault *fault);

VIRTIOFS_CHECKED((1, 3, 5, 7, 9))
uint32_t virtiofs_map_acl_to_guest(const uint32_t *users, size_t user_count,
                                   const uint32_t *groups, size_t group_count,
                                   uint8_t *value, size_t len,
                                   struct virtiofs_entry_room *entries, size_t room,
                                   struct virtiofs_fault *fault);

VIRTIOFS_CHECKED((1, 3, 5))
uint32_t virtiofs_map_capability_to_host(const uint32_t *users, size_t user_count,
                                         uint8_t *value, size_t len,
                                         struct virtiofs_fault *fault);

VIRTIOFS_CHECKED((1, 3, 5))
uint32_t virtiofs_map_capability_to_guest(const uint32_t *users, size_t user_count,
                                          uint8_t *value, size_t len,
                                          struct virtiofs_fault *fault);

VIRTIOFS_CHECKED((1, 3, 5, 6))
uint32_t virtiofs_map_capability_to_host_in_revision_3(const uint32_t *users, size_t user_count,
                                                       const uint8_t *value, size_t len,
                                                       uint8_t *written,
                                                       struct virtiofs_fault *fault);

VIRTIOFS_CHECKED((1, 3, 5, 6))
uint32_t virtiofs_map_capability_to_guest_in_revision_3(const uint32_t *users, size_t user_count,
                                                        const uint8_t *value, size_t len,
                                                        uint8_t *written,
                                                        struct virtiofs_fault *fault);

VIRTIOFS_CHECKED((1, 2, 4, 6))
uint32_t virtiofs_map_fault_text(const struct virtiofs_fault *fault,
                                 const uint8_t *quoted, size_t quoted_len,
                                 uint8_t *out, size_t room, size_t *len);

/* A pointer and its length. If the length is 0, the pointer becomes an aligned address
   that is not NULL. */
#define VIRTIOFS_SLICE(type, at, len) ((len) ? (type *)(at) : (type *)(uintptr_t)16), (len)
#define VIRTIOFS_BYTES(at, len) VIRTIOFS_SLICE(const uint8_t, at, len)
#define VIRTIOFS_ROOM(at, len) VIRTIOFS_SLICE(uint8_t, at, len)
#define VIRTIOFS_NAMES(map) VIRTIOFS_BYTES((map).bytes, (map).len)
#define VIRTIOFS_WORDS(map) VIRTIOFS_SLICE(const uint32_t, (map).words, (map).count)
#define VIRTIOFS_SPECS(specs, count) VIRTIOFS_SLICE(const struct virtiofs_spec, specs, count)
#define VIRTIOFS_CODE_OF(call) ((enum virtiofs_code)(call))

/* ---- the sentence of a fault ---- */

/* Writes the sentence for a fault, such as `specification 2: Parameter
   map:0:4294967290:10: Range overflow` or `rule 2: the rule is incomplete`. It begins with
   the place of the fault, if there is one, counted from 1 as people count: for a specification
   and for an entry that is one more than `place` (and SIZE_MAX stays SIZE_MAX), for a rule it
   is `place`. Then comes what the library says of such a fault.
   `quoted` is the buffer to which the call that reported the fault copied the wrong text,
   and `quoted_len` its length. No more of its bytes are used than the fault says were
   copied. If the buffer was too short for the wrong text, `...` stands in the sentence in
   place of that text. A sentence is UTF-8 in one line, with letters of any script as they are. In
   the wrong text a backslash is `\\`. Each byte of a control or format character (Unicode's general
   categories Cc and Cf), of U+2028 and of U+2029 is `\x` and two hexadecimal digits, and so is each
   byte that is of no character. OK: the sentence is in `out`. NO_ROOM: `out` has the first `room`
   bytes of the sentence, with spaces in the place of a character that would be cut, and *len is
   the length of the whole sentence. Any content of the struct has a sentence, even one that no
   call wrote. For VIRTIOFS_FAULT_NONE, and for a number that is no kind, the sentence says so. */
VIRTIOFS_CHECKED((1, 6))
static inline enum virtiofs_code virtiofs_fault_text(const struct virtiofs_fault *fault,
                                                     const void *quoted, size_t quoted_len,
                                                     void *out, size_t room, size_t *len)
{
    return VIRTIOFS_CODE_OF(virtiofs_map_fault_text(
        fault, VIRTIOFS_BYTES(quoted, quoted_len), VIRTIOFS_ROOM(out, room), len));
}

/* The bytes of a sentence as a C string, at most, with the zero that ends it. */
enum { VIRTIOFS_SENTENCE_ROOM = 512 };

/* Writes a sentence for any code, as a C string: that of virtiofs_fault_text if the call reported
   a fault, and else virtiofs_code_text, as for NO_ROOM and NO_MAP. `fault` may be NULL, for a call
   that has none. What is longer than the room is cut, with spaces in place of a cut character. */
static inline void virtiofs_sentence(enum virtiofs_code code, const struct virtiofs_fault *fault,
                                     const void *quoted, size_t quoted_len,
                                     char sentence[VIRTIOFS_SENTENCE_ROOM])
{
    const char *text = virtiofs_code_text(code);
    size_t len = strlen(text);
    if (!fault || fault->kind <= VIRTIOFS_FAULT_MEMORY)
        memcpy(sentence, text, len);
    else if (virtiofs_fault_text(fault, quoted, quoted_len, sentence, VIRTIOFS_SENTENCE_ROOM - 1,
                                 &len) != VIRTIOFS_OK)
        len = VIRTIOFS_SENTENCE_ROOM - 1;
    sentence[len] = 0;
}

/* ---- maps of ids ----
 *
 * virtiofs_uids_.. are for users and virtiofs_gids_.. for groups. The two differ only in the
 * types of their maps, so that a compiler refuses a map of the one where the other is needed.
 */

/* The most words that a map of `count` user specifications takes. A buffer of that
   many words is always enough. The result is SIZE_MAX if no buffer can be that large. */
static inline size_t virtiofs_uids_bound(size_t count) { return virtiofs_map_ids_bound(count); }

/* virtiofs_uids_bound for groups. */
static inline size_t virtiofs_gids_bound(size_t count) { return virtiofs_map_ids_bound(count); }

/* Makes a map from the array of specifications, in the buffer `words` of `room` words.
   OK: the first *wanted words are the map, and the others are unchanged. NO_ROOM: the
   map takes *wanted words. REFUSED: no map can be made from this array, *wanted is 0, and
   *fault is its first fault: KIND, OVERFLOW or INTERSECTS, with the index in `place`. If any
   element has a `kind` that is none of the six, the fault is KIND with the first such element,
   even if an earlier element has another fault. NO_MEMORY: *wanted is 0. If the code is not OK,
   the first word is 0, so that no map is there any more, and the others are unchanged. */
VIRTIOFS_CHECKED((5, 6))
static inline enum virtiofs_code virtiofs_uids_make(const struct virtiofs_spec *specs,
                                                    size_t count, uint32_t *words, size_t room,
                                                    size_t *wanted, struct virtiofs_fault *fault)
{
    return VIRTIOFS_CODE_OF(virtiofs_map_ids_make(
        VIRTIOFS_SPECS(specs, count), VIRTIOFS_SLICE(uint32_t, words, room), wanted, fault));
}

/* virtiofs_uids_make for groups. */
VIRTIOFS_CHECKED((5, 6))
static inline enum virtiofs_code virtiofs_gids_make(const struct virtiofs_spec *specs,
                                                    size_t count, uint32_t *words, size_t room,
                                                    size_t *wanted, struct virtiofs_fault *fault)
{
    return VIRTIOFS_CODE_OF(virtiofs_map_ids_make(
        VIRTIOFS_SPECS(specs, count), VIRTIOFS_SLICE(uint32_t, words, room), wanted, fault));
}

/* Reads the text of one specification. OK: *spec is what it says. REFUSED: *fault is
   UTF8, PREFIX, LENGTH or VALUE (with place 0), and for PREFIX and VALUE the part that is
   wrong is quoted in `quoted`. NO_MEMORY. If the code is not OK, *spec is unchanged. */
VIRTIOFS_CHECKED((3, 4))
static inline enum virtiofs_code virtiofs_spec_read(const void *text, size_t text_len,
                                                    struct virtiofs_spec *spec,
                                                    struct virtiofs_fault *fault, void *quoted,
                                                    size_t quoted_room)
{
    return VIRTIOFS_CODE_OF(virtiofs_map_spec_read(
        VIRTIOFS_BYTES(text, text_len), spec, fault, VIRTIOFS_ROOM(quoted, quoted_room)));
}

/* Reads an array of `count` texts, each of which is a specification, for the audits below. OK:
   the array `specs` of `count` elements has what they say; if it is NULL, the texts are only
   tested. REFUSED: the faults of virtiofs_spec_read, with the index of the first text that is no
   specification. NO_MEMORY. If the code is not OK, elements of `specs` may have been written. */
VIRTIOFS_CHECKED((4))
static inline enum virtiofs_code virtiofs_specs_read(const struct virtiofs_text *texts,
                                                     size_t count, struct virtiofs_spec *specs,
                                                     struct virtiofs_fault *fault, void *quoted,
                                                     size_t quoted_room)
{
    enum virtiofs_code code = VIRTIOFS_OK;
    struct virtiofs_spec spec;
    size_t i;
    memset(fault, 0, sizeof *fault);
    for (i = 0; i < count && code == VIRTIOFS_OK; i++)
        code = virtiofs_spec_read(texts[i].at, texts[i].len, specs ? &specs[i] : &spec,
                                  fault, quoted, quoted_room);
    if (code == VIRTIOFS_REFUSED) {
        fault->part = VIRTIOFS_SPECIFICATION;
        fault->place = i - 1;
    }
    return code;
}

/* Internal, for the two functions below. Unlike the exported symbol, it takes texts with `at` NULL
   and `len` 0. Such a text is no specification, so no map is made. */
static inline enum virtiofs_code virtiofs_ids_make_texts(const struct virtiofs_text *texts,
                                                         size_t count, uint32_t *words,
                                                         size_t room, size_t *wanted,
                                                         struct virtiofs_fault *fault,
                                                         void *quoted, size_t quoted_room)
{
    size_t i;
    for (i = 0; i < count && (texts[i].at || texts[i].len); i++) { }
    *wanted = 0;
    if (i < count && room)
        *words = 0;
    if (i < count)
        return virtiofs_specs_read(texts, count, NULL, fault, quoted, quoted_room);
    return VIRTIOFS_CODE_OF(virtiofs_map_ids_make_texts(
        VIRTIOFS_SLICE(const struct virtiofs_text, texts, count),
        VIRTIOFS_SLICE(uint32_t, words, room), wanted, fault, VIRTIOFS_ROOM(quoted, quoted_room)));
}

/* Makes a map from an array of texts, each of which is a specification. It has the codes
   and the faults of virtiofs_uids_make, and also the faults of virtiofs_spec_read. All texts
   are read first, so a fault of virtiofs_spec_read is reported first: UTF8, PREFIX, LENGTH or
   VALUE, with the index of the first text that is no specification. For PREFIX and VALUE the
   part that is wrong is quoted in `quoted`. */
VIRTIOFS_CHECKED((5, 6))
static inline enum virtiofs_code virtiofs_uids_make_texts(const struct virtiofs_text *texts,
                                                          size_t count, uint32_t *words,
                                                          size_t room, size_t *wanted,
                                                          struct virtiofs_fault *fault,
                                                          void *quoted, size_t quoted_room)
{
    return virtiofs_ids_make_texts(texts, count, words, room, wanted, fault, quoted, quoted_room);
}

/* virtiofs_uids_make_texts for groups. */
VIRTIOFS_CHECKED((5, 6))
static inline enum virtiofs_code virtiofs_gids_make_texts(const struct virtiofs_text *texts,
                                                          size_t count, uint32_t *words,
                                                          size_t room, size_t *wanted,
                                                          struct virtiofs_fault *fault,
                                                          void *quoted, size_t quoted_room)
{
    return virtiofs_ids_make_texts(texts, count, words, room, wanted, fault, quoted, quoted_room);
}

/* Maps an id of the guest to the id of the host, and stores it in *host. An id that no
   specification covers keeps its number. OK; FORBIDDEN; NO_MAP. NO_ID: the id, or what it becomes,
   is 4294967295. That is no id to Linux: setresuid and chown read it as "leave unchanged", so that
   a file of the guest would belong to the daemon's own user. If the code is not OK, *host is
   unchanged. */
VIRTIOFS_CHECKED((3))
static inline enum virtiofs_code virtiofs_uids_to_host(struct virtiofs_uids map, uint32_t guest,
                                                       uint32_t *host)
{
    return VIRTIOFS_CODE_OF(virtiofs_map_ids_to_host(VIRTIOFS_WORDS(map), guest, host));
}

/* virtiofs_uids_to_host for groups. */
VIRTIOFS_CHECKED((3))
static inline enum virtiofs_code virtiofs_gids_to_host(struct virtiofs_gids map, uint32_t guest,
                                                       uint32_t *host)
{
    return VIRTIOFS_CODE_OF(virtiofs_map_ids_to_host(VIRTIOFS_WORDS(map), guest, host));
}

/* Maps an id of the host to the id of the guest, and stores it in *guest. OK; NO_MAP; NO_ID, as
   virtiofs_uids_to_host. (Numbers that no `make` wrote may give FORBIDDEN.) If the code is not OK,
   *guest is unchanged. */
VIRTIOFS_CHECKED((3))
static inline enum virtiofs_code virtiofs_uids_to_guest(struct virtiofs_uids map, uint32_t host,
                                                        uint32_t *guest)
{
    return VIRTIOFS_CODE_OF(virtiofs_map_ids_to_guest(VIRTIOFS_WORDS(map), host, guest));
}

/* virtiofs_uids_to_guest for groups. */
VIRTIOFS_CHECKED((3))
static inline enum virtiofs_code virtiofs_gids_to_guest(struct virtiofs_gids map, uint32_t host,
                                                        uint32_t *guest)
{
    return VIRTIOFS_CODE_OF(virtiofs_map_ids_to_guest(VIRTIOFS_WORDS(map), host, guest));
}

/* ---- audits of ids: questions about all ids ----
 *
 * Each audit is about all ids of the guest from 0 to 4294967294 that the
 * specifications do not forbid; 4294967295, which is no id to Linux, is left out. It takes the
 * array from which a map is made, of users or of groups; virtiofs_specs_read makes it from
 * texts. OK: *yes is the answer; if an id shows this answer, *found has the least such id.
 * REFUSED: no map can be made from the array, and *fault is its first fault, as
 * virtiofs_uids_make reports it. NO_MEMORY. If the code is not OK, *yes is the answer that
 * warns: true for virtiofs_ids_reaches, and false for the others. If no id is given, *found is
 * unchanged.
 *
 * With n specifications the time grows as n log n. For 100,000 specifications it is of the
 * order of a tenth of a second.
 */

/* Does each id come back: does what it becomes on the host become the same id again? If
   *yes is false, *found has the least id that does not come back, what it becomes on the
   host, and in `other` what that host id becomes in the guest. */
VIRTIOFS_CHECKED((3, 4, 5))
static inline enum virtiofs_code virtiofs_ids_comes_back(const struct virtiofs_spec *specs,
                                                        size_t count, bool *yes,
                                                        struct virtiofs_ids_found *found,
                                                        struct virtiofs_fault *fault)
{
    return VIRTIOFS_CODE_OF(virtiofs_map_ids_comes_back(
        VIRTIOFS_SPECS(specs, count), yes, found, fault));
}

/* Does each id have an id of the host of its own, so that no two ids become the same? If
   *yes is false, *found has the least id that shares its id of the host, that id of the
   host, and in `other` the least id with which it shares it. */
VIRTIOFS_CHECKED((3, 4, 5))
static inline enum virtiofs_code virtiofs_ids_is_alone(const struct virtiofs_spec *specs,
                                                    size_t count, bool *yes,
                                                    struct virtiofs_ids_found *found,
                                                    struct virtiofs_fault *fault)
{
    return VIRTIOFS_CODE_OF(virtiofs_map_ids_is_alone(
        VIRTIOFS_SPECS(specs, count), yes, found, fault));
}

/* Does some id become an id of the host from `first` to `last`, so that the guest can act
   as one of these? If *yes is true, *found has the least id that does, and what it becomes
   on the host; `other` is 0. If `last` is less than `first`, *yes is false. If the code is not OK,
   *yes is true. */
VIRTIOFS_CHECKED((5, 6, 7))
static inline enum virtiofs_code virtiofs_ids_reaches(const struct virtiofs_spec *specs,
                                                    size_t count, uint32_t first, uint32_t last,
                                                    bool *yes, struct virtiofs_ids_found *found,
                                                    struct virtiofs_fault *fault)
{
    return VIRTIOFS_CODE_OF(virtiofs_map_ids_reaches(
        VIRTIOFS_SPECS(specs, count), first, last, yes, found, fault));
}

/* Are two guests apart on the host, so that there is no id of the host that both reach? If
   *yes is false, *found has the least id of the first guest whose id of the host the second
   reaches too, that id of the host, and in `other` the least id of the second guest that
   becomes it. REFUSED: if `place` in *fault is less than `count`, it is the index in the first
   array. Otherwise the second array is at fault, at the index `place` - `count`. Both may be
   the same array. */
VIRTIOFS_CHECKED((5, 6, 7))
static inline enum virtiofs_code virtiofs_ids_apart(const struct virtiofs_spec *specs,
                                                    size_t count,
                                                    const struct virtiofs_spec *others,
                                                    size_t other_count, bool *yes,
                                                    struct virtiofs_ids_found *found,
                                                    struct virtiofs_fault *fault)
{
    return VIRTIOFS_CODE_OF(virtiofs_map_ids_apart(
        VIRTIOFS_SPECS(specs, count), VIRTIOFS_SPECS(others, other_count), yes, found, fault));
}

/* ---- ranges of a user namespace ---- */

/* Reads the text of one range, for the caller's own use: no other call takes a range. OK: *range
   is what it says. REFUSED: *range is unchanged, and *fault is UTF8 or one of the RANGE_... */
VIRTIOFS_CHECKED((3, 4))
static inline enum virtiofs_code virtiofs_range_read(const void *text, size_t text_len,
                                                     struct virtiofs_range *range,
                                                     struct virtiofs_fault *fault)
{
    return VIRTIOFS_CODE_OF(virtiofs_map_range_read(VIRTIOFS_BYTES(text, text_len), range, fault));
}

/* ---- maps of attribute names ----
 *
 * A name is bytes without a zero; the zero that ends it in C is not part of it
 * and not counted. It may be empty, and need not be UTF-8. In a list of names a zero
 * follows each name; the last one needs none, and empty names are ignored.
 *
 * A text of rules has rules of the form `:TYPE:SCOPE:KEY:PREPEND:`, and may end with one of
 * the form `:map:KEY:PREPEND:`. The SCOPE says which names a rule is for: `client` (names from
 * the guest), `server` (names from the host) or `all`. A rule fits a name from the guest that
 * starts with its KEY, and a name from the host that starts with its PREPEND. The first rule
 * that fits a name decides. The TYPE is `prefix` (the PREPEND is put before a name from the
 * guest, and taken off a name from the host), `ok`, `bad` or `unsupported`. The manual page
 * virtiofs_mapcheck(1) has the details, and what a `map` rule stands for. Rules follow one another
 * in one text, at once or after blanks: `:ok:all:a:: :map::b.:` has two. To join two texts of
 * rules, put one behind the other; a text that ends with a `map` rule comes last.
 */

/* The most bytes that a map of a text of `len` bytes takes. A buffer of that many bytes
   is always enough. The result is SIZE_MAX if no buffer can be that large. */
static inline size_t virtiofs_names_bound(size_t len) { return virtiofs_map_names_bound(len); }

/* Makes a map from a text of rules, in the buffer `bytes` of `room` bytes. OK: the first
   *wanted bytes are the map, and the others are unchanged. NO_ROOM: the map takes
   *wanted bytes. REFUSED: no map can be made from this text, *wanted is 0,
   and *fault is its first fault: SCOPE, TYPE, INCOMPLETE, MAP_RULE, NUL_KEY or NUL_PREPEND
   with the number of the rule, or UTF8 or NO_RULES without one. For SCOPE and TYPE the field
   that is wrong is quoted in `quoted`. NO_MEMORY: *wanted is 0. If the code is not OK, the
   first byte is 0, so that no map is there any more, and the others are unchanged. */
VIRTIOFS_CHECKED((5, 6))
static inline enum virtiofs_code virtiofs_names_make(const void *text, size_t text_len,
                                                     void *bytes, size_t room, size_t *wanted,
                                                     struct virtiofs_fault *fault, void *quoted,
                                                     size_t quoted_room)
{
    return VIRTIOFS_CODE_OF(virtiofs_map_names_make(
        VIRTIOFS_BYTES(text, text_len), VIRTIOFS_ROOM(bytes, room), wanted, fault,
        VIRTIOFS_ROOM(quoted, quoted_room)));
}

/* Finds the host's name for a name that the guest uses. OK: `out` has the host's name, which is
   the guest's name with a prepend before it. NO_ROOM: it does not fit. These two codes are
   returned only if a `prefix` or a `map` rule puts its prepend before the name, even an empty
   prepend. AS_IT_IS: the host has the same name; nothing is copied. DENIED; UNSUPPORTED;
   UNTERMINATED; NO_MAP.
   The name ends before its first zero, so `name_len` may count it. What follows that zero makes
   no difference, and is not copied; if the code is AS_IT_IS, it is no part of the host's name
   either, so hand on no more than a system call reads: the bytes before the first zero. */
VIRTIOFS_CHECKED((6))
static inline enum virtiofs_code virtiofs_name_to_host_bytes(struct virtiofs_names map,
                                                             const void *name, size_t name_len,
                                                             void *out, size_t room, size_t *len)
{
    return VIRTIOFS_CODE_OF(virtiofs_map_name_to_host_bytes(
        VIRTIOFS_NAMES(map), VIRTIOFS_BYTES(name, name_len), VIRTIOFS_ROOM(out, room), len));
}

/* The bytes that a name takes on Linux, at most, with the zero that ends it. */
enum { VIRTIOFS_NAME_ROOM = 256 };

/* Finds the host's name for a name that the guest uses, as a C string, also if it is the same.
   OK: `host` has it. TOO_LONG: it has more than 255 bytes. DENIED; UNSUPPORTED; UNTERMINATED;
   NO_MAP. If the code is not OK, `host` is the empty string. */
VIRTIOFS_CHECKED((2, 3))
static inline enum virtiofs_code virtiofs_name_to_host(struct virtiofs_names map, const char *name,
                                                       char host[VIRTIOFS_NAME_ROOM])
{
    const size_t name_len = strlen(name);
    size_t len = 0;
    enum virtiofs_code code =
        virtiofs_name_to_host_bytes(map, name, name_len, host, VIRTIOFS_NAME_ROOM - 1, &len);
    if (code == VIRTIOFS_AS_IT_IS) {
        code = name_len < VIRTIOFS_NAME_ROOM ? VIRTIOFS_OK : VIRTIOFS_TOO_LONG;
        len = name_len;
        if (code == VIRTIOFS_OK)
            memcpy(host, name, len);
    } else if (code == VIRTIOFS_NO_ROOM) {
        code = VIRTIOFS_TOO_LONG;
    }
    host[code == VIRTIOFS_OK ? len : 0] = 0;
    return code;
}

/* Finds the guest's name for a name of the host, as a C string. OK: `guest` has it. HIDDEN: the
   guest does not see the name, or would see it as the empty name, which is none. UNTERMINATED.
   TOO_LONG: more than 255 bytes. NO_MAP. If the code is not OK, `guest` is the empty string. */
VIRTIOFS_CHECKED((2, 3))
static inline enum virtiofs_code virtiofs_name_to_guest(struct virtiofs_names map, const char *name,
                                                        char guest[VIRTIOFS_NAME_ROOM])
{
    size_t len = 0;
    enum virtiofs_code code = VIRTIOFS_CODE_OF(virtiofs_map_name_to_guest(
        VIRTIOFS_NAMES(map), VIRTIOFS_BYTES(name, strlen(name)),
        VIRTIOFS_ROOM(guest, VIRTIOFS_NAME_ROOM - 1), &len));
    guest[code == VIRTIOFS_OK ? len : 0] = 0;
    return code == VIRTIOFS_NO_ROOM ? VIRTIOFS_TOO_LONG : code;
}

/* Makes the list that a daemon hands on to its guest for the host's list of names: each name for
   which virtiofs_name_to_guest has one, with a zero after it. (In a list with an empty name Linux
   answers EIO.) OK: the list is in `out`, and *len is 0 if no name is left. It is at most one byte
   longer than the host's list. NO_ROOM; so `room` 0 tells the length, as listxattr with a size of 0
   asks for it. UNTERMINATED: no rule decides one of the names, and there is no list, however long
   `out` is. NO_MAP. If the code is not OK, `out` may contain anything. */
VIRTIOFS_CHECKED((6))
static inline enum virtiofs_code virtiofs_list_to_guest(struct virtiofs_names map, const void *list,
                                                        size_t list_len, void *out, size_t room,
                                                        size_t *len)
{
    return VIRTIOFS_CODE_OF(virtiofs_map_list_to_guest(
        VIRTIOFS_NAMES(map), VIRTIOFS_BYTES(list, list_len), VIRTIOFS_ROOM(out, room), len));
}

/* ---- a daemon's start ---- */

/* Strings, as in the `argv` of a main. */
#ifdef __cplusplus
typedef const char *const *virtiofs_strings;
#else
typedef char *const *virtiofs_strings;
#endif

/* The values of a daemon's options, as C strings. */
struct virtiofs_options {
    virtiofs_strings users;  /* the specifications of users; where `user_count` is 0, none */
    size_t user_count;
    virtiofs_strings groups; /* those of groups */
    size_t group_count;
    const char *rules;       /* the rules for names; NULL: each name passes as it is */
};

/* The maps of a share. Free `memory`, which all three stand in, once nobody asks them any more. */
struct virtiofs_maps {
    struct virtiofs_uids users;
    struct virtiofs_gids groups;
    struct virtiofs_names names;
    void *memory;
};

/* Which option is at fault. */
enum virtiofs_option {
    VIRTIOFS_NO_OPTION = 0, /* none: memory ran out */
    VIRTIOFS_USERS = 1,
    VIRTIOFS_GROUPS = 2,
    VIRTIOFS_RULES = 3
};

/* Why there are no maps. */
struct virtiofs_refusal {
    enum virtiofs_option option;
    size_t index;                          /* which value of that option, from 0 */
    char sentence[VIRTIOFS_SENTENCE_ROOM]; /* for a person: it counts from 1 */
};

/* Makes all maps of a share from the values of options. OK: *maps has them. REFUSED: an option is
   at fault, as virtiofs_uids_make_texts and virtiofs_names_make find it. NO_MEMORY. *refusal says
   of each code what it is; if the code is not OK, no memory is kept, and all of *maps is 0. With OK
   rules may still leave names undecided: virtiofs_names_is_terminated says whether they do. */
VIRTIOFS_CHECKED((1, 2, 3))
static inline enum virtiofs_code virtiofs_maps_make(const struct virtiofs_options *options,
                                                    struct virtiofs_maps *maps,
                                                    struct virtiofs_refusal *refusal)
{
    const char *rules = options->rules ? options->rules : ":ok:all:::";
    const size_t users = options->user_count, groups = options->group_count, len = strlen(rules);
    const size_t user_room = virtiofs_uids_bound(users), group_room = virtiofs_gids_bound(groups);
    const size_t words = sizeof(uint32_t) * (user_room + group_room);
    const size_t name_room = virtiofs_names_bound(len);
    uint32_t *memory = (uint32_t *)malloc(words + name_room);
    struct virtiofs_text *texts =
        (struct virtiofs_text *)malloc((users + groups + 1) * sizeof(struct virtiofs_text));
    enum virtiofs_code code = VIRTIOFS_NO_MEMORY;
    struct virtiofs_fault fault;
    char quoted[VIRTIOFS_SENTENCE_ROOM / 2];
    size_t i;
    memset(maps, 0, sizeof *maps);
    memset(&fault, 0, sizeof fault);
    refusal->option = VIRTIOFS_NO_OPTION;
    if (memory && texts) {
        for (i = 0; i < users + groups; i++) {
            texts[i].at = i < users ? options->users[i] : options->groups[i - users];
            texts[i].len = strlen((const char *)texts[i].at);
        }
        maps->memory = memory;
        maps->users.words = memory;
        maps->groups.words = memory + user_room;
        maps->names.bytes = memory + user_room + group_room;
        refusal->option = VIRTIOFS_USERS;
        code = virtiofs_uids_make_texts(texts, users, memory, user_room, &maps->users.count,
                                        &fault, quoted, sizeof quoted);
        if (code == VIRTIOFS_OK) {
            refusal->option = VIRTIOFS_GROUPS;
            code = virtiofs_gids_make_texts(texts + users, groups, memory + user_room, group_room,
                                            &maps->groups.count, &fault, quoted, sizeof quoted);
        }
        if (code == VIRTIOFS_OK) {
            refusal->option = VIRTIOFS_RULES;
            code = virtiofs_names_make(rules, len, memory + user_room + group_room, name_room,
                                       &maps->names.len, &fault, quoted, sizeof quoted);
        }
    }
    free(texts);
    if (code != VIRTIOFS_OK) {
        free(memory);
        memset(maps, 0, sizeof *maps);
    }
    if (code != VIRTIOFS_REFUSED)
        refusal->option = VIRTIOFS_NO_OPTION;
    refusal->index = refusal->option == VIRTIOFS_RULES ? 0 : fault.place;
    virtiofs_sentence(code, &fault, quoted, sizeof quoted, refusal->sentence);
    return code;
}

/* ---- audits of names: questions about all names ----
 *
 * Each audit is about every name there is, of any length. The least name is the first
 * in the order of bytes; the beginning of a name comes before the name. OK: *yes says
 * whether the answer is yes for all names. If the code is not OK, *yes is false.
 *
 * A name of the guest leads to a name of the host if the first rule that fits it lets it
 * through (the code of virtiofs_name_to_host_bytes is OK or AS_IT_IS) and makes it that name. A
 * guest reaches a name of the host if some name, perhaps the empty one, leads to it. A name
 * of the host is hidden if the first rule that fits it is `bad` or `unsupported`, or is a
 * `map` rule that does not list it.
 *
 * The time of `.._audit`, `.._audit_listed`, `.._keeps_apart` and `.._shares_no_name` grows with
 * the number of rules, for some rules with its square, and that of `.._shares_no_name` also with
 * the length of the prepends: where keys begin with one another, and prepends too, 400 rules may
 * take minutes. So call these when a map is made, and not while a guest waits.
 */

/* Does every name of the guest, and every name in a list of the host, have a rule? If so,
   lookups in this map never return UNTERMINATED. OK; NO_MAP. */
VIRTIOFS_CHECKED((2))
static inline enum virtiofs_code virtiofs_names_is_terminated(struct virtiofs_names map, bool *yes)
{
    return VIRTIOFS_CODE_OF(virtiofs_map_names_is_terminated(VIRTIOFS_NAMES(map), yes));
}

/* Take each non-empty name of the guest that leads to a name of the host. If the host then
   lists that name, does the guest see the name that it used? OK: if *yes is false, `out` has
   the least name of the guest for which it does not. NO_ROOM: there is such a name, and it
   does not fit. NO_MEMORY; NO_MAP. */
VIRTIOFS_CHECKED((2, 5))
static inline enum virtiofs_code virtiofs_names_audit(struct virtiofs_names map, bool *yes,
                                                      void *out, size_t room, size_t *len)
{
    return VIRTIOFS_CODE_OF(virtiofs_map_names_audit(
        VIRTIOFS_NAMES(map), yes, VIRTIOFS_ROOM(out, room), len));
}

/* Take each non-empty name of the host that the guest sees in a list under some name. Does
   that name, used by the guest, lead to the same name of the host? OK: if *yes is false, `out`
   has the least name of the host for which it does not. NO_ROOM; NO_MEMORY; NO_MAP. */
VIRTIOFS_CHECKED((2, 5))
static inline enum virtiofs_code virtiofs_names_audit_listed(struct virtiofs_names map, bool *yes,
                                                             void *out, size_t room, size_t *len)
{
    return VIRTIOFS_CODE_OF(virtiofs_map_names_audit_listed(
        VIRTIOFS_NAMES(map), yes, VIRTIOFS_ROOM(out, room), len));
}

/* Does the second map hide every non-empty name of the host that the first guest reaches? If
   so, these names make no difference to the lists of the second guest. OK: if *yes is false,
   `out` has the least name of the first guest that leads to a non-empty name of the host which
   the second map does not hide. NO_ROOM; NO_MEMORY. NO_MAP: one of the two is no map. Both may
   be the same map. */
VIRTIOFS_CHECKED((3, 6))
static inline enum virtiofs_code virtiofs_names_keeps_apart(struct virtiofs_names first,
                                                      struct virtiofs_names second, bool *yes,
                                                      void *out, size_t room, size_t *len)
{
    return VIRTIOFS_CODE_OF(virtiofs_map_names_keeps_apart(
        VIRTIOFS_NAMES(first), VIRTIOFS_NAMES(second), yes, VIRTIOFS_ROOM(out, room), len));
}

/* Is there no non-empty name of the host that both guests reach? virtiofs_names_keeps_apart is
   about what lists show, and this call is about which attributes of the host a guest can open by
   name: neither answer follows from the other. OK: if *yes is false, `out` has the least name of
   the first guest that leads to a non-empty name of the host which the second guest reaches too.
   NO_ROOM; NO_MEMORY. NO_MAP: one of the two is no map. Both may be the same map. */
VIRTIOFS_CHECKED((3, 6))
static inline enum virtiofs_code virtiofs_names_shares_no_name(struct virtiofs_names first,
                                                           struct virtiofs_names second, bool *yes,
                                                           void *out, size_t room, size_t *len)
{
    return VIRTIOFS_CODE_OF(virtiofs_map_names_shares_no_name(
        VIRTIOFS_NAMES(first), VIRTIOFS_NAMES(second), yes, VIRTIOFS_ROOM(out, room), len));
}

/* ---- ids inside values ----
 *
 * The values of three attributes contain ids. A daemon that maps ids has to map these too, or
 * a right that the guest gives to its user 1000 goes to the host's user 1000. Except for the
 * calls `.._in_revision_3`, each call changes the ids in place and no other byte, and a value
 * keeps its length. The whole value is tested first: if the code is not OK, no byte of it has
 * changed, and *fault has the first fault (no fault if the code is NO_MAP). No call allocates.
 */

/* Which ids the values of an attribute contain: one of enum virtiofs_value_kind. `name` is the
   attribute's name on the host, so map the name first. `system.posix_acl_access` and
   `system.posix_acl_default` have access control lists, `security.capability` has capabilities,
   and no other has any. The name ends before its first zero, so `name_len` may count it. */
static inline enum virtiofs_value_kind virtiofs_carries_ids(const void *name, size_t name_len)
{
    return (enum virtiofs_value_kind)virtiofs_map_carries_ids(VIRTIOFS_BYTES(name, name_len));
}

/* Converts an access control list of the guest, in place, into one for the host: each id of a
   user (tag 2) is mapped by `users`, and each id of a group (tag 8) by `groups`. `entries` has
   `room` elements, and the call needs one for each entry of the value: len / 8 is enough. OK.
   REFUSED: SHORT, VERSION or SIZE; or TAG or PERMISSION with the index of the entry. NO_ROOM: ROOM
   (`expected` entries). NO_ID: the id of the entry, or what it becomes, is 4294967295. FORBIDDEN:
   a specification forbids the id of the entry. MERGES: an earlier entry with the same tag has
   another id, and both would become the same id. NO_MAP: `users` or `groups` is no map. */
VIRTIOFS_CHECKED((7))
static inline enum virtiofs_code virtiofs_acl_to_host(struct virtiofs_uids users,
                                                      struct virtiofs_gids groups, void *value,
                                                      size_t len,
                                                      struct virtiofs_entry_room *entries,
                                                      size_t room, struct virtiofs_fault *fault)
{
    return VIRTIOFS_CODE_OF(virtiofs_map_acl_to_host(
        VIRTIOFS_WORDS(users), VIRTIOFS_WORDS(groups), VIRTIOFS_ROOM(value, len),
        VIRTIOFS_SLICE(struct virtiofs_entry_room, entries, room), fault));
}

/* Converts an access control list of the host, in place, into one for the guest. It has the
   codes of virtiofs_acl_to_host. */
VIRTIOFS_CHECKED((7))
static inline enum virtiofs_code virtiofs_acl_to_guest(struct virtiofs_uids users,
                                                       struct virtiofs_gids groups, void *value,
                                                       size_t len,
                                                       struct virtiofs_entry_room *entries,
                                                       size_t room, struct virtiofs_fault *fault)
{
    return VIRTIOFS_CODE_OF(virtiofs_map_acl_to_guest(
        VIRTIOFS_WORDS(users), VIRTIOFS_WORDS(groups), VIRTIOFS_ROOM(value, len),
        VIRTIOFS_SLICE(struct virtiofs_entry_room, entries, room), fault));
}

/* Converts a capability of the guest, in place, into one for the host: the id of root, which is
   the last word of revision 3, is mapped by `users`. Revisions 1 and 2 have no such word; the id
   of root counts as 0, and the value is accepted unchanged if 0 is mapped to 0. OK. REFUSED:
   SHORT, VERSION or SIZE. NO_ID: the id of root is 4294967295, or becomes it. FORBIDDEN: a
   specification forbids it. ROOT_MOVES: the revision is 1 or 2, and 0 is mapped to another id;
   then virtiofs_capability_to_host_in_revision_3 can write the value. NO_MAP. */
VIRTIOFS_CHECKED((4))
static inline enum virtiofs_code virtiofs_capability_to_host(struct virtiofs_uids users,
                                                             void *value, size_t len,
                                                             struct virtiofs_fault *fault)
{
    return VIRTIOFS_CODE_OF(virtiofs_map_capability_to_host(
        VIRTIOFS_WORDS(users), VIRTIOFS_ROOM(value, len), fault));
}

/* Converts a capability of the host, in place, into one for the guest. It has the codes of
   virtiofs_capability_to_host. */
VIRTIOFS_CHECKED((4))
static inline enum virtiofs_code virtiofs_capability_to_guest(struct virtiofs_uids users,
                                                              void *value, size_t len,
                                                              struct virtiofs_fault *fault)
{
    return VIRTIOFS_CODE_OF(virtiofs_map_capability_to_guest(
        VIRTIOFS_WORDS(users), VIRTIOFS_ROOM(value, len), fault));
}

/* Reads a capability of the guest, of any revision, and writes the same for the host in
   revision 3, to the 24 bytes of `written`: with the same flags and sets, and with what the id
   of root is mapped to. OK. REFUSED; NO_ID; FORBIDDEN; NO_MAP, as
   virtiofs_capability_to_host has them. If the code is not OK, `written` is unchanged. `value` is never changed. */
VIRTIOFS_CHECKED((4, 5))
static inline enum virtiofs_code virtiofs_capability_to_host_in_revision_3(
    struct virtiofs_uids users, const void *value, size_t len, void *written,
    struct virtiofs_fault *fault)
{
    return VIRTIOFS_CODE_OF(virtiofs_map_capability_to_host_in_revision_3(
        VIRTIOFS_WORDS(users), VIRTIOFS_BYTES(value, len), (uint8_t *)written, fault));
}

/* Reads a capability of the host, of any revision, and writes the same for the guest in
   revision 3. It has the codes of virtiofs_capability_to_host_in_revision_3. */
VIRTIOFS_CHECKED((4, 5))
static inline enum virtiofs_code virtiofs_capability_to_guest_in_revision_3(
    struct virtiofs_uids users, const void *value, size_t len, void *written,
    struct virtiofs_fault *fault)
{
    return VIRTIOFS_CODE_OF(virtiofs_map_capability_to_guest_in_revision_3(
        VIRTIOFS_WORDS(users), VIRTIOFS_BYTES(value, len), (uint8_t *)written, fault));
}

#ifdef __cplusplus
}
#endif

#endif
