/*
 * Decisions about all ids: what each answers, and arrays that are refused. Arrays and answers end where nobody may read
 * or write.
 */
#include "see.h"

enum decision { COME_BACK, ALONE, REACH, APART };

struct list { struct virtiofs_spec specs[2]; size_t count; };

/* An array, of APART the second one, of REACH the first and the last id; the answer, and the ids that show it. */
static const struct row {
    enum decision decision;
    struct list list, other;
    uint32_t first, last;
    bool yes, is_there;
    struct virtiofs_ids_found found;
} rows[] = {
#define NOTHING { .count = 0 }
#define RANGE { { { VIRTIOFS_MAP, 0, 100000, 65536 } }, 1 }
#define ALL_OF_IT { { { VIRTIOFS_MAP, 0, 100000, 65536 }, { VIRTIOFS_FORBID_GUEST, 65536, 0, 4294901759u } }, 2 }
#define NEXT_RANGE { { { VIRTIOFS_MAP, 0, 165536, 65536 }, { VIRTIOFS_FORBID_GUEST, 65536, 0, 4294901759u } }, 2 }
    { COME_BACK, NOTHING, NOTHING, 0, 0, true, false, { 0, 0, 0 } },
    { COME_BACK, RANGE, NOTHING, 0, 0, false, true, { 100000, 100000, 0 } },
    { COME_BACK, { { { VIRTIOFS_SQUASH_GUEST, 5, 5, 2 } }, 1 }, NOTHING, 0, 0, false, true, { 6, 5, 5 } },
    { ALONE, NOTHING, NOTHING, 0, 0, true, false, { 0, 0, 0 } },
    { ALONE, ALL_OF_IT, NOTHING, 0, 0, true, false, { 0, 0, 0 } },
    { ALONE, { { { VIRTIOFS_GUEST, 9, 5, 1 } }, 1 }, NOTHING, 0, 0, false, true, { 5, 5, 9 } },
    { REACH, NOTHING, NOTHING, 5, 4, false, false, { 0, 0, 0 } },
    { REACH, RANGE, NOTHING, 165535, 165536, true, true, { 65535, 165535, 0 } },
    { APART, ALL_OF_IT, NEXT_RANGE, 0, 0, true, false, { 0, 0, 0 } },
    { APART, RANGE, NEXT_RANGE, 0, 0, false, true, { 165536, 165536, 0 } },
    { APART, NEXT_RANGE, RANGE, 0, 0, false, true, { 0, 165536, 165536 } },
    { APART, NOTHING, NOTHING, 0, 0, false, true, { 0, 0, 0 } },
};

/* Arrays of which no map is made, and the fault. */
static const struct refused_row { struct list list; struct virtiofs_fault fault; } refused_rows[] = {
#define FAULT(name, ...) { .kind = VIRTIOFS_FAULT_##name, .part = VIRTIOFS_SPECIFICATION, __VA_ARGS__ }
    { { { { VIRTIOFS_MAP, 0, 10, 5 }, { 6, 1, 2, 3 } }, 2 }, FAULT(KIND, .place = 1) },
    { { { { VIRTIOFS_HOST, 4294967294u, 0, 2 } }, 1 },
      FAULT(OVERFLOW, .direction = VIRTIOFS_HOST_TO_GUEST, .spec = { VIRTIOFS_HOST, 4294967294u, 0, 2 }) },
    { { { { VIRTIOFS_GUEST, 0, 100, 10 }, { VIRTIOFS_FORBID_GUEST, 9, 7, 1 } }, 2 },
      FAULT(INTERSECTS, .place = 1, .spec = { VIRTIOFS_FORBID_GUEST, 9, 0, 1 }) },
};

/* Where pages end: the two arrays, and what is written to. */
static uint8_t *firsts, *seconds, *answers, *founds, *faults;

static uint32_t ask(enum decision decision, const struct list *list, const struct list *other, uint32_t first,
                    uint32_t last)
{
    const struct virtiofs_spec *specs = handed(firsts, list->specs, list->count * sizeof *list->specs);
    const struct virtiofs_spec *others = handed(seconds, other->specs, other->count * sizeof *other->specs);
    bool *yes = lent(answers, sizeof *yes);
    struct virtiofs_ids_found *found = lent(founds, sizeof *found);
    struct virtiofs_fault *fault = lent(faults, sizeof *fault);
    switch (decision) {
    case COME_BACK: return virtiofs_ids_comes_back(specs, list->count, yes, found, fault);
    case ALONE: return virtiofs_ids_is_alone(specs, list->count, yes, found, fault);
    case REACH: return virtiofs_ids_reaches(specs, list->count, first, last, yes, found, fault);
    default: return virtiofs_ids_apart(specs, list->count, others, other->count, yes, found, fault);
    }
}

/* Whether this and nothing else was written by the last call. */
static int is_told(bool yes, const struct virtiofs_ids_found *wanted, struct virtiofs_fault fault)
{
    const struct virtiofs_ids_found *found = (const void *)(founds - sizeof *found);
    return answers[-1] == yes && is_kept(answers, 1, 1) && is_kept(faults, sizeof fault, sizeof fault)
           && is_kept(founds, sizeof *found, wanted ? sizeof *found : 0)
           && is_fault(*(const struct virtiofs_fault *)(const void *)(faults - sizeof fault), fault)
           && (!wanted || (found->guest == wanted->guest && found->host == wanted->host
                           && found->other == wanted->other));
}

/* The answer is then the one that warns. */
static void see_refused(const struct refused_row *row, enum decision decision)
{
    static const struct list nothing, all_of_it = ALL_OF_IT;
    struct virtiofs_fault behind = row->fault;
    SEE(ask(decision, &row->list, &row->list, 0, 9) == VIRTIOFS_REFUSED);
    SEE(is_told(decision == REACH, NULL, row->fault));
    if (decision != APART)
        return;
    SEE(ask(APART, &nothing, &row->list, 0, 0) == VIRTIOFS_REFUSED && is_told(false, NULL, row->fault));
    behind.place += all_of_it.count;
    SEE(ask(APART, &all_of_it, &row->list, 0, 0) == VIRTIOFS_REFUSED && is_told(false, NULL, behind));
}

int main(void)
{
    firsts = guarded(1);
    seconds = guarded(1);
    answers = guarded(1);
    founds = guarded(1);
    faults = guarded(1);
    for (size_t i = 0; i < COUNT(rows); i++) {
        const struct row *row = &rows[i];
        SEE(ask(row->decision, &row->list, &row->other, row->first, row->last) == VIRTIOFS_OK);
        SEE(is_told(row->yes, row->is_there ? &row->found : NULL, no_fault) || !printf("row %zu\n", i));
    }
    for (size_t i = 0; i < COUNT(refused_rows); i++)
        for (enum decision decision = COME_BACK; decision <= APART; decision++)
            see_refused(&refused_rows[i], decision);
    return counted();
}
