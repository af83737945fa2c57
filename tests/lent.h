/* Memory that is lent to a call: slices of doubles or of uint64_t, each with a border before and
 * behind it. After a call the borders and what was lent for reading must be as they were. */
#ifndef LENT_H
#define LENT_H

#include <stdint.h>
#include <stdio.h>
#include <stdlib.h>
#include <string.h>

/* What an output holds before a call: no NaN, and no number that a case computes. */
#define FILLING UINT64_C(0x5a5a5a5a5a5a5a5a)
/* What a border holds: a NaN, so that a read past an end shows in the answer. */
#define AROUND UINT64_C(0x7ff4dead0000beef)

enum { BORDER = 4, MOST_LENT = 128 };
enum role { OUTPUT, INPUT, BOTH };

typedef struct {
    const char *name;
    enum role role;
    size_t length;
    /* border, slice, border; then the slice as it was before the call */
    unsigned char *block;
} lent;

static lent all_lent[MOST_LENT];
static size_t lent_count;

static uint64_t word_at(const lent *l, size_t index) {
    uint64_t bits;
    memcpy(&bits, l->block + 8 * index, 8);
    return bits;
}

static uint64_t entry(const lent *l, size_t i) {
    return word_at(l, BORDER + i);
}

static uint64_t entry_before(const lent *l, size_t i) {
    return word_at(l, 2 * BORDER + l->length + i);
}

static void set_entry(const lent *l, size_t i, uint64_t bits) {
    memcpy(l->block + 8 * (BORDER + i), &bits, 8);
    memcpy(l->block + 8 * (2 * BORDER + l->length + i), &bits, 8);
}

/* A slice of so many entries, filled. An empty one has a pointer too. */
static lent *lend(const char *name, enum role role, size_t length) {
    lent *l = &all_lent[lent_count++];
    uint64_t around = AROUND;
    if (lent_count > MOST_LENT) abort();
    *l = (lent){name, role, length, malloc(8 * (2 * BORDER + 2 * length))};
    if (l->block == NULL) abort();
    for (size_t i = 0; i < length + 2 * BORDER; i++) memcpy(l->block + 8 * i, &around, 8);
    for (size_t i = 0; i < length; i++) set_entry(l, i, FILLING);
    return l;
}

static double *doubles(const lent *l) {
    return (double *)(void *)(l->block + 8 * BORDER);
}

static uint64_t *words(const lent *l) {
    return (uint64_t *)(void *)(l->block + 8 * BORDER);
}

/* What was written and must not be, or NULL. */
static const char *memory_fault(void) {
    static char fault[80];
    for (const lent *l = all_lent; l < all_lent + lent_count; l++) {
        const char *what = NULL;
        for (size_t i = 0; i < BORDER; i++) {
            if (word_at(l, i) != AROUND) what = "before";
            if (word_at(l, BORDER + l->length + i) != AROUND) what = "behind";
        }
        for (size_t i = 0; l->role == INPUT && i < l->length; i++)
            if (entry(l, i) != entry_before(l, i)) what = "of the input";
        if (what == NULL) continue;
        snprintf(fault, sizeof fault, "memory %s %s was written", what, l->name);
        return fault;
    }
    return NULL;
}

static void end_all_lent(void) {
    while (lent_count > 0) free(all_lent[--lent_count].block);
}

#endif
