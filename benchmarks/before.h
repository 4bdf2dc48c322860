/* An earlier build of the library, where one is linked with its functions renamed to before_*, to be measured beside today's; else today's.
 * BEFORE_BY_NUMBERS: one whose calls took a family's numbers and its count list one by one. */
#ifndef BEFORE_H
#define BEFORE_H

#include "../include/arrangements.h"

#ifdef WITH_BEFORE
/* A family with the fields of that build: a struct by value of another size would be read wrongly. */
typedef struct {
    uint64_t kind, n, k, floor, edition;
} before_family;

static inline before_family before_family_of(arrangement_family f) {
    before_family g = {f.kind, f.n, f.k, f.floor, f.edition};
    return g;
}

/* Can it be asked about this family? It has kinds 1 to 7. */
static inline int before_answers(arrangement_family f) {
    return f.kind <= 7;
}
#else
typedef arrangement_family before_family;

static inline before_family before_family_of(arrangement_family f) {
    return f;
}

static inline int before_answers(arrangement_family f) {
    (void)f;
    return 0;
}
#endif

#if defined(WITH_BEFORE) && defined(BEFORE_BY_NUMBERS)
uint32_t before_count(uint64_t kind, uint64_t n, uint64_t k, const uint8_t *counts, size_t letters, uint64_t *value);
uint32_t before_next(uint64_t kind, uint64_t n, uint64_t k, const uint8_t *counts, size_t letters, uint8_t *object, size_t len);
uint32_t before_previous(uint64_t kind, uint64_t n, uint64_t k, const uint8_t *counts, size_t letters, uint8_t *object, size_t len);
uint32_t before_rank(uint64_t kind, uint64_t n, uint64_t k, const uint8_t *counts, size_t letters, const uint8_t *object, size_t len, uint64_t *value);
uint32_t before_unrank(uint64_t kind, uint64_t n, uint64_t k, const uint8_t *counts, size_t letters, uint64_t rank, uint8_t *object, size_t len);
#define BY_NUMBERS(f, lists) (f).kind, (f).n, (f).k, (lists)->counts.bytes, (lists)->counts.length
#define earlier_count(f, lists, value) before_count(BY_NUMBERS(f, lists), value)
#define earlier_next(f, lists, object, len) before_next(BY_NUMBERS(f, lists), object, len)
#define earlier_previous(f, lists, object, len) before_previous(BY_NUMBERS(f, lists), object, len)
#define earlier_rank(f, lists, object, len, value) before_rank(BY_NUMBERS(f, lists), object, len, value)
#define earlier_unrank(rank, f, lists, object, len) before_unrank(BY_NUMBERS(f, lists), rank, object, len)
#elif defined(WITH_BEFORE)
uint32_t before_count(before_family f, const arrangement_lists *lists, uint64_t *value);
uint32_t before_next(before_family f, const arrangement_lists *lists, uint8_t *object, size_t len);
uint32_t before_previous(before_family f, const arrangement_lists *lists, uint8_t *object, size_t len);
uint32_t before_rank(before_family f, const arrangement_lists *lists, const uint8_t *object, size_t len, uint64_t *value);
uint32_t before_unrank(uint64_t rank, before_family f, const arrangement_lists *lists, uint8_t *object, size_t len);
#define earlier_count before_count
#define earlier_next before_next
#define earlier_previous before_previous
#define earlier_rank before_rank
#define earlier_unrank before_unrank
#else
#define earlier_count arrangement_count
#define earlier_next arrangement_next
#define earlier_previous arrangement_previous
#define earlier_rank arrangement_rank
#define earlier_unrank arrangement_unrank
#endif

#endif
