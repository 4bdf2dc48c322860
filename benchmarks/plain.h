/* The seven calls again, written plainly in C: what a careful programmer would take instead of the library, with the same questions. */
#ifndef PLAIN_H
#define PLAIN_H

#include <stddef.h>
#include <stdint.h>

void plain_prepare(void);
uint32_t plain_count(uint64_t kind, uint64_t n, uint64_t k, uint64_t floor, uint64_t edition, const uint8_t *counts, size_t counts_len, uint64_t *value);
uint32_t plain_next(uint64_t kind, uint64_t n, uint64_t k, uint64_t floor, uint64_t edition, const uint8_t *counts, size_t counts_len, uint8_t *object, size_t object_len);
uint32_t plain_previous(uint64_t kind, uint64_t n, uint64_t k, uint64_t floor, uint64_t edition, const uint8_t *counts, size_t counts_len, uint8_t *object, size_t object_len);
uint32_t plain_rank(uint64_t kind, uint64_t n, uint64_t k, uint64_t floor, uint64_t edition, const uint8_t *counts, size_t counts_len, const uint8_t *object, size_t object_len, uint64_t *value);
uint32_t plain_unrank(uint64_t kind, uint64_t n, uint64_t k, uint64_t floor, uint64_t edition, const uint8_t *counts, size_t counts_len, uint64_t rank, uint8_t *object, size_t object_len);

#endif
