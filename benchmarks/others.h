/* What a user would pick instead, with its own validity check where it has one. */
#ifndef OTHERS_H
#define OTHERS_H

#include <stddef.h>
#include <stdint.h>

#ifdef __cplusplus
extern "C" {
#endif

/* C++'s next_permutation and prev_permutation on a byte string; 0, or 100 where it wrapped. */
uint32_t cpp_next(uint8_t *object, size_t len);
uint32_t cpp_previous(uint8_t *object, size_t len);

/* GSL: object i of the pool in GSL's own form; then a copy of it is checked and stepped. */
void gsl_take(int i, const uint8_t *object, size_t len);
uint32_t gsl_step(int kind, int on, int i, size_t n, size_t len);

#ifdef __cplusplus
}
#endif

#endif
