// C++'s next_permutation, and GSL's steps where the library is installed (WITH_GSL).
#include "others.h"
#include <algorithm>
#include <cstring>

uint32_t cpp_next(uint8_t *object, size_t len) {
    return std::next_permutation(object, object + len) ? 0 : 100;
}

uint32_t cpp_previous(uint8_t *object, size_t len) {
    return std::prev_permutation(object, object + len) ? 0 : 100;
}

#ifdef WITH_GSL
#include <gsl/gsl_combination.h>
#include <gsl/gsl_permutation.h>

static size_t pool[256][80];
static size_t data[80];
static gsl_combination subset = {0, 0, data};
static gsl_permutation order = {0, data};

// GSL counts from 0.
void gsl_take(int i, const uint8_t *object, size_t len) {
    for (size_t j = 0; j < len; j++) pool[i][j] = object[j] - 1u;
}

uint32_t gsl_step(int kind, int on, int i, size_t n, size_t len) {
    memcpy(data, pool[i], len * sizeof *data);
    if (kind == 1) {
        subset.n = n;
        subset.k = len;
        if (gsl_combination_valid(&subset) != GSL_SUCCESS) return 7;
        return (on ? gsl_combination_next(&subset) : gsl_combination_prev(&subset)) == GSL_SUCCESS ? 0 : 100;
    }
    order.size = len;
    if (gsl_permutation_valid(&order) != GSL_SUCCESS) return 7;
    return (on ? gsl_permutation_next(&order) : gsl_permutation_prev(&order)) == GSL_SUCCESS ? 0 : 100;
}
#else
void gsl_take(int, const uint8_t *, size_t) {}

uint32_t gsl_step(int, int, int, size_t, size_t) {
    return 0;
}
#endif
