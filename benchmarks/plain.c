/* A plain implementation of COUNT, NEXT, PREVIOUS, RANK and UNRANK. Its tables are built at the start and read afterwards; nothing is proved. */
#include "plain.h"
#include <stdbool.h>
#include <string.h>

enum { PLACES = 80, BRANCHES = 40, FLOORS = 80, END = 100 };

/* 0 within the triangle stands for 2^64 or more. */
static uint64_t choose[PLACES + 1][PLACES + 1], blocks[PLACES + 1][PLACES + 1], parts[PLACES + 1][PLACES + 1];
static uint64_t factorials[PLACES + 1], catalans[BRANCHES + 1];

/* Derangements of 0, 1, .. up to the most below 2^64. */
static const uint64_t derangements[] = {1, 0, 1, 2, 9, 44, 265, 1854, 14833, 133496, 1334961, 14684570, 176214841, 2290792932, 32071101049, 481066515734,
    7697064251745, 130850092279664, 2355301661033953, 44750731559645106, 895014631192902121};

static uint64_t add(uint64_t a, uint64_t b) {
    uint64_t v;
    return a == 0 || b == 0 || __builtin_add_overflow(a, b, &v) ? 0 : v;
}

static uint64_t times(uint64_t a, uint64_t b) {
    uint64_t v;
    return a == 0 || b == 0 || __builtin_mul_overflow(a, b, &v) ? 0 : v;
}

void plain_prepare(void) {
    for (int n = 0; n <= PLACES; n++) {
        factorials[n] = n == 0 ? 1 : times((uint64_t)n, factorials[n - 1]);
        for (int k = 0; k <= n; k++) {
            choose[n][k] = k == 0 || k == n ? 1 : add(choose[n - 1][k - 1], choose[n - 1][k]);
            if (k == n || k == 1)
                blocks[n][k] = parts[n][k] = 1;
            else if (k > 1) {
                blocks[n][k] = add(blocks[n - 1][k - 1], times((uint64_t)k, blocks[n - 1][k]));
                parts[n][k] = parts[n - 1][k - 1] + (n - k >= k ? parts[n - k][k] : 0);
            }
        }
    }
    for (int n = 0; n <= BRANCHES; n++) {
        uint64_t sum = n == 0;
        for (int j = 0; j < n; j++) {
            uint64_t some = times(catalans[j], catalans[n - 1 - j]);
            sum = some == 0 || (j > 0 && sum == 0) ? 0 : sum + some < some ? 0 : sum + some;
        }
        catalans[n] = sum;
    }
}

/* Questions 1, 2, 10, 11 and 3, and the length of the objects. */
static uint32_t table(uint64_t kind, uint64_t n, uint64_t k, uint64_t floor, uint64_t edition, const uint8_t *counts, size_t counts_len, size_t *length) {
    uint64_t sum = 0;
    switch (kind) {
    case 1: case 4: case 5:
        if (n > PLACES || k > PLACES) return 2;
        *length = kind == 4 ? n : k;
        break;
    case 2: case 3: case 7:
        if (n > PLACES || k != 0) return 2;
        *length = n;
        break;
    case 6:
        if (n > BRANCHES || k != 0) return 2;
        *length = 2 * n;
        break;
    default:
        return 1;
    }
    if (kind == 5 ? floor == 0 || floor > FLOORS : floor != 1) return 10;
    if (kind == 4 ? edition != 1 && edition != 2 : edition != 1) return 11;
    if (kind != 2) return counts_len == 0 ? 0 : 3;
    if (counts_len != n) return 3;
    for (size_t i = 0; i < counts_len; i++) sum += counts[i];
    *length = sum;
    return sum > PLACES ? 3 : 0;
}

static bool has_object(uint64_t kind, uint64_t n, uint64_t k, uint64_t floor) {
    if (kind == 1) return k <= n;
    if (kind == 4 || kind == 5) return k * floor <= n && (k > 0 || n == 0);
    return kind != 7 || n != 1;
}

/* k parts of at least p with the sum n. */
static uint64_t at_least(uint64_t p, uint64_t n, uint64_t k) {
    uint64_t off = k * (p - 1);
    return n < off ? 0 : n == off ? k == 0 : parts[n - off][k];
}

/* The count; false where it is 2^64 or more. */
static bool count_of(uint64_t kind, uint64_t n, uint64_t k, uint64_t floor, const uint8_t *counts, size_t counts_len, uint64_t *value) {
    uint64_t sum = 0, words = 1;
    if (!has_object(kind, n, k, floor)) {
        *value = 0;
        return true;
    }
    switch (kind) {
    case 1: *value = choose[n][k]; break;
    case 2:
        for (size_t i = 0; i < counts_len; i++) {
            sum += counts[i];
            words = times(words, choose[sum][counts[i]]);
        }
        *value = words;
        break;
    case 3: *value = factorials[n]; break;
    case 4: *value = n == 0 ? 1 : blocks[n][k]; break;
    case 5: *value = at_least(floor, n, k); break;
    case 7: *value = n < sizeof derangements / sizeof *derangements ? derangements[n] : 0; break;
    default: *value = catalans[n];
    }
    return *value != 0;
}

static bool is_subset(uint64_t n, const uint8_t *x, size_t len) {
    for (size_t i = 0; i < len; i++)
        if (x[i] == 0 || x[i] > n || (i > 0 && x[i] <= x[i - 1])) return false;
    return true;
}

static bool is_anagram(const uint8_t *counts, size_t letters, const uint8_t *x, size_t len) {
    uint8_t left[PLACES];
    memcpy(left, counts, letters);
    for (size_t i = 0; i < len; i++)
        if (x[i] == 0 || x[i] > letters || left[x[i] - 1]-- == 0) return false;
    return true;
}

static bool is_permutation(const uint8_t *x, size_t len) {
    bool seen[PLACES + 1] = {false};
    for (size_t i = 0; i < len; i++) {
        if (x[i] == 0 || x[i] > len || seen[x[i]]) return false;
        seen[x[i]] = true;
    }
    return true;
}

static bool is_derangement(const uint8_t *x, size_t len) {
    for (size_t i = 0; i < len; i++)
        if (x[i] == i + 1) return false;
    return is_permutation(x, len);
}

static bool is_set_partition(uint64_t k, const uint8_t *x, size_t len) {
    uint64_t used = 0;
    for (size_t i = 0; i < len; i++) {
        if (x[i] == 0 || x[i] > used + 1) return false;
        if (x[i] > used) used = x[i];
    }
    return used == k;
}

static bool is_integer_partition(uint64_t n, uint64_t floor, const uint8_t *x, size_t len) {
    uint64_t sum = 0;
    for (size_t i = 0; i < len; i++) {
        if (x[i] < floor || (i > 0 && x[i] > x[i - 1])) return false;
        sum += x[i];
    }
    return sum == n;
}

static bool is_dyck_word(const uint8_t *x, size_t len) {
    int height = 0;
    for (size_t i = 0; i < len; i++) {
        if (x[i] > 1) return false;
        height += x[i] == 1 ? 1 : -1;
        if (height < 0) return false;
    }
    return height == 0;
}

static bool is_object(uint64_t kind, uint64_t n, uint64_t k, uint64_t floor, const uint8_t *counts, size_t counts_len, const uint8_t *x, size_t len) {
    switch (kind) {
    case 1: return is_subset(n, x, len);
    case 2: return is_anagram(counts, counts_len, x, len);
    case 3: return is_permutation(x, len);
    case 4: return is_set_partition(k, x, len);
    case 5: return is_integer_partition(n, floor, x, len);
    case 7: return is_derangement(x, len);
    default: return is_dyck_word(x, len);
    }
}

/* The steps: each answers 0 or END. */

static uint32_t next_subset(uint64_t n, uint8_t *x, size_t k) {
    size_t i = 0;
    while (i < k && x[i] + 1u == (i + 1 < k ? x[i + 1] : n + 1)) i++;
    if (i == k) return END;
    x[i]++;
    for (size_t j = 0; j < i; j++) x[j] = (uint8_t)(j + 1);
    return 0;
}

static uint32_t previous_subset(uint8_t *x, size_t k) {
    size_t i = 0;
    while (i < k && x[i] == i + 1) i++;
    if (i == k) return END;
    x[i]--;
    for (size_t j = 0; j < i; j++) x[j] = (uint8_t)(x[i] - i + j);
    return 0;
}

static void reverse(uint8_t *x, size_t len) {
    for (size_t i = 0; i < len / 2; i++) {
        uint8_t a = x[i];
        x[i] = x[len - 1 - i];
        x[len - 1 - i] = a;
    }
}

static uint32_t next_word(uint8_t *x, size_t len) {
    size_t p = len, q = len;
    while (p > 1 && x[p - 2] >= x[p - 1]) p--;
    if (p <= 1) return END;
    while (x[q - 1] <= x[p - 2]) q--;
    uint8_t a = x[p - 2];
    x[p - 2] = x[q - 1];
    x[q - 1] = a;
    reverse(x + p - 1, len - p + 1);
    return 0;
}

static uint32_t previous_word(uint8_t *x, size_t len) {
    size_t p = len, q = len;
    while (p > 1 && x[p - 2] <= x[p - 1]) p--;
    if (p <= 1) return END;
    while (x[q - 1] >= x[p - 2]) q--;
    uint8_t a = x[p - 2];
    x[p - 2] = x[q - 1];
    x[q - 1] = a;
    reverse(x + p - 1, len - p + 1);
    return 0;
}

/* The earliest and the latest partition of i models into m blocks. */
static void first_blocks(uint8_t *x, size_t i, size_t m) {
    for (size_t j = 0; j < i; j++) x[j] = (uint8_t)(j + m < i ? 1 : j + m - i + 1);
}

static void last_blocks(uint8_t *x, size_t i, size_t m) {
    for (size_t j = 0; j < i; j++) x[j] = (uint8_t)(j < m ? j + 1 : m);
}

/* Key 0 (a new block) goes to 1, a block to the next one that is in use in front. */
static uint32_t next_set_partition(uint8_t *x, size_t n) {
    size_t used = 0;
    for (size_t i = 0; i < n; i++) {
        if (i > 0 && x[i] > used && used < i) { /* the first of its block, and i models can make one block more in front */
            size_t m = used + 1;
            x[i] = 1;
            first_blocks(x, i, m);
            return 0;
        }
        if (x[i] <= used && x[i] < used) {
            x[i]++;
            first_blocks(x, i, used);
            return 0;
        }
        if (x[i] > used) used = x[i];
    }
    return END;
}

static uint32_t previous_set_partition(uint8_t *x, size_t n) {
    size_t used = 0;
    for (size_t i = 0; i < n; i++) {
        if (i > 0 && x[i] <= used && (x[i] > 1 || used > 1)) {
            if (x[i] > 1) {
                x[i]--;
                last_blocks(x, i, used);
            } else { /* key 1 back to 0: the model starts a block of its own, the last in use */
                x[i] = (uint8_t)used;
                last_blocks(x, i, used - 1);
            }
            return 0;
        }
        if (x[i] > used) used = x[i];
    }
    return END;
}

/* Edition 2: a block goes to the next one that is in use in front, and behind them all comes a block of its own. The earliest partition is 1 .. m and then
 * 1, the latest is the earliest of edition 1. */
static void first_of_edition_2(uint8_t *x, size_t i, size_t m) {
    for (size_t j = 0; j < i; j++) x[j] = (uint8_t)(j < m ? j + 1 : 1);
}

static uint32_t next_of_edition_2(uint8_t *x, size_t n) {
    size_t used = 0;
    for (size_t i = 0; i < n; i++) {
        if (x[i] <= used && used > 1) {
            if (x[i] < used) {
                x[i]++;
                first_of_edition_2(x, i, used);
            } else /* the last block in use: now its own, of the same number */
                first_of_edition_2(x, i, used - 1);
            return 0;
        }
        if (x[i] > used) used = x[i];
    }
    return END;
}

static uint32_t previous_of_edition_2(uint8_t *x, size_t n) {
    size_t used = 0;
    for (size_t i = 0; i < n; i++) {
        if (x[i] > used) {
            if (used < i) { /* the first of its block, and i models can make one block more in front */
                first_blocks(x, i, used + 1);
                return 0;
            }
            used = x[i];
        } else if (x[i] > 1) {
            x[i]--;
            first_blocks(x, i, used);
            return 0;
        }
    }
    return END;
}

static uint32_t next_integer_partition(uint8_t *x, size_t k) {
    size_t sum = 0, i = 0;
    while (i < k && i * (x[i] + 1u) >= sum) sum += x[i++];
    if (i == k) return END;
    uint8_t p = ++x[i];
    sum--;
    for (size_t j = 1; j < i; j++) x[j] = p;
    x[0] = (uint8_t)(sum - (i - 1) * p);
    return 0;
}

static uint32_t previous_integer_partition(uint64_t floor, uint8_t *x, size_t k) {
    size_t sum = 0, i = 1;
    while (i < k && x[i] <= (i + 1 < k ? x[i + 1] : floor)) i++;
    if (i >= k) return END;
    for (size_t j = 0; j < i; j++) sum += x[j];
    sum++;
    x[i]--;
    for (size_t j = 0; j < i; j++) x[j] = (uint8_t)(sum / i + (j < sum % i));
    return 0;
}

/* The length of every inside, by the place of its 1. */
static void insides(const uint8_t *x, size_t len, uint8_t *inside) {
    uint8_t open[BRANCHES];
    size_t depth = 0;
    for (size_t i = 0; i < len; i++) {
        if (x[i] == 1)
            open[depth++] = (uint8_t)i;
        else {
            depth--;
            inside[open[depth]] = (uint8_t)(i - open[depth] - 1);
        }
    }
}

static void first_word(uint8_t *x, size_t len) {
    for (size_t i = 0; i < len; i++) x[i] = (uint8_t)(1 - i % 2);
}

static void last_word(uint8_t *x, size_t len) {
    memset(x, 1, len / 2);
    memset(x + len / 2, 0, len / 2);
}

static bool dyck_on(uint8_t *x, size_t len, const uint8_t *inside) {
    if (len == 0) return false;
    size_t in = inside[0], rest = in + 2;
    if (dyck_on(x + rest, len - rest, inside + rest)) return true;
    if (dyck_on(x + 1, in, inside + 1)) {
        first_word(x + rest, len - rest);
        return true;
    }
    if (rest == len) return false;
    first_word(x + 1, in + 2);
    x[in + 3] = 0;
    first_word(x + in + 4, len - in - 4);
    return true;
}

static bool dyck_back(uint8_t *x, size_t len, const uint8_t *inside) {
    if (len == 0) return false;
    size_t in = inside[0], rest = in + 2;
    if (dyck_back(x + rest, len - rest, inside + rest)) return true;
    if (dyck_back(x + 1, in, inside + 1)) {
        last_word(x + rest, len - rest);
        return true;
    }
    if (in == 0) return false;
    last_word(x + 1, in - 2);
    x[in - 1] = 0;
    last_word(x + in, len - in);
    return true;
}

/* Takes n out of a derangement of n, n at least 2; with c for f(n). Where f(c) isn't n, what went to n goes to c, and the key is c; else c is taken out
 * too, places and labels above it move down, and the key is n - 1 + c. Left in front is a derangement of left_by(n, key). */
static size_t take_apart(uint8_t *x, size_t n) {
    size_t c = x[n - 1], a = 0;
    if (x[c - 1] != n) {
        while (x[a] != n) a++;
        x[a] = (uint8_t)c;
        return c;
    }
    for (size_t i = 0; i + 1 < c; i++) x[i] = (uint8_t)(x[i] - (x[i] > c));
    for (size_t i = c; i + 1 < n; i++) x[i - 1] = (uint8_t)(x[i] - (x[i] > c));
    return n - 1 + c;
}

static size_t left_by(size_t n, size_t key) {
    return key < n ? n - 1 : n - 2;
}

/* The reverse. */
static void put_together(uint8_t *x, size_t n, size_t key) {
    size_t c = key < n ? key : key - (n - 1), a = 0;
    if (key < n) {
        while (x[a] != c) a++;
        x[a] = (uint8_t)n;
    } else {
        for (size_t i = n - 2; i >= c; i--) x[i] = (uint8_t)(x[i - 1] + (x[i - 1] >= c));
        for (size_t i = 0; i + 1 < c; i++) x[i] = (uint8_t)(x[i] + (x[i] >= c));
        x[c - 1] = (uint8_t)n;
    }
    x[n - 1] = (uint8_t)c;
}

static void first_derangement(uint8_t *x, size_t n) {
    for (size_t i = 0; i < n; i++) x[i] = (uint8_t)(i + 1 < n ? i + 2 : 1);
}

static void last_derangement(uint8_t *x, size_t n) {
    size_t i = 0;
    if (n % 2 == 1) {
        x[i++] = 3;
        x[i++] = 1;
        x[i++] = 2;
    }
    for (; i < n; i += 2) {
        x[i] = (uint8_t)(i + 2);
        x[i + 1] = (uint8_t)(i + 1);
    }
}

static bool step_derangement(bool on, uint8_t *x, size_t n) {
    if (n == 0) return false;
    size_t key = take_apart(x, n);
    bool moved = step_derangement(on, x, left_by(n, key));
    /* no derangement of 1: of 2 there is the highest key alone, of 3 there are two */
    size_t end = on ? (n == 3 ? 2 : 2 * (n - 1)) : n == 2 ? 2 : 1;
    if (!moved && key != end) {
        key = on ? key + 1 : key - 1;
        (on ? first_derangement : last_derangement)(x, left_by(n, key));
        moved = true;
    }
    put_together(x, n, key);
    return moved;
}

static uint32_t step(bool on, uint64_t kind, uint64_t n, uint64_t floor, uint64_t edition, uint8_t *x, size_t len) {
    uint8_t inside[2 * BRANCHES];
    switch (kind) {
    case 1: return on ? next_subset(n, x, len) : previous_subset(x, len);
    case 2: case 3: return on ? next_word(x, len) : previous_word(x, len);
    case 4:
        if (edition == 2) return on ? next_of_edition_2(x, len) : previous_of_edition_2(x, len);
        return on ? next_set_partition(x, len) : previous_set_partition(x, len);
    case 5: return on ? next_integer_partition(x, len) : previous_integer_partition(floor, x, len);
    case 7: return step_derangement(on, x, len) ? 0 : END;
    default:
        insides(x, len, inside);
        return (on ? dyck_on : dyck_back)(x, len, inside) ? 0 : END;
    }
}

/* Ranks. */

/* words * s / m without a product above 64 bits, for s up to m up to 80. */
static uint64_t share(uint64_t words, uint64_t s, uint64_t m) {
    return words / m * s + words % m * s / m;
}

static uint64_t rank_word(uint8_t *left, uint64_t words, const uint8_t *x, size_t len) {
    uint64_t rank = 0;
    for (size_t i = 0; i < len; i++) {
        uint64_t s = 0, m = len - i, a = x[i] - 1u;
        for (size_t j = 0; j < a; j++) s += left[j];
        rank += share(words, s, m);
        words = share(words, left[a]--, m);
    }
    return rank;
}

static void unrank_word(uint8_t *left, uint64_t words, uint64_t rank, uint8_t *x, size_t len) {
    for (size_t i = 0; i < len; i++) {
        uint64_t m = len - i, below = 0, here;
        size_t a = 0;
        while (here = share(words, left[a], m), rank - below >= here) {
            below += here;
            a++;
        }
        rank -= below;
        words = here;
        left[a]--;
        x[i] = (uint8_t)(a + 1);
    }
}

static uint64_t rank_set_partition(uint64_t k, const uint8_t *x, size_t n) {
    size_t first[PLACES + 1];
    size_t used = 0;
    uint64_t rank = 0;
    for (size_t i = 0; i < n; i++)
        if (x[i] > used) first[++used] = i;
    for (size_t i = n; i-- > 0;) {
        if (first[x[i]] == i)
            k--;
        else
            rank += (k > 1 ? blocks[i][k - 1] : 0) + (x[i] - 1u) * blocks[i][k];
    }
    return rank;
}

static void unrank_set_partition(uint64_t k, uint64_t rank, uint8_t *x, size_t n) {
    for (size_t i = n; i-- > 0;) {
        uint64_t alone = i == 0 ? 1 : k > 1 ? blocks[i][k - 1] : 0;
        if (rank < alone) {
            x[i] = (uint8_t)k--;
        } else {
            rank -= alone;
            x[i] = (uint8_t)(rank / blocks[i][k] + 1);
            rank %= blocks[i][k];
        }
    }
}

static uint64_t rank_of_edition_2(uint64_t k, const uint8_t *x, size_t n) {
    size_t first[PLACES + 1];
    size_t used = 0;
    uint64_t rank = 0;
    for (size_t i = 0; i < n; i++)
        if (x[i] > used) first[++used] = i;
    for (size_t i = n; i-- > 0;) {
        if (first[x[i]] == i) {
            rank += k * blocks[i][k];
            k--;
        } else
            rank += (x[i] - 1u) * blocks[i][k];
    }
    return rank;
}

static void unrank_of_edition_2(uint64_t k, uint64_t rank, uint8_t *x, size_t n) {
    for (size_t i = n; i-- > 0;) {
        uint64_t each = blocks[i][k], shared = k * each;
        if (rank < shared) {
            x[i] = (uint8_t)(rank / each + 1);
            rank %= each;
        } else {
            rank -= shared;
            x[i] = (uint8_t)k--;
        }
    }
}

static uint64_t rank_integer_partition(uint64_t n, uint64_t floor, const uint8_t *x, size_t k) {
    uint64_t rank = 0;
    for (; k > 0; k--) {
        rank += at_least(floor, n, k) - at_least(x[k - 1], n, k);
        floor = x[k - 1];
        n -= floor;
    }
    return rank;
}

static void unrank_integer_partition(uint64_t n, uint64_t floor, uint64_t rank, uint8_t *x, size_t k) {
    for (; k > 0; k--) {
        uint64_t p = floor, all = at_least(floor, n, k), more;
        while (more = at_least(p + 1, n, k), all - more <= rank) p++;
        rank -= all - at_least(p, n, k);
        x[k - 1] = (uint8_t)p;
        floor = p;
        n -= p;
    }
}

static uint64_t rank_dyck(const uint8_t *x, size_t len, const uint8_t *inside) {
    if (len == 0) return 0;
    size_t in = inside[0], j = in / 2, rests = len / 2 - 1 - j;
    uint64_t rank = 0;
    for (size_t i = 0; i < j; i++) rank += catalans[i] * catalans[len / 2 - 1 - i];
    return rank + rank_dyck(x + 1, in, inside + 1) * catalans[rests] + rank_dyck(x + in + 2, len - in - 2, inside + in + 2);
}

static void unrank_dyck(uint64_t rank, uint8_t *x, size_t len) {
    if (len == 0) return;
    size_t j = 0, m = len / 2 - 1;
    uint64_t some;
    while (some = catalans[j] * catalans[m - j], some <= rank) {
        rank -= some;
        j++;
    }
    x[0] = 1;
    x[2 * j + 1] = 0;
    unrank_dyck(rank / catalans[m - j], x + 1, 2 * j);
    unrank_dyck(rank % catalans[m - j], x + 2 * j + 2, 2 * (m - j));
}

static uint64_t rank_derangement(uint8_t *x, size_t n) {
    uint64_t rank = 0;
    while (n > 0) {
        size_t key = take_apart(x, n);
        rank += key < n ? (key - 1) * derangements[n - 1] : (n - 1) * derangements[n - 1] + (key - n) * derangements[n - 2];
        n = left_by(n, key);
    }
    return rank;
}

static void unrank_derangement(uint64_t rank, uint8_t *x, size_t n) {
    if (n == 0) return;
    uint64_t each = derangements[n - 1], longer = (n - 1) * each;
    size_t key = 1;
    if (rank >= longer) {
        rank -= longer;
        each = derangements[n - 2];
        key = n;
    }
    key += rank / each;
    unrank_derangement(rank % each, x, left_by(n, key));
    put_together(x, n, key);
}

static uint64_t rank_of(uint64_t kind, uint64_t n, uint64_t k, uint64_t floor, uint64_t edition, const uint8_t *counts, uint64_t count, const uint8_t *x, size_t len) {
    uint8_t work[PLACES];
    uint64_t rank = 0;
    switch (kind) {
    case 1:
        for (size_t i = 0; i < len; i++) rank += i + 1 < x[i] ? choose[x[i] - 1][i + 1] : 0;
        return rank;
    case 2: memcpy(work, counts, n); return rank_word(work, count, x, len);
    case 3: memset(work, 1, n); return rank_word(work, count, x, len);
    case 4: return edition == 2 ? rank_of_edition_2(k, x, len) : rank_set_partition(k, x, len);
    case 5: return rank_integer_partition(n, floor, x, len);
    case 7: memcpy(work, x, len); return rank_derangement(work, len);
    default:
        insides(x, len, work);
        return rank_dyck(x, len, work);
    }
}

static void unrank_of(uint64_t kind, uint64_t n, uint64_t k, uint64_t floor, uint64_t edition, const uint8_t *counts, uint64_t count, uint64_t rank, uint8_t *x, size_t len) {
    uint8_t work[PLACES];
    size_t top = n;
    switch (kind) {
    case 1:
        for (size_t i = len; i > 0; i--) {
            while (top >= i && rank < choose[top][i]) top--;
            if (top >= i) rank -= choose[top][i];
            x[i - 1] = (uint8_t)(top + 1);
        }
        break;
    case 2: memcpy(work, counts, n); unrank_word(work, count, rank, x, len); break;
    case 3: memset(work, 1, n); unrank_word(work, count, rank, x, len); break;
    case 4:
        if (edition == 2) unrank_of_edition_2(k, rank, x, len);
        else unrank_set_partition(k, rank, x, len);
        break;
    case 5: unrank_integer_partition(n, floor, rank, x, len); break;
    case 7: unrank_derangement(rank, x, len); break;
    default: unrank_dyck(rank, x, len);
    }
}

/* The calls. */

uint32_t plain_count(uint64_t kind, uint64_t n, uint64_t k, uint64_t floor, uint64_t edition, const uint8_t *counts, size_t counts_len, uint64_t *value) {
    size_t length;
    uint64_t count;
    uint32_t no = table(kind, n, k, floor, edition, counts, counts_len, &length);
    if (no) return no;
    if (!count_of(kind, n, k, floor, counts, counts_len, &count)) return 5;
    *value = count;
    return 0;
}

static uint32_t stepped(bool on, uint64_t kind, uint64_t n, uint64_t k, uint64_t floor, uint64_t edition, const uint8_t *counts, size_t counts_len, uint8_t *object, size_t object_len) {
    size_t length;
    uint32_t no = table(kind, n, k, floor, edition, counts, counts_len, &length);
    if (no) return no;
    if (!has_object(kind, n, k, floor)) return 4;
    if (object_len != length) return 6;
    if (!is_object(kind, n, k, floor, counts, counts_len, object, object_len)) return 7;
    return step(on, kind, n, floor, edition, object, object_len);
}

uint32_t plain_next(uint64_t kind, uint64_t n, uint64_t k, uint64_t floor, uint64_t edition, const uint8_t *counts, size_t counts_len, uint8_t *object, size_t object_len) {
    return stepped(true, kind, n, k, floor, edition, counts, counts_len, object, object_len);
}

uint32_t plain_previous(uint64_t kind, uint64_t n, uint64_t k, uint64_t floor, uint64_t edition, const uint8_t *counts, size_t counts_len, uint8_t *object, size_t object_len) {
    return stepped(false, kind, n, k, floor, edition, counts, counts_len, object, object_len);
}

uint32_t plain_rank(uint64_t kind, uint64_t n, uint64_t k, uint64_t floor, uint64_t edition, const uint8_t *counts, size_t counts_len, const uint8_t *object, size_t object_len, uint64_t *value) {
    size_t length;
    uint64_t count;
    uint32_t no = table(kind, n, k, floor, edition, counts, counts_len, &length);
    if (no) return no;
    if (!has_object(kind, n, k, floor)) return 4;
    if (!count_of(kind, n, k, floor, counts, counts_len, &count)) return 5;
    if (object_len != length) return 6;
    if (!is_object(kind, n, k, floor, counts, counts_len, object, object_len)) return 7;
    *value = rank_of(kind, n, k, floor, edition, counts, count, object, object_len);
    return 0;
}

uint32_t plain_unrank(uint64_t kind, uint64_t n, uint64_t k, uint64_t floor, uint64_t edition, const uint8_t *counts, size_t counts_len, uint64_t rank, uint8_t *object, size_t object_len) {
    size_t length;
    uint64_t count;
    uint32_t no = table(kind, n, k, floor, edition, counts, counts_len, &length);
    if (no) return no;
    if (!has_object(kind, n, k, floor)) return 4;
    if (!count_of(kind, n, k, floor, counts, counts_len, &count)) return 5;
    if (object_len != length) return 6;
    if (rank >= count) return 8;
    unrank_of(kind, n, k, floor, edition, counts, count, rank, object, object_len);
    return 0;
}
