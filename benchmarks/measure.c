/* Times COUNT, NEXT, PREVIOUS, RANK and UNRANK on random objects, in the library and beside it, a walk's steps beside NEXT or PREVIOUS followed by
 * RANK, jumps beside COUNT, RANK and UNRANK, and the check of a listing beside NEXT from object to object, in one run. With `count` as its argument it
 * runs every measurement once, for callgrind to count instructions. Prints one line a measurement: family, call, who, nanoseconds a call, or an entry
 * of the list that is checked; and of each list its entries. An earlier build of the library may be linked beside today's, its functions renamed
 * (`before.h`), for the calls alone. */
#include "../include/arrangements.h"
#include "before.h"
#include "others.h"
#include "plain.h"
#include <stdio.h>
#include <stdlib.h>
#include <string.h>
#include <time.h>
#include <valgrind/callgrind.h>

enum { POOL = 256, PLACES = 80 };
enum { MOST_WHOLE = 100000, BEGINNING = 10000, ROOM = 1 << 20 }; /* objects of a listing that is checked whole, or else of its beginning; bytes */

typedef struct {
    const char *name; /* the family, as the table shows it */
    const char *pool; /* which objects: random ones, the one that costs most, the first ones, or the last ones */
    uint64_t kind, n, k, floor, edition;
    uint8_t counts[PLACES];
    size_t letters, len;
    int ranks; /* does the count fit? */
} Family;

typedef enum { COUNT, NEXT, PREVIOUS, RANK, UNRANK, WALK_NEXT, WALK_PREVIOUS, JUMP, CHECK } Call;
typedef enum { LIBRARY, BEFORE, PLAIN, CPP, GSL, FRESH } Who; /* FRESH: other calls in place of a walk's step, a jump or a check */

static const char *const CALLS[] = {"COUNT", "NEXT", "PREVIOUS", "RANK", "UNRANK", "WALK NEXT", "WALK PREVIOUS", "JUMP", "CHECK"};
static const char *const WHO[] = {"library", "before", "plain", "c++", "gsl", "fresh"};

enum { MOST = 5 }; /* how many can be measured beside each other */

static uint8_t pool[POOL][PLACES];
static uint64_t ranks[POOL];   /* what UNRANK is asked for */
static uint64_t numbers[POOL]; /* the rank of each object, where the count fits */
static int64_t distances[POOL]; /* how far each jumps, then */
static uint8_t listing[ROOM];   /* the list that is checked */
static uint64_t entries;        /* and how many it has */
static arrangement_family family; /* what is measured, as the library takes it */
static before_family earlier;     /* and as the earlier build does */
static arrangement_lists lists;
static volatile uint64_t sink;

static uint64_t state = 0x9E3779B97F4A7C15u;

static uint64_t random_number(void) {
    state ^= state << 13;
    state ^= state >> 7;
    state ^= state << 17;
    return state * 0x2545F4914F6CDD1Du;
}

static void shuffle(uint8_t *x, size_t len) {
    for (size_t i = len; i > 1; i--) {
        size_t j = random_number() % i;
        uint8_t a = x[i - 1];
        x[i - 1] = x[j];
        x[j] = a;
    }
}

static void random_subset(const Family *f, uint8_t *x) {
    size_t at = 0;
    for (uint64_t v = 1; v <= f->n; v++)
        if (random_number() % (f->n - v + 1) < f->k - at) x[at++] = (uint8_t)v;
}

static void random_word(const Family *f, uint8_t *x) {
    size_t at = 0;
    for (size_t i = 0; i < (f->kind == 2 ? f->letters : f->n); i++)
        for (int c = f->kind == 2 ? f->counts[i] : 1; c > 0; c--) x[at++] = (uint8_t)(i + 1);
    shuffle(x, at);
}

/* Every block gets a model and the others go anywhere; then the blocks are numbered by their smallest models. */
static void random_blocks(const Family *f, uint8_t *x) {
    uint8_t number[PLACES + 1] = {0}, used = 0;
    for (size_t i = 0; i < f->n; i++) x[i] = (uint8_t)(i < f->k ? i + 1 : random_number() % f->k + 1);
    shuffle(x, f->n);
    for (size_t i = 0; i < f->n; i++) {
        if (number[x[i]] == 0) number[x[i]] = ++used;
        x[i] = number[x[i]];
    }
}

/* The cycle lemma: of the turns of n + 1 zeros and n ones one is a Dyck word and a 0. */
static void random_dyck(const Family *f, uint8_t *x) {
    uint8_t w[PLACES + 1], turned[PLACES + 1];
    size_t len = 2 * f->n + 1, start = 0;
    int height = 0, least = 0;
    for (size_t i = 0; i < len; i++) w[i] = i < f->n;
    shuffle(w, len);
    for (size_t i = 0; i < len; i++) {
        height += w[i] ? 1 : -1;
        if (height < least) {
            least = height;
            start = i + 1;
        }
    }
    for (size_t i = 0; i < len; i++) turned[i] = w[(start + i) % len];
    memcpy(x, turned, len - 1);
}

static void random_derangement(const Family *f, uint8_t *x) {
    size_t kept;
    do {
        random_word(f, x);
        kept = 0;
        for (size_t i = 0; i < f->n; i++) kept += x[i] == i + 1;
    } while (kept > 0);
}

/* The object whose NEXT looks at and writes the most; of derangements one that is taken apart by cycles of two alone, with all places moved each time. */
static void costly(const Family *f, uint8_t *x) {
    size_t k = f->len;
    for (size_t i = 0; i < k; i++) switch (f->kind) {
        case 1: x[i] = (uint8_t)(i + 1 < k || f->n == k ? i + 1 : f->n - 1); break;
        case 2: case 3: x[i] = (uint8_t)(i == 0 ? 1 : k - i + 1); break;
        case 4: x[i] = (uint8_t)(i + 1 == k ? 1 : i < f->k ? i + 1 : f->k); break;
        case 5: x[i] = (uint8_t)(f->n / k + (i < f->n % k)); break;
        case 7: x[i] = (uint8_t)(k - i); break;
        default: x[i] = i < k / 2;
        }
}

/* Derangements from the first on, or from the last back: object i of the pool stands i places from that end. */
static void from_an_end(const Family *f, int i) {
    int on = f->pool[0] == 'f';
    uint8_t *x = pool[i];
    if (i == 0) {
        for (size_t j = 0; j < f->n; j++) x[j] = (uint8_t)(on ? j + 2 : j % 2 == 0 ? j + 2 : j);
        if (on) x[f->n - 1] = 1;
        return;
    }
    memcpy(x, pool[i - 1], PLACES);
    if (on) plain_next(f->kind, f->n, f->k, f->floor, f->edition, f->counts, f->letters, x, f->len);
    else plain_previous(f->kind, f->n, f->k, f->floor, f->edition, f->counts, f->letters, x, f->len);
}

/* How far it is from one rank to another; half as far where that is no signed number. */
static int64_t distance(uint64_t from, uint64_t to) {
    uint64_t places = to > from ? to - from : from - to;
    if (places > INT64_MAX) places /= 2;
    return to > from ? (int64_t)places : -(int64_t)places;
}

static void fill_pool(const Family *f) {
    static uint64_t start;
    uint64_t count = 0;
    /* edition 2 is measured on the objects and ranks of edition 1, which stands in front of it */
    if (f->edition == 1) start = state;
    else state = start;
    family = arrangement_family_of(f->kind, f->n, f->k);
    family.floor = f->floor;
    family.edition = f->edition;
    earlier = before_family_of(family);
    lists = arrangement_counts(f->counts, f->letters);
    if (f->ranks) plain_count(f->kind, f->n, f->k, f->floor, f->edition, f->counts, f->letters, &count);
    for (int i = 0; i < POOL; i++) {
        ranks[i] = count ? random_number() % count : 0;
        if (f->pool[0] == 'c') costly(f, pool[i]);
        else if (f->pool[0] != 'r') from_an_end(f, i);
        else if (f->kind == 1) random_subset(f, pool[i]);
        else if (f->kind == 2 || f->kind == 3) random_word(f, pool[i]);
        else if (f->kind == 4) random_blocks(f, pool[i]);
        else if (f->kind == 5) plain_unrank(5, f->n, f->k, f->floor, f->edition, f->counts, 0, ranks[i], pool[i], f->len);
        else if (f->kind == 7) random_derangement(f, pool[i]);
        else random_dyck(f, pool[i]);
        if (f->ranks) plain_rank(f->kind, f->n, f->k, f->floor, f->edition, f->counts, f->letters, pool[i], f->len, &numbers[i]);
        distances[i] = distance(numbers[i], ranks[i]);
        gsl_take(i, pool[i], f->len);
    }
}

/* A walk's step with the object's number, or in its place NEXT or PREVIOUS and a fresh RANK. Not inlined: it would make the calls below dearer. */
__attribute__((noinline)) static uint64_t walk_step(Who who, Call c, const Family *f, uint64_t number, uint8_t *x) {
    uint32_t code;
    if (who == FRESH) {
        code = c == WALK_NEXT ? arrangement_next(family, &lists, x, f->len) : arrangement_previous(family, &lists, x, f->len);
        code += arrangement_rank(family, &lists, x, f->len, &number);
    } else
        code = c == WALK_NEXT ? arrangement_walk_next(family, &lists, x, f->len, &number) : arrangement_walk_previous(family, &lists, x, f->len, &number);
    return number + code;
}

/* A jump, or in its place COUNT, RANK and UNRANK of the rank that far away. Not inlined either. */
__attribute__((noinline)) static uint64_t jump(Who who, const Family *f, int64_t d, uint8_t *x) {
    uint64_t count = 0, rank = 0, to;
    uint32_t code;
    if (who == LIBRARY) return arrangement_jump(family, &lists, d, x, f->len);
    if (who == PLAIN) {
        code = plain_rank(f->kind, f->n, f->k, f->floor, f->edition, f->counts, f->letters, x, f->len, &rank);
        return code + plain_unrank(f->kind, f->n, f->k, f->floor, f->edition, f->counts, f->letters, rank + (uint64_t)d, x, f->len);
    }
    code = arrangement_count(family, &lists, &count) + arrangement_rank(family, &lists, x, f->len, &rank);
    to = rank + (uint64_t)d;
    return code + (to < count ? arrangement_unrank(to, family, &lists, x, f->len) : ARRANGEMENT_END);
}

/* One call on one object of the pool. The bytes are copied first, for everybody. */
static uint64_t call(Who who, Call c, const Family *f, int i, uint8_t *x) {
    uint64_t value = 0;
    uint32_t code = 0;
    const uint8_t *counts = f->counts;
    memcpy(x, pool[i], PLACES);
    if (c > UNRANK) return c == JUMP ? jump(who, f, distances[i], x) : walk_step(who, c, f, numbers[i], x);
    if (who == LIBRARY) switch (c) {
        case COUNT: code = arrangement_count(family, &lists, &value); break;
        case NEXT: code = arrangement_next(family, &lists, x, f->len); break;
        case PREVIOUS: code = arrangement_previous(family, &lists, x, f->len); break;
        case RANK: code = arrangement_rank(family, &lists, x, f->len, &value); break;
        case UNRANK: code = arrangement_unrank(ranks[i], family, &lists, x, f->len); break;
        default: break;
        }
    else if (who == BEFORE) switch (c) {
        case COUNT: code = earlier_count(earlier, &lists, &value); break;
        case NEXT: code = earlier_next(earlier, &lists, x, f->len); break;
        case PREVIOUS: code = earlier_previous(earlier, &lists, x, f->len); break;
        case RANK: code = earlier_rank(earlier, &lists, x, f->len, &value); break;
        case UNRANK: code = earlier_unrank(ranks[i], earlier, &lists, x, f->len); break;
        default: break;
        }
    else if (who == PLAIN) switch (c) {
        case COUNT: code = plain_count(f->kind, f->n, f->k, f->floor, f->edition, counts, f->letters, &value); break;
        case NEXT: code = plain_next(f->kind, f->n, f->k, f->floor, f->edition, counts, f->letters, x, f->len); break;
        case PREVIOUS: code = plain_previous(f->kind, f->n, f->k, f->floor, f->edition, counts, f->letters, x, f->len); break;
        case RANK: code = plain_rank(f->kind, f->n, f->k, f->floor, f->edition, counts, f->letters, x, f->len, &value); break;
        case UNRANK: code = plain_unrank(f->kind, f->n, f->k, f->floor, f->edition, counts, f->letters, ranks[i], x, f->len); break;
        default: break;
        }
    else if (who == CPP) code = c == NEXT ? cpp_next(x, f->len) : cpp_previous(x, f->len);
    else code = gsl_step((int)f->kind, c == NEXT, i, f->n, f->len);
    return value + code;
}

/* The listing from the first object on, as plain C steps: the whole, or its beginning. */
static void fill_listing(const Family *f) {
    uint64_t count = UINT64_MAX, most = ROOM / f->len;
    if (f->ranks) plain_count(f->kind, f->n, f->k, f->floor, f->edition, f->counts, f->letters, &count);
    entries = count <= MOST_WHOLE && count <= most ? count : BEGINNING < most ? BEGINNING : most;
    if (arrangement_first(family, &lists, listing, f->len) != ARRANGEMENT_DONE) exit(1);
    for (uint64_t i = 1; i < entries; i++) {
        memcpy(listing + i * f->len, listing + (i - 1) * f->len, f->len);
        plain_next(f->kind, f->n, f->k, f->floor, f->edition, f->counts, f->letters, listing + i * f->len, f->len);
    }
    /* the whole is accepted; the beginning is wrong where the next entry is missing */
    uint64_t place = 0;
    uint32_t code = arrangement_check(family, &lists, entries, listing, entries * f->len, &place);
    if (entries == count ? code != ARRANGEMENT_DONE : code != ARRANGEMENT_WRONG || place != entries) {
        fprintf(stderr, "the check of %s answers %u at %llu\n", f->name, code, (unsigned long long)place);
        exit(1);
    }
}

/* The check of the list, or in its place FIRST and as many times NEXT, the last of which looks behind the list. Not inlined either. */
__attribute__((noinline)) static uint64_t through_listing(Who who, const Family *f) {
    uint8_t x[PLACES];
    uint64_t place = 0, sum;
    if (who == LIBRARY) return arrangement_check(family, &lists, entries, listing, entries * f->len, &place) + place;
    sum = arrangement_first(family, &lists, x, f->len);
    for (uint64_t i = 0; i < entries; i++) sum += arrangement_next(family, &lists, x, f->len);
    return sum + x[0];
}

/* The library and the other must agree on every call that is timed. */
static void agree(const Family *f, Call c, Who other) {
    uint8_t a[PLACES], b[PLACES];
    for (int i = 0; i < POOL; i++) {
        uint64_t u = call(LIBRARY, c, f, i, a), v = call(other, c, f, i, b);
        if (u != v || memcmp(a, b, f->len) != 0) {
            fprintf(stderr, "%s of %s: %s differs at object %d (%llu, %llu)\n", CALLS[c], f->name, WHO[other], i, (unsigned long long)u,
                    (unsigned long long)v);
            exit(1);
        }
    }
}

static double now(void) {
    struct timespec t;
    clock_gettime(CLOCK_MONOTONIC, &t);
    return (double)t.tv_sec * 1e9 + (double)t.tv_nsec;
}

/* Every object of the pool once; or the list, entry by entry. */
static void whole_pool(Who who, Call c, const Family *f, int times) {
    uint8_t x[PLACES];
    uint64_t sum = 0;
    for (int t = 0; t < times; t++) {
        if (c == CHECK) sum += through_listing(who, f);
        else for (int i = 0; i < POOL; i++) sum += call(who, c, f, i, x);
    }
    sink = sum;
}

/* Nanoseconds a call of each: the best of nine rounds of about 4 milliseconds each, in turn, so that a slower moment of the machine meets all. */
static void timed(const Who *who, int number, Call c, const Family *f, double *best) {
    int times[MOST];
    double calls = c == CHECK ? (double)entries : POOL;
    for (int w = 0; w < number; w++) {
        double from = now();
        whole_pool(who[w], c, f, 4);
        times[w] = (int)(4e6 / ((now() - from) / 4 + 1)) + 1;
        best[w] = 1e18;
    }
    for (int round = 0; round < 9; round++)
        for (int w = 0; w < number; w++) {
            double from = now();
            whole_pool(who[w], c, f, times[w]);
            double each = (now() - from) / times[w] / calls;
            if (each < best[w]) best[w] = each;
        }
}

static void counted(Who who, Call c, const Family *f) {
    char label[160];
    snprintf(label, sizeof label, "%s|%s|%s|%s", f->name, f->pool, CALLS[c], WHO[who]);
    CALLGRIND_ZERO_STATS;
    whole_pool(who, c, f, 1);
    CALLGRIND_DUMP_STATS_AT(label);
}

static void measure(const Who *who, int number, Call c, const Family *f, int counting) {
    double best[MOST];
    if (!counting) timed(who, number, c, f, best);
    for (int w = 0; w < number; w++) {
        if (counting)
            counted(who[w], c, f);
        else
            printf("%s|%s|%s|%s|%.2f\n", f->name, f->pool, CALLS[c], WHO[who[w]], best[w]);
    }
}

static const Family FAMILIES[] = {
    {"1 subsets (8, 4)", "random", 1, 8, 4, 1, 1, {0}, 0, 4, 1},
    {"1 subsets (40, 20)", "random", 1, 40, 20, 1, 1, {0}, 0, 20, 1},
    {"1 subsets (67, 33)", "random", 1, 67, 33, 1, 1, {0}, 0, 33, 1},
    {"1 subsets (80, 21)", "random", 1, 80, 21, 1, 1, {0}, 0, 21, 1},
    {"1 subsets (80, 40)", "random", 1, 80, 40, 1, 1, {0}, 0, 40, 0},
    {"2 anagrams 3 2 2 1", "random", 2, 4, 0, 1, 1, {3, 2, 2, 1}, 4, 8, 1},
    {"2 anagrams 10 times 2", "random", 2, 10, 0, 1, 1, {2, 2, 2, 2, 2, 2, 2, 2, 2, 2}, 10, 20, 1},
    {"2 anagrams 70 5 3 2", "random", 2, 4, 0, 1, 1, {70, 5, 3, 2}, 4, 80, 1},
    {"2 anagrams 16 times 5", "random", 2, 16, 0, 1, 1, {5, 5, 5, 5, 5, 5, 5, 5, 5, 5, 5, 5, 5, 5, 5, 5}, 16, 80, 0},
    {"3 permutations 8", "random", 3, 8, 0, 1, 1, {0}, 0, 8, 1},
    {"3 permutations 14", "random", 3, 14, 0, 1, 1, {0}, 0, 14, 1},
    {"3 permutations 20", "random", 3, 20, 0, 1, 1, {0}, 0, 20, 1},
    {"3 permutations 80", "random", 3, 80, 0, 1, 1, {0}, 0, 80, 0},
    {"4 set partitions (8, 3)", "random", 4, 8, 3, 1, 1, {0}, 0, 8, 1},
    {"4 set partitions (8, 3), edition 2", "random", 4, 8, 3, 1, 2, {0}, 0, 8, 1},
    {"4 set partitions (16, 5)", "random", 4, 16, 5, 1, 1, {0}, 0, 16, 1},
    {"4 set partitions (16, 5), edition 2", "random", 4, 16, 5, 1, 2, {0}, 0, 16, 1},
    {"4 set partitions (26, 9)", "random", 4, 26, 9, 1, 1, {0}, 0, 26, 1},
    {"4 set partitions (26, 9), edition 2", "random", 4, 26, 9, 1, 2, {0}, 0, 26, 1},
    {"4 set partitions (80, 75)", "random", 4, 80, 75, 1, 1, {0}, 0, 80, 1},
    {"4 set partitions (80, 75), edition 2", "random", 4, 80, 75, 1, 2, {0}, 0, 80, 1},
    {"4 set partitions (80, 40)", "random", 4, 80, 40, 1, 1, {0}, 0, 80, 0},
    {"4 set partitions (80, 40), edition 2", "random", 4, 80, 40, 1, 2, {0}, 0, 80, 0},
    {"5 integer partitions (12, 4)", "random", 5, 12, 4, 1, 1, {0}, 0, 4, 1},
    {"5 integer partitions (40, 10)", "random", 5, 40, 10, 1, 1, {0}, 0, 10, 1},
    {"5 integer partitions (80, 18)", "random", 5, 80, 18, 1, 1, {0}, 0, 18, 1},
    {"5 integer partitions (80, 60)", "random", 5, 80, 60, 1, 1, {0}, 0, 60, 1},
    {"5 integer partitions (80, 10), floor 4", "random", 5, 80, 10, 4, 1, {0}, 0, 10, 1},
    {"5 integer partitions (80, 20), floor 2", "random", 5, 80, 20, 2, 1, {0}, 0, 20, 1},
    {"6 Dyck words 5", "random", 6, 5, 0, 1, 1, {0}, 0, 10, 1},
    {"6 Dyck words 18", "random", 6, 18, 0, 1, 1, {0}, 0, 36, 1},
    {"6 Dyck words 36", "random", 6, 36, 0, 1, 1, {0}, 0, 72, 1},
    {"6 Dyck words 40", "random", 6, 40, 0, 1, 1, {0}, 0, 80, 0},
    {"7 derangements 8", "random", 7, 8, 0, 1, 1, {0}, 0, 8, 1},
    {"7 derangements 14", "random", 7, 14, 0, 1, 1, {0}, 0, 14, 1},
    {"7 derangements 20", "random", 7, 20, 0, 1, 1, {0}, 0, 20, 1},
    {"7 derangements 80", "random", 7, 80, 0, 1, 1, {0}, 0, 80, 0},
};

/* Objects whose step costs most, at doubled lengths; of derangements those at both ends, too (their lengths are even). */
static const Family GROWTH[] = {
    {"1 subsets (11, 10)", "costly", 1, 11, 10, 1, 1, {0}, 0, 10, 1},
    {"1 subsets (21, 20)", "costly", 1, 21, 20, 1, 1, {0}, 0, 20, 1},
    {"1 subsets (41, 40)", "costly", 1, 41, 40, 1, 1, {0}, 0, 40, 1},
    {"1 subsets (80, 79)", "costly", 1, 80, 79, 1, 1, {0}, 0, 79, 1},
    {"3 permutations 10", "costly", 3, 10, 0, 1, 1, {0}, 0, 10, 1},
    {"3 permutations 20", "costly", 3, 20, 0, 1, 1, {0}, 0, 20, 1},
    {"3 permutations 40", "costly", 3, 40, 0, 1, 1, {0}, 0, 40, 0},
    {"3 permutations 80", "costly", 3, 80, 0, 1, 1, {0}, 0, 80, 0},
    {"4 set partitions (10, 9)", "costly", 4, 10, 9, 1, 1, {0}, 0, 10, 1},
    {"4 set partitions (20, 19)", "costly", 4, 20, 19, 1, 1, {0}, 0, 20, 1},
    {"4 set partitions (40, 39)", "costly", 4, 40, 39, 1, 1, {0}, 0, 40, 1},
    {"4 set partitions (80, 79)", "costly", 4, 80, 79, 1, 1, {0}, 0, 80, 1},
    {"5 integer partitions (15, 10)", "costly", 5, 15, 10, 1, 1, {0}, 0, 10, 1},
    {"5 integer partitions (30, 20)", "costly", 5, 30, 20, 1, 1, {0}, 0, 20, 1},
    {"5 integer partitions (60, 40)", "costly", 5, 60, 40, 1, 1, {0}, 0, 40, 1},
    {"5 integer partitions (80, 79)", "costly", 5, 80, 79, 1, 1, {0}, 0, 79, 1},
    {"6 Dyck words 5", "costly", 6, 5, 0, 1, 1, {0}, 0, 10, 1},
    {"6 Dyck words 10", "costly", 6, 10, 0, 1, 1, {0}, 0, 20, 1},
    {"6 Dyck words 20", "costly", 6, 20, 0, 1, 1, {0}, 0, 40, 1},
    {"6 Dyck words 40", "costly", 6, 40, 0, 1, 1, {0}, 0, 80, 0},
    {"7 derangements 10", "costly", 7, 10, 0, 1, 1, {0}, 0, 10, 1},
    {"7 derangements 20", "costly", 7, 20, 0, 1, 1, {0}, 0, 20, 1},
    {"7 derangements 40", "costly", 7, 40, 0, 1, 1, {0}, 0, 40, 0},
    {"7 derangements 80", "costly", 7, 80, 0, 1, 1, {0}, 0, 80, 0},
    {"7 derangements 10", "first", 7, 10, 0, 1, 1, {0}, 0, 10, 1},
    {"7 derangements 20", "first", 7, 20, 0, 1, 1, {0}, 0, 20, 1},
    {"7 derangements 40", "first", 7, 40, 0, 1, 1, {0}, 0, 40, 0},
    {"7 derangements 80", "first", 7, 80, 0, 1, 1, {0}, 0, 80, 0},
    {"7 derangements 10", "last", 7, 10, 0, 1, 1, {0}, 0, 10, 1},
    {"7 derangements 20", "last", 7, 20, 0, 1, 1, {0}, 0, 20, 1},
    {"7 derangements 40", "last", 7, 40, 0, 1, 1, {0}, 0, 40, 0},
    {"7 derangements 80", "last", 7, 80, 0, 1, 1, {0}, 0, 80, 0},
};

static void steps_and_jumps(const Family *f, int counting) {
    static const Who who[] = {LIBRARY, FRESH};
    agree(f, JUMP, PLAIN);
    for (Call c = WALK_NEXT; c <= JUMP; c++) {
        agree(f, c, FRESH);
        measure(who, 2, c, f, counting);
    }
}

static void check(const Family *f, int counting) {
    static const Who who[] = {LIBRARY, FRESH};
    fill_listing(f);
    if (!counting) printf("%s|%s|ENTRIES|library|%llu\n", f->name, f->pool, (unsigned long long)entries);
    measure(who, 2, CHECK, f, counting);
}

static void all_calls(const Family *f, int counting) {
    fill_pool(f);
    for (Call c = COUNT; c <= UNRANK; c++) {
        if (!f->ranks && c != NEXT && c != PREVIOUS) continue;
        if (f->pool[0] != 'r' && c == COUNT) continue;
        agree(f, c, PLAIN);
        Who who[MOST] = {LIBRARY, PLAIN};
        int number = 2, steps = c == NEXT || c == PREVIOUS;
        if (before_answers(family)) {
            agree(f, c, BEFORE);
            who[number++] = BEFORE;
        }
        if (steps && (f->kind == 2 || f->kind == 3)) who[number++] = CPP;
#ifdef WITH_GSL
        if (steps && (f->kind == 1 || f->kind == 3)) who[number++] = GSL;
#endif
        measure(who, number, c, f, counting);
    }
    if (f->ranks) steps_and_jumps(f, counting);
    if (f->pool[0] == 'r') check(f, counting);
}

int main(int argc, char **argv) {
    int counting = argc > 1 && strcmp(argv[1], "count") == 0;
    plain_prepare();
    for (size_t i = 0; i < sizeof FAMILIES / sizeof *FAMILIES; i++) all_calls(&FAMILIES[i], counting);
    for (size_t i = 0; i < sizeof GROWTH / sizeof *GROWTH; i++) all_calls(&GROWTH[i], counting);
    return 0;
}
