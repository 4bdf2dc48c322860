/* Arrangement numbers: the seven calls on families of combinatorial objects, the length of an object, jumps, walks that know their number, and the
 * check of a listing.
 *
 * Build the library with tools/archive and link target/staticlib/libarrangements.a.
 * docs/SCOPE.md says what families, orders, calls and questions are, docs/PROMISES.md what is proved.
 *
 * Every call answers any family, lists and bytes. It asks only this of its pointers, and what it does is undefined only where this fails:
 *   - each is valid and not null, also where its length is 0, as for an empty list or an empty object, through which nothing is read or written;
 *   - object, the bytes of a listing, *value, *number, *place, the lists and the bytes of the lists don't overlap one another.
 * Nothing is kept between calls. Any number of threads may call at once, each with its own object, *value, *number and *place; lists, and the bytes
 * of a listing, may be shared: no call writes them.
 *
 * A family is (kind, n, k, floor, edition) and, for kind 2, a list of letter counts, one byte a letter; for other kinds the list is empty. The floor
 * is 1 for every kind but 5, the edition is 1 for every kind but 4.
 *   kind 1  subsets of k out of 1 to n, ascending          k bytes       n, k up to 80
 *   kind 2  anagrams: letter i (from 1) counts[i - 1] times sum bytes     n letters up to 80, sum up to 80, k = 0
 *   kind 3  permutations of 1 to n                          n bytes       n up to 80, k = 0
 *   kind 4  set partitions: byte i is the block of model i  n bytes       n, k up to 80, edition 1 or 2
 *   kind 5  integer partitions of n into k parts >= floor   k bytes       n, k up to 80, floor 1 to 80
 *   kind 6  Dyck words with n of each, 1 up and 0 down      2n bytes      n up to 40, k = 0
 *   kind 7  permutations of 1 to n, byte i never i          n bytes       n up to 80, k = 0
 * The editions of kind 4 have the same objects and differ in the order: in edition 1 a model that is the smallest of its block comes before the same
 * model in blocks 1, 2, .., in edition 2 behind it.
 *
 * A call answers one of the codes below. Only ARRANGEMENT_DONE, and ARRANGEMENT_WRONG with its place, come with a change of what is lent.
 */
#ifndef ARRANGEMENTS_H
#define ARRANGEMENTS_H

#include <stddef.h>
#include <stdint.h>

#ifdef __cplusplus
extern "C" {
#endif

#define ARRANGEMENT_DONE 0u    /* answered, written, stepped or, of a listing, accepted */
#define ARRANGEMENT_END 100u   /* none follows (NEXT), precedes (PREVIOUS) or stands there (a jump) */
#define ARRANGEMENT_WRONG 101u /* not the family's listing, and *place says where (a check) */

/* Refusals, by the number of the first question that is answered by no, in the order in which questions are put; in brackets the calls to which it is
 * put, if not to all. */
#define ARRANGEMENT_REFUSED_KIND 1u          /* is the kind 1 to 7? */
#define ARRANGEMENT_REFUSED_BOUNDS 2u        /* are n and k within the table above? */
#define ARRANGEMENT_REFUSED_FLOOR 10u        /* is the floor 1 to 80, and 1 for every kind but 5? */
#define ARRANGEMENT_REFUSED_EDITION 11u      /* is the edition 1 or 2, and 1 for every kind but 4? */
#define ARRANGEMENT_REFUSED_LETTER_COUNTS 3u /* for kind 2, is the count list n long with a sum of at most 80; is it empty for other kinds? */
#define ARRANGEMENT_REFUSED_NO_OBJECTS 4u    /* has the family an object? (all but COUNT, which answers 0; a check too) */
#define ARRANGEMENT_REFUSED_OVERFLOW 5u      /* is the count below 2^64? (COUNT, RANK, UNRANK, jumps, a walk's steps) */
#define ARRANGEMENT_REFUSED_LENGTH 6u        /* has the buffer the object's length? (all but COUNT and a check) */
#define ARRANGEMENT_REFUSED_ENTRIES 12u      /* is the byte length exactly the entries times the object length? (a check, in place of 6) */
#define ARRANGEMENT_REFUSED_NOT_AN_OBJECT 7u /* does it hold an object of the family? (RANK, NEXT, PREVIOUS, jumps, a walk's steps) */
#define ARRANGEMENT_REFUSED_RANK 8u          /* is the rank below the count? (UNRANK; a walk's steps, of *number) */

/* A family is passed by value. Make one by arrangement_family_of: floor and edition are then 1, and later fields have their defaults. Who wants another
 * floor or edition sets it afterwards, here the floor of the partitions of 9 into 3 parts of at least 2:
 *   arrangement_family f = arrangement_family_of(5, 9, 3);
 *   f.floor = 2; */
typedef struct {
    uint64_t kind, n, k, floor, edition;
} arrangement_family;

static inline arrangement_family arrangement_family_of(uint64_t kind, uint64_t n, uint64_t k)
{
    arrangement_family f = {kind, n, k, 1, 1};
    return f;
}

/* Bytes that are read only. A list that isn't used is empty: length 0, and any valid pointer, not null. */
typedef struct {
    const uint8_t *bytes;
    size_t length;
} arrangement_list;

/* All lists that are lent beside a family. Make them by arrangement_no_lists or arrangement_counts: later lists are then empty. */
typedef struct {
    arrangement_list counts;
} arrangement_lists;

static inline arrangement_lists arrangement_counts(const uint8_t *counts, size_t length)
{
    arrangement_lists lists = {{counts, length}};
    return lists;
}

static inline arrangement_lists arrangement_no_lists(void)
{
    static const uint8_t none[1] = {0};
    return arrangement_counts(none, 0);
}

/* Writes to *value how long the family's objects are; asks questions 1, 2, 10, 11 and 3. */
uint32_t arrangement_object_length(arrangement_family f, const arrangement_lists *lists, uint64_t *value);

/* COUNT: writes the number of objects to *value. */
uint32_t arrangement_count(arrangement_family f, const arrangement_lists *lists, uint64_t *value);

/* FIRST and LAST: write the earliest and the latest object. */
uint32_t arrangement_first(arrangement_family f, const arrangement_lists *lists, uint8_t *object, size_t object_len);
uint32_t arrangement_last(arrangement_family f, const arrangement_lists *lists, uint8_t *object, size_t object_len);

/* NEXT and PREVIOUS: replace the object by its neighbour, or answer ARRANGEMENT_END and change nothing. */
uint32_t arrangement_next(arrangement_family f, const arrangement_lists *lists, uint8_t *object, size_t object_len);
uint32_t arrangement_previous(arrangement_family f, const arrangement_lists *lists, uint8_t *object, size_t object_len);

/* RANK: writes how many objects come before this one to *value. */
uint32_t arrangement_rank(arrangement_family f, const arrangement_lists *lists, const uint8_t *object, size_t object_len, uint64_t *value);

/* UNRANK: writes the object that has `rank` objects before it. */
uint32_t arrangement_unrank(uint64_t rank, arrangement_family f, const arrangement_lists *lists, uint8_t *object, size_t object_len);

/* A jump by d: replaces the object, of rank r, by the one of rank r + d where r + d lies from 0 to the count less one; else it answers ARRANGEMENT_END
 * and changes nothing. It puts RANK's questions. Any d is answered, INT64_MIN too; d = 0 writes the same object and isn't ARRANGEMENT_END.
 * After a jump by d that was done, one by -d restores the bytes; INT64_MIN has no -d. */
uint32_t arrangement_jump(arrangement_family f, const arrangement_lists *lists, int64_t d, uint8_t *object, size_t object_len);

/* A walk: an object, and the number kept of it. It starts at any object, with the *number that arrangement_rank writes for it. A step puts RANK's
 * questions, and question 8 to *number; then it steps as NEXT or PREVIOUS does, and adds one to *number or takes one off: after any steps *number is
 * the object's RANK, which is never worked out again. ARRANGEMENT_END and refusals change neither object nor *number.
 * Any other *number below the count is stepped along too; PREVIOUS that finds an object while *number is 0 is refused by 8. */
uint32_t arrangement_walk_next(arrangement_family f, const arrangement_lists *lists, uint8_t *object, size_t object_len, uint64_t *number);
uint32_t arrangement_walk_previous(arrangement_family f, const arrangement_lists *lists, uint8_t *object, size_t object_len, uint64_t *number);

/* The check of a listing, whoever made it: so many entries, their bytes one behind the other. It answers ARRANGEMENT_DONE exactly where they are the
 * family's full listing, and else ARRANGEMENT_WRONG with a place, from 0, in *place: the entry there isn't the object of that rank, is missing, or
 * lies beyond the last object. Where several places are so, any of them may be given.
 * It puts questions 1, 2, 10, 11, 3, 4 and 12. A family with 2^64 objects or more is checked too: there every list is too short. Where the object is
 * the empty string, the listing is one entry of no bytes.
 * Every answer but ARRANGEMENT_WRONG leaves *place as it was. */
uint32_t arrangement_check(arrangement_family f, const arrangement_lists *lists, uint64_t entries, const uint8_t *bytes, size_t bytes_len,
                           uint64_t *place);

#ifdef __cplusplus
}
#endif

#endif
