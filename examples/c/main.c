/* A number for an arrangement, the arrangement for a number, one step on and back, a walk, jumps, a floor, an edition, derangements, checks of a listing.
 * Build and run: examples/c/run */
#include <inttypes.h>
#include <stdio.h>
#include <string.h>

#include "arrangements.h"

static void show(const char *what, const uint8_t *object, size_t len)
{
    printf("%-34s", what);
    for (size_t i = 0; i < len; i++)
        printf(" %d", object[i]);
    printf("\n");
}

/* Jumps: 100 places on, as many back, and off the listing, which is END; 0, or 1 where an answer is another. */
static int jumps(arrangement_family trees, const arrangement_lists *lists, uint8_t *tree)
{
    if (arrangement_jump(trees, lists, 100, tree, 7) != ARRANGEMENT_DONE)
        return 1;
    show("a jump 100 places on", tree, 7);
    if (arrangement_jump(trees, lists, -100, tree, 7) != ARRANGEMENT_DONE)
        return 1;
    show("and 100 back", tree, 7);
    if (arrangement_jump(trees, lists, INT64_MIN, tree, 7) != ARRANGEMENT_END)
        return 1;
    show("too far back: END, and it stays", tree, 7);
    return 0;
}

/* All partitions of 9 into 3 parts of at least 2, and a floor that is refused; 0, or 1 where an answer is another. */
static int floors(void)
{
    arrangement_family partitions = arrangement_family_of(5, 9, 3);
    const arrangement_lists none = arrangement_no_lists();
    uint8_t parts[3];

    partitions.floor = 2;
    uint32_t code = arrangement_first(partitions, &none, parts, 3);
    while (code == ARRANGEMENT_DONE) {
        show("9 into 3 parts of at least 2", parts, 3);
        code = arrangement_next(partitions, &none, parts, 3);
    }
    if (code != ARRANGEMENT_END)
        return 1;
    partitions.floor = 81;
    code = arrangement_first(partitions, &none, parts, 3);
    printf("floor 81 is refused by question %" PRIu32 "\n", code);
    return code == ARRANGEMENT_REFUSED_FLOOR ? 0 : 1;
}

/* All set partitions of 4 models into 2 blocks as edition 2 lists them, and an edition that is refused; 0, or 1 where an answer is another. */
static int editions(void)
{
    arrangement_family partitions = arrangement_family_of(4, 4, 2);
    const arrangement_lists none = arrangement_no_lists();
    uint8_t blocks[4];

    partitions.edition = 2;
    uint32_t code = arrangement_first(partitions, &none, blocks, 4);
    while (code == ARRANGEMENT_DONE) {
        show("4 models in 2 blocks, edition 2", blocks, 4);
        code = arrangement_next(partitions, &none, blocks, 4);
    }
    if (code != ARRANGEMENT_END)
        return 1;
    partitions.edition = 3;
    code = arrangement_first(partitions, &none, blocks, 4);
    printf("edition 3 is refused by question %" PRIu32 "\n", code);
    return code == ARRANGEMENT_REFUSED_EDITION ? 0 : 1;
}

/* All ways to hang 4 models anew with none on its old hook; a single model has none. 0, or 1 where an answer is another. */
static int derangements(void)
{
    const arrangement_lists none = arrangement_no_lists();
    uint8_t hooks[4];

    uint32_t code = arrangement_first(arrangement_family_of(7, 4, 0), &none, hooks, 4);
    while (code == ARRANGEMENT_DONE) {
        show("4 models, none on its old hook", hooks, 4);
        code = arrangement_next(arrangement_family_of(7, 4, 0), &none, hooks, 4);
    }
    if (code != ARRANGEMENT_END)
        return 1;
    code = arrangement_first(arrangement_family_of(7, 1, 0), &none, hooks, 1);
    printf("a single model is refused by question %" PRIu32 "\n", code);
    return code == ARRANGEMENT_REFUSED_NO_OBJECTS ? 0 : 1;
}

/* The checks of a listing of 2 sites out of 4: as it should be, in the order of a dictionary, which has two entries exchanged, and without the last
 * entry; 0, or 1 where an answer is another. */
static int checks(void)
{
    const arrangement_family sites = arrangement_family_of(1, 4, 2);
    const arrangement_lists none = arrangement_no_lists();
    const uint8_t listing[12] = {1, 2, 1, 3, 2, 3, 1, 4, 2, 4, 3, 4};
    const uint8_t dictionary[12] = {1, 2, 1, 3, 1, 4, 2, 3, 2, 4, 3, 4};
    uint64_t place = 0;

    if (arrangement_check(sites, &none, 6, listing, 12, &place) != ARRANGEMENT_DONE)
        return 1;
    printf("a list of 6 entries is accepted\n");
    if (arrangement_check(sites, &none, 6, dictionary, 12, &place) != ARRANGEMENT_WRONG)
        return 1;
    printf("with two exchanged it is wrong at place %" PRIu64 "\n", place);
    if (arrangement_check(sites, &none, 5, listing, 10, &place) != ARRANGEMENT_WRONG)
        return 1;
    printf("with one too few it is wrong at place %" PRIu64 "\n", place);
    return 0;
}

int main(void)
{
    /* A tree with two of model 1, three of model 2 and two of model 3, hung in this order. */
    const uint8_t counts[3] = {2, 3, 2};
    const arrangement_family trees = arrangement_family_of(2, 3, 0);
    const arrangement_lists lists = arrangement_counts(counts, 3);
    uint8_t tree[7] = {1, 2, 2, 3, 1, 3, 2};
    uint64_t length = 0, all = 0, number = 0;

    if (arrangement_object_length(trees, &lists, &length) != ARRANGEMENT_DONE || length != sizeof tree)
        return 1;
    if (arrangement_count(trees, &lists, &all) != ARRANGEMENT_DONE)
        return 1;
    if (arrangement_rank(trees, &lists, tree, 7, &number) != ARRANGEMENT_DONE)
        return 1;
    show("the tree", tree, 7);
    printf("its number, of %" PRIu64 ":                %" PRIu64 "\n", all, number);

    memset(tree, 0, sizeof tree);
    if (arrangement_unrank(number, trees, &lists, tree, 7) != ARRANGEMENT_DONE)
        return 1;
    show("the tree for that number", tree, 7);
    if (arrangement_next(trees, &lists, tree, 7) != ARRANGEMENT_DONE)
        return 1;
    show("one step on", tree, 7);
    if (arrangement_previous(trees, &lists, tree, 7) != ARRANGEMENT_DONE)
        return 1;
    show("and back", tree, 7);

    /* A walk: the number beside the tree, three steps on and one back, with no rank worked out. */
    for (int step = 0; step < 4; step++) {
        char what[32];
        uint32_t stepped = step < 3 ? arrangement_walk_next(trees, &lists, tree, 7, &number)
                                    : arrangement_walk_previous(trees, &lists, tree, 7, &number);
        if (stepped != ARRANGEMENT_DONE)
            return 1;
        snprintf(what, sizeof what, "a walk, at number %" PRIu64, number);
        show(what, tree, 7);
    }

    if (jumps(trees, &lists, tree) != 0 || floors() != 0 || editions() != 0 || derangements() != 0 || checks() != 0)
        return 1;

    /* A number that no arrangement has is refused by its question, 8, and the tree stays. */
    uint32_t code = arrangement_unrank(all, trees, &lists, tree, 7);
    printf("number %" PRIu64 " is refused by question %" PRIu32 "\n", all, code);
    return code == ARRANGEMENT_REFUSED_RANK ? 0 : 1;
}
