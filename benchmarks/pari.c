/* Times PARI's numtoperm and permtonum on random permutations; prints lines as measure.c does. */
#include <pari/pari.h>
#include <stdio.h>
#include <time.h>

enum { POOL = 256, ROUNDS = 9, TIMES = 40 };

static double now(void) {
    struct timespec t;
    clock_gettime(CLOCK_MONOTONIC, &t);
    return (double)t.tv_sec * 1e9 + (double)t.tv_nsec;
}

static void permutations(long n, const char *name) {
    GEN ranks[POOL], words[POOL], all = mpfact(n);
    double best[2] = {1e18, 1e18};
    volatile long sink = 0;
    for (int i = 0; i < POOL; i++) words[i] = numtoperm(n, ranks[i] = randomi(all));
    for (int round = 0; round < ROUNDS; round++)
        for (int back = 0; back < 2; back++) {
            double from = now();
            for (int t = 0; t < TIMES; t++)
                for (int i = 0; i < POOL; i++) {
                    pari_sp top = avma;
                    GEN r = back ? permtonum(words[i]) : numtoperm(n, ranks[i]);
                    sink += r[1];
                    avma = top;
                }
            double each = (now() - from) / TIMES / POOL;
            if (each < best[back]) best[back] = each;
        }
    printf("%s|random|UNRANK|PARI|%.2f\n%s|random|RANK|PARI|%.2f\n", name, best[0], name, best[1]);
}

int main(void) {
    pari_init(50000000, 500000);
    permutations(8, "3 permutations 8");
    permutations(14, "3 permutations 14");
    permutations(20, "3 permutations 20");
    pari_close();
    return 0;
}
