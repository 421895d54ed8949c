/* The library with two parameters of one entry swapped: SWAP is the entry's name and the two parameters' numbers, from 0. It calls
 * the library's own functions, whose names begin with true_ here. On x86-64 Linux everything that these functions take goes by
 * words, one for counts and for the fuel, two for a slice, in the order of the signature. */
#include <stddef.h>
#include <stdint.h>
#include <stdio.h>
#include <stdlib.h>
#include <string.h>

enum { MOST = 26 };
typedef uint64_t word;

struct two {
    word x, y;
};
struct three {
    word x, y, z;
};

/* Gives the words to the parameters in the swapped order, and puts each parameter where the library takes it. `widths` has the words
 * of each parameter. */
static void arrange(const char *entry, const char *widths, word *w) {
    char name[16];
    size_t i, j, n = strlen(widths), order[MOST], start[MOST], at = 0;
    const char *swap = getenv("SWAP");
    if (!swap || sscanf(swap, "%15s %zu %zu", name, &i, &j) != 3 || strcmp(name, entry)) return;
    if (i >= n || j >= n) abort();
    for (size_t k = 0; k < n; k++) order[k] = k == i ? j : k == j ? i : k;
    for (size_t k = 0; k < n; k++) {
        start[order[k]] = at;
        at += (size_t)(widths[order[k]] - '0');
    }
    word given[MOST];
    memcpy(given, w, at * sizeof *w);
    for (size_t k = 0; k < n; k++)
        for (size_t m = 0; m < (size_t)(widths[k] - '0'); m++) *w++ = given[start[k] + m];
}

#define TAKE16                                                                                                      \
    word a, word b, word c, word d, word e, word f, word g, word h, word i, word j, word k, word l, word m, word n, \
        word o, word p
#define GIVE16 a, b, c, d, e, f, g, h, i, j, k, l, m, n, o, p
#define W16 w[0], w[1], w[2], w[3], w[4], w[5], w[6], w[7], w[8], w[9], w[10], w[11], w[12], w[13], w[14], w[15]

struct three true_scriptmaker_read(TAKE16, word q, word r);
struct three scriptmaker_read(TAKE16, word q, word r) {
    word w[] = {GIVE16, q, r};
    arrange("read", "222222222", w);
    return true_scriptmaker_read(W16, w[16], w[17]);
}

struct two true_scriptmaker_check(TAKE16, word q);
struct two scriptmaker_check(TAKE16, word q) {
    word w[] = {GIVE16, q};
    arrange("check", "122222222", w);
    return true_scriptmaker_check(W16, w[16]);
}

#define WRITING(NAME)                                                     \
    struct three true_scriptmaker_##NAME(TAKE16, word q, word r, word s); \
    struct three scriptmaker_##NAME(TAKE16, word q, word r, word s) {     \
        word w[] = {GIVE16, q, r, s};                                     \
        arrange(#NAME, "1222222222", w);                                  \
        return true_scriptmaker_##NAME(W16, w[16], w[17], w[18]);         \
    }
WRITING(write)
WRITING(list)

#define MAKING(NAME)                                                                                                \
    struct three true_scriptmaker_##NAME(TAKE16, word, word, word, word, word, word, word, word, word, word);       \
    struct three scriptmaker_##NAME(TAKE16, word q, word r, word s, word t, word u, word v, word x, word y, word z, \
                                    word zz) {                                                                      \
        word w[] = {GIVE16, q, r, s, t, u, v, x, y, z, zz};                                                         \
        arrange(#NAME, "12222222221222", w);                                                                        \
        return true_scriptmaker_##NAME(W16, w[16], w[17], w[18], w[19], w[20], w[21], w[22], w[23], w[24], w[25]);  \
    }
MAKING(make)
MAKING(bare_run)

struct three true_scriptmaker_run(TAKE16, word, word, word, word, word, word);
struct three scriptmaker_run(TAKE16, word q, word r, word s, word t, word u, word v) {
    word w[] = {GIVE16, q, r, s, t, u, v};
    arrange("run", "122222222212", w);
    return true_scriptmaker_run(W16, w[16], w[17], w[18], w[19], w[20], w[21]);
}

struct three true_scriptmaker_bands(word, word, word, word, word, word, word, word, word);
struct three scriptmaker_bands(word a, word b, word c, word d, word e, word f, word g, word h, word i) {
    word w[] = {a, b, c, d, e, f, g, h, i};
    arrange("bands", "12222", w);
    return true_scriptmaker_bands(w[0], w[1], w[2], w[3], w[4], w[5], w[6], w[7], w[8]);
}
