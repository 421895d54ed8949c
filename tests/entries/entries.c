/* Calls each entry by the header on one script file, and prints each reply and all that was lent:
 *   entries FILE FUEL HEAP CODES OUT [NUMBER..]
 * HEAP, CODES and OUT are the lengths of the stores and the output; the numbers are the settings, and what the plain run takes. No
 * two columns are of one length, and no two of what is lent hold the same before. Then it reads, makes and runs with the tables,
 * the stores and the fuel that the header has for any script. Bands take no script:
 *   entries bands COUNT OUT LOWS HIGHS GRADES
 * COUNT rows of three columns, each a word with commas between its numbers, and an output of length OUT. */
#include <stdio.h>
#include <stdlib.h>
#include <string.h>

#include "scriptmaker.h"

static struct {
    uint16_t parameters[5], results[6], inputs[7];
    uint8_t kinds[40];
    uint16_t a[41], b[42], c[43];
    int32_t values[44];
} few;
static struct scriptmaker_script any;
static struct scriptmaker_stores stores;
static uint8_t file[SCRIPTMAKER_FILE], out[SCRIPTMAKER_LISTING];
static int32_t numbers[SCRIPTMAKER_INPUTS];
static size_t heap, codes, room; /* how much of the stores and the output is lent */

#define LENGTH(x) (sizeof(x) / sizeof *(x))
#define FILL(x, n, v) \
    for (size_t k = 0; k < (n); k++) (x)[k] = (v)
#define PRINT(name, x, n)                                  \
    do {                                                   \
        printf(name);                                      \
        for (size_t k = 0, i; k < (n); k = i) {            \
            for (i = k; i < (n) && (x)[i] == (x)[k];) i++; \
            printf(" %lld", (long long)(x)[k]);            \
            if (i - k > 1) printf("*%zu", i - k);          \
        }                                                  \
        printf("\n");                                      \
    } while (0)
#define EACH_COLUMN(DO, x) \
    DO(parameters, x, 100) \
    DO(results, x, 101)    \
    DO(inputs, x, 102)     \
    DO(kinds, x, 103)      \
    DO(a, x, 104)          \
    DO(b, x, 105)          \
    DO(c, x, 106)          \
    DO(values, x, 107)
#define FILL_COLUMN(name, x, v) FILL(x.name, LENGTH(x.name), v);
#define PRINT_COLUMN(name, x, v) PRINT(#name, x.name, LENGTH(x.name));
#define FEW                                                                                                         \
    few.parameters, LENGTH(few.parameters), few.results, LENGTH(few.results), few.inputs, LENGTH(few.inputs),       \
        few.kinds, LENGTH(few.kinds), few.a, LENGTH(few.a), few.b, LENGTH(few.b), few.c, LENGTH(few.c), few.values, \
        LENGTH(few.values)

/* What is lent to be written, before a call. */
static void prepare(void) {
    FILL(stores.heap, heap, 600);
    FILL(stores.codes, codes, 700);
    FILL(out, room, 238);
}

static void was_read(struct scriptmaker_read_reply r) {
    printf("read: number %u place %zu", r.number, r.place);
    printf(" types %u inputs %u nodes %u\n", r.counts.types, r.counts.inputs, r.counts.nodes);
}

static void wrote(const char *entry, struct scriptmaker_write_reply r) {
    printf("%s: number %u place %zu length %zu\n", entry, r.number, r.place, r.length);
    PRINT("out", out, room);
}

static void made(const char *entry, struct scriptmaker_make_reply r) {
    printf("%s: number %u place %zu steps %u nodes %u\n", entry, r.number, r.place, r.steps, r.nodes);
    PRINT("heap", stores.heap, heap);
    PRINT("codes", stores.codes, codes);
    PRINT("out", out, room);
}

static void ran(struct scriptmaker_run_reply r) {
    printf("run: number %u place %zu steps %u", r.number, r.place, r.steps);
    printf(" function %u value %ld\n", r.function, (long)r.value);
    PRINT("heap", stores.heap, heap);
}

/* The numbers of a word. */
static size_t column(char *word, int32_t *numbers) {
    size_t k = 0;
    for (char *part = strtok(word, ","); part && k < 40; part = strtok(NULL, ",")) numbers[k++] = atoi(part);
    return k;
}

static int bands(char **words) {
    int32_t low[40], high[40], grade[40];
    room = strtoul(words[1], NULL, 10);
    if (room > sizeof out) return 2;
    size_t lows = column(words[2], low), highs = column(words[3], high), grades = column(words[4], grade);
    prepare();
    wrote("bands", scriptmaker_bands((uint16_t)atoi(words[0]), low, lows, high, highs, grade, grades, out, room));
    return fflush(stdout) ? 2 : 0;
}

int main(int count, char **words) {
    if (count == 7 && !strcmp(words[1], "bands")) return bands(words + 2);
    FILE *f = count < 6 ? NULL : fopen(words[1], "rb");
    if (!f) return 2;
    size_t length = fread(file, 1, sizeof file, f), given = (size_t)count - 6;
    uint32_t fuel = (uint32_t)strtoul(words[2], NULL, 10);
    heap = strtoul(words[3], NULL, 10);
    codes = strtoul(words[4], NULL, 10);
    room = strtoul(words[5], NULL, 10);
    if (heap > SCRIPTMAKER_HEAP || codes > SCRIPTMAKER_CODES || room > sizeof out || given > LENGTH(numbers)) return 2;
    for (size_t k = 0; k < given; k++) numbers[k] = atoi(words[6 + k]);

    EACH_COLUMN(FILL_COLUMN, few)
    struct scriptmaker_read_reply r = scriptmaker_read(file, length, FEW);
    struct scriptmaker_counts n = r.counts;
    was_read(r);
    EACH_COLUMN(PRINT_COLUMN, few)
    prepare();
    wrote("write", scriptmaker_write(n, FEW, out, room));
    prepare();
    wrote("list", scriptmaker_list(n, FEW, out, room));
    struct scriptmaker_check_reply q = scriptmaker_check(n, FEW);
    printf("check: number %u place %zu\n", q.number, q.place);
    prepare();
    made("make", scriptmaker_make(n, FEW, numbers, given, fuel, stores.heap, heap, stores.codes, codes, out, room));
    prepare();
    made("bare_run",
         scriptmaker_bare_run(n, FEW, numbers, given, fuel, stores.heap, heap, stores.codes, codes, out, room));
    prepare();
    ran(scriptmaker_run(n, FEW, numbers, given, fuel, stores.heap, heap));

    heap = SCRIPTMAKER_HEAP;
    codes = SCRIPTMAKER_CODES;
    room = SCRIPTMAKER_FILE;
    EACH_COLUMN(FILL_COLUMN, any)
    r = scriptmaker_read(file, length, SCRIPTMAKER_OF(&any));
    was_read(r);
    EACH_COLUMN(PRINT_COLUMN, any)
    prepare();
    made("make", scriptmaker_make(r.counts, SCRIPTMAKER_OF(&any), numbers, given, SCRIPTMAKER_FUEL,
                                  SCRIPTMAKER_IN(&stores), out, room));
    prepare();
    ran(scriptmaker_run(r.counts, SCRIPTMAKER_OF(&any), numbers, given, SCRIPTMAKER_FUEL, stores.heap, heap));
    return fflush(stdout) ? 2 : 0;
}
