/* Runs a script on a number for every input, in order: run SCRIPT [NUMBER..]. It prints the reply, in words
 * too where a result leaves the range, and the result, a number or "a function". Exit status: 0 with a
 * result, 1 without, 2 where a word or a file is at fault. */
#include <ctype.h>
#include <errno.h>
#include <stdio.h>
#include <stdlib.h>

#include "scriptmaker.h"

static uint8_t file[SCRIPTMAKER_FILE + 1], rest[4096];
static struct scriptmaker_script script;
static uint64_t heap[SCRIPTMAKER_HEAP];

static int failed(const char *name) {
    perror(name);
    return 2;
}

static int refused(unsigned number, size_t place) {
    printf("refused %u %zu\n", number, place);
    return 1;
}

/* Whether a word is a number. */
static int set(const char *word, int32_t *number) {
    char *end;
    errno = 0;
    long long z = strtoll(word, &end, 10);
    if (isspace((unsigned char)*word) || end == word || *end || errno || z < INT32_MIN || z > INT32_MAX) {
        fprintf(stderr, "%s: not a whole number of 32 bits\n", word);
        return 0;
    }
    *number = (int32_t)z;
    return 1;
}

/* Reads the first bytes of a file, as many as no script has, and counts the rest. */
static int load(const char *name, size_t *held, size_t *whole) {
    FILE *f = fopen(name, "rb");
    if (!f) return 0;
    *whole = *held = fread(file, 1, sizeof file, f);
    for (size_t more; (more = fread(rest, 1, sizeof rest, f)) > 0;) *whole += more;
    if (ferror(f)) return 0;
    fclose(f);
    return 1;
}

static int run(const char *from, const int32_t *numbers, size_t given) {
    size_t held, whole;
    if (!load(from, &held, &whole)) return failed(from);
    struct scriptmaker_read_reply read = scriptmaker_read(file, held, SCRIPTMAKER_OF(&script));
    if (read.number == 1) return refused(1, whole); /* its place is the length of the file */
    if (read.number) return refused(read.number, read.place);
    script.counts = read.counts;

    struct scriptmaker_run_reply ran = scriptmaker_run(script.counts, SCRIPTMAKER_OF(&script), numbers, given,
                                                       SCRIPTMAKER_FUEL, heap, SCRIPTMAKER_HEAP);
    printf("ran: number %u place %zu steps %u\n", ran.number, ran.place, ran.steps);
    if (ran.number == SCRIPTMAKER_ABOVE_RANGE) printf("the result of node %zu is above 2147483647\n", ran.place);
    if (ran.number == SCRIPTMAKER_BELOW_RANGE) printf("the result of node %zu is below -2147483648\n", ran.place);
    if (ran.number) return 1;
    if (ran.function)
        printf("a function\n");
    else
        printf("%ld\n", (long)ran.value);
    return 0;
}

int main(int count, char **words) {
    if (count < 2) {
        fprintf(stderr, "run SCRIPT [NUMBER..]\n");
        return 2;
    }
    size_t given = (size_t)count - 2;
    int32_t *numbers = calloc(given + 1, sizeof *numbers); /* never null, even without numbers */
    if (!numbers) return failed("numbers");
    for (size_t k = 0; k < given; k++)
        if (!set(words[2 + k], &numbers[k])) return 2;
    int status = run(words[1], numbers, given);
    free(numbers);
    if (fflush(stdout) || ferror(stdout)) return failed("standard output");
    return status;
}
