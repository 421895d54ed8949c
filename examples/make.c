/* Makes a script for one model's settings: make SCRIPT MADE [SETTING..]. It prints the reply, in words too
 * where a result leaves the range, and the listing of the code, and writes the made file. Exit status: 0
 * with code, 1 without, 2 where a word or a file is at fault. */
#include <ctype.h>
#include <errno.h>
#include <stdio.h>
#include <stdlib.h>

#include "scriptmaker.h"

enum { FUEL = 4000 };

static uint8_t file[SCRIPTMAKER_FILE + 1], out[SCRIPTMAKER_FILE], text[SCRIPTMAKER_LISTING];
static struct scriptmaker_script script;
static struct scriptmaker_stores stores;

static int failed(const char *name) {
    perror(name);
    return 2;
}

static int refused(unsigned number, size_t place) {
    printf("refused %u %zu\n", number, place);
    return 1;
}

/* Whether a word is a setting. */
static int set(const char *word, int32_t *setting) {
    char *end;
    errno = 0;
    long long z = strtoll(word, &end, 10);
    if (isspace((unsigned char)*word) || end == word || *end || errno || z < INT32_MIN || z > INT32_MAX) {
        fprintf(stderr, "%s: not a whole number of 32 bits\n", word);
        return 0;
    }
    *setting = (int32_t)z;
    return 1;
}

/* Reads the first bytes of a file, as many as no script has, and counts the rest. */
static int load(const char *name, size_t *held, size_t *whole) {
    FILE *f = fopen(name, "rb");
    if (!f) return 0;
    *whole = *held = fread(file, 1, sizeof file, f);
    for (size_t more; (more = fread(text, 1, sizeof text, f)) > 0;) *whole += more;
    if (ferror(f)) return 0;
    fclose(f);
    return 1;
}

static int make(const char *from, const char *to, const int32_t *settings, size_t given) {
    size_t held, whole;
    if (!load(from, &held, &whole)) return failed(from);
    struct scriptmaker_read_reply read = scriptmaker_read(file, held, SCRIPTMAKER_OF(&script));
    if (read.number == 1) return refused(1, whole); /* its place is the length of the file */
    if (read.number) return refused(read.number, read.place);
    script.counts = read.counts;
    printf("read: types %u inputs %u nodes %u\n", read.counts.types, read.counts.inputs, read.counts.nodes);

    struct scriptmaker_check_reply check = scriptmaker_check(script.counts, SCRIPTMAKER_OF(&script));
    if (check.number) return refused(check.number, check.place);
    printf("accepted\n");

    struct scriptmaker_make_reply made = scriptmaker_make(script.counts, SCRIPTMAKER_OF(&script), settings, given,
                                                          FUEL, SCRIPTMAKER_IN(&stores), out, sizeof out);
    printf("made: number %u place %zu steps %u nodes %u\n", made.number, made.place, made.steps, made.nodes);
    if (made.number == SCRIPTMAKER_ABOVE_RANGE) printf("the result of node %zu is above 2147483647\n", made.place);
    if (made.number == SCRIPTMAKER_BELOW_RANGE) printf("the result of node %zu is below -2147483648\n", made.place);
    if (made.number) return 1;

    size_t length = 8 + 4 * (size_t)script.counts.inputs + 13 * (size_t)made.nodes;
    FILE *f = fopen(to, "wb");
    if (!f || fwrite(out, 1, length, f) != length || fclose(f)) return failed(to);
    printf("wrote %zu bytes\n", length);

    read = scriptmaker_read(out, length, SCRIPTMAKER_OF(&script));
    if (read.number) return refused(read.number, read.place);
    struct scriptmaker_write_reply list = scriptmaker_list(read.counts, SCRIPTMAKER_OF(&script), text, sizeof text);
    if (list.number) return refused(list.number, list.place);
    fwrite(text, 1, list.length, stdout);
    return 0;
}

int main(int count, char **words) {
    if (count < 3) {
        fprintf(stderr, "make SCRIPT MADE [SETTING..]\n");
        return 2;
    }
    size_t given = (size_t)count - 3;
    int32_t *settings = calloc(given + 1, sizeof *settings); /* never null, even without settings */
    if (!settings) return failed("settings");
    for (size_t k = 0; k < given; k++)
        if (!set(words[3 + k], &settings[k])) return 2;
    int status = make(words[1], words[2], settings, given);
    free(settings);
    if (fflush(stdout) || ferror(stdout)) return failed("standard output");
    return status;
}
