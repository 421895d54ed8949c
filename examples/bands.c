/* Makes a script from rows of bands and grades readings by it: bands ROWS SCRIPT [READING..]. ROWS is a text,
 * one row a line: low, high and grade, with blanks or a comma between them; empty lines and lines that begin
 * with # are skipped. SCRIPT is the file that is written. Rows that are refused are told by number and place,
 * and in words with their line; SCRIPT is then left alone. Exit status: 0 if all was graded, 1 for refused
 * rows, 2 where a word or a file is at fault. */
#include <ctype.h>
#include <errno.h>
#include <stdio.h>
#include <stdlib.h>
#include <string.h>

#include "scriptmaker.h"

/* One row more than a script takes: as many are refused like any that are more. */
enum { MOST = SCRIPTMAKER_ROWS + 1 };

static uint16_t count;
static int32_t low[MOST], high[MOST], grade[MOST];
static size_t line_of[MOST];
static uint8_t file[SCRIPTMAKER_BANDS];
static struct scriptmaker_script script;
static uint64_t heap[SCRIPTMAKER_HEAP];

static int failed(const char *name) {
    perror(name);
    return 2;
}

/* A number at the start of a text, and what follows it; nothing if there is none of 32 bits. */
static char *number(char *text, int32_t *z) {
    char *end;
    errno = 0;
    long long x = strtoll(text, &end, 10);
    if (isspace((unsigned char)*text) || end == text || errno || x < INT32_MIN || x > INT32_MAX) return NULL;
    *z = (int32_t)x;
    return end;
}

/* Whether a word is a reading. */
static int set(char *word, int32_t *reading) {
    char *end = number(word, reading);
    if (end && !*end) return 1;
    fprintf(stderr, "%s: not a whole number of 32 bits\n", word);
    return 0;
}

static char *past_blanks(char *text) { return text + strspn(text, " \t\r"); }

/* Blanks, a comma, or both. */
static char *past_separator(char *text) {
    char *next = past_blanks(text);
    if (*next == ',') return past_blanks(next + 1);
    return next == text ? NULL : next;
}

/* Takes the row of a line. */
static int take(char *text, size_t line) {
    int32_t row[3];
    for (int k = 0; k < 3; k++) {
        if (k && !(text = past_separator(text))) return 0;
        if (!(text = number(text, &row[k]))) return 0;
    }
    if (*past_blanks(text)) return 0;
    if (count == MOST) return 1;
    low[count] = row[0];
    high[count] = row[1];
    grade[count] = row[2];
    line_of[count++] = line;
    return 1;
}

/* Takes the rows of a text; 0, or the exit status. */
static int load(const char *name) {
    static char text[256];
    FILE *f = fopen(name, "r");
    if (!f) return failed(name);
    for (size_t line = 1; fgets(text, sizeof text, f); line++) {
        int whole = strchr(text, '\n') != NULL || feof(f);
        text[strcspn(text, "\n")] = 0;
        int skipped = *text == '#' || !*past_blanks(text);
        if (!whole && *text == '#')
            for (int c; (c = getc(f)) != EOF && c != '\n';) continue;
        else if (!whole || (!skipped && !take(past_blanks(text), line))) {
            fprintf(stderr, "%s: line %zu: not three whole numbers of 32 bits: low, high, grade\n", name, line);
            return 2;
        }
    }
    if (ferror(f)) return failed(name);
    fclose(f);
    return 0;
}

/* Why rows are refused, in words. */
static void explain(unsigned number, size_t k) {
    if (number == SCRIPTMAKER_BAD_ROW && !count)
        printf("there are no rows\n");
    else if (number == SCRIPTMAKER_BAD_ROW && count > SCRIPTMAKER_ROWS)
        printf("line %zu: a row more than %d\n", line_of[SCRIPTMAKER_ROWS], SCRIPTMAKER_ROWS);
    else if (number == SCRIPTMAKER_BAD_ROW && low[k] > high[k])
        printf("line %zu: the low %ld is above the high %ld\n", line_of[k], (long)low[k], (long)high[k]);
    else if (number == SCRIPTMAKER_BAD_ROW)
        printf("line %zu: the grade %ld is outside 0 to 255\n", line_of[k], (long)grade[k]);
    else if (number == SCRIPTMAKER_OVERLAP)
        printf("line %zu: the low %ld is not above %ld, the high of the row before\n", line_of[k], (long)low[k],
               (long)high[k - 1]);
    else if (number == SCRIPTMAKER_GAP && k < count)
        printf("line %zu: the readings %lld to %lld before it fall in no row\n", line_of[k],
               k ? high[k - 1] + 1LL : INT32_MIN, low[k] - 1LL);
    else if (number == SCRIPTMAKER_GAP)
        printf("line %zu: the readings %lld to 2147483647 after it fall in no row\n", line_of[k - 1],
               high[k - 1] + 1LL);
}

/* Grades readings by the plain run of the script in `file`. */
static int grade_all(size_t length, const int32_t *readings, size_t given) {
    struct scriptmaker_read_reply read = scriptmaker_read(file, length, SCRIPTMAKER_OF(&script));
    for (size_t k = 0; k < given; k++) {
        struct scriptmaker_run_reply ran = scriptmaker_run(read.counts, SCRIPTMAKER_OF(&script), &readings[k], 1,
                                                           SCRIPTMAKER_FUEL, heap, SCRIPTMAKER_HEAP);
        if (ran.number) {
            printf("ran: number %u place %zu steps %u\n", ran.number, ran.place, ran.steps);
            return 1;
        }
        if (ran.function)
            printf("%ld: a function\n", (long)readings[k]);
        else
            printf("%ld: %ld\n", (long)readings[k], (long)ran.value);
    }
    return 0;
}

static int bands(const char *rows, const char *to, const int32_t *readings, size_t given) {
    int status = load(rows);
    if (status) return status;
    struct scriptmaker_write_reply made =
        scriptmaker_bands(count, low, MOST, high, MOST, grade, MOST, file, sizeof file);
    if (made.number) {
        printf("refused %u %zu\n", made.number, made.place);
        explain(made.number, made.place);
        return 1;
    }
    FILE *f = fopen(to, "wb");
    if (!f) return failed(to);
    int wrote = fwrite(file, 1, made.length, f) == made.length;
    if (fclose(f) || !wrote) return failed(to);
    printf("wrote %zu bytes\n", made.length);
    return grade_all(made.length, readings, given);
}

int main(int words_count, char **words) {
    if (words_count < 3) {
        fprintf(stderr, "bands ROWS SCRIPT [READING..]\n");
        return 2;
    }
    size_t given = (size_t)words_count - 3;
    int32_t *readings = calloc(given + 1, sizeof *readings); /* never null, even without readings */
    if (!readings) return failed("readings");
    for (size_t k = 0; k < given; k++)
        if (!set(words[3 + k], &readings[k])) return 2;
    int status = bands(words[1], words[2], readings, given);
    free(readings);
    if (fflush(stdout) || ferror(stdout)) return failed("standard output");
    return status;
}
