/* The script maker for callers in C: x86-64 Linux, link libscriptmaker.a (tests/build).
 *
 * Every call is answered: a reply has the paper's number and place, and number 0 and place 0 after a success. What is promised of
 * each call is proved; crates/scriptmaker/specs/Calls.antt says it. No function keeps anything between calls, takes memory, or
 * touches more than what it is lent, so calls on different memory may run side by side.
 *
 * What the caller owes: each pointer is aligned, not null (even where the length is 0) and good for its length, and what is lent to
 * be written overlaps nothing else that the call is lent. Of the stack a call takes less than SCRIPTMAKER_STACK bytes. */
#ifndef SCRIPTMAKER_H
#define SCRIPTMAKER_H

#include <stddef.h>
#include <stdint.h>

#ifdef __cplusplus
extern "C" {
#endif

enum {
    SCRIPTMAKER_TYPES = 64,
    SCRIPTMAKER_INPUTS = 16,
    SCRIPTMAKER_NODES = 4096,
    SCRIPTMAKER_FUEL = 16000,
    SCRIPTMAKER_HEAP = SCRIPTMAKER_FUEL + SCRIPTMAKER_INPUTS,      /* places of the heap for the greatest fuel */
    SCRIPTMAKER_CODES = 2 * SCRIPTMAKER_FUEL + SCRIPTMAKER_INPUTS, /* places of codes for the greatest fuel */
    /* bytes of the longest script file */
    SCRIPTMAKER_FILE = 8 + 6 * SCRIPTMAKER_TYPES + 4 * SCRIPTMAKER_INPUTS + 13 * SCRIPTMAKER_NODES,
    SCRIPTMAKER_LISTING = 65536, /* no listing is longer */
    SCRIPTMAKER_ROWS = 32,       /* the most rows of bands */
    SCRIPTMAKER_BANDS = 2859,    /* bytes of the longest file that bands give: SCRIPTMAKER_BANDS_OF(SCRIPTMAKER_ROWS) */
    SCRIPTMAKER_STACK = 4 * 1024 * 1024
};

/* The numbers of replies; in brackets the place that comes with each. */
enum scriptmaker_number {
    SCRIPTMAKER_SUCCESS = 0,           /* [0] */
    SCRIPTMAKER_WRONG_LENGTH = 1,      /* not the length that the counts give [length]; tables below the counts [0] */
    SCRIPTMAKER_WRONG_MARK = 2,        /* [offset] */
    SCRIPTMAKER_WRONG_COUNT = 3,       /* outside its limit [0] */
    SCRIPTMAKER_BAD_RECORD = 4,        /* a bad type or input [offset] */
    SCRIPTMAKER_BAD_NODE = 5,          /* [offset] */
    SCRIPTMAKER_NOT_USED_ONCE = 6,     /* a node used never or twice [node] */
    SCRIPTMAKER_TREE_TOO_HIGH = 7,     /* [node] */
    SCRIPTMAKER_UNBOUND_VARIABLE = 8,  /* [node] */
    SCRIPTMAKER_NODE_AT_FAULT = 9,     /* marks that do not fit [node] */
    SCRIPTMAKER_TYPE_NOT_LISTED = 10,  /* of a function [node] */
    SCRIPTMAKER_ROOT_NOT_LATE = 11,    /* [root] */
    SCRIPTMAKER_WRONG_SETTINGS = 12,   /* not as many settings, or numbers, as are wanted [0] */
    SCRIPTMAKER_TOO_MUCH_FUEL = 13,    /* [0] */
    SCRIPTMAKER_STORE_TOO_SHORT = 20,  /* [0] */
    SCRIPTMAKER_OUTPUT_TOO_SHORT = 21, /* [0] */
    SCRIPTMAKER_FUEL_SPENT = 22,       /* [node to be visited, or the application that unfolds] */
    SCRIPTMAKER_TOO_DEEP = 23,         /* [the same] */
    SCRIPTMAKER_ABOVE_RANGE = 24,      /* a result above 2147483647 [operation] */
    SCRIPTMAKER_DIVISOR_ZERO = 25,     /* [operation] */
    SCRIPTMAKER_CODE_TOO_LARGE = 26,   /* for a script file [0] */
    SCRIPTMAKER_CLASH = 27,            /* marks that do not fit, met by a bare run [node] */
    SCRIPTMAKER_PLAIN_CLASH = 28,      /* a number as a function or a function as a number, in a plain run [node] */
    SCRIPTMAKER_BELOW_RANGE = 29,      /* a result below -2147483648 [operation] */
    SCRIPTMAKER_BAD_ROW = 30,          /* no rows or more than 32 [0]; low above high, or a grade outside 0 to 255 [row] */
    SCRIPTMAKER_OVERLAP = 31,          /* a low that is not above the high of the row before [row] */
    SCRIPTMAKER_GAP = 32               /* readings that fall in no row [row after them, or the count of rows] */
};

/* The bytes of the file that this many rows of bands give, from 1 on. */
#define SCRIPTMAKER_BANDS_OF(rows) (91 * (size_t)(rows)-53)

/* How many types, inputs and nodes a script has. */
struct scriptmaker_counts {
    uint16_t types;
    uint16_t inputs;
    uint16_t nodes;
};

struct scriptmaker_check_reply {
    uint8_t number;
    size_t place;
};

struct scriptmaker_read_reply {
    uint8_t number;
    size_t place;
    struct scriptmaker_counts counts; /* zeros after a refusal */
};

struct scriptmaker_write_reply {
    uint8_t number;
    size_t place;
    size_t length; /* bytes of the file or the listing; 0 after a refusal */
};

struct scriptmaker_make_reply {
    uint8_t number;
    size_t place;
    uint16_t steps;
    uint16_t nodes; /* of the written code; 0 without code */
};

struct scriptmaker_run_reply {
    uint8_t number;
    size_t place;
    uint16_t steps;
    uint8_t function; /* 1 if the result is a function, else 0 */
    int32_t value;    /* the result; 0 unless it is a number */
};

/* The columns of a script, each with its length: what the functions take for its tables. */
#define SCRIPTMAKER_COLUMNS(QUALIFIER)                                                                       \
    QUALIFIER uint16_t *parameters, size_t parameters_length, QUALIFIER uint16_t *results,                   \
        size_t results_length, QUALIFIER uint16_t *inputs, size_t inputs_length, QUALIFIER uint8_t *kinds,   \
        size_t kinds_length, QUALIFIER uint16_t *a, size_t a_length, QUALIFIER uint16_t *b, size_t b_length, \
        QUALIFIER uint16_t *c, size_t c_length, QUALIFIER int32_t *values, size_t values_length

/* Refusals 1 to 8, then 21 where the tables are shorter than the file's counts; what is not refused fills the lent tables, a
 * refusal leaves them as they were. */
struct scriptmaker_read_reply scriptmaker_read(const uint8_t *file, size_t file_length, SCRIPTMAKER_COLUMNS());

/* All that follow take counts and tables. Tables shorter than the counts are refused before all else with 1 and place 0 (not a
 * length); then come refusals 3 to 8, with the places that they have in the file of the tables. */

/* These refusals; then 21 for a short output. The file is written to the output, which a refusal leaves as it was. */
struct scriptmaker_write_reply scriptmaker_write(struct scriptmaker_counts counts, SCRIPTMAKER_COLUMNS(const),
                                                 uint8_t *out, size_t out_length);

/* These refusals; then 21 for a short output. The listing is written to the output, a newline at its end; a refusal leaves the
 * output as it was. */
struct scriptmaker_write_reply scriptmaker_list(struct scriptmaker_counts counts, SCRIPTMAKER_COLUMNS(const),
                                                uint8_t *out, size_t out_length);

/* These refusals, then 9 to 11. */
struct scriptmaker_check_reply scriptmaker_check(struct scriptmaker_counts counts, SCRIPTMAKER_COLUMNS(const));

/* These refusals, then 9 to 13 and 20; the run, with stops 22 to 25 and 29; 26, 21. Finished code is written to the output as a script
 * file; without code the output stays as it was. The stores are untouched before a run and hold zeros after it. */
struct scriptmaker_make_reply scriptmaker_make(struct scriptmaker_counts counts, SCRIPTMAKER_COLUMNS(const),
                                               const int32_t *settings, size_t settings_length, uint32_t fuel,
                                               uint64_t *heap, size_t heap_length, uint64_t *codes,
                                               size_t codes_length, uint8_t *out, size_t out_length);

/* The same without refusals 9 to 11: bad marks are met as stop 27. */
struct scriptmaker_make_reply scriptmaker_bare_run(struct scriptmaker_counts counts, SCRIPTMAKER_COLUMNS(const),
                                                   const int32_t *settings, size_t settings_length, uint32_t fuel,
                                                   uint64_t *heap, size_t heap_length, uint64_t *codes,
                                                   size_t codes_length, uint8_t *out, size_t out_length);

/* The plain run, without marks and lifts, on a number for every input, in order. These refusals, then 12, 13 and 20; the run, with
 * stops 22 to 25, 28 and 29. The heap is untouched before a run and holds zeros after it. */
struct scriptmaker_run_reply scriptmaker_run(struct scriptmaker_counts counts, SCRIPTMAKER_COLUMNS(const),
                                             const int32_t *numbers, size_t numbers_length, uint32_t fuel,
                                             uint64_t *heap, size_t heap_length);

/* Bands for coin sensors: `count` rows of low, high and grade, ends inclusive, become the file of a script with one late input, which is
 * accepted and whose plain run grades each reading by its row. Columns shorter than the count are refused before all else with 1 and
 * place 0; then all rows are tried for 30, then for 31, then for 32, and each is told at its first row, from 0; then 21 for a short
 * output. A refusal leaves the output as it was. */
struct scriptmaker_write_reply scriptmaker_bands(uint16_t count, const int32_t *low, size_t low_length,
                                                 const int32_t *high, size_t high_length, const int32_t *grade,
                                                 size_t grade_length, uint8_t *out, size_t out_length);

#ifdef __cplusplus
}
#endif

/* Tables as long as any script needs, and stores as long as any fuel needs. They are large: hold them outside the stack. */
struct scriptmaker_script {
    struct scriptmaker_counts counts;
    uint16_t parameters[SCRIPTMAKER_TYPES], results[SCRIPTMAKER_TYPES], inputs[SCRIPTMAKER_INPUTS];
    uint8_t kinds[SCRIPTMAKER_NODES];
    uint16_t a[SCRIPTMAKER_NODES], b[SCRIPTMAKER_NODES], c[SCRIPTMAKER_NODES];
    int32_t values[SCRIPTMAKER_NODES];
};

struct scriptmaker_stores {
    uint64_t heap[SCRIPTMAKER_HEAP], codes[SCRIPTMAKER_CODES];
};

/* The columns of such a script as arguments. */
#define SCRIPTMAKER_OF(s)                                                                                          \
    (s)->parameters, SCRIPTMAKER_TYPES, (s)->results, SCRIPTMAKER_TYPES, (s)->inputs, SCRIPTMAKER_INPUTS,          \
        (s)->kinds, SCRIPTMAKER_NODES, (s)->a, SCRIPTMAKER_NODES, (s)->b, SCRIPTMAKER_NODES, (s)->c,               \
        SCRIPTMAKER_NODES, (s)->values, SCRIPTMAKER_NODES

/* The stores as arguments. */
#define SCRIPTMAKER_IN(m) (m)->heap, SCRIPTMAKER_HEAP, (m)->codes, SCRIPTMAKER_CODES

#endif
