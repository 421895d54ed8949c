/* Each entry as the header has it, on what one struct lends; all that it tells stands in another. Both structs are those of
 * ways.rs. The settings are the numbers of a plain run too. */
#include "scriptmaker.h"

struct lent {
    const uint8_t *file;
    size_t file_length;
    struct scriptmaker_counts counts;
    uint16_t *parameters;
    size_t parameters_length;
    uint16_t *results;
    size_t results_length;
    uint16_t *inputs;
    size_t inputs_length;
    uint8_t *kinds;
    size_t kinds_length;
    uint16_t *a;
    size_t a_length;
    uint16_t *b;
    size_t b_length;
    uint16_t *c;
    size_t c_length;
    int32_t *values;
    size_t values_length;
    const int32_t *settings;
    size_t settings_length;
    uint32_t fuel;
    uint64_t *heap;
    size_t heap_length;
    uint64_t *codes;
    size_t codes_length;
    uint8_t *out;
    size_t out_length;
};

struct told {
    uint8_t number;
    size_t place;
    uint16_t steps;
    struct scriptmaker_counts counts;
    size_t length;
    uint16_t nodes;
    uint8_t function;
    int32_t value;
};

#define COLUMNS                                                                                                \
    l->parameters, l->parameters_length, l->results, l->results_length, l->inputs, l->inputs_length, l->kinds, \
        l->kinds_length, l->a, l->a_length, l->b, l->b_length, l->c, l->c_length, l->values, l->values_length
#define MAKING \
    l->settings, l->settings_length, l->fuel, l->heap, l->heap_length, l->codes, l->codes_length, l->out, l->out_length

void header_read(const struct lent *l, struct told *t) {
    struct scriptmaker_read_reply r = scriptmaker_read(l->file, l->file_length, COLUMNS);
    *t = (struct told){.number = r.number, .place = r.place, .counts = r.counts};
}

void header_write(const struct lent *l, struct told *t) {
    struct scriptmaker_write_reply r = scriptmaker_write(l->counts, COLUMNS, l->out, l->out_length);
    *t = (struct told){.number = r.number, .place = r.place, .length = r.length};
}

void header_list(const struct lent *l, struct told *t) {
    struct scriptmaker_write_reply r = scriptmaker_list(l->counts, COLUMNS, l->out, l->out_length);
    *t = (struct told){.number = r.number, .place = r.place, .length = r.length};
}

void header_check(const struct lent *l, struct told *t) {
    struct scriptmaker_check_reply r = scriptmaker_check(l->counts, COLUMNS);
    *t = (struct told){.number = r.number, .place = r.place};
}

/* The reply of a making tells no length; a made file has no types, the same inputs, and the nodes of the code. */
static void made(const struct lent *l, struct scriptmaker_make_reply r, struct told *t) {
    size_t length = r.number ? 0 : 8 + 4 * (size_t)l->counts.inputs + 13 * (size_t)r.nodes;
    *t = (struct told){.number = r.number, .place = r.place, .steps = r.steps, .length = length, .nodes = r.nodes};
}

void header_make(const struct lent *l, struct told *t) {
    made(l, scriptmaker_make(l->counts, COLUMNS, MAKING), t);
}

void header_bare_run(const struct lent *l, struct told *t) {
    made(l, scriptmaker_bare_run(l->counts, COLUMNS, MAKING), t);
}

void header_run(const struct lent *l, struct told *t) {
    struct scriptmaker_run_reply r =
        scriptmaker_run(l->counts, COLUMNS, l->settings, l->settings_length, l->fuel, l->heap, l->heap_length);
    *t =
        (struct told){.number = r.number, .place = r.place, .steps = r.steps, .function = r.function, .value = r.value};
}

/* Bands take no script. Both structs are those of bands.rs. */
struct lent_rows {
    uint16_t count;
    const int32_t *low;
    size_t low_length;
    const int32_t *high;
    size_t high_length;
    const int32_t *grade;
    size_t grade_length;
    uint8_t *out;
    size_t out_length;
};

struct told_rows {
    uint8_t number;
    size_t place;
    size_t length;
};

void header_bands(const struct lent_rows *l, struct told_rows *t) {
    struct scriptmaker_write_reply r = scriptmaker_bands(l->count, l->low, l->low_length, l->high, l->high_length,
                                                         l->grade, l->grade_length, l->out, l->out_length);
    *t = (struct told_rows){.number = r.number, .place = r.place, .length = r.length};
}
