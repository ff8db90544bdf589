/* Opens a kept field, starts its source book, steps it four times (the second step is refused for its total, the third for its scale), makes
 * bounds from mixing ratios (at first with a ratio that is refused) and steps the field with them, reports its book, steps two tracers under one
 * cap (a step that would pass the cap is refused), each with a book of its own, imports a cell's doubles, exports a mass as a double and one as a
 * binary32, writes the field as a file, also with two cells edited, and repairs these files, and repairs the file named. Usage: example
 * FIELD_FILE. The status is 0 if all were repaired, else 1. */
#include <inttypes.h>
#include <stdio.h>

#include "legzhuro.h"

#define CELLS 4
#define NODES 7

struct bounds {
    uint32_t lows[CELLS], highs[CELLS], safe_lows[CELLS], safe_highs[CELLS];
};

/* The field that is stepped and written. */
static const int32_t targets[CELLS] = {-2, 9, 4, 5};
static const struct bounds field_bounds = {{0, 0, 0, 0}, {8, 8, 8, 8}, {0, 0, 0, 0}, {10, 10, 10, 10}};
static const uint32_t weights[CELLS] = {0, 0, 0, 0};
static const uint32_t parents[NODES] = {4, 4, 5, 5, 6, 6, 6};

/* Prints a refusal's number and place. */
static int refused(uint64_t returned) {
    printf(" refused %" PRIu32 " %" PRIu32 "\n", LEGZHURO_NUMBER(returned), LEGZHURO_PLACE(returned));
    return 1;
}

static void print_list(const char *name, const uint32_t *list, size_t cells) {
    printf(" %s", name);
    for (size_t c = 0; c < cells; c++) printf(" %" PRIu32, list[c]);
}

static void print_masses(const uint32_t *masses, size_t cells) {
    print_list("masses", masses, cells);
    printf("\n");
}

/* The balance of a kept field: balance[0] is its total, balance[1] its scale. */
static int open_field(const uint32_t *kept, uint32_t scale, uint64_t *balance) {
    printf("open:");
    uint64_t returned = legzhuro_open(kept, CELLS, scale, balance, 2);
    if (returned != 0) return refused(returned);
    printf(" total %" PRIu64 " scale %" PRIu64 "\n", balance[0], balance[1]);
    return 0;
}

/* The book of a kept field: its bytes, and how many of them it has. */
struct book {
    uint8_t bytes[LEGZHURO_BOOK];
    size_t length;
};

/* A book that opens with the total standing. The same replaces a book that is full, when a step is refused with 21. */
static int start_book(struct book *book, uint64_t total) {
    uint64_t answer[1];

    printf("book:");
    uint64_t returned = legzhuro_book_start((uint32_t)total, book->bytes, LEGZHURO_BOOK, answer, 1);
    if (returned != 0) return refused(returned);
    book->length = (size_t)answer[0];
    printf(" length %" PRIu64 "\n", answer[0]);
    return 0;
}

static int report_book(const struct book *book) {
    uint64_t answer[4];

    printf("book:");
    uint64_t returned = legzhuro_book_report(book->bytes, book->length, answer, 4);
    if (returned != 0) return refused(returned);
    printf(" opening %" PRIu64 " in %" PRIu64 " out %" PRIu64 " closing %" PRIu64 " length %zu\n", answer[0], answer[1], answer[2], answer[3],
           book->length);
    return 0;
}

static int step(uint64_t *balance, uint32_t *kept, struct book *book, int32_t source, uint32_t scale, const struct bounds *bounds) {
    static int64_t scratch[LEGZHURO_SCRATCH * NODES];
    uint64_t answer[5];

    printf("step %" PRId32 " at scale %" PRIu32 ":", source, scale);
    uint64_t returned =
        legzhuro_step((uint32_t)balance[0], (uint32_t)balance[1], kept, CELLS, source, scale, targets, CELLS, bounds->lows, CELLS,
                      bounds->highs, CELLS, bounds->safe_lows, CELLS, bounds->safe_highs, CELLS, weights, CELLS, parents, NODES, scratch,
                      LEGZHURO_SCRATCH * NODES, book->bytes, LEGZHURO_BOOK, book->length, answer, 5);
    if (returned != 0) return refused(returned);
    balance[0] = answer[1];
    book->length = (size_t)answer[4];
    printf(" outcome %" PRIu64 " total %" PRIu64 " change %" PRIu64 " shared %" PRIu64, answer[0], answer[1], answer[2], answer[3]);
    print_masses(kept, CELLS);
    return 0;
}

/* Bounds by each cell's air mass, and a ratio of a quarter but for the high ratio of cell 2. */
static int make_bounds(uint32_t high_ratio, struct bounds *bounds) {
    const uint32_t quarter = LEGZHURO_RATIO / 4, air[CELLS] = {8, 16, 4, 12};
    const uint32_t low_ratios[CELLS] = {quarter, quarter, quarter, quarter}, high_ratios[CELLS] = {quarter, quarter, high_ratio, quarter};

    printf("bounds:");
    uint64_t returned = legzhuro_bounds(air, CELLS, low_ratios, CELLS, high_ratios, CELLS, bounds->lows, CELLS, bounds->highs, CELLS,
                                        bounds->safe_lows, CELLS, bounds->safe_highs, CELLS);
    if (returned != 0) return refused(returned);
    print_list("lows", bounds->lows, CELLS);
    print_list("highs", bounds->highs, CELLS);
    print_list("safe lows", bounds->safe_lows, CELLS);
    print_list("safe highs", bounds->safe_highs, CELLS);
    printf("\n");
    return 0;
}

/* With all ratios equal and each product whole, every mass is air times ratio, whatever the targets. */
static int step_by_ratios(uint64_t *balance, uint32_t *kept, struct book *book) {
    struct bounds bounds;

    make_bounds(LEGZHURO_RATIO + 1, &bounds);
    if (make_bounds(LEGZHURO_RATIO / 4, &bounds) != 0) return 1;
    return step(balance, kept, book, 3, 1, &bounds);
}

/* Two tracers over the same cells: the list of the family, and of each tracer the kept masses and the book. */
#define TRACERS 2

struct tracers {
    uint64_t family[LEGZHURO_FAMILY];
    uint32_t kept[TRACERS][CELLS];
    struct book books[TRACERS];
};

/* A tracer is opened, and its book started from its total. */
static int open_tracer(struct tracers *tracers, uint32_t member, uint32_t scale) {
    uint64_t answer[2];

    printf("tracer %" PRIu32 " open:", member);
    uint64_t returned = legzhuro_family_open(tracers->family, LEGZHURO_FAMILY, member, tracers->kept[member], CELLS, scale, answer, 2);
    if (returned != 0) return refused(returned);
    printf(" total %" PRIu64 " scale %" PRIu64 "\n", answer[0], answer[1]);
    printf("tracer %" PRIu32 " ", member);
    return start_book(&tracers->books[member], answer[0]);
}

/* A tracer that has a step to make waits for its turn. */
static int register_tracer(struct tracers *tracers, uint32_t member) {
    uint64_t waiting[1];

    printf("tracer %" PRIu32 " registers:", member);
    uint64_t returned = legzhuro_family_register(tracers->family, LEGZHURO_FAMILY, member);
    if (returned == 0) returned = legzhuro_family_waiting(tracers->family, LEGZHURO_FAMILY, waiting, 1);
    if (returned != 0) return refused(returned);
    printf(" waiting %" PRIu64 "\n", waiting[0]);
    return 0;
}

/* A turn, with a source for each tracer: the next one is lent its own masses and its own book. */
static int turn(struct tracers *tracers, const int32_t sources[TRACERS], uint32_t scale) {
    static int64_t scratch[LEGZHURO_SCRATCH * NODES];
    const struct bounds *bounds = &field_bounds;
    uint64_t next[1], answer[7];

    uint64_t returned = legzhuro_family_next(tracers->family, LEGZHURO_FAMILY, next, 1);
    if (returned != 0) return refused(returned);
    uint64_t member = next[0] == LEGZHURO_NOBODY ? 0 : next[0]; /* with nobody waiting nothing is written, whatever is lent */
    struct book *book = &tracers->books[member];
    printf("turn:");
    returned = legzhuro_family_turn(tracers->family, LEGZHURO_FAMILY, tracers->kept[member], CELLS, sources[member], scale, targets, CELLS,
                                    bounds->lows, CELLS, bounds->highs, CELLS, bounds->safe_lows, CELLS, bounds->safe_highs, CELLS, weights,
                                    CELLS, parents, NODES, scratch, LEGZHURO_SCRATCH * NODES, book->bytes, LEGZHURO_BOOK, book->length,
                                    answer, 7);
    if (returned != 0) return refused(returned);
    if (answer[0] == LEGZHURO_NOBODY) {
        printf(" idle\n");
        return 0;
    }
    printf(" tracer %" PRIu64 " step %" PRId32 ":", answer[0], sources[member]);
    if (answer[1] != 0) return refused(answer[1]);
    book->length = (size_t)answer[6];
    printf(" outcome %" PRIu64 " total %" PRIu64 " change %" PRIu64 " shared %" PRIu64, answer[2], answer[3], answer[4], answer[5]);
    print_masses(tracers->kept[member], CELLS);
    return 0;
}

/* A cap of 30 on both totals together, and a turn for each tracer that registers: tracer 0 is first, a source of 7 is too much for tracer 1, and
 * nobody waits any more; tracer 1 registers again with a source of 6. */
static int step_tracers(void) {
    static struct tracers tracers = {.kept = {{1, 2, 3, 4}, {2, 2, 2, 2}}};
    const int32_t sources[TRACERS] = {6, 7}, less[TRACERS] = {6, 6};

    printf("family:");
    uint64_t returned = legzhuro_family_start(30, 1, CELLS, tracers.family, LEGZHURO_FAMILY);
    if (returned != 0) return refused(returned);
    printf(" cap %" PRIu64 "\n", tracers.family[0]);
    if (open_tracer(&tracers, 0, 1) != 0 || open_tracer(&tracers, 1, 1) != 0) return 1;
    if (register_tracer(&tracers, 1) != 0 || register_tracer(&tracers, 0) != 0 || register_tracer(&tracers, 1) != 0) return 1;
    for (int i = 0; i <= TRACERS; i++) turn(&tracers, sources, 1);
    if (register_tracer(&tracers, 1) != 0) return 1;
    if (turn(&tracers, less, 1) != 0) return 1;
    for (int i = 0; i < TRACERS; i++) {
        printf("tracer %d ", i);
        if (report_book(&tracers.books[i]) != 0) return 1;
    }
    return 0;
}

static int convert(void) {
    int64_t units[5];
    double value[1];
    float single[1];

    printf("import:");
    uint64_t returned = legzhuro_import(2.5, -0.25, 7.75, 0.0, 10.0, 0, units, 5);
    if (returned != 0) return refused(returned);
    for (int i = 0; i < 5; i++) printf(" %" PRId64, units[i]);
    printf("\nexport:");
    returned = legzhuro_export(3, 1, value, 1);
    if (returned != 0) return refused(returned);
    printf(" %g\nexport single:", value[0]);
    returned = legzhuro_export_single(16777219, 1, single, 1);
    if (returned != 0) return refused(returned);
    printf(" %.1f\n", (double)single[0]);
    return 0;
}

/* Repairs a field file and reads the answer. */
static int repair(const uint8_t *file, size_t length) {
    static uint8_t answer_file[LEGZHURO_MAX_ANSWER_FILE];
    static uint32_t masses[LEGZHURO_MAX_CELLS];
    uint64_t answer[5];

    uint32_t number = legzhuro_reconstruct(file, length, answer_file, sizeof answer_file);
    if (number != 0) return refused(number);
    size_t cells = file[8] + 256u * file[9]; /* where a field file has its number of cells */
    uint64_t returned = legzhuro_read_answer(answer_file, LEGZHURO_ANSWER_FILE(cells), masses, LEGZHURO_MAX_CELLS, answer, 5);
    if (returned != 0) return refused(returned);
    printf(" outcome %" PRIu64 " cells %" PRIu64 " total %" PRIu64 " change %" PRIu64 " shared %" PRIu64, answer[1], answer[0], answer[2],
           answer[3], answer[4]);
    print_masses(masses, cells);
    return 0;
}

/* Writes the field with these targets as a file, and repairs that. */
static int repair_written(const char *name, const int32_t *written, uint32_t total) {
    static uint8_t file[LEGZHURO_FIELD_FILE(CELLS, NODES)];

    printf("%s:", name);
    uint64_t returned = legzhuro_write_field(CELLS, NODES, total, written, CELLS, field_bounds.lows, CELLS, field_bounds.highs, CELLS,
                                             field_bounds.safe_lows, CELLS, field_bounds.safe_highs, CELLS, weights, CELLS, parents, NODES,
                                             file, sizeof file);
    if (returned != 0) return refused(returned);
    return repair(file, sizeof file);
}

/* Cells 0 and 1 lie below node 4. Edited so that their targets add up to what they did, they leave the masses of cells 2 and 3 as they were; with
 * another sum these move. */
static int repair_edited(uint32_t total) {
    const int32_t edited[CELLS] = {6, 1, 4, 5}, another[CELLS] = {6, 9, 4, 5};

    if (repair_written("written", targets, total) != 0 || repair_written("edited", edited, total) != 0) return 1;
    return repair_written("another sum", another, total);
}

static int repair_read(FILE *in) {
    static uint8_t file[LEGZHURO_MAX_FIELD_FILE + 1]; /* a byte more, so that a longer file is refused */
    size_t length = fread(file, 1, sizeof file, in);

    printf("file:");
    return repair(file, length);
}

int main(int argc, char **argv) {
    static struct book book;
    uint32_t kept[CELLS] = {1, 2, 3, 4};
    uint64_t balance[2];

    FILE *in = argc == 2 ? fopen(argv[1], "rb") : NULL;
    if (in == NULL) {
        fprintf(stderr, "usage: example FIELD_FILE, a file that can be read\n");
        return 1;
    }
    if (open_field(kept, 1, balance) != 0 || start_book(&book, balance[0]) != 0) return 1;
    step(balance, kept, &book, 6, 1, &field_bounds);
    step(balance, kept, &book, 100, 1, &field_bounds);
    step(balance, kept, &book, -9, 2, &field_bounds);
    step(balance, kept, &book, -9, 1, &field_bounds);
    if (step_by_ratios(balance, kept, &book) != 0 || report_book(&book) != 0) return 1;
    if (step_tracers() != 0 || convert() != 0 || repair_edited(16) != 0) return 1;
    int status = repair_read(in);
    fclose(in);
    return status;
}
