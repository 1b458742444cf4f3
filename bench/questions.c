/* Measures the questions about rows, each of which validates the whole table first:  questions
 * A line for each class of tables: its name, then for each number of rows the microseconds of one call of delta_null_assignable and of one
 * of delta_null_word_size, the fastest of some rounds. Last delta_null_castable from distinct aliases over bool to as many over u16, where
 * no pair fits: for each number of aliases the microseconds of one call, and the nanoseconds of it for each of the pairs. */
#include <stdio.h>
#include <stdlib.h>
#include <time.h>

#include "delta_null_type_check.h" /* of the library that is measured */

enum { FIXED = 7, MOST_ROWS = 24000, ROUNDS = 40, LEAST_ROUNDS = 3 };
enum { UNKNOWN = 1, VOID = 2, BOOL = 3, U16 = 4, POINTER = 6, ARRAY = 7, STRUCT = 8, ALIAS = 10, DISTINCT = 11, FIELD = 12 };
enum { STRING_NAME = 65535 };

/* As long as these nanoseconds, more rounds than the least are made. */
static const double LONG = 2e8;

static const uint32_t counts[] = {375, 750, 1500, 3000, 6000, 12000, 24000};
static const uint32_t lengths[] = {125, 250, 500};
static uint32_t rows[MOST_ROWS * DELTA_NULL_ROW_WORDS], count;

#if DELTA_NULL_ROW_WORDS == 4
/* Before rows had their size: word_size was lent a working word a row. */
static uint32_t work[MOST_ROWS];
#define word_size(rows, words, count, n, size) delta_null_word_size(rows, words, count, n, work, count, size)
static void put_size(uint32_t *row) { (void)row; }
#else
#define word_size delta_null_word_size

static uint32_t size_of(uint32_t number) { return number ? rows[(number - 1) * DELTA_NULL_ROW_WORDS + 4] : 0; }

/* The size of a row of one of the kinds below. */
static void put_size(uint32_t *row) {
    uint64_t size = 1;
    if (row[0] == UNKNOWN) size = DELTA_NULL_SIZE_UNKNOWN;
    if (row[0] == VOID) size = 0;
    if (row[0] == ARRAY) size = (uint64_t)row[2] * size_of(row[1]);
    if (row[0] == FIELD) size = size_of(row[1]) + size_of(row[2]);
    if (row[0] == STRUCT || row[0] == ALIAS || row[0] == DISTINCT) size = size_of(row[1]);
    row[4] = row[0] != UNKNOWN && size > DELTA_NULL_SIZE_TOO_LARGE ? DELTA_NULL_SIZE_TOO_LARGE : size;
}
#endif

static uint32_t add(uint32_t kind, uint32_t first, uint32_t second, uint32_t name) {
    uint32_t *row = rows + count * DELTA_NULL_ROW_WORDS;
    row[0] = kind, row[1] = first, row[2] = second, row[3] = name;
    put_size(row);
    return ++count;
}

static void add_fixed(void) {
    count = 0;
    for (uint32_t kind = 1; kind <= 5; kind++) add(kind, 0, 0, 0);
    add(POINTER, U16, 0, 0);
    add(DISTINCT, POINTER, 0, STRING_NAME);
}

/* Arrays of u16 of so many sizes. */
static void array_sizes(uint32_t size) { add(ARRAY, U16, size, 0); }

/* Arrays whose rows share one bucket of the product's index of rows. */
static void one_bucket(uint32_t size) {
    static uint64_t next;
    if (size == 0) next = 0;
    while ((ARRAY * 268435399ull + U16 * 165580141ull + next * 228826127ull) / 262144 % 512) next++;
    add(ARRAY, U16, next++, 0);
}

/* Each a pointer to the one before. */
static void pointers(uint32_t number) { add(POINTER, number ? count : 7, 0, 0); }

/* One list of fields, all of one name. */
static void fields_of_one_name(uint32_t number) { add(FIELD, U16, number ? count : 0, 1); }

/* Aliases of u16, each of its own name. */
static void aliases(uint32_t number) { add(ALIAS, U16, 0, number < STRING_NAME ? number + 1 : number + 2); }

/* Structs of one field, each of its own name. */
static void structs(uint32_t number) {
    uint32_t field = add(FIELD, U16, 0, number + 1);
    if (count < MOST_ROWS) add(STRUCT, field, 0, 0);
}

static const struct {
    const char *name;
    void (*add_next)(uint32_t);
} classes[] = {
    {"array sizes", array_sizes}, {"aliases", aliases}, {"structs", structs}, {"pointers", pointers},
    {"fields of one name", fields_of_one_name}, {"rows of one bucket", one_bucket},
};

/* So many distinct aliases over a type; the last of them. */
static uint32_t chain(uint32_t of, uint32_t length) {
    while (length--) of = add(DISTINCT, of, 0, 0);
    return of;
}

static uint32_t ask_assignable(uint32_t *answer) {
    return delta_null_assignable(rows, count * DELTA_NULL_ROW_WORDS, count, U16, U16, answer);
}

static uint32_t ask_size(uint32_t *answer) { return word_size(rows, count * DELTA_NULL_ROW_WORDS, count, U16, answer); }

/* A library from before casts were counted has no last parameter, and ignores it. */
typedef uint32_t ask_castable(const uint32_t *, size_t, uint32_t, uint32_t, uint32_t, uint32_t *, uint64_t *);
static ask_castable *volatile castable = (ask_castable *)(void (*)(void))delta_null_castable;
static uint32_t source, target;
static uint64_t all_pairs;

static uint32_t ask_cast(uint32_t *answer) {
    uint64_t pairs = 0; /* and stays so with that library */
    uint32_t refused = castable(rows, count * DELTA_NULL_ROW_WORDS, count, source, target, answer, &pairs);
    if (pairs && pairs != all_pairs) {
        fprintf(stderr, "questions: not as many pairs are tried as there are\n");
        exit(1);
    }
    return refused;
}

static double now(void) {
    struct timespec time;
    clock_gettime(CLOCK_MONOTONIC, &time);
    return time.tv_sec * 1e9 + time.tv_nsec;
}

/* Microseconds of one call, the answer of which is known. */
static double fastest(uint32_t (*ask)(uint32_t *), uint32_t expected) {
    double start = now(), best = 1e18;
    for (int round = 0; round < LEAST_ROUNDS || (round < ROUNDS && now() - start < LONG); round++) {
        uint32_t answer;
        double turn = now();
        uint32_t refused = ask(&answer);
        double time = (now() - turn) / 1e3;
        if (refused || answer != expected) {
            fprintf(stderr, "questions: a good table is refused with %u, or the answer is %u\n", refused, answer);
            exit(1);
        }
        if (time < best) best = time;
    }
    return best;
}

static void measure_casts(void) {
    printf("casts between distinct aliases:");
    for (size_t size = 0; size < sizeof lengths / sizeof *lengths; size++) {
        add_fixed();
        source = chain(BOOL, lengths[size]), target = chain(U16, lengths[size]);
        all_pairs = (uint64_t)(lengths[size] + 1) * (lengths[size] + 1);
        double time = fastest(ask_cast, 0);
        printf(" %u aliases %.1f, %.2f;", lengths[size], time, time * 1e3 / all_pairs);
    }
    printf("\n");
}

int main(void) {
    for (size_t class = 0; class < sizeof classes / sizeof *classes; class++) {
        printf("%s:", classes[class].name);
        for (size_t size = 0; size < sizeof counts / sizeof *counts; size++) {
            add_fixed();
            for (uint32_t number = 0; count < counts[size]; number++) classes[class].add_next(number);
            printf(" %u rows %.1f, %.1f;", count, fastest(ask_assignable, 1), fastest(ask_size, 1));
            fflush(stdout);
        }
        printf("\n");
    }
    measure_casts();
    return 0;
}
