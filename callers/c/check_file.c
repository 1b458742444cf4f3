/* Checks a module file and prints as the report program does: the counts, then kind, file, line and column of each error; turned back,
 * the number and the place. Then the errors as messages, a line each. Last come two answers about rows, which any table has: what the
 * other three functions say of them. */
#include <inttypes.h>
#include <stdio.h>

#include "delta_null_type_check.h"

enum { INPUT_BYTES = 65537, ROWS = 3000, ERRORS = 2000, WORK_WORDS = 16376 };

/* Rows that every table begins with. */
enum { VOID_ROW = 2, U16_ROW = 4, I16_ROW = 5 };

/* One byte more than a module may have, so that a longer file is refused as such. */
static uint8_t input[INPUT_BYTES], output[INPUT_BYTES];
static uint8_t text[DELTA_NULL_LONGEST_TEXT];
static uint32_t rows[DELTA_NULL_ROW_WORDS * ROWS], errors[DELTA_NULL_ERROR_WORDS * ERRORS], work[WORK_WORDS];

/* What messages print for the type String. */
static const uint8_t string[] = {'S', 't', 'r', 'i', 'n', 'g'};

static size_t words(size_t bytes)
{
    return bytes / sizeof(uint32_t);
}

static void print_errors(size_t count)
{
    for (size_t i = 0; i < count; i++) {
        const uint32_t *e = errors + DELTA_NULL_ERROR_WORDS * i;
        printf("%u %u %u %u\n", e[0], e[1], e[2], e[3]);
    }
}

/* Prints the errors of the input as messages, or why they are refused; 0 if they are printed. */
static uint32_t print_messages(size_t input_length, uint32_t row_count, size_t error_count)
{
    size_t length, place;
    uint32_t refused = delta_null_messages(
        input, input_length, rows, words(sizeof rows), row_count, errors, words(sizeof errors), error_count, string, sizeof string,
        work, words(sizeof work), text, sizeof text, &length, &place);
    if (refused != 0) {
        printf("refused %u at %zu\n", refused, place);
        return refused;
    }
    fwrite(text, 1, length, stdout); /* names may be any bytes */
    return 0;
}

/* Asks the three questions about rows; 0 if all are answered. */
static uint32_t print_relations(uint32_t count)
{
    uint32_t assignable, castable, size, refused;
    uint64_t pairs;
    refused = delta_null_assignable(rows, words(sizeof rows), count, U16_ROW, I16_ROW, &assignable);
    if (refused != 0) {
        return refused;
    }
    refused = delta_null_castable(rows, words(sizeof rows), count, I16_ROW, U16_ROW, &castable, &pairs);
    if (refused != 0) {
        return refused;
    }
    refused = delta_null_word_size(rows, words(sizeof rows), count, VOID_ROW, &size);
    if (refused != 0) {
        return refused;
    }
    printf("i16 to u16: assignable %u castable %u pairs %" PRIu64 "; void: words %u\n", assignable, castable, pairs, size);
    return 0;
}

int main(int argc, char **argv)
{
    if (argc != 2) {
        fprintf(stderr, "usage: check_file FILE\n");
        return 2;
    }
    FILE *file = fopen(argv[1], "rb");
    if (file == NULL) {
        perror(argv[1]);
        return 2;
    }
    size_t length = fread(input, 1, sizeof input, file);
    if (ferror(file)) {
        perror(argv[1]);
        return 2;
    }
    fclose(file);

    uint32_t row_count;
    size_t error_count, place;
    uint32_t refused = delta_null_type_check_module(
        input, length, output, sizeof output, rows, words(sizeof rows), errors, words(sizeof errors), work, words(sizeof work),
        &row_count, &error_count, &place);
    if (refused != 0) {
        printf("refused %u at %zu\n", refused, place);
        return 1;
    }
    printf("rows %u errors %zu\n", row_count, error_count);
    print_errors(error_count);
    return print_messages(length, row_count, error_count) != 0 || print_relations(row_count) != 0;
}
