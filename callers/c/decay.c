/* A pointer to an array decays to a pointer to its element, and can be cast to it; behind a transparent alias, of the one or the other, it
 * decays and cannot be cast (document 02, paper 5); to a distinct alias of that pointer it can be cast, at the second pair (paper 11), and
 * does not decay. The rows are those of crates/relations/specs/Decay.antt, where the first two are proved. Prints the answers for each;
 * fails if one is refused. */
#include <inttypes.h>
#include <stdio.h>

#include "delta_null_type_check.h"

enum { COUNT = 11, LENGTH = DELTA_NULL_ROW_WORDS * COUNT };

/* The rows that are asked about. */
enum { U16_POINTER = 6, STRING = 7, U16_POINTER_ALIAS = 8, ARRAY_POINTER = 10, ARRAY_POINTER_ALIAS = 11 };

static const uint32_t rows[LENGTH] = {
    1, 0, 0, 0, DELTA_NULL_SIZE_UNKNOWN, /* Unknown */
    2, 0, 0, 0, 0,                       /* void */
    3, 0, 0, 0, 1,                       /* bool */
    4, 0, 0, 0, 1,                       /* u16 */
    5, 0, 0, 0, 1,                       /* i16 */
    6, 4, 0, 0, 1,                       /* *u16 */
    11, 6, 0, 65535, 1,                  /* String, a distinct alias of *u16 */
    10, 6, 0, 0, 1,                      /* A, a transparent alias of *u16 */
    7, 4, 4, 0, 4,                       /* [4]u16 */
    6, 9, 0, 0, 1,                       /* *[4]u16 */
    10, 10, 0, 1, 1,                     /* B, a transparent alias of *[4]u16 */
};

/* Prints what the three functions say of a source and a target; 0 if all are answered. */
static uint32_t print_pair(const char *name, uint32_t source, uint32_t target)
{
    uint32_t assignable, castable, from, to, refused;
    uint64_t pairs = UINT64_MAX; /* all of it is written */
    refused = delta_null_assignable(rows, LENGTH, COUNT, target, source, &assignable);
    if (refused != 0) {
        return refused;
    }
    refused = delta_null_castable(rows, LENGTH, COUNT, source, target, &castable, &pairs);
    if (refused != 0) {
        return refused;
    }
    refused = delta_null_word_size(rows, LENGTH, COUNT, source, &from);
    if (refused != 0) {
        return refused;
    }
    refused = delta_null_word_size(rows, LENGTH, COUNT, target, &to);
    if (refused != 0) {
        return refused;
    }
    printf("%s: assignable %u castable %u pairs %" PRIu64 "; words %u, %u\n", name, assignable, castable, pairs, from, to);
    return 0;
}

int main(void)
{
    return print_pair("*[4]u16 to *u16", ARRAY_POINTER, U16_POINTER) != 0
        || print_pair("alias of *[4]u16 to *u16", ARRAY_POINTER_ALIAS, U16_POINTER) != 0
        || print_pair("*[4]u16 to alias of *u16", ARRAY_POINTER, U16_POINTER_ALIAS) != 0
        || print_pair("*[4]u16 to String", ARRAY_POINTER, STRING) != 0;
}
