/* The type checker of Delta Null modules, for C and C++.
 *
 * Link crates/exports/out/libexports.a, which `rt lib` writes in crates/exports (x86-64 Linux).
 *
 * What is promised here is proved in Rattle: the contracts stand in crates/exports/src/lib.rt, and the definitions that they
 * cite in crates/exports/specs. The functions write nothing but the parts lent to them, keep no state, always return, and accept
 * any bytes and any words: what is wrong or too short is refused.
 *
 * A call needs at most 128 KB (131,072 bytes) of stack, whatever the module and the parts lent. No proof speaks of the stack: this is
 * measured, by callers/c/stack.c, on the deepest and the longest modules that were found; the most is 88,984 bytes.
 *
 * What a caller owes, since the proof takes it from the types `&` and `&mut`:
 *  - a pointer is not NULL, even where the length is 0, and is aligned for its type;
 *  - a length counts elements (bytes or words, not rows or errors), all of which may be read, and written unless const;
 *  - no two of the parts lent to one call overlap, and no other thread writes them during the call.
 *
 * Every function returns 0 if the call is accepted, else the number of the refusal. Each value behind a pointer to a single number
 * is written in every case: it is 0 where the answer has no such value, and what stood there before does not matter.
 */
#ifndef DELTA_NULL_TYPE_CHECK_H
#define DELTA_NULL_TYPE_CHECK_H

#include <stddef.h>
#include <stdint.h>

#ifdef __cplusplus
extern "C" {
#endif

/* Why a call is refused. The first test that holds is answered: for the check of a module 1 to 7 in their order, for the three questions
 * about rows 8 alone, for messages 1 to 4, then 8, then 5, then 9. */
enum delta_null_refusal {
    DELTA_NULL_ACCEPTED = 0,
    DELTA_NULL_TOO_LONG = 1,        /* the module has over 65,536 bytes */
    DELTA_NULL_LAYOUT_FAULT = 2,    /* the bytes break the layout; the place is that of the fault: 0 where there are 1 to 15 bytes */
    DELTA_NULL_TOO_DEEP = 3,        /* a record is due at depth 65; the place is the record's */
    DELTA_NULL_REPEATED_NAME = 4,   /* a name equals an earlier one; the place is that of the first such */
    DELTA_NULL_SHORT_LOAN = 5,      /* the output is shorter than the input, or there are fewer than 4 working words a name; for
                                       messages: there are fewer working words than rows */
    DELTA_NULL_TOO_MANY_ROWS = 6,   /* the module has more rows than whole rows are lent */
    DELTA_NULL_TOO_MANY_ERRORS = 7, /* the module has more errors than whole errors are lent */
    DELTA_NULL_BAD_ROWS = 8,        /* the row count is past the rows lent, the rows break a rule, that for the fifth word included,
                                       or a number is no type row; for messages also: a row's name or something that an error's
                                       message reads does not exist, or the error count is past the errors lent */
    DELTA_NULL_TEXT_TOO_LONG = 9    /* the text has more bytes than are lent or than 1,048,576; the place is how many it has, 1,048,577
                                       for anything above 1,048,576 */
};

/* Words of a row and of an error, and working words of a name. Rows and errors are lent in whole: a last part of one is not used. */
#define DELTA_NULL_ROW_WORDS 5
#define DELTA_NULL_ERROR_WORDS 8
#define DELTA_NULL_NAME_WORDS 4

/* A row is its kind, first, second, name and size. The size is how many words its type has, at most 65,535, or one of these. Of a field
 * cell it is that of its type and of the cells that follow together; of an argument cell 0, or unknown if it or a cell that follows has
 * Unknown inside. */
#define DELTA_NULL_SIZE_TOO_LARGE 65536u /* above 65,535 words */
#define DELTA_NULL_SIZE_UNKNOWN 65537u   /* Unknown inside, other than behind a pointer */

/* An error is its kind, file, line, column, three operands and place. Operands that the kind does not use are 0. The place is 0, but for a
 * literal that is out of range, kind 23: there it is that of the first byte of the literal's record, from the start of the module. */

/* The bytes of the longest text that messages write. */
#define DELTA_NULL_LONGEST_TEXT 1048576

/* Checks a module. A module of no bytes is the one without names and items: it needs seven rows and nothing else lent.
 *
 * Accepted (0): the output begins with the module, each of its type slots filled with the number of a type row; the rows begin with
 * *row_count rows, the errors with *error_count errors in their order. What lies past these, and the output past the input's length, is
 * as it was. *place is 0.
 *
 * Refused with 1 to 5: every part lent is as it was. Refused with 6 or 7: the output's first input_length bytes and every word of
 * the rows and errors are 0. *row_count and *error_count are 0, *place is that of the refusal, or 0.
 *
 * Accepted, or refused with 6 or 7: the first 4 working words a name are 0, the others are as they were. */
uint32_t delta_null_type_check_module(
    const uint8_t *input, size_t input_length,
    uint8_t *output, size_t output_length,
    uint32_t *rows, size_t rows_length,
    uint32_t *errors, size_t errors_length,
    uint32_t *work, size_t work_length,
    uint32_t *row_count, size_t *error_count, size_t *place);

/* Writes the errors of a module as messages: for each of the first error_count errors the Rust checker's description, and byte 10; no errors
 * are no bytes. The module lent is the input as it was read: the output of a check has filled slots and is refused with 2. The types are
 * those of the first row_count rows. Names and digits are copied byte by byte from the module; for the type String what is lent as built_in
 * is printed, whatever it is. Nothing is written behind the last byte 10.
 *
 * Tested in this order:
 *  - 1 to 4 on the module, as for a check; the place is that of the refusal;
 *  - 8, at 0: the rows break a rule or are fewer than row_count; a row of kind 10 to 12 other than row 7 has a name that is past the
 *    module's names; the errors are fewer than error_count; an error has a kind that is not 1 to 29, a name that is past the names, a type
 *    that is no type row, an operator that is not 1 to 9, of kind 23 a place at which no literal's record starts, of kind 3 a name other
 *    than u16, i16, bool and String. Words that no message reads may be anything: file, line, column, operands that the kind does not
 *    use, the place of other kinds;
 *  - 5, at 0: work_length is less than row_count;
 *  - 9: the text is longer than text_length or than 1,048,576 bytes; *place is the length needed, or 1,048,577.
 *
 * Accepted (0): the text begins with the messages, *length is how many bytes they have, the bytes past it are as they were. *place is 0.
 * Refused: the text is as it was, *length is 0.
 * Accepted, or refused with 9: working word i is the length of the text of row i + 1, at most 1,048,577, for each of the row_count rows;
 * the others are as they were. Else all working words are as they were.
 *
 * The time grows with the module, the rows and the text, however often a type stands in others. */
uint32_t delta_null_messages(
    const uint8_t *input, size_t input_length,
    const uint32_t *rows, size_t rows_length, uint32_t row_count,
    const uint32_t *errors, size_t errors_length, size_t error_count,
    const uint8_t *built_in, size_t built_in_length,
    uint32_t *work, size_t work_length,
    uint8_t *text, size_t text_length,
    size_t *length, size_t *place);

/* Whether a value of the type of row source may be assigned to a place of the type of row target: *answer is 1 or 0.
 * The table is the first count rows. Refused with 8 alone; then *answer is 0. */
uint32_t delta_null_assignable(
    const uint32_t *rows, size_t rows_length,
    uint32_t count, uint32_t target, uint32_t source, uint32_t *answer);

/* Whether a value of the type of row source may be cast to the type of row target: *answer is 1 or 0.
 * The table is the first count rows. Refused with 8 alone; then *answer and *pairs are 0. Mind the order of the two rows.
 * If it may, the two rows have the same size: a cast keeps a value's words.
 *
 * *pairs is how many pairs were tried. The strips of a type are the type with 0, 1, 2 .. distinct aliases taken off its top; a transparent
 * alias ends them. Each strip of the source from 0 on is tried with each strip of the target from 0 on, up to the first pair that fits,
 * which is counted too. Accepted, with n distinct aliases at the top of the source and m at the target's, *pairs is at least 1 and at
 * most (n + 1) * (m + 1), and exactly that if *answer is 0; it may be past 32 bits.
 * The time grows with the rows and with *pairs. A cast in a module that is checked takes about n + m steps instead. */
uint32_t delta_null_castable(
    const uint32_t *rows, size_t rows_length,
    uint32_t count, uint32_t source, uint32_t target, uint32_t *answer, uint64_t *pairs);

/* How many words the type of row n has: *size is the row's size, at most 65,535 or one of the two above.
 * The table is the first count rows. Refused with 8 alone; then *size is 0. */
uint32_t delta_null_word_size(
    const uint32_t *rows, size_t rows_length,
    uint32_t count, uint32_t n, uint32_t *size);

#ifdef __cplusplus
}
#endif

#endif
