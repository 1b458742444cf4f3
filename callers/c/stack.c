/* Checks the deepest and the longest modules on a thread with a small stack:  stack [BYTES], 131,072 unless told otherwise.
 * A line for each module: its words, its bytes and levels, and the bytes of stack that the check takes, below the caller's frame
 * and in all, then those that its messages take; then the same for the messages of many errors, of long rows and of texts of about a
 * million bytes, and for the dearest cast that the rows have room for. Ends with 1 if one needs more, is not answered as expected, or what
 * is lent is not left as promised. */
#define _DEFAULT_SOURCE /* for MAP_ANONYMOUS */
#include <ctype.h>
#include <pthread.h>
#include <signal.h>
#include <stdbool.h>
#include <stdint.h>
#include <stdio.h>
#include <stdlib.h>
#include <string.h>
#include <sys/mman.h>
#include <unistd.h>

#include "delta_null_type_check.h"

enum { MOST_BYTES = 65536, MOST_LEVELS = 64, PAGE = 4096 };
enum { ROW_WORDS = 28000, ERROR_WORDS = 4000 * DELTA_NULL_ERROR_WORDS, WORK_WORDS = 16384 };

/* What stands in the stack and in every part lent before a call. */
enum { FILL = 0xa5 };

/* The names of every module. */
enum { U16, X, F, NAMES };
static const char *const names[NAMES] = {"u16", "x", "f"};

/* A word opens a record with these fields, inside the one that is open; the words of `before` come first in it, those of `after`
 * last. A closed one holds nothing else. A word without a kind stands for those of `before`. */
static const struct word {
    const char *text;
    uint32_t kind, fields, first, second;
    const char *before, *after;
    bool closed;
} words[] = {
    {"nothing", 0, 0, 0, 0, "", "", false},
    {"void", 17, 1, 0, 0, "", "", true}, {"u16", 16, 2, 0, U16, "", "", true},
    {"pointer", 18, 1, 0, 0, "", "", false}, {"array", 19, 2, 0, 1, "", "", false},
    {"struct", 20, 1, 0, 0, "", "", false}, {"field", 21, 1, X, 0, "", "", false},
    {"member", 21, 1, X, 0, "void", "", true}, {"nested", 0, 0, 0, 0, "struct field", "", false},
    {"nested_33", 0, 0, 0, 0, "struct 32 member field", "", false},
    {"nested_65", 0, 0, 0, 0, "struct 64 member field", "", false},
    {"nested_257", 0, 0, 0, 0, "struct 256 member field", "", false},
    {"x", 32, 2, 0, X, "", "", true}, {"f", 32, 2, 0, F, "", "", true},
    {"literal", 33, 2, 0, 10, "", "", true}, {"true", 34, 2, 0, 1, "", "", true},
    {"text", 35, 1, 0, 0, "", "", true},
    {"call", 36, 1, 0, 0, "", "", false}, {"f_of", 36, 1, 0, 0, "f", "", false},
    {"at_x", 37, 1, 0, 0, "", "x", false}, {"x_at", 37, 1, 0, 0, "x", "", false},
    {"as_u16", 38, 1, 0, 0, "", "u16", false}, {"x_as", 38, 1, 0, 0, "x", "", false},
    {"address", 39, 1, 0, 0, "", "", false}, {"access", 41, 2, 0, X, "", "", false},
    {"not", 42, 1, 0, 0, "", "", false}, {"sizeof", 47, 1, 0, 0, "", "", false},
    {"plus_x", 45, 2, 0, 1, "", "x", false}, {"x_plus", 45, 2, 0, 1, "x", "", false},
    {"plus_literal", 45, 2, 0, 1, "", "literal", false}, {"literal_plus", 45, 2, 0, 1, "literal", "", false},
    {"elements", 48, 0, 0, 0, "", "", false}, {"settings", 49, 0, 0, 0, "", "", false},
    {"set", 50, 1, X, 0, "", "", false}, {"set_text", 50, 1, X, 0, "text", "", true},
    {"block", 64, 1, 0, 0, "", "", false}, {"evaluate", 65, 0, 0, 0, "", "", false},
    {"local", 66, 1, X, 0, "", "", false}, {"assign", 68, 0, 0, 0, "x", "", false},
    {"loop", 70, 0, 0, 0, "", "", false}, {"if", 73, 0, 0, 0, "true", "", false},
    {"else", 73, 0, 0, 0, "true break", "", false}, {"break", 72, 0, 0, 0, "", "", true},
    {"function", 80, 1, F, 0, "", "", false}, {"global", 83, 1, X, 0, "", "", false},
    {"parameter", 85, 1, X, 0, "", "", false}, {"argument", 85, 1, X, 0, "void", "", true},
};

/* A module: the words of its items, and how many rows and errors are expected. */
static const struct told {
    const char *items;
    uint32_t rows;
    size_t errors;
} modules[] = {
    /* No items, and long lists. */
    {"nothing", 7, 0}, {"global struct 1635 member", 1643, 0},
    {"function void 1635 argument", 1643, 0},
    {"function void 800 argument parameter struct 834 member", 1644, 0},
    {"global void settings 800 set_text", 7, 801},
    {"global void settings 1600 set_text", 7, 1601},
    {"global void call f 2700 x", 7, 2},
    /* 64 levels of types. */
    {"global 61 pointer void", 68, 0}, {"global 61 array void", 68, 0},
    {"global 30 nested pointer void", 68, 0},
    {"global 30 nested_33 pointer void", 1028, 0},
    {"global 24 nested_65 13 pointer void", 1604, 0},
    {"global 6 nested_257 49 pointer void", 1604, 0},
    /* Of statements. */
    {"function void 61 loop break", 8, 0}, {"function void 61 block break", 8, 0},
    {"function void 61 if break", 8, 0}, {"function u16 61 else break", 8, 1},
    /* Of expressions. */
    {"global u16 61 not x", 7, 0}, {"global u16 61 address x", 67, 0},
    {"global u16 61 access x", 7, 61}, {"global u16 61 as_u16 x", 7, 0},
    {"global u16 61 call x", 7, 61}, {"global u16 61 f_of x", 7, 122},
    {"global u16 61 at_x x", 7, 0}, {"global u16 61 x_at x", 7, 60},
    {"global u16 61 plus_x x", 7, 0}, {"global u16 61 x_plus x", 7, 0},
    {"global u16 61 plus_literal literal", 7, 62}, {"global u16 61 literal_plus literal", 7, 62},
    {"function void 59 loop evaluate literal_plus literal", 8, 2},
    {"global u16 call f 2015 literal", 7, 2017}, {"global u16 elements 57 not call f 2000 literal", 7, 2060},
    /* Long lists at the bottom of deep records, or above them. */
    {"global struct 1604 member field 29 nested pointer void", 1672, 0},
    {"global 29 nested struct 1606 member", 1672, 0},
    {"function void 1604 argument parameter 30 nested void", 1673, 0},
    {"function void 804 argument parameter struct 800 member field 29 nested void", 1673, 0},
    {"global u16 58 not x_as struct 1604 member", 1612, 59},
    {"global u16 58 x_plus x_as struct 1563 member", 1571, 2},
    {"global u16 elements 57 not sizeof struct 1605 member", 1613, 1},
    {"global u16 elements 57 x_plus x_as struct 1564 member", 1572, 3},
    {"global u16 elements 29 not sizeof 14 nested_33 struct 1157 member", 1641, 1},
    {"global u16 elements 9 not x_as 24 nested_65 pointer void", 1592, 11},
    {"global u16 settings set 56 not x_as struct 1604 member", 1612, 58},
    {"function void 58 loop local struct 1611 member", 1620, 0},
    {"function void 11 loop local 24 nested_65 pointer void", 1593, 0},
    {"function void 57 loop evaluate x_as struct 1610 member", 1619, 2},
    {"function void 56 loop local u16 elements sizeof struct 1610 member", 1619, 1},
    {"function void 56 loop assign elements sizeof struct 1610 member", 1619, 2},
    {"function void 55 if local u16 settings set x_as struct 1576 member", 1585, 2},
    {"function void 29 loop local u16 elements 27 not sizeof struct 1607 member", 1616, 1},
};

static uint8_t input[MOST_BYTES], output[MOST_BYTES], text[DELTA_NULL_LONGEST_TEXT];
static uint32_t rows[ROW_WORDS], errors[ERROR_WORDS], work[WORK_WORDS];

/* The module at hand: its words and its bytes; the records that are open, and the deepest level there was. */
static const char *items = "";
static size_t length;
static unsigned level, deepest;
static struct {
    size_t start;
    const char *after;
} open_records[MOST_LEVELS];

static void stop(const char *why)
{
    fprintf(stderr, "stack: %s: %s\n", items, why);
    exit(1);
}

static void put(uint32_t value, unsigned bytes)
{
    if (MOST_BYTES - length < bytes) {
        stop("more than 65,536 bytes");
    }
    for (unsigned i = 0; i < bytes; i++) {
        input[length++] = (uint8_t)(value >> 8 * i);
    }
}

static void open_record(uint32_t kind, const char *after)
{
    if (level == MOST_LEVELS) {
        stop("more than 64 levels");
    }
    open_records[level].start = length;
    open_records[level++].after = after;
    deepest = level > deepest ? level : deepest;
    put(0, 4); /* the length, which is written when the record is closed */
    put(kind, 4);
    put(0, 4);
    put(0, 4);
}

static void put_words(const char *text);

static void close_record(void)
{
    put_words(open_records[level - 1].after);
    size_t end = length;
    length = open_records[--level].start;
    put((uint32_t)(end - length), 4);
    length = end;
}

static void put_word(const char *text, size_t count)
{
    const struct word *word = words, *past = words + sizeof words / sizeof words[0];
    while (word < past && (strlen(word->text) != count || memcmp(word->text, text, count) != 0)) {
        word++;
    }
    if (word == past) {
        stop("a word that is not listed");
    }
    if (word->kind != 0) {
        open_record(word->kind, word->after);
    }
    for (unsigned i = 0; i < word->fields; i++) {
        put(i == 0 ? word->first : word->second, 4);
    }
    put_words(word->before);
    if (word->closed) {
        close_record();
    }
}

/* Puts the words of a text. A number repeats the word after it. */
static void put_words(const char *text)
{
    unsigned long times = 1;
    for (size_t count; (count = strcspn(text, " ")) > 0; text += count, text += strspn(text, " ")) {
        if (isdigit((unsigned char)*text)) {
            times = strtoul(text, NULL, 10);
            continue;
        }
        for (; times > 0; times--) {
            put_word(text, count);
        }
        times = 1;
    }
}

/* Makes the module at hand. What is open at the end of its words is closed. */
static void make_module(void)
{
    length = level = deepest = 0;
    open_record(1, "");
    open_record(2, "");
    for (int i = 0; i < NAMES; i++) {
        open_record(3, "");
        for (const char *byte = names[i]; *byte != 0; byte++) {
            put((uint8_t)*byte, 1);
        }
        close_record();
    }
    close_record();
    put_words(items);
    while (level > 0) {
        close_record();
    }
}

/* The thread's stack, and the most of it that was taken. Below it lies what nobody may touch, longer than any frame. */
enum { GUARD = 16 * PAGE };
static uint8_t *stack;
static size_t stack_bytes, most_taken;

static void make_stack(void)
{
    uint8_t *guard = mmap(NULL, GUARD + stack_bytes, PROT_READ | PROT_WRITE, MAP_PRIVATE | MAP_ANONYMOUS, -1, 0);
    if (guard == MAP_FAILED || mprotect(guard, GUARD, PROT_NONE) != 0) {
        stop("no memory for the stack");
    }
    stack = guard + GUARD;
}

/* Said when the stack is run over. A fault elsewhere ends the process as ever. */
static char needs_more[256];

static void run_over(int number, siginfo_t *fault, void *context)
{
    const uint8_t *place = fault->si_addr;
    (void)context;
    if (place < stack - GUARD || stack <= place) {
        signal(number, SIG_DFL);
        return;
    }
    _exit(write(STDERR_FILENO, needs_more, strlen(needs_more)) < 0 ? 2 : 1);
}

/* Has faults seen on a stack apart from the thread's. */
static __attribute__((noinline)) void catch_faults(void)
{
    static uint8_t apart[16 * PAGE];
    stack_t other = {.ss_sp = apart, .ss_size = sizeof apart};
    struct sigaction action = {.sa_sigaction = run_over, .sa_flags = SA_SIGINFO | SA_ONSTACK};
    if (sigaltstack(&other, NULL) != 0 || sigaction(SIGSEGV, &action, NULL) != 0) {
        stop("faults cannot be caught");
    }
}

/* The stack that was taken, below the frame of the caller and in all. */
struct taken {
    size_t below, whole;
};

static struct taken take_stock(const void *frame)
{
    size_t untouched = 0;
    while (stack[untouched] == FILL) {
        untouched++;
    }
    size_t whole = stack_bytes - untouched;
    most_taken = whole > most_taken ? whole : most_taken;
    return (struct taken){.below = (size_t)((const uint8_t *)frame - stack) - untouched, .whole = whole};
}

/* A call: the words lent for rows and errors, the answer, and the stack that was taken. */
struct call {
    size_t row_words, error_words;
    uint32_t refused, rows;
    size_t errors, place;
    struct taken taken;
};

/* The call on the thread, whose stack is counted from the frame of this function. */
static void *check(void *given)
{
    struct call *call = given;
    catch_faults();
    call->refused = delta_null_type_check_module(
        input, length, output, MOST_BYTES, rows, call->row_words, errors, call->error_words, work, WORK_WORDS,
        &call->rows, &call->errors, &call->place);
    call->taken = take_stock(__builtin_frame_address(0));
    return NULL;
}

/* What messages print for the type String. */
static const uint8_t string[] = {'S', 't', 'r', 'i', 'n', 'g'};

/* A call for messages of the module at hand: how many rows and errors count, the bytes lent for the text, the answer, and the stack that was
 * taken. */
struct telling {
    uint32_t rows;
    size_t errors, room;
    uint32_t refused;
    size_t length, place;
    struct taken taken;
};

static void *tell(void *given)
{
    struct telling *telling = given;
    catch_faults();
    telling->refused = delta_null_messages(
        input, length, rows, ROW_WORDS, telling->rows, errors, ERROR_WORDS, telling->errors, string, sizeof string, work, WORK_WORDS,
        text, telling->room, &telling->length, &telling->place);
    telling->taken = take_stock(__builtin_frame_address(0));
    return NULL;
}

/* A question: the rows, the answer, and the stack that was taken. */
struct question {
    uint32_t count, source, target, refused, answer;
    uint64_t pairs;
    struct taken taken;
};

static void *ask(void *given)
{
    struct question *question = given;
    catch_faults();
    question->refused = delta_null_castable(
        rows, ROW_WORDS, question->count, question->source, question->target, &question->answer, &question->pairs);
    question->taken = take_stock(__builtin_frame_address(0));
    return NULL;
}

static void on_thread(void *(*run)(void *), void *given)
{
    pthread_attr_t attributes;
    pthread_t thread;
    memset(stack, FILL, stack_bytes);
    if (pthread_attr_init(&attributes) != 0 || pthread_attr_setstack(&attributes, stack, stack_bytes) != 0
        || pthread_create(&thread, &attributes, run, given) != 0 || pthread_join(thread, NULL) != 0) {
        stop("no thread with such a stack");
    }
    pthread_attr_destroy(&attributes);
}

static void run_call(struct call *call)
{
    memset(output, FILL, sizeof output);
    memset(rows, FILL, sizeof rows);
    memset(errors, FILL, sizeof errors);
    memset(work, FILL, sizeof work);
    on_thread(check, call);
}

/* Whether the first bytes of a part are 0, if they are to be, and all others are as they were. */
static bool is_left(const void *part, size_t first, bool cleared, size_t bytes)
{
    for (size_t i = cleared ? 0 : first; i < bytes; i++) {
        if (((const uint8_t *)part)[i] != (i < first ? 0 : FILL)) {
            return false;
        }
    }
    return true;
}

/* Whether the output begins with the module, wherever that is not 0 as in a slot. */
static bool is_module_there(void)
{
    size_t i = 0;
    while (i < length && (input[i] == 0 || output[i] == input[i])) {
        i++;
    }
    return i == length;
}

/* Makes a call and holds its answer, and what it leaves, to what is expected. */
static struct call expect(size_t row_words, size_t error_words, uint32_t refused, uint32_t row_count, size_t error_count)
{
    struct call call = {.row_words = row_words, .error_words = error_words};
    run_call(&call);
    if (call.refused != refused || call.rows != row_count || call.errors != error_count || call.place != 0) {
        fprintf(stderr, "stack: %u, rows %u, errors %zu, place %zu\n", call.refused, call.rows, call.errors, call.place);
        stop("another answer is expected");
    }
    bool cleared = refused != DELTA_NULL_ACCEPTED;
    size_t rows_used = cleared ? row_words : DELTA_NULL_ROW_WORDS * row_count;
    size_t errors_used = cleared ? error_words : DELTA_NULL_ERROR_WORDS * error_count;
    if (!(cleared || is_module_there()) || !is_left(output, length, cleared, sizeof output)
        || !is_left(rows, sizeof rows[0] * rows_used, cleared, sizeof rows)
        || !is_left(errors, sizeof errors[0] * errors_used, cleared, sizeof errors)
        || !is_left(work, sizeof work[0] * DELTA_NULL_NAME_WORDS * NAMES, true, sizeof work)) {
        stop("something lent is not left as promised");
    }
    return call;
}

static size_t lines_in_text(size_t bytes)
{
    size_t lines = 0;
    for (size_t i = 0; i < bytes; i++) {
        lines += text[i] == '\n';
    }
    return lines;
}

/* Calls for the messages of the rows and errors at hand, and holds the answer, and what is left, to what is expected: a line for each
 * error, no more words and bytes than promised; and with a byte too few the length. */
static struct telling expect_messages(uint32_t row_count, size_t error_count)
{
    struct telling roomy = {.rows = row_count, .errors = error_count, .room = sizeof text};
    memset(work, FILL, sizeof work);
    memset(text, FILL, sizeof text);
    on_thread(tell, &roomy);
    if (roomy.refused != DELTA_NULL_ACCEPTED || roomy.place != 0 || lines_in_text(roomy.length) != error_count) {
        fprintf(stderr, "stack: messages %u, length %zu, place %zu\n", roomy.refused, roomy.length, roomy.place);
        stop("other messages are expected");
    }
    if (!is_left(text, roomy.length, false, sizeof text) || !is_left(work, sizeof work[0] * row_count, false, sizeof work)) {
        stop("messages do not leave something lent as promised");
    }
    if (roomy.length > 0) {
        struct telling short_of = roomy;
        short_of.room = roomy.length - 1;
        memset(text, FILL, sizeof text);
        on_thread(tell, &short_of);
        if (short_of.refused != DELTA_NULL_TEXT_TOO_LONG || short_of.length != 0 || short_of.place != roomy.length
            || !is_left(text, 0, false, sizeof text)) {
            stop("messages are to be refused with their length");
        }
    }
    return roomy;
}

/* Checks a module with roomy loans, asks for its messages, then checks it with a word too few for its rows, and for its errors. */
static void measure(const struct told *told)
{
    items = told->items;
    snprintf(needs_more, sizeof needs_more, "stack: %s: more than %zu bytes are needed\n", items, stack_bytes);
    make_module();
    struct call roomy = expect(ROW_WORDS, ERROR_WORDS, DELTA_NULL_ACCEPTED, told->rows, told->errors);
    struct telling messages = expect_messages(told->rows, told->errors);
    expect(DELTA_NULL_ROW_WORDS * told->rows - 1, ERROR_WORDS, DELTA_NULL_TOO_MANY_ROWS, 0, 0);
    if (told->errors > 0) {
        expect(ROW_WORDS, DELTA_NULL_ERROR_WORDS * told->errors - 1, DELTA_NULL_TOO_MANY_ERRORS, 0, 0);
    }
    printf("%-78s %5zu bytes %2u levels: stack %6zu, in all %6zu, messages %6zu, %6zu\n", items, length, deepest,
        roomy.taken.below, roomy.taken.whole, messages.taken.below, messages.taken.whole);
}

/* Puts a row behind the others; its number. */
static uint32_t add_row(uint32_t *count, uint32_t kind, uint32_t first, uint32_t second, uint32_t name, uint32_t size)
{
    const uint32_t row[DELTA_NULL_ROW_WORDS] = {kind, first, second, name, size};
    memcpy(rows + DELTA_NULL_ROW_WORDS * *count, row, sizeof row);
    return ++*count;
}

/* So many pointers, each to the one before and the first to *u16: 2,904 bytes. */
static uint32_t add_pointers(uint32_t *count)
{
    uint32_t last = 6;
    for (int i = 0; i < 2900; i++) {
        last = add_row(count, 6, last, 0, 0, 1);
    }
    return last;
}

/* So many structs, each of the one before twice, so that of two parts neither is shorter: 1,015,789 bytes. */
static uint32_t add_structs(uint32_t *count)
{
    uint32_t last = add_row(count, 7, 4, 1234567, 0, DELTA_NULL_SIZE_TOO_LARGE);
    for (int i = 0; i < 15; i++) {
        uint32_t rest = add_row(count, 12, last, 0, X, DELTA_NULL_SIZE_TOO_LARGE);
        uint32_t fields = add_row(count, 12, last, rest, F, DELTA_NULL_SIZE_TOO_LARGE);
        last = add_row(count, 8, fields, 0, 0, DELTA_NULL_SIZE_TOO_LARGE);
    }
    return last;
}

/* So many functions that take the one before and return it: 983,032 bytes. */
static uint32_t add_functions(uint32_t *count)
{
    uint32_t last = add_row(count, 7, 2, 1, 0, 0);
    for (int i = 0; i < 16; i++) {
        last = add_row(count, 9, last, add_row(count, 13, last, 0, 0, 0), 0, 1);
    }
    return last;
}

/* As many arrays as there is room for, none of which is printed. */
static uint32_t add_arrays(uint32_t *count)
{
    for (uint32_t size = 0; *count < ROW_WORDS / DELTA_NULL_ROW_WORDS; size++) {
        add_row(count, 7, 4, size, 0, size); /* u16 is one word */
    }
    return 4;
}

/* The kind of the errors that print a row here, and the bytes around it in each message. */
enum { INDEX_ERROR = 14, AROUND = sizeof "cannot use `` to index an array\n" - 1 };

/* Tables of rows, by what is added to the seven; errors that print the last row added; the bytes of the text. */
static const struct table {
    const char *what;
    uint32_t (*add)(uint32_t *count);
    size_t errors, bytes;
} tables[] = {
    {"messages of 2900 pointers", add_pointers, 1, 2904 + AROUND},
    {"messages of 350 times 2900 pointers", add_pointers, 350, 350 * (2904 + AROUND)},
    {"messages of 15 structs of two", add_structs, 1, 1015789 + AROUND},
    {"messages of 16 functions of two", add_functions, 1, 983032 + AROUND},
    {"messages of 5600 rows and 4000 errors", add_arrays, 4000, 4000 * (3 + AROUND)},
};

/* Asks for messages over the rows of a table and a module of 64 levels of literals. */
static void measure_table(const struct table *table)
{
    struct call fixed = {.row_words = ROW_WORDS, .error_words = ERROR_WORDS};
    uint32_t count = 7;
    snprintf(needs_more, sizeof needs_more, "stack: %s: more than %zu bytes are needed\n", table->what, stack_bytes);
    items = "global u16 61 plus_literal literal";
    make_module();
    run_call(&fixed);
    uint32_t printed = table->add(&count);
    items = table->what;
    for (size_t i = 0; i < table->errors; i++) {
        const uint32_t error[DELTA_NULL_ERROR_WORDS] = {INDEX_ERROR, 0, 0, 0, printed, 0, 0, 0};
        memcpy(errors + DELTA_NULL_ERROR_WORDS * i, error, sizeof error);
    }
    struct telling messages = expect_messages(count, table->errors);
    if (messages.length != table->bytes) {
        fprintf(stderr, "stack: %zu bytes of text\n", messages.length);
        stop("another text is expected");
    }
    printf("%s: %zu bytes of text: stack %6zu, in all %6zu\n", table->what, messages.length, messages.taken.below, messages.taken.whole);
}

/* Adds so many distinct aliases over a row of one word behind the others; the last of them. */
static uint32_t add_aliases(uint32_t *count, uint32_t of, uint32_t aliases)
{
    while (aliases-- > 0) {
        of = add_row(count, 11, of, 0, 0, 1);
    }
    return of;
}

/* Asks for the cast from distinct aliases over bool to as many over u16, behind the rows of a module without items. */
static void measure_cast(void)
{
    uint32_t aliases = (ROW_WORDS / DELTA_NULL_ROW_WORDS - 7) / 2;
    struct question question = {.count = 7};
    struct call fixed = {.row_words = ROW_WORDS, .error_words = ERROR_WORDS};
    snprintf(needs_more, sizeof needs_more, "stack: a cast: more than %zu bytes are needed\n", stack_bytes);
    length = 0;
    run_call(&fixed);
    question.source = add_aliases(&question.count, 3, aliases);
    question.target = add_aliases(&question.count, 4, aliases);
    on_thread(ask, &question);
    if (fixed.refused != 0 || question.refused != 0 || question.answer != 0
        || question.pairs != (uint64_t)(aliases + 1) * (aliases + 1)) {
        stop("another answer is expected of a cast");
    }
    printf("a cast between %u distinct aliases and %u: stack %6zu, in all %6zu\n", aliases, aliases, question.taken.below,
        question.taken.whole);
}

int main(int argc, char **argv)
{
    char *end = "";
    stack_bytes = argc == 2 ? strtoul(argv[1], &end, 10) : 131072;
    if (argc > 2 || *end != 0 || stack_bytes % PAGE != 0) {
        fprintf(stderr, "usage: stack [BYTES], a multiple of %d\n", PAGE);
        return 2;
    }
    make_stack();
    setvbuf(stdout, NULL, _IOLBF, 0);
    for (size_t i = 0; i < sizeof modules / sizeof modules[0]; i++) {
        measure(&modules[i]);
    }
    for (size_t i = 0; i < sizeof tables / sizeof tables[0]; i++) {
        measure_table(&tables[i]);
    }
    measure_cast();
    printf("stack: at most %zu bytes of %zu\n", most_taken, stack_bytes);
    return 0;
}
