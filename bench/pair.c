/* Measures two builds of the product in turns:  pair OLD.so NEW.so FOLDER
 * FOLDER has the modules that `bench write FOLDER` wrote. A line for each class: its name, then NEW's time over OLD's. A module that one
 * of the two refuses is left out. */
#include <dirent.h>
#include <dlfcn.h>
#include <stdio.h>
#include <stdlib.h>
#include <string.h>
#include <time.h>

#include "../include/delta_null_type_check.h"

enum { MOST_BYTES = 65536, ROW_WORDS = 7000 * DELTA_NULL_ROW_WORDS, ERROR_WORDS = 4000 * DELTA_NULL_ERROR_WORDS, WORK_WORDS = 16376, MOST_TURNS = 4096 };

/* How many rounds there are, and how many at least, if they take longer than these nanoseconds. */
enum { ROUNDS = 40, LEAST_ROUNDS = 5, LONG = 100000000 };

typedef uint32_t check_module(
    const uint8_t *, size_t, uint8_t *, size_t, uint32_t *, size_t, uint32_t *, size_t, uint32_t *, size_t,
    uint32_t *, size_t *, size_t *);

static uint8_t input[MOST_BYTES], output[MOST_BYTES];
static uint32_t rows[ROW_WORDS], errors[ERROR_WORDS], work[WORK_WORDS];

static void stop(const char *what) {
    fprintf(stderr, "pair: %s\n", what);
    exit(2);
}

static check_module *entry(const char *path) {
    void *library = dlopen(path, RTLD_NOW | RTLD_LOCAL);
    void *found = library ? dlsym(library, "delta_null_type_check_module") : NULL;
    if (!found) stop(dlerror());
    return (check_module *)found;
}

static double now(void) {
    struct timespec time;
    clock_gettime(CLOCK_MONOTONIC, &time);
    return time.tv_sec * 1e9 + time.tv_nsec;
}

/* Nanoseconds for one call, of so many; less than 0 if the module is refused. */
static double timed(check_module *check, size_t length, int turns) {
    uint32_t row_count;
    size_t error_count, place;
    double start = now();
    for (int turn = 0; turn < turns; turn++)
        if (check(input, length, output, MOST_BYTES, rows, ROW_WORDS, errors, ERROR_WORDS, work, WORK_WORDS, &row_count, &error_count, &place))
            return -1;
    return (now() - start) / turns;
}

/* Reads a module and adds to both sums the time of the fastest round, each round as long as a fifth of a millisecond at least. */
static void measure(const char *path, check_module *old, check_module *new, double *old_sum, double *new_sum) {
    FILE *file = fopen(path, "rb");
    if (!file) stop(path);
    size_t length = fread(input, 1, MOST_BYTES, file);
    fclose(file);
    double once = timed(old, length, 1), old_best = 1e18, new_best = 1e18;
    if (once < 0 || timed(new, length, 1) < 0) {
        fprintf(stderr, "pair: refused, left out: %s\n", path);
        return;
    }
    int turns = 1;
    while (once * turns < 2e5 && turns < MOST_TURNS) turns *= 2;
    double start = now();
    for (int round = 0; round < ROUNDS && (round < LEAST_ROUNDS || now() - start < LONG); round++) {
        double time = timed(old, length, turns);
        if (time < old_best) old_best = time;
        time = timed(new, length, turns);
        if (time < new_best) new_best = time;
    }
    *old_sum += old_best;
    *new_sum += new_best;
}

int main(int count, char **arguments) {
    if (count != 4) stop("usage: pair OLD.so NEW.so FOLDER");
    check_module *old = entry(arguments[1]), *new = entry(arguments[2]);
    struct dirent **names;
    int files = scandir(arguments[3], &names, NULL, alphasort);
    if (files < 0) stop(arguments[3]);
    char class[256] = "";
    double old_sum = 0, new_sum = 0;
    for (int file = 0; file < files; file++) {
        const char *name = names[file]->d_name, *end = strrchr(name, '-');
        if (!end) continue;
        if (strncmp(class, name, end - name + 1)) {
            if (old_sum > 0) printf("%s %.4f\n", class, new_sum / old_sum);
            snprintf(class, sizeof class, "%.*s", (int)(end - name + 1), name);
            old_sum = new_sum = 0;
        }
        char path[4096];
        snprintf(path, sizeof path, "%s/%s", arguments[3], name);
        measure(path, old, new, &old_sum, &new_sum);
    }
    printf("%s %.4f\n", class, new_sum / old_sum);
    return 0;
}
