/* fit SHEET [BUDGET]: fits a training sheet in budgets of so many steps (100), and prints how it ended, the intercept and
   the weights. The exit status is 0 only where the weights may be released.

   A fit is xangoravit_start once, then xangoravit_resume until it is no longer pending. Between two calls the program may
   do what it likes: all that a paused fit is lies in `record` and `scratch`, which are ours. */
#include "xangoravit.h"

#include <inttypes.h>
#include <limits.h>
#include <stdio.h>
#include <stdlib.h>
#include <string.h>

/* The panels of a lazy fit, R by C; they change its memory and its speed, and no bit of its answer. */
enum { PANEL_ROWS = 32, PANEL_COLS = 8 };

static void fail(const char *what, const char *why)
{
    fprintf(stderr, "fit: %s: %s\n", what, why);
    exit(2);
}

/* A refusal's number says why (tools/sheet puts it into words), its place where. */
static void refused(const char *call, uint64_t number, uint64_t place)
{
    printf("%s: refused %" PRIu64 " at %" PRIu64 "\n", call, number, place);
    exit(1);
}

static void *room(size_t count, size_t size)
{
    void *memory = calloc(count ? count : 1, size); /* calloc may answer NULL for nothing */
    if (!memory)
        fail("memory", "there is not enough");
    return memory;
}

static uint8_t *read_file(const char *path, size_t *length)
{
    FILE *file = fopen(path, "rb");
    if (!file || fseek(file, 0, SEEK_END) != 0)
        fail(path, "not a file that can be read");
    long end = ftell(file);
    if (end < 0 || end == LONG_MAX) /* a folder's length is the largest */
        fail(path, "not a file that can be read");
    rewind(file);
    *length = (size_t)end;
    uint8_t *bytes = room(*length, 1);
    if (fread(bytes, 1, *length, file) != *length)
        fail(path, "not a file that can be read");
    fclose(file);
    return bytes;
}

/* The bits say a double exactly, 17 digits do so for people. */
static void show(const char *name, double value)
{
    uint64_t bits;
    memcpy(&bits, &value, sizeof bits);
    printf("%s %016" PRIx64 " (%.17g)\n", name, bits, value);
}

static void show_counts(const char *before, const uint64_t *answer)
{
    printf("%srounds %" PRIu64 " solver %" PRIu64 " trials %" PRIu64 "\n", before, answer[XANGORAVIT_COUNT_ROUNDS],
           answer[XANGORAVIT_COUNT_SOLVER], answer[XANGORAVIT_COUNT_TRIALS]);
}

/* Fits n rows of p features, and prints the answer. */
static int fit(size_t n, size_t p, const double *x, const double *y, const uint64_t *settings, uint64_t budget)
{
    uint64_t record[XANGORAVIT_RECORD] = {0}, answer[XANGORAVIT_ANSWER] = {0};
    size_t words = xangoravit_scratch_words(n, p, settings, XANGORAVIT_SETTINGS);
    double *scratch = room(words, sizeof *scratch), *weights = room(p, sizeof *weights), intercept;

    uint64_t number = xangoravit_start(n, p, x, n * p, y, n, settings, XANGORAVIT_SETTINGS, scratch, words,
                                       record, XANGORAVIT_RECORD, answer, XANGORAVIT_ANSWER);
    if (number)
        refused("start", number, answer[XANGORAVIT_PLACE]);

    for (;;) {
        number = xangoravit_resume(n, p, x, n * p, y, n, settings, XANGORAVIT_SETTINGS, record, XANGORAVIT_RECORD,
                                   scratch, words, weights, p, budget, answer, XANGORAVIT_ANSWER);
        if (number)
            refused("resume", number, answer[XANGORAVIT_PLACE]);
        if (answer[XANGORAVIT_KIND] != XANGORAVIT_PENDING)
            break;
        show_counts("paused: ", answer);
    }

    int limit = answer[XANGORAVIT_KIND] == XANGORAVIT_LIMIT;
    puts(limit ? "ended limit: the rounds ran out; do not release these weights" : "ended converged");
    show_counts("", answer);
    memcpy(&intercept, &answer[XANGORAVIT_LAST], sizeof intercept);
    show("intercept", intercept);
    for (size_t j = 0; j < p; j++) {
        char name[32];
        snprintf(name, sizeof name, "w %zu", j);
        show(name, weights[j]);
    }
    free(scratch);
    free(weights);
    return limit;
}

int main(int count, char **words)
{
    if (count < 2 || count > 3)
        fail("usage", "fit SHEET [BUDGET]");
    char *rest = "";
    uint64_t budget = count == 3 ? strtoull(words[2], &rest, 10) : 100;
    if (budget == 0 || *rest) /* with 0 steps the fit would stay where it is */
        fail(words[2], "a budget is a whole number of steps, at least 1");
    size_t length;
    uint8_t *bytes = read_file(words[1], &length);

    /* First n, the rows that remain without the cancelled ones, and p; then there is room for the rest. */
    uint64_t header[XANGORAVIT_HEADER] = {0}, place = 0;
    uint64_t number = xangoravit_count_rows(bytes, length, PANEL_ROWS, PANEL_COLS, header, XANGORAVIT_HEADER, &place, 1);
    if (number)
        refused("count", number, place);
    size_t n = header[XANGORAVIT_N], p = header[XANGORAVIT_P];
    double *x = room(n * p, sizeof *x), *y = room(n, sizeof *y);
    number = xangoravit_read_sheet(bytes, length, PANEL_ROWS, PANEL_COLS, x, n * p, y, n, header, XANGORAVIT_HEADER, &place, 1);
    if (number)
        refused("sheet", number, place);
    free(bytes);

    int status = fit(n, p, x, y, header + XANGORAVIT_FROM, budget);
    free(x);
    free(y);
    return status;
}
