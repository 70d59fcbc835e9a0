#define _DEFAULT_SOURCE
#include "tally.h"

#include <inttypes.h>
#include <stdarg.h>
#include <stdio.h>
#include <stdlib.h>
#include <string.h>
#include <unistd.h>

#include "random.h"

enum { NUMBERS = 24, VERDICTS = 4 };

static const char *const names[FUNCTIONS] = { "read", "build", "judge" };

/* "each number is met": what each function can answer. */
static const bool can[FUNCTIONS][NUMBERS] = {
    [OF_READ] = { [0] = true, [1] = true, [12] = true, [13] = true, [14] = true, [15] = true, [23] = true },
    [OF_BUILD] = { [0] = true, [1] = true, [2] = true, [3] = true, [4] = true, [5] = true, [6] = true, [7] = true,
                   [8] = true, [9] = true, [23] = true },
    [OF_JUDGE] = { [0] = true, [1] = true, [10] = true, [11] = true, [23] = true },
};

static size_t calls[FUNCTIONS], met[FUNCTIONS][NUMBERS], verdicts[VERDICTS];
static enum function under_way;
static char description[512];

void call_begins(enum function function, const char *words, ...)
{
    under_way = function;
    calls[function]++;
    int length = snprintf(description, sizeof description, "gumpaleri_%s, call %zu of it, seed %" PRIu64 ": ",
                          names[function], calls[function], get_seed());
    va_list values;
    va_start(values, words);
    vsnprintf(description + length, sizeof description - (size_t)length, words, values);
    va_end(values);
}

void call_ended(uint32_t number)
{
    met[under_way][number]++;
}

void verdict_met(uint64_t verdict)
{
    verdicts[verdict]++;
}

size_t calls_of(enum function function)
{
    return calls[function];
}

void differs(const char *words, ...)
{
    fflush(stdout);
    fprintf(stderr, "tests/host: %s\n  ", description);
    va_list values;
    va_start(values, words);
    vfprintf(stderr, words, values);
    va_end(values);
    fputc('\n', stderr);
    exit(EXIT_FAILURE);
}

/* Of what a signal interrupts, only write is safe. */
void ended_by_signal(const char *column)
{
    const char *const words[] = { "tests/host: ", description, "\n  a signal: memory was touched outside of the column ", column,
                                  "\n" };
    for (size_t i = 0; i < sizeof words / sizeof *words; i++)
        if (write(STDERR_FILENO, words[i], strlen(words[i])) < 0)
            break;
    _exit(EXIT_FAILURE);
}

static bool row_met(enum function function)
{
    bool good = true;
    printf("  %-6s %6zu calls:", names[function], calls[function]);
    for (size_t number = 0; number < NUMBERS; number++)
        if (can[function][number]) {
            printf("  %zu: %zu", number, met[function][number]);
            good = good && met[function][number] > 0;
        }
    putchar('\n');
    return good;
}

bool all_met(size_t fewest_calls)
{
    bool good = true;
    size_t all = 0;
    for (size_t function = 0; function < FUNCTIONS; function++) {
        all += calls[function];
        good = row_met((enum function)function) && good;
    }
    printf("  verdicts: accepted %zu, unfinished %zu, wrong %zu\n", verdicts[1], verdicts[2], verdicts[3]);
    good = good && verdicts[1] && verdicts[2] && verdicts[3];
    if (!good)
        puts("  not every number or verdict was met");
    if (all < fewest_calls)
        printf("  fewer than %zu calls\n", fewest_calls);
    return good && all >= fewest_calls;
}
