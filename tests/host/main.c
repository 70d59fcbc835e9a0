/* 2026-02: reader, builder and matcher as a C program calls them, held against the second program.
   Usage: host [SEED [CALLS [limits]]]: CALLS random calls of each function at the least, besides those written down; with limits
   also two builds that take minutes. */
#include <inttypes.h>
#include <stdio.h>
#include <stdlib.h>

#include "automata.h"
#include "chains.h"
#include "lend.h"
#include "random.h"
#include "stand_in.h"
#include "tables.h"
#include "tally.h"
#include "texts.h"

#ifdef STAND_IN
static const char *const tested = stand_in;
enum { FEWEST_CALLS = 0, RANDOM_CALLS = 800 };
#else
static const char *const tested = "the archive";
enum { FEWEST_CALLS = 20000, RANDOM_CALLS = 9000 };
#endif

static void call_at_random(size_t calls)
{
    size_t reads = calls_of(OF_READ) + calls, builds = calls_of(OF_BUILD) + calls, judges = calls_of(OF_JUDGE) + calls;
    for (size_t chains = calls / 8; chains > 0; chains--)
        chain_random();
    while (calls_of(OF_READ) < reads)
        read_random();
    while (calls_of(OF_BUILD) < builds)
        build_random();
    while (calls_of(OF_JUDGE) < judges)
        judge_random();
}

int main(int argc, char **argv)
{
    set_seed(argc > 1 ? strtoull(argv[1], NULL, 10) : 202602);
    printf("tests/host: seed %" PRIu64 ", on %s\n", get_seed(), tested);
    fflush(stdout);
    prepare_lending();
    read_aimed();
    build_aimed();
    judge_aimed();
    build_large();
    judge_large();
    if (argc > 3)
        build_limits();
    call_at_random(argc > 2 ? strtoull(argv[2], NULL, 10) : RANDOM_CALLS);
    bool good = all_met(FEWEST_CALLS);
    printf("tests/host: %s: %zu calls, %s\n", tested, calls_of(OF_READ) + calls_of(OF_BUILD) + calls_of(OF_JUDGE),
           good ? "no difference" : "FAILED");
    return good && fflush(stdout) == 0 ? EXIT_SUCCESS : EXIT_FAILURE;
}
