#define _DEFAULT_SOURCE
#include "lend.h"

#include <setjmp.h>
#include <signal.h>
#include <stdbool.h>
#include <stdint.h>
#include <stdio.h>
#include <stdlib.h>
#include <string.h>
#include <sys/mman.h>
#include <unistd.h>

#include "random.h"
#include "tally.h"

/* A slot holds the longest column of all, 16,777,217 numbers of 16 bits, and guard bytes.  Pages that are not used take no
   memory. */
enum { SLOTS = 12, GUARD = 128, LONGEST = 2 * 16777217 + GUARD };

struct loan {
    const char *name;
    unsigned char *at;
    size_t bytes;
    unsigned char *guard;
    const unsigned char *contents; /* of what is only read, else NULL */
};

static unsigned char *slots[SLOTS];
static size_t slot_bytes, page;
static struct loan loans[SLOTS];
static size_t lent;
static unsigned char pattern[GUARD];

static sigjmp_buf after_trial;
static volatile sig_atomic_t on_trial;

/* The column beside whose pages the address lies. */
static const char *column_at(const unsigned char *address)
{
    for (size_t i = 0; i < lent; i++)
        if (address >= slots[i] - page && address < slots[i] + slot_bytes + page)
            return loans[i].name;
    return "none that is lent";
}

static void on_signal(int signal, siginfo_t *info, void *context)
{
    (void)signal;
    (void)context;
    if (on_trial)
        siglongjmp(after_trial, 1);
    ended_by_signal(column_at(info->si_addr));
}

static void watch_signals(void)
{
    static unsigned char stack[1 << 16];
    stack_t own = { .ss_sp = stack, .ss_size = sizeof stack };
    struct sigaction action = { .sa_sigaction = on_signal, .sa_flags = SA_ONSTACK | SA_SIGINFO };
    sigemptyset(&action.sa_mask);
    if (sigaltstack(&own, NULL) || sigaction(SIGSEGV, &action, NULL) || sigaction(SIGBUS, &action, NULL)) {
        perror("tests/host: signals");
        exit(EXIT_FAILURE);
    }
}

/* Without this a machine with larger pages than it says would make the forbidden pages useless, and nobody would see it. */
static void try_forbidden(volatile unsigned char *byte, bool writing)
{
    if (sigsetjmp(after_trial, 1) == 0) {
        on_trial = 1;
        if (writing)
            *byte = 1;
        else
            (void)*byte;
        fputs("tests/host: a forbidden page can be touched\n", stderr);
        exit(EXIT_FAILURE);
    }
    on_trial = 0;
}

static unsigned char *map_slot(void)
{
    unsigned char *all = mmap(NULL, slot_bytes + 2 * page, PROT_READ | PROT_WRITE,
                              MAP_PRIVATE | MAP_ANONYMOUS | MAP_NORESERVE, -1, 0);
    if (all == MAP_FAILED || mprotect(all, page, PROT_NONE) || mprotect(all + page + slot_bytes, page, PROT_NONE)) {
        perror("tests/host: mmap");
        exit(EXIT_FAILURE);
    }
    return all + page;
}

void prepare_lending(void)
{
    page = (size_t)sysconf(_SC_PAGESIZE);
    slot_bytes = (LONGEST + page - 1) / page * page;
    watch_signals();
    for (size_t slot = 0; slot < SLOTS; slot++) {
        slots[slot] = map_slot();
        for (int writing = 0; writing < 2; writing++) {
            try_forbidden(slots[slot] - 1, writing);
            try_forbidden(slots[slot] + slot_bytes, writing);
        }
    }
}

void begin_lending(void)
{
    lent = 0;
    fill(pattern, GUARD);
}

/* A column's bytes are a multiple of its element's, and pages begin at multiples of all of them, so it is aligned. */
static struct loan *next_loan(const char *name, size_t bytes)
{
    if (lent == SLOTS || bytes > slot_bytes - GUARD) {
        fputs("tests/host: more is lent than there are pages for\n", stderr);
        exit(EXIT_FAILURE);
    }
    struct loan *loan = &loans[lent];
    unsigned char *slot = slots[lent++];
    bool ends = one_in(2);
    loan->name = name;
    loan->bytes = bytes;
    loan->at = ends ? slot + slot_bytes - bytes : slot;
    loan->guard = ends ? loan->at - GUARD : loan->at + bytes;
    loan->contents = NULL;
    memcpy(loan->guard, pattern, GUARD);
    return loan;
}

const void *lend_to_read(const char *name, const void *contents, size_t bytes)
{
    for (size_t i = 0; i < lent; i++)
        if (bytes > 0 && loans[i].contents == contents && loans[i].bytes == bytes)
            return loans[i].at;
    struct loan *loan = next_loan(name, bytes);
    if (bytes > 0)
        memcpy(loan->at, contents, bytes);
    loan->contents = contents;
    return loan->at;
}

void *lend_to_write(const char *name, size_t bytes)
{
    struct loan *loan = next_loan(name, bytes);
    fill(loan->at, bytes);
    return loan->at;
}

void hold_lent(void)
{
    for (size_t i = 0; i < lent; i++) {
        const struct loan *loan = &loans[i];
        if (memcmp(loan->guard, pattern, GUARD) != 0)
            differs("bytes %s the column %s were written", loan->guard < loan->at ? "before" : "behind", loan->name);
        if (loan->contents && loan->bytes > 0 && memcmp(loan->at, loan->contents, loan->bytes) != 0)
            differs("the column %s was written, though it was lent for reading only", loan->name);
    }
}
