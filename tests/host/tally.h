/* Which call is under way, what the calls so far have answered, and how a difference is told. */
#ifndef TALLY_H
#define TALLY_H

#include <stdbool.h>
#include <stddef.h>
#include <stdint.h>

enum function { OF_READ, OF_BUILD, OF_JUDGE, FUNCTIONS };

/* A call is about to be made; the words say what it is lent. */
void call_begins(enum function function, const char *words, ...) __attribute__((format(printf, 2, 3)));
void call_ended(uint32_t number);
void verdict_met(uint64_t verdict);

size_t calls_of(enum function function);

/* Says what differs in the call under way, and ends the program. */
_Noreturn void differs(const char *words, ...) __attribute__((format(printf, 1, 2)));

/* The same for a signal, with the name of the column whose pages were left. */
_Noreturn void ended_by_signal(const char *column);

/* Prints the table of what was met; false if something was not. */
bool all_met(size_t fewest_calls);

#endif
