/* Automata and records for the matcher. */
#ifndef AUTOMATA_H
#define AUTOMATA_H

#include <stddef.h>
#include <stdint.h>

#include "../../peer/host.h"

/* Rows beyond the counts may hold anything. */
enum { STATE_ROOM = 1200, ARC_ROOM = 12000, RECORD_ROOM = 512 };

struct machine {
    size_t states, arcs;
    uint8_t accepting[STATE_ROOM];
    uint16_t from[ARC_ROOM];
    uint8_t letter[ARC_ROOM];
    uint16_t to[ARC_ROOM];
};

struct record {
    uint8_t bytes[RECORD_ROOM];
    size_t length;
};

void make_machine(struct machine *machine);       /* states and arcs at random */
void make_built_machine(struct machine *machine); /* that of a random table */
void make_record(struct record *record, const struct machine *machine);

/* The call with columns of just the counts, and work columns of just the words that are needed. */
struct judge_call judge_with(const struct machine *machine, const struct record *record, size_t counts);

/* Calls of gumpaleri_judge: those written down, a few with columns at 01's limits, and random ones. */
void judge_aimed(void);
void judge_large(void);
void judge_random(void);

#endif
