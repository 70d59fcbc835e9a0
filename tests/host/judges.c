/* The calls of gumpaleri_judge. */
#include <stdio.h>
#include <stdlib.h>
#include <string.h>

#include "../../include/gumpaleri.h"
#include "automata.h"
#include "lengths.h"
#include "random.h"
#include "tables.h"
#include "tally.h"
#include "try.h"

/* ---- Random calls */

/* A count that no column reaches, up to the largest number there is. */
static size_t beyond(size_t length, size_t limit)
{
    const size_t counts[] = { length + 1, length + 2, limit, limit + 1, (size_t)UINT32_MAX, (size_t)UINT32_MAX + 1,
                              SIZE_MAX / 2 + 1, SIZE_MAX - 62, SIZE_MAX - 1, SIZE_MAX };
    size_t count = counts[below(sizeof counts / sizeof *counts)];
    return count > length ? count : length + 1;
}

/* A used row is made malformed, if there is one. */
static void spoil_row(struct machine *machine)
{
    size_t arc = machine->arcs == 0 ? 0 : one_in(3) ? machine->arcs - 1 : below(machine->arcs);
    uint16_t end = (uint16_t)(one_in(2) ? machine->states : one_in(2) ? 65535 : between(machine->states, 65535));
    switch (below(4)) {
    case 0: machine->accepting[below(machine->states)] = (uint8_t)(one_in(2) ? 2 : between(2, 255)); break;
    case 1: machine->from[arc] = end; break;
    case 2: machine->to[arc] = end; break;
    default: machine->letter[arc] = 0; break;
    }
}

static void spoil_counts(struct judge_call *call)
{
    switch (below(3)) {
    case 0: call->states = 0; break;
    case 1: call->states = beyond(call->accepting_length, 65535); break;
    default: call->arcs = beyond(call->from_length, 16777216); break;
    }
}

static void disturb(struct judge_call *call)
{
    size_t words = call->current_length;
    if (one_in(2))
        call->accepting_length += below(6);
    if (one_in(2))
        call->from_length = call->letter_length = call->to_length += below(6);
    if (one_in(3))
        call->current_length = some_length(words);
    if (one_in(3))
        call->next_length = some_length(words);
    if (one_in(12))
        spoil_counts(call);
    if (one_in(15))
        make_uneven((size_t *[]){ &call->from_length, &call->letter_length, &call->to_length }, 3);
}

void judge_random(void)
{
    struct machine machine;
    struct record record;
    if (one_in(3))
        make_built_machine(&machine);
    else
        make_machine(&machine);
    bool spoilt = one_in(8);
    for (size_t times = between(1, 5); times > 0; times--) {
        make_record(&record, &machine);
        if (spoilt && times == 1)
            spoil_row(&machine);
        struct judge_call call = judge_with(&machine, &record, some_counts());
        disturb(&call);
        try_judge(&call);
    }
}

/* ---- Written calls: (a&b), and what may be wrong with it */

static const uint8_t accepting[] = { 0, 0, 0, 1, 2, 77 };
static const uint16_t from[] = { 0, 0, 1, 2, 9, 9 };
static const uint8_t letter[] = { 97, 98, 98, 97, 0, 0 };
static const uint16_t to[] = { 1, 2, 3, 3, 9, 9 };

static const struct judge_call good = {
    4, accepting, 4, 4, from, 4, letter, 4, to, 4, (const uint8_t *)"ba", 2, 1, 1, 4,
};

static void judge_counts(void)
{
    static const size_t states[] = { 0, 1, 3, 4, 5, 6, 7, 64, 65535, 65536, UINT32_MAX, SIZE_MAX - 63, SIZE_MAX };
    static const size_t arcs[] = { 0, 3, 4, 5, 6, 7, 16777216, 16777217, UINT32_MAX, SIZE_MAX - 1, SIZE_MAX };
    for (size_t i = 0; i < sizeof states / sizeof *states; i++)
        for (size_t j = 0; j < sizeof arcs / sizeof *arcs; j++)
            for (size_t more = 0; more < 3; more++) {
                struct judge_call call = good;
                call.states = states[i];
                call.arcs = arcs[j];
                call.accepting_length = call.from_length = call.letter_length = call.to_length = 4 + more;
                try_judge(&call);
            }
}

static void judge_lengths(void)
{
    static const size_t lengths[] = { 0, 1, 2, 3, 4, 5, 9, 100 };
    for (size_t i = 0; i < sizeof lengths / sizeof *lengths; i++)
        for (size_t j = 0; j < sizeof lengths / sizeof *lengths; j++)
            for (size_t k = 0; k < 4; k++) {
                struct judge_call call = good;
                call.current_length = lengths[i];
                call.next_length = lengths[j];
                call.counts_length = lengths[k + (i + j) % 5];
                try_judge(&call);
            }
    for (size_t which = 0; which < 3; which++)
        for (size_t length = 0; length < 7; length++) {
            struct judge_call call = good;
            *(size_t *[]){ &call.from_length, &call.letter_length, &call.to_length }[which] = length;
            try_judge(&call);
        }
}

/* The header's own count of words is enough, and one less is not. */
static void judge_words(void)
{
    static const uint8_t none[300];
    for (size_t states = 1; states <= sizeof none; states++) {
        struct judge_call call = good;
        call.states = call.accepting_length = states;
        call.accepting = none;
        call.arcs = call.record_length = 0;
        call.current_length = call.next_length = GUMPALERI_WORDS(states);
        if (try_judge(&call) != GUMPALERI_SUCCESS)
            differs("GUMPALERI_WORDS is not enough");
        *(one_in(2) ? &call.current_length : &call.next_length) -= 1;
        if (try_judge(&call) != GUMPALERI_WORK_SHORT)
            differs("GUMPALERI_WORDS is more than is needed");
    }
}

/* Columns that are only read may be the same: here each arc leads back to where it comes from, and the record is its letters. */
static void judge_overlapping(void)
{
    for (size_t length = 0; length <= 4; length++) {
        struct judge_call call = good;
        call.to = call.from;
        call.record = call.letter;
        call.record_length = length;
        try_judge(&call);
    }
}

/* A place that 16 bits do not hold. */
static void judge_long_record(void)
{
    static uint8_t record[70001];
    static const uint16_t state[] = { 0 };
    struct judge_call call = { 1, (const uint8_t *)"\1", 1, 1, state, 1, (const uint8_t *)"a", 1, state, 1,
                               record, sizeof record, 1, 1, 4 };
    memset(record, 'a', sizeof record);
    try_judge(&call);
    record[sizeof record - 1] = 'b';
    try_judge(&call);
}

void judge_aimed(void)
{
    static const char *const records[] = { "", "a", "b", "ab", "ba", "aa", "bb", "abb", "c", "ac" };
    for (size_t i = 0; i < sizeof records / sizeof *records; i++) {
        struct judge_call call = good;
        call.record = (const uint8_t *)records[i];
        call.record_length = strlen(records[i]);
        try_judge(&call);
        call.record_length++; /* byte 0 "never has an arc" */
        try_judge(&call);
    }
    judge_counts();
    judge_lengths();
    judge_words();
    judge_overlapping();
    judge_long_record();
}

/* ---- Columns at the limits */

struct wide {
    uint8_t *accepting;
    uint16_t *from;
    uint8_t *letter;
    uint16_t *to;
};

static void *room(size_t bytes)
{
    void *at = calloc(1, bytes);
    if (!at) {
        fputs("tests/host: out of memory\n", stderr);
        exit(EXIT_FAILURE);
    }
    return at;
}

/* A ring of all the states, by the letter a, gone round as often as there are arcs for it; the last state accepts. */
static struct wide make_ring(size_t states, size_t state_room, size_t arc_room)
{
    struct wide ring = { room(state_room), room(arc_room * sizeof *ring.from), room(arc_room),
                         room(arc_room * sizeof *ring.to) };
    size_t state = 0;
    memset(ring.letter, 'a', arc_room);
    for (size_t arc = 0; arc < arc_room; arc++) {
        ring.from[arc] = (uint16_t)state;
        state = state + 1 < states ? state + 1 : 0;
        ring.to[arc] = (uint16_t)state;
    }
    ring.accepting[states - 1] = 1;
    return ring;
}

static void give_ring_back(struct wide ring)
{
    free(ring.accepting);
    free(ring.from);
    free(ring.letter);
    free(ring.to);
}

static struct judge_call ring_call(struct wide ring, size_t states, size_t state_room, size_t arcs, size_t arc_room)
{
    size_t words = GUMPALERI_WORDS(states);
    return (struct judge_call){ states, ring.accepting, state_room, arcs, ring.from, arc_room, ring.letter, arc_room,
                                ring.to, arc_room, (const uint8_t *)"aab", 2, words, words, 4 };
}

/* "over 65,535" states: with accepting columns of that many and more. */
static void judge_most_states(void)
{
    enum { MOST = 65535 };
    struct wide ring = make_ring(MOST, MOST + 2, MOST + 10);
    for (size_t more = 0; more < 3; more++)
        for (size_t lent = more; lent < 3; lent++)
            for (size_t record = 0; record < 4; record++) {
                struct judge_call call = ring_call(ring, MOST + more, MOST + lent, MOST + record, MOST + 10);
                call.record_length = record;
                try_judge(&call);
                call.current_length = more ? call.current_length : call.current_length - 1;
                try_judge(&call);
            }
    struct judge_call call = ring_call(ring, MOST, MOST, MOST, MOST);
    call.next_length--;
    try_judge(&call);
    ring.to[MOST - 1] = MOST;
    try_judge(&call);
    ring.to[MOST - 1] = MOST - 1;
    ring.from[MOST - 1] = MOST;
    try_judge(&call);
    give_ring_back(ring);
}

/* "over 16,777,216" arcs: 84 MB of columns. */
static void judge_most_arcs(void)
{
    enum { MOST = 16777216 };
    struct wide ring = make_ring(3, 3, MOST + 1);
    struct judge_call call = ring_call(ring, 3, 3, MOST, MOST);
    try_judge(&call);
    call = ring_call(ring, 3, 3, MOST, MOST + 1);
    call.record_length = 3;
    try_judge(&call);
    call.arcs = MOST + 1;
    try_judge(&call);
    call = ring_call(ring, 3, 3, MOST + 1, MOST);
    try_judge(&call);
    call = ring_call(ring, 3, 3, MOST, MOST);
    call.to_length = MOST + 1;
    try_judge(&call);
    ring.letter[MOST] = 0;
    call = ring_call(ring, 3, 3, MOST, MOST + 1);
    call.record_length = 1;
    try_judge(&call);
    ring.letter[MOST - 1] = 0;
    try_judge(&call);
    give_ring_back(ring);
}

void judge_large(void)
{
    judge_most_states();
    judge_most_arcs();
}
