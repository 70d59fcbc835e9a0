/* 2026-02, "reader, builder and matcher as exported functions on numbers and slices": what each call must answer and leave, by
   01 and 02 alone.  Of a column that is lent for writing only the length is handed in, since what it held never counts. */
#ifndef HOST_H
#define HOST_H

#include <stdint.h>

#include "automaton.h"
#include "refusal.h"

struct read_call {
    const uint8_t *text;
    size_t text_length;
    size_t kind_length, left_length, right_length;
    size_t counts_length;
};

struct build_call {
    const uint8_t *kind;
    size_t kind_length;
    const uint16_t *left;
    size_t left_length;
    const uint16_t *right;
    size_t right_length;
    size_t xkind_length, xleft_length, xright_length;
    size_t expression_length, accepting_length;
    size_t from_length, letter_length, to_length;
    size_t counts_length;
};

struct judge_call {
    size_t states;
    const uint8_t *accepting;
    size_t accepting_length;
    size_t arcs;
    const uint16_t *from;
    size_t from_length;
    const uint8_t *letter;
    size_t letter_length;
    const uint16_t *to;
    size_t to_length;
    const uint8_t *record;
    size_t record_length;
    size_t current_length, next_length;
    size_t counts_length;
};

/* The first numbers of `counts`, "with zero in the rest".  After a refusal all of them are zero, and every column too. */
struct told {
    struct refusal refusal;
    uint64_t counts[3];
};

/* The columns hold `entries` elements, and zero beyond. */
struct read_outcome {
    struct told told;
    size_t entries;
    uint8_t *kind;
    uint16_t *left, *right;
};

/* States and arcs, and zero beyond.  The expressions are the forest's trees; how they are numbered is open. */
struct build_outcome {
    struct told told;
    struct forest *forest;
    struct automaton automaton;
    uint8_t *accepting;
    uint16_t *from;
    uint8_t *letter;
    uint16_t *to;
};

struct read_outcome expect_read(const struct read_call *call);
struct build_outcome expect_build(const struct build_call *call);

/* The work columns "are zero afterwards" whatever the answer. */
struct told expect_judge(const struct judge_call *call);

/* The forest's tree that a row of an expressions table stands for, the trees of the rows before it being given; NULL when the
   row is not one of 01's, or the forest lacks its tree. */
struct tree *tree_of_row(struct forest *forest, uint8_t kind, uint16_t left, uint16_t right,
                         struct tree *const *before, size_t row);

#endif
