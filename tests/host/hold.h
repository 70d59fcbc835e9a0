/* Holding what a call answered and left against what the second program says. */
#ifndef HOLD_H
#define HOLD_H

#include "../../peer/host.h"

/* The columns that were lent for writing, where the call left its work. */
struct read_lent {
    uint8_t *kind;
    uint16_t *left, *right;
    uint64_t *counts;
};

struct build_lent {
    uint8_t *xkind;
    uint16_t *xleft, *xright, *expression;
    uint8_t *accepting;
    uint16_t *from;
    uint8_t *letter;
    uint16_t *to;
    uint64_t *counts;
};

struct judge_lent {
    uint64_t *current, *next, *counts;
};

void hold_read(const struct read_call *call, const struct read_lent *lent, uint64_t answer);
void hold_build(const struct build_call *call, const struct build_lent *lent, uint64_t answer);
void hold_judge(const struct judge_call *call, const struct judge_lent *lent, uint64_t answer);

#endif
