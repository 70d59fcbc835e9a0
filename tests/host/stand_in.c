/* The three functions answered by the second program.  This tests nothing of the checker: it is for a machine on which the
   archive's code and the address checks cannot run together, to try the harness's own use of memory. */
#include "stand_in.h"

#include <string.h>

#include "../../include/gumpaleri.h"
#include "../../peer/host.h"

#ifndef STAND_IN
#error "only for a harness that says that it runs on the stand-in"
#endif

const char stand_in[] = "a stand-in, the second program itself: NOTHING OF THE ARCHIVE IS TESTED HERE";

static uint64_t answered(const struct told *told, uint64_t *counts, size_t length)
{
    for (size_t i = 0; i < length; i++)
        counts[i] = i < 3 ? told->counts[i] : 0;
    return ((uint64_t)told->refusal.number << 32) + told->refusal.place;
}

/* The first elements of a column, and zero in the rest. */
static void put(void *column, size_t length, const void *first, size_t count, size_t element)
{
    memset(column, 0, length * element);
    if (count > 0)
        memcpy(column, first, count * element);
}

uint64_t gumpaleri_read(const uint8_t *text, size_t text_length, uint8_t *kind, size_t kind_length, uint16_t *left,
                        size_t left_length, uint16_t *right, size_t right_length, uint64_t *counts, size_t counts_length)
{
    struct read_outcome outcome = expect_read(&(struct read_call){ text, text_length, kind_length, left_length,
                                                                   right_length, counts_length });
    put(kind, kind_length, outcome.kind, outcome.entries, sizeof *kind);
    put(left, left_length, outcome.left, outcome.entries, sizeof *left);
    put(right, right_length, outcome.right, outcome.entries, sizeof *right);
    return answered(&outcome.told, counts, counts_length);
}

static void put_expressions(const struct build_outcome *outcome, uint8_t *xkind, uint16_t *xleft, uint16_t *xright,
                            uint16_t *expression)
{
    for (size_t row = 0; row < outcome->told.counts[1]; row++) {
        const struct tree *tree = outcome->forest->trees[row];
        xkind[row] = (uint8_t)tree->kind;
        xleft[row] = tree->left ? (uint16_t)tree->left->number : tree->letter;
        xright[row] = tree->right ? (uint16_t)tree->right->number : 0;
    }
    for (size_t state = 0; state < outcome->told.counts[0]; state++)
        expression[state] = (uint16_t)outcome->automaton.states[state]->number;
}

uint64_t gumpaleri_build(const uint8_t *kind, size_t kind_length, const uint16_t *left, size_t left_length,
                         const uint16_t *right, size_t right_length, uint8_t *xkind, size_t xkind_length, uint16_t *xleft,
                         size_t xleft_length, uint16_t *xright, size_t xright_length, uint16_t *expression,
                         size_t expression_length, uint8_t *accepting, size_t accepting_length, uint16_t *from,
                         size_t from_length, uint8_t *letter, size_t letter_length, uint16_t *to, size_t to_length,
                         uint64_t *counts, size_t counts_length)
{
    struct build_outcome outcome = expect_build(&(struct build_call){
        kind, kind_length, left, left_length, right, right_length, xkind_length, xleft_length, xright_length,
        expression_length, accepting_length, from_length, letter_length, to_length, counts_length });
    put(xkind, xkind_length, NULL, 0, sizeof *xkind);
    put(xleft, xleft_length, NULL, 0, sizeof *xleft);
    put(xright, xright_length, NULL, 0, sizeof *xright);
    put(expression, expression_length, NULL, 0, sizeof *expression);
    put(accepting, accepting_length, outcome.accepting, outcome.told.counts[0], sizeof *accepting);
    put(from, from_length, outcome.from, outcome.told.counts[2], sizeof *from);
    put(letter, letter_length, outcome.letter, outcome.told.counts[2], sizeof *letter);
    put(to, to_length, outcome.to, outcome.told.counts[2], sizeof *to);
    put_expressions(&outcome, xkind, xleft, xright, expression);
    return answered(&outcome.told, counts, counts_length);
}

uint64_t gumpaleri_judge(size_t states, const uint8_t *accepting, size_t accepting_length, size_t arcs, const uint16_t *from,
                         size_t from_length, const uint8_t *letter, size_t letter_length, const uint16_t *to,
                         size_t to_length, const uint8_t *record, size_t record_length, uint64_t *current,
                         size_t current_length, uint64_t *next, size_t next_length, uint64_t *counts, size_t counts_length)
{
    struct told told = expect_judge(&(struct judge_call){
        states, accepting, accepting_length, arcs, from, from_length, letter, letter_length, to, to_length, record,
        record_length, current_length, next_length, counts_length });
    put(current, current_length, NULL, 0, sizeof *current);
    put(next, next_length, NULL, 0, sizeof *next);
    return answered(&told, counts, counts_length);
}
