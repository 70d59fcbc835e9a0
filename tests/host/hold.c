#include "hold.h"

#include <inttypes.h>
#include <string.h>

#include "../../include/gumpaleri.h"
#include "../../peer/memory.h"
#include "tally.h"

/* "Each call returns the refusal's number and place packed into one 64-bit number (number times 2^32 plus place)" */
static void hold_answer(struct told told, uint64_t answer)
{
    uint64_t number = (uint64_t)told.refusal.number, place = told.refusal.place;
    if (answer != (number << 32) + place)
        differs("expected %" PRIu64 " at %" PRIu64 ", answered %" PRIu64 " at %" PRIu64, number, place, answer >> 32,
                answer & UINT32_MAX);
    if (gumpaleri_number(answer) != number || gumpaleri_place(answer) != place)
        differs("the header takes %" PRIu64 " apart wrongly", answer);
}

/* Zero in all that is left of a column. */
static void hold_zero(const char *name, const void *column, size_t first, size_t length, size_t element)
{
    const unsigned char *bytes = column;
    size_t from = first * element, end = length * element;
    /* The same byte as its neighbour all along, and the first is zero; quick for long columns. */
    if (from >= end || (bytes[from] == 0 && memcmp(bytes + from, bytes + from + 1, end - from - 1) == 0))
        return;
    while (bytes[from] == 0)
        from++;
    differs("column %s is not zero at %zu, where it has nothing to say", name, from / element);
}

static void hold8(const char *name, const uint8_t *column, size_t length, const uint8_t *expected, size_t count)
{
    for (size_t i = 0; i < count; i++)
        if (column[i] != expected[i])
            differs("column %s at %zu: expected %u, found %u", name, i, expected[i], column[i]);
    hold_zero(name, column, count, length, sizeof *column);
}

static void hold16(const char *name, const uint16_t *column, size_t length, const uint16_t *expected, size_t count)
{
    for (size_t i = 0; i < count; i++)
        if (column[i] != expected[i])
            differs("column %s at %zu: expected %u, found %u", name, i, expected[i], column[i]);
    hold_zero(name, column, count, length, sizeof *column);
}

/* "with zero in the rest"; a slice of fewer than 4 numbers was refused, and is zero whole. */
static void hold_counts(const struct told *told, const uint64_t *counts, size_t length)
{
    for (size_t i = 0; i < 3 && i < length; i++)
        if (counts[i] != told->counts[i])
            differs("counts at %zu: expected %" PRIu64 ", found %" PRIu64, i, told->counts[i], counts[i]);
    hold_zero("counts", counts, 3, length, sizeof *counts);
}

void hold_read(const struct read_call *call, const struct read_lent *lent, uint64_t answer)
{
    struct read_outcome expected = expect_read(call);
    hold_answer(expected.told, answer);
    hold_counts(&expected.told, lent->counts, call->counts_length);
    hold8("kind", lent->kind, call->kind_length, expected.kind, expected.entries);
    hold16("left", lent->left, call->left_length, expected.left, expected.entries);
    hold16("right", lent->right, call->right_length, expected.right, expected.entries);
}

/* "There the set of trees that the table holds, each once and each child before its parent, and the tree that each state names,
   are determined."  The forest takes no further tree here, so a row that is not one of the expressions has none. */
static void hold_expressions(const struct build_lent *lent, struct build_outcome *expected)
{
    size_t count = expected->forest->count;
    struct tree **trees = zeroed(count * sizeof *trees);
    bool *found = zeroed(count * sizeof *found);
    expected->forest->room = count;
    for (size_t row = 0; row < count; row++) {
        trees[row] = tree_of_row(expected->forest, lent->xkind[row], lent->xleft[row], lent->xright[row], trees, row);
        if (!trees[row])
            differs("expression %zu (%u, %u, %u) is none that is needed", row, lent->xkind[row], lent->xleft[row],
                    lent->xright[row]);
        if (found[trees[row]->number])
            differs("expression %zu stands there a second time", row);
        found[trees[row]->number] = true;
    }
    for (size_t state = 0; state < expected->automaton.state_count; state++)
        if (lent->expression[state] >= count || trees[lent->expression[state]] != expected->automaton.states[state])
            differs("column expression at %zu names the wrong tree, %u", state, lent->expression[state]);
}

void hold_build(const struct build_call *call, const struct build_lent *lent, uint64_t answer)
{
    struct build_outcome expected = expect_build(call);
    size_t states = expected.told.counts[0], expressions = expected.told.counts[1], arcs = expected.told.counts[2];
    hold_answer(expected.told, answer);
    hold_counts(&expected.told, lent->counts, call->counts_length);
    hold8("accepting", lent->accepting, call->accepting_length, expected.accepting, states);
    hold16("from", lent->from, call->from_length, expected.from, arcs);
    hold8("letter", lent->letter, call->letter_length, expected.letter, arcs);
    hold16("to", lent->to, call->to_length, expected.to, arcs);
    hold_zero("xkind", lent->xkind, expressions, call->xkind_length, sizeof *lent->xkind);
    hold_zero("xleft", lent->xleft, expressions, call->xleft_length, sizeof *lent->xleft);
    hold_zero("xright", lent->xright, expressions, call->xright_length, sizeof *lent->xright);
    hold_zero("expression", lent->expression, states, call->expression_length, sizeof *lent->expression);
    if (expected.told.refusal.number == SUCCESS)
        hold_expressions(lent, &expected);
}

void hold_judge(const struct judge_call *call, const struct judge_lent *lent, uint64_t answer)
{
    struct told expected = expect_judge(call);
    hold_answer(expected, answer);
    hold_counts(&expected, lent->counts, call->counts_length);
    hold_zero("current", lent->current, 0, call->current_length, sizeof *lent->current);
    hold_zero("next", lent->next, 0, call->next_length, sizeof *lent->next);
}
