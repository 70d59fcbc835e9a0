#include "host.h"

#include <string.h>

#include "lines.h"
#include "memory.h"
#include "reader.h"

/* "23, that slice has fewer than 4 numbers", and 01's limits. */
enum { FEWEST_COUNTS = 4, MOST_EXPRESSIONS = 65535, MOST_STATES = 65535, MOST_ARCS = 16777216, WORD_BITS = 64 };

static size_t smaller(size_t a, size_t b)
{
    return a < b ? a : b;
}

static struct refusal refused(enum refusal_number number, size_t place)
{
    return (struct refusal){ number, place };
}

/* ---- The reader */

/* "`0`, `1` or a letter at its byte, a star at its `*`, a sign's entry at its `)`": the byte of the entry that is one more than
   the room, or the text's length if there are no more.  It holds as far as the text obeys the grammar. */
static size_t entry_too_many(const struct read_call *call, size_t room)
{
    size_t entries = 0;
    for (size_t place = 0; place < call->text_length; place++) {
        unsigned char byte = call->text[place];
        bool letter = (byte >= 'A' && byte <= 'Z') || (byte >= 'a' && byte <= 'z');
        if ((letter || byte == '0' || byte == '1' || byte == '*' || byte == ')') && ++entries > room)
            return place;
    }
    return call->text_length;
}

/* "Reader: 1, 12, then the one of 13, 14, 15 with the earliest byte"; 23 "before all others". */
static struct refusal read_refusal(const struct read_call *call, struct tree **root)
{
    if (call->counts_length < FEWEST_COUNTS)
        return refused(TOO_FEW_COUNTS, 0);
    if (call->kind_length != call->left_length || call->kind_length != call->right_length)
        return refused(COLUMNS_DIFFER, 0);
    if (call->text_length > MOST_BYTES)
        return refused(TEXT_TOO_LONG, 0);
    struct refusal refusal = read_text(forest_new(), call->text, call->text_length, root);
    size_t obeyed = refusal.number == SUCCESS ? call->text_length : refusal.place;
    size_t over = entry_too_many(call, smaller(MOST_ENTRIES, call->kind_length));
    return over < obeyed ? refused(TOO_MANY_ENTRIES, over) : refusal;
}

/* A sign's entry comes at its `)`, so after those of both its parts, and a star's after its part's. */
static uint16_t lay_out(const struct tree *tree, struct read_outcome *outcome)
{
    uint16_t left = tree->left ? lay_out(tree->left, outcome) : tree->letter;
    uint16_t right = tree->right ? lay_out(tree->right, outcome) : 0;
    size_t entry = outcome->entries++;
    outcome->kind[entry] = (uint8_t)tree->kind;
    outcome->left[entry] = left;
    outcome->right[entry] = right;
    return (uint16_t)entry;
}

struct read_outcome expect_read(const struct read_call *call)
{
    struct read_outcome outcome = { 0 };
    struct tree *root;
    outcome.told.refusal = read_refusal(call, &root);
    if (outcome.told.refusal.number != SUCCESS)
        return outcome;
    outcome.kind = zeroed(MOST_ENTRIES * sizeof *outcome.kind);
    outcome.left = zeroed(MOST_ENTRIES * sizeof *outcome.left);
    outcome.right = zeroed(MOST_ENTRIES * sizeof *outcome.right);
    lay_out(root, &outcome);
    outcome.told.counts[0] = outcome.entries;
    return outcome;
}

/* ---- The builder */

/* 01's table of kinds: "a field that should be 0", and "1 to 255". */
static bool field_outside(uint8_t kind, uint16_t left, uint16_t right)
{
    switch (kind) {
    case EMPTY_LANGUAGE:
    case EMPTY_WORD:
        return left != 0 || right != 0;
    case LETTER:
        return left < 1 || left > 255 || right != 0;
    case STAR:
        return right != 0;
    default:
        return false;
    }
}

static bool child_not_smaller(uint8_t kind, uint16_t left, uint16_t right, size_t entry)
{
    return (kind >= UNION && left >= entry) || (kind >= UNION && kind != STAR && right >= entry);
}

/* "entries from 0 upward, each checked for 4, 5, 6, 7" */
static struct refusal entries_refusal(const struct build_call *call)
{
    for (size_t entry = 0; entry < call->kind_length; entry++) {
        uint8_t kind = call->kind[entry];
        uint16_t left = call->left[entry], right = call->right[entry];
        if (kind > STAR)
            return refused(NO_SUCH_KIND, entry);
        if (field_outside(kind, left, right))
            return refused(FIELD_OUTSIDE, entry);
        if (child_not_smaller(kind, left, right, entry))
            return refused(CHILD_NOT_SMALLER, entry);
        if (kind == EMPTY_LANGUAGE && call->kind_length > 1)
            return refused(EMPTY_LANGUAGE_INSIDE, entry);
    }
    return refused(SUCCESS, 0);
}

/* "an entry other than the last not named exactly once; the smallest such" */
static struct refusal names_refusal(const struct build_call *call)
{
    size_t named[MOST_ENTRIES] = { 0 };
    for (size_t entry = 0; entry < call->kind_length; entry++) {
        if (call->kind[entry] >= UNION)
            named[call->left[entry]]++;
        if (call->kind[entry] >= UNION && call->kind[entry] != STAR)
            named[call->right[entry]]++;
    }
    for (size_t entry = 0; entry + 1 < call->kind_length; entry++)
        if (named[entry] != 1)
            return refused(NOT_NAMED_ONCE, entry);
    return refused(SUCCESS, 0);
}

static bool build_columns_differ(const struct build_call *call)
{
    return call->kind_length != call->left_length || call->kind_length != call->right_length
           || call->xkind_length != call->xleft_length || call->xkind_length != call->xright_length
           || call->expression_length != call->accepting_length
           || call->from_length != call->letter_length || call->from_length != call->to_length;
}

/* "Builder: 1, 2, 3, then entries from 0 upward .. then 8" */
static struct refusal table_refusal(const struct build_call *call)
{
    if (call->counts_length < FEWEST_COUNTS)
        return refused(TOO_FEW_COUNTS, 0);
    if (build_columns_differ(call))
        return refused(COLUMNS_DIFFER, 0);
    if (call->kind_length == 0)
        return refused(NO_ENTRY, 0);
    if (call->kind_length > MOST_ENTRIES)
        return refused(OVER_MOST_ENTRIES, 0);
    struct refusal refusal = entries_refusal(call);
    return refusal.number == SUCCESS ? names_refusal(call) : refusal;
}

struct tree *tree_of_row(struct forest *forest, uint8_t kind, uint16_t left, uint16_t right,
                         struct tree *const *before, size_t row)
{
    if (kind > STAR || field_outside(kind, left, right) || child_not_smaller(kind, left, right, row))
        return NULL;
    if (kind < UNION)
        return forest_leaf(forest, kind, (unsigned char)left);
    return forest_node(forest, kind, before[left], kind == STAR ? NULL : before[right]);
}

static void lay_out_automaton(struct build_outcome *outcome)
{
    const struct automaton *automaton = &outcome->automaton;
    outcome->accepting = zeroed(automaton->state_count * sizeof *outcome->accepting);
    for (size_t state = 0; state < automaton->state_count; state++)
        outcome->accepting[state] = automaton->states[state]->has_empty_word;
    outcome->from = zeroed(automaton->arc_count * sizeof *outcome->from);
    outcome->letter = zeroed(automaton->arc_count * sizeof *outcome->letter);
    outcome->to = zeroed(automaton->arc_count * sizeof *outcome->to);
    for (size_t i = 0; i < automaton->arc_count; i++) {
        outcome->from[i] = (uint16_t)automaton->arcs[i].from;
        outcome->letter[i] = automaton->arcs[i].letter;
        outcome->to[i] = (uint16_t)automaton->arcs[i].to;
    }
}

struct build_outcome expect_build(const struct build_call *call)
{
    struct build_outcome outcome = { 0 };
    outcome.told.refusal = table_refusal(call);
    if (outcome.told.refusal.number != SUCCESS)
        return outcome;
    struct tree *trees[MOST_ENTRIES];
    outcome.forest = forest_new();
    for (size_t entry = 0; entry < call->kind_length; entry++)
        trees[entry] = tree_of_row(outcome.forest, call->kind[entry], call->left[entry], call->right[entry], trees, entry);
    /* "Rooms: table length, or 65,535 for expressions and states and 16,777,216 for arcs if that is smaller." */
    struct rooms rooms = { .expressions = smaller(call->xkind_length, MOST_EXPRESSIONS),
                           .states = smaller(call->expression_length, MOST_STATES),
                           .arcs = smaller(call->from_length, MOST_ARCS) };
    outcome.told.refusal = build(outcome.forest, trees[call->kind_length - 1], rooms, &outcome.automaton);
    if (outcome.told.refusal.number != SUCCESS)
        return outcome;
    lay_out_automaton(&outcome);
    outcome.told.counts[0] = outcome.automaton.state_count;
    outcome.told.counts[1] = outcome.forest->count;
    outcome.told.counts[2] = outcome.automaton.arc_count;
    return outcome;
}

/* ---- The matcher, on columns, which need not come from the builder */

/* "a used accepting value is not 0 or 1, a used arc's end is not below the state count, or its letter is 0".  An arc has two
   ends, the state it leaves and the state it leads to. */
static bool no_automaton(const struct judge_call *call)
{
    if (call->states == 0 || call->states > MOST_STATES || call->states > call->accepting_length)
        return true;
    if (call->arcs > call->from_length || call->arcs > MOST_ARCS)
        return true;
    for (size_t state = 0; state < call->states; state++)
        if (call->accepting[state] > 1)
            return true;
    for (size_t arc = 0; arc < call->arcs; arc++)
        if (call->from[arc] >= call->states || call->to[arc] >= call->states || call->letter[arc] == 0)
            return true;
    return false;
}

/* "Matcher: 1, 10, 11." */
static struct refusal judge_refusal(const struct judge_call *call)
{
    if (call->counts_length < FEWEST_COUNTS)
        return refused(TOO_FEW_COUNTS, 0);
    if (call->from_length != call->letter_length || call->from_length != call->to_length)
        return refused(COLUMNS_DIFFER, 0);
    if (no_automaton(call))
        return refused(NO_AUTOMATON, 0);
    size_t words = (call->states + WORD_BITS - 1) / WORD_BITS;
    if (call->current_length < words || call->next_length < words)
        return refused(WORK_TOO_SHORT, 0);
    return refused(SUCCESS, 0);
}

/* Moves the flags of the states reached on by one byte; false when no state is reached after it. */
static bool moved_on(const struct judge_call *call, uint8_t byte, bool *reached, bool *next)
{
    bool any = false;
    memset(next, 0, call->states * sizeof *next);
    for (size_t arc = 0; arc < call->arcs; arc++)
        if (call->letter[arc] == byte && reached[call->from[arc]])
            any = next[call->to[arc]] = true;
    memcpy(reached, next, call->states * sizeof *next);
    return any;
}

/* "accepted", "unfinished" or "wrong at p", as 02 numbers them: 1, 2, 3; then the place, then live. */
static void give_verdict(const struct judge_call *call, uint64_t *counts)
{
    bool *reached = zeroed(call->states * sizeof *reached);
    bool *next = zeroed(call->states * sizeof *next);
    reached[0] = true;
    for (size_t place = 0; place < call->record_length; place++)
        if (!moved_on(call, call->record[place], reached, next)) {
            counts[0] = 3;
            counts[1] = place;
            return;
        }
    counts[0] = 2;
    for (size_t state = 0; state < call->states; state++)
        if (reached[state]) {
            counts[2]++;
            if (call->accepting[state] == 1)
                counts[0] = 1;
        }
}

struct told expect_judge(const struct judge_call *call)
{
    struct told told = { .refusal = judge_refusal(call) };
    if (told.refusal.number == SUCCESS)
        give_verdict(call, told.counts);
    return told;
}
