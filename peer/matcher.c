#include "matcher.h"

#include <string.h>

#include "memory.h"

/* The set of states reached, one flag for each. */
static bool any(const bool *reached, size_t count)
{
    for (size_t state = 0; state < count; state++)
        if (reached[state])
            return true;
    return false;
}

static void step(const struct automaton *automaton, const bool *reached, unsigned char letter, bool *next)
{
    memset(next, 0, automaton->state_count * sizeof *next);
    for (size_t i = 0; i < automaton->arc_count; i++) {
        const struct arc *arc = &automaton->arcs[i];
        if (arc->letter == letter && reached[arc->from])
            next[arc->to] = true;
    }
}

static struct verdict verdict_at_end(const struct automaton *automaton, const bool *reached)
{
    struct verdict verdict = { UNFINISHED, 0 };
    for (size_t state = 0; state < automaton->state_count; state++)
        if (reached[state]) {
            verdict.count++;
            if (automaton->states[state]->has_empty_word)
                verdict.found = ACCEPTED;
        }
    return verdict;
}

struct verdict judge(const struct automaton *automaton, const unsigned char *record, size_t length)
{
    bool *reached = zeroed(automaton->state_count * sizeof *reached);
    bool *next = zeroed(automaton->state_count * sizeof *next);
    reached[0] = true;
    size_t place = 0;
    while (place < length) {
        step(automaton, reached, record[place], next);
        bool *before = reached;
        reached = next;
        next = before;
        if (!any(reached, automaton->state_count))
            break;
        place++;
    }
    struct verdict verdict = place < length ? (struct verdict){ WRONG, place }
                                            : verdict_at_end(automaton, reached);
    give_back(reached);
    give_back(next);
    return verdict;
}
