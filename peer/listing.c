/* Reads one expression line and prints its automaton in the AT&T/OpenFst text format. */
#include <stdio.h>

#include "expression_line.h"
#include "lines.h"

static void print_listing(const struct automaton *automaton)
{
    for (size_t i = 0; i < automaton->arc_count; i++) {
        const struct arc *arc = &automaton->arcs[i];
        printf("%zu %zu %d\n", arc->from, arc->to, arc->letter);
    }
    for (size_t state = 0; state < automaton->state_count; state++)
        if (automaton->states[state]->has_empty_word)
            printf("%zu\n", state);
}

int main(void)
{
    /* "nothing after it read": without a buffer no byte after the line is taken. */
    setvbuf(stdin, NULL, _IONBF, 0);
    struct automaton automaton;
    struct refusal refusal = read_expression_line(stdin, program_rooms, forest_new(), &automaton);
    if (refusal.number != SUCCESS)
        print_refusal(refusal);
    else
        print_listing(&automaton);
    return written();
}
