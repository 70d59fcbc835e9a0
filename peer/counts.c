/* Prints the needs of an expression line, `states expressions arcs`, or its refusal.
   Usage: counts [STATES EXPRESSIONS ARCS]: the rooms, in the order of the needs; without them those of the programs. */
#include <stdio.h>
#include <stdlib.h>

#include "expression_line.h"
#include "memory.h"

/* Marks a tree and all its parts; the number of those not marked before. */
static size_t mark(const struct tree *tree, bool *marked)
{
    if (!tree || marked[tree->number])
        return 0;
    marked[tree->number] = true;
    return 1 + mark(tree->left, marked) + mark(tree->right, marked);
}

/* Counted from 01's sentence alone, as a check on what build says of the forest. */
static size_t count_expressions(const struct forest *forest, const struct automaton *automaton)
{
    bool *marked = zeroed(forest->count * sizeof *marked);
    size_t count = mark(forest->empty_word, marked);
    for (size_t state = 0; state < automaton->state_count; state++)
        count += mark(automaton->states[state], marked);
    return count;
}

int main(int argc, char **argv)
{
    struct rooms rooms = program_rooms;
    if (argc == 4)
        rooms = (struct rooms){ .states = strtoul(argv[1], NULL, 10),
                                .expressions = strtoul(argv[2], NULL, 10),
                                .arcs = strtoul(argv[3], NULL, 10) };
    struct forest *forest = forest_new();
    struct automaton automaton;
    struct refusal refusal = read_expression_line(stdin, rooms, forest, &automaton);
    if (refusal.number != SUCCESS) {
        print_refusal(refusal);
        return EXIT_SUCCESS;
    }
    size_t expressions = count_expressions(forest, &automaton);
    printf("%zu %zu %zu\n", automaton.state_count, expressions, automaton.arc_count);
    if (expressions != forest->count) {
        fprintf(stderr, "the forest holds %zu trees\n", forest->count);
        return EXIT_FAILURE;
    }
    return EXIT_SUCCESS;
}
