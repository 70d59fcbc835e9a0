/* The automaton of an expression, within lent rooms. */
#ifndef AUTOMATON_H
#define AUTOMATON_H

#include "refusal.h"
#include "trees.h"

struct rooms {
    size_t expressions, states, arcs;
};

/* "Both have rooms of 512 entries, 1,024 expressions, 512 states, 4,096 arcs." */
extern const struct rooms program_rooms;

struct arc {
    size_t from, to;
    unsigned char letter;
};

struct automaton {
    struct tree **states; /* a state is accepting when its tree has the empty word */
    size_t state_count, states_allocated;
    struct arc *arcs;     /* in the order met, so those from one state stand together */
    size_t arc_count, arcs_allocated;
};

/* Builds the automaton of a tree that was read into the forest.  On success the forest holds
   exactly the expressions that 01 counts. */
struct refusal build(struct forest *forest, struct tree *root, struct rooms rooms, struct automaton *automaton);

#endif
