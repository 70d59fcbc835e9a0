#include "automaton.h"

#include "derivative.h"
#include "memory.h"

const struct rooms program_rooms = { .expressions = 1024, .states = 512, .arcs = 4096 };

/* Gives the tree the next state number unless it has one; false when there is no room. */
static bool number_state(struct automaton *automaton, struct tree *tree, size_t room)
{
    if (tree->is_state)
        return true;
    if (automaton->state_count == room)
        return false;
    if (automaton->state_count == automaton->states_allocated) {
        automaton->states_allocated = automaton->states_allocated ? 2 * automaton->states_allocated : 64;
        automaton->states = grown(automaton->states, automaton->states_allocated * sizeof *automaton->states);
    }
    tree->is_state = true;
    tree->state = automaton->state_count;
    automaton->states[automaton->state_count++] = tree;
    return true;
}

/* Members of one list differ, so each arc added is a new triple. */
static bool add_arc(struct automaton *automaton, struct arc arc, size_t room)
{
    if (automaton->arc_count == room)
        return false;
    if (automaton->arc_count == automaton->arcs_allocated) {
        automaton->arcs_allocated = automaton->arcs_allocated ? 2 * automaton->arcs_allocated : 64;
        automaton->arcs = grown(automaton->arcs, automaton->arcs_allocated * sizeof *automaton->arcs);
    }
    automaton->arcs[automaton->arc_count++] = arc;
    return true;
}

static bool add_members(struct automaton *automaton, size_t from, unsigned char letter,
                        const struct list *members, struct rooms rooms)
{
    for (size_t i = 0; i < members->count; i++) {
        struct tree *member = members->members[i];
        if (!number_state(automaton, member, rooms.states)
            || !add_arc(automaton, (struct arc){ from, member->state, letter }, rooms.arcs))
            return false;
    }
    return true;
}

/* "Expressions: the different trees among the literal empty word, the states, and all parts
   of states."  These are just the trees in the forest: those read are parts of state 0; a
   tree made for a derivative is a member of the list of a state, so a state, or a member of
   the list of a part, which the rules hand on as it is or make a part of a joined member.
   So a tree too many for the forest is a need beyond its room, and needs only grow. */
static bool fits(struct forest *forest, struct tree *root, struct rooms rooms, struct automaton *automaton)
{
    forest->room = rooms.expressions;
    if (forest->count > forest->room || !number_state(automaton, root, rooms.states))
        return false;
    /* "States are handled in number order, letters from 1 to 255 for each, members in list
       order; a new expression gets the next state number." */
    for (size_t from = 0; from < automaton->state_count; from++)
        for (int letter = 1; letter <= 255; letter++) {
            if (!forest->has_letter[letter])
                continue;
            const struct list *members = derivative(forest, automaton->states[from], (unsigned char)letter);
            if (!members || !add_members(automaton, from, (unsigned char)letter, members, rooms))
                return false;
        }
    return true;
}

struct refusal build(struct forest *forest, struct tree *root, struct rooms rooms, struct automaton *automaton)
{
    *automaton = (struct automaton){ 0 };
    if (!fits(forest, root, rooms, automaton))
        return (struct refusal){ ROOM_TOO_SMALL, 0 };
    return (struct refusal){ SUCCESS, 0 };
}
