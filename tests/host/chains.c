#include "chains.h"

#include <string.h>

#include "automata.h"
#include "lengths.h"
#include "random.h"
#include "tables.h"
#include "texts.h"
#include "try.h"

/* "a caller who read a text hands on the part of the columns that the reader filled" */
static bool read_table(struct table *table)
{
    struct text text;
    struct read_lent lent;
    make_well_formed(&text, between(1, 7));
    size_t columns = between(20, 40);
    if (try_read(&(struct read_call){ text.bytes, text.length, columns, columns, columns, 4 }, &lent) != SUCCESS)
        return false;
    table->length = lent.counts[0];
    memcpy(table->kind, lent.kind, table->length);
    memcpy(table->left, lent.left, table->length * sizeof *table->left);
    memcpy(table->right, lent.right, table->length * sizeof *table->right);
    return true;
}

static bool build_machine(const struct table *table, struct machine *machine)
{
    struct needs rooms = needs_of(table);
    if (one_in(2))
        rooms = (struct needs){ rooms.states + below(9), rooms.expressions + below(9), rooms.arcs + below(9) };
    struct build_call call = call_with(table, rooms, 4);
    struct build_lent lent;
    if (rooms.states > STATE_ROOM || rooms.arcs > ARC_ROOM || try_build(&call, &lent) != SUCCESS)
        return false;
    machine->states = lent.counts[0];
    machine->arcs = lent.counts[2];
    memcpy(machine->accepting, lent.accepting, machine->states);
    memcpy(machine->from, lent.from, machine->arcs * sizeof *machine->from);
    memcpy(machine->letter, lent.letter, machine->arcs);
    memcpy(machine->to, lent.to, machine->arcs * sizeof *machine->to);
    return true;
}

void chain_random(void)
{
    struct table table;
    struct machine machine;
    struct record record;
    if (!read_table(&table) || !build_machine(&table, &machine))
        return;
    for (size_t times = 3; times > 0; times--) {
        make_record(&record, &machine);
        struct judge_call call = judge_with(&machine, &record, 4);
        try_judge(&call);
    }
}
