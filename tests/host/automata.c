#include "automata.h"

#include <string.h>

#include "../../include/gumpaleri.h"
#include "../../peer/memory.h"
#include "random.h"
#include "tables.h"

/* Numbers of states about those where another word of the work columns begins. */
static size_t some_states(void)
{
    static const size_t edges[] = { 1, 2, 3, 63, 64, 65, 127, 128, 129, 130 };
    return one_in(2) ? edges[below(sizeof edges / sizeof *edges)] : between(1, one_in(2) ? 8 : 130);
}

void make_machine(struct machine *machine)
{
    uint8_t letters[3] = { (uint8_t)between(1, 255), 255, 1 };
    size_t letter_count = between(1, 3), rare = one_in(4) ? 1 : between(1, 12);
    fill(machine, sizeof *machine);
    machine->states = some_states();
    machine->arcs = one_in(10) ? 0 : below(3 * machine->states + 4);
    for (size_t state = 0; state < machine->states; state++)
        machine->accepting[state] = one_in(rare) && !(rare == 1 && one_in(2));
    for (size_t arc = 0; arc < machine->arcs; arc++) {
        machine->from[arc] = (uint16_t)(one_in(6) ? 0 : below(machine->states));
        machine->letter[arc] = letters[below(letter_count)];
        machine->to[arc] = (uint16_t)(one_in(6) ? machine->states - 1 : below(machine->states));
    }
}

void make_built_machine(struct machine *machine)
{
    struct table table;
    make_table(&table, between(1, 6));
    struct build_call call = call_with(&table, (struct needs){ STATE_ROOM, 65535, ARC_ROOM }, 4);
    struct build_outcome built = expect_build(&call);
    if (built.told.refusal.number != SUCCESS) {
        give_all_back();
        make_machine(machine);
        return;
    }
    fill(machine, sizeof *machine);
    machine->states = built.told.counts[0];
    machine->arcs = built.told.counts[2];
    memcpy(machine->accepting, built.accepting, machine->states);
    memcpy(machine->from, built.from, machine->arcs * sizeof *machine->from);
    memcpy(machine->letter, built.letter, machine->arcs);
    memcpy(machine->to, built.to, machine->arcs * sizeof *machine->to);
    give_all_back();
}

/* An arc that leaves the state, searched from a random one on; the arc count if there is none. */
static size_t some_arc(const struct machine *machine, size_t state)
{
    size_t first = machine->arcs > 0 ? below(machine->arcs) : 0;
    for (size_t i = 0; i < machine->arcs; i++) {
        size_t arc = (first + i) % machine->arcs;
        if (machine->from[arc] == state)
            return arc;
    }
    return machine->arcs;
}

/* Mostly the letters of a way through the automaton, which are then spoilt or not. */
void make_record(struct record *record, const struct machine *machine)
{
    size_t most = one_in(10) ? below(RECORD_ROOM - 1) : below(20);
    record->length = 0;
    for (size_t state = 0, arc; record->length < most; state = machine->to[arc]) {
        arc = some_arc(machine, state);
        if (arc == machine->arcs)
            break;
        record->bytes[record->length++] = machine->letter[arc];
    }
    if (one_in(4) && record->length > 0)
        record->bytes[below(record->length)] = one_in(3) ? 0 : (uint8_t)draw();
    if (one_in(6))
        record->bytes[record->length++] = (uint8_t)draw();
    if (one_in(20)) {
        record->length = below(40);
        fill(record->bytes, record->length);
    }
}

struct judge_call judge_with(const struct machine *machine, const struct record *record, size_t counts)
{
    size_t words = GUMPALERI_WORDS(machine->states);
    return (struct judge_call){
        machine->states, machine->accepting, machine->states, machine->arcs, machine->from, machine->arcs,
        machine->letter, machine->arcs, machine->to, machine->arcs, record->bytes, record->length, words, words, counts,
    };
}
