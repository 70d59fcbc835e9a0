/* The program `records` once more, over the second program's reader and automaton, with the matcher written as ours is:
   the arcs in three columns, the states in 64-bit words, all arcs looked at in table order for each byte
   (crates/matcher/src/moves.rt and bits.rt).  The peer's own matcher keeps a flag of a byte for each state, so a time
   measured against it would compare two ways of keeping states and not two compilations of one. */
#include <stdint.h>
#include <stdio.h>

#include "../peer/expression_line.h"
#include "../peer/lines.h"

enum { STATES = 512, ARCS = 4096, WORDS = STATES / 64 };

struct columns {
    size_t states, arcs;
    uint8_t accepting[STATES];
    uint16_t from[ARCS], to[ARCS];
    uint8_t letter[ARCS];
};

static void fill(struct columns *columns, const struct automaton *automaton)
{
    columns->states = automaton->state_count;
    columns->arcs = automaton->arc_count;
    for (size_t state = 0; state < automaton->state_count; state++)
        columns->accepting[state] = automaton->states[state]->has_empty_word;
    for (size_t i = 0; i < automaton->arc_count; i++) {
        columns->from[i] = (uint16_t)automaton->arcs[i].from;
        columns->letter[i] = automaton->arcs[i].letter;
        columns->to[i] = (uint16_t)automaton->arcs[i].to;
    }
}

static bool marked(const uint64_t *words, size_t state)
{
    return words[state / 64] >> (state % 64) & 1;
}

static void mark(uint64_t *words, size_t state)
{
    words[state / 64] |= (uint64_t)1 << (state % 64);
}

static void spread(const struct columns *columns, unsigned char byte, const uint64_t *current, uint64_t *next)
{
    for (size_t i = 0; i < columns->arcs; i++)
        if (columns->letter[i] == byte && marked(current, columns->from[i]))
            mark(next, columns->to[i]);
}

/* Hands `next` to `current` and clears it; was one of its bits set? */
static bool turn(size_t words, uint64_t *current, uint64_t *next)
{
    bool any = false;
    for (size_t i = 0; i < words; i++) {
        any |= next[i] != 0;
        current[i] = next[i];
        next[i] = 0;
    }
    return any;
}

static void print_end(const struct columns *columns, const uint64_t *current)
{
    size_t live = 0;
    bool accepted = false;
    for (size_t i = 0; i < WORDS; i++)
        live += (size_t)__builtin_popcountll(current[i]);
    for (size_t state = 0; state < columns->states; state++)
        accepted |= marked(current, state) && columns->accepting[state];
    printf("%s %zu\n", accepted ? "accepted" : "unfinished", live);
}

static void judge(const struct columns *columns, const unsigned char *record, size_t length)
{
    uint64_t current[WORDS] = { 1 }, next[WORDS] = { 0 };
    for (size_t place = 0; place < length; place++) {
        spread(columns, record[place], current, next);
        if (!turn((columns->states + 63) / 64, current, next)) {
            printf("wrong %zu\n", place);
            return;
        }
    }
    print_end(columns, current);
}

int main(void)
{
    static struct columns columns;
    struct automaton automaton;
    struct refusal refusal = read_expression_line(stdin, program_rooms, forest_new(), &automaton);
    if (refusal.number != SUCCESS) {
        print_refusal(refusal);
        return written();
    }
    fill(&columns, &automaton);
    struct line line;
    for (read_line(stdin, &line); line.found != NO_LINE; read_line(stdin, &line))
        if (line.found == LONG_LINE) {
            print_refusal((struct refusal){ RECORD_TOO_LONG, 0 });
            pass_over_rest(stdin);
        } else {
            judge(&columns, line.bytes, line.length);
        }
    return written();
}
